/* Calls on one key, one crossing each. Rows and keys are bytes; notices go to events[0] where events is not null. */
#include "seat.h"

#define NOW (uint64_t)now

NATIVE(jbyteArray, get)(CALL, jbyteArray of_key, jobjectArray events) {
    struct seat *seat = seat_of(at);
    struct bytes key;
    uint8_t value[4096];
    size_t len = SIZE_MAX;
    (void)of;
    if (!read_bytes(env, of_key, &key))
        return NULL;
    jc_status status = jc_get_into(ON, NOW, KEY, value, sizeof value, &len);
    drop_bytes(&key);
    if (settle(env, seat, status, NULL, events) != JC_FOUND)
        return NULL;
    return len <= sizeof value ? new_array(env, value, len) : shown_value(env, seat);
}

/* JC_FOUND where there is a row, and nothing is written. */
static jc_status look(struct seat *seat, uint64_t now, const struct bytes *key) {
    uint64_t moment;
    uint8_t none;
    size_t len;
    return jc_peek(ON, now, key->at, key->len, &moment, &none, 0, &len);
}

/* The value of a row that is there, with its access; null where there is none, and nothing is counted. */
NATIVE(jbyteArray, visit)(CALL, jbyteArray of_key) {
    struct seat *seat = seat_of(at);
    struct bytes key;
    if (!read_bytes(env, of_key, &key))
        return NULL;
    jc_status status = look(seat, NOW, &key);
    drop_bytes(&key);
    throw_refusal(env, status);
    return status == JC_FOUND ? Java_jcache_jsr107_Native_get(env, of, at, now, of_key, NULL) : NULL;
}

NATIVE(jbyteArray, peek)(CALL, jbyteArray of_key) {
    struct seat *seat = seat_of(at);
    struct bytes key, value;
    uint64_t moment;
    size_t len = 0;
    jbyteArray array = NULL;
    (void)of;
    if (!read_bytes(env, of_key, &key))
        return NULL;
    make_room(&value, sizeof value.few);
    jc_status status = jc_peek(ON, NOW, KEY, &moment, value.at, value.len, &len);
    if (status == JC_FOUND && len > value.len) {
        status = make_room(&value, len) ? JC_FOUND : JC_OUT_OF_MEMORY;
        if (status == JC_FOUND)
            status = jc_peek(ON, NOW, KEY, &moment, value.at, value.len, &len);
    }
    throw_refusal(env, status);
    if (status == JC_FOUND)
        array = new_array(env, value.at, len);
    drop_bytes(&key);
    drop_bytes(&value);
    return array;
}

NATIVE(jboolean, contains)(CALL, jbyteArray of_key) {
    struct seat *seat = seat_of(at);
    struct bytes key;
    (void)of;
    if (!read_bytes(env, of_key, &key))
        return 0;
    jc_status status = look(seat, NOW, &key);
    drop_bytes(&key);
    throw_refusal(env, status);
    return status == JC_FOUND;
}

/* `which`: put, put if absent, replace. Whether it was stored. */
NATIVE(jboolean, store)(CALL, jint which, jbyteArray of_key, jbyteArray row, jobjectArray events) {
    static jc_status (*const calls[])(struct jc_manager *, uint32_t, uint64_t, const uint8_t *, size_t, const uint8_t *,
                                      size_t) = {jc_put, jc_put_if_absent, jc_replace};
    struct seat *seat = seat_of(at);
    struct bytes key, value;
    jc_status status = JC_FALSE;
    (void)of;
    if (!read_bytes(env, of_key, &key))
        return 0;
    if (read_bytes(env, row, &value)) {
        status = settle(env, seat, calls[which](ON, NOW, KEY, value.at, value.len), NULL, events);
        drop_bytes(&value);
    }
    drop_bytes(&key);
    return status == JC_DONE || status == JC_TRUE;
}

/* `which`: put, replace, and without a row remove. The row before. */
NATIVE(jbyteArray, getAnd)(CALL, jint which, jbyteArray of_key, jbyteArray row, jobjectArray events) {
    struct seat *seat = seat_of(at);
    struct bytes key, value;
    jc_status status = JC_NOTHING;
    (void)of;
    if (!read_bytes(env, of_key, &key))
        return NULL;
    if (read_bytes(env, row, &value)) {
        status = which == 2   ? jc_get_and_remove(ON, NOW, KEY)
                 : which == 1 ? jc_get_and_replace(ON, NOW, KEY, value.at, value.len)
                              : jc_get_and_put(ON, NOW, KEY, value.at, value.len);
        status = settle(env, seat, status, NULL, events);
        drop_bytes(&value);
    }
    drop_bytes(&key);
    return status == JC_FOUND ? shown_value(env, seat) : NULL;
}

NATIVE(jboolean, remove)(CALL, jbyteArray of_key, jobjectArray events) {
    struct seat *seat = seat_of(at);
    struct bytes key;
    (void)of;
    if (!read_bytes(env, of_key, &key))
        return 0;
    jc_status status = settle(env, seat, jc_remove(ON, NOW, KEY), NULL, events);
    drop_bytes(&key);
    return status == JC_TRUE;
}

/* Where the row is `seen`: replaces it by `row`, or removes it where that is null. Whether it did. */
NATIVE(jboolean, exchange)(CALL, jbyteArray of_key, jbyteArray seen, jbyteArray row, jobjectArray events) {
    struct seat *seat = seat_of(at);
    struct bytes key, expected, value;
    jc_status status = JC_FALSE;
    (void)of;
    if (!read_bytes(env, of_key, &key))
        return 0;
    if (read_bytes(env, seen, &expected)) {
        if (read_bytes(env, row, &value)) {
            status = row ? jc_replace_if(ON, NOW, KEY, expected.at, expected.len, value.at, value.len)
                         : jc_remove_if(ON, NOW, KEY, expected.at, expected.len);
            status = settle(env, seat, status, NULL, events);
            drop_bytes(&value);
        }
        drop_bytes(&expected);
    }
    drop_bytes(&key);
    return status == JC_TRUE;
}

/* Stores what was loaded, also in place of a row where `replace` is true; of null only an expired row goes. */
NATIVE(void, load)(CALL, jbyteArray of_key, jbyteArray row, jboolean replace, jobjectArray events) {
    struct seat *seat = seat_of(at);
    struct bytes key, value;
    (void)of;
    if (!read_bytes(env, of_key, &key))
        return;
    if (read_bytes(env, row, &value)) {
        uint32_t len = (uint32_t)key.len;
        struct answers answers = {row ? &value : NULL, NULL, JC_KEEP};
        settle(env, seat, jc_load_all(ON, NOW, &len, 1, KEY, replace), &answers, events);
        drop_bytes(&value);
    }
    drop_bytes(&key);
}

/* What a processor does to its entry: `action`, with the row that it sets. */
NATIVE(void, process)(CALL, jbyteArray of_key, jint action, jbyteArray row, jobjectArray events) {
    struct seat *seat = seat_of(at);
    struct bytes key, value;
    (void)of;
    if (!read_bytes(env, of_key, &key))
        return;
    if (read_bytes(env, row, &value)) {
        struct answers answers = {NULL, &value, (uint32_t)action};
        settle(env, seat, jc_invoke(ON, NOW, KEY, 0, JC_EMPTY), &answers, events);
        drop_bytes(&value);
    }
    drop_bytes(&key);
}
