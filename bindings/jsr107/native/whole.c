/* A seat from its beginning to its end, and calls on many keys and on all. */
#include "seat.h"

/* The one processor is handed in with its answer, and wants no value. */
static const uint8_t wants[] = {0};

enum { MOST_KEYS = 64, ROOM_OF_WALK = 65609 };

#define NOW (uint64_t)now

static jlong open_seat(struct seat *seat, const uint8_t secret[16], jc_status *status) {
    account = &seat->bytes;
    *status = jc_open_secret(&seat->manager, secret);
    if (*status == JC_DONE)
        *status = jc_create(&seat->manager, JC_TEXT("cache"), &seat->settings, wants, sizeof wants, &seat->id);
    if (*status == JC_DONE)
        return (jlong)(intptr_t)seat;
    jc_close(&seat->manager);
    account = NULL;
    free(seat);
    return 0;
}

NATIVE(jlong, open)(JNIEnv *env, jclass of, jbyteArray of_secret, jint capacity, jint policy, jlong duration, jboolean loads,
                    jboolean listens) {
    struct seat *seat = calloc(1, sizeof *seat);
    jc_status status = JC_OUT_OF_MEMORY;
    jbyte secret[16];
    jlong at = 0;
    (void)of;
    if (seat) {
        (*env)->GetByteArrayRegion(env, of_secret, 0, sizeof secret, secret);
        seat->settings = (struct jc_settings){.duration = (uint64_t)duration, .capacity = (uint32_t)capacity,
                                              .policy = (uint32_t)policy, .loader = loads, .listeners = listens};
        at = open_seat(seat, (const uint8_t *)secret, &status);
    }
    throw_refusal(env, status);
    return at;
}

NATIVE(void, close)(JNIEnv *env, jclass of, jlong at) {
    struct seat *seat = seat_of(at);
    (void)env, (void)of;
    jc_close(&seat->manager);
    account = NULL;
    free(seat);
}

/* Puts the rows of a walk into another cache: each is put at the moment from which it expires when it does here. */
static jc_status copy_rows(JNIEnv *env, struct seat *seat, uint64_t duration, const uint8_t *rows, size_t len) {
    jc_status status = JC_DONE;
    for (size_t at = 0; at < len && status == JC_DONE;) {
        uint64_t moment = 0;
        size_t key_len = rows[at + 8], value_len = rows[at + 9] | (size_t)rows[at + 10] << 8;
        for (int i = 8; i--;)
            moment = moment << 8 | rows[at + (size_t)i];
        const uint8_t *key = rows + at + 11;
        uint64_t now = moment == JC_NEVER ? UINT64_MAX : moment - duration;
        status = settle(env, seat, jc_put(ON, now, key, key_len, key + key_len, value_len), NULL, NULL);
        at += 11 + key_len + value_len;
    }
    return status;
}

/* Fills the seat's new cache from its old one, whose place it takes. */
static jc_status move_rows(JNIEnv *env, struct seat *seat, uint32_t to, uint8_t *buffer) {
    uint32_t from = seat->id, row = 0;
    size_t len;
    jc_status status = JC_DONE;
    seat->id = to;
    while (status == JC_DONE && jc_walk(&seat->manager, from, row, buffer, ROOM_OF_WALK, &len, &row) == JC_LISTED)
        status = copy_rows(env, seat, seat->settings.duration, buffer, len);
    if (status == JC_DONE)
        status = jc_clear_stats(ON, 0);
    jc_destroy(&seat->manager, status == JC_DONE ? from : to);
    seat->id = status == JC_DONE ? to : from;
    return status;
}

/* Makes a cache that tells of what happens out of one that does not: its rows stay, its counters begin at zero. */
NATIVE(void, listen)(JNIEnv *env, jclass of, jlong at) {
    struct seat *seat = seat_of(at);
    uint32_t to;
    (void)of;
    seat->settings.listeners = 1;
    jc_status status = jc_create(&seat->manager, JC_TEXT("listening"), &seat->settings, wants, sizeof wants, &to);
    uint8_t *buffer = malloc(ROOM_OF_WALK);
    if (status == JC_DONE && !buffer) {
        jc_destroy(&seat->manager, to);
        status = JC_OUT_OF_MEMORY;
    }
    if (status == JC_DONE)
        status = move_rows(env, seat, to, buffer);
    free(buffer);
    throw_refusal(env, status);
}

/* The pairs that are shown: of each 1 byte for its key's length, 2 for its value's, little endian, then both. */
static size_t write_pairs(struct seat *seat, size_t count, uint8_t *to) {
    size_t used = 0, key_len = 0, value_len = 0;
    uint8_t none;
    for (size_t item = 0; item < count; item++) {
        jc_key(ON, item, &none, 0, &key_len);
        jc_value(ON, item, &none, 0, &value_len);
        if (to) {
            to[used] = (uint8_t)key_len, to[used + 1] = (uint8_t)value_len, to[used + 2] = (uint8_t)(value_len >> 8);
            jc_key(ON, item, to + used + 3, key_len, &key_len);
            jc_value(ON, item, to + used + 3 + key_len, value_len, &value_len);
        }
        used += 3 + key_len + value_len;
    }
    return used;
}

static jbyteArray shown_pairs(JNIEnv *env, struct seat *seat) {
    struct bytes pairs;
    size_t count = 0;
    jc_items(ON, &count);
    if (!make_room(&pairs, write_pairs(seat, count, NULL))) {
        throw_refusal(env, JC_OUT_OF_MEMORY);
        return NULL;
    }
    write_pairs(seat, count, pairs.at);
    jbyteArray array = new_array(env, pairs.at, pairs.len);
    drop_bytes(&pairs);
    return array;
}

/* `which`: get all, remove keys, put all, of which the lengths are those of key and value in turn. The pairs found. */
NATIVE(jbyteArray, many)(CALL, jint which, jintArray of_lengths, jbyteArray all, jobjectArray events) {
    struct seat *seat = seat_of(at);
    struct bytes key;
    jint lengths[2 * MOST_KEYS];
    struct jc_pair_lengths pairs[MOST_KEYS];
    jsize count = (*env)->GetArrayLength(env, of_lengths);
    jc_status status;
    (void)of;
    (*env)->GetIntArrayRegion(env, of_lengths, 0, count, lengths);
    if ((*env)->ExceptionCheck(env) || !read_bytes(env, all, &key))
        return NULL;
    for (jsize i = 0; i < count; i += 2)
        pairs[i / 2] = (struct jc_pair_lengths){(uint32_t)lengths[i], which == 2 ? (uint32_t)lengths[i + 1] : 0};
    if (which == 2)
        status = jc_put_all(ON, NOW, pairs, (size_t)count / 2, KEY);
    else
        status = (which ? jc_remove_keys : jc_get_all)(ON, NOW, (const uint32_t *)lengths, (size_t)count, KEY);
    status = settle(env, seat, status, NULL, events);
    drop_bytes(&key);
    return status == JC_LISTED ? shown_pairs(env, seat) : NULL;
}

NATIVE(void, removeAll)(CALL, jobjectArray events) {
    struct seat *seat = seat_of(at);
    (void)of;
    settle(env, seat, jc_remove_all(ON, NOW), NULL, events);
}

NATIVE(void, clear)(CALL) {
    struct seat *seat = seat_of(at);
    (void)of;
    throw_refusal(env, jc_clear(ON, NOW));
}

NATIVE(jint, rows)(JNIEnv *env, jclass of, jlong at) {
    struct seat *seat = seat_of(at);
    size_t rows = 0;
    (void)of;
    throw_refusal(env, jc_rows(ON, &rows));
    return (jint)rows;
}

NATIVE(jlong, bytes)(JNIEnv *env, jclass of, jlong at) {
    (void)env, (void)of;
    return seat_of(at)->bytes;
}

/* Hits, misses, puts, removals, evictions. */
NATIVE(void, statistics)(CALL, jlongArray to) {
    struct seat *seat = seat_of(at);
    uint64_t counters[5] = {0};
    (void)of;
    throw_refusal(env, jc_stats(ON, NOW));
    for (size_t i = 0; i < 5; i++)
        jc_number(ON, i, &counters[i]);
    if (!(*env)->ExceptionCheck(env))
        (*env)->SetLongArrayRegion(env, to, 0, 5, (const jlong *)counters);
}

/* Rows from a number on, as jc_walk gives them, and in next[0] where to go on; null behind the last. */
NATIVE(jbyteArray, walk)(JNIEnv *env, jclass of, jlong at, jint from, jintArray next) {
    struct seat *seat = seat_of(at);
    uint8_t *rows = malloc(ROOM_OF_WALK);
    uint32_t after = 0;
    size_t len = 0;
    jbyteArray array = NULL;
    (void)of;
    jc_status status = rows ? jc_walk(ON, (uint32_t)from, rows, ROOM_OF_WALK, &len, &after) : JC_OUT_OF_MEMORY;
    throw_refusal(env, status);
    if (status == JC_LISTED)
        array = new_array(env, rows, len);
    if (array)
        (*env)->SetIntArrayRegion(env, next, 0, 1, (const jint *)&after);
    free(rows);
    return array;
}
