/* Seats, bytes, and what a call asks. */
#include "seat.h"

struct seat *seat_of(jlong at) {
    struct seat *seat = (struct seat *)(intptr_t)at;
    account = &seat->bytes;
    return seat;
}

int make_room(struct bytes *bytes, size_t len) {
    bytes->len = len;
    bytes->at = len <= sizeof bytes->few ? bytes->few : malloc(len);
    return bytes->at != NULL;
}

int read_bytes(JNIEnv *env, jbyteArray array, struct bytes *to) {
    if (!make_room(to, array ? (size_t)(*env)->GetArrayLength(env, array) : 0)) {
        throw_refusal(env, JC_OUT_OF_MEMORY);
        return 0;
    }
    if (to->len)
        (*env)->GetByteArrayRegion(env, array, 0, (jsize)to->len, (jbyte *)to->at);
    return 1;
}

void drop_bytes(struct bytes *bytes) {
    if (bytes->at != bytes->few)
        free(bytes->at);
}

jbyteArray new_array(JNIEnv *env, const uint8_t *at, size_t len) {
    jbyteArray array = (*env)->ExceptionCheck(env) ? NULL : (*env)->NewByteArray(env, (jsize)len);
    if (array)
        (*env)->SetByteArrayRegion(env, array, 0, (jsize)len, (const jbyte *)at);
    return array;
}

jbyteArray shown_value(JNIEnv *env, struct seat *seat) {
    struct bytes value;
    uint8_t none;
    size_t len = 0;
    jbyteArray array = NULL;
    jc_value(ON, 0, &none, 0, &len);
    if (!make_room(&value, len)) {
        throw_refusal(env, JC_OUT_OF_MEMORY);
        return NULL;
    }
    if (jc_value(ON, 0, value.at, value.len, &len) == JC_DONE)
        array = new_array(env, value.at, len);
    drop_bytes(&value);
    return array;
}

void throw_refusal(JNIEnv *env, jc_status status) {
    if (status < JC_NO_SUCH_CACHE || (*env)->ExceptionCheck(env))
        return;
    jclass type = (*env)->FindClass(env, "jcache/jsr107/Refused");
    jmethodID made = type ? (*env)->GetMethodID(env, type, "<init>", "(I)V") : NULL;
    jobject refused = made ? (*env)->NewObject(env, type, made, (jint)status) : NULL;
    if (refused)
        (*env)->Throw(env, (jthrowable)refused);
}

/* Appends a part of a notice with its length before it; at null it only counts. Whether there is such a part. */
static int append(struct seat *seat, jc_status (*part)(struct jc_manager *, uint32_t, size_t, uint8_t *, size_t, size_t *),
                  size_t item, uint8_t *to, size_t *used) {
    uint8_t none;
    size_t len = 0;
    if (part(ON, item, &none, 0, &len) == JC_NO_ITEM)
        return 0;
    if (to) {
        for (int i = 0; i < 4; i++)
            to[*used + (size_t)i] = (uint8_t)(len >> (8 * i));
        part(ON, item, to + *used + 4, len, &len);
    }
    *used += 4 + len;
    return 1;
}

/* Each notice: its kind, whether it has a value (1) and a value before (2), then key, value and value before, each with
 * its length before it. At null it only counts the bytes. */
static size_t write_notices(struct seat *seat, size_t count, uint8_t *to) {
    size_t used = 0;
    for (size_t item = 0; item < count; item++) {
        uint64_t kind = 0;
        size_t head = used;
        jc_number(ON, item, &kind);
        used += 2;
        append(seat, jc_key, item, to, &used);
        int has_value = append(seat, jc_value, item, to, &used), has_before = append(seat, jc_before, item, to, &used);
        if (to) {
            to[head] = (uint8_t)kind;
            to[head + 1] = (uint8_t)(has_value | has_before << 1);
        }
    }
    return used;
}

static void hand_over(JNIEnv *env, struct seat *seat, jobjectArray events) {
    struct bytes notices;
    size_t count = 0;
    if (!events || (*env)->ExceptionCheck(env))
        return;
    jc_items(ON, &count);
    if (!count)
        return;
    if (!make_room(&notices, write_notices(seat, count, NULL))) {
        throw_refusal(env, JC_OUT_OF_MEMORY);
        return;
    }
    write_notices(seat, count, notices.at);
    jbyteArray array = new_array(env, notices.at, notices.len);
    drop_bytes(&notices);
    if (array)
        (*env)->SetObjectArrayElement(env, events, 0, array);
}

static jc_status answer(struct seat *seat, jc_status status, const struct answers *answers) {
    const struct bytes *loaded = answers ? answers->loaded : NULL, *value = answers ? answers->value : NULL;
    if (status == JC_NEED_LOAD)
        return loaded ? jc_loaded(ON, loaded->at, loaded->len) : jc_loaded_nothing(ON);
    return jc_processed(ON, answers->action, value->at, value->len, 0, JC_EMPTY);
}

jc_status settle(JNIEnv *env, struct seat *seat, jc_status status, const struct answers *answers, jobjectArray events) {
    while (status >= JC_NEED_LOAD && status <= JC_NEED_TELL) {
        if (status == JC_NEED_TELL) {
            hand_over(env, seat, events);
            status = jc_told(ON);
        } else
            status = answer(seat, status, answers);
    }
    if (status >= JC_NO_SUCH_CACHE) {
        if (jc_give_up(ON) == JC_DONE)
            hand_over(env, seat, events);
        throw_refusal(env, status);
    }
    return status;
}
