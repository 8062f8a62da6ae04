/* What the natives of `jcache.jsr107.Native` share: a seat is one manager with one cache, and what its bytes come to. */
#ifndef SEAT_H
#define SEAT_H

#include "jcache.h"
#include <jni.h>
#include <stdlib.h>

struct seat {
    struct jc_manager manager;
    struct jc_settings settings; /* of the cache */
    uint32_t id;
    int64_t bytes; /* what the manager has allocated */
};

/* The bytes that are allocated and freed from now on are counted here, by this thread; nowhere where it is null. */
extern __thread int64_t *account;

/* The bytes of an array of Java's, or of a part that is shown: few stand here, more are allocated. */
struct bytes {
    uint8_t few[2048];
    uint8_t *at;
    size_t len;
};

/* What a request is answered with: what was loaded, or what a processor does to its entry. */
struct answers {
    const struct bytes *loaded, *value;
    uint32_t action;
};

#define NATIVE(type, name) JNIEXPORT type JNICALL Java_jcache_jsr107_Native_##name
#define CALL JNIEnv *env, jclass of, jlong at, jlong now
#define ON &seat->manager, seat->id
#define KEY key.at, key.len

/* The seat of a handle, to which this thread's allocations are counted now. */
struct seat *seat_of(jlong at);
/* Makes room for so many bytes; false where there is no memory. */
int make_room(struct bytes *bytes, size_t len);
/* Reads an array of Java's, null being none of bytes; false where there is no memory, and then it is thrown. */
int read_bytes(JNIEnv *env, jbyteArray array, struct bytes *to);
void drop_bytes(struct bytes *bytes);
/* A new array of Java's, or null where that is thrown. */
jbyteArray new_array(JNIEnv *env, const uint8_t *at, size_t len);
/* The value that is shown, or null where something is thrown. */
jbyteArray shown_value(JNIEnv *env, struct seat *seat);
/* Throws what is refused, where it is and nothing else is thrown. */
void throw_refusal(JNIEnv *env, jc_status status);
/* Answers all that a call asks, and writes its notices to events[0] where they are wanted. The reply, or a refusal: then
 * it is thrown, and no call is open. */
jc_status settle(JNIEnv *env, struct seat *seat, jc_status status, const struct answers *answers, jobjectArray events);

#endif
