/* Stands between a program and the library: in each call that takes memory, the first allocation is refused, then the
 * second, and so on, until the call ends as if nothing had been; a refused call must have changed nothing. Linked with
 * `-Wl,--wrap` for the functions named here, and for malloc and realloc. */
#include "jcache.h"
#include <stdio.h>
#include <stdlib.h>

void *__real_malloc(size_t size);
void *__real_realloc(void *at, size_t size);
void *__wrap_malloc(size_t size);
void *__wrap_realloc(void *at, size_t size);

/* Which allocation from now on is refused; none where it is 0. And how many were. */
static size_t next, refused;

static int refuses(void) { return next && --next == 0 && ++refused; }

void *__wrap_malloc(size_t size) { return refuses() ? NULL : __real_malloc(size); }
void *__wrap_realloc(void *at, size_t size) { return refuses() ? NULL : __real_realloc(at, size); }

static void fail(const char *call, const char *what) {
    fprintf(stderr, "refusing.c: %s %s\n", call, what);
    exit(1);
}

/* Want of memory is told only where an allocation was refused. */
static int is_again(const char *call, jc_status status, size_t before) {
    next = 0;
    if (status == JC_OUT_OF_MEMORY && refused == before)
        fail(call, "tells want of memory, and none was refused");
    return status == JC_OUT_OF_MEMORY;
}

#define IN_TURN(name, parameters, arguments)                                                                          \
    jc_status __real_##name parameters;                                                                               \
    jc_status __wrap_##name parameters;                                                                               \
    jc_status __wrap_##name parameters {                                                                              \
        for (size_t turn = 1;; turn++) {                                                                              \
            size_t before = refused;                                                                                  \
            next = turn;                                                                                              \
            jc_status status = __real_##name arguments;                                                               \
            if (!is_again(#name, status, before))                                                                     \
                return status;                                                                                        \
        }                                                                                                             \
    }

/* A call that takes no memory, or that goes on without it. */
#define NEVER(name, parameters, arguments)                                                                            \
    jc_status __real_##name parameters;                                                                               \
    jc_status __wrap_##name parameters;                                                                               \
    jc_status __wrap_##name parameters {                                                                              \
        next = 1;                                                                                                     \
        jc_status status = __real_##name arguments;                                                                   \
        next = 0;                                                                                                     \
        if (status == JC_OUT_OF_MEMORY)                                                                               \
            fail(#name, "tells want of memory");                                                                      \
        return status;                                                                                                \
    }

#define M struct jc_manager *m
#define ON M, uint32_t id
#define AT ON, uint64_t now
#define KEY AT, const uint8_t *key, size_t key_len
#define PAIR KEY, const uint8_t *value, size_t value_len
#define KEYS AT, const uint32_t *lengths, size_t count, const uint8_t *keys, size_t keys_len
#define ARGUMENT uint8_t processor, const uint8_t *argument, size_t argument_len

IN_TURN(jc_open, (M, uint64_t seed), (m, seed))
IN_TURN(jc_create,
        (M, const uint8_t *name, size_t name_len, const struct jc_settings *settings, const uint8_t *wants,
         size_t wants_len, uint32_t *id),
        (m, name, name_len, settings, wants, wants_len, id))
NEVER(jc_destroy, (ON), (m, id))
NEVER(jc_save, (ON, uint8_t *out, size_t room, size_t *len), (m, id, out, room, len))
IN_TURN(jc_restore,
        (M, const uint8_t *name, size_t name_len, const uint8_t *bytes, size_t len, uint32_t max_value, uint32_t *id,
         size_t *place),
        (m, name, name_len, bytes, len, max_value, id, place))
IN_TURN(jc_get, (KEY), (m, id, now, key, key_len))
NEVER(jc_contains, (KEY), (m, id, now, key, key_len))
IN_TURN(jc_put, (PAIR), (m, id, now, key, key_len, value, value_len))
IN_TURN(jc_get_and_put, (PAIR), (m, id, now, key, key_len, value, value_len))
IN_TURN(jc_put_if_absent, (PAIR), (m, id, now, key, key_len, value, value_len))
IN_TURN(jc_replace, (PAIR), (m, id, now, key, key_len, value, value_len))
IN_TURN(jc_replace_if, (PAIR, const uint8_t *other, size_t other_len),
        (m, id, now, key, key_len, value, value_len, other, other_len))
IN_TURN(jc_get_and_replace, (PAIR), (m, id, now, key, key_len, value, value_len))
IN_TURN(jc_remove, (KEY), (m, id, now, key, key_len))
IN_TURN(jc_remove_if, (PAIR), (m, id, now, key, key_len, value, value_len))
IN_TURN(jc_get_and_remove, (KEY), (m, id, now, key, key_len))
IN_TURN(jc_invoke, (KEY, ARGUMENT), (m, id, now, key, key_len, processor, argument, argument_len))
IN_TURN(jc_get_all, (KEYS), (m, id, now, lengths, count, keys, keys_len))
IN_TURN(jc_put_all,
        (AT, const struct jc_pair_lengths *lengths, size_t count, const uint8_t *pairs, size_t pairs_len),
        (m, id, now, lengths, count, pairs, pairs_len))
IN_TURN(jc_remove_keys, (KEYS), (m, id, now, lengths, count, keys, keys_len))
IN_TURN(jc_load_all, (KEYS, uint32_t replace), (m, id, now, lengths, count, keys, keys_len, replace))
IN_TURN(jc_invoke_all, (KEYS, ARGUMENT),
        (m, id, now, lengths, count, keys, keys_len, processor, argument, argument_len))
IN_TURN(jc_remove_all, (AT), (m, id, now))
NEVER(jc_clear, (AT), (m, id, now))
IN_TURN(jc_entries, (AT), (m, id, now))
NEVER(jc_stats, (AT), (m, id, now))
NEVER(jc_clear_stats, (AT), (m, id, now))
IN_TURN(jc_loaded, (ON, const uint8_t *value, size_t value_len), (m, id, value, value_len))
IN_TURN(jc_loaded_nothing, (ON), (m, id))
IN_TURN(jc_load_failed, (ON), (m, id))
IN_TURN(jc_written, (ON), (m, id))
IN_TURN(jc_write_failed, (ON), (m, id))
IN_TURN(jc_processed,
        (ON, uint32_t action, const uint8_t *value, size_t value_len, uint32_t answers, const uint8_t *answer,
         size_t answer_len),
        (m, id, action, value, value_len, answers, answer, answer_len))
IN_TURN(jc_process_failed, (ON), (m, id))
NEVER(jc_told, (ON), (m, id))
NEVER(jc_give_up, (ON), (m, id))

jc_status __real_jc_close(M);
jc_status __wrap_jc_close(M);
jc_status __wrap_jc_close(M) {
    if (!refused)
        fail("jc_close", "ends a run in which nothing was refused");
    return __real_jc_close(m);
}
