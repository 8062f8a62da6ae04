/* jcache.h: a manager of named caches with JCache's behaviour (JSR 107), as C calls it.
 *
 * An example, which prints "Ann Lee". docs/C.md says how to build it.
 *
 *     #include "jcache.h"
 *     #include <stdio.h>
 *
 *     int main(void) {
 *         struct jc_manager m = {0};
 *         struct jc_settings settings = {.capacity = 100, .policy = JC_CREATED, .duration = 60000, .loader = 1};
 *         uint32_t users;
 *         uint8_t text[64];
 *         size_t len;
 *         if (jc_open(&m, 7) != JC_DONE || jc_create(&m, JC_TEXT("users"), &settings, JC_EMPTY, &users) != JC_DONE)
 *             return 1;
 *         jc_status status = jc_get(&m, users, 0, JC_TEXT("ann"));
 *         if (status == JC_NEED_LOAD)
 *             status = jc_loaded(&m, users, JC_TEXT("Ann Lee"));
 *         if (status == JC_FOUND && jc_value(&m, users, 0, text, sizeof text, &len) == JC_DONE)
 *             printf("%.*s\n", (int)len, (const char *)text);
 *         return jc_close(&m) != JC_DONE;
 *     }
 *
 * How a call goes. jc_get and its kin begin a call on one cache. Its status is a reply (JC_DONE to JC_PROCESSOR_FAILED),
 * a request (JC_NEED_LOAD to JC_NEED_TELL), or a refusal (all others). After a request the call is open: read what it
 * asks by jc_key and its kin, do it, and answer with the function named beside the request below; that status is again
 * a reply, a request or a refusal. A cache has one open call at a time. Calls of several caches may be open at once.
 * A refused call or answer changes nothing at all: do what is amiss and call again.
 *
 * What is shown. Of each live cache the manager keeps the outcome of the last call, answer or give-up that was not
 * refused, until the next one on that cache. It is a list of items, each with some of four parts, and a list of numbers:
 *
 *     JC_FOUND           1 item: value
 *     JC_LISTED          an item a pair: key, value
 *     JC_RESULTS         an item a key that a processor answered, or on which it failed: key, value (none: it failed)
 *     JC_COUNTED         5 numbers: hits, misses, puts, removals, evictions
 *     JC_LOADER_FAILED, JC_WRITER_FAILED    of a call on many keys 1 number: how many keys were done before
 *     JC_NEED_LOAD       1 item: key
 *     JC_NEED_WRITE      1 item: key, value
 *     JC_NEED_DELETE     1 item: key
 *     JC_NEED_PROCESS    1 item: key, value (the live or loaded one, if any), argument; 1 number: the processor
 *     JC_NEED_TELL       an item a notice: key, value (created, updated), before (updated, removed, expired);
 *                        a number a notice: its kind, JC_CREATED_ROW to JC_EXPIRED_ROW
 *     jc_give_up         the notices that no one was told, as of JC_NEED_TELL
 *
 * Who owns what. The library copies all that it keeps: buffers that are passed stay the caller's, and may go when the
 * call returns. What it shows is copied into the caller's buffers. It takes memory by malloc and frees all of it in
 * jc_close. No pointer is NULL, also where a length is 0 (pass JC_EMPTY). Places that are written (buffers, lengths,
 * ids) overlap nothing else that is passed.
 *
 * The handle. struct jc_manager is a place of the caller's, {0} at first. It has one owner: don't copy it, but it may
 * be moved between two calls, where the old place is set to {0}. Dropped without jc_close it leaks. Every function may
 * be called on a closed handle, and answers JC_CLOSED.
 *
 * Threads. The library has no lock. Calls on one handle must not overlap: put a lock round them. A handle may go from
 * thread to thread so. Handles are independent of each other. Loaders and other callbacks run between two calls, where
 * the lock need not be held; then lock each cache's calls too, so that none meets an open call (JC_BUSY).
 *
 * Forks and signals. Don't call it from a signal handler, nor in the forked child of a process with threads: open a
 * manager in the child instead.
 *
 * What is proved and what is trusted: docs/C.md. Trusted is that C declares these functions as they stand here, hands a
 * handle to one call at a time, copies none, and passes pointers to so many bytes as it says.
 */
#ifndef JCACHE_H
#define JCACHE_H

#include <stddef.h>
#include <stdint.h>
#include <string.h>

#ifdef __cplusplus
extern "C" {
#endif

/* The version of this header: 10,000 times the first number, 100 times the second, and the third. Numbers below are never
 * given another meaning, and what is declared here stays as it is while the first number stays. */
#define JCACHE_VERSION 100

/* A manager, or none where `at` is null. */
struct jc_manager {
    void *at;
};

/* What a call came to, one of the numbers below. A number is never given another meaning. */
typedef uint32_t jc_status;

enum {
    /* Replies. */
    JC_DONE = 0,
    JC_FALSE = 1,
    JC_TRUE = 2,
    JC_FOUND = 3,
    JC_NOTHING = 4, /* no value */
    JC_LISTED = 5,
    JC_RESULTS = 6,
    JC_COUNTED = 7,
    JC_LOADER_FAILED = 8,
    JC_WRITER_FAILED = 9,
    JC_PROCESSOR_FAILED = 10,
    /* Requests, and what answers them. */
    JC_NEED_LOAD = 16,    /* jc_loaded, jc_loaded_nothing, jc_load_failed */
    JC_NEED_WRITE = 17,   /* jc_written, jc_write_failed */
    JC_NEED_DELETE = 18,  /* jc_written, jc_write_failed */
    JC_NEED_PROCESS = 19, /* jc_processed, jc_process_failed */
    JC_NEED_TELL = 20,    /* jc_told, once each listener has heard each notice */
    /* Refusals of a call, an answer, a give-up or a destruction. */
    JC_NO_SUCH_CACHE = 32,
    JC_BUSY = 33, /* a call on the cache is open */
    JC_NO_SUCH_PROCESSOR = 34,
    JC_NO_TURN = 35,      /* no call on the cache is open */
    JC_WRONG_ANSWER = 36, /* the open call awaits another kind */
    JC_OUT_OF_MEMORY = 37,
    /* Refusals of a creation, in this order. */
    JC_TOO_MANY_CACHES = 48,     /* 1,024 are live */
    JC_BAD_CAPACITY = 49,        /* not from 1 to 65,536 rows */
    JC_TOO_MANY_LISTENERS = 50,  /* more than 8 */
    JC_TOO_MANY_PROCESSORS = 51, /* more than 16 */
    JC_DUPLICATE_NAME = 52,      /* of a live cache */
    JC_TOTAL_CAPACITY = 53,      /* more than 262,144 rows in all live caches */
    JC_IDS_SPENT = 54,           /* the last id was given */
    /* Refusals before the manager is asked. */
    JC_CLOSED = 64,
    JC_IN_USE = 65,
    JC_BAD_KEY = 66,       /* not from 1 to 63 bytes of UTF-8 */
    JC_BAD_VALUE = 67,     /* more than 65,535 bytes, or than the cache's `max_value` */
    JC_BAD_LENGTHS = 68,   /* lengths that don't come to the bytes */
    JC_TOO_MANY_KEYS = 69, /* more than 64 */
    JC_DUPLICATE_KEY = 70,
    JC_BAD_CHOICE = 71, /* a number that names no policy, no action; a reserved one that is not 0 */
    /* Of reading what is shown. */
    JC_NO_ITEM = 72,      /* no such item, part or number */
    JC_SHORT_BUFFER = 73, /* the buffer took the first bytes alone */
    /* Of restoring. */
    JC_BAD_SAVE = 74,     /* bytes that jc_save never writes */
    JC_OTHER_VERSION = 75 /* saved bytes of another version of their format */
};

/* When a row expires after `duration` milliseconds: never; from its creation; also anew from each access; from each
 * change; from both. */
enum { JC_ETERNAL = 0, JC_CREATED = 1, JC_ACCESSED = 2, JC_MODIFIED = 3, JC_TOUCHED = 4 };

/* What a processor does to its entry. */
enum { JC_KEEP = 0, JC_SET = 1, JC_REMOVE = 2 };

/* The kinds of notices. */
enum { JC_CREATED_ROW = 0, JC_UPDATED_ROW = 1, JC_REMOVED_ROW = 2, JC_EXPIRED_ROW = 3 };

/* The moment of a row that never expires, or at that moment. */
#define JC_NEVER UINT64_MAX

/* What a cache is created with, its name aside. Begin with {0}: members of later versions take the reserved place.
 * `max_value` bounds values that are put, loaded or set by a processor: a longer one is JC_BAD_VALUE before the manager is
 * asked, and an open call stays open. So an operator can reckon with `capacity` times 63 and `max_value` bytes. */
struct jc_settings {
    uint64_t duration;
    uint32_t capacity; /* the most rows; beyond them CLOCK evicts */
    uint32_t policy;
    uint8_t loader;     /* not 0: missing keys are loaded */
    uint8_t writer;     /* not 0: puts, replaces and removes are written */
    uint8_t listeners;  /* how many are told */
    uint32_t max_value; /* the most bytes of a value; 0: no bound but 65,535 */
    uint64_t reserved;  /* 0 */
};

/* How many bytes a pair has in a list: its key's, then its value's. */
struct jc_pair_lengths {
    uint32_t key;
    uint32_t value;
};

/* Bytes as two arguments. */
#define JC_TEXT(text) (const uint8_t *)(text), strlen(text)
#define JC_EMPTY (const uint8_t *)"", (size_t)0

/* The library's version, as JCACHE_VERSION. */
uint32_t jc_version(void);

/* Managers. Any seed serves: it decides where keys stand in the table, and is no protection against keys that are
 * chosen to share their places. JC_DONE, JC_IN_USE, JC_OUT_OF_MEMORY. */
jc_status jc_open(struct jc_manager *m, uint64_t seed);
/* The same, for keys that strangers choose: places are by a hash under a secret of 16 bytes, which the caller draws at
 * random. Who does not know it can't choose keys that share their places. */
jc_status jc_open_secret(struct jc_manager *m, const uint8_t secret[16]);
/* Frees all. JC_DONE, JC_CLOSED. */
jc_status jc_close(struct jc_manager *m);

/* Caches. Ids go upward from 0, and none is given twice. `wants` has a byte for each processor: not 0 where it wants
 * the value, so that a missing key is loaded for it. JC_DONE, and *id is written; or a refusal. */
jc_status jc_create(struct jc_manager *m, const uint8_t *name, size_t name_len, const struct jc_settings *settings,
                    const uint8_t *wants, size_t wants_len, uint32_t *id);
/* JC_DONE, JC_NO_SUCH_CACHE, JC_BUSY. */
jc_status jc_destroy(struct jc_manager *m, uint32_t id);
/* The id of a live cache by its name. JC_DONE, JC_NO_SUCH_CACHE, JC_BAD_KEY. */
jc_status jc_find(struct jc_manager *m, const uint8_t *name, size_t name_len, uint32_t *id);

/* Calls on one key, `now` in milliseconds of a clock of the caller's, which need not rise.
 * Get: JC_FOUND or JC_NOTHING; a missing key is loaded. */
jc_status jc_get(struct jc_manager *m, uint32_t id, uint64_t now, const uint8_t *key, size_t key_len);
/* As jc_get, and where the status is JC_FOUND *len is how many bytes the value has; the first of them, as many as there
 * is room for, are copied. With any other status nothing is written. */
jc_status jc_get_into(struct jc_manager *m, uint32_t id, uint64_t now, const uint8_t *key, size_t key_len,
                      uint8_t *out, size_t room, size_t *len);
/* JC_TRUE or JC_FALSE; it loads, counts and renews nothing, and is never refused for want of memory. */
jc_status jc_contains(struct jc_manager *m, uint32_t id, uint64_t now, const uint8_t *key, size_t key_len);
/* JC_DONE. */
jc_status jc_put(struct jc_manager *m, uint32_t id, uint64_t now, const uint8_t *key, size_t key_len,
                 const uint8_t *value, size_t value_len);
/* The value before: JC_FOUND or JC_NOTHING. */
jc_status jc_get_and_put(struct jc_manager *m, uint32_t id, uint64_t now, const uint8_t *key, size_t key_len,
                         const uint8_t *value, size_t value_len);
/* Whether it was stored: JC_TRUE or JC_FALSE. So of the next two. */
jc_status jc_put_if_absent(struct jc_manager *m, uint32_t id, uint64_t now, const uint8_t *key, size_t key_len,
                           const uint8_t *value, size_t value_len);
jc_status jc_replace(struct jc_manager *m, uint32_t id, uint64_t now, const uint8_t *key, size_t key_len,
                     const uint8_t *value, size_t value_len);
jc_status jc_replace_if(struct jc_manager *m, uint32_t id, uint64_t now, const uint8_t *key, size_t key_len,
                        const uint8_t *expected, size_t expected_len, const uint8_t *value, size_t value_len);
/* The value before: JC_FOUND or JC_NOTHING. */
jc_status jc_get_and_replace(struct jc_manager *m, uint32_t id, uint64_t now, const uint8_t *key, size_t key_len,
                             const uint8_t *value, size_t value_len);
/* Whether it was there: JC_TRUE or JC_FALSE. */
jc_status jc_remove(struct jc_manager *m, uint32_t id, uint64_t now, const uint8_t *key, size_t key_len);
jc_status jc_remove_if(struct jc_manager *m, uint32_t id, uint64_t now, const uint8_t *key, size_t key_len,
                       const uint8_t *expected, size_t expected_len);
jc_status jc_get_and_remove(struct jc_manager *m, uint32_t id, uint64_t now, const uint8_t *key, size_t key_len);
/* Hands the entry to a processor, by its place in `wants`. What it answered: JC_FOUND or JC_NOTHING. */
jc_status jc_invoke(struct jc_manager *m, uint32_t id, uint64_t now, const uint8_t *key, size_t key_len,
                    uint8_t processor, const uint8_t *argument, size_t argument_len);

/* Calls on at most 64 keys, all different. The keys stand one after the other in `keys`, and `lengths` says how many
 * bytes each has; so do pairs, each key with its value behind it. JC_LISTED, JC_DONE, JC_DONE, JC_DONE, JC_RESULTS. */
jc_status jc_get_all(struct jc_manager *m, uint32_t id, uint64_t now, const uint32_t *lengths, size_t count,
                     const uint8_t *keys, size_t keys_len);
jc_status jc_put_all(struct jc_manager *m, uint32_t id, uint64_t now, const struct jc_pair_lengths *lengths,
                     size_t count, const uint8_t *pairs, size_t pairs_len);
jc_status jc_remove_keys(struct jc_manager *m, uint32_t id, uint64_t now, const uint32_t *lengths, size_t count,
                         const uint8_t *keys, size_t keys_len);
/* `replace` not 0: keys that have a row are loaded too. */
jc_status jc_load_all(struct jc_manager *m, uint32_t id, uint64_t now, const uint32_t *lengths, size_t count,
                      const uint8_t *keys, size_t keys_len, uint32_t replace);
jc_status jc_invoke_all(struct jc_manager *m, uint32_t id, uint64_t now, const uint32_t *lengths, size_t count,
                        const uint8_t *keys, size_t keys_len, uint8_t processor, const uint8_t *argument,
                        size_t argument_len);

/* Calls on the whole cache: removes all rows, as jc_remove does; drops them, and tells no one; lists them (JC_LISTED);
 * the counters (JC_COUNTED), and sets them to zero. The second and the last two are never refused for want of memory. */
jc_status jc_remove_all(struct jc_manager *m, uint32_t id, uint64_t now);
jc_status jc_clear(struct jc_manager *m, uint32_t id, uint64_t now);
jc_status jc_entries(struct jc_manager *m, uint32_t id, uint64_t now);
jc_status jc_stats(struct jc_manager *m, uint32_t id, uint64_t now);
jc_status jc_clear_stats(struct jc_manager *m, uint32_t id, uint64_t now);

/* Answers to the open call's request. The status is that of the call as it goes on. */
jc_status jc_loaded(struct jc_manager *m, uint32_t id, const uint8_t *value, size_t value_len);
jc_status jc_loaded_nothing(struct jc_manager *m, uint32_t id);
jc_status jc_load_failed(struct jc_manager *m, uint32_t id);
jc_status jc_written(struct jc_manager *m, uint32_t id);
jc_status jc_write_failed(struct jc_manager *m, uint32_t id);
/* `value` is read where the action is JC_SET, `answer` where `answers` is not 0. */
jc_status jc_processed(struct jc_manager *m, uint32_t id, uint32_t action, const uint8_t *value, size_t value_len,
                       uint32_t answers, const uint8_t *answer, size_t answer_len);
jc_status jc_process_failed(struct jc_manager *m, uint32_t id);
jc_status jc_told(struct jc_manager *m, uint32_t id);
/* Ends the open call without a reply; what its finished steps have changed stands. JC_DONE. */
jc_status jc_give_up(struct jc_manager *m, uint32_t id);

/* What is shown of a cache. These change nothing in the manager. JC_DONE, JC_NO_ITEM, JC_NO_SUCH_CACHE, JC_CLOSED.
 * How many items: */
jc_status jc_items(struct jc_manager *m, uint32_t id, size_t *count);
/* A part of an item, the first one having place 0. *len is how many bytes it has; the first of them, as many as there
 * is room for, are copied, and nothing is written behind them. JC_SHORT_BUFFER where that is not all: ask again with
 * more room. Where the status is JC_NO_ITEM or JC_NO_SUCH_CACHE, nothing is written. */
jc_status jc_key(struct jc_manager *m, uint32_t id, size_t item, uint8_t *out, size_t room, size_t *len);
jc_status jc_value(struct jc_manager *m, uint32_t id, size_t item, uint8_t *out, size_t room, size_t *len);
jc_status jc_before(struct jc_manager *m, uint32_t id, size_t item, uint8_t *out, size_t room, size_t *len);
jc_status jc_argument(struct jc_manager *m, uint32_t id, size_t item, uint8_t *out, size_t room, size_t *len);
/* A number, the first one having place 0. */
jc_status jc_number(struct jc_manager *m, uint32_t id, size_t place, uint64_t *number);

/* Looks. They change, count and show nothing, are no calls, are never refused for want of memory, and go on beside an
 * open call.
 *
 * The value of a row that is live at `now`, and the moment at which it expires or JC_NEVER: JC_FOUND, and both are
 * written, the value as jc_get_into writes it; or JC_NOTHING. JC_NO_SUCH_CACHE, JC_BAD_KEY, JC_CLOSED. */
jc_status jc_peek(struct jc_manager *m, uint32_t id, uint64_t now, const uint8_t *key, size_t key_len,
                  uint64_t *expires, uint8_t *out, size_t room, size_t *len);
/* How many rows a cache has, expired ones that no call has met among them. JC_DONE, JC_NO_SUCH_CACHE, JC_CLOSED. */
jc_status jc_rows(struct jc_manager *m, uint32_t id, size_t *rows);
/* How many bytes the keys and the values of a cache's rows have, those of expired rows among them. It goes over all
 * numbers of rows, and so takes time by the cache's capacity. JC_DONE, JC_NO_SUCH_CACHE, JC_CLOSED. */
jc_status jc_bytes(struct jc_manager *m, uint32_t id, uint64_t *bytes);
/* Rows by their numbers, from number `from` on, as many whole ones as there is room for, expired ones among them. Of each
 * row 8 bytes for the moment at which it expires (JC_NEVER: never), 1 for its key's length, 2 for its value's, little
 * endian, then key and value. JC_LISTED, *len bytes are written, and *next is the number to go on from; JC_NOTHING: no
 * row has such a number; JC_SHORT_BUFFER: not one row fits, *len is what the first one takes (65,609 at most), and
 * nothing else is written. JC_NO_SUCH_CACHE, JC_CLOSED.
 * Begun at 0, a walk lists at most as many times as the cache has capacity, and is over at JC_NOTHING. A row that stays
 * from its first step to its last is given exactly once, whatever other calls change between them. */
jc_status jc_walk(struct jc_manager *m, uint32_t id, uint32_t from, uint8_t *out, size_t room, size_t *len,
                  uint32_t *next);
/* What a cache was created or restored with: *settings is written, and for each processor a byte of `wants`, as jc_create
 * takes them, flags as 0 or 1 and a `max_value` of 65,535 as 0. *len is how many processors there are. JC_DONE,
 * JC_SHORT_BUFFER (*settings and the first flags are written), JC_NO_SUCH_CACHE, JC_CLOSED. */
jc_status jc_settings_of(struct jc_manager *m, uint32_t id, struct jc_settings *settings, uint8_t *wants, size_t room,
                         size_t *len);
/* The live caches in order of id: of each 4 bytes for its id, little endian, 1 for its name's length, then its name. *len
 * is how many bytes that is; the first of them, as many as there is room for, are copied. JC_DONE, JC_SHORT_BUFFER,
 * JC_CLOSED. */
jc_status jc_names(struct jc_manager *m, uint8_t *out, size_t room, size_t *len);

/* Saved caches: all by which a cache will ever answer, its name aside, as bytes that docs/FORMATS.md describes.
 *
 * Those of an idle cache: *len is how many they are, and the first of them, as many as there is room for, are copied (with
 * room 0 none: so the length is asked for). It changes and shows nothing, and takes no memory. JC_DONE, JC_SHORT_BUFFER,
 * JC_NO_SUCH_CACHE, JC_BUSY, JC_CLOSED. */
jc_status jc_save(struct jc_manager *m, uint32_t id, uint8_t *out, size_t room, size_t *len);
/* Adds a cache of this name that is what the bytes say: from here on it answers as the saved one would have. `max_value` as
 * in struct jc_settings: it is not among the bytes. JC_DONE, and *id is written; JC_BAD_KEY; JC_BAD_SAVE or
 * JC_OTHER_VERSION, and *place is how many bytes stand before the first flaw; JC_BAD_VALUE, where a row's value is longer
 * than `max_value`; or a refusal of a creation, in this order. JC_OUT_OF_MEMORY may come before any of them but JC_BAD_KEY.
 * A refusal changes nothing. JC_CLOSED.
 * Moments are absolute: who restores after a restart hands in wall-clock milliseconds that never fall. More than
 * 268,435,456 bytes are JC_BAD_SAVE, also where jc_save wrote them. */
jc_status jc_restore(struct jc_manager *m, const uint8_t *name, size_t name_len, const uint8_t *bytes, size_t len,
                     uint32_t max_value, uint32_t *id, size_t *place);

#ifdef __cplusplus
}
#endif

#endif
