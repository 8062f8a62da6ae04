/* calls.h: the calls of a cache, each with the words that stand behind its name. */
#ifndef CALLS_H
#define CALLS_H

#include "cache.h"
#include "server.h"

enum call_name {
    GET,
    CONTAINS,
    PUT,
    GETANDPUT,
    PUTIFABSENT,
    REPLACE,
    REPLACEIF,
    GETANDREPLACE,
    REMOVE,
    REMOVEIF,
    GETANDREMOVE,
    INVOKE,
    GETALL,
    PUTALL,
    REMOVEKEYS,
    LOADALL,
    INVOKEALL,
    REMOVEALL,
    CLEAR,
    ENTRIES,
    STATS,
    CLEARSTATS,
    CALLS
};

/* What a call's words are. */
enum shape {
    WHOLE,          /* none */
    KEY,            /* a key */
    KEY_VALUE,      /* a key, a value */
    KEY_TWO_VALUES, /* a key, the value that is expected, a value */
    KEY_PROCESSOR,  /* a key, a processor, its argument */
    SOME_KEYS,      /* keys */
    SOME_PAIRS,     /* keys, each with its value */
    SOME_LOADED,    /* KEEP or REPLACE, then pairs */
    SOME_PROCESSED  /* a processor, its argument, keys */
};

enum {
    IS_LOOK = 1,    /* it changes nothing, and is not replicated */
    KEEPS_ROWS = 2, /* the server's key is opened to be read: WATCH does not see it */
    MAY_WRITE = 4,  /* it may ask the writer */
    ENDS_LEASES = 8 /* of its keys, or of all where it has none */
};

struct call {
    const char *name;
    enum shape shape;
    int flags;
    union {
        jc_status (*whole)(struct jc_manager *, uint32_t, uint64_t);
        jc_status (*key)(struct jc_manager *, uint32_t, uint64_t, const uint8_t *, size_t);
        jc_status (*value)(struct jc_manager *, uint32_t, uint64_t, const uint8_t *, size_t,
                           const uint8_t *, size_t);
        jc_status (*keys)(struct jc_manager *, uint32_t, uint64_t, const uint32_t *, size_t,
                          const uint8_t *, size_t);
    } begin;
};

extern const struct call calls[CALLS];

/* The call of this name; or NULL. */
const struct call *call_named(const struct word *);
/* Whether a call has so many words behind its name. */
int takes(const struct call *, int count);
/* Where a call's keys begin among its words, and at every how many words one stands; 0: it has
 * none. */
int first_key(const struct call *);
int key_step(const struct call *);
/* Begins a call. A refusal has changed nothing. */
jc_status begin_call(struct cache *, const struct call *, uint64_t now, struct word **words,
                     int count);
/* Ends the leases of the keys that a call may have changed. */
void end_leases_of(struct cache *, const struct call *, struct word **words, int count);

#endif
