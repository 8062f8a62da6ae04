/* cache.h: the value of a key: one cache in a manager of its own.
 *
 * No cache sees with which others it shares a manager. So a manager for each is no limit of the
 * server's, needs no lock, and is let go with its key, in whichever thread the server does that.
 */
#ifndef CACHE_H
#define CACHE_H

#include "jcache.h"
#include "leases.h"

enum { MOST_KEY = 63, MOST_VALUE = 65535, MOST_KEYS = 64, MOST_CAPACITY = 65536 };
/* How many bytes jc_restore takes; what stands before the rows and in a row beside its value, at
 * most. */
enum { MOST_SAVED = 268435456, SAVED_HEAD = 81, SAVED_ROW = 75 };

struct cache {
    struct jc_manager manager;
    uint32_t id;
    struct jc_settings settings;
    uint64_t
        latest;   /* the latest moment of its calls, below which the server's moments don't fall */
    size_t bytes; /* what the library has taken for it */
    struct leases leases;
};

/* The most bytes of a value of a cache with this capacity: whatever it holds can be saved and
 * loaded. */
uint32_t most_value(uint64_t capacity);

/* What restoring came to where it is refused: JC_BAD_SAVE with the place of the first flaw,
 * JC_OTHER_VERSION, JC_BAD_VALUE, JC_TOO_MANY_PROCESSORS (the bytes have others than this module)
 * or JC_OUT_OF_MEMORY. */
struct refused {
    jc_status status;
    size_t place;
};

/* What a key is saved as: the cache's bytes, and what is not among them. */
struct saved {
    const uint8_t *bytes;
    size_t len;
    uint64_t max_value, latest;
};

/* A new cache, with most_value where the settings have no bound; or NULL, and *status says why: as
 * jc_create, or JC_TOTAL_CAPACITY, where more may be stored than can be saved. So of
 * restored_cache. */
struct cache *new_cache(const struct jc_settings *, jc_status *status);
struct cache *restored_cache(const struct saved *, struct refused *);
void free_cache(struct cache *);

/* The cache's bytes, which the caller frees. They take memory that is not refused. */
uint8_t *saved_bytes(struct cache *, size_t *len);
/* What the key takes in all. */
size_t memory_of(const struct cache *);
/* The moment of a call: the server's clock, which does not fall, nor below an earlier call's. */
uint64_t moment_of(const struct cache *);
/* The server's clock, which does not fall. */
uint64_t clock_moment(void);

#endif
