/* cache.c: caches as they are made, saved, restored and let go. */
#include "cache.h"
#include "heap.h"
#include "processors.h"
#include "server.h"

#define NAME JC_TEXT("c")

/* A manager without a cache; or NULL, where memory is refused. */
static struct cache *opened(void) {
    uint8_t secret[16];
    struct cache *cache = take(sizeof *cache);
    if (!cache)
        return NULL;
    memset(cache, 0, sizeof *cache);
    server.GetRandomBytes(secret, sizeof secret);
    open_account(&cache->bytes);
    jc_status status = jc_open_secret(&cache->manager, secret);
    close_account();
    if (status == JC_DONE)
        return cache;
    server.Free(cache);
    return NULL;
}

uint32_t most_value(uint64_t capacity) {
    if (capacity < 1 || capacity > MOST_CAPACITY)
        return MOST_VALUE;
    uint64_t most = (MOST_SAVED - SAVED_HEAD) / capacity - SAVED_ROW;
    return most < MOST_VALUE ? (uint32_t)most : MOST_VALUE;
}

struct cache *new_cache(const struct jc_settings *asked, jc_status *status) {
    struct jc_settings given = *asked, *settings = &given;
    uint32_t most = most_value(given.capacity);
    *status = JC_TOTAL_CAPACITY;
    if (given.max_value > most)
        return NULL;
    if (!given.max_value)
        given.max_value = most;
    struct cache *cache = opened();
    *status = JC_OUT_OF_MEMORY;
    if (!cache)
        return NULL;
    open_account(&cache->bytes);
    *status = jc_create(&cache->manager, NAME, settings, processor_wants, PROCESSORS, &cache->id);
    close_account();
    cache->settings = *settings;
    if (*status == JC_DONE)
        return cache;
    free_cache(cache);
    return NULL;
}

/* Whether its processors are this module's, or the first of them. */
static int has_our_processors(struct cache *cache) {
    uint8_t wants[16];
    size_t count;
    jc_settings_of(&cache->manager, cache->id, &cache->settings, wants, sizeof wants, &count);
    return count <= PROCESSORS && !memcmp(wants, processor_wants, count);
}

/* The capacity that saved bytes tell, if they do. */
static uint64_t saved_capacity(const struct saved *saved) {
    uint64_t capacity = 0;
    for (size_t at = 7; saved->len > 7 && at > 3; at--)
        capacity = capacity << 8 | saved->bytes[at];
    return capacity;
}

static jc_status restore_into(struct cache *cache, const struct saved *saved, size_t *place) {
    uint32_t most = most_value(saved_capacity(saved));
    if (saved->max_value > most)
        return JC_TOTAL_CAPACITY;
    uint32_t max_value = saved->max_value ? (uint32_t)saved->max_value : most;
    open_account(&cache->bytes);
    jc_status status =
        jc_restore(&cache->manager, NAME, saved->bytes, saved->len, max_value, &cache->id, place);
    close_account();
    if (status == JC_DONE && !has_our_processors(cache))
        return JC_TOO_MANY_PROCESSORS;
    cache->settings.max_value = max_value; /* the library tells no bound where it is 65,535 */
    return status;
}

struct cache *restored_cache(const struct saved *saved, struct refused *refused) {
    struct cache *cache = opened();
    *refused = (struct refused){.status = JC_OUT_OF_MEMORY};
    if (!cache)
        return NULL;
    refused->status = restore_into(cache, saved, &refused->place);
    cache->latest = saved->latest;
    if (refused->status == JC_DONE)
        return cache;
    free_cache(cache);
    return NULL;
}

void free_cache(struct cache *cache) {
    open_account(&cache->bytes);
    jc_close(&cache->manager);
    close_account();
    end_all_leases(&cache->leases);
    server.Free(cache);
}

uint8_t *saved_bytes(struct cache *cache, size_t *len) {
    uint8_t none[1];
    jc_save(&cache->manager, cache->id, none, 0, len);
    uint8_t *bytes = server.Alloc(*len);
    jc_save(&cache->manager, cache->id, bytes, *len, len);
    return bytes;
}

size_t memory_of(const struct cache *cache) {
    return sizeof *cache + cache->bytes + memory_of_leases(&cache->leases);
}

uint64_t clock_moment(void) {
    static uint64_t latest;
    uint64_t now = (uint64_t)server.Milliseconds();
    if (now > latest)
        latest = now;
    return latest;
}

uint64_t moment_of(const struct cache *cache) {
    uint64_t now = clock_moment();
    return now > cache->latest ? now : cache->latest;
}
