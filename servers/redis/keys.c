/* keys.c: the type of the server's keys, and its methods. A key is saved as numbers and as the
 * bytes that jc_save writes, which are its cache's alone: so two caches are the same exactly where
 * these are. */
#include "keys.h"
#include "heap.h"
#include <stdio.h>

/* The version of the bytes that a key is saved as: that of jc_save's. */
enum { ENCODING = 1 };

static struct key_type *type;

static void save(struct storage *storage, void *value) {
    struct cache *cache = value;
    size_t len;
    uint8_t *bytes = saved_bytes(cache, &len);
    server.SaveUnsigned(storage, cache->settings.max_value);
    server.SaveUnsigned(storage, cache->latest);
    server.SaveStringBuffer(storage, (const char *)bytes, len);
    server.Free(bytes);
}

/* A cache that the server loads or copies: memory is taken as the server takes it. */
static struct cache *loaded(const struct saved *saved, struct refused *refused) {
    take_always(1);
    struct cache *cache = restored_cache(saved, refused);
    take_always(0);
    return cache;
}

static void *load(struct storage *storage, int encoding) {
    struct saved saved;
    struct refused refused;
    if (encoding != ENCODING) {
        server.LogIOError(storage, "warning",
                          "a cache is of version %d, and this module reads version %d: "
                          "load a newer one",
                          encoding, ENCODING);
        return NULL;
    }
    saved.max_value = server.LoadUnsigned(storage);
    saved.latest = server.LoadUnsigned(storage);
    char *bytes = server.IsIOError(storage) ? NULL : server.LoadStringBuffer(storage, &saved.len);
    if (!bytes)
        return NULL;
    saved.bytes = (const uint8_t *)bytes;
    struct cache *cache = loaded(&saved, &refused);
    server.Free(bytes);
    if (!cache)
        server.LogIOError(storage, "warning", "bytes are no cache: status %u, behind %zu bytes",
                          (unsigned)refused.status, refused.place);
    return cache;
}

static void rewrite(struct storage *storage, struct word *name, void *value) {
    struct cache *cache = value;
    size_t len;
    char latest[32];
    uint8_t *bytes = saved_bytes(cache, &len);
    snprintf(latest, sizeof latest, "%llu", (unsigned long long)cache->latest);
    server.EmitAOF(storage, "JC.RESTORE", "sbclcc", name, (const char *)bytes, len, "MAXVALUE",
                   (long long)cache->settings.max_value, "MOMENT", latest);
    server.Free(bytes);
}

static size_t memory(const void *value) {
    return memory_of(value);
}

static void digest(struct digest *digest, void *value) {
    struct cache *cache = value;
    size_t len;
    uint8_t *bytes = saved_bytes(cache, &len);
    server.DigestAddStringBuffer(digest, (const char *)bytes, len);
    server.DigestAddLongLong(digest, cache->settings.max_value);
    server.DigestAddLongLong(digest, (long long)cache->latest);
    server.DigestEndSequence(digest);
    server.Free(bytes);
}

static void let_go(void *value) {
    free_cache(value);
}

static size_t effort(struct word *name, const void *value) {
    (void)name;
    return ((const struct cache *)value)->settings.capacity;
}

static void *copy(struct word *from, struct word *to, const void *value) {
    struct cache *cache = (struct cache *)value; /* saving changes nothing */
    struct saved saved = {.max_value = cache->settings.max_value, .latest = cache->latest};
    struct refused refused;
    (void)from, (void)to;
    uint8_t *bytes = saved_bytes(cache, &saved.len);
    saved.bytes = bytes;
    struct cache *copied = loaded(&saved, &refused);
    server.Free(bytes);
    return copied;
}

int add_type(struct context *context) {
    struct type_methods methods = {
        .version = 3,
        .load = load,
        .save = save,
        .rewrite = rewrite,
        .memory = memory,
        .digest = digest,
        .free = let_go,
        .effort = effort,
        .copy = copy,
    };
    type = server.CreateDataType(context, "jcache107", ENCODING, &methods);
    return type != NULL;
}

struct cache *cache_of(struct context *context, struct open_key *key) {
    if (key && server.ModuleTypeGetType(key) == type)
        return server.ModuleTypeGetValue(key);
    if (!key || server.KeyType(key) == KEY_IS_EMPTY)
        server.ReplyWithError(context, "JCNOCACHE there is no such cache");
    else
        server.ReplyWithError(context,
                              "WRONGTYPE Operation against a key holding the wrong kind of value");
    return NULL;
}

void set_cache(struct context *context, struct open_key *key, struct word *name,
               struct cache *cache) {
    server.ModuleTypeSetValue(key, type, cache);
    server.NotifyKeyspaceEvent(context, NOTIFY_MODULE, "jc.create", name);
}
