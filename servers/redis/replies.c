/* replies.c: replies and errors in the server's protocol. */
#include "replies.h"
#include <stdio.h>

static uint8_t key_bytes[MOST_KEY], value_bytes[MOST_VALUE];

static const struct {
    jc_status status;
    const char *message;
} refusals[] = {
    {JC_OUT_OF_MEMORY, "OOM memory was refused, and nothing has changed"},
    {JC_NO_SUCH_PROCESSOR, "JCNOPROCESSOR the cache has no such processor"},
    {JC_BAD_CAPACITY, "JCBADCAPACITY a cache has 1 to 65536 rows"},
    {JC_TOTAL_CAPACITY,
     "JCTOOLARGE more could be stored than can be saved: lower the capacity or MAXVALUE"},
    {JC_BAD_KEY, "JCBADKEY a key has 1 to 63 bytes of UTF-8"},
    {JC_BAD_VALUE,
     "JCBADVALUE a value has at most 65535 bytes, or as many as the cache's MAXVALUE"},
    {JC_BAD_CHOICE, "JCSYNTAX KEEP or REPLACE is wanted"},
    {JC_TOO_MANY_KEYS, "JCTOOMANY a call has at most 64 keys"},
    {JC_DUPLICATE_KEY, "JCDUPLICATE the keys of a call are all different"},
    {JC_TOO_MANY_PROCESSORS, "JCBADSAVE the bytes have other processors than this module"},
    {JC_OTHER_VERSION, "JCVERSION the bytes are of another version than this module reads"},
    {JC_PROCESSOR_FAILED, "JCPROCESSOR the processor failed"},
    {JC_LOADER_FAILED, "JCLOADER the loader failed"},
    {JC_WRITER_FAILED, "JCWRITER the server refused to add to the stream"},
};

int refuse(struct context *context, jc_status status) {
    char text[64];
    for (size_t i = 0; i < sizeof refusals / sizeof *refusals; i++)
        if (refusals[i].status == status)
            return server.ReplyWithError(context, refusals[i].message);
    snprintf(text, sizeof text, "JCERROR the library's status is %u", (unsigned)status);
    return server.ReplyWithError(context, text);
}

int refuse_bytes(struct context *context, const struct refused *refused) {
    char text[96];
    if (refused->status != JC_BAD_SAVE)
        return refuse(context, refused->status);
    snprintf(text, sizeof text,
             "JCBADSAVE the bytes are no saved cache: the first flaw is behind %zu bytes",
             refused->place);
    return server.ReplyWithError(context, text);
}

static int reply_value(struct context *context, struct cache *cache, size_t item) {
    size_t len;
    if (jc_value(&cache->manager, cache->id, item, value_bytes, MOST_VALUE, &len) != JC_DONE)
        return server.ReplyWithNull(context);
    return server.ReplyWithStringBuffer(context, (const char *)value_bytes, len);
}

/* Keys with their values, or null where a processor failed. */
static int reply_pairs(struct context *context, struct cache *cache) {
    size_t count = 0, len = 0;
    jc_items(&cache->manager, cache->id, &count);
    server.ReplyWithMap(context, (long)count);
    for (size_t i = 0; i < count; i++) {
        jc_key(&cache->manager, cache->id, i, key_bytes, MOST_KEY, &len);
        server.ReplyWithStringBuffer(context, (const char *)key_bytes, len);
        reply_value(context, cache, i);
    }
    return SERVER_OK;
}

static int reply_counters(struct context *context, struct cache *cache) {
    static const char *const names[COUNTERS] = {"hits", "misses", "puts", "removals", "evictions"};
    server.ReplyWithMap(context, COUNTERS);
    for (size_t i = 0; i < COUNTERS; i++) {
        uint64_t number = 0;
        jc_number(&cache->manager, cache->id, i, &number);
        server.ReplyWithSimpleString(context, names[i]);
        server.ReplyWithLongLong(context, number > INT64_MAX ? INT64_MAX : (long long)number);
    }
    return SERVER_OK;
}

int reply_to_call(struct context *context, struct cache *cache, jc_status status) {
    switch (status) {
    case JC_DONE:
        return server.ReplyWithSimpleString(context, "OK");
    case JC_FALSE:
    case JC_TRUE:
        return server.ReplyWithLongLong(context, status == JC_TRUE);
    case JC_FOUND:
        return reply_value(context, cache, 0);
    case JC_NOTHING:
        return server.ReplyWithNull(context);
    case JC_LISTED:
    case JC_RESULTS:
        return reply_pairs(context, cache);
    case JC_COUNTED:
        return reply_counters(context, cache);
    default:
        return refuse(context, status);
    }
}
