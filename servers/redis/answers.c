/* answers.c: a call's requests. Nothing is read but the command's words and the cache, so that
 * replicas and logs, to which the same words come, answer the same. */
#include "answers.h"
#include "processors.h"
#include <stdio.h>

/* Parts of what is shown, one command at a time. */
static uint8_t key_bytes[MOST_KEY], value_bytes[MOST_VALUE], before_bytes[MOST_VALUE];

/* What is loaded stands in the call: the value of LOADALL's pair. Other calls find nothing: their
 * clients load. */
static jc_status load(struct play *play) {
    struct cache *cache = play->cache;
    size_t len = 0;
    jc_key(&cache->manager, cache->id, 0, key_bytes, MOST_KEY, &len);
    for (int i = 1; play->call->shape == SOME_LOADED && i + 1 < play->count; i += 2) {
        struct text key = text_of(play->words[i]), value = text_of(play->words[i + 1]);
        if (key.len != len || memcmp(key.at, key_bytes, len))
            continue;
        play->loaded++;
        return jc_loaded(&cache->manager, cache->id, value.at, value.len);
    }
    return jc_loaded_nothing(&cache->manager, cache->id);
}

/* Adds what is written to the stream, as an entry of its own. Whether the server did. */
static int streamed(struct play *play, jc_status request) {
    struct cache *cache = play->cache;
    size_t key = 0, value = 0;
    struct call_reply *reply;
    jc_key(&cache->manager, cache->id, 0, key_bytes, MOST_KEY, &key);
    if (request == JC_NEED_DELETE) {
        reply =
            server.Call(play->context, "XADD", "!sccb", play->stream, "*", "key", key_bytes, key);
    } else {
        jc_value(&cache->manager, cache->id, 0, value_bytes, MOST_VALUE, &value);
        reply = server.Call(play->context, "XADD", "!sccbcb", play->stream, "*", "key", key_bytes,
                            key, "value", value_bytes, value);
    }
    int succeeded = reply && server.CallReplyType(reply) != REPLY_IS_ERROR;
    if (reply)
        server.FreeCallReply(reply);
    return succeeded;
}

static jc_status write(struct play *play, jc_status request) {
    struct cache *cache = play->cache;
    int succeeds = play->writes == ALL_SUCCEED || play->wrote < play->writes;
    if (succeeds && play->stream)
        succeeds = streamed(play, request);
    if (succeeds) {
        play->wrote++;
        return jc_written(&cache->manager, cache->id);
    }
    play->failed = 1;
    return jc_write_failed(&cache->manager, cache->id);
}

/* A part of an item that is shown, as a message has it. */
typedef jc_status part_function(struct jc_manager *, uint32_t, size_t, uint8_t *, size_t, size_t *);
struct part {
    part_function *read;
    uint8_t *bytes;
    size_t room, len;
};

/* Publishes an event on the shard channel of the cache's name: its kind, the lengths of key, value
 * and value before, or - where there is none, a line's end; then these three. */
static void publish(struct play *play, size_t item) {
    static const char *const kinds[] = {"created", "updated", "removed", "expired"};
    struct part parts[] = {
        {jc_key, key_bytes, MOST_KEY, 0},
        {jc_value, value_bytes, MOST_VALUE, 0},
        {jc_before, before_bytes, MOST_VALUE, 0},
    };
    struct cache *cache = play->cache;
    uint64_t kind = 0;
    char head[96];
    jc_number(&cache->manager, cache->id, item, &kind);
    size_t at = (size_t)sprintf(head, "%s", kinds[kind & 3]), len = 0;
    for (struct part *part = parts; part < parts + 3; part++) {
        jc_status status =
            part->read(&cache->manager, cache->id, item, part->bytes, part->room, &part->len);
        at += (size_t)(status == JC_NO_ITEM ? sprintf(head + at, " -")
                                            : sprintf(head + at, " %zu", part->len));
        len += part->len;
    }
    head[at++] = '\n';
    char *bytes = server.Alloc(at + len), *end = bytes + at;
    memcpy(bytes, head, at);
    for (struct part *part = parts; part < parts + 3; end += part->len, part++)
        memcpy(end, part->bytes, part->len);
    struct word *message = server.CreateString(NULL, bytes, at + len);
    server.PublishMessageShard(play->context, play->name, message);
    server.FreeString(NULL, message);
    server.Free(bytes);
}

/* Events are told where the call is made, and by the master alone. */
static jc_status tell(struct play *play) {
    struct cache *cache = play->cache;
    size_t count = 0;
    jc_items(&cache->manager, cache->id, &count);
    int is_told = !play->is_repeated && server.GetContextFlags(play->context) & IS_MASTER;
    for (size_t i = 0; is_told && i < count; i++)
        publish(play, i);
    return jc_told(&cache->manager, cache->id);
}

jc_status answer(struct play *play, jc_status request) {
    struct cache *cache = play->cache;
    switch (request) {
    case JC_NEED_LOAD:
        return load(play);
    case JC_NEED_PROCESS:
        return process(&cache->manager, cache->id, cache->settings.max_value);
    case JC_NEED_TELL:
        return tell(play);
    default:
        return write(play, request);
    }
}
