/* creating.c: the commands that make, end, save and tell of a whole cache. */
#include "commands.h"
#include "heap.h"
#include "keys.h"
#include "processors.h"
#include "replies.h"

static const char *const policies[] = {"ETERNAL", "CREATED", "ACCESSED", "MODIFIED", "TOUCHED"};
enum { POLICIES = sizeof policies / sizeof *policies };

/* Opens a key that is to become a cache; or NULL, and that it exists is replied. */
static struct open_key *opened_empty(struct context *context, struct word *name) {
    struct open_key *key = server.OpenKey(context, name, OPEN_TO_READ | OPEN_TO_WRITE);
    if (server.KeyType(key) == KEY_IS_EMPTY)
        return key;
    server.ReplyWithError(context, "JCEXISTS the key exists");
    server.CloseKey(key);
    return NULL;
}

/* Replicas and logs can't be refused memory that their master had. */
static void take_by(struct context *context) {
    take_always((server.GetContextFlags(context) & (IS_REPEATED | IS_LOADING)) != 0);
}

/* The words of a command, as they are read. */
struct reading {
    struct context *context;
    struct word **words;
    int count, at;
};

static int wanted(struct reading *reading, const char *message) {
    server.ReplyWithError(reading->context, message);
    return 0;
}

/* Reads a number up to `most` behind a word; or that it is wanted is replied. */
static int number_behind(struct reading *reading, uint64_t most, uint64_t *out) {
    reading->at++;
    if (reading->at < reading->count && number_of(reading->words[reading->at], out) && *out <= most)
        return 1;
    return wanted(
        reading, "JCSYNTAX a number is wanted behind each policy but ETERNAL, MAXVALUE and MOMENT");
}

/* The policy that a word names; or POLICIES. */
static uint32_t policy_named(const struct word *word) {
    uint32_t policy = 0;
    while (policy < POLICIES && !is_word(word, policies[policy]))
        policy++;
    return policy;
}

/* Reads what is told by a word, with its number. Whether it is known; else that is replied. */
static int read_setting(struct reading *reading, struct jc_settings *out) {
    struct word *word = reading->words[reading->at];
    uint32_t policy = policy_named(word);
    uint64_t most = 0;
    if (policy < POLICIES) {
        out->policy = policy;
        out->duration = 0;
        return policy == JC_ETERNAL || number_behind(reading, UINT64_MAX, &out->duration);
    }
    if (is_word(word, "MAXVALUE")) {
        int is_number = number_behind(reading, MOST_VALUE, &most);
        out->max_value = (uint32_t)most;
        return is_number;
    }
    if (is_word(word, "LOADER"))
        out->loader = 1;
    else if (is_word(word, "WRITER"))
        out->writer = 1;
    else if (is_word(word, "LISTENERS"))
        out->listeners = 1;
    else
        return wanted(reading,
                      "JCSYNTAX a policy, LOADER, WRITER, LISTENERS or MAXVALUE is wanted");
    return 1;
}

/* Reads what stands behind a capacity. Whether all of it is known; else that is replied. */
static int read_settings(struct reading *reading, struct jc_settings *out) {
    for (; reading->at < reading->count; reading->at++)
        if (!read_setting(reading, out))
            return 0;
    return 1;
}

/* JC.CREATE cache capacity [policy] [LOADER] [WRITER] [LISTENERS] [MAXVALUE bytes] */
int create_command(struct context *context, struct word **words, int count) {
    struct jc_settings settings = {.policy = JC_ETERNAL};
    uint64_t capacity;
    jc_status status;
    if (count < 3)
        return server.WrongArity(context);
    if (!number_of(words[2], &capacity))
        return server.ReplyWithError(context, "JCSYNTAX a capacity is a number");
    settings.capacity = capacity > UINT32_MAX ? UINT32_MAX : (uint32_t)capacity;
    struct reading reading = {context, words, count, 3};
    if (!read_settings(&reading, &settings))
        return SERVER_OK;
    struct open_key *key = opened_empty(context, words[1]);
    if (!key)
        return SERVER_OK;
    take_by(context);
    struct cache *cache = new_cache(&settings, &status);
    take_always(0);
    if (cache) {
        set_cache(context, key, words[1], cache);
        server.ReplicateVerbatim(context);
        server.ReplyWithSimpleString(context, "OK");
    } else {
        refuse(context, status);
    }
    server.CloseKey(key);
    return SERVER_OK;
}

/* Reads what stands behind saved bytes. Whether all of it is known; else that is replied. */
static int read_saved(struct reading *reading, struct saved *out) {
    for (; reading->at < reading->count; reading->at++) {
        struct word *word = reading->words[reading->at];
        int is_most = is_word(word, "MAXVALUE");
        if (!is_most && !is_word(word, "MOMENT"))
            return wanted(reading, "JCSYNTAX MAXVALUE or MOMENT is wanted");
        if (!number_behind(reading, is_most ? MOST_VALUE : UINT64_MAX,
                           is_most ? &out->max_value : &out->latest))
            return 0;
    }
    return 1;
}

/* JC.RESTORE cache bytes [MAXVALUE bytes] [MOMENT milliseconds] */
int restore_command(struct context *context, struct word **words, int count) {
    struct saved saved = {0};
    struct refused refused;
    if (count < 3)
        return server.WrongArity(context);
    struct text bytes = text_of(words[2]);
    saved.bytes = bytes.at;
    saved.len = bytes.len;
    struct reading reading = {context, words, count, 3};
    if (!read_saved(&reading, &saved))
        return SERVER_OK;
    struct open_key *key = opened_empty(context, words[1]);
    if (!key)
        return SERVER_OK;
    take_by(context);
    struct cache *cache = restored_cache(&saved, &refused);
    take_always(0);
    if (cache) {
        set_cache(context, key, words[1], cache);
        server.ReplicateVerbatim(context);
        server.ReplyWithSimpleString(context, "OK");
    } else {
        refuse_bytes(context, &refused);
    }
    server.CloseKey(key);
    return SERVER_OK;
}

/* JC.DESTROY cache */
int destroy_command(struct context *context, struct word **words, int count) {
    if (count != 2)
        return server.WrongArity(context);
    struct open_key *key = server.OpenKey(context, words[1], OPEN_TO_READ | OPEN_TO_WRITE);
    if (cache_of(context, key)) {
        server.DeleteKey(key);
        server.ReplicateVerbatim(context);
        server.NotifyKeyspaceEvent(context, NOTIFY_MODULE, "jc.destroy", words[1]);
        server.ReplyWithSimpleString(context, "OK");
    }
    server.CloseKey(key);
    return SERVER_OK;
}

/* JC.SAVE cache */
int save_command(struct context *context, struct word **words, int count) {
    if (count != 2)
        return server.WrongArity(context);
    struct open_key *key = server.OpenKey(context, words[1], OPEN_TO_READ);
    struct cache *cache = cache_of(context, key);
    if (cache) {
        size_t len;
        uint8_t *bytes = saved_bytes(cache, &len);
        server.ReplyWithStringBuffer(context, (const char *)bytes, len);
        server.Free(bytes);
    }
    if (key)
        server.CloseKey(key);
    return SERVER_OK;
}

static void reply_number(struct context *context, const char *name, uint64_t number) {
    server.ReplyWithSimpleString(context, name);
    server.ReplyWithLongLong(context, number > INT64_MAX ? INT64_MAX : (long long)number);
}

/* JC.SETTINGS cache */
int settings_command(struct context *context, struct word **words, int count) {
    if (count != 2)
        return server.WrongArity(context);
    struct open_key *key = server.OpenKey(context, words[1], OPEN_TO_READ);
    struct cache *cache = cache_of(context, key);
    if (cache) {
        size_t here = 0;
        jc_rows(&cache->manager, cache->id, &here);
        server.ReplyWithMap(context, 9);
        reply_number(context, "capacity", cache->settings.capacity);
        server.ReplyWithSimpleString(context, "policy");
        server.ReplyWithSimpleString(context, policies[cache->settings.policy]);
        reply_number(context, "duration", cache->settings.duration);
        reply_number(context, "loader", cache->settings.loader);
        reply_number(context, "writer", cache->settings.writer);
        reply_number(context, "listeners", cache->settings.listeners);
        reply_number(context, "maxvalue", cache->settings.max_value);
        reply_number(context, "rows", here);
        reply_number(context, "memory", memory_of(cache));
    }
    if (key)
        server.CloseKey(key);
    return SERVER_OK;
}
