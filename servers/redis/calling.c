/* calling.c: the commands that make a call. */
#include "commands.h"
#include "playing.h"
#include "replies.h"

/* Makes the call, and replies what it comes to. */
static int call(struct play *play) {
    if (open_play(play)) {
        jc_status status = make(play);
        reply(play, status);
        close_play(play);
    }
    return SERVER_OK;
}

/* A call whose words stand behind the cache, until a command says otherwise. */
static struct play play_of(struct context *context, enum call_name name, struct word **words,
                           int count) {
    return (struct play){
        .context = context,
        .name = words[1],
        .call = &calls[name],
        .words = words + 2,
        .count = count - 2,
        .writes = ALL_SUCCEED,
    };
}

#define CALL_COMMAND(name, call_name) \
    int name##_command(struct context *context, struct word **words, int count) { \
        if (count < 2) \
            return server.WrongArity(context); \
        struct play play = play_of(context, call_name, words, count); \
        return call(&play); \
    }
CALL_COMMANDS(CALL_COMMAND)
#undef CALL_COMMAND

/* Whether the cache has a loader; else that is replied. */
static int loads(struct play *play) {
    if (play->cache->settings.loader)
        return 1;
    server.ReplyWithError(play->context, "JCNOLOADER the cache was created without LOADER");
    return 0;
}

/* The value; or a lease's token, or null where another has it. */
static void get_or_lease(struct play *play, uint64_t milliseconds) {
    jc_status status = make(play);
    if (status != JC_NOTHING) {
        reply(play, status);
        return;
    }
    uint64_t now = clock_moment(), until = now + milliseconds;
    uint64_t token =
        lease(&play->cache->leases, text_of(play->words[0]), until < now ? UINT64_MAX : until);
    if (token)
        server.ReplyWithLongLong(play->context, (long long)token);
    else
        server.ReplyWithNull(play->context);
}

/* JC.GET cache key [LEASE milliseconds] */
int get_command(struct context *context, struct word **words, int count) {
    uint64_t milliseconds;
    if (count != 3 && count != 5)
        return server.WrongArity(context);
    struct play play = play_of(context, GET, words, 3);
    if (count == 3)
        return call(&play);
    if (!is_word(words[3], "LEASE") || !number_of(words[4], &milliseconds) || !milliseconds)
        return server.ReplyWithError(context,
                                     "JCSYNTAX LEASE and a number of milliseconds are wanted");
    if (open_play(&play)) {
        if (loads(&play))
            get_or_lease(&play, milliseconds);
        close_play(&play);
    }
    return SERVER_OK;
}

/* LOADALL KEEP key value, if the key's lease is this token's, or where there is neither. */
static void fill(struct play *play, uint64_t token) {
    struct leases *leases = &play->cache->leases;
    if (lease_of(leases, text_of(play->words[1])) != token) {
        server.ReplyWithLongLong(play->context, 0);
        return;
    }
    jc_status status = make(play);
    if (status == JC_DONE)
        server.ReplyWithLongLong(play->context, play->loaded);
    else
        reply(play, status);
}

/* JC.FILL cache key value [TOKEN token] */
int fill_command(struct context *context, struct word **words, int count) {
    uint64_t token = 0;
    if (count != 4 && count != 6)
        return server.WrongArity(context);
    if (count == 6 && (!is_word(words[4], "TOKEN") || !number_of(words[5], &token)))
        return server.ReplyWithError(context, "JCSYNTAX TOKEN and a number are wanted");
    struct word *keep = server.CreateString(NULL, "KEEP", 4);
    struct word *loaded[] = {keep, words[2], words[3]};
    struct play play = play_of(context, LOADALL, words, count);
    play.words = loaded;
    play.count = 3;
    if (open_play(&play)) {
        if (loads(&play))
            fill(&play, token);
        close_play(&play);
    }
    server.FreeString(NULL, keep);
    return SERVER_OK;
}

/* JC.RELEASE cache key token: ends a lease whose value is not to be had. Whether it was this
 * token's. */
int release_command(struct context *context, struct word **words, int count) {
    uint64_t token;
    if (count != 4)
        return server.WrongArity(context);
    if (!number_of(words[3], &token) || !token)
        return server.ReplyWithError(context, "JCSYNTAX a token is a number");
    struct play play = play_of(context, GET, words, 3);
    if (open_play(&play)) {
        struct text key = text_of(words[2]);
        int was_its = lease_of(&play.cache->leases, key) == token;
        if (was_its)
            end_lease(&play.cache->leases, key);
        server.ReplyWithLongLong(context, was_its);
        close_play(&play);
    }
    return SERVER_OK;
}

/* The call whose name is this word; or NULL, and that is replied. */
static const struct call *named(struct context *context, const struct word *name) {
    const struct call *call = call_named(name);
    if (!call)
        server.ReplyWithError(context, "JCSYNTAX there is no such call");
    return call;
}

/* JC.BEHIND cache stream CALL word ..: the call, whose writes are added to the stream. */
int behind_command(struct context *context, struct word **words, int count) {
    if (count < 4)
        return server.WrongArity(context);
    struct play play = play_of(context, GET, words, count);
    play.stream = words[2];
    play.words = words + 4;
    play.count = count - 4;
    play.call = named(context, words[3]);
    return play.call ? call(&play) : SERVER_OK;
}

/* JC.AT cache moment [WROTE count] CALL word ..: the call at a moment, whose writes were added
 * elsewhere. */
int at_command(struct context *context, struct word **words, int count) {
    uint64_t wrote = 0;
    if (count < 4)
        return server.WrongArity(context);
    int at = is_word(words[3], "WROTE") && count > 5 ? 5 : 3;
    struct play play = play_of(context, GET, words, count);
    play.moment = words[2];
    play.words = words + at + 1;
    play.count = count - at - 1;
    if (!number_of(words[2], &play.now))
        return server.ReplyWithError(context, "JCSYNTAX a moment is a number of milliseconds");
    if (at == 5 && (!number_of(words[4], &wrote) || wrote > 65536))
        return server.ReplyWithError(context, "JCSYNTAX WROTE is followed by a number");
    if (at == 5)
        play.writes = (int)wrote;
    play.call = named(context, words[at]);
    return play.call ? call(&play) : SERVER_OK;
}
