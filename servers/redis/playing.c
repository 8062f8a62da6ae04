/* playing.c: a call from its beginning to its reply, as it is made and as it is replicated. */
#include "playing.h"
#include "answers.h"
#include "heap.h"
#include "keys.h"
#include "replies.h"
#include <stdio.h>
#include <stdlib.h>

int open_play(struct play *play) {
    struct context *context = play->context;
    int keeps = play->call->flags & KEEPS_ROWS;
    if (!takes(play->call, play->count))
        return server.WrongArity(context), 0;
    play->key =
        server.OpenKey(context, play->name, keeps ? OPEN_TO_READ : OPEN_TO_READ | OPEN_TO_WRITE);
    play->cache = cache_of(context, play->key);
    if (!play->cache)
        return close_play(play), 0;
    int is_stray = play->call->flags & MAY_WRITE && play->cache->settings.writer && !play->stream &&
                   !play->moment;
    if (is_stray) {
        server.ReplyWithError(
            context, "JCWRITER this cache writes: call it by JC.BEHIND cache stream CALL ..");
        return close_play(play), 0;
    }
    if (play->moment) /* only such a call comes to replicas and from logs */
        play->is_repeated = (server.GetContextFlags(context) & (IS_REPEATED | IS_LOADING)) != 0;
    else
        play->now = moment_of(play->cache);
    return 1;
}

void close_play(struct play *play) {
    if (play->key)
        server.CloseKey(play->key);
    play->key = NULL;
}

/* A word that stays, so that no call makes it anew: a call's name. */
static struct word *word_of_name(const struct call *call) {
    static struct word *names[CALLS];
    size_t place = (size_t)(call - calls);
    if (!names[place])
        names[place] = server.CreateString(NULL, call->name, strlen(call->name));
    return names[place];
}

/* A word that stays until another moment is wanted: many calls have the same. */
static struct word *word_of_moment(uint64_t moment) {
    static uint64_t latest;
    static struct word *word;
    char digits[24];
    if (word && latest == moment)
        return word;
    if (word)
        server.FreeString(NULL, word);
    latest = moment;
    return word = server.CreateString(NULL, digits,
                                      (size_t)sprintf(digits, "%llu", (unsigned long long)moment));
}

/* An accepted call, with its moment and with how many writes succeeded before one failed. */
static void replicate(struct play *play) {
    struct context *context = play->context;
    struct word *name = play->name, *call = word_of_name(play->call), **words = play->words;
    struct word *moment = play->moment ? play->moment : word_of_moment(play->now);
    if (play->failed)
        server.Replicate(context, "JC.AT", "ssclsv", name, moment, "WROTE", (long long)play->wrote,
                         call, words, (size_t)play->count);
    else if (play->count == 1)
        server.Replicate(context, "JC.AT", "ssss", name, moment, call, words[0]);
    else if (play->count == 2)
        server.Replicate(context, "JC.AT", "sssss", name, moment, call, words[0], words[1]);
    else
        server.Replicate(context, "JC.AT", "sssv", name, moment, call, words, (size_t)play->count);
}

/* Where no request is left, or the call was refused. Memory for answers is taken as the server
 * takes it: a call that has begun goes to its end, or replicas would part. So an answer is never
 * refused. */
static jc_status answered(struct play *play, jc_status status) {
    take_always(1);
    while (status >= JC_NEED_LOAD && status <= JC_NEED_TELL)
        if ((status = answer(play, status)) > JC_NEED_TELL)
            abort();
    take_always(0);
    return status;
}

/* Begins the call. Of a get the value is copied at once: it is what is called most. */
static jc_status begin(struct play *play) {
    static uint8_t value[MOST_VALUE];
    struct cache *cache = play->cache;
    if (play->call != &calls[GET])
        return begin_call(cache, play->call, play->now, play->words, play->count);
    struct text key = text_of(play->words[0]);
    jc_status status = jc_get_into(&cache->manager, cache->id, play->now, key.at, key.len, value,
                                   MOST_VALUE, &play->found_len);
    if (status == JC_FOUND)
        play->found = value;
    return status;
}

jc_status make(struct play *play) {
    struct cache *cache = play->cache;
    open_account(&cache->bytes);
    take_always(play->is_repeated);
    jc_status status = begin(play);
    if (status >= JC_NEED_LOAD && status <= JC_NEED_TELL)
        status = answered(play, status);
    take_always(0);
    close_account();
    if (status > JC_NEED_TELL || play->call->flags & IS_LOOK)
        return status;
    if (play->now > cache->latest)
        cache->latest = play->now;
    end_leases_of(cache, play->call, play->words, play->count);
    replicate(play);
    return status;
}

void reply(struct play *play, jc_status status) {
    if (play->found)
        server.ReplyWithStringBuffer(play->context, (const char *)play->found, play->found_len);
    else
        reply_to_call(play->context, play->cache, status);
}
