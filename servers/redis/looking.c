/* looking.c: the commands that look at rows. They change nothing, are no calls, and are not
 * replicated. */
#include "commands.h"
#include "keys.h"
#include "replies.h"

static uint8_t value_bytes[MOST_VALUE];

static void reply_moment(struct context *context, uint64_t expires) {
    if (expires == JC_NEVER)
        server.ReplyWithNull(context);
    else
        server.ReplyWithLongLong(context, expires > INT64_MAX ? INT64_MAX : (long long)expires);
}

/* JC.PEEK cache key: the value, and the moment at which it expires or null. */
int peek_command(struct context *context, struct word **words, int count) {
    if (count != 3)
        return server.WrongArity(context);
    struct open_key *key = server.OpenKey(context, words[1], OPEN_TO_READ);
    struct cache *cache = cache_of(context, key);
    if (cache) {
        struct text text = text_of(words[2]);
        uint64_t expires = JC_NEVER;
        size_t len = 0;
        jc_status status = jc_peek(&cache->manager, cache->id, moment_of(cache), text.at, text.len,
                                   &expires, value_bytes, MOST_VALUE, &len);
        if (status != JC_FOUND) {
            reply_to_call(context, cache, status);
        } else {
            server.ReplyWithArray(context, 2);
            server.ReplyWithStringBuffer(context, (const char *)value_bytes, len);
            reply_moment(context, expires);
        }
    }
    if (key)
        server.CloseKey(key);
    return SERVER_OK;
}

/* A number of so many bytes, the low one first. */
static uint64_t number_at(const uint8_t *at, int bytes) {
    uint64_t number = 0;
    while (bytes--)
        number = number << 8 | at[bytes];
    return number;
}

/* A row as jc_walk writes it: 8 bytes of its moment, 1 of its key's length, 2 of its value's, the
 * key, the value. */
enum { ROW_HEAD = 11, MOST_ROW = 65609, LEAST_STEP = 16384, MOST_STEP = 1 << 24 };

struct walked {
    const uint8_t *key, *value;
    size_t key_len, value_len;
    uint64_t expires;
};

static const uint8_t *next_row(const uint8_t *at, struct walked *row) {
    row->expires = number_at(at, 8);
    row->key_len = at[8];
    row->value_len = number_at(at + 9, 2);
    row->key = at + ROW_HEAD;
    row->value = row->key + row->key_len;
    return row->value + row->value_len;
}

/* The rows that are live at a moment, each as key, value and the moment at which it expires or
 * null. */
static void reply_rows(struct context *context, const uint8_t *at, const uint8_t *end,
                       uint64_t now) {
    struct walked row;
    long live = 0;
    for (const uint8_t *it = at; it < end; live += row.expires == JC_NEVER || row.expires > now)
        it = next_row(it, &row);
    server.ReplyWithArray(context, live);
    while (at < end) {
        at = next_row(at, &row);
        if (row.expires != JC_NEVER && row.expires <= now)
            continue;
        server.ReplyWithArray(context, 3);
        server.ReplyWithStringBuffer(context, (const char *)row.key, row.key_len);
        server.ReplyWithStringBuffer(context, (const char *)row.value, row.value_len);
        reply_moment(context, row.expires);
    }
}

static void reply_step(struct context *context, struct cache *cache, uint32_t from, size_t room) {
    uint8_t *rows_bytes = server.Alloc(room < MOST_ROW ? MOST_ROW : room);
    size_t len = 0;
    uint32_t next = 0;
    jc_status status = jc_walk(&cache->manager, cache->id, from, rows_bytes, room, &len, &next);
    if (status == JC_SHORT_BUFFER)
        status = jc_walk(&cache->manager, cache->id, from, rows_bytes, MOST_ROW, &len, &next);
    if (status != JC_LISTED)
        next = 0, len = 0;
    server.ReplyWithArray(context, 2);
    server.ReplyWithLongLong(context, next);
    reply_rows(context, rows_bytes, rows_bytes + len, moment_of(cache));
    server.Free(rows_bytes);
}

/* JC.SCAN cache cursor [BYTES bytes]: the next cursor, 0 at the end, and rows of about so many
 * bytes. */
int scan_command(struct context *context, struct word **words, int count) {
    uint64_t from, room = LEAST_STEP;
    if (count != 3 && count != 5)
        return server.WrongArity(context);
    if (!number_of(words[2], &from) || from > UINT32_MAX)
        return server.ReplyWithError(context, "JCSYNTAX a cursor is a number");
    if (count == 5 &&
        (!is_word(words[3], "BYTES") || !number_of(words[4], &room) || room > MOST_STEP))
        return server.ReplyWithError(context,
                                     "JCSYNTAX BYTES and a number up to 16777216 are wanted");
    struct open_key *key = server.OpenKey(context, words[1], OPEN_TO_READ);
    struct cache *cache = cache_of(context, key);
    if (cache)
        reply_step(context, cache, (uint32_t)from, room);
    if (key)
        server.CloseKey(key);
    return SERVER_OK;
}
