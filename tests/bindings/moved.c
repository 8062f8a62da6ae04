/* Random calls on a cache that stays and on one that is saved, restored in another manager under another name and id, and
 * goes on, again and again: equal statuses, equal items and numbers, equal settings and saved bytes. */
#include "jcache.h"
#include <stdio.h>
#include <stdlib.h>

#define WANT(test) ((test) ? (void)0 : fail(__LINE__, #test))
#define OF(bytes) (const uint8_t *)(bytes), strlen(bytes)

enum { LIVES = 40, CALLS = 500, SHOWN = 1 << 14 };

static void fail(int line, const char *test) {
    printf("line %d: %s\n", line, test);
    exit(1);
}

/* A cache in its manager. */
struct place {
    struct jc_manager *m;
    uint32_t id;
};

static struct jc_manager stays_in, moves_in[2];
static uint32_t drawn = 7, names;

static uint32_t below(uint32_t limit) {
    drawn ^= drawn << 13;
    drawn ^= drawn >> 17;
    drawn ^= drawn << 5;
    return drawn % limit;
}

static const char *const keys[] = {"a", "bb", "ccc", "\xc3\xa9", "key-4", "key-5", "key-6", "key-7"};
static const char *const values[] = {"", "v", "two", "three", "a longer value", "0123456789012345678901234567890123456789"};

typedef jc_status whole(struct jc_manager *, uint32_t, uint64_t);
typedef jc_status one(struct jc_manager *, uint32_t, uint64_t, const uint8_t *, size_t);
typedef jc_status two(struct jc_manager *, uint32_t, uint64_t, const uint8_t *, size_t, const uint8_t *, size_t);
typedef jc_status many(struct jc_manager *, uint32_t, uint64_t, const uint32_t *, size_t, const uint8_t *, size_t);

static whole *const wholes[] = {jc_remove_all, jc_clear, jc_entries, jc_stats, jc_clear_stats};
static one *const ones[] = {jc_get, jc_get, jc_contains, jc_remove, jc_get_and_remove};
static two *const twos[] = {jc_put, jc_put, jc_get_and_put, jc_put_if_absent, jc_replace, jc_get_and_replace, jc_remove_if};
static many *const manys[] = {jc_get_all, jc_remove_keys};

/* A call: of which kind, which one of its kind, and what it is given. */
struct call {
    uint32_t kind, choice, first, count;
    uint64_t now;
    const char *key, *value, *other;
};

static struct call draw(uint64_t now) {
    struct call c = {.kind = below(16), .choice = below(420), .first = below(8), .count = below(5), .now = now};
    c.key = keys[below(8)];
    c.value = values[below(6)];
    c.other = values[below(6)];
    return c;
}

/* Calls on some keys that follow each other, with a value for each. */
static jc_status begin_many(struct place at, const struct call *c) {
    uint32_t lengths[8];
    struct jc_pair_lengths pairs[8];
    char all[80] = "", both[800] = "";
    for (uint32_t n = 0; n < c->count; n++) {
        const char *key = keys[(c->first + n) % 8];
        lengths[n] = (uint32_t)strlen(key);
        pairs[n] = (struct jc_pair_lengths){lengths[n], (uint32_t)strlen(c->value)};
        strcat(all, key);
        strcat(strcat(both, key), c->value);
    }
    if (c->choice % 5 == 0)
        return jc_put_all(at.m, at.id, c->now, pairs, c->count, OF(both));
    if (c->choice % 5 == 1)
        return jc_load_all(at.m, at.id, c->now, lengths, c->count, OF(all), c->choice % 2);
    if (c->choice % 5 == 2)
        return jc_invoke_all(at.m, at.id, c->now, lengths, c->count, OF(all), (uint8_t)(c->choice % 2), OF(c->other));
    return manys[c->choice % 2](at.m, at.id, c->now, lengths, c->count, OF(all));
}

static jc_status begin(struct place at, const struct call *c) {
    if (c->kind == 0)
        return wholes[c->choice % 5](at.m, at.id, c->now);
    if (c->kind < 6)
        return ones[c->choice % 5](at.m, at.id, c->now, OF(c->key));
    if (c->kind < 12)
        return twos[c->choice % 7](at.m, at.id, c->now, OF(c->key), OF(c->value));
    if (c->kind == 12)
        return jc_replace_if(at.m, at.id, c->now, OF(c->key), OF(c->other), OF(c->value));
    if (c->kind == 13)
        return jc_invoke(at.m, at.id, c->now, OF(c->key), (uint8_t)(c->choice % 2), OF(c->other));
    return begin_many(at, c);
}

/* One of the answers to a request, and now and then none. */
static jc_status answer(struct place at, jc_status asked, uint32_t choice, const char *value) {
    if (choice == 0)
        return jc_give_up(at.m, at.id);
    if (asked == JC_NEED_TELL)
        return jc_told(at.m, at.id);
    if (asked == JC_NEED_WRITE || asked == JC_NEED_DELETE)
        return choice < 4 ? jc_write_failed(at.m, at.id) : jc_written(at.m, at.id);
    if (asked == JC_NEED_PROCESS)
        return choice < 4 ? jc_process_failed(at.m, at.id)
                          : jc_processed(at.m, at.id, choice % 3, OF(value), choice % 2, OF(value));
    if (choice < 4)
        return jc_load_failed(at.m, at.id);
    return choice < 10 ? jc_loaded_nothing(at.m, at.id) : jc_loaded(at.m, at.id, OF(value));
}

typedef jc_status part(struct jc_manager *, uint32_t, size_t, uint8_t *, size_t, size_t *);
static part *const parts[] = {jc_key, jc_value, jc_before, jc_argument};

/* All that is shown of a cache, as bytes. */
static size_t shown(struct place at, uint8_t *out) {
    size_t count = 0, end = 0;
    uint64_t number;
    WANT(jc_items(at.m, at.id, &count) == JC_DONE);
    for (size_t n = 0; n < 4 * count; n++) {
        size_t len = 0;
        WANT(end + 100 < SHOWN);
        jc_status status = parts[n % 4](at.m, at.id, n / 4, out + end + 1, 64, &len);
        WANT(status == JC_DONE || status == JC_NO_ITEM);
        out[end] = (uint8_t)status;
        end += 1 + len;
    }
    for (size_t n = 0; jc_number(at.m, at.id, n, &number) == JC_DONE; n++, end += sizeof number)
        memcpy(out + end, &number, sizeof number);
    return end;
}

static void show_the_same(struct place stays, struct place moves) {
    static uint8_t is[SHOWN], other[SHOWN];
    size_t len = shown(stays, is);
    WANT(shown(moves, other) == len && !memcmp(is, other, len));
}

/* A cache's bytes. */
static size_t saved(struct place at, uint8_t *out) {
    size_t len = 0;
    WANT(jc_save(at.m, at.id, out, SHOWN, &len) == JC_DONE);
    return len;
}

/* Of two caches: saved bytes, and the settings that are not among them. */
static void are_the_same(struct place stays, struct place moves) {
    static uint8_t is[SHOWN], other[SHOWN];
    struct jc_settings settings, others;
    uint8_t wants[2], more[2];
    size_t len = saved(stays, is), count, many;
    WANT(saved(moves, other) == len && !memcmp(is, other, len));
    WANT(jc_settings_of(stays.m, stays.id, &settings, wants, 2, &count) == JC_DONE && count == 2);
    WANT(jc_settings_of(moves.m, moves.id, &others, more, 2, &many) == JC_DONE && many == 2);
    WANT(settings.max_value == others.max_value && !memcmp(wants, more, 2));
}

/* One call with all its answers, by both. */
static void call(struct place stays, struct place moves, uint64_t now) {
    struct call c = draw(now);
    jc_status status = begin(stays, &c);
    WANT(begin(moves, &c) == status && status != JC_OUT_OF_MEMORY);
    if (status >= JC_NO_SUCH_CACHE)
        return;
    show_the_same(stays, moves);
    while (status >= JC_NEED_LOAD && status <= JC_NEED_TELL) {
        uint32_t choice = below(40);
        const char *value = values[below(6)];
        jc_status asked = status;
        status = answer(stays, asked, choice, value);
        WANT(answer(moves, asked, choice, value) == status);
        if (status == JC_BAD_VALUE)
            status = asked;
        show_the_same(stays, moves);
    }
}

/* Whether the cache that a manager began with is as it was when it was first asked for. */
static void keeps_others(struct jc_manager *m) {
    static uint8_t first[SHOWN], is[SHOWN];
    static size_t len;
    struct place other = {m, 0};
    if (!len)
        len = saved(other, first);
    WANT(saved(other, is) == len && !memcmp(is, first, len));
}

/* The cache goes on in the other manager, and ends where it was. */
static struct place moved(struct place from) {
    static uint8_t bytes[SHOWN];
    struct jc_settings settings;
    uint8_t wants[2];
    char name[16];
    size_t len = saved(from, bytes), count, place;
    struct place to = {from.m == moves_in ? moves_in + 1 : moves_in, 0};
    WANT(jc_settings_of(from.m, from.id, &settings, wants, 2, &count) == JC_DONE);
    snprintf(name, sizeof name, "moved-%u", ++names);
    keeps_others(to.m);
    WANT(jc_restore(to.m, OF(name), bytes, len, settings.max_value, &to.id, &place) == JC_DONE && to.id > 0);
    keeps_others(to.m);
    WANT(jc_destroy(from.m, from.id) == JC_DONE);
    keeps_others(from.m);
    return to;
}

static struct place create(struct jc_manager *m, const struct jc_settings *settings, const uint8_t *wants) {
    struct place at = {m, 0};
    WANT(jc_create(m, JC_TEXT("here"), settings, wants, 2, &at.id) == JC_DONE);
    return at;
}

static void live(void) {
    struct jc_settings settings = {.capacity = 1 + below(6), .policy = below(5), .duration = below(30)};
    const uint8_t wants[] = {(uint8_t)below(2), (uint8_t)below(2)};
    uint64_t now = below(100);
    settings.loader = (uint8_t)below(2);
    settings.writer = (uint8_t)below(2);
    settings.listeners = (uint8_t)below(2);
    settings.max_value = 14 * below(3);
    struct place stays = create(&stays_in, &settings, wants), moves = create(moves_in, &settings, wants);
    for (int n = 0; n < CALLS; n++) {
        now += below(4);
        call(stays, moves, below(30) ? now : below(100));
        if (below(12))
            continue;
        moves = moved(moves);
        are_the_same(stays, moves);
    }
    WANT(jc_destroy(stays.m, stays.id) == JC_DONE && jc_destroy(moves.m, moves.id) == JC_DONE);
}

int main(void) {
    const struct jc_settings plain = {.capacity = 9};
    uint32_t id;
    WANT(jc_open(&stays_in, 1) == JC_DONE && jc_open(moves_in, 2) == JC_DONE && jc_open(moves_in + 1, 3) == JC_DONE);
    for (int n = 0; n < 2; n++) {
        WANT(jc_create(moves_in + n, JC_TEXT("other"), &plain, JC_EMPTY, &id) == JC_DONE);
        WANT(jc_put(moves_in + n, id, 5, JC_TEXT("key-4"), JC_TEXT("kept")) == JC_DONE);
    }
    for (int n = 0; n < LIVES; n++)
        live();
    WANT(jc_close(&stays_in) == JC_DONE && jc_close(moves_in) == JC_DONE && jc_close(moves_in + 1) == JC_DONE);
    puts("ok");
    return 0;
}
