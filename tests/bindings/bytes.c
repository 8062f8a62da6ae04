/* A manager as bytes and numbers ask it: what is refused before it is asked, keys, values and lists at their limits, and
 * what is copied out, in full, in part, or not at all. */
#include "jcache.h"
#include <stdio.h>
#include <stdlib.h>

#define WANT(test) ((test) ? (void)0 : fail(__LINE__, #test))
#define NONE 99

static void fail(int line, const char *test) {
    printf("line %d: %s\n", line, test);
    exit(1);
}

static struct jc_manager m;
static const struct jc_settings settings = {.capacity = 2, .policy = JC_ETERNAL, .loader = 1};
static const uint8_t wants[] = {1, 0};

/* Whether a cache of this name comes to a status, and to an id; none where none is given. */
static int creates(const char *name, const struct jc_settings *with, jc_status status, uint32_t wanted) {
    uint32_t id = NONE;
    return jc_create(&m, JC_TEXT(name), with, wants, 2, &id) == status && id == wanted;
}

static int finds(const char *name, jc_status status, uint32_t wanted) {
    uint32_t id = NONE;
    return jc_find(&m, JC_TEXT(name), &id) == status && id == wanted;
}

typedef jc_status part(struct jc_manager *, uint32_t, size_t, uint8_t *, size_t, size_t *);

/* Whether a part of a cache's first item, into so many of four bytes, comes to a status and a length, and leaves these. */
static int copies(part *copy, uint32_t id, size_t room, jc_status status, size_t wanted, const char *bytes) {
    uint8_t into[4] = {'.', '.', '.', '.'};
    size_t len = NONE;
    return copy(&m, id, 0, into, room, &len) == status && len == wanted && !memcmp(into, bytes, 4);
}

static int number_is(size_t place, jc_status status, uint64_t wanted) {
    uint64_t number = NONE;
    return jc_number(&m, 0, place, &number) == status && number == wanted;
}

static void managed(void) {
    struct jc_settings no_room = settings, strange = settings, later = settings;
    no_room.capacity = 0;
    strange.policy = 5;
    later.reserved = 1;
    WANT(creates("a", &settings, JC_DONE, 0));
    WANT(creates("a", &settings, JC_DUPLICATE_NAME, NONE));
    WANT(creates("b", &no_room, JC_BAD_CAPACITY, NONE));
    WANT(creates("b", &strange, JC_BAD_CHOICE, NONE));
    WANT(creates("b", &later, JC_BAD_CHOICE, NONE));
    WANT(creates("", &settings, JC_BAD_KEY, NONE));
    WANT(creates("b", &settings, JC_DONE, 1));
    WANT(finds("b", JC_DONE, 1));
    WANT(jc_destroy(&m, 1) == JC_DONE && jc_destroy(&m, 1) == JC_NO_SUCH_CACHE);
    WANT(finds("b", JC_NO_SUCH_CACHE, NONE));
}

static void loaded(void) {
    WANT(jc_get(&m, 0, 0, JC_TEXT("ann")) == JC_NEED_LOAD);
    WANT(jc_get(&m, 0, 0, JC_TEXT("ann")) == JC_BUSY);
    WANT(jc_destroy(&m, 0) == JC_BUSY);
    WANT(jc_told(&m, 0) == JC_WRONG_ANSWER);
    WANT(copies(jc_key, 0, 4, JC_DONE, 3, "ann."));
    WANT(jc_loaded(&m, 0, JC_TEXT("Ann Lee")) == JC_FOUND);
    WANT(copies(jc_value, 0, 3, JC_SHORT_BUFFER, 7, "Ann."));
    WANT(copies(jc_key, 0, 4, JC_NO_ITEM, NONE, "...."));
    WANT(copies(jc_key, 1, 4, JC_NO_SUCH_CACHE, NONE, "...."));
    WANT(jc_give_up(&m, 0) == JC_NO_TURN);
    WANT(jc_stats(&m, 0, 0) == JC_COUNTED);
    WANT(number_is(1, JC_DONE, 1) && number_is(5, JC_NO_ITEM, NONE));
}

static void listed(void) {
    const struct jc_pair_lengths pairs[] = {{1, 3}, {2, 0}};
    const uint32_t two[] = {1, 2}, same[] = {1, 1}, none[] = {0};
    static uint8_t long_value[65536];
    size_t count = NONE;
    WANT(jc_put_all(&m, 0, 0, pairs, 2, JC_TEXT("aonebb")) == JC_DONE);
    WANT(jc_put_all(&m, 0, 0, pairs, 2, JC_TEXT("aonebbb")) == JC_BAD_LENGTHS);
    WANT(jc_get_all(&m, 0, 0, two, 2, JC_TEXT("abb")) == JC_LISTED);
    WANT(jc_items(&m, 0, &count) == JC_DONE && count == 2);
    WANT(jc_get_all(&m, 0, 0, same, 2, JC_TEXT("aa")) == JC_DUPLICATE_KEY);
    WANT(jc_get_all(&m, 0, 0, none, 1, JC_EMPTY) == JC_BAD_KEY);
    WANT(jc_invoke(&m, 0, 0, JC_TEXT("a"), 2, JC_EMPTY) == JC_NO_SUCH_PROCESSOR);
    WANT(jc_invoke(&m, 0, 0, JC_TEXT("a"), 1, JC_EMPTY) == JC_NEED_PROCESS);
    WANT(jc_processed(&m, 0, 3, JC_EMPTY, 0, JC_EMPTY) == JC_BAD_CHOICE);
    WANT(jc_processed(&m, 0, JC_KEEP, JC_EMPTY, 1, JC_TEXT("x")) == JC_FOUND);
    WANT(jc_put(&m, 0, 0, JC_TEXT("k"), long_value, sizeof long_value) == JC_BAD_VALUE);
}

/* The status of a list of so many keys of two bytes, and of as many pairs; the last key may be the first again. */
static jc_status list_of(size_t count, int repeats) {
    uint32_t lengths[65];
    struct jc_pair_lengths pairs[65];
    uint8_t keys[130];
    for (size_t n = 0; n < count; n++) {
        size_t number = repeats && n == count - 1 ? 0 : n;
        lengths[n] = 2;
        pairs[n] = (struct jc_pair_lengths){2, 0};
        keys[2 * n] = (uint8_t)('0' + number / 10);
        keys[2 * n + 1] = (uint8_t)('0' + number % 10);
    }
    jc_status removed = jc_remove_keys(&m, 0, 0, lengths, count, keys, 2 * count);
    WANT(jc_put_all(&m, 0, 0, pairs, count, keys, 2 * count) == removed);
    return removed;
}

static void limits(void) {
    uint8_t key[64];
    static uint8_t value[65536];
    memset(key, 'k', sizeof key);
    WANT(jc_contains(&m, 0, 0, key, 0) == JC_BAD_KEY && jc_contains(&m, 0, 0, key, 1) == JC_FALSE);
    WANT(jc_contains(&m, 0, 0, key, 63) == JC_FALSE && jc_contains(&m, 0, 0, key, 64) == JC_BAD_KEY);
    WANT(jc_put(&m, 0, 0, key, 1, value, 0) == JC_DONE && jc_put(&m, 0, 0, key, 1, value, 65535) == JC_DONE);
    WANT(jc_put(&m, 0, 0, key, 1, value, 65536) == JC_BAD_VALUE);
    WANT(list_of(0, 0) == JC_DONE && list_of(64, 0) == JC_DONE);
    WANT(list_of(2, 1) == JC_DUPLICATE_KEY && list_of(64, 1) == JC_DUPLICATE_KEY);
    WANT(list_of(65, 0) == JC_TOO_MANY_KEYS && list_of(65, 1) == JC_TOO_MANY_KEYS);
}

/* Whether a cache's keys and values have so many bytes. */
static int has_bytes(uint32_t id, uint64_t wanted) {
    uint64_t bytes = NONE;
    return jc_bytes(&m, id, &bytes) == JC_DONE && bytes == wanted;
}

/* A cache whose values have at most three bytes: each call and answer that may store one, and those that store none. */
static void bounded(void) {
    const struct jc_settings three = {.capacity = 2, .policy = JC_ETERNAL, .loader = 1, .max_value = 3};
    const struct jc_pair_lengths pairs[] = {{1, 3}, {1, 4}}, same[] = {{1, 4}, {1, 4}};
    const uint8_t *four = (const uint8_t *)"four";
    uint32_t id = NONE;
    WANT(jc_create(&m, JC_TEXT("three"), &three, wants, 2, &id) == JC_DONE && has_bytes(id, 0));
    WANT(jc_put(&m, id, 0, JC_TEXT("a"), four, 3) == JC_DONE && jc_put(&m, id, 0, JC_TEXT("a"), four, 4) == JC_BAD_VALUE);
    WANT(jc_get_and_put(&m, id, 0, JC_TEXT("a"), four, 4) == JC_BAD_VALUE);
    WANT(jc_put_if_absent(&m, id, 0, JC_TEXT("a"), four, 4) == JC_BAD_VALUE);
    WANT(jc_replace(&m, id, 0, JC_TEXT("a"), four, 4) == JC_BAD_VALUE);
    WANT(jc_replace_if(&m, id, 0, JC_TEXT("a"), four, 3, four, 4) == JC_BAD_VALUE);
    WANT(jc_replace_if(&m, id, 0, JC_TEXT("a"), four, 4, four, 3) == JC_FALSE);
    WANT(jc_get_and_replace(&m, id, 0, JC_TEXT("a"), four, 4) == JC_BAD_VALUE);
    WANT(jc_remove_if(&m, id, 0, JC_TEXT("a"), four, 4) == JC_FALSE);
    WANT(jc_put_all(&m, id, 0, pairs, 2, JC_TEXT("bonecfour")) == JC_BAD_VALUE);
    WANT(jc_put_all(&m, id, 0, same, 2, JC_TEXT("bfourbfour")) == JC_DUPLICATE_KEY);
    WANT(jc_put(&m, id, 0, JC_EMPTY, four, 4) == JC_BAD_KEY && jc_put(&m, 77, 0, JC_TEXT("a"), four, 4) == JC_NO_SUCH_CACHE);
    WANT(has_bytes(id, 4));
    WANT(jc_loaded(&m, id, four, 4) == JC_BAD_VALUE && jc_loaded(&m, id, four, 3) == JC_NO_TURN);
    WANT(jc_get(&m, id, 0, JC_TEXT("bb")) == JC_NEED_LOAD && jc_put(&m, id, 0, JC_TEXT("a"), four, 4) == JC_BAD_VALUE);
    WANT(jc_loaded(&m, id, four, 4) == JC_BAD_VALUE && copies(jc_key, id, 4, JC_DONE, 2, "bb.."));
    WANT(has_bytes(id, 4) && jc_loaded(&m, id, four, 2) == JC_FOUND && has_bytes(id, 8));
    WANT(jc_invoke(&m, id, 0, JC_TEXT("a"), 1, four, 4) == JC_NEED_PROCESS);
    WANT(jc_processed(&m, id, JC_SET, four, 4, 0, JC_EMPTY) == JC_BAD_VALUE);
    WANT(jc_processed(&m, id, JC_SET, four, 0, 1, four, 4) == JC_FOUND && has_bytes(id, 5));
}

/* Bytes of rows that are changed, evicted, expired, removed and cleared. */
static void counted(void) {
    const struct jc_settings timed = {.capacity = 2, .policy = JC_CREATED, .duration = 10};
    uint64_t bytes = NONE;
    uint32_t id = NONE;
    static uint8_t value[65535];
    WANT(jc_create(&m, JC_TEXT("timed"), &timed, JC_EMPTY, &id) == JC_DONE && has_bytes(id, 0));
    WANT(jc_put(&m, id, 0, JC_TEXT("a"), value, 65535) == JC_DONE && has_bytes(id, 65536));
    WANT(jc_put(&m, id, 0, JC_TEXT("bb"), JC_EMPTY) == JC_DONE && has_bytes(id, 65538));
    WANT(jc_put(&m, id, 0, JC_TEXT("a"), value, 1) == JC_DONE && has_bytes(id, 4));
    WANT(jc_put(&m, id, 0, JC_TEXT("cccc"), value, 4) == JC_DONE && has_bytes(id, 10));
    WANT(jc_contains(&m, id, 10, JC_TEXT("cccc")) == JC_FALSE && has_bytes(id, 10));
    WANT(jc_get(&m, id, 10, JC_TEXT("cccc")) == JC_NOTHING && has_bytes(id, 2));
    WANT(jc_clear(&m, id, 0) == JC_DONE && has_bytes(id, 0));
    WANT(jc_bytes(&m, 77, &bytes) == JC_NO_SUCH_CACHE && bytes == NONE);
}

int main(void) {
    WANT(jc_open(&m, 7) == JC_DONE);
    managed();
    loaded();
    listed();
    limits();
    bounded();
    counted();
    WANT(jc_close(&m) == JC_DONE);
    puts("ok");
    return 0;
}
