/* Each function of jcache.h, each status that a caller can meet with memory at hand, and four threads under one lock. */
#include "jcache.h"
#include <pthread.h>
#include <stdio.h>
#include <stdlib.h>

#define WANT(test) ((test) ? (void)0 : fail(__LINE__, #test))

static void fail(int line, const char *test) {
    printf("line %d: %s\n", line, test);
    exit(1);
}

static struct jc_manager m;

/* Whether a part of an item of a cache is this text. */
static int part_is(jc_status (*part)(struct jc_manager *, uint32_t, size_t, uint8_t *, size_t, size_t *), uint32_t id,
                   size_t item, const char *text) {
    uint8_t out[256];
    size_t len = 0;
    return part(&m, id, item, out, sizeof out, &len) == JC_DONE && len == strlen(text) && !memcmp(out, text, len);
}

static int number_is(uint32_t id, size_t place, uint64_t wanted) {
    uint64_t number = ~wanted;
    return jc_number(&m, id, place, &number) == JC_DONE && number == wanted;
}

static int shows(uint32_t id, size_t wanted) {
    size_t count = ~wanted;
    return jc_items(&m, id, &count) == JC_DONE && count == wanted;
}

static const struct jc_settings plain = {.capacity = 3, .policy = JC_ETERNAL};

static void closed_handles(void) {
    uint8_t out[4] = {1, 2, 3, 4};
    size_t len = 9;
    uint32_t id = 9;
    uint64_t number = 9;
    WANT(jc_close(&m) == JC_CLOSED);
    WANT(jc_create(&m, JC_TEXT("a"), &plain, JC_EMPTY, &id) == JC_CLOSED && id == 9);
    WANT(jc_find(&m, JC_TEXT("a"), &id) == JC_CLOSED && id == 9);
    WANT(jc_destroy(&m, 0) == JC_CLOSED);
    WANT(jc_put(&m, 0, 0, JC_TEXT("k"), JC_TEXT("v")) == JC_CLOSED);
    WANT(jc_loaded(&m, 0, JC_TEXT("v")) == JC_CLOSED);
    WANT(jc_give_up(&m, 0) == JC_CLOSED);
    WANT(jc_items(&m, 0, &len) == JC_CLOSED && len == 9);
    WANT(jc_value(&m, 0, 0, out, sizeof out, &len) == JC_CLOSED && len == 9 && out[0] == 1);
    WANT(jc_number(&m, 0, 0, &number) == JC_CLOSED && number == 9);
    WANT(jc_get_into(&m, 0, 0, JC_TEXT("k"), out, sizeof out, &len) == JC_CLOSED && len == 9);
    WANT(jc_peek(&m, 0, 0, JC_TEXT("k"), &number, out, sizeof out, &len) == JC_CLOSED && number == 9 && len == 9);
    WANT(jc_rows(&m, 0, &len) == JC_CLOSED && len == 9);
    WANT(jc_bytes(&m, 0, &number) == JC_CLOSED && number == 9);
    WANT(jc_walk(&m, 0, 0, out, sizeof out, &len, &id) == JC_CLOSED && len == 9 && id == 9 && out[0] == 1);
    WANT(jc_version() == JCACHE_VERSION);
}

static void caches(void) {
    struct jc_settings none = {.capacity = 0}, wrong = {.capacity = 1, .policy = 9};
    struct jc_settings heard = {.capacity = 1, .listeners = 9}, large = {.capacity = 65536};
    uint8_t wants[17] = {0};
    uint32_t id = 9;
    WANT(jc_open(&m, 7) == JC_DONE && m.at);
    WANT(jc_open(&m, 7) == JC_IN_USE && m.at);
    WANT(jc_create(&m, JC_EMPTY, &plain, JC_EMPTY, &id) == JC_BAD_KEY);
    WANT(jc_create(&m, (const uint8_t *)"\xff", 1, &plain, JC_EMPTY, &id) == JC_BAD_KEY);
    WANT(jc_create(&m, JC_TEXT("a"), &wrong, JC_EMPTY, &id) == JC_BAD_CHOICE);
    WANT(jc_create(&m, JC_TEXT("a"), &none, JC_EMPTY, &id) == JC_BAD_CAPACITY);
    WANT(jc_create(&m, JC_TEXT("a"), &heard, JC_EMPTY, &id) == JC_TOO_MANY_LISTENERS);
    WANT(jc_create(&m, JC_TEXT("a"), &plain, wants, 17, &id) == JC_TOO_MANY_PROCESSORS && id == 9);
    WANT(jc_create(&m, JC_TEXT("a"), &plain, JC_EMPTY, &id) == JC_DONE && id == 0);
    WANT(jc_create(&m, JC_TEXT("a"), &plain, JC_EMPTY, &id) == JC_DUPLICATE_NAME && id == 0);
    for (uint32_t n = 1; n < 4; n++) {
        char name[2] = {(char)('a' + n), 0};
        WANT(jc_create(&m, JC_TEXT(name), &large, JC_EMPTY, &id) == JC_DONE && id == n);
    }
    WANT(jc_create(&m, JC_TEXT("e"), &large, JC_EMPTY, &id) == JC_TOTAL_CAPACITY);
    WANT(jc_destroy(&m, 2) == JC_DONE && jc_destroy(&m, 2) == JC_NO_SUCH_CACHE);
    WANT(jc_destroy(&m, 1) == JC_DONE && jc_destroy(&m, 3) == JC_DONE);
    WANT(jc_find(&m, JC_TEXT("a"), &id) == JC_DONE && id == 0);
    WANT(jc_find(&m, JC_TEXT("b"), &id) == JC_NO_SUCH_CACHE && id == 0);
    WANT(jc_find(&m, JC_EMPTY, &id) == JC_BAD_KEY);
}

static void one_key(void) {
    static uint8_t long_value[65536], key[64];
    uint8_t out[4] = "....";
    size_t len = 0;
    memset(key, 'k', sizeof key);
    WANT(jc_put(&m, 0, 0, key, 64, JC_TEXT("v")) == JC_BAD_KEY && jc_put(&m, 0, 0, key, 63, JC_TEXT("v")) == JC_DONE);
    WANT(jc_put(&m, 0, 0, JC_TEXT("k"), long_value, 65536) == JC_BAD_VALUE);
    WANT(jc_put(&m, 5, 0, JC_TEXT("k"), JC_TEXT("v")) == JC_NO_SUCH_CACHE);
    WANT(jc_clear(&m, 0, 0) == JC_DONE && shows(0, 0));
    WANT(jc_get(&m, 0, 0, JC_TEXT("k")) == JC_NOTHING);
    WANT(jc_put(&m, 0, 0, JC_TEXT("k"), JC_TEXT("first")) == JC_DONE);
    WANT(jc_get(&m, 0, 0, JC_TEXT("k")) == JC_FOUND && shows(0, 1) && part_is(jc_value, 0, 0, "first"));
    WANT(jc_value(&m, 0, 0, out, 2, &len) == JC_SHORT_BUFFER && len == 5 && !memcmp(out, "fi..", 4));
    WANT(jc_value(&m, 0, 1, out, 4, &len) == JC_NO_ITEM && jc_key(&m, 0, 0, out, 4, &len) == JC_NO_ITEM);
    WANT(jc_value(&m, 0, SIZE_MAX, out, 4, &len) == JC_NO_ITEM && jc_value(&m, 5, 0, out, 4, &len) == JC_NO_SUCH_CACHE);
    WANT(jc_contains(&m, 0, 0, JC_TEXT("k")) == JC_TRUE && jc_contains(&m, 0, 0, JC_TEXT("l")) == JC_FALSE);
    WANT(jc_get_and_put(&m, 0, 0, JC_TEXT("k"), JC_TEXT("second")) == JC_FOUND && part_is(jc_value, 0, 0, "first"));
    WANT(jc_put_if_absent(&m, 0, 0, JC_TEXT("k"), JC_TEXT("x")) == JC_FALSE);
    WANT(jc_put_if_absent(&m, 0, 0, JC_TEXT("l"), JC_TEXT("x")) == JC_TRUE);
    WANT(jc_replace(&m, 0, 0, JC_TEXT("n"), JC_TEXT("x")) == JC_FALSE);
    WANT(jc_replace_if(&m, 0, 0, JC_TEXT("k"), JC_TEXT("first"), JC_TEXT("third")) == JC_FALSE);
    WANT(jc_replace_if(&m, 0, 0, JC_TEXT("k"), JC_TEXT("second"), JC_TEXT("third")) == JC_TRUE);
    WANT(jc_get_and_replace(&m, 0, 0, JC_TEXT("k"), JC_TEXT("fourth")) == JC_FOUND && part_is(jc_value, 0, 0, "third"));
    WANT(jc_remove_if(&m, 0, 0, JC_TEXT("k"), JC_TEXT("third")) == JC_FALSE);
    WANT(jc_remove_if(&m, 0, 0, JC_TEXT("l"), JC_TEXT("x")) == JC_TRUE && jc_remove(&m, 0, 0, JC_TEXT("l")) == JC_FALSE);
    WANT(jc_get_and_remove(&m, 0, 0, JC_TEXT("k")) == JC_FOUND && part_is(jc_value, 0, 0, "fourth"));
    WANT(jc_loaded_nothing(&m, 0) == JC_NO_TURN && jc_give_up(&m, 0) == JC_NO_TURN);
    WANT(jc_clear_stats(&m, 0, 0) == JC_DONE && jc_get(&m, 0, 0, JC_TEXT("k")) == JC_NOTHING);
    WANT(jc_stats(&m, 0, 0) == JC_COUNTED && number_is(0, 0, 0) && number_is(0, 1, 1) && number_is(0, 4, 0));
}

static void many_keys(void) {
    const uint32_t three[] = {1, 2, 1}, two[] = {1, 1}, long_one[] = {9};
    const struct jc_pair_lengths pairs[] = {{1, 3}, {2, 2}};
    uint32_t many[65];
    uint8_t keys[65];
    for (int n = 0; n < 65; n++) {
        many[n] = 1;
        keys[n] = (uint8_t)(33 + n);
    }
    WANT(jc_put_all(&m, 0, 0, pairs, 2, JC_TEXT("aonebbtw")) == JC_DONE);
    WANT(jc_put_all(&m, 0, 0, pairs, 2, JC_TEXT("aonebbt")) == JC_BAD_LENGTHS);
    WANT(jc_get_all(&m, 0, 0, three, 3, JC_TEXT("abbc")) == JC_LISTED && shows(0, 2));
    WANT(part_is(jc_key, 0, 0, "a") && part_is(jc_value, 0, 0, "one") && part_is(jc_key, 0, 1, "bb") && part_is(jc_value, 0, 1, "tw"));
    WANT(jc_get_all(&m, 0, 0, two, 2, JC_TEXT("abc")) == JC_BAD_LENGTHS && jc_get_all(&m, 0, 0, long_one, 1, JC_TEXT("a")) == JC_BAD_LENGTHS);
    WANT(jc_get_all(&m, 0, 0, two, 2, JC_TEXT("aa")) == JC_DUPLICATE_KEY);
    WANT(jc_get_all(&m, 0, 0, many, 65, keys, 65) == JC_TOO_MANY_KEYS && jc_get_all(&m, 0, 0, many, 64, keys, 64) == JC_LISTED);
    WANT(jc_entries(&m, 0, 0) == JC_LISTED && shows(0, 2));
    WANT(jc_remove_keys(&m, 0, 0, two, 1, JC_TEXT("a")) == JC_DONE && jc_contains(&m, 0, 0, JC_TEXT("a")) == JC_FALSE);
    WANT(jc_remove_all(&m, 0, 0) == JC_DONE && jc_contains(&m, 0, 0, JC_TEXT("bb")) == JC_FALSE);
}

static void requests(void) {
    struct jc_settings settings = {.capacity = 4, .policy = JC_ETERNAL, .loader = 1, .writer = 1, .listeners = 1};
    const uint8_t wants[] = {1, 0};
    const uint32_t one[] = {1}, two[] = {1, 1};
    uint32_t id;
    WANT(jc_create(&m, JC_TEXT("all"), &settings, wants, 2, &id) == JC_DONE && shows(id, 0));
    WANT(jc_get(&m, id, 0, JC_TEXT("k")) == JC_NEED_LOAD && part_is(jc_key, id, 0, "k"));
    WANT(jc_get(&m, id, 0, JC_TEXT("k")) == JC_BUSY && jc_destroy(&m, id) == JC_BUSY && part_is(jc_key, id, 0, "k"));
    WANT(jc_written(&m, id) == JC_WRONG_ANSWER && jc_load_failed(&m, id) == JC_LOADER_FAILED);
    WANT(jc_get(&m, id, 0, JC_TEXT("k")) == JC_NEED_LOAD && jc_loaded_nothing(&m, id) == JC_NOTHING);
    WANT(jc_get(&m, id, 0, JC_TEXT("k")) == JC_NEED_LOAD && jc_loaded(&m, id, JC_TEXT("v")) == JC_NEED_TELL);
    WANT(shows(id, 1) && part_is(jc_key, id, 0, "k") && part_is(jc_value, id, 0, "v") && number_is(id, 0, JC_CREATED_ROW));
    WANT(jc_told(&m, id) == JC_FOUND && part_is(jc_value, id, 0, "v"));
    WANT(jc_put(&m, id, 0, JC_TEXT("k"), JC_TEXT("w")) == JC_NEED_WRITE && part_is(jc_value, id, 0, "w"));
    WANT(jc_write_failed(&m, id) == JC_WRITER_FAILED);
    WANT(jc_put(&m, id, 0, JC_TEXT("k"), JC_TEXT("w")) == JC_NEED_WRITE && jc_written(&m, id) == JC_NEED_TELL);
    WANT(part_is(jc_before, id, 0, "v") && number_is(id, 0, JC_UPDATED_ROW) && jc_told(&m, id) == JC_DONE);
    WANT(jc_invoke(&m, id, 0, JC_TEXT("k"), 2, JC_EMPTY) == JC_NO_SUCH_PROCESSOR);
    WANT(jc_invoke(&m, id, 0, JC_TEXT("k"), 1, JC_TEXT("arg")) == JC_NEED_PROCESS);
    WANT(part_is(jc_key, id, 0, "k") && part_is(jc_value, id, 0, "w") && part_is(jc_argument, id, 0, "arg") && number_is(id, 0, 1));
    WANT(jc_processed(&m, id, 3, JC_EMPTY, 0, JC_EMPTY) == JC_BAD_CHOICE);
    WANT(jc_processed(&m, id, JC_SET, JC_TEXT("x"), 1, JC_TEXT("ans")) == JC_NEED_WRITE);
    WANT(jc_written(&m, id) == JC_NEED_TELL && jc_told(&m, id) == JC_FOUND && part_is(jc_value, id, 0, "ans"));
    WANT(jc_invoke(&m, id, 0, JC_TEXT("k"), 1, JC_EMPTY) == JC_NEED_PROCESS);
    WANT(jc_processed(&m, id, JC_KEEP, JC_EMPTY, 0, JC_EMPTY) == JC_NOTHING);
    WANT(jc_invoke_all(&m, id, 0, two, 2, JC_TEXT("kl"), 1, JC_EMPTY) == JC_NEED_PROCESS);
    WANT(jc_process_failed(&m, id) == JC_NEED_PROCESS && jc_processed(&m, id, JC_KEEP, JC_EMPTY, 1, JC_TEXT("r")) == JC_RESULTS);
    WANT(shows(id, 2) && part_is(jc_key, id, 0, "k") && part_is(jc_value, id, 1, "r"));
    WANT(jc_invoke(&m, id, 0, JC_TEXT("k"), 1, JC_EMPTY) == JC_NEED_PROCESS && jc_process_failed(&m, id) == JC_PROCESSOR_FAILED);
    WANT(jc_load_all(&m, id, 0, one, 1, JC_TEXT("k"), 0) == JC_DONE);
    WANT(jc_load_all(&m, id, 0, one, 1, JC_TEXT("k"), 1) == JC_NEED_LOAD && jc_load_failed(&m, id) == JC_LOADER_FAILED && number_is(id, 0, 0));
    WANT(jc_remove(&m, id, 0, JC_TEXT("k")) == JC_NEED_DELETE && part_is(jc_key, id, 0, "k"));
    WANT(jc_get(&m, 0, 0, JC_TEXT("k")) == JC_NOTHING && part_is(jc_key, id, 0, "k"));
    WANT(jc_give_up(&m, id) == JC_DONE && shows(id, 0) && jc_give_up(&m, id) == JC_NO_TURN);
    WANT(jc_destroy(&m, id) == JC_DONE && jc_get(&m, id, 0, JC_TEXT("k")) == JC_NO_SUCH_CACHE);
}

/* A row as a step of a walk gives it; what stands behind it. */
static const uint8_t *row_in(const uint8_t *at, uint64_t *expires, char *key, char *value) {
    size_t key_len = at[8], value_len = at[9] + 256u * at[10];
    *expires = 0;
    for (int n = 8; n-- > 0;)
        *expires = *expires << 8 | at[n];
    memcpy(key, at + 11, key_len);
    memcpy(value, at + 11 + key_len, value_len);
    key[key_len] = value[value_len] = 0;
    return at + 11 + key_len + value_len;
}

/* Gets and peeks that copy into a buffer: of a row that expires, of none, of one that has to be loaded. */
static void looks(void) {
    struct jc_settings timed = {.capacity = 4, .policy = JC_ACCESSED, .duration = 10, .loader = 1};
    uint8_t out[6] = "......";
    size_t len = 9, rows = 9;
    uint64_t expires = 9;
    uint32_t id;
    WANT(jc_create(&m, JC_TEXT("timed"), &timed, JC_EMPTY, &id) == JC_DONE);
    WANT(jc_put(&m, 0, 0, JC_TEXT("k"), JC_TEXT("first")) == JC_DONE && jc_put(&m, id, 0, JC_TEXT("k"), JC_TEXT("one")) == JC_DONE);
    WANT(jc_get_into(&m, 0, 0, JC_TEXT("l"), out, sizeof out, &len) == JC_NOTHING && len == 9 && out[0] == '.');
    WANT(jc_get_into(&m, 0, 0, JC_EMPTY, out, sizeof out, &len) == JC_BAD_KEY && len == 9);
    WANT(jc_get_into(&m, 99, 0, JC_TEXT("k"), out, sizeof out, &len) == JC_NO_SUCH_CACHE && len == 9);
    WANT(jc_get_into(&m, 0, 0, JC_TEXT("k"), out, 2, &len) == JC_FOUND && len == 5 && !memcmp(out, "fi....", 6));
    WANT(jc_get_into(&m, 0, 0, JC_TEXT("k"), out, sizeof out, &len) == JC_FOUND && len == 5 && !memcmp(out, "first.", 6));
    WANT(shows(0, 1) && part_is(jc_value, 0, 0, "first"));
    WANT(jc_clear_stats(&m, id, 0) == JC_DONE);
    WANT(jc_peek(&m, 0, 0, JC_TEXT("k"), &expires, out, 3, &len) == JC_FOUND && expires == JC_NEVER && len == 5);
    WANT(jc_peek(&m, id, 9, JC_TEXT("k"), &expires, out, sizeof out, &len) == JC_FOUND && expires == 10 && len == 3);
    WANT(!memcmp(out, "onest.", 6));
    WANT(jc_peek(&m, id, 9, JC_TEXT("k"), &expires, out, 0, &len) == JC_FOUND && expires == 10 && len == 3);
    expires = len = 9;
    WANT(jc_peek(&m, id, 10, JC_TEXT("k"), &expires, out, sizeof out, &len) == JC_NOTHING && expires == 9 && len == 9);
    WANT(jc_peek(&m, id, 0, JC_TEXT("l"), &expires, out, sizeof out, &len) == JC_NOTHING && expires == 9 && len == 9);
    WANT(jc_peek(&m, id, 0, JC_EMPTY, &expires, out, sizeof out, &len) == JC_BAD_KEY && expires == 9);
    WANT(jc_peek(&m, 99, 0, JC_TEXT("k"), &expires, out, sizeof out, &len) == JC_NO_SUCH_CACHE && !memcmp(out, "onest.", 6));
    WANT(jc_rows(&m, id, &rows) == JC_DONE && rows == 1 && jc_rows(&m, 99, &rows) == JC_NO_SUCH_CACHE && rows == 1);
    WANT(shows(id, 0) && jc_stats(&m, id, 0) == JC_COUNTED && number_is(id, 0, 0) && number_is(id, 1, 0));
    WANT(jc_get_into(&m, id, 10, JC_TEXT("l"), out, sizeof out, &len) == JC_NEED_LOAD && len == 9 && part_is(jc_key, id, 0, "l"));
    WANT(jc_peek(&m, id, 9, JC_TEXT("k"), &expires, out, sizeof out, &len) == JC_FOUND && part_is(jc_key, id, 0, "l"));
    WANT(jc_rows(&m, id, &rows) == JC_DONE && rows == 1 && jc_loaded(&m, id, JC_TEXT("two")) == JC_FOUND);
    WANT(jc_rows(&m, id, &rows) == JC_DONE && rows == 2 && jc_destroy(&m, id) == JC_DONE);
}

/* Steps of a walk with room for all, for one and for none, over rows of which one has expired. */
static void steps(void) {
    struct jc_settings timed = {.capacity = 4, .policy = JC_CREATED, .duration = 10};
    uint8_t out[64] = {7};
    char key[64], value[64];
    size_t len = 9;
    uint64_t expires;
    uint32_t id, next = 9, seen = 0;
    WANT(jc_create(&m, JC_TEXT("steps"), &timed, JC_EMPTY, &id) == JC_DONE);
    WANT(jc_walk(&m, 99, 0, out, sizeof out, &len, &next) == JC_NO_SUCH_CACHE && len == 9 && next == 9);
    WANT(jc_walk(&m, id, 0, out, sizeof out, &len, &next) == JC_NOTHING && len == 9 && next == 9 && out[0] == 7);
    WANT(jc_put(&m, id, 0, JC_TEXT("ann"), JC_TEXT("A")) == JC_DONE && jc_put(&m, id, 5, JC_TEXT("b"), JC_EMPTY) == JC_DONE);
    WANT(jc_get(&m, id, 9, JC_TEXT("b")) == JC_FOUND);
    WANT(jc_walk(&m, id, 0, out, 11, &len, &next) == JC_SHORT_BUFFER && (len == 12 || len == 15) && next == 9 && out[0] == 7);
    WANT(jc_walk(&m, id, 0, out, sizeof out, &len, &next) == JC_LISTED && len == 27 && next > 1 && next <= 4);
    for (const uint8_t *at = out; at < out + len;) {
        at = row_in(at, &expires, key, value);
        int is_ann = !strcmp(key, "ann");
        WANT(is_ann ? expires == 10 && !strcmp(value, "A") : expires == 15 && !strcmp(key, "b") && !*value);
        seen += is_ann ? 1 : 16;
    }
    WANT(seen == 17 && jc_walk(&m, id, next, out, sizeof out, &len, &next) == JC_NOTHING && len == 27);
    WANT(jc_walk(&m, id, UINT32_MAX, out, sizeof out, &len, &next) == JC_NOTHING);
    WANT(jc_walk(&m, id, 0, out, 26, &len, &next) == JC_LISTED && (len == 12 || len == 15) && next >= 1 && next < 4);
    uint32_t first = next;
    WANT(jc_walk(&m, id, first, out, 26, &len, &next) == JC_LISTED && (len == 12 || len == 15) && next > first && next <= 4);
    WANT(jc_walk(&m, id, next, out, 26, &len, &next) == JC_NOTHING && jc_destroy(&m, id) == JC_DONE);
}

/* A walk in small steps, while other rows come and go, are put anew and are read: of the rows that stay each is given
 * once. */
static void walks(void) {
    struct jc_settings settings = {.capacity = 100, .policy = JC_ETERNAL};
    uint8_t out[48];
    char key[64], value[64];
    size_t len, counts[40] = {0}, taken = 0;
    uint64_t expires;
    uint32_t id, next = 0;
    WANT(jc_create(&m, JC_TEXT("walks"), &settings, JC_EMPTY, &id) == JC_DONE);
    for (int n = 0; n < 80; n++) {
        snprintf(key, sizeof key, "%s%d", n % 2 ? "stays" : "goes", n / 2);
        WANT(jc_put(&m, id, 0, JC_TEXT(key), JC_TEXT("v")) == JC_DONE);
    }
    for (int n = 0; jc_walk(&m, id, next, out, sizeof out, &len, &next) == JC_LISTED; n++) {
        taken++;
        for (const uint8_t *at = out; at < out + len;) {
            at = row_in(at, &expires, key, value);
            if (!strncmp(key, "stays", 5))
                counts[strtoul(key + 5, 0, 10)]++;
        }
        snprintf(key, sizeof key, "goes%d", (n * 7) % 40);
        WANT(jc_remove(&m, id, 0, JC_TEXT(key)) <= JC_TRUE);
        snprintf(key, sizeof key, "comes%d", n % 10);
        WANT(jc_put(&m, id, 0, JC_TEXT(key), JC_TEXT("w")) == JC_DONE);
        snprintf(key, sizeof key, "stays%d", (n * 11) % 40);
        WANT(jc_put(&m, id, 0, JC_TEXT(key), JC_TEXT("x")) == JC_DONE && jc_get(&m, id, 0, JC_TEXT(key)) == JC_FOUND);
    }
    for (int n = 0; n < 40; n++)
        WANT(counts[n] == 1);
    WANT(taken > 20 && taken <= 100 && jc_destroy(&m, id) == JC_DONE);
}

/* Four threads that count in one row, each under the lock. */
static pthread_mutex_t lock = PTHREAD_MUTEX_INITIALIZER;

static void *count(void *unused) {
    for (int n = 0; n < 250; n++) {
        uint8_t digits[24];
        size_t len = 0;
        pthread_mutex_lock(&lock);
        unsigned long number = 0;
        if (jc_get(&m, 0, 0, JC_TEXT("n")) == JC_FOUND && jc_value(&m, 0, 0, digits, sizeof digits - 1, &len) == JC_DONE) {
            digits[len] = 0;
            number = strtoul((char *)digits, 0, 10);
        }
        int size = snprintf((char *)digits, sizeof digits, "%lu", number + 1);
        WANT(jc_put(&m, 0, 0, JC_TEXT("n"), digits, (size_t)size) == JC_DONE);
        pthread_mutex_unlock(&lock);
    }
    return unused;
}

static void threads(void) {
    pthread_t made[4];
    for (int n = 0; n < 4; n++)
        WANT(!pthread_create(&made[n], 0, count, 0));
    for (int n = 0; n < 4; n++)
        WANT(!pthread_join(made[n], 0));
    WANT(jc_get(&m, 0, 0, JC_TEXT("n")) == JC_FOUND && part_is(jc_value, 0, 0, "1000"));
}

/* A manager under a secret; the same calls as under a seed have the same replies. */
static void secrets(void) {
    uint8_t secret[16] = "0123456789abcdef";
    struct jc_manager other = {0};
    uint64_t bytes = 9;
    uint32_t id = 9;
    WANT(jc_open_secret(&other, secret) == JC_DONE && other.at);
    WANT(jc_open_secret(&other, secret) == JC_IN_USE && jc_open(&other, 7) == JC_IN_USE && other.at);
    WANT(jc_create(&other, JC_TEXT("a"), &plain, JC_EMPTY, &id) == JC_DONE && id == 0);
    WANT(jc_put(&other, 0, 0, JC_TEXT("k"), JC_TEXT("first")) == JC_DONE && jc_contains(&other, 0, 0, JC_TEXT("k")) == JC_TRUE);
    WANT(jc_get(&other, 0, 0, JC_TEXT("k")) == JC_FOUND && jc_get(&other, 0, 0, JC_TEXT("l")) == JC_NOTHING);
    WANT(jc_bytes(&other, 0, &bytes) == JC_DONE && bytes == 6);
    WANT(jc_close(&other) == JC_DONE && !other.at && jc_close(&other) == JC_CLOSED);
    for (int n = 0; n < 16; n++)
        secret[n] = 0;
    WANT(jc_open_secret(&other, secret) == JC_DONE && jc_close(&other) == JC_DONE);
}

int main(void) {
    closed_handles();
    secrets();
    caches();
    one_key();
    many_keys();
    requests();
    looks();
    steps();
    walks();
    threads();
    struct jc_manager moved = m;
    m.at = 0;
    WANT(jc_close(&m) == JC_CLOSED && jc_close(&moved) == JC_DONE && !moved.at);
    puts("ok");
    return 0;
}
