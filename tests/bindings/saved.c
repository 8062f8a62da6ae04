/* Saved caches: what is told of caches and their names, what is saved and restored and what is refused, and bytes that are
 * cut and changed. With the word `time` it tells how long 65,536 rows take. */
#include "jcache.h"
#include <stdio.h>
#include <stdlib.h>
#include <time.h>

#define WANT(test) ((test) ? (void)0 : fail(__LINE__, #test))
#define NONE 99

static void fail(int line, const char *test) {
    printf("line %d: %s\n", line, test);
    exit(1);
}

static struct jc_manager m;

/* A cache of capacity 1 with one row that never expires, "k" with "v", not used since it came, one put. */
static const uint8_t one_row[63] = {
    'J', 'C', 'S', '1', 1, 0, 0, 0, 0, 0, 0, 0, 0, 0, 0, 0, 0, 0, 0, 0, 0, 0, 0, 0, 0, 0, 0, 0, 0, 1, 0, 0,
    0,   0,   0,   0,   0, 0, 0, 0, 0, 0, 0, 0, 0, 0, 0, 0, 0, 0, 0, 0, 0, 1, 0, 0, 0, 0, 1, 'k', 1, 0, 'v'};

/* Whether bytes come to a status and a place, and to no cache: no id is written, and the next cache gets the same. */
static int refused(const char *name, const uint8_t *bytes, size_t len, uint32_t max_value, jc_status status, size_t wanted) {
    uint32_t id = NONE;
    size_t place = NONE;
    return jc_restore(&m, JC_TEXT(name), bytes, len, max_value, &id, &place) == status && id == NONE && place == wanted;
}

/* The same of that one row with a byte changed. */
static int is_flaw(size_t at, uint8_t byte, jc_status status, size_t wanted) {
    uint8_t bytes[63];
    memcpy(bytes, one_row, 63);
    bytes[at] = byte;
    return refused("flawed", bytes, 63, 0, status, wanted);
}

/* Whether a cache's saved bytes are these. */
static int saves(uint32_t id, const uint8_t *bytes, size_t wanted) {
    static uint8_t out[1 << 16];
    size_t len = 0;
    return jc_save(&m, id, out, sizeof out, &len) == JC_DONE && len == wanted && !memcmp(out, bytes, len);
}

static void closed(void) {
    struct jc_settings is = {.capacity = 9};
    uint8_t out[4] = "....";
    size_t len = NONE;
    WANT(jc_save(&m, 0, out, 4, &len) == JC_CLOSED && jc_names(&m, out, 4, &len) == JC_CLOSED);
    WANT(jc_settings_of(&m, 0, &is, out, 4, &len) == JC_CLOSED && is.capacity == 9);
    WANT(refused("a", one_row, 63, 0, JC_CLOSED, NONE) && len == NONE && !memcmp(out, "....", 4));
}

static void settings(void) {
    const struct jc_settings asked = {.capacity = 9, .policy = JC_TOUCHED, .duration = 5, .loader = 7, .listeners = 2, .max_value = 30};
    const uint8_t wants[] = {0, 9, 1};
    struct jc_settings is = {.capacity = 77};
    uint8_t out[4] = "....";
    size_t len = NONE;
    uint32_t id;
    WANT(jc_create(&m, JC_TEXT("asked"), &asked, wants, 3, &id) == JC_DONE);
    WANT(jc_settings_of(&m, 77, &is, out, 4, &len) == JC_NO_SUCH_CACHE && is.capacity == 77 && len == NONE && out[0] == '.');
    WANT(jc_settings_of(&m, id, &is, out, 4, &len) == JC_DONE && len == 3 && !memcmp(out, "\0\1\1.", 4));
    WANT(is.capacity == 9 && is.policy == JC_TOUCHED && is.duration == 5 && is.loader == 1 && is.writer == 0);
    WANT(is.listeners == 2 && is.max_value == 30 && is.reserved == 0);
    memcpy(out, "....", 4);
    WANT(jc_settings_of(&m, id, &is, out, 2, &len) == JC_SHORT_BUFFER && len == 3 && !memcmp(out, "\0\1..", 4));
    WANT(jc_settings_of(&m, id, &is, out, 0, &len) == JC_SHORT_BUFFER && len == 3 && is.capacity == 9);
    WANT(jc_create(&m, JC_TEXT("plain"), &(struct jc_settings){.capacity = 1}, JC_EMPTY, &id) == JC_DONE);
    WANT(jc_settings_of(&m, id, &is, out, 0, &len) == JC_DONE && len == 0 && is.max_value == 0);
    WANT(is.policy == JC_ETERNAL && is.duration == 0 && is.loader == 0 && is.listeners == 0);
    WANT(jc_destroy(&m, 0) == JC_DONE && jc_destroy(&m, 1) == JC_DONE);
}

static void names(void) {
    static const char listed[] = "\2\0\0\0\2bc\3\0\0\0\1a";
    const struct jc_settings plain = {.capacity = 1};
    char out[16];
    size_t len = NONE;
    uint32_t id;
    WANT(jc_names(&m, (uint8_t *)out, 0, &len) == JC_DONE && len == 0);
    WANT(jc_create(&m, JC_TEXT("bc"), &plain, JC_EMPTY, &id) == JC_DONE && id == 2);
    WANT(jc_create(&m, JC_TEXT("a"), &plain, JC_EMPTY, &id) == JC_DONE && id == 3);
    for (size_t room = 0; room < 16; room++) {
        memset(out, '.', 16);
        WANT(jc_names(&m, (uint8_t *)out, room, &len) == (room < 13 ? JC_SHORT_BUFFER : JC_DONE) && len == 13);
        WANT(!memcmp(out, listed, room < 13 ? room : 13) && out[room < 13 ? room : 13] == '.');
    }
    WANT(jc_destroy(&m, 2) == JC_DONE && jc_names(&m, (uint8_t *)out, 16, &len) == JC_DONE);
    WANT(len == 6 && !memcmp(out, listed + 7, 6));
}

static void saved(void) {
    uint8_t out[64];
    size_t len = NONE, place = NONE, count = NONE;
    uint32_t id = NONE;
    WANT(jc_put(&m, 3, 0, JC_TEXT("k"), JC_TEXT("v")) == JC_DONE && saves(3, one_row, 63));
    WANT(jc_save(&m, 77, out, 64, &len) == JC_NO_SUCH_CACHE && len == NONE);
    for (size_t room = 0; room < 64; room++) {
        memset(out, '.', 64);
        WANT(jc_save(&m, 3, out, room, &len) == (room < 63 ? JC_SHORT_BUFFER : JC_DONE) && len == 63);
        WANT(!memcmp(out, one_row, room) && out[room] == '.');
    }
    WANT(jc_restore(&m, JC_TEXT("again"), one_row, 63, 0, &id, &place) == JC_DONE && id == 4 && place == NONE);
    WANT(saves(4, one_row, 63) && jc_items(&m, 4, &count) == JC_DONE && count == 0);
    WANT(jc_find(&m, JC_TEXT("again"), &id) == JC_DONE && id == 4);
    WANT(jc_get_into(&m, 4, 0, JC_TEXT("k"), out, 64, &len) == JC_FOUND && len == 1 && out[0] == 'v');
    WANT(!saves(4, one_row, 63) && saves(3, one_row, 63));
}

static void open_calls(void) {
    const struct jc_settings loads = {.capacity = 1, .loader = 1};
    uint8_t out[64];
    size_t len = NONE;
    uint32_t id;
    WANT(jc_create(&m, JC_TEXT("loads"), &loads, JC_EMPTY, &id) == JC_DONE && id == 5);
    WANT(jc_get(&m, id, 0, JC_TEXT("k")) == JC_NEED_LOAD && jc_save(&m, id, out, 64, &len) == JC_BUSY && len == NONE);
    WANT(jc_loaded(&m, id, JC_TEXT("v")) == JC_FOUND && jc_save(&m, id, out, 64, &len) == JC_DONE && len == 63);
}

/* Each flaw, and which refusal comes first. */
static void refusals(void) {
    uint8_t behind[64] = {0};
    memcpy(behind, one_row, 63);
    WANT(refused("a", one_row, 0, 0, JC_BAD_SAVE, 0) && is_flaw(0, 'K', JC_BAD_SAVE, 0));
    WANT(is_flaw(3, '2', JC_OTHER_VERSION, 3) && is_flaw(4, 0, JC_BAD_SAVE, 4) && is_flaw(6, 2, JC_BAD_SAVE, 4));
    WANT(is_flaw(8, 5, JC_BAD_SAVE, 8) && is_flaw(9, 2, JC_BAD_SAVE, 9) && is_flaw(11, 9, JC_BAD_SAVE, 11));
    WANT(is_flaw(12, 17, JC_BAD_SAVE, 12) && is_flaw(53, 2, JC_BAD_SAVE, 53) && is_flaw(57, 4, JC_BAD_SAVE, 57));
    WANT(is_flaw(58, 0, JC_BAD_SAVE, 58) && is_flaw(58, 64, JC_BAD_SAVE, 58) && is_flaw(59, 255, JC_BAD_SAVE, 59));
    WANT(is_flaw(60, 2, JC_BAD_SAVE, 62) && refused("a", behind, 64, 0, JC_BAD_SAVE, 63));
    WANT(refused("", one_row, 0, 0, JC_BAD_KEY, NONE) && refused("a", one_row, 62, 0, JC_BAD_SAVE, 62));
    WANT(refused("a", one_row, 63, 0, JC_DUPLICATE_NAME, NONE) && refused("a", one_row, 63, 1, JC_DUPLICATE_NAME, NONE));
    memcpy(behind + 60, "\2\0vw", 4);
    WANT(refused("a", behind, 64, 1, JC_BAD_VALUE, NONE) && refused("a", behind, 64, 2, JC_DUPLICATE_NAME, NONE));
    uint32_t id = NONE;
    size_t place = NONE;
    WANT(jc_restore(&m, JC_TEXT("bounded"), behind, 64, 2, &id, &place) == JC_DONE && id == 6);
    WANT(jc_put(&m, id, 0, JC_TEXT("k"), JC_TEXT("vwx")) == JC_BAD_VALUE && saves(id, behind, 64));
}

static uint32_t drawn = 1;

static uint32_t below(uint32_t limit) {
    drawn ^= drawn << 13;
    drawn ^= drawn >> 17;
    drawn ^= drawn << 5;
    return drawn % limit;
}

/* A cache with rows of all kinds, as bytes. */
static size_t many_rows(uint8_t *out, size_t room) {
    const struct jc_settings timed = {.capacity = 12, .policy = JC_MODIFIED, .duration = 50, .writer = 1};
    const uint8_t wants[] = {1, 0, 1};
    size_t len = 0;
    uint32_t id;
    WANT(jc_create(&m, JC_TEXT("many"), &timed, wants, 3, &id) == JC_DONE);
    for (uint64_t n = 0; n < 20; n++) {
        uint8_t key[8] = {'k', (uint8_t)('a' + n)}, value[40] = {0};
        WANT(jc_put(&m, id, n, key, 2 + n % 7, value, 2 * n) == JC_NEED_WRITE && jc_written(&m, id) == JC_DONE);
        WANT(n % 3 || jc_get(&m, id, n, key, 2 + n % 7) == JC_FOUND);
    }
    WANT(jc_save(&m, id, out, room, &len) == JC_DONE && jc_destroy(&m, id) == JC_DONE);
    return len;
}

/* Whether bytes are a cache whose bytes they are, which ends then, or are refused for a flaw in them. */
static int is_saved(const uint8_t *bytes, size_t len) {
    uint32_t id = NONE;
    size_t place = SIZE_MAX;
    jc_status status = jc_restore(&m, JC_TEXT("damaged"), bytes, len, 0, &id, &place);
    if (status == JC_DONE) {
        WANT(saves(id, bytes, len) && jc_destroy(&m, id) == JC_DONE);
        return 1;
    }
    WANT((status == JC_BAD_SAVE || status == JC_OTHER_VERSION) && place <= len && id == NONE);
    return 0;
}

static void damaged(void) {
    uint8_t bytes[1 << 12];
    size_t len = many_rows(bytes, sizeof bytes);
    int read = 0;
    WANT(is_saved(bytes, len));
    for (size_t cut = 0; cut < len; cut++)
        WANT(!is_saved(bytes, cut));
    for (int n = 0; n < 10000; n++) {
        size_t at = below((uint32_t)len);
        uint8_t was = bytes[at];
        bytes[at] = (uint8_t)(was + 1 + below(255));
        read += is_saved(bytes, len);
        bytes[at] = was;
    }
    WANT(read > 1000 && read < 9000);
}

static double milliseconds(void) {
    struct timespec now;
    clock_gettime(CLOCK_MONOTONIC, &now);
    return (double)now.tv_sec * 1e3 + (double)now.tv_nsec / 1e6;
}

/* How long 65,536 rows of 16 and 100 bytes take. */
static void timed(void) {
    const struct jc_settings large = {.capacity = 65536};
    static uint8_t bytes[1 << 24], value[100];
    char key[17];
    size_t len = 0, place;
    uint32_t id;
    WANT(jc_create(&m, JC_TEXT("large"), &large, JC_EMPTY, &id) == JC_DONE);
    for (uint32_t n = 0; n < 65536; n++) {
        snprintf(key, sizeof key, "key-%012u", n);
        WANT(jc_put(&m, id, n, JC_TEXT(key), value, 100) == JC_DONE);
    }
    double start = milliseconds();
    WANT(jc_save(&m, id, bytes, sizeof bytes, &len) == JC_DONE);
    double middle = milliseconds();
    WANT(jc_restore(&m, JC_TEXT("again"), bytes, len, 0, &id, &place) == JC_DONE);
    double end = milliseconds();
    printf("%zu bytes of 65,536 rows: saved in %.1f ms, restored in %.1f ms\n", len, middle - start, end - middle);
}

int main(int count, char **words) {
    int times = count > 1 && !strcmp(words[1], "time");
    closed();
    WANT(jc_open(&m, 7) == JC_DONE);
    if (times) {
        timed();
    } else {
        settings();
        names();
        saved();
        open_calls();
        refusals();
        damaged();
    }
    WANT(jc_close(&m) == JC_DONE);
    puts("ok");
    return 0;
}
