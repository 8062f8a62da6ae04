/* The library for C alone: calls to be counted, and the memory of rows beside a plain table.
 *
 *     library FUNCTION CALLS        makes so many calls of jc_get, jc_get_into, jc_peek, jc_contains, jc_value, jc_put or
 *                                   none, each of a key that is there, on 1,000 rows with keys of 9 bytes and values of 100
 *     library rows jcache|table N   puts N rows with keys of 16 bytes and values of 100, and prints the bytes that one takes
 *     library saving N              saves a cache of so many such rows, restores it, and prints the microseconds of both
 */
#include "jcache.h"
#include <stdio.h>
#include <stdlib.h>
#include <time.h>
#include <unistd.h>

enum { VALUE = 100 };
static struct jc_manager m;
static uint32_t id;
static uint8_t value[VALUE];

static void fail(const char *what) {
    fprintf(stderr, "%s\n", what);
    exit(1);
}

static void open_cache(uint32_t capacity) {
    struct jc_settings settings = {.capacity = capacity};
    if (jc_open(&m, 7) != JC_DONE || jc_create(&m, JC_TEXT("rows"), &settings, JC_EMPTY, &id) != JC_DONE)
        fail("no cache is made");
}

/* Calls. */
static const uint8_t *key_of(unsigned number) {
    static char key[24];
    snprintf(key, sizeof key, "key %05u", number % 1000 * 37 % 1000);
    return (const uint8_t *)key;
}

static const char *const functions[] = {"none", "jc_get", "jc_get_into", "jc_peek", "jc_contains", "jc_value", "jc_put"};

static jc_status call(size_t function, const uint8_t *key) {
    static uint8_t out[VALUE];
    uint64_t expires;
    size_t len;
    switch (function) {
    case 0: return JC_DONE;
    case 1: return jc_get(&m, id, 0, key, 9);
    case 2: return jc_get_into(&m, id, 0, key, 9, out, sizeof out, &len);
    case 3: return jc_peek(&m, id, 0, key, 9, &expires, out, sizeof out, &len);
    case 4: return jc_contains(&m, id, 0, key, 9);
    case 5: return jc_value(&m, id, 0, out, sizeof out, &len);
    case 6: return jc_put(&m, id, 0, key, 9, value, VALUE);
    default: return JC_CLOSED;
    }
}

static void make_calls(const char *name, unsigned calls) {
    size_t function = 0;
    while (function < sizeof functions / sizeof *functions && strcmp(functions[function], name))
        function++;
    open_cache(1000);
    for (unsigned number = 0; number < 1000; number++)
        jc_put(&m, id, 0, key_of(number), 9, value, VALUE);
    jc_get(&m, id, 0, key_of(0), 9);
    for (unsigned number = 0; number < calls; number++)
        if (call(function, key_of(number)) > JC_FOUND)
            fail("a call was refused");
}

/* A plain table: a list of rows for each bucket, and twice as many buckets where there are as many rows. */
struct row {
    struct row *next;
    uint32_t key_len, value_len;
    uint8_t bytes[];
};
static struct row **buckets;
static size_t mask, count;

static struct row **place_of(const uint8_t *key, size_t len) {
    uint64_t hash = 14695981039346656037u;
    for (size_t k = 0; k < len; k++)
        hash = (hash ^ key[k]) * 1099511628211u;
    struct row **at = &buckets[(hash ^ hash >> 32) & mask];
    while (*at && ((*at)->key_len != len || memcmp((*at)->bytes, key, len)))
        at = &(*at)->next;
    return at;
}

static void grow(void) {
    struct row **old = buckets;
    size_t size = old ? mask + 1 : 0;
    mask = size ? 2 * size - 1 : 63;
    buckets = calloc(mask + 1, sizeof *buckets);
    for (size_t k = 0; k < size; k++)
        for (struct row *row = old[k], *next; row; row = next) {
            next = row->next;
            row->next = NULL;
            *place_of(row->bytes, row->key_len) = row;
        }
    free(old);
}

static void put(const uint8_t *key, size_t len) {
    if (!buckets || count > mask)
        grow();
    struct row **at = place_of(key, len), *row = malloc(sizeof *row + len + VALUE);
    if (!row)
        fail("no memory");
    *row = (struct row){.key_len = (uint32_t)len, .value_len = VALUE};
    memcpy(row->bytes, key, len), memcpy(row->bytes + len, value, VALUE);
    free(*at);
    *at = row;
    count++;
}

/* The bytes of memory that this process has. */
static double resident(void) {
    unsigned long all = 0, pages = 0;
    FILE *told = fopen("/proc/self/statm", "r");
    if (!told || fscanf(told, "%lu %lu", &all, &pages) != 2)
        fail("/proc/self/statm is not there");
    fclose(told);
    return (double)pages * (double)sysconf(_SC_PAGESIZE);
}

static void fill(int is_table, unsigned rows) {
    char key[24];
    if (!is_table)
        open_cache(rows);
    for (unsigned number = 0; number < rows; number++) {
        snprintf(key, sizeof key, "user:%011u", number);
        if (is_table)
            put(JC_TEXT(key));
        else if (jc_put(&m, id, 0, JC_TEXT(key), value, VALUE) != JC_DONE)
            fail("a put was refused");
    }
}

static void tell_memory(int is_table, unsigned rows) {
    double before = resident();
    fill(is_table, rows);
    printf("%.0f\n", (resident() - before) / rows);
}

static double microseconds(void) {
    struct timespec time;
    clock_gettime(CLOCK_PROCESS_CPUTIME_ID, &time);
    return (double)time.tv_sec * 1e6 + (double)time.tv_nsec / 1e3;
}

static void tell_saving(unsigned rows) {
    size_t room = 64 + (size_t)rows * (16 + VALUE + 12), len, place;
    uint8_t *saved = malloc(room);
    fill(0, rows);
    double began = microseconds();
    if (!saved || jc_save(&m, id, saved, room, &len) != JC_DONE)
        fail("the cache was not saved");
    double goes_on = microseconds();
    if (jc_restore(&m, JC_TEXT("again"), saved, len, 0, &id, &place) != JC_DONE)
        fail("the cache was not restored");
    printf("%.0f %.0f\n", goes_on - began, microseconds() - goes_on);
    free(saved);
}

int main(int words, char **word) {
    if (words == 4 && !strcmp(word[1], "rows"))
        tell_memory(!strcmp(word[2], "table"), (unsigned)atoi(word[3]));
    else if (words == 3 && !strcmp(word[1], "saving"))
        tell_saving((unsigned)atoi(word[2]));
    else if (words == 3)
        make_calls(word[1], (unsigned)atoi(word[2]));
    else
        fail("library FUNCTION CALLS | library rows jcache|table N | library saving N");
    return 0;
}
