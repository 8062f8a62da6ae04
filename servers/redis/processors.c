/* processors.c: what APPEND, ADD, MAXIMUM and MINIMUM make of a value. */
#include "processors.h"
#include "cache.h"
#include <stdio.h>

/* A value, as it becomes. */
struct entry {
    int is_there;
    size_t len;
    uint8_t bytes[MOST_VALUE];
};

const uint8_t processor_wants[PROCESSORS] = {1, 1, 1, 1};

/* Reads a whole number as it is written by `wrote`. Whether it is one. */
static int read(const uint8_t *at, size_t len, long long *out) {
    int negative = len && at[0] == '-';
    size_t first = (size_t)negative;
    uint64_t number = 0;
    if (len == first || len - first > 19 || (at[first] == '0' && len > 1))
        return 0;
    for (size_t i = first; i < len; i++) {
        if (at[i] < '0' || at[i] > '9')
            return 0;
        number = number * 10 + (uint64_t)(at[i] - '0');
    }
    if (number > (uint64_t)INT64_MAX + (uint64_t)negative)
        return 0;
    *out = negative ? -(long long)(number - 1) - 1 : (long long)number;
    return 1;
}

static int wrote(struct entry *entry, long long number) {
    entry->len = (size_t)snprintf((char *)entry->bytes, 32, "%lld", number);
    return 1;
}

static int append(struct entry *entry, const uint8_t *argument, size_t len) {
    if (!entry->is_there)
        entry->len = 0;
    if (entry->len + len > MOST_VALUE)
        return 0;
    memcpy(entry->bytes + entry->len, argument, len);
    entry->len += len;
    return 1;
}

static int add(struct entry *entry, const uint8_t *argument, size_t len) {
    long long number = 0, by;
    if ((entry->is_there && !read(entry->bytes, entry->len, &number)) || !read(argument, len, &by))
        return 0;
    return !__builtin_add_overflow(number, by, &number) && wrote(entry, number);
}

/* The greater of value and argument, or where `sign` is -1 the lesser. */
static int extreme(struct entry *entry, const uint8_t *argument, size_t len, int sign) {
    long long number, other;
    if (!read(argument, len, &other))
        return 0;
    if (!entry->is_there)
        return wrote(entry, other);
    if (!read(entry->bytes, entry->len, &number))
        return 0;
    return wrote(entry, (sign > 0) == (number > other) ? number : other);
}

static int maximum(struct entry *entry, const uint8_t *argument, size_t len) {
    return extreme(entry, argument, len, 1);
}

static int minimum(struct entry *entry, const uint8_t *argument, size_t len) {
    return extreme(entry, argument, len, -1);
}

/* Each sets the entry, whose new value is the answer; or fails. */
static const struct {
    const char *name;
    int (*run)(struct entry *, const uint8_t *argument, size_t len);
} processors[PROCESSORS] = {
    {"APPEND", append},
    {"ADD", add},
    {"MAXIMUM", maximum},
    {"MINIMUM", minimum},
};

uint8_t processor_named(const struct word *name) {
    for (uint8_t i = 0; i < PROCESSORS; i++)
        if (is_word(name, processors[i].name))
            return i;
    return 255;
}

jc_status process(struct jc_manager *manager, uint32_t id, size_t max_value) {
    static struct entry entry;
    static uint8_t argument[MOST_VALUE];
    uint64_t which = 0;
    size_t len = 0;
    jc_number(manager, id, 0, &which);
    entry.is_there = jc_value(manager, id, 0, entry.bytes, MOST_VALUE, &entry.len) == JC_DONE;
    jc_argument(manager, id, 0, argument, MOST_VALUE, &len);
    if (!processors[which].run(&entry, argument, len) || entry.len > max_value)
        return jc_process_failed(manager, id);
    return jc_processed(manager, id, JC_SET, entry.bytes, entry.len, 1, entry.bytes, entry.len);
}
