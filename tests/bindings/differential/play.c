/* Plays the calls of `calls.txt` by jcache.h, with the callbacks that the program has, and prints the program's report.
 * Before calls and answers it makes others that are refused, which must change nothing. */
#include "jcache.h"
#include <stdio.h>
#include <stdlib.h>

#define WANT(test) ((test) ? (void)0 : fail(__LINE__, #test))
#define OF(bytes) (bytes).at, (bytes).len

enum { WORDS = 400, MOST = 65535 };

struct bytes {
    const uint8_t *at;
    size_t len;
};

/* A cache in its life: its name, the letters of its processors, and what is to be printed of it. */
struct cache {
    char *name, *kinds, *text;
    size_t size;
    FILE *report;
};

static struct jc_manager m;
static struct cache *caches[100000];
static size_t made, line;
static const char *session;

static void fail(int at, const char *test) {
    fprintf(stderr, "play.c:%d: call %zu: %s\n", at, line, test);
    exit(1);
}

static char *copy(const char *text) {
    char *to = malloc(strlen(text) + 1);
    return strcpy(to, text);
}

/* The words of a line, one after the other. */
static char *word(void) {
    char *next = strtok(NULL, " \n");
    WANT(next);
    return next;
}

static uint64_t number(void) { return strtoull(word(), NULL, 10); }

/* A word of hexadecimal digits, made into bytes where it stands. */
static struct bytes text(void) {
    char *from = word() + 1;
    uint8_t *to = (uint8_t *)from;
    size_t len = strlen(from) / 2;
    for (size_t n = 0; n < len; n++) {
        char digits[3] = {from[2 * n], from[2 * n + 1], 0};
        to[n] = (uint8_t)strtoul(digits, NULL, 16);
    }
    return (struct bytes){to, len};
}

/* A part of what is shown, by the status; asked for with too little room first. */
typedef jc_status part(struct jc_manager *, uint32_t, size_t, uint8_t *, size_t, size_t *);

static int shown(part *read, uint32_t id, size_t item, uint8_t *room, struct bytes *is) {
    size_t len = 0;
    room[2] = 0xee;
    jc_status status = read(&m, id, item, room, 2, &len);
    WANT(room[2] == 0xee && (status == JC_DONE ? len <= 2 : status == JC_NO_ITEM || (status == JC_SHORT_BUFFER && len > 2)));
    if (status == JC_NO_ITEM)
        return 0;
    WANT(read(&m, id, item, room, MOST, &is->len) == JC_DONE && is->len == len);
    is->at = room;
    return 1;
}

/* As a JSON string. */
static void print(FILE *to, struct bytes is) {
    putc('"', to);
    for (size_t n = 0; n < is.len; n++) {
        if (is.at[n] == '"' || is.at[n] == '\\')
            putc('\\', to);
        putc(is.at[n], to);
    }
    putc('"', to);
}

static uint64_t told(uint32_t id, size_t place) {
    uint64_t number = 0;
    WANT(jc_number(&m, id, place, &number) == JC_DONE);
    return number;
}

static size_t items(uint32_t id) {
    size_t count = 0;
    WANT(jc_items(&m, id, &count) == JC_DONE);
    return count;
}

static uint8_t keys[MOST + 1], values[2 * MOST + 1], arguments[MOST + 1];

static jc_status load(uint32_t id, struct bytes key) {
    if (key.at[0] == '-')
        return jc_loaded_nothing(&m, id);
    return key.at[0] == '!' ? jc_load_failed(&m, id) : jc_loaded(&m, id, OF(key));
}

static jc_status process(uint32_t id) {
    struct bytes value = {values, 0}, argument;
    int has = shown(jc_value, id, 0, values, &value);
    WANT(shown(jc_argument, id, 0, arguments, &argument));
    switch (caches[id]->kinds[told(id, 0)]) {
    case 'a':
        if (value.len + argument.len > MOST)
            return jc_process_failed(&m, id);
        memcpy(values + value.len, argument.at, argument.len);
        value.len += argument.len;
        return jc_processed(&m, id, JC_SET, OF(value), 1, OF(value));
    case 'd':
        return jc_processed(&m, id, JC_REMOVE, JC_EMPTY, (uint32_t)has, OF(value));
    case 'p':
        return jc_processed(&m, id, JC_KEEP, JC_EMPTY, (uint32_t)has, OF(value));
    default:
        return jc_process_failed(&m, id);
    }
}

static jc_status tell(uint32_t id) {
    static const char *const kinds[] = {"created", "updated", "removed", "expired"};
    struct bytes key;
    for (size_t item = 0; item < items(id); item++) {
        WANT(shown(jc_key, id, item, keys, &key));
        fprintf(caches[id]->report, "%s event %s ", session, kinds[told(id, item)]);
        print(caches[id]->report, key);
        putc('\n', caches[id]->report);
    }
    return jc_told(&m, id);
}

/* What an open call is not asked for is refused. */
static void refused_while_open(uint32_t id, jc_status asked) {
    WANT(jc_get(&m, id, 0, JC_TEXT("k")) == JC_BUSY && jc_destroy(&m, id) == JC_BUSY);
    WANT((asked == JC_NEED_TELL ? jc_written(&m, id) : jc_told(&m, id)) == JC_WRONG_ANSWER);
    WANT(jc_processed(&m, id, 3, JC_EMPTY, 0, JC_EMPTY) == JC_BAD_CHOICE);
}

static jc_status answer(uint32_t id, jc_status asked) {
    struct bytes key;
    if (line % 3 == 0)
        refused_while_open(id, asked);
    if (asked == JC_NEED_TELL)
        return tell(id);
    if (asked == JC_NEED_PROCESS)
        return process(id);
    WANT(shown(jc_key, id, 0, keys, &key));
    if (asked == JC_NEED_LOAD)
        return load(id, key);
    return key.at[0] == '!' ? jc_write_failed(&m, id) : jc_written(&m, id);
}

static void list(FILE *to, uint32_t id, int results) {
    struct bytes key, value;
    fputs(results ? "results" : "pairs", to);
    for (size_t item = 0; item < items(id); item++) {
        int has = shown(jc_value, id, item, values, &value);
        WANT(shown(jc_key, id, item, keys, &key) && (has || results));
        putc(' ', to);
        print(to, key);
        fputs(has ? (results ? "=some " : "=") : "=fault", to);
        if (has)
            print(to, value);
    }
}

static void fault(FILE *to, uint32_t id, const char *who) {
    uint64_t done;
    fprintf(to, "fault %s", who);
    if (jc_number(&m, id, 0, &done) == JC_DONE)
        fprintf(to, " after %llu", (unsigned long long)done);
}

static void reply(FILE *to, uint32_t id, jc_status status) {
    static const char *const plain[] = {"ok", "false", "true", "some ", "none"};
    static const char *const who[] = {"loader", "writer", "processor"};
    struct bytes value;
    if (status <= JC_NOTHING)
        fputs(plain[status], to);
    if (status == JC_FOUND) {
        WANT(shown(jc_value, id, 0, values, &value));
        print(to, value);
    }
    if (status == JC_LISTED || status == JC_RESULTS)
        list(to, id, status == JC_RESULTS);
    if (status == JC_COUNTED)
        for (size_t n = 0; n < 5; n++)
            fprintf(to, n ? " %llu" : "%llu", (unsigned long long)told(id, n));
    if (status >= JC_LOADER_FAILED)
        fault(to, id, who[status - JC_LOADER_FAILED]);
    putc('\n', to);
}

/* Keys, or pairs of a key and a value, behind how many there are. */
struct many {
    uint32_t lengths[65];
    struct jc_pair_lengths pairs[65];
    size_t count, len;
    uint8_t all[64 * 200];
};

static void gather(struct many *is, int pairs) {
    is->count = (size_t)number();
    is->len = 0;
    for (size_t n = 0; n < is->count * (pairs ? 2 : 1); n++) {
        struct bytes next = text();
        memcpy(is->all + is->len, next.at, next.len);
        is->len += next.len;
        if (!pairs)
            is->lengths[n] = (uint32_t)next.len;
        else
            *(n % 2 ? &is->pairs[n / 2].value : &is->pairs[n / 2].key) = (uint32_t)next.len;
    }
}

typedef jc_status whole(struct jc_manager *, uint32_t, uint64_t);
typedef jc_status one(struct jc_manager *, uint32_t, uint64_t, const uint8_t *, size_t);
typedef jc_status two(struct jc_manager *, uint32_t, uint64_t, const uint8_t *, size_t, const uint8_t *, size_t);

static const struct {
    const char *name;
    whole *whole;
    one *one;
    two *two;
} ops[] = {
    {"get", 0, jc_get, 0}, {"contains", 0, jc_contains, 0}, {"put", 0, 0, jc_put},
    {"get_and_put", 0, 0, jc_get_and_put}, {"put_if_absent", 0, 0, jc_put_if_absent}, {"replace", 0, 0, jc_replace},
    {"get_and_replace", 0, 0, jc_get_and_replace}, {"remove", 0, jc_remove, 0}, {"remove_if", 0, 0, jc_remove_if},
    {"get_and_remove", 0, jc_get_and_remove, 0}, {"remove_all", jc_remove_all, 0, 0}, {"clear", jc_clear, 0, 0},
    {"entries", jc_entries, 0, 0}, {"stats", jc_stats, 0, 0}, {"clear_stats", jc_clear_stats, 0, 0},
};

static jc_status begin_many(uint32_t id, uint64_t at, const char *op) {
    static struct many is;
    gather(&is, !strcmp(op, "put_all"));
    if (!strcmp(op, "put_all"))
        return jc_put_all(&m, id, at, is.pairs, is.count, is.all, is.len);
    if (!strcmp(op, "get_all"))
        return jc_get_all(&m, id, at, is.lengths, is.count, is.all, is.len);
    if (!strcmp(op, "remove_keys"))
        return jc_remove_keys(&m, id, at, is.lengths, is.count, is.all, is.len);
    if (!strcmp(op, "load_all"))
        return jc_load_all(&m, id, at, is.lengths, is.count, is.all, is.len, (uint32_t)number());
    WANT(!strcmp(op, "invoke_all"));
    uint8_t processor = (uint8_t)number();
    struct bytes argument = text();
    return jc_invoke_all(&m, id, at, is.lengths, is.count, is.all, is.len, processor, OF(argument));
}

static jc_status begin(uint32_t id, uint64_t at, const char *op) {
    for (size_t n = 0; n < sizeof ops / sizeof *ops; n++) {
        if (strcmp(op, ops[n].name))
            continue;
        if (ops[n].whole)
            return ops[n].whole(&m, id, at);
        struct bytes key = text();
        if (ops[n].one)
            return ops[n].one(&m, id, at, OF(key));
        struct bytes value = text();
        return ops[n].two(&m, id, at, OF(key), OF(value));
    }
    if (!strcmp(op, "replace_if")) {
        struct bytes key = text(), expected = text(), value = text();
        return jc_replace_if(&m, id, at, OF(key), OF(expected), OF(value));
    }
    if (!strcmp(op, "invoke")) {
        struct bytes key = text();
        uint8_t processor = (uint8_t)number();
        struct bytes argument = text();
        return jc_invoke(&m, id, at, OF(key), processor, OF(argument));
    }
    return begin_many(id, at, op);
}

/* What is refused changes nothing. */
static void refused_while_idle(uint32_t id) {
    WANT(jc_get(&m, id, 0, JC_EMPTY) == JC_BAD_KEY && jc_written(&m, id) == JC_NO_TURN);
    WANT(jc_give_up(&m, id) == JC_NO_TURN && jc_get(&m, (uint32_t)made, 0, JC_TEXT("k")) == JC_NO_SUCH_CACHE);
    WANT(jc_invoke(&m, id, 0, JC_TEXT("k"), 16, JC_EMPTY) == JC_NO_SUCH_PROCESSOR && jc_open(&m, 1) == JC_IN_USE);
}

static jc_status create(struct bytes name) {
    struct jc_settings settings = {0};
    uint8_t wants[16];
    uint32_t id = 0;
    settings.capacity = (uint32_t)number();
    settings.policy = (uint32_t)number();
    settings.duration = number();
    settings.loader = (uint8_t)number();
    settings.writer = (uint8_t)number();
    settings.listeners = (uint8_t)number();
    char *kinds = word();
    size_t count = *kinds == '-' ? 0 : strlen(kinds);
    for (size_t n = 0; n < count; n++)
        wants[n] = kinds[n] == 'a' || kinds[n] == 'p';
    jc_status status = jc_create(&m, OF(name), &settings, wants, count, &id);
    if (status != JC_DONE)
        return status;
    WANT(id == made && made < sizeof caches / sizeof *caches);
    struct cache *is = caches[made++] = calloc(1, sizeof *is);
    is->name = calloc(1, name.len + 1);
    memcpy(is->name, name.at, name.len);
    is->kinds = copy(kinds);
    is->report = open_memstream(&is->text, &is->size);
    return status;
}

static void managed(FILE *to, const char *op, struct bytes name, jc_status status) {
    const char *text = status == JC_DONE ? "ok"
                       : status == JC_DUPLICATE_NAME ? "fault duplicate name"
                       : status == JC_TOTAL_CAPACITY ? "fault total capacity" : "?";
    fprintf(to, "%s %s %.*s %s\n", session, op, (int)name.len, (const char *)name.at, text);
}

/* One line: a call with all its answers, or a cache that is created or destroyed. */
static void play(FILE *manager) {
    struct bytes name = text();
    uint64_t at = number();
    const char *op = word();
    uint32_t id;
    if (!strcmp(op, "create")) {
        managed(manager, op, name, create(name));
        return;
    }
    WANT(jc_find(&m, OF(name), &id) == JC_DONE);
    if (!strcmp(op, "destroy")) {
        managed(manager, op, name, jc_destroy(&m, id));
        return;
    }
    if (line % 5 == 0)
        refused_while_idle(id);
    jc_status status = begin(id, at, op);
    while (status >= JC_NEED_LOAD && status <= JC_NEED_TELL)
        status = answer(id, status);
    WANT(status <= JC_PROCESSOR_FAILED);
    fprintf(caches[id]->report, "%s %s ", session, op);
    reply(caches[id]->report, id, status);
}

/* The report, and an end of all. */
static void finish(const char *managed) {
    for (size_t id = 0; id < made; id++) {
        fclose(caches[id]->report);
        printf("cache %s\n%s", caches[id]->name, caches[id]->text);
        free(caches[id]->name);
        free(caches[id]->kinds);
        free(caches[id]->text);
        free(caches[id]);
    }
    if (*managed)
        printf("manager\n%s", managed);
    WANT(jc_close(&m) == JC_DONE && jc_close(&m) == JC_CLOSED);
}

int main(int count, char **arguments) {
    static char words[1 << 16];
    FILE *from = count > 1 ? fopen(arguments[1], "r") : NULL;
    char *managed = NULL;
    size_t size = 0;
    WANT(from && jc_open(&m, 7) == JC_DONE);
    FILE *manager = open_memstream(&managed, &size);
    while (fgets(words, sizeof words, from)) {
        line++;
        session = strtok(words, " ");
        if (!strcmp(session, "cache"))
            WANT(create(text()) == JC_DONE);
        else
            play(manager);
    }
    fclose(from);
    fclose(manager);
    finish(managed);
    free(managed);
    return 0;
}
