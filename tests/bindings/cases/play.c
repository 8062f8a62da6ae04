/* Plays cases.jsonl, whose form README.md tells, and prints how many calls it made.
 *
 *     play CASES
 */
#include "jcache.h"
#include <jansson.h>
#include <stdio.h>
#include <stdlib.h>

static struct jc_manager m;
static uint32_t id;
static uint64_t set_moment; /* of the clock */
static json_t *asked;
static uint8_t saved[4096];
static size_t saved_len;

/* A text as two arguments. */
#define TEXT(line, name) (const uint8_t *)text(line, name), strlen(text(line, name))

static const char *text(json_t *line, const char *name) {
    const char *found = json_string_value(json_object_get(line, name));
    return found ? found : "";
}

static int is(const char *one, const char *other) { return !strcmp(one, other); }

typedef jc_status part_of(struct jc_manager *, uint32_t, size_t, uint8_t *, size_t, size_t *);

/* A part that is shown, or null. */
static json_t *part(part_of *read, size_t item) {
    static uint8_t out[65536];
    size_t len = 0;
    if (read(&m, id, item, out, sizeof out, &len) != JC_DONE)
        return json_null();
    return json_stringn((const char *)out, len);
}

static uint64_t number(size_t place) {
    uint64_t number = 0;
    jc_number(&m, id, place, &number);
    return number;
}

static size_t items(void) {
    size_t count = 0;
    jc_items(&m, id, &count);
    return count;
}

/* The texts of a list, one after the other; of a list of pairs each key with its value. */
struct many {
    uint32_t lengths[128];
    size_t count, len;
    uint8_t bytes[8192];
};

static void add(struct many *to, json_t *text) {
    size_t len = json_string_length(text);
    memcpy(to->bytes + to->len, json_string_value(text), len);
    to->lengths[to->count++] = (uint32_t)len;
    to->len += len;
}

static struct many many(json_t *list) {
    struct many made = {.count = 0};
    size_t place, side;
    json_t *it, *text;
    json_array_foreach(list, place, it) {
        if (json_is_string(it))
            add(&made, it);
        json_array_foreach(it, side, text) add(&made, text);
    }
    return made;
}

/* Hooks. */
static jc_status loaded(void) {
    json_t *key = part(jc_key, 0);
    char first = json_string_value(key)[0];
    json_array_append_new(asked, json_pack("[s,O]", "load", key));
    jc_status status = first == '!'   ? jc_load_failed(&m, id)
                       : first == '-' ? jc_loaded_nothing(&m, id)
                                      : jc_loaded(&m, id, JC_TEXT(json_string_value(key)));
    json_decref(key);
    return status;
}

static jc_status written(int deletes) {
    json_t *key = part(jc_key, 0);
    int fails = json_string_value(key)[0] == '!';
    json_array_append_new(asked, deletes ? json_pack("[s,o]", "delete", key)
                                         : json_pack("[s,o,o]", "write", key, part(jc_value, 0)));
    return fails ? jc_write_failed(&m, id) : jc_written(&m, id);
}

static jc_status processed(json_t *line) {
    const char *name = text(line, "f");
    json_t *value = part(jc_value, 0), *argument = part(jc_argument, 0);
    char joined[256] = "";
    if (json_is_string(value))
        strcat(joined, json_string_value(value));
    json_array_append_new(asked, json_pack("[s,o,O]", "process", part(jc_key, 0), value));
    int answers = json_is_string(value) || is(name, "append");
    if (is(name, "append"))
        strcat(joined, json_string_value(argument));
    json_decref(value), json_decref(argument);
    if (is(name, "fail"))
        return jc_process_failed(&m, id);
    if (is(name, "save"))
        json_array_append_new(asked, json_pack("[s,i]", "save", (int)jc_save(&m, id, saved, sizeof saved, &saved_len)));
    uint32_t action = is(name, "append") ? JC_SET : is(name, "drop") ? JC_REMOVE : JC_KEEP;
    return jc_processed(&m, id, action, JC_TEXT(joined), (uint32_t)answers, JC_TEXT(joined));
}

static jc_status told(void) {
    static const char *const kinds[] = {"created", "updated", "removed", "expired"};
    for (size_t item = 0, count = items(); item < count; item++)
        json_array_append_new(asked, json_pack("[s,o,o,o]", kinds[number(item)], part(jc_key, item),
                                               part(jc_value, item), part(jc_before, item)));
    return jc_told(&m, id);
}

static jc_status answer(jc_status request, json_t *line) {
    switch (request) {
    case JC_NEED_LOAD: return loaded();
    case JC_NEED_PROCESS: return processed(line);
    case JC_NEED_TELL: return told();
    default: return written(request == JC_NEED_DELETE);
    }
}

/* The processor's place: the second one wants the value. */
static uint8_t place_of(json_t *line) { return (uint8_t)json_is_true(json_object_get(line, "loads")); }

static jc_status of_one(json_t *line, const char *op, uint64_t now) {
    typedef jc_status one(struct jc_manager *, uint32_t, uint64_t, const uint8_t *, size_t);
    typedef jc_status two(struct jc_manager *, uint32_t, uint64_t, const uint8_t *, size_t, const uint8_t *, size_t);
    const struct { const char *op; one *call; } ones[] = {
        {"get", jc_get}, {"contains", jc_contains}, {"remove", jc_remove}, {"get_and_remove", jc_get_and_remove}};
    const struct { const char *op; two *call; } twos[] = {
        {"put", jc_put}, {"get_and_put", jc_get_and_put}, {"put_if_absent", jc_put_if_absent}, {"replace", jc_replace},
        {"get_and_replace", jc_get_and_replace}};
    for (size_t k = 0; k < sizeof ones / sizeof *ones; k++)
        if (is(op, ones[k].op))
            return ones[k].call(&m, id, now, TEXT(line, "k"));
    for (size_t k = 0; k < sizeof twos / sizeof *twos; k++)
        if (is(op, twos[k].op))
            return twos[k].call(&m, id, now, TEXT(line, "k"), TEXT(line, "v"));
    if (is(op, "remove_if"))
        return jc_remove_if(&m, id, now, TEXT(line, "k"), TEXT(line, "expect"));
    if (is(op, "replace_if"))
        return jc_replace_if(&m, id, now, TEXT(line, "k"), TEXT(line, "expect"), TEXT(line, "v"));
    return jc_invoke(&m, id, now, TEXT(line, "k"), place_of(line), TEXT(line, "arg"));
}

static jc_status of_many(json_t *line, const char *op, uint64_t now) {
    struct many it = many(json_object_get(line, is(op, "put_all") ? "kvs" : "ks"));
    struct jc_pair_lengths pairs[64];
    for (size_t k = 0; k < it.count / 2; k++)
        pairs[k] = (struct jc_pair_lengths){it.lengths[2 * k], it.lengths[2 * k + 1]};
    if (is(op, "get_all"))
        return jc_get_all(&m, id, now, it.lengths, it.count, it.bytes, it.len);
    if (is(op, "put_all"))
        return jc_put_all(&m, id, now, pairs, it.count / 2, it.bytes, it.len);
    if (is(op, "remove_keys"))
        return jc_remove_keys(&m, id, now, it.lengths, it.count, it.bytes, it.len);
    if (is(op, "load_all"))
        return jc_load_all(&m, id, now, it.lengths, it.count, it.bytes, it.len,
                           (uint32_t)json_is_true(json_object_get(line, "replace")));
    if (is(op, "invoke_all"))
        return jc_invoke_all(&m, id, now, it.lengths, it.count, it.bytes, it.len, place_of(line), TEXT(line, "arg"));
    return is(op, "remove_all") ? jc_remove_all(&m, id, now)
           : is(op, "clear")    ? jc_clear(&m, id, now)
           : is(op, "entries")  ? jc_entries(&m, id, now)
           : is(op, "stats")    ? jc_stats(&m, id, now)
                                : jc_clear_stats(&m, id, now);
}

static json_t *pairs(const char *name) {
    json_t *found = json_array();
    for (size_t item = 0, count = items(); item < count; item++)
        json_array_append_new(found, json_pack("[o,o]", part(jc_key, item), part(jc_value, item)));
    return json_pack("{s:o}", name, found);
}

static json_t *failed(const char *who) {
    json_t *told = json_pack("{s:s}", "failed", who);
    uint64_t done;
    if (jc_number(&m, id, 0, &done) == JC_DONE)
        json_object_set_new(told, "done", json_integer((json_int_t)done));
    return told;
}

/* What a status says, as a case says it. */
static json_t *outcome(jc_status status) {
    switch (status) {
    case JC_DONE: return json_string("done");
    case JC_FALSE: case JC_TRUE: return json_boolean(status == JC_TRUE);
    case JC_FOUND: return json_pack("{s:o}", "value", part(jc_value, 0));
    case JC_NOTHING: return json_pack("{s:n}", "value");
    case JC_LISTED: return pairs("pairs");
    case JC_RESULTS: return pairs("results");
    case JC_COUNTED:
        return json_pack("{s:[I,I,I,I,I]}", "counters", number(0), number(1), number(2), number(3), number(4));
    case JC_LOADER_FAILED: return failed("loader");
    case JC_WRITER_FAILED: return failed("writer");
    case JC_PROCESSOR_FAILED: return failed("function");
    default: return json_pack("{s:i}", "refused", (int)status);
    }
}

static jc_status create(json_t *line, const char *name, uint32_t *made) {
    static const char *const policies[] = {"", "created", "accessed", "modified", "touched"};
    struct jc_settings settings = {.capacity = (uint32_t)json_integer_value(json_object_get(line, "capacity"))};
    settings.duration = (uint64_t)json_integer_value(json_object_get(line, "duration"));
    settings.max_value = (uint32_t)json_integer_value(json_object_get(line, "max_value"));
    for (uint32_t policy = JC_CREATED; policy <= JC_TOUCHED; policy++)
        settings.policy += is(text(line, "expiry"), policies[policy]) ? policy : 0;
    size_t place;
    json_t *hook;
    json_array_foreach(json_object_get(line, "hooks"), place, hook) {
        settings.loader |= is(json_string_value(hook), "loader");
        settings.writer |= is(json_string_value(hook), "writer");
        settings.listeners |= is(json_string_value(hook), "listener");
    }
    return jc_create(&m, JC_TEXT(name), &settings, (const uint8_t *)"\0\1", 2, made);
}

static json_t *save(void) {
    char hex[2 * sizeof saved + 1] = "";
    jc_status status = jc_save(&m, id, saved, sizeof saved, &saved_len);
    for (size_t k = 0; k < saved_len; k++)
        snprintf(hex + 2 * k, 3, "%02x", saved[k]);
    return status == JC_DONE ? json_pack("{s:s}", "saved", hex) : outcome(status);
}

/* Restores the bytes of the line, or else those that were saved. The cache that was made is called from then on. */
static json_t *restore(json_t *line) {
    uint8_t bytes[4096];
    size_t len = strlen(text(line, "bytes")) / 2, place = SIZE_MAX;
    for (size_t k = 0; k < len; k++)
        sscanf(text(line, "bytes") + 2 * k, "%2hhx", &bytes[k]);
    int has_bytes = json_object_get(line, "bytes") != NULL;
    uint32_t max_value = (uint32_t)json_integer_value(json_object_get(line, "max_value"));
    jc_status status = jc_restore(&m, TEXT(line, "name"), has_bytes ? bytes : saved, has_bytes ? len : saved_len,
                                  max_value, &id, &place);
    json_t *told = outcome(status);
    if (status >= JC_BAD_SAVE)
        json_object_set_new(told, "place", json_integer((json_int_t)place));
    return told;
}

static json_t *settings(void) {
    struct jc_settings is = {0};
    uint8_t wants[16];
    size_t len;
    jc_status status = jc_settings_of(&m, id, &is, wants, sizeof wants, &len);
    if (status != JC_DONE || len != 2 || wants[0] || !wants[1])
        return outcome(status);
    return json_pack("{s:[i,i,I]}", "settings", (int)is.capacity, (int)is.policy, (json_int_t)is.duration);
}

static json_t *names(void) {
    uint8_t out[4096];
    size_t len = 0;
    json_t *found = json_array();
    if (jc_names(&m, out, sizeof out, &len) == JC_DONE)
        for (size_t at = 0; at < len; at += 5u + out[at + 4])
            json_array_append_new(found, json_stringn((const char *)out + at + 5, out[at + 4]));
    return json_pack("{s:o}", "names", found);
}

static json_t *peek(json_t *line, uint64_t now) {
    uint8_t out[256];
    uint64_t expires;
    size_t len;
    jc_status status = jc_peek(&m, id, now, TEXT(line, "k"), &expires, out, sizeof out, &len);
    if (status != JC_FOUND)
        return status == JC_NOTHING ? json_pack("{s:n}", "row") : outcome(status);
    json_t *moment = expires == JC_NEVER ? json_null() : json_integer((json_int_t)expires);
    return json_pack("{s:[s#,o]}", "row", (char *)out, (int)len, moment);
}

/* The live rows of a walk, in its order: no case has two. Their values are shorter than 256 bytes. */
static json_t *walk(uint64_t now) {
    uint8_t out[4096];
    json_t *found = json_array();
    uint32_t next = 0;
    size_t len;
    while (jc_walk(&m, id, next, out, sizeof out, &len, &next) == JC_LISTED)
        for (size_t at = 0; at < len; at += 11u + out[at + 8] + out[at + 9]) {
            uint64_t expires = 0;
            for (size_t k = 8; k-- > 0;)
                expires = expires << 8 | out[at + k];
            const char *key = (const char *)out + at + 11;
            if (expires == JC_NEVER || expires > now)
                json_array_append_new(found, json_pack("[s#,s#]", key, out[at + 8], key + out[at + 8], out[at + 9]));
        }
    return json_pack("{s:o}", "pairs", found);
}

static json_t *call(json_t *line) {
    const char *op = text(line, "op");
    json_t *at = json_object_get(line, "at");
    uint64_t now = at ? (uint64_t)json_integer_value(at) : set_moment;
    uint32_t other;
    uint64_t bytes;
    size_t rows;
    if (is(op, "clock"))
        return set_moment = now, json_string("done");
    if (is(op, "create"))
        return outcome(create(line, text(line, "name"), &other));
    if (is(op, "destroy"))
        return outcome(jc_find(&m, TEXT(line, "name"), &other) == JC_DONE ? jc_destroy(&m, other) : JC_NO_SUCH_CACHE);
    if (is(op, "save"))
        return save();
    if (is(op, "restore"))
        return restore(line);
    if (is(op, "settings"))
        return settings();
    if (is(op, "names"))
        return names();
    if (is(op, "rows"))
        return jc_rows(&m, id, &rows) == JC_DONE ? json_pack("{s:i}", "rows", (int)rows) : json_null();
    if (is(op, "bytes"))
        return jc_bytes(&m, id, &bytes) == JC_DONE ? json_pack("{s:I}", "bytes", (json_int_t)bytes) : json_null();
    if (is(op, "peek"))
        return peek(line, now);
    if (is(op, "walk"))
        return walk(now);
    jc_status status = json_object_get(line, "k") ? of_one(line, op, now) : of_many(line, op, now);
    while (status >= JC_NEED_LOAD && status <= JC_NEED_TELL)
        status = answer(status, line);
    if (status >= JC_NO_SUCH_CACHE)
        jc_give_up(&m, id);
    return outcome(status);
}

/* Whether a call comes to what its line says; if not, what it comes to is told. */
static int plays(json_t *line) {
    asked = json_array();
    json_t *came_to = call(line), *asks = json_object_get(line, "asks"), *none = json_array();
    int is_same = json_equal(came_to, json_object_get(line, "is")) && json_equal(asked, asks ? asks : none);
    if (!is_same) {
        json_dumpf(line, stdout, 0), fputs("\ncame to ", stdout), json_dumpf(came_to, stdout, JSON_ENCODE_ANY);
        fputs(", asked ", stdout), json_dumpf(asked, stdout, 0);
    }
    json_decref(came_to), json_decref(asked), json_decref(none);
    return is_same;
}

int main(int count, char **words) {
    FILE *lines = count == 2 ? fopen(words[1], "r") : NULL;
    int calls = 0, passes = 1;
    json_t *line;
    while (lines && passes && (line = json_loadf(lines, JSON_DISABLE_EOF_CHECK, NULL))) {
        if (json_object_get(line, "case")) {
            jc_close(&m);
            set_moment = 0;
            passes = jc_open(&m, 7) == JC_DONE && create(line, "case", &id) == JC_DONE;
        } else
            passes = plays(line), calls++;
        json_decref(line);
    }
    if (lines)
        fclose(lines);
    jc_close(&m);
    if (passes)
        printf("%d calls\n", calls);
    return !passes;
}
