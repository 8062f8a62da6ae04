/* calls.c: how each call begins. */
#include "calls.h"
#include "heap.h"
#include "processors.h"

const struct call calls[CALLS] = {
    [GET] = {"GET", KEY, KEEPS_ROWS, {.key = jc_get}},
    [CONTAINS] = {"CONTAINS", KEY, IS_LOOK | KEEPS_ROWS, {.key = jc_contains}},
    [PUT] = {"PUT", KEY_VALUE, MAY_WRITE | ENDS_LEASES, {.value = jc_put}},
    [GETANDPUT] = {"GETANDPUT", KEY_VALUE, MAY_WRITE | ENDS_LEASES, {.value = jc_get_and_put}},
    [PUTIFABSENT] = {"PUTIFABSENT",
                     KEY_VALUE,
                     MAY_WRITE | ENDS_LEASES,
                     {.value = jc_put_if_absent}},
    [REPLACE] = {"REPLACE", KEY_VALUE, MAY_WRITE | ENDS_LEASES, {.value = jc_replace}},
    [REPLACEIF] = {"REPLACEIF", KEY_TWO_VALUES, MAY_WRITE | ENDS_LEASES, {0}},
    [GETANDREPLACE] = {"GETANDREPLACE",
                       KEY_VALUE,
                       MAY_WRITE | ENDS_LEASES,
                       {.value = jc_get_and_replace}},
    [REMOVE] = {"REMOVE", KEY, MAY_WRITE | ENDS_LEASES, {.key = jc_remove}},
    [REMOVEIF] = {"REMOVEIF", KEY_VALUE, MAY_WRITE | ENDS_LEASES, {.value = jc_remove_if}},
    [GETANDREMOVE] = {"GETANDREMOVE", KEY, MAY_WRITE | ENDS_LEASES, {.key = jc_get_and_remove}},
    [INVOKE] = {"INVOKE", KEY_PROCESSOR, MAY_WRITE | ENDS_LEASES, {0}},
    [GETALL] = {"GETALL", SOME_KEYS, KEEPS_ROWS, {.keys = jc_get_all}},
    [PUTALL] = {"PUTALL", SOME_PAIRS, MAY_WRITE | ENDS_LEASES, {0}},
    [REMOVEKEYS] = {"REMOVEKEYS", SOME_KEYS, MAY_WRITE | ENDS_LEASES, {.keys = jc_remove_keys}},
    [LOADALL] = {"LOADALL", SOME_LOADED, ENDS_LEASES, {0}},
    [INVOKEALL] = {"INVOKEALL", SOME_PROCESSED, MAY_WRITE | ENDS_LEASES, {0}},
    [REMOVEALL] = {"REMOVEALL", WHOLE, MAY_WRITE | ENDS_LEASES, {.whole = jc_remove_all}},
    [CLEAR] = {"CLEAR", WHOLE, ENDS_LEASES, {.whole = jc_clear}},
    [ENTRIES] = {"ENTRIES", WHOLE, KEEPS_ROWS, {.whole = jc_entries}},
    [STATS] = {"STATS", WHOLE, IS_LOOK | KEEPS_ROWS, {.whole = jc_stats}},
    [CLEARSTATS] = {"CLEARSTATS", WHOLE, KEEPS_ROWS, {.whole = jc_clear_stats}},
};

/* How many words each shape has at least; where its keys begin; at every how many words one stands,
 * if it may have more. */
static const struct {
    int least, first_key, step;
} shapes[] = {
    [WHOLE] = {0, 0, 0},          [KEY] = {1, 0, 0},           [KEY_VALUE] = {2, 0, 0},
    [KEY_TWO_VALUES] = {3, 0, 0}, [KEY_PROCESSOR] = {3, 0, 0}, [SOME_KEYS] = {1, 0, 1},
    [SOME_PAIRS] = {2, 0, 2},     [SOME_LOADED] = {3, 1, 2},   [SOME_PROCESSED] = {3, 2, 1},
};

const struct call *call_named(const struct word *name) {
    for (int i = 0; i < CALLS; i++)
        if (is_word(name, calls[i].name))
            return &calls[i];
    return NULL;
}

int takes(const struct call *call, int count) {
    int beyond = count - shapes[call->shape].least, step = shapes[call->shape].step;
    return step ? beyond >= 0 && beyond % step == 0 : beyond == 0;
}

int first_key(const struct call *call) {
    return shapes[call->shape].first_key;
}

int key_step(const struct call *call) {
    return shapes[call->shape].step;
}

/* The keys, or pairs, of a call on many, one behind the other. */
struct gathered {
    uint32_t lengths[MOST_KEYS];
    struct jc_pair_lengths pairs[MOST_KEYS];
    size_t count, len;
    uint8_t *bytes; /* or NULL: they are more than MOST_KEYS, or memory was refused */
};

static jc_status gather(struct gathered *all, struct word **words, int count, int step,
                        int with_values) {
    all->count = (size_t)(count / step);
    all->len = 0;
    all->bytes = NULL;
    if (all->count > MOST_KEYS)
        return JC_TOO_MANY_KEYS;
    for (int i = 0; i < count; i += step)
        all->len += text_of(words[i]).len + (with_values ? text_of(words[i + 1]).len : 0);
    if (!(all->bytes = take(all->len + 1)))
        return JC_OUT_OF_MEMORY;
    uint8_t *at = all->bytes;
    for (int i = 0; i < count; i++) {
        if (i % step && !with_values)
            continue;
        struct text text = text_of(words[i]);
        if (i % step)
            all->pairs[i / step].value = (uint32_t)text.len;
        else
            all->pairs[i / step].key = all->lengths[i / step] = (uint32_t)text.len;
        memcpy(at, text.at, text.len);
        at += text.len;
    }
    return JC_DONE;
}

/* Whether all that is loaded fits, since an open call can't refuse it. */
static int fits(const struct cache *cache, struct word **pairs, int count) {
    for (int i = 1; i < count; i += 2)
        if (text_of(pairs[i]).len > cache->settings.max_value)
            return 0;
    return 1;
}

static jc_status begin_many(struct cache *cache, const struct call *call, uint64_t now,
                            struct word **words, int count) {
    struct jc_manager *m = &cache->manager;
    struct gathered all;
    int first = first_key(call);
    uint32_t replaces = call->shape == SOME_LOADED && is_word(words[0], "REPLACE");
    if (call->shape == SOME_LOADED && !replaces && !is_word(words[0], "KEEP"))
        return JC_BAD_CHOICE;
    if (call->shape == SOME_LOADED && !fits(cache, words + first, count - first))
        return JC_BAD_VALUE;
    jc_status status =
        gather(&all, words + first, count - first, key_step(call), call->shape == SOME_PAIRS);
    if (status != JC_DONE)
        return status;
    if (call->shape == SOME_PAIRS) {
        status = jc_put_all(m, cache->id, now, all.pairs, all.count, all.bytes, all.len);
    } else if (call->shape == SOME_LOADED) {
        status =
            jc_load_all(m, cache->id, now, all.lengths, all.count, all.bytes, all.len, replaces);
    } else if (call->shape == SOME_PROCESSED) {
        struct text argument = text_of(words[1]);
        status = jc_invoke_all(m, cache->id, now, all.lengths, all.count, all.bytes, all.len,
                               processor_named(words[0]), argument.at, argument.len);
    } else {
        status = call->begin.keys(m, cache->id, now, all.lengths, all.count, all.bytes, all.len);
    }
    server.Free(all.bytes);
    return status;
}

jc_status begin_call(struct cache *cache, const struct call *call, uint64_t now,
                     struct word **words, int count) {
    struct jc_manager *m = &cache->manager;
    struct text key, value, other;
    if (call->shape == WHOLE)
        return call->begin.whole(m, cache->id, now);
    if (key_step(call))
        return begin_many(cache, call, now, words, count);
    key = text_of(words[0]);
    if (call->shape == KEY)
        return call->begin.key(m, cache->id, now, key.at, key.len);
    value = text_of(words[1]);
    if (call->shape == KEY_VALUE)
        return call->begin.value(m, cache->id, now, key.at, key.len, value.at, value.len);
    other = text_of(words[2]);
    if (call->shape == KEY_TWO_VALUES)
        return jc_replace_if(m, cache->id, now, key.at, key.len, value.at, value.len, other.at,
                             other.len);
    return jc_invoke(m, cache->id, now, key.at, key.len, processor_named(words[1]), other.at,
                     other.len);
}

void end_leases_of(struct cache *cache, const struct call *call, struct word **words, int count) {
    if (!cache->leases.by_key || !(call->flags & ENDS_LEASES))
        return;
    if (call->shape == WHOLE) {
        end_all_leases(&cache->leases);
        return;
    }
    int step = key_step(call) ? key_step(call) : count;
    for (int i = first_key(call); i < count; i += step)
        end_lease(&cache->leases, text_of(words[i]));
}
