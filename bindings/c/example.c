/* A cache whose loader is ours: the first get of a name loads its greeting, the next one finds it. */
#include "jcache.h"
#include <stdio.h>

static void greet(struct jc_manager *m, uint32_t cache, uint64_t now, const char *name) {
    uint8_t key[64], text[128];
    size_t len;
    jc_status status = jc_get(m, cache, now, JC_TEXT(name));
    if (status == JC_NEED_LOAD && jc_key(m, cache, 0, key, sizeof key, &len) == JC_DONE) {
        int size = snprintf((char *)text, sizeof text, "Hello, %.*s!", (int)len, (const char *)key);
        printf("%d: loads %.*s\n", (int)now, (int)len, (const char *)key);
        status = jc_loaded(m, cache, text, (size_t)size);
    }
    if (status == JC_FOUND && jc_value(m, cache, 0, text, sizeof text, &len) == JC_DONE)
        printf("%d: %.*s\n", (int)now, (int)len, (const char *)text);
}

int main(void) {
    struct jc_manager m = {0};
    struct jc_settings settings = {.capacity = 100, .policy = JC_CREATED, .duration = 60000, .loader = 1};
    uint32_t greetings;
    if (jc_open(&m, 7) != JC_DONE || jc_create(&m, JC_TEXT("greetings"), &settings, JC_EMPTY, &greetings) != JC_DONE)
        return 1;
    greet(&m, greetings, 0, "ann");
    greet(&m, greetings, 59999, "ann");
    greet(&m, greetings, 60000, "ann");
    return jc_close(&m) != JC_DONE;
}
