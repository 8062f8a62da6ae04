/* server.c: finds the server's functions, and reads its words. */
#include "server.h"
#include <string.h>
#include <strings.h>

struct server server;

int find_server(struct context *context) {
    int (*find)(const char *, void *) = *(int (**)(const char *, void *))(void *)context;
    int lacks = 0;
#define FIND(result, name, parameters) lacks |= find("RedisModule_" #name, (void *)&server.name);
    SERVER_FUNCTIONS(FIND)
#undef FIND
#define FIND(result, name, parameters) find("RedisModule_" #name, (void *)&server.name);
    NEWER_FUNCTIONS(FIND)
#undef FIND
    return !lacks;
}

struct text text_of(const struct word *word) {
    struct text text;
    text.at = (const uint8_t *)server.StringPtrLen(word, &text.len);
    return text;
}

int is_word(const struct word *word, const char *name) {
    struct text text = text_of(word);
    return text.len == strlen(name) && !strncasecmp((const char *)text.at, name, text.len);
}

int number_of(const struct word *word, uint64_t *out) {
    struct text text = text_of(word);
    uint64_t number = 0;
    if (!text.len || text.len > 20)
        return 0;
    for (size_t i = 0; i < text.len; i++) {
        uint64_t digit = (uint64_t)text.at[i] - '0';
        if (digit > 9 || number > (UINT64_MAX - digit) / 10)
            return 0;
        number = number * 10 + digit;
    }
    *out = number;
    return 1;
}
