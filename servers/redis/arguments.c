/* arguments.c: the commands' arguments, as COMMAND DOCS tells them. A list ends with an argument
 * without a name. */
#include "commands.h"

#define SINCE "0.1.0"
#define CACHE \
    { .name = "cache", .type = A_KEY, .key_spec = 0, .since = SINCE }
#define STREAM \
    { .name = "stream", .type = A_KEY, .key_spec = 0, .since = SINCE }
#define TEXT(called) \
    { .name = called, .type = A_STRING, .key_spec = -1, .since = SINCE }
#define TEXTS(called) \
    { .name = called, .type = A_STRING, .key_spec = -1, .since = SINCE, .flags = MULTIPLE }
#define NUMBER(called) \
    { .name = called, .type = AN_INTEGER, .key_spec = -1, .since = SINCE }
#define TOKEN(called, word) \
    { .name = called, .type = A_TOKEN, .key_spec = -1, .token = word, .since = SINCE }
#define FLAG(called, word) \
    { \
        .name = called, .type = A_TOKEN, .key_spec = -1, .token = word, .since = SINCE, \
        .flags = OPTIONAL \
    }
#define NUMBER_BEHIND(called, word) \
    { .name = called, .type = AN_INTEGER, .key_spec = -1, .token = word, .since = SINCE }
#define MAYBE_BEHIND(called, word) \
    { \
        .name = called, .type = AN_INTEGER, .key_spec = -1, .token = word, .since = SINCE, \
        .flags = OPTIONAL \
    }
#define PARTS(called, kind, flag, of) \
    { .name = called, .type = kind, .key_spec = -1, .since = SINCE, .flags = flag, .parts = of }
#define END \
    { .name = NULL }

static const struct argument pair[] = {TEXT("key"), TEXT("value"), END};
static const struct argument policy[] = {
    TOKEN("eternal", "ETERNAL"),           NUMBER_BEHIND("created", "CREATED"),
    NUMBER_BEHIND("accessed", "ACCESSED"), NUMBER_BEHIND("modified", "MODIFIED"),
    NUMBER_BEHIND("touched", "TOUCHED"),   END,
};
static const struct argument mode[] = {TOKEN("keep", "KEEP"), TOKEN("replace", "REPLACE"), END};

const struct argument cache_alone[] = {CACHE, END};
const struct argument cache_key[] = {CACHE, TEXT("key"), END};
const struct argument cache_key_value[] = {CACHE, TEXT("key"), TEXT("value"), END};
const struct argument cache_key_expected[] = {CACHE, TEXT("key"), TEXT("expected"), END};
const struct argument cache_key_expected_value[] = {CACHE, TEXT("key"), TEXT("expected"),
                                                    TEXT("value"), END};
const struct argument cache_key_processor[] = {CACHE, TEXT("key"), TEXT("processor"),
                                               TEXT("argument"), END};
const struct argument cache_keys[] = {CACHE, TEXTS("key"), END};
const struct argument cache_pairs[] = {CACHE, PARTS("pair", A_BLOCK, MULTIPLE, pair), END};
const struct argument cache_loaded[] = {CACHE, PARTS("mode", ONE_OF, 0, mode),
                                        PARTS("pair", A_BLOCK, MULTIPLE, pair), END};
const struct argument cache_processed[] = {CACHE, TEXT("processor"), TEXT("argument"), TEXTS("key"),
                                           END};
const struct argument to_create[] = {
    CACHE,
    NUMBER("capacity"),
    PARTS("policy", ONE_OF, OPTIONAL, policy),
    FLAG("loader", "LOADER"),
    FLAG("writer", "WRITER"),
    FLAG("listeners", "LISTENERS"),
    MAYBE_BEHIND("bytes", "MAXVALUE"),
    END,
};
const struct argument to_restore[] = {
    CACHE, TEXT("saved"), MAYBE_BEHIND("bytes", "MAXVALUE"), MAYBE_BEHIND("milliseconds", "MOMENT"),
    END,
};
const struct argument to_get[] = {CACHE, TEXT("key"), MAYBE_BEHIND("milliseconds", "LEASE"), END};
const struct argument to_fill[] = {CACHE, TEXT("key"), TEXT("value"),
                                   MAYBE_BEHIND("token", "TOKEN"), END};
const struct argument to_release[] = {CACHE, TEXT("key"), NUMBER("token"), END};
const struct argument to_scan[] = {CACHE, NUMBER("cursor"), MAYBE_BEHIND("bytes", "BYTES"), END};
const struct argument to_write_behind[] = {CACHE, STREAM, TEXT("call"), TEXTS("word"), END};
const struct argument at_moment[] = {
    CACHE, NUMBER("milliseconds"), MAYBE_BEHIND("count", "WROTE"), TEXT("call"), TEXTS("word"), END,
};
