/* module.c: what the server calls when it loads the module. */
#include "commands.h"
#include "keys.h"
#include <string.h>

static const struct information_version information_version = {
    .version = 1,
    .size_of_history = 2 * sizeof(char *),
    .size_of_key_spec = sizeof(struct key_spec),
    .size_of_argument = sizeof(struct argument),
};

/* JC.BEHIND alone has a second key: the stream. */
static int last_key(const struct row *row) {
    return row->run == behind_command ? 2 : 1;
}

/* Tells the server what the command is about. Whether it took it. */
static int describe(struct command *command, const struct row *row) {
    struct key_spec specs[2] = {{
        .flags = row->key_flags,
        .begin_type = BEGINS_AT_INDEX,
        .begin.index.at = 1,
        .find_type = FINDS_RANGE,
        .find.range = {.last = last_key(row) - 1, .step = 1},
    }};
    struct information information = {
        .version = &information_version,
        .summary = row->summary,
        .complexity = row->complexity,
        .since = "0.1.0",
        .arity = row->arity,
        .key_specs = specs,
        .arguments = row->arguments,
    };
    return server.SetCommandInfo(command, &information) == SERVER_OK;
}

static int add(struct context *context, const struct row *row) {
    if (server.CreateCommand(context, row->name, row->run, row->flags, 1, last_key(row), 1) !=
        SERVER_OK)
        return 0;
    struct command *command = server.GetCommand(context, row->name);
    if (server.SetCommandACLCategories &&
        server.SetCommandACLCategories(command, row->categories) != SERVER_OK)
        return 0;
    return describe(command, row);
}

__attribute__((visibility("default"))) int RedisModule_OnLoad(struct context *context,
                                                              struct word **words, int count);

int RedisModule_OnLoad(struct context *context, struct word **words, int count) {
    (void)words, (void)count;
    if (!find_server(context) || server.IsModuleNameBusy("jcache"))
        return SERVER_ERROR;
    server.SetModuleAttribs(context, "jcache", JCACHE_VERSION, 1);
    server.SetModuleOptions(context, HANDLES_STORAGE_ERRORS | HANDLES_LOADING_BESIDE);
    if (!add_type(context))
        return SERVER_ERROR;
    for (int i = 0; i < ROWS; i++)
        if (!add(context, &rows[i]))
            return SERVER_ERROR;
    return SERVER_OK;
}
