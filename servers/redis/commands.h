/* commands.h: what the server registers, a row each. */
#ifndef COMMANDS_H
#define COMMANDS_H

#include "calls.h"
#include "server.h"

/* A command as it is registered, with what COMMAND DOCS tells of it. */
struct row {
    const char *name;
    command_function *run;
    const char *flags;      /* as the server has them */
    const char *categories; /* for access lists, where the server takes them */
    int arity;              /* how many words, its name among them; negative: at least so many */
    uint64_t key_flags;     /* of the cache's key */
    const char *summary;
    const char *complexity;
    const struct argument *arguments;
};

enum { ROWS = 33 };
extern const struct row rows[ROWS];

/* Arguments, by what stands in a command. */
extern const struct argument cache_alone[], cache_key[], cache_key_value[], cache_key_expected[],
    cache_key_expected_value[], cache_key_processor[], cache_keys[], cache_pairs[], cache_loaded[],
    cache_processed[], to_create[], to_restore[], to_get[], to_fill[], to_release[], to_scan[],
    to_write_behind[], at_moment[];

/* The commands of calls, in order of their names. */
#define CALL_COMMANDS(F) \
    F(contains, CONTAINS) \
    F(put, PUT) \
    F(get_and_put, GETANDPUT) F(put_if_absent, PUTIFABSENT) F(replace, REPLACE) \
        F(replace_if, REPLACEIF) F(get_and_replace, GETANDREPLACE) F(remove, REMOVE) \
            F(remove_if, REMOVEIF) F(get_and_remove, GETANDREMOVE) F(invoke, INVOKE) \
                F(get_all, GETALL) F(put_all, PUTALL) F(remove_keys, REMOVEKEYS) \
                    F(load_all, LOADALL) F(invoke_all, INVOKEALL) F(remove_all, REMOVEALL) \
                        F(clear, CLEAR) F(entries, ENTRIES) F(stats, STATS) \
                            F(clear_stats, CLEARSTATS)

#define CALL_COMMAND(name, call) command_function name##_command;
CALL_COMMANDS(CALL_COMMAND)
#undef CALL_COMMAND

command_function get_command, fill_command, release_command, at_command, behind_command;
command_function create_command, destroy_command, settings_command, save_command, restore_command;
command_function peek_command, scan_command;

#endif
