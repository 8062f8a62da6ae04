/* table.c: the table of commands. A get counts, marks and renews, so it is a write: replicas take
 * it from their master. */
#include "commands.h"

/* A command's flags, and its categories for access lists. */
#define LOOK "readonly fast", "read fast"
#define LONG_LOOK "readonly", "read slow"
#define CHANGE "write fast", "write fast"
#define LONG_CHANGE "write", "write slow"
#define STORE "write deny-oom fast", "write fast"
#define LONG_STORE "write deny-oom", "write slow"
#define REPEAT "write deny-oom admin", "write slow admin dangerous"

enum {
    LOOKS = READ_ONLY | ACCESSES,
    COUNTS = READ_WRITE | ACCESSES | UPDATES,
    STORES = READ_WRITE | ACCESSES | UPDATES,
    TAKES_OUT = READ_WRITE | ACCESSES | DELETES,
    MAKES = OVERWRITES | INSERTS,
    ENDS = REMOVES_KEY | DELETES
};

const struct row rows[ROWS] = {
    {"jc.create", create_command, LONG_STORE, -3, MAKES,
     "Makes a cache of at most so many entries.", "O(N), N the capacity", to_create},
    {"jc.destroy", destroy_command, LONG_CHANGE, 2, ENDS, "Ends a cache.", "O(N), N the capacity",
     cache_alone},
    {"jc.settings", settings_command, LOOK, 2, LOOKS,
     "Tells what a cache was created with, and what it takes.", "O(1)", cache_alone},
    {"jc.save", save_command, LONG_LOOK, 2, LOOKS,
     "Tells the bytes by which a cache will ever answer.", "O(N), N the bytes", cache_alone},
    {"jc.restore", restore_command, LONG_STORE, -3, MAKES, "Makes a cache of saved bytes.",
     "O(N), N the bytes", to_restore},
    {"jc.get", get_command, CHANGE, -3, COUNTS, "Gets a value, or a lease to load it.", "O(1)",
     to_get},
    {"jc.fill", fill_command, STORE, -4, STORES,
     "Stores a value that was loaded, if nobody was faster.", "O(1)", to_fill},
    {"jc.release", release_command, CHANGE, 4, COUNTS, "Ends a lease whose value is not to be had.",
     "O(1)", to_release},
    {"jc.contains", contains_command, LOOK, 3, LOOKS,
     "Tells whether a key has a value; counts and renews nothing.", "O(1)", cache_key},
    {"jc.peek", peek_command, LOOK, 3, LOOKS,
     "Tells a value and when it expires; counts and renews nothing.", "O(1)", cache_key},
    {"jc.put", put_command, STORE, 4, STORES, "Stores a value.", "O(1)", cache_key_value},
    {"jc.getandput", get_and_put_command, STORE, 4, STORES,
     "Stores a value, and tells the one before.", "O(1)", cache_key_value},
    {"jc.putifabsent", put_if_absent_command, STORE, 4, STORES,
     "Stores a value where there is none.", "O(1)", cache_key_value},
    {"jc.replace", replace_command, STORE, 4, STORES, "Stores a value where there is one.", "O(1)",
     cache_key_value},
    {"jc.replaceif", replace_if_command, STORE, 5, STORES,
     "Stores a value where there is the expected one.", "O(1)", cache_key_expected_value},
    {"jc.getandreplace", get_and_replace_command, STORE, 4, STORES,
     "Stores a value where there is one, and tells that.", "O(1)", cache_key_value},
    {"jc.remove", remove_command, CHANGE, 3, TAKES_OUT, "Removes an entry.", "O(1)", cache_key},
    {"jc.removeif", remove_if_command, CHANGE, 4, TAKES_OUT,
     "Removes an entry that has the expected value.", "O(1)", cache_key_expected},
    {"jc.getandremove", get_and_remove_command, CHANGE, 3, TAKES_OUT,
     "Removes an entry, and tells its value.", "O(1)", cache_key},
    {"jc.invoke", invoke_command, STORE, 5, STORES,
     "Runs APPEND, ADD, MAXIMUM or MINIMUM on an entry.", "O(1)", cache_key_processor},
    {"jc.getall", get_all_command, LONG_CHANGE, -3, COUNTS, "Gets the values of keys.",
     "O(N), N the keys", cache_keys},
    {"jc.putall", put_all_command, LONG_STORE, -4, STORES, "Stores values.", "O(N), N the keys",
     cache_pairs},
    {"jc.removekeys", remove_keys_command, LONG_CHANGE, -3, TAKES_OUT, "Removes entries.",
     "O(N), N the keys", cache_keys},
    {"jc.loadall", load_all_command, LONG_STORE, -5, STORES, "Stores values that were loaded.",
     "O(N), N the keys", cache_loaded},
    {"jc.invokeall", invoke_all_command, LONG_STORE, -5, STORES, "Runs a processor on entries.",
     "O(N), N the keys", cache_processed},
    {"jc.removeall", remove_all_command, LONG_CHANGE, 2, TAKES_OUT, "Removes all entries.",
     "O(N), N the entries", cache_alone},
    {"jc.clear", clear_command, LONG_CHANGE, 2, TAKES_OUT, "Drops all entries, and tells nobody.",
     "O(N), N the entries", cache_alone},
    {"jc.entries", entries_command, LONG_CHANGE, 2, COUNTS,
     "Lists all entries, each of which counts as used.", "O(N), N the entries", cache_alone},
    {"jc.scan", scan_command, LONG_LOOK, -3, LOOKS,
     "Lists entries step by step; counts and renews nothing.", "O(N), N the rows of a step",
     to_scan},
    {"jc.stats", stats_command, LOOK, 2, LOOKS, "Tells the counters.", "O(1)", cache_alone},
    {"jc.clearstats", clear_stats_command, CHANGE, 2, COUNTS, "Sets the counters to zero.", "O(1)",
     cache_alone},
    {"jc.behind", behind_command, LONG_STORE, -4, STORES,
     "Makes a call whose writes are added to a stream.", "As the call", to_write_behind},
    {"jc.at", at_command, REPEAT, -4, STORES,
     "Makes a call at a moment: what replicas and logs get.", "As the call", at_moment},
};
