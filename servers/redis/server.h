/* server.h: the part of the module interface of Redis 7.0 that this module uses, in declarations of
 * our own. Valkey keeps the same interface. A module is handed a context whose first word is the
 * function by which it finds all others by name.
 */
#ifndef SERVER_H
#define SERVER_H

#include <stddef.h>
#include <stdint.h>

struct context; /* of one command, or of loading the module */
struct word;    /* a string of the server's, as an argument */
struct open_key;
struct key_type;
struct storage; /* what a key's value is written to or read from */
struct digest;
struct call_reply; /* of a command that this module calls */
struct dictionary;
struct dictionary_place;
struct command; /* one that is registered */

enum { SERVER_OK = 0, SERVER_ERROR = 1 };
enum { OPEN_TO_READ = 1, OPEN_TO_WRITE = 2 };
enum { KEY_IS_EMPTY = 0 };
/* Flags of a context: of the server, and of the command as it came. */
enum { IS_MASTER = 1 << 2, IS_REPEATED = 1 << 12, IS_LOADING = 1 << 13 };
enum { HANDLES_STORAGE_ERRORS = 1 << 0, HANDLES_LOADING_BESIDE = 1 << 2 };
enum { NOTIFY_MODULE = 1 << 13 };
enum { REPLY_IS_ERROR = 1 };

typedef int command_function(struct context *, struct word **words, int count);

/* The methods of a type, version 3 of their list: known to Redis from 6.2 on. */
struct type_methods {
    uint64_t version;
    void *(*load)(struct storage *, int encoding);
    void (*save)(struct storage *, void *value);
    void (*rewrite)(struct storage *, struct word *name, void *value);
    size_t (*memory)(const void *value);
    void (*digest)(struct digest *, void *value);
    void (*free)(void *value);
    int (*load_beside)(struct storage *, int encoding, int when);
    void (*save_beside)(struct storage *, int when);
    int beside;
    size_t (*effort)(struct word *name, const void *value);
    void (*unlink)(struct word *name, const void *value);
    void *(*copy)(struct word *from, struct word *to, const void *value);
    int (*defragment)(void *, struct word *name, void **value);
};

/* What COMMAND DOCS and COMMAND INFO tell of a command. */
enum argument_type {
    A_STRING = 0,
    AN_INTEGER = 1,
    A_KEY = 3,
    A_TOKEN = 6,
    ONE_OF = 7,
    A_BLOCK = 8
};
enum { OPTIONAL = 1, MULTIPLE = 2 };
struct argument {
    const char *name;
    enum argument_type type;
    int key_spec;
    const char *token, *summary, *since;
    int flags;
    const char *deprecated_since;
    const struct argument *parts;
};

enum {
    READ_ONLY = 1 << 0,
    READ_WRITE = 1 << 1,
    OVERWRITES = 1 << 2,
    REMOVES_KEY = 1 << 3,
    ACCESSES = 1 << 4,
    UPDATES = 1 << 5,
    INSERTS = 1 << 6,
    DELETES = 1 << 7
};
enum { BEGINS_AT_INDEX = 2, FINDS_RANGE = 2 };
struct key_spec {
    const char *notes;
    uint64_t flags;
    int begin_type;
    union {
        struct {
            int at;
        } index;
        struct {
            const char *word;
            int from;
        } keyword;
    } begin;
    int find_type;
    union {
        struct {
            int last, step, limit;
        } range;
        struct {
            int count_at, first, step;
        } counted;
    } find;
};

struct information_version {
    int version;
    size_t size_of_history, size_of_key_spec, size_of_argument;
};
struct information {
    const struct information_version *version;
    const char *summary, *complexity, *since;
    const void *history;
    const char *tips;
    int arity;
    const struct key_spec *key_specs;
    const struct argument *arguments;
};

/* F(result, name, parameters) of each function. */
#define SERVER_FUNCTIONS(F) \
    F(void, SetModuleAttribs, (struct context *, const char *, int version, int interface)) \
    F(int, IsModuleNameBusy, (const char *)) \
    F(void, SetModuleOptions, (struct context *, int)) \
    F(int, CreateCommand, \
      (struct context *, const char *, command_function *, const char *flags, int first_key, \
       int last_key, int step)) \
    F(struct command *, GetCommand, (struct context *, const char *)) \
    F(int, SetCommandInfo, (struct command *, const struct information *)) \
    F(struct key_type *, CreateDataType, \
      (struct context *, const char *, int encoding, struct type_methods *)) \
    F(void *, Alloc, (size_t)) \
    F(void *, TryAlloc, (size_t)) \
    F(void *, Realloc, (void *, size_t)) \
    F(void, Free, (void *)) \
    F(size_t, MallocSize, (void *)) \
    F(long long, Milliseconds, (void)) \
    F(void, GetRandomBytes, (unsigned char *, size_t)) \
    F(int, GetContextFlags, (struct context *)) \
    F(struct open_key *, OpenKey, (struct context *, struct word *, int mode)) \
    F(void, CloseKey, (struct open_key *)) \
    F(int, KeyType, (struct open_key *)) \
    F(int, DeleteKey, (struct open_key *)) \
    F(struct key_type *, ModuleTypeGetType, (struct open_key *)) \
    F(void *, ModuleTypeGetValue, (struct open_key *)) \
    F(int, ModuleTypeSetValue, (struct open_key *, struct key_type *, void *)) \
    F(const char *, StringPtrLen, (const struct word *, size_t *)) \
    F(struct word *, CreateString, (struct context *, const char *, size_t)) \
    F(void, FreeString, (struct context *, struct word *)) \
    F(int, WrongArity, (struct context *)) \
    F(int, ReplyWithError, (struct context *, const char *)) \
    F(int, ReplyWithSimpleString, (struct context *, const char *)) \
    F(int, ReplyWithLongLong, (struct context *, long long)) \
    F(int, ReplyWithNull, (struct context *)) \
    F(int, ReplyWithArray, (struct context *, long)) \
    F(int, ReplyWithMap, (struct context *, long)) \
    F(int, ReplyWithStringBuffer, (struct context *, const char *, size_t)) \
    F(int, Replicate, (struct context *, const char *, const char *format, ...)) \
    F(int, ReplicateVerbatim, (struct context *)) \
    F(struct call_reply *, Call, (struct context *, const char *, const char *format, ...)) \
    F(int, CallReplyType, (struct call_reply *)) \
    F(void, FreeCallReply, (struct call_reply *)) \
    F(void, SaveUnsigned, (struct storage *, uint64_t)) \
    F(uint64_t, LoadUnsigned, (struct storage *)) \
    F(void, SaveStringBuffer, (struct storage *, const char *, size_t)) \
    F(char *, LoadStringBuffer, (struct storage *, size_t *)) \
    F(int, IsIOError, (struct storage *)) \
    F(void, LogIOError, (struct storage *, const char *level, const char *format, ...)) \
    F(void, EmitAOF, (struct storage *, const char *, const char *format, ...)) \
    F(void, DigestAddStringBuffer, (struct digest *, const char *, size_t)) \
    F(void, DigestAddLongLong, (struct digest *, long long)) \
    F(void, DigestEndSequence, (struct digest *)) \
    F(int, PublishMessageShard, (struct context *, struct word * channel, struct word * message)) \
    F(int, NotifyKeyspaceEvent, (struct context *, int, const char *, struct word *)) \
    F(struct dictionary *, CreateDict, (struct context *)) \
    F(void, FreeDict, (struct context *, struct dictionary *)) \
    F(uint64_t, DictSize, (struct dictionary *)) \
    F(int, DictReplaceC, (struct dictionary *, const void *, size_t, void *)) \
    F(void *, DictGetC, (struct dictionary *, const void *, size_t, int *lacks)) \
    F(int, DictDelC, (struct dictionary *, const void *, size_t, void *old)) \
    F(struct dictionary_place *, DictIteratorStartC, \
      (struct dictionary *, const char *, const void *, size_t)) \
    F(int, DictIteratorReseekC, (struct dictionary_place *, const char *, const void *, size_t)) \
    F(void *, DictNextC, (struct dictionary_place *, size_t *, void **)) \
    F(void, DictIteratorStop, (struct dictionary_place *))

/* A function that Redis has from 7.2 on; null where the server has none. */
#define NEWER_FUNCTIONS(F) F(int, SetCommandACLCategories, (struct command *, const char *))

struct server {
#define SERVER_MEMBER(result, name, parameters) result(*name) parameters;
    SERVER_FUNCTIONS(SERVER_MEMBER)
    NEWER_FUNCTIONS(SERVER_MEMBER)
#undef SERVER_MEMBER
};

/* The server's functions, found before anything else is done. */
extern struct server server;

/* Finds them. Whether all are there but for those that only newer servers have. */
int find_server(struct context *);

/* A word's bytes, which stay the server's. */
struct text {
    const uint8_t *at;
    size_t len;
};
struct text text_of(const struct word *);
/* Whether it is this word of a command, in whatever case. */
int is_word(const struct word *, const char *name);
/* Reads digits alone. Whether they were a number below 2^64. */
int number_of(const struct word *, uint64_t *out);

#endif
