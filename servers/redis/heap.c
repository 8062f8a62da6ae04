/* heap.c: the three functions by which the library takes memory, over the server's allocator. So
 * its used memory, its limit and MEMORY USAGE have every byte of a cache.
 *
 * An allocation answers two words: whether it succeeded, and where. One of no bytes takes `least`
 * bytes.
 */
#include "heap.h"
#include "server.h"
#include <string.h>

struct taken {
    uint64_t succeeded;
    void *at;
};
struct taken rattle_alloc(size_t size, size_t least);
struct taken rattle_realloc(void *old, size_t old_size, size_t size, size_t least);
void rattle_dealloc(void *old);

#define OF_THREAD static __thread __attribute__((tls_model("initial-exec")))
OF_THREAD size_t *account_of_thread;
OF_THREAD int takes_always;
static char nothing[16];

void open_account(size_t *account) {
    account_of_thread = account;
}

void close_account(void) {
    account_of_thread = NULL;
}

void take_always(int always) {
    takes_always = always;
}

void *take(size_t size) {
    return takes_always ? server.Alloc(size) : server.TryAlloc(size);
}

static struct taken counted(void *at) {
    if (at && account_of_thread)
        *account_of_thread += server.MallocSize(at);
    return (struct taken){at != NULL, at ? at : nothing};
}

struct taken rattle_alloc(size_t size, size_t least) {
    return counted(take(size ? size : least));
}

/* The server has no reallocation that may be refused: one that grows is an allocation and a copy.
 */
static struct taken grown(void *old, size_t old_size, size_t size) {
    struct taken taken = rattle_alloc(size, size);
    if (taken.succeeded) {
        memcpy(taken.at, old, old_size < size ? old_size : size);
        rattle_dealloc(old);
    }
    return taken;
}

struct taken rattle_realloc(void *old, size_t old_size, size_t size, size_t least) {
    size_t usable = server.MallocSize(old);
    size = size ? size : least;
    if (!takes_always && size > usable)
        return grown(old, old_size, size);
    if (account_of_thread)
        *account_of_thread -= usable;
    return counted(server.Realloc(old, size));
}

void rattle_dealloc(void *old) {
    if (account_of_thread)
        *account_of_thread -= server.MallocSize(old);
    server.Free(old);
}
