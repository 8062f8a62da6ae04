/* refusing.c: linked into a module of the tests alone, it refuses an allocation that may be refused
 * now and then, after 1 to 400 others. */
#include "server.h"

int __real_find_server(struct context *);
int __wrap_find_server(struct context *);

static void *(*allocate)(size_t);

static void *refusing(size_t size) {
    static unsigned drawn = 1, left = 1;
    if (--left)
        return allocate(size);
    drawn = drawn * 1103515245 + 12345;
    left = 1 + (drawn >> 16) % 400;
    return NULL;
}

int __wrap_find_server(struct context *context) {
    int found = __real_find_server(context);
    allocate = server.TryAlloc;
    server.TryAlloc = refusing;
    return found;
}
