/* Loaded before a program: the allocation with the number that REFUSE gives, from 1, is refused, and standard error is
 * told so. */
#include <stdatomic.h>
#include <stdlib.h>
#include <unistd.h>

void *__libc_malloc(size_t size);
void *__libc_realloc(void *at, size_t size);

/* Which allocation from now on is refused; none where it is 0 or less. */
static atomic_long next;

__attribute__((constructor)) static void begin(void) {
    const char *number = getenv("REFUSE");
    next = number ? atol(number) : 0;
}

static int refuses(void) {
    static const char told[] = "refused\n";
    return next > 0 && atomic_fetch_sub(&next, 1) == 1 && write(2, told, sizeof told - 1) > 0;
}

void *malloc(size_t size) { return refuses() ? NULL : __libc_malloc(size); }
void *realloc(void *at, size_t size) { return refuses() ? NULL : __libc_realloc(at, size); }
