/* malloc and its kin as the library calls them, with the bytes counted: the linker puts these in their places. */
#include "seat.h"
#include <malloc.h>

__thread int64_t *account __attribute__((tls_model("initial-exec")));

void *__real_malloc(size_t size);
void *__real_realloc(void *old, size_t size);
void __real_free(void *old);
void *__wrap_malloc(size_t size);
void *__wrap_realloc(void *old, size_t size);
void __wrap_free(void *old);

static void *counted(void *made, int64_t before) {
    if (account && made)
        *account += (int64_t)malloc_usable_size(made) - before;
    return made;
}

void *__wrap_malloc(size_t size) { return counted(__real_malloc(size), 0); }

void *__wrap_realloc(void *old, size_t size) {
    int64_t before = (int64_t)malloc_usable_size(old);
    return counted(__real_realloc(old, size), before);
}

void __wrap_free(void *old) {
    if (account)
        *account -= (int64_t)malloc_usable_size(old);
    __real_free(old);
}
