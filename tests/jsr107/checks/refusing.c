/* malloc and realloc that refuse the native library sizes from 50,000 to 50,999 bytes, and no one else anything. */
#define _GNU_SOURCE
#include <dlfcn.h>
#include <stddef.h>
#include <string.h>

void *__libc_malloc(size_t size);
void *__libc_realloc(void *old, size_t size);

static int is_refused(size_t size, void *caller) {
    Dl_info info;
    return size >= 50000 && size < 51000 && dladdr(caller, &info) && info.dli_fname && strstr(info.dli_fname, "libjcache_jsr107");
}

void *malloc(size_t size) { return is_refused(size, __builtin_return_address(0)) ? NULL : __libc_malloc(size); }

void *realloc(void *old, size_t size) {
    return is_refused(size, __builtin_return_address(0)) ? NULL : __libc_realloc(old, size);
}
