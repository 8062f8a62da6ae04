/* heap.h: the memory of the library, taken from the server's allocator and counted by cache. */
#ifndef HEAP_H
#define HEAP_H

#include <stddef.h>

/* What is taken and let go in between counts for this account, of this thread. */
void open_account(size_t *account);
void close_account(void);
/* Whether memory is taken as the server takes it, whose process ends where there is none; or may be
 * refused. */
void take_always(int always);
/* Takes memory so, which the server's Free lets go; or NULL, where it is refused. */
void *take(size_t size);

#endif
