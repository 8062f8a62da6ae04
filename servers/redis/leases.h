/* leases.h: who loads a missing key. Of many clients that miss it at once one is given a lease, and
 * fills.
 *
 * Leases stand beside the cache: no call sees them, they are neither saved nor replicated, and they
 * are lost with the process. Each has a token, which no other lease of this process has.
 */
#ifndef LEASES_H
#define LEASES_H

#include "server.h"

/* So many keys of a cache are leased at once; where there are more, all are lost. */
enum { MOST_LEASES = 10000 };

struct leases {
    struct dictionary *by_key; /* or NULL: none */
};

/* Leases a key until a moment of the clock; its token, or 0 where it is leased to another. */
uint64_t lease(struct leases *, struct text key, uint64_t until);
/* The token of a key's lease, or 0 where it has none. */
uint64_t lease_of(const struct leases *, struct text key);
void end_lease(struct leases *, struct text key);
void end_all_leases(struct leases *);
size_t memory_of_leases(const struct leases *);

#endif
