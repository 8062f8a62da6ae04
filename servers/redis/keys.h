/* keys.h: the server's keys that are caches. */
#ifndef KEYS_H
#define KEYS_H

#include "cache.h"
#include "server.h"

/* Adds the type to the server. Whether it took it. */
int add_type(struct context *);
/* The cache of an open key; or NULL, and why there is none is replied. */
struct cache *cache_of(struct context *, struct open_key *);
/* Makes a cache the value of an empty key, and tells the keyspace's listeners. */
void set_cache(struct context *, struct open_key *, struct word *name, struct cache *);

#endif
