/* replies.h: what the client is told. */
#ifndef REPLIES_H
#define REPLIES_H

#include "cache.h"
#include "server.h"

enum { COUNTERS = 5 };

/* A call's reply, read from the cache; or why it was refused. */
int reply_to_call(struct context *, struct cache *, jc_status);
/* Why something was refused: nothing has changed. */
int refuse(struct context *, jc_status);
/* Why bytes are no cache, with the place of their first flaw. */
int refuse_bytes(struct context *, const struct refused *);

#endif
