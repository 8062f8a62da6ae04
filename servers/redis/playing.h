/* playing.h: a whole call. What it asks is answered before the command ends, so that no call is
 * open between two. */
#ifndef PLAYING_H
#define PLAYING_H

#include "calls.h"

enum { ALL_SUCCEED = -1 };

struct play {
    struct context *context;
    struct open_key *key;
    struct word *name;   /* the cache's */
    struct word *stream; /* where its writes go; or NULL */
    struct word *moment; /* as it was given; or NULL, where the server's holds */
    const struct call *call;
    struct word **words; /* the call's */
    int count;
    struct cache *cache;
    uint64_t now;
    int writes; /* how many writes succeed before one fails, if that is known; or ALL_SUCCEED */
    int wrote, failed;    /* how many were written; whether one failed */
    int loaded;           /* how many values it asked for and was given */
    const uint8_t *found; /* the value that a get has found; or NULL */
    size_t found_len;
    int is_repeated; /* by a replica, or from a log: its first time was elsewhere */
};

/* Opens the cache that a call is made on. Whether it may be made; else why not is replied. */
int open_play(struct play *);
/* Makes the call, and replicates it if it is accepted. */
jc_status make(struct play *);
/* Replies what the call came to. */
void reply(struct play *, jc_status);
void close_play(struct play *);

#endif
