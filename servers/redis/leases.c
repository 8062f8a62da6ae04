/* leases.c: leases in a dictionary of the server's. */
#include "leases.h"
#include "cache.h"
#include <string.h>

struct leased {
    uint64_t token, until;
};

/* A token is below 2^53, so that scripts read it exactly. */
static uint64_t next_token(void) {
    static uint64_t last;
    if (!last) {
        server.GetRandomBytes((unsigned char *)&last, sizeof last);
        last >>= 12;
    }
    return ++last;
}

static struct leased *found(const struct leases *leases, struct text key) {
    return leases->by_key ? server.DictGetC(leases->by_key, key.at, key.len, NULL) : NULL;
}

/* Lets go of the leases that are over, or of all. */
static void sweep(struct leases *leases, int all) {
    struct dictionary *by_key = leases->by_key;
    struct dictionary_place *place = server.DictIteratorStartC(by_key, "^", NULL, 0);
    uint64_t now = all ? 0 : clock_moment(); /* all go in whichever thread lets go of the cache */
    size_t len;
    void *it;
    for (void *key; (key = server.DictNextC(place, &len, &it));) {
        struct leased *leased = it;
        if (!all && leased->until > now)
            continue;
        uint8_t copy[MOST_KEY];
        memcpy(copy, key, len);
        server.Free(leased);
        server.DictDelC(by_key, copy, len, NULL);
        server.DictIteratorReseekC(place, ">", copy, len);
    }
    server.DictIteratorStop(place);
}

static void make_room(struct leases *leases) {
    if (!leases->by_key)
        leases->by_key = server.CreateDict(NULL);
    if (server.DictSize(leases->by_key) < MOST_LEASES)
        return;
    sweep(leases, 0);
    if (server.DictSize(leases->by_key) >= MOST_LEASES)
        sweep(leases, 1);
}

uint64_t lease(struct leases *leases, struct text key, uint64_t until) {
    if (lease_of(leases, key))
        return 0;
    end_lease(leases, key);
    make_room(leases);
    struct leased *leased = server.Alloc(sizeof *leased);
    *leased = (struct leased){.token = next_token(), .until = until};
    server.DictReplaceC(leases->by_key, key.at, key.len, leased);
    return leased->token;
}

uint64_t lease_of(const struct leases *leases, struct text key) {
    struct leased *leased = found(leases, key);
    return leased && leased->until > clock_moment() ? leased->token : 0;
}

void end_lease(struct leases *leases, struct text key) {
    struct leased *leased = found(leases, key);
    if (!leased)
        return;
    server.DictDelC(leases->by_key, key.at, key.len, NULL);
    server.Free(leased);
}

void end_all_leases(struct leases *leases) {
    if (!leases->by_key)
        return;
    sweep(leases, 1);
    server.FreeDict(NULL, leases->by_key);
    leases->by_key = NULL;
}

size_t memory_of_leases(const struct leases *leases) {
    size_t each = sizeof(struct leased) + MOST_KEY;
    return leases->by_key ? server.DictSize(leases->by_key) * each : 0;
}
