/* example.c: read-through from C, by hiredis. Of many clients that miss a key at once one loads it.
 *
 *     gcc -O2 example.c -lhiredis -o example && ./example 7001
 */
#define _GNU_SOURCE
#include <hiredis/hiredis.h>
#include <stdio.h>
#include <stdlib.h>
#include <string.h>
#include <unistd.h>

static redisContext *server;

static redisReply *call(const char *format, const char *key, const char *value, long long number) {
    redisReply *reply = value ? redisCommand(server, format, key, value, number)
                              : redisCommand(server, format, key, number);
    if (!reply || reply->type == REDIS_REPLY_ERROR) {
        fprintf(stderr, "%s\n", reply ? reply->str : server->errstr);
        exit(1);
    }
    return reply;
}

/* The value, which the caller frees: the cache's, or what was loaded. */
static char *get(const char *key) {
    for (;;) {
        redisReply *reply = call("JC.GET users %s LEASE %lld", key, NULL, 5000);
        if (reply->type == REDIS_REPLY_STRING) {
            char *value = strdup(reply->str);
            freeReplyObject(reply);
            return value;
        }
        if (reply->type == REDIS_REPLY_INTEGER) { /* the lease's token: this client loads */
            printf("loads %s\n", key);
            freeReplyObject(call("JC.FILL users %s %s TOKEN %lld", key, "Ann Lee", reply->integer));
        } else {
            usleep(5000); /* another client loads */
        }
        freeReplyObject(reply);
    }
}

int main(int count, char **words) {
    server = redisConnect("127.0.0.1", count > 1 ? atoi(words[1]) : 7001);
    if (!server || server->err)
        return 1;
    freeReplyObject(redisCommand(server, "JC.CREATE users 1000 CREATED 60000 LOADER"));
    for (int i = 0; i < 2; i++) {
        char *value = get("ann");
        puts(value);
        free(value);
    }
    redisFree(server);
    return 0;
}
