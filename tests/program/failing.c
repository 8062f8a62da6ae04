/* Loaded before a program: standard input gives a byte at a time, as many as FAIL_READ says, and then fails; standard
 * output takes a byte at a time, as many as FAIL_WRITE says, and then fails with the number FAIL_WITH. Who asks once more
 * behind a failure is told on standard error. Where a variable is not set, its stream is as it is. */
#define _GNU_SOURCE
#include <dlfcn.h>
#include <errno.h>
#include <stdlib.h>
#include <sys/uio.h>
#include <unistd.h>

typedef ssize_t (*reader)(int, void *, size_t);
typedef ssize_t (*writer)(int, const void *, size_t);

/* How many bytes a stream has left, before it fails with this number; less than 0 where it does not fail. */
struct stream {
    long left;
    int number;
    int failed;
};

static struct stream input = {-1, EIO, 0}, output = {-1, EIO, 0};
static reader next_read;
static writer next_write;

__attribute__((constructor)) static void begin(void) {
    const char *reads = getenv("FAIL_READ"), *writes = getenv("FAIL_WRITE"), *with = getenv("FAIL_WITH");
    next_read = (reader)dlsym(RTLD_NEXT, "read");
    next_write = (writer)dlsym(RTLD_NEXT, "write");
    input.left = reads ? atol(reads) : -1;
    output.left = writes ? atol(writes) : -1;
    output.number = with ? atoi(with) : EIO;
}

/* Whether a stream fails now. */
static int fails(struct stream *stream) {
    static const char again[] = "asked again behind a failure\n";
    if (stream->left)
        return 0;
    if (stream->failed++)
        next_write(2, again, sizeof again - 1);
    errno = stream->number;
    return 1;
}

ssize_t read(int from, void *into, size_t room) {
    if (from || input.left < 0 || !room)
        return next_read(from, into, room);
    if (fails(&input))
        return -1;
    ssize_t count = next_read(from, into, 1);
    input.left -= count > 0;
    return count;
}

ssize_t write(int to, const void *from, size_t length) {
    if (to != 1 || output.left < 0 || !length)
        return next_write(to, from, length);
    if (fails(&output))
        return -1;
    ssize_t count = next_write(to, from, 1);
    output.left -= count > 0;
    return count;
}

ssize_t writev(int to, const struct iovec *parts, int count) {
    ssize_t all = 0;
    for (int n = 0; n < count; n++) {
        if (!parts[n].iov_len)
            continue;
        ssize_t taken = write(to, parts[n].iov_base, parts[n].iov_len);
        if (taken < 0)
            return all ? all : -1;
        all += taken;
        if ((size_t)taken < parts[n].iov_len)
            return all;
    }
    return all;
}
