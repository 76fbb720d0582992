/* Bytes with packets among them: a file or a stream, read a batch at a time, so that memory stays bounded and packets are found as they come. */
#define _GNU_SOURCE
#include "command.h"

#include <errno.h>
#include <fcntl.h>
#include <poll.h>
#include <stdlib.h>
#include <string.h>
#include <sys/stat.h>
#include <unistd.h>

enum { BATCH = 1 << 20 };
static const double MOMENT = 0.1; /* seconds that a batch waits for more */

int open_recording(struct recording *r, const char *name)
{
    struct stat about;
    *r = (struct recording){.name = name, .fd = STDIN_FILENO};
    if (strcmp(name, "-") != 0)
        r->fd = open(name, O_RDONLY | O_CLOEXEC);
    if (r->fd < 0 || fstat(r->fd, &about) != 0)
        return -1;
    r->size = S_ISREG(about.st_mode) ? about.st_size : 0;
    r->bytes = malloc(BATCH);
    if (r->bytes == NULL)
        trouble("%s: no memory for it", name);
    return 0;
}

void close_recording(struct recording *r)
{
    free(r->bytes);
    if (r->fd > STDERR_FILENO)
        close(r->fd);
}

/* Whether bytes are there: waits for the first of a batch as long as it takes, with a look now and then whether to stop, and for more only until a moment has passed. */
static int more_comes(const struct recording *r, double until)
{
    struct pollfd more = {r->fd, POLLIN, 0};
    for (;;) {
        double left = until == 0 ? 1 : until - seconds_now();
        if (stop_asked())
            return 0;
        if (poll(&more, 1, left > 0 ? (int)(1000 * left) : 0) > 0)
            return 1;
        if (until != 0)
            return 0;
    }
}

/* What came is offered while the rest is on its way. */
int read_batch(struct recording *r)
{
    double until = 0;
    while (r->n < BATCH && !r->ended && more_comes(r, until)) {
        ssize_t got = read(r->fd, r->bytes + r->n, BATCH - r->n);
        if (got < 0 && errno != EINTR && errno != EAGAIN)
            return -1;
        r->n += got > 0 ? (size_t)got : 0;
        r->ended = got == 0;
        if (until == 0)
            until = seconds_now() + MOMENT;
    }
    r->ended |= stop_asked() != 0;
    return 0;
}

/* The next start mark at or after i; n where there is none. */
static size_t next_mark(const uint8_t *p, size_t n, size_t i)
{
    while (i + 3 <= n) {
        const uint8_t *at = memchr(p + i, 0x49, n - i - 2);
        if (at == NULL)
            return n;
        if (at[1] == 0x59 && at[2] == 0x69)
            return (size_t)(at - p);
        i = (size_t)(at - p) + 1;
    }
    return n;
}

/* bytes before a mark that belong to no packet */
static void skip_to(struct recording *r, size_t at)
{
    if (at > r->covered) {
        r->skipped += at - r->covered;
        r->covered = at;
    }
}

/* What stands at the next start mark at or after `at`, as long as its length field says. Where that is not all there yet, `at` is where to go on. */
const uint8_t *next_packet(struct recording *r, size_t *at, size_t *length)
{
    size_t from = *at;
    while ((*at = next_mark(r->bytes, r->n, from)) < r->n) {
        const uint8_t *p = r->bytes + *at;
        size_t left = r->n - *at;
        *length = left >= 10 ? (size_t)p[8] << 4 | p[9] >> 4 : BH_LARGEST_PACKET;
        skip_to(r, *at);
        if (*length > left && !r->ended)
            return NULL;
        if (*length >= BH_SMALLEST_PACKET && *length <= left) {
            if (*at + *length > r->covered)
                r->covered = *at + *length;
            return p;
        }
        from = *at + 1;
    }
    /* the last two bytes may begin a mark */
    if (!r->ended)
        *at = from + 2 > r->n ? from : r->n - 2;
    return NULL;
}

void drop_batch(struct recording *r, size_t at)
{
    skip_to(r, at);
    memmove(r->bytes, r->bytes + at, r->n - at);
    r->n -= at;
    r->covered -= at;
    r->passed += at;
}
