/* What -o names: standard output, something that is no plain file and is written straight to, or a plain file, which appears or is replaced only when the
 * new one is complete. */
#define _GNU_SOURCE
#include "command.h"

#include <errno.h>
#include <fcntl.h>
#include <stdlib.h>
#include <string.h>
#include <sys/stat.h>
#include <unistd.h>

static int is_standard(const char *path)
{
    return strcmp(path, "-") == 0 || strcmp(path, "/dev/stdout") == 0;
}

struct output plan_output(const char *path, int force, const char *input, const char *input_words)
{
    struct output o = {.path = path, .fd = STDOUT_FILENO, .straight = is_standard(path)};
    if (o.straight && input != NULL && same_file("-", input))
        usage("standard output is %s", input_words);
    if (o.straight)
        return o;
    if (*path == '\0')
        usage("-o names nothing");
    if (stat(path, &o.before) != 0) {
        if (errno != ENOENT)
            trouble("%s: %s", path, strerror(errno));
        o.final = final_name(path);
        return o;
    }
    if (input != NULL && same_file(path, input))
        usage("-o names %s: %s", input_words, path);
    if (S_ISDIR(o.before.st_mode))
        trouble("%s: %s", path, strerror(EISDIR));
    o.straight = !S_ISREG(o.before.st_mode);
    if (o.straight)
        return o;
    if (!force)
        trouble("%s: it is there already; --force replaces it", path);
    o.final = final_name(path);
    o.replace = 1;
    return o;
}

static void give_up(struct output *o) __attribute__((noreturn));
static void give_up(struct output *o)
{
    int why = errno;
    drop_part(o->part);
    if (why == EEXIST)
        trouble("%s: it has appeared meanwhile; --force replaces it", o->path);
    trouble("%s: %s", is_standard(o->path) ? "standard output" : o->path, strerror(why));
}

void begin_output(struct output *o)
{
    if (is_standard(o->path))
        return;
    o->fd = o->straight ? open(o->path, O_WRONLY | O_CLOEXEC) : open_part(o->final, &o->part);
    if (o->fd < 0 || (o->replace && look_like(o->fd, &o->before) != 0))
        give_up(o);
}

void write_output(struct output *o, const uint8_t *at, size_t n)
{
    if (write_all(o->fd, at, n) != 0)
        give_up(o);
}

void finish_output(struct output *o)
{
    if (is_standard(o->path))
        return;
    if (o->straight) {
        if (close(o->fd) != 0)
            give_up(o);
        return;
    }
    if (sync_file(o->fd) != 0 || close(o->fd) != 0 || put_in_place(o->part, o->final, o->replace) != 0)
        give_up(o);
    remove_when_stopped(NULL);
    free(o->part);
    free(o->final);
}
