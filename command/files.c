/* Whole files in memory, reading and writing to the last byte, and names: where links lead, and how a finished file takes its name. */
#define _GNU_SOURCE
#include "command.h"

#include <errno.h>
#include <fcntl.h>
#include <libgen.h>
#include <limits.h>
#include <stdlib.h>
#include <string.h>
#include <sys/stat.h>
#include <unistd.h>

struct bytes read_file(const char *path, size_t most)
{
    int fd = strcmp(path, "-") == 0 ? STDIN_FILENO : open(path, O_RDONLY | O_CLOEXEC);
    struct stat about;
    if (fd < 0 || fstat(fd, &about) != 0)
        trouble("%s: %s", path, strerror(errno));
    size_t room = S_ISREG(about.st_mode) && (uint64_t)about.st_size < most ? (size_t)about.st_size + 1 : 1 << 16;
    struct bytes b = {malloc(room), 0};
    while (b.n <= most) {
        if (b.at == NULL)
            trouble("%s: no memory for it", path);
        ssize_t got = read(fd, b.at + b.n, room - b.n);
        if (got < 0 && errno == EINTR)
            continue;
        if (got < 0)
            trouble("%s: %s", path, strerror(errno));
        if (got == 0)
            break;
        b.n += (size_t)got;
        if (b.n == room)
            b.at = realloc(b.at, room *= 2);
    }
    if (fd != STDIN_FILENO)
        close(fd);
    return b;
}

void release(struct bytes b)
{
    free(b.at);
}

uint64_t file_length(const char *path)
{
    struct stat about;
    if (stat(path, &about) != 0)
        trouble("%s: %s", path, strerror(errno));
    if (!S_ISREG(about.st_mode))
        trouble("%s: no plain file, so it has no length", path);
    return (uint64_t)about.st_size;
}

int same_file(const char *one, const char *other)
{
    struct stat a, b;
    int known = strcmp(one, "-") == 0 ? fstat(STDOUT_FILENO, &a) : stat(one, &a);
    return known == 0 && stat(other, &b) == 0 && a.st_dev == b.st_dev && a.st_ino == b.st_ino;
}

/* ---- to the last byte: 0, or -1 with errno */

int write_all(int fd, const void *at, size_t n)
{
    const uint8_t *from = at;
    while (n > 0) {
        ssize_t put = write(fd, from, n);
        if (put < 0 && errno != EINTR)
            return -1;
        from += put > 0 ? put : 0;
        n -= put > 0 ? (size_t)put : 0;
    }
    return 0;
}

int write_at(int fd, const void *from, size_t n, off_t at)
{
    size_t done = 0;
    while (done < n) {
        ssize_t put = pwrite(fd, (const uint8_t *)from + done, n - done, at + (off_t)done);
        if (put < 0 && errno != EINTR)
            return -1;
        done += put > 0 ? (size_t)put : 0;
    }
    return 0;
}

ssize_t read_at(int fd, void *to, size_t n, off_t at)
{
    size_t done = 0;
    while (done < n) {
        ssize_t got = pread(fd, (uint8_t *)to + done, n - done, at + (off_t)done);
        if (got < 0 && errno != EINTR)
            return -1;
        if (got == 0)
            break;
        done += got > 0 ? (size_t)got : 0;
    }
    return (ssize_t)done;
}

/* what is no file on a disk has nothing to wait for */
int sync_file(int fd)
{
    while (fdatasync(fd) != 0)
        if (errno != EINTR)
            return errno == EINVAL || errno == EROFS ? 0 : -1;
    return 0;
}

/* ---- names */

static char *in_folder_of(const char *path, const char *name)
{
    char *copy = strdup(path), *whole = NULL;
    if (copy == NULL || asprintf(&whole, "%s/%s", dirname(copy), name) < 0)
        trouble("%s: no memory for its name", path);
    free(copy);
    return whole;
}

char *final_name(const char *path)
{
    char *name = realpath(path, NULL), link[PATH_MAX];
    if (name != NULL)
        return name;
    name = strdup(path);
    for (int depth = 0; name != NULL && depth < 40; depth++) {
        ssize_t n = readlink(name, link, sizeof link - 1);
        if (n < 0)
            return name;
        link[n] = '\0';
        char *next = link[0] == '/' ? strdup(link) : in_folder_of(name, link);
        free(name);
        name = next;
    }
    trouble("%s: %s", path, name == NULL ? "no memory for its name" : strerror(ELOOP));
}

int open_part(const char *beside, char **part)
{
    char *name = in_folder_of(beside, ".brithelva-XXXXXX.part");
    mode_t mask = umask(0);
    umask(mask);
    hold_signals();
    int fd = mkostemps(name, 5, O_CLOEXEC), why = errno;
    remove_when_stopped(fd < 0 ? NULL : name);
    let_signals();
    *part = name;
    errno = why;
    return fd < 0 ? -1 : fchmod(fd, 0666 & ~mask) == 0 ? fd : -1;
}

int look_like(int fd, const struct stat *other)
{
    int owned = fchown(fd, other->st_uid, other->st_gid) == 0;
    /* rights that go with an owner are not given to another */
    return fchmod(fd, other->st_mode & (owned ? 07777 : 0777));
}

void drop_part(char *part)
{
    if (part != NULL)
        unlink(part);
    remove_when_stopped(NULL);
    free(part);
}

/* Where a file system cannot rename without replacing, the name is taken by an empty file first, which is then replaced. */
static int rename_to_new(const char *part, const char *path)
{
    if (renameat2(AT_FDCWD, part, AT_FDCWD, path, RENAME_NOREPLACE) == 0)
        return 0;
    if (errno != EINVAL && errno != ENOSYS && errno != ENOTSUP)
        return -1;
    int taken = open(path, O_WRONLY | O_CREAT | O_EXCL | O_CLOEXEC, 0666);
    if (taken < 0)
        return -1;
    close(taken);
    if (rename(part, path) == 0)
        return 0;
    int why = errno;
    unlink(path);
    errno = why;
    return -1;
}

int put_in_place(const char *part, const char *path, int replace)
{
    if ((replace ? rename(part, path) : rename_to_new(part, path)) != 0)
        return -1;
    /* the name reaches the disk too; not every file system can be asked for that */
    char *folder = in_folder_of(path, ".");
    int fd = open(folder, O_RDONLY | O_DIRECTORY | O_CLOEXEC);
    free(folder);
    if (fd < 0)
        return 0;
    fsync(fd);
    close(fd);
    return 0;
}
