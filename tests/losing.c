/* Loaded into a command before the C library: writes down what the command writes to one file, and when that was synced, so that tests/kill can play a power
 * loss. LOSING_OF names the file, LOSING_TO where it is written down: for a write the letter W, where it stands and its length, 8 bytes each in the machine's
 * order, and its bytes; for a sync the letter S. The calls go on to the kernel themselves. */
#define _GNU_SOURCE
#include <fcntl.h>
#include <stdint.h>
#include <stdlib.h>
#include <sys/stat.h>
#include <sys/syscall.h>
#include <unistd.h>

static int is_watched(int fd)
{
    struct stat ours, named;
    const char *name = getenv("LOSING_OF");
    return name != NULL && fstat(fd, &ours) == 0 && stat(name, &named) == 0 && ours.st_dev == named.st_dev && ours.st_ino == named.st_ino;
}

static void put(int fd, const void *at, size_t n)
{
    /* a log that is cut short would pass for a power loss that never was */
    if (syscall(SYS_write, fd, at, n) != (long)n)
        abort();
}

static void write_down(char what, int64_t at, const void *bytes, int64_t n)
{
    const char *name = getenv("LOSING_TO");
    int fd = name == NULL ? -1 : open(name, O_WRONLY | O_APPEND | O_CREAT | O_CLOEXEC, 0666);
    if (fd < 0)
        abort();
    put(fd, &what, 1);
    if (what == 'W') {
        put(fd, &at, sizeof at);
        put(fd, &n, sizeof n);
        put(fd, bytes, (size_t)n);
    }
    close(fd);
}

ssize_t pwrite(int fd, const void *bytes, size_t n, off_t at)
{
    ssize_t done = syscall(SYS_pwrite64, fd, bytes, n, at);
    if (done > 0 && is_watched(fd))
        write_down('W', at, bytes, done);
    return done;
}

ssize_t pwrite64(int fd, const void *bytes, size_t n, off64_t at)
{
    return pwrite(fd, bytes, n, at);
}

ssize_t write(int fd, const void *bytes, size_t n)
{
    ssize_t done = syscall(SYS_write, fd, bytes, n);
    if (done > 0 && is_watched(fd))
        write_down('W', lseek(fd, 0, SEEK_CUR) - done, bytes, done);
    return done;
}

static int synced(int fd, int answer)
{
    if (answer == 0 && is_watched(fd))
        write_down('S', 0, NULL, 0);
    return answer;
}

int fdatasync(int fd)
{
    return synced(fd, (int)syscall(SYS_fdatasync, fd));
}

int fsync(int fd)
{
    return synced(fd, (int)syscall(SYS_fsync, fd));
}
