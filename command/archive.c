/* An archive: one file, read into memory and locked while a command works on it. A change is first written to the file's journal, whole and with a CRC,
 * and goes to its own place later, when it has reached the disk: so a kill or a power loss leaves the archive of before a change or that of after. */
#define _GNU_SOURCE
#include "command.h"
#include "layout.h"

#include <errno.h>
#include <fcntl.h>
#include <stdlib.h>
#include <string.h>
#include <sys/file.h>
#include <sys/stat.h>
#include <time.h>
#include <unistd.h>

enum { USUAL_WAIT = 5, LONGEST_WAIT = 600 }; /* seconds */

static void damaged(const char *path, const char *how) __attribute__((noreturn));
static void damaged(const char *path, const char *how)
{
    trouble("%s: %s; it stays as it is", path, how);
}

/* ---- the lock */

double seconds_now(void)
{
    struct timespec t;
    clock_gettime(CLOCK_MONOTONIC, &t);
    return (double)t.tv_sec + 1e-9 * (double)t.tv_nsec;
}

/* 0, or -1 where another command is at work for longer than that */
static int take_lock(struct archive *a, long long wait)
{
    double until = seconds_now() + (double)wait;
    while (flock(a->fd, (a->writing ? LOCK_EX : LOCK_SH) | LOCK_NB) != 0) {
        if (errno != EWOULDBLOCK && errno != EINTR)
            trouble("%s: it cannot be locked: %s", a->path, strerror(errno));
        if (seconds_now() >= until)
            return -1;
        stop_now();
        nanosleep(&(struct timespec){0, 2000000}, NULL);
    }
    return 0;
}

static void busy(const char *path) __attribute__((noreturn));
static void busy(const char *path)
{
    trouble("%s: another command is at work on it; try again when it has ended, or with a longer --wait", path);
}

/* whether the file that was opened still has the archive's name */
static int still_named(const struct archive *a)
{
    struct stat ours, named;
    return fstat(a->fd, &ours) == 0 && stat(a->path, &named) == 0 && ours.st_dev == named.st_dev && ours.st_ino == named.st_ino;
}

/* ---- files that take an archive's name in one step */

/* Writes an image to a part beside the archive, locked, on the disk, and gives it the name: a new one, or that of a file that it then looks like. */
static int write_image(const char *path, const uint8_t *image, size_t n, const struct stat *like)
{
    char *final = final_name(path), *part;
    int fd = open_part(final, &part);
    int why = fd < 0 || (like != NULL && look_like(fd, like) != 0) ? errno : posix_fallocate(fd, 0, (off_t)n);
    if (why == 0 && (flock(fd, LOCK_EX) != 0 || write_all(fd, image, n) != 0 || sync_file(fd) != 0 || put_in_place(part, final, like != NULL) != 0))
        why = errno;
    if (why != 0)
        drop_part(part);
    if (why == ENOSPC || why == EDQUOT || why == EFBIG)
        trouble("%s: there is no room for its %zu bytes: %s", path, n, strerror(why));
    if (why != 0)
        trouble("%s: %s", path, strerror(why));
    remove_when_stopped(NULL);
    free(part);
    free(final);
    return fd;
}

void new_archive(const char *path, uint64_t store_size)
{
    uint8_t *image = fresh_image(store_size);
    close(write_image(path, image, image_size(store_size), NULL));
    free(image);
}

/* ---- reading */

static int agrees(const uint8_t *state)
{
    return number_at(state + AT_STATE_CHECK, 4) == bh_crc32(state, AT_STATE_CHECK);
}

/* the newer of the two states, of those that agree with their checks, stands in the first's place from here on */
static void choose_state(struct archive *a)
{
    uint64_t newest = 0;
    a->copies = 0;
    for (int k = 0; k < 2; k++) {
        const uint8_t *copy = a->image + AT_STATES + k * PAGE;
        a->in_place[k] = number_at(copy + AT_GENERATION, 8);
        if (!agrees(copy))
            continue;
        if (a->copies++ == 0 || a->in_place[k] > newest)
            memmove(a->state, copy, STATE);
        newest = number_at(a->state + AT_GENERATION, 8);
    }
    if (a->copies == 0)
        damaged(a->path, "a damaged archive: neither copy of its record agrees with its check");
}

static uint64_t generation(const struct archive *a)
{
    return number_at(a->state + AT_GENERATION, 8);
}

/* whether a change may touch these bytes: the state, the checks or the store */
static int may_change(const struct archive *a, uint64_t at, uint64_t n)
{
    uint64_t journal = (uint64_t)(a->journal - a->image), store = (uint64_t)(a->store - a->image);
    return (at == AT_STATES && n == STATE) || (at >= AT_CHECKS && at + n <= journal) || (at >= store && at + n <= a->size);
}

/* The bytes of the change that stands at a place of the journal and was made behind the state that is there; 0 where there is none. What a power loss left
 * of later changes, or came by radio and looks like one, does not have its mark. */
static size_t next_change(const struct archive *a, size_t at)
{
    const uint8_t *head = a->journal + at;
    if (at + CHANGE_HEAD > a->journal_size || number_at(head + AT_CHANGE_GENERATION, 8) != generation(a) + 1)
        return 0;
    size_t n = (size_t)number_at(head + AT_CHANGE_SIZE, 4);
    if (memcmp(head + AT_CHANGE_BEHIND, a->state + AT_MARK, 8) != 0 || n > a->journal_size - at - CHANGE_HEAD)
        return 0;
    return bh_crc32(head + AT_CHANGE_SIZE, CHANGE_HEAD - AT_CHANGE_SIZE + n) == number_at(head + AT_CHANGE_CHECK, 4) ? CHANGE_HEAD + n : 0;
}

/* Goes through the parts of a change that agrees with its CRC, and does with each what is asked. */
static int each_part(struct archive *a, const uint8_t *from, const uint8_t *end, int (*what)(struct archive *, const uint8_t *, size_t, size_t))
{
    while (end - from >= PART_HEAD) {
        uint64_t at = number_at(from, 4), n = number_at(from + 4, 4);
        if (n > (uint64_t)(end - from - PART_HEAD) || !may_change(a, at, n))
            return -1;
        if (what(a, from + PART_HEAD, (size_t)at, (size_t)n) != 0)
            return -1;
        from += PART_HEAD + n;
    }
    return from == end ? 0 : -1;
}

static int put_into_image(struct archive *a, const uint8_t *bytes, size_t at, size_t n)
{
    memcpy(a->image + at, bytes, n);
    return 0;
}

/* what was committed and has not gone to its place */
static void replay(struct archive *a)
{
    for (size_t n; (n = next_change(a, a->used)) > 0; a->used += n) {
        uint64_t expected = generation(a) + 1;
        int put = each_part(a, a->journal + a->used + CHANGE_HEAD, a->journal + a->used + n, put_into_image) == 0;
        if (!put || generation(a) != expected || !agrees(a->state))
            damaged(a->path, "a damaged archive: its journal has a change that no command writes");
    }
}

/* one copy of the state reaches the disk before the other is begun */
static void write_states(struct archive *a, const uint8_t *state)
{
    for (int k = 0; k < 2; k++) {
        if (write_at(a->fd, state, STATE, AT_STATES + k * PAGE) != 0)
            trouble("%s: %s; the next command on it will finish this", a->path, strerror(errno));
        sync_archive(a);
        a->in_place[k] = number_at(state + AT_GENERATION, 8);
    }
}

static void judge_head(const char *path, const uint8_t *head, size_t n)
{
    if (n < HEAD)
        damaged(path, "not an archive: shorter than an archive's header");
    if (memcmp(head, archive_magic, sizeof archive_magic) != 0)
        damaged(path, "not an archive: it does not start with BRITHELV");
    uint64_t version = number_at(head + AT_VERSION, 4);
    if (version != 1 && version != VERSION)
        damaged(path, "an archive of a version that this command does not know");
    if (version == VERSION && number_at(head + AT_HEAD_CHECK, 4) != bh_crc32(head, AT_HEAD_CHECK))
        damaged(path, "a damaged archive: its header does not agree with its check");
}

/* the record with nothing wrong in it: resource 0 is never open, under any type, so a good one answers Unknown */
static void read_record(struct archive *a)
{
    if (take_record(a->record, a->state + AT_RECORD, number_at(a->state + AT_RECORD_LENGTH, 4)) != 0)
        damaged(a->path, "an archive that a later version of this command has changed: its record has a length that this one does not know");
    if (bh_number(bh_status(a->record, BH_RECORD, a->store, a->store_size, 0, FILE_TYPE)) != BH_UNKNOWN)
        damaged(a->path, "a damaged archive: its record breaks a rule (refusal 9 Record)");
}

static uint8_t *read_image(const struct archive *a, size_t n)
{
    uint8_t *image = malloc(n);
    if (image == NULL)
        trouble("%s: no memory for its %zu bytes", a->path, n);
    ssize_t got = read_at(a->fd, image, n, 0);
    if (got < 0)
        trouble("%s: %s", a->path, strerror(errno));
    if ((size_t)got != n)
        damaged(a->path, "a damaged archive: it became shorter while it was read");
    return image;
}

/* An archive of version 1 is read as version 2 would have it. */
static void load_old(struct archive *a, size_t n)
{
    if (n > 512 + BH_USABLE_STORE)
        damaged(a->path, "a damaged archive: its header and its length do not go together");
    uint8_t *old = read_image(a, n), *image = carried_image(a->path, old, n);
    if (image == NULL)
        damaged(a->path, "a damaged archive of version 1: its header, its record and its length do not go together (refusal 9 Record)");
    point_into(a, image, number_at(old + AT_STORE_SIZE, 8));
    free(old);
    a->version = 1;
    choose_state(a);
    read_record(a);
}

static void load(struct archive *a)
{
    struct stat about;
    uint8_t head[HEAD], settled[STATE];
    ssize_t got = read_at(a->fd, head, sizeof head, 0);
    if (got < 0 || fstat(a->fd, &about) != 0)
        trouble("%s: %s", a->path, strerror(errno));
    judge_head(a->path, head, (size_t)got);
    if (number_at(head + AT_VERSION, 4) == 1) {
        load_old(a, (size_t)about.st_size);
        return;
    }
    uint64_t store_size = number_at(head + AT_STORE_SIZE, 8);
    if (store_size > BH_USABLE_STORE || (uint64_t)about.st_size != image_size(store_size))
        damaged(a->path, "a damaged archive: its header and its length do not go together");
    point_into(a, read_image(a, image_size(store_size)), store_size);
    a->version = VERSION;
    choose_state(a);
    memcpy(settled, a->state, STATE);
    replay(a);
    read_record(a);
    if (a->writing && a->copies < 2)
        complain("%s: one of the two copies of its record was damaged; it is written anew", a->path);
    /* what an older copy would need of the journal is about to be overwritten */
    if (a->writing && (a->copies < 2 || a->in_place[0] != a->in_place[1]))
        write_states(a, settled);
    /* after several kills the journal may be nearly full */
    if (a->writing && !has_room(a))
        settle(a);
}

int open_if_free(struct archive *a, const char *path, int writing, long long wait)
{
    *a = (struct archive){.path = path, .fd = -1, .writing = writing};
    do {
        if (a->fd >= 0)
            close(a->fd);
        struct stat about;
        a->fd = open(path, (writing ? O_RDWR : O_RDONLY) | O_NONBLOCK | O_CLOEXEC);
        if (a->fd < 0 || fstat(a->fd, &about) != 0)
            trouble("%s: %s", path, strerror(errno));
        if (!S_ISREG(about.st_mode))
            damaged(path, "not an archive: no plain file");
        if (take_lock(a, wait < 0 ? USUAL_WAIT : wait) != 0) {
            close(a->fd);
            return -1;
        }
    } while (!still_named(a));
    load(a);
    return 0;
}

struct archive open_archive(const char *path, int writing, long long wait)
{
    struct archive a;
    if (open_if_free(&a, path, writing, wait) != 0)
        busy(path);
    return a;
}

void release_archive(struct archive *a)
{
    flock(a->fd, LOCK_UN);
}

/* whether no other command has written to it since it was released */
static int unchanged(struct archive *a)
{
    uint8_t at[2][8], next[8];
    for (int k = 0; k < 2; k++)
        if (read_at(a->fd, at[k], 8, AT_STATES + k * PAGE + AT_GENERATION) != 8 || number_at(at[k], 8) != a->in_place[k])
            return 0;
    if (a->used + CHANGE_HEAD > a->journal_size)
        return 1;
    off_t head = (off_t)(a->journal - a->image) + (off_t)a->used;
    return read_at(a->fd, next, 8, head + AT_CHANGE_GENERATION) == 8 && number_at(next, 8) != generation(a) + 1;
}

void retake_archive(struct archive *a)
{
    if (take_lock(a, LONGEST_WAIT) != 0)
        busy(a->path);
    if (a->version == 1 && !still_named(a)) {
        /* another command has carried it over */
        close_archive(a);
        *a = open_archive(a->path, 1, LONGEST_WAIT);
        return;
    }
    if (!still_named(a))
        trouble("%s: another file has taken its name meanwhile", a->path);
    if (a->version == 1 || unchanged(a))
        return;
    free(a->image);
    load(a);
}

void close_archive(struct archive *a)
{
    free(a->image);
    close(a->fd);
}

const char *older(const struct archive *a)
{
    if (a->version == 1)
        return "is of version 1";
    switch (number_at(a->state + AT_RECORD_LENGTH, 4)) {
    case BH_RECORD: return NULL;
    case EDITION_RECORD: return "has a record from before orders";
    default: return "has a record from before editions";
    }
}

/* ---- counters */

static uint8_t *counter_at(const struct archive *a, int place, enum counter which)
{
    return a->state + AT_COUNTERS + 8 * (COUNTERS * place + (int)which);
}

uint64_t count_of(const struct archive *a, int place, enum counter which)
{
    return number_at(counter_at(a, place, which), 8);
}

void count_more(struct archive *a, int place, enum counter which, uint64_t more)
{
    put_number(counter_at(a, place, which), 8, count_of(a, place, which) + more);
}

void clear_counters(struct archive *a, int place)
{
    memset(counter_at(a, place, 0), 0, 8 * COUNTERS);
}

/* ---- writing */

static void not_written(const struct archive *a) __attribute__((noreturn));
static void not_written(const struct archive *a)
{
    trouble("%s: %s; it holds what it held before this change", a->path, strerror(errno));
}

/* the most that one packet adds to a change, with the state that ends it */
enum { MOST = CHANGE_HEAD + 4 * PART_HEAD + BH_LARGEST_PAYLOAD + 16 + STATE };

int has_room(const struct archive *a)
{
    return a->journal_size - a->used - a->growing >= 2 * MOST;
}

void change(struct archive *a, const uint8_t *at, size_t n)
{
    if (a->growing == 0)
        a->growing = CHANGE_HEAD;
    uint8_t *to = a->journal + a->used + a->growing;
    put_number(to, 4, (uint64_t)(at - a->image));
    put_number(to + 4, 4, n);
    memcpy(to + PART_HEAD, at, n);
    a->growing += PART_HEAD + n;
}

/* The first change of an archive of version 1 goes into a file of version 2 with it, which takes its name in one step. */
static void carry_over(struct archive *a)
{
    struct stat about;
    if (fstat(a->fd, &about) != 0)
        trouble("%s: %s", a->path, strerror(errno));
    put_number(a->state + AT_GENERATION, 8, generation(a) + 1);
    seal_state(a);
    memcpy(a->image + AT_STATES + PAGE, a->state, STATE);
    memset(a->journal, 0, a->journal_size);
    int fd = write_image(a->path, a->image, a->size, &about);
    close(a->fd);
    a->fd = fd;
    a->version = VERSION;
    a->growing = 0;
    a->in_place[0] = a->in_place[1] = generation(a);
    remark("%s: carried over from version 1 to version 2; what its unprotected slots held is taken as it was found", a->path);
}

void commit(struct archive *a)
{
    if (a->version == 1) {
        carry_over(a);
        return;
    }
    uint64_t length = number_at(a->state + AT_RECORD_LENGTH, 4);
    uint8_t *head = a->journal + a->used;
    memcpy(head + AT_CHANGE_BEHIND, a->state + AT_MARK, 8);
    put_number(a->state + AT_GENERATION, 8, generation(a) + 1);
    seal_state(a);
    change(a, a->state, STATE);
    put_number(head + AT_CHANGE_SIZE, 4, a->growing - CHANGE_HEAD);
    put_number(head + AT_CHANGE_GENERATION, 8, generation(a));
    put_number(head + AT_CHANGE_CHECK, 4, bh_crc32(head + AT_CHANGE_SIZE, a->growing - AT_CHANGE_SIZE));
    if (write_at(a->fd, head, a->growing, head - a->image) != 0)
        not_written(a);
    a->used += a->growing;
    a->growing = 0;
    if (length != BH_RECORD)
        remark("%s: its record is carried over: each place names its %s for those that were open; a command from before orders no longer reads it", a->path,
               length == OLD_RECORD ? "edition and its order now, which are 2 and rows" : "order now, which is rows");
}

void sync_archive(struct archive *a)
{
    if (a->version == VERSION && sync_file(a->fd) != 0)
        trouble("%s: %s", a->path, strerror(errno));
}

/* The state goes to its places by itself, and last. */
static int note_pages(struct archive *a, const uint8_t *bytes, size_t at, size_t n)
{
    (void)bytes;
    for (size_t page = at / PAGE; at != AT_STATES && page * PAGE < at + n; page++)
        a->behind[page] = 1;
    return 0;
}

/* the pages of the file that lack a change */
static void note_changes(struct archive *a)
{
    for (size_t at = 0; at < a->used;) {
        size_t n = CHANGE_HEAD + (size_t)number_at(a->journal + at + AT_CHANGE_SIZE, 4);
        each_part(a, a->journal + at + CHANGE_HEAD, a->journal + at + n, note_pages);
        at += n;
    }
}

static void put_changes(struct archive *a)
{
    size_t pages = (a->size + PAGE - 1) / PAGE, from = 0;
    a->behind = calloc(pages + 1, 1);
    if (a->behind == NULL)
        trouble("%s: no memory to go on; the next command on it will finish this", a->path);
    note_changes(a);
    while (from < pages) {
        size_t n = 0;
        while (a->behind[from + n])
            n++;
        size_t end = (from + n) * PAGE < a->size ? (from + n) * PAGE : a->size;
        if (n > 0 && write_at(a->fd, a->image + from * PAGE, end - from * PAGE, (off_t)(from * PAGE)) != 0)
            trouble("%s: %s; the next command on it will finish this", a->path, strerror(errno));
        from += n + 1;
    }
    free(a->behind);
    a->behind = NULL;
}

/* The journal reaches the disk before anything goes to its place, and that before the state which says so. */
void settle(struct archive *a)
{
    if (a->used == 0)
        return;
    sync_archive(a);
    put_changes(a);
    sync_archive(a);
    write_states(a, a->state);
    a->used = 0;
}

void write_ahead(struct archive *a, const uint8_t *at, size_t n)
{
    if (n > 0 && a->version == VERSION && write_at(a->fd, at, n, at - a->image) != 0)
        not_written(a);
}
