/* Lent memory, bytes that choose, the transcript in the language of reference/README.md, and what is judged after each call. */
#define _GNU_SOURCE
#include "lent.h"

#include <inttypes.h>
#include <stdlib.h>
#include <string.h>
#include <sys/mman.h>

/* ---- lent memory */

struct lent record, store, file, packet, out, numbers;
FILE *transcript;
unsigned long calls, accepted_calls;
static unsigned long lines;

void fail(const char *what)
{
    fprintf(stderr, "fuzz: %s (call %lu)\n", what, calls);
    abort();
}

void size_of(struct lent *l, size_t n)
{
    l->n = n;
    l->at = l->end - n;
    memset(l->at - BEFORE, 0xA5, BEFORE);
}

static void lend(struct lent *l)
{
    size_t room = OUT_ROOM + 4096;
    uint8_t *map = mmap(NULL, room + 4096, PROT_READ | PROT_WRITE, MAP_PRIVATE | MAP_ANONYMOUS, -1, 0);
    if (map == MAP_FAILED || mprotect(map + room, 4096, PROT_NONE) != 0)
        fail("no memory");
    l->end = map + room;
    size_of(l, 0);
}

void lend_all(void)
{
    if (record.end == NULL)
        lend(&record), lend(&store), lend(&file), lend(&packet), lend(&out), lend(&numbers);
}

void keep(struct lent *l)
{
    memcpy(l->copy, l->at, l->n);
}

void same(const struct lent *l, size_t from, const char *what)
{
    if (from < l->n && memcmp(l->copy + from, l->at + from, l->n - from) != 0)
        fail(what);
    for (int i = 1; i <= BEFORE; i++)
        if (l->at[-i] != 0xA5)
            fail("a byte before a lent part changed");
}

/* ---- bytes that choose */

const uint8_t *choice;
size_t choices;

unsigned pick(void)
{
    if (choices == 0)
        return 0;
    choices--;
    return *choice++;
}

unsigned wide(void)
{
    unsigned high = pick();
    return high << 8 | pick();
}

uint64_t draw(uint8_t *data, size_t n, uint64_t seed)
{
    for (size_t i = 0; i < n; i++) {
        seed = seed * 6364136223846793005u + 1442695040888963407u;
        data[i] = (uint8_t)(seed >> 56);
    }
    return seed;
}

uint32_t number_of(uint32_t usual)
{
    unsigned way = pick() % 16;
    return way == 0 ? (uint32_t)wide() << 16 | wide() : way == 1 ? 1048575 : way == 2 ? wide() : usual;
}

/* ---- the transcript */

static void say_hex(const uint8_t *p, size_t n)
{
    for (size_t i = 0; i < n; i++)
        fprintf(transcript, " %02x", p[i]);
    fputc('\n', transcript);
}

void say_bytes(const struct lent *l, const char *command)
{
    if (transcript == NULL)
        return;
    fputs(command, transcript);
    say_hex(l->at, l->n);
}

void say_record(void)
{
    if (transcript == NULL)
        return;
    fprintf(transcript, "held %zu\n", record.n);
    for (unsigned i = 0; i < BH_PLACES && i < record.n / BH_PLACE; i++) {
        struct bh_place p = bh_place_at(record.at, i);
        fprintf(transcript, "place %u %u %u %u %" PRIu32 " %u %u %u %" PRIu32 " %u %u\n", i, p.resource, p.type, p.update, p.count, p.protection, p.rows, p.slot,
                p.start, p.edition, p.order);
    }
}

uint32_t file_seed;

void say_file(void)
{
    SAY("file %" PRIu32 " %zu\n", file_seed, file.n);
}

static uint64_t fnv(const uint8_t *p, size_t n)
{
    uint64_t h = 14695981039346656037u;
    for (size_t i = 0; i < n; i++)
        h = (h ^ p[i]) * 1099511628211u;
    return h;
}

void say_digest(const struct lent *l, const char *name)
{
    fprintf(transcript, "case %lu-%s %s %zu %08" PRIx32 " %016" PRIx64 "\n", ++lines, name, name, l->n, bh_crc32(l->at, l->n), fnv(l->at, l->n));
}

/* ---- after each call */

int may(unsigned number, unsigned low, unsigned high, const char *others)
{
    for (; *others != 0; others++)
        if ((unsigned)(unsigned char)*others == number)
            return 1;
    return number == 0 || (low <= number && number <= high);
}

void judge(uint64_t answer, int allowed, size_t out_written, int store_may, int record_may)
{
    unsigned number = bh_number(answer);
    calls++;
    if (!allowed)
        fail("an answer that this call does not give");
    int accepted = number == 0;
    accepted_calls += (unsigned long)accepted;
    same(&record, accepted && record_may ? record.n : 0, "the record changed");
    same(&store, accepted && store_may ? store.n : 0, "the store changed");
    same(&out, accepted ? out_written : 0, "the output changed");
    same(&file, 0, "the file changed");
    same(&packet, 0, "the packet changed");
    if (transcript == NULL)
        return;
    fprintf(transcript, accepted ? "case %lu accepted" : "case %lu refused %u", ++lines, number);
    fprintf(transcript, bh_value(answer) ? " %" PRIu64 "\n" : "\n", bh_value(answer));
    if (accepted && out_written > 0)
        say_digest(&out, "out");
    if (accepted && store_may)
        say_digest(&store, "store");
    if (accepted && record_may)
        say_digest(&record, "held");
}

void keep_all(void)
{
    keep(&record), keep(&store), keep(&out), keep(&file), keep(&packet), keep(&numbers);
}
