/*
 * The library beside its peers, in one run on one core: libfec and ISA-L for rows and CRC, zlib for its CRC, memcpy for copying, and small
 * C loops (a bytewise CRC, slicing by eight) as engineers write them. Outputs are compared before anything is timed. Each figure is the
 * best of several rounds. Writes a line for each figure: NAME<tab>OURS<tab>PEER<tab>UNIT<tab>PEER'S NAME<tab>WHAT IS ASKED, and growth lines.
 */
#define _GNU_SOURCE
#include "bench.h"
#include "brithelva.h"

#include <fec.h>
#include <inttypes.h>
#include <isa-l.h>
#include <stdio.h>
#include <stdlib.h>
#include <string.h>
#include <time.h>
#include <zlib.h>

static double now(void)
{
    struct timespec t;
    clock_gettime(CLOCK_MONOTONIC, &t);
    return (double)t.tv_sec + 1e-9 * (double)t.tv_nsec;
}

volatile uint64_t sink;

double best(void (*turn)(void *), void *with)
{
    double best_time = 1e9;
    uint64_t turns = 1;
    for (;;) {
        double from = now();
        for (uint64_t k = 0; k < turns; k++)
            turn(with);
        if (now() - from > 4e-3)
            break;
        turns *= 2;
    }
    for (int round = 0; round < 9; round++) {
        double from = now();
        for (uint64_t k = 0; k < turns; k++)
            turn(with);
        double took = (now() - from) / (double)turns;
        if (took < best_time)
            best_time = took;
    }
    return best_time;
}

void must(int holds, const char *what)
{
    if (!holds) {
        fprintf(stderr, "bench: outputs differ: %s\n", what);
        exit(1);
    }
}

/* ---- a bytewise CRC and slicing by eight, as peers */

static uint32_t slices[8][256];

static void fill_slices(void)
{
    for (uint32_t b = 0; b < 256; b++) {
        uint32_t r = b << 24;
        for (int k = 0; k < 8; k++)
            r = r << 1 ^ (r >> 31 ? 0x04C11DB7u : 0);
        slices[0][b] = r;
    }
    for (int k = 1; k < 8; k++)
        for (int b = 0; b < 256; b++)
            slices[k][b] = slices[k - 1][b] << 8 ^ slices[0][slices[k - 1][b] >> 24];
}

__attribute__((noinline)) uint32_t crc_bytewise(const uint8_t *p, size_t n)
{
    uint32_t r = 0xFFFFFFFF;
    for (size_t i = 0; i < n; i++)
        r = r << 8 ^ slices[0][r >> 24 ^ p[i]];
    return ~r;
}

__attribute__((noinline)) static uint32_t crc_eight(const uint8_t *p, size_t n)
{
    uint32_t r = 0xFFFFFFFF;
    for (; n >= 8; n -= 8, p += 8) {
        uint32_t a, b;
        memcpy(&a, p, 4);
        memcpy(&b, p + 4, 4);
        a = __builtin_bswap32(a) ^ r;
        b = __builtin_bswap32(b);
        r = slices[7][a >> 24] ^ slices[6][a >> 16 & 255] ^ slices[5][a >> 8 & 255] ^ slices[4][a & 255]
            ^ slices[3][b >> 24] ^ slices[2][b >> 16 & 255] ^ slices[1][b >> 8 & 255] ^ slices[0][b & 255];
    }
    for (; n > 0; n--, p++)
        r = r << 8 ^ slices[0][r >> 24 ^ *p];
    return ~r;
}

/* ---- rows and CRC */

void *bench_rs;
static uint8_t row[255], wrong[255], fixed[255], bytes[4095];
static size_t crc_length;

static void our_encode(void *w) { (void)w; bh_encode_row(row, 239, fixed, 16); sink += fixed[0]; }
static void fec_encode(void *w) { (void)w; encode_rs_char(bench_rs, row, fixed); sink += fixed[0]; }
static void our_repair(void *w) { sink += bh_repair_row(w, 255, fixed, 255); }
static void fec_repair(void *w) { memcpy(fixed, w, 255); sink += (uint64_t)decode_rs_char(bench_rs, fixed, NULL, 0); }
static void our_crc(void *w) { (void)w; sink += bh_crc32(bytes, crc_length); }
static void byte_crc(void *w) { (void)w; sink += crc_bytewise(bytes, crc_length); }
static void eight_crc(void *w) { (void)w; sink += crc_eight(bytes, crc_length); }
static void zlib_crc(void *w) { (void)w; sink += crc32(0, bytes, (unsigned)crc_length); }
/* ISA-L leaves the upper halves of the vector registers in use; until they are cleared, everything behind it that works on the lower halves alone is slowed */
static uint32_t isal_of(size_t length)
{
    uint32_t crc = crc32_ieee(0, bytes, length);
#ifdef __x86_64__
    if (__builtin_cpu_supports("avx"))
        __asm__ volatile("vzeroupper" ::: "memory");
#endif
    return crc;
}
static void isal_crc(void *w) { (void)w; sink += isal_of(crc_length); }

void tell_asked(const char *name, double ours, double peer, const char *unit, const char *who, const char *asked)
{
    printf("%s\t%.4g\t%.4g\t%s\t%s\t%s\n", name, ours, peer, unit, who, asked);
    fflush(stdout);
}

void tell(const char *name, double ours, double peer, const char *unit, const char *who)
{
    tell_asked(name, ours, peer, unit, who, "");
}

static void rows(void)
{
    uint8_t theirs[16];
    for (int i = 0; i < 239; i++)
        row[i] = (uint8_t)rand();
    must(bh_encode_row(row, 239, row + 239, 16) == 0, "encode");
    encode_rs_char(bench_rs, row, theirs);
    must(memcmp(theirs, row + 239, 16) == 0, "checks");
    tell("encode a row", 239e-6 / best(our_encode, NULL), 239e-6 / best(fec_encode, NULL), "MB/s", "libfec");
    must(bh_repair_row(row, 255, fixed, 255) == 0 && memcmp(row, fixed, 255) == 0, "a coded row");
    tell("check a coded row", 1e-3 / best(our_repair, row), 1e-3 / best(fec_repair, row), "thousand rows/s", "libfec");
    for (int errors = 1; errors <= 8; errors = errors == 1 ? 4 : errors + 4) {
        char name[40];
        memcpy(wrong, row, 255);
        for (int k = 0; k < errors; k++)
            wrong[(k * 31 + 7) % 255] ^= (uint8_t)(k + 1);
        must(bh_repair_row(wrong, 255, fixed, 255) == 256 * (uint64_t)errors && memcmp(row, fixed, 255) == 0, "a repaired row");
        fec_repair(wrong);
        must(memcmp(row, fixed, 255) == 0, "a row repaired by libfec");
        snprintf(name, sizeof name, "repair %d wrong bytes", errors);
        tell(name, 1e-3 / best(our_repair, wrong), 1e-3 / best(fec_repair, wrong), "thousand rows/s", "libfec");
    }
}

static void crcs(void)
{
    static const size_t lengths[] = {19, 256, 4095};
    for (size_t i = 0; i < sizeof bytes; i++)
        bytes[i] = (uint8_t)rand();
    for (int k = 0; k < 3; k++) {
        char name[40];
        crc_length = lengths[k];
        uint32_t c = bh_crc32(bytes, crc_length);
        must(c == crc_bytewise(bytes, crc_length) && c == crc_eight(bytes, crc_length) && c == isal_of(crc_length), "CRC");
        double mb = 1e-6 * (double)crc_length, ours = mb / best(our_crc, NULL);
        snprintf(name, sizeof name, "CRC of %zu bytes", crc_length);
        tell(name, ours, mb / best(byte_crc, NULL), "MB/s", "bytewise C");
        tell(name, ours, mb / best(eight_crc, NULL), "MB/s", "slicing by eight in C");
        tell(name, ours, mb / best(zlib_crc, NULL), "MB/s", "zlib");
        tell(name, ours, mb / best(isal_crc, NULL), "MB/s", "ISA-L (folding)");
    }
}

/* ---- whole files */

struct job {
    uint8_t *file, *packets, *store, *out, *fec_out;
    size_t n, packet_room, count, store_size;
    uint8_t record[BH_RECORD];
    uint8_t protection;
    uint16_t size;
    size_t sent; /* packets in all, bytes */
};

/* by default where that is meant, else by name */
static int is_house(const struct job *j)
{
    return j->protection == 1 && j->size == BH_HOUSE_SIZE;
}

static uint64_t pack_one(struct job *j, uint32_t k, uint8_t *at, size_t room)
{
    if (is_house(j))
        return bh_pack_house(j->file, j->n, 7, 1, 0, k, at, room);
    return bh_pack(j->file, j->n, 7, 1, 0, j->protection, BH_HOUSE_ROWS, j->size, k, at, room);
}

static void pack_all(void *w)
{
    struct job *j = w;
    uint8_t *at = j->packets;
    for (uint32_t k = 0; k < j->count; k++)
        at += bh_value(pack_one(j, k, at, BH_LARGEST_PACKET));
    sink += (uint64_t)(at - j->packets);
}

/* A packer as engineers build it from libfec and a bytewise CRC: gathers each row from its table, encodes it, adds header and CRC. */
static void peer_pack_all(void *w)
{
    struct job *j = w;
    uint8_t *at = j->fec_out;
    size_t m = 32, rows_each = j->size / 255, tables = (j->n + 239 * m - 1) / (239 * m), all = tables * m;
    uint32_t count = (uint32_t)((all + rows_each - 1) / rows_each);
    for (uint32_t k = 0; k < count; k++) {
        size_t first = k * rows_each, some = all - first < rows_each ? all - first : rows_each, length = 18 + some * 255;
        uint8_t head[14] = {0x49, 0x59, 0x69, 0, 7, (uint8_t)(k >> 12), (uint8_t)(k >> 4), (uint8_t)(k << 4), (uint8_t)(length >> 4),
                            (uint8_t)(length << 4 | count >> 16), (uint8_t)(count >> 8), (uint8_t)count, 0x52, 0};
        memcpy(at, head, 14);
        for (size_t q = 0; q < some; q++) {
            size_t t = (first + q) / m, r = (first + q) % m;
            uint8_t *to = at + 14 + 255 * q;
            for (size_t c = 0; c < 239; c++) {
                size_t i = t * 239 * m + c * m + r;
                to[c] = i < j->n ? j->file[i] : 0;
            }
            encode_rs_char(bench_rs, to, to + 239);
        }
        uint32_t crc = crc_bytewise(at, length - 4);
        for (int b = 0; b < 4; b++)
            at[length - 4 + (size_t)b] = (uint8_t)(crc >> (24 - 8 * b));
        at += length;
    }
    sink += (uint64_t)(at - j->fec_out);
}

static void open_job(struct job *j)
{
    uint32_t count = (uint32_t)j->count;
    memset(j->record, 0, sizeof j->record);
    uint64_t answer = is_house(j) ? bh_open_house(j->record, BH_RECORD, j->store, j->store_size, 7, 1, 0, count)
                                  : bh_open(j->record, BH_RECORD, j->store, j->store_size, 7, 1, 0, count, j->protection, BH_HOUSE_ROWS, j->size);
    must(answer == 0, "open");
}

static void offer_all(void *w)
{
    struct job *j = w;
    const uint8_t *at = j->packets, *end = j->packets + j->sent;
    open_job(j);
    while (at < end) {
        size_t length = (size_t)at[8] << 4 | at[9] >> 4;
        sink += bh_offer(j->record, BH_RECORD, j->store, j->store_size, at, length);
        at += length;
    }
}

/* libfec's decode of the same rows and a bytewise CRC of header and repaired payload */
static void peer_offer_all(void *w)
{
    struct job *j = w;
    const uint8_t *at = j->packets, *end = j->packets + j->sent;
    static uint8_t mended[BH_LARGEST_PACKET];
    while (at < end) {
        size_t length = (size_t)at[8] << 4 | at[9] >> 4;
        memcpy(mended, at, length);
        for (size_t i = 14; i + 4 < length; i += 255)
            sink += (uint64_t)decode_rs_char(bench_rs, mended + i, NULL, 0);
        sink += crc_bytewise(mended, length - 4);
        at += length;
    }
}

static void hand_all(void *w)
{
    struct job *j = w;
    sink += bh_hand_out(j->record, BH_RECORD, j->store, j->store_size, 7, 1, j->n, j->out, j->n);
}

static void peer_hand_all(void *w)
{
    struct job *j = w;
    memcpy(j->out, j->file, j->n);
    sink += j->out[j->n / 2];
}

static struct job job_of(size_t n, uint8_t protection, uint16_t size)
{
    struct job j = {.n = n, .protection = protection, .size = size};
    size_t coded = protection ? (n + 239 * 32 - 1) / (239 * 32) * 32 * 255 : n;
    j.count = (coded + size - 1) / size;
    j.store_size = j.count * (size + 2u);
    j.file = malloc(n);
    j.out = malloc(n);
    j.packets = malloc(coded + j.count * 18 + BH_LARGEST_PACKET);
    j.fec_out = malloc(coded + j.count * 18 + BH_LARGEST_PACKET);
    j.store = calloc(1, j.store_size);
    j.sent = coded + j.count * 18;
    for (size_t i = 0; i < n; i++)
        j.file[i] = (uint8_t)rand();
    pack_all(&j);
    return j;
}

static void drop_job(struct job *j)
{
    free(j->file);
    free(j->out);
    free(j->packets);
    free(j->fec_out);
    free(j->store);
}

/* eight wrong bytes in every row */
static void damage(struct job *j)
{
    uint8_t *at = j->packets, *end = j->packets + j->sent;
    while (at < end) {
        size_t length = (size_t)at[8] << 4 | at[9] >> 4;
        for (size_t i = 14; i + 4 < length; i += 255)
            for (int k = 0; k < 8; k++)
                at[i + (size_t)((k * 31 + rand() % 31) % 255)] ^= (uint8_t)(rand() % 255 + 1);
        at += length;
    }
}

static void whole(struct job *j, const char *what)
{
    offer_all(j);
    memset(j->out, 0, j->n);
    must(bh_hand_out(j->record, BH_RECORD, j->store, j->store_size, 7, 1, j->n, j->out, j->n) == 0 && memcmp(j->out, j->file, j->n) == 0, what);
}

static void files(void)
{
    static const uint16_t sizes[] = {BH_HOUSE_SIZE, BH_ROW};
    char name[80];
    for (int k = 0; k < 2; k++) {
        struct job j = job_of(1 << 20, 1, sizes[k]);
        const char *kind = k == 0 ? "15 rows a packet (house setting)" : "1 row a packet (house setting before R-6)";
        double mb = 1e-6 * (double)j.n;
        peer_pack_all(&j);
        must(memcmp(j.packets, j.fec_out, j.sent) == 0, "packets");
        snprintf(name, sizeof name, "pack 1 MiB, %s", kind);
        tell(name, mb / best(pack_all, &j), mb / best(peer_pack_all, &j), "MB/s", "libfec and a bytewise CRC");
        whole(&j, "the file");
        snprintf(name, sizeof name, "offer it undamaged, %s", kind);
        tell(name, mb / best(offer_all, &j), mb / best(peer_offer_all, &j), "MB/s", "libfec and a bytewise CRC");
        snprintf(name, sizeof name, "hand it out, %s", kind);
        tell(name, mb / best(hand_all, &j), mb / best(peer_hand_all, &j), "MB/s", "memcpy");
        damage(&j);
        whole(&j, "the file from damaged rows");
        snprintf(name, sizeof name, "offer it with 8 wrong bytes a row, %s", kind);
        tell(name, mb / best(offer_all, &j), mb / best(peer_offer_all, &j), "MB/s", "libfec and a bytewise CRC");
        drop_job(&j);
    }
    struct job j = job_of(1 << 20, 0, 4077);
    whole(&j, "the unprotected file");
    tell("hand out 1 MiB unprotected", 1e-6 * (double)j.n / best(hand_all, &j), 1e-6 * (double)j.n / best(peer_hand_all, &j), "MB/s", "memcpy");
    drop_job(&j);
}

/* growth: nanoseconds a byte of the file, from 64 KiB on; what does not fit a store is only packed */
static void growth(void)
{
    for (size_t n = 64 << 10; n <= 16 << 20; n *= 2) {
        struct job j = job_of(n, 1, BH_HOUSE_SIZE);
        double packs = best(pack_all, &j) * 1e9 / (double)n, offers = 0, hands = 0;
        if (j.store_size <= BH_USABLE_STORE) {
            whole(&j, "the file");
            offers = best(offer_all, &j) * 1e9 / (double)n;
            hands = best(hand_all, &j) * 1e9 / (double)n;
        }
        printf("growth\t%zu\t%.4g\t%.4g\t%.4g\n", n, packs, offers, hands);
        fflush(stdout);
        drop_job(&j);
    }
}

int main(void)
{
    srand(1);
    bench_rs = init_rs_char(8, 0x11d, 0, 1, 16, 0);
    fill_slices();
    rows();
    crcs();
    files();
    columns();
    descriptions();
    growth();
    return 0;
}
