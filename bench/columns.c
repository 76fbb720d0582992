/*
 * Column order beside libfec: packing a file, and handing it out without losses, with one loss and with sixteen losses a row. The peer is what engineers
 * build from libfec and a bytewise CRC: it keeps what came at its position in the coded tables, takes each row out of its columns, decodes it, with the lost
 * places named, and puts its information bytes into the file.
 */
#include "bench.h"
#include "brithelva.h"

#include <fec.h>
#include <stdlib.h>
#include <string.h>

enum { M = 32, TABLE = BH_ROW * M, INFO = BH_ROW_INFO * M, ANY = 1 << 20 };

struct columns {
    uint8_t *file, *packets, *peer_packets, *store, *out, *peer_out;
    uint8_t *coded; /* the tables as they are sent, what never came among them 0 */
    uint8_t *came;  /* 1 for each packet that came */
    size_t n, tables, count, sent, store_size;
    uint16_t size;
    uint8_t record[BH_RECORD];
};

static size_t smaller(size_t a, size_t b)
{
    return a < b ? a : b;
}

/* ---- packing */

static void pack_all(void *w)
{
    struct columns *j = w;
    uint8_t *at = j->packets;
    for (uint32_t k = 0; k < j->count; k++)
        at += bh_value(bh_pack_as(j->file, j->n, 7, 1, 0, 1, M, j->size, 2, 1, k, at, BH_LARGEST_PACKET));
    sink += (uint64_t)(at - j->packets);
}

/* table t as it is sent: its information columns are the file's own bytes; the checks are put behind them row by row */
static void code_table(struct columns *j, size_t t, uint8_t *to)
{
    uint8_t row[BH_ROW_INFO], checks[BH_ROW_CHECKS];
    size_t there = smaller(j->n - t * INFO, INFO);
    memcpy(to, j->file + t * INFO, there);
    memset(to + there, 0, INFO - there);
    for (size_t r = 0; r < M; r++) {
        for (size_t c = 0; c < BH_ROW_INFO; c++)
            row[c] = to[c * M + r];
        encode_rs_char(bench_rs, row, checks);
        for (size_t c = 0; c < BH_ROW_CHECKS; c++)
            to[INFO + c * M + r] = checks[c];
    }
}

static void peer_pack_all(void *w)
{
    struct columns *j = w;
    uint8_t *at = j->peer_packets;
    for (size_t t = 0; t < j->tables; t++)
        code_table(j, t, j->coded + t * TABLE);
    for (size_t k = 0; k < j->count; k++) {
        size_t some = smaller(j->tables * TABLE - k * j->size, j->size), length = 18 + some;
        uint8_t head[14] = {0x49, 0x59, 0x69, 0, 7, (uint8_t)(k >> 12), (uint8_t)(k >> 4), (uint8_t)(k << 4), (uint8_t)(length >> 4),
                            (uint8_t)(length << 4 | j->count >> 16), (uint8_t)(j->count >> 8), (uint8_t)j->count, 0x52, 0};
        memcpy(at, head, 14);
        memcpy(at + 14, j->coded + k * j->size, some);
        uint32_t crc = crc_bytewise(at, length - 4);
        for (int b = 0; b < 4; b++)
            at[length - 4 + (size_t)b] = (uint8_t)(crc >> (24 - 8 * b));
        at += length;
    }
    sink += (uint64_t)(at - j->peer_packets);
}

/* ---- handing out */

static void hand_all(void *w)
{
    struct columns *j = w;
    sink += bh_hand_out(j->record, BH_RECORD, j->store, j->store_size, 7, 1, j->n, j->out, j->n);
}

/* the columns of table t that stand in packets that never came; a packet is whole columns where something is lost */
static int lost_columns(const struct columns *j, size_t t, int *lost)
{
    int some = 0;
    for (size_t k = t * TABLE / j->size; k < j->count && k * j->size < (t + 1) * TABLE; k++)
        for (size_t at = k * j->size; !j->came[k] && at < (k + 1) * j->size; at += M)
            if (at >= t * TABLE && at < (t + 1) * TABLE)
                lost[some++] = (int)((at - t * TABLE) / M);
    return some;
}

static void peer_hand_all(void *w)
{
    struct columns *j = w;
    for (size_t t = 0; t < j->tables; t++) {
        const uint8_t *table = j->coded + t * TABLE;
        uint8_t *to = j->peer_out + t * INFO, row[BH_ROW];
        int lost[BH_ROW], named[BH_ROW], some = lost_columns(j, t, lost);
        size_t left = smaller(j->n - t * INFO, INFO);
        for (size_t r = 0; r < M; r++) {
            for (size_t c = 0; c < BH_ROW; c++)
                row[c] = table[c * M + r];
            memcpy(named, lost, sizeof named);
            sink += (uint64_t)decode_rs_char(bench_rs, row, named, some);
            for (size_t c = 0; c * M + r < left; c++)
                to[c * M + r] = row[c];
        }
    }
}

static struct columns columns_of(uint16_t size)
{
    struct columns j = {.n = ANY, .size = size, .tables = (ANY + INFO - 1) / INFO};
    j.count = (j.tables * TABLE + size - 1) / size;
    j.sent = j.tables * TABLE + 18 * j.count;
    j.store_size = j.count * (size + 2u);
    j.file = malloc(j.n);
    j.out = malloc(j.n);
    j.peer_out = malloc(j.n);
    j.packets = malloc(j.sent + BH_LARGEST_PACKET);
    j.peer_packets = malloc(j.sent);
    j.coded = malloc(j.tables * TABLE);
    j.came = malloc(j.count);
    j.store = calloc(1, j.store_size);
    for (size_t i = 0; i < j.n; i++)
        j.file[i] = (uint8_t)rand();
    pack_all(&j);
    peer_pack_all(&j);
    must(memcmp(j.packets, j.peer_packets, j.sent) == 0, "packets in columns");
    return j;
}

static void drop_columns(struct columns *j)
{
    uint8_t *parts[] = {j->file, j->out, j->peer_out, j->packets, j->peer_packets, j->coded, j->came, j->store};
    for (size_t i = 0; i < sizeof parts / sizeof *parts; i++)
        free(parts[i]);
}

/* every packet offered but `lost` of each table, which stand wholly in it; the peer has the same bytes, and 0 for those */
static void collect(struct columns *j, size_t lost)
{
    memset(j->record, 0, sizeof j->record);
    must(bh_open_as(j->record, BH_RECORD, j->store, j->store_size, 7, 1, 0, (uint32_t)j->count, 1, M, j->size, 2, 1) == 0, "open in columns");
    memset(j->came, 1, j->count);
    for (size_t t = 0; t < j->tables; t++) {
        size_t first = (t * TABLE + j->size - 1) / j->size, behind = smaller((t + 1) * TABLE / j->size, j->count), whole = behind - first;
        for (size_t k = 0; k < lost; k++)
            j->came[first + (k * whole / lost + t) % whole] = 0;
    }
    const uint8_t *at = j->packets;
    for (size_t k = 0; k < j->count; k++) {
        size_t length = (size_t)at[8] << 4 | at[9] >> 4;
        if (j->came[k])
            must(bh_offer(j->record, BH_RECORD, j->store, j->store_size, at, length) == 0, "offer in columns");
        else
            memset(j->coded + k * j->size, 0, length - 18);
        at += length;
    }
}

/* with so many packets of each table lost, which are so many losses of each row */
static void restore(const char *name, uint16_t size, size_t packets, int losses, const char *asked)
{
    struct columns j = columns_of(size);
    int lost[BH_ROW];
    collect(&j, packets);
    for (size_t t = 0; t < j.tables; t++)
        must(lost_columns(&j, t, lost) == losses, "the losses of a row");
    memset(j.out, 0, j.n);
    memset(j.peer_out, 0, j.n);
    hand_all(&j);
    peer_hand_all(&j);
    must(memcmp(j.out, j.file, j.n) == 0, "the file from columns");
    must(memcmp(j.peer_out, j.file, j.n) == 0, "the file from columns by libfec");
    double mb = 1e-6 * (double)j.n;
    tell_asked(name, mb / best(hand_all, &j), mb / best(peer_hand_all, &j), "MB/s", "libfec, rows from and to columns", asked);
    drop_columns(&j);
}

void columns(void)
{
    struct columns j = columns_of(255);
    double mb = 1e-6 * (double)j.n;
    tell_asked("pack 1 MiB in columns, 255 bytes a packet", mb / best(pack_all, &j), mb / best(peer_pack_all, &j), "MB/s", "libfec and a bytewise CRC", "3x");
    drop_columns(&j);
    restore("hand it out in columns, no loss", 255, 0, 0, "5x");
    /* a packet is one column */
    restore("hand it out in columns, 1 loss a row", M, 1, 1, "4x");
    /* a packet is eight columns */
    restore("hand it out in columns, 16 losses a row", 8 * M, 2, 16, "2x");
}
