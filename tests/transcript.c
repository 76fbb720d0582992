/* Random calls of every function of the header, the same ones each time, and what was answered. A line for each function tells its calls, how many were
   accepted, how often each refusal came, and a digest (FNV-1a, 64 bits) of every answer and of every byte that was lent to it, and of those around, as they
   were after the call. So two libraries for which this prints the same answered each call alike, and left the same bytes behind.
   tests/transcript.txt is what it printed with the library of version 6.0. Where an answer is meant to change, what is printed then takes its place. */
#include "brithelva.h"

#include <inttypes.h>
#include <stdio.h>
#include <string.h>

/* ---- numbers that are the same each time (splitmix). No expression draws twice, since which of them came first would be the compiler's choice */

static uint64_t seed = 6;

static uint64_t draw(void)
{
    uint64_t z = seed += 0x9E3779B97F4A7C15u;
    z = (z ^ z >> 30) * 0xBF58476D1CE4E5B9u;
    z = (z ^ z >> 27) * 0x94D049BB133111EBu;
    return z ^ z >> 31;
}

static unsigned below(size_t n)
{
    return (unsigned)(draw() % n);
}

static int one_in(unsigned n)
{
    return below(n) == 0;
}

static uint8_t byte(void)
{
    return (uint8_t)below(256);
}

#define OF(list) list[below(sizeof list / sizeof *list)]

/* ---- lent memory, and what nobody may touch before it and behind it */

enum { MARGIN = 16, STORE_ROOM = 1 << 17, FILE_ROOM = 1 << 16, NUMBERS_ROOM = 40 };

static uint8_t record_room[BH_RECORD + 40 + 2 * MARGIN], store_room[STORE_ROOM + 2 * MARGIN], file_room[BH_LARGEST_FILE + 1 + 2 * MARGIN];
static uint8_t packet_room[8192 + 2 * MARGIN], out_room[FILE_ROOM + 2 * MARGIN];
static uint64_t numbers_room[NUMBERS_ROOM + 2 * MARGIN / 8];

struct lent {
    uint8_t *at;
    size_t n;
};
static struct lent record = {record_room + MARGIN, 0}, store = {store_room + MARGIN, 0}, file = {file_room + MARGIN, 0};
static struct lent packet = {packet_room + MARGIN, 0}, out = {out_room + MARGIN, 0}, numbers = {(uint8_t *)numbers_room + MARGIN, 0};
static struct lent *const parts[] = {&record, &store, &file, &packet, &out, &numbers};
enum { RECORD = 1, STORE = 2, SENT = 4, PACKET = 8, OUT = 16, NUMBERS = 32, PARTS = 6 };

/* so many bytes of it, as they are */
static void lend(struct lent *l, size_t n)
{
    l->n = n;
    memset(l->at - MARGIN, 0xA5, MARGIN);
    memset(l->at + n, 0xA5, MARGIN);
}

/* so many bytes of one value */
static void lend_filled(struct lent *l, size_t n)
{
    lend(l, n);
    memset(l->at, byte(), n);
}

/* no pointer where nothing is lent */
static uint8_t *given(const struct lent *l)
{
    return l->n > 0 ? l->at : NULL;
}

/* ---- what is told of each function */

enum function {
    CRC32, ENCODE, REPAIR, FIELDS, HEADER, PACK_AS, PACK, PACK_HOUSE, OPEN_AS, OPEN, OPEN_HOUSE, OFFER, STATUS, HAND_OUT, CLOSE, DESCRIBED, DESCRIBE, ALL
};

/* its name, and what is lent to it */
static const struct {
    const char *name;
    unsigned lent;
} functions[] = {
    {"bh_crc32", PACKET}, {"bh_encode_row", PACKET | OUT}, {"bh_repair_row", PACKET | OUT}, {"bh_read_fields", PACKET | NUMBERS},
    {"bh_read_header", PACKET | NUMBERS}, {"bh_pack_as", SENT | OUT}, {"bh_pack", SENT | OUT}, {"bh_pack_house", SENT | OUT},
    {"bh_open_as", RECORD | STORE}, {"bh_open", RECORD | STORE}, {"bh_open_house", RECORD | STORE}, {"bh_offer", RECORD | STORE | PACKET},
    {"bh_status", RECORD | STORE}, {"bh_hand_out", RECORD | STORE | OUT}, {"bh_close", RECORD | STORE}, {"bh_read_description", PACKET | NUMBERS},
    {"bh_write_description", PACKET | NUMBERS | OUT}, {"all", 0},
};

static struct line {
    unsigned long calls, by[256];
    uint64_t digest;
} lines[ALL + 1];

static void fold(struct line *l, const uint8_t *p, size_t n)
{
    uint64_t h = l->digest;
    for (size_t i = 0; i < n; i++)
        h = (h ^ p[i]) * 1099511628211u;
    l->digest = h;
}

static void fold_number(struct line *l, uint64_t number)
{
    uint8_t bytes[8];
    for (int i = 0; i < 8; i++)
        bytes[i] = (uint8_t)(number >> 8 * i);
    fold(l, bytes, sizeof bytes);
}

static void count(struct line *l, uint64_t answer)
{
    l->calls++;
    l->by[bh_number(answer)]++;
}

static uint64_t tell(enum function f, uint64_t answer)
{
    count(&lines[f], answer);
    count(&lines[ALL], answer);
    fold_number(&lines[f], answer);
    for (unsigned i = 0; i < PARTS; i++)
        if (functions[f].lent >> i & 1)
            fold(&lines[f], parts[i]->at - MARGIN, parts[i]->n + 2 * MARGIN);
    fold_number(&lines[ALL], lines[f].digest);
    return answer;
}

static void print_line(enum function f)
{
    const char *before = "; refused";
    printf("%s: %lu calls, %lu accepted", functions[f].name, lines[f].calls, lines[f].by[0]);
    for (unsigned k = 1; k < 256; k++)
        if (lines[f].by[k] > 0) {
            printf("%s %u: %lu", before, k, lines[f].by[k]);
            before = ",";
        }
    printf("; %016" PRIx64 "\n", lines[f].digest);
}

/* how many there were: rows by the bytes that were altered, and by those that were mended; files in column order, asked for and handed out, by the bytes
   that the row with most losses lacked, more than sixteen as 17 */
static unsigned long altered_rows[13], mended_rows[9], files_asked[18], files_restored[18];
static unsigned long altered_packets, mended_packets, mended_bytes, repeats;

static void print_counts(const char *what, const unsigned long *counts, size_t n)
{
    printf("%s:", what);
    for (size_t k = 0; k < n; k++)
        printf(" %lu", counts[k]);
    printf("\n");
}

/* ---- rows */

static uint64_t encode_row(void)
{
    return tell(ENCODE, bh_encode_row(given(&packet), packet.n, given(&out), out.n));
}

static uint64_t repair_row(void)
{
    uint64_t a = tell(REPAIR, bh_repair_row(given(&packet), packet.n, given(&out), out.n));
    if (bh_number(a) == BH_ACCEPTED && bh_value(a) <= 8)
        mended_rows[bh_value(a)]++;
    return a;
}

/* the row in `packet` with the checks that its information bytes ask for */
static void put_checks(void)
{
    lend(&packet, BH_ROW_INFO);
    lend_filled(&out, BH_ROW_CHECKS);
    encode_row();
    lend(&packet, BH_ROW);
    memcpy(packet.at + BH_ROW_INFO, out.at, BH_ROW_CHECKS);
}

/* a coded row: of any bytes, of few that are not 0, or of one value */
static void some_row(void)
{
    unsigned way = below(8);
    lend_filled(&packet, BH_ROW_INFO);
    for (size_t i = 0; i < BH_ROW_INFO && way > 0; i++)
        packet.at[i] = way == 1 && below(32) > 0 ? 0 : byte();
    put_checks();
}

/* so many bytes of a row altered: anywhere, side by side or as far apart each, or among the checks; each in its own way, or all alike */
static void alter(uint8_t *row, unsigned wrong)
{
    static const uint8_t steps[] = {1, 3, 5, 15, 17, 127};
    uint8_t before[BH_ROW], value = (uint8_t)(1 + below(255));
    unsigned way = below(16), start = below(BH_ROW), step = OF(steps);
    memcpy(before, row, BH_ROW);
    for (unsigned k = 0; k < wrong;) {
        unsigned at = way < 5 ? (start + k * step) % BH_ROW : way < 7 ? BH_ROW_INFO + below(BH_ROW_CHECKS) : below(BH_ROW);
        if (row[at] != before[at])
            continue;
        row[at] = (uint8_t)(before[at] ^ (way % 2 ? value : 1 + below(255)));
        k++;
    }
}

/* a room for what is written: mostly as much as is needed or some bytes more, else too little */
static size_t some_room(size_t needed)
{
    unsigned way = below(32);
    return way == 0 ? below(needed) : way == 1 ? needed - 1 : way < 24 ? needed : needed + below(20);
}

/* a coded row with 0 to 12 bytes altered */
static void altered_row(void)
{
    unsigned wrong = below(13);
    some_row();
    alter(packet.at, wrong);
    altered_rows[wrong]++;
    lend_filled(&out, some_room(BH_ROW));
    repair_row();
}

/* between two coded rows that differ in seventeen bytes: some of these as the one has them and some as the other, so that either may be nearer */
static void row_between(void)
{
    uint8_t one[BH_ROW];
    some_row();
    memcpy(one, packet.at, BH_ROW);
    unsigned at = below(BH_ROW_INFO), left = below(18);
    packet.at[at] = (uint8_t)(packet.at[at] + 1 + below(255));
    put_checks();
    for (unsigned from = below(BH_ROW), k = 0; k < BH_ROW && left > 0; k++)
        if (packet.at[(from + k) % BH_ROW] != one[(from + k) % BH_ROW]) {
            packet.at[(from + k) % BH_ROW] = one[(from + k) % BH_ROW];
            left--;
        }
    if (one_in(4))
        alter(packet.at, 1);
    lend_filled(&out, BH_ROW);
    repair_row();
}

/* any bytes, of any length or of a row's */
static void any_row(void)
{
    size_t n = one_in(2) ? BH_ROW : one_in(4) ? BH_ROW_INFO : below(300);
    lend(&packet, n);
    for (size_t i = 0; i < n; i++)
        packet.at[i] = byte();
    lend_filled(&out, some_room(BH_ROW));
    repair_row();
    if (one_in(2))
        lend(&packet, BH_ROW_INFO);
    lend_filled(&out, some_room(BH_ROW_CHECKS));
    encode_row();
}

static void rows(void)
{
    for (int k = 0; k < 9100; k++)
        altered_row();
    for (int k = 0; k < 700; k++)
        row_between();
    for (int k = 0; k < 400; k++)
        any_row();
}

/* ---- packets */

struct settings {
    uint16_t resource;
    uint8_t type, update, protection, rows;
    uint16_t size, edition, order;
};

static uint32_t crc_of_packet(void)
{
    uint32_t crc = bh_crc32(given(&packet), packet.n);
    tell(CRC32, (uint64_t)crc << 8);
    return crc;
}

static void crcs(void)
{
    for (int k = 0; k < 500; k++) {
        lend(&packet, below(one_in(8) ? 5000 : 300));
        for (size_t i = 0; i < packet.n; i++)
            packet.at[i] = byte();
        crc_of_packet();
    }
}

static uint64_t read_fields(size_t room)
{
    lend_filled(&numbers, 4 * room);
    return tell(FIELDS, bh_read_fields(given(&packet), packet.n, (uint32_t *)(void *)given(&numbers), room));
}

static uint64_t read_header(size_t room)
{
    lend_filled(&numbers, 4 * room);
    return tell(HEADER, bh_read_header(given(&packet), packet.n, (uint32_t *)(void *)given(&numbers), room));
}

/* sizes that the order has */
static uint16_t some_size(const struct settings *s)
{
    if (s->protection && !s->order)
        return (uint16_t)(BH_ROW * (1 + below(15)));
    unsigned way = below(8);
    return (uint16_t)(way == 0 ? 1 + below(BH_LARGEST_PAYLOAD) : way == 1 ? BH_ROW : way < 5 ? s->rows * (1 + below(12)) : 20 + below(300));
}

static struct settings some_settings(void)
{
    static const uint8_t rows_of[] = {1, 1, 2, 3, 5, 8, 15, 32};
    struct settings s = {.resource = 1, .type = 1};
    s.update = (uint8_t)below(16);
    s.protection = (uint8_t)(below(5) > 0);
    s.rows = OF(rows_of);
    s.edition = (uint16_t)(1 + below(2));
    s.order = (uint16_t)(s.protection && one_in(4));
    s.size = some_size(&s);
    if (one_in(8))
        s = (struct settings){.resource = 1, .type = 1, .update = s.update, .protection = 1, .rows = BH_HOUSE_ROWS, .size = BH_HOUSE_SIZE, .edition = 2};
    return s;
}

/* one of them another, in its range or not */
static void vary(struct settings *s)
{
    unsigned way = below(8), small = below(4), any = below(65536);
    uint8_t odd = (uint8_t)(one_in(4) ? any : small);
    s->resource = way == 0 ? (uint16_t)(small ? any : 0) : s->resource;
    s->type = way == 1 ? odd : s->type;
    s->update = way == 2 ? (uint8_t)(any % 20) : s->update;
    s->protection = way == 3 ? odd : s->protection;
    s->rows = way == 4 ? odd : s->rows;
    s->size = way == 5 ? (uint16_t)(small < 2 ? any : small == 2 ? 255 * (any % 18) : 4070 + any % 16) : s->size;
    s->edition = way == 6 ? (uint16_t)(small ? small : any) : s->edition;
    s->order = way == 7 ? (uint16_t)(small < 3 ? small : any) : s->order;
}

/* how a call comes to its settings: by the house, without edition and order, or with all of them named */
enum naming { HOUSE, UNNAMED, NAMED };

static enum naming naming_of(const struct settings *s)
{
    int unnamed = s->edition == 2 && s->order == BH_ROW_ORDER;
    int house = unnamed && s->protection == 1 && s->rows == BH_HOUSE_ROWS && s->size == BH_HOUSE_SIZE;
    return house && below(4) > 0 ? HOUSE : unnamed && below(4) > 0 ? UNNAMED : NAMED;
}

static uint64_t pack_by(enum naming how, const struct settings *s, uint32_t number)
{
    const uint8_t *from = given(&file);
    if (how == HOUSE)
        return tell(PACK_HOUSE, bh_pack_house(from, file.n, s->resource, s->type, s->update, number, given(&out), out.n));
    if (how == UNNAMED)
        return tell(PACK, bh_pack(from, file.n, s->resource, s->type, s->update, s->protection, s->rows, s->size, number, given(&out), out.n));
    return tell(PACK_AS, bh_pack_as(from, file.n, s->resource, s->type, s->update, s->protection, s->rows, s->size, s->edition, s->order, number,
                                    given(&out), out.n));
}

/* the packets of a file of so many bytes */
static uint32_t packets_of(const struct settings *s, size_t n)
{
    size_t m = s->rows ? s->rows : 1, size = s->size ? s->size : 1, all = s->protection ? BH_ROW * m * ((n + BH_ROW_INFO * m - 1) / (BH_ROW_INFO * m)) : n;
    return (uint32_t)((all + size - 1) / size);
}

/* a file of n bytes, with zeros in it now and then */
static void new_file(size_t n)
{
    int sparse = one_in(4);
    lend(&file, n);
    for (size_t i = 0; i < n; i++)
        file.at[i] = sparse && below(4) > 0 ? 0 : byte();
}

/* packet `number` of the file in `packet`; 0 where that is refused */
static int make(const struct settings *s, uint32_t number)
{
    lend_filled(&out, (s->size < BH_LARGEST_PAYLOAD ? s->size : BH_LARGEST_PAYLOAD) + BH_HEADER + BH_CRC);
    uint64_t a = pack_by(naming_of(s), s, number);
    if (bh_number(a) != BH_ACCEPTED || bh_value(a) > out.n)
        return 0;
    lend(&packet, (size_t)bh_value(a));
    memcpy(packet.at, out.at, packet.n);
    return 1;
}

/* the CRC that the packet asks for */
static void seal(void)
{
    size_t n = packet.n;
    lend(&packet, n - BH_CRC);
    uint32_t crc = crc_of_packet();
    lend(&packet, n);
    for (unsigned i = 0; i < BH_CRC; i++)
        packet.at[n - BH_CRC + i] = (uint8_t)(crc >> (24 - 8 * i));
}

/* the packet with so many bytes, cut or with zeros behind, and with a header that says so */
static void resize(size_t n)
{
    for (size_t i = packet.n - BH_CRC; i < n; i++)
        packet.at[i] = 0;
    lend(&packet, n);
    packet.at[8] = (uint8_t)(n >> 4);
    packet.at[9] = (uint8_t)(n << 4 | (packet.at[9] & 15));
    seal();
}

/* each row in up to eight bytes, now and then all in as many, and now and then one in nine */
static void alter_rows(void)
{
    unsigned most = one_in(4) ? 8 : below(9), least = one_in(4) ? most : 0, beyond = one_in(6) ? below(15) : 15, all = 0;
    for (unsigned row = 0; BH_HEADER + BH_ROW * (row + 1) + BH_CRC <= packet.n; row++) {
        unsigned n = row == beyond ? 9 : least + below(most - least + 1);
        alter(packet.at + BH_HEADER + BH_ROW * row, n);
        all += n;
    }
    altered_packets += all > 0;
}

/* a packet of any bytes, or too few of them, with a start mark or without */
static void any_packet(void)
{
    lend(&packet, below(one_in(4) ? BH_LARGEST_PACKET + 2 : 40));
    for (size_t i = 0; i < packet.n; i++)
        packet.at[i] = i < 3 && below(8) > 0 ? (uint8_t)(0x49 + 0x10 * i) : byte();
}

/* some part of the header another, mostly with a CRC that agrees: any bit; protection, type, number or resource; the spare bits; a stream */
static void alter_header(void)
{
    static const uint16_t flips[] = {0xFFF, 0xFF0, 0x00F, 0x001, 0x008, 0x070};
    unsigned way = below(8), at = below(BH_HEADER), spare = OF(flips);
    if (way < 2)
        packet.at[at] ^= (uint8_t)(1u << below(8));
    else if (way == 2)
        packet.at[12] ^= (uint8_t)(0x10 * (1 + below(15)));
    else if (way == 3)
        packet.at[5 + below(3)] = 0xFF;
    else if (way == 4)
        packet.at[3] = 0, packet.at[4] = (uint8_t)below(3);
    else if (way < 7)
        packet.at[12] ^= (uint8_t)(spare >> 8), packet.at[13] ^= (uint8_t)spare;
    else
        packet.at[9] &= 0xF0, packet.at[10] = packet.at[11] = 0, packet.at[12] &= 0x3F;
    if (below(4) > 0)
        seal();
}

/* a packet that is not what was sent */
static void damage(void)
{
    unsigned way = below(8);
    if (way == 0)
        any_packet();
    else if (way == 1)
        packet.at[packet.n - BH_CRC] ^= (uint8_t)(1 + below(255));
    else if (way == 2)
        lend(&packet, packet.n - below(2) - 1);
    else if (way == 3)
        resize(BH_SMALLEST_PACKET + below(packet.n - BH_SMALLEST_PACKET + 1));
    else if (way == 4 && packet.n + BH_ROW <= BH_LARGEST_PACKET)
        resize(packet.n + (one_in(4) ? 1 : BH_ROW));
    else
        alter_header();
}

/* packets read, mostly with something wrong in them */
static void reading(void)
{
    for (int k = 0; k < 1200; k++) {
        struct settings s = some_settings();
        new_file(1 + below(600));
        if (!make(&s, below(packets_of(&s, file.n))))
            continue;
        if (below(8) > 0)
            damage();
        read_fields(one_in(8) ? below(BH_FIELDS) : BH_FIELDS + below(4));
        read_header(one_in(8) ? below(BH_FIELDS) : BH_FIELDS + below(4));
    }
}

/* packets made in any settings, with any number and room; some files are empty */
static void packing(void)
{
    for (int k = 0; k < 1000; k++) {
        struct settings s = some_settings();
        new_file(one_in(32) ? 0 : 1 + below(9000));
        if (below(4) == 0)
            s.rows = (uint8_t)(1 + below(255));
        uint32_t all = packets_of(&s, file.n), number = one_in(16) ? all + below(3) : one_in(64) ? (uint32_t)draw() : below(all + (all == 0));
        enum naming how = naming_of(&s);
        if (one_in(3))
            vary(&s);
        lend_filled(&out, some_room((size_t)BH_HEADER + s.size % BH_LARGEST_PAYLOAD + BH_CRC));
        pack_by(how, &s, number);
    }
}

/* files that are too long, or for too many packets */
static void large_files(void)
{
    struct settings s = {.resource = 1, .type = 1, .protection = 0, .size = 1, .edition = 2};
    lend_filled(&out, BH_LARGEST_PACKET);
    for (unsigned how = HOUSE; how <= NAMED; how++) {
        lend_filled(&file, BH_LARGEST_FILE + 1);
        pack_by((enum naming)how, &s, 0);
        lend_filled(&file, BH_LARGEST_COUNT + 1);
        pack_by((enum naming)how, &s, 0);
        lend_filled(&file, BH_LARGEST_COUNT);
        pack_by((enum naming)how, &s, below(BH_LARGEST_COUNT));
    }
    /* by columns 4112 tables of one row are the most for packets of one byte */
    s.protection = 1, s.rows = 1, s.order = BH_COLUMN_ORDER;
    for (size_t more = 0; more < 2; more++) {
        lend_filled(&file, (size_t)BH_ROW_INFO * 4112 + more);
        pack_by(NAMED, &s, BH_ROW * 4112 - 1);
    }
}

/* ---- the record */

static uint64_t open_by(enum naming how, const struct settings *s, uint32_t n)
{
    uint8_t *r = given(&record), *t = given(&store);
    if (how == HOUSE)
        return tell(OPEN_HOUSE, bh_open_house(r, record.n, t, store.n, s->resource, s->type, s->update, n));
    if (how == UNNAMED)
        return tell(OPEN, bh_open(r, record.n, t, store.n, s->resource, s->type, s->update, n, s->protection, s->rows, s->size));
    return tell(OPEN_AS, bh_open_as(r, record.n, t, store.n, s->resource, s->type, s->update, n, s->protection, s->rows, s->size, s->edition, s->order));
}

static uint64_t offer(void)
{
    uint64_t a = tell(OFFER, bh_offer(given(&record), record.n, given(&store), store.n, given(&packet), packet.n));
    mended_packets += bh_mended(a) > 0;
    mended_bytes += bh_mended(a);
    repeats += bh_is_repeat(a) != 0;
    return a;
}

static uint64_t status(uint16_t resource, uint8_t type)
{
    uint64_t a = tell(STATUS, bh_status(given(&record), record.n, given(&store), store.n, resource, type));
    fold_number(&lines[STATUS], (uint64_t)bh_filled(a) << 32 | (uint32_t)bh_lowest_empty(a));
    return a;
}

static uint64_t hand_out(uint16_t resource, uint8_t type, uint64_t length)
{
    return tell(HAND_OUT, bh_hand_out(given(&record), record.n, given(&store), store.n, resource, type, length, given(&out), out.n));
}

static uint64_t close_place(uint16_t resource, uint8_t type)
{
    return tell(CLOSE, bh_close(given(&record), record.n, given(&store), store.n, resource, type));
}

/* the files that are sent in a round, and how */
static struct sent {
    struct settings s;
    uint32_t packets;
    size_t n;
    uint8_t bytes[FILE_ROOM];
} sent[BH_PLACES];
static unsigned sending;

/* the file that is sent is the one that is packed */
static void take_file(const struct sent *f)
{
    lend(&file, f->n);
    memcpy(file.at, f->bytes, f->n);
}

static void send_file(struct sent *f, struct settings s, size_t n)
{
    new_file(n);
    f->s = s;
    f->n = n;
    f->packets = packets_of(&s, n);
    memcpy(f->bytes, file.at, n);
}

/* two files of a resource, as its file and its description, and no more packets than a round needs */
static void send_some(unsigned i)
{
    struct settings s = some_settings();
    s.resource = (uint16_t)(1 + i / 2), s.type = (uint8_t)(1 + i % 2);
    if (!s.protection || s.order)
        s.size = (uint16_t)(s.size < 60 ? 60 + s.size : s.size);
    send_file(&sent[i], s, 1 + below((size_t)BH_ROW_INFO * s.rows * (s.rows < 6 ? 3 : 1)));
}

static void fresh(size_t n)
{
    lend_filled(&store, n < STORE_ROOM ? n : STORE_ROOM);
    lend(&record, BH_RECORD);
    memset(record.at, 0, BH_RECORD);
}

/* slot k of the place that these settings have; the store's first byte where there is none */
static uint8_t *slot_of(const struct settings *s, uint32_t k)
{
    for (unsigned i = 0; i < BH_PLACES; i++) {
        struct bh_place p = bh_place_at(record.at, i);
        size_t at = p.start + (size_t)k * (p.slot + 2u);
        if (p.resource == s->resource && p.type == s->type && k < p.count && at + p.slot + 2u <= store.n)
            return store.at + at;
    }
    return store.at;
}

static unsigned length_at(const uint8_t *slot)
{
    return slot[0] | (unsigned)slot[1] << 8;
}

/* a packet of one of the files as it was sent, altered in its rows, of another file or in other settings, or otherwise damaged; and some come again */
static void offer_some(const struct sent *f, uint32_t number)
{
    struct settings s = f->s;
    unsigned way = below(16);
    take_file(f);
    if (way == 0)
        vary(&s);
    if (way == 1)
        file.at[below(file.n)] ^= 1;
    if (!make(&s, number))
        return;
    if (way < 4)
        damage();
    else if (s.protection && !s.order && way < 15)
        alter_rows();
    offer();
    if (way > 3 && one_in(8)) {
        if (s.protection && !s.order)
            alter_rows();
        offer();
    }
}

/* a file asked for at its length, or another */
static void hand_some(const struct settings *s, size_t n)
{
    unsigned way = below(16);
    size_t table = (size_t)BH_ROW_INFO * (s->rows ? s->rows : 1);
    uint64_t length = way == 0 ? 0 : way == 1 ? draw() : way == 2 ? n - 1 : way == 3 ? n + 1 : way == 4 ? n + table - 1 : way == 5 ? n + table : n;
    if (way == 4)
        length -= length % table;
    lend_filled(&out, some_room(length > 0 && length < 60000 ? (size_t)length : n));
    uint16_t resource = one_in(32) ? (uint16_t)below(9) : s->resource;
    hand_out(resource, one_in(32) ? byte() : s->type, length);
}

static void status_some(const struct settings *s)
{
    uint16_t resource = one_in(8) ? (uint16_t)below(9) : s->resource;
    status(resource, one_in(8) ? byte() : s->type);
}

/* places that are opened beside: with something out of range, twice, in too little room, or more than there are */
static void open_more(void)
{
    struct settings s = sent[below(sending)].s, small = {.resource = 100, .type = 2, .size = 1, .edition = 2};
    open_by(naming_of(&s), &s, 2);
    for (unsigned k = 0; k < 4; k++) {
        s = some_settings();
        s.resource = (uint16_t)(50 + k);
        enum naming how = naming_of(&s);
        if (below(4) > 0)
            vary(&s);
        open_by(how, &s, one_in(4) ? 0 : one_in(3) ? (uint32_t)draw() : 1 + below(300));
    }
    while (one_in(2) && small.resource < 110) {
        open_by(UNNAMED, &small, 1);
        small.resource++;
    }
    if (one_in(4))
        for (small.resource = 120; small.resource < 120 + BH_PLACES; small.resource++)
            open_by(UNNAMED, &small, 1);
    open_by(HOUSE, &small, 1 + below(2));
    open_by(NAMED, &small, 1);
}

/* every call on a record that may be no good: of another length, or with a byte altered */
static void spoil_record(const struct sent *f)
{
    static const uint8_t lengths[] = {0, 128, 144, BH_RECORD - 1, BH_RECORD + 1, BH_RECORD + 20};
    uint8_t kept[BH_RECORD];
    memcpy(kept, record.at, BH_RECORD);
    size_t n = one_in(4) ? OF(lengths) : BH_RECORD, at = below(BH_PLACE * (sending + 1));
    lend(&record, n);
    record.at[at % BH_RECORD] ^= (uint8_t)(1u << below(8));
    offer_some(f, below(f->packets));
    status_some(&f->s);
    hand_some(&f->s, f->n);
    struct settings s = some_settings();
    s.resource = 99;
    open_by(NAMED, &s, 1);
    open_by(UNNAMED, &s, 1);
    open_by(HOUSE, &s, 1);
    close_place(f->s.resource, f->s.type);
    lend(&record, BH_RECORD);
    memcpy(record.at, kept, BH_RECORD);
}

/* calls while a slot has another length than it had, a row more or less, or any, or while a stored byte is another one */
static void spoil_slot(const struct sent *f)
{
    uint32_t number = below(f->packets);
    uint8_t *slot = slot_of(&f->s, number), kept[3];
    unsigned way = below(4), length = way == 0 ? below(65536) : way == 1 ? f->s.size + 1u + below(3) : way == 2 ? BH_ROW * (1 + below(3)) : length_at(slot);
    memcpy(kept, slot, 3);
    slot[0] = (uint8_t)length, slot[1] = (uint8_t)(length >> 8);
    slot[2] ^= (uint8_t)(way == 3 || one_in(4) ? 1 + below(255) : 0);
    status(f->s.resource, f->s.type);
    hand_some(&f->s, f->n);
    offer_some(f, number);
    memcpy(slot, kept, 3);
}

static void some_step(void)
{
    const struct sent *f = &sent[below(sending)];
    unsigned way = below(32);
    if (way == 0)
        spoil_record(f);
    else if (way < 3)
        spoil_slot(f);
    else if (way < 5)
        status_some(&f->s);
    else if (way < 8)
        hand_some(&f->s, f->n);
    else
        offer_some(f, below(f->packets));
}

/* the packets that have not come, but for one now and then, and the file asked for */
static void complete(const struct sent *f)
{
    unsigned lacking = one_in(6) ? below(f->packets) : f->packets, from = below(f->packets);
    take_file(f);
    for (uint32_t k = 0; k < f->packets; k++) {
        uint32_t number = (from + k) % f->packets;
        if (number == lacking || !make(&f->s, number))
            continue;
        if (f->s.protection && !f->s.order)
            alter_rows();
        offer();
    }
    status(f->s.resource, f->s.type);
    for (int k = 0; k < 3; k++)
        hand_some(&f->s, f->n);
    spoil_slot(f);
}

/* several files collected in one record, in any order and with much between; then completed, and closed */
static void collecting(void)
{
    size_t need = 0;
    sending = 1 + below(5);
    for (unsigned i = 0; i < sending; i++) {
        send_some(i);
        need += sent[i].packets * (sent[i].s.size + 2u);
    }
    fresh(one_in(8) ? need - 1 : need + below(600));
    for (unsigned i = 0; i < sending; i++)
        open_by(naming_of(&sent[i].s), &sent[i].s, sent[i].packets);
    if (one_in(3))
        open_more();
    for (unsigned k = 0; k < 8 * sending; k++)
        some_step();
    for (unsigned i = 0; i < sending; i++)
        if (bh_number(status(sent[i].s.resource, sent[i].s.type)) == BH_ACCEPTED)
            complete(&sent[i]);
    for (unsigned i = 0; i < sending; i++)
        if (one_in(2)) {
            close_place(sent[i].s.resource, one_in(8) ? byte() : sent[i].s.type);
            offer_some(&sent[i], 0);
            open_by(naming_of(&sent[i].s), &sent[i].s, sent[i].packets);
        }
}

/* ---- files in column order, with losses */

/* the bytes that the row with most losses lacks: those of empty slots; 17 for more than sixteen */
static unsigned most_lacking(const struct sent *f)
{
    size_t m = f->s.rows, all = m * ((f->n + BH_ROW_INFO * m - 1) / (BH_ROW_INFO * m));
    unsigned most = 0;
    for (size_t row = 0; row < all; row++) {
        unsigned lacks = 0;
        for (size_t c = 0; c < BH_ROW; c++)
            lacks += length_at(slot_of(&f->s, (uint32_t)((row / m * BH_ROW * m + c * m + row % m) / f->s.size))) == 0;
        most = lacks > most ? lacks : most;
    }
    return most < 17 ? most : 17;
}

/* so many slots made empty, of any table or of one, apart or side by side; what they held stays in some */
static void lose(const struct sent *f, unsigned lost)
{
    unsigned from = below(f->packets), way = below(3), table = (unsigned)BH_ROW * f->s.rows / f->s.size + 1;
    for (unsigned k = 0; k < lost; k++) {
        unsigned number = way == 0 ? below(f->packets) : way == 1 ? (from + k) % f->packets : (from + below(table)) % f->packets;
        uint8_t *slot = slot_of(&f->s, number);
        slot[0] = slot[1] = 0;
        if (one_in(2))
            memset(slot + 2, byte(), f->s.size);
    }
}

/* handed out with some packets lost, and now and then with a byte or a length wrong, at its length or at another */
static void hand_with_losses(const struct sent *f)
{
    unsigned columns = below(18), number = below(f->packets);
    lose(f, (columns * f->s.rows + f->s.size / 2) / f->s.size);
    uint8_t *slot = slot_of(&f->s, number);
    unsigned at = below(f->s.size);
    if (one_in(6))
        slot[2 + at] ^= (uint8_t)(1 + below(255));
    if (one_in(24) && length_at(slot) > 0)
        slot[0] ^= (uint8_t)(1 + below(3));
    unsigned most = most_lacking(f);
    uint64_t before = lines[HAND_OUT].by[0];
    if (one_in(4)) {
        hand_some(&f->s, f->n);
    } else {
        lend_filled(&out, f->n + below(3));
        hand_out(f->s.resource, f->s.type, f->n);
    }
    files_asked[most]++;
    files_restored[most] += lines[HAND_OUT].by[0] - before;
}

/* a file in column order of so many rows and such a size, its packets offered in any order, some never; then losses, in many ways */
static void columns_of(uint8_t m, uint16_t size, size_t tables, int turns)
{
    static uint8_t kept[STORE_ROOM];
    struct settings s = {.resource = 7, .type = 1, .update = (uint8_t)below(16), .protection = 1, .rows = m, .size = size, .order = BH_COLUMN_ORDER};
    struct sent *f = &sent[0];
    s.edition = (uint16_t)(1 + below(2));
    size_t n = BH_ROW_INFO * (size_t)m * (tables - 1) + 1 + below(BH_ROW_INFO * (size_t)m);
    send_file(f, s, n);
    fresh(f->packets * (size + 2u) + below(5));
    open_by(NAMED, &s, f->packets);
    int some = one_in(3);
    for (uint32_t k = 0, from = below(f->packets); k < f->packets; k++) {
        if ((some && one_in(100)) || !make(&s, (from + k) % f->packets))
            continue;
        if (some && one_in(50))
            damage();
        offer();
    }
    memcpy(kept, store.at, store.n);
    for (int turn = 0; turn < turns; turn++) {
        hand_with_losses(f);
        if (one_in(4))
            status(s.resource, s.type);
        memcpy(store.at, kept, store.n);
    }
}

static void columns(void)
{
    static const uint8_t rows_of[] = {1, 2, 3, 4, 7, 8, 16, 32};
    for (int k = 0; k < 40; k++) {
        uint8_t m = OF(rows_of);
        unsigned way = below(4), size = way == 0 ? m : way == 1 ? m * (1 + below(8)) : 1 + below(m * 4u);
        size_t tables = 1 + below(m < 4 ? 3 : 1);
        columns_of(m, (uint16_t)(tables > 1 && size < m ? m : size < 3 && m > 1 ? 2 : size), tables, 24);
    }
    columns_of(255, BH_LARGEST_PAYLOAD, 1, 12);
    columns_of(255, 255 * 8, 1, 12);
}

/* ---- description files */

static const char *const texts[] = {"", "n", "report.txt", "a title of some words", ".\\a\\b", "\xC3\xA9", "\xE6\x96\x87\xE4\xBB\xB6",
                                    "\xF0\x90\x80\x80 and more", "01:9000"};
static const char *const wrong[] = {"\xC0\x80", "\xED\xA0\x80", "\xF4\x90\x80\x80", "\xFF", "\r", "\n", "00", "-1", " ", ":", "18446744073709551617",
                                    "\n07:"};
/* the first five are real or none */
static const uint16_t dates[][6] = {{0, 0, 0, 0, 0, 0}, {1, 1, 1, 0, 0, 0}, {2000, 2, 29, 23, 59, 59}, {2026, 4, 30, 12, 34, 56}, {9999, 12, 31, 23, 59, 59},
                                    {1900, 2, 29, 0, 0, 0}, {2026, 4, 31, 0, 0, 0}, {2026, 1, 1, 0, 0, 60}};
static uint64_t values[NUMBERS_ROOM];

static void put_date(uint64_t *to)
{
    const uint16_t *d = dates[below(one_in(16) ? 8 : 5)];
    for (int i = 0; i < 6; i++)
        to[i] = d[i];
}

/* texts in `packet`, and the values of a description that mostly can be written of them */
static void new_values(void)
{
    static const uint8_t part_of[] = {BH_D_NAME_AT, BH_D_TITLE_AT, BH_D_SUMMARY_AT, BH_D_KEYWORDS_AT, BH_D_PATH_AT};
    unsigned mode = below(4) > 0, kind = mode ? (one_in(2) ? 21 : below(5)) : 128 + below(4);
    size_t n = 0;
    for (unsigned i = 0; i < sizeof part_of; i++) {
        const char *t = one_in(64) ? OF(wrong) : i == 0 ? texts[1 + below(8)] : OF(texts);
        values[part_of[i]] = n;
        values[part_of[i] + 1] = strlen(t);
        memcpy(packet.at + n, t, strlen(t));
        n += strlen(t);
    }
    lend(&packet, n);
    values[BH_D_SERVICE] = 9000 + below(1000);
    values[BH_D_MODE] = mode;
    values[BH_D_RESOURCE] = 1 + below(65535);
    values[BH_D_UPDATE] = below(16);
    values[BH_D_KIND] = one_in(16) ? below(200) : kind;
    values[BH_D_CHARSET] = kind == 21 ? below(5) : BH_NO_CHARSET;
    values[BH_D_FILE_LENGTH] = mode ? 1 + below(BH_LARGEST_FILE) : 0;
    put_date(values + BH_D_START_YEAR);
    put_date(values + BH_D_END_YEAR);
    if (below(4) > 0)
        memcpy(values + BH_D_END_YEAR, values + BH_D_START_YEAR, 6 * sizeof *values);
    values[BH_D_DELETE] = below(2);
}

static uint64_t write_description(size_t n)
{
    lend(&numbers, n * sizeof *values);
    memcpy(numbers.at, values, numbers.n);
    return tell(DESCRIBE, bh_write_description((const uint64_t *)(void *)given(&numbers), n, given(&packet), packet.n, given(&out), out.n));
}

static uint64_t read_description(size_t room)
{
    lend_filled(&numbers, room * sizeof *values);
    return tell(DESCRIBED, bh_read_description(given(&packet), packet.n, (uint64_t *)(void *)given(&numbers), room));
}

static void alter_value(void)
{
    static const uint64_t edges[] = {0, 1, 2, 5, 16, 21, 24, 60, 255, 8999, 10000, 65536, BH_LARGEST_FILE + 1, UINT64_MAX};
    unsigned i = below(BH_DESCRIPTION_VALUES);
    values[i] = one_in(2) ? OF(edges) : one_in(2) ? values[i] + 1 : values[i] - 1;
}

/* the text with some of its bytes taken out and others put there */
static void exchange(size_t at, size_t left, const char *p)
{
    size_t n = strlen(p);
    memmove(packet.at + at + n, packet.at + at + left, packet.n - at - left);
    memcpy(packet.at + at, p, n);
    lend(&packet, packet.n - left + n);
}

/* a byte altered or taken out, something put between, a line feed with CR before it, or bytes behind the end */
static void alter_text(void)
{
    unsigned way = below(6), at = below(packet.n);
    const char *p = OF(wrong);
    const uint8_t *end = memchr(packet.at + at, '\n', packet.n - at);
    if (way == 0)
        packet.at[at] = byte();
    else if (way < 3)
        exchange(at, 1, way == 1 ? "" : p);
    else if (way == 3)
        exchange(at, 0, p);
    else if (way == 4 && end != NULL)
        exchange((size_t)(end - packet.at), 0, "\r");
    else
        exchange(packet.n, 0, p);
}

/* written, read as it was written, and read with something altered */
static void descriptions(void)
{
    for (int k = 0; k < 1600; k++) {
        new_values();
        for (unsigned more = below(3); more > 0; more--)
            alter_value();
        lend_filled(&out, one_in(8) ? below(200) : 400);
        uint64_t a = write_description(one_in(32) ? below(NUMBERS_ROOM) : BH_DESCRIPTION_VALUES);
        if (bh_number(a) != BH_ACCEPTED || bh_value(a) > out.n)
            continue;
        lend(&packet, (size_t)bh_value(a));
        memcpy(packet.at, out.at, packet.n);
        read_description(one_in(8) ? below(BH_DESCRIPTION_VALUES) : BH_DESCRIPTION_VALUES + below(4));
        for (int turn = 0; turn < 2; turn++) {
            alter_text();
            read_description(BH_DESCRIPTION_VALUES);
        }
    }
}

int main(void)
{
    for (unsigned f = 0; f <= ALL; f++)
        lines[f].digest = 14695981039346656037u;
    rows();
    crcs();
    reading();
    packing();
    large_files();
    for (int k = 0; k < 160; k++)
        collecting();
    columns();
    descriptions();
    for (unsigned f = 0; f < ALL; f++)
        print_line((enum function)f);
    print_counts("rows with 0 to 12 bytes altered", altered_rows, 13);
    print_counts("rows of which 0 to 8 bytes were mended", mended_rows, 9);
    printf("packets with altered rows: %lu; accepted and mended: %lu, %lu bytes; repeats: %lu\n", altered_packets, mended_packets, mended_bytes, repeats);
    print_counts("files by columns of which some row lacked 0 to 16 bytes or more", files_asked, 18);
    print_counts("of these handed out", files_restored, 18);
    print_line(ALL);
    return 0;
}
