/*
 * Calls of the library, chosen by bytes. The same bytes make the same calls, whether a fuzzer or the random driver below chose them.
 *
 * Every lent part ends at a page that nobody may touch and has known bytes before it. After each call: the answer's number is one that the
 * call may give; a refusal has changed nothing; what an accepted call may not touch is as it was; what it says it has mended is what
 * differs from what came; a packet in the two editions differs in its spare bits and its CRC alone, and only in its own edition does a
 * place take one; Wide is told exactly where the payload is longer than its place's slots; Rows is passed over exactly where a place in
 * column order has the packet's resource and type; what a column place hands out is the file that was packed as long as no row lacks more
 * than sixteen bytes, and what it refuses is what its slots show; and a call about one type has left status and file of the other type
 * under that resource. With a transcript open, each call is written in the language of reference/README.md with what was answered, for
 * the second program to check.
 */
#include "lent.h"

#include <inttypes.h>
#include <stdlib.h>
#include <string.h>
#include <time.h>

/* ---- the settings */

struct settings {
    uint16_t resource;
    uint8_t type, update, protection, rows;
    uint16_t size, edition, order;
} now;

enum order { IN_ROWS, IN_COLUMNS };

/* how a call comes to its edition and order, and what stands behind its name for it */
enum naming { HOUSE, UNNAMED, NAMED };
static const char *const behind[] = {"-house", "", "-as"};

static enum naming some_naming(void)
{
    unsigned way = pick() % 8;
    return way == 0 ? HOUSE : way < 3 ? UNNAMED : NAMED;
}

/* the edition that such a call means */
static unsigned edition_of(enum naming how)
{
    return how == NAMED ? now.edition : 2;
}

/* the order that such a call means */
static unsigned order_of(enum naming how)
{
    return how == NAMED ? now.order : IN_ROWS;
}

/* columns are those of a coded table */
static int is_order(unsigned order, unsigned protection)
{
    return order == IN_ROWS || (order == IN_COLUMNS && protection == 1);
}

/* the sizes that such an order has */
static int is_size(unsigned size, unsigned order, unsigned protection)
{
    if (protection == 1 && order == IN_ROWS)
        return size >= 255 && size <= 3825 && size % 255 == 0;
    return size >= 1 && size <= BH_LARGEST_PAYLOAD;
}

static int is_edition(unsigned edition)
{
    return edition == 1 || edition == 2;
}

static unsigned other_type(void)
{
    return now.type == 1 ? 2 : 1;
}

static void say_settings(void)
{
    SAY("settings %u %u %u %u %u %u\nedition %u\norder %u\n", now.resource, now.type, now.update, now.protection, now.rows, now.size, now.edition, now.order);
}

/* mostly one of the two; else one beside them, also in the upper byte, or any number */
static uint16_t some_edition(void)
{
    unsigned way = pick();
    return (uint16_t)(way < 4 ? wide() : way < 8 ? way % 4 : way < 12 ? 256 + way % 4 : 1 + way % 2);
}

/* mostly one that the protection allows; else one beside them, also in the upper byte, or any number */
static uint16_t some_order(void)
{
    unsigned way = pick();
    return (uint16_t)(way < 4 ? wide() : way < 8 ? 1 + way % 2 : way < 12 ? 255 + way % 4 : now.protection ? way % 2 : 0);
}

/* a size for what is sent under these settings: whole rows, or any number of bytes, mostly some columns */
static uint16_t some_size(void)
{
    if (now.protection && now.order != IN_COLUMNS)
        return (uint16_t)(255 * (1 + pick() % 3));
    if (!now.protection)
        return (uint16_t)(1 + pick());
    unsigned way = pick();
    return (uint16_t)(way % 8 == 0 ? 1 + wide() % BH_LARGEST_PAYLOAD : way % 8 == 1 ? 255 : 1 + now.rows * (way / 8 % 17) + pick() % 2);
}

static void choose_settings(void)
{
    unsigned way = pick();
    now.resource = (uint16_t)(way % 32 == 31 ? wide() : way % 5);
    now.type = (uint8_t)(pick() % 16 == 0 ? pick() : 1 + way / 8 % 2);
    now.update = (uint8_t)(pick() % 16 == 0 ? pick() : way % 3);
    now.protection = (uint8_t)(pick() % 16 == 0 ? pick() : way / 16 % 2);
    now.rows = (uint8_t)(pick() % 8 == 0 ? pick() : 1 + way % 3);
    now.order = some_order();
    /* now and then at the largest there is, or anything */
    unsigned odd = pick() % 16;
    now.size = (uint16_t)(odd == 0 ? wide() : odd == 1 ? BH_LARGEST_PAYLOAD - 1 + pick() % 3 : some_size());
    now.edition = some_edition();
    say_settings();
}

/* one of them another: a packet of another update, size, shape, edition or order for the same resource */
static void vary_settings(void)
{
    unsigned way = pick() % 8;
    now.update = (uint8_t)(way == 0 ? pick() % 16 : now.update);
    now.rows = (uint8_t)(way == 1 ? pick() % 4 : now.rows);
    now.size = (uint16_t)(way == 2 ? (now.protection && now.order != IN_COLUMNS ? 255 * (pick() % 16) : pick()) : now.size);
    now.resource = (uint16_t)(way == 3 ? pick() % 10 : now.resource);
    now.type = (uint8_t)(way == 4 ? (pick() % 4 ? other_type() : pick() % 4) : now.type);
    now.protection = (uint8_t)(way == 5 ? pick() % 3 : now.protection);
    now.edition = way == 6 ? some_edition() : now.edition;
    now.order = way == 7 ? some_order() : now.order;
    say_settings();
}

/* a type to ask for: mostly that of the settings, else the other one or any */
static uint8_t some_type(void)
{
    unsigned way = pick() % 16;
    return (uint8_t)(way == 0 ? pick() : way == 1 ? pick() % 4 : way < 5 ? other_type() : now.type);
}

/* ---- answers about a resource's two types, before a call and after it */

struct answers {
    uint64_t status, hand;
    uint8_t file[STORE_ROOM];
};
static struct answers earlier[2], later;
static uint16_t asked;

static size_t little(const uint8_t *p, int n)
{
    size_t v = 0;
    while (n-- > 0)
        v = v << 8 | p[n];
    return v;
}

/* the place of a resource and a type that a good record holds */
static struct bh_place place_of(size_t resource, unsigned type)
{
    unsigned i = 0;
    while (i < BH_PLACES && (bh_place_at(record.at, i).resource != resource || bh_place_at(record.at, i).type != type))
        i++;
    if (i == BH_PLACES)
        fail("accepted, and no place has this resource and type");
    return bh_place_at(record.at, i);
}

static const uint8_t *slot_of(struct bh_place p, size_t k)
{
    return store.at + p.start + k * (p.slot + 2u);
}

/* only a record of its length is taken in which each place in use has an edition, and an order that its protection allows */
static void judge_record(uint64_t a)
{
    if (bh_number(a) == BH_RECORD_BAD)
        return;
    if (record.n != BH_RECORD)
        fail("a record of another length was taken");
    for (unsigned i = 0; i < BH_PLACES; i++)
        if (bh_place_at(record.at, i).resource != 0 && !is_edition(bh_place_at(record.at, i).edition))
            fail("a place in use has no edition, and the record was taken");
        else if (bh_place_at(record.at, i).resource != 0 && !is_order(bh_place_at(record.at, i).order, bh_place_at(record.at, i).protection))
            fail("a place in use has no order, or columns without protection, and the record was taken");
}

/* the length at which this place's file is handed out with every slot filled: all that came, or all of its tables; by columns as many tables as
 * the count gives */
static uint64_t length_in_place(uint16_t resource, uint8_t type)
{
    struct bh_place p = place_of(resource, type);
    size_t sum = 0;
    if (p.order == IN_COLUMNS)
        return 239 * (uint64_t)p.rows * ((uint64_t)p.count * p.slot / (255u * p.rows));
    for (size_t k = 0; k < p.count; k++)
        sum += little(slot_of(p, k), 2);
    return p.protection ? sum / 255 * 239 : sum;
}

static void ask(struct answers *a, uint8_t type)
{
    memset(a, 0, sizeof *a);
    a->status = bh_status(record.at, record.n, store.at, store.n, asked, type);
    if (bh_number(a->status) == 0)
        a->hand = bh_hand_out(record.at, record.n, store.at, store.n, asked, type, length_in_place(asked, type), a->file, sizeof a->file);
}

static void ask_before(size_t resource)
{
    asked = (uint16_t)resource;
    ask(&earlier[0], 1);
    ask(&earlier[1], 2);
}

/* the call was about `type`; what is told of the other one, or of both where a place has no such type, is what was told before */
static void ask_after(unsigned type)
{
    for (uint8_t other = 1; other <= 2; other++)
        if (other != type) {
            ask(&later, other);
            if (memcmp(&later, &earlier[other - 1], sizeof later) != 0)
                fail("an answer about the other type changed");
        }
}

/* the number of the named type's status after a call */
static unsigned stands(uint8_t type)
{
    return bh_number(bh_status(record.at, record.n, store.at, store.n, asked, type));
}

/* ---- the calls */

/* what the settings' file needs */
static uint32_t packets(void)
{
    size_t p = now.size ? now.size : 1, m = now.rows ? now.rows : 1;
    size_t coded = now.protection ? 255 * m * ((file.n + 239 * m - 1) / (239 * m)) : file.n;
    return (uint32_t)((coded + p - 1) / p);
}

static void new_file(void)
{
    uint32_t x = pick(), length = pick() % 8 == 0 ? wide() % FILE_ROOM : pick() * 4u;
    size_of(&file, length);
    file_seed = x;
    say_file();
    for (size_t i = 0; i < length; i++) {
        x = x * 1664525 + 1013904223;
        file.at[i] = (uint8_t)(x >> 24);
    }
}

static void new_store(void)
{
    unsigned fill = pick(), length = pick() % 4 == 0 ? wide() % STORE_ROOM : STORE_ROOM;
    SAY("store %u %u\n", fill, length);
    size_of(&store, length);
    memset(store.at, (int)fill, length);
    size_of(&record, BH_RECORD);
    memset(record.at, 0, BH_RECORD);
    say_record();
}

static void fill_out(unsigned fill, size_t length)
{
    SAY("out %u %zu\n", fill, length);
    size_of(&out, length);
    memset(out.at, (int)fill, length);
}

static void new_out(void)
{
    unsigned fill = pick(), way = pick();
    fill_out(fill, way % 8 == 0 ? wide() % OUT_ROOM : way % 8 == 1 ? 255 : way % 8 == 2 ? pick() : way % 8 == 3 ? file.n : 4095);
}

static uint64_t open_by(enum naming how, uint32_t count)
{
    if (how == HOUSE)
        return bh_open_house(record.at, record.n, store.at, store.n, now.resource, now.type, now.update, count);
    if (how == UNNAMED)
        return bh_open(record.at, record.n, store.at, store.n, now.resource, now.type, now.update, count, now.protection, now.rows, now.size);
    return bh_open_as(record.at, record.n, store.at, store.n, now.resource, now.type, now.update, count, now.protection, now.rows, now.size, now.edition,
                      now.order);
}

/* the place holds the edition and the order that were meant, which are some, and M 0 without protection */
static void judge_opened(enum naming how)
{
    struct bh_place p = place_of(now.resource, now.type);
    if (p.edition != edition_of(how) || !is_edition(p.edition))
        fail("opened in another edition than was meant");
    if (p.order != order_of(how) || !is_order(p.order, p.protection))
        fail("opened in another order than was meant");
    if (!is_size(p.slot, p.order, p.protection))
        fail("opened with slots that the order does not have");
    if (p.protection == 0 && p.rows != 0)
        fail("an unprotected place holds rows");
}

/* a call that names no edition and no order has done what edition 2 and rows, named, do */
static void judge_unnamed_opening(uint64_t a, enum naming how, uint32_t count)
{
    static uint8_t again[OUT_ROOM], slots[OUT_ROOM];
    int house = how == HOUSE;
    memcpy(again, record.copy, record.n);
    memcpy(slots, store.copy, store.n);
    uint64_t b = bh_open_as(again, record.n, slots, store.n, now.resource, now.type, now.update, count, house ? 1 : now.protection, house ? BH_HOUSE_ROWS : now.rows,
                            house ? BH_HOUSE_SIZE : now.size, 2, IN_ROWS);
    if (a != b || memcmp(again, record.at, record.n) != 0 || memcmp(slots, store.at, store.n) != 0)
        fail("opening without edition and order is not opening in edition 2 by rows");
}

static void open_by_name(enum naming how, uint32_t count)
{
    ask_before(now.resource);
    keep_all();
    SAY("open%s %" PRIu32 "\n", behind[how], count);
    uint64_t a = open_by(how, count);
    judge(a, may(bh_number(a), 17, 20, "\x09"), 0, 1, 1);
    judge_record(a);
    ask_after(now.type);
    if (bh_number(a) == 0)
        judge_opened(how);
    if (how != NAMED)
        judge_unnamed_opening(a, how, count);
    if (bh_number(a) == 0 && bh_status(record.at, record.n, store.at, store.n, now.resource, now.type) != (uint64_t)256 << 24)
        fail("what was opened is not empty");
    if (bh_number(a) == BH_HELD && stands(now.type) == BH_UNKNOWN)
        fail("held by another type");
}

static void open_count(uint32_t count)
{
    open_by_name(some_naming(), count);
}

static void open_place(void)
{
    open_count(number_of(packets()));
}

/* the other type under the same resource, as it is or with one setting another */
static void open_beside(void)
{
    now.type = (uint8_t)other_type();
    say_settings();
    if (pick() % 2)
        vary_settings();
    open_place();
}

static uint64_t pack_by(enum naming how, unsigned edition, unsigned order, uint32_t n, uint8_t *to)
{
    if (how == HOUSE)
        return bh_pack_house(file.at, file.n, now.resource, now.type, now.update, n, to, out.n);
    if (how == UNNAMED)
        return bh_pack(file.at, file.n, now.resource, now.type, now.update, now.protection, now.rows, now.size, n, to, out.n);
    return bh_pack_as(file.at, file.n, now.resource, now.type, now.update, now.protection, now.rows, now.size, (uint16_t)edition, (uint16_t)order, n, to,
                      out.n);
}

/* the numbers of a packet whose fields have to be taken */
struct fields {
    uint32_t resource, number, update, length, count, type, protection, rows, reserved, edition;
};

static struct fields read_packet(const uint8_t *p, size_t n)
{
    struct fields f;
    uint32_t told[BH_FIELDS];
    if (bh_read_header(p, n, told, BH_FIELDS) != 0)
        fail("the header of a packet that was packed, or judged by a place, is refused");
    memcpy(&f, told, sizeof f);
    return f;
}

/* a packet of n bytes in both editions: its spare bits are all one in the one, all zero in the other, and only the CRC differs beside them */
static void judge_twins(const uint8_t *one, const uint8_t *two, size_t n)
{
    unsigned spare = now.protection ? 0x00F : 0xFFF, ones = one[12] << 8 | one[13], zeros = two[12] << 8 | two[13];
    if (memcmp(one, two, 12) != 0 || ones - zeros != spare || (zeros & spare) != 0 || memcmp(one + 14, two + 14, n - 18) != 0)
        fail("two editions differ in other than the spare bits and the CRC");
    if (read_packet(one, n).edition != 1 || read_packet(two, n).edition != 2)
        fail("a packet is not of the edition in which it was packed");
    for (int which = 0; which < 2; which++) {
        const uint8_t *p = which ? two : one;
        if (bh_crc32(p, n - 4) != ((uint32_t)p[n - 4] << 24 | (uint32_t)p[n - 3] << 16 | (uint32_t)p[n - 2] << 8 | p[n - 1]))
            fail("packed with a wrong CRC");
    }
}

/* the checks of row r of table t of the file, and behind its information bytes */
static void coded_row_of(size_t t, size_t r, uint8_t *row)
{
    size_t m = now.rows;
    for (size_t c = 0; c < BH_ROW_INFO; c++) {
        size_t i = t * BH_ROW_INFO * m + c * m + r;
        row[c] = i < file.n ? file.at[i] : 0;
    }
    bh_encode_row(row, BH_ROW_INFO, row + BH_ROW_INFO, BH_ROW_CHECKS);
}

/* a packet in column order: sent byte i is of table i / (255 M), there of row j mod M and column j div M; every payload is full but the last, whose rest
 * is what 255 M T leaves */
static void judge_columns(const uint8_t *p, size_t n)
{
    struct fields f = read_packet(p, n);
    uint8_t row[BH_ROW];
    size_t m = now.rows, all = BH_ROW * m * ((file.n + BH_ROW_INFO * m - 1) / (BH_ROW_INFO * m)), from = (size_t)f.number * now.size;
    if (f.rows != m || f.protection != 1 || f.count != (all + now.size - 1) / now.size || n - 18 != (all - from < now.size ? all - from : now.size))
        fail("a column packet of another shape than its file has");
    /* rows are encoded at a handful of bytes, the file's own are looked at everywhere */
    for (size_t i = from; i < from + n - 18; i++) {
        size_t t = i / (BH_ROW * m), j = i % (BH_ROW * m), at = t * BH_ROW_INFO * m + j;
        if (j < BH_ROW_INFO * m) {
            if (p[14 + i - from] != (at < file.n ? file.at[at] : 0))
                fail("an information byte stands in the wrong column");
        } else if (i == from + n - 19 || i % 64 == 0) {
            coded_row_of(t, j % m, row);
            if (p[14 + i - from] != row[j / m])
                fail("a check stands in the wrong column");
        }
    }
}

/* what was answered, and stands in the output, beside the same packet in each edition by name */
static void judge_packed(uint64_t a, enum naming how, uint32_t n)
{
    static uint8_t twins[2][OUT_ROOM];
    struct settings kept = now;
    if (how == HOUSE)
        now.protection = 1, now.rows = BH_HOUSE_ROWS, now.size = BH_HOUSE_SIZE;
    unsigned edition = edition_of(how), order = order_of(how);
    uint64_t one = pack_by(NAMED, 1, order, n, twins[0]), two = pack_by(NAMED, 2, order, n, twins[1]);
    if (one != two || a != (is_edition(edition) ? one : BH_FIELD))
        fail("an edition changes more of an answer than it may");
    if (bh_number(one) == 0)
        judge_twins(twins[0], twins[1], (size_t)bh_value(one));
    if (!is_order(order, now.protection) && bh_number(a) != BH_FIELD)
        fail("packed in no order, or in columns without protection");
    if (!is_size(now.size, order, now.protection) && bh_number(a) != BH_FIELD)
        fail("packed in a size that the order does not have");
    if (bh_number(one) == 0 && order == IN_COLUMNS)
        judge_columns(twins[0], (size_t)bh_value(one));
    if (bh_number(a) == 0 && memcmp(out.at, twins[edition - 1], (size_t)bh_value(a)) != 0)
        fail("packed in another edition than was meant");
    now = kept;
}

/* packet n of the file in packet; 0 where that is refused */
static int pack_number(enum naming how, uint32_t n)
{
    keep_all();
    SAY("pack%s %" PRIu32 "\n", behind[how], n);
    uint64_t a = pack_by(how, now.edition, now.order, n, out.at);
    judge(a, may(bh_number(a), 25, 26, "\x06\x11\x17"), (size_t)bh_value(a), 0, 0);
    judge_packed(a, how, n);
    if (bh_number(a) != 0)
        return 0;
    size_of(&packet, (size_t)bh_value(a));
    memcpy(packet.at, out.at, packet.n);
    return 1;
}

static void pack_one(void)
{
    uint32_t n = number_of(packets() ? wide() % packets() : 0);
    pack_number(some_naming(), n);
}

static void seal(void)
{
    uint32_t crc = bh_crc32(packet.at, packet.n - 4);
    for (int b = 0; b < 4; b++)
        packet.at[packet.n - 4 + (size_t)b] = (uint8_t)(crc >> (24 - 8 * b));
}

/* each row of the payload at a number of places of its own, all of which can be mended as a rule */
static void spoil_rows(void)
{
    for (size_t at = BH_HEADER; at + BH_ROW + BH_CRC <= packet.n; at += BH_ROW) {
        unsigned way = pick();
        for (unsigned k = way < 4 ? 12 : way % 9; k > 0; k--)
            packet.at[at + pick() % BH_ROW] ^= (uint8_t)pick();
    }
}

/* the spare bits: all of them without protection, M alone, the reserved ones, or some of these; mostly under a CRC that agrees */
static void spoil_spare(void)
{
    static const uint16_t flips[8] = {0xFFF, 0xFFF, 0xFF0, 0x00F, 0x00F, 0x001, 0x008, 0x070};
    unsigned which = flips[pick() % 8];
    packet.at[12] ^= (uint8_t)(which >> 8);
    packet.at[13] ^= (uint8_t)which;
    if (pick() % 4)
        seal();
}

static void into_stream(void)
{
    packet.at[9] &= 0xF0, packet.at[10] = packet.at[11] = 0, packet.at[12] &= 0x3F;
}

/* a byte more of payload, with protection and in row order a row; and so more than a slot of its place holds, where the packet was a full one */
static void widen(void)
{
    static uint8_t held[BH_LARGEST_PACKET];
    size_t n = packet.n + (now.protection && now.order != IN_COLUMNS ? BH_ROW : 1);
    if (n > BH_LARGEST_PACKET)
        return;
    memset(held, 0, sizeof held);
    memcpy(held, packet.at, packet.n);
    size_of(&packet, n);
    memcpy(packet.at, held, n);
    packet.at[8] = (uint8_t)(n >> 4);
    packet.at[9] = (uint8_t)(n << 4 | (packet.at[9] & 15));
    seal();
}

/* wrong bytes anywhere or in each row, cut or longer packets, the other type, a stream, other spare bits, or arbitrary bytes with a start mark or without */
static void spoil(void)
{
    unsigned way = pick() % 9;
    if (way == 0) {
        size_t n = pick() % 4 == 0 ? wide() % PACKET_ROOM : pick();
        size_of(&packet, n);
        for (size_t i = 0; i < n; i++)
            packet.at[i] = (uint8_t)pick();
        for (size_t i = 0; i < 3 && i < n && pick() % 4; i++)
            packet.at[i] = (uint8_t)(0x49 + 0x10 * i);
    } else if (way == 1 && packet.n > 0) {
        static uint8_t held[PACKET_ROOM];
        size_t n = packet.n - pick() % packet.n % 3;
        memcpy(held, packet.at, n);
        size_of(&packet, n);
        memcpy(packet.at, held, n);
    } else if (way == 7) {
        spoil_rows();
    } else if (packet.n > 18) {
        for (unsigned k = pick() % 12; k > 0; k--)
            packet.at[14 + wide() % (packet.n - 18)] ^= (uint8_t)pick();
        if (way == 2)
            packet.at[pick() % 14] ^= (uint8_t)(1 << pick() % 8);
        if (way == 4)
            packet.at[12] ^= 0xC0;
        if (way == 5)
            into_stream();
        if (way >= 2 && way <= 5)
            seal();
        if (way == 8)
            spoil_spare();
    }
}

/* at how many of n places they differ */
static size_t apart(const uint8_t *a, const uint8_t *b, size_t n)
{
    size_t differ = 0;
    for (size_t i = 0; i < n; i++)
        differ += a[i] != b[i];
    return differ;
}

/* the rows of an offered packet; 0 without protection */
static size_t rows_offered(void)
{
    return packet.n >= BH_SMALLEST_PACKET && (packet.at[12] >> 4 & 3) == 1 ? (packet.n - 18) / BH_ROW : 0;
}

/* the first row of an offered packet that no call can repair; the number of its rows where there is none */
static size_t first_beyond(void)
{
    uint8_t fixed[BH_ROW];
    size_t k = 0;
    while (k < rows_offered() && bh_number(bh_repair_row(packet.at + BH_HEADER + BH_ROW * k, BH_ROW, fixed, sizeof fixed)) == 0)
        k++;
    return k;
}

/* Rows is told exactly where the payload of a protected packet, of which nothing before it is wrong, is no whole rows, and no place in column order has
 * its resource and type */
static void judge_rows(uint64_t a)
{
    uint32_t told[BH_FIELDS];
    unsigned number = bh_number(bh_read_fields(packet.at, packet.n, told, BH_FIELDS)), headed = bh_number(bh_read_header(packet.at, packet.n, told, BH_FIELDS));
    if (bh_number(a) == BH_RECORD_BAD)
        return;
    int columns = 0;
    for (unsigned i = 0; i < BH_PLACES && packet.n >= BH_SMALLEST_PACKET; i++) {
        struct bh_place p = bh_place_at(record.at, i);
        columns |= p.order == IN_COLUMNS && p.resource != 0 && p.resource == (packet.at[3] << 8 | packet.at[4]) && p.type == packet.at[12] >> 6;
    }
    unsigned first = columns ? headed : number;
    if (first != 0 ? a != first : (bh_number(a) != 0 && bh_number(a) < BH_UNKNOWN))
        fail("an offer does not stop where reading its fields stops");
}

/* an offer that was judged by a place: 12 exactly where the payload is longer than its slots, 33 before it where the packet is not of its edition, and 11
 * before both */
static void judge_fit(uint64_t a)
{
    struct fields f = read_packet(packet.at, packet.n);
    struct bh_place p = place_of(f.resource, f.type);
    int other = f.update != p.update || f.count != p.count || f.protection != p.protection || (f.protection == 1 && f.rows != p.rows);
    if (other != (bh_number(a) == BH_OTHER))
        fail("11 where nothing is other, or another answer where something is");
    if (!other && (f.edition != p.edition) != (bh_number(a) == BH_EDITION))
        fail("a place took another edition than its own, or refused its own");
    if (!other && f.edition == p.edition && (packet.n - 18 > p.slot) != (bh_number(a) == BH_WIDE))
        fail("12 where the payload fits its slot, or another answer where it does not");
    if (p.order == IN_COLUMNS && (bh_number(a) == BH_REPAIR || bh_mended(a) != 0))
        fail("something was repaired in column order");
}

/* at a column place that took the fields: 12, 14, 15 and 16 in this order, by what the packet and the slot before it show */
static void judge_column_offer(uint64_t a)
{
    struct fields f = read_packet(packet.at, packet.n);
    struct bh_place p = place_of(f.resource, f.type);
    if (p.order != IN_COLUMNS || bh_number(a) == BH_OTHER || bh_number(a) == BH_EDITION)
        return;
    const uint8_t *crc = packet.at + packet.n - 4, *slot = store.copy + p.start + f.number * (p.slot + 2u);
    size_t length = packet.n - 18, there = little(slot, 2);
    int agrees = bh_crc32(packet.at, packet.n - 4) == ((uint32_t)crc[0] << 24 | (uint32_t)crc[1] << 16 | (uint32_t)crc[2] << 8 | crc[3]);
    int alike = there == length && memcmp(slot + 2, packet.at + 14, length) == 0;
    uint64_t due = length > p.slot ? BH_WIDE : !agrees ? BH_CRC_BAD : there > p.slot ? BH_SLOT : alike ? 256 : there > 0 ? BH_CONFLICT : 0;
    if (a != due)
        fail("an offer in column order is answered by other than width, CRC and slot");
}

/* a refusal is no repeat, has mended nothing, and has no value but the row that 13 names */
static void judge_refused_offer(uint64_t a)
{
    if (bh_is_repeat(a) || bh_mended(a) != 0)
        fail("a refusal tells of a repeat, or that something was mended");
    if (bh_value(a) != (bh_number(a) == BH_REPAIR ? first_beyond() : 0))
        fail("a refusal has a value that it does not name");
}

/* the slot holds the packet's payload but for as many bytes as were mended; it did before if this is a repeat, and was empty if not */
static void judge_taken_offer(uint64_t a)
{
    size_t number = (size_t)packet.at[5] << 12 | (size_t)packet.at[6] << 4 | packet.at[7] >> 4, length = packet.n - 18;
    size_t mended = (size_t)bh_mended(a), repeat = bh_is_repeat(a) != 0;
    const uint8_t *slot = slot_of(place_of(asked, packet.at[12] >> 6), number);
    if (bh_value(a) != 2 * mended + repeat)
        fail("a value that is neither of Stored nor of Repeat");
    if (mended > 8 * rows_offered())
        fail("more mended than there can be");
    if (little(slot, 2) != length || apart(slot + 2, packet.at + BH_HEADER, length) != mended)
        fail("not so many bytes were mended in the packet");
    if (repeat)
        same(&store, 0, "a repeat changed the store");
    else if (little(store.copy + (slot - store.at), 2) != 0)
        fail("stored in a slot that was not empty");
}

static void offer_one(void)
{
    /* what the packet names; a shorter one names nothing */
    int names = packet.n > 12;
    unsigned type = names ? packet.at[12] >> 6 : 0;
    ask_before(names ? (size_t)packet.at[3] << 8 | packet.at[4] : now.resource);
    keep_all();
    say_bytes(&packet, "bytes");
    SAY("offer\n");
    uint64_t a = bh_offer(record.at, record.n, store.at, store.n, packet.at, packet.n);
    judge(a, may(bh_number(a), 1, 16, "\x21"), 0, 1, 0);
    judge_record(a);
    judge_rows(a);
    if (bh_number(a) == 0)
        judge_taken_offer(a);
    else
        judge_refused_offer(a);
    if (may(bh_number(a), BH_OTHER, BH_CONFLICT, "\x21")) {
        if (type != 1 && type != 2)
            fail("a packet of a type that no place has was judged by a place");
        judge_fit(a);
        judge_column_offer(a);
    }
    ask_after(type);
}

/* 1, 2 or 0 for neither, by the fields that were read */
static unsigned edition_told(const struct fields *f)
{
    if (f->reserved == 15 && (f->protection == 1 || f->rows == 255))
        return 1;
    return f->reserved == 0 && (f->protection == 1 || f->rows == 0) ? 2 : 0;
}

/* the two readers say the same but where the one says Rows: then the payload is no whole rows, and the other goes on to the resource and the room */
static void judge_readers(size_t room)
{
    uint32_t told[2][BH_FIELDS] = {{0}};
    uint64_t strict = bh_read_fields(packet.at, packet.n, told[0], room), header = bh_read_header(packet.at, packet.n, told[1], room);
    int no_rows = packet.n >= BH_SMALLEST_PACKET && (packet.n - 18) % BH_ROW != 0 && (packet.at[12] >> 4 & 3) == 1;
    if (bh_number(header) == BH_ROWS || (bh_number(strict) == BH_ROWS) != (no_rows && (header == 0 || header == BH_RESOURCE || header == BH_OUTPUT)))
        fail("Rows is told by the wrong reader, or of the wrong packet");
    if (bh_number(strict) != BH_ROWS && (strict != header || memcmp(told[0], told[1], sizeof told[0]) != 0))
        fail("the two readers differ");
    if (bh_number(strict) == BH_ROWS && header != 0 && header != (packet.at[3] == 0 && packet.at[4] == 0 ? BH_RESOURCE : BH_OUTPUT))
        fail("the reader of headers stops elsewhere behind Rows");
}

static void read_one(void)
{
    uint32_t fields[BH_FIELDS + 1], before[BH_FIELDS + 1];
    size_t room = pick() % 4 ? BH_FIELDS : pick() % 2 ? BH_FIELDS - 1 : pick() % BH_FIELDS;
    memset(fields, 0x5A, sizeof fields);
    memcpy(before, fields, sizeof fields);
    if (packet.n > 18 && pick() % 8 == 0)
        into_stream();
    if (packet.n > 18 && pick() % 4 == 0)
        spoil_spare();
    int header = pick() % 2;
    keep_all();
    say_bytes(&packet, "bytes");
    SAY("read%s %zu\n", header ? "-header" : "", room);
    uint64_t a = (header ? bh_read_header : bh_read_fields)(packet.at, packet.n, fields, room);
    if (bh_number(a) != 0 ? memcmp(fields, before, sizeof fields) != 0 : fields[BH_FIELDS] != before[BH_FIELDS])
        fail("a number beyond the fields changed");
    if (bh_number(a) == 0) {
        struct fields f = read_packet(packet.at, packet.n);
        if (room < BH_FIELDS || f.edition != edition_told(&f) || memcmp(&f, fields, sizeof f) != 0)
            fail("read into too little room, or an edition that the spare bits do not tell");
        for (size_t i = 0; i < 4 * BH_FIELDS && i < out.n; i++)
            out.at[i] = (uint8_t)(fields[i / 4] >> (24 - 8 * (i % 4)));
    }
    judge(a, may(bh_number(a), 1, 8, "\x1a"), out.n, 0, 0);
    judge_readers(room);
}

/* no place has another type than 1 and 2 */
static void only_unknown(uint64_t answer, uint8_t type)
{
    if (type != 1 && type != 2 && bh_number(answer) != BH_RECORD_BAD && bh_number(answer) != BH_UNKNOWN)
        fail("a type that no place has is known");
}

/* of a column place: its filled slots and the lowest empty one, or 15 where a slot says more than it holds */
static void judge_status(uint64_t a, uint16_t resource, uint8_t type)
{
    if (bh_number(a) == BH_RECORD_BAD || bh_number(a) == BH_UNKNOWN || place_of(resource, type).order != IN_COLUMNS)
        return;
    struct bh_place p = place_of(resource, type);
    uint64_t filled = 0, empty = 0, due = 0;
    for (uint32_t k = p.count; k-- > 0;) {
        size_t length = little(slot_of(p, k), 2);
        filled += length != 0;
        empty = length == 0 ? k + 1u : empty;
        due = length > p.slot ? BH_SLOT : due;
    }
    if (a != (due ? due : 256 * (filled | empty << 24)))
        fail("the status of a column place is other than its slots show");
}

static void status_one(void)
{
    uint16_t resource = (uint16_t)(pick() % 8 == 0 ? wide() : now.resource);
    uint8_t type = some_type();
    keep_all();
    SAY("status %u %u\n", resource, type);
    uint64_t a = bh_status(record.at, record.n, store.at, store.n, resource, type);
    judge(a, may(bh_number(a), 9, 10, "\x0f"), 0, 0, 0);
    judge_record(a);
    only_unknown(a, type);
    judge_status(a, resource, type);
}

/* the rows of a column place's file, what each lacks, and the lengths of its slots, beside the answer: 15, 23, 22 and 31 exactly as they show, and
 * with nothing lost in a file that the answer gives, its bytes are those of the slots. Answers whether it comes to 32, 24 or 26 */
static int judge_losses(uint64_t a, struct bh_place p, uint64_t length)
{
    uint64_t m = p.rows, tables = (length + BH_ROW_INFO * m - 1) / (BH_ROW_INFO * m), all = BH_ROW * m * tables, due = 0;
    for (uint32_t k = 0; k < p.count; k++)
        if (little(slot_of(p, k), 2) > p.slot)
            due = BH_SLOT;
    if (due == 0 && (length == 0 || length > BH_LARGEST_FILE || (all + p.slot - 1) / p.slot != p.count))
        due = BH_SIZE;
    for (uint32_t k = 0; k < p.count && due == 0; k++) {
        uint64_t left = all - (uint64_t)k * p.slot, there = little(slot_of(p, k), 2);
        if (there != 0 && there != (left < p.slot ? left : p.slot))
            due = BH_SHAPE;
    }
    for (uint64_t row = 0; row < tables * m && due == 0; row++) {
        unsigned lacks = 0;
        for (uint64_t c = 0; c < BH_ROW; c++)
            lacks += little(slot_of(p, (size_t)((row / m * BH_ROW * m + c * m + row % m) / p.slot)), 2) == 0;
        if (lacks > 16)
            due = 256 * row + BH_LOST;
    }
    if (due != 0 ? a != due : !may(bh_number(a), BH_PADDING, BH_PADDING, "\x20\x1a") || bh_value(a) != 0)
        fail("a column place is handed out by other than its slots show");
    return due == 0;
}

/* what came out at a column place: wherever a byte of the file was not lost, it is the byte of its slot; behind the file that is 0 */
static void judge_kept_bytes(struct bh_place p, uint64_t length)
{
    uint64_t m = p.rows, end = BH_ROW_INFO * m * ((length + BH_ROW_INFO * m - 1) / (BH_ROW_INFO * m));
    for (uint64_t i = 0; i < end; i++) {
        uint64_t at = i / (BH_ROW_INFO * m) * BH_ROW * m + i % (BH_ROW_INFO * m);
        const uint8_t *slot = slot_of(p, (size_t)(at / p.slot));
        if (little(slot, 2) != 0 && (i < length ? out.at[i] : 0) != slot[2 + at % p.slot])
            fail("a byte that was not lost came out changed, or padding that is not 0 was passed over");
    }
}

static void judge_hand_out(uint64_t a, uint16_t resource, uint8_t type, uint64_t length)
{
    if (bh_number(a) == BH_RECORD_BAD || bh_number(a) == BH_UNKNOWN)
        return;
    struct bh_place p = place_of(resource, type);
    if (p.order != IN_COLUMNS) {
        if (may(bh_number(a), BH_LOST, BH_CODE, "") && bh_number(a) != 0)
            fail("31 or 32 of a place in row order");
    } else if (judge_losses(a, p, length) && bh_number(a) == 0) {
        judge_kept_bytes(p, length);
    }
}

static void hand_one(void)
{
    uint64_t length = pick() % 4 == 0 ? number_of(pick()) : file.n + pick() % 8 / 7;
    uint8_t type = some_type();
    keep_all();
    SAY("hand %u %u %" PRIu64 "\n", now.resource, type, length);
    uint64_t a = bh_hand_out(record.at, record.n, store.at, store.n, now.resource, type, length, out.at, out.n);
    judge(a, may(bh_number(a), 21, 24, "\x09\x0a\x0f\x1a\x1f\x20"), (size_t)length, 0, 0);
    judge_record(a);
    only_unknown(a, type);
    judge_hand_out(a, now.resource, type, length);
}

/* whatever changed in the record is a place that is all 0 now */
static void judge_closed(void)
{
    static const uint8_t unused[BH_PLACE];
    for (size_t at = 0; at < BH_RECORD; at += BH_PLACE)
        if (memcmp(record.at + at, record.copy + at, BH_PLACE) != 0 && memcmp(record.at + at, unused, BH_PLACE) != 0)
            fail("what was closed is not all 0");
}

static void close_one(void)
{
    uint8_t type = some_type();
    ask_before(now.resource);
    keep_all();
    SAY("close %u %u\n", now.resource, type);
    uint64_t a = bh_close(record.at, record.n, store.at, store.n, now.resource, type);
    judge(a, may(bh_number(a), 9, 10, ""), 0, 0, 1);
    judge_record(a);
    only_unknown(a, type);
    ask_after(type);
    if (bh_number(a) == 0)
        judge_closed();
    if (bh_number(a) == 0 && stands(type) != BH_UNKNOWN)
        fail("what was closed is still known");
}

/* at some of the seventeen places at which another coded row differs from this one: from nine on that is the nearer of the two. The generator's
 * coefficients, wherever they begin, are a coded row */
static void spoil_towards(void)
{
    static const uint8_t generator[17] = {1, 59, 13, 104, 189, 68, 209, 30, 8, 163, 65, 41, 229, 98, 50, 36, 59};
    unsigned from = pick(), which = wide() << 1 | pick() % 2;
    for (unsigned i = 0; i < 17; i++)
        if (which >> i & 1)
            packet.at[(from + i) % BH_ROW] ^= generator[i];
}

/* the value is the number of places at which the row written differs from the one that came; a refusal has none */
static void judge_repair(uint64_t a)
{
    if (bh_number(a) != 0 && bh_value(a) != 0)
        fail("a refusal has a value that it does not name");
    if (bh_number(a) == 0 && (bh_value(a) > 8 || bh_value(a) != apart(out.at, packet.at, BH_ROW)))
        fail("not so many bytes were mended in the row");
}

static void row_one(void)
{
    size_t n = pick() % 8 == 0 ? pick() : pick() % 2 ? 255 : 239;
    size_of(&packet, n);
    for (size_t i = 0; i < n; i++)
        packet.at[i] = (uint8_t)(i % 3 ? 0 : pick());
    keep_all();
    say_bytes(&packet, "bytes");
    if (n == 239) {
        SAY("encode\n");
        uint64_t a = bh_encode_row(packet.at, n, out.at, out.n);
        judge(a, may(bh_number(a), 26, 26, "\x01"), 16, 0, 0);
        return;
    }
    if (n == 255 && pick() % 2) {
        bh_encode_row(packet.at, 239, packet.at + 239, 16);
        if (pick() % 4 == 0)
            spoil_towards();
        else
            for (unsigned k = pick() % 11; k > 0; k--)
                packet.at[pick() % 255] ^= (uint8_t)pick();
        keep(&packet);
        say_bytes(&packet, "bytes");
    }
    SAY("repair\n");
    uint64_t a = bh_repair_row(packet.at, n, out.at, out.n);
    judge(a, may(bh_number(a), 26, 26, "\x01\x0d"), 255, 0, 0);
    judge_repair(a);
}

static void poke(size_t at, uint8_t byte)
{
    store.at[at] = byte;
    SAY("poke %zu %02x\n", at, byte);
}

/* arbitrary bytes in the record or in the store */
static void disturb(void)
{
    if (pick() % 2 && store.n > 2) {
        size_t at = pick() % 2 ? wide() % store.n : pick() % store.n;
        poke(at, (uint8_t)pick());
        return;
    }
    unsigned way = pick() % 8;
    size_t place = BH_PLACE * (pick() % BH_PLACES);
    if (way == 0) {
        /* a fresh record but for its length, or one with bytes in it */
        static const uint8_t lengths[] = {0, 128, 144, BH_RECORD - 1, BH_RECORD + 1, BH_RECORD + 16, 255};
        int other = pick() % 4 == 0;
        size_of(&record, other ? lengths[pick() % sizeof lengths] : BH_RECORD);
        for (size_t i = 0; i < record.n; i++)
            record.at[i] = (uint8_t)(other || pick() % 4 ? 0 : pick());
    } else if (record.n == BH_RECORD && way < 3) {
        /* a place of the other type, so that two may share both */
        record.at[place + 2] ^= 3;
    } else if (record.n == BH_RECORD && way < 6) {
        /* a place of the other edition or order, or of none */
        record.at[place + 16 + pick() % 4] = (uint8_t)(pick() % 4);
    } else if (record.n > 0) {
        record.at[pick() % record.n] = (uint8_t)pick();
    }
    say_record();
}

/* offered while the packet's slot, where it has one, has a length that is out of range */
static void offer_to_damaged_slot(void)
{
    struct fields f = read_packet(packet.at, packet.n);
    asked = (uint16_t)f.resource;
    if (stands((uint8_t)f.type) != 0 || place_of(f.resource, f.type).count <= f.number) {
        offer_one();
        return;
    }
    size_t at = (size_t)(slot_of(place_of(f.resource, f.type), f.number) - store.at) + 1;
    uint8_t before = store.at[at];
    poke(at, 0xFF);
    offer_one();
    poke(at, before);
}

/* packets of the file in the edition of the settings and in the other one, mostly to a place opened for them, and some of them with something else wrong */
static void edition_round(void)
{
    if (pick() % 2)
        open_place();
    for (unsigned k = 0; k < 4 && is_edition(now.edition); k++) {
        unsigned way = pick() % 8;
        if (!pack_number(NAMED, packets() ? pick() % packets() : 0))
            return;
        if (way == 0)
            offer_to_damaged_slot();
        else if (way < 3)
            spoil_spare();
        else if (way == 3)
            widen();
        else if (way == 4)
            spoil();
        offer_one();
        now.edition = (uint16_t)(3 - now.edition);
        say_settings();
    }
}

static void several_offers(void)
{
    for (uint32_t n = 0, all = packets(); n < all && n < 64; n++) {
        if (pick() % 16 == 15)
            continue;
        if (!pack_number(pick() % 16 ? NAMED : UNNAMED, n))
            return;
        if (pick() % 4 == 0)
            spoil();
        offer_one();
    }
}

/* the packet with the protection field 0, and M as its edition has it there */
static void without_protection(void)
{
    packet.at[12] = (uint8_t)((packet.at[12] & 0xC0) | (now.edition == 1 ? 0x0F : 0));
    packet.at[13] = now.edition == 1 ? 0xFF : 0;
    seal();
}

/* a protected file in a place of its own; each packet in copies that are altered in other places. Now and then the place and the packets are without
 * protection: then there are rows in the payloads too, and nothing may be mended */
static void mend_round(void)
{
    int plain = pick() % 4 == 0;
    new_store(), new_file(), fill_out(0, BH_LARGEST_PACKET);
    now = (struct settings){.resource = (uint16_t)(1 + pick() % 4), .type = (uint8_t)(1 + pick() % 2), .update = (uint8_t)(pick() % 16), .protection = 1,
                            .rows = (uint8_t)(1 + pick() % 15), .size = (uint16_t)(BH_ROW * (1 + pick() % 15)), .edition = (uint16_t)(1 + pick() % 2)};
    uint32_t all = packets();
    now.protection = (uint8_t)!plain;
    say_settings();
    open_count(all);
    now.protection = 1;
    say_settings();
    for (uint32_t n = 0; n < all && n < 4; n++)
        for (unsigned copies = 1 + pick() % 3; copies > 0 && pack_number(NAMED, n); copies--) {
            spoil_rows();
            if (plain)
                without_protection();
            offer_one();
        }
}

/* the bytes of row r of table t that stand in empty slots */
static unsigned lacking(struct bh_place p, uint64_t row)
{
    unsigned lacks = 0;
    for (uint64_t c = 0; c < BH_ROW; c++)
        lacks += little(slot_of(p, (size_t)((row / p.rows * BH_ROW * p.rows + c * p.rows + row % p.rows) / p.slot)), 2) == 0;
    return lacks;
}

/* the file as it is or with one byte more or less, and what is told of it: the file itself as long as no row lacks more than sixteen bytes; with a byte of
 * a slot altered 32 always, where its row lacks at most fifteen */
static void hand_out_columns(int altered, uint64_t row)
{
    struct bh_place p = place_of(now.resource, now.type);
    uint64_t length = file.n + (pick() % 8 == 0) - (pick() % 8 == 0), rows = p.rows * ((file.n + 239u * p.rows - 1) / (239u * p.rows));
    unsigned most = 0;
    for (uint64_t k = 0; k < rows; k++)
        most = lacking(p, k) > most ? lacking(p, k) : most;
    fill_out(pick(), pick() % 8 ? file.n + 3 : file.n - 1);
    keep_all();
    SAY("hand %u %u %" PRIu64 "\n", now.resource, now.type, length);
    uint64_t a = bh_hand_out(record.at, record.n, store.at, store.n, now.resource, now.type, length, out.at, out.n);
    judge(a, may(bh_number(a), 22, 24, "\x1a\x1f\x20"), (size_t)length, 0, 0);
    judge_hand_out(a, now.resource, now.type, length);
    /* the last byte of the file is padding for a length that is one less, lost or not */
    if (most <= 16 && !altered && length + 1 == file.n && length % (239u * p.rows) != 0 && (bh_number(a) == BH_PADDING) != (file.at[length] != 0))
        fail("padding that is not 0 was passed over, or 0 was refused");
    if (most > 16 || length != file.n)
        return;
    if (!altered && (out.n < length ? a != BH_OUTPUT : a != 0 || memcmp(out.at, file.at, file.n) != 0))
        fail("a file that lacks at most sixteen bytes a row did not come out");
    if (altered && lacking(p, row) < 16 && a != BH_CODE)
        fail("a wrong byte beside at most fifteen losses was not seen");
}

/* a file in column order in a place of its own, its packets stored but for some; then slots made empty, the bytes that they held staying or not, and a byte
 * of another altered now and then, and each time it is handed out */
static void column_round(void)
{
    new_store(), new_file(), fill_out(0, BH_LARGEST_PACKET);
    now = (struct settings){.resource = (uint16_t)(1 + pick() % 4), .type = (uint8_t)(1 + pick() % 2), .update = (uint8_t)(pick() % 16), .protection = 1,
                            .rows = (uint8_t)(1 + pick() % 9), .edition = (uint16_t)(1 + pick() % 2), .order = IN_COLUMNS};
    now.size = some_size();
    say_settings();
    uint32_t all = packets();
    /* no more packets than a transcript can bear, of no longer a file than the store holds */
    if (file.n == 0 || all > 300 || all * (now.size + 2u) > store.n)
        return;
    enum naming how = NAMED;
    SAY("open-as %" PRIu32 "\n", all);
    keep_all();
    uint64_t opened = open_by(how, all);
    judge(opened, opened == 0, 0, 1, 1);
    judge_opened(how);
    SAY("send %" PRIu32 " 1 %" PRIu32 " 0 0 0\n", all, all);
    for (uint32_t n = 0; n < all; n++) {
        uint64_t made = pack_by(how, now.edition, now.order, n, out.at);
        if (bh_number(made) != 0 || bh_offer(record.at, record.n, store.at, store.n, out.at, (size_t)bh_value(made)) != 0)
            fail("a column packet was not stored");
    }
    SAY("out 0 %d\n", BH_LARGEST_PACKET);
    struct bh_place p = place_of(now.resource, now.type);
    for (unsigned turn = 0; turn < 3; turn++) {
        unsigned gone = now.size >= now.rows * 16u ? pick() % 3 : (unsigned)(pick() % 19 * now.rows / now.size + pick() % 2);
        for (uint32_t from = wide() % all, run = pick() % 2; gone > 0; gone--) {
            size_t at = (size_t)(slot_of(p, run ? (from + gone) % all : wide() % all) - store.at);
            poke(at, 0), poke(at + 1, 0);
            if (pick() % 4 == 0)
                poke(at + 2, (uint8_t)pick());
        }
        /* one byte of a filled slot, by its row */
        uint64_t there = (uint64_t)(all - 1) * now.size + little(slot_of(p, all - 1), 2), sent = wide() % (there ? there : 1);
        uint64_t row = sent / (BH_ROW * p.rows) * p.rows + sent % p.rows;
        size_t at = (size_t)(slot_of(p, (size_t)(sent / p.slot)) - store.at) + 2 + (size_t)(sent % p.slot);
        int altered = pick() % 2 && little(slot_of(p, (size_t)(sent / p.slot)), 2) > sent % p.slot;
        uint8_t before = store.at[at];
        if (altered)
            poke(at, before ^ (uint8_t)(1 + pick() % 255));
        hand_out_columns(altered, row);
        if (altered)
            poke(at, before);
        /* a slot of another length */
        if (pick() % 4 == 0) {
            size_t slot = (size_t)(slot_of(p, wide() % all) - store.at);
            uint8_t low = store.at[slot];
            poke(slot, (uint8_t)(low ^ (1 << pick() % 8)));
            hand_one();
            poke(slot, low);
        }
        hand_one();
        status_one();
    }
}

/* the house setting, or one row a packet, as it was before; and how a call comes to it */
static enum naming choose_size(void)
{
    enum naming how = pick() % 2 ? HOUSE : pick() % 2 ? UNNAMED : NAMED;
    now.size = how == HOUSE ? BH_HOUSE_SIZE : BH_ROW;
    say_settings();
    return how;
}

/* a place in either of the two for as many packets as either has, and packets of both: what does not fit is 11 by its count, or 12 by its length */
static void sizes_round(void)
{
    new_store(), new_file(), fill_out(0, BH_LARGEST_PACKET);
    now = (struct settings){.resource = (uint16_t)(1 + pick() % 4), .type = (uint8_t)(1 + pick() % 2), .update = (uint8_t)(pick() % 16), .protection = 1,
                            .rows = BH_HOUSE_ROWS, .edition = 2, .order = IN_ROWS};
    choose_size();
    uint32_t count = packets();
    enum naming how = choose_size();
    open_by_name(how, count);
    for (unsigned k = 0; k < 4; k++) {
        how = choose_size();
        if (!pack_number(how, packets() ? wide() % packets() : 0))
            return;
        if (pick() % 2)
            spoil_rows();
        offer_one();
    }
}

/* packets of a file in column order to whatever is open, with the other type's place in it now and then, and parts of the header altered */
static void rows_round(void)
{
    if (pick() % 2) {
        now.protection = 1, now.order = IN_COLUMNS, now.rows = (uint8_t)(1 + pick() % 3), now.size = some_size();
        say_settings();
        if (pick() % 4)
            open_place();
    }
    for (unsigned k = 0; k < 4; k++) {
        if (!pack_number(NAMED, packets() ? wide() % packets() : 0))
            return;
        unsigned way = pick() % 8;
        if (way < 3)
            packet.at[way == 0 ? 12 : way == 1 ? 7 : 13] ^= (uint8_t)(way == 0 ? 0xC0 : 1u << pick() % 8);
        if (way == 3)
            packet.at[4] ^= (uint8_t)(1 + pick() % 3);
        if (way == 4)
            offer_to_damaged_slot();
        if (way == 5)
            widen();
        if (way == 6)
            packet.at[14 + wide() % (packet.n - 18)] ^= (uint8_t)pick();
        if (way < 4 && pick() % 4)
            seal();
        offer_one();
        if (pick() % 4 == 0)
            offer_one();
    }
}

int LLVMFuzzerTestOneInput(const uint8_t *data, size_t size)
{
    static void (*const steps[])(void) = {
        choose_settings, new_file, new_store, new_out, new_out, open_place, open_place, open_place, open_beside, open_beside, open_beside,
        open_beside, pack_one, pack_one, pack_one, spoil, spoil, offer_one, offer_one, offer_one, offer_one, read_one, read_one, status_one,
        status_one, hand_one, hand_one, hand_one, close_one, row_one, row_one, disturb, edition_round, edition_round, edition_round, several_offers,
        several_offers, several_offers, mend_round, mend_round, column_round, column_round, rows_round, rows_round, rows_round, sizes_round, vary_settings, vary_settings, describe_round, describe_round, describe_round, describe_one,
        compose_round, compose_round, compose_round, compose_one};
    static const uint8_t nothing[1];
    lend_all();
    choice = size ? data : nothing;
    choices = size;
    new_file(), new_store(), new_out(), choose_settings(), open_place();
    /* an input that begins as a description does is one */
    if (size >= 3 && memcmp(data, "01:", 3) == 0) {
        describe_input(data, size);
        return 0;
    }
    while (choices > 0)
        steps[pick() % (sizeof steps / sizeof *steps)]();
    return 0;
}

#ifdef DRIVER
/* driver SECONDS SEED [TRANSCRIPT CALLS]: random bytes for so many seconds, or a transcript of so many calls */
int main(int argc, char **argv)
{
    static uint8_t data[4096];
    uint64_t x = argc > 2 ? strtoull(argv[2], NULL, 10) : 1;
    double seconds = argc > 1 ? atof(argv[1]) : 1;
    unsigned long most = argc > 4 ? strtoul(argv[4], NULL, 10) : 0;
    time_t from = time(NULL);
    if (argc > 3 && (transcript = fopen(argv[3], "w")) == NULL)
        fail("no transcript");
    while (most ? calls < most : difftime(time(NULL), from) < seconds) {
        x = draw(data, sizeof data, x);
        LLVMFuzzerTestOneInput(data, sizeof data);
    }
    if (transcript && fclose(transcript) != 0)
        fail("no transcript");
    printf("fuzz: %lu calls, %lu accepted, nothing touched that may not be\n", calls, accepted_calls);
    return 0;
}
#endif
