/* The cases that need more memory than the program `cases` has: the largest file, in rows and in columns, stores longer than their usable part, and long
   descriptions; and what the header's own functions tell of an answer and of a record.
   limits packets: writes every packet of the largest protected file to standard output instead, for reference/largest.py. */
#include "brithelva.h"

#include <stdio.h>
#include <stdlib.h>
#include <string.h>

static int told, wrong;

static void expect(const char *name, uint64_t expected, uint64_t got)
{
    told++;
    wrong += expected != got;
    if (expected != got)
        printf("limits: %s: expected %llu got %llu\n", name, (unsigned long long)expected, (unsigned long long)got);
}

static void packing(uint8_t *file)
{
    uint8_t packet[BH_LARGEST_PACKET];
    expect("the largest file, first packet", 256 * 273, bh_pack(file, BH_LARGEST_FILE, 1, 1, 0, 1, 255, 255, 0, packet, sizeof packet));
    /* 276 tables of 255 rows */
    expect("the largest file, last packet", 256 * 273, bh_pack(file, BH_LARGEST_FILE, 1, 1, 0, 1, 255, 255, 276 * 255 - 1, packet, sizeof packet));
    expect("the largest file, no such packet", BH_NUMBER, bh_pack(file, BH_LARGEST_FILE, 1, 1, 0, 1, 255, 255, 276 * 255, packet, sizeof packet));
    expect("a byte more", BH_SIZE, bh_pack(file, BH_LARGEST_FILE + 1, 1, 1, 0, 1, 255, 255, 0, packet, sizeof packet));
    expect("a byte more, at the house setting", BH_SIZE, bh_pack_house(file, BH_LARGEST_FILE + 1, 1, 1, 0, 0, packet, sizeof packet));
    expect("size before count", BH_SIZE, bh_pack(file, BH_LARGEST_FILE + 1, 1, 1, 0, 0, 0, 1, 0, packet, sizeof packet));
    expect("field before size", BH_FIELD, bh_pack(file, BH_LARGEST_FILE + 1, 0, 1, 0, 0, 0, 1, 0, packet, sizeof packet));
    expect("edition before size", BH_FIELD, bh_pack_as(file, BH_LARGEST_FILE + 1, 1, 1, 0, 1, 255, 255, 3, 0, 0, packet, sizeof packet));
    expect("a byte more, in edition 1", BH_SIZE, bh_pack_as(file, BH_LARGEST_FILE + 1, 1, 1, 0, 1, 255, 255, 1, 0, 0, packet, sizeof packet));
    expect("the largest file in edition 1", 256 * 273, bh_pack_as(file, BH_LARGEST_FILE, 1, 1, 0, 1, 255, 255, 1, 0, 276 * 255 - 1, packet, sizeof packet));
    expect("count: 16 bytes a packet are too small", BH_COUNT, bh_pack(file, BH_LARGEST_FILE, 1, 1, 0, 0, 0, 16, 0, packet, sizeof packet));
    expect("count: 17 bytes a packet", 256 * 35, bh_pack(file, BH_LARGEST_FILE, 1, 1, 0, 0, 0, 17, 0, packet, sizeof packet));
}

/* packet n of n bytes of a file in column order */
static uint64_t column_packet(const uint8_t *file, size_t n, uint8_t rows, uint16_t size, uint32_t number, uint8_t *packet, size_t room)
{
    return bh_pack_as(file, n, 1, 1, 0, 1, rows, size, 2, 1, number, packet, room);
}

/* the number, count and length that a packet's header says */
static void expect_header(const char *name, const uint8_t *packet, size_t n, uint32_t number, uint32_t count)
{
    uint32_t fields[BH_FIELDS];
    expect(name, 0, bh_read_header(packet, n, fields, BH_FIELDS));
    expect(name, number, fields[1]);
    expect(name, n, fields[3]);
    expect(name, count, fields[4]);
}

/* the house setting as the header has it, in both calls; the largest file has 2194 tables of 32 rows in 4681 packets, of which the last has eight rows */
static void house(const uint8_t *file, uint8_t *store)
{
    uint8_t record[BH_RECORD] = {0}, packet[BH_LARGEST_PACKET];
    size_t n = BH_HOUSE_SIZE + BH_HEADER + BH_CRC, last = 8 * BH_ROW + BH_HEADER + BH_CRC;
    expect("a house packet", 256 * n, bh_pack_house(file, BH_LARGEST_FILE, 1, 1, 0, 0, packet, sizeof packet));
    expect_header("its header", packet, n, 0, 4681);
    expect("its M", BH_HOUSE_ROWS, (packet[12] & 15) << 4 | packet[13] >> 4);
    expect("the last house packet", 256 * last, bh_pack_house(file, BH_LARGEST_FILE, 1, 1, 0, 4680, packet, sizeof packet));
    expect_header("the last one's header", packet, last, 4680, 4681);
    expect("no more of them", BH_NUMBER, bh_pack_house(file, BH_LARGEST_FILE, 1, 1, 0, 4681, packet, sizeof packet));
    /* 4383 slots of 3827 bytes leave 3475 of the usable store */
    expect("a house slot too many", BH_ROOM, bh_open_house(record, BH_RECORD, store, BH_USABLE_STORE, 1, 1, 0, 4384));
    expect("as many house slots as fit", 0, bh_open_house(record, BH_RECORD, store, BH_USABLE_STORE, 1, 1, 0, 4383));
    struct bh_place p = bh_place_at(record, 0);
    expect("the place's slots", BH_HOUSE_SIZE, p.slot);
    expect("the place's M", BH_HOUSE_ROWS, p.rows);
    expect("and nothing else", 1 + 1 + 4383 + 1 + 2, (uint64_t)p.resource + p.type + p.update + p.count + p.protection + p.start + p.edition + p.order);
}

/* the largest file in column order; the largest count, on each side; the largest table and the largest packet */
static void column_packing(const uint8_t *file)
{
    uint8_t packet[BH_LARGEST_PACKET];
    /* 276 tables of 255 rows are 17,946,900 bytes: 4402 packets, the last of 4023 */
    expect("the largest file in columns, first packet", 256 * 4095, column_packet(file, BH_LARGEST_FILE, 255, 4077, 0, packet, sizeof packet));
    expect("its bytes are the file's", 0, (uint64_t)(memcmp(packet + BH_HEADER, file, 4077) != 0));
    expect_header("its first packet's header", packet, 4095, 0, 4402);
    expect("its last packet", 256 * (18 + 4023), column_packet(file, BH_LARGEST_FILE, 255, 4077, 4401, packet, sizeof packet));
    expect_header("its last packet's header", packet, 18 + 4023, 4401, 4402);
    expect("no such packet", BH_NUMBER, column_packet(file, BH_LARGEST_FILE, 255, 4077, 4402, packet, sizeof packet));
    expect("a byte more in columns", BH_SIZE, column_packet(file, BH_LARGEST_FILE + 1, 255, 4077, 0, packet, sizeof packet));
    expect("order before size", BH_FIELD, bh_pack_as(file, BH_LARGEST_FILE + 1, 1, 1, 0, 1, 255, 255, 2, 2, 0, packet, sizeof packet));
    expect("4078 bytes a packet", BH_FIELD, column_packet(file, BH_LARGEST_FILE, 255, 4078, 0, packet, sizeof packet));
    expect("columns without protection", BH_FIELD, bh_pack_as(file, BH_LARGEST_FILE + 1, 1, 1, 0, 0, 255, 255, 2, 1, 0, packet, sizeof packet));
    /* with 17 bytes a packet the largest file has 1055700, with 18 it has 997050 */
    expect("17 bytes a packet are too small", BH_COUNT, column_packet(file, BH_LARGEST_FILE, 255, 17, 0, packet, sizeof packet));
    expect("18 bytes a packet", 256 * 36, column_packet(file, BH_LARGEST_FILE, 255, 18, 997049, packet, sizeof packet));
    expect("nearly as many packets as there can be", 256 * 19, column_packet(file, 239 * 4112, 1, 1, 255 * 4112 - 1, packet, sizeof packet));
    expect_header("their count", packet, 19, 255 * 4112 - 1, 255 * 4112);
    expect("a byte more of the file", BH_COUNT, column_packet(file, 239 * 4112 + 1, 1, 1, 0, packet, sizeof packet));
    /* 255 * M * T = 17 * 1048575 where M * T is 69905 = 5 * 11 * 31 * 41: 451 tables of 155 rows */
    expect("1048575 packets", 256 * 35, column_packet(file, 239 * 155 * 451, 155, 17, 1048574, packet, sizeof packet));
    expect_header("the largest count", packet, 35, 1048574, 1048575);
    expect("not one more", BH_NUMBER, column_packet(file, 239 * 155 * 451, 155, 17, 1048575, packet, sizeof packet));
    expect("a table more", BH_COUNT, column_packet(file, 239 * 155 * 451 + 1, 155, 17, 0, packet, sizeof packet));
}

/* slot k of a place at 0 */
static uint8_t *slot_of(uint8_t *store, uint16_t size, size_t k)
{
    return store + k * (size + 2u);
}

/* makes it empty, with other bytes in it */
static void lose(uint8_t *store, uint16_t size, size_t k)
{
    memset(slot_of(store, size, k), 0, 2);
    memset(slot_of(store, size, k) + 2, 0xEE, size);
}

/* opens a place in columns and offers all packets of the file, the last first */
static uint32_t collect(const uint8_t *file, size_t n, uint8_t rows, uint16_t size, uint8_t *record, uint8_t *store, size_t room)
{
    uint8_t packet[BH_LARGEST_PACKET];
    uint64_t all = 255ull * rows * ((n + 239ull * rows - 1) / (239ull * rows));
    uint32_t count = (uint32_t)((all + size - 1) / size);
    memset(record, 0, BH_RECORD);
    expect("a place in columns", 0, bh_open_as(record, BH_RECORD, store, room, 1, 1, 0, count, 1, rows, size, 2, 1));
    uint64_t refused = 0;
    for (uint32_t k = count; k-- > 0;) {
        uint64_t answer = column_packet(file, n, rows, size, k, packet, sizeof packet);
        refused += bh_number(answer) != 0 || bh_offer(record, BH_RECORD, store, room, packet, (size_t)bh_value(answer)) != 0;
    }
    expect("its packets", 0, refused);
    return count;
}

static void expect_file(const char *name, const uint8_t *file, size_t n, const uint8_t *record, const uint8_t *store, uint8_t *out)
{
    memset(out, 0x5A, n + 8);
    expect(name, 0, bh_hand_out(record, BH_RECORD, store, BH_USABLE_STORE, 1, 1, n, out, n));
    expect(name, 0, (uint64_t)(memcmp(file, out, n) != 0 || out[n] != 0x5A));
}

/* a refusal leaves the output as it is */
static void expect_none(const char *name, uint64_t answer, size_t n, const uint8_t *record, const uint8_t *store, uint8_t *out)
{
    memset(out, 0x5A, 4096);
    expect(name, answer, bh_hand_out(record, BH_RECORD, store, BH_USABLE_STORE, 1, 1, n, out, n));
    for (size_t i = 0; i < 4096; i++)
        if (out[i] != 0x5A) {
            expect("a refusal wrote", 0, 1);
            return;
        }
}

/* a file as large as a store can hold in columns, M 255 and slots of 4077: a lost packet costs each row fifteen or sixteen bytes */
static void largest_columns(const uint8_t *file, uint8_t *store, uint8_t *out)
{
    uint8_t record[BH_RECORD];
    /* 257 tables are 16,711,425 bytes: 4099 packets and 16,719,821 bytes of slots */
    size_t n = 239 * 255 * 257 - 1000;
    uint32_t count = collect(file, n, 255, 4077, record, store, BH_USABLE_STORE);
    expect("the largest place in columns", 4099, count);
    expect("slots of 4078", BH_FIELD, bh_open_as(record, BH_RECORD, store, BH_USABLE_STORE, 2, 1, 0, 1, 1, 255, 4078, 2, 1));
    expect_file("the largest file of a store, in columns", file, n, record, store, out);
    /* a table has about sixteen packets: one of every third table, and none of the last */
    for (size_t k = 3; k + 48 < count; k += 48)
        lose(store, 4077, k);
    expect_file("one packet of many tables lost", file, n, record, store, out);
    expect("its status", 256 * ((uint64_t)(count - 85) | (uint64_t)4 << 24), bh_status(record, BH_RECORD, store, BH_USABLE_STORE, 1, 1));
    lose(store, 4077, count - 1);
    expect_file("the last packet lost too", file, n, record, store, out);
    expect_none("a byte less: the last one is padding then", BH_PADDING, n - 1, record, store, out);
    slot_of(store, 4077, count - 1)[0] = 1;
    expect_none("the last slot of one byte", BH_SHAPE, n, record, store, out);
    lose(store, 4077, count - 1);
    uint8_t *kept = slot_of(store, 4077, 2000) + 2 + 1000;
    *kept ^= 1;
    expect_none("a byte in the middle wrong", BH_CODE, n, record, store, out);
    lose(store, 4077, count - 2);
    /* the last two packets stand in the last table: its first row has lost a byte of the one and some of the other */
    expect_none("two packets of the last table lost", BH_LOST + 256 * (uint64_t)(256 * 255), n, record, store, out);
    expect_none("another length", BH_SIZE, n + 239 * 255, record, store, out);
    expect_none("no length", BH_SIZE, 0, record, store, out);
    slot_of(store, 4077, 5)[1] = 1;
    expect_none("a slot of 4077 that says less", BH_SHAPE, n, record, store, out);
    slot_of(store, 4077, 4000)[1] = 0xFF;
    expect_none("a slot that says more", BH_SLOT, n, record, store, out);
}

/* sixteen bytes lost in every row of many tables: a byte a packet, and a column a packet */
static void many_losses(const uint8_t *file, uint8_t *store, uint8_t *out)
{
    static const uint8_t rows[] = {1, 2, 255};
    uint8_t record[BH_RECORD];
    for (size_t i = 0; i < sizeof rows; i++) {
        uint16_t size = rows[i];
        size_t tables = size == 255 ? 60 : 400, n = 239 * size * tables - 7;
        uint32_t count = collect(file, n, rows[i], size, record, store, BH_USABLE_STORE);
        expect("a column a packet", 255 * tables, count);
        for (size_t t = 0; t < tables; t++)
            for (size_t k = 0; k < 16; k++)
                lose(store, size, 255 * t + (t * 31 + k * (1 + t % 15)) % 255);
        expect_file("sixteen lost of each row", file, n, record, store, out);
        size_t last = 255 * (tables - 1), one = 0;
        while (slot_of(store, size, last + one)[0] == 0 && slot_of(store, size, last + one)[1] == 0)
            one++;
        lose(store, size, last + one);
        expect_none("seventeen of the last table", BH_LOST + 256 * (uint64_t)(size * (tables - 1)), n, record, store, out);
    }
}

/* as many slots as a store can have, in columns: no length has a count of 1048575 with slots so short; 1048560 of them are 57568 tables of one row, which
   are put into the store by hand. One packet of each row is lost, or nearly */
static void most_slots(const uint8_t *file, uint8_t *store, uint8_t *out)
{
    uint8_t record[BH_RECORD] = {0}, row[BH_ROW];
    uint32_t tables = 57568, count = 1048560;
    uint16_t size = 14;
    size_t n = BH_ROW_INFO * tables;
    expect("1048575 slots", 0, bh_open_as(record, BH_RECORD, store, BH_USABLE_STORE, 1, 1, 0, BH_LARGEST_COUNT, 1, 1, size, 2, 1));
    expect("their status", (uint64_t)256 << 24, bh_status(record, BH_RECORD, store, BH_USABLE_STORE, 1, 1));
    expect_none("a count that no length has", BH_SIZE, n, record, store, out);
    expect_none("nor one that is longer", BH_SIZE, n + 1, record, store, out);
    expect("closed", 0, bh_close(record, BH_RECORD, store, BH_USABLE_STORE, 1, 1));
    expect("1048560 slots", 0, bh_open_as(record, BH_RECORD, store, BH_USABLE_STORE, 1, 1, 0, count, 1, 1, size, 2, 1));
    for (size_t t = 0; t < tables; t++) {
        memcpy(row, file + BH_ROW_INFO * t, BH_ROW_INFO);
        bh_encode_row(row, BH_ROW_INFO, row + BH_ROW_INFO, BH_ROW_CHECKS);
        for (size_t c = 0; c < BH_ROW; c++) {
            uint8_t *slot = slot_of(store, size, (BH_ROW * t + c) / size);
            slot[2 + (BH_ROW * t + c) % size] = row[c];
            slot[0] = (uint8_t)((BH_ROW * t + c) % size + 1);
        }
    }
    expect("all filled", 256 * (uint64_t)count, bh_status(record, BH_RECORD, store, BH_USABLE_STORE, 1, 1));
    expect_file("a file of 1048560 packets", file, n, record, store, out);
    for (size_t k = 7; k + 38 < count; k += 19)
        lose(store, size, k);
    lose(store, size, count - 1);
    expect_file("one packet of each row lost", file, n, record, store, out);
    lose(store, size, count - 2);
    expect_none("two of the last", BH_LOST + 256 * (uint64_t)(tables - 1), n, record, store, out);
}

/* only the first 16,777,216 bytes of a longer store are used */
static void stores(uint8_t *store)
{
    uint8_t record[BH_RECORD] = {0};
    size_t more = BH_USABLE_STORE + 1000;
    /* 4113 slots of 4079 bytes leave 289 */
    expect("one slot too many", BH_ROOM, bh_open(record, BH_RECORD, store, more, 1, 1, 0, 4114, 0, 0, 4077));
    expect("as many as fit", 0, bh_open(record, BH_RECORD, store, more, 1, 1, 0, 4113, 0, 0, 4077));
    expect("status over the whole part", (uint64_t)256 << 24, bh_status(record, BH_RECORD, store, more, 1, 1));
    expect("room behind the usable part is none", BH_ROOM, bh_open(record, BH_RECORD, store, more, 2, 1, 0, 100, 0, 0, 8));
    expect("the rest of the usable part", 0, bh_open(record, BH_RECORD, store, more, 2, 1, 0, 96, 0, 0, 1));
    uint8_t *start = record + BH_PLACE + 12;
    *start = (uint8_t)(*start + 1);
    expect("to its last byte", (uint64_t)256 << 24, bh_status(record, BH_RECORD, store, more, 1, 1));
    *start = (uint8_t)(*start + 1);
    expect("past the usable part", BH_RECORD_BAD, bh_status(record, BH_RECORD, store, more, 1, 1));
}

static void largest(uint8_t *file, uint8_t *store, uint8_t *out)
{
    uint8_t record[BH_RECORD] = {0}, packet[BH_LARGEST_PACKET];
    size_t length = 4113 * 4077 - 5;
    expect("a file as large as a store can hold", 0, bh_open(record, BH_RECORD, store, BH_USABLE_STORE, 1, 1, 0, 4113, 0, 0, 4077));
    for (uint32_t n = 4113; n-- > 0;) {
        uint64_t answer = bh_pack(file, length, 1, 1, 0, 0, 0, 4077, n, packet, sizeof packet);
        expect("its packets", 0, bh_number(answer) + bh_offer(record, BH_RECORD, store, BH_USABLE_STORE, packet, (size_t)bh_value(answer)));
    }
    expect("its status", 256 * 4113, bh_status(record, BH_RECORD, store, BH_USABLE_STORE, 1, 1));
    expect("it comes out", 0, bh_hand_out(record, BH_RECORD, store, BH_USABLE_STORE, 1, 1, length, out, length));
    expect("byte for byte", 0, (uint64_t)(memcmp(file, out, length) != 0));
}

/* a description with that title, its other texts short; the length of what was written */
static size_t describe(uint8_t *text, const uint8_t *title, size_t n)
{
    static const char before[] = "01:9999\n02:1\n03:65535\n04:15\n05:n\n06:21\n07:";
    static const char behind[] = "\n08:\n09:k\n10:4\n11:.\\p\n12:16777216\n13:0001.01.01/00:00:00\n14:9999.12.31/23:59:59\n15:1\n";
    memcpy(text, before, sizeof before - 1);
    memcpy(text + sizeof before - 1, title, n);
    memcpy(text + sizeof before - 1 + n, behind, sizeof behind - 1);
    return sizeof before - 1 + n + sizeof behind - 1;
}

/* a title of 16 MiB is read and written back; a byte of it that is wrong is found; the room that always suffices is not too large */
static void descriptions(uint8_t *text, uint8_t *title, uint8_t *out)
{
    size_t n = 16 << 20;
    uint64_t values[BH_DESCRIPTION_VALUES + 1], before[BH_DESCRIPTION_VALUES + 1];
    for (size_t i = 0; i + 4 <= n; i += 4)
        memcpy(title + i, i % 64 == 0 ? "\xF0\x90\x80\x80" : i % 20 == 0 ? "a\xE6\x96\x87" : i % 8 == 0 ? "\xC3\xA9 \x7F" : "line", 4);
    memset(values, 0x77, sizeof values);
    memcpy(before, values, sizeof values);
    size_t length = describe(text, title, n), at = 42;
    expect("a title of 16 MiB", 0, bh_read_description(text, length, values, BH_DESCRIPTION_VALUES + 1));
    expect("where it begins", at, values[BH_D_TITLE_AT]);
    expect("its length", n, values[BH_D_TITLE_LENGTH]);
    expect("a number behind the thirty", before[30], values[30]);
    expect("written into a byte too little", BH_OUTPUT, bh_write_description(values, 30, text, length, out, length - 1));
    expect("written back", 256 * (uint64_t)length, bh_write_description(values, 30, text, length, out, length));
    expect("byte for byte", 0, (uint64_t)(memcmp(text, out, length) != 0));
    expect("the room that always suffices", BH_DESCRIPTION_FIXED + n + values[BH_D_NAME_LENGTH] + values[BH_D_KEYWORDS_LENGTH] + values[BH_D_PATH_LENGTH], length);
    expect("a byte behind it", BH_EXTRA, bh_read_description(text, length + 1, values, BH_DESCRIPTION_VALUES));
    expect("a byte less", 256 * 15 + BH_LINE, bh_read_description(text, length - 1, values, BH_DESCRIPTION_VALUES));
    text[at + n - 1] = 0xC3;
    expect("a character cut off at its end", 256 * 7 + BH_LINE, bh_read_description(text, length, before, BH_DESCRIPTION_VALUES));
    text[at + n - 1] = '\r';
    expect("CR LF", 0, bh_read_description(text, length, before, BH_DESCRIPTION_VALUES));
    expect("a byte shorter", n - 1, before[BH_D_TITLE_LENGTH]);
    text[at + n / 2] = '\r';
    expect("CR in the middle", 256 * 7 + BH_LINE, bh_write_description(values, 30, text, length, out, length));
}

/* no bytes at all, and a pointer to none */
static void nothing(void)
{
    uint64_t values[BH_DESCRIPTION_VALUES] = {0};
    uint8_t out[1] = {7};
    expect("an empty text", 256 * 1 + BH_LINE, bh_read_description(NULL, 0, NULL, 0));
    expect("a line feed alone", 256 * 1 + BH_LINE, bh_read_description((const uint8_t *)"\n", 1, values, BH_DESCRIPTION_VALUES));
    expect("no values", BH_FIELD, bh_write_description(NULL, 0, NULL, 0, NULL, 0));
    expect("zeros", 256 * 1 + BH_LINE, bh_write_description(values, BH_DESCRIPTION_VALUES, NULL, 0, out, 1));
    values[BH_D_SERVICE] = 9000;
    values[BH_D_RESOURCE] = 1;
    expect("a name of no text", 256 * 5 + BH_LINE, bh_write_description(values, BH_DESCRIPTION_VALUES, NULL, 0, out, 1));
    expect("nothing written", 7, out[0]);
}

/* place k of a row of a packet, among the first ones, in the middle and among the checks by turns; altered once more it is as it was */
static void alter(uint8_t *packet, int row, int k)
{
    packet[BH_HEADER + BH_ROW * row + 127 * k % BH_ROW] ^= (uint8_t)(0xF0 + row);
}

static void alter_all(uint8_t *packet, int k)
{
    for (int row = 0; row < 15; row++)
        alter(packet, row, k);
}

static void expect_told(const char *name, uint64_t expected, int mended, int repeat, uint64_t got)
{
    expect(name, expected, got);
    expect(name, (uint64_t)mended, bh_mended(got));
    expect(name, (uint64_t)repeat, (uint64_t)(bh_is_repeat(got) != 0));
}

/* fifteen rows with eight altered bytes each are stored; their copies have fewer and fewer. Of a refusal neither function tells anything */
static void mended(const uint8_t *file, uint8_t *store)
{
    uint8_t record[BH_RECORD] = {0}, packet[BH_LARGEST_PACKET], fixed[BH_ROW];
    size_t n = BH_HEADER + 15 * BH_ROW + BH_CRC, room = 15 * BH_ROW + 2;
    expect("fifteen rows", 256 * n, bh_pack(file, 15 * BH_ROW_INFO, 1, 1, 0, 1, 15, 15 * BH_ROW, 0, packet, sizeof packet));
    expect("their place", 0, bh_open(record, BH_RECORD, store, room, 1, 1, 0, 1, 1, 15, 15 * BH_ROW));
    for (int k = 0; k < 8; k++)
        alter_all(packet, k);
    for (int k = 8; k >= 0; k--) {
        int repeat = k < 8;
        expect("mended in a row", 256 * (uint64_t)k, bh_repair_row(packet + BH_HEADER, BH_ROW, fixed, BH_ROW));
        expect_told("mended in fifteen", 256 * (uint64_t)(2 * 15 * k + repeat), 15 * k, repeat, bh_offer(record, BH_RECORD, store, room, packet, n));
        if (k > 0)
            alter_all(packet, k - 1);
    }
    for (int k = 0; k < 9; k++)
        alter_all(packet, k);
    expect_told("no row can be mended", BH_REPAIR, 0, 0, bh_offer(record, BH_RECORD, store, room, packet, n));
    /* the rows told are 1, odd as the value of a repeat is, and 14 */
    alter(packet, 0, 0);
    expect_told("the second cannot", 256 * 1 + BH_REPAIR, 0, 0, bh_offer(record, BH_RECORD, store, room, packet, n));
    for (int row = 1; row < 14; row++)
        alter(packet, row, 0);
    expect_told("the last cannot", 256 * 14 + BH_REPAIR, 0, 0, bh_offer(record, BH_RECORD, store, room, packet, n));
    alter(packet, 14, 0);
    packet[n - 1] ^= 1;
    expect_told("all can, and the CRC is wrong", BH_CRC_BAD, 0, 0, bh_offer(record, BH_RECORD, store, room, packet, n));
}

/* so many bytes of a record from `at` on, the lowest first */
static uint64_t little(const uint8_t *record, unsigned at, unsigned n)
{
    return n == 0 ? 0 : record[at] + 256 * little(record, at + 1, n - 1);
}

/* each place as its bytes have it; behind the last there is none */
static void places(void)
{
    /* with bytes behind it that belong to no place */
    uint8_t record[BH_RECORD + 2 * BH_PLACE];
    for (unsigned i = 0; i < sizeof record; i++)
        record[i] = (uint8_t)(0xFF - i);
    for (unsigned i = 0; i < BH_PLACES; i++) {
        struct bh_place p = bh_place_at(record, i);
        unsigned at = BH_PLACE * i;
        expect("a place's resource", little(record, at, 2), p.resource);
        expect("its type", little(record, at + 2, 1), p.type);
        expect("its update", little(record, at + 3, 1), p.update);
        expect("its count", little(record, at + 4, 4), p.count);
        expect("its protection", little(record, at + 8, 1), p.protection);
        expect("its rows", little(record, at + 9, 1), p.rows);
        expect("its slots", little(record, at + 10, 2), p.slot);
        expect("its start", little(record, at + 12, 4), p.start);
        expect("its edition", little(record, at + 16, 2), p.edition);
        expect("its order", little(record, at + 18, 2), p.order);
    }
    static const unsigned none[] = {BH_PLACES, BH_PLACES + 1, 15, 255, 256, 1u << 31, UINT32_MAX};
    for (size_t k = 0; k < sizeof none / sizeof *none; k++) {
        struct bh_place p = bh_place_at(record, none[k]);
        expect("no place", 0, (uint64_t)p.resource + p.type + p.update + p.count + p.protection + p.rows + p.slot + p.start + p.edition + p.order);
    }
}

/* one row a packet, in 276 tables of 255 */
static int packets(const uint8_t *file)
{
    uint8_t packet[BH_LARGEST_PACKET];
    for (uint32_t n = 0; n < 276 * 255; n++) {
        uint64_t answer = bh_pack(file, BH_LARGEST_FILE, 1, 1, 0, 1, 255, 255, n, packet, sizeof packet);
        if (answer != 256 * 273 || fwrite(packet, 273, 1, stdout) != 1)
            return 1;
    }
    return fflush(stdout) != 0;
}

int main(int count, char **words)
{
    size_t room = BH_USABLE_STORE + 4096;
    uint8_t *file = malloc(room), *store = malloc(room), *out = malloc(room);
    if (file == NULL || store == NULL || out == NULL)
        return 2;
    /* the bytes from seed 1, as reference/README.md has them */
    uint32_t x = 1;
    for (size_t i = 0; i < room; i++) {
        x = x * 1664525 + 1013904223;
        file[i] = (uint8_t)(x >> 24);
    }
    if (count == 2 && strcmp(words[1], "packets") == 0)
        return packets(file);
    memset(store, 0xEE, room);
    packing(file);
    house(file, store);
    column_packing(file);
    stores(store);
    largest(file, store, out);
    largest_columns(file, store, out);
    many_losses(file, store, out);
    most_slots(file, store, out);
    mended(file, store);
    places();
    descriptions(file, store, out);
    nothing();
    printf("limits: %d cases, %d wrong\n", told, wrong);
    return wrong != 0;
}
