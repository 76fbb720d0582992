/*
 * brithelva.h: packets, rows, collected files and description files of the data service of FM digital radio.
 *
 * Every function takes any bytes and any numbers, ends, and does exactly what is written here: each is proved to. Nothing is
 * allocated, nothing is kept between calls, and no byte is read or written beyond the lengths that are given. A pointer may be
 * NULL where its length is 0. Two lent parts must not overlap, and no other thread may write to them during a call.
 *
 * Answers. answer = number + 256 * value. Number 0 is accepted; any other is a refusal (enum bh_refusal below), and after a
 * refusal the record, the store and every output hold what they held before the call. The value is the refusal's extra value,
 * or what is said at the function; 0 where nothing is said. bh_number() and bh_value() take an answer apart.
 *
 * Places. A station sends a file (type 1) and the description of it (type 2) under one resource, as two sequences of packets that are
 * numbered and counted each by itself. So a place belongs to a resource and a type together, and no two places in use have both alike:
 * a file and its description are collected side by side, in two places, and each is asked for, handed out and closed by itself. A call
 * that names a place takes the type behind the resource, as bh_pack and bh_open do.
 *
 * Editions. Two texts differ in what a sender writes where a packet has nothing to say. By GY/T 268.2 (edition 1) the four reserved bits of
 * its header are one, and M is 255 where the file is not protected; by the data broadcasting text (edition 2) all of these are zero. Under
 * protection M is the number of rows in either. A place is opened in one edition and takes packets of that edition alone; others are 33,
 * and a packet of neither is taken by no place. A call that names no edition means 2. Where a station's edition is not known, give
 * packets of it to bh_read_fields, whose tenth number tells it, and open by bh_open_as in that one. No CRC is looked at there, so a single
 * packet may be noise: ask several.
 *
 * Orders. The coded table of a protected file, M rows of 255 bytes, is sent in one of two orders. In row order (0) a packet carries whole rows,
 * and each row is repaired by itself, up to eight wrong bytes of it, before the packet's CRC is judged. In column order (1) the tables are sent
 * column by column, column 0 first, each from row 0 to row M - 1, one table behind the other, and cut into packets of any size: so a packet
 * that is lost costs each row a few bytes only. Its packets are judged by their CRC alone and nothing in them is repaired: a single wrong byte
 * loses the packet. What was lost is restored when the file is handed out, in every row that lacks at most sixteen bytes. A place is opened in
 * one order; nothing in a packet says which one its sender uses. Where none is named row order is meant, and without protection there is no
 * other. What a caller can get wrong, though each call does what is said here:
 * - A place in the wrong order collects nothing of use. Packets sent by columns are 7 at a row place where their size is no multiple of 255, and
 *   else 13 or 14, unless their bytes are coded rows all the same, as zeros alone are (where M is 1 both orders are one). Packets sent by
 *   rows are stored in a column place, if count and M agree and they came without a wrong byte; that is found when the file is handed out,
 *   nearly always by 32.
 * - Wrong bytes are found by a row with at most fifteen losses, and never put right: 32. A row with sixteen losses fits some coded row whatever
 *   its other bytes are, so a wrong one goes unnoticed there, and the row is filled with other bytes than were sent. A store that may have
 *   changed since is judged by checks of the caller's own before a file is handed out of it.
 * - The size in column order is the sender's: with another one every packet has another number and other bytes.
 */
#ifndef BRITHELVA_H
#define BRITHELVA_H

#include <stddef.h>
#include <stdint.h>

#ifdef __cplusplus
extern "C" {
#endif

enum bh_limit {
    BH_HEADER = 14,           /* bytes of a packet before its payload */
    BH_CRC = 4,               /* bytes behind it */
    BH_LARGEST_PAYLOAD = 4077,
    BH_LARGEST_PACKET = 4095,
    BH_SMALLEST_PACKET = 19,
    BH_ROW = 255,             /* bytes of a row: 239 information bytes, then 16 checks */
    BH_ROW_INFO = 239,
    BH_ROW_CHECKS = 16,
    BH_HOUSE_ROWS = 32,       /* the house setting's M */
    BH_HOUSE_SIZE = 3825,     /* and its size: fifteen rows a packet, and slots for them */
    BH_ROW_ORDER = 0,
    BH_COLUMN_ORDER = 1,
    BH_PLACES = 8,
    BH_PLACE = 20,            /* bytes of a place */
    BH_RECORD = 160,          /* bytes of a record, its eight places; all 0 is a fresh one */
    BH_FIELDS = 10,           /* numbers of bh_read_fields and bh_read_header */
    BH_LARGEST_FILE = 16777216,
    BH_USABLE_STORE = 16777216, /* only so many bytes of a longer store are used */
    BH_LARGEST_COUNT = 1048575,
    BH_DESCRIPTION_VALUES = 30, /* numbers of a description's attributes, enum bh_attribute below */
    BH_DESCRIPTION_FIXED = 122, /* with the lengths of its five texts, room that a description always fits */
    BH_NO_CHARSET = 255         /* stands for an empty line 10 */
};

enum bh_refusal {
    BH_ACCEPTED = 0,
    BH_SHORT = 1,       /* a packet of fewer than 19 bytes; a row call with a wrong length */
    BH_MARK = 2,        /* the start mark is not 49 59 69 */
    BH_LENGTH = 3,      /* the length field differs from the length given */
    BH_TYPE = 4,        /* type 3 */
    BH_PROTECTION = 5,  /* protection 2 or 3; or 1 with M = 0 */
    BH_NUMBER = 6,      /* packet number not below the count, or a count that the type does not have */
    BH_ROWS = 7,        /* protection 1, and the payload is not whole rows; passed over by bh_offer where a column place has the packet's resource
                         * and type, and by bh_read_header */
    BH_RESOURCE = 8,    /* resource 0 */
    BH_RECORD_BAD = 9,  /* the record is not 160 bytes, or one of its places is out of range (its edition and its order too), passes the
                         * store, meets another, or has resource and type of another */
    BH_UNKNOWN = 10,    /* no place has this resource and this type; so for every type but 1 and 2, a packet of a stream (type 0) too */
    BH_OTHER = 11,      /* update, count, protection, or M under protection, differs from the place of this resource and type */
    BH_WIDE = 12,       /* the payload is longer than the place's slots */
    BH_REPAIR = 13,     /* a row has no coded row within eight bytes; value: the first such row, 0 for a row alone. Never of a column place */
    BH_CRC_BAD = 14,    /* the CRC differs */
    BH_SLOT = 15,       /* the store is damaged: a slot's length is out of range; in a column place, above the slot size */
    BH_CONFLICT = 16,   /* the slot holds a different payload, which stays */
    BH_FIELD = 17,      /* an argument is out of its range; an edition other than 1 or 2 too, an order above 1, and order 1 without
                         * protection */
    BH_HELD = 18,       /* the resource is open already under this type */
    BH_FULL = 19,       /* all eight places are in use */
    BH_ROOM = 20,       /* no room for the slots in the store */
    BH_MISSING = 21,    /* a packet has not come yet; value: the lowest such number. Never of a column place */
    BH_SHAPE = 22,      /* the joined rows are not whole tables; in a column place, a packet that came has another length than it must have */
    BH_SIZE = 23,       /* the file's length is 0 or above the limit, or is not the one that came */
    BH_PADDING = 24,    /* a position beyond the file's length is not 0 */
    BH_COUNT = 25,      /* the file would need more than 1048575 packets */
    BH_OUTPUT = 26,     /* the output is too short */
    BH_LINE = 29,       /* a line of a description has a fault; value: the line, 1 to 15 */
    BH_EXTRA = 30,      /* bytes stand behind line 15 of a description */
    BH_LOST = 31,       /* a row of a column place lacks more than sixteen bytes, so more packets are needed; value: the first such row,
                         * counted through all tables: row r of table t is t * M + r */
    BH_CODE = 32,       /* in some row of a column place the bytes that came fit no coded row: one of its packets is not what was sent, or
                         * packets of two files were mixed */
    BH_EDITION = 33     /* the packet is of another edition than the place, or of neither; judged straight behind 11 */
};

static inline unsigned bh_number(uint64_t answer) { return (unsigned)(answer & 255); }
static inline uint64_t bh_value(uint64_t answer) { return answer >> 8; }

/* A place of the record. It is unused exactly if its resource is 0. A program reads it to list what is open, by resource and type, since a
 * resource may be there twice; it is changed by bh_open and bh_close alone. */
struct bh_place {
    uint16_t resource;
    uint8_t type;
    uint8_t update;
    uint32_t count;
    uint8_t protection;
    uint8_t rows; /* 0 without protection, in either edition */
    uint16_t slot;
    uint32_t start;
    uint16_t edition; /* 1 or 2; 0 in a place that is unused */
    uint16_t order;   /* BH_ROW_ORDER or BH_COLUMN_ORDER; 0 without protection, and in a place that is unused */
};

/* Place i of a record; all 0 for i above 7. In the record a place has twenty bytes, its numbers in the order of the struct, each
 * little-endian, one straight behind the other. So the struct is not laid over them: a compiler gives it other bytes between, or more.
 * A record that was kept from before is shorter, and every call refuses it by 9. One of 160 is made of it place by place. From before there
 * were orders it has 144 bytes: each place its eighteen bytes, then 0, 0. From before editions it has 128: each place its sixteen
 * bytes, then 2, 0 for a place in use and 0, 0 for one that is not, then 0, 0. */
static inline struct bh_place bh_place_at(const uint8_t *record, unsigned i)
{
    struct bh_place p = {0, 0, 0, 0, 0, 0, 0, 0, 0, 0};
    if (i < BH_PLACES) {
        const uint8_t *b = record + (size_t)BH_PLACE * i;
        p.resource = (uint16_t)(b[0] | b[1] << 8);
        p.type = b[2];
        p.update = b[3];
        p.count = b[4] | (uint32_t)b[5] << 8 | (uint32_t)b[6] << 16 | (uint32_t)b[7] << 24;
        p.protection = b[8];
        p.rows = b[9];
        p.slot = (uint16_t)(b[10] | b[11] << 8);
        p.start = b[12] | (uint32_t)b[13] << 8 | (uint32_t)b[14] << 16 | (uint32_t)b[15] << 24;
        p.edition = (uint16_t)(b[16] | b[17] << 8);
        p.order = (uint16_t)(b[18] | b[19] << 8);
    }
    return p;
}

/* The CRC-32 of n bytes: polynomial 04C11DB7, most significant bit first, all ones at the start, complemented at the end. */
uint32_t bh_crc32(const uint8_t *bytes, size_t n);

/* The sixteen checks of 239 information bytes, written to the start of `checks`. Bytes behind them stay.
 * Refusals: 1 where n is not 239; 26 where room is below 16. */
uint64_t bh_encode_row(const uint8_t *info, size_t n, uint8_t *checks, size_t room);

/* The one coded row that differs from the given 255 bytes in at most eight of them, written to the start of `fixed`. Value: in how many
 * it differs, 0 to 8, checks as well as information bytes. A row that was sent and altered in more than eight may lie within eight of
 * another coded row: then that one is written, and the value is how far it is.
 * Refusals: 1 where n is not 255; 13 where there is no such row; 26 where room is below 255. */
uint64_t bh_repair_row(const uint8_t *row, size_t n, uint8_t *fixed, size_t room);

/* The fields of a packet, as sent, and its edition: ten numbers, resource, number, update, length, count, type, protection, rows, reserved,
 * edition, written to the start of `fields`; room counts numbers, not bytes. Types 0, 1 and 2 are read. The CRC is not looked at.
 * The edition is 1 where reserved is 15 and, without protection, rows is 255; 2 where reserved is 0 and, without protection, rows is 0; else
 * 0, for neither, which is no refusal here, though no place takes such a packet. A stream has one too.
 * A protected packet whose payload is not whole rows is 7, which a sender in column order may well send: bh_read_header takes it.
 * Refusals: 1 to 8, the first that applies; 26 where room is below 10. */
uint64_t bh_read_fields(const uint8_t *packet, size_t n, uint32_t *fields, size_t room);

/* The same for packets of either order: what is 7 there is judged on, and read. Of a packet that bh_read_fields takes it gives the same numbers.
 * Nothing among them tells the order: a payload that is not whole rows was not sent by rows, but whole rows may have been sent in either.
 * Refusals: 1 to 6 and 8, the first that applies; 26 where room is below 10. */
uint64_t bh_read_header(const uint8_t *packet, size_t n, uint32_t *fields, size_t room);

/* Writes packet `number` of a file of n bytes to the start of `out`. Value: the packet's length, at most 4095.
 * resource 1 to 65535; type 1 (file) or 2 (description file); update 0 to 15; protection 0 or 1; rows (M) 1 to 255 with
 * protection, any without; size (P), the payload of every packet but the last: 1 to 4077, with protection a multiple of 255 up
 * to 3825; edition 1 or 2; order 0 (rows), or with protection 1 (columns), and then the size is 1 to 4077. A file has as many packets as its first
 * packet's count field says. In column order T = n / (239 * M) rounded up tables are sent as 255 * M * T bytes, of which byte i is in table
 * i / (255 * M); within the table byte j is row j mod M, column j / M. The last packet carries what remains, 1 to `size` bytes.
 * Without protection the M that is written is the edition's, 255 or 0, whatever `rows` says. The order stands behind the edition and before the
 * number: with two of the three exchanged a call still compiles, and writes another packet, or none.
 * Refusals, the first that applies: 17 an argument out of range; 23 n is 0 or above 16,777,216; 25 more than 1048575 packets;
 * 6 no packet has this number; 26 the packet does not fit room. */
uint64_t bh_pack_as(const uint8_t *file, size_t n, uint16_t resource, uint8_t type, uint8_t update, uint8_t protection,
                    uint8_t rows, uint16_t size, uint16_t edition, uint16_t order, uint32_t number, uint8_t *out, size_t room);

/* The same in edition 2 and row order. */
uint64_t bh_pack(const uint8_t *file, size_t n, uint16_t resource, uint8_t type, uint8_t update, uint8_t protection,
                 uint8_t rows, uint16_t size, uint32_t number, uint8_t *out, size_t room);

/* The same at the house setting: protection 1, 32 rows, size 3825 (fifteen rows a packet), edition 2, row order. Before version 6 the size was
 * 255, one row a packet: a program that packs by this call and opens its places with slots of 255 bytes gets 11, since a file has fewer packets
 * now, or 12 where the count agrees and the payload is longer than 255. It has to name its size, here by bh_pack or there by bh_open. */
uint64_t bh_pack_house(const uint8_t *file, size_t n, uint16_t resource, uint8_t type, uint8_t update, uint32_t number,
                       uint8_t *out, size_t room);

/* Opens a place in which `count` packets of a resource and a type are collected: the first unused one of the record, its slots at the
 * lowest start of the store where count * (slot + 2) bytes fit. Writes the place into the record and the length 0 into each slot; no
 * other byte of the store changes. rn is 160; sn is the store's length. `slot` has the range of bh_pack_as's size in this order, `edition` is 1 or
 * 2, `order` is 0 (rows) or, with protection, 1 (columns).
 * In column order `slot` has to be the sender's size exactly, not only as large: a packet is restored by where its bytes stand in the table.
 * With a slot that is larger nothing is refused until hand out, which then gives 23 or 22. The size is the payload of any packet but the last.
 * Without protection any `rows` is taken and 0 is held, also where the edition's packets carry 255.
 * A place opened in the edition that a station does not send collects nothing: each of its packets is 33. A file and its description may be
 * of different editions.
 * A file and its description are two places, with two counts and settings of their own: the one that is not opened is not collected,
 * though it comes under the same resource. Nothing asks that their updates agree; a caller that reads one by the other compares them.
 * Refusals: 9; 17 an argument out of range (count 1 to 1048575); 18 only where resource and type are those of a place; 19; 20. */
uint64_t bh_open_as(uint8_t *record, size_t rn, uint8_t *store, size_t sn, uint16_t resource, uint8_t type, uint8_t update,
                    uint32_t count, uint8_t protection, uint8_t rows, uint16_t slot, uint16_t edition, uint16_t order);

/* The same in edition 2 and row order. */
uint64_t bh_open(uint8_t *record, size_t rn, uint8_t *store, size_t sn, uint16_t resource, uint8_t type, uint8_t update,
                 uint32_t count, uint8_t protection, uint8_t rows, uint16_t slot);

/* The same at the house setting: protection 1, 32 rows, slots of 3825, edition 2, row order. Packets with shorter payloads, of files packed in
 * another size, are taken too if `count` is theirs; each slot has room for 3825 bytes all the same. A place that was opened with slots of 255,
 * as this call did before version 6, keeps them, and goes on as it was. */
uint64_t bh_open_house(uint8_t *record, size_t rn, uint8_t *store, size_t sn, uint16_t resource, uint8_t type, uint8_t update,
                       uint32_t count);

/* Offers one packet. With protection each row is repaired first; then the CRC has to agree. Accepted: it is stored in its slot, payload
 * first and length last, or it is a repeat, and the slot holds these bytes already. The record is only read.
 * At a column place nothing is repaired: the CRC has to agree with the packet as it came, a single wrong byte loses it, and mended is 0. Whether
 * the packet is whole rows is not asked where a column place has its resource and type, though M, count or edition may then differ (11, 33).
 * Value: 2 * mended + (0 stored, 1 a repeat). bh_is_repeat() and bh_mended() take it apart: a program that takes a value of 0 for stored,
 * or of 1 for a repeat, errs as soon as a byte was mended.
 * Mended are the bytes in which the packet's rows, as they came, differ from those that are stored: at most 120, eight in each of fifteen
 * rows, checks as well as information bytes; 0 without protection. Header and CRC are never mended. A copy of a sent packet that is
 * altered in k bytes of its rows, at most eight a row, and is accepted, is answered with k. A row altered in more than eight may lie
 * within eight of another coded row; the CRC nearly always refuses it then, and where it agrees the count says nothing of what was sent.
 * A packet that comes twice is mended twice: a repeat has a count of its own. A refusal has none, whatever was repaired before it.
 * The packet names its place itself: the resource by its bytes 3 and 4, the type by the two high bits of byte 12, both before any CRC
 * has confirmed them. A packet of a stream is always 10, as is one of a description of whose resource only the file is open.
 * The edition is judged likewise by the header alone: 33 may be noise, and many of them on a place mean that it was opened in the wrong one.
 * Refusals, the first that applies: 9; 1 to 8 as bh_read_fields, or as bh_read_header where a column place has the resource and type; 10; 11; 33;
 * 12 to 16, without 13 at a column place. */
uint64_t bh_offer(const uint8_t *record, size_t rn, uint8_t *store, size_t sn, const uint8_t *packet, size_t n);

/* Of an answer of bh_offer, and of no other call: the value of bh_repair_row is the count itself. Both are 0 for a refusal, whose value
 * is another: 13 with row 1 is no repeat. */
static inline int bh_is_repeat(uint64_t answer) { return bh_number(answer) == BH_ACCEPTED && (bh_value(answer) & 1) == 1; }
static inline uint32_t bh_mended(uint64_t answer) { return bh_number(answer) == BH_ACCEPTED ? (uint32_t)(bh_value(answer) >> 1) : 0; }

/* How the place of a resource and a type stands. Value: filled + 2^24 * (lowest empty + 1), the number of slots that are filled and
 * the lowest that is empty; the second part is 0 where none is. bh_filled() and bh_lowest_empty() take it apart. A column place can be handed
 * out with empty slots: whether those that are filled suffice is told by bh_hand_out alone, with 31 where they do not.
 * Refusals: 9; 10; 15. */
uint64_t bh_status(const uint8_t *record, size_t rn, const uint8_t *store, size_t sn, uint16_t resource, uint8_t type);

static inline uint32_t bh_filled(uint64_t answer) { return (uint32_t)(bh_value(answer) & 0xFFFFFF); }
/* the lowest empty slot, or -1 */
static inline int32_t bh_lowest_empty(uint64_t answer) { return (int32_t)(bh_value(answer) >> 24) - 1; }

/* Writes what the place of a resource and a type collected, `length` bytes, to the start of `out`; bytes behind them stay.
 * The type stands before the length: with the two exchanged a call still compiles, and asks for another place. No packet carries the
 * length. That of a file can stand in line 12 of its description (BH_D_FILE_LENGTH), if that is of the same resource and update. Of a
 * description the text ends at its last LF; one that came with protection can be had at the whole length of its tables, 239 * M * (the
 * bytes of all payloads / 255 / M), and cut there, since what is behind has to be 0. For with protection a length that is too large is
 * taken too, up to the end of the last table, and zeros are written behind the file; without, only the one that came.
 * Refusals: 9; 10; 15; 21 a packet is missing; 22; 23 the length is not the one that came; 24; 26 room is below length.
 * Of a column place: the bytes of empty slots are losses, and every row that lacks at most sixteen bytes is restored; nothing else in a row
 * changes. A description can be had there at 239 * M * T, with the T for which 255 * M * T / slot, rounded up, is the count; of several the
 * least where the last packet is lost. How long a lost last packet was is told by `length` alone, through the number of tables that it needs. Where a slot is longer than a
 * table, and the last packet is lost, files of several numbers of tables have the same count: one table too many is then 31, but one too
 * few is not found, and the file comes without its end. So the length has to come from where the file does, from its description.
 * Refusals there: 9; 10; 15; 23 `length` is 0 or above 16,777,216, or a file of this length has another count; 22 a slot that is filled has
 * another length than its packet must have; 31; 32; 24, judged of restored bytes too; 26. All of one before any of the next. */
uint64_t bh_hand_out(const uint8_t *record, size_t rn, const uint8_t *store, size_t sn, uint16_t resource, uint8_t type,
                     uint64_t length, uint8_t *out, size_t room);

/* Closes the place of a resource and a type: all its fields become 0. The store is only read; its room serves later openings. A place
 * of the same resource and the other type stays open.
 * Refusals: 9; 10. */
uint64_t bh_close(uint8_t *record, size_t rn, const uint8_t *store, size_t sn, uint16_t resource, uint8_t type);

/* ---- description files
 *
 * A description file tells fifteen attributes of a file or a stream: fifteen lines, each its two-digit number, a colon and the value, in
 * order, ended by LF. Texts are bytes of UTF-8; they have no NUL at their end, and may hold any character but CR and LF, NUL too. */

/* The attributes as thirty numbers. A text is told as a part: where it begins in the text that was lent to that call, and its length in
 * bytes. So the parts that a reading gives speak of the text that was read, and of no copy that has moved or changed. */
enum bh_attribute {
    BH_D_SERVICE = 0,       /* line 01: 9000 to 9999 */
    BH_D_MODE = 1,          /* line 02: 0 a stream, 1 a file */
    BH_D_RESOURCE = 2,      /* line 03: 1 to 65535 */
    BH_D_UPDATE = 3,        /* line 04: 0 to 15 */
    BH_D_NAME_AT = 4,       /* line 05: a text, never empty */
    BH_D_NAME_LENGTH = 5,
    BH_D_KIND = 6,          /* line 06: 0 to 4, 21 to 24, 41 to 44 or 61 in mode 1; 128 to 131 in mode 0; the others are reserved */
    BH_D_TITLE_AT = 7,      /* line 07: a text; length 0 where there is none, as in lines 08, 09 and 11 */
    BH_D_TITLE_LENGTH = 8,
    BH_D_SUMMARY_AT = 9,    /* line 08 */
    BH_D_SUMMARY_LENGTH = 10,
    BH_D_KEYWORDS_AT = 11,  /* line 09 */
    BH_D_KEYWORDS_LENGTH = 12,
    BH_D_CHARSET = 13,      /* line 10: 0 to 4 where the kind is 21; BH_NO_CHARSET, and not 0, for any other kind */
    BH_D_PATH_AT = 14,      /* line 11: a text whose form is not judged: it may lead anywhere */
    BH_D_PATH_LENGTH = 15,
    BH_D_FILE_LENGTH = 16,  /* line 12: 1 to 16777216 in mode 1; 0 for none in mode 0 */
    BH_D_START_YEAR = 17,   /* line 13: a real date of the Gregorian calendar, year 1 to 9999, and a time of day, seconds to 59; */
    BH_D_START_MONTH = 18,  /*          all six are 0 where there is none */
    BH_D_START_DAY = 19,
    BH_D_START_HOUR = 20,
    BH_D_START_MINUTE = 21,
    BH_D_START_SECOND = 22,
    BH_D_END_YEAR = 23,     /* line 14: likewise, and not before the start where both are given */
    BH_D_END_MONTH = 24,
    BH_D_END_DAY = 25,
    BH_D_END_HOUR = 26,
    BH_D_END_MINUTE = 27,
    BH_D_END_SECOND = 28,
    BH_D_DELETE = 29        /* line 15: 1 the file is to be deleted, 0 it is not */
};

/* Reads a description of n bytes: the thirty numbers of enum bh_attribute, written to the start of `values`; numbers behind them stay.
 * room counts numbers, not bytes. The text is only read, and may have any length. A line may also end in CR LF; a CR anywhere else is a
 * fault, as are leading zeros, a byte order mark and a last line without LF. A text that is empty has length 0, and stands where its
 * line's value would stand.
 * Refusals, the first that applies: 29 where some line has a fault (it is missing, misnumbered, has no colon, or its value is none that
 * it may have), value: the lowest such line; what two lines have wrong between them (kind and mode, charset and kind, length and mode,
 * end and start) is a fault of the later; 30 where bytes stand behind line 15, an empty line too; 26 where room is below 30. */
uint64_t bh_read_description(const uint8_t *text, size_t n, uint64_t *values, size_t room);

/* Writes the description of thirty numbers to the start of `out`; bytes behind it stay. Value: its length. The five texts are parts of
 * `text`, which has n bytes; they may overlap, repeat and stand in any order. Every line ends in LF. What is written, bh_read_description
 * takes, and gives the same numbers and the same texts: only where the texts begin is told of what was written.
 * BH_DESCRIPTION_FIXED and the lengths of the five texts together are room that always suffices; in texts that overlap a byte counts as
 * often as it is named, so n says nothing of it.
 * What stands for 'none' is BH_NO_CHARSET, a length of 0 and six zeros: charset 0 is a charset, and refused for any kind but 21; a time
 * with year 0 and any other number not 0 is refused.
 * Refusals, the first that applies: 17 where count is not 30; 29 where an attribute cannot stand in its line, value: the lowest such line (a
 * number out of its range; a part that begins or ends beyond the lent text, an empty one too; a text that is no valid UTF-8 or holds CR
 * or LF; what two lines have wrong between them, of the later); 26 where the description does not fit room. */
uint64_t bh_write_description(const uint64_t *values, size_t count, const uint8_t *text, size_t n, uint8_t *out, size_t room);

#ifdef __cplusplus
}
#endif
#endif
