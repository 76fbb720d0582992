/*
 * Calls that read and write description files: sound texts, texts with a byte, a line or a value altered, and values of every sort. What is read is in range and
 * is what is written of it; what is written is read back as the same attributes.
 */
#include "lent.h"

#include <inttypes.h>
#include <string.h>

enum { VALUES = 32, THIRTY = BH_DESCRIPTION_VALUES };

/* a description's numbers and two behind them, and the first of them as they are lent */
static uint64_t values[VALUES];

static uint64_t *lend_values(size_t n)
{
    size_of(&numbers, 8 * n);
    memcpy(numbers.at, values, 8 * n);
    return (uint64_t *)(void *)numbers.at;
}

/* ---- what lines hold, sound and not */

struct piece {
    const char *at;
    size_t n;
};
#define P(text) {text, sizeof text - 1}
#define OF(list) list[pick() % (sizeof list / sizeof *list)]

static const struct piece texts[] = {
    P(""), P(""), P("n"), P("report.txt"), P("a title of some words"), P(".\\a\\b"), P("\0"), P("\x1B[2J\x7F"), P("01:9000"), P("\xC2\x80"), P("\xDF\xBF"),
    P("\xE0\xA0\x80"), P("\xE6\x96\x87\xE4\xBB\xB6"), P("\xED\x9F\xBF"), P("\xEE\x80\x80"), P("\xEF\xBF\xBF"), P("\xF0\x90\x80\x80"), P("\xF3\xBF\xBF\xBF"),
    P("\xF4\x8F\xBF\xBF"), P("\xEF\xBB\xBF"),
    P("twenty-four plain bytes.twenty-four plain bytes.twenty-four plain bytes.\xC3\xA9"),
};
static const struct piece times[] = {
    P(""), P(""), P("0001.01.01/00:00:00"), P("2000.02.29/23:59:59"), P("2024.02.29/00:00:00"), P("2024.02.29/00:00:01"),
    P("2026.04.30/12:34:56"), P("2026.12.31/00:00:00"), P("9999.12.31/23:59:59"),
};
static const struct piece wrong[] = {
    P("\xC0\x80"), P("\xC1\xBF"), P("\xE0\x9F\xBF"), P("\xED\xA0\x80"), P("\xED\xBF\xBF"), P("\xF0\x8F\xBF\xBF"), P("\xF4\x90\x80\x80"), P("\xF5\x80\x80\x80"),
    P("\x80"), P("\xBF"), P("\xE4\xBD"), P("\xF1\x80\x80"), P("\xFF"), P("\r"), P("\n"), P("\r\n"), P("\n\r"), P("0"), P("00"), P("+1"), P("-1"), P(" "), P(":"), P("1e1"),
    P("1234567890123456789012345678901234567890"), P("18446744073709551617"), P("01:9000\n"), P("\n07:"), P("15:0\n"),
    P("1900.02.29/00:00:00"), P("2023.02.29/00:00:00"), P("2024.02.30/00:00:00"), P("2026.04.31/00:00:00"), P("2026.13.01/00:00:00"), P("2026.00.01/00:00:00"),
    P("2026.01.00/00:00:00"), P("0000.01.01/00:00:00"), P("2026.01.01/24:00:00"), P("2026.01.01/00:60:00"), P("2026.01.01/00:00:60"), P("2026-01-01/00:00:00"),
};
static const uint16_t kinds[] = {0, 1, 4, 5, 20, 21, 21, 21, 22, 24, 25, 40, 41, 44, 45, 60, 61, 62, 127, 128, 131, 132, 255, 256};

static uint8_t text[PACKET_ROOM];
static size_t length;

static void add(const void *p, size_t n)
{
    size_t fits = n < sizeof text - length ? n : sizeof text - length;
    memcpy(text + length, p, fits);
    length += fits;
}

static void lend_text(void)
{
    size_of(&packet, length);
    memcpy(packet.at, text, length);
}

/* ---- texts */

static void add_line(int k, const void *p, size_t n)
{
    char head[4];
    snprintf(head, sizeof head, "%02d:", k);
    add(head, 3);
    struct piece another = OF(wrong);
    if (pick() % 64 == 0)
        add(another.at, another.n);
    else
        add(p, n);
    if (pick() % 8 == 0)
        add("\r", 1);
    add("\n", 1);
}

static void add_piece(int k, struct piece p)
{
    add_line(k, p.at, p.n);
}

static void add_number(int k, uint64_t low, uint64_t high, uint64_t usual)
{
    char digits[24];
    unsigned way = pick() % 64;
    uint64_t v = way == 0 ? low - 1 : way == 1 ? high + 1 : way == 2 ? low : way == 3 ? high : usual;
    add_line(k, digits, (size_t)snprintf(digits, sizeof digits, way == 4 ? "0%" PRIu64 : "%" PRIu64, v));
}

/* a description that is sound but for a fault now and then */
static void new_text(void)
{
    unsigned mode = pick() % 4 != 0, kind = OF(kinds);
    if (pick() % 8 != 0)
        kind = mode ? (pick() % 2 ? 21 : pick() % 5) : 128 + pick() % 4;
    length = 0;
    add_number(1, 9000, 9999, 9000 + wide() % 1000);
    add_number(2, 0, 1, mode);
    add_number(3, 1, 65535, 1 + wide() % 65535);
    add_number(4, 0, 15, pick() % 16);
    add_piece(5, texts[pick() % 8 == 0 ? 0 : 2 + pick() % 19]);
    add_number(6, 0, 255, kind);
    for (int k = 7; k <= 9; k++)
        add_piece(k, OF(texts));
    if (kind == 21)
        add_number(10, 0, 4, pick() % 5);
    else
        add_line(10, "3", pick() % 32 == 0);
    add_piece(11, OF(texts));
    if (mode == 1)
        add_number(12, 1, BH_LARGEST_FILE, 1 + wide());
    else
        add_line(12, "7", pick() % 32 == 0);
    unsigned start = pick() % 9, end = pick() % 8 == 0 ? pick() % 9 : start < 7 ? start + pick() % 3 : start;
    add_piece(13, times[start]);
    add_piece(14, times[end]);
    add_number(15, 0, 1, pick() % 2);
    lend_text();
}

/* where line k begins in the text as it is lent, or its end */
static size_t line_at(unsigned k)
{
    size_t at = 0;
    while (at < packet.n && k > 1)
        k -= packet.at[at++] == '\n';
    return at;
}

/* the text with `left` bytes at `at` taken out and a piece put there */
static void exchange(size_t at, size_t left, const void *p, size_t n)
{
    static uint8_t held[PACKET_ROOM];
    memcpy(held, p, n);
    length = 0;
    add(packet.at, at);
    add(held, n);
    add(packet.at + at + left, packet.n - at - left);
    lend_text();
}

/* a byte or a line altered */
static void spoil_text(void)
{
    unsigned way = pick() % 8, k = 1 + pick() % 15;
    size_t at = line_at(k), next = line_at(k + 1), any = packet.n ? wide() % packet.n : 0;
    struct piece p = OF(wrong);
    uint8_t byte = (uint8_t)pick();
    if (packet.n == 0)
        return;
    if (way == 0)
        exchange(any, 1, &byte, 1);
    else if (way == 1)
        exchange(any, 1, "", 0);
    else if (way == 2)
        exchange(pick() % 2 ? any : at + 3 < next ? at + 3 : at, 0, p.at, p.n);
    else if (way == 3)
        exchange(at, 0, packet.at + at, next - at);
    else if (way == 4)
        exchange(at, next - at, "", 0);
    else if (way == 5 && at + 4 <= next)
        exchange(at + 3, next - at - 4, p.at, p.n);
    else if (way == 6)
        exchange(any, packet.n - any, "", 0);
    else
        exchange(packet.n, 0, p.at, p.n);
}

/* ---- values */

static const uint8_t parts[] = {BH_D_NAME_AT, BH_D_TITLE_AT, BH_D_SUMMARY_AT, BH_D_KEYWORDS_AT, BH_D_PATH_AT};
enum { PARTS = sizeof parts };

static void put_time(uint64_t *to)
{
    /* six that are real or none, six that are neither */
    static const uint16_t all[12][6] = {
        {0, 0, 0, 0, 0, 0}, {1, 1, 1, 0, 0, 0}, {2000, 2, 29, 23, 59, 59}, {2024, 2, 29, 0, 0, 1}, {2026, 4, 30, 12, 34, 56}, {9999, 12, 31, 23, 59, 59},
        {1900, 2, 29, 0, 0, 0}, {2023, 2, 29, 0, 0, 0}, {2026, 4, 31, 0, 0, 0}, {2026, 1, 1, 0, 0, 60}, {0, 1, 0, 0, 0, 0}, {0, 0, 0, 0, 0, 1}};
    const uint16_t *t = all[pick() % (pick() % 16 == 0 ? 12 : 6)];
    for (int i = 0; i < 6; i++)
        to[i] = t[i];
}

/* values that mostly can be written, their texts parts of a text made of pieces */
static void new_values(void)
{
    static size_t from[8], to[8];
    unsigned mode = pick() % 4 != 0, kind = pick() % 8 == 0 ? OF(kinds) : mode ? (pick() % 2 ? 21 : pick() % 5) : 128 + pick() % 4;
    length = 0;
    for (int i = 0; i < 8; i++) {
        struct piece p = pick() % 64 == 0 ? OF(wrong) : i == 0 ? texts[2 + pick() % 19] : OF(texts);
        from[i] = length;
        add(p.at, p.n);
        to[i] = length;
    }
    lend_text();
    for (int i = 0; i < PARTS; i++) {
        unsigned k = i == 0 && pick() % 16 ? 0 : pick() % 8;
        values[parts[i]] = from[k];
        values[parts[i] + 1] = to[pick() % 16 ? k : 7] - from[k];
    }
    values[BH_D_SERVICE] = 9000 + wide() % 1000;
    values[BH_D_MODE] = mode;
    values[BH_D_RESOURCE] = 1 + wide() % 65535;
    values[BH_D_UPDATE] = pick() % 16;
    values[BH_D_KIND] = kind;
    values[BH_D_CHARSET] = kind == 21 ? pick() % 5 : BH_NO_CHARSET;
    values[BH_D_FILE_LENGTH] = mode ? 1 + wide() : 0;
    put_time(values + BH_D_START_YEAR);
    put_time(values + BH_D_END_YEAR);
    values[BH_D_DELETE] = pick() % 2;
}

static void alter_value(void)
{
    static const uint64_t edges[] = {0, 1, 2, 4, 5, 12, 13, 15, 16, 21, 23, 24, 28, 29, 30, 31, 59, 60, 128, 255, 256, 8999, 9000, 9999, 10000, 65535, 65536,
                                     BH_LARGEST_FILE, BH_LARGEST_FILE + 1, UINT32_MAX, (uint64_t)1 << 32, (uint64_t)1 << 63, UINT64_MAX};
    unsigned i = pick() % THIRTY, way = pick() % 4;
    values[i] = way == 0 ? OF(edges) : way == 1 ? values[i] + 1 : way == 2 ? values[i] - 1 : wide() % (packet.n + 2);
}

/* ---- the calls */

/* accepted; 29 with a line; 26 or the other number, without a value */
static int allowed(uint64_t answer, unsigned other)
{
    unsigned number = bh_number(answer);
    if (number == BH_LINE)
        return bh_value(answer) >= 1 && bh_value(answer) <= 15;
    return number == 0 || ((number == other || number == BH_OUTPUT) && bh_value(answer) == 0);
}

static int real(const uint64_t *t)
{
    static const uint8_t days[] = {31, 29, 31, 30, 31, 30, 31, 31, 30, 31, 30, 31};
    return (t[0] | t[1] | t[2] | t[3] | t[4] | t[5]) == 0
           || (t[0] - 1 < 9999 && t[1] - 1 < 12 && t[2] - 1 < days[t[1] - 1] && t[3] < 24 && t[4] < 60 && t[5] < 60);
}

static void check_range(const uint64_t *v, size_t n)
{
    int fine = v[BH_D_SERVICE] - 9000 < 1000 && v[BH_D_MODE] < 2 && v[BH_D_RESOURCE] - 1 < 65535 && v[BH_D_UPDATE] < 16 && v[BH_D_NAME_LENGTH] > 0;
    fine = fine && (v[BH_D_MODE] ? v[BH_D_KIND] < 62 : v[BH_D_KIND] - 128 < 4);
    fine = fine && (v[BH_D_KIND] == 21 ? v[BH_D_CHARSET] < 5 : v[BH_D_CHARSET] == BH_NO_CHARSET);
    fine = fine && (v[BH_D_MODE] ? v[BH_D_FILE_LENGTH] - 1 < BH_LARGEST_FILE : v[BH_D_FILE_LENGTH] == 0);
    fine = fine && real(v + BH_D_START_YEAR) && real(v + BH_D_END_YEAR) && v[BH_D_DELETE] < 2;
    for (int i = 0; i < PARTS; i++)
        fine = fine && v[parts[i]] <= n && v[parts[i] + 1] <= n - v[parts[i]];
    if (!fine)
        fail("an attribute out of its range was read");
}

/* what was read is what is written of it, with LF for CR LF */
static void check_reading(void)
{
    static uint8_t back[PACKET_ROOM];
    length = 0;
    for (size_t i = 0; i < packet.n; i++)
        if (packet.at[i] != '\r' || i + 1 == packet.n || packet.at[i + 1] != '\n')
            add(packet.at + i, 1);
    check_range(values, packet.n);
    if (bh_write_description(values, THIRTY, packet.at, packet.n, back, sizeof back) != 256 * length || memcmp(back, text, length) != 0)
        fail("what was read is not written back");
}

/* what was written is read as the same attributes */
static void check_writing(size_t n)
{
    uint64_t again[THIRTY];
    if (bh_read_description(out.at, n, again, THIRTY) != 0)
        fail("what was written is not read");
    check_range(again, n);
    for (int i = 0; i < PARTS; i++) {
        if (again[parts[i] + 1] == values[parts[i] + 1] && memcmp(out.at + again[parts[i]], packet.at + values[parts[i]], (size_t)values[parts[i] + 1]) != 0)
            fail("a text is read back as another");
        again[parts[i]] = values[parts[i]];
    }
    if (memcmp(again, values, sizeof again) != 0)
        fail("what was written is read back as other numbers");
}

/* the attributes at the start of out, as many as fit: so the language of cases shows what was read */
static void show_values(void)
{
    for (size_t i = 0; i < 8 * THIRTY && i < out.n / 8 * 8; i++)
        out.at[i] = (uint8_t)(values[i / 8] >> (56 - 8 * (i % 8)));
    if (transcript)
        say_digest(&out, "out");
}

static void describe_into(size_t room)
{
    uint64_t *lent = lend_values(room);
    keep_all();
    say_bytes(&packet, "bytes");
    SAY("describe %zu\n", room);
    uint64_t a = bh_read_description(packet.at, packet.n, lent, room);
    int accepted = bh_number(a) == 0;
    same(&numbers, accepted ? 8 * THIRTY : 0, "a number changed that may not");
    judge(a, allowed(a, BH_EXTRA) && !(accepted && (room < THIRTY || bh_value(a) != 0)), 0, 0, 0);
    if (accepted) {
        memcpy(values, lent, 8 * THIRTY);
        check_reading();
        show_values();
    }
}

static void compose_of(size_t count)
{
    uint64_t *lent = lend_values(count);
    keep_all();
    SAY("file 0 %d\nvalue 0", 8 * VALUES);
    for (int i = 0; i < VALUES; i++)
        SAY(" %" PRIu64, values[i]);
    SAY("\n");
    say_bytes(&packet, "bytes");
    SAY("compose %zu\n", count);
    uint64_t a = bh_write_description(lent, count, packet.at, packet.n, out.at, out.n);
    same(&numbers, 0, "a number changed that was lent to be read");
    int fits = bh_number(a) != 0 || bh_value(a) <= out.n;
    judge(a, allowed(a, BH_FIELD) && (bh_number(a) == BH_FIELD) == (count != THIRTY) && fits, (size_t)bh_value(a), 0, 0);
    if (bh_number(a) == 0)
        check_writing((size_t)bh_value(a));
    say_file();
}

void describe_one(void)
{
    describe_into(pick() % 8 == 0 ? pick() % (VALUES + 1) : THIRTY + pick() % 3);
}

void compose_one(void)
{
    compose_of(pick() % 16 == 0 ? pick() % (VALUES + 1) : THIRTY);
}

void describe_round(void)
{
    new_text();
    describe_one();
    for (unsigned k = pick() % 4; k > 0; k--) {
        if (pick() % 2)
            new_text();
        spoil_text();
        describe_one();
    }
    if (pick() % 4 == 0) {
        alter_value();
        compose_one();
    }
}

void compose_round(void)
{
    new_values();
    for (unsigned k = pick() % 3; k > 0; k--)
        alter_value();
    compose_one();
}

/* an input that is itself a description */
void describe_input(const uint8_t *data, size_t size)
{
    length = 0;
    add(data, size);
    lend_text();
    describe_into(THIRTY);
    compose_of(THIRTY);
}
