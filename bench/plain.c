/* A reader of description files as engineers write it in C, beside which the library's is measured: lines by memchr, numbers by strtol, UTF-8 by a table of
 * states, and the same rules. Nothing here is proved. */
#include "plain.h"
#include "brithelva.h"

#include <stdlib.h>
#include <string.h>

/* ---- UTF-8: the class of each byte, and the state behind each class; CR is in the class of bytes that nothing takes */

enum { WHOLE, ONE, TWO, THREE, AFTER_E0, AFTER_ED, AFTER_F0, AFTER_F4, WRONG, STATES };
enum { ASCII, LOW, MIDDLE, HIGH, LEAD_2, E0, LEAD_3, ED, F0, LEAD_4, F4, NEVER, CLASSES };

static const uint8_t class_of[256] = {
    ['\r'] = NEVER,
    [0x80 ... 0x8F] = LOW, [0x90 ... 0x9F] = MIDDLE, [0xA0 ... 0xBF] = HIGH, [0xC0 ... 0xC1] = NEVER, [0xC2 ... 0xDF] = LEAD_2,
    [0xE0] = E0, [0xE1 ... 0xEC] = LEAD_3, [0xED] = ED, [0xEE ... 0xEF] = LEAD_3,
    [0xF0] = F0, [0xF1 ... 0xF3] = LEAD_4, [0xF4] = F4, [0xF5 ... 0xFF] = NEVER,
};

static const uint8_t next[STATES][CLASSES] = {
    [WHOLE] = {WHOLE, WRONG, WRONG, WRONG, ONE, AFTER_E0, TWO, AFTER_ED, AFTER_F0, THREE, AFTER_F4, WRONG},
    [ONE] = {WRONG, WHOLE, WHOLE, WHOLE, WRONG, WRONG, WRONG, WRONG, WRONG, WRONG, WRONG, WRONG},
    [TWO] = {WRONG, ONE, ONE, ONE, WRONG, WRONG, WRONG, WRONG, WRONG, WRONG, WRONG, WRONG},
    [THREE] = {WRONG, TWO, TWO, TWO, WRONG, WRONG, WRONG, WRONG, WRONG, WRONG, WRONG, WRONG},
    [AFTER_E0] = {WRONG, WRONG, WRONG, ONE, WRONG, WRONG, WRONG, WRONG, WRONG, WRONG, WRONG, WRONG},
    [AFTER_ED] = {WRONG, ONE, ONE, WRONG, WRONG, WRONG, WRONG, WRONG, WRONG, WRONG, WRONG, WRONG},
    [AFTER_F0] = {WRONG, WRONG, TWO, TWO, WRONG, WRONG, WRONG, WRONG, WRONG, WRONG, WRONG, WRONG},
    [AFTER_F4] = {WRONG, TWO, WRONG, WRONG, WRONG, WRONG, WRONG, WRONG, WRONG, WRONG, WRONG, WRONG},
    [WRONG] = {WRONG, WRONG, WRONG, WRONG, WRONG, WRONG, WRONG, WRONG, WRONG, WRONG, WRONG, WRONG},
};

int plain_text(const uint8_t *p, size_t n)
{
    unsigned state = WHOLE;
    for (size_t i = 0; i < n; i++)
        state = next[state][class_of[p[i]]];
    return state == WHOLE;
}

/* ---- values */

static int digit(uint8_t b)
{
    return b >= '0' && b <= '9';
}

/* a number that fills the value; the LF behind it ends strtol */
static int number_in(const uint8_t *p, size_t n, uint64_t *to)
{
    char *end;
    if (n == 0 || n > 8 || !digit(p[0]) || (p[0] == '0' && n > 1))
        return 0;
    *to = (uint64_t)strtol((const char *)p, &end, 10);
    return (const uint8_t *)end == p + n;
}

int plain_kind(uint64_t kind, uint64_t mode)
{
    switch (kind) {
    case 0: case 1: case 2: case 3: case 4: case 21: case 22: case 23: case 24: case 41: case 42: case 43: case 44: case 61:
        return mode == 1;
    case 128: case 129: case 130: case 131:
        return mode == 0;
    default:
        return 0;
    }
}

int plain_real(const uint64_t *t)
{
    static const uint8_t days[12] = {31, 28, 31, 30, 31, 30, 31, 31, 30, 31, 30, 31};
    if (t[0] < 1 || t[0] > 9999 || t[1] < 1 || t[1] > 12 || t[3] > 23 || t[4] > 59 || t[5] > 59)
        return 0;
    uint64_t leap = t[1] == 2 && t[0] % 4 == 0 && (t[0] % 100 != 0 || t[0] % 400 == 0);
    return t[2] >= 1 && t[2] <= days[t[1] - 1] + leap;
}

int plain_after(const uint64_t *a, const uint64_t *b)
{
    for (int i = 0; i < 6; i++)
        if (a[i] != b[i])
            return a[i] > b[i];
    return 0;
}

static int time_in(const uint8_t *p, size_t n, uint64_t *t)
{
    static const char form[] = "dddd.dd.dd/dd:dd:dd";
    static const uint8_t at[6] = {0, 5, 8, 11, 14, 17};
    if (n != 19)
        return n == 0;
    for (int i = 0; i < 19; i++)
        if (form[i] == 'd' ? !digit(p[i]) : p[i] != (uint8_t)form[i])
            return 0;
    for (int i = 0; i < 6; i++)
        t[i] = (uint64_t)strtol((const char *)p + at[i], NULL, 10);
    return plain_real(t);
}

/* ---- lines */

static int range_in(const uint8_t *p, size_t n, uint64_t *to, uint64_t low, uint64_t high)
{
    return number_in(p, n, to) && *to >= low && *to <= high;
}

static int part_in(const uint8_t *p, size_t n, uint64_t *to, size_t at)
{
    to[0] = at;
    to[1] = n;
    return plain_text(p, n);
}

/* the value of line k, whose lines before are sound */
static int value_in(int k, const uint8_t *p, size_t n, size_t at, uint64_t *v)
{
    switch (k) {
    case 1: return range_in(p, n, v + BH_D_SERVICE, 9000, 9999);
    case 2: return range_in(p, n, v + BH_D_MODE, 0, 1);
    case 3: return range_in(p, n, v + BH_D_RESOURCE, 1, 65535);
    case 4: return range_in(p, n, v + BH_D_UPDATE, 0, 15);
    case 5: return n > 0 && part_in(p, n, v + BH_D_NAME_AT, at);
    case 6: return number_in(p, n, v + BH_D_KIND) && plain_kind(v[BH_D_KIND], v[BH_D_MODE]);
    case 7: return part_in(p, n, v + BH_D_TITLE_AT, at);
    case 8: return part_in(p, n, v + BH_D_SUMMARY_AT, at);
    case 9: return part_in(p, n, v + BH_D_KEYWORDS_AT, at);
    case 10: return v[BH_D_KIND] == 21 ? range_in(p, n, v + BH_D_CHARSET, 0, 4) : n == 0;
    case 11: return part_in(p, n, v + BH_D_PATH_AT, at);
    case 12: return v[BH_D_MODE] == 1 ? range_in(p, n, v + BH_D_FILE_LENGTH, 1, BH_LARGEST_FILE) : n == 0;
    case 13: return time_in(p, n, v + BH_D_START_YEAR);
    case 14: return time_in(p, n, v + BH_D_END_YEAR) && (n == 0 || !plain_after(v + BH_D_START_YEAR, v + BH_D_END_YEAR));
    default: return range_in(p, n, v + BH_D_DELETE, 0, 1);
    }
}

uint64_t plain_read(const uint8_t *text, size_t n, uint64_t *values, size_t room)
{
    uint64_t v[BH_DESCRIPTION_VALUES] = {[BH_D_CHARSET] = BH_NO_CHARSET};
    size_t at = 0;
    for (int k = 1; k <= 15; k++) {
        const uint8_t *p = text + at, *end = n > at ? memchr(p, '\n', n - at) : NULL;
        if (end == NULL || end - p < 3 || p[0] != '0' + k / 10 || p[1] != '0' + k % 10 || p[2] != ':')
            return BH_LINE + 256 * (uint64_t)k;
        size_t length = (size_t)(end - p) - 3;
        at += length + 4;
        if (length > 0 && end[-1] == '\r')
            length--;
        if (!value_in(k, p + 3, length, (size_t)(p + 3 - text), v))
            return BH_LINE + 256 * (uint64_t)k;
    }
    if (at < n)
        return BH_EXTRA;
    if (room < BH_DESCRIPTION_VALUES)
        return BH_OUTPUT;
    memcpy(values, v, sizeof v);
    return BH_ACCEPTED;
}
