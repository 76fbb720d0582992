/* Whether slots hold what was stored. Beside the store stands a check for each 64 bytes of it: the CRC-32 of the slots of places in use that begin
 * there, of each its length and as much of its payload. And every row of a slot that was sent by rows has to be a coded row. */
#include "command.h"

#include <string.h>

enum { GATHERED = UNIT + 2 + BH_LARGEST_PAYLOAD };

/* the slots of one place that begin in a unit, one behind the other; they are disjoint, so all but the last lie within the unit */
static size_t slots_in(const struct archive *a, struct bh_place p, size_t unit, uint8_t *to)
{
    uint64_t stride = p.slot + 2u, from = (uint64_t)unit * UNIT, n = 0;
    uint64_t k = from > p.start ? (from - p.start + stride - 1) / stride : 0;
    for (; p.resource != 0 && k < p.count && p.start + k * stride < from + UNIT; k++) {
        const uint8_t *slot = slot_of(a->store, p, (uint32_t)k);
        size_t length = length_of(slot) < p.slot ? length_of(slot) : p.slot;
        memcpy(to + n, slot, 2 + length);
        n += 2 + length;
    }
    return (size_t)n;
}

/* the bytes of all slots that begin in a unit; answers how many */
static size_t gather(const struct archive *a, size_t unit, uint8_t *to)
{
    size_t n = 0;
    for (int i = 0; i < BH_PLACES; i++)
        n += slots_in(a, place_of(a->record, i), unit, to + n);
    return n;
}

static uint32_t check_of(const struct archive *a, size_t unit)
{
    uint8_t bytes[GATHERED];
    return bh_crc32(bytes, gather(a, unit, bytes));
}

uint8_t *check_at(struct archive *a, size_t unit)
{
    return a->checks + 4 * unit;
}

size_t unit_of(const struct archive *a, const uint8_t *slot)
{
    return (size_t)(slot - a->store) / UNIT;
}

/* what the check is, beside what it ought to be: 0 where they agree */
static uint32_t check_differs(struct archive *a, size_t unit)
{
    return check_of(a, unit) ^ (uint32_t)number_at(check_at(a, unit), 4);
}

uint32_t check_debt(struct archive *a, size_t unit, size_t own)
{
    uint8_t bytes[GATHERED];
    return gather(a, unit, bytes) == own ? 0 : check_differs(a, unit);
}

void renew_check(struct archive *a, size_t unit, uint32_t debt)
{
    put_number(check_at(a, unit), 4, check_of(a, unit) ^ debt);
}

void renew_for(struct archive *a, uint8_t *slot)
{
    uint8_t length[2] = {slot[0], slot[1]};
    slot[0] = slot[1] = 0;
    uint32_t debt = check_debt(a, unit_of(a, slot), 2);
    memcpy(slot, length, 2);
    renew_check(a, unit_of(a, slot), debt);
}

static int in_one_byte(uint32_t bits)
{
    return (bits & ~0xFFu) == 0 || (bits & ~0xFF00u) == 0 || (bits & ~0xFF0000u) == 0 || (bits & ~0xFF000000u) == 0;
}

/* ---- rows */

/* The coded rows within eight bytes, for each row of a payload; answers the bytes that differ, or -1 for a row that has none. The first row that
 * differs, or has none, is told. */
static int coded_rows(const uint8_t *payload, size_t n, uint8_t *to, int *row)
{
    unsigned bytes = 0;
    for (size_t at = 0; at < n; at += BH_ROW) {
        uint64_t answer = bh_repair_row(payload + at, BH_ROW, to + at, BH_ROW);
        int none = bh_number(answer) != BH_ACCEPTED;
        unsigned here = none ? 0 : (unsigned)bh_value(answer);
        if (none || (here > 0 && bytes == 0))
            *row = (int)(at / BH_ROW);
        if (none)
            return -1;
        bytes += here;
    }
    return (int)bytes;
}

int mend_rows(uint8_t *payload, size_t n)
{
    uint8_t coded[BH_LARGEST_PAYLOAD];
    int row, bytes = coded_rows(payload, n, coded, &row);
    if (bytes > 0)
        memcpy(payload, coded, n);
    return bytes;
}

/* ---- a slot */

/* rows that can be put right: the check must then agree, or they are not those that were stored */
static struct finding judge_mended(struct archive *a, uint8_t *slot, size_t n, const uint8_t *coded, int mend, struct finding f)
{
    uint8_t before[BH_LARGEST_PAYLOAD];
    memcpy(before, slot + 2, n);
    memcpy(slot + 2, coded, n);
    if (check_differs(a, unit_of(a, slot)) != 0) {
        f.what = BROKEN;
        f.words = "is no coded row, and the one within eight bytes of it is not what was stored";
    }
    if (!mend || f.what == BROKEN)
        memcpy(slot + 2, before, n);
    return f;
}

/* whether all slots that begin in a unit are of places in column order: then none is left in doubt when they are empty */
static int by_columns_alone(const struct archive *a, size_t unit)
{
    uint8_t bytes[GATHERED];
    for (int i = 0; i < BH_PLACES; i++) {
        struct bh_place p = place_of(a->record, i);
        if (p.order != BH_COLUMN_ORDER && slots_in(a, p, unit, bytes) > 0)
            return 0;
    }
    return 1;
}

/* What was sent by columns has no rows of its own by which it could be told, or put right: its check alone says whether it is as it was stored. */
static struct finding judge_column(struct archive *a, struct bh_place p, uint32_t number)
{
    uint8_t *slot = slot_of(a->store, p, number);
    size_t n = length_of(slot), unit = unit_of(a, slot);
    enum soundness lost = by_columns_alone(a, unit) ? LOSABLE : BROKEN;
    if (n > p.slot)
        return (struct finding){number, lost, "has a length that no packet of its place has", -1, 0};
    if (check_differs(a, unit) == 0)
        return (struct finding){number, SOUND, "", -1, 0};
    return (struct finding){number, lost, check_debt(a, unit, 2 + n) != 0 ? "shares a check with its neighbours, which differs" : "differs from its check", -1, 0};
}

void empty_slot(struct archive *a, struct bh_place p, uint32_t number)
{
    uint8_t bytes[GATHERED], *slot = slot_of(a->store, p, number);
    size_t unit = unit_of(a, slot);
    uint32_t debt = check_differs(a, unit);
    int last = number + 1 == p.count || unit_of(a, slot_of(a->store, p, number + 1)) != unit;
    slot[0] = slot[1] = 0;
    size_t n = gather(a, unit, bytes);
    for (size_t k = 0; k < n; k++)
        last = last && bytes[k] == 0;
    renew_check(a, unit, last ? 0 : debt);
}

struct finding judge_slot(struct archive *a, struct bh_place p, uint32_t number, int mend)
{
    if (p.order == BH_COLUMN_ORDER)
        return judge_column(a, p, number);
    uint8_t *slot = slot_of(a->store, p, number), coded[BH_LARGEST_PAYLOAD];
    size_t n = length_of(slot), unit = unit_of(a, slot);
    uint32_t differs = check_differs(a, unit);
    int row = -1, bytes = 0;
    if (n > p.slot || (p.protection && n % BH_ROW != 0))
        return (struct finding){number, BROKEN, "has a length that no packet of its place has", -1, 0};
    if (p.protection)
        bytes = coded_rows(slot + 2, n, coded, &row);
    if (bytes < 0)
        return (struct finding){number, BROKEN, "is no coded row, nor within eight bytes of one", row, 0};
    if (bytes > 0)
        return judge_mended(a, slot, n, coded, mend, (struct finding){number, MENDABLE, "is no coded row", row, (unsigned)bytes});
    if (differs == 0)
        return (struct finding){number, SOUND, "", -1, 0};
    if (check_debt(a, unit, 2 + n) != 0)
        return (struct finding){number, BROKEN, "shares a check with its neighbours, which differs", -1, 0};
    if (!p.protection || n == 0 || !in_one_byte(differs))
        return (struct finding){number, BROKEN, "differs from its check", -1, 0};
    if (mend)
        renew_check(a, unit, 0);
    return (struct finding){number, CHECK_ONLY, "is as it was, but its check is not", -1, 0};
}
