/* A place in column order: how many tables its file can have, which rows lack more than can be restored, and whether what came suffices. The library decides
 * that too, for a length; here it is told before anybody has named one. */
#include "command.h"

#include <stdlib.h>

/* bytes of a coded table, as it is sent */
static uint64_t table_of(struct bh_place p)
{
    return (uint64_t)BH_ROW * p.rows;
}

/* Every packet but the last is full, so the count leaves one number of tables, or none, or several where a slot is longer than a table. The last packet tells by
 * its length which; if that fits none of them, nothing is learnt of it. */
struct tables tables_of(uint8_t *store, struct bh_place p)
{
    uint64_t before = (uint64_t)(p.count - 1) * p.slot, information = (uint64_t)BH_ROW_INFO * p.rows, largest = (BH_LARGEST_FILE + information - 1) / information;
    uint64_t last = before + length_of(slot_of(store, p, p.count - 1));
    struct tables t = {before / table_of(p) + 1, (before + p.slot) / table_of(p)};
    if (t.most > largest)
        t.most = largest;
    if (last > before && last % table_of(p) == 0 && last / table_of(p) <= t.most)
        t.least = t.most = last / table_of(p);
    return t;
}

uint32_t length_in(struct bh_place p, uint32_t number, uint64_t tables)
{
    return number + 1 < p.count ? p.slot : (uint32_t)(tables * table_of(p) - (uint64_t)number * p.slot);
}

int64_t misshapen_packet(uint8_t *store, struct bh_place p, struct tables t)
{
    for (uint32_t k = 0; k < p.count; k++) {
        uint32_t length = length_of(slot_of(store, p, k));
        /* a length of the last packet that tells the tables has settled how many there are */
        int fits = length == 0 || (t.least > t.most && k + 1 == p.count) || (k + 1 < p.count ? length == p.slot : t.least == t.most && length == length_in(p, k, t.least));
        if (!fits)
            return k;
    }
    return -1;
}

/* the rows of so many tables that lack more than sixteen bytes, by the slots that are empty */
static uint64_t rows_lacking(uint8_t *store, struct bh_place p, uint64_t tables)
{
    uint64_t rows = tables * p.rows, lacking = 0;
    uint8_t *lost = calloc((size_t)rows + 1, 1); /* of each row; it has 255 bytes at most */
    if (lost == NULL)
        trouble("no memory to count what is lacking");
    for (uint32_t k = 0; k < p.count; k++) {
        uint64_t at = (uint64_t)k * p.slot, end = at + length_in(p, k, tables);
        for (; length_of(slot_of(store, p, k)) == 0 && at < end; at++)
            lost[at / table_of(p) * p.rows + at % p.rows]++;
    }
    for (uint64_t r = 0; r < rows; r++)
        lacking += lost[r] > BH_ROW_CHECKS;
    free(lost);
    return lacking;
}

/* With more tables than the least the last packet, which is lost, has whole tables in it: these cannot be restored. So what suffices does so for the least alone. */
struct reach reach_of(struct archive *a, struct bh_place p)
{
    struct tables t = tables_of(a->store, p);
    struct reach r = {.what = LACKING, .packet = misshapen_packet(a->store, p, t)};
    if (r.packet >= 0)
        r.what = MISSHAPEN;
    else if (t.least > t.most)
        r.what = NO_FILE;
    if (r.what != LACKING)
        return r;
    uint64_t length = t.least < t.most ? told_length(a, p) : 0, tables = (length + (uint64_t)BH_ROW_INFO * p.rows - 1) / ((uint64_t)BH_ROW_INFO * p.rows);
    if (length > 0 && tables >= t.least && tables <= t.most)
        t.least = t.most = tables;
    r.rows = t.least * p.rows;
    r.lacking = rows_lacking(a->store, p, t.least);
    r.longest = r.rows * BH_ROW_INFO;
    if (r.lacking == 0)
        r.what = t.least == t.most ? SUFFICIENT : BY_LENGTH;
    return r;
}
