/* What stands in a record: its places, their slots, and the room that they leave in the store. */
#include "command.h"

#include <string.h>

struct bh_place place_of(const uint8_t *record, int i)
{
    return bh_place_at(record, (unsigned)i);
}

int find_place(const uint8_t *record, uint16_t resource, uint8_t type)
{
    for (int i = 0; resource != 0 && i < BH_PLACES; i++)
        if (place_of(record, i).resource == resource && place_of(record, i).type == type)
            return i;
    return -1;
}

int same_place(const uint8_t *one, const uint8_t *other, int i)
{
    return memcmp(one + BH_PLACE * i, other + BH_PLACE * i, BH_PLACE) == 0;
}

uint64_t cover_of(struct bh_place p)
{
    return p.resource == 0 ? 0 : (uint64_t)p.count * (p.slot + 2u);
}

uint8_t *slot_of(uint8_t *store, struct bh_place p, uint32_t number)
{
    return store + p.start + (size_t)number * (p.slot + 2u);
}

uint16_t length_of(const uint8_t *slot)
{
    return (uint16_t)(slot[0] | slot[1] << 8);
}

uint64_t joined_length(uint8_t *store, struct bh_place p)
{
    uint64_t sum = 0;
    for (uint32_t k = 0; k < p.count; k++)
        sum += length_of(slot_of(store, p, k));
    return sum;
}

uint64_t whole_length(uint8_t *store, struct bh_place p)
{
    uint64_t joined = joined_length(store, p);
    if (p.order == BH_COLUMN_ORDER)
        return tables_of(store, p).least * p.rows * BH_ROW_INFO;
    return p.protection ? joined / BH_ROW / p.rows * p.rows * BH_ROW_INFO : joined;
}

uint64_t bytes_used(const uint8_t *record)
{
    uint64_t used = 0;
    for (int i = 0; i < BH_PLACES; i++)
        used += cover_of(place_of(record, i));
    return used;
}

/* the free bytes from `from` up to the next place, or to the end */
static uint64_t gap_at(const uint8_t *record, uint64_t from, uint64_t end)
{
    for (int i = 0; i < BH_PLACES; i++) {
        struct bh_place p = place_of(record, i);
        if (p.resource != 0 && p.start >= from && p.start < end)
            end = p.start;
    }
    return end > from ? end - from : 0;
}

uint64_t largest_gap(const uint8_t *record, size_t store_size)
{
    uint64_t end = store_size < BH_USABLE_STORE ? store_size : BH_USABLE_STORE, largest = gap_at(record, 0, end);
    for (int i = 0; i < BH_PLACES; i++) {
        struct bh_place p = place_of(record, i);
        uint64_t gap = p.resource == 0 ? 0 : gap_at(record, p.start + cover_of(p), end);
        if (gap > largest)
            largest = gap;
    }
    return largest;
}
