/* What a place has collected, joined in memory: only where every packet is there, or by columns so many that the others can be restored, each is as it was stored,
 * and none was in conflict. Else the reason is told, by resource and type, since a file and its description may both be asked for. */
#include "command.h"

#include <inttypes.h>
#include <stdlib.h>
#include <string.h>

enum { NAMED = 10 }; /* so many damaged packets are named one by one */

static const char *handing(struct bh_place p)
{
    return of_place("hand-out", p.resource, p.type);
}

static void name_damage(struct bh_place p, const struct finding *f)
{
    if (f->row >= 0)
        complain("%s refused: packet %" PRIu32 " is in doubt: its row %d %s", handing(p), f->packet, f->row, f->words);
    else
        complain("%s refused: packet %" PRIu32 " is in doubt: it %s", handing(p), f->packet, f->words);
}

/* Every slot of the place has to be as it was stored; else those that are not are named. */
static int is_damaged(struct archive *a, struct bh_place p)
{
    uint32_t damaged = 0;
    for (uint32_t k = 0; k < p.count; k++) {
        struct finding f = judge_slot(a, p, k, 0);
        if (f.what != SOUND && damaged++ < NAMED)
            name_damage(p, &f);
    }
    if (damaged > NAMED)
        complain("and %" PRIu32 " more", damaged - NAMED);
    if (damaged > 0)
        complain("nothing was written; 'brithelva verify %s' says what can be put right", a->path);
    return damaged > 0;
}

/* ---- a refusal of the library with its cause */

/* whether every packet that came is whole coded rows: then the station does not send by columns */
static int came_by_rows(struct archive *a, struct bh_place p)
{
    uint64_t filled = 0;
    for (uint32_t k = 0; k < p.count; k++) {
        const uint8_t *slot = slot_of(a->store, p, k);
        size_t n = length_of(slot);
        uint8_t copy[BH_LARGEST_PAYLOAD];
        memcpy(copy, slot + 2, n);
        if (n % BH_ROW != 0 || mend_rows(copy, n) != 0)
            return 0;
        filled += n > 0;
    }
    return filled > 0;
}

static void tell_length(uint64_t answer, struct archive *a, struct bh_place p, uint64_t length)
{
    struct tables t = tables_of(a->store, p);
    uint64_t table = (uint64_t)BH_ROW_INFO * p.rows, most = t.most * table < BH_LARGEST_FILE ? t.most * table : BH_LARGEST_FILE;
    if (t.least > t.most)
        refused_since(answer, handing(p), "no file has %" PRIu32 " packets of %u bytes in tables of %u rows: the place was opened with another --count or --size than the station has", p.count, p.slot,
                      p.rows);
    else
        refused_since(answer, handing(p), "what came is a file of %" PRIu64 " to %" PRIu64 " bytes, not %" PRIu64, (t.least - 1) * table + 1, most, length);
}

static void tell_shape(uint64_t answer, struct archive *a, struct bh_place p, uint64_t length)
{
    uint64_t table = (uint64_t)BH_ROW_INFO * p.rows, tables = (length + table - 1) / table;
    int64_t k = misshapen_packet(a->store, p, (struct tables){tables, tables});
    if (k < 0)
        refused(answer, handing(p));
    else
        refused_since(answer, handing(p), "packet %" PRId64 " has %u bytes, not %" PRIu32 ": the place was opened with another --size than the station has, or the length is wrong", k,
                      length_of(slot_of(a->store, p, (uint32_t)k)), length_in(p, (uint32_t)k, tables));
}

/* of a place in column order */
static void tell_by_columns(uint64_t answer, struct archive *a, struct bh_place p, uint64_t length)
{
    unsigned number = bh_number(answer);
    uint64_t standing = bh_status(a->record, BH_RECORD, a->store, a->store_size, p.resource, p.type);
    if (number == BH_LOST)
        refused_since(answer, handing(p), "row %" PRIu64 ", counted from 0 through all tables; %" PRIu32 " of %" PRIu32 " packets are missing, the lowest is number %" PRId32 ", and more of them are needed",
                      bh_value(answer), p.count - bh_filled(standing), p.count, bh_lowest_empty(standing));
    else if (number == BH_CODE && came_by_rows(a, p))
        refused_since(answer, handing(p), "each packet that came is whole coded rows, so the station sends by rows: a place that is opened with --order rows takes them, once this one is closed");
    else if (number == BH_CODE)
        refused_since(answer, handing(p), "a packet that is stored is not what was sent, or packets of two files were mixed; the place has to be closed, opened and collected again");
    else if (number == BH_SIZE)
        tell_length(answer, a, p, length);
    else if (number == BH_SHAPE)
        tell_shape(answer, a, p, length);
    else
        refused(answer, handing(p));
}

static void tell_refusal(uint64_t answer, struct archive *a, struct bh_place p, uint64_t length)
{
    unsigned number = bh_number(answer);
    uint64_t most = whole_length(a->store, p), table = (uint64_t)BH_ROW_INFO * p.rows;
    uint64_t standing = bh_status(a->record, BH_RECORD, a->store, a->store_size, p.resource, p.type);
    if (p.order == BH_COLUMN_ORDER)
        tell_by_columns(answer, a, p, length);
    else if (number == BH_MISSING)
        refused_since(answer, handing(p), "%" PRIu32 " of %" PRIu32 " are missing, the lowest is number %" PRIu64, p.count - bh_filled(standing), p.count, bh_value(answer));
    else if (number == BH_SIZE && !p.protection)
        refused_since(answer, handing(p), "what came has %" PRIu64 " bytes, not %" PRIu64, most, length);
    else if (number == BH_SIZE)
        refused_since(answer, handing(p), "what came is a file of %" PRIu64 " to %" PRIu64 " bytes, not %" PRIu64, most - table + 1, most, length);
    else
        refused(answer, handing(p));
}

static int in_conflict(const struct archive *a, int place)
{
    uint64_t conflicts = count_of(a, place, CONFLICTS);
    if (conflicts > 0)
        complain("%s refused: %" PRIu64 " packets came with another payload than the one stored under their number, so the file may be joined from two; "
                 "--despite-conflicts goes on all the same",
                 handing(place_of(a->record, place)), conflicts);
    return conflicts > 0;
}

struct bytes join_place(struct archive *a, int place, uint64_t length, int despite_conflicts)
{
    struct bh_place p = place_of(a->record, place);
    struct bytes none = {NULL, 0}, file = {NULL, (size_t)length};
    if (is_damaged(a, p))
        return none;
    /* no file is longer than the limit, so no more room is ever written to */
    size_t room = length < BH_LARGEST_FILE ? (size_t)length : BH_LARGEST_FILE;
    file.at = malloc(room + 1);
    if (file.at == NULL)
        trouble("no memory for a file of %zu bytes", room);
    uint64_t answer = bh_hand_out(a->record, BH_RECORD, a->store, a->store_size, p.resource, p.type, length, file.at, room);
    if (bh_number(answer) != BH_ACCEPTED)
        tell_refusal(answer, a, p, length);
    else if (despite_conflicts || !in_conflict(a, place))
        return file;
    free(file.at);
    return none;
}
