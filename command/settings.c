/* The settings that pack and open name, the ranges that document 01 gives them, and which of them is out of its range. */
#include "command.h"

#include <string.h>

static uint16_t order_named(const struct arguments *a)
{
    if (a->order == NULL || strcmp(a->order, "rows") == 0)
        return BH_ROW_ORDER;
    if (strcmp(a->order, "columns") != 0)
        usage("--order takes rows or columns, not '%s'", a->order);
    return BH_COLUMN_ORDER;
}

/* Where no size is named it is that of the house setting. By columns a packet of that size would have more bytes of each of 32 rows than can be restored, and no
 * packet could be lost: there it is a row's. */
static uint16_t size_named(const struct arguments *a, uint16_t order)
{
    if (a->size > UINT16_MAX)
        usage("--size takes at most 4077, and 3825 with protection in row order");
    return a->size >= 0 ? (uint16_t)a->size : order == BH_COLUMN_ORDER ? BH_ROW : BH_HOUSE_SIZE;
}

struct settings settings_of(const struct arguments *a)
{
    struct settings s = {
        .house = a->protection < 0 && a->rows < 0 && a->size < 0 && a->edition < 0 && a->order == NULL,
        .resource = (uint16_t)a->resource,
        .type = type_named(a),
        .update = a->update < 0 ? 0 : (uint8_t)a->update,
        .protection = a->protection < 0 ? 1 : (uint8_t)a->protection,
        .edition = a->edition < 0 ? 2 : (uint16_t)a->edition,
        .order = order_named(a),
    };
    s.rows = a->rows >= 0 ? (uint8_t)a->rows : s.protection == 0 ? 0 : BH_HOUSE_ROWS;
    s.size = size_named(a, s.order);
    return s;
}

const char *field_cause(const struct settings *s, long long count)
{
    static char words[128];
    int by_rows = s->protection == 1 && s->order == BH_ROW_ORDER;
    const struct {
        const char *name;
        long long value, least, most;
    } ranges[] = {
        {"resource", s->resource, 1, 65535},
        {"type", s->type, 1, 2},
        {"update", s->update, 0, 15},
        {"protection", s->protection, 0, 1},
        {"rows", s->rows, s->protection == 1, 255},
        {"size", s->size, 1, by_rows ? 3825 : BH_LARGEST_PAYLOAD},
        {"edition", s->edition, 1, 2},
        {"count", count < 0 ? 1 : count, 1, BH_LARGEST_COUNT},
    };
    for (size_t k = 0; k < sizeof ranges / sizeof *ranges; k++)
        if (ranges[k].value < ranges[k].least || ranges[k].value > ranges[k].most) {
            snprintf(words, sizeof words, "--%s takes %lld to %lld, not %lld", ranges[k].name, ranges[k].least, ranges[k].most, ranges[k].value);
            return words;
        }
    if (by_rows && s->size % BH_ROW != 0)
        snprintf(words, sizeof words, "--size takes a multiple of 255 with protection in row order, not %u", s->size);
    else if (s->order == BH_COLUMN_ORDER && s->protection == 0)
        snprintf(words, sizeof words, "--order columns is for protected files alone: without protection there is no table to send by columns");
    else
        words[0] = '\0';
    return words;
}
