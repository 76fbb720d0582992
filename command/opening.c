/* new, open and close: archives and the places in them. */
#include "command.h"

#include <inttypes.h>
#include <string.h>

int make_archive(const struct arguments *a)
{
    want(a->count == 1, "new", "one archive");
    want(a->size >= 0, "new", "--size BYTES");
    new_archive(a->names[0], (uint64_t)a->size);
    detail("%s: a store of %lld bytes, in a file of %zu", a->names[0], a->size, image_size((uint64_t)a->size));
    return EXIT_ACCEPTED;
}

/* ---- open */

static uint64_t open_one(struct archive *archive, uint8_t *record, const struct settings *s, uint32_t count)
{
    if (s->house)
        return bh_open_house(record, BH_RECORD, archive->store, archive->store_size, s->resource, s->type, s->update, count);
    return bh_open_as(record, BH_RECORD, archive->store, archive->store_size, s->resource, s->type, s->update, count, s->protection, s->rows, s->size, s->edition,
                      s->order);
}

static int not_opened(uint64_t answer, const struct archive *archive, const struct settings *s, uint32_t count)
{
    unsigned number = bh_number(answer);
    const char *what = of_place("open", s->resource, s->type);
    struct bh_place p = place_of(archive->record, number == BH_HELD ? find_place(archive->record, s->resource, s->type) : 0);
    if (number == BH_FIELD)
        return refused_since(answer, what, "%s", field_cause(s, count));
    if (number == BH_HELD)
        return refused_since(answer, what, "update %u, %" PRIu32 " packets, size %u, edition %u%s", p.update, p.count, p.slot, p.edition, p.order == BH_COLUMN_ORDER ? ", by columns" : "");
    if (number == BH_ROOM)
        return refused_since(answer, what, "%" PRIu64 " bytes are needed for slots of %u, the largest gap has %" PRIu64 " of the store's %zu", (uint64_t)count * (s->size + 2u), s->size,
                             largest_gap(archive->record, archive->store_size), archive->store_size);
    return refused(answer, what);
}

/* The checks at the two ends of a place may speak of neighbours' slots too: they change with the record, and what they owe stays. */
static void publish_record(struct archive *a, struct bh_place p, int place, const uint8_t *record)
{
    size_t ends[2] = {p.start / UNIT, (size_t)(p.start + cover_of(p) - 1) / UNIT};
    uint32_t debts[2] = {check_debt(a, ends[0], 0), check_debt(a, ends[1], 0)};
    memcpy(a->record, record, BH_RECORD);
    for (int k = 0; k < 2; k++) {
        renew_check(a, ends[k], debts[k]);
        change(a, check_at(a, ends[k]), 4);
    }
    clear_counters(a, place);
    commit(a);
    settle(a);
}

/* The slots, cleared, and their checks reach the disk before the record that names them, and behind whatever the journal still has of an earlier place there. */
static void publish_opened(struct archive *a, int place, const uint8_t *record)
{
    uint8_t before[BH_RECORD];
    struct bh_place p = place_of(record, place);
    size_t first = p.start / UNIT + 1, last = (size_t)(p.start + cover_of(p) - 1) / UNIT;
    settle(a);
    memcpy(before, a->record, BH_RECORD);
    memcpy(a->record, record, BH_RECORD);
    for (size_t unit = first; unit < last; unit++)
        renew_check(a, unit, 0);
    memcpy(a->record, before, BH_RECORD);
    write_ahead(a, a->store + p.start, (size_t)cover_of(p));
    if (last > first)
        write_ahead(a, check_at(a, first), 4 * (last - first));
    sync_archive(a);
    publish_record(a, p, place, record);
}

/* By columns the count follows from the length, M and the size: one that no file has is told at once, and not when all has come. */
static void doubt_count(struct archive *a, struct bh_place p)
{
    struct tables t = p.order == BH_COLUMN_ORDER ? tables_of(a->store, p) : (struct tables){0, 0};
    if (t.least > t.most)
        complain("%s: %s, is open, but no file has %" PRIu32 " packets of %u bytes in tables of %u rows: --count, --size or --rows may be wrong", a->path, place_words(p.resource, p.type), p.count, p.slot,
                 p.rows);
}

int open_place(const struct arguments *a)
{
    want(a->count == 1, "open", "one archive");
    want(a->resource >= 0, "open", "--resource");
    want(a->packets >= 0, "open", "--count");
    struct settings s = settings_of(a);
    struct archive archive = open_archive(a->names[0], 1, a->wait);
    uint8_t record[BH_RECORD];
    memcpy(record, archive.record, sizeof record);
    uint64_t answer = open_one(&archive, record, &s, (uint32_t)a->packets);
    int result = EXIT_ACCEPTED;
    if (bh_number(answer) == BH_ACCEPTED) {
        publish_opened(&archive, find_place(record, s.resource, s.type), record);
        doubt_count(&archive, place_of(record, find_place(record, s.resource, s.type)));
        detail("%s: %s, is open for %lld packets of edition %u%s; %" PRIu64 " bytes of the store are used", a->names[0], place_words(s.resource, s.type), a->packets, s.edition,
               s.order == BH_COLUMN_ORDER ? ", by columns" : "", bytes_used(record));
    } else {
        result = not_opened(answer, &archive, &s, (uint32_t)a->packets);
    }
    close_archive(&archive);
    return result;
}

/* ---- close */

/* complete, or with so much of it there that the rest can be restored, or damaged and perhaps so, and nobody has it */
static int is_unread(struct archive *a, int place)
{
    struct bh_place p = place_of(a->record, place);
    uint64_t answer = bh_status(a->record, BH_RECORD, a->store, a->store_size, p.resource, p.type);
    if (count_of(a, place, HANDED_OUT) > 0 || bh_number(answer) != BH_ACCEPTED || bh_lowest_empty(answer) < 0)
        return count_of(a, place, HANDED_OUT) == 0;
    enum reached reached = p.order == BH_COLUMN_ORDER ? reach_of(a, p).what : LACKING;
    return reached == SUFFICIENT || reached == BY_LENGTH;
}

int close_place(const struct arguments *a)
{
    want(a->count == 1, "close", "one archive");
    want(a->resource >= 0, "close", "--resource");
    struct archive archive = open_archive(a->names[0], 1, a->wait);
    uint8_t record[BH_RECORD], type = type_named(a);
    uint16_t resource = (uint16_t)a->resource;
    memcpy(record, archive.record, sizeof record);
    int place = find_place(record, resource, type), result = EXIT_ACCEPTED;
    uint64_t answer = bh_close(record, sizeof record, archive.store, archive.store_size, resource, type);
    if (bh_number(answer) == BH_UNKNOWN) {
        result = refused_unknown("close", archive.record, resource, type);
    } else if (bh_number(answer) != BH_ACCEPTED) {
        result = refused(answer, of_place("close", resource, type));
    } else if (!a->force && is_unread(&archive, place)) {
        complain("%s refused: it is complete%s and was never handed out; --force gives it up all the same", of_place("close", resource, type),
                 place_of(archive.record, place).order == BH_COLUMN_ORDER ? ", or can be restored," : "");
        result = EXIT_REFUSED;
    } else {
        publish_record(&archive, place_of(archive.record, place), place, record);
        detail("%s: %s, is closed", a->names[0], place_words(resource, type));
    }
    close_archive(&archive);
    return result;
}
