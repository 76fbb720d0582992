/* status: how far each place has come, what was refused of it, and how much room there is. */
#include "command.h"

#include <inttypes.h>

static const char *const counter_names[] = {"stored", "repeated", "conflicts", "other", "mended", "handed_out", "other_edition", "other_order"};
enum { TOLD = sizeof counter_names / sizeof *counter_names };

/* Whether what came can be handed out: null where that depends on the length, or cannot be told. */
static void reach_json(struct archive *a, struct bh_place p, uint64_t answer)
{
    int told = bh_number(answer) == BH_ACCEPTED, by_columns = told && p.order == BH_COLUMN_ORDER;
    struct reach r = by_columns ? reach_of(a, p) : (struct reach){.what = told && bh_lowest_empty(answer) < 0 ? SUFFICIENT : LACKING};
    printf(", \"suffices\": %s, \"rows_lacking\": ", !told || r.what == BY_LENGTH ? "null" : r.what == SUFFICIENT ? "true" : "false");
    if (by_columns && r.rows > 0)
        printf("%" PRIu64, r.lacking);
    else
        printf("null");
}

static void place_json(struct archive *a, int i, uint64_t answer, const char *between)
{
    struct bh_place p = place_of(a->record, i);
    unsigned number = bh_number(answer);
    int32_t lowest = number == BH_ACCEPTED ? bh_lowest_empty(answer) : -1;
    printf("%s\n  {\"resource\": %u, \"type\": %u, \"update\": %u, \"count\": %" PRIu32 ", \"protection\": %u, \"rows\": %u, \"slot\": %u, \"edition\": %u, \"order\": \"%s\", \"refused\": %u, \"filled\": %" PRIu32
           ", \"lowest_empty\": ",
           between, p.resource, p.type, p.update, p.count, p.protection, p.rows, p.slot, p.edition, p.order == BH_COLUMN_ORDER ? "columns" : "rows", number, number == BH_ACCEPTED ? bh_filled(answer) : 0);
    if (lowest < 0)
        printf("null");
    else
        printf("%" PRId32, lowest);
    reach_json(a, p, answer);
    for (int k = 0; k < TOLD; k++)
        printf(", \"%s\": %" PRIu64, counter_names[k], count_of(a, i, (enum counter)k));
    putchar('}');
}

static void say_bar(struct bh_place p, uint32_t filled, int32_t lowest)
{
    char bar[33] = "................................";
    for (uint64_t k = 0; k < 32 && k < (uint64_t)filled * 32 / p.count; k++)
        bar[k] = '#';
    printf("[%s%s%s] %" PRIu32 "/%" PRIu32, colour(stdout, lowest < 0 ? GREEN : YELLOW), bar, colour(stdout, NO_COLOUR), filled, p.count);
    if (lowest >= 0)
        printf("  lowest empty %" PRId32, lowest);
    putchar('\n');
}

/* A place that waits for the edition that its station does not send stays empty: that is told where it can be seen. */
static void say_edition(struct bh_place p, uint64_t answer, uint64_t refused)
{
    if (bh_number(answer) == BH_ACCEPTED && bh_filled(answer) == 0 && refused > 0)
        printf("  nothing of edition %u has come; the station may send edition %d, for which a place is opened with --edition %d\n", p.edition, 3 - p.edition, 3 - p.edition);
}

/* The same of the order. A packet of zeros alone is a coded row, and stored in the wrong order too. */
static void say_order(uint64_t answer, uint64_t refused)
{
    if (bh_number(answer) == BH_ACCEPTED && refused > bh_filled(answer))
        puts("  more packets came that were sent by columns than were stored; the station may send so, and a place that is opened with --order columns takes them");
}

/* Whether what came by columns suffices. */
static void say_reach(struct archive *a, struct bh_place p)
{
    struct reach r = reach_of(a, p);
    if (r.what == SUFFICIENT)
        puts("  what came suffices to hand it out: no row lacks more than sixteen bytes");
    else if (r.what == BY_LENGTH)
        printf("  whether what came suffices depends on the length: it does for a file of at most %" PRIu64 " bytes, and not for a longer one\n", r.longest);
    else if (r.what == LACKING)
        printf("  what came does not suffice yet: %" PRIu64 " of %" PRIu64 " rows lack more than sixteen bytes\n", r.lacking, r.rows);
    else if (r.what == NO_FILE)
        printf("  it cannot be handed out: no file has %" PRIu32 " packets of %u bytes in tables of %u rows\n", p.count, p.slot, p.rows);
    else
        printf("  it cannot be handed out: packet %" PRId64 " has %u bytes, which no file of %" PRIu32 " packets of %u bytes has there\n", r.packet,
               length_of(slot_of(a->store, p, (uint32_t)r.packet)), p.count, p.slot);
}

static void say_place(struct archive *a, int i, uint64_t answer)
{
    struct bh_place p = place_of(a->record, i);
    uint64_t conflicts = count_of(a, i, CONFLICTS), handed = count_of(a, i, HANDED_OUT);
    printf("resource %-5u  type %u %-13s  update %-2u  edition %u  ", p.resource, p.type, type_words(p.type), p.update, p.edition);
    if (p.protection)
        printf("%3u rows  %s", p.rows, p.order == BH_COLUMN_ORDER ? "by columns  " : "");
    else
        printf("no rows   ");
    printf("size %-4u  ", p.slot);
    if (bh_number(answer) != BH_ACCEPTED)
        printf("refused: %u %s\n", bh_number(answer), refusal_name(bh_number(answer)));
    else
        say_bar(p, bh_filled(answer), bh_lowest_empty(answer));
    printf("  stored %" PRIu64 ", repeated %" PRIu64 ", %sin conflict %" PRIu64 "%s, refused as Other %" PRIu64 ", as Edition %" PRIu64 ", for the order %" PRIu64 ", bytes mended %" PRIu64 "; ",
           count_of(a, i, STORED), count_of(a, i, REPEATED), conflicts ? colour(stdout, RED) : "", conflicts, conflicts ? colour(stdout, NO_COLOUR) : "", count_of(a, i, OTHERS),
           count_of(a, i, EDITIONS), count_of(a, i, ORDERS), count_of(a, i, MENDED));
    if (handed == 0)
        puts("not handed out yet");
    else
        printf("handed out %" PRIu64 " time%s\n", handed, handed == 1 ? "" : "s");
    say_edition(p, answer, count_of(a, i, EDITIONS));
    say_order(answer, count_of(a, i, ORDERS));
    if (bh_number(answer) == BH_ACCEPTED && p.order == BH_COLUMN_ORDER)
        say_reach(a, p);
}

static void tell_store(const struct archive *a, int json)
{
    uint64_t used = bytes_used(a->record), gap = largest_gap(a->record, a->store_size);
    if (json)
        printf("\"store\": {\"size\": %zu, \"used\": %" PRIu64 ", \"largest_gap\": %" PRIu64 "}}\n", a->store_size, used, gap);
    else
        printf("store %zu bytes, %" PRIu64 " used, largest gap %" PRIu64 "\n", a->store_size, used, gap);
}

int status(const struct arguments *a)
{
    want(a->count == 1, "status", "one archive");
    want(a->resource >= 0 || a->type < 0, "status", "--resource where --type is named");
    struct archive archive = open_archive(a->names[0], 0, a->wait);
    int told = 0, result = EXIT_ACCEPTED, only = a->resource < 0 ? -1 : find_place(archive.record, (uint16_t)a->resource, type_named(a));
    release_archive(&archive);
    if (a->json)
        printf("{\"places\": [");
    for (int i = 0; i < BH_PLACES; i++) {
        struct bh_place p = place_of(archive.record, i);
        if (p.resource == 0 || (a->resource >= 0 && i != only))
            continue;
        uint64_t answer = bh_status(archive.record, BH_RECORD, archive.store, archive.store_size, p.resource, p.type);
        if (bh_number(answer) != BH_ACCEPTED)
            result = EXIT_REFUSED;
        if (a->json)
            place_json(&archive, i, answer, told ? "," : "");
        else
            say_place(&archive, i, answer);
        told++;
    }
    if (a->json)
        printf(told ? "\n], " : "], ");
    else if (told == 0 && a->resource < 0)
        puts("nothing is open");
    tell_store(&archive, a->json);
    if (told == 0 && a->resource >= 0)
        result = refused_unknown("status", archive.record, (uint16_t)a->resource, type_named(a));
    close_archive(&archive);
    return result;
}
