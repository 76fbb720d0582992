/* verify: whether every slot holds what was stored, and with --mend the rows put right that can be, and the slots emptied that may be. */
#include "command.h"

#include <inttypes.h>

struct look {
    struct archive archive;
    int mend, json;
    uint64_t packets, damaged, mended, emptied; /* looked at; damaged or in doubt; put right; of the damaged ones, emptied */
};

static void tell_json(const struct bh_place *p, const struct finding *f, int changed, const char *between)
{
    printf("%s\n  {\"resource\": %u, \"type\": %u, \"packet\": %" PRIu32 ", \"row\": ", between, p->resource, p->type, f->packet);
    if (f->row < 0)
        printf("null");
    else
        printf("%d", f->row);
    int mendable = f->what == MENDABLE || f->what == CHECK_ONLY;
    printf(", \"damage\": \"%s\", \"bytes\": %u, \"mendable\": %s, \"mended\": %s, \"emptied\": %s}", f->words, f->bytes, mendable ? "true" : "false", mendable && changed ? "true" : "false",
           f->what == LOSABLE && changed ? "true" : "false");
}

static void tell_person(const struct bh_place *p, const struct finding *f, int changed)
{
    printf("%s, packet %" PRIu32, place_words(p->resource, p->type), f->packet);
    if (f->row >= 0)
        printf(": row %d", f->row);
    printf(" %s", f->words);
    if (f->what == MENDABLE)
        printf("; %u bytes %s", f->bytes, changed ? "put right" : "can be put right by --mend");
    else if (f->what == CHECK_ONLY)
        printf("; the check %s", changed ? "was made anew" : "can be made anew by --mend");
    else if (f->what == LOSABLE)
        printf("; it cannot be put right, but %s and can be offered again", changed ? "it was emptied: it counts as lost" : "--mend empties it: then it counts as lost");
    else
        printf("; it cannot be put right");
    putchar('\n');
}

/* what was put right, or emptied, is in the archive before it is told */
static void keep_changed(struct archive *a, struct bh_place p, uint32_t number)
{
    uint8_t *slot = slot_of(a->store, p, number);
    change(a, slot, 2u + length_of(slot));
    change(a, check_at(a, unit_of(a, slot)), 4);
    commit(a);
    if (!has_room(a))
        settle(a);
}

static void look_at_place(struct look *l, struct bh_place p)
{
    for (uint32_t k = 0; k < p.count; k++) {
        struct finding f = judge_slot(&l->archive, p, k, l->mend);
        int changed = l->mend && f.what != SOUND && f.what != BROKEN, emptied = changed && f.what == LOSABLE;
        l->packets += length_of(slot_of(l->archive.store, p, k)) > 0;
        if (f.what == SOUND)
            continue;
        if (emptied)
            empty_slot(&l->archive, p, k);
        if (changed)
            keep_changed(&l->archive, p, k);
        if (l->json)
            tell_json(&p, &f, changed, l->damaged + l->mended > 0 ? "," : "");
        else
            tell_person(&p, &f, changed);
        l->mended += changed && !emptied;
        l->emptied += (uint64_t)emptied;
        l->damaged += !changed || emptied;
    }
}

/* Whether a copy of the record is spoilt, by the disk or by a loss of power while it was written. That is no packet's loss, and any command that changes the archive
 * writes it anew, and says so; but a second one would cost everything. */
static int is_copy_spoilt(const struct look *l)
{
    int spoilt = l->archive.copies < 2 && !l->mend;
    if (spoilt)
        complain("%s: one of the two copies of its record was damaged; --mend writes it anew", l->archive.path);
    return spoilt;
}

int verify(const struct arguments *a)
{
    want(a->count == 1, "verify", "one archive");
    want(a->resource >= 0 || a->type < 0, "verify", "--resource where --type is named");
    struct look l = {.archive = open_archive(a->names[0], a->mend, a->wait), .mend = a->mend, .json = a->json};
    int only = a->resource < 0 ? -1 : find_place(l.archive.record, (uint16_t)a->resource, type_named(a));
    if (a->resource >= 0 && only < 0)
        return refused_unknown("verify", l.archive.record, (uint16_t)a->resource, type_named(a));
    if (!a->mend)
        release_archive(&l.archive);
    if (a->json)
        printf("{\"damage\": [");
    for (int i = 0; i < BH_PLACES; i++)
        if (place_of(l.archive.record, i).resource != 0 && (a->resource < 0 || i == only))
            look_at_place(&l, place_of(l.archive.record, i));
    int spoilt = is_copy_spoilt(&l);
    if (a->mend)
        settle(&l.archive);
    if (a->json)
        printf("%s], \"packets\": %" PRIu64 ", \"damaged\": %" PRIu64 ", \"mended\": %" PRIu64 ", \"emptied\": %" PRIu64 ", \"copies\": %d}\n", l.damaged + l.mended > 0 ? "\n" : "", l.packets, l.damaged,
               l.mended, l.emptied, l.archive.copies);
    else if (talk != QUIET && l.damaged + l.mended == 0)
        printf("%" PRIu64 " packets, each as it was stored\n", l.packets);
    else if (talk != QUIET && l.emptied == 0)
        printf("%" PRIu64 " packets, %" PRIu64 " put right, %" PRIu64 " damaged or in doubt\n", l.packets, l.mended, l.damaged);
    else if (talk != QUIET)
        printf("%" PRIu64 " packets, %" PRIu64 " put right, %" PRIu64 " damaged or in doubt, %" PRIu64 " of these emptied\n", l.packets, l.mended, l.damaged, l.emptied);
    close_archive(&l.archive);
    return l.damaged > 0 || spoilt ? EXIT_REFUSED : EXIT_ACCEPTED;
}
