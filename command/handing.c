/* hand-out: what a place has collected, written to a file: as many bytes as --length says, or as the collected description does. */
#define _GNU_SOURCE
#include "command.h"

#include <inttypes.h>
#include <unistd.h>

/* The file at the length that its description names. */
static struct bytes described_file(struct archive *archive, int place, int despite_conflicts)
{
    struct bytes file = {NULL, 0};
    struct bh_place p = place_of(archive->record, place);
    uint64_t length = collected_length(archive, p, despite_conflicts);
    if (length == 0) {
        complain("the length of the file was to come from its description; --length L names it");
        return file;
    }
    detail("%s: the length, %" PRIu64 " bytes, was taken from line 12 of %s, update %u", archive->path, length, place_words(p.resource, DESCRIPTION_TYPE), p.update);
    file = join_place(archive, place, length, despite_conflicts);
    if (file.at == NULL)
        complain("the length, %" PRIu64 " bytes, was taken from the description of the file; --length L names another", length);
    return file;
}

static struct bytes asked_for(const struct arguments *a, struct archive *archive, int place)
{
    uint64_t values[BH_DESCRIPTION_VALUES];
    if (a->length >= 0)
        return join_place(archive, place, (uint64_t)a->length, a->despite_conflicts);
    if (type_named(a) == DESCRIPTION_TYPE)
        return collected_text(archive, place, a->despite_conflicts, values);
    return described_file(archive, place, a->despite_conflicts);
}

/* Notes in the archive that the place was handed out, if it still is that place, so that it may be closed. The file is there already: an archive that
 * cannot be written, is not free, or would have to be carried over for it, stays as it is. */
static void note_handed(const struct arguments *a, const struct archive *seen, int place)
{
    struct archive archive;
    const char *not = older(seen);
    if (not == NULL && access(a->names[0], W_OK) != 0)
        not = "cannot be written";
    if (not == NULL && open_if_free(&archive, a->names[0], 1, a->wait) != 0)
        not = "is not free";
    if (not != NULL) {
        remark("%s %s, so it is not noted there that %s, was handed out", a->names[0], not, place_words((uint16_t)a->resource, type_named(a)));
        return;
    }
    if (same_place(archive.record, seen->record, place)) {
        count_more(&archive, place, HANDED_OUT, 1);
        commit(&archive);
        settle(&archive);
    }
    close_archive(&archive);
}

int hand_out(const struct arguments *a)
{
    want(a->count == 1, "hand-out", "one archive");
    want(a->resource >= 0, "hand-out", "--resource");
    want(a->output != NULL, "hand-out", "-o FILE");
    struct output out = plan_output(a->output, a->force, a->names[0], "the archive");
    struct archive archive = open_archive(a->names[0], 0, a->wait);
    release_archive(&archive);
    int place = find_place(archive.record, (uint16_t)a->resource, type_named(a));
    if (place < 0)
        return refused_unknown("hand-out", archive.record, (uint16_t)a->resource, type_named(a));
    struct bytes file = asked_for(a, &archive, place);
    if (file.at == NULL)
        return EXIT_REFUSED;
    begin_output(&out);
    write_output(&out, file.at, file.n);
    finish_output(&out);
    detail("%s: %s, %zu bytes to %s", a->names[0], place_words((uint16_t)a->resource, type_named(a)), file.n, a->output);
    note_handed(a, &archive, place);
    close_archive(&archive);
    release(file);
    return EXIT_ACCEPTED;
}
