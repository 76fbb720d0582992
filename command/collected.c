/* A description that was collected in a place of its own, beside the file of its resource or alone: its text as it was sent, and the length that it names for
 * that file. Whether it is one is the library's decision; which description belongs to a file, and where its text ends in the tables, is settled here. */
#define _GNU_SOURCE
#include "command.h"

#include <inttypes.h>
#include <string.h>

/* Under protection the length of a text is not known, but its end is: it is the last line feed, and what fills the tables behind it has to be 0. Answers what
 * is wrong where that does not hold. */
static const char *cut_text(struct bytes *b)
{
    const uint8_t *last = memrchr(b->at, '\n', b->n);
    if (last == NULL)
        return "no line feed stands in it, so it is no description";
    size_t n = (size_t)(last - b->at) + 1;
    for (size_t i = n; i < b->n; i++)
        if (b->at[i] != 0)
            return "bytes other than 0 stand behind its last line feed, so it is no description";
    b->n = n;
    return NULL;
}

struct bytes collected_text(struct archive *a, int place, int despite_conflicts, uint64_t *values)
{
    struct bh_place p = place_of(a->record, place);
    struct bytes none = {NULL, 0}, text = join_place(a, place, whole_length(a->store, p), despite_conflicts);
    if (text.at == NULL)
        return none;
    const char *what = of_place("hand-out", p.resource, p.type), *wrong = p.protection ? cut_text(&text) : NULL;
    uint64_t answer = wrong == NULL ? bh_read_description(text.at, text.n, values, BH_DESCRIPTION_VALUES) : 0;
    if (wrong != NULL)
        complain("%s refused: %s", what, wrong);
    else if (refused_text(answer, what, text) == EXIT_ACCEPTED)
        return text;
    release(text);
    return none;
}

/* whether what a description says belongs to the file */
static int is_about(struct bh_place file, const uint64_t *values)
{
    const char *what = of_place("hand-out", file.resource, file.type);
    if (values[BH_D_MODE] != 1)
        complain("%s refused: its description is that of a stream (line 02), which has no length", what);
    else if (values[BH_D_RESOURCE] != file.resource)
        complain("%s refused: its description is that of resource %" PRIu64 " (line 03)", what, values[BH_D_RESOURCE]);
    else if (values[BH_D_UPDATE] != file.update)
        complain("%s refused: its description is that of update %" PRIu64 " (line 04), and the file is of update %u", what, values[BH_D_UPDATE], file.update);
    else
        return 1;
    return 0;
}

uint64_t collected_length(struct archive *a, struct bh_place file, int despite_conflicts)
{
    const char *what = of_place("hand-out", file.resource, file.type);
    int place = find_place(a->record, file.resource, DESCRIPTION_TYPE);
    uint64_t values[BH_DESCRIPTION_VALUES];
    if (place < 0) {
        complain("%s refused: its length is not known, and no description of it is open (type 2)", what);
        return 0;
    }
    if (place_of(a->record, place).update != file.update) {
        complain("%s refused: the description that is open is of update %u, and the file is of update %u", what, place_of(a->record, place).update, file.update);
        return 0;
    }
    struct bytes text = collected_text(a, place, despite_conflicts, values);
    if (text.at == NULL)
        return 0;
    release(text);
    return is_about(file, values) ? values[BH_D_FILE_LENGTH] : 0;
}

uint64_t told_length(struct archive *a, struct bh_place file)
{
    int before = hushed;
    hushed = 1;
    uint64_t length = file.type == FILE_TYPE ? collected_length(a, file, 0) : 0;
    hushed = before;
    return length;
}
