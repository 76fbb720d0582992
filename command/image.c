/* The bytes of an archive, as docs/ARCHIVE.md has them: where each part stands, a fresh one, one carried over from version 1, and records from before. */
#define _GNU_SOURCE
#include "command.h"
#include "layout.h"

#include <errno.h>
#include <stdlib.h>
#include <string.h>
#include <sys/random.h>

const uint8_t archive_magic[8] = {'B', 'R', 'I', 'T', 'H', 'E', 'L', 'V'};

uint64_t number_at(const uint8_t *p, int n)
{
    uint64_t v = 0;
    for (int i = n - 1; i >= 0; i--)
        v = v << 8 | p[i];
    return v;
}

void put_number(uint8_t *p, int n, uint64_t v)
{
    for (int i = 0; i < n; i++)
        p[i] = (uint8_t)(v >> 8 * i);
}

/* ---- where the parts stand: all of it follows from the length of the store */

static size_t checks_size(uint64_t store_size)
{
    size_t n = (size_t)(store_size + UNIT - 1) / UNIT * 4;
    return (n + PAGE - 1) / PAGE * PAGE;
}

static size_t journal_size(uint64_t store_size)
{
    size_t n = (size_t)store_size / 8 / PAGE * PAGE;
    return n < SMALLEST_JOURNAL ? SMALLEST_JOURNAL : n > LARGEST_JOURNAL ? LARGEST_JOURNAL : n;
}

size_t image_size(uint64_t store_size)
{
    return AT_CHECKS + checks_size(store_size) + journal_size(store_size) + (size_t)store_size;
}

void point_into(struct archive *a, uint8_t *image, uint64_t store_size)
{
    a->image = image;
    a->size = image_size(store_size);
    a->state = image + AT_STATES;
    a->checks = image + AT_CHECKS;
    a->journal = a->checks + checks_size(store_size);
    a->journal_size = journal_size(store_size);
    a->store = a->journal + a->journal_size;
    a->store_size = (size_t)store_size;
    a->used = a->growing = 0;
}

/* A record from before a place had all its numbers is shorter: each place then means what stands here behind the bytes that it has. */
int take_record(uint8_t *record, const uint8_t *from, uint64_t length)
{
    static const uint8_t meant[BH_PLACE] = {[OLD_PLACE] = 2, [EDITION_PLACE] = BH_ROW_ORDER}; /* the edition, the order */
    size_t n = (size_t)length / BH_PLACES;
    if (length != OLD_RECORD && length != EDITION_RECORD && length != BH_RECORD)
        return -1;
    memset(record, 0, BH_RECORD);
    for (size_t i = 0; i < BH_PLACES; i++) {
        uint8_t *place = record + BH_PLACE * i;
        memcpy(place, from + n * i, n);
        if (number_at(place, 2) != 0)
            memcpy(place + n, meant + n, BH_PLACE - n);
    }
    return 0;
}

/* a state that is none of those before: with a mark that nobody can know beforehand */
void seal_state(struct archive *a)
{
    put_number(a->state + AT_RECORD_LENGTH, 4, BH_RECORD);
    memcpy(a->state + AT_RECORD, a->record, BH_RECORD);
    if (getrandom(a->state + AT_MARK, 8, 0) != 8)
        trouble("no random number for a change: %s", strerror(errno));
    put_number(a->state + AT_STATE_CHECK, 4, bh_crc32(a->state, AT_STATE_CHECK));
}

/* ---- a fresh archive */

uint8_t *fresh_image(uint64_t store_size)
{
    struct archive a = {0};
    uint8_t *image = calloc(1, image_size(store_size));
    if (image == NULL)
        trouble("no memory for an archive of %zu bytes", image_size(store_size));
    memcpy(image, archive_magic, sizeof archive_magic);
    put_number(image + AT_VERSION, 4, VERSION);
    put_number(image + AT_STORE_SIZE, 8, store_size);
    put_number(image + AT_HEAD_CHECK, 4, bh_crc32(image, AT_HEAD_CHECK));
    point_into(&a, image, store_size);
    put_number(a.state + AT_GENERATION, 8, 1);
    seal_state(&a);
    memcpy(image + AT_STATES + PAGE, a.state, STATE);
    return image;
}

/* ---- version 1: which record counts at 12, the store's length at 16, two records at 64 and 192, the store at 512 */

enum { OLD_CHOICE = 12, OLD_RECORDS = 64, OLD_STORE = 512 };

/* The checks of what was stored: rows as they were before anything in them changed, where that can be told. The store itself stays as it was found. */
static void check_as_stored(struct archive *a, const uint8_t *store)
{
    for (int i = 0; i < BH_PLACES; i++) {
        struct bh_place p = place_of(a->record, i);
        for (uint32_t k = 0; p.resource != 0 && k < p.count; k++) {
            uint8_t *slot = slot_of(a->store, p, k);
            size_t n = length_of(slot);
            if (n > 0 && n <= p.slot)
                count_more(a, i, STORED, 1);
            if (p.protection && n <= p.slot && n % BH_ROW == 0)
                mend_rows(slot + 2, n);
        }
    }
    for (size_t unit = 0; unit * UNIT < a->store_size; unit++)
        renew_check(a, unit, 0);
    memcpy(a->store, store, a->store_size);
}

uint8_t *carried_image(const char *path, const uint8_t *old, size_t n)
{
    struct archive a = {.path = path};
    if (n < OLD_STORE || number_at(old + AT_STORE_SIZE, 8) != n - OLD_STORE || n - OLD_STORE > BH_USABLE_STORE || number_at(old + OLD_CHOICE, 4) > 1)
        return NULL;
    const uint8_t *store = old + OLD_STORE;
    take_record(a.record, old + OLD_RECORDS + number_at(old + OLD_CHOICE, 4) * OLD_RECORD, OLD_RECORD);
    /* resource 0 is never open, under any type, so a good record answers Unknown */
    if (bh_number(bh_status(a.record, BH_RECORD, store, n - OLD_STORE, 0, FILE_TYPE)) != BH_UNKNOWN)
        return NULL;
    point_into(&a, fresh_image(n - OLD_STORE), n - OLD_STORE);
    memcpy(a.store, store, a.store_size);
    check_as_stored(&a, store);
    seal_state(&a);
    memcpy(a.image + AT_STATES + PAGE, a.state, STATE);
    return a.image;
}
