/*
 * Damaged archives, chosen by bytes: a small archive of version 1 or 2, the latter with all that its record has or from before orders, or editions, with some of its bytes
 * altered, changes put into its journal, and its CRCs made right again where that is chosen, so that what stands behind them is reached. The same bytes make
 * the same archive, whether a fuzzer or the random driver below chose them.
 *
 * It is opened to be read and to be written. What is refused stays as it was, byte for byte, with nothing beside it. Looking changes nothing, what was mended
 * is sound, and what was accepted and changed is accepted again, as it was left. A record from before is carried over by the first change, that is told once,
 * and its places mean row order, and edition 2 where they have none; a packet is taken by a place of its own edition alone. What is said of a place in column
 * order, whether what came suffices, is what the library then does. The command's own files are at work here; only its messages
 * are not.
 */
#define _GNU_SOURCE
#include "command.h"
#include "layout.h"
#include "lent.h"

#include <dirent.h>
#include <fcntl.h>
#include <setjmp.h>
#include <stdarg.h>
#include <stdlib.h>
#include <string.h>
#include <sys/random.h>
#include <time.h>
#include <unistd.h>

enum { SMALL_STORE = 4000, OLD_RECORDS = 64, OLD_STORE = 512, ROOM = 1 << 17, BLOCKS = 64, DESCRIPTORS = 8 };

/* ---- what the command says: a refusal comes back here by a jump, and what it held until then is given back */

enum talk talk = QUIET;
static jmp_buf refusal;
static int may_refuse;
static char said[512];
static int carried_over; /* how often that was said */
static void *blocks[BLOCKS];

void *__real_malloc(size_t n);
void *__real_calloc(size_t n, size_t each);
void __real_free(void *block);
void *__wrap_malloc(size_t n);
void *__wrap_calloc(size_t n, size_t each);
void __wrap_free(void *block);

static void exchange_block(void *before, void *after)
{
    for (int k = 0; may_refuse && k < BLOCKS; k++)
        if (blocks[k] == before) {
            blocks[k] = after;
            return;
        }
}

/* the linker has these called in the place of the C library's (--wrap) */
void *__wrap_malloc(size_t n)
{
    void *block = __real_malloc(n);
    exchange_block(NULL, block);
    return block;
}

void *__wrap_calloc(size_t n, size_t each)
{
    void *block = __real_calloc(n, each);
    exchange_block(NULL, block);
    return block;
}

void __wrap_free(void *block)
{
    if (block != NULL)
        exchange_block(block, NULL);
    __real_free(block);
}

/* what was found wrong, with what the command said last */
static void fault(const char *what)
{
    fprintf(stderr, "fuzz: the last refusal was '%s'\n", said);
    fail(what);
}

static void come_back(const char *format, va_list words) __attribute__((noreturn));
static void come_back(const char *format, va_list words)
{
    vsnprintf(said, sizeof said, format, words);
    if (may_refuse)
        longjmp(refusal, 1);
    fault("an archive that was accepted was refused later");
    abort();
}

void trouble(const char *format, ...)
{
    va_list words;
    va_start(words, format);
    come_back(format, words);
}

void usage(const char *format, ...)
{
    va_list words;
    va_start(words, format);
    come_back(format, words);
}

void complain(const char *format, ...)
{
    (void)format;
}

void remark(const char *format, ...)
{
    carried_over += strstr(format, "carried over") != NULL;
}

void detail(const char *format, ...)
{
    (void)format;
}

/* no description is listened to here */
uint64_t told_length(struct archive *a, struct bh_place file)
{
    (void)a;
    (void)file;
    return 0;
}

/* ---- the file */

static char folder[256], path[300];

static void remove_folder(void)
{
    unlink(path);
    rmdir(folder);
}

static void make_folder(void)
{
    const char *room = getenv("TMPDIR");
    snprintf(folder, sizeof folder, "%s/archives-XXXXXX", room == NULL ? "/tmp" : room);
    if (mkdtemp(folder) == NULL)
        fail("no folder for the archives");
    snprintf(path, sizeof path, "%s/archive", folder);
    atexit(remove_folder);
}

static void lay_down(const uint8_t *bytes, size_t n)
{
    int fd = open(path, O_WRONLY | O_CREAT | O_TRUNC, 0600);
    if (fd < 0 || write_all(fd, bytes, n) != 0 || close(fd) != 0)
        fail("no room for an archive");
}

static size_t take_up(uint8_t *to)
{
    int fd = open(path, O_RDONLY);
    ssize_t n = fd < 0 ? -1 : read_at(fd, to, ROOM, 0);
    if (n < 0 || close(fd) != 0)
        fail("the archive has gone");
    return (size_t)n;
}

/* the archive is alone in its folder: no part is left beside it */
static void check_alone(void)
{
    int names = 0;
    DIR *d = opendir(folder);
    while (d != NULL && readdir(d) != NULL)
        names++;
    if (d == NULL || closedir(d) != 0 || names != 3)
        fail("something is left beside the archive");
}

/* Syncs are for power losses, which tests/kill plays; here they would only take time. */
int fdatasync(int fd)
{
    (void)fd;
    return 0;
}

int fsync(int fd)
{
    (void)fd;
    return 0;
}

/* Nobody can know a state's mark beforehand: so it comes from all of the input, which then cannot hold it, and the same input still has the same. */
static uint64_t unknown;

static void make_unknown(const uint8_t *data, size_t n)
{
    unknown = 14695981039346656037u;
    for (size_t i = 0; i < n; i++)
        unknown = (unknown ^ data[i]) * 1099511628211u;
}

ssize_t getrandom(void *to, size_t n, unsigned flags)
{
    uint8_t *bytes = to;
    (void)flags;
    for (size_t i = 0; i < n; i++) {
        unknown = unknown * 6364136223846793005u + 1442695040888963407u;
        bytes[i] = (uint8_t)(unknown >> 56);
    }
    return (ssize_t)n;
}

/* ---- the archives that are damaged: two places with protection, two without, one of each in edition 1, a file and a description under one resource, a gap, one
 * in column order, which the older ones do not have, and changes that have not gone to their place */

enum form { VERSION_1, BEFORE_EDITIONS, BEFORE_ORDERS, USUAL, FORMS };
static const size_t place_length[FORMS] = {OLD_PLACE, OLD_PLACE, EDITION_PLACE, BH_PLACE};
static uint8_t whole[FORMS][ROOM], image[ROOM], after[ROOM];
static size_t whole_size[FORMS], size;
static struct archive parts; /* of the image, if it is of version 2 */

static const struct {
    uint16_t resource, slot;
    uint8_t type, protection, rows, edition, order;
    uint32_t count;
} plan[] = {{7, 510, 1, 1, 1, 2, 0, 3}, {8, 20, 2, 0, 1, 1, 0, 20}, {9, 30, 1, 0, 1, 2, 0, 3}, {10, 300, 1, 0, 1, 2, 0, 2}, {7, 255, 2, 1, 1, 1, 0, 2}, {11, 30, 1, 1, 2, 2, 1, 17}};
enum { PLANNED = sizeof plan / sizeof *plan, CLOSED = 2 };

/* What is refused for its edition, or accepted, is not that of its place, or is. */
static void judge_edition(const struct archive *a, size_t k, unsigned edition, uint64_t answer)
{
    struct bh_place p = place_of(a->record, find_place(a->record, plan[k].resource, plan[k].type));
    if (bh_number(answer) == BH_ACCEPTED && p.edition != edition)
        fault("a packet of another edition was accepted");
    if (bh_number(answer) == BH_EDITION && p.edition == edition)
        fault("a packet was refused for the edition that its place has");
}

static size_t length_of_content(size_t k)
{
    if (plan[k].order == BH_COLUMN_ORDER)
        return (size_t)BH_ROW_INFO * plan[k].rows;
    return plan[k].count * (size_t)(plan[k].protection ? plan[k].slot / BH_ROW * BH_ROW_INFO : plan[k].slot);
}

/* Offers a packet of the plan in an edition, with so many bytes altered in each of its rows, or in all by columns; answers what the library does. */
static uint64_t offer_packet(struct archive *a, size_t k, uint32_t number, unsigned edition, unsigned wrong)
{
    static uint8_t content[2000], sent[BH_LARGEST_PACKET];
    size_t n = length_of_content(k);
    for (size_t i = 0; i < n; i++)
        content[i] = (uint8_t)(i * i + k);
    uint64_t packed = bh_pack_as(content, n, plan[k].resource, plan[k].type, 0, plan[k].protection, plan[k].rows, plan[k].slot, (uint16_t)edition, plan[k].order, number, sent,
                                 sizeof sent);
    if (bh_number(packed) != BH_ACCEPTED)
        fail("a packet of the plan cannot be made");
    uint32_t altered = 0;
    for (unsigned i = 0; plan[k].order == BH_COLUMN_ORDER && i < wrong && BH_HEADER + i + BH_CRC < bh_value(packed); i++, altered++)
        sent[BH_HEADER + i] ^= (uint8_t)(i + 1);
    for (size_t row = BH_HEADER; plan[k].protection && row + BH_ROW + BH_CRC <= bh_value(packed); row += BH_ROW)
        for (unsigned i = 0; i < wrong; i++, altered++)
            sent[row + (number * 7 + i * 31) % BH_ROW] ^= (uint8_t)(i + 1);
    uint64_t answer = bh_offer(a->record, BH_RECORD, a->store, a->store_size, sent, (size_t)bh_value(packed));
    if (bh_number(answer) == BH_ACCEPTED && bh_mended(answer) != altered)
        fault("another number of bytes mended than were altered");
    judge_edition(a, k, edition, answer);
    return answer;
}

static void count_offer(struct archive *a, int place, uint64_t answer)
{
    count_more(a, place, bh_is_repeat(answer) ? REPEATED : STORED, 1);
    count_more(a, place, MENDED, bh_mended(answer));
}

static void store_packet(struct archive *a, size_t k, uint32_t number)
{
    uint64_t answer = offer_packet(a, k, number, plan[k].edition, plan[k].order == BH_COLUMN_ORDER ? 0 : number);
    if (bh_number(answer) != BH_ACCEPTED || bh_is_repeat(answer))
        fail("a packet of the sound archive was not stored");
    count_offer(a, (int)k, answer);
}

static void make_checks(struct archive *a)
{
    for (size_t unit = 0; unit * UNIT < a->store_size; unit++)
        renew_check(a, unit, 0);
}

/* every second packet is in its place */
static void make_settled(void)
{
    uint8_t *fresh = fresh_image(SMALL_STORE);
    struct archive a = {0};
    point_into(&a, fresh, SMALL_STORE);
    for (size_t k = 0; k < PLANNED; k++) {
        if (bh_open_as(a.record, BH_RECORD, a.store, a.store_size, plan[k].resource, plan[k].type, 0, plan[k].count, plan[k].protection, plan[k].rows,
                       plan[k].slot, plan[k].edition, plan[k].order) != BH_ACCEPTED)
            fail("a place of the sound archive was refused");
        for (uint32_t number = 0; number < plan[k].count; number += 2)
            store_packet(&a, k, number);
    }
    bh_close(a.record, BH_RECORD, a.store, a.store_size, plan[CLOSED].resource, plan[CLOSED].type);
    make_checks(&a);
    seal_state(&a);
    memcpy(fresh + AT_STATES + PAGE, a.state, STATE);
    lay_down(fresh, a.size);
    free(fresh);
}

static void keep_slot(struct archive *a, struct bh_place p, uint32_t number)
{
    uint8_t *slot = slot_of(a->store, p, number);
    change(a, slot, 2u + length_of(slot));
    change(a, check_at(a, unit_of(a, slot)), 4);
    if (has_room(a))
        return;
    commit(a);
    settle(a);
}

/* A record as it was before: of each place its first bytes, and none in column order. */
static void shorten(uint8_t *to, const uint8_t *record, size_t n)
{
    uint8_t before[BH_RECORD];
    memcpy(before, record, BH_RECORD);
    for (int i = 0; i < BH_PLACES; i++) {
        if (place_of(before, i).order == BH_COLUMN_ORDER)
            memset(to + n * (size_t)i, 0, n);
        else
            memcpy(to + n * (size_t)i, before + BH_PLACE * i, n);
    }
}

/* and one more of each place is in the journal */
static void make_whole(void)
{
    make_folder();
    make_settled();
    struct archive a = open_archive(path, 1, 0);
    for (size_t k = 0; k < PLANNED; k++) {
        if (k == CLOSED)
            continue;
        store_packet(&a, k, 1);
        renew_for(&a, slot_of(a.store, place_of(a.record, (int)k), 1));
        keep_slot(&a, place_of(a.record, (int)k), 1);
        if (k != 0)
            commit(&a);
    }
    uint8_t *old = whole[VERSION_1];
    memcpy(old, archive_magic, sizeof archive_magic);
    put_number(old + AT_VERSION, 4, 1);
    put_number(old + AT_STORE_SIZE, 8, SMALL_STORE);
    shorten(old + OLD_RECORDS, a.record, OLD_PLACE);
    memcpy(old + OLD_STORE, a.store, SMALL_STORE);
    whole_size[VERSION_1] = OLD_STORE + SMALL_STORE;
    close_archive(&a);
    whole_size[USUAL] = take_up(whole[USUAL]);
    point_into(&parts, image, SMALL_STORE);
}

/* ---- alterations */

/* the changes of the journal, one behind the other as their sizes say */
static uint8_t *change_behind(uint8_t *head)
{
    size_t at = (size_t)(head - parts.journal), n = (size_t)number_at(head + AT_CHANGE_SIZE, 4);
    if (n == 0 || n + CHANGE_HEAD > parts.journal_size - at || parts.journal_size - at - CHANGE_HEAD - n < CHANGE_HEAD)
        return NULL;
    return head + CHANGE_HEAD + n;
}

static uint8_t *some_change(void)
{
    uint8_t *head = parts.journal;
    for (unsigned k = pick() % 6; k > 0; k--) {
        uint8_t *next = change_behind(head);
        head = next == NULL ? head : next;
    }
    return head;
}

/* numbers at which something begins, ends or is no more */
static uint64_t some_number(void)
{
    const uint64_t journal = (uint64_t)(parts.journal - image), store = (uint64_t)(parts.store - image);
    const uint64_t edges[] = {0, 1, OLD_RECORD, EDITION_RECORD, BH_RECORD, HEAD, STATE, AT_STATES, AT_STATES + PAGE, AT_CHECKS, journal, store, parts.size, parts.journal_size, SMALL_STORE,
                              BH_USABLE_STORE, UINT32_MAX, (uint64_t)1 << 32, (uint64_t)1 << 63, UINT64_MAX};
    uint64_t edge = edges[pick() % (sizeof edges / sizeof *edges)];
    unsigned way = pick() % 8;
    return way == 0 ? pick() : way == 1 ? wide() : way == 2 ? edge + pick() : way == 3 ? edge - pick() : edge;
}

/* where bytes are altered: mostly where something is looked at */
static uint8_t *some_place(enum form form)
{
    const struct {
        size_t at, n;
    } old[] = {{0, 24}, {OLD_RECORDS, 2 * OLD_RECORD}, {OLD_STORE, SMALL_STORE - 8}},
      now[] = {{0, HEAD}, {AT_STATES, AT_COUNTERS}, {AT_STATES, STATE}, {AT_STATES + PAGE, STATE}, {AT_CHECKS, SMALL_STORE / UNIT * 4},
               {(size_t)(parts.store - image), SMALL_STORE - 8}};
    unsigned which = pick(), at = wide();
    if (form == VERSION_1)
        return image + old[which % 3].at + at % old[which % 3].n;
    return image + now[which % 6].at + at % now[which % 6].n;
}

/* a state: one of the two copies, or the one that ends a change */
static uint8_t *some_state(void)
{
    unsigned which = pick() % 3;
    uint8_t *part = some_change();
    if (which < 2)
        return image + AT_STATES + which * PAGE;
    part = change_behind(part) == NULL ? part : change_behind(part);
    return part - parts.journal < CHANGE_HEAD + STATE ? parts.state : part - STATE;
}

static void alter_record_length(void)
{
    static const uint16_t lengths[] = {OLD_RECORD, EDITION_RECORD, BH_RECORD, BH_RECORD + 16};
    unsigned way = pick() % 5;
    put_number(some_state() + AT_RECORD_LENGTH, 4, way == 4 ? some_number() : lengths[way]);
}

/* edition and order have a place's last bytes, in a record that has them */
static void alter_place(enum form form)
{
    static const struct {
        uint8_t at, n;
    } fields[] = {{0, 2}, {2, 1}, {3, 1}, {4, 4}, {8, 1}, {9, 1}, {10, 2}, {12, 4}, {16, 2}, {18, 2}};
    unsigned which = pick() % (8 + (place_length[form] - OLD_PLACE) / 2), place = pick() % BH_PLACES, way = pick() % 4;
    uint8_t *record = form == VERSION_1 ? image + OLD_RECORDS + pick() % 2 * OLD_RECORD : some_state() + AT_RECORD;
    uint8_t *field = record + place_length[form] * place + fields[which].at;
    put_number(field, fields[which].n, way == 0 ? some_number() : number_at(field, fields[which].n) + (uint64_t)(int64_t)(int8_t)pick());
}

/* the length of a slot, as the places were before anything was altered */
static void alter_slot(enum form form)
{
    struct bh_place p = place_of(whole[USUAL] + AT_STATES + AT_RECORD, (int)(pick() % PLANNED));
    uint8_t *store = form == VERSION_1 ? image + OLD_STORE : parts.store;
    if (p.resource != 0)
        put_number(slot_of(store, p, pick() % p.count), 2, some_number());
}

static void alter_change(void)
{
    uint8_t *head = some_change();
    unsigned way = pick() % 6;
    if (way == 0)
        put_number(head + AT_CHANGE_SIZE, 4, some_number());
    else if (way == 1)
        put_number(head + AT_CHANGE_GENERATION, 8, number_at(head + AT_CHANGE_GENERATION, 8) + pick() % 4);
    else if (way == 2)
        head[AT_CHANGE_BEHIND + pick() % 8] ^= (uint8_t)pick();
    else if (way == 3)
        put_number(head + CHANGE_HEAD, 4, some_number());
    else if (way == 4)
        put_number(head + CHANGE_HEAD + 4, 4, some_number());
    else
        head[wide() % (CHANGE_HEAD + 64)] ^= (uint8_t)pick();
}

static uint8_t *put_part(uint8_t *to, uint64_t at, const uint8_t *from, size_t n)
{
    put_number(to, 4, at);
    put_number(to + 4, 4, n);
    memmove(to + PART_HEAD, from, n);
    return to + PART_HEAD + n;
}

/* the first head behind the changes that are there; the state and the generation are those that the last of them makes */
static uint8_t *end_of_changes(uint8_t **state, uint64_t *generation)
{
    uint8_t *head = parts.journal;
    *state = image + AT_STATES;
    *generation = number_at(*state + AT_GENERATION, 8);
    for (uint8_t *next; number_at(head + AT_CHANGE_SIZE, 4) != 0 && (next = change_behind(head)) != NULL; head = next, ++*generation)
        if (next - parts.journal >= CHANGE_HEAD + STATE)
            *state = next - STATE;
    return head;
}

/* One more change behind those that are there, with parts of any length and the state: so the journal may be full to its last bytes. */
static void add_change(void)
{
    uint8_t *state, *head, *part;
    uint64_t generation;
    head = end_of_changes(&state, &generation);
    size_t left = parts.journal_size - (size_t)(head - parts.journal), least = CHANGE_HEAD + PART_HEAD + STATE;
    if (number_at(head + AT_CHANGE_SIZE, 4) != 0 || left < least)
        return;
    unsigned way = pick() % 4;
    size_t fill = way == 0 ? left - least : way == 1 ? wide() % (left - least + 1) : way == 2 ? pick() % (left - least + 1) : 0;
    put_number(head + AT_CHANGE_GENERATION, 8, generation + 1);
    memcpy(head + AT_CHANGE_BEHIND, state + AT_MARK, 8);
    for (part = head + CHANGE_HEAD; fill >= PART_HEAD;) {
        size_t n = fill - PART_HEAD < SMALL_STORE ? fill - PART_HEAD : SMALL_STORE;
        part = put_part(part, pick() % 32 == 31 ? some_number() : (uint64_t)(parts.store - image), parts.store, n);
        fill -= PART_HEAD + n;
    }
    part = put_part(part, AT_STATES, state, STATE);
    put_number(part - STATE + AT_GENERATION, 8, generation + 1);
    put_number(part - STATE + AT_MARK, 8, ~generation);
    put_number(head + AT_CHANGE_SIZE, 4, (uint64_t)(part - head) - CHANGE_HEAD);
}

/* the file's length, by itself or with the store's: the parts before the store stay where they are */
static void alter_length(enum form form)
{
    unsigned way = pick() % 8;
    if (way > 2) {
        uint64_t n = way < 5 ? pick() : way == 5 ? wide() % 40000 : SMALL_STORE - 128 + pick();
        put_number(image + AT_STORE_SIZE, 8, n);
        size = form == VERSION_1 ? OLD_STORE + n : image_size(n);
        return;
    }
    size_t least = pick(), most = ROOM - least;
    size = way == 0 ? wide() : way == 1 && size > least ? size - least : way == 2 && size < most ? size + least : least;
}

static void alter(enum form form)
{
    unsigned way = pick() % 17;
    if (way == 0)
        alter_length(form);
    else if (way < 4)
        *some_place(form) ^= (uint8_t)pick();
    else if (way == 4)
        alter_slot(form);
    else if (way < 7)
        put_number(some_place(form), way == 5 ? 4 : 8, some_number());
    else if (way < 10 || form == VERSION_1)
        alter_place(form);
    else if (way == 10)
        alter_record_length();
    else if (way < 14)
        alter_change();
    else
        add_change();
}

static void seal(uint8_t *state)
{
    put_number(state + AT_STATE_CHECK, 4, bh_crc32(state, AT_STATE_CHECK));
}

/* the CRCs of the head, of the states and of the changes as they ought to be; those of states within changes only where that is asked for */
static void make_right(int within)
{
    put_number(image + AT_HEAD_CHECK, 4, bh_crc32(image, AT_HEAD_CHECK));
    seal(image + AT_STATES);
    seal(image + AT_STATES + PAGE);
    for (uint8_t *head = parts.journal; head != NULL; head = change_behind(head)) {
        size_t n = (size_t)number_at(head + AT_CHANGE_SIZE, 4);
        if (n == 0 || n > parts.journal_size - (size_t)(head - parts.journal) - CHANGE_HEAD)
            return;
        if (within && n >= STATE)
            seal(head + CHANGE_HEAD + n - STATE);
        put_number(head + AT_CHANGE_CHECK, 4, bh_crc32(head + AT_CHANGE_SIZE, CHANGE_HEAD - AT_CHANGE_SIZE + n));
    }
}

/* the usual archive as it was before editions, or before orders, in its states and in the changes of its journal */
static void make_narrow(enum form form)
{
    size_t length = BH_PLACES * place_length[form];
    memcpy(image, whole[USUAL], whole_size[USUAL]);
    uint8_t *states[8] = {image + AT_STATES, image + AT_STATES + PAGE};
    size_t n = 2;
    for (uint8_t *head = parts.journal; n < 8 && (head = change_behind(head)) != NULL;)
        states[n++] = head - STATE;
    for (size_t k = 0; k < n; k++) {
        shorten(states[k] + AT_RECORD, states[k] + AT_RECORD, place_length[form]);
        memset(states[k] + AT_RECORD + length, 0, BH_RECORD - length);
        put_number(states[k] + AT_RECORD_LENGTH, 4, length);
    }
    make_right(1);
    memcpy(whole[form], image, whole_size[form] = whole_size[USUAL]);
}

/* ---- what is done with an archive, and judged */

static void same_file_as(const uint8_t *bytes, const char *what)
{
    size_t n = take_up(after);
    if (n != size || memcmp(after, bytes, n) != 0)
        fault(what);
}

/* Opens the archive; NULL where it is refused. */
static struct archive *try_to_open(int writing)
{
    static struct archive a;
    int lowest = dup(STDERR_FILENO);
    close(lowest);
    may_refuse = 1;
    if (setjmp(refusal) == 0) {
        a = open_archive(path, writing, 0);
        may_refuse = 0;
        memset(blocks, 0, sizeof blocks);
        return &a;
    }
    may_refuse = 0;
    for (int k = 0; k < BLOCKS; k++)
        __real_free(blocks[k]);
    memset(blocks, 0, sizeof blocks);
    for (int fd = lowest; fd < lowest + DESCRIPTORS; fd++)
        close(fd);
    check_alone();
    return NULL;
}

/* What is said of a place in column order is what the library does with the length for which it is said; with no room for it nothing is written. */
static void judge_reach(struct archive *a, struct bh_place p)
{
    if (bh_number(bh_status(a->record, BH_RECORD, a->store, a->store_size, p.resource, p.type)) != BH_ACCEPTED)
        return;
    struct reach r = reach_of(a, p);
    uint64_t length = r.rows > 0 ? r.longest : whole_length(a->store, p);
    unsigned number = bh_number(bh_hand_out(a->record, BH_RECORD, a->store, a->store_size, p.resource, p.type, length, NULL, 0));
    int suffices = number == BH_CODE || number == BH_PADDING || number == BH_OUTPUT, unfit = number == BH_SIZE || number == BH_SHAPE;
    if (suffices != (r.what == SUFFICIENT || r.what == BY_LENGTH) || (number == BH_LOST) != (r.what == LACKING) || unfit != (r.what == MISSHAPEN || r.what == NO_FILE))
        fault("what is said of a place in column order is not so");
    if (r.what == BY_LENGTH && bh_number(bh_hand_out(a->record, BH_RECORD, a->store, a->store_size, p.resource, p.type, r.longest + 1, NULL, 0)) != BH_LOST)
        fault("what is said to depend on the length does not");
}

/* What was sent by columns is emptied where it is damaged, and the others beside it. */
static void look_at_losable(struct archive *a, struct bh_place p, uint32_t k, int keep_it)
{
    empty_slot(a, p, k);
    if (p.order != BH_COLUMN_ORDER || length_of(slot_of(a->store, p, k)) != 0)
        fault("what was to be emptied is not empty");
    if (keep_it)
        keep_slot(a, p, k);
}

static void look_at_slots(struct archive *a, struct bh_place p, int mend, int keep_it)
{
    for (uint32_t k = 0; k < p.count; k++) {
        struct finding f = judge_slot(a, p, k, mend);
        if (f.packet != k || f.words == NULL || (f.what == MENDABLE) != (f.bytes > 0 && f.what != BROKEN))
            fault("a finding that says two things");
        if (!mend || f.what == SOUND || f.what == BROKEN)
            continue;
        if (f.what == LOSABLE) {
            look_at_losable(a, p, k, keep_it);
            continue;
        }
        if (judge_slot(a, p, k, 0).what != SOUND)
            fault("what was mended is not sound");
        if (!keep_it)
            continue;
        keep_slot(a, p, k);
    }
}

static void look_at(struct archive *a, int mend, int keep_it)
{
    static uint8_t before[ROOM];
    uint64_t sum = bytes_used(a->record) + largest_gap(a->record, a->store_size);
    if (sum > a->store_size)
        fault("more room than there is");
    memcpy(before, a->image, a->size);
    for (int i = 0; i < BH_PLACES; i++) {
        struct bh_place p = place_of(a->record, i);
        for (int k = 0; k < COUNTERS; k++)
            sum += count_of(a, i, (enum counter)k);
        if (p.resource == 0)
            continue;
        if (find_place(a->record, p.resource, p.type) != i)
            fault("two places of one resource and type");
        int before_editions = a->version == 1 || number_at(a->state + AT_RECORD_LENGTH, 4) == OLD_RECORD;
        if (p.edition != 2 && (p.edition != 1 || before_editions))
            fault("an edition that there is not, or was not");
        if (p.order != BH_ROW_ORDER && (p.order != BH_COLUMN_ORDER || !p.protection || older(a) != NULL))
            fault("an order that there is not, or was not");
        if (p.order == BH_COLUMN_ORDER)
            judge_reach(a, p);
        else if (whole_length(a->store, p) > joined_length(a->store, p))
            fault("a file longer than what came");
        look_at_slots(a, p, mend, keep_it);
    }
    for (int i = 0; mend && i < BH_PLACES; i++)
        for (uint32_t k = 0; place_of(a->record, i).order == BH_COLUMN_ORDER && k < place_of(a->record, i).count; k++)
            if (judge_slot(a, place_of(a->record, i), k, 0).what == LOSABLE)
                fault("what could be emptied was not");
    if (!mend && memcmp(before, a->image, a->size) != 0)
        fault("looking changed the archive");
}

/* What offer does with one packet of the plan; answers whether something has to be committed, if only what was counted. */
static int offer_one(struct archive *a, size_t k, uint32_t number, unsigned edition, unsigned wrong)
{
    uint64_t answer = offer_packet(a, k, number, edition, wrong);
    int place = find_place(a->record, plan[k].resource, plan[k].type);
    if (bh_number(answer) == BH_EDITION)
        count_more(a, place, EDITIONS, 1);
    else if (bh_number(answer) == BH_ACCEPTED)
        count_offer(a, place, answer);
    else
        return 0;
    if (bh_number(answer) == BH_ACCEPTED && !bh_is_repeat(answer)) {
        renew_for(a, slot_of(a->store, place_of(a->record, place), number));
        keep_slot(a, place_of(a->record, place), number);
    }
    return 1;
}

/* every packet of the plan, in the one edition or the other */
static int offer_all(struct archive *a, unsigned edition, unsigned wrong)
{
    int counted = 0;
    for (size_t k = 0; k < PLANNED; k++)
        for (uint32_t number = 0; number < plan[k].count; number++)
            counted |= offer_one(a, k, number, edition, wrong);
    return counted;
}

/* another command, while this one has let go of the archive */
static void write_beside(unsigned way)
{
    struct archive other = open_archive(path, 1, 0);
    count_more(&other, (int)(way % BH_PLACES), CONFLICTS, 1);
    commit(&other);
    if (way & 1)
        settle(&other);
    close_archive(&other);
}

/* What is changed: packets, what can be mended, counters. Then it is left as a kill would leave it, or settled. */
static void write_to(struct archive *a, unsigned way)
{
    look_at(a, 0, 0);
    if (way & 1)
        look_at(a, 1, 1);
    int counted = way & 2 ? offer_all(a, 1 + way / 32 % 2, way % 9) : 0;
    if (way & 4) {
        count_more(a, (int)(way / 8 % BH_PLACES), REPEATED, way);
        commit(a);
    } else if (counted || a->growing > 0) {
        commit(a);
    }
    if (way & 8) {
        release_archive(a);
        if (way & 16)
            write_beside(way / 32);
        retake_archive(a);
    }
    if (way & 128)
        settle(a);
}

/* An archive from before is carried over by its first change, which is said once, and not before. */
static void write_and_listen(struct archive *a, unsigned way)
{
    int was_older = older(a) != NULL;
    carried_over = 0;
    write_to(a, way);
    if (carried_over != (was_older && older(a) == NULL))
        fault("carried over without a word, or said more than once");
}

static void check_kept(const uint8_t *state, const uint8_t *checks, const uint8_t *store)
{
    struct archive *a = try_to_open(0);
    if (a == NULL)
        fault("what was accepted and changed is refused");
    if (memcmp(a->state, state, STATE) != 0 || memcmp(a->checks, checks, (size_t)(a->journal - a->checks)) != 0 || memcmp(a->store, store, a->store_size) != 0)
        fault("what was written is not what is read");
    look_at(a, 0, 0);
    close_archive(a);
}

static void use_image(unsigned way)
{
    static uint8_t state[STATE], rest[ROOM];
    lay_down(image, size);
    struct archive *a = try_to_open(0);
    if (a != NULL) {
        accepted_calls++;
        if (a->version == VERSION && a->size != size)
            fault("an archive of another length was accepted");
        look_at(a, 0, 0);
        look_at(a, 1, 0);
        close_archive(a);
    }
    same_file_as(image, a != NULL ? "reading changed the archive" : "what was refused was changed");
    int readable = a != NULL;
    a = try_to_open(1);
    if ((a != NULL) != readable)
        fault("what can be read cannot be written, or the other way round");
    if (a == NULL) {
        same_file_as(image, "what was refused was changed");
        return;
    }
    write_and_listen(a, way);
    if (a->version != VERSION) {
        close_archive(a);
        same_file_as(image, "an archive of version 1 was changed though nothing in it was");
        return;
    }
    size_t checks = (size_t)(a->journal - a->checks);
    memcpy(state, a->state, STATE);
    memcpy(rest, a->checks, checks);
    memcpy(rest + checks, a->store, a->store_size);
    close_archive(a);
    check_alone();
    check_kept(state, rest, rest + checks);
}

int LLVMFuzzerTestOneInput(const uint8_t *data, size_t n)
{
    static const uint8_t nothing[1];
    static const enum form forms[] = {VERSION_1, BEFORE_EDITIONS, BEFORE_ORDERS, USUAL, USUAL, USUAL};
    if (whole_size[USUAL] == 0) {
        make_whole();
        make_narrow(BEFORE_EDITIONS);
        make_narrow(BEFORE_ORDERS);
    }
    make_unknown(data, n);
    choice = n ? data : nothing;
    choices = n;
    unsigned way = pick(), how = pick();
    enum form form = forms[pick() % 6];
    memset(image, 0, sizeof image);
    memcpy(image, whole[form], size = whole_size[form]);
    while (choices > 0)
        alter(form);
    if (form != VERSION_1 && how % 4 != 0)
        make_right(how % 4 != 1);
    calls++;
    use_image(way);
    return 0;
}

#ifdef DRIVER
/* archive-driver SECONDS SEED: random archives for so many seconds */
int main(int argc, char **argv)
{
    static uint8_t data[64];
    uint64_t x = argc > 2 ? strtoull(argv[2], NULL, 10) : 1;
    double seconds = argc > 1 ? atof(argv[1]) : 1;
    time_t from = time(NULL);
    while (difftime(time(NULL), from) < seconds) {
        x = draw(data, sizeof data, x);
        LLVMFuzzerTestOneInput(data, data[0] % sizeof data);
    }
    printf("fuzz: %lu damaged archives, %lu accepted, nothing touched that may not be\n", calls, accepted_calls);
    return 0;
}
#endif
