/* offer: every packet of the recordings, a batch at a time, with the archive locked for one batch and free between two. */
#define _GNU_SOURCE
#include "command.h"

#include <errno.h>
#include <inttypes.h>
#include <stdlib.h>
#include <string.h>
#include <time.h>
#include <unistd.h>

enum { LAST = BH_EDITION }; /* no refusal of an offer has a higher number */

struct tally {
    uint64_t stored, repeated, refused[LAST + 1], skipped;
    uint64_t mended; /* bytes, in the packets stored and repeated */
    uint64_t lost; /* packets of open places that were sound and were refused */
    char cause[LAST + 1][128]; /* of the first refusal with this number */
    char hint[3][256]; /* what to do for the first sound packet of the other edition than its place's, for the first that was sent in the other order, and for the
                          first that is one of more or fewer than its place is for, or is longer than its slots */
};

struct offering {
    struct archive archive;
    struct tally tally;
    int each, json, changed;
    uint64_t found; /* whether there is a sound packet in this recording */
    FILE *lines;    /* what is told of each packet once its batch is in the archive */
    double synced, rested;
};

/* ---- one packet */

/* Whether its CRC agrees as it stands. */
static int is_as_sent(const uint8_t *packet, size_t n)
{
    const uint8_t *crc = packet + n - BH_CRC;
    return bh_crc32(packet, n - BH_CRC) == ((uint32_t)crc[0] << 24 | (uint32_t)crc[1] << 16 | (uint32_t)crc[2] << 8 | crc[3]);
}

/* Whether its CRC agrees, as it came or, where it is protected and whole rows, after repair of them: what is refused for its header before that is looked at may
 * be noise. Nothing in a packet says in which order it was sent. */
static int is_sound(const uint8_t *packet, size_t n)
{
    uint8_t copy[BH_LARGEST_PACKET];
    size_t payload = n - BH_HEADER - BH_CRC;
    if (is_as_sent(packet, n))
        return 1;
    if ((packet[12] >> 4 & 3) != 1 || payload % BH_ROW != 0)
        return 0;
    memcpy(copy, packet, n);
    return mend_rows(copy + BH_HEADER, payload) >= 0 && is_as_sent(copy, n);
}

/* Whether it was sent by columns and refused for what rows have to be: they are not whole, or no coded rows, though the CRC says that nothing in it has changed.
 * A stream is never collected, in whichever order. */
static int is_by_columns(const uint8_t *packet, size_t n, unsigned number)
{
    return packet[12] >> 6 != 0 && (number == BH_ROWS || number == BH_REPAIR || number == BH_CRC_BAD) && is_as_sent(packet, n);
}

/* fields of a packet, as bh_read_header gives them */
enum field { RESOURCE = 0, NUMBER = 1, UPDATE = 2, COUNT = 4, TYPE = 5, PROTECTION = 6, ROWS = 7, RESERVED = 8, EDITION = 9 };

/* The edition of a packet beside that of its place; where it has neither, what it has instead. Under protection its rows say nothing of it. */
static void tell_edition(char *to, size_t room, struct bh_place p, const uint32_t *fields)
{
    const char *place = place_words(p.resource, p.type);
    if (fields[EDITION] != 0)
        snprintf(to, room, "%s: edition %" PRIu32 ", held %u", place, fields[EDITION], p.edition);
    else if (fields[PROTECTION] != 0)
        snprintf(to, room, "%s: of neither edition (reserved bits %" PRIu32 "), held %u", place, fields[RESERVED], p.edition);
    else
        snprintf(to, room, "%s: of neither edition (reserved bits %" PRIu32 ", rows %" PRIu32 "), held %u", place, fields[RESERVED], fields[ROWS], p.edition);
}

/* Why a packet does not fit the place that its resource and type name: the first field that differs, as it is and as it is held. */
static void tell_cause(char *to, size_t room, unsigned number, struct bh_place p, const uint32_t *fields, size_t n)
{
    const struct {
        const char *name;
        uint32_t seen, held;
    } pairs[] = {{"update", fields[UPDATE], p.update}, {"count", fields[COUNT], p.count}, {"protection", fields[PROTECTION], p.protection}, {"rows", fields[ROWS], p.rows}};
    *to = '\0';
    if (number == BH_EDITION)
        tell_edition(to, room, p, fields);
    if (number == BH_WIDE)
        snprintf(to, room, "%s: %zu bytes of payload, held in slots of %u", place_words(p.resource, p.type), n - BH_HEADER - BH_CRC, p.slot);
    for (size_t k = 0; number == BH_OTHER && k < sizeof pairs / sizeof *pairs; k++)
        if (pairs[k].seen != pairs[k].held) {
            snprintf(to, room, "%s: %s %" PRIu32 ", held %" PRIu32, place_words(p.resource, p.type), pairs[k].name, pairs[k].seen, pairs[k].held);
            return;
        }
}

/* A packet that was sent by columns, where no place in that order has its resource and type. */
static void tell_order(char *to, size_t room, struct bh_place p, const uint8_t *packet)
{
    const char *held = p.resource == 0 ? "not open" : p.protection ? "held by rows" : "held without protection";
    snprintf(to, room, "%s: sent by columns, %s", place_words((uint16_t)(packet[3] << 8 | packet[4]), packet[12] >> 6), held);
}

static void tell_packet(struct offering *o, const uint32_t *fields, uint64_t answer, int unread, const char *cause)
{
    unsigned number = bh_number(answer);
    const char *words = number != BH_ACCEPTED ? "refused" : bh_is_repeat(answer) ? "repeated" : "stored";
    if (o->json && unread)
        fputs("{\"resource\": null, \"type\": null, \"number\": null", o->lines);
    else if (unread)
        fputs("- - -", o->lines);
    else
        fprintf(o->lines, o->json ? "{\"resource\": %" PRIu32 ", \"type\": %" PRIu32 ", \"number\": %" PRIu32 : "%" PRIu32 " %" PRIu32 " %" PRIu32, fields[RESOURCE], fields[TYPE], fields[NUMBER]);
    fprintf(o->lines, o->json ? ", \"answer\": \"%s\"" : " %s", words);
    if (number != BH_ACCEPTED)
        fprintf(o->lines, o->json ? ", \"refusal\": %u, \"name\": \"%s\"" : " %u %s", number, refusal_name(number));
    else
        fprintf(o->lines, o->json ? ", \"mended_bytes\": %" PRIu32 : " mended %" PRIu32, bh_mended(answer));
    if (*cause)
        fprintf(o->lines, o->json ? ", \"cause\": \"%s\"" : ": %s", cause);
    fputs(o->json ? "}\n" : "\n", o->lines);
}

/* what was stored goes into the change that is being put together */
static void keep_slot(struct archive *a, int place, uint32_t number)
{
    uint8_t *slot = slot_of(a->store, place_of(a->record, place), number);
    renew_for(a, slot);
    change(a, slot, 2u + length_of(slot));
    change(a, check_at(a, unit_of(a, slot)), 4);
}

/* A slot that is not as it was stored differs from what was sent: that is damage, and no second file. */
static int tell_damage(struct archive *a, struct bh_place p, uint32_t number, char *to, size_t room)
{
    int damaged = judge_slot(a, p, number, 0).what != SOUND;
    snprintf(to, room, "%s: packet %" PRIu32 "%s", place_words(p.resource, p.type), number, damaged ? " is damaged in the archive, see verify" : "");
    return damaged;
}

/* refused for what its header says beside the place that it names, before its CRC is looked at */
static int is_unfit(unsigned number)
{
    return number == BH_OTHER || number == BH_EDITION || number == BH_WIDE;
}

/* counts for the command, and for the place if the packet names one; damaged: what stands in its slot is not what was stored */
static void count_packet(struct offering *o, int place, uint64_t answer, int sound, int by_columns, int damaged)
{
    struct tally *t = &o->tally;
    unsigned number = bh_number(answer);
    enum counter which = COUNTERS;
    o->found += (uint64_t)sound;
    if (number != BH_ACCEPTED)
        t->refused[number]++;
    else if (bh_is_repeat(answer))
        t->repeated++, which = REPEATED;
    else
        t->stored++, which = STORED;
    if (number == BH_CONFLICT && !damaged)
        which = CONFLICTS;
    if (number == BH_OTHER && sound)
        which = OTHERS;
    if (number == BH_EDITION && sound)
        which = EDITIONS;
    if (by_columns && place >= 0)
        which = ORDERS;
    t->mended += bh_mended(answer);
    t->lost += sound && (number == BH_CONFLICT || number == BH_SLOT || is_unfit(number) || which == ORDERS);
    if (which == COUNTERS)
        return;
    count_more(&o->archive, place, which, 1);
    count_more(&o->archive, place, MENDED, bh_mended(answer));
    o->changed = 1;
}

/* A place that was opened in the wrong edition collects nothing: what would. A packet of neither edition fits no place, and nothing can be said for it. */
static void hint_edition(struct tally *t, struct bh_place p, uint32_t edition)
{
    if (edition != 0 && t->hint[0][0] == '\0')
        snprintf(t->hint[0], sizeof t->hint[0],
                 "%s, is open in edition %u, and sound packets of edition %" PRIu32 " came: a place that is opened with --edition %" PRIu32 " takes them, once this one is closed",
                 place_words(p.resource, p.type), p.edition, edition, edition);
}

/* the option that names the size in which a packet was sent: any packet but the last has it */
static const char *size_option(const uint32_t *fields, size_t payload)
{
    static char words[32];
    if (fields[NUMBER] + 1 == fields[COUNT])
        return " and the size of its packets";
    snprintf(words, sizeof words, " --size %zu", payload);
    return words;
}

/* The same of one that was opened in the wrong order. */
static void hint_order(struct tally *t, struct bh_place p, const uint32_t *fields, size_t payload)
{
    if (t->hint[1][0] == '\0')
        snprintf(t->hint[1], sizeof t->hint[1], "%s, is open %s, and sound packets came that were sent by columns: a place that is opened with --order columns%s takes them, once this one is closed",
                 place_words(p.resource, p.type), p.protection ? "by rows" : "without protection", size_option(fields, payload));
}

/* The same of one that was opened for another size: then the count is another, or the payload is longer than the slots. */
static void hint_size(struct tally *t, struct bh_place p, const uint32_t *fields, size_t payload)
{
    int alike = fields[UPDATE] == p.update && fields[PROTECTION] == p.protection && (p.protection == 0 || fields[ROWS] == p.rows);
    if (t->hint[2][0] == '\0' && alike)
        snprintf(t->hint[2], sizeof t->hint[2],
                 "%s, is open for %" PRIu32 " packets of size %u, and a sound packet of %zu bytes came that is one of %" PRIu32 ": for its file a place is opened with --count %" PRIu32
                 "%s, once this one is closed",
                 place_words(p.resource, p.type), p.count, p.slot, payload, fields[COUNT], fields[COUNT], size_option(fields, payload));
}

/* Answers whether the search may go on behind the packet: whether it is one, by its CRC. */
static int take_packet(struct offering *o, const uint8_t *packet, size_t n)
{
    struct archive *a = &o->archive;
    uint32_t fields[BH_FIELDS] = {0};
    uint64_t answer = bh_offer(a->record, BH_RECORD, a->store, a->store_size, packet, n);
    unsigned number = bh_number(answer);
    int place = find_place(a->record, (uint16_t)(packet[3] << 8 | packet[4]), packet[12] >> 6), damaged = 0;
    int judged = number == BH_ACCEPTED || number == BH_CONFLICT || number == BH_SLOT;
    char cause[sizeof o->tally.cause[0]] = "";
    int unread = bh_number(bh_read_header(packet, n, fields, BH_FIELDS)) != BH_ACCEPTED, by_columns = is_by_columns(packet, n, number);
    if (is_unfit(number))
        tell_cause(cause, sizeof cause, number, place_of(a->record, place), fields, n);
    if (number == BH_CONFLICT || number == BH_SLOT)
        damaged = tell_damage(a, place_of(a->record, place), fields[NUMBER], cause, sizeof cause);
    if (by_columns)
        tell_order(cause, sizeof cause, place_of(a->record, place), packet);
    if (number == BH_ACCEPTED && !bh_is_repeat(answer))
        keep_slot(a, place, fields[NUMBER]);
    int unjudged = is_unfit(number) || (number == BH_UNKNOWN && o->found == 0), sound = judged || by_columns || (unjudged && is_sound(packet, n));
    count_packet(o, place, answer, sound, by_columns, damaged);
    if (number == BH_EDITION && sound)
        hint_edition(&o->tally, place_of(a->record, place), fields[EDITION]);
    if (by_columns && place >= 0)
        hint_order(&o->tally, place_of(a->record, place), fields, n - BH_HEADER - BH_CRC);
    if ((number == BH_OTHER || number == BH_WIDE) && sound)
        hint_size(&o->tally, place_of(a->record, place), fields, n - BH_HEADER - BH_CRC);
    if (*cause && o->tally.cause[number][0] == '\0')
        memcpy(o->tally.cause[number], cause, sizeof cause);
    if (o->each)
        tell_packet(o, fields, answer, unread, cause);
    return judged;
}

/* ---- a batch */

static void keep_changes(struct offering *o)
{
    if (o->changed)
        commit(&o->archive);
    o->changed = 0;
}

/* What was stored reaches the disk at least once a second, and at the end of each batch of a stream, which may be silent for long. */
static void sync_now_and_then(struct offering *o, const struct recording *r)
{
    double now = seconds_now();
    if (r->size > 0 && now < o->synced + 1)
        return;
    sync_archive(&o->archive);
    o->synced = now;
}

/* Another command that waits for the archive looks every few milliseconds whether it is free. */
static void rest_now_and_then(struct offering *o)
{
    if (seconds_now() < o->rested + 0.1)
        return;
    nanosleep(&(struct timespec){0, 4000000}, NULL);
    o->rested = seconds_now();
}

/* Behind a packet that agreed with its CRC the search goes on at its end, and otherwise at the next mark, since a mark in noise may hide a packet. */
static void search_batch(struct offering *o, struct recording *r)
{
    size_t at = 0, length;
    const uint8_t *packet;
    while ((packet = next_packet(r, &at, &length)) != NULL) {
        at += take_packet(o, packet, length) ? length : 1;
        if (!has_room(&o->archive)) {
            keep_changes(o);
            settle(&o->archive);
        }
    }
    drop_batch(r, at);
}

/* What is told of each packet is told once the batch is in the archive, and not before: what was told as stored is there after a kill. */
static void offer_batch(struct offering *o, struct recording *r)
{
    char *text = NULL;
    size_t n = 0;
    o->lines = o->each ? open_memstream(&text, &n) : NULL;
    if (o->each && o->lines == NULL)
        trouble("no memory for what is told of each packet");
    retake_archive(&o->archive);
    search_batch(o, r);
    int changed = o->changed;
    keep_changes(o);
    release_archive(&o->archive);
    if (changed)
        sync_now_and_then(o, r);
    if (o->each) {
        fclose(o->lines);
        fwrite(text, 1, n, stdout);
        fflush(stdout);
        free(text);
    }
    rest_now_and_then(o);
}

static void tell_progress(const struct recording *r)
{
    if (talk == QUIET || !isatty(STDERR_FILENO))
        return;
    if (r->size > 0)
        fprintf(stderr, "\r%s: %3d %%", r->name, (int)(100.0 * (double)r->passed / (double)r->size));
    else
        fprintf(stderr, "\r%s: %" PRIu64 " bytes", r->name, r->passed);
    if (r->ended)
        fputs("\r\033[K", stderr);
}

/* Answers the exit status of one recording by itself. */
static int offer_recording(struct offering *o, const char *archive, const char *name)
{
    struct recording r;
    int result = EXIT_ACCEPTED, itself = strcmp(name, "-") != 0 && same_file(archive, name);
    if (itself || open_recording(&r, name) != 0) {
        complain("%s: %s", name, itself ? "this is the archive, and no recording" : strerror(errno));
        return EXIT_TROUBLE;
    }
    for (o->found = 0; !r.ended && result == EXIT_ACCEPTED;) {
        if (read_batch(&r) != 0) {
            complain("%s: %s", name, strerror(errno));
            result = EXIT_TROUBLE;
            r.ended = 1;
        }
        offer_batch(o, &r);
        tell_progress(&r);
    }
    o->tally.skipped += r.skipped;
    detail("%s: %" PRIu64 " bytes, %" PRIu64 " of them in no packet", name, r.passed, r.skipped);
    if (o->found == 0 && result == EXIT_ACCEPTED && !stop_asked()) {
        complain("%s: no packet found", name);
        result = EXIT_REFUSED;
    }
    close_recording(&r);
    return result;
}

/* ---- the tally */

static uint64_t all_refused(const struct tally *t)
{
    uint64_t sum = 0;
    for (unsigned k = 1; k <= LAST; k++)
        sum += t->refused[k];
    return sum;
}

static void tell_tally(const struct tally *t, int json)
{
    const char *between = "";
    if (json)
        printf("{\"stored\": %" PRIu64 ", \"repeated\": %" PRIu64 ", \"refused\": {", t->stored, t->repeated);
    else
        printf("stored    %" PRIu64 "\nrepeated  %" PRIu64 "\nmended    %" PRIu64 " bytes\nrefused   %" PRIu64 "\n", t->stored, t->repeated, t->mended, all_refused(t));
    for (unsigned k = 1; k <= LAST; k++) {
        if (t->refused[k] == 0)
            continue;
        if (json)
            printf("%s\"%u %s\": %" PRIu64, between, k, refusal_name(k), t->refused[k]);
        else
            printf("  %2u %-11s %" PRIu64 "%s%s%s\n", k, refusal_name(k), t->refused[k], t->cause[k][0] ? "  (" : "", t->cause[k], t->cause[k][0] ? ")" : "");
        between = ", ";
    }
    if (json)
        printf("}, \"lost\": %" PRIu64 ", \"mended_bytes\": %" PRIu64 ", \"skipped_bytes\": %" PRIu64 "}\n", t->lost, t->mended, t->skipped);
    else
        printf("lost      %" PRIu64 "\nskipped   %" PRIu64 " bytes\n", t->lost, t->skipped);
}

int offer(const struct arguments *a)
{
    want(a->count >= 2, "offer", "an archive and at least one file of packets");
    struct offering o = {.archive = open_archive(a->names[0], 1, a->wait), .each = a->each, .json = a->json, .synced = seconds_now(), .rested = seconds_now()};
    int result = EXIT_ACCEPTED;
    release_archive(&o.archive);
    end_gently();
    for (int i = 1; i < a->count && !stop_asked(); i++) {
        int one = offer_recording(&o, a->names[0], a->names[i]);
        result = one > result ? one : result;
    }
    retake_archive(&o.archive);
    settle(&o.archive);
    close_archive(&o.archive);
    if (a->json || talk != QUIET)
        tell_tally(&o.tally, a->json);
    if (o.tally.lost > 0)
        complain("%" PRIu64 " packets that name an open resource and its type were sound and were refused: something of what was sent may be missing", o.tally.lost);
    for (size_t k = 0; k < sizeof o.tally.hint / sizeof *o.tally.hint; k++)
        if (o.tally.hint[k][0] != '\0')
            complain("%s", o.tally.hint[k]);
    if (result == EXIT_ACCEPTED && (o.tally.lost > 0 || (a->strict && all_refused(&o.tally) > 0)))
        result = EXIT_REFUSED;
    fflush(stdout);
    stop_now();
    return result;
}
