/* What the files of the command share. Every decision about packets and description files is the library's. */
#ifndef COMMAND_H
#define COMMAND_H

#include "brithelva.h"

#include <stddef.h>
#include <stdint.h>
#include <stdio.h>
#include <sys/stat.h>

enum { EXIT_ACCEPTED = 0, EXIT_REFUSED = 1, EXIT_TROUBLE = 2 };
enum { FILE_TYPE = 1, DESCRIPTION_TYPE = 2 }; /* what a place collects */

struct bytes {
    uint8_t *at;
    size_t n;
};

/* ---- say.c: messages, all on standard error. The first two end the command. */
enum talk { QUIET = -1, PLAIN = 0, VERBOSE = 1 };
extern enum talk talk;
void trouble(const char *format, ...) __attribute__((noreturn, format(printf, 1, 2)));
void usage(const char *format, ...) __attribute__((noreturn, format(printf, 1, 2)));
void complain(const char *format, ...) __attribute__((format(printf, 1, 2))); /* whatever was asked for */
void remark(const char *format, ...) __attribute__((format(printf, 1, 2)));   /* not with --quiet */
void detail(const char *format, ...) __attribute__((format(printf, 1, 2)));   /* with --verbose only */
extern int hushed; /* while it is not 0 none of the last three says anything */
const char *refusal_name(unsigned number);
int refused(uint64_t answer, const char *what);
int refused_since(uint64_t answer, const char *what, const char *format, ...) __attribute__((format(printf, 3, 4)));
int refused_line(uint64_t answer, const char *what, const char *sentence);
int refused_text(uint64_t answer, const char *what, struct bytes text); /* of a description, with what is wrong in its text */
/* no place has both; where the resource is open under the other type, that is told too */
int refused_unknown(const char *command, const uint8_t *record, uint16_t resource, uint8_t type);
enum colour { NO_COLOUR, RED, GREEN, YELLOW };
const char *colour(FILE *to, enum colour which); /* what a terminal takes for it; nothing where there is none */

/* ---- words.c: a place in words; the numbers of a description, and what each of its lines must hold. */
const char *type_words(unsigned type);
const char *place_words(uint16_t resource, uint8_t type);                     /* as in 'resource 7, type 2 (description)'; until the next call */
const char *of_place(const char *command, uint16_t resource, uint8_t type); /* what is done to it, as a refusal begins */
const char *kind_words(uint64_t kind);
const char *charset_words(uint64_t charset);
const char *line_words(uint64_t line);
const char *what_is_wrong(struct bytes text, uint64_t line); /* with a line that the library has refused */

/* ---- arguments.c: the words of a command line. */
struct arguments {
    char **names; /* what is no option, the command's own name left out */
    int count;
    long long resource, type, update, protection, rows, size, edition, length, packets, service, kind, charset, wait; /* -1 where it is not named */
    const char *order, *mode, *name, *title, *summary, *keywords, *path, *file, *from, *until, *output;               /* NULL where it is not named */
    int delete, json, each, force, strict, mend, despite_conflicts, help, quiet, verbose;
};
struct arguments parse(int argc, char **argv, const char *allowed);
uint8_t type_named(const struct arguments *a); /* a file's where none is named */
void want(int there, const char *command, const char *what);

/* ---- stop.c: signals. What is half done is removed; `offer` ends as at the end of its input. */
void watch_signals(void);
void remove_when_stopped(const char *path); /* NULL: nothing to remove any more */
void hold_signals(void);
void let_signals(void);
void end_gently(void);
int stop_asked(void);
void stop_now(void); /* as the signal that asked for it would have; nothing where none did */

/* ---- files.c: whole files in memory; names. */
struct bytes read_file(const char *path, size_t most); /* one byte more than `most` where it is longer */
void release(struct bytes b);
uint64_t file_length(const char *path);
int same_file(const char *one, const char *other); /* - for the first is standard output */
char *final_name(const char *path); /* links followed, also one that leads to nothing yet */
/* A file that is to take a name: beside it, removed if a signal ends the command. -1 with errno where there can be none. */
int open_part(const char *beside, char **part);
int look_like(int fd, const struct stat *other); /* its mode, and its owner where that may be */
void drop_part(char *part);
int put_in_place(const char *part, const char *path, int replace); /* 0, or -1 with errno; a name that is there is replaced only if that was asked for */
int write_all(int fd, const void *at, size_t n);
ssize_t read_at(int fd, void *to, size_t n, off_t at); /* fewer than n only at the end of the file */
int write_at(int fd, const void *from, size_t n, off_t at);
int sync_file(int fd);

/* ---- output.c: what -o names. A plain file appears, or is replaced, only when it is complete. */
struct output {
    const char *path; /* as it was named */
    char *final, *part;
    int fd, straight, replace;
    struct stat before; /* what is replaced */
};
/* Judges the name before any work is done: it must not be the input (NULL for none), and what is there is replaced only with --force. */
struct output plan_output(const char *path, int force, const char *input, const char *input_words);
void begin_output(struct output *o);
void write_output(struct output *o, const uint8_t *at, size_t n);
void finish_output(struct output *o);

/* ---- place.c: what stands in a record, and the room of a store. */
struct bh_place place_of(const uint8_t *record, int i); /* all 0 where i is -1 */
int find_place(const uint8_t *record, uint16_t resource, uint8_t type); /* -1 where no place has both */
uint64_t cover_of(struct bh_place p);
uint8_t *slot_of(uint8_t *store, struct bh_place p, uint32_t number);
uint16_t length_of(const uint8_t *slot);
uint64_t joined_length(uint8_t *store, struct bh_place p); /* the bytes of all its payloads */
uint64_t whole_length(uint8_t *store, struct bh_place p);  /* the longest file that these can be: with protection one that fills its tables, and by columns the least that it can have */
uint64_t bytes_used(const uint8_t *record);
uint64_t largest_gap(const uint8_t *record, size_t store_size);
/* whether the place in use with this number is the same in both records */
int same_place(const uint8_t *one, const uint8_t *other, int i);

/* ---- columns.c: places in column order. */
struct tables {
    uint64_t least, most; /* which the file can have by what is known of it; none where the least is above the most */
};
struct tables tables_of(uint8_t *store, struct bh_place p);
uint32_t length_in(struct bh_place p, uint32_t number, uint64_t tables);                 /* of a packet's payload */
int64_t misshapen_packet(uint8_t *store, struct bh_place p, struct tables t);            /* the first that has another length; -1 where there is none */
enum reached { LACKING, SUFFICIENT, BY_LENGTH, MISSHAPEN, NO_FILE };
struct reach {
    enum reached what;      /* whether what came can be handed out; BY_LENGTH: only if the file is not longer than `longest` */
    uint64_t rows, lacking; /* how many there are, and how many of them lack more than sixteen bytes */
    uint64_t longest;
    int64_t packet; /* MISSHAPEN: which */
};
struct archive;
struct reach reach_of(struct archive *a, struct bh_place p);

/* ---- settings.c: the settings that pack and open name. */
struct settings {
    int house; /* none of protection, rows, size, edition and order is named */
    uint8_t type, update, protection, rows;
    uint16_t resource, size, edition, order;
};
struct settings settings_of(const struct arguments *a);
/* which argument is out of its range, and the range; count is -1 where there is none */
const char *field_cause(const struct settings *s, long long count);

/* ---- archive.c: one file, held in memory while a command works on it (docs/ARCHIVE.md). */
enum { UNIT = 64 }; /* bytes of the store to one check */
enum counter { STORED, REPEATED, CONFLICTS, OTHERS, MENDED, HANDED_OUT, EDITIONS, ORDERS, COUNTERS = 16 };
struct archive {
    const char *path;
    int fd, writing, version;
    uint8_t *image; /* the whole file, what the journal has put into its place */
    size_t size;
    uint8_t *state, *checks, *journal, *store; /* parts of the image */
    uint8_t record[BH_RECORD];                 /* as the library takes it; a change puts it into the state */
    size_t journal_size, store_size;
    size_t used, growing;  /* bytes of the journal that are written, and of the change that is being put together behind them */
    uint64_t in_place[2];  /* the generations of the two states on disk */
    int copies;            /* how many of the two are good */
    uint8_t *behind;       /* while changes go to their places: which pages of the file lack one */
};
double seconds_now(void);
void new_archive(const char *path, uint64_t store_size);
struct archive open_archive(const char *path, int writing, long long wait);
int open_if_free(struct archive *a, const char *path, int writing, long long wait); /* -1 where another command is at work for longer than that */
void release_archive(struct archive *a);
void retake_archive(struct archive *a);
void close_archive(struct archive *a);
const char *older(const struct archive *a); /* what it is, where its first change carries it over; NULL where it is as a new one */
uint64_t count_of(const struct archive *a, int place, enum counter which);
void count_more(struct archive *a, int place, enum counter which, uint64_t more);
void clear_counters(struct archive *a, int place);
/* A change: parts of the image, then all of them at once. After a kill it is there whole or not at all. */
int has_room(const struct archive *a);
void change(struct archive *a, const uint8_t *at, size_t n);
void commit(struct archive *a);
void sync_archive(struct archive *a); /* what was committed reaches the disk */
void settle(struct archive *a);       /* and goes to its own place there */
void write_ahead(struct archive *a, const uint8_t *at, size_t n); /* straight to the file: bytes that no place in use has */

/* ---- image.c: a fresh image of an archive, one carried over from version 1, and records from before. */
size_t image_size(uint64_t store_size);
void point_into(struct archive *a, uint8_t *image, uint64_t store_size);
int take_record(uint8_t *record, const uint8_t *from, uint64_t length); /* 0, or -1 where no record has this length */
void seal_state(struct archive *a);                                    /* with the record in it, as a state that is new */
uint8_t *fresh_image(uint64_t store_size);
uint8_t *carried_image(const char *path, const uint8_t *old, size_t n); /* NULL where it is no archive of version 1 */
uint64_t number_at(const uint8_t *p, int n);
void put_number(uint8_t *p, int n, uint64_t v);

/* ---- checks.c: whether slots hold what was stored. */
/* What a check differs by before its slots change, and has to differ by afterwards: a slot that was damaged stays so whatever is stored beside it. 0 where
 * nothing begins in the unit but `own` bytes that are known to be right. */
uint32_t check_debt(struct archive *a, size_t unit, size_t own);
void renew_check(struct archive *a, size_t unit, uint32_t debt); /* in the image, as the next */
void renew_for(struct archive *a, uint8_t *slot);                /* a slot that was empty and is filled */
uint8_t *check_at(struct archive *a, size_t unit);
size_t unit_of(const struct archive *a, const uint8_t *slot);
int mend_rows(uint8_t *payload, size_t n); /* the bytes put right; -1, and nothing changed, where a row has no coded row within eight bytes */
enum soundness { SOUND, MENDABLE, CHECK_ONLY, LOSABLE, BROKEN }; /* LOSABLE: it may be emptied, as one that was never there */
struct finding {
    uint32_t packet;
    enum soundness what;
    const char *words;
    int row;        /* the first row that is no coded row; -1 where it is not about rows */
    unsigned bytes; /* to put right, in all rows */
};
/* Judges one slot; a slot that can be mended is mended in the image if that is asked for. */
struct finding judge_slot(struct archive *a, struct bh_place p, uint32_t number, int mend);
void empty_slot(struct archive *a, struct bh_place p, uint32_t number); /* one that is LOSABLE, in the image; when all beside it are empty too, their check is made anew */

/* ---- joining.c: what a place has collected, in memory; at NULL, with the reason told, where it may not be handed out. */
struct bytes join_place(struct archive *a, int place, uint64_t length, int despite_conflicts);

/* ---- collected.c: a description that was collected in a place of its own. Where it cannot be used, the reason is told. */
struct bytes collected_text(struct archive *a, int place, int despite_conflicts, uint64_t *values); /* at NULL where there is none */
uint64_t collected_length(struct archive *a, struct bh_place file, int despite_conflicts);          /* 0 where there is none */
uint64_t told_length(struct archive *a, struct bh_place file); /* the same, and nothing is told where there is none */

/* ---- recording.c: bytes with packets among them, a batch at a time. */
struct recording {
    const char *name;
    int fd;
    uint8_t *bytes;
    size_t n, covered; /* bytes at hand, and how many of them belong to packets or were counted as skipped */
    uint64_t skipped, passed;
    off_t size; /* 0 where it is not known */
    int ended;
};
int open_recording(struct recording *r, const char *name);
int read_batch(struct recording *r); /* 0, or -1 with errno */
const uint8_t *next_packet(struct recording *r, size_t *at, size_t *length); /* NULL where more has to be read */
void drop_batch(struct recording *r, size_t at);
void close_recording(struct recording *r);

/* ---- the commands */
int pack(const struct arguments *a);
int make_archive(const struct arguments *a);
int open_place(const struct arguments *a);
int close_place(const struct arguments *a);
int offer(const struct arguments *a);
int status(const struct arguments *a);
int verify(const struct arguments *a);
int hand_out(const struct arguments *a);
int describe(const struct arguments *a);
int description(const struct arguments *a);

#endif
