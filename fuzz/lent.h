/* What the files of the fuzzer share: lent memory that ends at a page nobody may touch, bytes that choose, the transcript, and what is judged after each call. */
#ifndef LENT_H
#define LENT_H

#include "brithelva.h"

#include <stdio.h>

enum { STORE_ROOM = 16384, FILE_ROOM = 8192, OUT_ROOM = 16384, PACKET_ROOM = 8192, BEFORE = 64 };

struct lent {
    uint8_t *end, *at, copy[OUT_ROOM];
    size_t n;
};
extern struct lent record, store, file, packet, out, numbers;

/* so many bytes up to the untouchable page, and known bytes before them */
void size_of(struct lent *l, size_t n);
void lend_all(void);
void keep(struct lent *l);
void keep_all(void);
/* from byte `from` on it is as it was kept */
void same(const struct lent *l, size_t from, const char *what);
void fail(const char *what);

/* bytes that choose; 0 once they are used up */
extern const uint8_t *choice;
extern size_t choices;
unsigned pick(void);
unsigned wide(void);
uint32_t number_of(uint32_t usual);
/* bytes for a driver that no fuzzer chooses; answers the seed of those that follow */
uint64_t draw(uint8_t *data, size_t n, uint64_t seed);

extern FILE *transcript;
extern unsigned long calls, accepted_calls;
#define SAY(...) (transcript ? (void)fprintf(transcript, __VA_ARGS__) : (void)0)
void say_bytes(const struct lent *l, const char *command);
void say_record(void);
/* the file as it is made from its seed */
extern uint32_t file_seed;
void say_file(void);
void say_digest(const struct lent *l, const char *name);

/* numbers from `low` to `high` and those in the list may be answered */
int may(unsigned number, unsigned low, unsigned high, const char *others);
/* what was lent is as it was, but for so many bytes of the output and what an accepted call may change */
void judge(uint64_t answer, int allowed, size_t out_written, int store_may, int record_may);

/* descriptions.c */
void describe_one(void);
void describe_round(void);
void compose_one(void);
void compose_round(void);
void describe_input(const uint8_t *data, size_t size);

#endif
