/* What the files of the benchmark share. */
#ifndef BENCH_H
#define BENCH_H

#include <stddef.h>
#include <stdint.h>

/* what is measured adds to it, so that no work is left out */
extern volatile uint64_t sink;

/* the best of some rounds, seconds for one turn; `turn` is run often enough that a round takes a few milliseconds */
double best(void (*turn)(void *), void *with);

/* ends the benchmark where outputs differ */
void must(int holds, const char *what);

/* a figure; what is asked is "200" of the unit, or "0.5x" the peer */
void tell(const char *name, double ours, double peer, const char *unit, const char *who);
void tell_asked(const char *name, double ours, double peer, const char *unit, const char *who, const char *asked);

/* libfec's code of this library's rows, and a bytewise CRC */
extern void *bench_rs;
uint32_t crc_bytewise(const uint8_t *p, size_t n);

/* columns.c */
void columns(void);

/* descriptions.c */
void descriptions(void);

#endif
