/* A reader of description files in plain C, and what it judges by. */
#ifndef PLAIN_H
#define PLAIN_H

#include <stddef.h>
#include <stdint.h>

/* answers as bh_read_description does */
uint64_t plain_read(const uint8_t *text, size_t n, uint64_t *values, size_t room);

/* valid UTF-8 without CR; a LF is left to whoever parts the lines */
int plain_text(const uint8_t *p, size_t n);
/* a kind that the mode allows */
int plain_kind(uint64_t kind, uint64_t mode);
/* year, month, day, hour, minute, second of the calendar */
int plain_real(const uint64_t *time);
int plain_after(const uint64_t *a, const uint64_t *b);

#endif
