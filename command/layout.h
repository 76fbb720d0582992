/* Where an archive's parts stand in its file: docs/ARCHIVE.md says what each is for. Numbers are little-endian. */
#ifndef LAYOUT_H
#define LAYOUT_H

#include <stdint.h>

enum {
    VERSION = 2,
    PAGE = 4096,
    AT_STATES = PAGE,     /* two, a page each */
    AT_CHECKS = 3 * PAGE, /* then the journal, then the store: image.c */
    SMALLEST_JOURNAL = 1 << 16,
    LARGEST_JOURNAL = 1 << 20
};

/* the head, which never changes */
enum { AT_VERSION = 8, AT_STORE_SIZE = 16, AT_HEAD_CHECK = 24, HEAD = 28 };

/* a place, and a record, of before editions, and of before orders */
enum { OLD_PLACE = 16, OLD_RECORD = 128, EDITION_PLACE = 18, EDITION_RECORD = 144 };

/* a state: the record, with room for one of 256 bytes, sixteen counters for each place, and a mark of its own */
enum { AT_GENERATION = 0, AT_RECORD_LENGTH = 8, AT_RECORD = 16, AT_COUNTERS = 272, AT_MARK = 1296, AT_STATE_CHECK = 2044, STATE = 2048 };

/* a change in the journal, and each part of it */
enum { AT_CHANGE_CHECK = 0, AT_CHANGE_SIZE = 4, AT_CHANGE_GENERATION = 8, AT_CHANGE_BEHIND = 16, CHANGE_HEAD = 24, PART_HEAD = 8 };

extern const uint8_t archive_magic[8];

#endif
