/*
 * Kills at every moment there is: an offer is run one instruction at a time, its store shared with this process, and after each instruction
 * the slot is either empty or holds the whole payload, and nothing else in the store has changed. So a process that is killed
 * anywhere tears no slot. The library's contracts cannot say this, since they speak of the store at the end of a call.
 */
#define _GNU_SOURCE
#include "brithelva.h"

#include <stdio.h>
#include <stdlib.h>
#include <string.h>
#include <signal.h>
#include <sys/mman.h>
#include <sys/ptrace.h>
#include <sys/wait.h>
#include <unistd.h>

enum { ROOM = 8192, NO_TRACING = 77 };

static void must(int holds, const char *what)
{
    if (!holds) {
        fprintf(stderr, "steps: %s\n", what);
        exit(1);
    }
}

static void offer_alone(const uint8_t *record, uint8_t *store, const uint8_t *packet, size_t n, uint32_t mended)
{
    if (ptrace(PTRACE_TRACEME, 0, NULL, NULL) != 0)
        _exit(NO_TRACING);
    raise(SIGSTOP);
    uint64_t answer = bh_offer(record, BH_RECORD, store, ROOM, packet, n);
    _exit(bh_number(answer) == BH_ACCEPTED && !bh_is_repeat(answer) && bh_mended(answer) == mended ? 0 : 1);
}

/* The first packet of a file, with `wrong` bytes altered in each row. Returns the number of instructions that were looked behind. */
static long walk(uint8_t protection, uint16_t order, uint16_t size, size_t length, int wrong, uint8_t *store)
{
    uint8_t file[4096], packet[BH_LARGEST_PACKET], record[BH_RECORD] = {0}, before[ROOM], after[ROOM];
    for (size_t i = 0; i < sizeof file; i++)
        file[i] = (uint8_t)(i * 7 + 3);
    uint64_t packed = bh_pack_as(file, length, 5, 1, 0, protection, 1, size, 2, order, 0, packet, sizeof packet);
    must(bh_number(packed) == 0, "packing");
    size_t n = (size_t)bh_value(packed);
    uint32_t count = (uint32_t)packet[10] << 8 | packet[11];
    memset(store, 0xEE, ROOM);
    must(bh_open_as(record, BH_RECORD, store, ROOM, 5, 1, 0, count, protection, 1, size, 2, order) == 0, "opening");
    memcpy(before, store, ROOM);
    memcpy(after, store, ROOM);
    must(bh_offer(record, BH_RECORD, after, ROOM, packet, n) == 0, "offering");
    uint32_t altered = 0;
    for (size_t row = 14; protection && row + 255 <= n - 4; row += 255)
        for (int k = 0; k < wrong; k++, altered++)
            packet[row + (size_t)k * 30] ^= (uint8_t)(k + 1);
    pid_t child = fork();
    if (child == 0)
        offer_alone(record, store, packet, n, altered);
    int status;
    long steps = 0;
    for (must(waitpid(child, &status, 0) == child, "waiting"); WIFSTOPPED(status); steps++) {
        /* two bytes of length, then the payload: empty, or whole */
        if (store[0] == 0 && store[1] == 0)
            must(memcmp(store + 2 + n - 18, before + 2 + n - 18, ROOM - 2 - (n - 18)) == 0, "a byte behind the payload changed");
        else
            must(memcmp(store, after, ROOM) == 0, "a torn slot");
        must(ptrace(PTRACE_SINGLESTEP, child, NULL, NULL) == 0, "stepping");
        must(waitpid(child, &status, 0) == child, "waiting");
    }
    if (WIFEXITED(status) && WEXITSTATUS(status) == NO_TRACING) {
        puts("steps: skipped, this machine allows no tracing");
        exit(0);
    }
    must(WIFEXITED(status) && WEXITSTATUS(status) == 0 && memcmp(store, after, ROOM) == 0, "the offer itself");
    return steps;
}

int main(void)
{
    uint8_t *store = mmap(NULL, ROOM, PROT_READ | PROT_WRITE, MAP_SHARED | MAP_ANONYMOUS, -1, 0);
    must(store != MAP_FAILED, "no shared memory");
    long all = walk(0, 0, 1, 1, 0, store) + walk(0, 0, 300, 300, 0, store) + walk(0, 0, 4077, 4077, 0, store) + walk(1, 0, 255, 200, 0, store)
               + walk(1, 0, 255, 200, 8, store) + walk(1, 0, 510, 470, 3, store) + walk(1, 0, 3825, 239 * 15, 0, store)
               + walk(1, 0, 3825, 239 * 15, 1, store) + walk(1, 1, 1, 200, 0, store) + walk(1, 1, 255, 200, 0, store) + walk(1, 1, 4077, 239 * 15, 0, store);
    printf("steps: 11 offers, %ld instructions, no torn slot behind any of them\n", all);
    return 0;
}
