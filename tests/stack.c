/*
 * Samples the deepest stack of each entry: a thread runs each call on a stack that was painted, and looks how far down below the caller's stack pointer the paint is
 * gone. The stack pointer is that of `mark_origin` only if every call is made at the same depth: tests/stack.sh has the compiler see to it.
 * Prints a line for each call: the entry, and the bytes that it took; no fewer than those next to the caller that are not painted.
 */
#include "gm.h"

#include <pthread.h>
#include <stdio.h>
#include <stdlib.h>
#include <string.h>

enum { STACK = 1 << 18, PAINT = 0xA5, MARGIN = 256 };

static uint8_t *stack;
static uint8_t state[GM_STATE_BYTES], joiner[GM_STATE_BYTES], votes[GM_VOTES_BYTES], frame[GM_VOTE_FRAME_BYTES], payload[GM_VOTE_BYTES];
static uint8_t beat[GM_HEARTBEAT_MOST_BYTES], drive[GM_DRIVE_BYTES], received[GM_DRIVE_BYTES];
static uint8_t row[64 * GM_STATE_BYTES], frames[GM_FRAMES_BYTES], block[GM_REGISTERS_BYTES];
static uint8_t *origin;
static uint32_t numbers[4];
static uint64_t base;
static const char *called;

/* 64 nodes, all founders but node 63; in the first cycle it starts and node 0 stops, then two clean cycles */
static uint8_t table[12 + 3 * 36] = {0x47, 0x4D, 1, 64, 0x7F, 0xFF, 0xFF, 0xFF, 0xFF, 0xFF, 0xFF, 0xFF};

static void fill_table(void)
{
    for (unsigned k = 0; k < 3; k++)
        memcpy(table + 12 + 36 * k, "GM\2", 3);
    table[12 + 10] = 1;
    table[12 + 11] = 0x80;
}

/* the stack pointer of whoever calls it */
static void __attribute__((noinline)) mark_origin(void)
{
    origin = __builtin_dwarf_cfa();
}

/* the entry is named by the call itself, so that none can be named and not called */
#define CALL(entry, ...) called = #entry, entry(__VA_ARGS__)

static void run_entry(unsigned which)
{
    const uint64_t all = ~(uint64_t)0;
    uint64_t mask = 0;
    uint32_t number = 0;
    mark_origin();
    switch (which) {
    case 0: CALL(gm_begin, 64, 3, all, state, sizeof state); break;
    case 1: CALL(gm_begin, 64, 4, 8, joiner, sizeof joiner); break;
    case 2: CALL(gm_stop, GM_MODE_ALWAYS, joiner, sizeof joiner); break;
    case 3: CALL(gm_start, GM_MODE_ALWAYS, joiner, sizeof joiner); break;
    case 4: CALL(gm_write_heartbeat, 64, GM_MODE_ALWAYS, 3, 0, 0, 1, 1, 5, 1, drive, sizeof drive, beat, sizeof beat); break;
    case 5: CALL(gm_send_heartbeat, GM_MODE_ALWAYS, state, sizeof state, 1, 1, 5, 1, drive, sizeof drive, beat, sizeof beat, &number); break;
    case 6: CALL(gm_read_heartbeat, 64, GM_MODE_ALWAYS, 3, 5, 1, beat, sizeof beat, received, sizeof received, &number, numbers + 1, numbers); break;
    case 7: CALL(gm_receive_heartbeat, 64, GM_MODE_ALWAYS, 3, 5, beat, sizeof beat, beat, sizeof beat, received, sizeof received, &number, numbers); break;
    case 8: CALL(gm_view, GM_MODE_ALWAYS, state, sizeof state, all, all, &mask); break;
    case 9: CALL(gm_write_vote, 64, 3, 0, all, all, all, 5, 1, frame, sizeof frame); break;
    case 10: CALL(gm_send_vote, GM_MODE_ALWAYS, state, sizeof state, all, 0, 0, 5, 1, frame, sizeof frame, &number); break;
    case 11: CALL(gm_read_vote, 64, 3, 5, 1, frame, sizeof frame, payload, sizeof payload); break;
    case 12: CALL(gm_receive_vote, 64, 3, 5, frame, sizeof frame, frame, sizeof frame, votes, sizeof votes, &mask); break;
    case 13: CALL(gm_decide, GM_MODE_ALWAYS, joiner, sizeof joiner, all, 0, 0, votes, sizeof votes, all); break;
    case 14: CALL(gm_decide, GM_MODE_ALWAYS, state, sizeof state, all, 0, 0, votes, sizeof votes, all); break;
    case 15: CALL(gm_state, GM_MODE_ALWAYS, state, sizeof state, numbers, numbers + 1, numbers + 2, numbers + 3, &number, &mask, &base); break;
    case 16: CALL(gm_run, GM_MODE_ALWAYS, row, sizeof row, table, sizeof table); break;
    case 17: CALL(gm_run_frames, GM_MODE_ALWAYS, row, sizeof row, table, sizeof table, frames, sizeof frames); break;
    case 18: CALL(gm_cycle, 64, GM_MODE_ALWAYS, row, sizeof row, table + 12, 36); break;
    case 19: CALL(gm_begin, 64, 3, all, block, GM_STATE_BYTES); break;
    case 20: CALL(gm_register_read, GM_MODE_ALWAYS, block, sizeof block, 0, &number); break;
    case 21: CALL(gm_register_write_cycle, GM_MODE_ALWAYS, block, sizeof block, GM_REGISTER_ENABLES, 7, all, 0, 0, votes, sizeof votes, all); break;
    case 22: CALL(gm_register_write, GM_MODE_ALWAYS, block, sizeof block, GM_REGISTER_COMMAND, GM_COMMAND_START); break;
    case 23: CALL(gm_register_cycle, GM_MODE_ALWAYS, block, sizeof block, all, 0, 0, votes, sizeof votes, all); break;
    case 24: CALL(gm_begin, 64, 3, all, state, sizeof state); break;
    case 25: CALL(gm_send_vote, GM_MODE_QUIET, state, sizeof state, all, 0, 0, 5, 1, frame, sizeof frame, &number); break;
    case 26: CALL(gm_decide, GM_MODE_QUIET, state, sizeof state, all, 0, 0, votes, sizeof votes, all); break;
    case 27: CALL(gm_run, GM_MODE_QUIET, row, sizeof row, table, sizeof table); break;
    case 28: CALL(gm_run_frames, GM_MODE_QUIET, row, sizeof row, table, sizeof table, frames, sizeof frames); break;
    case 29: CALL(gm_cycle, 64, GM_MODE_QUIET, row, sizeof row, table + 12, 36); break;
    default: called = NULL;
    }
}

/* not by memset: where it is bound in its first call, that call is to be an entry's */
static void paint(size_t bytes)
{
    for (size_t i = 0; i < bytes; i++)
        stack[i] = PAINT;
}

/* paints the stack below this frame, runs the entry, and looks for the lowest byte that changed */
static void *measure(void *arg)
{
    size_t here = (size_t)((uint8_t *)__builtin_frame_address(0) - stack);
    size_t i = 0;
    paint(here - MARGIN);
    run_entry(*(unsigned *)arg);
    while (i < here && stack[i] == PAINT)
        i++;
    if (called != NULL)
        printf("%s %zu\n", called, (size_t)(origin - stack) - i);
    return NULL;
}

int main(void)
{
    pthread_attr_t attr;
    if (posix_memalign((void **)&stack, 4096, STACK) != 0 || pthread_attr_init(&attr) != 0 || pthread_attr_setstack(&attr, stack, STACK) != 0)
        return 1;
    fill_table();
    for (unsigned which = 0; which == 0 || called != NULL; which++) {
        pthread_t t;
        if (pthread_create(&t, &attr, measure, &which) != 0 || pthread_join(t, NULL) != 0)
            return 1;
    }
    return 0;
}
