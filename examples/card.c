/*
 * An example of drive cards: a press of five units, each of which has its state in a register block that its card reads and writes byte by byte. They run two
 * examples of the product paper through frames on both channels. P1: in cycle 2 the heartbeat of unit 4 is lost in sending, in cycle 3 unit 4 is started again, in
 * cycle 4 the vote of unit 0 is lost in sending. P6: in cycle 1 unit 4 is stopped and started.
 * A stop and a start are written to byte 27 before the heartbeats of their cycle. After each cycle a card looks at byte 26; where it is 1 it reads the flags, and
 * acknowledges these by writing them back together with the next cycle. A flag that this cycle raises again stays set, so that the card sees every change.
 * Prints a line for each cycle: the group of the lowest unit that was not touched in it or the one before, and what each card has read.
 */
#include "gm.h"
#include "gm_refusal.h"

#include <inttypes.h>
#include <stdio.h>
#include <stdlib.h>
#include <string.h>

enum { UNITS = 5, FOUNDING = 0x1f, MOST_CYCLES = 5 };

/* all units of a press have one mode. Built with -DMODE=GM_MODE_QUIET they hold the same groups, and vote less often */
#ifndef MODE
#define MODE GM_MODE_ALWAYS
#endif

/* these heartbeats carry no drive bytes: a pointer that is not null, lent with length 0 */
static const uint8_t no_drive[1] = {0};

/* what one unit keeps; `seen` are the flags that its card has read and not yet acknowledged, `acknowledged` those written back with the last cycle */
struct unit {
    uint8_t block[GM_REGISTERS_BYTES];
    uint64_t heard0, heard1, requests, arrived;
    uint8_t votes[GM_VOTES_BYTES];
    uint8_t seen, acknowledged;
};

/* a frame on the bus: a copy per channel, of length 0 if none is there */
struct slot {
    uint8_t bytes[GM_CHANNELS][GM_VOTE_FRAME_BYTES];
    size_t len[GM_CHANNELS];
};

struct press {
    struct unit units[UNITS];
    struct slot heartbeats[UNITS], votes[UNITS];
};

/* what happens in one cycle */
struct faults {
    uint64_t stop, start, heartbeat_lost, vote_lost;
};

struct example {
    const char *name;
    uint32_t cycles;
    struct faults faults[MOST_CYCLES];
};

static void must(uint32_t status, const char *entry)
{
    if (status != GM_OK) {
        fprintf(stderr, "%s refused with %" PRIu32 ": %s\n", entry, status, gm_refusal_text(status));
        exit(1);
    }
}

static uint64_t only(unsigned unit)
{
    return (uint64_t)1 << unit;
}

static int in(uint64_t set, unsigned unit)
{
    return (set & only(unit)) != 0;
}

/* ---- the card of a unit */

static uint8_t read_register(const struct unit *u, uint32_t address)
{
    uint32_t value = 0;
    must(gm_register_read(MODE, u->block, sizeof u->block, address, &value), "gm_register_read");
    return (uint8_t)value;
}

static void write_register(struct unit *u, uint32_t address, uint8_t value)
{
    must(gm_register_write(MODE, u->block, sizeof u->block, address, value), "gm_register_write");
}

/* of several registers: highest byte first */
static uint64_t read_number(const struct unit *u, uint32_t address, uint32_t bytes)
{
    uint64_t number = 0;
    for (uint32_t k = 0; k < bytes; k++)
        number = number << 8 | read_register(u, address + k);
    return number;
}

/* all three flags are to make byte 26 1 */
static void begin(struct unit *u, uint32_t node)
{
    memset(u, 0, sizeof *u);
    must(gm_begin(UNITS, node, FOUNDING, u->block, GM_STATE_BYTES), "gm_begin");
    write_register(u, GM_REGISTER_ENABLES, GM_FLAG_CHANGED | GM_FLAG_HALTED | GM_FLAG_ENTERED);
}

static void command(struct unit *u, int stop, int start)
{
    if (stop)
        write_register(u, GM_REGISTER_COMMAND, GM_COMMAND_STOP);
    if (start)
        write_register(u, GM_REGISTER_COMMAND, GM_COMMAND_START);
}

static void decide(struct unit *u)
{
    if (u->seen == 0)
        must(gm_register_cycle(MODE, u->block, sizeof u->block, u->heard0, u->heard1, u->requests, u->votes, sizeof u->votes, u->arrived),
             "gm_register_cycle");
    else
        must(gm_register_write_cycle(MODE, u->block, sizeof u->block, GM_REGISTER_FLAGS, u->seen, u->heard0, u->heard1, u->requests, u->votes,
                                     sizeof u->votes, u->arrived),
             "gm_register_write_cycle");
    u->acknowledged = u->seen;
    u->seen = read_register(u, GM_REGISTER_PENDING) == 1 ? read_register(u, GM_REGISTER_FLAGS) : 0;
}

/* ---- one cycle of the units */

static void send_heartbeats(struct press *p, uint32_t count, uint64_t lost)
{
    for (unsigned q = 0; q < UNITS; q++)
        for (uint32_t ch = 0; ch < GM_CHANNELS; ch++) {
            struct slot *slot = &p->heartbeats[q];
            uint32_t sent = 0;
            must(gm_send_heartbeat(MODE, p->units[q].block, GM_STATE_BYTES, 0, 0, count, ch, no_drive, 0, slot->bytes[ch], GM_HEARTBEAT_BYTES, &sent),
                 "gm_send_heartbeat");
            slot->len[ch] = sent && !in(lost, q) ? GM_HEARTBEAT_BYTES : 0;
        }
}

static void hear(struct press *p, unsigned self, uint32_t count)
{
    struct unit *u = &p->units[self];
    uint8_t drive[GM_DRIVE_BYTES];
    u->heard0 = u->heard1 = u->requests = 0;
    for (unsigned q = 0; q < UNITS; q++) {
        const struct slot *slot = &p->heartbeats[q];
        uint32_t heard = GM_MISSED, drive_bytes = 0;
        if (q == self)
            continue;
        must(gm_receive_heartbeat(UNITS, MODE, q, count, slot->bytes[GM_CHANNEL_A], slot->len[GM_CHANNEL_A], slot->bytes[GM_CHANNEL_B],
                                  slot->len[GM_CHANNEL_B], drive, sizeof drive, &heard, &drive_bytes),
             "gm_receive_heartbeat");
        if (heard == GM_HEARD_MEMBER || heard == GM_HEARD_REQUEST)
            u->heard0 |= only(q);
        if (heard == GM_HEARD_JOINING)
            u->heard1 |= only(q);
        if (heard == GM_HEARD_REQUEST)
            u->requests |= only(q);
    }
}

static void send_votes(struct press *p, uint32_t count, uint64_t lost)
{
    for (unsigned q = 0; q < UNITS; q++)
        for (uint32_t ch = 0; ch < GM_CHANNELS; ch++) {
            const struct unit *u = &p->units[q];
            struct slot *slot = &p->votes[q];
            uint32_t sent = 0;
            must(gm_send_vote(MODE, u->block, GM_STATE_BYTES, u->heard0, u->heard1, u->requests, count, ch, slot->bytes[ch], GM_VOTE_FRAME_BYTES, &sent),
                 "gm_send_vote");
            slot->len[ch] = sent && !in(lost, q) ? GM_VOTE_FRAME_BYTES : 0;
        }
}

static void collect(struct press *p, unsigned self, uint32_t count)
{
    struct unit *u = &p->units[self];
    u->arrived = 0;
    for (unsigned q = 0; q < UNITS; q++) {
        const struct slot *slot = &p->votes[q];
        if (q != self)
            must(gm_receive_vote(UNITS, q, count, slot->bytes[GM_CHANNEL_A], slot->len[GM_CHANNEL_A], slot->bytes[GM_CHANNEL_B],
                                 slot->len[GM_CHANNEL_B], u->votes, sizeof u->votes, &u->arrived),
                 "gm_receive_vote");
    }
}

/* commands come before the heartbeats: written together with the cycle, they would come after its frames */
static void cycle(struct press *p, const struct faults *f, uint32_t count)
{
    for (unsigned q = 0; q < UNITS; q++)
        command(&p->units[q], in(f->stop, q), in(f->start, q));
    send_heartbeats(p, count, f->heartbeat_lost);
    for (unsigned q = 0; q < UNITS; q++)
        hear(p, q, count);
    send_votes(p, count, f->vote_lost);
    for (unsigned q = 0; q < UNITS; q++)
        collect(p, q, count);
    for (unsigned q = 0; q < UNITS; q++)
        decide(&p->units[q]);
}

/* ---- the log */

/* a letter for each flag that is set */
static void print_flags(uint8_t flags)
{
    putchar(flags & GM_FLAG_CHANGED ? 'c' : '-');
    putchar(flags & GM_FLAG_HALTED ? 'h' : '-');
    putchar(flags & GM_FLAG_ENTERED ? 'e' : '-');
}

static void print_unit(const struct unit *u)
{
    printf("  ");
    print_flags(read_register(u, GM_REGISTER_FLAGS));
    printf(" %u ", (unsigned)read_register(u, GM_REGISTER_PENDING));
    print_flags(u->acknowledged);
}

static void print_cycle(const struct press *p, uint32_t number, uint64_t touched)
{
    const struct unit *u = p->units;
    unsigned q = 0;
    while (q < UNITS && (in(touched, q) || read_register(&u[q], GM_STATE_AT_KIND) != GM_KIND_MEMBER))
        q++;
    if (q == UNITS) {
        fprintf(stderr, "no unit that was not touched is a member\n");
        exit(1);
    }
    printf("%5" PRIu32 " %5" PRIu64 " %016" PRIx64, number, read_number(&u[q], GM_STATE_AT_NUMBER, 4), read_number(&u[q], GM_STATE_AT_SET, GM_SET_BYTES));
    for (q = 0; q < UNITS; q++)
        print_unit(&u[q]);
    putchar('\n');
}

static void run(const struct example *e)
{
    static struct press press;
    uint64_t touched = 0;
    for (uint32_t q = 0; q < UNITS; q++)
        begin(&press.units[q], q);
    printf("%s: of each unit the flags (c changed, h halted, e entered), byte 26, and the flags acknowledged with the cycle\n", e->name);
    puts("cycle group set               unit 0     unit 1     unit 2     unit 3     unit 4");
    for (uint32_t n = 0; n < e->cycles; n++) {
        uint64_t now = e->faults[n].stop | e->faults[n].heartbeat_lost | e->faults[n].vote_lost;
        cycle(&press, &e->faults[n], n % GM_CYCLE_COUNTS);
        print_cycle(&press, n + 1, now | touched);
        touched = now;
    }
}

int main(void)
{
    static const struct example p1 = {"P1", 5, {{0, 0, 0, 0}, {0, 0, 0x10, 0}, {0, 0x10, 0, 0}, {0, 0, 0, 0x01}, {0, 0, 0, 0}}};
    static const struct example p6 = {"P6", 2, {{0x10, 0x10, 0, 0}, {0, 0, 0, 0}}};
    run(&p1);
    run(&p6);
    return 0;
}
