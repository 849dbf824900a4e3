/*
 * An example host: a press of five units that run the example of the product paper through frames on both channels, using nothing but the entries of gm.h.
 * In cycle 2 the heartbeat of unit 4 is lost in sending, in cycle 3 unit 4 is started again, in cycle 4 the vote of unit 0 is lost in sending.
 * Each heartbeat carries four drive bytes, the speed of its unit in that cycle.
 * Beside that the bus damages single copies: one is lost, in one a bit flips, and one is the frame of the cycle before. This is no fault of a record and
 * changes nothing, since the copy on the other channel counts: after each cycle the units must hold what gm_cycle makes of a row under the cycle's record.
 * After each cycle it prints the group of the lowest unit that was not touched in it or the one before, who halted and who entered, and the speeds that this
 * unit received; at the end the damage, and how many speeds all units received.
 */
#include "gm.h"
#include "gm_refusal.h"

#include <inttypes.h>
#include <stdio.h>
#include <stdlib.h>
#include <string.h>

enum { UNITS = 5, CYCLES = 5, FOUNDING = 0x1f };

/* all units of a press have one mode. Built with -DMODE=GM_MODE_QUIET they hold the same groups, and vote less often */
#ifndef MODE
#define MODE GM_MODE_ALWAYS
#endif

/* the drive bytes of a heartbeat are a speed; all heartbeats of this press have one length, that of its static slots */
enum { SPEED_BYTES = 4, HEARTBEAT_BYTES = GM_HEARTBEAT_BYTES + SPEED_BYTES };

/* what can happen to a copy */
enum { LOST, FLIPPED, LATE, DAMAGES };

/* what one unit keeps; `drive` are the drive bytes that it sends, and `speeds` those received in this cycle, from the units in `told` */
struct unit {
    uint8_t state[GM_STATE_BYTES];
    uint64_t heard0, heard1, requests, arrived, told;
    uint8_t votes[GM_VOTES_BYTES];
    uint8_t drive[SPEED_BYTES];
    uint64_t speeds[UNITS];
};

/* a frame on the bus: a copy per channel, of length 0 if none is there */
struct slot {
    uint8_t bytes[GM_CHANNELS][GM_VOTE_FRAME_BYTES];
    size_t len[GM_CHANNELS];
    int damaged;
};

/* the frames of one phase, heartbeats or votes: as sent in the cycle before and in this one, and as they come to the units */
struct phase {
    struct slot before[UNITS], sent[UNITS], come[UNITS];
};

/*
 * `row` is for gm_cycle; `damaged` copies, frames `saved` by the other channel where a unit received one of which a copy was damaged, and `speeds` received by
 * all units
 */
struct press {
    struct unit units[UNITS];
    struct phase heartbeats, votes;
    uint8_t row[UNITS * GM_STATE_BYTES];
    uint64_t halted, entered;
    unsigned damaged, saved, speeds;
};

/* the faults of one cycle */
struct faults {
    uint64_t start, heartbeat_lost, vote_lost;
};

/* a state, taken apart */
struct parts {
    uint32_t kind, reason, node, n, number;
    uint64_t set, base;
};

static void must(uint32_t status, const char *entry)
{
    if (status != GM_OK) {
        fprintf(stderr, "%s refused with %" PRIu32 ": %s\n", entry, status, gm_refusal_text(status));
        exit(1);
    }
}

static uint64_t only(unsigned unit)
{
    return (uint64_t)1 << unit;
}

static int in(uint64_t set, unsigned unit)
{
    return (set & only(unit)) != 0;
}

static struct parts parts_of(const struct unit *u)
{
    struct parts p = {0, 0, 0, 0, 0, 0, 0};
    must(gm_state(MODE, u->state, sizeof u->state, &p.kind, &p.reason, &p.node, &p.n, &p.number, &p.set, &p.base), "gm_state");
    return p;
}

/* into a record, or as drive bytes: highest byte first */
static void put_number(uint8_t *s, unsigned bytes, uint64_t number)
{
    for (unsigned i = bytes; i-- > 0; number >>= 8)
        s[i] = (uint8_t)number;
}

static uint64_t number_at(const uint8_t *s, unsigned bytes)
{
    uint64_t number = 0;
    for (unsigned i = 0; i < bytes; i++)
        number = number << 8 | s[i];
    return number;
}

/* ---- the bus */

/* one copy of the frame of a unit; whether there was one that could be damaged so */
static int damage(struct phase *p, unsigned what, unsigned unit, unsigned channel)
{
    struct slot *come = &p->come[unit];
    const struct slot *before = &p->before[unit];
    if (come->len[channel] == 0 || (what == LATE && before->len[channel] == 0))
        return 0;
    if (what == LOST)
        come->len[channel] = 0;
    else if (what == FLIPPED)
        come->bytes[channel][come->len[channel] / 2] ^= 0x10;
    else
        memcpy(come->bytes[channel], before->bytes[channel], before->len[channel]);
    come->damaged = 1;
    return 1;
}

/* what was sent comes to all, but for single copies of three units; how many were damaged */
static unsigned carry(struct phase *p, uint32_t count)
{
    unsigned damaged = 0;
    memcpy(p->come, p->sent, sizeof p->come);
    for (unsigned what = LOST; what < DAMAGES; what++)
        damaged += (unsigned)damage(p, what, (count + what) % UNITS, (count + what) % GM_CHANNELS);
    memcpy(p->before, p->sent, sizeof p->before);
    return damaged;
}

/* ---- one cycle of the units */

/* once in a cycle, for both channels: two good copies with different drive bytes would be a missed frame. In thousandths of a millimetre per second */
static void measure(struct unit *u, unsigned unit, uint32_t count)
{
    put_number(u->drive, SPEED_BYTES, 12000000 + 1000 * count + unit);
}

static void send_heartbeats(struct press *p, uint32_t count, uint64_t lost)
{
    for (unsigned q = 0; q < UNITS; q++)
        for (uint32_t ch = 0; ch < GM_CHANNELS; ch++) {
            const struct unit *u = &p->units[q];
            struct slot *slot = &p->heartbeats.sent[q];
            uint32_t sent = 0;
            must(gm_send_heartbeat(MODE, u->state, GM_STATE_BYTES, 0, 0, count, ch, u->drive, SPEED_BYTES, slot->bytes[ch], HEARTBEAT_BYTES, &sent),
                 "gm_send_heartbeat");
            slot->len[ch] = sent && !in(lost, q) ? HEARTBEAT_BYTES : 0;
        }
}

/* a heartbeat that is missed has no drive bytes, and one of another length than is sent here no speed */
static void note_speed(struct press *p, struct unit *u, unsigned sender, const uint8_t *drive, uint32_t drive_bytes)
{
    if (drive_bytes != SPEED_BYTES)
        return;
    u->speeds[sender] = number_at(drive, SPEED_BYTES);
    u->told |= only(sender);
    p->speeds++;
}

static void hear(struct press *p, unsigned self, uint32_t count)
{
    struct unit *u = &p->units[self];
    uint8_t drive[GM_DRIVE_BYTES];
    u->heard0 = u->heard1 = u->requests = u->told = 0;
    for (unsigned q = 0; q < UNITS; q++) {
        const struct slot *slot = &p->heartbeats.come[q];
        uint32_t heard = GM_MISSED, drive_bytes = 0;
        if (q == self)
            continue;
        must(gm_receive_heartbeat(UNITS, MODE, q, count, slot->bytes[GM_CHANNEL_A], slot->len[GM_CHANNEL_A], slot->bytes[GM_CHANNEL_B],
                                  slot->len[GM_CHANNEL_B], drive, sizeof drive, &heard, &drive_bytes),
             "gm_receive_heartbeat");
        note_speed(p, u, q, drive, drive_bytes);
        if (heard == GM_HEARD_MEMBER || heard == GM_HEARD_REQUEST)
            u->heard0 |= only(q);
        if (heard == GM_HEARD_JOINING)
            u->heard1 |= only(q);
        if (heard == GM_HEARD_REQUEST)
            u->requests |= only(q);
        p->saved += slot->damaged && heard != GM_MISSED;
    }
}

static void send_votes(struct press *p, uint32_t count, uint64_t lost)
{
    for (unsigned q = 0; q < UNITS; q++)
        for (uint32_t ch = 0; ch < GM_CHANNELS; ch++) {
            const struct unit *u = &p->units[q];
            struct slot *slot = &p->votes.sent[q];
            uint32_t sent = 0;
            must(gm_send_vote(MODE, u->state, GM_STATE_BYTES, u->heard0, u->heard1, u->requests, count, ch, slot->bytes[ch], GM_VOTE_FRAME_BYTES, &sent),
                 "gm_send_vote");
            slot->len[ch] = sent && !in(lost, q) ? GM_VOTE_FRAME_BYTES : 0;
        }
}

static void collect(struct press *p, unsigned self, uint32_t count)
{
    struct unit *u = &p->units[self];
    u->arrived = 0;
    for (unsigned q = 0; q < UNITS; q++) {
        const struct slot *slot = &p->votes.come[q];
        if (q == self)
            continue;
        must(gm_receive_vote(UNITS, q, count, slot->bytes[GM_CHANNEL_A], slot->len[GM_CHANNEL_A], slot->bytes[GM_CHANNEL_B],
                             slot->len[GM_CHANNEL_B], u->votes, GM_VOTES_BYTES, &u->arrived),
             "gm_receive_vote");
        p->saved += slot->damaged && in(u->arrived, q);
    }
}

static void decide(struct press *p, unsigned self)
{
    struct unit *u = &p->units[self];
    uint32_t before = parts_of(u).kind, after;
    must(gm_decide(MODE, u->state, GM_STATE_BYTES, u->heard0, u->heard1, u->requests, u->votes, GM_VOTES_BYTES, u->arrived), "gm_decide");
    after = parts_of(u).kind;
    if (before == GM_KIND_MEMBER && after == GM_KIND_OUT)
        p->halted |= only(self);
    if (before == GM_KIND_JOINING && after == GM_KIND_MEMBER)
        p->entered |= only(self);
}

static void cycle(struct press *p, const struct faults *f, uint32_t count)
{
    p->halted = p->entered = 0;
    for (unsigned q = 0; q < UNITS; q++)
        if (in(f->start, q))
            must(gm_start(MODE, p->units[q].state, GM_STATE_BYTES), "gm_start");
    for (unsigned q = 0; q < UNITS; q++)
        measure(&p->units[q], q, count);
    send_heartbeats(p, count, f->heartbeat_lost);
    p->damaged += carry(&p->heartbeats, count);
    for (unsigned q = 0; q < UNITS; q++)
        hear(p, q, count);
    send_votes(p, count, f->vote_lost);
    p->damaged += carry(&p->votes, count);
    for (unsigned q = 0; q < UNITS; q++)
        collect(p, q, count);
    for (unsigned q = 0; q < UNITS; q++)
        decide(p, q);
}

/* ---- the press */

static void begin(struct press *p)
{
    for (uint32_t q = 0; q < UNITS; q++) {
        must(gm_begin(UNITS, q, FOUNDING, p->units[q].state, GM_STATE_BYTES), "gm_begin");
        memcpy(p->row + q * GM_STATE_BYTES, p->units[q].state, GM_STATE_BYTES);
    }
}

/* the row goes through the cycle by its record, and then holds what the units hold */
static void must_agree(struct press *p, const struct faults *f, uint32_t number)
{
    uint8_t record[GM_CYCLE_AT_ENTRIES] = {GM_MARK_0, GM_MARK_1, GM_RECORD_CYCLE};
    put_number(record + GM_CYCLE_AT_START, GM_SET_BYTES, f->start);
    put_number(record + GM_CYCLE_AT_HEARTBEAT_LOST, GM_SET_BYTES, f->heartbeat_lost);
    put_number(record + GM_CYCLE_AT_VOTE_LOST, GM_SET_BYTES, f->vote_lost);
    must(gm_cycle(UNITS, MODE, p->row, sizeof p->row, record, sizeof record), "gm_cycle");
    for (unsigned q = 0; q < UNITS; q++)
        if (memcmp(p->row + q * GM_STATE_BYTES, p->units[q].state, GM_STATE_BYTES) != 0) {
            fprintf(stderr, "cycle %" PRIu32 ": unit %u holds another state than gm_cycle gives it\n", number, q);
            exit(1);
        }
}

/* of each other unit the speed, or - where none came */
static void print_speeds(const struct unit *u, unsigned self)
{
    for (unsigned q = 0; q < UNITS; q++) {
        if (q == self)
            printf(" own");
        else if (in(u->told, q))
            printf(" %" PRIu64, u->speeds[q]);
        else
            printf(" -");
    }
    putchar('\n');
}

static void print_cycle(const struct press *p, uint32_t number, uint64_t touched)
{
    struct parts shown;
    unsigned q = 0;
    while (q < UNITS && (in(touched, q) || parts_of(&p->units[q]).kind != GM_KIND_MEMBER))
        q++;
    if (q == UNITS)
        exit(1);
    shown = parts_of(&p->units[q]);
    printf("%" PRIu32 " %" PRIu32 " %016" PRIx64 " %016" PRIx64 " %016" PRIx64, number, shown.number, shown.set, p->halted, p->entered);
    print_speeds(&p->units[q], q);
}

int main(void)
{
    static const struct faults faults[CYCLES] = {{0, 0, 0}, {0, 0x10, 0}, {0x10, 0, 0}, {0, 0, 0x01}, {0, 0, 0}};
    static struct press press;
    uint64_t touched = 0;
    begin(&press);
    puts("cycle group set halted entered, then the speeds received from units 0 to 4");
    for (uint32_t n = 0; n < CYCLES; n++) {
        uint64_t now = faults[n].heartbeat_lost | faults[n].vote_lost;
        cycle(&press, &faults[n], n % GM_CYCLE_COUNTS);
        must_agree(&press, &faults[n], n + 1);
        print_cycle(&press, n + 1, now | touched);
        touched = now;
    }
    printf("%u copies damaged on one channel, %u frames received by the other; %u speeds received\n", press.damaged, press.saved, press.speeds);
    return 0;
}
