/*
 * Calls every entry of gm.h with its real signature: once so that it is accepted and once so that it is refused. That a refusal changes nothing is looked
 * at too. Prints nothing but the count of the entries.
 */
#include "gm.h"

#include <stdio.h>
#include <stdlib.h>
#include <string.h>

static unsigned entries;

static void expect(const char *entry, uint32_t got, uint32_t want)
{
    if (got != want) {
        fprintf(stderr, "%s gave %u and not %u\n", entry, (unsigned)got, (unsigned)want);
        exit(1);
    }
    entries += want == 0;
}

static void unchanged(const char *entry, const void *a, const void *b, size_t len)
{
    if (memcmp(a, b, len) != 0) {
        fprintf(stderr, "%s was refused and wrote\n", entry);
        exit(1);
    }
}

static uint8_t state[GM_STATE_BYTES], other[GM_STATE_BYTES], before[GM_VOTES_BYTES], votes[GM_VOTES_BYTES];
static uint8_t beat[GM_HEARTBEAT_BYTES + 4], frame[2][GM_VOTE_FRAME_BYTES], payload[GM_VOTE_BYTES];

static void states(void)
{
    expect("gm_begin", gm_begin(5, 1, 0x1f, state, sizeof state), 0);
    memcpy(before, state, sizeof state);
    expect("gm_begin", gm_begin(5, 1, 0x3f, state, sizeof state), GM_REFUSED_LIMIT);
    expect("gm_begin", gm_begin(5, 5, 0x1f, state, sizeof state), GM_REFUSED_NUMBER);
    expect("gm_begin", gm_begin(65, 70, 0, state, 3), GM_REFUSED_COUNT);
    unchanged("gm_begin", before, state, sizeof state);
    memcpy(other, state, sizeof other);
    expect("gm_stop", gm_stop(GM_MODE_ALWAYS, other, sizeof other), 0);
    expect("gm_stop", gm_stop(GM_MODE_ALWAYS, other, sizeof other - 1), GM_REFUSED_LENGTH);
    expect("gm_start", gm_start(GM_MODE_ALWAYS, other, sizeof other), 0);
    other[0] = 3;
    expect("gm_start", gm_start(GM_MODE_ALWAYS, other, sizeof other), GM_REFUSED_STATE);
}

/* the seven numbers of a state, in the order of its image */
struct numbers {
    uint32_t kind, reason, node, n, number;
    uint64_t set, base;
};

static uint32_t take_apart(const uint8_t *bytes, size_t len, struct numbers *x)
{
    return gm_state(GM_MODE_ALWAYS, bytes, len, &x->kind, &x->reason, &x->node, &x->n, &x->number, &x->set, &x->base);
}

static void holds(const struct numbers *x, const struct numbers *y)
{
    if (x->kind != y->kind || x->reason != y->reason || x->node != y->node || x->n != y->n || x->number != y->number || x->set != y->set
        || x->base != y->base) {
        fprintf(stderr, "gm_state left other numbers\n");
        exit(1);
    }
}

/* states of each kind and reason as bytes, beside their numbers; each is refused when it is cut, and with a kind that is none */
static void states_apart(void)
{
    static const struct {
        uint8_t bytes[GM_STATE_BYTES];
        struct numbers held;
    } known[] = {
        {{0, 0, 4, 5}, {0, 0, 4, 5, 0, 0, 0}},
        {{0, 1, 0, 2}, {0, 1, 0, 2, 0, 0, 0}},
        {{0, 2, 63, 64}, {0, 2, 63, 64, 0, 0, 0}},
        {{1, 0, 9, 17}, {1, 0, 9, 17, 0, 0, 0}},
        {{2, 0, 3, 64, 0xA1, 0xA2, 0xA3, 0xA4, 1, 2, 3, 4, 5, 6, 7, 8, 0xF1, 0xF2, 0xF3, 0xF4, 0xF5, 0xF6, 0xF7, 0xF8},
         {2, 0, 3, 64, 0xA1A2A3A4, 0x0102030405060708, 0xF1F2F3F4F5F6F7F8}},
    };
    static const struct numbers before = {91, 92, 93, 94, 95, 96, 97};
    const unsigned count = sizeof known / sizeof known[0];
    for (unsigned k = 0; k < count; k++) {
        struct numbers got = before;
        uint8_t wrong[GM_STATE_BYTES];
        memcpy(wrong, known[k].bytes, sizeof wrong);
        wrong[0] = 3;
        expect("gm_state", take_apart(known[k].bytes, GM_STATE_BYTES - 1, &got), GM_REFUSED_LENGTH);
        expect("gm_state", take_apart(wrong, sizeof wrong, &got), GM_REFUSED_STATE);
        holds(&got, &before);
        expect("gm_state", take_apart(known[k].bytes, GM_STATE_BYTES, &got), 0);
        holds(&got, &known[k].held);
    }
    entries -= count - 1;
}

/* the drive bytes of every heartbeat here, and what those received and read are lent */
static const uint8_t carried[4] = {0x80, 0, 0xFF, 7};
struct received {
    uint8_t drive[GM_DRIVE_BYTES];
    uint32_t answer, request, number;
};

/* what `got` holds after a call: the results, the drive bytes at the front, and behind them what stood there */
static void holds_drive(const char *entry, const struct received *got, uint32_t answer, uint32_t request)
{
    struct received due;
    memset(&due, 0xA5, sizeof due);
    memcpy(due.drive, carried, sizeof carried);
    due.answer = answer;
    due.request = request;
    due.number = sizeof carried;
    if (memcmp(got, &due, sizeof due) != 0) {
        fprintf(stderr, "%s left other numbers or drive bytes\n", entry);
        exit(1);
    }
}

static uint32_t read_beat(uint32_t mode, uint32_t channel, size_t len, struct received *got, size_t drive_len)
{
    return gm_read_heartbeat(5, mode, 2, 9, channel, beat, len, got->drive, drive_len, &got->answer, &got->request, &got->number);
}

static void read_heartbeats(void)
{
    struct received got, kept;
    memset(&got, 0xA5, sizeof got);
    kept = got;
    expect("gm_read_heartbeat", read_beat(GM_MODE_ALWAYS, GM_CHANNEL_A, sizeof beat, &got, sizeof got.drive), GM_REFUSED_FRAME_CHECK);
    expect("gm_read_heartbeat", read_beat(GM_MODE_ALWAYS, GM_CHANNEL_A, 0, &got, sizeof got.drive - 1), GM_REFUSED_LENGTH);
    expect("gm_read_heartbeat", read_beat(2, GM_CHANNEL_A, 0, &got, sizeof got.drive - 1), GM_REFUSED_NUMBER);
    unchanged("gm_read_heartbeat", &got, &kept, sizeof got);
    expect("gm_read_heartbeat", read_beat(GM_MODE_ALWAYS, GM_CHANNEL_B, sizeof beat, &got, sizeof got.drive), 0);
    holds_drive("gm_read_heartbeat", &got, 1, 0);
}

static void receive_heartbeats(void)
{
    struct received got, kept;
    memset(&got, 0xA5, sizeof got);
    kept = got;
    expect("gm_receive_heartbeat", gm_receive_heartbeat(5, GM_MODE_ALWAYS, 2, 64, beat, 0, beat, sizeof beat, got.drive, sizeof got.drive, &got.answer,
                                                        &got.number),
           GM_REFUSED_NUMBER);
    expect("gm_receive_heartbeat", gm_receive_heartbeat(5, GM_MODE_ALWAYS, 2, 9, beat, 0, beat, sizeof beat, got.drive, 0, &got.answer, &got.number),
           GM_REFUSED_LENGTH);
    unchanged("gm_receive_heartbeat", &got, &kept, sizeof got);
    expect("gm_receive_heartbeat", gm_receive_heartbeat(5, GM_MODE_ALWAYS, 2, 9, beat, 0, beat, sizeof beat, got.drive, sizeof got.drive, &got.answer,
                                                        &got.number), 0);
    holds_drive("gm_receive_heartbeat", &got, GM_HEARD_JOINING, 0xA5A5A5A5);
}

/* in a quiet press a heartbeat may request: it is read and received, and refused in any other */
static void requests(void)
{
    struct received got;
    memset(&got, 0xA5, sizeof got);
    expect("gm_write_heartbeat", gm_write_heartbeat(5, GM_MODE_ALWAYS, 2, 0, 1, 1, 1, 9, GM_CHANNEL_B, carried, sizeof carried, beat, sizeof beat),
           GM_REFUSED_CONTENT);
    expect("gm_write_heartbeat", gm_write_heartbeat(5, GM_MODE_QUIET, 2, 1, 1, 1, 1, 9, GM_CHANNEL_B, carried, sizeof carried, beat, sizeof beat),
           GM_REFUSED_CONTENT);
    unchanged("gm_write_heartbeat", before, beat, sizeof beat);
    expect("gm_write_heartbeat", gm_write_heartbeat(5, GM_MODE_QUIET, 2, 0, 1, 1, 1, 9, GM_CHANNEL_B, carried, sizeof carried, beat, sizeof beat), 0);
    expect("gm_read_heartbeat", read_beat(GM_MODE_ALWAYS, GM_CHANNEL_B, sizeof beat, &got, sizeof got.drive), GM_REFUSED_CONTENT);
    expect("gm_read_heartbeat", read_beat(GM_MODE_QUIET, GM_CHANNEL_B, sizeof beat, &got, sizeof got.drive), 0);
    holds_drive("gm_read_heartbeat", &got, 0, 1);
    expect("gm_receive_heartbeat", gm_receive_heartbeat(5, GM_MODE_QUIET, 2, 9, beat, 0, beat, sizeof beat, got.drive, sizeof got.drive, &got.answer,
                                                        &got.number), 0);
    holds_drive("gm_receive_heartbeat", &got, GM_HEARD_REQUEST, 1);
    entries -= 3;
}

static void heartbeats(void)
{
    uint32_t sent = 7;
    expect("gm_write_heartbeat", gm_write_heartbeat(5, GM_MODE_ALWAYS, 2, 1, 0, 1, 1, 9, GM_CHANNEL_B, carried, sizeof carried, beat, sizeof beat), 0);
    memcpy(before, beat, sizeof beat);
    expect("gm_write_heartbeat", gm_write_heartbeat(5, GM_MODE_ALWAYS, 2, 1, 0, 0, 1, 9, GM_CHANNEL_B, carried, 3, beat, sizeof beat), GM_REFUSED_NUMBER);
    expect("gm_write_heartbeat", gm_write_heartbeat(5, GM_MODE_ALWAYS, 2, 1, 0, 0, 0, 9, GM_CHANNEL_B, carried, 3, beat, GM_HEARTBEAT_BYTES + 3),
           GM_REFUSED_LENGTH);
    unchanged("gm_write_heartbeat", before, beat, sizeof beat);
    read_heartbeats();
    receive_heartbeats();
    requests();
    memcpy(before, beat, sizeof beat);
    expect("gm_send_heartbeat", gm_send_heartbeat(GM_MODE_ALWAYS, state, sizeof state, 0, 0, 9, 2, carried, 2, beat, 1, &sent), GM_REFUSED_NUMBER);
    expect("gm_send_heartbeat", gm_send_heartbeat(GM_MODE_ALWAYS, state, sizeof state, 0, 0, 9, GM_CHANNEL_A, carried, 2, beat, sizeof beat, &sent),
           GM_REFUSED_LENGTH);
    unchanged("gm_send_heartbeat", before, beat, sizeof beat);
    expect("gm_send_heartbeat", gm_send_heartbeat(GM_MODE_ALWAYS, state, sizeof state, 0, 0, 9, GM_CHANNEL_A, carried, sizeof carried, beat, sizeof beat,
                                                  &sent), 0);
    expect("sent", sent != 1 || memcmp(beat + 7, carried, sizeof carried) != 0, 0);
    entries--;
}

static void views_and_votes(void)
{
    uint64_t view = 0, arrived = 0;
    uint32_t sent = 7;
    expect("gm_view", gm_view(GM_MODE_ALWAYS, state, sizeof state, 0x0d, 0, &view), 0);
    expect("gm_view", gm_view(GM_MODE_ALWAYS, state, 0, 0x0d, 0, &view), GM_REFUSED_LENGTH);
    for (uint32_t ch = 0; ch < 2; ch++)
        if (gm_send_vote(GM_MODE_ALWAYS, state, sizeof state, 0x0d, 0, 0, 9, ch, frame[ch], sizeof frame[ch], &sent) != 0)
            exit(1);
    expect("gm_send_vote", sent != 1 || view != 0x0f, 0);
    expect("gm_send_vote", gm_send_vote(GM_MODE_ALWAYS, state, sizeof state, 0x0d, 0, 0, 9, 0, frame[0], 35, &sent), GM_REFUSED_LENGTH);
    expect("gm_receive_vote", gm_receive_vote(5, 1, 9, frame[0], 36, frame[1], 36, votes, sizeof votes, &arrived), 0);
    expect("gm_receive_vote", gm_receive_vote(5, 1, 9, frame[0], 36, frame[1], 36, votes, 1, &arrived), GM_REFUSED_LENGTH);
    expect("gm_read_vote", gm_read_vote(5, 1, 9, 0, frame[0], 36, payload, sizeof payload), 0);
    expect("gm_read_vote", gm_read_vote(5, 2, 9, 0, frame[0], 36, payload, sizeof payload), GM_REFUSED_NOT_DUE);
    expect("gm_write_vote", gm_write_vote(5, 3, 1, 0x1f, 0x1f, 0x0f, 9, 0, frame[0], 36), 0);
    expect("gm_write_vote", gm_write_vote(5, 3, 1, 0x1f, 0x3f, 0x0f, 9, 0, frame[0], 36), GM_REFUSED_CONTENT);
    if (arrived != 2 || memcmp(payload, votes + GM_VOTE_BYTES, sizeof payload) != 0)
        exit(1);
}

/* a clean cycle of kind 2, and the table of three nodes whose only cycle it is */
static uint8_t table[48] = {0x47, 0x4D, 1, 3, 0, 0, 0, 0, 0, 0, 0, 7, 0x47, 0x4D, 2};
enum { FIRST = 12, CYCLE = 36, STOP_LOWEST = 10 };
static uint8_t *const cycle = table + FIRST;

/* P3, and P10: the number after 4294967295 is 0 */
static void stop_node_2(uint8_t group, uint8_t number_after)
{
    uint8_t row[3 * GM_STATE_BYTES];
    for (uint32_t q = 0; q < 3; q++) {
        gm_begin(3, q, 7, row + q * GM_STATE_BYTES, GM_STATE_BYTES);
        memset(row + q * GM_STATE_BYTES + 4, group, 4);
    }
    cycle[STOP_LOWEST] = 4;
    expect("gm_cycle", gm_cycle(3, GM_MODE_ALWAYS, row, sizeof row, cycle, CYCLE), 0);
    cycle[STOP_LOWEST] = 0;
    expect("group number", row[7] != number_after || row[4] != 0 || row[15] != 3 || row[2 * GM_STATE_BYTES] != 0, 0);
    entries -= 2;
}

/* an analyser's slot of a node on a channel, part 0 being the heartbeats and part 1 the votes: it holds what the node writes from the beginning */
static void shown(const uint8_t *frames, uint32_t part, uint32_t channel, uint32_t node)
{
    uint8_t slot[GM_VOTE_FRAME_BYTES] = {0}, begun[GM_STATE_BYTES];
    uint32_t sent = 0;
    gm_begin(3, node, 7, begun, sizeof begun);
    if (part == 0)
        gm_send_heartbeat(GM_MODE_ALWAYS, begun, sizeof begun, 0, 0, 0, channel, begun, 0, slot, GM_HEARTBEAT_BYTES, &sent);
    else
        gm_send_vote(GM_MODE_ALWAYS, begun, sizeof begun, 7, 0, 0, 0, channel, slot, sizeof slot, &sent);
    if (sent != 1 || memcmp(frames + GM_VOTE_FRAME_BYTES * (size_t)(64 * (2 * part + channel) + node), slot, sizeof slot) != 0) {
        fprintf(stderr, "gm_run_frames shows another frame of node %u\n", (unsigned)node);
        exit(1);
    }
}

/* nothing stands in the slots of nodes that there are not */
static void others_zero(const uint8_t *frames)
{
    for (size_t k = 0; k < GM_FRAMES_BYTES; k++)
        if (k / GM_VOTE_FRAME_BYTES % 64 >= 3 && frames[k] != 0) {
            printf("gm_run_frames shows a frame of no node, at byte %zu\n", k);
            exit(1);
        }
}

/* a run through frames: refused for their length, which stands behind a record that is cut; a table without cycles shows none */
static void through_frames(uint8_t *row, size_t row_len)
{
    static uint8_t frames[GM_FRAMES_BYTES + 1], kept[sizeof frames];
    memset(frames, 0xA5, sizeof frames);
    memcpy(kept, frames, sizeof frames);
    expect("gm_run_frames", gm_run_frames(GM_MODE_ALWAYS, row, row_len, table, 1, frames, 0), GM_REFUSED_CUT);
    expect("gm_run_frames", gm_run_frames(GM_MODE_ALWAYS, row, row_len, table, sizeof table, frames, GM_FRAMES_BYTES - 1), GM_REFUSED_LENGTH);
    expect("gm_run_frames", gm_run_frames(GM_MODE_ALWAYS, row, row_len, table, sizeof table, frames, GM_FRAMES_BYTES + 1), GM_REFUSED_LENGTH);
    expect("gm_run_frames", gm_run_frames(GM_MODE_ALWAYS, row, row_len, table, FIRST, frames, GM_FRAMES_BYTES), 0);
    unchanged("gm_run_frames", frames, kept, sizeof frames);
    expect("gm_run_frames", gm_run_frames(GM_MODE_ALWAYS, row, row_len, table, sizeof table, frames, GM_FRAMES_BYTES), 0);
    for (uint32_t k = 0; k < 3 * 4; k++)
        shown(frames, k / 6, k / 3 % 2, k % 3);
    others_zero(frames);
    unchanged("gm_run_frames", frames + GM_FRAMES_BYTES, kept + GM_FRAMES_BYTES, 1);
    entries--;
}

static void rows(void)
{
    uint8_t row[3 * GM_STATE_BYTES], framed[sizeof row];
    memset(row, 0xA5, sizeof row);
    memcpy(framed, row, sizeof row);
    expect("gm_run", gm_run(GM_MODE_ALWAYS, row, sizeof row, table, sizeof table - 1), GM_REFUSED_CUT);
    expect("gm_run", gm_run(GM_MODE_ALWAYS, row, sizeof row - GM_STATE_BYTES, table, sizeof table), GM_REFUSED_LENGTH);
    expect("gm_cycle", gm_cycle(3, GM_MODE_ALWAYS, row, sizeof row, cycle, CYCLE), GM_REFUSED_STATE);
    unchanged("gm_run", framed, row, sizeof row);
    expect("gm_run", gm_run(GM_MODE_ALWAYS, row, sizeof row, table, sizeof table), 0);
    through_frames(framed, sizeof framed);
    unchanged("gm_run_frames", framed, row, sizeof row);
    expect("gm_cycle", gm_cycle(3, GM_MODE_ALWAYS, row, sizeof row, cycle, CYCLE), 0);
    expect("gm_cycle", gm_cycle(3, GM_MODE_ALWAYS, row, sizeof row, table, CYCLE + FIRST), GM_REFUSED_LENGTH);
    expect("gm_cycle", gm_cycle(3, GM_MODE_ALWAYS, row, sizeof row, table, CYCLE), GM_REFUSED_KIND);
    unchanged("gm_cycle", framed, row, sizeof row);
    stop_node_2(0, 1);
    stop_node_2(0xFF, 0);
}

/* what a call on a register block is lent, between bytes that it may not write */
struct lent {
    uint8_t before[8], block[GM_REGISTERS_BYTES], between[8], votes[GM_VOTES_BYTES], after[8];
    uint32_t value[3];
};
static struct lent lent, due;

static void left(const char *entry)
{
    if (memcmp(&lent, &due, sizeof lent) != 0) {
        fprintf(stderr, "%s left other bytes\n", entry);
        exit(1);
    }
}

/* each refusal of each, of several the lowest; a byte of the block that must be 0 is not */
static void registers_refused(void)
{
    uint8_t *block = lent.block;
    expect("gm_register_read", gm_register_read(GM_MODE_ALWAYS, block, sizeof lent.block, 64, lent.value + 1), GM_REFUSED_ADDRESS);
    expect("gm_register_write", gm_register_write(GM_MODE_ALWAYS, block, sizeof lent.block, UINT32_MAX, 7), GM_REFUSED_ADDRESS);
    expect("gm_register_write_cycle", gm_register_write_cycle(GM_MODE_ALWAYS, block, sizeof lent.block, 64, 7, 0, 0, 0, lent.votes, sizeof lent.votes, 0),
           GM_REFUSED_ADDRESS);
    block[40] = due.block[40] = 1;
    expect("gm_register_read", gm_register_read(GM_MODE_ALWAYS, block, sizeof lent.block, 64, lent.value + 1), GM_REFUSED_STATE);
    expect("gm_register_write", gm_register_write(GM_MODE_ALWAYS, block, sizeof lent.block, 64, 7), GM_REFUSED_STATE);
    expect("gm_register_cycle", gm_register_cycle(GM_MODE_ALWAYS, block, sizeof lent.block, 0, 0, 0, lent.votes, sizeof lent.votes, 0), GM_REFUSED_STATE);
    expect("gm_register_write_cycle", gm_register_write_cycle(GM_MODE_ALWAYS, block, sizeof lent.block, 64, 7, 0, 0, 0, lent.votes, sizeof lent.votes, 0),
           GM_REFUSED_STATE);
    expect("gm_register_read", gm_register_read(GM_MODE_ALWAYS, block, sizeof lent.block - 1, 64, lent.value + 1), GM_REFUSED_LENGTH);
    expect("gm_register_write", gm_register_write(GM_MODE_ALWAYS, block, GM_STATE_BYTES, 64, 7), GM_REFUSED_LENGTH);
    expect("gm_register_cycle", gm_register_cycle(GM_MODE_ALWAYS, block, sizeof lent.block, 0, 0, 0, lent.votes, sizeof lent.votes - 1, 0), GM_REFUSED_LENGTH);
    expect("gm_register_write_cycle", gm_register_write_cycle(GM_MODE_ALWAYS, block, 0, 64, 7, 0, 0, 0, lent.votes, 0, 0), GM_REFUSED_LENGTH);
    block[40] = due.block[40] = 0;
    left("an entry that refused a block");
}

/* a founder that enables its flags, halts since it hears nobody, and is started together with a cycle */
static void registers(void)
{
    static const uint8_t halted[GM_REGISTERS_BYTES] = {0, 1, 1, 5, [24] = 2, 7, 1};
    memset(&lent, 0xA5, sizeof lent);
    memset(lent.block, 0, sizeof lent.block);
    gm_begin(5, 1, 0x1f, lent.block, GM_STATE_BYTES);
    due = lent;
    registers_refused();
    expect("gm_register_write", gm_register_write(GM_MODE_ALWAYS, lent.block, sizeof lent.block, GM_REGISTER_ENABLES, 0xFF), 0);
    due.block[25] = 7;
    left("gm_register_write");
    expect("gm_register_read", gm_register_read(GM_MODE_ALWAYS, lent.block, sizeof lent.block, GM_REGISTER_ENABLES, lent.value + 1), 0);
    due.value[1] = 7;
    left("gm_register_read");
    expect("gm_register_cycle", gm_register_cycle(GM_MODE_ALWAYS, lent.block, sizeof lent.block, 0, 0, 0, lent.votes, sizeof lent.votes, 0), 0);
    memcpy(due.block, halted, sizeof halted);
    left("gm_register_cycle");
    expect("gm_register_write_cycle",
           gm_register_write_cycle(GM_MODE_ALWAYS, lent.block, sizeof lent.block, GM_REGISTER_COMMAND, GM_COMMAND_START, 0, 0, 0, lent.votes,
                                   sizeof lent.votes, 0), 0);
    due.block[0] = 1;
    due.block[1] = 0;
    left("gm_register_write_cycle");
}

int main(void)
{
    states();
    states_apart();
    heartbeats();
    views_and_votes();
    rows();
    registers();
    expect("gm_decide", gm_decide(GM_MODE_ALWAYS, state, sizeof state, 0x1d, 0, 0, votes, sizeof votes, 0), 0);
    expect("gm_decide", gm_decide(GM_MODE_ALWAYS, state, sizeof state, 0x1d, 0, 0, votes, sizeof votes - 1, 0), GM_REFUSED_LENGTH);
    printf("%u\n", entries);
    return 0;
}
