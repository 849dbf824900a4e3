/*
 * Whether the places, slots and values that gm.h and gm_refusal.h name are those of the archive: what is put together by hand from the constants must be
 * what the entries read and write. Prints how many statuses have a sentence of their own.
 */
#include "gm.h"
#include "gm_refusal.h"

#include <stdio.h>
#include <stdlib.h>
#include <string.h>

static void hold(int fact, const char *what)
{
    if (!fact) {
        fprintf(stderr, "tests/layout: %s\n", what);
        exit(1);
    }
}

static void put(uint8_t *s, size_t bytes, uint64_t number)
{
    while (bytes-- > 0) {
        s[bytes] = (uint8_t)number;
        number >>= 8;
    }
}

/* a member of nine, every number of which is another, put together byte by byte */
static void member(uint8_t *state)
{
    memset(state, 0, GM_STATE_BYTES);
    state[GM_STATE_AT_KIND] = GM_KIND_MEMBER;
    state[GM_STATE_AT_NODE] = 3;
    state[GM_STATE_AT_N] = 9;
    put(state + GM_STATE_AT_NUMBER, 4, 0x01020304);
    put(state + GM_STATE_AT_SET, GM_SET_BYTES, 0x0F8);
    put(state + GM_STATE_AT_BASE, GM_SET_BYTES, 0x1F9);
}

static void states(void)
{
    uint8_t state[GM_STATE_BYTES];
    uint32_t kind = 9, reason = 9, node = 9, n = 9, number = 9;
    uint64_t set = 9, base = 9;
    member(state);
    hold(gm_state(GM_MODE_ALWAYS, state, sizeof state, &kind, &reason, &node, &n, &number, &set, &base) == GM_OK, "a member is refused");
    hold(kind == GM_KIND_MEMBER && reason == GM_REASON_STOPPED && node == 3 && n == 9, "kind, reason, node or n stands elsewhere");
    hold(number == 0x01020304 && set == 0x0F8 && base == 0x1F9, "number, set or base stands elsewhere");
}

/* in a quiet press a member that will request votes says so, and its heartbeat says it */
static void requests(void)
{
    static const uint8_t none[1] = {0};
    uint8_t state[GM_STATE_BYTES], beat[GM_HEARTBEAT_BYTES], drive[GM_DRIVE_BYTES];
    uint32_t heard = 7, number = 7, sent = 7;
    uint64_t view = 7;
    member(state);
    state[GM_STATE_AT_REASON] = 1;
    hold(gm_view(GM_MODE_QUIET, state, sizeof state, 0, 0, &view) == GM_OK && view == 8, "a member that requests is refused");
    hold(gm_view(GM_MODE_ALWAYS, state, sizeof state, 0, 0, &view) == GM_REFUSED_STATE, "a member requests where votes are sent in every cycle");
    hold(gm_view(GM_MODE_QUIET + 1U, state, sizeof state, 0, 0, &view) == GM_REFUSED_NUMBER, "there is a third mode");
    hold(gm_send_heartbeat(GM_MODE_QUIET, state, sizeof state, 0, 0, 5, GM_CHANNEL_B, none, 0, beat, sizeof beat, &sent) == GM_OK && sent == 1, "no heartbeat");
    hold(beat[5] == 0x40U && beat[6] == 0, "the request stands elsewhere");
    hold(gm_receive_heartbeat(9, GM_MODE_QUIET, 3, 5, none, 0, beat, sizeof beat, drive, sizeof drive, &heard, &number) == GM_OK, "a request is refused");
    hold(heard == GM_HEARD_REQUEST, "a request is not heard");
}

/* the votes of units 1 and 2 of three, with group number 0 */
static void put_votes(uint8_t *votes, uint64_t set, uint64_t view)
{
    for (size_t q = 1; q < 3; q++) {
        put(votes + q * GM_VOTE_BYTES + GM_VOTE_AT_SET, GM_SET_BYTES, set);
        put(votes + q * GM_VOTE_BYTES + GM_VOTE_AT_BASE, GM_SET_BYTES, set);
        put(votes + q * GM_VOTE_BYTES + GM_VOTE_AT_VIEW, GM_SET_BYTES, view);
    }
}

/* what becomes of the member above when nobody is heard, and of a founder of three whose two others vote for a view without it */
static void reasons(void)
{
    uint8_t state[GM_STATE_BYTES], votes[GM_VOTES_BYTES] = {0};
    member(state);
    hold(gm_decide(GM_MODE_ALWAYS, state, sizeof state, 0, 0, 0, votes, sizeof votes, 0) == GM_OK && state[GM_STATE_AT_KIND] == GM_KIND_OUT,
         "a lonely member does not halt");
    hold(state[GM_STATE_AT_REASON] == GM_REASON_NO_QUORUM, "its reason is another");
    gm_begin(3, 0, 7, state, sizeof state);
    put_votes(votes, 7, 6);
    hold(gm_decide(GM_MODE_ALWAYS, state, sizeof state, 6, 0, 0, votes, sizeof votes, 6) == GM_OK && state[GM_STATE_AT_REASON] == GM_REASON_OUTVOTED,
         "nobody is outvoted");
    hold(gm_start(GM_MODE_ALWAYS, state, sizeof state) == GM_OK && state[GM_STATE_AT_KIND] == GM_KIND_JOINING, "a start does not make it joining");
    hold(gm_stop(GM_MODE_ALWAYS, state, sizeof state) == GM_OK && state[GM_STATE_AT_REASON] == GM_REASON_STOPPED, "a stop leaves a reason");
}

static uint32_t reads(const uint8_t *block, uint32_t address)
{
    uint32_t value = UINT32_MAX;
    hold(gm_register_read(GM_MODE_ALWAYS, block, GM_REGISTERS_BYTES, address, &value) == GM_OK && value == block[address],
         "a register is refused, or reads as another");
    return value;
}

static void writes(uint8_t *block, uint32_t address, uint32_t value)
{
    hold(gm_register_write(GM_MODE_ALWAYS, block, GM_REGISTERS_BYTES, address, (uint8_t)value) == GM_OK, "a write to a register is refused");
}

/* one of three founders, which loses another one, halts, is started, enters and is stopped; the first two flags are acknowledged together with a cycle, the third by a write alone */
static void registers(void)
{
    uint8_t block[GM_REGISTERS_BYTES] = {0}, votes[GM_VOTES_BYTES] = {0};
    const uint32_t all = GM_FLAG_CHANGED | GM_FLAG_HALTED | GM_FLAG_ENTERED;
    gm_begin(3, 0, 7, block, GM_STATE_BYTES);
    writes(block, GM_REGISTER_ENABLES, UINT8_MAX);
    hold(reads(block, GM_REGISTER_ENABLES) == all && reads(block, GM_REGISTER_PENDING) == 0, "enables stand elsewhere, or are not those of the flags");
    put_votes(votes, 7, 3);
    hold(gm_register_cycle(GM_MODE_ALWAYS, block, sizeof block, 2, 0, 0, votes, sizeof votes, 2) == GM_OK, "a cycle of a block is refused");
    hold(reads(block, GM_REGISTER_FLAGS) == GM_FLAG_CHANGED && reads(block, GM_REGISTER_PENDING) == 1, "a changed set raises no flag, or another");
    hold(gm_register_write_cycle(GM_MODE_ALWAYS, block, sizeof block, GM_REGISTER_FLAGS, GM_FLAG_CHANGED, 0, 0, 0, votes, sizeof votes, 0) == GM_OK,
         "a joint step is refused");
    hold(reads(block, GM_REGISTER_FLAGS) == GM_FLAG_HALTED, "a halt raises no flag, or another");
    writes(block, GM_REGISTER_COMMAND, GM_COMMAND_START);
    hold(reads(block, GM_STATE_AT_KIND) == GM_KIND_JOINING && reads(block, GM_REGISTER_COMMAND) == 0, "no start is commanded");
    put_votes(votes, 6, 7);
    gm_register_write_cycle(GM_MODE_ALWAYS, block, sizeof block, GM_REGISTER_FLAGS, GM_FLAG_HALTED, 6, 0, 0, votes, sizeof votes, 6);
    hold(reads(block, GM_REGISTER_FLAGS) == GM_FLAG_ENTERED, "an entry raises no flag, or another");
    writes(block, GM_REGISTER_COMMAND, GM_COMMAND_STOP);
    hold(reads(block, GM_STATE_AT_KIND) == GM_KIND_OUT && reads(block, GM_STATE_AT_REASON) == GM_REASON_STOPPED, "no stop is commanded");
    hold(reads(block, GM_REGISTER_FLAGS) == GM_FLAG_ENTERED && reads(block, GM_REGISTER_PENDING) == 1, "a stop changes the flags");
    writes(block, GM_REGISTER_FLAGS, all);
    hold(reads(block, GM_REGISTER_FLAGS) == 0 && reads(block, GM_REGISTER_PENDING) == 0, "a flag is not cleared");
}

/* the last register is read and none behind it; a byte that is none of a block is refused before that, and another length before both */
static void last_register(void)
{
    uint8_t block[GM_REGISTERS_BYTES + 1U] = {0};
    uint32_t value = 9;
    gm_begin(3, 0, 7, block, GM_STATE_BYTES);
    hold(reads(block, GM_REGISTERS_BYTES - 1U) == 0, "the last register is another");
    hold(gm_register_read(GM_MODE_ALWAYS, block, GM_REGISTERS_BYTES, GM_REGISTERS_BYTES, &value) == GM_REFUSED_ADDRESS, "a register too many");
    block[GM_REGISTER_COMMAND] = 1;
    hold(gm_register_write(GM_MODE_ALWAYS, block, GM_REGISTERS_BYTES, GM_REGISTERS_BYTES, 0) == GM_REFUSED_STATE, "a command stands in a block");
    hold(gm_register_write(GM_MODE_ALWAYS, block, sizeof block, GM_REGISTERS_BYTES, 0) == GM_REFUSED_LENGTH, "a block of another length is refused otherwise");
    hold(value == 9, "a refused read gives a value");
}

/* the frame number of a frame: the 11 bits behind the five indicators */
static uint32_t slot_of(const uint8_t *frame)
{
    return (frame[0] & 7U) << 8 | frame[1];
}

/* without drive bytes */
static uint32_t write_beat(uint32_t n, uint32_t node, uint32_t cycle, uint32_t channel, uint8_t *beat)
{
    static const uint8_t none[1] = {0};
    return gm_write_heartbeat(n, GM_MODE_ALWAYS, node, 0, 0, 0, 0, cycle, channel, none, 0, beat, GM_HEARTBEAT_BYTES);
}

/* accepted, it has no drive bytes */
static uint32_t read_beat(uint32_t n, uint32_t node, uint32_t cycle, uint32_t channel, const uint8_t *beat, size_t len)
{
    uint8_t drive[GM_DRIVE_BYTES];
    uint32_t join = 7, request = 7, number = 7;
    uint32_t status = gm_read_heartbeat(n, GM_MODE_ALWAYS, node, cycle, channel, beat, len, drive, sizeof drive, &join, &request, &number);
    hold(status != GM_OK || (number == 0 && request == 0), "a heartbeat without drive bytes is read with some, or with a request");
    return status;
}

/* of node 3 of nine in cycle 5 */
static uint32_t receive_beat(const uint8_t *a, size_t a_len, const uint8_t *b, size_t b_len)
{
    uint8_t drive[GM_DRIVE_BYTES];
    uint32_t heard = 7, number = 7;
    hold(gm_receive_heartbeat(9, GM_MODE_ALWAYS, 3, 5, a, a_len, b, b_len, drive, sizeof drive, &heard, &number) == GM_OK, "copies of a heartbeat are refused");
    hold(number == 0, "a heartbeat without drive bytes is received with some");
    return heard;
}

/* as many as there may be, in the longest frame and in the buffer for them; one more, or a longer buffer, is refused */
static void drive_bytes(void)
{
    static uint8_t drive[GM_DRIVE_BYTES + 2U], frame[GM_HEARTBEAT_MOST_BYTES + 2U], got[GM_DRIVE_BYTES + 1U];
    uint32_t join = 7, request = 7, number = 7;
    for (size_t i = 0; i < sizeof drive; i++)
        drive[i] = (uint8_t)(3U * i + 1U);
    hold(gm_write_heartbeat(9, GM_MODE_ALWAYS, 3, 1, 0, 0, 0, 5, GM_CHANNEL_A, drive, GM_DRIVE_BYTES, frame, GM_HEARTBEAT_MOST_BYTES) == GM_OK,
         "a heartbeat of most drive bytes is refused");
    hold(gm_write_heartbeat(9, GM_MODE_ALWAYS, 3, 1, 0, 0, 0, 5, GM_CHANNEL_A, drive, sizeof drive, frame, sizeof frame) == GM_REFUSED_LENGTH,
         "two drive bytes too many");
    hold(gm_write_heartbeat(9, GM_MODE_ALWAYS, 3, 1, 0, 0, 0, 5, GM_CHANNEL_A, drive, 1, frame, GM_HEARTBEAT_BYTES + 1U) == GM_REFUSED_LENGTH,
         "an odd number of drive bytes");
    hold(gm_read_heartbeat(9, GM_MODE_ALWAYS, 3, 5, GM_CHANNEL_A, frame, GM_HEARTBEAT_MOST_BYTES, got, sizeof got, &join, &request,
                           &number) == GM_REFUSED_LENGTH, "a longer buffer is filled");
    hold(gm_read_heartbeat(9, GM_MODE_ALWAYS, 3, 5, GM_CHANNEL_A, frame, GM_HEARTBEAT_MOST_BYTES, got, GM_DRIVE_BYTES, &join, &request, &number) == GM_OK,
         "the longest heartbeat is not read");
    hold(join == 1 && number == GM_DRIVE_BYTES && memcmp(got, drive, GM_DRIVE_BYTES) == 0, "other drive bytes are read than were written");
    hold(frame[5] == 0x80U && frame[6] == 0 && memcmp(frame + 7, drive, GM_DRIVE_BYTES) == 0, "join or the drive bytes stand elsewhere");
}

static void frames(void)
{
    uint8_t beat[GM_HEARTBEAT_BYTES], frame[GM_VOTE_FRAME_BYTES], vote[GM_VOTE_BYTES], due[GM_VOTE_BYTES];
    hold(write_beat(9, 3, 5, GM_CHANNEL_A, beat) == GM_OK, "a heartbeat is refused");
    hold(slot_of(beat) == GM_HEARTBEAT_SLOT + 3U, "a heartbeat has another slot");
    hold(gm_write_vote(9, 3, 0x01020304, 0x0F8, 0x1F9, 0x01C, 5, GM_CHANNEL_B, frame, sizeof frame) == GM_OK, "a vote is refused");
    hold(slot_of(frame) == GM_VOTE_SLOT + 3U, "a vote has another slot");
    hold(gm_read_vote(9, 3, 5, GM_CHANNEL_B, frame, sizeof frame, vote, sizeof vote) == GM_OK, "a vote is not read");
    put(due + GM_VOTE_AT_NUMBER, 4, 0x01020304);
    put(due + GM_VOTE_AT_SET, GM_SET_BYTES, 0x0F8);
    put(due + GM_VOTE_AT_BASE, GM_SET_BYTES, 0x1F9);
    put(due + GM_VOTE_AT_VIEW, GM_SET_BYTES, 0x01C);
    hold(memcmp(vote, due, sizeof vote) == 0, "the numbers of a vote stand elsewhere");
}

/* one copy lent for both channels is what two buffers with its bytes are, and where the length is 0 the pointer may stand behind an object */
static void coinciding(void)
{
    uint8_t beat[GM_HEARTBEAT_BYTES], frame[GM_VOTE_FRAME_BYTES], again[GM_VOTE_FRAME_BYTES], votes[2][GM_VOTES_BYTES];
    uint64_t arrived[2] = {0, 0};
    memset(votes, 0, sizeof votes);
    write_beat(9, 3, 5, GM_CHANNEL_B, beat);
    hold(receive_beat(beat, sizeof beat, beat, sizeof beat) == GM_HEARD_MEMBER, "one copy lent twice is not heard");
    hold(receive_beat(beat, 0, beat, sizeof beat) == GM_HEARD_MEMBER, "one copy lent with no length on A is not heard");
    hold(receive_beat(beat + sizeof beat, 0, beat, sizeof beat) == GM_HEARD_MEMBER, "no copy on A is not taken so");
    hold(receive_beat(beat + sizeof beat, 0, beat + sizeof beat, 0) == GM_MISSED, "no copy is heard");
    gm_write_vote(9, 3, 1, 0x0F8, 0x1F9, 0x01C, 5, GM_CHANNEL_A, frame, sizeof frame);
    memcpy(again, frame, sizeof again);
    gm_receive_vote(9, 3, 5, frame, sizeof frame, frame, sizeof frame, votes[0], sizeof votes[0], &arrived[0]);
    gm_receive_vote(9, 3, 5, frame, sizeof frame, again, sizeof again, votes[1], sizeof votes[1], &arrived[1]);
    hold(arrived[0] == 8 && arrived[0] == arrived[1] && memcmp(votes[0], votes[1], sizeof votes[0]) == 0, "one vote lent twice is another vote");
}

/* a copy that is cut, one whose header check is damaged, and one whose frame check is */
static void damaged(void)
{
    uint8_t beat[GM_HEARTBEAT_BYTES];
    write_beat(9, 3, 5, GM_CHANNEL_A, beat);
    hold(read_beat(9, 3, 5, GM_CHANNEL_A, beat, sizeof beat - 1U) == GM_REFUSED_FRAME_LENGTH, "a cut copy is refused otherwise");
    beat[3] ^= 1U;
    hold(read_beat(9, 3, 5, GM_CHANNEL_A, beat, sizeof beat) == GM_REFUSED_HEADER_CHECK, "a damaged header is refused otherwise");
    beat[3] ^= 1U;
    beat[9] ^= 1U;
    hold(read_beat(9, 3, 5, GM_CHANNEL_A, beat, sizeof beat) == GM_REFUSED_FRAME_CHECK, "a damaged frame is refused otherwise");
}

/* five units after one cycle of a table that is put together from the constants, units 0 to 3 founding */
static uint8_t row[5 * GM_STATE_BYTES];

static uint32_t kind(size_t q) { return row[q * GM_STATE_BYTES + GM_STATE_AT_KIND]; }
static uint32_t reason(size_t q) { return row[q * GM_STATE_BYTES + GM_STATE_AT_REASON]; }
static uint32_t set(size_t q) { return row[q * GM_STATE_BYTES + GM_STATE_AT_SET + GM_SET_BYTES - 1U]; }

/* the cycle has one mask, at the place named, and one entry if `entry` is a length of one */
static void run(size_t at, uint64_t mask, uint8_t receiver, size_t entry)
{
    uint8_t table[GM_START_BYTES + GM_CYCLE_AT_ENTRIES + GM_ENTRY_BYTES] = {0};
    uint8_t *cycle = table + GM_START_BYTES;
    table[GM_RECORD_AT_MARK] = GM_MARK_0;
    table[GM_RECORD_AT_MARK + 1U] = GM_MARK_1;
    table[GM_RECORD_AT_KIND] = GM_RECORD_START;
    table[GM_START_AT_N] = 5;
    put(table + GM_START_AT_FOUNDING, GM_SET_BYTES, 0x0F);
    memcpy(cycle, table, GM_RECORD_AT_KIND);
    cycle[GM_RECORD_AT_KIND] = GM_RECORD_CYCLE;
    cycle[GM_CYCLE_AT_COUNT] = (uint8_t)(entry / GM_ENTRY_BYTES);
    cycle[GM_CYCLE_AT_ENTRIES + GM_ENTRY_AT_RECEIVER] = receiver;
    put(cycle + at, GM_SET_BYTES, mask);
    hold(gm_run(GM_MODE_ALWAYS, row, sizeof row, table, GM_START_BYTES + GM_CYCLE_AT_ENTRIES + entry) == GM_OK, "the table is refused");
}

static void tables(void)
{
    run(GM_CYCLE_AT_STOP, 8, 0, 0);
    hold(kind(3) == GM_KIND_OUT && reason(3) == GM_REASON_STOPPED && set(0) == 0x07, "unit 3 is not stopped");
    run(GM_CYCLE_AT_START, 0x10, 0, 0);
    hold(kind(4) == GM_KIND_MEMBER && set(0) == 0x1F, "unit 4 does not start");
    run(GM_CYCLE_AT_HEARTBEAT_LOST, 1, 0, 0);
    hold(kind(0) == GM_KIND_OUT && reason(0) == GM_REASON_OUTVOTED && set(1) == 0x0E, "no heartbeat of unit 0 is lost");
    run(GM_CYCLE_AT_VOTE_LOST, 1, 0, 0);
    hold(set(0) == 0x0F && set(1) == 0x0E, "no vote of unit 0 is lost");
    run(GM_CYCLE_AT_ENTRIES + GM_ENTRY_AT_MISSED, 2, GM_ENTRY_VOTE, GM_ENTRY_BYTES);
    hold(set(0) == 0x0D && set(1) == 0x0F, "unit 0 misses no vote of unit 1");
    run(GM_CYCLE_AT_ENTRIES + GM_ENTRY_AT_MISSED, 2, 0, GM_ENTRY_BYTES);
    hold(kind(0) == GM_KIND_OUT && set(1) == 0x0E, "unit 0 misses no heartbeat of unit 1");
}

/* the frames of unit 1 of two, in a run of one clean cycle, stand in their parts */
static void shown(void)
{
    static uint8_t frames[GM_FRAMES_BYTES];
    uint8_t table[GM_START_BYTES + GM_CYCLE_AT_ENTRIES] = {GM_MARK_0, GM_MARK_1, GM_RECORD_START, 2, 0, 0, 0, 0, 0, 0, 0, 3, GM_MARK_0, GM_MARK_1, GM_RECORD_CYCLE};
    uint8_t two[2 * GM_STATE_BYTES] = {0}, vote[GM_VOTE_BYTES];
    const size_t slot = GM_VOTE_FRAME_BYTES;
    hold(gm_run_frames(GM_MODE_ALWAYS, two, sizeof two, table, sizeof table, frames, sizeof frames) == GM_OK, "a run through frames is refused");
    hold(read_beat(2, 1, 0, GM_CHANNEL_A, frames + GM_FRAMES_AT_HEARTBEATS_A + slot, GM_HEARTBEAT_BYTES) == GM_OK, "no heartbeat on A");
    hold(read_beat(2, 1, 0, GM_CHANNEL_B, frames + GM_FRAMES_AT_HEARTBEATS_B + slot, GM_HEARTBEAT_BYTES) == GM_OK, "no heartbeat on B");
    hold(gm_read_vote(2, 1, 0, GM_CHANNEL_A, frames + GM_FRAMES_AT_VOTES_A + slot, slot, vote, sizeof vote) == GM_OK, "no vote on A");
    hold(gm_read_vote(2, 1, 0, GM_CHANNEL_B, frames + GM_FRAMES_AT_VOTES_B + slot, slot, vote, sizeof vote) == GM_OK, "no vote on B");
}

/* the limits of numbers: one node, channel or cycle count more is refused, and the last is not */
static void limits(void)
{
    uint8_t beat[GM_HEARTBEAT_BYTES];
    const uint32_t last = GM_NODES_MAX - 1U;
    hold(write_beat(GM_NODES_MAX, last, GM_CYCLE_COUNTS - 1U, GM_CHANNELS - 1U, beat) == GM_OK, "a last number is refused");
    hold(write_beat(GM_NODES_MAX + 1U, last, 0, 0, beat) == GM_REFUSED_COUNT, "a node too many");
    hold(write_beat(GM_NODES_MIN - 1U, 0, 0, 0, beat) == GM_REFUSED_COUNT, "a node too few");
    hold(write_beat(GM_NODES_MIN, 0, GM_CYCLE_COUNTS, 0, beat) == GM_REFUSED_NUMBER, "a cycle count too many");
    hold(write_beat(GM_NODES_MIN, 0, 0, GM_CHANNELS, beat) == GM_REFUSED_NUMBER, "a channel too many");
}

/* a record of as many entries as there may be, and one more */
static void longest(void)
{
    static uint8_t all[GM_NODES_MAX * GM_STATE_BYTES], record[GM_RECORD_BYTES_MAX + GM_ENTRY_BYTES] = {GM_MARK_0, GM_MARK_1, GM_RECORD_CYCLE};
    uint8_t table[GM_START_BYTES] = {GM_MARK_0, GM_MARK_1, GM_RECORD_START, GM_NODES_MAX, 0xFF};
    hold(gm_run(GM_MODE_ALWAYS, all, sizeof all, table, sizeof table) == GM_OK, "a table without cycles is refused");
    for (uint32_t k = 0; k < GM_ENTRIES_MAX; k++) {
        uint8_t *entry = record + GM_CYCLE_AT_ENTRIES + k * GM_ENTRY_BYTES;
        entry[GM_ENTRY_AT_RECEIVER] = (uint8_t)(k / GM_NODES_MAX * GM_ENTRY_VOTE + k % GM_NODES_MAX);
        put(entry + GM_ENTRY_AT_MISSED, GM_SET_BYTES, (uint64_t)1 << (k + 1U) % GM_NODES_MAX);
    }
    record[GM_CYCLE_AT_COUNT] = GM_ENTRIES_MAX;
    hold(gm_cycle(GM_NODES_MAX, GM_MODE_ALWAYS, all, sizeof all, record, GM_RECORD_BYTES_MAX) == GM_OK, "the longest record is refused");
    record[GM_CYCLE_AT_COUNT]++;
    hold(gm_cycle(GM_NODES_MAX, GM_MODE_ALWAYS, all, sizeof all, record, sizeof record) == GM_REFUSED_LIMIT, "an entry too many");
}

/* a word of each sentence, by its status, so that no two are exchanged */
static const char *const word[] = {
    [GM_OK] = "accepted", [GM_REFUSED_COUNT] = "number of nodes is not 2 to 64", [GM_REFUSED_NUMBER] = "cycle count is above", [GM_REFUSED_LENGTH] = "buffer",
    [GM_REFUSED_STATE] = "register block is not well formed", [GM_REFUSED_FRAME_LENGTH] = "fewer than 8 bytes", [GM_REFUSED_HEADER_CHECK] = "header check",
    [GM_REFUSED_FRAME_CHECK] = "frame check is wrong", [GM_REFUSED_NULL_FRAME] = "null frame", [GM_REFUSED_NOT_DUE] = "due", [GM_REFUSED_CONTENT] = "content",
    [GM_REFUSED_CUT] = "before the record is whole", [GM_REFUSED_KIND] = "mark or kind", [GM_REFUSED_LIMIT] = "founding set is empty",
    [GM_REFUSED_ADDRESS] = "address is above 63"};
enum { STATUSES = sizeof word / sizeof *word };

/* every status up to the last has a sentence of its own, and no other number has one */
static void sentences(void)
{
    const char *none = gm_refusal_text(STATUSES);
    hold(strcmp(none, gm_refusal_text(UINT32_MAX)) == 0, "a number that no entry answers has a sentence of its own");
    for (uint32_t status = GM_OK; status < STATUSES; status++) {
        const char *text = gm_refusal_text(status);
        hold(strstr(text, word[status]) != NULL && strstr(none, word[status]) == NULL, "a status has another sentence");
        hold(text[0] >= 'A' && text[0] <= 'Z' && text[strlen(text) - 1] == '.', "a status has no sentence");
    }
}

int main(void)
{
    states();
    requests();
    reasons();
    registers();
    last_register();
    frames();
    drive_bytes();
    coinciding();
    damaged();
    tables();
    shown();
    limits();
    longest();
    sentences();
    printf("%u\n", (unsigned)STATUSES);
    return 0;
}
