/*
 * The calls of tests/vectors/t03 on the archive, in both modes: votes and decisions of one node, by the state and by a register block; cycles of a row;
 * heartbeats of one word written, read and received. The status, the results and every byte that is lent after each call, and that no byte beside it is
 * written. The README beside the files says their form. Prints how many lines of each file agree; the first difference ends it, with the line.
 * Usage: quiet DECIDE CYCLE HEARTBEAT
 */
#include "lines.h"

enum { GUARD = 64, MOST_BYTES = 4096, FILL = 0xA5, NO_NUMBER = 0x5A5A5A5A };

/* three buffers, each between guard bytes, three results, and what is to stand there afterwards */
enum { FIRST, SECOND, WRITTEN, BUFFERS };
enum { RESULTS = 3 };
static uint8_t buffers[BUFFERS][GUARD + MOST_BYTES + GUARD], buffers_due[BUFFERS][sizeof *buffers];
static uint32_t results[RESULTS], results_due[RESULTS];

static uint8_t *const first = buffers[FIRST] + GUARD, *const second = buffers[SECOND] + GUARD, *const written = buffers[WRITTEN] + GUARD;
static const char *path;

static void must(int fact, const char *what)
{
    if (!fact) {
        fprintf(stderr, "tests/quiet: %s, line %lu: %s\n", path, at, what);
        exit(1);
    }
}

/* ---- what is lent */

static void fill(void)
{
    memset(buffers, FILL, sizeof buffers);
    for (unsigned k = 0; k < RESULTS; k++)
        results[k] = results_due[k] = NO_NUMBER;
}

static size_t lend(unsigned which, const char *field)
{
    size_t len = length(field, MOST_BYTES);
    put_bytes(buffers[which] + GUARD, field, len);
    return len;
}

/* a buffer after the call, `=` or `-` where it stays as it came in */
static void leaves(unsigned which, const char *field)
{
    if (strcmp(field, "=") != 0 && strcmp(field, "-") != 0)
        put_bytes(buffers_due[which] + GUARD, field, length(field, MOST_BYTES));
}

static void gives(unsigned which, const char *field)
{
    if (strcmp(field, "-") != 0)
        results_due[which] = decimal(field);
}

static void settle(uint32_t status, uint32_t status_due)
{
    must(status == status_due, "another status");
    must(memcmp(results, results_due, sizeof results) == 0, "another result");
    must(memcmp(buffers, buffers_due, sizeof buffers) == 0, "the call leaves other bytes");
}

/* the files have no pause */
static void no_pause(const char *field)
{
    must(decimal(field) == 0, "a pause");
}

/* ---- lines */

/* mode pause state heard0 heard1 requests arrived votes sent state-after */
enum { MODE, PAUSE, STATE, HEARD0, HEARD1, REQUESTS, ARRIVED, VOTES, SENT, AFTER };

/* the frame of a vote that is sent is one that a reader takes; where none is sent its bytes are as they came in */
static void vote(char **field)
{
    uint32_t sent_due = decimal(field[SENT]), node, status;
    fill();
    lend(FIRST, field[STATE]);
    memcpy(buffers_due, buffers, sizeof buffers);
    status = gm_send_vote(decimal(field[MODE]), first, GM_STATE_BYTES, mask(field[HEARD0]), mask(field[HEARD1]), mask(field[REQUESTS]), 9, GM_CHANNEL_B,
                          written, GM_VOTE_FRAME_BYTES, &results[0]);
    results_due[0] = sent_due;
    node = first[GM_STATE_AT_NODE];
    if (sent_due == 1) {
        must(gm_read_vote(first[GM_STATE_AT_N], node, 9, GM_CHANNEL_B, written, GM_VOTE_FRAME_BYTES, second, GM_VOTE_BYTES) == GM_OK, "no vote is written");
        must(memcmp(second, first + GM_STATE_AT_NUMBER, GM_VOTE_AT_VIEW) == 0, "the vote names another group");
        memcpy(buffers_due[SECOND], buffers[SECOND], GUARD + GM_VOTE_BYTES);
        memcpy(buffers_due[WRITTEN], buffers[WRITTEN], GUARD + GM_VOTE_FRAME_BYTES);
    }
    settle(status, GM_OK);
}

/* a register block whose state is that of the line is left with the same state; its flags are tried elsewhere */
static void decision(char **field, size_t state_len)
{
    uint32_t status;
    fill();
    memset(written, 0, state_len);
    lend(WRITTEN, field[STATE]);
    put_votes(first, mask(field[ARRIVED]), field[VOTES]);
    memcpy(buffers_due, buffers, sizeof buffers);
    if (state_len == GM_STATE_BYTES)
        status = gm_decide(decimal(field[MODE]), written, state_len, mask(field[HEARD0]), mask(field[HEARD1]), mask(field[REQUESTS]), first, GM_VOTES_BYTES,
                           mask(field[ARRIVED]));
    else
        status = gm_register_cycle(decimal(field[MODE]), written, state_len, mask(field[HEARD0]), mask(field[HEARD1]), mask(field[REQUESTS]), first,
                                   GM_VOTES_BYTES, mask(field[ARRIVED]));
    leaves(WRITTEN, field[AFTER]);
    if (state_len == GM_REGISTERS_BYTES)
        buffers_due[WRITTEN][GUARD + GM_REGISTER_FLAGS] = written[GM_REGISTER_FLAGS];
    settle(status, GM_OK);
}

static void vote_and_decide(char **field)
{
    no_pause(field[PAUSE]);
    vote(field);
    decision(field, GM_STATE_BYTES);
    decision(field, GM_REGISTERS_BYTES);
}

/* n mode pause row record status row-after */
static void cycle_of_row(char **field)
{
    size_t row_len, record_len;
    uint32_t status;
    no_pause(field[2]);
    fill();
    row_len = lend(WRITTEN, field[3]);
    record_len = lend(FIRST, field[4]);
    memcpy(buffers_due, buffers, sizeof buffers);
    status = gm_cycle(decimal(field[0]), decimal(field[1]), written, row_len, first, record_len);
    must(strcmp(field[6], "=") == 0 || length(field[6], MOST_BYTES) == row_len, "the row after the call has another length");
    leaves(WRITTEN, field[6]);
    settle(status, decimal(field[5]));
}

/* read n mode node cycle channel frame status join request */
static void read_copy(char **field)
{
    size_t len;
    uint32_t status;
    fill();
    len = lend(FIRST, field[6]);
    memcpy(buffers_due, buffers, sizeof buffers);
    status = gm_read_heartbeat(decimal(field[1]), decimal(field[2]), decimal(field[3]), decimal(field[4]), decimal(field[5]), first, len, written,
                               GM_DRIVE_BYTES, &results[0], &results[1], &results[2]);
    gives(0, field[8]);
    gives(1, field[9]);
    gives(2, strcmp(field[8], "-") == 0 ? "-" : "0");
    settle(status, decimal(field[7]));
}

/* write n mode node join request sync startup cycle channel status frame */
static void write_frame(char **field)
{
    uint32_t status;
    fill();
    memcpy(buffers_due, buffers, sizeof buffers);
    status = gm_write_heartbeat(decimal(field[1]), decimal(field[2]), decimal(field[3]), decimal(field[4]), decimal(field[5]), decimal(field[6]),
                                decimal(field[7]), decimal(field[8]), decimal(field[9]), first, 0, written, GM_HEARTBEAT_BYTES);
    leaves(WRITTEN, field[11]);
    settle(status, decimal(field[10]));
}

/* receive n mode node cycle a b heard */
static void receive_copies(char **field)
{
    size_t a_len, b_len;
    uint32_t status;
    fill();
    a_len = lend(FIRST, field[5]);
    b_len = lend(SECOND, field[6]);
    memcpy(buffers_due, buffers, sizeof buffers);
    status = gm_receive_heartbeat(decimal(field[1]), decimal(field[2]), decimal(field[3]), decimal(field[4]), first, a_len, second, b_len, written,
                                  GM_DRIVE_BYTES, &results[0], &results[1]);
    gives(0, field[7]);
    gives(1, "0");
    settle(status, GM_OK);
}

static struct kind decisions[] = {{NULL, AFTER + 1, vote_and_decide, 0}};
static struct kind cycles[] = {{NULL, 7, cycle_of_row, 0}};
static struct kind heartbeats[] = {{"read", 10, read_copy, 0}, {"write", 12, write_frame, 0}, {"receive", 8, receive_copies, 0}};

int main(int argc, char **argv)
{
    if (argc != 4) {
        fprintf(stderr, "usage: %s DECIDE CYCLE HEARTBEAT\n", argv[0]);
        return 2;
    }
    read_file(path = argv[1], decisions, 1);
    read_file(path = argv[2], cycles, 1);
    read_file(path = argv[3], heartbeats, sizeof heartbeats / sizeof *heartbeats);
    printf("tests/quiet: %lu votes and decisions, %lu cycles of a row, heartbeats %lu read, %lu written and %lu received agree\n", decisions[0].lines,
           cycles[0].lines, heartbeats[0].lines, heartbeats[1].lines, heartbeats[2].lines);
    return 0;
}
