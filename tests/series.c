/*
 * The series of tests/vectors/t01 on the archive, step by step: the status, the value read and the whole block after each step, and that no byte beside what is
 * lent is written. They are of a press that votes in every cycle. The README beside the file says its form. Prints how many series and steps agree; the first
 * difference ends it, with the series and the line.
 * Usage: series FILE
 */
#include "lines.h"

enum { MOST_NAME = 64, GUARD = 64, MOST_BLOCK = 128, MOST_VOTES = 4096, FILL = 0xA5, NO_BYTE = 0x5A5A5A5A };

/* how far the series is that is being read */
enum stage { NONE, NAMED, LENT };

static enum stage stage;
static char name[MOST_NAME] = "none";
static unsigned long steps;

/* what is lent, between guard bytes, and what is to stand there after the step */
static uint8_t block[GUARD + MOST_BLOCK + GUARD], block_due[sizeof block];
static uint8_t votes[GUARD + MOST_VOTES + GUARD], votes_due[sizeof votes];
static uint32_t value[3] = {NO_BYTE, NO_BYTE, NO_BYTE}, value_due[3] = {NO_BYTE, NO_BYTE, NO_BYTE};
static size_t block_len;

static void must(int fact, const char *what)
{
    if (!fact) {
        fprintf(stderr, "tests/series: series %s, line %lu: %s\n", name, at, what);
        exit(1);
    }
}

/* ---- fields */

static uint8_t byte(const char *field)
{
    must(strlen(field) == 2, "this is no byte");
    return (uint8_t)hexadecimal(field, 1);
}

/* ---- what is lent */

/* the 1,792 bytes, cut or with zeros behind */
static size_t lend_votes(const char *arrived, const char *field, const char *len_field)
{
    size_t len = decimal(len_field);
    must(len <= MOST_VOTES, "the vote buffer is too long");
    memset(votes, FILL, sizeof votes);
    put_votes(votes + GUARD, mask(arrived), field);
    memset(votes + GUARD + GM_VOTES_BYTES, 0, MOST_VOTES - GM_VOTES_BYTES);
    memset(votes + GUARD + len, FILL, sizeof votes - GUARD - len);
    memcpy(votes_due, votes, sizeof votes);
    return len;
}

static void settle(uint32_t status, const char *status_due, const char *after)
{
    must(stage == LENT, "a step without a block");
    must(status == decimal(status_due), "another status");
    if (strcmp(after, "=") != 0) {
        must(length(after, MOST_BLOCK) == block_len, "the block after the step has another length");
        put_bytes(block_due + GUARD, after, block_len);
    }
    must(memcmp(value, value_due, sizeof value) == 0, "another value is read");
    must(memcmp(block + GUARD, block_due + GUARD, block_len) == 0, "the step leaves another block");
    must(memcmp(block, block_due, sizeof block) == 0, "a byte beside the block is written");
    must(memcmp(votes, votes_due, sizeof votes) == 0, "the votes are written");
    steps++;
}

/* ---- lines */

static void begin_series(char **field)
{
    must(stage != NAMED, "a series before it has no block");
    must(strlen(field[1]) < sizeof name, "the name is too long");
    strcpy(name, field[1]);
    stage = NAMED;
}

static void lend_block(char **field)
{
    must(stage == NAMED, "a block without a series");
    block_len = length(field[1], MOST_BLOCK);
    memset(block, FILL, sizeof block);
    put_bytes(block + GUARD, field[1], block_len);
    memcpy(block_due, block, sizeof block);
    stage = LENT;
}

static void read_register(char **field)
{
    uint32_t status;
    value[1] = NO_BYTE;
    status = gm_register_read(GM_MODE_ALWAYS, block + GUARD, block_len, decimal(field[1]), &value[1]);
    value_due[1] = strcmp(field[3], "-") == 0 ? NO_BYTE : byte(field[3]);
    settle(status, field[2], field[4]);
}

static void write_register(char **field)
{
    settle(gm_register_write(GM_MODE_ALWAYS, block + GUARD, block_len, decimal(field[1]), byte(field[2])), field[3], field[4]);
}

static void cycle(char **field)
{
    size_t len = lend_votes(field[3], field[4], field[5]);
    uint32_t status = gm_register_cycle(GM_MODE_ALWAYS, block + GUARD, block_len, mask(field[1]), mask(field[2]), 0, votes + GUARD, len, mask(field[3]));
    settle(status, field[6], field[7]);
}

static void write_and_cycle(char **field)
{
    size_t len = lend_votes(field[5], field[6], field[7]);
    uint32_t status = gm_register_write_cycle(GM_MODE_ALWAYS, block + GUARD, block_len, decimal(field[1]), byte(field[2]), mask(field[3]), mask(field[4]), 0,
                                              votes + GUARD, len, mask(field[5]));
    settle(status, field[8], field[9]);
}

static struct kind kinds[] = {{"series", 2, begin_series, 0}, {"block", 2, lend_block, 0}, {"read", 5, read_register, 0},
                              {"write", 5, write_register, 0}, {"cycle", 8, cycle, 0},     {"writecycle", 10, write_and_cycle, 0}};
enum { KINDS = sizeof kinds / sizeof *kinds };

int main(int argc, char **argv)
{
    read_lines(argc, argv, kinds, KINDS);
    must(stage == LENT, "the file ends without the block of a series");
    printf("tests/series: %lu series agree, %lu steps\n", kinds[0].lines, steps);
    return 0;
}
