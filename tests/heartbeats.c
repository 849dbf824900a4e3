/*
 * The calls of tests/vectors/t02 on the archive, for a press that votes in every cycle: the status, the results and every byte of the frame or of the buffer
 * for drive bytes after each call, and that no byte beside these, or of what is only read, is written. The README beside the file says its form. Prints how
 * many lines of each kind and how many calls agree; the first difference ends it, with the line.
 * Usage: heartbeats FILE
 */
#include "lines.h"

enum { GUARD = 64, MOST_BYTES = 1024, FILL = 0xA5, NO_NUMBER = 0x5A5A5A5A, JOIN_AT = 5, DRIVE_AT = 7 };

/* two buffers that a call reads and one that it writes, each between guard bytes; three results, with numbers around them; what is to stand there afterwards */
enum { FIRST, SECOND, WRITTEN, BUFFERS };
enum { ANSWER = 1, NUMBER = 3, REQUEST = 5, NUMBERS = 7 };
static uint8_t buffers[BUFFERS][GUARD + MOST_BYTES + GUARD], buffers_due[BUFFERS][sizeof *buffers];
static uint32_t numbers[NUMBERS], numbers_due[NUMBERS];

static uint8_t *const first = buffers[FIRST] + GUARD, *const second = buffers[SECOND] + GUARD, *const written = buffers[WRITTEN] + GUARD;
static size_t first_len, second_len, written_len;
static unsigned long calls;

static void must(int fact, const char *what)
{
    if (!fact) {
        fprintf(stderr, "tests/heartbeats: line %lu: %s\n", at, what);
        exit(1);
    }
}

/* ---- what is lent */

/* the bytes of two fields, and a buffer to be written that holds the bytes with which every stored call finds it */
static void lend(const char *first_field, const char *second_field, size_t len)
{
    must(len <= MOST_BYTES, "the buffer is too long");
    memset(buffers, FILL, sizeof buffers);
    first_len = length(first_field, MOST_BYTES);
    second_len = length(second_field, MOST_BYTES);
    written_len = len;
    put_bytes(first, first_field, first_len);
    put_bytes(second, second_field, second_len);
    for (size_t i = 0; i < len; i++)
        written[i] = (uint8_t)((7 * (i % GM_DRIVE_BYTES) + 13) % 251 + 1);
    memcpy(buffers_due, buffers, sizeof buffers);
    for (size_t k = 0; k < NUMBERS; k++)
        numbers[k] = numbers_due[k] = NO_NUMBER;
}

/* a result, `-` where it stays as it came in */
static void gives(unsigned which, const char *field)
{
    if (strcmp(field, "-") != 0)
        numbers_due[which] = decimal(field);
}

/* the written buffer, `-` or `=` where it stays as it came in */
static void leaves(const char *field)
{
    if (strcmp(field, "-") == 0 || strcmp(field, "=") == 0)
        return;
    must(length(field, MOST_BYTES) == written_len, "the buffer after the call has another length");
    put_bytes(buffers_due[WRITTEN] + GUARD, field, written_len);
}

static void settle(uint32_t status, uint32_t status_due)
{
    must(status == status_due, "another status");
    must(memcmp(numbers, numbers_due, sizeof numbers) == 0, "another result");
    must(memcmp(written, buffers_due[WRITTEN] + GUARD, written_len) == 0, "the call leaves another buffer");
    must(memcmp(buffers, buffers_due, sizeof buffers) == 0, "a byte beside the buffer is written");
    calls++;
}

/* ---- lines */

static void write_from_numbers(char **field)
{
    uint32_t status;
    lend(field[8], "-", decimal(field[9]));
    status = gm_write_heartbeat(decimal(field[1]), GM_MODE_ALWAYS, decimal(field[2]), decimal(field[3]), 0, decimal(field[4]), decimal(field[5]),
                                decimal(field[6]), decimal(field[7]), first, first_len, written, written_len);
    leaves(field[11]);
    settle(status, decimal(field[10]));
}

static void send_from_state(char **field)
{
    uint32_t status;
    lend(field[1], field[6], decimal(field[7]));
    status = gm_send_heartbeat(GM_MODE_ALWAYS, first, first_len, decimal(field[2]), decimal(field[3]), decimal(field[4]), decimal(field[5]), second,
                               second_len, written,
                               written_len, &numbers[ANSWER]);
    gives(ANSWER, field[9]);
    leaves(field[10]);
    settle(status, decimal(field[8]));
}

/* the four numbers and the frame stand at the same places in three kinds of line; of a frame that was lent longer, the front */
static uint32_t read_front(char **field, size_t frame_len)
{
    return gm_read_heartbeat(decimal(field[1]), GM_MODE_ALWAYS, decimal(field[2]), decimal(field[3]), decimal(field[4]), first, frame_len, written, written_len,
                             &numbers[ANSWER], &numbers[REQUEST], &numbers[NUMBER]);
}

/* no heartbeat of such a press requests */
static void settle_read(uint32_t status, uint32_t status_due)
{
    if (status_due == 0)
        numbers_due[REQUEST] = 0;
    settle(status, status_due);
}

static void read_copy(char **field)
{
    uint32_t status;
    lend(field[5], "-", decimal(field[6]));
    status = read_front(field, first_len);
    gives(ANSWER, field[8]);
    gives(NUMBER, field[9]);
    leaves(field[10]);
    settle_read(status, decimal(field[7]));
}

static void receive_copies(char **field)
{
    uint32_t status;
    lend(field[4], field[5], decimal(field[6]));
    status = gm_receive_heartbeat(decimal(field[1]), GM_MODE_ALWAYS, decimal(field[2]), decimal(field[3]), first, first_len, second, second_len, written,
                                  written_len,
                                  &numbers[ANSWER], &numbers[NUMBER]);
    gives(ANSWER, field[8]);
    gives(NUMBER, field[9]);
    leaves(field[10]);
    settle(status, decimal(field[7]));
}

/* a copy that was lent, of which only the status is stored: accepted, it gives what it holds */
static void read_by_status(char **field, size_t frame_len, char status_due)
{
    uint32_t status = read_front(field, frame_len);
    must(status_due >= '0' && status_due <= '9', "this is no status");
    if (status_due == '0') {
        must(frame_len >= GM_HEARTBEAT_BYTES && frame_len <= GM_HEARTBEAT_MOST_BYTES, "no heartbeat has this length");
        numbers_due[ANSWER] = first[JOIN_AT] >> 7;
        numbers_due[NUMBER] = (uint32_t)(frame_len - GM_HEARTBEAT_BYTES);
        memcpy(buffers_due[WRITTEN] + GUARD, first + DRIVE_AT, numbers_due[NUMBER]);
    }
    settle_read(status, (uint32_t)(status_due - '0'));
}

static void read_every_length(char **field)
{
    size_t bytes = length(field[5], MOST_BYTES);
    must(strlen(field[6]) == bytes + 1, "not one status for each length");
    for (size_t k = 0; k <= bytes; k++) {
        lend(field[5], "-", GM_DRIVE_BYTES);
        read_by_status(field, k, field[6][k]);
    }
}

static void read_every_flip(char **field)
{
    lend(field[5], "-", GM_DRIVE_BYTES);
    read_by_status(field, first_len, '0');
    must(strlen(field[6]) == 8 * first_len, "not one status for each bit");
    for (size_t k = 0; k < 8 * first_len; k++) {
        lend(field[5], "-", GM_DRIVE_BYTES);
        first[k / 8] ^= (uint8_t)(0x80 >> k % 8);
        buffers_due[FIRST][GUARD + k / 8] = first[k / 8];
        read_by_status(field, first_len, field[6][k]);
    }
}

static struct kind kinds[] = {{"write", 12, write_from_numbers, 0}, {"send", 11, send_from_state, 0},     {"read", 11, read_copy, 0},
                              {"receive", 11, receive_copies, 0},   {"lengths", 7, read_every_length, 0}, {"flips", 7, read_every_flip, 0}};
enum { KINDS = sizeof kinds / sizeof *kinds };

int main(int argc, char **argv)
{
    read_lines(argc, argv, kinds, KINDS);
    printf("tests/heartbeats:");
    for (unsigned k = 0; k < KINDS; k++)
        printf(" %lu %s,", kinds[k].lines, kinds[k].word);
    printf(" %lu calls agree\n", calls);
    return 0;
}
