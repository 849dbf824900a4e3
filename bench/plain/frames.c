/* Heartbeat and vote frames, written and read; both checks bit by bit. */
#include "plain.h"
#include "bits.h"

#include <string.h>

enum { HEADER_BYTES = 5, CHECK_BYTES = 3, AROUND_BYTES = HEADER_BYTES + CHECK_BYTES, DRIVE_AT = 7, VOTE_WORDS = 14, FIRST_VOTE = 65 };

/* one channel's copy of a frame */
struct copy {
    const uint8_t *bytes;
    size_t len;
};

/* `bits` bits of word, highest first, into a register of `width` bits, which is kept at the top of the number: the fastest of several plain forms */
static inline uint32_t check_bits(unsigned width, uint32_t polynomial, uint32_t r, uint32_t word, unsigned bits)
{
    unsigned spare = 32 - width;
    r = r << spare ^ word << (32 - bits);
    while (bits-- > 0)
        r = r << 1 ^ (polynomial << spare & -(r >> 31));
    return r >> spare;
}

/* over the 20 bits from sync to length */
static uint32_t header_check(uint32_t covered)
{
    return check_bits(11, 0x385, 0x1A, covered, 20);
}

static uint32_t frame_check(uint32_t channel, const uint8_t *s, size_t len)
{
    uint32_t r = channel == 0 ? 0xFEDCBA : 0xABCDEF;
    for (size_t i = 0; i < len; i++)
        r = check_bits(24, 0x5D6DCB, r, s[i], 8);
    return r;
}

/* puts header and check around the payload, which is in its place; the null frame bit is 1 */
static void close_frame(uint8_t *frame, uint32_t sync, uint32_t startup, uint32_t number, uint32_t words, uint32_t cycle, uint32_t channel)
{
    uint32_t covered = sync << 19 | startup << 18 | number << 7 | words;
    size_t len = HEADER_BYTES + 2 * (size_t)words;
    put_number(frame, HEADER_BYTES, (uint64_t)1 << 37 | (uint64_t)covered << 17 | (uint64_t)header_check(covered) << 6 | cycle);
    put_number(frame + len, CHECK_BYTES, frame_check(channel, frame, len));
}

/* refusals 5 to 8; *h is the header's 40 bits */
static uint32_t look(uint32_t channel, const uint8_t *frame, size_t len, uint64_t *h)
{
    if (len < AROUND_BYTES)
        return 5;
    *h = (uint64_t)frame[0] << 32 | word_at(frame + 1);
    if (len != AROUND_BYTES + 2 * (*h >> 17 & 127))
        return 5;
    if ((*h >> 6 & 2047) != header_check((uint32_t)(*h >> 17 & 0xFFFFF)))
        return 6;
    if ((word_at(frame + len - 4) & 0xFFFFFF) != frame_check(channel, frame, len - CHECK_BYTES))
        return 7;
    return (*h >> 37 & 1) == 0 ? 8 : 0;
}

/* whether all of the header but sync, startup, length and its check is as due */
static int due(uint64_t h, uint32_t number, uint32_t cycle)
{
    return h >> 38 == 0 && (h >> 24 & 2047) == number && (h & 63) == cycle;
}

/* the two highest bits of a heartbeat's first byte: a request stands alone, and in a quiet press */
enum { REQUEST = 1, JOIN = 2 };
static int right_signs(uint32_t mode, uint32_t signs)
{
    return signs <= JOIN && (signs != REQUEST || mode == QUIET);
}

/* the drive bytes are then those after the payload's first word, which holds the signs */
static uint32_t open_heartbeat(uint32_t mode, uint32_t node, uint32_t cycle, uint32_t channel, const uint8_t *frame, size_t len)
{
    uint64_t h;
    uint32_t refused = look(channel, frame, len, &h);
    if (refused != 0)
        return refused;
    if (!due(h, node + 1, cycle) || len == AROUND_BYTES || (h >> 35 & 3) == 1)
        return 9;
    return (frame[HEADER_BYTES] & 63) != 0 || frame[HEADER_BYTES + 1] != 0 || !right_signs(mode, frame[HEADER_BYTES] >> 6) ? 10 : 0;
}

int sound_vote(unsigned n, unsigned q, uint64_t set, uint64_t base, uint64_t view)
{
    return in(set, q) && in(view, q) && (set & ~base) == 0 && ((base | view) & ~all_of(n)) == 0;
}

/* the payload is then the 28 bytes after the header */
static uint32_t open_vote(uint32_t n, uint32_t node, uint32_t cycle, uint32_t channel, const uint8_t *frame, size_t len)
{
    uint64_t h;
    uint32_t refused = look(channel, frame, len, &h);
    if (refused != 0)
        return refused;
    if (!due(h, node + FIRST_VOTE, cycle) || len != VOTE_FRAME_BYTES || (h >> 35 & 3) != 0)
        return 9;
    return sound_vote(n, node, mask_at(frame + 9), mask_at(frame + 17), mask_at(frame + 25)) ? 0 : 10;
}

static uint32_t refused_numbers(uint32_t n, uint32_t node, uint32_t cycle, uint32_t channel)
{
    if (n < 2 || n > NODES)
        return 1;
    return node >= n || cycle > 63 || channel > 1 ? 2 : 0;
}

int right_lengths(size_t drive_len, size_t frame_len)
{
    return drive_len % 2 == 0 && drive_len <= DRIVE_BYTES && frame_len == HEARTBEAT_BYTES + drive_len;
}

uint32_t plain_write_heartbeat(uint32_t n, uint32_t mode, uint32_t node, uint32_t join, uint32_t request, uint32_t sync, uint32_t startup,
                               uint32_t cycle, uint32_t channel, const uint8_t *drive, size_t drive_len, uint8_t *frame, size_t frame_len)
{
    uint32_t refused = refused_numbers(n, node, cycle, channel);
    if (refused != 0)
        return refused;
    if (mode > QUIET || join > 1 || request > 1 || sync > 1 || startup > sync)
        return 2;
    if (!right_lengths(drive_len, frame_len))
        return 3;
    if (!right_signs(mode, join << 1 | request))
        return 10;
    put_number(frame + HEADER_BYTES, 2, join << 15 | request << 14);
    memcpy(frame + DRIVE_AT, drive, drive_len);
    close_frame(frame, sync, startup, node + 1, 1 + (uint32_t)drive_len / 2, cycle, channel);
    return 0;
}

uint32_t plain_write_vote(uint32_t n, uint32_t node, uint32_t number, uint64_t set, uint64_t base, uint64_t view, uint32_t cycle, uint32_t channel,
                          uint8_t *frame, size_t frame_len)
{
    uint32_t refused = refused_numbers(n, node, cycle, channel);
    if (refused != 0)
        return refused;
    if (frame_len != VOTE_FRAME_BYTES)
        return 3;
    if (!sound_vote(n, node, set, base, view))
        return 10;
    put_number(frame + 5, 4, number);
    put_number(frame + 9, 8, set);
    put_number(frame + 17, 8, base);
    put_number(frame + 25, 8, view);
    close_frame(frame, 0, 0, node + FIRST_VOTE, VOTE_WORDS, cycle, channel);
    return 0;
}

/* of a good heartbeat; how many they are */
static uint32_t give_drive(uint8_t *drive, const uint8_t *frame, size_t frame_len)
{
    memcpy(drive, frame + DRIVE_AT, frame_len - HEARTBEAT_BYTES);
    return (uint32_t)(frame_len - HEARTBEAT_BYTES);
}

/* 1 to 3 of a heartbeat that is read or received */
static uint32_t refused_reading(uint32_t n, uint32_t mode, uint32_t node, uint32_t cycle, uint32_t channel, size_t drive_len)
{
    uint32_t refused = refused_numbers(n, node, cycle, channel);
    if (refused != 0)
        return refused;
    if (mode > QUIET)
        return 2;
    return drive_len != DRIVE_BYTES ? 3 : 0;
}

uint32_t plain_read_heartbeat(uint32_t n, uint32_t mode, uint32_t node, uint32_t cycle, uint32_t channel, const uint8_t *frame, size_t frame_len,
                              uint8_t *drive, size_t drive_len, uint32_t *join, uint32_t *request, uint32_t *drive_bytes)
{
    uint32_t refused = refused_reading(n, mode, node, cycle, channel, drive_len);
    if (refused != 0)
        return refused;
    refused = open_heartbeat(mode, node, cycle, channel, frame, frame_len);
    if (refused != 0)
        return refused;
    *join = frame[HEADER_BYTES] >> 7;
    *request = frame[HEADER_BYTES] >> 6 & 1;
    *drive_bytes = give_drive(drive, frame, frame_len);
    return 0;
}

uint32_t plain_read_vote(uint32_t n, uint32_t node, uint32_t cycle, uint32_t channel, const uint8_t *frame, size_t frame_len, uint8_t *vote,
                         size_t vote_len)
{
    uint32_t refused = refused_numbers(n, node, cycle, channel);
    if (refused != 0)
        return refused;
    if (vote_len != VOTE_BYTES)
        return 3;
    refused = open_vote(n, node, cycle, channel, frame, frame_len);
    if (refused == 0)
        memcpy(vote, frame + HEADER_BYTES, VOTE_BYTES);
    return refused;
}

/* One good copy counts; two count if their payloads are equal. A copy that is not good has length 0, and so has the answer if none counts. */
static struct copy counting(struct copy a, struct copy b)
{
    static const struct copy none = {NULL, 0};
    if (a.len != 0 && b.len != 0 && (a.len != b.len || memcmp(a.bytes + HEADER_BYTES, b.bytes + HEADER_BYTES, a.len - AROUND_BYTES) != 0))
        return none;
    return a.len != 0 ? a : b;
}

/* what is heard, by the signs: a member, a member that requests, a joining node */
static const uint8_t heard_by_signs[] = {1, 3, 2};

uint32_t plain_receive_heartbeat(uint32_t n, uint32_t mode, uint32_t node, uint32_t cycle, const uint8_t *a, size_t a_len, const uint8_t *b,
                                 size_t b_len, uint8_t *drive, size_t drive_len, uint32_t *heard, uint32_t *drive_bytes)
{
    uint32_t refused = refused_reading(n, mode, node, cycle, 0, drive_len);
    struct copy on_a = {a, a_len}, on_b = {b, b_len}, counts;
    if (refused != 0)
        return refused;
    on_a.len = open_heartbeat(mode, node, cycle, 0, a, a_len) == 0 ? a_len : 0;
    on_b.len = open_heartbeat(mode, node, cycle, 1, b, b_len) == 0 ? b_len : 0;
    counts = counting(on_a, on_b);
    *heard = counts.len == 0 ? 0 : heard_by_signs[counts.bytes[HEADER_BYTES] >> 6];
    *drive_bytes = counts.len == 0 ? 0 : give_drive(drive, counts.bytes, counts.len);
    return 0;
}

uint32_t plain_receive_vote(uint32_t n, uint32_t node, uint32_t cycle, const uint8_t *a, size_t a_len, const uint8_t *b, size_t b_len, uint8_t *votes,
                            size_t votes_len, uint64_t *arrived)
{
    uint32_t refused = refused_numbers(n, node, cycle, 0);
    struct copy on_a = {a, a_len}, on_b = {b, b_len}, counts;
    if (refused != 0)
        return refused;
    if (votes_len != VOTES_BYTES)
        return 3;
    on_a.len = open_vote(n, node, cycle, 0, a, a_len) == 0 ? a_len : 0;
    on_b.len = open_vote(n, node, cycle, 1, b, b_len) == 0 ? b_len : 0;
    counts = counting(on_a, on_b);
    *arrived &= ~only(node);
    if (counts.len == 0)
        return 0;
    memcpy(votes + VOTE_BYTES * (size_t)node, counts.bytes + HEADER_BYTES, VOTE_BYTES);
    *arrived |= only(node);
    return 0;
}
