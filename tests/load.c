/*
 * The entries of gm.h on buffers of exactly the lengths that they are told, lent from the heap, or with `pages` beside memory that cannot be touched.
 *   load calls heap|pages SEED COUNT TABLE..     COUNT calls of each entry with pseudo-random numbers and bytes, right and wrong
 *   load press heap|pages TABLE..                a thread for each table runs its cycles through all entries; then one thread does it all again
 *   load fault heap|pages write|read|unset|host  one wrong call, for whoever watches the memory to find
 * A buffer that an entry writes is lent as the allocator gives it, or filled, to see that a refusal leaves it. With MEMCHECK defined, valgrind is asked
 * after each accepted call whether all that the entry wrote is defined.
 */
#include "gm.h"

#include <pthread.h>
#include <stdio.h>
#include <stdlib.h>
#include <string.h>
#include <sys/mman.h>

#ifdef MEMCHECK
#include <valgrind/memcheck.h>
#endif

enum { NODES = 64, CHANNELS = 2, COUNTS = 64, PAGE = 4096, MOST_TABLES = 64 };
enum { FIRST_BYTES = 12, CYCLE_BYTES = 36, ENTRY_BYTES = 9, ENTRIES_AT = 35, LONGEST_FRAME = 300, HEADER_BYTES = 5, DRIVE_AT = 7, NULL_FRAME = 0x20 };
enum { HEARTBEAT, VOTE, PHASES };
enum { BEGIN, STOP, START, STATE, WRITE_HEARTBEAT, SEND_HEARTBEAT, READ_HEARTBEAT, RECEIVE_HEARTBEAT, VIEW };
enum { WRITE_VOTE = VIEW + 1, SEND_VOTE, READ_VOTE, RECEIVE_VOTE, DECIDE, REGISTER_READ, REGISTER_WRITE, REGISTER_CYCLE, REGISTER_WRITE_CYCLE };
enum { CYCLE = REGISTER_WRITE_CYCLE + 1, RUN, RUN_FRAMES, ENTRIES };

/* `before` is what the host wrote into it, or NULL */
struct lent {
    uint8_t *bytes, *before, *base;
    size_t len, mapped;
};

struct table {
    uint8_t *bytes;
    size_t len;
};

/* what one thread keeps: no other touches it */
struct work {
    uint64_t seed;
    unsigned entry;
    uint32_t given[ENTRIES];
    const struct table *tables;
    unsigned table_count;
    uint8_t *log;
    size_t logged, log_room;
};

struct faults {
    uint64_t stop, start, lost[PHASES], missed[PHASES][NODES];
};

/* its state alone, and the same state in a register block */
struct unit {
    struct lent state, block, votes;
    uint64_t heard0, heard1, requests, arrived;
};

/* what stands on the bus in one slot, a copy per channel */
struct slot {
    struct lent copy[CHANNELS];
    int sent;
};

/* `shown` is what an analyser shows of the last cycle: a part for each phase and channel, a slot for each unit */
struct press {
    struct work *work;
    struct unit units[NODES];
    struct slot bus[NODES];
    struct lent nothing;
    uint8_t shown[PHASES][CHANNELS][NODES][GM_VOTE_FRAME_BYTES];
    uint32_t n, mode;
};

/* which frame is due, and what a heartbeat carries */
struct due {
    uint32_t n, node, cycle, channel;
    uint8_t drive[GM_DRIVE_BYTES];
    size_t drive_len;
};

/* the entries, and the refusals that the header names for each */
#define BIT(refusal) ((uint32_t)1 << (refusal))
#define NUMBERS (BIT(GM_REFUSED_COUNT) | BIT(GM_REFUSED_NUMBER))
#define STATES (BIT(GM_REFUSED_NUMBER) | BIT(GM_REFUSED_LENGTH) | BIT(GM_REFUSED_STATE))
#define FRAMES \
    (BIT(GM_REFUSED_FRAME_LENGTH) | BIT(GM_REFUSED_HEADER_CHECK) | BIT(GM_REFUSED_FRAME_CHECK) | BIT(GM_REFUSED_NULL_FRAME) | BIT(GM_REFUSED_NOT_DUE) \
     | BIT(GM_REFUSED_CONTENT))
#define RECORDS (NUMBERS | BIT(GM_REFUSED_LENGTH) | BIT(GM_REFUSED_CUT) | BIT(GM_REFUSED_KIND) | BIT(GM_REFUSED_LIMIT))
static const struct {
    const char *name;
    uint32_t refusals;
} entries[ENTRIES] = {
    {"gm_begin", NUMBERS | BIT(GM_REFUSED_LENGTH) | BIT(GM_REFUSED_LIMIT)},
    {"gm_stop", STATES},
    {"gm_start", STATES},
    {"gm_state", STATES},
    {"gm_write_heartbeat", NUMBERS | BIT(GM_REFUSED_LENGTH) | BIT(GM_REFUSED_CONTENT)},
    {"gm_send_heartbeat", STATES},
    {"gm_read_heartbeat", NUMBERS | BIT(GM_REFUSED_LENGTH) | FRAMES},
    {"gm_receive_heartbeat", NUMBERS | BIT(GM_REFUSED_LENGTH)},
    {"gm_view", STATES},
    {"gm_write_vote", NUMBERS | BIT(GM_REFUSED_LENGTH) | BIT(GM_REFUSED_CONTENT)},
    {"gm_send_vote", STATES},
    {"gm_read_vote", NUMBERS | BIT(GM_REFUSED_LENGTH) | FRAMES},
    {"gm_receive_vote", NUMBERS | BIT(GM_REFUSED_LENGTH)},
    {"gm_decide", STATES},
    {"gm_register_read", STATES | BIT(GM_REFUSED_ADDRESS)},
    {"gm_register_write", STATES | BIT(GM_REFUSED_ADDRESS)},
    {"gm_register_cycle", STATES},
    {"gm_register_write_cycle", STATES | BIT(GM_REFUSED_ADDRESS)},
    {"gm_cycle", RECORDS | BIT(GM_REFUSED_STATE)},
    {"gm_run", RECORDS},
    {"gm_run_frames", RECORDS},
};

static int guarded;
static struct table tables[MOST_TABLES];

static void fail(const struct work *w, const char *what)
{
    fprintf(stderr, "load: %s %s\n", entries[w->entry].name, what);
    exit(1);
}

/* ---- numbers */

/* splitmix64 */
static uint64_t any(struct work *w)
{
    uint64_t x = w->seed += 0x9e3779b97f4a7c15;
    x = (x ^ x >> 30) * 0xbf58476d1ce4e5b9;
    x = (x ^ x >> 27) * 0x94d049bb133111eb;
    return x ^ x >> 31;
}

static uint32_t below(struct work *w, size_t limit)
{
    return (uint32_t)(any(w) % limit);
}

static int one_in(struct work *w, unsigned k)
{
    return below(w, k) == 0;
}

static uint64_t only(uint32_t q)
{
    return (uint64_t)1 << q % NODES;
}

static uint64_t all_below(uint32_t n)
{
    return n >= NODES ? ~(uint64_t)0 : only(n) - 1;
}

/* mostly below the limit, at times any number */
static uint32_t number_near(struct work *w, uint32_t limit)
{
    return limit == 0 || one_in(w, 12) ? (uint32_t)(any(w) >> below(w, NODES)) : below(w, limit);
}

static uint32_t count_near(struct work *w)
{
    return one_in(w, 12) ? number_near(w, 0) : 2 + below(w, NODES - 1);
}

static uint32_t mode_near(struct work *w)
{
    return number_near(w, GM_MODE_QUIET + 1);
}

static uint64_t set_near(struct work *w, uint32_t n)
{
    return one_in(w, 12) ? any(w) >> below(w, NODES) : any(w) & all_below(n);
}

/* mostly the right length, at times a little or much away from it */
static size_t length_near(struct work *w, size_t right)
{
    switch (below(w, 16)) {
    case 0: return right - 1;
    case 1: return right + 1;
    case 2: return below(w, 3 * right);
    default: return right;
    }
}

/* ---- buffers */

/* room for len bytes and not one more; between guard pages, its end or its beginning stands where no memory can be touched */
static struct lent room_for(struct work *w, size_t len)
{
    struct lent l = {NULL, NULL, NULL, len, 0};
    size_t inner = (len + PAGE - 1) / PAGE * PAGE;
    if (!guarded) {
        l.bytes = malloc(len);
    } else {
        l.mapped = inner + 2 * PAGE;
        l.base = mmap(NULL, l.mapped, PROT_NONE, MAP_PRIVATE | MAP_ANONYMOUS, -1, 0);
        if (l.base != MAP_FAILED && (inner == 0 || mprotect(l.base + PAGE, inner, PROT_READ | PROT_WRITE) == 0))
            l.bytes = l.base + PAGE + (one_in(w, 2) ? inner - len : 0);
    }
    if (l.bytes == NULL)
        fail(w, "could not be lent memory");
    return l;
}

static void give_back(struct lent *l)
{
    free(l->before);
    if (guarded)
        munmap(l->base, l->mapped);
    else
        free(l->bytes);
}

/* remembers what the host wrote, to see later that it stands */
static struct lent kept(struct work *w, struct lent l)
{
    l.before = malloc(l.len + 1);
    if (l.before == NULL)
        fail(w, "could not be watched");
    memcpy(l.before, l.bytes, l.len);
    return l;
}

static struct lent filled(struct work *w, size_t len)
{
    struct lent l = room_for(w, len);
    for (size_t i = 0; i < len; i++)
        l.bytes[i] = (uint8_t)any(w);
    return kept(w, l);
}

/* a buffer for an entry to write into: as it was allocated, or filled */
static struct lent output(struct work *w, size_t len)
{
    return one_in(w, 2) ? room_for(w, len) : filled(w, len);
}

static struct lent copy_of(struct work *w, const uint8_t *bytes, size_t len)
{
    struct lent l = room_for(w, len);
    memcpy(l.bytes, bytes, len);
    return l;
}

static void must_be_defined(const struct work *w, const uint8_t *bytes, size_t len)
{
#ifdef MEMCHECK
    if (VALGRIND_CHECK_MEM_IS_DEFINED(bytes, len) != 0)
        fail(w, "left bytes undefined");
#else
    (void)w, (void)bytes, (void)len;
#endif
}

/* after a call: what was not written is as the host left it, and what was written is defined */
static void settle(struct work *w, struct lent *l, int written)
{
    if (written)
        must_be_defined(w, l->bytes, l->len);
    else if (l->before != NULL && memcmp(l->before, l->bytes, l->len) != 0)
        fail(w, "wrote where it must not");
    give_back(l);
}

/* after a call that writes these bytes of a buffer and no other */
static void settle_part(struct work *w, struct lent *l, size_t from, size_t bytes)
{
    must_be_defined(w, l->bytes + from, bytes);
    if (l->before != NULL)
        memcpy(l->before + from, l->bytes + from, bytes);
    settle(w, l, 0);
}

/* one answer of an entry; whether it was accepted */
static int answered(struct work *w, unsigned entry, uint32_t status)
{
    w->entry = entry;
    if (status != 0 && (status > GM_REFUSED_ADDRESS || (entries[entry].refusals & BIT(status)) == 0))
        fail(w, "gave a refusal that the header does not name");
    w->given[entry] |= BIT(status);
    return status == 0;
}

static uint32_t *number_in(const struct lent *l)
{
    return (uint32_t *)(void *)l->bytes;
}

static uint64_t *mask_in(const struct lent *l)
{
    return (uint64_t *)(void *)l->bytes;
}

/* ---- states and frames, right and wrong */

static void put(uint8_t *to, uint64_t x, unsigned bytes)
{
    for (; bytes > 0; bytes--, x >>= 8)
        to[bytes - 1] = (uint8_t)x;
}

static uint64_t mask_at(const uint8_t *s)
{
    uint64_t x = 0;
    for (unsigned i = 0; i < 8; i++)
        x = x << 8 | s[i];
    return x;
}

/* the image of a well-formed node; n is 2 to 64 */
static void put_image(struct work *w, uint8_t *image, uint32_t n, uint32_t node)
{
    uint64_t set = (any(w) & all_below(n)) | only(node);
    memset(image, 0, GM_STATE_BYTES);
    image[0] = (uint8_t)(below(w, 4) % 3);
    image[2] = (uint8_t)node;
    image[3] = (uint8_t)n;
    if (image[0] == 0)
        image[1] = (uint8_t)below(w, 3);
    if (image[0] != 2)
        return;
    /* a member that requests, which only a quiet press has */
    image[1] = one_in(w, 16);
    put(image + 4, any(w), 4);
    put(image + 8, set, 8);
    put(image + 16, set | (any(w) & all_below(n)), 8);
}

static struct lent state_near(struct work *w)
{
    uint8_t image[3 * GM_STATE_BYTES] = {0};
    uint32_t n = 2 + below(w, NODES - 1);
    put_image(w, image, n, below(w, n));
    if (one_in(w, 8))
        image[below(w, GM_STATE_BYTES)] = (uint8_t)any(w);
    return kept(w, copy_of(w, image, length_near(w, GM_STATE_BYTES)));
}

/* a block with any flags and enables; at times one of its bytes is another */
static struct lent block_near(struct work *w)
{
    uint8_t block[3 * GM_REGISTERS_BYTES] = {0};
    uint32_t n = 2 + below(w, NODES - 1);
    put_image(w, block, n, below(w, n));
    block[GM_REGISTER_FLAGS] = (uint8_t)below(w, 8);
    block[GM_REGISTER_ENABLES] = (uint8_t)below(w, 8);
    block[GM_REGISTER_PENDING] = (block[GM_REGISTER_FLAGS] & block[GM_REGISTER_ENABLES]) != 0;
    if (one_in(w, 8))
        block[below(w, GM_REGISTERS_BYTES)] = (uint8_t)any(w);
    return kept(w, copy_of(w, block, length_near(w, GM_REGISTERS_BYTES)));
}

/* mostly a register in which a write does something */
static uint32_t address_near(struct work *w)
{
    return one_in(w, 2) ? GM_REGISTER_FLAGS + below(w, 4) : number_near(w, GM_REGISTERS_BYTES);
}

/* the check over the bits from `from` to before `to`, highest first */
static uint32_t check(const uint8_t *bytes, size_t from, size_t to, unsigned width, uint32_t polynomial, uint32_t value)
{
    for (size_t i = from; i < to; i++) {
        uint32_t bit = bytes[i / 8] >> (7 - i % 8) & 1, top = value >> (width - 1) & 1;
        value = value << 1 ^ (bit != top ? polynomial : 0);
    }
    return value & (((uint32_t)1 << width) - 1);
}

/* gives damaged bytes the right checks, so that they are refused for what they hold */
static void seal(uint8_t *frame, size_t len, uint32_t channel)
{
    uint32_t header = check(frame, 3, 23, 11, 0x385, 0x1A);
    frame[2] = (uint8_t)((frame[2] & 0xFE) | header >> 10);
    frame[3] = (uint8_t)(header >> 2);
    frame[4] = (uint8_t)((frame[4] & 0x3F) | (header & 3) << 6);
    put(frame + len - 3, check(frame, 0, 8 * (len - 3), 24, 0x5D6DCB, channel == 0 ? 0xFEDCBA : 0xABCDEF), 3);
}

/* what a heartbeat says */
enum { NEITHER, JOIN, REQUEST, SIGNS };

static struct lent frame_near(struct work *w, unsigned phase, const struct due *d)
{
    uint8_t frame[LONGEST_FRAME] = {0};
    size_t len = phase == VOTE ? GM_VOTE_FRAME_BYTES : GM_HEARTBEAT_BYTES + d->drive_len;
    uint64_t set = (any(w) & all_below(d->n)) | only(d->node), more = any(w) & all_below(d->n);
    uint32_t sync = below(w, 2), damage = below(w, 8), sign = below(w, SIGNS);
    if (phase == VOTE)
        gm_write_vote(d->n, d->node, (uint32_t)any(w), set, set | more, more | only(d->node), d->cycle, d->channel, frame, len);
    else
        gm_write_heartbeat(d->n, GM_MODE_QUIET, d->node, sign == JOIN, sign == REQUEST, sync, sync & below(w, 2), d->cycle, d->channel, d->drive, d->drive_len,
                           frame, len);
    if (damage == 0)
        frame[0] ^= NULL_FRAME;
    else if (damage < 4)
        frame[one_in(w, 2) ? below(w, HEADER_BYTES) : HEADER_BYTES + below(w, len - 8)] ^= (uint8_t)only(below(w, 8));
    if (damage < 3)
        seal(frame, len, d->channel);
    return kept(w, copy_of(w, frame, one_in(w, 12) ? below(w, LONGEST_FRAME) : len));
}

/* an even number, for half of the heartbeats 0 */
static void carry(struct work *w, struct due *d)
{
    d->drive_len = one_in(w, 2) ? 0 : 2 * (size_t)below(w, GM_DRIVE_BYTES / 2 + 1);
    for (size_t i = 0; i < d->drive_len; i++)
        d->drive[i] = (uint8_t)any(w);
}

static struct due due_near(struct work *w)
{
    struct due d;
    d.n = count_near(w);
    d.node = number_near(w, d.n);
    d.cycle = number_near(w, COUNTS);
    d.channel = number_near(w, CHANNELS);
    carry(w, &d);
    return d;
}

/* at times another frame is due than the one that came */
static void stray(struct work *w, struct due *d)
{
    struct due other = due_near(w);
    switch (below(w, 12)) {
    case 0: d->n = other.n; break;
    case 1: d->node = other.node; break;
    case 2: d->cycle = other.cycle; break;
    case 3: d->channel = other.channel; break;
    default: break;
    }
}

/* ---- one call of each entry */

static void call_begin(struct work *w)
{
    uint32_t n = count_near(w), node = number_near(w, n);
    uint64_t founding = set_near(w, n);
    struct lent state = output(w, length_near(w, GM_STATE_BYTES));
    int accepted = answered(w, BEGIN, gm_begin(n, node, founding, state.bytes, state.len));
    settle(w, &state, accepted);
}

static void call_stop(struct work *w)
{
    struct lent state = state_near(w);
    int accepted = answered(w, STOP, gm_stop(mode_near(w), state.bytes, state.len));
    settle(w, &state, accepted);
}

static void call_start(struct work *w)
{
    struct lent state = state_near(w);
    int accepted = answered(w, START, gm_start(mode_near(w), state.bytes, state.len));
    settle(w, &state, accepted);
}

/* room for the numbers of a state: five numbers and two masks, each in a buffer of its own */
enum { PARTS = 7, MASKS_FROM = 5 };
static void output_parts(struct work *w, struct lent *parts)
{
    for (unsigned k = 0; k < PARTS; k++)
        parts[k] = output(w, k < MASKS_FROM ? sizeof(uint32_t) : sizeof(uint64_t));
}

static void call_state(struct work *w)
{
    struct lent state = state_near(w), p[PARTS];
    int accepted;
    output_parts(w, p);
    accepted = answered(w, STATE, gm_state(mode_near(w), state.bytes, state.len, number_in(p), number_in(p + 1), number_in(p + 2), number_in(p + 3),
                                           number_in(p + 4),
                                           mask_in(p + MASKS_FROM), mask_in(p + 6)));
    for (unsigned k = 0; k < PARTS; k++)
        settle(w, &p[k], accepted);
    settle(w, &state, 0);
}

/* drive bytes to be written: those due, or as many as may not be, odd in number or too many */
static struct lent drive_near(struct work *w, const struct due *d)
{
    switch (below(w, 16)) {
    case 0: return filled(w, d->drive_len + 1);
    case 1: return filled(w, GM_DRIVE_BYTES + 1 + below(w, GM_DRIVE_BYTES));
    default: return kept(w, copy_of(w, d->drive, d->drive_len));
    }
}

static void call_write_heartbeat(struct work *w)
{
    struct due d = due_near(w);
    uint32_t join = number_near(w, 2), request = number_near(w, 2), sync = number_near(w, 2), startup = number_near(w, 2);
    struct lent drive = drive_near(w, &d), frame = output(w, length_near(w, GM_HEARTBEAT_BYTES + drive.len));
    int accepted = answered(w, WRITE_HEARTBEAT, gm_write_heartbeat(d.n, mode_near(w), d.node, join, request, sync, startup, d.cycle, d.channel, drive.bytes,
                                                                   drive.len, frame.bytes,
                                                                   frame.len));
    if (accepted && (drive.len % 2 != 0 || drive.len > GM_DRIVE_BYTES || frame.len != GM_HEARTBEAT_BYTES + drive.len))
        fail(w, "accepted drive bytes or a frame of another length");
    settle(w, &drive, 0);
    settle(w, &frame, accepted);
}

static void call_send_heartbeat(struct work *w)
{
    struct due d = due_near(w);
    uint32_t sync = number_near(w, 2), startup = number_near(w, 2);
    struct lent state = state_near(w), drive = drive_near(w, &d), frame = output(w, length_near(w, GM_HEARTBEAT_BYTES + drive.len));
    struct lent sent = output(w, sizeof(uint32_t));
    int accepted = answered(w, SEND_HEARTBEAT, gm_send_heartbeat(mode_near(w), state.bytes, state.len, sync, startup, d.cycle, d.channel, drive.bytes,
                                                                 drive.len, frame.bytes,
                                                                 frame.len, number_in(&sent)));
    settle(w, &state, 0);
    settle(w, &drive, 0);
    settle(w, &frame, accepted && *number_in(&sent) == 1);
    settle(w, &sent, accepted);
}

/* whether a call that was accepted gave the drive bytes of this copy */
static int gave(const struct lent *copy, const struct lent *drive, uint32_t number)
{
    return copy->len == GM_HEARTBEAT_BYTES + (size_t)number && memcmp(drive->bytes, copy->bytes + DRIVE_AT, number) == 0;
}

static void call_read_heartbeat(struct work *w)
{
    struct due d = due_near(w);
    struct lent frame = frame_near(w, HEARTBEAT, &d), drive = output(w, length_near(w, GM_DRIVE_BYTES));
    struct lent join = output(w, sizeof(uint32_t)), request = output(w, sizeof(uint32_t)), number = output(w, sizeof(uint32_t));
    int accepted;
    stray(w, &d);
    accepted = answered(w, READ_HEARTBEAT, gm_read_heartbeat(d.n, mode_near(w), d.node, d.cycle, d.channel, frame.bytes, frame.len, drive.bytes, drive.len,
                                                             number_in(&join),
                                                             number_in(&request), number_in(&number)));
    if (accepted && !gave(&frame, &drive, *number_in(&number)))
        fail(w, "gave other drive bytes than the copy's");
    settle_part(w, &drive, 0, accepted ? *number_in(&number) : 0);
    settle(w, &frame, 0);
    settle(w, &join, accepted);
    settle(w, &request, accepted);
    settle(w, &number, accepted);
}

/* the copy on channel B is of a frame of its own, mostly with the same drive bytes, or absent */
static struct lent other_copy(struct work *w, unsigned phase, struct due d)
{
    d.channel = GM_CHANNEL_B;
    if (one_in(w, 8))
        carry(w, &d);
    return one_in(w, 4) ? kept(w, room_for(w, 0)) : frame_near(w, phase, &d);
}

static void call_receive_heartbeat(struct work *w)
{
    struct due d = due_near(w);
    struct lent a = frame_near(w, HEARTBEAT, &d), b = other_copy(w, HEARTBEAT, d), drive = output(w, length_near(w, GM_DRIVE_BYTES));
    struct lent heard = output(w, sizeof(uint32_t)), number = output(w, sizeof(uint32_t));
    int accepted, came;
    stray(w, &d);
    accepted = answered(w, RECEIVE_HEARTBEAT, gm_receive_heartbeat(d.n, mode_near(w), d.node, d.cycle, a.bytes, a.len, b.bytes, b.len, drive.bytes, drive.len,
                                                                   number_in(&heard), number_in(&number)));
    came = accepted && *number_in(&heard) != GM_MISSED;
    if (accepted && !came && *number_in(&number) != 0)
        fail(w, "gave drive bytes of a missed heartbeat");
    if (came && !gave(&a, &drive, *number_in(&number)) && !gave(&b, &drive, *number_in(&number)))
        fail(w, "gave other drive bytes than a copy's");
    settle_part(w, &drive, 0, came ? *number_in(&number) : 0);
    settle(w, &a, 0);
    settle(w, &b, 0);
    settle(w, &heard, accepted);
    settle(w, &number, accepted);
}

static void call_view(struct work *w)
{
    uint64_t heard0 = any(w), heard1 = any(w);
    struct lent state = state_near(w), view = output(w, sizeof(uint64_t));
    int accepted = answered(w, VIEW, gm_view(mode_near(w), state.bytes, state.len, heard0, heard1, mask_in(&view)));
    settle(w, &state, 0);
    settle(w, &view, accepted);
}

static void call_write_vote(struct work *w)
{
    struct due d = due_near(w);
    uint64_t set = set_near(w, d.n) | only(d.node), base = set_near(w, d.n) | set, view = set_near(w, d.n) | only(d.node);
    struct lent frame = output(w, length_near(w, GM_VOTE_FRAME_BYTES));
    int accepted = answered(w, WRITE_VOTE, gm_write_vote(d.n, d.node, (uint32_t)any(w), set, base, view, d.cycle, d.channel, frame.bytes, frame.len));
    settle(w, &frame, accepted);
}

static void call_send_vote(struct work *w)
{
    struct due d = due_near(w);
    uint64_t heard0 = any(w), heard1 = any(w);
    struct lent state = state_near(w), frame = output(w, length_near(w, GM_VOTE_FRAME_BYTES)), sent = output(w, sizeof(uint32_t));
    int accepted = answered(w, SEND_VOTE, gm_send_vote(mode_near(w), state.bytes, state.len, heard0, heard1, any(w), d.cycle, d.channel, frame.bytes, frame.len,
                                                       number_in(&sent)));
    settle(w, &state, 0);
    settle(w, &frame, accepted && *number_in(&sent) == 1);
    settle(w, &sent, accepted);
}

static void call_read_vote(struct work *w)
{
    struct due d = due_near(w);
    struct lent frame = frame_near(w, VOTE, &d), vote = output(w, length_near(w, GM_VOTE_BYTES));
    int accepted;
    stray(w, &d);
    accepted = answered(w, READ_VOTE, gm_read_vote(d.n, d.node, d.cycle, d.channel, frame.bytes, frame.len, vote.bytes, vote.len));
    settle(w, &frame, 0);
    settle(w, &vote, accepted);
}

/* of the vote buffer the sender's slot is written if the vote arrived, and nothing else */
static void call_receive_vote(struct work *w)
{
    struct due d = due_near(w);
    struct lent a = frame_near(w, VOTE, &d), b = other_copy(w, VOTE, d), votes = output(w, length_near(w, GM_VOTES_BYTES));
    struct lent arrived = room_for(w, sizeof(uint64_t));
    uint64_t before = *mask_in(&arrived) = any(w);
    int accepted, came;
    stray(w, &d);
    accepted = answered(w, RECEIVE_VOTE, gm_receive_vote(d.n, d.node, d.cycle, a.bytes, a.len, b.bytes, b.len, votes.bytes, votes.len, mask_in(&arrived)));
    came = accepted && (*mask_in(&arrived) & only(d.node)) != 0;
    if (*mask_in(&arrived) != before && (!accepted || (*mask_in(&arrived) ^ before) != only(d.node)))
        fail(w, "changed a bit that is not the sender's");
    settle_part(w, &votes, came ? GM_VOTE_BYTES * (size_t)d.node : 0, came ? GM_VOTE_BYTES : 0);
    settle(w, &a, 0);
    settle(w, &b, 0);
    settle(w, &arrived, accepted);
}

static void call_decide(struct work *w)
{
    uint64_t heard0 = any(w), heard1 = any(w), arrived = any(w);
    struct lent state = state_near(w), votes = filled(w, length_near(w, GM_VOTES_BYTES));
    int accepted = answered(w, DECIDE, gm_decide(mode_near(w), state.bytes, state.len, heard0, heard1, any(w), votes.bytes, votes.len, arrived));
    settle(w, &state, accepted);
    settle(w, &votes, 0);
}

static void call_register_read(struct work *w)
{
    struct lent block = block_near(w), value = output(w, sizeof(uint32_t));
    int accepted = answered(w, REGISTER_READ, gm_register_read(mode_near(w), block.bytes, block.len, address_near(w), number_in(&value)));
    settle(w, &block, 0);
    settle(w, &value, accepted);
}

static void call_register_write(struct work *w)
{
    struct lent block = block_near(w);
    uint32_t address = address_near(w);
    int accepted = answered(w, REGISTER_WRITE, gm_register_write(mode_near(w), block.bytes, block.len, address, (uint8_t)below(w, 8)));
    settle(w, &block, accepted);
}

static void call_register_cycle(struct work *w)
{
    uint64_t heard0 = any(w), heard1 = any(w), arrived = any(w);
    struct lent block = block_near(w), votes = filled(w, length_near(w, GM_VOTES_BYTES));
    int accepted = answered(w, REGISTER_CYCLE, gm_register_cycle(mode_near(w), block.bytes, block.len, heard0, heard1, any(w), votes.bytes, votes.len,
                                                                 arrived));
    settle(w, &block, accepted);
    settle(w, &votes, 0);
}

static void call_register_write_cycle(struct work *w)
{
    uint64_t heard0 = any(w), heard1 = any(w), arrived = any(w);
    struct lent block = block_near(w), votes = filled(w, length_near(w, GM_VOTES_BYTES));
    uint32_t address = address_near(w);
    int accepted = answered(w, REGISTER_WRITE_CYCLE, gm_register_write_cycle(mode_near(w), block.bytes, block.len, address, (uint8_t)any(w), heard0, heard1,
                                                                             any(w), votes.bytes,
                                                                             votes.len, arrived));
    settle(w, &block, accepted);
    settle(w, &votes, 0);
}

static size_t record_length(const uint8_t *record)
{
    return CYCLE_BYTES + ENTRY_BYTES * (size_t)record[ENTRIES_AT];
}

/* a table as it was given, or with a changed byte or another end */
static struct lent table_near(struct work *w)
{
    const struct table *t = &w->tables[below(w, w->table_count)];
    struct lent l = copy_of(w, t->bytes, one_in(w, 8) ? below(w, t->len) : t->len);
    if (one_in(w, 4) && l.len > 0)
        l.bytes[below(w, one_in(w, 2) && l.len > 4 ? 4 : l.len)] = (uint8_t)any(w);
    return kept(w, l);
}

/* the first cycle of a table, right or wrong; the damage may be in its count of entries, so that its length is then another than named */
static struct lent record_near(struct work *w, const struct table *t)
{
    size_t len = record_length(t->bytes + FIRST_BYTES);
    struct lent l = copy_of(w, t->bytes + FIRST_BYTES, one_in(w, 8) ? below(w, len) : len);
    if (one_in(w, 4) && l.len > 0)
        l.bytes[below(w, one_in(w, 2) && l.len > 3 ? 3 : l.len)] = (uint8_t)any(w);
    return kept(w, l);
}

static struct lent row_near(struct work *w, uint32_t n)
{
    struct lent row = room_for(w, one_in(w, 12) ? below(w, (size_t)GM_STATE_BYTES * NODES) : (size_t)n * GM_STATE_BYTES);
    memset(row.bytes, 0, row.len);
    for (uint32_t q = 0; q < row.len / GM_STATE_BYTES; q++)
        put_image(w, row.bytes + (size_t)q * GM_STATE_BYTES, n, q);
    if (one_in(w, 8) && row.len > 0)
        row.bytes[below(w, row.len)] = (uint8_t)any(w);
    return kept(w, row);
}

static void call_cycle(struct work *w)
{
    const struct table *t = &w->tables[below(w, w->table_count)];
    uint32_t n = t->bytes[3];
    struct lent row = row_near(w, n), record = record_near(w, t);
    int accepted = answered(w, CYCLE, gm_cycle(one_in(w, 12) ? number_near(w, 0) : n, mode_near(w), row.bytes, row.len, record.bytes, record.len));
    settle(w, &row, accepted);
    settle(w, &record, 0);
}

/* a run, plain or through frames */
static uint32_t run(unsigned entry, uint32_t mode, const struct lent *row, const struct lent *table, const struct lent *frames)
{
    if (entry == RUN)
        return gm_run(mode, row->bytes, row->len, table->bytes, table->len);
    return gm_run_frames(mode, row->bytes, row->len, table->bytes, table->len, frames->bytes, frames->len);
}

/*
 * The row's length is that of the table as it now stands, or another. The host fills it: a run reads the row before it sets it to the beginning.
 * Frames are shown of a table with cycles.
 */
static void run_table(struct work *w, unsigned entry)
{
    struct lent table = table_near(w), frames = output(w, length_near(w, GM_FRAMES_BYTES)), row;
    size_t n = table.len > 3 && table.bytes[3] > 0 ? table.bytes[3] : 1;
    int accepted;
    row = filled(w, length_near(w, n * GM_STATE_BYTES));
    accepted = answered(w, entry, run(entry, mode_near(w), &row, &table, &frames));
    settle(w, &row, accepted);
    settle(w, &frames, accepted && entry == RUN_FRAMES && table.len > FIRST_BYTES);
    settle(w, &table, 0);
}

static void call_run(struct work *w)
{
    run_table(w, RUN);
}

static void call_run_frames(struct work *w)
{
    run_table(w, RUN_FRAMES);
}

static void (*const calls[ENTRIES])(struct work *) = {
    call_begin,             call_stop,           call_start,          call_state,                call_write_heartbeat, call_send_heartbeat, call_read_heartbeat,
    call_receive_heartbeat, call_view,           call_write_vote,     call_send_vote,            call_read_vote,       call_receive_vote,   call_decide,
    call_register_read,     call_register_write, call_register_cycle, call_register_write_cycle, call_cycle,           call_run,            call_run_frames,
};

/* every entry was accepted, and gave each refusal that the header names for it */
static void all_given(struct work *w)
{
    for (w->entry = 0; w->entry < ENTRIES; w->entry++)
        if (w->given[w->entry] != (entries[w->entry].refusals | BIT(0)))
            fail(w, "was not accepted, or did not give one of its refusals: too few calls");
}

static void all_calls(unsigned table_count, uint64_t seed, unsigned long count)
{
    struct work w = {0};
    w.seed = seed;
    w.tables = tables;
    w.table_count = table_count;
    for (unsigned long k = 0; k < count * ENTRIES; k++)
        calls[k % ENTRIES](&w);
    all_given(&w);
    printf("%lu calls of each of %d entries, with every refusal of each\n", count, ENTRIES);
}

/* ---- a press of its own for each thread */

static void must(struct work *w, unsigned entry, uint32_t status)
{
    if (!answered(w, entry, status))
        fail(w, "refused a call of a whole cycle");
}

static void note(struct work *w, const uint8_t *bytes, size_t len)
{
    if (w->logged + len > w->log_room) {
        w->log_room = 2 * w->log_room + len;
        w->log = realloc(w->log, w->log_room);
        if (w->log == NULL)
            fail(w, "could not be noted");
    }
    memcpy(w->log + w->logged, bytes, len);
    w->logged += len;
}

static void read_faults(struct faults *f, const uint8_t *record)
{
    const uint8_t *entry = record + CYCLE_BYTES;
    memset(f, 0, sizeof *f);
    f->stop = mask_at(record + 3);
    f->start = mask_at(record + 11);
    f->lost[HEARTBEAT] = mask_at(record + 19);
    f->lost[VOTE] = mask_at(record + 27);
    for (unsigned k = record[ENTRIES_AT]; k > 0; k--, entry += ENTRY_BYTES)
        f->missed[entry[0] >> 7][entry[0] % NODES] = mask_at(entry + 1);
}

/* what a unit's heartbeat carries in a cycle: none to the most, another number of bytes in each */
static struct lent drive_of(struct work *w, uint32_t q, uint32_t count)
{
    struct lent drive = room_for(w, (8 * (size_t)q + 2 * (size_t)count) % (GM_DRIVE_BYTES + 2));
    for (size_t i = 0; i < drive.len; i++)
        drive.bytes[i] = (uint8_t)(q + 5 * count + 3 * i);
    return drive;
}

/* what an analyser shows is written without drive bytes, as in a run */
static uint32_t send_heartbeat(struct press *p, uint32_t q, uint32_t count, uint32_t channel)
{
    struct unit *u = &p->units[q];
    struct lent drive = drive_of(p->work, q, count), *frame = &p->bus[q].copy[channel];
    uint32_t sent, shown;
    *frame = room_for(p->work, GM_HEARTBEAT_BYTES + drive.len);
    must(p->work, SEND_HEARTBEAT, gm_send_heartbeat(p->mode, u->state.bytes, u->state.len, 0, 0, count, channel, drive.bytes, drive.len, frame->bytes,
                                                    frame->len, &sent));
    must(p->work, SEND_HEARTBEAT, gm_send_heartbeat(p->mode, u->state.bytes, u->state.len, 0, 0, count, channel, p->nothing.bytes, p->nothing.len,
                                                    p->shown[HEARTBEAT][channel][q], GM_HEARTBEAT_BYTES, &shown));
    if (sent != shown)
        fail(p->work, "sends with drive bytes or without, and not both");
    give_back(&drive);
    return sent;
}

static uint32_t send_vote(struct press *p, uint32_t q, uint32_t count, uint32_t channel)
{
    struct unit *u = &p->units[q];
    struct lent *frame = &p->bus[q].copy[channel];
    uint32_t sent;
    *frame = room_for(p->work, GM_VOTE_FRAME_BYTES);
    must(p->work, SEND_VOTE, gm_send_vote(p->mode, u->state.bytes, u->state.len, u->heard0, u->heard1, u->requests, count, channel, frame->bytes, frame->len,
                                          &sent));
    if (sent)
        memcpy(p->shown[VOTE][channel][q], frame->bytes, frame->len);
    return sent;
}

static uint32_t send_copy(struct press *p, unsigned phase, uint32_t q, uint32_t count, uint32_t channel)
{
    uint32_t sent = (phase == VOTE ? send_vote : send_heartbeat)(p, q, count, channel);
    if (sent)
        note(p->work, p->bus[q].copy[channel].bytes, p->bus[q].copy[channel].len);
    return sent;
}

/* the buffer for drive bytes is as it was allocated, but for those that came */
static void hear(struct press *p, struct unit *u, uint32_t sender, uint32_t count, const struct lent *a, const struct lent *b)
{
    struct lent got = room_for(p->work, GM_DRIVE_BYTES), due = drive_of(p->work, sender, count);
    uint32_t heard, number;
    must(p->work, RECEIVE_HEARTBEAT, gm_receive_heartbeat(p->n, p->mode, sender, count, a->bytes, a->len, b->bytes, b->len, got.bytes, got.len, &heard,
                                                          &number));
    if (number != (heard == GM_MISSED ? 0 : due.len) || memcmp(got.bytes, due.bytes, number) != 0)
        fail(p->work, "gives other drive bytes than were sent");
    if (heard == GM_HEARD_MEMBER || heard == GM_HEARD_REQUEST)
        u->heard0 |= only(sender);
    if (heard == GM_HEARD_JOINING)
        u->heard1 |= only(sender);
    if (heard == GM_HEARD_REQUEST)
        u->requests |= only(sender);
    give_back(&got);
    give_back(&due);
}

static void collect(struct press *p, struct unit *u, uint32_t sender, uint32_t count, const struct lent *a, const struct lent *b)
{
    must(p->work, RECEIVE_VOTE,
         gm_receive_vote(p->n, sender, count, a->bytes, a->len, b->bytes, b->len, u->votes.bytes, u->votes.len, &u->arrived));
}

static void receive(struct press *p, uint32_t q, unsigned phase, uint32_t count, uint64_t missed)
{
    for (uint32_t sender = 0; sender < p->n; sender++) {
        const struct slot *s = &p->bus[sender];
        int comes = s->sent && (missed & only(sender)) == 0;
        if (sender != q)
            (phase == VOTE ? collect : hear)(p, &p->units[q], sender, count, comes ? &s->copy[0] : &p->nothing, comes ? &s->copy[1] : &p->nothing);
    }
}

static void write_register(struct press *p, struct unit *u, uint32_t address, uint8_t value)
{
    must(p->work, REGISTER_WRITE, gm_register_write(p->mode, u->block.bytes, u->block.len, address, value));
}

static void stop_and_start(struct press *p, const struct faults *f)
{
    for (uint32_t q = 0; q < p->n; q++) {
        struct unit *u = &p->units[q];
        u->heard0 = u->heard1 = u->requests = u->arrived = 0;
        if (f->stop & only(q)) {
            must(p->work, STOP, gm_stop(p->mode, u->state.bytes, u->state.len));
            write_register(p, u, GM_REGISTER_COMMAND, GM_COMMAND_STOP);
        }
        if (f->start & only(q)) {
            must(p->work, START, gm_start(p->mode, u->state.bytes, u->state.len));
            write_register(p, u, GM_REGISTER_COMMAND, GM_COMMAND_START);
        }
    }
}

static void send_all(struct press *p, const struct faults *f, unsigned phase, uint32_t count)
{
    for (uint32_t q = 0; q < p->n; q++) {
        uint32_t sent = send_copy(p, phase, q, count, GM_CHANNEL_A);
        sent &= send_copy(p, phase, q, count, GM_CHANNEL_B);
        p->bus[q].sent = sent && (f->lost[phase] & only(q)) == 0;
    }
}

static void receive_all(struct press *p, const struct faults *f, unsigned phase, uint32_t count)
{
    for (uint32_t q = 0; q < p->n; q++)
        receive(p, q, phase, count, f->missed[phase][q]);
}

static void clear_bus(struct press *p)
{
    for (uint32_t k = 0; k < CHANNELS * p->n; k++)
        give_back(&p->bus[k / CHANNELS].copy[k % CHANNELS]);
}

/* with the flags of the cycle before acknowledged, where there are any; the state in the block is then that of the unit's own decision */
static void cycle_block(struct press *p, struct unit *u)
{
    struct lent *b = &u->block;
    uint32_t pending, flags;
    must(p->work, REGISTER_READ, gm_register_read(p->mode, b->bytes, b->len, GM_REGISTER_PENDING, &pending));
    must(p->work, REGISTER_READ, gm_register_read(p->mode, b->bytes, b->len, GM_REGISTER_FLAGS, &flags));
    if (pending)
        must(p->work, REGISTER_WRITE_CYCLE, gm_register_write_cycle(p->mode, b->bytes, b->len, GM_REGISTER_FLAGS, (uint8_t)flags, u->heard0, u->heard1,
                                                                    u->requests, u->votes.bytes,
                                                                    u->votes.len, u->arrived));
    else
        must(p->work, REGISTER_CYCLE, gm_register_cycle(p->mode, b->bytes, b->len, u->heard0, u->heard1, u->requests, u->votes.bytes, u->votes.len,
                                                        u->arrived));
    if (memcmp(b->bytes, u->state.bytes, u->state.len) != 0)
        fail(p->work, "leaves another state than gm_decide");
    must_be_defined(p->work, b->bytes, b->len);
    note(p->work, b->bytes, b->len);
}

/* the vote buffer is as it was allocated, but for the votes that arrived */
static void decide_all(struct press *p)
{
    for (uint32_t q = 0; q < p->n; q++) {
        struct unit *u = &p->units[q];
        must(p->work, DECIDE, gm_decide(p->mode, u->state.bytes, u->state.len, u->heard0, u->heard1, u->requests, u->votes.bytes, u->votes.len, u->arrived));
        must_be_defined(p->work, u->state.bytes, u->state.len);
        note(p->work, u->state.bytes, u->state.len);
        cycle_block(p, u);
    }
}

static void run_cycle(struct press *p, const uint8_t *record, uint32_t count)
{
    struct faults f;
    read_faults(&f, record);
    memset(p->shown, 0, sizeof p->shown);
    stop_and_start(p, &f);
    for (unsigned phase = HEARTBEAT; phase < PHASES; phase++) {
        send_all(p, &f, phase, count);
        receive_all(p, &f, phase, count);
        clear_bus(p);
    }
    decide_all(p);
}

/* the row holds what the units hold */
static void same_row(struct press *p, const struct lent *row, unsigned entry)
{
    p->work->entry = entry;
    for (uint32_t q = 0; q < p->n; q++)
        if (memcmp(row->bytes + (size_t)q * GM_STATE_BYTES, p->units[q].state.bytes, GM_STATE_BYTES) != 0)
            fail(p->work, "leaves another state than the unit's own decisions");
    note(p->work, row->bytes, row->len);
}

static void begin_press(struct press *p, struct work *w)
{
    uint64_t founding = mask_at(w->tables->bytes + 4);
    p->work = w;
    p->n = w->tables->bytes[3];
    /* presses with an odd number of units are quiet */
    p->mode = p->n % 2;
    p->nothing = room_for(w, 0);
    for (uint32_t q = 0; q < p->n; q++) {
        struct unit *u = &p->units[q];
        u->state = room_for(w, GM_STATE_BYTES);
        u->block = room_for(w, GM_REGISTERS_BYTES);
        u->votes = room_for(w, GM_VOTES_BYTES);
        must(w, BEGIN, gm_begin(p->n, q, founding, u->state.bytes, u->state.len));
        memset(u->block.bytes, 0, u->block.len);
        must(w, BEGIN, gm_begin(p->n, q, founding, u->block.bytes, GM_STATE_BYTES));
        write_register(p, u, GM_REGISTER_ENABLES, UINT8_MAX);
    }
}

static void end_press(struct press *p)
{
    for (uint32_t q = 0; q < p->n; q++) {
        give_back(&p->units[q].state);
        give_back(&p->units[q].block);
        give_back(&p->units[q].votes);
    }
    give_back(&p->nothing);
}

/* the whole table at once, plain and through frames, on a row of any bytes; the frames shown are those that the units wrote last */
static void run_whole(struct press *p)
{
    const struct table *t = p->work->tables;
    struct lent table = copy_of(p->work, t->bytes, t->len), frames = room_for(p->work, GM_FRAMES_BYTES);
    for (unsigned entry = RUN; entry <= RUN_FRAMES; entry++) {
        struct lent row = filled(p->work, (size_t)p->n * GM_STATE_BYTES);
        must(p->work, entry, run(entry, p->mode, &row, &table, &frames));
        same_row(p, &row, entry);
        give_back(&row);
    }
    if (memcmp(frames.bytes, p->shown, sizeof p->shown) != 0)
        fail(p->work, "shows other frames than the units wrote");
    give_back(&frames);
    give_back(&table);
}

static struct lent row_of(struct press *p)
{
    struct lent row = room_for(p->work, (size_t)p->n * GM_STATE_BYTES);
    for (uint32_t q = 0; q < p->n; q++)
        memcpy(row.bytes + (size_t)q * GM_STATE_BYTES, p->units[q].state.bytes, GM_STATE_BYTES);
    return row;
}

/* every cycle by the units themselves and by gm_cycle on a row; then the table in one call */
static void *work_press(void *of)
{
    struct work *w = of;
    struct press p;
    struct lent row;
    uint32_t cycles = 0;
    begin_press(&p, w);
    row = row_of(&p);
    for (size_t at = FIRST_BYTES; at < w->tables->len; cycles++) {
        struct lent record = copy_of(w, w->tables->bytes + at, record_length(w->tables->bytes + at));
        at += record.len;
        run_cycle(&p, record.bytes, cycles % COUNTS);
        must(w, CYCLE, gm_cycle(p.n, p.mode, row.bytes, row.len, record.bytes, record.len));
        same_row(&p, &row, CYCLE);
        give_back(&record);
    }
    run_whole(&p);
    give_back(&row);
    end_press(&p);
    return NULL;
}

static struct work together[MOST_TABLES], alone[MOST_TABLES];

/* a thread for this table and all after it, and its end after theirs: so all run at once */
static void in_threads(unsigned k, unsigned count)
{
    pthread_t thread;
    if (k == count)
        return;
    if (pthread_create(&thread, NULL, work_press, &together[k]) != 0)
        fail(&together[k], "got no thread");
    in_threads(k + 1, count);
    pthread_join(thread, NULL);
}

/* all threads at once, and then the same work again in this one */
static void all_presses(unsigned count)
{
    size_t bytes = 0;
    in_threads(0, count);
    for (unsigned k = 0; k < count; k++) {
        work_press(&alone[k]);
        if (together[k].logged != alone[k].logged || memcmp(together[k].log, alone[k].log, alone[k].logged) != 0)
            fail(&alone[k], "and the others gave other bytes in threads than alone");
        bytes += alone[k].logged;
        free(together[k].log);
        free(alone[k].log);
    }
    printf("%u presses in %u threads, %zu bytes as in one thread\n", count, count, bytes);
}

/* ---- wrong on purpose */

/* a state that ends a byte early, against the guard page if there is one */
static struct lent cut_state(struct work *w)
{
    struct lent l = room_for(w, GM_STATE_BYTES - 1);
    return guarded && (size_t)l.bytes % PAGE == 0 ? cut_state(w) : l;
}

/* the archive writes or reads a byte too far, or reads what nobody wrote; or the host reads a byte too far */
static int fault(const char *which)
{
    static struct work w;
    struct lent state = room_for(&w, GM_STATE_BYTES), cut = cut_state(&w);
    uint64_t view = 0;
    if (strcmp(which, "unset") == 0)
        return (int)gm_view(GM_MODE_ALWAYS, state.bytes, state.len, 0, 0, &view);
    if (strcmp(which, "write") == 0)
        return (int)gm_begin(NODES, 1, 2, cut.bytes, GM_STATE_BYTES);
    gm_begin(NODES, 1, 2, state.bytes, GM_STATE_BYTES);
    memcpy(cut.bytes, state.bytes, cut.len);
    if (strcmp(which, "read") == 0)
        return (int)gm_view(GM_MODE_ALWAYS, cut.bytes, GM_STATE_BYTES, 0, 0, &view);
    return cut.bytes[cut.len];
}

/* ---- tables from files */

static struct table read_table(const char *name)
{
    struct table t = {NULL, 0};
    FILE *file = fopen(name, "rb");
    if (file == NULL || fseek(file, 0, SEEK_END) != 0)
        exit(2);
    t.len = (size_t)ftell(file);
    t.bytes = malloc(t.len);
    rewind(file);
    if (t.bytes == NULL || t.len < FIRST_BYTES + CYCLE_BYTES || fread(t.bytes, 1, t.len, file) != t.len)
        exit(2);
    fclose(file);
    return t;
}

static void read_tables(char **names, unsigned count)
{
    for (unsigned k = 0; k < count; k++) {
        tables[k] = read_table(names[k]);
        together[k].tables = alone[k].tables = &tables[k];
    }
}

static void free_tables(unsigned count)
{
    for (unsigned k = 0; k < count; k++)
        free(tables[k].bytes);
}

int main(int argc, char **argv)
{
    int of_calls = argc > 5 && strcmp(argv[1], "calls") == 0, of_presses = argc > 3 && strcmp(argv[1], "press") == 0, first = of_calls ? 5 : 3;
    unsigned count = (unsigned)(argc - first);
    guarded = argc > 2 && strcmp(argv[2], "pages") == 0;
    if (argc == 4 && strcmp(argv[1], "fault") == 0)
        return fault(argv[3]);
    if ((!of_calls && !of_presses) || count > MOST_TABLES) {
        fputs("usage: load calls heap|pages SEED COUNT TABLE.. | load press heap|pages TABLE.. | load fault heap|pages write|read|unset|host\n", stderr);
        return 2;
    }
    read_tables(argv + first, count);
    if (of_calls)
        all_calls(count, strtoull(argv[3], NULL, 10), strtoul(argv[4], NULL, 10));
    else
        all_presses(count);
    free_tables(count);
    return 0;
}
