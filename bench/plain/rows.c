/* Calls on a row of state images: a single cycle, and a table's run, plain and through frames. */
#include "plain.h"
#include "records.h"

#include <string.h>

enum { CHANNELS = 2 };

/* who is out, and why */
struct reasons {
    uint64_t no_quorum, outvoted;
};

/* the frames of one phase, a slot for each sender, and who sent one */
struct bus {
    uint8_t frames[CHANNELS][NODES][VOTE_FRAME_BYTES];
    uint64_t sent;
};

/* what a node hears in one cycle */
struct heard {
    uint64_t alive, joining, requests;
};

static uint8_t *image(uint8_t *row, unsigned q)
{
    return row + STATE_BYTES * (size_t)q;
}

/* ---- on masks */

/* whether entry q of the row is node q of n; if so its state goes into the cluster */
static int gather(uint8_t *row, struct cluster *c, struct reasons *r)
{
    for (unsigned q = 0; q < c->n; q++) {
        const uint8_t *s = image(row, q);
        struct group g = {mask_at(s + 8), mask_at(s + 16), word_at(s + 4)};
        if (!sound_state(c->quiet, s) || s[2] != q || s[3] != c->n)
            return 0;
        c->groups[q] = g;
        c->members |= s[0] == MEMBER ? only(q) : 0;
        c->joining |= s[0] == JOINING ? only(q) : 0;
        c->asking |= s[0] == MEMBER && s[1] == 1 ? only(q) : 0;
        r->no_quorum |= s[0] == OUT && s[1] == 1 ? only(q) : 0;
        r->outvoted |= s[1] == 2 ? only(q) : 0;
    }
    return 1;
}

static void scatter(uint8_t *row, const struct cluster *c, const struct reasons *r)
{
    static const struct group none = {0, 0, 0};
    for (unsigned q = 0; q < c->n; q++) {
        uint8_t *s = image(row, q);
        int member = in(c->members, q);
        const struct group *g = member ? &c->groups[q] : &none;
        s[0] = (uint8_t)(member ? MEMBER : in(c->joining, q) ? JOINING : OUT);
        s[1] = (uint8_t)(in(r->no_quorum | c->asking, q) + 2 * in(r->outvoted, q));
        s[2] = (uint8_t)q;
        s[3] = (uint8_t)c->n;
        put_number(s + 4, 4, g->number);
        put_number(s + 8, 8, g->set);
        put_number(s + 16, 8, g->base);
    }
}

static void cycle_with_reasons(struct cluster *c, const struct faults *f, struct reasons *r)
{
    struct poll p;
    uint64_t halted, entered, lost;
    cycle(c, f, &p, &halted, &entered);
    lost = outvoted(&p, f, halted);
    r->no_quorum = (r->no_quorum & ~(f->stop | f->start)) | (halted & ~lost);
    r->outvoted = (r->outvoted & ~(f->stop | f->start)) | lost;
}

uint32_t plain_cycle(uint32_t n, uint32_t mode, uint8_t *row, size_t row_len, const uint8_t *record, size_t record_len)
{
    struct cluster c = {.n = n, .quiet = mode == QUIET};
    struct reasons r = {0, 0};
    struct faults f = {.stop = 0};
    unsigned refused;
    if (n < 2 || n > NODES)
        return 1;
    if (mode > QUIET)
        return 2;
    if (row_len != STATE_BYTES * (size_t)n || (record_len >= CYCLE_BYTES && record_len > cycle_length(record)))
        return 3;
    c.all = all_of(n);
    if (!gather(row, &c, &r))
        return 4;
    refused = refused_head(record, record_len, 2);
    if (refused != 0)
        return refused;
    if (record_len < CYCLE_BYTES || record_len < cycle_length(record))
        return 11;
    refused = read_cycle(record, &c, &f);
    if (refused != 0)
        return refused;
    cycle_with_reasons(&c, &f, &r);
    scatter(row, &c, &r);
    return 0;
}

/* the refusal of a whole table; *c is its beginning */
static unsigned refused_table(const uint8_t *s, size_t len, size_t row_len, struct cluster *c)
{
    struct faults f = {.stop = 0};
    unsigned refused = refused_head(s, len, 1);
    if (refused != 0)
        return refused;
    if (len < FIRST_BYTES)
        return 11;
    refused = read_first(s, (long)row_len, c);
    for (size_t at = FIRST_BYTES; refused == 0 && at < len; at += cycle_length(s + at)) {
        refused = refused_head(s + at, len - at, 2);
        if (refused == 0 && (len - at < CYCLE_BYTES || len - at < cycle_length(s + at)))
            refused = 11;
        if (refused != 0)
            return refused;
        refused = read_cycle(s + at, c, &f);
    }
    return refused;
}

uint32_t plain_run(uint32_t mode, uint8_t *row, size_t row_len, const uint8_t *table, size_t table_len)
{
    struct cluster c = {.quiet = mode == QUIET};
    struct reasons r = {0, 0};
    struct faults f = {.stop = 0};
    unsigned refused = mode > QUIET ? 2 : refused_table(table, table_len, row_len, &c);
    if (refused != 0)
        return refused;
    begin(&c);
    for (size_t at = FIRST_BYTES; at < table_len; at += cycle_length(table + at)) {
        read_cycle(table + at, &c, &f);
        cycle_with_reasons(&c, &f, &r);
    }
    scatter(row, &c, &r);
    return 0;
}

/* ---- through frames: every node by the entries for one node. Out nodes hear too, as in the archive, but do not decide */

static void rule_one(uint32_t mode, uint8_t *row, unsigned n, const struct faults *f)
{
    for (unsigned q = 0; q < n; q++) {
        if (in(f->stop, q))
            plain_stop(mode, image(row, q), STATE_BYTES);
        if (in(f->start, q))
            plain_start(mode, image(row, q), STATE_BYTES);
    }
}

/* without drive bytes */
static void send_heartbeats(uint32_t mode, struct bus *bus, uint8_t *row, unsigned n, uint32_t count)
{
    uint32_t a, b;
    bus->sent = 0;
    for (unsigned q = 0; q < n; q++) {
        plain_send_heartbeat(mode, image(row, q), STATE_BYTES, 0, 0, count, 0, row, 0, bus->frames[0][q], HEARTBEAT_BYTES, &a);
        plain_send_heartbeat(mode, image(row, q), STATE_BYTES, 0, 0, count, 1, row, 0, bus->frames[1][q], HEARTBEAT_BYTES, &b);
        bus->sent |= a + b == CHANNELS ? only(q) : 0;
    }
}

/* a node reads the slots of all, empty ones too */
static struct heard hear(uint32_t mode, const struct bus *bus, unsigned n, uint32_t count, uint64_t reaches)
{
    struct heard h = {0, 0, 0};
    uint8_t drive[DRIVE_BYTES];
    for (unsigned p = 0; p < n; p++) {
        size_t len = in(bus->sent & reaches, p) ? HEARTBEAT_BYTES : 0;
        uint32_t heard = 0, none;
        plain_receive_heartbeat(n, mode, p, count, bus->frames[0][p], len, bus->frames[1][p], len, drive, sizeof drive, &heard, &none);
        h.alive |= heard == 1 || heard == 3 ? only(p) : 0;
        h.joining |= heard == 2 ? only(p) : 0;
        h.requests |= heard == 3 ? only(p) : 0;
    }
    return h;
}

static void send_votes(uint32_t mode, struct bus *bus, uint8_t *row, unsigned n, uint32_t count, const struct heard *h)
{
    uint32_t a, b;
    bus->sent = 0;
    for (unsigned q = 0; q < n; q++) {
        plain_send_vote(mode, image(row, q), STATE_BYTES, h[q].alive, h[q].joining, h[q].requests, count, 0, bus->frames[0][q], VOTE_FRAME_BYTES, &a);
        plain_send_vote(mode, image(row, q), STATE_BYTES, h[q].alive, h[q].joining, h[q].requests, count, 1, bus->frames[1][q], VOTE_FRAME_BYTES, &b);
        bus->sent |= a + b == CHANNELS ? only(q) : 0;
    }
}

static void receive_and_decide(uint32_t mode, const struct bus *bus, uint8_t *state, unsigned n, uint32_t count, uint64_t reaches,
                               const struct heard *h)
{
    uint8_t votes[VOTES_BYTES];
    uint64_t arrived = 0;
    for (unsigned p = 0; p < n; p++) {
        size_t len = in(bus->sent & reaches, p) ? VOTE_FRAME_BYTES : 0;
        plain_receive_vote(n, p, count, bus->frames[0][p], len, bus->frames[1][p], len, votes, VOTES_BYTES, &arrived);
    }
    plain_decide(mode, state, STATE_BYTES, h->alive, h->joining, h->requests, votes, VOTES_BYTES, arrived);
}

/* the frames of both phases stay on the bus */
static void framed_cycle(uint32_t mode, struct bus *bus, uint8_t *row, unsigned n, uint32_t count, const struct faults *f)
{
    struct heard heard[NODES];
    rule_one(mode, row, n, f);
    send_heartbeats(mode, &bus[HEARTBEAT], row, n, count);
    for (unsigned q = 0; q < n; q++)
        heard[q] = hear(mode, &bus[HEARTBEAT], n, count, ~(f->lost[HEARTBEAT] | f->missed[HEARTBEAT][q]));
    send_votes(mode, &bus[VOTE], row, n, count, heard);
    for (unsigned q = 0; q < n; q++)
        if (image(row, q)[0] != OUT)
            receive_and_decide(mode, &bus[VOTE], image(row, q), n, count, ~(f->lost[VOTE] | f->missed[VOTE][q]), &heard[q]);
}

/* what was sent in one phase: the frame at the front of its sender's slot, zeros elsewhere */
static void show(uint8_t *slots, const struct bus *bus, size_t frame_len)
{
    memset(slots, 0, sizeof bus->frames);
    for (unsigned k = 0; k < CHANNELS * NODES; k++, slots += VOTE_FRAME_BYTES)
        if (in(bus->sent, k % NODES))
            memcpy(slots, bus->frames[k / NODES][k % NODES], frame_len);
}

/* a frames buffer of another length is refused as a row of no bytes, which is right for no table */
uint32_t plain_run_frames(uint32_t mode, uint8_t *row, size_t row_len, const uint8_t *table, size_t table_len, uint8_t *frames, size_t frames_len)
{
    struct cluster c = {.quiet = mode == QUIET};
    struct faults f = {.stop = 0};
    struct bus bus[PHASES];
    uint32_t count = 0;
    unsigned refused = mode > QUIET ? 2 : refused_table(table, table_len, frames_len == FRAMES_BYTES ? row_len : 0, &c);
    if (refused != 0)
        return refused;
    for (unsigned q = 0; q < c.n; q++)
        plain_begin(c.n, q, c.members, image(row, q), STATE_BYTES);
    for (size_t at = FIRST_BYTES; at < table_len; at += cycle_length(table + at), count = (count + 1) % 64) {
        read_cycle(table + at, &c, &f);
        framed_cycle(mode, bus, row, c.n, count, &f);
    }
    if (table_len > FIRST_BYTES) {
        show(frames, &bus[HEARTBEAT], HEARTBEAT_BYTES);
        show(frames + FRAMES_BYTES / PHASES, &bus[VOTE], VOTE_FRAME_BYTES);
    }
    return 0;
}
