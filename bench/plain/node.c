/* One node: its state's image, what it sends, and what it decides. */
#include "plain.h"
#include "bits.h"

#include <string.h>

struct group {
    uint32_t number;
    uint64_t set, base;
};

/* the votes that arrived, a slot for each sender */
struct votes {
    uint32_t numbers[NODES];
    uint64_t sets[NODES], bases[NODES], views[NODES], present;
};

/* the highest reason: that of a member says that it will request */
static unsigned last_reason(uint32_t mode, unsigned kind)
{
    return kind == OUT ? 2 : kind == MEMBER && mode == QUIET;
}

int sound_state(uint32_t mode, const uint8_t *s)
{
    unsigned kind = s[0], reason = s[1], q = s[2], n = s[3];
    uint64_t set = mask_at(s + 8), base = mask_at(s + 16);
    if (kind > MEMBER || n < 2 || n > NODES || q >= n || reason > last_reason(mode, kind))
        return 0;
    if (kind != MEMBER)
        return word_at(s + 4) == 0 && set == 0 && base == 0;
    return in(set, q) && (set & ~base) == 0 && (base & ~all_of(n)) == 0;
}

static uint32_t refused_state(uint32_t mode, const uint8_t *s, size_t len)
{
    if (mode > QUIET)
        return 2;
    if (len != STATE_BYTES)
        return 3;
    return sound_state(mode, s) ? 0 : 4;
}

static void put_group(uint8_t *s, uint32_t number, uint64_t set, uint64_t base)
{
    put_number(s + 4, 4, number);
    put_number(s + 8, 8, set);
    put_number(s + 16, 8, base);
}

static void leave(uint8_t *s, unsigned kind, unsigned reason)
{
    s[0] = (uint8_t)kind;
    s[1] = (uint8_t)reason;
    memset(s + 4, 0, STATE_BYTES - 4);
}

uint32_t plain_begin(uint32_t n, uint32_t node, uint64_t founding, uint8_t *state, size_t state_len)
{
    if (n < 2 || n > NODES)
        return 1;
    if (node >= n)
        return 2;
    if (state_len != STATE_BYTES)
        return 3;
    if (founding == 0 || (founding & ~all_of(n)) != 0)
        return 13;
    leave(state, OUT, 0);
    state[2] = (uint8_t)node;
    state[3] = (uint8_t)n;
    if (in(founding, node)) {
        state[0] = MEMBER;
        put_group(state, 0, founding, founding);
    }
    return 0;
}

void stop_node(uint8_t *s)
{
    leave(s, OUT, 0);
}

void start_node(uint8_t *s)
{
    if (s[0] == OUT)
        leave(s, JOINING, 0);
}

uint32_t plain_stop(uint32_t mode, uint8_t *state, size_t state_len)
{
    uint32_t refused = refused_state(mode, state, state_len);
    if (refused == 0)
        stop_node(state);
    return refused;
}

uint32_t plain_start(uint32_t mode, uint8_t *state, size_t state_len)
{
    uint32_t refused = refused_state(mode, state, state_len);
    if (refused == 0)
        start_node(state);
    return refused;
}

uint32_t plain_state(uint32_t mode, const uint8_t *state, size_t state_len, uint32_t *kind, uint32_t *reason, uint32_t *node, uint32_t *n,
                     uint32_t *number, uint64_t *set, uint64_t *base)
{
    uint32_t refused = refused_state(mode, state, state_len);
    if (refused != 0)
        return refused;
    *kind = state[0];
    *reason = state[1];
    *node = state[2];
    *n = state[3];
    *number = word_at(state + 4);
    *set = mask_at(state + 8);
    *base = mask_at(state + 16);
    return 0;
}

uint32_t plain_send_heartbeat(uint32_t mode, const uint8_t *state, size_t state_len, uint32_t sync, uint32_t startup, uint32_t cycle,
                              uint32_t channel, const uint8_t *drive, size_t drive_len, uint8_t *frame, size_t frame_len, uint32_t *sent)
{
    uint32_t refused;
    if (mode > QUIET || sync > 1 || startup > sync || cycle > 63 || channel > 1)
        return 2;
    if (!right_lengths(drive_len, frame_len))
        return 3;
    refused = refused_state(mode, state, state_len);
    if (refused != 0)
        return refused;
    *sent = state[0] != OUT;
    if (*sent == 0)
        return 0;
    return plain_write_heartbeat(state[3], mode, state[2], state[0] == JOINING, state[1], sync, startup, cycle, channel, drive, drive_len, frame,
                                 frame_len);
}

static uint64_t view_of(const uint8_t *s, uint64_t heard0, uint64_t heard1)
{
    uint64_t set = mask_at(s + 8);
    return s[0] != MEMBER ? 0 : (only(s[2]) | (set & heard0) | (~set & heard1)) & all_of(s[3]);
}

uint32_t plain_view(uint32_t mode, const uint8_t *state, size_t state_len, uint64_t heard0, uint64_t heard1, uint64_t *view)
{
    uint32_t refused = refused_state(mode, state, state_len);
    if (refused == 0)
        *view = view_of(state, heard0, heard1);
    return refused;
}

/* whether a member votes that has this view */
static int votes_now(uint32_t mode, const uint8_t *s, uint64_t view, uint64_t heard0, uint64_t requests)
{
    uint64_t set = mask_at(s + 8);
    return mode == ALWAYS || view != set || s[1] != 0 || (requests & heard0 & set & ~only(s[2])) != 0;
}

uint32_t plain_send_vote(uint32_t mode, const uint8_t *state, size_t state_len, uint64_t heard0, uint64_t heard1, uint64_t requests, uint32_t cycle,
                         uint32_t channel, uint8_t *frame, size_t frame_len, uint32_t *sent)
{
    uint64_t view;
    uint32_t refused;
    if (mode > QUIET || cycle > 63 || channel > 1)
        return 2;
    if (frame_len != VOTE_FRAME_BYTES)
        return 3;
    refused = refused_state(mode, state, state_len);
    if (refused != 0)
        return refused;
    view = view_of(state, heard0, heard1);
    *sent = state[0] == MEMBER && votes_now(mode, state, view, heard0, requests);
    if (*sent == 0)
        return 0;
    return plain_write_vote(state[3], state[2], word_at(state + 4), mask_at(state + 8), mask_at(state + 16), view, cycle, channel, frame, frame_len);
}

static void read_votes(struct votes *v, unsigned n, unsigned q, const uint8_t *bytes, uint64_t arrived)
{
    v->present = 0;
    for (unsigned p = 0; p < n; p++, bytes += VOTE_BYTES) {
        v->numbers[p] = word_at(bytes);
        v->sets[p] = mask_at(bytes + 4);
        v->bases[p] = mask_at(bytes + 12);
        v->views[p] = mask_at(bytes + 20);
        if (p != q && in(arrived, p) && sound_vote(n, p, v->sets[p], v->bases[p], v->views[p]))
            v->present |= only(p);
    }
}

/* those of `among` that hold the group g */
static uint64_t holders(const struct votes *v, unsigned n, uint64_t among, const struct group *g)
{
    uint64_t m = 0;
    for (unsigned p = 0; p < n; p++)
        if (in(among, p) && v->numbers[p] == g->number && v->sets[p] == g->set && v->bases[p] == g->base)
            m |= only(p);
    return m;
}

static uint64_t tally(const struct votes *v, unsigned n, uint64_t among, uint64_t view)
{
    uint64_t m = 0;
    for (unsigned p = 0; p < n; p++)
        if (in(among, p) && v->views[p] == view)
            m |= only(p);
    return m;
}

/* in a quiet press whoever enters, had another view or has another set will request */
static void become_member(uint32_t mode, uint8_t *s, const struct group *g, uint64_t voters, uint64_t view)
{
    uint64_t set = voters | (view & ~g->set);
    s[1] = mode == QUIET && (s[0] == JOINING || view != g->set || set != g->set);
    s[0] = MEMBER;
    put_group(s, set == g->set ? g->number : (uint32_t)(g->number + 1), set, set | g->set);
}

/* whether some view has a quorum; each is tallied once */
static int rival(const struct votes *v, unsigned n, uint64_t counted, uint64_t base)
{
    while (counted != 0) {
        uint64_t m = tally(v, n, counted, v->views[lowest(counted)]);
        if (quorum(m, base))
            return 1;
        counted &= ~m;
    }
    return 0;
}

/* a member that did not vote: a quorum of equal votes with its group puts it out, else its base becomes its set */
static void silent(uint8_t *s, const struct votes *v)
{
    struct group g = {word_at(s + 4), mask_at(s + 8), mask_at(s + 16)};
    if (rival(v, s[3], holders(v, s[3], v->present & g.set, &g), g.base))
        leave(s, OUT, 2);
    else
        put_group(s, g.number, g.set, g.set);
}

/* rule 5 */
static void member(uint32_t mode, uint8_t *s, uint64_t view, const struct votes *v)
{
    struct group g = {word_at(s + 4), mask_at(s + 8), mask_at(s + 16)};
    unsigned n = s[3];
    uint64_t counted = holders(v, n, v->present & g.set, &g), mine = tally(v, n, counted, view) | only(s[2]);
    if (quorum(mine, g.base))
        become_member(mode, s, &g, mine, view);
    else
        leave(s, OUT, rival(v, n, counted, g.base) ? 2 : 1);
}

/* Rule 6. Each vote value is tallied once; a sound vote has its sender in its set, so that all equal ones count. */
static void joiner(uint32_t mode, uint8_t *s, const struct votes *v)
{
    struct group found = {0, 0, 0};
    uint64_t voters = 0, view = 0, left = v->present;
    unsigned n = s[3], q = s[2], fitting = 0;
    while (left != 0) {
        unsigned p = lowest(left);
        struct group g = {v->numbers[p], v->sets[p], v->bases[p]};
        uint64_t m = tally(v, n, holders(v, n, left, &g), v->views[p]);
        left &= ~m;
        if (!in(v->views[p] & ~g.set, q) || !quorum(m, g.base))
            continue;
        fitting++;
        found = g;
        voters = m;
        view = v->views[p];
    }
    if (fitting == 1)
        become_member(mode, s, &found, voters, view);
}

void decide_node(uint32_t mode, uint8_t *s, uint64_t heard0, uint64_t heard1, uint64_t requests, const uint8_t *votes, uint64_t arrived)
{
    uint64_t view = view_of(s, heard0, heard1);
    struct votes v;
    if (s[0] == OUT)
        return;
    read_votes(&v, s[3], s[2], votes, arrived);
    if (s[0] == JOINING)
        joiner(mode, s, &v);
    else if (votes_now(mode, s, view, heard0, requests))
        member(mode, s, view, &v);
    else
        silent(s, &v);
}

uint32_t plain_decide(uint32_t mode, uint8_t *state, size_t state_len, uint64_t heard0, uint64_t heard1, uint64_t requests, const uint8_t *votes,
                      size_t votes_len, uint64_t arrived)
{
    uint32_t refused;
    if (mode > QUIET)
        return 2;
    if (votes_len != VOTES_BYTES)
        return 3;
    refused = refused_state(mode, state, state_len);
    if (refused == 0)
        decide_node(mode, state, heard0, heard1, requests, votes, arrived);
    return refused;
}
