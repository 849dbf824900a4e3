#include "cluster.h"

/* every node holds the founding set, so that no slot is without a value */
void begin(struct cluster *c)
{
    struct group founding = {c->members, c->members, 0};
    for (unsigned q = 0; q < c->n; q++)
        c->groups[q] = founding;
}

/* the senders whose heartbeats do not reach q */
static uint64_t unheard(const struct faults *f, unsigned q)
{
    return f->lost[HEARTBEAT] | f->missed[HEARTBEAT][q];
}

static uint64_t view(const struct cluster *c, const struct faults *f, unsigned q)
{
    uint64_t set = c->groups[q].set;
    return only(q) | (((set & c->members) | (~set & c->joining)) & ~unheard(f, q));
}

/* whether a member with this view votes: always, or because of its view, a request that it heard or its own */
static int votes_now(const struct cluster *c, const struct faults *f, unsigned q, uint64_t v, int quiet)
{
    uint64_t set = c->groups[q].set;
    return !quiet || v != set || (c->asking & set & (only(q) | ~unheard(f, q))) != 0;
}

static int same_group(const struct group *g, const struct group *h)
{
    return g->set == h->set && g->base == h->base && g->number == h->number;
}

static int same_vote(const struct ballot *b, const struct group *g, uint64_t v)
{
    return b->view == v && same_group(&b->group, g);
}

/* the place of a vote value, which is added if it is new */
static unsigned place_of(struct poll *p, const struct group *g, uint64_t v)
{
    struct ballot fresh = {*g, v, 0, size_of(g->base)};
    unsigned k = 0;
    while (k < p->count && !same_vote(&p->ballots[k], g, v))
        k++;
    if (k == p->count)
        p->ballots[p->count++] = fresh;
    return k;
}

/* groups equal votes of those who vote. The place of the voter before is tried first, since most votes are equal */
static inline __attribute__((always_inline)) void vote(const struct cluster *c, const struct faults *f, struct poll *p, int quiet)
{
    unsigned k = 0;
    p->count = 0;
    p->voters = quiet ? 0 : c->members;
    for (uint64_t left = c->members; left != 0; left &= left - 1) {
        unsigned q = lowest(left);
        const struct group *g = &c->groups[q];
        uint64_t v = view(c, f, q);
        if (!votes_now(c, f, q, v, quiet))
            continue;
        if (quiet)
            p->voters |= only(q);
        if (k == p->count || !same_vote(&p->ballots[k], g, v))
            k = place_of(p, g, v);
        p->ballots[k].senders |= only(q);
        p->own[q] = (uint8_t)k;
    }
}

static struct group successor(const struct ballot *b, uint64_t voters)
{
    struct group g;
    g.set = voters | (b->view & ~b->group.set);
    g.base = g.set | b->group.set;
    g.number = b->group.number + (g.set != b->group.set);
    return g;
}

/*
 * Rule 5. Two views cannot both have a quorum, so that a member stays exactly if its own has one. Members that count the same votes as the one before
 * decide the same. In a quiet press whoever had another view or has another set will request.
 */
static inline __attribute__((always_inline)) uint64_t decide_voters(struct cluster *c, const struct faults *f, const struct poll *p,
                                                                    uint64_t *asking, int quiet)
{
    uint64_t halted = 0, counted = 0;
    const struct ballot *last = 0;
    struct group next = {0, 0, 0};
    int stays = 0, asks = 0;
    for (uint64_t left = p->voters; left != 0; left &= left - 1) {
        unsigned q = lowest(left);
        const struct ballot *b = &p->ballots[p->own[q]];
        uint64_t voters = b->group.set & ((b->senders & ~(f->lost[VOTE] | f->missed[VOTE][q])) | only(q));
        if (b != last || voters != counted) {
            last = b;
            counted = voters;
            stays = 2 * size_of(voters) > b->size;
            next = successor(b, voters);
            asks = quiet && (b->view != b->group.set || next.set != b->group.set);
        }
        if (stays)
            c->groups[q] = next;
        else
            halted |= only(q);
        if (stays && asks)
            *asking |= only(q);
    }
    return halted;
}

/* whether some ballot for the group but `own` has a quorum of what reaches q */
static int has_rival(const struct poll *p, const struct faults *f, unsigned q, const struct group *g, const struct ballot *own)
{
    uint64_t reaches = ~(f->lost[VOTE] | f->missed[VOTE][q]);
    for (unsigned k = 0; k < p->count; k++) {
        const struct ballot *b = &p->ballots[k];
        if (b != own && same_group(&b->group, g) && 2 * size_of(b->senders & g->set & reaches) > b->size)
            return 1;
    }
    return 0;
}

/* members that did not vote: a quorum of equal votes with their group puts them out, else their base becomes their set */
static uint64_t decide_silent(struct cluster *c, const struct faults *f, const struct poll *p)
{
    uint64_t halted = 0;
    for (uint64_t left = c->members & ~p->voters; left != 0; left &= left - 1) {
        unsigned q = lowest(left);
        if (has_rival(p, f, q, &c->groups[q], 0))
            halted |= only(q);
        else
            c->groups[q].base = c->groups[q].set;
    }
    return halted;
}

uint64_t outvoted(const struct poll *p, const struct faults *f, uint64_t halted)
{
    uint64_t m = halted & ~p->voters;
    for (halted &= p->voters; halted != 0; halted &= halted - 1) {
        const struct ballot *own = &p->ballots[p->own[lowest(halted)]];
        if (has_rival(p, f, lowest(halted), &own->group, own))
            m |= halted & -halted;
    }
    return m;
}

/* rule 6 */
static int join(struct cluster *c, const struct faults *f, const struct poll *p, unsigned q)
{
    uint64_t reaches = ~(f->lost[VOTE] | f->missed[VOTE][q]);
    unsigned fitting = 0;
    for (unsigned k = 0; k < p->count; k++) {
        const struct ballot *b = &p->ballots[k];
        uint64_t voters = b->senders & b->group.set & reaches;
        if (!in(b->view & ~b->group.set, q) || 2 * size_of(voters) <= b->size)
            continue;
        fitting++;
        c->groups[q] = successor(b, voters);
    }
    return fitting == 1;
}

/* compiled once for each mode, so that neither pays for the other */
static inline __attribute__((always_inline)) void cycle_in(struct cluster *c, const struct faults *f, struct poll *p, uint64_t *halted,
                                                           uint64_t *entered, int quiet)
{
    uint64_t asking = 0;
    c->members &= ~f->stop;
    c->asking &= ~f->stop;
    c->joining = (c->joining & ~f->stop) | (f->start & ~c->members);
    vote(c, f, p, quiet);
    *halted = decide_voters(c, f, p, &asking, quiet);
    if (quiet)
        *halted |= decide_silent(c, f, p);
    *entered = 0;
    for (uint64_t left = c->joining; left != 0; left &= left - 1)
        if (join(c, f, p, lowest(left)))
            *entered |= left & -left;
    c->members = (c->members & ~*halted) | *entered;
    c->joining &= ~*entered;
    c->asking = quiet ? asking | *entered : 0;
}

void cycle(struct cluster *c, const struct faults *f, struct poll *p, uint64_t *halted, uint64_t *entered)
{
    if (c->quiet)
        cycle_in(c, f, p, halted, entered, 1);
    else
        cycle_in(c, f, p, halted, entered, 0);
}
