#include "records.h"
#include "plain.h"

unsigned refused_head(const uint8_t *s, size_t len, unsigned kind)
{
    if (len < HEAD_BYTES)
        return 11;
    return s[0] == 0x47 && s[1] == 0x4D && s[2] == kind ? 0 : 12;
}

size_t cycle_length(const uint8_t *s)
{
    return CYCLE_BYTES + ENTRY_BYTES * (size_t)s[CYCLE_BYTES - 1];
}

unsigned read_first(const uint8_t *s, long row_bytes, struct cluster *c)
{
    c->n = s[3];
    if (c->n < 2 || c->n > NODES)
        return 1;
    if (row_bytes != NO_ROW && row_bytes != STATE_BYTES * (long)c->n)
        return 3;
    c->all = all_of(c->n);
    c->members = mask_at(s + 4);
    c->joining = 0;
    c->asking = 0;
    return c->members == 0 || (c->members & ~c->all) != 0 ? 13 : 0;
}

static void forget_missed(struct faults *f, unsigned phase)
{
    for (; f->missing[phase] != 0; f->missing[phase] &= f->missing[phase] - 1)
        f->missed[phase][lowest(f->missing[phase])] = 0;
}

/* the entries of one record; a set bit 6 makes a receiver that is too large */
static unsigned read_entries(const uint8_t *s, unsigned count, const struct cluster *c, struct faults *f)
{
    int last = -1;
    for (; count > 0; count--, s += ENTRY_BYTES) {
        unsigned phase = s[0] >> 7, receiver = s[0] & 0x7F;
        uint64_t missed = mask_at(s + 1);
        if (s[0] <= last || receiver >= c->n || missed == 0 || (missed & (~c->all | only(receiver))) != 0)
            return 13;
        last = s[0];
        f->missed[phase][receiver] = missed;
        f->missing[phase] |= only(receiver);
    }
    return 0;
}

unsigned read_cycle(const uint8_t *s, const struct cluster *c, struct faults *f)
{
    unsigned count = s[CYCLE_BYTES - 1];
    f->stop = mask_at(s + 3);
    f->start = mask_at(s + 11);
    f->lost[HEARTBEAT] = mask_at(s + 19);
    f->lost[VOTE] = mask_at(s + 27);
    if (((f->stop | f->start | f->lost[HEARTBEAT] | f->lost[VOTE]) & ~c->all) != 0 || count > MOST_ENTRIES)
        return 13;
    forget_missed(f, HEARTBEAT);
    forget_missed(f, VOTE);
    return read_entries(s + CYCLE_BYTES, count, c, f);
}
