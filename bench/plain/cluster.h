/* All nodes of a cluster at once, on masks and arrays: one cycle under the faults of a record. */
#ifndef CLUSTER_H
#define CLUSTER_H

#include "bits.h"

enum { HEARTBEAT, VOTE, PHASES };

/* the faults of one cycle; `missing` are the receivers that miss something */
struct faults {
    uint64_t stop, start, lost[PHASES], missing[PHASES], missed[PHASES][NODES];
};

struct group {
    uint64_t set, base;
    uint32_t number;
};

/* in a quiet press members rest while nothing happens; `asking` are those that will request */
struct cluster {
    unsigned n;
    int quiet;
    uint64_t all, members, joining, asking;
    struct group groups[NODES];
};

/* a vote value, the size of its base, and who sent it */
struct ballot {
    struct group group;
    uint64_t view, senders;
    unsigned size;
};

/* the votes of one cycle, equal ones as one ballot, who voted, and the place of each voter's own */
struct poll {
    struct ballot ballots[NODES];
    unsigned count;
    uint64_t voters;
    uint8_t own[NODES];
};

void begin(struct cluster *c);
void cycle(struct cluster *c, const struct faults *f, struct poll *p, uint64_t *halted, uint64_t *entered);

/* those of the nodes that a cycle halted for which another view had a quorum, or that did not vote */
uint64_t outvoted(const struct poll *p, const struct faults *f, uint64_t halted);

#endif
