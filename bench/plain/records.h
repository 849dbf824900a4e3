/* The records of a table, refused in the paper's order. */
#ifndef RECORDS_H
#define RECORDS_H

#include "cluster.h"

enum { HEAD_BYTES = 3, FIRST_BYTES = 12, CYCLE_BYTES = 36, ENTRY_BYTES = 9, MOST_ENTRIES = 128 };

/* whether the next `len` bytes begin a record of that kind: 11, 12 or 0 */
unsigned refused_head(const uint8_t *s, size_t len, unsigned kind);

/* the length of a cycle's record, of which CYCLE_BYTES are there */
size_t cycle_length(const uint8_t *s);

/* N and the founding members, of a whole first record; a run's row has `row_bytes`, or none is lent */
enum { NO_ROW = -1 };
unsigned read_first(const uint8_t *s, long row_bytes, struct cluster *c);

/* the faults, of a whole record; those that f held before are forgotten */
unsigned read_cycle(const uint8_t *s, const struct cluster *c, struct faults *f);

#endif
