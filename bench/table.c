/*
 * Writes a fault table to be run: table N CYCLES SEED MODE > x.tab
 * Mode 0 has no faults. Mode 1 has faults of few nodes at a time, so that every cycle meets the premise (from N 3 on; with N 2 it only starts nodes).
 * Mode 2 has faults without measure, and one record in it is damaged.
 */
#include <stdint.h>
#include <stdio.h>
#include <stdlib.h>
#include <string.h>

enum { NODES = 64, CYCLE_BYTES = 36, ENTRY_BYTES = 9, LONGEST = CYCLE_BYTES + 2 * NODES * ENTRY_BYTES };
enum { STOP, START, LOSE_HEARTBEAT, LOSE_VOTE, MASKS };
enum { CLEAN, MIXED, DAMAGED, MODES };
enum { PERIOD = 4 };

struct cycle {
    uint64_t masks[MASKS], missed[2][NODES];
};

struct record {
    uint8_t bytes[LONGEST + 1];
    size_t len;
};

static uint64_t seed;

/* splitmix64 */
static uint64_t any(void)
{
    uint64_t x = seed += 0x9e3779b97f4a7c15;
    x = (x ^ x >> 30) * 0xbf58476d1ce4e5b9;
    x = (x ^ x >> 27) * 0x94d049bb133111eb;
    return x ^ x >> 31;
}

static unsigned below(uint64_t limit)
{
    return (unsigned)(any() % limit);
}

static uint64_t only(unsigned q)
{
    return (uint64_t)1 << q;
}

static uint64_t all_below(unsigned n)
{
    return ~(uint64_t)0 >> (NODES - n);
}

static uint64_t some_of(unsigned n, unsigned most)
{
    uint64_t set = 0;
    for (unsigned k = below((uint64_t)most + 1); k > 0; k--)
        set |= only(below(n));
    return set;
}

/* one fault of node q */
static void strike(struct cycle *c, unsigned n, unsigned q)
{
    unsigned kind = below(MASKS + 2);
    if (kind < MASKS) {
        c->masks[kind] |= only(q);
        if (kind == START)
            c->masks[STOP] |= only(q);
    } else {
        c->missed[kind - MASKS][q] |= some_of(n, n) & ~only(q);
    }
}

/*
 * Over four cycles the same nodes are struck, fewer than half: in the first two cycles by faults, then they halt where they hold another group, and in the
 * last they are started and enter. So all are members again when other nodes are struck.
 */
static void mixed(struct cycle *c, unsigned n, uint64_t place, uint64_t *struck)
{
    unsigned most = n < 3 ? 0 : n < 16 ? 1 : n / 8;
    if (place % PERIOD == 0)
        *struck = some_of(n, most);
    if (place % PERIOD == PERIOD - 1)
        c->masks[START] = all_below(n);
    for (unsigned q = 0; q < n && place % PERIOD < 2; q++)
        if (*struck >> q & 1)
            strike(c, n, q);
}

static void wild(struct cycle *c, unsigned n)
{
    c->masks[START] = any() & any() & all_below(n);
    for (unsigned k = below(4) == 0 ? below(2 * n) : below(3); k > 0; k--)
        strike(c, n, below(n));
}

static void put_mask(struct record *r, uint64_t m)
{
    for (int shift = 56; shift >= 0; shift -= 8)
        r->bytes[r->len++] = (uint8_t)(m >> shift);
}

static void first_record(struct record *r, unsigned n)
{
    memcpy(r->bytes, "GM\1", 3);
    r->bytes[3] = (uint8_t)n;
    r->len = 4;
    put_mask(r, all_below(n));
}

static void cycle_record(struct record *r, const struct cycle *c)
{
    memcpy(r->bytes, "GM\2", 3);
    r->len = 3;
    for (unsigned k = 0; k < MASKS; k++)
        put_mask(r, c->masks[k]);
    r->len = CYCLE_BYTES;
    for (unsigned key = 0; key < 2 * NODES; key++)
        if (c->missed[key / NODES][key % NODES] != 0) {
            r->bytes[r->len++] = (uint8_t)(key / NODES << 7 | key % NODES);
            put_mask(r, c->missed[key / NODES][key % NODES]);
        }
    r->bytes[CYCLE_BYTES - 1] = (uint8_t)((r->len - CYCLE_BYTES) / ENTRY_BYTES);
}

/* answers whether the file ends here */
static int damage(struct record *r)
{
    size_t at = below(r->len);
    switch (below(5)) {
    case 0: r->bytes[at] ^= (uint8_t)only(below(8)); return 0;
    case 1: r->bytes[at] = (uint8_t)any(); return 0;
    case 2: memmove(r->bytes + at, r->bytes + at + 1, --r->len - at); return 0;
    case 3: memmove(r->bytes + at + 1, r->bytes + at, r->len++ - at); return 0;
    default: r->len = at; return 1;
    }
}

/* record 0 is the first one, record k that of cycle k */
static void make_record(struct record *r, unsigned n, uint64_t k, unsigned mode, uint64_t *struck)
{
    struct cycle c = {{0}, {{0}}};
    if (k == 0) {
        first_record(r, n);
        return;
    }
    if (mode == MIXED)
        mixed(&c, n, k - 1, struck);
    if (mode == DAMAGED)
        wild(&c, n);
    cycle_record(r, &c);
}

/* writes the records, of which in mode 2 one is damaged, and answers whether all could be written */
static int write_table(unsigned n, uint64_t cycles, unsigned mode)
{
    uint64_t struck = 0, bad = mode == DAMAGED ? any() % (cycles + 1) : cycles + 1;
    int ends = 0;
    for (uint64_t k = 0; k <= cycles && !ends; k++) {
        struct record r;
        make_record(&r, n, k, mode, &struck);
        if (k == bad)
            ends = damage(&r);
        if (fwrite(r.bytes, 1, r.len, stdout) != r.len)
            return 0;
    }
    return fflush(stdout) == 0;
}

int main(int argc, char **argv)
{
    unsigned long n = argc == 5 ? strtoul(argv[1], NULL, 10) : 0, mode = argc == 5 ? strtoul(argv[4], NULL, 10) : MODES;
    if (n < 2 || n > NODES || mode >= MODES) {
        fputs("usage: table N CYCLES SEED MODE > x.tab, N 2 to 64, MODE 0 clean, 1 mixed faults, 2 damaged\n", stderr);
        return 1;
    }
    seed = strtoull(argv[3], NULL, 10);
    return !write_table((unsigned)n, strtoull(argv[2], NULL, 10), (unsigned)mode);
}
