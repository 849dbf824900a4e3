/*
 * A table's run in plain C, from the product paper and the requests made after it alone: what `grouprun` is timed beside, and held to on damaged tables;
 * with the argument `quiet` the same for `quietrun`, in mode 1.
 * It reads and writes in large blocks, and its memory does not grow with the table. Reasons of halting are not kept, since no line shows them.
 */
#include "records.h"

#include <stdio.h>
#include <string.h>

enum { BLOCK = 1 << 16, LONGEST_LINE = 128 };

struct input {
    uint8_t bytes[BLOCK];
    size_t at, end;
};

struct output {
    char bytes[BLOCK];
    size_t len;
    int failed;
};

/* the reference group from cycle to cycle, and whether the promise is kept so far */
struct reference {
    struct group group;
    uint64_t disturbed_before;
    int kept;
    uint32_t cycles;
};

/* ---- reading */

/* whether `len` more bytes are there */
static int ready(struct input *in, size_t len)
{
    if (in->end - in->at < len) {
        memmove(in->bytes, in->bytes + in->at, in->end - in->at);
        in->end -= in->at;
        in->at = 0;
        in->end += fread(in->bytes + in->end, 1, BLOCK - in->end, stdin);
    }
    return in->end - in->at >= len;
}

static unsigned next_head(struct input *in, unsigned kind)
{
    ready(in, HEAD_BYTES);
    return refused_head(in->bytes + in->at, in->end - in->at, kind);
}

static unsigned next_first(struct input *in, struct cluster *c)
{
    unsigned refused = next_head(in, 1);
    if (refused != 0)
        return refused;
    if (!ready(in, FIRST_BYTES))
        return 11;
    in->at += FIRST_BYTES;
    return read_first(in->bytes + in->at - FIRST_BYTES, NO_ROW, c);
}

static unsigned next_cycle(struct input *in, const struct cluster *c, struct faults *f)
{
    unsigned refused = next_head(in, 2);
    size_t len;
    if (refused != 0)
        return refused;
    if (!ready(in, CYCLE_BYTES) || !ready(in, cycle_length(in->bytes + in->at)))
        return 11;
    len = cycle_length(in->bytes + in->at);
    in->at += len;
    return read_cycle(in->bytes + in->at - len, c, f);
}

/* ---- the reference group */

static void keep_reference(struct reference *r, const struct cluster *c, const struct faults *f)
{
    uint64_t disturbed = f->stop | f->lost[HEARTBEAT] | f->lost[VOTE] | f->missing[HEARTBEAT] | f->missing[VOTE];
    uint64_t steady = r->group.set & ~(disturbed | r->disturbed_before);
    r->kept = r->kept && quorum(steady, r->group.base);
    if (r->kept)
        r->group = c->groups[lowest(steady)];
    r->disturbed_before = disturbed;
    r->cycles++;
}

/* ---- printing */

static void flush(struct output *out)
{
    if (fwrite(out->bytes, 1, out->len, stdout) != out->len)
        out->failed = 1;
    out->len = 0;
}

static void put_text(struct output *out, const char *text)
{
    size_t len = strlen(text);
    memcpy(out->bytes + out->len, text, len);
    out->len += len;
}

static void put_decimal(struct output *out, uint32_t x)
{
    char digits[10];
    size_t at = sizeof digits;
    do
        digits[--at] = (char)('0' + x % 10);
    while ((x /= 10) != 0);
    memcpy(out->bytes + out->len, digits + at, sizeof digits - at);
    out->len += sizeof digits - at;
}

/* eight hexadecimal digits at once: a half byte in each byte, and those above 9 moved on to the letters */
static void put_half(char *to, uint64_t x)
{
    x = (x | x << 16) & 0x0000ffff0000ffff;
    x = (x | x << 8) & 0x00ff00ff00ff00ff;
    x = (x | x << 4) & 0x0f0f0f0f0f0f0f0f;
    x += 0x3030303030303030 + ((x + 0x0606060606060606) >> 4 & 0x0101010101010101) * ('a' - '9' - 1);
    for (unsigned i = 0; i < 8; i++)
        to[i] = (char)(x >> (56 - 8 * i));
}

static void put_mask(struct output *out, uint64_t m)
{
    out->bytes[out->len] = ' ';
    put_half(out->bytes + out->len + 1, m >> 32);
    put_half(out->bytes + out->len + 9, m & 0xffffffff);
    out->len += 17;
}

static void put_line(struct output *out, const struct reference *r, uint64_t halted, uint64_t entered)
{
    if (out->len > BLOCK - LONGEST_LINE)
        flush(out);
    put_decimal(out, r->cycles);
    if (r->kept) {
        put_text(out, " kept ");
        put_decimal(out, r->group.number);
        put_mask(out, r->group.set);
    } else {
        put_text(out, " broken - -");
    }
    put_mask(out, halted);
    put_mask(out, entered);
    out->bytes[out->len++] = '\n';
}

/* a table ends before its cycle 4294967296 */
static unsigned run(struct input *in, struct output *out, int quiet)
{
    static struct cluster c;
    static struct faults f;
    static struct poll p;
    struct reference r = {{0, 0, 0}, 0, 1, 0};
    unsigned refused = next_first(in, &c);
    if (refused != 0)
        return refused;
    c.quiet = quiet;
    begin(&c);
    r.group = c.groups[0];
    while (ready(in, 1)) {
        uint64_t halted, entered;
        refused = next_cycle(in, &c, &f);
        if (refused != 0)
            return refused;
        if (r.cycles == UINT32_MAX)
            return 13;
        cycle(&c, &f, &p, &halted, &entered);
        keep_reference(&r, &c, &f);
        put_line(out, &r, halted, entered);
    }
    return 0;
}

int main(int argc, char **argv)
{
    static struct input in;
    static struct output out;
    int quiet = argc == 2 && strcmp(argv[1], "quiet") == 0;
    unsigned refused;
    if (argc > 1 && !quiet)
        return 2;
    put_text(&out, "cycle promise group set halted entered\n");
    refused = run(&in, &out, quiet);
    if (out.len > BLOCK - LONGEST_LINE)
        flush(&out);
    if (refused != 0) {
        put_text(&out, "refused ");
        put_decimal(&out, refused);
        put_text(&out, "\n");
    }
    flush(&out);
    return out.failed || ferror(stdin) || fflush(stdout) != 0;
}
