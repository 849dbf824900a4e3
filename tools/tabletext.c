/*
 * Fault tables as readable text, and back; `help` below has the statements of a text.
 * An error ends the program with status 1 and nothing written: it names the line, or the byte where the record begins and the table's refusal.
 */
/* for isatty */
#define _POSIX_C_SOURCE 200112L
#include <errno.h>
#include <stdarg.h>
#include <stdint.h>
#include <stdio.h>
#include <stdlib.h>
#include <string.h>
#include <unistd.h>

#include "gm.h"

enum { HEAD_BYTES = GM_RECORD_AT_KIND + 1, RECEIVER_BITS = 0x3F, ZERO_BIT = 0x40 };
enum { STOP, START, LOSE_HEARTBEAT, LOSE_VOTE, MASKS };
enum { HEARTBEAT, VOTE, PHASES };
enum { MOST_SHOWN = 40, SHOWN_ROOM = 4 * MOST_SHOWN + 4, MESSAGE_ROOM = 400 };

#define FROM_FILE "tabletext table <press.txt >press.tab"
#define USES "'table', 'text', '--help' or '--version'"
#define BY_FILE "a file is read by: " FROM_FILE ", or tabletext text <press.tab"

static const unsigned long most_cycles = UINT32_MAX;
static const char *const mask_names[MASKS] = {"stop", "start", "lose heartbeat", "lose vote"};
static const size_t mask_places[MASKS] = {GM_CYCLE_AT_STOP, GM_CYCLE_AT_START, GM_CYCLE_AT_HEARTBEAT_LOST, GM_CYCLE_AT_VOTE_LOST};
static const char *const phase_names[PHASES] = {"heartbeat", "vote"};

static const char help[] =
    "usage: tabletext table < x.txt > x.tab    makes a table for grouprun and quietrun from a text\n"
    "       tabletext text < x.tab > x.txt     makes a text from a table\n"
    "       tabletext --help | --version\n"
    "\n"
    "One statement stands on a line, and # begins a comment:\n"
    "  nodes NUMBER                   first: how many nodes there are, 2 to 64\n"
    "  founding LIST                  second: the nodes of the first group\n"
    "  repeat NUMBER                  the cycle that follows stands so many times, with its faults\n"
    "  cycle                          a cycle begins; its faults follow in any order:\n"
    "    stop LIST                    these nodes stop\n"
    "    start LIST                   these nodes start, after the stops\n"
    "    lose heartbeat LIST          their heartbeats are lost in sending\n"
    "    lose vote LIST               their votes are lost in sending\n"
    "    miss heartbeat LIST at LIST  the heartbeats of the first are missed at the second\n"
    "    miss vote LIST at LIST       the votes of the first are missed at the second\n"
    "A LIST is nodes and ranges with commas, such as 0,2,5-8, or the word all. Nodes are numbered from 0.\n";

struct bytes {
    char *at;
    size_t len, room;
};

/* the faults of one cycle */
struct cycle {
    uint64_t masks[MASKS], missed[PHASES][GM_NODES_MAX];
};

struct word {
    const char *at;
    size_t len;
};

/* what is due next in a text */
enum due { DUE_NODES, DUE_FOUNDING, DUE_CYCLE, DUE_REPEATED, DUE_FAULT };

/* `rest` is what is left of the line, `cycles` counts those that were begun, and the last of these stands `times` times */
struct text {
    int writes;
    unsigned long line, repeat_line, cycles, times;
    struct word rest;
    enum due due;
    unsigned n;
    struct cycle cycle;
    struct bytes record;
};

/* ---- bytes and sets */

static void __attribute__((noreturn, format(printf, 1, 2))) give_up(const char *format, ...)
{
    va_list rest;
    fputs("tabletext: ", stderr);
    va_start(rest, format);
    vfprintf(stderr, format, rest);
    va_end(rest);
    fputc('\n', stderr);
    exit(1);
}

static void reserve(struct bytes *b, size_t more)
{
    if (b->room - b->len >= more)
        return;
    b->room = 2 * (b->room + more);
    b->at = realloc(b->at, b->room);
    if (b->at == NULL)
        give_up("out of memory");
}

static void put(struct bytes *b, const void *from, size_t len)
{
    reserve(b, len);
    memcpy(b->at + b->len, from, len);
    b->len += len;
}

static void put_byte(struct bytes *b, unsigned x)
{
    char c = (char)x;
    put(b, &c, 1);
}

static void put_mask(struct bytes *b, uint64_t m)
{
    for (int shift = 56; shift >= 0; shift -= 8)
        put_byte(b, (unsigned)(m >> shift & 0xFF));
}

static void put_words(struct bytes *b, const char *words)
{
    put(b, words, strlen(words));
}

static void put_number(struct bytes *b, unsigned long x)
{
    char digits[24];
    put(b, digits, (size_t)snprintf(digits, sizeof digits, "%lu", x));
}

static struct bytes read_input(void)
{
    struct bytes b = {NULL, 0, 0};
    size_t got;
    do {
        reserve(&b, 1 << 16);
        got = fread(b.at + b.len, 1, b.room - b.len, stdin);
        b.len += got;
    } while (got > 0);
    if (ferror(stdin))
        give_up("the input could not be read: %s", strerror(errno));
    return b;
}

static void write_bytes(const char *at, size_t len)
{
    if (fwrite(at, 1, len, stdout) != len)
        give_up("the output could not be written: %s", strerror(errno));
}

static uint64_t only(unsigned q)
{
    return (uint64_t)1 << q;
}

static int in(uint64_t set, unsigned q)
{
    return (int)(set >> q & 1);
}

static uint64_t all_below(unsigned n)
{
    return ~(uint64_t)0 >> (GM_NODES_MAX - n);
}

static uint64_t range(unsigned from, unsigned to)
{
    return all_below(to + 1) & ~(only(from) - 1);
}

/* of a set that is not empty */
static unsigned lowest(uint64_t set)
{
    unsigned q = 0;
    while (!in(set, q))
        q++;
    return q;
}

/* ---- words of a line */

static int blank(char c)
{
    return c == ' ' || c == '\t' || c == '\r';
}

static int joins(char c)
{
    return c == ',' || c == '-';
}

static int digit(char c)
{
    return c >= '0' && c <= '9';
}

static const char *past_blanks(const char *s, const char *end)
{
    while (s < end && blank(*s))
        s++;
    return s;
}

/* the next word of the line: a comma, a dash, or what stands before the next of these or a blank; empty at the end of the line */
static struct word next(const struct text *t)
{
    const char *end = t->rest.at + t->rest.len, *s = past_blanks(t->rest.at, end);
    struct word w = {s, 0};
    if (s < end && joins(*s))
        s++;
    else
        while (s < end && !blank(*s) && !joins(*s))
            s++;
    w.len = (size_t)(s - w.at);
    return w;
}

static void pass(struct text *t, struct word w)
{
    t->rest.len -= (size_t)(w.at + w.len - t->rest.at);
    t->rest.at = w.at + w.len;
}

static int take(struct text *t, const char *name)
{
    struct word w = next(t);
    if (strlen(name) != w.len || memcmp(w.at, name, w.len) != 0)
        return 0;
    pass(t, w);
    return 1;
}

static void __attribute__((noreturn, format(printf, 2, 3))) wrong(const struct text *t, const char *format, ...)
{
    char what[MESSAGE_ROOM];
    va_list rest;
    va_start(rest, format);
    vsnprintf(what, sizeof what, format, rest);
    va_end(rest);
    give_up("line %lu: %s", t->line, what);
}

/* bytes that are no plain characters stand in hexadecimal: a reader would not see them, or see them as others */
static void show(struct word w, char *shown)
{
    for (size_t i = 0; i < w.len && i < MOST_SHOWN; i++)
        shown += sprintf(shown, w.at[i] > ' ' && w.at[i] <= '~' ? "%c" : "\\x%02X", (unsigned char)w.at[i]);
    strcpy(shown, w.len > MOST_SHOWN ? ".." : "");
}

static int has_capital(struct word w)
{
    while (w.len > 0 && (*w.at < 'A' || *w.at > 'Z'))
        w.at++, w.len--;
    return w.len > 0;
}

/* such as a dash of a word processor */
static int has_other(struct word w)
{
    while (w.len > 0 && *w.at > ' ' && *w.at <= '~')
        w.at++, w.len--;
    return w.len > 0;
}

static void __attribute__((noreturn)) expected(const struct text *t, const char *what)
{
    struct word w = next(t);
    char shown[SHOWN_ROOM];
    if (w.len == 0)
        wrong(t, "expected %s, but the line ends", what);
    show(w, shown);
    if (has_other(w))
        wrong(t, "expected %s, not '%s'; statements have plain characters alone", what, shown);
    wrong(t, "expected %s, not '%s'%s", what, shown, has_capital(w) ? "; words stand in small letters" : "");
}

/* the number that a word is, or one above `most` if it is none or a larger one */
static uint64_t number_in(struct word w, uint64_t most)
{
    uint64_t x = 0;
    size_t digits = 0;
    for (; digits < w.len && digit(w.at[digits]) && x <= most; digits++)
        x = 10 * x + (uint64_t)(w.at[digits] - '0');
    return digits > 0 && digits == w.len ? x : most + 1;
}

static unsigned long take_number(struct text *t, unsigned long least, unsigned long most, const char *name)
{
    uint64_t x = number_in(next(t), most);
    char what[MESSAGE_ROOM / 2];
    if (x < least || x > most) {
        snprintf(what, sizeof what, "%s, %lu to %lu", name, least, most);
        expected(t, what);
    }
    pass(t, next(t));
    return (unsigned long)x;
}

/* ---- from text */

/* the node that ends a range */
static unsigned take_end(struct text *t, unsigned from)
{
    unsigned to = (unsigned)number_in(next(t), from);
    if (to < from)
        wrong(t, "the range %u-%u runs backwards; write %u-%u", from, to, to, from);
    return (unsigned)take_number(t, from, t->n - 1, "the last node of the range");
}

static uint64_t take_range(struct text *t, const char *name)
{
    unsigned from = (unsigned)take_number(t, 0, t->n - 1, name);
    return range(from, take(t, "-") ? take_end(t, from) : from);
}

static uint64_t take_list(struct text *t)
{
    uint64_t set;
    if (take(t, "all")) {
        if (take(t, ","))
            wrong(t, "'all' stands alone in a list");
        return all_below(t->n);
    }
    set = take_range(t, "'all', a range such as 0-1 or a node");
    while (take(t, ",")) {
        uint64_t more = take_range(t, "a range such as 0-1 or a node");
        if ((set & more) != 0)
            wrong(t, "node %u stands twice in the list", lowest(set & more));
        set |= more;
    }
    return set;
}

/* a list that ends its line */
static uint64_t take_last_list(struct text *t)
{
    uint64_t set = take_list(t);
    if (next(t).len != 0)
        expected(t, "',' or the end of the line");
    return set;
}

static void put_head(struct bytes *b, unsigned kind)
{
    put_byte(b, GM_MARK_0);
    put_byte(b, GM_MARK_1);
    put_byte(b, kind);
}

/* `bit` tells the phase */
static void put_entries(struct bytes *b, unsigned bit, const uint64_t *missed)
{
    for (unsigned q = 0; q < GM_NODES_MAX; q++)
        if (missed[q] != 0) {
            put_byte(b, bit | q);
            put_mask(b, missed[q]);
        }
}

static void put_record(struct bytes *b, const struct cycle *c)
{
    put_head(b, GM_RECORD_CYCLE);
    for (unsigned k = 0; k < MASKS; k++)
        put_mask(b, c->masks[k]);
    put_byte(b, 0);
    put_entries(b, 0, c->missed[HEARTBEAT]);
    put_entries(b, GM_ENTRY_VOTE, c->missed[VOTE]);
    b->at[GM_CYCLE_AT_COUNT] = (char)((b->len - GM_CYCLE_AT_ENTRIES) / GM_ENTRY_BYTES);
}

/* the record is whole */
static void write_record(struct text *t, unsigned long times)
{
    for (unsigned long k = 0; t->writes && k < times; k++)
        write_bytes(t->record.at, t->record.len);
    t->record.len = 0;
}

/* the faults read so far are a whole cycle */
static void close_cycle(struct text *t)
{
    const struct cycle clean = {{0}, {{0}}};
    if (t->due != DUE_FAULT)
        return;
    put_record(&t->record, &t->cycle);
    write_record(t, t->times);
    t->cycle = clean;
}

static void nodes(struct text *t)
{
    t->n = (unsigned)take_number(t, GM_NODES_MIN, GM_NODES_MAX, "the number of nodes");
    t->due = DUE_FOUNDING;
}

static void founding(struct text *t)
{
    put_head(&t->record, GM_RECORD_START);
    put_byte(&t->record, t->n);
    put_mask(&t->record, take_last_list(t));
    write_record(t, 1);
    t->due = DUE_CYCLE;
}

static void add_cycles(struct text *t, unsigned long times)
{
    close_cycle(t);
    if (times > most_cycles - t->cycles)
        wrong(t, "a table has at most %lu cycles", most_cycles);
    t->cycles += times;
    t->times = times;
}

static void repeat(struct text *t)
{
    add_cycles(t, take_number(t, 1, most_cycles, "how many times the cycle stands"));
    t->repeat_line = t->line;
    t->due = DUE_REPEATED;
}

static void begin_cycle(struct text *t)
{
    if (t->due != DUE_REPEATED)
        add_cycles(t, 1);
    t->due = DUE_FAULT;
}

static unsigned take_phase(struct text *t)
{
    for (unsigned phase = 0; phase < PHASES; phase++)
        if (take(t, phase_names[phase]))
            return phase;
    expected(t, "'heartbeat' or 'vote'");
}

static void miss(struct text *t)
{
    unsigned phase = take_phase(t);
    uint64_t senders = take_list(t), receivers;
    if (!take(t, "at"))
        expected(t, "',' or 'at'");
    receivers = take_last_list(t);
    if ((senders & receivers) != 0)
        wrong(t, "node %u cannot miss its own %s: it stands in both lists", lowest(senders & receivers), phase_names[phase]);
    for (unsigned q = 0; q < t->n; q++)
        if (in(receivers, q))
            t->cycle.missed[phase][q] |= senders;
}

/* whether a fault stands next, which is then read */
static int fault(struct text *t)
{
    unsigned mask;
    if (take(t, "miss")) {
        miss(t);
        return 1;
    }
    if (take(t, "lose"))
        mask = LOSE_HEARTBEAT + take_phase(t);
    else if (take(t, "stop"))
        mask = STOP;
    else if (take(t, "start"))
        mask = START;
    else
        return 0;
    t->cycle.masks[mask] |= take_last_list(t);
    return 1;
}

/* what each statement may follow is what the record order of a table asks */
static void statement(struct text *t)
{
    static const char *const due_names[] = {"'nodes NUMBER'", "'founding LIST'", "'cycle' or 'repeat NUMBER'", "'cycle' after 'repeat'",
                                            "'stop', 'start', 'lose', 'miss', 'cycle' or 'repeat'"};
    const char *end = "the end of the line";
    if (t->due == DUE_NODES && take(t, "nodes"))
        nodes(t);
    else if (t->due == DUE_FOUNDING && take(t, "founding"))
        founding(t);
    else if (t->due >= DUE_CYCLE && take(t, "cycle")) {
        begin_cycle(t);
        end = "the end of the line (a cycle has no number, and each fault a line of its own)";
    } else if (t->due >= DUE_CYCLE && t->due != DUE_REPEATED && take(t, "repeat")) {
        repeat(t);
        end = "the end of the line ('cycle' stands on a line of its own)";
    } else if (t->due != DUE_FAULT || !fault(t))
        expected(t, due_names[t->due]);
    if (next(t).len != 0)
        expected(t, end);
}

static int is_head(const unsigned char *s, unsigned kind)
{
    return s[0] == GM_MARK_0 && s[1] == GM_MARK_1 && s[GM_RECORD_AT_KIND] == kind;
}

/* the input without the mark that some editors set before a text */
static struct word unmarked(const struct bytes *input)
{
    struct word s = {input->at, input->len};
    if (s.len >= 3 && memcmp(s.at, "\xEF\xBB\xBF", 3) == 0) {
        s.at += 3;
        s.len -= 3;
    }
    if (s.len >= 2 && (memcmp(s.at, "\xFF\xFE", 2) == 0 || memcmp(s.at, "\xFE\xFF", 2) == 0))
        give_up("line 1: the text is in UTF-16; save it as UTF-8");
    if (s.len >= HEAD_BYTES && is_head((const unsigned char *)s.at, GM_RECORD_START))
        give_up("line 1: this is a table and no text; 'tabletext text' reads it");
    return s;
}

/* the line that begins here, without its comment */
static void begin_line(struct text *t, const char *s, size_t len)
{
    const char *comment = memchr(s, '#', len);
    t->line++;
    t->rest.at = s;
    t->rest.len = comment == NULL ? len : (size_t)(comment - s);
}

static void end_text(struct text *t)
{
    t->line++;
    if (t->due < DUE_CYCLE)
        wrong(t, "the text ends before '%s'", t->due == DUE_NODES ? "nodes" : "founding");
    if (t->due == DUE_REPEATED) {
        t->line = t->repeat_line;
        wrong(t, "expected 'cycle' after 'repeat', but the text ends");
    }
    close_cycle(t);
    free(t->record.at);
}

static void read_text(struct word input, int writes)
{
    struct text t = {0};
    const char *s = input.at, *end = s + input.len;
    t.writes = writes;
    while (s < end) {
        const char *newline = memchr(s, '\n', (size_t)(end - s)), *stop = newline == NULL ? end : newline;
        begin_line(&t, s, (size_t)(stop - s));
        if (next(&t).len > 0)
            statement(&t);
        s = newline == NULL ? end : newline + 1;
    }
    end_text(&t);
}

/* all of the text is found right before its table is written */
static void write_table(const struct bytes *input)
{
    struct word text = unmarked(input);
    read_text(text, 0);
    read_text(text, 1);
}

/* ---- from a table */

/* what is left of a table, from the record that is looked at, which comes after so many cycles; it has `n` nodes */
struct rest {
    const unsigned char *at;
    size_t offset, len;
    unsigned long cycles;
    unsigned n;
};

static void __attribute__((noreturn, format(printf, 3, 4))) refuse(const struct rest *r, unsigned number, const char *format, ...)
{
    char why[MESSAGE_ROOM], record[40] = "";
    va_list rest;
    va_start(rest, format);
    vsnprintf(why, sizeof why, format, rest);
    va_end(rest);
    if (r->offset > 0)
        snprintf(record, sizeof record, "cycle %lu: ", r->cycles + 1);
    give_up("record at byte %zu: refused %u: %s%s", r->offset, number, record, why);
}

static uint64_t mask_at(const unsigned char *s)
{
    uint64_t m = 0;
    for (unsigned i = 0; i < GM_SET_BYTES; i++)
        m = m << 8 | s[i];
    return m;
}

/* `by` says where the length comes from */
static void check_length(const struct rest *r, size_t len, const char *by)
{
    char shown[16] = "";
    if (r->len == 0)
        refuse(r, GM_REFUSED_CUT, "the file is empty");
    if (r->len >= len)
        return;
    if (r->len == 1)
        snprintf(shown, sizeof shown, " (%02X)", r->at[0]);
    else if (r->len < HEAD_BYTES)
        snprintf(shown, sizeof shown, " (%02X %02X)", r->at[0], r->at[1]);
    refuse(r, GM_REFUSED_CUT, "the file ends inside the record: %zu %s there%s, %zu are due%s", r->len, r->len == 1 ? "byte is" : "bytes are", shown, len,
           by);
}

/* whether a text may begin here: the first record of a table, also with a byte changed, has bytes that a text has not */
static int like_text(const struct rest *r)
{
    size_t i = 0;
    while (i < r->len && i < GM_START_BYTES && (r->at[i] >= ' ' ? r->at[i] < 0xFF : r->at[i] == '\n' || blank((char)r->at[i])))
        i++;
    return r->offset == 0 && (i == r->len || i == GM_START_BYTES);
}

static void check_head(const struct rest *r, unsigned kind)
{
    const unsigned char *s = r->at;
    check_length(r, HEAD_BYTES, "");
    if (!is_head(s, kind))
        refuse(r, GM_REFUSED_KIND, "the record begins with the bytes %02X %02X %02X, not with %02X %02X %02X%s", s[0], s[1], s[2], GM_MARK_0, GM_MARK_1, kind,
               like_text(r) ? "; 'tabletext table' reads a text" : "");
}

/* `where` names them, and `as` says what they are there */
static void check_nodes(const struct rest *r, uint64_t set, const char *where, const char *as)
{
    uint64_t above = set & ~all_below(r->n);
    if (above != 0)
        refuse(r, GM_REFUSED_LIMIT, "%s names node %u%s, and the nodes are 0 to %u", where, lowest(above), as, r->n - 1);
}

static void advance(struct rest *r, size_t len)
{
    r->at += len;
    r->offset += len;
    r->len -= len;
}

/* the last of the nodes of the set that follow `q` without a gap */
static unsigned last_beside(uint64_t set, unsigned q)
{
    while (q + 1 < GM_NODES_MAX && in(set, q + 1))
        q++;
    return q;
}

static void put_list(struct bytes *b, uint64_t set)
{
    const char *before = " ";
    while (set != 0) {
        unsigned from = lowest(set), to = last_beside(set, from);
        put_words(b, before);
        put_number(b, from);
        if (to > from) {
            put_words(b, "-");
            put_number(b, to);
        }
        set &= ~range(from, to);
        before = ",";
    }
}

static void first_text(struct rest *r, struct bytes *b)
{
    uint64_t set;
    check_head(r, GM_RECORD_START);
    check_length(r, GM_START_BYTES, "");
    r->n = r->at[GM_START_AT_N];
    set = mask_at(r->at + GM_START_AT_FOUNDING);
    if (r->n < GM_NODES_MIN || r->n > GM_NODES_MAX)
        refuse(r, GM_REFUSED_COUNT, "the number of nodes is %u, not %u to %u", r->n, GM_NODES_MIN, GM_NODES_MAX);
    if (set == 0)
        refuse(r, GM_REFUSED_LIMIT, "the founding set is empty");
    check_nodes(r, set, "the founding set, at byte 4,", "");
    put_words(b, "nodes ");
    put_number(b, r->n);
    put_words(b, "\nfounding");
    put_list(b, set);
    put_words(b, "\n");
    advance(r, GM_START_BYTES);
}

/* where entry k begins in the record */
static size_t entry_place(unsigned k)
{
    return GM_CYCLE_AT_ENTRIES + GM_ENTRY_BYTES * (size_t)k;
}

/* entry k; of the one before it the first byte is known, or -1 */
static void read_entry(const struct rest *r, unsigned k, int before, struct cycle *c)
{
    const unsigned char *entry = r->at + entry_place(k);
    unsigned first = entry[GM_ENTRY_AT_RECEIVER], receiver = first & RECEIVER_BITS, phase = first & GM_ENTRY_VOTE ? VOTE : HEARTBEAT;
    uint64_t missed = mask_at(entry + GM_ENTRY_AT_MISSED);
    char where[MESSAGE_ROOM / 2];
    snprintf(where, sizeof where, "entry %u, at byte %zu, of %u by the count at byte %zu,", k + 1, r->offset + entry_place(k), r->at[GM_CYCLE_AT_COUNT],
             r->offset + GM_CYCLE_AT_COUNT);
    if (first & ZERO_BIT)
        refuse(r, GM_REFUSED_LIMIT, "%s begins with the byte %02X, whose bit 6 is not 0", where, first);
    check_nodes(r, only(receiver), where, " as receiver");
    check_nodes(r, missed, where, " as a sender");
    if (missed == 0)
        refuse(r, GM_REFUSED_LIMIT, "%s names no sender that node %u misses", where, receiver);
    if (in(missed, receiver))
        refuse(r, GM_REFUSED_LIMIT, "%s has node %u miss its own %s", where, receiver, phase_names[phase]);
    if ((int)first <= before)
        refuse(r, GM_REFUSED_LIMIT, "%s begins with the byte %02X, which is not above the %02X of the entry before it", where, first, (unsigned)before);
    c->missed[phase][receiver] = missed;
}

static void read_masks(const struct rest *r, struct cycle *c)
{
    for (unsigned k = 0; k < MASKS; k++) {
        char where[64];
        snprintf(where, sizeof where, "'%s', at byte %zu,", mask_names[k], r->offset + mask_places[k]);
        c->masks[k] = mask_at(r->at + mask_places[k]);
        check_nodes(r, c->masks[k], where, "");
    }
}

/* the faults of the next cycle; the answer is the length of its record */
static size_t read_cycle(const struct rest *r, struct cycle *c)
{
    char by[96];
    unsigned count;
    size_t len;
    int before = -1;
    check_head(r, GM_RECORD_CYCLE);
    check_length(r, GM_CYCLE_AT_ENTRIES, "");
    count = r->at[GM_CYCLE_AT_COUNT];
    len = entry_place(count);
    snprintf(by, sizeof by, " by the count %u at byte %zu%s", count, r->offset + GM_CYCLE_AT_COUNT, count > GM_ENTRIES_MAX ? ", which is above 128" : "");
    check_length(r, len, by);
    if (count > GM_ENTRIES_MAX)
        refuse(r, GM_REFUSED_LIMIT, "the count at byte %zu is %u, and a cycle has at most %u entries", r->offset + GM_CYCLE_AT_COUNT, count, GM_ENTRIES_MAX);
    if (r->cycles == most_cycles)
        refuse(r, GM_REFUSED_LIMIT, "a table has at most %lu cycles", most_cycles);
    read_masks(r, c);
    for (unsigned k = 0; k < count; k++) {
        read_entry(r, k, before, c);
        before = r->at[entry_place(k)];
    }
    return len;
}

/* how many records like this one follow each other; they are passed */
static unsigned long pass_equal(struct rest *r, size_t len)
{
    const unsigned char *record = r->at;
    unsigned long times = 0;
    do {
        advance(r, len);
        r->cycles++;
        times++;
    } while (r->cycles < most_cycles && r->len >= len && memcmp(r->at, record, len) == 0);
    return times;
}

static void put_masks(struct bytes *b, const uint64_t *masks)
{
    for (unsigned k = 0; k < MASKS; k++)
        if (masks[k] != 0) {
            put_words(b, mask_names[k]);
            put_list(b, masks[k]);
            put_words(b, "\n");
        }
}

/* the receivers from `q` on that miss the same, up to the first that misses something else, at which `q` is left */
static uint64_t alike(const uint64_t *missed, unsigned *q)
{
    uint64_t receivers = 0, senders = missed[*q];
    for (; *q < GM_NODES_MAX && (missed[*q] == 0 || missed[*q] == senders); ++*q)
        receivers |= missed[*q] == 0 ? 0 : only(*q);
    return receivers;
}

/* neighbouring receivers that miss the same stand on one line */
static void put_missed(struct bytes *b, unsigned phase, const uint64_t *missed)
{
    unsigned q = 0;
    while (q < GM_NODES_MAX) {
        uint64_t receivers = alike(missed, &q);
        if (receivers == 0)
            continue;
        put_words(b, "miss ");
        put_words(b, phase_names[phase]);
        put_list(b, missed[lowest(receivers)]);
        put_words(b, " at");
        put_list(b, receivers);
        put_words(b, "\n");
    }
}

static void put_cycle(struct bytes *b, const struct cycle *c, unsigned long times)
{
    if (times > 1) {
        put_words(b, "repeat ");
        put_number(b, times);
        put_words(b, "\n");
    }
    put_words(b, "cycle\n");
    put_masks(b, c->masks);
    put_missed(b, HEARTBEAT, c->missed[HEARTBEAT]);
    put_missed(b, VOTE, c->missed[VOTE]);
}

static void write_text(const struct bytes *input)
{
    struct rest r = {(const unsigned char *)input->at, 0, input->len, 0, 0};
    struct bytes b = {NULL, 0, 0};
    first_text(&r, &b);
    while (r.len > 0) {
        struct cycle c = {{0}, {{0}}};
        size_t len = read_cycle(&r, &c);
        put_cycle(&b, &c, pass_equal(&r, len));
    }
    write_bytes(b.at, b.len);
    free(b.at);
}

static void convert(const char *from, void (*write_other)(const struct bytes *))
{
    struct bytes input;
    if (isatty(STDIN_FILENO))
        fprintf(stderr, "tabletext: a %s is expected on standard input, which is a terminal; see tabletext --help\n", from);
    input = read_input();
    write_other(&input);
    free(input.at);
}

/* bytes are nothing for a terminal, and some of them change how it works */
static void spare_terminal(void)
{
    if (isatty(STDOUT_FILENO))
        give_up("a table is bytes and is not written to a terminal; write it to a file: " FROM_FILE);
}

static void __attribute__((noreturn)) wrong_argument(const char *what)
{
    struct word w = {what, strlen(what)};
    char shown[SHOWN_ROOM];
    show(w, shown);
    give_up("expected " USES ", not '%s'; " BY_FILE, shown);
}

int main(int argc, char **argv)
{
    const char *what = argc == 2 ? argv[1] : "";
    if (argc != 2)
        give_up("expected one argument, " USES "; " BY_FILE);
    if (strcmp(what, "table") == 0) {
        spare_terminal();
        convert("text", write_table);
    } else if (strcmp(what, "text") == 0)
        convert("table", write_text);
    else if (strcmp(what, "--help") == 0)
        write_bytes(help, strlen(help));
    else if (strcmp(what, "--version") == 0)
        printf("tabletext %s\n", GM_VERSION);
    else
        wrong_argument(what);
    if (fflush(stdout) != 0)
        give_up("the output could not be written: %s", strerror(errno));
    return 0;
}
