/*
 * Files of stored calls: lines of fields that are divided by one space, of which the first says what kind of line it is, where a file has several. Numbers are
 * decimal, bytes have two hexadecimal digits each, and `-` is no bytes; a line that begins with `#` is a comment. Whoever includes this defines `must`.
 */
#ifndef LINES_H
#define LINES_H

#include "gm.h"

#include <stdint.h>
#include <stdio.h>
#include <stdlib.h>
#include <string.h>

enum { LONGEST_LINE = 4096, MOST_FIELDS = 12 };

/* its first field, or NULL where all lines are of this kind; how many it has with that, what is done with them, and how many such lines there were */
struct kind {
    const char *word;
    unsigned fields;
    void (*done)(char **field);
    unsigned long lines;
};

/* the line that is read, counted from 1 */
static unsigned long at;

/* if it is no fact, the program ends with the line and with what is wrong there */
static void must(int fact, const char *what);

/* ---- fields */

static inline uint32_t decimal(const char *field)
{
    size_t digits = strspn(field, "0123456789");
    unsigned long long number = strtoull(field, NULL, 10);
    must(digits > 0 && digits < 11 && field[digits] == '\0' && number <= UINT32_MAX, "this is no decimal number");
    return (uint32_t)number;
}

/* of the next digits of a field, two for each byte */
static inline uint64_t hexadecimal(const char *digits, size_t bytes)
{
    static const char hex[] = "0123456789abcdef";
    uint64_t number = 0;
    for (size_t k = 0; k < 2 * bytes; k++) {
        const char *digit = memchr(hex, digits[k], strlen(hex));
        must(digit != NULL, "hexadecimal digits are missing");
        number = number << 4 | (uint64_t)(digit - hex);
    }
    return number;
}

static inline void put_bytes(uint8_t *to, const char *digits, size_t bytes)
{
    for (size_t k = 0; k < bytes; k++)
        to[k] = (uint8_t)hexadecimal(digits + 2 * k, 1);
}

/* how many bytes a field has, `-` being none */
static inline size_t length(const char *field, size_t most)
{
    size_t digits = strcmp(field, "-") == 0 ? 0 : strlen(field);
    must(digits % 2 == 0 && digits / 2 <= most, "these are no bytes, or too many");
    return digits / 2;
}

static inline uint64_t mask(const char *field)
{
    must(strlen(field) == 2 * GM_SET_BYTES, "this is no mask");
    return hexadecimal(field, GM_SET_BYTES);
}

/* the votes of the nodes in `arrived`; a slot that is free holds the vote that comes next, or the last: it would count if it were looked at */
static inline void put_votes(uint8_t *slots, uint64_t arrived, const char *field)
{
    size_t left = length(field, GM_VOTES_BYTES) / GM_VOTE_BYTES;
    const char *vote = field;
    must(left * GM_VOTE_BYTES == length(field, GM_VOTES_BYTES), "a vote is not whole");
    for (unsigned q = 0; q < GM_NODES_MAX; q++) {
        unsigned came = arrived >> q & 1U;
        must(left >= came, "a vote is missing");
        if (strcmp(field, "-") != 0)
            put_bytes(slots + q * GM_VOTE_BYTES, vote, GM_VOTE_BYTES);
        left -= came;
        vote += came > 0 && left > 0 ? 2 * GM_VOTE_BYTES : 0;
    }
    must(left == 0, "a vote has no sender");
}

/* ---- lines */

/* a space ends a field; how many there are, the rest of a line with too many being one more */
static inline unsigned split(char *line, char **field)
{
    unsigned count = 0;
    for (char *next = line; next != NULL && count <= MOST_FIELDS; count++) {
        field[count] = next;
        next = strchr(next, ' ');
        if (next != NULL)
            *next++ = '\0';
    }
    return count;
}

static inline void take_line(char *line, struct kind *kinds, unsigned count)
{
    char *field[MOST_FIELDS + 1];
    size_t end = strcspn(line, "\n");
    unsigned fields, kind = 0;
    must(line[end] == '\n', "the line is too long, or has no end");
    line[end] = '\0';
    if (line[0] == '#')
        return;
    fields = split(line, field);
    while (kind < count && kinds[kind].word != NULL && strcmp(field[0], kinds[kind].word) != 0)
        kind++;
    must(kind < count && fields == kinds[kind].fields, "this line is of no kind");
    kinds[kind].lines++;
    kinds[kind].done(field);
}

/* of every kind there is a line */
static inline void read_file(const char *path, struct kind *kinds, unsigned count)
{
    static char line[LONGEST_LINE];
    FILE *file = fopen(path, "r");
    at = 0;
    must(file != NULL, "the file cannot be read");
    for (at = 1; fgets(line, sizeof line, file) != NULL; at++)
        take_line(line, kinds, count);
    must(ferror(file) == 0, "the file cannot be read further");
    fclose(file);
    for (unsigned k = 0; k < count; k++)
        must(kinds[k].lines > 0, "the file ends, and has no line of one kind");
}

/* the file that is the only argument */
static inline void read_lines(int argc, char **argv, struct kind *kinds, unsigned count)
{
    if (argc != 2) {
        fprintf(stderr, "usage: %s FILE\n", argv[0]);
        exit(2);
    }
    read_file(argv[1], kinds, count);
}

#endif
