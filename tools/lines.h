/* Lines in the form of the text program, taken apart, for the programs of this folder. */
#ifndef LINES_H
#define LINES_H

#include "garumbott.h"
#include <stdbool.h>
#include <string.h>

/* TEXT_LONGEST: letters of a transcript that a text line names; more are refused with 1. */
enum { LONGEST_LINE = 20480, MOST_DIGITS = 5, TEXT_LONGEST = 16384 };

/* What is left of a line. Each function below takes its part from it, or answers false. */
struct text {
    const uint8_t *at, *end;
};

static inline bool take(struct text *s, const char *word)
{
    size_t n = strlen(word);
    if ((size_t)(s->end - s->at) < n || memcmp(s->at, word, n) != 0) return false;
    s->at += n;
    return true;
}

/* Decimal, at most five digits, no leading zero but in a lone 0. */
static inline bool take_number(struct text *s, uint64_t *n)
{
    const uint8_t *first = s->at;
    *n = 0;
    for (; s->at != s->end && *s->at >= '0' && *s->at <= '9'; s->at++) {
        if (s->at - first == MOST_DIGITS) return false;
        *n = 10 * *n + (uint64_t)(*s->at - '0');
    }
    return s->at != first && (*first != '0' || s->at - first == 1);
}

/* One or more bytes from `low` to `high`. */
static inline bool take_bytes(struct text *s, uint8_t low, uint8_t high, const uint8_t **bytes, uint64_t *len)
{
    const uint8_t *first = s->at;
    while (s->at != s->end && *s->at >= low && *s->at <= high) s->at++;
    *bytes = first;
    *len = (uint64_t)(s->at - first);
    return *len != 0;
}

/* A whole line `ref CS CE TABLE LETTERS`. */
static inline bool take_reference(struct text *s, struct garumbott_reference *r)
{
    memset(r, 0, sizeof *r);
    return take(s, "ref ") && take_number(s, &r->cs) && take(s, " ") && take_number(s, &r->ce) && take(s, " ") && take_number(s, &r->table) && take(s, " ")
        && take_bytes(s, 'A', 'Z', &r->letters, &r->letters_len) && s->at == s->end;
}

#endif
