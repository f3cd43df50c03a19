/* Calls garumbott_check as standard input says, and writes every answer to standard output, for own.py.
 *
 * Input, each number in eight bytes, high byte first, each string behind its length: for an edit the reference's letters, cs, ce, table, exceptions and end,
 * kind, start_star, start, end_star, end, new bases, the room in each of the three buffers, and the number of proposals; for a proposal its number, deleted and
 * inserted residues.
 * Output: for an edit what garumbott_record answers with ample room, and the transcript, R and A that it writes. For a proposal what garumbott_check answers, and a
 * number for the three buffers: 0, no byte has changed; 1, they hold what garumbott_record wrote, and behind that what they held before; 2, neither. */
#include "garumbott.h"
#include <stdio.h>
#include <stdlib.h>
#include <string.h>

enum { LONGEST = 1 << 16 };

static uint8_t byte(void)
{
    int c = getchar();
    if (c == EOF) exit(2);
    return (uint8_t)c;
}

static uint64_t number(void)
{
    uint64_t n = 0;
    for (int i = 0; i < 8; i++) n = n << 8 | byte();
    return n;
}

static int64_t signed_number(void)
{
    uint64_t n = number();
    int64_t s;
    memcpy(&s, &n, sizeof s);
    return s;
}

static const uint8_t *string(uint8_t *to, uint64_t *len)
{
    *len = number();
    if (*len > LONGEST || fread(to, 1, *len, stdin) != *len) exit(2);
    return to;
}

static void put(const void *numbers, size_t size)
{
    const uint64_t *n = numbers;
    for (size_t i = 0; i < size / sizeof *n; i++) {
        for (int shift = 56; shift >= 0; shift -= 8) putchar((int)(n[i] >> shift & 255));
    }
}

/* A buffer before a call, after it, and what garumbott_record wrote to its like. */
struct buffer {
    uint8_t before[LONGEST], after[LONGEST], wide[LONGEST];
};
static struct buffer transcript, reference, altered;

static void fill(struct buffer *b, uint64_t room)
{
    for (uint64_t i = 0; i < room + 64; i++) b->before[i] = b->after[i] = (uint8_t)(0xA5u ^ (i * 29u) ^ (i >> 8));
}

static int holds(const struct buffer *b, uint64_t room, uint64_t written)
{
    return memcmp(b->after, b->wide, written) == 0 && memcmp(b->after + written, b->before + written, room + 64 - written) == 0;
}

int main(void)
{
    static uint8_t letters[LONGEST], exceptions[LONGEST], bases[LONGEST], deleted[LONGEST], inserted[LONGEST];
    static const struct garumbott_buffers wide = {transcript.wide, LONGEST, reference.wide, LONGEST, altered.wide, LONGEST};
    for (int c = getchar(); c != EOF; c = getchar()) {
        struct garumbott_reference r = {0};
        struct garumbott_coding_edit e = {0};
        ungetc(c, stdin);
        r.letters = string(letters, &r.letters_len);
        r.cs = number();
        r.ce = number();
        r.table = number();
        r.exceptions = string(exceptions, &r.exceptions_len);
        r.end = number();
        e.kind = number();
        e.start_star = number();
        e.start = signed_number();
        e.end_star = number();
        e.end = signed_number();
        e.bases = string(bases, &e.bases_len);
        struct garumbott_buffers b = {transcript.after, 0, reference.after, 0, altered.after, 0};
        b.transcript_len = number();
        b.reference_len = number();
        b.altered_len = number();
        if (b.transcript_len > LONGEST - 64 || b.reference_len > LONGEST - 64 || b.altered_len > LONGEST - 64) exit(2);
        struct garumbott_answer a = garumbott_record_of(&r, &e, &wide);
        put(&a, sizeof a);
        fwrite(transcript.wide, 1, a.transcript_len, stdout);
        fwrite(reference.wide, 1, a.reference_len, stdout);
        fwrite(altered.wide, 1, a.altered_len, stdout);
        for (uint64_t left = number(); left != 0; left--) {
            uint64_t n = number(), deleted_len, inserted_len, state;
            string(deleted, &deleted_len);
            string(inserted, &inserted_len);
            fill(&transcript, b.transcript_len);
            fill(&reference, b.reference_len);
            fill(&altered, b.altered_len);
            struct garumbott_checked checked = garumbott_check_of(&r, &e, n, deleted, deleted_len, inserted, inserted_len, &b);
            int kept = holds(&transcript, b.transcript_len, 0) && holds(&reference, b.reference_len, 0) && holds(&altered, b.altered_len, 0);
            int written = a.transcript_len <= b.transcript_len && a.reference_len <= b.reference_len && a.altered_len <= b.altered_len
                && holds(&transcript, b.transcript_len, a.transcript_len) && holds(&reference, b.reference_len, a.reference_len)
                && holds(&altered, b.altered_len, a.altered_len);
            state = kept ? 0 : written ? 1 : 2;
            put(&checked, sizeof checked);
            put(&state, sizeof state);
        }
    }
    return ferror(stdin) || fflush(stdout) != 0 || ferror(stdout) ? 2 : 0;
}
