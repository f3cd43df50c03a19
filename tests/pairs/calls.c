/* Calls garumbott_pair for every ordered pair of the edits that standard input gives, and writes every answer and all bytes of the lent buffers to standard
 * output, for pairs.py.
 *
 * Input, each number a byte, each string behind its length: for a reference its letters, cs, ce, table, exceptions and end, then the number of edits in two
 * bytes, high byte first; for an edit its kind, start_star, start, end_star, end and new bases.
 * Output: for each pair, the second edit running faster, the three numbers of the answer, a byte each, the two buffers, and 1 or 0, whether the answer is the
 * same with exactly the room that 11 and 12 ask for, and one byte less of either is refused with 11 or 12 and leaves the buffers. */
#include "garumbott.h"
#include <stdio.h>
#include <stdlib.h>
#include <string.h>

/* The two buffers, in a row, and what they hold before a call: it differs from place to place. */
enum { TRANSCRIPT = 60, ALTERED = 22, ALL = TRANSCRIPT + ALTERED, EDITS = 1024 };
static uint8_t before[ALL], lent[ALL], out[1 << 16], texts[EDITS][16];
static struct garumbott_coding_edit edits[EDITS];
static size_t out_len;

static int next(void)
{
    return getchar();
}

static uint8_t byte(void)
{
    int c = next();
    if (c == EOF) exit(2);
    return (uint8_t)c;
}

static int64_t signed_byte(void)
{
    uint8_t b = byte();
    return b < 128 ? b : b - 256;
}

static uint64_t string(uint8_t *to, uint64_t room)
{
    uint64_t len = byte();
    if (len > room) exit(2);
    for (uint64_t i = 0; i < len; i++) to[i] = byte();
    return len;
}

static void put(const void *from, size_t len)
{
    if (sizeof out - out_len < len) {
        if (fwrite(out, 1, out_len, stdout) != out_len) exit(2);
        out_len = 0;
    }
    memcpy(out + out_len, from, len);
    out_len += len;
}

static struct garumbott_paired call(const struct garumbott_reference *r, const struct garumbott_coding_edit *e,
                                    const struct garumbott_coding_edit *f, uint64_t transcript, uint64_t altered)
{
    struct garumbott_buffers b = {lent, transcript, NULL, 0, lent + TRANSCRIPT, altered};
    memcpy(lent, before, ALL);
    return garumbott_pair_of(r, e, f, &b);
}

static int is_refused(struct garumbott_paired p, uint64_t number)
{
    return p.refusal == number && p.transcript_len == 0 && p.altered_len == 0 && memcmp(lent, before, ALL) == 0;
}

/* Whether the room that an answer asks for is exactly what it says. */
static uint8_t room_fits(const struct garumbott_reference *r, const struct garumbott_coding_edit *e, const struct garumbott_coding_edit *f,
                         struct garumbott_paired want)
{
    uint8_t written[ALL];
    uint64_t n = want.transcript_len, residues = (n - r->cs + 3) / 3;
    memcpy(written, lent, ALL);
    struct garumbott_paired got = call(r, e, f, n, residues);
    if (memcmp(&got, &want, sizeof got) != 0 || memcmp(lent, written, ALL) != 0) return 0;
    return is_refused(call(r, e, f, n - 1, 0), GARUMBOTT_REFUSAL_TRANSCRIPT_ROOM)
           && is_refused(call(r, e, f, n, residues - 1), GARUMBOTT_REFUSAL_PROTEIN_ROOM);
}

static void pair(const struct garumbott_reference *r, const struct garumbott_coding_edit *e, const struct garumbott_coding_edit *f)
{
    struct garumbott_paired p = call(r, e, f, TRANSCRIPT, ALTERED);
    uint8_t numbers[3] = {(uint8_t)p.refusal, (uint8_t)p.transcript_len, (uint8_t)p.altered_len};
    if (p.refusal > 255 || p.transcript_len > TRANSCRIPT || p.altered_len > ALTERED) exit(2);
    put(numbers, sizeof numbers);
    put(lent, ALL);
    uint8_t fits = p.refusal != 0 || room_fits(r, e, f, p);
    put(&fits, 1);
}

/* The longest reference, ATG, 43,688 times GCC, TAA and two bases more: `4_6del` with `100000_100001insAAC`, in both orders. */
static int is_long_right(void)
{
    enum { LONGEST = 131072, MOST = LONGEST + 1, FIRST = 3, GAP = 100000 };
    static uint8_t letters[LONGEST], want[MOST], got[MOST], residues[MOST], protein[MOST];
    memcpy(letters, "ATG", 3);
    for (int i = 3; i < LONGEST - 5; i++) letters[i] = (uint8_t)"GCC"[i % 3];
    memcpy(letters + LONGEST - 5, "TAACC", 5);
    struct garumbott_reference r = {.letters = letters, .letters_len = LONGEST, .cs = 1, .ce = LONGEST - 2};
    struct garumbott_coding_edit gone = {.kind = GARUMBOTT_DELETION, .start = FIRST + 1, .end = FIRST + 3};
    struct garumbott_coding_edit come = {.kind = GARUMBOTT_INSERTION, .start = GAP, .end = GAP + 1, .bases = (const uint8_t *)"AAC", .bases_len = 3};
    memcpy(want, letters, FIRST);
    memcpy(want + FIRST, letters + FIRST + 3, GAP - FIRST - 3);
    memcpy(want + GAP - 3, "AAC", 3);
    memcpy(want + GAP, letters + GAP, LONGEST - GAP);
    struct garumbott_length read = garumbott_translate(want, LONGEST, 0, 0, NULL, 0, residues, sizeof residues);
    uint64_t stop = 0;
    while (stop < read.len && residues[stop] != '*') stop++;
    for (int order = 0; order < 2; order++) {
        struct garumbott_buffers b = {got, sizeof got, NULL, 0, protein, sizeof protein};
        memset(got, 0, sizeof got);
        struct garumbott_paired p = order == 0 ? garumbott_pair_of(&r, &gone, &come, &b) : garumbott_pair_of(&r, &come, &gone, &b);
        if (read.refusal != 0 || p.refusal != 0 || p.transcript_len != LONGEST || memcmp(got, want, LONGEST) != 0) return 0;
        if (p.altered_len != stop + 1 || memcmp(protein, residues, p.altered_len) != 0) return 0;
    }
    return 1;
}

int main(void)
{
    static uint8_t letters[64], exceptions[64];
    int c;
    if (!is_long_right()) exit(3);
    for (int i = 0; i < ALL; i++) before[i] = (uint8_t)('a' + i % 26);
    while ((c = next()) != EOF) {
        if (ungetc(c, stdin) == EOF) exit(2);
        struct garumbott_reference r = {0};
        r.letters = letters;
        r.letters_len = string(letters, sizeof letters);
        r.cs = byte();
        r.ce = byte();
        r.table = byte();
        r.exceptions = exceptions;
        r.exceptions_len = string(exceptions, sizeof exceptions);
        r.end = byte();
        int n = byte() * 256;
        n += byte();
        if (n > EDITS) exit(2);
        for (int i = 0; i < n; i++) {
            struct garumbott_coding_edit *e = &edits[i];
            e->kind = byte();
            e->start_star = byte();
            e->start = signed_byte();
            e->end_star = byte();
            e->end = signed_byte();
            e->bases = texts[i];
            e->bases_len = string(texts[i], sizeof texts[i]);
        }
        for (int i = 0; i < n; i++)
            for (int j = 0; j < n; j++) pair(&r, &edits[i], &edits[j]);
    }
    if (fwrite(out, 1, out_len, stdout) != out_len) exit(2);
    return ferror(stdin) || fflush(stdout) != 0 ? 2 : 0;
}
