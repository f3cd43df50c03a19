/* Compares the references that standard input names, two at a time, by garumbott_compare_of, and writes every answer to standard output, for editions.py. All that is
 * lent to the call stands between fences (tests/host/fence.h).
 *
 * Input, each number in eight bytes, high byte first, each string behind its length: the number of references; for each its letters, cs, ce, table, exceptions
 * and end; then, for a pair, the places of its two references and the room in the buffer.
 * Output: refusal and length, and the bytes that were written; then a byte: 1 where every byte behind them, or every byte of the buffer after a refusal, and every
 * other byte that was lent, is as it was before the call, else 0. */
#include "garumbott.h"
#include "../host/fence.h"
#include <stdio.h>
#include <stdlib.h>
#include <string.h>

enum { ROOM = 1 << 18, SMALL = 256 };

static uint64_t number(void)
{
    uint64_t n = 0;
    for (int i = 0; i < 8; i++) {
        int c = getchar();
        if (c == EOF) exit(i == 0 ? 0 : 2);
        n = n << 8 | (uint64_t)c;
    }
    return n;
}

static const uint8_t *string(uint64_t *len)
{
    *len = number();
    uint8_t *bytes = malloc(*len + 1);
    if (bytes == NULL || fread(bytes, 1, *len, stdin) != *len) exit(2);
    return bytes;
}

static void put(uint64_t n)
{
    for (int shift = 56; shift >= 0; shift -= 8) putchar((int)(n >> shift & 255));
}

/* What a pair is lent: letters and exceptions of both, and the buffer. */
enum { LETTERS, EXCEPTIONS, SECOND_LETTERS, SECOND_EXCEPTIONS, OUT, FENCES };
static struct fence large[FENCES], small[FENCES];

static void lend(struct garumbott_reference *r, struct fence *fences, int letters, enum fence_side side)
{
    r->letters = fence_fill(&fences[letters], side, r->letters, r->letters_len);
    r->exceptions = fence_fill(&fences[letters + 1], side, r->exceptions, r->exceptions_len);
}

int main(void)
{
    uint64_t count = number();
    struct garumbott_reference *references = calloc(count + 1, sizeof *references);
    if (references == NULL) return 2;
    for (uint64_t i = 0; i < count; i++) {
        struct garumbott_reference *r = &references[i];
        r->letters = string(&r->letters_len);
        r->cs = number();
        r->ce = number();
        r->table = number();
        r->exceptions = string(&r->exceptions_len);
        r->end = number();
    }
    for (int i = 0; i < FENCES; i++) fence_make(&large[i], ROOM), fence_make(&small[i], SMALL);
    for (uint64_t turn = 0;; turn++) {
        uint64_t first = number(), second = number(), room = number();
        if (first >= count || second >= count || room > ROOM) return 2;
        enum fence_side side = turn % 2 == 0 ? FENCE_END : FENCE_START;
        struct garumbott_reference r = references[first], s = references[second];
        struct fence *fences = r.letters_len < SMALL && s.letters_len < SMALL && room < SMALL ? small : large;
        lend(&r, fences, LETTERS, side);
        lend(&s, fences, SECOND_LETTERS, side);
        uint8_t *out = fence_fill(&fences[OUT], side, NULL, room);
        struct garumbott_length a = garumbott_compare_of(&r, &s, out, room);
        int kept = a.len <= room && fence_check(&fences[OUT], NULL, a.len);
        for (int i = LETTERS; i < OUT; i++) kept = kept && fence_check(&fences[i], NULL, 0);
        put(a.refusal);
        put(a.len);
        if (a.len <= room) fwrite(out, 1, a.len, stdout);
        putchar(kept);
    }
}
