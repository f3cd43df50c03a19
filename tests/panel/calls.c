/* Calls garumbott_panel as standard input says, and writes every answer and all bytes of the lent buffers to standard output, for panel.py.
 *
 * Input, each number a byte, each string behind its length: for a reference its letters, cs, ce, table and end, then the number of edits in two bytes, high
 * byte first; for an edit its kind, start_star, start, end_star, end, new bases, longest edit, the named base in eight bytes, and the room in each of the three
 * buffers. Output: for an edit what garumbott_panel answers, each number a byte, and the buffers; then 1 or 0, whether that is what garumbott_record answers and
 * writes, or a refusal of 40 to 43 where that isn't refused with 62 or 1 to 10. */
#include "garumbott.h"
#include <stdio.h>
#include <stdlib.h>
#include <string.h>

enum { TRANSCRIPT = 28, REFERENCE = 5, ALTERED = 11, ALL = TRANSCRIPT + REFERENCE + ALTERED };
static const uint8_t before[] = "abcdefghijklmnopqrstuvwxyz{|" "abcde" "abcdefghijk";
static uint8_t lent[ALL], in[1 << 16];
static size_t in_at, in_len;

static int is_more(void)
{
    if (in_at == in_len) in_at = 0, in_len = fread(in, 1, sizeof in, stdin);
    return in_len != 0;
}

static uint8_t byte(void)
{
    if (!is_more()) exit(2);
    return in[in_at++];
}

static int64_t signed_byte(void)
{
    uint8_t b = byte();
    return b < 128 ? b : b - 256;
}

static uint64_t two_bytes(void)
{
    uint64_t high = byte();
    return high * 256 + byte();
}

static uint64_t eight_bytes(void)
{
    uint64_t n = 0;
    for (int i = 0; i < 8; i++) n = n << 8 | byte();
    return n;
}

static const uint8_t *string(uint8_t *to, uint64_t *len)
{
    *len = byte();
    for (uint64_t i = 0; i < *len; i++) to[i] = byte();
    return to;
}

static void put(const void *numbers, size_t size)
{
    const uint64_t *n = numbers;
    for (size_t i = 0; i < size / sizeof *n; i++) putchar(n[i] < 255 ? (int)n[i] : 255);
}

/* Whether an answer is the full module's, or one of the profile's own refusals behind its tests. */
static int fits(const struct garumbott_answer *a, const uint8_t *written, const struct garumbott_answer *full)
{
    if (a->refusal < 40 || a->refusal > 43) return memcmp(a, full, sizeof *a) == 0 && memcmp(written, lent, ALL) == 0;
    return memcmp(written, before, ALL) == 0 && (full->refusal == 0 || full->refusal == 11 || full->refusal == 12);
}

int main(void)
{
    static uint8_t letters[256], bases[256], written[ALL];
    while (is_more()) {
        struct garumbott_reference r = {0};
        r.letters = string(letters, &r.letters_len);
        r.cs = byte();
        r.ce = byte();
        r.table = byte();
        r.end = byte();
        for (uint64_t edits = two_bytes(); edits != 0; edits--) {
            struct garumbott_coding_edit e = {0};
            e.kind = byte();
            e.start_star = byte();
            e.start = signed_byte();
            e.end_star = byte();
            e.end = signed_byte();
            e.bases = string(bases, &e.bases_len);
            e.longest = byte();
            uint64_t named = eight_bytes();
            struct garumbott_buffers b = {lent, 0, lent + TRANSCRIPT, 0, lent + TRANSCRIPT + REFERENCE, 0};
            b.transcript_len = byte();
            b.reference_len = byte();
            b.altered_len = byte();
            if (b.transcript_len >= TRANSCRIPT || b.reference_len >= REFERENCE || b.altered_len >= ALTERED) exit(2);
            memcpy(lent, before, ALL);
            struct garumbott_answer a = garumbott_panel_of(&r, &e, named, &b);
            memcpy(written, lent, ALL);
            memcpy(lent, before, ALL);
            struct garumbott_answer full = garumbott_record_of(&r, &e, &b);
            put(&a, sizeof a);
            fwrite(written, 1, ALL, stdout);
            putchar(fits(&a, written, &full));
        }
    }
    return ferror(stdin) || fflush(stdout) != 0 || ferror(stdout) ? 2 : 0;
}
