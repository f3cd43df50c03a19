/* Calls the library as standard input says, and writes every answer and all bytes of the lent buffers to standard output, for ends.py.
 *
 * Input, each number a byte, each string behind its length: for a reference its letters, cs, ce, table, exceptions, end and stored form, then the number
 * of edits in two bytes, high byte first; for an edit its kind, start_star, start, end_star, end, new bases, and the room in each of the three buffers.
 * Output: for a reference what garumbott_read_stored answers; for an edit what garumbott_record answers and the buffers, the same of garumbott_edit, and,
 * where the stored form wasn't refused, of garumbott_record on what was read; then 1 or 0, whether garumbott_check fits that, and the codons that garumbott_record looks
 * up where it has all the room there is. A number is a byte, 255 for every number that is too large for one. */
#include "garumbott.h"
#include <stdio.h>
#include <stdlib.h>
#include <string.h>

/* The three buffers, in a row and each longer than any room that is lent, and what they hold before a call: it differs from place to place. */
enum { TRANSCRIPT = 28, REFERENCE = 5, ALTERED = 11, ALL = TRANSCRIPT + REFERENCE + ALTERED };
static const uint8_t before[] = "abcdefghijklmnopqrstuvwxyz{|" "abcde" "abcdefghijk";
static uint8_t lent[ALL], in[1 << 16], out[1 << 16];
static size_t in_at, in_len, out_len;

static int is_more(void)
{
    if (in_at == in_len) in_at = 0, in_len = fread(in, 1, sizeof in, stdin);
    return in_len != 0;
}

static uint8_t byte(void)
{
    if (!is_more()) exit(2);
    return in[in_at++];
}

static void flush(void)
{
    if (fwrite(out, 1, out_len, stdout) != out_len) exit(2);
    out_len = 0;
}

static int64_t signed_byte(void)
{
    uint8_t b = byte();
    return b < 128 ? b : b - 256;
}

static const uint8_t *string(uint8_t *to, uint64_t *len)
{
    *len = byte();
    for (uint64_t i = 0; i < *len; i++) to[i] = byte();
    return to;
}

static void put(const void *numbers, size_t size)
{
    const uint64_t *n = numbers;
    if (sizeof out - out_len < size + ALL + 2) flush();
    for (size_t i = 0; i < size / sizeof *n; i++) out[out_len++] = n[i] < 255 ? (uint8_t)n[i] : 255;
}

static void call(int alone, const struct garumbott_reference *r, const struct garumbott_coding_edit *e, const struct garumbott_buffers *b)
{
    memcpy(lent, before, ALL);
    struct garumbott_answer a = alone ? garumbott_edit_of(r, e, b) : garumbott_record_of(r, e, b);
    put(&a, sizeof a);
    memcpy(out + out_len, lent, ALL);
    out_len += ALL;
}

/* Whether garumbott_check gives the first yes to what garumbott_record answers, the second where the flag isn't set or the parts end otherwise, and writes the
 * same; or refuses, where that isn't Changed, with its number or 26, although the proposal is wrong too, and writes nothing. */
static uint8_t check_fits(const struct garumbott_reference *r, const struct garumbott_coding_edit *e, const struct garumbott_buffers *b)
{
    uint8_t written[ALL], deleted[REFERENCE], inserted[ALTERED];
    struct garumbott_checked want = {0};
    memcpy(lent, before, ALL);
    struct garumbott_answer a = garumbott_record_of(r, e, b);
    memcpy(written, lent, ALL);
    memset(deleted, 'k', sizeof deleted);
    if (a.answer == GARUMBOTT_CHANGED) {
        memcpy(deleted, b->reference + a.deleted_at, a.deleted_len);
        memcpy(inserted, b->altered + a.inserted_at, a.inserted_len);
        want = (struct garumbott_checked){0, 1, 1, a.transcript_len, a.reference_len, a.altered_len};
        if (a.frameshift && a.deleted_len != 0 && a.inserted_len != 0) want.shortest = deleted[a.deleted_len - 1] != inserted[a.inserted_len - 1];
    } else {
        want.refusal = a.refusal != 0 ? a.refusal : GARUMBOTT_REFUSAL_NOT_CHANGED;
        memcpy(written, before, ALL);
        a.deleted_len = 1;
    }
    memcpy(lent, before, ALL);
    struct garumbott_checked got = garumbott_check_of(r, e, a.number, deleted, a.deleted_len, inserted, a.inserted_len, b);
    return memcmp(&got, &want, sizeof got) == 0 && memcmp(lent, written, ALL) == 0;
}

int main(void)
{
    static uint8_t letters[256], exceptions[256], form[256], bases[256];
    while (is_more()) {
        struct garumbott_reference r = {0};
        uint64_t len;
        r.letters = string(letters, &r.letters_len);
        r.cs = byte();
        r.ce = byte();
        r.table = byte();
        r.exceptions = string(exceptions, &r.exceptions_len);
        r.end = byte();
        string(form, &len);
        struct garumbott_stored s = garumbott_read_stored(form, len, NULL, 0);
        struct garumbott_reference found = garumbott_reference_at(&s, form, NULL);
        put(&s, sizeof s);
        uint64_t edits = byte() * UINT64_C(256);
        for (edits += byte(); edits != 0; edits--) {
            struct garumbott_coding_edit e = {0};
            e.kind = byte();
            e.start_star = byte();
            e.start = signed_byte();
            e.end_star = byte();
            e.end = signed_byte();
            e.bases = string(bases, &e.bases_len);
            struct garumbott_buffers b = {lent, 0, lent + TRANSCRIPT, 0, lent + TRANSCRIPT + REFERENCE, 0};
            b.transcript_len = byte();
            b.reference_len = byte();
            b.altered_len = byte();
            if (b.transcript_len >= TRANSCRIPT || b.reference_len >= REFERENCE || b.altered_len >= ALTERED) exit(2);
            call(0, &r, &e, &b);
            call(1, &r, &e, &b);
            if (s.refusal == 0) call(0, &found, &e, &b);
            out[out_len++] = check_fits(&r, &e, &b);
            struct garumbott_buffers all = {lent, TRANSCRIPT, lent + TRANSCRIPT, REFERENCE, lent + TRANSCRIPT + REFERENCE, ALTERED};
            out[out_len++] = (uint8_t)garumbott_record_of(&r, &e, &all).codons;
        }
    }
    flush();
    return ferror(stdin) || fflush(stdout) != 0 ? 2 : 0;
}
