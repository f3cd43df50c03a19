/* Calls the library as standard input says, and writes every answer and all bytes of the lent buffers to standard output, for packed.py.
 *
 * Input: a byte that says what follows.
 *   'p' letters, each string behind its length in eight bytes, high byte first as in every number: packs them.
 *   'r' an edit of a reference: its bytes, form, size, cs, ce, table, exceptions and end, kind, start_star, start, end_star, end, new bases, longest edit, the room
 *       in each of the three buffers, and a proposal's number, deleted and inserted residues.
 *   'o' two edits of a reference, the base that the first names, and a second reference, both as for 'r', and the room of the buffers: of a transcript, R, A, a
 *       list of differences and a stored form.
 * Output: of 'p' what garumbott_pack answers into a buffer that has room, and one that is a byte too short, and the first buffer's bytes. Of 'r' what garumbott_record
 * answers and the three buffers, what garumbott_edit answers and the transcript's buffer, and what garumbott_check answers and the three buffers. Of 'o' what
 * garumbott_pair, garumbott_panel, garumbott_compare and garumbott_write_stored answer, each before its buffers. */
#include "garumbott.h"
#include <stdio.h>
#include <stdlib.h>
#include <string.h>

enum { MOST = 1 << 18 };

/* A byte of the input, or -1 behind its end. */
static int next(void)
{
    static uint8_t held[1 << 16];
    static size_t at, len;
    if (at == len) {
        at = 0;
        len = fread(held, 1, sizeof held, stdin);
        if (len == 0) return -1;
    }
    return held[at++];
}

static uint8_t byte(void)
{
    int c = next();
    if (c < 0) exit(2);
    return (uint8_t)c;
}

static uint64_t number(void)
{
    uint64_t n = 0;
    for (int i = 0; i < 8; i++) n = n << 8 | byte();
    return n;
}

static int64_t signed_number(void)
{
    uint64_t n = number();
    int64_t s;
    memcpy(&s, &n, sizeof s);
    return s;
}

static const uint8_t *string(uint8_t *to, uint64_t *len)
{
    *len = number();
    if (*len > MOST) exit(2);
    for (uint64_t i = 0; i < *len; i++) to[i] = byte();
    return to;
}

static void put(const void *numbers, size_t size)
{
    const uint64_t *n = numbers;
    uint8_t bytes[256];
    for (size_t i = 0; i < size; i++) bytes[i] = (uint8_t)(n[i / 8] >> (56 - i % 8 * 8));
    fwrite(bytes, 1, size, stdout);
}

/* What the buffers hold before a call: it differs from place to place. */
static void fill(uint8_t *b, uint64_t room)
{
    if (room > MOST) exit(2);
    for (uint64_t i = 0; i < room; i++) b[i] = (uint8_t)(97 + i % 26);
}

static uint8_t letters[MOST], exceptions[MOST], bases[MOST], deleted[MOST], inserted[MOST], transcript[MOST], reference[MOST], altered[MOST];

static void pack(void)
{
    uint64_t n;
    string(letters, &n);
    fill(transcript, GARUMBOTT_PACKED_BYTES(n));
    fill(reference, GARUMBOTT_PACKED_BYTES(n));
    struct garumbott_length l = garumbott_pack(letters, n, transcript, GARUMBOTT_PACKED_BYTES(n));
    struct garumbott_length s = garumbott_pack(letters, n, reference, n == 0 ? 0 : GARUMBOTT_PACKED_BYTES(n) - 1);
    put(&l, sizeof l);
    put(&s, sizeof s);
    fwrite(transcript, 1, GARUMBOTT_PACKED_BYTES(n), stdout);
    fwrite(reference, 1, GARUMBOTT_PACKED_BYTES(n), stdout);
}

static void reference_of(struct garumbott_reference *r, uint8_t *l, uint8_t *x)
{
    r->letters = string(l, &r->letters_len);
    r->form = number();
    r->size = number();
    r->cs = number();
    r->ce = number();
    r->table = number();
    r->exceptions = string(x, &r->exceptions_len);
    r->end = number();
}

static void edit_of(struct garumbott_coding_edit *e, uint8_t *new)
{
    e->kind = number();
    e->start_star = number();
    e->start = signed_number();
    e->end_star = number();
    e->end = signed_number();
    e->bases = string(new, &e->bases_len);
    e->longest = number();
}

static void fill_all(const struct garumbott_buffers *b)
{
    fill(transcript, b->transcript_len);
    fill(reference, b->reference_len);
    fill(altered, b->altered_len);
}

/* A call's numbers, and all bytes of the three buffers. */
static void put_all(const void *numbers, size_t size, const struct garumbott_buffers *b)
{
    put(numbers, size);
    fwrite(transcript, 1, b->transcript_len, stdout);
    fwrite(reference, 1, b->reference_len, stdout);
    fwrite(altered, 1, b->altered_len, stdout);
}

static void call(void)
{
    struct garumbott_reference r = {0};
    struct garumbott_coding_edit e = {0};
    struct garumbott_buffers b = {transcript, 0, reference, 0, altered, 0};
    uint64_t n, deleted_len, inserted_len;
    reference_of(&r, letters, exceptions);
    edit_of(&e, bases);
    b.transcript_len = number();
    b.reference_len = number();
    b.altered_len = number();
    n = number();
    string(deleted, &deleted_len);
    string(inserted, &inserted_len);
    fill_all(&b);
    struct garumbott_answer a = garumbott_record_of(&r, &e, &b);
    put_all(&a, sizeof a, &b);
    fill(transcript, b.transcript_len);
    a = garumbott_edit_of(&r, &e, &b);
    put(&a, sizeof a);
    fwrite(transcript, 1, b.transcript_len, stdout);
    fill_all(&b);
    struct garumbott_checked c = garumbott_check_of(&r, &e, n, deleted, deleted_len, inserted, inserted_len, &b);
    put_all(&c, sizeof c, &b);
}

static void others(void)
{
    static uint8_t second_letters[MOST], second_exceptions[MOST], second_bases[MOST], list[MOST], form[MOST];
    struct garumbott_reference r = {0}, s = {0};
    struct garumbott_coding_edit e = {0}, f = {0};
    struct garumbott_buffers b = {transcript, 0, reference, 0, altered, 0};
    reference_of(&r, letters, exceptions);
    edit_of(&e, bases);
    edit_of(&f, second_bases);
    uint64_t named = number();
    reference_of(&s, second_letters, second_exceptions);
    b.transcript_len = number();
    b.reference_len = number();
    b.altered_len = number();
    uint64_t list_len = number(), form_len = number();
    fill_all(&b);
    struct garumbott_paired p = garumbott_pair_of(&r, &e, &f, &b);
    put_all(&p, sizeof p, &b);
    fill_all(&b);
    struct garumbott_answer a = garumbott_panel_of(&r, &e, named, &b);
    put_all(&a, sizeof a, &b);
    fill(list, list_len);
    struct garumbott_length l = garumbott_compare_of(&r, &s, list, list_len);
    put(&l, sizeof l);
    fwrite(list, 1, list_len, stdout);
    fill(form, form_len);
    l = garumbott_write_stored_of(&r, form, form_len);
    put(&l, sizeof l);
    fwrite(form, 1, form_len, stdout);
}

int main(void)
{
    for (int c = next(); c >= 0; c = next()) {
        if (c == 'p') pack();
        else if (c == 'o') others();
        else call();
    }
    return ferror(stdin) || fflush(stdout) != 0 || ferror(stdout) ? 2 : 0;
}
