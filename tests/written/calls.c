/* Writes references, and rewrites stored forms, as standard input says, and tells every answer on standard output, for check.py.
 *
 * Input, each number in eight bytes, high byte first, each string behind its length. 1 and a reference: letters, cs, ce, table, exceptions, end, and the room. 2 and a
 * stored form: its bytes, and the room.
 * Output: of a stored form first what garumbott_read_stored refuses it with, and nothing more of one that is refused; then what garumbott_write_stored answers (two
 * numbers), what garumbott_stored_room says, the bytes written, and a number for the buffer: 0, no byte has changed; 1, what was written stands at its start and every
 * byte behind it is as it was; 2, neither. Where something was written, last, whether it reads back as the same reference: 1 or 0. */
#include "garumbott.h"
#include <stdio.h>
#include <stdlib.h>
#include <string.h>

enum { LONGEST = 1 << 18 };

static uint8_t byte(void)
{
    int c = getchar();
    if (c == EOF) exit(2);
    return (uint8_t)c;
}

static uint64_t number(void)
{
    uint64_t n = 0;
    for (int i = 0; i < 8; i++) n = n << 8 | byte();
    return n;
}

static const uint8_t *string(uint8_t *to, uint64_t *len)
{
    *len = number();
    if (*len > LONGEST || fread(to, 1, *len, stdin) != *len) exit(2);
    return to;
}

static void put(uint64_t n)
{
    for (int shift = 56; shift >= 0; shift -= 8) putchar((int)(n >> shift & 255));
}

static uint8_t before[LONGEST + 64], after[LONGEST + 64], joined[LONGEST], again[LONGEST];

static int same(const uint8_t *a, uint64_t a_len, const uint8_t *b, uint64_t b_len)
{
    return a_len == b_len && (a_len == 0 || memcmp(a, b, a_len) == 0);
}

static int reads_back(const struct garumbott_reference *r, const uint8_t *form, uint64_t len)
{
    struct garumbott_stored s = garumbott_read_stored(form, len, again, sizeof again);
    struct garumbott_reference q = garumbott_reference_at(&s, form, again);
    return s.refusal == 0 && q.cs == r->cs && q.ce == r->ce && q.table == r->table && q.end == r->end && same(q.letters, q.letters_len, r->letters, r->letters_len)
        && same(q.exceptions, q.exceptions_len, r->exceptions, r->exceptions_len);
}

static void write_it(const struct garumbott_reference *r, uint64_t room)
{
    if (room > LONGEST) exit(2);
    for (uint64_t i = 0; i < room + 64; i++) before[i] = after[i] = (uint8_t)(0xA5u ^ (i * 29u) ^ (i >> 8));
    struct garumbott_length w = garumbott_write_stored_of(r, after, room);
    put(w.refusal);
    put(w.len);
    put(garumbott_stored_room(r->letters_len, r->exceptions_len, r->end));
    if (w.len > room) exit(2);
    fwrite(after, 1, w.len, stdout);
    put(memcmp(after, before, room + 64) == 0 ? 0 : memcmp(after + w.len, before + w.len, room + 64 - w.len) == 0 ? 1 : 2);
    if (w.refusal == 0) put((uint64_t)reads_back(r, after, w.len));
}

int main(void)
{
    static uint8_t letters[LONGEST], exceptions[LONGEST], form[LONGEST];
    for (int c = getchar(); c != EOF; c = getchar()) {
        ungetc(c, stdin);
        if (number() == 1) {
            struct garumbott_reference r = {0};
            r.letters = string(letters, &r.letters_len);
            r.cs = number();
            r.ce = number();
            r.table = number();
            r.exceptions = string(exceptions, &r.exceptions_len);
            r.end = number();
            write_it(&r, number());
        } else {
            uint64_t len, room;
            string(form, &len);
            room = number();
            struct garumbott_stored s = garumbott_read_stored(form, len, joined, sizeof joined);
            put(s.refusal);
            if (s.refusal != 0) continue;
            struct garumbott_reference r = garumbott_reference_at(&s, form, joined);
            write_it(&r, room);
        }
    }
    return ferror(stdin) || fflush(stdout) != 0 || ferror(stdout) ? 2 : 0;
}
