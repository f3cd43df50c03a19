/* Edits long references and reads stored forms, as standard input says, and tells every answer on standard output, for check.py.
 *
 * Input, each number in eight bytes, high byte first, each string behind its length:
 *   1   a reference for the edits that follow: letters, cs, ce, table, exceptions, end. No output.
 *   2   an edit of it: kind, start_star, start, end_star, end, new bases. Output: the answer's fourteen numbers; for each of the three buffers, which are as long as
 *       the header's rooms, the CRC-32 of what was written, and 1 where every byte behind it is as it was, else 0; and 1 or 0, whether garumbott_edit answers
 *       likewise, and the rooms that 11 and 12 ask for are exact: these give the same, and a byte less of one of the three gives 11, 12, 12 and leaves the buffers.
 *   3   a stored form: its bytes, and how many are lent for joined letters. Output: the answer's ten numbers; the CRC-32 of the letters and of the exceptions, where
 *       it says they are; a number for the buffer: 0, no byte has changed; 1, as many as the letters are have been written at its start, and no other byte has
 *       changed; 2, neither; and the length and the CRC-32 of the form that the reference is written in again.
 *   4   a text for garumbott_run. Output: its two numbers, and the CRC-32 of what it wrote. */
#include "garumbott.h"
#include <stdio.h>
#include <stdlib.h>
#include <string.h>

enum { MOST = 1 << 18, BEHIND = 64 };

static uint32_t table[256];

static void make_table(void)
{
    for (uint32_t i = 0; i < 256; i++) {
        uint32_t c = i;
        for (int k = 0; k < 8; k++) c = (c & 1) != 0 ? 0xEDB88320u ^ c >> 1 : c >> 1;
        table[i] = c;
    }
}

static uint32_t crc(const uint8_t *from, uint64_t len)
{
    uint32_t c = 0xFFFFFFFFu;
    for (uint64_t i = 0; i < len; i++) c = table[(c ^ from[i]) & 255] ^ c >> 8;
    return c ^ 0xFFFFFFFFu;
}

static uint8_t byte(void)
{
    int c = getchar();
    if (c == EOF) exit(2);
    return (uint8_t)c;
}

static uint64_t number(void)
{
    uint64_t n = 0;
    for (int i = 0; i < 8; i++) n = n << 8 | byte();
    return n;
}

static const uint8_t *string(uint8_t *to, uint64_t *len)
{
    *len = number();
    if (*len > MOST || fread(to, 1, *len, stdin) != *len) exit(2);
    return to;
}

static void put(uint64_t n)
{
    for (int shift = 56; shift >= 0; shift -= 8) putchar((int)(n >> shift & 255));
}

/* What buffers hold before a call: it differs from place to place, and no byte of it is a letter or a residue. */
static uint8_t before[MOST + BEHIND];
static uint8_t transcript[GARUMBOTT_TRANSCRIPT_ROOM + BEHIND], R[GARUMBOTT_REFERENCE_ROOM + BEHIND], A[GARUMBOTT_ALTERED_ROOM + BEHIND], joined[MOST + BEHIND];

static int unchanged(const uint8_t *buffer, uint64_t from, uint64_t size)
{
    return memcmp(buffer + from, before + from, size - from) == 0;
}

static void renew(void)
{
    memcpy(transcript, before, sizeof transcript);
    memcpy(R, before, sizeof R);
    memcpy(A, before, sizeof A);
}

static int all_unchanged(void)
{
    return unchanged(transcript, 0, sizeof transcript) && unchanged(R, 0, sizeof R) && unchanged(A, 0, sizeof A);
}

static struct garumbott_answer call(const struct garumbott_reference *r, const struct garumbott_coding_edit *e, uint64_t t, uint64_t p, uint64_t a)
{
    struct garumbott_buffers b = {transcript, t, R, p, A, a};
    renew();
    return garumbott_record_of(r, e, &b);
}

static int refused(struct garumbott_answer got, uint64_t wanted)
{
    struct garumbott_answer want = {0};
    want.refusal = wanted;
    return memcmp(&got, &want, sizeof got) == 0 && all_unchanged();
}

static int fits(const struct garumbott_reference *r, const struct garumbott_coding_edit *e, struct garumbott_answer want, const uint32_t sums[3])
{
    struct garumbott_buffers b = {transcript, GARUMBOTT_TRANSCRIPT_ROOM, NULL, 0, NULL, 0};
    renew();
    struct garumbott_answer alone = garumbott_edit_of(r, e, &b), expected = {0};
    expected.answer = want.answer > GARUMBOTT_UNKNOWN ? GARUMBOTT_CHANGED : want.answer;
    expected.refusal = want.refusal;
    expected.transcript_len = want.transcript_len;
    expected.frameshift = want.frameshift;
    if (memcmp(&alone, &expected, sizeof alone) != 0 || crc(transcript, alone.transcript_len) != sums[0]) return 0;
    if (!unchanged(transcript, alone.transcript_len, sizeof transcript)) return 0;
    if (want.answer <= GARUMBOTT_UNKNOWN) return 1;
    uint64_t t = want.transcript_len, p = garumbott_reference_room(r->cs, r->ce), a = garumbott_altered_room(t, r->cs);
    struct garumbott_answer got = call(r, e, t, p, a);
    if (memcmp(&got, &want, sizeof got) != 0) return 0;
    if (crc(transcript, got.transcript_len) != sums[0] || crc(R, got.reference_len) != sums[1] || crc(A, got.altered_len) != sums[2]) return 0;
    if (!unchanged(transcript, t, sizeof transcript) || !unchanged(R, p, sizeof R) || !unchanged(A, a, sizeof A)) return 0;
    return refused(call(r, e, t - 1, p, a), GARUMBOTT_REFUSAL_TRANSCRIPT_ROOM) && refused(call(r, e, t, p - 1, a), GARUMBOTT_REFUSAL_PROTEIN_ROOM)
        && (a == 0 || refused(call(r, e, t, p, a - 1), GARUMBOTT_REFUSAL_PROTEIN_ROOM));
}

static void edit_it(const struct garumbott_reference *r)
{
    static uint8_t bases[MOST];
    struct garumbott_coding_edit e = {0};
    e.kind = number();
    e.start_star = number();
    e.start = (int64_t)number();
    e.end_star = number();
    e.end = (int64_t)number();
    e.bases = string(bases, &e.bases_len);
    struct garumbott_answer a = call(r, &e, GARUMBOTT_TRANSCRIPT_ROOM, GARUMBOTT_REFERENCE_ROOM, GARUMBOTT_ALTERED_ROOM);
    const uint64_t numbers[] = {a.answer, a.refusal, a.frameshift, a.transcript_len, a.reference_len, a.altered_len, a.change,
                                a.number, a.deleted_at, a.deleted_len, a.inserted_at, a.inserted_len, a.first, a.codons};
    for (size_t i = 0; i < sizeof numbers / sizeof *numbers; i++) put(numbers[i]);
    if (a.transcript_len > GARUMBOTT_TRANSCRIPT_ROOM || a.reference_len > GARUMBOTT_REFERENCE_ROOM || a.altered_len > GARUMBOTT_ALTERED_ROOM) exit(2);
    const uint32_t sums[3] = {crc(transcript, a.transcript_len), crc(R, a.reference_len), crc(A, a.altered_len)};
    put(sums[0]);
    put((uint64_t)unchanged(transcript, a.transcript_len, sizeof transcript));
    put(sums[1]);
    put((uint64_t)unchanged(R, a.reference_len, sizeof R));
    put(sums[2]);
    put((uint64_t)unchanged(A, a.altered_len, sizeof A));
    put((uint64_t)fits(r, &e, a, sums));
}

static void read_it(void)
{
    static uint8_t form[MOST], again[MOST];
    uint64_t len, room;
    string(form, &len);
    room = number();
    if (room > MOST) exit(2);
    memcpy(joined, before, sizeof joined);
    struct garumbott_stored s = garumbott_read_stored(form, len, room == 0 ? NULL : joined, room);
    const uint64_t numbers[] = {s.refusal, s.cs, s.ce, s.table, s.letters_at, s.letters_len, s.exceptions_at, s.exceptions_len, s.end, s.joined};
    for (size_t i = 0; i < sizeof numbers / sizeof *numbers; i++) put(numbers[i]);
    struct garumbott_reference r = garumbott_reference_at(&s, form, joined);
    if (s.letters_len > (s.joined != 0 ? room : len) || s.letters_at > len - s.letters_len * (s.joined == 0)) exit(2);
    put(crc(r.letters, r.letters_len));
    put(crc(r.exceptions, r.exceptions_len));
    int written = s.joined != 0 && unchanged(joined, s.letters_len, sizeof joined);
    for (uint64_t i = 0; written && i < s.letters_len; i++) written = joined[i] < 128;
    put(unchanged(joined, 0, sizeof joined) ? 0 : written ? 1 : 2);
    struct garumbott_length w = garumbott_write_stored_of(&r, again, sizeof again);
    put(w.len);
    put(crc(again, w.len));
}

int main(void)
{
    static uint8_t letters[MOST], exceptions[MOST], text[MOST], out[MOST];
    struct garumbott_reference r = {0};
    make_table();
    for (uint64_t i = 0; i < sizeof before; i++) before[i] = (uint8_t)(128u | (0xA5u ^ (i * 29u) ^ (i >> 8)));
    for (int c = getchar(); c != EOF; c = getchar()) {
        ungetc(c, stdin);
        switch (number()) {
        case 1:
            r.letters = string(letters, &r.letters_len);
            r.cs = number();
            r.ce = number();
            r.table = number();
            r.exceptions = string(exceptions, &r.exceptions_len);
            r.end = number();
            break;
        case 2: edit_it(&r); break;
        case 3: read_it(); break;
        case 4: {
            uint64_t len;
            string(text, &len);
            struct garumbott_length w = garumbott_run(text, len, out, sizeof out);
            put(w.refusal);
            put(w.len);
            put(crc(out, w.len));
            break;
        }
        default: return 2;
        }
        if (fflush(stdout) != 0) return 2; /* check.py waits for each answer */
    }
    return ferror(stdin) || fflush(stdout) != 0 || ferror(stdout) ? 2 : 0;
}
