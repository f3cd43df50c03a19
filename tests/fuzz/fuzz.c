/* fuzz SECONDS SEED: for so long, and on 10,000 inputs at least, calls every entry point on random bytes, on good input and on damaged copies of
 * it, packed letters too, through fenced memory, and holds each answer to what can be told without a second account of the rules: no byte changes that shouldn't,
 * every number is in its range, the answers of different entry points fit together, the altered transcript is what the edit makes of the letters, the codons
 * looked up are those that the edit doesn't leave alone, the record carried out on either protein gives the other, a proposed record gets its two answers by carrying it out on R, a longest
 * edit does to 10 what counting the new bases does, the panel profile answers as garumbott_record where its four tests, made plainly, pass, two edits of a haplotype make the letters that
 * both put together do, two editions differ in the codons that do one by one, a reference is written as its fields, one behind the other, and a stored reference and settings are what
 * their fields, read plainly, make of them. In the end every answer, class, refusal and end of a CDS must have come up. Prints the call's seed where a check fails, and exits 1. */
#define _DEFAULT_SOURCE
#include "../host/fence.h"
#include "garumbott.h"
#include <inttypes.h>
#include <stdio.h>
#include <stdlib.h>
#include <string.h>
#include <time.h>

/* ---- chance ------------------------------------------------------------------------------------------------------------------------- */

static uint64_t state, case_seed;

static uint64_t chance(void)
{
    state += UINT64_C(0x9E3779B97F4A7C15);
    uint64_t z = state;
    z = (z ^ (z >> 30)) * UINT64_C(0xBF58476D1CE4E5B9);
    z = (z ^ (z >> 27)) * UINT64_C(0x94D049BB133111EB);
    return z ^ (z >> 31);
}

static uint64_t below(uint64_t n)
{
    return n == 0 ? 0 : chance() % n;
}

static int one_in(uint64_t n)
{
    return below(n) == 0;
}

/* Numbers at the ends of the widths. */
static uint64_t strange(void)
{
    static const uint64_t all[] = {0, 1, 2, 3, 4, 8, 16, 17, 99, 255, 256, 257, 4096, 4097, 16384, 16385, 65535, 65536, 131072, 131073, INT32_MAX, UINT32_MAX,
                                   UINT64_C(1) << 32, (UINT64_C(1) << 32) + 1, INT64_MAX, UINT64_C(1) << 63, UINT64_MAX - 2, UINT64_MAX};
    return one_in(4) ? chance() : all[below(sizeof all / sizeof *all)];
}

/* ---- checks ------------------------------------------------------------------------------------------------------------------------- */

enum { REFUSALS = 160 };
static unsigned long checks, faults, found[3], ends[3], begun, answers[5], classes[10], refusals[REFUSALS], verdicts[3], long_forms[2], profiled[2], kept[3], listed, forms[2];
static const char *doing = "";

static void check(int good, const char *what)
{
    checks++;
    if (!good) {
        faults++;
        printf("FAILED %s: %s (call of seed %" PRIu64 ")\n", doing, what, case_seed);
        if (faults > 20) exit(1);
    }
}

enum { LETTERS, EXCEPTIONS, BASES, TRANSCRIPT, REFERENCE, ALTERED, STORED, DELETED, INSERTED, FENCES };
static struct fence small[FENCES], large[FENCES], huge[FENCES], *fences;

/* Letters that a stored form has in one field, those that it has with bounds of two bytes, and the room for edits of as many. */
enum { FULL = 65535, SHORT = 16384 };
static const size_t short_room[3] = {2 * SHORT, 5462, 10923};

static const uint8_t *lend(int which, enum fence_side side, const uint8_t *from, uint64_t len)
{
    return len == 0 && one_in(2) ? NULL : fence_fill(&fences[which], side, from, len);
}

static int unchanged(int which, const uint8_t *lent)
{
    return lent == NULL || fence_check(&fences[which], NULL, 0);
}

/* Lends a reference's letters as they are, or packed: a byte that is no letter is the empty set, and every answer is the same. */
static void lend_letters(int which, enum fence_side side, const uint8_t *from, struct garumbott_reference *r)
{
    static const char sets[] = "ACMGRSVTWYHKDBN";
    static uint8_t packed[GARUMBOTT_PACKED_BYTES(GARUMBOTT_LONGEST + 8)];
    r->form = one_in(3) ? GARUMBOTT_FORM_PACKED : GARUMBOTT_FORM_BYTES;
    r->size = r->form == GARUMBOTT_FORM_PACKED ? r->letters_len : strange();
    forms[r->form]++;
    if (r->form == GARUMBOTT_FORM_PACKED) {
        memset(packed, 0, GARUMBOTT_PACKED_BYTES(r->size));
        for (uint64_t i = 0; i < r->size; i++) {
            const char *set = from[i] == 0 ? NULL : strchr(sets, from[i]);
            if (set != NULL) packed[i / 2] = (uint8_t)(packed[i / 2] | (set - sets + 1) << (i % 2 == 0 ? 4 : 0));
        }
        from = packed;
        r->letters_len = GARUMBOTT_PACKED_BYTES(r->size);
    }
    r->letters = lend(which, side, from, r->letters_len);
}

/* ---- input -------------------------------------------------------------------------------------------------------------------------- */

static uint8_t letters[GARUMBOTT_LONGEST + 8], exceptions[64], bases[GARUMBOTT_MOST_BASES + 8];
static struct garumbott_reference ref;
static struct garumbott_coding_edit edit;
static size_t room[3];

/* Whether letters are of A, C, G and T alone, as the panel profile wants them. */
static int four_letters;

static uint8_t letter(void)
{
    return (uint8_t)(!four_letters && one_in(12) ? "RYSWKMBDHVN"[below(11)] : "ACGT"[below(4)]);
}

static uint8_t residue_at(const uint8_t *codon, uint64_t table)
{
    uint8_t r = 0;
    garumbott_translate(codon, 3, table, 1, NULL, 0, &r, 1);
    return r;
}

/* A reference that isn't refused; mostly one that has a single stop, or, where it is cut short, none. */
static void make_reference(void)
{
    int big = one_in(60), very = one_in(1500);
    uint64_t end = one_in(2) ? GARUMBOTT_END_STOP : 1 + below(2), rest = end == GARUMBOTT_END_CUT_CODON ? 1 + below(2) : 0;
    uint64_t codons = very ? below(43690 - 2) + 2 : big ? below(5461 - 2) + 2 : below(14) + 2, before = below(big || very ? 3 : 8), behind = end == GARUMBOTT_END_STOP ? below(8) : 0;
    uint64_t single = end != GARUMBOTT_END_STOP || !one_in(12);
    while (before + 3 * codons + rest + behind > GARUMBOTT_LONGEST) behind = 0, before = 0;
    four_letters = one_in(3);
    memset(&ref, 0, sizeof ref);
    ref.table = below(3);
    ref.letters = letters;
    ref.letters_len = before + 3 * codons + rest + behind;
    ref.cs = before + 1;
    ref.ce = before + 3 * codons + rest;
    ref.end = end;
    for (uint64_t i = 0; i < ref.letters_len; i++) letters[i] = letter();
    for (uint64_t i = 0; single && i < codons; i++) {
        uint8_t *codon = letters + before + 3 * i;
        while (residue_at(codon, ref.table) == '*') codon[below(3)] = letter();
    }
    if (end == GARUMBOTT_END_STOP) memcpy(letters + ref.ce - 3, ref.table == 2 && one_in(2) ? (four_letters ? "AGA" : "AGR") : four_letters || one_in(2) ? "TAA" : "TAR", 3);
    ref.exceptions = exceptions;
    uint64_t codon = 0, many = one_in(3) ? below(17) : 0;
    for (uint64_t i = 0; i < many; i++) {
        codon += 1 + below(3);
        if (codon > codons) break;
        uint8_t *e = exceptions + ref.exceptions_len;
        e[0] = (uint8_t)(codon >> 8);
        e[1] = (uint8_t)codon;
        e[2] = codon == codons && end == GARUMBOTT_END_STOP ? '*' : single ? (uint8_t)('A' + below(26)) : (uint8_t) "*UXZ"[below(4)];
        if (end != GARUMBOTT_END_STOP && one_in(3)) memcpy(letters + before + 3 * (codon - 1), "TAA", 3); /* a stop but for its exception */
        ref.exceptions_len += 3;
    }
}

static void make_position(uint64_t place, uint64_t *star, int64_t *number)
{
    *star = place >= ref.ce;
    *number = place + 1 < ref.cs ? -(int64_t)(ref.cs - 1 - place) : place >= ref.ce ? (int64_t)(place + 1 - ref.ce) : (int64_t)(place + 2 - ref.cs);
}

/* An edit of the reference that is seldom refused. */
static void make_edit(void)
{
    uint64_t start = one_in(8) ? below(ref.ce) : ref.cs - 1 + below(ref.ce + 1 - ref.cs), span = one_in(3) ? below(ref.letters_len) : below(7), end = start + span;
    if (!one_in(20) && end >= ref.letters_len) end = ref.letters_len - 1;
    memset(&edit, 0, sizeof edit);
    edit.kind = 1 + below(7);
    if (one_in(60)) edit.kind = GARUMBOTT_DELETION, start = ref.cs - 1, end = ref.letters_len - 1; /* no protein is left */
    if (edit.kind == GARUMBOTT_SUBSTITUTION) end = start;
    if (edit.kind == GARUMBOTT_INSERTION) end = start + 1;
    make_position(start, &edit.start_star, &edit.start);
    make_position(end, &edit.end_star, &edit.end);
    edit.bases = bases;
    if (edit.kind == GARUMBOTT_SUBSTITUTION || edit.kind == GARUMBOTT_DELINS || edit.kind == GARUMBOTT_INSERTION) {
        edit.bases_len = edit.kind == GARUMBOTT_SUBSTITUTION ? 1 : one_in(50) ? 1 + below(4096) : 1 + below(9);
        for (uint64_t i = 0; i < edit.bases_len; i++) bases[i] = letter();
        if (one_in(6) && edit.kind == GARUMBOTT_DELINS && end < ref.letters_len && end + 1 - start <= 4096) { /* the same bases put back */
            edit.bases_len = end + 1 - start;
            memcpy(bases, letters + start, edit.bases_len);
        }
    }
    if (one_in(4)) edit.longest = one_in(2) ? 1 + below(4096) : edit.bases_len + below(2);
    if (one_in(40) && edit.bases_len > 1) edit.longest = edit.bases_len - 1;
}

static void damage(uint8_t *s, uint64_t *len, uint64_t most)
{
    switch (below(5)) {
    case 0: if (*len != 0) s[below(*len)] = (uint8_t)chance(); break;
    case 1: if (*len != 0) --*len; break;
    case 2: if (*len < most) s[(*len)++] = (uint8_t)chance(); break;
    case 3: if (*len != 0) s[below(*len)] ^= (uint8_t)(1u << below(8)); break;
    default: *len = below(*len + 1); break;
    }
}

static void damage_number(uint64_t *n)
{
    uint64_t by = below(4);
    *n = one_in(2) ? strange() : one_in(2) ? *n + by : *n - by;
}

static void damage_signed(int64_t *n)
{
    uint64_t u = (uint64_t)*n;
    damage_number(&u);
    memcpy(n, &u, sizeof u);
}

static void damage_call(void)
{
    switch (below(14)) {
    case 0: damage(letters, &ref.letters_len, sizeof letters); break;
    case 1: damage_number(&ref.cs); break;
    case 2: damage_number(&ref.ce); break;
    case 3: damage_number(&ref.table); break;
    case 4: damage(exceptions, &ref.exceptions_len, sizeof exceptions); break;
    case 5: damage_number(&edit.kind); break;
    case 6: damage_number(&edit.start_star); break;
    case 7: damage_signed(&edit.start); break;
    case 8: damage_number(&edit.end_star); break;
    case 9: damage_signed(&edit.end); break;
    case 10: damage(bases, &edit.bases_len, sizeof bases); break;
    case 11: damage_number(&ref.end); break;
    case 12: damage_number(&edit.longest); break;
    default: /* bytes of any kind */
        for (uint64_t i = 0; i < ref.letters_len; i++) letters[i] = (uint8_t)chance();
        break;
    }
}

/* ---- edits -------------------------------------------------------------------------------------------------------------------------- */

struct outcome {
    struct garumbott_answer a;
    uint8_t t[GARUMBOTT_TRANSCRIPT_ROOM], r[GARUMBOTT_REFERENCE_ROOM], p[GARUMBOTT_ALTERED_ROOM];
};

static int same(const struct garumbott_answer *a, const struct garumbott_answer *b)
{
    return memcmp(a, b, sizeof *a) == 0;
}

/* What an answer says of itself, and that only what it wrote changed. */
static void edit_call(int alone, enum fence_side side, const size_t size[3], struct outcome *o)
{
    struct garumbott_reference r = ref;
    struct garumbott_coding_edit e = edit;
    struct garumbott_buffers b;
    lend_letters(LETTERS, side, letters, &r);
    r.exceptions = lend(EXCEPTIONS, side, exceptions, ref.exceptions_len);
    e.bases = lend(BASES, side, bases, edit.bases_len);
    b.transcript = fence_fill(&fences[TRANSCRIPT], side, NULL, size[0]);
    b.reference = fence_fill(&fences[REFERENCE], side, NULL, size[1]);
    b.altered = fence_fill(&fences[ALTERED], side, NULL, size[2]);
    b.transcript_len = size[0];
    b.reference_len = size[1];
    b.altered_len = size[2];
    doing = alone ? "garumbott_edit" : "garumbott_record";
    o->a = alone ? garumbott_edit_of(&r, &e, &b) : garumbott_record_of(&r, &e, &b);
    const struct garumbott_answer *a = &o->a, none = {.answer = a->answer, .refusal = a->refusal};
    check(unchanged(LETTERS, r.letters) && unchanged(EXCEPTIONS, r.exceptions) && unchanged(BASES, e.bases), "input changed");
    check(a->transcript_len <= size[0] && a->reference_len <= size[1] && a->altered_len <= size[2], "more written than there is room");
    check(fence_check(&fences[TRANSCRIPT], NULL, a->transcript_len), "transcript buffer");
    check(fence_check(&fences[REFERENCE], NULL, a->reference_len), "reference buffer");
    check(fence_check(&fences[ALTERED], NULL, a->altered_len), "altered buffer");
    check(a->answer <= 4 && (a->answer == 0) == (a->refusal != 0), "answer and refusal");
    check(a->refusal <= (alone ? 11u : 12u) || a->refusal == 28 || a->refusal == 62, "refusal's number");
    if (a->answer < 2) check(same(a, &none), "a refusal or Unknown tells more");
    check(a->frameshift <= 1 && a->change <= 9 && (a->change != 0) == (a->answer == 4 && !alone), "flag and class");
    memcpy(o->t, b.transcript, a->transcript_len);
    memcpy(o->r, b.reference, a->reference_len);
    memcpy(o->p, b.altered, a->altered_len);
}

/* Of each base of the altered transcript: where it stands in the reference, from 0, or PUT for one that the edit put there. */
enum { PUT = INT32_MAX };
static uint32_t sources[GARUMBOTT_TRANSCRIPT_ROOM];
static uint64_t edited_at;

/* The altered transcript, made in the plainest way, and its sources; an identity puts nothing there. */
static uint64_t plain_transcript(uint8_t *out)
{
    uint64_t L = ref.letters_len, first = ref.cs - 1, put_len = edit.bases_len;
    uint64_t start = edit.start_star ? ref.ce + (uint64_t)edit.start - 1 : edit.start < 0 ? first : first + (uint64_t)edit.start - 1;
    uint64_t end = edit.end_star ? ref.ce + (uint64_t)edit.end - 1 : edit.end < 0 ? first : first + (uint64_t)edit.end - 1;
    static uint8_t put[GARUMBOTT_LONGEST], framed[GARUMBOTT_LONGEST + 2], read[GARUMBOTT_LONGEST];
    start = start < L ? start : L;
    end = end < L ? end + 1 : L;
    memcpy(put, bases, put_len);
    uint64_t from = start, to = end;
    if (edit.kind == GARUMBOTT_INSERTION) from = to = start + 1;
    if (edit.kind == GARUMBOTT_DUPLICATION) from = to = end;
    if (edit.kind >= GARUMBOTT_DUPLICATION) memcpy(put, letters + start, put_len = end - start);
    if (edit.kind == GARUMBOTT_INVERSION) garumbott_complement(letters + start, put_len, put, put_len);
    if (edit.kind == GARUMBOTT_INSERTION || edit.kind == GARUMBOTT_DUPLICATION) {
        uint64_t frame = (from - first) % 3;
        memset(framed, 'N', frame);
        memcpy(framed + frame, put, put_len);
        struct garumbott_length n = garumbott_translate(framed, frame + put_len, ref.table, 0, NULL, 0, read, sizeof read);
        const uint8_t *stop = memchr(read, '*', n.len);
        if (stop != NULL) put_len = 3 * ((uint64_t)(stop - read) + 1) - frame;
    }
    memcpy(out, letters, from);
    memcpy(out + from, put, put_len);
    memcpy(out + from + put_len, letters + to, L - to);
    edited_at = from;
    for (uint64_t i = 0; i < from; i++) sources[i] = (uint32_t)i;
    for (uint64_t i = 0; i < put_len; i++) sources[from + i] = edit.kind == GARUMBOTT_IDENTITY ? (uint32_t)(from + i) : PUT;
    for (uint64_t i = to; i < L; i++) sources[from + put_len + (i - to)] = (uint32_t)i;
    return from + put_len + (L - to);
}

/* The codons looked up: the whole ones of an altered transcript through the last residue of A, but for those whose bases stand side by side in the reference,
 * before the edit or as a codon of the CDS. With exceptions all of them. */
static uint64_t plain_codons(uint64_t len, uint64_t residues)
{
    uint64_t n = 0;
    for (uint64_t i = ref.cs - 1; i + 3 <= len && (i - (ref.cs - 1)) / 3 < residues; i += 3) {
        uint64_t from = sources[i];
        int together = from != PUT && sources[i + 1] == from + 1 && sources[i + 2] == from + 2;
        int in_cds = from >= ref.cs - 1 && (from - (ref.cs - 1)) % 3 == 0 && from + 3 <= ref.ce;
        int reused = ref.exceptions_len == 0 && together && (from + 3 <= edited_at || in_cds);
        n += !reused;
    }
    return n;
}

static uint64_t plain_class(const struct outcome *o, uint64_t s)
{
    const struct garumbott_answer *a = &o->a;
    uint64_t d = a->deleted_len, i = a->inserted_len;
    if (s == 0) return 1;
    if (d > 0 && o->r[s] == '*') return 2;
    if (s < a->altered_len && o->p[s] == '*') return 3;
    if (a->frameshift) return 4;
    if (d == 1 && i == 1) return 5;
    if (i == 0) return 6;
    if (d == 0 && i < s + 1 && memcmp(o->r + s - i, o->p + s, i) == 0) return 7;
    return d == 0 ? 8 : 9;
}

/* The proteins, and the record that tells of them. */
static void check_proteins(const struct outcome *o)
{
    const struct garumbott_answer *a = &o->a;
    static uint8_t read[GARUMBOTT_ALTERED_ROOM], moved[GARUMBOTT_LONGEST + GARUMBOTT_ALTERED_ROOM];
    uint64_t m = a->reference_len, n = a->altered_len, s = 0, e = 0, whole = ref.end != GARUMBOTT_END_CUT_CODON;
    struct garumbott_length all = garumbott_translate(letters + ref.cs - 1, ref.ce + 1 - ref.cs, ref.table, whole, exceptions, ref.exceptions_len, read, sizeof read);
    check(all.refusal == 0 && all.len == m && memcmp(read, o->r, m) == 0, "R isn't the CDS's translation");
    check(m > 0 && memchr(o->r, '*', m) == (ref.end == GARUMBOTT_END_STOP ? o->r + m - 1 : NULL), "R's only stop isn't its last residue, or R is cut short and has one");
    check(ref.end <= 2 && (ref.end == GARUMBOTT_END_STOP || ref.ce == ref.letters_len), "an end that should be refused");
    check(whole == ((ref.ce + 1 - ref.cs) % 3 == 0) && (whole || o->r[m - 1] == 'X'), "a cut codon");
    check(m == garumbott_reference_room(ref.cs, ref.ce), "garumbott_reference_room");
    ends[ref.end <= 2 ? ref.end : 0]++;
    if (ref.exceptions_len == 0) {
        all = garumbott_translate(o->t + ref.cs - 1, a->transcript_len + 1 - ref.cs, ref.table, 0, NULL, 0, read, sizeof read);
        const uint8_t *stop = memchr(read, '*', all.len);
        uint64_t len = stop == NULL ? all.len : (uint64_t)(stop - read) + 1;
        check(len == n && memcmp(read, o->p, n) == 0, "A isn't the transcript's translation through its stop");
    }
    const uint8_t *stop = n == 0 ? NULL : memchr(o->p, '*', n);
    check(stop == NULL || stop == o->p + n - 1, "A goes on behind a stop");
    int equal = m == n && memcmp(o->r, o->p, n) == 0;
    check(a->answer == (n == 0 ? 2u : equal ? 3u : 4u), "answer");
    if (a->answer == 3) check(a->number >= 1 && a->number <= m && a->deleted_at == a->number - 1 && a->inserted_at == a->number - 1 && a->deleted_len == 1 && a->inserted_len == 1, "silent");
    if (a->answer != 4) return;
    while (s < m && s < n && o->r[s] == o->p[s]) s++;
    while (!a->frameshift && s + e < m && s + e < n && o->r[m - 1 - e] == o->p[n - 1 - e]) e++;
    check(a->number == s + 1 && a->deleted_at == s && a->inserted_at == s && a->deleted_len == m - s - e && a->inserted_len == n - s - e, "parts");
    check(garumbott_common_prefix(o->r, m, o->p, n) == s, "common prefix");
    check(a->change == plain_class(o, s), "class");
    check(a->first == (a->change == 7 ? a->number - a->inserted_len : 0), "first");
    memcpy(moved, o->r, s);
    memcpy(moved + s, o->p + a->inserted_at, a->inserted_len);
    memcpy(moved + s + a->inserted_len, o->r + s + a->deleted_len, m - s - a->deleted_len);
    check(m - a->deleted_len + a->inserted_len == n && memcmp(moved, o->p, n) == 0, "the record carried out on R isn't A");
    memcpy(moved, o->p, s);
    memcpy(moved + s, o->r + a->deleted_at, a->deleted_len);
    memcpy(moved + s + a->deleted_len, o->p + s + a->inserted_len, n - s - a->inserted_len);
    check(n - a->inserted_len + a->deleted_len == m && memcmp(moved, o->r, m) == 0, "the record taken back from A isn't R");
    if (s == m) {
        check(ref.end != GARUMBOTT_END_STOP && a->deleted_len == 0 && a->change != GARUMBOTT_CHANGE_EXTENSION, "R is the beginning of A");
        begun++;
    }
}

/* ---- the longest edit, and the panel profile ---------------------------------------------------------------------------------------- */

/* What the longest edit of a call does, by what is answered without it: 62 before 1, and 10 where more bases of a delins or an insertion are new. */
static void check_longest(const size_t most[3], const struct outcome *o)
{
    static struct outcome without;
    uint64_t longest = edit.longest, limit = longest == 0 ? GARUMBOTT_MOST_BASES : longest;
    if (longest == 0) return;
    edit.longest = 0;
    edit_call(0, FENCE_END, most, &without);
    edit.longest = longest;
    struct garumbott_answer want = without.a, none = {.refusal = longest > GARUMBOTT_MOST_BASES ? 62 : 10};
    int counted = edit.kind == GARUMBOTT_DELINS || edit.kind == GARUMBOTT_INSERTION, judged_before = want.refusal == 28 || (want.refusal >= 1 && want.refusal <= 9);
    if (longest > GARUMBOTT_MOST_BASES || (counted && edit.bases_len > limit && !judged_before)) want = none;
    check(same(&o->a, &want), "the longest edit");
}

/* The edit under the profile with the room of the case, whose own answer is `o`; `wide` is that with ample room. */
static void check_panel(const struct outcome *o, const struct outcome *wide)
{
    enum fence_side side = one_in(2) ? FENCE_END : FENCE_START;
    struct garumbott_reference r = ref;
    struct garumbott_coding_edit e = edit;
    uint64_t behind_10 = wide->a.refusal == 0, at = ref.cs + (uint64_t)edit.start - 2, four = 1, named = one_in(3) ? strange() : (uint8_t) "ACGT"[below(4)];
    struct garumbott_answer want = o->a;
    if (behind_10 && edit.kind == GARUMBOTT_SUBSTITUTION && at < ref.letters_len && !one_in(4)) named = letters[at];
    for (uint64_t i = 0; behind_10 && i < ref.letters_len; i++) four &= memchr("ACGT", letters[i], 4) != NULL;
    for (uint64_t i = 0; behind_10 && i < edit.bases_len; i++) four &= memchr("ACGT", bases[i], 4) != NULL;
    int kind = edit.kind == GARUMBOTT_SUBSTITUTION || edit.kind == GARUMBOTT_DELETION || edit.kind == GARUMBOTT_DUPLICATION || edit.kind == GARUMBOTT_INSERTION;
    int inside = edit.start_star == 0 && edit.end_star == 0 && edit.start > 0 && edit.end > 0;
    uint64_t net = edit.kind == GARUMBOTT_INSERTION ? edit.bases_len : edit.kind == GARUMBOTT_SUBSTITUTION ? 0 : (uint64_t)edit.end - (uint64_t)edit.start + 1, own = 0;
    if (behind_10) own = !four ? 40 : !kind || !inside ? 41 : net % 3 != 0 ? 42 : edit.kind == GARUMBOTT_SUBSTITUTION && named != letters[at] ? 43 : 0;
    if (own != 0) want = (struct garumbott_answer){.refusal = own};
    lend_letters(LETTERS, side, letters, &r);
    r.exceptions = lend(EXCEPTIONS, side, exceptions, ref.exceptions_len);
    e.bases = lend(BASES, side, bases, edit.bases_len);
    struct garumbott_buffers b = {fence_fill(&fences[TRANSCRIPT], side, NULL, room[0]), room[0], fence_fill(&fences[REFERENCE], side, NULL, room[1]), room[1],
                                  fence_fill(&fences[ALTERED], side, NULL, room[2]), room[2]};
    doing = "garumbott_panel";
    struct garumbott_answer got = garumbott_panel_of(&r, &e, named, &b);
    check(same(&got, &want), "answer");
    check(unchanged(LETTERS, r.letters) && unchanged(EXCEPTIONS, r.exceptions) && unchanged(BASES, e.bases), "input changed");
    check(fence_check(&fences[TRANSCRIPT], o->t, want.transcript_len), "transcript buffer");
    check(fence_check(&fences[REFERENCE], o->r, want.reference_len), "reference buffer");
    check(fence_check(&fences[ALTERED], o->p, want.altered_len), "altered buffer");
    refusals[got.refusal < REFUSALS ? got.refusal : 0]++;
    profiled[own == 0 && got.answer > GARUMBOTT_UNKNOWN]++;
}

/* ---- records from elsewhere --------------------------------------------------------------------------------------------------------- */

static struct {
    uint64_t number, deleted_len, inserted_len;
    uint8_t deleted[GARUMBOTT_REFERENCE_ROOM + 64], inserted[GARUMBOTT_ALTERED_ROOM + 64];
} proposal;

static uint64_t some_residues(uint8_t *s, uint64_t most)
{
    uint64_t n = below(most + 1);
    for (uint64_t i = 0; i < n; i++) s[i] = one_in(80) ? (uint8_t)chance() : (uint8_t) "ACDEFGHIKLMNPQRSTVWYX*"[below(22)];
    return n;
}

/* A proposal for an edit: mostly its own record, as it is, told with residues that stay, or damaged. */
static void make_proposal(const struct outcome *o)
{
    const struct garumbott_answer *a = &o->a;
    uint64_t m = a->reference_len, n = a->altered_len, before, behind;
    if (a->answer != GARUMBOTT_CHANGED || one_in(8)) {
        proposal.number = one_in(4) ? strange() : below(m + 3);
        proposal.deleted_len = some_residues(proposal.deleted, 4);
        proposal.inserted_len = some_residues(proposal.inserted, one_in(20) ? 900 : 4);
        return;
    }
    before = one_in(2) ? 0 : below((a->number < 4 ? a->number : 4));
    behind = m - a->deleted_at - a->deleted_len;
    behind = one_in(2) ? 0 : below((behind < 4 ? behind : 4) + 1);
    if (one_in(10)) before = a->number - 1, behind = m - a->deleted_at - a->deleted_len; /* both proteins whole */
    proposal.number = a->number - before;
    proposal.deleted_len = before + a->deleted_len + behind;
    proposal.inserted_len = before + a->inserted_len + behind;
    memcpy(proposal.deleted, o->r + a->deleted_at - before, proposal.deleted_len);
    memcpy(proposal.inserted, o->p + a->inserted_at - before, proposal.inserted_len);
    check(a->inserted_at + a->inserted_len + behind <= n, "a record behind A's end");
    if (a->deleted_len == 0 && one_in(4)) { /* begun earlier, where that is the same */
        uint64_t len = a->inserted_len;
        proposal.number = a->number;
        proposal.deleted_len = 0;
        proposal.inserted_len = len;
        memcpy(proposal.inserted, o->p + a->inserted_at, len);
        while (proposal.number > 1 && o->r[proposal.number - 2] == proposal.inserted[len - 1] && !one_in(4)) {
            uint8_t last = proposal.inserted[len - 1];
            memmove(proposal.inserted + 1, proposal.inserted, len - 1);
            proposal.inserted[0] = last;
            proposal.number--;
        }
    }
    for (uint64_t i = one_in(2) ? 0 : 1 + below(2); i != 0; i--) {
        switch (below(4)) {
        case 0: damage_number(&proposal.number); break;
        case 1: damage(proposal.deleted, &proposal.deleted_len, sizeof proposal.deleted); break;
        case 2: damage(proposal.inserted, &proposal.inserted_len, sizeof proposal.inserted); break;
        default: /* one residue for another */
            if (proposal.inserted_len != 0) proposal.inserted[below(proposal.inserted_len)] = (uint8_t)('A' + below(26));
            break;
        }
    }
}

static int are_residues(const uint8_t *s, uint64_t n)
{
    int good = 1;
    for (uint64_t i = 0; i < n; i++) good &= s[i] == '*' || (s[i] >= 'A' && s[i] <= 'Z');
    return good;
}

/* The answers to the proposal for an accepted and changing edit, in the plainest way. */
static struct garumbott_checked plain_check(const struct outcome *o)
{
    static uint8_t moved[GARUMBOTT_REFERENCE_ROOM + GARUMBOTT_ALTERED_ROOM + 64];
    const struct garumbott_answer *a = &o->a;
    struct garumbott_checked w = {.transcript_len = a->transcript_len, .reference_len = a->reference_len, .altered_len = a->altered_len}, no = {.refusal = 27};
    uint64_t m = a->reference_len, n = a->altered_len, at = proposal.number - 1, d = proposal.deleted_len, i = proposal.inserted_len, s = 0, least = 0;
    if (proposal.number == 0 || at > m || !are_residues(proposal.deleted, d) || !are_residues(proposal.inserted, i)) return no;
    if (d > m - at || memcmp(o->r + at, proposal.deleted, d) != 0) return w;
    memcpy(moved, o->r, at);
    memcpy(moved + at, proposal.inserted, i);
    memcpy(moved + at + i, o->r + at + d, m - at - d);
    w.replays = m - d + i == n && memcmp(moved, o->p, n) == 0;
    while (s < m && s < n && o->r[s] == o->p[s]) s++;
    /* the least that can be deleted from there: what is left of R is the end of A, behind what goes in */
    while (m - s - least > n - s || memcmp(o->r + s + least, o->p + n - (m - s - least), m - s - least) != 0) least++;
    w.shortest = w.replays && at == s && d == least;
    return w;
}

/* The proposal for the edit with so much room: its answer is `want`, and what it writes is what garumbott_record does. */
static void check_call(enum fence_side side, const size_t size[3], const struct garumbott_checked *want, const struct outcome *o)
{
    struct garumbott_reference r = ref;
    struct garumbott_coding_edit e = edit;
    lend_letters(LETTERS, side, letters, &r);
    r.exceptions = lend(EXCEPTIONS, side, exceptions, ref.exceptions_len);
    e.bases = lend(BASES, side, bases, edit.bases_len);
    const uint8_t *deleted = lend(DELETED, side, proposal.deleted, proposal.deleted_len), *inserted = lend(INSERTED, side, proposal.inserted, proposal.inserted_len);
    struct garumbott_buffers b = {fence_fill(&fences[TRANSCRIPT], side, NULL, size[0]), size[0], fence_fill(&fences[REFERENCE], side, NULL, size[1]), size[1],
                                  fence_fill(&fences[ALTERED], side, NULL, size[2]), size[2]};
    doing = "garumbott_check";
    struct garumbott_checked got = garumbott_check_of(&r, &e, proposal.number, deleted, proposal.deleted_len, inserted, proposal.inserted_len, &b);
    check(memcmp(&got, want, sizeof got) == 0, "answer");
    check(unchanged(LETTERS, r.letters) && unchanged(EXCEPTIONS, r.exceptions) && unchanged(BASES, e.bases) && unchanged(DELETED, deleted)
              && unchanged(INSERTED, inserted), "input changed");
    check(fence_check(&fences[TRANSCRIPT], o->t, want->transcript_len), "transcript buffer");
    check(fence_check(&fences[REFERENCE], o->r, want->reference_len), "reference buffer");
    check(fence_check(&fences[ALTERED], o->p, want->altered_len), "altered buffer");
    refusals[got.refusal < REFUSALS ? got.refusal : 0]++;
    if (got.refusal == 0) verdicts[got.replays + got.shortest < 3 ? got.replays + got.shortest : 0]++;
}

/* Proposals for an edit of which garumbott_record says `o` with ample room; `short_of` is 11, 12 or 0 with the room of the case. */
static void fuzz_check(const size_t most[3], const struct outcome *o, uint64_t short_of)
{
    struct garumbott_checked want = {.refusal = o->a.answer == GARUMBOTT_REFUSED ? o->a.refusal : 26}, less = want;
    make_proposal(o);
    if (o->a.answer == GARUMBOTT_CHANGED) want = less = plain_check(o);
    if (o->a.answer > GARUMBOTT_UNKNOWN && short_of != 0) less = (struct garumbott_checked){.refusal = short_of};
    check_call(one_in(2) ? FENCE_END : FENCE_START, most, &want, o);
    check_call(one_in(2) ? FENCE_END : FENCE_START, room, &less, o);
    if (o->a.answer != GARUMBOTT_CHANGED) return;
    /* its own record: accepted, and by both answers without the flag */
    const struct garumbott_answer *a = &o->a;
    proposal.number = a->number;
    memcpy(proposal.deleted, o->r + a->deleted_at, proposal.deleted_len = a->deleted_len);
    memcpy(proposal.inserted, o->p + a->inserted_at, proposal.inserted_len = a->inserted_len);
    want = plain_check(o);
    check(want.replays && (want.shortest || a->frameshift), "its own record");
    check_call(one_in(2) ? FENCE_END : FENCE_START, most, &want, o);
}

static void fuzz_edit(void)
{
    static struct outcome o, again, alone, wide;
    static uint8_t plain[GARUMBOTT_TRANSCRIPT_ROOM];
    static const size_t plenty[3] = {GARUMBOTT_TRANSCRIPT_ROOM, GARUMBOTT_REFERENCE_ROOM, GARUMBOTT_ALTERED_ROOM};
    make_reference();
    make_edit();
    for (uint64_t i = one_in(2) ? 0 : 1 + below(3); i != 0; i--) damage_call();
    int big = ref.letters_len > 1000 || edit.bases_len > 1000;
    int very = ref.letters_len > SHORT;
    fences = very ? huge : big ? large : small;
    static const size_t modest[3] = {3000, 1000, 1000};
    const size_t *most = very ? plenty : big ? short_room : modest;
    edit_call(0, FENCE_END, most, &wide);
    if (wide.a.answer < 2) {
        for (int i = 0; i < 3; i++) room[i] = one_in(2) ? 0 : below(most[i]);
    } else {
        room[0] = wide.a.transcript_len;
        room[1] = wide.a.reference_len;
        room[2] = garumbott_altered_room(wide.a.transcript_len, ref.cs);
        for (int i = 0; i < 3; i++) room[i] = one_in(4) ? below(most[i]) : one_in(3) && room[i] != 0 ? room[i] - 1 : room[i];
    }
    edit_call(0, FENCE_END, room, &o);
    edit_call(0, FENCE_START, room, &again);
    edit_call(1, one_in(2) ? FENCE_END : FENCE_START, room, &alone);
    doing = "garumbott_record";
    answers[o.a.answer]++;
    classes[o.a.change]++;
    refusals[o.a.refusal]++;
    check(same(&o.a, &again.a) && memcmp(o.t, again.t, o.a.transcript_len) == 0 && memcmp(o.r, again.r, o.a.reference_len) == 0
              && memcmp(o.p, again.p, o.a.altered_len) == 0, "two calls differ");
    check_longest(most, &wide);
    check_panel(&o, &wide);
    doing = "garumbott_record";
    if (wide.a.answer < 2) {
        check(same(&o.a, &wide.a) && same(&alone.a, &wide.a), "room counts in a refusal or Unknown");
        fuzz_check(most, &wide, 0);
        return;
    }
    uint64_t refusal = room[0] < wide.a.transcript_len ? 11 : room[1] < garumbott_reference_room(ref.cs, ref.ce) || room[2] < garumbott_altered_room(wide.a.transcript_len, ref.cs) ? 12 : 0;
    check(o.a.refusal == refusal, "11 and 12");
    if (refusal == 0) check(same(&o.a, &wide.a) && memcmp(o.t, wide.t, o.a.transcript_len) == 0 && memcmp(o.p, wide.p, o.a.altered_len) == 0, "room counts in an answer");
    struct garumbott_answer want = {.answer = 4, .frameshift = wide.a.frameshift, .transcript_len = wide.a.transcript_len}, short_of = {.refusal = 11};
    check(same(&alone.a, refusal == 11 ? &short_of : &want), "garumbott_edit answers otherwise");
    check(memcmp(alone.t, wide.t, alone.a.transcript_len) == 0, "garumbott_edit writes otherwise");
    check(wide.a.transcript_len <= garumbott_transcript_room(ref.letters_len, edit.kind, edit.bases_len), "garumbott_transcript_room");
    check(plain_transcript(plain) == wide.a.transcript_len && memcmp(plain, wide.t, wide.a.transcript_len) == 0, "the altered transcript");
    check(plain_codons(wide.a.transcript_len, wide.a.altered_len) == wide.a.codons, "codons looked up");
    if (edit.kind == GARUMBOTT_SUBSTITUTION && ref.exceptions_len == 0 && wide.a.codons > 1)
        check(ref.end == GARUMBOTT_END_STOP && wide.a.altered_len >= wide.a.reference_len && wide.p[wide.a.reference_len - 1] != '*',
              "a substitution that keeps the final stop looks up two codons");
    check_proteins(&wide);
    fuzz_check(most, &wide, refusal);
}

/* ---- pairs -------------------------------------------------------------------------------------------------------------------------- */

/* An edit with its new bases, and what it does in the plainest way: what goes in for the letters from..to, which bases it touches, and whether the stop cut
 * finds a stop. */
struct carried {
    struct garumbott_coding_edit edit;
    uint8_t bases[GARUMBOTT_MOST_BASES + 8], put[GARUMBOTT_LONGEST];
    uint64_t from, to, put_len, touched_from, touched_to, stops;
    struct garumbott_answer answer;
};

static uint64_t plain_index(uint64_t star, int64_t number)
{
    uint64_t first = ref.cs - 1, at = star ? ref.ce + (uint64_t)number - 1 : number < 0 ? first : first + (uint64_t)number - 1;
    return at < ref.letters_len ? at : ref.letters_len;
}

static void plain_carried(struct carried *c)
{
    static uint8_t framed[GARUMBOTT_LONGEST + 2], read[GARUMBOTT_LONGEST];
    uint64_t start = plain_index(c->edit.start_star, c->edit.start), last = plain_index(c->edit.end_star, c->edit.end);
    uint64_t end = last < ref.letters_len ? last + 1 : ref.letters_len, kind = c->edit.kind;
    c->from = c->touched_from = start;
    c->to = c->touched_to = end;
    if (kind == GARUMBOTT_INSERTION) c->from = c->to = c->touched_from = c->touched_to = start + 1;
    if (kind == GARUMBOTT_DUPLICATION) c->from = c->to = end;
    memcpy(c->put, c->bases, c->put_len = c->edit.bases_len);
    if (kind >= GARUMBOTT_DUPLICATION) memcpy(c->put, letters + start, c->put_len = end - start);
    if (kind == GARUMBOTT_INVERSION) garumbott_complement(letters + start, c->put_len, c->put, c->put_len);
    c->stops = 0;
    if (kind == GARUMBOTT_INSERTION || kind == GARUMBOTT_DUPLICATION) {
        uint64_t frame = (c->from - (ref.cs - 1)) % 3;
        memset(framed, 'N', frame);
        memcpy(framed + frame, c->put, c->put_len);
        struct garumbott_length n = garumbott_translate(framed, frame + c->put_len, ref.table, 0, NULL, 0, read, sizeof read);
        c->stops = memchr(read, '*', n.len) != NULL;
    }
}

/* The pair in this order with so much room: its answer is `want`, and `t` and `p` are written. */
static void pair_call(const struct carried *one, const struct carried *two, const size_t size[3], const struct garumbott_paired *want, const uint8_t *t, const uint8_t *p)
{
    enum fence_side side = one_in(2) ? FENCE_END : FENCE_START;
    struct garumbott_reference r = ref;
    struct garumbott_coding_edit e = one->edit, f = two->edit;
    lend_letters(LETTERS, side, letters, &r);
    r.exceptions = lend(EXCEPTIONS, side, exceptions, ref.exceptions_len);
    e.bases = lend(BASES, side, one->bases, e.bases_len);
    f.bases = lend(INSERTED, side, two->bases, f.bases_len);
    struct garumbott_buffers b = {fence_fill(&fences[TRANSCRIPT], side, NULL, size[0]), size[0], NULL, 0, fence_fill(&fences[ALTERED], side, NULL, size[2]), size[2]};
    doing = "garumbott_pair";
    struct garumbott_paired got = garumbott_pair_of(&r, &e, &f, &b);
    check(memcmp(&got, want, sizeof got) == 0, "answer");
    check(unchanged(LETTERS, r.letters) && unchanged(EXCEPTIONS, r.exceptions) && unchanged(BASES, e.bases) && unchanged(INSERTED, f.bases), "input changed");
    check(fence_check(&fences[TRANSCRIPT], t, want->transcript_len), "transcript buffer");
    check(fence_check(&fences[ALTERED], p, want->altered_len), "altered buffer");
    refusals[got.refusal < REFUSALS ? got.refusal : 0]++;
}

/* Two edits of one reference, in both orders; small references only. */
static void fuzz_pair(void)
{
    static struct carried two[2];
    static struct outcome o;
    static uint8_t t[GARUMBOTT_LONGEST], p[GARUMBOTT_ALTERED_ROOM];
    static const size_t most[3] = {3000, 1000, 1000};
    do make_reference(); while (ref.letters_len > 200);
    fences = small;
    for (int i = 0; i < 2; i++) {
        do make_edit(); while (edit.bases_len > 200);
        two[i].edit = edit;
        memcpy(two[i].bases, bases, edit.bases_len);
    }
    for (int i = 0; i < 4; i++) { /* damage, to the reference too, before either is answered alone */
        edit = two[i % 2].edit;
        memcpy(bases, two[i % 2].bases, edit.bases_len);
        if (i < 2 && one_in(12)) damage_call();
        two[i % 2].edit = edit;
        memcpy(two[i % 2].bases, bases, edit.bases_len);
        if (i < 2) continue;
        edit_call(0, FENCE_END, most, &o);
        two[i % 2].answer = o.a;
    }
    struct garumbott_paired want[2] = {{0}, {0}}, less = {0};
    for (int i = 0; i < 2; i++) want[i].refusal = two[i].answer.refusal != 0 ? two[i].answer.refusal : two[1 - i].answer.refusal;
    if (two[0].answer.refusal == 62 || two[1].answer.refusal == 62) want[0].refusal = want[1].refusal = 62;
    if (want[0].refusal == 0) {
        plain_carried(&two[0]);
        plain_carried(&two[1]);
        const struct carried *ahead = &two[two[1].touched_to < two[0].touched_from], *behind = ahead == two ? &two[1] : two;
        uint64_t between = ahead->touched_to < behind->touched_from, n = 0;
        if (!between) want[0].refusal = 51;
        else if (two[0].answer.answer == GARUMBOTT_UNKNOWN || two[1].answer.answer == GARUMBOTT_UNKNOWN) want[0].refusal = 52;
        else if (two[0].stops || two[1].stops) want[0].refusal = 53;
        if (want[0].refusal == 0) {
            memcpy(t, letters, n = ahead->from);
            memcpy(t + n, ahead->put, ahead->put_len), n += ahead->put_len;
            memcpy(t + n, letters + ahead->to, behind->from - ahead->to), n += behind->from - ahead->to;
            memcpy(t + n, behind->put, behind->put_len), n += behind->put_len;
            memcpy(t + n, letters + behind->to, ref.letters_len - behind->to), n += ref.letters_len - behind->to;
            struct garumbott_length read = garumbott_translate(t + ref.cs - 1, n + 1 - ref.cs, ref.table, 0, NULL, 0, p, sizeof p);
            const uint8_t *stop = memchr(p, '*', read.len);
            want[0].transcript_len = n;
            want[0].altered_len = stop == NULL ? read.len : (uint64_t)(stop - p) + 1;
            size_t size[3] = {n - below(2), 0, garumbott_altered_room(n, ref.cs) - below(2)};
            less.refusal = size[0] < n ? 11 : size[2] < garumbott_altered_room(n, ref.cs) ? 12 : 0;
            pair_call(&two[0], &two[1], size, less.refusal != 0 ? &less : &want[0], t, p);
        }
        want[1] = want[0];
    }
    pair_call(&two[0], &two[1], most, &want[0], t, p);
    pair_call(&two[1], &two[0], most, &want[1], t, p);
}

/* ---- stored references -------------------------------------------------------------------------------------------------------------- */

static uint8_t form[GARUMBOTT_LONGEST + 256], joined[GARUMBOTT_LONGEST + 8];
static uint64_t form_len;

static void put_field(uint8_t tag, const void *content, uint64_t len)
{
    uint8_t head[3] = {tag, (uint8_t)(len >> 8), (uint8_t)len};
    if (form_len + 3 + len > sizeof form) return;
    memcpy(form + form_len, head, 3);
    memcpy(form + form_len + 3, content, len);
    form_len += 3 + len;
}

/* The reference in its stored form; `order` has the tags. */
static void store(const char *order)
{
    uint8_t bounds[4] = {(uint8_t)(ref.cs >> 8), (uint8_t)ref.cs, (uint8_t)(ref.ce >> 8), (uint8_t)ref.ce}, table = (uint8_t)ref.table, end = (uint8_t)ref.end;
    uint8_t wide[8] = {(uint8_t)(ref.cs >> 24), (uint8_t)(ref.cs >> 16), (uint8_t)(ref.cs >> 8), (uint8_t)ref.cs,
                       (uint8_t)(ref.ce >> 24), (uint8_t)(ref.ce >> 16), (uint8_t)(ref.ce >> 8), (uint8_t)ref.ce};
    uint64_t part[3] = {ref.letters_len, 0, 0};
    for (int i = 0; i < 2; i++)
        if (part[i] > FULL) part[i + 1] = part[i] - FULL, part[i] = FULL;
    form_len = 0;
    for (; *order != 0; order++) {
        switch (*order) {
        case '1': put_field(1, letters, part[0]); break;
        case '5': if (part[1] != 0 || one_in(9)) put_field(5, letters + FULL, part[1]); break;
        case '6': if (part[2] != 0 || one_in(9)) put_field(6, letters + 2 * FULL, part[2]); break;
        case '7': put_field(7, wide, 8); break;
        case '2': put_field(2, bounds, 4); break;
        case '3': put_field(3, &table, 1); break;
        case '4': put_field(4, exceptions, ref.exceptions_len); break;
        case '8': put_field(8, &end, 1); break;
        default: put_field((uint8_t)(*order - '0'), &end, below(2)); break;
        }
    }
}

static void make_stored(void)
{
    static const char *const orders[] = {"123", "1234", "1324", "2134", "12344", "11234", "12234", "12334", "124", "134", "234", "12", "4", "34", "1238", "12348",
                                         "12384", "81234", "12388", "128", "348", "8", "12358", "12368", "12378", "12389", "12385",
                                         "137", "13567", "1237", "123567", "15637", "1367", "13576", "1357", "1356", "13456", "134567", "1345678"};
    char usual[] = "1345678", *to = usual;
    make_reference();
    for (uint64_t i = one_in(2) ? 0 : 1 + below(2); i != 0; i--) damage_call();
    if (one_in(15)) { /* around the lengths at which the form changes, the reference at the start or at the end of its letters */
        static const uint64_t lengths[] = {SHORT, FULL, 2 * FULL, GARUMBOTT_LONGEST};
        uint64_t from = ref.letters_len, size = lengths[below(4)] + below(5) - 2, first = size > from && one_in(2) ? size - from : 0;
        memmove(letters + first, letters, from < size ? from : size);
        for (uint64_t k = 0; k < first; k++) letters[k] = letter();
        for (uint64_t k = first + from; k < size; k++) letters[k] = letter();
        ref.letters_len = size;
        ref.cs += first;
        ref.ce += first;
    }
    int wide = ref.letters_len > SHORT, parts = ref.letters_len > FULL;
    *to++ = '1';
    if (!wide) *to++ = '2';
    *to++ = '3';
    if (one_in(2) || ref.exceptions_len != 0) *to++ = '4';
    if (parts) *to++ = '5', *to++ = '6';
    if (wide) *to++ = '7';
    if (ref.end != GARUMBOTT_END_STOP) *to++ = '8';
    *to = 0;
    store(one_in(6) ? orders[below(sizeof orders / sizeof *orders)] : usual);
    for (uint64_t i = one_in(2) ? 0 : 1 + below(3); i != 0; i--) damage(form, &form_len, sizeof form);
    if (form_len >= 3 && one_in(10)) form[one_in(2) ? 2 : below(form_len)] += (uint8_t)(one_in(2) ? 1 : 255);
    if (one_in(10)) { /* bytes of any kind, mostly small */
        form_len = below(40);
        for (uint64_t i = 0; i < form_len; i++) form[i] = one_in(4) ? (uint8_t)chance() : (uint8_t)below(10);
    }
}

/* The form read in the plainest way: its refusal but for 1 to 6, 28 and 29, or its parts, the letters of several fields in `joined`. */
static struct garumbott_stored plain_stored(void)
{
    struct garumbott_stored s = {0}, no = {0};
    uint64_t at = 0, last = 0, seen = 0, sizes[3] = {0}, places[3] = {0};
    while (at < form_len && no.refusal == 0) {
        uint64_t tag = form[at], len = form_len - at < 3 ? UINT64_MAX : form[at + 1] * UINT64_C(256) + form[at + 2];
        const uint8_t *content = form + at + 3;
        if (tag > 8 || tag <= last) no.refusal = 21;
        else if (len > form_len || at + 3 + len > form_len) no.refusal = 20;
        else if ((tag == 2 && len != 4) || (tag == 3 && len != 1) || (tag == 4 && len % 3 != 0) || (tag == 8 && len != 1)) no.refusal = 23;
        else if (((tag == 5 || tag == 6) && len == 0) || (tag == 7 && len != 8)) no.refusal = 23;
        else if (tag == 8 && content[0] != 1 && content[0] != 2) no.refusal = 23;
        else if (tag == 1) places[0] = at + 3, sizes[0] = len;
        else if (tag == 2) s.cs = content[0] * UINT64_C(256) + content[1], s.ce = content[2] * UINT64_C(256) + content[3];
        else if (tag == 3) s.table = content[0];
        else if (tag == 4) s.exceptions_at = at + 3, s.exceptions_len = len;
        else if (tag < 7) places[tag - 4] = at + 3, sizes[tag - 4] = len;
        else if (tag == 8) s.end = content[0];
        else
            for (int i = 0; i < 4; i++) s.cs = s.cs * 256 + content[i], s.ce = s.ce * 256 + content[4 + i];
        seen |= UINT64_C(1) << (tag & 15);
        last = tag;
        at += 3 + len;
    }
    if (no.refusal != 0) return no;
    s.letters_len = sizes[0] + sizes[1] + sizes[2];
    s.letters_at = places[0];
    s.joined = sizes[1] != 0;
    uint64_t narrow = seen >> 2 & 1, wide = seen >> 7 & 1;
    if ((seen & 10) != 10 || narrow + wide == 0) no.refusal = 22;
    else if (narrow + wide == 2 || wide != (s.letters_len > SHORT)) no.refusal = 25;
    else if ((sizes[1] != 0 && sizes[0] != FULL) || (sizes[2] != 0 && sizes[1] != FULL)) no.refusal = 25;
    if (no.refusal != 0) return no;
    if (s.joined) {
        s.letters_at = 0;
        for (uint64_t i = 0, n = 0; i < 3; n += sizes[i++])
            if (n + sizes[i] <= sizeof joined) memcpy(joined + n, form + places[i], sizes[i]);
    }
    return s;
}

/* What garumbott_record says of the parts alone: 1 to 6 or 28, or 0. The edit changes nothing, and there is no room. */
static uint64_t judged(const struct garumbott_stored *s, const uint8_t *data)
{
    static const struct garumbott_coding_edit nothing = {.kind = GARUMBOTT_IDENTITY, .start = 1, .end = 1};
    static const struct garumbott_buffers none;
    if (s->letters_len > GARUMBOTT_LONGEST) return 1;
    struct garumbott_reference r = garumbott_reference_at(s, data, joined);
    struct garumbott_answer a = garumbott_record_of(&r, &nothing, &none);
    check(a.answer == GARUMBOTT_UNKNOWN || a.refusal == 11 || (a.refusal >= 1 && a.refusal <= 6) || a.refusal == 28, "garumbott_record on the parts");
    return a.refusal == 11 ? 0 : a.refusal;
}

/* The form, read through the library and plainly. */
static void read_form(void)
{
    struct garumbott_stored plain = plain_stored(), want = plain, got[2];
    uint64_t space = !plain.joined || one_in(6) ? below(3) : one_in(6) ? plain.letters_len - 1 : plain.letters_len + below(3);
    if (space > GARUMBOTT_LONGEST + 2) space = GARUMBOTT_LONGEST;
    fences = form_len > 40000 ? huge : form_len > 3000 ? large : small;
    doing = "garumbott_read_stored";
    for (int side = FENCE_END; side <= FENCE_START; side++) {
        const uint8_t *data = lend(STORED, side, form, form_len);
        uint8_t *lent = fence_fill(&fences[TRANSCRIPT], side, NULL, space);
        got[side] = garumbott_read_stored(data, form_len, lent, space);
        check(unchanged(STORED, data), "input changed");
        const struct garumbott_stored *g = &got[side], none = {.refusal = g->refusal};
        check(g->refusal <= 6 || (g->refusal >= 20 && g->refusal <= 23) || g->refusal == 25 || g->refusal == 28 || g->refusal == 29, "refusal's number");
        if (g->refusal != 0) check(memcmp(g, &none, sizeof none) == 0, "a refusal tells more");
        check(g->joined <= 1 && (g->joined == 0 || (g->letters_at == 0 && g->letters_len <= space)), "joined letters outside the buffer");
        check(g->joined == 1 || (g->letters_at <= form_len && g->letters_len <= form_len - g->letters_at), "letters outside the bytes");
        check(g->exceptions_at <= form_len && g->exceptions_len <= form_len - g->exceptions_at, "exceptions outside the bytes");
        check(g->end <= 2, "an end that should be refused");
        if (plain.refusal == 0) {
            uint64_t n = judged(&plain, data);
            if (n == 0 && plain.joined && space < plain.letters_len) n = 29;
            if (n != 0) want = (struct garumbott_stored){.refusal = n};
            check(unchanged(STORED, data), "input changed");
        }
        check(memcmp(g, &want, sizeof want) == 0, "the form read plainly, judged by garumbott_record, says otherwise");
        check(fence_check(&fences[TRANSCRIPT], joined, want.joined ? want.letters_len : 0), "the buffer for joined letters");
    }
    refusals[got[0].refusal < REFUSALS ? got[0].refusal : 0]++;
    long_forms[got[0].refusal == 0 && got[0].joined]++;
    if (got[0].refusal == 0) found[got[0].end <= 2 ? got[0].end : 0]++;
}

static void fuzz_stored(void)
{
    make_stored();
    read_form();
}

/* ---- written references and editions ------------------------------------------------------------------------------------------------ */

/* One fault of a reference, or what may be one. */
static void damage_reference(void)
{
    switch (below(8)) {
    case 0: ref.letters_len = one_in(2) ? 0 : GARUMBOTT_LONGEST + 1; break;
    case 1: if (ref.letters_len != 0) letters[below(ref.letters_len)] = (uint8_t)chance(); break;
    case 2: damage_number(&ref.cs); break;
    case 3: damage_number(&ref.ce); break;
    case 4: damage_number(&ref.table); break;
    case 5: damage(exceptions, &ref.exceptions_len, sizeof exceptions); break;
    case 6: damage_number(&ref.end); break;
    default: if (ref.ce >= 3 && ref.ce <= ref.letters_len) memcpy(letters + ref.ce - 3, "GCC", 3); break;
    }
}

/* What garumbott_record refuses of a reference, 1 to 6 or 28, or 0. */
static uint64_t reference_refusal(const struct garumbott_reference *r)
{
    static const struct garumbott_coding_edit nothing = {.kind = GARUMBOTT_IDENTITY, .start = 1, .end = 1};
    static const struct garumbott_buffers none;
    uint64_t n = garumbott_record_of(r, &nothing, &none).refusal;
    return n == GARUMBOTT_REFUSAL_TRANSCRIPT_ROOM ? 0 : n;
}

/* A reference around one of the lengths at which the stored form changes, its CDS at the end of its letters. */
static void lengthen(void)
{
    static const uint64_t lengths[] = {SHORT, FULL, 2 * FULL, GARUMBOTT_LONGEST};
    uint64_t size = lengths[below(4)] + below(5) - 2, first = size - ref.letters_len;
    if (size > GARUMBOTT_LONGEST) return;
    memmove(letters + first, letters, ref.letters_len);
    for (uint64_t k = 0; k < first; k++) letters[k] = letter();
    ref.letters_len = size;
    ref.cs += first;
    ref.ce += first;
}

/* A reference written, held to its fields one behind the other; then a byte of the form is damaged, and it is read. */
static void fuzz_written(void)
{
    static uint8_t want[sizeof form];
    char order[9], *to = order;
    make_reference();
    if (one_in(12) && ref.letters_len < 1000) lengthen();
    if (one_in(3)) damage_reference();
    uint64_t refusal = reference_refusal(&ref), room_for, n = ref.letters_len;
    *to++ = '1';
    if (n <= SHORT) *to++ = '2';
    *to++ = '3';
    if (ref.exceptions_len != 0) *to++ = '4';
    if (n > FULL) *to++ = '5';
    if (n > 2 * FULL) *to++ = '6';
    if (n > SHORT) *to++ = '7';
    if (ref.end != GARUMBOTT_END_STOP) *to++ = '8';
    *to = 0;
    form_len = 0;
    if (refusal == 0) store(order);
    memcpy(want, form, form_len);
    room_for = refusal != 0 || one_in(4) ? below(60) : form_len - below(2) + (one_in(3) ? 1 + below(9) : 0);
    fences = n > 39000 || room_for > 39000 ? huge : n > 3000 || room_for > 3000 ? large : small;
    enum fence_side side = one_in(2) ? FENCE_END : FENCE_START;
    struct garumbott_reference r = ref;
    lend_letters(LETTERS, side, letters, &r);
    r.exceptions = lend(EXCEPTIONS, side, exceptions, ref.exceptions_len);
    uint8_t *out = fence_fill(&fences[TRANSCRIPT], side, NULL, room_for);
    doing = "garumbott_write_stored";
    struct garumbott_length got = garumbott_write_stored_of(&r, room_for == 0 && one_in(2) ? NULL : out, room_for);
    if (refusal == 0 && room_for < form_len) refusal = GARUMBOTT_REFUSAL_STORED_ROOM;
    check(got.refusal == refusal && got.len == (refusal == 0 ? form_len : 0), "answer");
    check(fence_check(&fences[TRANSCRIPT], want, refusal == 0 ? form_len : 0), "the form");
    check(unchanged(LETTERS, r.letters) && unchanged(EXCEPTIONS, r.exceptions), "input changed");
    refusals[got.refusal < REFUSALS ? got.refusal : 0]++;
    if (form_len == 0) return;
    check(garumbott_stored_room(n, ref.exceptions_len, ref.end) == form_len, "garumbott_stored_room");
    read_form();
    doing = "garumbott_write_stored";
    struct garumbott_stored s = garumbott_read_stored(form, form_len, joined, sizeof joined);
    struct garumbott_reference back = garumbott_reference_at(&s, form, joined);
    check(s.refusal == 0 && back.letters_len == n && memcmp(back.letters, letters, n) == 0 && back.cs == ref.cs && back.ce == ref.ce && back.table == ref.table
              && back.end == ref.end && back.exceptions_len == ref.exceptions_len
              && (ref.exceptions_len == 0 || memcmp(back.exceptions, exceptions, ref.exceptions_len) == 0), "read back, another reference");
    form[one_in(2) ? below(form_len) : below(form_len < 40 ? form_len : 40)] ^= (uint8_t)(1 + below(255));
    read_form();
}

/* The list of differences in the plainest way, codon by codon; its length, in bytes. */
static uint64_t plain_list(const struct garumbott_reference *a, const struct garumbott_reference *b, uint8_t *list)
{
    static uint8_t residues[2][GARUMBOTT_REFERENCE_ROOM];
    const struct garumbott_reference *both[2] = {a, b};
    uint64_t codons[2], n = 0;
    for (int i = 0; i < 2; i++) {
        const struct garumbott_reference *r = both[i];
        codons[i] = garumbott_translate(r->letters + r->cs - 1, r->ce + 1 - r->cs, r->table, 0, r->exceptions, r->exceptions_len, residues[i], sizeof residues[i]).len;
    }
    for (uint64_t k = 0; k < codons[0] || k < codons[1]; k++) {
        int in_both = k < codons[0] && k < codons[1], equal = in_both && residues[0][k] == residues[1][k];
        for (uint64_t i = 3 * k; equal && i < 3 * k + 3; i++) {
            int one = a->cs + i <= a->ce ? a->letters[a->cs - 1 + i] : 0, two = b->cs + i <= b->ce ? b->letters[b->cs - 1 + i] : 0;
            equal = one == two;
        }
        if (equal) continue;
        list[n++] = (uint8_t)((k + 1) >> 8);
        list[n++] = (uint8_t)(k + 1);
        list[n++] = k < codons[0] ? residues[0][k] : 0;
        list[n++] = k < codons[1] ? residues[1][k] : 0;
    }
    return n;
}

/* Two editions of small and middling references, both ways. */
static void fuzz_compare(void)
{
    static uint8_t kept_letters[sizeof letters], kept_exceptions[sizeof exceptions], list[GARUMBOTT_DIFFERENCES_ROOM];
    do make_reference(); while (ref.letters_len > 3000);
    if (one_in(6)) damage_reference();
    struct garumbott_reference first = ref;
    memcpy(kept_letters, letters, ref.letters_len);
    memcpy(kept_exceptions, exceptions, ref.exceptions_len);
    if (one_in(3)) do make_reference(); while (ref.letters_len > 3000);
    else if (ref.letters_len != 0)
        for (uint64_t i = below(6); i != 0; i--) letters[below(ref.letters_len)] = letter();
    if (one_in(4)) ref.table = below(3);
    if (one_in(4)) ref.exceptions_len = 0;
    if (one_in(3)) damage_reference();
    first.letters = kept_letters;
    first.exceptions = kept_exceptions;
    struct garumbott_reference two[2] = {first, ref};
    uint64_t refusal[2] = {reference_refusal(&two[0]), reference_refusal(&two[1])};
    fences = two[0].letters_len > 39000 || two[1].letters_len > 39000 ? huge : two[0].letters_len > 3000 || two[1].letters_len > 3000 ? large : small;
    for (int i = 0; i < 2; i++) {
        enum fence_side side = one_in(2) ? FENCE_END : FENCE_START;
        struct garumbott_reference r = two[i], s = two[1 - i];
        uint64_t want = refusal[i] != 0 ? refusal[i] : refusal[1 - i] != 0 ? GARUMBOTT_OF_SECOND + refusal[1 - i] : 0, len = want == 0 ? plain_list(&r, &s, list) : 0;
        uint64_t size = one_in(3) ? below(60) : one_in(2) && len != 0 ? len - 1 - below(4) : len;
        if (want == 0 && size < len) want = GARUMBOTT_REFUSAL_LIST;
        if (want != 0) len = 0;
        lend_letters(LETTERS, side, r.letters, &r);
        r.exceptions = lend(EXCEPTIONS, side, r.exceptions, r.exceptions_len);
        lend_letters(BASES, side, s.letters, &s);
        s.exceptions = lend(INSERTED, side, s.exceptions, s.exceptions_len);
        uint8_t *out = fence_fill(&fences[TRANSCRIPT], side, NULL, size);
        doing = "garumbott_compare";
        struct garumbott_length got = garumbott_compare_of(&r, &s, size == 0 && one_in(2) ? NULL : out, size);
        check(got.refusal == want && got.len == len, "answer");
        check(fence_check(&fences[TRANSCRIPT], list, len), "the list");
        check(unchanged(LETTERS, r.letters) && unchanged(EXCEPTIONS, r.exceptions) && unchanged(BASES, s.letters) && unchanged(INSERTED, s.exceptions), "input changed");
        refusals[got.refusal < REFUSALS ? got.refusal : 0]++;
        if (got.refusal == 0 && got.len != 0) listed++;
    }
}

/* ---- settings ----------------------------------------------------------------------------------------------------------------------- */

static uint64_t some_bytes(uint8_t *s, uint64_t most, const char *of)
{
    uint64_t n = below(most + 1), kinds = strlen(of);
    for (uint64_t i = 0; i < n; i++) s[i] = kinds == 0 || one_in(60) ? (uint8_t)chance() : (uint8_t)of[below(kinds)];
    return n;
}

/* The store read in the plainest way. */
static struct garumbott_settings plain_settings(uint64_t newest, const uint8_t *s, uint64_t n)
{
    struct garumbott_settings w = {.refusal = 60};
    if ((newest != 1 && newest != 2) || n < 4 || memcmp(s, "\1\0\1", 3) != 0 || s[3] == 0) return w;
    w.newer = s[3] > newest;
    if (w.newer) return w;
    w.refusal = 61;
    if (n != (s[3] == 2 ? GARUMBOTT_SETTINGS_ROOM : GARUMBOTT_SETTINGS_FIRST_ROOM)) return w;
    if (memcmp(s + 4, "\2\0\1", 3) != 0 || memcmp(s + 8, "\3\0\1", 3) != 0 || memcmp(s + 12, "\4\0\1", 3) != 0) return w;
    if (s[3] == 2 && memcmp(s + 16, "\5\0\2", 3) != 0) return w;
    uint64_t longest = s[3] == 2 ? s[19] * UINT64_C(256) + s[20] : GARUMBOTT_MOST_BASES;
    w.refusal = 62;
    if (s[7] > 2 || s[11] > 1 || (s[15] != 1 && s[15] != 3) || longest == 0 || longest > GARUMBOTT_MOST_BASES) return w;
    return (struct garumbott_settings){.version = s[3], .table = s[7], .profile = s[11], .width = s[15], .longest = longest};
}

/* Settings, mostly good, written, damaged and read. */
static void fuzz_settings(void)
{
    struct garumbott_settings x = {.version = 1 + below(2), .table = below(3), .profile = below(2), .width = 1 + 2 * below(2)};
    enum fence_side side = one_in(2) ? FENCE_END : FENCE_START;
    uint8_t held[64] = {0};
    x.longest = x.version == 1 && !one_in(8) ? GARUMBOTT_MOST_BASES : 1 + below(4096);
    uint64_t *numbers[] = {&x.version, &x.table, &x.profile, &x.width, &x.longest};
    if (one_in(3)) damage_number(numbers[below(5)]);
    uint64_t size = x.version == 2 ? GARUMBOTT_SETTINGS_ROOM : GARUMBOTT_SETTINGS_FIRST_ROOM, space = one_in(4) ? below(24) : size + below(3), number = 0;
    int good = x.table <= 2 && x.profile <= 1 && (x.width == 1 || x.width == 3) && x.longest >= 1 && x.longest <= 4096 && (x.version == 2 || x.longest == 4096);
    fences = small;
    doing = "garumbott_write_settings";
    number = x.version != 1 && x.version != 2 ? 60 : !good ? 62 : space < size ? 63 : 0;
    uint8_t *out = fence_fill(&fences[TRANSCRIPT], side, NULL, space);
    struct garumbott_length w = garumbott_write_settings(x.version, x.table, x.profile, x.width, x.longest, out, space);
    check(w.refusal == number && w.len == (number == 0 ? size : 0), "answer");
    check(w.len < sizeof held && fence_check(&fences[TRANSCRIPT], NULL, w.len), "bytes changed");
    if (w.len >= sizeof held) return;
    memcpy(held, out, w.len);
    refusals[w.refusal < REFUSALS ? w.refusal : 0]++;
    uint64_t n = w.len, newest = one_in(12) ? strange() : 1 + below(2);
    if (n == 0) n = some_bytes(held, 30, "\1\2\3\4\5");
    for (uint64_t i = one_in(2) ? 0 : 1 + below(2); i != 0; i--) damage(held, &n, 30);
    doing = "garumbott_read_settings";
    const uint8_t *data = lend(STORED, side, held, n);
    struct garumbott_settings got = garumbott_read_settings(newest, data, n), want = plain_settings(newest, held, n);
    check(unchanged(STORED, data), "input changed");
    check(memcmp(&got, &want, sizeof got) == 0, "the store read plainly says otherwise");
    refusals[got.refusal < REFUSALS ? got.refusal : 0]++;
    kept[got.refusal == 0 ? 0 : got.newer ? 1 : 2]++;
    if (got.refusal != 0) return;
    w = garumbott_write_settings(got.version, got.table, got.profile, got.width, got.longest, fence_fill(&fences[TRANSCRIPT], side, NULL, n), n);
    check(w.refusal == 0 && w.len == n && fence_check(&fences[TRANSCRIPT], held, n), "read and written again, other bytes");
}

/* ---- byte strings ------------------------------------------------------------------------------------------------------------------- */

typedef struct garumbott_length filler(const uint8_t *, uint64_t, uint8_t *, uint64_t);

/* A call that fills one buffer: twice alike, in its room, and 15 exactly where a wider buffer would do. */
static struct garumbott_length fill(filler *f, const uint8_t *s, uint64_t n, uint8_t *out, uint64_t most)
{
    uint64_t size = below(most + 1);
    struct garumbott_length w = f(fence_fill(&fences[LETTERS], FENCE_END, s, n), n, fence_fill(&fences[TRANSCRIPT], FENCE_END, NULL, most), most);
    check(fence_check(&fences[LETTERS], NULL, 0) && w.len <= most && fence_check(&fences[TRANSCRIPT], NULL, w.len), "bytes changed");
    check(w.refusal == 0 || w.len == 0, "a refusal has a length");
    memcpy(out, fences[TRANSCRIPT].at, w.len);
    if (w.refusal == 0 && one_in(2)) size = w.len == 0 ? 0 : w.len - below(2);
    struct garumbott_length a = f(fence_fill(&fences[LETTERS], FENCE_START, s, n), n, fence_fill(&fences[TRANSCRIPT], FENCE_START, NULL, size), size);
    check(fence_check(&fences[LETTERS], NULL, 0) && a.len <= size && fence_check(&fences[TRANSCRIPT], a.refusal == 0 ? out : NULL, a.len), "bytes changed");
    if (w.refusal == 0) check(a.refusal == (size < w.len ? 15 : 0) && a.len == (size < w.len ? 0 : w.len), "15, or the same answer");
    refusals[a.refusal]++;
    refusals[w.refusal]++;
    return w;
}

static uint64_t fill_table, fill_full, fill_exceptions_len;

static struct garumbott_length fill_translate(const uint8_t *s, uint64_t n, uint8_t *out, uint64_t len)
{
    const uint8_t *x = fence_fill(&fences[EXCEPTIONS], FENCE_END, exceptions, fill_exceptions_len);
    struct garumbott_length a = garumbott_translate(s, n, fill_table, fill_full, x, fill_exceptions_len, out, len);
    check(fence_check(&fences[EXCEPTIONS], NULL, 0), "exceptions changed");
    return a;
}

static void fuzz_strings(void)
{
    static uint8_t s[1200], t[1200], out[4000], back[4000];
    uint64_t n, m, i = 0, j = 0;
    fences = small;

    doing = "garumbott_translate";
    n = some_bytes(s, one_in(4) ? 900 : 20, one_in(8) ? "" : one_in(3) ? "ACGTRYSWKMBDHVNUacgtryswkmbdhvnu" : "ACGT");
    fill_table = one_in(10) ? strange() : below(3);
    fill_full = one_in(2) ? 0 : strange();
    fill_exceptions_len = one_in(2) ? 0 : 3 * below(18);
    for (uint64_t k = 0; k < fill_exceptions_len; k += 3) exceptions[k] = 0, exceptions[k + 1] = (uint8_t)(1 + below(9)), exceptions[k + 2] = (uint8_t)('A' + below(26));
    if (fill_exceptions_len != 0 && one_in(4)) damage(exceptions, &fill_exceptions_len, sizeof exceptions);
    struct garumbott_length a = fill(fill_translate, s, n, out, 400);
    if (a.refusal == 0) {
        check(a.len == (n + 2) / 3 && (fill_full == 0 || n % 3 == 0), "length");
        for (uint64_t k = 0; k + 3 <= n && fill_exceptions_len == 0; k += 3) check(residue_at(s + k, fill_table) == out[k / 3], "a codon alone reads otherwise");
        if (n % 3 != 0) check(out[n / 3] == 'X', "a rest isn't X");
    } else {
        check(a.refusal == 4 || a.refusal == 5 || a.refusal == 14 || a.refusal == 2, "refusal's number");
        check((a.refusal == 4) == (fill_table > 2), "4");
        if (fill_table <= 2 && fill_exceptions_len % 3 != 0) check(a.refusal == 5, "5");
    }

    doing = "garumbott_run";
    n = 0;
    if (!one_in(8)) memcpy(s, "ref 3 17 0 GGATGGCCAAATGGTAACCTGAC\n", n = 35);
    n += some_bytes(s + n, 300, one_in(8) ? "" : "01234567_-*=>ACGT\n\ndelinsupv");
    a = fill(garumbott_run, s, n, out, 3900);
    for (uint64_t k = 0; k < n; k++) i += s[k] == '\n' || k + 1 == n;
    for (uint64_t k = 0; k < a.len; k++) j += out[k] == '\n';
    if (a.refusal == 0) check(j == (a.len >= 9 && memcmp(out, "reference", 9) == 0 ? i : i != 0), "a line for each line");
    else check(a.refusal == 15, "refusal's number");
    i = j = 0;

    doing = "garumbott_complement";
    n = some_bytes(s, 900, one_in(8) ? "" : "ACGTRYSWKMBDHVN");
    a = fill(garumbott_complement, s, n, out, 900);
    if (a.refusal == 0) check(a.len == n && garumbott_complement(out, n, back, n).refusal == 0 && memcmp(back, s, n) == 0, "twice isn't the same again");
    else check(a.refusal == 2, "refusal's number");

    doing = "garumbott_names3";
    n = some_bytes(s, 300, one_in(8) ? "" : "ARNDCQEGHILKMFPSTWYVUXBZ*");
    a = fill(garumbott_names3, s, n, out, 900);
    if (a.refusal == 0) check(a.len == 3 * n && garumbott_names1(out, a.len, back, n).len == n && memcmp(back, s, n) == 0, "back isn't the same again");
    else check(a.refusal == 15, "refusal's number");

    doing = "garumbott_names1";
    if (a.refusal == 0) {
        memcpy(s, out, n = a.len);
        if (n != 0 && one_in(3)) damage(s, &n, sizeof s);
    } else {
        n = some_bytes(s, 90, "");
    }
    a = fill(garumbott_names1, s, n, out, 300);
    if (a.refusal == 0) check(3 * a.len == n && garumbott_names3(out, a.len, back, n).len == n && memcmp(back, s, n) == 0, "back isn't the same again");
    else check(a.refusal == 15, "refusal's number");

    doing = "garumbott_common_prefix and suffix";
    n = some_bytes(s, 200, one_in(2) ? "A" : "");
    memcpy(t, s, m = n);
    for (uint64_t k = below(3); k != 0; k--) damage(t, &m, sizeof t);
    while (i < n && i < m && s[i] == t[i]) i++;
    while (j < n && j < m && s[n - 1 - j] == t[m - 1 - j]) j++;
    const uint8_t *x = lend(LETTERS, FENCE_END, s, n), *y = lend(BASES, FENCE_END, t, m);
    check(garumbott_common_prefix(x, n, y, m) == i && garumbott_common_suffix(x, n, y, m) == j, "count");
    x = lend(LETTERS, FENCE_START, s, n), y = lend(BASES, FENCE_START, t, m);
    check(garumbott_common_prefix(y, m, x, n) == i && garumbott_common_suffix(y, m, x, n) == j, "count");
}

int main(int argc, char **argv)
{
    double seconds = argc > 1 ? strtod(argv[1], NULL) : 30;
    uint64_t seed = argc > 2 ? strtoull(argv[2], NULL, 10) : 1, calls = 0;
    static const int wanted[] = {1, 2, 3, 4, 5, 6, 7, 8, 9, 10, 11, 12, 14, 15, 20, 21, 22, 23, 24, 25, 26, 27, 28, 29, 40, 41, 42, 43, 50, 51, 52, 53, 60, 61, 62, 63, 101, 102, 103, 104, 105, 106, 128};
    enum { LEAST = 10000 }; /* a slow machine too must meet every answer, class and refusal */
    time_t until = time(NULL) + (time_t)seconds;
    for (int i = 0; i < FENCES; i++) fence_make(&small[i], 4000), fence_make(&large[i], 40000), fence_make(&huge[i], GARUMBOTT_TRANSCRIPT_ROOM + 64);
    do {
        for (int i = 0; i < 100; i++, calls++) {
            case_seed = state = seed + calls * UINT64_C(0x1000003);
            if (i % 16 == 7) fuzz_written();
            else if (i % 16 == 15) fuzz_compare();
            else if (i % 4 == 3) fuzz_strings();
            else if (i % 4 == 1) fuzz_stored();
            else if (i % 8 == 6) fuzz_pair();
            else if (i % 16 == 10) fuzz_settings();
            else fuzz_edit();
        }
    } while (time(NULL) < until || calls < LEAST);
    for (int i = 0; i < 5; i++) printf("answer %d: %lu\n", i, answers[i]), check(answers[i] != 0, "an answer never came up");
    for (int i = 0; i < 3; i++)
        printf("end %d: %lu edits, %lu stored references\n", i, ends[i], found[i]), check(ends[i] != 0 && found[i] != 0, "an end never came up");
    for (int i = 0; i < 3; i++) printf("records %s: %lu\n", (const char *[]){"no no", "yes no", "yes yes"}[i], verdicts[i]), check(verdicts[i] != 0, "an answer to a record never came up");
    printf("stored references with joined letters: %lu\n", long_forms[1]), check(long_forms[1] != 0, "no letters were joined");
    printf("edits that the profile accepts: %lu\n", profiled[1]), check(profiled[1] != 0, "the profile never accepts");
    printf("settings read: %lu, newer: %lu\n", kept[0], kept[1]), check(kept[0] != 0 && kept[1] != 0, "no settings were read, or none newer");
    printf("packed letters: %lu, a byte each: %lu\n", forms[1], forms[0]), check(forms[0] != 0 && forms[1] != 0, "a form never came up");
    printf("lists of differences: %lu\n", listed), check(listed != 0, "no difference was listed");
    printf("R the beginning of A: %lu\n", begun), check(begun != 0, "R was never the beginning of A");
    for (int i = 1; i < 10; i++) printf("%s: %lu\n", garumbott_class_name((uint64_t)i), classes[i]), check(classes[i] != 0, "a class never came up");
    for (size_t i = 0; i < sizeof wanted / sizeof *wanted; i++) printf("refused %d: %lu\n", wanted[i], refusals[wanted[i]]), check(refusals[wanted[i]] != 0, "a refusal never came up");
    printf("%" PRIu64 " inputs, %lu checks, %lu failed\n", calls, checks, faults);
    return faults == 0 ? 0 : 1;
}
