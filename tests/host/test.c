/* Calls every entry point of the library with good, bad and boundary input, through fenced memory: a refusal and Unknown must change no byte,
 * and nothing may change outside of what an answer wrote. Each call is made twice: with the bytes of every slice ending at a page that can't be
 * touched, and beginning at one. Prints how many checks were made; exits 1 if one failed. */
#define _DEFAULT_SOURCE
#include "fence.h"
#include "garumbott.h"
#include <pthread.h>
#include <stdio.h>
#include <stdlib.h>
#include <string.h>
#include <sys/mman.h>

static unsigned long checks, faults;

static void check(int good, const char *name, const char *what)
{
    checks++;
    if (!good) {
        faults++;
        printf("FAILED %s: %s\n", name, what);
    }
}

static const uint8_t *bytes(const char *s)
{
    return (const uint8_t *)s;
}

/* ---- edits ------------------------------------------------------------------------------------------------------------------------- */

enum { LETTERS, EXCEPTIONS, BASES, TRANSCRIPT, REFERENCE, ALTERED, STORED, DELETED, INSERTED, JOINED, FENCES };
static struct fence huge[FENCES], large[FENCES], small[FENCES], *fences = large;

/* The longest transcript of the text program, and what its edits take at most. */
enum { TEXT_LONGEST = 16384, TEXT_TRANSCRIPT = 32768, TEXT_REFERENCE = 5462, TEXT_ALTERED = 10923 };

/* Room that is never too short: for every reference, for those of up to 16,384 letters, and, in the small fences, for those of some letters. */
static const size_t library_room[3] = {GARUMBOTT_TRANSCRIPT_ROOM, GARUMBOTT_REFERENCE_ROOM, GARUMBOTT_ALTERED_ROOM};
static const size_t whole_room[3] = {TEXT_TRANSCRIPT, TEXT_REFERENCE, TEXT_ALTERED}, small_room[3] = {40, 10, 20};
static const size_t *plenty = whole_room;

struct row {
    const char *name;
    const struct garumbott_reference *reference;
    struct garumbott_coding_edit edit;
    const char *line; /* the text program's line for the answer */
    int flag;
    const char *transcript, *altered; /* what is written */
    unsigned codons;                  /* looked up */
};

/* The numbers of an answer, from the text program's line, what is written and the codons looked up. */
static struct garumbott_answer wanted(const char *line, int flag, size_t t, size_t r, size_t a, unsigned codons)
{
    struct garumbott_answer w = {0};
    char word[32], deleted[64], inserted[64];
    unsigned n = 0, first = 0;
    int parts = sscanf(line, "%31s %u %63s %63s %u", word, &n, deleted, inserted, &first);
    if (strcmp(word, "refused") == 0) {
        w.refusal = n;
        return w;
    }
    w.answer = GARUMBOTT_UNKNOWN;
    if (strcmp(word, "unknown") == 0) return w;
    w.frameshift = (uint64_t)flag;
    w.transcript_len = t;
    w.reference_len = r;
    w.altered_len = a;
    w.codons = codons;
    w.answer = GARUMBOTT_NO_PROTEIN;
    if (strcmp(word, "no-protein") == 0) return w;
    w.answer = GARUMBOTT_SILENT;
    if (strcmp(word, "silent") != 0) {
        w.answer = GARUMBOTT_CHANGED;
        for (w.change = 1; w.change < 10 && strcmp(garumbott_class_name(w.change), word) != 0; w.change++) {}
    }
    w.number = n;
    w.deleted_at = w.inserted_at = n - 1;
    w.deleted_len = strcmp(deleted, "-") == 0 ? 0 : strlen(deleted);
    w.inserted_len = strcmp(inserted, "-") == 0 ? 0 : strlen(inserted);
    w.first = parts == 5 ? first : 0;
    return w;
}

static int same(const struct garumbott_answer *a, const struct garumbott_answer *b)
{
    return memcmp(a, b, sizeof *a) == 0;
}

/* What a slice lends: NULL stays NULL, so that its length is 0. */
static const uint8_t *lend(int which, enum fence_side side, const uint8_t *from, uint64_t len)
{
    return from == NULL ? NULL : fence_fill(&fences[which], side, from, len);
}

/* Both calls on one edit, with buffers of the given sizes: `wa` and `we` are the answers, `t`, `r` and `a` what is written. */
static void edit_case(const char *name, const struct garumbott_reference *reference, const struct garumbott_coding_edit *edit,
                      const size_t room[3], const struct garumbott_answer *wa, const struct garumbott_answer *we, const void *t,
                      const void *r, const void *a)
{
    for (int side = FENCE_END; side <= FENCE_START; side++) {
        struct garumbott_reference ref = *reference;
        struct garumbott_coding_edit e = *edit;
        struct garumbott_buffers b;
        ref.letters = lend(LETTERS, side, reference->letters, reference->letters_len);
        ref.exceptions = lend(EXCEPTIONS, side, reference->exceptions, reference->exceptions_len);
        e.bases = lend(BASES, side, edit->bases, edit->bases_len);
        for (int both = 0; both < 2; both++) {
            b.transcript = fence_fill(&fences[TRANSCRIPT], side, NULL, room[0]);
            b.transcript_len = room[0];
            b.reference = fence_fill(&fences[REFERENCE], side, NULL, room[1]);
            b.reference_len = room[1];
            b.altered = fence_fill(&fences[ALTERED], side, NULL, room[2]);
            b.altered_len = room[2];
            const struct garumbott_answer *want = both == 0 ? wa : we;
            struct garumbott_answer got = both == 0 ? garumbott_record_of(&ref, &e, &b) : garumbott_edit_of(&ref, &e, &b);
            check(same(&got, want), name, both == 0 ? "record's answer" : "edit's answer");
            check(fence_check(&fences[TRANSCRIPT], t, want->transcript_len), name, "transcript");
            check(fence_check(&fences[REFERENCE], r, want->reference_len), name, "reference protein");
            check(fence_check(&fences[ALTERED], a, want->altered_len), name, "altered protein");
        }
        if (reference->letters != NULL) check(fence_check(&fences[LETTERS], NULL, 0), name, "letters changed");
        if (reference->exceptions != NULL) check(fence_check(&fences[EXCEPTIONS], NULL, 0), name, "exceptions changed");
        if (edit->bases != NULL) check(fence_check(&fences[BASES], NULL, 0), name, "bases changed");
    }
}

/* What garumbott_edit answers where garumbott_record answers `a`. */
static struct garumbott_answer alone(const struct garumbott_answer *a)
{
    struct garumbott_answer w = {0};
    w.refusal = a->refusal;
    w.answer = a->answer < GARUMBOTT_NO_PROTEIN ? a->answer : GARUMBOTT_CHANGED;
    w.frameshift = a->frameshift;
    w.transcript_len = a->transcript_len;
    return w;
}

static void put_field(uint8_t **to, uint8_t tag, const void *content, size_t len)
{
    uint8_t head[3] = {tag, (uint8_t)(len >> 8), (uint8_t)len};
    memcpy(*to, head, 3);
    if (len != 0) memcpy(*to + 3, content, len);
    *to += 3 + len;
}

/* Letters of a full field, those that have bounds of two bytes, and the longest form that is written here: one letter too many, seventeen exceptions. */
enum { FULL = 65535, NARROW = 16384, LONGEST_FORM = GARUMBOTT_LONGEST + 1 + 8 * 3 + 8 + 1 + 51 + 1 };

static void put_bounds(uint8_t **to, uint8_t tag, const struct garumbott_reference *r)
{
    uint8_t content[8];
    int bytes_each = tag == 2 ? 2 : 4;
    for (int i = 0; i < bytes_each; i++) {
        int shift = 8 * (bytes_each - 1 - i);
        content[i] = (uint8_t)(r->cs >> shift);
        content[bytes_each + i] = (uint8_t)(r->ce >> shift);
    }
    put_field(to, tag, content, 2 * (size_t)bytes_each);
}

/* The stored form of a reference whose numbers fit, with bounds under tag 2 or 7, and its length. No exceptions: no field for them; letters up to 65,535: tag 1 alone;
 * an end at a stop: no tag 8. */
static size_t store_by(uint8_t *form, const struct garumbott_reference *r, uint8_t bounds_tag)
{
    uint8_t *to = form, table = (uint8_t)r->table, end = (uint8_t)r->end;
    size_t n = r->letters_len;
    put_field(&to, 1, r->letters, n < FULL ? n : FULL);
    if (bounds_tag == 2) put_bounds(&to, 2, r);
    put_field(&to, 3, &table, 1);
    if (r->exceptions_len != 0) put_field(&to, 4, r->exceptions, r->exceptions_len);
    if (n > FULL) put_field(&to, 5, r->letters + FULL, n < 2 * FULL ? n - FULL : FULL);
    if (n > 2 * FULL) put_field(&to, 6, r->letters + 2 * FULL, n - 2 * FULL);
    if (bounds_tag == 7) put_bounds(&to, 7, r);
    if (r->end != 0) put_field(&to, 8, &end, 1);
    return (size_t)(to - form);
}

static size_t store(uint8_t *form, const struct garumbott_reference *r)
{
    return store_by(form, r, r->letters_len > NARROW ? 7 : 2);
}

static int same_stored(const struct garumbott_stored *a, const struct garumbott_stored *b)
{
    return memcmp(a, b, sizeof *a) == 0;
}

/* An edit of a reference that is read from its stored form: refused there with 1 to 6 or 28, or answered as it is with the reference itself. A number
 * that no end has is wrong for its field. */
static void edit_stored(const char *name, const struct garumbott_reference *reference, const struct garumbott_coding_edit *edit,
                        const struct garumbott_answer *want, const void *t, const void *r, const void *a)
{
    static uint8_t form[LONGEST_FORM];
    uint64_t most = reference->letters_len > NARROW ? UINT32_MAX : UINT16_MAX;
    if (reference->cs > most || reference->ce > most || reference->table > 255 || reference->end > 255) return;
    size_t len = store(form, reference), x = reference->exceptions_len, joined = reference->letters_len > FULL;
    size_t letters = joined ? FULL : reference->letters_len;
    uint64_t refusal = x % 3 != 0 || reference->end > 2 ? GARUMBOTT_REFUSAL_FIELD : want->refusal <= 6 || want->refusal == GARUMBOTT_REFUSAL_END ? want->refusal : 0;
    for (int side = FENCE_END; side <= FENCE_START; side++) {
        const uint8_t *data = fence_fill(&fences[STORED], side, form, len);
        size_t room = !joined ? 0 : reference->letters_len + (side == FENCE_END ? 0 : 7);
        if (joined && refusal == 0) {
            struct garumbott_stored less = garumbott_read_stored(data, len, fence_fill(&fences[JOINED], side, NULL, reference->letters_len - 1), reference->letters_len - 1),
                                    short_of = {.refusal = GARUMBOTT_REFUSAL_JOINED_ROOM};
            check(same_stored(&less, &short_of) && fence_check(&fences[JOINED], NULL, 0), name, "a byte too little for the joined letters");
        }
        uint8_t *lent = room == 0 ? NULL : fence_fill(&fences[JOINED], side, NULL, room);
        struct garumbott_stored got = garumbott_read_stored(data, len, lent, room), no = {.refusal = refusal},
                                good = {.cs = reference->cs, .ce = reference->ce, .table = reference->table, .letters_at = joined ? 0 : 3,
                                        .letters_len = reference->letters_len, .exceptions_at = x == 0 ? 0 : letters + (most == UINT16_MAX ? 17 : 10), .exceptions_len = x,
                                        .end = reference->end, .joined = joined};
        check(same_stored(&got, refusal == 0 ? &good : &no), name, "read_stored's answer");
        if (lent != NULL) check(fence_check(&fences[JOINED], reference->letters, refusal == 0 ? reference->letters_len : 0), name, "joined letters");
        struct garumbott_reference found = garumbott_reference_at(&got, data, lent);
        check(found.end == got.end, name, "the end that garumbott_reference_at carries");
        struct garumbott_buffers b = {fence_fill(&fences[TRANSCRIPT], side, NULL, plenty[0]), plenty[0], fence_fill(&fences[REFERENCE], side, NULL, plenty[1]),
                                      plenty[1], fence_fill(&fences[ALTERED], side, NULL, plenty[2]), plenty[2]};
        struct garumbott_answer one = {.refusal = 1}, answer = garumbott_record_of(&found, edit, &b);
        const struct garumbott_answer *w = refusal == 0 ? want : &one;
        check(same(&answer, w), name, "record's answer to the stored reference");
        check(fence_check(&fences[TRANSCRIPT], t, w->transcript_len), name, "transcript of the stored reference");
        check(fence_check(&fences[REFERENCE], r, w->reference_len), name, "reference protein of the stored reference");
        check(fence_check(&fences[ALTERED], a, w->altered_len), name, "altered protein of the stored reference");
        check(fence_check(&fences[STORED], NULL, 0), name, "stored bytes changed");
    }
}

/* A record that somebody proposes for an edit. */
struct proposal {
    uint64_t number;
    const uint8_t *deleted;
    uint64_t deleted_len;
    const uint8_t *inserted;
    uint64_t inserted_len;
};

/* Answers to a proposal. */
enum { NO_NO = 0, YES_NO = 1, YES_YES = 3 };

/* garumbott_check with buffers of the given sizes: a refusal, or 0 and both answers, and `t`, `r` and `a` written. */
static void check_case(const char *name, const struct garumbott_reference *reference, const struct garumbott_coding_edit *edit, const struct proposal *p,
                       const size_t room[3], uint64_t refusal, int answers, const struct garumbott_answer *record, const void *t, const void *r, const void *a)
{
    struct garumbott_checked want = {.refusal = refusal};
    if (refusal == 0) {
        want.replays = answers != NO_NO;
        want.shortest = answers == YES_YES;
        want.transcript_len = record->transcript_len;
        want.reference_len = record->reference_len;
        want.altered_len = record->altered_len;
    }
    for (int side = FENCE_END; side <= FENCE_START; side++) {
        struct garumbott_reference ref = *reference;
        struct garumbott_coding_edit e = *edit;
        struct garumbott_buffers b = {fence_fill(&fences[TRANSCRIPT], side, NULL, room[0]), room[0], fence_fill(&fences[REFERENCE], side, NULL, room[1]),
                                      room[1], fence_fill(&fences[ALTERED], side, NULL, room[2]), room[2]};
        ref.letters = lend(LETTERS, side, reference->letters, reference->letters_len);
        ref.exceptions = lend(EXCEPTIONS, side, reference->exceptions, reference->exceptions_len);
        e.bases = lend(BASES, side, edit->bases, edit->bases_len);
        const uint8_t *deleted = lend(DELETED, side, p->deleted, p->deleted_len), *put_in = lend(INSERTED, side, p->inserted, p->inserted_len);
        struct garumbott_checked got = garumbott_check_of(&ref, &e, p->number, deleted, p->deleted_len, put_in, p->inserted_len, &b);
        check(memcmp(&got, &want, sizeof got) == 0, name, "check's answer");
        check(fence_check(&fences[TRANSCRIPT], t, want.transcript_len), name, "transcript of check");
        check(fence_check(&fences[REFERENCE], r, want.reference_len), name, "reference protein of check");
        check(fence_check(&fences[ALTERED], a, want.altered_len), name, "altered protein of check");
        if (reference->letters != NULL) check(fence_check(&fences[LETTERS], NULL, 0), name, "letters changed by check");
        if (reference->exceptions != NULL) check(fence_check(&fences[EXCEPTIONS], NULL, 0), name, "exceptions changed by check");
        if (edit->bases != NULL) check(fence_check(&fences[BASES], NULL, 0), name, "bases changed by check");
        if (deleted != NULL) check(fence_check(&fences[DELETED], NULL, 0), name, "deleted residues changed by check");
        if (put_in != NULL) check(fence_check(&fences[INSERTED], NULL, 0), name, "inserted residues changed by check");
    }
}

static const struct proposal WRONG = {.deleted = (const uint8_t *)"k", .deleted_len = 1, .inserted = (const uint8_t *)"", .inserted_len = 1};

/* An edit's own record, as `w` tells of it: accepted, and not the shortest where it was left whole for its flag and both ends are alike. Where the answer
 * isn't Changed, its refusal or 26, although the proposal is wrong too. */
static void own_record(const char *name, const struct garumbott_reference *reference, const struct garumbott_coding_edit *edit, const size_t room[3],
                       const struct garumbott_answer *w, const char *t, const char *r, const char *a)
{
    if (w->answer != GARUMBOTT_CHANGED) {
        uint64_t refusal = w->answer == GARUMBOTT_REFUSED ? w->refusal : GARUMBOTT_REFUSAL_NOT_CHANGED;
        check_case(name, reference, edit, &WRONG, room, refusal, NO_NO, w, t, r, a);
        return;
    }
    struct proposal own = {w->number, bytes(r) + w->deleted_at, w->deleted_len, bytes(a) + w->inserted_at, w->inserted_len}, other = own;
    int ends_alike = own.deleted_len != 0 && own.inserted_len != 0 && own.deleted[own.deleted_len - 1] == own.inserted[own.inserted_len - 1];
    check(!ends_alike || w->frameshift, name, "an ending is left in without the flag");
    check_case(name, reference, edit, &own, room, 0, ends_alike ? YES_NO : YES_YES, w, t, r, a);
    /* the whole of both proteins; one residue too few, and a number that is off */
    struct proposal whole = {1, bytes(r), w->reference_len, bytes(a), w->altered_len};
    int shortest = w->number == 1 && own.deleted_len == w->reference_len && own.inserted_len == w->altered_len && !ends_alike;
    check_case(name, reference, edit, &whole, room, 0, shortest ? YES_YES : YES_NO, w, t, r, a);
    if (own.inserted_len != 0) {
        other.inserted_len--;
        check_case(name, reference, edit, &other, room, 0, NO_NO, w, t, r, a);
    }
    other = own;
    other.number = w->reference_len + 2;
    check_case(name, reference, edit, &other, room, GARUMBOTT_REFUSAL_PROPOSAL, NO_NO, w, t, r, a);
    other.number = 0;
    check_case(name, reference, edit, &other, room, GARUMBOTT_REFUSAL_PROPOSAL, NO_NO, w, t, r, a);
}

/* What the header says of rooms, of names, and of the base that a substitution replaces, which stands behind the number in the row's name. */
static void row_says(const struct row *x, const struct garumbott_answer *w, size_t t, size_t n)
{
    const struct garumbott_reference *r = x->reference;
    const char *name = w->answer == GARUMBOTT_CHANGED ? garumbott_class_name(w->change) : garumbott_answer_name(w->answer);
    check(strncmp(x->line, name, strlen(name)) == 0, x->name, "the answer's name");
    if (x->edit.kind == GARUMBOTT_SUBSTITUTION)
        check(r->letters[r->cs + (uint64_t)x->edit.start - 2] == (uint8_t)x->name[strspn(x->name, "0123456789")], x->name, "the base replaced");
    if (w->answer < GARUMBOTT_NO_PROTEIN) return;
    check(garumbott_reference_room(r->cs, r->ce) == n, x->name, "reference_room");
    check(garumbott_transcript_room(r->letters_len, x->edit.kind, x->edit.bases_len) >= t, x->name, "transcript_room");
    struct garumbott_buffers none = {0};
    uint64_t refusal = garumbott_record_of(r, &x->edit, &none).refusal;
    check(refusal == 11 || refusal == 12, x->name, "11 or 12 without room");
}

/* A row with exactly the room that its answer asks for, with plenty, and with a byte too little in each buffer. */
static void row_case(const struct row *x, const char *r)
{
    size_t t = strlen(x->transcript), a = strlen(x->altered), n = strlen(r);
    struct garumbott_answer w = wanted(x->line, x->flag, t, n, a, x->codons), e = alone(&w);
    row_says(x, &w, t, n);
    size_t exact[3] = {t, n, garumbott_altered_room(t, x->reference->cs)};
    edit_case(x->name, x->reference, &x->edit, plenty, &w, &e, x->transcript, r, x->altered);
    edit_case(x->name, x->reference, &x->edit, exact, &w, &e, x->transcript, r, x->altered);
    edit_stored(x->name, x->reference, &x->edit, &w, x->transcript, r, x->altered);
    own_record(x->name, x->reference, &x->edit, plenty, &w, x->transcript, r, x->altered);
    own_record(x->name, x->reference, &x->edit, exact, &w, x->transcript, r, x->altered);
    if (w.answer < GARUMBOTT_NO_PROTEIN) {
        size_t none[3] = {0, 0, 0};
        edit_case(x->name, x->reference, &x->edit, none, &w, &e, "", "", "");
        own_record(x->name, x->reference, &x->edit, none, &w, "", "", "");
        return;
    }
    for (int i = 0; i < 3; i++) {
        size_t less[3] = {exact[0], exact[1], exact[2]};
        if (less[i] == 0) continue;
        less[i]--;
        struct garumbott_answer no = {0}, still = e;
        no.refusal = i == 0 ? GARUMBOTT_REFUSAL_TRANSCRIPT_ROOM : GARUMBOTT_REFUSAL_PROTEIN_ROOM;
        if (i == 0) still = no;
        edit_case(x->name, x->reference, &x->edit, less, &no, &still, x->transcript, r, x->altered);
        own_record(x->name, x->reference, &x->edit, less, &no, "", "", "");
    }
}

#define REFERENCE_OF(s, c, d, t, x, n) {.letters = (const uint8_t *)(s), .letters_len = sizeof(s) - 1, .cs = (c), .ce = (d), .table = (t), .exceptions = (const uint8_t *)(x), .exceptions_len = (n)}
#define ONE(k, p) {.kind = GARUMBOTT_##k, .start = (p), .end = (p)}
#define TWO(k, p, q) {.kind = GARUMBOTT_##k, .start = (p), .end = (q)}
#define STAR(k, p, q) {.kind = GARUMBOTT_##k, .start = (p), .end_star = 1, .end = (q)}
#define ONE_NEW(k, p, s) {.kind = GARUMBOTT_##k, .start = (p), .end = (p), .bases = (const uint8_t *)(s), .bases_len = sizeof(s) - 1}
#define TWO_NEW(k, p, q, s) {.kind = GARUMBOTT_##k, .start = (p), .end = (q), .bases = (const uint8_t *)(s), .bases_len = sizeof(s) - 1}
#define STAR_NEW(k, p, q, s) {.kind = GARUMBOTT_##k, .start = (p), .end_star = 1, .end = (q), .bases = (const uint8_t *)(s), .bases_len = sizeof(s) - 1}

static const struct garumbott_reference W = REFERENCE_OF("GGATGGCCAAATGGTAACCTGAC", 3, 17, 0, NULL, 0);
static const struct garumbott_reference SHORT = REFERENCE_OF("ATGTAA", 1, 6, 0, NULL, 0);
static const struct garumbott_reference SHORT1 = REFERENCE_OF("ATGTAA", 1, 6, 1, NULL, 0);
static const struct garumbott_reference TWO_STOPS = REFERENCE_OF("ATGTAATAA", 1, 9, 0, NULL, 0);
static const struct garumbott_reference SELENO = REFERENCE_OF("ATGTGAAAATAA", 1, 12, 0, "\0\2U", 3);
static const struct garumbott_reference LAST = REFERENCE_OF("ATGAAAAAA", 1, 9, 0, "\0\3*", 3);
static const struct garumbott_reference MITO = REFERENCE_OF("CACATAGGATGAATGAACAGAACCTTAGTT", 4, 21, 2, NULL, 0);

/* Document 01's lines, its readings, and exceptions. */
static void rows(void)
{
    static const struct row all[] = {
        {"8A>G", &W, ONE_NEW(SUBSTITUTION, 8, "G"), "substitution 3 K R", 0, "GGATGGCCAGATGGTAACCTGAC", "MARW*", 1},
        {"5del", &W, ONE(DELETION, 5), "frameshift 3 KW* NGNLX", 1, "GGATGGCAAATGGTAACCTGAC", "MANGNLX", 5},
        {"4_6dup", &W, TWO(DUPLICATION, 4, 6), "duplication 3 - A 2", 0, "GGATGGCCGCCAAATGGTAACCTGAC", "MAAKW*", 1},
        {"12G>A", &W, ONE_NEW(SUBSTITUTION, 12, "A"), "stop-gained 4 W -", 0, "GGATGGCCAAATGATAACCTGAC", "MAK*", 1},
        {"13T>C", &W, ONE_NEW(SUBSTITUTION, 13, "C"), "extension 5 * QPD", 0, "GGATGGCCAAATGGCAACCTGAC", "MAKWQPD", 3},
        {"6C>T", &W, ONE_NEW(SUBSTITUTION, 6, "T"), "silent 2 A A", 0, "GGATGGCTAAATGGTAACCTGAC", "MAKW*", 1},
        {"4_6inv", &W, TWO(INVERSION, 4, 6), "substitution 2 A G", 0, "GGATGGGCAAATGGTAACCTGAC", "MGKW*", 1},
        {"1A>G", &W, ONE_NEW(SUBSTITUTION, 1, "G"), "start-lost 1 M V", 0, "GGGTGGCCAAATGGTAACCTGAC", "VAKW*", 1},
        {"9_10insTAGC", &W, TWO_NEW(INSERTION, 9, 10, "TAGC"), "stop-gained 4 W -", 0, "GGATGGCCAAATAGTGGTAACCTGAC", "MAK*", 1},
        {"1_*6del", &W, STAR(DELETION, 1, 6), "no-protein", 1, "GG", "", 0},
        {"1_*7del", &W, STAR(DELETION, 1, 7), "unknown", 0, "", "", 0},
        {"16del", &W, ONE(DELETION, 16), "refused 7", 0, "", "", 0},
        {"4=", &W, ONE(IDENTITY, 4), "silent 2 A A", 0, "GGATGGCCAAATGGTAACCTGAC", "MAKW*", 0},
        {"-2_2del", &W, TWO(DELETION, -2, 2), "start-lost 1 MAKW* GQMVT*", 1, "GGGGCCAAATGGTAACCTGAC", "GQMVT*", 6},
        {"15_*1insA", &W, STAR_NEW(INSERTION, 15, 1, "A"), "silent 5 * *", 1, "GGATGGCCAAATGGTAAACCTGAC", "MAKW*", 0},
        {"10_*6del", &W, STAR(DELETION, 10, 6), "frameshift 4 W* -", 1, "GGATGGCCAAA", "MAK", 0},
        {"4_*2dup", &W, STAR(DUPLICATION, 4, 2), "silent 1 M M", 1, "GGATGGCCAAATGGTAACCGCCAAATGGTAACCTGAC", "MAKW*", 0},
        {"12_13insAAA", &W, TWO_NEW(INSERTION, 12, 13, "AAA"), "insertion 5 - K", 0, "GGATGGCCAAATGGAAATAACCTGAC", "MAKWK*", 1},
        {"1_3dup", &W, TWO(DUPLICATION, 1, 3), "duplication 2 - M 1", 0, "GGATGATGGCCAAATGGTAACCTGAC", "MMAKW*", 1},
        {"3_4insATG", &W, TWO_NEW(INSERTION, 3, 4, "ATG"), "duplication 2 - M 1", 0, "GGATGATGGCCAAATGGTAACCTGAC", "MMAKW*", 1},
        {"3_4insATGGCC", &W, TWO_NEW(INSERTION, 3, 4, "ATGGCC"), "insertion 2 - MA", 0, "GGATGATGGCCGCCAAATGGTAACCTGAC", "MMAAKW*", 2},
        {"10_12del", &W, TWO(DELETION, 10, 12), "stop-gained 4 W -", 0, "GGATGGCCAAATAACCTGAC", "MAK*", 0},
        {"4_9del", &W, TWO(DELETION, 4, 9), "deletion 2 AK -", 0, "GGATGTGGTAACCTGAC", "MW*", 0},
        {"4_9delinsTT", &W, TWO_NEW(DELINS, 4, 9, "TT"), "frameshift 2 AKW* FGNLX", 1, "GGATGTTTGGTAACCTGAC", "MFGNLX", 4},
        {"4_6delinsGGGGGG", &W, TWO_NEW(DELINS, 4, 6, "GGGGGG"), "delins 2 A GG", 0, "GGATGGGGGGGAAATGGTAACCTGAC", "MGGKW*", 2},
        {"3_4insTRA", &SHORT, TWO_NEW(INSERTION, 3, 4, "TRA"), "silent 1 M M", 0, "ATGTRATAA", "M*", 1},
        {"3_4insTRA, table 1", &SHORT1, TWO_NEW(INSERTION, 3, 4, "TRA"), "insertion 2 - X", 0, "ATGTRATAA", "MX*", 1},
        {"1_2insTAA", &SHORT, TWO_NEW(INSERTION, 1, 2, "TAA"), "start-lost 1 - I", 0, "ATAATGTAA", "IM*", 2},
        {"1_6del", &SHORT, TWO(DELETION, 1, 6), "no-protein", 0, "", "", 0},
        {"1_*1=", &SHORT, STAR(IDENTITY, 1, 1), "unknown", 0, "", "", 0},
        {"1= of M**", &TWO_STOPS, ONE(IDENTITY, 1), "unknown", 0, "", "", 0},
        {"*1del of M**", &TWO_STOPS, {.kind = GARUMBOTT_DELETION, .start_star = 1, .start = 1, .end_star = 1, .end = 1}, "refused 9", 0, "", "", 0},
        {"1= with U", &SELENO, ONE(IDENTITY, 1), "silent 1 M M", 0, "ATGTGAAAATAA", "MUK*", 4},
        {"6A>G under U", &SELENO, ONE_NEW(SUBSTITUTION, 6, "G"), "substitution 2 U W", 0, "ATGTGGAAATAA", "MWK*", 4},
        {"4_6del, stop by exception", &LAST, TWO(DELETION, 4, 6), "extension 3 * -", 0, "ATGAAA", "MK", 2},
        {"9A>R, mitochondrial", &MITO, ONE_NEW(SUBSTITUTION, 9, "R"), "silent 3 W W", 0, "CACATAGGATGRATGAACAGAACCTTAGTT", "MGWMN*", 1},
        {"18A>Y, mitochondrial", &MITO, ONE_NEW(SUBSTITUTION, 18, "Y"), "extension 6 * STLV", 0, "CACATAGGATGAATGAACAGYACCTTAGTT", "MGWMNSTLV", 4},
        {"1= mitochondrial", &MITO, ONE(IDENTITY, 1), "silent 1 M M", 0, "CACATAGGATGAATGAACAGAACCTTAGTT", "MGWMN*", 0},
    };
    for (size_t i = 0; i < sizeof all / sizeof *all; i++) {
        const struct garumbott_reference *r = all[i].reference;
        row_case(&all[i], r == &W ? "MAKW*" : r == &SHORT || r == &SHORT1 ? "M*" : r == &SELENO ? "MUK*" : r == &LAST ? "MK*" : r == &MITO ? "MGWMN*" : "M**");
    }
}

static const struct garumbott_reference EXCEPTED_K = REFERENCE_OF("ATGAAATAA", 1, 9, 0, "\0\2U", 3);
static const struct garumbott_reference READ_ON = REFERENCE_OF("ATGAAATAAGCCTAAC", 1, 9, 0, NULL, 0);

/* The readings of E4, but for those that are rows above and below: which codons are looked up. */
static void codons(void)
{
    static const struct {
        struct row row;
        const char *r;
    } all[] = {
        /* by index, not by equal letters; a codon partly in the edit is read, one behind it in frame is not */
        {{"4G>G", &W, ONE_NEW(SUBSTITUTION, 4, "G"), "silent 2 A A", 0, "GGATGGCCAAATGGTAACCTGAC", "MAKW*", 1}, "MAKW*"},
        {{"4_9delinsGCCAAA", &W, TWO_NEW(DELINS, 4, 9, "GCCAAA"), "silent 2 A A", 0, "GGATGGCCAAATGGTAACCTGAC", "MAKW*", 2}, "MAKW*"},
        {{"5_7del", &W, TWO(DELETION, 5, 7), "delins 2 AK E", 0, "GGATGGAATGGTAACCTGAC", "MEW*", 1}, "MAKW*"},
        /* every CDS codon of an identity */
        {{"-2_*6=", &W, STAR(IDENTITY, -2, 6), "silent 1 M M", 0, "GGATGGCCAAATGGTAACCTGAC", "MAKW*", 0}, "MAKW*"},
        /* what the stop cut reads isn't counted */
        {{"9_10insGCC", &W, TWO_NEW(INSERTION, 9, 10, "GCC"), "insertion 4 - A", 0, "GGATGGCCAAAGCCTGGTAACCTGAC", "MAKAW*", 1}, "MAKW*"},
        {{"6_7insTAGGCC", &W, TWO_NEW(INSERTION, 6, 7, "TAGGCC"), "stop-gained 3 KW -", 0, "GGATGGCCTAGAAATGGTAACCTGAC", "MA*", 1}, "MAKW*"},
        /* a gap behind the CDS: A has ended */
        {{"4_*6dup", &W, STAR(DUPLICATION, 4, 6), "silent 3 K K", 0, "GGATGGCCAAATGGTAACCTGACGCCAAATGGTAA", "MAKW*", 0}, "MAKW*"},
        {{"9_*1insCCC", &READ_ON, STAR_NEW(INSERTION, 9, 1, "CCC"), "silent 3 * *", 0, "ATGAAATAACCCGCCTAAC", "MK*", 0}, "MK*"},
        /* codons behind the CDS are read, through the stop; behind a frameshift all are */
        {{"8A>C", &READ_ON, ONE_NEW(SUBSTITUTION, 8, "C"), "insertion 3 - SA", 0, "ATGAAATCAGCCTAAC", "MKSA*", 3}, "MK*"},
        {{"7_9del", &READ_ON, TWO(DELETION, 7, 9), "insertion 3 - A", 0, "ATGAAAGCCTAAC", "MKA*", 2}, "MK*"},
        {{"3_4insAA", &W, TWO_NEW(INSERTION, 3, 4, "AA"), "frameshift 2 AKW* KPNGNLX", 1, "GGATGAAGCCAAATGGTAACCTGAC", "MKPNGNLX", 6}, "MAKW*"},
        /* with exceptions none is reused, in an identity neither, and one under an exception is read */
        {{"9A>G with U", &EXCEPTED_K, ONE_NEW(SUBSTITUTION, 9, "G"), "silent 3 * *", 0, "ATGAAATAG", "MU*", 3}, "MU*"},
        {{"1= with U", &EXCEPTED_K, ONE(IDENTITY, 1), "silent 1 M M", 0, "ATGAAATAA", "MU*", 3}, "MU*"},
        /* Unknown reads none; its first codon alone would be looked up */
        {{"1A>G of M**", &TWO_STOPS, ONE_NEW(SUBSTITUTION, 1, "G"), "unknown", 0, "", "", 0}, "M**"},
    };
    for (size_t i = 0; i < sizeof all / sizeof *all; i++) row_case(&all[i].row, all[i].r);
}

/* One fault at a time, and pairs of faults for their order: what garumbott_record and garumbott_edit both refuse. */
struct refusal {
    const char *name;
    struct garumbott_reference reference;
    struct garumbott_coding_edit edit;
    uint64_t number;
};

/* Without room, with plenty, and of the stored reference. */
static void refusal_case(const struct refusal *x)
{
    static const size_t none[3] = {0, 0, 0};
    struct garumbott_answer w = {.refusal = x->number};
    edit_case(x->name, &x->reference, &x->edit, none, &w, &w, "", "", "");
    edit_case(x->name, &x->reference, &x->edit, plenty, &w, &w, "", "", "");
    edit_stored(x->name, &x->reference, &x->edit, &w, "", "", "");
    own_record(x->name, &x->reference, &x->edit, none, &w, "", "", "");
    own_record(x->name, &x->reference, &x->edit, plenty, &w, "", "", "");
}

#define POSITIONS(ss, s, es, e) {.kind = GARUMBOTT_DELETION, .start_star = (ss), .start = (s), .end_star = (es), .end = (e)}
#define WITH(...) {.letters = (const uint8_t *)"GGATGGCCAAATGGTAACCTGAC", .letters_len = 23, .cs = 3, .ce = 17, __VA_ARGS__}
#define EXCEPTED(s) .exceptions = (const uint8_t *)(s), .exceptions_len = sizeof(s) - 1
#define SEVENTEEN "\0\1A\0\2A\0\3A\0\4A\0\1A\0\2A\0\3A\0\4A\0\1A\0\2A\0\3A\0\4A\0\1A\0\2A\0\3A\0\4A\0\5*"

#define LONGEST_EDIT(n, k, s, e, b) \
    {.kind = GARUMBOTT_##k, .start = (s), .end = (e), .bases = (const uint8_t *)(b), .bases_len = sizeof(b) - 1, .longest = (n)}

static void refusals(void)
{
    static const struct refusal all[] = {
        {"no letters", {.cs = 3, .ce = 17}, ONE(DELETION, 0), 1},
        {"no letters, a pointer", {.letters = (const uint8_t *)"A", .cs = 3, .ce = 17}, ONE(DELETION, 5), 1},
        {"lower case", REFERENCE_OF("GGATGGCCAAATGGTAACCTGAc", 3, 17, 0, NULL, 0), ONE(DELETION, 5), 2},
        {"U", REFERENCE_OF("GGAUGGCCAAATGGTAACCTGAC", 3, 17, 9, NULL, 0), ONE(DELETION, 0), 2},
        {"zero byte", REFERENCE_OF("GGATGGCCAAATGGTAACCTGA\0", 3, 17, 0, NULL, 0), ONE(DELETION, 5), 2},
        {"byte 255", REFERENCE_OF("\377GATGGCCAAATGGTAACCTGAC", 3, 17, 0, NULL, 0), ONE(DELETION, 5), 2},
        {"cs 0", REFERENCE_OF("ATGTAA", 0, 6, 0, NULL, 0), ONE(DELETION, 2), 3},
        {"ce 0", REFERENCE_OF("ATGTAA", 1, 0, 0, NULL, 0), ONE(DELETION, 2), 3},
        {"ce past L", REFERENCE_OF("ATGTAA", 1, 7, 0, NULL, 0), ONE(DELETION, 2), 3},
        {"cs past ce", REFERENCE_OF("ATGTAA", 6, 1, 0, NULL, 0), ONE(DELETION, 2), 3},
        {"cs one past ce", REFERENCE_OF("ATGTAA", 4, 3, 0, NULL, 0), ONE(DELETION, 2), 3},
        {"one codon", REFERENCE_OF("TAA", 1, 3, 0, NULL, 0), ONE(DELETION, 2), 3},
        {"not codons", REFERENCE_OF("ATGATAA", 1, 7, 0, NULL, 0), ONE(DELETION, 2), 3},
        {"cs of 2^63", REFERENCE_OF("ATGTAA", UINT64_C(1) << 63, 6, 0, NULL, 0), ONE(DELETION, 2), 3},
        {"bounds of 2^64-1", REFERENCE_OF("ATGTAA", UINT64_MAX, UINT64_MAX, 0, NULL, 0), ONE(DELETION, 2), 3},
        {"ce of 2^64-1", REFERENCE_OF("ATGTAA", 1, UINT64_MAX, 0, NULL, 0), ONE(DELETION, 2), 3},
        {"cs of 2^32+1", REFERENCE_OF("ATGTAA", (UINT64_C(1) << 32) + 1, 6, 0, NULL, 0), ONE(DELETION, 2), 3},
        {"bounds before table", REFERENCE_OF("ATGTAA", 0, 6, 3, NULL, 0), ONE(DELETION, 2), 3},
        {"table 3", WITH(.table = 3), ONE(DELETION, 5), 4},
        {"table 256", WITH(.table = 256), ONE(DELETION, 5), 4},
        {"table 2^32", WITH(.table = UINT64_C(1) << 32), ONE(DELETION, 5), 4},
        {"table 2^64-1", WITH(.table = UINT64_MAX), ONE(DELETION, 5), 4},
        {"table before exceptions", WITH(.table = 3, EXCEPTED("\0")), ONE(DELETION, 5), 4},
        {"a byte of an exception", WITH(EXCEPTED("\0")), ONE(DELETION, 5), 5},
        {"two bytes of an exception", WITH(EXCEPTED("\0\1")), ONE(DELETION, 5), 5},
        {"an exception and a byte", WITH(EXCEPTED("\0\1A\0")), ONE(DELETION, 5), 5},
        {"exceptions' length before position", WITH(EXCEPTED("\0\1A\0")), ONE(DELETION, 0), 5},
        {"codon 0", WITH(EXCEPTED("\0\0A")), ONE(DELETION, 5), 5},
        {"codon 6 of 5", WITH(EXCEPTED("\0\6A")), ONE(DELETION, 5), 5},
        {"codon 256: high byte first", WITH(EXCEPTED("\1\0A")), ONE(DELETION, 5), 5},
        {"codon twice", WITH(EXCEPTED("\0\2A\0\2A")), ONE(DELETION, 5), 5},
        {"codons falling", WITH(EXCEPTED("\0\3A\0\2A")), ONE(DELETION, 5), 5},
        {"residue a", WITH(EXCEPTED("\0\2a")), ONE(DELETION, 5), 5},
        {"residue [", WITH(EXCEPTED("\0\2[")), ONE(DELETION, 5), 5},
        {"residue @", WITH(EXCEPTED("\0\2@")), ONE(DELETION, 5), 5},
        {"seventeen exceptions", WITH(EXCEPTED(SEVENTEEN)), ONE(DELETION, 5), 5},
        {"exceptions before last codon", REFERENCE_OF("ATGAAA", 1, 6, 0, "\0", 1), ONE(DELETION, 2), 5},
        {"no stop", REFERENCE_OF("ATGAAA", 1, 6, 0, NULL, 0), ONE(DELETION, 2), 6},
        {"stop away by exception", WITH(EXCEPTED("\0\5W")), ONE(DELETION, 0), 6},
        {"TGA in table 1", REFERENCE_OF("ATGTGA", 1, 6, 1, NULL, 0), ONE(DELETION, 2), 6},
        {"position 0", WITH(.table = 0), ONE(DELETION, 0), 7},
        {"end 0", WITH(.table = 0), TWO(DELETION, 5, 0), 7},
        {"past the CDS", WITH(.table = 0), ONE(DELETION, 16), 7},
        {"before base 1", WITH(.table = 0), TWO(DELETION, -3, 2), 7},
        {"end before base 1", WITH(.table = 0), TWO(DELETION, 2, -3), 7},
        {"star 0", WITH(.table = 0), POSITIONS(0, 1, 1, 0), 7},
        {"star of -1", WITH(.table = 0), POSITIONS(0, 1, 1, -1), 7},
        {"star of the least number", WITH(.table = 0), POSITIONS(0, 1, 1, INT64_MIN), 7},
        {"start star of -1", WITH(.table = 0), POSITIONS(1, -1, 1, 2), 7},
        {"star above 65,535", WITH(.table = 0), POSITIONS(0, 1, 1, 65536), 7},
        {"star of the greatest number", WITH(.table = 0), POSITIONS(0, 1, 1, INT64_MAX), 7},
        {"start_star 2", WITH(.table = 0), POSITIONS(2, 5, 0, 5), 7},
        {"end_star 2", WITH(.table = 0), POSITIONS(0, 5, 2, 5), 7},
        {"start_star 2^32", WITH(.table = 0), POSITIONS(UINT64_C(1) << 32, 5, 0, 5), 7},
        {"end_star 2^64-1", WITH(.table = 0), POSITIONS(0, 5, UINT64_MAX, 5), 7},
        {"least number", WITH(.table = 0), POSITIONS(0, INT64_MIN, 0, 5), 7},
        {"greatest number", WITH(.table = 0), POSITIONS(0, INT64_MAX, 0, 5), 7},
        {"2^32+5", WITH(.table = 0), POSITIONS(0, (INT64_C(1) << 32) + 5, 0, 5), 7},
        {"duplication behind the transcript", WITH(.table = 0), STAR(DUPLICATION, 4, 7), 7},
        {"7 before 8", WITH(.table = 0), POSITIONS(1, 1, 0, 0), 7},
        {"start after end", WITH(.table = 0), TWO(DELETION, 6, 4), 8},
        {"-1_-2", WITH(.table = 0), TWO(DELETION, -1, -2), 8},
        {"*9_*8", WITH(.table = 0), POSITIONS(1, 9, 1, 8), 8},
        {"anchors apart", WITH(.table = 0), TWO_NEW(INSERTION, 4, 9, "A"), 8},
        {"one anchor", WITH(.table = 0), ONE_NEW(INSERTION, 9, "A"), 8},
        {"substitution at two places", WITH(.table = 0), TWO_NEW(SUBSTITUTION, 4, 5, "G"), 8},
        {"both before", WITH(.table = 0), ONE(DELETION, -1), 9},
        {"both behind", WITH(.table = 0), POSITIONS(1, 1, 1, 1), 9},
        {"insertion from before", WITH(.table = 0), TWO_NEW(INSERTION, -1, 1, "A"), 9},
        {"unknown kind at -1", WITH(.table = 0), {.kind = 99, .start = -1, .end = -1}, 9},
        {"kind 0", WITH(.table = 0), {.kind = 0, .start = 5, .end = 5}, 10},
        {"kind 8", WITH(.table = 0), {.kind = 8, .start = 5, .end = 5}, 10},
        {"kind 2^32+2", WITH(.table = 0), {.kind = (UINT64_C(1) << 32) + 2, .start = 5, .end = 5}, 10},
        {"kind 2^64-1", WITH(.table = 0), {.kind = UINT64_MAX, .start = 5, .end = 5}, 10},
        {"no new base", WITH(.table = 0), ONE(SUBSTITUTION, 5), 10},
        {"two new bases", WITH(.table = 0), ONE_NEW(SUBSTITUTION, 5, "AC"), 10},
        {"a new U", WITH(.table = 0), ONE_NEW(SUBSTITUTION, 5, "U"), 10},
        {"a new a", WITH(.table = 0), ONE_NEW(SUBSTITUTION, 5, "a"), 10},
        {"a new zero byte", WITH(.table = 0), ONE_NEW(DELINS, 5, "A\0"), 10},
        {"bases in a deletion", WITH(.table = 0), ONE_NEW(DELETION, 5, "A"), 10},
        {"no bases in a delins", WITH(.table = 0), ONE(DELINS, 5), 10},
        {"no bases in an insertion", WITH(.table = 0), TWO(INSERTION, 5, 6), 10},
        {"bases in a duplication", WITH(.table = 0), ONE_NEW(DUPLICATION, 5, "A"), 10},
        {"bases in an inversion", WITH(.table = 0), ONE_NEW(INVERSION, 5, "A"), 10},
        {"bases in an identity", WITH(.table = 0), ONE_NEW(IDENTITY, 5, "A"), 10},
        {"10 before Unknown", WITH(.table = 0), {.kind = GARUMBOTT_DELINS, .start = 1, .end_star = 1, .end = 7}, 10},
        {"two new bases, longest 1", WITH(.table = 0), LONGEST_EDIT(1, INSERTION, 4, 5, "AC"), 10},
        {"what the cut would leave fits", WITH(.table = 0), LONGEST_EDIT(3, INSERTION, 9, 10, "TAGC"), 10},
        {"longest 4,097", WITH(.table = 0), LONGEST_EDIT(4097, INSERTION, 4, 5, "AC"), 62},
        {"longest 2^16+1", WITH(.table = 0), LONGEST_EDIT(65537, INSERTION, 4, 5, "AC"), 62},
        {"longest 2^32+1", WITH(.table = 0), LONGEST_EDIT((UINT64_C(1) << 32) + 1, DELETION, 5, 5, ""), 62},
        {"longest 2^64-1, before 7", WITH(.table = 0), LONGEST_EDIT(UINT64_MAX, DELETION, 0, 0, ""), 62},
    };
    for (size_t i = 0; i < sizeof all / sizeof *all; i++) refusal_case(&all[i]);
}

/* ---- the panel profile -------------------------------------------------------------------------------------------------------------- */

/* An edit under the profile, with plenty of room and with none: the refusal, or where that is 0 what garumbott_record answers and writes. */
static void panel_case(const char *name, const struct garumbott_reference *reference, const struct garumbott_coding_edit *edit, uint64_t named, uint64_t refusal)
{
    static const size_t none[3] = {0, 0, 0};
    for (int side = FENCE_END; side <= FENCE_START; side++) {
        for (int roomy = 0; roomy < 2; roomy++) {
            static uint8_t t[256], r[256], a[256];
            const size_t *room = roomy ? plenty : none;
            struct garumbott_reference ref = *reference;
            struct garumbott_coding_edit e = *edit;
            ref.letters = lend(LETTERS, side, reference->letters, reference->letters_len);
            ref.exceptions = lend(EXCEPTIONS, side, reference->exceptions, reference->exceptions_len);
            e.bases = lend(BASES, side, edit->bases, edit->bases_len);
            struct garumbott_buffers b = {t, roomy ? sizeof t : 0, r, roomy ? sizeof r : 0, a, roomy ? sizeof a : 0};
            struct garumbott_answer want = garumbott_record_of(&ref, &e, &b);
            if (refusal != 0) want = (struct garumbott_answer){.refusal = refusal};
            b.transcript = fence_fill(&fences[TRANSCRIPT], side, NULL, b.transcript_len = room[0]);
            b.reference = fence_fill(&fences[REFERENCE], side, NULL, b.reference_len = room[1]);
            b.altered = fence_fill(&fences[ALTERED], side, NULL, b.altered_len = room[2]);
            struct garumbott_answer got = garumbott_panel_of(&ref, &e, named, &b);
            check(same(&got, &want), name, "panel's answer");
            check(fence_check(&fences[TRANSCRIPT], t, want.transcript_len), name, "panel's transcript");
            check(fence_check(&fences[REFERENCE], r, want.reference_len), name, "panel's reference protein");
            check(fence_check(&fences[ALTERED], a, want.altered_len), name, "panel's altered protein");
        }
    }
}

/* The inputs that decide the request's clauses. */
static void panels(void)
{
    static const struct {
        const char *name;
        struct garumbott_reference reference;
        struct garumbott_coding_edit edit;
        uint64_t named, refusal;
    } all[] = {
        {"a letter behind the CDS", REFERENCE_OF("ATGAAATAAN", 1, 9, 0, NULL, 0), ONE_NEW(SUBSTITUTION, 4, "C"), 'A', 40},
        {"7 before 40", REFERENCE_OF("ATGAAATAAN", 1, 9, 0, NULL, 0), ONE(DELETION, 0), 'A', 7},
        {"a star anchor", WITH(.table = 0), {.kind = GARUMBOTT_INSERTION, .start = 15, .end_star = 1, .end = 1, .bases = (const uint8_t *)"AAA", .bases_len = 3}, 'A', 41},
        {"a star end", WITH(.table = 0), STAR(DELETION, 13, 1), 'A', 41},
        {"a negative start", WITH(.table = 0), TWO(DELETION, -1, 2), 'A', 41},
        {"an inversion", WITH(.table = 0), TWO(INVERSION, 4, 6), 'A', 41},
        {"40 before 41", WITH(.table = 0), TWO_NEW(DELINS, 4, 9, "NNN"), 'A', 40},
        {"before the cut", WITH(.table = 0), TWO_NEW(INSERTION, 8, 9, "ATAA"), 'A', 42},
        {"cut", WITH(.table = 0), TWO_NEW(INSERTION, 9, 10, "TAG"), 0, 0},
        {"in frame", WITH(.table = 0), TWO(DELETION, 5, 7), 0, 0},
        {"8A>G", WITH(.table = 0), ONE_NEW(SUBSTITUTION, 8, "G"), 'A', 0},
        {"8C>G", WITH(.table = 0), ONE_NEW(SUBSTITUTION, 8, "G"), 'C', 43},
        {"8a>G", WITH(.table = 0), ONE_NEW(SUBSTITUTION, 8, "G"), 'a', 43},
        {"a byte's number above 255", WITH(.table = 0), ONE_NEW(SUBSTITUTION, 8, "G"), 'A' + 256, 43},
        {"2^32 above it", WITH(.table = 0), ONE_NEW(SUBSTITUTION, 8, "G"), 'A' + (UINT64_C(1) << 32), 43},
        {"42 before Unknown", REFERENCE_OF("ATGTAATAA", 1, 9, 0, NULL, 0), ONE(DELETION, 4), 'T', 42},
        {"Unknown", REFERENCE_OF("ATGTAATAA", 1, 9, 0, NULL, 0), ONE_NEW(SUBSTITUTION, 4, "A"), 'T', 0},
        {"10 by the longest edit", WITH(.table = 0), LONGEST_EDIT(2, INSERTION, 9, 10, "TAG"), 0, 10},
        {"at the longest edit", WITH(.table = 0), LONGEST_EDIT(3, INSERTION, 9, 10, "TAG"), 0, 0},
        {"longest 4,097", WITH(.table = 0), LONGEST_EDIT(4097, INSERTION, 9, 10, "TAG"), 0, 62},
        {"cut short", {.letters = (const uint8_t *)"ATGGCC", .letters_len = 6, .cs = 1, .ce = 6, .end = 1}, ONE_NEW(SUBSTITUTION, 4, "C"), 'G', 0},
        {"cut short, a star end", {.letters = (const uint8_t *)"ATGGCC", .letters_len = 6, .cs = 1, .ce = 6, .end = 1}, STAR(DELETION, 4, 1), 'G', 41},
    };
    for (size_t i = 0; i < sizeof all / sizeof *all; i++) panel_case(all[i].name, &all[i].reference, &all[i].edit, all[i].named, all[i].refusal);
}

/* ---- how a CDS ends ---------------------------------------------------------------------------------------------------------------- */

/* Letters that are a CDS from first to last. */
#define ENDING(s, e, ...) {.letters = (const uint8_t *)(s), .letters_len = sizeof(s) - 1, .cs = 1, .ce = sizeof(s) - 1, .end = (e), __VA_ARGS__}

static const struct garumbott_reference SIX = ENDING("ATGGCC", GARUMBOTT_END_NO_STOP, .table = 0);
static const struct garumbott_reference SEVEN = ENDING("ATGGCCA", GARUMBOTT_END_CUT_CODON, .table = 0);
static const struct garumbott_reference EIGHT = ENDING("ATGGCCTA", GARUMBOTT_END_CUT_CODON, .table = 0);
static const struct garumbott_reference NINE = ENDING("ATGGCCAAA", GARUMBOTT_END_NO_STOP, .table = 0);
static const struct garumbott_reference BEHIND_TWO = {.letters = (const uint8_t *)"TAATGGCCA", .letters_len = 9, .cs = 3, .ce = 9, .end = GARUMBOTT_END_CUT_CODON};
static const struct garumbott_reference NO_LONGER_A_STOP = ENDING("ATGTAA", GARUMBOTT_END_NO_STOP, EXCEPTED("\0\2K"));
static const struct garumbott_reference AMBIGUOUS = ENDING("ATGTRARA", GARUMBOTT_END_CUT_CODON, .table = 1);

/* Edits of references that are cut short. */
static void cut_rows(void)
{
    static const struct {
        struct row row;
        const char *r;
    } all[] = {
        /* X for the rest is a residue of R */
        {{"1= of six", &SIX, ONE(IDENTITY, 1), "silent 1 M M", 0, "ATGGCC", "MA", 0}, "MA"},
        {{"1= of seven", &SEVEN, ONE(IDENTITY, 1), "silent 1 M M", 0, "ATGGCCA", "MAX", 0}, "MAX"},
        {{"7=", &SEVEN, ONE(IDENTITY, 7), "silent 3 X X", 0, "ATGGCCA", "MAX", 0}, "MAX"},
        {{"7A>G", &SEVEN, ONE_NEW(SUBSTITUTION, 7, "G"), "silent 3 X X", 0, "ATGGCCG", "MAX", 0}, "MAX"},
        {{"7dup", &SEVEN, ONE(DUPLICATION, 7), "silent 3 X X", 1, "ATGGCCAA", "MAX", 0}, "MAX"},
        {{"7del", &SEVEN, ONE(DELETION, 7), "frameshift 3 X -", 1, "ATGGCC", "MA", 0}, "MAX"},
        {{"6_7insAA", &SEVEN, TWO_NEW(INSERTION, 6, 7, "AA"), "frameshift 3 X K", 1, "ATGGCCAAA", "MAK", 1}, "MAX"},
        {{"6_7insTA", &SEVEN, TWO_NEW(INSERTION, 6, 7, "TA"), "stop-gained 3 X *", 1, "ATGGCCTAA", "MA*", 1}, "MAX"},
        {{"6_7insTAA", &SEVEN, TWO_NEW(INSERTION, 6, 7, "TAA"), "stop-gained 3 X *", 0, "ATGGCCTAAA", "MA*", 1}, "MAX"},
        {{"6_7insAAA", &SEVEN, TWO_NEW(INSERTION, 6, 7, "AAA"), "insertion 3 - K", 0, "ATGGCCAAAA", "MAKX", 1}, "MAX"},
        {{"4_6dup of seven", &SEVEN, TWO(DUPLICATION, 4, 6), "duplication 3 - A 2", 0, "ATGGCCGCCA", "MAAX", 1}, "MAX"},
        {{"4_6del of seven", &SEVEN, TWO(DELETION, 4, 6), "deletion 2 A -", 0, "ATGA", "MX", 0}, "MAX"},
        {{"1A>G of seven", &SEVEN, ONE_NEW(SUBSTITUTION, 1, "G"), "start-lost 1 M V", 0, "GTGGCCA", "VAX", 1}, "MAX"},
        {{"1_7del", &SEVEN, TWO(DELETION, 1, 7), "no-protein", 1, "", "", 0}, "MAX"},
        {{"1_7inv", &SEVEN, TWO(INVERSION, 1, 7), "start-lost 1 MA WP", 0, "TGGCCAT", "WPX", 2}, "MAX"},
        {{"8A>T of eight", &EIGHT, ONE_NEW(SUBSTITUTION, 8, "T"), "silent 3 X X", 0, "ATGGCCTT", "MAX", 0}, "MAX"},
        {{"8dup of eight", &EIGHT, ONE(DUPLICATION, 8), "stop-gained 3 X *", 1, "ATGGCCTAA", "MA*", 1}, "MAX"},
        {{"1_8dup of eight", &EIGHT, TWO(DUPLICATION, 1, 8), "stop-gained 3 X *", 1, "ATGGCCTAATGGCCTA", "MA*", 1}, "MAX"},
        /* bases before the CDS, a stop among them */
        {{"-2_2del", &BEHIND_TWO, TWO(DELETION, -2, 2), "start-lost 1 MAX GX", 1, "TAGGCCA", "GX", 1}, "MAX"},
        {{"-1_7=", &BEHIND_TWO, TWO(IDENTITY, -1, 7), "silent 1 M M", 0, "TAATGGCCA", "MAX", 0}, "MAX"},
        /* R is the beginning of A: nothing is deleted, and R has no residue there */
        {{"5_6insC", &SIX, TWO_NEW(INSERTION, 5, 6, "C"), "frameshift 3 - X", 1, "ATGGCCC", "MAX", 1}, "MA"},
        {{"3_4insGCCTAA", &SIX, TWO_NEW(INSERTION, 3, 4, "GCCTAA"), "stop-gained 3 - *", 0, "ATGGCCTAAGCC", "MA*", 2}, "MA"},
        {{"4_6dup", &SIX, TWO(DUPLICATION, 4, 6), "duplication 3 - A 2", 0, "ATGGCCGCC", "MAA", 1}, "MA"},
        {{"1_6dup", &SIX, TWO(DUPLICATION, 1, 6), "duplication 3 - MA 1", 0, "ATGGCCATGGCC", "MAMA", 2}, "MA"},
        {{"6delinsCAAA", &SIX, ONE_NEW(DELINS, 6, "CAAA"), "insertion 3 - K", 0, "ATGGCCAAA", "MAK", 2}, "MA"},
        {{"6delinsCTAA", &SIX, ONE_NEW(DELINS, 6, "CTAA"), "stop-gained 3 - *", 0, "ATGGCCTAA", "MA*", 2}, "MA"},
        {{"4_6delinsGCCAA", &SIX, TWO_NEW(DELINS, 4, 6, "GCCAA"), "frameshift 3 - X", 1, "ATGGCCAA", "MAX", 1}, "MA"},
        /* A is the beginning of R */
        {{"7_9del of nine", &NINE, TWO(DELETION, 7, 9), "deletion 3 K -", 0, "ATGGCC", "MA", 0}, "MAK"},
        {{"4G>T of nine", &NINE, ONE_NEW(SUBSTITUTION, 4, "T"), "substitution 2 A S", 0, "ATGTCCAAA", "MSK", 1}, "MAK"},
        {{"7A>T of nine", &NINE, ONE_NEW(SUBSTITUTION, 7, "T"), "stop-gained 3 K *", 0, "ATGGCCTAA", "MA*", 1}, "MAK"},
        {{"4_9delinsTAA of nine", &NINE, TWO_NEW(DELINS, 4, 9, "TAA"), "stop-gained 2 AK *", 0, "ATGTAA", "M*", 1}, "MAK"},
        /* nothing lies behind the CDS */
        {{"4_*1del", &SIX, STAR(DELETION, 4, 1), "unknown", 0, "", "", 0}, "MA"},
        {{"1_*1=", &SEVEN, STAR(IDENTITY, 1, 1), "unknown", 0, "", "", 0}, "MAX"},
        {{"6_*1insA", &SIX, STAR_NEW(INSERTION, 6, 1, "A"), "unknown", 0, "", "", 0}, "MA"},
        {{"1_*1dup", &SIX, STAR(DUPLICATION, 1, 1), "refused 7", 0, "", "", 0}, "MA"},
        {{"8del of seven", &SEVEN, ONE(DELETION, 8), "refused 7", 0, "", "", 0}, "MAX"},
        /* a stop taken away by an exception, which goes where its codon changes */
        {{"1= of a stop that is K", &NO_LONGER_A_STOP, ONE(IDENTITY, 1), "silent 1 M M", 0, "ATGTAA", "MK", 2}, "MK"},
        {{"6A>G of a stop that is K", &NO_LONGER_A_STOP, ONE_NEW(SUBSTITUTION, 6, "G"), "stop-gained 2 K *", 0, "ATGTAG", "M*", 2}, "MK"},
        {{"3_4insAAA of a stop that is K", &NO_LONGER_A_STOP, TWO_NEW(INSERTION, 3, 4, "AAA"), "duplication 3 - K 2", 0, "ATGAAATAA", "MKK", 3}, "MK"},
        {{"5R>G, ambiguous", &AMBIGUOUS, ONE_NEW(SUBSTITUTION, 5, "G"), "substitution 2 X U", 0, "ATGTGARA", "MUX", 1}, "MXX"},
        {{"5R>A, ambiguous", &AMBIGUOUS, ONE_NEW(SUBSTITUTION, 5, "A"), "stop-gained 2 XX *", 0, "ATGTAARA", "M*", 1}, "MXX"},
    };
    for (size_t i = 0; i < sizeof all / sizeof *all; i++) row_case(&all[i].row, all[i].r);
}

/* References by each of the ends 0 to 3: refused so, or 0 for R. */
static void ends_fit(void)
{
    static const struct {
        struct garumbott_reference reference;
        uint64_t refusal[4];
        const char *r;
    } all[] = {
        {ENDING("ATGTAA", 0, .table = 0), {0, 28, 3, 28}, "M*"},
        {ENDING("ATGGCC", 0, .table = 0), {6, 0, 3, 28}, "MA"},
        {ENDING("ATGGCCA", 0, .table = 0), {3, 3, 0, 3}, "MAX"},
        {ENDING("ATGGCCTA", 0, .table = 0), {3, 3, 0, 3}, "MAX"},
        {ENDING("ATGGCCTAA", 0, .table = 0), {0, 28, 3, 28}, "MA*"},
        {ENDING("ATGGCCAAA", 0, .table = 0), {6, 0, 3, 28}, "MAK"},
        /* the letters end with the CDS */
        {REFERENCE_OF("ATGGCCC", 1, 6, 0, NULL, 0), {6, 28, 3, 28}, ""},
        {REFERENCE_OF("ATGTAAC", 1, 6, 0, NULL, 0), {0, 28, 3, 28}, "M*"},
        {REFERENCE_OF("ATGGCCAC", 1, 7, 0, NULL, 0), {3, 3, 28, 3}, ""},
        {REFERENCE_OF("CATGGCC", 2, 7, 0, NULL, 0), {6, 0, 3, 28}, "MA"},
        {REFERENCE_OF("TAATGGCCA", 3, 9, 0, NULL, 0), {3, 3, 0, 3}, "MAX"},
        /* no stop anywhere in R */
        {ENDING("ATGTAAGCC", 0, .table = 0), {6, 28, 3, 28}, ""},
        {ENDING("TAAGCC", 0, .table = 0), {6, 28, 3, 28}, ""},
        {ENDING("TAAGCCA", 0, .table = 0), {3, 3, 28, 3}, ""},
        {ENDING("ATGTAAA", 0, .table = 0), {3, 3, 28, 3}, ""},
        {ENDING("ATGTGA", 0, .table = 0), {0, 28, 3, 28}, "M*"},
        {ENDING("ATGTGA", 0, .table = 1), {6, 0, 3, 28}, "MU"},
        {ENDING("ATGTGA", 0, .table = 2), {6, 0, 3, 28}, "MW"},
        {ENDING("ATGAGR", 0, .table = 0), {6, 0, 3, 28}, "MR"},
        {ENDING("ATGAGR", 0, .table = 2), {0, 28, 3, 28}, "M*"},
        {ENDING("ATGTRA", 0, .table = 0), {0, 28, 3, 28}, "M*"},
        {ENDING("ATGTRA", 0, .table = 1), {6, 0, 3, 28}, "MX"},
        /* exceptions applied, of whole codons only, and before 28 */
        {ENDING("ATGTAA", 0, EXCEPTED("\0\2K")), {6, 0, 3, 28}, "MK"},
        {ENDING("ATGTAAA", 0, EXCEPTED("\0\2K")), {3, 3, 0, 3}, "MKX"},
        {ENDING("ATGGCC", 0, EXCEPTED("\0\2*")), {0, 28, 3, 28}, "M*"},
        {ENDING("ATGGCCA", 0, EXCEPTED("\0\1*")), {3, 3, 28, 3}, ""},
        {ENDING("ATGGCCA", 0, EXCEPTED("\0\2*")), {3, 3, 28, 3}, ""},
        {ENDING("ATGGCC", 0, EXCEPTED("\0\3K")), {5, 5, 3, 5}, ""},
        {ENDING("ATGGCCA", 0, EXCEPTED("\0\3K")), {3, 3, 5, 3}, ""},
        {ENDING("ATGTAA", 0, EXCEPTED("\0\3K")), {5, 5, 3, 5}, ""},
        {ENDING("ATGTAAA", 0, EXCEPTED("\0\3K")), {3, 3, 5, 3}, ""},
        /* 1 to 4 before them */
        {{.cs = 1, .ce = 6}, {1, 1, 1, 1}, ""},
        {ENDING("ATGGCU", 0, .table = 0), {2, 2, 2, 2}, ""},
        {ENDING("ATGGCCU", 0, .table = 0), {2, 2, 2, 2}, ""},
        {ENDING("ATGGC", 0, .table = 0), {3, 3, 3, 3}, ""},
        {ENDING("ATGG", 0, .table = 0), {3, 3, 3, 3}, ""},
        {REFERENCE_OF("ATGGCC", 1, 7, 0, NULL, 0), {3, 3, 3, 3}, ""},
        {ENDING("ATGGCC", 0, .table = 3), {4, 4, 3, 4}, ""},
        {ENDING("ATGGCCA", 0, .table = 3), {3, 3, 4, 3}, ""},
    };
    static const uint64_t unknown[] = {4, 5, 8, 9, 127, 128, 129, 130, 254, 255, 256, 257, 258, 65536, 65537, 65538, UINT64_C(1) << 31, UINT64_C(1) << 32,
                                       (UINT64_C(1) << 32) + 1, (UINT64_C(1) << 32) + 2, UINT64_C(1) << 63, (UINT64_C(1) << 63) + 1, (UINT64_C(1) << 63) + 2,
                                       UINT64_MAX - 1, UINT64_MAX};
    static const struct garumbott_coding_edit nothing = ONE(IDENTITY, 1), nowhere = ONE(IDENTITY, 0);
    for (size_t i = 0; i < sizeof all / sizeof *all; i++) {
        for (size_t j = 0; j < 4 + sizeof unknown / sizeof *unknown; j++) {
            char name[80], text[16];
            struct refusal bad = {name, all[i].reference, nowhere, all[i].refusal[j < 3 ? j : 3]};
            struct garumbott_reference *r = &bad.reference;
            r->end = j < 4 ? j : unknown[j - 4];
            snprintf(text, sizeof text, "%.*s", (int)r->letters_len, r->letters == NULL ? "" : (const char *)r->letters);
            snprintf(name, sizeof name, "%s, ce %d, table %d, end %llu", text, (int)r->ce, (int)r->table, (unsigned long long)r->end);
            struct row good = {name, r, nothing, "silent 1 M M", 0, text, all[i].r, r->exceptions_len == 0 ? 0 : (unsigned)((r->ce + 1 - r->cs) / 3)};
            if (bad.number == 0) row_case(&good, all[i].r);
            if (bad.number == 0) bad.number = GARUMBOTT_REFUSAL_POSITION;
            refusal_case(&bad);
        }
    }
}

/* The room for R is a third of the CDS, rounded up, whatever its end; and 28 stands in 6's place, before the edit's own faults and before 11. */
static void ends(void)
{
    static const uint64_t room[] = {1, 1, 1, 2, 2, 2, 3, 3, 3, 4};
    for (uint64_t n = 1; n <= 10; n++) {
        check(garumbott_reference_room(1, n) == room[n - 1], "reference_room", "a CDS from base 1");
        check(garumbott_reference_room(16385 - n, 16384) == room[n - 1], "reference_room", "a CDS to the last base");
    }
    check(garumbott_reference_room(2, 1) == 0 && garumbott_reference_room(UINT64_MAX, 0) == 0, "reference_room", "ce before cs");
    check(garumbott_reference_room(1, UINT64_MAX) == UINT64_MAX / 3 && garumbott_reference_room(0, UINT64_MAX) == UINT64_MAX / 3 + 1, "reference_room", "2^64-1");
    fences = small;
    plenty = small_room;
    cut_rows();
    ends_fit();
    static const struct refusal all[] = {
        {"28 before 7", ENDING("ATGTAA", 1, .table = 0), ONE(DELETION, 0), 28},
        {"28 before 8", ENDING("ATGTAA", 1, .table = 0), TWO(DELETION, 3, 2), 28},
        {"28 before 10", ENDING("ATGTAA", 3, .table = 0), {.kind = 99, .start = 1, .end = 1}, 28},
        {"28 before Unknown", ENDING("ATGTAA", 1, .table = 0), STAR(DELETION, 1, 1), 28},
        {"28, and two stops", ENDING("ATGTAATAA", 1, .table = 0), ONE(IDENTITY, 1), 28},
        {"7 of a cut codon", ENDING("ATGGCCA", 2, .table = 0), ONE(DELETION, 8), 7},
        {"8 of a cut codon", ENDING("ATGGCCA", 2, .table = 0), TWO(DELETION, 7, 6), 8},
        {"9 of a cut codon", ENDING("ATGGCCA", 2, .table = 0), POSITIONS(1, 1, 1, 1), 9},
        {"10 of a cut codon", ENDING("ATGGCCA", 2, .table = 0), ONE_NEW(SUBSTITUTION, 7, "U"), 10},
        {"10 before Unknown of a cut codon", ENDING("ATGGCCA", 2, .table = 0), {.kind = GARUMBOTT_DELINS, .start = 1, .end_star = 1, .end = 1}, 10},
    };
    for (size_t i = 0; i < sizeof all / sizeof *all; i++) refusal_case(&all[i]);
    fences = large;
    plenty = whole_room;
}

/* ---- limits ------------------------------------------------------------------------------------------------------------------------ */

enum { LONGEST_CODONS = TEXT_LONGEST / 3 };
static uint8_t longest[TEXT_LONGEST + 1], doubled[2 * TEXT_LONGEST], protein[LONGEST_CODONS], inserted[TEXT_LONGEST + GARUMBOTT_MOST_BASES];
static uint8_t endless[TEXT_LONGEST];

/* ATG GCC .. GCC TAA A: 16,384 letters, a CDS of 5,461 codons. And ATG GCN GCC .. GCC G, which ends in a cut codon. */
static void make_longest(void)
{
    for (size_t i = 0; i < TEXT_LONGEST + 1; i++) longest[i] = (uint8_t) "GCC"[i % 3];
    memcpy(longest, "ATG", 3);
    memcpy(endless, longest, TEXT_LONGEST);
    endless[5] = 'N';
    memcpy(longest + 16380, "TAAA", 4);
    memcpy(doubled, longest, TEXT_LONGEST);
    memcpy(doubled + TEXT_LONGEST, longest, TEXT_LONGEST);
    memset(protein, 'A', sizeof protein);
    protein[0] = 'M';
    protein[5460] = '*';
}

static struct garumbott_reference longest_reference(void)
{
    struct garumbott_reference r = {.letters = longest, .letters_len = TEXT_LONGEST, .cs = 1, .ce = 16383};
    return r;
}

static struct garumbott_reference endless_reference(void)
{
    struct garumbott_reference r = {.letters = endless, .letters_len = TEXT_LONGEST, .cs = 1, .ce = TEXT_LONGEST, .end = GARUMBOTT_END_CUT_CODON};
    return r;
}

/* The longest R, which fills TEXT_REFERENCE: M, 5,460 of A, and X. All letters copied give D, G, R .. R and X behind them. */
static void cut_limits(void)
{
    static uint8_t copied[2 * TEXT_LONGEST], r[TEXT_REFERENCE], a[TEXT_ALTERED];
    struct garumbott_reference cut = endless_reference();
    struct garumbott_coding_edit copy = TWO(DUPLICATION, 1, TEXT_LONGEST), nothing = ONE(IDENTITY, TEXT_LONGEST);
    struct garumbott_answer w = {.answer = GARUMBOTT_CHANGED, .frameshift = 1, .transcript_len = 32768, .reference_len = 5462, .altered_len = 10923,
                                 .change = GARUMBOTT_CHANGE_FRAMESHIFT, .number = 5462, .deleted_at = 5461, .deleted_len = 1, .inserted_at = 5461, .inserted_len = 5462,
                                 .codons = 5461},
                            e = alone(&w), same_again = {.answer = GARUMBOTT_SILENT, .transcript_len = TEXT_LONGEST, .reference_len = 5462, .altered_len = 5462,
                                                         .number = 5462, .deleted_at = 5461, .deleted_len = 1, .inserted_at = 5461, .inserted_len = 1},
                            same_alone = alone(&same_again), twelve = {.refusal = GARUMBOTT_REFUSAL_PROTEIN_ROOM};
    memcpy(copied, endless, TEXT_LONGEST);
    memcpy(copied + TEXT_LONGEST, endless, TEXT_LONGEST);
    memset(r, 'A', sizeof r);
    r[0] = 'M';
    r[5461] = 'X';
    memset(a, 'R', sizeof a);
    memcpy(a, r, 5461);
    a[5461] = 'D';
    a[5462] = 'G';
    a[5463] = 'X'; /* NGC */
    a[10922] = 'X';
    check(garumbott_reference_room(1, TEXT_LONGEST) == TEXT_REFERENCE, "reference_room", "longest");
    edit_case("16,384 letters and a cut codon, all of them copied", &cut, &copy, plenty, &w, &e, copied, r, a);
    edit_stored("16,384 letters and a cut codon, all of them copied", &cut, &copy, &w, copied, r, a);
    own_record("16,384 letters and a cut codon, all of them copied", &cut, &copy, plenty, &w, (const char *)copied, (const char *)r, (const char *)a);
    edit_case("16,384 letters and a cut codon", &cut, &nothing, plenty, &same_again, &same_alone, endless, r, r);
    for (int i = 1; i < 3; i++) {
        size_t less[3] = {plenty[0], plenty[1], plenty[2]};
        less[i]--;
        edit_case("a residue too little for a cut codon", &cut, &copy, less, &twelve, &e, copied, r, a);
    }
    /* a stop in the middle, and one that only the cut codon begins */
    struct garumbott_answer no = {.refusal = GARUMBOTT_REFUSAL_END};
    memcpy(endless + 9000, "TAA", 3);
    edit_case("a stop far within", &cut, &nothing, plenty, &no, &no, "", "", "");
    edit_stored("a stop far within", &cut, &nothing, &no, "", "", "");
    memcpy(endless + 9000, "GCC", 3);
    memcpy(endless + 16381, "TAA", 3);
    r[5460] = 'V';
    edit_case("a stop across the cut", &cut, &nothing, plenty, &same_again, &same_alone, endless, r, r);
    memcpy(endless + 16381, "CCG", 3);
}

static void limits(void)
{
    const size_t *const rooms = whole_room;
    struct garumbott_reference r = longest_reference();
    struct garumbott_answer w = {.answer = GARUMBOTT_SILENT, .frameshift = 1, .transcript_len = 32768, .reference_len = 5461, .altered_len = 5461,
                                 .number = 1, .deleted_len = 1, .inserted_len = 1},
                            e = alone(&w);

    /* the longest altered transcript fills TEXT_TRANSCRIPT, and 12 asks for TEXT_ALTERED */
    struct garumbott_coding_edit copy = STAR(DUPLICATION, 1, 1);
    edit_case("16,384 letters, all of them copied", &r, &copy, rooms, &w, &e, doubled, protein, protein);
    edit_stored("16,384 letters, all of them copied", &r, &copy, &w, doubled, protein, protein);
    own_record("16,384 letters, all of them copied", &r, &copy, rooms, &w, "", "", "");
    check(garumbott_transcript_room(TEXT_LONGEST, GARUMBOTT_DUPLICATION, 0) == TEXT_TRANSCRIPT, "transcript_room", "longest");
    check(garumbott_reference_room(1, 16383) == LONGEST_CODONS, "reference_room", "longest");
    check(garumbott_altered_room(32768, 1) == TEXT_ALTERED, "altered_room", "longest");
    for (int i = 0; i < 3; i++) {
        size_t less[3] = {rooms[0], LONGEST_CODONS, rooms[2]};
        less[i]--;
        struct garumbott_answer no = {.refusal = i == 0 ? 11 : 12}, still = i == 0 ? no : e;
        edit_case("a byte too little for the longest", &r, &copy, less, &no, &still, doubled, protein, protein);
        own_record("a byte too little for the longest", &r, &copy, less, &no, "", "", "");
    }

    struct garumbott_answer ten = {.refusal = 10};
    struct garumbott_coding_edit same_place = ONE(IDENTITY, 1);

    /* 4,096 new bases, and one more */
    static uint8_t bases[GARUMBOTT_MOST_BASES + 1];
    memset(bases, 'T', sizeof bases);
    struct garumbott_coding_edit in = {.kind = GARUMBOTT_INSERTION, .start = 3, .end = 4, .bases = bases, .bases_len = GARUMBOTT_MOST_BASES};
    r = longest_reference();
    memcpy(inserted, longest, 3);
    memcpy(inserted + 3, bases, GARUMBOTT_MOST_BASES);
    memcpy(inserted + 3 + GARUMBOTT_MOST_BASES, longest + 3, TEXT_LONGEST - 3);
    struct garumbott_answer long_edit = {.answer = GARUMBOTT_CHANGED, .frameshift = 1, .transcript_len = 20480};
    struct garumbott_buffers b = {fence_fill(&fences[TRANSCRIPT], FENCE_END, NULL, 20480), 20480, NULL, 0, NULL, 0};
    struct garumbott_answer got = garumbott_edit_of(&r, &in, &b);
    check(same(&got, &long_edit), "4,096 new bases", "answer");
    check(fence_check(&fences[TRANSCRIPT], inserted, 20480), "4,096 new bases", "transcript");
    in.bases_len++;
    edit_case("4,097 new bases", &r, &in, rooms, &ten, &ten, "", "", "");

    /* sixteen exceptions, of codons 2 to 17 */
    uint8_t sixteen[48], excepted[LONGEST_CODONS];
    memcpy(excepted, protein, sizeof protein);
    for (uint8_t i = 0; i < 16; i++) {
        sixteen[3 * i] = 0;
        sixteen[3 * i + 1] = (uint8_t)(i + 2);
        sixteen[3 * i + 2] = excepted[i + 1] = (uint8_t)('B' + i);
    }
    r.exceptions = sixteen;
    r.exceptions_len = sizeof sixteen;
    struct garumbott_answer kept = {.answer = GARUMBOTT_SILENT, .transcript_len = TEXT_LONGEST, .reference_len = 5461, .altered_len = 5461,
                                    .number = 1, .deleted_len = 1, .inserted_len = 1, .codons = 5461},
                            kept_alone = alone(&kept);
    edit_case("sixteen exceptions", &r, &same_place, rooms, &kept, &kept_alone, longest, excepted, excepted);
    own_record("sixteen exceptions", &r, &same_place, rooms, &kept, "", "", "");
    edit_stored("sixteen exceptions", &r, &same_place, &kept, longest, excepted, excepted);
}

/* ---- the library's own limit ---------------------------------------------------------------------------------------------------------- */

enum { CODONS = GARUMBOTT_LONGEST / 3, LAST_BASE = 3 * CODONS };
static uint8_t all_letters[GARUMBOTT_LONGEST + 1], all_residues[GARUMBOTT_REFERENCE_ROOM], twice[GARUMBOTT_TRANSCRIPT_ROOM], altered_residues[GARUMBOTT_ALTERED_ROOM];

/* ATG GCN GCC .. GCC TAA CC and one letter more: 131,072 letters, a CDS of 43,690 codons; or, all of them a CDS, GCC in the stop's place, the last two a cut codon. */
static struct garumbott_reference library_reference(uint64_t end)
{
    for (size_t i = 0; i < sizeof all_letters; i++) all_letters[i] = (uint8_t) "GCC"[i % 3];
    memcpy(all_letters, "ATGGCN", 6);
    memset(all_residues, 'A', sizeof all_residues);
    all_residues[0] = 'M';
    all_residues[CODONS] = 'X';
    if (end == GARUMBOTT_END_STOP) memcpy(all_letters + LAST_BASE - 3, "TAACC", 5), all_residues[CODONS - 1] = '*';
    memcpy(twice, all_letters, GARUMBOTT_LONGEST);
    memcpy(twice + GARUMBOTT_LONGEST, all_letters, GARUMBOTT_LONGEST);
    struct garumbott_reference r = {.letters = all_letters, .letters_len = GARUMBOTT_LONGEST, .cs = 1, .ce = end == GARUMBOTT_END_STOP ? LAST_BASE : GARUMBOTT_LONGEST, .end = end};
    return r;
}

/* The longest altered transcript fills GARUMBOTT_TRANSCRIPT_ROOM, and 12 asks for all of GARUMBOTT_ALTERED_ROOM, however short A is; and one byte too little in each. */
static void library_copied(void)
{
    struct garumbott_reference r = library_reference(GARUMBOTT_END_STOP);
    struct garumbott_coding_edit copy = STAR(DUPLICATION, 1, 2);
    struct garumbott_answer w = {.answer = GARUMBOTT_SILENT, .frameshift = 1, .transcript_len = GARUMBOTT_TRANSCRIPT_ROOM, .reference_len = CODONS, .altered_len = CODONS,
                                 .number = 1, .deleted_len = 1, .inserted_len = 1},
                            e = alone(&w);
    check(GARUMBOTT_TRANSCRIPT_ROOM == 262144 && GARUMBOTT_REFERENCE_ROOM == 43691 && GARUMBOTT_ALTERED_ROOM == 87382, "rooms", "the header's");
    check(garumbott_transcript_room(GARUMBOTT_LONGEST, GARUMBOTT_DUPLICATION, 0) == GARUMBOTT_TRANSCRIPT_ROOM, "transcript_room", "131,072 letters");
    check(garumbott_reference_room(1, LAST_BASE) == CODONS && garumbott_reference_room(1, GARUMBOTT_LONGEST) == GARUMBOTT_REFERENCE_ROOM, "reference_room", "131,072 letters");
    check(garumbott_altered_room(GARUMBOTT_TRANSCRIPT_ROOM, 1) == GARUMBOTT_ALTERED_ROOM, "altered_room", "262,144 letters");
    edit_case("131,072 letters, all of them copied", &r, &copy, library_room, &w, &e, twice, all_residues, all_residues);
    edit_stored("131,072 letters, all of them copied", &r, &copy, &w, twice, all_residues, all_residues);
    own_record("131,072 letters, all of them copied", &r, &copy, library_room, &w, "", "", "");
    for (int i = 0; i < 3; i++) {
        size_t less[3] = {library_room[0], CODONS, library_room[2]};
        edit_case("exactly the room for 131,072 letters", &r, &copy, less, &w, &e, twice, all_residues, all_residues);
        less[i]--;
        struct garumbott_answer no = {.refusal = i == 0 ? 11 : 12}, still = i == 0 ? no : e;
        edit_case("a byte too little for 131,072 letters", &r, &copy, less, &no, &still, twice, all_residues, all_residues);
        own_record("a byte too little for 131,072 letters", &r, &copy, less, &no, "", "", "");
    }
}

/* The longest R, which fills GARUMBOTT_REFERENCE_ROOM, and the longest A: the cut codon's GC and the copy's A read A, then TGG CNG CCG .. and a base that is left. */
static void library_cut(void)
{
    struct garumbott_reference r = library_reference(GARUMBOTT_END_CUT_CODON);
    struct garumbott_coding_edit copy = TWO(DUPLICATION, 1, GARUMBOTT_LONGEST);
    struct garumbott_answer w = {.answer = GARUMBOTT_CHANGED, .frameshift = 1, .transcript_len = GARUMBOTT_TRANSCRIPT_ROOM, .reference_len = GARUMBOTT_REFERENCE_ROOM,
                                 .altered_len = GARUMBOTT_ALTERED_ROOM, .change = GARUMBOTT_CHANGE_FRAMESHIFT, .number = CODONS + 1, .deleted_at = CODONS, .deleted_len = 1,
                                 .inserted_at = CODONS, .inserted_len = GARUMBOTT_ALTERED_ROOM - CODONS, .codons = CODONS + 1},
                            e = alone(&w), no = {.refusal = GARUMBOTT_REFUSAL_PROTEIN_ROOM};
    memset(altered_residues, 'P', sizeof altered_residues);
    memcpy(altered_residues, all_residues, CODONS);
    memcpy(altered_residues + CODONS, "AWX", 3);
    altered_residues[GARUMBOTT_ALTERED_ROOM - 1] = 'X';
    edit_case("131,072 letters and a cut codon, all of them copied", &r, &copy, library_room, &w, &e, twice, all_residues, altered_residues);
    edit_stored("131,072 letters and a cut codon, all of them copied", &r, &copy, &w, twice, all_residues, altered_residues);
    own_record("131,072 letters and a cut codon, all of them copied", &r, &copy, library_room, &w, (const char *)twice, (const char *)all_residues, (const char *)altered_residues);
    for (int i = 1; i < 3; i++) {
        size_t less[3] = {library_room[0], library_room[1], library_room[2]};
        less[i]--;
        edit_case("a residue too little for 131,072 letters and a cut codon", &r, &copy, less, &no, &e, twice, all_residues, altered_residues);
    }
    /* a stop in the last whole codon, which no stated end but 0 may have */
    struct garumbott_answer end = {.refusal = GARUMBOTT_REFUSAL_END};
    struct garumbott_coding_edit nothing = ONE(IDENTITY, 1);
    memcpy(all_letters + LAST_BASE - 3, "TAA", 3);
    edit_case("131,072 letters, a stop before the cut codon", &r, &nothing, library_room, &end, &end, "", "", "");
    edit_stored("131,072 letters, a stop before the cut codon", &r, &nothing, &end, "", "", "");
}

/* One letter more; the text program's limit stays where it was. */
static void one_letter_more(void)
{
    struct garumbott_reference r = library_reference(GARUMBOTT_END_STOP);
    struct garumbott_coding_edit nothing = ONE(IDENTITY, 1), nowhere = ONE(IDENTITY, 0);
    struct garumbott_answer one = {.refusal = GARUMBOTT_REFUSAL_LENGTH};
    r.letters_len++;
    edit_case("131,073 letters", &r, &nothing, library_room, &one, &one, "", "", "");
    edit_case("131,073 letters, 1 before 2 to 7", &r, &nowhere, library_room, &one, &one, "", "", "");
    edit_stored("131,073 letters", &r, &nothing, &one, "", "", "");
    own_record("131,073 letters", &r, &nothing, library_room, &one, "", "", "");
    static const struct garumbott_coding_edit other = ONE(IDENTITY, 5);
    static uint8_t out[2 * LONGEST_FORM];
    struct garumbott_buffers b = {.transcript = out, .transcript_len = sizeof out};
    check(garumbott_pair_of(&r, &nothing, &other, &b).refusal == 1, "131,073 letters", "pair");
    check(garumbott_write_stored_of(&r, out, sizeof out).refusal == 1, "131,073 letters", "write_stored");
    check(garumbott_compare_of(&r, &SHORT, out, sizeof out).refusal == 1, "131,073 letters", "compare");
    check(garumbott_compare_of(&SHORT, &r, out, sizeof out).refusal == 101, "131,073 letters, the second", "compare");
    /* 16,385 is no limit of the library */
    struct garumbott_reference more = longest_reference();
    more.letters_len++;
    struct garumbott_answer w = {.answer = GARUMBOTT_SILENT, .transcript_len = TEXT_LONGEST + 1, .reference_len = LONGEST_CODONS, .altered_len = LONGEST_CODONS, .number = 1,
                                 .deleted_len = 1, .inserted_len = 1},
                            e = alone(&w);
    edit_case("16,385 letters", &more, &nothing, library_room, &w, &e, longest, protein, protein);
    edit_stored("16,385 letters", &more, &nothing, &w, longest, protein, protein);
}

/* The longest pair, which GARUMBOTT_TRANSCRIPT_ROOM is too short for: all letters but two copied, and 4,096 bases put between these. Both orders, with exactly the room
 * that 11 and 12 ask for, and a byte less. */
static void library_pair(void)
{
    enum { COPIED = GARUMBOTT_LONGEST - 2, LEN = GARUMBOTT_LONGEST + COPIED + GARUMBOTT_MOST_BASES, RESIDUES = LEN / 3 };
    static uint8_t t[LEN], p[RESIDUES], new_bases[GARUMBOTT_MOST_BASES];
    struct garumbott_reference r = library_reference(GARUMBOTT_END_CUT_CODON);
    struct garumbott_coding_edit copy = TWO(DUPLICATION, 1, COPIED), in = {.kind = GARUMBOTT_INSERTION, .start = COPIED + 1, .end = COPIED + 2, .bases = new_bases,
                                                                          .bases_len = sizeof new_bases};
    memset(new_bases, 'T', sizeof new_bases);
    memcpy(t, all_letters, COPIED);
    memcpy(t + COPIED, all_letters, COPIED + 1);
    memset(t + 2 * COPIED + 1, 'T', sizeof new_bases);
    t[LEN - 1] = all_letters[GARUMBOTT_LONGEST - 1];
    memset(p, 'F', sizeof p); /* GTT TTT .. TTC behind what is copied */
    memcpy(p, all_residues, CODONS);
    memcpy(p + CODONS, all_residues, CODONS);
    p[2 * CODONS] = 'V';
    for (int i = 0; i < 4; i++) {
        size_t room[2] = {i == 2 ? LEN - 1 : LEN, i == 3 ? RESIDUES - 1 : RESIDUES};
        enum fence_side side = i % 2 == 0 ? FENCE_END : FENCE_START;
        struct garumbott_buffers b = {.transcript = fence_fill(&fences[TRANSCRIPT], side, NULL, room[0]), .transcript_len = room[0],
                                      .altered = fence_fill(&fences[ALTERED], side, NULL, room[1]), .altered_len = room[1]};
        struct garumbott_paired want = {0}, got = i == 1 ? garumbott_pair_of(&r, &in, &copy, &b) : garumbott_pair_of(&r, &copy, &in, &b);
        want.refusal = i == 2 ? 11 : i == 3 ? 12 : 0;
        if (want.refusal == 0) want.transcript_len = LEN, want.altered_len = RESIDUES;
        check(memcmp(&got, &want, sizeof got) == 0, "the longest pair", "answer");
        check(fence_check(&fences[TRANSCRIPT], t, want.transcript_len) && fence_check(&fences[ALTERED], p, want.altered_len), "the longest pair", "what is written");
    }
    check(LEN <= GARUMBOTT_TRANSCRIPT_ROOM + GARUMBOTT_MOST_BASES, "the longest pair", "the header's word on its room");
}

/* The longest list, of editions that differ in every codon, and the longest form. */
static void library_lists(void)
{
    static uint8_t list[GARUMBOTT_DIFFERENCES_ROOM], other[GARUMBOTT_LONGEST], form[LONGEST_FORM];
    struct garumbott_reference r = library_reference(GARUMBOTT_END_CUT_CODON), s = r;
    memset(other, 'A', sizeof other);
    s.letters = other;
    for (size_t i = 0; i < GARUMBOTT_REFERENCE_ROOM; i++) {
        uint8_t entry[4] = {(uint8_t)((i + 1) >> 8), (uint8_t)(i + 1), all_residues[i], i == CODONS ? 'X' : 'K'};
        memcpy(list + 4 * i, entry, 4);
    }
    size_t len = store(form, &r);
    check(len == garumbott_stored_room(r.letters_len, 0, r.end), "the longest form", "garumbott_stored_room");
    for (size_t less = 0; less < 2; less++) {
        enum fence_side side = less == 0 ? FENCE_END : FENCE_START;
        uint8_t *out = fence_fill(&fences[TRANSCRIPT], side, NULL, sizeof list - less);
        struct garumbott_length got = garumbott_compare_of(&r, &s, out, sizeof list - less);
        check(got.refusal == (less == 0 ? 0 : 50) && got.len == (less == 0 ? sizeof list : 0), "the longest list", "answer");
        check(fence_check(&fences[TRANSCRIPT], list, got.len), "the longest list", "what is written");
        out = fence_fill(&fences[TRANSCRIPT], side, NULL, len - less);
        got = garumbott_write_stored_of(&r, out, len - less);
        check(got.refusal == (less == 0 ? 0 : 24) && got.len == (less == 0 ? len : 0), "the longest form", "answer");
        check(fence_check(&fences[TRANSCRIPT], form, got.len), "the longest form", "what is written");
    }
}

static void library_limits(void)
{
    fences = huge;
    plenty = library_room;
    library_copied();
    library_cut();
    library_pair();
    library_lists();
    one_letter_more();
    fences = large;
    plenty = whole_room;
}

/* ---- records from elsewhere --------------------------------------------------------------------------------------------------------- */

/* What garumbott_record makes of an edit, in buffers that are never too short. */
static struct garumbott_answer made(const struct garumbott_reference *reference, const struct garumbott_coding_edit *edit, uint8_t **t, uint8_t **r, uint8_t **a)
{
    static uint8_t all_t[GARUMBOTT_TRANSCRIPT_ROOM], all_r[GARUMBOTT_REFERENCE_ROOM], all_a[GARUMBOTT_ALTERED_ROOM];
    struct garumbott_buffers b = {*t = all_t, sizeof all_t, *r = all_r, sizeof all_r, *a = all_a, sizeof all_a};
    return garumbott_record_of(reference, edit, &b);
}

/* A proposal with plenty of room, with exactly the room that the answer asks for, and with a byte too little in each buffer: 11 and 12 come before 26
 * and 27, but for an Unknown, which asks for none. */
static void judged(const char *name, const struct garumbott_reference *reference, const struct garumbott_coding_edit *edit, const struct proposal *p,
                   uint64_t refusal, int answers)
{
    uint8_t *t, *r, *a;
    static const size_t none[3] = {0, 0, 0};
    struct garumbott_answer w = made(reference, edit, &t, &r, &a);
    check_case(name, reference, edit, p, plenty, refusal, answers, &w, t, r, a);
    if (w.answer < GARUMBOTT_NO_PROTEIN) {
        check_case(name, reference, edit, p, none, refusal, answers, &w, t, r, a);
        return;
    }
    size_t exact[3] = {w.transcript_len, w.reference_len, garumbott_altered_room(w.transcript_len, reference->cs)};
    check_case(name, reference, edit, p, exact, refusal, answers, &w, t, r, a);
    for (int i = 0; i < 3; i++) {
        size_t less[3] = {exact[0], exact[1], exact[2]};
        if (less[i]-- == 0) continue;
        check_case(name, reference, edit, p, less, i == 0 ? 11 : 12, answers, &w, t, r, a);
    }
}

struct proposed {
    const char *name;
    const struct garumbott_reference *reference;
    struct garumbott_coding_edit edit;
    uint64_t number;
    const char *deleted, *inserted;
    uint64_t refusal;
    int answers;
};

/* The readings of E7, and proposals that are nearly right. */
static void proposals(void)
{
    static const struct proposed all[] = {
        /* 26 before 27, for Silent and for no protein; an Unknown's needs no room */
        {"6C>T, 0 - -", &W, ONE_NEW(SUBSTITUTION, 6, "T"), 0, "", "", 26, NO_NO},
        {"6C>T, 2 A A", &W, ONE_NEW(SUBSTITUTION, 6, "T"), 2, "A", "A", 26, NO_NO},
        {"6C>T, 1 - -", &W, ONE_NEW(SUBSTITUTION, 6, "T"), 1, "", "", 26, NO_NO},
        {"4=, 2 a a", &W, ONE(IDENTITY, 4), 2, "a", "a", 26, NO_NO},
        {"1_*6del, 1 MAKW* -", &W, STAR(DELETION, 1, 6), 1, "MAKW*", "", 26, NO_NO},
        {"1_*7del, 1 MAKW* -", &W, STAR(DELETION, 1, 7), 1, "MAKW*", "", 26, NO_NO},
        {"1_*7del, 0 - -", &W, STAR(DELETION, 1, 7), 0, "", "", 26, NO_NO},
        {"4T>A of M**, 2 * K", &TWO_STOPS, ONE_NEW(SUBSTITUTION, 4, "A"), 2, "*", "K", 26, NO_NO},
        /* 7 to 10 before them */
        {"16del, 0 - -", &W, ONE(DELETION, 16), 0, "", "", 7, NO_NO},
        {"6_4del, 0 - -", &W, TWO(DELETION, 6, 4), 0, "", "", 8, NO_NO},
        {"-1del, 0 - -", &W, ONE(DELETION, -1), 0, "", "", 9, NO_NO},
        {"8A>U, 0 - -", &W, ONE_NEW(SUBSTITUTION, 8, "U"), 0, "", "", 10, NO_NO},
        /* a substitution */
        {"8A>G, 3 K R", &W, ONE_NEW(SUBSTITUTION, 8, "G"), 3, "K", "R", 0, YES_YES},
        {"8A>G, 3 A A", &W, ONE_NEW(SUBSTITUTION, 8, "G"), 3, "A", "A", 0, NO_NO},
        {"8A>G, 3 - R", &W, ONE_NEW(SUBSTITUTION, 8, "G"), 3, "", "R", 0, NO_NO},
        {"8A>G, 3 K -", &W, ONE_NEW(SUBSTITUTION, 8, "G"), 3, "K", "", 0, NO_NO},
        {"8A>G, 3 R K", &W, ONE_NEW(SUBSTITUTION, 8, "G"), 3, "R", "K", 0, NO_NO},
        {"8A>G, 3 A R", &W, ONE_NEW(SUBSTITUTION, 8, "G"), 3, "A", "R", 0, NO_NO},
        {"8A>G, 3 K X", &W, ONE_NEW(SUBSTITUTION, 8, "G"), 3, "K", "X", 0, NO_NO},
        {"8A>G, 3 KW RW", &W, ONE_NEW(SUBSTITUTION, 8, "G"), 3, "KW", "RW", 0, YES_NO},
        {"8A>G, 3 KW* RW*", &W, ONE_NEW(SUBSTITUTION, 8, "G"), 3, "KW*", "RW*", 0, YES_NO},
        {"8A>G, 2 AK AR", &W, ONE_NEW(SUBSTITUTION, 8, "G"), 2, "AK", "AR", 0, YES_NO},
        {"8A>G, 1 MAKW* MARW*", &W, ONE_NEW(SUBSTITUTION, 8, "G"), 1, "MAKW*", "MARW*", 0, YES_NO},
        {"8A>G, 1 MAKW* MARW", &W, ONE_NEW(SUBSTITUTION, 8, "G"), 1, "MAKW*", "MARW", 0, NO_NO},
        {"8A>G, 1 MAKW MARW", &W, ONE_NEW(SUBSTITUTION, 8, "G"), 1, "MAKW", "MARW", 0, YES_NO},
        {"8A>G, 1 - MARW*", &W, ONE_NEW(SUBSTITUTION, 8, "G"), 1, "", "MARW*", 0, NO_NO},
        {"8A>G, 3 KW R", &W, ONE_NEW(SUBSTITUTION, 8, "G"), 3, "KW", "R", 0, NO_NO},
        {"8A>G, 3 K RW", &W, ONE_NEW(SUBSTITUTION, 8, "G"), 3, "K", "RW", 0, NO_NO},
        {"8A>G, 4 K R", &W, ONE_NEW(SUBSTITUTION, 8, "G"), 4, "K", "R", 0, NO_NO},
        {"8A>G, 2 K R", &W, ONE_NEW(SUBSTITUTION, 8, "G"), 2, "K", "R", 0, NO_NO},
        {"8A>G, 6 K R", &W, ONE_NEW(SUBSTITUTION, 8, "G"), 6, "K", "R", 0, NO_NO},
        {"8A>G, 6 - -", &W, ONE_NEW(SUBSTITUTION, 8, "G"), 6, "", "", 0, NO_NO},
        {"8A>G, 7 - -", &W, ONE_NEW(SUBSTITUTION, 8, "G"), 7, "", "", 27, NO_NO},
        {"8A>G, 3 K r", &W, ONE_NEW(SUBSTITUTION, 8, "G"), 3, "K", "r", 27, NO_NO},
        {"8A>G, 3 k R", &W, ONE_NEW(SUBSTITUTION, 8, "G"), 3, "k", "R", 27, NO_NO},
        {"8A>G, 9 K R", &W, ONE_NEW(SUBSTITUTION, 8, "G"), 9, "K", "R", 27, NO_NO},
        /* a copy: at both places, and within longer ones */
        {"4_6dup, 3 - A", &W, TWO(DUPLICATION, 4, 6), 3, "", "A", 0, YES_YES},
        {"4_6dup, 2 - A", &W, TWO(DUPLICATION, 4, 6), 2, "", "A", 0, YES_NO},
        {"4_6dup, 4 - A", &W, TWO(DUPLICATION, 4, 6), 4, "", "A", 0, NO_NO},
        {"4_6dup, 1 - A", &W, TWO(DUPLICATION, 4, 6), 1, "", "A", 0, NO_NO},
        {"4_6dup, 2 A AA", &W, TWO(DUPLICATION, 4, 6), 2, "A", "AA", 0, YES_NO},
        {"4_6dup, 3 K AK", &W, TWO(DUPLICATION, 4, 6), 3, "K", "AK", 0, YES_NO},
        {"4_6dup, 3 - AA", &W, TWO(DUPLICATION, 4, 6), 3, "", "AA", 0, NO_NO},
        {"1_3dup, 2 - M", &W, TWO(DUPLICATION, 1, 3), 2, "", "M", 0, YES_YES},
        {"1_3dup, 1 - M", &W, TWO(DUPLICATION, 1, 3), 1, "", "M", 0, YES_NO},
        /* a deletion, which can't begin later */
        {"4_9del, 2 AK -", &W, TWO(DELETION, 4, 9), 2, "AK", "", 0, YES_YES},
        {"4_9del, 2 AKW W", &W, TWO(DELETION, 4, 9), 2, "AKW", "W", 0, YES_NO},
        {"4_9del, 1 MAK M", &W, TWO(DELETION, 4, 9), 1, "MAK", "M", 0, YES_NO},
        {"4_9del, 2 A -", &W, TWO(DELETION, 4, 9), 2, "A", "", 0, NO_NO},
        {"4_9del, 3 KW -", &W, TWO(DELETION, 4, 9), 3, "KW", "", 0, NO_NO},
        /* what is behind the replaced residues counts */
        {"5del, 3 KW* NGNLX", &W, ONE(DELETION, 5), 3, "KW*", "NGNLX", 0, YES_YES},
        {"5del, 3 K NGNLX", &W, ONE(DELETION, 5), 3, "K", "NGNLX", 0, NO_NO},
        {"5del, 3 K N", &W, ONE(DELETION, 5), 3, "K", "N", 0, NO_NO},
        {"5del, 3 KW* N", &W, ONE(DELETION, 5), 3, "KW*", "N", 0, NO_NO},
        {"12G>A, 4 W *", &W, ONE_NEW(SUBSTITUTION, 12, "A"), 4, "W", "*", 0, NO_NO},
        {"12G>A, 4 W* *", &W, ONE_NEW(SUBSTITUTION, 12, "A"), 4, "W*", "*", 0, YES_NO},
        {"12G>A, 4 W -", &W, ONE_NEW(SUBSTITUTION, 12, "A"), 4, "W", "", 0, YES_YES},
        {"13T>C, 5 * QPD", &W, ONE_NEW(SUBSTITUTION, 13, "C"), 5, "*", "QPD", 0, YES_YES},
        {"13T>C, 5 * Q", &W, ONE_NEW(SUBSTITUTION, 13, "C"), 5, "*", "Q", 0, NO_NO},
        {"13T>C, 5 *A QPD", &W, ONE_NEW(SUBSTITUTION, 13, "C"), 5, "*A", "QPD", 0, NO_NO},
        {"13T>C, 6 * QPD", &W, ONE_NEW(SUBSTITUTION, 13, "C"), 6, "*", "QPD", 0, NO_NO},
        {"13T>C, 5 - QPD", &W, ONE_NEW(SUBSTITUTION, 13, "C"), 5, "", "QPD", 0, NO_NO},
        {"1A>G, 1 M V", &W, ONE_NEW(SUBSTITUTION, 1, "G"), 1, "M", "V", 0, YES_YES},
        /* the flag: shortest whatever it says */
        {"10delinsTAG, 4 W -", &W, ONE_NEW(DELINS, 10, "TAG"), 4, "W", "", 0, YES_YES},
        {"10delinsTAG, 4 W* *", &W, ONE_NEW(DELINS, 10, "TAG"), 4, "W*", "*", 0, YES_NO},
        {"10delinsTAG, 3 KW K", &W, ONE_NEW(DELINS, 10, "TAG"), 3, "KW", "K", 0, YES_NO},
        /* A has ended, or is the beginning of R */
        {"10_*6del, 4 W* -", &W, STAR(DELETION, 10, 6), 4, "W*", "", 0, YES_YES},
        {"10_*6del, 4 W -", &W, STAR(DELETION, 10, 6), 4, "W", "", 0, NO_NO},
        /* exceptions */
        {"6A>G under U, 2 U W", &SELENO, ONE_NEW(SUBSTITUTION, 6, "G"), 2, "U", "W", 0, YES_YES},
        {"6A>G under U, 2 * W", &SELENO, ONE_NEW(SUBSTITUTION, 6, "G"), 2, "*", "W", 0, NO_NO},
        {"4_6del, stop by exception, 3 * -", &LAST, TWO(DELETION, 4, 6), 3, "*", "", 0, YES_YES},
        {"4_6del, stop by exception, 2 K -", &LAST, TWO(DELETION, 4, 6), 2, "K", "", 0, NO_NO},
        /* R is the beginning of A: a number of length of R plus one */
        {"5_6insC, 3 - X", &SIX, TWO_NEW(INSERTION, 5, 6, "C"), 3, "", "X", 0, YES_YES},
        {"5_6insC, 4 - X", &SIX, TWO_NEW(INSERTION, 5, 6, "C"), 4, "", "X", 27, NO_NO},
        {"5_6insC, 2 - X", &SIX, TWO_NEW(INSERTION, 5, 6, "C"), 2, "", "X", 0, NO_NO},
        {"5_6insC, 2 A AX", &SIX, TWO_NEW(INSERTION, 5, 6, "C"), 2, "A", "AX", 0, YES_NO},
        {"5_6insC, 3 X X", &SIX, TWO_NEW(INSERTION, 5, 6, "C"), 3, "X", "X", 0, NO_NO},
        {"4_6dup of six, 3 - A", &SIX, TWO(DUPLICATION, 4, 6), 3, "", "A", 0, YES_YES},
        {"4_6dup of six, 2 - A", &SIX, TWO(DUPLICATION, 4, 6), 2, "", "A", 0, YES_NO},
        {"6_7insAA of seven, 3 X K", &SEVEN, TWO_NEW(INSERTION, 6, 7, "AA"), 3, "X", "K", 0, YES_YES},
        {"7A>G of seven, 3 X X", &SEVEN, ONE_NEW(SUBSTITUTION, 7, "G"), 3, "X", "X", 26, NO_NO},
        {"4_*1del of six, 2 A -", &SIX, STAR(DELETION, 4, 1), 2, "A", "", 26, NO_NO},
    };
    for (size_t i = 0; i < sizeof all / sizeof *all; i++) {
        const struct proposed *x = &all[i];
        struct proposal p = {x->number, bytes(x->deleted), strlen(x->deleted), bytes(x->inserted), strlen(x->inserted)};
        judged(x->name, x->reference, &x->edit, &p, x->refusal, x->answers);
        if (p.deleted_len == 0) p.deleted = NULL;
        if (p.inserted_len == 0) p.inserted = NULL;
        judged(x->name, x->reference, &x->edit, &p, x->refusal, x->answers);
    }
}

/* The room that the readings name. */
static void proposal_rooms(void)
{
    static const struct garumbott_coding_edit lysine = ONE_NEW(SUBSTITUTION, 8, "G"), silent = ONE_NEW(SUBSTITUTION, 6, "T"), beyond = STAR(DELETION, 1, 7);
    static const size_t none[3] = {0, 0, 0}, four[3] = {23, 4, 7};
    static const struct proposal nine = {9, (const uint8_t *)"K", 1, (const uint8_t *)"R", 1};
    static const struct garumbott_answer nobody;
    check_case("8A>G, 9 K R, room for R 4", &W, &lysine, &nine, four, 12, NO_NO, &nobody, "", "", "");
    check_case("1_*7del without room", &W, &beyond, &nine, none, 26, NO_NO, &nobody, "", "", "");
    check_case("6C>T without room", &W, &silent, &nine, none, 11, NO_NO, &nobody, "", "", "");
    check_case("8A>G without room", &W, &lysine, &nine, none, 11, NO_NO, &nobody, "", "", "");
}

/* Every byte in each place of a proposal, and numbers at the ends of the widths. */
static void proposal_bytes(void)
{
    static const struct garumbott_coding_edit lysine = ONE_NEW(SUBSTITUTION, 8, "G"), appended = TWO_NEW(INSERTION, 5, 6, "C");
    static const uint64_t numbers[] = {0, 1, 2, 3, 4, 5, 6, 7, 8, 255, 256, 257, 259, 65535, 65536, 65539, UINT64_C(1) << 31, UINT64_C(1) << 32, (UINT64_C(1) << 32) + 1,
                                       (UINT64_C(1) << 32) + 3, INT64_MAX, UINT64_C(1) << 63, (UINT64_C(1) << 63) + 3, UINT64_MAX - 1, UINT64_MAX};
    char name[64];
    uint8_t *wt, *wr, *wa;
    struct garumbott_answer w = made(&W, &lysine, &wt, &wr, &wa);
    for (int byte = 0; byte < 256; byte++) {
        int residue = byte == '*' || (byte >= 'A' && byte <= 'Z');
        for (int at = 0; at < 3; at++) {
            uint8_t r[] = "AKW", a[] = "ARW";
            struct proposal p = {2, r, 3, a, 3};
            r[at] = (uint8_t)byte;
            snprintf(name, sizeof name, "byte %d at %d of the deleted", byte, at);
            check_case(name, &W, &lysine, &p, plenty, residue ? 0 : 27, byte == "AKW"[at] ? YES_NO : NO_NO, &w, wt, wr, wa);
            r[at] = (uint8_t) "AKW"[at];
            a[at] = (uint8_t)byte;
            snprintf(name, sizeof name, "byte %d at %d of the inserted", byte, at);
            check_case(name, &W, &lysine, &p, plenty, residue ? 0 : 27, byte == "ARW"[at] ? YES_NO : NO_NO, &w, wt, wr, wa);
        }
    }
    for (size_t i = 0; i < sizeof numbers / sizeof *numbers; i++) {
        struct proposal p = {numbers[i], bytes("K"), 1, bytes("R"), 1}, none = {.number = numbers[i]}, last = {numbers[i], NULL, 0, bytes("X"), 1};
        snprintf(name, sizeof name, "number %llu", (unsigned long long)numbers[i]);
        judged(name, &W, &lysine, &p, numbers[i] == 0 || numbers[i] > 6 ? 27 : 0, numbers[i] == 3 ? YES_YES : NO_NO);
        judged(name, &W, &lysine, &none, numbers[i] == 0 || numbers[i] > 6 ? 27 : 0, NO_NO);
        judged(name, &SIX, &appended, &last, numbers[i] == 0 || numbers[i] > 3 ? 27 : 0, numbers[i] == 3 ? YES_YES : NO_NO);
    }
}

/* Proposals longer than any protein: a no, but for a byte that is no residue, wherever it stands. Those that begin as the right ones do are wrong too. */
static void proposal_lengths(void)
{
    enum { LONG = (1 << 20) + 3 };
    static const struct garumbott_coding_edit lysine = ONE_NEW(SUBSTITUTION, 8, "G");
    static uint8_t many[LONG], others[LONG];
    static const uint64_t lengths[] = {0, 1, 2, 3, 4, 5, 6, 7, 100, 256, 259, 5461, 5462, 5463, 10923, 10924, 16384, 65535, 65536, 65537, 65539, LONG - 3, LONG};
    struct fence usual[2] = {fences[DELETED], fences[INSERTED]};
    uint8_t *t, *r, *a;
    struct garumbott_answer w = made(&W, &lysine, &t, &r, &a);
    memset(many, 'W', sizeof many);
    memcpy(many, "KW*", 3);
    memset(others, 'W', sizeof others);
    memcpy(others, "RW*", 3);
    for (size_t i = 0; i < sizeof lengths / sizeof *lengths; i++) {
        uint64_t n = lengths[i];
        if (n == 5461 || n == 65535 || n == LONG - 3) fence_make(&fences[DELETED], n + 10923), fence_make(&fences[INSERTED], n + 10923);
        struct proposal both = {3, many, n, many, n}, deleted = {3, many, n, NULL, 0}, put_in = {3, NULL, 0, many, n}, last = {6, NULL, 0, many, n};
        check_case("long, both", &W, &lysine, &both, plenty, 0, NO_NO, &w, t, r, a);
        check_case("long, deleted", &W, &lysine, &deleted, plenty, 0, NO_NO, &w, t, r, a);
        check_case("long, inserted", &W, &lysine, &put_in, plenty, 0, NO_NO, &w, t, r, a);
        check_case("long, at the end", &W, &lysine, &last, plenty, 0, NO_NO, &w, t, r, a);
        struct proposal more_deleted = {3, many, n, others, 3}, more_put_in = {3, many, 3, others, n}, more = {3, many, n, others, n};
        check_case("long, begins right, deleted", &W, &lysine, &more_deleted, plenty, 0, n == 3 ? YES_NO : NO_NO, &w, t, r, a);
        check_case("long, begins right, inserted", &W, &lysine, &more_put_in, plenty, 0, n == 3 ? YES_NO : NO_NO, &w, t, r, a);
        check_case("long, begins right, both", &W, &lysine, &more, plenty, 0, n == 1 ? YES_YES : n == 2 || n == 3 ? YES_NO : NO_NO, &w, t, r, a);
        if (n == 0) continue;
        uint8_t kept = many[n - 1];
        many[n - 1] = '@';
        check_case("long, both, no residue", &W, &lysine, &both, plenty, 27, NO_NO, &w, t, r, a);
        check_case("long, deleted, no residue", &W, &lysine, &deleted, plenty, 27, NO_NO, &w, t, r, a);
        check_case("long, inserted, no residue", &W, &lysine, &put_in, plenty, 27, NO_NO, &w, t, r, a);
        many[n - 1] = kept;
    }
    fences[DELETED] = usual[0];
    fences[INSERTED] = usual[1];
}

static void records(void)
{
    fences = small;
    plenty = small_room;
    proposals();
    proposal_rooms();
    proposal_bytes();
    proposal_lengths();
    fences = large;
    plenty = whole_room;
}

/* ---- stored references ------------------------------------------------------------------------------------------------------------- */

#define LETTERS_FIELD "\1\0\27GGATGGCCAAATGGTAACCTGAC"
#define BOUNDS_FIELD "\2\0\4\0\3\0\21"
#define TABLE_FIELD "\3\0\1\0"
#define ALL_FIELDS LETTERS_FIELD BOUNDS_FIELD TABLE_FIELD
#define SIX_FIELDS "\1\0\6ATGGCC" "\2\0\4\0\1\0\6" TABLE_FIELD
#define SEVEN_FIELDS "\1\0\7ATGGCCA" "\2\0\4\0\1\0\7" TABLE_FIELD
#define NO_STOP_FIELD "\10\0\1\1"
#define CUT_CODON_FIELD "\10\0\1\2"

static void stored_case(const char *name, const void *data, size_t len, const struct garumbott_stored *want)
{
    for (int side = FENCE_END; side <= FENCE_START; side++) {
        struct garumbott_stored got = garumbott_read_stored(fence_fill(&fences[STORED], side, data, len), len, NULL, 0);
        check(same_stored(&got, want), name, "read_stored's answer");
        check(fence_check(&fences[STORED], NULL, 0), name, "stored bytes changed");
    }
}

static void stored_refused(const char *name, const void *data, size_t len, uint64_t refusal)
{
    struct garumbott_stored no = {.refusal = refusal};
    stored_case(name, data, len, &no);
}

/* Faults of the form, and of the reference behind it. */
static void stored_refusals(void)
{
#define S(name, data, refusal) {name, data, sizeof(data) - 1, refusal}
    static const struct {
        const char *name, *data;
        size_t len;
        uint64_t refusal;
    } all[] = {
        /* a cut header: its tag is judged first */
        S("tag 1 alone", "\1", 20),
        S("tag 1 and a byte of its length", "\1\0", 20),
        S("tag 0 alone", "\0", 21),
        S("tag 5 alone", "\5", 20),
        S("a last byte 3", ALL_FIELDS "\3", 21),
        S("a last byte 4", ALL_FIELDS "\4", 20),
        S("a last byte 5", ALL_FIELDS "\5", 20),
        S("a last byte 0", ALL_FIELDS "\0", 21),
        S("a line feed behind", ALL_FIELDS "\n", 21),
        S("two bytes of tag 4", ALL_FIELDS "\4\0", 20),
        S("a last byte behind tag 4", ALL_FIELDS "\4\0\3\0\2U\4", 21),
        S("a zero byte behind tag 4", ALL_FIELDS "\4\0\0\0", 21),
        /* 21 */
        S("tag 0", "\0\0\0" ALL_FIELDS, 21),
        S("tag 9 first", "\11\0\0" ALL_FIELDS, 21),
        S("tag 9 alone", "\11", 21),
        S("a last byte 9", ALL_FIELDS "\11", 21),
        S("tag 255", ALL_FIELDS "\377\0\0", 21),
        S("tag 9 last", ALL_FIELDS "\11\0\0", 21),
        S("tag 5 first", "\5\0\1C" ALL_FIELDS, 21),
        S("tag 6 before tag 5", ALL_FIELDS "\6\0\1C" "\5\0\1C", 21),
        S("tag 5 twice", ALL_FIELDS "\5\0\1C" "\5\0\1C", 21),
        S("tag 7 before table", LETTERS_FIELD "\7\0\10\0\0\0\3\0\0\0\21" TABLE_FIELD, 21),
        S("letters twice", LETTERS_FIELD ALL_FIELDS, 21),
        S("bounds twice", LETTERS_FIELD BOUNDS_FIELD BOUNDS_FIELD TABLE_FIELD, 21),
        S("table twice", ALL_FIELDS TABLE_FIELD, 21),
        S("exceptions twice", ALL_FIELDS "\4\0\0\4\0\0", 21),
        S("bounds before letters", BOUNDS_FIELD LETTERS_FIELD TABLE_FIELD, 21),
        S("table before bounds", LETTERS_FIELD TABLE_FIELD BOUNDS_FIELD, 21),
        S("exceptions before table", LETTERS_FIELD BOUNDS_FIELD "\4\0\0" TABLE_FIELD, 21),
        S("letters last", BOUNDS_FIELD TABLE_FIELD LETTERS_FIELD, 21),
        /* lengths wrong by one */
        S("letters' length one more", "\1\0\30GGATGGCCAAATGGTAACCTGAC" BOUNDS_FIELD TABLE_FIELD, 21),
        S("letters' length one more, nothing behind", "\1\0\30GGATGGCCAAATGGTAACCTGAC", 20),
        S("letters' length one less", "\1\0\26GGATGGCCAAATGGTAACCTGAC" BOUNDS_FIELD TABLE_FIELD, 21),
        S("letters' length low byte first", "\1\27\0GGATGGCCAAATGGTAACCTGAC" BOUNDS_FIELD TABLE_FIELD, 20),
        S("letters' length 65,535", "\1\377\377GGATGGCCAAATGGTAACCTGAC" BOUNDS_FIELD TABLE_FIELD, 20),
        S("bounds of three bytes", LETTERS_FIELD "\2\0\3\0\3\0" TABLE_FIELD, 23),
        S("bounds of five bytes", LETTERS_FIELD "\2\0\5\0\3\0\21\0" TABLE_FIELD, 23),
        S("bounds of no byte", LETTERS_FIELD "\2\0\0" TABLE_FIELD, 23),
        S("bounds of 260 bytes, of which four are there", LETTERS_FIELD "\2\1\4\0\3\0\21", 20),
        S("bounds of five bytes, four left", LETTERS_FIELD "\2\0\5\0\3\0\21", 20),
        S("bounds of five bytes, five left", LETTERS_FIELD "\2\0\5\0\3\0\21\0", 23),
        S("table of no byte", LETTERS_FIELD BOUNDS_FIELD "\3\0\0", 23),
        S("table of two bytes", LETTERS_FIELD BOUNDS_FIELD "\3\0\2\0\0", 23),
        S("table of one byte, none left", LETTERS_FIELD BOUNDS_FIELD "\3\0\1", 20),
        S("exceptions of one byte", ALL_FIELDS "\4\0\1\0", 23),
        S("exceptions of two bytes", ALL_FIELDS "\4\0\2\0\2", 23),
        S("exceptions of four bytes", ALL_FIELDS "\4\0\4\0\2U\0", 23),
        S("exceptions of three bytes, two left", ALL_FIELDS "\4\0\3\0\2", 20),
        /* the order of the fields, and of faults in one */
        S("23, then 21", LETTERS_FIELD "\2\0\0" "\2\0\0", 23),
        S("23, then 20", LETTERS_FIELD "\2\0\0" "\3", 23),
        S("21, then 23", LETTERS_FIELD "\1\0\0" "\2\0\0", 21),
        S("21 with 20", LETTERS_FIELD "\1\0\7", 21),
        S("21 with 23", LETTERS_FIELD BOUNDS_FIELD "\2\0\5\0\0\0\0\0", 21),
        S("20 with 23", LETTERS_FIELD "\2\0\7\0\3\0\21", 20),
        /* tags 5 to 7: cut off, lengths, and 25 behind 22 and before 1 */
        S("tag 5 of one byte, none left", ALL_FIELDS "\5\0\1", 20),
        S("tag 7 of eight bytes, seven left", LETTERS_FIELD TABLE_FIELD "\7\0\10\0\0\0\3\0\0\0", 20),
        S("tag 7 of nine bytes, eight left", LETTERS_FIELD TABLE_FIELD "\7\0\11\0\0\0\3\0\0\0\21", 20),
        S("an empty tag 5, then 21", "\5\0\0" ALL_FIELDS, 23),
        S("an empty tag 5 last", ALL_FIELDS "\5\0\0", 23),
        S("an empty tag 6 last", ALL_FIELDS "\6\0\0", 23),
        S("an empty tag 5, no table", LETTERS_FIELD BOUNDS_FIELD "\5\0\0", 23),
        S("tag 7 of no byte", LETTERS_FIELD TABLE_FIELD "\7\0\0", 23),
        S("tag 7 of four bytes", LETTERS_FIELD TABLE_FIELD "\7\0\4\0\3\0\21", 23),
        S("tag 7 of seven bytes", LETTERS_FIELD TABLE_FIELD "\7\0\7\0\0\0\3\0\0\0", 23),
        S("tag 7 of nine bytes", LETTERS_FIELD TABLE_FIELD "\7\0\11\0\0\0\3\0\0\0\21\0", 23),
        S("tag 5, no bounds", LETTERS_FIELD TABLE_FIELD "\5\0\1C", 22),
        S("tag 7, no table", LETTERS_FIELD "\7\0\10\0\0\0\3\0\0\0\21", 22),
        S("tag 7, no letters", TABLE_FIELD "\7\0\10\0\0\0\3\0\0\0\21", 22),
        S("tags 5 and 6, no tag 1", BOUNDS_FIELD TABLE_FIELD "\5\0\6ATGTAA" "\6\0\1C", 22),
        S("tag 7 for 23 letters", LETTERS_FIELD TABLE_FIELD "\7\0\10\0\0\0\3\0\0\0\21", 25),
        S("both bounds", ALL_FIELDS "\7\0\10\0\0\0\3\0\0\0\21", 25),
        S("tag 5 behind 23 letters", ALL_FIELDS "\5\0\1C", 25),
        S("tag 5, ATG and TAA", "\1\0\3ATG" "\2\0\4\0\1\0\6" TABLE_FIELD "\5\0\3TAA", 25),
        S("tag 6 without tag 5", ALL_FIELDS "\6\0\1C", 25),
        S("empty letters, tag 5", "\1\0\0" BOUNDS_FIELD TABLE_FIELD "\5\0\1C", 25),
        S("empty letters, tag 7", "\1\0\0" TABLE_FIELD "\7\0\10\0\0\0\3\0\0\0\21", 25),
        S("25 with 2 to 6", "\1\0\1u" "\2\0\4\0\0\0\0" "\3\0\1\3" "\4\0\3\0\0a" "\5\0\1u", 25),
        /* 22, behind these and before 1 to 6 */
        S("no byte", "", 22),
        S("letters alone", LETTERS_FIELD, 22),
        S("bounds alone", BOUNDS_FIELD, 22),
        S("exceptions alone", "\4\0\0", 22),
        S("no letters", BOUNDS_FIELD TABLE_FIELD, 22),
        S("no bounds", LETTERS_FIELD TABLE_FIELD, 22),
        S("no table", LETTERS_FIELD BOUNDS_FIELD, 22),
        S("no table, exceptions", LETTERS_FIELD BOUNDS_FIELD "\4\0\0", 22),
        S("no table, empty letters", "\1\0\0" BOUNDS_FIELD, 22),
        S("no letters, 23", BOUNDS_FIELD "\3\0\0", 23),
        S("no letters, 20", BOUNDS_FIELD "\3", 20),
        S("no letters, 21", BOUNDS_FIELD TABLE_FIELD "\3", 21),
        /* 1 to 6 */
        S("empty letters", "\1\0\0" BOUNDS_FIELD TABLE_FIELD, 1),
        S("empty letters, bounds of 0, table 3", "\1\0\0" "\2\0\4\0\0\0\0" "\3\0\1\3", 1),
        S("a lower-case letter", "\1\0\6ATGtAA" "\2\0\4\0\1\0\6" TABLE_FIELD, 2),
        S("a letter U, bounds of 0", "\1\0\6AUGTAA" "\2\0\4\0\0\0\0" TABLE_FIELD, 2),
        S("ce past L", "\1\0\6ATGTAA" "\2\0\4\0\1\0\11" TABLE_FIELD, 3),
        S("bounds of 0", LETTERS_FIELD "\2\0\4\0\0\0\0" TABLE_FIELD, 3),
        S("bounds of 65,535", LETTERS_FIELD "\2\0\4\377\377\377\377" TABLE_FIELD, 3),
        S("bounds low byte first", LETTERS_FIELD "\2\0\4\3\0\21\0" TABLE_FIELD, 3),
        S("ce, then cs", LETTERS_FIELD "\2\0\4\0\21\0\3" TABLE_FIELD, 3),
        S("bounds of 0, table 3", LETTERS_FIELD "\2\0\4\0\0\0\0" "\3\0\1\3", 3),
        S("table 3", LETTERS_FIELD BOUNDS_FIELD "\3\0\1\3", 4),
        S("table 255", LETTERS_FIELD BOUNDS_FIELD "\3\0\1\377", 4),
        S("table 3, codon 0", LETTERS_FIELD BOUNDS_FIELD "\3\0\1\3" "\4\0\3\0\0A", 4),
        S("codon 0", ALL_FIELDS "\4\0\3\0\0A", 5),
        S("codon 6 of 5", ALL_FIELDS "\4\0\3\0\6A", 5),
        S("codon low byte first", ALL_FIELDS "\4\0\3\2\0A", 5),
        S("codon twice", ALL_FIELDS "\4\0\6\0\2A\0\2A", 5),
        S("residue a", ALL_FIELDS "\4\0\3\0\2a", 5),
        S("seventeen exceptions", ALL_FIELDS "\4\0\63" SEVENTEEN, 5),
        S("codon 0, no stop", "\1\0\6ATGAAA" "\2\0\4\0\1\0\6" TABLE_FIELD "\4\0\3\0\0A", 5),
        S("no stop", "\1\0\6ATGAAA" "\2\0\4\0\1\0\6" TABLE_FIELD, 6),
        S("stop away by exception", ALL_FIELDS "\4\0\3\0\5W", 6),
        S("TGA in table 1", "\1\0\6ATGTGA" "\2\0\4\0\1\0\6" "\3\0\1\1", 6),
        /* tag 8: cut off */
        S("tag 8 alone", "\10", 20),
        S("a last byte 8", SIX_FIELDS "\10", 20),
        S("two bytes of tag 8", SIX_FIELDS "\10\0", 20),
        S("tag 8 of one byte, none left", SIX_FIELDS "\10\0\1", 20),
        S("tag 8 of two bytes, one left", SIX_FIELDS "\10\0\2\1", 20),
        S("tag 8's length low byte first", SIX_FIELDS "\10\1\0\1", 20),
        /* its length and its content */
        S("tag 8 of no byte", SIX_FIELDS "\10\0\0", 23),
        S("tag 8 of two bytes", SIX_FIELDS "\10\0\2\1\1", 23),
        S("tag 8 of two bytes, high byte 0", SIX_FIELDS "\10\0\2\0\1", 23),
        S("tag 8 of three bytes", SIX_FIELDS "\10\0\3\1\1\1", 23),
        S("tag 8 is 0 where there is a stop", ALL_FIELDS "\10\0\1\0", 23),
        S("tag 8 is 3, empty letters", "\1\0\0" BOUNDS_FIELD TABLE_FIELD "\10\0\1\3", 23),
        S("tag 8 is 0, no table", LETTERS_FIELD BOUNDS_FIELD "\10\0\1\0", 23),
        S("tag 8 is 0, then 21", SIX_FIELDS "\10\0\1\0" "\10", 23),
        /* its place */
        S("tag 8 twice", SIX_FIELDS NO_STOP_FIELD NO_STOP_FIELD, 21),
        S("tag 8 twice, the second 0", SIX_FIELDS NO_STOP_FIELD "\10\0\1\0", 21),
        S("tag 4 behind tag 8", SIX_FIELDS NO_STOP_FIELD "\4\0\0", 21),
        S("tag 8 first", NO_STOP_FIELD SIX_FIELDS, 21),
        S("tag 8 before table", "\1\0\6ATGGCC" "\2\0\4\0\1\0\6" NO_STOP_FIELD TABLE_FIELD, 21),
        S("tag 5 behind table", SIX_FIELDS "\5\0\1\1", 25),
        S("tag 6 behind table", SIX_FIELDS "\6\0\1\1", 25),
        S("tag 7 behind table", SIX_FIELDS "\7\0\1\1", 23),
        S("tag 9 behind table", SIX_FIELDS "\11\0\1\1", 21),
        S("tag 5 before tag 8", SIX_FIELDS "\5\0\1C" NO_STOP_FIELD, 25),
        S("tag 6 before tag 8", SIX_FIELDS "\6\0\1C" NO_STOP_FIELD, 25),
        S("tag 7 before tag 8", SIX_FIELDS "\7\0\10\0\0\0\1\0\0\0\6" NO_STOP_FIELD, 25),
        S("tag 7 behind tag 8", SIX_FIELDS NO_STOP_FIELD "\7\0\10\0\0\0\1\0\0\0\6", 21),
        S("an empty tag 5 before tag 8", SIX_FIELDS "\5\0\0" NO_STOP_FIELD, 23),
        S("tag 9 behind tag 8", SIX_FIELDS NO_STOP_FIELD "\11\0\0", 21),
        S("tag 5, ATGTAA", "\1\0\6ATGTAA" "\2\0\4\0\1\0\6" TABLE_FIELD "\5\0\0", 23),
        S("a zero byte behind tag 8", SIX_FIELDS NO_STOP_FIELD "\0", 21),
        /* behind 22, and by the end */
        S("tag 8, nothing else", NO_STOP_FIELD, 22),
        S("tag 8, no letters", BOUNDS_FIELD TABLE_FIELD NO_STOP_FIELD, 22),
        S("tag 8, no bounds", LETTERS_FIELD TABLE_FIELD NO_STOP_FIELD, 22),
        S("tag 8, no table", LETTERS_FIELD BOUNDS_FIELD NO_STOP_FIELD, 22),
        S("tag 8, empty letters", "\1\0\0" BOUNDS_FIELD TABLE_FIELD NO_STOP_FIELD, 1),
        S("tag 8, a letter U", "\1\0\6ATGUCC" "\2\0\4\0\1\0\6" TABLE_FIELD NO_STOP_FIELD, 2),
        S("whole codons, tag 8 is 2", SIX_FIELDS CUT_CODON_FIELD, 3),
        S("a cut codon, tag 8 is 1", SEVEN_FIELDS NO_STOP_FIELD, 3),
        S("a cut codon, no tag 8", SEVEN_FIELDS, 3),
        S("five bases, tag 8 is 2", "\1\0\5ATGGC" "\2\0\4\0\1\0\5" TABLE_FIELD CUT_CODON_FIELD, 3),
        S("table 3, tag 8", "\1\0\6ATGTAA" "\2\0\4\0\1\0\6" "\3\0\1\3" NO_STOP_FIELD, 4),
        S("an exception of the cut codon", SEVEN_FIELDS "\4\0\3\0\3K" CUT_CODON_FIELD, 5),
        S("an exception of codon 3 of 2, two stops", "\1\0\6TAATAA" "\2\0\4\0\1\0\6" TABLE_FIELD "\4\0\3\0\3K" NO_STOP_FIELD, 5),
        S("no stop, no tag 8", SIX_FIELDS, 6),
        S("no stop, an empty tag 4, no tag 8", SIX_FIELDS "\4\0\0", 6),
        S("a stop, tag 8", "\1\0\6ATGTAA" "\2\0\4\0\1\0\6" TABLE_FIELD NO_STOP_FIELD, 28),
        S("a stop by exception, tag 8", SIX_FIELDS "\4\0\3\0\2*" NO_STOP_FIELD, 28),
        S("a stop within, tag 8 is 2", "\1\0\7ATGTAAC" "\2\0\4\0\1\0\7" TABLE_FIELD CUT_CODON_FIELD, 28),
        S("letters behind the CDS, tag 8", ALL_FIELDS NO_STOP_FIELD, 28),
        S("letters behind a cut codon", "\1\0\10ATGGCCAA" "\2\0\4\0\1\0\7" TABLE_FIELD CUT_CODON_FIELD, 28),
    };
#undef S
    for (size_t i = 0; i < sizeof all / sizeof *all; i++) stored_refused(all[i].name, all[i].data, all[i].len, all[i].refusal);
}

/* Forms with tag 8 that are read. */
static void stored_ends(void)
{
    static const char six[] = SIX_FIELDS NO_STOP_FIELD, empty[] = SIX_FIELDS "\4\0\0" NO_STOP_FIELD, seven[] = SEVEN_FIELDS CUT_CODON_FIELD,
                      excepted[] = "\1\0\7ATGTAAC" "\2\0\4\0\1\0\7" TABLE_FIELD "\4\0\6\0\1U\0\2K" CUT_CODON_FIELD;
    static const struct garumbott_stored no_stop = {.cs = 1, .ce = 6, .letters_at = 3, .letters_len = 6, .end = GARUMBOTT_END_NO_STOP},
                                         cut_codon = {.cs = 1, .ce = 7, .letters_at = 3, .letters_len = 7, .end = GARUMBOTT_END_CUT_CODON};
    struct garumbott_stored no_exceptions = no_stop, two = cut_codon;
    no_exceptions.exceptions_at = 23;
    two.exceptions_at = 24;
    two.exceptions_len = 6;
    stored_case("tag 8 is 1", six, sizeof six - 1, &no_stop);
    stored_case("tag 8 is 1, behind an empty tag 4", empty, sizeof empty - 1, &no_exceptions);
    stored_case("tag 8 is 2", seven, sizeof seven - 1, &cut_codon);
    stored_case("tag 8 is 2, behind two exceptions", excepted, sizeof excepted - 1, &two);

    /* what is read is what garumbott_record_of takes */
    struct garumbott_stored got = garumbott_read_stored(bytes(excepted), sizeof excepted - 1, NULL, 0);
    struct garumbott_reference r = garumbott_reference_at(&got, bytes(excepted), NULL);
    struct garumbott_coding_edit edit = ONE_NEW(SUBSTITUTION, 7, "G");
    uint8_t t[7], p[3], a[3];
    struct garumbott_buffers b = {t, sizeof t, p, sizeof p, a, sizeof a};
    struct garumbott_answer want = {.answer = GARUMBOTT_SILENT, .transcript_len = 7, .reference_len = 3, .altered_len = 3, .number = 3, .deleted_at = 2,
                                    .deleted_len = 1, .inserted_at = 2, .inserted_len = 1, .codons = 2},
                            answer = garumbott_record_of(&r, &edit, &b);
    check(r.end == 2 && same(&answer, &want) && memcmp(t, "ATGTAAG", 7) == 0 && memcmp(p, "UKX", 3) == 0 && memcmp(a, "UKX", 3) == 0, "tag 8", "garumbott_reference_at");

    /* cut behind each byte: without the last field it's the stop that is missing, or whole codons */
    for (size_t n = 0; n < sizeof empty - 1; n++)
        stored_refused("tag 8 cut", empty, n, n == 0 || n == 9 || n == 16 ? 22 : n == 20 || n == 23 ? 6 : 20);
    for (size_t n = 0; n < sizeof excepted - 1; n++)
        stored_refused("tag 8 cut", excepted, n, n == 0 || n == 10 || n == 17 ? 22 : n == 21 || n == 30 ? 3 : 20);

    /* every content, and every tag in its place */
    for (int i = 0; i < 256; i++) {
        char name[32], form[sizeof six], other[sizeof seven];
        snprintf(name, sizeof name, "tag 8 is %d", i);
        memcpy(form, six, sizeof six);
        memcpy(other, seven, sizeof seven);
        form[sizeof six - 2] = other[sizeof seven - 2] = (char)i;
        if (i == 1) stored_case(name, form, sizeof form - 1, &no_stop);
        else stored_refused(name, form, sizeof form - 1, i == 2 ? 3 : 23);
        if (i == 2) stored_case(name, other, sizeof other - 1, &cut_codon);
        else stored_refused(name, other, sizeof other - 1, i == 1 ? 3 : 23);
        snprintf(name, sizeof name, "tag %d for 8", i);
        memcpy(form, six, sizeof six);
        form[sizeof six - 5] = (char)i;
        if (i != 8) stored_refused(name, form, sizeof form - 1, i == 4 || i == 7 ? 23 : i == 5 || i == 6 ? 25 : 21);
    }
}

static void stored(void)
{
    static const char plain[] = ALL_FIELDS, empty[] = ALL_FIELDS "\4\0\0", excepted[] = ALL_FIELDS "\4\0\6\0\2U\0\5*";
    static const struct garumbott_stored good = {.cs = 3, .ce = 17, .letters_at = 3, .letters_len = 23};
    struct garumbott_stored got = garumbott_read_stored(NULL, 0, NULL, 0), none = {.refusal = 22}, want = good;
    check(same_stored(&got, &none), "NULL stored", "read_stored's answer");
    fences = small;
    stored_refusals();
    stored_ends();
    fences = large;
    stored_case("the example", plain, sizeof plain - 1, &good);
    want.exceptions_at = 40;
    stored_case("an empty tag 4", empty, sizeof empty - 1, &want);
    want.exceptions_len = 6;
    stored_case("two exceptions", excepted, sizeof excepted - 1, &want);

    /* cut behind each byte */
    for (size_t n = 0; n < sizeof excepted - 1; n++) {
        char name[32];
        snprintf(name, sizeof name, "cut behind byte %zu", n);
        if (n == sizeof plain - 1) stored_case(name, excepted, n, &good);
        else stored_refused(name, excepted, n, n == 0 || n == 26 || n == 33 ? 22 : 20);
    }

    /* every byte for the first tag, and for the last */
    for (int tag = 0; tag < 256; tag++) {
        char name[32], form[sizeof excepted];
        snprintf(name, sizeof name, "tag %d", tag);
        memcpy(form, excepted, sizeof form);
        form[0] = (char)tag;
        if (tag != 1) stored_refused(name, form, sizeof form - 1, (tag > 1 && tag < 5) || tag == 7 || tag == 8 ? 23 : 21);
        form[0] = 1;
        form[37] = (char)tag;
        if (tag != 4) stored_refused(name, form, sizeof form - 1, tag == 7 || tag == 8 ? 23 : tag == 5 || tag == 6 ? 25 : 21);
    }

    /* lengths: sixteen and seventeen exceptions, 16,384 letters, one more, and as many as a length can say */
    static uint8_t form[LONGEST_FORM], many[FULL], seventeen[51];
    for (uint8_t i = 0; i < 17; i++) {
        seventeen[3 * i] = 0;
        seventeen[3 * i + 1] = (uint8_t)(i + 2);
        seventeen[3 * i + 2] = 'U';
    }
    struct garumbott_reference r = longest_reference();
    r.exceptions = seventeen;
    r.exceptions_len = 48;
    want = (struct garumbott_stored){.cs = 1, .ce = 16383, .letters_at = 3, .letters_len = TEXT_LONGEST, .exceptions_at = TEXT_LONGEST + 17, .exceptions_len = 48};
    stored_case("16,384 letters and sixteen exceptions", form, store(form, &r), &want);
    r.exceptions_len = 51;
    stored_refused("16,384 letters and seventeen exceptions", form, store(form, &r), 5);
    r.letters_len++;
    stored_refused("16,385 letters with tag 2, and seventeen exceptions", form, store_by(form, &r, 2), 25);
    stored_refused("16,385 letters with tag 7, and seventeen exceptions", form, store_by(form, &r, 7), 5);
    r.exceptions_len = 48;
    want = (struct garumbott_stored){.cs = 1, .ce = 16383, .letters_at = 3, .letters_len = TEXT_LONGEST + 1, .exceptions_at = TEXT_LONGEST + 11, .exceptions_len = 48};
    stored_case("16,385 letters with tag 7", form, store_by(form, &r, 7), &want);
    r.letters_len--;
    stored_refused("16,384 letters with tag 7", form, store_by(form, &r, 7), 25);
    memset(many, 'A', sizeof many);
    r.letters = many;
    r.letters_len = sizeof many;
    r.exceptions_len = 0;
    stored_refused("65,535 letters with tag 2", form, store_by(form, &r, 2), 25);
    stored_refused("65,535 letters A with tag 7", form, store_by(form, &r, 7), 6);
    uint8_t *to = form;
    put_field(&to, 1, many, sizeof many);
    stored_refused("65,535 letters alone", form, (size_t)(to - form), 22);
    stored_refused("65,535 letters less one", form, (size_t)(to - form) - 1, 20);
}

/* ---- byte strings ------------------------------------------------------------------------------------------------------------------ */

enum entry { TRANSLATE, COMPLEMENT, NAMES3, NAMES1, RUN };

static struct garumbott_length call(enum entry entry, const uint8_t *in, uint64_t len, uint64_t table, uint64_t full, const uint8_t *x,
                                    uint64_t x_len, uint8_t *out, uint64_t room)
{
    switch (entry) {
    case TRANSLATE: return garumbott_translate(in, len, table, full, x, x_len, out, room);
    case COMPLEMENT: return garumbott_complement(in, len, out, room);
    case NAMES3: return garumbott_names3(in, len, out, room);
    case RUN: return garumbott_run(in, len, out, room);
    default: return garumbott_names1(in, len, out, room);
    }
}

/* With the room given, and, where the answer is bytes, with a byte too little. */
static void plain_case(enum entry entry, const char *name, const uint8_t *in, uint64_t len, uint64_t table, uint64_t full, const uint8_t *x,
                       uint64_t x_len, uint64_t room, uint64_t refusal, const void *want, size_t want_len)
{
    for (int side = FENCE_END; side <= FENCE_START; side++) {
        const uint8_t *s = lend(LETTERS, side, in, len), *e = lend(EXCEPTIONS, side, x, x_len);
        uint8_t *out = fence_fill(&fences[TRANSCRIPT], side, NULL, room);
        struct garumbott_length got = call(entry, s, len, table, full, e, x_len, out, room);
        check(got.refusal == refusal && got.len == want_len, name, "answer");
        check(fence_check(&fences[TRANSCRIPT], want, want_len), name, "output");
        if (refusal == 0 && want_len != 0) {
            out = fence_fill(&fences[TRANSCRIPT], side, NULL, want_len - 1);
            got = call(entry, s, len, table, full, e, x_len, out, want_len - 1);
            check(got.refusal == 15 && got.len == 0, name, "answer with a byte too little");
            check(fence_check(&fences[TRANSCRIPT], "", 0), name, "output with a byte too little");
        }
        if (in != NULL) check(fence_check(&fences[LETTERS], NULL, 0), name, "input changed");
        if (x != NULL) check(fence_check(&fences[EXCEPTIONS], NULL, 0), name, "exceptions changed");
    }
}

struct plain {
    enum entry entry;
    const char *in;
    size_t len;
    uint64_t table, full;
    const char *x;
    size_t x_len, room;
    uint64_t refusal;
    const char *want;
};

#define T(s, table, full, x, room, refusal, want) {TRANSLATE, s, sizeof(s) - 1, table, full, x, sizeof(x) - 1, room, refusal, want}
#define P(entry, s, room, refusal, want) {entry, s, sizeof(s) - 1, 0, 0, NULL, 0, room, refusal, want}

static void plain(void)
{
    static const struct plain all[] = {
        T("ATGGCCAAATGGTAA", 0, 0, "", 5, 0, "MAKW*"),
        T("atggccaaauggUAA", 0, 1, "", 9, 0, "MAKW*"),
        T("TGATGGATAAGAAGG", 0, 0, "", 5, 0, "*WIRR"),
        T("TGATGGATAAGAAGG", 1, 0, "", 5, 0, "UWIRR"),
        T("TGATGGATAAGAAGG", 2, 0, "", 5, 0, "WWM**"),
        T("TARMGRRAYATHNNN", 0, 0, "", 5, 0, "*RBIX"),
        T("GCNyarBAC", 0, 0, "", 3, 0, "AXX"),
        T("ATGA", 0, 0, "", 2, 0, "MX"),
        T("ATG-", 0, 0, "", 2, 0, "MX"),
        T("ATG--", 0, 0, "", 2, 0, "MX"),
        T("", 0, 0, "", 0, 0, ""),
        T("", 0, 1, "", 4, 0, ""),
        T("", 3, 0, "", 4, 4, ""),
        T("ATG", UINT64_C(1) << 32, 0, "", 1, 4, ""),
        T("ATG", 3, 0, "\0", 1, 4, ""),
        T("ATG", 0, 0, "\0", 1, 5, ""),
        T("ATGA", 0, 1, "\0\1", 0, 5, ""),
        T("ATG", 0, 0, "\0\0A", 1, 5, ""),
        T("ATG", 0, 0, "\0\1a", 1, 5, ""),
        T("ATG", 0, 0, SEVENTEEN, 1, 5, ""),
        T("ATGAAA", 0, 0, "\0\2U", 2, 0, "MU"),
        T("ATGAAA", 0, 0, "\2\0U", 2, 0, "MK"),
        T("ATGAAA", 0, 0, "\0\2U\0\1A\0\2*", 2, 0, "A*"),
        T("ATGAAAC", 0, 0, "\0\3U", 3, 0, "MKX"),
        T("ATGA", 0, UINT64_C(1) << 63, "", 0, 14, ""),
        T("ATGA", 0, 1, "", 9, 14, ""),
        T("A-G", 0, 0, "", 0, 15, ""),
        T("A-G", 0, 0, "", 1, 2, ""),
        T("A-G", 0, 0, "\0\1A", 1, 2, ""),
        T("ATGAT\0", 0, 0, "", 2, 2, ""),
        P(COMPLEMENT, "ACGTRYSWKMBDHVN", 15, 0, "NBDHVKMWSRYACGT"),
        P(COMPLEMENT, "", 0, 0, ""),
        P(COMPLEMENT, "AAC", 8, 0, "GTT"),
        P(COMPLEMENT, "AaC", 2, 15, ""),
        P(COMPLEMENT, "AaC", 3, 2, ""),
        P(COMPLEMENT, "AUC", 3, 2, ""),
        P(COMPLEMENT, "AC\377", 3, 2, ""),
        P(NAMES3, "ARNDCQEGHILKMFPSTWYVUXBZ*", 75, 0, "AlaArgAsnAspCysGlnGluGlyHisIleLeuLysMetPheProSerThrTrpTyrValSecXaaAsxGlxTer"),
        P(NAMES3, "", 0, 0, ""),
        P(NAMES3, "AJ", 6, 15, ""),
        P(NAMES3, "AO", 6, 15, ""),
        P(NAMES3, "Aa", 6, 15, ""),
        P(NAMES1, "AlaArgAsnAspCysGlnGluGlyHisIleLeuLysMetPheProSerThrTrpTyrValSecXaaAsxGlxTer", 25, 0, "ARNDCQEGHILKMFPSTWYVUXBZ*"),
        P(NAMES1, "", 0, 0, ""),
        P(NAMES1, "AlaA", 9, 15, ""),
        P(NAMES1, "AlaAr", 9, 15, ""),
        P(NAMES1, "Alaala", 9, 15, ""),
        P(NAMES1, "XlePyl", 9, 15, ""),
        P(NAMES1, "Al\0", 9, 15, ""),
    };
    static const char *const names[] = {"translate", "complement", "names3", "names1"};
    for (size_t i = 0; i < sizeof all / sizeof *all; i++) {
        const struct plain *c = &all[i];
        char name[200];
        snprintf(name, sizeof name, "%s %s", names[c->entry], c->in);
        plain_case(c->entry, name, bytes(c->in), c->len, c->table, c->full, bytes(c->x), c->x_len, c->room, c->refusal, c->want, strlen(c->want));
    }
    for (enum entry entry = TRANSLATE; entry <= NAMES1; entry++) {
        struct garumbott_length none = call(entry, NULL, 0, 0, 0, NULL, 0, NULL, 0);
        check(none.refusal == 0 && none.len == 0, names[entry], "NULL slices");
    }
    static uint8_t residues[10923], reversed[32768];
    memset(residues, 'A', sizeof residues);
    residues[0] = 'M';
    for (size_t i = 0; i < 32768; i++) doubled[i] = (uint8_t) "GCC"[i % 3], reversed[32767 - i] = (uint8_t) "CGG"[i % 3];
    memcpy(doubled, "ATG", 3);
    memcpy(reversed + 32765, "CAT", 3);
    residues[10922] = 'X';
    plain_case(TRANSLATE, "translate 32,768 letters", doubled, 32768, 0, 0, NULL, 0, 10923, 0, residues, 10923);
    plain_case(COMPLEMENT, "complement 32,768 letters", doubled, 32768, 0, 0, NULL, 0, 32768, 0, reversed, 32768);
}

/* The genetic codes by their names. */
static void tables(void)
{
    static const char codons[] = "TGAATAAGAAGGTAA", *const names[] = {"*IRR*", "UIRR*", "WM***"};
    static const uint64_t all[] = {GARUMBOTT_TABLE_STANDARD, GARUMBOTT_TABLE_SELENOCYSTEINE, GARUMBOTT_TABLE_VERTEBRATE_MITOCHONDRIAL};
    for (size_t i = 0; i < sizeof all / sizeof *all; i++)
        plain_case(TRANSLATE, names[i], bytes(codons), sizeof codons - 1, all[i], 1, NULL, 0, 5, 0, names[i], 5);
}

/* The prefix of two fenced strings, either first, as a plain loop counts it. */
static void prefix_case(const uint8_t *a, size_t m, const uint8_t *b, size_t n, const char *what)
{
    size_t i = 0;
    while (i < m && i < n && a[i] == b[i]) i++;
    check(garumbott_common_prefix(a, m, b, n) == i && garumbott_common_prefix(b, n, a, m) == i, "common prefix", what);
}

/* Every pair of strings of up to three letters over two letters. */
static void prefixes_of_two_letters(enum fence_side side)
{
    static const char *const all[] = {"", "A", "B", "AA", "AB", "BA", "BB", "AAA", "AAB", "ABA", "ABB", "BAA", "BAB", "BBA", "BBB"};
    for (size_t i = 0; i < sizeof all / sizeof *all; i++) {
        for (size_t j = 0; j < sizeof all / sizeof *all; j++) {
            size_t m = strlen(all[i]), n = strlen(all[j]);
            prefix_case(fence_fill(&fences[LETTERS], side, all[i], m), m, fence_fill(&fences[BASES], side, all[j], n), n, "two letters");
        }
    }
}

/* Strings of 0 to 130 bytes: equal, cut at each place, and with each bit of each byte turned. */
static void prefixes_of_lengths(enum fence_side side)
{
    uint8_t s[130];
    for (size_t i = 0; i < sizeof s; i++) s[i] = (uint8_t)(i * 37 + 11);
    for (size_t len = 0; len <= sizeof s; len++) {
        const uint8_t *a = fence_fill(&fences[LETTERS], side, s, len);
        uint8_t *b = fence_fill(&fences[BASES], side, s, len);
        prefix_case(a, len, b, len, "equal");
        for (size_t i = 0; i < len; i++) {
            prefix_case(a, len, b, i, "cut");
            for (unsigned bit = 1; bit < 256; bit *= 2) {
                b[i] ^= (uint8_t)bit;
                prefix_case(a, len, b, len, "one bit");
                b[i] = s[i];
            }
        }
        check(fence_check(&fences[LETTERS], NULL, 0) && fence_check(&fences[BASES], NULL, 0), "common prefix", "input changed");
    }
}

static void trims(void)
{
    static const struct {
        const char *a, *b;
        uint64_t prefix, suffix;
    } all[] = {
        {"", "", 0, 0}, {"A", "", 0, 0}, {"", "A", 0, 0}, {"A", "A", 1, 1}, {"A", "C", 0, 0}, {"MAKW*", "MARW*", 2, 2},
        {"MA", "MAMA", 2, 2}, {"MAMA", "MA", 2, 2}, {"AAAA", "AAA", 3, 3}, {"ABC", "XBC", 0, 2}, {"ABC", "ABX", 2, 0}, {"Aa", "aA", 0, 0},
        {"ABCDEFGH", "ABCDEFGX", 7, 0}, {"ABCDEFGHI", "ABCDEFGH", 8, 0},
    };
    for (size_t i = 0; i < sizeof all / sizeof *all; i++) {
        size_t m = strlen(all[i].a), n = strlen(all[i].b);
        for (int side = FENCE_END; side <= FENCE_START; side++) {
            const uint8_t *a = fence_fill(&fences[LETTERS], side, all[i].a, m), *b = fence_fill(&fences[BASES], side, all[i].b, n);
            check(garumbott_common_prefix(a, m, b, n) == all[i].prefix, all[i].a, "common prefix");
            check(garumbott_common_suffix(a, m, b, n) == all[i].suffix, all[i].a, "common suffix");
            check(garumbott_common_prefix(a, m, a, m) == m && garumbott_common_suffix(a, m, a, m) == m, all[i].a, "with itself");
            check(fence_check(&fences[LETTERS], NULL, 0) && fence_check(&fences[BASES], NULL, 0), all[i].a, "input changed");
        }
    }
    check(garumbott_common_prefix(NULL, 0, NULL, 0) == 0 && garumbott_common_suffix(NULL, 0, NULL, 0) == 0, "trims", "NULL slices");
    check(garumbott_common_prefix(NULL, 0, bytes("A"), 1) == 0 && garumbott_common_suffix(bytes("A"), 1, NULL, 0) == 0, "trims", "one NULL slice");
    fences = small;
    for (int side = FENCE_END; side <= FENCE_START; side++) {
        prefixes_of_two_letters((enum fence_side)side);
        prefixes_of_lengths((enum fence_side)side);
    }
    fences = large;
}

/* The text program over memory. */
static void text(void)
{
    static const struct {
        const char *name, *input, *output;
    } all[] = {
        {"no bytes", "", ""},
        {"a line feed", "\n", "refused 30\n"},
        {"document 01's lines", "ref 3 17 0 GGATGGCCAAATGGTAACCTGAC\n8A>G\n5del\n4_6dup\n12G>A\n13T>C\n6C>T\n4_6inv\n1A>G\n9_10insTAGC\n1_*6del\n1_*7del\n16del\n",
         "reference MAKW*\nsubstitution 3 K R\nframeshift 3 KW* NGNLX\nduplication 3 - A 2\nstop-gained 4 W -\nextension 5 * QPD\nsilent 2 A A\n"
         "substitution 2 A G\nstart-lost 1 M V\nstop-gained 4 W -\nno-protein\nunknown\nrefused 7\n"},
        {"a last line without a line feed", "ref 1 6 0 ATGTAA\n1=", "reference M*\nsilent 1 M M\n"},
        {"empty lines", "ref 1 6 0 ATGTAA\n\n\n1=\n", "reference M*\nrefused 30\nrefused 30\nsilent 1 M M\n"},
        {"a refused first line", "ref 1 6 3 ATGTAA\n1=\n", "refused 4\n"},
        {"no end can be stated: no stop", "ref 1 6 0 ATGGCC\n1=\n", "refused 6\n"},
        {"no end can be stated: a cut codon", "ref 1 7 0 ATGGCCA\n1=\n", "refused 3\n"},
        {"no first line", "1=\n1=\n", "refused 30\n"},
        {"another base named", "ref 3 17 0 GGATGGCCAAATGGTAACCTGAC\n8T>G\n8Z>G\n", "reference MAKW*\nsubstitution 3 K R\nsubstitution 3 K R\n"},
        {"carriage returns", "ref 1 6 0 ATGTAA\n1=\r\n1=\n", "reference M*\nrefused 30\nsilent 1 M M\n"},
        {"a carriage return in the first line", "ref 1 6 0 ATGTAA\r\n1=\r\n", "refused 30\n"},
    };
    for (size_t i = 0; i < sizeof all / sizeof *all; i++)
        plain_case(RUN, all[i].name, (const uint8_t *)all[i].input, strlen(all[i].input), 0, 0, NULL, 0, strlen(all[i].output), 0, all[i].output, strlen(all[i].output));
    struct garumbott_length none = garumbott_run(NULL, 0, NULL, 0);
    check(none.refusal == 0 && none.len == 0, "run", "NULL");
    /* the text program keeps 16,384 */
    static uint8_t line[TEXT_LONGEST + 32];
    for (size_t n = TEXT_LONGEST; n <= TEXT_LONGEST + 1; n++) {
        const char *answer = n == TEXT_LONGEST ? "reference M*\nsilent 1 M M\n" : "refused 1\n";
        memset(line, 'C', sizeof line);
        memcpy(line, "ref 1 6 0 ATGTAA", 16);
        memcpy(line + 10 + n, "\n1=\n", 4);
        plain_case(RUN, n == TEXT_LONGEST ? "a line of 16,384 letters" : "a line of 16,385 letters", line, 14 + n, 0, 0, NULL, 0, strlen(answer), 0, answer, strlen(answer));
    }
}

/* NULL for every slice of length 0. */
static void nulls(void)
{
    struct garumbott_reference none = {0};
    struct garumbott_coding_edit edit = {0}, whole = STAR(IDENTITY, 1, 1), in = TWO_NEW(INSERTION, 3, 4, "A"), near_start = ONE(DELETION, 1), near_end = ONE(DELETION, 15);
    struct garumbott_buffers buffers = {0};
    struct garumbott_answer a = garumbott_record_of(&none, &edit, &buffers), one = {.refusal = 1}, unknown = {.answer = 1}, eleven = {.refusal = 11};
    check(same(&a, &one), "NULL everywhere", "record");
    a = garumbott_edit_of(&none, &edit, &buffers);
    check(same(&a, &one), "NULL everywhere", "edit");
    a = garumbott_record_of(&SHORT, &whole, &buffers);
    check(same(&a, &unknown), "NULL buffers", "record, Unknown");
    a = garumbott_edit_of(&SHORT, &whole, &buffers);
    check(same(&a, &unknown), "NULL buffers", "edit, Unknown");
    a = garumbott_record_of(&SHORT, &in, &buffers);
    check(same(&a, &eleven), "NULL buffers", "record");
    a = garumbott_edit_of(&SHORT, &in, &buffers);
    check(same(&a, &eleven), "NULL buffers", "edit");
    check(garumbott_check_of(&none, &edit, 0, NULL, 0, NULL, 0, &buffers).refusal == 1, "NULL everywhere", "check");
    check(garumbott_check_of(&SHORT, &whole, 0, NULL, 0, NULL, 0, &buffers).refusal == 26, "NULL buffers", "check, Unknown");
    check(garumbott_check_of(&SHORT, &in, 0, NULL, 0, NULL, 0, &buffers).refusal == 11, "NULL buffers", "check");
    check(garumbott_pair_of(&none, &edit, &edit, &buffers).refusal == 1, "NULL everywhere", "pair");
    check(garumbott_pair_of(&SHORT, &in, &whole, &buffers).refusal == 51, "NULL buffers", "pair that touches");
    check(garumbott_pair_of(&W, &near_start, &near_end, &buffers).refusal == 11, "NULL buffers", "pair");
    check(garumbott_write_stored_of(&none, NULL, 0).refusal == 1, "NULL everywhere", "write_stored");
    check(garumbott_write_stored_of(&SHORT, NULL, 0).refusal == GARUMBOTT_REFUSAL_STORED_ROOM, "NULL buffer", "write_stored");
    check(garumbott_panel_of(&none, &edit, 0, &buffers).refusal == 1, "NULL everywhere", "panel");
    check(garumbott_panel_of(&SHORT, &in, 0, &buffers).refusal == 42, "NULL buffers", "panel");
    edit.longest = 4097;
    check(garumbott_record_of(&none, &edit, &buffers).refusal == 62 && garumbott_edit_of(&none, &edit, &buffers).refusal == 62, "62 before 1", "record and edit");
    check(garumbott_panel_of(&none, &edit, 0, &buffers).refusal == 62, "62 before 1", "panel");
    check(garumbott_check_of(&none, &edit, 0, NULL, 0, NULL, 0, &buffers).refusal == 62, "62 before 1", "check");
    check(garumbott_pair_of(&none, &edit, &in, &buffers).refusal == 62 && garumbott_pair_of(&none, &in, &edit, &buffers).refusal == 62, "62 before 1", "pair");
    check(garumbott_read_settings(2, NULL, 0).refusal == 60, "NULL", "read_settings");
    check(garumbott_write_settings(1, 0, 1, 3, 4096, NULL, 0).refusal == 63, "NULL", "write_settings");
    check(garumbott_compare_of(&none, &none, NULL, 0).refusal == 1, "NULL everywhere", "compare");
    check(garumbott_compare_of(&SHORT, &none, NULL, 0).refusal == GARUMBOTT_OF_SECOND + 1, "NULL, the second", "compare");
    check(garumbott_compare_of(&SHORT, &W, NULL, 0).refusal == GARUMBOTT_REFUSAL_LIST, "NULL buffer", "compare");
    check(garumbott_compare_of(&SHORT, &SHORT, NULL, 0).refusal == 0, "NULL buffer, no difference", "compare");
}

/* Slices that are only read may overlap: new bases that stand in the letters, a proposal in one string, or in the letters too. */
static void overlaps(void)
{
    struct garumbott_coding_edit in = {.kind = GARUMBOTT_INSERTION, .start = 3, .end = 4, .bases = SELENO.letters + 6, .bases_len = 3};
    struct garumbott_answer want = {.answer = GARUMBOTT_CHANGED, .transcript_len = 15, .reference_len = 4, .altered_len = 5,
                                    .change = GARUMBOTT_CHANGE_INSERTION, .number = 2, .deleted_at = 1, .inserted_at = 1, .inserted_len = 1, .codons = 5},
                            want_alone = alone(&want);
    uint8_t t[15], p[4], a[5];
    struct garumbott_buffers b = {t, sizeof t, p, sizeof p, a, sizeof a};
    struct garumbott_answer got = garumbott_record_of(&SELENO, &in, &b), got_alone = garumbott_edit_of(&SELENO, &in, &b);
    check(same(&got, &want) && same(&got_alone, &want_alone), "bases in the letters", "answer");
    check(memcmp(t, "ATGAAATGAAAATAA", 15) == 0 && memcmp(p, "MUK*", 4) == 0 && memcmp(a, "MKUK*", 5) == 0, "bases in the letters", "what is written");
    check(garumbott_common_suffix(SELENO.letters, 12, SELENO.letters + 6, 6) == 6, "trims", "one slice within the other");
    const uint8_t *all = bytes("MUKMKUK");
    struct garumbott_checked yes_no = {.replays = 1, .transcript_len = 15, .reference_len = 4, .altered_len = 5}, no_no = yes_no,
                             checked = garumbott_check_of(&SELENO, &in, 1, all, 3, all + 3, 4, &b);
    check(memcmp(&checked, &yes_no, sizeof yes_no) == 0, "a proposal in one string", "answer");
    checked = garumbott_check_of(&SELENO, &in, 2, all + 1, 2, all + 1, 2, &b);
    no_no.replays = 0;
    check(memcmp(&checked, &no_no, sizeof no_no) == 0, "the same residues deleted and inserted", "answer");
    checked = garumbott_check_of(&SELENO, &in, 2, SELENO.letters, 3, in.bases, 3, &b);
    check(memcmp(&checked, &no_no, sizeof no_no) == 0, "a proposal in the letters", "answer");
}

/* ---- threads and stack ------------------------------------------------------------------------------------------------------------- */

/* One of document 01's lines over and over, in buffers of its own. */
static void *many_calls(void *given)
{
    static const struct garumbott_coding_edit edit = TWO(DUPLICATION, 4, 6);
    static const struct garumbott_answer want = {.answer = 4, .transcript_len = 26, .reference_len = 5, .altered_len = 6, .change = 7, .number = 3,
                                                 .deleted_at = 2, .inserted_at = 2, .inserted_len = 1, .first = 2, .codons = 1};
    uint8_t t[32], r[8], a[16];
    struct garumbott_buffers b = {t, sizeof t, r, sizeof r, a, sizeof a};
    unsigned long *wrong = given;
    for (int i = 0; i < 2000; i++) {
        memset(a, 0, sizeof a);
        struct garumbott_answer got = garumbott_record_of(&W, &edit, &b);
        if (!same(&got, &want) || memcmp(a, "MAAKW*", 6) != 0) ++*wrong;
        memset(a, 0, sizeof a);
        struct garumbott_checked first = garumbott_check_of(&W, &edit, 2, NULL, 0, bytes("A"), 1, &b);
        if (first.replays != 1 || first.shortest != 0 || first.altered_len != 6 || memcmp(a, "MAAKW*", 6) != 0) ++*wrong;
    }
    return NULL;
}

static void threads(void)
{
    pthread_t all[4];
    unsigned long wrong[4] = {0};
    for (int i = 0; i < 4; i++) {
        if (pthread_create(&all[i], NULL, many_calls, &wrong[i]) != 0) exit(2);
    }
    for (int i = 0; i < 4; i++) {
        pthread_join(all[i], NULL);
        check(wrong[i] == 0, "four threads", "an answer differs");
    }
}

static uint8_t on_t[GARUMBOTT_TRANSCRIPT_ROOM], on_r[GARUMBOTT_REFERENCE_ROOM], on_a[GARUMBOTT_ALTERED_ROOM];

static void *call_nothing(void *given)
{
    return given;
}

/* Of each kind: 131,072 letters, and 16,384, at a stop and cut short; and the same packed. */
enum { STACKED = 8 };
static struct garumbott_reference stacked[STACKED];

static void make_stacked(void)
{
    static uint8_t at_stop[GARUMBOTT_LONGEST], cut_short[GARUMBOTT_LONGEST];
    stacked[0] = library_reference(GARUMBOTT_END_STOP);
    memcpy(at_stop, all_letters, sizeof at_stop);
    stacked[0].letters = at_stop;
    stacked[1] = library_reference(GARUMBOTT_END_CUT_CODON);
    memcpy(cut_short, all_letters, sizeof cut_short);
    stacked[1].letters = cut_short;
    stacked[2] = longest_reference();
    stacked[3] = endless_reference();
    for (int i = 4; i < STACKED; i++) {
        static uint8_t packed[4][GARUMBOTT_PACKED_BYTES(GARUMBOTT_LONGEST)];
        struct garumbott_reference *r = &stacked[i];
        *r = stacked[i - 4];
        r->form = GARUMBOTT_FORM_PACKED;
        r->size = r->letters_len;
        r->letters_len = garumbott_pack(r->letters, r->size, packed[i - 4], sizeof packed[0]).len;
        r->letters = packed[i - 4];
        check(r->letters_len == GARUMBOTT_PACKED_BYTES(r->size), "stack", "letters not packed");
    }
}

static void *call_record(void *given)
{
    struct garumbott_buffers b = {on_t, sizeof on_t, on_r, sizeof on_r, on_a, sizeof on_a};
    for (int i = 0; i < STACKED; i++) garumbott_record_of(&stacked[i], given, &b);
    return NULL;
}

static void *call_panel(void *given)
{
    struct garumbott_buffers b = {on_t, sizeof on_t, on_r, sizeof on_r, on_a, sizeof on_a};
    for (int i = 0; i < STACKED; i++) garumbott_panel_of(&stacked[i], given, 'A', &b);
    return NULL;
}

/* The longest proposals of the edit's own record, and of all residues. */
static void *call_check(void *given)
{
    static uint8_t residues[GARUMBOTT_ALTERED_ROOM];
    struct garumbott_buffers b = {on_t, sizeof on_t, on_r, sizeof on_r, on_a, sizeof on_a};
    memset(residues, 'A', sizeof residues);
    for (int i = 0; i < STACKED; i++) {
        struct garumbott_reference excepted = stacked[i];
        excepted.exceptions = bytes("\0\2U\25\120U");
        excepted.exceptions_len = 6;
        garumbott_check_of(&stacked[i], given, 2, residues, 5000, residues, sizeof residues, &b);
        garumbott_check_of(&excepted, given, 3, residues, 5000, residues, 5000, &b);
    }
    return NULL;
}

static void *call_edit(void *given)
{
    struct garumbott_buffers b = {on_t, sizeof on_t, on_r, sizeof on_r, on_a, sizeof on_a};
    for (int i = 0; i < STACKED; i++) garumbott_edit_of(&stacked[i], given, &b);
    return NULL;
}

/* With an edit far behind it. */
static void *call_pair(void *given)
{
    static uint8_t room[GARUMBOTT_TRANSCRIPT_ROOM + GARUMBOTT_MOST_BASES];
    static const struct garumbott_coding_edit behind = TWO_NEW(DELINS, 16000, 16001, "ACGTN");
    struct garumbott_buffers b = {room, sizeof room, NULL, 0, on_a, sizeof on_a};
    for (int i = 0; i < STACKED; i++) {
        garumbott_pair_of(&stacked[i], given, &behind, &b);
        garumbott_pair_of(&stacked[i], &behind, given, &b);
    }
    return NULL;
}

/* Two that differ in each codon, cut short and with exceptions. */
static void *call_compare(void *given)
{
    for (int i = 0; i < STACKED; i++) {
        struct garumbott_reference r = stacked[i];
        r.exceptions = bytes("\0\2U");
        r.exceptions_len = 3;
        garumbott_compare_of(&r, &stacked[i ^ 1], on_t, sizeof on_t);
        garumbott_compare_of(&stacked[i ^ 1], &r, on_t, sizeof on_t);
    }
    return given;
}

static void *call_stored(void *given)
{
    static uint8_t form[LONGEST_FORM], joined[GARUMBOTT_LONGEST];
    for (int i = 0; i < STACKED; i++) {
        struct garumbott_reference r = stacked[i];
        r.exceptions = bytes("\0\2U");
        r.exceptions_len = 3;
        struct garumbott_length w = garumbott_write_stored_of(&r, form, sizeof form);
        garumbott_read_stored(form, w.len, joined, sizeof joined);
    }
    return given;
}

static void *call_translate(void *given)
{
    longest[5] = 'N';
    garumbott_translate(longest, TEXT_LONGEST, 2, 0, bytes("\0\2U"), 3, on_a, sizeof on_a);
    longest[5] = 'C';
    return given;
}

static void *call_strings(void *given)
{
    garumbott_complement(longest, TEXT_LONGEST, on_t, sizeof on_t);
    garumbott_names3(protein, sizeof protein, on_t, sizeof on_t);
    garumbott_names1(on_t, 3 * sizeof protein, on_a, sizeof on_a);
    garumbott_common_prefix(longest, TEXT_LONGEST, on_t, sizeof on_t);
    garumbott_common_suffix(longest, TEXT_LONGEST, on_t, sizeof on_t);
    return given;
}

/* The bytes of its stack that a thread touches. */
static size_t touched(void *(*run)(void *), void *given)
{
    enum { SIZE = 1 << 20 };
    uint8_t *stack = mmap(NULL, SIZE, PROT_READ | PROT_WRITE, MAP_PRIVATE | MAP_ANONYMOUS, -1, 0);
    pthread_attr_t attr;
    pthread_t thread;
    size_t low = 0;
    if (stack == MAP_FAILED) exit(2);
    memset(stack, 0xA5, SIZE);
    if (pthread_attr_init(&attr) != 0 || pthread_attr_setstack(&attr, stack, SIZE) != 0 || pthread_create(&thread, &attr, run, given) != 0) exit(2);
    pthread_join(thread, NULL);
    pthread_attr_destroy(&attr);
    while (low < SIZE && stack[low] == 0xA5) low++;
    munmap(stack, SIZE);
    return SIZE - low;
}

static void *call_run(void *given)
{
    static const char input[] = "ref 3 17 0 GGATGGCCAAATGGTAACCTGAC\n8A>G\n4_6dup\n4_6inv\n9_10insTAGC\n5del";
    garumbott_run((const uint8_t *)input, sizeof input - 1, on_t, sizeof on_t);
    return given;
}

static void stack(void)
{
    static struct garumbott_coding_edit edits[] = {STAR(DUPLICATION, 1, 1), TWO(INVERSION, 4, 9), TWO_NEW(INSERTION, 3, 4, "ACGTN"), ONE(DELETION, 5), ONE(DELETION, 0)};
    make_stacked();
    size_t base = touched(call_nothing, NULL), most = 0;
    for (size_t i = 0; i < sizeof edits / sizeof *edits; i++) {
        size_t r = touched(call_record, &edits[i]) - base, e = touched(call_edit, &edits[i]) - base, c = touched(call_check, &edits[i]) - base;
        most = r > most ? r : most;
        most = e > most ? e : most;
        most = c > most ? c : most;
        size_t p = touched(call_panel, &edits[i]) - base;
        most = p > most ? p : most;
    }
    for (size_t i = 0; i < sizeof edits / sizeof *edits; i++) {
        size_t p = touched(call_pair, &edits[i]) - base;
        most = p > most ? p : most;
    }
    static void *(*const others[])(void *) = {call_compare, call_stored, call_translate, call_strings};
    for (size_t i = 0; i < sizeof others / sizeof *others; i++) {
        size_t n = touched(others[i], NULL) - base;
        most = n > most ? n : most;
    }
    size_t run = touched(call_run, NULL) - base;
    printf("stack: %zu bytes at most, of %d; the text program %zu, of %d\n", most, GARUMBOTT_STACK, run, GARUMBOTT_RUN_STACK);
    check(most <= GARUMBOTT_STACK, "stack", "more than GARUMBOTT_STACK");
    check(run <= GARUMBOTT_RUN_STACK, "stack", "more than GARUMBOTT_RUN_STACK");
}

/* With an argument the stack isn't measured: a memory checker minds the reading of a stack whose thread has ended. */
int main(int argc, char **argv)
{
    (void)argv;
    for (int i = 0; i < FENCES; i++) {
        fence_make(&huge[i], i == TRANSCRIPT ? GARUMBOTT_TRANSCRIPT_ROOM + GARUMBOTT_MOST_BASES : LONGEST_FORM);
        fence_make(&large[i], i == STORED ? 66000 : 40960);
        fence_make(&small[i], 256);
    }
    make_longest();
    rows();
    codons();
    refusals();
    panels();
    ends();
    limits();
    cut_limits();
    library_limits();
    records();
    stored();
    text();
    nulls();
    tables();
    trims();
    overlaps();
    threads();
    if (argc == 1) stack();
    plain();
    printf("%lu checks, %lu failed\n", checks, faults);
    return faults == 0 ? 0 : 1;
}
