/* Pairs through fenced memory (tests/host/fence.h): the inputs that decide the request's clauses, numbers that are too large for their meaning, slices that
 * are NULL, and for every call each byte that it may not change. Prints how many checks were made; exits 1 if one failed. */
#include "fence.h"
#include "garumbott.h"
#include <stdio.h>
#include <string.h>

enum { LETTERS, EXCEPTIONS, BASES, OTHER, TRANSCRIPT, ALTERED, FENCES };
static struct fence fences[FENCES];
static unsigned long checks, faults;

static void check(int good, const char *name, const char *what)
{
    checks++;
    if (!good) {
        faults++;
        printf("FAILED %s: %s\n", name, what);
    }
}

static const uint8_t *bytes(const char *s)
{
    return (const uint8_t *)s;
}

#define EDIT(kind_, start_, end_, bases_) {.kind = (kind_), .start = (start_), .end = (end_), .bases = (const uint8_t *)(bases_), .bases_len = sizeof(bases_) - 1}
#define STARRED(kind_, start_, end_, bases_) \
    {.kind = (kind_), .start = (start_), .end_star = 1, .end = (end_), .bases = (const uint8_t *)(bases_), .bases_len = sizeof(bases_) - 1}
#define SUB(at, base) EDIT(GARUMBOTT_SUBSTITUTION, at, at, base)
#define INS(at, bases) EDIT(GARUMBOTT_INSERTION, at, (at) + 1, bases)
#define DEL(at, end) EDIT(GARUMBOTT_DELETION, at, end, "")
#define DUP(at, end) EDIT(GARUMBOTT_DUPLICATION, at, end, "")
#define LONGEST(longest_, kind_, start_, end_, bases_) \
    {.kind = (kind_), .start = (start_), .end = (end_), .bases = (const uint8_t *)(bases_), .bases_len = sizeof(bases_) - 1, .longest = (longest_)}
#define LONGEST_INS(longest, at, bases) LONGEST(longest, GARUMBOTT_INSERTION, at, (at) + 1, bases)
#define LONGEST_DUP(longest, at, end) LONGEST(longest, GARUMBOTT_DUPLICATION, at, end, "")
#define SAME(at) EDIT(GARUMBOTT_IDENTITY, at, at, "")
#define REFERENCE(letters_, cs_, ce_, table_, exceptions_, end_) \
    {.letters = (const uint8_t *)(letters_), .letters_len = sizeof(letters_) - 1, .cs = (cs_), .ce = (ce_), .table = (table_), \
     .exceptions = (const uint8_t *)(exceptions_), .exceptions_len = sizeof(exceptions_) - 1, .end = (end_)}

static const struct garumbott_reference W = REFERENCE("GGATGGCCAAATGGTAACCTGAC", 3, 17, 0, "", 0);
static const struct garumbott_reference TWO_STOPS = REFERENCE("ATGTAATAA", 1, 9, 0, "", 0);
static const struct garumbott_reference SELENO = REFERENCE("ATGTGAAAATAA", 1, 12, 0, "\0\2U", 0);
static const struct garumbott_reference CUT = REFERENCE("ATGGCCA", 1, 7, 0, "", GARUMBOTT_END_CUT_CODON);

/* One call with buffers of the given sizes: a refusal, or 0 and what is written. */
static void call(const char *name, const struct garumbott_reference *reference, const struct garumbott_coding_edit *first,
                 const struct garumbott_coding_edit *second, size_t room, size_t protein_room, uint64_t refusal, const char *t, const char *a)
{
    struct garumbott_paired want = {refusal, refusal == 0 ? strlen(t) : 0, refusal == 0 ? strlen(a) : 0};
    for (int side = FENCE_END; side <= FENCE_START; side++) {
        struct garumbott_reference r = *reference;
        struct garumbott_coding_edit e = *first, f = *second;
        if (r.letters != NULL) r.letters = fence_fill(&fences[LETTERS], side, r.letters, r.letters_len);
        if (r.exceptions != NULL) r.exceptions = fence_fill(&fences[EXCEPTIONS], side, r.exceptions, r.exceptions_len);
        if (e.bases != NULL) e.bases = fence_fill(&fences[BASES], side, e.bases, e.bases_len);
        if (f.bases != NULL) f.bases = fence_fill(&fences[OTHER], side, f.bases, f.bases_len);
        struct garumbott_buffers b = {fence_fill(&fences[TRANSCRIPT], side, NULL, room), room, NULL, 0, fence_fill(&fences[ALTERED], side, NULL, protein_room), protein_room};
        struct garumbott_paired got = garumbott_pair_of(&r, &e, &f, &b);
        check(memcmp(&got, &want, sizeof got) == 0, name, "the answer");
        check(fence_check(&fences[TRANSCRIPT], t, want.transcript_len), name, "transcript");
        check(fence_check(&fences[ALTERED], a, want.altered_len), name, "protein");
        if (r.letters != NULL) check(fence_check(&fences[LETTERS], NULL, 0), name, "letters changed");
        if (r.exceptions != NULL) check(fence_check(&fences[EXCEPTIONS], NULL, 0), name, "exceptions changed");
        if (e.bases != NULL) check(fence_check(&fences[BASES], NULL, 0), name, "bases changed");
        if (f.bases != NULL) check(fence_check(&fences[OTHER], NULL, 0), name, "the second's bases changed");
    }
}

static const struct row {
    const char *name;
    const struct garumbott_reference *reference;
    struct garumbott_coding_edit first, second;
    uint64_t refusal;
    const char *transcript, *protein;
    int one_way; /* the two aren't both accepted: the other order may have another refusal */
} rows[] = {
    {"4G>C, 5C>G", &W, SUB(4, "C"), SUB(5, "G"), 51, NULL, NULL, 0},
    {"4G>C, 6C>G", &W, SUB(4, "C"), SUB(6, "G"), 0, "GGATGCCGAAATGGTAACCTGAC", "MPKW*", 0},
    {"two gaps at one place", &W, INS(4, "A"), INS(4, "G"), 51, NULL, NULL, 0},
    {"neighbouring gaps", &W, INS(4, "A"), INS(5, "A"), 0, "GGATGGACACAAATGGTAACCTGAC", "MDTNGNLX", 0},
    {"a gap at a copy's start", &W, DUP(4, 6), INS(3, "G"), 51, NULL, NULL, 0},
    {"a gap at a copy's end", &W, DUP(4, 6), INS(6, "G"), 51, NULL, NULL, 0},
    {"a gap a base before a copy", &W, DUP(4, 6), INS(2, "G"), 0, "GGATGGGCCGCCAAATGGTAACCTGAC", "MGRQMVT*", 0},
    {"an identity touches", &W, SAME(4), SUB(5, "T"), 51, NULL, NULL, 0},
    {"51 before 52", &W, STARRED(GARUMBOTT_DELETION, 1, 7, ""), DEL(4, 4), 51, NULL, NULL, 0},
    {"an Unknown", &W, DEL(1, 2), STARRED(GARUMBOTT_DELETION, 4, 7, ""), 52, NULL, NULL, 0},
    {"two stops", &TWO_STOPS, SUB(1, "G"), SUB(3, "A"), 52, NULL, NULL, 0},
    {"a cut that drops nothing", &W, INS(8, "ATAA"), DEL(4, 4), 53, NULL, NULL, 0},
    {"10, then 7", &W, INS(10, "Z"), DEL(0, 0), 10, NULL, NULL, 1},
    {"7, then 10", &W, DEL(0, 0), INS(10, "Z"), 7, NULL, NULL, 1},
    {"no cut worked out anew", &W, DEL(4, 4), INS(9, "TTAA"), 0, "GGATGCCAAATTAATGGTAACCTGAC", "MPN*", 0},
    {"read without exceptions", &SELENO, SAME(1), SUB(9, "G"), 0, "ATGTGAAAGTAA", "M*", 0},
    {"a cut codon", &CUT, SUB(1, "G"), SUB(7, "C"), 0, "GTGGCCC", "VAX", 0},
    /* E12: each edit by its own longest edit */
    {"4_5insAC, longest 1", &W, LONGEST_INS(1, 4, "AC"), DEL(9, 9), 10, NULL, NULL, 0},
    {"4_5insAC, longest 2", &W, LONGEST_INS(2, 4, "AC"), DEL(9, 9), 0, "GGATGGACCCAATGGTAACCTGAC", "MDPMVT*", 0},
    {"4_6dup, longest 1", &W, LONGEST_DUP(1, 4, 6), DEL(9, 9), 0, "GGATGGCCGCCAATGGTAACCTGAC", "MAANGNLX", 0},
    {"a bad longest edit, before 7", &W, LONGEST_INS(4097, 4, "AC"), DEL(0, 0), 62, NULL, NULL, 0},
    {"the other's longest edit isn't its own", &W, LONGEST_INS(1, 4, "A"), INS(9, "AC"), 0, "GGATGGACCAAAACTGGTAACCTGAC", "MDQNW*", 0},
};

/* Each number of a good call made too large, or wrong: its refusal, and no byte changed. */
static void wrong_numbers(void)
{
    const struct garumbott_coding_edit e = SUB(4, "C"), f = SUB(6, "G");
    struct garumbott_reference r;
    struct garumbott_coding_edit x;
#define REFERENCE_WITH(member, value, refusal) (r = W, r.member = (value), call(#member " " #value, &r, &e, &f, 40, 20, refusal, NULL, NULL))
    REFERENCE_WITH(letters_len, 0, 1);
    REFERENCE_WITH(cs, UINT64_C(4294967299), 3);
    REFERENCE_WITH(ce, UINT64_MAX, 3);
    REFERENCE_WITH(table, 256, 4);
    REFERENCE_WITH(end, 256, 28);
    r = W, r.exceptions = bytes("\0\2"), r.exceptions_len = 2;
    call("two bytes of exceptions", &r, &e, &f, 40, 20, 5, NULL, NULL);
    r = W, r.letters = NULL, r.letters_len = 0;
    call("no letters", &r, &e, &f, 40, 20, 1, NULL, NULL);
    r = W, r.exceptions = NULL, r.exceptions_len = 0;
    call("NULL exceptions", &r, &e, &f, 40, 20, 0, "GGATGCCGAAATGGTAACCTGAC", "MPKW*");
#define EDIT_WITH(member, value, refusal) \
    (x = e, x.member = (value), call("first " #member " " #value, &W, &x, &f, 40, 20, refusal, NULL, NULL), \
     x = f, x.member = (value), call("second " #member " " #value, &W, &e, &x, 40, 20, refusal, NULL, NULL))
    EDIT_WITH(kind, 257, 10);
    EDIT_WITH(kind, 0, 10);
    EDIT_WITH(start_star, 2, 7);
    EDIT_WITH(end_star, UINT64_MAX, 7);
    EDIT_WITH(start, INT64_MIN, 7);
    EDIT_WITH(end, INT64_MAX, 7);
    EDIT_WITH(bases_len, 0, 10);
    EDIT_WITH(longest, 4097, 62);
    EDIT_WITH(longest, UINT64_MAX, 62);
    call("no room at all", &W, &e, &f, 0, 0, 11, NULL, NULL);
    call("no room for the protein", &W, &e, &f, 23, 6, 12, NULL, NULL);
    call("exactly the room", &W, &e, &f, 23, 7, 0, "GGATGCCGAAATGGTAACCTGAC", "MPKW*");
    struct garumbott_coding_edit gone = DEL(4, 4);
    gone.bases = NULL;
    call("NULL bases", &W, &gone, &f, 22, 7, 0, "GGATGCGAAATGGTAACCTGAC", "MRNGNLX");
}

int main(void)
{
    for (int i = 0; i < FENCES; i++) fence_make(&fences[i], 256);
    for (size_t i = 0; i < sizeof rows / sizeof *rows; i++) {
        const struct row *x = &rows[i];
        call(x->name, x->reference, &x->first, &x->second, 40, 20, x->refusal, x->transcript, x->protein);
        if (!x->one_way) call(x->name, x->reference, &x->second, &x->first, 40, 20, x->refusal, x->transcript, x->protein);
    }
    wrong_numbers();
    printf("%lu checks, %lu failed\n", checks, faults);
    return faults == 0 ? 0 : 1;
}
