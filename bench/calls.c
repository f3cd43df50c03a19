/* Times the module's calls that the Rust has no counterpart of: records checked where that may be dear, stored references read and written, two edits on one
 * transcript, two editions compared; of 3,000, 16,384 and 131,072 bases, each beside a yardstick. */
#include "through.h"
#include "timing.h"
#include <string.h>

enum { MOST = 131072 + 16, LONGEST_PUT = 4096 };

static uint64_t seed;

static uint64_t next(void)
{
    seed = seed * 6364136223846793005u + 1442695040888963407u;
    return seed >> 33;
}

/* ---- what is timed: each call works on these ---- */

static uint8_t letters[MOST], others[MOST], bases[LONGEST_PUT], tx[2 * MOST], rp[MOST], ap[MOST], form[MOST + 128], joined[MOST], list[GARUMBOTT_DIFFERENCES_ROOM];
static uint8_t deleted[MOST], inserted[MOST];
static struct garumbott_reference ref, second;
static struct garumbott_coding_edit edit, other_edit;
static const struct garumbott_buffers buffers = {tx, sizeof tx, rp, sizeof rp, ap, sizeof ap};
static struct garumbott_answer own;
static uint64_t form_len;
static volatile uint64_t sink;

static void record(void)
{
    sink += record_of(&ref, &edit, &buffers).number;
}

static struct garumbott_checked judged(void)
{
    return check_of(&ref, &edit, own.number, deleted, own.deleted_len, inserted, own.inserted_len, &buffers);
}

static void check(void)
{
    sink += judged().replays;
}

/* Refused at the edit's positions: the reference was checked and R read. */
static void known(void)
{
    struct garumbott_coding_edit none = edit;
    none.start = 0;
    sink += record_of(&ref, &none, &buffers).refusal;
}

static void copied(void)
{
    memcpy(joined, letters, ref.letters_len);
    sink += joined[ref.letters_len / 2];
}

static void written(void)
{
    sink += garumbott_write_stored_of(&ref, form, sizeof form).len;
}

static void read_back(void)
{
    sink += read_stored(form, form_len, joined, sizeof joined).cs;
}

static void paired(void)
{
    sink += pair_of(&ref, &edit, &other_edit, &buffers).altered_len;
}

static void compared(void)
{
    sink += garumbott_compare_of(&ref, &second, list, sizeof list).len;
}

/* ---- inputs ---- */

static const uint8_t sixteen[] = "\0\2U\0\7U\0\11U\0\13U\0\15U\0\17U\0\21U\0\23U\0\25U\0\27U\0\31U\0\33U\0\35U\0\37U\0\41U\0\43U";

/* A transcript whose CDS runs from base 101 to some 200 before the end, with a stop at its end only. */
static void make_reference(uint64_t len)
{
    seed = 1;
    for (uint64_t i = 0; i < len; i++)
        letters[i] = "ACGT"[next() & 3];
    ref = (struct garumbott_reference){.letters = letters, .letters_len = len, .cs = 101, .ce = 100 + (len - 300) / 3 * 3};
    for (uint64_t i = ref.cs - 1; i < ref.ce - 3; i += 3)
        if (letters[i] == 'T' && (!memcmp(letters + i + 1, "AA", 2) || !memcmp(letters + i + 1, "AG", 2) || !memcmp(letters + i + 1, "GA", 2)))
            letters[i] = 'C';
    memcpy(letters + ref.ce - 3, "TAA", 3);
}

/* Its CDS up to the stop of one letter alone. */
static void make_run(uint64_t len, char letter)
{
    make_reference(len);
    memset(letters + ref.cs - 1, letter, ref.ce - ref.cs - 2);
}

/* The same without a stop, one base of a codon left: a base less there is silent. */
static void make_cut_run(uint64_t len, char letter)
{
    make_run(len, letter);
    ref.ce = len - (len - ref.cs + 1 - 2) % 3;
    ref.letters_len = ref.ce;
    ref.end = GARUMBOTT_END_CUT_CODON;
    memset(letters + ref.cs - 1, letter, ref.ce - ref.cs + 1);
}

static uint64_t cds(void)
{
    return ref.ce - ref.cs + 1;
}

static void with_exceptions(void)
{
    ref.exceptions = sixteen;
    ref.exceptions_len = sizeof sixteen - 1;
}

/* Sixteen near the end of the CDS. */
static void with_last_exceptions(void)
{
    static uint8_t last[48];
    for (uint64_t k = 0; k < 16; k++) {
        uint64_t codon = cds() / 3 - 17 + k;
        last[3 * k] = (uint8_t)(codon >> 8);
        last[3 * k + 1] = (uint8_t)codon;
        last[3 * k + 2] = 'U';
    }
    ref.exceptions = last;
    ref.exceptions_len = sizeof last;
}


static void make_edit(uint64_t kind, int64_t start, int64_t end, const uint8_t *new, uint64_t new_len)
{
    edit = (struct garumbott_coding_edit){.kind = kind, .start = start, .end = end, .bases = new, .bases_len = new_len};
}

/* Codon 3 reads A, by another third base. */
static void silent_substitution(void)
{
    memcpy(letters + ref.cs - 1 + 6, "GCC", 3);
    make_edit(GARUMBOTT_SUBSTITUTION, 9, 9, (const uint8_t *)"T", 1);
}

/* A delins from codon 3 on, as long as may be, of codons that read the same: as they were, or GCT for GCC. */
static void silent_delins(uint64_t len, int other_letters)
{
    uint64_t n = (cds() - 60 < len ? cds() - 60 : len) / 3 * 3;
    for (uint64_t i = 0; i < n; i += 3)
        if (other_letters)
            memcpy(letters + ref.cs - 1 + 6 + i, "GCC", 3);
    memcpy(bases, letters + ref.cs - 1 + 6, n);
    for (uint64_t i = 2; i < n; i += 3)
        if (other_letters)
            bases[i] = 'T';
    make_edit(GARUMBOTT_DELINS, 7, 6 + (int64_t)n, bases, n);
}

/* ---- rows ---- */

static const uint64_t lengths[] = {3000, 16384, 131072};
enum { LENGTHS = sizeof lengths / sizeof *lengths };

/* Whether the rows' letters are packed. */
static int packing;
static uint8_t packed[MOST / 2 + 1];

static void pack(void)
{
    struct garumbott_length written = garumbott_pack(letters, ref.letters_len, packed, sizeof packed);
    if (written.refusal)
        fail("letters packed");
    ref.form = GARUMBOTT_FORM_PACKED;
    ref.size = ref.letters_len;
    ref.letters = packed;
    ref.letters_len = written.len;
}

static void head_checks(void)
{
    if (pass == PASSES)
        printf("\n%-58s%10s%10s%14s  %s\n", packing ? "the same, letters packed" : "a record checked, where that may be dear", "check", "record", "check/record", "answer");
}

/* The edit's own record, handed back; a silent edit has none, and is refused (26). */
static void row_check(const char *what, uint64_t len)
{
    if (packing)
        pack();
    own = record_of(&ref, &edit, &buffers);
    memcpy(deleted, rp + own.deleted_at, own.deleted_len);
    memcpy(inserted, ap + own.inserted_at, own.inserted_len);
    struct garumbott_checked judgement = judged();
    if (own.refusal || (own.answer == GARUMBOTT_CHANGED ? !judgement.replays : own.answer != GARUMBOTT_SILENT || judgement.refusal != GARUMBOTT_REFUSAL_NOT_CHANGED)) {
        printf("%s: refusal %lu, answer %lu, check %lu\n", what, (unsigned long)own.refusal, (unsigned long)own.answer, (unsigned long)judgement.refusal);
        fail("a record checked");
    }
    const double *best = best_of((call[]){check, record}, 2);
    if (pass < PASSES)
        return;
    printf("%6lu %-51s", (unsigned long)len, what);
    cell(best[0]);
    cell(best[1]);
    printf("    ");
    ratio(best[0], best[1]);
    printf("  %s\n", garumbott_answer_name(own.answer));
    fflush(stdout);
}

static void checks(uint64_t len)
{
    make_reference(len);
    with_exceptions();
    silent_substitution();
    row_check("silent substitution near the start, 16 exceptions", len);

    make_reference(len);
    with_exceptions();
    make_edit(GARUMBOTT_IDENTITY, 7, 9, NULL, 0);
    row_check("identity near the start, 16 exceptions", len);

    make_reference(len);
    with_exceptions();
    silent_delins(6, 0);
    row_check("six bases put back near the start, 16 exceptions", len);

    make_reference(len);
    silent_delins(6, 0);
    row_check("six bases put back near the start", len);

    make_reference(len);
    silent_delins(LONGEST_PUT, 0);
    row_check("4,096 bases put back", len);

    make_reference(len);
    silent_delins(LONGEST_PUT, 1);
    row_check("4,096 bases, each codon another of its residue", len);

    make_reference(len);
    with_last_exceptions();
    silent_delins(LONGEST_PUT, 1);
    row_check("the same, 16 exceptions behind it", len);

    make_reference(len);
    make_edit(GARUMBOTT_DUPLICATION, 4, 3 + (int64_t)(cds() / 6 * 3), NULL, 0);
    row_check("duplication of half the transcript", len);

    make_run(len, 'G');
    make_edit(GARUMBOTT_DUPLICATION, 4, 3 + (int64_t)(cds() / 6 * 3), NULL, 0);
    row_check("duplication of half the transcript, a run of G", len);

    make_run(len, 'G');
    make_edit(GARUMBOTT_DUPLICATION, 4, 4 + (int64_t)(cds() / 6 * 3), NULL, 0);
    row_check("the same, and a base more: a frameshift", len);

    make_run(len, 'G');
    make_edit(GARUMBOTT_DELETION, 5, 5, NULL, 0);
    row_check("deletion of one in a run of G", len);

    make_run(len, 'G');
    with_exceptions();
    make_edit(GARUMBOTT_DELETION, 125, 125, NULL, 0);
    row_check("deletion of one in a run of G, 16 exceptions", len);

    make_run(len, 'N');
    make_edit(GARUMBOTT_DELETION, 5, 5, NULL, 0);
    row_check("deletion of one in a run of N", len);

    make_cut_run(len, 'G');
    make_edit(GARUMBOTT_DELETION, 5, 5, NULL, 0);
    row_check("deletion of one in a run of G that is cut short", len);
}

static void head_calls(void)
{
    if (pass == PASSES)
        printf("\n%-58s%10s%10s%10s%10s%10s%10s%10s\n", "other calls", "ours", "ns a base", "of 16384", "memcpy", "check", "record", "ours/rec.");
}

/* A call beside the copying of its letters, the check of the reference (an edit refused at its positions) and the record of an edit. */
static double row_call(const char *what, uint64_t len, call timed, double shortest)
{
    const double *best = best_of((call[]){timed, copied, known, record}, 4);
    double each = best[0] / len;
    if (pass < PASSES)
        return each;
    printf("%6lu %-51s", (unsigned long)len, what);
    cell(best[0]);
    each_cell(each);
    ratio(each, shortest);
    cell(best[1]);
    cell(best[2]);
    cell(best[3]);
    ratio(best[0], best[3]);
    printf("\n");
    fflush(stdout);
    return each;
}

/* What has the same name at each length; the ratio is to the one at 16,384, where that has been timed. */
static void rows_call(const char *what, void (*make)(uint64_t), call timed)
{
    static const uint64_t order[] = {16384, 3000, 65536, 131072};
    double shortest = 0;
    for (unsigned k = 0; k < sizeof order / sizeof *order; k++) {
        make_reference(order[k]);
        silent_substitution();
        make(order[k]);
        double each = row_call(what, order[k], timed, shortest);
        if (order[k] == 16384)
            shortest = each;
    }
}

/* No codon up to base `end` reads a stop. */
static void without_stops(uint64_t end)
{
    garumbott_translate(letters + ref.cs - 1, end - ref.cs + 1, 0, 1, NULL, 0, ap, sizeof ap);
    for (uint64_t k = 0; k < (end - ref.cs + 1) / 3; k++)
        if (ap[k] == '*')
            letters[ref.cs - 1 + 3 * k] = 'C';
}

/* One letter in a hundred is ambiguous; no codon before the last reads a stop. */
static void strew(uint64_t len)
{
    seed = 2;
    for (uint64_t i = 0; i < len; i++)
        if (next() % 100 == 0 && (i < ref.ce - 3 || i >= ref.ce))
            letters[i] = "RYSWKMBDHVN"[next() % 11];
    without_stops(ref.ce - 3);
}

static void make_plain(uint64_t len)
{
    (void)len;
    form_len = garumbott_write_stored_of(&ref, form, sizeof form).len;
    struct garumbott_stored stored = read_stored(form, form_len, joined, sizeof joined);
    if (form_len != garumbott_stored_room(ref.letters_len, ref.exceptions_len, ref.end) || stored.refusal || stored.cs != ref.cs || stored.ce != ref.ce
        || stored.letters_len != ref.letters_len || stored.joined != (ref.letters_len > 65535)
        || memcmp(stored.joined ? joined : form + stored.letters_at, letters, ref.letters_len))
        fail("a stored form");
}

static void make_strewn(uint64_t len)
{
    strew(len);
    make_plain(len);
}

static void make_excepted(uint64_t len)
{
    with_exceptions();
    make_plain(len);
}

/* Without a stop, to the transcript's end: every codon is held to be none. */
static void make_short(uint64_t len)
{
    ref.ce = ref.cs - 1 + (len - ref.cs + 1) / 3 * 3;
    ref.letters_len = ref.ce;
    ref.end = GARUMBOTT_END_NO_STOP;
    without_stops(ref.ce);
    make_plain(len);
}

static void make_short_strewn(uint64_t len)
{
    strew(len);
    make_short(len);
}

/* A silent substitution near the start, and a residue more near the end. */
static void make_pair(uint64_t len)
{
    (void)len;
    other_edit = (struct garumbott_coding_edit){.kind = GARUMBOTT_INSERTION, .start = (int64_t)cds() - 12, .end = (int64_t)cds() - 11, .bases = (const uint8_t *)"GCC", .bases_len = 3};
    if (pair_of(&ref, &edit, &other_edit, &buffers).altered_len != cds() / 3 + 1)
        fail("a pair");
}

static void make_long_pair(uint64_t len)
{
    make_edit(GARUMBOTT_DUPLICATION, 4, 3 + (int64_t)(cds() / 6 * 3), NULL, 0);
    other_edit = (struct garumbott_coding_edit){.kind = GARUMBOTT_INVERSION, .start = edit.end + 5, .end = (int64_t)cds() - 12};
    (void)len;
    if (pair_of(&ref, &edit, &other_edit, &buffers).refusal)
        fail("a pair of long edits");
}

static void make_second(uint64_t len, int every)
{
    memcpy(others, letters, len);
    second = ref;
    second.letters = others;
    for (uint64_t i = ref.cs + 1; i < ref.ce - 3; i += 3)
        if (every)
            others[i] = others[i] == 'C' ? 'T' : 'C';
    if (garumbott_compare_of(&ref, &second, list, sizeof list).len != (every ? cds() / 3 - 1 : 0) * GARUMBOTT_DIFFERENCE_BYTES)
        fail("editions");
}

static void make_equal(uint64_t len)
{
    make_second(len, 0);
}

static void make_equal_excepted(uint64_t len)
{
    with_exceptions();
    make_second(len, 0);
}

static void make_different(uint64_t len)
{
    make_second(len, 1);
}

static void make_different_excepted(uint64_t len)
{
    with_exceptions();
    make_second(len, 1);
}

static void calls(void)
{
    rows_call("written in the stored form", make_plain, written);
    rows_call("the same, ambiguous letters", make_strewn, written);
    rows_call("the same, no stop", make_short, written);
    rows_call("the same, no stop, ambiguous letters", make_short_strewn, written);
    rows_call("stored form read", make_plain, read_back);
    rows_call("the same, ambiguous letters", make_strewn, read_back);
    rows_call("the same, 16 exceptions", make_excepted, read_back);
    rows_call("the same, no stop", make_short, read_back);
    rows_call("the same, no stop, ambiguous letters", make_short_strewn, read_back);
    rows_call("two edits, the second near the end", make_pair, paired);
    rows_call("half duplicated, the rest inverted", make_long_pair, paired);
    rows_call("editions that are equal", make_equal, compared);
    rows_call("the same, 16 exceptions each", make_equal_excepted, compared);
    rows_call("editions that differ in each codon", make_different, compared);
    rows_call("the same, 16 exceptions each", make_different_excepted, compared);
}

int main(void)
{
    printf("nanoseconds a call, the best of %d rounds, of slow calls %d\n", PASSES * ROUNDS, PASSES * FEWEST);
    for (pass = 1; pass <= PASSES; pass++) {
        at = 0;
        for (packing = 0; packing < 2; packing++) {
            head_checks();
            for (unsigned k = 0; k < LENGTHS; k++)
                checks(lengths[k]);
        }
        head_calls();
        calls();
    }
    return 0;
}
