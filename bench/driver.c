/* Times the module (with -DOURS), the Rust and plain C in one process, by turns, and prints the best of many rounds. Before anything is timed the answers are
 * held to each other. */
#include "baseline.h"
#include "oracle.h"
#include "timing.h"
#ifdef OURS
#include "through.h"
#endif
#include <string.h>

enum { MOST = 131072 + 16 };

static uint64_t seed;

static uint64_t next(void)
{
    seed = seed * 6364136223846793005u + 1442695040888963407u;
    return seed >> 33;
}

/* ---- what is timed: each call works on these ---- */

static uint8_t letters[MOST], other[MOST], out[MOST], tx[2 * MOST], rp[MOST], ap[MOST];
static struct base_reference ref;
static struct base_known known;
static struct base_edit edit;
static const struct base_buffers buffers = {tx, rp, ap, sizeof tx, sizeof rp, sizeof ap};
static struct oracle_reference *rust_ref;
static struct oracle_edit *rust_edit;
static volatile uint64_t sink;

static void rust_translate(void)
{
    sink += oracle_timed_translate(letters, ref.len, 0);
}

static void c_translate(void)
{
    sink += base_translate(letters, ref.len, 0, 0, NULL, 0, out, sizeof out).len;
}

static void rust_prefix(void)
{
    sink += oracle_prefix(letters, ref.len, other, ref.len);
}

static void c_prefix(void)
{
    sink += base_prefix(letters, ref.len, other, ref.len);
}

static void rust_anew(void)
{
    sink += oracle_timed_edit(rust_ref, rust_edit, 0);
}

static void rust_anew_until(void)
{
    sink += oracle_timed_edit(rust_ref, rust_edit, 1);
}

static void rust_known(void)
{
    sink += oracle_timed_edit_known(rust_ref, rust_edit, 0);
}

static void rust_known_until(void)
{
    sink += oracle_timed_edit_known(rust_ref, rust_edit, 1);
}

static void c_anew(void)
{
    sink += base_record(&ref, &edit, &buffers).number;
}

static void c_known(void)
{
    sink += base_record_known(&known, &edit, &buffers).number;
}

static void c_check(void)
{
    sink += base_check(&ref, &known);
}

#ifdef OURS
static uint64_t ours_translated(uint8_t *to, uint64_t room)
{
    return garumbott_translate(letters, ref.len, 0, 0, NULL, 0, to, room).len;
}

static void ours_translate(void)
{
    sink += ours_translated(out, sizeof out);
}

static void ours_prefix(void)
{
    sink += garumbott_common_prefix(letters, ref.len, other, ref.len);
}

/* None but where a row says so. */
static const uint8_t *excepted;
static uint64_t excepted_len;
static const struct garumbott_buffers our_buffers = {tx, sizeof tx, rp, sizeof rp, ap, sizeof ap};

static struct garumbott_reference our_reference(uint64_t table)
{
    return (struct garumbott_reference){letters, ref.len, ref.cs, ref.ce, table, excepted, excepted_len, 0, 0, 0};
}

static struct garumbott_coding_edit our_edit(int64_t start)
{
    return (struct garumbott_coding_edit){edit.kind, 0, start, 0, edit.end, edit.bases, edit.bases_len, 0};
}

static struct garumbott_answer ours_record(uint64_t table, int64_t start)
{
    struct garumbott_reference r = our_reference(table);
    struct garumbott_coding_edit e = our_edit(start);
    return record_of(&r, &e, &our_buffers);
}

static void ours_anew(void)
{
    sink += ours_record(0, edit.start).number;
}

/* The same with the letters packed. */
static uint8_t packed[MOST / 2 + 1];

static struct garumbott_answer packed_record(void)
{
    struct garumbott_reference r = our_reference(0);
    struct garumbott_coding_edit e = our_edit(edit.start);
    r.letters = packed, r.letters_len = GARUMBOTT_PACKED_BYTES(ref.len), r.form = GARUMBOTT_FORM_PACKED, r.size = ref.len;
    return record_of(&r, &e, &our_buffers);
}

static void ours_packed(void)
{
    sink += packed_record().number;
}

/* The edit's own record, handed back. */
static uint8_t own_deleted[MOST], own_inserted[MOST];
static struct garumbott_answer own;

static struct garumbott_checked ours_judged(void)
{
    struct garumbott_reference r = our_reference(0);
    struct garumbott_coding_edit e = our_edit(edit.start);
    return check_of(&r, &e, own.number, own_deleted, own.deleted_len, own_inserted, own.inserted_len, &our_buffers);
}

static void ours_record_checked(void)
{
    sink += ours_judged().replays;
}

/* Refused at the edit's positions: the reference was checked and R read. */
static void ours_check(void)
{
    sink += ours_record(0, 0).refusal;
}

/* Refused at the table: the letters were looked at. */
static void ours_letters(void)
{
    sink += ours_record(3, 0).refusal;
}
#else
#define ours_translate NULL
#define ours_prefix NULL
#define ours_anew NULL
#define ours_check NULL
#define ours_letters NULL
#define ours_record_checked NULL
#define ours_packed NULL
#endif

/* ---- rows ---- */

static void head(const char *what)
{
    if (pass < PASSES)
        return;
    printf("\n%-38s%10s%10s%10s%10s%10s%10s%10s\n", what, "ours", "Rust", "Rust u.s.", "C", "ours/Rust", "ours/u.s.", "ours/C");
}

static void cells(const char *what, double ours, double rust, double until, double c)
{
    printf("%-38s", what);
    cell(ours);
    cell(rust);
    cell(until);
    cell(c);
    ratio(ours, rust);
    ratio(ours, until);
    ratio(ours, c);
}

static void row(const char *what, double ours, double rust, double until, double c)
{
    if (pass < PASSES)
        return;
    cells(what, ours, rust, until, c);
    printf("\n");
    fflush(stdout);
}

static void head_long(const char *what)
{
    if (pass == PASSES)
        printf("\n%-38s%10s%10s%10s%10s%10s%10s%10s%10s%10s\n", what, "ours", "Rust", "Rust u.s.", "C", "ours/Rust", "ours/u.s.", "ours/C", "ns a base", "of 16384");
}

/* With ours a base, and that beside the shortest length's, which comes first. */
static void row_long(const char *what, uint64_t len, double ours, double rust, double until, double c)
{
    static double shortest;
    double each = ours / len;
    if (pass < PASSES)
        return;
    if (len == 16384)
        shortest = each;
    cells(what, ours, rust, until, c);
    each_cell(each);
    ratio(each, shortest);
    printf("\n");
    fflush(stdout);
}

static void head_pair(const char *what, const char *one, const char *two, const char *both)
{
    if (pass == PASSES)
        printf("\n%-38s%10s%10s%14s\n", what, one, two, both);
}

static void row_pair(const char *what, double one, double two)
{
    if (pass < PASSES)
        return;
    printf("%-38s", what);
    cell(one);
    cell(two);
    printf("    ");
    ratio(one, two);
    printf("\n");
    fflush(stdout);
}

/* ---- inputs ---- */

static void make_letters(uint64_t len)
{
    seed = 1;
    ref = (struct base_reference){letters, len, 1, len / 3 * 3, 0, NULL, 0};
    for (uint64_t i = 0; i < len; i++)
        letters[i] = "ACGT"[next() & 3];
}

/* One in a hundred, and at least one. */
static void strew(uint64_t len)
{
    int some = 0;
    seed = 2;
    for (uint64_t i = 0; i < len; i++)
        if (next() % 100 == 0) {
            letters[i] = "RYSWKMBDHVN"[next() % 11];
            some = 1;
        }
    if (!some)
        letters[len / 2] = 'N';
}

/* The letters at hand as a reference of all three. */
static void know_reference(void)
{
    if (base_check(&ref, &known))
        fail("a reference that C refuses");
    rust_ref = oracle_reference_new(letters, ref.len, ref.cs, ref.ce, 0, NULL, 0);
    if (!rust_ref)
        fail("a reference that the Rust refuses");
}

/* A transcript whose CDS runs from base 101 to some 200 before the end, with a stop at its end only; without T before that, in no frame. */
static void make_reference(uint64_t len, int without_t)
{
    make_letters(len);
    ref.cs = 101;
    ref.ce = 100 + (len - 300) / 3 * 3;
    for (uint64_t i = ref.cs - 1; i < ref.ce - 3; i += without_t ? 1 : 3)
        if (letters[i] == 'T' && (without_t || !memcmp(letters + i + 1, "AA", 2) || !memcmp(letters + i + 1, "AG", 2) || !memcmp(letters + i + 1, "GA", 2)))
            letters[i] = 'C';
    memcpy(letters + ref.ce - 3, "TAA", 3);
    know_reference();
}

static void make_edit(uint64_t kind, int64_t start, int64_t end, const char *bases)
{
    edit = (struct base_edit){kind, 0, 0, start, end, (const uint8_t *)bases, strlen(bases)};
    rust_edit = oracle_edit_new(kind, 0, start, 0, end, edit.bases, edit.bases_len);
    if (!rust_edit)
        fail("an edit that the Rust refuses");
}

/* ---- the answers are equal ---- */

/* The Rust reads X where ours and C read B or Z (docs/DIFFERENCES.md). */
static int is_the_rusts(const uint8_t *theirs, uint64_t n)
{
    for (uint64_t i = 0; i < n; i++)
        if (theirs[i] != (out[i] == 'B' || out[i] == 'Z' ? 'X' : out[i]))
            return 0;
    return 1;
}

static void check_translation(void)
{
    static uint8_t theirs[MOST];
    uint64_t n = base_translate(letters, ref.len, 0, 0, NULL, 0, out, sizeof out).len;
    if (n != (ref.len + 2) / 3 || oracle_translate(letters, ref.len, 0, 0, theirs, sizeof theirs) != (int64_t)n || !is_the_rusts(theirs, n))
        fail("translation, the Rust");
#ifdef OURS
    memset(theirs, 0, sizeof theirs);
    if (ours_translated(theirs, sizeof theirs) != n || memcmp(out, theirs, n) || theirs[n])
        fail("translation, ours");
#endif
}

#ifdef OURS
/* The edit's own record is accepted, and the check of it writes the same. */
static void check_own(void)
{
    static uint8_t tx4[2 * MOST], ap4[MOST];
    memset(tx, 0, sizeof tx);
    memset(ap, 0, sizeof ap);
    own = ours_record(0, edit.start);
    memcpy(own_deleted, rp + own.deleted_at, own.deleted_len);
    memcpy(own_inserted, ap + own.inserted_at, own.inserted_len);
    memcpy(tx4, tx, sizeof tx);
    memcpy(ap4, ap, sizeof ap);
    memset(tx, 0, sizeof tx);
    memset(ap, 0, sizeof ap);
    struct garumbott_checked checked = ours_judged();
    if (own.answer != GARUMBOTT_CHANGED || checked.refusal || !checked.replays || checked.altered_len != own.altered_len || memcmp(tx, tx4, sizeof tx) || memcmp(ap, ap4, sizeof ap))
        fail("its own record, checked");
}
#endif

static void check_edit(void)
{
    static uint8_t tx2[2 * MOST], ap2[MOST], moved[64];
    struct base_answer mine = base_record(&ref, &edit, &buffers), again = base_record_known(&known, &edit, &buffers);
    if (mine.answer != BASE_CHANGED || memcmp(&mine, &again, sizeof mine))
        fail("C with itself");
    for (int until = 0; until < 2; until++) {
        struct oracle_answer theirs = oracle_edit(rust_ref, rust_edit, until, 1, tx2, sizeof tx2, ap2, sizeof ap2, moved, sizeof moved);
        if (!theirs.answered || theirs.unknown || theirs.frameshift != mine.frameshift || theirs.transcript_len != (int64_t)mine.transcript_len
            || memcmp(tx, tx2, mine.transcript_len) || theirs.altered_len != (int64_t)mine.altered_len || memcmp(ap, ap2, mine.altered_len)
            || theirs.number != (int64_t)mine.number || theirs.deleted_len != (int64_t)mine.deleted_len
            || theirs.inserted_len != (int64_t)mine.inserted_len)
            fail("edit, the Rust");
    }
#ifdef OURS
    static uint8_t tx3[2 * MOST], rp3[MOST], ap3[MOST];
    memcpy(tx3, tx, sizeof tx);
    memcpy(rp3, rp, sizeof rp);
    memcpy(ap3, ap, sizeof ap);
    memset(tx, 0, sizeof tx);
    memset(rp, 0, sizeof rp);
    memset(ap, 0, sizeof ap);
    if (ours_record(0, edit.start).number != mine.number || memcmp(tx, tx3, mine.transcript_len) || tx[mine.transcript_len] || memcmp(rp, rp3, mine.reference_len)
        || rp[mine.reference_len] || memcmp(ap, ap3, mine.altered_len) || ap[mine.altered_len])
        fail("edit, ours");
    check_own();
#endif
}

#ifdef OURS
/* The same letters, packed, get the same answer and the same bytes. */
static void check_packed(void)
{
    static uint8_t tx5[2 * MOST], rp5[MOST], ap5[MOST];
    memset(tx, 0, sizeof tx);
    memset(rp, 0, sizeof rp);
    memset(ap, 0, sizeof ap);
    struct garumbott_answer a = ours_record(0, edit.start);
    memcpy(tx5, tx, sizeof tx);
    memcpy(rp5, rp, sizeof rp);
    memcpy(ap5, ap, sizeof ap);
    memset(tx, 0, sizeof tx);
    memset(rp, 0, sizeof rp);
    memset(ap, 0, sizeof ap);
    if (garumbott_pack(letters, ref.len, packed, sizeof packed).refusal)
        fail("letters that can't be packed");
    struct garumbott_answer b = packed_record();
    if (a.refusal || memcmp(&a, &b, sizeof a) || memcmp(tx, tx5, sizeof tx) || memcmp(rp, rp5, sizeof rp) || memcmp(ap, ap5, sizeof ap))
        fail("packed letters");
}
#endif

/* ---- the tables ---- */

static void translations(uint64_t len, int strewn)
{
    char what[64];
    make_letters(len);
    if (strewn)
        strew(len);
    /* a reference ends with a stop, or it is refused (6) before R is read */
    memcpy(letters + ref.ce - 3, "TAA", 3);
    check_translation();
    const double *best = best_of((call[]){ours_translate, rust_translate, c_translate, ours_check, ours_letters}, 5);
    snprintf(what, sizeof what, "%lu %s", (unsigned long)len, strewn ? "with ambiguous letters" : "plain");
    row(what, best[0], best[1], 0, best[2]);
#ifdef OURS
    row("  letters known", beside(best[3], best[4]), best[1], 0, best[2]);
#endif
}

/* Two strings of a length that are equal, or differ in the byte at a place, from 0, below it. */
static void prefix(uint64_t len, uint64_t place)
{
    char what[64];
    uint64_t shared = place < len ? place : len;
    make_letters(len);
    memcpy(other, letters, len);
    if (place < len) {
        other[place] ^= 1;
        snprintf(what, sizeof what, "%lu bytes, a difference at %lu", (unsigned long)len, (unsigned long)place);
    } else {
        snprintf(what, sizeof what, "prefix of two equal strings, %lu", (unsigned long)len);
    }
    if (oracle_prefix(letters, len, other, len) != shared || base_prefix(letters, len, other, len) != shared)
        fail("prefix");
#ifdef OURS
    if (garumbott_common_prefix(letters, len, other, len) != shared)
        fail("prefix, ours");
#endif
    const double *best = best_of((call[]){ours_prefix, rust_prefix, c_prefix}, 3);
    row(what, best[0], best[1], 0, best[2]);
}

static void prefixes(void)
{
    static const uint64_t places[] = {7, 8, 63, 64, 100, 5000};
    prefix(16384, 16384);
    prefix(5461, 5461);
    for (unsigned k = 0; k < sizeof places / sizeof *places; k++)
        prefix(5461, places[k]);
    for (uint64_t len = 0; len <= 20; len++)
        prefix(len, len);
}

static const struct {
    const char *name;
    uint64_t kind;
    int64_t more;
    const char *bases;
} kinds[] = {{"substitution", 1, 0, NULL},
             {"deletion of one", 2, 0, ""},
             {"duplication of three", 5, 2, ""},
             {"deletion of three", 2, 2, ""},
             {"insertion of three", 4, 1, "GCC"}};

/* The edit of that kind in the middle of a transcript, and its name. */
static void make_middle(unsigned k, uint64_t len, char what[64])
{
    make_reference(len, 0);
    int64_t middle = (int64_t)(ref.ce - ref.cs + 1) / 6 * 3 + 2;   /* the second base of a codon */
    const char *base = letters[ref.cs - 1 + middle - 1] == 'C' ? "G" : "C";
    make_edit(kinds[k].kind, middle, middle + kinds[k].more, kinds[k].bases ? kinds[k].bases : base);
    check_edit();
    snprintf(what, 64, "%lu %s", (unsigned long)len, kinds[k].name);
}

static void row_own(const char *what)
{
    const double *best = best_of((call[]){ours_record_checked, ours_anew}, 2);
    row_pair(what, best[0], best[1]);
}

static void checks(uint64_t len)
{
    char what[64];
    for (unsigned k = 0; k < 3; k++) {
        make_middle(k, len, what);
        row_own(what);
        oracle_edit_free(rust_edit);
        oracle_reference_free(rust_ref);
    }
    /* an exception before the edit */
    make_middle(2, len, what);
#ifdef OURS
    excepted = (const uint8_t *)"\0\2U";
    excepted_len = 3;
    check_own();
#endif
    snprintf(what, sizeof what, "%lu the same, with an exception", (unsigned long)len);
    row_own(what);
#ifdef OURS
    excepted_len = 0;
#endif
    oracle_edit_free(rust_edit);
    oracle_reference_free(rust_ref);
    /* the proteins part at their end: all of A is read before a byte is written */
    make_reference(len, 0);
    for (uint64_t i = ref.cs - 1; i < ref.ce - 3; i++)
        letters[i] = "GCC"[(i + 1 - ref.cs) % 3];
    edit = (struct base_edit){BASE_DUPLICATION, 0, 0, 4, 6, NULL, 0};
    oracle_reference_free(rust_ref);
#ifdef OURS
    check_own();
#endif
    snprintf(what, sizeof what, "%lu duplication in a run", (unsigned long)len);
    row_own(what);
}

static void edits(uint64_t len)
{
    for (unsigned k = 0; k < sizeof kinds / sizeof *kinds; k++) {
        char what[64];
        make_middle(k, len, what);
        const double *best = best_of((call[]){ours_anew, rust_anew, rust_anew_until, c_anew, ours_check}, 5);
        row(what, best[0], best[1], best[2], best[3]);
        double ours = beside(best[0], best[4]);
        best = best_of((call[]){NULL, rust_known, rust_known_until, c_known}, 4);
        row("  reference known", ours, best[1], best[2], best[3]);
        oracle_edit_free(rust_edit);
        oracle_reference_free(rust_ref);
    }
}

static void free_both(void)
{
    oracle_edit_free(rust_edit);
    oracle_reference_free(rust_ref);
}

/* Whole calls on packed letters beside those on bytes, of plain letters and with one in a hundred ambiguous, none of which makes a stop. */
static void packings(uint64_t len)
{
    for (int strewn = 0; strewn < 2; strewn++)
        for (unsigned k = 0; k < sizeof kinds / sizeof *kinds; k++) {
            char what[64];
            make_middle(k, len, what);
            if (strewn) {
                seed = 3;
                for (uint64_t i = 0; i < len; i++)
                    if (next() % 100 == 0 && (i < ref.ce - 3 || i >= ref.ce))
                        letters[i] = "YSWKMBDHVN"[next() % 10];
                snprintf(what, sizeof what, "%lu %s, ambiguous", (unsigned long)len, kinds[k].name);
            }
#ifdef OURS
            check_packed();
#endif
            const double *best = best_of((call[]){ours_packed, ours_anew}, 2);
            row_pair(what, best[0], best[1]);
            free_both();
        }
}

/* Whole calls, everything anew, of short and long transcripts; the check of a reference is what an edit that is refused at its positions takes. */
static void longs(void)
{
    static const uint64_t lengths[] = {16384, 65536, 131072};
    enum { LENGTHS = sizeof lengths / sizeof *lengths };
    char what[64];
    for (unsigned j = 0; j < LENGTHS; j++) {
        make_middle(0, lengths[j], what);
        const double *best = best_of((call[]){ours_check, rust_anew, rust_known, c_check}, 4);
        snprintf(what, sizeof what, "%lu check of the reference", (unsigned long)lengths[j]);
        row_long(what, lengths[j], best[0], beside(best[1], best[2]), 0, best[3]);
        free_both();
    }
    for (unsigned k = 0; k < sizeof kinds / sizeof *kinds; k++)
        for (unsigned j = 0; j < LENGTHS; j++) {
            make_middle(k, lengths[j], what);
            const double *best = best_of((call[]){ours_anew, rust_anew, rust_anew_until, c_anew}, 4);
            row_long(what, lengths[j], best[0], best[1], best[2], best[3]);
            free_both();
        }
    for (unsigned j = 0; j < LENGTHS; j++) {
        /* no frame has a stop: A is read from the first codon to the end */
        make_reference(lengths[j], 1);
        make_edit(BASE_DELETION, 5, 5, "");
        check_edit();
        const double *best = best_of((call[]){ours_anew, rust_anew, rust_anew_until, c_anew}, 4);
        snprintf(what, sizeof what, "%lu frameshift read to the end", (unsigned long)lengths[j]);
        row_long(what, lengths[j], best[0], best[1], best[2], best[3]);
        free_both();
    }
}

int main(void)
{
    static const uint64_t lengths[] = {16384, 3000, 30};
    base_init();
    printf("nanoseconds a call, the best of %d rounds; u.s. is until_stop\n", PASSES * ROUNDS);
    for (pass = 1; pass <= PASSES; pass++) {
        at = 0;
        head("translation");
        for (int strewn = 0; strewn < 2; strewn++)
            for (int k = 0; k < 3; k++)
                translations(lengths[k], strewn);
        head("common prefix");
        prefixes();
        head("edits with their record");
        edits(3000);
        edits(16384);
        head_long("whole calls by length");
        longs();
        head_pair("an edit's own record, checked", "check", "record", "check/record");
        checks(3000);
        checks(16384);
        head_pair("packed letters beside bytes", "packed", "bytes", "packed/bytes");
        packings(3000);
        packings(16384);
    }
    return 0;
}
