/* The module and the Rust of hgvs 4.0.1, given the same input in one process.
 *
 *   beside SEED EDITS [FILE]     every kind at every one and two positions of small references, then EDITS random edits and as many plain calls; then the
 *                                same edits of references cut short; with FILE, the Rust's answers are written to it
 *   beside cut LETTERS MOST      every kind at every one and two positions of every reference cut short that has at most MOST letters, of LETTERS
 *   beside replay FILE           answers as above, with no Rust at hand
 *
 * Altered transcript, altered protein (the Rust's cut at its first stop), Unknown, flag, number and parts are held equal, and where the Rust is at hand the
 * reference protein; for references cut short, class and reference protein always. A difference that docs/DIFFERENCES.md has a row for is counted under
 * that row; any other is printed, and the exit status is 1. The two sorts of reference are counted apart; `cut` shows each row's smallest input. */
#include "garumbott.h"
#ifndef REPLAY_ONLY
#include "oracle.h"
#endif
#include <stdio.h>
#include <stdlib.h>
#include <string.h>

enum { ROOM = 33000, LETTERS = 16384, MOST_BASES = 4200, EXCEPTIONS = 48 };

struct reference {
    uint8_t letters[LETTERS + 1];
    uint64_t len, cs, ce, table;
    uint8_t exceptions[EXCEPTIONS];
    uint64_t exceptions_len, end;
};

struct edit {
    uint64_t kind, start_star, end_star;
    int64_t start, end;
    uint8_t bases[MOST_BASES + 1];
    uint64_t bases_len;
};

/* What the Rust answers to an edit that the module accepts. */
struct answer {
    int answered, unknown, frameshift;
    int64_t number, deleted_len, inserted_len;
    int64_t transcript_len, altered_len;
    int64_t uncut_len, first;   /* these and form: references cut short alone */
    uint64_t form;
};

static struct reference ref;
static struct edit edit;
static struct answer rust;
static uint8_t tx[ROOM], rp[ROOM], ap[ROOM], rust_tx[ROOM], rust_ap[ROOM];
static uint64_t edits, equal, unexplained, refusals[64], unknowns, ends, plain_calls, plain_mixes;

/* ---- differences ---- */

enum row {
    SILENT_NUMBER, DELETION_TO_THE_END, INSERTION_BEHIND, MIXES,
    CUT_BEHIND, CUT_PAST, CUT_NO_CODON, CUT_NO_PROTEIN, CUT_PARTS, CUT_X_ALONE, CUT_SILENT_AT_1, CUT_COPY, CUT_COMPLETED, ROWS
};
static const char *const rows[ROWS] = {
    "silent number",
    "flag of a deletion that ends with the CDS",
    "flag of an insertion right behind the CDS",
    "Asx and Glx",
    "cut short: unknown, since the edit could lie behind the CDS",
    "cut short: unknown, since the change begins behind R",
    "cut short: unknown, since a frameshift brings no whole codon",
    "cut short: no protein, since less than a codon is left",
    "cut short: parts without the X for a rest",
    "cut short: start-lost, since that X alone changes",
    "cut short: silent at residue 1",
    "cut short: a copy that begins at residue 1",
    "cut short: a stop that the poly(A) tail completes",
};
static uint64_t counted[ROWS];
static struct {
    uint64_t len, size;
    char words[200];
} smallest[ROWS];

/* The input that is at hand, as docs/DIFFERENCES.md writes one; only short ones fit. */
static void put_words(char *out, size_t room)
{
    static const char *const verbs[] = {"?", ">", "del", "delins", "ins", "dup", "inv", "="};
    int n = snprintf(out, room, "%.*s", (int)ref.len, ref.letters);
    if (ref.cs > 1)
        n += snprintf(out + n, room - n, " cs %d", (int)ref.cs);
    if (ref.ce < ref.len)
        n += snprintf(out + n, room - n, " ce %d", (int)ref.ce);
    if (ref.table)
        n += snprintf(out + n, room - n, " table %d", (int)ref.table);
    for (uint64_t i = 0; i < ref.exceptions_len; i += 3)
        n += snprintf(out + n, room - n, " exc %d=%c", ref.exceptions[i] * 256 + ref.exceptions[i + 1], ref.exceptions[i + 2]);
    if (ref.end)
        n += snprintf(out + n, room - n, " end %d", (int)ref.end);
    n += snprintf(out + n, room - n, ", %s%d", edit.start_star ? "*" : "", (int)edit.start);
    if (edit.start_star != edit.end_star || edit.start != edit.end)
        n += snprintf(out + n, room - n, "_%s%d", edit.end_star ? "*" : "", (int)edit.end);
    snprintf(out + n, room - n, "%s%.*s", verbs[edit.kind % 8], (int)edit.bases_len, edit.bases);
}

static void show(const char *what, const struct garumbott_answer *ours);

/* Counts a difference under its row; ROWS is none. */
static void note(enum row row, const struct garumbott_answer *ours)
{
    if (row == ROWS) {
        show("no row has this", ours);
        return;
    }
    uint64_t size = edit.bases_len + ref.exceptions_len + ref.table + (edit.start != edit.end || edit.start_star != edit.end_star);
    if (ref.len + edit.bases_len < 100 && (!smallest[row].len || ref.len < smallest[row].len || (ref.len == smallest[row].len && size < smallest[row].size))) {
        smallest[row].len = ref.len;
        smallest[row].size = size;
        put_words(smallest[row].words, sizeof smallest[row].words);
    }
    counted[row]++;
}

static void show(const char *what, const struct garumbott_answer *ours)
{
    if (unexplained++ >= 20)
        return;
    printf("DIFFERENT: %s\n  ref %lu %lu %lu %.*s end %lu\n", what, (unsigned long)ref.cs, (unsigned long)ref.ce, (unsigned long)ref.table, (int)ref.len,
           ref.letters, (unsigned long)ref.end);
    for (uint64_t i = 0; i < ref.exceptions_len; i += 3)
        printf("  exception %d=%c\n", ref.exceptions[i] * 256 + ref.exceptions[i + 1], ref.exceptions[i + 2]);
    printf("  kind %lu, %s%ld to %s%ld, bases %.*s\n", (unsigned long)edit.kind, edit.start_star ? "*" : "", (long)edit.start, edit.end_star ? "*" : "",
           (long)edit.end, (int)edit.bases_len, edit.bases);
    if (ours)
        printf("  ours: answer %lu, flag %lu, number %lu, %lu deleted, %lu inserted, class %lu, transcript %lu, protein %.*s\n", (unsigned long)ours->answer,
               (unsigned long)ours->frameshift, (unsigned long)ours->number, (unsigned long)ours->deleted_len, (unsigned long)ours->inserted_len,
               (unsigned long)ours->change, (unsigned long)ours->transcript_len, (int)ours->altered_len, ap);
    printf("  Rust: unknown %d, flag %d, number %ld, %ld deleted, %ld inserted, class %lu, transcript %ld, protein %.*s\n", rust.unknown, rust.frameshift,
           (long)rust.number, (long)rust.deleted_len, (long)rust.inserted_len, (unsigned long)rust.form, (long)rust.transcript_len,
           (int)rust.altered_len, rust_ap);
}

/* ---- the module ---- */

#ifndef __x86_64__
/* The object of bench/native follows x86-64's convention on every processor: a struct above sixteen bytes is written through a first argument. */
void record_through(struct garumbott_answer *answer, const uint8_t *letters, uint64_t letters_len, uint64_t cs, uint64_t ce, uint64_t table,
                    const uint8_t *exceptions, uint64_t exceptions_len, uint64_t cds_end, uint64_t form, uint64_t size, uint64_t kind, uint64_t start_star, int64_t start, uint64_t end_star,
                    int64_t end, const uint8_t *bases, uint64_t bases_len, uint64_t longest, uint8_t *transcript, uint64_t transcript_len, uint8_t *reference,
                    uint64_t reference_len, uint8_t *altered, uint64_t altered_len) __asm__("garumbott_record");
#endif

/* The edit at hand of a reference. */
static struct garumbott_answer ours_of(const struct reference *r, uint8_t *to_tx, uint8_t *to_r, uint8_t *to_a)
{
#ifdef __x86_64__
    return garumbott_record(r->letters, r->len, r->cs, r->ce, r->table, r->exceptions, r->exceptions_len, r->end, 0, 0, edit.kind, edit.start_star, edit.start,
                            edit.end_star, edit.end, edit.bases, edit.bases_len, 0, to_tx, ROOM, to_r, ROOM, to_a, ROOM);
#else
    struct garumbott_answer answer;
    record_through(&answer, r->letters, r->len, r->cs, r->ce, r->table, r->exceptions, r->exceptions_len, r->end, 0, 0, edit.kind, edit.start_star, edit.start,
                   edit.end_star, edit.end, edit.bases, edit.bases_len, 0, to_tx, ROOM, to_r, ROOM, to_a, ROOM);
    return answer;
#endif
}

static struct garumbott_answer ours_now(void)
{
    struct garumbott_answer ours = ours_of(&ref, tx, rp, ap);
    edits++;
    if (ours.answer == GARUMBOTT_REFUSED)
        refusals[ours.refusal % 64]++;
    return ours;
}

/* ---- Asx and Glx: a codon of D and N, or of E and Q, is B or Z by request E2, and X in the Rust, by document 01 ---- */

/* The residue of a codon that is such a mix, 0 for others; either case, and U as T. */
static uint8_t mix_of(const uint8_t *codon)
{
    uint8_t first = codon[0] & 0xDF, third = codon[2] & 0xDF;
    if ((codon[1] & 0xDF) != 'A')
        return 0;
    return first == 'R' && memchr("CTUY", third, 4) ? 'B' : first == 'S' && memchr("AGR", third, 3) ? 'Z' : 0;
}

/* A residue of ours as the Rust reads it, where it reads a codon as X: X for the codon's mix. Another residue for a mix becomes a mark that the Rust's
 * proteins don't have, but for X where an exception may have given it. */
static uint8_t read_residue(const uint8_t *codon, uint8_t ours, int or_exception)
{
    uint8_t mix = mix_of(codon);
    return !mix ? ours : ours == mix || (ours == 'X' && or_exception) ? 'X' : '?';
}

/* Residues of ours, from these letters, as the Rust reads them. Gives how many change by that. */
static uint64_t read_beside(const uint8_t *letters, uint64_t letters_len, int or_exception, const uint8_t *ours, uint64_t len, const uint8_t *theirs,
                            int64_t theirs_len, uint8_t *out)
{
    uint64_t mixes = 0;
    for (uint64_t i = 0; i < len; i++) {
        int x = 3 * i + 3 <= letters_len && (int64_t)i < theirs_len && theirs[i] == 'X';
        uint8_t read = x ? read_residue(letters + 3 * i, ours[i], or_exception) : ours[i];
        mixes += read != ours[i];
        out[i] = read;
    }
    return mixes;
}

static int has_exception(const struct reference *r, uint64_t codon)
{
    for (uint64_t i = 0; i < r->exceptions_len; i += 3)
        if (r->exceptions[i] * 256u + r->exceptions[i + 1] == codon)
            return 1;
    return 0;
}

/* The same of R, by its letters and exceptions alone: the list doesn't have the Rust's. */
static uint64_t read_reference(const struct reference *r, const uint8_t *ours, uint64_t len, uint8_t *out)
{
    uint64_t mixes = 0;
    for (uint64_t i = 0; i < len; i++) {
        int whole = 3 * i + 3 <= r->ce - r->cs + 1;
        out[i] = whole && !has_exception(r, i + 1) ? read_residue(r->letters + r->cs - 1 + 3 * i, ours[i], 0) : ours[i];
        mixes += out[i] != ours[i];
    }
    return mixes;
}

/* ---- holding the two to each other ---- */

#include "cut.h"

/* The row that explains a flag which only the Rust sets, or ROWS. */
static enum row flag_row(void)
{
    int64_t size = (int64_t)(ref.ce - ref.cs + 1);
    if (edit.kind == GARUMBOTT_INSERTION && !edit.start_star && edit.start == size)
        return INSERTION_BEHIND;
    if ((edit.kind == GARUMBOTT_DELETION || edit.kind == GARUMBOTT_DELINS || edit.kind == GARUMBOTT_SUBSTITUTION) && !edit.end_star && edit.end == size
        && !edit.start_star && edit.start <= size - 3)
        return DELETION_TO_THE_END;
    return ROWS;
}

static void judge(const struct garumbott_answer *ours)
{
    if (!rust.answered) {
        show("the Rust doesn't answer", ours);
        return;
    }
    if (ref.end) {
        judge_cut(ours);
        return;
    }
    if ((ours->answer == GARUMBOTT_UNKNOWN) != rust.unknown) {
        show("Unknown", ours);
        return;
    }
    if (rust.unknown) {
        unknowns++;
        return;
    }
    if (ours->transcript_len != (uint64_t)rust.transcript_len || memcmp(tx, rust_tx, ours->transcript_len)) {
        show("altered transcript", ours);
        return;
    }
    struct reading read = read_ours(&ref, ours, tx, rp, ours->reference_len, ap);
    struct answer *record = &read.record;
    if (ours->altered_len != (uint64_t)rust.altered_len || memcmp(read_a, rust_ap, ours->altered_len)) {
        show("altered protein", ours);
        return;
    }
    if (!read.own) {
        show("our record by rule", ours);
        return;
    }
    if (ours->frameshift != (uint64_t)rust.frameshift) {
        note(!ours->frameshift ? flag_row() : ROWS, ours);
        return;
    }
    if (read.mixes && record->form == FORM_SAME) {
        struct answer e = record_by_rule(read_r, ours->reference_len, read_a, ours->altered_len, rust.frameshift, rust_silent_number(ours->transcript_len), 2);
        if (!same_parts(&e, &rust)) {
            show("number or parts of a silent edit", ours);
            return;
        }
    }
    if (record->form == FORM_SAME && record->number != rust.number) {
        note(SILENT_NUMBER, ours);
        return;
    }
    if (record->form != FORM_SAME && record->form != FORM_NO_PROTEIN && !same_parts(record, &rust)) {
        show("number or parts", ours);
        return;
    }
    agree(read.mixes, ours);
}

/* ---- what was found ---- */

static int failed, with_inputs;

/* Prints the counts and begins anew. */
static void tell(void)
{
    printf("%lu edits: %lu equal in every part, %lu Unknown on both sides\n", (unsigned long)edits, (unsigned long)equal, (unsigned long)unknowns);
    for (int k = 0; k < ROWS; k++) {
        if (counted[k])
            printf("%10lu differ as docs/DIFFERENCES.md says: %s\n", (unsigned long)counted[k], rows[k]);
        if (counted[k] && with_inputs)
            printf("%10s smallest: %s\n", "", smallest[k].words);
    }
    for (int k = 1; k < 64; k++)
        if (refusals[k])
            printf("%10lu refused with %d\n", (unsigned long)refusals[k], k);
    if (cut_references[1] + cut_references[2])
        printf("%10lu references end without a stop, %lu in a cut codon; the stops of %lu are completed by the Rust\n", (unsigned long)cut_references[1],
               (unsigned long)cut_references[2], (unsigned long)completed);
    if (ends)
        printf("%10lu ends stated: taken where the Rust finds them, refused elsewhere\n", (unsigned long)ends);
    if (plain_calls)
        printf("%10lu strings through translation, names, complement and trims\n", (unsigned long)plain_calls);
    if (plain_mixes)
        printf("%10lu of them translate as docs/DIFFERENCES.md says: %s\n", (unsigned long)plain_mixes, rows[MIXES]);
    printf("%lu unexplained\n", (unsigned long)unexplained);
    failed |= unexplained || !equal;
    edits = equal = unknowns = completed = ends = plain_calls = plain_mixes = unexplained = 0;
    memset(counted, 0, sizeof counted);
    memset(refusals, 0, sizeof refusals);
    memset(cut_references, 0, sizeof cut_references);
}

/* ---- the list: a line for each reference, one for each end that is stated, and one for each edit with its answer ---- */

/* The reference is asked for with an edit that changes nothing. */
static struct garumbott_answer ours_of_reference(void)
{
    edit = (struct edit){.kind = GARUMBOTT_IDENTITY, .start = 1, .end = 1};
    return ours_now();
}

static uint64_t take_bytes(const char *word, uint8_t *out, uint64_t room)
{
    uint64_t n = strcmp(word, "-") ? strlen(word) : 0;
    if (n > room) {
        printf("a line of the list is too long\n");
        exit(1);
    }
    memcpy(out, word, n);
    return n;
}

static void judge_end(uint64_t refusal)
{
    struct garumbott_answer ours = ours_of_reference();
    if (ours.refusal != refusal)
        show("end", &ours);
    ends++;
}

static int replay(const char *path)
{
    static char line[200000];
    FILE *in = fopen(path, "r");
    if (!in) {
        printf("%s can't be read\n", path);
        return 1;
    }
    while (fgets(line, sizeof line, in)) {
        char *words[48], *rest = line;
        int n = 0;
        for (char *word; n < 48 && (word = strtok_r(rest, " \n", &rest)); n++)
            words[n] = word;
        int whole = n >= 5 && !strcmp(words[0], "R"), cut = n >= 8 && !strcmp(words[0], "C"), stated = n >= 7 && !strcmp(words[0], "S");
        if (stated && !ends)
            tell();
        if (whole || cut || stated) {
            ref.cs = strtoull(words[1], NULL, 10);
            ref.ce = strtoull(words[2], NULL, 10);
            ref.table = strtoull(words[3], NULL, 10);
            ref.len = take_bytes(words[4], ref.letters, LETTERS);
            ref.end = whole ? GARUMBOTT_END_STOP : strtoull(words[5], NULL, 10);
            ref.exceptions_len = 0;
            for (int k = whole ? 5 : cut ? 8 : 7; k + 1 < n && ref.exceptions_len < EXCEPTIONS; k += 2) {
                unsigned long codon = strtoul(words[k], NULL, 10);
                ref.exceptions[ref.exceptions_len++] = (uint8_t)(codon >> 8);
                ref.exceptions[ref.exceptions_len++] = (uint8_t)codon;
                ref.exceptions[ref.exceptions_len++] = (uint8_t)words[k + 1][0];
            }
            if (cut) {
                rust_made.end = strtoull(words[6], NULL, 10);
                rust_made.r_len = take_bytes(words[7], rust_made.r, ROOM);
                struct garumbott_answer ours = ours_of_reference();
                judge_reference(&ours);
            }
            if (stated)
                judge_end(strtoull(words[6], NULL, 10));
        } else if (n == (ref.end ? 18 : 15) && !strcmp(words[0], "E")) {
            edit.kind = strtoull(words[1], NULL, 10);
            edit.start_star = strtoull(words[2], NULL, 10);
            edit.start = strtoll(words[3], NULL, 10);
            edit.end_star = strtoull(words[4], NULL, 10);
            edit.end = strtoll(words[5], NULL, 10);
            edit.bases_len = take_bytes(words[6], edit.bases, MOST_BASES);
            rust.answered = atoi(words[7]);
            rust.unknown = atoi(words[8]);
            rust.frameshift = atoi(words[9]);
            rust.number = strtoll(words[10], NULL, 10);
            rust.deleted_len = strtoll(words[11], NULL, 10);
            rust.inserted_len = strtoll(words[12], NULL, 10);
            rust.transcript_len = (int64_t)take_bytes(words[13], rust_tx, ROOM);
            rust.altered_len = (int64_t)take_bytes(words[14], rust_ap, ROOM);
            if (ref.end) {
                rust.uncut_len = strtoll(words[15], NULL, 10);
                rust.form = strtoull(words[16], NULL, 10);
                rust.first = strtoll(words[17], NULL, 10);
            }
            struct garumbott_answer ours = ours_now();
            judge(&ours);
        } else {
            printf("%s has a line of another form\n", path);
            return 1;
        }
    }
    fclose(in);
    return 0;
}

#ifndef REPLAY_ONLY
/* ---- the Rust ---- */

static struct oracle_reference *rust_ref, *rust_ended;
static int64_t added;
static FILE *list;
static uint64_t seed;

static void put_bytes(const uint8_t *s, int64_t n)
{
    fprintf(list, n > 0 ? " %.*s" : " -", (int)n, s);
}

static void put_letters(char sort)
{
    fprintf(list, "%c %lu %lu %lu", sort, (unsigned long)ref.cs, (unsigned long)ref.ce, (unsigned long)ref.table);
    put_bytes(ref.letters, (int64_t)ref.len);
}

static void put_exceptions(void)
{
    for (uint64_t i = 0; i < ref.exceptions_len; i += 3)
        fprintf(list, " %d %c", ref.exceptions[i] * 256 + ref.exceptions[i + 1], ref.exceptions[i + 2]);
    fprintf(list, "\n");
}

static void put_reference(void)
{
    if (!list)
        return;
    put_letters(ref.end ? 'C' : 'R');
    if (ref.end) {
        fprintf(list, " %lu %lu", (unsigned long)ref.end, (unsigned long)rust_made.end);
        put_bytes(rust_made.r, (int64_t)rust_made.r_len);
    }
    put_exceptions();
}

static void put_end(uint64_t refusal)
{
    if (!list)
        return;
    put_letters('S');
    fprintf(list, " %lu %lu", (unsigned long)ref.end, (unsigned long)refusal);
    put_exceptions();
}

static void put_edit(void)
{
    if (!list)
        return;
    fprintf(list, "E %lu %lu %ld %lu %ld", (unsigned long)edit.kind, (unsigned long)edit.start_star, (long)edit.start, (unsigned long)edit.end_star,
            (long)edit.end);
    put_bytes(edit.bases, (int64_t)edit.bases_len);
    fprintf(list, " %d %d %d %ld %ld %ld", rust.answered, rust.unknown, rust.frameshift, (long)rust.number, (long)rust.deleted_len, (long)rust.inserted_len);
    int builds = !rust.unknown || (ref.end && !edit.end_star);
    put_bytes(rust_tx, builds ? rust.transcript_len : 0);
    put_bytes(rust_ap, builds ? rust.altered_len : 0);
    if (ref.end)
        fprintf(list, " %ld %lu %ld", (long)rust.uncut_len, (unsigned long)rust.form, (long)rust.first);
    fprintf(list, "\n");
}

static void ask_rust(void)
{
    static uint8_t other_tx[ROOM], other_ap[ROOM], moved[256];
    rust = (struct answer){0};
    struct oracle_edit *e = oracle_edit_new(edit.kind, edit.start_star, edit.start, edit.end_star, edit.end, edit.bases, edit.bases_len);
    if (!e)
        return;
    struct oracle_answer a = oracle_edit(rust_ref, e, 0, 1, rust_tx, ROOM, rust_ap, ROOM, moved, sizeof moved);
    struct oracle_answer b = oracle_edit(rust_ref, e, 1, 1, other_tx, ROOM, other_ap, ROOM, moved, sizeof moved);
    if (memcmp(&a, &b, sizeof a) || (a.altered_len > 0 && memcmp(rust_ap, other_ap, (size_t)a.altered_len)))
        show("the Rust with until_stop", NULL);
    rust = (struct answer){(int)a.answered, (int)a.unknown, (int)a.frameshift, a.number, a.deleted_len, a.inserted_len, a.transcript_len, a.altered_len,
                           a.uncut_len, a.first, a.form};
    if (ref.end && a.unknown && !edit.end_star) {
        /* it builds nothing of an edit that could lie behind the CDS: the same edit with a stop there shows what it would build */
        a = oracle_edit(rust_ended, e, 0, 1, rust_tx, ROOM, rust_ap, ROOM, moved, sizeof moved);
        rust.frameshift = (int)a.frameshift;
        rust.transcript_len = a.transcript_len - added;
        rust.altered_len = a.altered_len;
    }
    oracle_edit_free(e);
}

/* The edit on both sides; the Rust is asked where document 01 accepts it. */
static void try_edit(void)
{
    struct garumbott_answer ours = ours_now();
    if (ours.answer == GARUMBOTT_REFUSED)
        return;
    ask_rust();
    put_edit();
    if (ours.answer != GARUMBOTT_UNKNOWN && (ours.reference_len != own_r_len || memcmp(rp, own_r, own_r_len)))
        show("reference protein", &ours);
    judge(&ours);
}

/* The reference at hand, its last codon made whole with letters C, and a stop behind it. */
static void make_ended(void)
{
    static uint8_t letters[LETTERS + 5];
    uint64_t len = ref.len;
    memcpy(letters, ref.letters, len);
    while ((len - ref.cs + 1) % 3)
        letters[len++] = 'C';
    memcpy(letters + len, "TAA", 3);
    len += 3;
    added = (int64_t)(len - ref.len);
    if (rust_ended)
        oracle_reference_free(rust_ended);
    rust_ended = oracle_reference_new(letters, len, (int64_t)ref.cs, (int64_t)len, ref.table, ref.exceptions, ref.exceptions_len);
}

/* Makes the reference on both sides; 0 where document 01 refuses it. */
static int take_reference(void)
{
    struct garumbott_answer ours = ours_of_reference();
    if (ours.answer == GARUMBOTT_REFUSED)
        return 0;
    if (rust_ref)
        oracle_reference_free(rust_ref);
    rust_ref = oracle_reference_new(ref.letters, ref.len, (int64_t)ref.cs, (int64_t)ref.ce, ref.table, ref.exceptions, ref.exceptions_len);
    if (!rust_ref) {
        show("a reference that the Rust refuses", &ours);
        return 0;
    }
    if (ref.end)
        make_ended();
    rust_made.end = oracle_reference_end(rust_ref);
    rust_made.r_len = (uint64_t)oracle_reference_protein(rust_ref, rust_made.r, ROOM);
    /* of an Unknown, nothing is written */
    if ((ref.end || ours.answer != GARUMBOTT_UNKNOWN) && !judge_reference(&ours))
        return 0;
    put_reference();
    return 1;
}

/* ---- inputs ---- */

static uint64_t next(uint64_t below)
{
    seed = seed * 6364136223846793005u + 1442695040888963407u;
    return (seed >> 33) % below;
}

static void set_reference(const char *letters, uint64_t cs, uint64_t ce, uint64_t table)
{
    ref.len = strlen(letters);
    memcpy(ref.letters, letters, ref.len);
    ref.cs = cs;
    ref.ce = ce;
    ref.table = table;
    ref.exceptions_len = 0;
    ref.end = GARUMBOTT_END_STOP;
}

static void set_bases(const char *bases)
{
    edit.bases_len = strlen(bases);
    memcpy(edit.bases, bases, edit.bases_len);
}

static void every_edit(int64_t size, int64_t stars)
{
    static const char *const bases[] = {"A", "C", "TAA", "GT", "TAGC", "NNR", "TGACTG"};
    int64_t places = size + 1 + stars;   /* -2, -1, 0 .. size, then *1, *2 .. */
    for (int64_t a = -2; a < places; a++)
        for (int64_t b = -2; b < places; b++) {
            edit.start_star = a > size;
            edit.start = a > size ? a - size : a;
            edit.end_star = b > size;
            edit.end = b > size ? b - size : b;
            for (edit.kind = 1; edit.kind <= 7; edit.kind++) {
                set_bases("");
                if (edit.kind == GARUMBOTT_SUBSTITUTION || edit.kind == GARUMBOTT_DELINS || edit.kind == GARUMBOTT_INSERTION)
                    for (unsigned k = 0; k < sizeof bases / sizeof *bases; k++) {
                        set_bases(bases[k]);
                        try_edit();
                    }
                else
                    try_edit();
            }
        }
}

static void small_references(void)
{
    static const struct {
        const char *letters;
        uint64_t cs, ce;
    } small[] = {{"ATGTAA", 1, 6}, {"AATGTAAC", 2, 7}, {"ATGAAATAA", 1, 9}, {"GGATGGCCAAATGGTAACCTGAC", 3, 17}, {"CCTGGTAGTAATT", 3, 8},
                 {"ATGARATARCC", 1, 9}, {"GGGATGAGA", 1, 9}, {"ATGTGATAAGG", 1, 9}, {"NATGNNNTAGAAATAAC", 2, 10}};
    for (unsigned k = 0; k < sizeof small / sizeof *small; k++)
        for (uint64_t table = 0; table < 3; table++)
            for (int with = 0; with < 2; with++) {
                set_reference(small[k].letters, small[k].cs, small[k].ce, table);
                if (with) {
                    memcpy(ref.exceptions, "\0\2U", 3);
                    ref.exceptions_len = 3;
                }
                if (take_reference())
                    every_edit((int64_t)(ref.ce - ref.cs + 1), 8);
            }
}

/* Of the ends that a host can state, the module takes the one that the Rust finds in the letters, and refuses a stop before it. */
static void judge_ends(void)
{
    static uint8_t r[ROOM];
    uint64_t size = ref.ce - ref.cs + 1, found = 0;
    struct oracle_reference *made = oracle_reference_new(ref.letters, ref.len, (int64_t)ref.cs, (int64_t)ref.ce, ref.table, ref.exceptions, ref.exceptions_len);
    int stops = 1;   /* where the Rust gives an error */
    if (made) {
        found = oracle_reference_end(made);
        stops = oracle_reference_protein(made, r, ROOM) > 0 && memchr(r, '*', size / 3) != NULL;
        oracle_reference_free(made);
    }
    for (ref.end = 0; ref.end < 4; ref.end++) {
        uint64_t refusal = ref.end == GARUMBOTT_END_STOP ? (found == GARUMBOTT_END_STOP ? 0 : GARUMBOTT_REFUSAL_LAST_CODON)
                                                         : (stops || ref.end > 2 ? GARUMBOTT_REFUSAL_END : 0);
        if ((size % 3 != 0) != (ref.end == GARUMBOTT_END_CUT_CODON))
            refusal = GARUMBOTT_REFUSAL_BOUNDS;
        put_end(refusal);
        judge_end(refusal);
    }
}

static void small_cut_references(void)
{
    static const struct {
        const char *letters;
        uint64_t cs;
    } small[] = {{"ATGTAA", 1}, {"ATGTAAGCC", 1}, {"ATGTAAGC", 1}, {"ATGGCC", 1}, {"AAAAAAA", 1}, {"ATGGCCT", 1}, {"ATGGCCTA", 1},
                 {"CATGAAAC", 2}, {"GGATGGCCAAATGG", 3}, {"ATGTGAGC", 1}, {"ATGAGAATAG", 1}, {"NATGNNNAGNN", 2}, {"ATGNNN", 1}};
    for (unsigned k = 0; k < sizeof small / sizeof *small; k++)
        for (uint64_t table = 0; table < 3; table++)
            for (int with = 0; with < 2; with++) {
                uint64_t len = strlen(small[k].letters);
                set_reference(small[k].letters, small[k].cs, len, table);
                if (with) {
                    memcpy(ref.exceptions, "\0\2U", 3);
                    ref.exceptions_len = 3;
                }
                judge_ends();
                ref.end = (len - ref.cs + 1) % 3 ? GARUMBOTT_END_CUT_CODON : GARUMBOTT_END_NO_STOP;
                if (take_reference())
                    every_edit((int64_t)(ref.ce - ref.cs + 1), 1);
            }
}

/* Every kind of edit that isn't refused, at every one and two positions, with few new bases. */
static void every_cut_edit(const char *letters)
{
    static const char *const more[] = {"TA", "TAA", "ATGA", "GTAAC", "NNN"};
    int64_t size = (int64_t)(ref.ce - ref.cs + 1), before = (int64_t)ref.cs - 1;
    for (edit.kind = 1; edit.kind <= 7; edit.kind++)
        for (edit.start = -before; edit.start <= size; edit.start++)
            for (edit.end = edit.start; edit.end <= size + 1; edit.end++) {
                edit.start_star = 0;
                edit.end_star = edit.end > size;
                if (edit.end_star)
                    edit.end = 1;
                int64_t span = edit.end_star ? size + 1 - edit.start : edit.end - edit.start;
                set_bases("");
                if (edit.kind == GARUMBOTT_SUBSTITUTION || edit.kind == GARUMBOTT_DELINS || edit.kind == GARUMBOTT_INSERTION) {
                    for (const char *c = letters; *c; c++) {
                        edit.bases[0] = (uint8_t)*c;
                        edit.bases_len = 1;
                        try_edit();
                    }
                    for (unsigned k = 0; k < sizeof more / sizeof *more && edit.kind != GARUMBOTT_SUBSTITUTION; k++) {
                        set_bases(more[k]);
                        try_edit();
                    }
                } else {
                    try_edit();
                }
                if (edit.end_star || (edit.kind == GARUMBOTT_SUBSTITUTION && span == 0) || (edit.kind == GARUMBOTT_INSERTION && span == 1))
                    break;
            }
}

/* The references cut short that have `len` letters and begin as this one does. */
static void every_cut_reference(const char *letters, uint64_t at, uint64_t len)
{
    if (at < len) {
        for (const char *c = letters; *c; c++) {
            ref.letters[at] = (uint8_t)*c;
            every_cut_reference(letters, at + 1, len);
        }
        return;
    }
    ref.len = ref.ce = len;
    ref.exceptions_len = 0;
    for (ref.cs = 1; ref.cs <= 2 && len - ref.cs + 1 >= 6; ref.cs++)
        for (ref.table = 0; ref.table < 3; ref.table++) {
            judge_ends();
            ref.end = (len - ref.cs + 1) % 3 ? GARUMBOTT_END_CUT_CODON : GARUMBOTT_END_NO_STOP;
            if (take_reference())
                every_cut_edit(letters);
        }
}

static const char *some_letters(void)
{
    static const char *const choices[] = {"ACGT", "ACGT", "ACGT", "AGT", "ACGTACGTACGTRYSWKMBDHVN"};
    return choices[next(5)];
}

static void random_letters(uint8_t *out, uint64_t n)
{
    const char *of = some_letters();
    for (uint64_t i = 0; i < n; i++)
        out[i] = (uint8_t)of[next(strlen(of))];
}

static void random_exceptions(uint64_t codons)
{
    ref.exceptions_len = 0;
    for (uint64_t codon = 1; next(3) == 0 && ref.exceptions_len < EXCEPTIONS && (codon += next(codons + 1)) <= codons; codon++) {
        ref.exceptions[ref.exceptions_len++] = (uint8_t)(codon >> 8);
        ref.exceptions[ref.exceptions_len++] = (uint8_t)codon;
        ref.exceptions[ref.exceptions_len++] = (uint8_t)"UOWKX"[next(5)];
    }
}

static void random_reference(void)
{
    static const char *const stops[] = {"TAA", "TAG", "TGA", "TAR", "AGA", "AGG"};
    uint64_t scale = next(40), codons = scale ? 1 + next(12) : 1 + next(300), before = next(2) ? next(6) : 0, behind = next(3) ? next(20) : 0;
    if (next(2000) == 0)
        codons = 5000;
    ref.cs = before + 1;
    ref.ce = before + 3 * codons + 3;
    ref.len = ref.ce + behind;
    ref.table = next(2) ? 0 : next(3);
    random_letters(ref.letters, ref.len);
    /* mostly one stop, at the end: with more, every answer is Unknown */
    for (uint64_t i = before; i + 3 < ref.ce; i += 3)
        if (ref.letters[i] == 'T' && next(50))
            ref.letters[i] = 'C';
    for (uint64_t i = before; ref.table == 2 && i + 3 < ref.ce; i += 3)
        if (ref.letters[i + 1] == 'G' && next(50))
            ref.letters[i + 1] = 'C';
    memcpy(ref.letters + ref.ce - 3, stops[next(6)], 3);
    ref.end = GARUMBOTT_END_STOP;
    random_exceptions(codons);
}

/* Mostly without a stop, as such a reference must be. */
static void random_cut_reference(void)
{
    uint64_t codons = next(40) ? 2 + next(8) : 2 + next(300), before = next(2) ? next(6) : 0, rest = next(3);
    if (next(2000) == 0)
        codons = 5000;
    ref.cs = before + 1;
    ref.ce = ref.len = before + 3 * codons + rest;
    ref.end = rest ? GARUMBOTT_END_CUT_CODON : GARUMBOTT_END_NO_STOP;
    ref.table = next(2) ? 0 : next(3);
    random_letters(ref.letters, ref.len);
    for (uint64_t i = before; i + 3 <= ref.len; i += 3) {
        if (ref.letters[i] == 'T' && next(50))
            ref.letters[i] = 'C';
        if (ref.table == 2 && ref.letters[i + 1] == 'G' && next(50))
            ref.letters[i + 1] = 'C';
    }
    random_exceptions(codons);
    /* an exception may stand over a stop, which an edit then lays bare */
    for (uint64_t i = 0; i < ref.exceptions_len; i += 3)
        if (next(2))
            memcpy(ref.letters + before + 3 * (ref.exceptions[i] * 256 + ref.exceptions[i + 1] - 1), next(2) ? "TAA" : "TAG", 3);
}

static void random_position(uint64_t *star, int64_t *at)
{
    int64_t size = (int64_t)(ref.ce - ref.cs + 1), behind = (int64_t)(ref.len - ref.ce);
    uint64_t where = next(12);
    *star = where == 0;
    *at = where == 0 ? (int64_t)next((uint64_t)behind + 2) : where == 1 ? -(int64_t)next(ref.cs + 1) : 1 + (int64_t)next((uint64_t)size);
}

static void random_edit(void)
{
    int64_t size = (int64_t)(ref.ce - ref.cs + 1);
    edit.kind = 1 + next(7);
    random_position(&edit.start_star, &edit.start);
    if (next(3) == 0)
        random_position(&edit.end_star, &edit.end);
    else {
        edit.end_star = edit.start_star;
        edit.end = edit.start + (edit.kind == GARUMBOTT_INSERTION ? 1 : edit.kind == GARUMBOTT_SUBSTITUTION ? 0 : (int64_t)next(9));
        if (!edit.end_star && edit.end > size) {
            edit.end_star = 1;
            edit.end -= size;
        }
    }
    edit.bases_len = edit.kind == GARUMBOTT_SUBSTITUTION ? 1 : edit.kind == GARUMBOTT_DELINS || edit.kind == GARUMBOTT_INSERTION ? 1 + next(12) : 0;
    if (edit.bases_len > 1 && next(1000) == 0)
        edit.bases_len = 4096;
    random_letters(edit.bases, edit.bases_len);
    if (edit.bases_len > 2 && next(3) == 0)
        memcpy(edit.bases + edit.bases_len - 3, next(2) ? "TAA" : "TAG", 3);
}

/* ---- plain calls ---- */

static void differ(const char *what, const uint8_t *s, uint64_t n)
{
    if (unexplained++ < 20)
        printf("DIFFERENT: %s of %.*s\n", what, (int)n, s);
}

static void plain(void)
{
    static uint8_t s[600], t[600], ours[2000], theirs[2000];
    static const char *const of[] = {"ACGT", "ACGTUacgtu", "ACGTRYSWKMBDHVNacgtryswkmbdhvnUu", "ACGTACGTACGTACGTACGTACGTZ", "ACDEFGHIKLMNPQRSTVWYUXBZ*",
                                     "AlaArgAsnTerXaaSec", "ABCDEFGHIJKLMNOPQRSTUVWXYZabcdefghijklmnopqrstuvwxyz*-"};
    const char *letters = of[next(7)];
    uint64_t n = next(4) ? next(40) : next(600), m = next(3) ? n : next(n + 1), table = next(3), full = next(2);
    for (uint64_t i = 0; i < n; i++)
        s[i] = (uint8_t)letters[next(strlen(letters))];
    memcpy(t, s, n);
    if (m && next(2))
        t[next(m)] ^= 1;
    plain_calls++;
    struct garumbott_length a = garumbott_translate(s, n, table, full, NULL, 0, ours, sizeof ours);
    int64_t b = oracle_translate(s, n, full, table, theirs, sizeof theirs);
    plain_mixes += !a.refusal && read_beside(s, n, 0, ours, a.len, theirs, b, ours);
    if (a.refusal ? b >= 0 : b != (int64_t)a.len || memcmp(ours, theirs, a.len))
        differ("translation", s, n);
    a = garumbott_names3(s, n, ours, sizeof ours);
    b = oracle_names3(s, n, theirs, sizeof theirs);
    if (a.refusal ? b >= 0 : b != (int64_t)a.len || memcmp(ours, theirs, a.len))
        differ("three-letter names", s, n);
    a = garumbott_names1(s, n, ours, sizeof ours);
    b = oracle_names1(s, n, theirs, sizeof theirs);
    if (a.refusal ? b >= 0 : b != (int64_t)a.len || memcmp(ours, theirs, a.len))
        differ("one-letter names", s, n);
    a = garumbott_complement(s, n, ours, sizeof ours);
    b = oracle_complement(s, n, theirs, sizeof theirs);
    if (!a.refusal && (b != (int64_t)a.len || memcmp(ours, theirs, a.len)))
        differ("complement", s, n);
    if (garumbott_common_prefix(s, n, t, m) != oracle_prefix(s, n, t, m) || (int64_t)garumbott_common_prefix(s, n, t, m) != oracle_trim_prefix(s, n, t, m))
        differ("common prefix", s, n);
    if ((int64_t)garumbott_common_suffix(s, n, t, m) != oracle_trim_suffix(s, n, t, m))
        differ("common suffix", s, n);
}

static void run(uint64_t count)
{
    small_references();
    for (uint64_t done = 0; done < count;) {
        random_reference();
        if (!take_reference())
            continue;
        for (uint64_t k = ref.len > 2000 ? 20 : 200; k > 0; k--, done++) {
            random_edit();
            try_edit();
            plain();
        }
    }
    tell();
    small_cut_references();
    for (uint64_t done = 0; done < count;) {
        random_cut_reference();
        if (!take_reference())
            continue;
        for (uint64_t k = ref.len > 2000 ? 20 : 100; k > 0; k--, done++) {
            random_edit();
            try_edit();
        }
    }
}
#endif

int main(int argc, char **argv)
{
    if (argc == 3 && !strcmp(argv[1], "replay")) {
        if (replay(argv[2]))
            return 1;
#ifndef REPLAY_ONLY
    } else if (argc == 4 && !strcmp(argv[1], "cut")) {
        with_inputs = 1;
        for (uint64_t len = 6; len <= strtoull(argv[3], NULL, 10) && len <= 12; len++)
            every_cut_reference(argv[2], 0, len);
    } else if (argc == 3 || argc == 4) {
        seed = strtoull(argv[1], NULL, 10);
        list = argc == 4 ? fopen(argv[3], "w") : NULL;
        run(strtoull(argv[2], NULL, 10));
        if (list)
            fclose(list);
#endif
    } else {
        printf("beside SEED EDITS [FILE], beside cut LETTERS MOST, or beside replay FILE\n");
        return 2;
    }
    tell();
    return failed;
}
