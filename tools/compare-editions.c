/* compare-editions: prints the codons in which two editions of a transcript differ. The files are read and their lines taken apart here; a stored reference is read
 * by garumbott_read_stored, and which codons differ, and how they read, is the library's answer, by garumbott_compare.
 *
 *     compare-editions FIRST SECOND
 *
 * A file whose first four bytes are "ref " has a reference in text: its first line is `ref CS CE TABLE LETTERS`, as for annotate, of at most 16,384 letters,
 * and what stands behind that line isn't looked at. Any other file is a stored reference. A stored one can't begin so: its first byte is a tag, at most 8, and 'r' is 114.
 *
 * A difference is a line, NUMBER FIRST SECOND: the codon's number and how each edition reads it, - for an edition that hasn't got it. Standard error says how many
 * codons were compared and how many differ. Exit status: 0, or 1 where a file can't be read, a reference is refused or an answer can't be written. */
#include "garumbott.h"
#include "lines.h"
#include <inttypes.h>
#include <stdbool.h>
#include <stdio.h>
#include <stdlib.h>
#include <string.h>

/* No stored reference is longer. */
enum { LONGEST_FILE = 1 << 20 };

static void fail(const char *file, const char *words)
{
    fprintf(stderr, "compare-editions: %s: %s\n", file, words);
    exit(1);
}

static void refused(const char *file, uint64_t number)
{
    fprintf(stderr, "compare-editions: %s is refused with %" PRIu64 ": %s\n", file, number, garumbott_refusal_words(number));
    exit(1);
}

struct edition {
    const char *name;
    uint8_t *bytes; /* of the file, and behind them room for letters that stand in several fields */
    size_t len;
    bool in_text;
    struct garumbott_reference reference;
};

static void read_file(struct edition *x)
{
    FILE *f = fopen(x->name, "rb");
    if (f == NULL) fail(x->name, "can't be read");
    x->bytes = malloc(LONGEST_FILE + 1 + GARUMBOTT_LONGEST);
    if (x->bytes == NULL) fail(x->name, "there is no memory for it");
    x->len = fread(x->bytes, 1, LONGEST_FILE + 1, f);
    if (ferror(f)) fail(x->name, "can't be read");
    fclose(f);
}

/* ---- a reference in text ------------------------------------------------------------------------------------------------------------ */

static bool read_line(struct edition *x)
{
    const uint8_t *feed = memchr(x->bytes, '\n', x->len);
    struct text s = {x->bytes, feed == NULL ? x->bytes + x->len : feed};
    return s.end - s.at <= LONGEST_LINE && take_reference(&s, &x->reference);
}

/* ---- a stored one ------------------------------------------------------------------------------------------------------------------- */

static void read_stored(struct edition *x)
{
    uint8_t *joined = x->bytes + x->len;
    struct garumbott_stored stored = garumbott_read_stored(x->bytes, x->len, joined, GARUMBOTT_LONGEST);
    if (stored.refusal != 0) refused(x->name, stored.refusal);
    x->reference = garumbott_reference_at(&stored, x->bytes, joined);
}

static void open_edition(struct edition *x, const char *name)
{
    memset(x, 0, sizeof *x);
    x->name = name;
    read_file(x);
    x->in_text = x->len >= 4 && memcmp(x->bytes, "ref ", 4) == 0;
    if (!x->in_text) {
        read_stored(x);
    } else if (!read_line(x)) {
        fprintf(stderr, "compare-editions: %s: its first line isn't in the form: ref CS CE TABLE LETTERS\n", name);
        exit(1);
    }
}

/* ---- the differences ---------------------------------------------------------------------------------------------------------------- */

/* The text program's limit, in 1's place. */
static bool is_long_line(const struct edition *x)
{
    return x->in_text && x->reference.letters_len > TEXT_LONGEST;
}

static int shown(uint8_t residue)
{
    return residue == 0 ? '-' : residue;
}

int main(int argc, char **argv)
{
    static uint8_t list[GARUMBOTT_DIFFERENCES_ROOM];
    struct edition first, second;
    if (argc != 3) {
        fprintf(stderr, "compare-editions: two files, each with a reference: compare-editions FIRST SECOND\n");
        return 1;
    }
    open_edition(&first, argv[1]);
    open_edition(&second, argv[2]);
    if (is_long_line(&first)) refused(first.name, GARUMBOTT_REFUSAL_LENGTH);
    struct garumbott_length n = garumbott_compare_of(&first.reference, &second.reference, list, sizeof list);
    if (n.refusal != 0 && n.refusal < GARUMBOTT_OF_SECOND) refused(first.name, n.refusal);
    if (is_long_line(&second)) refused(second.name, GARUMBOTT_REFUSAL_LENGTH);
    if (n.refusal != 0) refused(second.name, n.refusal - GARUMBOTT_OF_SECOND);
    for (const uint8_t *d = list; d != list + n.len; d += GARUMBOTT_DIFFERENCE_BYTES)
        printf("%d %c %c\n", d[0] * 256 + d[1], shown(d[2]), shown(d[3]));
    if (fflush(stdout) != 0 || ferror(stdout)) {
        fprintf(stderr, "compare-editions: standard output can't be written: answers are missing\n");
        return 1;
    }
    uint64_t codons = garumbott_reference_room(first.reference.cs, first.reference.ce), others = garumbott_reference_room(second.reference.cs, second.reference.ce);
    fprintf(stderr, "compare-editions: %" PRIu64 " codons compared, %" PRIu64 " differ\n", codons > others ? codons : others, n.len / GARUMBOTT_DIFFERENCE_BYTES);
    return 0;
}
