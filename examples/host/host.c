/* host [FILE [END [SETTINGS]]]: answers the edit lines of FILE, or of standard input, through the library. It reads and prints what the text program annotate
 * does; here the lines are taken apart in C, and only the answers come from the library. Standard error gets the reason of each refusal.
 * END says how the reference's CDS ends, which its line can't: 0 at a stop, 1 without one, 2 in one or two bases of a codon. Left out, it is 0.
 * SETTINGS is a file with the stored settings of a bench: whether its profile is on, by which names residues are printed, and the longest edit. The
 * table is the reference line's.
 *
 *     ref CS CE TABLE LETTERS      first line: the reference
 *     8A>G  5del  4_6delinsTT      then an edit a line; positions 7, -2, *3
 */
#include <garumbott.h>
#include <stdbool.h>
#include <stdio.h>
#include <stdlib.h>
#include <string.h>

enum { LONGEST_LINE = 20480, MOST_DIGITS = 5 };

/* ---- lines -------------------------------------------------------------------------------------------------------------------------- */

struct line {
    char text[LONGEST_LINE + 1]; /* ends in a zero byte */
    size_t len;
    bool good;            /* not too long, and without a zero byte */
    unsigned long number; /* from 1 */
};

/* The next line, without its line feed; false where nothing is left. */
static bool next_line(FILE *in, unsigned long number, struct line *line)
{
    int c = getc(in);
    if (c == EOF) return false;
    line->len = 0;
    line->good = true;
    line->number = number;
    for (; c != EOF && c != '\n'; c = getc(in)) {
        if (line->len == LONGEST_LINE || c == 0) {
            line->good = false;
        } else {
            line->text[line->len++] = (char)c;
        }
    }
    line->text[line->len] = 0;
    return true;
}

/* Each of these takes its part from the text and moves behind it, or leaves the text where it is and answers false. */

static bool take(const char **s, const char *word)
{
    size_t n = strlen(word);
    if (strncmp(*s, word, n) != 0) return false;
    *s += n;
    return true;
}

/* Decimal, at most five digits, no leading zero but in a lone 0. */
static bool take_number(const char **s, uint64_t *n)
{
    size_t digits = strspn(*s, "0123456789");
    if (digits == 0 || digits > MOST_DIGITS || ((*s)[0] == '0' && digits > 1)) return false;
    *n = 0;
    for (size_t i = 0; i < digits; i++) *n = 10 * *n + (uint64_t)((*s)[i] - '0');
    *s += digits;
    return true;
}

static bool take_position(const char **s, uint64_t *star, int64_t *number)
{
    const char *t = *s;
    bool minus = take(&t, "-");
    uint64_t n;
    *star = !minus && take(&t, "*");
    if (!take_number(&t, &n)) return false;
    *number = minus ? -(int64_t)n : (int64_t)n;
    *s = t;
    return true;
}

/* One or more bytes A to Z. */
static bool take_letters(const char **s, const uint8_t **letters, uint64_t *len)
{
    *letters = (const uint8_t *)*s;
    *len = 0;
    while (**s >= 'A' && **s <= 'Z') {
        ++*s;
        ++*len;
    }
    return *len != 0;
}

static bool read_reference(const struct line *line, struct garumbott_reference *r)
{
    const char *s = line->text;
    memset(r, 0, sizeof *r);
    return line->good && take(&s, "ref ") && take_number(&s, &r->cs) && take(&s, " ") && take_number(&s, &r->ce) && take(&s, " ")
        && take_number(&s, &r->table) && take(&s, " ") && take_letters(&s, &r->letters, &r->letters_len) && *s == 0;
}

/* An edit, and the base that a substitution names. */
static bool read_edit(const struct line *line, struct garumbott_coding_edit *e, uint64_t *base)
{
    const char *s = line->text;
    const uint8_t *named;
    uint64_t named_len;
    memset(e, 0, sizeof *e);
    *base = 0;
    if (!line->good || !take_position(&s, &e->start_star, &e->start)) return false;
    e->end_star = e->start_star;
    e->end = e->start;
    if (take(&s, "_") && !take_position(&s, &e->end_star, &e->end)) return false;
    if (take(&s, "delins")) {
        e->kind = GARUMBOTT_DELINS;
    } else if (take(&s, "ins")) {
        e->kind = GARUMBOTT_INSERTION;
    } else if (take(&s, "del")) {
        e->kind = GARUMBOTT_DELETION;
    } else if (take(&s, "dup")) {
        e->kind = GARUMBOTT_DUPLICATION;
    } else if (take(&s, "inv")) {
        e->kind = GARUMBOTT_INVERSION;
    } else if (take(&s, "=")) {
        e->kind = GARUMBOTT_IDENTITY;
    } else { /* only the profile looks at the base that a substitution names */
        e->kind = GARUMBOTT_SUBSTITUTION;
        if (!take_letters(&s, &named, &named_len) || named_len != 1 || !take(&s, ">")) return false;
        *base = *named;
    }
    bool has_bases = e->kind == GARUMBOTT_DELINS || e->kind == GARUMBOTT_INSERTION || e->kind == GARUMBOTT_SUBSTITUTION;
    if (has_bases && !take_letters(&s, &e->bases, &e->bases_len)) return false;
    return *s == 0 && (e->kind != GARUMBOTT_SUBSTITUTION || e->bases_len == 1);
}

/* ---- settings ----------------------------------------------------------------------------------------------------------------------- */

/* Without a store: no profile, names of one letter, and the library's own longest edit. */
static struct garumbott_settings settings = {.width = 1};

static bool read_settings(const char *path)
{
    uint8_t store[GARUMBOTT_SETTINGS_ROOM + 1]; /* a byte more than a store has, so that a longer file is seen */
    FILE *in = fopen(path, "rb");
    if (in == NULL) {
        perror(path);
        return false;
    }
    size_t len = fread(store, 1, sizeof store, in);
    fclose(in);
    settings = garumbott_read_settings(GARUMBOTT_SETTINGS_SECOND, store, len);
    if (settings.refusal == 0) return true;
    fprintf(stderr, "%s: refused %d: %s\n", path, (int)settings.refusal, settings.newer ? "its settings are of a newer version" : garumbott_refusal_words(settings.refusal));
    return false;
}

/* ---- answers ------------------------------------------------------------------------------------------------------------------------ */

static uint8_t transcript[GARUMBOTT_TRANSCRIPT_ROOM], reference[GARUMBOTT_REFERENCE_ROOM], altered[GARUMBOTT_ALTERED_ROOM];
static const struct garumbott_buffers buffers = {transcript, sizeof transcript, reference, sizeof reference, altered, sizeof altered};

static void print_refused(const struct line *line, uint64_t number)
{
    printf("refused %d\n", (int)number);
    fprintf(stderr, "line %lu: refused %d: %s\n", line->number, (int)number, garumbott_refusal_words(number));
}

static void print_part(const uint8_t *residues, uint64_t at, uint64_t len)
{
    static uint8_t names[3 * GARUMBOTT_ALTERED_ROOM];
    if (len == 0) {
        printf(" -");
    } else if (settings.width == 3) {
        struct garumbott_length n = garumbott_names3(residues + at, len, names, sizeof names);
        printf(" %.*s", (int)n.len, (const char *)names);
    } else {
        printf(" %.*s", (int)len, (const char *)residues + at);
    }
}

/* A record: its class, or "silent", the first residue's number, and the residues that go and come. */
static void print_record(const char *name, const struct garumbott_answer *a)
{
    printf("%s %d", name, (int)a->number);
    print_part(reference, a->deleted_at, a->deleted_len);
    print_part(altered, a->inserted_at, a->inserted_len);
    if (a->change == GARUMBOTT_CHANGE_DUPLICATION) printf(" %d", (int)a->first);
    printf("\n");
}

static void print_answer(const struct line *line, const struct garumbott_answer *a)
{
    switch (a->answer) {
    case GARUMBOTT_REFUSED: print_refused(line, a->refusal); break;
    case GARUMBOTT_SILENT: print_record(garumbott_answer_name(a->answer), a); break;
    case GARUMBOTT_CHANGED: print_record(garumbott_class_name(a->change), a); break;
    default: printf("%s\n", garumbott_answer_name(a->answer)); break; /* unknown, no-protein */
    }
}

/* Prints the reference protein. An edit that changes nothing is refused exactly where the reference is. */
static bool check_reference(const struct line *line, const struct garumbott_reference *r)
{
    const struct garumbott_coding_edit nothing = {.kind = GARUMBOTT_IDENTITY, .start = 1, .end = 1};
    struct garumbott_answer a = garumbott_record_of(r, &nothing, &buffers);
    if (a.answer == GARUMBOTT_REFUSED) {
        print_refused(line, a.refusal);
        return false;
    }
    struct garumbott_length n = garumbott_translate(r->letters + (r->cs - 1), r->ce + 1 - r->cs, r->table, r->end != GARUMBOTT_END_CUT_CODON,
                                                    r->exceptions, r->exceptions_len, reference, sizeof reference);
    printf("reference");
    print_part(reference, 0, n.len);
    printf("\n");
    return true;
}

static void run(FILE *in, uint64_t end)
{
    static struct line first, line;
    struct garumbott_reference r;
    struct garumbott_coding_edit e;
    uint64_t named;
    if (!next_line(in, 1, &first)) return;
    if (!read_reference(&first, &r)) {
        print_refused(&first, GARUMBOTT_REFUSAL_LINE);
        return;
    }
    r.end = end;
    if (!check_reference(&first, &r)) return;
    for (unsigned long n = 2; next_line(in, n, &line); n++) {
        if (read_edit(&line, &e, &named)) {
            e.longest = settings.longest;
            struct garumbott_answer a = settings.profile ? garumbott_panel_of(&r, &e, named, &buffers) : garumbott_record_of(&r, &e, &buffers);
            print_answer(&line, &a);
        } else {
            print_refused(&line, GARUMBOTT_REFUSAL_LINE);
        }
    }
}

int main(int argc, char **argv)
{
    FILE *in = argc > 1 ? fopen(argv[1], "rb") : stdin;
    uint64_t end = argc > 2 ? strtoull(argv[2], NULL, 10) : GARUMBOTT_END_STOP;
    if (argc > 4) {
        fprintf(stderr, "host: one file, or none for standard input, how its reference ends, and a file with settings\n");
        return 1;
    }
    if (in == NULL) {
        perror(argv[1]);
        return 1;
    }
    if (argc > 3 && !read_settings(argv[3])) return 1;
    run(in, end);
    if (ferror(in) || fflush(stdout) != 0 || ferror(stdout)) {
        perror("host");
        return 1;
    }
    return 0;
}
