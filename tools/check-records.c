/* check-records: says of the protein records of standard input whether they fit their edits. Lines are taken apart here; each answer to a record that is in
 * the form is the library's, by garumbott_check.
 *
 *     ref CS CE TABLE LETTERS         first line: the reference, answered "reference R", or "refused N", which ends the run
 *     EDIT NUMBER DELETED INSERTED    then a record a line, answered "yes yes", "yes no", "no no" or "refused N"
 *
 * Reference and edits are in the form of the text program: positions 7, -2, *3; numbers of at most five digits without a leading zero; one space between parts;
 * lines of at most 20,480 bytes, each ended by a line feed, the last perhaps without. NUMBER is unsigned. DELETED and INSERTED are one or more visible
 * bytes of ASCII, '-' alone for none; bytes that are no residues are left to 27. A line in another form is refused with 30. The last line on standard
 * error says how often each answer was given. Exit status: 0, or 1 where a read or a write fails. */
#define _POSIX_C_SOURCE 200809L
#include "garumbott.h"
#include "lines.h"
#include <errno.h>
#include <inttypes.h>
#include <stdbool.h>
#include <stdio.h>
#include <stdlib.h>
#include <string.h>
#include <unistd.h>

static void fail(const char *words)
{
    fprintf(stderr, "check-records: %s\n", words);
    exit(1);
}

static void flush(void)
{
    if (fflush(stdout) != 0 || ferror(stdout)) fail("standard output can't be written: answers are missing");
}

/* ---- lines -------------------------------------------------------------------------------------------------------------------------- */

struct line {
    uint8_t text[LONGEST_LINE];
    size_t len;
    bool whole; /* it has no more bytes than these */
};

/* The next byte of standard input, or -1 at its end. All answers so far are written before a read that may have to wait. */
static int next_byte(void)
{
    static uint8_t read_ahead[1 << 16];
    static size_t at, len;
    static bool ended;
    if (at == len) {
        ssize_t n;
        if (ended) return -1;
        flush();
        do n = read(STDIN_FILENO, read_ahead, sizeof read_ahead);
        while (n < 0 && errno == EINTR);
        if (n < 0) fail("standard input can't be read");
        at = 0;
        len = (size_t)n;
        ended = n == 0;
        if (ended) return -1;
    }
    return read_ahead[at++];
}

/* The next line, without its line feed; false where nothing is left. */
static bool next_line(struct line *line)
{
    int c = next_byte();
    if (c < 0) return false;
    line->len = 0;
    line->whole = true;
    for (; c >= 0 && c != '\n'; c = next_byte()) {
        if (line->len == LONGEST_LINE) line->whole = false;
        else line->text[line->len++] = (uint8_t)c;
    }
    return true;
}

static bool take_position(struct text *s, uint64_t *star, int64_t *number)
{
    bool minus = take(s, "-");
    uint64_t n;
    *star = !minus && take(s, "*");
    if (!take_number(s, &n)) return false;
    *number = minus ? -(int64_t)n : (int64_t)n;
    return true;
}

static bool take_edit(struct text *s, struct garumbott_coding_edit *e)
{
    const uint8_t *named;
    uint64_t named_len;
    memset(e, 0, sizeof *e);
    if (!take_position(s, &e->start_star, &e->start)) return false;
    e->end_star = e->start_star;
    e->end = e->start;
    if (take(s, "_") && !take_position(s, &e->end_star, &e->end)) return false;
    if (take(s, "delins")) e->kind = GARUMBOTT_DELINS;
    else if (take(s, "ins")) e->kind = GARUMBOTT_INSERTION;
    else if (take(s, "del")) e->kind = GARUMBOTT_DELETION;
    else if (take(s, "dup")) e->kind = GARUMBOTT_DUPLICATION;
    else if (take(s, "inv")) e->kind = GARUMBOTT_INVERSION;
    else if (take(s, "=")) e->kind = GARUMBOTT_IDENTITY;
    else { /* the base that a substitution names isn't looked at */
        e->kind = GARUMBOTT_SUBSTITUTION;
        return take_bytes(s, 'A', 'Z', &named, &named_len) && named_len == 1 && take(s, ">") && take_bytes(s, 'A', 'Z', &e->bases, &e->bases_len)
            && e->bases_len == 1;
    }
    return (e->kind != GARUMBOTT_DELINS && e->kind != GARUMBOTT_INSERTION) || take_bytes(s, 'A', 'Z', &e->bases, &e->bases_len);
}

/* '-' alone is no residues. */
static bool take_residues(struct text *s, const uint8_t **residues, uint64_t *len)
{
    if (!take_bytes(s, '!', '~', residues, len)) return false;
    if (*len == 1 && **residues == '-') *len = 0;
    return true;
}

static bool read_reference(const struct line *line, struct garumbott_reference *r)
{
    struct text s = {line->text, line->text + line->len};
    return line->whole && take_reference(&s, r);
}

struct record {
    struct garumbott_coding_edit edit;
    uint64_t number;
    const uint8_t *deleted, *inserted;
    uint64_t deleted_len, inserted_len;
};

static bool read_record(const struct line *line, struct record *r)
{
    struct text s = {line->text, line->text + line->len};
    return line->whole && take_edit(&s, &r->edit) && take(&s, " ") && take_number(&s, &r->number) && take(&s, " ")
        && take_residues(&s, &r->deleted, &r->deleted_len) && take(&s, " ") && take_residues(&s, &r->inserted, &r->inserted_len) && s.at == s.end;
}

/* ---- answers ------------------------------------------------------------------------------------------------------------------------ */

enum { MOST_REFUSALS = 256 };
static unsigned long long both, first_only, neither, refused[MOST_REFUSALS];

static void answer(const struct garumbott_reference *reference, const struct line *line)
{
    static uint8_t transcript[GARUMBOTT_TRANSCRIPT_ROOM], R[GARUMBOTT_REFERENCE_ROOM], A[GARUMBOTT_ALTERED_ROOM];
    static const struct garumbott_buffers buffers = {transcript, sizeof transcript, R, sizeof R, A, sizeof A};
    struct garumbott_checked c = {.refusal = GARUMBOTT_REFUSAL_LINE};
    struct record r;
    if (read_record(line, &r)) c = garumbott_check_of(reference, &r.edit, r.number, r.deleted, r.deleted_len, r.inserted, r.inserted_len, &buffers);
    if (c.refusal != 0) {
        printf("refused %" PRIu64 "\n", c.refusal);
        refused[c.refusal < MOST_REFUSALS ? c.refusal : 0]++;
    } else {
        printf("%s %s\n", c.replays ? "yes" : "no", c.shortest ? "yes" : "no");
        ++*(c.shortest ? &both : c.replays ? &first_only : &neither);
    }
}

/* R of a reference that isn't refused. Whether it is, an edit that changes nothing and has no room tells: it is Unknown or refused with 11 otherwise. */
static uint64_t answer_reference(const struct garumbott_reference *r)
{
    static uint8_t R[GARUMBOTT_REFERENCE_ROOM];
    static const struct garumbott_coding_edit nothing = {.kind = GARUMBOTT_IDENTITY, .start = 1, .end = 1};
    static const struct garumbott_buffers none;
    if (r->letters_len > TEXT_LONGEST) return GARUMBOTT_REFUSAL_LENGTH;
    uint64_t refusal = garumbott_record_of(r, &nothing, &none).refusal;
    if (refusal != 0 && refusal != GARUMBOTT_REFUSAL_TRANSCRIPT_ROOM) return refusal;
    struct garumbott_length n = garumbott_translate(r->letters + (r->cs - 1), r->ce + 1 - r->cs, r->table, 1, NULL, 0, R, sizeof R);
    printf("reference %.*s\n", (int)n.len, (const char *)R);
    return 0;
}

static void tell(void)
{
    flush();
    fprintf(stderr, "check-records: %llu yes yes, %llu yes no, %llu no no", both, first_only, neither);
    for (int i = 0; i < MOST_REFUSALS; i++) {
        if (refused[i] != 0) fprintf(stderr, ", %llu refused %d", refused[i], i);
    }
    fprintf(stderr, "\n");
}

int main(void)
{
    static struct line first, line;
    struct garumbott_reference reference;
    if (next_line(&first)) {
        uint64_t refusal = read_reference(&first, &reference) ? answer_reference(&reference) : GARUMBOTT_REFUSAL_LINE;
        if (refusal != 0) {
            printf("refused %" PRIu64 "\n", refusal);
            flush();
            fprintf(stderr, "check-records: the first line is refused: %s\n", garumbott_refusal_words(refusal));
            if (first.whole && first.len != 0 && first.text[first.len - 1] == '\r')
                fprintf(stderr, "check-records: the first line ends in a carriage return: a file with CR LF line ends?\n");
            return 0;
        }
        while (next_line(&line)) answer(&reference, &line);
    }
    tell();
    return 0;
}
