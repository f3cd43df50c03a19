#include "baseline.h"
#include <string.h>

enum { LONGEST = 131072, LONGEST_PUT = 4096, MOST_EXCEPTIONS = 16, LAST_STAR = 65535 };

/* ---- letters and codons ---- */

static uint8_t sets[256];           /* plain translation: either case, U as T; 0 for no letter */
static uint8_t complements[256];
static uint8_t residues[3][4096];   /* by three letter sets of four bits */

/* A residue beside what was found so far: D and N are B, E and Q are Z (request E2), every other mix is X. */
static uint8_t joined(uint8_t found, uint8_t residue)
{
    static const char *const mixes[] = {"BDN", "ZEQ"};
    if (!found || found == residue)
        return residue;
    for (int k = 0; k < 2; k++)
        if (strchr(mixes[k], found) && strchr(mixes[k], residue))
            return mixes[k][0];
    return 'X';
}

void base_init(void)
{
    static const char letters[] = "ACGTURYSWKMBDHVN";
    static const uint8_t values[] = {1, 2, 4, 8, 8, 5, 10, 6, 9, 12, 3, 14, 13, 11, 7, 15};
    static const char *codes[3] = {"FFLLSSSSYY**CC*WLLLLPPPPHHQQRRRRIIIMTTTTNNKKSSRRVVVVAAAADDEEGGGG",
                                   "FFLLSSSSYY**CCUWLLLLPPPPHHQQRRRRIIIMTTTTNNKKSSRRVVVVAAAADDEEGGGG",
                                   "FFLLSSSSYY**CCWWLLLLPPPPHHQQRRRRIIMMTTTTNNKKSS**VVVVAAAADDEEGGGG"};
    static const uint8_t order[4] = {8, 2, 1, 4};
    for (int k = 0; letters[k]; k++) {
        sets[(uint8_t)letters[k]] = sets[letters[k] | 32] = values[k];
        for (int j = 0; letters[j]; j++) {
            int v = values[k], turned = (v & 1) << 3 | (v & 2) << 1 | (v & 4) >> 1 | (v & 8) >> 3;
            if (values[j] == turned && letters[j] != 'U')
                complements[(uint8_t)letters[k]] = letters[j];
        }
    }
    for (int t = 0; t < 3; t++)
        for (int s = 0; s < 4096; s++) {
            uint8_t all = 0;
            for (int p = 0; p < 64; p++)
                if ((order[p / 16] & s >> 8) && (order[p / 4 % 4] & s >> 4) && (order[p % 4] & s))
                    all = joined(all, codes[t][p]);
            residues[t][s] = all ? all : 'X';
        }
}

static inline uint8_t residue(const uint8_t *lut, const uint8_t *codon)
{
    return lut[sets[codon[0]] << 8 | sets[codon[1]] << 4 | sets[codon[2]]];
}

/* Sixteen bytes at a time: a lane of a test's result is all ones where its byte passes. */
typedef uint8_t lanes __attribute__((vector_size(16)));

static inline lanes is(lanes c, uint8_t letter)
{
    return (lanes)(c == (lanes){0} + letter);
}

static inline lanes within(lanes c, uint8_t first, uint8_t last)
{
    return (lanes)(c - first <= (lanes){0} + (uint8_t)(last - first));
}

static inline int all_ones(lanes m)
{
    uint64_t half[2];
    memcpy(half, &m, 16);
    return (half[0] & half[1]) == UINT64_MAX;
}

/* One of the fifteen letters; in plain translation U too, and either case. */
static inline lanes letter(lanes c, int plain)
{
    lanes good = within(c, 'A', 'D') | within(c, 'G', 'H') | is(c, 'K') | within(c, 'M', 'N') | within(c, 'R', 'T') | within(c, 'V', 'W') | is(c, 'Y');
    return plain ? good | is(c, 'U') : good;
}

static inline lanes base(lanes c, int plain)
{
    return is(c, 'A') | is(c, 'C') | is(c, 'G') | is(plain ? c & ((lanes){0} + (uint8_t)0xFE) : c, 'T');
}

/* Most blocks hold nothing but A, C, G and T, which is quicker to see. */
static inline int all_letters(const uint8_t *s, uint64_t n, int plain)
{
    enum { BLOCK = 4 };
    for (uint64_t i = 0; i < n; i += 16 * BLOCK) {
        lanes c[BLOCK], good = ~(lanes){0};
        if (n - i < sizeof c) {
            memset(c, 'A', sizeof c);
            memcpy(c, s + i, n - i);
        } else {
            memcpy(c, s + i, sizeof c);
        }
        for (int k = 0; k < BLOCK; k++) {
            if (plain)
                c[k] &= (lanes){0} + (uint8_t)0xDF;
            good &= base(c[k], plain);
        }
        if (all_ones(good))
            continue;
        good = ~(lanes){0};
        for (int k = 0; k < BLOCK; k++)
            good &= letter(c[k], plain);
        if (!all_ones(good))
            return 0;
    }
    return 1;
}

static int plain_letters(const uint8_t *s, uint64_t n)
{
    return all_letters(s, n, 1);
}

static int strict_letters(const uint8_t *s, uint64_t n)
{
    return all_letters(s, n, 0);
}

static int is_residue(uint8_t c)
{
    return c == '*' || (c >= 'A' && c <= 'Z');
}

static uint64_t codon_of(const uint8_t *exception)
{
    return (uint64_t)exception[0] << 8 | exception[1];
}

/* ---- plain translation ---- */

static void write_residues(const uint8_t *lut, const uint8_t *seq, uint64_t codons, uint8_t *out)
{
    for (uint64_t i = 0; i < codons; i++)
        out[i] = residue(lut, seq + 3 * i);
}

struct base_length base_translate(const uint8_t *seq, uint64_t len, uint64_t table, int full, const uint8_t *exceptions, uint64_t exceptions_len,
                                  uint8_t *out, uint64_t room)
{
    uint64_t codons = len / 3, rest = len % 3 != 0;
    if (table > 2)
        return (struct base_length){4, 0};
    if (exceptions_len % 3 || exceptions_len / 3 > MOST_EXCEPTIONS)
        return (struct base_length){5, 0};
    for (uint64_t k = 0; k < exceptions_len; k += 3)
        if (!codon_of(exceptions + k) || !is_residue(exceptions[k + 2]))
            return (struct base_length){5, 0};
    if (full && rest)
        return (struct base_length){14, 0};
    if (codons + rest > room)
        return (struct base_length){15, 0};
    if (!plain_letters(seq, 3 * codons))
        return (struct base_length){2, 0};
    write_residues(residues[table], seq, codons, out);
    if (rest)
        out[codons] = 'X';
    for (uint64_t k = 0; k < exceptions_len; k += 3)
        if (codon_of(exceptions + k) <= codons)
            out[codon_of(exceptions + k) - 1] = exceptions[k + 2];
    return (struct base_length){0, codons + rest};
}

/* ---- trims ---- */

static uint64_t least(uint64_t a, uint64_t b)
{
    return a < b ? a : b;
}

static int same_block(const uint8_t *a, const uint8_t *b)
{
    lanes x[2], y[2];
    memcpy(x, a, 32);
    memcpy(y, b, 32);
    return all_ones((lanes)(x[0] == y[0]) & (lanes)(x[1] == y[1]));
}

uint64_t base_prefix(const uint8_t *a, uint64_t a_len, const uint8_t *b, uint64_t b_len)
{
    uint64_t n = least(a_len, b_len), i = 0;
    while (i + 32 <= n && same_block(a + i, b + i))
        i += 32;
    while (i < n && a[i] == b[i])
        i++;
    return i;
}

/* At most `most`. */
static uint64_t suffix(const uint8_t *a, uint64_t a_len, const uint8_t *b, uint64_t b_len, uint64_t most)
{
    uint64_t i = 0;
    while (i + 32 <= most && same_block(a + a_len - i - 32, b + b_len - i - 32))
        i += 32;
    while (i < most && a[a_len - i - 1] == b[b_len - i - 1])
        i++;
    return i;
}

/* ---- references ---- */

uint64_t base_check(const struct base_reference *r, struct base_known *known)
{
    if (r->len == 0 || r->len > LONGEST)
        return 1;
    if (!strict_letters(r->letters, r->len))
        return 2;
    if (r->cs < 1 || r->ce < r->cs || r->ce > r->len || (r->ce - r->cs + 1) % 3 || r->ce - r->cs + 1 < 6)
        return 3;
    if (r->table > 2)
        return 4;
    uint64_t codons = (r->ce - r->cs + 1) / 3, last = 0;
    if (r->exceptions_len % 3 || r->exceptions_len / 3 > MOST_EXCEPTIONS)
        return 5;
    for (uint64_t k = 0; k < r->exceptions_len; k += 3) {
        uint64_t codon = codon_of(r->exceptions + k);
        if (codon <= last || codon > codons || !is_residue(r->exceptions[k + 2]))
            return 5;
        last = codon;
    }
    write_residues(residues[r->table], r->letters + r->cs - 1, codons, known->protein);
    for (uint64_t k = 0; k < r->exceptions_len; k += 3)
        known->protein[codon_of(r->exceptions + k) - 1] = r->exceptions[k + 2];
    if (known->protein[codons - 1] != '*')
        return 6;
    known->given = *r;
    known->residues = codons;
    known->many_stops = memchr(known->protein, '*', codons - 1) != NULL;
    return 0;
}

/* ---- edits ---- */

/* The bases `from` to `to` give way to `put`; of it, `kept` go in. */
struct swap {
    uint64_t from, to, put_len, kept;
    const uint8_t *put;
    int frameshift;
};

static int64_t place(const struct base_reference *r, int star, int64_t p)
{
    return star ? (int64_t)r->ce + p - 1 : p > 0 ? (int64_t)r->cs + p - 2 : (int64_t)r->cs - 1 + p;
}

static int outside(const struct base_reference *r, int star, int64_t p)
{
    if (star)
        return star != 1 || p < 1 || p > LAST_STAR;
    return p == 0 || p > (int64_t)(r->ce - r->cs + 1) || p < -(int64_t)(r->cs - 1);
}

static uint64_t index_of(const struct base_reference *r, int star, int64_t p)
{
    return star ? least(r->ce + p - 1, r->len) : p > 0 ? r->cs + p - 2 : r->cs - 1;
}

static uint64_t edit_refusal(const struct base_reference *r, const struct base_edit *e)
{
    if (outside(r, e->start_star, e->start) || outside(r, e->end_star, e->end))
        return 7;
    int64_t start = place(r, e->start_star, e->start), end = place(r, e->end_star, e->end);
    if (e->kind == BASE_DUPLICATION && end >= (int64_t)r->len)
        return 7;
    if (start > end || (e->kind == BASE_INSERTION && end != start + 1) || (e->kind == BASE_SUBSTITUTION && start != end))
        return 8;
    int before = !e->start_star && e->start < 0;
    if ((before && !e->end_star && e->end < 0) || (e->start_star && e->end_star) || (before && e->kind == BASE_INSERTION))
        return 9;
    switch (e->kind) {
    case BASE_SUBSTITUTION:
        return e->bases_len != 1 || !strict_letters(e->bases, 1) ? 10 : 0;
    case BASE_DELINS:
    case BASE_INSERTION:
        return e->bases_len < 1 || e->bases_len > LONGEST_PUT || !strict_letters(e->bases, e->bases_len) ? 10 : 0;
    case BASE_DELETION:
    case BASE_DUPLICATION:
    case BASE_INVERSION:
    case BASE_IDENTITY:
        return e->bases_len ? 10 : 0;
    default:
        return 10;
    }
}

/* How many of the new bases go in: through the first stop codon that they form in frame, or -1 where they form none. */
static int64_t stop_cut(const struct base_reference *r, const uint8_t *put, uint64_t len, uint64_t at)
{
    const uint8_t *lut = residues[r->table];
    /* a codon with an N before the new bases reads no stop */
    for (uint64_t i = (3 - (at - (r->cs - 1)) % 3) % 3; i + 3 <= len; i += 3)
        if (residue(lut, put + i) == '*')
            return i + 3;
    return -1;
}

static struct swap swap_of(const struct base_reference *r, const struct base_edit *e)
{
    uint64_t start = index_of(r, e->start_star, e->start), end = least(index_of(r, e->end_star, e->end) + 1, r->len);
    struct swap s = {start, end, e->bases_len, e->bases_len, e->bases, 0};
    switch (e->kind) {
    case BASE_INSERTION:
        s.from = s.to = start + 1;
        break;
    case BASE_DUPLICATION:
        s.from = s.to = end;
        s.put = r->letters + start;
        s.put_len = s.kept = end - start;
        break;
    case BASE_INVERSION:
    case BASE_IDENTITY:
        s.put = r->letters + start;
        s.put_len = s.kept = end - start;
        return s;
    }
    s.frameshift = (s.put_len + 2 * (s.to - s.from)) % 3 != 0;
    if (e->kind == BASE_INSERTION || e->kind == BASE_DUPLICATION) {
        int64_t kept = stop_cut(r, s.put, s.put_len, s.from);
        if (kept >= 0) {
            s.kept = kept;
            s.frameshift = 0;
        }
    } else {
        s.frameshift |= start < r->ce && r->ce < end;
        if (s.put_len == end - start && memcmp(s.put, r->letters + start, s.put_len) == 0)
            s.frameshift = 0;
    }
    return s;
}

static void write_transcript(const struct base_reference *r, const struct base_edit *e, const struct swap *s, uint8_t *out)
{
    memcpy(out, r->letters, s->from);
    if (e->kind == BASE_INVERSION)
        for (uint64_t i = 0; i < s->kept; i++)
            out[s->from + i] = complements[s->put[s->kept - 1 - i]];
    else if (s->kept)
        memcpy(out + s->from, s->put, s->kept);
    memcpy(out + s->from + s->kept, r->letters + s->to, r->len - s->to);
}

/* ---- the altered protein ---- */

static uint64_t write_altered(const struct base_reference *r, const uint8_t *alt, uint64_t alt_len, uint8_t *out)
{
    const uint8_t *lut = residues[r->table], *coding = alt + r->cs - 1;
    uint64_t len = alt_len - (r->cs - 1), codons = len / 3;
    for (uint64_t i = 0; i < codons; i++)
        if ((out[i] = residue(lut, coding + 3 * i)) == '*')
            return i + 1;
    if (len % 3)
        out[codons++] = 'X';
    return codons;
}

/* The same with exceptions: those whose codons stay, or move in frame, are read first. */
static uint64_t write_altered_with(const struct base_reference *r, const uint8_t *alt, uint64_t alt_len, uint8_t *out)
{
    const uint8_t *lut = residues[r->table], *coding = alt + r->cs - 1;
    uint64_t prefix = base_prefix(r->letters, r->len, alt, alt_len);
    uint64_t behind = suffix(r->letters, r->len, alt, alt_len, least(r->len, alt_len) - prefix);
    uint64_t codons[MOST_EXCEPTIONS], count = 0;
    uint8_t reads[MOST_EXCEPTIONS];
    for (uint64_t k = 0; k < r->exceptions_len; k += 3) {
        int64_t at = r->cs - 1 + 3 * (codon_of(r->exceptions + k) - 1), moved = at - (int64_t)(r->cs - 1);
        if (at + 3 > (int64_t)prefix) {
            if (at < (int64_t)(r->len - behind))
                continue;
            moved += (int64_t)alt_len - (int64_t)r->len;
            if (moved < 0 || moved % 3)
                continue;
        }
        codons[count] = moved / 3;
        reads[count++] = r->exceptions[k + 2];
    }
    uint64_t len = alt_len - (r->cs - 1), whole = len / 3, k = 0;
    for (uint64_t i = 0; i < whole; i++) {
        if (k < count && codons[k] == i)
            out[i] = reads[k++];
        else
            out[i] = residue(lut, coding + 3 * i);
        if (out[i] == '*')
            return i + 1;
    }
    if (len % 3)
        out[whole++] = 'X';
    return whole;
}

/* ---- the record ---- */

static uint64_t silent_number(const struct base_edit *e, uint64_t residues)
{
    uint64_t n = e->kind == BASE_DUPLICATION ? (uint64_t)e->end / 3 + 1 : e->start < 0 ? 1 : ((uint64_t)e->start + 2) / 3;
    return n < 1 ? 1 : least(n, residues);
}

static void set_change(struct base_answer *a, const uint8_t *old, uint64_t old_len, const uint8_t *new, uint64_t new_len)
{
    uint64_t s = base_prefix(old, old_len, new, new_len);
    uint64_t end = a->frameshift ? 0 : suffix(old, old_len, new, new_len, least(old_len, new_len) - s);
    uint64_t deleted = old_len - s - end, inserted = new_len - s - end;
    a->answer = BASE_CHANGED;
    a->at = s;
    a->number = s + 1;
    a->deleted_len = deleted;
    a->inserted_len = inserted;
    if (s == 0)
        a->change = BASE_START_LOST;
    else if (deleted && old[s] == '*')
        a->change = BASE_EXTENSION;
    else if (s < new_len && new[s] == '*')
        a->change = BASE_STOP_GAINED;
    else if (a->frameshift)
        a->change = BASE_FRAMESHIFT;
    else if (deleted == 1 && inserted == 1)
        a->change = BASE_SUBSTITUTED;
    else if (inserted == 0)
        a->change = BASE_DELETED;
    else if (deleted == 0 && inserted <= s && memcmp(old + s - inserted, new + s, inserted) == 0) {
        a->change = BASE_DUPLICATED;
        a->first = s + 1 - inserted;
    } else
        a->change = deleted == 0 ? BASE_INSERTED : BASE_CHANGED_BOTH;
}

struct base_answer base_record_known(const struct base_known *known, const struct base_edit *e, const struct base_buffers *b)
{
    const struct base_reference *r = &known->given;
    struct base_answer a = {0};
    if ((a.refusal = edit_refusal(r, e)) != 0)
        return a;
    if (known->many_stops || place(r, e->end_star, e->end) >= (int64_t)r->len) {
        a.answer = BASE_UNKNOWN;
        return a;
    }
    struct swap s = swap_of(r, e);
    uint64_t alt_len = r->len - (s.to - s.from) + s.kept;
    if (b->transcript_room < alt_len)
        a.refusal = 11;
    else if (b->reference_room < known->residues || b->altered_room < (alt_len - r->cs + 1 + 2) / 3)
        a.refusal = 12;
    if (a.refusal)
        return a;
    write_transcript(r, e, &s, b->transcript);
    memcpy(b->reference, known->protein, known->residues);
    a.frameshift = s.frameshift;
    a.transcript_len = alt_len;
    a.reference_len = known->residues;
    a.altered_len = (r->exceptions_len ? write_altered_with : write_altered)(r, b->transcript, alt_len, b->altered);
    if (a.altered_len == 0) {
        a.answer = BASE_NO_PROTEIN;
    } else if (a.altered_len == known->residues && memcmp(b->altered, known->protein, known->residues) == 0) {
        a.answer = BASE_SILENT;
        a.number = silent_number(e, known->residues);
        a.at = a.number - 1;
        a.deleted_len = a.inserted_len = 1;
    } else {
        set_change(&a, known->protein, known->residues, b->altered, a.altered_len);
    }
    return a;
}

struct base_answer base_record(const struct base_reference *r, const struct base_edit *e, const struct base_buffers *b)
{
    struct base_known known;
    uint64_t refusal = base_check(r, &known);
    if (refusal)
        return (struct base_answer){.refusal = refusal};
    return base_record_known(&known, e, b);
}
