/* References cut short, a part of beside.c: what the Rust answers to them follows by rule from the module's R and A, Asx and Glx read as X.
 *
 * R and A have no X for a rest of one or two bases in the Rust, and its record is document 01's of such an R and A: no copy begins at residue 1. It says
 * unknown where the edit could also lie behind the CDS, where the change begins behind R, and where a frameshift brings no whole codon. A mitochondrial
 * CDS that is cut in T or TA has its stop completed by the poly(A) tail. docs/DIFFERENCES.md, "References cut short", says the same with the smallest
 * inputs. */

/* The Rust's kinds of protein variant behind the module's classes, as oracle.h numbers them. */
enum { FORM_SAME = 10, FORM_NO_PROTEIN, FORM_UNKNOWN };

/* What the Rust found in the letters; and the R that the module gave with the reference. */
static struct {
    uint64_t end, r_len;
    uint8_t r[ROOM];
} rust_made;
static uint8_t own_r[ROOM];
static uint64_t own_r_len, cut_references[3], completed;

/* R and A of the module as the Rust reads them. */
static uint8_t read_r[ROOM], read_a[ROOM];

/* Whether the edit could also lie behind the CDS, which is the transcript's end: with it, before any stop cut, the transcript is longer and begins with
 * all of the reference. A duplication from before the CDS is taken for one that could lie before it. */
static int could_lie_behind(void)
{
    uint64_t first = edit.start > 0 ? ref.cs - 2 + (uint64_t)edit.start : ref.cs - 1 - (uint64_t)-edit.start;
    uint64_t behind = ref.cs - 1 + (uint64_t)edit.end, from = first, to = behind, n = edit.bases_len;
    const uint8_t *put = edit.bases;
    if (edit.kind == GARUMBOTT_INSERTION) {
        from = to = first + 1;
    } else if (edit.kind == GARUMBOTT_DUPLICATION && edit.start > 0) {
        to = first;
        put = ref.letters + first;
        n = behind - first;
    } else if (edit.kind != GARUMBOTT_DELINS) {
        return 0;
    }
    if (n <= to - from)
        return 0;
    for (uint64_t i = from; i < ref.len; i++)
        if (ref.letters[i] != (i < from + n ? put[i - from] : ref.letters[i - n - from + to]))
            return 0;
    return 1;
}

/* The codon of the edit's position: a duplication's is the one behind it. */
static int64_t codon_of_edit(void)
{
    return edit.kind == GARUMBOTT_DUPLICATION ? edit.end / 3 + 1 : edit.start > 0 ? (edit.start + 2) / 3 : 1;
}

/* The documents' record of the first residues of R and A; a silent one has the number that it is handed. `first` is the lowest residue that a copy begins
 * at: 1 by request E5, 2 in the Rust. */
static struct answer record_by_rule(const uint8_t *r, uint64_t r_len, const uint8_t *a, uint64_t a_len, int flag, int64_t silent_number, uint64_t first)
{
    uint64_t s = garumbott_common_prefix(r, r_len, a, a_len);
    if (!a_len)
        return (struct answer){.form = FORM_NO_PROTEIN};
    if (s == r_len && s == a_len) {
        int within = silent_number <= (int64_t)r_len;
        return (struct answer){.form = FORM_SAME, .number = silent_number, .deleted_len = within, .inserted_len = within};
    }
    uint64_t ending = flag ? 0 : garumbott_common_suffix(r + s, r_len - s, a + s, a_len - s), deleted = r_len - s - ending, inserted = a_len - s - ending;
    struct answer e = {.number = (int64_t)s + 1, .deleted_len = (int64_t)deleted, .inserted_len = (int64_t)inserted};
    if (s == 0) {
        e.form = GARUMBOTT_CHANGE_START_LOST;
    } else if (deleted && r[s] == '*') {
        e.form = GARUMBOTT_CHANGE_EXTENSION;
    } else if (s < a_len && a[s] == '*') {
        e.form = GARUMBOTT_CHANGE_STOP_GAINED;
    } else if (flag) {
        e.form = GARUMBOTT_CHANGE_FRAMESHIFT;
    } else if (deleted == 1 && inserted == 1) {
        e.form = GARUMBOTT_CHANGE_SUBSTITUTION;
    } else if (!inserted) {
        e.form = GARUMBOTT_CHANGE_DELETION;
    } else if (deleted) {
        e.form = GARUMBOTT_CHANGE_DELINS;
    } else if (inserted + first <= s + 1 && !memcmp(r + s - inserted, a + s, inserted)) {
        e.form = GARUMBOTT_CHANGE_DUPLICATION;
        e.first = e.number - (int64_t)inserted;
    } else {
        e.form = GARUMBOTT_CHANGE_INSERTION;
    }
    return e;
}

/* The module's, of an R and the A of its answer. */
static struct answer ours_by_rule(const uint8_t *r, uint64_t r_len, const uint8_t *a, const struct garumbott_answer *ours)
{
    int64_t number = codon_of_edit();
    return record_by_rule(r, r_len, a, ours->altered_len, (int)ours->frameshift, number < (int64_t)r_len ? number : (int64_t)r_len, 1);
}

/* The codon of the first base that differs, or of the edit's position where none does. */
static int64_t rust_silent_number(uint64_t tx_len)
{
    uint64_t same = garumbott_common_prefix(ref.letters, ref.len, tx, tx_len);
    return same < ref.len || same < tx_len ? (int64_t)((same - (ref.cs - 1)) / 3 + 1) : codon_of_edit();
}

/* The Rust's, of R and A as it reads them. */
static struct answer rust_by_rule(uint64_t r_len, uint64_t a_len, uint64_t tx_len, int flag)
{
    struct answer a = record_by_rule(read_r, r_len, read_a, a_len, flag, rust_silent_number(tx_len), 2);
    if (a.form == FORM_NO_PROTEIN)
        return a;
    if (a.number > (int64_t)r_len)
        a.form = FORM_UNKNOWN;
    else if (a.number == 1)
        a.form = GARUMBOTT_CHANGE_START_LOST;
    else if (flag && (a.form == FORM_SAME || !a.inserted_len))
        a.form = FORM_UNKNOWN;
    if (a.form != GARUMBOTT_CHANGE_DUPLICATION)
        a.first = 0;
    return a;
}

static int same_parts(const struct answer *a, const struct answer *b)
{
    return a->number == b->number && a->deleted_len == b->deleted_len && a->inserted_len == b->inserted_len;
}

static int same_record(const struct answer *a, const struct answer *b)
{
    return same_parts(a, b) && a->form == b->form && a->first == b->first;
}

/* One record but for the class: a copy that begins at residue 1, which is an insertion in the Rust. */
static int copy_from_one(const struct answer *ours, const struct answer *theirs)
{
    return same_parts(ours, theirs) && ours->form == GARUMBOTT_CHANGE_DUPLICATION && ours->first == 1 && theirs->form == GARUMBOTT_CHANGE_INSERTION;
}

static struct answer record_of(const struct garumbott_answer *ours)
{
    return (struct answer){.number = (int64_t)ours->number,
                           .deleted_len = (int64_t)ours->deleted_len,
                           .inserted_len = (int64_t)ours->inserted_len,
                           .first = (int64_t)ours->first,
                           .form = ours->answer == GARUMBOTT_CHANGED ? ours->change : ours->answer == GARUMBOTT_SILENT ? FORM_SAME : FORM_NO_PROTEIN};
}

/* An answer of the module, its R and A read as the Rust reads them: how many residues change by that, and the record. If none does, that is the answer's
 * own; else the rule's of R and A as read, and `own` says whether the answer's own was the rule's of its own R and A. */
struct reading {
    uint64_t mixes;
    int own;
    struct answer record;
};

static struct reading read_ours(const struct reference *of, const struct garumbott_answer *ours, const uint8_t *altered, const uint8_t *r, uint64_t r_len,
                                const uint8_t *a)
{
    struct reading read = {.own = 1, .record = record_of(ours)};
    int x = 0;
    for (uint64_t i = 0; i < of->exceptions_len; i += 3)
        x |= of->exceptions[i + 2] == 'X';
    read.mixes = read_reference(of, r, r_len, read_r)
                 + read_beside(altered + of->cs - 1, ours->transcript_len - (of->cs - 1), x, a, ours->altered_len, rust_ap, rust.altered_len, read_a);
    if (read.mixes) {
        struct answer by_rule = ours_by_rule(r, r_len, a, ours);
        read.own = same_record(&read.record, &by_rule);
        read.record = ours_by_rule(read_r, r_len, read_a, ours);
    }
    return read;
}

/* An edit in which nothing differs but those residues. */
static void agree(uint64_t mixes, const struct garumbott_answer *ours)
{
    if (mixes)
        note(MIXES, ours);
    else
        equal++;
}

/* The Rust completes this CDS's stop: its answer is the module's for the transcript with the tail's bases, less those. */
static void judge_completed(const struct garumbott_answer *ours)
{
    static struct reference whole;
    static uint8_t whole_tx[ROOM], whole_r[ROOM], whole_a[ROOM];
    whole = ref;
    for (whole.end = GARUMBOTT_END_STOP; (whole.len - whole.cs + 1) % 3;)
        whole.letters[whole.len++] = 'A';
    whole.ce = whole.len;
    uint64_t same = garumbott_common_prefix(ref.letters, ref.len, tx, ours->transcript_len);
    int begins = same == ref.len || same == ours->transcript_len;
    if (!rust.transcript_len) {
        /* not a base is left for the tail to follow */
        note(!rust.altered_len && rust.form == FORM_NO_PROTEIN ? CUT_COMPLETED : ROWS, ours);
    } else if (ref.exceptions_len && begins && ref.len != ours->transcript_len) {
        /* exceptions move by letters that the tail isn't among */
        note(CUT_COMPLETED, ours);
    } else {
        struct garumbott_answer w = ours_of(&whole, whole_tx, whole_r, whole_a);
        struct reading read = read_ours(&whole, &w, whole_tx, whole_r, w.reference_len, whole_a);
        int proteins = w.answer >= GARUMBOTT_SILENT && w.altered_len == (uint64_t)rust.altered_len && !memcmp(read_a, rust_ap, w.altered_len);
        int parts = read.own && (read.record.form == FORM_SAME || same_parts(&read.record, &rust));
        note(proteins && parts ? CUT_COMPLETED : ROWS, ours);
    }
}

static void judge_cut(const struct garumbott_answer *ours)
{
    if (ours->answer == GARUMBOTT_UNKNOWN || edit.end_star) {
        if (ours->answer == GARUMBOTT_UNKNOWN && edit.end_star && rust.unknown)
            unknowns++;
        else
            show("Unknown", ours);
        return;
    }
    if (ours->transcript_len != (uint64_t)rust.transcript_len || memcmp(tx, rust_tx, ours->transcript_len)) {
        show("altered transcript", ours);
        return;
    }
    struct answer record = record_of(ours), by_rule = ours_by_rule(own_r, own_r_len, ap, ours);
    if (!same_record(&record, &by_rule)) {
        show("our record by rule", ours);
        return;
    }
    if (ours->frameshift != (uint64_t)rust.frameshift) {
        show("flag", ours);
        return;
    }
    if (rust_made.end == GARUMBOTT_END_STOP) {
        judge_completed(ours);
        return;
    }
    struct reading read = read_ours(&ref, ours, tx, own_r, own_r_len, ap);
    record = read.record;
    /* A without the X for a rest: it is the last residue if A doesn't end in a stop */
    uint64_t coding = ours->transcript_len - (ref.cs - 1), r_len = own_r_len - (ref.end == GARUMBOTT_END_CUT_CODON), a_len = ours->altered_len;
    int stops = a_len && ap[a_len - 1] == '*';
    if (coding % 3 && !stops)
        a_len--;
    if (could_lie_behind() != rust.unknown || a_len > (uint64_t)rust.altered_len || memcmp(read_a, rust_ap, a_len)
        || (a_len < (uint64_t)rust.altered_len && (stops || !rust.unknown))) {
        show("altered protein", ours);
        return;
    }
    if (rust.unknown) {
        note(rust.form == FORM_UNKNOWN ? CUT_BEHIND : ROWS, ours);
        return;
    }
    struct answer e = rust_by_rule(r_len, a_len, ours->transcript_len, rust.frameshift);
    if (!same_record(&e, &rust) || (uint64_t)rust.uncut_len != coding / 3)
        show("number, parts or class", ours);
    else if (same_record(&e, &record))
        agree(read.mixes, ours);
    else if (e.form == FORM_NO_PROTEIN)
        note(CUT_NO_PROTEIN, ours);
    else if (e.number > (int64_t)r_len)
        note(CUT_PAST, ours);
    else if (e.form == FORM_UNKNOWN)
        note(CUT_NO_CODON, ours);
    else if (copy_from_one(&record, &e))
        note(CUT_COPY, ours);
    else if (r_len != a_len || memcmp(read_r, read_a, r_len))
        note(e.form == record.form && (r_len != own_r_len || a_len != ours->altered_len) ? CUT_PARTS : ROWS, ours);
    else if (record.form != FORM_SAME)
        note(e.number == 1 ? CUT_X_ALONE : ROWS, ours);
    else
        note(e.number != record.number ? SILENT_NUMBER : e.number == 1 ? CUT_SILENT_AT_1 : ROWS, ours);
}

/* Holds the Rust's end and R to the reference that was asked for; 0 where they differ. */
static int judge_reference(const struct garumbott_answer *ours)
{
    uint64_t rest = (ref.ce - ref.cs + 1) % 3;
    const uint8_t *last = ref.letters + ref.ce - rest;
    int completes = ref.table == 2 && ((rest == 1 && last[0] == 'T') || (rest == 2 && last[0] == 'T' && last[1] == 'A'));
    own_r_len = ours->reference_len;
    memcpy(own_r, rp, own_r_len);
    read_reference(&ref, own_r, own_r_len, read_r);
    if (rust_made.end != (completes ? GARUMBOTT_END_STOP : ref.end) || rust_made.r_len != own_r_len - (rest && !completes)
        || memcmp(rust_made.r, read_r, own_r_len - (rest != 0)) || (rest && own_r[own_r_len - 1] != 'X') || (completes && rust_made.r[own_r_len - 1] != '*')) {
        show("reference", ours);
        return 0;
    }
    cut_references[ref.end]++;
    completed += (uint64_t)completes;
    return 1;
}
