/* The Rust of hgvs 4.0.1 for a program in C: liboracle.a, made by tests/oracle/build. It is for comparing and timing; no part of the module.
 *
 * Text must be UTF-8, as the Rust's strings are. A function that gives an int64_t length gives -1 where the Rust refuses or the room is too small.
 * A panic of the Rust ends the program. */
#ifndef ORACLE_H
#define ORACLE_H
#include <stdint.h>

/* src/sequences.rs: translate_cds with "X" for a rest; aa1_to_aa3; aa3_to_aa1; revcomp; the trims' counts */
int64_t oracle_translate(const uint8_t *seq, uint64_t len, uint64_t full, uint64_t table, uint8_t *out, uint64_t room);
int64_t oracle_names3(const uint8_t *one, uint64_t len, uint8_t *out, uint64_t room);
int64_t oracle_names1(const uint8_t *three, uint64_t len, uint8_t *out, uint64_t room);
int64_t oracle_complement(const uint8_t *seq, uint64_t len, uint8_t *out, uint64_t room);
int64_t oracle_trim_prefix(const uint8_t *a, uint64_t a_len, const uint8_t *b, uint64_t b_len);
int64_t oracle_trim_suffix(const uint8_t *a, uint64_t a_len, const uint8_t *b, uint64_t b_len);

/* src/mapper/altseq.rs: common_prefix_len */
uint64_t oracle_prefix(const uint8_t *a, uint64_t a_len, const uint8_t *b, uint64_t b_len);

/* RefTranscriptData::new. Exceptions are three bytes each: codon, high byte first, and residue. NULL where the Rust gives an error. */
struct oracle_reference *oracle_reference_new(const uint8_t *letters, uint64_t len, int64_t cs, int64_t ce, uint64_t table,
                                              const uint8_t *exceptions, uint64_t exceptions_len);
void oracle_reference_free(struct oracle_reference *);
int64_t oracle_reference_protein(const struct oracle_reference *, uint8_t *out, uint64_t room);

/* The end that the Rust finds in the letters, CdsEnd: 0 StopCodon, 1 NoStopCodon, 2 IncompleteCodon. It can't be told one. */
uint64_t oracle_reference_end(const struct oracle_reference *);

/* An edit. Kinds: 1 substitution, 2 deletion, 3 delins, 4 insertion, 5 duplication, 6 inversion, 7 identity; a star is 0 or 1. */
struct oracle_edit *oracle_edit_new(uint64_t kind, uint64_t start_star, int64_t start, uint64_t end_star, int64_t end,
                                    const uint8_t *bases, uint64_t bases_len);
void oracle_edit_free(struct oracle_edit *);

struct oracle_answer {
    uint64_t answered;       /* 0: the Rust gave an error, and all else is 0 */
    uint64_t frameshift;
    uint64_t unknown;        /* is_ambiguous */
    int64_t cut;             /* how many of the new bases the stop cut keeps, -1 where it finds no stop */
    int64_t transcript_len, altered_len;
    int64_t moved_len;       /* moved exceptions, three bytes each as above */
    int64_t number;          /* the record's; 0 where there is none */
    int64_t deleted_len, inserted_len;
    int64_t uncut_len;       /* of the altered protein before first_stop cuts it */
    uint64_t form;           /* the protein variant's kind: 1 to 9 as the module numbers its classes, 10 nothing changes, 11 no protein, 12 unknown ("p.?"),
                                0 where the Rust gives an error */
    int64_t first;           /* a duplication's first residue, else 0 */
};

/* build_altseq_in for an edit in the CDS, then build_hgvsp for the record. With first_stop, the altered protein is cut at its first stop before
 * the record is made, as document 01 reads it. */
struct oracle_answer oracle_edit(const struct oracle_reference *, struct oracle_edit *, uint64_t until_stop, uint64_t first_stop,
                                 uint8_t *transcript, uint64_t transcript_room, uint8_t *altered, uint64_t altered_room,
                                 uint8_t *moved, uint64_t moved_room);

/* Only where it was built with the word counted: how many codons the Rust reads in a table for an edit in the CDS, with until_stop, but for those of the stop
 * cut; -1 where it builds no altered transcript. */
int64_t oracle_codons_read(const struct oracle_reference *, struct oracle_edit *);

/* For timing: the same without copies out; what they give depends on the answer. The first takes text that is known to be ASCII; the last makes
 * the reference anew. */
uint64_t oracle_timed_translate(const uint8_t *seq, uint64_t len, uint64_t table);
uint64_t oracle_timed_edit_known(const struct oracle_reference *, struct oracle_edit *, uint64_t until_stop);
uint64_t oracle_timed_edit(const struct oracle_reference *, struct oracle_edit *, uint64_t until_stop);
#endif
