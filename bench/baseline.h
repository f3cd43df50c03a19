/* Document 01 in plain C, to time beside the module: plain translation, the shared prefix, and an edit with its record. */
#ifndef BASELINE_H
#define BASELINE_H
#include <stdint.h>

/* Makes the tables; call it first. */
void base_init(void);

struct base_length {
    uint64_t refusal, len;
};

/* Exceptions are three bytes each, as in a stored reference: codon, high byte first, and residue. */
struct base_length base_translate(const uint8_t *seq, uint64_t len, uint64_t table, int full, const uint8_t *exceptions, uint64_t exceptions_len,
                                  uint8_t *out, uint64_t room);

uint64_t base_prefix(const uint8_t *a, uint64_t a_len, const uint8_t *b, uint64_t b_len);

struct base_reference {
    const uint8_t *letters;
    uint64_t len, cs, ce, table;
    const uint8_t *exceptions;
    uint64_t exceptions_len;
};

enum { BASE_SUBSTITUTION = 1, BASE_DELETION, BASE_DELINS, BASE_INSERTION, BASE_DUPLICATION, BASE_INVERSION, BASE_IDENTITY };

struct base_edit {
    uint64_t kind;
    int start_star, end_star;
    int64_t start, end;
    const uint8_t *bases;
    uint64_t bases_len;
};

struct base_buffers {
    uint8_t *transcript, *reference, *altered;
    uint64_t transcript_room, reference_room, altered_room;
};

enum { BASE_REFUSED, BASE_UNKNOWN, BASE_NO_PROTEIN, BASE_SILENT, BASE_CHANGED };
enum { BASE_START_LOST = 1, BASE_EXTENSION, BASE_STOP_GAINED, BASE_FRAMESHIFT, BASE_SUBSTITUTED, BASE_DELETED, BASE_DUPLICATED, BASE_INSERTED, BASE_CHANGED_BOTH };

struct base_answer {
    uint64_t answer, refusal, frameshift, transcript_len, reference_len, altered_len;
    uint64_t change, number, at, deleted_len, inserted_len, first;
};

/* A reference that was checked, and R. */
struct base_known {
    struct base_reference given;
    uint64_t residues;
    int many_stops;
    uint8_t protein[131072 / 3];
};

/* The refusal, or 0. */
uint64_t base_check(const struct base_reference *, struct base_known *);

struct base_answer base_record_known(const struct base_known *, const struct base_edit *, const struct base_buffers *);
struct base_answer base_record(const struct base_reference *, const struct base_edit *, const struct base_buffers *);
#endif
