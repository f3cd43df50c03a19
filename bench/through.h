/* The module's calls over structs, on every processor. The object of bench/native follows x86-64's convention everywhere: a struct above sixteen bytes is written
 * through a first argument. */
#ifndef THROUGH_H
#define THROUGH_H
#include "garumbott.h"

#define REFERENCE_TYPES const uint8_t *, uint64_t, uint64_t, uint64_t, uint64_t, const uint8_t *, uint64_t, uint64_t, uint64_t, uint64_t
#define EDIT_TYPES uint64_t, uint64_t, int64_t, uint64_t, int64_t, const uint8_t *, uint64_t, uint64_t
#define SLICE const uint8_t *, uint64_t
#define BUFFER uint8_t *, uint64_t

#define OF_REFERENCE(r) (r)->letters, (r)->letters_len, (r)->cs, (r)->ce, (r)->table, (r)->exceptions, (r)->exceptions_len, (r)->end, (r)->form, (r)->size
#define OF_EDIT(e) (e)->kind, (e)->start_star, (e)->start, (e)->end_star, (e)->end, (e)->bases, (e)->bases_len, (e)->longest
#define OF_TRANSCRIPT(b) (b)->transcript, (b)->transcript_len
#define OF_ALTERED(b) (b)->altered, (b)->altered_len
#define OF_BUFFERS(b) OF_TRANSCRIPT(b), (b)->reference, (b)->reference_len, OF_ALTERED(b)

#ifndef __x86_64__
void record_through(struct garumbott_answer *, REFERENCE_TYPES, EDIT_TYPES, BUFFER, BUFFER, BUFFER) __asm__("garumbott_record");
void edit_through(struct garumbott_answer *, REFERENCE_TYPES, EDIT_TYPES, BUFFER) __asm__("garumbott_edit");
void check_through(struct garumbott_checked *, REFERENCE_TYPES, EDIT_TYPES, uint64_t, SLICE, SLICE, BUFFER, BUFFER, BUFFER) __asm__("garumbott_check");
void pair_through(struct garumbott_paired *, REFERENCE_TYPES, EDIT_TYPES, EDIT_TYPES, BUFFER, BUFFER) __asm__("garumbott_pair");
void read_stored_through(struct garumbott_stored *, SLICE, BUFFER) __asm__("garumbott_read_stored");
#endif

typedef const struct garumbott_reference *a_reference;
typedef const struct garumbott_coding_edit *an_edit;
typedef const struct garumbott_buffers *some_buffers;

static inline struct garumbott_answer record_of(a_reference r, an_edit e, some_buffers b)
{
#ifdef __x86_64__
    return garumbott_record_of(r, e, b);
#else
    struct garumbott_answer answer;
    record_through(&answer, OF_REFERENCE(r), OF_EDIT(e), OF_BUFFERS(b));
    return answer;
#endif
}

static inline struct garumbott_answer edit_of(a_reference r, an_edit e, some_buffers b)
{
#ifdef __x86_64__
    return garumbott_edit_of(r, e, b);
#else
    struct garumbott_answer answer;
    edit_through(&answer, OF_REFERENCE(r), OF_EDIT(e), OF_TRANSCRIPT(b));
    return answer;
#endif
}

static inline struct garumbott_checked check_of(a_reference r, an_edit e, uint64_t number, const uint8_t *deleted, uint64_t deleted_len, const uint8_t *inserted,
                                                uint64_t inserted_len, some_buffers b)
{
#ifdef __x86_64__
    return garumbott_check_of(r, e, number, deleted, deleted_len, inserted, inserted_len, b);
#else
    struct garumbott_checked checked;
    check_through(&checked, OF_REFERENCE(r), OF_EDIT(e), number, deleted, deleted_len, inserted, inserted_len, OF_BUFFERS(b));
    return checked;
#endif
}

static inline struct garumbott_paired pair_of(a_reference r, an_edit e, an_edit f, some_buffers b)
{
#ifdef __x86_64__
    return garumbott_pair_of(r, e, f, b);
#else
    struct garumbott_paired paired;
    pair_through(&paired, OF_REFERENCE(r), OF_EDIT(e), OF_EDIT(f), OF_TRANSCRIPT(b), OF_ALTERED(b));
    return paired;
#endif
}

static inline struct garumbott_stored read_stored(const uint8_t *data, uint64_t data_len, uint8_t *joined, uint64_t joined_len)
{
#ifdef __x86_64__
    return garumbott_read_stored(data, data_len, joined, joined_len);
#else
    struct garumbott_stored stored;
    read_stored_through(&stored, data, data_len, joined, joined_len);
    return stored;
#endif
}
#endif
