/* garumbott.h: the Garumbott variant module, for programs written in C.
 *
 * Given a reference transcript and one coding edit, the module builds the altered transcript, reads the altered protein from it and answers
 * one protein record, or the one numbered refusal that its rules give. It also says whether a record that another program made fits its edit,
 * and which codons differ between two editions of a transcript.
 * References can be read from a stored form and written in it, and so can the settings of a bench. Translation, residue names, the reverse complement and two trims can be called by themselves.
 *
 * In ten minutes. Put this into first.c, and
 *     cc -std=c11 first.c $(pkg-config --cflags --libs garumbott) -o first && ./first
 * prints "substitution 3 K R": the CDS's eighth base, A, becomes G, so residue 3 changes from K to R.
 *
 *     #include <garumbott.h>
 *     #include <stdio.h>
 *
 *     int main(void) {
 *         static uint8_t transcript[GARUMBOTT_TRANSCRIPT_ROOM], R[GARUMBOTT_REFERENCE_ROOM], A[GARUMBOTT_ALTERED_ROOM];
 *         struct garumbott_reference reference = {
 *             .letters = (const uint8_t *)"GGATGGCCAAATGGTAACCTGAC", .letters_len = 23, .cs = 3, .ce = 17 };
 *         struct garumbott_coding_edit edit = {
 *             .kind = GARUMBOTT_SUBSTITUTION, .start = 8, .end = 8, .bases = (const uint8_t *)"G", .bases_len = 1 };
 *         struct garumbott_buffers buffers = { transcript, sizeof transcript, R, sizeof R, A, sizeof A };
 *         struct garumbott_answer a = garumbott_record_of(&reference, &edit, &buffers);
 *         if (a.answer != GARUMBOTT_CHANGED) {
 *             printf("%s: %s\n", garumbott_answer_name(a.answer), garumbott_refusal_words(a.refusal));
 *             return 1;
 *         }
 *         printf("%s %d %.*s %.*s\n", garumbott_class_name(a.change), (int)a.number, (int)a.deleted_len, (const char *)R + a.deleted_at,
 *                (int)a.inserted_len, (const char *)A + a.inserted_at);
 *         return 0;
 *     }
 *
 * What holds for every function
 *
 *   Slices. Bytes are handed over as a pointer and a length. Nothing need end in a zero byte, and nothing is written behind an answer: no
 *     zero byte either. A slice of length 0 may have any pointer, NULL included. Any other pointer must lead to as many bytes as the length
 *     says; that can't be tested by the library, and it is all that is asked of the caller besides the next point.
 *   Overlap. Slices that are only read may overlap. A buffer that is written may overlap nothing else that is handed to the same call.
 *   Ownership. The library allocates nothing, frees nothing and keeps no pointer and no other thing between calls. What you lend stays yours.
 *   Threads. Any function may be called from any thread, and from several at once, as long as no two calls share a buffer that one of them
 *     writes. There is no setup, no state, no errno, no locale, no signal.
 *   Stack. No call needs more than GARUMBOTT_STACK bytes of it, but for garumbott_run: GARUMBOTT_RUN_STACK.
 *   Refusals. Every other fault of the input is refused: the answer has the refusal's number, every other number in it is 0, and no byte of
 *     any buffer has changed. Where several faults apply, the lowest number is given, but where a function names another order.
 *     garumbott_refusal_words has words for each number, to show to a user.
 *   Bytes written stand at a buffer's start. What stands behind them is as it was before the call.
 *   Numbers from the caller that are too large for their meaning are refused like any other wrong number; none is cut down to fewer bits.
 *   Letters are IUPAC's for bases and sets of bases, ACGTRYSWKMBDHVN, in upper case but for garumbott_translate. Letters and residues are bytes of
 *     ASCII. A stop is '*', a residue that is D or N 'B', one that is E or Q 'Z', any other that isn't known 'X'.
 *   Versions. Later versions add members at the ends of the structs; 0 in a new member means what is done today. The functions over slices and numbers
 *     gain parameters; those over structs keep theirs, but for garumbott_reference_at in 2.0.0. New in 2.0.0: the end of a CDS (cds_end behind
 *     exceptions_len; end in struct garumbott_reference and struct garumbott_stored; tag 8 of stored references; refusal 28), with R's room rounded
 *     up for a cut codon; packed letters (form and size, behind cds_end, and at the end of struct garumbott_reference), with garumbott_pack; longest
 *     in struct garumbott_coding_edit, and behind bases_len in the functions over slices and numbers, with refusal 62; codons in struct
 *     garumbott_answer; garumbott_check, with refusals 26 and 27; garumbott_panel, with refusals 40 to 43; garumbott_pair, with refusals 51 to 53;
 *     garumbott_compare, with refusals 50, 101 to 106 and 128; garumbott_write_stored, with refusal 24; garumbott_read_settings and
 *     garumbott_write_settings, with refusals 60 to 63; transcripts up to 131,072 bases (rooms and GARUMBOTT_STACK have grown; a buffer for joined
 *     letters in garumbott_read_stored and garumbott_reference_at; joined in struct garumbott_stored; tags 5, 6 and 7 of stored references; refusals
 *     25 and 29). Other answers than in 1: a copy of the first residues is a duplication, and a codon whose plain codons give exactly D and N, or
 *     exactly E and Q, is 'B' or 'Z' in R and A, where it was 'X': a record kept with that 'X' no longer replays. The archive can't tell which header
 *     its caller was compiled with: compile all of a host with the header that came with the archive, and anew whenever they change.
 *
 * The archive is compiled for Linux on x86-64 (System V calling convention). It wants memcpy and memset of the C library and nothing else,
 * and links into programs and shared objects alike. The header is C11, and C++ as well.
 */
#ifndef GARUMBOTT_H
#define GARUMBOTT_H

#include <stddef.h>
#include <stdint.h>

#ifdef __cplusplus
extern "C" {
#endif

/* Of this header and of the archive that it came with. */
#define GARUMBOTT_VERSION "2.0.0"

/* ---- Limits ------------------------------------------------------------------------------------------------------------------------- */

/* Bytes of stack that a call needs at most; garumbott_run alone needs more. */
#define GARUMBOTT_STACK 65536
#define GARUMBOTT_RUN_STACK 147456

/* The longest reference transcript, and the most new bases of an edit. The text program takes transcripts up to 16,384 bases. */
#define GARUMBOTT_LONGEST 131072
#define GARUMBOTT_MOST_BASES 4096

/* The most exceptions, and the bytes of each. An exception has a codon read as another residue than the table's: the codon's number, from 1, in
 * two bytes, high byte first, then the residue, 'A' to 'Z' or '*'. "\0\2U" (three bytes; C's zero byte doesn't count) has codon 2 read as U. */
#define GARUMBOTT_MOST_EXCEPTIONS 16
#define GARUMBOTT_EXCEPTION_BYTES 3

/* Buffers of these sizes are never too short for garumbott_edit, garumbott_record, garumbott_panel and garumbott_check. garumbott_transcript_room and the two
 * functions behind it compute smaller ones. */
#define GARUMBOTT_TRANSCRIPT_ROOM 262144
#define GARUMBOTT_REFERENCE_ROOM 43691
#define GARUMBOTT_ALTERED_ROOM 87382

/* Bytes of a difference between two editions, and room for all differences that two references can have: garumbott_compare. */
#define GARUMBOTT_DIFFERENCE_BYTES 4
#define GARUMBOTT_DIFFERENCES_ROOM 174764

/* ---- Numbers ------------------------------------------------------------------------------------------------------------------------ */

/* Genetic codes, for `table`. The numbers aren't NCBI's: its code 1, the standard one, is 0 here, and 1 is the one with selenocysteine. A host that
 * hands NCBI's 1 on gets answers by the wrong code, or 6 where the CDS ends in TGA. Every other number is refused with 4. */
#define GARUMBOTT_TABLE_STANDARD 0                 /* NCBI's code 1 */
#define GARUMBOTT_TABLE_SELENOCYSTEINE 1           /* the same, but TGA is U */
#define GARUMBOTT_TABLE_VERTEBRATE_MITOCHONDRIAL 2 /* NCBI's code 2: TGA is W, ATA is M, AGA and AGG are '*' */

/* How a CDS ends. Every other number is an unknown end and refused with 28, or with 3 where the CDS's length isn't divisible by 3. */
#define GARUMBOTT_END_STOP 0      /* at a stop: its last codon, exceptions applied, reads '*' (6) */
#define GARUMBOTT_END_NO_STOP 1   /* without a stop, behind a whole codon: the transcript is cut short */
#define GARUMBOTT_END_CUT_CODON 2 /* without a stop, in one or two bases of a codon: likewise */

/* Forms of a reference's letters. Every other number is refused with 1. */
#define GARUMBOTT_FORM_BYTES 0  /* a byte a letter */
#define GARUMBOTT_FORM_PACKED 1 /* two letters a byte, each the sum of its bases (A 1, C 2, G 4, T 8): as BAM has them. See garumbott_pack */

/* Kinds of edit. Every other number is an unknown kind and refused with 10. */
#define GARUMBOTT_SUBSTITUTION 1 /* one base gives way to one new base */
#define GARUMBOTT_DELETION 2     /* start to end go */
#define GARUMBOTT_DELINS 3       /* start to end give way to new bases */
#define GARUMBOTT_INSERTION 4    /* new bases between the neighbours start and end */
#define GARUMBOTT_DUPLICATION 5  /* a copy of start to end goes in behind end */
#define GARUMBOTT_INVERSION 6    /* start to end is reverse complemented */
#define GARUMBOTT_IDENTITY 7     /* nothing changes */

/* Answers. */
#define GARUMBOTT_REFUSED 0
#define GARUMBOTT_UNKNOWN 1    /* the reference protein has more than one stop, or the edit ends behind the transcript: nothing is written */
#define GARUMBOTT_NO_PROTEIN 2 /* the altered protein is empty */
#define GARUMBOTT_SILENT 3     /* both proteins are the same */
#define GARUMBOTT_CHANGED 4

/* Classes of a change, in the order in which they are tried; 0 where an answer has no change. "There" is at the change's number. */
#define GARUMBOTT_CHANGE_NONE 0
#define GARUMBOTT_CHANGE_START_LOST 1   /* residue 1 changes */
#define GARUMBOTT_CHANGE_EXTENSION 2    /* something is deleted, and R has its stop there */
#define GARUMBOTT_CHANGE_STOP_GAINED 3  /* A has its stop there */
#define GARUMBOTT_CHANGE_FRAMESHIFT 4   /* the frameshift flag is set */
#define GARUMBOTT_CHANGE_SUBSTITUTION 5 /* one residue for one */
#define GARUMBOTT_CHANGE_DELETION 6     /* nothing inserted */
#define GARUMBOTT_CHANGE_DUPLICATION 7  /* nothing deleted, and the inserted residues repeat those just before, from residue 1 too */
#define GARUMBOTT_CHANGE_INSERTION 8    /* nothing deleted */
#define GARUMBOTT_CHANGE_DELINS 9

/* Refusals. 0 is none. */
#define GARUMBOTT_REFUSAL_LENGTH 1           /* the transcript has no letter, or more than GARUMBOTT_LONGEST; packed: bytes that aren't half of L, rounded up; or an unknown form */
#define GARUMBOTT_REFUSAL_LETTER 2           /* a letter isn't one of ACGTRYSWKMBDHVN (plain translation: either case, and U too); packed: a letter is 0, or the spare half isn't */
#define GARUMBOTT_REFUSAL_BOUNDS 3           /* not 1 <= cs <= ce <= L, or ce-cs+1 not divisible by 3 (a cut codon: divisible), or below 6 */
#define GARUMBOTT_REFUSAL_TABLE 4            /* the table isn't 0, 1 or 2 */
#define GARUMBOTT_REFUSAL_EXCEPTIONS 5       /* too many exceptions, a codon number or a residue that is none, or codon numbers out of order */
#define GARUMBOTT_REFUSAL_LAST_CODON 6       /* the CDS is said to end at a stop, and its last codon, exceptions applied, doesn't read '*' */
#define GARUMBOTT_REFUSAL_POSITION 7         /* a position is none, past the CDS or before the transcript; a duplication ends behind it */
#define GARUMBOTT_REFUSAL_ORDER 8            /* start behind end, anchors no neighbours, or a substitution at two places */
#define GARUMBOTT_REFUSAL_OUT_OF_CDS 9       /* both ends before the CDS, both behind it, or an insertion that begins before it */
#define GARUMBOTT_REFUSAL_BASES 10           /* new bases missing, too many, of a wrong letter, or not wanted; unknown kind */
#define GARUMBOTT_REFUSAL_TRANSCRIPT_ROOM 11 /* the transcript buffer is too short */
#define GARUMBOTT_REFUSAL_PROTEIN_ROOM 12    /* a protein buffer is too short */
#define GARUMBOTT_REFUSAL_CODON 14           /* full codons were demanded and the length isn't divisible by 3 */
#define GARUMBOTT_REFUSAL_OUTPUT 15          /* an output doesn't fit; a name is unknown, or three-letter names aren't three each */
#define GARUMBOTT_REFUSAL_CUT 20             /* stored: a field is cut off */
#define GARUMBOTT_REFUSAL_TAG 21             /* stored: a tag is unknown, repeated or not rising */
#define GARUMBOTT_REFUSAL_MISSING 22         /* stored: letters, bounds or table are missing */
#define GARUMBOTT_REFUSAL_FIELD 23           /* stored: a field's length is wrong for its tag, or tag 8 isn't 1 or 2 */
#define GARUMBOTT_REFUSAL_STORED_ROOM 24     /* a stored form to be written: the buffer is too short for it */
#define GARUMBOTT_REFUSAL_PARTS 25           /* stored: both bounds tags, the wrong one for L, or letters go on before a field was full */
#define GARUMBOTT_REFUSAL_NOT_CHANGED 26     /* a record to be checked: the edit's answer isn't GARUMBOTT_CHANGED */
#define GARUMBOTT_REFUSAL_PROPOSAL 27        /* a record to be checked: its number is 0 or above R's length plus one, or a byte of it is no residue */
#define GARUMBOTT_REFUSAL_END 28             /* the end is unknown; or it isn't at a stop, and then ce isn't the last base, or R has a '*' */
#define GARUMBOTT_REFUSAL_JOINED_ROOM 29     /* stored: the joined letters don't fit their buffer */
#define GARUMBOTT_REFUSAL_LINE 30            /* a text line isn't in the form */
#define GARUMBOTT_REFUSAL_PROFILE_LETTER 40  /* profile: a reference letter or a new base isn't A, C, G or T */
#define GARUMBOTT_REFUSAL_PROFILE_EDIT 41    /* profile: a delins, an inversion or an identity, or a position that isn't in the CDS */
#define GARUMBOTT_REFUSAL_PROFILE_FRAME 42   /* profile: the change of length isn't divisible by three */
#define GARUMBOTT_REFUSAL_NAMED_BASE 43      /* profile: the base that a substitution names isn't the one there */
#define GARUMBOTT_REFUSAL_LIST 50            /* the list of differences doesn't fit its buffer */
#define GARUMBOTT_REFUSAL_TOUCHING 51        /* two edits: what they touch meets, or has no base between */
#define GARUMBOTT_REFUSAL_PAIR_UNKNOWN 52    /* two edits: one of them is Unknown */
#define GARUMBOTT_REFUSAL_PAIR_STOP 53       /* two edits: the stop cut of one of them finds a stop */
#define GARUMBOTT_REFUSAL_VERSION 60         /* settings: no version that is known; with `newer` beside it, a newer one */
#define GARUMBOTT_REFUSAL_SETTINGS_FIELD 61  /* settings: a field is missing, cut off, extra, out of order or of wrong length */
#define GARUMBOTT_REFUSAL_SETTING 62         /* settings: a content is out of range; an edit: its longest edit is above 4,096 */
#define GARUMBOTT_REFUSAL_SETTINGS_ROOM 63   /* settings: the buffer is too short for the store */

/* Two references compared: what is added to a refusal of the second one, so that 101 to 106 and 128 are its 1 to 6 and 28. */
#define GARUMBOTT_OF_SECOND 100

/* ---- Answers ------------------------------------------------------------------------------------------------------------------------ */

/* What a function answers that fills one buffer: a refusal's number and 0, or 0 and the number of bytes written. */
struct garumbott_length {
    uint64_t refusal;
    uint64_t len;
};

/* What garumbott_edit, garumbott_record and garumbott_panel answer. R is the reference protein, A the altered one. Places count from 0, residue numbers from 1.
 *
 *                   refused  unknown  no protein  silent    changed
 *   answer          0        1        2           3         4
 *   refusal         number   0        0           0         0
 *   frameshift      0        0        flag        flag      flag
 *   .._len          0        0        written     written   written
 *   change, first   0        0        0           0         class; first only for a duplication
 *   number          0        0        0           n         n
 *   deleted         0, 0     0, 0     0, 0        n-1, 1    n-1, length
 *   inserted        0, 0     0, 0     0, 0        n-1, 1    n-1, length
 *   codons          0        0        0           count     count
 * garumbott_edit reads no protein: its codons are always 0.
 */
struct garumbott_answer {
    uint64_t answer;         /* GARUMBOTT_REFUSED .. GARUMBOTT_CHANGED */
    uint64_t refusal;        /* GARUMBOTT_REFUSAL_.., or 0 */
    uint64_t frameshift;     /* the frameshift flag, 1 or 0: see garumbott_record */
    uint64_t transcript_len; /* bytes written to each buffer */
    uint64_t reference_len;
    uint64_t altered_len;
    uint64_t change;       /* GARUMBOTT_CHANGE_.., or 0 */
    uint64_t number;       /* of the first residue that changes; silent: of the edited codon, or the one behind a duplication, within R, where a
                            * star's number counts as a base's */
    uint64_t deleted_at;   /* the residues of R that go: R[deleted_at] .. R[deleted_at + deleted_len - 1] */
    uint64_t deleted_len;  /* may be 0 */
    uint64_t inserted_at;  /* the residues of A that come: A[inserted_at] .. A[inserted_at + inserted_len - 1] */
    uint64_t inserted_len; /* may be 0 */
    uint64_t first;        /* duplication: the number of the first residue that is repeated, else 0 */
    uint64_t codons;       /* how many codons of the altered transcript were looked up in the table, to read A: see garumbott_record */
};

/* What garumbott_check answers. A yes is 1, a no 0.
 *
 *                   refused  no       yes, no  yes, yes
 *   refusal         number   0        0        0
 *   replays         0        0        1        1
 *   shortest        0        0        0        1
 *   .._len          0        written  written  written
 */
struct garumbott_checked {
    uint64_t refusal;        /* GARUMBOTT_REFUSAL_.., or 0 */
    uint64_t replays;        /* the first answer: whether the proposed record, carried out on R, gives A */
    uint64_t shortest;       /* the second: whether it also begins where R and A part, and is the shortest such */
    uint64_t transcript_len; /* bytes written to each buffer */
    uint64_t reference_len;
    uint64_t altered_len;
};

/* What garumbott_pair answers: a refusal's number and 0, 0, or 0 and the bytes written to each buffer. */
struct garumbott_paired {
    uint64_t refusal;        /* GARUMBOTT_REFUSAL_.., or 0 */
    uint64_t transcript_len; /* bytes written to each buffer */
    uint64_t altered_len;
};

/* What garumbott_read_stored answers: a refusal's number and every other number 0, or 0, the reference's numbers, and where its letters and its
 * exceptions stand in the bytes that were read, the letters perhaps in the buffer that was lent for them. Places count from 0. */
struct garumbott_stored {
    uint64_t refusal; /* GARUMBOTT_REFUSAL_.., or 0 */
    uint64_t cs;
    uint64_t ce;
    uint64_t table;
    uint64_t letters_at; /* the letters: data[letters_at] .. data[letters_at + letters_len - 1]; 0 where they are joined */
    uint64_t letters_len;
    uint64_t exceptions_at; /* the exceptions, likewise; without a field for them, 0 bytes at 0 */
    uint64_t exceptions_len;
    uint64_t end;    /* GARUMBOTT_END_.. */
    uint64_t joined; /* 1 where the letters stand in the buffer that was lent for them, from its start; 0 where they stand in data */
};

/* ---- Edits -------------------------------------------------------------------------------------------------------------------------- */

/* The whole answer to one edit of a reference.
 *
 * The reference:
 *   letters, letters_len         the transcript's bytes, and how many they are
 *   form, size                   GARUMBOTT_FORM_BYTES: a byte a letter, 1 to 131,072 upper-case letters (1, 2); size isn't looked at.
 *                                GARUMBOTT_FORM_PACKED: two letters a byte, the first in the high half, each the sum of its bases: A 1, C 2, G 4,
 *                                T 8, so that R is 5 and N 15. size is L, the number of letters: "\x18\x48\x11", 6 is ATGTAA. Of an odd L the low
 *                                half of the last byte is spare, and zero. Refused are: bytes that aren't half of L, rounded up, or an L that is 0
 *                                or too large (1); a letter that is 0, or a spare half that isn't (2). Everything else is as for the same letters a
 *                                byte each. The new bases, the three buffers and the stored form have a byte a letter
 *   cs, ce                       first and last base of the CDS, counted from 1, both included: six bases or more, whole codons, but for a CDS that
 *                                ends in a cut codon (3)
 *   table                        GARUMBOTT_TABLE_..; not NCBI's number (4)
 *   exceptions, exceptions_len   at most 16, three bytes each as above, codon numbers strictly rising and within the CDS; none: length 0.
 *                                A length that isn't divisible by three is refused like any other fault of theirs. A cut codon has none (5)
 *   cds_end                      GARUMBOTT_END_.., the member `end` of struct garumbott_reference: at a stop, so that the last codon reads '*' (6); or cut
 *                                short, behind a whole codon or in a cut one: then the transcript ends with the CDS, so that nothing can be put
 *                                behind it (a star end is Unknown, and 7 in a duplication), and no codon reads '*', exceptions applied (28)
 * The edit, by the positions of an HGVS name ("c.8", "c.-2", "c.*3"; those in introns, as "c.88+2", have no place here):
 *   kind                         GARUMBOTT_SUBSTITUTION .. GARUMBOTT_IDENTITY (10)
 *   start_star, start            the first position: start_star 0 and start = p, or start_star 1 and start = q.
 *   end_star, end                the last position, the same as the first where there is only one.
 *                                p > 0 is base p of the CDS, p < 0 the base -p before it, q > 0 base q behind it ("*q"), at most 65,535.
 *                                A base behind the CDS is only ever a star. Every other pair of numbers is no position (7).
 *                                An insertion's two are neighbours, a substitution's the same, and no kind's first is behind its last (8).
 *                                They aren't both before the CDS, nor both behind it, and an insertion's first isn't before it (9)
 *   bases, bases_len             the new bases, upper-case letters: one for a substitution, 1 to 4,096 for delins and insertion, none for
 *                                the other kinds (10)
 *   longest                      the longest edit in bases, 1 to 4,096, or 0 for 4,096: more new bases of a delins or an insertion are too many (10).
 *                                Deleted, copied and inverted bases aren't counted. Any other number is refused before all else (62)
 *   The base that a substitution names isn't part of a call: "8T>G" is answered as "8A>G" is, whatever the transcript has there. A host that
 *   minds calls garumbott_panel, or compares it with letters[cs + start - 2], a byte each, once the edit isn't refused.
 * The buffers, each with its length:
 *   transcript                   gets the altered transcript (11)
 *   reference                    gets R (12)
 *   altered                      gets A (12)
 *
 * What it does:
 *   An edit that begins before the CDS changes bases from base 1 of the CDS on: the bases before it stay.
 *   New bases of an insertion, and the copy of a duplication, end with the first stop codon that they make by themselves, in the CDS's frame: what
 *     they have behind it is dropped, and such an edit is no frameshift. So the transcript may be shorter than you would count.
 *   The frameshift flag is set where the change of length, before that, isn't divisible by 3, and where a deletion or delins goes on from the CDS
 *     to behind it; never where the bases are put back as they were, nor in an inversion or an identity.
 *   R has a residue for each codon of the CDS, and 'X' for a cut one. In a CDS that is cut short R may be the beginning of A: number is
 *     then R's length plus one, deleted_at lies behind R's last residue, nothing is deleted, and the class isn't extension. A change that
 *     leaves one or two bases there is silent, X stays X, though a base changed, and the flag may be set.
 *   A is read from base 1 of the CDS through the first '*', to the transcript's end where there is none, with 'X' for one or two bases that are
 *     left. An exception stays with its codon where the edit leaves that codon as it was and in frame, and is dropped otherwise.
 *   A codon that the edit leaves alone isn't looked up in the table again: its residue is taken from R. It lies wholly before the edit, or
 *     wholly behind it and is, in the reference, a codon of the CDS in its frame. The edit is its range, whether its bases change or not,
 *     and in an insertion or a duplication the gap where bases go in; an identity leaves every codon of the CDS alone. With exceptions none
 *     is left alone. The answer's codons are the others: the whole codons, up to and with A's stop, that were looked up. They tell what the
 *     edit cost beside R, which each call reads anew, and not what it changed: for a substitution in the CDS, without exceptions, 1 at
 *     most, unless R's final stop changes. What is read of the new bases to find a stop isn't counted. In the example above 1 of A's five
 *     codons is looked up. "4=" has 0, "4_6dup" 1, "10_12del" 0, "5del" 5 (behind a frameshift all are), "13T>C" 3 (A goes on behind the
 *     CDS).
 *
 * Refusal 62, then 1 to 12, the lowest that applies, 28 in 6's place where the CDS doesn't end at a stop; but Unknown is decided before 11, so that
 * it needs no room. Refused and Unknown write nothing; every other answer writes all three buffers. */
struct garumbott_answer garumbott_record(const uint8_t *letters, uint64_t letters_len, uint64_t cs, uint64_t ce, uint64_t table,
                                         const uint8_t *exceptions, uint64_t exceptions_len, uint64_t cds_end, uint64_t form, uint64_t size, uint64_t kind,
                                         uint64_t start_star, int64_t start, uint64_t end_star, int64_t end, const uint8_t *bases,
                                         uint64_t bases_len, uint64_t longest, uint8_t *transcript, uint64_t transcript_len,
                                         uint8_t *reference, uint64_t reference_len, uint8_t *altered, uint64_t altered_len);

/* The altered transcript alone. Parameters, refusals 62, 1 to 11, 28 in 6's place, and Unknown are those of garumbott_record. Where it writes, the answer is
 * GARUMBOTT_CHANGED, with transcript_len and frameshift, and every other number is 0: no protein was compared. */
struct garumbott_answer garumbott_edit(const uint8_t *letters, uint64_t letters_len, uint64_t cs, uint64_t ce, uint64_t table,
                                       const uint8_t *exceptions, uint64_t exceptions_len, uint64_t cds_end, uint64_t form, uint64_t size, uint64_t kind,
                                       uint64_t start_star, int64_t start, uint64_t end_star, int64_t end, const uint8_t *bases,
                                       uint64_t bases_len, uint64_t longest, uint8_t *transcript, uint64_t transcript_len);

/* Checks a protein record that somebody else made of an edit: a proposal. The reference, the edit and the buffers are those of garumbott_record, and R and A
 * are what it writes. The proposal:
 *   number                       of the first residue of R that is replaced; where none is, of the one before which residues go in. From 1 to R's
 *                                length plus one, which is behind R's last residue (27)
 *   deleted, deleted_len         the residues that go, each 'A' to 'Z' or '*', upper case; none: length 0 (27)
 *   inserted, inserted_len       the residues that come, likewise (27). Neither has a longest length
 * Neither may lie in a buffer that this call writes: to check a record that stands there, lend other buffers, or copy the residues first.
 *
 * What the answers mean, whoever proposed the record:
 *   replays    Yes says exactly this: the deleted residues stand in R at that number, so that R[number - 1] .. R[number + deleted_len - 2] are these, and R
 *              with the inserted residues in their place is A, from its first residue to its last. Everything else is a no: deleted residues that R
 *              doesn't have there or that run over its end, one residue or a number that is off, an ending that is left out.
 *   shortest   Yes says that the proposal also begins where the proteins part and is the shortest such: number is one more than the count of leading
 *              residues that R and A share, and behind these the longest ending that both share is left out. Then no proposal that gets the first yes
 *              and begins there has fewer residues, and none that gets it begins later. No wherever the first answer is no.
 * So a change that can be written at several places, as a copy among equal residues, gets a first yes at each of them, and a second one at the last.
 * In the reference of the example above "4_6dup" makes MAAKW* of MAKW*: "3 - A" gets yes, yes; "2 - A" yes, no; "2 A AA" yes, no; "3 - K" no, no.
 * Only residues are compared. The class, the words and the letters by which another program tells of a change aren't looked at.
 *
 * What garumbott_record itself answers to the edit always gets the first yes, and both where its frameshift flag isn't set. With the flag its record has
 * all that is left of both proteins, and gets a second no where these end alike: "10delinsTAG" is answered "stop-gained 4 W* *", which gets yes, no;
 * "4 W -" gets yes, yes.
 *
 * Refusals, the first that applies: 62; 1 to 5; 6 or 28; 7 to 10; 26 where garumbott_record answers Unknown; 11; 12; 26 where it answers no protein or
 * silent; 27. So an Unknown needs no room, and a proposal is looked at only where there is a change to hold it to. A refusal leaves every byte of the
 * three buffers as it was, 26 and 27 too. A yes and a no have written all three as garumbott_record does. */
struct garumbott_checked garumbott_check(const uint8_t *letters, uint64_t letters_len, uint64_t cs, uint64_t ce, uint64_t table,
                                         const uint8_t *exceptions, uint64_t exceptions_len, uint64_t cds_end, uint64_t form, uint64_t size, uint64_t kind,
                                         uint64_t start_star, int64_t start, uint64_t end_star, int64_t end, const uint8_t *bases,
                                         uint64_t bases_len, uint64_t longest, uint64_t number, const uint8_t *deleted,
                                         uint64_t deleted_len, const uint8_t *inserted, uint64_t inserted_len, uint8_t *transcript,
                                         uint64_t transcript_len, uint8_t *reference, uint64_t reference_len, uint8_t *altered,
                                         uint64_t altered_len);

/* The answer of garumbott_record under the panel profile, a stricter mode: letters A, C, G and T only, in the whole transcript and in the new bases; substitutions,
 * and deletions, duplications and insertions that change the length by a multiple of three, with both ends in the CDS; and the base that a substitution names must be
 * the one there. Whatever the profile accepts gets garumbott_record's answer, to the letter, in the buffers too, and it refuses nothing else than what is
 * listed. The parameters are garumbott_record's, and
 *   named                        the base that a substitution names, as a byte, 'A', in a packed transcript too; any number but that of the letter there
 *                                differs (43). Not looked at in other kinds
 * Refusals: 62; 1 to 5; 6 or 28; 7 to 10; then the lowest of
 *   40   a letter of the transcript, in its untranslated parts too, or a new base is outside the four
 *   41   a delins, an inversion or an identity, or a position that is negative or a star, an insertion's right one too
 *   42   the change of length, before new bases are cut at a stop, isn't divisible by three
 *   43   the named base differs
 * then Unknown, 11 and 12. In the reference of the example above "5_7del" is answered "delins 2 AK E", "5del" 42, "4_6inv" 41, and "8C>G" 43, since there is an A. */
struct garumbott_answer garumbott_panel(const uint8_t *letters, uint64_t letters_len, uint64_t cs, uint64_t ce, uint64_t table,
                                        const uint8_t *exceptions, uint64_t exceptions_len, uint64_t cds_end, uint64_t form, uint64_t size, uint64_t kind,
                                        uint64_t start_star, int64_t start, uint64_t end_star, int64_t end, const uint8_t *bases,
                                        uint64_t bases_len, uint64_t longest, uint64_t named, uint8_t *transcript,
                                        uint64_t transcript_len, uint8_t *reference, uint64_t reference_len, uint8_t *altered,
                                        uint64_t altered_len);

/* Two edits on one transcript, as a haplotype has them: the transcript that carries both, and its protein. The reference is that of garumbott_record; the
 * first edit's numbers are kind to longest, the second's other_kind to other_longest, with the same meanings.
 *
 * Each edit must be accepted by itself and not be Unknown, its stop cut must find no stop, and at least one base that neither touches must lie between
 * the two. An edit touches its start to its end: a duplication the bases that it copies, an identity the bases that it leaves as they are; an insertion
 * touches the gap alone where its bases go in. Positions are those of the reference for both edits: the one behind is moved by the other's length change,
 * and a copy or a complement is taken from the reference. New bases go in whole, though the other edit may shift a stop into them.
 *
 * The protein is read from cs on, without exceptions, through its first stop; with none, to the end, 'X' for a rest. There is always a residue. Nothing is
 * said of R, and there is no record: compare the protein with what you hold it against.
 *
 * In the reference of the example above "4G>C" and "6C>G" make GGATGCCGAAATGGTAACCTGAC, MPKW*; "4G>C" and "5C>G" are refused with 51. Both orders of two
 * accepted edits are answered the same.
 *
 * Refusals, the first that applies: 62, of either longest; 1 to 5; 6 or 28; the first edit's 7 to 10; the second's; 51; 52; 53; 11, a transcript buffer shorter than the pair's
 * length, which is L plus both edits' length changes; 12, a protein buffer shorter than (pair's length - cs + 1) / 3, rounded up. Room that is
 * enough: garumbott_transcript_room of both edits, added, less L, and garumbott_altered_room of that. GARUMBOTT_TRANSCRIPT_ROOM may be too
 * short by up to GARUMBOTT_MOST_BASES, where nearly all of the longest transcript is copied and bases are inserted too. */
struct garumbott_paired garumbott_pair(const uint8_t *letters, uint64_t letters_len, uint64_t cs, uint64_t ce, uint64_t table,
                                       const uint8_t *exceptions, uint64_t exceptions_len, uint64_t cds_end, uint64_t form, uint64_t size, uint64_t kind,
                                       uint64_t start_star, int64_t start, uint64_t end_star, int64_t end, const uint8_t *bases,
                                       uint64_t bases_len, uint64_t longest, uint64_t other_kind, uint64_t other_start_star,
                                       int64_t other_start, uint64_t other_end_star, int64_t other_end, const uint8_t *other_bases,
                                       uint64_t other_bases_len, uint64_t other_longest, uint8_t *transcript, uint64_t transcript_len,
                                       uint8_t *altered, uint64_t altered_len);

/* ---- Editions ----------------------------------------------------------------------------------------------------------------------- */

/* Compares two editions of a transcript, codon by codon, and lists what differs. The two references are each as in garumbott_record, of any table, end and form,
 * each by itself; they aren't asked to have anything in common.
 *   out                          gets the list, four bytes a difference: the codon's number in two, high byte first, then its residue in the first
 *                                reference and in the second, 0 for one that has no such codon. The answer's len is in bytes, 4 for each
 *                                difference. GARUMBOTT_DIFFERENCES_ROOM is never too short, and neither is 4 bytes for each codon of the longer
 *                                CDS (50)
 * Codon n of one CDS stands beside codon n of the other; nothing is aligned. A codon is listed if its letters differ, or if it reads another residue, by its table or
 * an exception: "2 K K" tells of other letters with the same residue. Behind the end of the shorter CDS each codon of the longer one is listed. The one or two
 * bases of a cut codon count as a codon that reads 'X', and differ from a whole codon that begins with them. Bases outside the CDS, bounds, table, end and form
 * are no difference by themselves. The numbers rise, no codon is listed twice, none that is equal is listed, and the list is empty exactly if the two CDS
 * have the same letters and residues. With the two references swapped the list is the same with its residues swapped.
 * ATGAAATAA and ATGAAGCCCTAA give "\0\2KK" "\0\3*P" "\0\4\0*".
 *
 * Refusals, the first that applies: 1 to 5, then 6 or 28, of the first reference; the same of the second with GARUMBOTT_OF_SECOND added, 101 to 106 and 128; 50.
 * Several stops in a CDS are no fault. No memory of the size of a protein is needed. */
struct garumbott_length garumbott_compare(const uint8_t *letters, uint64_t letters_len, uint64_t cs, uint64_t ce, uint64_t table,
                                          const uint8_t *exceptions, uint64_t exceptions_len, uint64_t cds_end, uint64_t form, uint64_t size,
                                          const uint8_t *second_letters, uint64_t second_letters_len, uint64_t second_cs, uint64_t second_ce,
                                          uint64_t second_table, const uint8_t *second_exceptions, uint64_t second_exceptions_len,
                                          uint64_t second_cds_end, uint64_t second_form, uint64_t second_size, uint8_t *out, uint64_t out_len);

/* ---- Stored references -------------------------------------------------------------------------------------------------------------- */

/* Reads a reference from its stored form, and judges it: 1 to 6 and 28 are tested here as in garumbott_record.
 *
 * The stored form is fields, one behind the other, with nothing else between or behind them. A field is a tag of one byte, a length of two
 * bytes and as many bytes of content as the length says. Every number of two bytes or four has its high byte first. Tags rise, so none comes twice:
 *   1   letters      the transcript, its first 65,535 letters at most
 *   2   bounds       cs, then ce, two bytes each; of a transcript of up to 16,384 letters
 *   3   table        one byte
 *   4   exceptions   three bytes each, as above; the field may be empty, or absent
 *   5   letters      those that follow, where tag 1 is full with 65,535
 *   6   letters      those that follow, where tag 5 is full too
 *   7   bounds       cs, then ce, four bytes each, in place of tag 2; of a longer transcript
 *   8   end          one byte, GARUMBOTT_END_NO_STOP or GARUMBOTT_END_CUT_CODON; absent where the CDS ends at a stop
 * The reference of the example above is "\1\0\27GGATGGCCAAATGGTAACCTGAC" "\2\0\4\0\3\0\21" "\3\0\1\0". ATGGCC without a stop is
 * "\1\0\6ATGGCC" "\2\0\4\0\1\0\6" "\3\0\1\0" "\10\0\1\1".
 *
 * Refusals, the first that applies:
 *   20, 21, 23   met in the order of the fields; in one field 21 before 20 before 23.
 *                20: the bytes end within the field.
 *                21: the tag isn't 1 to 8, or isn't above the tag before it.
 *                23: the length isn't 4 for tag 2, 1 for tags 3 and 8, 8 for tag 7, or divisible by three for tag 4, tag 5 or 6 is empty, or
 *                tag 8 isn't 1 or 2; tag 1 may have any length here
 *   22           tag 1 or 3 is missing, or there is neither tag 2 nor tag 7
 *   25           tag 2 with more than 16,384 letters in all, tag 7 with no more, or both; or a tag 5 or 6 though the one before isn't full
 *   1 to 6       the lowest, 28 in 6's place where the CDS doesn't end at a stop
 *   29           there is a tag 5, and the letters of all fields don't fit `joined`
 *
 * Where there is a tag 5, the letters of all fields are written to `joined`, one behind the other, from its start; GARUMBOTT_LONGEST bytes are always
 * enough. Else nothing is copied, and `joined` may be NULL with length 0. What stands in data must stay as it is while it is used.
 * garumbott_reference_at, below, makes of the answer what garumbott_record_of, garumbott_edit_of and garumbott_check_of take. */
struct garumbott_stored garumbott_read_stored(const uint8_t *data, uint64_t data_len, uint8_t *joined, uint64_t joined_len);

/* The other way: writes a reference to out in the stored form above, one byte a letter, and answers the form's length. Tags rise, and a field that would be
 * empty is left out: no tag 4 without exceptions, no tag 8 for a CDS that ends at a stop. Read again, the form is the same reference; and bytes that
 * garumbott_read_stored takes are written as they were, but for a tag 4 of length 0, which is left out.
 *
 * The form's length follows from the reference's numbers: garumbott_stored_room, below, tells it, exactly. The example's is 37.
 *     uint64_t room = garumbott_stored_room(r.letters_len, r.exceptions_len, r.end);   of packed letters: r.size in place of r.letters_len
 *     uint8_t *form = malloc(room);
 *     struct garumbott_length w = garumbott_write_stored_of(&r, form, room);   of a reference that isn't refused: w.len is room
 *
 * Refusals, the first that applies:
 *   1 to 6       the lowest, 28 in 6's place where the CDS isn't said to end at a stop: as of any other call, and as garumbott_read_stored would refuse it. Numbers that
 *                have no stored form at all (cs 65,537 of six letters, table 256) get theirs, 3 and 4
 *   24           out is too short for the form */
struct garumbott_length garumbott_write_stored(
    const uint8_t *letters, uint64_t letters_len,
    uint64_t cs,
    uint64_t ce,
    uint64_t table,
    const uint8_t *exceptions, uint64_t exceptions_len,
    uint64_t cds_end, uint64_t form, uint64_t size,
    uint8_t *out, uint64_t out_len);

/* ---- Settings ----------------------------------------------------------------------------------------------------------------------- */

/* The settings that a bench keeps: its default table, whether its profile is on, the output width of residue names and the longest edit in bases. They are
 * stored in fields as a reference is, with tags of their own, so that they survive an update and the way back:
 *   1   version   one byte, GARUMBOTT_SETTINGS_FIRST or GARUMBOTT_SETTINGS_SECOND
 *   2   table     one byte, GARUMBOTT_TABLE_..
 *   3   profile   one byte, 0 off, 1 on
 *   4   width     one byte, 1 or 3: residue names of one letter or of three
 *   5   longest   two bytes, high byte first, 1 to 4,096; in version 2 alone. A version 1 store reads as 4,096
 * Every field stands there, once and in this order, and nothing behind the last. No function reads settings by itself: a host hands the table and the longest
 * edit on to its calls, and chooses between garumbott_record and garumbott_panel, and between residues as they are and garumbott_names3.
 *
 *     uint8_t store[GARUMBOTT_SETTINGS_ROOM];
 *     struct garumbott_length w = garumbott_write_settings(GARUMBOTT_SETTINGS_SECOND, GARUMBOTT_TABLE_STANDARD, 0, 3, 50, store, sizeof store);
 *     struct garumbott_settings s = garumbott_read_settings(GARUMBOTT_SETTINGS_SECOND, store, w.len);
 *     if (s.newer) puts("settings of a newer version: update this bench, or use its own");
 *     else if (s.refusal) puts(garumbott_refusal_words(s.refusal));
 *     else reference.table = s.table, edit.longest = s.longest; */
#define GARUMBOTT_SETTINGS_FIRST 1
#define GARUMBOTT_SETTINGS_SECOND 2

/* The bytes of a store of version 1, and of version 2, which is the longest. */
#define GARUMBOTT_SETTINGS_FIRST_ROOM 16
#define GARUMBOTT_SETTINGS_ROOM 21

/* What garumbott_read_settings answers: the settings, or a refusal's number and every other number 0, but newer. */
struct garumbott_settings {
    uint64_t refusal; /* GARUMBOTT_REFUSAL_.., or 0 */
    uint64_t newer;   /* 1 beside refusal 60 where the store has a higher version than the reader, of version 1 or 2, knows; else 0 */
    uint64_t version;
    uint64_t table;
    uint64_t profile;
    uint64_t width;
    uint64_t longest;
};

/* Reads settings as a reader does that knows the versions up to newest, GARUMBOTT_SETTINGS_FIRST or GARUMBOTT_SETTINGS_SECOND; any other newest reads nothing: 60, and
 * newer is 0 whatever the store has. So a host can ask what a bench that wasn't updated will make of a store. Refusals, the first that applies:
 *   60   the first field isn't tag 1 with one byte, or the version is 0, or above newest, which is marked as newer; nothing behind it is looked at
 *   61   a field is missing, cut off, extra (tag 5 in version 1 too), out of order or of wrong length, or bytes stand behind the last
 *   62   a content is out of range */
struct garumbott_settings garumbott_read_settings(uint64_t newest, const uint8_t *data, uint64_t data_len);

/* Writes settings in a version, 16 or 21 bytes. What is written is read back as the same settings, and what was read, written again, is the same bytes. Refusals,
 * the first that applies:
 *   60   the version isn't 1 or 2
 *   62   a content is out of range, a longest of 0 too, which only a call takes for 4,096; or the version is 1 and longest isn't 4,096
 *   63   out is shorter than the store */
struct garumbott_length garumbott_write_settings(uint64_t version, uint64_t table, uint64_t profile, uint64_t width, uint64_t longest,
                                                 uint8_t *out, uint64_t out_len);

/* ---- The text program --------------------------------------------------------------------------------------------------------------- */

/* The text program over memory: the first line of the input is "ref CS CE TABLE LETTERS", each line behind it an edit ("8A>G", "5del", "4_6dup",
 * "9_10insTAG", "4_6delinsTT", "4_6inv", "4="; positions "7", "-2", "*3"), and each is answered by a line: "reference MAKW*",
 * "substitution 3 K R", "refused 7". TABLE is 0, 1 or 2 as above, the CDS ends at a stop, and the base that a substitution names isn't looked at here either. A line ends
 * at a line feed, the last perhaps without; a carriage return before it is a byte of the line. Lines that aren't in the form, empty ones and those
 * above 20,480 bytes are answered "refused 30". A refused first line ends the run. An answer has at most 16,415 bytes, its line feed included.
 * Refusal 15: the answers don't fit; then no byte of out has changed. Nothing else is refused. */
struct garumbott_length garumbott_run(const uint8_t *input, uint64_t input_len, uint8_t *out, uint64_t out_len);

/* ---- Byte strings ------------------------------------------------------------------------------------------------------------------- */

/* Translates codon by codon: one residue a codon, then one 'X' if one or two bytes remain. Letters may be of either case, and U is T. A codon
 * of ambiguous letters reads as its residue if all its plain codons agree, as 'B' if they give exactly D and N, as 'Z' if exactly E and Q, else
 * as 'X'. A remaining byte isn't looked at.
 *   full         not 0: a length that isn't divisible by 3 is refused (14)
 *   table        GARUMBOTT_TABLE_.. (4)
 *   exceptions   as in garumbott_record, but codon numbers may come in any order, and the last one for a codon counts; one behind the whole codons
 *                does nothing (5). The letters of an exception's codon must be good all the same
 *   out          needs (seq_len + 2) / 3 bytes (15)
 * The first of these that applies is given: 4, 5, 14, 15, 2. */
struct garumbott_length garumbott_translate(const uint8_t *seq, uint64_t seq_len, uint64_t table, uint64_t full, const uint8_t *exceptions,
                                            uint64_t exceptions_len, uint8_t *out, uint64_t out_len);

/* The reverse complement of upper-case letters. out needs seq_len bytes. The first of these that applies is given: 15, 2. */
struct garumbott_length garumbott_complement(const uint8_t *seq, uint64_t seq_len, uint8_t *out, uint64_t out_len);

/* One-letter residue names to three-letter names: "MA*" to "MetAlaTer". Twenty residues, U Sec, X Xaa, B Asx, Z Glx, '*' Ter; case counts. out
 * needs 3 * one_len bytes. Refusal 15: a name is unknown, or the output doesn't fit. */
struct garumbott_length garumbott_names3(const uint8_t *one, uint64_t one_len, uint8_t *out, uint64_t out_len);

/* And back. out needs three_len / 3 bytes. Refusal 15: a name is unknown, the length isn't divisible by three, or the output doesn't fit. */
struct garumbott_length garumbott_names1(const uint8_t *three, uint64_t three_len, uint8_t *out, uint64_t out_len);

/* The number of equal first, or equal last, bytes of two byte strings. Nothing is refused; a and b may be the same. */
uint64_t garumbott_common_prefix(const uint8_t *a, uint64_t a_len, const uint8_t *b, uint64_t b_len);
uint64_t garumbott_common_suffix(const uint8_t *a, uint64_t a_len, const uint8_t *b, uint64_t b_len);

/* ---- The same over structs ---------------------------------------------------------------------------------------------------------- */

/* More than twenty arguments in a row are easy to mix up: these hold them by name. Members that an initializer leaves out are 0: no exceptions, no stars, no
 * bases, GARUMBOTT_TABLE_STANDARD, GARUMBOTT_END_STOP, GARUMBOTT_FORM_BYTES, and a longest edit of 4,096. */
struct garumbott_reference {
    const uint8_t *letters;
    uint64_t letters_len;
    uint64_t cs;
    uint64_t ce;
    uint64_t table;
    const uint8_t *exceptions;
    uint64_t exceptions_len;
    uint64_t end;  /* cds_end: how the CDS ends, GARUMBOTT_END_.. */
    uint64_t form; /* of the letters, GARUMBOTT_FORM_.. */
    uint64_t size; /* L where they are packed; letters_len counts their bytes */
};

struct garumbott_coding_edit {
    uint64_t kind;
    uint64_t start_star;
    int64_t start;
    uint64_t end_star;
    int64_t end;
    const uint8_t *bases;
    uint64_t bases_len;
    uint64_t longest; /* the longest edit in bases, 1 to 4,096, or 0 for 4,096 */
};

struct garumbott_buffers {
    uint8_t *transcript;
    uint64_t transcript_len;
    uint8_t *reference;
    uint64_t reference_len;
    uint8_t *altered;
    uint64_t altered_len;
};

/* The reference that garumbott_read_stored found in data, with the buffer that it was lent; it points into data, and its letters into `joined` where they
 * are joined. Of a refusal: a reference without letters, refused with 1. */
static inline struct garumbott_reference garumbott_reference_at(const struct garumbott_stored *s, const uint8_t *data, const uint8_t *joined)
{
    struct garumbott_reference r;
    r.letters = s->letters_len == 0 ? NULL : s->joined != 0 ? joined : data + s->letters_at;
    r.letters_len = s->letters_len;
    r.cs = s->cs;
    r.ce = s->ce;
    r.table = s->table;
    r.exceptions = s->exceptions_len == 0 ? NULL : data + s->exceptions_at;
    r.exceptions_len = s->exceptions_len;
    r.end = s->end;
    r.form = GARUMBOTT_FORM_BYTES;
    r.size = 0;
    return r;
}

static inline struct garumbott_answer garumbott_record_of(const struct garumbott_reference *r, const struct garumbott_coding_edit *e,
                                                          const struct garumbott_buffers *b)
{
    return garumbott_record(r->letters, r->letters_len, r->cs, r->ce, r->table, r->exceptions, r->exceptions_len, r->end, r->form, r->size, e->kind,
                            e->start_star, e->start, e->end_star, e->end, e->bases, e->bases_len, e->longest, b->transcript,
                            b->transcript_len, b->reference, b->reference_len, b->altered, b->altered_len);
}

static inline struct garumbott_answer garumbott_panel_of(const struct garumbott_reference *r, const struct garumbott_coding_edit *e,
                                                         uint64_t named, const struct garumbott_buffers *b)
{
    return garumbott_panel(r->letters, r->letters_len, r->cs, r->ce, r->table, r->exceptions, r->exceptions_len, r->end, r->form, r->size, e->kind,
                           e->start_star, e->start, e->end_star, e->end, e->bases, e->bases_len, e->longest, named, b->transcript,
                           b->transcript_len, b->reference, b->reference_len, b->altered, b->altered_len);
}

/* Only the transcript buffer is used. */
static inline struct garumbott_answer garumbott_edit_of(const struct garumbott_reference *r, const struct garumbott_coding_edit *e,
                                                        const struct garumbott_buffers *b)
{
    return garumbott_edit(r->letters, r->letters_len, r->cs, r->ce, r->table, r->exceptions, r->exceptions_len, r->end, r->form, r->size, e->kind,
                          e->start_star, e->start, e->end_star, e->end, e->bases, e->bases_len, e->longest, b->transcript,
                          b->transcript_len);
}

static inline struct garumbott_checked garumbott_check_of(const struct garumbott_reference *r, const struct garumbott_coding_edit *e,
                                                          uint64_t number, const uint8_t *deleted, uint64_t deleted_len,
                                                          const uint8_t *inserted, uint64_t inserted_len, const struct garumbott_buffers *b)
{
    return garumbott_check(r->letters, r->letters_len, r->cs, r->ce, r->table, r->exceptions, r->exceptions_len, r->end, r->form, r->size, e->kind,
                           e->start_star, e->start, e->end_star, e->end, e->bases, e->bases_len, e->longest, number, deleted,
                           deleted_len, inserted, inserted_len, b->transcript, b->transcript_len, b->reference, b->reference_len,
                           b->altered, b->altered_len);
}

static inline struct garumbott_length garumbott_write_stored_of(const struct garumbott_reference *r, uint8_t *out, uint64_t out_len)
{
    return garumbott_write_stored(r->letters, r->letters_len, r->cs, r->ce, r->table, r->exceptions, r->exceptions_len, r->end, r->form, r->size, out, out_len);
}

/* Exactly what 24 asks for: the length of a reference's stored form, of a reference that isn't refused. letters_len is L, so `size` of a packed one.
 * Three bytes and a content for each field: the letters, cs and ce in two bytes each or, above 16,384 letters, in four, the table, the exceptions and
 * the end where there are any; and the letters beyond 65,535 and beyond 131,070 have a field of their own. */
static inline uint64_t garumbott_stored_room(uint64_t letters_len, uint64_t exceptions_len, uint64_t cds_end)
{
    return letters_len + 14 + (letters_len > 16384 ? 4 : 0) + (letters_len > 65535 ? 3 : 0) + (letters_len > 131070 ? 3 : 0)
        + (exceptions_len == 0 ? 0 : 3 + exceptions_len) + (cds_end == GARUMBOTT_END_STOP ? 0 : 4);
}

/* Only the transcript buffer and that of the altered protein are used. */
static inline struct garumbott_paired garumbott_pair_of(const struct garumbott_reference *r, const struct garumbott_coding_edit *e,
                                                        const struct garumbott_coding_edit *f, const struct garumbott_buffers *b)
{
    return garumbott_pair(r->letters, r->letters_len, r->cs, r->ce, r->table, r->exceptions, r->exceptions_len, r->end, r->form, r->size, e->kind,
                          e->start_star, e->start, e->end_star, e->end, e->bases, e->bases_len, e->longest, f->kind, f->start_star,
                          f->start, f->end_star, f->end, f->bases, f->bases_len, f->longest, b->transcript, b->transcript_len,
                          b->altered, b->altered_len);
}

static inline struct garumbott_length garumbott_compare_of(const struct garumbott_reference *r, const struct garumbott_reference *s,
                                                           uint8_t *out, uint64_t out_len)
{
    return garumbott_compare(r->letters, r->letters_len, r->cs, r->ce, r->table, r->exceptions, r->exceptions_len, r->end, r->form, r->size, s->letters,
                             s->letters_len, s->cs, s->ce, s->table, s->exceptions, s->exceptions_len, s->end, s->form, s->size, out, out_len);
}

/* Packs upper-case letters, two to a byte, for GARUMBOTT_FORM_PACKED. packed needs GARUMBOTT_PACKED_BYTES(letters_len) bytes. The first of these that
 * applies is given: 15, 2; a refusal changes no byte.
 *     struct garumbott_length p = garumbott_pack(letters, letters_len, packed, packed_len);
 *     r.letters = packed, r.letters_len = p.len, r.form = GARUMBOTT_FORM_PACKED, r.size = letters_len;   where p.refusal is 0 */
#define GARUMBOTT_PACKED_BYTES(letters) ((letters) / 2 + (letters) % 2)

static inline struct garumbott_length garumbott_pack(const uint8_t *letters, uint64_t letters_len, uint8_t *packed, uint64_t packed_len)
{
    static const char of_sets[] = "ACMGRSVTWYHKDBN"; /* the letter of the sets 1 to 15 */
    uint8_t sets[256] = {0};
    struct garumbott_length l = {0, 0};
    for (uint8_t s = 1; s < 16; s++) sets[(uint8_t)of_sets[s - 1]] = s;
    if (packed_len < GARUMBOTT_PACKED_BYTES(letters_len)) l.refusal = GARUMBOTT_REFUSAL_OUTPUT;
    for (uint64_t i = 0; l.refusal == 0 && i < letters_len; i++) if (sets[letters[i]] == 0) l.refusal = GARUMBOTT_REFUSAL_LETTER;
    if (l.refusal != 0) return l;
    for (uint64_t i = 0; i < letters_len; i += 2)
        packed[i / 2] = (uint8_t)(sets[letters[i]] << 4 | (i + 1 < letters_len ? sets[letters[i + 1]] : 0));
    l.len = GARUMBOTT_PACKED_BYTES(letters_len);
    return l;
}

/* Room that is enough for any edit of a kind with so many new bases, of a transcript of so many letters (which a packed one's letters_len isn't).
 * Less may do: 11 and 12 ask for the altered length itself, and for a residue of each of its codons from cs on. The numbers are those of a reference
 * and an edit that aren't refused; garumbott_record with three buffers of length 0 tells whether they are: it answers 11, 12 or Unknown to one that
 * is accepted. */
static inline uint64_t garumbott_transcript_room(uint64_t letters, uint64_t kind, uint64_t bases_len)
{
    return letters + (kind == GARUMBOTT_DUPLICATION ? letters : bases_len);
}

/* Exactly what 12 asks for R: a third of the CDS, rounded up. */
static inline uint64_t garumbott_reference_room(uint64_t cs, uint64_t ce)
{
    return ce < cs ? 0 : (ce - cs) / 3 + 1;
}

/* Of an altered transcript of so many bases, exactly what 12 asks for A. */
static inline uint64_t garumbott_altered_room(uint64_t transcript_len, uint64_t cs)
{
    return transcript_len + 3 < cs ? 0 : (transcript_len + 3 - cs) / 3;
}

/* ---- Words -------------------------------------------------------------------------------------------------------------------------- */

/* The name of a class of change as the text program prints it, "?" for any other number. */
static inline const char *garumbott_class_name(uint64_t change)
{
    switch (change) {
    case GARUMBOTT_CHANGE_START_LOST: return "start-lost";
    case GARUMBOTT_CHANGE_EXTENSION: return "extension";
    case GARUMBOTT_CHANGE_STOP_GAINED: return "stop-gained";
    case GARUMBOTT_CHANGE_FRAMESHIFT: return "frameshift";
    case GARUMBOTT_CHANGE_SUBSTITUTION: return "substitution";
    case GARUMBOTT_CHANGE_DELETION: return "deletion";
    case GARUMBOTT_CHANGE_DUPLICATION: return "duplication";
    case GARUMBOTT_CHANGE_INSERTION: return "insertion";
    case GARUMBOTT_CHANGE_DELINS: return "delins";
    default: return "?";
    }
}

/* The name of an answer, "?" for any other number. The text program prints these too, but for "changed": there it prints the class. */
static inline const char *garumbott_answer_name(uint64_t answer)
{
    switch (answer) {
    case GARUMBOTT_REFUSED: return "refused";
    case GARUMBOTT_UNKNOWN: return "unknown";
    case GARUMBOTT_NO_PROTEIN: return "no-protein";
    case GARUMBOTT_SILENT: return "silent";
    case GARUMBOTT_CHANGED: return "changed";
    default: return "?";
    }
}

/* The words of what is refused of a reference, the first of two as well as the second. */
#define GARUMBOTT_WORDS_LENGTH \
    "the transcript's length L is 0 or above its limit: the library takes up to 131,072; the text program keeps 16,384; " \
    "or the byte count of a packed transcript isn't half of L, rounded up, or its form is unknown"
#define GARUMBOTT_WORDS_LETTER \
    "a letter is not of ACGTRYSWKMBDHVN, the fifteen of a reference and of a complement; plain translation takes either case, and U as T; " \
    "or a packed transcript has an empty letter set, or its spare half isn't zero"
#define GARUMBOTT_WORDS_BOUNDS \
    "the bounds break a rule: 1 <= cs <= ce <= length, ce-cs+1 divisible by 3 (not divisible where the CDS ends in a cut codon) " \
    "and at least 6"
#define GARUMBOTT_WORDS_TABLE "the table is not 0, 1 or 2"
#define GARUMBOTT_WORDS_EXCEPTIONS \
    "the exceptions break a rule: at most 16, codon numbers strictly rising from 1 to the number of whole CDS codons " \
    "(in plain translation from 1 in any order), residues A to Z or *"
#define GARUMBOTT_WORDS_LAST_CODON \
    "the CDS ends at a stop, as stated, but its last codon, exceptions applied, doesn't read *"
#define GARUMBOTT_WORDS_END \
    "the CDS's stated end is unknown; or the CDS is cut short, and then ce is not the last base, or a codon reads *, exceptions applied"

/* When a refusal is given, in words for a user. They may change with the version: tell refusals apart by their numbers. */
static inline const char *garumbott_refusal_words(uint64_t number)
{
    switch (number) {
    case 0: return "not refused";
    case GARUMBOTT_REFUSAL_LENGTH: return GARUMBOTT_WORDS_LENGTH;
    case GARUMBOTT_REFUSAL_LETTER: return GARUMBOTT_WORDS_LETTER;
    case GARUMBOTT_REFUSAL_BOUNDS: return GARUMBOTT_WORDS_BOUNDS;
    case GARUMBOTT_REFUSAL_TABLE: return GARUMBOTT_WORDS_TABLE;
    case GARUMBOTT_REFUSAL_EXCEPTIONS: return GARUMBOTT_WORDS_EXCEPTIONS;
    case GARUMBOTT_REFUSAL_LAST_CODON: return GARUMBOTT_WORDS_LAST_CODON;
    case GARUMBOTT_REFUSAL_POSITION:
        return "a position is 0, star 0 or above 65,535, past the CDS or before base 1 of the transcript, "
               "or a duplication's end is behind the transcript";
    case GARUMBOTT_REFUSAL_ORDER:
        return "the start place is after the end place, an insertion's anchors are not neighbours, or a substitution's two places differ";
    case GARUMBOTT_REFUSAL_OUT_OF_CDS: return "both ends are before the CDS, or both behind it, or an insertion's left anchor is before it";
    case GARUMBOTT_REFUSAL_BASES:
        return "new bases are missing, too many, of a wrong letter, or given where the kind has none; or the kind is unknown";
    case GARUMBOTT_REFUSAL_TRANSCRIPT_ROOM: return "the transcript buffer is shorter than the altered length";
    case GARUMBOTT_REFUSAL_PROTEIN_ROOM:
        return "a protein buffer is shorter than CDS/3 rounded up (reference) or ceil((altered length-cs+1)/3) (altered)";
    case GARUMBOTT_REFUSAL_CODON: return "full codons were demanded, and one or two bytes remain: the length is not divisible by 3";
    case GARUMBOTT_REFUSAL_OUTPUT:
        return "a name is unknown, three-letter names have a length not divisible by three, "
               "or an output doesn't fit (of names, a translation, a complement or a run)";
    case GARUMBOTT_REFUSAL_CUT: return "a stored field is cut off";
    case GARUMBOTT_REFUSAL_TAG: return "a stored tag is unknown, repeated or not rising";
    case GARUMBOTT_REFUSAL_MISSING:
        return "stored tag 1 or 3 (letters, table) is missing, or both 2 and 7 are (bounds): a stored reference wants one of tags 2 and 7";
    case GARUMBOTT_REFUSAL_FIELD:
        return "a stored field's length is wrong for its tag, tag 5 or 6 is empty, or the content of tag 8 is not 1 or 2";
    case GARUMBOTT_REFUSAL_STORED_ROOM: return "the buffer is too short for the stored form";
    case GARUMBOTT_REFUSAL_PARTS:
        return "a stored reference has both bounds tags, the wrong one for L, or a letter field begun before the last was full";
    case GARUMBOTT_REFUSAL_NOT_CHANGED: return "the edit's answer isn't Changed: it is unknown, silent or no protein, and has no record to check";
    case GARUMBOTT_REFUSAL_PROPOSAL:
        return "the proposed record's number is 0 or above the length of R plus one, or a residue byte of it is not A to Z or *";
    case GARUMBOTT_REFUSAL_END: return GARUMBOTT_WORDS_END;
    case GARUMBOTT_REFUSAL_JOINED_ROOM: return "the joined letters of a stored reference don't fit their buffer";
    case GARUMBOTT_REFUSAL_LINE: return "the text line is not in the form";
    case GARUMBOTT_REFUSAL_LIST: return "the list of differences doesn't fit its buffer";
    case GARUMBOTT_REFUSAL_TOUCHING: return "the ranges that the two edits touch meet, or have no base between";
    case GARUMBOTT_REFUSAL_PAIR_UNKNOWN: return "one of the two edits is Unknown";
    case GARUMBOTT_REFUSAL_PAIR_STOP: return "the stop cut of one of the two edits finds a *";
    case GARUMBOTT_REFUSAL_PROFILE_LETTER: return "a reference letter or a new base is outside the four that the profile takes, A, C, G and T";
    case GARUMBOTT_REFUSAL_PROFILE_EDIT:
        return "the kind or a position is outside the profile: substitutions, deletions, duplications and insertions with both ends in the CDS";
    case GARUMBOTT_REFUSAL_PROFILE_FRAME: return "the net change of length is not divisible by three, as the profile wants it";
    case GARUMBOTT_REFUSAL_NAMED_BASE: return "the base named in the substitution differs from the one there";
    case GARUMBOTT_REFUSAL_VERSION:
        return "the settings' version, a first field of tag 1 and one byte, is missing, unknown or newer than the reader";
    case GARUMBOTT_REFUSAL_SETTINGS_FIELD: return "a field of the settings is missing, cut off, extra, out of order or of wrong length";
    case GARUMBOTT_REFUSAL_SETTING:
        return "a content of the settings is out of range (table 0 to 2, profile 0 or 1, width 1 or 3, longest edit 1 to 4,096), a version 1 store "
               "was asked for with a smaller longest edit, or a call's longest edit is above 4,096";
    case GARUMBOTT_REFUSAL_SETTINGS_ROOM: return "the buffer is too short for the store of the settings";
    case GARUMBOTT_OF_SECOND + GARUMBOTT_REFUSAL_LENGTH: return "of the second reference: " GARUMBOTT_WORDS_LENGTH;
    case GARUMBOTT_OF_SECOND + GARUMBOTT_REFUSAL_LETTER: return "of the second reference: " GARUMBOTT_WORDS_LETTER;
    case GARUMBOTT_OF_SECOND + GARUMBOTT_REFUSAL_BOUNDS: return "of the second reference: " GARUMBOTT_WORDS_BOUNDS;
    case GARUMBOTT_OF_SECOND + GARUMBOTT_REFUSAL_TABLE: return "of the second reference: " GARUMBOTT_WORDS_TABLE;
    case GARUMBOTT_OF_SECOND + GARUMBOTT_REFUSAL_EXCEPTIONS: return "of the second reference: " GARUMBOTT_WORDS_EXCEPTIONS;
    case GARUMBOTT_OF_SECOND + GARUMBOTT_REFUSAL_LAST_CODON: return "of the second reference: " GARUMBOTT_WORDS_LAST_CODON;
    case GARUMBOTT_OF_SECOND + GARUMBOTT_REFUSAL_END: return "of the second reference: " GARUMBOTT_WORDS_END;
    default: return "a refusal that this header doesn't know";
    }
}

#ifdef __cplusplus
}
#endif

#endif
