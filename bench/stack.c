/* The bytes of stack that each entry point touches, of references of 3,000, 16,384 and 131,072 bases: the most of many calls, each on a stack that was painted. */
#include "through.h"
#include <pthread.h>
#include <stdio.h>
#include <stdlib.h>
#include <string.h>
#include <sys/mman.h>

enum { SIZE = 1 << 20, PAINT = 0xA5, NEAR = 1024 };

static uint8_t letters[GARUMBOTT_LONGEST], bases[GARUMBOTT_MOST_BASES], tx[2 * GARUMBOTT_LONGEST + GARUMBOTT_MOST_BASES], rp[GARUMBOTT_LONGEST], ap[GARUMBOTT_LONGEST], form[GARUMBOTT_LONGEST + 128],
    joined[GARUMBOTT_LONGEST], list[GARUMBOTT_DIFFERENCES_ROOM], text[GARUMBOTT_LONGEST];
static struct garumbott_reference ref;
static struct garumbott_coding_edit edit, other;
static const struct garumbott_buffers buffers = {tx, sizeof tx, rp, sizeof rp, ap, sizeof ap};
static volatile uint64_t sink;
static uint8_t *bottom;

/* ---- the calls ---- */

static void record(void) { sink += record_of(&ref, &edit, &buffers).refusal; }
static void transcript(void) { sink += edit_of(&ref, &edit, &buffers).refusal; }
static uint64_t number, deleted_len, inserted_len;   /* the edit's own record, its residues in `text` */
static void judge(void) { sink += check_of(&ref, &edit, number, text, deleted_len, text + deleted_len, inserted_len, &buffers).replays; }
static void pair(void) { sink += pair_of(&ref, &edit, &other, &buffers).refusal; }
static void compare(void)
{
    struct garumbott_reference second = ref;
    second.table = 2;
    sink += garumbott_compare_of(&ref, &second, list, sizeof list).len;
}
static void write_form(void) { sink += garumbott_write_stored_of(&ref, form, sizeof form).len; }
static void read_form(void) { sink += read_stored(form, garumbott_stored_room(ref.letters_len, ref.exceptions_len, ref.end), joined, sizeof joined).cs; }
static void translate(void) { sink += garumbott_translate(letters, ref.letters_len, 0, 0, ref.exceptions, ref.exceptions_len, ap, sizeof ap).len; }
static void complement(void) { sink += garumbott_complement(letters, ref.letters_len, tx, sizeof tx).len; }
static void names(void) { sink += garumbott_names3(rp, 30, tx, sizeof tx).len; }
static void unnamed(void) { sink += garumbott_names1(tx, 90, ap, sizeof ap).len; }
static void prefix(void) { sink += garumbott_common_prefix(letters, ref.letters_len, letters, ref.letters_len); }
static void suffix(void) { sink += garumbott_common_suffix(letters, ref.letters_len, letters, ref.letters_len); }

static uint64_t text_len;
static void run(void) { sink += garumbott_run(text, text_len, tx, sizeof tx).len; }

/* ---- painting ---- */

static void (*measured)(void);
static size_t found;

static void *on_painted(void *given)
{
    uint8_t *here = __builtin_frame_address(0);
    for (volatile uint8_t *p = bottom; p < here - NEAR; p++)
        *p = PAINT;
    measured();
    const uint8_t *low = bottom;
    while (low < here - NEAR && *low == PAINT)
        low++;
    found = (size_t)(here - low);
    return given;
}

static size_t touched(void (*call)(void))
{
    pthread_attr_t attr;
    pthread_t thread;
    measured = call;
    if (pthread_attr_init(&attr) || pthread_attr_setstack(&attr, bottom, SIZE) || pthread_create(&thread, &attr, on_painted, NULL))
        exit(2);
    pthread_join(thread, NULL);
    pthread_attr_destroy(&attr);
    return found;
}

/* ---- inputs ---- */

static uint64_t seed;

static uint64_t next(void)
{
    seed = seed * 6364136223846793005u + 1442695040888963407u;
    return seed >> 33;
}

/* Plain; with ambiguous letters; the same with exceptions; and without a stop. */
static void make_reference(uint64_t len, int how)
{
    static const uint8_t exceptions[] = "\0\2U\0\7U";
    seed = 1;
    for (uint64_t i = 0; i < len; i++)
        letters[i] = "ACGC"[next() & 3];
    ref = (struct garumbott_reference){.letters = letters, .letters_len = len, .cs = 101, .ce = 100 + (len - 300) / 3 * 3};
    if (how == 3) {
        ref.letters_len = ref.ce + 2;
        ref.ce = ref.letters_len;
        ref.end = GARUMBOTT_END_CUT_CODON;
    } else {
        memcpy(letters + ref.ce - 3, "TAA", 3);
    }
    if (how >= 1)
        for (uint64_t i = 200; i < ref.letters_len - 400; i += 100)
            letters[i] = 'N';
    if (how == 2) {
        ref.exceptions = exceptions;
        ref.exceptions_len = sizeof exceptions - 1;
    }
}

enum { EDITS = 9 };

static int make_edit(int k)
{
    int64_t cds = (int64_t)(ref.ce - ref.cs + 1), half = cds / 6 * 3;
    memset(bases, 'C', sizeof bases);
    bases[100] = 'N';
    static const uint8_t g[] = "G";
    struct garumbott_coding_edit all[EDITS] = {
        {.kind = GARUMBOTT_SUBSTITUTION, .start = half, .end = half, .bases = g, .bases_len = 1},
        {.kind = GARUMBOTT_DELETION, .start = half, .end = half},
        {.kind = GARUMBOTT_DELETION, .start = half, .end = half + 2},
        {.kind = GARUMBOTT_DELINS, .start = 7, .end = half, .bases = bases, .bases_len = sizeof bases},
        {.kind = GARUMBOTT_INSERTION, .start = half, .end = half + 1, .bases = bases, .bases_len = sizeof bases},
        {.kind = GARUMBOTT_DUPLICATION, .start = 4, .end = half},
        {.kind = GARUMBOTT_INVERSION, .start = 4, .end = half},
        {.kind = GARUMBOTT_IDENTITY, .start = half, .end = half},
        {.kind = GARUMBOTT_DUPLICATION, .start = 4, .end = half + 1},
    };
    edit = all[k];
    other = (struct garumbott_coding_edit){.kind = GARUMBOTT_INVERSION, .start = half + 10, .end = cds - 10};
    return record_of(&ref, &edit, &buffers).refusal == 0;
}

static void keep_own(void)
{
    struct garumbott_answer own = record_of(&ref, &edit, &buffers);
    number = own.number;
    deleted_len = own.deleted_len;
    inserted_len = own.inserted_len;
    memcpy(text, rp + own.deleted_at, own.deleted_len);
    memcpy(text + own.deleted_len, ap + own.inserted_at, own.inserted_len);
}

static void most(size_t *so_far, void (*call)(void))
{
    size_t n = touched(call);
    if (n > *so_far)
        *so_far = n;
}

static const char *const names_of[] = {"garumbott_record", "garumbott_edit", "garumbott_check", "garumbott_pair", "garumbott_compare", "garumbott_read_stored", "garumbott_write_stored",
                                       "garumbott_translate", "garumbott_complement", "garumbott_names3", "garumbott_names1", "garumbott_common_prefix", "garumbott_common_suffix", "garumbott_run"};
enum { CALLS = sizeof names_of / sizeof *names_of, LENGTHS = 3 };

static void fill(size_t column[CALLS], uint64_t len)
{
    for (int how = 0; how < 4; how++) {
        make_reference(len, how);
        for (int k = 0; k < EDITS; k++) {
            if (!make_edit(k)) {
                printf("an edit that is refused: %d of reference %d\n", k, how);
                exit(1);
            }
            most(&column[0], record);
            most(&column[1], transcript);
            keep_own();
            most(&column[2], judge);
            most(&column[3], pair);
        }
        static void (*const others[])(void) = {compare, write_form, read_form, translate, complement, names, unnamed, prefix, suffix};
        static const int places[] = {4, 6, 5, 7, 8, 9, 10, 11, 12};
        record();
        for (unsigned i = 0; i < sizeof others / sizeof *others; i++)
            most(&column[places[i]], others[i]);
    }
    if (len > 16384)
        return;
    make_reference(len, 1);
    text_len = (uint64_t)sprintf((char *)text, "ref %d %d 0 %.*s\n8A>G\n4_900dup\n4_900inv\n9_10insTAGC\n5del\n4_9delinsNNNC\n7=\n", (int)ref.cs, (int)ref.ce, (int)len, (const char *)letters);
    most(&column[13], run);
}

int main(void)
{
    static const uint64_t lengths[LENGTHS] = {3000, 16384, 131072};
    static size_t found_of[LENGTHS][CALLS];
    bottom = mmap(NULL, SIZE, PROT_READ | PROT_WRITE, MAP_PRIVATE | MAP_ANONYMOUS, -1, 0);
    if (bottom == MAP_FAILED)
        return 2;
    for (int k = 0; k < LENGTHS; k++)
        fill(found_of[k], lengths[k]);
    printf("bytes of stack that a call touches, %d or less as %d; GARUMBOTT_STACK is %d, GARUMBOTT_RUN_STACK %d\n", NEAR, NEAR, GARUMBOTT_STACK, GARUMBOTT_RUN_STACK);
    printf("%-28s%10d%10d%10d\n", "", 3000, 16384, 131072);
    for (int i = 0; i < CALLS; i++) {
        printf("%-28s", names_of[i]);
        for (int k = 0; k < LENGTHS; k++)
            if (found_of[k][i])
                printf("%10zu", found_of[k][i]);
            else
                printf("%10s", "-");
        printf("\n");
    }
    return 0;
}
