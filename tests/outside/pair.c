/* Calls garumbott_pair for each line of standard input, and prints a line for each: the refusal's number, the transcript and the protein, "-" for either in a refusal.
 *
 * A line, its parts parted by a space: LETTERS CS CE TABLE, then for each of the two edits KIND STAR START STAR END BASES, the numbers those of the header, "-" for no
 * bases. Exit status: 0, or 2 where a line isn't in this form or its answer can't be written. */
#include "garumbott.h"
#include <inttypes.h>
#include <stdio.h>
#include <string.h>

enum { MOST = 4095 }; /* letters, and new bases, of a line */

static int read_edit(struct garumbott_coding_edit *e, char *bases)
{
    memset(e, 0, sizeof *e);
    if (scanf("%" SCNu64 " %" SCNu64 " %" SCNd64 " %" SCNu64 " %" SCNd64 " %4095s", &e->kind, &e->start_star, &e->start, &e->end_star, &e->end, bases) != 6) return 0;
    e->bases = (const uint8_t *)bases;
    e->bases_len = strcmp(bases, "-") == 0 ? 0 : strlen(bases);
    return 1;
}

int main(void)
{
    static char letters[MOST + 1], bases[2][MOST + 1];
    static uint8_t transcript[4 * MOST], protein[2 * MOST];
    const struct garumbott_buffers b = {.transcript = transcript, .transcript_len = sizeof transcript, .altered = protein, .altered_len = sizeof protein};
    struct garumbott_coding_edit first, second;
    struct garumbott_reference r = {.letters = (const uint8_t *)letters};
    while (scanf("%4095s %" SCNu64 " %" SCNu64 " %" SCNu64, letters, &r.cs, &r.ce, &r.table) == 4) {
        r.letters_len = strlen(letters);
        if (!read_edit(&first, bases[0]) || !read_edit(&second, bases[1])) return 2;
        struct garumbott_paired p = garumbott_pair_of(&r, &first, &second, &b);
        if (p.refusal != 0) printf("%" PRIu64 " - -\n", p.refusal);
        else printf("0 %.*s %.*s\n", (int)p.transcript_len, (const char *)transcript, (int)p.altered_len, (const char *)protein);
    }
    return feof(stdin) && fflush(stdout) == 0 && !ferror(stdout) ? 0 : 2;
}
