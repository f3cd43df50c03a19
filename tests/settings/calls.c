/* Calls the library as each line of standard input says, and answers it by a line of numbers, for settings.py:
 *   r NEWEST HEX                                      garumbott_read_settings: its seven numbers
 *   w VERSION TABLE PROFILE WIDTH LONGEST ROOM        garumbott_write_settings: its two numbers, and all bytes of the buffer in hex
 *   e EDIT                                            an edit of the worked reference by garumbott_record, garumbott_edit, garumbott_panel (an A is named) and
 *                                                     garumbott_check (record 0 - -): answer, refusal and transcript_len of the first three, the refusal
 *                                                     of the fourth, and 1 where the refused ones left every byte of the buffers; then the four
 *                                                     refusals where the reference is refused with 1
 *   p EDIT EDIT                                       two edits by garumbott_pair: its three numbers, and that 1; then the refusal likewise
 * where an EDIT is LONGEST KIND START END COUNT LETTER: COUNT new bases, all LETTER, with that longest edit. */
#include "garumbott.h"
#include <inttypes.h>
#include <stdio.h>
#include <stdlib.h>
#include <string.h>

enum { STORE = 24, TRANSCRIPT = 10000, PROTEIN = 4000, LINE = 400 };
static uint8_t transcript[TRANSCRIPT], reference[PROTEIN], altered[PROTEIN], bases[2][5000];
static const struct garumbott_reference worked = {.letters = (const uint8_t *)"GGATGGCCAAATGGTAACCTGAC", .letters_len = 23, .cs = 3, .ce = 17};
static const struct garumbott_reference refused = {.form = 2};
static const struct garumbott_buffers buffers = {transcript, sizeof transcript, reference, sizeof reference, altered, sizeof altered};

static unsigned half(char c)
{
    return (unsigned)(c <= '9' ? c - '0' : c - 'a' + 10);
}

static void put_hex(const uint8_t *s, size_t len)
{
    for (size_t i = 0; i < len; i++) printf("%02x", s[i]);
    puts("");
}

static void read_store(const char *line)
{
    static uint8_t data[LINE];
    uint64_t newest;
    int at = 0;
    if (sscanf(line, "%" SCNu64 " %n", &newest, &at) != 1) exit(2);
    size_t len = strlen(line + at) / 2;
    for (size_t i = 0; i < len; i++) data[i] = (uint8_t)(half(line[at + 2 * (int)i]) * 16 + half(line[at + 2 * (int)i + 1]));
    struct garumbott_settings s = garumbott_read_settings(newest, data, len);
    printf("%" PRIu64 " %" PRIu64 " %" PRIu64 " %" PRIu64 " %" PRIu64 " %" PRIu64 " %" PRIu64 "\n", s.refusal, s.newer, s.version, s.table, s.profile,
           s.width, s.longest);
}

static void write_store(const char *line)
{
    uint64_t n[6];
    uint8_t out[STORE];
    if (sscanf(line, "%" SCNu64 " %" SCNu64 " %" SCNu64 " %" SCNu64 " %" SCNu64 " %" SCNu64, n, n + 1, n + 2, n + 3, n + 4, n + 5) != 6) exit(2);
    if (n[5] > STORE) exit(2);
    memset(out, 0xee, sizeof out);
    struct garumbott_length w = garumbott_write_settings(n[0], n[1], n[2], n[3], n[4], out, n[5]);
    printf("%" PRIu64 " %" PRIu64 " ", w.refusal, w.len);
    put_hex(out, sizeof out);
}

static void fill(void)
{
    memset(transcript, 0xee, sizeof transcript);
    memset(reference, 0xee, sizeof reference);
    memset(altered, 0xee, sizeof altered);
}

static int is_filled(void)
{
    for (size_t i = 0; i < sizeof transcript; i++) if (transcript[i] != 0xee) return 0;
    for (size_t i = 0; i < sizeof reference; i++) if (reference[i] != 0xee || altered[i] != 0xee) return 0;
    return 1;
}

static struct garumbott_coding_edit edit_in(const char **line, uint8_t *new)
{
    struct garumbott_coding_edit e = {0};
    char letter;
    int len = 0;
    if (sscanf(*line, "%" SCNu64 " %" SCNu64 " %" SCNd64 " %" SCNd64 " %" SCNu64 " %c%n", &e.longest, &e.kind, &e.start, &e.end, &e.bases_len, &letter, &len) != 6) exit(2);
    if (e.bases_len > sizeof bases[0]) exit(2);
    memset(new, letter, e.bases_len);
    e.bases = new;
    *line += len;
    return e;
}

static void put_answer(struct garumbott_answer a, int *kept)
{
    *kept &= a.answer > GARUMBOTT_UNKNOWN || is_filled();
    printf("%" PRIu64 " %" PRIu64 " %" PRIu64 " ", a.answer, a.refusal, a.transcript_len);
    fill();
}

static void edit(const char *line)
{
    struct garumbott_coding_edit e = edit_in(&line, bases[0]);
    int kept = 1;
    fill();
    put_answer(garumbott_record_of(&worked, &e, &buffers), &kept);
    put_answer(garumbott_edit_of(&worked, &e, &buffers), &kept);
    put_answer(garumbott_panel_of(&worked, &e, 'A', &buffers), &kept);
    struct garumbott_checked checked = garumbott_check_of(&worked, &e, 0, NULL, 0, NULL, 0, &buffers);
    kept &= checked.refusal == 0 || is_filled();
    printf("%" PRIu64 " %d ", checked.refusal, kept);
    printf("%" PRIu64 " %" PRIu64 " %" PRIu64 " %" PRIu64 "\n", garumbott_record_of(&refused, &e, &buffers).refusal, garumbott_edit_of(&refused, &e, &buffers).refusal,
           garumbott_panel_of(&refused, &e, 'A', &buffers).refusal, garumbott_check_of(&refused, &e, 0, NULL, 0, NULL, 0, &buffers).refusal);
}

static void pair(const char *line)
{
    struct garumbott_coding_edit e = edit_in(&line, bases[0]), f = edit_in(&line, bases[1]);
    fill();
    struct garumbott_paired p = garumbott_pair_of(&worked, &e, &f, &buffers);
    printf("%" PRIu64 " %" PRIu64 " %" PRIu64 " %d ", p.refusal, p.transcript_len, p.altered_len, p.refusal == 0 || is_filled());
    printf("%" PRIu64 "\n", garumbott_pair_of(&refused, &e, &f, &buffers).refusal);
}

int main(void)
{
    static char line[LINE];
    while (fgets(line, sizeof line, stdin) != NULL) {
        line[strcspn(line, "\n")] = 0;
        if (line[0] == 'r') read_store(line + 1);
        else if (line[0] == 'w') write_store(line + 1);
        else if (line[0] == 'e') edit(line + 1);
        else if (line[0] == 'p') pair(line + 1);
        else exit(2);
    }
    return ferror(stdin) || fflush(stdout) != 0 ? 2 : 0;
}
