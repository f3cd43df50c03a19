/* lines INPUT OUTPUT: a whole text input through garumbott_run. */
#include <stdio.h>
#include <stdlib.h>

#include "garumbott.h"

static void fail(const char *what)
{
    fprintf(stderr, "%s\n", what);
    exit(1);
}

int main(int argc, char **argv)
{
    FILE *in = argc == 3 ? fopen(argv[1], "rb") : NULL, *out = argc == 3 ? fopen(argv[2], "wb") : NULL;
    if (!in || !out || fseek(in, 0, SEEK_END))
        fail("lines INPUT OUTPUT");
    size_t size = (size_t)ftell(in), room = (size_t)1 << 30;   /* pages that no answer reaches cost nothing */
    uint8_t *input = malloc(size), *answers = malloc(room);
    rewind(in);
    if (!input || !answers || fread(input, 1, size, in) != size)
        fail("no memory, or the input can't be read");
    struct garumbott_length n = garumbott_run(input, size, answers, room);
    if (n.refusal || fwrite(answers, 1, n.len, out) != n.len || fclose(out))
        fail("refused, or the answers can't be written");
    return 0;
}
