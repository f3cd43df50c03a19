/* Prints every word of the header, for words.py: a line "FUNCTION NUMBER WORDS" for each number that has words of its own, and "FUNCTION ? WORDS" for
 * what any other number gets. Tried are all numbers below 65,536, and the same low bytes below each higher bit. */
#include "garumbott.h"
#include <inttypes.h>
#include <stdio.h>
#include <string.h>

static void print(const char *function, const char *(*words)(uint64_t))
{
    const char *other = words(UINT64_MAX);
    printf("%s ? %s\n", function, other);
    for (uint64_t n = 0; n < 65536; n++) {
        if (strcmp(words(n), other) != 0) printf("%s %" PRIu64 " %s\n", function, n, words(n));
    }
    for (int bit = 16; bit < 64; bit++) {
        for (uint64_t n = UINT64_C(1) << bit, i = 0; i < 256; i++) {
            if (strcmp(words(n + i), other) != 0) printf("%s %" PRIu64 " %s\n", function, n + i, words(n + i));
        }
    }
}

int main(void)
{
    print("garumbott_class_name", garumbott_class_name);
    print("garumbott_answer_name", garumbott_answer_name);
    print("garumbott_refusal_words", garumbott_refusal_words);
    return 0;
}
