#define _DEFAULT_SOURCE
#include "fence.h"
#include <stdio.h>
#include <stdlib.h>
#include <string.h>
#include <sys/mman.h>

enum { PAGE = 4096, GUARD = 64 };

static uint8_t pattern(size_t i)
{
    return (uint8_t)(0xA5u ^ (i * 29u) ^ (i >> 8));
}

void fence_make(struct fence *f, size_t most)
{
    size_t size = (most + GUARD + PAGE - 1) / PAGE * PAGE;
    uint8_t *all = mmap(NULL, size + 2 * PAGE, PROT_NONE, MAP_PRIVATE | MAP_ANONYMOUS, -1, 0);
    if (all == MAP_FAILED || mprotect(all + PAGE, size, PROT_READ | PROT_WRITE) != 0 || (f->seen = malloc(size)) == NULL) {
        perror("fence_make");
        exit(2);
    }
    f->pages = all + PAGE;
    f->size = size;
    f->at = f->pages;
    f->len = 0;
}

uint8_t *fence_fill(struct fence *f, enum fence_side side, const void *from, size_t len)
{
    if (len + GUARD > f->size) {
        fprintf(stderr, "fence_fill: %zu bytes don't fit\n", len);
        exit(2);
    }
    for (size_t i = 0; i < f->size; i++) f->pages[i] = pattern(i);
    f->at = side == FENCE_END ? f->pages + f->size - len : f->pages;
    f->len = len;
    if (from != NULL && len != 0) memcpy(f->at, from, len);
    memcpy(f->seen, f->pages, f->size);
    return f->at;
}

int fence_check(const struct fence *f, const void *want, size_t written)
{
    size_t from = (size_t)(f->at - f->pages);
    if (written > f->len) return 0;
    if (want != NULL && memcmp(f->at, want, written) != 0) return 0;
    return memcmp(f->pages, f->seen, from) == 0
        && memcmp(f->pages + from + written, f->seen + from + written, f->size - from - written) == 0;
}
