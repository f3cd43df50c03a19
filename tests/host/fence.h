/* Bytes with a fence on both sides: pages that can't be touched, and guard bytes between them and the bytes. A read or a write past a page ends
 * the program; a write to a guard byte, or to a byte that should have stayed, is found by fence_check. */
#ifndef FENCE_H
#define FENCE_H

#include <stddef.h>
#include <stdint.h>

enum fence_side { FENCE_END, FENCE_START }; /* the bytes end, or begin, at a page that can't be touched */

struct fence {
    uint8_t *pages; /* the pages that can be touched */
    size_t size;
    uint8_t *at; /* the bytes lent */
    size_t len;
    uint8_t *seen; /* what all the pages held when they were filled */
};

/* Room for up to `most` bytes. */
void fence_make(struct fence *f, size_t most);

/* Lends `len` bytes: a copy of `from`, or, where that is NULL, a pattern that differs from place to place. */
uint8_t *fence_fill(struct fence *f, enum fence_side side, const void *from, size_t len);

/* Whether the first `written` bytes are those of `want` (not looked at where that is NULL) and every other byte is what it was. */
int fence_check(const struct fence *f, const void *want, size_t written);

#endif
