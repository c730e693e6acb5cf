/* fence.h: memory between two pages that nobody may touch: a step over either end stops the program. */
#ifndef FENCE_H
#define FENCE_H

#include <stddef.h>
#include <stdint.h>

struct fence {
    uint8_t *bytes; /* between the guard pages */
    size_t size;    /* whole pages */
};

/* Room for this many bytes or more. From the first one on, such a step prints a failed verdict and ends the program with status 1. */
struct fence fence_new(size_t room);
void fence_free(struct fence *fence);

/* So many bytes that end at the guard page behind, or begin at the one before. */
uint8_t *fence_end(const struct fence *fence, size_t length);
uint8_t *fence_begin(const struct fence *fence, size_t length);

/* What may be done with the bytes from now on; bytes are widened to whole pages. */
enum access { NO_ACCESS, READ_ONLY, READ_AND_WRITE };
void set_access(void *bytes, size_t length, enum access access);

#endif
