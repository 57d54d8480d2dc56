/* A heap that announces its blocks: of 32 KiB and at most 256 blocks, where the build does not say otherwise. */
#ifndef ALLOCATOR_H
#define ALLOCATOR_H

#include <stddef.h>

/* A block of so many bytes that begins at a multiple of 16, or a null pointer where there is no room. */
void *allocate(size_t bytes);
/* Takes back what allocate gave, and does nothing for a null pointer. */
void release(void *block);
/* The bytes that allocate was asked for at this block, 0 where it is none. */
size_t block_bytes(const void *block);

#endif
