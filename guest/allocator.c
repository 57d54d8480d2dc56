/* First fit. What is known of the blocks stands in a table of its own and not beside them: the 16 bytes on each side of
 * an announced block must not be touched, nor must the inside of one that was given back. */
#include "allocator.h"

#include "aftersight.h"

#ifndef HEAP_BYTES /* both may be given to the compiler: -DHEAP_BYTES=1048576 -DMOST_BLOCKS=4096 */
#define HEAP_BYTES (32 * 1024)
#endif
#ifndef MOST_BLOCKS
#define MOST_BLOCKS 256
#endif
enum { GAP = 16 };

struct block {
    uint32_t from, bytes;
};

static uint8_t heap[HEAP_BYTES] __attribute__((section(".noinit"), aligned(16)));
static struct block blocks[MOST_BLOCKS]; /* those that are out, by address */
static uint32_t count;

static uint32_t past(struct block block) { return (block.from + block.bytes + GAP + 15) & ~15u; }

void *allocate(size_t bytes) {
    if (count == MOST_BLOCKS || bytes > HEAP_BYTES)
        return NULL;
    uint32_t from = (uint32_t)heap + GAP, place = 0;
    while (place < count && from + bytes + GAP > blocks[place].from)
        from = past(blocks[place++]);
    if (from + bytes + GAP > (uint32_t)heap + HEAP_BYTES)
        return NULL;
    for (uint32_t later = count++; later > place; later--)
        blocks[later] = blocks[later - 1];
    blocks[place] = (struct block){from, bytes};
    announce_allocated((void *)from, bytes);
    return (void *)from;
}

static uint32_t place_of(const void *block) {
    uint32_t place = 0;
    while (place < count && blocks[place].from != (uint32_t)block)
        place++;
    return place;
}

void release(void *block) {
    if (block == NULL)
        return;
    uint32_t place = place_of(block);
    if (place == count) { /* not ours, or given back before: announced all the same, so that it is seen */
        announce_freed(block, 1);
        return;
    }
    announce_freed(block, blocks[place].bytes);
    count--;
    for (; place < count; place++)
        blocks[place] = blocks[place + 1];
}

size_t block_bytes(const void *block) {
    uint32_t place = place_of(block);
    return place == count ? 0 : blocks[place].bytes;
}
