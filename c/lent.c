/* Blocks stand one behind the other, each behind a header. Memory is taken at the end alone, and given back once the last blocks
   are free: what one call of the finder allocates, it frees before it returns, so each call finds all memory free. */
#include "lent.h"

#include <stdalign.h>
#include <stdint.h>
#include <string.h>

struct header {
    alignas(16) size_t size; /* a multiple of 16 */
    uint32_t back;           /* where the header before stands, counted in 16 bytes back from here; 0: none does */
    uint32_t in_use;
};

static unsigned char *start;
static size_t length;
static size_t taken;
static size_t most;
static size_t blocks;
static struct header *last;

void lend(void *memory, size_t bytes)
{
    start = memory;
    length = bytes;
    taken = 0;
    most = 0;
    blocks = 0;
    last = NULL;
}

size_t lent_blocks(void)
{
    return blocks;
}

size_t lent_most(void)
{
    return most;
}

static size_t rounded(size_t size)
{
    return size > SIZE_MAX - 15 ? SIZE_MAX : (size + 15) & ~(size_t)15;
}

static void take_to(size_t end)
{
    taken = end;
    if (most < taken) {
        most = taken;
    }
}

void *lent_malloc(size_t size)
{
    size_t wanted = rounded(size);
    if (length - taken < sizeof(struct header) || length - taken - sizeof(struct header) < wanted) {
        return NULL;
    }
    struct header *block = (struct header *)(start + taken);
    block->size = wanted;
    block->back = last == NULL ? 0 : (uint32_t)(((unsigned char *)block - (unsigned char *)last) / 16);
    block->in_use = 1;
    last = block;
    blocks++;
    take_to(taken + sizeof(struct header) + wanted);
    return block + 1;
}

void lent_free(void *memory)
{
    if (memory == NULL) {
        return;
    }
    ((struct header *)memory - 1)->in_use = 0;
    blocks--;
    while (last != NULL && !last->in_use) {
        taken = (size_t)((unsigned char *)last - start);
        last = last->back == 0 ? NULL : (struct header *)((unsigned char *)last - (size_t)last->back * 16);
    }
}

void *lent_realloc(void *memory, size_t size)
{
    if (memory == NULL) {
        return lent_malloc(size);
    }
    struct header *block = (struct header *)memory - 1;
    size_t wanted = rounded(size);
    if (block == last) {
        size_t before = (size_t)((unsigned char *)memory - start);
        if (length - before < wanted) {
            return NULL;
        }
        block->size = wanted;
        take_to(before + wanted);
        return memory;
    }
    void *moved = lent_malloc(size);
    if (moved != NULL) {
        memcpy(moved, memory, block->size < wanted ? block->size : wanted);
        lent_free(memory);
    }
    return moved;
}
