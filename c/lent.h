/* malloc, realloc and free for the finder, over memory that the program lends. Link the kit's heap with these in the place of the C
   library's three (c/build.sh does), and the finder allocates from nothing else. For one thread. */
#ifndef LENT_H
#define LENT_H

#include <stddef.h>

/* Lends memory that is aligned to 16. No block of what was lent before may be in use. */
void lend(void *memory, size_t length);

/* How many blocks are in use, and the most bytes of the memory that were taken at once. */
size_t lent_blocks(void);
size_t lent_most(void);

void *lent_malloc(size_t size);
void *lent_realloc(void *block, size_t size);
void lent_free(void *block);

#endif
