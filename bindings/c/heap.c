/* The heap of libfanughespu.a, and of a library for types of one's own, over malloc, for a machine without the kit of Rattle. */
#include <stddef.h>
#include <stdint.h>
#include <stdlib.h>

/* An address, which is never null, and whether there was memory. */
struct block { uint64_t is_there; void *address; };
static char nowhere;

static struct block block_at(void *address) {
    return address ? (struct block){ 1, address } : (struct block){ 0, &nowhere };
}

struct block rattle_alloc(size_t size, size_t alignment) { return block_at(malloc(size ? size : alignment)); }

struct block rattle_realloc(void *old, size_t used, size_t size, size_t alignment) {
    (void)used;
    return block_at(realloc(old, size ? size : alignment));
}

void rattle_dealloc(void *old) { free(old); }
