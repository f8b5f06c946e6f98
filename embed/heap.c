/* The memory of the library: by malloc, realloc and free, or in the freestanding library by the host's functions (heap.h, which
 * says what the proofs assume of them). */
#include "heap.h"
#include <stdint.h>

#ifndef ATOMFS_FREESTANDING
#include <stdlib.h>
#define atomfs_host_allocate malloc
#define atomfs_host_reallocate realloc
#define atomfs_host_free free
#endif

struct tried {
    uint64_t ok;
    void *block;
};

static char none;

static struct tried answer(void *block) {
    struct tried tried = { block != NULL, block != NULL ? block : &none };
    return tried;
}

struct tried rattle_alloc(size_t size, size_t align) {
    return answer(atomfs_host_allocate(size != 0 ? size : align));
}

struct tried rattle_realloc(void *block, size_t kept, size_t size, size_t align) {
    (void)kept;
    return answer(atomfs_host_reallocate(block, size != 0 ? size : align));
}

void rattle_dealloc(void *block) { atomfs_host_free(block); }
