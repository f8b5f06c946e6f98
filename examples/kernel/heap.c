/* The heap of the kernel: a fixed range, of which the first block that is large enough is given. Free blocks lie in a list in
 * the order of their places, and neighbours become one. It is made for reading; a kernel has a better one. */
#include "kernel.h"

enum { RANGE = 8 << 20 };

/* What lies before each block; a block's size is a multiple of this, so each is aligned to 16. */
struct block {
    size_t size;
    struct block *next; /* of a free block */
};

static _Alignas(16) uint8_t range[RANGE];
static struct block *first_free;
static uint64_t refused;
static size_t in_use;

uint64_t heap_growths;
size_t heap_most;

void heap_open(uint64_t number) {
    first_free = (struct block *)range;
    *first_free = (struct block){ RANGE - sizeof(struct block), NULL };
    refused = number, heap_growths = 0;
    in_use = 0, heap_most = 0;
}

static int is_refused(void) { return ++heap_growths == refused; }

static void *take(size_t size) {
    size = (size + sizeof(struct block) - 1) / sizeof(struct block) * sizeof(struct block);
    for (struct block **link = &first_free; *link != NULL; link = &(*link)->next) {
        struct block *block = *link;
        if (block->size < size) continue;
        if (block->size - size > sizeof(struct block)) {
            struct block *rest = (struct block *)((uint8_t *)(block + 1) + size);
            *rest = (struct block){ block->size - size - sizeof(struct block), block->next };
            block->size = size;
            *link = rest;
        } else {
            *link = block->next;
        }
        in_use += block->size;
        if (in_use > heap_most) heap_most = in_use;
        return block + 1;
    }
    return NULL;
}

void *atomfs_host_allocate(size_t size) { return is_refused() || size > RANGE ? NULL : take(size); }

void *atomfs_host_reallocate(void *bytes, size_t size) {
    if (is_refused() || size > RANGE) return NULL;
    size_t before = ((struct block *)bytes - 1)->size;
    if (size <= before) return bytes;
    uint8_t *moved = take(size);
    if (moved == NULL) return NULL;
    for (size_t i = 0; i < before; i++) moved[i] = ((uint8_t *)bytes)[i];
    atomfs_host_free(bytes);
    return moved;
}

static void join(struct block *block) {
    struct block *next = block->next;
    if (next == NULL || (uint8_t *)(block + 1) + block->size != (uint8_t *)next) return;
    block->size += sizeof(struct block) + next->size;
    block->next = next->next;
}

void atomfs_host_free(void *bytes) {
    struct block *block = (struct block *)bytes - 1, *before = NULL;
    in_use -= block->size;
    for (struct block *free = first_free; free != NULL && free < block; free = free->next) before = free;
    block->next = before != NULL ? before->next : first_free;
    if (before != NULL)
        before->next = block;
    else
        first_free = block;
    join(block);
    if (before != NULL) join(before);
}
