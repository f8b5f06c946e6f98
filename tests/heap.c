/* The heap of embed/heap.c for a library under test: it counts what it is asked for, and refuses what it is told to refuse.
   A growth is a call of rattle_alloc or rattle_realloc, a smaller block too. One thread at a time may use it. */
#define rattle_alloc given_alloc
#define rattle_realloc given_realloc
#define rattle_dealloc given_dealloc
#include "../embed/heap.c"
#undef rattle_alloc
#undef rattle_realloc
#undef rattle_dealloc
#include <malloc.h>

static int asked, refused, first_refused, last_refused, held;
static size_t in_use;

/* From now on the growths from the first to the last are refused, counted from 1: none, where the last is 0. */
void refuse(int first, int last) {
    asked = refused = 0;
    first_refused = first;
    last_refused = last;
}

/* How many growths were asked for since then. */
int growths(void) { return asked; }

/* How many of them were refused. */
int refusals(void) { return refused; }

/* How many blocks are in use. */
int blocks(void) { return held; }

/* How many bytes they have, as the allocator rounds them up. */
size_t bytes(void) { return in_use; }

static int is_refused(void) {
    asked++;
    int is_refused = first_refused <= asked && asked <= last_refused;
    refused += is_refused;
    return is_refused;
}

struct tried rattle_alloc(size_t size, size_t align) {
    struct tried tried = is_refused() ? answer(NULL) : given_alloc(size, align);
    held += tried.ok != 0;
    in_use += tried.ok != 0 ? malloc_usable_size(tried.block) : 0;
    return tried;
}

struct tried rattle_realloc(void *block, size_t kept, size_t size, size_t align) {
    size_t before = malloc_usable_size(block);
    struct tried tried = is_refused() ? answer(NULL) : given_realloc(block, kept, size, align);
    in_use += tried.ok != 0 ? malloc_usable_size(tried.block) - before : 0;
    return tried;
}

void rattle_dealloc(void *block) {
    held--;
    in_use -= malloc_usable_size(block);
    given_dealloc(block);
}
