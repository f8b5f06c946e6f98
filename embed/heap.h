/* The memory of the library where there is no C library: three functions that the host gives, as a kernel does. The library
 * libatomfs-core.a (embed/build --freestanding) takes these; libatomfs.a and libatomfs.so take malloc, realloc and free.
 *
 * The proofs assume of a block that is given that it has the size that was asked for, is aligned to 16, and is nobody else's
 * until it is given back. The library never asks for 0 bytes. It asks only while one of its functions runs, and on its
 * thread: a host that lets one such function run at a time needs no lock round its heap for this. */
#ifndef ATOMFS_HEAP_H
#define ATOMFS_HEAP_H

#include <stddef.h>

/* A block of this many bytes; null where there is none. */
void *atomfs_host_allocate(size_t size);

/* A block of this many bytes that begins with those of another block, as many as both have. The other one may be the same, and
 * is given back else. Null where there is none: then the other one is as before. */
void *atomfs_host_reallocate(void *block, size_t size);

/* Gives a block back. It is never null. */
void atomfs_host_free(void *block);

#endif
