/* What the functions of atomfs.h look at before they do anything, and which status they answer then. It is no part of what is
 * installed. */
#ifndef ATOMFS_CHECKS_H
#define ATOMFS_CHECKS_H

#include "atomfs.h"

/* Whether a status is a refusal; used as `if (refused(status = ..)) return status;`. */
static inline int refused(uint8_t status) { return status != ATOMFS_OK; }

static inline uint8_t there(const void *pointer) { return pointer != NULL ? ATOMFS_OK : ATOMFS_NULL; }

static inline uint8_t bytes_there(const void *bytes, size_t length) {
    if (length > SIZE_MAX / 2) return ATOMFS_BAD_LENGTH;
    return length == 0 ? ATOMFS_OK : there(bytes);
}

/* Of a function that tells bytes of a handle, or of a session. */
static inline uint8_t may_tell(const void *handle, const void *out, size_t room, const size_t *count) {
    uint8_t status;
    if (refused(status = there(handle)) || refused(status = bytes_there(out, room))) return status;
    return there(count);
}

/* Where the number of a call goes: where it is not asked for, to a place in the block in which this stands. */
#define NUMBER_TO(number) ((number) != NULL ? (number) : &(uint64_t){ 0 })

#endif
