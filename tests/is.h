/* What the programs in C of this folder are to find: each ends with status 1 at the first answer that is another. */
#include "atomfs.h"
#include <stdio.h>
#include <stdlib.h>
#include <string.h>

#define IS(found, wanted) is(#found, __LINE__, (unsigned long long)(found), (unsigned long long)(wanted))
#define SAYS(out, count, text) says(#out, __LINE__, out, count, text, sizeof(text) - 1)

static void is(const char *what, int line, unsigned long long found, unsigned long long wanted) {
    if (found == wanted) return;
    fprintf(stderr, "line %d: %s is %llu, and not %llu\n", line, what, found, wanted);
    exit(1);
}

static void says(const char *what, int line, const void *out, size_t count, const char *text, size_t length) {
    if (count == length && memcmp(out, text, length) == 0) return;
    fprintf(stderr, "line %d: %s is another text, of %llu bytes\n", line, what, (unsigned long long)count);
    exit(1);
}

/* Linux's numbers of the errors, which the header's statuses are to have. */
enum {
    EPERM_ = 1,
    ENOENT_ = 2,
    EBUSY_ = 16,
    EEXIST_ = 17,
    ENOTDIR_ = 20,
    EISDIR_ = 21,
    EINVAL_ = 22,
    EFBIG_ = 27,
    ENOSPC_ = 28,
    ENOTEMPTY_ = 39,
    EOVERFLOW_ = 75
};

#define PATH(text) text, sizeof(text) - 1
#define FAILS(call, errno_) IS(call, ATOMFS_FAILED + errno_)
