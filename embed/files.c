/* Whole files and branches of directories, by several of the typed calls of atomfs.h each. Of the proved functions it is but a
 * caller: nothing here is proved, and tests/typed.c tests it.
 *
 * Nobody steps a call of another seat meanwhile, and the first call of each has gone along the path: so no later one waits. */
#include "checks.h"

enum { IS_MISSING = ATOMFS_FAILED + 2, IS_THERE = ATOMFS_FAILED + 17 };

uint8_t atomfs_read_file(atomfs *fs, uint64_t seat, const char *path, size_t length, void *out, size_t room,
                         size_t *count) {
    struct atomfs_stat found;
    uint8_t status;
    if (refused(status = may_tell(fs, out, room, count))) return status;
    if (refused(status = atomfs_stat(fs, seat, path, length, &found, NULL))) return status;
    if (!found.is_dir && found.size > room) {
        *count = (size_t)found.size;
        return ATOMFS_TOO_SMALL;
    }
    size_t done = 0, more = 0;
    do {
        void *next = done == 0 ? out : (char *)out + done;
        if (refused(status = atomfs_read(fs, seat, path, length, done, next, room - done, &more, NULL))) return status;
        done += more;
    } while (more > 0 && done < found.size);
    *count = done;
    return ATOMFS_OK;
}

/* What a file that is there had beyond the bytes is cut only once these are written, so that an error leaves it as it was. */
uint8_t atomfs_write_file(atomfs *fs, uint64_t seat, const char *path, size_t length, const void *bytes,
                          size_t bytes_length) {
    uint64_t wrote;
    uint8_t status = atomfs_write(fs, seat, path, length, 0, bytes, bytes_length, &wrote, NULL);
    if (status == ATOMFS_OK) return atomfs_truncate(fs, seat, path, length, bytes_length, NULL);
    if (status != IS_MISSING) return status;
    if (refused(status = atomfs_mknod(fs, seat, path, length, NULL))) return status;
    status = atomfs_write(fs, seat, path, length, 0, bytes, bytes_length, &wrote, NULL);
    if (refused(status)) atomfs_unlink(fs, seat, path, length, NULL);
    return status;
}

/* Where the directory ends in which the first end bytes of a path lead; 0 for the root. */
static size_t above(const char *path, size_t end) {
    while (end > 0 && path[end - 1] != '/') end--;
    while (end > 0 && path[end - 1] == '/') end--;
    return end;
}

/* Where the name ends that follows the first end bytes of a path. */
static size_t below(const char *path, size_t length, size_t end) {
    while (end < length && path[end] == '/') end++;
    while (end < length && path[end] != '/') end++;
    return end;
}

/* Makes the directories between the first stands bytes of a path, at which one is, and its length; or none of them. */
static uint8_t make_between(atomfs *fs, uint64_t seat, const char *path, size_t stands, size_t length) {
    size_t end = stands;
    uint8_t status = ATOMFS_OK;
    while (status == ATOMFS_OK && end < length) {
        end = below(path, length, end);
        status = atomfs_mkdir(fs, seat, path, end, NULL);
    }
    if (refused(status)) {
        while ((end = above(path, end)) > stands) atomfs_rmdir(fs, seat, path, end, NULL);
    }
    return status;
}

uint8_t atomfs_mkdirs(atomfs *fs, uint64_t seat, const char *path, size_t length) {
    struct atomfs_stat found;
    size_t stands = length;
    uint8_t status = atomfs_stat(fs, seat, path, length, &found, NULL);
    if (status == ATOMFS_OK) return found.is_dir ? ATOMFS_OK : IS_THERE;
    while (status == IS_MISSING) {
        stands = above(path, stands);
        status = stands == 0 ? ATOMFS_OK : atomfs_stat(fs, seat, path, stands, &found, NULL);
    }
    return refused(status) ? status : make_between(fs, seat, path, stands, length);
}
