/* A file is made, written and read again. It prints: hello */
#include <atomfs.h>
#include <stdio.h>
#include <string.h>

static int failed(const char *what, uint8_t status) {
    fprintf(stderr, "%s: %s\n", what, atomfs_status_text(status));
    return 1;
}

int main(void) {
    atomfs fs = ATOMFS_INIT;
    uint64_t seat, number, wrote;
    char out[64];
    size_t count;
    uint8_t status;
    if ((status = atomfs_open(&fs, 1000)) || (status = atomfs_seat(&fs, &seat))) return failed("open", status);
    if ((status = atomfs_mkdir(&fs, seat, "/a", 2, &number))) return failed("mkdir", status);
    if ((status = atomfs_mknod(&fs, seat, "/a/f", 4, &number))) return failed("mknod", status);
    if ((status = atomfs_write(&fs, seat, "/a/f", 4, 0, "hello\n", 6, &wrote, &number))) return failed("write", status);
    if ((status = atomfs_read(&fs, seat, "/a/f", 4, 0, out, sizeof out, &count, &number)))
        return failed("read", status);
    fwrite(out, 1, count, stdout);
    status = atomfs_unlink(&fs, seat, "/a", 2, &number);
    if (status < ATOMFS_FAILED || strcmp(atomfs_errno_name(status), "EPERM") != 0)
        return failed("unlink of a directory", status);
    return atomfs_close(&fs) != ATOMFS_OK || strcmp(atomfs_version(), ATOMFS_VERSION) != 0;
}
