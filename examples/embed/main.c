/* Two seats on one tree from C: typed calls, a rename that helps a mkdir which is half-way below the directory that it
 * moves, and a call as a line. Answers go to standard error, and the journal to standard output, for `atomfs check`. */
#include "atomfs.h"
#include <stdio.h>
#include <stdlib.h>
#include <string.h>

static void stop(const char *what, uint8_t status) {
    fprintf(stderr, "%s: %s\n", what, atomfs_status_text(status));
    exit(1);
}

static void tell(const char *what, uint8_t status) { fprintf(stderr, "%s -> %s\n", what, atomfs_status_text(status)); }

/* Steps a seat so many times, or until its call returns; what the last step did. */
static int steps(atomfs *fs, uint64_t seat, int most) {
    uint8_t did = ATOMFS_DID_IDLE;
    uint64_t about = 0;
    for (int i = 0; i < most && did != ATOMFS_DID_RETURN; i++) {
        uint8_t status = atomfs_step(fs, seat, &did, &about);
        if (status != ATOMFS_OK) stop("step", status);
        if (did == ATOMFS_DID_HELP) fprintf(stderr, "helps call %llu\n", (unsigned long long)about);
    }
    return did;
}

/* The names of a directory through a buffer for one name of any length. */
static void list(atomfs *fs, uint64_t seat, const char *path) {
    char name[33];
    size_t count = 0, after = 0;
    uint64_t number;
    uint8_t status = atomfs_readdir(fs, seat, path, strlen(path), NULL, 0, &count, &number);
    if (status != ATOMFS_OK && status != ATOMFS_TOO_SMALL) stop("readdir", status);
    char last[33];
    while ((status = atomfs_reply_names(fs, number, last, after, name, sizeof name, &count)) == ATOMFS_OK && count != 0)
        for (size_t at = 0; at < count; at += after + 1) {
            after = strlen(name + at);
            memcpy(last, name + at, after);
            fprintf(stderr, "%s has %s\n", path, name + at);
        }
    if (status != ATOMFS_OK) stop("names", status);
}

int main(void) {
    atomfs fs = ATOMFS_INIT;
    uint64_t m = 0, r = 0, number = 0, wrote = 0;
    size_t count = 0, entries = 0;
    char bytes[16];
    struct atomfs_stat stat;
    if (atomfs_open(&fs, 1000) || atomfs_seat(&fs, &m) || atomfs_seat(&fs, &r)) return 1;
    tell("mkdir /a", atomfs_mkdir(&fs, m, "/a", 2, &number));
    tell("mkdir /a/d", atomfs_mkdir(&fs, m, "/a/d", 4, &number));
    tell("mknod /a/f", atomfs_mknod(&fs, m, "/a/f", 4, &number));
    tell("write /a/f", atomfs_write(&fs, m, "/a/f", 4, 0, "hello", 5, &wrote, &number));
    tell("read /a/f", atomfs_read(&fs, m, "/a/f", 4, 1, bytes, sizeof bytes, &count, &number));
    fprintf(stderr, "it has %.*s\n", (int)count, bytes);
    tell("stat /a/f", atomfs_stat(&fs, m, "/a/f", 4, &stat, &number));
    fprintf(stderr, "it is a %s of %llu\n", stat.is_dir ? "directory" : "file", (unsigned long long)stat.size);
    tell("rename /a /a/d", atomfs_rename(&fs, m, "/a", 2, "/a/d", 4, &number));
    tell("unlink a", atomfs_unlink(&fs, m, "a", 1, &number));

    /* The mkdir walks to /a/d and waits there, half-way; the rename runs to its end, and helps it. */
    atomfs_request half_way = { .call = ATOMFS_CALL_MKDIR, .path = "/a/d/x", .length = 6 };
    atomfs_request moves = { .call = ATOMFS_CALL_RENAME, .path = "/a", .length = 2, .other = "/b", .other_length = 2 };
    uint64_t made = 0, moved = 0;
    uint8_t status = atomfs_begin_call(&fs, m, &half_way, &made);
    if (status != ATOMFS_OK) stop("begin", status);
    steps(&fs, m, 5);
    status = atomfs_begin_call(&fs, r, &moves, &moved);
    if (status != ATOMFS_OK) stop("begin", status);
    if (steps(&fs, r, 100) != ATOMFS_DID_RETURN || steps(&fs, m, 100) != ATOMFS_DID_RETURN) stop("steps", ATOMFS_WAITS);
    tell("rename /a /b", atomfs_reply_done(&fs, moved));
    tell("mkdir /a/d/x", atomfs_reply_done(&fs, made));
    list(&fs, r, "/b");

    char line[] = "stat /b/d", reply[64];
    status = atomfs_call(&fs, r, line, strlen(line), reply, sizeof reply, &count, &number);
    if (status != ATOMFS_OK) stop("call", status);
    fprintf(stderr, "%s -> %.*s\n", line, (int)count, reply);

    /* The journal's length is not known before: it is asked for with no room, and then with enough. */
    status = atomfs_journal(&fs, 0, NULL, 0, &count, &entries);
    if (status != ATOMFS_TOO_SMALL) stop("journal", status);
    char *journal = malloc(count);
    if (journal == NULL) return 1;
    status = atomfs_journal(&fs, 0, journal, count, &count, &entries);
    if (status != ATOMFS_OK) stop("journal", status);
    fputs(ATOMFS_JOURNAL_HEADER, stdout);
    fwrite(journal, 1, count, stdout);
    free(journal);
    status = atomfs_close(&fs);
    return status != ATOMFS_OK || atomfs_close(&fs) != ATOMFS_CLOSED;
}
