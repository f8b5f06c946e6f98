/* Makes a tree of a size through the library for C, by the third limits, and then makes so many rounds of calls in it:
 * growth_c SUBJECT SIZE ROUNDS. A round costs what `valgrind --tool=callgrind` counts for more rounds, divided by how many more:
 * bench/growth does that. It prints the nanoseconds of processor time that a round took. */
#define _POSIX_C_SOURCE 200809L
#include "atomfs.h"
#include <inttypes.h>
#include <stdio.h>
#include <stdlib.h>
#include <string.h>
#include <time.h>

enum { FILES = 100, ROOM = 64, KEPT = 1000, KEPT_OF_FILE = 100, PART = 4096, BLOCK = 16384, PIECE = 65536 };

static atomfs fs = ATOMFS_INIT;
static uint64_t seat;
static char bytes[PIECE];

/* Numbers are mixed, each into another one, so that those that follow one another lead all over a tree. */
static uint64_t mixed(uint64_t number) {
    uint64_t bits = (number + 1) * UINT64_C(0x9E3779B97F4A7C15);
    bits = (bits ^ bits >> 30) * UINT64_C(0xBF58476D1CE4E5B9);
    bits = (bits ^ bits >> 27) * UINT64_C(0x94D049BB133111EB);
    return bits ^ bits >> 31;
}

/* The path of a file in the root. */
static size_t in_root(char *path, uint64_t number) {
    return (size_t)snprintf(path, ROOM, "/%016" PRIx64, mixed(number));
}

/* The path of the directory in which a file of this number is, and of the file, if it has a name. */
static size_t in_directory(char *path, uint64_t number, const char *name) {
    int length = snprintf(path, ROOM, "/%06" PRIu64, number / FILES);
    if (name) length += snprintf(path + length, (size_t)(ROOM - length), "/%s%02" PRIu64, name, number % FILES);
    return (size_t)length;
}

static int stat_of(const char *path, size_t length) {
    struct atomfs_stat seen;
    return atomfs_stat(&fs, seat, path, length, &seen, NULL) == ATOMFS_OK;
}

/* One is looked at, and another one is made, moved and removed. */
static int four_calls(const char *old, size_t old_length, const char *new, size_t length, const char *moved,
                      size_t moved_length) {
    return stat_of(old, old_length) && atomfs_mknod(&fs, seat, new, length, NULL) == ATOMFS_OK &&
           atomfs_rename(&fs, seat, new, length, moved, moved_length, NULL) == ATOMFS_OK &&
           atomfs_unlink(&fs, seat, moved, moved_length, NULL) == ATOMFS_OK;
}

/* entries: so many files in one directory, in no order. */
static int make_entries(uint64_t size) {
    char path[ROOM];
    for (uint64_t number = 0; number < size; number++)
        if (atomfs_mknod(&fs, seat, path, in_root(path, number), NULL)) return 0;
    return 1;
}

static int round_of_entries(uint64_t size, uint64_t number) {
    char old[ROOM], new[ROOM], moved[ROOM];
    size_t old_length = in_root(old, mixed(number) % size), length = in_root(new, size + 2 * number);
    return four_calls(old, old_length, new, length, moved, in_root(moved, size + 2 * number + 1));
}

/* nodes: so many files, a hundred a directory, in a tree that keeps 1,000 calls. */
static int make_nodes(uint64_t size) {
    char path[ROOM];
    if (atomfs_keep(&fs, KEPT)) return 0;
    for (uint64_t number = 0; number < size; number++) {
        if (number % FILES == 0 && atomfs_mkdir(&fs, seat, path, in_directory(path, number, NULL), NULL)) return 0;
        if (atomfs_mknod(&fs, seat, path, in_directory(path, number, "file"), NULL)) return 0;
    }
    return 1;
}

static int round_of_nodes(uint64_t size, uint64_t number) {
    char old[ROOM], new[ROOM], moved[ROOM];
    uint64_t here = number * 7919 % size, there = number * 104729 % size;
    size_t old_length = in_directory(old, here, "file"), length = in_directory(new, here, "made");
    return four_calls(old, old_length, new, length, moved, in_directory(moved, there, "moved"));
}

static int wrote(uint64_t at, size_t size) {
    uint64_t count;
    return atomfs_write(&fs, seat, "/file", 5, at, bytes, size, &count, NULL) == ATOMFS_OK;
}

/* After so many calls what came before is forgotten. */
static int looked(uint64_t calls) {
    for (uint64_t number = 0; number < calls; number++)
        if (!stat_of("/file", 5)) return 0;
    return 1;
}

/* new: a file of so many KiB, in a tree that keeps 100 calls. Each block still shares the bytes of the call that wrote it. */
static int make_new(uint64_t size) {
    if (atomfs_mknod(&fs, seat, "/file", 5, NULL) || atomfs_keep(&fs, KEPT_OF_FILE)) return 0;
    for (uint64_t at = 0; at < size * 1024; at += PIECE)
        if (!wrote(at, PIECE)) return 0;
    return looked(2 * KEPT_OF_FILE);
}

/* file: the same, but a byte was written into each block, so that it shares none. */
static int make_file(uint64_t size) {
    if (!make_new(size)) return 0;
    for (uint64_t at = 0; at < size * 1024; at += BLOCK)
        if (!wrote(at + 1, 1)) return 0;
    return looked(2 * KEPT_OF_FILE);
}

/* beside: the same beside 1,000 files. For so many nodes a tree that forgets keeps a second copy of the tree at which its journal starts, also beside a
 * small file. */
static int make_beside(uint64_t size) { return make_entries(10 * FILES) && make_file(size); }

static int round_of_file(uint64_t size, uint64_t number) { return wrote(mixed(number) % (size * 1024 - PART), PART); }

/* array: the same bytes in an array of C's, and no tree. */
static char *array;

static int make_array(uint64_t size) {
    array = malloc(size * 1024);
    return array && memset(array, 1, size * 1024);
}

static int round_of_array(uint64_t size, uint64_t number) {
    return memcpy(array + mixed(number) % (size * 1024 - PART), bytes, PART) != NULL;
}

/* seats: so many, of which the last one calls. */
static int make_seats(uint64_t size) {
    for (uint64_t number = 1; number < size; number++)
        if (atomfs_seat(&fs, &seat)) return 0;
    return atomfs_keep(&fs, KEPT) == ATOMFS_OK && atomfs_mknod(&fs, seat, "/file", 5, NULL) == ATOMFS_OK;
}

static int round_of_few(uint64_t size, uint64_t number) {
    (void)size, (void)number;
    return four_calls("/file", 5, "/made", 5, "/moved", 6);
}

/* journal: so many calls, all of which are kept. */
static int make_journal(uint64_t size) {
    return atomfs_mknod(&fs, seat, "/file", 5, NULL) == ATOMFS_OK && looked(size);
}

/* forget: so many files in one directory, whose calls are forgotten. A create more is forgotten, too. */
static int forgot(void) {
    uint64_t number;
    return atomfs_forget(&fs, &number) == ATOMFS_OK;
}

static int make_forgotten(uint64_t size) { return make_entries(size) && forgot(); }

static int round_of_forgotten(uint64_t size, uint64_t number) {
    char path[ROOM];
    return atomfs_mknod(&fs, seat, path, in_root(path, size + number), NULL) == ATOMFS_OK && forgot();
}

static const struct {
    const char *name;
    int (*make)(uint64_t size);
    int (*round)(uint64_t size, uint64_t number);
} subjects[] = {
    { "entries", make_entries, round_of_entries },
    { "nodes", make_nodes, round_of_nodes },
    { "new", make_new, round_of_file },
    { "file", make_file, round_of_file },
    { "beside", make_beside, round_of_file },
    { "array", make_array, round_of_array },
    { "seats", make_seats, round_of_few },
    { "journal", make_journal, round_of_few },
    { "forget", make_forgotten, round_of_forgotten },
};

static double nanoseconds(void) {
    struct timespec now;
    clock_gettime(CLOCK_PROCESS_CPUTIME_ID, &now);
    return (double)now.tv_sec * 1e9 + (double)now.tv_nsec;
}

int main(int argc, char **argv) {
    size_t subject = 0, count = sizeof subjects / sizeof *subjects;
    while (argc == 4 && subject < count && strcmp(argv[1], subjects[subject].name)) subject++;
    if (argc != 4 || subject == count) return 2;
    uint64_t size = strtoull(argv[2], NULL, 10), rounds = strtoull(argv[3], NULL, 10);
    if (atomfs_open_with(&fs, ATOMFS_V3_NODE_LIMIT, ATOMFS_V3) || atomfs_seat(&fs, &seat)) return 1;
    if (!subjects[subject].make(size)) return 1;
    double began = nanoseconds();
    for (uint64_t number = 0; number < rounds; number++)
        if (!subjects[subject].round(size, number)) return 1;
    if (rounds) printf("%.0f\n", (nanoseconds() - began) / (double)rounds);
    /* The tree is not closed: that would count what it costs to give so many nodes back. */
    return 0;
}
