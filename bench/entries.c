/* Makes files in no order in one directory through the library for C, by the third limits, and lists it in pieces if a second argument
 * is there: entries_c ENTRIES [list]. A create at so many entries costs what `valgrind --tool=callgrind` counts for a thousand more,
 * divided by a thousand: bench/entries does that. */
#include "atomfs.h"
#include <inttypes.h>
#include <stdio.h>
#include <stdlib.h>
#include <string.h>

enum { NAME = 16, PIECE = ATOMFS_LIST_LIMIT * (NAME + 1) };

static atomfs fs = ATOMFS_INIT;
static uint64_t seat;
static char path[NAME + 2] = "/";

/* The path of a number. Numbers are mixed, each into another one, so that the names that follow one another have no order. */
static const char *path_of(uint64_t number) {
    uint64_t bits = (number + 1) * UINT64_C(0x9E3779B97F4A7C15);
    bits = (bits ^ bits >> 30) * UINT64_C(0xBF58476D1CE4E5B9);
    bits = (bits ^ bits >> 27) * UINT64_C(0x94D049BB133111EB);
    snprintf(path + 1, NAME + 1, "%016" PRIx64, bits ^ bits >> 31);
    return path;
}

/* How many names the directory has, by as many lists as they take, each behind the last name of the one before. */
static uint64_t listed(void) {
    static char names[PIECE];
    size_t length = 1, count;
    uint64_t told = 0;
    do {
        if (atomfs_list(&fs, seat, "/", 1, path, length, ATOMFS_LIST_LIMIT, names, sizeof names, &count, NULL)) exit(1);
        told += count / (NAME + 1);
        if (count > 0) memcpy(path + 1, names + count - (NAME + 1), NAME);
        length = 1 + NAME;
    } while (count == PIECE);
    return told;
}

int main(int argc, char **argv) {
    uint64_t entries = argc > 1 ? strtoull(argv[1], NULL, 10) : 100000;
    if (atomfs_open_with(&fs, ATOMFS_V3_NODE_LIMIT, ATOMFS_V3) || atomfs_seat(&fs, &seat)) return 1;
    for (uint64_t i = 0; i < entries; i++)
        if (atomfs_mknod(&fs, seat, path_of(i), 1 + NAME, NULL)) return 1;
    if (argc > 2 && listed() != entries) return 1;
    return atomfs_close(&fs);
}
