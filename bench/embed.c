/* Calls in a second of the processor through the library for C, as lines and typed: embed_c CALLS, or embed_c --long CALLS. Of
 * the names a directory is made, looked at, renamed and removed, over and over; a write and a read have 4,000 bytes, and an
 * eighth as many of them are made. --long makes all of these, typed, on a tree that forgets behind each 10,000, on one with
 * checkpoints there, and, up to a million of them, on one that keeps all. It tells the processor's time for a call, and the most
 * memory that the process had, after the first 100,000 and in all. */
#include "atomfs.h"
#include <stdio.h>
#include <stdlib.h>
#include <string.h>
#include <sys/resource.h>

enum { PIECE = 4000, EVERY = 10000, EARLY = 100000, MOST_KEPT = 1000000 };
enum journal { FORGOTTEN, HANDED_OUT, KEPT };

static atomfs fs = ATOMFS_INIT;
static uint64_t seat, number, wrote;
static struct atomfs_stat there;
static char line[64 + 2 * PIECE], out[16 + 2 * PIECE], piece[PIECE];
static size_t count;

static struct rusage used(void) {
    struct rusage usage;
    getrusage(RUSAGE_SELF, &usage);
    return usage;
}

static long peak(void) { return used().ru_maxrss; }

static double processor_seconds(void) {
    struct rusage usage = used();
    return (double)(usage.ru_utime.tv_sec + usage.ru_stime.tv_sec) +
           (double)(usage.ru_utime.tv_usec + usage.ru_stime.tv_usec) * 1e-6;
}

static uint8_t call_line(int length) {
    return atomfs_call(&fs, seat, line, (size_t)length, out, sizeof out, &count, &number) != ATOMFS_OK || out[0] == 'f';
}

static uint8_t names_by_lines(long i) {
    static const char *forms[4] = { "mkdir /a%ld", "stat /a%ld", "rename /a%ld /b", "rmdir /b" };
    return call_line(snprintf(line, sizeof line, forms[i % 4], i / 4 % 100));
}

static uint8_t names_typed(long i) {
    char path[16];
    size_t length = (size_t)snprintf(path, sizeof path, "/a%ld", i / 4 % 100);
    switch (i % 4) {
    case 0: return atomfs_mkdir(&fs, seat, path, length, &number);
    case 1: return atomfs_stat(&fs, seat, path, length, &there, &number);
    case 2: return atomfs_rename(&fs, seat, path, length, "/b", 2, &number);
    default: return atomfs_rmdir(&fs, seat, "/b", 2, &number);
    }
}

/* Where the next piece of a file is. */
static long place(long i) { return i % 16 * PIECE; }

static uint8_t write_by_line(long i) {
    static const char digits[] = "0123456789abcdef";
    int length = snprintf(line, sizeof line, "write /f %ld ", place(i));
    for (int k = 0; k < PIECE; k++) {
        line[length++] = digits[piece[k] >> 4 & 15];
        line[length++] = digits[piece[k] & 15];
    }
    return call_line(length);
}

static int digit(char c) { return c <= '9' ? c - '0' : c - 'a' + 10; }

static uint8_t read_by_line(long i) {
    const char *digits = out + strlen("bytes ");
    if (call_line(snprintf(line, sizeof line, "read /f %ld %d", place(i), PIECE))) return 1;
    for (int k = 0; k < PIECE; k++) piece[k] = (char)(digit(digits[2 * k]) << 4 | digit(digits[2 * k + 1]));
    return count != strlen("bytes ") + 2 * PIECE;
}

static uint8_t write_typed(long i) {
    return atomfs_write(&fs, seat, "/f", 2, (uint64_t)place(i), piece, PIECE, &wrote, &number);
}

static uint8_t read_typed(long i) {
    return atomfs_read(&fs, seat, "/f", 2, (uint64_t)place(i), piece, PIECE, &count, &number) || count != PIECE;
}

static void open_tree(void) {
    if (atomfs_open(&fs, 1000) || atomfs_seat(&fs, &seat) || atomfs_mknod(&fs, seat, "/f", 2, &number)) exit(1);
    if (atomfs_truncate(&fs, seat, "/f", 2, 16 * PIECE, &number)) exit(1);
}

/* The best of three rounds, each on a tree of its own: the first one has to get memory from the system. */
static void measure(const char *name, uint8_t (*call)(long), long calls) {
    double best = 0;
    for (int round = 0; round < 3; round++) {
        long wrong = 0;
        open_tree();
        double from = processor_seconds();
        for (long i = 0; i < calls; i++) wrong += call(i) != 0;
        double speed = (double)calls / (processor_seconds() - from);
        if (speed > best) best = speed;
        if (atomfs_close(&fs) || wrong) exit(1);
    }
    printf("C       %-13s %9.0f calls/s\n", name, best);
}

static void checkpoint(void) {
    static char *text;
    static size_t room;
    uint8_t status;
    while ((status = atomfs_checkpoint(&fs, text, room, &count, &number)) == ATOMFS_TOO_SMALL) {
        room = count;
        text = realloc(text, room);
        if (text == NULL) exit(1);
    }
    if (status) exit(1);
}

/* The calls, of which the tree forgets all but the last by itself, or which checkpoints hand out, or which are kept. */
static void run_long(long calls, enum journal journal) {
    static const char *words[] = { "forgotten behind each 10000", "a checkpoint behind each 10000", "all kept" };
    long early = 0;
    open_tree();
    if (journal == FORGOTTEN && atomfs_keep(&fs, EVERY)) exit(1);
    double from = processor_seconds();
    for (long i = 0; i < calls; i++) {
        /* One call in ten is a write, and one a read. */
        long ten = i / 10, k = i % 10;
        if (k == 8 ? write_typed(ten) : k == 9 ? read_typed(ten) : names_typed(ten * 8 + k)) exit(1);
        if (journal == HANDED_OUT && (i + 1) % EVERY == 0) checkpoint();
        if (i + 1 == EARLY) early = peak();
    }
    printf("C       %ld calls, %s: %.0f ns a call; %ld KiB after 100000, at most %ld KiB\n", calls, words[journal],
           (processor_seconds() - from) * 1e9 / (double)calls, early, peak());
    if (atomfs_close(&fs)) exit(1);
}

int main(int argc, char **argv) {
    int is_long = argc > 1 && strcmp(argv[1], "--long") == 0;
    long calls = argc > 1 + is_long ? atol(argv[1 + is_long]) : 60000;
    for (int k = 0; k < PIECE; k++) piece[k] = (char)(k * 7);
    if (is_long) {
        run_long(calls, FORGOTTEN);
        run_long(calls, HANDED_OUT);
        run_long(calls < MOST_KEPT ? calls : MOST_KEPT, KEPT);
        return 0;
    }
    measure("names, lines", names_by_lines, calls);
    measure("names, typed", names_typed, calls);
    measure("writes, lines", write_by_line, calls / 8);
    measure("writes, typed", write_typed, calls / 8);
    measure("reads, lines", read_by_line, calls / 8);
    measure("reads, typed", read_typed, calls / 8);
    return 0;
}
