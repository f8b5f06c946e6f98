/* Plays a list of bench/real into something that holds files, and reads all back: real_c LIST tree VERSION, or checkpoints or
 * forgetting in the place of tree, or real_c LIST folder FOLDER. Of a tree the version is that of its limits; it has checkpoints
 * hand its journal out, or forgets it, where as many calls have come since as it has nodes, or 1,000 where it has fewer.
 *
 * A list is a folder of the disk and a byte 0, and then, each directory before what is in it and all that behind it, `d` and its
 * path or `f` and a file's path, a byte 0, and for a file how many bytes of it are played, and a byte 0. The first is the root,
 * which is there. The bytes come from the files of these paths below the folder.
 *
 * It prints what was refused, what does not come back, and the processor's time of three rounds: the files of the disk read
 * alone, read and played, read and compared with what comes back. */
#define _POSIX_C_SOURCE 200809L
#include "atomfs.h"
#include <dirent.h>
#include <errno.h>
#include <fcntl.h>
#include <stdio.h>
#include <stdlib.h>
#include <string.h>
#include <sys/stat.h>
#include <time.h>
#include <unistd.h>

enum { PIECE = 65536, LEAST = 1000, LONGEST = 65536 };

/* A directory or a file of the list: how many bytes of a file are to be played and are in it, how many entries of a directory are. */
struct node {
    char kind;
    uint8_t is_in;
    const char *path;
    size_t length;
    uint64_t size, held;
};

/* What holds files. Each function answers null, or why it was refused. Between the making or the opening of a file and its end all
 * writes and reads are of it. */
struct holder {
    const char *(*make_dir)(const struct node *);
    const char *(*make_file)(const struct node *);
    const char *(*open_file)(const struct node *);
    const char *(*write)(const struct node *, uint64_t offset, const char *bytes, size_t size);
    const char *(*read)(const struct node *, uint64_t offset, char *out, size_t *count);
    const char *(*entries)(const struct node *, uint64_t *count);
    void (*end_file)(void);
};

static const char *folder;
static struct node *nodes;
static size_t many;
static char piece[PIECE], other[PIECE];
static uint64_t calls, checkpoints;
static double in_checkpoints;

static double processor_seconds(void) { return (double)clock() / CLOCKS_PER_SEC; }

static void stop(const char *what, const char *why) {
    fprintf(stderr, "%s: %s\n", what, why);
    exit(2);
}

/* ---- A tree */

static atomfs fs = ATOMFS_INIT;
static uint64_t seat, number, wrote, since, made = 1;
static uint8_t version;
static uint8_t (*begins_again)(void);

static uint8_t hand_out(void) {
    static char *text;
    static size_t room;
    size_t count;
    uint8_t status;
    while ((status = atomfs_checkpoint(&fs, text, room, &count, &number)) == ATOMFS_TOO_SMALL) {
        free(text);
        text = malloc(room = count);
        if (text == NULL) stop("a checkpoint", "out of memory");
    }
    return status;
}

static uint8_t forget(void) { return atomfs_forget(&fs, &number); }

/* Why a call was refused; and behind each call the journal may begin again. */
static const char *told(uint8_t status, const struct node *node) {
    if (begins_again != NULL && ++since >= (made > LEAST ? made : LEAST)) {
        double from = processor_seconds();
        uint8_t done = begins_again();
        if (done) stop("a checkpoint", atomfs_status_text(done));
        in_checkpoints += processor_seconds() - from;
        checkpoints++;
        since = 0;
    }
    if (status == ATOMFS_OK) return NULL;
    if (status == ATOMFS_BAD_PATH) status = atomfs_check_path(node->path, node->length, version);
    return status >= ATOMFS_FAILED ? atomfs_errno_name(status) : atomfs_status_text(status);
}

static const char *told_made(uint8_t status, const struct node *node) {
    made += status == ATOMFS_OK;
    return told(status, node);
}

static const char *tree_make_dir(const struct node *node) {
    return told_made(atomfs_mkdir(&fs, seat, node->path, node->length, &number), node);
}

static const char *tree_make_file(const struct node *node) {
    return told_made(atomfs_mknod(&fs, seat, node->path, node->length, &number), node);
}

static const char *tree_open_file(const struct node *node) {
    (void)node;
    return NULL;
}

static const char *tree_write(const struct node *node, uint64_t offset, const char *bytes, size_t size) {
    return told(atomfs_write(&fs, seat, node->path, node->length, offset, bytes, size, &wrote, &number), node);
}

static const char *tree_read(const struct node *node, uint64_t offset, char *out, size_t *count) {
    return told(atomfs_read(&fs, seat, node->path, node->length, offset, out, PIECE, count, &number), node);
}

/* The names that were told, a byte 0 behind each, and the path of the last of them. */
static char names[ATOMFS_LIST_LIMIT * 256], last[257];

static uint64_t told_names(size_t length, size_t *last_length) {
    uint64_t count = 0;
    size_t at = 0;
    for (size_t k = 0; k < length; k++) {
        if (names[k] != 0) continue;
        count++;
        *last_length = k - at + 1;
        memcpy(last + 1, names + at, k - at);
        at = k + 1;
    }
    return count;
}

/* Lists a directory: in pieces where the limits have lists. */
static const char *tree_entries(const struct node *node, uint64_t *count) {
    size_t length, last_length = 1;
    uint64_t piece_count;
    last[0] = '/';
    if (version != ATOMFS_V3) {
        const char *why =
            told(atomfs_readdir(&fs, seat, node->path, node->length, names, sizeof names, &length, &number), node);
        *count = why == NULL ? told_names(length, &last_length) : 0;
        return why;
    }
    *count = 0;
    do {
        uint8_t status = atomfs_list(&fs, seat, node->path, node->length, last, last_length, ATOMFS_LIST_LIMIT, names,
                                     sizeof names, &length, &number);
        const char *why = told(status, node);
        if (why != NULL) return why;
        *count += piece_count = told_names(length, &last_length);
        calls += piece_count == ATOMFS_LIST_LIMIT;
    } while (piece_count == ATOMFS_LIST_LIMIT);
    return NULL;
}

static void tree_end_file(void) {}

static const struct holder tree = { tree_make_dir, tree_make_file, tree_open_file, tree_write,
                                    tree_read,     tree_entries,   tree_end_file };

/* ---- A folder, as of tmpfs */

static const char *top;
static int file;

static const char *below(const char *above, const struct node *node) {
    static char path[LONGEST];
    int length = snprintf(path, sizeof path, "%s%s", above, node->path);
    if (length < 0 || length >= LONGEST) stop(node->path, "too long");
    return path;
}

static const char *why_not(int is_done) { return is_done ? NULL : strerror(errno); }

static const char *opened(const struct node *node, int flags) {
    file = open(below(top, node), flags, 0666);
    return why_not(file >= 0);
}

static const char *folder_make_dir(const struct node *node) { return why_not(mkdir(below(top, node), 0777) == 0); }

static const char *folder_make_file(const struct node *node) { return opened(node, O_WRONLY | O_CREAT | O_EXCL); }

static const char *folder_open_file(const struct node *node) { return opened(node, O_RDONLY); }

static const char *folder_write(const struct node *node, uint64_t offset, const char *bytes, size_t size) {
    (void)node, (void)offset;
    return why_not(write(file, bytes, size) == (ssize_t)size);
}

static const char *folder_read(const struct node *node, uint64_t offset, char *out, size_t *count) {
    (void)node, (void)offset;
    ssize_t came = read(file, out, PIECE);
    *count = (size_t)came;
    return why_not(came >= 0);
}

static const char *folder_entries(const struct node *node, uint64_t *count) {
    DIR *dir = opendir(below(top, node));
    if (dir == NULL) return strerror(errno);
    uint64_t seen = 0;
    while (readdir(dir) != NULL) seen++;
    *count = seen - 2; /* . and .. */
    return why_not(closedir(dir) == 0);
}

static void folder_end_file(void) { close(file); }

static const struct holder of_folder = { folder_make_dir, folder_make_file, folder_open_file, folder_write,
                                         folder_read,     folder_entries,   folder_end_file };

/* ---- The list, and the files of the disk */

static char *whole(const char *path, size_t *size) {
    FILE *list = fopen(path, "rb");
    struct stat there;
    if (list == NULL || fstat(fileno(list), &there)) stop(path, strerror(errno));
    char *text = malloc(*size = (size_t)there.st_size);
    if (text == NULL || fread(text, 1, *size, list) != *size || fclose(list)) stop(path, "not read");
    return text;
}

static void read_list(const char *path) {
    size_t size, at, room = 0;
    char *text = whole(path, &size);
    folder = text;
    for (at = strlen(text) + 1; at < size;) {
        if (many == room) nodes = realloc(nodes, (room = 2 * room + 64) * sizeof *nodes);
        if (nodes == NULL) stop(path, "out of memory");
        struct node *node = &nodes[many++];
        *node = (struct node){ .kind = text[at], .path = text + at + 1, .length = strlen(text + at + 1) };
        at += node->length + 2;
        if (node->kind == 'f') {
            node->size = strtoull(text + at, NULL, 10);
            at += strlen(text + at) + 1;
        }
    }
    nodes[0].is_in = 1;
}

static int opened_source(const struct node *node) {
    const char *path = below(folder, node);
    int source = open(path, O_RDONLY);
    if (source < 0) stop(path, strerror(errno));
    return source;
}

/* The bytes of the next piece of a file of the disk, of which so many are left. */
static size_t next_piece(const struct node *node, int source, uint64_t left) {
    size_t wanted = left < PIECE ? (size_t)left : PIECE, count = 0;
    while (count < wanted) {
        ssize_t came = read(source, piece + count, wanted - count);
        if (came <= 0) stop(below(folder, node), "has become shorter, or cannot be read");
        count += (size_t)came;
    }
    return count;
}

/* ---- Rounds */

static void read_alone(void) {
    for (size_t at = 0; at < many; at++) {
        if (nodes[at].kind != 'f') continue;
        int source = opened_source(&nodes[at]);
        for (uint64_t left = nodes[at].size; left > 0;) left -= next_piece(&nodes[at], source, left);
        close(source);
    }
}

static void refused(const struct node *node, const char *call, const char *why) {
    printf("refused %zu %s %llu %s\n", (size_t)(node - nodes), call, (unsigned long long)node->held, why);
}

/* Writes a file that was made, as far as it is taken. */
static void fill(const struct holder *holder, struct node *node) {
    int source = opened_source(node);
    while (node->held < node->size) {
        size_t size = next_piece(node, source, node->size - node->held);
        const char *why = holder->write(node, node->held, piece, size);
        calls++;
        if (why != NULL) {
            refused(node, "write", why);
            break;
        }
        node->held += size;
    }
    close(source);
}

static int make_one(const struct holder *holder, struct node *node) {
    const char *why = node->kind == 'd' ? holder->make_dir(node) : holder->make_file(node);
    calls++;
    if (why != NULL) {
        refused(node, node->kind == 'd' ? "mkdir" : "mknod", why);
        return 0;
    }
    node->is_in = 1;
    if (node->kind == 'f') {
        fill(holder, node);
        holder->end_file();
    }
    return 1;
}

/* The directory that a node is in is the last one before it with one name less: what is below one that was refused has none. */
static void make(const struct holder *holder) {
    static struct node *above[LONGEST / 2];
    above[0] = nodes;
    for (size_t at = 1; at < many; at++) {
        struct node *node = &nodes[at];
        size_t depth = 0;
        for (size_t k = 0; k < node->length; k++) depth += node->path[k] == '/';
        if (node->kind == 'd') above[depth] = node;
        if (above[depth - 1]->is_in && make_one(holder, node)) above[depth - 1]->held++;
    }
}

static void wrong(const struct node *node, const char *why) { printf("wrong %zu %s\n", (size_t)(node - nodes), why); }

/* Compares a file with what it has of the one on the disk, and its end. */
static const char *compared(const struct holder *holder, const struct node *node, int source) {
    size_t size, count;
    uint64_t at = 0;
    do {
        size = next_piece(node, source, node->held - at);
        const char *why = holder->read(node, at, other, &count);
        calls++;
        if (why != NULL) return why;
        if (count != size || memcmp(piece, other, size) != 0) return "other bytes";
        at += size;
    } while (size == PIECE);
    return NULL;
}

static const char *back_of_file(const struct holder *holder, const struct node *node) {
    const char *why = holder->open_file(node);
    if (why != NULL) return why;
    int source = opened_source(node);
    why = compared(holder, node, source);
    close(source);
    holder->end_file();
    return why;
}

static const char *back_of_dir(const struct holder *holder, const struct node *node) {
    uint64_t count;
    const char *why = holder->entries(node, &count);
    calls++;
    return why != NULL ? why : count == node->held ? NULL : "other entries";
}

/* All that went in is looked at by its path, and a directory has as many entries as went in: so it has no others. */
static void back(const struct holder *holder) {
    for (size_t at = 0; at < many; at++) {
        if (!nodes[at].is_in) continue;
        const char *why = nodes[at].kind == 'd' ? back_of_dir(holder, &nodes[at]) : back_of_file(holder, &nodes[at]);
        if (why != NULL) wrong(&nodes[at], why);
    }
}

/* The most memory that the process had so far, in KiB. What its parent had counts in getrusage, and not here. */
static long most_held(void) {
    char line[256];
    long kib = 0;
    FILE *status = fopen("/proc/self/status", "r");
    while (status != NULL && fgets(line, sizeof line, status) != NULL && sscanf(line, "VmHWM: %ld", &kib) != 1) {}
    if (status != NULL) fclose(status);
    return kib;
}

static const struct holder *open_holder(const char *what, const char *given) {
    if (strcmp(what, "folder") == 0) {
        top = given;
        return &of_folder;
    }
    begins_again = strcmp(what, "checkpoints") == 0 ? hand_out : strcmp(what, "forgetting") == 0 ? forget : NULL;
    version = (uint8_t)atoi(given);
    uint8_t status = atomfs_open_with(&fs, version == ATOMFS_V3 ? ATOMFS_V3_NODE_LIMIT : ATOMFS_NODE_LIMIT, version);
    if (status == ATOMFS_OK) status = atomfs_seat(&fs, &seat);
    if (status) stop("a tree", atomfs_status_text(status));
    return &tree;
}

int main(int argc, char **argv) {
    double clocks[4];
    long held[3];
    if (argc != 4) stop("real_c", "LIST tree|checkpoints|forgetting VERSION, or LIST folder FOLDER");
    read_list(argv[1]);
    clocks[0] = processor_seconds();
    read_alone();
    clocks[1] = processor_seconds();
    held[0] = most_held();
    const struct holder *holder = open_holder(argv[2], argv[3]);
    make(holder);
    clocks[2] = processor_seconds();
    held[1] = most_held();
    back(holder);
    clocks[3] = processor_seconds();
    held[2] = most_held();
    printf("used %llu", (unsigned long long)calls);
    for (int k = 0; k < 3; k++) printf(" %.6f", clocks[k + 1] - clocks[k]);
    for (int k = 0; k < 3; k++) printf(" %ld", held[k]);
    printf(" %llu %.6f\n", (unsigned long long)checkpoints, in_checkpoints);
    return 0;
}
