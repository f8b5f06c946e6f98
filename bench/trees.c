/* Two of the jobs that bench/run times, on a tree in memory, through the library for C: trees JOB SEED does one, and prints a digest of
 * all that it was answered and of the trees that are left. Without a word each is done in small, and tests/embedded.py compares these digests.
 *
 * sandbox unpacks files into a staging directory, renames that into place, looks at them, reads and writes them again, and removes all.
 * shapes makes directories that are nearly full, a chain of directories, large files, and entries that move about. A job is done in
 * rounds, each on trees of its own and with calls that no other round has. What is drawn is drawn as crates/workloads/src/drawing.rt does. */
#include "atomfs.h"
#include <errno.h>
#include <inttypes.h>
#include <stdio.h>
#include <stdlib.h>
#include <string.h>

enum { SUPPLY = 65536, MOST_READ = 65536, ROOM = 512, MOST_PATHS = 4096 };

/* Bytes with their length: a path, or what a path ends with. */
struct path {
    size_t length;
    char text[ROOM];
};

/* Paths that a job knows of. */
struct paths {
    size_t count;
    struct path at[MOST_PATHS];
};

static atomfs fs = ATOMFS_INIT;
static uint64_t seat, number, digest;
static struct paths dirs, files;

static void wanted(int holds, const char *what) {
    if (holds) return;
    fprintf(stderr, "trees: %s\n", what);
    exit(1);
}

/* ---- What is drawn: the generator PCG32, seeded by one of its own, and bytes and names of it */

static uint64_t state, increment;
static char supply[SUPPLY];

/* Beginnings of names, of 1 to 19 bytes, and their ends. */
static const char *const stems[] = { "a",
                                     "b2",
                                     "lib",
                                     "main",
                                     "index",
                                     "module",
                                     "Makefile",
                                     "component",
                                     "test_helpers",
                                     "specification",
                                     "deployment-config",
                                     "generated_bindings_" };
static const char *const endings[] = { "", "", ".c", ".h", ".rs", ".txt", ".json", ".test" };

static uint32_t word_of(uint64_t from) {
    uint32_t mixed = (uint32_t)((from >> 18 ^ from) >> 27), turn = (uint32_t)(from >> 59);
    return mixed >> turn | mixed << (32 - turn) % 32;
}

static uint32_t drawn(void) {
    uint32_t word = word_of(state);
    state = state * UINT64_C(6364136223846793005) + increment;
    return word;
}

/* Two words of the generator from which the other one is seeded. */
static uint64_t seeded(uint64_t *from) {
    uint64_t two = 0;
    for (int half = 0; half < 2; half++) {
        *from = *from * UINT64_C(6364136223846793005) + UINT64_C(11634580027462260723);
        two |= (uint64_t)word_of(*from) << 32 * half;
    }
    return two;
}

static void begin_drawing(uint64_t seed) {
    uint64_t first = seeded(&seed);
    increment = seeded(&seed) | 1;
    state = first + increment;
    drawn();
    for (int i = 0; i < SUPPLY; i++) supply[i] = (char)(drawn() % 256);
}

/* A number below a limit; 0 where that is 0. */
static size_t below(size_t limit) {
    uint32_t word = drawn();
    return limit ? word % limit : 0;
}

static size_t between(size_t least, size_t most) { return least + below(most - least + 1); }

/* So many bytes. */
static const char *bytes(size_t count) { return supply + below(SUPPLY - count + 1); }

/* ---- The digest */

static uint64_t joined_with(uint64_t sum, uint64_t more) {
    uint64_t mixed = (sum ^ more) * UINT64_C(0x9e3779b97f4a7c15);
    return mixed ^ mixed >> 29;
}

static void add(uint64_t more) { digest = joined_with(digest, more); }

static void add_bytes(const char *added, size_t count) {
    size_t i = 0;
    add(count);
    for (; i + 8 <= count; i += 8) {
        uint64_t word = 0;
        for (size_t k = 0; k < 8; k++) word |= (uint64_t)(unsigned char)added[i + k] << 8 * k;
        add(word);
    }
    for (; i < count; i++) add((unsigned char)added[i]);
}

/* ---- Calls, each with its reply in the digest. An error of a call is a reply; anything else ends the program. */

/* The errors of calls; what the digest has of one is its place here, counted from 1. */
static const uint8_t errors[] = { ENOENT, ENOTDIR, EEXIST, ENOTEMPTY, EISDIR,   EINVAL,
                                  EBUSY,  EPERM,   ENOSPC, EFBIG,     EOVERFLOW };

static int is_done(uint8_t status) {
    size_t i = 0;
    if (status == ATOMFS_OK) return 1;
    while (i < sizeof errors && ATOMFS_FAILED + errors[i] != status) i++;
    wanted(i < sizeof errors, atomfs_status_text(status));
    add(7 + i + 1);
    return 0;
}

static int changed(uint8_t status) {
    int done = is_done(status);
    if (done) add(1);
    return done;
}

static void make_dir(const struct path *path) { changed(atomfs_mkdir(&fs, seat, path->text, path->length, &number)); }

static void make_file(const struct path *path) { changed(atomfs_mknod(&fs, seat, path->text, path->length, &number)); }

static void unlink_file(const struct path *path) {
    changed(atomfs_unlink(&fs, seat, path->text, path->length, &number));
}

static void remove_dir(const struct path *path) { changed(atomfs_rmdir(&fs, seat, path->text, path->length, &number)); }

static int moved(const struct path *from, const struct path *to) {
    return changed(atomfs_rename(&fs, seat, from->text, from->length, to->text, to->length, &number));
}

static void cut(const struct path *path, size_t size) {
    changed(atomfs_truncate(&fs, seat, path->text, path->length, size, &number));
}

static void look(const struct path *path) {
    struct atomfs_stat seen;
    if (!is_done(atomfs_stat(&fs, seat, path->text, path->length, &seen, &number))) return;
    add(seen.is_dir ? 2 : 3);
    add(seen.size);
}

static void list(const struct path *path) {
    static char names[ATOMFS_LIST_LIMIT * 65];
    size_t count;
    if (!is_done(atomfs_readdir(&fs, seat, path->text, path->length, names, sizeof names, &count, &number))) return;
    add(4);
    for (size_t at = 0; at < count; at += strlen(names + at) + 1) add_bytes(names + at, strlen(names + at));
}

static void read_from(const struct path *path, size_t offset, size_t most) {
    static char came[MOST_READ];
    size_t count;
    if (!is_done(atomfs_read(&fs, seat, path->text, path->length, offset, came, most, &count, &number))) return;
    add(5);
    add_bytes(came, count);
}

static void write_to(const struct path *path, size_t offset, size_t count) {
    uint64_t wrote;
    const char *given = bytes(count);
    if (!is_done(atomfs_write(&fs, seat, path->text, path->length, offset, given, count, &wrote, &number))) return;
    add(6);
    add(wrote);
}

/* ---- Paths */

static void append(struct path *path, const char *text, size_t length) {
    wanted(path->length + length <= ROOM, "a path is too long");
    memcpy(path->text + path->length, text, length);
    path->length += length;
}

static struct path path_at(const char *text) {
    struct path path = { 0, "" };
    append(&path, text, strlen(text));
    return path;
}

static void append_path(struct path *path, const struct path *more) { append(path, more->text, more->length); }

/* A path in a directory, with a drawn name of at most 32 bytes; different numbers below ten million make different names. */
static struct path path_in(const struct path *dir, size_t number_of_name) {
    struct path path = *dir;
    char name[64];
    size_t stem = below(sizeof stems / sizeof *stems), ending = below(sizeof endings / sizeof *endings);
    int length = snprintf(name, sizeof name, "/%s-%zu%s", stems[stem], number_of_name, endings[ending]);
    append(&path, name, (size_t)length);
    return path;
}

static struct path path_in_root(size_t number_of_name) {
    struct path root = { 0, "" };
    return path_in(&root, number_of_name);
}

static void push(struct paths *paths, struct path path) {
    wanted(paths->count < MOST_PATHS, "there are too many paths");
    paths->at[paths->count++] = path;
}

static struct path *one_of(struct paths *paths) {
    size_t place = below(paths->count);
    wanted(paths->count > 0, "no path is left");
    return &paths->at[place];
}

static void look_in(const struct path *dir, size_t number_of_name) {
    struct path path = path_in(dir, number_of_name);
    look(&path);
}

/* ---- A sandbox */

enum { DIRS = 80, MOST_FILES = 24, LEAST_BYTES = 20, MOST_BYTES = 4000, DEPTH = 8 };

static const char staging[] = "/staging", place[] = "/app";

static struct path under(const char *top, const struct path *rest) {
    struct path path = path_at(top);
    append_path(&path, rest);
    return path;
}

static size_t depth(const struct path *path) {
    size_t slashes = 0;
    for (size_t i = 0; i < path->length; i++) slashes += path->text[i] == '/';
    return slashes;
}

/* The path of a new directory: in one of those that were made last, where that is not too deep. */
static struct path new_dir(size_t number_of_dir) {
    size_t back = below(6) + 1;
    const struct path *above = back <= dirs.count ? &dirs.at[dirs.count - back] : dirs.at;
    return dirs.count && depth(above) < DEPTH - 1 ? path_in(above, number_of_dir) : path_in_root(number_of_dir);
}

static void unpack_file(const struct path *file) {
    struct path path = under(staging, file);
    size_t count = between(LEAST_BYTES, MOST_BYTES);
    make_file(&path);
    write_to(&path, 0, count);
}

/* Makes a directory with its files. */
static void unpack_dir(size_t number_of_dir) {
    struct path dir = new_dir(number_of_dir), path = under(staging, &dir);
    make_dir(&path);
    size_t count = below(MOST_FILES + 1);
    for (size_t i = 0; i < count; i++) {
        push(&files, path_in(&dir, i));
        unpack_file(&files.at[files.count - 1]);
    }
    push(&dirs, dir);
}

static void write_again(const struct path *file) {
    cut(file, 0);
    write_to(file, 0, below(MOST_BYTES));
}

/* A look at a file, a directory or what is missing, or a file written again. */
static void use_once(void) {
    struct path dir = under(place, one_of(&dirs)), file = under(place, one_of(&files));
    size_t roll = below(100);
    if (roll < 35)
        look(&file);
    else if (roll < 45)
        look(&dir);
    else if (roll < 58)
        look_in(&dir, 1000);
    else if (roll < 62)
        look_in(&file, 0);
    else if (roll < 88)
        read_from(&file, 0, MOST_READ);
    else if (roll < 92)
        list(&dir);
    else if (roll < 96)
        write_again(&file);
    else
        write_to(&file, below(MOST_BYTES), 64);
}

/* Removes the files, and then the directories, the last one first. */
static void remove_all(void) {
    for (size_t i = 0; i < files.count; i++) {
        struct path file = under(place, &files.at[i]);
        unlink_file(&file);
    }
    for (size_t i = dirs.count; i > 0; i--) {
        struct path dir = under(place, &dirs.at[i - 1]);
        remove_dir(&dir);
    }
    struct path top = path_at(place);
    remove_dir(&top);
}

static void sandbox(size_t looks) {
    struct path from = path_at(staging), to = path_at(place);
    make_dir(&from);
    for (size_t i = 0; i < DIRS; i++) unpack_dir(i);
    moved(&from, &to);
    for (size_t i = 0; i < looks; i++) use_once();
    remove_all();
}

/* ---- Trees of awkward shapes */

enum { LEAST_ENTRIES = 200, MOST_ENTRIES = 256, LEAST_NAMES = 40, MOST_NAMES = 60, PIECE = 4000, PIECES = 16 };

/* Makes a directory with so many files. */
static void fill(const struct path *dir, size_t entries) {
    make_dir(dir);
    for (size_t i = 0; i < entries; i++) {
        push(&files, path_in(dir, i));
        make_file(&files.at[files.count - 1]);
    }
}

static void replace(struct path *file, const struct path *fresh) {
    unlink_file(file);
    make_file(fresh);
    *file = *fresh;
}

static void use_wide(const struct path *dir, size_t i) {
    struct path fresh = path_in(dir, i + 1000), *file = one_of(&files);
    size_t roll = below(100);
    if (roll < 55)
        look(file);
    else if (roll < 80)
        look(&fresh);
    else if (roll < 98)
        replace(file, &fresh);
    else
        list(dir);
}

/* A wide directory, in which files are looked for, removed and made. */
static void wide(size_t calls) {
    size_t entries = between(LEAST_ENTRIES, MOST_ENTRIES);
    struct path dir = path_in_root(1);
    fill(&dir, entries);
    for (size_t i = 0; i < calls; i++) use_wide(&dir, i);
}

/* The path of the first so many names of a chain. */
static struct path joined(size_t count) {
    struct path path = { 0, "" };
    for (size_t i = 0; i < count; i++) append_path(&path, &dirs.at[i]);
    return path;
}

/* A short name with its slash. */
static struct path short_name(size_t number_of_name) {
    struct path path = { 0, "" };
    char letter = "abcdefghijklmnopqrstuvwxyz"[below(26)];
    path.length = (size_t)snprintf(path.text, ROOM, "/%c%zu", letter, number_of_name);
    return path;
}

/* Gives a directory of a chain another name. */
static void rename_one(size_t i) {
    size_t at = below(dirs.count);
    struct path name = short_name(i + 100), from = joined(at + 1), to = joined(at);
    append_path(&to, &name);
    moved(&from, &to);
    dirs.at[at] = name;
}

/* A file from its begin to its end. */
static void use_file(const struct path *dir, size_t i) {
    struct path file = path_in(dir, i);
    make_file(&file);
    write_to(&file, 0, 100);
    read_from(&file, 0, 200);
    unlink_file(&file);
}

static void use_deep(size_t i) {
    struct path dir = joined(between(1, dirs.count));
    size_t roll = below(100);
    if (roll < 50)
        look(&dir);
    else if (roll < 65)
        look_in(&dir, i);
    else if (roll < 75)
        list(&dir);
    else if (roll < 95)
        use_file(&dir, i);
    else
        rename_one(i);
}

/* A chain of directories, each in the one before. */
static void deep(size_t calls) {
    size_t names = between(LEAST_NAMES, MOST_NAMES);
    for (size_t i = 0; i < names; i++) {
        push(&dirs, short_name(i));
        struct path dir = joined(i + 1);
        make_dir(&dir);
    }
    for (size_t i = 0; i < calls; i++) use_deep(i);
}

/* Large files, each from its begin to its end: written in pieces, and read back. */
static void pieces(size_t count) {
    for (size_t i = 0; i < count; i++) {
        struct path file = path_in_root(i);
        make_file(&file);
        for (size_t piece = 0; piece < PIECES; piece++) write_to(&file, piece * PIECE, PIECE);
        for (size_t piece = 0; piece < PIECES; piece++) read_from(&file, below(65536), PIECE);
        cut(&file, below(65536));
        write_to(&file, below(65536), 1);
        unlink_file(&file);
    }
}

/* Two directories between which entries move, both nearly full. */
static void moves(size_t calls) {
    struct path two[2];
    for (size_t i = 0; i < 2; i++) two[i] = path_in_root(i + 1);
    for (size_t i = 0; i < 2; i++) fill(&two[i], LEAST_ENTRIES);
    for (size_t i = 0; i < calls; i++) {
        struct path to = path_in(&two[i % 2], i + 1000), *from = one_of(&files);
        if (moved(from, &to)) *from = to;
    }
}

/* ---- Jobs */

/* The text of the tree that is left. */
static void add_tree(void) {
    static char *text;
    static size_t room;
    size_t count;
    uint8_t status;
    while ((status = atomfs_tree(&fs, text, room, &count)) == ATOMFS_TOO_SMALL) {
        text = realloc(text, room = count);
        wanted(text != NULL, "out of memory");
    }
    wanted(status == ATOMFS_OK, atomfs_status_text(status));
    add_bytes(text, count);
}

/* A part of a job on a tree of its own: the digest of all replies, of how many entries the journal has, three for each call,
 * and of the tree that is left. */
static uint64_t played(void (*part)(size_t), size_t count) {
    digest = 1;
    dirs.count = files.count = 0;
    wanted(atomfs_open_with(&fs, ATOMFS_NODE_LIMIT, ATOMFS_V2) == ATOMFS_OK, "no tree");
    wanted(atomfs_seat(&fs, &seat) == ATOMFS_OK, "no seat");
    part(count);
    add(3 * number);
    add_tree();
    wanted(atomfs_close(&fs) == ATOMFS_OK, "the tree is not closed");
    return digest;
}

static uint64_t round_of_sandbox(size_t part) { return played(sandbox, 2000 / part); }

static uint64_t round_of_shapes(size_t part) {
    static const struct {
        void (*play)(size_t);
        size_t count;
    } shapes[] = { { wide, 4000 }, { deep, 2000 }, { pieces, 60 }, { moves, 3000 } };
    uint64_t sum = 1;
    for (size_t i = 0; i < sizeof shapes / sizeof *shapes; i++)
        sum = joined_with(sum, played(shapes[i].play, shapes[i].count / part));
    return sum;
}

/* The jobs, and how many rounds each has in full. */
static const struct job {
    const char *name;
    uint64_t (*round)(size_t part);
    size_t rounds;
} jobs[] = { { "sandbox", round_of_sandbox, 150 }, { "shapes", round_of_shapes, 40 } };

enum { JOBS = sizeof jobs / sizeof *jobs };

/* The digest of so many rounds, each of which does what it does in full divided by `part`. */
static uint64_t done(const struct job *job, uint64_t seed, size_t rounds, size_t part) {
    uint64_t sum = 1;
    begin_drawing(seed);
    for (size_t i = 0; i < rounds; i++) sum = joined_with(sum, job->round(part));
    return sum;
}

static int small(void) {
    for (size_t i = 0; i < JOBS; i++) printf("%s: %" PRIu64 "\n", jobs[i].name, done(&jobs[i], 1, 2, 50));
    return 0;
}

static const struct job *job_of(const char *name) {
    for (size_t i = 0; i < JOBS; i++)
        if (strcmp(name, jobs[i].name) == 0) return &jobs[i];
    return NULL;
}

int main(int argc, char **argv) {
    const struct job *job = argc == 3 ? job_of(argv[1]) : NULL;
    char *end = NULL;
    uint64_t seed = job ? strtoull(argv[2], &end, 10) : 0;
    if (argc == 1) return small();
    if (job == NULL || *argv[2] == 0 || *end != 0) {
        fprintf(stderr, "trees: no word, or a job and a number\n");
        return 2;
    }
    printf("%s %" PRIu64 ": %" PRIu64 "\n", job->name, seed, done(job, seed, job->rounds, 1));
    return 0;
}
