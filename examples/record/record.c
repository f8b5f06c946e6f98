/* Records the calls of threads on a directory of this machine, each one system call, and has an order of them found.
 *
 *     cc -std=c11 -O2 -pthread examples/record/record.c -o record
 *     ./record DIR [ROUNDS [SEED [moves]]]
 *
 * `atomfs` is on the path, or ATOMFS names it. Each round has a new directory below DIR, which is removed at the end. One thread comes
 * first: what nothing explains there is another kind of tree, and no race. The first history that no order explains goes to standard
 * output. With `moves` there are renames and exchanges, too. Linux looks a path up before it locks, so beside moves of directories other
 * calls may go through where a directory was: POSIX leaves that open.
 *
 * Exit status: 0 all histories are lawful; 1 one of threads is not; 2 one of one thread is not, a usage error, or DIR or `atomfs` is
 * missing; 3 no history could be made or judged. */
#define _GNU_SOURCE
#include <errno.h>
#include <fcntl.h>
#include <ftw.h>
#include <pthread.h>
#include <stdatomic.h>
#include <stdio.h>
#include <stdlib.h>
#include <string.h>
#include <sys/stat.h>
#include <sys/wait.h>
#include <unistd.h>

enum { THREADS = 3, CALLS = 6, ALONE = 20, ALL = THREADS * CALLS };
enum kind { MKDIR, RMDIR, MKNOD, UNLINK, TRUNCATE, STAT, RENAME, EXCHANGE };
static const char *const kinds[] = { "mkdir", "rmdir", "mknod", "unlink", "truncate", "stat", "rename", "exchange" };
static const char *const paths[] = { "a", "b", "a/a", "a/b", "b/a" };

struct call {
    enum kind kind;
    const char *path, *other;
    unsigned long begun, returned;
    int error;
    struct stat stat;
};

struct entry {
    unsigned long at;
    int call, returns;
};

/* The one counter: an entry's number is taken before the call starts, or once it has ended. */
static atomic_ulong counter;
static struct call calls[ALL];
static int calls_of_each;
static pthread_barrier_t together;

static _Noreturn void fail(const char *what) {
    perror(what);
    exit(3);
}

/* Something is missing. */
static _Noreturn void miss(const char *what, const char *why) {
    fprintf(stderr, "%s: %s\n", what, why);
    exit(2);
}

static int made(struct call *call) {
    switch (call->kind) {
    case MKDIR: return mkdir(call->path, 0777);
    case RMDIR: return rmdir(call->path);
    case MKNOD: return mknod(call->path, S_IFREG | 0666, 0);
    case UNLINK: return unlink(call->path);
    case TRUNCATE: return truncate(call->path, 7);
    case STAT: return stat(call->path, &call->stat);
    case RENAME: return rename(call->path, call->other);
    default: return renameat2(AT_FDCWD, call->path, AT_FDCWD, call->other, RENAME_EXCHANGE);
    }
}

static void *work(void *first) {
    pthread_barrier_wait(&together);
    for (struct call *call = first; call < (struct call *)first + calls_of_each; call++) {
        call->begun = atomic_fetch_add(&counter, 1);
        call->error = made(call) ? errno : 0;
        call->returned = atomic_fetch_add(&counter, 1);
    }
    return NULL;
}

/* Linux says EISDIR where POSIX says EPERM: a directory is no file that is unlinked. Errors that the tree has not are any. */
static const char *word_of(const struct call *call) {
    switch (call->error) {
    case ENOENT: return "ENOENT";
    case ENOTDIR: return "ENOTDIR";
    case EEXIST: return "EEXIST";
    case ENOTEMPTY: return "ENOTEMPTY";
    case EISDIR: return call->kind == UNLINK ? "EPERM" : "EISDIR";
    case EINVAL: return "EINVAL";
    case EBUSY: return "EBUSY";
    default: return "?";
    }
}

static void write_entry(FILE *to, struct entry entry) {
    const struct call *call = &calls[entry.call];
    if (!entry.returns) {
        fprintf(to, "begin %d %d %s /%s", entry.call + 1, entry.call / calls_of_each, kinds[call->kind], call->path);
        if (call->kind >= RENAME) fprintf(to, " /%s", call->other);
        fputs(call->kind == TRUNCATE ? " 7\n" : "\n", to);
        return;
    }
    fprintf(to, "return %d ", entry.call + 1);
    if (call->error)
        fprintf(to, "failed %s\n", word_of(call));
    else if (call->kind != STAT)
        fputs("ok\n", to);
    else if (S_ISDIR(call->stat.st_mode))
        fputs("stat dir ?\n", to);
    else
        fprintf(to, "stat file %lld\n", (long long)call->stat.st_size);
}

static int in_order(const void *one, const void *other) {
    unsigned long a = ((const struct entry *)one)->at, b = ((const struct entry *)other)->at;
    return a < b ? -1 : a > b;
}

static void write_history(const char *path) {
    struct entry entries[2 * ALL];
    for (int call = 0; call < ALL; call++) {
        entries[2 * call] = (struct entry){ calls[call].begun, call, 0 };
        entries[2 * call + 1] = (struct entry){ calls[call].returned, call, 1 };
    }
    qsort(entries, 2 * ALL, sizeof *entries, in_order);
    FILE *to = fopen(path, "w");
    if (to == NULL) fail(path);
    fputs("atomfs-journal 1\n", to);
    for (int entry = 0; entry < 2 * ALL; entry++) write_entry(to, entries[entry]);
    if (fclose(to)) fail(path);
}

/* A path, or another one of which none leads through the other: of these the tree and Linux look at errors in another order. */
static const char *drawn_path(unsigned *seed, const char *beside) {
    for (;;) {
        const char *path = paths[rand_r(seed) % 5];
        if (beside == NULL || (strncmp(path, beside, strlen(beside)) && strncmp(beside, path, strlen(path))))
            return path;
    }
}

/* One round, in the folder where it works: the status of `atomfs linearize`. */
static int recorded(int threads, unsigned *seed, int moves) {
    pthread_t started[THREADS];
    calls_of_each = ALL / threads;
    for (int at = 0; at < ALL; at++) {
        const char *path = drawn_path(seed, NULL);
        enum kind kind = rand_r(seed) % (moves ? EXCHANGE + 1 : STAT + 1);
        calls[at] = (struct call){ .kind = kind, .path = path, .other = drawn_path(seed, path) };
    }
    if (mkdir("tree", 0777) || chdir("tree")) fail("tree");
    pthread_barrier_init(&together, NULL, (unsigned)threads);
    for (int at = 0; at < threads; at++)
        if (pthread_create(&started[at], NULL, work, &calls[at * calls_of_each])) fail("pthread_create");
    for (int at = 0; at < threads; at++) pthread_join(started[at], NULL);
    pthread_barrier_destroy(&together);
    if (chdir("..")) fail("..");
    write_history("history");
    int status = system("\"${ATOMFS:-atomfs}\" linearize < history > found");
    return WIFEXITED(status) ? WEXITSTATUS(status) : -1;
}

static int removed(const char *path, const struct stat *stat, int kind, struct FTW *at) {
    (void)stat, (void)kind, (void)at;
    return remove(path);
}

int main(int count, char **words) {
    int rounds = count > 2 ? atoi(words[2]) : 200, moves = count > 4 && !strcmp(words[4], "moves");
    unsigned seed = count > 3 ? (unsigned)atoi(words[3]) : 1;
    char folder[4096];
    if (count < 2 || count > 5 || (count > 4 && !moves) || rounds <= 0) {
        fprintf(stderr, "usage: %s DIR [ROUNDS [SEED [moves]]]\n", words[0]);
        return 2;
    }
    if (access(words[1], W_OK)) miss(words[1], strerror(errno));
    if (system("command -v \"${ATOMFS:-atomfs}\" > /dev/null 2>&1"))
        miss("record.c", "the program atomfs is missing: put it on the path, or name it with ATOMFS");
    snprintf(folder, sizeof folder, "%s/record-XXXXXX", words[1]);
    umask(022);
    if (mkdtemp(folder) == NULL) fail(words[1]);
    int back = open(".", O_RDONLY | O_DIRECTORY), status = 0;
    if (back < 0 || chdir(folder)) fail(folder);
    for (int at = -ALONE; at < rounds && status == 0; at++) {
        status = recorded(at < 0 ? 1 : THREADS, &seed, moves);
        if (status == 1) {
            fputs(at < 0 ? "one thread, so this is another kind of tree: " : "threads: ", stderr);
            status = system("cat found >&2; cat history") ? 3 : at < 0 ? 2 : 1;
        } else if (status != 0) {
            fprintf(stderr, "atomfs linearize ended with status %d\n", status);
            status = 3;
        }
        nftw("tree", removed, 16, FTW_DEPTH | FTW_PHYS);
    }
    if (fchdir(back) || nftw(folder, removed, 16, FTW_DEPTH | FTW_PHYS)) fail(folder);
    if (status == 0) printf("all are lawful: %d histories of one thread, %d of %d threads\n", ALONE, rounds, THREADS);
    return status;
}
