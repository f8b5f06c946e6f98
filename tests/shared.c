/* A tree that threads share, of embed/shared.c: what each function answers, calls of threads that overlap, and cancellations,
 * signals and forks beside them. The argument is how many calls each thread makes, and how many of those come.
 *
 * With COUNTED the source is compiled into this program, which then stands round each of its steps and each taking of its lock:
 * it counts steps that wait and that help, lets other threads run, and has a thread stop before a step. What it counts has no
 * lock of its own, so that a sanitizer of threads sees a step outside of the tree's. */
#define _POSIX_C_SOURCE 200809L
#include "is.h"
#ifdef COUNTED
#include "../embed/asleep.h"
#endif
#include <pthread.h>
#include <sched.h>
#include <semaphore.h>
#include <signal.h>
#include <sys/wait.h>
#include <time.h>
#include <unistd.h>

enum { THREADS = 8 };

static atomfs_shared *shared;
static atomfs_session *session, *other_session;
static uint64_t number, wrote, seat;
static size_t count, entries;
static char out[70000];
static struct atomfs_stat stat_;

#ifdef COUNTED
static uint64_t waits, helps;
static sem_t gate, stopped, waited;
/* How often this thread takes the lock before it stops, below 0 it never does; and how often it has taken it. */
static _Thread_local int before_stop = -1, takes;

static uint8_t counted_step(atomfs *fs, uint64_t on, struct atomfs_asleep *asleep, struct atomfs_went *went) {
    uint8_t status = proved_atomfs_step_among(fs, on, asleep, went);
    helps += went->did == ATOMFS_DID_HELP;
    if (went->did == ATOMFS_DID_WAIT) {
        waits++;
        sem_post(&waited);
    }
    return status;
}

static int passing_lock(pthread_mutex_t *lock) {
    if (before_stop >= 0 && before_stop-- == 0) {
        sem_post(&stopped);
        sem_wait(&gate);
    }
    /* Seldom: what each costs is the time of all that runs on the machine. */
    if (++takes % 127 == 0) sched_yield();
    return pthread_mutex_lock(lock);
}

#define proved_atomfs_step_among counted_step
#define pthread_mutex_lock passing_lock
#include "../embed/shared.c"
#undef proved_atomfs_step_among
#undef pthread_mutex_lock
#endif

static void open_shared(size_t limit, uint8_t version) {
    IS(atomfs_shared_open(&shared, limit, version), ATOMFS_OK);
    IS(atomfs_shared_session(shared, &session, &seat), ATOMFS_OK);
    IS(seat, 0);
}

static void close_shared(void) {
    IS(atomfs_shared_close(&shared), ATOMFS_OK);
    IS(shared == NULL, 1);
    session = other_session = NULL;
}

static void each_call(void) {
    open_shared(100, ATOMFS_V1);
    IS(atomfs_shared_mkdir(session, PATH("/a"), &number), ATOMFS_OK);
    IS(number, 1);
    FAILS(atomfs_shared_mkdir(session, PATH("/a"), &number), EEXIST_);
    IS(number, 2);
    IS(atomfs_shared_mknod(session, PATH("/f"), NULL), ATOMFS_OK);
    IS(atomfs_shared_write(session, PATH("/f"), 1, "hello", 5, &wrote, NULL), ATOMFS_OK);
    IS(wrote, 5);
    IS(atomfs_shared_read(session, PATH("/f"), 0, out, 4, &count, NULL), ATOMFS_OK);
    SAYS(out, count, "\0hel");
    IS(atomfs_shared_truncate(session, PATH("/f"), 3, NULL), ATOMFS_OK);
    IS(atomfs_shared_stat(session, PATH("/f"), &stat_, NULL), ATOMFS_OK);
    IS(stat_.is_dir, 0);
    IS(stat_.size, 3);
    IS(atomfs_shared_rename(session, PATH("/f"), PATH("/g"), NULL), ATOMFS_OK);
    IS(atomfs_shared_exchange(session, PATH("/a"), PATH("/g"), NULL), ATOMFS_OK);
    IS(atomfs_shared_readdir(session, PATH("/"), out, sizeof out, &count, NULL), ATOMFS_OK);
    SAYS(out, count, "a\0g\0");
    FAILS(atomfs_shared_readdir(session, PATH("/a"), out, sizeof out, &count, NULL), ENOTDIR_);
    FAILS(atomfs_shared_readdir(session, PATH("/a"), NULL, 0, &count, NULL), ENOTDIR_);
    FAILS(atomfs_shared_read(session, PATH("/g"), 0, out, 4, &count, NULL), EISDIR_);
    FAILS(atomfs_shared_write(session, PATH("/x"), 0, "x", 1, &wrote, NULL), ENOENT_);
    FAILS(atomfs_shared_stat(session, PATH("/x"), &stat_, NULL), ENOENT_);
    IS(atomfs_shared_unlink(session, PATH("/a"), NULL), ATOMFS_OK);
    IS(atomfs_shared_rmdir(session, PATH("/g"), &number), ATOMFS_OK);
    IS(number, 17);
    IS(atomfs_shared_mkdir(session, PATH("a"), NULL), ATOMFS_BAD_PATH);
    close_shared();
}

static void sessions(void) {
    IS(atomfs_shared_close(&shared), ATOMFS_CLOSED);
    IS(atomfs_shared_session(shared, &session, NULL), ATOMFS_CLOSED);
    IS(atomfs_shared_open(&shared, 0, ATOMFS_V1), ATOMFS_BAD_LIMIT);
    IS(atomfs_shared_open(&shared, 1, 4), ATOMFS_BAD_VERSION);
    IS(shared == NULL, 1);
    open_shared(1, ATOMFS_V1);
    IS(atomfs_shared_open(&shared, 1, ATOMFS_V1), ATOMFS_ALREADY_OPEN);
    IS(atomfs_shared_session(shared, &session, NULL), ATOMFS_ALREADY_OPEN);
    IS(atomfs_shared_session(shared, &other_session, &seat), ATOMFS_OK);
    IS(seat, 1);
    IS(atomfs_shared_mkdir(other_session, PATH("/a"), NULL), ATOMFS_FULL);
    atomfs_session *ended = session;
    IS(atomfs_shared_end(&session), ATOMFS_OK);
    IS(session == NULL, 1);
    IS(atomfs_shared_end(&ended), ATOMFS_NO_SEAT);
    IS(atomfs_shared_session(shared, &session, &seat), ATOMFS_OK);
    IS(seat, 0);
    /* What leads to an ended session makes no calls, though another has its seat. */
    IS(atomfs_shared_stat(ended, PATH("/"), &stat_, NULL), ATOMFS_NO_SEAT);
    IS(atomfs_shared_stat(session, PATH("/"), &stat_, NULL), ATOMFS_OK);
    IS(atomfs_shared_end(&ended), ATOMFS_NO_SEAT);
    close_shared();
}

/* A tree of a handle: that is closed, and its tree, journal and seats go over. A call that is under way there returns. */
static void of_a_handle(void) {
    static const char text[] = "tree\ndir /\ndir /a\n";
    atomfs handle = ATOMFS_INIT, *fs;
    size_t line;
    IS(atomfs_shared_from(&shared, &handle), ATOMFS_CLOSED);
    IS(atomfs_open_from(&handle, 10, ATOMFS_V2, text, sizeof text - 1, &line), ATOMFS_OK);
    IS(atomfs_seat(&handle, &seat), ATOMFS_OK);
    IS(atomfs_begin(&handle, seat, PATH("mkdir /a/b"), &number), ATOMFS_OK);
    IS(atomfs_shared_from(&shared, &handle), ATOMFS_OK);
    IS(atomfs_stat(&handle, seat, PATH("/"), &stat_, NULL), ATOMFS_CLOSED);
    IS(atomfs_close(&handle), ATOMFS_CLOSED);
    IS(atomfs_open(&handle, 1), ATOMFS_OK);
    IS(atomfs_shared_from(&shared, &handle), ATOMFS_ALREADY_OPEN);
    IS(atomfs_close(&handle), ATOMFS_OK);
    IS(atomfs_shared_session(shared, &session, &seat), ATOMFS_OK);
    IS(seat, 1);
    IS(atomfs_shared_stat(session, PATH("/a/b"), &stat_, &number), ATOMFS_OK);
    IS(number, 2);
    IS(atomfs_shared_lock(shared, &fs), ATOMFS_OK);
    IS(atomfs_reply_done(fs, 1), ATOMFS_OK);
    IS(atomfs_shared_unlock(shared), ATOMFS_OK);
    close_shared();
}

/* The seed of the environment. */
static void environment(void) {
    IS(setenv("ATOMFS_PAUSES", "7a", 1), 0);
    IS(atomfs_shared_open(&shared, 1, ATOMFS_V1), ATOMFS_BAD_CHOICE);
    IS(setenv("ATOMFS_PAUSES", "12345678901234567890", 1), 0);
    IS(atomfs_shared_open(&shared, 1, ATOMFS_V1), ATOMFS_BAD_CHOICE);
    IS(shared == NULL, 1);
    IS(setenv("ATOMFS_PAUSES", "7", 1), 0);
    open_shared(10, ATOMFS_V1);
    for (int i = 0; i < 100; i++) IS(atomfs_shared_stat(session, PATH("/"), &stat_, NULL), ATOMFS_OK);
    close_shared();
    IS(unsetenv("ATOMFS_PAUSES"), 0);
}

static void nulls(void) {
    atomfs *fs, closed = ATOMFS_INIT;
    IS(atomfs_shared_open(NULL, 1, ATOMFS_V1), ATOMFS_NULL);
    IS(atomfs_shared_close(NULL), ATOMFS_NULL);
    IS(atomfs_shared_from(NULL, &closed), ATOMFS_CLOSED);
    IS(atomfs_shared_from(&shared, NULL), ATOMFS_NULL);
    IS(atomfs_shared_lock(NULL, &fs), ATOMFS_CLOSED);
    IS(atomfs_shared_unlock(NULL), ATOMFS_CLOSED);
    IS(atomfs_shared_gate(NULL, NULL, NULL), ATOMFS_CLOSED);
    IS(atomfs_shared_pauses(NULL, 1), ATOMFS_CLOSED);
    IS(atomfs_shared_wait_most(NULL, 1), ATOMFS_CLOSED);
    IS(atomfs_shared_holders(NULL, out, sizeof out, &count), ATOMFS_CLOSED);
    IS(atomfs_shared_finish(NULL, &number), ATOMFS_CLOSED);
    open_shared(10, ATOMFS_V1);
    IS(atomfs_shared_session(shared, NULL, NULL), ATOMFS_NULL);
    IS(atomfs_shared_holders(shared, NULL, 1, &count), ATOMFS_NULL);
    IS(atomfs_shared_holders(shared, out, 1, NULL), ATOMFS_NULL);
    IS(atomfs_shared_finish(shared, NULL), ATOMFS_NULL);
    IS(atomfs_shared_unlock(shared), ATOMFS_CLOSED);
    IS(atomfs_shared_end(NULL), ATOMFS_NULL);
    IS(atomfs_shared_end(&other_session), ATOMFS_NULL);
    IS(atomfs_shared_lock(shared, NULL), ATOMFS_NULL);
    IS(atomfs_shared_mkdir(NULL, PATH("/a"), NULL), ATOMFS_NULL);
    IS(atomfs_shared_mkdir(session, NULL, 1, NULL), ATOMFS_NULL);
    IS(atomfs_shared_rename(NULL, PATH("/a"), PATH("/b"), NULL), ATOMFS_NULL);
    IS(atomfs_shared_rename(session, PATH("/a"), NULL, 1, NULL), ATOMFS_NULL);
    IS(atomfs_shared_truncate(NULL, PATH("/a"), 0, NULL), ATOMFS_NULL);
    IS(atomfs_shared_stat(NULL, PATH("/a"), &stat_, NULL), ATOMFS_NULL);
    IS(atomfs_shared_stat(session, PATH("/a"), NULL, NULL), ATOMFS_NULL);
    IS(atomfs_shared_readdir(NULL, PATH("/"), out, 1, &count, NULL), ATOMFS_NULL);
    IS(atomfs_shared_readdir(session, PATH("/"), NULL, 1, &count, NULL), ATOMFS_NULL);
    IS(atomfs_shared_readdir(session, PATH("/"), out, 1, NULL, NULL), ATOMFS_NULL);
    IS(atomfs_shared_list(NULL, PATH("/"), PATH("/"), 1, out, 1, &count, NULL), ATOMFS_NULL);
    IS(atomfs_shared_list(session, PATH("/"), NULL, 1, 1, out, 1, &count, NULL), ATOMFS_NULL);
    IS(atomfs_shared_list(session, PATH("/"), PATH("/"), 1, NULL, 1, &count, NULL), ATOMFS_NULL);
    IS(atomfs_shared_list(session, PATH("/"), PATH("/"), 1, out, 1, NULL, NULL), ATOMFS_NULL);
    IS(atomfs_shared_list(session, PATH("/"), PATH("/"), 1, out, 1, &count, NULL), ATOMFS_BAD_VERSION);
    IS(atomfs_shared_read(NULL, PATH("/"), 0, out, 1, &count, NULL), ATOMFS_NULL);
    IS(atomfs_shared_read(session, PATH("/"), 0, NULL, 1, &count, NULL), ATOMFS_NULL);
    IS(atomfs_shared_read(session, PATH("/"), 0, out, SIZE_MAX, &count, NULL), ATOMFS_BAD_LENGTH);
    IS(atomfs_shared_write(NULL, PATH("/"), 0, "", 0, &wrote, NULL), ATOMFS_NULL);
    IS(atomfs_shared_write(session, PATH("/"), 0, NULL, 1, &wrote, NULL), ATOMFS_NULL);
    IS(atomfs_shared_write(session, PATH("/"), 0, "", 0, NULL, NULL), ATOMFS_NULL);
    IS(atomfs_shared_lock(shared, &fs), ATOMFS_OK);
    IS(atomfs_journal(fs, 0, NULL, 0, &count, &entries), ATOMFS_OK);
    IS(entries, 0);
    IS(atomfs_shared_unlock(shared), ATOMFS_OK);
    close_shared();
}

/* A directory of as many and as long names as there may be: all are told, or none. */
static void all_names(uint8_t version, size_t longest) {
    char path[2 + 255] = "/";
    size_t each = longest + 1, most = 256 * each;
    memset(path + 1, '0', longest);
    open_shared(300, version);
    for (int i = 0; i < 256; i++) {
        snprintf(path + each - 3, 4, "%03d", i);
        IS(atomfs_shared_mknod(session, path, each, NULL), ATOMFS_OK);
        IS(atomfs_shared_readdir(session, PATH("/"), NULL, 0, &count, NULL), ATOMFS_TOO_SMALL);
        IS(count, each * ((size_t)i + 1));
    }
    memset(out, '.', sizeof out);
    IS(atomfs_shared_readdir(session, PATH("/"), out, most - 1, &count, &number), ATOMFS_TOO_SMALL);
    IS(count, most);
    IS(out[0], '.');
    IS(atomfs_shared_readdir(session, PATH("/"), out, most, &count, NULL), ATOMFS_OK);
    IS(count, most);
    for (size_t i = 0; i < 256; i++) {
        snprintf(path + each - 3, 4, "%03d", (int)i);
        IS(strcmp(out + i * each, path + 1), 0);
    }
    if (version == ATOMFS_V2) IS(atomfs_shared_mkdir(session, PATH("/more"), NULL), ATOMFS_FAILED + ENOSPC_);
    atomfs *fs;
    IS(atomfs_shared_lock(shared, &fs), ATOMFS_OK);
    IS(atomfs_reply_names(fs, number, NULL, 0, out, each + 5, &count), ATOMFS_OK);
    IS(count, each);
    IS(atomfs_shared_unlock(shared), ATOMFS_OK);
    close_shared();
}

/* A directory of more names than a call answers, in pieces. */
static void pieces(void) {
    char path[] = "/000", after[] = "/000";
    size_t told = 0;
    open_shared(1000, ATOMFS_V3);
    for (int i = 0; i < 600; i++) {
        snprintf(path + 1, 4, "%03d", i);
        IS(atomfs_shared_mknod(session, PATH(path), NULL), ATOMFS_OK);
    }
    FAILS(atomfs_shared_readdir(session, PATH("/"), out, sizeof out, &count, NULL), EOVERFLOW_);
    IS(atomfs_shared_list(session, PATH("/"), PATH("/"), UINT32_MAX, NULL, 0, &count, NULL), ATOMFS_TOO_SMALL);
    IS(count, 4 * 256);
    IS(atomfs_shared_list(session, PATH("/"), PATH("/"), 1, out, sizeof out, &count, NULL), ATOMFS_OK);
    SAYS(out, count, "000\000");
    for (told = count / 4; count > 0; told += count / 4) {
        memcpy(after + 1, out + count - 4, 4);
        IS(atomfs_shared_list(session, PATH("/"), PATH(after), 600, out, sizeof out, &count, &number), ATOMFS_OK);
    }
    IS(told, 600);
    IS(strcmp(after, "/599"), 0);
    FAILS(atomfs_shared_list(session, PATH("/000"), PATH("/"), 1, out, sizeof out, &count, NULL), ENOTDIR_);
    close_shared();
}

/* ---- Calls of threads */

typedef struct thread {
    pthread_t id;
    uint32_t drawn;
    int calls;
    int asks;
} thread;

static uint32_t draw(thread *self, uint32_t below) {
    self->drawn = self->drawn * 1664525 + 1013904223;
    return (self->drawn >> 8) % below;
}

/* A path of one to three names, of which there are three. */
static size_t draw_path(thread *self, char *path) {
    size_t length = 0;
    for (uint32_t left = 1 + draw(self, 3); left > 0; left--) {
        path[length++] = '/';
        path[length++] = (char)('a' + draw(self, 3));
    }
    return length;
}

/* Whether the tree has the call that lists a directory in pieces. */
static int has_lists;

/* Makes a drawn call, and answers its status. */
static uint8_t drawn_call(thread *self, atomfs_session *its, uint64_t *its_number) {
    char path[8], other[8], room[64];
    struct atomfs_stat found;
    uint64_t its_wrote;
    size_t its_count, length = draw_path(self, path), other_length = draw_path(self, other);
    switch (draw(self, 16)) {
    case 0:
    case 1:
    case 2:
    case 3: return atomfs_shared_mkdir(its, path, length, its_number);
    case 4:
    case 5: return atomfs_shared_mknod(its, path, length, its_number);
    case 6: return atomfs_shared_unlink(its, path, length, its_number);
    case 7: return atomfs_shared_rmdir(its, path, length, its_number);
    case 8:
    case 9: return atomfs_shared_rename(its, path, length, other, other_length, its_number);
    case 10: return atomfs_shared_exchange(its, path, length, other, other_length, its_number);
    case 11: return atomfs_shared_stat(its, path, length, &found, its_number);
    case 12:
        if (has_lists && draw(self, 4) > 0)
            return atomfs_shared_list(its, path, length, other, other_length, draw(self, 4), room, sizeof room,
                                      &its_count, its_number);
        return atomfs_shared_readdir(its, path, length, room, sizeof room, &its_count, its_number);
    case 13: return atomfs_shared_read(its, path, length, draw(self, 9), room, sizeof room, &its_count, its_number);
    case 14: return atomfs_shared_write(its, path, length, draw(self, 9), "bytes", 5, &its_wrote, its_number);
    default: return atomfs_shared_truncate(its, path, length, draw(self, 9), its_number);
    }
}

/* A thread with a session of its own. Where it asks, it asks now and then for the reply of its last call again. */
static void *makes_calls(void *given) {
    thread *self = given;
    atomfs_session *its = NULL;
    uint64_t its_number;
    IS(atomfs_shared_session(shared, &its, NULL), ATOMFS_OK);
    for (int i = 0; i < self->calls; i++) {
        atomfs *fs;
        uint8_t status = drawn_call(self, its, &its_number), again;
        if (status != ATOMFS_OK && status < ATOMFS_FAILED) IS(status, ATOMFS_OK);
        if (!self->asks || draw(self, 50) > 0) continue;
        IS(atomfs_shared_lock(shared, &fs), ATOMFS_OK);
        again = atomfs_reply_done(fs, its_number);
        IS(atomfs_shared_unlock(shared), ATOMFS_OK);
        if (again != ATOMFS_UNTOLD) IS(again, status);
    }
    IS(atomfs_shared_end(&its), ATOMFS_OK);
    return NULL;
}

static void start(thread *threads, int calls, int asks, uint32_t seed) {
    for (uint32_t i = 0; i < THREADS; i++) {
        threads[i] = (thread){ .drawn = seed * THREADS + i, .calls = calls, .asks = asks };
        IS(pthread_create(&threads[i].id, NULL, makes_calls, &threads[i]), 0);
    }
}

static void join(thread *threads) {
    for (int i = 0; i < THREADS; i++) IS(pthread_join(threads[i].id, NULL), 0);
}

/* The journal's text. The handle is lent. */
static char *journal_of(atomfs *fs, size_t *length) {
    size_t opening, lines;
    IS(atomfs_opening(fs, NULL, 0, &opening), ATOMFS_TOO_SMALL);
    IS(atomfs_journal(fs, 0, NULL, 0, &lines, &entries), ATOMFS_TOO_SMALL);
    char *text = malloc(opening + lines + 1);
    if (text == NULL) exit(1);
    IS(atomfs_opening(fs, text, opening, &opening), ATOMFS_OK);
    IS(atomfs_journal(fs, 0, text + opening, lines, &lines, &entries), ATOMFS_OK);
    text[ *length = opening + lines] = '\0';
    return text;
}

/* How many calls of a journal begin where another is under way, and how many return. */
static int overlapped(const char *text, int *returned) {
    int under_way = 0, found = 0;
    *returned = 0;
    for (const char *line = text; line != NULL && *line != '\0'; line = strchr(line, '\n'), line += line != NULL) {
        if (strncmp(line, "begin ", 6) == 0) found += under_way++ > 0;
        if (strncmp(line, "return ", 7) == 0) under_way--, ++*returned;
    }
    IS(under_way, 0);
    return found;
}

/* Whether calls of a round pause. */
static int pauses;

/* The threads' calls by a seed, and how many of them overlapped. */
static int round_of_calls(int calls, uint32_t seed) {
    thread threads[THREADS];
    atomfs *fs;
    uint64_t place;
    uint8_t kind;
    size_t length;
    int returned;
    has_lists = seed % 2 == 0;
    IS(atomfs_shared_open(&shared, 1000, has_lists ? ATOMFS_V3 : ATOMFS_V2), ATOMFS_OK);
    if (pauses) IS(atomfs_shared_pauses(shared, seed), ATOMFS_OK);
    start(threads, calls, !pauses, seed);
    join(threads);
    IS(atomfs_shared_lock(shared, &fs), ATOMFS_OK);
    IS(atomfs_verdict(fs, &place, &kind), ATOMFS_OK);
    IS(kind, ATOMFS_FAULT_NONE);
    char *text = journal_of(fs, &length);
    IS(atomfs_check(text, length, out, sizeof out, &count), ATOMFS_OK);
    SAYS(out, count, "lawful\n");
    int found = overlapped(text, &returned);
    IS(returned, calls * THREADS);
    free(text);
    IS(atomfs_shared_unlock(shared), ATOMFS_OK);
    close_shared();
    return found;
}

/* Whether calls waited, and helped where there are many, as far as that is counted. */
static int helped(int calls) {
#ifdef COUNTED
    return waits > 0 && (helps > 0 || calls < 1000);
#else
    return calls > 0;
#endif
}

/* Rounds by one seed after the other, by the second limits and by the third in turn, until calls overlapped and helped: two at least, and at most 100. */
static void drawn_calls(int calls) {
    int found = 0;
    for (uint32_t seed = 1; seed <= 2 || found == 0 || !helped(calls); seed++) {
        IS(seed > 100, 0);
        found += round_of_calls(calls, seed);
    }
}

/* With pauses half of all calls and more begin where another is under way. */
static void drawn_pauses(int calls) {
    pauses = 1;
    int found = round_of_calls(calls, 1);
    IS(2 * found > calls * THREADS, 1);
    pauses = 0;
}

/* Checkpoints while threads make calls: none is under way at any, and each piece begins with the tree by which the last ended. */
static void checkpoints(int calls) {
    static const char opens[] = "atomfs-journal 3\nstart\n";
    thread threads[THREADS];
    static const struct timespec pause = { .tv_nsec = 100000 };
    uint64_t all = 0;
    atomfs *fs;
    char *last = NULL;
    has_lists = 0;
    IS(atomfs_shared_open(&shared, 1000, ATOMFS_V2), ATOMFS_OK);
    start(threads, calls, 0, 0);
    while (all < (uint64_t)calls * THREADS) {
        IS(atomfs_shared_lock(shared, &fs), ATOMFS_OK);
        IS(atomfs_checkpoint(fs, NULL, 0, &count, &number), ATOMFS_TOO_SMALL);
        char *text = malloc(count + 1);
        if (text == NULL) exit(1);
        IS(atomfs_checkpoint(fs, text, count, &count, &number), ATOMFS_OK);
        text[count] = '\0';
        all += number;
        IS(strncmp(text, opens, sizeof opens - 1), 0);
        if (last != NULL) IS(strncmp(text + sizeof opens - 1, last + 5, strlen(last + 5)), 0);
        IS(atomfs_check(text, count, out, sizeof out, &count), ATOMFS_OK);
        SAYS(out, count, "lawful\n");
        free(text);
        free(last);
        IS(atomfs_tree(fs, NULL, 0, &count), ATOMFS_TOO_SMALL);
        if ((last = malloc(count + 1)) == NULL) exit(1);
        IS(atomfs_tree(fs, last, count, &count), ATOMFS_OK);
        last[count] = '\0';
        IS(atomfs_shared_unlock(shared), ATOMFS_OK);
        /* Else this thread alone might run. */
        if (number == 0) nanosleep(&pause, NULL);
    }
    free(last);
    join(threads);
    close_shared();
}

/* The tree that threads leave: no call is under way, and the journal is lawful. */
static void is_lawful(void) {
    atomfs *fs;
    uint64_t place;
    uint8_t kind;
    size_t length;
    int returned;
    IS(atomfs_shared_lock(shared, &fs), ATOMFS_OK);
    IS(atomfs_verdict(fs, &place, &kind), ATOMFS_OK);
    IS(kind, ATOMFS_FAULT_NONE);
    char *text = journal_of(fs, &length);
    overlapped(text, &returned);
    IS(returned > 0, 1);
    free(text);
    IS(atomfs_shared_unlock(shared), ATOMFS_OK);
}

/* ---- Gates, and calls that stand half-way */

/* What a gate heard, and where it stands: at the event of a number it stops, or ends its thread. */
typedef struct heard {
    uint8_t did[64];
    uint64_t about[64];
    size_t events, stands_at;
    int ends;
    sem_t stands, goes;
} heard;

/* The gate of seat 0. */
static void hears(void *context, uint64_t seat_, uint8_t did, uint64_t about) {
    heard *self = context;
    if (seat_ != 0) return;
    size_t event = self->events++;
    self->did[event] = did;
    self->about[event] = about;
    if (event != self->stands_at) return;
    IS(sem_post(&self->stands), 0);
    if (self->ends) pthread_exit(NULL);
    while (sem_wait(&self->goes) != 0) continue;
}

static void hears_from(heard *self, size_t stands_at, int ends) {
    *self = (heard){ .stands_at = stands_at, .ends = ends };
    IS(sem_init(&self->stands, 0, 0) + sem_init(&self->goes, 0, 0), 0);
    IS(atomfs_shared_gate(shared, hears, self), ATOMFS_OK);
}

/* Behind each event of a call the gate is called, in the thread of the call: begin, each step, return. */
static void gates(void) {
    heard its;
    static const uint8_t wanted[] = { ATOMFS_DID_BEGIN, ATOMFS_DID_TAKE, ATOMFS_DID_COMMIT, ATOMFS_DID_LET_GO,
                                      ATOMFS_DID_RETURN };
    open_shared(10, ATOMFS_V1);
    hears_from(&its, sizeof wanted, 0);
    IS(atomfs_shared_mkdir(session, PATH("/a"), &number), ATOMFS_OK);
    IS(its.events, sizeof wanted);
    IS(memcmp(its.did, wanted, sizeof wanted), 0);
    IS(its.about[0], number);
    IS(its.about[3], its.about[1]);
    IS(atomfs_shared_gate(shared, NULL, NULL), ATOMFS_OK);
    IS(atomfs_shared_mkdir(session, PATH("/b"), &number), ATOMFS_OK);
    IS(its.events, sizeof wanted);
    close_shared();
}

static void *makes_directory(void *given) {
    *(uint8_t *)given = atomfs_shared_mkdir(session, PATH("/a/b"), NULL);
    return NULL;
}

static void *looks_below(void *given) {
    *(uint8_t *)given = atomfs_shared_stat(other_session, PATH("/a/b"), &stat_, NULL);
    return NULL;
}

/* A directory /a with a call in it that stands, once it holds /a alone: 0 takes the root, 1 takes /a, and lets the root go. */
static pthread_t stands_in_directory(heard *its, uint8_t *status, int ends) {
    pthread_t maker;
    open_shared(10, ATOMFS_V1);
    IS(atomfs_shared_session(shared, &other_session, NULL), ATOMFS_OK);
    IS(atomfs_shared_mkdir(session, PATH("/a"), NULL), ATOMFS_OK);
    hears_from(its, 3, ends);
    IS(pthread_create(&maker, NULL, makes_directory, status), 0);
    while (sem_wait(&its->stands) != 0) continue;
    IS(its->did[3], ATOMFS_DID_LET_GO);
    return maker;
}

/* Whether bytes have these words in them. */
static int has_words(const char *bytes, size_t length, const char *words) {
    size_t of_words = strlen(words);
    for (size_t i = 0; i + of_words <= length; i++)
        if (memcmp(bytes + i, words, of_words) == 0) return 1;
    return 0;
}

/* One that waits for a call that stands sleeps, and is woken once it goes on. A deadline ends the wait, the tree says who holds what,
 * and the call on which the wait was given up returns by atomfs_shared_finish, like the one that stood. */
static void deadlines(void) {
    heard its;
    uint8_t made = 255, looked = 255;
    pthread_t looker, maker = stands_in_directory(&its, &made, 0);
    IS(pthread_create(&looker, NULL, looks_below, &looked), 0);
    do IS(atomfs_shared_holders(shared, out, sizeof out, &count), ATOMFS_OK);
    while (memchr(out, ',', count) == NULL);
    SAYS(out, count, "call 2 on seat 0 holds 1\ncall 3 on seat 1 holds 0, waits for call 2\n");
    IS(atomfs_shared_holders(shared, out, count - 1, &count), ATOMFS_TOO_SMALL);
    IS(count, 68);
    IS(atomfs_shared_close(&shared), ATOMFS_UNDER_WAY);
    IS(sem_post(&its.goes), 0);
    IS(pthread_join(maker, NULL) + pthread_join(looker, NULL), 0);
    IS(made, ATOMFS_OK);
    IS(looked, ATOMFS_OK);
    IS(atomfs_shared_holders(shared, out, sizeof out, &count), ATOMFS_OK);
    IS(count, 0);
    close_shared();

    atomfs *fs = NULL;
    maker = stands_in_directory(&its, &made, 0);
    IS(atomfs_shared_wait_most(shared, 30), ATOMFS_OK);
    IS(atomfs_shared_stat(other_session, PATH("/a/b"), &stat_, &number), ATOMFS_WAITS);
    IS(number, 3);
    IS(atomfs_shared_stat(other_session, PATH("/"), &stat_, &number), ATOMFS_SEAT_BUSY);
    IS(atomfs_shared_lock(shared, &fs), ATOMFS_WAITS);
    IS(fs == NULL, 1);
    IS(atomfs_shared_end(&session), ATOMFS_SEAT_BUSY);
    IS(atomfs_shared_holders(shared, out, sizeof out, &count), ATOMFS_OK);
    SAYS(out, count, "call 2 on seat 0 holds 1\ncall 3 on seat 1 holds 0, waits for call 2\n");
    IS(atomfs_shared_finish(shared, &number), ATOMFS_OK);
    IS(number, 2);
    IS(atomfs_shared_lock(shared, &fs), ATOMFS_OK);
    IS(atomfs_reply_stat(fs, 3, &stat_), ATOMFS_OK);
    IS(atomfs_shared_holders(shared, out, sizeof out, &count), ATOMFS_OK);
    SAYS(out, count, "the handle is lent\n");
    IS(atomfs_shared_mkdir(other_session, PATH("/b"), &number), ATOMFS_WAITS);
    IS(number, 0);
    IS(atomfs_shared_close(&shared), ATOMFS_UNDER_WAY);
    IS(atomfs_shared_unlock(shared), ATOMFS_OK);
    IS(atomfs_shared_mkdir(other_session, PATH("/b"), &number), ATOMFS_OK);
    IS(sem_post(&its.goes), 0);
    IS(pthread_join(maker, NULL), 0);
    IS(made, ATOMFS_OK);
    is_lawful();
    close_shared();
}

static void *looks_at_root(void *given) {
    atomfs_session *its = NULL;
    IS(atomfs_shared_session(shared, &its, NULL), ATOMFS_OK);
    *(uint8_t *)given = atomfs_shared_stat(its, PATH("/"), &stat_, NULL);
    return NULL;
}

/* A call on which the wait was given up holds the root, and one that it waits for makes its steps, once that goes on: so whoever
 * wants the root is not kept waiting. Its session is free again then, or, if it has ended, its seat. */
static void left_calls(int ends) {
    heard its;
    uint8_t made = 255, looked = 255;
    pthread_t looker, maker = stands_in_directory(&its, &made, 0);
    IS(atomfs_shared_wait_most(shared, 30), ATOMFS_OK);
    IS(atomfs_shared_rename(other_session, PATH("/a/b"), PATH("/c"), &number), ATOMFS_WAITS);
    IS(number, 3);
    IS(atomfs_shared_wait_most(shared, 0), ATOMFS_OK);
    atomfs_session *more = NULL, *ended = other_session;
    if (ends) {
        IS(atomfs_shared_end(&other_session), ATOMFS_OK);
        IS(atomfs_shared_end(&ended), ATOMFS_NO_SEAT);
        IS(atomfs_shared_stat(ended, PATH("/"), &stat_, NULL), ATOMFS_NO_SEAT);
        /* Its seat has a pending call, so nobody else has it. */
        IS(atomfs_shared_session(shared, &more, &seat), ATOMFS_OK);
        IS(seat, 2);
    }
    IS(pthread_create(&looker, NULL, looks_at_root, &looked), 0);
    do IS(atomfs_shared_holders(shared, out, sizeof out, &count), ATOMFS_OK);
    while (!has_words(out, count, "waits for call 3"));
    IS(sem_post(&its.goes), 0);
    IS(pthread_join(maker, NULL) + pthread_join(looker, NULL), 0);
    IS(made, ATOMFS_OK);
    IS(looked, ATOMFS_OK);
    atomfs *fs;
    IS(atomfs_shared_lock(shared, &fs), ATOMFS_OK);
    IS(atomfs_reply_done(fs, 3), ATOMFS_OK);
    IS(atomfs_tree(fs, out, sizeof out, &count), ATOMFS_OK);
    SAYS(out, count, "tree\ndir /\ndir /a\ndir /c\n");
    IS(atomfs_shared_unlock(shared), ATOMFS_OK);
    IS(atomfs_shared_gate(shared, NULL, NULL), ATOMFS_OK);
    if (ends) {
        IS(atomfs_shared_session(shared, &other_session, &seat), ATOMFS_OK);
        IS(seat, 1);
    }
    IS(atomfs_shared_rmdir(other_session, PATH("/c"), NULL), ATOMFS_OK);
    is_lawful();
    close_shared();
}

/* A thread that ends in the midst of its call: others go on behind atomfs_shared_finish, and its session is free again. */
static void dead_threads(void) {
    heard its;
    uint8_t made = 255;
    pthread_t maker = stands_in_directory(&its, &made, 1);
    IS(pthread_join(maker, NULL), 0);
    IS(made, 255);
    IS(atomfs_shared_wait_most(shared, 30), ATOMFS_OK);
    IS(atomfs_shared_stat(other_session, PATH("/a/b"), &stat_, &number), ATOMFS_WAITS);
    IS(atomfs_shared_finish(shared, &number), ATOMFS_OK);
    IS(number, 2);
    IS(atomfs_shared_finish(shared, &number), ATOMFS_OK);
    IS(number, 0);
    IS(atomfs_shared_gate(shared, NULL, NULL), ATOMFS_OK);
    IS(atomfs_shared_rmdir(session, PATH("/a/b"), NULL), ATOMFS_OK);
    is_lawful();
    close_shared();
}

/* A gate that now and then keeps its call for longer than others wait. */
static void dawdles(void *context, uint64_t seat_, uint8_t did, uint64_t about) {
    static const struct timespec pause = { .tv_nsec = 4000000 };
    (void)context;
    if (did == ATOMFS_DID_LET_GO && (seat_ + about) % 5 == 0) nanosleep(&pause, NULL);
}

/* A thread whose calls may be given up: then it has all calls finished, or leaves its session for another, and goes on. */
static void *gives_up(void *given) {
    thread *self = given;
    atomfs_session *its = NULL;
    uint64_t its_number, finished;
    int given_up = 0;
    IS(atomfs_shared_session(shared, &its, NULL), ATOMFS_OK);
    for (int i = 0; i < self->calls; i++) {
        uint8_t status = drawn_call(self, its, &its_number);
        if (status == ATOMFS_WAITS) {
            given_up++;
            IS(its_number > 0, 1);
            if (draw(self, 2) == 0) {
                IS(atomfs_shared_finish(shared, &finished), ATOMFS_OK);
            } else {
                IS(atomfs_shared_end(&its), ATOMFS_OK);
                IS(atomfs_shared_session(shared, &its, NULL), ATOMFS_OK);
            }
        } else if (status != ATOMFS_OK && status < ATOMFS_FAILED) {
            IS(status, ATOMFS_OK);
        }
    }
    IS(atomfs_shared_end(&its), ATOMFS_OK);
    self->calls = given_up;
    return NULL;
}

/* Calls that are given up, and finished or left, while others go on: none is lost, and the journal is lawful. */
static void given_up(int calls) {
    thread threads[THREADS];
    int times = 0;
    has_lists = 1;
    IS(atomfs_shared_open(&shared, ATOMFS_NODE_LIMIT, ATOMFS_V3), ATOMFS_OK);
    IS(atomfs_shared_wait_most(shared, 1), ATOMFS_OK);
    IS(atomfs_shared_pauses(shared, 3), ATOMFS_OK);
    IS(atomfs_shared_gate(shared, dawdles, NULL), ATOMFS_OK);
    for (uint32_t i = 0; i < THREADS; i++) {
        threads[i] = (thread){ .drawn = i, .calls = calls };
        IS(pthread_create(&threads[i].id, NULL, gives_up, &threads[i]), 0);
    }
    join(threads);
    for (int i = 0; i < THREADS; i++) times += threads[i].calls;
    IS(times > 0 || calls < 100, 1);
    IS(atomfs_shared_wait_most(shared, 0), ATOMFS_OK);
    is_lawful();
    close_shared();
}

static void *gives_back(void *given) {
    (void)given;
    IS(atomfs_shared_unlock(shared), ATOMFS_OK);
    return NULL;
}

/* A call that a lender leaves under way has returned once the handle is given back. */
static void left_by_lender(void) {
    atomfs *fs;
    uint64_t lent;
    open_shared(10, ATOMFS_V1);
    IS(atomfs_shared_lock(shared, &fs), ATOMFS_OK);
    IS(atomfs_seat(fs, &lent), ATOMFS_OK);
    IS(atomfs_begin(fs, lent, PATH("mkdir /a"), &number), ATOMFS_OK);
    IS(atomfs_reply_done(fs, number), ATOMFS_NO_REPLY);
    /* Another thread may give it back, for one that has ended. */
    pthread_t other;
    IS(pthread_create(&other, NULL, gives_back, NULL), 0);
    IS(pthread_join(other, NULL), 0);
    IS(atomfs_shared_stat(session, PATH("/a"), &stat_, NULL), ATOMFS_OK);
    IS(atomfs_shared_lock(shared, &fs), ATOMFS_OK);
    IS(atomfs_reply_done(fs, number), ATOMFS_OK);
    IS(atomfs_shared_unlock(shared), ATOMFS_OK);
    close_shared();
}

/* ---- What may come beside a call */

static void end_of(void *its) { IS(atomfs_shared_end(its), ATOMFS_OK); }

/* A thread that makes calls until it is cancelled, and ends its session then, so no call is under way on it. Now and then it has the
 * handle. */
static void *calls_for_ever(void *given) {
    thread *self = given;
    atomfs_session *its = NULL;
    atomfs *fs;
    uint64_t its_number;
    IS(atomfs_shared_session(shared, &its, NULL), ATOMFS_OK);
    pthread_cleanup_push(end_of, &its);
    for (;;) {
        uint8_t status = drawn_call(self, its, &its_number);
        if (status != ATOMFS_OK && status < ATOMFS_FAILED) IS(status, ATOMFS_OK);
        if (draw(self, 8) == 0) {
            IS(atomfs_shared_lock(shared, &fs), ATOMFS_OK);
            pthread_testcancel();
            IS(atomfs_shared_unlock(shared), ATOMFS_OK);
        }
        pthread_testcancel();
    }
    pthread_cleanup_pop(0);
    return NULL;
}

static void starts_anew(thread *self, uint32_t seed) {
    *self = (thread){ .drawn = seed };
    IS(pthread_create(&self->id, NULL, calls_for_ever, self), 0);
}

static void is_cancelled(thread *self) {
    void *came;
    IS(pthread_cancel(self->id), 0);
    IS(pthread_join(self->id, &came), 0);
    IS(came == PTHREAD_CANCELED, 1);
}

/* So many cancellations of threads in calls: none leaves the lock taken or its call half-way, so each thread comes to its end. */
static void cancels(int times) {
    thread threads[THREADS];
    static const struct timespec pause = { .tv_nsec = 200000 };
    has_lists = 1;
    IS(atomfs_shared_open(&shared, ATOMFS_NODE_LIMIT, ATOMFS_V3), ATOMFS_OK);
    for (int i = 0; i < THREADS; i++) starts_anew(&threads[i], (uint32_t)i);
    for (int i = 0; i < times; i++) {
        nanosleep(&pause, NULL);
        is_cancelled(&threads[i % THREADS]);
        starts_anew(&threads[i % THREADS], (uint32_t)(i + THREADS));
    }
    for (int i = 0; i < THREADS; i++) is_cancelled(&threads[i]);
    is_lawful();
    close_shared();
}

static sem_t caught;

static void catches(int signal) {
    (void)signal;
    sem_post(&caught);
}

/* Signals that interrupt calls, and children that are forked in the midst of them: the calls go on. */
static void signals_and_forks(int times) {
    thread threads[THREADS];
    struct sigaction action = { .sa_handler = catches };
    IS(sem_init(&caught, 0, 0), 0);
    IS(sigaction(SIGUSR1, &action, NULL), 0);
    has_lists = 1;
    IS(atomfs_shared_open(&shared, ATOMFS_NODE_LIMIT, ATOMFS_V3), ATOMFS_OK);
    for (int i = 0; i < THREADS; i++) starts_anew(&threads[i], (uint32_t)i);
    for (int i = 0; i < times; i++) {
        IS(pthread_kill(threads[i % THREADS].id, SIGUSR1), 0);
        while (sem_wait(&caught) != 0) continue;
        if (i % 100 > 0) continue;
        int status = 1;
        pid_t child = fork();
        if (child == 0) execl("/bin/true", "true", (char *)NULL), _exit(1);
        while (waitpid(child, &status, 0) != child) continue;
        IS(status, 0);
    }
    for (int i = 0; i < THREADS; i++) is_cancelled(&threads[i]);
    is_lawful();
    close_shared();
}

/* A thread that waits for the handle, which another has. */
static void *waits_for_handle(void *given) {
    atomfs *fs;
    IS(sem_post(given), 0);
    IS(atomfs_shared_lock(shared, &fs), ATOMFS_OK);
    IS(atomfs_shared_unlock(shared), ATOMFS_OK);
    return NULL;
}

/* A thread that has the handle is cancelled once it has given it back; another then has it. */
static void *has_handle(void *given) {
    atomfs *fs;
    IS(atomfs_shared_lock(shared, &fs), ATOMFS_OK);
    IS(sem_post(given), 0);
    for (int i = 0; i < 1000; i++) {
        sched_yield();
        pthread_testcancel();
    }
    IS(atomfs_mkdir(fs, 0, PATH("/a"), &number), ATOMFS_OK);
    IS(atomfs_shared_unlock(shared), ATOMFS_OK);
    for (;;) pthread_testcancel();
    return NULL;
}

static void cancelled_with_handle(void) {
    pthread_t has, waits_;
    sem_t says_so;
    void *came;
    IS(sem_init(&says_so, 0, 0), 0);
    open_shared(10, ATOMFS_V1);
    IS(pthread_create(&has, NULL, has_handle, &says_so), 0);
    IS(sem_wait(&says_so), 0);
    IS(pthread_create(&waits_, NULL, waits_for_handle, &says_so), 0);
    IS(pthread_cancel(has), 0);
    IS(pthread_join(has, &came), 0);
    IS(came == PTHREAD_CANCELED, 1);
    IS(pthread_join(waits_, NULL), 0);
    IS(atomfs_shared_stat(session, PATH("/a"), &stat_, NULL), ATOMFS_OK);
    close_shared();
}

#ifdef COUNTED
/* A thread that makes a file in /a/b, and stops once it holds /a/b alone. */
static void *makes_file(void *given) {
    (void)given;
    before_stop = 6;
    IS(atomfs_shared_mknod(session, PATH("/a/b/f"), NULL), ATOMFS_OK);
    return NULL;
}

static void *looks(void *given) {
    (void)given;
    IS(atomfs_shared_stat(other_session, PATH("/z/b"), &stat_, NULL), ATOMFS_OK);
    return NULL;
}

/* A rename above a call that stands half-way helps it, and does not wait; one that wants its node sleeps, and looks once. */
static void helps_and_sleeps(void) {
    pthread_t maker, looker;
    atomfs_session *renames = NULL;
    open_shared(10, ATOMFS_V1);
    IS(atomfs_shared_session(shared, &other_session, NULL), ATOMFS_OK);
    IS(atomfs_shared_session(shared, &renames, NULL), ATOMFS_OK);
    IS(atomfs_shared_mkdir(session, PATH("/a"), NULL), ATOMFS_OK);
    IS(atomfs_shared_mkdir(session, PATH("/a/b"), NULL), ATOMFS_OK);
    IS(pthread_create(&maker, NULL, makes_file, NULL), 0);
    IS(sem_wait(&stopped), 0);
    IS(atomfs_shared_close(&shared), ATOMFS_UNDER_WAY);
    IS(atomfs_shared_end(&session), ATOMFS_SEAT_BUSY);
    IS(atomfs_shared_mkdir(session, PATH("/c"), NULL), ATOMFS_SEAT_BUSY);
    IS(atomfs_shared_rename(renames, PATH("/a"), PATH("/z"), NULL), ATOMFS_OK);
    IS(helps, 1);
    IS(pthread_create(&looker, NULL, looks, NULL), 0);
    IS(sem_wait(&waited), 0);
    IS(sem_post(&gate), 0);
    IS(pthread_join(maker, NULL), 0);
    IS(pthread_join(looker, NULL), 0);
    IS(waits, 1);
    IS(stat_.size, 1);
    atomfs *fs;
    IS(atomfs_shared_lock(shared, &fs), ATOMFS_OK);
    IS(atomfs_tree(fs, out, sizeof out, &count), ATOMFS_OK);
    SAYS(out, count, "tree\ndir /\ndir /z\ndir /z/b\nfile /z/b/f -\n");
    IS(atomfs_shared_unlock(shared), ATOMFS_OK);
    close_shared();
}
#endif

int main(int argc, char **argv) {
    int calls = argc > 1 ? atoi(argv[1]) : 1000;
#ifdef COUNTED
    IS(sem_init(&gate, 0, 0) + sem_init(&stopped, 0, 0) + sem_init(&waited, 0, 0), 0);
    helps_and_sleeps();
#endif
    each_call();
    sessions();
    nulls();
    of_a_handle();
    environment();
    gates();
    deadlines();
    left_calls(0);
    left_calls(1);
    dead_threads();
    left_by_lender();
    all_names(ATOMFS_V2, 64);
    all_names(ATOMFS_V3, 255);
    pieces();
#ifdef COUNTED
    helps = waits = 0;
#endif
    drawn_calls(calls);
    /* Each yield takes as long as others on the machine have work. */
    drawn_pauses(calls < 1000 ? calls : calls / 10);
    checkpoints(calls / 10);
    /* Not under helgrind: a timed wait of glibc signals within itself, without the lock. */
    if (calls >= 50) given_up(calls / 10);
    cancelled_with_handle();
    cancels(calls);
    signals_and_forks(calls);
    puts("a shared tree: as it is to be");
    return 0;
}
