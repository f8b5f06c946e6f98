/* Refuses one growth of memory, or one thread: loaded before the C library. The call of malloc or realloc that the
   environment's REFUSE names, counted from 1, answers NULL, and the call of pthread_create that REFUSE_THREAD names answers
   EAGAIN. How many there were of each is written to the file REFUSE_COUNT: at the end of main, and at _exit, by which a
   program ends that tells a status or has run threads. */
#define _GNU_SOURCE
#include <dlfcn.h>
#include <errno.h>
#include <fcntl.h>
#include <pthread.h>
#include <stdatomic.h>
#include <stdio.h>
#include <stdlib.h>
#include <sys/syscall.h>
#include <unistd.h>

struct counted {
    atomic_long asked;
    long refused;
};

static struct counted growths, threads;
static void *(*real_malloc)(size_t);
static void *(*real_realloc)(void *, size_t);
static int (*real_create)(pthread_t *, const pthread_attr_t *, void *(*)(void *), void *);

static int is_refused(struct counted *counted) { return ++counted->asked == counted->refused; }

static void start_at(struct counted *counted, const char *variable) {
    const char *number = getenv(variable);
    counted->asked = 0;
    counted->refused = number ? atol(number) : 0;
}

__attribute__((constructor)) static void start(void) {
    *(void **)&real_malloc = dlsym(RTLD_NEXT, "malloc");
    *(void **)&real_realloc = dlsym(RTLD_NEXT, "realloc");
    *(void **)&real_create = dlsym(RTLD_NEXT, "pthread_create");
    start_at(&growths, "REFUSE");
    start_at(&threads, "REFUSE_THREAD");
}

void *malloc(size_t size) {
    if (!real_malloc) *(void **)&real_malloc = dlsym(RTLD_NEXT, "malloc");
    return is_refused(&growths) ? NULL : real_malloc(size);
}

void *realloc(void *block, size_t size) {
    if (!real_realloc) *(void **)&real_realloc = dlsym(RTLD_NEXT, "realloc");
    return is_refused(&growths) ? NULL : real_realloc(block, size);
}

int pthread_create(pthread_t *thread, const pthread_attr_t *how, void *(*does)(void *), void *given) {
    return is_refused(&threads) ? EAGAIN : real_create(thread, how, does, given);
}

__attribute__((destructor)) static void end(void) {
    const char *path = getenv("REFUSE_COUNT");
    int file = path ? open(path, O_WRONLY | O_CREAT | O_TRUNC, 0600) : -1;
    if (file < 0) return;
    dprintf(file, "%ld %ld\n", atomic_load(&growths.asked), atomic_load(&threads.asked));
    close(file);
}

void _exit(int status) {
    end();
    syscall(SYS_exit_group, status);
    __builtin_unreachable();
}
