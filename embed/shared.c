/* A tree that threads share: a lock round a handle of the proved functions, and sessions that take it for a begin and for each
 * step. Nothing here is proved; tests/shared.c tests it.
 *
 * A call sleeps only for a node that another call holds. In which queue it sleeps, and whom of a queue a node wakes that is let go,
 * is proved, and not decided here (asleep.h): one of those that sleep for the node is among them, and no other call unless two
 * nodes share the queue. The sleep begins under the lock under which the node was found taken, so no such step is missed. Of the
 * calls under way one always goes on, as is proved of atomfs_step_any, and it sleeps for none: so each call comes to its return. A
 * call whose thread slept as long as it may sleeps on without it, and whoever wakes it makes its steps: so it keeps nobody off. */
#define _POSIX_C_SOURCE 200809L
#include "asleep.h"
#include "checks.h"
#include <errno.h>
#include <inttypes.h>
#include <pthread.h>
#include <sched.h>
#include <stdio.h>
#include <stdlib.h>
#include <string.h>
#include <time.h>

enum {
    /* The names of a reply take no more bytes, each with its byte 0. */
    MOST_NAMES = ATOMFS_LIST_LIMIT * 256,
    MOST_NAME = 255,
    SOME_NAMES = 2048,
    /* A call holds fewer nodes at once. */
    MOST_HELD = 16,
    /* A line of atomfs_shared_holders has no more bytes. */
    MOST_LINE = 64 + MOST_HELD * 21
};

/* A seat, which one session has at a time, and the call on it. */
struct place {
    struct place *next;        /* in the list of those whose session has ended */
    struct place *next_asleep; /* in the queue in which it sleeps */
    uint64_t seat;
    uint64_t call;            /* the number of its last call */
    uint64_t holder;          /* the number of the call for which it sleeps, or slept as long as it may; else 0 */
    uint64_t queue;           /* in which it sleeps */
    uint64_t held[MOST_HELD]; /* the nodes that its call holds, in the order in which it took them */
    size_t holds;
    uint64_t drawn;            /* what its next pause is drawn from */
    struct place *next_busy;   /* in the list of those with calls under way */
    struct place *before_busy; /* there too */
    int cancel;                /* whether its thread could be cancelled before its call */
    int is_busy;
    int is_asleep;
    int is_left;   /* by its thread, which waits no more: whoever wakes it makes its steps */
    int has_ended; /* its session, in the midst of that */
    pthread_cond_t woken;
};

/* Places that sleep, the first that came first. */
struct queue {
    struct place *first;
    struct place *last;
};

/* What a caller has. It stays behind its end, so that calls on it are refused, until the tree is closed. */
struct atomfs_session {
    atomfs_shared *shared;
    atomfs_session *next;
    struct place *place; /* null once it has ended */
};

struct atomfs_shared {
    pthread_mutex_t lock;
    pthread_cond_t given; /* the handle was given back, so calls may begin */
    pthread_cond_t rests; /* that, or the last call returned, so the handle may be lent */
    atomfs fs;
    atomfs_session *sessions;
    struct place *free_places;
    struct place *left;                 /* by their threads, and woken: whoever has the lock makes their steps */
    struct queue queues[ATOMFS_QUEUES]; /* of those that sleep */
    struct atomfs_asleep asleep;        /* what is noted of them */
    struct place *first_busy;           /* of those with calls under way, in the order of their begins */
    struct place *last_busy;
    uint64_t under_way;
    uint64_t asked; /* how often the handle was asked for, and how often it was given back, or no longer asked for */
    uint64_t given_back;
    uint64_t begins_asked; /* how many calls waited to begin, and how many of them wait no more */
    uint64_t begins_done;
    uint64_t waiting; /* how many threads wait for the handle, or to begin a call behind those that asked for it */
    int is_lent;
    pthread_t lender; /* the thread that has the handle, and whether it could be cancelled before */
    int cancel;
    atomfs_gate gate;
    void *context;
    int pauses;
    uint64_t seed;
    uint32_t wait_most; /* in milliseconds; 0 is without end */
};

/* ---- The lock
 *
 * A thread that has it is not cancelled, nor one whose call is under way or to which the handle is lent: it would leave the
 * lock taken, or a call half-way, and all others asleep. pthread_cond_wait is a point of cancellation. */

/* Takes the lock. Whether the thread could be cancelled. */
static int taken(atomfs_shared *shared) {
    int cancel;
    pthread_setcancelstate(PTHREAD_CANCEL_DISABLE, &cancel);
    pthread_mutex_lock(&shared->lock);
    return cancel;
}

static void let_go(atomfs_shared *shared, int cancel) {
    pthread_mutex_unlock(&shared->lock);
    pthread_setcancelstate(cancel, NULL);
}

/* When a wait that begins now is given up. */
static struct timespec deadline(const atomfs_shared *shared) {
    struct timespec until;
    clock_gettime(CLOCK_MONOTONIC, &until);
    until.tv_sec += shared->wait_most / 1000;
    until.tv_nsec += (long)(shared->wait_most % 1000) * 1000000;
    if (until.tv_nsec >= 1000000000) {
        until.tv_sec++;
        until.tv_nsec -= 1000000000;
    }
    return until;
}

/* Waits for a condition. Whether it is not given up. */
static int slept_until(atomfs_shared *shared, pthread_cond_t *condition, const struct timespec *until) {
    if (shared->wait_most == 0) return pthread_cond_wait(condition, &shared->lock) == 0;
    return pthread_cond_timedwait(condition, &shared->lock, until) != ETIMEDOUT;
}

/* Whether a call may begin that came when the handle had been asked for so many times. */
static int may_begin(const atomfs_shared *shared, uint64_t before) {
    return !shared->is_lent && shared->given_back >= before;
}

/* Waits until a call may begin: until those have given the handle back who asked for it before. Whether it is not given up. */
static int begins_in_turn(atomfs_shared *shared) {
    uint64_t before = shared->asked;
    if (may_begin(shared, before)) return 1;
    struct timespec until = deadline(shared);
    shared->waiting++;
    shared->begins_asked++;
    while (!may_begin(shared, before) && slept_until(shared, &shared->given, &until)) continue;
    shared->begins_done++;
    shared->waiting--;
    return may_begin(shared, before);
}

/* Whether the handle may be lent to one who came when it had been asked for so many times, and so many begins were waiting. */
static int may_lend(const atomfs_shared *shared, uint64_t before, uint64_t begins) {
    return may_begin(shared, before) && shared->begins_done >= begins && shared->under_way == 0;
}

/* Whoever waits for the handle is told that no call is under way, where that is so. */
static void tell_at_rest(atomfs_shared *shared) {
    if (shared->under_way == 0 && shared->asked != shared->given_back) pthread_cond_broadcast(&shared->rests);
}

/* One who asked for the handle has it no more, or asks no more. */
static void is_given_back(atomfs_shared *shared) {
    shared->given_back++;
    pthread_cond_broadcast(&shared->given);
    tell_at_rest(shared);
}

/* Waits until the handle may be lent: until those have had it who asked for it before, those calls have begun that waited before,
 * and none is under way. So neither those who begin calls nor those who ask for the handle keep the others off. Whether it is not
 * given up. */
static int has_handle_in_turn(atomfs_shared *shared) {
    struct timespec until = deadline(shared);
    uint64_t before = shared->asked++, begins = shared->begins_asked;
    shared->waiting++;
    while (!may_lend(shared, before, begins) && slept_until(shared, &shared->rests, &until)) continue;
    shared->waiting--;
    if (may_lend(shared, before, begins)) return 1;
    is_given_back(shared);
    return 0;
}

/* ---- The tree and its sessions */

/* A condition whose waits are given up by a clock that nobody sets. */
static int made_condition(pthread_cond_t *condition) {
    pthread_condattr_t by;
    if (pthread_condattr_init(&by) != 0) return 0;
    int made = pthread_condattr_setclock(&by, CLOCK_MONOTONIC) == 0 && pthread_cond_init(condition, &by) == 0;
    pthread_condattr_destroy(&by);
    return made;
}

static int made_locks(atomfs_shared *shared) {
    if (pthread_mutex_init(&shared->lock, NULL) != 0) return 0;
    if (made_condition(&shared->given)) {
        if (made_condition(&shared->rests)) return 1;
        pthread_cond_destroy(&shared->given);
    }
    pthread_mutex_destroy(&shared->lock);
    return 0;
}

static void free_shared(atomfs_shared *shared) {
    pthread_cond_destroy(&shared->rests);
    pthread_cond_destroy(&shared->given);
    pthread_mutex_destroy(&shared->lock);
    free(shared);
}

/* Reads the seed of the environment, where there is one. */
static uint8_t pauses_of_environment(atomfs_shared *shared) {
    const char *word = getenv("ATOMFS_PAUSES");
    if (word == NULL || *word == '\0') return ATOMFS_OK;
    for (const char *at = word; *at != '\0'; at++)
        if (*at < '0' || *at > '9' || at - word > 18) return ATOMFS_BAD_CHOICE;
    shared->seed = strtoull(word, NULL, 10);
    shared->pauses = 1;
    return ATOMFS_OK;
}

/* A tree that has no handle yet. */
static uint8_t made_shared(atomfs_shared **shared, atomfs_shared **made) {
    uint8_t status;
    if (refused(status = there(shared))) return status;
    if (*shared != NULL) return ATOMFS_ALREADY_OPEN;
    if ((*made = calloc(1, sizeof **made)) == NULL) return ATOMFS_NO_MEMORY;
    if (refused(status = pauses_of_environment(*made)) || !made_locks(*made)) {
        free(*made);
        return refused(status) ? status : ATOMFS_NO_MEMORY;
    }
    return ATOMFS_OK;
}

uint8_t atomfs_shared_open(atomfs_shared **shared, size_t limit, uint8_t version) {
    atomfs_shared *made;
    uint8_t status;
    if (refused(status = made_shared(shared, &made))) return status;
    if (refused(status = atomfs_open_with(&made->fs, limit, version))) {
        free_shared(made);
        return status;
    }
    *shared = made;
    return ATOMFS_OK;
}

/* Brings all calls to their returns that are under way on a handle. */
static void finish_all(atomfs *fs) {
    uint64_t seat, about;
    uint8_t did = ATOMFS_DID_IDLE;
    do {
        if (refused(atomfs_step_any(fs, &seat, &did, &about))) return;
    } while (did != ATOMFS_DID_IDLE);
}

uint8_t atomfs_shared_from(atomfs_shared **shared, atomfs *fs) {
    atomfs_shared *made;
    uint8_t status;
    if (refused(status = there(fs))) return status;
    if (!fs->is_open) return ATOMFS_CLOSED;
    if (refused(status = made_shared(shared, &made))) return status;
    made->fs = *fs;
    *fs = (atomfs)ATOMFS_INIT;
    finish_all(&made->fs);
    *shared = made;
    return ATOMFS_OK;
}

static void free_place(struct place *place) {
    pthread_cond_destroy(&place->woken);
    free(place);
}

static void free_sessions(atomfs_shared *shared) {
    while (shared->sessions != NULL) {
        atomfs_session *session = shared->sessions;
        shared->sessions = session->next;
        if (session->place != NULL) free_place(session->place);
        free(session);
    }
    while (shared->free_places != NULL) {
        struct place *place = shared->free_places;
        shared->free_places = place->next;
        free_place(place);
    }
}

uint8_t atomfs_shared_close(atomfs_shared **shared) {
    atomfs_shared *closed;
    uint8_t status;
    if (refused(status = there(shared))) return status;
    if ((closed = *shared) == NULL) return ATOMFS_CLOSED;
    int cancel = taken(closed);
    status = closed->under_way > 0 || closed->waiting > 0 || closed->is_lent ? ATOMFS_UNDER_WAY : ATOMFS_OK;
    let_go(closed, cancel);
    if (refused(status)) return status;
    free_sessions(closed);
    atomfs_close(&closed->fs);
    free_shared(closed);
    *shared = NULL;
    return ATOMFS_OK;
}

/* A place with a new seat; the lock is held. */
static uint8_t new_place(atomfs_shared *shared, struct place **place) {
    struct place *made = calloc(1, sizeof *made);
    if (made == NULL) return ATOMFS_NO_MEMORY;
    if (!made_condition(&made->woken)) {
        free(made);
        return ATOMFS_NO_MEMORY;
    }
    uint8_t status = atomfs_seat(&shared->fs, &made->seat);
    if (refused(status)) {
        free_place(made);
        return status;
    }
    made->drawn = shared->seed + made->seat;
    *place = made;
    return ATOMFS_OK;
}

/* A place of a session that has ended, or a new one. */
static uint8_t free_or_new_place(atomfs_shared *shared, struct place **place) {
    if (shared->free_places == NULL) return new_place(shared, place);
    *place = shared->free_places;
    shared->free_places = (*place)->next;
    return ATOMFS_OK;
}

uint8_t atomfs_shared_session(atomfs_shared *shared, atomfs_session **session, uint64_t *seat) {
    uint8_t status;
    if (shared == NULL) return ATOMFS_CLOSED;
    if (refused(status = there(session))) return status;
    if (*session != NULL) return ATOMFS_ALREADY_OPEN;
    atomfs_session *made = calloc(1, sizeof *made);
    if (made == NULL) return ATOMFS_NO_MEMORY;
    int cancel = taken(shared);
    /* The handle is used by whom it is lent to. */
    if (shared->free_places == NULL && !begins_in_turn(shared))
        status = ATOMFS_WAITS;
    else
        status = free_or_new_place(shared, &made->place);
    if (status == ATOMFS_OK) {
        made->shared = shared;
        made->next = shared->sessions;
        shared->sessions = *session = made;
        if (seat != NULL) *seat = made->place->seat;
    }
    tell_at_rest(shared);
    let_go(shared, cancel);
    if (refused(status)) free(made);
    return status;
}

/* Another session can have a place. */
static void becomes_free(atomfs_shared *shared, struct place *place) {
    place->has_ended = 0;
    place->drawn = shared->seed + place->seat;
    place->next = shared->free_places;
    shared->free_places = place;
}

uint8_t atomfs_shared_end(atomfs_session **session) {
    uint8_t status;
    if (refused(status = there(session)) || refused(status = there(*session))) return status;
    atomfs_shared *shared = (*session)->shared;
    int cancel = taken(shared);
    struct place *place = (*session)->place;
    if (place == NULL)
        status = ATOMFS_NO_SEAT;
    else if (place->is_busy && !place->is_left)
        status = ATOMFS_SEAT_BUSY;
    else {
        if (place->is_busy)
            place->has_ended = 1;
        else
            becomes_free(shared, place);
        (*session)->place = NULL;
        *session = NULL;
    }
    let_go(shared, cancel);
    return status;
}

/* ---- What is done between two events */

uint8_t atomfs_shared_gate(atomfs_shared *shared, atomfs_gate gate, void *context) {
    if (shared == NULL) return ATOMFS_CLOSED;
    int cancel = taken(shared);
    shared->gate = gate;
    shared->context = context;
    let_go(shared, cancel);
    return ATOMFS_OK;
}

uint8_t atomfs_shared_pauses(atomfs_shared *shared, uint64_t seed) {
    if (shared == NULL) return ATOMFS_CLOSED;
    int cancel = taken(shared);
    shared->pauses = seed != ATOMFS_NO_PAUSES;
    shared->seed = seed;
    for (struct place *place = shared->free_places; place != NULL; place = place->next)
        place->drawn = seed + place->seat;
    for (atomfs_session *session = shared->sessions; session != NULL; session = session->next)
        if (session->place != NULL) session->place->drawn = seed + session->place->seat;
    let_go(shared, cancel);
    return ATOMFS_OK;
}

uint8_t atomfs_shared_wait_most(atomfs_shared *shared, uint32_t milliseconds) {
    if (shared == NULL) return ATOMFS_CLOSED;
    int cancel = taken(shared);
    shared->wait_most = milliseconds;
    let_go(shared, cancel);
    return ATOMFS_OK;
}

/* The next number of SplitMix64. */
static uint64_t draw_next(uint64_t *drawn) {
    uint64_t made = *drawn += 0x9e3779b97f4a7c15;
    made = (made ^ (made >> 30)) * 0xbf58476d1ce4e5b9;
    made = (made ^ (made >> 27)) * 0x94d049bb133111eb;
    return made ^ (made >> 31);
}

/* Lets other threads run now and then, and longer now and then: so calls meet that else would hardly meet. */
static void pause_drawn(uint64_t drawn) {
    static const struct timespec pause = { .tv_nsec = 1000 };
    if (drawn % 1000 < 10)
        nanosleep(&pause, NULL);
    else if (drawn % 1000 < 200)
        sched_yield();
}

/* Lets the lock go behind an event, and takes it again. Meanwhile it pauses, where that is drawn, and calls the gate. */
static void pass_gate(atomfs_shared *shared, struct place *place, uint8_t did, uint64_t about) {
    atomfs_gate gate = shared->gate;
    void *context = shared->context;
    int pauses = shared->pauses;
    uint64_t drawn = pauses ? draw_next(&place->drawn) : 0, seat = place->seat;
    pthread_mutex_unlock(&shared->lock);
    if (pauses) pause_drawn(drawn);
    if (gate != NULL) gate(context, seat, did, about);
    pthread_mutex_lock(&shared->lock);
}

/* ---- The handle, while no call is under way */

uint8_t atomfs_shared_lock(atomfs_shared *shared, atomfs **fs) {
    uint8_t status;
    if (shared == NULL) return ATOMFS_CLOSED;
    if (refused(status = there(fs))) return status;
    int cancel = taken(shared);
    if (!has_handle_in_turn(shared)) {
        let_go(shared, cancel);
        return ATOMFS_WAITS;
    }
    shared->is_lent = 1;
    shared->lender = pthread_self();
    shared->cancel = cancel;
    pthread_mutex_unlock(&shared->lock);
    *fs = &shared->fs;
    return ATOMFS_OK;
}

uint8_t atomfs_shared_unlock(atomfs_shared *shared) {
    if (shared == NULL) return ATOMFS_CLOSED;
    int cancel = taken(shared);
    if (!shared->is_lent) {
        let_go(shared, cancel);
        return ATOMFS_CLOSED;
    }
    finish_all(&shared->fs);
    /* Another thread may give it back, for one that has ended: that one keeps its own way to be cancelled. */
    if (pthread_equal(shared->lender, pthread_self())) cancel = shared->cancel;
    shared->is_lent = 0;
    is_given_back(shared);
    let_go(shared, cancel);
    return ATOMFS_OK;
}

/* ---- Calls */

static void becomes_busy(atomfs_shared *shared, struct place *place, uint64_t call) {
    place->call = call;
    place->holds = 0;
    place->holder = 0;
    place->is_busy = 1;
    place->is_left = 0;
    place->next_busy = NULL;
    place->before_busy = shared->last_busy;
    if (shared->last_busy != NULL)
        shared->last_busy->next_busy = place;
    else
        shared->first_busy = place;
    shared->last_busy = place;
    shared->under_way++;
}

static void becomes_idle(atomfs_shared *shared, struct place *place) {
    place->is_busy = 0;
    if (place->before_busy != NULL)
        place->before_busy->next_busy = place->next_busy;
    else
        shared->first_busy = place->next_busy;
    if (place->next_busy != NULL)
        place->next_busy->before_busy = place->before_busy;
    else
        shared->last_busy = place->before_busy;
    shared->under_way--;
    if (place->has_ended) becomes_free(shared, place);
    tell_at_rest(shared);
}

/* ---- Sleep, and who is woken */

/* Lies down in a queue, until the call of a number lets a node go. */
static void lies_down(atomfs_shared *shared, struct place *place, uint64_t number, uint64_t holder) {
    struct queue *queue = &shared->queues[number];
    place->is_asleep = 1;
    place->holder = holder;
    place->queue = number;
    place->next_asleep = NULL;
    if (queue->last != NULL)
        queue->last->next_asleep = place;
    else
        queue->first = place;
    queue->last = place;
}

/* Takes a place out of the queue in which it sleeps. */
static void gets_up(atomfs_shared *shared, struct place *place) {
    struct queue *queue = &shared->queues[place->queue];
    struct place *before = NULL;
    for (struct place *at = queue->first; at != place; at = at->next_asleep) before = at;
    if (before != NULL)
        before->next_asleep = place->next_asleep;
    else
        queue->first = place->next_asleep;
    if (queue->last == place) queue->last = before;
    place->is_asleep = 0;
}

/* Sleeps until it is woken. Whether that is not given up: then the call sleeps on, and others make its steps. */
static int slept(atomfs_shared *shared, struct place *place) {
    struct timespec until = deadline(shared);
    while (place->is_asleep)
        if (!slept_until(shared, &place->woken, &until) && place->is_asleep) {
            place->is_left = 1;
            return 0;
        }
    return 1;
}

/* One that is up again: its thread goes on, or, if that has left it, whoever has the lock. */
static void is_woken(atomfs_shared *shared, struct place *place) {
    if (!place->is_left)
        pthread_cond_signal(&place->woken);
    else if (place->is_busy) {
        place->next_asleep = shared->left;
        shared->left = place;
    }
}

/* Wakes those of a queue who are to be woken: nobody, the first, or all. */
static void wake(atomfs_shared *shared, uint64_t number, uint8_t whom) {
    struct queue *queue = &shared->queues[number];
    while (whom != ATOMFS_WAKE_NOBODY && queue->first != NULL) {
        struct place *place = queue->first;
        gets_up(shared, place);
        is_woken(shared, place);
        if (whom == ATOMFS_WAKE_ONE) return;
    }
}

/* A node is held by the call on a place no more. */
static void lets_go(struct place *place, uint64_t node) {
    size_t left = 0;
    for (size_t i = 0; i < place->holds; i++)
        if (place->held[i] != node) place->held[left++] = place->held[i];
    place->holds = left;
}

/* Notes what a step of the call on a place did, which did not wait. */
static void note(atomfs_shared *shared, struct place *place, uint8_t did, uint64_t about) {
    place->holder = 0;
    if (did == ATOMFS_DID_TAKE && place->holds < MOST_HELD) place->held[place->holds++] = about;
    if (did == ATOMFS_DID_LET_GO) lets_go(place, about);
    if (did == ATOMFS_DID_RETURN) becomes_idle(shared, place);
}

/* Makes a step of the call on a place. A call that waits lies down; another wakes those who can go on by what it did. Whether the
 * tree has the seat. */
static int went_on(atomfs_shared *shared, struct place *place, struct atomfs_went *went) {
    if (refused(PROVED(step_among)(&shared->fs, place->seat, &shared->asleep, went))) return 0;
    if (went->did == ATOMFS_DID_WAIT)
        lies_down(shared, place, went->queue, went->about);
    else {
        note(shared, place, went->did, went->about);
        wake(shared, went->queue, went->whom);
    }
    return 1;
}

/* Makes the steps of those that are left and were woken: up to their returns, or until they sleep again. They end, since each
 * call makes so many steps at most. */
static void go_on_with_left(atomfs_shared *shared) {
    struct place *place;
    struct atomfs_went went;
    while ((place = shared->left) != NULL) {
        shared->left = place->next_asleep;
        do {
            if (!went_on(shared, place, &went)) return;
        } while (went.did != ATOMFS_DID_WAIT && went.did != ATOMFS_DID_RETURN);
    }
}

/* Begins a call, once those have given the handle back who asked for it before. */
static uint8_t begun(atomfs_session *session, const atomfs_request *request, uint64_t *number) {
    atomfs_shared *shared = session->shared;
    *number = 0;
    if (session->place == NULL) return ATOMFS_NO_SEAT;
    if (session->place->is_busy) return ATOMFS_SEAT_BUSY;
    if (!begins_in_turn(shared)) {
        tell_at_rest(shared);
        return ATOMFS_WAITS;
    }
    /* Meanwhile it may have ended. */
    struct place *place = session->place;
    if (place == NULL) {
        tell_at_rest(shared);
        return ATOMFS_NO_SEAT;
    }
    uint8_t status = atomfs_begin_call(&shared->fs, place->seat, request, number);
    if (status == ATOMFS_OK)
        becomes_busy(shared, place, *number);
    else
        tell_at_rest(shared);
    return status;
}

/* Makes the steps of a call up to its return, which steps of others may come to as well. OK; WAITS, where it slept as long as
 * it may. */
static uint8_t stepped(atomfs_shared *shared, struct place *place, uint64_t number) {
    struct atomfs_went went = { .did = ATOMFS_DID_BEGIN, .about = number };
    for (;;) {
        if (went.did != ATOMFS_DID_WAIT)
            pass_gate(shared, place, went.did, went.about);
        else if (!slept(shared, place))
            return ATOMFS_WAITS;
        if (!place->is_busy || place->call != number) return ATOMFS_OK;
        if (!went_on(shared, place, &went)) return ATOMFS_OK;
        if (went.did == ATOMFS_DID_WAIT) continue;
        go_on_with_left(shared);
        if (went.did == ATOMFS_DID_RETURN) return ATOMFS_OK;
    }
}

/* Begins a call and steps it to its return. At OK it has returned, and the lock is held, under which its reply is in the
 * journal; else there was no call, or it is under way. */
static uint8_t returned(atomfs_session *session, const atomfs_request *request, uint64_t *number) {
    atomfs_shared *shared = session->shared;
    int cancel = taken(shared);
    uint8_t status = begun(session, request, number);
    if (status == ATOMFS_OK) {
        session->place->cancel = cancel;
        status = stepped(shared, session->place, *number);
    }
    if (refused(status)) let_go(shared, cancel);
    return status;
}

/* What was told under the lock, which is given back. The gate hears of the return. */
static uint8_t told(atomfs_session *session, uint8_t status) {
    atomfs_shared *shared = session->shared;
    struct place *place = session->place;
    /* Until it is out of the gate the tree is not closed. */
    shared->waiting++;
    pass_gate(shared, place, ATOMFS_DID_RETURN, 0);
    shared->waiting--;
    let_go(shared, place->cancel);
    return status;
}

/* The place of a seat with a call under way. */
static struct place *place_of_seat(const atomfs_shared *shared, uint64_t seat) {
    struct place *place = shared->first_busy;
    while (place != NULL && place->seat != seat) place = place->next_busy;
    return place;
}

uint8_t atomfs_shared_finish(atomfs_shared *shared, uint64_t *count) {
    uint64_t seat, about, queue;
    uint8_t did, status;
    if (shared == NULL) return ATOMFS_CLOSED;
    if (refused(status = there(count))) return status;
    int cancel = taken(shared);
    *count = shared->under_way;
    while (shared->under_way > 0) {
        if (refused(status = atomfs_step_any(&shared->fs, &seat, &did, &about)) || did == ATOMFS_DID_IDLE) break;
        struct place *place = place_of_seat(shared, seat);
        if (place == NULL) continue;
        /* It may have slept for a node that is free, since one at a time is woken for that. */
        int was_asleep = place->is_asleep;
        if (was_asleep) gets_up(shared, place);
        note(shared, place, did, about);
        if (did == ATOMFS_DID_LET_GO) {
            uint8_t whom = PROVED(wakes)(&shared->asleep, about, &queue);
            wake(shared, queue, whom);
        }
        if (was_asleep) is_woken(shared, place);
        go_on_with_left(shared);
    }
    let_go(shared, cancel);
    return status;
}

/* A line on the call on a place. */
static size_t line_of(const struct place *place, char *line) {
    int length = snprintf(line, MOST_LINE, "call %" PRIu64 " on seat %" PRIu64 " holds", place->call, place->seat);
    for (size_t i = 0; i < place->holds; i++)
        length += snprintf(line + length, MOST_LINE - (size_t)length, " %" PRIu64, place->held[i]);
    if (place->holds == 0) length += snprintf(line + length, MOST_LINE - (size_t)length, " no node");
    if (place->holder != 0)
        length += snprintf(line + length, MOST_LINE - (size_t)length, ", waits for call %" PRIu64, place->holder);
    length += snprintf(line + length, MOST_LINE - (size_t)length, "\n");
    return (size_t)length;
}

/* Adds a line to what is told, where there is room. */
static void add_line(const char *line, size_t length, char *out, size_t room, size_t *told) {
    if (*told <= room && length <= room - *told) memcpy(out + *told, line, length);
    *told += length;
}

/* All lines, and how many bytes they have. */
static size_t all_holders(const atomfs_shared *shared, char *out, size_t room) {
    static const char lent[] = "the handle is lent\n";
    char line[MOST_LINE];
    size_t told_ = 0;
    if (shared->is_lent) add_line(lent, sizeof lent - 1, out, room, &told_);
    for (const struct place *place = shared->first_busy; place != NULL; place = place->next_busy) {
        size_t length = line_of(place, line);
        add_line(line, length, out, room, &told_);
    }
    return told_;
}

uint8_t atomfs_shared_holders(atomfs_shared *shared, char *out, size_t room, size_t *count) {
    uint8_t status;
    if (shared == NULL) return ATOMFS_CLOSED;
    if (refused(status = may_tell(shared, out, room, count))) return status;
    int cancel = taken(shared);
    *count = all_holders(shared, NULL, 0);
    if (*count <= room)
        all_holders(shared, out, room);
    else
        status = ATOMFS_TOO_SMALL;
    let_go(shared, cancel);
    return status;
}

static uint8_t done(atomfs_session *session, const atomfs_request *request, uint64_t *number) {
    uint8_t status;
    if (refused(status = there(session)) || refused(status = returned(session, request, number))) return status;
    return told(session, atomfs_reply_done(&session->shared->fs, *number));
}

#define ON_PATH(name, kind)                                                                                            \
    uint8_t atomfs_shared_##name(atomfs_session *session, const char *path, size_t length, uint64_t *number) {         \
        atomfs_request request = { .call = kind, .path = path, .length = length };                                     \
        return done(session, &request, NUMBER_TO(number));                                                             \
    }

ON_PATH(mkdir, ATOMFS_CALL_MKDIR)
ON_PATH(mknod, ATOMFS_CALL_MKNOD)
ON_PATH(unlink, ATOMFS_CALL_UNLINK)
ON_PATH(rmdir, ATOMFS_CALL_RMDIR)

#define ON_BOTH(name, kind)                                                                                            \
    uint8_t atomfs_shared_##name(atomfs_session *session, const char *path, size_t length, const char *other,          \
                                 size_t other_length, uint64_t *number) {                                              \
        atomfs_request request = { .call = kind, .path = path, .length = length };                                     \
        request.other = other;                                                                                         \
        request.other_length = other_length;                                                                           \
        return done(session, &request, NUMBER_TO(number));                                                             \
    }

ON_BOTH(rename, ATOMFS_CALL_RENAME)
ON_BOTH(exchange, ATOMFS_CALL_EXCHANGE)

uint8_t atomfs_shared_truncate(atomfs_session *session, const char *path, size_t length, uint64_t size,
                               uint64_t *number) {
    atomfs_request request = { .call = ATOMFS_CALL_TRUNCATE, .path = path, .length = length, .size = size };
    return done(session, &request, NUMBER_TO(number));
}

uint8_t atomfs_shared_stat(atomfs_session *session, const char *path, size_t length, struct atomfs_stat *stat,
                           uint64_t *number) {
    atomfs_request request = { .call = ATOMFS_CALL_STAT, .path = path, .length = length };
    uint8_t status;
    if (refused(status = there(session)) || refused(status = there(stat))) return status;
    number = NUMBER_TO(number);
    if (refused(status = returned(session, &request, number))) return status;
    return told(session, atomfs_reply_stat(&session->shared->fs, *number, stat));
}

/* How many bytes the names of a reply have. The name before each piece stands apart from the piece. */
static uint8_t names_length(atomfs *fs, uint64_t number, size_t *length) {
    char some[SOME_NAMES], last[MOST_NAME];
    size_t count, last_length = 0;
    uint8_t status;
    *length = 0;
    do {
        if (refused(status = atomfs_reply_names(fs, number, last, last_length, some, sizeof some, &count)))
            return status;
        *length += count;
        for (last_length = 0; last_length + 1 < count && some[count - 2 - last_length] != '\0';) last_length++;
        for (size_t i = 0; i < last_length; i++) last[i] = some[count - 1 - last_length + i];
    } while (count > 0);
    return ATOMFS_OK;
}

/* Tells all names of a reply, or none. */
static uint8_t tell_names(atomfs *fs, uint64_t number, char *out, size_t room, size_t *count) {
    size_t length = 0;
    uint8_t status = room < MOST_NAMES ? names_length(fs, number, &length) : ATOMFS_OK;
    if (refused(status)) return status;
    if (length > room) {
        *count = length;
        return ATOMFS_TOO_SMALL;
    }
    return atomfs_reply_names(fs, number, NULL, 0, out, room, count);
}

/* Makes a call that replies names, and tells them. */
static uint8_t names(atomfs_session *session, const atomfs_request *request, char *out, size_t room, size_t *count,
                     uint64_t *number) {
    uint8_t status;
    if (refused(status = may_tell(session, out, room, count))) return status;
    if (refused(status = returned(session, request, number))) return status;
    return told(session, tell_names(&session->shared->fs, *number, out, room, count));
}

uint8_t atomfs_shared_readdir(atomfs_session *session, const char *path, size_t length, char *out, size_t room,
                              size_t *count, uint64_t *number) {
    atomfs_request request = { .call = ATOMFS_CALL_READDIR, .path = path, .length = length };
    return names(session, &request, out, room, count, NUMBER_TO(number));
}

uint8_t atomfs_shared_list(atomfs_session *session, const char *path, size_t length, const char *after,
                           size_t after_length, uint32_t most, char *out, size_t room, size_t *count,
                           uint64_t *number) {
    atomfs_request request = { .call = ATOMFS_CALL_LIST, .path = path, .length = length, .size = most };
    request.other = after;
    request.other_length = after_length;
    return names(session, &request, out, room, count, NUMBER_TO(number));
}

uint8_t atomfs_shared_read(atomfs_session *session, const char *path, size_t length, uint64_t offset, void *out,
                           size_t room, size_t *count, uint64_t *number) {
    atomfs_request request = {
        .call = ATOMFS_CALL_READ, .path = path, .length = length, .offset = offset, .size = room
    };
    uint8_t status;
    if (refused(status = may_tell(session, out, room, count))) return status;
    number = NUMBER_TO(number);
    if (refused(status = returned(session, &request, number))) return status;
    return told(session, atomfs_reply_bytes(&session->shared->fs, *number, out, room, count));
}

uint8_t atomfs_shared_write(atomfs_session *session, const char *path, size_t length, uint64_t offset,
                            const void *bytes, size_t bytes_length, uint64_t *wrote, uint64_t *number) {
    atomfs_request request = { .call = ATOMFS_CALL_WRITE, .path = path, .length = length, .offset = offset };
    uint8_t status;
    if (refused(status = there(session)) || refused(status = there(wrote))) return status;
    request.bytes = bytes;
    request.bytes_length = bytes_length;
    number = NUMBER_TO(number);
    if (refused(status = returned(session, &request, number))) return status;
    return told(session, atomfs_reply_wrote(&session->shared->fs, *number, wrote));
}
