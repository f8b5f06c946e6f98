/* Plays a script (docs/FORMATS.md): a seat for each thread, its calls line by line, and the words NAME and NAME*COUNT of the
 * schedule. An event is the begin of a call or one step. Behind the last word, or at `finish`, threads take turns to the end. */
#include "kernel.h"

enum { THREADS = 8, NODES = 1000 };

struct text {
    const char *at, *end;
};

struct thread {
    struct text name;
    struct text calls; /* the lines of those that have not begun */
    uint64_t seat;
    int is_busy;
};

extern const char script[], script_end[];

static struct thread threads[THREADS];
static size_t count;
static struct text schedule, words; /* the lines behind this one, and what is left of this one */
static struct thread *turn;
static uint64_t turns, rounds; /* the events that are left of the word; the turns of rounds to the end */

atomfs tree;
uint64_t calls_refused;

/* ---- Texts */

static int is_empty(struct text text) { return text.at == text.end; }

static int is_same(struct text a, struct text b) {
    return a.end - a.at == b.end - b.at && memcmp(a.at, b.at, (size_t)(a.end - a.at)) == 0;
}

static int is_word(struct text text, const char *word) {
    while (text.at < text.end && *word != 0 && *text.at == *word) text.at++, word++;
    return is_empty(text) && *word == 0;
}

/* What stands before the next byte `stop`, which is taken off too. */
static struct text cut(struct text *rest, char stop) {
    struct text before = { rest->at, rest->at };
    while (before.end < rest->end && *before.end != stop) before.end++;
    rest->at = before.end < rest->end ? before.end + 1 : before.end;
    return before;
}

/* The next line that is neither empty nor a comment; none at the end. */
static struct text next_line(struct text *rest) {
    while (!is_empty(*rest)) {
        struct text line = cut(rest, '\n');
        if (!is_empty(line) && *line.at != '#') return line;
    }
    return *rest;
}

static uint64_t number_of(struct text digits) {
    uint64_t number = 0;
    for (; digits.at < digits.end; digits.at++) number = 10 * number + (uint64_t)(*digits.at - '0');
    return number;
}

/* ---- Opening */

/* The version of the limits by the first line, as "atomfs 3"; 0 where it is none. */
static uint8_t version_of(struct text line) {
    struct text word = cut(&line, ' ');
    return is_word(word, "atomfs") ? (uint8_t)number_of(line) : 0;
}

static int add_thread(struct text name, struct text calls) {
    if (count == THREADS) return 0;
    threads[count] = (struct thread){ name, calls, 0, 0 };
    return atomfs_seat(&tree, &threads[count++].seat) == ATOMFS_OK;
}

/* Opens a tree and a seat for each thread: whether the script is one, and there was memory. */
int play_open(void) {
    struct text rest = { script, script_end };
    count = 0, turns = 0, rounds = 0, calls_refused = 0;
    if (atomfs_open_with(&tree, NODES, version_of(next_line(&rest))) != ATOMFS_OK) return 0;
    for (;;) {
        struct text line = next_line(&rest), name = line;
        int is_thread = is_word(cut(&name, ' '), "thread"), is_end = is_empty(line) || is_word(line, "schedule");
        if (count > 0 && (is_thread || is_end)) threads[count - 1].calls.end = line.at;
        if (is_end) break;
        if (is_thread && !add_thread(name, rest)) return 0;
    }
    schedule = rest;
    words = (struct text){ rest.end, rest.end };
    return count > 0;
}

/* ---- Events */

static struct thread *thread_of(struct text name) {
    for (size_t i = 0; i < count; i++) {
        if (is_same(threads[i].name, name)) return &threads[i];
    }
    return NULL;
}

/* The next turn of a round: whether a thread has a call under way or calls left. */
static int next_of_round(void) {
    int is_left = 0;
    for (size_t i = 0; i < count; i++) {
        struct text calls = threads[i].calls;
        is_left |= threads[i].is_busy || !is_empty(next_line(&calls));
    }
    turn = &threads[rounds++ % count];
    turns = 1;
    return is_left;
}

/* The turns of the next word of the schedule. */
static int next_word(void) {
    if (is_empty(words)) words = next_line(&schedule);
    struct text word = cut(&words, ' '), name = cut(&word, '*');
    turn = thread_of(name);
    if (turn == NULL) return next_of_round();
    turns = is_empty(word) ? 1 : number_of(word);
    return 1;
}

/* Begins the next call of a thread. One that is refused has changed nothing, and is left out. */
static void begin(struct thread *thread) {
    struct text line = next_line(&thread->calls);
    uint64_t number;
    if (is_empty(line)) return;
    if (atomfs_begin(&tree, thread->seat, line.at, (size_t)(line.end - line.at), &number) == ATOMFS_OK)
        thread->is_busy = 1;
    else
        calls_refused++;
}

int play_event(void) {
    uint8_t did;
    uint64_t about;
    if (turns == 0 && !next_word()) return 0;
    turns--;
    if (!turn->is_busy) {
        begin(turn);
    } else if (atomfs_step(&tree, turn->seat, &did, &about) == ATOMFS_OK && did == ATOMFS_DID_RETURN) {
        turn->is_busy = 0;
    }
    return 1;
}
