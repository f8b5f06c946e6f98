/* A kernel with AtomFS in it. It plays its script by the timer, one begin or step at an interrupt, and prints the journal, the
 * tree and the verdict. Then it plays the script anew, once for each growth of memory, which is refused. */
#include "kernel.h"

enum { TEXT_ROOM = 1 << 16, MARK = 0x5a };

extern uint8_t stack_bottom[], stack_top[];

static char text[TEXT_ROOM];

static void put_line(const char *words, uint64_t number) {
    put(words);
    put_number(number);
    put("\n");
}

static _Noreturn void fail(const char *why) {
    put(why);
    put("\n");
    machine_stop(1);
}

static void put_told(uint8_t status, size_t count) {
    if (status != ATOMFS_OK) fail(atomfs_status_text(status));
    put_bytes(text, count);
}

static void put_journal(void) {
    size_t count, entries;
    uint8_t status = atomfs_opening(&tree, text, sizeof text, &count);
    put_told(status, count);
    status = atomfs_journal(&tree, 0, text, sizeof text, &count, &entries);
    put_told(status, count);
    status = atomfs_tree(&tree, text, sizeof text, &count);
    put_told(status, count);
}

/* Whether the journal is lawful; memory may be refused meanwhile, and then it is judged once more. */
static int is_lawful(void) {
    uint64_t place;
    uint8_t kind;
    uint8_t status = atomfs_verdict(&tree, &place, &kind);
    if (status == ATOMFS_NO_MEMORY) status = atomfs_verdict(&tree, &place, &kind);
    if (status != ATOMFS_OK) fail(atomfs_status_text(status));
    return kind == ATOMFS_FAULT_NONE;
}

/* How much of the stack was ever used. Nothing writes below what is in use, but for the mark. */
static size_t stack_used(void) {
    uint8_t *lowest = stack_bottom;
    while (lowest < stack_top && *lowest == MARK) lowest++;
    return (size_t)(stack_top - lowest);
}

static void mark_stack(void) {
    uint8_t *here = __builtin_frame_address(0);
    for (uint8_t *byte = stack_bottom; byte < here - 1024; byte++) *byte = MARK;
}

static void play_by_timer(void) {
    heap_open(0);
    if (!play_open()) fail("the script is none");
    timer_start();
    while (!is_done) wait_for_interrupt();
    timer_stop();
    put_journal();
    put(is_lawful() ? "verdict lawful\n" : "verdict: no\n");
    atomfs_close(&tree);
    put_line("growths of memory ", heap_growths);
    put_line("most bytes in use ", heap_most);
}

/* Plays the script where one growth is refused: whether the journal is lawful. A tree that does not open has none. */
static int play_refusing(uint64_t growth, uint64_t *refused) {
    heap_open(growth);
    int lawful = 1;
    if (play_open()) {
        while (play_event()) {}
        *refused += calls_refused;
        lawful = is_lawful();
    }
    atomfs_close(&tree);
    return lawful;
}

static void refuse_each(void) {
    uint64_t growth = 0, lawful = 0, refused = 0;
    do lawful += (uint64_t)play_refusing(++growth, &refused);
    while (heap_growths >= growth);
    put_line("runs with a growth refused ", growth - 1);
    put_line("calls refused ", refused);
    put_line("runs lawful ", lawful - 1);
}

void kernel_main(void) {
    mark_stack();
    machine_open();
    play_by_timer();
    refuse_each();
    put_line("stack used ", stack_used());
    put("halted\n");
    machine_stop(0);
}
