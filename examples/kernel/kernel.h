/* What the files of the kernel have of one another. */
#ifndef KERNEL_H
#define KERNEL_H

#include "atomfs.h"
#include "heap.h"

/* boot.S, where no C library is. */
int memcmp(const void *one, const void *other, size_t count);

/* machine.c: the serial line, the timer, the end. */
void put_bytes(const char *bytes, size_t count);
void put(const char *text);
void put_number(uint64_t number);
void machine_open(void);
void timer_start(void);
void timer_stop(void);
void wait_for_interrupt(void);
extern volatile int is_done; /* no event is left */
_Noreturn void machine_stop(uint8_t code);

/* heap.c: since the last heap_open, how many growths were asked for, of which number `refused`, counted from 1, is refused, and
 * the most bytes that were in use. */
void heap_open(uint64_t refused);
extern uint64_t heap_growths;
extern size_t heap_most;

/* play.c: a script is played on a tree, an event at each call of play_event, which answers whether there was one. */
int play_open(void);
int play_event(void);
extern atomfs tree;
extern uint64_t calls_refused;

#endif
