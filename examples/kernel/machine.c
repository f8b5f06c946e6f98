/* The machine: a console by the first serial line, a timer of 1,000 Hz, faults of the processor, and the end. */
#include "kernel.h"

enum { SERIAL = 0x3f8, PIC = 0x20, SLAVE_PIC = 0xa0, PIT = 0x40, DEBUG_EXIT = 0xf4 };
enum { FAULTS = 32, TIMER = FAULTS, VECTORS = TIMER + 1, CODE_SEGMENT = 8 };

static inline void out(uint16_t port, uint8_t byte) { __asm__ volatile("outb %0, %1" : : "a"(byte), "Nd"(port)); }

static inline uint8_t in(uint16_t port) {
    uint8_t byte;
    __asm__ volatile("inb %1, %0" : "=a"(byte) : "Nd"(port));
    return byte;
}

/* ---- The console */

void put_bytes(const char *bytes, size_t count) {
    for (size_t i = 0; i < count; i++) {
        while ((in(SERIAL + 5) & 0x20) == 0) {}
        out(SERIAL, (uint8_t)bytes[i]);
    }
}

void put(const char *text) {
    size_t count = 0;
    while (text[count] != 0) count++;
    put_bytes(text, count);
}

void put_number(uint64_t number) {
    char digits[20];
    size_t at = sizeof digits;
    do {
        digits[--at] = (char)('0' + number % 10);
        number /= 10;
    } while (number != 0);
    put_bytes(digits + at, sizeof digits - at);
}

/* ---- Interrupts */

static const uint64_t INTERRUPT_GATE = 0x8e;
static uint64_t gates[VECTORS][2];

extern char fault_entry[], timer_entry[];

static void gate_open(size_t vector, const char *entry) {
    uint64_t at = (uint64_t)entry;
    gates[vector][0] = (at >> 16 & 0xffff) << 48 | INTERRUPT_GATE << 40 | CODE_SEGMENT << 16 | (at & 0xffff);
    gates[vector][1] = at >> 32;
}

void machine_open(void) {
    for (size_t fault = 0; fault < FAULTS; fault++) gate_open(fault, fault_entry);
    gate_open(TIMER, timer_entry);
    struct __attribute__((packed)) {
        uint16_t limit;
        void *at;
    } table = { sizeof gates - 1, gates };
    __asm__ volatile("lidt %0" : : "m"(table));
    /* The interrupts of both controllers come from TIMER on; all but that of the timer are masked. */
    out(PIC, 0x11), out(SLAVE_PIC, 0x11);
    out(PIC + 1, TIMER), out(SLAVE_PIC + 1, TIMER + 8);
    out(PIC + 1, 4), out(SLAVE_PIC + 1, 2);
    out(PIC + 1, 1), out(SLAVE_PIC + 1, 1);
    out(PIC + 1, 0xfe), out(SLAVE_PIC + 1, 0xff);
}

void timer_start(void) {
    const uint16_t divisor = 1193; /* of 1,193,182 Hz */
    out(PIT + 3, 0x34);
    out(PIT, (uint8_t)divisor);
    out(PIT, (uint8_t)(divisor >> 8));
    __asm__ volatile("sti");
}

void timer_stop(void) { __asm__ volatile("cli"); }

void wait_for_interrupt(void) { __asm__ volatile("hlt" : : : "memory"); }

void kernel_fault(void) {
    put("a fault of the processor\n");
    machine_stop(2);
}

/* QEMU ends with twice the code and one. A machine without its debug port halts. */
_Noreturn void machine_stop(uint8_t code) {
    timer_stop();
    out(DEBUG_EXIT, code);
    for (;;) wait_for_interrupt();
}

/* Each interrupt of the timer makes one event; the machine takes no other before this one is done. */
volatile int is_done;

void kernel_tick(void) {
    if (!is_done && !play_event()) is_done = 1;
    out(PIC, 0x20);
}
