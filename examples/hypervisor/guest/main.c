/*
 * The guest: it takes a lease of its virtual timer, is interrupted at the end and gives it back; it opens the count to
 * its EL0 and shuts it again; then it tries what it may not touch. Its instructions are those of any guest: it does not
 * know how they get to the hypervisor.
 */
#include "../core.h"
#include "calls.h"

#include <stdbool.h>

enum { ENABLE = 1, READINGS = 3, EL0VCTEN = 1 << 1, EVNTIS = 1 << 17 };

static volatile bool interrupted;
static volatile bool trying;
static volatile uint64_t syndrome;

/* start.S: waits until it is true, and tells whether no register has changed */
bool wait_with_known_registers(const volatile bool *over);

/* start.S: reads CNTVCT at EL0, and tells what ended that */
struct turn {
    uint64_t count, syndrome;
};
struct turn read_count_at_el0(void);

static void note(uint64_t what, uint64_t first, uint64_t second) {
    register uint64_t x0 __asm__("x0") = what;
    register uint64_t x1 __asm__("x1") = first;
    register uint64_t x2 __asm__("x2") = second;
    __asm__ volatile("hvc %0" ::"i"(CALL_NOTE), "r"(x0), "r"(x1), "r"(x2) : "memory");
}

static _Noreturn void end(void) {
    for (;;)
        __asm__ volatile("hvc %0" ::"i"(CALL_DONE));
}

void on_interrupt(void) {
    uint64_t now = read_register(CNTVCT_EL0);
    note(NOTE_INTERRUPTED, now, read_register(CNTV_TVAL_EL0));
    write_register(CNTV_CTL_EL0, 0);
    interrupted = true;
}

/* One that is asked for is stepped over. */
void on_exception(void) {
    syndrome = read_register(ESR_EL1);
    if (!trying) {
        note(NOTE_FAULTED, read_register(ELR_EL1), syndrome);
        end();
    }
    write_register(ELR_EL1, read_register(ELR_EL1) + 4);
}

/* Interrupts are masked meanwhile: once the lease is given back, TVAL is unknown. */
static void read_what_is_left(void) {
    __asm__ volatile("msr daifset, #2" ::: "memory");
    if (!interrupted)
        (void)read_register(CNTV_TVAL_EL0);
    __asm__ volatile("msr daifclr, #2" ::: "memory");
}

/* The waiting has no trap in it: only an interrupt can end it. */
static void hold_lease(uint64_t ticks) {
    interrupted = false;
    write_register(CNTV_TVAL_EL0, ticks);
    write_register(CNTV_CTL_EL0, ENABLE);
    for (int i = 0; i < READINGS; i++)
        read_what_is_left();
    if (!wait_with_known_registers(&interrupted)) {
        note(NOTE_LOST_REGISTERS, 0, 0);
        end();
    }
}

/* Time for an interrupt that should not come: the line is down. */
static void linger(void) {
    for (volatile int i = 0; i < 100000; i++)
        ;
}

/* EVNTIS came with ECV, which its machine does not have, so that it is not kept. */
static void rule_el0(uint64_t control) {
    write_register(CNTKCTL_EL1, control | EVNTIS);
    synchronize();
    (void)read_register(CNTKCTL_EL1);
    struct turn turn = read_count_at_el0();
    note(NOTE_READ_AT_EL0, turn.count, turn.syndrome);
}

static void try_what_it_may_not_touch(void) {
    uint64_t which = 0;
    trying = true;
#define TRY(name, instruction)                                                                                         \
    syndrome = NOTHING_CAME;                                                                                           \
    __asm__ volatile(instruction ::: "x0", "memory");                                                                  \
    note(NOTE_TRIED, which++, syndrome);
    ATTEMPTS(TRY)
    trying = false;
}

void guest(uint64_t ticks) {
    __asm__ volatile("msr daifclr, #2" ::: "memory");
    for (int i = 0; i < LEASES; i++) {
        hold_lease(ticks);
        linger();
    }
    rule_el0(EL0VCTEN);
    rule_el0(0);
    try_what_it_may_not_touch();
    end();
}
