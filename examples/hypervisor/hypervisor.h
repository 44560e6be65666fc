/* What the files of the hypervisor share: the guest as it is kept, what happened, and who does what. */
#ifndef HYPERVISOR_H
#define HYPERVISOR_H

#include "elsterkabel.h"

/* What is kept of the guest. Its other registers stay in the core, as there is no other guest. enter.S knows where the
   first three are. */
struct guest {
    uint64_t x[31];
    uint64_t pc;
    uint64_t pstate;
    struct elsterkabel_state timers;
};
_Static_assert(offsetof(struct guest, pc) == 31 * 8 && offsetof(struct guest, pstate) == 32 * 8, "as enter.S has them");

/* Why an exception was taken: bits 31 to 26 of its syndrome. */
enum exception_class { UNKNOWN_REASON = 0, SVC = 0x15, HVC = 0x16, SYSTEM_REGISTER = 0x18 };

/* start.S: the guest's image, as it begins (guest/calls.h) and where it ends */
struct image {
    uint32_t branch_to_start;
    uint32_t text_bytes;
};
extern const struct image guest_image;
extern const char guest_image_end[];

/* guest.c */
void create_guest(struct guest *guest, uint64_t lease);

/* patch.c */
void trap_timer_accesses(uint32_t *text);
uint32_t original_word(uint64_t pc); /* that stands in the guest's image, or 0 outside of its text */

/* enter.S */
bool run_guest(struct guest *guest); /* whether an interrupt ended it; else a trap has */

/* trap.c */
void handle_trap(struct guest *guest);

/* inject.c */
void inject_undefined(struct guest *guest);
void inject_trap(struct guest *guest, uint32_t word);

/* timer.c */
uint64_t physical_count(void);
void settle_timer(const struct guest *guest);
void stop_own_timer(void);

/* gic.c */
void listen_to_own_timer(void);
void handle_interrupt(void);

/* memory.c */
void map_hypervisor(void);
void map_guest(const void *memory);
void make_executable(const void *memory, size_t bytes);
void *memcpy(void *restrict to, const void *restrict from, size_t bytes);
void *memset(void *memory, int byte, size_t bytes);

/* console.c */
void say(const char *text);
void say_number(uint64_t number);
void say_signed(int64_t number);
void say_column(uint64_t number, int width);
void say_hex(uint64_t number);

/* How the machine ends; README.md lists them with those of the command `run`. */
enum status {
    AS_EXPECTED = 0,
    NOT_AS_EXPECTED = 3,
    OTHER_VERSION = 4,
    OWN_MISTAKE = 5,
    STRAY_GUEST = 6,
};
_Noreturn void end_machine(enum status status);

/* log.c: what happened, in its order; it is told at the end, as telling takes time */
enum what {
    ACCESS_DONE, /* its word, and the value that was read or written */
    ACCESS_REFUSED, /* its word, and the desk's number */
    OWN_TIMER,
    LINE_UP,
    LINE_DOWN,
    GUEST_INTERRUPTED, /* this and the next four are the guest's notes (guest/calls.h), with their numbers */
    GUEST_LOST_REGISTERS,
    GUEST_READ_AT_EL0,
    GUEST_TRIED,
    GUEST_FAULTED,
};
struct event {
    enum what what;
    uint64_t count; /* the physical count */
    uint64_t first, second;
};
void happened(enum what what, uint64_t count, uint64_t first, uint64_t second);
const struct event *first_event(void);
const struct event *past_last_event(void);
void tell_log(const struct guest *guest);

/* verdict.c */
bool went_as_expected(const struct guest *guest); /* and says so */

#endif
