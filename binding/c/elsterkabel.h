/*
 * Elsterkabel: the answer desk for the Arm Generic Timer, for hypervisors in C.
 *
 * A trap handler lends its guest's timer state, passes on the instruction word, the exception level, the operand and
 * the physical count, and acts on the number that it gets. Whatever the word, level, operand, count, state and journal
 * are, there is an answer; nothing has to be checked first. What each call gives is proved (docs/PROMISES.md).
 *
 * Every parameter is a pointer or a number, and every result a number or none: each calling convention passes these in
 * one way.
 *
 * What the language cannot see and C must keep to: a pointer is not null and is aligned, also where a length is 0; the
 * memory behind it is readable, and writable where it is not const, for the whole length; no two pointers of a call
 * overlap; no other thread touches that memory during the call; and a bool is 0 or 1.
 *
 * Link target/lib/ARCH/libelsterkabel.a, which `tools/library ARCH` writes, for x86_64 and for aarch64. It needs memcpy
 * and nothing else of a C library, and under 2 KiB of stack beside what memcpy takes. For aarch64 it uses neither x18
 * nor a register for floating point and vectors, and has no landing pads for BTI, so it is called directly. It makes
 * unaligned accesses: what is lent and the stack are Normal memory, and SCTLR_ELx.A is 0.
 */
#ifndef ELSTERKABEL_H
#define ELSTERKABEL_H

#include <stdbool.h>
#include <stddef.h>
#include <stdint.h>

#ifdef __cplusplus
extern "C" {
#endif

/* The interface that this header is of. A host holds it against elsterkabel_version() before any other call: where they
   differ, so may the types below. */
#define ELSTERKABEL_VERSION 1

/* What an answer's number means. The state is as it was unless the number is 0. */
enum elsterkabel_number {
    ELSTERKABEL_DONE = 0,
    ELSTERKABEL_UNDEFINED = 1,
    ELSTERKABEL_TRAP_TO_EL1 = 2, /* exception class 0x18 */
    ELSTERKABEL_TRAP_TO_EL2 = 3, /* exception class 0x18 */
    ELSTERKABEL_NOT_A_TIMER_ACCESS = 4,
    ELSTERKABEL_IMPOSSIBLE_CONTEXT = 5,
    ELSTERKABEL_RESERVED_BIT_SET = 6, /* in a journal's record */
    ELSTERKABEL_BAD_JOURNAL = 7, /* of a whole run: ragged, or over 1,024 records */
    ELSTERKABEL_BUFFER_TOO_SHORT = 8, /* of a whole run */
    ELSTERKABEL_TRAP_TO_EL3 = 10 /* exception class 0x18; of CNTPOFF_EL2 at EL2 alone */
};

/* A journal's record and its answer have this many bytes; a journal has at most this many records. */
#define ELSTERKABEL_RECORD_BYTES 24
#define ELSTERKABEL_RECORD_LIMIT 1024

/* A bool below that holds anything but 0 or 1 is the host's mistake, and then nothing is promised: fill a state field
   by field, or from zeros, and never from bytes of another origin. In Rust it cannot happen: the binding's types hold
   Rust's own bool, which safe code can make 0 or 1 alone, and the library stores and returns no other.

   Features and controls are those of the machine that the guest is shown, and not of the core that it runs on: bits of
   CNTHCTL_EL2 that the host sets to trap the guest's virtual timer are no business of its guest. The desk changes no
   feature and, of the controls, CNTKCTL and CNTHCTL alone, by a write that is permitted.

   Arm has no trap of CNTKCTL_EL1 from EL1. Where the guest's own instruction reaches the core's register, the host puts
   what that holds into the state before it asks. Where the host brings the access to the desk by other means, as by an
   HVC in the instruction's place, the state's is the guest's: after a write the host puts it into the core's register,
   by which the core judges what EL0 does. */
struct elsterkabel_features {
    bool vhe;
    bool sel2;
    bool ecv; /* and CNTPOFF_EL2 */
};

struct elsterkabel_controls {
    bool ns; /* SCR_EL3 */
    bool eel2; /* SCR_EL3 */
    bool ecven; /* SCR_EL3 */
    bool e2h; /* HCR_EL2 */
    bool tge; /* HCR_EL2 */
    uint32_t cntkctl;
    uint32_t cnthctl;
};

struct elsterkabel_timer {
    uint64_t cval;
    bool enable;
    bool imask;
};

struct elsterkabel_timers {
    struct elsterkabel_timer cntp;
    struct elsterkabel_timer cntv;
    struct elsterkabel_timer cnthp;
    struct elsterkabel_timer cnthv;
    struct elsterkabel_timer cnthps;
    struct elsterkabel_timer cnthvs;
};

/* All that the desk knows of a machine. Any value is a state; one that cannot be is answered with 5. */
struct elsterkabel_state {
    struct elsterkabel_features features;
    struct elsterkabel_controls controls;
    uint64_t cntvoff;
    uint64_t cntpoff;
    struct elsterkabel_timers timers;
};

/* One access: an MRS or MSR word at a level. The operand is what register Rt holds, and counts for a write alone. */
struct elsterkabel_access {
    uint32_t word;
    uint8_t level;
    uint64_t operand;
    uint64_t count; /* the physical count */
};

struct elsterkabel_answer {
    uint8_t number;
    uint8_t rt; /* the word's Rt where the number is 0 to 3 or 10, else 0 */
    uint64_t value; /* what a read gives; unknown bits as 0 */
    uint64_t mask; /* the unknown bits of the value */
};

/* In C++ it is named with `struct`, as a function has the same name. */
struct elsterkabel_lines {
    uint8_t number; /* 0, or 5 with no line raised */
    bool cntp;
    bool cntv;
    bool cnthp;
    bool cnthv;
    bool cnthps;
    bool cnthvs;
};

/* One access, on the state. Every field of the answer is written, whatever it held. */
void elsterkabel_access_in(struct elsterkabel_state *state, const struct elsterkabel_access *access,
                           struct elsterkabel_answer *answer);

/* A journal of accesses, run in order on the state; answer i is written to the 24 bytes of the buffer from 24 times i
   on, and no other byte of it is touched. Gives 0, 7 or 8; on 7 and 8 nothing changes. */
uint8_t elsterkabel_run_in(struct elsterkabel_state *state, const uint8_t *journal, size_t journal_length,
                           uint8_t *answers, size_t answers_length);

/* Which timer lines are raised at a physical count. Every field of the lines is written. */
void elsterkabel_lines(const struct elsterkabel_state *state, uint64_t count, struct elsterkabel_lines *lines);

/* The MRS or MSR word of a trap, from the syndrome of its exception of class 0x18: the low bits of ESR_ELx, of which
   those above 21 do not count. A syndrome of another instruction gives a word that is answered with 4. */
uint32_t elsterkabel_word_of(uint32_t iss);

/* The interface that the archive is of. */
uint32_t elsterkabel_version(void);

#ifdef __cplusplus
}
#endif

#endif
