/*
 * A trap handler over the answer desk. A guest's access to a timer register has trapped to the hypervisor with
 * exception class 0x18; the handler takes the word from the syndrome, the level, the operand register and the count,
 * calls, and acts on the number. `main` lets a guest arm its virtual timer for 50 ticks, and shut its counters to EL0.
 *
 *     tools/library "$(uname -m)"
 *     cc -Ibinding/c binding/c/trap_handler.c target/lib/$(uname -m)/libelsterkabel.a -o target/trap_handler
 */
#include "elsterkabel.h"

#include <inttypes.h>
#include <stdio.h>

/* What a hypervisor keeps of a guest. */
struct guest {
    uint64_t x[31];
    uint64_t pc;
    struct elsterkabel_state timers;
};

/* What is left to do once the desk has answered. */
enum todo {
    RESUME,
    INJECT_UNDEFINED,
    INJECT_TRAP_TO_EL1,
    TRAP_TO_EL2, /* for the guest's own EL2, or the hypervisor's policy where the guest has none */
    TRAP_TO_EL3, /* for the guest's own EL3, likewise; no guest at EL0 and EL1 comes to it */
    NOT_A_TIMER, /* for another of the hypervisor's devices */
    IMPOSSIBLE_CONTEXT, /* the state or the level cannot be: the hypervisor's own mistake */
};

static const char *words_for(enum todo todo) {
    switch (todo) {
    case RESUME:
        return "resume";
    case INJECT_UNDEFINED:
        return "inject Undefined";
    case INJECT_TRAP_TO_EL1:
        return "inject a trap to EL1";
    case TRAP_TO_EL2:
        return "trap to EL2";
    case TRAP_TO_EL3:
        return "trap to EL3";
    case NOT_A_TIMER:
        return "ask another device";
    default:
        return "impossible context";
    }
}

enum { XZR = 31 };

static enum todo handle(struct guest *guest, uint32_t iss, uint8_t level, uint64_t count) {
    uint32_t rt = iss >> 5 & 31;
    bool mrs = iss & 1;
    uint64_t operand = rt == XZR ? 0 : guest->x[rt];
    /* Where the guest's own MSR CNTKCTL_EL1 reaches the core, which does not trap it, the core's CNTKCTL_EL1 goes into
       the state here. */
    struct elsterkabel_access access = {elsterkabel_word_of(iss), level, operand, count};
    struct elsterkabel_answer answer;
    elsterkabel_access_in(&guest->timers, &access, &answer);
    /* Where that MSR comes here instead, as by an HVC in its place, the state's CNTKCTL goes into the core's here. */

    switch (answer.number) {
    case ELSTERKABEL_DONE:
        if (mrs && rt != XZR)
            guest->x[rt] = answer.value;
        guest->pc += 4;
        return RESUME;
    case ELSTERKABEL_UNDEFINED:
        return INJECT_UNDEFINED;
    case ELSTERKABEL_TRAP_TO_EL1:
        return INJECT_TRAP_TO_EL1;
    case ELSTERKABEL_TRAP_TO_EL2:
        return TRAP_TO_EL2;
    case ELSTERKABEL_TRAP_TO_EL3:
        return TRAP_TO_EL3;
    case ELSTERKABEL_NOT_A_TIMER_ACCESS:
        return NOT_A_TIMER;
    default:
        return IMPOSSIBLE_CONTEXT;
    }
}

/* The ISS of an access to a timer register: op0 is 3 and CRn is 14 in all. */
static uint32_t iss_of(bool mrs, uint32_t op1, uint32_t crm, uint32_t op2, uint32_t rt) {
    return 3u << 20 | op2 << 17 | op1 << 14 | 14u << 10 | rt << 5 | crm << 1 | (uint32_t)mrs;
}

static const char *line_at(const struct guest *guest, uint64_t count) {
    struct elsterkabel_lines lines;
    elsterkabel_lines(&guest->timers, count, &lines);
    return lines.cntv ? "up" : "down";
}

int main(void) {
    if (elsterkabel_version() != ELSTERKABEL_VERSION) {
        fprintf(stderr, "the archive is of interface %" PRIu32 ", and the header of %d\n", elsterkabel_version(),
                ELSTERKABEL_VERSION);
        return 1;
    }

    /* A Non-secure guest whose physical counter and timer are trapped, with its virtual count 400 behind. */
    struct guest guest = {.timers = {.features = {.vhe = true, .sel2 = true},
                                     .controls = {.ns = true, .cntkctl = 0x303},
                                     .cntvoff = 400}};
    enum { EL0, EL1, EL2 };

    enum todo read_count = handle(&guest, iss_of(true, 3, 0, 2, 0), EL1, 1000);
    printf("MRS X0, CNTVCT_EL0 at 1000: %s, X0 is %" PRIu64 "\n", words_for(read_count), guest.x[0]);

    guest.x[1] = 50;
    enum todo set_value = handle(&guest, iss_of(false, 3, 3, 0, 1), EL1, 1000);
    printf("MSR CNTV_TVAL_EL0, X1 at 1000: %s, CVAL is %" PRIu64 "\n", words_for(set_value),
           guest.timers.timers.cntv.cval);

    guest.x[2] = 1;
    enum todo enable = handle(&guest, iss_of(false, 3, 3, 1, 2), EL1, 1000);
    printf("MSR CNTV_CTL_EL0, X2 at 1000: %s\n", words_for(enable));

    printf("the CNTV line at 1049: %s\n", line_at(&guest, 1049));
    printf("the CNTV line at 1050: %s\n", line_at(&guest, 1050));

    enum todo read_physical = handle(&guest, iss_of(true, 3, 0, 1, 3), EL1, 1050);
    printf("MRS X3, CNTPCT_EL0 at 1050: %s, X3 is %" PRIu64 "\n", words_for(read_physical), guest.x[3]);

    guest.x[4] = 0;
    enum todo shut = handle(&guest, iss_of(false, 0, 1, 0, 4), EL1, 1050);
    printf("MSR CNTKCTL_EL1, X4 at 1050: %s, CNTKCTL is %" PRIu32 "\n", words_for(shut), guest.timers.controls.cntkctl);
    enum todo read_from_el0 = handle(&guest, iss_of(true, 3, 0, 2, 0), EL0, 1050);
    printf("MRS X0, CNTVCT_EL0 from EL0 at 1050: %s\n", words_for(read_from_el0));

    /* As if it had an EL2 too, which its EL3 does not let at the offset that came with ECV. */
    guest.timers.features.ecv = true;
    enum todo read_offset = handle(&guest, iss_of(true, 4, 0, 6, 5), EL2, 1050);
    printf("MRS X5, CNTPOFF_EL2 from EL2 at 1050: %s\n", words_for(read_offset));
    printf("resumed %" PRIu64 " times\n", guest.pc / 4);
    return 0;
}
