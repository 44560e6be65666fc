/* A trap of the guest: the word of its access goes to the desk, and what comes back is done. */
#include "core.h"
#include "guest/calls.h"
#include "hypervisor.h"
#include "words.h"

static uint8_t level_of(const struct guest *guest) { return guest->pstate >> 2 & 3; }

static uint64_t operand_of(const struct guest *guest, uint32_t word) {
    return rt_of(word) == XZR ? 0 : guest->x[rt_of(word)];
}

/* PSTATE after an instruction that went through: no branch has just been taken, and a single step has been. */
#define BTYPE (3ull << 10)
#define SINGLE_STEP (1ull << 21)

static void finish(struct guest *guest, uint32_t word, uint64_t value) {
    if (is_read(word) && rt_of(word) != XZR)
        guest->x[rt_of(word)] = value;
    guest->pc += 4;
    guest->pstate &= ~(BTYPE | SINGLE_STEP);
}

static void log_answer(const struct elsterkabel_access *access, const struct elsterkabel_answer *answer) {
    if (answer->number == ELSTERKABEL_DONE)
        happened(ACCESS_DONE, access->count, access->word, is_read(access->word) ? answer->value : access->operand);
    else
        happened(ACCESS_REFUSED, access->count, access->word, answer->number);
}

/* The guest's pc is at the access, or at what was put in its place. */
static void answer_access(struct guest *guest, uint32_t word) {
    struct elsterkabel_access access = {word, level_of(guest), operand_of(guest, word), physical_count()};
    struct elsterkabel_answer answer;
    elsterkabel_access_in(&guest->timers, &access, &answer);
    log_answer(&access, &answer);
    /* The core judges the guest's EL0 by its own register. */
    write_register(CNTKCTL_EL1, guest->timers.controls.cntkctl);

    switch (answer.number) {
    case ELSTERKABEL_DONE:
        finish(guest, word, answer.value);
        break;
    case ELSTERKABEL_TRAP_TO_EL1:
        inject_trap(guest, word);
        break;
    case ELSTERKABEL_UNDEFINED:
    case ELSTERKABEL_TRAP_TO_EL2: /* the policy here: the guest has no EL2, and no physical counter and timer */
    case ELSTERKABEL_TRAP_TO_EL3: /* which is for a guest at EL2 alone */
    case ELSTERKABEL_NOT_A_TIMER_ACCESS: /* and there is no other device to ask */
        inject_undefined(guest);
        break;
    default:
        say("the desk finds the guest's state or level impossible\n");
        end_machine(OWN_MISTAKE);
    }
}

/* A guest may call with any numbers. */
static bool take_note(const struct guest *guest) {
    static const enum what meanings[] = {
        [NOTE_INTERRUPTED] = GUEST_INTERRUPTED, [NOTE_LOST_REGISTERS] = GUEST_LOST_REGISTERS,
        [NOTE_READ_AT_EL0] = GUEST_READ_AT_EL0, [NOTE_TRIED] = GUEST_TRIED,
        [NOTE_FAULTED] = GUEST_FAULTED,
    };
    uint64_t note = guest->x[0];
    if (note >= sizeof meanings / sizeof *meanings)
        return false;
    happened(meanings[note], physical_count(), guest->x[1], guest->x[2]);
    return true;
}

/* After an HVC the core's return address is behind it. */
static void handle_call(struct guest *guest, uint32_t call) {
    uint64_t pc = guest->pc - 4;
    if (call == CALL_PATCHED) {
        guest->pc = pc;
        answer_access(guest, original_word(pc));
    } else if (call == CALL_DONE) {
        tell_log(guest);
        end_machine(went_as_expected(guest) ? AS_EXPECTED : NOT_AS_EXPECTED);
    } else if (call != CALL_NOTE || !take_note(guest)) {
        guest->pc = pc;
        inject_undefined(guest);
    }
}

void handle_trap(struct guest *guest) {
    uint64_t syndrome = read_register(ESR_EL2);
    uint32_t iss = syndrome & 0x1FFFFFF;
    switch (syndrome >> 26 & 0x3F) {
    case SYSTEM_REGISTER:
        answer_access(guest, elsterkabel_word_of(iss));
        break;
    case HVC:
        handle_call(guest, iss & 0xFFFF);
        break;
    default:
        say("the guest does what this hypervisor has no way for: syndrome ");
        say_hex(syndrome);
        say(" at ");
        say_hex(guest->pc);
        say("\n");
        end_machine(STRAY_GUEST);
    }
}
