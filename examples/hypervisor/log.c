/* What happened, in its order, and how it is told. */
#include "guest/calls.h"
#include "hypervisor.h"
#include "words.h"

static struct event events[128];
static size_t length;

/* There is room for all that is expected. */
void happened(enum what what, uint64_t count, uint64_t first, uint64_t second) {
    if (length == sizeof events / sizeof *events) {
        say("more happens than is expected\n");
        end_machine(NOT_AS_EXPECTED);
    }
    events[length++] = (struct event){what, count, first, second};
}

const struct event *first_event(void) { return events; }

const struct event *past_last_event(void) { return events + length; }

static const char *name_of(uint32_t word) {
    switch (register_of(word)) {
    case CNTVCT_EL0:
        return "CNTVCT_EL0";
    case CNTV_TVAL_EL0:
        return "CNTV_TVAL_EL0";
    case CNTV_CTL_EL0:
        return "CNTV_CTL_EL0";
    case CNTV_CVAL_EL0:
        return "CNTV_CVAL_EL0";
    case CNTKCTL_EL1:
        return "CNTKCTL_EL1";
    default:
        return "a register that it may not touch";
    }
}

static const char *attempt_of(uint64_t which) {
#define NAME(name, instruction) name,
    static const char *const names[] = {ATTEMPTS(NAME)};
    return which < sizeof names / sizeof *names ? names[which] : "what is on no list";
}

static void tell_syndrome(uint64_t syndrome) {
    uint64_t reason = syndrome >> 26 & 0x3F;
    uint32_t word = elsterkabel_word_of((uint32_t)syndrome);
    if (syndrome == NOTHING_CAME) {
        say("it got through");
    } else if (reason == UNKNOWN_REASON) {
        say("Undefined");
    } else if (reason == SYSTEM_REGISTER) {
        say(is_read(word) ? "a trap of MRS " : "a trap of MSR ");
        say(name_of(word));
    } else {
        say("an exception of class ");
        say_hex(reason);
    }
}

static void tell_access(const struct event *event) {
    uint32_t word = (uint32_t)event->first;
    say(is_read(word) ? "the guest reads " : "the guest writes ");
    say(name_of(word));
    say(": ");
    if (register_of(word) == CNTKCTL_EL1)
        say_hex(event->second);
    else
        say_signed((int64_t)event->second);
}

static void tell_turn_of_el0(const struct event *event) {
    say("EL0 tried MRS CNTVCT_EL0: ");
    if (event->second >> 26 == SVC)
        say_number(event->first);
    else
        tell_syndrome(event->second);
}

static void tell_refusal(const struct event *event) {
    static const char *const meanings[] = {[ELSTERKABEL_UNDEFINED] = "Undefined",
                                           [ELSTERKABEL_TRAP_TO_EL1] = "trap to EL1",
                                           [ELSTERKABEL_TRAP_TO_EL2] = "trap to EL2",
                                           [ELSTERKABEL_TRAP_TO_EL3] = "trap to EL3",
                                           [ELSTERKABEL_NOT_A_TIMER_ACCESS] = "not a timer access"};
    say("the desk answers ");
    say_number(event->second);
    say(", ");
    say(meanings[event->second]);
}

static void tell(const struct event *event) {
    switch (event->what) {
    case ACCESS_DONE:
        tell_access(event);
        break;
    case ACCESS_REFUSED:
        tell_refusal(event);
        break;
    case OWN_TIMER:
        say("the hypervisor's own timer interrupts");
        break;
    case LINE_UP:
        say("the guest's line goes up");
        break;
    case LINE_DOWN:
        say("the guest's line goes down");
        break;
    case GUEST_INTERRUPTED:
        say("the guest notes its interrupt");
        break;
    case GUEST_READ_AT_EL0:
        tell_turn_of_el0(event);
        break;
    case GUEST_TRIED:
        say("the guest tried ");
        say(attempt_of(event->first));
        say(": ");
        tell_syndrome(event->second);
        break;
    case GUEST_LOST_REGISTERS:
        say("the guest has lost what its registers held");
        break;
    case GUEST_FAULTED:
        say("the guest did not expect ");
        tell_syndrome(event->second);
        break;
    }
}

void tell_log(const struct guest *guest) {
    say("\n  physical count     virtual count\n");
    for (const struct event *event = first_event(); event < past_last_event(); event++) {
        say_column(event->count, 16);
        say_column(event->count - guest->timers.cntvoff, 18);
        say("  ");
        tell(event);
        say("\n");
    }
}
