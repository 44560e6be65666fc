/* Whether all went as it should, by the log alone: what had to happen did, once and in its order, and never early. */
#include "guest/calls.h"
#include "hypervisor.h"
#include "words.h"

/* The lease in its steps. Reads of the guest and the hypervisor's own timer stand between them. */
enum step { TAKEN, TURNED_ON, WENT_UP, INTERRUPTED, GIVEN_BACK, WENT_DOWN, STEPS, NO_STEP };

static bool is_access(const struct event *event, uint32_t to, bool read) {
    uint32_t word = (uint32_t)event->first;
    return event->what == ACCESS_DONE && register_of(word) == to && is_read(word) == read;
}

static enum step step_of(const struct event *event) {
    if (is_access(event, CNTV_TVAL_EL0, false))
        return TAKEN;
    if (is_access(event, CNTV_CTL_EL0, false))
        return event->second == 1 ? TURNED_ON : GIVEN_BACK;
    switch (event->what) {
    case LINE_UP:
        return WENT_UP;
    case GUEST_INTERRUPTED:
        return INTERRUPTED;
    case LINE_DOWN:
        return WENT_DOWN;
    default:
        return NO_STEP;
    }
}

/* Each step of each lease once, and in its order. */
static bool find_steps(const struct event *steps[LEASES * STEPS]) {
    size_t found = 0;
    for (const struct event *event = first_event(); event < past_last_event(); event++) {
        enum step step = step_of(event);
        if (step == NO_STEP)
            continue;
        if (step != found % STEPS || found == LEASES * STEPS)
            return false;
        steps[found++] = event;
    }
    return found == LEASES * STEPS;
}

/* A TVAL is a signed number of 32 bits. */
static int64_t ticks_of(const struct event *taken) { return (int32_t)taken->second; }

/* What TVAL reads is what is left, and CNTVCT is the virtual count. The last two are the guest's own word too. */
static bool readings_are_right(const struct event *const steps[STEPS], uint64_t deadline, uint64_t cntvoff) {
    const struct event *noted = steps[INTERRUPTED];
    bool right = noted->first == (noted - 2)->second && noted->second == (noted - 1)->second;
    for (const struct event *event = steps[TAKEN]; event < steps[GIVEN_BACK]; event++) {
        if (is_access(event, CNTV_TVAL_EL0, true))
            right &= event->second == deadline - event->count;
        if (is_access(event, CNTVCT_EL0, true))
            right &= event->second == event->count - cntvoff;
    }
    return right;
}

/* CNTKCTL. */
enum { EL0VCTEN = 1 << 1, KEPT_WITHOUT_ECV = 0x3FF };

static bool is_turn_ended_by(const struct event *event, enum exception_class reason) {
    return event->what == GUEST_READ_AT_EL0 && event->second >> 26 == reason;
}

/* With the count as it was in its turn, which is after the write that opened it and before the guest's note. */
static bool el0_read(const struct event *event, const struct event *written, uint64_t cntvoff) {
    uint64_t count = event->first + cntvoff;
    return is_turn_ended_by(event, SVC) && written->count <= count && count <= event->count;
}

static bool el0_was_trapped(const struct event *event) {
    uint32_t word = elsterkabel_word_of((uint32_t)event->second);
    return is_turn_ended_by(event, SYSTEM_REGISTER) && is_read(word) && register_of(word) == CNTVCT_EL0;
}

/* EL0 had two turns: it read where CNTKCTL was last written to open the count, and was trapped where not. */
static bool el0_was_ruled(const struct event *lease_over, uint64_t cntvoff) {
    const struct event *written = lease_over; /* whose second number is 0: nothing is open yet */
    uint64_t turns = 0, reads = 0, traps = 0;
    bool kept = true;
    for (const struct event *event = lease_over; event < past_last_event(); event++) {
        if (is_access(event, CNTKCTL_EL1, false))
            written = event;
        if (is_access(event, CNTKCTL_EL1, true))
            kept &= event->second == (written->second & KEPT_WITHOUT_ECV);
        bool open = written->second & EL0VCTEN;
        turns += event->what == GUEST_READ_AT_EL0;
        reads += open && el0_read(event, written, cntvoff);
        traps += !open && el0_was_trapped(event);
    }
    bool right = kept && turns == 2 && reads == 1 && traps == 1;
    say(right ? "EL0 read the count while its kernel had it open, and was trapped while it was shut\n"
              : "EL0 did NOT get what its kernel had opened and shut\n");
    return right;
}

/* Every attempt, in the order of the list, and Undefined came of each. */
static bool attempts_failed(const struct event *lease_over) {
#define ONE(name, instruction) +1
    const uint64_t attempts = 0 ATTEMPTS(ONE);
    uint64_t tried = 0, undefined = 0;
    for (const struct event *event = lease_over; event < past_last_event(); event++) {
        if (event->what != GUEST_TRIED || event->first != tried)
            continue;
        tried++;
        undefined += event->second >> 26 == 0;
    }
    say("of ");
    say_number(attempts);
    say(" things that it may not touch the guest tried ");
    say_number(tried);
    say(", and Undefined came of ");
    say_number(undefined);
    say("\n");
    return tried == attempts && undefined == attempts;
}

/* Whether it is not before the deadline. */
static bool say_when(const char *what, int64_t after) {
    say(what);
    say_number(after < 0 ? 0 - (uint64_t)after : (uint64_t)after);
    say(after < 0 ? " ticks BEFORE the deadline" : " ticks after the deadline");
    return after >= 0;
}

static bool lease_is_right(const struct event *const steps[STEPS], uint64_t cntvoff) {
    uint64_t deadline = steps[TAKEN]->count + (uint64_t)ticks_of(steps[TAKEN]);
    bool by_own_timer = (steps[WENT_UP] - 1)->what == OWN_TIMER;

    say("lease of ");
    say_signed(ticks_of(steps[TAKEN]));
    say(" ticks from ");
    say_number(steps[TAKEN]->count - cntvoff);
    say(" on: the deadline is ");
    say_number(deadline - cntvoff);
    bool right = say_when("\nthe line went up ", (int64_t)(steps[WENT_UP]->count - deadline));
    say(by_own_timer ? ", by the hypervisor's own timer" : ", at an access of the guest");
    right &= say_when("\nthe guest was interrupted ", (int64_t)(steps[INTERRUPTED]->first + cntvoff - deadline));
    say(right ? "\nthe interrupt came at or after the deadline, and never before\n"
              : "\nthe interrupt came too EARLY\n");

    bool readings = readings_are_right(steps, deadline, cntvoff);
    say(readings ? "" : "the guest did NOT read the virtual count, or what was left\n");
    return right && readings;
}

bool went_as_expected(const struct guest *guest) {
    const struct event *steps[LEASES * STEPS];
    say("\n");
    if (!find_steps(steps)) {
        say("the leases did NOT go their way\n");
        return false;
    }
    bool leases = true;
    for (size_t i = 0; i < LEASES; i++)
        leases &= lease_is_right(steps + i * STEPS, guest->timers.cntvoff);
    const struct event *over = steps[LEASES * STEPS - 1];
    bool el0 = el0_was_ruled(over, guest->timers.cntvoff);
    bool attempts = attempts_failed(over);
    bool all = leases && el0 && attempts;
    say(all ? "all as expected\n" : "NOT as expected\n");
    return all;
}
