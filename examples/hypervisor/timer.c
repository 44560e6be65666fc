/*
 * The guest's line and the hypervisor's own timer. Before the guest goes on, the one is as the desk says; and where it
 * is down and will go up by itself, the other is set for that count.
 */
#include "core.h"
#include "hypervisor.h"

#define HCR_VI (1u << 7)

enum { TIMER_ENABLE = 1 };

uint64_t physical_count(void) {
    synchronize();
    return read_register(CNTPCT_EL0);
}

static bool line_is_up(const struct guest *guest, uint64_t count) {
    struct elsterkabel_lines lines;
    elsterkabel_lines(&guest->timers, count, &lines);
    if (lines.number != ELSTERKABEL_DONE) {
        say("the desk finds the guest's state impossible\n");
        end_machine(OWN_MISTAKE);
    }
    return lines.cntv;
}

static void drive_line(bool up, uint64_t count) {
    uint64_t hcr = read_register(HCR_EL2);
    if (up == !!(hcr & HCR_VI))
        return;
    write_register(HCR_EL2, hcr ^ HCR_VI);
    happened(up ? LINE_UP : LINE_DOWN, count, 0, 0);
}

/* At most the counter's last count: a sum that wraps would be long past, and the guest would not get on. */
static uint64_t deadline(const struct guest *guest, uint64_t count) {
    uint64_t left = guest->timers.timers.cntv.cval - (count - guest->timers.cntvoff);
    return left > UINT64_MAX - count ? UINT64_MAX : count + left;
}

static void set_own_timer(uint64_t count) {
    write_register(CNTHP_CVAL_EL2, count);
    write_register(CNTHP_CTL_EL2, TIMER_ENABLE);
}

void stop_own_timer(void) {
    write_register(CNTHP_CTL_EL2, 0);
    synchronize();
}

void settle_timer(const struct guest *guest) {
    const struct elsterkabel_timer *timer = &guest->timers.timers.cntv;
    uint64_t count = physical_count();
    bool up = line_is_up(guest, count);
    drive_line(up, count);
    if (!up && timer->enable && !timer->imask)
        set_own_timer(deadline(guest, count));
    else
        stop_own_timer();
}
