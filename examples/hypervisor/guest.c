/* The guest as it starts: its image in its memory, its timer state, and what EL2 lets it do. */
#include "core.h"
#include "guest/calls.h"
#include "hypervisor.h"

/* Its count begins here, so it is not the physical one, and a lease of any 32-bit number ends within its range. */
#define FIRST_COUNT 0x100000000ull

/* HCR_EL2. */
#define HCR_VM (1u << 0) /* the guest's memory is what map_guest says */
#define HCR_IMO (1u << 4) /* interrupts come to EL2, and VI is the guest's */
#define HCR_DC (1u << 12) /* that memory is Normal though the guest's MMU is off, so any code is right in it */
#define HCR_TSC (1u << 19) /* an SMC comes to EL2, and not to the firmware */
#define HCR_RW (1u << 31) /* EL1 is AArch64 */

#define SCTLR_EL1_AT_RESET 0x30D00800
#define EL1H_ALL_MASKED 0x3C5

static uint32_t memory[GUEST_BYTES / 4] __attribute__((aligned(GUEST_BYTES)));

static void load_image(void) {
    memcpy(memory, &guest_image, (size_t)(guest_image_end - (const char *)&guest_image));
    trap_timer_accesses(memory);
    make_executable(memory, sizeof memory);
}

/* Of the guest's machine, and not of the core: it is Non-secure and has no VHE, SEL2 and ECV, its physical counter and
   timer are trapped, and of its virtual ones it is not to know that they trap too. */
static struct elsterkabel_state timers_at_reset(void) {
    return (struct elsterkabel_state){.controls = {.ns = true}, .cntvoff = physical_count() - FIRST_COUNT};
}

void create_guest(struct guest *guest, uint64_t lease) {
    map_guest(memory);
    load_image();
    *guest = (struct guest){.x = {lease}, .pc = GUEST_BASE, .pstate = EL1H_ALL_MASKED, .timers = timers_at_reset()};
    write_register(SCTLR_EL1, SCTLR_EL1_AT_RESET);
    write_register(CNTKCTL_EL1, guest->timers.controls.cntkctl);
    write_register(CNTVOFF_EL2, guest->timers.cntvoff);
    write_register(HCR_EL2, HCR_VM | HCR_IMO | HCR_DC | HCR_TSC | HCR_RW);
    synchronize();
}
