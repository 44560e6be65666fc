/* An exception that the guest takes at its EL1, as a core of Armv8.0 gives it; later ones have more PSTATE to keep. */
#include "core.h"
#include "hypervisor.h"

/* PSTATE, as SPSR has it. */
#define FLAGS 0xF0000000u
#define ALL_MASKED 0x3C0u
#define EL1H 5u

/* Where the guest's vectors have a synchronous exception, by what it comes from. */
static uint64_t vector_offset(uint64_t pstate) {
    switch (pstate & 0xF) {
    case EL1H:
        return 0x200;
    case EL1H - 1: /* EL1 with the stack of EL0 */
        return 0;
    default:
        return 0x400;
    }
}

static void inject(struct guest *guest, enum exception_class reason, uint32_t iss) {
    const uint32_t of_32_bits = 1u << 25;
    write_register(ESR_EL1, (uint32_t)reason << 26 | of_32_bits | iss);
    write_register(ELR_EL1, guest->pc);
    write_register(SPSR_EL1, guest->pstate);
    guest->pc = read_register(VBAR_EL1) + vector_offset(guest->pstate);
    guest->pstate = (guest->pstate & FLAGS) | ALL_MASKED | EL1H;
}

/* The ISS of an MRS or MSR. One that has come by a patch has none from the core. */
static uint32_t iss_of(uint32_t word) {
    uint32_t mrs = word >> 21 & 1, op0 = word >> 19 & 3, op1 = word >> 16 & 7, crn = word >> 12 & 15;
    uint32_t crm = word >> 8 & 15, op2 = word >> 5 & 7, rt = word & 31;
    return op0 << 20 | op2 << 17 | op1 << 14 | crn << 10 | rt << 5 | crm << 1 | mrs;
}

void inject_undefined(struct guest *guest) { inject(guest, UNKNOWN_REASON, 0); }

void inject_trap(struct guest *guest, uint32_t word) { inject(guest, SYSTEM_REGISTER, iss_of(word)); }
