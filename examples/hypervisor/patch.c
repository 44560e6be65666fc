/*
 * How the guest's timer accesses come to EL2.
 *
 * The physical counter and timer trap by CNTHCTL_EL2 on every core. The virtual ones trap by the same register where
 * the core has ECV; without it nothing traps them, and CNTKCTL_EL1 nothing traps on any core. Each word of the guest's
 * text that would reach what is not trapped is replaced by an HVC.
 */
#include "core.h"
#include "guest/calls.h"
#include "hypervisor.h"
#include "words.h"

/* CNTHCTL_EL2. EL1PCTEN and EL1PCEN, which would permit the physical counter and timer, stay 0. */
#define EL1TVT (1u << 13)
#define EL1TVCT (1u << 14)

#define HVC_WORD(call) (0xD4000002u | (call) << 5)

static bool core_has_ecv(void) { return read_register(ID_AA64MMFR0_EL1) >> 60 != 0; }

static bool reaches_what_is_not_trapped(uint32_t word, bool ecv) {
    switch (register_of(word)) {
    case CNTKCTL_EL1:
        return true;
    case CNTVCT_EL0:
    case CNTV_TVAL_EL0:
    case CNTV_CTL_EL0:
    case CNTV_CVAL_EL0:
        return !ecv;
    default:
        return false;
    }
}

static uint64_t patch(uint32_t *text, bool ecv) {
    uint64_t patched = 0;
    for (uint32_t i = 0; i < guest_image.text_bytes / 4; i++) {
        if (reaches_what_is_not_trapped(text[i], ecv)) {
            text[i] = HVC_WORD(CALL_PATCHED);
            patched++;
        }
    }
    return patched;
}

void trap_timer_accesses(uint32_t *text) {
    bool ecv = core_has_ecv();
    write_register(CNTHCTL_EL2, ecv ? EL1TVT | EL1TVCT : 0);
    say(ecv ? "this core has ECV, and traps the guest's virtual timer" : "this core has no ECV");
    say(": words of the guest's text that are replaced by HVC: ");
    say_number(patch(text, ecv));
    say("\n");
}

/* The image itself is not patched, so no table is needed. */
uint32_t original_word(uint64_t pc) {
    uint64_t offset = pc - GUEST_BASE;
    return offset < guest_image.text_bytes ? ((const uint32_t *)&guest_image)[offset / 4] : 0;
}
