/* The interrupt of the hypervisor's own timer, by the machine's GICv2. Nothing else interrupts. */
#include "hypervisor.h"

#define DISTRIBUTOR 0x08000000
#define INTERFACE 0x08010000
#define register_at(address) (*(volatile uint32_t *)(address))

#define GICD_CTLR register_at(DISTRIBUTOR)
#define GICD_ISENABLER0 register_at(DISTRIBUTOR + 0x100)
#define GICC_CTLR register_at(INTERFACE)
#define GICC_PMR register_at(INTERFACE + 0x4)
#define GICC_IAR register_at(INTERFACE + 0xC)
#define GICC_EOIR register_at(INTERFACE + 0x10)

enum { OWN_TIMER_INTERRUPT = 26 };

void listen_to_own_timer(void) {
    GICD_ISENABLER0 = 1u << OWN_TIMER_INTERRUPT;
    GICD_CTLR = 1;
    GICC_PMR = 0xFF;
    GICC_CTLR = 1;
}

/* The timer's interrupt lasts until the timer is stopped. */
void handle_interrupt(void) {
    uint32_t taken = GICC_IAR;
    if ((taken & 0x3FF) != OWN_TIMER_INTERRUPT)
        return;
    happened(OWN_TIMER, physical_count(), 0, 0);
    stop_own_timer();
    GICC_EOIR = taken;
}
