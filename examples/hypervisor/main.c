/* A hypervisor of one guest, whose timer accesses the library answers: from the start of the machine to its end. */
#include "core.h"
#include "hypervisor.h"

/* Where the command `run` puts the ticks of the guest's lease. */
extern const volatile uint64_t lease;

static void check_version(void) {
    say("library of version ");
    say_number(elsterkabel_version());
    say(", header of version ");
    say_number(ELSTERKABEL_VERSION);
    say("\n");
    if (elsterkabel_version() != ELSTERKABEL_VERSION)
        end_machine(OTHER_VERSION);
}

/* By its own vectors, from EL2 or from what no guest here can do. */
_Noreturn void exception_of_its_own(void) {
    say("an exception that the hypervisor has no way for: syndrome ");
    say_hex(read_register(ESR_EL2));
    say(" at ");
    say_hex(read_register(ELR_EL2));
    say("\n");
    end_machine(OWN_MISTAKE);
}

_Noreturn void hypervisor(void) {
    static struct guest guest;
    map_hypervisor();
    check_version();
    listen_to_own_timer();
    create_guest(&guest, lease);
    for (;;) {
        settle_timer(&guest);
        if (run_guest(&guest))
            handle_interrupt();
        else
            handle_trap(&guest);
    }
}
