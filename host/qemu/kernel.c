/* The kernel's main function: the domain begins, both sides run, the report. */
#include "domain.h"
#include "machine.h"

#define FIRST_INTERRUPT 1000u

_Noreturn void kernel_main(void)
{
    machine_begin();
    print_text("One domain in a 64-bit kernel, SSE off: the hypervisor is its main line, the guest its timer interrupt.\n");
    if (evtchn_fifo_layout() != EVTCHN_FIFO_LAYOUT || !hypervisor_begin()) {
        print_text("The archive has another layout than the header, or refuses the first calls.\n");
        machine_end(false);
    }
    guest_begin();
    timer_begin(FIRST_INTERRUPT);
    hypervisor_run();
    hypervisor_finish();
    timer_end();
    machine_end(report());
}
