/* A host that binds port 5, raises it, and serves until nothing is ready. */
#include <stdio.h>

#include "evtchn_fifo_atomic.h"

#define ENTRIES 4096u

static uint32_t page[EVTCHN_FIFO_PAGE_WORDS];
static uint32_t *const pages[] = {page};
static evtchn_fifo_control control;
static const evtchn_fifo_shared shared = {&control, pages, EVTCHN_FIFO_PAGE_WORDS};
static evtchn_fifo_domain domain;
static evtchn_fifo_guest guest;
static uint16_t ledger[ENTRIES];

/* The rest of a call of the hypervisor's; a host holds the domain's lock from before its start. */
static uint32_t answer(const char *call, evtchn_fifo_next start)
{
    evtchn_fifo_outcome outcome = evtchn_fifo_run(&domain, ledger, ENTRIES, &shared, start);
    printf("%s: %s after %u accesses\n", call, evtchn_fifo_name(outcome.code), (unsigned)outcome.count);
    return outcome.code;
}

/* What a guest does at an upcall. */
static void serve_all(void)
{
    evtchn_fifo_outcome served;
    do {
        served = evtchn_fifo_serve(&guest, &shared);
        printf("service: %s, port %u\n", evtchn_fifo_name(served.code), (unsigned)served.index);
    } while (served.code == EVTCHN_FIFO_HANDED_OVER || served.code == EVTCHN_FIFO_TAKEN);
}

/* Fresh records, the control block given, one page, and the guest told of it. */
static int begin(void)
{
    evtchn_fifo_domain_fresh(&domain);
    evtchn_fifo_guest_fresh(&guest);
    evtchn_fifo_ledger_fresh(ledger, ENTRIES);
    if (answer("init_control", evtchn_fifo_domain_init_control(&domain, 0, 0x1000, 0x2000, 0)) != EVTCHN_FIFO_DONE)
        return 0;
    if (answer("expand_array", evtchn_fifo_domain_expand_array(&domain, 0x1001, 0x2000)) != EVTCHN_FIFO_DONE)
        return 0;
    evtchn_fifo_guest_tell(&guest, EVTCHN_FIFO_PAGE_WORDS);
    return 1;
}

int main(void)
{
    if (!begin() || answer("bind", evtchn_fifo_domain_bind(&domain, ledger, ENTRIES, 5)) != EVTCHN_FIFO_DONE)
        return 1;
    if (answer("raise", evtchn_fifo_domain_raise(&domain, ledger, ENTRIES, 5)) == EVTCHN_FIFO_UPCALL_WANTED)
        serve_all();
    return 0;
}
