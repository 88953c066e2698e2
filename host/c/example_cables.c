/*
 * A host of two domains with a cable from port 5 of domain 1 to port 9 of domain 2: an event each way, then a close of one end, after
 * which a send from the other finds no cable. One thread does everything, so that there are no locks.
 */
#include <stdio.h>

#include "evtchn_cables.h"

#define ENTRIES 4096u

typedef struct vm {
    evtchn_fifo_domain domain;
    evtchn_fifo_guest guest;
    uint16_t ledger[ENTRIES];
    uint32_t page[EVTCHN_FIFO_PAGE_WORDS];
    evtchn_fifo_control control;
    uint32_t *pages[1];
    evtchn_fifo_shared shared;
} vm;

static vm vms[EVTCHN_CABLES_DOMAINS];
static evtchn_cables cables;

/* The rest of a call of the hypervisor's: its answer. */
static evtchn_fifo_outcome run(vm *v, evtchn_fifo_next start)
{
    return evtchn_fifo_run(&v->domain, v->ledger, ENTRIES, &v->shared, start);
}

/* A virtual machine with one page and one port that is bound; 0 where a call is refused. */
static int begin(vm *v, uint32_t port)
{
    v->pages[0] = v->page;
    v->shared.control = &v->control;
    v->shared.pages = v->pages;
    v->shared.words = EVTCHN_FIFO_PAGE_WORDS;
    evtchn_fifo_domain_fresh(&v->domain);
    evtchn_fifo_guest_fresh(&v->guest);
    evtchn_fifo_ledger_fresh(v->ledger, ENTRIES);
    if (run(v, evtchn_fifo_domain_init_control(&v->domain, 0, 0x1000, 0x2000, 0)).code != EVTCHN_FIFO_DONE)
        return 0;
    if (run(v, evtchn_fifo_domain_expand_array(&v->domain, 0x1001, 0x2000)).code != EVTCHN_FIFO_DONE)
        return 0;
    evtchn_fifo_guest_tell(&v->guest, EVTCHN_FIFO_PAGE_WORDS);
    return run(v, evtchn_fifo_domain_bind(&v->domain, v->ledger, ENTRIES, port)).code == EVTCHN_FIFO_DONE;
}

static evtchn_cables_end end_of(uint32_t number, uint32_t port)
{
    evtchn_cables_end end = {&vms[number].domain, vms[number].ledger, ENTRIES, number, port};
    return end;
}

/* What a guest does at an upcall. */
static void serve_all(vm *v)
{
    evtchn_fifo_outcome served;
    do {
        served = evtchn_fifo_serve(&v->guest, &v->shared);
        printf("service: %s, port %u\n", evtchn_fifo_name(served.code), (unsigned)served.index);
    } while (served.code == EVTCHN_FIFO_HANDED_OVER || served.code == EVTCHN_FIFO_TAKEN);
}

/* The raise of a port, and what the guest does at the upcall. */
static void deliver(vm *v, uint32_t port)
{
    evtchn_fifo_outcome raised = run(v, evtchn_fifo_domain_raise(&v->domain, v->ledger, ENTRIES, port));
    printf("raise: %s after %u accesses\n", evtchn_fifo_name(raised.code), (unsigned)raised.count);
    if (raised.code == EVTCHN_FIFO_UPCALL_WANTED)
        serve_all(v);
}

static void send(uint32_t number, uint32_t port, uint32_t hint)
{
    evtchn_cables_far far = evtchn_cables_send(&cables, end_of(number, port), hint);
    printf("send from port %u of domain %u: %s\n", (unsigned)port, (unsigned)number, evtchn_cables_name(far.code));
    if (far.code == EVTCHN_FIFO_DONE)
        deliver(&vms[far.domain], far.port);
}

static void close_port(uint32_t number, uint32_t port)
{
    vm *v = &vms[number];
    evtchn_fifo_next next = evtchn_cables_domain_close(&cables, number, &v->domain, v->ledger, ENTRIES, port);
    evtchn_fifo_outcome closed = evtchn_cables_run(&cables, number, &v->domain, v->ledger, ENTRIES, &v->shared, next);
    printf("close of port %u of domain %u: %s\n", (unsigned)port, (unsigned)number, evtchn_cables_name(closed.code));
}

int main(void)
{
    evtchn_cables_laid laid;
    if (!begin(&vms[1], 5) || !begin(&vms[2], 9))
        return 1;
    laid = evtchn_cables_lay(&cables, end_of(1, 5), end_of(2, 9));
    printf("lay: %s, slot %u\n", evtchn_cables_name(laid.code), (unsigned)laid.slot);
    send(1, 5, laid.slot);
    send(2, 9, laid.slot);
    close_port(1, 5);
    send(2, 9, laid.slot);
    return 0;
}
