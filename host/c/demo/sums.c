/* The account of a port: the times that PENDING went from clear to set are its hand-overs, and the closes that found it set, and one if it
 * is set now. An event that is left pending on a port that is not masked is lost too: no guest will be woken for it. The raises of a port
 * are the hypervisor's and those that sends began. */
#include "sums.h"

uint32_t larger(uint32_t one, uint32_t other) { return one > other ? one : other; }

uint32_t word_of(const domain *d, uint32_t port)
{
    return __atomic_load_n(&d->array[port / EVTCHN_FIFO_PAGE_WORDS][port % EVTCHN_FIFO_PAGE_WORDS], __ATOMIC_RELAXED);
}

void add_port(sums *s, const domain *d, uint32_t port)
{
    const port_account *account = &d->accounts[port];
    uint32_t word = word_of(d, port);
    bool held_back = (word & EVTCHN_FIFO_WORD_PENDING) != 0 && (word & EVTCHN_FIFO_WORD_MASKED) != 0;
    uint64_t due = account->events - account->closed - held_back;
    s->raises += account->events + account->coalesced;
    s->hand_overs += account->handed_over;
    s->coalesced += account->coalesced;
    s->closed += account->closed;
    s->sent += account->sent;
    s->received += account->received;
    if (due > account->handed_over)
        s->lost += due - account->handed_over;
    else
        s->doubled += account->handed_over - due;
}

void add_domain(sums *s, const domain *d)
{
    uint32_t k;
    s->domains++;
    s->joined += d->partner != NULL;
    s->longest = larger(s->longest, d->hypervisor.longest);
    s->longest_service = larger(s->longest_service, d->guest.longest);
    s->abandoned += d->hypervisor.abandoned;
    s->refused += d->cable_tally.refused;
    s->laid += d->cable_tally.laid;
    s->cut += d->cable_tally.cut;
    s->unmasks += d->unmasks.without_call + d->unmasks.with_call;
    s->calls += d->unmasks.with_call;
    for (k = 0; k <= MOST_ACCESSES; k++)
        s->lengths[k] += d->lengths[k];
    for (k = 0; k < WORDS; k++)
        add_port(s, d, k);
}

sums sums_of(const host *h, conduct kind)
{
    sums s = {0};
    uint32_t k;
    for (k = 0; k < h->count; k++)
        if (h->domains[k].conduct == kind)
            add_domain(&s, &h->domains[k]);
    return s;
}
