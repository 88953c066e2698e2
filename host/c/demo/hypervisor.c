/* The hypervisor's threads: events for random ports of random domains. */
#include <sched.h>

#include "cables.h"
#include "random.h"

/* Events for one domain before the thread turns to another. */
#define MOST_EVENTS 16u

/* A port bound anew has no cable: its close has cut it. */
static void bind_port(host *h, domain *d, uint32_t port)
{
    if (domain_bind(d, port) == EVTCHN_FIFO_DONE && d->joints[port].far_port != 0)
        cables_lay(h, d, port);
}

/* A port let again: closed, and bound anew; its old event may still be linked, and then the bind gives 7. */
static void reopen(host *h, domain *d, uint32_t port)
{
    cables_close(h, d, port);
    bind_port(h, d, port);
}

/* Of a reopening guest's ports every second is let again, and all get other priorities, one event in so many. */
static void change(host *h, domain *d, uint32_t at, uint64_t *random)
{
    switch (random_below(random, 16)) {
    case 0:
        if (at % 2 == 0)
            reopen(h, d, ports[at]);
        break;
    case 1: domain_set_priority(d, ports[at], random_below(random, EVTCHN_FIFO_QUEUES)); break;
    default: break;
    }
}

/* One event of a domain. Where the port is not bound, since its last bind gave 7, it is bound. */
static void one_event(host *h, domain *d, uint64_t *random)
{
    uint32_t at = random_below(random, d->conduct == CONTESTED ? CONTESTED_PORTS : PORTS);
    if (domain_raise(d, ports[at]) == EVTCHN_FIFO_NOT_BOUND)
        bind_port(h, d, ports[at]);
    if (d->conduct == REOPENING)
        change(h, d, at, random);
}

/* Any domain that is contested, or any that is not: such a domain would keep the others' threads waiting. */
static domain *draw_domain(const hypervisor_thread *self, uint64_t *random)
{
    domain *d;
    do
        d = &self->host->domains[random_below(random, self->host->count)];
    while ((d->conduct == CONTESTED) != self->contested);
    return d;
}

void *hypervisor_run(void *argument)
{
    hypervisor_thread *self = argument;
    uint64_t random = self->seed;
    while (!atomic_load(&self->host->stopped)) {
        domain *d = draw_domain(self, &random);
        uint32_t k, events = random_below(&random, MOST_EVENTS) + 1;
        for (k = 0; k < events; k++)
            one_event(self->host, d, &random);
        sched_yield(); /* so that guests serve meanwhile, also on one processor */
    }
    return NULL;
}
