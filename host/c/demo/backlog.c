/* A backlog on three queues, and the services that take it: the k-th takes the k-th port, queue by queue, 0 first, each queue in the order
 * of its raises, within 5 k accesses; the one behind the last finds nothing. */
#include "../world.h"
#include "backlog.h"

#define MOST_OF_A_SERVICE 5u

typedef struct event {
    uint32_t port, queue;
} event;

/* In the order of their raises. A service takes the first before the others come: queue 3 keeps its local bit, and READY has it not. */
static const event events[] = {{41, 3}, {11, 3}, {21, 7}, {31, 15}, {12, 3}, {22, 7}, {13, 3}};
#define EVENTS (sizeof events / sizeof *events)

/* A whole call of the hypervisor's, by what its start gave: the answer's number. */
static uint32_t run(world *w, evtchn_fifo_next start)
{
    return evtchn_fifo_run(&w->domain, w->ledger, WORLD_ENTRIES, &w->shared, start).code;
}

static bool raise_event(world *w, const event *e)
{
    return run(w, evtchn_fifo_domain_bind(&w->domain, w->ledger, WORLD_ENTRIES, e->port)) == EVTCHN_FIFO_DONE &&
           run(w, evtchn_fifo_domain_set_priority(&w->domain, w->ledger, WORLD_ENTRIES, e->port, e->queue)) == EVTCHN_FIFO_DONE &&
           run(w, evtchn_fifo_domain_raise(&w->domain, w->ledger, WORLD_ENTRIES, e->port)) <= EVTCHN_FIFO_UPCALL_WANTED;
}

/* All are raised; after two of them a service takes the first. */
static bool begin(world *w)
{
    bool done = true;
    size_t k;
    world_fresh(w);
    w->quiet = 1;
    world_begin(w);
    for (k = 0; k < EVENTS; k++) {
        if (k == 2)
            done = evtchn_fifo_serve(&w->guest, &w->shared).index == events[0].port && done;
        done = raise_event(w, &events[k]) && done;
    }
    return done && (world_ready(w) & ~w->control.ready) == 1u << events[0].queue;
}

/* The event that is to be taken after so many others of the backlog; NULL: there is none. */
static const event *in_turn(size_t at)
{
    uint32_t queue;
    size_t k;
    for (queue = 0; queue < EVTCHN_FIFO_QUEUES; queue++)
        for (k = 1; k < EVENTS; k++)
            if (events[k].queue == queue && at-- == 0)
                return &events[k];
    return NULL;
}

/* One service, as a line. */
static bool show_service(world *w, size_t at, uint32_t *accesses)
{
    const event *due = in_turn(at);
    evtchn_fifo_outcome served = evtchn_fifo_serve(&w->guest, &w->shared);
    uint32_t code = due != NULL ? EVTCHN_FIFO_HANDED_OVER : EVTCHN_FIFO_NOTHING_READY;
    unsigned most = MOST_OF_A_SERVICE * ((unsigned)at + 1);
    *accesses += served.count;
    printf("%10zu", at + 1);
    if (served.code == EVTCHN_FIFO_HANDED_OVER)
        printf("%13u%11u", (unsigned)served.index, (unsigned)evtchn_fifo_entry_priority(w->ledger[served.index]));
    else
        printf("%13s%11s", "nothing", "-");
    printf("%16u%10u\n", (unsigned)*accesses, most);
    return *accesses <= most && served.code == code && (due == NULL || served.index == due->port);
}

bool backlog_show(void)
{
    static world w;
    bool holds = true;
    uint32_t accesses = 0;
    size_t at;
    if (!begin(&w)) {
        printf("\nHow soon: the ports could not be raised.\n");
        return false;
    }
    printf("\nHow soon: %zu ports stand on three queues, queue 3 by a local bit left over. The guest only services:\n\n", EVENTS - 1);
    printf("%10s%13s%11s%16s%10s\n", "service", "takes port", "of queue", "accesses made", "at most");
    for (at = 0; at < EVENTS; at++)
        holds = show_service(&w, at, &accesses) && holds;
    return holds;
}
