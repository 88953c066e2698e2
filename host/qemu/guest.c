/* The guest's side, which is the timer interrupt: it comes at random distances, most of them shorter than a call of the hypervisor's.
 * After an upcall it services some ports at each interrupt until nothing is ready. It masks ports, and unmasks them later. */
#include "domain.h"
#include "machine.h"

#include "../c/demo/random.h"

/* The most services at one interrupt. */
#define MOST_SERVICES 3u

/* The most interrupts that it lets pass after it was idle, so that its queues fill. */
#define LONGEST_REST 24u

/* It masks a port at one interrupt in so many, and unmasks one as often. */
#define MASKS_ONE_IN 3u

/* Ticks from one interrupt to the next: those that its own end takes at most, so that the main line goes on, and some at random. */
#define END_OF_INTERRUPT 48u
#define LONGEST_DISTANCE 1024u

guest_counts guest_counted;

static evtchn_fifo_guest guest;
static uint64_t random_state = 2;
static uint32_t rest;                        /* interrupts that it lets pass */
static uint32_t masked[PORTS], masked_count; /* ports that it has masked and wants unmasked */

void guest_begin(void)
{
    evtchn_fifo_guest_fresh(&guest);
    evtchn_fifo_guest_tell(&guest, WORDS);
}

/* Where in the hypervisor's calls a service begins. */
static void count_place(void)
{
    uint32_t call = evtchn_fifo_domain_under_way(&domain);
    guest_counted.services++;
    guest_counted.inside[call]++;
    if (call == EVTCHN_FIFO_RAISE)
        guest_counted.inside_raise[atomic_load(&accesses_made)]++;
}

/* One service; false where nothing is ready. */
static bool serve_one(void)
{
    evtchn_fifo_outcome outcome;
    count_place();
    outcome = evtchn_fifo_serve(&guest, &shared);
    if (outcome.count > guest_counted.longest)
        guest_counted.longest = outcome.count;
    switch (outcome.code) {
    case EVTCHN_FIFO_HANDED_OVER: accounts[outcome.index].handed_over++; return true;
    case EVTCHN_FIFO_TAKEN: return true;
    case EVTCHN_FIFO_NOTHING_READY: return false;
    default: count_unexpected(&guest_counted.unexpected, outcome.code); return true;
    }
}

static void serve_some(void)
{
    uint32_t services = random_below(&random_state, MOST_SERVICES) + 1;
    while (services > 0 && serve_one())
        services--;
    if (services > 0) {
        atomic_store(&upcall_wanted, false);
        rest = random_below(&random_state, LONGEST_REST);
    }
}

static void mask_one(void)
{
    uint32_t k = random_below(&random_state, PORTS), code;
    if (is_reopened(k) || masked_count == PORTS)
        return;
    code = evtchn_fifo_run_mask(&shared, ports[k], WORDS).code;
    if (code != EVTCHN_FIFO_DONE)
        count_unexpected(&guest_counted.unexpected, code);
    guest_counted.masks++;
    masked[masked_count++] = ports[k];
}

/* It clears MASKED by itself, and wants the hypervisor's unmask only where that is needed; one at a time. */
static void unmask_one(void)
{
    uint32_t port, code;
    if (masked_count == 0 || atomic_load(&unmask_wanted) != 0)
        return;
    port = masked[--masked_count];
    code = evtchn_fifo_run_clear_mask(&guest, &shared, port).code;
    switch (code) {
    case EVTCHN_FIFO_DONE: guest_counted.unmasks++; break;
    case EVTCHN_FIFO_CALL_UNMASK: atomic_store(&unmask_wanted, port); break;
    default: count_unexpected(&guest_counted.unexpected, code); break;
    }
}

/* Short ones more often: several interrupts may come in one call, and several calls between two interrupts. */
static uint32_t distance(void)
{
    return END_OF_INTERRUPT + random_below(&random_state, LONGEST_DISTANCE >> random_below(&random_state, 6));
}

void guest_timer(void)
{
    bool ends = atomic_load(&guest_ends);
    guest_counted.interrupts++;
    if (rest > 0)
        rest--;
    else if (atomic_load(&upcall_wanted))
        serve_some();
    if (!ends && random_below(&random_state, MASKS_ONE_IN) == 0)
        mask_one();
    if (random_below(&random_state, MASKS_ONE_IN) == 0)
        unmask_one();
    atomic_store(&guest_is_idle, ends && masked_count == 0 && atomic_load(&unmask_wanted) == 0 && !atomic_load(&upcall_wanted));
    timer_next(distance());
}
