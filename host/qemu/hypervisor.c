/* The hypervisor's side, which is the main line: raises of random ports, closes, binds, priorities, and the unmasks that the guest wants.
 * Interrupts are on, so that the guest runs between any two instructions of these calls. */
#include "domain.h"

#include "../c/demo/random.h"

/* Each turn raises a port, or binds it where its last bind was refused. */
#define TURNS 200000u

/* Turns in which the guest becomes idle at the end: some hundreds of times what it needs. */
#define MOST_LAST_TURNS 1000000u

/* The frames that the domain is said to have. */
#define FRAMES 1024u

const uint32_t ports[PORTS] = {1, 2, 3, 5, 9, 100, 511, 512, 1022, 1023, 1024, 1025, 1500, 2000, 2046, 2047};

static evtchn_fifo_control control;
static uint32_t array[PAGES][EVTCHN_FIFO_PAGE_WORDS];
static uint32_t *const pages[PAGES] = {array[0], array[1]};
static uint16_t ledger[WORDS];
static uint64_t random_state = 1;

const evtchn_fifo_shared shared = {&control, pages, WORDS};
evtchn_fifo_domain domain;
port_account accounts[WORDS];
hypervisor_counts hypervisor_counted;
atomic_bool upcall_wanted, guest_ends, guest_is_idle;
atomic_uint unmask_wanted, accesses_made;

/* Closes bring about NOT_BOUND and STILL_LINKED. This guest keeps the rules, so that LINK_ABANDONED is not expected. */
static bool is_expected(uint32_t code)
{
    switch (code) {
    case EVTCHN_FIFO_DONE:
    case EVTCHN_FIFO_UPCALL_WANTED:
    case EVTCHN_FIFO_NOT_BOUND:
    case EVTCHN_FIFO_STILL_LINKED: return true;
    default: return false;
    }
}

static uint32_t answered(evtchn_fifo_outcome outcome)
{
    if (outcome.count > hypervisor_counted.longest)
        hypervisor_counted.longest = outcome.count;
    if (!is_expected(outcome.code))
        count_unexpected(&hypervisor_counted.unexpected, outcome.code);
    if (outcome.code == EVTCHN_FIFO_UPCALL_WANTED)
        atomic_store(&upcall_wanted, true);
    return outcome.code;
}

static uint32_t run(evtchn_fifo_next start) { return answered(evtchn_fifo_run(&domain, ledger, WORDS, &shared, start)); }

/* One access at a time: the word that the first one saw tells whether PENDING was set. It stays where a call makes no access. */
static uint32_t step(evtchn_fifo_next next, uint32_t *first)
{
    uint32_t seen, made = 0;
    while (evtchn_fifo_perform(&shared, next, &seen)) {
        if (made == 0)
            *first = seen;
        atomic_store_explicit(&accesses_made, ++made, memory_order_relaxed);
        next = evtchn_fifo_domain_reply(&domain, ledger, WORDS, seen);
    }
    atomic_store_explicit(&accesses_made, 0, memory_order_relaxed);
    return answered(evtchn_fifo_outcome_of(next, evtchn_fifo_domain_under_way(&domain)));
}

static uint32_t bind_port(uint32_t port) { return run(evtchn_fifo_domain_bind(&domain, ledger, WORDS, port)); }

static uint32_t set_priority(uint32_t port, uint32_t priority)
{
    hypervisor_counted.priorities++;
    return run(evtchn_fifo_domain_set_priority(&domain, ledger, WORDS, port, priority));
}

/* A port is not bound where its event was still linked when it was bound last. */
static void raise_port(uint32_t port)
{
    uint32_t first = 0;
    if (step(evtchn_fifo_domain_raise(&domain, ledger, WORDS, port), &first) == EVTCHN_FIFO_NOT_BOUND)
        bind_port(port);
    else if (first & EVTCHN_FIFO_WORD_PENDING)
        accounts[port].coalesced++;
    else
        accounts[port].events++;
}

static void reopen(uint32_t port)
{
    uint32_t first = 0;
    hypervisor_counted.closes += step(evtchn_fifo_domain_close(&domain, ledger, WORDS, port), &first) == EVTCHN_FIFO_DONE;
    accounts[port].closed += (first & EVTCHN_FIFO_WORD_PENDING) != 0;
    bind_port(port);
}

static void unmask_where_wanted(void)
{
    uint32_t port = atomic_load(&unmask_wanted);
    if (port == 0)
        return;
    run(evtchn_fifo_domain_unmask(&domain, ledger, WORDS, port));
    hypervisor_counted.unmasks++;
    atomic_store(&unmask_wanted, 0);
}

bool hypervisor_begin(void)
{
    uint32_t k, refusals;
    evtchn_fifo_domain_fresh(&domain);
    evtchn_fifo_ledger_fresh(ledger, WORDS);
    refusals = evtchn_fifo_domain_init_control(&domain, 0, 0, FRAMES, 0).code;
    for (k = 1; k <= PAGES; k++)
        refusals |= evtchn_fifo_domain_expand_array(&domain, k, FRAMES).code;
    for (k = 0; k < PORTS; k++)
        refusals |= bind_port(ports[k]) | set_priority(ports[k], k % 4 * 5);
    return refusals == EVTCHN_FIFO_DONE;
}

static void one_turn(void)
{
    uint32_t k = random_below(&random_state, PORTS), chance = random_below(&random_state, 16);
    raise_port(ports[k]);
    if (chance == 0)
        set_priority(ports[k], random_below(&random_state, EVTCHN_FIFO_QUEUES));
    if (chance == 1 && is_reopened(k))
        reopen(ports[k]);
    unmask_where_wanted();
}

void hypervisor_run(void)
{
    uint32_t turn;
    for (turn = 0; turn < TURNS; turn++)
        one_turn();
}

void hypervisor_finish(void)
{
    uint32_t turn;
    atomic_store(&guest_ends, true);
    for (turn = 0; turn < MOST_LAST_TURNS && !atomic_load(&guest_is_idle); turn++)
        unmask_where_wanted();
}
