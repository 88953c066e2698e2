/*
 * T-10, with a guest that keeps the rules. How long: a raise behind a port whose word the guest changes in every way between two accesses
 * makes at most ten, and ten are made. How soon: a guest that only services takes the ports that stand one by one, queue by queue, 0 first,
 * each queue in the order of its raises, with at most five accesses each; then there is nothing.
 */
#include "../world.h"
#include "check.h"

#define MOST_OF_A_RAISE 10u
#define MOST_OF_A_SERVICE 5u

static world w;

static void begin(void)
{
    world_fresh(&w);
    w.quiet = 1;
    world_begin(&w);
}

static evtchn_fifo_next set_priority(uint32_t port, uint32_t priority)
{
    return evtchn_fifo_domain_set_priority(&w.domain, w.ledger, WORLD_ENTRIES, port, priority);
}

/* ---- how long ---- */

#define TAIL 5u
#define PORT 9u

/* What the guest does before an access of the raise's to the tail's word. */
typedef enum change { NOTHING, MASK, FINISH, UNLINK, CLEAR_MASK, CHANGES } change;

/* One more access of the guest's call under way; false where there is none. */
static int guest_access(void)
{
    evtchn_fifo_next due = evtchn_fifo_guest_service_due(&w.guest);
    if (!evtchn_fifo_is_access(due))
        return 0;
    world_step(&w, 'G', due);
    return 1;
}

static void finish_guest(void)
{
    while (guest_access())
        continue;
}

/* Begins a service, which nothing refuses where none is under way. */
static void start_service(void)
{
    if (!evtchn_fifo_is_access(evtchn_fifo_guest_service(&w.guest)))
        CHECK(!"a service is refused");
}

static void make(change what)
{
    int k;
    switch (what) {
    case MASK: world_mask(&w, TAIL); break;
    case FINISH: finish_guest(); break; /* G4, where a service is to make it */
    case UNLINK:                        /* a service up to G2 */
        finish_guest();
        start_service();
        for (k = 0; k < 3; k++)
            guest_access();
        break;
    case CLEAR_MASK: world_run(&w, 'G', evtchn_fifo_guest_clear_mask(&w.guest, TAIL)); break;
    default: break;
    }
}

static int is_of_tail(evtchn_fifo_next next) { return evtchn_fifo_place_of(next) == EVTCHN_FIFO_WORD && next.index == TAIL; }

/* The tail's word as it is when the raise begins: pending, and held by a service that is to make G4; or closed, held at G2, and masked. */
static void prepare(int closed)
{
    int k;
    begin();
    world_bind(&w, TAIL);
    world_bind(&w, PORT);
    world_raise(&w, TAIL);
    if (closed) {
        world_close(&w, TAIL);
        world_mask(&w, TAIL);
    }
    start_service();
    for (k = 0; k < (closed ? 2 : 4); k++)
        guest_access();
    if (!closed)
        world_raise(&w, TAIL);
}

/* The raise, with a change before each of its first accesses to the tail's word: its answer. */
static evtchn_fifo_next contested(int closed, unsigned changes)
{
    evtchn_fifo_next next;
    prepare(closed);
    next = world_raise_start(&w, PORT);
    while (evtchn_fifo_is_access(next)) {
        if (is_of_tail(next)) {
            make((change)(changes % CHANGES));
            changes /= CHANGES;
        }
        next = world_step(&w, 'X', next);
    }
    return next;
}

/* Ends the guest's calls and serves until there is nothing; the number of times that the port is handed over. */
static unsigned hand_overs_of(uint32_t port)
{
    evtchn_fifo_next next;
    unsigned times = 0;
    finish_guest();
    while ((next = world_service(&w)).code == EVTCHN_FIFO_HANDED_OVER || next.code == EVTCHN_FIFO_TAKEN)
        times += next.code == EVTCHN_FIFO_HANDED_OVER && next.index == port;
    return times;
}

/* R3, and five accesses more: so many changes at most are made before it */
#define ALL_CHANGES (CHANGES * CHANGES * CHANGES * CHANGES * CHANGES * CHANGES)

static void every_change(void)
{
    uint32_t longest = 0;
    unsigned changes;
    int closed;
    for (closed = 0; closed < 2; closed++)
        for (changes = 0; changes < ALL_CHANGES; changes++) {
            evtchn_fifo_next next = contested(closed, changes);
            int held = next.code <= EVTCHN_FIFO_UPCALL_WANTED && next.value <= MOST_OF_A_RAISE;
            longest = next.value > longest ? next.value : longest;
            if (!held || hand_overs_of(PORT) != 1)
                CHECK(!"a raise is abandoned, too long, lost or doubled");
        }
    CHECK(longest == MOST_OF_A_RAISE);
}

/* MASKED is set before the first cas, PENDING cleared before the second, LINKED before the third. */
static void longest_raise(void)
{
    static const change way[] = {NOTHING, MASK, NOTHING, FINISH, UNLINK};
    unsigned changes = 0, k;
    evtchn_fifo_next next;
    for (k = sizeof way / sizeof *way; k-- > 0;)
        changes = changes * CHANGES + way[k];
    next = contested(0, changes);
    CHECK(next.code == EVTCHN_FIFO_UPCALL_WANTED);
    CHECK(next.value == MOST_OF_A_RAISE);
    CHECK(w.page[TAIL] == 0x40000000u);
    CHECK(hand_overs_of(PORT) == 1);
}

/* ---- how soon ---- */

#define PORTS 24u
#define BACKLOGS 300u

/* The queues as plain lists, by what was raised and taken; entry 0 is not used. */
static uint32_t standing[EVTCHN_FIFO_QUEUES][PORTS + 1], count[EVTCHN_FIFO_QUEUES];
static uint32_t priority_of[PORTS + 1];
static int stands[PORTS + 1];
static int held; /* all that is claimed of a backlog, so far */

static uint32_t random_below(uint64_t *state, uint32_t bound)
{
    *state = *state * 6364136223846793005u + 1442695040888963407u;
    return (uint32_t)(*state >> 33) % bound;
}

static void raise(uint32_t port)
{
    uint32_t queue = priority_of[port];
    evtchn_fifo_next next = world_raise(&w, port);
    held &= next.code == (!stands[port] && count[queue] == 0 ? EVTCHN_FIFO_UPCALL_WANTED : EVTCHN_FIFO_DONE);
    if (!stands[port])
        standing[queue][count[queue]++] = port;
    stands[port] = 1;
}

/* The port that the next service takes: the first of the lowest queue that is not empty; 0 where there is none. */
static uint32_t take_first(void)
{
    uint32_t queue = 0, port;
    while (queue < EVTCHN_FIFO_QUEUES && count[queue] == 0)
        queue++;
    if (queue == EVTCHN_FIFO_QUEUES)
        return 0;
    port = standing[queue][0];
    memmove(standing[queue], standing[queue] + 1, --count[queue] * sizeof *standing[queue]);
    stands[port] = 0;
    return port;
}

static evtchn_fifo_next serve(void)
{
    uint32_t port = take_first();
    evtchn_fifo_next next = world_service(&w);
    held &= port == 0 ? next.code == EVTCHN_FIFO_NOTHING_READY : next.code == EVTCHN_FIFO_HANDED_OVER && next.index == port;
    return next;
}

static void bind_ports(uint64_t *seed)
{
    uint32_t port, priorities = 1 + random_below(seed, EVTCHN_FIFO_QUEUES);
    for (port = 1; port <= PORTS; port++) {
        priority_of[port] = random_below(seed, priorities);
        held &= world_bind(&w, port).code == EVTCHN_FIFO_DONE;
        held &= set_priority(port, priority_of[port]).code == EVTCHN_FIFO_DONE;
    }
}

/* Ports of random priorities raised, with services among them that leave local bits behind; then services alone. */
static void backlog(uint64_t seed)
{
    uint32_t k, ports = 0, accesses = 0;
    held = 1;
    memset(count, 0, sizeof count);
    memset(stands, 0, sizeof stands);
    begin();
    bind_ports(&seed);
    for (k = random_below(&seed, 2 * PORTS); k > 0; k--)
        if (random_below(&seed, 4) == 0)
            serve();
        else
            raise(1 + random_below(&seed, PORTS));
    for (k = 0; k < EVTCHN_FIFO_QUEUES; k++)
        ports += count[k];
    for (k = 1; k <= ports; k++) {
        accesses += serve().value;
        held &= accesses <= MOST_OF_A_SERVICE * k;
    }
    held &= serve().value == 1;
    CHECK(held);
}

int main(void)
{
    uint64_t seed;
    longest_raise();
    every_change();
    for (seed = 1; seed <= BACKLOGS; seed++)
        backlog(seed);
    return check_end();
}
