/*
 * clear_mask: every path on real memory; during a service at each of its stages, which stands where it was; stored records with any stage;
 * and every order of its accesses, and of masks, between those of a raise behind the port, which must be linked and served.
 */
#include "check.h"
#include "../world.h"
#include "words.h"

#define PORT 5u
#define OTHER 9u
#define QUEUE 7u
#define SERVICE_SIZE 88u /* bytes of a guest's record before those of a clear_mask */

#define PENDING 0x80000000u
#define MASKED 0x40000000u
#define LINKED 0x20000000u
#define BUSY 0x10000000u

/* places of a guest's record; stages */
enum { WORDS = 68, STAGE = 72, CLEAR_STAGE = 88, CLEAR_PORT = 92, CLEAR_WORD = 96, CLEAR_COUNT = 100 };
enum { NONE, READ, CAS };

static world w;

static evtchn_fifo_next clear_mask(uint32_t port) { return evtchn_fifo_guest_clear_mask(&w.guest, port); }
static evtchn_fifo_next step(evtchn_fifo_next next) { return world_step(&w, 'G', next); }

static int answers(evtchn_fifo_next next, uint32_t code, uint32_t count)
{
    return next.code == code && next.index == 0 && next.value == count && next.old == 0;
}

static int is_same(evtchn_fifo_next a, evtchn_fifo_next b)
{
    return a.code == b.code && a.index == b.index && a.value == b.value && a.old == b.old;
}

static int is_stored(uint32_t stage, uint32_t port, uint32_t count)
{
    const uint8_t *bytes = w.guest.bytes;
    return get(bytes, CLEAR_STAGE) == stage && get(bytes, CLEAR_PORT) == port && get(bytes, CLEAR_COUNT) == count;
}

static void begin(void)
{
    world_fresh(&w);
    w.quiet = 1;
    world_begin(&w);
    world_bind(&w, PORT);
    world_bind(&w, OTHER);
}

/* ---- every path ---- */

/* The word at the read and at the cas, the answer, its count, and the word left. */
typedef struct path {
    uint32_t read, changed, answer, count, left;
} path;

static const path paths[] = {
    {0, 0, EVTCHN_FIFO_DONE, 1, 0},
    {PENDING | LINKED | BUSY | OTHER, 0, EVTCHN_FIFO_DONE, 1, PENDING | LINKED | BUSY | OTHER},
    {0xBFFFFFFFu, 0, EVTCHN_FIFO_DONE, 1, 0xBFFFFFFFu},
    {MASKED | PENDING, 0, EVTCHN_FIFO_CALL_UNMASK, 1, MASKED | PENDING},
    {MASKED | PENDING | LINKED, 0, EVTCHN_FIFO_CALL_UNMASK, 1, MASKED | PENDING | LINKED},
    {MASKED | BUSY, 0, EVTCHN_FIFO_CALL_UNMASK, 1, MASKED | BUSY},
    {MASKED | LINKED | BUSY | OTHER, 0, EVTCHN_FIFO_CALL_UNMASK, 1, MASKED | LINKED | BUSY | OTHER},
    {0xFFFFFFFFu, 0, EVTCHN_FIFO_CALL_UNMASK, 1, 0xFFFFFFFFu},
    {MASKED, MASKED, EVTCHN_FIFO_DONE, 2, 0},
    {MASKED | LINKED, MASKED | LINKED, EVTCHN_FIFO_DONE, 2, LINKED},
    {0x6FFFFFFFu, 0x6FFFFFFFu, EVTCHN_FIFO_DONE, 2, 0x2FFFFFFFu},
    {MASKED, 0, EVTCHN_FIFO_CALL_UNMASK, 2, 0},
    {MASKED, MASKED | PENDING, EVTCHN_FIFO_CALL_UNMASK, 2, MASKED | PENDING},
    {MASKED | LINKED, MASKED | LINKED | BUSY, EVTCHN_FIFO_CALL_UNMASK, 2, MASKED | LINKED | BUSY},
    {MASKED | LINKED, MASKED | LINKED | OTHER, EVTCHN_FIFO_CALL_UNMASK, 2, MASKED | LINKED | OTHER},
};

static void take(const path *one)
{
    evtchn_fifo_next next, read = {0x100, PORT, 0, 0}, cas = {0x150, PORT, one->read & ~MASKED, one->read};
    begin();
    w.page[PORT] = one->read;
    next = clear_mask(PORT);
    CHECK(is_same(next, read) && is_same(evtchn_fifo_guest_service_due(&w.guest), read) && is_stored(READ, PORT, 1));
    next = step(next);
    if (one->count == 2) {
        CHECK(is_same(next, cas) && is_same(evtchn_fifo_guest_service_due(&w.guest), cas) && is_stored(CAS, PORT, 2));
        CHECK(get(w.guest.bytes, CLEAR_WORD) == one->read);
        w.page[PORT] = one->changed;
        next = step(next);
    }
    CHECK(answers(next, one->answer, one->count) && w.page[PORT] == one->left && is_stored(NONE, PORT, one->count));
    CHECK(evtchn_fifo_guest_service_due(&w.guest).code == EVTCHN_FIFO_NO_CALL);
    CHECK(evtchn_fifo_guest_service_reply(&w.guest, MASKED).code == EVTCHN_FIFO_NO_CALL);
}

/* by the run loop; MASKED set again between its accesses changes nothing, and a port that came into the array can be cleared */
static void runs(void)
{
    evtchn_fifo_next next;
    begin();
    world_mask(&w, PORT);
    next = step(clear_mask(PORT));
    world_mask(&w, PORT);
    CHECK(answers(evtchn_fifo_guest_run(&w.guest, &w.shared, next), EVTCHN_FIFO_DONE, 2) && w.page[PORT] == 0);
    world_mask(&w, PORT);
    CHECK(answers(evtchn_fifo_guest_run(&w.guest, &w.shared, clear_mask(PORT)), EVTCHN_FIFO_DONE, 2) && w.page[PORT] == 0);
    CHECK(answers(evtchn_fifo_guest_run(&w.guest, &w.shared, clear_mask(PORT)), EVTCHN_FIFO_DONE, 1));
    CHECK(answers(clear_mask(1500), EVTCHN_FIFO_OUTSIDE_ARRAY, 0));
    next = clear_mask(PORT);
    evtchn_fifo_guest_tell(&w.guest, 2048);
    CHECK(answers(step(next), EVTCHN_FIFO_DONE, 1));
    CHECK(clear_mask(1500).code == 0x100 && is_stored(READ, 1500, 1));
}

/* ---- during a service ---- */

/* A service of port 5 after so many accesses; 0 is none begun. */
static evtchn_fifo_next serve(unsigned accesses)
{
    evtchn_fifo_next next = {0, 0, 0, 0};
    unsigned k;
    begin();
    world_raise(&w, PORT);
    if (accesses > 0)
        next = evtchn_fifo_guest_service(&w.guest);
    for (k = 1; k < accesses; k++)
        next = step(next);
    return next;
}

/* 15 for a service and for another clear_mask, and no byte changes */
static int refuses_others(void)
{
    evtchn_fifo_guest before = w.guest;
    return answers(evtchn_fifo_guest_service(&w.guest), EVTCHN_FIFO_CALL_UNDER_WAY, 0) &&
           answers(clear_mask(PORT), EVTCHN_FIFO_CALL_UNDER_WAY, 0) && answers(clear_mask(0), EVTCHN_FIFO_CALL_UNDER_WAY, 0) &&
           memcmp(&before, &w.guest, sizeof before) == 0;
}

/* A clear_mask of port 9, with so many accesses, during a service that has made so many: the service's bytes stay, and it goes on. */
static void during_service(unsigned accesses, uint32_t count)
{
    evtchn_fifo_next served = serve(accesses), next;
    evtchn_fifo_guest before = w.guest;
    if (count == 2)
        w.page[OTHER] = MASKED;
    next = clear_mask(OTHER);
    while (evtchn_fifo_is_access(next)) {
        CHECK(memcmp(before.bytes, w.guest.bytes, SERVICE_SIZE) == 0 && refuses_others());
        CHECK(is_same(evtchn_fifo_guest_service_due(&w.guest), next));
        next = step(next);
    }
    CHECK(answers(next, EVTCHN_FIFO_DONE, count) && memcmp(before.bytes, w.guest.bytes, SERVICE_SIZE) == 0);
    if (accesses == 0)
        served = evtchn_fifo_guest_service(&w.guest);
    CHECK(is_same(evtchn_fifo_guest_service_due(&w.guest), served));
    served = world_run(&w, 'G', served);
    CHECK(served.code == EVTCHN_FIFO_HANDED_OVER && served.index == PORT && served.value == 5);
}

/* ---- stored records ---- */

/* Of other stages none is under way, whatever the other words hold. */
static void other_stages(void)
{
    static const uint32_t stages[] = {0, 3, 4, 5, 0x100, 0x101, 0xFFFFFFFFu};
    size_t k;
    for (k = 0; k < sizeof stages / sizeof stages[0]; k++) {
        begin();
        memset(w.guest.bytes + CLEAR_PORT, 0xA5, 12);
        put(w.guest.bytes, CLEAR_STAGE, stages[k]);
        CHECK(evtchn_fifo_guest_service_due(&w.guest).code == EVTCHN_FIFO_NO_CALL);
        CHECK(evtchn_fifo_guest_service_reply(&w.guest, 0).code == EVTCHN_FIFO_NO_CALL && get(w.guest.bytes, CLEAR_STAGE) == stages[k]);
        CHECK(evtchn_fifo_guest_service(&w.guest).code == 0x141 && get(w.guest.bytes, CLEAR_STAGE) == stages[k]);
        CHECK(clear_mask(PORT).code == 0x100 && is_stored(READ, PORT, 1));
    }
}

/* Any port is named, any word compared, and a count that can't move further stays. */
static void any_words(void)
{
    static const uint32_t ports[] = {0, 1, 131071, 131072, 0xFFFFFFFFu};
    size_t k;
    for (k = 0; k < sizeof ports / sizeof ports[0]; k++) {
        evtchn_fifo_next read = {0x100, ports[k], 0, 0}, cas = {0x150, ports[k], 0xBFFFFFFFu, 0xFFFFFFFFu};
        begin();
        put(w.guest.bytes, CLEAR_STAGE, READ);
        put(w.guest.bytes, CLEAR_PORT, ports[k]);
        put(w.guest.bytes, CLEAR_WORD, 0xFFFFFFFFu);
        put(w.guest.bytes, CLEAR_COUNT, 0xFFFFFFFFu);
        CHECK(is_same(evtchn_fifo_guest_service_due(&w.guest), read));
        put(w.guest.bytes, CLEAR_STAGE, CAS);
        CHECK(is_same(evtchn_fifo_guest_service_due(&w.guest), cas));
        CHECK(answers(evtchn_fifo_guest_service_reply(&w.guest, 0xFFFFFFFFu), EVTCHN_FIFO_DONE, 0xFFFFFFFFu));
        put(w.guest.bytes, CLEAR_STAGE, READ);
        CHECK(evtchn_fifo_guest_service_reply(&w.guest, MASKED).code == 0x150 && is_stored(CAS, ports[k], 0xFFFFFFFFu));
    }
}

/* ---- in every order with a raise ---- */

/* what the guest does before an access of the raise; a clear_mask is begun where none is under way */
enum move { NOTHING, MASKS, STEPS_CLEAR_MASK, RUNS_CLEAR_MASK, MOVES };

#define MOST_MOMENTS 12u

/* the moves of an order, as many as the raise has accesses */
static struct {
    uint32_t move[MOST_MOMENTS], count;
} order;

/* The next order, as a number whose last digit is the last move; 0 after the last. */
static int next_order(void)
{
    while (order.count > 0 && order.move[order.count - 1] == MOVES - 1)
        order.move[--order.count] = NOTHING;
    if (order.count == 0)
        return 0;
    order.move[order.count - 1]++;
    return 1;
}

/* Port 5 LINKED and not PENDING, the tail of its queue: raised once more between G2 and G3 of the service that hands it over. */
static void begin_linked(void)
{
    evtchn_fifo_next next;
    unsigned k;
    begin();
    world_raise(&w, PORT);
    next = evtchn_fifo_guest_service(&w.guest);
    for (k = 0; k < 3; k++)
        next = step(next);
    world_raise(&w, PORT);
    world_run(&w, 'G', next);
}

static void guest_moves(uint32_t move, evtchn_fifo_next *cleared)
{
    if (move == MASKS)
        world_mask(&w, PORT);
    if (move >= STEPS_CLEAR_MASK)
        *cleared = step(evtchn_fifo_is_access(*cleared) ? *cleared : clear_mask(PORT));
    if (move == RUNS_CLEAR_MASK)
        *cleared = world_run(&w, 'G', *cleared);
}

/* The guest's services: 5, which is not pending, then 9. */
static int are_served(void)
{
    evtchn_fifo_next first = world_service(&w), second = world_service(&w);
    return first.code == EVTCHN_FIFO_TAKEN && first.index == PORT && second.code == EVTCHN_FIFO_HANDED_OVER && second.index == OTHER &&
           world_service(&w).code == EVTCHN_FIFO_NOTHING_READY;
}

static int is_linked_in_order(void)
{
    static const evtchn_fifo_next none;
    evtchn_fifo_next next, cleared = none;
    begin_linked();
    order.count = 0;
    for (next = world_raise_start(&w, OTHER); evtchn_fifo_is_access(next); order.count++) {
        guest_moves(order.move[order.count], &cleared);
        next = world_step(&w, 'X', next);
    }
    world_run(&w, 'G', cleared);
    return next.code == EVTCHN_FIFO_DONE && next.value == order.count && !(w.page[PORT] & BUSY) && are_served();
}

static void orders(void)
{
    uint32_t count = 0, most = 0;
    int holds = 1;
    begin_linked();
    CHECK(w.page[PORT] == LINKED && world_tail(&w, QUEUE) == PORT);
    do {
        holds = is_linked_in_order();
        most = order.count > most ? order.count : most;
        count++;
    } while (holds && next_order());
    CHECK(holds);
    CHECK(count > 1000 && most > 6);
}

int main(void)
{
    size_t k;
    unsigned accesses;
    for (k = 0; k < sizeof paths / sizeof paths[0]; k++)
        take(paths + k);
    runs();
    for (accesses = 0; accesses <= 5; accesses++) {
        during_service(accesses, 1);
        during_service(accesses, 2);
    }
    other_stages();
    any_words();
    orders();
    return check_end();
}
