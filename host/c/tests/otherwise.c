/*
 * What evtchn_fifo.h says happens where the host or the guest does not do what it must: each sentence of "and what happens otherwise", and
 * of the answers to act on, tried.
 */
#include "../world.h"
#include "check.h"

static world w;
static uint16_t *const ledger = w.ledger;

/* One page, and ports bound from 5 on. */
static void begin(uint32_t ports)
{
    uint32_t k;
    world_fresh(&w);
    w.quiet = 1;
    world_begin(&w);
    for (k = 0; k < ports; k++)
        CHECK(world_bind(&w, 5 + k).code == EVTCHN_FIFO_DONE);
}

/* A call of the hypervisor's from what its start gave: its answer's number. */
static uint32_t run(evtchn_fifo_next start) { return evtchn_fifo_run(&w.domain, ledger, WORLD_ENTRIES, &w.shared, start).code; }

static uint32_t raise_port(uint32_t port) { return run(evtchn_fifo_domain_raise(&w.domain, ledger, WORLD_ENTRIES, port)); }
static uint32_t bind_port(uint32_t port) { return run(evtchn_fifo_domain_bind(&w.domain, ledger, WORLD_ENTRIES, port)); }
static uint32_t unmask_port(uint32_t port) { return run(evtchn_fifo_domain_unmask(&w.domain, ledger, WORLD_ENTRIES, port)); }
static uint32_t close_port(uint32_t port) { return run(evtchn_fifo_domain_close(&w.domain, ledger, WORLD_ENTRIES, port)); }
static uint32_t serve(void) { return evtchn_fifo_serve(&w.guest, &w.shared).code; }

/* Whether a service gives that answer, with that port. */
static int serves(uint32_t code, uint32_t port)
{
    evtchn_fifo_outcome served = evtchn_fifo_serve(&w.guest, &w.shared);
    return served.code == code && served.index == port && served.under_way == EVTCHN_FIFO_IDLE;
}

/* ---- memory ---- */

static void ready_left(void)
{
    begin(2);
    w.control.ready = 1u << 7;
    CHECK(raise_port(5) == EVTCHN_FIFO_DONE);
    CHECK(raise_port(6) == EVTCHN_FIFO_DONE);
}

static void page_not_zeroed(void)
{
    begin(0);
    w.page[5] = EVTCHN_FIFO_WORD_LINKED;
    CHECK(bind_port(5) == EVTCHN_FIFO_STILL_LINKED && bind_port(5) == EVTCHN_FIFO_STILL_LINKED);
    w.page[6] = EVTCHN_FIFO_WORD_MASKED;
    CHECK(bind_port(6) == EVTCHN_FIFO_DONE && raise_port(6) == EVTCHN_FIFO_DONE && serve() == EVTCHN_FIFO_NOTHING_READY);
    CHECK(unmask_port(6) == EVTCHN_FIFO_UPCALL_WANTED && serves(EVTCHN_FIFO_HANDED_OVER, 6));

    world_fresh(&w);
    CHECK(evtchn_fifo_domain_init_control(&w.domain, 0, 1, 2, 0).code == EVTCHN_FIFO_DONE);
    CHECK(bind_port(5) == EVTCHN_FIFO_DONE);
    w.page[5] = EVTCHN_FIFO_WORD_LINKED;
    CHECK(evtchn_fifo_domain_expand_array(&w.domain, 1, 2).code == EVTCHN_FIFO_DONE);
    evtchn_fifo_guest_tell(&w.guest, EVTCHN_FIFO_PAGE_WORDS);
    CHECK(raise_port(5) == EVTCHN_FIFO_DONE && serve() == EVTCHN_FIFO_NOTHING_READY);
}

/* Port 5 and port 1,029 have one word. */
static void one_page_twice(void)
{
    uint32_t *pages[2] = {w.page, w.page};
    begin(1);
    CHECK(evtchn_fifo_domain_expand_array(&w.domain, 1, 2).code == EVTCHN_FIFO_DONE);
    w.shared.pages = pages;
    w.shared.words = 2 * EVTCHN_FIFO_PAGE_WORDS;
    evtchn_fifo_guest_tell(&w.guest, w.shared.words);
    CHECK(bind_port(1029) == EVTCHN_FIFO_DONE && raise_port(5) == EVTCHN_FIFO_UPCALL_WANTED && raise_port(1029) == EVTCHN_FIFO_DONE);
    CHECK(serves(EVTCHN_FIFO_HANDED_OVER, 5) && serve() == EVTCHN_FIFO_NOTHING_READY);
}

static void not_mapped(void)
{
    begin(2);
    w.shared.words = 5;
    CHECK(raise_port(5) == EVTCHN_FIFO_NOT_MAPPED);
    CHECK(raise_port(6) == EVTCHN_FIFO_CALL_UNDER_WAY && bind_port(9) == EVTCHN_FIFO_CALL_UNDER_WAY);
    CHECK(evtchn_fifo_domain_under_way(&w.domain) == EVTCHN_FIFO_RAISE && evtchn_fifo_domain_due(&w.domain).index == 5);
    w.shared.words = EVTCHN_FIFO_PAGE_WORDS;
    CHECK(run(evtchn_fifo_domain_due(&w.domain)) == EVTCHN_FIFO_UPCALL_WANTED);
    CHECK(raise_port(6) == EVTCHN_FIFO_DONE && serves(EVTCHN_FIFO_HANDED_OVER, 5) && serves(EVTCHN_FIFO_HANDED_OVER, 6));
}

/* ---- records ---- */

static void ledger_of_zeros(void)
{
    begin(0);
    memset(w.ledger, 0, sizeof w.ledger);
    CHECK(bind_port(5) == EVTCHN_FIFO_DONE && raise_port(5) == EVTCHN_FIFO_UPCALL_WANTED);
    CHECK(w.control.ready == 1u << EVTCHN_FIFO_HIGHEST_PRIORITY && w.control.head[0] == 5);
}

/* All of a domain and its guest, copied to another place between two calls. */
static void saved_and_restored(void)
{
    static world saved;
    begin(2);
    CHECK(raise_port(5) == EVTCHN_FIFO_UPCALL_WANTED && raise_port(6) == EVTCHN_FIFO_DONE && serves(EVTCHN_FIFO_HANDED_OVER, 5));
    saved = w;
    world_fresh(&w);
    w.domain = saved.domain;
    w.guest = saved.guest;
    w.control = saved.control;
    memcpy(w.page, saved.page, sizeof w.page);
    memcpy(w.ledger, saved.ledger, sizeof w.ledger);
    CHECK(serves(EVTCHN_FIFO_HANDED_OVER, 6) && serve() == EVTCHN_FIFO_NOTHING_READY);
    CHECK(raise_port(6) == EVTCHN_FIFO_UPCALL_WANTED && serves(EVTCHN_FIFO_HANDED_OVER, 6));
}

/* ---- calls ---- */

static void second_call(void)
{
    evtchn_fifo_next next;
    begin(2);
    next = evtchn_fifo_domain_raise(&w.domain, ledger, WORLD_ENTRIES, 5);
    CHECK(raise_port(6) == EVTCHN_FIFO_CALL_UNDER_WAY);
    CHECK(run(next) == EVTCHN_FIFO_UPCALL_WANTED);
}

/* A raise whose access of that number, from 1 on, is made twice: its answer. */
static uint32_t raise_with_twice(unsigned number)
{
    evtchn_fifo_next next = evtchn_fifo_domain_raise(&w.domain, ledger, WORLD_ENTRIES, 5);
    uint32_t seen = 0;
    while (evtchn_fifo_is_access(next)) {
        CHECK(evtchn_fifo_perform(&w.shared, next, &seen));
        if (--number == 0)
            CHECK(evtchn_fifo_perform(&w.shared, next, &seen));
        next = evtchn_fifo_domain_reply(&w.domain, ledger, WORLD_ENTRIES, seen);
    }
    return next.code;
}

static void access_made_twice(void)
{
    begin(1);
    CHECK(raise_with_twice(2) == EVTCHN_FIFO_DONE && serve() == EVTCHN_FIFO_NOTHING_READY);
    CHECK(raise_port(5) == EVTCHN_FIFO_DONE && serve() == EVTCHN_FIFO_NOTHING_READY);
    begin(1);
    CHECK(raise_with_twice(4) == EVTCHN_FIFO_DONE && serves(EVTCHN_FIFO_HANDED_OVER, 5));
}

/* The queue is dead after 18, also when the guest is told at last. */
static void tell_forgotten(void)
{
    begin(2);
    evtchn_fifo_guest_fresh(&w.guest);
    CHECK(raise_port(5) == EVTCHN_FIFO_UPCALL_WANTED && serve() == EVTCHN_FIFO_BAD_INDEX);
    evtchn_fifo_guest_tell(&w.guest, EVTCHN_FIFO_PAGE_WORDS);
    CHECK(serve() == EVTCHN_FIFO_NOTHING_READY);
    CHECK(raise_port(5) == EVTCHN_FIFO_DONE && raise_port(6) == EVTCHN_FIFO_DONE && serve() == EVTCHN_FIFO_NOTHING_READY);
}

static void upcall_not_made(void)
{
    begin(2);
    CHECK(raise_port(5) == EVTCHN_FIFO_UPCALL_WANTED && raise_port(6) == EVTCHN_FIFO_DONE && raise_port(5) == EVTCHN_FIFO_DONE);
}

/* ---- answers to act on ---- */

/* Words that a guest may not write, handed back to each cas: 2, and what is raised on the queue afterwards does not arrive. */
static void link_abandoned(void)
{
    evtchn_fifo_next next;
    uint32_t seen = 0, lie = 0xE0000000u;
    begin(3);
    CHECK(raise_port(5) == EVTCHN_FIFO_UPCALL_WANTED);
    next = evtchn_fifo_domain_raise(&w.domain, ledger, WORLD_ENTRIES, 6);
    while (evtchn_fifo_is_access(next)) {
        if (next.index == 5)
            seen = lie ^= 0x40000000u;
        else
            CHECK(evtchn_fifo_perform(&w.shared, next, &seen));
        next = evtchn_fifo_domain_reply(&w.domain, ledger, WORLD_ENTRIES, seen);
    }
    CHECK(next.code == EVTCHN_FIFO_LINK_ABANDONED);
    CHECK(serves(EVTCHN_FIFO_HANDED_OVER, 5) && serve() == EVTCHN_FIFO_NOTHING_READY);
    CHECK(raise_port(7) == EVTCHN_FIFO_DONE && raise_port(6) == EVTCHN_FIFO_DONE && serve() == EVTCHN_FIFO_NOTHING_READY);
}

static void no_entry(void)
{
    evtchn_fifo_next next;
    uint32_t seen = 0;
    begin(1);
    CHECK(evtchn_fifo_domain_raise(&w.domain, ledger, 5, 5).code == EVTCHN_FIFO_NO_ENTRY);
    next = evtchn_fifo_domain_raise(&w.domain, ledger, WORLD_ENTRIES, 5);
    CHECK(evtchn_fifo_perform(&w.shared, next, &seen));
    CHECK(evtchn_fifo_domain_reply(&w.domain, ledger, 5, seen).code == EVTCHN_FIFO_NO_ENTRY);
    CHECK(evtchn_fifo_domain_under_way(&w.domain) == EVTCHN_FIFO_RAISE);
    next = evtchn_fifo_domain_reply(&w.domain, ledger, WORLD_ENTRIES, seen);
    CHECK(run(next) == EVTCHN_FIFO_UPCALL_WANTED);
    CHECK(serves(EVTCHN_FIFO_HANDED_OVER, 5));
}

static void closed_while_pending(void)
{
    begin(1);
    CHECK(raise_port(5) == EVTCHN_FIFO_UPCALL_WANTED && close_port(5) == EVTCHN_FIFO_DONE);
    CHECK(bind_port(5) == EVTCHN_FIFO_STILL_LINKED && serves(EVTCHN_FIFO_TAKEN, 5) && bind_port(5) == EVTCHN_FIFO_DONE);
    CHECK(raise_port(5) == EVTCHN_FIFO_UPCALL_WANTED && serves(EVTCHN_FIFO_HANDED_OVER, 5));
}

/* ---- the guest ---- */

static void second_service(void)
{
    begin(1);
    CHECK(raise_port(5) == EVTCHN_FIFO_UPCALL_WANTED && evtchn_fifo_is_access(evtchn_fifo_guest_service(&w.guest)));
    CHECK(serve() == EVTCHN_FIFO_CALL_UNDER_WAY);
    CHECK(evtchn_fifo_serve_on(&w.guest, &w.shared).code == EVTCHN_FIFO_HANDED_OVER);
}

static void service_stops_early(void)
{
    begin(3);
    CHECK(raise_port(5) == EVTCHN_FIFO_UPCALL_WANTED && raise_port(6) == EVTCHN_FIFO_DONE && serves(EVTCHN_FIFO_HANDED_OVER, 5));
    CHECK(raise_port(7) == EVTCHN_FIFO_DONE && raise_port(5) == EVTCHN_FIFO_DONE);
    CHECK(serves(EVTCHN_FIFO_HANDED_OVER, 6) && serves(EVTCHN_FIFO_HANDED_OVER, 7) && serves(EVTCHN_FIFO_HANDED_OVER, 5));
}

static void masked_meanwhile(void)
{
    begin(1);
    CHECK(raise_port(5) == EVTCHN_FIFO_UPCALL_WANTED);
    CHECK(evtchn_fifo_run_mask(&w.shared, 5, EVTCHN_FIFO_PAGE_WORDS).code == EVTCHN_FIFO_DONE && serves(EVTCHN_FIFO_TAKEN, 5));
    CHECK(evtchn_fifo_run_clear_mask(&w.guest, &w.shared, 5).code == EVTCHN_FIFO_CALL_UNMASK);
    CHECK(raise_port(5) == EVTCHN_FIFO_DONE && serve() == EVTCHN_FIFO_NOTHING_READY); /* unmask not called: it stays masked */
    CHECK(unmask_port(5) == EVTCHN_FIFO_UPCALL_WANTED && serves(EVTCHN_FIFO_HANDED_OVER, 5));
}

/* The event of a raise between R1 and R2 is handed over by a service that was past G2: what the raise links has nothing to serve. */
static void handed_over_while_linked(void)
{
    evtchn_fifo_next service, raise;
    uint32_t seen = 0, k;
    begin(1);
    CHECK(raise_port(5) == EVTCHN_FIFO_UPCALL_WANTED);
    service = evtchn_fifo_guest_service(&w.guest);
    for (k = 0; k < 3; k++) {
        CHECK(evtchn_fifo_perform(&w.shared, service, &seen));
        service = evtchn_fifo_guest_service_reply(&w.guest, seen);
    }
    raise = evtchn_fifo_domain_raise(&w.domain, ledger, WORLD_ENTRIES, 5);
    CHECK(evtchn_fifo_perform(&w.shared, raise, &seen));
    raise = evtchn_fifo_domain_reply(&w.domain, ledger, WORLD_ENTRIES, seen);
    CHECK(evtchn_fifo_serve_on(&w.guest, &w.shared).code == EVTCHN_FIFO_HANDED_OVER);
    CHECK(run(raise) == EVTCHN_FIFO_UPCALL_WANTED);
    CHECK(serves(EVTCHN_FIFO_TAKEN, 5) && serve() == EVTCHN_FIFO_NOTHING_READY);
}

int main(void)
{
    ready_left();
    page_not_zeroed();
    one_page_twice();
    not_mapped();
    ledger_of_zeros();
    saved_and_restored();
    second_call();
    access_made_twice();
    tell_forgotten();
    upcall_not_made();
    link_abandoned();
    no_entry();
    closed_while_pending();
    second_service();
    service_stops_early();
    masked_meanwhile();
    handed_over_while_linked();
    return check_end();
}
