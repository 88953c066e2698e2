/*
 * Close and reply of evtchn_cables.h, which cut exactly where a close's ledger change falls, and are else those of evtchn_fifo.h; records
 * and tables that no run makes; lengths above 2^32; and whole sends over shared memory. Numbers are worked out by hand.
 */
#define _DEFAULT_SOURCE
#include <stdlib.h>
#include <sys/mman.h>

#include "cables_memory.h"
#include "../world.h"

/* ---- closes ---- */

#define NO_SLOT EVTCHN_CABLES_SLOTS

static uint8_t *in_copy(const uint8_t *bytes) { return (uint8_t *)&copy + (bytes - (const uint8_t *)&memory); }

/* The close or the reply without cables, in the copy. */
static result plain(call *f)
{
    uint8_t *record = in_copy(in.records[HERE].bytes), *ledger = in_copy(in.ledgers[HERE].bytes);
    size_t length = in.records[HERE].length, ledger_length = in.ledgers[HERE].length;
    if (f == close)
        return evtchn_fifo_bytes_close(record, length, ledger, ledger_length, in.ports[HERE]);
    return evtchn_fifo_bytes_reply(record, length, ledger, ledger_length, in.seen);
}

/* Gives and leaves what it does without cables; and the table is the copy's. */
static int is_plain(call *f)
{
    result given = f();
    return is_same(given, plain(f)) && is_kept();
}

/* A close or a reply that comes to this code, and of the table frees a slot or NO_SLOT. */
static int does(call *f, uint32_t code, uint32_t freed)
{
    result given;
    keep();
    if (freed < NO_SLOT)
        set_slot(&copy, freed, 0, 0);
    given = f();
    return given.code == code && is_same(given, plain(f)) && is_kept();
}

static void begin_cabled(void)
{
    begin();
    set_slot(&memory, 4, HERE_END, THERE_END);
}

/* outside the array the close cuts at once */
static void close_outside(void)
{
    begin_cabled();
    turn();
    CHECK(does(close, 0, 4));
    CHECK(entry_of(&memory, THERE, 131071)[0] == 0x77 && entry_of(&memory, THERE, 131071)[1] == 0xFC);
    REFUSED(close, 4);
    REFUSED(send, 4);
    turn();
    REFUSED(send, 26);
    REFUSED(cut, 26);
}

/* in the array its reply does; a port that is bound again has no cable */
static void close_inside(void)
{
    begin_cabled();
    CHECK(does(close, 0x130, NO_SLOT));
    in.seen = 0xFFFFFFFFu;
    CHECK(does(reply, 0, 4));
    CHECK(entry_of(&memory, HERE, 2000)[0] == 0x77 && entry_of(&memory, HERE, 2000)[1] == 0xFC);
    REFUSED(reply, 16);
    REFUSED(send, 4);
    CHECK(evtchn_fifo_bytes_bind(LENT_HERE, in.ports[HERE]).code == 0x100);
    in.seen = 0;
    CHECK(does(reply, 0, NO_SLOT));
    REFUSED(send, 26);
    turn();
    REFUSED(send, 26);
    CHECK(lays(0, THERE_END, HERE_END));
}

static void refused_close_row(void)
{
    unsigned level;
    begin_cabled();
    set_level(HERE, 0);
    put(record_of(HERE), OWNER, 4);
    REFUSED(close, 15);
    put(record_of(HERE), OWNER, 0);
    for (level = 0; level < 4; level++) {
        set_level(HERE, level);
        REFUSED(close, port_codes[level]);
    }
    set_level(HERE, 4);
    REFUSED_FROM(close, in.ports[HERE], 17, 3);
    CHECK(sends(39, 131071, 4));
}

/* a reply that is refused does not cut; the same word with a longer ledger does */
static void refused_reply_row(void)
{
    begin_cabled();
    REFUSED(reply, 16);
    CHECK(does(close, 0x130, NO_SLOT));
    in.seen = 0xA0000000u;
    in.ledgers[HERE] = slice_of(NULL, 0);
    REFUSED(reply, 14);
    lend_entries(HERE, 2000);
    REFUSED(reply, 14);
    lend_entries(HERE, 2001);
    CHECK(does(reply, 0, 4));
}

/* While a close is under way the cable stands, and the domain's raise is refused; a cable that is laid meanwhile is cut by the reply. */
static void flight_row(void)
{
    begin_cabled();
    CHECK(does(close, 0x130, NO_SLOT));
    CHECK(sends(39, 131071, 4));
    turn();
    CHECK(sends(3, 2000, 4));
    keep();
    CHECK(is_same(evtchn_fifo_bytes_raise(LENT(in.records[THERE]), LENT(in.ledgers[THERE]), 2000), result_of(15, 0, 0, 0)) && is_kept());
    CHECK(cuts(4));
    turn();
    CHECK(lays(0, HERE_END, THERE_END));
    CHECK(does(reply, 0, 0));
    begin_cabled();
    CHECK(does(close, 0x130, NO_SLOT));
    CHECK(cuts(4));
    CHECK(does(reply, 0, NO_SLOT));
}

/* Only a close at its first access cuts, whatever the word; every other call's reply leaves the table. */
static void stage_row(uint32_t owner, uint32_t stage)
{
    static const uint32_t words[] = {0, 0x80000000u, 0xA0000005u, 0xFFFFFFFFu};
    size_t k;
    for (k = 0; k < sizeof words / sizeof words[0]; k++) {
        begin_cabled();
        put(record_of(HERE), OWNER, owner);
        put(record_of(HERE), STAGE, stage);
        put(record_of(HERE), PORT, 2000);
        in.seen = words[k];
        keep();
        if (owner == 2 && stage == 0)
            set_slot(&copy, 4, 0, 0);
        CHECK(is_plain(reply));
    }
}

static void stage_rows(void)
{
    uint32_t owner, stage;
    for (owner = 0; owner <= 5; owner++)
        for (stage = 0; stage <= 6; stage++)
            stage_row(owner, stage);
}

/* Puts a close of a port under way, whether its entry is bound or not. */
static void put_close(uint32_t port)
{
    put(record_of(HERE), OWNER, 2);
    put(record_of(HERE), PORT, port);
    put(record_of(HERE), COUNT, 1);
}

/* records that no run makes: a port that is not bound any more, and port 0, which has no end */
static void junk_close_rows(void)
{
    begin_cabled();
    set_entry(HERE, 2000, 0xFC73);
    put_close(2000);
    CHECK(does(reply, 0, 4));
    begin_cabled();
    set_slot(&memory, 0, 3145728u, OTHER_END);
    put_close(0);
    CHECK(does(reply, 0, NO_SLOT));
}

/* Port 1,048,581 has an entry and no end: neither port 5 of domain 3 nor that of domain 4 is cut. */
static void large_port_row(void)
{
    static uint8_t ledger[2 * 1048582];
    begin();
    set_slot(&memory, 5, 3145733u, OTHER_END);
    set_slot(&memory, 6, 4194309u, ANOTHER_END);
    put_close(1048581u);
    in.ledgers[HERE] = slice_of(ledger, sizeof ledger);
    keep();
    put(in_copy(record_of(HERE)), OWNER, 0);
    CHECK(gives(reply, 0, 0, 1, 0) && is_kept());
    CHECK(ledger[2097162] == 7);
}

/* A close with cables at an end of a slot that holds none, and at one of two slots. */
static void junk_table_rows(void)
{
    begin();
    set_slot(&memory, 5, THERE_END, 0);
    set_slot(&memory, 6, 41943045u, THERE_END);
    turn();
    CHECK(does(close, 0, NO_SLOT));
    begin_cabled();
    set_slot(&memory, 1023, OTHER_END, HERE_END);
    CHECK(does(close, 0x130, NO_SLOT));
    keep();
    set_slot(&copy, 4, 0, 0);
    set_slot(&copy, 1023, 0, 0);
    CHECK(is_plain(reply));
}

/* Closes by numbers so much larger than the domains': they are done, and nothing is cut. */
static int cuts_nothing(uint64_t more)
{
    begin_cabled();
    in.numbers[HERE] += more;
    in.numbers[THERE] += more;
    if (!does(close, 0x130, NO_SLOT) || !does(reply, 0, NO_SLOT))
        return 0;
    turn();
    return does(close, 0, NO_SLOT);
}

static void close_number_rows(void)
{
    unsigned bit;
    CHECK(cuts_nothing(1));
    CHECK(cuts_nothing(37));
    for (bit = 6; bit < 64; bit++)
        CHECK(cuts_nothing(UINT64_C(1) << bit));
}

/* ---- lengths above 2^32 ---- */

/* So much longer a slice is one byte too short where its length is cut to 32 bits. */
#define MUCH_LONGER 0xFFFFFFFFu

/* These bytes, in room for the longest slice; only the first ones are memory. */
static slice much_longer(slice lent)
{
    uint8_t *start = mmap(NULL, lent.length + MUCH_LONGER, PROT_NONE, MAP_PRIVATE | MAP_ANONYMOUS | MAP_NORESERVE, -1, 0);
    if (start == MAP_FAILED || mprotect(start, lent.length, PROT_READ | PROT_WRITE) != 0) {
        printf("there is no room for %zu bytes\n", lent.length + MUCH_LONGER);
        exit(1);
    }
    memcpy(start, lent.bytes, lent.length);
    return slice_of(start, lent.length + MUCH_LONGER);
}

static void much_longer_row(void)
{
    int side;
    begin();
    in.table = much_longer(in.table);
    for (side = HERE; side <= THERE; side++) {
        in.records[side] = much_longer(in.records[side]);
        in.ledgers[side] = much_longer(in.ledgers[side]);
    }
    CHECK(gives(lay, 0, 0, 0, 0));
    CHECK(gives(send, 0, 39, 131071, 0));
    CHECK(gives(cut, 0, 0, 0, 0));
    CHECK(gives(send, 26, 0, 0, 0));
    CHECK(gives(lay, 0, 0, 0, 0));
    CHECK(gives(close, 0x130, 2000, 0x7FFFFFFFu, 0));
    CHECK(gives(reply, 0, 0, 1, 0));
    turn();
    CHECK(gives(send, 26, 0, 0, 0));
    CHECK(gives(close, 0, 0, 0, 0));
}

/* ---- with types: whole sends between domains 0 and 1, over shared memory ---- */

static world worlds[2];
static evtchn_cables cables;

static evtchn_cables_end end_at(uint32_t number, uint32_t port)
{
    evtchn_cables_end end = {&worlds[number].domain, worlds[number].ledger, WORLD_ENTRIES, number, port};
    return end;
}

static evtchn_fifo_next run(uint32_t number, evtchn_fifo_next next)
{
    world *w = &worlds[number];
    return evtchn_cables_domain_run(&cables, number, &w->domain, w->ledger, WORLD_ENTRIES, &w->shared, next);
}

static evtchn_fifo_next close_at(uint32_t number, uint32_t port)
{
    world *w = &worlds[number];
    return evtchn_cables_domain_close(&cables, number, &w->domain, w->ledger, WORLD_ENTRIES, port);
}

/* A send that finds this port of the other domain, and its raise on an empty queue; the event is served. */
static int comes_through(uint32_t number, uint32_t port, uint32_t far_port)
{
    evtchn_cables_far far = evtchn_cables_send(&cables, end_at(number, port), 0);
    world *w = &worlds[1 - number];
    evtchn_fifo_next next;
    if (far.code != 0 || far.domain != 1 - number || far.port != far_port || far.slot != 0)
        return 0;
    next = run(far.domain, world_raise_start(w, far.port));
    return is_same(next, result_of(1, 0, 4, 0)) && w->page[far_port] == 0xA0000000u && w->control.ready == 0x80 &&
           w->control.head[7] == far_port && is_same(world_service(w), result_of(19, far_port, 5, 0)) && w->page[far_port] == 0;
}

static int is_table_empty(void)
{
    static const evtchn_cables none;
    return memcmp(&cables, &none, sizeof cables) == 0;
}

static void begin_worlds(void)
{
    int number;
    memset(&cables, 0, sizeof cables);
    for (number = 0; number < 2; number++) {
        world_fresh(&worlds[number]);
        world_begin(&worlds[number]);
    }
    CHECK(world_bind(&worlds[0], 5).code == 0 && world_bind(&worlds[1], 9).code == 0);
}

static void typed_rows(void)
{
    evtchn_cables_laid laid;
    begin_worlds();
    laid = evtchn_cables_lay(&cables, end_at(0, 5), end_at(1, 9));
    CHECK(laid.code == 0 && laid.slot == 0);
    CHECK(get(cables.bytes, 0) == 5 && get(cables.bytes, 4) == 1048585u);
    CHECK(comes_through(0, 5, 9));
    CHECK(comes_through(1, 9, 5));
    CHECK(comes_through(0, 5, 9));
    CHECK(evtchn_cables_cut(&cables, end_at(1, 9)) == 0 && is_table_empty());
    CHECK(evtchn_cables_cut(&cables, end_at(0, 5)) == 26);
    CHECK(evtchn_cables_send(&cables, end_at(0, 5), EVTCHN_CABLES_NO_HINT).code == 26);
}

/* A close to its answer; where its access is not mapped, another run goes on with it. */
static void typed_close_row(void)
{
    evtchn_fifo_next next;
    begin_worlds();
    CHECK(evtchn_cables_lay(&cables, end_at(0, 5), end_at(1, 9)).code == 0);
    worlds[0].page[5] = 0xFFFFFFFFu;
    worlds[0].shared.words = 5;
    next = run(0, close_at(0, 5));
    CHECK(is_same(next, result_of(0x130, 5, 0x7FFFFFFFu, 0)) && !is_table_empty());
    CHECK(comes_through(0, 5, 9));
    worlds[0].shared.words = EVTCHN_FIFO_PAGE_WORDS;
    next = run(0, next);
    CHECK(is_same(next, result_of(0, 0, 1, 0)) && is_table_empty() && worlds[0].page[5] == 0x7FFFFFFFu);
    CHECK(evtchn_cables_send(&cables, end_at(1, 9), 0).code == 26);
    CHECK(evtchn_cables_send(&cables, end_at(0, 5), 0).code == 4);
    CHECK(evtchn_cables_lay(&cables, end_at(0, 5), end_at(1, 9)).code == 4);
    next = close_at(1, 9);
    CHECK(next.code == 0x130 && is_same(evtchn_cables_domain_reply(&cables, 1, &worlds[1].domain, worlds[1].ledger, WORLD_ENTRIES, 0),
                                        result_of(0, 0, 1, 0)));
}

/* A plain close leaves the cable, which serves whoever binds the port next; a whole close by evtchn_cables_run cuts it. */
static void plain_close_row(void)
{
    begin_worlds();
    CHECK(evtchn_cables_lay(&cables, end_at(0, 5), end_at(1, 9)).code == 0);
    CHECK(world_close(&worlds[0], 5).code == 0 && !is_table_empty());
    CHECK(evtchn_cables_send(&cables, end_at(0, 5), 0).code == 4);
    CHECK(world_bind(&worlds[0], 5).code == 0 && comes_through(0, 5, 9));
    CHECK(evtchn_cables_run(&cables, 0, &worlds[0].domain, worlds[0].ledger, WORLD_ENTRIES, &worlds[0].shared, close_at(0, 5)).code == 0);
    CHECK(is_table_empty() && evtchn_fifo_domain_under_way(&worlds[0].domain) == EVTCHN_FIFO_IDLE);
}

static void rows(void)
{
    close_outside();
    close_inside();
    refused_close_row();
    refused_reply_row();
    flight_row();
    stage_rows();
    junk_close_rows();
    large_port_row();
    junk_table_rows();
    close_number_rows();
}

int main(void)
{
    try_rows(rows);
    much_longer_row();
    typed_rows();
    typed_close_row();
    plain_close_row();
    return check_end();
}
