/*
 * Lay, cut and send of evtchn_cables.h: every refusal in its call's order, and that it leaves every byte; the slots that a lay takes and a
 * cut frees; hints; and tables that no run makes. Numbers are worked out by hand.
 */
#include "cables_memory.h"

/* A cable in every slot, none of them of the usual ends: port slot + 1 of domain 10 to the same port of domain 11. */
static void fill_table(void)
{
    uint32_t slot;
    for (slot = 0; slot < EVTCHN_CABLES_SLOTS; slot++)
        set_slot(&memory, slot, 10485761u + slot, 11534337u + slot);
}

/* ---- rows of refusals ---- */

static void lend_nothing(void)
{
    in.table = in.records[HERE] = in.records[THERE] = in.ledgers[HERE] = in.ledgers[THERE] = slice_of(NULL, 0);
}

static void set_numbers(uint64_t here, uint64_t there)
{
    in.numbers[HERE] = here;
    in.numbers[THERE] = there;
}

/* 23, then 24, then 64, with nothing lent; 23 looks at both numbers first */
static void number_rows(void)
{
    begin();
    lend_nothing();
    set_numbers(40, 40);
    REFUSED(lay, 23);
    set_numbers(8, 8);
    REFUSED_FROM(lay, in.numbers[HERE], 5, 23);
    REFUSED_FROM(lay, in.numbers[THERE], 5, 23);
    REFUSED_FROM(cut, in.numbers[HERE], 5, 23);
    REFUSED_FROM(send, in.numbers[HERE], 5, 23);
    REFUSED(lay, 24);
    set_numbers(39, 39);
    REFUSED(lay, 24);
    set_numbers(0, 0);
    REFUSED(lay, 24);
    set_numbers(39, 0);
    REFUSED(lay, 64);
    REFUSED(cut, 64);
    REFUSED(send, 64);
    REFUSED(close, 64);
    REFUSED(reply, 64);
}

/* 64 comes before 10, of a close before 15, and where a reply would be accepted */
static void short_rows(call *f, slice *lent, size_t size)
{
    begin();
    put(record_of(HERE), GIVEN, 0);
    put(record_of(THERE), GIVEN, 0);
    put(record_of(HERE), OWNER, 3);
    put(record_of(HERE), PORT, 2000);
    *lent = slice_of(lent->bytes, size - 1);
    REFUSED(f, 64);
    *lent = slice_of(lent->bytes, 1);
    REFUSED(f, 64);
    *lent = slice_of(NULL, 0);
    REFUSED(f, 64);
}

static void length_rows(void)
{
    call *const calls[] = {lay, cut, send, close, reply};
    size_t k;
    for (k = 0; k < sizeof calls / sizeof calls[0]; k++) {
        short_rows(calls[k], &in.table, EVTCHN_CABLES_SIZE);
        short_rows(calls[k], &in.records[HERE], EVTCHN_FIFO_DOMAIN_SIZE);
    }
    short_rows(lay, &in.records[THERE], EVTCHN_FIFO_DOMAIN_SIZE);
}

/* all four of the near end before any of the far end; all before 25, and 25 before 34; of the others all before 26 */
static void level_rows(void)
{
    unsigned here, there;
    begin();
    for (here = 0; here < 4; here++) {
        set_level(HERE, here);
        REFUSED(cut, port_codes[here]);
        REFUSED(send, port_codes[here]);
    }
    set_level(HERE, 4);
    REFUSED(cut, 26);
    REFUSED(send, 26);
    fill_table();
    set_slot(&memory, 600, HERE_END, OTHER_END);
    for (here = 0; here <= 4; here++)
        for (there = 0; there <= 4; there++) {
            set_level(HERE, here);
            set_level(THERE, there);
            REFUSED(lay, here < 4 ? port_codes[here] : there < 4 ? port_codes[there] : 25);
        }
}

/* 3 of port 0 and of what is above 131,071, whatever entries there are; of either end of a lay */
static void bad_port_rows(call *f, int side)
{
    begin();
    lend_entries(side, ENTRIES);
    memset(memory.ledgers[side], 0xFF, sizeof memory.ledgers[side]);
    in.ports[side] = 0;
    REFUSED(f, 3);
    REFUSED_FROM(f, in.ports[side], 17, 3);
    in.ports[side] = usual_ports[side];
    REFUSED_FROM(f, in.ports[side], 32, 3);
    in.ports[side] = UINT64_C(0xFFFFFFFFFFFFFFFF);
    REFUSED(f, 3);
}

/* a port's entry is whole: two bytes of the ledger; there may be no ledger at all */
static void entry_rows(call *f, int side)
{
    begin();
    in.ledgers[side].length = 2 * usual_ports[side] + 1;
    REFUSED(f, 14);
    in.ledgers[side] = slice_of(NULL, 0);
    REFUSED(f, 14);
}

static void port_rows(void)
{
    call *const calls[] = {lay, cut, send};
    size_t k;
    for (k = 0; k < 3; k++) {
        bad_port_rows(calls[k], HERE);
        entry_rows(calls[k], HERE);
    }
    bad_port_rows(lay, THERE);
    entry_rows(lay, THERE);
}

/* 25 of either end, in either place of a slot, also where the table is full; 34 */
static void taken_rows(void)
{
    begin();
    fill_table();
    set_slot(&memory, 0, OTHER_END, THERE_END);
    REFUSED(lay, 25);
    set_slot(&memory, 0, THERE_END, OTHER_END);
    REFUSED(lay, 25);
    set_slot(&memory, 1023, ANOTHER_END, HERE_END);
    set_slot(&memory, 0, OTHER_END, 34603009u);
    REFUSED(lay, 25);
    set_slot(&memory, 5, 0, 0);
    REFUSED(lay, 25);
    set_slot(&memory, 5, 10485766u, 11534342u);
    set_slot(&memory, 1023, HERE_END, ANOTHER_END);
    REFUSED(lay, 25);
    set_slot(&memory, 1023, ANOTHER_END, 34603010u);
    REFUSED(lay, 34);
    set_slot(&memory, 700, 0, 0);
    CHECK(lays(700, HERE_END, THERE_END));
    REFUSED(lay, 25);
    turn();
    REFUSED(lay, 25);
}

/* ---- what is laid, sent and cut ---- */

/* Slot 2 in bytes. The ends of the same ports of the other domains are not these; neither a call under way nor the array matters. */
static void lay_rows(void)
{
    static const uint8_t laid[8] = {0xD0, 0x07, 0x30, 0x00, 0xFF, 0xFF, 0x71, 0x02};
    begin();
    set_slot(&memory, 0, 3276799u, 40896464u);
    set_slot(&memory, 1, 4196304u, 39976959u);
    put(record_of(HERE), OWNER, 1);
    put(record_of(HERE), PAGES, 0);
    CHECK(lays(2, HERE_END, THERE_END));
    CHECK(memcmp(table_of(&memory) + 16, laid, sizeof laid) == 0);
    CHECK(sends(39, 131071, 2));
    turn();
    CHECK(sends(3, 2000, 2));
    CHECK(cuts(2));
    REFUSED(cut, 26);
    REFUSED(send, 26);
    turn();
    REFUSED(cut, 26);
    REFUSED(send, 26);
    CHECK(lays(2, HERE_END, THERE_END));
    CHECK(cuts(2));
    turn();
    CHECK(lays(2, THERE_END, HERE_END));
    CHECK(sends(3, 2000, 2));
}

/* one record and one ledger for both ends; the least and the largest number of a domain and of a port */
static void shared_row(void)
{
    begin();
    in.records[HERE] = in.records[THERE];
    in.ledgers[HERE] = in.ledgers[THERE];
    set_entry(THERE, 1, 0x0100);
    in.ports[HERE] = 1;
    set_numbers(0, 39);
    CHECK(lays(0, 1, THERE_END));
    CHECK(sends(39, 131071, 0));
    turn();
    CHECK(sends(0, 1, 0));
}

/* Lays port p of domain 3 to port p of domain 39, both bound. */
static int lays_ports(uint32_t port, uint32_t slot)
{
    in.ports[HERE] = in.ports[THERE] = port;
    set_entry(HERE, port, 0x0107);
    set_entry(THERE, port, 0x0107);
    return lays(slot, 3145728u + port, 40894464u + port);
}

static int is_full(uint32_t port)
{
    in.ports[HERE] = in.ports[THERE] = port;
    set_entry(HERE, port, 0x0107);
    set_entry(THERE, port, 0x0107);
    return is_refused(lay, 34);
}

/* 1,024 cables fill the slots from the lowest up; a cut one's slot is used again, the lowest first */
static void full_row(void)
{
    uint32_t port = 1;
    begin();
    while (port <= 1024 && lays_ports(port, port - 1))
        port++;
    CHECK(port == 1025);
    CHECK(get(table_of(&memory), 8184) == 3146752u && get(table_of(&memory), 8188) == 40895488u);
    CHECK(is_full(1025));
    in.ports[HERE] = 500;
    CHECK(cuts(499));
    in.ports[THERE] = 21;
    turn();
    CHECK(cuts(20));
    turn();
    CHECK(lays_ports(1025, 20));
    CHECK(lays_ports(1026, 499));
    CHECK(is_full(1027));
    in.ports[HERE] = 1024;
    CHECK(sends(39, 1024, 1023));
    CHECK(cuts(1023));
    CHECK(lays_ports(1027, 1023));
}

/* ---- tables that no run makes ---- */

/* A slot with this end and a number that is none: no cut or send finds it, a lay overwrites it. */
static void not_held(uint32_t none)
{
    int place;
    for (place = 0; place < 2; place++) {
        begin();
        fill_table();
        set_slot(&memory, 5, place == 0 ? HERE_END : none, place == 0 ? none : HERE_END);
        in.hint = 5;
        REFUSED(cut, 26);
        REFUSED(send, 26);
        CHECK(lays(5, HERE_END, THERE_END));
    }
}

/* A slot that leads from this end to that one, as the first and as the second. */
static void leads(uint32_t end, uint32_t domain, uint32_t port)
{
    begin();
    set_slot(&memory, 9, HERE_END, end);
    CHECK(sends(domain, port, 9));
    set_slot(&memory, 9, end, HERE_END);
    CHECK(sends(domain, port, 9));
    REFUSED(lay, 25);
    CHECK(cuts(9));
}

static void junk_rows(void)
{
    not_held(0);
    not_held(0xFFFFFFFFu);
    not_held(3145728u);            /* port 0 of domain 3 */
    not_held(40894464u);           /* port 0 of domain 39 */
    not_held(41943045u);           /* port 5 of domain 40 */
    not_held(0x80300005u);         /* port 5 of domain 2,051 */
    leads(1, 0, 1);
    leads(HERE_END, 3, 2000);
    leads(3145735u, 3, 7);         /* in the near domain */
    leads(41943039u, 39, 1048575); /* at a port that there is not */
}

/* An end in two slots: the lowest is found, or the hinted one; a cut frees both, and no other. */
static void twice_row(void)
{
    begin();
    fill_table();
    set_slot(&memory, 7, HERE_END, OTHER_END);
    set_slot(&memory, 900, ANOTHER_END, HERE_END);
    set_slot(&memory, 3, HERE_END, 0);
    CHECK(sends(12, 1, 7));
    in.hint = 900;
    CHECK(sends(13, 2, 900));
    in.hint = 7;
    CHECK(sends(12, 1, 7));
    REFUSED(lay, 25);
    keep();
    set_slot(&copy, 7, 0, 0);
    set_slot(&copy, 900, 0, 0);
    CHECK(gives(cut, 0, 0, 0, 0) && is_kept());
}

/* Wrong hints: another cable's slot, a free one, one that has the end and holds no cable; 1,024 and more, whatever their lower bits. */
static void hint_rows(void)
{
    static const uint32_t wrong[] = {0, 899, 901, 3, 4, 1023, 1024, 1025, 1924, 66436, 536871812u, 0x80000384u, 0xFFFFFFFFu};
    size_t k;
    begin();
    fill_table();
    set_slot(&memory, 7, HERE_END, OTHER_END);
    set_slot(&memory, 900, ANOTHER_END, HERE_END);
    set_slot(&memory, 3, HERE_END, 0);
    set_slot(&memory, 4, 0, 0);
    for (k = 0; k < sizeof wrong / sizeof wrong[0]; k++) {
        in.hint = wrong[k];
        CHECK(sends(12, 1, 7));
    }
    set_entry(HERE, 1000, 0x0100);
    in.ports[HERE] = 1000;
    for (k = 0; k < sizeof wrong / sizeof wrong[0]; k++) {
        in.hint = wrong[k];
        REFUSED(send, 26);
    }
}

static void rows(void)
{
    number_rows();
    length_rows();
    level_rows();
    port_rows();
    taken_rows();
    lay_rows();
    shared_row();
    full_row();
    junk_rows();
    twice_row();
    hint_rows();
}

int main(void)
{
    try_rows(rows);
    return check_end();
}
