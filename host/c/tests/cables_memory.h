/* Two domains, a table, and the calls of evtchn_cables.h on them: what each gives, and that it changes nothing else. */
#ifndef CABLES_MEMORY_H
#define CABLES_MEMORY_H

#include <string.h>

#include "check.h"
#include "evtchn_cables.h"
#include "words.h"

/* ---- two domains, a table, and what a call is given of them ---- */

#define ENTRIES (EVTCHN_FIFO_PORTS + 1u)

/* port 2,000 of domain 3, in the array; port 131,071 of domain 39, outside */
enum { HERE, THERE };
#define HERE_END 3147728u
#define THERE_END 41025535u
static const uint32_t usual_ports[2] = {2000, 131071};
static const uint32_t usual_numbers[2] = {3, 39};

/* two ends of other domains: port 1 of domain 12 and port 2 of domain 13 */
#define OTHER_END 12582913u
#define ANOTHER_END 13631490u

/* at odd addresses, with bytes that no call writes around them */
static struct memory {
    uint8_t table[EVTCHN_CABLES_SIZE + 8];
    uint8_t records[2][EVTCHN_FIFO_DOMAIN_SIZE + 8];
    uint8_t ledgers[2][ENTRIES * 2u + 8];
} memory, copy;

typedef struct slice {
    uint8_t *bytes;
    size_t length;
} slice;

static struct input {
    slice table, records[2], ledgers[2];
    uint64_t numbers[2], ports[2];
    uint32_t hint, seen;
} in;

enum { GIVEN = 0, PAGES = 4, OWNER = 72, STAGE = 76, PORT = 80, COUNT = 96 };

/* bytes lent beyond table and record, 5 at most; where they are odd, a ledger has a last odd byte */
static size_t beyond;

/* What fills all memory: its words are no owner and no end, and its bit 0, which is bit 8 of an entry, is clear. */
static uint8_t junk;

static inline slice slice_of(uint8_t *bytes, size_t length)
{
    slice lent = {bytes, length};
    return lent;
}

static inline uint8_t *table_of(struct memory *m) { return m->table + 3; }
static inline uint8_t *record_of(int side) { return memory.records[side] + 3; }
static inline uint8_t *entry_of(struct memory *m, int side, uint32_t port) { return m->ledgers[side] + 3 + 2 * port; }

static inline void set_slot(struct memory *m, uint32_t slot, uint32_t first, uint32_t second)
{
    put(table_of(m), 8 * slot, first);
    put(table_of(m), 8 * slot + 4, second);
}

static inline void set_entry(int side, uint32_t port, uint32_t entry)
{
    entry_of(&memory, side, port)[0] = (uint8_t)entry;
    entry_of(&memory, side, port)[1] = (uint8_t)(entry >> 8);
}

static inline void lend_entries(int side, size_t entries)
{
    in.ledgers[side] = slice_of(entry_of(&memory, side, 0), entries * 2 + beyond % 2);
}

/* Both ports bound, a block and two pages given, no call under way, no cable. */
static inline void begin(void)
{
    int side;
    memset(&memory, junk, sizeof memory);
    in.table = slice_of(table_of(&memory), EVTCHN_CABLES_SIZE + beyond);
    for (side = HERE; side <= THERE; side++) {
        put(record_of(side), GIVEN, 0x80000000u);
        put(record_of(side), PAGES, 2);
        put(record_of(side), STAGE, 0);
        set_entry(side, usual_ports[side], 0xFD73);
        in.records[side] = slice_of(record_of(side), EVTCHN_FIFO_DOMAIN_SIZE + beyond);
        lend_entries(side, usual_ports[side] + 1);
        in.numbers[side] = usual_numbers[side];
        in.ports[side] = usual_ports[side];
    }
    in.hint = EVTCHN_CABLES_NO_HINT;
    in.seen = 0;
}

/* Both domains' parts change places. */
static inline void turn(void)
{
    struct input old = in;
    int side;
    for (side = HERE; side <= THERE; side++) {
        in.records[side] = old.records[1 - side];
        in.ledgers[side] = old.ledgers[1 - side];
        in.numbers[side] = old.numbers[1 - side];
        in.ports[side] = old.ports[1 - side];
    }
}

/* ---- the calls, of the domain here ---- */

typedef evtchn_fifo_next result; /* what any of them gives, filled with zeros */
typedef result call(void);

static inline result result_of(uint32_t code, uint32_t second, uint32_t third, uint32_t fourth)
{
    result words = {code, second, third, fourth};
    return words;
}

#define LENT(slice) slice.bytes, slice.length
#define LENT_HERE LENT(in.records[HERE]), LENT(in.ledgers[HERE])

static inline result lay(void)
{
    evtchn_cables_laid laid = evtchn_cables_bytes_lay(LENT(in.table), LENT_HERE, LENT(in.records[THERE]), LENT(in.ledgers[THERE]),
                                                in.numbers[HERE], in.ports[HERE], in.numbers[THERE], in.ports[THERE]);
    return result_of(laid.code, laid.slot, 0, 0);
}

static inline result cut(void)
{
    return result_of(evtchn_cables_bytes_cut(LENT(in.table), LENT_HERE, in.numbers[HERE], in.ports[HERE]), 0, 0, 0);
}

static inline result send(void)
{
    evtchn_cables_far far = evtchn_cables_bytes_send(LENT(in.table), LENT_HERE, in.numbers[HERE], in.ports[HERE], in.hint);
    return result_of(far.code, far.domain, far.port, far.slot);
}

static inline result close(void) { return evtchn_cables_bytes_close(LENT(in.table), LENT_HERE, in.numbers[HERE], in.ports[HERE]); }
static inline result reply(void) { return evtchn_cables_bytes_reply(LENT(in.table), LENT_HERE, in.numbers[HERE], in.seen); }

/* ---- what a call gives, and what it leaves ---- */

static inline void keep(void) { copy = memory; }
static inline int is_kept(void) { return memcmp(&copy, &memory, sizeof memory) == 0; }
static inline int is_same(result a, result b) { return memcmp(&a, &b, sizeof a) == 0; }

static inline int gives(call *f, uint32_t code, uint32_t second, uint32_t third, uint32_t fourth)
{
    return is_same(f(), result_of(code, second, third, fourth));
}

/* a number and zeros, and every byte as it was */
static inline int is_refused(call *f, uint32_t code)
{
    keep();
    return gives(f, code, 0, 0, 0) && is_kept();
}

#define REFUSED(f, code) CHECK(is_refused(f, code))

/* the same of every number that has one bit more than this one, from bit `from` up */
static inline int is_refused_from(call *f, uint64_t *number, unsigned from, uint32_t code)
{
    uint64_t usual = *number;
    int holds = 1;
    for (; from < 64; from++) {
        *number = usual + (UINT64_C(1) << from);
        holds = holds && is_refused(f, code);
    }
    *number = usual;
    return holds;
}

#define REFUSED_FROM(f, number, from, code) CHECK(is_refused_from(f, &(number), from, code))

/* a lay that takes this slot, writes these ends to it and nothing else */
static inline int lays(uint32_t slot, uint32_t first, uint32_t second)
{
    keep();
    set_slot(&copy, slot, first, second);
    return gives(lay, 0, slot, 0, 0) && is_kept();
}

/* a send that finds this, and changes nothing */
static inline int sends(uint32_t domain, uint32_t port, uint32_t slot)
{
    keep();
    return gives(send, 0, domain, port, slot) && is_kept();
}

/* a cut that frees this slot and nothing else */
static inline int cuts(uint32_t slot)
{
    keep();
    set_slot(&copy, slot, 0, 0);
    return gives(cut, 0, 0, 0, 0) && is_kept();
}

/* ---- an end that is refused ---- */

static const uint32_t port_codes[] = {10, 3, 14, 4};

/* Of 10, 3, 14 and 4 the first ones, so many as level says, do not apply; all others do. */
static inline void set_level(int side, unsigned level)
{
    put(record_of(side), GIVEN, level > 0);
    in.ports[side] = level > 1 ? usual_ports[side] : EVTCHN_FIFO_PORTS;
    lend_entries(side, usual_ports[side] + (level > 2));
    set_entry(side, usual_ports[side], level > 3 ? 0xFD73 : 0xFC73);
}

/* All rows, with slices of the right length and with longer ones, among bytes of three kinds. */
static inline void try_rows(void (*rows)(void))
{
    static const struct {
        size_t beyond;
        uint8_t junk;
    } kinds[] = {{0, 0}, {1, 0x5A}, {5, 0xFE}};
    size_t k;
    for (k = 0; k < sizeof kinds / sizeof kinds[0]; k++) {
        beyond = kinds[k].beyond;
        junk = kinds[k].junk;
        rows();
    }
    beyond = 0;
}

#endif
