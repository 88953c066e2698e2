/*
 * evtchn_cables.h by hand in C: the same symbols, table and answers for any bytes, in place and without proof, over the close and the
 * reply of by_hand.c. What the cost of cables is measured by.
 */
#include "evtchn_cables.h"

_Static_assert(__BYTE_ORDER__ == __ORDER_LITTLE_ENDIAN__, "a table's words have their lowest byte first");

/* slots, records and entries at any alignment, over bytes of any type */
#define IN_PLACE __attribute__((packed, may_alias))

typedef struct IN_PLACE cable {
    uint32_t first, second;
} cable;

/* what cables look at of a domain's record */
typedef struct IN_PLACE port_owner {
    uint32_t given, others[17], owner, stage, port;
} port_owner;

typedef struct IN_PLACE port_entry {
    uint16_t bits;
} port_entry;

_Static_assert(sizeof(cable) * EVTCHN_CABLES_SLOTS == EVTCHN_CABLES_SIZE, "a table");
_Static_assert(offsetof(port_owner, owner) == 72, "a domain's record");

#define BOUND 0x100u
#define OWNER_CLOSE 2u
#define STAGE_FIRST 0u
#define END_PORTS 0x100000u

/* ---- ends and slots ---- */

/* An end as one number; 0, which is none, for what no slot can have. */
static inline uint32_t end_of(uint64_t number, uint64_t port)
{
    return number < EVTCHN_CABLES_DOMAINS && port < END_PORTS ? (uint32_t)(number * END_PORTS + port) : 0;
}

static inline int is_end(uint32_t word) { return word / END_PORTS < EVTCHN_CABLES_DOMAINS && word % END_PORTS != 0; }

static inline int holds_cable(const cable *slot) { return is_end(slot->first) && is_end(slot->second); }

static inline int has_end(const cable *slot, uint32_t end)
{
    return (slot->first == end || slot->second == end) && holds_cable(slot);
}

static inline uint32_t other_end(const cable *slot, uint32_t end) { return slot->first == end ? slot->second : slot->first; }

/* The lowest slot that has the end; 1,024: none has it. */
static inline uint32_t lowest_with(const cable *slots, uint32_t end)
{
    uint32_t slot = 0;
    while (slot < EVTCHN_CABLES_SLOTS && !has_end(slots + slot, end))
        slot++;
    return slot;
}

static inline uint32_t find_end(const cable *slots, uint32_t end, uint32_t hint)
{
    return hint < EVTCHN_CABLES_SLOTS && has_end(slots + hint, end) ? hint : lowest_with(slots, end);
}

static inline uint32_t lowest_free(const cable *slots)
{
    uint32_t slot = 0;
    while (slot < EVTCHN_CABLES_SLOTS && holds_cable(slots + slot))
        slot++;
    return slot;
}

static inline void free_end(cable *slots, uint32_t end)
{
    static const cable none = {0, 0};
    uint32_t slot;
    for (slot = 0; slot < EVTCHN_CABLES_SLOTS; slot++)
        if (has_end(slots + slot, end))
            slots[slot] = none;
}

/* ---- refusals ---- */

/* 10, 3, 14, 4 of an end; 0 where none of them holds. */
static inline uint32_t end_refusal(const uint8_t *domain, const uint8_t *ledger, size_t ledger_length, uint64_t port)
{
    if (!((const port_owner *)domain)->given)
        return EVTCHN_FIFO_NOT_GIVEN;
    if (port == 0 || port >= EVTCHN_FIFO_PORTS)
        return EVTCHN_FIFO_BAD_PORT;
    if (port >= ledger_length / EVTCHN_FIFO_ENTRY_SIZE)
        return EVTCHN_FIFO_NO_ENTRY;
    if (!(((const port_entry *)ledger)[port].bits & BOUND))
        return EVTCHN_FIFO_NOT_BOUND;
    return 0;
}

static inline int is_short(size_t table_length, size_t domain_length)
{
    return table_length < EVTCHN_CABLES_SIZE || domain_length < EVTCHN_FIFO_DOMAIN_SIZE;
}

static inline evtchn_cables_laid not_laid(uint32_t code)
{
    evtchn_cables_laid laid = {code, 0};
    return laid;
}

static inline evtchn_cables_far not_sent(uint32_t code)
{
    evtchn_cables_far far = {code, 0, 0, 0};
    return far;
}

static inline evtchn_fifo_next no_table(void)
{
    evtchn_fifo_next next = {EVTCHN_FIFO_TOO_SHORT, 0, 0, 0};
    return next;
}

/* ---- lay, cut and send ---- */

/* 25, 34, and the cable in the lowest free slot. */
static inline evtchn_cables_laid lay_ends(cable *slots, uint32_t near_end, uint32_t far_end)
{
    evtchn_cables_laid laid = {EVTCHN_FIFO_DONE, 0};
    cable joined = {near_end, far_end};
    if (lowest_with(slots, near_end) < EVTCHN_CABLES_SLOTS || lowest_with(slots, far_end) < EVTCHN_CABLES_SLOTS)
        return not_laid(EVTCHN_CABLES_TAKEN);
    laid.slot = lowest_free(slots);
    if (laid.slot == EVTCHN_CABLES_SLOTS)
        return not_laid(EVTCHN_CABLES_FULL);
    slots[laid.slot] = joined;
    return laid;
}

evtchn_cables_laid evtchn_cables_bytes_lay(uint8_t *table, size_t table_length, const uint8_t *near, size_t near_length,
                                     const uint8_t *near_ledger, size_t near_ledger_length, const uint8_t *far, size_t far_length,
                                     const uint8_t *far_ledger, size_t far_ledger_length, uint64_t near_domain, uint64_t near_port,
                                     uint64_t far_domain, uint64_t far_port)
{
    uint32_t refused;
    if (near_domain >= EVTCHN_CABLES_DOMAINS || far_domain >= EVTCHN_CABLES_DOMAINS)
        return not_laid(EVTCHN_CABLES_BAD_DOMAIN);
    if (near_domain == far_domain)
        return not_laid(EVTCHN_CABLES_SAME_DOMAIN);
    if (is_short(table_length, near_length) || far_length < EVTCHN_FIFO_DOMAIN_SIZE)
        return not_laid(EVTCHN_FIFO_TOO_SHORT);
    refused = end_refusal(near, near_ledger, near_ledger_length, near_port);
    if (!refused)
        refused = end_refusal(far, far_ledger, far_ledger_length, far_port);
    if (refused)
        return not_laid(refused);
    return lay_ends((cable *)table, end_of(near_domain, near_port), end_of(far_domain, far_port));
}

uint32_t evtchn_cables_bytes_cut(uint8_t *table, size_t table_length, const uint8_t *domain, size_t domain_length, const uint8_t *ledger,
                           size_t ledger_length, uint64_t number, uint64_t port)
{
    uint32_t refused;
    if (number >= EVTCHN_CABLES_DOMAINS)
        return EVTCHN_CABLES_BAD_DOMAIN;
    if (is_short(table_length, domain_length))
        return EVTCHN_FIFO_TOO_SHORT;
    refused = end_refusal(domain, ledger, ledger_length, port);
    if (refused)
        return refused;
    if (lowest_with((cable *)table, end_of(number, port)) == EVTCHN_CABLES_SLOTS)
        return EVTCHN_CABLES_NONE;
    free_end((cable *)table, end_of(number, port));
    return EVTCHN_FIFO_DONE;
}

/* 26, and the other end. */
static inline evtchn_cables_far send_end(const cable *slots, uint32_t end, uint32_t hint)
{
    uint32_t slot = find_end(slots, end, hint), other;
    evtchn_cables_far far = {EVTCHN_FIFO_DONE, 0, 0, slot};
    if (slot == EVTCHN_CABLES_SLOTS)
        return not_sent(EVTCHN_CABLES_NONE);
    other = other_end(slots + slot, end);
    far.domain = other / END_PORTS;
    far.port = other % END_PORTS;
    return far;
}

evtchn_cables_far evtchn_cables_bytes_send(const uint8_t *table, size_t table_length, const uint8_t *domain, size_t domain_length,
                                     const uint8_t *ledger, size_t ledger_length, uint64_t number, uint64_t port, uint32_t hint)
{
    uint32_t refused;
    if (number >= EVTCHN_CABLES_DOMAINS)
        return not_sent(EVTCHN_CABLES_BAD_DOMAIN);
    if (is_short(table_length, domain_length))
        return not_sent(EVTCHN_FIFO_TOO_SHORT);
    refused = end_refusal(domain, ledger, ledger_length, port);
    if (refused)
        return not_sent(refused);
    return send_end((const cable *)table, end_of(number, port), hint);
}

/* ---- close and reply ---- */

evtchn_fifo_next evtchn_cables_bytes_close(uint8_t *table, size_t table_length, uint8_t *domain, size_t domain_length, uint8_t *ledger,
                                     size_t ledger_length, uint64_t number, uint64_t port)
{
    evtchn_fifo_next next;
    if (table_length < EVTCHN_CABLES_SIZE)
        return no_table();
    next = evtchn_fifo_bytes_close(domain, domain_length, ledger, ledger_length, port);
    if (next.code == EVTCHN_FIFO_DONE)
        free_end((cable *)table, end_of(number, port));
    return next;
}

/* The port of the close that waits for its reply; 0: no such close. */
static inline uint32_t closing_port(const uint8_t *domain_bytes, size_t domain_length)
{
    const port_owner *domain = (const port_owner *)domain_bytes;
    if (domain_length < EVTCHN_FIFO_DOMAIN_SIZE || domain->owner != OWNER_CLOSE || domain->stage != STAGE_FIRST)
        return 0;
    return domain->port;
}

evtchn_fifo_next evtchn_cables_bytes_reply(uint8_t *table, size_t table_length, uint8_t *domain, size_t domain_length, uint8_t *ledger,
                                     size_t ledger_length, uint64_t number, uint32_t seen)
{
    evtchn_fifo_next next;
    uint32_t port;
    if (table_length < EVTCHN_CABLES_SIZE)
        return no_table();
    port = closing_port(domain, domain_length);
    next = evtchn_fifo_bytes_reply(domain, domain_length, ledger, ledger_length, seen);
    if (port != 0 && next.code == EVTCHN_FIFO_DONE)
        free_end((cable *)table, end_of(number, port));
    return next;
}
