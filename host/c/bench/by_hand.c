/*
 * evtchn_fifo.h by hand in C: the same symbols, records and answers for any bytes, in place and without proof.
 * What the library's cost is measured by. Each function named after a rule of document 01 is the reply to that rule's access.
 */
#include "evtchn_fifo.h"

#include <string.h>

_Static_assert(__BYTE_ORDER__ == __ORDER_LITTLE_ENDIAN__, "a record's words have their lowest byte first");

/* records and entries at any alignment, over bytes of any type */
#define IN_PLACE __attribute__((packed, may_alias))

enum owner { OWNER_NONE, BIND, CLOSE, RAISE, UNMASK };
enum stage { FIRST, R2, R3, R4, R5, R6, SET_BUSY, CLEAR_BUSY };
enum guest_stage { SERVICE_NONE, G0, G1, G2, G3, G4 };
enum clear_mask_stage { CLEAR_MASK_NONE, CLEAR_MASK_READ, CLEAR_MASK_CAS };

typedef struct IN_PLACE domain_record {
    uint32_t given, pages, tails[EVTCHN_FIFO_QUEUES];
    uint32_t owner, stage, port, queue, word, tries, count;
} domain_record;

typedef struct IN_PLACE guest_record {
    uint32_t heads[EVTCHN_FIFO_QUEUES], ready, words;
    uint32_t stage, port, queue, count;
    struct IN_PLACE {
        uint32_t stage, port, word, count;
    } clear_mask;
} guest_record;

typedef struct IN_PLACE ledger_entry {
    uint16_t bits;
} ledger_entry;

_Static_assert(sizeof(domain_record) == EVTCHN_FIFO_DOMAIN_SIZE, "a domain's record");
_Static_assert(sizeof(guest_record) == EVTCHN_FIFO_GUEST_SIZE, "a guest's record");
_Static_assert(sizeof(ledger_entry) == EVTCHN_FIFO_ENTRY_SIZE, "a ledger's entry");

/* event words */
#define PENDING 0x80000000u
#define MASKED 0x40000000u
#define LINKED 0x20000000u
#define BUSY 0x10000000u
#define LINK 0x1FFFFu

/* ledger entries */
#define PRIORITY 0xFu
#define LAST_QUEUE 0xF0u
#define BOUND 0x100u
#define BEEN_LINKED 0x200u
#define DEFAULT_PRIORITY 7u

#define LINK_BITS 17u
#define MOST_PAGES 128u
#define MOST_TRIES 5u
#define LAST_OFFSET 4024u

/* the code of an access */
#define ACCESS(kind, place) (0x100u + EVTCHN_FIFO_##kind * 16u + EVTCHN_FIFO_##place)

static inline evtchn_fifo_next next_of(uint32_t code, uint32_t index, uint32_t value, uint32_t old)
{
    evtchn_fifo_next next = {code, index, value, old};
    return next;
}

/* An answer that ends no call under way. */
static inline evtchn_fifo_next at_once(uint32_t code) { return next_of(code, 0, 0, 0); }

static inline uint32_t one_more(uint32_t count) { return count + (count != UINT32_MAX); }

static inline uint32_t ready_bit(uint32_t queue) { return 1u << queue % EVTCHN_FIFO_QUEUES; }

/* ---- the hypervisor's side: fields of its record ---- */

static inline int is_under_way(const domain_record *domain)
{
    return domain->owner - BIND <= UNMASK - BIND && domain->stage <= CLEAR_BUSY;
}

static inline int in_array(const domain_record *domain, uint32_t port)
{
    return port / EVTCHN_FIFO_PAGE_WORDS < domain->pages;
}

/* A queue above 15, which no run makes, has no tail. */
static inline uint32_t tail_of(const domain_record *domain, uint32_t queue)
{
    return queue < EVTCHN_FIFO_QUEUES ? domain->tails[queue] : 0;
}

static inline void set_tail(domain_record *domain)
{
    if (domain->queue < EVTCHN_FIFO_QUEUES)
        domain->tails[domain->queue] = domain->port;
}

static inline evtchn_fifo_next end(domain_record *domain, uint32_t code)
{
    domain->owner = OWNER_NONE;
    return next_of(code, 0, domain->count, 0);
}

static inline void go_on(domain_record *domain, enum stage stage)
{
    domain->stage = stage;
    domain->count = one_more(domain->count);
}

/* ---- the access that each stage names ---- */

static inline evtchn_fifo_next name_first(uint32_t owner, uint32_t port)
{
    switch (owner) {
    case BIND: return next_of(ACCESS(READ, WORD), port, 0, 0);
    case CLOSE: return next_of(ACCESS(AND, WORD), port, ~PENDING, 0);
    case RAISE: return next_of(ACCESS(OR, WORD), port, PENDING, 0);
    default: return next_of(ACCESS(AND, WORD), port, ~MASKED, 0);
    }
}

static inline evtchn_fifo_next name_r2(const domain_record *domain)
{
    return next_of(ACCESS(OR, WORD), domain->port, LINKED, 0);
}

static inline evtchn_fifo_next name_r3(const domain_record *domain)
{
    return next_of(ACCESS(READ, WORD), tail_of(domain, domain->queue), 0, 0);
}

static inline evtchn_fifo_next name_r4(const domain_record *domain, uint32_t word)
{
    return next_of(ACCESS(CAS, WORD), tail_of(domain, domain->queue), (word & ~(BUSY | LINK)) | (domain->port & LINK), word);
}

static inline evtchn_fifo_next name_set_busy(const domain_record *domain)
{
    return next_of(ACCESS(OR, WORD), tail_of(domain, domain->queue), BUSY, 0);
}

static inline evtchn_fifo_next name_clear_busy(const domain_record *domain)
{
    return next_of(ACCESS(AND, WORD), tail_of(domain, domain->queue), ~BUSY, 0);
}

static inline evtchn_fifo_next name_r5(const domain_record *domain, uint32_t queue)
{
    return next_of(ACCESS(STORE, HEAD), queue, domain->port, 0);
}

static inline evtchn_fifo_next name_r6(const domain_record *domain)
{
    return next_of(ACCESS(OR, READY), 0, ready_bit(domain->queue), 0);
}

/* ---- the replies ---- */

static inline evtchn_fifo_next go_on_r2(domain_record *domain)
{
    go_on(domain, R2);
    return name_r2(domain);
}

static inline evtchn_fifo_next go_on_r4(domain_record *domain, uint32_t word, uint32_t tries)
{
    domain->word = word;
    domain->tries = tries;
    go_on(domain, R4);
    return name_r4(domain, word);
}

static inline evtchn_fifo_next go_on_set_busy(domain_record *domain)
{
    go_on(domain, SET_BUSY);
    return name_set_busy(domain);
}

/* What follows the and depends on the word seen before it. */
static inline evtchn_fifo_next go_on_clear_busy(domain_record *domain, uint32_t seen)
{
    domain->word = seen;
    go_on(domain, CLEAR_BUSY);
    return name_clear_busy(domain);
}

static inline evtchn_fifo_next go_on_r5(domain_record *domain, uint32_t queue)
{
    go_on(domain, R5);
    return name_r5(domain, queue);
}

static inline evtchn_fifo_next bind_reply(domain_record *domain, ledger_entry *entry, uint32_t seen)
{
    if (seen & LINKED)
        return end(domain, EVTCHN_FIFO_STILL_LINKED);
    entry->bits |= BOUND;
    return end(domain, EVTCHN_FIFO_DONE);
}

static inline void close_entry(ledger_entry *entry)
{
    entry->bits = (uint16_t)((entry->bits & ~(BOUND | PRIORITY)) | DEFAULT_PRIORITY);
}

static inline evtchn_fifo_next close_reply(domain_record *domain, ledger_entry *entry)
{
    close_entry(entry);
    return end(domain, EVTCHN_FIFO_DONE);
}

static inline evtchn_fifo_next r1_reply(domain_record *domain, uint32_t seen)
{
    return seen & (MASKED | LINKED) ? end(domain, EVTCHN_FIFO_DONE) : go_on_r2(domain);
}

static inline evtchn_fifo_next u1_reply(domain_record *domain, uint32_t seen)
{
    return (seen & (PENDING | LINKED)) == PENDING ? go_on_r2(domain) : end(domain, EVTCHN_FIFO_DONE);
}

static inline evtchn_fifo_next first_reply(domain_record *domain, ledger_entry *entry, uint32_t seen)
{
    switch (domain->owner) {
    case BIND: return bind_reply(domain, entry, seen);
    case CLOSE: return close_reply(domain, entry);
    case RAISE: return r1_reply(domain, seen);
    default: return u1_reply(domain, seen);
    }
}

static inline evtchn_fifo_next r2_reply(domain_record *domain, ledger_entry *entry, uint32_t seen)
{
    uint32_t bits = entry->bits, queue = bits & PRIORITY, last = (bits & LAST_QUEUE) >> 4, tail;
    if (seen & LINKED)
        return end(domain, EVTCHN_FIFO_DONE);
    if ((bits & BEEN_LINKED) && last != queue && domain->tails[last] == domain->port)
        domain->tails[last] = 0;
    entry->bits = (uint16_t)((bits & ~LAST_QUEUE) | queue << 4 | BEEN_LINKED);
    domain->queue = queue;
    tail = domain->tails[queue];
    if (tail == 0 || tail == domain->port)
        return go_on_r5(domain, queue);
    go_on(domain, R3);
    return next_of(ACCESS(READ, WORD), tail, 0, 0);
}

static inline evtchn_fifo_next r3_reply(domain_record *domain, uint32_t seen)
{
    return seen & LINKED ? go_on_r4(domain, seen, 1) : go_on_r5(domain, domain->queue);
}

static inline evtchn_fifo_next end_linked(domain_record *domain, uint32_t code)
{
    set_tail(domain);
    return end(domain, code);
}

/* With -DWITHOUT_BUSY, R4 makes document 01's four plain cas: a test of masks that change within a raise must find the event they lose. */
#ifndef WITHOUT_BUSY
#define WITHOUT_BUSY 0
#endif

static inline evtchn_fifo_next not_taken_plain(domain_record *domain, uint32_t seen)
{
    if (!(seen & LINKED))
        return go_on_r5(domain, domain->queue);
    return domain->tries >= 4 ? end_linked(domain, EVTCHN_FIFO_LINK_ABANDONED) : go_on_r4(domain, seen, domain->tries + 1);
}

static inline evtchn_fifo_next not_taken(domain_record *domain, uint32_t seen)
{
    if (domain->tries <= 1)
        return seen & LINKED ? go_on_set_busy(domain) : go_on_r5(domain, domain->queue);
    if (!(seen & LINKED) || domain->tries >= MOST_TRIES)
        return go_on_clear_busy(domain, seen);
    return go_on_r4(domain, seen, domain->tries + 1);
}

static inline evtchn_fifo_next r4_reply(domain_record *domain, uint32_t seen)
{
    if (seen == domain->word)
        return end_linked(domain, EVTCHN_FIFO_DONE);
    return WITHOUT_BUSY ? not_taken_plain(domain, seen) : not_taken(domain, seen);
}

static inline evtchn_fifo_next set_busy_reply(domain_record *domain, uint32_t seen)
{
    return seen & LINKED ? go_on_r4(domain, seen | BUSY, 2) : go_on_clear_busy(domain, seen);
}

static inline evtchn_fifo_next clear_busy_reply(domain_record *domain)
{
    return domain->word & LINKED ? end_linked(domain, EVTCHN_FIFO_LINK_ABANDONED) : go_on_r5(domain, domain->queue);
}

static inline evtchn_fifo_next r5_reply(domain_record *domain)
{
    set_tail(domain);
    go_on(domain, R6);
    return name_r6(domain);
}

static inline evtchn_fifo_next r6_reply(domain_record *domain, uint32_t seen)
{
    return end(domain, seen & ready_bit(domain->queue) ? EVTCHN_FIFO_DONE : EVTCHN_FIFO_UPCALL_WANTED);
}

evtchn_fifo_next evtchn_fifo_bytes_reply(uint8_t *domain_bytes, size_t domain_length, uint8_t *ledger, size_t ledger_length,
                                   uint32_t seen)
{
    domain_record *domain = (domain_record *)domain_bytes;
    ledger_entry *entry;
    if (domain_length < EVTCHN_FIFO_DOMAIN_SIZE)
        return at_once(EVTCHN_FIFO_TOO_SHORT);
    if (!is_under_way(domain))
        return at_once(EVTCHN_FIFO_NO_CALL);
    if (domain->port >= ledger_length / EVTCHN_FIFO_ENTRY_SIZE)
        return at_once(EVTCHN_FIFO_NO_ENTRY);
    entry = (ledger_entry *)ledger + domain->port;
    switch (domain->stage) {
    case FIRST: return first_reply(domain, entry, seen);
    case R2: return r2_reply(domain, entry, seen);
    case R3: return r3_reply(domain, seen);
    case R4: return r4_reply(domain, seen);
    case R5: return r5_reply(domain);
    case R6: return r6_reply(domain, seen);
    case SET_BUSY: return set_busy_reply(domain, seen);
    default: return clear_busy_reply(domain);
    }
}

evtchn_fifo_next evtchn_fifo_bytes_due(const uint8_t *domain_bytes, size_t domain_length)
{
    const domain_record *domain = (const domain_record *)domain_bytes;
    if (domain_length < EVTCHN_FIFO_DOMAIN_SIZE)
        return at_once(EVTCHN_FIFO_TOO_SHORT);
    if (!is_under_way(domain))
        return at_once(EVTCHN_FIFO_NO_CALL);
    switch (domain->stage) {
    case FIRST: return name_first(domain->owner, domain->port);
    case R2: return name_r2(domain);
    case R3: return name_r3(domain);
    case R4: return name_r4(domain, domain->word);
    case R5: return name_r5(domain, domain->queue);
    case R6: return name_r6(domain);
    case SET_BUSY: return name_set_busy(domain);
    default: return name_clear_busy(domain);
    }
}

/* ---- the starts ---- */

static inline evtchn_fifo_next begin(domain_record *domain, enum owner owner, uint32_t port)
{
    domain->owner = owner;
    domain->stage = FIRST;
    domain->port = port;
    domain->count = 1;
    return name_first(owner, port);
}

/* 64, 15, 10, 3, 14: what every call on a port is refused with; 0 where none of them holds. */
static inline uint32_t refusal(const domain_record *domain, size_t domain_length, size_t ledger_length, uint64_t port)
{
    if (domain_length < EVTCHN_FIFO_DOMAIN_SIZE)
        return EVTCHN_FIFO_TOO_SHORT;
    if (is_under_way(domain))
        return EVTCHN_FIFO_CALL_UNDER_WAY;
    if (!domain->given)
        return EVTCHN_FIFO_NOT_GIVEN;
    if (port == 0 || port >= EVTCHN_FIFO_PORTS)
        return EVTCHN_FIFO_BAD_PORT;
    if (port >= ledger_length / EVTCHN_FIFO_ENTRY_SIZE)
        return EVTCHN_FIFO_NO_ENTRY;
    return 0;
}

evtchn_fifo_next evtchn_fifo_bytes_bind(uint8_t *domain_bytes, size_t domain_length, uint8_t *ledger, size_t ledger_length,
                                  uint64_t port)
{
    domain_record *domain = (domain_record *)domain_bytes;
    uint32_t refused = refusal(domain, domain_length, ledger_length, port);
    ledger_entry *entry;
    if (refused)
        return at_once(refused);
    entry = (ledger_entry *)ledger + port;
    if (entry->bits & BOUND)
        return at_once(EVTCHN_FIFO_ALREADY_BOUND);
    if (in_array(domain, (uint32_t)port))
        return begin(domain, BIND, (uint32_t)port);
    entry->bits |= BOUND;
    return at_once(EVTCHN_FIFO_DONE);
}

evtchn_fifo_next evtchn_fifo_bytes_close(uint8_t *domain_bytes, size_t domain_length, uint8_t *ledger, size_t ledger_length,
                                   uint64_t port)
{
    domain_record *domain = (domain_record *)domain_bytes;
    uint32_t refused = refusal(domain, domain_length, ledger_length, port);
    ledger_entry *entry;
    if (refused)
        return at_once(refused);
    entry = (ledger_entry *)ledger + port;
    if (!(entry->bits & BOUND))
        return at_once(EVTCHN_FIFO_NOT_BOUND);
    if (in_array(domain, (uint32_t)port))
        return begin(domain, CLOSE, (uint32_t)port);
    close_entry(entry);
    return at_once(EVTCHN_FIFO_DONE);
}

evtchn_fifo_next evtchn_fifo_bytes_set_priority(uint8_t *domain_bytes, size_t domain_length, uint8_t *ledger, size_t ledger_length,
                                          uint64_t port, uint64_t priority)
{
    uint32_t refused = refusal((domain_record *)domain_bytes, domain_length, ledger_length, port);
    ledger_entry *entry;
    if (refused)
        return at_once(refused);
    if (priority >= EVTCHN_FIFO_QUEUES)
        return at_once(EVTCHN_FIFO_BAD_PRIORITY);
    entry = (ledger_entry *)ledger + port;
    entry->bits = (uint16_t)((entry->bits & ~PRIORITY) | priority);
    return at_once(EVTCHN_FIFO_DONE);
}

/* raise and unmask: 4 and 6 after what every call on a port is refused with */
static inline evtchn_fifo_next begin_link(enum owner owner, uint8_t *domain_bytes, size_t domain_length, const uint8_t *ledger,
                                          size_t ledger_length, uint64_t port)
{
    domain_record *domain = (domain_record *)domain_bytes;
    uint32_t refused = refusal(domain, domain_length, ledger_length, port);
    if (refused)
        return at_once(refused);
    if (!(((const ledger_entry *)ledger)[port].bits & BOUND))
        return at_once(EVTCHN_FIFO_NOT_BOUND);
    if (!in_array(domain, (uint32_t)port))
        return at_once(EVTCHN_FIFO_OUTSIDE_ARRAY);
    return begin(domain, owner, (uint32_t)port);
}

evtchn_fifo_next evtchn_fifo_bytes_raise(uint8_t *domain, size_t domain_length, uint8_t *ledger, size_t ledger_length, uint64_t port)
{
    return begin_link(RAISE, domain, domain_length, ledger, ledger_length, port);
}

evtchn_fifo_next evtchn_fifo_bytes_unmask(uint8_t *domain, size_t domain_length, uint8_t *ledger, size_t ledger_length, uint64_t port)
{
    return begin_link(UNMASK, domain, domain_length, ledger, ledger_length, port);
}

evtchn_fifo_next evtchn_fifo_bytes_init_control(uint8_t *domain_bytes, size_t domain_length, uint64_t vcpu, uint64_t frame,
                                          uint64_t frames, uint64_t offset)
{
    domain_record *domain = (domain_record *)domain_bytes;
    if (domain_length < EVTCHN_FIFO_DOMAIN_SIZE)
        return at_once(EVTCHN_FIFO_TOO_SHORT);
    if (is_under_way(domain))
        return at_once(EVTCHN_FIFO_CALL_UNDER_WAY);
    if (vcpu != 0)
        return at_once(EVTCHN_FIFO_BAD_VCPU);
    if (domain->given)
        return at_once(EVTCHN_FIFO_ALREADY_GIVEN);
    if (frame >= frames)
        return at_once(EVTCHN_FIFO_BAD_FRAME);
    if (offset % 8 != 0 || offset > LAST_OFFSET)
        return at_once(EVTCHN_FIFO_BAD_OFFSET);
    domain->given = 1;
    return next_of(EVTCHN_FIFO_DONE, LINK_BITS, 0, 0);
}

evtchn_fifo_next evtchn_fifo_bytes_expand_array(uint8_t *domain_bytes, size_t domain_length, uint64_t frame, uint64_t frames)
{
    domain_record *domain = (domain_record *)domain_bytes;
    if (domain_length < EVTCHN_FIFO_DOMAIN_SIZE)
        return at_once(EVTCHN_FIFO_TOO_SHORT);
    if (is_under_way(domain))
        return at_once(EVTCHN_FIFO_CALL_UNDER_WAY);
    if (!domain->given)
        return at_once(EVTCHN_FIFO_NOT_GIVEN);
    if (domain->pages >= MOST_PAGES)
        return at_once(EVTCHN_FIFO_TOO_MANY_PAGES);
    if (frame >= frames)
        return at_once(EVTCHN_FIFO_BAD_FRAME);
    domain->pages++;
    return at_once(EVTCHN_FIFO_DONE);
}

/* ---- the guest's side ---- */

static inline int is_serving(const guest_record *guest) { return guest->stage - G0 <= G4 - G0; }

static inline int is_clearing(const guest_record *guest)
{
    return guest->clear_mask.stage - CLEAR_MASK_READ <= CLEAR_MASK_CAS - CLEAR_MASK_READ;
}

static inline void set_head(guest_record *guest, uint32_t queue, uint32_t port)
{
    if (queue < EVTCHN_FIFO_QUEUES)
        guest->heads[queue] = port;
}

static inline evtchn_fifo_next end_service(guest_record *guest, uint32_t code, uint32_t port)
{
    guest->stage = SERVICE_NONE;
    return next_of(code, port, guest->count, 0);
}

static inline void serve_on(guest_record *guest, enum guest_stage stage)
{
    guest->stage = stage;
    guest->count = one_more(guest->count);
}

static inline evtchn_fifo_next name_g0(void) { return next_of(ACCESS(SWAP, READY), 0, 0, 0); }
static inline evtchn_fifo_next name_g1(uint32_t queue) { return next_of(ACCESS(READ, HEAD), queue, 0, 0); }
static inline evtchn_fifo_next name_g2(uint32_t port) { return next_of(ACCESS(AND, WORD), port, ~(LINKED | LINK), 0); }
static inline evtchn_fifo_next name_g3(uint32_t port) { return next_of(ACCESS(READ, WORD), port, 0, 0); }
static inline evtchn_fifo_next name_g4(uint32_t port) { return next_of(ACCESS(AND, WORD), port, ~PENDING, 0); }

/* G2 for a port in the guest's array; else 18, which leaves H and the local bit of the queue 0. */
static inline evtchn_fifo_next take(guest_record *guest, uint32_t queue, uint32_t port)
{
    if (port == 0 || port >= guest->words) {
        set_head(guest, queue, 0);
        guest->ready &= ~ready_bit(queue);
        return end_service(guest, EVTCHN_FIFO_BAD_INDEX, 0);
    }
    guest->port = port;
    guest->queue = queue;
    serve_on(guest, G2);
    return name_g2(port);
}

static inline evtchn_fifo_next g0_reply(guest_record *guest, uint32_t seen)
{
    uint32_t ready = (guest->ready | seen) & 0xFFFFu, queue, head;
    guest->ready = ready;
    if (ready == 0)
        return end_service(guest, EVTCHN_FIFO_NOTHING_READY, 0);
    queue = (uint32_t)__builtin_ctz(ready);
    head = guest->heads[queue];
    if (head != 0)
        return take(guest, queue, head);
    guest->queue = queue;
    serve_on(guest, G1);
    return name_g1(queue);
}

static inline evtchn_fifo_next g2_reply(guest_record *guest, uint32_t seen)
{
    uint32_t queue = guest->queue, link = seen & LINK;
    set_head(guest, queue, link);
    if (link == 0)
        guest->ready &= ~ready_bit(queue);
    serve_on(guest, G3);
    return name_g3(guest->port);
}

static inline evtchn_fifo_next g3_reply(guest_record *guest, uint32_t seen)
{
    if ((seen & (PENDING | MASKED)) != PENDING)
        return end_service(guest, EVTCHN_FIFO_TAKEN, guest->port);
    serve_on(guest, G4);
    return name_g4(guest->port);
}

static inline evtchn_fifo_next g4_reply(guest_record *guest, uint32_t seen)
{
    return end_service(guest, seen & PENDING ? EVTCHN_FIFO_HANDED_OVER : EVTCHN_FIFO_TAKEN, guest->port);
}

evtchn_fifo_next evtchn_fifo_bytes_service(uint8_t *guest_bytes, size_t guest_length)
{
    guest_record *guest = (guest_record *)guest_bytes;
    if (guest_length < EVTCHN_FIFO_GUEST_SIZE)
        return at_once(EVTCHN_FIFO_TOO_SHORT);
    if (is_serving(guest) || is_clearing(guest))
        return at_once(EVTCHN_FIFO_CALL_UNDER_WAY);
    guest->stage = G0;
    guest->count = 1;
    return name_g0();
}

/* ---- clear_mask ---- */

static inline evtchn_fifo_next name_clear_mask_read(uint32_t port) { return next_of(ACCESS(READ, WORD), port, 0, 0); }

static inline evtchn_fifo_next name_clear_mask_cas(uint32_t port, uint32_t word)
{
    return next_of(ACCESS(CAS, WORD), port, word & ~MASKED, word);
}

static inline evtchn_fifo_next end_clear_mask(guest_record *guest, uint32_t code)
{
    guest->clear_mask.stage = CLEAR_MASK_NONE;
    return next_of(code, 0, guest->clear_mask.count, 0);
}

static inline evtchn_fifo_next clear_mask_read_reply(guest_record *guest, uint32_t seen)
{
    if (!(seen & MASKED))
        return end_clear_mask(guest, EVTCHN_FIFO_DONE);
    if (seen & (PENDING | BUSY))
        return end_clear_mask(guest, EVTCHN_FIFO_CALL_UNMASK);
    guest->clear_mask.stage = CLEAR_MASK_CAS;
    guest->clear_mask.word = seen;
    guest->clear_mask.count = one_more(guest->clear_mask.count);
    return name_clear_mask_cas(guest->clear_mask.port, seen);
}

static inline evtchn_fifo_next clear_mask_cas_reply(guest_record *guest, uint32_t seen)
{
    return end_clear_mask(guest, seen == guest->clear_mask.word ? EVTCHN_FIFO_DONE : EVTCHN_FIFO_CALL_UNMASK);
}

/* A function of its own, so that a service's replies do without the registers that it needs. */
static __attribute__((noinline)) evtchn_fifo_next clear_mask_reply(guest_record *guest, uint32_t seen)
{
    return guest->clear_mask.stage == CLEAR_MASK_READ ? clear_mask_read_reply(guest, seen) : clear_mask_cas_reply(guest, seen);
}

static inline evtchn_fifo_next name_clear_mask(const guest_record *guest)
{
    uint32_t port = guest->clear_mask.port;
    return guest->clear_mask.stage == CLEAR_MASK_READ ? name_clear_mask_read(port) : name_clear_mask_cas(port, guest->clear_mask.word);
}

evtchn_fifo_next evtchn_fifo_bytes_clear_mask(uint8_t *guest_bytes, size_t guest_length, uint64_t port)
{
    guest_record *guest = (guest_record *)guest_bytes;
    if (guest_length < EVTCHN_FIFO_GUEST_SIZE)
        return at_once(EVTCHN_FIFO_TOO_SHORT);
    if (is_clearing(guest))
        return at_once(EVTCHN_FIFO_CALL_UNDER_WAY);
    if (port == 0 || port >= EVTCHN_FIFO_PORTS)
        return at_once(EVTCHN_FIFO_BAD_PORT);
    if (port >= guest->words)
        return at_once(EVTCHN_FIFO_OUTSIDE_ARRAY);
    guest->clear_mask.stage = CLEAR_MASK_READ;
    guest->clear_mask.port = (uint32_t)port;
    guest->clear_mask.count = 1;
    return name_clear_mask_read((uint32_t)port);
}

/* ---- the guest's replies: a clear_mask's while one is under way, else a service's ---- */

evtchn_fifo_next evtchn_fifo_bytes_service_reply(uint8_t *guest_bytes, size_t guest_length, uint32_t seen)
{
    guest_record *guest = (guest_record *)guest_bytes;
    if (guest_length < EVTCHN_FIFO_GUEST_SIZE)
        return at_once(EVTCHN_FIFO_TOO_SHORT);
    if (is_clearing(guest))
        return clear_mask_reply(guest, seen);
    switch (guest->stage) {
    case G0: return g0_reply(guest, seen);
    case G1: return take(guest, guest->queue, seen);
    case G2: return g2_reply(guest, seen);
    case G3: return g3_reply(guest, seen);
    case G4: return g4_reply(guest, seen);
    default: return at_once(EVTCHN_FIFO_NO_CALL);
    }
}

evtchn_fifo_next evtchn_fifo_bytes_service_due(const uint8_t *guest_bytes, size_t guest_length)
{
    const guest_record *guest = (const guest_record *)guest_bytes;
    if (guest_length < EVTCHN_FIFO_GUEST_SIZE)
        return at_once(EVTCHN_FIFO_TOO_SHORT);
    if (is_clearing(guest))
        return name_clear_mask(guest);
    switch (guest->stage) {
    case G0: return name_g0();
    case G1: return name_g1(guest->queue);
    case G2: return name_g2(guest->port);
    case G3: return name_g3(guest->port);
    case G4: return name_g4(guest->port);
    default: return at_once(EVTCHN_FIFO_NO_CALL);
    }
}

evtchn_fifo_next evtchn_fifo_mask(uint64_t port, uint64_t words)
{
    if (port == 0 || port >= EVTCHN_FIFO_PORTS)
        return at_once(EVTCHN_FIFO_BAD_PORT);
    if (port >= words)
        return at_once(EVTCHN_FIFO_OUTSIDE_ARRAY);
    return next_of(ACCESS(OR, WORD), (uint32_t)port, MASKED, 0);
}

evtchn_fifo_next evtchn_fifo_bytes_tell(uint8_t *guest_bytes, size_t guest_length, uint64_t words)
{
    guest_record *guest = (guest_record *)guest_bytes;
    if (guest_length < EVTCHN_FIFO_GUEST_SIZE)
        return at_once(EVTCHN_FIFO_TOO_SHORT);
    if (words > guest->words)
        guest->words = words < UINT32_MAX ? (uint32_t)words : UINT32_MAX;
    return at_once(EVTCHN_FIFO_DONE);
}

/* ---- fresh records ---- */

uint32_t evtchn_fifo_layout(void) { return EVTCHN_FIFO_LAYOUT; }

uint32_t evtchn_fifo_bytes_fresh_domain(uint8_t *domain, size_t domain_length)
{
    if (domain_length < EVTCHN_FIFO_DOMAIN_SIZE)
        return EVTCHN_FIFO_TOO_SHORT;
    memset(domain, 0, EVTCHN_FIFO_DOMAIN_SIZE);
    return EVTCHN_FIFO_DONE;
}

uint32_t evtchn_fifo_bytes_fresh_guest(uint8_t *guest, size_t guest_length)
{
    if (guest_length < EVTCHN_FIFO_GUEST_SIZE)
        return EVTCHN_FIFO_TOO_SHORT;
    memset(guest, 0, EVTCHN_FIFO_GUEST_SIZE);
    return EVTCHN_FIFO_DONE;
}

uint32_t evtchn_fifo_bytes_fresh_ledger(uint8_t *ledger, size_t ledger_length)
{
    ledger_entry *entries = (ledger_entry *)ledger;
    size_t port;
    for (port = 0; port < ledger_length / EVTCHN_FIFO_ENTRY_SIZE; port++)
        entries[port].bits = DEFAULT_PRIORITY;
    return EVTCHN_FIFO_DONE;
}
