/*
 * What a hypervisor's author would write instead of the library: the rules of document 01 and BUSY on words in shared memory, one after
 * the other, and without proof. The cost of whole calls is measured by it. The fields of the calls under way are read for 15 and left.
 */
#include "in_place.h"

_Static_assert(__BYTE_ORDER__ == __ORDER_LITTLE_ENDIAN__, "a record's words have their lowest byte first");

/* A test puts the other side's accesses here. */
#ifndef BEFORE_ACCESS
#define BEFORE_ACCESS() ((void)0)
#endif

/* records at any alignment, over bytes */
#define RECORD __attribute__((packed, may_alias))

typedef struct RECORD domain_record {
    uint32_t given, pages, tails[EVTCHN_FIFO_QUEUES], owner, stage;
} domain_record;

typedef struct RECORD guest_record {
    uint32_t heads[EVTCHN_FIFO_QUEUES], ready, words, stage, others[3], clear_mask_stage;
} guest_record;

#define OWNERS 4u            /* 1 to 4 */
#define STAGES 8u            /* 0 to 7 */
#define GUEST_STAGES 5u      /* 1 to 5 */
#define CLEAR_MASK_STAGES 2u /* 1 and 2 */

/* event words */
#define PENDING 0x80000000u
#define MASKED 0x40000000u
#define LINKED 0x20000000u
#define BUSY 0x10000000u
#define LINK 0x1FFFFu

/* ledger entries */
#define PRIORITY 0xFu
#define LAST_QUEUE 0xF0u
#define BOUND 0x100u
#define BEEN_LINKED 0x200u

#define MOST_TRIES 5u

static inline evtchn_fifo_next answer(uint32_t code, uint32_t port, uint32_t count)
{
    evtchn_fifo_next next = {code, port, count, 0};
    return next;
}

static inline uint32_t *word_of(const evtchn_fifo_shared *shared, uint32_t port)
{
    return shared->pages[port / EVTCHN_FIFO_PAGE_WORDS] + port % EVTCHN_FIFO_PAGE_WORDS;
}

/* ---- accesses, each one atomic step ---- */

static inline uint32_t read(const uint32_t *word)
{
    BEFORE_ACCESS();
    return __atomic_load_n(word, __ATOMIC_SEQ_CST);
}

static inline void store(uint32_t *word, uint32_t value)
{
    BEFORE_ACCESS();
    __atomic_store_n(word, value, __ATOMIC_SEQ_CST);
}

static inline uint32_t fetch_or(uint32_t *word, uint32_t value)
{
    BEFORE_ACCESS();
    return __atomic_fetch_or(word, value, __ATOMIC_SEQ_CST);
}

static inline uint32_t fetch_and(uint32_t *word, uint32_t value)
{
    BEFORE_ACCESS();
    return __atomic_fetch_and(word, value, __ATOMIC_SEQ_CST);
}

static inline uint32_t swap(uint32_t *word, uint32_t value)
{
    BEFORE_ACCESS();
    return __atomic_exchange_n(word, value, __ATOMIC_SEQ_CST);
}

/* Whether the cas was taken; old becomes the word seen. */
static inline int cas(uint32_t *word, uint32_t *old, uint32_t value)
{
    BEFORE_ACCESS();
    return __atomic_compare_exchange_n(word, old, value, 0, __ATOMIC_SEQ_CST, __ATOMIC_SEQ_CST);
}

/* ---- raise and unmask ---- */

/* The queue starts with the port: R5, R6. */
static inline evtchn_fifo_next r5(domain_record *domain, const evtchn_fifo_shared *shared, uint32_t port, uint32_t queue, uint32_t count)
{
    uint32_t bit = 1u << queue;
    store(&shared->control->head[queue], port);
    domain->tails[queue] = port;
    if (fetch_or(&shared->control->ready, bit) & bit)
        return answer(EVTCHN_FIFO_DONE, 0, count + 2);
    return answer(EVTCHN_FIFO_UPCALL_WANTED, 0, count + 2);
}

/* The port is its queue's tail without being its head. */
static inline evtchn_fifo_next tailed(domain_record *domain, uint32_t port, uint32_t queue, uint32_t code, uint32_t count)
{
    domain->tails[queue] = port;
    return answer(code, 0, count);
}

static inline uint32_t linked_to(uint32_t word, uint32_t port) { return (word & ~(BUSY | LINK)) | port; }

/* R4 after its first cas: with BUSY set there are four more. */
static evtchn_fifo_next r4_busy(domain_record *domain, const evtchn_fifo_shared *shared, uint32_t port, uint32_t queue, uint32_t *tail_word)
{
    uint32_t seen = fetch_or(tail_word, BUSY) | BUSY, tries;
    for (tries = 1; (seen & LINKED) && tries < MOST_TRIES; tries++)
        if (cas(tail_word, &seen, linked_to(seen, port)))
            return tailed(domain, port, queue, EVTCHN_FIFO_DONE, 5 + tries);
    fetch_and(tail_word, ~BUSY);
    if (seen & LINKED)
        return tailed(domain, port, queue, EVTCHN_FIFO_LINK_ABANDONED, 5 + tries);
    return r5(domain, shared, port, queue, 5 + tries);
}

/* The port is linked behind the tail: R3, R4. */
static inline evtchn_fifo_next r3(domain_record *domain, const evtchn_fifo_shared *shared, uint32_t port, uint32_t queue)
{
    uint32_t *tail_word = word_of(shared, domain->tails[queue]), seen = read(tail_word);
    if (!(seen & LINKED))
        return r5(domain, shared, port, queue, 3);
    if (cas(tail_word, &seen, linked_to(seen, port)))
        return tailed(domain, port, queue, EVTCHN_FIFO_DONE, 4);
    return seen & LINKED ? r4_busy(domain, shared, port, queue, tail_word) : r5(domain, shared, port, queue, 4);
}

/* The port's last queue forgets it where it moves to another one. */
static inline void move(domain_record *domain, uint16_t *entry, uint32_t port, uint32_t queue)
{
    uint32_t bits = *entry, last = (bits & LAST_QUEUE) >> 4;
    if ((bits & BEEN_LINKED) && last != queue && domain->tails[last] == port)
        domain->tails[last] = 0;
    *entry = (uint16_t)((bits & ~LAST_QUEUE) | queue << 4 | BEEN_LINKED);
}

static inline evtchn_fifo_next r2(domain_record *domain, uint16_t *entry, const evtchn_fifo_shared *shared, uint32_t port, uint32_t *word)
{
    uint32_t queue, tail;
    if (fetch_or(word, LINKED) & LINKED)
        return answer(EVTCHN_FIFO_DONE, 0, 2);
    queue = *entry & PRIORITY;
    move(domain, entry, port, queue);
    tail = domain->tails[queue];
    return tail == 0 || tail == port ? r5(domain, shared, port, queue, 2) : r3(domain, shared, port, queue);
}

/* 15, 10, 3, 14, 4, 6; 0 where none of them holds. */
static inline uint32_t refusal(const domain_record *domain, const uint16_t *ledger, size_t entries, uint64_t port)
{
    if (domain->owner - 1u < OWNERS && domain->stage < STAGES)
        return EVTCHN_FIFO_CALL_UNDER_WAY;
    if (!domain->given)
        return EVTCHN_FIFO_NOT_GIVEN;
    if (port - 1u >= EVTCHN_FIFO_PORTS - 1u)
        return EVTCHN_FIFO_BAD_PORT;
    if (port >= entries)
        return EVTCHN_FIFO_NO_ENTRY;
    if (!(ledger[port] & BOUND))
        return EVTCHN_FIFO_NOT_BOUND;
    if (port / EVTCHN_FIFO_PAGE_WORDS >= domain->pages)
        return EVTCHN_FIFO_OUTSIDE_ARRAY;
    return 0;
}

/* R1. */
evtchn_fifo_next in_place_raise(evtchn_fifo_domain *bytes, uint16_t *ledger, size_t entries, const evtchn_fifo_shared *shared, uint64_t port)
{
    domain_record *domain = (domain_record *)bytes;
    uint32_t refused = refusal(domain, ledger, entries, port), *word;
    if (refused)
        return answer(refused, 0, 0);
    word = word_of(shared, (uint32_t)port);
    if (fetch_or(word, PENDING) & (MASKED | LINKED))
        return answer(EVTCHN_FIFO_DONE, 0, 1);
    return r2(domain, ledger + port, shared, (uint32_t)port, word);
}

/* U1. */
evtchn_fifo_next in_place_unmask(evtchn_fifo_domain *bytes, uint16_t *ledger, size_t entries, const evtchn_fifo_shared *shared, uint64_t port)
{
    domain_record *domain = (domain_record *)bytes;
    uint32_t refused = refusal(domain, ledger, entries, port), *word;
    if (refused)
        return answer(refused, 0, 0);
    word = word_of(shared, (uint32_t)port);
    if ((fetch_and(word, ~MASKED) & (PENDING | LINKED)) != PENDING)
        return answer(EVTCHN_FIFO_DONE, 0, 1);
    return r2(domain, ledger + port, shared, (uint32_t)port, word);
}

/* ---- service and clear_mask ---- */

static inline int is_clearing(const guest_record *guest) { return guest->clear_mask_stage - 1u < CLEAR_MASK_STAGES; }

/* G3, G4. */
static inline evtchn_fifo_next g3(uint32_t *word, uint32_t port, uint32_t count)
{
    if ((read(word) & (PENDING | MASKED)) != PENDING)
        return answer(EVTCHN_FIFO_TAKEN, port, count + 1);
    if (fetch_and(word, ~PENDING) & PENDING)
        return answer(EVTCHN_FIFO_HANDED_OVER, port, count + 2);
    return answer(EVTCHN_FIFO_TAKEN, port, count + 2);
}

/* G2; an index that leads nowhere empties the queue. */
static inline evtchn_fifo_next g2(guest_record *guest, const evtchn_fifo_shared *shared, uint32_t queue, uint32_t port, uint32_t count)
{
    uint32_t *word, link;
    if (port == 0 || port >= guest->words) {
        guest->heads[queue] = 0;
        guest->ready &= ~(1u << queue);
        return answer(EVTCHN_FIFO_BAD_INDEX, 0, count);
    }
    word = word_of(shared, port);
    link = fetch_and(word, ~(LINKED | LINK)) & LINK;
    guest->heads[queue] = link;
    if (link == 0)
        guest->ready &= ~(1u << queue);
    return g3(word, port, count + 1);
}

/* G0, and G1 where the queue has no head yet. */
evtchn_fifo_next in_place_service(evtchn_fifo_guest *bytes, const evtchn_fifo_shared *shared)
{
    guest_record *guest = (guest_record *)bytes;
    uint32_t ready, queue, port, count = 1;
    if (guest->stage - 1u < GUEST_STAGES || is_clearing(guest))
        return answer(EVTCHN_FIFO_CALL_UNDER_WAY, 0, 0);
    ready = guest->ready | (swap(&shared->control->ready, 0) & 0xFFFFu);
    guest->ready = ready;
    if (ready == 0)
        return answer(EVTCHN_FIFO_NOTHING_READY, 0, 1);
    queue = (uint32_t)__builtin_ctz(ready);
    port = guest->heads[queue];
    if (port == 0) {
        port = read(&shared->control->head[queue]);
        count = 2;
    }
    return g2(guest, shared, queue, port, count);
}

/* 15, 3, 6; else one read and at most one cas. */
evtchn_fifo_next in_place_clear_mask(evtchn_fifo_guest *bytes, const evtchn_fifo_shared *shared, uint64_t port)
{
    const guest_record *guest = (const guest_record *)bytes;
    uint32_t *word, seen;
    if (is_clearing(guest))
        return answer(EVTCHN_FIFO_CALL_UNDER_WAY, 0, 0);
    if (port - 1u >= EVTCHN_FIFO_PORTS - 1u)
        return answer(EVTCHN_FIFO_BAD_PORT, 0, 0);
    if (port >= guest->words)
        return answer(EVTCHN_FIFO_OUTSIDE_ARRAY, 0, 0);
    word = word_of(shared, (uint32_t)port);
    seen = read(word);
    if (!(seen & MASKED))
        return answer(EVTCHN_FIFO_DONE, 0, 1);
    if (seen & (PENDING | BUSY))
        return answer(EVTCHN_FIFO_CALL_UNMASK, 0, 1);
    return answer(cas(word, &seen, seen & ~MASKED) ? EVTCHN_FIFO_DONE : EVTCHN_FIFO_CALL_UNMASK, 0, 2);
}
