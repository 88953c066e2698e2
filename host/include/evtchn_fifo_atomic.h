/*
 * evtchn_fifo_atomic: performs the accesses that evtchn_fifo names, with the compiler's atomic builtins on plain words, and runs
 * calls to their answer. All accesses are sequentially consistent. One outside the words that are mapped is not performed.
 */
#ifndef EVTCHN_FIFO_ATOMIC_H
#define EVTCHN_FIFO_ATOMIC_H

#include "evtchn_fifo.h"

#ifdef __cplusplus
extern "C" {
#endif

/* The memory that hypervisor and guest share, as one of them has it mapped. */
typedef struct evtchn_fifo_shared {
    evtchn_fifo_control *control; /* or NULL */
    uint32_t *const *pages;       /* the event array's pages, of EVTCHN_FIFO_PAGE_WORDS words each */
    uint32_t words;               /* how many event words are mapped */
} evtchn_fifo_shared;

/* ---- one access ---- */

#define EVTCHN_FIFO_INLINE static inline __attribute__((always_inline))
#define EVTCHN_FIFO_ACCESS(kind, place) (0x100u + EVTCHN_FIFO_##kind * 16u + EVTCHN_FIFO_##place)

/*
 * What a call gives, in the two registers that it comes in. Of four words gcc makes a vector, and each access waits for its way
 * through an SSE register.
 */
typedef struct evtchn_fifo_halves {
    uint64_t access;   /* code, and index above it */
    uint64_t operands; /* value, and old above it */
} evtchn_fifo_halves;

EVTCHN_FIFO_INLINE evtchn_fifo_halves evtchn_fifo_apart(evtchn_fifo_next next)
{
    evtchn_fifo_halves halves;
    __builtin_memcpy(&halves.access, (const char *)&next, 8);
    __builtin_memcpy(&halves.operands, (const char *)&next + 8, 8);
    return halves;
}

EVTCHN_FIFO_INLINE evtchn_fifo_next evtchn_fifo_together(evtchn_fifo_halves halves)
{
    evtchn_fifo_next next;
    __builtin_memcpy((char *)&next, &halves.access, 8);
    __builtin_memcpy((char *)&next + 8, &halves.operands, 8);
    return next;
}

EVTCHN_FIFO_INLINE int evtchn_fifo_perform_on(uint32_t *word, unsigned kind, uint64_t operands, uint32_t *seen)
{
    uint32_t value = (uint32_t)operands;
    switch (kind) {
    case EVTCHN_FIFO_READ:
        *seen = __atomic_load_n(word, __ATOMIC_SEQ_CST);
        return 1;
    case EVTCHN_FIFO_STORE:
        __atomic_store_n(word, value, __ATOMIC_SEQ_CST);
        *seen = 0;
        return 1;
    case EVTCHN_FIFO_OR:
        *seen = __atomic_fetch_or(word, value, __ATOMIC_SEQ_CST);
        return 1;
    case EVTCHN_FIFO_AND:
        *seen = __atomic_fetch_and(word, value, __ATOMIC_SEQ_CST);
        return 1;
    case EVTCHN_FIFO_SWAP:
        *seen = __atomic_exchange_n(word, value, __ATOMIC_SEQ_CST);
        return 1;
    case EVTCHN_FIFO_CAS:
        *seen = (uint32_t)(operands >> 32);
        __atomic_compare_exchange_n(word, seen, value, 0, __ATOMIC_SEQ_CST, __ATOMIC_SEQ_CST);
        return 1;
    default:
        return 0;
    }
}

EVTCHN_FIFO_INLINE int evtchn_fifo_perform_event(const evtchn_fifo_shared *shared, evtchn_fifo_halves next, unsigned kind, uint32_t *seen)
{
    uint32_t port = (uint32_t)(next.access >> 32);
    if (port >= shared->words)
        return 0;
    return evtchn_fifo_perform_on(shared->pages[next.access >> 42] + port % EVTCHN_FIFO_PAGE_WORDS, kind, next.operands, seen);
}

EVTCHN_FIFO_INLINE int evtchn_fifo_perform_ready(const evtchn_fifo_shared *shared, evtchn_fifo_halves next, unsigned kind, uint32_t *seen)
{
    return shared->control != NULL && evtchn_fifo_perform_on(&shared->control->ready, kind, next.operands, seen);
}

EVTCHN_FIFO_INLINE int evtchn_fifo_perform_head(const evtchn_fifo_shared *shared, evtchn_fifo_halves next, unsigned kind, uint32_t *seen)
{
    uint32_t queue = (uint32_t)(next.access >> 32);
    if (queue >= EVTCHN_FIFO_QUEUES || shared->control == NULL)
        return 0;
    return evtchn_fifo_perform_on(&shared->control->head[queue], kind, next.operands, seen);
}

/*
 * The accesses that the library names for each side, by their whole code. gcc tells them apart by two or three comparisons, where it
 * makes a table of a switch over all accesses, which costs more. clang makes a table of these too, unless -fno-jump-tables forbids it.
 */
EVTCHN_FIFO_INLINE int evtchn_fifo_perform_for_domain(const evtchn_fifo_shared *shared, evtchn_fifo_halves next, uint32_t *seen)
{
    switch ((uint32_t)next.access) {
    case EVTCHN_FIFO_ACCESS(READ, WORD): return evtchn_fifo_perform_event(shared, next, EVTCHN_FIFO_READ, seen);
    case EVTCHN_FIFO_ACCESS(OR, WORD): return evtchn_fifo_perform_event(shared, next, EVTCHN_FIFO_OR, seen);
    case EVTCHN_FIFO_ACCESS(AND, WORD): return evtchn_fifo_perform_event(shared, next, EVTCHN_FIFO_AND, seen);
    case EVTCHN_FIFO_ACCESS(CAS, WORD): return evtchn_fifo_perform_event(shared, next, EVTCHN_FIFO_CAS, seen);
    case EVTCHN_FIFO_ACCESS(STORE, HEAD): return evtchn_fifo_perform_head(shared, next, EVTCHN_FIFO_STORE, seen);
    case EVTCHN_FIFO_ACCESS(OR, READY): return evtchn_fifo_perform_ready(shared, next, EVTCHN_FIFO_OR, seen);
    default: return 0;
    }
}

EVTCHN_FIFO_INLINE int evtchn_fifo_perform_for_guest(const evtchn_fifo_shared *shared, evtchn_fifo_halves next, uint32_t *seen)
{
    switch ((uint32_t)next.access) {
    case EVTCHN_FIFO_ACCESS(READ, WORD): return evtchn_fifo_perform_event(shared, next, EVTCHN_FIFO_READ, seen);
    case EVTCHN_FIFO_ACCESS(AND, WORD): return evtchn_fifo_perform_event(shared, next, EVTCHN_FIFO_AND, seen);
    case EVTCHN_FIFO_ACCESS(CAS, WORD): return evtchn_fifo_perform_event(shared, next, EVTCHN_FIFO_CAS, seen);
    case EVTCHN_FIFO_ACCESS(READ, HEAD): return evtchn_fifo_perform_head(shared, next, EVTCHN_FIFO_READ, seen);
    case EVTCHN_FIFO_ACCESS(SWAP, READY): return evtchn_fifo_perform_ready(shared, next, EVTCHN_FIFO_SWAP, seen);
    default: return 0;
    }
}

/* Any kind on any place. */
static inline int evtchn_fifo_perform_any(const evtchn_fifo_shared *shared, evtchn_fifo_halves next, uint32_t *seen)
{
    unsigned kind = ((uint32_t)next.access - 0x100u) / 16u;
    switch ((uint32_t)next.access % 16u) {
    case EVTCHN_FIFO_WORD: return evtchn_fifo_perform_event(shared, next, kind, seen);
    case EVTCHN_FIFO_READY: return evtchn_fifo_perform_ready(shared, next, kind, seen);
    case EVTCHN_FIFO_HEAD: return evtchn_fifo_perform_head(shared, next, kind, seen);
    default: return 0;
    }
}

/* Performs an access, and says whether it did; seen is the word to hand back. A store sees nothing and hands back 0. */
EVTCHN_FIFO_INLINE int evtchn_fifo_perform(const evtchn_fifo_shared *shared, evtchn_fifo_next next, uint32_t *seen)
{
    evtchn_fifo_halves halves = evtchn_fifo_apart(next);
    if (evtchn_fifo_perform_for_domain(shared, halves, seen))
        return 1;
    return evtchn_fifo_is_access(next) && evtchn_fifo_perform_any(shared, halves, seen);
}

/* ---- calls to their answer ---- */

/*
 * The turns of a run: an access, its reply, and so on. With the library's bitcode clang joins the ways out of a reply with the accesses
 * that they name, but only in a loop that begins with the reply; gcc makes less of a second copy of the access.
 */
#ifdef __clang__
#define EVTCHN_FIFO_TURNS(access, reply) if (access) do reply; while (access)
#else
#define EVTCHN_FIFO_TURNS(access, reply) while (access) reply
#endif

/*
 * Performs what a call's start named, hands back the word seen, and so on to the answer. The ledger is the one lent at the start, with
 * no fewer entries, so that no reply is refused with NO_ENTRY. An access that is not mapped comes back unperformed (evtchn_fifo_is_access
 * tells), its call still under way: another run goes on with it. A mask takes no reply, and so no run.
 */
EVTCHN_FIFO_USED EVTCHN_FIFO_INLINE evtchn_fifo_next evtchn_fifo_domain_run(evtchn_fifo_domain *domain, uint16_t *ledger, size_t entries,
                                                                            const evtchn_fifo_shared *shared, evtchn_fifo_next next)
{
    evtchn_fifo_halves halves = evtchn_fifo_apart(next);
    uint32_t seen;
    EVTCHN_FIFO_TURNS(evtchn_fifo_perform_for_domain(shared, halves, &seen),
                      halves = evtchn_fifo_apart(evtchn_fifo_domain_reply(domain, ledger, entries, seen)));
    return evtchn_fifo_together(halves);
}

/* The same for a service or a clear_mask. A clear_mask that began during a service comes to its answer before the service is run on. */
EVTCHN_FIFO_USED EVTCHN_FIFO_INLINE evtchn_fifo_next evtchn_fifo_guest_run(evtchn_fifo_guest *guest, const evtchn_fifo_shared *shared,
                                                                           evtchn_fifo_next next)
{
    evtchn_fifo_halves halves = evtchn_fifo_apart(next);
    uint32_t seen;
    EVTCHN_FIFO_TURNS(evtchn_fifo_perform_for_guest(shared, halves, &seen),
                      halves = evtchn_fifo_apart(evtchn_fifo_guest_service_reply(guest, seen)));
    return evtchn_fifo_together(halves);
}

/* ---- whole calls ---- */

/* What a whole call came to. What a host does not look at costs nothing: these functions are inlined. */
typedef struct evtchn_fifo_outcome {
    uint32_t code;        /* the answer's number; NOT_MAPPED: there is none yet, since the access in due is not mapped */
    uint32_t index;       /* the answer's: the port of HANDED_OVER and TAKEN, init_control's link bits */
    uint32_t count;       /* the accesses that the call made; 0 of NOT_MAPPED */
    uint32_t under_way;   /* what the record is left with: IDLE, or what evtchn_fifo_domain_under_way or evtchn_fifo_guest_under_way says */
    evtchn_fifo_next due; /* of NOT_MAPPED, the access, which was not made; else zeros */
} evtchn_fifo_outcome;

EVTCHN_FIFO_INLINE evtchn_fifo_outcome evtchn_fifo_outcome_of(evtchn_fifo_next next, uint32_t under_way)
{
    static const evtchn_fifo_next none = {0, 0, 0, 0};
    evtchn_fifo_outcome outcome;
    int answered = !evtchn_fifo_is_access(next);
    outcome.code = answered ? next.code : (uint32_t)EVTCHN_FIFO_NOT_MAPPED;
    outcome.index = answered ? next.index : 0;
    outcome.count = answered ? next.value : 0;
    outcome.under_way = under_way;
    outcome.due = answered ? none : next;
    return outcome;
}

/*
 * A whole call of the hypervisor's side, from what its start gave. The domain's lock is held from before the start till this returns:
 *
 *     raised = evtchn_fifo_run(&domain, ledger, entries, &shared, evtchn_fifo_domain_raise(&domain, ledger, entries, port));
 *
 * An answer leaves the record IDLE, but for CALL_UNDER_WAY, where under_way is the other call. After NOT_MAPPED the call stands, and every
 * other gets CALL_UNDER_WAY: map the access, and go on from evtchn_fifo_domain_due(&domain) in place of the start. The ledger has no fewer
 * entries than at the start: a reply that is refused with NO_ENTRY wants its word again, which is not kept here.
 */
EVTCHN_FIFO_USED EVTCHN_FIFO_INLINE evtchn_fifo_outcome evtchn_fifo_run(evtchn_fifo_domain *domain, uint16_t *ledger, size_t entries,
                                                                        const evtchn_fifo_shared *shared, evtchn_fifo_next start)
{
    evtchn_fifo_next next = evtchn_fifo_domain_run(domain, ledger, entries, shared, start);
    return evtchn_fifo_outcome_of(next, evtchn_fifo_domain_under_way(domain));
}

/*
 * A whole service, which hands over at most one port. At an upcall a guest serves until this gives NOTHING_READY. CALL_UNDER_WAY: under_way
 * says what stands, a service, a clear_mask or both; this makes no access then.
 */
EVTCHN_FIFO_USED EVTCHN_FIFO_INLINE evtchn_fifo_outcome evtchn_fifo_serve(evtchn_fifo_guest *guest, const evtchn_fifo_shared *shared)
{
    evtchn_fifo_next next = evtchn_fifo_guest_run(guest, shared, evtchn_fifo_guest_service(guest));
    return evtchn_fifo_outcome_of(next, evtchn_fifo_guest_under_way(guest));
}

/* A whole clear_mask: DONE, or CALL_UNMASK, after which the hypervisor's unmask is called. Also while a service is under way. */
EVTCHN_FIFO_USED EVTCHN_FIFO_INLINE evtchn_fifo_outcome evtchn_fifo_run_clear_mask(evtchn_fifo_guest *guest,
                                                                                   const evtchn_fifo_shared *shared, uint64_t port)
{
    evtchn_fifo_next next = evtchn_fifo_guest_run(guest, shared, evtchn_fifo_guest_clear_mask(guest, port));
    return evtchn_fifo_outcome_of(next, evtchn_fifo_guest_under_way(guest));
}

/* After NOT_MAPPED of either, when the access is mapped: goes on with the clear_mask under way, else with the service. */
EVTCHN_FIFO_USED EVTCHN_FIFO_INLINE evtchn_fifo_outcome evtchn_fifo_serve_on(evtchn_fifo_guest *guest, const evtchn_fifo_shared *shared)
{
    evtchn_fifo_next next = evtchn_fifo_guest_run(guest, shared, evtchn_fifo_guest_service_due(guest));
    return evtchn_fifo_outcome_of(next, evtchn_fifo_guest_under_way(guest));
}

/* A whole mask, by the number of words that the guest was told of. It has no record, and leaves nothing under way. */
EVTCHN_FIFO_USED EVTCHN_FIFO_INLINE evtchn_fifo_outcome evtchn_fifo_run_mask(const evtchn_fifo_shared *shared, uint64_t port,
                                                                             uint64_t words)
{
    static const evtchn_fifo_next done = {EVTCHN_FIFO_DONE, 0, 1, 0};
    evtchn_fifo_next next = evtchn_fifo_mask(port, words);
    uint32_t seen;
    return evtchn_fifo_outcome_of(evtchn_fifo_perform(shared, next, &seen) ? done : next, EVTCHN_FIFO_IDLE);
}

#ifdef __cplusplus
}
#endif

#endif
