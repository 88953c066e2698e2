/*
 * evtchn_cables: joins bound ports of up to 40 domains, so that a send on one port is a raise of the other.
 *
 * A cable has two ends, each a port of a domain; an end belongs to at most one cable. A send has two phases: evtchn_cables_send tells which
 * port of which domain to raise and changes nothing, and the ordinary raise of that domain does the rest:
 *
 *     static evtchn_cables cables;
 *     evtchn_cables_end here = {&domains[1], ledgers[1], entries, 1, 5}, there = {&domains[2], ledgers[2], entries, 2, 9};
 *     evtchn_cables_laid laid = evtchn_cables_lay(&cables, here, there);
 *
 *     evtchn_cables_far far = evtchn_cables_send(&cables, here, laid.slot);
 *     if (far.code == EVTCHN_FIFO_DONE) {
 *         evtchn_fifo_next next = evtchn_fifo_domain_raise(&domains[far.domain], ledgers[far.domain], entries, far.port);
 *         raised = evtchn_fifo_run(&domains[far.domain], ledgers[far.domain], entries, &shared[far.domain], next);
 *     }
 *
 * A cable leads both ways: a send from the other end raises port 5 of domain 1. Which domain has which number is the host's business.
 *
 * A host with cables makes EVERY close of EVERY domain by evtchn_cables_domain_close, and runs it by evtchn_cables_run, or hands back the
 * word of its access by evtchn_cables_domain_reply: these cut the cable as the port ceases to be bound. Otherwise, after a plain
 * evtchn_fifo_domain_close or its reply, a cable stands at a port that is not bound any more, and serves whoever binds it next. All other
 * calls and their replies stay as they are; evtchn_cables_domain_reply serves them too, at some 26 instructions more, and leaves the table
 * alone. The table begins zeroed; otherwise it has cables that nobody laid.
 *
 * Refusals are named below without their prefixes EVTCHN_FIFO_ and EVTCHN_CABLES_; TAKEN and NONE are those of cables.
 *
 * The same proved code is in libevtchn_fifo.a and libevtchn_fifo_kernel.a (not in the bitcode), as an object of its own that is linked only
 * where it is used. It has no globals, is reentrant, and calls nothing outside itself. No function needs more than EVTCHN_CABLES_STACK
 * bytes of stack.
 *
 * Table, records and ledgers of one call must not overlap; but the two records of a lay may be the same, and so may its two ledgers: they
 * are only read. Buffers may have any alignment, and may be NULL where their length is 0.
 *
 * Locks. One cable lock over the table, and the lock of each domain over its record and ledger, as evtchn_fifo.h has it. Who takes several
 * takes the cable lock first, then those of the domains by rising number.
 *     lay    the cable lock, and both domains' locks
 *     cut    the cable lock, and the domain's lock
 *     send   the cable lock, which may be a shared one, since nothing is changed, and the near domain's lock. That one may be given back
 *            after the send, the cable lock when the raise of the far domain has STARTED: evtchn_fifo_domain_raise has returned under
 *            the far domain's lock. The raise's accesses and replies need the far domain's lock alone
 *     close  the cable lock, not shared, and the domain's lock, both from the start to the answer
 * The replies of all other calls need no cable lock, by evtchn_cables_domain_reply as by evtchn_fifo_domain_reply: only a close's looks at
 * the table.
 * The far domain's number may be lower than the near one's: give the near domain's lock back before taking the far one's.
 *
 * A close in flight, of a port in the array: the cable stands until the reply to its access. With these locks no call comes between. If one
 * does, a send FROM that port goes through, and one TO it finds the domain's call under way (the raise answers CALL_UNDER_WAY); a lay at
 * the port is accepted, and the reply cuts it; a cut is accepted, and the reply finds nothing. A reply that is refused with NO_ENTRY does
 * not cut; the same word, handed back with a longer ledger, does. The close of a port outside the array cuts at once, a close that is
 * refused never does. A port that is closed and bound again has no cable.
 *
 * A send that has come through is a call of the far domain: cutting the cable or closing the near port does not stop it. In a log
 * (evtchn_fifo_trace.h) it is that domain's raise; a lay, a cut and a send that is refused have no line, and a close has those of any
 * close, which evtchn_fifo_trace_started and evtchn_fifo_trace_made write.
 */
#ifndef EVTCHN_CABLES_H
#define EVTCHN_CABLES_H

#include "evtchn_fifo_atomic.h"

#ifdef __cplusplus
extern "C" {
#endif

/* ---- sizes and layout ---- */

/* Domains have the numbers 0 to 39. */
#define EVTCHN_CABLES_DOMAINS 40u

/*
 * The table has 1,024 slots of two words of four bytes each, the lowest byte first: slot i is bytes 8i to 8i + 7. A word is an end, as
 * domain * 2^20 + port. A slot holds a cable exactly if both its words are ends, that is, their domains are below 40 and their ports not
 * 0. Any other slot is free, whatever it has, and only a lay writes to it. All bytes 0 are a table without cables.
 *
 * Any bytes are a table, and nothing traps; refusals leave every byte. In a table that was all 0 and that these functions alone changed
 * every end is in one slot at most. In other bytes it may be in several: a look-up takes the lowest, a cut and a close free all. Such a
 * table may also name a far port that is not bound or does not exist, which the far domain's raise refuses, and a far domain that is the
 * near one.
 */
#define EVTCHN_CABLES_SLOTS 1024u
#define EVTCHN_CABLES_SIZE 8192u

/* The hint of a send that has none. */
#define EVTCHN_CABLES_NO_HINT EVTCHN_CABLES_SLOTS

/*
 * The most stack that a call of either archive needs, return addresses with it. The archive for user space may write to the red zone
 * below that.
 */
#define EVTCHN_CABLES_STACK 88u

/* ---- what a call comes to ---- */

/*
 * The numbers that these calls give beside those of evtchn_fifo.h (DONE, BAD_PORT, NOT_BOUND, NOT_GIVEN, NO_ENTRY and TOO_SHORT, of a table
 * too), and the errno of the hypercall that they serve. TAKEN and NONE are said of an end.
 */
enum evtchn_cables_refusal {
    EVTCHN_CABLES_BAD_DOMAIN = 23,  /* EINVAL  a domain number of 40 or more */
    EVTCHN_CABLES_SAME_DOMAIN = 24, /* EINVAL  both ends in one domain */
    EVTCHN_CABLES_TAKEN = 25,       /* EBUSY   an end that has a cable already */
    EVTCHN_CABLES_NONE = 26,        /* ENOENT  an end that has no cable */
    EVTCHN_CABLES_FULL = 34         /* ENOSPC  1,024 cables already */
};

/* As evtchn_fifo_name and evtchn_fifo_errno, of these numbers too. */
static inline const char *evtchn_cables_name(uint32_t code)
{
    switch (code) {
    case EVTCHN_CABLES_BAD_DOMAIN: return "BAD_DOMAIN";
    case EVTCHN_CABLES_SAME_DOMAIN: return "SAME_DOMAIN";
    case EVTCHN_CABLES_TAKEN: return "TAKEN";
    case EVTCHN_CABLES_NONE: return "NONE";
    case EVTCHN_CABLES_FULL: return "FULL";
    default: return evtchn_fifo_name(code);
    }
}

static inline int evtchn_cables_errno(uint32_t code)
{
    switch (code) {
    case EVTCHN_CABLES_BAD_DOMAIN:
    case EVTCHN_CABLES_SAME_DOMAIN: return 22; /* EINVAL */
    case EVTCHN_CABLES_TAKEN: return 16;       /* EBUSY */
    case EVTCHN_CABLES_NONE: return 2;         /* ENOENT */
    case EVTCHN_CABLES_FULL: return 28;        /* ENOSPC */
    default: return evtchn_fifo_errno(code);
    }
}

/* A lay: DONE and the slot of the new cable, or a refusal and 0. */
typedef struct evtchn_cables_laid {
    uint32_t code, slot;
} evtchn_cables_laid;

/* A send: DONE, the port to raise, its domain, and the slot of the cable, a later send's hint; or a refusal and zeros. */
typedef struct evtchn_cables_far {
    uint32_t code, domain, port, slot;
} evtchn_cables_far;

/* ---- the functions, on bytes: each has bytes in its name ---- */

/*
 * For bindings of other languages; C has the same with types below. A buffer is a pointer and a length in bytes; what is beyond the table's
 * or a record's size stays. BAD_DOMAIN and SAME_DOMAIN come before the test of the buffers, since a domain that there is not has no record
 * to lend; a table or a record that is too short gives TOO_SHORT, and nothing is read or changed; a short ledger gives NO_ENTRY. A number
 * or port above 2^32 - 1 counts as 2^32 - 1, which the test at its place in the order refuses. Each line names the refusals in the order in
 * which they are tested. None of lay, cut and send gives CALL_UNDER_WAY or OUTSIDE_ARRAY: they go through while a call of the domain is
 * under way, and at a port outside the array. A refusal changes no byte.
 */

/*
 * BAD_DOMAIN (of either number), SAME_DOMAIN, TOO_SHORT; NOT_GIVEN, BAD_PORT, NO_ENTRY, NOT_BOUND of the near end, then of the far end;
 * TAKEN (of either), FULL. The lowest free slot.
 */
EVTCHN_FIFO_USED evtchn_cables_laid evtchn_cables_bytes_lay(uint8_t *table, size_t table_length, const uint8_t *near, size_t near_length,
                                                            const uint8_t *near_ledger, size_t near_ledger_length, const uint8_t *far,
                                                            size_t far_length, const uint8_t *far_ledger, size_t far_ledger_length,
                                                            uint64_t near_domain, uint64_t near_port, uint64_t far_domain,
                                                            uint64_t far_port);
/* BAD_DOMAIN, TOO_SHORT, NOT_GIVEN, BAD_PORT, NO_ENTRY, NOT_BOUND, NONE. From either end. */
EVTCHN_FIFO_USED uint32_t evtchn_cables_bytes_cut(uint8_t *table, size_t table_length, const uint8_t *domain, size_t domain_length,
                                                  const uint8_t *ledger, size_t ledger_length, uint64_t number, uint64_t port);
/*
 * BAD_DOMAIN, TOO_SHORT, NOT_GIVEN, BAD_PORT, NO_ENTRY, NOT_BOUND, NONE. From either end; the host then raises the far port. The hint is a
 * slot: where that has the end, the others are not looked at. Any number is harmless.
 */
EVTCHN_FIFO_USED evtchn_cables_far evtchn_cables_bytes_send(const uint8_t *table, size_t table_length, const uint8_t *domain,
                                                            size_t domain_length, const uint8_t *ledger, size_t ledger_length,
                                                            uint64_t number, uint64_t port, uint32_t hint);
/* TOO_SHORT of the table; then evtchn_fifo_bytes_close, which cuts where it answers DONE at once. A number from 40 on has no cable. */
EVTCHN_FIFO_USED evtchn_fifo_next evtchn_cables_bytes_close(uint8_t *table, size_t table_length, uint8_t *domain, size_t domain_length,
                                                            uint8_t *ledger, size_t ledger_length, uint64_t number, uint64_t port);
/* TOO_SHORT of the table; then evtchn_fifo_bytes_reply, which cuts where it ends a close. */
EVTCHN_FIFO_USED evtchn_fifo_next evtchn_cables_bytes_reply(uint8_t *table, size_t table_length, uint8_t *domain, size_t domain_length,
                                                            uint8_t *ledger, size_t ledger_length, uint64_t number, uint32_t seen);

/* ---- the same with types ---- */

typedef struct evtchn_cables {
    uint8_t bytes[EVTCHN_CABLES_SIZE];
} evtchn_cables;

/* A port of a domain, and that domain's number, record and ledger, which tell whether the port is bound. */
typedef struct evtchn_cables_end {
    const evtchn_fifo_domain *domain;
    const uint16_t *ledger;
    size_t entries;
    uint64_t number, port;
} evtchn_cables_end;

/* Lays a cable. */
EVTCHN_FIFO_USED static inline evtchn_cables_laid evtchn_cables_lay(evtchn_cables *cables, evtchn_cables_end near, evtchn_cables_end far)
{
    return evtchn_cables_bytes_lay(cables->bytes, sizeof cables->bytes, near.domain->bytes, sizeof near.domain->bytes,
                                   (const uint8_t *)near.ledger, near.entries * EVTCHN_FIFO_ENTRY_SIZE, far.domain->bytes,
                                   sizeof far.domain->bytes, (const uint8_t *)far.ledger, far.entries * EVTCHN_FIFO_ENTRY_SIZE,
                                   near.number, near.port, far.number, far.port);
}

/* Cuts the cable of an end. */
EVTCHN_FIFO_USED static inline uint32_t evtchn_cables_cut(evtchn_cables *cables, evtchn_cables_end end)
{
    return evtchn_cables_bytes_cut(cables->bytes, sizeof cables->bytes, end.domain->bytes, sizeof end.domain->bytes,
                                   (const uint8_t *)end.ledger, end.entries * EVTCHN_FIFO_ENTRY_SIZE, end.number, end.port);
}

EVTCHN_FIFO_USED static inline evtchn_cables_far evtchn_cables_send(const evtchn_cables *cables, evtchn_cables_end near, uint32_t hint)
{
    return evtchn_cables_bytes_send(cables->bytes, sizeof cables->bytes, near.domain->bytes, sizeof near.domain->bytes,
                                    (const uint8_t *)near.ledger, near.entries * EVTCHN_FIFO_ENTRY_SIZE, near.number, near.port, hint);
}

EVTCHN_FIFO_USED static inline evtchn_fifo_next evtchn_cables_domain_close(evtchn_cables *cables, uint64_t number,
                                                                           evtchn_fifo_domain *domain, uint16_t *ledger, size_t entries,
                                                                           uint64_t port)
{
    return evtchn_cables_bytes_close(cables->bytes, sizeof cables->bytes, domain->bytes, sizeof domain->bytes, (uint8_t *)ledger,
                                     entries * EVTCHN_FIFO_ENTRY_SIZE, number, port);
}

EVTCHN_FIFO_USED static inline evtchn_fifo_next evtchn_cables_domain_reply(evtchn_cables *cables, uint64_t number,
                                                                           evtchn_fifo_domain *domain, uint16_t *ledger, size_t entries,
                                                                           uint32_t seen)
{
    return evtchn_cables_bytes_reply(cables->bytes, sizeof cables->bytes, domain->bytes, sizeof domain->bytes, (uint8_t *)ledger,
                                     entries * EVTCHN_FIFO_ENTRY_SIZE, number, seen);
}

/* As evtchn_fifo_domain_run, to the answer of a close or of any other call, by evtchn_cables_domain_reply. */
EVTCHN_FIFO_USED EVTCHN_FIFO_INLINE evtchn_fifo_next evtchn_cables_domain_run(evtchn_cables *cables, uint64_t number,
                                                                              evtchn_fifo_domain *domain, uint16_t *ledger, size_t entries,
                                                                              const evtchn_fifo_shared *shared, evtchn_fifo_next next)
{
    evtchn_fifo_halves halves = evtchn_fifo_apart(next);
    uint32_t seen;
    EVTCHN_FIFO_TURNS(evtchn_fifo_perform_for_domain(shared, halves, &seen),
                      halves = evtchn_fifo_apart(evtchn_cables_domain_reply(cables, number, domain, ledger, entries, seen)));
    return evtchn_fifo_together(halves);
}

/* As evtchn_fifo_run: a whole close, or any other call of the hypervisor's side. */
EVTCHN_FIFO_USED EVTCHN_FIFO_INLINE evtchn_fifo_outcome evtchn_cables_run(evtchn_cables *cables, uint64_t number,
                                                                          evtchn_fifo_domain *domain, uint16_t *ledger, size_t entries,
                                                                          const evtchn_fifo_shared *shared, evtchn_fifo_next start)
{
    evtchn_fifo_next next = evtchn_cables_domain_run(cables, number, domain, ledger, entries, shared, start);
    return evtchn_fifo_outcome_of(next, evtchn_fifo_domain_under_way(domain));
}

#ifdef __cplusplus
}
#endif

#endif
