/* A domain of the demo: the hypervisor's record and ledger under one lock, the memory shared with its guest, the guest's own
 * record, which of its ports cables join to another domain's, and what both sides count of their accesses and answers. */
#ifndef DEMO_DOMAIN_H
#define DEMO_DOMAIN_H

#include <pthread.h>
#include <stdatomic.h>
#include <stdbool.h>

#include "evtchn_cables.h"
#include "evtchn_fifo_trace.h"

#define PAGES 2u
#define WORDS (PAGES * EVTCHN_FIFO_PAGE_WORDS)
#define PORTS 16u

/* No call makes more accesses. */
#define MOST_ACCESSES 12u

/* How a guest behaves, and what the hypervisor does with its ports beside raises. */
typedef enum conduct {
    PLAIN,     /* services */
    MASKING,   /* services, masks, and unmasks: by clear_mask, and where that gives 35 it asks for unmask */
    REOPENING, /* services, while ports are closed, bound again and given other priorities */
    CONTESTED, /* masking, of more ports, while each side waits for the other between two accesses */
    HOSTILE,   /* services, and writes random words all the time */
    CONDUCTS
} conduct;

extern const char *const conduct_names[CONDUCTS];

typedef enum side { HYPERVISOR, GUEST, SIDES } side;

/* One port's events; the last is counted by the guest, the others by the hypervisor. A raise by a send is a raise. */
typedef struct port_account {
    uint64_t events;      /* raises that found PENDING clear and set it */
    uint64_t coalesced;   /* raises that found it set */
    uint64_t closed;      /* closes that found it set */
    uint64_t sent;        /* sends from the port that the table led on */
    uint64_t received;    /* raises of the port that a send began */
    uint64_t handed_over; /* answers 19 */
} port_account;

/* The cable of a port. */
typedef struct joint {
    uint32_t far_port; /* the partner's port that it is joined to while both are bound; 0: the port has no cable */
    uint32_t hint;     /* the slot that the last lay gave; under the cable lock */
} joint;

/* What is counted of a domain's cables. */
typedef struct cable_tally {
    uint64_t laid;    /* lays from a port of the domain; under the cable lock */
    uint64_t cut;     /* closes of a port of it that had a cable; under the cable lock */
    uint64_t refused; /* sends from a port of it that were refused; under the domain's lock */
} cable_tally;

/* What one side counts of its calls. */
typedef struct tally {
    uint32_t latest;      /* accesses of the latest call that came to its answer */
    uint32_t longest;     /* most accesses of a call */
    uint64_t abandoned;   /* answers 2 */
    uint64_t bad_index;   /* answers 18 */
    uint64_t outside;     /* accesses named outside the array and the control block */
    uint64_t miscounted;  /* answers whose count is not the number of accesses made */
    uint64_t refused;     /* refusals that no call of the demo may get */
    uint64_t accesses;
    uint64_t random;      /* for how long it waits where it is contested */
} tally;

/* What the other side of a contested domain sees of one. */
typedef struct side_seen {
    atomic_bool at_work;  /* the hypervisor: in a call; a guest: from its upcall until it waits for another */
    atomic_uint accesses;
} side_seen;

/* A guest's unmasks. */
typedef struct unmask_tally {
    uint64_t without_call; /* clear_mask answered 0 */
    uint64_t with_call;    /* it answered 35, and the hypervisor's unmask was called */
} unmask_tally;

/* What wakes an idle guest. */
typedef struct upcall {
    pthread_mutex_t lock;
    pthread_cond_t changed;
    bool wanted, stopped;
} upcall;

typedef struct domain {
    conduct conduct;
    uint32_t number;
    uint64_t seed;
    evtchn_fifo_trace *trace; /* takes the log's lines; NULL: there is none */

    evtchn_cables *cables;    /* the table, which all domains share */
    struct domain *partner;   /* the domain that cables lead to; NULL: there is none */
    joint joints[WORDS];
    cable_tally cable_tally;

    pthread_mutex_t lock; /* record and ledger, from a call's start to its answer */
    evtchn_fifo_domain record;
    uint16_t ledger[WORDS];
    tally hypervisor;
    uint64_t lengths[MOST_ACCESSES + 1]; /* raises and unmasks by their number of accesses; a longer one counts as the longest */
    atomic_ullong raises;                /* for the view of a run */
    side_seen sides[SIDES];

    evtchn_fifo_control control;
    uint32_t array[PAGES][EVTCHN_FIFO_PAGE_WORDS];
    uint32_t *pages[PAGES];
    evtchn_fifo_shared shared;

    evtchn_fifo_guest guest_record;
    tally guest; /* of services and masks */
    tally clear_masks;
    unmask_tally unmasks;
    atomic_ullong hand_overs; /* for the view of a run */
    upcall upcall;

    port_account accounts[WORDS];
} domain;

extern const uint32_t ports[PORTS];

/* Of a contested domain's ports, all on one queue, the hypervisor raises only the first few: they meet the more often. */
#define CONTESTED_PORTS 3u

/* A fresh domain with two pages, told to its guest, and its ports bound on several priorities; false where a call refuses. */
bool domain_begin(domain *d, uint32_t number, conduct kind, evtchn_cables *cables, evtchn_fifo_trace *trace);

/* The hypervisor's calls, each from its start to its answer with the lock held: the answer's number. */
uint32_t domain_bind(domain *d, uint32_t port);
uint32_t domain_close(domain *d, uint32_t port); /* the cable lock is held, and not shared */
uint32_t domain_set_priority(domain *d, uint32_t port, uint32_t priority);
uint32_t domain_raise(domain *d, uint32_t port);
uint32_t domain_unmask(domain *d, uint32_t port);

/* The rest of a hypervisor's call whose start came to next; the lock is held, and is given back: the answer's number. */
uint32_t domain_finish(domain *d, evtchn_fifo_next next);

/* Counts a refusal of a call that is not the domain's alone; the lock is held. */
void domain_count_refusal(domain *d, uint32_t code);

/* One service of the guest's, from its start to its answer: the answer's number. The port is that of 19 and 21. */
uint32_t domain_service(domain *d, uint32_t *port);

/* A mask of the guest's, with its access. */
void domain_mask(domain *d, uint32_t port);

/* A clear_mask of the guest's, from its start to its answer: the answer's number. */
uint32_t domain_clear_mask(domain *d, uint32_t port);

void upcall_want(upcall *u);
void upcall_stop(upcall *u);

/* Waits for an upcall and takes it; false where none is left and no more will come. */
bool upcall_wait(upcall *u);

#endif
