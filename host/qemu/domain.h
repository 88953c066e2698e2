/* The one domain of this kernel: the main line is the hypervisor, the timer interrupt is the guest's VCPU. What the two sides share, and
 * what each counts. The interrupt is never interrupted; the main line reads what the guest counted when interrupts are off. */
#ifndef QEMU_DOMAIN_H
#define QEMU_DOMAIN_H

#include <stdatomic.h>
#include <stdbool.h>

#include "evtchn_fifo_atomic.h"

#define PAGES 2u
#define WORDS (PAGES * EVTCHN_FIFO_PAGE_WORDS)
#define PORTS 16u

/* The most accesses of a call whatever the guest does, and where it keeps the rules, as this one does; those of a service. */
#define MOST_ACCESSES 12u
#define MOST_WITH_RULES_KEPT 10u
#define MOST_OF_A_SERVICE 5u

/* One port's events; the last is counted by the guest, the others by the hypervisor. */
typedef struct port_account {
    uint64_t events;      /* raises that found PENDING clear and set it */
    uint64_t coalesced;   /* raises that found it set */
    uint64_t closed;      /* closes that found it set */
    uint64_t handed_over; /* services that answered HANDED_OVER */
} port_account;

/* Answers that no call of this kernel may get. */
typedef struct unexpected_answers {
    uint64_t count;
    uint32_t last;
} unexpected_answers;

typedef struct hypervisor_counts {
    uint64_t closes, priorities, unmasks;
    unexpected_answers unexpected;
    uint32_t longest; /* most accesses of a call */
} hypervisor_counts;

typedef struct guest_counts {
    uint64_t interrupts, services, masks;
    uint64_t inside[EVTCHN_FIFO_UNMASK + 1];  /* services by the call that was under way; IDLE: none was */
    uint64_t inside_raise[MOST_ACCESSES + 1]; /* those inside a raise, by the accesses that it had made */
    uint64_t unmasks;                         /* clear_masks that answered DONE: no call was needed */
    unexpected_answers unexpected;
    uint32_t longest;                         /* most accesses of a service */
} guest_counts;

static inline void count_unexpected(unexpected_answers *answers, uint32_t code)
{
    answers->count++;
    answers->last = code;
}

/* of both pages, with their first and last words */
extern const uint32_t ports[PORTS];

/* The hypervisor closes some ports and binds them again; the guest masks the others, since only a bound port can be unmasked. */
static inline bool is_reopened(uint32_t k) { return k % 4 == 3; }

extern const evtchn_fifo_shared shared;
extern evtchn_fifo_domain domain;
extern port_account accounts[WORDS];
extern hypervisor_counts hypervisor_counted;
extern guest_counts guest_counted;

extern atomic_bool upcall_wanted; /* set by the hypervisor; cleared by the guest where nothing is ready */
extern atomic_uint unmask_wanted; /* the port that the guest wants unmasked; the hypervisor sets it to 0 when that is done */
extern atomic_uint accesses_made; /* by the raise under way */
extern atomic_bool guest_ends;    /* the guest masks nothing more, and clears its masks */
extern atomic_bool guest_is_idle; /* it has cleared all of them, and nothing is ready */

/* The domain with its pages and bound ports; false where a call is refused. */
bool hypervisor_begin(void);

/* The guest, which is told of the pages. */
void guest_begin(void);

/* Raises of random ports, and other calls among them. */
void hypervisor_run(void);

/* Makes the calls that the guest wants until it is idle, or till it should have been. */
void hypervisor_finish(void);

/* Prints what was counted, and each port's account in sum; whether all holds. Interrupts are off. */
bool report(void);

#endif
