/* The demo's threads, and the flags that end them. */
#ifndef DEMO_THREADS_H
#define DEMO_THREADS_H

#include "domain.h"

#define MOST_DOMAINS 256u

/* All domains, their number, and the cables between them. */
typedef struct host {
    domain *domains;
    uint32_t count;
    pthread_rwlock_t cable_lock; /* the table, and what each domain keeps of its cables; taken before any domain's lock */
    evtchn_cables cables;
    atomic_bool stopped;            /* no more raises and sends; hostile guests end too */
    pthread_barrier_t guests_ended; /* each guest's thread waits here when it sends no more */
} host;

/* A thread of a guest's. */
typedef struct guest_thread {
    domain *domain;
    host *host;
    uint32_t last_services; /* since the host was stopped */
} guest_thread;

/* A thread of the hypervisor's. */
typedef struct hypervisor_thread {
    host *host;
    uint64_t seed;
    bool contested; /* it raises on contested domains, else on all others */
} hypervisor_thread;

/* Each takes the address of its own struct. */
void *hypervisor_run(void *argument);    /* raises on all domains until it is stopped */
void *guest_run(void *argument);         /* a guest's VCPU: services until idle at each upcall, and sends, until upcalls are stopped */
void *hostile_run(void *argument);       /* a hostile guest's VCPU: services what it may have written itself, and sends */
void *hostile_write_run(void *argument); /* a hostile guest's other thread: writes random words all the time */

#endif
