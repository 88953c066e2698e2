/* What a run came to, summed over ports and domains. */
#ifndef DEMO_SUMS_H
#define DEMO_SUMS_H

#include "threads.h"

typedef struct sums {
    uint32_t domains, joined, longest, longest_service;
    uint64_t raises, hand_overs, coalesced, closed, lost, doubled, abandoned;
    uint64_t sent, received, refused, laid, cut;
    uint64_t unmasks, calls; /* unmasks, and those of them that called the hypervisor */
    uint64_t lengths[MOST_ACCESSES + 1];
} sums;

uint32_t larger(uint32_t one, uint32_t other);

/* The event word of a port; relaxed, so that it may be asked for during a run. */
uint32_t word_of(const domain *d, uint32_t port);

void add_port(sums *s, const domain *d, uint32_t port);
void add_domain(sums *s, const domain *d);

/* All domains whose guests are of one conduct. */
sums sums_of(const host *h, conduct kind);

#endif
