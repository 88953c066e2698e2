/* Domains 2k and 2k + 1 joined by cables, and the calls that look at the table of cables, each with the locks of evtchn_cables.h. */
#ifndef DEMO_CABLES_H
#define DEMO_CABLES_H

#include "threads.h"

/* Lays the first cables; false where one is refused. A domain without a partner, and one that the table has no number for, has none. */
bool cables_begin(host *h);

/* Where the table leads a send from the port to; the cable lock, which may be shared, and the domain's are held. */
evtchn_cables_far cables_far(const domain *near, uint32_t port);

/* Each from its start to its answer: the answer's number, or a refusal's. The port of a lay is one that has a far port. */
uint32_t cables_lay(host *h, domain *near, uint32_t port);
uint32_t cables_send(host *h, domain *near, uint32_t port);
uint32_t cables_close(host *h, domain *d, uint32_t port);

#endif
