/* The demo's claims, each checked. */
#ifndef DEMO_CLAIMS_H
#define DEMO_CLAIMS_H

#include "threads.h"

/* Prints one claim, of which guests it speaks, and how much speaks against it: whether it holds. */
bool claim_show(const char *of, const char *text, uint64_t against);

/* Prints every claim about the domains of a run: whether all hold. All threads have ended. */
bool claims_show(const host *h);

#endif
