/* What a run came to: tables by group of domains. */
#ifndef DEMO_REPORT_H
#define DEMO_REPORT_H

#include "threads.h"

/* Most accesses of a call: of a service, of a clear_mask; of a raise or unmask where the guest keeps the rules. */
#define MOST_OF_A_SERVICE 5u
#define MOST_OF_A_CLEAR_MASK 2u
#define MOST_WITH_RULES_KEPT 10u

/* Prints the tables of a run of so many seconds. */
void report_tables(const host *h, double seconds);

/* Prints the last line: whether all claims hold, and what was lost and doubled where one fails. */
void report_verdict(const host *h, bool holds);

#endif
