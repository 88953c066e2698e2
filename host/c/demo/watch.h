/* A contested raise, as it went in a run: the accesses of both sides, in their order. */
#ifndef DEMO_WATCH_H
#define DEMO_WATCH_H

#include <pthread.h>
#include <stdbool.h>

#include "evtchn_fifo_trace.h"

#define WATCHED_LINES 40u

/* A raise with all that its domain's log has between its start and its answer. */
typedef struct watched_raise {
    char lines[WATCHED_LINES][EVTCHN_FIFO_TRACE_LINE];
    uint32_t count, accesses; /* lines, and those of them that are accesses of the raise */
} watched_raise;

/* Takes the log's lines of a domain, and keeps its longest raise. */
typedef struct watch {
    evtchn_fifo_trace trace;
    pthread_mutex_t lock;
    uint32_t domain;
    bool under_way; /* a raise, whose lines are taken */
    watched_raise latest, longest;
} watch;

void watch_begin(watch *w, uint32_t domain);

/* Prints the longest raise of all, in two columns. All threads have ended. */
void watch_show(const watch *watches, uint32_t count);

#endif
