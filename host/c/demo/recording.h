/* The log of one domain, in a file, and the trace lock that both of its sides take. */
#ifndef DEMO_RECORDING_H
#define DEMO_RECORDING_H

#include <pthread.h>
#include <stdbool.h>

#include "evtchn_fifo_trace.h"

typedef struct recording {
    evtchn_fifo_trace trace;
    pthread_mutex_t lock;
    FILE *file;
    uint64_t lines;
    bool ended; /* there are lines enough: no more are written */
} recording;

/* Opens the file and writes the header's line; false, and errno says why, where it can't be opened. */
bool recording_begin(recording *r, const char *name);

/* Closes the file; false where a line could not be written. All threads have ended. */
bool recording_end(recording *r);

#endif
