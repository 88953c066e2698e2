/* How soon a port is served, seen. */
#ifndef DEMO_BACKLOG_H
#define DEMO_BACKLOG_H

#include <stdbool.h>

/* Raises ports while a guest does not run, then lets it serve alone, and prints each service: whether they come in turn. */
bool backlog_show(void);

#endif
