/* A run as it goes on. */
#ifndef DEMO_VIEW_H
#define DEMO_VIEW_H

#include "threads.h"

/* Shows a run that began at that moment until so many seconds have passed. */
void view_run(const host *h, double begun, unsigned seconds);

#endif
