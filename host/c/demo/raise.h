/* One raise, access by access. */
#ifndef DEMO_RAISE_H
#define DEMO_RAISE_H

#include <stdbool.h>

/* Raises a port on an empty queue of a domain of its own and prints the log: whether it is as it must be. */
bool raise_show(void);

#endif
