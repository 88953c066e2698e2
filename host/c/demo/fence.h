/* The fence, seen: what other domains hear, and what lays, cuts and sends answer, does not tell what one domain's words hold. */
#ifndef DEMO_FENCE_H
#define DEMO_FENCE_H

#include <stdbool.h>

/* Runs the scene and prints what it came to, or the first line that differs: whether the fence holds, and was tried. */
bool fence_show(void);

#endif
