/* What a call costs along the stretch at depth, not only where it begins. */
#ifndef ALONG_H
#define ALONG_H

#include "timed.h"

/* The dearest run of no steps of all boards, in steps: where a stretch begins, and wherever on it. */
typedef struct {
    double first, most;
} in_steps;

/* Prints for each board the dearest run of no steps and the dearest of 1,000, and where they stand for the last rendering, whose dearest of
   none it answers. */
in_steps print_along(const test *t, unsigned tests);

#endif
