/* Where a board is searched at depth. */
#ifndef STRETCH_H
#define STRETCH_H

#include "timed.h"

/* Sets the longest stretch of steps with 480 entries held or more, and the fullest search, of a board that was loaded. */
void find_stretch(test *t);

#endif
