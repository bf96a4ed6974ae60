/* The stack of each entry point of the library. */
#ifndef CALLS_H
#define CALLS_H

#include "../include/vilthomm.h"
#include "asked.h"
#include <stdbool.h>

/* A row for each, called over this board and over a full search of it; the answer is whether all stay under the goal. */
bool print_calls(const asked *board, const vilthomm_search *full);

#endif
