/* One of the two libraries that `against.c` compares, as a shared object of its own. */
#ifndef SIDE_H
#define SIDE_H

#include "asked.h"
#include "plain.h"
#include <stdbool.h>

/* Loads a board and takes up a search over it; false where the library does not load it. */
typedef bool side_prepare(const asked *, const search *from);

/* The seconds of processor time that one run from there on takes, with the caller's stack so many bytes lower; negative where it takes other
   steps. */
typedef double side_time(unsigned steps, size_t lower);

/* Whether that run left what the plain one left. */
typedef bool side_same(answer, const search *left);

#endif
