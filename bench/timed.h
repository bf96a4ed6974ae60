/* A board as it is tested and timed, and the time of runs over it. */
#ifndef TIMED_H
#define TIMED_H

#include "asked.h"
#include "same.h"

/* The renderings: those in C, then the library, which is there where OURS is 1 and left out where it is 0. */
enum { PLAIN, ORDERED, BEST, IN_C, LIBRARY = IN_C, RENDERINGS = IN_C + OURS };

typedef answer run_function(const board *, search *, unsigned);

extern run_function *const in_c[IN_C];
extern const char *const rendering[IN_C + 1];

/* The stretch at depth begins at `from` and has `steps`, with `least` to `most` entries; `full` is the fullest search of the board. */
typedef struct {
    asked asked;
    board board;
    vilthomm_table table;
    search from, full;
    unsigned steps, whole_steps;
    size_t least, most;
    answer ends;
} test;

/* Seconds, by rendering. */
typedef struct {
    double by[IN_C + 1];
} times;

/* Says what is wrong and ends the program. */
void fail(const test *t, const char *what);

/* The least time of so many runs of each, taken in turn, from one search on. */
times time_runs(const test *t, const search *from, unsigned steps, unsigned turns);

/* The same of the library's share of the first line, which is refused with 36 where there is none; 0 where the library is left out. */
double time_share(const test *t, const search *from, unsigned turns);

/* The head of a table: a column for each. */
void print_renderings(void);

times least_of(times a, times b);
times most_of(times a, times b);

#endif
