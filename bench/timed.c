#include "timed.h"
#include <stdio.h>
#include <stdlib.h>
#include <time.h>

run_function *const in_c[IN_C] = {plain_run, ordered_run, best_run};
const char *const rendering[IN_C + 1] = {"plain", "ordered", "best", "ours"};

void fail(const test *t, const char *what)
{
    fprintf(stderr, "%s: %s\n", t->asked.name, what);
    exit(1);
}

void print_renderings(void)
{
    for (unsigned r = 0; r < RENDERINGS; r++)
        printf(" %9s", rendering[r]);
}

times least_of(times a, times b)
{
    for (unsigned r = 0; r < RENDERINGS; r++)
        a.by[r] = b.by[r] < a.by[r] ? b.by[r] : a.by[r];
    return a;
}

times most_of(times a, times b)
{
    for (unsigned r = 0; r < RENDERINGS; r++)
        a.by[r] = b.by[r] > a.by[r] ? b.by[r] : a.by[r];
    return a;
}

/* Processor time. */
static double now(void)
{
    struct timespec t;
    clock_gettime(CLOCK_THREAD_CPUTIME_ID, &t);
    return (double)t.tv_sec + (double)t.tv_nsec * 1e-9;
}

/* One run in C, the search handed over by value as to the library. */
static double time_in_c(const test *t, const search *from, unsigned steps, run_function *run)
{
    static search s;
    double start = now();
    s = *from;
    answer a = run(&t->board, &s, steps);
    double end = now();
    if (a.steps != steps)
        fail(t, "a timed run that took other steps");
    return end - start;
}

static double time_library(const test *t, const vilthomm_search *from, unsigned steps)
{
    static vilthomm_answer a;
    double start = now();
    a = vilthomm_run(t->table, *from, (uint16_t)steps);
    double end = now();
    if (a.steps != steps)
        fail(t, "a timed run that took other steps");
    return end - start;
}

times time_runs(const test *t, const search *from, unsigned steps, unsigned turns)
{
    static vilthomm_search library_from;
    times least = {{0}};
    to_library(from, &library_from);
    for (unsigned turn = 0; turn < turns; turn++) {
        times now = {{0}};
        for (unsigned r = 0; r < IN_C; r++)
            now.by[r] = time_in_c(t, from, steps, in_c[r]);
        if (OURS)
            now.by[LIBRARY] = time_library(t, &library_from, steps);
        least = turn == 0 ? now : least_of(least, now);
    }
    return least;
}

double time_share(const test *t, const search *from, unsigned turns)
{
    static vilthomm_search library_from;
    double least = 0;
    if (!OURS)
        return 0;
    to_library(from, &library_from);
    for (unsigned turn = 0; turn < turns; turn++) {
        double start = now();
        vilthomm_share_answer a = vilthomm_share(t->table, library_from, 1);
        double time = now() - start;
        if (a.number != (from->lines ? 0 : VILTHOMM_REFUSED_LINE))
            fail(t, "a timed share with another number");
        least = turn == 0 || time < least ? time : least;
    }
    return least;
}
