/* From every 250th step of a stretch on, a run of no steps and one of 1,000 are timed. The stretch is passed over several times, so that
   what disturbs the machine for a while does not stand in a sample's least time. */
#include "along.h"
#include <stdio.h>
#include <stdlib.h>

enum { STRIDE = 250, SAMPLES = 65535 / STRIDE + 1, MANY = 1000, PASSES = 5, TURNS = 4, LAST = RENDERINGS - 1 };

/* What is held at a step of the stretch, the times of both runs from there on, and that of a share. */
typedef struct {
    size_t entries, lines;
    times none, many;
    double share;
} sample;

/* From the first `enough` samples on the stretch has 1,000 steps more. */
typedef struct {
    unsigned count, enough;
    sample at[SAMPLES];
} samples;

typedef double figure(const samples *of, unsigned n);

/* The least times so far, with another. */
static sample least_sample(sample a, sample b)
{
    return (sample){a.entries, a.lines, least_of(a.none, b.none), least_of(a.many, b.many), a.share < b.share ? a.share : b.share};
}

static void take_samples(const test *t, samples *of)
{
    static search s;
    if (t->steps < MANY)
        fail(t, "no stretch at depth that is long enough");
    of->count = t->steps / STRIDE + 1;
    of->enough = (t->steps - MANY) / STRIDE + 1;
    for (unsigned pass = 0; pass < PASSES; pass++) {
        s = t->from;
        for (unsigned n = 0; n < of->count; n++) {
            sample now = {s.entries, s.lines, time_runs(t, &s, 0, TURNS), {{0}}, time_share(t, &s, TURNS)};
            if (n < of->enough)
                now.many = time_runs(t, &s, MANY, TURNS);
            of->at[n] = pass == 0 ? now : least_sample(of->at[n], now);
            plain_run(&t->board, &s, STRIDE);
        }
    }
}

static double none(const samples *of, unsigned n)
{
    return of->at[n].none.by[LAST];
}

static double many(const samples *of, unsigned n)
{
    return of->at[n].many.by[LAST];
}

static double share(const samples *of, unsigned n)
{
    return of->at[n].share;
}

/* How many steps take as long as a run of none: of the 1,000 steps from there on, or of the last 1,000 that were timed. */
static double none_in_steps(const samples *of, unsigned n)
{
    unsigned run = n < of->enough ? n : of->enough - 1;
    return none(of, n) / ((many(of, run) - none(of, run)) / MANY);
}

/* The sample where this figure is largest. */
static unsigned dearest(const samples *of, figure cost)
{
    unsigned most = 0;
    for (unsigned n = 1; n < of->count; n++)
        most = cost(of, n) > cost(of, most) ? n : most;
    return most;
}

static void print_head(void)
{
    printf("%-8s %7s", "board", "");
    print_renderings();
    printf("   where %s takes longest", rendering[LAST]);
}

static void print_times(const char *name, times most)
{
    printf("%-8s %7s", name, "");
    for (unsigned r = 0; r < RENDERINGS; r++)
        printf(" %9.1f", most.by[r] * 1e6);
}

static void print_where(const samples *of, figure cost)
{
    const sample *at = &of->at[dearest(of, cost)];
    printf("   at %3zu entries, %3zu lines", at->entries, at->lines);
}

/* The row of a board; the dearest, in steps. */
static double print_none(const char *name, const samples *of)
{
    times most = of->at[0].none;
    double steps = none_in_steps(of, dearest(of, none_in_steps));
    for (unsigned n = 1; n < of->count; n++)
        most = most_of(most, of->at[n].none);
    print_times(name, most);
    print_where(of, none);
    printf(" %9.0f", steps);
    print_where(of, none_in_steps);
    if (OURS)
        printf(" %9.1f", share(of, dearest(of, share)) * 1e6);
    printf("\n");
    return steps;
}

static void print_many(const char *name, const samples *of)
{
    times most = of->at[0].many;
    for (unsigned n = 1; n < of->enough; n++)
        most = most_of(most, of->at[n].many);
    print_times(name, most);
    print_where(of, many);
    printf("\n");
}

in_steps print_along(const test *t, unsigned tests)
{
    samples *of = calloc(tests, sizeof *of);
    in_steps dear = {0, 0};
    for (unsigned i = 0; i < tests; i++)
        take_samples(&t[i], &of[i]);
    printf("\nA run of %d steps: the longest on that stretch, in microseconds\n", MANY);
    print_head();
    printf("\n");
    for (unsigned i = 0; i < tests; i++)
        print_many(t[i].asked.name, &of[i]);
    printf("\nA run of no steps, which is all that a run does beside its steps: the longest on that stretch, in microseconds\n");
    print_head();
    printf("    in steps   where that is most%s\n", OURS ? "            a share" : "");
    for (unsigned i = 0; i < tests; i++) {
        double most = print_none(t[i].asked.name, &of[i]), first = none_in_steps(&of[i], 0);
        dear.most = most > dear.most ? most : dear.most;
        dear.first = first > dear.first ? first : dear.first;
    }
    free(of);
    return dear;
}
