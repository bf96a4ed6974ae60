/* The benchmark: one question at a depth of 480 to 512 partial proofs, on each board named.

     main DEAR BOARD...     where BOARD.pha is a board file and BOARD.input its question and allowance; on DEAR a step takes longest

   Of every board first all answers are compared, after whole runs and after runs cut short; then the longest stretch of steps with 480
   entries held or more is timed, as one run, and from many of its steps on runs of no steps and of 1,000. A time is the least of many,
   taken in turn. Compiled with OURS 0, the library is left out. The status is 1 where answers differ or a goal is missed. */
#include "along.h"
#include "calls.h"
#include "stretch.h"
#include <stdio.h>
#include <stdlib.h>
#include <string.h>

enum { TURNS = 60 };
enum { DEAR_STEPS = 1000, DEAR_STRIDE = 250, DEAR_RUNS = 24, DEAR_TURNS = 5 };

static bool missed;

/* A goal says what holds today, with room for noise: it is there to see a change for the worse. */
static void goal(const char *what, double value, const char *side, double limit)
{
    bool met = strcmp(side, "at least") ? value <= limit : value >= limit;
    printf("  %-36s %8.*f   goal: %s %g%s\n", what, limit < 100 ? 2 : 0, value, side, limit, met ? "" : ", missed");
    missed |= !met;
}

/* The library's table and first search against the plain ones. */
static void compare_opening(test *t, vilthomm_search *opened)
{
    static search plain;
    static vilthomm_loading loading;
    static vilthomm_opening opening;
    loading = vilthomm_load(t->asked.file, t->asked.length);
    if (loading.number || !same_table(&t->board, &loading.table))
        fail(t, "loaded differently");
    t->table = loading.table;
    opening = vilthomm_open(t->table, t->asked.atom, t->asked.count);
    plain_open(&t->board, t->asked.atom, t->asked.count, &plain);
    if (opening.number || !same_search(&plain, &opening.search))
        fail(t, "opened differently");
    *opened = opening.search;
}

/* The library's next run against the plain one's answer. */
static void compare_library(const test *t, answer plain, const search *left, vilthomm_search *library, unsigned allowance)
{
    static vilthomm_answer ours;
    ours = vilthomm_run(t->table, *library, (uint16_t)allowance);
    if (!same_answer(plain, left, &ours))
        fail(t, "plain and the library differ");
    *library = ours.search;
}

/* Runs of these allowances, taken in turn, until one does not answer more or all of the board's allowance is used. */
static void compare_runs(test *t, const unsigned *allowance, unsigned allowances)
{
    static search s[IN_C];
    static vilthomm_search library;
    answer a[IN_C] = {{MORE, 0, 0, 0}};
    t->whole_steps = 0;
    if (OURS)
        compare_opening(t, &library);
    for (unsigned r = 0; r < IN_C; r++)
        plain_open(&t->board, t->asked.atom, t->asked.count, &s[r]);
    for (unsigned i = 0; a[PLAIN].ending == MORE && t->whole_steps < t->asked.allowance; i++) {
        unsigned next = allowance[i % allowances];
        for (unsigned r = 0; r < IN_C; r++) {
            a[r] = in_c[r](&t->board, &s[r], next);
            if (!same_plain(a[PLAIN], &s[PLAIN], a[r], &s[r]))
                fail(t, "two renderings in C differ");
        }
        if (OURS)
            compare_library(t, a[PLAIN], &s[PLAIN], &library, next);
        t->whole_steps += (unsigned)a[PLAIN].steps;
    }
    t->ends = a[PLAIN];
}

static void print_ending(const test *t)
{
    char refused[32];
    snprintf(refused, sizeof refused, "refused by %u", t->ends.ending);
    const char *ending = t->ends.ending == DONE ? "done" : t->ends.ending == MORE ? "more" : refused;
    printf("%-8s %5u atoms %4u rules, %6u steps to %s; %u steps at a depth of %zu to %zu, from %zu lines on\n", t->asked.name,
           t->board.atoms, t->board.rules, t->whole_steps, ending, t->steps, t->least, t->most, t->from.lines);
}

static double smaller(double a, double b)
{
    return a < b ? a : b;
}

/* How many times the steps a second of that rendering ours takes. */
static double ours_over(times t, unsigned other)
{
    return t.by[other] / t.by[LIBRARY];
}

static void print_speed(const char *name, double steps, times least)
{
    printf("%-8s %7.0f", name, steps);
    for (unsigned r = 0; r < RENDERINGS; r++)
        printf(" %9.2f", steps / least.by[r] / 1e6);
    if (OURS)
        printf(" %12.2f %13.2f %10.2f", ours_over(least, PLAIN), ours_over(least, ORDERED), ours_over(least, BEST));
    printf("\n");
}

static void print_speeds(const test *t, unsigned tests)
{
    times all = {{0}};
    double steps = 0, over_plain = 1e9, over_ordered = 1e9;
    printf("\nSpeed at that depth, in million steps a second\n%-8s %7s", "board", "steps");
    print_renderings();
    printf("%s\n", OURS ? "   ours/plain  ours/ordered  ours/best" : "");
    for (unsigned i = 0; i < tests; i++) {
        times least = time_runs(&t[i], &t[i].from, t[i].steps, TURNS);
        print_speed(t[i].asked.name, t[i].steps, least);
        steps += t[i].steps;
        for (unsigned r = 0; r < RENDERINGS; r++)
            all.by[r] += least.by[r];
        over_plain = smaller(over_plain, ours_over(least, PLAIN));
        over_ordered = smaller(over_ordered, ours_over(least, ORDERED));
    }
    print_speed("all", steps, all);
    if (OURS) {
        goal("ours/plain, over all boards", ours_over(all, PLAIN), "at least", 2.8);
        goal("ours/plain, on every board", over_plain, "at least", 2.5);
        goal("ours/ordered, over all boards", ours_over(all, ORDERED), "at least", 1.2);
        goal("ours/ordered, on every board", over_ordered, "at least", 0.75);
    }
}

/* Runs of 1,000 steps from every 250th step on, the first 24 of them: the dearest one, in microseconds a step, the run's own tests
   included. */
static void print_dear(const test *t)
{
    static search s;
    times most = {{0}};
    size_t entries = 0;
    plain_open(&t->board, t->asked.atom, t->asked.count, &s);
    for (unsigned n = 0; n < DEAR_RUNS; n++) {
        most = most_of(most, time_runs(t, &s, DEAR_STEPS, DEAR_TURNS));
        plain_run(&t->board, &s, DEAR_STRIDE);
        entries = s.entries > entries ? s.entries : entries;
    }
    printf("\nThe board of dear steps, in microseconds a step, runs of %d steps\n", DEAR_STEPS);
    printf("%-8s %5u rules, up to %zu entries:", t->asked.name, t->board.rules, entries);
    for (unsigned r = 0; r < RENDERINGS; r++)
        printf(" %s %.1f%s", rendering[r], most.by[r] * 1e6 / DEAR_STEPS, r + 1 < RENDERINGS ? "," : "\n");
}

/* A board that was read, all its answers compared. */
static void prepare(const char *path, test *t)
{
    static const unsigned whole[] = {65535}, cut[] = {0, 1, 7, 250, 1, 1023, 4099};
    read_asked(path, &t->asked);
    plain_load(t->asked.file, &t->board);
    compare_runs(t, cut, sizeof cut / sizeof *cut);
    compare_runs(t, whole, 1);
    find_stretch(t);
}

int main(int count, char **names)
{
    static test dear;
    unsigned tests = (unsigned)count - 2, fullest = 0;
    test *t = calloc(tests, sizeof *t);
    printf("The boards, and that all answers are the same\n");
    for (unsigned i = 0; i < tests; i++) {
        prepare(names[i + 2], &t[i]);
        print_ending(&t[i]);
        if (t[i].board.rules > t[fullest].board.rules)
            fullest = i;
    }
    print_speeds(t, tests);
    in_steps none = print_along(t, tests);
    if (OURS) {
        goal("in steps, where a stretch begins", none.first, "at most", 1500);
        goal("in steps, wherever on it", none.most, "at most", 4500);
    }
    prepare(names[1], &dear);
    print_dear(&dear);
    if (OURS) {
        static vilthomm_search full;
        to_library(&t[fullest].full, &full);
        printf("\nStack of each entry point, in KiB\n");
        missed |= !print_calls(&t[fullest].asked, &full);
    }
    free(t);
    return missed;
}
