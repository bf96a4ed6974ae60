/* Two builds of the library in one program, over the stretches at depth of the boards named.

     against BUILT BOARD...     where BUILT/before-0.so to before-7.so, and after-0.so to after-7.so, are one library each, its code 16 bytes
                                further on each time, and BOARD.pha is a board file and BOARD.input its question and allowance

   A stretch is one run. The same code takes up to a tenth longer by where it stands and by where the stack stands. So a run is timed at many
   places, another copy of the code and another place of the stack each, and a figure is the mean over the places of the least time at
   each, both libraries taken in turn. The status is 1 where answers differ or a board has less than 0.97 of the steps a second of before. */
#include "side.h"
#include "stretch.h"
#include <dlfcn.h>
#include <stdio.h>
#include <stdlib.h>

enum { BEFORE, AFTER, SIDES, COPIES = 8, PLACES = 32, APART = 144, TURNS = 40 };
static const char *const side_name[SIDES] = {"before", "after"};
static const double least_allowed = 0.97;

typedef struct {
    side_prepare *prepare;
    side_time *timed;
    side_same *same;
} side;

static side sides[SIDES][COPIES];

/* Seconds, by place. */
typedef struct {
    double at[PLACES];
} by_place;

static void stop(const char *of, const char *what)
{
    fprintf(stderr, "%s: %s\n", of, what);
    exit(1);
}

static void open_side(const char *built, const char *name, unsigned copy, side *to)
{
    char path[4096];
    snprintf(path, sizeof path, "%s/%s-%u.so", built, name, copy);
    void *library = dlopen(path, RTLD_NOW | RTLD_LOCAL);
    if (!library)
        stop(path, dlerror());
    *(void **)&to->prepare = dlsym(library, "prepare");
    *(void **)&to->timed = dlsym(library, "timed");
    *(void **)&to->same = dlsym(library, "same");
    if (!to->prepare || !to->timed || !to->same)
        stop(path, "a function is missing");
}

static double mean(const by_place *times)
{
    double sum = 0;
    for (unsigned place = 0; place < PLACES; place++)
        sum += times->at[place];
    return sum / PLACES;
}

/* The longest time over the shortest. */
static double spread(const by_place *times)
{
    double least = times->at[0], most = times->at[0];
    for (unsigned place = 1; place < PLACES; place++) {
        least = times->at[place] < least ? times->at[place] : least;
        most = times->at[place] > most ? times->at[place] : most;
    }
    return most / least;
}

/* The stretch at each place, both libraries in turn. */
static void time_sides(const char *board, unsigned steps, by_place least[SIDES])
{
    for (unsigned turn = 0; turn < TURNS; turn++) {
        for (unsigned place = 0; place < PLACES; place++) {
            for (unsigned s = 0; s < SIDES; s++) {
                double time = sides[s][place % COPIES].timed(steps, (size_t)place * APART);
                if (time < 0)
                    stop(board, "a timed run that took other steps");
                least[s].at[place] = turn == 0 || time < least[s].at[place] ? time : least[s].at[place];
            }
        }
    }
}

/* One board's row; whether it is fast enough. */
static bool compare(const char *path)
{
    static test t;
    static search left;
    by_place least[SIDES];
    t = (test){.steps = 0};
    read_asked(path, &t.asked);
    plain_load(t.asked.file, &t.board);
    find_stretch(&t);
    for (unsigned i = 0; i < SIDES * COPIES; i++)
        if (!sides[i % SIDES][i / SIDES].prepare(&t.asked, &t.from))
            stop(path, "a library does not load it");
    time_sides(path, t.steps, least);
    left = t.from;
    answer plain = plain_run(&t.board, &left, t.steps);
    for (unsigned i = 0; i < SIDES * COPIES; i++)
        if (!sides[i % SIDES][i / SIDES].same(plain, &left))
            stop(path, "answers differ");
    double ratio = mean(&least[BEFORE]) / mean(&least[AFTER]);
    bool met = ratio >= least_allowed;
    printf("%-8s %7u %8.2f %8.2f %13.3f%s %13.2f %8.2f\n", t.asked.name, t.steps, t.steps / mean(&least[BEFORE]) / 1e6,
           t.steps / mean(&least[AFTER]) / 1e6, ratio, met ? " " : "*", spread(&least[BEFORE]), spread(&least[AFTER]));
    return met;
}

int main(int count, char **names)
{
    bool met = true;
    if (count < 3)
        stop(names[0], "which folder, and which boards?");
    for (unsigned i = 0; i < SIDES * COPIES; i++)
        open_side(names[1], side_name[i % SIDES], i / SIDES, &sides[i % SIDES][i / SIDES]);
    printf("Million steps a second at depth, the mean over %d places of code and stack; the longest over the shortest time among them\n", PLACES);
    printf("%-8s %7s %8s %8s %13s %14s %8s\n", "board", "steps", "before", "after", "after/before", "before", "after");
    for (int i = 2; i < count; i++)
        met &= compare(names[i]);
    if (!met)
        printf("* less than %g of before\n", least_allowed);
    return !met;
}
