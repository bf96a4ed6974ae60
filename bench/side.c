/* Compiled once for each of the two libraries, with the `bench/same.h` of its checkout included. */
#include "side.h"
#include <alloca.h>
#include <time.h>

extern side_prepare prepare;
extern side_time timed;
extern side_same same;

static vilthomm_table table;
static vilthomm_search first;
static vilthomm_answer last;

bool prepare(const asked *asked, const search *from)
{
    static vilthomm_loading loading;
    loading = vilthomm_load(asked->file, asked->length);
    table = loading.table;
    to_library(from, &first);
    return loading.number == 0;
}

static double now(void)
{
    struct timespec t;
    clock_gettime(CLOCK_THREAD_CPUTIME_ID, &t);
    return (double)t.tv_sec + (double)t.tv_nsec * 1e-9;
}

double timed(unsigned steps, size_t lower)
{
    volatile char *room = alloca(lower + 1);
    room[0] = 0;
    double start = now();
    last = vilthomm_run(table, first, (uint16_t)steps);
    double end = now();
    return last.steps == steps ? end - start : -1;
}

bool same(answer a, const search *left)
{
    return same_answer(a, left, &last);
}
