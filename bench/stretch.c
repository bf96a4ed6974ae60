#include "stretch.h"

enum { DEPTH = 480 };

/* Step by step: where the longest stretch at depth begins, how long it is, and how deep; and the fullest search. */
void find_stretch(test *t)
{
    static search s, first;
    unsigned steps = 0;
    size_t least = 0, most = 0;
    plain_open(&t->board, t->asked.atom, t->asked.count, &s);
    for (unsigned n = 0; n < t->asked.allowance; n++) {
        if (steps == 0) {
            first = s;
            least = most = s.entries;
        }
        if (plain_run(&t->board, &s, 1).steps == 0)
            break;
        least = s.entries < least ? s.entries : least;
        most = s.entries > most ? s.entries : most;
        steps = least < DEPTH ? 0 : steps + 1;
        if (steps > t->steps) {
            t->from = first;
            t->steps = steps;
            t->least = least;
            t->most = most;
        }
        if (s.entries + s.lines > t->full.entries + t->full.lines)
            t->full = s;
    }
}
