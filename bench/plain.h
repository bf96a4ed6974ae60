/* Document 01's search in C, to compare with. Three renderings of one interface:
     plain_    the entries sorted in one array of structs, moved by memmove
     ordered_  the entries stay where they are, an array of their places is sorted
     best_     the fastest that was found
   Unlike the library these trust what they are handed: a board file that is known good, a question that is, and searches of their own. */
#ifndef PLAIN_H
#define PLAIN_H

#include <stddef.h>
#include <stdint.h>

enum { ATOMS = 128, DECLARATIONS = 32, RULES = 256, BODY = 8, STORE = 512, LIST = 256 };
enum { DONE = 0, MORE = 1, STORE_FULL = 31, OVERLAP = 32, LIST_FULL = 33 };

/* A set of atoms. */
typedef struct {
    uint64_t low, high;
} set;

typedef struct {
    unsigned atoms, declarations, hypotheses, rules;
    uint8_t declaration[ATOMS], atom[ATOMS];
    uint32_t weight[ATOMS];
    uint8_t head[RULES], body[RULES][BODY];
} board;

/* `size` is how many hypotheses D has. */
typedef struct {
    uint64_t weight, size;
    set chosen, pending;
} entry;

/* The entry that goes first is the last one held. */
typedef struct {
    size_t entries, lines;
    entry entry[STORE];
    uint64_t line_weight[LIST];
    set line[LIST];
} search;

typedef struct {
    unsigned ending;
    uint64_t steps, low, high;
} answer;

void plain_load(const uint8_t *file, board *b);
uint64_t plain_whole_weight(const board *b);
void plain_open(const board *b, const uint8_t *atoms, size_t count, search *s);

answer plain_run(const board *b, search *s, unsigned allowance);
answer ordered_run(const board *b, search *s, unsigned allowance);
answer best_run(const board *b, search *s, unsigned allowance);

#endif
