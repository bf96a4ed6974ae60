#include "same.h"
#include <string.h>

void to_library(const search *s, vilthomm_search *out)
{
    memset(out, 0, sizeof *out);
    out->entries = s->entries;
    out->lines = s->lines;
    for (size_t i = 0; i < s->entries; i++) {
        const entry *e = &s->entry[i];
        out->entry[i][VILTHOMM_ENTRY_WEIGHT] = e->weight;
        out->entry[i][VILTHOMM_ENTRY_CHOSEN_LOW] = e->chosen.low;
        out->entry[i][VILTHOMM_ENTRY_CHOSEN_HIGH] = e->chosen.high;
        out->entry[i][VILTHOMM_ENTRY_PENDING_LOW] = e->pending.low;
        out->entry[i][VILTHOMM_ENTRY_PENDING_HIGH] = e->pending.high;
    }
    for (size_t i = 0; i < s->lines; i++) {
        out->line[VILTHOMM_LINE_WEIGHT][i] = s->line_weight[i];
        out->line[VILTHOMM_LINE_LOW][i] = s->line[i].low;
        out->line[VILTHOMM_LINE_HIGH][i] = s->line[i].high;
    }
}

/* The plain board pads a table's arrays with zeros as the library does, so that whole arrays can be compared. */
bool same_table(const board *b, const vilthomm_table *t)
{
    return t->atoms == b->atoms && t->hypotheses == b->hypotheses && t->rules == b->rules
        && !memcmp(t->declaration, b->declaration, sizeof t->declaration)
        && !memcmp(t->atom, b->atom, sizeof t->atom)
        && !memcmp(t->weight, b->weight, sizeof t->weight)
        && !memcmp(t->head, b->head, sizeof t->head)
        && !memcmp(t->body, b->body, sizeof t->body);
}

/* Counts, entries and lines in their order, and the unused room. */
bool same_search(const search *s, const vilthomm_search *other)
{
    static vilthomm_search converted;
    to_library(s, &converted);
    return !memcmp(&converted, other, sizeof converted);
}

bool same_answer(answer a, const search *s, const vilthomm_answer *other)
{
    return other->ending == a.ending && other->steps == a.steps && other->low == a.low && other->high == a.high
        && same_search(s, &other->search);
}

bool same_plain(answer a, const search *s, answer b, const search *t)
{
    return a.ending == b.ending && a.steps == b.steps && a.low == b.low && a.high == b.high && !memcmp(s, t, sizeof *s);
}
