/* The library's answers and the plain ones, compared; and a search of either as the other has it. */
#ifndef SAME_H
#define SAME_H

#include "../include/vilthomm.h"
#include "plain.h"
#include <stdbool.h>

void to_library(const search *s, vilthomm_search *out);
bool same_table(const board *b, const vilthomm_table *t);
bool same_search(const search *s, const vilthomm_search *other);
bool same_answer(answer a, const search *s, const vilthomm_answer *other);
bool same_plain(answer a, const search *s, answer b, const search *t);

#endif
