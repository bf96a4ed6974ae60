/* Loading a board file that is known good, and opening a question that is. */
#include "plain.h"
#include <string.h>

void plain_load(const uint8_t *file, board *b)
{
    memset(b, 0, sizeof *b);
    b->atoms = file[1];
    const uint8_t *at = file + 2;
    for (; *at == 2; at += 6) {
        unsigned n = b->hypotheses++;
        b->declaration[n] = at[1];
        b->atom[n] = at[2];
        b->weight[n] = at[3] | (uint32_t)at[4] << 8 | (uint32_t)at[5] << 16;
        b->declarations = at[1] + 1u;
    }
    for (; *at == 3; at += 10) {
        unsigned n = b->rules++;
        b->head[n] = at[1];
        memcpy(b->body[n], at + 2, BODY);
    }
}

uint64_t plain_whole_weight(const board *b)
{
    uint64_t total[DECLARATIONS] = {0}, product = 1;
    for (unsigned n = 0; n < b->hypotheses; n++)
        total[b->declaration[n]] += b->weight[n];
    for (unsigned d = 0; d < b->declarations; d++)
        product *= total[d];
    return product;
}

void plain_open(const board *b, const uint8_t *atoms, size_t count, search *s)
{
    memset(s, 0, sizeof *s);
    s->entries = 1;
    s->entry[0].weight = plain_whole_weight(b);
    for (size_t i = 0; i < count; i++) {
        if (atoms[i] < 64)
            s->entry[0].pending.low |= 1ull << atoms[i];
        else
            s->entry[0].pending.high |= 1ull << (atoms[i] - 64);
    }
}
