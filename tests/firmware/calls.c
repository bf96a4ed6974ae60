#include "container.h"
#include <string.h>

static const vilthomm_table no_table;

/* A refused file has the table whose every field is 0. */
vilthomm_loading load_next(void)
{
    size_t n = (size_t)number(2);
    vilthomm_loading loading = vilthomm_load(part(n), n);
    lent_is_unchanged();
    if (loading.number)
        expect(!memcmp(&loading.table, &no_table, sizeof no_table), "a table beside a refusal");
    else
        expect(loading.place == 0, "a place where nothing is refused");
    return loading;
}

void print_refused_file(const vilthomm_loading *loading)
{
    print_number("refused ", loading->number);
    print_last(" at ", loading->place);
}

/* A state has at most 255 atoms here. */
vilthomm_holds_answer ask(vilthomm_table table, const uint8_t *state, size_t count, uint8_t atom)
{
    uint8_t before[256];
    vilthomm_holds_answer told;
    memcpy(before, state, count);
    told = vilthomm_yes_or_no(table, state, count, atom);
    expect(!memcmp(before, state, count), "a state that was lent has changed");
    expect(told.holds <= (told.number ? 0 : 1), "neither yes nor no, or one of them beside a refusal");
    return told;
}

void set_in_table(vilthomm_table *table, unsigned field, size_t index, uint64_t value)
{
    switch (field) {
    case 0: table->atoms = (size_t)value; break;
    case 1: table->hypotheses = (size_t)value; break;
    case 2: table->rules = (size_t)value; break;
    case 3: if (index < 128) table->declaration[index] = (uint8_t)value; break;
    case 4: if (index < 128) table->atom[index] = (uint8_t)value; break;
    case 5: if (index < 128) table->weight[index] = (uint32_t)value; break;
    case 6: if (index < 256) table->head[index] = (uint8_t)value; break;
    case 7: if (index < 2048) table->body[index] = (uint8_t)value; break;
    }
}
