/* What the items of the C test share: the container that is read, what is printed, and what must hold. */
#ifndef CONTAINER_H
#define CONTAINER_H

#include "../../include/vilthomm.h"

/* Stops the test with these words unless the condition holds. */
void expect(int holds, const char *what);

/* The bytes of the container, which are lent to the calls, are still those of the file. */
void lent_is_unchanged(void);

/* Goes through the items of a container. */
void items(const char *directory, const char *name, void item(void));

/* Where the next byte stands; the next `n` bytes; the number in them, low byte first. */
size_t place(void);
const uint8_t *part(size_t n);
uint64_t number(size_t n);

/* Prints the words and the number; the same as the last of a line. */
void print_number(const char *before, uint64_t n);
void print_last(const char *before, uint64_t n);

/* Loads the board file that stands next, after its length in two bytes. */
vilthomm_loading load_next(void);
void print_refused_file(const vilthomm_loading *loading);

/* The yes-or-no. */
vilthomm_holds_answer ask(vilthomm_table table, const uint8_t *state, size_t count, uint8_t atom);

/* Sets one field of a table, by its number; an index past an array sets nothing. */
void set_in_table(vilthomm_table *table, unsigned field, size_t index, uint64_t value);

/* A board file and acts on its table. A board file, a question, and allowances to run with. */
void search_item(void);
void driven_item(void);

#endif
