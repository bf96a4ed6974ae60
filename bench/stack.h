/* How much stack a call takes. */
#ifndef STACK_H
#define STACK_H

#include <stdbool.h>

/* A row of the table: what a function takes itself, and with what its caller hands over by value. `call` makes the call, after `use(true)`
   of the function and after `use(false)` of one of the same type that writes its result and nothing else: the difference is what the
   function takes itself. The answer is whether all of it stays under the goal. */
bool print_stack(const char *name, void *call(void *), void use(bool library));

#endif
