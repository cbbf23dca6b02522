/* What the calls are made on: every call on an expression, and the calls that take none. */
#ifndef INPUTS_H
#define INPUTS_H

#include "calls.h"
#include "expressions.h"

#define MOST_CALLS 64

/* Has to come before all others here. */
void make_tables(void);

/* Every call that takes an expression, on this one: in both editions, with no table, a table of 1 record and one of 512, for each datum,
 * and after !if and !elseif in a file with 16 open groups; and, with no table and with the largest one, after !if and in a DEFINE line of a
 * file that has set as many macros before as it can. What they point to stays until the next time. How many they are. */
size_t calls_on(const struct expression *e, struct call calls[MOST_CALLS]);

/* The deepest of these calls alone, as far as is known, to search with. */
struct call file_of(const struct expression *e);

/* A file that sets as many macros as it can, uses all of them, and ends with `last`. It stays until the next time. */
struct call all_macros(const char *last);

typedef void take_calls(const char *what, const struct call *calls, size_t count);

/* Tables, lookups, and files without a deep expression: good ones, and such as are refused at their end. */
void each_other(take_calls *take);

#endif
