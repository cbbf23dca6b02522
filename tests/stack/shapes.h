/* The expressions that the test is made on. */
#ifndef SHAPES_H
#define SHAPES_H

#include "expressions.h"

/* What becomes of an expression; `shape` says how it was made. */
typedef void visit(const char *shape, const struct expression *e);

/* Constructed for depth. */
void each_shape(visit *take);

/* Random units, by a fixed seed: a climb towards more of what `depth` says, over and over from random starts. */
void search(size_t (*depth)(const struct expression *e), visit *take);

/* Random tokens and random bytes, by a fixed seed. */
void each_soup(visit *take);

#endif
