/* Expressions that go deep, made of units: pieces that each open something and leave an operand to follow. */
#ifndef EXPRESSIONS_H
#define EXPRESSIONS_H

#include <stddef.h>
#include <stdint.h>

/* The limits of an expression; of bytes as many as a line has left after `DEFINE X=`. */
#define MOST_TOKENS 200
#define MOST_PARENTHESES 16
#define MOST_BYTES 1015

struct unit {
    const char *open, *close;
    int open_tokens, close_tokens;
};

/* The units by sorts: those from FIRST_x up to the next are of one sort. */
enum {
    PARENTHESIS,    /* `(` */
    MIDDLE,         /* `1?`, with `:0` at the end */
    RIGHT,          /* `1?0:` */
    LEFT,           /* `(`, with `)?1:0` at the end */
    FIRST_UNARY,
    FIRST_RUNG = FIRST_UNARY + 6, /* one operator of each level, from the loosest to the tightest */
    EQUAL = FIRST_RUNG + 6,       /* `1==`, after which an operand may be a bare word */
    FIRST_OTHER = FIRST_RUNG + 11, /* all other spellings of binary operators, and other operands, with bare words among them */
    UNITS = FIRST_OTHER + 37
};

extern const struct unit units[UNITS];

/* What stands inside all units. */
struct operand {
    const char *text;
    int tokens;
};

#define OPERANDS 22
extern const struct operand operands[OPERANDS];

struct expression {
    char text[MOST_BYTES + 1];
    size_t length;
    int closed; /* whether its units are closed at the end; if not, it is refused, but only there */
    const struct operand *operand;
    int tokens, parentheses, open;
    const char *closing[MOST_TOKENS];
    int closing_tokens;
    size_t closing_bytes;
};

/* An expression grows from an empty one unit by unit. `add` gives 0 where the unit would break a limit, and then nothing changes; `add_all`
 * adds a unit so many times, or as often as it can, leaving so many tokens. */
void start(struct expression *e, int closed, int operand);
int add(struct expression *e, int unit);
void add_all(struct expression *e, int unit, int times, int tokens_left);
void finish(struct expression *e);

#endif
