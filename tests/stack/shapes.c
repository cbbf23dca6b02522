/* Expressions that go as deep as the limits allow, one way each. */
#include "shapes.h"

static void done(struct expression *e, const char *shape, visit *take)
{
    finish(e);
    take(shape, e);
}

/* As many of one unit as there can be: unary operators, links of a chain, choices; alone, and with 16 parentheses around, inside and
 * between. */
static void runs(int unit, int closed, int operand, visit *take)
{
    struct expression e;
    int left = closed ? 2 * MOST_PARENTHESES : MOST_PARENTHESES;

    start(&e, closed, operand);
    add_all(&e, unit, MOST_TOKENS, 0);
    done(&e, "a run", take);

    start(&e, closed, operand);
    add_all(&e, PARENTHESIS, MOST_PARENTHESES, 0);
    add_all(&e, unit, MOST_TOKENS, 0);
    done(&e, "a run in 16 parentheses", take);

    start(&e, closed, operand);
    add_all(&e, unit, MOST_TOKENS, left);
    add_all(&e, PARENTHESIS, MOST_PARENTHESES, 0);
    done(&e, "a run, then 16 parentheses", take);

    start(&e, closed, operand);
    for (int i = 0; i < MOST_PARENTHESES; i++) {
        add_all(&e, unit, MOST_TOKENS / MOST_PARENTHESES / 2, 0);
        add(&e, PARENTHESIS);
    }
    add_all(&e, unit, MOST_TOKENS, 0);
    done(&e, "runs with parentheses between", take);
}

/* So many operators that each bind tighter than the one before: the loosest ones, or those that end with the tightest. */
static void ladder(struct expression *e, int rungs, int tight)
{
    int levels = FIRST_OTHER - FIRST_RUNG;
    int count = rungs < levels ? rungs : levels;
    int first = tight ? FIRST_OTHER - count : FIRST_RUNG;
    for (int i = 0; i < count; i++)
        add(e, first + i);
}

/* So many parentheses, and before each and after the last as many operators that bind ever tighter, or choices, as there is room for. */
static void spread(int parentheses, int choices, int tight, int closed, int operand, visit *take)
{
    struct expression e;
    int unit_tokens = choices && closed ? 4 : 2;
    int free_tokens = MOST_TOKENS - operands[operand].tokens - (closed ? 2 : 1) * parentheses;
    int all = free_tokens / unit_tokens, groups = parentheses + 1;

    start(&e, closed, operand);
    for (int i = 0; i < groups; i++) {
        int here = all * (i + 1) / groups - all * i / groups;
        if (choices)
            add_all(&e, MIDDLE, here, 0);
        else
            ladder(&e, here, tight);
        if (i < parentheses)
            add(&e, PARENTHESIS);
    }
    add_all(&e, MIDDLE, MOST_TOKENS, 0);
    done(&e, choices ? "choices spread over parentheses" : "ladders spread over parentheses", take);
}

/* Groups of choices, tighter operators, unary operators and a parenthesis, over and over. */
static void mixed(int choice, int choices, int rungs, int tight, int unaries, int closed, visit *take)
{
    struct expression e;

    start(&e, closed, 1);
    do {
        add_all(&e, choice, choices, 0);
        ladder(&e, rungs, tight);
        add_all(&e, FIRST_UNARY + 1, unaries, 0);
    } while (add(&e, PARENTHESIS));
    add_all(&e, choice, MOST_TOKENS, 0);
    done(&e, "choices, tighter operators, unary operators and a parenthesis in turns", take);
}

static void each_mixed(visit *take)
{
    for (int choice = MIDDLE; choice <= LEFT; choice++)
        for (int choices = 0; choices <= 5; choices++)
            for (int rungs = 0; rungs <= 11; rungs++)
                for (int unaries = 0; unaries <= 2; unaries++)
                    mixed(choice, choices, rungs, unaries == 0, unaries, (choices + rungs) % 2, take);
}

void each_shape(visit *take)
{
    for (int closed = 0; closed <= 1; closed++) {
        for (int unit = 0; unit < UNITS; unit++)
            for (int operand = 0; operand <= 1; operand++)
                runs(unit, closed, operand, take);
        for (int operand = 2; operand < OPERANDS; operand++) {
            runs(FIRST_UNARY, closed, operand, take);
            runs(EQUAL, closed, operand, take);
            runs(MIDDLE, closed, operand, take);
            spread(MOST_PARENTHESES, 0, 0, closed, operand, take);
            spread(MOST_PARENTHESES, 1, 0, closed, operand, take);
        }
        for (int parentheses = 0; parentheses <= MOST_PARENTHESES; parentheses++)
            for (int form = 0; form <= 2; form++)
                for (int operand = 1; operand <= 2; operand++)
                    spread(parentheses, form == 2, form == 1, closed, operand, take);
    }
    each_mixed(take);
}
