/* Random expressions, the same in every run. */
#include "shapes.h"
#include <string.h>

static uint64_t state;

/* From 0 up to `end`, which is left out. */
static unsigned below(unsigned end)
{
    state = state * UINT64_C(6364136223846793005) + UINT64_C(1442695040888963407);
    return (unsigned)(state >> 33) % end;
}

#define STARTS 6
#define STEPS 4000
#define GENES 200

/* What an expression is made from: its units in turn, as far as the limits let them in. */
struct genes {
    unsigned char unit[GENES];
    int closed, operand;
};

/* All sorts alike, though there are many more spellings than parentheses. */
static unsigned char random_unit(void)
{
    switch (below(5)) {
    case 0: return (unsigned char)below(LEFT + 1);
    case 1: return PARENTHESIS;
    case 2: return (unsigned char)(FIRST_UNARY + below(FIRST_RUNG - FIRST_UNARY));
    case 3: return (unsigned char)(FIRST_RUNG + below(FIRST_OTHER - FIRST_RUNG));
    default: return (unsigned char)below(UNITS);
    }
}

static void express(const struct genes *genes, struct expression *e)
{
    start(e, genes->closed, genes->operand);
    for (int i = 0; i < GENES; i++)
        add(e, genes->unit[i]);
    finish(e);
}

/* A unit taken out, put in or replaced somewhere, or a few units repeated somewhere else. */
static void change(struct genes *genes)
{
    unsigned place = below(GENES), from = below(GENES), count = 1 + below(12);
    switch (below(4)) {
    case 0:
        memmove(genes->unit + place, genes->unit + place + 1, GENES - 1 - place);
        break;
    case 1:
        memmove(genes->unit + place + 1, genes->unit + place, GENES - 1 - place);
        genes->unit[place] = random_unit();
        break;
    case 2:
        genes->unit[place] = random_unit();
        break;
    default:
        if (place + count <= GENES && from + count <= GENES)
            memmove(genes->unit + place, genes->unit + from, count);
    }
}

void search(size_t (*depth)(const struct expression *e), visit *take)
{
    static struct expression e;
    state = 20;
    for (int i = 0; i < STARTS; i++) {
        struct genes best = {.closed = i % 2, .operand = i % 3};
        for (int j = 0; j < GENES; j++)
            best.unit[j] = random_unit();
        express(&best, &e);
        size_t deepest = depth(&e);
        for (int step = 0; step < STEPS; step++) {
            struct genes other = best;
            for (unsigned times = 1 + below(3); times > 0; times--)
                change(&other);
            express(&other, &e);
            size_t reached = depth(&e);
            if (reached >= deepest) {
                deepest = reached;
                best = other;
            }
        }
        express(&best, &e);
        take("found by search", &e);
    }
}

#define SOUPS 1000

void each_soup(visit *take)
{
    static struct expression e;
    state = 30;
    for (int i = 0; i < SOUPS; i++) {
        start(&e, 0, 0);
        while (below(150) != 0 && e.length < MOST_BYTES - 8) {
            const char *piece = below(2) ? units[below(UNITS)].open : units[below(UNITS)].close;
            memcpy(e.text + e.length, piece, strlen(piece));
            e.length += strlen(piece);
        }
        for (unsigned bytes = i % 4 == 0 ? below(9) : 0; bytes > 0 && e.length > 0; bytes--)
            e.text[below((unsigned)e.length)] = (char)below(256);
        take("random pieces", &e);
    }
}
