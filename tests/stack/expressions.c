#include "expressions.h"
#include <string.h>

const struct unit units[UNITS] = {
    {"(", ")", 1, 1}, {"1?", ":0", 2, 2}, {"1?0:", "", 4, 0}, {"(", ")?1:0", 1, 5},
    {"-", "", 1, 0}, {"!", "", 1, 0}, {"NOT ", "", 1, 0}, {"not ", "", 1, 0}, {"+", "", 1, 0}, {"~", "", 1, 0},
    {"1 OR ", "", 2, 0}, {"1 XOR ", "", 2, 0}, {"1&&", "", 2, 0}, {"1|", "", 2, 0}, {"1^", "", 2, 0}, {"1&", "", 2, 0},
    {"1==", "", 2, 0}, {"1<", "", 2, 0}, {"1<<", "", 2, 0}, {"1+", "", 2, 0}, {"1*", "", 2, 0},
    {"1||", "", 2, 0}, {"1 or ", "", 2, 0}, {"1 xor ", "", 2, 0}, {"1 AND ", "", 2, 0}, {"1 and ", "", 2, 0}, {"1!=", "", 2, 0},
    {"1 EQ ", "", 2, 0}, {"1 NE ", "", 2, 0}, {"1<=", "", 2, 0}, {"1>", "", 2, 0}, {"1>=", "", 2, 0}, {"1 LT ", "", 2, 0},
    {"1 LE ", "", 2, 0}, {"1 GT ", "", 2, 0}, {"1 GE ", "", 2, 0}, {"1>>", "", 2, 0}, {"9-", "", 2, 0}, {"9/", "", 2, 0}, {"9%", "", 2, 0},
    {"0?1:", "", 4, 0}, {"0?", ":1", 2, 2}, {"0&&", "", 2, 0}, {"1?'':", "", 4, 0}, {"1?L'a':", "", 4, 0}, {"'a'==", "", 2, 0},
    {"L'a'!=", "", 2, 0}, {"$(X)+", "", 2, 0}, {"g.N*", "", 2, 0}, {"g.S<", "", 2, 0}, {"$(NO)^", "", 2, 0}, {"g.No<<", "", 2, 0},
    {"L\"ab\">=", "", 2, 0}, {"'a'==a&&", "", 4, 0}, {"g.S NE _b?", ":0", 4, 2}, {"'a'!=L==", "", 4, 0}, {"(''==x)*", "", 6, 0},
    {"$(S)<", "", 2, 0},
};

const struct operand operands[OPERANDS] = {
    {"0", 1}, {"1", 1}, {"", 0}, {"$(X)", 1}, {"$(NO)", 1}, {"g.N", 1}, {"g.S", 1}, {"g.W", 1}, {"g.No", 1},
    {"'s'", 1}, {"L's'", 1}, {"'ab'=='ac'", 3}, {"1/0", 3}, {"18446744073709551615+1", 3}, {"(1", 2}, {")", 1}, {"@", 1},
    {"a", 1}, {"'ab'==ab", 3}, {"g.S EQ a_word_of_56_bytes__as_the_longest_string_in_a_table_has", 3}, {"1!=foo.1", 3}, {"$(S)", 1},
};

static void put(struct expression *e, const char *text)
{
    size_t length = strlen(text);
    memcpy(e->text + e->length, text, length);
    e->length += length;
}

void start(struct expression *e, int closed, int operand)
{
    memset(e, 0, sizeof *e);
    e->closed = closed;
    e->operand = &operands[operand];
}

/* How many tokens there will be if nothing is added. */
static int tokens_of(const struct expression *e)
{
    return e->tokens + e->operand->tokens + (e->closed ? e->closing_tokens : 0);
}

static size_t bytes_of(const struct expression *e)
{
    return e->length + strlen(e->operand->text) + (e->closed ? e->closing_bytes : 0);
}

int add(struct expression *e, int unit)
{
    const struct unit *u = &units[unit];
    size_t bytes = strlen(u->open) + (e->closed ? strlen(u->close) : 0);
    int tokens = u->open_tokens + (e->closed ? u->close_tokens : 0);
    int parentheses = u->open[0] == '(';
    if (bytes_of(e) + bytes > MOST_BYTES || tokens_of(e) + tokens > MOST_TOKENS || e->parentheses + parentheses > MOST_PARENTHESES)
        return 0;
    put(e, u->open);
    e->parentheses += parentheses;
    e->tokens += u->open_tokens;
    e->closing[e->open++] = u->close;
    e->closing_bytes += strlen(u->close);
    e->closing_tokens += u->close_tokens;
    return 1;
}

void add_all(struct expression *e, int unit, int times, int tokens_left)
{
    int tokens = units[unit].open_tokens + (e->closed ? units[unit].close_tokens : 0);
    while (times-- > 0 && tokens_of(e) + tokens + tokens_left <= MOST_TOKENS && add(e, unit))
        continue;
}

void finish(struct expression *e)
{
    put(e, e->operand->text);
    for (int i = e->open; e->closed && i > 0; i--)
        put(e, e->closing[i - 1]);
}
