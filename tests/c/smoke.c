/* The header and the static library fit together: a few uses of each call from C, in both editions, with guards round all that is lent, and
 * the header's own function. */
#include "korzhinay.h"
#include <stdio.h>
#include <string.h>

static int passed, failed;

/* The dialect of every call that takes one. */
static uint8_t dialect;

static void check(const char *what, int good)
{
    if (good)
        passed++;
    else {
        failed++;
        printf("FAILED %s\n", what);
    }
}

/* What stands in lent memory, and on both sides of it, before a call. */
#define UNTOUCHED 0xA5
#define GUARD 64
#define MOST_LENT (KORZHINAY_MAX_TOKENS * sizeof(uint64_t))

/* An array that is lent to a call, with guards on both sides that the call must leave alone. */
struct lent {
    _Alignas(8) uint8_t bytes[GUARD + MOST_LENT + GUARD];
    size_t size;
};

static void *lend(struct lent *lent, size_t size)
{
    memset(lent->bytes, UNTOUCHED, sizeof lent->bytes);
    lent->size = size;
    return lent->bytes + GUARD;
}

/* Looks at the guards, and copies so many bytes from the array's start, guard included where it is shorter. */
static void take_back(const char *what, const struct lent *lent, void *to, size_t count)
{
    int good = 1;
    for (size_t i = 0; i < sizeof lent->bytes; i++)
        if (i < GUARD || i >= GUARD + lent->size)
            good &= lent->bytes[i] == UNTOUCHED;
    check(what, good);
    memcpy(to, lent->bytes + GUARD, count);
}

static int untouched(const void *bytes, size_t count)
{
    const uint8_t *each = bytes;
    for (size_t i = 0; i < count; i++)
        if (each[i] != UNTOUCHED)
            return 0;
    return 1;
}

static size_t length_of(const char *text)
{
    return text == NULL ? 0 : strlen(text);
}

static void check_table(const uint8_t *table, size_t table_len)
{
    check("a table of one record", korzhinay_table(table, table_len) == 0);
    check("a record cut short", korzhinay_table(table, table_len - 1) == KORZHINAY_REFUSAL_TABLE_MALFORMED);
    check("no table", korzhinay_table(NULL, 0) == 0);
}

static uint8_t lookup(const uint8_t *table, size_t table_len, const char *name, uint64_t found[3])
{
    struct lent lent;
    uint64_t *three = lend(&lent, 3 * sizeof found[0]);
    uint8_t refusal = korzhinay_lookup(table, table_len, (const uint8_t *)name, length_of(name), three);
    take_back("beside what was found", &lent, found, 3 * sizeof found[0]);
    return refusal;
}

static int finds(const uint64_t found[3], uint64_t kind, uint64_t number, uint64_t length)
{
    return found[0] == kind && found[1] == number && found[2] == length;
}

static void check_lookup(const uint8_t *table, size_t table_len, const uint8_t *strings, size_t strings_len)
{
    uint8_t string[KORZHINAY_RECORD_BYTES];
    uint64_t found[3];

    check("a lookup", lookup(table, table_len, "WEEK", found) == 0);
    check("a number", finds(found, KORZHINAY_KIND_NUMBER, 48, 0));
    check("a lookup in a table cut short", lookup(table, table_len - 1, "WEEK", found) == KORZHINAY_REFUSAL_TABLE_MALFORMED);
    check("finds nothing and writes nothing", untouched(found, sizeof found));
    check("a part of a name", lookup(table, table_len, "WEE", found) == 0);
    check("is no such name", finds(found, 255, 0, 0));
    check("no name in no table", lookup(NULL, 0, NULL, found) == 0 && finds(found, 255, 0, 0));
    memcpy(string, table, sizeof string);
    string[64] = KORZHINAY_KIND_STRING;
    check("a string", lookup(string, sizeof string, "WEEK", found) == 0 && finds(found, KORZHINAY_KIND_STRING, 72, 8));
    check("a wide string", lookup(strings, strings_len, "NAME", found) == 0);
    check("and its place", finds(found, KORZHINAY_KIND_WIDE, 72, 2));
}

struct tokens {
    uint64_t out[3], values[KORZHINAY_MAX_TOKENS];
    uint16_t starts[KORZHINAY_MAX_TOKENS], lens[KORZHINAY_MAX_TOKENS];
    uint8_t codes[KORZHINAY_MAX_TOKENS];
};

static void tokens(const char *text, struct tokens *t)
{
    struct lent out, codes, starts, lens, values;
    uint64_t *three = lend(&out, sizeof t->out), *numbers = lend(&values, sizeof t->values);
    uint16_t *offsets = lend(&starts, sizeof t->starts), *lengths = lend(&lens, sizeof t->lens);
    uint8_t *sorts = lend(&codes, sizeof t->codes);

    korzhinay_tokens((const uint8_t *)text, length_of(text), dialect, three, sorts, offsets, lengths, numbers);
    take_back("beside three numbers of tokens", &out, t->out, sizeof t->out);
    take_back("beside codes", &codes, t->codes, sizeof t->codes);
    take_back("beside starts", &starts, t->starts, sizeof t->starts);
    take_back("beside lengths", &lens, t->lens, sizeof t->lens);
    take_back("beside values", &values, t->values, sizeof t->values);
}

/* Whether the entries from this one on are as they were. */
static int stays_from(size_t first, const struct tokens *t)
{
    size_t rest = KORZHINAY_MAX_TOKENS - first;
    return untouched(t->codes + first, rest) && untouched(t->starts + first, rest * sizeof t->starts[0])
        && untouched(t->lens + first, rest * sizeof t->lens[0]) && untouched(t->values + first, rest * sizeof t->values[0]);
}

static int scanned(const struct tokens *t, uint64_t refusal, uint64_t count, uint64_t offset)
{
    return t->out[0] == refusal && t->out[1] == count && t->out[2] == offset && stays_from(count, t);
}

static void check_tokens(void)
{
    char most[202] = "", deep[18] = "";
    struct tokens t;

    tokens("$(WEEK) <= 5", &t);
    check("three tokens, and no more", scanned(&t, 0, 3, 0));
    check("their codes", t.codes[0] == KORZHINAY_MACRO && t.codes[1] == KORZHINAY_LESS_EQUAL && t.codes[2] == KORZHINAY_NUMBER);
    check("the last one's place and value", t.starts[2] == 11 && t.lens[2] == 1 && t.values[2] == 5);
    tokens(NULL, &t);
    check("an empty expression", scanned(&t, 0, 0, 0));
    memset(most, '~', 200);
    tokens(most, &t);
    check("200 tokens", scanned(&t, 0, 200, 0) && t.codes[199] == KORZHINAY_COMPLEMENT && t.starts[199] == 199);
    most[200] = '~';
    tokens(most, &t);
    check("201 tokens", scanned(&t, KORZHINAY_REFUSAL_TOKENS_MANY, 200, 200));
    memset(deep, '(', 17);
    tokens(deep, &t);
    check("17 parentheses", scanned(&t, KORZHINAY_REFUSAL_PARENTHESES_DEEP, 17, 16));
    tokens("1 @", &t);
    check("a token before a fault", scanned(&t, KORZHINAY_REFUSAL_TOKEN_BAD, 1, 2));
    tokens("1 + 18446744073709551616", &t);
    check("a number too large", scanned(&t, KORZHINAY_REFUSAL_LITERAL_LARGE, 2, 4));
    tokens("1 2", &t);
    check("no expression, but tokens", scanned(&t, 0, 2, 0));
}

static uint8_t evaluate(const char *text, const uint8_t *table, size_t table_len, uint64_t out[7])
{
    struct lent lent;
    uint64_t *seven = lend(&lent, 7 * sizeof out[0]);
    uint8_t refusal = korzhinay_evaluate((const uint8_t *)text, length_of(text), table, table_len, dialect, seven);
    take_back("beside seven numbers", &lent, out, 7 * sizeof out[0]);
    return refusal;
}

static int answers(const uint64_t out[7], uint64_t kind, uint64_t number, uint64_t count, uint64_t memory, uint64_t start,
                   uint64_t length)
{
    return out[0] == kind && out[1] == number && out[2] == count && out[3] == memory && out[4] == start && out[5] == length && out[6] == 0;
}

/* Of a refusal: six zeros and the offset. */
static int refused_at(const uint64_t out[7], uint64_t offset)
{
    for (size_t i = 0; i < 6; i++)
        if (out[i] != 0)
            return 0;
    return out[6] == offset;
}

static void check_evaluation(const uint8_t *table, size_t table_len)
{
    uint64_t out[7];

    check("an expression", evaluate("1 + 2 * $(WEEK)", table, table_len, out) == 0);
    check("its value and count", answers(out, KORZHINAY_KIND_NUMBER, 97, 2, 0, 0, 0));
    check("a string", evaluate("1 ? 'ab' : 'c'", NULL, 0, out) == 0);
    check("its place", answers(out, KORZHINAY_KIND_STRING, 0, 1, KORZHINAY_IN_EXPRESSION, 5, 2));
    check("a wide string of the table", evaluate("$(NAME)", table, table_len, out) == 0);
    check("its place in the table", answers(out, KORZHINAY_KIND_WIDE, 0, 0, KORZHINAY_IN_TABLE, 72, 2));
    check("a zero divisor", evaluate("1 / 0", table, table_len, out) == KORZHINAY_REFUSAL_DIVISOR_ZERO);
    check("six zeros, and the operator", refused_at(out, 2));
    check("kinds", evaluate("'b' + ($(NAME) - 1)", table, table_len, out) == KORZHINAY_REFUSAL_KINDS_UNSUITED);
    check("at the inner operator", refused_at(out, 15));
    check("a good beginning", evaluate("1 + # 2", NULL, 0, out) == KORZHINAY_REFUSAL_NO_DERIVATION);
    check("at the comment", refused_at(out, 4));
    check("a table cut short", evaluate("1", table, table_len - 1, out) == KORZHINAY_REFUSAL_TABLE_MALFORMED);
    check("has no place", refused_at(out, 0));
    check("nothing at all", evaluate(NULL, NULL, 0, out) == KORZHINAY_REFUSAL_NO_DERIVATION && refused_at(out, 0));
}

/* Of a buffer of so many bytes, at most 8; without any there is none. */
static uint8_t field(uint8_t buffer[8], size_t room, const char *text, const uint8_t *table, size_t table_len, uint8_t datum,
                     uint64_t out[2])
{
    struct lent bytes, numbers;
    uint8_t *start = lend(&bytes, room);
    uint64_t *two = lend(&numbers, 2 * sizeof out[0]);
    uint8_t refusal = korzhinay_field(room > 0 ? start : NULL, room, (const uint8_t *)text, length_of(text), table, table_len, datum,
                                      dialect, two);
    take_back("beside a field", &bytes, buffer, 8);
    take_back("beside a field's two numbers", &numbers, out, 2 * sizeof out[0]);
    return refusal;
}

static int holds(const uint8_t buffer[8], const char *bytes, size_t count)
{
    for (size_t i = 0; i < 8; i++)
        if (buffer[i] != (i < count ? (uint8_t)bytes[i] : UNTOUCHED))
            return 0;
    return 1;
}

/* Whether a field has so many bytes, and no other is written. */
static int written(const uint64_t out[2], const uint8_t buffer[8], const char *bytes, size_t count)
{
    return out[0] == count && out[1] == 0 && holds(buffer, bytes, count);
}

/* Whether nothing was written, and the refusal is at this offset. */
static int left(const uint64_t out[2], const uint8_t buffer[8], uint64_t offset)
{
    return out[0] == 0 && out[1] == offset && holds(buffer, "", 0);
}

static void check_field(const uint8_t *table, size_t table_len)
{
    uint8_t buffer[8];
    uint64_t out[2];

    check("a number", field(buffer, 8, "$(WEEK) << 8", table, table_len, KORZHINAY_DATUM_UINT16, out) == 0);
    check("its two bytes, and no more", written(out, buffer, "\0\x30", 2));
    check("a string", field(buffer, 3, "'ab'", NULL, 0, KORZHINAY_DATUM_VOID, out) == 0);
    check("its bytes and a zero", written(out, buffer, "ab", 3));
    check("a wide string", field(buffer, 8, "$(NAME)", table, table_len, KORZHINAY_DATUM_VOID, out) == 0);
    check("two bytes each", written(out, buffer, "x\0y\0\0", 6));
    check("a string too long", field(buffer, 2, "'ab'", NULL, 0, KORZHINAY_DATUM_VOID, out) == KORZHINAY_REFUSAL_BUFFER_SHORT);
    check("leaves the buffer", left(out, buffer, 0));
    check("a number too large", field(buffer, 8, "2", NULL, 0, KORZHINAY_DATUM_BOOLEAN, out) == KORZHINAY_REFUSAL_DATUM_RANGE
          && left(out, buffer, 0));
    check("a number for VOID*", field(buffer, 8, "2", NULL, 0, KORZHINAY_DATUM_VOID, out) == KORZHINAY_REFUSAL_DATUM_KIND
          && left(out, buffer, 0));
    check("an unknown datum", field(buffer, 8, "2", NULL, 0, 6, out) == KORZHINAY_REFUSAL_DATUM_UNKNOWN && left(out, buffer, 0));
    check("a missing PCD first", field(buffer, 8, "1 + g.Pcd", table, table_len, 6, out) == KORZHINAY_REFUSAL_PCD_MISSING
          && left(out, buffer, 4));
    check("a bar outside parentheses", field(buffer, 8, "(1 | 2) | 4", NULL, 0, KORZHINAY_DATUM_UINT8, out) == KORZHINAY_REFUSAL_BAR_OUTSIDE
          && left(out, buffer, 8));
    check("no buffer", field(buffer, 0, "1", NULL, 0, KORZHINAY_DATUM_UINT8, out) == KORZHINAY_REFUSAL_BUFFER_SHORT
          && left(out, buffer, 0));
    check("all of a buffer", field(buffer, 8, "~0", NULL, 0, KORZHINAY_DATUM_UINT64, out) == 0);
    check("eight bytes", written(out, buffer, "\xFF\xFF\xFF\xFF\xFF\xFF\xFF\xFF", 8));
}

/* With so many marks, at most 8; without any there is no array. */
static uint8_t selection(uint8_t marks[8], size_t room, const char *file, const uint8_t *table, size_t table_len, uint64_t out[4])
{
    struct lent bytes, numbers;
    uint8_t *start = lend(&bytes, room);
    uint64_t *four = lend(&numbers, 4 * sizeof out[0]);
    uint8_t refusal = korzhinay_select(room > 0 ? start : NULL, room, (const uint8_t *)file, length_of(file), table, table_len, dialect,
                                       four);
    take_back("beside marks", &bytes, marks, 8);
    take_back("beside four numbers", &numbers, out, 4 * sizeof out[0]);
    return refusal;
}

static int shows(const uint64_t out[4], uint64_t line, uint64_t lines, uint64_t count, uint64_t offset)
{
    return out[0] == line && out[1] == lines && out[2] == count && out[3] == offset;
}

static int refused(const uint8_t marks[8], size_t room)
{
    for (size_t i = 0; i < 8; i++)
        if (marks[i] != (i < room ? KORZHINAY_MARK_REFUSED : UNTOUCHED))
            return 0;
    return 1;
}

static void check_selection(const uint8_t *table, size_t table_len)
{
    static const char group[] = {KORZHINAY_MARK_TAKEN, KORZHINAY_MARK_KEPT, KORZHINAY_MARK_UNREAD, KORZHINAY_MARK_DROPPED,
                                 KORZHINAY_MARK_NOT_TAKEN, KORZHINAY_MARK_END};
    uint8_t marks[8];
    uint64_t out[4];

    check("a file", selection(marks, 8, "!if $(WEEK) / 2 == 24\na\n!elif @\nb\n!else\r\n!endif", table, table_len, out) == 0);
    check("its six marks, and no more", shows(out, 0, 6, 2, 0) && holds(marks, group, 6));
    check("a name that is set", selection(marks, 2, "!ifndef WEEK\n!endif # c\n", table, table_len, out) == 0);
    check("two marks for two lines", shows(out, 0, 2, 0, 0) && holds(marks, "\3\5", 2));
    check("a mark too few", selection(marks, 1, "a\nb", table, table_len, out) == KORZHINAY_REFUSAL_MARKS_SHORT);
    check("of no line", shows(out, 0, 0, 0, 0) && refused(marks, 1));
    check("a zero divisor", selection(marks, 8, "a\n !if 1 / 0\n!endif\n", table, table_len, out) == KORZHINAY_REFUSAL_DIVISOR_ZERO);
    check("in line 2 at byte 7, every mark 255", shows(out, 2, 0, 0, 7) && refused(marks, 8));
    check("a condition without an expression", selection(marks, 8, "!if  \r\n", NULL, 0, out) == KORZHINAY_REFUSAL_NO_DERIVATION);
    check("at the end of its line", shows(out, 1, 0, 0, 5) && refused(marks, 8));
    check("no condition", selection(marks, 8, "!if 2\n!endif", NULL, 0, out) == KORZHINAY_REFUSAL_CONDITION_VALUE);
    check("has a line and no place in it", shows(out, 1, 0, 0, 0) && refused(marks, 8));
    check("an open group", selection(marks, 7, "!if 1\n!if 0\n", NULL, 0, out) == KORZHINAY_REFUSAL_FILE_UNFINISHED);
    check("the inner one", shows(out, 2, 0, 0, 0) && refused(marks, 7));
    check("a table cut short", selection(marks, 8, "a", table, table_len - 1, out) == KORZHINAY_REFUSAL_TABLE_MALFORMED);
    check("and every mark 255 again", shows(out, 0, 0, 0, 0) && refused(marks, 8));
    check("an unknown word", selection(marks, 8, "!iff 1", NULL, 0, out) == KORZHINAY_REFUSAL_WORD_UNKNOWN && shows(out, 1, 0, 0, 0));
    check("no file, no marks", selection(marks, 0, NULL, NULL, 0, out) == 0 && shows(out, 0, 0, 0, 0));
    check("as many marks as lines", selection(marks, 8, "\n\n\n\n\n\n\n\n", NULL, 0, out) == 0);
    check("eight", shows(out, 0, 8, 0, 0) && holds(marks, "\1\1\1\1\1\1\1\1", 8));
}

/* DEFINE lines. */
static void check_define(const uint8_t *table, size_t table_len)
{
    static const char set[] = {KORZHINAY_MARK_DEFINE, KORZHINAY_MARK_TAKEN, KORZHINAY_MARK_KEPT, KORZHINAY_MARK_END,
                               KORZHINAY_MARK_TAKEN, KORZHINAY_MARK_END};
    uint8_t before[2 * KORZHINAY_RECORD_BYTES], marks[8];
    uint64_t out[4];

    memcpy(before, table, table_len);
    check("a macro", selection(marks, 8, "DEFINE A=$(WEEK) + 2\n!if $(A) == 50\na\n!endif\n!ifdef A\n!endif", table, table_len, out) == 0);
    check("that is set, with its operator", shows(out, 0, 6, 2, 0) && holds(marks, set, 6));
    check("one of the table", selection(marks, 8, "DEFINE WEEK = 'x'\n!if $(WEEK) == 'x'\n!endif", table, table_len, out) == 0);
    check("that is another one now", shows(out, 0, 3, 1, 0) && holds(marks, "\6\4\5", 3));
    check("and the table stays", memcmp(before, table, table_len) == 0);
    check("a dropped line", selection(marks, 8, "!if 0\nDEFINE\nDEFINE A = 1\n!endif\n!ifdef A\n!endif", NULL, 0, out) == 0);
    check("that sets nothing", shows(out, 0, 6, 0, 0) && holds(marks, "\3\0\0\5\3\5", 6));
    check("another shape", selection(marks, 8, "a\n DEFINE a = 1", NULL, 0, out) == KORZHINAY_REFUSAL_TEXT_MALFORMED);
    check("has a line and no place in it", shows(out, 2, 0, 0, 0) && refused(marks, 8));
    check("a bar", selection(marks, 8, "DEFINE A = 1 | 2", NULL, 0, out) == KORZHINAY_REFUSAL_BAR_OUTSIDE);
    check("that needs parentheses here", shows(out, 1, 0, 0, 13) && refused(marks, 8));
}

/* A DEFINE line with a string of so many bytes. */
static uint8_t set_string(uint8_t marks[8], int bytes, uint64_t out[4])
{
    char file[KORZHINAY_MAX_CONTENT_BYTES + 32];
    snprintf(file, sizeof file, "x\nDEFINE A = '%0*d'", bytes, 0);
    return selection(marks, 8, file, NULL, 0, out);
}

static void check_longest_string(void)
{
    uint8_t marks[8];
    uint64_t out[4];

    check("the longest string", set_string(marks, KORZHINAY_MAX_CONTENT_BYTES, out) == 0 && holds(marks, "\1\6", 2));
    check("a longer one", set_string(marks, KORZHINAY_MAX_CONTENT_BYTES + 1, out) == KORZHINAY_REFUSAL_DEFINED_LONG);
    check("is refused in line 2", shows(out, 2, 0, 0, 0) && refused(marks, 8));
}

/* So many DEFINE lines, each of another macro, at most one more than a file may set. */
static uint8_t set_macros(uint8_t marks[KORZHINAY_MAX_DEFINED + 1], size_t count, uint64_t out[4])
{
    static const char line[] = "DEFINE N00 = 1\n";
    size_t length = sizeof line - 1;
    uint8_t file[(KORZHINAY_MAX_DEFINED + 1) * sizeof line];
    struct lent lent;
    for (size_t i = 0; i < count; i++) {
        memcpy(file + i * length, line, length);
        file[i * length + 8] += i / 10;
        file[i * length + 9] += i % 10;
    }
    uint8_t refusal = korzhinay_select(lend(&lent, count), count, file, count * length, NULL, 0, dialect, out);
    take_back("beside many marks", &lent, marks, count);
    return refusal;
}

static int all_are(uint8_t mark, const uint8_t *marks, size_t count)
{
    for (size_t i = 0; i < count; i++)
        if (marks[i] != mark)
            return 0;
    return 1;
}

static void check_most_macros(void)
{
    size_t most = KORZHINAY_MAX_DEFINED;
    uint8_t marks[KORZHINAY_MAX_DEFINED + 1];
    uint64_t out[4];

    check("as many macros as there can be", set_macros(marks, most, out) == 0);
    check("are set", shows(out, 0, most, 0, 0) && all_are(KORZHINAY_MARK_DEFINE, marks, most));
    check("one more", set_macros(marks, most + 1, out) == KORZHINAY_REFUSAL_DEFINED_MANY);
    check("is refused in its line", shows(out, most + 1, 0, 0, 0) && all_are(KORZHINAY_MARK_REFUSED, marks, most + 1));
}

/* What is taken in the old edition. */
static void check_old(const uint8_t *table, size_t table_len)
{
    uint8_t bytes[8];
    uint64_t out[7];
    struct tokens t;

    tokens("'a' == abc", &t);
    check("a bare word", scanned(&t, 0, 3, 0) && t.codes[2] == KORZHINAY_BARE && t.starts[2] == 7 && t.lens[2] == 3 && t.values[2] == 0);
    check("a comparison with it", evaluate("'abc' == abc", NULL, 0, out) == 0 && answers(out, KORZHINAY_KIND_NUMBER, 1, 1, 0, 0, 0));
    check("its kind", evaluate("$(NAME) != xy", table, table_len, out) == KORZHINAY_REFUSAL_KINDS_UNSUITED && refused_at(out, 8));
    check("a field", field(bytes, 8, "'a' NE b", NULL, 0, KORZHINAY_DATUM_UINT16, out) == 0 && written(out, bytes, "\1", 2));
    check("a condition", selection(bytes, 8, "!if 'a' == b\n!endif", NULL, 0, out) == 0);
    check("and its mark", shows(out, 0, 2, 1, 0) && holds(bytes, "\3\5", 2));
    check("a macro after !ifdef", selection(bytes, 8, "!ifdef $(WEEK)\n!endif", table, table_len, out) == 0);
    check("that is set", shows(out, 0, 2, 0, 0) && holds(bytes, "\4\5", 2));
    check("a DEFINE line", selection(bytes, 8, "DEFINE A = 'a' == a\n!ifdef $(A)\n!endif", NULL, 0, out) == 0);
    check("and its macro", shows(out, 0, 3, 1, 0) && holds(bytes, "\6\4\5", 3));
}

/* What is refused in the new one. */
static void check_new(const uint8_t *table, size_t table_len)
{
    uint8_t bytes[8];
    uint64_t out[7];
    struct tokens t;

    tokens("'a' == abc", &t);
    check("no bare word", scanned(&t, KORZHINAY_REFUSAL_TOKEN_BAD, 2, 7));
    check("no comparison with one", evaluate("'abc' == abc", NULL, 0, out) == KORZHINAY_REFUSAL_TOKEN_BAD && refused_at(out, 9));
    check("whatever its kind", evaluate("$(NAME) != xy", table, table_len, out) == KORZHINAY_REFUSAL_TOKEN_BAD && refused_at(out, 11));
    check("no field", field(bytes, 8, "'a' NE b", NULL, 0, KORZHINAY_DATUM_UINT16, out) == KORZHINAY_REFUSAL_TOKEN_BAD
          && left(out, bytes, 7));
    check("no condition", selection(bytes, 8, "!if 'a' == b\n!endif", NULL, 0, out) == KORZHINAY_REFUSAL_TOKEN_BAD);
    check("at the word", shows(out, 1, 0, 0, 11) && refused(bytes, 8));
    check("no macro after !ifndef", selection(bytes, 8, "!ifndef $(NO)\n!endif", NULL, 0, out) == KORZHINAY_REFUSAL_TEXT_MALFORMED);
    check("in line 1", shows(out, 1, 0, 0, 0) && refused(bytes, 8));
    check("no DEFINE line", selection(bytes, 8, "DEFINE A = 'a' == a\n", NULL, 0, out) == KORZHINAY_REFUSAL_TOKEN_BAD);
    check("at the word, again", shows(out, 1, 0, 0, 18) && refused(bytes, 8));
}

/* What differs, with every dialect, of which bit 0 is the edition; then what is the same in both editions. */
static void check_dialects(const uint8_t *table, size_t table_len)
{
    for (int each = 0; each <= UINT8_MAX; each++) {
        dialect = (uint8_t)each;
        if (each % 2 == KORZHINAY_EDITION_OLD)
            check_old(table, table_len);
        else
            check_new(table, table_len);
    }
    for (dialect = KORZHINAY_EDITION_NEW; dialect <= KORZHINAY_EDITION_OLD; dialect++) {
        check_tokens();
        check_evaluation(table, table_len);
        check_field(table, table_len);
        check_selection(table, table_len);
        check_define(table, table_len);
        check_longest_string();
        check_most_macros();
    }
}

static int means(uint8_t number, const char *meaning)
{
    return strcmp(korzhinay_meaning(number), meaning) == 0;
}

/* Two numbers with one meaning would hide which refusal it was. */
static int differ(uint8_t first, uint8_t last)
{
    for (uint8_t i = first; i < last; i++)
        for (uint8_t j = i + 1; j <= last; j++)
            if (means(i, korzhinay_meaning(j)))
                return 0;
    return 1;
}

static void check_meanings(void)
{
    check("the first refusal", means(1, "the table of settings is malformed"));
    check("one of an expression", means(12, "zero divisor"));
    check("one of a field", means(26, "the buffer is shorter than the field"));
    check("the last refusal", means(28, "DEFINE sets a string of more than 56 bytes"));
    check("no refusal", means(0, "no refusal"));
    check("no number of a refusal", means(29, "unknown refusal") && means(255, "unknown refusal"));
    check("a meaning for each number", differ(0, 29));
}

int main(void)
{
    uint8_t settings[2 * KORZHINAY_RECORD_BYTES] = "NAME";
    uint8_t *week = settings + KORZHINAY_RECORD_BYTES;

    settings[64] = KORZHINAY_KIND_WIDE;
    settings[65] = 2;
    memcpy(settings + 72, "xy", 2);
    memcpy(week, "WEEK", 4);
    week[65] = 8;
    week[72] = 48;
    check_table(week, KORZHINAY_RECORD_BYTES);
    check_lookup(week, KORZHINAY_RECORD_BYTES, settings, sizeof settings);
    check_dialects(settings, sizeof settings);
    check_meanings();

    printf("%d passed, %d failed\n", passed, failed);
    return failed != 0;
}
