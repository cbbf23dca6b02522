#include "inputs.h"
#include <stdio.h>
#include <string.h>

#define RECORD 128
#define RECORDS 512
#define GROUPS 16
#define DEFINED 64

struct bytes {
    const uint8_t *start;
    size_t length;
};

/* One record more than a table may have. */
static uint8_t full[(RECORDS + 1) * RECORD], one[RECORD];
static struct bytes tables[3];

/* A string of 56 bytes, the most that a record has, and a DEFINE line sets. */
static const char longest[] = "a string of fifty-six bytes, the most that a record has.";

static void record(uint8_t *at, const char *name, uint8_t kind, const char *content, uint8_t length)
{
    memcpy(at, name, strlen(name));
    at[64] = kind;
    at[65] = length;
    memcpy(at + 72, content, length);
}

void make_tables(void)
{
    static const char number[8] = {1};
    record(one, "X", KORZHINAY_KIND_NUMBER, number, 8);
    for (int i = 0; i <= RECORDS; i++) {
        char name[8];
        uint8_t kind = (uint8_t)(i % 3);
        sprintf(name, "S%03d", i);
        record(full + i * RECORD, name, kind, kind == KORZHINAY_KIND_NUMBER ? number : longest, kind == KORZHINAY_KIND_NUMBER ? 8 : 56);
    }
    /* The names that expressions have come last, so that a search from the front passes all others. */
    memset(full + (RECORDS - 4) * RECORD, 0, 4 * RECORD);
    record(full + (RECORDS - 4) * RECORD, "X", KORZHINAY_KIND_NUMBER, number, 8);
    record(full + (RECORDS - 3) * RECORD, "g.N", KORZHINAY_KIND_NUMBER, number, 8);
    record(full + (RECORDS - 2) * RECORD, "g.S", KORZHINAY_KIND_STRING, longest, 56);
    record(full + (RECORDS - 1) * RECORD, "g.W", KORZHINAY_KIND_WIDE, longest, 56);
    tables[0] = (struct bytes){NULL, 0};
    tables[1] = (struct bytes){one, sizeof one};
    tables[2] = (struct bytes){full, RECORDS * RECORD};
}

/* A file that is put together from texts; the bytes have room for any that the test makes. */
struct file {
    uint8_t bytes[65537];
    size_t length;
};

static void append(struct file *file, const void *bytes, size_t length, int times)
{
    for (int i = 0; i < times; i++) {
        memcpy(file->bytes + file->length, bytes, length);
        file->length += length;
    }
}

static void append_text(struct file *file, const char *text, int times)
{
    append(file, text, strlen(text), times);
}

/* DEFINE lines that set as many macros as they can, to strings of 56 bytes: most have names of 64 bytes; the last ones are those that
 * expressions have, S and X, which is the number 1. */
static void append_macros(struct file *file)
{
    char line[160];
    for (int i = 0; i < DEFINED - 2; i++) {
        sprintf(line, "DEFINE N%063d = %s'%s'\n", i, i % 2 ? "L" : "", longest);
        append_text(file, line, 1);
    }
    sprintf(line, "DEFINE S='%s'\nDEFINE X=1\n", longest);
    append_text(file, line, 1);
}

/* So many open groups, with macros set in the innermost or not, and then the expression, after these texts; `more` groups are opened by
 * them. */
static void write_file(struct file *file, int macros, const char *before, int more, const struct expression *e)
{
    file->length = 0;
    append_text(file, "!if 1\n", GROUPS - 1);
    if (macros)
        append_macros(file);
    append_text(file, before, 1);
    append(file, e->text, e->length, 1);
    append_text(file, "\nplain\n", 1);
    append_text(file, "!endif\n", GROUPS - 1 + more);
}

size_t calls_on(const struct expression *e, struct call calls[MOST_CALLS])
{
    static struct file first, later, tested, set;
    const uint8_t *text = (const uint8_t *)e->text;
    size_t count = 0;
    write_file(&first, 0, "!if ", 1, e);
    write_file(&later, 0, "!if 0\n!elseif ", 1, e);
    write_file(&tested, 1, "!if ", 1, e);
    write_file(&set, 1, "DEFINE X=", 0, e);
    for (uint8_t edition = KORZHINAY_EDITION_NEW; edition <= KORZHINAY_EDITION_OLD; edition++) {
        calls[count++] = (struct call){CALL_TOKENS, 0, edition, text, e->length, NULL, 0};
        for (const struct bytes *t = tables; t < tables + 3; t++) {
            calls[count++] = (struct call){CALL_EVALUATE, 0, edition, text, e->length, t->start, t->length};
            for (uint8_t datum = KORZHINAY_DATUM_VOID; datum <= KORZHINAY_DATUM_UINT64; datum++)
                calls[count++] = (struct call){CALL_FIELD, datum, edition, text, e->length, t->start, t->length};
            calls[count++] = (struct call){CALL_SELECT, 0, edition, first.bytes, first.length, t->start, t->length};
            calls[count++] = (struct call){CALL_SELECT, 0, edition, later.bytes, later.length, t->start, t->length};
        }
        for (const struct bytes *t = tables; t < tables + 3; t += 2) {
            calls[count++] = (struct call){CALL_SELECT, 0, edition, tested.bytes, tested.length, t->start, t->length};
            calls[count++] = (struct call){CALL_SELECT, 0, edition, set.bytes, set.length, t->start, t->length};
        }
    }
    return count;
}

struct call file_of(const struct expression *e)
{
    static struct file file;
    write_file(&file, 0, "!if ", 1, e);
    return (struct call){CALL_SELECT, 0, KORZHINAY_EDITION_OLD, file.bytes, file.length, NULL, 0};
}

/* The tables, and some that are refused: for their length, for one byte in the last record, for a record too many. */
static void table_calls(take_calls *take)
{
    static uint8_t wrong[RECORDS * RECORD];
    memcpy(wrong, full, sizeof wrong);
    wrong[sizeof wrong - RECORD + 66] = 1;
    const struct bytes given[] = {
        tables[0], tables[1], tables[2], {full, RECORDS * RECORD - 1}, {wrong, sizeof wrong}, {full, sizeof full},
    };
    static const char *const names[] = {
        "X", "S000", "g.W", "NO", "", "9", "A234567890123456789012345678901234567890123456789012345678901234",
        "A2345678901234567890123456789012345678901234567890123456789012345",
    };
    for (size_t i = 0; i < sizeof given / sizeof given[0]; i++) {
        struct call calls[9] = {{.which = CALL_TABLE, .table = given[i].start, .table_len = given[i].length}};
        for (size_t j = 0; j < 8; j++)
            calls[j + 1] = (struct call){CALL_LOOKUP, 0, 0, (const uint8_t *)names[j], strlen(names[j]), given[i].start, given[i].length};
        take("tables and lookups", calls, 9);
    }
}

/* A file that starts with `text` so many times, and ends with `last`. */
static void file_calls(const char *text, int times, const char *last, take_calls *take)
{
    static struct file file;
    struct call calls[6];
    file.length = 0;
    append_text(&file, text, times);
    append_text(&file, last, 1);
    for (int i = 0; i < 6; i++)
        calls[i] = (struct call){CALL_SELECT, 0, (uint8_t)(i % 2), file.bytes, file.length, tables[i / 2].start, tables[i / 2].length};
    take("files", calls, 6);
}

struct call all_macros(const char *last)
{
    static struct file file;
    file.length = 0;
    append_macros(&file);
    for (int i = 0; i < DEFINED - 2; i++) {
        char lines[160];
        sprintf(lines, "!if $(N%063d) == %s'%s'\n!endif\n", i, i % 2 ? "L" : "", longest);
        append_text(&file, lines, 1);
    }
    append_text(&file, last, 1);
    return (struct call){CALL_SELECT, 0, KORZHINAY_EDITION_OLD, file.bytes, file.length, NULL, 0};
}

static void macro_calls(const char *last, take_calls *take)
{
    struct call calls[6];
    for (int i = 0; i < 6; i++) {
        calls[i] = all_macros(last);
        calls[i].dialect = (uint8_t)(i % 2);
        calls[i].table = tables[i / 2].start;
        calls[i].table_len = tables[i / 2].length;
    }
    take("files with as many macros as there can be", calls, 6);
}

void each_other(take_calls *take)
{
    static const char *const texts[] = {
        "\n", "plain\n", "!if $(X) == 1\r\n!elseif g.N\n!else\n!endif # c\n", "!ifdef X\n!ifndef $(NO)\n!endif\n!endif\n",
        "!include a\n!error b\n", "!if 'a' == b\n!elif 'a' EQ a\n!endif\n", "DEFINE A=$(A)+1\n", "DEFINE X='x'\n!if $(X)=='x'\n!endif\n",
    };
    static const int times[] = {4095, 4095, 1000, 1000, 2000, 1300, 4093, 1300};
    static const char *const ends[] = {
        "", "x", "!if 0\n", "!else", "!iff", "!if 2", "!if 'a'", "!if(1)", "!ifdef a.b", "!if 1/0", "!if @", "!if 1\n!else\n!elif 1\n",
        "!if 1 == a", "!if 'a' == a.", "!ifdef $(X)\n!endif\n", "!ifndef $(a)", "DEFINE", "DEFINE A = 1 |", "DEFINE A = g.W", "DEFINE A=''",
    };
    static const char *const last[] = {
        "", "DEFINE X = $(S)\n!if $(X) == $(S)\n!endif\n", "!ifdef X\n!endif\n!ifdef Y\n!endif\n", "DEFINE X = @", "DEFINE X = $(S) + 1",
        "DEFINE Y = 1", "DEFINE S = 'a string of fifty-seven bytes, one more than a record has'",
    };
    table_calls(take);
    for (size_t i = 0; i < sizeof last / sizeof last[0]; i++)
        macro_calls(last[i], take);
    for (size_t i = 0; i < sizeof texts / sizeof texts[0]; i++)
        for (size_t j = 0; j < sizeof ends / sizeof ends[0]; j++)
            file_calls(texts[i], times[i], ends[j], take);
    file_calls("!ifdef X\n", GROUPS, "!if 1\n", take);
    file_calls("!if 0\n", GROUPS, "", take);
    file_calls("!ifndef NO\n", GROUPS, "", take);
    file_calls("x", 1025, "", take);
    file_calls("0123456\n", 8192, "", take);
    file_calls("0123456\n", 8192, "x", take);
}
