/* Korzhinay: the calls that C, Rust and Python can make.
 *
 * Every call is total: it has an answer for any bytes, and a caller has nothing to check before. The rules of C remain: a pointer is valid
 * for the length that comes with it or that its type names, and there are KORZHINAY_STACK bytes of stack. A pointer with a length of 0 is
 * neither read nor written and may be null. Lent arrays are written as each call says, and nowhere else; they must not overlap each other
 * or what the same call reads. The library keeps no state, so calls may run at the same time.
 *
 * Refusals have numbers from 1 to 28, of enum korzhinay_refusal; korzhinay_meaning, at the end, has their meanings. docs/LANGUAGE.md
 * describes the language, with an example of each refusal.
 *
 * Refusals 3 to 12 have a place, given as the offset of a byte from the start of the expression, in a selection from the start of the line:
 *    3  the first byte of the bad token: of a string its quote, of a wide string its `L`, of a macro its `$`; or the byte that starts none
 *    4  the first byte of the number literal
 *    5  the first byte after token 200 that is no blank
 *    6  the first `(` that is too deep
 *    7  the first token after which nothing that could follow makes an expression, the limits left aside; or, if something could follow all
 *       tokens, the `#` of the comment, or the end: the length of the expression or of the line, trailing blanks included
 *    8  the leftmost bar outside parentheses
 *    9  the leftmost PCD that is not in the table
 *   10  the operator, `?` of `?:`; of several the leftmost one that has no wrong one inside its operands
 *   11, 12  the operator that evaluation met first: a left operand comes before a right one, and skipped operands are not evaluated
 * A token is at its first byte. The offset of every other refusal is 0.
 *
 * The dialect of a call is a number, of which bit 0 is the edition of the language: 0 new, 1 old; enum korzhinay_dialect names both. All
 * other bits are ignored for now; leave them 0, since a later version may use them. In the old edition
 *   - a bare word is a string of its own bytes, without quotes: letters, digits and `_`, no digit first, as the next token after `==`,
 *     `!=`, EQ or NE, where nothing else can be read that starts there: no operator word, truth word, PCD name or wide string. Anywhere
 *     else, and in the new edition everywhere, no token can be read at such a word: 3
 *   - !ifdef and !ifndef take $(NAME) as well as NAME. In the new edition $(NAME) is refused with 22
 * Whatever the new edition accepts, the old one accepts with the same answer.
 */
#ifndef KORZHINAY_H
#define KORZHINAY_H

#include <stddef.h>
#include <stdint.h>

#ifdef __cplusplus
extern "C" {
#endif

/* The version of this header, and of the library and the command that come with it. The shared library's name ends with the major number
 * and, while that is 0, with the minor one too, as libkorzhinay.so.0.3: a program finds only a library with the calls it was made for. */
#define KORZHINAY_VERSION_MAJOR 0
#define KORZHINAY_VERSION_MINOR 3
#define KORZHINAY_VERSION_PATCH 0
#define KORZHINAY_VERSION "0.3.0"

/* The limits. The refusal of what is past a limit is beside it. */
#define KORZHINAY_RECORD_BYTES 128          /* of each record of a table, no more and no less: 1 */
#define KORZHINAY_MAX_RECORDS 512           /* in a table: 1 */
#define KORZHINAY_MAX_NAME_BYTES 64         /* of a name in a record; a longer name is in no table */
#define KORZHINAY_MAX_CONTENT_BYTES 56      /* of a string in a record: 1; of one that a DEFINE line sets: 28 */
#define KORZHINAY_MAX_EXPRESSION_BYTES 1024 /* of an expression: 2 */
#define KORZHINAY_MAX_TOKENS 200            /* in an expression: 5 */
#define KORZHINAY_MAX_PARENTHESES 16        /* that are open at the same time: 6 */
#define KORZHINAY_MAX_FIELD_BYTES 2044      /* of a data field; no expression has a longer one */
#define KORZHINAY_MAX_FILE_BYTES 65536      /* of a file: 14 */
#define KORZHINAY_MAX_LINES 4096            /* in a file: 15 */
#define KORZHINAY_MAX_LINE_BYTES 1024       /* of a line without its end: 17 */
#define KORZHINAY_MAX_GROUPS 16             /* that are open at the same time: 20 */
#define KORZHINAY_MAX_DEFINED 64            /* macros that the DEFINE lines of a file set: 27 */

/* No call needs more than this many bytes of stack, whatever its input. They have to be free where the call is made: what a thread takes of
 * its stack for itself, and signal handlers, come on top. This is measured and not proved, since it depends on the frames that the compiler
 * makes: tests/stack/ makes every call on the deepest inputs that the limits allow, in threads that have just this much for it, and fails
 * if any call uses more than three quarters. */
#define KORZHINAY_STACK 45056

/* The numbers of refusals. A later version may have more: any number other than 0 is a refusal. */
enum korzhinay_refusal {
    KORZHINAY_REFUSAL_TABLE_MALFORMED = 1,
    KORZHINAY_REFUSAL_EXPRESSION_LONG = 2,
    KORZHINAY_REFUSAL_TOKEN_BAD = 3,
    KORZHINAY_REFUSAL_LITERAL_LARGE = 4,
    KORZHINAY_REFUSAL_TOKENS_MANY = 5,
    KORZHINAY_REFUSAL_PARENTHESES_DEEP = 6,
    KORZHINAY_REFUSAL_NO_DERIVATION = 7,
    KORZHINAY_REFUSAL_BAR_OUTSIDE = 8,
    KORZHINAY_REFUSAL_PCD_MISSING = 9,
    KORZHINAY_REFUSAL_KINDS_UNSUITED = 10,
    KORZHINAY_REFUSAL_RESULT_RANGE = 11,
    KORZHINAY_REFUSAL_DIVISOR_ZERO = 12,
    KORZHINAY_REFUSAL_CONDITION_VALUE = 13,
    KORZHINAY_REFUSAL_FILE_LONG = 14,
    KORZHINAY_REFUSAL_LINES_MANY = 15,
    KORZHINAY_REFUSAL_MARKS_SHORT = 16,
    KORZHINAY_REFUSAL_LINE_LONG = 17,
    KORZHINAY_REFUSAL_WORD_UNKNOWN = 18,
    KORZHINAY_REFUSAL_DIRECTIVE_STRAY = 19,
    KORZHINAY_REFUSAL_NESTING_DEEP = 20,
    KORZHINAY_REFUSAL_FILE_UNFINISHED = 21,
    KORZHINAY_REFUSAL_TEXT_MALFORMED = 22,
    KORZHINAY_REFUSAL_DATUM_UNKNOWN = 23,
    KORZHINAY_REFUSAL_DATUM_KIND = 24,
    KORZHINAY_REFUSAL_DATUM_RANGE = 25,
    KORZHINAY_REFUSAL_BUFFER_SHORT = 26,
    KORZHINAY_REFUSAL_DEFINED_MANY = 27,
    KORZHINAY_REFUSAL_DEFINED_LONG = 28
};

/* The editions of the language, as the dialect of a call. */
enum korzhinay_dialect {
    KORZHINAY_EDITION_NEW = 0,
    KORZHINAY_EDITION_OLD = 1
};

/* Whether a table of settings is well formed: 0, or the refusal number 1.
 * A table is 0 to 512 records of 128 bytes and nothing else, the 64 bytes of their names strictly ascending. A record:
 *   0 to 63    the name, then zeros, of which a name of 64 bytes has none. A macro's name is A-Z, then A-Z, 0-9 and _; a PCD's is two
 *              runs of letters, digits and _ joined by a dot, neither starting with a digit
 *   64         the kind, one of enum korzhinay_kind
 *   65         the content's length: 8 for a number, 0 to 56 for a string
 *   66 to 71   zeros
 *   72 to 127  the content, then zeros; a number is little endian, a string any bytes */
uint8_t korzhinay_table(const uint8_t *table, size_t table_len);

/* Looks up a name in a table: 0 and the answer, or the refusal number 1 if the table is malformed; out then stays as it was. The name is
 * without padding and, if it is a macro's, without `$(` and `)`. Bytes that are no name, and names of more than 64 bytes, are in no table.
 *   out[0]  the kind, one of enum korzhinay_kind; 255 if there is no such name
 *   out[1]  the number; for a string, of either kind, the offset in the table at which its bytes start, also if it is empty; 0 if there is
 *           no such name
 *   out[2]  the string's length; 0 for a number and if there is no such name */
uint8_t korzhinay_lookup(const uint8_t *table, size_t table_len, const uint8_t *name, size_t name_len, uint64_t out[3]);

/* The tokens of an expression. Blanks (0x20, 0x09) are no tokens, and `#` outside quotes ends the expression.
 *   out[0]  0, or the refusal number: the first that applies, but of 3, 4 and 5 the leftmost:
 *            2  the expression is longer than 1,024 bytes
 *            3  no token can be read at some byte
 *            4  a number literal is above 2^64 - 1
 *            5  something follows token 200, a token or not; blanks and a comment may follow
 *            6  at some token `(` outnumber `)` by more than 16
 *   out[1]  how many tokens were read: all of them with 0 and 6, none with 2, those before the fault with 3 and 4, 200 with 5
 *   out[2]  the offset of the refusal; 0 without one, and for 2
 * The arrays hold of each token that was read: its code, one of enum korzhinay_code; its start, counted from 0; its length in bytes, quotes
 * and `L`, or `$(` and `)`, included; and the value of a number literal or a truth word (0 for any other). Entries from out[1] on stay as
 * they were. */
void korzhinay_tokens(const uint8_t *expression, size_t expression_len, uint8_t dialect, uint64_t out[3],
                      uint8_t codes[KORZHINAY_MAX_TOKENS], uint16_t starts[KORZHINAY_MAX_TOKENS],
                      uint16_t lens[KORZHINAY_MAX_TOKENS], uint64_t values[KORZHINAY_MAX_TOKENS]);

/* The codes of tokens. */
enum korzhinay_code {
    KORZHINAY_NUMBER = 0,
    KORZHINAY_TRUTH = 1,
    KORZHINAY_STRING = 2,
    KORZHINAY_WIDE = 3,
    KORZHINAY_MACRO = 4,
    KORZHINAY_PCD = 5,
    KORZHINAY_BARE = 6,           /* a bare word, in the old edition only */
    KORZHINAY_OPEN = 10,
    KORZHINAY_CLOSE = 11,
    KORZHINAY_QUESTION = 12,
    KORZHINAY_COLON = 13,
    KORZHINAY_NOT = 14,           /* ! NOT not */
    KORZHINAY_COMPLEMENT = 15,    /* ~ */
    KORZHINAY_PLUS = 16,
    KORZHINAY_MINUS = 17,
    KORZHINAY_TIMES = 18,
    KORZHINAY_DIVIDE = 19,
    KORZHINAY_REMAINDER = 20,
    KORZHINAY_SHIFT_LEFT = 21,
    KORZHINAY_SHIFT_RIGHT = 22,
    KORZHINAY_LESS = 23,          /* < LT */
    KORZHINAY_LESS_EQUAL = 24,    /* <= LE */
    KORZHINAY_GREATER = 25,       /* > GT */
    KORZHINAY_GREATER_EQUAL = 26, /* >= GE */
    KORZHINAY_EQUAL = 27,         /* == EQ */
    KORZHINAY_NOT_EQUAL = 28,     /* != NE */
    KORZHINAY_BIT_AND = 29,
    KORZHINAY_BIT_XOR = 30,
    KORZHINAY_BIT_OR = 31,
    KORZHINAY_AND = 32,           /* && AND and */
    KORZHINAY_XOR = 33,           /* XOR xor */
    KORZHINAY_OR_BARS = 34,       /* || */
    KORZHINAY_OR = 35             /* OR or */
};

/* The value of an expression under a table: 0 and the answer, or the refusal number, and then the first six numbers are 0.
 *   out[0]  the kind, one of enum korzhinay_kind
 *   out[1]  the number; 0 for a string, of either kind
 *   out[2]  how many operators were applied: every unary or binary one and every `?:` that was reached; those in skipped operands and
 *           parentheses do not count. It is less than the number of tokens
 *   out[3]  which of the caller's arrays holds the bytes of a string, one of enum korzhinay_memory; 0 for a number
 *   out[4]  the offset at which they start in it; 0 for a number. An empty string starts between its quotes, or at byte 72 of its record
 *   out[5]  how many bytes the string has, without quotes; 0 for a number
 *   out[6]  the offset of the refusal; 0 with a value, and for 1 and 2
 * Refusals; the first that applies is given, of 3, 4 and 5 the leftmost, of 11 and 12 the one that evaluation meets first:
 *    1  the table is malformed
 *    2  the expression is longer than 1,024 bytes
 *    3  no token can be read at some byte
 *    4  a number literal is above 2^64 - 1
 *    5  something follows token 200
 *    6  at some token `(` outnumber `)` by more than 16
 *    7  the tokens form no expression, or there are none
 *    8  `|` or `||` stands outside parentheses
 *    9  a PCD is not in the table, in an operand that evaluation would skip too; a macro that is not in it is the number 0
 *   10  an operator does not take operands of these kinds, in an operand that evaluation would skip too
 *   11  a result is below 0 or above 2^64 - 1; a left shift pushes a one out of the 64 bits
 *   12  zero divisor, of / or % */
uint8_t korzhinay_evaluate(const uint8_t *expression, size_t expression_len, const uint8_t *table, size_t table_len,
                           uint8_t dialect, uint64_t out[7]);

/* The kinds of a value. */
enum korzhinay_kind {
    KORZHINAY_KIND_NUMBER = 0,
    KORZHINAY_KIND_STRING = 1,
    KORZHINAY_KIND_WIDE = 2
};

/* The arrays that a string value can be a part of. */
enum korzhinay_memory {
    KORZHINAY_IN_EXPRESSION = 0,
    KORZHINAY_IN_TABLE = 1
};

/* The bytes of one PCD data field. With 0 the field is at the front of buffer, and the bytes after it stay as they were. With a refusal
 * every byte of buffer stays as it was.
 *   out[0]  how many bytes the field has; 0 with a refusal
 *   out[1]  the offset of the refusal; 0 without one, and for 1, 2 and 23 to 26
 * The field is a number in 1, 1, 2, 4 or 8 bytes, little endian, for BOOLEAN and UINT8 to UINT64; for VOID* it is a string and one
 * zero byte, or a wide string as two bytes for each of its own, that one and a zero, and two zero bytes.
 * A buffer of KORZHINAY_MAX_FIELD_BYTES is always enough.
 * Refusals: those of korzhinay_evaluate, 1 to 12; then the first of these that applies:
 *   23  datum is none of enum korzhinay_datum
 *   24  the value's kind does not suit the datum: a number for VOID*, or a string of either kind for any other
 *   25  the number is too large for the datum; for BOOLEAN it is above 1
 *   26  buffer is shorter than the field */
uint8_t korzhinay_field(uint8_t *buffer, size_t buffer_len, const uint8_t *expression, size_t expression_len,
                        const uint8_t *table, size_t table_len, uint8_t datum, uint8_t dialect, uint64_t out[2]);

/* The datum codes of a field. */
enum korzhinay_datum {
    KORZHINAY_DATUM_VOID = 0,
    KORZHINAY_DATUM_BOOLEAN = 1,
    KORZHINAY_DATUM_UINT8 = 2,
    KORZHINAY_DATUM_UINT16 = 3,
    KORZHINAY_DATUM_UINT32 = 4,
    KORZHINAY_DATUM_UINT64 = 5
};

/* Marks the lines of a description file: which are kept under a table of settings, which are dropped, and which are directives.
 * With 0 the first bytes of marks are the marks of the lines, one byte each, and those after the last line stay as they were. With a
 * refusal every byte of marks is 255, however many were lent.
 *   out[0]  the line of the refusal, counted from 1; 0 without one, and for 1, 14, 15 and 16, which have no line
 *   out[1]  how many lines the file has; 0 with a refusal
 *   out[2]  how many operators were applied, summed over all expressions that were read; 0 with a refusal
 *   out[3]  the offset of the refusal, counted from the first byte of its line; 0 without one, and for 1, 13 to 22, 27 and 28
 * A line ends at LF, and a CR right before that LF is part of the end. What follows the last LF is a line if it has any byte.
 * KORZHINAY_MAX_LINES marks are always enough.
 * A line whose first byte, blanks left out, is `!` has as its word the letters after it; case matters. It is a directive if the word is
 * if, ifdef, ifndef, elseif, elif (the same as elseif), else or endif. With the words include and error it is plain, as all other lines
 * are. !if and !elseif are true if the expression after them is 1, !ifdef if the macro of this name is set, whatever its value, !ifndef
 * if it is not. If a group is in no branch, or in a branch that is taken, its first branch that is true is taken, or that of its !else if
 * none is true; in any other group no branch is taken.
 * A plain line that is kept and has DEFINE as its first word (the whole run of letters, digits and _ at its first byte that is no blank)
 * sets a macro, from the next line on: after the word come blanks, the macro's name, `=` and an expression; blanks round `=` are free. The
 * value is that of the expression at this line. A later DEFINE of the same name overrides an earlier one, and what DEFINE lines set wins
 * over the table, for !ifdef and !ifndef too. In any other branch such a line is a plain line like others. The table itself stays as it is.
 * Refusals, of which the first that applies is given; before all lines:
 *    1  the table is malformed
 *   14  the file is longer than 65,536 bytes
 *   15  the file has more than 4,096 lines
 *   16  marks has fewer bytes than the file has lines
 * then, of the first line that has any:
 *   17  the line, plain or not, is longer than 1,024 bytes without its end
 *   18  the letters after `!` are none of the nine words above, or there are none; in a dropped branch too
 *   19  !elseif, !elif, !else or !endif without an open !if, !ifdef or !ifndef; or !elseif, !elif or !else after its group's !else;
 *       in a dropped branch too
 *   20  a 17th !if, !ifdef or !ifndef while 16 are open, in a dropped branch too
 *   22  what follows a word that is read is not what it takes: no blank directly after !if, !ifdef, !ifndef, !elseif or !elif;
 *       anything except one macro, as NAME or, in the old edition, $(NAME), after !ifdef or !ifndef; anything at all after !else or
 *       !endif; blanks and a comment are allowed. In a kept line with DEFINE as its first word: no blank after it, no macro's name of at
 *       most 64 bytes then, or no `=` after that
 *   3 to 12  an expression that is read, as korzhinay_evaluate refuses it; but never 8 in a directive, since `|` and `||` need no
 *       parentheses there: 9 to 12 are checked then; and never 2, since a line is too short for it. In a DEFINE line 8 is given
 *   13  the value of a directive's expression is neither the number 0 nor the number 1
 *   28  the value of a DEFINE line is a string of more than 56 bytes, of either kind
 *   27  a DEFINE line sets a 65th macro: one that none of the DEFINE lines before it set, while these set 64; the table does not count
 * and after the last line:
 *   21  an !if, !ifdef or !ifndef is still open; the line is that of the innermost one */
uint8_t korzhinay_select(uint8_t *marks, size_t marks_len, const uint8_t *file, size_t file_len, const uint8_t *table,
                         size_t table_len, uint8_t dialect, uint64_t out[4]);

/* The marks of lines. A directive is read if the outcome depends on it: if the branch around its group is taken or there is none and, for
 * !elseif and !elif, if no earlier branch of its group was taken. The lines that are kept have the marks 1 and 6. */
enum korzhinay_mark {
    KORZHINAY_MARK_DROPPED = 0,   /* a plain line in a branch that is not taken */
    KORZHINAY_MARK_KEPT = 1,      /* a plain line that is kept */
    KORZHINAY_MARK_UNREAD = 2,    /* a directive of which only the word was looked at */
    KORZHINAY_MARK_NOT_TAKEN = 3, /* a directive that was read; the branch after it is not taken */
    KORZHINAY_MARK_TAKEN = 4,     /* a directive that was read; the branch after it is taken */
    KORZHINAY_MARK_END = 5,       /* an !endif that was read */
    KORZHINAY_MARK_DEFINE = 6,    /* a plain line that is kept and sets a macro */
    KORZHINAY_MARK_REFUSED = 255  /* every byte of marks after a refusal */
};

/* What a refusal number means, for messages. */
static inline const char *korzhinay_meaning(uint8_t number)
{
    switch (number) {
    case 0: return "no refusal";
    case KORZHINAY_REFUSAL_TABLE_MALFORMED: return "the table of settings is malformed";
    case KORZHINAY_REFUSAL_EXPRESSION_LONG: return "the expression is longer than 1,024 bytes";
    case KORZHINAY_REFUSAL_TOKEN_BAD: return "no token can be read at some byte";
    case KORZHINAY_REFUSAL_LITERAL_LARGE: return "a number literal is above 2^64 - 1";
    case KORZHINAY_REFUSAL_TOKENS_MANY: return "something follows token 200";
    case KORZHINAY_REFUSAL_PARENTHESES_DEEP: return "at some token `(` outnumber `)` by more than 16";
    case KORZHINAY_REFUSAL_NO_DERIVATION: return "the tokens form no expression";
    case KORZHINAY_REFUSAL_BAR_OUTSIDE: return "`|` or `||` stands outside parentheses";
    case KORZHINAY_REFUSAL_PCD_MISSING: return "a PCD is not in the table";
    case KORZHINAY_REFUSAL_KINDS_UNSUITED: return "an operator does not take operands of these kinds";
    case KORZHINAY_REFUSAL_RESULT_RANGE: return "a result is below 0 or above 2^64 - 1";
    case KORZHINAY_REFUSAL_DIVISOR_ZERO: return "zero divisor";
    case KORZHINAY_REFUSAL_CONDITION_VALUE: return "a condition has to be the number 0 or the number 1";
    case KORZHINAY_REFUSAL_FILE_LONG: return "the file is longer than 65,536 bytes";
    case KORZHINAY_REFUSAL_LINES_MANY: return "the file has more than 4,096 lines";
    case KORZHINAY_REFUSAL_MARKS_SHORT: return "there are fewer marks than lines";
    case KORZHINAY_REFUSAL_LINE_LONG: return "the line is longer than 1,024 bytes";
    case KORZHINAY_REFUSAL_WORD_UNKNOWN: return "unknown directive";
    case KORZHINAY_REFUSAL_DIRECTIVE_STRAY: return "the directive has no open `!if`, or comes after its `!else`";
    case KORZHINAY_REFUSAL_NESTING_DEEP: return "16 groups are open already";
    case KORZHINAY_REFUSAL_FILE_UNFINISHED: return "this `!if` is still open at the end of the file";
    case KORZHINAY_REFUSAL_TEXT_MALFORMED: return "the text after the line's word is not what it takes";
    case KORZHINAY_REFUSAL_DATUM_UNKNOWN: return "unknown datum type";
    case KORZHINAY_REFUSAL_DATUM_KIND: return "the value's kind does not suit the datum type";
    case KORZHINAY_REFUSAL_DATUM_RANGE: return "the number is too large for the datum type";
    case KORZHINAY_REFUSAL_BUFFER_SHORT: return "the buffer is shorter than the field";
    case KORZHINAY_REFUSAL_DEFINED_MANY: return "DEFINE lines set more than 64 macros";
    case KORZHINAY_REFUSAL_DEFINED_LONG: return "DEFINE sets a string of more than 56 bytes";
    default: return "unknown refusal";
    }
}

#ifdef __cplusplus
}
#endif

#endif
