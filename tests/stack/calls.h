/* One call of the library, as data, so that it can be made on any stack; and what it answered. */
#ifndef CALLS_H
#define CALLS_H

#include "korzhinay.h"

enum which {
    CALL_TABLE,
    CALL_LOOKUP,
    CALL_TOKENS,
    CALL_EVALUATE,
    CALL_FIELD,
    CALL_SELECT,
    CALLS,            /* so many are exported */
    NO_CALL = CALLS,  /* makes none: what the test itself needs */
    SPEND             /* uses about `length` bytes of stack: the test tests itself */
};

struct call {
    enum which which;
    uint8_t datum;          /* of a field */
    uint8_t dialect;        /* of a call that takes one */
    const uint8_t *text;    /* the name, the expression or the file */
    size_t length;
    const uint8_t *table;
    size_t table_len;
};

/* Everything that any call writes; what a call does not write stays as it was before. */
struct answer {
    uint64_t returned, refusal, out[7], values[200];
    uint16_t starts[200], lens[200];
    uint8_t codes[200], buffer[2044], marks[4096];
};

/* Makes the call. The answer's bytes are set first, so that two answers can be compared byte by byte. */
void perform(const struct call *call, struct answer *answer);

/* Where the stack of the last call started: what lies below this address is the call's. */
extern const char *call_started;

const char *name_of(enum which which);

#endif
