#include "calls.h"
#include <string.h>

const char *call_started;

/* This frame is opened where the call's will be. Its address lies two words below that: the place to return to comes first, then the
 * address of the caller's frame. Both count as the call's. */
static __attribute__((noinline)) void note_start(void)
{
    call_started = (const char *)__builtin_frame_address(0) + 2 * sizeof(void *);
}

/* Writes to the lowest of so many bytes of the stack. */
static __attribute__((noinline)) void spend(size_t count)
{
    char room[count + 1];
    *(volatile char *)room = 1;
}

static const char *const names[] = {
    "korzhinay_table", "korzhinay_lookup", "korzhinay_tokens", "korzhinay_evaluate", "korzhinay_field", "korzhinay_select", "none", "spend",
};

const char *name_of(enum which which)
{
    return names[which];
}

/* Never inlined: note_start and the call have to start from one frame. */
__attribute__((noinline)) void perform(const struct call *call, struct answer *a)
{
    memset(a, 0xA5, sizeof *a);
    note_start();
    switch (call->which) {
    case CALL_TABLE:
        a->refusal = korzhinay_table(call->table, call->table_len);
        break;
    case CALL_LOOKUP:
        a->refusal = korzhinay_lookup(call->table, call->table_len, call->text, call->length, a->out);
        break;
    case CALL_TOKENS:
        korzhinay_tokens(call->text, call->length, call->dialect, a->out, a->codes, a->starts, a->lens, a->values);
        break;
    case CALL_EVALUATE:
        a->refusal = korzhinay_evaluate(call->text, call->length, call->table, call->table_len, call->dialect, a->out);
        break;
    case CALL_FIELD:
        a->refusal = korzhinay_field(a->buffer, sizeof a->buffer, call->text, call->length, call->table, call->table_len, call->datum,
                                     call->dialect, a->out);
        break;
    case CALL_SELECT:
        a->refusal = korzhinay_select(a->marks, sizeof a->marks, call->text, call->length, call->table, call->table_len, call->dialect,
                                      a->out);
        break;
    case NO_CALL:
        break;
    case SPEND:
        spend(call->length);
    }
    /* Written after the call, which can therefore not take this frame's place. */
    a->returned = 1;
}
