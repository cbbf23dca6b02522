/* No call needs more stack than the header names. Every exported call is made on the deepest inputs that the limits allow: in a thread with
 * just that much stack for it, where the answer has to be the one of the main thread; and on a painted stack, which shows how much was used.
 * The last line is 'N passed, M failed'. */
#include "inputs.h"
#include "shapes.h"
#include "stacks.h"
#include <stdio.h>
#include <string.h>

/* The most that any input may be seen to use. */
#define MOST_SEEN 33792
/* The header names at least so many hundredths of what was seen. */
#define MARGIN 125

static int passed, failed;

static void check(int good, const char *what)
{
    if (good)
        passed++;
    else {
        failed++;
        printf("FAILED %s\n", what);
    }
}

static void print_bytes(const uint8_t *bytes, size_t length)
{
    for (size_t i = 0; i < length; i++)
        if (bytes[i] == '\n')
            printf("\\n");
        else if (bytes[i] < ' ' || bytes[i] > '~')
            printf("\\x%02x", bytes[i]);
        else
            putchar(bytes[i]);
    putchar('\n');
}

/* So many bytes of an input are shown, from its end: a file with one expression has it there. */
#define SHOWN 2000

static void print_call(const char *shape, const struct call *call)
{
    size_t left_out = call->length > SHOWN ? call->length - SHOWN : 0;
    printf("  %s, %s, a table of %zu bytes, dialect %d:\n    ", name_of(call->which), shape, call->table_len, call->dialect);
    if (left_out > 0)
        printf("(%zu bytes) ", left_out);
    print_bytes(call->text + left_out, call->length - left_out);
}

/* Only the first few failures are told in full: a library with one fault fails on nearly every input. */
#define TOLD 3

static void in_small_thread(const char *shape, const struct call *calls, size_t count)
{
    static const char *const outcomes[] = {
        [OTHER_ANSWERS] = "gives another answer in a thread with the stack that the header names",
        [DIED] = "dies in a thread with the stack that the header names",
        [NO_THREAD] = "could not be tried: there is no thread with the stack that the header names",
    };
    enum outcome outcome = in_thread(calls, count, KORZHINAY_STACK);
    if (outcome == SAME_ANSWERS) {
        passed++;
        return;
    }
    if (failed++ < TOLD) {
        printf("FAILED one of %zu calls %s\n", count, outcomes[outcome]);
        print_call(shape, &calls[count - 1]);
    }
}

static void thread_on(const char *shape, const struct expression *e)
{
    struct call calls[MOST_CALLS];
    size_t count = calls_on(e, calls);
    in_small_thread(shape, calls, count);
}

/* The most that each call was seen to use, and on what. */
static struct {
    size_t used;
    struct call call;
    const char *shape;
    uint8_t text[KORZHINAY_MAX_FILE_BYTES + 1];
} deepest[CALLS];

static long measured;

static size_t measure(const char *shape, const struct call *call)
{
    static struct answer answer;
    size_t used = stack_used(call, &answer);
    measured++;
    if (used > deepest[call->which].used) {
        deepest[call->which].used = used;
        deepest[call->which].call = *call;
        deepest[call->which].shape = shape;
        /* The text itself does not stay. */
        if (call->length > 0)
            memcpy(deepest[call->which].text, call->text, call->length);
        deepest[call->which].call.text = deepest[call->which].text;
    }
    return used;
}

static void measure_all(const char *shape, const struct call *calls, size_t count)
{
    for (size_t i = 0; i < count; i++)
        measure(shape, &calls[i]);
}

static void measure_on(const char *shape, const struct expression *e)
{
    struct call calls[MOST_CALLS];
    measure_all(shape, calls, calls_on(e, calls));
}

static size_t deepest_found;

static size_t depth(const struct expression *e)
{
    struct call call = file_of(e);
    size_t used = measure("found by search", &call);
    if (used > deepest_found)
        deepest_found = used;
    return used;
}

static void both_on(const char *shape, const struct expression *e)
{
    measure_on(shape, e);
    thread_on(shape, e);
}

/* What is known to fit or not to fit shows that the test can tell. */
static void check_the_test(void)
{
    static struct answer answer;
    struct call fits = {.which = SPEND, .length = KORZHINAY_STACK - 512}, does_not = {.which = SPEND, .length = KORZHINAY_STACK + 512};
    size_t used = stack_used(&fits, &answer);
    check(used >= fits.length && used < fits.length + 256, "the painted stack shows what is used");
    check(in_thread(&fits, 1, KORZHINAY_STACK) == SAME_ANSWERS, "a thread has the stack that it is to have");
    check(in_thread(&does_not, 1, KORZHINAY_STACK) == DIED, "a thread has no more stack than it is to have");
}

/* The macros of the files are set: otherwise all of these would be refused, and show nothing. */
static void check_the_macros(void)
{
    static struct answer answer;
    struct call call = all_macros("DEFINE X = 2");
    perform(&call, &answer);
    check(answer.refusal == 0, "as many macros as there can be");
    size_t set = 0, taken = 0;
    for (size_t i = 0; i < sizeof answer.marks; i++) {
        set += answer.marks[i] == KORZHINAY_MARK_DEFINE;
        taken += answer.marks[i] == KORZHINAY_MARK_TAKEN;
    }
    check(set == KORZHINAY_MAX_DEFINED + 1, "each of them is set, and one again");
    check(taken == KORZHINAY_MAX_DEFINED - 2, "those with long names have the values that they were set to");
    call = all_macros("DEFINE Y = 2");
    perform(&call, &answer);
    check(answer.refusal == KORZHINAY_REFUSAL_DEFINED_MANY, "and there can be no more");
}

static void report(void)
{
    size_t most = CALL_TABLE;
    for (size_t i = 0; i < CALLS; i++) {
        printf("%-20s %6zu bytes\n", name_of(i), deepest[i].used);
        if (deepest[i].used > deepest[most].used)
            most = i;
    }
    printf("search alone found   %5zu bytes\n", deepest_found);
    printf("the deepest of %ld calls used %zu bytes of stack; the header names %d\n", measured, deepest[most].used, KORZHINAY_STACK);
    print_call(deepest[most].shape, &deepest[most].call);
    check(deepest[most].used <= MOST_SEEN, "no call is seen to use more than 33,792 bytes");
    check(deepest[most].used * MARGIN <= (size_t)KORZHINAY_STACK * 100, "the header names at least 1.25 times what was seen");
}

int main(void)
{
    make_tables();
    check_the_test();
    /* Threads come first: no call was made yet in the process that they start from, so each binds memset anew if binding is late. */
    each_shape(thread_on);
    each_other(in_small_thread);
    each_shape(measure_on);
    each_other(measure_all);
    each_soup(measure_on);
    search(depth, both_on);
    check_the_macros();
    report();
    printf("%d passed, %d failed\n", passed, failed);
    return failed != 0;
}
