/* A stack that is painted: what a call writes to has another colour afterwards. */
#define _GNU_SOURCE
#include "stacks.h"
#include <stdio.h>
#include <stdlib.h>
#include <sys/mman.h>
#include <ucontext.h>

/* More than any call is thought to need, many times over; below it a page that nothing may touch. */
#define ROOM (256 * 1024)
#define GUARD 4096
#define WORDS (ROOM / sizeof(uint64_t))
/* No small number and no address, so that no call writes it by chance. */
#define PAINT UINT64_C(0xC3A5965AE17B4D2F)

static uint64_t *stack;
static ucontext_t around, inside;
static const struct call *asked;
static struct answer *answered;

static void prepare(void)
{
    char *memory = mmap(NULL, GUARD + ROOM, PROT_READ | PROT_WRITE, MAP_PRIVATE | MAP_ANONYMOUS, -1, 0);
    if (memory == MAP_FAILED || mprotect(memory, GUARD, PROT_NONE) != 0) {
        perror("a painted stack");
        exit(2);
    }
    stack = (uint64_t *)(memory + GUARD);
    for (size_t i = 0; i < WORDS; i++)
        stack[i] = PAINT;
}

static void on_painted_stack(void)
{
    perform(asked, answered);
}

size_t stack_used(const struct call *call, struct answer *answer)
{
    if (stack == NULL)
        prepare();
    asked = call;
    answered = answer;
    getcontext(&inside);
    inside.uc_stack.ss_sp = stack;
    inside.uc_stack.ss_size = ROOM;
    inside.uc_link = &around;
    makecontext(&inside, on_painted_stack, 0);
    swapcontext(&around, &inside);

    size_t lowest = 0;
    while (lowest < WORDS && stack[lowest] == PAINT)
        lowest++;
    const char *end = (const char *)(stack + lowest);
    for (size_t i = lowest; i < WORDS; i++)
        stack[i] = PAINT;
    return end < call_started ? (size_t)(call_started - end) : 0;
}
