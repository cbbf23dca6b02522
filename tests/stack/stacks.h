/* Stacks to make calls on: one that shows how much of it a call used, and one that has just so many bytes for it. */
#ifndef STACKS_H
#define STACKS_H

#include "calls.h"

/* How many bytes of stack a call used: from where it started to the lowest byte that it wrote to. */
size_t stack_used(const struct call *call, struct answer *answer);

enum outcome { SAME_ANSWERS, OTHER_ANSWERS, DIED, NO_THREAD };

/* Makes the calls in a thread that has `room` bytes of stack for each, and then again on the main thread, in a process of its own, since a
 * thread without enough stack takes the process with it. */
enum outcome in_thread(const struct call *calls, size_t count, size_t room);

#endif
