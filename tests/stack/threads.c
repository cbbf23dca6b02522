/* A thread with just so many bytes of stack for a call.
 *
 * The size that one asks pthread for is not what a call finds: glibc takes the thread's own data and thread-local storage from the same
 * memory, and the functions that lead to the call have frames. How much that is differs between machines, so it is measured, in a thread
 * that makes no call, and added to what the call is to have. The memory is the test's own: pthread_attr_setstacksize would round it up to
 * pages. A page that nothing may touch lies right below its lowest byte, so one byte too many ends the process. */
#define _GNU_SOURCE
#include "stacks.h"
#include <pthread.h>
#include <string.h>
#include <sys/mman.h>
#include <sys/wait.h>
#include <unistd.h>

#define GUARD 4096
/* More than a thread by itself uses. */
#define ENOUGH (256 * 1024)
/* glibc aligns what it takes; sizes that differ by multiples of this leave it in the same place. */
#define STEP 64

struct job {
    const struct call *calls;
    size_t count;
    struct answer *answers;
    const char *started; /* where the stack of its calls starts */
};

static void *work(void *given)
{
    struct job *job = given;
    for (size_t i = 0; i < job->count; i++)
        perform(&job->calls[i], &job->answers[i]);
    job->started = call_started;
    return NULL;
}

/* Does the job in a thread with a stack of so many bytes, and gives how many of them its calls had; 0 if there is no such thread. */
static size_t with_stack(struct job *job, size_t size)
{
    char *memory = mmap(NULL, GUARD + size, PROT_READ | PROT_WRITE, MAP_PRIVATE | MAP_ANONYMOUS, -1, 0);
    pthread_attr_t attributes;
    pthread_t thread;
    if (memory == MAP_FAILED || mprotect(memory, GUARD, PROT_NONE) != 0 || pthread_attr_init(&attributes) != 0)
        return 0;
    if (pthread_attr_setstack(&attributes, memory + GUARD, size) != 0 || pthread_create(&thread, &attributes, work, job) != 0)
        return 0;
    pthread_join(thread, NULL);
    pthread_attr_destroy(&attributes);
    munmap(memory, GUARD + size);
    return (size_t)(job->started - (memory + GUARD));
}

static enum outcome compare(const struct call *calls, size_t count, size_t room)
{
    static struct answer here[64], there[64];
    static const struct call none = {.which = NO_CALL};
    struct job empty = {&none, 1, there, NULL}, job = {calls, count, there, NULL};
    size_t left = with_stack(&empty, ENOUGH);
    if (count > 64 || left == 0)
        return NO_THREAD;
    size_t size = (room + (ENOUGH - left) + STEP - 1) / STEP * STEP;
    size_t had = with_stack(&job, size);
    if (had < room || had >= room + STEP)
        return NO_THREAD;
    for (size_t i = 0; i < count; i++)
        perform(&calls[i], &here[i]);
    return memcmp(here, there, count * sizeof here[0]) == 0 ? SAME_ANSWERS : OTHER_ANSWERS;
}

enum outcome in_thread(const struct call *calls, size_t count, size_t room)
{
    int status;
    pid_t child = fork();
    if (child == 0)
        _exit(compare(calls, count, room));
    if (child < 0 || waitpid(child, &status, 0) != child)
        return NO_THREAD;
    return WIFEXITED(status) ? (enum outcome)WEXITSTATUS(status) : DIED;
}
