/* The stack that a function needs: it runs in a thread whose stack was filled beforehand, and the deepest byte changed is looked for. */
#define _POSIX_C_SOURCE 200809L
#include <pthread.h>
#include <stddef.h>
#include <stdint.h>
#include <string.h>

#define FILL 0xA7

struct job {
    void (*run)(void *);
    void *context;
    uintptr_t top; /* where the function's own frames begin */
};

static void *work(void *argument)
{
    struct job *job = argument;
    volatile uint8_t here = 0;
    job->top = (uintptr_t)&here;
    job->run(job->context);
    return NULL;
}

/* The bytes between the call of `run` and the deepest byte changed; 0 where the thread cannot be made. */
uint64_t cs_used(void (*run)(void *), void *context, uint8_t *stack, size_t size)
{
    struct job job = {run, context, 0};
    pthread_attr_t attributes;
    pthread_t thread;
    size_t deepest = 0;

    memset(stack, FILL, size);
    if (pthread_attr_init(&attributes) != 0)
        return 0;
    if (pthread_attr_setstack(&attributes, stack, size) != 0 || pthread_create(&thread, &attributes, work, &job) != 0) {
        pthread_attr_destroy(&attributes);
        return 0;
    }
    pthread_join(thread, NULL);
    pthread_attr_destroy(&attributes);
    while (deepest < size && stack[deepest] == FILL)
        deepest++;
    return (uint64_t)(job.top - (uintptr_t)(stack + deepest));
}
