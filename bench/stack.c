/* A thread is given a stack that is filled with one byte; what is no longer that byte after a call was written. */
#include "stack.h"
#include <pthread.h>
#include <stdint.h>
#include <stdio.h>
#include <stdlib.h>
#include <string.h>

enum { ROOM = 4 << 20, FILL = 0xa5, GOAL = 190 << 10 };

static void *nothing(void *unused)
{
    return unused;
}

/* How much of a stack of its own a thread with this function writes. */
static size_t written(void *function(void *))
{
    uint8_t *stack = aligned_alloc(4096, ROOM);
    pthread_attr_t attributes;
    pthread_t thread;
    memset(stack, FILL, ROOM);
    pthread_attr_init(&attributes);
    pthread_attr_setstack(&attributes, stack, ROOM);
    if (pthread_create(&thread, &attributes, function, NULL)) {
        fprintf(stderr, "no thread\n");
        exit(1);
    }
    pthread_join(thread, NULL);
    size_t untouched = 0;
    while (untouched < ROOM && stack[untouched] == FILL)
        untouched++;
    pthread_attr_destroy(&attributes);
    free(stack);
    return ROOM - untouched;
}

bool print_stack(const char *name, void *call(void *), void use(bool library))
{
    size_t none = written(nothing);
    use(false);
    size_t handed = written(call);
    use(true);
    size_t whole = written(call);
    bool met = whole - none < GOAL;
    printf("%-10s %7.1f   with what is handed over by value %7.1f   goal: under %d%s\n", name, (double)(whole - handed) / 1024,
           (double)(whole - none) / 1024, GOAL / 1024, met ? "" : ", missed");
    return met;
}
