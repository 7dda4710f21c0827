/* How much stack some calls need. */
#ifndef STACK_H
#define STACK_H

#include "cases.h"

#include <pthread.h>
#include <string.h>

#define STACK_ROOM (1 << 20)
#define PAINT 0xa5

/* Makes the calls in a thread whose stack is painted first, and counts the bytes that lost their paint. */
static size_t stack_needed(void *(*calls)(void *), void *argument)
{
    static uint8_t stack[STACK_ROOM] __attribute__((aligned(4096)));
    pthread_attr_t attributes;
    pthread_t thread;
    size_t untouched = 0;
    memset(stack, PAINT, sizeof stack);
    require(pthread_attr_init(&attributes) == 0, "no thread attributes");
    require(pthread_attr_setstack(&attributes, stack, sizeof stack) == 0, "stack not taken");
    require(pthread_create(&thread, &attributes, calls, argument) == 0, "no thread");
    require(pthread_join(thread, NULL) == 0, "thread lost");
    while (untouched < sizeof stack && stack[untouched] == PAINT)
        untouched++;
    return sizeof stack - untouched;
}

#endif
