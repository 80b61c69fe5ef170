// Runs a function on a thread with a stack of a given size.
#ifndef ON_STACK_H
#define ON_STACK_H

#include <pthread.h>
#include <stddef.h>
#include <stdio.h>
#include <stdlib.h>

// The stack is this memory, from its lowest byte on; or the system's own, of exactly this size, right above memory that nobody may touch, where it is null.
static void on_stack(void *lowest, size_t size, void *(*function)(void *))
{
    pthread_attr_t attributes;
    pthread_t thread;
    int failed = pthread_attr_init(&attributes);
    failed = failed || (lowest ? pthread_attr_setstack(&attributes, lowest, size) : pthread_attr_setstacksize(&attributes, size));
    failed = failed || pthread_create(&thread, &attributes, function, NULL) || pthread_join(thread, NULL);
    if (failed) {
        fprintf(stderr, "no thread with a stack of %lu bytes\n", (unsigned long)size);
        exit(1);
    }
}

#endif
