/* See stack.h. */
#define _GNU_SOURCE /* MAP_ANONYMOUS */
#include "stack.h"

#include <pthread.h>
#include <stdint.h>
#include <stdio.h>
#include <stdlib.h>
#include <string.h>
#include <sys/mman.h>

enum { STACK_LENGTH = 1 << 20, PAINT = 0xd7 };

static uintptr_t counted_from;

void count_stack_from(const void *frame)
{
    counted_from = (uintptr_t)frame;
}

static void *run_it(void *argument)
{
    void (**run)(void) = argument;
    (*run)();
    return NULL;
}

static void need(int met, const char *what)
{
    if (!met) {
        fprintf(stderr, "%s failed\n", what);
        exit(2);
    }
}

size_t stack_taken_by(void (*run)(void))
{
    pthread_attr_t attributes;
    pthread_t thread;
    uint8_t *stack = mmap(NULL, STACK_LENGTH, PROT_READ | PROT_WRITE, MAP_PRIVATE | MAP_ANONYMOUS, -1, 0);
    need(stack != MAP_FAILED, "mmap");
    memset(stack, PAINT, STACK_LENGTH);
    need(pthread_attr_init(&attributes) == 0, "pthread_attr_init");
    need(pthread_attr_setstack(&attributes, stack, STACK_LENGTH) == 0, "pthread_attr_setstack");
    need(pthread_create(&thread, &attributes, run_it, &run) == 0, "pthread_create");
    need(pthread_join(thread, NULL) == 0, "pthread_join");
    const uint8_t *lowest = stack;
    while (lowest < stack + STACK_LENGTH && *lowest == PAINT)
        lowest++;
    if (counted_from == 0)
        return 0;
    uintptr_t from = (uintptr_t)lowest, to = (uintptr_t)stack + STACK_LENGTH;
    need(counted_from > from && counted_from < to, "counting the stack");
    return counted_from - from;
}
