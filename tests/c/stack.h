/* How much stack calls take: a run on a stack of its own, of which it is seen afterwards what was touched. */
#ifndef STACK_H
#define STACK_H

#include <stddef.h>

/* Tells from where to count: the frame of the function that makes the calls. Not the place of one of its
 * variables, which a sanitizer may keep elsewhere. */
void count_stack_from(const void *frame);
#define COUNT_STACK_FROM_HERE() count_stack_from(__builtin_frame_address(0))

/* Runs it on a stack full of one octet. Gives how many octets there are from the place counted from down to
 * the lowest one that was changed; 0 where nothing was counted from. */
size_t stack_taken_by(void (*run)(void));

#endif
