/* threads.h: calls on threads whose stack is painted, or ends exactly where it was asked to. */
#ifndef THREADS_H
#define THREADS_H

#include <stddef.h>

typedef void work(void *argument);

/* Does the work on a thread with a painted stack; gives the bytes of it that were written. */
size_t stack_taken(work *work, void *argument);

/* Does the work on a thread that has this many bytes of stack and no page after them. */
void on_stack_of(size_t asked, work *work, void *argument);

#endif
