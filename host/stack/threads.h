/* Calls on a thread of their own. Each ends the program where there is no thread or no memory for its stack. */
#ifndef THREADS_H
#define THREADS_H

#include "calls.h"

/* Calls on a painted stack, and notes in the function how deep the call went and whether it was refused. */
void measure(struct function *function, size_t kernel);

/* How a call ended. */
enum ending { RETURNED, REFUSED, KILLED };

/*
 * Calls in a child process, on a thread that has at most `bytes` and SPARE_BYTES more of stack left for the call; below
 * them lies a page that cannot be used. KILLED says that the call went there.
 */
#define SPARE_BYTES 512 /* they also hold the frame of the function that makes the call */
enum ending call_on_little(const struct function *function, size_t kernel, size_t bytes);

#endif
