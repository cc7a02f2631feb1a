/* One call of each function of the C interface, on pictures of any size, with buffers that are there beforehand. */
#ifndef CALLS_H
#define CALLS_H

#include "dhiirqobaal.h"

#define KERNELS 4

struct function {
    const char *name;
    size_t limit;                    /* bytes of stack, as dhiirqobaal.h states them */
    uint64_t (*call)(size_t kernel); /* 0 where the call was accepted */
    size_t deepest;                  /* bytes of stack, as measured */
    int refused;                     /* a measured call was */
    int died;                        /* on a thread with little more than the limit */
};

/* In an order in which each call finds what it needs in the buffers. */
extern struct function functions[];
extern const size_t function_count;

/* Gets the buffers, for the largest picture; ends the program where there is no memory. */
void get_buffers(void);

/* Draws a picture with as many rectangles as there may be, for the calls that follow. */
void draw(size_t w, size_t h);

#endif
