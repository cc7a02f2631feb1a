#define _DEFAULT_SOURCE
#include "threads.h"

#include <pthread.h>
#include <stdio.h>
#include <stdlib.h>
#include <sys/mman.h>
#include <sys/resource.h>
#include <sys/wait.h>
#include <unistd.h>

#define STACK_BYTES ((size_t)1 << 20)
#define OWN_WORDS 32 /* below a local variable of the painting function itself, so not painted but counted */
#define PATTERN UINT64_C(0x9e3779b97f4a7c15)

/* The one call that is being made. */
static struct {
    const struct function *function;
    size_t kernel;
    size_t bytes;    /* of stack that are left for it, where they are little */
    size_t deepest;  /* bytes of stack that it used, where it was measured */
    uint64_t answer; /* 0 where it was accepted */
} job;

static void stop(const char *reason)
{
    fprintf(stderr, "%s\n", reason);
    exit(1);
}

/* The lowest word of the stack; the page below it cannot be used. */
static uint64_t *stack_floor(void)
{
    static char *memory;
    size_t page = (size_t)sysconf(_SC_PAGESIZE);
    if (memory == NULL) {
        memory = mmap(NULL, page + STACK_BYTES, PROT_READ | PROT_WRITE, MAP_PRIVATE | MAP_ANONYMOUS, -1, 0);
        if (memory == MAP_FAILED || mprotect(memory, page, PROT_NONE) != 0) {
            stop("no memory for a stack");
        }
    }
    return (uint64_t *)(void *)(memory + page);
}

static void run_thread(void *(*work)(void *), const struct function *function, size_t kernel)
{
    pthread_attr_t attributes;
    pthread_t thread;
    job.function = function;
    job.kernel = kernel;
    if (pthread_attr_init(&attributes) != 0 || pthread_attr_setstack(&attributes, stack_floor(), STACK_BYTES) != 0 ||
        pthread_create(&thread, &attributes, work, NULL) != 0 || pthread_join(thread, NULL) != 0) {
        stop("no thread on the prepared stack");
    }
    pthread_attr_destroy(&attributes);
}

/* Paints what lies below this frame, calls, and looks for the lowest word that is no longer painted. */
static void *paint_and_call(void *unused)
{
    volatile uint64_t *stack = stack_floor();
    volatile uint64_t here = 0;
    size_t top = (size_t)(&here - stack);
    size_t word;
    for (word = 0; word < top - OWN_WORDS; ++word) {
        stack[word] = PATTERN;
    }
    job.answer = job.function->call(job.kernel);
    for (word = 0; word < top && stack[word] == PATTERN; ++word) {
    }
    job.deepest = (top - word) * sizeof *stack;
    return unused;
}

void measure(struct function *function, size_t kernel)
{
    run_thread(paint_and_call, function, kernel);
    if (job.answer != DHIIRQOBAAL_ACCEPTED) {
        function->refused = 1;
    }
    if (job.deepest > function->deepest) {
        function->deepest = job.deepest;
    }
}

/* Uses up so many bytes of the stack, then calls. Kept out of line, so that the bytes lie below the caller's frame. */
__attribute__((noinline)) static void use_up_and_call(size_t bytes)
{
    volatile char used[bytes];
    size_t left = (size_t)(&used[0] - (volatile char *)stack_floor());
    used[0] = 1;
    if (left > job.bytes + SPARE_BYTES) {
        stop("too much of the stack is left");
    }
    job.answer = job.function->call(job.kernel);
    used[0] = 0; /* the bytes are in use until here */
}

static void *call_below(void *unused)
{
    volatile char here = 0;
    size_t left = (size_t)(&here - (volatile char *)stack_floor());
    use_up_and_call(left - job.bytes - SPARE_BYTES);
    return unused;
}

enum ending call_on_little(const struct function *function, size_t kernel, size_t bytes)
{
    const struct rlimit no_core = {0, 0};
    int status;
    pid_t child = fork();
    if (child == 0) {
        setrlimit(RLIMIT_CORE, &no_core);
        job.bytes = bytes;
        run_thread(call_below, function, kernel);
        _exit(job.answer == DHIIRQOBAAL_ACCEPTED ? RETURNED : REFUSED);
    }
    if (child < 0 || waitpid(child, &status, 0) != child) {
        stop("no child process");
    }
    return WIFEXITED(status) ? WEXITSTATUS(status) == RETURNED ? RETURNED : REFUSED : KILLED;
}
