/*
 * Measures how much of the stack each function of the C interface uses on pictures of 4,096 by 4,096 and on those
 * with the longest odd rows and columns, with five levels: the largest number over these sizes and the four kernels. A
 * call runs on a thread of its own; its stack is painted with a pattern first, and the lowest place where the pattern
 * is gone afterwards is how deep the call went. On the odd sizes each function is then called a second time, on a thread
 * that has little more left than the bytes that dhiirqobaal.h states: deeper, it would be killed.
 * The last line is 'N passed, M failed': a function passes if it was measured to keep within the stated bytes, and once
 * more if it returned on every such thread. A call that is left half of what it uses has to be killed.
 */
#include <stdio.h>

#include "threads.h"

static int passed, failed;

static void expect(int right, const char *name, const char *step)
{
    if (right) {
        ++passed;
    } else {
        ++failed;
        printf("wrong: %s: %s\n", name, step);
    }
}

/* Every function under every kernel, on one size. */
static void run_all(size_t w, size_t h, int on_little)
{
    draw(w, h);
    for (size_t kernel = 0; kernel < KERNELS; ++kernel) {
        for (size_t i = 0; i < function_count; ++i) {
            struct function *f = &functions[i];
            measure(f, kernel);
            if (on_little && call_on_little(f, kernel, f->limit) != RETURNED) {
                f->died = 1;
            }
        }
    }
}

int main(void)
{
    get_buffers();
    run_all(DHIIRQOBAAL_MAX_SIDE, DHIIRQOBAAL_MAX_SIDE, 0);
    run_all(DHIIRQOBAAL_MAX_SIDE - 1, 257, 1);
    run_all(257, DHIIRQOBAAL_MAX_SIDE - 1, 1);
    puts("| function | bytes of stack | limit, bytes |\n|:--|---:|---:|");
    for (size_t i = 0; i < function_count; ++i) {
        printf("| %s | %zu | %zu |\n", functions[i].name, functions[i].deepest, functions[i].limit);
    }
    for (size_t i = 0; i < function_count; ++i) {
        const struct function *f = &functions[i];
        expect(!f->refused && f->deepest <= f->limit, f->name, f->refused ? "refused" : "above its limit");
        expect(!f->died, f->name, "killed or refused on a thread with little more than its limit");
    }
    expect(call_on_little(&functions[0], 0, functions[0].deepest / 2) == KILLED, functions[0].name,
           "not killed on a thread with half of what it uses");
    printf("%d passed, %d failed\n", passed, failed);
    return failed != 0;
}
