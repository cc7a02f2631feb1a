#include "calls.h"

#include <stdio.h>
#include <stdlib.h>
#include <string.h>

#define LEVELS DHIIRQOBAAL_MAX_LEVELS
#define DEPTH DHIIRQOBAAL_MAX_DEPTH
#define MOST_CELLS ((size_t)DHIIRQOBAAL_MAX_SIDE * DHIIRQOBAAL_MAX_SIDE)
#define STREAM_BYTES (4 * MOST_CELLS)
#define NUMBERS ((size_t)4 * DHIIRQOBAAL_MAX_RECTANGLES)

static uint16_t *samples, *shown;
static int32_t *plane, *undone;
static uint8_t *region, *mask, *joined, *stream, *cut;
static uint32_t numbers[NUMBERS];
static uint64_t results[DHIIRQOBAAL_READ_RESULTS];
static size_t width, height, cells;
static size_t total, region_mark;

static uint64_t call_transform(size_t kernel)
{
    return dhiirqobaal_transform(kernel, LEVELS, DEPTH, width, height, samples, cells, plane, cells);
}

static uint64_t call_undo(size_t kernel)
{
    return dhiirqobaal_undo(kernel, LEVELS, width, height, plane, cells, undone, cells);
}

static uint64_t call_show(size_t kernel)
{
    (void)kernel;
    return dhiirqobaal_show(DEPTH, width, height, undone, cells, shown, cells);
}

static size_t area(size_t r)
{
    return DHIIRQOBAAL_SIDE(r, width) * DHIIRQOBAAL_SIDE(r, height);
}

/* At every level: how many are undone may decide how deep the call goes. */
static uint64_t call_show_level(size_t kernel)
{
    uint64_t refusal = DHIIRQOBAAL_ACCEPTED;
    for (size_t r = 0; r <= LEVELS && refusal == DHIIRQOBAAL_ACCEPTED; ++r) {
        refusal = dhiirqobaal_show_level(kernel, LEVELS, r, DEPTH, width, height, plane, cells, undone, area(r), shown,
                                         area(r));
    }
    return refusal;
}

static uint64_t call_region(size_t kernel)
{
    (void)kernel;
    return dhiirqobaal_region(numbers, NUMBERS, width, height, region, cells);
}

static uint64_t call_mask(size_t kernel)
{
    return dhiirqobaal_mask(kernel, LEVELS, width, height, region, cells, mask, cells);
}

static uint64_t call_join(size_t kernel)
{
    (void)kernel;
    return dhiirqobaal_join(width, height, region, cells, mask, cells, joined, cells);
}

static uint64_t call_brightness(size_t kernel)
{
    (void)kernel;
    return dhiirqobaal_brightness(width, height, shown, cells, region, cells, results, DHIIRQOBAAL_BRIGHTNESS_RESULTS);
}

static uint64_t call_truncate(size_t kernel)
{
    (void)kernel;
    return dhiirqobaal_truncate(0, width, height, mask, cells, plane, cells);
}

static uint64_t call_write(size_t kernel)
{
    uint64_t refusal = dhiirqobaal_write(plane, cells, numbers, NUMBERS, kernel, LEVELS, DEPTH, width, height, mask,
                                         cells, stream, STREAM_BYTES, results, DHIIRQOBAAL_WRITE_RESULTS);
    total = (size_t)results[DHIIRQOBAAL_WRITE_TOTAL];
    region_mark = (size_t)results[DHIIRQOBAAL_WRITE_REGION_MARK];
    return refusal;
}

/* Of a length field that says more than is there. */
static uint64_t call_arrived(size_t kernel)
{
    (void)kernel;
    stream[0] = UINT8_MAX;
    return dhiirqobaal_arrived(stream, total, results, DHIIRQOBAAL_ARRIVED_RESULTS);
}

static uint64_t call_header(size_t kernel)
{
    (void)kernel;
    return dhiirqobaal_header(stream, total, results, DHIIRQOBAAL_HEADER_RESULTS);
}

static uint64_t call_body(size_t kernel)
{
    (void)kernel;
    return dhiirqobaal_body(stream, total, results, DHIIRQOBAAL_BODY_RESULTS);
}

static uint64_t call_read(size_t kernel)
{
    (void)kernel;
    return dhiirqobaal_read(stream, total, plane, cells, mask, cells, results, DHIIRQOBAAL_READ_RESULTS);
}

static uint64_t call_show_stream(size_t kernel)
{
    uint64_t refusal = DHIIRQOBAAL_ACCEPTED;
    (void)kernel;
    for (size_t r = 0; r <= LEVELS && refusal == DHIIRQOBAAL_ACCEPTED; ++r) {
        refusal = dhiirqobaal_show_stream(stream, total, r, plane, cells, mask, cells, undone, area(r), shown, area(r),
                                          results, DHIIRQOBAAL_READ_RESULTS);
    }
    return refusal;
}

static uint64_t call_cut(size_t kernel)
{
    (void)kernel;
    return dhiirqobaal_cut(stream, total, region_mark, plane, cells, mask, cells, cut, STREAM_BYTES, results,
                           DHIIRQOBAAL_CUT_RESULTS);
}

static uint64_t call_version(size_t kernel)
{
    (void)kernel;
    return dhiirqobaal_version() != DHIIRQOBAAL_VERSION;
}

struct function functions[] = {
    {"transform", DHIIRQOBAAL_STACK_TRANSFORM, call_transform, 0, 0, 0},
    {"undo", DHIIRQOBAAL_STACK_UNDO, call_undo, 0, 0, 0},
    {"show", DHIIRQOBAAL_STACK_SHOW, call_show, 0, 0, 0},
    {"show_level", DHIIRQOBAAL_STACK_SHOW_LEVEL, call_show_level, 0, 0, 0},
    {"region", DHIIRQOBAAL_STACK_REGION, call_region, 0, 0, 0},
    {"mask", DHIIRQOBAAL_STACK_MASK, call_mask, 0, 0, 0},
    {"join", DHIIRQOBAAL_STACK_JOIN, call_join, 0, 0, 0},
    {"brightness", DHIIRQOBAAL_STACK_BRIGHTNESS, call_brightness, 0, 0, 0},
    {"truncate", DHIIRQOBAAL_STACK_TRUNCATE, call_truncate, 0, 0, 0},
    {"write", DHIIRQOBAAL_STACK_WRITE, call_write, 0, 0, 0},
    {"arrived", DHIIRQOBAAL_STACK_ARRIVED, call_arrived, 0, 0, 0},
    {"header", DHIIRQOBAAL_STACK_HEADER, call_header, 0, 0, 0},
    {"body", DHIIRQOBAAL_STACK_BODY, call_body, 0, 0, 0},
    {"read", DHIIRQOBAAL_STACK_READ, call_read, 0, 0, 0},
    {"show_stream", DHIIRQOBAAL_STACK_SHOW_STREAM, call_show_stream, 0, 0, 0},
    {"cut", DHIIRQOBAAL_STACK_CUT, call_cut, 0, 0, 0},
    {"version", DHIIRQOBAAL_STACK_VERSION, call_version, 0, 0, 0},
};
const size_t function_count = sizeof functions / sizeof *functions;

static void *room(size_t count, size_t bytes)
{
    void *memory = calloc(count, bytes);
    if (memory == NULL) {
        fputs("no memory\n", stderr);
        exit(1);
    }
    return memory;
}

void get_buffers(void)
{
    samples = room(MOST_CELLS, sizeof *samples);
    shown = room(MOST_CELLS, sizeof *shown);
    plane = room(MOST_CELLS, sizeof *plane);
    undone = room(MOST_CELLS, sizeof *undone);
    region = room(MOST_CELLS, 1);
    mask = room(MOST_CELLS, 1);
    joined = room(MOST_CELLS, 1);
    stream = room(STREAM_BYTES, 1);
    cut = room(STREAM_BYTES, 1);
}

/*
 * Broad stripes of two values: few bit planes, so that writing and reading are quick. The rectangles are small, since few
 * marks in a large picture take the most stack.
 */
void draw(size_t w, size_t h)
{
    width = w;
    height = h;
    cells = w * h;
    for (size_t i = 0; i < cells; ++i) {
        samples[i] = (uint16_t)((i % w + i / w) / 8 % 2);
    }
    for (size_t i = 0; i < DHIIRQOBAAL_MAX_RECTANGLES; ++i) {
        numbers[4 * i] = (uint32_t)(w * i / 34);
        numbers[4 * i + 1] = (uint32_t)(h * i / 34);
        numbers[4 * i + 2] = (uint32_t)(w / 200 + 1);
        numbers[4 * i + 3] = (uint32_t)(h / 200 + 1);
    }
}
