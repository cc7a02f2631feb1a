/* What the parts of the example share: the verdict, and the worked streams of docs/FORMAT.md. */
#ifndef WORKED_H
#define WORKED_H

#include "dhiirqobaal.h"

/* Counts a step, and names it where it is wrong. */
void expect(int right, const char *step);

/* A picture of depth 8, what it is written under, and its stream. */
struct shot {
    const char *name;
    size_t kernel, levels, w, h;
    const uint16_t *samples;
    const uint32_t *numbers; /* the rectangles' */
    size_t numbers_len;
    const uint8_t *stream;
    size_t length, region_mark;
    uint64_t planes; /* T */
};

#define STALE 77 /* in cells that a call has to write, or to leave */
#define SHOTS 4
#define MOST_BYTES 54 /* of a worked stream */
#define MOST_CELLS 32 /* of a worked picture */
extern const struct shot shots[SHOTS];

/* A side halved and rounded up, r times over. */
size_t halved(size_t r, size_t side);

/* What is shown of an undone number. */
uint16_t in_range(int32_t number, size_t depth);

#define WIDTHS 14 /* of pictures of one row */
extern const size_t widths[WIDTHS];

/* Each in a file of its own. */
void check_arrived(void);
void check_brightness(void);
void check_header(void);
void check_joins(void);
void check_levels(void);
void check_level_streams(void);
void check_version(void);
void check_texts(void);
void check_threads(void);

#endif
