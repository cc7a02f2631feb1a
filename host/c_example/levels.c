/* Planes shown at a level: the worked pictures of docs/FORMAT.md, the sides of an area, and the refusals. */
#include <string.h>

#include "worked.h"

size_t halved(size_t r, size_t side) {
    size_t i;
    for (i = 0; i < r; i++) {
        side = side / 2 + side % 2;
    }
    return side;
}

uint16_t in_range(int32_t number, size_t depth) {
    int32_t top = (1 << depth) - 1;
    return (uint16_t)(number < 0 ? 0 : number > top ? top : number);
}

const size_t widths[WIDTHS] = {1, 2, 3, 5, 8, 31, 32, 33, 64, 65, 1000, 1366, 4095, 4096};

static void check_sides(void) {
    int32_t smallest[DHIIRQOBAAL_SIDE(5, 1366) * DHIIRQOBAAL_SIDE(5, 768)] = {0};
    size_t r, side;
    for (r = 0; r <= DHIIRQOBAAL_MAX_LEVELS; r++) {
        int right = 1;
        for (side = 1; side <= DHIIRQOBAAL_MAX_SIDE; side++) {
            right &= DHIIRQOBAAL_SIDE(r, side) == halved(r, side);
            right &= DHIIRQOBAAL_SIDE((uint8_t)r, (uint16_t)side) == halved(r, side);
            right &= DHIIRQOBAAL_SIDE((int)r, (uint64_t)side) == halved(r, side);
        }
        expect(right, "the sides of an area");
    }
    expect(sizeof smallest / sizeof *smallest == 43 * 24 && smallest[0] == 0, "the length of a buffer for 43 by 24");
}

/* A plane of 5 by 3 coefficients, and its pictures at levels 0 to 3 under each kernel where the levels are three. */
#define CELLS 15
static const int32_t worked_plane[CELLS] = {120, 300, -40, 7, -3, 60, -80, 25, 0, 11, -12, 33, -5, 64, 2};
static const int32_t worked[4][4][CELLS] = {
    {{301, 262, 330, 332, -72, 281, 306, 296, 300, -67, 214, 214, 272, 261, 10},
     {287, 314, -70, 214, 266, 10},
     {270, -30},
     {120}},
    {{364, 312, 339, 238, -82, 326, 331, 295, 201, -57, 244, 243, 273, 204, 10},
     {333, 268, -70, 243, 238, 10},
     {270, -30},
     {120}},
    {{386, 333, 334, 208, -86, 338, 340, 288, 174, -52, 253, 255, 269, 187, 12},
     {349, 251, -69, 254, 228, 12},
     {270, -29},
     {120}},
    {{-16, 11, 88, 210, 340, -34, 70, 105, 199, 284, 36, 30, 89, 175, 241},
     {-34, 98, 336, 14, 101, 244},
     {-30, 270},
     {120}},
};

/* What a call writes, with a cell more than the plane has. */
struct buffers {
    int32_t undone[CELLS + 1];
    uint16_t shown[CELLS + 1];
};

/* Whether both calls left the same: the cells behind the area too. */
static int same(const struct buffers *a, const struct buffers *b) {
    return memcmp(a->undone, b->undone, sizeof a->undone) == 0 && memcmp(a->shown, b->shown, sizeof a->shown) == 0;
}

static void check_worked(size_t kernel) {
    size_t r, depth, i;
    for (r = 0; r <= 3; r++) {
        size_t places = halved(r, 5) * halved(r, 3);
        int right = 1;
        for (depth = 1; depth <= DHIIRQOBAAL_MAX_DEPTH; depth++) {
            struct buffers given, wanted;
            memset(&given, STALE, sizeof given);
            memset(&wanted, STALE, sizeof wanted);
            for (i = 0; i < places; i++) {
                wanted.undone[i] = worked[kernel][r][i];
                wanted.shown[i] = in_range(wanted.undone[i], depth);
            }
            right &= dhiirqobaal_show_level(kernel, 3, r, depth, 5, 3, worked_plane, CELLS, given.undone, places, given.shown,
                                            places) == DHIIRQOBAAL_ACCEPTED && same(&given, &wanted);
        }
        expect(right, "5 by 3: the picture at a level");
    }
}

/* Level 0 is what undoing and showing give, level J the upper left of the plane; a side of 1 stays. */
static void check_ends(size_t kernel) {
    int whole = 1, stored = 1, single = 1;
    size_t levels, r, i;
    for (levels = 1; levels <= DHIIRQOBAAL_MAX_LEVELS; levels++) {
        struct buffers given, wanted;
        size_t w = halved(levels, 5), places = w * halved(levels, 3);
        memset(&given, STALE, sizeof given);
        memset(&wanted, STALE, sizeof wanted);
        whole &= dhiirqobaal_undo(kernel, levels, 5, 3, worked_plane, CELLS, wanted.undone, CELLS) == 0 &&
                 dhiirqobaal_show(8, 5, 3, wanted.undone, CELLS, wanted.shown, CELLS) == 0;
        whole &= dhiirqobaal_show_level(kernel, levels, 0, 8, 5, 3, worked_plane, CELLS, given.undone, CELLS, given.shown,
                                        CELLS) == DHIIRQOBAAL_ACCEPTED && same(&given, &wanted);
        stored &= dhiirqobaal_show_level(kernel, levels, levels, 8, 5, 3, worked_plane, CELLS, given.undone, places, given.shown,
                                         places) == DHIIRQOBAAL_ACCEPTED;
        for (i = 0; i < places; i++) {
            wanted.undone[i] = worked_plane[i / w * 5 + i % w];
            wanted.shown[i] = in_range(wanted.undone[i], 8);
        }
        stored &= same(&given, &wanted);
        for (r = 0; r <= levels; r++) {
            single &= dhiirqobaal_show_level(kernel, levels, r, 8, 1, 1, worked_plane + 1, 1, given.undone, 1, given.shown, 1) ==
                          DHIIRQOBAAL_ACCEPTED && given.undone[0] == 300 && given.shown[0] == 255;
        }
    }
    expect(whole, "level 0");
    expect(stored, "level J");
    expect(single, "1 by 1 at every level");
}

#define LARGEST 4194303 /* of an accepted coefficient */

/* Calls for the plane of 5 by 3 with another last coefficient, which lies outside the area at level 1 and above. */
static const struct {
    size_t kernel, levels, r, depth, w, h, plane, undone, shown;
    int32_t last;
    uint64_t refusal;
    const char *step;
} calls[] = {
    /* All is wrong, and mended from line to line: the refusals come in their order. */
    {4, 0, 6, 0, 0, 0, 14, 5, 5, LARGEST + 1, 1, "order: kernel"},
    {3, 0, 6, 0, 0, 0, 14, 5, 5, LARGEST + 1, 2, "order: levels"},
    {3, 3, 4, 0, 0, 0, 14, 5, 5, LARGEST + 1, 17, "order: level"},
    {3, 3, 1, 0, 0, 0, 14, 5, 5, LARGEST + 1, 3, "order: depth"},
    {3, 3, 1, 8, 0, 0, 14, 5, 5, LARGEST + 1, 4, "order: size"},
    {3, 3, 1, 8, 5, 3, 14, 5, 5, LARGEST + 1, 5, "order: length of plane"},
    {3, 3, 1, 8, 5, 3, 15, 5, 5, LARGEST + 1, 5, "order: length of undone"},
    {3, 3, 1, 8, 5, 3, 15, 6, 5, LARGEST + 1, 5, "order: length of shown"},
    {3, 3, 1, 8, 5, 3, 15, 6, 6, LARGEST + 1, 10, "order: magnitude"},
    {3, 3, 1, 8, 5, 3, 15, 6, 6, LARGEST, 0, "order: accepted"},
    /* One number is wrong. */
    {SIZE_MAX, 3, 1, 8, 5, 3, 15, 6, 6, 0, 1, "the largest kernel"},
    {3, 6, 1, 8, 5, 3, 15, 6, 6, 0, 2, "six levels"},
    {3, 6, 6, 8, 5, 3, 15, 1, 1, 0, 2, "level 6 of six"},
    {3, SIZE_MAX, 1, 8, 5, 3, 15, 6, 6, 0, 2, "the most levels"},
    {3, 3, 4, 8, 5, 3, 15, 1, 1, 0, 17, "level 4 of three"},
    {3, 1, 2, 8, 5, 3, 15, 2, 2, 0, 17, "level 2 of one"},
    {3, 5, 6, 8, 5, 3, 15, 1, 1, 0, 17, "level 6 of five"},
    {3, 5, 5, 8, 5, 3, 15, 1, 1, 0, 0, "level 5 of five"},
    {3, 3, 64, 8, 5, 3, 15, 1, 1, 0, 17, "level 64"},
    {3, 3, SIZE_MAX, 8, 5, 3, 15, 1, 1, 0, 17, "the largest level"},
    {3, 3, 1, 11, 5, 3, 15, 6, 6, 0, 3, "depth 11"},
    {3, 3, 1, 8, 4097, 3, 15, 6, 6, 0, 4, "width 4,097"},
    {3, 3, 1, 8, 5, 0, 15, 6, 6, 0, 4, "height 0"},
    {3, 3, 1, 8, 5, 4097, 15, 6, 6, 0, 4, "height 4,097"},
    {3, 3, 1, 8, 5, 3, 16, 6, 6, 0, 5, "a plane that is too long"},
    {3, 3, 1, 8, 5, 3, 6, 6, 6, 0, 5, "a plane as long as the area"},
    {3, 3, 1, 8, 5, 3, 15, 7, 6, 0, 5, "undone too long"},
    {3, 3, 1, 8, 5, 3, 15, 15, 6, 0, 5, "undone as long as the plane"},
    {3, 3, 1, 8, 5, 3, 15, 6, 7, 0, 5, "shown too long"},
    {3, 3, 1, 8, 5, 3, 15, 6, 15, 0, 5, "shown as long as the plane"},
    {3, 3, 3, 8, 5, 3, 15, 0, 0, 0, 5, "empty buffers"},
    {3, 3, 3, 8, 5, 3, 15, 1, 1, LARGEST + 1, 10, "a magnitude outside the area"},
    {3, 3, 3, 8, 5, 3, 15, 1, 1, -LARGEST - 1, 10, "a negative magnitude outside the area"},
    {3, 3, 3, 8, 5, 3, 15, 1, 1, INT32_MIN, 10, "the largest magnitude outside the area"},
    {3, 3, 3, 8, 5, 3, 15, 1, 1, -LARGEST, 0, "the largest accepted magnitude outside the area"},
};

/* Under a refusal both buffers hold what they held. */
static void check_calls(void) {
    int32_t plane[CELLS + 1] = {0};
    size_t i;
    memcpy(plane, worked_plane, sizeof worked_plane);
    for (i = 0; i < sizeof calls / sizeof *calls; i++) {
        struct buffers given, before;
        uint64_t answer;
        plane[CELLS - 1] = calls[i].last;
        memset(&given, STALE, sizeof given);
        memset(&before, STALE, sizeof before);
        answer = dhiirqobaal_show_level(calls[i].kernel, calls[i].levels, calls[i].r, calls[i].depth, calls[i].w, calls[i].h,
                                        plane, calls[i].plane, given.undone, calls[i].undone, given.shown, calls[i].shown);
        expect(answer == calls[i].refusal && (answer == 0 || same(&given, &before)), calls[i].step);
    }
}

/* A magnitude of 2^22 at every place of the plane, at every level. */
static void check_magnitudes(void) {
    int refused = 1;
    size_t r, i;
    for (r = 0; r <= 3; r++) {
        size_t places = halved(r, 5) * halved(r, 3);
        for (i = 0; i < CELLS; i++) {
            struct buffers given, before;
            int32_t plane[CELLS] = {0};
            plane[i] = i % 2 == 0 ? LARGEST + 1 : -LARGEST - 1;
            memset(&given, STALE, sizeof given);
            memset(&before, STALE, sizeof before);
            refused &= dhiirqobaal_show_level(1, 3, r, 8, 5, 3, plane, CELLS, given.undone, places, given.shown, places) ==
                           DHIIRQOBAAL_BAD_MAGNITUDE && same(&given, &before);
        }
    }
    expect(refused, "a magnitude of 2^22 at every place");
}

/* A dark picture at a level, into buffers of any length. */
static uint64_t show_dark(size_t r, size_t w, size_t h, size_t undone_length, size_t shown_length) {
    static const int32_t plane[DHIIRQOBAAL_MAX_SIDE] = {0};
    static int32_t undone[DHIIRQOBAAL_MAX_SIDE + 1];
    static uint16_t shown[DHIIRQOBAAL_MAX_SIDE + 1];
    return dhiirqobaal_show_level(3, 5, r, 8, w, h, plane, w * h, undone, undone_length, shown, shown_length);
}

/* Pictures of W by 1 and of 1 by W: buffers of the area's length are taken, a cell more or less is not. */
static void check_lengths(size_t width) {
    int taken = 1, refused = 1;
    size_t r;
    for (r = 0; r <= DHIIRQOBAAL_MAX_LEVELS; r++) {
        size_t side = DHIIRQOBAAL_SIDE(r, width);
        taken &= show_dark(r, width, 1, side, side) == DHIIRQOBAAL_ACCEPTED;
        taken &= show_dark(r, 1, width, side, side) == DHIIRQOBAAL_ACCEPTED;
        refused &= show_dark(r, width, 1, side + 1, side) == DHIIRQOBAAL_BAD_LENGTH;
        refused &= show_dark(r, width, 1, side - 1, side) == DHIIRQOBAAL_BAD_LENGTH;
        refused &= show_dark(r, 1, width, side, side + 1) == DHIIRQOBAAL_BAD_LENGTH;
        refused &= show_dark(r, 1, width, side, side - 1) == DHIIRQOBAAL_BAD_LENGTH;
    }
    expect(taken, "buffers of the area's length");
    expect(refused, "buffers of another length");
}

void check_levels(void) {
    size_t i;
    check_sides();
    for (i = 0; i < 4; i++) {
        check_worked(i);
        check_ends(i);
    }
    check_calls();
    check_magnitudes();
    for (i = 0; i < WIDTHS; i++) {
        check_lengths(widths[i]);
    }
}
