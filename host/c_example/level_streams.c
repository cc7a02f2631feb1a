/* Streams shown at a level: the worked ones of docs/FORMAT.md whole, cut and changed, what is exact in them, and the refusals. */
#include <string.h>

#include "worked.h"

#define RESULTS (DHIIRQOBAAL_READ_RESULTS + 5)

/* What a call writes, with a cell more than the largest worked picture has. */
struct buffers {
    int32_t plane[MOST_CELLS + 1], undone[MOST_CELLS + 1];
    uint8_t mask[MOST_CELLS + 1];
    uint16_t shown[MOST_CELLS + 1];
    uint64_t results[RESULTS];
};

struct lengths {
    size_t plane, mask, undone, shown;
};

static int same(const struct buffers *a, const struct buffers *b) {
    return memcmp(a->plane, b->plane, sizeof a->plane) == 0 && memcmp(a->mask, b->mask, sizeof a->mask) == 0 &&
           memcmp(a->undone, b->undone, sizeof a->undone) == 0 && memcmp(a->shown, b->shown, sizeof a->shown) == 0 &&
           memcmp(a->results, b->results, sizeof a->results) == 0;
}

/* The lengths for a worked picture at a level. */
static struct lengths lengths_for(const struct shot *shot, size_t r) {
    size_t cells = shot->w * shot->h, places = halved(r, shot->w) * halved(r, shot->h);
    struct lengths lengths = {cells, cells, places, places};
    return lengths;
}

static uint64_t call(const uint8_t *stream, size_t length, size_t r, struct lengths lengths, struct buffers *given) {
    return dhiirqobaal_show_stream(stream, length, r, given->plane, lengths.plane, given->mask, lengths.mask, given->undone,
                                   lengths.undone, given->shown, lengths.shown, given->results, RESULTS);
}

/* What is left under a refusal: plane and mask are 0 under 16, the result numbers always, all else as it was. */
static void leave_refused(uint64_t refusal, struct lengths lengths, struct buffers *left) {
    memset(left, STALE, sizeof *left);
    memset(left->results, 0, DHIIRQOBAAL_READ_RESULTS * sizeof *left->results);
    if (refusal == DHIIRQOBAAL_BAD_FILLING) {
        memset(left->plane, 0, lengths.plane * sizeof *left->plane);
        memset(left->mask, 0, lengths.mask);
    }
}

/* The same by reading and showing the plane at the level: the reader's answer, with 17 directly behind 2. */
static uint64_t one_by_one(const uint8_t *stream, size_t length, size_t r, struct lengths lengths, struct buffers *given) {
    uint64_t *results = given->results, refusal;
    memset(given, STALE, sizeof *given);
    refusal = dhiirqobaal_read(stream, length, given->plane, lengths.plane, given->mask, lengths.mask, results, RESULTS);
    if (refusal != 12 && refusal != 13 && refusal != 1 && refusal != 2 && r > stream[6]) {
        leave_refused(DHIIRQOBAAL_BAD_LEVEL, lengths, given);
        return DHIIRQOBAAL_BAD_LEVEL;
    }
    if (refusal != DHIIRQOBAAL_ACCEPTED) {
        return refusal;
    }
    return dhiirqobaal_show_level((size_t)results[DHIIRQOBAAL_READ_KERNEL], (size_t)results[DHIIRQOBAAL_READ_LEVELS], r,
                                  (size_t)results[DHIIRQOBAAL_READ_DEPTH], (size_t)results[DHIIRQOBAAL_READ_WIDTH],
                                  (size_t)results[DHIIRQOBAAL_READ_HEIGHT], given->plane, lengths.plane, given->undone,
                                  lengths.undone, given->shown, lengths.shown);
}

/* Whether one call does what the single ones do, of any bytes. */
static int as_one_by_one(const uint8_t *stream, size_t length, size_t r, const struct shot *shot) {
    struct lengths lengths = lengths_for(shot, r);
    struct buffers given, wanted;
    memset(&given, STALE, sizeof given);
    return one_by_one(stream, length, r, lengths, &wanted) == call(stream, length, r, lengths, &given) && same(&given, &wanted);
}

static void cut_by_hand(const struct shot *shot, size_t length, uint8_t *part) {
    memcpy(part, shot->stream, length);
    part[3] = (uint8_t)(length - 4);
}

/* The pictures at every level, of the worked streams cut to a length. */
static const struct {
    size_t shot, length, r;
    int32_t undone[MOST_CELLS];
} worked[] = {
    {0, 24, 0, {10, 7, 4, 4}},
    {0, 24, 1, {6}},
    {1, 54, 0, {12, 12, 14, 90, 200, 40, 41, 43, 12, 13, 20, 120, 220, 60, 44, 40,
                13, 16, 60, 180, 90, 50, 46, 45, 15, 15, 15, 16, 14, 15, 16, 15}},
    {1, 54, 1, {14, -3, 205, 19, 7, 58, 102, 33}},
    {1, 54, 2, {-16, 109}},
    {1, 36, 0, {56, 37, 18, 110, 202, 121, 19, 21, 27, 31, 36, 98, 160, 69, 33, 29,
                -2, 26, 54, 80, 106, 58, 46, 45, -2, 26, 54, 78, 102, 59, 16, 15}},
    {1, 36, 1, {56, 18, 205, 19, -2, 54, 102, 33}},
    {1, 36, 2, {0, 109}},
    {1, 28, 1, {52, 12, 180, 12, -4, 52, 92, 36}},
    {1, 28, 2, {0, 96}},
    {2, 29, 0, {10, 7, 49, 4, 4, 1, 20, 9, 30}},
    {2, 29, 1, {-1, 24, 12, 8}},
    {2, 29, 2, {11}},
    {2, 28, 0, {8, 8, 47, 3, 4, 0, 20, 9, 30}},
    {2, 28, 1, {-1, 24, 12, 8}},
    {2, 28, 2, {11}},
    {3, 15, 0, {8, 8, 4, 4}},
    {3, 15, 1, {6}},
};

static void check_worked(void) {
    size_t i, place;
    for (i = 0; i < sizeof worked / sizeof *worked; i++) {
        const struct shot *shot = &shots[worked[i].shot];
        struct lengths lengths = lengths_for(shot, worked[i].r);
        struct buffers given;
        uint8_t part[MOST_BYTES];
        int right;
        cut_by_hand(shot, worked[i].length, part);
        memset(&given, STALE, sizeof given);
        right = call(part, worked[i].length, worked[i].r, lengths, &given) == DHIIRQOBAAL_ACCEPTED;
        for (place = 0; place < lengths.shown; place++) {
            right &= given.undone[place] == worked[i].undone[place] && given.shown[place] == in_range(given.undone[place], 8);
        }
        expect(right, shot->name);
    }
}

/* Every length from the header's end on, and every header with one byte changed, at every level and above the deepest. */
static void check_one_by_one(const struct shot *shot) {
    size_t r, at, value, length, body = 14 + 2 * shot->numbers_len;
    uint8_t part[MOST_BYTES];
    int lengths = 1, bytes = 1;
    for (r = 0; r <= shot->levels + 1; r++) {
        for (length = body; length <= shot->length; length++) {
            cut_by_hand(shot, length, part);
            lengths &= as_one_by_one(part, length, r, shot);
        }
        memcpy(part, shot->stream, shot->length);
        for (at = 0; at < body; at++) {
            for (value = 0; value < 256; value++) {
                part[at] = (uint8_t)value;
                bytes &= as_one_by_one(part, shot->length, r, shot);
            }
            part[at] = shot->stream[at];
        }
    }
    expect(lengths, "every length at every level");
    expect(bytes, "every byte of the header at every level");
}

/* Level r's mask of each worked stream, r from 0 to J, as docs/FORMAT.md defines it. */
static const uint8_t level_masks[SHOTS][3][MOST_CELLS] = {
    {{1, 0, 0, 0}, {1}, {0}},
    {{0, 0, 0, 0, 0, 0, 0, 0, 0, 0, 0, 0, 0, 0, 0, 0, 0, 0, 0, 0, 0, 0, 1, 0, 0, 0, 0, 0, 0, 0, 1, 0},
     {0, 0, 0, 0, 0, 0, 0, 1},
     {0, 1}},
    {{0, 0, 0, 0, 0, 0, 0, 0, 1}, {0, 0, 0, 1}, {1}},
    {{0}, {0}, {0}},
};

/* Level r's mask, and the picture's own transform after r levels, each in the upper left of a buffer of the picture's size. */
static int transformed(const struct shot *shot, size_t r, uint8_t *mask, int32_t *plane) {
    size_t cells = shot->w * shot->h, i;
    uint8_t region[MOST_CELLS];
    if (dhiirqobaal_region(shot->numbers, shot->numbers_len, shot->w, shot->h, region, cells) != 0) {
        return 0;
    }
    if (r > 0) {
        return dhiirqobaal_mask(shot->kernel, r, shot->w, shot->h, region, cells, mask, cells) == 0 &&
               dhiirqobaal_transform(shot->kernel, r, 8, shot->w, shot->h, shot->samples, cells, plane, cells) == 0;
    }
    for (i = 0; i < cells; i++) {
        mask[i] = region[i];
        plane[i] = shot->samples[i];
    }
    return 1;
}

/* From the region mark on every place that level r's mask marks is that of the transform after r levels. */
static void check_exact(size_t index, size_t r) {
    const struct shot *shot = &shots[index];
    struct lengths lengths = lengths_for(shot, r);
    size_t w = halved(r, shot->w), length, place;
    uint8_t mask[MOST_CELLS], part[MOST_BYTES];
    int32_t plane[MOST_CELLS];
    int exact = transformed(shot, r, mask, plane), masks = 1;
    for (length = shot->region_mark; length <= shot->length; length++) {
        struct buffers given;
        cut_by_hand(shot, length, part);
        exact &= call(part, length, r, lengths, &given) == DHIIRQOBAAL_ACCEPTED;
        for (place = 0; place < lengths.shown; place++) {
            size_t at = place / w * shot->w + place % w;
            masks &= mask[at] == level_masks[index][r][place];
            exact &= !(mask[at] == 1 || length == shot->length) ||
                     (given.undone[place] == plane[at] && given.shown[place] == in_range(plane[at], 8));
        }
    }
    expect(masks, "level r's mask in the upper left of the mask after r levels");
    expect(exact, "what level r's mask marks, from the region mark on");
}

static void expect_refused(const uint8_t *stream, size_t length, size_t r, struct lengths lengths, uint64_t refusal,
                           const char *step) {
    struct buffers given, left;
    memset(&given, STALE, sizeof given);
    leave_refused(refusal, lengths, &left);
    expect(call(stream, length, r, lengths, &given) == refusal && same(&given, &left), step);
}

/* A header in which all is wrong, mended step by step until its size is 8 by 4: the refusals come in their order. */
static void check_setting_order(uint8_t *stream) {
    const struct lengths none = {0, 0, 0, 0};
    memset(stream, 0xff, 278);
    stream[12] = 33;
    expect_refused(stream, 278, 6, none, DHIIRQOBAAL_BAD_HEADER, "order of a stream: length field");
    stream[0] = 0, stream[1] = 0, stream[2] = 1, stream[3] = 18; /* 274 */
    expect_refused(stream, 278, 6, none, DHIIRQOBAAL_BAD_VERSION, "order of a stream: version");
    stream[4] = 1;
    expect_refused(stream, 278, 6, none, DHIIRQOBAAL_BAD_KERNEL, "order of a stream: kernel");
    stream[5] = 3;
    expect_refused(stream, 278, 6, none, DHIIRQOBAAL_BAD_LEVELS, "order of a stream: levels");
    stream[6] = 5;
    expect_refused(stream, 278, 6, none, DHIIRQOBAAL_BAD_LEVEL, "order of a stream: level");
    expect_refused(stream, 278, SIZE_MAX, none, DHIIRQOBAAL_BAD_LEVEL, "order of a stream: the largest level");
    expect_refused(stream, 278, 5, none, DHIIRQOBAAL_BAD_DEPTH, "order of a stream: depth");
    stream[7] = 10;
    expect_refused(stream, 278, 5, none, DHIIRQOBAAL_BAD_SIZE, "order of a stream: size");
    stream[8] = 0, stream[9] = 8, stream[10] = 0, stream[11] = 4;
}

/* Then the rectangles, T, each buffer and the body. Level 5 is 1 by 1; 32 rectangles take 270 bytes. */
static void check_order(void) {
    struct lengths lengths = {31, 31, 2, 2};
    struct buffers given;
    uint8_t stream[278];
    size_t i;
    check_setting_order(stream);
    expect_refused(stream, 278, 5, lengths, DHIIRQOBAAL_BAD_NUMBERS, "order of a stream: 33 rectangles");
    stream[12] = 32;
    expect_refused(stream, 278, 5, lengths, DHIIRQOBAAL_BAD_RECTANGLE, "order of a stream: rectangles");
    for (i = 14; i < 270; i++) {
        stream[i] = i % 2 == 1; /* 1 1 1 1 */
    }
    expect_refused(stream, 278, 5, lengths, DHIIRQOBAAL_BAD_PLANES, "order of a stream: planes");
    stream[13] = 0;
    expect_refused(stream, 278, 5, lengths, DHIIRQOBAAL_BAD_LENGTH, "order of a stream: length of plane");
    lengths.plane = 32;
    expect_refused(stream, 278, 5, lengths, DHIIRQOBAAL_BAD_LENGTH, "order of a stream: length of mask");
    lengths.mask = 32;
    expect_refused(stream, 278, 5, lengths, DHIIRQOBAAL_BAD_LENGTH, "order of a stream: length of undone");
    lengths.undone = 1;
    expect_refused(stream, 278, 5, lengths, DHIIRQOBAAL_BAD_LENGTH, "order of a stream: length of shown");
    lengths.shown = 1;
    expect_refused(stream, 278, 5, lengths, DHIIRQOBAAL_BAD_FILLING, "order of a stream: further bytes");
    stream[3] = 10; /* 266: no body */
    expect(call(stream, 270, 5, lengths, &given) == DHIIRQOBAAL_ACCEPTED, "order of a stream: accepted");
}

/* Each of the four buffers a cell too long or too short, at every level. */
static void check_lengths(const struct shot *shot) {
    size_t r;
    for (r = 0; r <= shot->levels; r++) {
        struct lengths right = lengths_for(shot, r), wrong[8];
        size_t i;
        for (i = 0; i < 8; i++) {
            wrong[i] = right;
        }
        wrong[0].plane++, wrong[1].plane--, wrong[2].mask++, wrong[3].mask--;
        wrong[4].undone++, wrong[5].undone--, wrong[6].shown++, wrong[7].shown--;
        for (i = 0; i < 8; i++) {
            expect_refused(shot->stream, shot->length, r, wrong[i], DHIIRQOBAAL_BAD_LENGTH, "a buffer of another length");
        }
    }
}

/* Streams of W by 1 without a bit: buffers of the area's length are taken, a cell more or less is not. */
static void check_widths(size_t width) {
    const uint8_t stream[14] = {0, 0, 0, 10, 1, 3, 5, 8, (uint8_t)(width / 256), (uint8_t)(width % 256), 0, 1, 0, 0};
    static int32_t plane[DHIIRQOBAAL_MAX_SIDE], undone[DHIIRQOBAAL_MAX_SIDE + 1];
    static uint8_t mask[DHIIRQOBAAL_MAX_SIDE];
    static uint16_t shown[DHIIRQOBAAL_MAX_SIDE + 1];
    uint64_t results[1];
    int taken = 1, refused = 1;
    size_t r;
    for (r = 0; r <= DHIIRQOBAAL_MAX_LEVELS; r++) {
        size_t side = DHIIRQOBAAL_SIDE(r, width), undone_length, shown_length;
        for (undone_length = side - 1; undone_length <= side + 1; undone_length++) {
            for (shown_length = side - 1; shown_length <= side + 1; shown_length++) {
                uint64_t answer = dhiirqobaal_show_stream(stream, 14, r, plane, width, mask, width, undone, undone_length, shown,
                                                          shown_length, results, 1);
                if (undone_length == side && shown_length == side) {
                    taken &= answer == DHIIRQOBAAL_ACCEPTED;
                } else {
                    refused &= answer == DHIIRQOBAAL_BAD_LENGTH;
                }
            }
        }
    }
    expect(taken, "a stream: buffers of the area's length");
    expect(refused, "a stream: buffers of another length");
}

/* Results arrays of any length: a cell that is not there is not written. */
static void check_results(const struct shot *shot) {
    uint64_t read[RESULTS], results[RESULTS];
    struct lengths lengths = lengths_for(shot, 1);
    struct buffers given;
    int right = 1;
    size_t length;
    memset(read, STALE, sizeof read);
    right &= dhiirqobaal_read(shot->stream, shot->length, given.plane, lengths.plane, given.mask, lengths.mask, read,
                              RESULTS) == 0;
    for (length = 0; length <= RESULTS; length++) {
        memset(results, STALE, sizeof results);
        right &= dhiirqobaal_show_stream(shot->stream, shot->length, 1, given.plane, lengths.plane, given.mask, lengths.mask,
                                         given.undone, lengths.undone, given.shown, lengths.shown, results, length) == 0;
        right &= memcmp(results, read, length * sizeof *results) == 0;
        right &= length == RESULTS || memcmp(results + length, read + DHIIRQOBAAL_READ_RESULTS, sizeof *results) == 0;
    }
    expect(right, "results arrays of any length");
}

void check_level_streams(void) {
    size_t i, r;
    check_worked();
    for (i = 0; i < SHOTS; i++) {
        check_one_by_one(&shots[i]);
        check_lengths(&shots[i]);
        check_results(&shots[i]);
        for (r = 0; r <= shots[i].levels; r++) {
            check_exact(i, r);
        }
    }
    check_order();
    for (i = 0; i < WIDTHS; i++) {
        check_widths(widths[i]);
    }
}
