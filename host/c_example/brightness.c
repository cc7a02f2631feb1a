/* The brightness of a region: numbers worked by hand, result arrays of any length, the refusals, regions that add up, pictures of any
   width and at any address, the largest picture, and the worked streams of docs/FORMAT.md cut. */
#include <stdlib.h>
#include <string.h>

#include "worked.h"

#define NUMBERS DHIIRQOBAAL_BRIGHTNESS_RESULTS
#define RESULTS (NUMBERS + 2)

static void make_stale(uint64_t *results) {
    size_t i;
    for (i = 0; i < RESULTS; i++) {
        results[i] = STALE;
    }
}

/* Whether the cells of an array of that length hold the numbers, 0 where there are none, and all other cells what they held. */
static int has(const uint64_t *results, const uint64_t *numbers, size_t length) {
    size_t i;
    for (i = 0; i < RESULTS; i++) {
        uint64_t right = i >= NUMBERS || i >= length ? STALE : numbers == NULL ? 0 : numbers[i];
        if (results[i] != right) {
            return 0;
        }
    }
    return 1;
}

/* Whether a call is accepted and gives these numbers. */
static int gives(size_t w, size_t h, const uint16_t *picture, const uint8_t *region, const uint64_t *numbers) {
    uint64_t results[RESULTS];
    make_stale(results);
    return dhiirqobaal_brightness(w, h, picture, w * h, region, w * h, results, RESULTS) == DHIIRQOBAAL_ACCEPTED &&
           has(results, numbers, RESULTS);
}

#define W 3
#define H 3
#define CELLS 9
static const uint16_t samples[CELLS] = {10, 7, 49, 4, 4, 1, 20, 9, 30};

/* Regions of the samples: number, sum, quotient and remainder. */
static const struct {
    uint8_t region[CELLS];
    uint64_t numbers[NUMBERS];
    const char *step;
} worked[] = {
    {{1, 0, 0, 0, 0, 0, 0, 0, 0}, {1, 10, 10, 0}, "brightness: 10"},
    {{0, 0, 0, 0, 0, 1, 0, 0, 0}, {1, 1, 1, 0}, "brightness: 1"},
    {{1, 1, 1, 0, 0, 0, 0, 0, 0}, {3, 66, 22, 0}, "brightness: 10 7 49, 22 times 3"},
    {{0, 1, 0, 0, 1, 0, 0, 1, 0}, {3, 20, 6, 2}, "brightness: 7 4 9, 6 times 3 and 2"},
    {{1, 0, 1, 0, 0, 0, 1, 0, 1}, {4, 109, 27, 1}, "brightness: 10 49 20 30, 27 times 4 and 1"},
    {{1, 1, 1, 0, 1, 0, 1, 1, 1}, {7, 129, 18, 3}, "brightness: both, 18 times 7 and 3"},
    {{0, 0, 0, 0, 1, 1, 0, 0, 0}, {2, 5, 2, 1}, "brightness: 4 1, 2 times 2 and 1"},
    {{1, 1, 1, 1, 1, 1, 1, 1, 1}, {9, 134, 14, 8}, "brightness: all, 14 times 9 and 8"},
};

/* No depth is given: each sample may be any 16-bit number. */
static void check_worked(void) {
    const uint16_t bright[4] = {65535, 65534, 0, 1024};
    const uint8_t two[4] = {1, 1, 0, 0}, dark[4] = {0, 0, 1, 0}, all[4] = {1, 1, 1, 1};
    const uint64_t of_two[NUMBERS] = {2, 131069, 65534, 1}, of_dark[NUMBERS] = {1, 0, 0, 0}, of_all[NUMBERS] = {4, 132093, 33023, 1};
    size_t i;
    for (i = 0; i < sizeof worked / sizeof *worked; i++) {
        expect(gives(W, H, samples, worked[i].region, worked[i].numbers), worked[i].step);
        expect(gives(CELLS, 1, samples, worked[i].region, worked[i].numbers), worked[i].step);
    }
    expect(gives(2, 2, bright, two, of_two), "brightness: 65,535 65,534");
    expect(gives(2, 2, bright, dark, of_dark), "brightness: 0");
    expect(gives(2, 2, bright, all, of_all), "brightness: samples above every depth");
}

/* Results arrays of any length: a cell that is not there is not written. */
static void check_lengths(void) {
    const uint8_t empty[CELLS] = {0};
    int accepted = 1, refused = 1;
    size_t length;
    for (length = 0; length <= RESULTS; length++) {
        uint64_t results[RESULTS];
        make_stale(results);
        accepted &= dhiirqobaal_brightness(W, H, samples, CELLS, worked[3].region, CELLS, results, length) == DHIIRQOBAAL_ACCEPTED;
        accepted &= has(results, worked[3].numbers, length);
        refused &= dhiirqobaal_brightness(W, H, samples, CELLS, empty, CELLS, results, length) == DHIIRQOBAAL_NO_SAMPLE;
        refused &= has(results, NULL, length);
    }
    expect(accepted, "brightness: results arrays of any length");
    expect(refused, "brightness: results arrays of any length, refused");
}

/* Calls with a region whose first byte and other bytes are these; the buffers have a cell more. */
static const struct {
    size_t w, h, picture, region;
    uint8_t first, others;
    uint64_t refusal;
    const char *step;
} calls[] = {
    /* All is wrong, and mended from line to line: the refusals come in their order. */
    {0, 0, 8, 8, 2, 0, 4, "brightness, order: size"},
    {3, 0, 8, 8, 2, 0, 4, "brightness, order: height"},
    {3, 3, 8, 8, 2, 0, 5, "brightness, order: length of picture"},
    {3, 3, 9, 8, 2, 0, 5, "brightness, order: length of region"},
    {3, 3, 9, 9, 2, 0, 9, "brightness, order: byte"},
    {3, 3, 9, 9, 0, 0, 19, "brightness, order: no sample"},
    {3, 3, 9, 9, 1, 0, 0, "brightness, order: accepted"},
    /* One number is wrong, and the region is without a sample or not. */
    {0, 3, 9, 9, 1, 1, 4, "brightness: width 0"},
    {4097, 3, 9, 9, 0, 0, 4, "brightness: width 4,097"},
    {SIZE_MAX, 3, 9, 9, 1, 1, 4, "brightness: the largest width"},
    {3, 0, 9, 9, 1, 1, 4, "brightness: height 0"},
    {3, 4097, 9, 9, 0, 0, 4, "brightness: height 4,097"},
    {3, SIZE_MAX, 9, 9, 1, 1, 4, "brightness: the largest height"},
    {3, 3, 10, 9, 1, 1, 5, "brightness: picture too long"},
    {3, 3, 9, 10, 1, 1, 5, "brightness: region too long"},
    {3, 3, 0, 9, 0, 0, 5, "brightness: picture empty"},
    {3, 3, 9, 0, 0, 0, 5, "brightness: region empty"},
    {3, 2, 9, 9, 1, 1, 5, "brightness: another size"},
    {3, 3, 9, 9, 2, 1, 9, "brightness: a byte above 1"},
    {3, 3, 9, 9, 255, 0, 9, "brightness: a byte above 1 and no sample"},
    {3, 3, 9, 9, 0, 1, 0, "brightness: all but the first"},
    {9, 1, 9, 9, 1, 1, 0, "brightness: one row"},
    {1, 9, 9, 9, 0, 0, 19, "brightness: one column without a sample"},
};

/* Under a refusal the four result numbers are 0. */
static void check_calls(void) {
    uint16_t picture[CELLS + 1] = {0};
    uint8_t region[CELLS + 1];
    size_t i;
    memcpy(picture, samples, sizeof samples);
    for (i = 0; i < sizeof calls / sizeof *calls; i++) {
        uint64_t results[RESULTS], answer;
        memset(region, calls[i].others, sizeof region);
        region[0] = calls[i].first;
        make_stale(results);
        answer = dhiirqobaal_brightness(calls[i].w, calls[i].h, picture, calls[i].picture, region, calls[i].region, results, RESULTS);
        expect(answer == calls[i].refusal && (answer == 0 || has(results, NULL, RESULTS)), calls[i].step);
    }
}

/* Every byte above 1 at every place, in a region with samples and in one without. */
static void check_bytes(void) {
    int refused = 1;
    size_t place, byte, others;
    for (place = 0; place < CELLS; place++) {
        for (byte = 2; byte <= UINT8_MAX; byte++) {
            for (others = 0; others < 2; others++) {
                uint64_t results[RESULTS];
                uint8_t region[CELLS];
                memset(region, (int)others, sizeof region);
                region[place] = (uint8_t)byte;
                make_stale(results);
                refused &= dhiirqobaal_brightness(W, H, samples, CELLS, region, CELLS, results, RESULTS) == DHIIRQOBAAL_BAD_MARK;
                refused &= has(results, NULL, RESULTS);
            }
        }
    }
    expect(refused, "brightness: every byte above 1 at every place");
}

/* Number and sum of a region, which are 0 where it is without a sample. */
static void add_region(const uint8_t *region, uint64_t *number, uint64_t *sum) {
    uint64_t results[RESULTS];
    dhiirqobaal_brightness(W, H, samples, CELLS, region, CELLS, results, RESULTS);
    *number += results[DHIIRQOBAAL_BRIGHTNESS_NUMBER];
    *sum += results[DHIIRQOBAAL_BRIGHTNESS_SUM];
}

/* Every two regions of the picture without a common sample: every place is in the first, in the second or in none. */
static void check_added(void) {
    int same = 1;
    size_t choice, i;
    for (choice = 0; choice < 19683; choice++) { /* 3 to the power of 9 */
        uint8_t first[CELLS], second[CELLS], both[CELLS];
        uint64_t numbers[2] = {0, 0}, sums[2] = {0, 0};
        size_t digits = choice;
        for (i = 0; i < CELLS; i++, digits /= 3) {
            first[i] = digits % 3 == 1;
            second[i] = digits % 3 == 2;
        }
        same &= dhiirqobaal_join(W, H, first, CELLS, second, CELLS, both, CELLS) == DHIIRQOBAAL_ACCEPTED;
        add_region(first, &numbers[0], &sums[0]);
        add_region(second, &numbers[0], &sums[0]);
        add_region(both, &numbers[1], &sums[1]);
        same &= numbers[0] == numbers[1] && sums[0] == sums[1];
    }
    expect(same, "brightness: two regions without a common sample add up");
}

#define ADDRESSES 16 /* at which a region may begin, in bytes */
#define ROOM (DHIIRQOBAAL_MAX_SIDE + ADDRESSES)

/* One sample in three, of samples over all 16 bits; the two buffers begin at these places. */
static int adds_in_turn(size_t w, size_t h, size_t a, size_t b) {
    static uint16_t picture[ROOM];
    static uint8_t region[ROOM];
    uint64_t numbers[NUMBERS] = {0, 0, 0, 0};
    size_t i;
    for (i = 0; i < w * h; i++) {
        picture[a + i] = (uint16_t)(65535 - 40503 * i % 65536);
        region[b + i] = i % 3 == 0;
        numbers[0] += region[b + i];
        numbers[1] += region[b + i] == 1 ? picture[a + i] : 0;
    }
    numbers[2] = numbers[1] / numbers[0];
    numbers[3] = numbers[1] - numbers[2] * numbers[0];
    return gives(w, h, picture + a, region + b, numbers);
}

static void check_lines(void) {
    int as_wanted = 1;
    size_t i;
    for (i = 0; i < WIDTHS; i++) {
        expect(adds_in_turn(widths[i], 1, 0, 0) && adds_in_turn(1, widths[i], 0, 0), "brightness: a row and a column");
    }
    for (i = 0; i < ADDRESSES * ADDRESSES; i++) {
        as_wanted &= adds_in_turn(67, 1, i % ADDRESSES, i / ADDRESSES);
    }
    expect(as_wanted, "brightness: buffers at any address");
}

/* 4,096 by 4,096 samples of 65,535: all of them, and all with 0 for the last. */
static void check_largest(void) {
    const size_t side = DHIIRQOBAAL_MAX_SIDE, cells = side * side;
    const uint64_t all[NUMBERS] = {UINT64_C(16777216), UINT64_C(1099494850560), 65535, 0};
    const uint64_t less[NUMBERS] = {UINT64_C(16777216), UINT64_C(1099494785025), 65534, UINT64_C(16711681)};
    uint16_t *picture = (uint16_t *)malloc(cells * sizeof *picture);
    uint8_t *region = (uint8_t *)malloc(cells);
    if (picture != NULL && region != NULL) {
        memset(picture, 0xff, cells * sizeof *picture);
        memset(region, 1, cells);
        expect(gives(side, side, picture, region, all), "brightness: the largest sum");
        picture[cells - 1] = 0;
        expect(gives(side, side, picture, region, less), "brightness: the largest sum but for a sample");
    } else {
        expect(0, "brightness: memory for the largest picture");
    }
    free(picture);
    free(region);
}

/* Whether the rectangles of a worked stream, cut to a length, are as bright as in its picture. */
static int as_bright(const struct shot *shot, size_t length) {
    uint8_t cut[MOST_BYTES], mask[MOST_CELLS], region[MOST_CELLS];
    int32_t plane[MOST_CELLS], undone[MOST_CELLS];
    uint16_t shown[MOST_CELLS];
    uint64_t results[1], numbers[NUMBERS];
    size_t cells = shot->w * shot->h;
    return dhiirqobaal_region(shot->numbers, shot->numbers_len, shot->w, shot->h, region, cells) == 0 &&
           dhiirqobaal_brightness(shot->w, shot->h, shot->samples, cells, region, cells, numbers, NUMBERS) == 0 &&
           dhiirqobaal_cut(shot->stream, shot->length, length, plane, cells, mask, cells, cut, sizeof cut, results, 1) == 0 &&
           dhiirqobaal_show_stream(cut, length, 0, plane, cells, mask, cells, undone, cells, shown, cells, results, 1) == 0 &&
           gives(shot->w, shot->h, shown, region, numbers);
}

/* Of the picture of 8 by 4 samples the rectangle has 46 and 16. */
static void check_streams(void) {
    const uint64_t wide[NUMBERS] = {2, 62, 31, 0};
    uint8_t region[MOST_CELLS];
    size_t i, length;
    for (i = 0; i < SHOTS; i++) {
        int same = 1;
        for (length = shots[i].region_mark; shots[i].numbers_len > 0 && length <= shots[i].length; length++) {
            same &= as_bright(&shots[i], length);
        }
        expect(same, "brightness: the rectangles of a cut stream");
    }
    expect(dhiirqobaal_region(shots[1].numbers, 4, 8, 4, region, 32) == DHIIRQOBAAL_ACCEPTED, "brightness: the rectangle of 8 by 4");
    expect(gives(8, 4, shots[1].samples, region, wide), "brightness: 46 16, 31 times 2");
}

void check_brightness(void) {
    check_worked();
    check_lengths();
    check_calls();
    check_bytes();
    check_added();
    check_lines();
    check_largest();
    check_streams();
}
