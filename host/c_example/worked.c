/* The worked streams of docs/FORMAT.md through the C interface, from C: each function is called at least once, and what it gives is
   compared with that page. Prints a line for each step that is wrong, and 'N passed, M failed'.
   Build and run: host/c_example/run.sh. */
#include <stdio.h>
#include <string.h>

#include "worked.h"

static int passed, failed;

void expect(int right, const char *step) {
    if (right) {
        passed++;
    } else {
        failed++;
        printf("wrong: %s\n", step);
    }
}

/* Kernel 0, one level, depth 8, 2 by 2 samples, the rectangle 0 0 1 1. */
static const uint16_t samples[4] = {10, 7, 4, 4};
static const uint32_t numbers[4] = {0, 0, 1, 1};
static const uint8_t written[24] = {0x00, 0x00, 0x00, 0x14, 0x01, 0x00, 0x01, 0x08, 0x00, 0x02, 0x00, 0x02,
                                    0x01, 0x03, 0x00, 0x00, 0x00, 0x00, 0x00, 0x01, 0x00, 0x01, 0x92, 0x49};

static void check_pictures(void) {
    const uint8_t corner[4] = {1, 0, 0, 0}, all[4] = {1, 1, 1, 1};
    const int32_t coefficients[4] = {6, 1, 4, 3};
    uint8_t region[4], mask[4];
    int32_t plane[4], undone[4], dropped[4] = {-7, 3, 0, 0};
    const int32_t kept[4] = {-4, 0, 0, 0};
    uint16_t shown[4];
    uint8_t none[4] = {0, 0, 0, 0}, joined[4];
    uint64_t results[4];
    expect(dhiirqobaal_region(numbers, 4, 2, 2, region, 4) == 0 && memcmp(region, corner, 4) == 0, "region");
    expect(dhiirqobaal_mask(0, 1, 2, 2, region, 4, mask, 4) == 0 && memcmp(mask, all, 4) == 0, "mask");
    expect(dhiirqobaal_join(2, 2, region, 4, none, 4, joined, 4) == 0 && memcmp(joined, corner, 4) == 0, "join");
    expect(dhiirqobaal_transform(0, 1, 8, 2, 2, samples, 4, plane, 4) == 0, "transform");
    expect(memcmp(plane, coefficients, sizeof plane) == 0, "coefficients");
    expect(dhiirqobaal_undo(0, 1, 2, 2, plane, 4, undone, 4) == 0, "undo");
    expect(dhiirqobaal_show(8, 2, 2, undone, 4, shown, 4) == 0, "show");
    expect(memcmp(shown, samples, sizeof shown) == 0, "samples");
    expect(dhiirqobaal_brightness(2, 2, shown, 4, mask, 4, results, 4) == 0, "brightness");
    expect(results[0] == 4 && results[1] == 25 && results[2] == 6 && results[3] == 1, "brightness: 10 7 4 4, 6 times 4 and 1");
    expect(dhiirqobaal_brightness(2, 2, shown, 4, none, 4, results, 4) == 19, "brightness without a sample");
    expect(dhiirqobaal_show_level(0, 1, 1, 8, 2, 2, plane, 4, undone, 1, shown, 1) == 0 && shown[0] == 6, "show level 1");
    expect(dhiirqobaal_show_level(0, 1, 1, 8, 2, 2, plane, 4, undone, 4, shown, 4) == 5, "level 1 into four cells");
    expect(dhiirqobaal_show_level(0, 1, 2, 8, 2, 2, plane, 4, undone, 1, shown, 1) == 17, "level 2 of one");
    expect(dhiirqobaal_truncate(2, 2, 2, none, 4, dropped, 4) == 0, "truncate");
    expect(memcmp(dropped, kept, sizeof dropped) == 0, "dropped planes");
}

static void check_streams(void) {
    const int32_t coefficients[4] = {6, 1, 4, 3};
    const uint64_t read_numbers[15] = {4, 1, 24, 0, 0, 1, 8, 2, 2, 3, 1, 0, 0, 1, 1};
    uint8_t mask[4], stream[24], cut[24];
    int32_t plane[4];
    uint64_t results[139];
    expect(dhiirqobaal_write(coefficients, 4, numbers, 4, 0, 1, 8, 2, 2, mask, 4, stream, 24, results, 3) == 0, "write");
    expect(results[0] == 24 && results[1] == 24 && results[2] == 4, "lengths and marks");
    expect(memcmp(stream, written, 24) == 0, "stream");
    expect(dhiirqobaal_write(coefficients, 4, numbers, 4, 0, 1, 8, 2, 2, mask, 4, stream, 23, results, 3) == 11, "no room");
    expect(results[0] == 24 && results[1] == 0 && results[2] == 0, "needed length");
    expect(mask[0] == 1 && mask[1] == 1 && mask[2] == 1 && mask[3] == 1, "no room: mask");
    expect(dhiirqobaal_read(written, 24, plane, 4, mask, 4, results, 139) == 0, "read");
    expect(memcmp(results, read_numbers, sizeof read_numbers) == 0, "numbers read");
    expect(memcmp(plane, coefficients, sizeof plane) == 0, "plane read");
    expect(dhiirqobaal_cut(written, 24, 24, plane, 4, mask, 4, cut, 24, results, 1) == 0 && results[0] == 24, "cut");
    expect(memcmp(cut, written, 24) == 0, "stream cut at its own length");
    expect(dhiirqobaal_cut(written, 24, 23, plane, 4, mask, 4, cut, 24, results, 1) == 15, "cut below the region mark");
    expect(dhiirqobaal_body(written, 24, results, 2) == 0 && results[0] == 22 && results[1] == 2, "body");
}

/* The worked stream with another last byte, and without its rectangle. */
static void check_changed(void) {
    const int32_t rest[4] = {6, 0, 4, 0};
    const uint8_t bare[15] = {0x00, 0x00, 0x00, 0x0b, 0x01, 0x00, 0x01, 0x08, 0x00, 0x02, 0x00, 0x02, 0x00, 0x03, 0x92};
    uint8_t stream[24], mask[4];
    int32_t plane[4];
    uint64_t results[4];
    memcpy(stream, written, 24);
    stream[23] = 0x00;
    expect(dhiirqobaal_read(stream, 24, plane, 4, mask, 4, results, 4) == 0, "last byte 00");
    expect(memcmp(plane, rest, sizeof plane) == 0, "last byte 00: plane");
    stream[23] = 0x01;
    expect(dhiirqobaal_read(stream, 24, plane, 4, mask, 4, results, 4) == 16, "last byte 01");
    expect(dhiirqobaal_read(bare, 15, plane, 4, mask, 4, results, 4) == 0, "no rectangle, 15 bytes");
    expect(memcmp(plane, rest, sizeof plane) == 0, "no rectangle, 15 bytes: plane");
    expect(results[0] == 0 && results[1] == 1 && results[2] == 14 && results[3] == 2, "no rectangle, 15 bytes: numbers");
    expect(dhiirqobaal_transform(0, 1, 3, 2, 2, samples, 4, plane, 4) == 6, "a sample above the depth");
}

/* Kernel 3, two levels, depth 8, 8 by 4 samples, the rectangle 6 2 1 2. */
static const uint16_t wide_samples[32] = {
    12, 12, 14, 90, 200, 40, 41, 43, 12, 13, 20, 120, 220, 60, 44, 40,
    13, 16, 60, 180, 90, 50, 46, 45, 15, 15, 15, 16, 14, 15, 16, 15};
static const uint32_t wide_numbers[4] = {6, 2, 1, 2};
static const uint8_t wide_written[54] = {
    0x00, 0x00, 0x00, 0x32, 0x01, 0x03, 0x02, 0x08, 0x00, 0x08, 0x00, 0x04, 0x01, 0x07,
    0x00, 0x06, 0x00, 0x02, 0x00, 0x01, 0x00, 0x02, 0x9a, 0x80, 0x3f, 0xc0, 0x1b, 0xcd,
    0xcb, 0x01, 0x3f, 0x3e, 0x18, 0xf9, 0x5b, 0x28, 0x31, 0x01, 0xec, 0xc8, 0x26, 0x5c,
    0xa3, 0x82, 0x09, 0x9d, 0x80, 0x8e, 0x19, 0xad, 0x18, 0x17, 0x60, 0x34};
static const uint8_t wide_mask[32] = {
    0, 1, 1, 1, 0, 0, 0, 0, 0, 1, 1, 1, 0, 0, 1, 1,
    0, 0, 0, 1, 0, 0, 1, 1, 0, 0, 0, 1, 0, 0, 1, 1};
/* Undone, then shown, of the stream cut to its region mark; 46 and 16 stand in the rectangle. */
static const int32_t wide_cut_undone[32] = {
    56, 37, 18, 110, 202, 121, 19, 21, 27, 31, 36, 98, 160, 69, 33, 29,
    -2, 26, 54, 80, 106, 58, 46, 45, -2, 26, 54, 78, 102, 59, 16, 15};
static const uint16_t wide_cut_shown[32] = {
    56, 37, 18, 110, 202, 121, 19, 21, 27, 31, 36, 98, 160, 69, 33, 29,
    0, 26, 54, 80, 106, 58, 46, 45, 0, 26, 54, 78, 102, 59, 16, 15};

/* What of the stream's first bytes, with the length field mended, is read: whole, region mark, q, and one coefficient. */
static int arrives(size_t length, uint64_t whole, uint64_t region_mark, uint64_t q, size_t at, int32_t coefficient) {
    uint8_t part[54], mask[32];
    int32_t plane[32];
    uint64_t results[4];
    memcpy(part, wide_written, length);
    part[3] = (uint8_t)(length - 4);
    return dhiirqobaal_read(part, length, plane, 32, mask, 32, results, 4) == 0 && results[0] == 14 &&
           results[1] == whole && results[2] == region_mark && results[3] == q && plane[at] == coefficient;
}

static void check_cuts(void) {
    uint8_t mask[32], stream[54], cut[36];
    int32_t plane[32], undone[32];
    uint16_t shown[32];
    uint64_t results[3];
    expect(dhiirqobaal_transform(3, 2, 8, 8, 4, wide_samples, 32, plane, 32) == 0, "8 by 4: transform");
    expect(dhiirqobaal_write(plane, 32, wide_numbers, 4, 3, 2, 8, 8, 4, mask, 32, stream, 54, results, 3) == 0, "8 by 4: write");
    expect(results[0] == 54 && results[1] == 36 && results[2] == 14, "8 by 4: lengths and marks");
    expect(memcmp(stream, wide_written, 54) == 0, "8 by 4: stream");
    expect(memcmp(mask, wide_mask, 32) == 0, "8 by 4: mask");
    /* -25 and 68 without their signs are 0 */
    expect(arrives(28, 0, 0, 7, 27, 0), "8 by 4: 28 bytes");
    expect(arrives(36, 1, 36, 7, 27, -25), "8 by 4: 36 bytes");
    expect(arrives(37, 1, 36, 7, 13, 0), "8 by 4: 37 bytes");
    expect(arrives(39, 1, 36, 6, 13, 64), "8 by 4: 39 bytes");
    expect(arrives(54, 1, 36, 0, 13, 68), "8 by 4: 54 bytes");
    expect(dhiirqobaal_cut(stream, 54, 36, plane, 32, mask, 32, cut, 36, results, 1) == 0, "8 by 4: cut");
    expect(dhiirqobaal_read(cut, 36, plane, 32, mask, 32, results, 3) == 0, "8 by 4: cut read");
    expect(dhiirqobaal_undo(3, 2, 8, 4, plane, 32, undone, 32) == 0, "8 by 4: cut undone");
    expect(memcmp(undone, wide_cut_undone, sizeof undone) == 0, "8 by 4: undone numbers");
    expect(dhiirqobaal_show(8, 8, 4, undone, 32, shown, 32) == 0, "8 by 4: cut shown");
    expect(memcmp(shown, wide_cut_shown, sizeof shown) == 0, "8 by 4: shown samples");
}

/* Kernel 3, two levels, depth 8, 3 by 3 samples, the rectangle 2 2 1 1: each line has an unpaired sample. */
static const uint16_t odd_samples[9] = {10, 7, 49, 4, 4, 1, 20, 9, 30};
static const uint32_t odd_numbers[4] = {2, 2, 1, 1};
static const int32_t odd_plane[9] = {11, 11, -11, -2, -29, -5, 0, -28, 21};
static const uint8_t odd_mask[9] = {1, 1, 0, 1, 1, 1, 0, 1, 1};
static const uint8_t odd_written[29] = {0x00, 0x00, 0x00, 0x19, 0x01, 0x03, 0x02, 0x08, 0x00, 0x03, 0x00, 0x03,
                                        0x01, 0x05, 0x00, 0x02, 0x00, 0x02, 0x00, 0x01, 0x00, 0x01, 0x1b, 0xa9,
                                        0x43, 0xfe, 0x1b, 0x4c, 0x50};
/* Of the stream cut to its region mark; 30 stands in the rectangle. */
static const int32_t odd_cut_undone[9] = {8, 8, 47, 3, 4, 0, 20, 9, 30};

static void check_odd(void) {
    uint8_t mask[9], stream[29], cut[28];
    int32_t plane[9], undone[9];
    uint64_t results[4];
    expect(dhiirqobaal_transform(3, 2, 8, 3, 3, odd_samples, 9, plane, 9) == 0, "3 by 3: transform");
    expect(memcmp(plane, odd_plane, sizeof plane) == 0, "3 by 3: coefficients");
    expect(dhiirqobaal_write(plane, 9, odd_numbers, 4, 3, 2, 8, 3, 3, mask, 9, stream, 29, results, 3) == 0, "3 by 3: write");
    expect(results[0] == 29 && results[1] == 28 && results[2] == 7, "3 by 3: lengths and marks");
    expect(memcmp(stream, odd_written, 29) == 0, "3 by 3: stream");
    expect(memcmp(mask, odd_mask, 9) == 0, "3 by 3: mask");
    expect(dhiirqobaal_cut(stream, 29, 28, plane, 9, mask, 9, cut, 28, results, 1) == 0, "3 by 3: cut");
    expect(dhiirqobaal_read(cut, 28, plane, 9, mask, 9, results, 4) == 0, "3 by 3: cut read");
    expect(results[1] == 1 && results[2] == 28 && results[3] == 3, "3 by 3: numbers read");
    expect(dhiirqobaal_undo(3, 2, 3, 3, plane, 9, undone, 9) == 0, "3 by 3: cut undone");
    expect(memcmp(undone, odd_cut_undone, sizeof undone) == 0, "3 by 3: undone numbers");
}

/* Kernel 2's lows are reflected at both borders: a row with two lows, a column of odd length with three. */
static void check_borders(void) {
    const uint16_t row[4] = {0, 0, 64, 64}, column[5] = {0, 0, 64, 64, 0};
    const int32_t row_plane[4] = {0, 64, 23, 23}, column_plane[5] = {0, 64, 0, 26, 1};
    int32_t plane[5];
    expect(dhiirqobaal_transform(2, 1, 8, 4, 1, row, 4, plane, 4) == 0, "0 0 64 64: transform");
    expect(memcmp(plane, row_plane, sizeof row_plane) == 0, "0 0 64 64: coefficients");
    expect(dhiirqobaal_transform(2, 1, 8, 1, 5, column, 5, plane, 5) == 0, "0 0 64 64 0, a column: transform");
    expect(memcmp(plane, column_plane, sizeof column_plane) == 0, "0 0 64 64 0, a column: coefficients");
}

/* Every size within the limits is taken under every J. */
static void check_sizes(void) {
    const uint16_t dark[24] = {0};
    int32_t plane[24];
    expect(dhiirqobaal_transform(0, 2, 8, 6, 4, dark, 24, plane, 24) == 0, "6 by 4, two levels");
    expect(dhiirqobaal_transform(0, 5, 8, 1, 1, dark, 1, plane, 1) == 0, "1 by 1, five levels");
    expect(dhiirqobaal_transform(0, 2, 8, 0, 4, dark, 0, plane, 0) == 4, "0 by 4");
    expect(dhiirqobaal_transform(0, 2, 8, 4097, 4, dark, 24, plane, 24) == 4, "4,097 by 4");
}

/* A plane of zeros has no bit plane: the stream is its header, and its body is empty. */
static void check_empty_body(void) {
    const uint8_t header[14] = {0x00, 0x00, 0x00, 0x0a, 0x01, 0x00, 0x01, 0x08, 0x00, 0x02, 0x00, 0x02, 0x00, 0x00};
    const int32_t zeros[4] = {0, 0, 0, 0};
    int32_t plane[4];
    uint8_t mask[4], stream[14];
    uint64_t results[4];
    expect(dhiirqobaal_write(zeros, 4, numbers, 0, 0, 1, 8, 2, 2, mask, 4, stream, 14, results, 3) == 0, "zeros: write");
    expect(results[0] == 14 && results[1] == 14 && results[2] == 0, "zeros: lengths and marks");
    expect(memcmp(stream, header, 14) == 0, "zeros: stream");
    expect(dhiirqobaal_body(stream, 14, results, 2) == 0 && results[0] == 14 && results[1] == 0, "zeros: body");
    expect(dhiirqobaal_read(stream, 14, plane, 4, mask, 4, results, 4) == 0, "zeros: read");
    expect(results[1] == 1 && results[2] == 14 && results[3] == 0, "zeros: numbers read");
    expect(memcmp(plane, zeros, sizeof plane) == 0, "zeros: plane read");
}

/* Asking for the length: an empty stream buffer, whose pointer is not null; the mask is filled, the stream is not. */
static void check_asking(void) {
    const int32_t coefficients[4] = {6, 1, 4, 3};
    uint8_t mask[4] = {9, 9, 9, 9}, stream[1] = {9};
    uint64_t results[1] = {9};
    expect(dhiirqobaal_write(coefficients, 4, numbers, 4, 0, 1, 8, 2, 2, mask, 4, stream, 0, results, 1) == 11, "asking");
    expect(results[0] == 24 && stream[0] == 9, "asking: needed length");
    expect(mask[0] == 1 && mask[1] == 1 && mask[2] == 1 && mask[3] == 1, "asking: mask");
}

/* The worked stream of 2 by 2 samples without its rectangle, whole. */
static const uint8_t bare_written[16] = {0x00, 0x00, 0x00, 0x0c, 0x01, 0x00, 0x01, 0x08, 0x00, 0x02, 0x00, 0x02, 0x00, 0x03, 0x92, 0x49};

const struct shot shots[SHOTS] = {
    {"2 by 2", 0, 1, 2, 2, samples, numbers, 4, written, 24, 24, 3},
    {"8 by 4", 3, 2, 8, 4, wide_samples, wide_numbers, 4, wide_written, 54, 36, 7},
    {"3 by 3", 3, 2, 3, 3, odd_samples, odd_numbers, 4, odd_written, 29, 28, 5},
    {"2 by 2 without a rectangle", 0, 1, 2, 2, samples, numbers, 0, bare_written, 16, 14, 3},
};

int main(void) {
    check_pictures();
    check_streams();
    check_changed();
    check_cuts();
    check_odd();
    check_borders();
    check_sizes();
    check_empty_body();
    check_asking();
    check_arrived();
    check_header();
    check_joins();
    check_brightness();
    check_levels();
    check_level_streams();
    check_version();
    check_texts();
    check_threads();
    printf("%d passed, %d failed\n", passed, failed);
    return failed != 0;
}
