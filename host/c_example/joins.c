/* Regions and masks joined: the worked masks of docs/FORMAT.md, the joining itself, the refusals, and the mask of two regions joined
   beside their two masks joined. */
#include <string.h>

#include "worked.h"

#define W 5
#define H 3
#define CELLS 15
static const uint8_t left[CELLS] = {1, 1, 0, 0, 0, 0, 1, 0, 0, 1, 0, 0, 0, 0, 0};
static const uint8_t right[CELLS] = {0, 1, 0, 1, 0, 0, 1, 0, 0, 0, 0, 0, 0, 0, 1};
static const uint8_t both[CELLS] = {1, 1, 0, 1, 0, 0, 1, 0, 0, 1, 0, 0, 0, 0, 1};
static const uint8_t none[CELLS] = {0, 0, 0, 0, 0, 0, 0, 0, 0, 0, 0, 0, 0, 0, 0};

/* Whether the two joined are the third, and no byte behind the buffer is written. */
static int gives(const uint8_t *one, const uint8_t *other, const uint8_t *wanted) {
    uint8_t given[CELLS + 1];
    memset(given, STALE, sizeof given);
    return dhiirqobaal_join(W, H, one, CELLS, other, CELLS, given, CELLS) == DHIIRQOBAAL_ACCEPTED &&
           memcmp(given, wanted, CELLS) == 0 && given[CELLS] == STALE;
}

static void check_joining(void) {
    expect(gives(left, right, both), "join");
    expect(gives(right, left, both), "join: the other order");
    expect(gives(left, left, left), "join: one buffer twice");
    expect(gives(left, both, both), "join: a region inside another");
    expect(gives(left, none, left) && gives(none, left, left), "join: the empty region");
    expect(gives(none, none, none), "join: two empty regions");
}

/* Of 8 samples after one level, the lows first: the masks of sample 3, of sample 6 and of both, under each kernel. */
static const uint8_t worked[4][3][8] = {
    {{0, 1, 0, 0, 0, 1, 0, 0}, {0, 0, 0, 1, 0, 0, 0, 1}, {0, 1, 0, 1, 0, 1, 0, 1}},
    {{1, 1, 1, 0, 0, 1, 0, 0}, {0, 0, 1, 1, 0, 0, 0, 1}, {1, 1, 1, 1, 0, 1, 0, 1}},
    {{1, 1, 1, 1, 0, 1, 0, 0}, {0, 1, 1, 1, 0, 0, 0, 1}, {1, 1, 1, 1, 0, 1, 0, 1}},
    {{0, 1, 1, 0, 1, 1, 1, 0}, {0, 0, 0, 1, 0, 0, 1, 1}, {0, 1, 1, 1, 1, 1, 1, 1}},
};

static void check_worked(size_t kernel) {
    const uint8_t regions[2][8] = {{0, 0, 0, 1, 0, 0, 0, 0}, {0, 0, 0, 0, 0, 0, 1, 0}};
    uint8_t masks[3][8], region[8], joined[8];
    expect(dhiirqobaal_join(8, 1, regions[0], 8, regions[1], 8, region, 8) == 0, "samples 3 and 6: join");
    expect(dhiirqobaal_mask(kernel, 1, 8, 1, regions[0], 8, masks[0], 8) == 0 &&
               dhiirqobaal_mask(kernel, 1, 8, 1, regions[1], 8, masks[1], 8) == 0 &&
               dhiirqobaal_mask(kernel, 1, 8, 1, region, 8, masks[2], 8) == 0,
           "samples 3 and 6: masks");
    expect(memcmp(masks, worked[kernel], sizeof masks) == 0, "samples 3 and 6: the worked masks");
    expect(dhiirqobaal_join(8, 1, masks[0], 8, masks[1], 8, joined, 8) == 0 && memcmp(joined, masks[2], 8) == 0,
           "samples 3 and 6: masks joined");
}

/* Calls with left and right, the first byte of each another one; the buffers have a byte more. */
static const struct {
    size_t w, h, first, second, joined;
    uint8_t byte_first, byte_second;
    uint64_t refusal;
    const char *step;
} calls[] = {
    /* All is wrong, and mended from line to line: the refusals come in their order. */
    {0, 0, 14, 14, 14, 2, 2, 4, "join, order: size"},
    {5, 0, 14, 14, 14, 2, 2, 4, "join, order: height"},
    {5, 3, 14, 14, 14, 2, 2, 5, "join, order: length of first"},
    {5, 3, 15, 14, 14, 2, 2, 5, "join, order: length of second"},
    {5, 3, 15, 15, 14, 2, 2, 5, "join, order: length of joined"},
    {5, 3, 15, 15, 15, 2, 2, 9, "join, order: bytes of both"},
    {5, 3, 15, 15, 15, 1, 2, 9, "join, order: byte of second"},
    {5, 3, 15, 15, 15, 1, 1, 0, "join, order: accepted"},
    /* One number is wrong. */
    {0, 3, 15, 15, 15, 0, 0, 4, "join: width 0"},
    {4097, 3, 15, 15, 15, 0, 0, 4, "join: width 4,097"},
    {SIZE_MAX, 3, 15, 15, 15, 0, 0, 4, "join: the largest width"},
    {5, 4097, 15, 15, 15, 0, 0, 4, "join: height 4,097"},
    {5, SIZE_MAX, 15, 15, 15, 0, 0, 4, "join: the largest height"},
    {5, 3, 16, 15, 15, 0, 0, 5, "join: first too long"},
    {5, 3, 15, 16, 15, 0, 0, 5, "join: second too long"},
    {5, 3, 15, 15, 16, 0, 0, 5, "join: joined too long"},
    {5, 3, 0, 15, 15, 0, 0, 5, "join: first empty"},
    {5, 3, 15, 0, 15, 0, 0, 5, "join: second empty"},
    {5, 3, 15, 15, 0, 0, 0, 5, "join: joined empty"},
    {5, 2, 15, 15, 15, 0, 0, 5, "join: another size"},
    {5, 3, 15, 15, 15, 2, 0, 9, "join: a byte of first above 1"},
    {5, 3, 15, 15, 15, 0, 255, 9, "join: a byte of second above 1"},
    {3, 5, 15, 15, 15, 0, 1, 0, "join: width and height exchanged"},
};

/* Under a refusal the third buffer holds what it held. */
static void check_calls(void) {
    uint8_t first[CELLS + 1] = {0}, second[CELLS + 1] = {0}, joined[CELLS + 1], before[CELLS + 1];
    size_t i;
    memcpy(first, left, CELLS);
    memcpy(second, right, CELLS);
    memset(before, STALE, sizeof before);
    for (i = 0; i < sizeof calls / sizeof *calls; i++) {
        uint64_t answer;
        first[0] = calls[i].byte_first;
        second[0] = calls[i].byte_second;
        memset(joined, STALE, sizeof joined);
        answer = dhiirqobaal_join(calls[i].w, calls[i].h, first, calls[i].first, second, calls[i].second, joined,
                                  calls[i].joined);
        expect(answer == calls[i].refusal && (answer == 0 || memcmp(joined, before, sizeof joined) == 0), calls[i].step);
    }
}

/* Every byte above 1 at every place, in one of two buffers. */
static void check_bytes(void) {
    uint8_t bytes[CELLS], joined[CELLS], before[CELLS];
    int refused = 1;
    size_t place, byte;
    memset(joined, STALE, sizeof joined);
    memset(before, STALE, sizeof before);
    for (place = 0; place < CELLS; place++) {
        memcpy(bytes, left, CELLS);
        for (byte = 2; byte <= UINT8_MAX; byte++) {
            bytes[place] = (uint8_t)byte;
            refused &= dhiirqobaal_join(W, H, bytes, CELLS, right, CELLS, joined, CELLS) == DHIIRQOBAAL_BAD_MARK;
            refused &= dhiirqobaal_join(W, H, right, CELLS, bytes, CELLS, joined, CELLS) == DHIIRQOBAAL_BAD_MARK;
        }
    }
    expect(refused && memcmp(joined, before, CELLS) == 0, "join: every byte above 1 at every place");
}

#define ADDRESSES 16 /* at which a buffer may begin */
#define ROOM (DHIIRQOBAAL_MAX_SIDE + ADDRESSES)

/* The bytes of both buffers are in turn 0 0, 1 0, 0 1 and 1 1, and the three begin at these places; no byte beside the third is
   written. */
static int joins_in_turn(size_t w, size_t h, size_t a, size_t b, size_t c) {
    static uint8_t first[ROOM], second[ROOM], joined[ROOM + 2];
    size_t length = w * h, i;
    int as_wanted = 1;
    for (i = 0; i < length; i++) {
        first[a + i] = i % 2 == 1;
        second[b + i] = i / 2 % 2 == 1;
    }
    memset(joined, STALE, sizeof joined);
    if (dhiirqobaal_join(w, h, first + a, length, second + b, length, joined + 1 + c, length) != DHIIRQOBAAL_ACCEPTED) {
        return 0;
    }
    for (i = 0; i < length; i++) {
        as_wanted &= joined[1 + c + i] == (i % 4 != 0);
    }
    return as_wanted && joined[c] == STALE && joined[1 + c + length] == STALE;
}

static void check_lines(void) {
    int as_wanted = 1;
    size_t i;
    for (i = 0; i < WIDTHS; i++) {
        expect(joins_in_turn(widths[i], 1, 0, 0, 0) && joins_in_turn(1, widths[i], 0, 0, 0), "join: a row and a column");
    }
    for (i = 0; i < ADDRESSES * ADDRESSES * ADDRESSES; i++) {
        as_wanted &= joins_in_turn(67, 1, i % ADDRESSES, i / ADDRESSES % ADDRESSES, i / ADDRESSES / ADDRESSES);
    }
    expect(as_wanted, "join: buffers at any address");
}

/* The region of rectangles, and its mask. */
struct marks {
    uint8_t region[CELLS], mask[CELLS];
};

static int draw(const uint32_t *numbers, size_t length, size_t kernel, size_t levels, struct marks *marks) {
    return dhiirqobaal_region(numbers, length, W, H, marks->region, CELLS) == 0 &&
           dhiirqobaal_mask(kernel, levels, W, H, marks->region, CELLS, marks->mask, CELLS) == 0;
}

#define RECTANGLES 90 /* 15 of columns times 6 of rows */
static uint32_t rectangles[RECTANGLES][4];

static void list_rectangles(void) {
    uint32_t x, y, width, height;
    size_t count = 0;
    for (y = 0; y < H; y++) {
        for (x = 0; x < W; x++) {
            for (height = 1; y + height <= H; height++) {
                for (width = 1; x + width <= W; width++, count++) {
                    rectangles[count][0] = x;
                    rectangles[count][1] = y;
                    rectangles[count][2] = width;
                    rectangles[count][3] = height;
                }
            }
        }
    }
    expect(count == RECTANGLES, "the rectangles of 5 by 3");
}

/* Every rectangle of 5 by 3 added to every one: the region of both, and the mask of both, are those joined. */
static void check_masks(size_t kernel, size_t levels) {
    static struct marks own[RECTANGLES];
    int same = 1;
    size_t i, j;
    for (i = 0; i < RECTANGLES; i++) {
        same &= draw(rectangles[i], 4, kernel, levels, &own[i]);
        for (j = 0; j <= i; j++) {
            uint32_t two[8];
            struct marks together;
            memcpy(two, rectangles[i], sizeof rectangles[i]);
            memcpy(two + 4, rectangles[j], sizeof rectangles[j]);
            same &= draw(two, 8, kernel, levels, &together);
            same &= gives(own[i].region, own[j].region, together.region);
            same &= gives(own[i].mask, own[j].mask, together.mask);
        }
    }
    expect(same, "the mask of two rectangles is their two masks joined");
}

void check_joins(void) {
    size_t kernel, levels;
    check_joining();
    check_calls();
    check_bytes();
    check_lines();
    list_rectangles();
    for (kernel = 0; kernel < 4; kernel++) {
        check_worked(kernel);
        for (levels = 1; levels <= DHIIRQOBAAL_MAX_LEVELS; levels++) {
            check_masks(kernel, levels);
        }
    }
}
