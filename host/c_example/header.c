/* The numbers of a stream's header, the library's version, and the refusals' texts. */
#include <stdio.h>
#include <string.h>

#include "worked.h"

#define CELLS (DHIIRQOBAAL_HEADER_RESULTS + 5)

static void make_stale(uint64_t *results) {
    size_t i;
    for (i = 0; i < CELLS; i++) {
        results[i] = STALE;
    }
}

/* Whether the first cells are the numbers, the others up to the last result number 0, and those behind it as they were. */
static int has(const uint64_t *results, const uint64_t *numbers, size_t count) {
    size_t i;
    for (i = 0; i < CELLS; i++) {
        uint64_t right = i < count ? numbers[i] : i < DHIIRQOBAAL_HEADER_RESULTS ? 0 : STALE;
        if (results[i] != right) {
            return 0;
        }
    }
    return 1;
}

static void check_numbers(const struct shot *shot) {
    uint64_t right[11] = {shot->kernel, shot->levels, 8, shot->w, shot->h, shot->planes, shot->numbers_len / 4, 0, 0, 0, 0};
    uint64_t results[CELLS];
    size_t i;
    for (i = 0; i < shot->numbers_len; i++) {
        right[DHIIRQOBAAL_HEADER_RECTANGLES + i] = shot->numbers[i];
    }
    make_stale(results);
    expect(dhiirqobaal_header(shot->stream, shot->length, results, CELLS) == DHIIRQOBAAL_ACCEPTED, shot->name);
    expect(has(results, right, 11), "the header's numbers");
}

/* Results arrays of any length: a cell that is not there is not written. */
static void check_lengths(const struct shot *wide) {
    uint64_t results[CELLS];
    int accepted = 1, kept = 1, given = 1;
    size_t length, i;
    for (length = 0; length < CELLS; length++) {
        make_stale(results);
        accepted &= dhiirqobaal_header(wide->stream, wide->length, results, length) == DHIIRQOBAAL_ACCEPTED;
        for (i = length; i < CELLS; i++) {
            kept &= results[i] == STALE;
        }
        given &= length <= 3 || (results[3] == 8 && results[2] == 8);
    }
    expect(accepted, "a short results array");
    expect(kept, "a short results array: no cell behind it");
    expect(given, "a short results array: its cells");
}

static void expect_refused(const uint8_t *stream, size_t length, uint64_t refusal, const char *step) {
    uint64_t results[CELLS];
    make_stale(results);
    expect(dhiirqobaal_header(stream, length, results, CELLS) == refusal && has(results, NULL, 0), step);
}

/* One byte of the worked stream of 8 by 4 samples changed. */
static const struct {
    size_t at;
    uint8_t value;
    uint64_t refusal;
    const char *step;
} changes[] = {
    {3, 51, 12, "a length field above the length"},
    {3, 49, 12, "a length field below the length"},
    {12, 6, 12, "a header of six rectangles, 62 bytes, in 54"},
    {4, 0, 13, "version 0"},
    {4, 2, 13, "version 2"},
    {5, 4, 1, "kernel 4"},
    {6, 0, 2, "no level"},
    {6, 6, 2, "six levels"},
    {7, 0, 3, "depth 0"},
    {7, 11, 3, "depth 11"},
    {9, 0, 4, "width 0"},
    {8, 16, 4, "width 4,104"},
    {11, 0, 4, "height 0"},
    {10, 16, 4, "height 4,100"},
    {15, 8, 8, "a rectangle beyond the right edge"},
    {17, 3, 8, "a rectangle beyond the lower edge"},
    {19, 0, 8, "a rectangle without width"},
    {21, 0, 8, "a rectangle without height"},
    {12, 2, 8, "a second rectangle beyond the right edge"},
    {13, 23, 14, "23 planes"},
    {13, 22, 0, "22 planes"},
    {53, 0xff, 0, "another body"},
};

static void check_changed_bytes(const struct shot *wide) {
    uint8_t stream[MOST_BYTES];
    uint64_t results[1];
    size_t i;
    for (i = 0; i < sizeof changes / sizeof *changes; i++) {
        memcpy(stream, wide->stream, 54);
        stream[changes[i].at] = changes[i].value;
        if (changes[i].refusal == DHIIRQOBAAL_ACCEPTED) {
            expect(dhiirqobaal_header(stream, 54, results, 1) == DHIIRQOBAAL_ACCEPTED, changes[i].step);
        } else {
            expect_refused(stream, 54, changes[i].refusal, changes[i].step);
        }
    }
    expect_refused(wide->stream, 13, DHIIRQOBAAL_BAD_HEADER, "13 bytes");
    expect_refused(wide->stream, 53, DHIIRQOBAAL_BAD_HEADER, "a broken-off stream that was not mended");
}

/* A header in which all is wrong, mended step by step: the refusals come in their order. 33 rectangles need 278 bytes. */
static void check_order(void) {
    uint8_t stream[278];
    uint64_t results[7];
    size_t i;
    memset(stream, 0xff, sizeof stream);
    stream[12] = 33;
    expect_refused(stream, 278, DHIIRQOBAAL_BAD_HEADER, "order: length field");
    stream[0] = 0, stream[1] = 0, stream[2] = 1, stream[3] = 18; /* 274 */
    expect_refused(stream, 278, DHIIRQOBAAL_BAD_VERSION, "order: version");
    stream[4] = 1;
    expect_refused(stream, 278, DHIIRQOBAAL_BAD_KERNEL, "order: kernel");
    stream[5] = 3;
    expect_refused(stream, 278, DHIIRQOBAAL_BAD_LEVELS, "order: levels");
    stream[6] = 5;
    expect_refused(stream, 278, DHIIRQOBAAL_BAD_DEPTH, "order: depth");
    stream[7] = 10;
    expect_refused(stream, 278, DHIIRQOBAAL_BAD_SIZE, "order: size");
    stream[8] = 16, stream[9] = 0, stream[10] = 16, stream[11] = 0; /* 4,096 each */
    expect_refused(stream, 278, DHIIRQOBAAL_BAD_NUMBERS, "order: 33 rectangles");
    stream[12] = 32;
    expect_refused(stream, 278, DHIIRQOBAAL_BAD_RECTANGLE, "order: rectangles");
    for (i = 14; i < 270; i++) {
        stream[i] = i % 2 == 1; /* 1 1 1 1 */
    }
    expect_refused(stream, 278, DHIIRQOBAAL_BAD_PLANES, "order: planes");
    stream[13] = 22;
    expect(dhiirqobaal_header(stream, 278, results, 7) == DHIIRQOBAAL_ACCEPTED, "order: accepted");
    expect(results[DHIIRQOBAAL_HEADER_WIDTH] == 4096 && results[DHIIRQOBAAL_HEADER_COUNT] == 32, "order: numbers");
}

void check_header(void) {
    size_t i;
    for (i = 0; i < SHOTS; i++) {
        check_numbers(&shots[i]);
    }
    check_lengths(&shots[1]);
    check_changed_bytes(&shots[1]);
    check_order();
}

void check_version(void) {
    char text[16];
    snprintf(text, sizeof text, "%d.%d.%d", DHIIRQOBAAL_VERSION_MAJOR, DHIIRQOBAAL_VERSION_MINOR, DHIIRQOBAAL_VERSION_PATCH);
    expect(dhiirqobaal_version() == DHIIRQOBAAL_VERSION, "the library's version is the header's");
    expect(DHIIRQOBAAL_VERSION == 10301, "the version's number");
    expect(strcmp(DHIIRQOBAAL_VERSION_TEXT, text) == 0 && strcmp(text, "1.3.1") == 0, "the version's text");
}

/* Each text speaks of what docs/FORMAT.md refuses under its number. */
void check_texts(void) {
    static const char *const words[] = {
        "accepted", "kernel", "levels J", "depth D", "4,096", "the picture or the area", "sample", "32 rectangles",
        "inside the picture", "mask byte", "2^22", "too short", "length field", "version", "T is above 22", "region mark",
        "filling bit", "level r is above", "does not have", "without a sample"};
    uint64_t number, other;
    int apart = 1;
    for (number = 0; number <= 19; number++) {
        const char *text = dhiirqobaal_refusal_text(number);
        expect(strstr(text, words[number]) != NULL, words[number]);
        for (other = 0; other < number; other++) {
            apart &= strcmp(text, dhiirqobaal_refusal_text(other)) != 0;
        }
    }
    expect(apart, "each number has a text of its own");
    expect(strcmp(dhiirqobaal_refusal_text(0), "accepted") == 0, "the text of 0");
    expect(strcmp(dhiirqobaal_refusal_text(UINT64_MAX), dhiirqobaal_refusal_text(18)) == 0, "the text of a number that is none");
    expect(strcmp(dhiirqobaal_refusal_text(20), dhiirqobaal_refusal_text(18)) == 0, "the text of 20, which is none");
}
