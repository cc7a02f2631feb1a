/* Calls that broke off: what dhiirqobaal_arrived makes of the first bytes of the worked streams. */
#include <string.h>

#include "worked.h"

/* The stream cut to a length, as docs/FORMAT.md defines it; a worked stream's length fits the field's last byte. */
static void cut_by_hand(const struct shot *shot, size_t length, uint8_t *part) {
    memcpy(part, shot->stream, length);
    part[3] = (uint8_t)(length - 4);
}

/* Whether dhiirqobaal_cut gives the same bytes, or refuses a length below the region mark. */
static int as_the_cutter(const struct shot *shot, size_t length, const uint8_t *part) {
    uint8_t mask[MOST_CELLS], cut[MOST_BYTES];
    int32_t plane[MOST_CELLS];
    uint64_t results[1];
    size_t cells = shot->w * shot->h;
    uint64_t refusal = dhiirqobaal_cut(shot->stream, shot->length, length, plane, cells, mask, cells, cut, sizeof cut, results, 1);
    if (length < shot->region_mark) {
        return refusal == DHIIRQOBAAL_BAD_CUT;
    }
    return refusal == DHIIRQOBAAL_ACCEPTED && memcmp(cut, part, length) == 0;
}

/* Whether the reader takes the bytes, and answers that the marked part is whole from the region mark on alone. */
static int as_the_reader_says(const struct shot *shot, size_t length, const uint8_t *part) {
    uint8_t mask[MOST_CELLS];
    int32_t plane[MOST_CELLS];
    uint64_t results[3];
    size_t cells = shot->w * shot->h;
    return dhiirqobaal_read(part, length, plane, cells, mask, cells, results, 3) == DHIIRQOBAAL_ACCEPTED &&
           results[DHIIRQOBAAL_READ_WHOLE] == (length >= shot->region_mark) &&
           results[DHIIRQOBAAL_READ_REGION_MARK] == (length >= shot->region_mark ? shot->region_mark : 0);
}

/* Every length from the header's end on. */
static void check_broken_off(const struct shot *shot) {
    int accepted = 1, bytes = 1, sent = 1, cut = 1, read = 1;
    size_t length;
    for (length = 14 + 2 * shot->numbers_len; length <= shot->length; length++) {
        uint8_t part[MOST_BYTES + 1], right[MOST_BYTES];
        uint64_t results[2] = {STALE, STALE};
        memcpy(part, shot->stream, length);
        part[length] = STALE;
        cut_by_hand(shot, length, right);
        accepted &= dhiirqobaal_arrived(part, length, results, 2) == DHIIRQOBAAL_ACCEPTED;
        bytes &= memcmp(part, right, length) == 0 && part[length] == STALE;
        sent &= results[DHIIRQOBAAL_ARRIVED_SENT] == shot->length && results[1] == STALE;
        cut &= as_the_cutter(shot, length, part);
        read &= as_the_reader_says(shot, length, part);
    }
    expect(accepted, shot->name);
    expect(bytes, "the bytes of what arrived");
    expect(sent, "the length that was sent");
    expect(cut, "what arrived, beside the cutter");
    expect(read, "what arrived, read");
}

/* Whether the bytes are refused with 12, nothing is changed and the result number is 0. */
static int refused(const uint8_t *bytes, size_t length) {
    uint8_t part[MOST_BYTES + 1];
    uint64_t results[1] = {STALE};
    memcpy(part, bytes, length);
    return dhiirqobaal_arrived(part, length, results, 1) == DHIIRQOBAAL_BAD_HEADER && memcmp(part, bytes, length) == 0 &&
           results[0] == 0;
}

static void check_refused(const struct shot *wide) {
    uint8_t bytes[MOST_BYTES + 1] = {0};
    int fewer = 1, inside = 1;
    size_t length;
    for (length = 0; length < 14; length++) {
        fewer &= refused(wide->stream, length);
    }
    for (length = 14; length < 22; length++) {
        inside &= refused(wide->stream, length);
    }
    expect(fewer, "fewer than 14 bytes");
    expect(inside, "a header cut inside its rectangle");
    memcpy(bytes, wide->stream, 54);
    expect(refused(bytes, 55), "a byte more than the length field says");
    bytes[3] = 0;
    expect(refused(bytes, 22), "a length field of 0");
    bytes[3] = 50;
    bytes[12] = 255;
    expect(refused(bytes, 54), "a header of 255 rectangles");
}

/* The version byte, the rest of the header and the body are not looked at. */
static void check_any_content(const struct shot *wide) {
    uint8_t bytes[22], before[22];
    uint8_t fewest[14] = {0xff, 0xff, 0xff, 0xff, 9, 9, 9, 9, 9, 9, 9, 9, 0, 9};
    uint64_t results[1];
    memcpy(bytes, wide->stream, 22);
    bytes[4] = 2;
    expect(refused(bytes, 21), "another version, a header cut inside its rectangle");
    memcpy(before, bytes, 22);
    expect(dhiirqobaal_arrived(bytes, 22, results, 0) == DHIIRQOBAAL_ACCEPTED, "another version, no cell for the result");
    expect(bytes[3] == 18 && memcmp(bytes + 4, before + 4, 18) == 0, "another version: the bytes");
    expect(dhiirqobaal_arrived(fewest, 14, results, 1) == DHIIRQOBAAL_ACCEPTED, "the largest length field");
    expect(results[0] == UINT64_C(4294967299), "the largest length field: what was sent");
    expect(fewest[0] == 0 && fewest[1] == 0 && fewest[2] == 0 && fewest[3] == 10 && fewest[4] == 9, "the largest length field: mended");
}

void check_arrived(void) {
    size_t i;
    for (i = 0; i < SHOTS; i++) {
        check_broken_off(&shots[i]);
    }
    check_refused(&shots[1]);
    check_any_content(&shots[1]);
}
