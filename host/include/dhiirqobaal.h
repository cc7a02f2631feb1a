/*
 * dhiirqobaal.h: the C interface of Dhiirqobaal, a codec for exact-region panel shots.
 *
 * The library is a static one, target/staticlib/libinterface.a in the repository, made by `sh host/library.sh interface`.
 * `sh host/install.sh PREFIX` installs it as PREFIX/lib/libdhiirqobaal.a, with this header and a pkg-config file:
 *   cc program.c $(pkg-config --cflags --libs dhiirqobaal)
 * It is C99 or later, or C++.
 * docs/FORMAT.md of the repository, which is not installed, has the format with its formulas and worked examples.
 *
 * TERMS
 *   W, H       width and height of a picture, 1 to 4,096 each
 *   J          levels, 1 to 5, whatever W and H are
 *   D          depth in bits, 1 to 10; a sample is 0 to 2^D - 1
 *   kernel     0 S, 1 S+P (A), 2 TT, the lows of a line reflected at its ends, 3 the reversible 5/3 of ITU-T T.800 on
 *              a line.
 *              Unlike T.800, rows are transformed before columns and no level shift is made, so that the planes of
 *              kernel 3 are not those of a JPEG 2000 encoder
 *   rectangle  four numbers, x, y, width and height; (0, 0) is the upper left sample
 *   region     one byte a sample: 1 inside any rectangle, else 0
 *   mask       one byte a coefficient: 1 for those that make the region's samples exact (the marked ones), else 0
 *   joined     of two regions, or of two masks, byte by byte: 1 where either has a 1, else 0
 *   brightness  of a region in a shown picture, four whole numbers: how many samples the region has, their sum, and the
 *              quotient and the remainder of the sum by their number; the remainder is below the number, and quotient
 *              times number plus remainder is the sum
 *   plane      the coefficients of a picture; an accepted one has magnitudes below 2^22 alone
 *   undone     what undoing a plane gives, all of its levels or the deepest: whole numbers of either sign, not yet
 *              brought into range
 *   T          bit planes in a stream, 0 to 22. dhiirqobaal_write takes as many as the largest magnitude has binary
 *              digits; in a stream that is read T may be larger than needed, its highest planes then hold no 1
 *   q          planes of the unmarked coefficients that were dropped or did not arrive
 *   region mark  the shortest length that dhiirqobaal_cut takes: from it on a cut stream has every bit of the marked
 *              coefficients
 *   r          a level, 0 to J
 *   level r's area  what r levels leave of a picture: its upper left DHIIRQOBAAL_SIDE(r, W) columns and
 *              DHIIRQOBAAL_SIDE(r, H) rows, each side halved and rounded up, r times over; for r = 0 the whole picture
 *   picture at level r  the whole numbers in level r's area when the deepest J - r levels of a plane are undone; for
 *              r = 0 the undone numbers, for r = J the lowest area as the plane has it
 *   level r's mask  the mask of the region after r levels, on level r's area; for r = 0 the region. For r from 1 on
 *              dhiirqobaal_mask, called with r for J, gives it in the upper left of its buffer
 * Pictures, regions, masks, planes and undone numbers are stored row by row, W * H elements each; a picture at level r
 * likewise, its rows one directly behind the other, as many elements as level r's area has places.
 *
 * WHERE LOWS AND HIGHS LIE
 * A level works on an area, the upper left w columns and h rows of the buffer; the first area is the whole picture.
 * First each of its rows is transformed: the (w + 1) / 2 lows (rounded down) take the left part of the row, the w / 2
 * highs the rest, each in their order. Then each of its columns likewise: the (h + 1) / 2 lows take the upper part, the
 * h / 2 highs the lower. The next level works on the lows of the lows, the upper left (w + 1) / 2 columns and
 * (h + 1) / 2 rows. A mask byte lies where its coefficient lies.
 *
 * BUFFERS
 * A buffer is a pointer followed by its number of ELEMENTS (not bytes). The pointer is never null, not even for an
 * empty buffer, is aligned for its element, and leads to that many elements; those that a call only writes may hold
 * anything before it. A buffer that is written overlaps no other buffer of the call. Nothing is kept after a call. No
 * buffer is lengthened or shortened.
 *
 * REFUSALS
 * Every function but dhiirqobaal_version and dhiirqobaal_refusal_text returns 0 (accepted) or the number of a refusal.
 * No number and no content of a buffer has to be tested before a call; pointers, lengths and overlaps are the caller's
 * (BUFFERS). A function has the refusals that its description lists. They are tested in the listed order, and the first
 * whose condition holds is returned; where none does, the call is accepted. dhiirqobaal_refusal_text gives each
 * number's meaning as a text.
 *
 *    1  kernel not 0 to 3
 *    2  J not 1 to 5
 *    3  D not 1 to 10; in dhiirqobaal_truncate, which has no D, q above 22
 *    4  W or H not 1 to 4,096
 *    5  a buffer for a picture, region, mask, plane, undone numbers or shown samples is not W * H elements long, or, of
 *       undone and shown in dhiirqobaal_show_level and dhiirqobaal_show_stream, not as long as level r's area
 *    6  a sample above 2^D - 1
 *    7  the number of rectangle numbers is not a multiple of 4, or there are more than 32 rectangles
 *    8  a rectangle is empty (width or height 0) or not wholly inside the picture
 *    9  a region or mask byte above 1
 *   10  a coefficient with a magnitude of 2^22 or more
 *   11  the stream buffer (in dhiirqobaal_cut: out) is too short; results[0] is the needed length
 *   12  the stream has fewer than 14 bytes or, under any version byte, fewer than 14 + 8k (k is its rectangle
 *       count), or its length field is not its length less 4 (in dhiirqobaal_arrived: is smaller than that)
 *   13  the stream's version is not 1
 *   14  the stream's T is above 22
 *   15  the wanted length is below the region mark or above the stream's length, or the marked part is not whole
 *   16  behind a complete body the stream has a filling bit that is not 0, or a further byte
 *   17  r above J
 *   19  a region without a sample: no byte of it is 1
 * The order over all calls is 12, 13, 1, 2, 17, 3, 4, 7, 8, 14, 5, 6, 9, 19, 10, 16, 15, 11.
 *
 * Under a refusal every output buffer other than results holds what it held, with these exceptions alone:
 *   16  dhiirqobaal_read, dhiirqobaal_show_stream and dhiirqobaal_cut: plane and mask are all 0
 *   15  dhiirqobaal_cut: plane and mask hold what dhiirqobaal_read gives for the stream
 *   11  dhiirqobaal_cut: the same; dhiirqobaal_write: mask holds the mask
 *
 * RESULTS
 * `results` has any length, 0 too. Result number i is stored in results[i] where there is such a cell; cells behind
 * the last result number hold what they held. Under a refusal every result number is 0, but for the needed length
 * under 11. Result numbers are stored under every refusal: the cells never keep those of an earlier call.
 *
 * THE STREAM
 * Numbers are big-endian.
 *    0  4 bytes  length of all that follows, the stream's length less 4
 *    4  1 byte   version, 1
 *    5  1 byte   kernel
 *    6  1 byte   J
 *    7  1 byte   D
 *    8  2 bytes  W
 *   10  2 bytes  H
 *   12  1 byte   k, the number of rectangles
 *   13  1 byte   T
 *   14  8k bytes the rectangles: x, y, width, height, 2 bytes each
 *   then         the body, bits, highest bit of a byte first, the last byte filled with zeros
 * The body has the marked coefficients, bit plane T - 1 down to 0, then the unmarked ones likewise. In each plane
 * every coefficient of the class, row by row, gives that bit of its magnitude, and behind its first 1 a sign bit, 1
 * for negative. The region mark is the length up to the byte that ends the marked part; where that part has no bit
 * it is the length up to the body, 14 + 8k.
 * The body may be empty: that of a plane of zeros is (T is 0), and so is what a cut to 14 + 8k bytes leaves. Such a
 * stream is read like any other, and ends where its body would begin.
 * A stream cut to c bytes is its first c bytes with c - 4 in the length field. Cut to any length from its region mark
 * to its own, a stream that is accepted with its marked part whole is accepted again, and every sample in its
 * rectangles is shown as it is uncut.
 *
 * SHOWING WHAT ARRIVED
 * A call that broke off leaves the first bytes of a stream, whose length field still says how many were sent.
 *   1. dhiirqobaal_arrived with the bytes that are there makes them the stream cut to what arrived.
 *   2. dhiirqobaal_header gives W and H: plane, mask, undone and shown need W * H elements each.
 *   3. dhiirqobaal_show_stream with r = 0 gives the picture in shown; results[DHIIRQOBAAL_READ_WHOLE] is 1 if every
 *      marked bit arrived.
 * Step 3 in single calls: dhiirqobaal_read gives plane, mask and the same results; dhiirqobaal_undo and
 * dhiirqobaal_show, with the header's numbers, give the picture.
 * A whole stream and one that dhiirqobaal_cut gave take the same way: dhiirqobaal_arrived leaves them as they are.
 * dhiirqobaal_arrived overwrites the length field, so that with more bytes behind them they are refused (12). To show a
 * stream while more of it comes in, work on a copy, or put results[0] - 4 back into the field before the next call.
 *
 * A small picture first, to see which screen is up before the fine levels are undone: dhiirqobaal_show_stream with r
 * from 1 to the header's J. undone and shown are then as long as level r's area, plane and mask W * H as with r = 0. A
 * finer picture of the same stream needs no second reading: dhiirqobaal_show_level takes the plane.
 * Of a small picture this is exact: cut to any length from its region mark to its own, a stream that is accepted with
 * its marked part whole shows every place that level r's mask marks as it does uncut. Where it was written from the
 * plane of an accepted picture, with the kernel, J, D, W and H under which that was transformed, undone holds in these
 * places what the picture's own transform after r levels has there, and shown the same brought into range. Among these
 * places is each place (x, y) whose block holds a sample of the region: 2^r by 2^r samples from (x * 2^r, y * 2^r) on,
 * as far as the picture goes.
 * Level r's mask, where more of it is wanted: dhiirqobaal_region with the header's rectangles gives the region, level
 * 0's mask; from that dhiirqobaal_mask with r for J, r from 1 on, gives level r's in the upper left of its buffer. The
 * mask that dhiirqobaal_show_stream gives is another one, after J levels.
 *
 * ADDING A RECTANGLE
 * The mask of two regions joined is their two masks joined, for each kernel, J, W and H (this is proved). So a
 * rectangle is added to a mask without the rectangles that are in it already:
 *   1. dhiirqobaal_region with the four numbers of the new rectangle alone gives its own region.
 *   2. dhiirqobaal_mask, with the kernel and J of the old mask, gives that region's own mask.
 *   3. dhiirqobaal_join of the old mask and this one gives the mask of both.
 * Step 2 goes over the whole picture, however small the rectangle is. The masks of rectangles that come up again can be
 * kept, and any of them joined by step 3 alone.
 * The order does not matter. A mask joined with itself stays as it is, and so does one joined with the mask of the
 * empty region, which is all 0. Two regions are joined in the same way, and give the region of both.
 * Both masks must be of the same kernel and J. Nothing in their bytes tells of these: masks of different ones are
 * joined without a refusal, and what they give is of no use. dhiirqobaal_truncate takes a joined mask;
 * dhiirqobaal_write takes the rectangles, at most 32, and makes the mask of all of them itself.
 *
 * LOGGING HOW BRIGHT A LAMP IS
 * dhiirqobaal_brightness gives the brightness of a region in a shown picture, and rounds nothing, so that logs add up.
 * Of two regions of one picture that have no sample in common, the two numbers of samples added are the number of both
 * regions joined (dhiirqobaal_join), and the two sums added are its sum. A sample that both have would count twice.
 * Quotients and remainders do not add up: those of both regions are the added sum divided by the added number.
 * Cut to any length from its region mark to its own, a stream that is accepted with its marked part whole shows each
 * sample in its rectangles as it does uncut. So every region inside the rectangles has the same brightness in the cut
 * stream as in the whole one and, where that was written from the plane of an accepted picture with the kernel, J, D, W
 * and H under which it was transformed, as in the picture. Of a region that reaches out of the rectangles, or where
 * results[DHIIRQOBAAL_READ_WHOLE] is 0, it is the brightness of what arrived.
 *
 * THE LINK
 * The bytes must arrive unchanged, in their order, none left out. The format has no check sum: a changed bit is read as
 * it stands, and mostly no refusal and no result number tells of it. Where the link can change or lose bytes, send the
 * stream inside a protocol that notices and repeats: ZMODEM on a serial line (or XMODEM with CRC, which fills its last
 * block: hand on no more than the first n + 4 bytes, n being the number in the length field), TLS or SSH on a network,
 * or frames of your own with a CRC-32 each, sent again until they arrive whole. Hand on only what passed its check: a
 * part that failed it, and all that came behind it, must not reach these functions. What came before it is a call that
 * broke off, as above.
 *
 * CALLING
 * The library is x86-64 code, position-independent, that follows the System V ABI: the stack pointer is aligned to 16
 * bytes at the call, the direction flag is clear. It needs two functions from outside, memcpy and memset, of the C
 * library or of the program; it allocates nothing, makes no system call and has no variable of its own. It may be
 * called from several threads at once: no buffer that one call writes is used by another meanwhile, and buffers that
 * are only read may be shared.
 *
 * Its working memory is on the stack. Each function's description says how many bytes below the caller's stack pointer
 * a call needs at most (DHIIRQOBAAL_STACK_READ and so on), with memcpy and memset of the GNU C library; host/stack
 * measures them on pictures of 4,096 by 4,096, 4,095 by 257 and 257 by 4,095 with five levels, and calls each function
 * on a thread that has little more. Every page of a large frame is touched in turn, so that one guard page below the
 * stack is enough. A program that looks up memcpy and memset at their first call needs more in that call: link it with
 * -z now.
 *
 * In a kernel or a hypervisor, besides memcpy and memset:
 *   - SSE2 registers: the functions use the xmm registers without saving them (no x87, MMX or AVX register, and no
 *     floating-point arithmetic, so that MXCSR does not matter). SSE has to be enabled (CR4.OSFXSR set, CR0.EM and
 *     CR0.TS clear), and the caller saves and restores the state of the program that it interrupted:
 *     kernel_fpu_begin() and kernel_fpu_end() around the calls on Linux, FXSAVE and FXRSTOR elsewhere.
 *   - The red zone: the functions use up to 128 bytes below the stack pointer. An interrupt or exception that is taken
 *     on the same stack in kernel mode overwrites them, and the call then gives wrong numbers or crashes. Let every
 *     interrupt and exception switch to another stack (an interrupt stack table entry); or keep interrupts off during
 *     the call with all of its memory resident, and give NMI, machine check and debug exception, which cannot be kept
 *     off, an entry each.
 *   - The stack: a kernel's own is usually too small (16 KiB a thread on Linux). Switch to one of the stated size.
 *   - Indirect branch tracking: the code has jump tables and no ENDBR64 instruction; it has to be off.
 * Where that cannot be had, call the library from a process in user mode, where memcpy, memset and the stated stack are
 * all that it needs.
 */
#ifndef DHIIRQOBAAL_H
#define DHIIRQOBAAL_H

#include <stddef.h>
#include <stdint.h>

#ifdef __cplusplus
extern "C" {
#endif

/* The version: of this header, and by dhiirqobaal_version of the library. 10,000 major + 100 minor + patch. */
#define DHIIRQOBAAL_VERSION_MAJOR 1
#define DHIIRQOBAAL_VERSION_MINOR 3
#define DHIIRQOBAAL_VERSION_PATCH 1
#define DHIIRQOBAAL_VERSION \
    (10000 * DHIIRQOBAAL_VERSION_MAJOR + 100 * DHIIRQOBAAL_VERSION_MINOR + DHIIRQOBAAL_VERSION_PATCH)
#define DHIIRQOBAAL_VERSION_TEXT "1.3.1"

/* The limits. */
#define DHIIRQOBAAL_MAX_SIDE 4096
#define DHIIRQOBAAL_MAX_LEVELS 5
#define DHIIRQOBAAL_MAX_DEPTH 10
#define DHIIRQOBAAL_MAX_RECTANGLES 32
#define DHIIRQOBAAL_MAX_PLANES 22

/*
 * The side of level r's area in a picture with that side: the side halved and rounded up, r times over. For r from 0 to
 * DHIIRQOBAAL_MAX_LEVELS and a side from 1 to DHIIRQOBAAL_MAX_SIDE; r is evaluated twice.
 */
#define DHIIRQOBAAL_SIDE(r, side) (((side) + (1u << (r)) - 1u) >> (r))

/* The bytes of stack that a call needs at most, below the caller's stack pointer. */
#define DHIIRQOBAAL_STACK_REGION 1024
#define DHIIRQOBAAL_STACK_MASK 40960
#define DHIIRQOBAAL_STACK_JOIN 1024
#define DHIIRQOBAAL_STACK_TRANSFORM 143360
#define DHIIRQOBAAL_STACK_UNDO 20480
#define DHIIRQOBAAL_STACK_SHOW 1024
#define DHIIRQOBAAL_STACK_SHOW_LEVEL 20480
#define DHIIRQOBAAL_STACK_BRIGHTNESS 1024
#define DHIIRQOBAAL_STACK_TRUNCATE 1024
#define DHIIRQOBAAL_STACK_WRITE 368640
#define DHIIRQOBAAL_STACK_READ 368640
#define DHIIRQOBAAL_STACK_SHOW_STREAM 385024
#define DHIIRQOBAAL_STACK_CUT 368640
#define DHIIRQOBAAL_STACK_BODY 1024
#define DHIIRQOBAAL_STACK_ARRIVED 1024
#define DHIIRQOBAAL_STACK_HEADER 4096
#define DHIIRQOBAAL_STACK_VERSION 1024

/* What the functions return that refuse. */
enum dhiirqobaal_refusal {
    DHIIRQOBAAL_ACCEPTED = 0,
    DHIIRQOBAAL_BAD_KERNEL = 1,
    DHIIRQOBAAL_BAD_LEVELS = 2,
    DHIIRQOBAAL_BAD_DEPTH = 3,
    DHIIRQOBAAL_BAD_SIZE = 4,
    DHIIRQOBAAL_BAD_LENGTH = 5,
    DHIIRQOBAAL_BAD_SAMPLE = 6,
    DHIIRQOBAAL_BAD_NUMBERS = 7,
    DHIIRQOBAAL_BAD_RECTANGLE = 8,
    DHIIRQOBAAL_BAD_MARK = 9,
    DHIIRQOBAAL_BAD_MAGNITUDE = 10,
    DHIIRQOBAAL_NO_ROOM = 11,
    DHIIRQOBAAL_BAD_HEADER = 12,
    DHIIRQOBAAL_BAD_VERSION = 13,
    DHIIRQOBAAL_BAD_PLANES = 14,
    DHIIRQOBAAL_BAD_CUT = 15,
    DHIIRQOBAAL_BAD_FILLING = 16,
    DHIIRQOBAAL_BAD_LEVEL = 17,
    DHIIRQOBAAL_NO_SAMPLE = 19
};

/* Where dhiirqobaal_brightness stores its result numbers. */
enum dhiirqobaal_brightness_result {
    DHIIRQOBAAL_BRIGHTNESS_NUMBER = 0,    /* number of the region's samples */
    DHIIRQOBAAL_BRIGHTNESS_SUM = 1,       /* their sum */
    DHIIRQOBAAL_BRIGHTNESS_QUOTIENT = 2,  /* the sum divided by the number, without what is left */
    DHIIRQOBAAL_BRIGHTNESS_REMAINDER = 3, /* what is left, below the number */
    DHIIRQOBAAL_BRIGHTNESS_RESULTS = 4    /* how many they are */
};

/* Where dhiirqobaal_write stores its result numbers. */
enum dhiirqobaal_write_result {
    DHIIRQOBAAL_WRITE_TOTAL = 0,       /* total length of the stream; under 11 the needed one */
    DHIIRQOBAAL_WRITE_REGION_MARK = 1, /* region mark */
    DHIIRQOBAAL_WRITE_MARKS = 2,       /* number of marked coefficients */
    DHIIRQOBAAL_WRITE_RESULTS = 3      /* how many they are */
};

/* Where dhiirqobaal_read and dhiirqobaal_show_stream store their result numbers. */
enum dhiirqobaal_read_result {
    DHIIRQOBAAL_READ_MARKS = 0,       /* number of marked coefficients */
    DHIIRQOBAAL_READ_WHOLE = 1,       /* 1 if the marked part is whole, else 0 */
    DHIIRQOBAAL_READ_REGION_MARK = 2, /* region mark; 0 if the marked part is not whole */
    DHIIRQOBAAL_READ_Q = 3,           /* planes of the unmarked that were not wholly received, see below */
    DHIIRQOBAAL_READ_KERNEL = 4,      /* the header, from here on */
    DHIIRQOBAAL_READ_LEVELS = 5,      /* J */
    DHIIRQOBAAL_READ_DEPTH = 6,       /* D */
    DHIIRQOBAAL_READ_WIDTH = 7,       /* W */
    DHIIRQOBAAL_READ_HEIGHT = 8,      /* H */
    DHIIRQOBAAL_READ_PLANES = 9,      /* T */
    DHIIRQOBAAL_READ_COUNT = 10,      /* k, the number of rectangles */
    DHIIRQOBAAL_READ_RECTANGLES = 11, /* 128 numbers: x, y, width, height of each in turn, 0 behind the last one */
    DHIIRQOBAAL_READ_RESULTS = 139    /* how many they are */
};

/* Where dhiirqobaal_cut stores its result number. */
enum dhiirqobaal_cut_result {
    DHIIRQOBAAL_CUT_LENGTH = 0, /* length of the cut stream; under 11 the needed one */
    DHIIRQOBAAL_CUT_RESULTS = 1 /* how many they are */
};

/* Where dhiirqobaal_body stores its result numbers. */
enum dhiirqobaal_body_result {
    DHIIRQOBAAL_BODY_START = 0,  /* where the body begins in the stream, 14 + 8k */
    DHIIRQOBAAL_BODY_LENGTH = 1, /* its length in bytes */
    DHIIRQOBAAL_BODY_RESULTS = 2 /* how many they are */
};

/* Where dhiirqobaal_arrived stores its result number. */
enum dhiirqobaal_arrived_result {
    DHIIRQOBAAL_ARRIVED_SENT = 0,   /* length of the stream that was sent */
    DHIIRQOBAAL_ARRIVED_RESULTS = 1 /* how many they are */
};

/* Where dhiirqobaal_header stores its result numbers. */
enum dhiirqobaal_header_result {
    DHIIRQOBAAL_HEADER_KERNEL = 0,     /* kernel */
    DHIIRQOBAAL_HEADER_LEVELS = 1,     /* J */
    DHIIRQOBAAL_HEADER_DEPTH = 2,      /* D */
    DHIIRQOBAAL_HEADER_WIDTH = 3,      /* W */
    DHIIRQOBAAL_HEADER_HEIGHT = 4,     /* H */
    DHIIRQOBAAL_HEADER_PLANES = 5,     /* T */
    DHIIRQOBAAL_HEADER_COUNT = 6,      /* k, the number of rectangles */
    DHIIRQOBAAL_HEADER_RECTANGLES = 7, /* 128 numbers: x, y, width, height of each in turn, 0 behind the last one */
    DHIIRQOBAAL_HEADER_RESULTS = 135   /* how many they are */
};

/*
 * The meaning of a refusal's number, 1 to 17 and 19, as a text; that of 0 is "accepted". It never returns null,
 * whatever the number, and the text is not to be freed or changed.
 */
static inline const char *dhiirqobaal_refusal_text(uint64_t number)
{
    switch (number) {
    case 0: return "accepted";
    case 1: return "the kernel is not 0 to 3";
    case 2: return "the levels J are not 1 to 5";
    case 3: return "the depth D is not 1 to 10 (in dhiirqobaal_truncate: q is above 22)";
    case 4: return "width or height is not 1 to 4,096";
    case 5: return "a buffer is not as long as the picture or the area that it is for";
    case 6: return "a sample is above 2^D - 1";
    case 7: return "there are more than 32 rectangles, or not four numbers for each";
    case 8: return "a rectangle is empty or not wholly inside the picture";
    case 9: return "a region or mask byte is above 1";
    case 10: return "a coefficient's magnitude is 2^22 or more";
    case 11: return "the stream buffer is too short";
    case 12: return "the stream is shorter than its header, or its length field does not fit its length";
    case 13: return "the stream's version is not 1";
    case 14: return "the stream's plane count T is above 22";
    case 15: return "the wanted length is below the region mark or above the stream's length, or the marked part is not whole";
    case 16: return "behind the complete body there is a filling bit that is not 0, or a further byte";
    case 17: return "the level r is above the levels J";
    case 19: return "the region is without a sample";
    default: return "a number that the interface does not have";
    }
}

/*
 * The region of rectangles.
 *   numbers  x, y, width, height of each rectangle in turn; at most 32 rectangles, none and overlapping ones allowed
 *   w, h     W and H
 *   region   written, W * H bytes
 * Refusals in their order: 4, 7, 8, 5 (region).
 * Accepted: region is 1 at every sample inside any rectangle and 0 at all others. Under each refusal: as it was.
 * It needs at most 1,024 bytes of stack, DHIIRQOBAAL_STACK_REGION.
 */
uint64_t dhiirqobaal_region(const uint32_t *numbers, size_t numbers_len, size_t w, size_t h, uint8_t *region,
                            size_t region_len);

/*
 * The mask of a region: the coefficients from which its samples are rebuilt exactly, whatever the others are.
 *   kernel, levels, w, h  kernel, J, W and H
 *   region                W * H bytes, each 0 or 1; it need not consist of rectangles
 *   mask                  written, W * H bytes
 * Refusals in their order: 1, 2, 4, 5 (region or mask), 9 (region).
 * Accepted: mask is the mask of the region after J levels, 0 or 1 each. Under each refusal: as it was.
 * It needs at most 40,960 bytes of stack, DHIIRQOBAAL_STACK_MASK.
 */
uint64_t dhiirqobaal_mask(size_t kernel, size_t levels, size_t w, size_t h, const uint8_t *region, size_t region_len,
                          uint8_t *mask, size_t mask_len);

/*
 * Joins two regions, or two masks of the same kernel and J.
 *   w, h           W and H
 *   first, second  W * H bytes each, each 0 or 1; both may be the same buffer
 *   joined         written, W * H bytes; apart from `first` and `second`
 * Refusals in their order: 4, 5 (first, second or joined), 9 (first or second).
 * Accepted: joined is 1 at every place where first or second is 1 and 0 at all others. Of two regions this is the
 * region of all that lies in either; of two masks it is the mask of that region. Under each refusal: as it was.
 * It needs at most 1,024 bytes of stack, DHIIRQOBAAL_STACK_JOIN.
 */
uint64_t dhiirqobaal_join(size_t w, size_t h, const uint8_t *first, size_t first_len, const uint8_t *second,
                          size_t second_len, uint8_t *joined, size_t joined_len);

/*
 * The plane of a picture.
 *   kernel, levels, depth, w, h  kernel, J, D, W and H
 *   samples                      the picture, W * H samples from 0 to 2^D - 1
 *   plane                        written, W * H coefficients
 * Refusals in their order: 1, 2, 3, 4, 5 (samples or plane), 6.
 * Accepted: plane holds the coefficients after J levels; they are accepted ones, and dhiirqobaal_undo gives the
 * samples back. Under each refusal: as it was.
 * It needs at most 143,360 bytes of stack, DHIIRQOBAAL_STACK_TRANSFORM.
 */
uint64_t dhiirqobaal_transform(size_t kernel, size_t levels, size_t depth, size_t w, size_t h,
                               const uint16_t *samples, size_t samples_len, int32_t *plane, size_t plane_len);

/*
 * Undoes the transform.
 *   kernel, levels, w, h  kernel, J, W and H
 *   plane                 W * H coefficients with magnitudes below 2^22
 *   undone                written, W * H whole numbers of either sign; dhiirqobaal_show brings them into range
 * Refusals in their order: 1, 2, 4, 5 (plane or undone), 10.
 * Accepted: undone holds the numbers after all J levels are undone. Under each refusal: as it was.
 * It needs at most 20,480 bytes of stack, DHIIRQOBAAL_STACK_UNDO.
 */
uint64_t dhiirqobaal_undo(size_t kernel, size_t levels, size_t w, size_t h, const int32_t *plane, size_t plane_len,
                          int32_t *undone, size_t undone_len);

/*
 * Brings undone numbers into range.
 *   depth, w, h  D, W and H
 *   undone       W * H numbers of any value
 *   shown        written, W * H samples
 * Refusals in their order: 3, 4, 5 (undone or shown).
 * Accepted: shown is 0 for a number below 0, 2^D - 1 for one above that, else the number. Under each refusal: as it
 * was.
 * It needs at most 1,024 bytes of stack, DHIIRQOBAAL_STACK_SHOW.
 */
uint64_t dhiirqobaal_show(size_t depth, size_t w, size_t h, const int32_t *undone, size_t undone_len,
                          uint16_t *shown, size_t shown_len);

/*
 * Shows a plane at level r: undoes its deepest J - r levels alone, and brings what stands in level r's area into range.
 *   kernel, levels, r, depth, w, h  kernel, J, r, D, W and H
 *   plane                           W * H coefficients with magnitudes below 2^22
 *   undone                          written, as many whole numbers of either sign as level r's area has places
 *   shown                           written, as many samples
 * Refusals in their order: 1, 2, 17, 3, 4, 5 (plane not W * H, undone or shown not as long as level r's area), 10 (any
 * coefficient of the plane, outside the area too).
 * Accepted: undone is the picture at level r; shown is 0 for a number of undone below 0, 2^D - 1 for one above that,
 * else the number. With r = 0 they are what dhiirqobaal_undo and dhiirqobaal_show give. Under each refusal: undone and
 * shown as they were.
 * It needs at most 20,480 bytes of stack, DHIIRQOBAAL_STACK_SHOW_LEVEL.
 */
uint64_t dhiirqobaal_show_level(size_t kernel, size_t levels, size_t r, size_t depth, size_t w, size_t h,
                                const int32_t *plane, size_t plane_len, int32_t *undone, size_t undone_len,
                                uint16_t *shown, size_t shown_len);

/*
 * The brightness of a region in a shown picture.
 *   w, h     W and H
 *   picture  W * H samples, any 16-bit numbers: no depth is given
 *   region   W * H bytes, each 0 or 1; it need not consist of rectangles
 *   results  0 number of the region's samples, 1 their sum, 2 quotient of the sum by the number, 3 remainder
 * Refusals in their order: 4, 5 (picture or region), 9 (region), 19.
 * Accepted: the number is at least 1, the remainder is below it, and quotient * number + remainder is the sum, which is
 * at most 1,099,494,850,560. Under each refusal all four result numbers are 0. Picture and region are not written.
 * It needs at most 1,024 bytes of stack, DHIIRQOBAAL_STACK_BRIGHTNESS.
 */
uint64_t dhiirqobaal_brightness(size_t w, size_t h, const uint16_t *picture, size_t picture_len, const uint8_t *region,
                                size_t region_len, uint64_t *results, size_t results_len);

/*
 * Drops the lowest q planes of every unmarked coefficient, in place.
 *   q      0 to 22
 *   w, h   W and H
 *   mask   W * H bytes, each 0 or 1
 *   plane  read and written, W * H coefficients with magnitudes below 2^22
 * Refusals in their order: 3 (q above 22), 4, 5 (mask or plane), 9 (mask), 10.
 * Accepted: a coefficient c whose mask byte is 0 becomes its sign times floor(|c| / 2^q) * 2^q; one whose mask byte is
 * 1 stays. Under each refusal: plane as it was.
 * It needs at most 1,024 bytes of stack, DHIIRQOBAAL_STACK_TRUNCATE.
 */
uint64_t dhiirqobaal_truncate(size_t q, size_t w, size_t h, const uint8_t *mask, size_t mask_len, int32_t *plane,
                              size_t plane_len);

/*
 * Writes the stream of a plane.
 *   plane                        W * H coefficients with magnitudes below 2^22
 *   numbers                      the rectangles' numbers, as in dhiirqobaal_region
 *   kernel, levels, depth, w, h  what stands in the header: those under which the picture was transformed
 *   mask                         written, W * H bytes: the mask of the rectangles' region
 *   stream                       written, as long as the stream or longer
 *   results                      0 total length (under 11 the needed one), 1 region mark, 2 number of marks
 * Refusals in their order: 1, 2, 3, 4, 7, 8, 5 (plane or mask), 10, 11.
 * Accepted: mask holds the mask; stream begins with the stream, and its bytes past the total length hold what they
 * held.
 * Under 11: mask holds the mask, stream holds what it held, results[0] is the needed length, results[1] and
 * results[2] are 0. A call with an empty stream buffer (stream_len 0) thus asks for the length. All else must be as in
 * a full call: a stream pointer that is not null, the mask buffer of W * H bytes, which the call fills with the mask,
 * and a cell of results.
 * Under 1, 2, 3, 4, 7, 8, 5 and 10: mask and stream hold what they held, results[0] to results[2] are 0.
 * It needs at most 368,640 bytes of stack, DHIIRQOBAAL_STACK_WRITE.
 */
uint64_t dhiirqobaal_write(const int32_t *plane, size_t plane_len, const uint32_t *numbers, size_t numbers_len,
                           size_t kernel, size_t levels, size_t depth, size_t w, size_t h, uint8_t *mask,
                           size_t mask_len, uint8_t *stream, size_t stream_len, uint64_t *results,
                           size_t results_len);

/*
 * Reads a stream, whole or cut.
 *   stream   all bytes of the stream and no others
 *   plane    written, W * H coefficients; W and H are those of the header, which dhiirqobaal_header gives
 *   mask     written, W * H bytes
 *   results  0 marks, 1 whole, 2 region mark, 3 q, 4 kernel, 5 J, 6 D, 7 W, 8 H, 9 T, 10 k, then 128 rectangle
 *            numbers, x, y, width and height of each rectangle in turn, 0 behind the last: 139 in all
 * Refusals in their order: 12, 13, 1, 2, 3, 4, 7 (k above 32), 8, 14, 5 (plane or mask), 16.
 * Accepted: mask holds the mask of the header's rectangles. plane holds what was received: bits that did not arrive
 * are 0, and a coefficient whose first 1 arrived without its sign is 0. A T larger than needed is taken. whole is 1
 * if every bit of the marked part arrived, as it always is where nothing is marked; region mark is 0 if not. q is the
 * number of planes of the unmarked that were not wholly received: T if the marked part is not whole; 0 if it is and
 * nothing is unmarked. The plane is accepted by dhiirqobaal_undo and dhiirqobaal_show_level.
 * Under 16: plane and mask are all 0, the 139 result numbers are 0.
 * Under 12, 13, 1, 2, 3, 4, 7, 8, 14 and 5: plane and mask hold what they held, the 139 result numbers are 0.
 * It needs at most 368,640 bytes of stack, DHIIRQOBAAL_STACK_READ.
 */
uint64_t dhiirqobaal_read(const uint8_t *stream, size_t stream_len, int32_t *plane, size_t plane_len, uint8_t *mask,
                          size_t mask_len, uint64_t *results, size_t results_len);

/*
 * Shows a stream, whole or cut, at level r: reads it, undoes the deepest J - r levels and brings what stands in level
 * r's area into range, each with what its header says. With r = 0 it shows the full picture: dhiirqobaal_read,
 * dhiirqobaal_undo and dhiirqobaal_show in one call.
 *   stream   all bytes of the stream and no others
 *   r        0 to J; dhiirqobaal_header gives J, W and H, and a larger r has no area to size a buffer by
 *   plane    written, W * H coefficients
 *   mask     written, W * H bytes: the mask after J levels, whatever r is, not level r's mask
 *   undone   written, as many whole numbers of either sign as level r's area has places
 *   shown    written, as many samples
 *   results  139 in all, those of dhiirqobaal_read in the same places
 * Refusals in their order: 12, 13, 1, 2, 17, 3, 4, 7 (k above 32), 8, 14, 5 (plane or mask not W * H, undone or shown
 * not as long as level r's area), 16.
 * Accepted: plane, mask and results are what dhiirqobaal_read gives for the stream; undone and shown are what
 * dhiirqobaal_show_level gives for that plane with the header's numbers.
 * Under 16: plane and mask are all 0, undone and shown hold what they held, the 139 result numbers are 0.
 * Under 12, 13, 1, 2, 17, 3, 4, 7, 8, 14 and 5: plane, mask, undone and shown hold what they held, the 139 result
 * numbers are 0.
 * It needs at most 385,024 bytes of stack, DHIIRQOBAAL_STACK_SHOW_STREAM.
 */
uint64_t dhiirqobaal_show_stream(const uint8_t *stream, size_t stream_len, size_t r, int32_t *plane, size_t plane_len,
                                 uint8_t *mask, size_t mask_len, int32_t *undone, size_t undone_len, uint16_t *shown,
                                 size_t shown_len, uint64_t *results, size_t results_len);

/*
 * Copies a stream, cut to a wanted total length.
 *   stream   all bytes of the stream and no others
 *   wanted   total length of the cut stream, from the stream's region mark to its length
 *   plane    written, W * H coefficients of the uncut stream (working memory: the stream is read to find its region
 *            mark)
 *   mask     written, W * H bytes, likewise
 *   out      written, `wanted` bytes or longer; apart from `stream`
 *   results  0 length of the cut stream (under 11 the needed one)
 * Refusals in their order: 12, 13, 1, 2, 3, 4, 7 (k above 32), 8, 14, 5 (plane or mask), 16, 15, 11 (out).
 * Accepted: out begins with the first `wanted` bytes of the stream, with wanted - 4 in the length field, and its bytes
 * past them hold what they held; plane and mask hold what dhiirqobaal_read gives for the uncut stream; results[0] is
 * `wanted`.
 * Under 15: out holds what it held; plane and mask hold what dhiirqobaal_read gives for the uncut stream; results[0]
 * is 0.
 * Under 11: the same, but results[0] is the needed length, `wanted`.
 * Under 16: out holds what it held; plane and mask are all 0; results[0] is 0.
 * Under 12, 13, 1, 2, 3, 4, 7, 8, 14 and 5: out, plane and mask hold what they held; results[0] is 0.
 * It needs at most 368,640 bytes of stack, DHIIRQOBAAL_STACK_CUT.
 */
uint64_t dhiirqobaal_cut(const uint8_t *stream, size_t stream_len, size_t wanted, int32_t *plane, size_t plane_len,
                         uint8_t *mask, size_t mask_len, uint8_t *out, size_t out_len, uint64_t *results,
                         size_t results_len);

/*
 * Finds the body of a stream. It tests 12 and 13 alone: the rest of the header may still be refused by
 * dhiirqobaal_read.
 *   stream   all bytes of the stream and no others
 *   results  0 where the body begins in the stream, 1 its length in bytes
 * Refusals in their order: 12, 13.
 * Accepted: the body is the results[1] bytes from stream[results[0]] on. Where results[1] is 0 the body is empty and
 * results[0] is the stream's length, so that there is no byte at that place. Under each refusal both result numbers are
 * 0. The stream is not written.
 * It needs at most 1,024 bytes of stack, DHIIRQOBAAL_STACK_BODY.
 */
uint64_t dhiirqobaal_body(const uint8_t *stream, size_t stream_len, uint64_t *results, size_t results_len);

/*
 * Makes what a call that broke off has left the stream cut to what arrived, in place. It looks at the length field and
 * at k alone: the rest of the header may still be refused by dhiirqobaal_header and dhiirqobaal_read.
 *   stream   read and written, the bytes that arrived and no others
 *   results  0 length of the stream that was sent: the length field as it was, plus 4
 * Refusals: 12, here for fewer than 14 bytes, fewer than 14 + 8k under any version byte, or more bytes than the length
 * field says (a field below stream_len - 4).
 * Accepted: where the length field is larger than stream_len - 4, it becomes stream_len - 4; any other is right and
 * stays. All bytes behind the field stay. What arrived is stream_len bytes of results[0], all where the two are equal.
 * Under 12: stream holds what it held, results[0] is 0.
 * What the call leaves of the first c bytes of a stream, c from the end of its header (14 + 8k) to its length, is the
 * stream cut to c bytes (this is proved). Of a stream that dhiirqobaal_write gave it is thus, from the region mark on,
 * what dhiirqobaal_cut gives for c; below it dhiirqobaal_read accepts it and answers that its marked part is not whole.
 * It needs at most 1,024 bytes of stack, DHIIRQOBAAL_STACK_ARRIVED.
 */
uint64_t dhiirqobaal_arrived(uint8_t *stream, size_t stream_len, uint64_t *results, size_t results_len);

/*
 * The numbers of a stream's header, without any buffer. A caller sizes its buffers by them: plane and mask for
 * dhiirqobaal_read, undone and shown for the picture have W * H elements each, 16,777,216 at most; for the picture at
 * level r undone and shown have DHIIRQOBAAL_SIDE(r, W) * DHIIRQOBAAL_SIDE(r, H).
 *   stream   all bytes of the stream and no others; of the body the length alone matters
 *   results  0 kernel, 1 J, 2 D, 3 W, 4 H, 5 T, 6 k, then 128 rectangle numbers, x, y, width and height of each
 *            rectangle in turn, 0 behind the last: 135 in all
 * Refusals in their order: 12, 13, 1, 2, 3, 4, 7 (k above 32), 8, 14.
 * Accepted: the 135 result numbers are those of the header; of dhiirqobaal_read's refusals 5 and 16 are left, of
 * dhiirqobaal_show_stream's 17 as well. Under each refusal all 135 are 0. The stream is not written.
 * It needs at most 4,096 bytes of stack, DHIIRQOBAAL_STACK_HEADER.
 */
uint64_t dhiirqobaal_header(const uint8_t *stream, size_t stream_len, uint64_t *results, size_t results_len);

/*
 * The library's version, 10,000 major + 100 minor + patch: 10301 for 1.3.1. A program that was compiled with the header
 * of the same version finds it equal to DHIIRQOBAAL_VERSION. It takes nothing and refuses nothing.
 * It needs at most 1,024 bytes of stack, DHIIRQOBAAL_STACK_VERSION.
 */
uint64_t dhiirqobaal_version(void);

#ifdef __cplusplus
}
#endif

#endif
