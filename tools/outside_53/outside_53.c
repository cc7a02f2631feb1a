/* The outside 5/3: OpenJPEG's reversible transform of T.800, run on one picture.

   Standard input: width, height and levels, then width x height samples, row by row.
   Standard output: width x height coefficients, row by row.
   Every number is a signed 32-bit integer in the machine's own byte order. There is no level shift.
   With an argument, a number of rounds, the transform and its undoing are also timed, and the best times, in
   milliseconds, go to standard error.
   With a second one, a level, undoing alone is timed and ends with the picture at that level: the finest levels, as
   many as the second argument says, stay as they are. This picture, row by row, is then the output.

   `opj_dwt_encode` and `opj_dwt_decode` are functions of OpenJPEG's archive that its public header leaves out. The
   records below restate what they are given, as version 2.5.0 lays it out (Debian 12, package libopenjp2-7-dev).
   Build: cc -O2 outside_53.c -l:libopenjp2.a -lm -lpthread -o outside_53 */
#include <stdint.h>
#include <stdio.h>
#include <stdlib.h>
#include <string.h>
#include <time.h>

struct subband {
    int32_t x0, y0, x1, y1;
    uint32_t number;
    void *precincts;
    uint32_t precincts_size;
    int32_t bit_planes;
    float step_size;
};

struct resolution {
    int32_t x0, y0, x1, y1;
    uint32_t precincts_wide, precincts_high, subband_count;
    struct subband subbands[3];
    uint32_t window[4];
};

struct component {
    int32_t x0, y0, x1, y1;
    uint32_t number, resolution_count, resolutions_to_decode;
    struct resolution *resolutions;
    uint32_t resolutions_size;
    int32_t *data;
    int owns_data;
    size_t data_size_needed, data_size;
    int32_t *window_data;
    uint32_t window[4];
    size_t sample_count;
};

/* Of the coder the transform reads its thread pool, the ninth pointer; the way back also reads whether the whole
   tile is decoded. */
struct coder {
    void *before[8];
    void *thread_pool;
    void *between[2];
    int32_t whole_tile;
    int32_t padding;
    void *after[500];
};

int opj_dwt_encode(struct coder *coder, struct component *component);
int opj_dwt_decode(struct coder *coder, struct component *component, uint32_t resolutions);
void *opj_thread_pool_create(int threads);

static void fail(const char *message) {
    fprintf(stderr, "outside_53: %s\n", message);
    exit(1);
}

static void *zeros(size_t count, size_t size) {
    void *memory = calloc(count, size);
    if (!memory) fail("out of memory");
    return memory;
}

/* The resolutions, the smallest first; each has half the width and height of the next, rounded up. */
static struct resolution *make_resolutions(int32_t width, int32_t height, int32_t levels) {
    struct resolution *resolutions = zeros((size_t)levels + 1, sizeof *resolutions);
    for (int32_t i = levels; i >= 0; i--) {
        resolutions[i].x1 = width;
        resolutions[i].y1 = height;
        width = (width + 1) / 2;
        height = (height + 1) / 2;
    }
    return resolutions;
}

/* The transform asks for data at a multiple of 64 bytes. */
static int32_t *numbers(size_t count) {
    int32_t *memory = aligned_alloc(64, (count * 4 + 63) / 64 * 64);
    if (!memory) fail("out of memory");
    return memory;
}

static double milliseconds(void) {
    struct timespec time;
    clock_gettime(CLOCK_MONOTONIC, &time);
    return time.tv_sec * 1e3 + time.tv_nsec * 1e-6;
}

static void transform(struct coder *coder, struct component *component) {
    if (!opj_dwt_encode(coder, component)) fail("OpenJPEG did not transform the picture");
}

static void undo(struct coder *coder, struct component *component, uint32_t resolutions) {
    if (!opj_dwt_decode(coder, component, resolutions)) fail("OpenJPEG did not undo the transform");
}

/* The best of some rounds there and back. */
static void time_rounds(struct coder *coder, struct component *component, long rounds) {
    double forward = 1e30, backward = 1e30;
    for (long i = 0; i < rounds; i++) {
        double begun = milliseconds();
        transform(coder, component);
        double turned = milliseconds();
        undo(coder, component, component->resolution_count);
        double ended = milliseconds();
        if (turned - begun < forward) forward = turned - begun;
        if (ended - turned < backward) backward = ended - turned;
    }
    fprintf(stderr, "%.6f %.6f\n", forward, backward);
}

/* The best of some rounds back, as far as these resolutions, and what the last of them leaves. Each begins with a copy
   of all coefficients, so that those it needs are not left in a cache by the work before. */
static void time_level(struct coder *coder, struct component *component, uint32_t resolutions, long rounds) {
    size_t size = component->sample_count * sizeof *component->data;
    int32_t *coefficients = numbers(component->sample_count);
    memcpy(coefficients, component->data, size);
    double best = 1e30;
    for (long i = 0; i < rounds; i++) {
        memcpy(component->data, coefficients, size);
        double begun = milliseconds();
        undo(coder, component, resolutions);
        double ended = milliseconds();
        if (ended - begun < best) best = ended - begun;
    }
    free(coefficients);
    fprintf(stderr, "%.6f\n", best);
}

/* The upper left area that has the size of a resolution. */
static void print_area(const struct component *component, const struct resolution *resolution) {
    for (int32_t y = 0; y < resolution->y1; y++) {
        const int32_t *row = component->data + (size_t)y * component->x1;
        size_t length = resolution->x1;
        if (fwrite(row, 4, length, stdout) != length) fail("the output could not be written");
    }
    if (fflush(stdout)) fail("the output could not be written");
}

int main(int argc, char **argv) {
    int32_t head[3];
    if (fread(head, 4, 3, stdin) != 3) fail("the input has no width, height and levels");
    int32_t width = head[0], height = head[1], levels = head[2];
    if (width < 1 || height < 1 || width > 4096 || height > 4096) fail("width and height are 1 to 4096");
    if (levels < 1 || levels > 5) fail("levels are 1 to 5");
    size_t count = (size_t)width * height;
    int32_t *data = numbers(count);
    if (fread(data, 4, count, stdin) != count) fail("the input has too few samples");

    struct component component;
    memset(&component, 0, sizeof component);
    component.x1 = width;
    component.y1 = height;
    component.resolution_count = component.resolutions_to_decode = (uint32_t)levels + 1;
    component.resolutions = make_resolutions(width, height, levels);
    component.data = data;
    component.sample_count = count;

    struct coder *coder = zeros(1, sizeof *coder);
    coder->thread_pool = opj_thread_pool_create(0);
    coder->whole_tile = 1;
    if (!coder->thread_pool) fail("OpenJPEG made no thread pool");
    if (argc == 2) time_rounds(coder, &component, atol(argv[1]));
    transform(coder, &component);
    long level = argc > 2 ? atol(argv[2]) : 0;
    if (level < 0 || level > levels) fail("a level is 0 to the number of levels");
    if (argc > 2) time_level(coder, &component, (uint32_t)(levels - level) + 1, atol(argv[1]));
    print_area(&component, &component.resolutions[levels - level]);
    return 0;
}
