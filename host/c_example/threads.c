/* Several threads at once, each with buffers of its own: every one gets its worked stream, and its picture back. */
#include <pthread.h>
#include <string.h>

#include "worked.h"

#define ROUNDS 2000

/* Whether all samples of a shot, shown, have the number and the sum of its picture. */
static int as_bright(const struct shot *shot, const uint16_t *shown) {
    uint8_t all[MOST_CELLS];
    uint64_t results[DHIIRQOBAAL_BRIGHTNESS_RESULTS], sum = 0;
    size_t cells = shot->w * shot->h, i;
    memset(all, 1, sizeof all);
    for (i = 0; i < cells; i++) {
        sum += shot->samples[i];
    }
    return dhiirqobaal_brightness(shot->w, shot->h, shown, cells, all, cells, results, DHIIRQOBAAL_BRIGHTNESS_RESULTS) == 0 &&
           results[0] == cells && results[1] == sum && results[2] * cells + results[3] == sum && results[3] < cells;
}

/* From the picture to the stream and back, once; whether all is as worked. */
static int there_and_back(const struct shot *shot) {
    int32_t plane[MOST_CELLS], undone[MOST_CELLS];
    uint8_t mask[MOST_CELLS], joined[MOST_CELLS], stream[MOST_BYTES];
    uint16_t shown[MOST_CELLS];
    uint64_t results[DHIIRQOBAAL_HEADER_RESULTS];
    size_t cells = shot->w * shot->h, length = shot->length;
    size_t places = halved(shot->levels, shot->w); /* the lowest area of each worked picture is one row */
    return dhiirqobaal_transform(shot->kernel, shot->levels, 8, shot->w, shot->h, shot->samples, cells, plane, cells) == 0 &&
           dhiirqobaal_write(plane, cells, shot->numbers, shot->numbers_len, shot->kernel, shot->levels, 8, shot->w, shot->h, mask,
                             cells, stream, sizeof stream, results, 3) == 0 &&
           results[0] == length && memcmp(stream, shot->stream, length) == 0 &&
           dhiirqobaal_arrived(stream, length, results, 1) == 0 && results[0] == length &&
           dhiirqobaal_header(stream, length, results, DHIIRQOBAAL_HEADER_RESULTS) == 0 && results[3] == shot->w &&
           dhiirqobaal_read(stream, length, plane, cells, mask, cells, results, 4) == 0 && results[1] == 1 &&
           dhiirqobaal_join(shot->w, shot->h, mask, cells, mask, cells, joined, cells) == 0 &&
           memcmp(joined, mask, cells) == 0 &&
           dhiirqobaal_undo(shot->kernel, shot->levels, shot->w, shot->h, plane, cells, undone, cells) == 0 &&
           dhiirqobaal_show(8, shot->w, shot->h, undone, cells, shown, cells) == 0 &&
           memcmp(shown, shot->samples, cells * sizeof *shown) == 0 && as_bright(shot, shown) &&
           dhiirqobaal_show_stream(stream, length, shot->levels, plane, cells, mask, cells, undone, places, shown, places,
                                   results, 4) == 0 &&
           memcmp(undone, plane, places * sizeof *undone) == 0 &&
           dhiirqobaal_show_level(shot->kernel, shot->levels, 0, 8, shot->w, shot->h, plane, cells, undone, cells, shown,
                                  cells) == 0 &&
           memcmp(shown, shot->samples, cells * sizeof *shown) == 0;
}

struct worker {
    const struct shot *shot;
    int right; /* rounds */
};

static void *work(void *argument) {
    struct worker *worker = (struct worker *)argument;
    int round;
    for (round = 0; round < ROUNDS; round++) {
        worker->right += there_and_back(worker->shot);
    }
    return NULL;
}

void check_threads(void) {
    pthread_t threads[2 * SHOTS];
    struct worker workers[2 * SHOTS];
    int started[2 * SHOTS];
    size_t i;
    for (i = 0; i < 2 * SHOTS; i++) {
        workers[i].shot = &shots[i % SHOTS];
        workers[i].right = 0;
        started[i] = pthread_create(&threads[i], NULL, work, &workers[i]) == 0;
    }
    for (i = 0; i < 2 * SHOTS; i++) {
        expect(started[i] && pthread_join(threads[i], NULL) == 0 && workers[i].right == ROUNDS, workers[i].shot->name);
    }
}
