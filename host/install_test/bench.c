/*
 * A bench program as one would write it against the installed library: shows what has arrived of a stream, whole or
 * broken off. Prints how many bytes arrived, whether every bit of the rectangles did (with no rectangle, of the
 * picture), the rows of the smallest picture, before any level is undone, and then those of the whole one.
 * Usage: bench STREAM. Exit status: 0 every such bit arrived, 1 not every one, 2 wrong usage or no file, 3 refused.
 */
#include <dhiirqobaal.h>
#include <stdio.h>
#include <stdlib.h>

static void *room(size_t count, size_t bytes)
{
    void *memory = calloc(count > 0 ? count : 1, bytes);
    if (memory == NULL) {
        fputs("no memory\n", stderr);
        exit(2);
    }
    return memory;
}

static uint8_t *read_file(const char *name, size_t *length)
{
    FILE *file = fopen(name, "rb");
    uint8_t *bytes;
    long end;
    if (file == NULL || fseek(file, 0, SEEK_END) != 0 || (end = ftell(file)) < 0 || fseek(file, 0, SEEK_SET) != 0) {
        fprintf(stderr, "%s cannot be read\n", name);
        exit(2);
    }
    bytes = room((size_t)end, 1);
    *length = fread(bytes, 1, (size_t)end, file);
    fclose(file);
    return bytes;
}

/* Ends the program where a call was refused. */
static void need(uint64_t refusal)
{
    if (refusal != DHIIRQOBAAL_ACCEPTED) {
        fprintf(stderr, "refused %d: %s\n", (int)refusal, dhiirqobaal_refusal_text(refusal));
        exit(3);
    }
}

static void print_rows(const uint16_t *shown, size_t w, size_t h)
{
    for (size_t i = 0; i < w * h; ++i) {
        printf("%d%c", shown[i], i % w == w - 1 ? '\n' : ' ');
    }
}

/* Says whether every bit of the rectangles arrived; with no rectangle nothing is exact, and it is the picture's bits. */
static int tell(const uint64_t *read)
{
    int whole = read[DHIIRQOBAAL_READ_WHOLE] == 1;
    if (read[DHIIRQOBAAL_READ_COUNT] == 0) {
        whole = whole && read[DHIIRQOBAAL_READ_Q] == 0;
        printf("no rectangle: %s bit of the picture arrived\n", whole ? "every" : "not every");
    } else {
        puts(whole ? "exact: every marked bit arrived" : "not exact: not every marked bit arrived");
    }
    return whole;
}

/* Shows the stream, small and then whole, and returns whether all that counts arrived. */
static int show(uint8_t *stream, size_t length)
{
    uint64_t sent[DHIIRQOBAAL_ARRIVED_RESULTS], header[DHIIRQOBAAL_HEADER_RESULTS], read[DHIIRQOBAAL_READ_RESULTS];
    need(dhiirqobaal_arrived(stream, length, sent, DHIIRQOBAAL_ARRIVED_RESULTS));
    need(dhiirqobaal_header(stream, length, header, DHIIRQOBAAL_HEADER_RESULTS));
    size_t w = (size_t)header[DHIIRQOBAAL_HEADER_WIDTH], h = (size_t)header[DHIIRQOBAAL_HEADER_HEIGHT], cells = w * h;
    size_t levels = (size_t)header[DHIIRQOBAAL_HEADER_LEVELS];
    size_t small_w = DHIIRQOBAAL_SIDE(levels, w), small_h = DHIIRQOBAAL_SIDE(levels, h), few = small_w * small_h;
    int32_t *plane = room(cells, sizeof *plane), *undone = room(cells, sizeof *undone);
    uint8_t *mask = room(cells, 1);
    uint16_t *shown = room(cells, sizeof *shown);
    need(dhiirqobaal_show_stream(stream, length, levels, plane, cells, mask, cells, undone, few, shown, few, read,
                                 DHIIRQOBAAL_READ_RESULTS));
    printf("%zu of %llu bytes arrived\n", length, (unsigned long long)sent[DHIIRQOBAAL_ARRIVED_SENT]);
    int whole = tell(read);
    print_rows(shown, small_w, small_h);
    need(dhiirqobaal_show_level((size_t)header[DHIIRQOBAAL_HEADER_KERNEL], levels, 0,
                                (size_t)header[DHIIRQOBAAL_HEADER_DEPTH], w, h, plane, cells, undone, cells, shown, cells));
    print_rows(shown, w, h);
    free(plane);
    free(undone);
    free(mask);
    free(shown);
    return whole;
}

int main(int count, char **words)
{
    size_t length;
    uint8_t *stream;
    int exact;
    if (count != 2 || dhiirqobaal_version() != DHIIRQOBAAL_VERSION) {
        fprintf(stderr, "usage: bench STREAM, with a library of version %s\n", DHIIRQOBAAL_VERSION_TEXT);
        return 2;
    }
    stream = read_file(words[1], &length);
    exact = show(stream, length);
    free(stream);
    return exact ? 0 : 1;
}
