/* The outside codec: OpenJPEG's lossless encoder and decoder, run on one picture of eight bits through its public
   functions alone.

   Usage: outside_codec ROUNDS [X Y WIDTH HEIGHT]
   Standard input: width, height, levels and region shift, then width x height samples, row by row, each 0 to 255.
   Every number is a signed 32-bit integer in the machine's own byte order. A region shift of 0 asks for no region of
   interest, any other makes the one component the region, with this shift.
   Standard output: the codestream.
   Standard error: the best times of encoding and of decoding, in milliseconds, and with a rectangle the length at
   which it is exact when the codestream is cut there. A picture that does not come back as it was ends the program
   with a message and status 1.

   Lossless: the 5/3, one quality layer without a limit; one tile, code blocks of 64 by 64, the calling thread alone,
   all else as OpenJPEG sets it by default. Timed are the library's calls from the making of a codec to the end of its
   work. Filling the image that is encoded, and comparing the one that was decoded, are not timed.
   Build: cc -O2 $(pkg-config --cflags libopenjp2) outside_codec.c $(pkg-config --libs libopenjp2) -o outside_codec */
#include <openjpeg.h>
#include <stdint.h>
#include <stdio.h>
#include <stdlib.h>
#include <string.h>
#include <time.h>

static void fail(const char *message) {
    fprintf(stderr, "outside_codec: %s\n", message);
    exit(1);
}

static void *memory(size_t bytes) {
    void *start = malloc(bytes);
    if (!start) fail("out of memory");
    return start;
}

/* A codestream in memory; `at` is where the next byte is written or read. */
struct codestream {
    uint8_t *bytes;
    size_t room, length, at;
};

static OPJ_SIZE_T write_bytes(void *from, OPJ_SIZE_T count, void *data) {
    struct codestream *stream = data;
    if (count > stream->room - stream->at) return (OPJ_SIZE_T)-1;
    memcpy(stream->bytes + stream->at, from, count);
    stream->at += count;
    if (stream->at > stream->length) stream->length = stream->at;
    return count;
}

static OPJ_SIZE_T read_bytes(void *to, OPJ_SIZE_T count, void *data) {
    struct codestream *stream = data;
    size_t left = stream->length - stream->at;
    if (left == 0) return (OPJ_SIZE_T)-1;
    if (count > left) count = left;
    memcpy(to, stream->bytes + stream->at, count);
    stream->at += count;
    return count;
}

static OPJ_BOOL seek_to(OPJ_OFF_T place, void *data) {
    struct codestream *stream = data;
    if (place < 0 || (size_t)place > stream->room) return OPJ_FALSE;
    stream->at = (size_t)place;
    return OPJ_TRUE;
}

static OPJ_OFF_T skip_over(OPJ_OFF_T count, void *data) {
    struct codestream *stream = data;
    return seek_to((OPJ_OFF_T)stream->at + count, data) ? count : -1;
}

static opj_stream_t *open_stream(struct codestream *codestream, OPJ_BOOL reading) {
    opj_stream_t *stream = opj_stream_default_create(reading);
    if (!stream) fail("OpenJPEG made no stream");
    codestream->at = 0;
    opj_stream_set_user_data(stream, codestream, NULL);
    opj_stream_set_user_data_length(stream, codestream->length);
    opj_stream_set_read_function(stream, read_bytes);
    opj_stream_set_write_function(stream, write_bytes);
    opj_stream_set_seek_function(stream, seek_to);
    opj_stream_set_skip_function(stream, skip_over);
    return stream;
}

static void tell(const char *message, void *data) {
    (void)data;
    fprintf(stderr, "outside_codec: OpenJPEG: %s", message);
}

static double milliseconds(void) {
    struct timespec time;
    clock_gettime(CLOCK_MONOTONIC, &time);
    return time.tv_sec * 1e3 + time.tv_nsec * 1e-6;
}

struct picture {
    int32_t width, height, levels, shift;
    int32_t *samples;
    size_t count;
};

static opj_image_t *make_image(const struct picture *picture) {
    opj_image_cmptparm_t component;
    memset(&component, 0, sizeof component);
    component.dx = component.dy = 1;
    component.w = (OPJ_UINT32)picture->width;
    component.h = (OPJ_UINT32)picture->height;
    component.prec = 8;
    opj_image_t *image = opj_image_create(1, &component, OPJ_CLRSPC_GRAY);
    if (!image) fail("OpenJPEG made no image");
    image->x1 = component.w;
    image->y1 = component.h;
    memcpy(image->comps[0].data, picture->samples, picture->count * sizeof *picture->samples);
    return image;
}

static void set_parameters(opj_cparameters_t *parameters, const struct picture *picture) {
    opj_set_default_encoder_parameters(parameters);
    parameters->irreversible = 0;
    parameters->numresolution = picture->levels + 1;
    parameters->tcp_numlayers = 1;
    parameters->tcp_rates[0] = 0;
    parameters->cp_disto_alloc = 1;
    if (picture->shift > 0) {
        parameters->roi_compno = 0;
        parameters->roi_shift = picture->shift;
    }
}

static opj_codec_t *ready(opj_codec_t *codec) {
    if (!codec) fail("OpenJPEG made no codec");
    opj_set_error_handler(codec, tell, NULL);
    opj_set_warning_handler(codec, tell, NULL);
    return codec;
}

/* Encodes once; the time in milliseconds. A new image each time: the encoder works in the image's own memory. */
static double encode(const struct picture *picture, struct codestream *codestream) {
    opj_image_t *image = make_image(picture);
    opj_cparameters_t parameters;
    set_parameters(&parameters, picture);
    codestream->length = 0;
    double begun = milliseconds();
    opj_codec_t *codec = ready(opj_create_compress(OPJ_CODEC_J2K));
    opj_stream_t *stream = open_stream(codestream, OPJ_STREAM_WRITE);
    if (!opj_setup_encoder(codec, &parameters, image)) fail("OpenJPEG did not take the parameters");
    if (!opj_start_compress(codec, image, stream)) fail("OpenJPEG did not start to encode");
    if (!opj_encode(codec, stream)) fail("OpenJPEG did not encode the picture");
    if (!opj_end_compress(codec, stream)) fail("OpenJPEG did not end the codestream");
    double ended = milliseconds();
    opj_stream_destroy(stream);
    opj_destroy_codec(codec);
    opj_image_destroy(image);
    return ended - begun;
}

struct rectangle {
    long x, y, width, height;
};

static int exact(const struct picture *picture, const opj_image_t *image, struct rectangle rectangle) {
    const opj_image_comp_t *component = &image->comps[0];
    if (image->numcomps != 1 || !component->data) return 0;
    if (component->w != (OPJ_UINT32)picture->width || component->h != (OPJ_UINT32)picture->height) return 0;
    for (long y = rectangle.y; y < rectangle.y + rectangle.height; y++) {
        long start = y * picture->width + rectangle.x;
        size_t bytes = (size_t)rectangle.width * sizeof *picture->samples;
        if (memcmp(component->data + start, picture->samples + start, bytes) != 0) return 0;
    }
    return 1;
}

/* Decodes once; the time in milliseconds. */
static double decode(const struct picture *picture, struct codestream *codestream) {
    opj_dparameters_t parameters;
    opj_set_default_decoder_parameters(&parameters);
    opj_image_t *image = NULL;
    double begun = milliseconds();
    opj_codec_t *codec = ready(opj_create_decompress(OPJ_CODEC_J2K));
    opj_stream_t *stream = open_stream(codestream, OPJ_STREAM_READ);
    if (!opj_setup_decoder(codec, &parameters)) fail("OpenJPEG did not take the decoder's parameters");
    if (!opj_read_header(stream, codec, &image)) fail("OpenJPEG did not read the header");
    if (!opj_decode(codec, stream, image)) fail("OpenJPEG did not decode the codestream");
    if (!opj_end_decompress(codec, stream)) fail("OpenJPEG did not find the codestream's end");
    double ended = milliseconds();
    struct rectangle whole = {0, 0, picture->width, picture->height};
    if (!exact(picture, image, whole)) fail("the decoded picture differs");
    opj_stream_destroy(stream);
    opj_destroy_codec(codec);
    opj_image_destroy(image);
    return ended - begun;
}

/* Whether the rectangle is exact when the codestream is cut to this length, by a decoder that takes a cut one: OpenJPEG
   calls it not strict. Its messages, which a cut one gives rise to, go nowhere. */
static int exact_when_cut(const struct picture *picture, const struct codestream *codestream, size_t length,
                          struct rectangle rectangle) {
    struct codestream cut = {codestream->bytes, length, length, 0};
    opj_dparameters_t parameters;
    opj_set_default_decoder_parameters(&parameters);
    opj_image_t *image = NULL;
    opj_codec_t *codec = opj_create_decompress(OPJ_CODEC_J2K);
    if (!codec) fail("OpenJPEG made no codec");
    opj_stream_t *stream = open_stream(&cut, OPJ_STREAM_READ);
    if (!opj_setup_decoder(codec, &parameters) || !opj_decoder_set_strict_mode(codec, OPJ_FALSE))
        fail("OpenJPEG did not take the decoder's parameters");
    int decoded = opj_read_header(stream, codec, &image) && opj_decode(codec, stream, image);
    int answer = decoded && exact(picture, image, rectangle);
    opj_stream_destroy(stream);
    opj_destroy_codec(codec);
    opj_image_destroy(image);
    return answer;
}

/* Where the rectangle becomes exact, to a thousandth of the codestream. */
static size_t exact_from(const struct picture *picture, const struct codestream *codestream,
                         struct rectangle rectangle) {
    size_t without = 0, with = codestream->length;
    while (with - without > codestream->length / 1000 + 1) {
        size_t middle = without + (with - without) / 2;
        if (exact_when_cut(picture, codestream, middle, rectangle))
            with = middle;
        else
            without = middle;
    }
    return with;
}

static void read_picture(struct picture *picture) {
    int32_t head[4];
    if (fread(head, 4, 4, stdin) != 4) fail("the input has no width, height, levels and region shift");
    picture->width = head[0];
    picture->height = head[1];
    picture->levels = head[2];
    picture->shift = head[3];
    if (head[0] < 1 || head[1] < 1 || head[0] > 4096 || head[1] > 4096) fail("width and height are 1 to 4096");
    if (head[2] < 1 || head[2] > 5) fail("levels are 1 to 5");
    if (head[3] < 0 || head[3] > 31) fail("the region shift is 0 to 31");
    picture->count = (size_t)head[0] * (size_t)head[1];
    picture->samples = memory(picture->count * sizeof *picture->samples);
    if (fread(picture->samples, 4, picture->count, stdin) != picture->count) fail("the input has too few samples");
}

static struct rectangle read_rectangle(char **words, const struct picture *picture) {
    struct rectangle r = {atol(words[0]), atol(words[1]), atol(words[2]), atol(words[3])};
    if (r.x < 0 || r.y < 0 || r.width < 1 || r.height < 1 || r.x > picture->width - r.width ||
        r.y > picture->height - r.height)
        fail("the rectangle does not lie in the picture");
    return r;
}

int main(int argc, char **argv) {
    struct picture picture;
    struct codestream codestream;
    double encoding = 1e30, decoding = 1e30;
    long rounds = argc == 2 || argc == 6 ? atol(argv[1]) : 0;
    if (rounds < 1) fail("the arguments are a number of rounds, 1 or more, and a rectangle or none");
    /* Named there, more threads would be taken. */
    unsetenv("OPJ_NUM_THREADS");
    read_picture(&picture);
    /* A lossless codestream may be longer than the samples, but not by so much. */
    codestream.room = 2 * picture.count + 65536;
    codestream.bytes = memory(codestream.room);
    for (long i = 0; i < rounds; i++) {
        double encoded = encode(&picture, &codestream);
        double decoded = decode(&picture, &codestream);
        if (encoded < encoding) encoding = encoded;
        if (decoded < decoding) decoding = decoded;
    }
    fprintf(stderr, "%.6f %.6f\n", encoding, decoding);
    if (argc == 6) {
        struct rectangle rectangle = read_rectangle(argv + 2, &picture);
        fprintf(stderr, "%zu\n", exact_from(&picture, &codestream, rectangle));
    }
    if (fwrite(codestream.bytes, 1, codestream.length, stdout) != codestream.length || fflush(stdout))
        fail("the output could not be written");
    return 0;
}
