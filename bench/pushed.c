/*
 * Pushes one stream into a reader, in chunks of one size: pushed STREAM CHUNK. bench/pushed counts the instructions of
 * `counted`. With a third word it does so that many times, and prints the nanoseconds that the quickest took. Without
 * words it prints the streams' names.
 *
 * A complete reader goes on with no frame collected, by one store: nothing but the push depends on how large the numbers
 * of a reader are, which differ from one version of the library to another.
 */
#include <stdio.h>
#include <stdlib.h>
#include <string.h>
#include <time.h>
#include "daly.h"

enum { FRAMES = 8 * 85, LENGTH = FRAMES * DALY_FRAME, BOARD = 0x01, HOST = 0x40 };

struct stream {
    const char *name;
    size_t wanted;
    bool strict;
};

static const struct stream streams[] = {
    {"clean, 1 frame", 1, false}, {"clean, 85 frames", 85, false}, {"restarts, 84 of 85", 85, false}, {"wrong command", 1, false},
    {"drawn", 1, false},          {"all A5", 1, false},            {"zeros", 1, false},               {"echo and reply", 1, true},
};

static uint8_t bytes[LENGTH];

static void put_frame(size_t place, uint8_t address, uint8_t command, uint8_t number)
{
    uint8_t frame[DALY_FRAME] = {0xA5, address, command, 0x08, number, 35, 42, 49, 56, 63, 70, 77};
    frame[DALY_FRAME - 1] = daly_calc_crc(frame, DALY_FRAME);
    memcpy(bytes + place * DALY_FRAME, frame, DALY_FRAME);
}

static void put_frames(const char *name)
{
    bool other = strcmp(name, "wrong command") == 0, echoed = strcmp(name, "echo and reply") == 0;
    size_t last = strcmp(name, "restarts, 84 of 85") == 0 ? 84 : 85;
    for (size_t i = 0; i < FRAMES; i++)
        put_frame(i, echoed && i % 2 == 0 ? HOST : BOARD, other ? 0x96 : 0x95, (uint8_t)(i % last + 1));
}

static void put_stream(const char *name)
{
    uint32_t drawn = 12345;
    if (strcmp(name, "all A5") == 0)
        memset(bytes, 0xA5, LENGTH);
    else if (strcmp(name, "drawn") == 0)
        for (size_t i = 0; i < LENGTH; i++)
            bytes[i] = (uint8_t)((drawn = drawn * 1664525u + 1013904223u) >> 24);
    else if (strcmp(name, "zeros") != 0)
        put_frames(name);
}

__attribute__((noinline)) static size_t counted(struct daly_reader *reader, size_t chunk)
{
    size_t at = 0, took = 1;
    while (at < LENGTH && took > 0) {
        size_t length = LENGTH - at < chunk ? LENGTH - at : chunk;
        struct daly_said said = daly_reader_push(reader, bytes + at, length);
        took = said.took;
        at += took;
        if (said.missing == 0)
            reader->counts.collected = 0;
    }
    return at;
}

/* A header that is not the library's has the numbers elsewhere. */
static bool is_new(const struct daly_reader *reader, size_t wanted)
{
    return reader->counts.command == 0x95 && reader->counts.wanted == wanted && daly_reader_missing(reader).missing == DALY_FRAME;
}

static long nanoseconds(void)
{
    struct timespec t;
    clock_gettime(CLOCK_MONOTONIC, &t);
    return t.tv_sec * 1000000000 + t.tv_nsec;
}

/* Each time with a new reader. */
static bool run(const struct stream *stream, size_t chunk, long times)
{
    const uint8_t request[] = {0xA5, HOST, 0x95};
    static struct daly_reader reader;
    long best = -1;
    for (long i = 0; i < (times > 0 ? times : 1); i++) {
        daly_reader_new(&reader, request, sizeof request, stream->wanted * DALY_FRAME, stream->strict);
        if (!is_new(&reader, stream->wanted))
            return false;
        long began = nanoseconds();
        if (counted(&reader, chunk) != LENGTH)
            return false;
        long took = nanoseconds() - began;
        best = best < 0 || took < best ? took : best;
    }
    if (times > 0)
        printf("%ld\n", best);
    return true;
}

int main(int argc, char **argv)
{
    for (size_t i = 0; i < sizeof streams / sizeof *streams; i++) {
        if (argc < 3) {
            puts(streams[i].name);
        } else if (strcmp(streams[i].name, argv[1]) == 0) {
            put_stream(argv[1]);
            if (run(&streams[i], (size_t)atol(argv[2]), argc > 3 ? atol(argv[3]) : 0))
                return 0;
            fprintf(stderr, "the stream is not taken whole: is daly.h the one that the archive was made with?\n");
        }
    }
    return argc >= 3;
}
