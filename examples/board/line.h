/*
 * The line of the example board: a pseudo-terminal, or standard input and output; and how it sends, by what is drawn
 * from a seed. What fails is told on standard error.
 */
#ifndef BOARD_LINE_H
#define BOARD_LINE_H

#include <errno.h>
#include <fcntl.h>
#include <poll.h>
#include <stdbool.h>
#include <stdint.h>
#include <stdio.h>
#include <stdlib.h>
#include <string.h>
#include <termios.h>
#include <time.h>
#include <unistd.h>

#include "daly.h"

enum {
    GOES_ON = -1, /* what is no exit status */
    ENDED = 0,    /* nothing more will be asked */
    FAILED = 1
};

enum {
    ROOM = 4096,       /* bytes heard at once */
    MOST_NOISE = 9999, /* bytes before an answer */
    LONGEST_PIECE = 13,
    LONGEST_PAUSE = 4000 /* microseconds */
};

struct line {
    int in, out;
    bool loses; /* what it has no room for, since nobody takes what was sent before */
};

static int failed(const char *what)
{
    fprintf(stderr, "%s: %s\n", what, strerror(errno));
    return FAILED;
}

/* ---- Opening */

/* No byte is changed, withheld or sent back; a serial port of the bench would be at 9600 baud. */
static bool make_raw(int port)
{
    struct termios settings;
    if (tcgetattr(port, &settings) != 0)
        return false;
    cfmakeraw(&settings);
    return cfsetspeed(&settings, B9600) == 0 && tcsetattr(port, TCSANOW, &settings) == 0;
}

/* The port stays open here too, so that the line does not end where a controller closes it and another opens it. */
static bool open_terminal(struct line *line)
{
    int board = posix_openpt(O_RDWR | O_NOCTTY);
    if (board < 0 || grantpt(board) != 0 || unlockpt(board) != 0)
        return false;
    const char *path = ptsname(board);
    int port = path == NULL ? -1 : open(path, O_RDWR | O_NOCTTY);
    if (port < 0 || !make_raw(port) || fcntl(board, F_SETFL, O_NONBLOCK) != 0)
        return false;
    *line = (struct line){.in = board, .out = board, .loses = true};
    return printf("%s\n", path) > 0 && fflush(stdout) == 0;
}

/* ---- Hearing and sending */

/* Waits without end for some bytes. */
static int hear(int in, uint8_t bytes[ROOM], size_t *length)
{
    struct pollfd ready = {.fd = in, .events = POLLIN};
    for (;;) {
        ssize_t found = poll(&ready, 1, -1) < 0 ? -1 : read(in, bytes, ROOM);
        *length = found > 0 ? (size_t)found : 0;
        if (found > 0)
            return GOES_ON;
        if (found == 0 || errno == ECONNRESET)
            return ENDED;
        if (errno != EINTR && errno != EAGAIN)
            return failed("read");
    }
}

/* Ends where nobody is left to send to. */
static int send_bytes(struct line line, const uint8_t *bytes, size_t length)
{
    struct pollfd room = {.fd = line.out, .events = POLLOUT};
    while (length > 0) {
        ssize_t sent = write(line.out, bytes, length);
        if (sent < 0 && (errno == EPIPE || errno == ECONNRESET))
            return ENDED;
        if (sent < 0 && errno != EAGAIN && errno != EINTR)
            return failed("write");
        if (sent < 0 && errno == EAGAIN && line.loses)
            return GOES_ON;
        if (sent < 0 && errno == EAGAIN)
            poll(&room, 1, -1);
        bytes += sent < 0 ? 0 : sent;
        length -= sent < 0 ? 0 : (size_t)sent;
    }
    return GOES_ON;
}

/* ---- What is drawn */

/* How the board sends. */
struct manner {
    bool echo, cut;
    uint32_t noise; /* bytes at most */
    uint64_t drawn; /* the seed, then what was drawn last */
};

/* A number below `many`, by splitmix64. */
static uint32_t draw(struct manner *manner, uint32_t many)
{
    uint64_t z = manner->drawn += 0x9E3779B97F4A7C15u;
    z = (z ^ z >> 30) * 0xBF58476D1CE4E5B9u;
    z = (z ^ z >> 27) * 0x94D049BB133111EBu;
    return (uint32_t)((z ^ z >> 31) % many);
}

static void rest(struct manner *manner)
{
    struct timespec pause = {.tv_nsec = draw(manner, LONGEST_PAUSE) * 1000L};
    nanosleep(&pause, NULL);
}

static int send_pieces(struct line line, struct manner *manner, const uint8_t *bytes, size_t length)
{
    int status = GOES_ON;
    while (length > 0 && status == GOES_ON) {
        size_t piece = 1 + draw(manner, LONGEST_PIECE);
        piece = piece < length ? piece : length;
        status = send_bytes(line, bytes, piece);
        bytes += piece;
        length -= piece;
        rest(manner);
    }
    return status;
}

/* A cut may go through the noise and the answer alike. */
static int send_answer(struct line line, struct manner *manner, const uint8_t *answer, size_t length)
{
    static uint8_t bytes[MOST_NOISE + DALY_FRAMES];
    size_t noise = draw(manner, manner->noise + 1);
    for (size_t i = 0; i < noise; i++)
        bytes[i] = (uint8_t)draw(manner, 256);
    memcpy(bytes + noise, answer, length);
    return manner->cut ? send_pieces(line, manner, bytes, noise + length) : send_bytes(line, bytes, noise + length);
}

#endif
