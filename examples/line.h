/*
 * The serial line of the example controller: opened, made still, written and read, with an end to every wait. What
 * fails is told on standard error.
 */
#ifndef LINE_H
#define LINE_H

#include <errno.h>
#include <fcntl.h>
#include <poll.h>
#include <stdint.h>
#include <stdio.h>
#include <string.h>
#include <termios.h>
#include <time.h>
#include <unistd.h>

enum { DONE = 0, FAILED = 1, HUNG_UP = 2 };

/* Milliseconds. */
enum {
    PATIENCE = 2000, /* that a reply may take */
    LATE = 1000,     /* of silence where no reply came in time, since it may still come */
    STILL = 50       /* of silence before a question, longer than an adapter rests in the midst of a reply */
};

static int failed(const char *what)
{
    fprintf(stderr, "%s: %s\n", what, strerror(errno));
    return FAILED;
}

static int time_is_up(size_t bytes, const char *which)
{
    fprintf(stderr, "time is up, %zu bytes %s\n", bytes, which);
    return FAILED;
}

static int hung_up(void)
{
    fprintf(stderr, "the line hung up\n");
    return HUNG_UP;
}

static long now(void)
{
    struct timespec t;
    clock_gettime(CLOCK_MONOTONIC, &t);
    return t.tv_sec * 1000 + t.tv_nsec / 1000000;
}

/* Opens the line at 9600 baud, 8 bits, no parity, one stop bit, raw: no byte is changed, withheld or waited for. */
static int open_line(const char *path)
{
    struct termios settings;
    int line = open(path, O_RDWR | O_NOCTTY | O_NONBLOCK);
    if (line < 0)
        return -1;
    if (tcgetattr(line, &settings) == 0) {
        cfmakeraw(&settings);
        settings.c_iflag &= ~(tcflag_t)(IXOFF | IXANY);
        settings.c_cflag &= ~(tcflag_t)(CSTOPB | CRTSCTS);
        settings.c_cflag |= CLOCAL | CREAD;
        if (cfsetspeed(&settings, B9600) == 0 && tcsetattr(line, TCSANOW, &settings) == 0)
            return line;
    }
    close(line);
    return -1;
}

/* What the line is ready for, or 0 when time is up. */
static short await(int line, short events, long until)
{
    struct pollfd ready = {.fd = line, .events = events};
    for (long left; (left = until - now()) > 0;)
        if (poll(&ready, 1, (int)left) > 0)
            return ready.revents;
    return 0;
}

/*
 * Drops what lies on the line, and what still comes, until it was silent for so long. No frame says which
 * question it answers: a late one would pass for the answer to the next, and so on for good. A line that is
 * never silent is left when PATIENCE is over, one that hung up at once.
 */
static void settle(int line, long silence)
{
    long until = now() + PATIENCE;
    do
        tcflush(line, TCIFLUSH);
    while (now() < until && await(line, POLLIN, now() + silence) == POLLIN);
}

/* Writes the whole question: a line that takes a part of it is given the rest when it has room again. */
static int send_question(int line, const uint8_t *question, size_t length)
{
    long until = now() + PATIENCE;
    while (length > 0) {
        if (await(line, POLLOUT, until) == 0)
            return time_is_up(length, "of the question not sent");
        ssize_t sent = write(line, question, length);
        if (sent < 0 && errno == EIO)
            return hung_up();
        if (sent < 0 && errno != EAGAIN && errno != EINTR)
            return failed("write");
        if (sent > 0) {
            question += sent;
            length -= (size_t)sent;
        }
    }
    return DONE;
}

/* Reads some bytes, at most as many as are missing. */
static int receive(int line, long until, size_t missing, uint8_t *chunk, size_t *length)
{
    for (;;) {
        short ready = await(line, POLLIN, until);
        if (ready == 0)
            return time_is_up(missing, "missing");
        ssize_t found = ready & POLLIN ? read(line, chunk, missing) : 0;
        if (found > 0) {
            *length = (size_t)found;
            return DONE;
        }
        if (found == 0 || errno == EIO)
            return hung_up();
        if (errno != EAGAIN && errno != EINTR)
            return failed("read");
    }
}

#endif
