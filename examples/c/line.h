/* A serial line for RTU frames, by termios: opening it, and the silences that part frames (SL 2.5.1.1). */
#ifndef LINE_H
#define LINE_H

#include "modbus.h"

#include <errno.h>
#include <fcntl.h>
#include <stdio.h>
#include <stdlib.h>
#include <string.h>
#include <sys/select.h>
#include <termios.h>
#include <time.h>
#include <unistd.h>

/* A silence of so many microseconds ends a frame: 3.5 characters, and 1,750 above 19,200 baud. An adapter that hands bytes on late and in
 * pieces wants more than this: then LINE_SLACK_US is added, which a compiler can be told. */
#ifndef LINE_SLACK_US
#define LINE_SLACK_US 0
#endif

struct line {
    int port;
    long long silence_us;
};

static inline void line_stop(const char *why) {
    fprintf(stderr, "line: %s\n", why);
    exit(1);
}

/* The time in microseconds, from any start. */
static inline long long line_now_us(void) {
    struct timespec now;
    clock_gettime(CLOCK_MONOTONIC, &now);
    return now.tv_sec * 1000000LL + now.tv_nsec / 1000;
}

static inline void line_sleep_us(long long us) {
    struct timespec most = {.tv_sec = us / 1000000, .tv_nsec = us % 1000000 * 1000};
    while (nanosleep(&most, &most) && errno == EINTR) {
    }
}

static inline speed_t line_speed(long baud) {
    switch (baud) {
    case 1200:
        return B1200;
    case 2400:
        return B2400;
    case 4800:
        return B4800;
    case 9600:
        return B9600;
    case 19200:
        return B19200;
    case 38400:
        return B38400;
    default:
        line_stop("the baud rate is one of 1200, 2400, 4800, 9600, 19200, 38400");
        return B0;
    }
}

/* Opens a port with eight data bits and even, odd or no parity (e, o, n). A character has 11 bits: without parity two of them are for stop (SL
 * 2.5.1). */
static inline struct line line_open(const char *path, long baud, char parity) {
    struct line line = {.port = open(path, O_RDWR | O_NOCTTY | O_NONBLOCK)};
    struct termios set;
    speed_t speed = line_speed(baud);
    if (line.port < 0 || tcgetattr(line.port, &set)) {
        line_stop("the port can't be opened");
    }
    set.c_iflag = 0;
    set.c_oflag = 0;
    set.c_lflag = 0;
    set.c_cflag = CS8 | CREAD | CLOCAL;
    set.c_cflag |= parity == 'n' ? CSTOPB : parity == 'o' ? PARENB | PARODD : PARENB;
    /* a byte of wrong parity is dropped, and so its frame */
    set.c_iflag |= parity == 'n' ? 0 : INPCK | IGNPAR;
    set.c_cc[VMIN] = 1;
    set.c_cc[VTIME] = 0;
    if (cfsetispeed(&set, speed) || cfsetospeed(&set, speed) || tcsetattr(line.port, TCSANOW, &set)) {
        line_stop("the port can't be set so");
    }
    tcflush(line.port, TCIOFLUSH);
    line.silence_us = (baud > 19200 ? 1750 : 3500000LL * 11 / baud) + LINE_SLACK_US;
    return line;
}

/* Waits until a byte can be read, at most so long, or without end where that is negative. Whether one can. */
static inline bool line_waits(const struct line *line, long long us) {
    fd_set ready;
    struct timeval most = {.tv_sec = us / 1000000, .tv_usec = us % 1000000};
    FD_ZERO(&ready);
    FD_SET(line->port, &ready);
    return select(line->port + 1, &ready, NULL, NULL, us < 0 ? NULL : &most) > 0;
}

/* Reads what came, if it is anything. How many bytes that are; a port that is gone ends the program. */
static inline size_t line_read(const struct line *line, uint8_t *bytes, size_t len) {
    ssize_t got = read(line->port, bytes, len);
    if (got == 0 || (got < 0 && errno != EAGAIN && errno != EINTR)) {
        line_stop("the port is gone");
    }
    return got > 0 ? (size_t)got : 0;
}

/* Waits until the line was silent for 3.5 characters, at most a second, and drops what comes before that. */
static inline void line_quiet(const struct line *line) {
    long long end = line_now_us() + 1000000;
    uint8_t dropped[256];
    while (line_waits(line, line->silence_us) && line_now_us() < end) {
        line_read(line, dropped, sizeof dropped);
    }
}

/* Writes a frame without a gap, and waits until it left. */
static inline void line_send(const struct line *line, const uint8_t *bytes, size_t len) {
    long long end = line_now_us() + 5000000;
    for (size_t sent = 0; sent < len;) {
        ssize_t went = write(line->port, bytes + sent, len - sent);
        if (went > 0) {
            sent += (size_t)went;
        } else if (went < 0 && errno != EAGAIN && errno != EINTR) {
            line_stop("the port is gone");
        } else if (line_now_us() > end) {
            line_stop("the port takes no bytes");
        } else {
            line_sleep_us(1000);
        }
    }
    tcdrain(line->port);
}

/* The line of the words PORT [BAUD [PARITY]] from a place on; without them 19,200 baud and even parity, as SL 2.5.1 has it. */
static inline struct line line_of_words(int argc, char **argv, int at) {
    return line_open(argv[at], argc > at + 1 ? atol(argv[at + 1]) : 19200, argc > at + 2 ? argv[at + 2][0] : 'e');
}

#endif
