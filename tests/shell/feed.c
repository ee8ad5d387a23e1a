/* Writes its input to its output in pieces of drawn sizes, from 1 byte to 5,000, and waits after each until the reader has taken it, so that the reader
 * sees the pieces as they are.
 *
 * Usage: feed SEED, with a pipe for its output. Ends with 1 where nobody reads any more. */
#define _DEFAULT_SOURCE
#include <poll.h>
#include <stdbool.h>
#include <stdio.h>
#include <stdlib.h>
#include <sys/ioctl.h>
#include <unistd.h>

#include "sessions.h"

/* The most bytes of a piece, and the microseconds between two looks whether it was taken. */
#define MOST_PIECE 5000
#define WAIT 20

/* Ends the program after an error of the system. */
static void fail(const char *what)
{
    perror(what);
    exit(1);
}

/* The size of a piece: small ones are as common as large ones. */
static size_t draw_size(void)
{
    uint32_t kind = below(14);
    return between(1, kind == 13 ? MOST_PIECE : 1u << kind);
}

/* Whether the reader is there no more. */
static bool is_alone(void)
{
    struct pollfd reader = {.fd = STDOUT_FILENO};
    return poll(&reader, 1, 0) > 0 && (reader.revents & POLLERR) != 0;
}

/* Waits until the reader has taken all that was written. */
static void wait_until_taken(void)
{
    for (;;) {
        int left;
        if (ioctl(STDOUT_FILENO, FIONREAD, &left) != 0)
            fail("feed: standard output");
        if (left == 0)
            return;
        if (is_alone())
            exit(1);
        usleep(WAIT);
    }
}

/* Writes a piece. */
static void write_piece(const uint8_t *piece, size_t length)
{
    while (length > 0) {
        ssize_t count = write(STDOUT_FILENO, piece, length);
        if (count < 0)
            fail("feed: standard output");
        piece += count;
        length -= (size_t)count;
    }
    wait_until_taken();
}

/* Writes piece after piece. */
int main(int argc, char **argv)
{
    static uint8_t piece[MOST_PIECE];
    size_t length;
    if (argc != 2) {
        fputs("usage: feed SEED\n", stderr);
        return 2;
    }
    draw_seed(strtoull(argv[1], NULL, 10));
    while ((length = fread(piece, 1, draw_size(), stdin)) > 0)
        write_piece(piece, length);
    return 0;
}
