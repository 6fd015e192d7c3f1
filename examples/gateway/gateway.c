/* A gateway that checks and forwards: it reads an S101 stream on standard input, writes the frames that pass to
 * standard output, byte for byte as they came, and at the end the counts by number to standard error.
 *
 * If a file is named, the way back to the far end, the link is supervised: keep-alive requests are answered there, and
 * then no keep-alive is passed on; a request is written there in a silence, and the gateway ends with 2 once the link is
 * dead. */
#define _POSIX_C_SOURCE 200809L

#include "framing.h"
#include "supervision.h"

#include <fcntl.h>
#include <poll.h>
#include <stdio.h>
#include <time.h>
#include <unistd.h>

/* The stream, the supervisor of its link, and the way back; none if that is -1. */
static struct framing_line line;
static struct supervision_link link_state;
static int back = -1;

static int fail(const char *what, int code)
{
    fprintf(stderr, "gateway: %s\n", what);
    return code;
}

/* The system's clock, in milliseconds: 32 bits of it, which run past their top back to zero. */
static uint32_t tick(void)
{
    struct timespec now;
    clock_gettime(CLOCK_MONOTONIC, &now);
    return (uint32_t)((uint64_t)now.tv_sec * 1000 + (uint64_t)now.tv_nsec / 1000000);
}

/* Shows what a call of the session answered, 0 for nothing, and writes what is asked for. 0 if the link is dead. */
static int show(uint64_t number)
{
    uint8_t out[FRAMING_FRAME_MAX];
    uint64_t length = 0;
    if (back < 0)
        return 1;
    switch (supervision_link_show(&link_state, tick(), number)) {
    case SUPERVISION_ASK: framing_write_request(out, sizeof out, &length); break;
    case SUPERVISION_ANSWER: framing_write_response(out, sizeof out, &length); break;
    case SUPERVISION_DEAD: return 0;
    }
    return write(back, out, length) == (ssize_t)length;
}

/* A frame that passes, but with a way back no keep-alive: those are answered there. */
static int passed_on(uint64_t number)
{
    return framing_passes(number) && (back < 0 || number <= FRAMING_MESSAGE);
}

int main(int count, char **words)
{
    static uint8_t input[65536];
    struct pollfd from = {.fd = STDIN_FILENO, .events = POLLIN};
    unsigned long long counts[FRAMING_BAD_BIG + 1] = {0}, discarded = 0;
    ssize_t got;
    framing_line_start(&line);
    if (count > 1) {
        back = open(words[1], O_WRONLY | O_CREAT | O_TRUNC, 0666);
        if (back < 0)
            return fail("the way back cannot be written", 1);
        supervision_link_start(&link_state, tick());
    }
    for (;;) {
        size_t at = 0;
        got = 0;
        /* What has come is fed before a bare tick is shown, so that a pause of ours is no silence of theirs. */
        if ((back < 0 || poll(&from, 1, 500) > 0) && (got = read(STDIN_FILENO, input, sizeof input)) <= 0)
            break;
        /* Once also if nothing came: 0 is shown then, as it is for bytes that make no event. */
        do {
            uint64_t number = framing_line_feed(&line, input + at, (size_t)got - at);
            at += line.consumed;
            counts[number]++;
            discarded += (unsigned)line.discarded;
            if (!show(number))
                return fail("the link is dead", 2);
            if (passed_on(number) && fwrite(line.frame.bytes, 1, line.frame.length, stdout) != line.frame.length)
                return fail("the output cannot be written", 1);
        } while (at < (size_t)got);
        /* what passed goes on at once: the stream may be live */
        if (fflush(stdout) != 0)
            return fail("the output cannot be written", 1);
    }
    if (got < 0)
        return fail("the input cannot be read", 1);
    for (uint64_t number = FRAMING_PIECE; number <= FRAMING_BAD_BIG; number++)
        if (counts[number] != 0)
            fprintf(stderr, "%2d %llu %s\n", (int)number, counts[number], passed_on(number) ? "forwarded" : framing_passes(number) ? "kept" : "refused");
    fprintf(stderr, "messages thrown away: %llu\n", discarded);
    return 0;
}
