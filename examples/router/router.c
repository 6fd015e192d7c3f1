/* A router: a desk behind an Ember+ stream. It reads an S101 stream on standard input, serves the connections of every message
 * on its matrix, and writes what it answers to standard output as frames: to a keep-alive request the response; to a message
 * that names targets of its matrix one message, the qualified matrix with a connection for each of these targets, in the order
 * they were named, that has the target's sources as they are now. At the end a picture of the crosspoints goes to standard
 * error, after a line for everything that was refused.
 *
 *     router TYPE TARGETS SOURCES PATH      TYPE: 0 one to N, 1 one to one, 2 N to N; PATH as 1.2.3 */
#define _POSIX_C_SOURCE 200809L

#include "ember.h"

#include <inttypes.h>
#include <stdio.h>
#include <stdlib.h>
#include <unistd.h>

static struct ember_line line;

static int fail(const char *what)
{
    fprintf(stderr, "router: %s\n", what);
    return 1;
}

static int send(const uint8_t *bytes, uint64_t count)
{
    return fwrite(bytes, 1, count, stdout) == count ? 0 : fail("the output cannot be written");
}

/* The answer to the message of the turn: the targets that its connections named, each once, with the sources that they have now. */
static int answer(void)
{
    static ember_row reply[1 + EMBER_SIDE_MAX];
    static uint8_t octets[EMBER_MESSAGE_MAX], frames[EMBER_FRAMES_MAX];
    struct ember_arena arena = ember_arena_of(octets, sizeof octets);
    uint8_t named[EMBER_SIDE_MAX] = {0};
    uint64_t sources[EMBER_SIDE_MAX], count;
    size_t rows = 1;
    ember_qualified(reply[0], EMBER_KIND_QUALIFIED_MATRIX, &arena, line.path, line.path_words);
    for (size_t i = 0; i < line.answer_count; i++) {
        uint64_t target = (uint64_t)ember_integer_or(line.table[ember_line_answered(&line, i)], EMBER_CONNECTION_TARGET, 0);
        if (line.answers[i] != EMBER_DONE)
            fprintf(stderr, "connection %zu: %d\n", i + 1, line.answers[i]);
        if (line.answers[i] == EMBER_NO_MATRIX || line.answers[i] == EMBER_NO_TARGET || named[target])
            continue;
        named[target] = 1;
        ember_connection(reply[rows++], EMBER_IN(0), &arena, target, sources, ember_line_sources(&line, target, sources), EMBER_ABSOLUTE);
    }
    if (rows == 1)
        return 0;
    if (ember_frames(ember_rows(reply), rows, EMBER_ELEMENTS, &arena, frames, sizeof frames, &count) != EMBER_DONE)
        return fail("the answer cannot be made");
    return send(frames, count);
}

/* What a turn told. */
static int serve(uint64_t event)
{
    uint8_t frame[EMBER_FRAME_MAX];
    uint64_t count;
    if (event == EMBER_REQUEST)
        return ember_write_response(frame, sizeof frame, &count) == EMBER_DONE ? send(frame, count) : fail("no room");
    if (event >= EMBER_BAD_STRAY)
        fprintf(stderr, "event %" PRIu64 "\n", event);
    if (event != EMBER_MESSAGE)
        return 0;
    if (line.tree != EMBER_DONE) {
        fprintf(stderr, "tree %" PRIu64 " at %zu\n", line.tree, line.place);
        return 0;
    }
    return line.desk == EMBER_DONE ? answer() : fail("the desk is not legal");
}

static void picture(void)
{
    for (uint64_t target = 0; target < line.figures[EMBER_FIGURES_TARGETS]; target++) {
        fprintf(stderr, "%2" PRIu64 " ", target);
        for (uint64_t source = 0; source < line.figures[EMBER_FIGURES_SOURCES]; source++)
            fputc(ember_line_connected(&line, target, source) ? '#' : '.', stderr);
        fputc('\n', stderr);
    }
}

int main(int words, char **word)
{
    static uint8_t input[65536];
    uint64_t path[EMBER_PATH_MAX];
    size_t numbers = 0;
    ssize_t got;
    if (words != 5)
        return fail("TYPE TARGETS SOURCES PATH");
    for (char *rest = word[4]; *rest != 0 && numbers < EMBER_PATH_MAX; rest += *rest == '.')
        path[numbers++] = strtoull(rest, &rest, 10);
    if (ember_line_start(&line, strtoull(word[1], NULL, 10), strtoull(word[2], NULL, 10), strtoull(word[3], NULL, 10), 0, 0, path, numbers) != EMBER_DONE)
        return fail("no such desk");
    while ((got = read(STDIN_FILENO, input, sizeof input)) > 0) {
        for (size_t at = 0; at < (size_t)got; at += line.consumed) {
            uint64_t event = ember_line_turn(&line, input + at, (size_t)got - at);
            if (event == EMBER_SETUP || serve(event) != 0)
                return 1;
        }
        fflush(stdout);
    }
    picture();
    return got < 0 ? fail("the input cannot be read") : 0;
}
