/* A plugin's errand: find a matrix, connect a source to a target, see that it is done. It reads an S101 stream on standard input
 * (a device's announcement, then its answers), takes the first matrix that is announced with its counts, writes a request to
 * standard output as frames (the qualified matrix with one connection: target, source, operation connect), and ends when a
 * message says which sources that target has now. What it learns goes to standard error. It ends with 0 if the source is among
 * them.
 *
 *     plugin TARGET SOURCE */
#define _POSIX_C_SOURCE 200809L

#include "ember.h"

#include <inttypes.h>
#include <stdio.h>
#include <stdlib.h>
#include <unistd.h>

/* The errand, and what is known of the matrix: its path, once it is found. */
static uint64_t target, source;
static uint64_t path[EMBER_PATH_MAX];
static size_t path_words;

static struct ember_line line;

enum { GOING, CONNECTED, REFUSED, FAILED };

static int fail(const char *what)
{
    fprintf(stderr, "plugin: %s\n", what);
    return FAILED;
}

/* The request, in frames. */
static int request(void)
{
    ember_row rows[2];
    uint8_t octets[128], frames[EMBER_FRAME_MAX];
    struct ember_arena arena = ember_arena_of(octets, sizeof octets);
    uint64_t count;
    ember_qualified(rows[0], EMBER_KIND_QUALIFIED_MATRIX, &arena, path, path_words);
    ember_connection(rows[1], EMBER_IN(0), &arena, target, &source, 1, EMBER_CONNECT);
    if (ember_frames(ember_rows(rows), 2, EMBER_ELEMENTS, &arena, frames, sizeof frames, &count) != EMBER_DONE)
        return fail("no such request can be made");
    if (fwrite(frames, 1, count, stdout) != count || fflush(stdout) != 0)
        return fail("the output cannot be written");
    return GOING;
}

/* A matrix with its counts: is the errand possible on it? */
static int announced(size_t place)
{
    const uint64_t *row = line.table[place];
    int64_t targets, sources;
    size_t letters;
    const char *name = ember_line_text_or(&line, place, EMBER_IDENTIFIER, "", &letters);
    if (path_words != 0 || !ember_is_matrix(row) || !ember_integer(row, EMBER_MATRIX_TARGETS, &targets) || !ember_integer(row, EMBER_MATRIX_SOURCES, &sources))
        return GOING;
    path_words = ember_line_path(&line, place, path);
    fprintf(stderr, "matrix");
    for (size_t i = 0; i < path_words; i++)
        fprintf(stderr, "%c%" PRIu64, i == 0 ? ' ' : '.', path[i]);
    fprintf(stderr, " \"%.*s\": %" PRId64 " targets, %" PRId64 " sources\n", (int)letters, name, targets, sources);
    return target < (uint64_t)targets && source < (uint64_t)sources ? request() : fail("it has no such target or source");
}

/* A connection: of our matrix and our target? Then it says which sources the target has. */
static int connection(size_t place)
{
    const uint64_t *row = line.table[place];
    struct ember_iterator sources = ember_iterate(row, EMBER_CONNECTION_SOURCES, line.store, line.message_bytes);
    uint64_t matrix[EMBER_PATH_MAX], next;
    int found = 0;
    if (ember_kind(row) != EMBER_KIND_CONNECTION || (uint64_t)ember_integer_or(row, EMBER_CONNECTION_TARGET, -1) != target
        || ember_line_path(&line, ember_parent(row), matrix) != path_words || memcmp(matrix, path, path_words * sizeof *path) != 0)
        return GOING;
    fprintf(stderr, "target %" PRIu64 ": sources", target);
    while (ember_next(&sources, &next)) {
        fprintf(stderr, " %" PRIu64, next);
        found |= next == source;
    }
    fputc('\n', stderr);
    return found ? CONNECTED : REFUSED;
}

/* The entries of a message, if one was read: the announcement, until a matrix is found; then answers. */
static int look(void)
{
    int searching = path_words == 0, state = GOING;
    for (size_t i = 0; i < line.count && state == GOING; i++)
        state = searching ? announced(i) : connection(i);
    return state;
}

int main(int words, char **word)
{
    static uint8_t input[65536];
    ssize_t got;
    if (words != 3)
        return fail("TARGET SOURCE");
    target = strtoull(word[1], NULL, 10);
    source = strtoull(word[2], NULL, 10);
    ember_line_listen(&line);
    while ((got = read(STDIN_FILENO, input, sizeof input)) > 0) {
        for (size_t at = 0; at < (size_t)got; at += line.consumed) {
            int state = ember_line_turn(&line, input + at, (size_t)got - at) == EMBER_SETUP ? FAILED : look();
            if (state != GOING)
                return state == CONNECTED ? 0 : 1;
        }
    }
    return fail(path_words == 0 ? "no matrix was announced" : "no answer came");
}
