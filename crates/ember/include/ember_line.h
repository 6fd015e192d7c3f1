/* A line: a stream with its session and store, the entries of its last message, and the desk behind it, in one struct. Plain C99 and C++;
 * ember.h takes it in, and it ember.h. A host's loop, whole:
 *
 *     static struct ember_line line;                                      some 125 KB: not on a small stack
 *     ember_line_start(&line, EMBER_N_TO_N, 8, 10, 0, 0, path, 2);        or ember_line_listen(&line), with no desk
 *     while ((got = read(from, input, sizeof input)) > 0)
 *         for (at = 0; at < (size_t)got; at += line.consumed)
 *             switch (ember_line_turn(&line, input + at, (size_t)got - at)) {
 *             case EMBER_REQUEST: ..   ember_write_response, and send it
 *             case EMBER_MESSAGE: ..   if (line.tree == EMBER_DONE) for (i = 0; i < line.count; i++) .. line.table[i] ..
 *             case EMBER_SETUP: ..     words of the line that the host changed: start it anew
 *             }
 *
 * The long functions of ember.h, which these call, stay for those who lend by hand or share one desk among streams. Nothing here allocates
 * or keeps a pointer: a line may be copied, moved and written to a file as it is. */
#include "ember.h"

#ifndef EMBER_LINE_H
#define EMBER_LINE_H

#include <stddef.h>
#include <stdint.h>
#include <string.h>

#ifdef __cplusplus
extern "C" {
#endif

struct ember_line {
    /* what the last turn told. Where a field says nothing it is 0 */
    uint64_t event;       /* what it answered */
    size_t consumed;      /* bytes of the chunk; offer the rest again */
    int discarded;        /* 1 if an unfinished message was thrown away */
    size_t message_bytes; /* after EMBER_MESSAGE: the message is the store's first bytes, until the next turn */
    uint64_t tree;        /* after EMBER_MESSAGE: EMBER_DONE or 30 to 38 */
    size_t place;         /* of a refusal 30 to 37, in the message */
    size_t needed;        /* for EMBER_NO_ROOM: how many entries the message has */
    uint64_t root;        /* after EMBER_DONE of the tree: EMBER_ELEMENTS or EMBER_STREAMS */
    size_t count;         /* after EMBER_DONE of the tree: how many entries the table has */
    uint64_t desk;        /* after EMBER_DONE of the tree: EMBER_DONE, or EMBER_SETUP if the desk is not legal */
    size_t answer_count;  /* how many answers there are */

    ember_row table[EMBER_ROWS_MAX];  /* the entries, from 0 */
    uint8_t answers[EMBER_ROWS_MAX];  /* the desk's, EMBER_DONE or 40 to 44: answer i is for the row at ember_line_answered(line, i) */
    uint8_t store[EMBER_STORE_BYTES]; /* and this is where the message lies */
    uint64_t session[EMBER_SESSION_WORDS];

    /* the desk; it has none if path_words is 0 */
    uint64_t figures[EMBER_FIGURES_WORDS];
    uint64_t path[EMBER_PATH_MAX];
    size_t path_words;
    uint8_t crosspoints[EMBER_CROSSPOINTS]; /* its own are the first, as many as ember_line_size says */
};

/* How many crosspoints the line's desk has; 0 if its figures are out of their ranges.
 * Never more than EMBER_CROSSPOINTS. */
static inline size_t ember_line_size(const struct ember_line *line)
{
    return (size_t)ember_desk_size(line->figures, EMBER_FIGURES_WORDS);
}

/* Starts a line with no desk, to listen: messages are read, and no connection is served. EMBER_DONE.
 * Never fails. */
static inline uint64_t ember_line_listen(struct ember_line *line)
{
    memset(line, 0, sizeof *line);
    return ember_start(line->session, EMBER_SESSION_WORDS);
}

/* Starts a line with a desk: a type, EMBER_ONE_TO_N, EMBER_ONE_TO_ONE or EMBER_N_TO_N, 1 to 64 targets and sources, the most connections in
 * total and for a target, 0 for no such limit, and the path of its matrix. EMBER_DONE; or EMBER_BAD_DESK, and it listens with no desk.
 * Never opens a desk that is not legal. */
static inline uint64_t ember_line_start(struct ember_line *line, uint64_t type, uint64_t targets, uint64_t sources, uint64_t total,
                                        uint64_t each, const uint64_t *path, size_t path_words)
{
    uint64_t number;
    ember_line_listen(line);
    line->figures[EMBER_FIGURES_TYPE] = type;
    line->figures[EMBER_FIGURES_TARGETS] = targets;
    line->figures[EMBER_FIGURES_SOURCES] = sources;
    line->figures[EMBER_FIGURES_HAS_TOTAL] = total != 0;
    line->figures[EMBER_FIGURES_TOTAL] = total;
    line->figures[EMBER_FIGURES_HAS_EACH] = each != 0;
    line->figures[EMBER_FIGURES_EACH] = each;
    number = ember_desk_open(line->figures, EMBER_FIGURES_WORDS, 0, path, path_words, line->crosspoints, ember_line_size(line));
    if (number != EMBER_DONE)
        return number;
    memcpy(line->path, path, path_words * sizeof *path);
    line->path_words = path_words;
    return EMBER_DONE;
}

/* Starts the stream of a line anew, as when it was connected again: outside frames, no message open. EMBER_DONE.
 * Never touches the desk. */
static inline uint64_t ember_line_restart(struct ember_line *line)
{
    line->message_bytes = line->count = line->answer_count = 0;
    return ember_start(line->session, EMBER_SESSION_WORDS);
}

/* Takes a turn on a chunk of the stream: answers the event's number, 2 to 24, or EMBER_DONE, and tells the rest in the line's fields. Offer
 * what was not consumed again. EMBER_SETUP if the host changed words of the session or the desk's figures or path.
 * Never loops a host for ever: after EMBER_SETUP the whole chunk counts as consumed, though nothing of it was. */
static inline uint64_t ember_line_turn(struct ember_line *line, const uint8_t *chunk, size_t chunk_bytes)
{
    uint64_t told[EMBER_TURN_WORDS] = {0};
    if (line->path_words == 0) {
        line->event = ember_feed(line->session, EMBER_SESSION_WORDS, line->store, sizeof line->store, chunk, chunk_bytes, told, EMBER_FEED_WORDS);
        if (line->event == EMBER_MESSAGE)
            told[EMBER_TURN_TREE] = ember_read(line->store, (size_t)told[EMBER_LENGTH], line->table, EMBER_ROWS_MAX, told + EMBER_TURN_PLACE, EMBER_READ_WORDS);
    } else {
        line->event = ember_turn(line->session, EMBER_SESSION_WORDS, line->store, sizeof line->store, chunk, chunk_bytes, line->table, EMBER_ROWS_MAX,
                                 line->figures, EMBER_FIGURES_WORDS, line->path, line->path_words, line->crosspoints, ember_line_size(line),
                                 line->answers, told, EMBER_TURN_WORDS);
    }
    line->consumed = line->event == EMBER_SETUP ? chunk_bytes : (size_t)told[EMBER_CONSUMED];
    line->discarded = told[EMBER_DISCARDED] != 0;
    line->message_bytes = (size_t)told[EMBER_LENGTH];
    line->tree = told[EMBER_TURN_TREE];
    line->place = (size_t)told[EMBER_TURN_PLACE];
    line->needed = line->tree == EMBER_NO_ROOM ? (size_t)told[EMBER_TURN_COUNT] : 0;
    line->count = line->tree == EMBER_DONE ? (size_t)told[EMBER_TURN_COUNT] : 0;
    line->root = told[EMBER_TURN_ROOT];
    line->desk = told[EMBER_TURN_DESK];
    line->answer_count = (size_t)told[EMBER_TURN_ANSWERS];
    return line->event;
}

/* The full path of the element at a place of the line's table: its numbers into path, which has EMBER_PATH_MAX words, and how many, 1 to
 * 16; 0 if the entry is no element.
 * Never reads past the table's count. */
static inline size_t ember_line_path(const struct ember_line *line, size_t place, uint64_t *path)
{
    return ember_path((const ember_row *)line->table, line->count, place, line->store, line->message_bytes, path);
}

/* How many entries the one at a place of the line's table stands in: 0 in Root.
 * Never reads past the table's count. */
static inline size_t ember_line_depth(const struct ember_line *line, size_t place)
{
    return ember_depth((const ember_row *)line->table, line->count, place);
}

/* A text of the entry at a place, and how many bytes it has; or `otherwise`, which ends in a 0, and its length.
 * Never puts a 0 after a text that was sent: print it with "%.*s". */
static inline const char *ember_line_text_or(const struct ember_line *line, size_t place, size_t member, const char *otherwise, size_t *count)
{
    if (place < line->count)
        return ember_text_or(line->table[place], member, line->store, line->message_bytes, otherwise, count);
    *count = strlen(otherwise);
    return otherwise;
}

/* The place in the line's table of the connection that answer i is for; line->count if there is none.
 * Never past the count. */
static inline size_t ember_line_answered(const struct ember_line *line, size_t i)
{
    return ember_answered((const ember_row *)line->table, line->count, i);
}

/* 1 if a source is connected to a target of the line's desk; else 0.
 * Never looks past the desk's crosspoints, whatever is asked. */
static inline int ember_line_connected(const struct ember_line *line, uint64_t target, uint64_t source)
{
    return target < line->figures[EMBER_FIGURES_TARGETS] && source < line->figures[EMBER_FIGURES_SOURCES] && ember_line_size(line) != 0
           && line->crosspoints[EMBER_CROSSPOINT(line->figures, target, source)] == 1;
}

/* The sources of a target of the line's desk, ascending: into sources, which has EMBER_SIDE_MAX words, and how many.
 * Never more than 64. */
static inline size_t ember_line_sources(const struct ember_line *line, uint64_t target, uint64_t *sources)
{
    size_t count = 0;
    uint64_t source;
    for (source = 0; source < EMBER_SIDE_MAX; source++)
        if (ember_line_connected(line, target, source))
            sources[count++] = source;
    return count;
}

/* Asks the line's desk for one target, as the host itself: EMBER_DONE, 41 to 44, or EMBER_SETUP if it has no desk.
 * Never touches the stream: an open frame or message stays. */
static inline uint64_t ember_line_request(struct ember_line *line, uint64_t target, const uint64_t *sources, size_t source_words, uint64_t operation)
{
    if (line->path_words == 0)
        return EMBER_SETUP;
    return ember_desk_request(line->figures, EMBER_FIGURES_WORDS, target, sources, source_words, operation, line->crosspoints,
                              ember_line_size(line));
}

/* Writes the route sheet of the line's desk: EMBER_DONE and *count, how many bytes, at most EMBER_SHEET_MAX; EMBER_NO_OUT if out is too short;
 * EMBER_SETUP if there is no desk or the host made it illegal. *count and out are as they were but after EMBER_DONE.
 * Never writes a part of a sheet. */
static inline uint64_t ember_line_sheet_write(const struct ember_line *line, uint8_t *out, size_t out_bytes, size_t *count)
{
    uint64_t length[EMBER_SHEET_WORDS], number;
    number = ember_sheet_write(line->figures, EMBER_FIGURES_WORDS, line->path, line->path_words, line->crosspoints, ember_line_size(line), out, out_bytes,
                               length, EMBER_SHEET_WORDS);
    if (number == EMBER_DONE)
        *count = (size_t)length[0];
    return number;
}

/* Reads a route sheet into the line's desk: EMBER_DONE, and the desk is the sheet's; or the first refusal, and the desk is as it was.
 * ember_sheet_line says where. It takes some 180 KB of stack.
 * Never touches the stream: an open frame or message stays. */
static inline uint64_t ember_line_sheet_read(struct ember_line *line, const uint8_t *text, size_t text_bytes)
{
    uint8_t store[EMBER_STORE_BYTES];
    uint64_t words[EMBER_SHEET_WORDS], number;
    number = ember_sheet_read(text, text_bytes, store, sizeof store, line->figures, EMBER_FIGURES_WORDS, line->path, EMBER_PATH_MAX, line->crosspoints,
                              sizeof line->crosspoints, words, EMBER_SHEET_WORDS);
    if (number == EMBER_DONE)
        line->path_words = (size_t)words[0];
    return number;
}

/* The line, counted from 1, at which a route sheet is refused: the first bad line; if there is none, the line at which the first event from
 * 10 up is made; 0 if the refusal is of no line: no message or two, a message that the tree reader or the desk refuses. A line is read if it
 * is one or more pairs of hexadecimal digits, of either case, and ends at 0A or the text's end. So an empty line, a blank and 0D, as in 0D 0A,
 * are refused. Lines are one stream: a frame may go over several, and several may stand in one. Inside, any spelling of the message that
 * ember_read accepts is read, keep-alives are passed over, connections may come in any order, with operations, and twice. It takes 17 KB of
 * stack.
 * Never asks for more than the text. */
static inline size_t ember_sheet_line(const uint8_t *text, size_t text_bytes)
{
    uint8_t store[EMBER_STORE_BYTES], byte = 0;
    uint64_t session[EMBER_SESSION_WORDS], told[EMBER_FEED_WORDS];
    size_t at, line = 1, digits = 0, pass;
    ember_start(session, EMBER_SESSION_WORDS);
    for (pass = 0; pass < 2; pass++) {
        for (at = 0, line = 1, digits = 0; at < text_bytes; at++) {
            uint8_t c = text[at], digit = c >= '0' && c <= '9'   ? (uint8_t)(c - '0')
                                          : c >= 'A' && c <= 'F' ? (uint8_t)(c - 'A' + 10)
                                          : c >= 'a' && c <= 'f' ? (uint8_t)(c - 'a' + 10)
                                                                 : 16;
            if (c == '\n') {
                if (digits == 0 || digits % 2 != 0)
                    return line;
                line++;
                digits = 0;
                continue;
            }
            if (digit == 16)
                return line;
            byte = (uint8_t)(byte << 4 | digit);
            if (++digits % 2 == 0 && pass == 1
                && ember_feed(session, EMBER_SESSION_WORDS, store, sizeof store, &byte, 1, told, EMBER_FEED_WORDS) >= EMBER_BAD_STRAY)
                return line;
        }
        if (digits % 2 != 0)
            return line;
    }
    return 0;
}

#ifdef __cplusplus
}
#endif

#endif
