/* Every number of ember.h against the library: each is what a call answers or leaves in a row, or the length that it takes
 * and the next that it refuses; and every function of ember_entries.h. Says what differs and ends with 1. */
#include "ember.h"

#include <stdio.h>
#include <string.h>

static int wrong;

static void expect(const char *what, uint64_t got, uint64_t wanted)
{
    if (got != wanted) {
        printf("%s: %llu, and not %llu\n", what, (unsigned long long)got, (unsigned long long)wanted);
        wrong = 1;
    }
}

/* ---- the session and the writer of frames */

static uint64_t session[EMBER_SESSION_WORDS + 1];
static uint8_t store[EMBER_STORE_BYTES + 1];
static uint64_t fed[EMBER_FEED_WORDS + 1];

static uint64_t feed(const uint8_t *bytes, size_t count)
{
    return ember_feed(session, EMBER_SESSION_WORDS, store, EMBER_STORE_BYTES, bytes, count, fed, EMBER_FEED_WORDS);
}

static void fresh(void)
{
    expect("ember_start", ember_start(session, EMBER_SESSION_WORDS), EMBER_DONE);
}

/* A frame around content, fed to the session as it stands. */
static uint64_t feed_content(const uint8_t *content, size_t count)
{
    uint8_t frame[EMBER_FRAME_MAX];
    uint64_t length = 0;
    expect("ember_write_frame", ember_write_frame(content, count, frame, sizeof frame, &length), EMBER_DONE);
    return feed(frame, length);
}

static uint64_t feed_packet(uint8_t flags, uint8_t dtd, size_t payload)
{
    uint8_t content[EMBER_CONTENT_MAX] = {0x00, 0x0e, 0x00, 0x01, flags, dtd, 0x02, 0x14, 0x02};
    return feed_content(content, 9 + payload);
}

/* A stream of its own from a fresh session: its first event. */
#define FIRST(name, ...)                                                                                                \
    do {                                                                                                                \
        static const uint8_t bytes[] = {__VA_ARGS__};                                                                   \
        fresh();                                                                                                        \
        expect(#name, feed(bytes, sizeof bytes), name);                                                                 \
    } while (0)

static void session_lengths(void)
{
    expect("a session one word short", ember_start(session, EMBER_SESSION_WORDS - 1), EMBER_SETUP);
    expect("a session one word long", ember_start(session, EMBER_SESSION_WORDS + 1), EMBER_SETUP);
    fresh();
    for (int more = -1; more <= 1; more++) {
        uint64_t wanted = more == 0 ? EMBER_DONE : EMBER_SETUP;
        expect("words of the session", ember_feed(session, EMBER_SESSION_WORDS + more, store, EMBER_STORE_BYTES, NULL, 0,
                                                    fed, EMBER_FEED_WORDS), wanted);
        expect("bytes of the store", ember_feed(session, EMBER_SESSION_WORDS, store, EMBER_STORE_BYTES + more, NULL, 0,
                                                  fed, EMBER_FEED_WORDS), wanted);
        expect("words of the answer", ember_feed(session, EMBER_SESSION_WORDS, store, EMBER_STORE_BYTES, NULL, 0,
                                                   fed, EMBER_FEED_WORDS + more), wanted);
    }
}

static void events(void)
{
    static uint8_t bytes[1100];
    fresh();
    expect("EMBER_DONE", feed(NULL, 0), EMBER_DONE);
    FIRST(EMBER_REQUEST, 0xfe, 0x00, 0x0e, 0x01, 0x01, 0x94, 0xe4, 0xff);
    FIRST(EMBER_RESPONSE, 0xfe, 0x00, 0x0e, 0x02, 0x01, 0xfd, 0xdc, 0xce, 0xff);
    FIRST(EMBER_BAD_STRAY, 0x00);
    FIRST(EMBER_BAD_CUT, 0xfe, 0x00, 0xfe);
    FIRST(EMBER_BAD_BYTE, 0xfe, 0xf8, 0xff);
    FIRST(EMBER_BAD_ESCAPE, 0xfe, 0xfd, 0xff);
    FIRST(EMBER_BAD_SHORT, 0xfe, 0xfe, 0xff);
    FIRST(EMBER_BAD_CRC, 0xfe, 0x00, 0x0e, 0x01, 0x01, 0x94, 0xe5, 0xff);

    memset(bytes, 0, sizeof bytes);
    bytes[0] = 0xfe;
    bytes[1 + 1025] = 0xff;
    fresh();
    expect("EMBER_BAD_LONG", feed(bytes, 1 + 1025 + 1), EMBER_BAD_LONG);

    fresh();
    memcpy(bytes, "\x01\x0e\x01\x01", 4);
    expect("EMBER_BAD_HEADER", feed_content(bytes, 4), EMBER_BAD_HEADER);
    expect("EMBER_BAD_FLAGS", feed_packet(0xc1, 0x01, 1), EMBER_BAD_FLAGS);
    expect("EMBER_BAD_DTD", feed_packet(0xc0, 0x02, 1), EMBER_BAD_DTD);
    expect("EMBER_BAD_ORPHAN", feed_packet(0x40, 0x01, 1), EMBER_BAD_ORPHAN);
    expect("EMBER_PIECE", feed_packet(0x80, 0x01, 1013), EMBER_PIECE);
    for (int piece = 2; piece <= 16; piece++)
        expect("EMBER_PIECE", feed_packet(0x00, 0x01, 1013), EMBER_PIECE);
    expect("EMBER_BAD_BIG", feed_packet(0x00, 0x01, 1013), EMBER_BAD_BIG);
    expect("fed[EMBER_DISCARDED]", fed[EMBER_DISCARDED], 1);
    expect("EMBER_MESSAGE", feed_packet(0xc0, 0x01, 7), EMBER_MESSAGE);
    expect("fed[EMBER_DISCARDED]", fed[EMBER_DISCARDED], 0);
    expect("fed[EMBER_LENGTH]", fed[EMBER_LENGTH], 7);
    fresh();
    memcpy(bytes, "\xfe\x00\xfe\x00", 4);
    feed(bytes, 4);
    expect("fed[EMBER_CONSUMED]", fed[EMBER_CONSUMED], 3);
}

/* The words of a session, as the header lists them. */
static void session_words(void)
{
    static uint8_t bytes[1100];
    static const struct { const char *hex; size_t count; uint64_t place, length; } places[] = {
        {"", 0, 0, 0},
        {"\x00", 1, 1, 0},
        {"\xfe\x00\x01", 3, 2, 2},
        {"\xfe\x00\xfd", 3, 3, 1},
        {"\xfe\x00\xf8\x00", 4, 4, 1},
    };
    for (size_t i = 0; i < sizeof places / sizeof *places; i++) {
        fresh();
        feed((const uint8_t *)places[i].hex, places[i].count);
        expect("where the stream stands", session[0], places[i].place);
        expect("bytes of content", session[1], places[i].length);
    }
    memset(bytes, 0, sizeof bytes);
    bytes[0] = 0xfe;
    fresh();
    feed(bytes, 1 + 1025);
    expect("past its limit", session[0], 5);
    expect("bytes of content at most", session[1], 1024);
    session[1] = 1025;
    expect("one more", feed(NULL, 0), EMBER_SETUP);
    fresh();
    feed_packet(0x80, 0x01, 3);
    expect("a message is unfinished", session[2], 1);
    expect("bytes of the message", session[3], 3);
    session[3] = 16384;
    expect("bytes of the message at most", feed(NULL, 0), EMBER_DONE);
    session[3] = 16385;
    expect("one more", feed(NULL, 0), EMBER_SETUP);
}

static void writers(void)
{
    static uint8_t content[16385], out[EMBER_FRAMES_MAX + 1];
    uint64_t count = 0, longest = 0;
    expect("content at most", ember_write_frame(content, EMBER_CONTENT_MAX, out, sizeof out, &count), EMBER_DONE);
    expect("EMBER_NO_OUT", ember_write_frame(content, EMBER_CONTENT_MAX + 1, out, sizeof out, &count), EMBER_NO_OUT);
    /* Escaped throughout; some CRC is too. */
    memset(content, 0xff, sizeof content);
    for (unsigned last = 0; last < 8 * 8 * 8 * 8 * 8; last++) {
        for (unsigned digit = 0, rest = last; digit < 5; digit++, rest /= 8)
            content[digit] = 0xf8 + rest % 8;
        expect("ember_write_frame", ember_write_frame(content, EMBER_CONTENT_MAX, out, sizeof out, &count), EMBER_DONE);
        if (count > longest)
            longest = count;
        if (longest >= EMBER_FRAME_MAX)
            break;
    }
    expect("EMBER_FRAME_MAX", longest, EMBER_FRAME_MAX);
    expect("a frame that just fits", ember_write_frame(content, EMBER_CONTENT_MAX, out, longest, &count), EMBER_DONE);
    expect("one byte less", ember_write_frame(content, EMBER_CONTENT_MAX, out, longest - 1, &count), EMBER_NO_OUT);
    expect("a message in 17 frames", ember_write_message(content, 16384, out, EMBER_FRAMES_MAX, &count), EMBER_DONE);
    expect("a message too long", ember_write_message(content, 16385, out, sizeof out, &count), EMBER_NO_OUT);
    expect("ember_write_request", ember_write_request(out, 8, &count), EMBER_DONE);
    expect("its count", count, 8);
    expect("ember_write_request", ember_write_request(out, 7, &count), EMBER_NO_OUT);
    expect("ember_write_response", ember_write_response(out, 9, &count), EMBER_DONE);
    expect("its count", count, 9);
    expect("ember_write_response", ember_write_response(out, 8, &count), EMBER_NO_OUT);
}

/* ---- the tree */

static ember_row table[EMBER_ROWS_MAX + 1];
static uint64_t answer[EMBER_READ_WORDS + 1];

/* A word of a cell, by the layout that the header states. */
static uint64_t cell(size_t row, size_t c, size_t word)
{
    return table[row][EMBER_ROW_CELLS + EMBER_CELL_WORDS * c + word];
}

static uint64_t read_into(const uint8_t *bytes, size_t count, size_t rows)
{
    return ember_read(bytes, count, table, rows, answer, EMBER_READ_WORDS);
}

/* A message of its own: the number, and its place or count. */
#define ANSWERS(name, word, value, ...)                                                                                 \
    do {                                                                                                                \
        static const uint8_t bytes[] = {__VA_ARGS__};                                                                   \
        expect(#name, read_into(bytes, sizeof bytes, 1), name);                                                         \
        expect(#name ", its word", answer[word], value);                                                                \
    } while (0)

static void tree_numbers(void)
{
    /* P12 */
    ANSWERS(EMBER_DONE, EMBER_COUNT, 1, 0x60, 0x0b, 0x6b, 0x09, 0xa0, 0x07, 0x62, 0x05, 0xa0, 0x03, 0x02, 0x01, 0x20);
    expect("answer[EMBER_ROOT]", answer[EMBER_ROOT], EMBER_ELEMENTS);
    expect("a command", table[0][EMBER_ROW_KIND], EMBER_KIND_COMMAND);
    expect("its parent", table[0][EMBER_ROW_PARENT], 0);
    expect("its number's type", cell(0, 0, 0), EMBER_TYPE_INTEGER);
    expect("its number", cell(0, 0, 1), 32);
    expect("no mask", cell(0, 1, 0), EMBER_TYPE_ABSENT);

    ANSWERS(EMBER_BAD_BER, EMBER_PLACE, 4, 0x60, 0x02, 0x6b, 0x00, 0x00);
    ANSWERS(EMBER_BAD_FORM, EMBER_PLACE, 2, 0x60, 0x80, 0x6b, 0x00, 0x00, 0x00);
    ANSWERS(EMBER_BAD_GLOW, EMBER_PLACE, 0, 0x61, 0x00);
    ANSWERS(EMBER_BAD_NUMBER, EMBER_PLACE, 10, 0x60, 0x0b, 0x6b, 0x09, 0xa0, 0x07, 0x63, 0x05, 0xa0, 0x03, 0x02, 0x01, 0x00);
    ANSWERS(EMBER_BAD_REAL, EMBER_PLACE, 19, 0x60, 0x14, 0x6b, 0x12, 0xa0, 0x10, 0x61, 0x0e, 0xa0, 0x03, 0x02, 0x01, 0x01, 0xa1, 0x07, 0x31, 0x05,
            0xa2, 0x03, 0x09, 0x01, 0x42);
    ANSWERS(EMBER_BAD_NAME, EMBER_PLACE, 19, 0x60, 0x14, 0x6b, 0x12, 0xa0, 0x10, 0x63, 0x0e, 0xa0, 0x03, 0x02, 0x01, 0x01, 0xa1, 0x07, 0x31, 0x05,
            0xa0, 0x03, 0x0c, 0x01, 0x2f);
    ANSWERS(EMBER_BAD_PATH, EMBER_PLACE, 10, 0x60, 0x0a, 0x6b, 0x08, 0xa0, 0x06, 0x6a, 0x04, 0xa0, 0x02, 0x0d, 0x00);
    ANSWERS(EMBER_NO_ROOM, EMBER_COUNT, 2, 0x60, 0x14, 0x6b, 0x12, 0xa0, 0x07, 0x62, 0x05, 0xa0, 0x03, 0x02, 0x01, 0x20, 0xa0, 0x07, 0x62, 0x05,
            0xa0, 0x03, 0x02, 0x01, 0x20);

    /* Unlisted containers in a command, below the four that hold it: the 65th is one too many. */
    static uint8_t deep[10 + 64 * 2] = {0x60, 0x80, 0x6b, 0x80, 0xa0, 0x80, 0x62, 0x80};
    static const uint8_t number[] = {0xa0, 0x03, 0x02, 0x01, 0x20};
    memcpy(deep + 8, number, sizeof number);
    for (size_t i = 8 + sizeof number; i < sizeof deep; i += 2) {
        deep[i] = 0xa9;
        if (i + 1 < sizeof deep)
            deep[i + 1] = 0x80;
    }
    expect("EMBER_BAD_DEPTH", read_into(deep, sizeof deep, 1), EMBER_BAD_DEPTH);
    expect("EMBER_BAD_DEPTH, its place", answer[EMBER_PLACE], 8 + sizeof number + 60 * 2);
}

/* A message with an element of each kind, and values of each type. */
static void tree_rows(void)
{
    static const uint8_t bytes[] = {
        0x60, 0x81, 0x81, 0x6b, 0x7f,
        /* parameter 1: value, minimum, maximum, access, factor, online, stream */
        0xa0, 0x2f, 0x61, 0x2d, 0xa0, 0x03, 0x02, 0x01, 0x01, 0xa1, 0x26, 0x31, 0x24, 0xa2, 0x04, 0x0c,
        0x02, 0x68, 0x69, 0xa3, 0x03, 0x04, 0x01, 0xff, 0xa4, 0x02, 0x09, 0x00, 0xa5, 0x03, 0x02, 0x01,
        0x03, 0xa8, 0x03, 0x02, 0x01, 0xff, 0xa9, 0x03, 0x01, 0x01, 0x01, 0xae, 0x04, 0x02, 0x02, 0x01,
        0x00,
        /* node 2 */
        0xa0, 0x07, 0x63, 0x05, 0xa0, 0x03, 0x02, 0x01, 0x02,
        /* matrix 3 */
        0xa0, 0x07, 0x6d, 0x05, 0xa0, 0x03, 0x02, 0x01, 0x03,
        /* qualified parameter 4 */
        0xa0, 0x07, 0x69, 0x05, 0xa0, 0x03, 0x0d, 0x01, 0x04,
        /* qualified node 5 */
        0xa0, 0x07, 0x6a, 0x05, 0xa0, 0x03, 0x0d, 0x01, 0x05,
        /* qualified matrix 6.7 with two connections */
        0xa0, 0x28, 0x71, 0x26, 0xa0, 0x04, 0x0d, 0x02, 0x06, 0x07, 0xa5, 0x1e, 0x30, 0x1c, 0xa0, 0x0c,
        0x70, 0x0a, 0xa0, 0x03, 0x02, 0x01, 0x00, 0xa1, 0x03, 0x0d, 0x01, 0x09, 0xa0, 0x0c, 0x70, 0x0a,
        0xa0, 0x03, 0x02, 0x01, 0x01, 0xa2, 0x03, 0x02, 0x01, 0x02,
    };
    static const uint64_t kinds[] = {EMBER_KIND_PARAMETER, EMBER_KIND_NODE, EMBER_KIND_MATRIX, EMBER_KIND_QUALIFIED_PARAMETER, EMBER_KIND_QUALIFIED_NODE,
                                     EMBER_KIND_QUALIFIED_MATRIX, EMBER_KIND_CONNECTION, EMBER_KIND_CONNECTION};
    static const uint8_t streams[] = {0x60, 0x0d, 0x65, 0x0b, 0xa0, 0x09, 0x66, 0x07, 0xa0, 0x03, 0x02, 0x01, 0x05, 0xa1, 0x00};
    size_t count = sizeof kinds / sizeof *kinds;
    memset(table, 0xee, sizeof table);
    expect("a message of each kind", read_into(bytes, sizeof bytes, EMBER_ROWS_MAX), EMBER_DONE);
    expect("its count", answer[EMBER_COUNT], count);
    for (size_t i = 0; i < count; i++)
        expect("a kind", table[i][EMBER_ROW_KIND], kinds[i]);
    expect("a connection's parent", table[count - 1][EMBER_ROW_PARENT], 6);
    expect("the row past the count", table[count][0], 0xeeeeeeeeeeeeeeeeull);
    expect("text", cell(0, 3, 0), EMBER_TYPE_TEXT);
    expect("text, its start", cell(0, 3, 1), 22);
    expect("text, its length", cell(0, 3, 2), 2);
    expect("octets", cell(0, 4, 0), EMBER_TYPE_OCTETS);
    expect("real", cell(0, 5, 0), EMBER_TYPE_REAL);
    expect("access", cell(0, 6, 1), 3);
    expect("factor", cell(0, 9, 1), 0xffffffffffffffffull);
    expect("online", cell(0, 10, 0), EMBER_TYPE_BOOLEAN);
    expect("online, true", cell(0, 10, 1), 1);
    expect("stream", cell(0, 15, 1), 256);
    expect("path", cell(5, 0, 0), EMBER_TYPE_RELATIVE_OID);
    expect("path, its length", cell(5, 0, 2), 2);
    expect("sources", cell(6, 1, 0), EMBER_TYPE_RELATIVE_OID);
    expect("operation", cell(7, 2, 1), 2);
    expect("a stream without its value", read_into(streams, sizeof streams, 1), EMBER_BAD_GLOW);
    static const uint8_t stream[] = {0x60, 0x10, 0x65, 0x0e, 0xa0, 0x0c, 0x66, 0x0a, 0xa0, 0x03, 0x02, 0x01, 0x05, 0xa1, 0x03, 0x01, 0x01, 0x00};
    expect("a stream", read_into(stream, sizeof stream, 1), EMBER_DONE);
    expect("streams", answer[EMBER_ROOT], EMBER_STREAMS);
    expect("a stream entry", table[0][EMBER_ROW_KIND], EMBER_KIND_STREAM_ENTRY);
}

static void tree_lengths(void)
{
    static uint8_t message[EMBER_MESSAGE_MAX + 1] = {0x60, 0x02, 0x6b, 0x00};
    memset(answer, 0xee, sizeof answer);
    expect("rows over the limit", read_into(message, 4, EMBER_ROWS_MAX + 1), EMBER_SETUP);
    expect("bytes over the limit", read_into(message, EMBER_MESSAGE_MAX + 1, 1), EMBER_SETUP);
    expect("words of the answer", ember_read(message, 4, table, 1, answer, EMBER_READ_WORDS - 1), EMBER_SETUP);
    expect("words of the answer", ember_read(message, 4, table, 1, answer, EMBER_READ_WORDS + 1), EMBER_SETUP);
    expect("the answer as it was", answer[0], 0xeeeeeeeeeeeeeeeeull);
    expect("bytes at the limit", read_into(message, EMBER_MESSAGE_MAX, EMBER_ROWS_MAX), EMBER_BAD_BER);
    expect("no rows", read_into(message, 4, 0), EMBER_DONE);
}

/* P12 written again: in as many bytes as it takes, in one less, and with words of the answer one beside its count. */
static void writing(void)
{
    static const uint8_t message[] = {0x60, 0x0b, 0x6b, 0x09, 0xa0, 0x07, 0x62, 0x05, 0xa0, 0x03, 0x02, 0x01, 0x20};
    const ember_row *rows = ember_rows(table);
    uint8_t out[sizeof message + 1];
    uint64_t length[EMBER_WRITE_WORDS + 1] = {0};
    expect("read", read_into(message, sizeof message, 1), EMBER_DONE);
    memset(out, 0xee, sizeof out);
    expect("too short", ember_write(rows, 1, 1, EMBER_ELEMENTS, message, sizeof message, out, sizeof message - 1, length, EMBER_WRITE_WORDS), EMBER_NO_OUT);
    expect("the output as it was", out[0], 0xee);
    expect("words", ember_write(rows, 1, 1, EMBER_ELEMENTS, message, sizeof message, out, sizeof out, length, EMBER_WRITE_WORDS - 1), EMBER_SETUP);
    expect("words", ember_write(rows, 1, 1, EMBER_ELEMENTS, message, sizeof message, out, sizeof out, length, EMBER_WRITE_WORDS + 1), EMBER_SETUP);
    expect("the output as it was", out[0], 0xee);
    expect("written", ember_write(rows, 1, 1, EMBER_ELEMENTS, message, sizeof message, out, sizeof out, length, EMBER_WRITE_WORDS), EMBER_DONE);
    expect("its length", length[0], sizeof message);
    expect("its bytes", (uint64_t)memcmp(out, message, sizeof message), 0);
    expect("the rest as it was", out[sizeof message], 0xee);
    expect("accepted", ember_accepts(rows, 1, 1, EMBER_ELEMENTS, message, sizeof message), 1);
    expect("no command is a stream entry", ember_accepts(rows, 1, 1, EMBER_STREAMS, message, sizeof message), 0);
    expect("more than the rows", ember_accepts(rows, 1, 2, EMBER_ELEMENTS, message, sizeof message), 0);
    expect("an empty tree", ember_write(rows, 0, 0, EMBER_STREAMS, message, 0, out, sizeof out, length, EMBER_WRITE_WORDS), EMBER_DONE);
    expect("its length", length[0], 4);
    table[0][EMBER_ROW_PARENT] = 1;
    expect("its own parent", ember_write(rows, 1, 1, EMBER_ELEMENTS, message, sizeof message, out, sizeof out, length, EMBER_WRITE_WORDS), EMBER_NO_OUT);
    expect("no length", length[0], 0);
}

/* ---- the desk */

static uint64_t figures[EMBER_FIGURES_WORDS + 1];
static uint64_t path[EMBER_PATH_MAX + 1];
static uint8_t crosspoints[EMBER_CROSSPOINTS + 1];

static void make_figures(uint64_t type, uint64_t targets, uint64_t sources)
{
    memset(figures, 0, sizeof figures);
    figures[EMBER_FIGURES_TYPE] = type;
    figures[EMBER_FIGURES_TARGETS] = targets;
    figures[EMBER_FIGURES_SOURCES] = sources;
}

static void limit(size_t given, size_t word, uint64_t most)
{
    figures[given] = 1;
    figures[word] = most;
}

/* How many crosspoints the desk has. */
static size_t size(void)
{
    return (size_t)ember_desk_size(figures, EMBER_FIGURES_WORDS);
}

static uint64_t open_desk(void)
{
    return ember_desk_open(figures, EMBER_FIGURES_WORDS, 0, path, 2, crosspoints, size());
}

static uint64_t is_legal(void)
{
    return ember_desk_is_legal(figures, EMBER_FIGURES_WORDS, path, 2, crosspoints, size());
}

static uint64_t ask(uint64_t target, uint64_t operation, size_t count, uint64_t first, uint64_t second)
{
    uint64_t sources[2];
    sources[0] = first;
    sources[1] = second;
    return ember_desk_request(figures, EMBER_FIGURES_WORDS, target, sources, count, operation, crosspoints, size());
}

static void desk(void)
{
    for (size_t i = 0; i <= EMBER_PATH_MAX; i++)
        path[i] = i + 1;
    make_figures(EMBER_N_TO_N, EMBER_SIDE_MAX, EMBER_SIDE_MAX);
    memset(crosspoints, 0xee, sizeof crosspoints);
    for (int more = -1; more <= 1; more++) {
        uint64_t wanted = more == 0 ? EMBER_DONE : EMBER_SETUP;
        expect("words of figures", ember_desk_open(figures, EMBER_FIGURES_WORDS + more, 0, path, 2, crosspoints, EMBER_CROSSPOINTS), wanted);
        expect("crosspoints", ember_desk_open(figures, EMBER_FIGURES_WORDS, 0, path, 2, crosspoints, EMBER_CROSSPOINTS + more), wanted);
    }
    expect("cleared", crosspoints[EMBER_CROSSPOINTS - 1], 0);
    expect("no more than these", crosspoints[EMBER_CROSSPOINTS], 0xee);
    expect("a path of 16", ember_desk_open(figures, EMBER_FIGURES_WORDS, 0, path, EMBER_PATH_MAX, crosspoints, EMBER_CROSSPOINTS), EMBER_DONE);
    expect("a path of 17", ember_desk_open(figures, EMBER_FIGURES_WORDS, 0, path, EMBER_PATH_MAX + 1, crosspoints, EMBER_CROSSPOINTS), EMBER_BAD_DESK);
    expect("no path", ember_desk_open(figures, EMBER_FIGURES_WORDS, 0, path, 0, crosspoints, EMBER_CROSSPOINTS), EMBER_BAD_DESK);
    expect("mode 1", ember_desk_open(figures, EMBER_FIGURES_WORDS, 1, path, 2, crosspoints, EMBER_CROSSPOINTS), EMBER_BAD_DESK);
    expect("it is legal", is_legal(), 1);
    expect("without a path it is not", ember_desk_is_legal(figures, EMBER_FIGURES_WORDS, path, 0, crosspoints, EMBER_CROSSPOINTS), 0);

    expect("the largest desk", size(), EMBER_CROSSPOINTS);
    expect("no words", ember_desk_size(figures, EMBER_FIGURES_WORDS - 1), 0);

    make_figures(EMBER_N_TO_N, EMBER_SIDE_MAX + 1, 1);
    expect("65 targets", open_desk(), EMBER_BAD_DESK);
    expect("they have no size", size(), 0);
    expect("whatever is lent", ember_desk_open(figures, EMBER_FIGURES_WORDS, 0, path, 2, crosspoints, EMBER_SIDE_MAX + 1), EMBER_BAD_DESK);
    make_figures(EMBER_N_TO_N, 1, EMBER_SIDE_MAX + 1);
    expect("65 sources", open_desk(), EMBER_BAD_DESK);
    make_figures(EMBER_N_TO_N + 1, 1, 1);
    expect("no type", open_desk(), EMBER_BAD_DESK);
    make_figures(EMBER_N_TO_N, 1, 1);
    figures[EMBER_FIGURES_TOTAL] = 1;
    expect("a limit that is not given", open_desk(), EMBER_SETUP);
    expect("nor legal", is_legal(), 0);
    limit(EMBER_FIGURES_HAS_TOTAL, EMBER_FIGURES_TOTAL, 0);
    expect("a limit of 0", open_desk(), EMBER_BAD_DESK);
    figures[EMBER_FIGURES_HAS_TOTAL] = 2;
    expect("given twice", open_desk(), EMBER_SETUP);
    figures[EMBER_FIGURES_HAS_TOTAL] = figures[EMBER_FIGURES_TOTAL] = 0;
    figures[EMBER_FIGURES_HAS_EACH] = 2;
    expect("given twice", open_desk(), EMBER_SETUP);

    /* 1:N: a target has one source */
    make_figures(EMBER_ONE_TO_N, 2, 3);
    memset(crosspoints, 0xee, sizeof crosspoints);
    expect("two rows of three", size(), 6);
    for (int more = -1; more <= 1; more++) {
        uint64_t wanted = more == 0 ? EMBER_DONE : EMBER_SETUP;
        expect("crosspoints", ember_desk_open(figures, EMBER_FIGURES_WORDS, 0, path, 2, crosspoints, size() + more), wanted);
        expect("legal", ember_desk_is_legal(figures, EMBER_FIGURES_WORDS, path, 2, crosspoints, size() + more), more == 0);
    }
    expect("the next byte", crosspoints[6], 0xee);
    expect("open", open_desk(), EMBER_DONE);
    expect("EMBER_NO_TARGET", ask(2, EMBER_CONNECT, 1, 0, 0), EMBER_NO_TARGET);
    expect("EMBER_NO_SOURCE", ask(1, EMBER_CONNECT, 1, 3, 0), EMBER_NO_SOURCE);
    expect("EMBER_BAD_MANY", ask(1, EMBER_CONNECT, 2, 0, 1), EMBER_BAD_MANY);
    expect("no operation", ask(1, EMBER_DISCONNECT + 1, 1, 0, 0), EMBER_SETUP);
    expect("connect", ask(1, EMBER_CONNECT, 1, 2, 0), EMBER_DONE);
    expect("connected", crosspoints[EMBER_CROSSPOINT(figures, 1, 2)], 1);
    expect("replaced", ask(1, EMBER_CONNECT, 1, 0, 0), EMBER_DONE);
    expect("gone", crosspoints[EMBER_CROSSPOINT(figures, 1, 2)], 0);
    expect("shared", ask(0, EMBER_ABSOLUTE, 1, 0, 0), EMBER_DONE);
    expect("both have it", crosspoints[EMBER_CROSSPOINT(figures, 0, 0)] + crosspoints[EMBER_CROSSPOINT(figures, 1, 0)], 2);
    expect("disconnect", ask(1, EMBER_DISCONNECT, 1, 0, 0), EMBER_DONE);
    expect("gone", crosspoints[EMBER_CROSSPOINT(figures, 1, 0)], 0);
    crosspoints[EMBER_CROSSPOINT(figures, 1, 2)] = 2;
    expect("a cell of 2", is_legal(), 0);
    expect("so nothing is done", ask(1, EMBER_DISCONNECT, 1, 0, 0), EMBER_SETUP);

    /* 1:1: a source has one target */
    make_figures(EMBER_ONE_TO_ONE, 2, 3);
    expect("open", open_desk(), EMBER_DONE);
    expect("connect", ask(0, EMBER_CONNECT, 1, 2, 0), EMBER_DONE);
    expect("take", ask(1, EMBER_CONNECT, 1, 2, 0), EMBER_DONE);
    expect("taken", crosspoints[EMBER_CROSSPOINT(figures, 0, 2)], 0);
    expect("here", crosspoints[EMBER_CROSSPOINT(figures, 1, 2)], 1);

    /* N:N with limits */
    make_figures(EMBER_N_TO_N, 2, 3);
    limit(EMBER_FIGURES_HAS_TOTAL, EMBER_FIGURES_TOTAL, 3);
    limit(EMBER_FIGURES_HAS_EACH, EMBER_FIGURES_EACH, 2);
    expect("open", open_desk(), EMBER_DONE);
    expect("two", ask(0, EMBER_CONNECT, 2, 0, 1), EMBER_DONE);
    expect("EMBER_BAD_MANY", ask(0, EMBER_CONNECT, 1, 2, 0), EMBER_BAD_MANY);
    expect("EMBER_BAD_TOTAL", ask(1, EMBER_ABSOLUTE, 2, 0, 1), EMBER_BAD_TOTAL);
    expect("three", ask(1, EMBER_ABSOLUTE, 1, 1, 0), EMBER_DONE);
}

/* A connection for the matrix 1.2, one for 1.3 and one with a target that there is not: rows made by hand, and their message. */
static uint8_t octets[8];
static uint8_t message[64];
static uint64_t message_bytes;

static size_t make_message(void)
{
    static const uint64_t ours[] = {1, 2}, other[] = {1, 3}, source[] = {300};
    size_t at = 0;
    uint64_t length[EMBER_WRITE_WORDS];
    expect("a path", (uint64_t)ember_encode(ours, 2, octets, sizeof octets, &at), 1);
    expect("another", (uint64_t)ember_encode(other, 2, octets, sizeof octets, &at), 1);
    expect("sources", (uint64_t)ember_encode(source, 1, octets, sizeof octets, &at), 1);
    expect("their octets", at, 6);
    expect("300", (uint64_t)octets[4] << 8 | octets[5], 0x822c);
    octets[4] = 2;
    ember_begin(table[0], EMBER_KIND_QUALIFIED_MATRIX, 0);
    ember_put_bytes(table[0], EMBER_NUMBER_OR_PATH, EMBER_TYPE_RELATIVE_OID, 0, 2);
    ember_begin(table[1], EMBER_KIND_CONNECTION, 1);
    ember_put_integer(table[1], EMBER_CONNECTION_TARGET, 1);
    ember_put_bytes(table[1], EMBER_CONNECTION_SOURCES, EMBER_TYPE_RELATIVE_OID, 4, 1);
    ember_put_integer(table[1], EMBER_CONNECTION_OPERATION, EMBER_CONNECT);
    ember_begin(table[2], EMBER_KIND_QUALIFIED_MATRIX, 0);
    ember_put_bytes(table[2], EMBER_NUMBER_OR_PATH, EMBER_TYPE_RELATIVE_OID, 2, 2);
    ember_begin(table[3], EMBER_KIND_CONNECTION, 3);
    ember_put_integer(table[3], EMBER_CONNECTION_TARGET, 1);
    expect("accepted", ember_accepts(ember_rows(table), 4, 4, EMBER_ELEMENTS, octets, sizeof octets), 1);
    expect("written", ember_write(ember_rows(table), 4, 4, EMBER_ELEMENTS, octets, sizeof octets, message, sizeof message, length, EMBER_WRITE_WORDS), EMBER_DONE);
    message_bytes = length[0];
    return 4;
}

static void desk_calls(void)
{
    static uint8_t answers[EMBER_ANSWERS_MAX];
    static ember_row many[EMBER_ROWS_MAX + 1];
    static uint8_t bytes[EMBER_MESSAGE_MAX + 1];
    uint64_t words[EMBER_CALL_WORDS + 1];
    size_t count = make_message();
    make_figures(EMBER_N_TO_N, 2, 3);
    expect("open", open_desk(), EMBER_DONE);
    for (int more = -1; more <= 1; more += 2)
        expect("words", ember_desk_call(figures, EMBER_FIGURES_WORDS, path, 2, ember_rows(table), count, count, EMBER_ELEMENTS, octets, sizeof octets, crosspoints,
                                        size(), answers, words, EMBER_CALL_WORDS + more), EMBER_SETUP);
    memset(answers, 9, sizeof answers);
    memcpy(many, table, count * sizeof *table);
    memcpy(bytes, octets, sizeof octets);
    expect("a table of 257 rows", ember_desk_call(figures, EMBER_FIGURES_WORDS, path, 2, ember_rows(many), EMBER_ROWS_MAX + 1, count, EMBER_ELEMENTS, bytes, EMBER_MESSAGE_MAX,
                                                  crosspoints, size(), answers, words, EMBER_CALL_WORDS), EMBER_SETUP);
    expect("a message of 16,385 bytes", ember_desk_call(figures, EMBER_FIGURES_WORDS, path, 2, ember_rows(many), EMBER_ROWS_MAX, count, EMBER_ELEMENTS, bytes, EMBER_MESSAGE_MAX + 1,
                                                        crosspoints, size(), answers, words, EMBER_CALL_WORDS), EMBER_SETUP);
    expect("no tree", ember_desk_call(figures, EMBER_FIGURES_WORDS, path, 2, ember_rows(table), count, count, EMBER_STREAMS, octets, sizeof octets, crosspoints,
                                      size(), answers, words, EMBER_CALL_WORDS), EMBER_SETUP);
    expect("as they were", answers[0] + answers[EMBER_ANSWERS_MAX - 1], 18);
    expect("the most of both", ember_desk_call(figures, EMBER_FIGURES_WORDS, path, 2, ember_rows(many), EMBER_ROWS_MAX, count, EMBER_ELEMENTS, bytes, EMBER_MESSAGE_MAX, crosspoints,
                                               size(), answers, words, EMBER_CALL_WORDS), EMBER_DONE);
    expect("then zeros", answers[2] + answers[EMBER_ANSWERS_MAX - 1], 0);
    words[1] = 7;
    expect("served", ember_desk_call(figures, EMBER_FIGURES_WORDS, path, 2, ember_rows(table), count, count, EMBER_ELEMENTS, octets, sizeof octets, crosspoints,
                                     size(), answers, words, EMBER_CALL_WORDS), EMBER_DONE);
    expect("answers", words[0], 2);
    expect("ours", answers[0], EMBER_DONE);
    expect("another's", answers[1], EMBER_NO_MATRIX);
    expect("connected", crosspoints[EMBER_CROSSPOINT(figures, 1, 2)], 1);
}

/* ---- a whole turn */

static uint8_t turn_answers[EMBER_ANSWERS_MAX];
static uint64_t turn_words[EMBER_TURN_WORDS + 1];

static uint64_t turn(const uint8_t *bytes, size_t count, size_t rows, size_t numbers, size_t cells, size_t words)
{
    return ember_turn(session, EMBER_SESSION_WORDS, store, EMBER_STORE_BYTES, bytes, count, table, rows, figures, EMBER_FIGURES_WORDS, path, numbers, crosspoints, cells,
                      turn_answers, turn_words, words);
}

static void turns(void)
{
    uint8_t frames[2 * EMBER_FRAME_MAX];
    uint64_t count = 0;
    make_message();
    make_figures(EMBER_N_TO_N, 2, 3);
    expect("open", open_desk(), EMBER_DONE);
    expect("frames", ember_write_message(message, message_bytes, frames, sizeof frames, &count), EMBER_DONE);
    fresh();
    memset(table, 0xee, sizeof table);
    expect("rows", turn(frames, count, EMBER_ROWS_MAX + 1, 2, size(), EMBER_TURN_WORDS), EMBER_SETUP);
    expect("no path", turn(frames, count, EMBER_ROWS_MAX, 0, size(), EMBER_TURN_WORDS), EMBER_SETUP);
    expect("a path of 17", turn(frames, count, EMBER_ROWS_MAX, EMBER_PATH_MAX + 1, size(), EMBER_TURN_WORDS), EMBER_SETUP);
    expect("crosspoints", turn(frames, count, EMBER_ROWS_MAX, 2, size() - 1, EMBER_TURN_WORDS), EMBER_SETUP);
    expect("crosspoints", turn(frames, count, EMBER_ROWS_MAX, 2, size() + 1, EMBER_TURN_WORDS), EMBER_SETUP);
    expect("words", turn(frames, count, EMBER_ROWS_MAX, 2, size(), EMBER_TURN_WORDS - 1), EMBER_SETUP);
    expect("words", turn(frames, count, EMBER_ROWS_MAX, 2, size(), EMBER_TURN_WORDS + 1), EMBER_SETUP);
    memset(turn_answers, 9, sizeof turn_answers);
    expect("nor then", turn(frames, count, EMBER_ROWS_MAX, 0, size(), EMBER_TURN_WORDS), EMBER_SETUP);
    expect("as they were", turn_answers[0] + turn_answers[EMBER_ANSWERS_MAX - 1], 18);
    expect("a turn with no bytes", turn(frames, 0, EMBER_ROWS_MAX, 2, size(), EMBER_TURN_WORDS), EMBER_DONE);
    expect("a turn", turn(frames, count, EMBER_ROWS_MAX, 2, size(), EMBER_TURN_WORDS), EMBER_MESSAGE);
    expect("nothing thrown away", turn_words[EMBER_DISCARDED], 0);
    expect("all consumed", turn_words[EMBER_CONSUMED], count);
    expect("the message", turn_words[EMBER_LENGTH], message_bytes);
    expect("the message's bytes", (uint64_t)memcmp(store, message, message_bytes), 0);
    expect("read", turn_words[EMBER_TURN_TREE], EMBER_DONE);
    expect("entries", turn_words[EMBER_TURN_COUNT], 4);
    expect("elements", turn_words[EMBER_TURN_ROOT], EMBER_ELEMENTS);
    expect("served", turn_words[EMBER_TURN_DESK], EMBER_DONE);
    expect("answers", turn_words[EMBER_TURN_ANSWERS], 2);
    expect("ours", turn_answers[0], EMBER_DONE);
    expect("another's", turn_answers[1], EMBER_NO_MATRIX);
    expect("then zeros", turn_answers[2] + turn_answers[EMBER_ANSWERS_MAX - 1], 0);
    expect("connected", crosspoints[EMBER_CROSSPOINT(figures, 1, 2)], 1);
    expect("rows past the count", table[4][0], 0xeeeeeeeeeeeeeeeeull);

    expect("three rows", turn(frames, count, 3, 2, size(), EMBER_TURN_WORDS), EMBER_MESSAGE);
    expect("EMBER_NO_ROOM", turn_words[EMBER_TURN_TREE], EMBER_NO_ROOM);
    expect("the desk not called", turn_answers[1], 0);
    expect("how many", turn_words[EMBER_TURN_COUNT], 4);

    /* one byte too many after Root */
    message[message_bytes] = 0;
    expect("frames", ember_write_message(message, message_bytes + 1, frames, sizeof frames, &count), EMBER_DONE);
    expect("a turn", turn(frames, count, EMBER_ROWS_MAX, 2, size(), EMBER_TURN_WORDS), EMBER_MESSAGE);
    expect("EMBER_BAD_BER", turn_words[EMBER_TURN_TREE], EMBER_BAD_BER);
    expect("its place", turn_words[EMBER_TURN_PLACE], message_bytes);

    /* a desk that is not legal: the message is read, and the desk says 1 */
    crosspoints[EMBER_CROSSPOINT(figures, 0, 0)] = 2;
    expect("frames", ember_write_message(message, message_bytes, frames, sizeof frames, &count), EMBER_DONE);
    expect("a turn", turn(frames, count, EMBER_ROWS_MAX, 2, size(), EMBER_TURN_WORDS), EMBER_MESSAGE);
    expect("EMBER_SETUP", turn_words[EMBER_TURN_DESK], EMBER_SETUP);
    expect("no answers", turn_words[EMBER_TURN_ANSWERS], 0);

    figures[EMBER_FIGURES_HAS_EACH] = 3;
    expect("no figures", turn(frames, count, EMBER_ROWS_MAX, 2, size(), EMBER_TURN_WORDS), EMBER_SETUP);
    figures[EMBER_FIGURES_HAS_EACH] = 0;
    session[0] = 6;
    expect("no session", turn(frames, count, EMBER_ROWS_MAX, 2, size(), EMBER_TURN_WORDS), EMBER_SETUP);
}

/* ---- route sheets */

static uint8_t sheet[EMBER_SHEET_MAX];

static uint64_t read_sheet(size_t bytes, size_t store_bytes, size_t words, size_t numbers, size_t cells, size_t told)
{
    return ember_sheet_read(sheet, bytes, store, store_bytes, figures, words, path, numbers, crosspoints, cells, answer, told);
}

static void sheets(void)
{
    uint64_t length[EMBER_SHEET_WORDS + 1], was[EMBER_FIGURES_WORDS];
    uint8_t all[EMBER_CROSSPOINTS];
    for (size_t i = 0; i < EMBER_PATH_MAX; i++)
        path[i] = 2147483647u;
    make_figures(EMBER_N_TO_N, EMBER_SIDE_MAX, EMBER_SIDE_MAX);
    limit(EMBER_FIGURES_HAS_TOTAL, EMBER_FIGURES_TOTAL, 2147483647u);
    limit(EMBER_FIGURES_HAS_EACH, EMBER_FIGURES_EACH, 2147483647u);
    memset(crosspoints, 1, EMBER_CROSSPOINTS);
    memcpy(was, figures, sizeof was);
    memcpy(all, crosspoints, sizeof all);
    for (int more = -1; more <= 1; more++)
        expect("words of the answer", ember_sheet_write(figures, EMBER_FIGURES_WORDS, path, EMBER_PATH_MAX, crosspoints, EMBER_CROSSPOINTS, sheet, sizeof sheet, length, EMBER_SHEET_WORDS + more),
               more == 0 ? EMBER_DONE : EMBER_SETUP);
    expect("the longest sheet fits", length[0] <= EMBER_SHEET_MAX, 1);
    expect("and is long", length[0] > EMBER_SHEET_MAX / 3, 1);
    expect("one byte less", ember_sheet_write(figures, EMBER_FIGURES_WORDS, path, EMBER_PATH_MAX, crosspoints, EMBER_CROSSPOINTS, sheet, length[0] - 1, length, EMBER_SHEET_WORDS), EMBER_NO_OUT);
    expect("no length", length[0], 0);
    expect("written", ember_sheet_write(figures, EMBER_FIGURES_WORDS, path, EMBER_PATH_MAX, crosspoints, EMBER_CROSSPOINTS, sheet, sizeof sheet, length, EMBER_SHEET_WORDS), EMBER_DONE);
    memset(figures, 0, sizeof figures);
    memset(crosspoints, 0, EMBER_CROSSPOINTS);
    path[0] = 5;
    for (int more = -1; more <= 1; more += 2) {
        expect("bytes of the store", read_sheet(length[0], EMBER_STORE_BYTES + more, EMBER_FIGURES_WORDS, EMBER_PATH_MAX, EMBER_CROSSPOINTS, EMBER_SHEET_WORDS), EMBER_SETUP);
        expect("words of figures", read_sheet(length[0], EMBER_STORE_BYTES, EMBER_FIGURES_WORDS + more, EMBER_PATH_MAX, EMBER_CROSSPOINTS, EMBER_SHEET_WORDS), EMBER_SETUP);
        expect("numbers", read_sheet(length[0], EMBER_STORE_BYTES, EMBER_FIGURES_WORDS, EMBER_PATH_MAX + more, EMBER_CROSSPOINTS, EMBER_SHEET_WORDS), EMBER_SETUP);
        expect("crosspoints", read_sheet(length[0], EMBER_STORE_BYTES, EMBER_FIGURES_WORDS, EMBER_PATH_MAX, EMBER_CROSSPOINTS + more, EMBER_SHEET_WORDS), EMBER_SETUP);
        expect("words", read_sheet(length[0], EMBER_STORE_BYTES, EMBER_FIGURES_WORDS, EMBER_PATH_MAX, EMBER_CROSSPOINTS, EMBER_SHEET_WORDS + more), EMBER_SETUP);
    }
    memset(store, 0xaa, EMBER_STORE_BYTES);
    expect("cut off", read_sheet(length[0] - 2, EMBER_STORE_BYTES, EMBER_FIGURES_WORDS, EMBER_PATH_MAX, EMBER_CROSSPOINTS, EMBER_SHEET_WORDS), EMBER_BAD_BYTE);
    expect("as they were", path[0] + figures[1] + crosspoints[0], 5);
    for (size_t i = 0; i < EMBER_STORE_BYTES; i++)
        expect("the store too", store[i], 0xaa);
    expect("nothing", read_sheet(0, EMBER_STORE_BYTES, EMBER_FIGURES_WORDS, EMBER_PATH_MAX, EMBER_CROSSPOINTS, EMBER_SHEET_WORDS), EMBER_BAD_GLOW);
    expect("no numbers", answer[0], 0);
    expect("read", read_sheet(length[0], EMBER_STORE_BYTES, EMBER_FIGURES_WORDS, EMBER_PATH_MAX, EMBER_CROSSPOINTS, EMBER_SHEET_WORDS), EMBER_DONE);
    expect("numbers", answer[0], EMBER_PATH_MAX);
    expect("the message in the store", store[0], 0x60);
    expect("bytes that no rule writes", store[16383], 0xaa);
    expect("the first", path[0], 2147483647u);
    expect("figures", (uint64_t)memcmp(figures, was, sizeof was), 0);
    expect("all connected", (uint64_t)memcmp(crosspoints, all, sizeof all), 0);

    /* a small desk: its own crosspoints are the first, and the others stay */
    make_figures(EMBER_ONE_TO_N, 2, 3);
    expect("open", open_desk(), EMBER_DONE);
    expect("connect", ask(1, EMBER_CONNECT, 1, 2, 0), EMBER_DONE);
    expect("written", ember_sheet_write(figures, EMBER_FIGURES_WORDS, path, 2, crosspoints, size(), sheet, sizeof sheet, length, EMBER_SHEET_WORDS),
           EMBER_DONE);
    memset(crosspoints, 0xee, sizeof crosspoints);
    expect("read", read_sheet(length[0], EMBER_STORE_BYTES, EMBER_FIGURES_WORDS, EMBER_PATH_MAX, EMBER_CROSSPOINTS, EMBER_SHEET_WORDS), EMBER_DONE);
    expect("its size", size(), 6);
    expect("its crosspoints", (uint64_t)memcmp(crosspoints, "\0\0\0\0\0\1", 6), 0);
    for (size_t i = 6; i < sizeof crosspoints; i++)
        expect("the others", crosspoints[i], 0xee);
}

/* ---- ember_entries.h: a row with every member, written and read again */

static const char text[] = "gain";

static void members(void)
{
    /* "gain", the path 7.200, the octets 01 02 03, the sources 0 and 63 */
    static uint8_t parts[16] = {'g', 'a', 'i', 'n', 7, 0x81, 0x48, 1, 2, 3, 0, 63};
    static uint8_t out[512];
    uint64_t length[EMBER_WRITE_WORDS], numbers[3];
    int64_t integer = -1;
    double real = 0;
    int boolean = -1;
    const char *characters = "";
    const uint8_t *bytes = out;
    size_t count = 0;
    expect("words of a row", sizeof *table / sizeof **table, EMBER_ROW_WORDS);
    memset(table, 0xee, sizeof table);
    ember_begin(table[0], EMBER_KIND_QUALIFIED_NODE, 0);
    ember_put_bytes(table[0], EMBER_NUMBER_OR_PATH, EMBER_TYPE_RELATIVE_OID, 4, 3);
    ember_put_bytes(table[0], EMBER_IDENTIFIER, EMBER_TYPE_TEXT, 0, 4);
    ember_put_bytes(table[0], EMBER_DESCRIPTION, EMBER_TYPE_TEXT, 0, 2);
    ember_put_boolean(table[0], EMBER_NODE_ROOT, 1);
    ember_put_boolean(table[0], EMBER_NODE_ONLINE, 0);
    ember_begin(table[1], EMBER_KIND_PARAMETER, 1);
    ember_put_integer(table[1], EMBER_NUMBER_OR_PATH, 9);
    ember_put_bytes(table[1], EMBER_IDENTIFIER, EMBER_TYPE_TEXT, 0, 4);
    ember_put_bytes(table[1], EMBER_PARAMETER_VALUE, EMBER_TYPE_OCTETS, 7, 3);
    ember_put_real(table[1], EMBER_PARAMETER_MINIMUM, -0.5);
    ember_put_integer(table[1], EMBER_PARAMETER_MAXIMUM, INT64_MIN);
    ember_put_integer(table[1], EMBER_PARAMETER_ACCESS, 3);
    ember_put_integer(table[1], EMBER_PARAMETER_FACTOR, -32);
    ember_put_boolean(table[1], EMBER_PARAMETER_ONLINE, 1);
    ember_put_integer(table[1], EMBER_PARAMETER_STEP, 2);
    ember_put_integer(table[1], EMBER_PARAMETER_STREAM, 500);
    ember_begin(table[2], EMBER_KIND_MATRIX, 1);
    ember_put_integer(table[2], EMBER_NUMBER_OR_PATH, 10);
    ember_put_integer(table[2], EMBER_MATRIX_TYPE, EMBER_N_TO_N);
    ember_put_integer(table[2], EMBER_MATRIX_MODE, 0);
    ember_put_integer(table[2], EMBER_MATRIX_TARGETS, 8);
    ember_put_integer(table[2], EMBER_MATRIX_SOURCES, 64);
    ember_put_integer(table[2], EMBER_MATRIX_TOTAL_LIMIT, 20);
    ember_put_integer(table[2], EMBER_MATRIX_TARGET_LIMIT, 4);
    ember_begin(table[3], EMBER_KIND_CONNECTION, 3);
    ember_put_integer(table[3], EMBER_CONNECTION_TARGET, 7);
    ember_put_bytes(table[3], EMBER_CONNECTION_SOURCES, EMBER_TYPE_RELATIVE_OID, 10, 2);
    ember_put_integer(table[3], EMBER_CONNECTION_OPERATION, EMBER_DISCONNECT);
    ember_begin(table[4], EMBER_KIND_COMMAND, 1);
    ember_put_integer(table[4], EMBER_COMMAND_NUMBER, 32);
    ember_put_integer(table[4], EMBER_COMMAND_MASK, -1);
    ember_put(table[4], 16, EMBER_TYPE_INTEGER, 1, 1);
    expect("written", ember_write(ember_rows(table), 5, 5, EMBER_ELEMENTS, parts, sizeof parts, out, sizeof out, length, EMBER_WRITE_WORDS), EMBER_DONE);
    memset(table, 0xee, sizeof table);
    expect("read", read_into(out, length[0], EMBER_ROWS_MAX), EMBER_DONE);
    expect("entries", answer[EMBER_COUNT], 5);

    expect("kind", ember_kind(table[0]), EMBER_KIND_QUALIFIED_NODE);
    expect("no parent", (uint64_t)ember_has_parent(table[0]), 0);
    expect("a parent", (uint64_t)ember_has_parent(table[3]), 1);
    expect("its place", ember_parent(table[3]), 2);
    expect("no place", ember_parent(table[0]), 0);
    expect("qualified", (uint64_t)ember_is_qualified(table[0]), 1);
    expect("not qualified", (uint64_t)ember_is_qualified(table[1]) + (uint64_t)ember_is_qualified(table[3]), 0);
    expect("node", (uint64_t)ember_is_node(table[0]), 1);
    expect("parameter", (uint64_t)ember_is_parameter(table[1]), 1);
    expect("matrix", (uint64_t)ember_is_matrix(table[2]), 1);
    expect("neither", (uint64_t)(ember_is_node(table[3]) + ember_is_parameter(table[3]) + ember_is_matrix(table[3])), 0);
    expect("absent", (uint64_t)ember_has(table[1], EMBER_DESCRIPTION), 0);
    expect("no member", ember_type(table[1], 16), EMBER_TYPE_ABSENT);
    expect("present", (uint64_t)ember_has(table[0], EMBER_DESCRIPTION), 1);

    expect("text", (uint64_t)ember_text(table[1], EMBER_IDENTIFIER, out, length[0], &characters, &count), 1);
    expect("its length", count, 4);
    expect("its bytes", (uint64_t)memcmp(characters, text, 4), 0);
    expect("no text", (uint64_t)ember_text(table[1], EMBER_PARAMETER_VALUE, out, length[0], &characters, &count), 0);
    expect("past the message", (uint64_t)ember_text(table[1], EMBER_IDENTIFIER, out, 4, &characters, &count), 0);
    expect("octets", (uint64_t)ember_octets(table[1], EMBER_PARAMETER_VALUE, out, length[0], &bytes, &count), 1);
    expect("their bytes", (uint64_t)memcmp(bytes, parts + 7, 3), 0);
    expect("no type of bytes", (uint64_t)ember_bytes(table[1], EMBER_PARAMETER_ACCESS, EMBER_TYPE_INTEGER, out, length[0], &bytes, &count), 0);
    expect("real", (uint64_t)ember_real(table[1], EMBER_PARAMETER_MINIMUM, &real), 1);
    expect("-0.5", (uint64_t)(real == -0.5), 1);
    expect("integer", (uint64_t)ember_integer(table[1], EMBER_PARAMETER_MAXIMUM, &integer), 1);
    expect("the least", (uint64_t)integer, (uint64_t)INT64_MIN);
    expect("no integer", (uint64_t)ember_integer(table[1], EMBER_PARAMETER_ONLINE, &integer), 0);
    expect("no real", (uint64_t)ember_real(table[1], EMBER_PARAMETER_ACCESS, &real), 0);
    expect("no boolean", (uint64_t)ember_boolean(table[1], EMBER_PARAMETER_ACCESS, &boolean), 0);
    ember_boolean(table[1], EMBER_PARAMETER_ONLINE, &boolean);
    expect("online", (uint64_t)boolean, 1);
    ember_boolean(table[0], EMBER_NODE_ROOT, &boolean);
    expect("root", (uint64_t)boolean, 1);
    ember_boolean(table[0], EMBER_NODE_ONLINE, &boolean);
    expect("offline", (uint64_t)boolean, 0);
#define IS(row, member, value) (ember_integer(table[row], member, &integer), expect(#member, (uint64_t)integer, (uint64_t)(int64_t)(value)))
    IS(1, EMBER_PARAMETER_ACCESS, 3);
    IS(1, EMBER_PARAMETER_FACTOR, -32);
    IS(1, EMBER_PARAMETER_STEP, 2);
    IS(1, EMBER_PARAMETER_STREAM, 500);
    IS(2, EMBER_MATRIX_TYPE, 2);
    IS(2, EMBER_MATRIX_MODE, 0);
    IS(2, EMBER_MATRIX_TARGETS, 8);
    IS(2, EMBER_MATRIX_SOURCES, 64);
    IS(2, EMBER_MATRIX_TOTAL_LIMIT, 20);
    IS(2, EMBER_MATRIX_TARGET_LIMIT, 4);
    IS(3, EMBER_CONNECTION_TARGET, 7);
    IS(3, EMBER_CONNECTION_OPERATION, 2);
    IS(4, EMBER_COMMAND_NUMBER, 32);
    IS(4, EMBER_COMMAND_MASK, -1);

    expect("sources", ember_numbers(table[3], EMBER_CONNECTION_SOURCES, out, length[0], numbers, 3), 2);
    expect("the first", numbers[0], 0);
    expect("the second", numbers[1], 63);
    expect("room for one", ember_numbers(table[0], EMBER_NUMBER_OR_PATH, out, length[0], numbers, 1), 2);
    expect("the first", numbers[0], 7);
    expect("not the second", numbers[1], 63);
    expect("own number", ember_number(table[0], out, length[0]), 200);
    expect("own number", ember_number(table[1], out, length[0]), 9);
    expect("a full path", ember_path(ember_rows(table), 5, 2, out, length[0], path), 3);
    expect("7", path[0], 7);
    expect("200", path[1], 200);
    expect("10", path[2], 10);
    expect("no path of a connection", ember_path(ember_rows(table), 5, 3, out, length[0], path), 0);
    expect("no path past the count", ember_path(ember_rows(table), 2, 2, out, length[0], path), 0);
    table[2][EMBER_ROW_PARENT] = 3;
    expect("no path in a circle", ember_path(ember_rows(table), 5, 2, out, length[0], path), 0);

    /* a path of 17 numbers encoded, a number too large, no room */
    static const uint64_t large[] = {2147483647u, 2147483648u};
    uint8_t five[5];
    size_t at = 0;
    expect("the largest", (uint64_t)ember_encode(large, 1, five, sizeof five, &at), 1);
    expect("its octets", at, 5);
    expect("too large", (uint64_t)ember_encode(large + 1, 1, five, sizeof five, &at), 0);
    at = 1;
    expect("no room", (uint64_t)ember_encode(large, 1, five, sizeof five, &at), 0);
    expect("as it was", at, 1);

    /* a stream entry, and its value */
    ember_begin(table[0], EMBER_KIND_STREAM_ENTRY, 0);
    ember_put_integer(table[0], EMBER_STREAM_NUMBER, 5);
    ember_put_real(table[0], EMBER_STREAM_VALUE, 2.5);
    expect("streams", ember_write(ember_rows(table), 1, 1, EMBER_STREAMS, parts, 0, out, sizeof out, length, EMBER_WRITE_WORDS), EMBER_DONE);
    expect("read", read_into(out, length[0], 1), EMBER_DONE);
    IS(0, EMBER_STREAM_NUMBER, 5);
    ember_real(table[0], EMBER_STREAM_VALUE, &real);
    expect("2.5", (uint64_t)(real == 2.5), 1);
}

/* ---- what the header says of made rows: ranges, types, order */

static uint64_t accepted(size_t count, uint64_t root)
{
    /* A part that any type of bytes may have: "ab", which is also the numbers 97 and 98. */
    static const uint8_t parts[] = {'a', 'b'};
    return ember_accepts(ember_rows(table), EMBER_ROWS_MAX, count, root, parts, sizeof parts);
}

/* A row of a kind with its number, or its path, and what is required beside it. */
static void element(size_t place, uint64_t kind, uint64_t parent_and_1)
{
    ember_begin(table[place], kind, parent_and_1);
    if (ember_is_qualified(table[place]))
        ember_put_bytes(table[place], EMBER_NUMBER_OR_PATH, EMBER_TYPE_RELATIVE_OID, 0, 2);
    else
        ember_put_integer(table[place], EMBER_NUMBER_OR_PATH, 1);
    if (kind == EMBER_KIND_STREAM_ENTRY)
        ember_put_integer(table[place], EMBER_STREAM_VALUE, 1);
}

enum { COUNT, SIGNED, NUMBER, UP_TO_3, UP_TO_2, UP_TO_1, BOOLEAN, TEXT, NUMBERS, ANY };

static const struct { int64_t least, most; } ranges[] = {
    {0, INT32_MAX}, {INT32_MIN, INT32_MAX}, {1, INT32_MAX}, {0, 3}, {0, 2}, {0, 1},
};

static const struct { uint64_t kind; size_t member; int what, required; } listed[] = {
    {EMBER_KIND_PARAMETER, EMBER_NUMBER_OR_PATH, NUMBER, 1},
    {EMBER_KIND_NODE, EMBER_NUMBER_OR_PATH, NUMBER, 1},
    {EMBER_KIND_MATRIX, EMBER_NUMBER_OR_PATH, NUMBER, 1},
    {EMBER_KIND_QUALIFIED_PARAMETER, EMBER_NUMBER_OR_PATH, NUMBERS, 1},
    {EMBER_KIND_QUALIFIED_NODE, EMBER_NUMBER_OR_PATH, NUMBERS, 1},
    {EMBER_KIND_QUALIFIED_MATRIX, EMBER_NUMBER_OR_PATH, NUMBERS, 1},
    {EMBER_KIND_PARAMETER, EMBER_IDENTIFIER, TEXT, 0},
    {EMBER_KIND_PARAMETER, EMBER_DESCRIPTION, TEXT, 0},
    {EMBER_KIND_PARAMETER, EMBER_PARAMETER_VALUE, ANY, 0},
    {EMBER_KIND_PARAMETER, EMBER_PARAMETER_MINIMUM, ANY, 0},
    {EMBER_KIND_PARAMETER, EMBER_PARAMETER_MAXIMUM, ANY, 0},
    {EMBER_KIND_PARAMETER, EMBER_PARAMETER_ACCESS, UP_TO_3, 0},
    {EMBER_KIND_PARAMETER, EMBER_PARAMETER_FACTOR, SIGNED, 0},
    {EMBER_KIND_PARAMETER, EMBER_PARAMETER_ONLINE, BOOLEAN, 0},
    {EMBER_KIND_PARAMETER, EMBER_PARAMETER_STEP, SIGNED, 0},
    {EMBER_KIND_PARAMETER, EMBER_PARAMETER_STREAM, COUNT, 0},
    {EMBER_KIND_NODE, EMBER_NODE_ROOT, BOOLEAN, 0},
    {EMBER_KIND_NODE, EMBER_NODE_ONLINE, BOOLEAN, 0},
    {EMBER_KIND_MATRIX, EMBER_MATRIX_TYPE, UP_TO_2, 0},
    {EMBER_KIND_MATRIX, EMBER_MATRIX_MODE, UP_TO_1, 0},
    {EMBER_KIND_MATRIX, EMBER_MATRIX_TARGETS, COUNT, 0},
    {EMBER_KIND_MATRIX, EMBER_MATRIX_SOURCES, COUNT, 0},
    {EMBER_KIND_MATRIX, EMBER_MATRIX_TOTAL_LIMIT, COUNT, 0},
    {EMBER_KIND_MATRIX, EMBER_MATRIX_TARGET_LIMIT, COUNT, 0},
    {EMBER_KIND_COMMAND, EMBER_COMMAND_NUMBER, SIGNED, 1},
    {EMBER_KIND_COMMAND, EMBER_COMMAND_MASK, SIGNED, 0},
    {EMBER_KIND_CONNECTION, EMBER_CONNECTION_TARGET, COUNT, 1},
    {EMBER_KIND_CONNECTION, EMBER_CONNECTION_SOURCES, NUMBERS, 0},
    {EMBER_KIND_CONNECTION, EMBER_CONNECTION_OPERATION, UP_TO_2, 0},
    {EMBER_KIND_STREAM_ENTRY, EMBER_STREAM_NUMBER, COUNT, 1},
    {EMBER_KIND_STREAM_ENTRY, EMBER_STREAM_VALUE, ANY, 1},
};

/* Each member of each kind: absent, at the ends of its range and one beside them, and with each other type. */
static void member_ranges(void)
{
    for (size_t i = 0; i < sizeof listed / sizeof *listed; i++) {
        int what = listed[i].what;
        uint64_t kind = listed[i].kind, root = kind == EMBER_KIND_STREAM_ENTRY ? EMBER_STREAMS : EMBER_ELEMENTS;
        size_t member = listed[i].member, place = kind == EMBER_KIND_CONNECTION;
        char name[40];
        element(0, EMBER_KIND_MATRIX, 0);
        element(place, kind, place);
        snprintf(name, sizeof name, "kind %d, member %d", (int)kind, (int)member);
#define WITH(put, wanted)                                                                                               \
    do {                                                                                                                \
        put;                                                                                                            \
        expect(name, accepted(place + 1, root), wanted);                                                                \
    } while (0)
        WITH(ember_put(table[place], member, EMBER_TYPE_ABSENT, 0, 0), !listed[i].required);
        if (what < BOOLEAN) {
            WITH(ember_put_integer(table[place], member, ranges[what].least - 1), 0);
            WITH(ember_put_integer(table[place], member, ranges[what].least), 1);
            WITH(ember_put_integer(table[place], member, ranges[what].most), 1);
            WITH(ember_put_integer(table[place], member, ranges[what].most + 1), 0);
        } else {
            WITH(ember_put_integer(table[place], member, INT64_MIN), what == ANY);
        }
        WITH(ember_put_boolean(table[place], member, 1), what == BOOLEAN || what == ANY);
        WITH(ember_put_real(table[place], member, 0.5), what == ANY);
        WITH(ember_put_bytes(table[place], member, EMBER_TYPE_OCTETS, 0, 2), what == ANY);
        WITH(ember_put_bytes(table[place], member, EMBER_TYPE_TEXT, 0, 2), what == ANY || what == TEXT);
        WITH(ember_put_bytes(table[place], member, EMBER_TYPE_RELATIVE_OID, 0, 2), what == NUMBERS);
        WITH(ember_put_bytes(table[place], member, EMBER_TYPE_RELATIVE_OID, 0, 0), what == NUMBERS && kind == EMBER_KIND_CONNECTION);
#undef WITH
    }
}

/* Whether rows of these kinds with these parents (and 1) are a tree. */
static uint64_t in_order(size_t count, const uint64_t (*entries)[2], uint64_t root)
{
    for (size_t i = 0; i < count; i++)
        element(i, entries[i][0], entries[i][1]);
    return accepted(count, root);
}

#define ORDER(what, wanted, root, ...)                                                                                  \
    do {                                                                                                                \
        static const uint64_t entries[][2] = {__VA_ARGS__};                                                             \
        expect(what, in_order(sizeof entries / sizeof *entries, entries, root), wanted);                                \
    } while (0)

static void message_order(void)
{
    static const uint8_t passed[] = {0x60, 0x14, 0x6b, 0x12, 0xa0, 0x10, 0x61, 0x0e, 0xa0, 0x03, 0x02, 0x01, 0x01, 0xa1, 0x07, 0x31, 0x05,
                                     0xa6, 0x03, 0x0c, 0x01, 0x64};
    static const uint8_t bad[] = {0xff, 0xc0};
    uint8_t out[64];
    uint64_t length[EMBER_WRITE_WORDS];
    ORDER("an entry, what stands in it, the next", 1, EMBER_ELEMENTS, {EMBER_KIND_NODE, 0}, {EMBER_KIND_PARAMETER, 1}, {EMBER_KIND_NODE, 0});
    ORDER("what stands in it last", 0, EMBER_ELEMENTS, {EMBER_KIND_NODE, 0}, {EMBER_KIND_NODE, 0}, {EMBER_KIND_PARAMETER, 1});
    ORDER("children, then connections", 1, EMBER_ELEMENTS, {EMBER_KIND_MATRIX, 0}, {EMBER_KIND_COMMAND, 1}, {EMBER_KIND_CONNECTION, 1});
    ORDER("connections, then children", 0, EMBER_ELEMENTS, {EMBER_KIND_MATRIX, 0}, {EMBER_KIND_CONNECTION, 1}, {EMBER_KIND_COMMAND, 1});
    ORDER("a connection in Root", 0, EMBER_ELEMENTS, {EMBER_KIND_CONNECTION, 0});
    ORDER("a connection in a node", 0, EMBER_ELEMENTS, {EMBER_KIND_NODE, 0}, {EMBER_KIND_CONNECTION, 1});
    ORDER("qualified in Root", 1, EMBER_ELEMENTS, {EMBER_KIND_QUALIFIED_NODE, 0}, {EMBER_KIND_QUALIFIED_MATRIX, 0}, {EMBER_KIND_CONNECTION, 2});
    ORDER("qualified in a node", 0, EMBER_ELEMENTS, {EMBER_KIND_NODE, 0}, {EMBER_KIND_QUALIFIED_PARAMETER, 1});
    ORDER("a command in a parameter", 1, EMBER_ELEMENTS, {EMBER_KIND_PARAMETER, 0}, {EMBER_KIND_COMMAND, 1});
    ORDER("a command in a command", 0, EMBER_ELEMENTS, {EMBER_KIND_COMMAND, 0}, {EMBER_KIND_COMMAND, 1});
    ORDER("stream entries", 1, EMBER_STREAMS, {EMBER_KIND_STREAM_ENTRY, 0}, {EMBER_KIND_STREAM_ENTRY, 0});
    ORDER("a stream entry among elements", 0, EMBER_ELEMENTS, {EMBER_KIND_NODE, 0}, {EMBER_KIND_STREAM_ENTRY, 0});

    /* sources that are there and empty are written so, and an absent description not */
    element(0, EMBER_KIND_MATRIX, 0);
    element(1, EMBER_KIND_CONNECTION, 1);
    ember_put_bytes(table[1], EMBER_CONNECTION_SOURCES, EMBER_TYPE_RELATIVE_OID, 0, 0);
    expect("written", ember_write(ember_rows(table), 2, 2, EMBER_ELEMENTS, NULL, 0, out, sizeof out, length, EMBER_WRITE_WORDS), EMBER_DONE);
    expect("read", read_into(out, length[0], 2), EMBER_DONE);
    expect("empty sources", cell(1, 1, 0), EMBER_TYPE_RELATIVE_OID);
    expect("absent", cell(0, 2, 0), EMBER_TYPE_ABSENT);

    /* a format is passed over, a function is no element, a text is not looked into */
    expect("a member that is not listed", read_into(passed, sizeof passed, 1), EMBER_DONE);
    for (size_t c = 1; c < 16; c++)
        expect("nothing of it is kept", cell(0, c, 0), EMBER_TYPE_ABSENT);
    ANSWERS(EMBER_BAD_GLOW, EMBER_PLACE, 6, 0x60, 0x0b, 0x6b, 0x09, 0xa0, 0x07, 0x73, 0x05, 0xa0, 0x03, 0x02, 0x01, 0x01);
    element(0, EMBER_KIND_NODE, 0);
    ember_put_bytes(table[0], EMBER_DESCRIPTION, EMBER_TYPE_TEXT, 0, 2);
    expect("a text that is no UTF-8", ember_accepts(ember_rows(table), 1, 1, EMBER_ELEMENTS, bad, sizeof bad), 1);
    ember_put_bytes(table[0], EMBER_IDENTIFIER, EMBER_TYPE_TEXT, 0, 2);
    expect("an identifier without a letter", ember_accepts(ember_rows(table), 1, 1, EMBER_ELEMENTS, bad, sizeof bad), 0);
}

int main(void)
{
    session_lengths();
    events();
    session_words();
    writers();
    tree_numbers();
    tree_rows();
    tree_lengths();
    writing();
    desk();
    desk_calls();
    turns();
    sheets();
    members();
    member_ranges();
    message_order();
    return wrong;
}
