/* Every number of glow.h against the library: each is what a call answers or leaves in a row, or the length that it takes
 * and the next that it refuses. Says what differs and ends with 1. */
#include "glow.h"

#include <stdio.h>
#include <string.h>

static int wrong;

static void expect(const char *what, uint64_t got, uint64_t wanted)
{
    if (got != wanted) {
        printf("%s: %llu, and not %llu\n", what, (unsigned long long)got, (unsigned long long)wanted);
        wrong = 1;
    }
}

static uint64_t table[GLOW_ROWS_MAX + 1][GLOW_ROW_WORDS];
static uint64_t answer[GLOW_ANSWER_WORDS + 1];

static uint64_t cell(size_t row, size_t c, size_t word)
{
    return table[row][GLOW_CELLS + GLOW_CELL_WORDS * c + word];
}

static uint64_t read_into(const uint8_t *bytes, size_t count, size_t rows)
{
    return glow_read(bytes, count, table, rows, answer, GLOW_ANSWER_WORDS);
}

/* A message of its own: the number, and its place or count. */
#define ANSWERS(name, word, value, ...)                                                                                 \
    do {                                                                                                                \
        static const uint8_t bytes[] = {__VA_ARGS__};                                                                   \
        expect(#name, read_into(bytes, sizeof bytes, 1), name);                                                         \
        expect(#name ", its word", answer[word], value);                                                                \
    } while (0)

static void numbers(void)
{
    /* P12 */
    ANSWERS(GLOW_DONE, GLOW_COUNT, 1, 0x60, 0x0b, 0x6b, 0x09, 0xa0, 0x07, 0x62, 0x05, 0xa0, 0x03, 0x02, 0x01, 0x20);
    expect("answer[GLOW_ROOT]", answer[GLOW_ROOT], GLOW_ELEMENTS);
    expect("a command", table[0][GLOW_KIND], GLOW_COMMAND);
    expect("its parent", table[0][GLOW_PARENT], 0);
    expect("its number's type", cell(0, 0, 0), GLOW_TYPE_INTEGER);
    expect("its number", cell(0, 0, 1), 32);
    expect("no mask", cell(0, 1, 0), GLOW_TYPE_ABSENT);

    ANSWERS(GLOW_BAD_BER, GLOW_PLACE, 4, 0x60, 0x02, 0x6b, 0x00, 0x00);
    ANSWERS(GLOW_BAD_FORM, GLOW_PLACE, 2, 0x60, 0x80, 0x6b, 0x00, 0x00, 0x00);
    ANSWERS(GLOW_BAD_GLOW, GLOW_PLACE, 0, 0x61, 0x00);
    ANSWERS(GLOW_BAD_NUMBER, GLOW_PLACE, 10, 0x60, 0x0b, 0x6b, 0x09, 0xa0, 0x07, 0x63, 0x05, 0xa0, 0x03, 0x02, 0x01, 0x00);
    ANSWERS(GLOW_BAD_REAL, GLOW_PLACE, 19, 0x60, 0x14, 0x6b, 0x12, 0xa0, 0x10, 0x61, 0x0e, 0xa0, 0x03, 0x02, 0x01, 0x01, 0xa1, 0x07, 0x31, 0x05,
            0xa2, 0x03, 0x09, 0x01, 0x42);
    ANSWERS(GLOW_BAD_NAME, GLOW_PLACE, 19, 0x60, 0x14, 0x6b, 0x12, 0xa0, 0x10, 0x63, 0x0e, 0xa0, 0x03, 0x02, 0x01, 0x01, 0xa1, 0x07, 0x31, 0x05,
            0xa0, 0x03, 0x0c, 0x01, 0x2f);
    ANSWERS(GLOW_BAD_PATH, GLOW_PLACE, 10, 0x60, 0x0a, 0x6b, 0x08, 0xa0, 0x06, 0x6a, 0x04, 0xa0, 0x02, 0x0d, 0x00);
    ANSWERS(GLOW_NO_ROOM, GLOW_COUNT, 2, 0x60, 0x14, 0x6b, 0x12, 0xa0, 0x07, 0x62, 0x05, 0xa0, 0x03, 0x02, 0x01, 0x20, 0xa0, 0x07, 0x62, 0x05,
            0xa0, 0x03, 0x02, 0x01, 0x20);

    /* Unlisted containers in a command, below the four that hold it: the 65th is one too many. */
    static uint8_t deep[10 + 64 * 2] = {0x60, 0x80, 0x6b, 0x80, 0xa0, 0x80, 0x62, 0x80};
    static const uint8_t number[] = {0xa0, 0x03, 0x02, 0x01, 0x20};
    memcpy(deep + 8, number, sizeof number);
    for (size_t i = 8 + sizeof number; i < sizeof deep; i += 2) {
        deep[i] = 0xa9;
        if (i + 1 < sizeof deep)
            deep[i + 1] = 0x80;
    }
    expect("GLOW_BAD_DEPTH", read_into(deep, sizeof deep, 1), GLOW_BAD_DEPTH);
    expect("GLOW_BAD_DEPTH, its place", answer[GLOW_PLACE], 8 + sizeof number + 60 * 2);
}

/* A message with an element of each kind, and values of each type. */
static void rows(void)
{
    static const uint8_t bytes[] = {
        0x60, 0x81, 0x81, 0x6b, 0x7f,
        /* parameter 1: value, minimum, maximum, access, factor, online, stream */
        0xa0, 0x2f, 0x61, 0x2d, 0xa0, 0x03, 0x02, 0x01, 0x01, 0xa1, 0x26, 0x31, 0x24, 0xa2, 0x04, 0x0c,
        0x02, 0x68, 0x69, 0xa3, 0x03, 0x04, 0x01, 0xff, 0xa4, 0x02, 0x09, 0x00, 0xa5, 0x03, 0x02, 0x01,
        0x03, 0xa8, 0x03, 0x02, 0x01, 0xff, 0xa9, 0x03, 0x01, 0x01, 0x01, 0xae, 0x04, 0x02, 0x02, 0x01,
        0x00,
        /* node 2 */
        0xa0, 0x07, 0x63, 0x05, 0xa0, 0x03, 0x02, 0x01, 0x02,
        /* matrix 3 */
        0xa0, 0x07, 0x6d, 0x05, 0xa0, 0x03, 0x02, 0x01, 0x03,
        /* qualified parameter 4 */
        0xa0, 0x07, 0x69, 0x05, 0xa0, 0x03, 0x0d, 0x01, 0x04,
        /* qualified node 5 */
        0xa0, 0x07, 0x6a, 0x05, 0xa0, 0x03, 0x0d, 0x01, 0x05,
        /* qualified matrix 6.7 with two connections */
        0xa0, 0x28, 0x71, 0x26, 0xa0, 0x04, 0x0d, 0x02, 0x06, 0x07, 0xa5, 0x1e, 0x30, 0x1c, 0xa0, 0x0c,
        0x70, 0x0a, 0xa0, 0x03, 0x02, 0x01, 0x00, 0xa1, 0x03, 0x0d, 0x01, 0x09, 0xa0, 0x0c, 0x70, 0x0a,
        0xa0, 0x03, 0x02, 0x01, 0x01, 0xa2, 0x03, 0x02, 0x01, 0x02,
    };
    static const uint64_t kinds[] = {GLOW_PARAMETER, GLOW_NODE, GLOW_MATRIX, GLOW_QUALIFIED_PARAMETER, GLOW_QUALIFIED_NODE,
                                     GLOW_QUALIFIED_MATRIX, GLOW_CONNECTION, GLOW_CONNECTION};
    static const uint8_t streams[] = {0x60, 0x0d, 0x65, 0x0b, 0xa0, 0x09, 0x66, 0x07, 0xa0, 0x03, 0x02, 0x01, 0x05, 0xa1, 0x00};
    size_t count = sizeof kinds / sizeof *kinds;
    memset(table, 0xee, sizeof table);
    expect("a message of each kind", read_into(bytes, sizeof bytes, GLOW_ROWS_MAX), GLOW_DONE);
    expect("its count", answer[GLOW_COUNT], count);
    for (size_t i = 0; i < count; i++)
        expect("a kind", table[i][GLOW_KIND], kinds[i]);
    expect("a connection's parent", table[count - 1][GLOW_PARENT], 6);
    expect("the row past the count", table[count][0], 0xeeeeeeeeeeeeeeeeull);
    expect("text", cell(0, 3, 0), GLOW_TYPE_TEXT);
    expect("text, its start", cell(0, 3, 1), 22);
    expect("text, its length", cell(0, 3, 2), 2);
    expect("octets", cell(0, 4, 0), GLOW_TYPE_OCTETS);
    expect("real", cell(0, 5, 0), GLOW_TYPE_REAL);
    expect("access", cell(0, 6, 1), 3);
    expect("factor", cell(0, 9, 1), 0xffffffffffffffffull);
    expect("online", cell(0, 10, 0), GLOW_TYPE_BOOLEAN);
    expect("online, true", cell(0, 10, 1), 1);
    expect("stream", cell(0, 15, 1), 256);
    expect("path", cell(5, 0, 0), GLOW_TYPE_RELATIVE_OID);
    expect("path, its length", cell(5, 0, 2), 2);
    expect("sources", cell(6, 1, 0), GLOW_TYPE_RELATIVE_OID);
    expect("operation", cell(7, 2, 1), 2);
    expect("a stream without its value", read_into(streams, sizeof streams, 1), GLOW_BAD_GLOW);
    static const uint8_t stream[] = {0x60, 0x10, 0x65, 0x0e, 0xa0, 0x0c, 0x66, 0x0a, 0xa0, 0x03, 0x02, 0x01, 0x05, 0xa1, 0x03, 0x01, 0x01, 0x00};
    expect("a stream", read_into(stream, sizeof stream, 1), GLOW_DONE);
    expect("streams", answer[GLOW_ROOT], GLOW_STREAMS);
    expect("a stream entry", table[0][GLOW_KIND], GLOW_STREAM_ENTRY);
}

static void lengths(void)
{
    static uint8_t message[GLOW_MESSAGE_MAX + 1] = {0x60, 0x02, 0x6b, 0x00};
    memset(answer, 0xee, sizeof answer);
    expect("rows over the limit", read_into(message, 4, GLOW_ROWS_MAX + 1), GLOW_SETUP);
    expect("bytes over the limit", read_into(message, GLOW_MESSAGE_MAX + 1, 1), GLOW_SETUP);
    expect("words of the answer", glow_read(message, 4, table, 1, answer, GLOW_ANSWER_WORDS - 1), GLOW_SETUP);
    expect("words of the answer", glow_read(message, 4, table, 1, answer, GLOW_ANSWER_WORDS + 1), GLOW_SETUP);
    expect("the answer as it was", answer[0], 0xeeeeeeeeeeeeeeeeull);
    expect("bytes at the limit", read_into(message, GLOW_MESSAGE_MAX, GLOW_ROWS_MAX), GLOW_BAD_BER);
    expect("no rows", read_into(message, 4, 0), GLOW_DONE);
}

/* P12 written again: in as many bytes as it takes, in one less, and with words of the answer one beside its count. */
static void writing(void)
{
    static const uint8_t message[] = {0x60, 0x0b, 0x6b, 0x09, 0xa0, 0x07, 0x62, 0x05, 0xa0, 0x03, 0x02, 0x01, 0x20};
    const uint64_t(*rows)[GLOW_ROW_WORDS] = (const uint64_t(*)[GLOW_ROW_WORDS])table;
    uint8_t out[sizeof message + 1];
    uint64_t length[GLOW_WRITE_WORDS + 1] = {0};
    expect("read", read_into(message, sizeof message, 1), GLOW_DONE);
    memset(out, 0xee, sizeof out);
    expect("too short", glow_write(rows, 1, 1, GLOW_ELEMENTS, message, sizeof message, out, sizeof message - 1, length, GLOW_WRITE_WORDS), GLOW_NO_OUT);
    expect("the output as it was", out[0], 0xee);
    expect("words", glow_write(rows, 1, 1, GLOW_ELEMENTS, message, sizeof message, out, sizeof out, length, GLOW_WRITE_WORDS - 1), GLOW_SETUP);
    expect("words", glow_write(rows, 1, 1, GLOW_ELEMENTS, message, sizeof message, out, sizeof out, length, GLOW_WRITE_WORDS + 1), GLOW_SETUP);
    expect("the output as it was", out[0], 0xee);
    expect("written", glow_write(rows, 1, 1, GLOW_ELEMENTS, message, sizeof message, out, sizeof out, length, GLOW_WRITE_WORDS), GLOW_DONE);
    expect("its length", length[0], sizeof message);
    expect("its bytes", (uint64_t)memcmp(out, message, sizeof message), 0);
    expect("the rest as it was", out[sizeof message], 0xee);
    expect("accepted", glow_accepts(rows, 1, 1, GLOW_ELEMENTS, message, sizeof message), 1);
    expect("no command is a stream entry", glow_accepts(rows, 1, 1, GLOW_STREAMS, message, sizeof message), 0);
    expect("more than the rows", glow_accepts(rows, 1, 2, GLOW_ELEMENTS, message, sizeof message), 0);
    expect("an empty tree", glow_write(rows, 0, 0, GLOW_STREAMS, message, 0, out, sizeof out, length, GLOW_WRITE_WORDS), GLOW_DONE);
    expect("its length", length[0], 4);
    table[0][GLOW_PARENT] = 1;
    expect("its own parent", glow_write(rows, 1, 1, GLOW_ELEMENTS, message, sizeof message, out, sizeof out, length, GLOW_WRITE_WORDS), GLOW_NO_OUT);
    expect("no length", length[0], 0);
}

int main(void)
{
    numbers();
    rows();
    lengths();
    writing();
    return wrong;
}
