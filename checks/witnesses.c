/* Rules of ember.h that no stored case and no vector of the gate shows: words of an answer that say nothing, the whole store before and after a call, and an
 * opening that is refused for two reasons. Says what differs and ends with 1. */
#include "ember.h"

#include <stdio.h>
#include <string.h>

static int wrong;

static void expect(const char *what, uint64_t got, uint64_t wanted)
{
    if (got != wanted) {
        printf("%s: %llu, and not %llu\n", what, (unsigned long long)got, (unsigned long long)wanted);
        wrong = 1;
    }
}

/* Three words of an answer that were marked before. */
static void expect_words(const char *what, const uint64_t *answer, uint64_t first, uint64_t second, uint64_t third)
{
    if (answer[0] != first || answer[1] != second || answer[2] != third) {
        printf("%s: the words are %llu %llu %llu\n", what, (unsigned long long)answer[0], (unsigned long long)answer[1], (unsigned long long)answer[2]);
        wrong = 1;
    }
}

static uint64_t session[EMBER_SESSION_WORDS];
static uint8_t store[EMBER_STORE_BYTES], before[EMBER_STORE_BYTES];
static uint64_t answer[EMBER_FEED_WORDS];

/* Feeds bytes to a store of marks, and compares the whole store: `message` from 0, `content` from 16,384, every other byte as it was. */
static void fed(const char *what, const uint8_t *bytes, size_t count, uint64_t number, const uint8_t *message, size_t message_bytes,
                const uint8_t *content, size_t content_bytes)
{
    for (size_t at = 0; at < sizeof store; at++)
        before[at] = store[at] = (uint8_t)(0xa5 ^ at ^ at >> 8);
    memset(answer, 0x77, sizeof answer);
    expect("ember_start", ember_start(session, EMBER_SESSION_WORDS), EMBER_DONE);
    expect(what, ember_feed(session, EMBER_SESSION_WORDS, store, EMBER_STORE_BYTES, bytes, count, answer, EMBER_FEED_WORDS), number);
    expect_words(what, answer, 0, count, number == EMBER_MESSAGE ? message_bytes : 0);
    if (message_bytes > 0)
        memcpy(before, message, message_bytes);
    if (content_bytes > 0)
        memcpy(before + 16384, content, content_bytes);
    expect(what, (uint64_t)memcmp(store, before, sizeof store), 0);
}

static void stores(void)
{
    static const uint8_t alive[] = {0xfe, 0x00, 0x0e, 0x01, 0x01, 0x94, 0xe4, 0xff};
    static const uint8_t bad_crc[] = {0xfe, 0x00, 0x0e, 0x01, 0x01, 0x94, 0xe5, 0xff};
    static const uint8_t faulty[] = {0xfe, 0x11, 0x22, 0xf8, 0x33, 0xfd, 0xd8, 0x44, 0xff};
    static const uint8_t open_escape[] = {0xfe, 0x11, 0xfd};
    static const uint8_t piece[] = {0xfe, 0x00, 0x0e, 0x00, 0x01, 0xc0, 0x01, 0x02, 0x14, 0x02, 0x0a, 0x0b, 0x7e, 0x1b, 0xff};
    static const uint8_t stray[] = {0x00};
    static uint8_t longest[1 + 1025 + 1];
    fed("a keep-alive", alive, sizeof alive, EMBER_REQUEST, NULL, 0, alive + 1, 6);
    fed("a wrong CRC", bad_crc, sizeof bad_crc, EMBER_BAD_CRC, NULL, 0, bad_crc + 1, 6);
    fed("bytes past a fault", faulty, sizeof faulty, EMBER_BAD_BYTE, NULL, 0, faulty + 1, 2);
    fed("an escape left open", open_escape, sizeof open_escape, EMBER_DONE, NULL, 0, open_escape + 1, 1);
    fed("a message", piece, sizeof piece, EMBER_MESSAGE, piece + 10, 2, piece + 1, 13);
    fed("a stray byte", stray, sizeof stray, EMBER_BAD_STRAY, NULL, 0, NULL, 0);
    memset(longest, 0x55, sizeof longest);
    longest[0] = 0xfe;
    longest[sizeof longest - 1] = 0xff;
    fed("the 1,025th byte", longest, sizeof longest, EMBER_BAD_LONG, NULL, 0, longest + 1, 1024);
}

/* Every word of a session that is one too high, or a length where nothing is open: EMBER_SETUP, and everything as it was. */
static void sessions(void)
{
    static const uint64_t illegal[][4] = {
        {6, 0, 0, 0}, {0, 1, 0, 0}, {1, 1, 0, 0}, {2, 1025, 0, 0}, {2, 0, 2, 0}, {2, 0, 2, 9},
        {2, 0, 3, 9}, {0, 0, 0, 1}, {0, 0, 1, 16385}, {0, 0, UINT64_MAX, 0}, {UINT64_MAX, 0, 0, 0}, {3, UINT64_MAX, 1, 1},
    };
    static const uint8_t byte[] = {0xfe};
    for (size_t at = 0; at < sizeof illegal / sizeof illegal[0]; at++) {
        memcpy(session, illegal[at], sizeof session);
        memset(store, 0x5a, sizeof store);
        memcpy(before, store, sizeof store);
        memset(answer, 0, sizeof answer);
        answer[0] = 7, answer[1] = 8, answer[2] = 9;
        expect("an illegal session", ember_feed(session, EMBER_SESSION_WORDS, store, EMBER_STORE_BYTES, byte, 1, answer, EMBER_FEED_WORDS), EMBER_SETUP);
        expect("its words", (uint64_t)memcmp(session, illegal[at], sizeof session), 0);
        expect("its store", (uint64_t)memcmp(store, before, sizeof store), 0);
        expect_words("its answer", answer, 7, 8, 9);
    }
}

static void readings(void)
{
    static const uint8_t command[] = {0x60, 0x0b, 0x6b, 0x09, 0xa0, 0x07, 0x62, 0x05, 0xa0, 0x03, 0x02, 0x01, 0x20};
    static const uint8_t streams[] = {0x60, 0x02, 0x65, 0x00};
    static const uint8_t node[] = {0x60, 0x0b, 0x6b, 0x09, 0xa0, 0x07, 0x63, 0x05, 0xa0, 0x03, 0x02, 0x01, 0x00};
    static ember_row table[1];
    uint64_t words[EMBER_READ_WORDS];
#define READ(message, rows, number, place, count, root)                                                                          \
    do {                                                                                                                         \
        memset(words, 0x77, sizeof words);                                                                                       \
        expect(#message, ember_read(message, sizeof message, table, rows, words, EMBER_READ_WORDS), number);                     \
        expect_words(#message, words, place, count, root);                                                                       \
    } while (0)
    READ(command, 1, EMBER_DONE, 0, 1, EMBER_ELEMENTS);
    READ(command, 0, EMBER_NO_ROOM, 0, 1, 0);
    READ(streams, 1, EMBER_DONE, 0, 0, EMBER_STREAMS);
    READ(node, 1, EMBER_BAD_NUMBER, 10, 0, 0);
}

/* "first of all": EMBER_SETUP for a wrong count of crosspoints, also where the path or the mode is out of its range too. Figures out of range have no
 * size, and are EMBER_BAD_DESK whatever is lent. */
static void openings(void)
{
    static const uint64_t figures[7] = {EMBER_N_TO_N, 2, 2, 0, 0, 0, 0}, no_targets[7] = {EMBER_N_TO_N, 0, 2, 0, 0, 0, 0};
    static const uint64_t path[17] = {1, 1, 1, 1, 1, 1, 1, 1, 1, 1, 1, 1, 1, 1, 1, 1, 1}, zero[3] = {1, 2, 0}, over[3] = {1, 2, 2147483648u};
    enum { SIZE = 4 };
    static uint8_t cells[SIZE + 1], same[SIZE + 1];
    expect("its size", ember_desk_size(figures, 7), SIZE);
    expect("no size", ember_desk_size(no_targets, 7), 0);
    for (int more = -1; more <= 1; more++) {
        uint64_t wanted = more == 0 ? EMBER_BAD_DESK : EMBER_SETUP;
        memset(cells, 1, sizeof cells);
        memcpy(same, cells, sizeof cells);
        expect("a path of none", ember_desk_open(figures, 7, 0, path, 0, cells, (size_t)(SIZE + more)), wanted);
        expect("a path of 17", ember_desk_open(figures, 7, 0, path, 17, cells, (size_t)(SIZE + more)), wanted);
        expect("0 last in a path", ember_desk_open(figures, 7, 0, zero, 3, cells, (size_t)(SIZE + more)), wanted);
        expect("over the range last in a path", ember_desk_open(figures, 7, 0, over, 3, cells, (size_t)(SIZE + more)), wanted);
        expect("a mode", ember_desk_open(figures, 7, 1, path, 16, cells, (size_t)(SIZE + more)), wanted);
        expect("no targets", ember_desk_open(no_targets, 7, 0, path, 16, cells, (size_t)(SIZE + more)), EMBER_BAD_DESK);
        expect("the crosspoints", (uint64_t)memcmp(cells, same, sizeof cells), 0);
        wanted = more == 0 ? EMBER_DONE : EMBER_SETUP;
        expect("what is right", ember_desk_open(figures, 7, 0, path, 16, cells, (size_t)(SIZE + more)), wanted);
        expect("the crosspoints after it", cells[0], more == 0 ? 0 : 1);
        expect("the byte after them", cells[SIZE], 1);
    }
}

/* One turn on the frames of a message, or on a keep-alive if there is none: all nine words, marked before, and the 256 answers, of which none is given. */
static void turned(const char *what, const uint8_t *message, size_t message_bytes, size_t rows, uint64_t number, const uint64_t *wanted)
{
    static const uint64_t figures[EMBER_FIGURES_WORDS] = {EMBER_N_TO_N, 2, 2, 0, 0, 0, 0}, path[1] = {1};
    static ember_row table[1];
    static uint8_t frames[EMBER_FRAME_MAX], cells[4], answers[EMBER_ANSWERS_MAX];
    uint64_t words[EMBER_TURN_WORDS], count = 0;
    expect("the desk", ember_desk_open(figures, EMBER_FIGURES_WORDS, 0, path, 1, cells, sizeof cells), EMBER_DONE);
    expect("ember_start", ember_start(session, EMBER_SESSION_WORDS), EMBER_DONE);
    if (message == NULL)
        expect("a keep-alive", ember_write_request(frames, sizeof frames, &count), EMBER_DONE);
    else
        expect("the frames", ember_write_message(message, message_bytes, frames, sizeof frames, &count), EMBER_DONE);
    memset(words, 0x77, sizeof words);
    memset(answers, 0x77, sizeof answers);
    expect(what, ember_turn(session, EMBER_SESSION_WORDS, store, EMBER_STORE_BYTES, frames, count, table, rows, figures, EMBER_FIGURES_WORDS, path, 1, cells,
                            sizeof cells, answers, words, EMBER_TURN_WORDS), number);
    for (size_t at = 0; at < EMBER_TURN_WORDS; at++)
        expect(what, words[at], at == EMBER_CONSUMED ? count : wanted[at]);
    for (size_t at = 0; at < sizeof answers; at++)
        expect(what, answers[at], 0);
}

static void turns(void)
{
    static const uint8_t command[] = {0x60, 0x0b, 0x6b, 0x09, 0xa0, 0x07, 0x62, 0x05, 0xa0, 0x03, 0x02, 0x01, 0x20};
    static const uint8_t streams[] = {0x60, 0x02, 0x65, 0x00};
    static const uint8_t node[] = {0x60, 0x0b, 0x6b, 0x09, 0xa0, 0x07, 0x63, 0x05, 0xa0, 0x03, 0x02, 0x01, 0x00};
    static const uint64_t nothing[EMBER_TURN_WORDS] = {0};
    static const uint64_t one[EMBER_TURN_WORDS] = {0, 0, sizeof command, EMBER_DONE, 0, 1, EMBER_ELEMENTS, EMBER_DONE, 0};
    static const uint64_t none[EMBER_TURN_WORDS] = {0, 0, sizeof streams, EMBER_DONE, 0, 0, EMBER_STREAMS, EMBER_DONE, 0};
    static const uint64_t no_room[EMBER_TURN_WORDS] = {0, 0, sizeof command, EMBER_NO_ROOM, 0, 1, 0, 0, 0};
    static const uint64_t refused[EMBER_TURN_WORDS] = {0, 0, sizeof node, EMBER_BAD_NUMBER, 10, 0, 0, 0, 0};
    turned("a turn on a keep-alive", NULL, 0, 1, EMBER_REQUEST, nothing);
    turned("a turn on a command", command, sizeof command, 1, EMBER_MESSAGE, one);
    turned("a turn on no streams", streams, sizeof streams, 1, EMBER_MESSAGE, none);
    turned("a turn without room", command, sizeof command, 0, EMBER_MESSAGE, no_room);
    turned("a turn on a number out of range", node, sizeof node, 1, EMBER_MESSAGE, refused);
}

int main(void)
{
    stores();
    sessions();
    readings();
    openings();
    turns();
    return wrong;
}
