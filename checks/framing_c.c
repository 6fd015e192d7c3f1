/* Every number of framing.h against the library: each is what a call answers, or the length that it takes and the next
 * that it refuses. Says what differs and ends with 1. */
#include "framing.h"

#include <stdio.h>
#include <string.h>

static int wrong;

static void expect(const char *what, uint64_t got, uint64_t wanted)
{
    if (got != wanted) {
        printf("%s: %llu, and not %llu\n", what, (unsigned long long)got, (unsigned long long)wanted);
        wrong = 1;
    }
}

static uint64_t session[FRAMING_SESSION_WORDS + 1];
static uint8_t store[FRAMING_STORE_BYTES + 1];
static uint64_t answer[FRAMING_ANSWER_WORDS + 1];

static uint64_t feed(const uint8_t *bytes, size_t count)
{
    return framing_feed(session, FRAMING_SESSION_WORDS, store, FRAMING_STORE_BYTES, bytes, count, answer, FRAMING_ANSWER_WORDS);
}

static void fresh(void)
{
    expect("framing_start", framing_start(session, FRAMING_SESSION_WORDS), FRAMING_DONE);
}

/* A frame around content, fed to the session as it stands. */
static uint64_t feed_content(const uint8_t *content, size_t count)
{
    uint8_t frame[FRAMING_FRAME_MAX];
    uint64_t length = 0;
    expect("framing_write_frame", framing_write_frame(content, count, frame, sizeof frame, &length), FRAMING_DONE);
    return feed(frame, length);
}

static uint64_t feed_packet(uint8_t flags, uint8_t dtd, size_t payload)
{
    uint8_t content[FRAMING_CONTENT_MAX] = {0x00, 0x0e, 0x00, 0x01, flags, dtd, 0x02, 0x14, 0x02};
    return feed_content(content, 9 + payload);
}

/* A stream of its own from a fresh session: its first event. */
#define FIRST(name, ...)                                                                                                \
    do {                                                                                                                \
        static const uint8_t bytes[] = {__VA_ARGS__};                                                                   \
        fresh();                                                                                                        \
        expect(#name, feed(bytes, sizeof bytes), name);                                                                 \
    } while (0)

static void lengths(void)
{
    expect("a session one word short", framing_start(session, FRAMING_SESSION_WORDS - 1), FRAMING_SETUP);
    expect("a session one word long", framing_start(session, FRAMING_SESSION_WORDS + 1), FRAMING_SETUP);
    fresh();
    for (int more = -1; more <= 1; more++) {
        uint64_t wanted = more == 0 ? FRAMING_DONE : FRAMING_SETUP;
        expect("words of the session", framing_feed(session, FRAMING_SESSION_WORDS + more, store, FRAMING_STORE_BYTES, NULL, 0,
                                                    answer, FRAMING_ANSWER_WORDS), wanted);
        expect("bytes of the store", framing_feed(session, FRAMING_SESSION_WORDS, store, FRAMING_STORE_BYTES + more, NULL, 0,
                                                  answer, FRAMING_ANSWER_WORDS), wanted);
        expect("words of the answer", framing_feed(session, FRAMING_SESSION_WORDS, store, FRAMING_STORE_BYTES, NULL, 0,
                                                   answer, FRAMING_ANSWER_WORDS + more), wanted);
    }
}

static void events(void)
{
    static uint8_t bytes[1100];
    fresh();
    expect("FRAMING_DONE", feed(NULL, 0), FRAMING_DONE);
    FIRST(FRAMING_REQUEST, 0xfe, 0x00, 0x0e, 0x01, 0x01, 0x94, 0xe4, 0xff);
    FIRST(FRAMING_RESPONSE, 0xfe, 0x00, 0x0e, 0x02, 0x01, 0xfd, 0xdc, 0xce, 0xff);
    FIRST(FRAMING_BAD_STRAY, 0x00);
    FIRST(FRAMING_BAD_CUT, 0xfe, 0x00, 0xfe);
    FIRST(FRAMING_BAD_BYTE, 0xfe, 0xf8, 0xff);
    FIRST(FRAMING_BAD_ESCAPE, 0xfe, 0xfd, 0xff);
    FIRST(FRAMING_BAD_SHORT, 0xfe, 0xfe, 0xff);
    FIRST(FRAMING_BAD_CRC, 0xfe, 0x00, 0x0e, 0x01, 0x01, 0x94, 0xe5, 0xff);

    memset(bytes, 0, sizeof bytes);
    bytes[0] = 0xfe;
    bytes[1 + 1025] = 0xff;
    fresh();
    expect("FRAMING_BAD_LONG", feed(bytes, 1 + 1025 + 1), FRAMING_BAD_LONG);

    fresh();
    memcpy(bytes, "\x01\x0e\x01\x01", 4);
    expect("FRAMING_BAD_HEADER", feed_content(bytes, 4), FRAMING_BAD_HEADER);
    expect("FRAMING_BAD_FLAGS", feed_packet(0xc1, 0x01, 1), FRAMING_BAD_FLAGS);
    expect("FRAMING_BAD_DTD", feed_packet(0xc0, 0x02, 1), FRAMING_BAD_DTD);
    expect("FRAMING_BAD_ORPHAN", feed_packet(0x40, 0x01, 1), FRAMING_BAD_ORPHAN);
    expect("FRAMING_PIECE", feed_packet(0x80, 0x01, 1013), FRAMING_PIECE);
    for (int piece = 2; piece <= 16; piece++)
        expect("FRAMING_PIECE", feed_packet(0x00, 0x01, 1013), FRAMING_PIECE);
    expect("FRAMING_BAD_BIG", feed_packet(0x00, 0x01, 1013), FRAMING_BAD_BIG);
    expect("answer[FRAMING_DISCARDED]", answer[FRAMING_DISCARDED], 1);
    expect("FRAMING_MESSAGE", feed_packet(0xc0, 0x01, 7), FRAMING_MESSAGE);
    expect("answer[FRAMING_DISCARDED]", answer[FRAMING_DISCARDED], 0);
    expect("answer[FRAMING_LENGTH]", answer[FRAMING_LENGTH], 7);
    fresh();
    memcpy(bytes, "\xfe\x00\xfe\x00", 4);
    feed(bytes, 4);
    expect("answer[FRAMING_CONSUMED]", answer[FRAMING_CONSUMED], 3);
}

/* The words of a session, as the header lists them. */
static void session_words(void)
{
    static uint8_t bytes[1100];
    static const struct { const char *hex; size_t count; uint64_t place, length; } places[] = {
        {"", 0, 0, 0},
        {"\x00", 1, 1, 0},
        {"\xfe\x00\x01", 3, 2, 2},
        {"\xfe\x00\xfd", 3, 3, 1},
        {"\xfe\x00\xf8\x00", 4, 4, 1},
    };
    for (size_t i = 0; i < sizeof places / sizeof *places; i++) {
        fresh();
        feed((const uint8_t *)places[i].hex, places[i].count);
        expect("where the stream stands", session[0], places[i].place);
        expect("bytes of content", session[1], places[i].length);
    }
    memset(bytes, 0, sizeof bytes);
    bytes[0] = 0xfe;
    fresh();
    feed(bytes, 1 + 1025);
    expect("past its limit", session[0], 5);
    expect("bytes of content at most", session[1], 1024);
    session[1] = 1025;
    expect("one more", feed(NULL, 0), FRAMING_SETUP);
    fresh();
    feed_packet(0x80, 0x01, 3);
    expect("a message is unfinished", session[2], 1);
    expect("bytes of the message", session[3], 3);
    session[3] = 16384;
    expect("bytes of the message at most", feed(NULL, 0), FRAMING_DONE);
    session[3] = 16385;
    expect("one more", feed(NULL, 0), FRAMING_SETUP);
}

static void writers(void)
{
    static uint8_t content[16385], out[17 * FRAMING_FRAME_MAX + 1];
    uint64_t count = 0, longest = 0;
    expect("content at most", framing_write_frame(content, FRAMING_CONTENT_MAX, out, sizeof out, &count), FRAMING_DONE);
    expect("FRAMING_NO_OUT", framing_write_frame(content, FRAMING_CONTENT_MAX + 1, out, sizeof out, &count), FRAMING_NO_OUT);
    /* Escaped throughout; some CRC is too. */
    memset(content, 0xff, sizeof content);
    for (unsigned last = 0; last < 8 * 8 * 8 * 8 * 8; last++) {
        for (unsigned digit = 0, rest = last; digit < 5; digit++, rest /= 8)
            content[digit] = 0xf8 + rest % 8;
        expect("framing_write_frame", framing_write_frame(content, FRAMING_CONTENT_MAX, out, sizeof out, &count), FRAMING_DONE);
        if (count > longest)
            longest = count;
        if (longest >= FRAMING_FRAME_MAX)
            break;
    }
    expect("FRAMING_FRAME_MAX", longest, FRAMING_FRAME_MAX);
    expect("a frame that just fits", framing_write_frame(content, FRAMING_CONTENT_MAX, out, longest, &count), FRAMING_DONE);
    expect("one byte less", framing_write_frame(content, FRAMING_CONTENT_MAX, out, longest - 1, &count), FRAMING_NO_OUT);
    expect("a message in 17 frames", framing_write_message(content, 16384, out, FRAMING_FRAMES_MAX, &count), FRAMING_DONE);
    expect("17 frames", FRAMING_FRAMES_MAX, 17 * FRAMING_FRAME_MAX);
    expect("a message too long", framing_write_message(content, 16385, out, sizeof out, &count), FRAMING_NO_OUT);
    expect("framing_write_request", framing_write_request(out, 8, &count), FRAMING_DONE);
    expect("its count", count, 8);
    expect("framing_write_request", framing_write_request(out, 7, &count), FRAMING_NO_OUT);
    expect("framing_write_response", framing_write_response(out, 9, &count), FRAMING_DONE);
    expect("its count", count, 9);
    expect("framing_write_response", framing_write_response(out, 8, &count), FRAMING_NO_OUT);
}

/* Numbers in words; and of a stream in chunks of each length the frames that pass, as they came. */
static void gateway(void)
{
    static const uint8_t stream[] = {0x00, 0xfe, 0xfe, 0x00, 0x0e, 0x01, 0x01, 0x94, 0xe4, 0xff, 0xff, 0xfe, 0x00, 0xfe, 0x00, 0x0e,
                                     0x01, 0x01, 0x94, 0xe5, 0xff, 0xfe, 0x00, 0x0e, 0x02, 0x01, 0xfd, 0xdc, 0xce, 0xff, 0x07};
    uint64_t number;
    size_t said = 0;
    expect("version", FRAMING_VERSION_NUMBER, 300);
    for (number = 0; number <= 100; number++)
        said += strcmp(framing_say(number), "no such number") != 0;
    expect("numbers that are said", said, 19);
    for (size_t chunk = 1; chunk <= sizeof stream; chunk++) {
        static struct framing_line line;
        uint8_t passed[sizeof stream];
        size_t length = 0;
        expect("a line", framing_line_start(&line), FRAMING_DONE);
        for (size_t at = 0; at < sizeof stream; at += line.consumed) {
            size_t left = sizeof stream - at;
            number = framing_line_feed(&line, stream + at, left < chunk ? left : chunk);
            expect("its number", number, line.number);
            expect("no message", line.message_bytes + (uint64_t)line.discarded, 0);
            if (framing_passes(number)) {
                memcpy(passed + length, line.frame.bytes, line.frame.length);
                length += line.frame.length;
            }
        }
        line.session[0] = 6;
        expect("words that the host changed", framing_line_feed(&line, stream, 5), FRAMING_SETUP);
        expect("and no loop", line.consumed, 5);
        expect("bytes that pass", length, 17);
        expect("a request", (uint64_t)memcmp(passed, stream + 2, 8), 0);
        expect("a response", (uint64_t)memcmp(passed + 8, stream + 21, 9), 0);
    }
}

int main(void)
{
    gateway();
    lengths();
    events();
    session_words();
    writers();
    return wrong;
}
