/* S101 framing for C: the session that reads a stream in chunks, the writer of frames, and what a gateway needs.
 *
 * Link libframing_c.a, which `make target/staticlib/libframing_c.a` proves and builds (x86-64 Linux), or the installed
 * libframing.a (pkg-config: framing). The library keeps nothing between calls, allocates nothing and calls nothing but
 * memmove: all memory is lent by the caller. Each call is proved for every content of what is lent to it, and answers
 * a wrong length or a word out of range; it cannot test a pointer. So a pointer and its count name memory of the
 * caller's that is as long as the count says, aligned for its type, and shared by no other argument of the call that
 * is written to; where the count is 0 the pointer may be anything. Most hosts begin with struct framing_line, at the
 * end of this header. */
#ifndef FRAMING_H
#define FRAMING_H

#include <stddef.h>
#include <stdint.h>
#include <string.h>

#ifdef __cplusplus
extern "C" {
#endif

/* The session: four words, made by framing_start and changed by framing_feed alone. A gateway with many lines has
 * one for each, with a store of its own.
 *   0: where the stream stands: 0 outside frames, 1 in a run of stray bytes, 2 in a frame, 3 in a frame after FD,
 *      4 in a frame past a bad byte, 5 in a frame past its limit
 *   1: bytes of content of the open frame, at most 1,024; 0 if none is open
 *   2: 1 if a message is unfinished, else 0
 *   3: bytes of the unfinished message, at most 16,384; 0 if there is none */
#define FRAMING_SESSION_WORDS 4

/* The store: message bytes from 0, frame content from 16,384. It needs no clearing. */
#define FRAMING_STORE_BYTES 17408

/* The answer of framing_feed, three words:
 *   0: 1 if an unfinished message was thrown away, else 0
 *   1: bytes of the chunk that were consumed
 *   2: for FRAMING_MESSAGE the length of the message, which is the store's first bytes until the next call; else 0 */
#define FRAMING_ANSWER_WORDS 3
#define FRAMING_DISCARDED 0
#define FRAMING_CONSUMED 1
#define FRAMING_LENGTH 2

/* A frame has at most 1,022 bytes of content without its CRC, and is at most 2,050 bytes long; the frames of a message are at
 * most 34,850 bytes. */
#define FRAMING_CONTENT_MAX 1022
#define FRAMING_FRAME_MAX 2050
#define FRAMING_FRAMES_MAX 34850

/* The version of this header; that of the installed library is framing_version's, and the same: 100 times major, and minor. */
#define FRAMING_VERSION_NUMBER 300

/* The numbers answered, as document 01 has them; framing_say(number) says each in words. An event is made at the last byte
 * consumed. */
enum framing_answer {
    FRAMING_DONE = 0,        /* done, or more bytes needed */
    FRAMING_SETUP = 1,       /* a wrong length, or a word out of range: nothing was changed */
    FRAMING_PIECE = 2,       /* a piece of a message that is not finished */
    FRAMING_MESSAGE = 3,     /* the piece that finished a message */
    FRAMING_REQUEST = 4,     /* keep-alive request */
    FRAMING_RESPONSE = 5,    /* keep-alive response */
    FRAMING_BAD_STRAY = 10,  /* the first of a run of bytes outside frames */
    FRAMING_BAD_CUT = 11,    /* a frame ended by the start of the next, whose FE is consumed */
    FRAMING_BAD_BYTE = 12,   /* a byte that may not stand there */
    FRAMING_BAD_LONG = 13,   /* content over 1,024 bytes, CRC included */
    FRAMING_BAD_ESCAPE = 14, /* the frame's end directly after FD, the escape byte */
    FRAMING_BAD_SHORT = 15,  /* content under 6 bytes, CRC included */
    FRAMING_BAD_CRC = 16,    /* CRC wrong */
    FRAMING_BAD_HEADER = 20, /* slot, type, command, version or header size wrong */
    FRAMING_BAD_FLAGS = 21,  /* flags wrong */
    FRAMING_BAD_DTD = 22,    /* DTD, count of application bytes or major version wrong */
    FRAMING_BAD_ORPHAN = 23, /* a later piece with no message open */
    FRAMING_BAD_BIG = 24,    /* a message over 16,384 bytes */
    FRAMING_NO_OUT = 46      /* writer: output too short or content too long: nothing was changed */
};

/* A number in words.
 * Never null: "no such number" for any that is not listed. */
static inline const char *framing_say(uint64_t number)
{
    switch (number) {
    case FRAMING_DONE: return "done";
    case FRAMING_SETUP: return "a wrong length or a word out of range";
    case FRAMING_PIECE: return "a piece of a message";
    case FRAMING_MESSAGE: return "a message";
    case FRAMING_REQUEST: return "keep-alive request";
    case FRAMING_RESPONSE: return "keep-alive response";
    case FRAMING_BAD_STRAY: return "bytes outside frames";
    case FRAMING_BAD_CUT: return "a frame cut off by the next";
    case FRAMING_BAD_BYTE: return "a byte that may not stand there";
    case FRAMING_BAD_LONG: return "a frame's content is over 1,024 bytes";
    case FRAMING_BAD_ESCAPE: return "a frame ends in an escape";
    case FRAMING_BAD_SHORT: return "a frame's content is under 6 bytes";
    case FRAMING_BAD_CRC: return "a frame's CRC is wrong";
    case FRAMING_BAD_HEADER: return "a frame's slot, type, command, version or header size is wrong";
    case FRAMING_BAD_FLAGS: return "a frame's flags are wrong";
    case FRAMING_BAD_DTD: return "a frame's DTD, count of application bytes or major version is wrong";
    case FRAMING_BAD_ORPHAN: return "a later piece with no message open";
    case FRAMING_BAD_BIG: return "a message over 16,384 bytes";
    case FRAMING_NO_OUT: return "the output is too short or the content too long";
    }
    return "no such number";
}

#if defined __GNUC__ && !defined FRAMING_VISIBLE
#pragma GCC visibility push(hidden)
#endif

/* Makes a fresh session: outside frames, no message open.
 * FRAMING_DONE, or FRAMING_SETUP if session_words is not 4.
 * Never touches a store: any content of it will do. */
uint64_t framing_start(uint64_t *session, size_t session_words);

/* Offers a chunk of the stream, of any length. It consumes bytes up to and including the one that makes an event, or
 * all of them, and answers the event's number, 2 to 24, or FRAMING_DONE. Offer the rest again, from the first byte
 * that was not consumed. FRAMING_SETUP, with nothing changed (the answer neither), if session_words is not 4,
 * store_bytes not 17,408, answer_words not 3, or the words are no session's.
 * Never reads past the chunk, and never tells an event twice, however the stream is cut. */
uint64_t framing_feed(uint64_t *session, size_t session_words, uint8_t *store, size_t store_bytes,
                      const uint8_t *chunk, size_t chunk_bytes, uint64_t *answer, size_t answer_words);

/* Each of these writes to the start of out, sets *count to how many bytes it wrote, and answers FRAMING_DONE; or
 * it answers FRAMING_NO_OUT, with out and *count as they were, if out is too short or the content too long.
 * Bytes of out past the written ones stay. */

/* A frame around content without its CRC, at most 1,022 bytes. 2,050 bytes of out are always enough.
 * Never looks at what the content says. */
uint64_t framing_write_frame(const uint8_t *content, size_t content_bytes, uint8_t *out, size_t out_bytes,
                             uint64_t *count);

/* The two keep-alives, a frame each.
 * Never writes a part of one. */
uint64_t framing_write_request(uint8_t *out, size_t out_bytes, uint64_t *count);
uint64_t framing_write_response(uint8_t *out, size_t out_bytes, uint64_t *count);

/* A message of at most 16,384 bytes as packets, that say Glow 2.20. 17 frames, FRAMING_FRAMES_MAX bytes of out, are always
 * enough.
 * Never asks whether the message is a tree. */
uint64_t framing_write_message(const uint8_t *message, size_t message_bytes, uint8_t *out, size_t out_bytes,
                               uint64_t *count);

/* The version of the installed library.
 * Never there in target/staticlib/libframing_c.a: `make install` puts it in. */
uint64_t framing_version(void);

#if defined __GNUC__ && !defined FRAMING_VISIBLE
#pragma GCC visibility pop
#endif

/* ---- A line: a stream with its session, its store and the bytes of its last frame, in one struct
 *
 * On the line a frame starts at a byte FE (BOF) and ends at FF (EOF); inside it bytes from F8 on come as FD (the escape byte) and
 * the byte XOR 20. Events 2 to 5 are frames that pass: each is the bytes since the last FE, that FE and the FF included, at most
 * FRAMING_FRAME_MAX of them. Every other event's bytes are to be dropped. framing_keep holds the bytes since the last FE, whatever
 * the chunks, and framing_line_feed calls it, so a gateway is:
 *
 *     static struct framing_line line;
 *     framing_line_start(&line);
 *     while ((got = read(from, input, sizeof input)) > 0)
 *         for (at = 0; at < (size_t)got; at += line.consumed) {
 *             number = framing_line_feed(&line, input + at, (size_t)got - at);
 *             if (framing_passes(number)) send(to, line.frame.bytes, line.frame.length);
 *             if (number == FRAMING_MESSAGE) ..     the message is line.store, line.message_bytes, until the next call
 *         }
 *
 * A gateway that answers keep-alives itself (supervision.h) passes events 2 and 3 alone: a request that is answered and passed on
 * is answered twice. */
struct framing_frame {
    size_t length;
    uint8_t bytes[FRAMING_FRAME_MAX];
};

/* Holds consumed bytes of the stream, each byte once and in order; begin with {0}.
 * Never holds more than FRAMING_FRAME_MAX: what is longer does not pass. */
static inline void framing_keep(struct framing_frame *frame, const uint8_t *bytes, uint64_t count)
{
    uint64_t i;
    for (i = 0; i < count; i++) {
        if (bytes[i] == 0xfe)
            frame->length = 0;
        if (frame->length < sizeof frame->bytes)
            frame->bytes[frame->length++] = bytes[i];
    }
}

/* 1 if the event is a frame that passes: a piece, a message or a keep-alive; else 0.
 * Never says so of bytes outside frames. */
static inline int framing_passes(uint64_t number)
{
    return number >= FRAMING_PIECE && number <= FRAMING_RESPONSE;
}

struct framing_line {
    /* what the last call told */
    uint64_t number;      /* what it answered */
    size_t consumed;      /* bytes of the chunk; offer the rest again */
    int discarded;        /* 1 if an unfinished message was thrown away */
    size_t message_bytes; /* after FRAMING_MESSAGE: the message is the store's first bytes, until the next call; else 0 */

    struct framing_frame frame; /* after events 2 to 5: the frame, as it came */
    uint8_t store[FRAMING_STORE_BYTES];
    uint64_t session[FRAMING_SESSION_WORDS];
};

/* Starts a line, or starts it anew: outside frames, no message open. FRAMING_DONE.
 * Never fails. */
static inline uint64_t framing_line_start(struct framing_line *line)
{
    memset(line, 0, sizeof *line);
    return framing_start(line->session, FRAMING_SESSION_WORDS);
}

/* Offers a chunk, as framing_feed, and tells the rest in the line's fields. FRAMING_SETUP if the host changed words of the session.
 * Never loops a host for ever: after FRAMING_SETUP the whole chunk counts as consumed, though nothing of it was. */
static inline uint64_t framing_line_feed(struct framing_line *line, const uint8_t *chunk, size_t chunk_bytes)
{
    uint64_t answer[FRAMING_ANSWER_WORDS] = {0};
    line->number = framing_feed(line->session, FRAMING_SESSION_WORDS, line->store, sizeof line->store, chunk, chunk_bytes, answer, FRAMING_ANSWER_WORDS);
    framing_keep(&line->frame, chunk, answer[FRAMING_CONSUMED]);
    line->consumed = line->number == FRAMING_SETUP ? chunk_bytes : (size_t)answer[FRAMING_CONSUMED];
    line->discarded = answer[FRAMING_DISCARDED] != 0;
    line->message_bytes = (size_t)answer[FRAMING_LENGTH];
    return line->number;
}

#ifdef __cplusplus
}
#endif

#endif
