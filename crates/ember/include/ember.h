/* Ember+ for C and C++: the session that reads a stream in chunks, the writer of frames, the reader and the writer of
 * the Glow tree, the routing desk, a whole turn of all of them, and route sheets.
 *
 * Link libember.a, which `make target/staticlib/libember.a` proves and builds (x86-64 Linux; `make install` puts it where a
 * compiler finds it). Each call is proved for every content of what is lent to it: it always ends, never traps, and answers a
 * wrong length or a word out of range with EMBER_SETUP. No call of this library allocates, keeps anything between calls (no
 * pointer either), reads a clock, starts a thread or calls anything but memcpy, memmove and memset: all memory is lent by the
 * caller, and two calls that share no memory may run at once. Measured, 32 KB of stack are enough for every call but
 * ember_sheet_write, which takes 64 KB, and ember_sheet_read, which takes 160 KB.
 *
 * What a call cannot test is a pointer. So a pointer and its count name memory of the caller's that is as long as the
 * count says, aligned for its type, and shared by no other argument of the call that is written to; where the count is 0
 * the pointer may be anything.
 *
 * Most hosts begin with struct ember_line (ember_line.h): a stream, its entries and the desk behind it, in a loop of ten lines.
 * This header takes in: ember_names.h, numbers, kinds and members in words; ember_entries.h, which looks into entries and makes
 * them, so nobody decodes a row's words; ember_why.h, why rows make no tree; ember_line.h. Beside it stand ember_text.h, paths and
 * values as text, and ember.hpp for C++17. Examples: examples/inventory, salvo, router, plugin, mirror.
 *
 * After EMBER_SETUP all that was lent is as it was, the answer's words too: there is nothing in them to go by. A loop for one
 * line that lends by hand, then (ember_turn, with a desk, goes the same way):
 *
 *     ember_start(session, EMBER_SESSION_WORDS);
 *     while ((got = read(line, input, sizeof input)) > 0)
 *         for (at = 0; at < got; at += answer[EMBER_CONSUMED]) {
 *             event = ember_feed(session, EMBER_SESSION_WORDS, store, sizeof store, input + at, got - at,
 *                                answer, EMBER_FEED_WORDS);
 *             if (event == EMBER_SETUP) ..      a fault of the host's: leave the loop
 *             if (event == EMBER_REQUEST) ..    ember_write_response, and send it
 *             if (event == EMBER_MESSAGE) ..    ember_read(store, answer[EMBER_LENGTH], table, ..)
 *         }
 *
 * When to ask for a keep-alive, and when a link is dead, is for libsupervision_c.a to say (supervision.h): it is shown what
 * ember_feed, ember_turn or ember_line_turn answers. */
#ifndef EMBER_H
#define EMBER_H

#include <stddef.h>
#include <stdint.h>

#ifdef __cplusplus
extern "C" {
#endif

/* ---- The version of this header; that of the installed library is ember_version's, and the same */

#define EMBER_VERSION_MAJOR 3
#define EMBER_VERSION_MINOR 0
#define EMBER_VERSION "3.0"

/* ---- The numbers answered, as document 01 has them; ember_say(number) says each in words. A refusal is EMBER_BAD_ or EMBER_NO_
 * and document 01's word, and no kind, member or type is named so */

enum ember_answer {
    EMBER_DONE = 0,     /* done, or more bytes needed */
    EMBER_SETUP = 1,    /* a wrong length, a word out of range, a desk that is not legal: nothing was changed */
    EMBER_PIECE = 2,    /* a piece of a message that is not finished */
    EMBER_MESSAGE = 3,  /* the piece that finished a message */
    EMBER_REQUEST = 4,  /* keep-alive request */
    EMBER_RESPONSE = 5, /* keep-alive response */

    /* of the stream. The place is the count of bytes consumed: the event is made at the last of them */
    EMBER_BAD_STRAY = 10,  /* the first of a run of bytes outside frames */
    EMBER_BAD_CUT = 11,    /* a frame ended by the start of the next: made at the next one's FE, which is consumed */
    EMBER_BAD_BYTE = 12,   /* a byte that may not stand there; of a sheet also: a bad line */
    EMBER_BAD_LONG = 13,   /* content over 1,024 bytes, CRC included */
    EMBER_BAD_ESCAPE = 14, /* the frame's end directly after FD, the escape byte */
    EMBER_BAD_SHORT = 15,  /* content under 6 bytes, CRC included */
    EMBER_BAD_CRC = 16,    /* CRC wrong */
    EMBER_BAD_HEADER = 20, /* slot, type, command, version or header size wrong */
    EMBER_BAD_FLAGS = 21,  /* flags wrong */
    EMBER_BAD_DTD = 22,    /* DTD, count of application bytes or major version wrong */
    EMBER_BAD_ORPHAN = 23, /* a later piece with no message open */
    EMBER_BAD_BIG = 24,    /* a message over 16,384 bytes */

    /* of the tree. The place is a position in the message, its length included: "at" below. The first fault in reading order
     * is told; at one tag its own octets, then 31 to 33, then its value's, by number */
    EMBER_BAD_BER = 30,    /* bad tag or length octets: at the tag; bad value octets: at the value's tag; a 00 that ends nothing: at
                            * it; an end that is missing: at the end of the container around it; bytes left after Root: at the
                            * first; bytes that run out: at the message's length */
    EMBER_BAD_FORM = 31,   /* an outer tag and its value, one definite and one indefinite: at the value's tag */
    EMBER_BAD_DEPTH = 32,  /* a 65th container open at once: at its tag */
    EMBER_BAD_GLOW = 33,   /* a tag unexpected, repeated or out of order: at that tag; a member missing: at the first higher tag, else
                            * at its container's end (if indefinite, at the closing 00); a value missing: at the outer tag's end */
    EMBER_BAD_NUMBER = 34, /* a number out of its range: at the value's tag */
    EMBER_BAD_REAL = 35,   /* a real that is not accepted: at its tag */
    EMBER_BAD_NAME = 36,   /* an identifier against its rule: at its tag */
    EMBER_BAD_PATH = 37,   /* a path that is empty, over 16 numbers (parents counted) or has a number out of range: at its tag */
    EMBER_NO_ROOM = 38,    /* the message is right, the table too small: how many entries it has in place of a place. With a table
                            * of 256, EMBER_ROWS_MAX, no table is long enough: ask the far end for less at once */

    /* of the desk, one for each connection: the place is the connection's, ember_answered says its row */
    EMBER_NO_MATRIX = 40, /* a connection of another matrix */
    EMBER_NO_TARGET = 41, /* no such target */
    EMBER_NO_SOURCE = 42, /* no such source */
    EMBER_BAD_MANY = 43,  /* more sources than the target may have */
    EMBER_BAD_TOTAL = 44, /* more connections than the desk may have */
    EMBER_BAD_DESK = 45,  /* opening: figures, mode or path out of range */

    EMBER_NO_OUT = 46 /* writing: the output is too short, or what is to be written is nothing that the reader accepts (ember_why) */
};

/* The names of the library are for the program or plugin that it is linked into: in an installed library they are hidden, and here
 * they are declared so, so that two plugins with two versions never meet in one host. Who makes a shared library of it takes the
 * one in target/staticlib, and defines EMBER_VISIBLE before this header is taken in. */
#if defined __GNUC__ && !defined EMBER_VISIBLE
#pragma GCC visibility push(hidden)
#endif

/* ---- The session */

/* The session: four words, made by ember_start and changed by ember_feed and ember_turn alone. A host with many lines
 * has one for each, with a store of its own, and starts it anew when the line is. What was open when a line ended can be
 * seen in its words.
 *   0: where the stream stands: 0 outside frames, 1 in a run of stray bytes, 2 in a frame, 3 in a frame after FD,
 *      4 in a frame past a bad byte, 5 in a frame past its limit
 *   1: bytes of content of the open frame, at most 1,024; 0 if none is open
 *   2: 1 if a message is unfinished, else 0
 *   3: bytes of the unfinished message, at most 16,384; 0 if there is none */
#define EMBER_SESSION_WORDS 4

/* The store: message bytes from 0, frame content from 16,384. It needs no clearing, and is left alone between the calls of
 * a line. */
#define EMBER_STORE_BYTES 17408

/* The answer of ember_feed, three words:
 *   0: 1 if an unfinished message was thrown away, else 0
 *   1: bytes of the chunk that were consumed
 *   2: for EMBER_MESSAGE the length of the message, which is the store's first bytes until the next call; else 0 */
#define EMBER_FEED_WORDS 3
#define EMBER_DISCARDED 0
#define EMBER_CONSUMED 1
#define EMBER_LENGTH 2

/* Makes a fresh session: outside frames, no message open. EMBER_DONE, or EMBER_SETUP if session_words is not 4.
 * Never touches a store: any content of it will do. */
uint64_t ember_start(uint64_t *session, size_t session_words);

/* Offers a chunk of the stream, of any length: consumes bytes up to and including the one that makes an event, or all of
 * them, and answers the event's number, 2 to 24, or EMBER_DONE. Offer the rest again, from the first byte that was not
 * consumed. EMBER_SETUP if session_words is not 4, store_bytes not 17,408, answer_words not 3, or the words no session's: nothing
 * was consumed or changed then. Over any calls on one session, refused ones among them, on whatever chunks: each event of the bytes
 * consumed is told once and in order.
 * Never reads past the chunk. */
uint64_t ember_feed(uint64_t *session, size_t session_words, uint8_t *store, size_t store_bytes, const uint8_t *chunk,
                    size_t chunk_bytes, uint64_t *answer, size_t answer_words);

/* ---- Writing frames. Each sets *count to how many bytes it wrote, and answers EMBER_DONE; or EMBER_NO_OUT, with out and
 * *count as they were. Bytes of out past the written ones stay. */

/* A frame has at most 1,022 bytes of content without its CRC, and is at most 2,050 bytes long; the frames of a message
 * are at most 34,850 bytes. */
#define EMBER_CONTENT_MAX 1022
#define EMBER_FRAME_MAX 2050
#define EMBER_FRAMES_MAX 34850

/* Writes a frame around content without its CRC. EMBER_NO_OUT if the content is over 1,022 bytes or out too short.
 * Never looks at what the content says. */
uint64_t ember_write_frame(const uint8_t *content, size_t content_bytes, uint8_t *out, size_t out_bytes, uint64_t *count);

/* Writes the keep-alive request, a frame.
 * Never writes a part of it: EMBER_NO_OUT if out is too short. */
uint64_t ember_write_request(uint8_t *out, size_t out_bytes, uint64_t *count);

/* Writes the keep-alive response, a frame.
 * Never writes a part of it: EMBER_NO_OUT if out is too short. */
uint64_t ember_write_response(uint8_t *out, size_t out_bytes, uint64_t *count);

/* Writes a message of at most 16,384 bytes as frames, that say Glow 2.20. EMBER_NO_OUT if it is longer or out too short.
 * Never asks whether the message is a tree. */
uint64_t ember_write_message(const uint8_t *message, size_t message_bytes, uint8_t *out, size_t out_bytes,
                             uint64_t *count);

/* ---- The tree */

/* The longest message in bytes, and the longest table in rows. The table needs no clearing. */
#define EMBER_MESSAGE_MAX 16384
#define EMBER_ROWS_MAX 256

/* An entry is a row of fifty words, one for each element, command, connection and stream entry, in message order:
 *   0: its kind
 *   1: its parent's place in the table and 1; 0 if it has none
 *   2 + 3c, 3 + 3c, 4 + 3c: cell c, for c from 0 to 15: the type of a member's value, and two words of content
 * Which cell a member has is named below (EMBER_PARAMETER_VALUE and so on). Every other cell is absent.
 *
 * Message order: an entry, then all that stands in it, then the next one beside it; of a matrix the children, then the
 * connections. Qualified elements stand in Root alone, connections in a matrix, stream entries in a Root of streams; the
 * other kinds in Root or in any element.
 *
 * What of Glow 2.20 is read, in short (docs/GLOW.md has the whole). Kept: the kinds and members named below. Passed over, and
 * so not written again: every other member of 001, such as a parameter's format, enumeration, formula, default, type and stream
 * descriptor, a matrix's labels and its lists of targets and sources, a connection's disposition, a command's invocation.
 * Refused with the whole message, by EMBER_BAD_GLOW: functions, invocation results, templates, null as a value, and streams by
 * the numbers of 001's notation (collection 6, entry 5: here they are 5 and 6). More than 256 entries are EMBER_NO_ROOM with any
 * table. */
#define EMBER_ROW_WORDS 50
#define EMBER_ROW_KIND 0
#define EMBER_ROW_PARENT 1
#define EMBER_ROW_CELLS 2
#define EMBER_CELL_WORDS 3

typedef uint64_t ember_row[EMBER_ROW_WORDS];

/* The kinds. A qualified element has a full path in place of its number. */
enum ember_entry_kind {
    EMBER_KIND_PARAMETER = 1,
    EMBER_KIND_COMMAND = 2,
    EMBER_KIND_NODE = 3,
    EMBER_KIND_MATRIX = 4,
    EMBER_KIND_QUALIFIED_PARAMETER = 5,
    EMBER_KIND_QUALIFIED_NODE = 6,
    EMBER_KIND_QUALIFIED_MATRIX = 7,
    EMBER_KIND_CONNECTION = 8,
    EMBER_KIND_STREAM_ENTRY = 9
};

/* The members, by their cell, with the type and the range that the reader accepts. "Required" is always there, all else may
 * be absent. A count is an integer from 0 to 2,147,483,647, a signed number one of 32 bits; "any value" is an integer of 64
 * bits, a real, a text, a boolean or octets. Parameters, nodes and matrices, qualified or not: */
enum ember_member {
    EMBER_NUMBER_OR_PATH = 0, /* required: an integer, 1 to 2,147,483,647; if qualified, a path of 1 to 16 such numbers */
    EMBER_IDENTIFIER = 1, /* a text that starts with A to Z, a to z or "_", and holds no "/" */
    EMBER_DESCRIPTION = 2, /* a text */
    /* of a parameter: */
    EMBER_PARAMETER_VALUE = 3, /* any value */
    EMBER_PARAMETER_MINIMUM = 4, /* any value */
    EMBER_PARAMETER_MAXIMUM = 5, /* any value */
    EMBER_PARAMETER_ACCESS = 6, /* 0 none, 1 read, 2 write, 3 both; absent: read */
    EMBER_PARAMETER_FACTOR = 9, /* a signed number */
    EMBER_PARAMETER_ONLINE = 10, /* a boolean */
    EMBER_PARAMETER_STEP = 12, /* a signed number */
    EMBER_PARAMETER_STREAM = 15, /* the number of its stream, as a count */
    /* of a node: */
    EMBER_NODE_ROOT = 3, /* a boolean */
    EMBER_NODE_ONLINE = 4, /* a boolean */
    /* of a matrix: */
    EMBER_MATRIX_TYPE = 3, /* EMBER_ONE_TO_N, EMBER_ONE_TO_ONE, EMBER_N_TO_N; absent: EMBER_ONE_TO_N */
    EMBER_MATRIX_MODE = 4, /* 0 linear, 1 not; absent: linear */
    EMBER_MATRIX_TARGETS = 5, /* a count */
    EMBER_MATRIX_SOURCES = 6, /* a count */
    EMBER_MATRIX_TOTAL_LIMIT = 7, /* the most connections, as a count */
    EMBER_MATRIX_TARGET_LIMIT = 8, /* the most sources of a target, as a count */
    /* of a command: */
    EMBER_COMMAND_NUMBER = 0, /* required: a signed number; EMBER_SUBSCRIBE, EMBER_UNSUBSCRIBE, EMBER_GET_DIRECTORY */
    EMBER_COMMAND_MASK = 1, /* a signed number: what a directory is to tell */
    /* of a connection, whose parent is its matrix: */
    EMBER_CONNECTION_TARGET = 0, /* required: the target's number, as a count */
    EMBER_CONNECTION_SOURCES = 1, /* the sources' numbers, counts, as a relative identifier; it may be empty; absent: none */
    EMBER_CONNECTION_OPERATION = 2, /* EMBER_ABSOLUTE, EMBER_CONNECT or EMBER_DISCONNECT; absent: EMBER_ABSOLUTE */
    /* of a stream entry: */
    EMBER_STREAM_NUMBER = 0, /* required: a count */
    EMBER_STREAM_VALUE = 1 /* required: any value */
};

/* The commands of Glow; another number is read and written too. */
enum ember_command_number {
    EMBER_SUBSCRIBE = 30,
    EMBER_UNSUBSCRIBE = 31,
    EMBER_GET_DIRECTORY = 32
};

/* The type in a cell's first word is a universal tag number; its other two words follow. A part of the message that is
 * named by start and length lies in the message. */
enum ember_value_type {
    EMBER_TYPE_ABSENT = 0, /* no such member; 0, 0 */
    EMBER_TYPE_BOOLEAN = 1, /* 1 for true, 0 for false; 0 */
    EMBER_TYPE_INTEGER = 2, /* 64 bits in two's complement; 0 */
    EMBER_TYPE_OCTETS = 4, /* start and length in the message */
    EMBER_TYPE_REAL = 9, /* the 64 bits of the double; 0 */
    EMBER_TYPE_TEXT = 12, /* start and length in the message; the sender's UTF-8, which is not checked */
    EMBER_TYPE_RELATIVE_OID = 13 /* a path or sources: start and length of its octets in the message */
};

/* The answer of ember_read, three words. Where a word says nothing it is 0.
 *   0: the place of a refusal, 30 to 37: a position in the message, or its length
 *   1: how many entries were read, or for EMBER_NO_ROOM how many the message has
 *   2: after EMBER_DONE, what Root holds: EMBER_ELEMENTS or EMBER_STREAMS */
#define EMBER_READ_WORDS 3
#define EMBER_PLACE 0
#define EMBER_COUNT 1
#define EMBER_ROOT 2
enum ember_root {
    EMBER_ELEMENTS = 0,
    EMBER_STREAMS = 3
};

/* Reads a message into the table's rows. EMBER_DONE, 30 to 38, or EMBER_SETUP if table_rows is over 256, message_bytes over
 * 16,384 or answer_words not 3.
 * Never changes the table unless it answers EMBER_DONE, and then no row past the count. */
uint64_t ember_read(const uint8_t *message, size_t message_bytes, uint64_t (*table)[EMBER_ROW_WORDS], size_t table_rows,
                    uint64_t *answer, size_t answer_words);

/* The answer of ember_write, one word: the length of the message that was written; 0 after EMBER_NO_OUT. */
#define EMBER_WRITE_WORDS 1

/* Writes the message of the table's first `count` rows, as ember_read leaves them or made by hand (ember_begin and so on, in
 * ember_entries.h; a table that is not const goes in as ember_rows(table)); texts, octets, paths and sources are parts of
 * `parts`: the message that the rows were read from, or an arena's bytes; `root` is EMBER_ELEMENTS or EMBER_STREAMS. Definite
 * shortest lengths, ascending tags, no absent member and no empty collection; read back as the same tree. EMBER_NO_OUT if out is
 * too short, the message would be over 16,384 bytes or ember_accepts gives 0 (ember_why says why); EMBER_SETUP if answer_words is
 * not 1.
 * Never writes a part of a message. */
uint64_t ember_write(const uint64_t (*table)[EMBER_ROW_WORDS], size_t table_rows, size_t count, uint64_t root,
                     const uint8_t *parts, size_t parts_bytes, uint8_t *out, size_t out_bytes, uint64_t *answer,
                     size_t answer_words);

/* 1 if the table's first `count` rows make a tree that the reader accepts: some message of at most 16,384 bytes is read as
 * exactly these entries; else 0.
 * Never changes anything. */
uint64_t ember_accepts(const uint64_t (*table)[EMBER_ROW_WORDS], size_t table_rows, size_t count, uint64_t root,
                       const uint8_t *parts, size_t parts_bytes);

/* ---- The desk: figures, a path and crosspoints, all of them the caller's */

/* The figures, seven words:
 *   0: the type: EMBER_ONE_TO_N (a target has one source at most), EMBER_ONE_TO_ONE (and a source one target) or EMBER_N_TO_N
 *   1, 2: how many targets and how many sources, 1 to 64 each; both are numbered from 0
 *   3, 4: 1 and the most connections in total, or 0 and 0 if no such limit is given
 *   5, 6: 1 and the most sources of a target, or 0 and 0 if no such limit is given
 * Limits are 1 to 2,147,483,647; only EMBER_N_TO_N heeds them. */
#define EMBER_FIGURES_WORDS 7
#define EMBER_FIGURES_TYPE 0
#define EMBER_FIGURES_TARGETS 1
#define EMBER_FIGURES_SOURCES 2
#define EMBER_FIGURES_HAS_TOTAL 3
#define EMBER_FIGURES_TOTAL 4
#define EMBER_FIGURES_HAS_EACH 5
#define EMBER_FIGURES_EACH 6
enum ember_matrix_type {
    EMBER_ONE_TO_N = 0,
    EMBER_ONE_TO_ONE = 1,
    EMBER_N_TO_N = 2
};
#define EMBER_SIDE_MAX 64

/* The path of the desk's matrix: 1 to 16 words, each 1 to 2,147,483,647. */
#define EMBER_PATH_MAX 16

/* The crosspoints: a byte for each target and source and no other, as many as ember_desk_size says, at most EMBER_CROSSPOINTS. That of
 * target t and source s is at t times the count of sources + s: EMBER_CROSSPOINT(figures, t, s). It is 1 if they are connected, else 0. */
#define EMBER_CROSSPOINTS (EMBER_SIDE_MAX * EMBER_SIDE_MAX)
#define EMBER_CROSSPOINT(figures, target, source) ((size_t)(target) * (size_t)(figures)[EMBER_FIGURES_SOURCES] + (size_t)(source))

/* The operations: the target's sources become the list, are joined by it, lose it. But in EMBER_ONE_TO_N and EMBER_ONE_TO_ONE
 * EMBER_CONNECT with one source takes the place of the target's source, EMBER_ABSOLUTE or EMBER_CONNECT with more is EMBER_BAD_MANY,
 * and in EMBER_ONE_TO_ONE the source is taken from every other target. */
enum ember_operation {
    EMBER_ABSOLUTE = 0,
    EMBER_CONNECT = 1,
    EMBER_DISCONNECT = 2
};

/* How many crosspoints a desk with these figures has: targets times sources, 1 to EMBER_CROSSPOINTS. Every call on a desk is lent exactly
 * these. 0 if the figures are none (EMBER_SETUP of ember_desk_open) or out of their ranges (EMBER_BAD_DESK).
 * Never changes anything. */
uint64_t ember_desk_size(const uint64_t *figures, size_t figures_words);

/* Opens a desk: clears its crosspoints. EMBER_DONE; EMBER_BAD_DESK if figures, mode (0 is the only one) or path are out of their
 * ranges; EMBER_SETUP if figures_words is not 7, a limit is neither 0 and 0 nor 1 and a number, or, for figures in their ranges,
 * crosspoint_bytes is not as ember_desk_size says.
 * Never changes a crosspoint unless it answers EMBER_DONE. */
uint64_t ember_desk_open(const uint64_t *figures, size_t figures_words, uint64_t mode, const uint64_t *path,
                         size_t path_words, uint8_t *crosspoints, size_t crosspoint_bytes);

/* 1 if a desk is legal: its figures and path could be opened, and its crosspoints are as many as ember_desk_size says and fit its
 * counts, type and limits; else 0.
 * Never changes anything. */
uint64_t ember_desk_is_legal(const uint64_t *figures, size_t figures_words, const uint64_t *path, size_t path_words,
                             const uint8_t *crosspoints, size_t crosspoint_bytes);

/* Asks for one target: `operation` with a list of sources, which may be empty or name one twice. EMBER_DONE and the crosspoints
 * as asked for; EMBER_NO_TARGET, EMBER_NO_SOURCE, EMBER_BAD_MANY or EMBER_BAD_TOTAL; EMBER_SETUP if the desk is not legal, its path left out
 * of account, or the operation over 2.
 * Never changes a crosspoint unless it answers EMBER_DONE, and never leaves a legal desk illegal. */
uint64_t ember_desk_request(const uint64_t *figures, size_t figures_words, uint64_t target, const uint64_t *sources,
                            size_t sources_words, uint64_t operation, uint8_t *crosspoints, size_t crosspoint_bytes);

/* The answer of ember_desk_call, one word: how many answers there are, one for each connection. */
#define EMBER_CALL_WORDS 1

/* The answers to connections: always 256 bytes, enough for every message. Those that were given, in order, then zeros. */
#define EMBER_ANSWERS_MAX 256

/* Serves a message: takes the connections among the table's first `count` rows in order, and puts EMBER_DONE or 40 to 44 for
 * each into `answers`, one for each, also after a refused one. EMBER_DONE; EMBER_SETUP if table_rows is over 256, message_bytes
 * over 16,384, the figures are none, the desk is not legal, the rows make no tree that the reader accepts, or answer_words is not 1.
 * Never changes anything if it answers EMBER_SETUP, nor a crosspoint for a connection that is refused. */
uint64_t ember_desk_call(const uint64_t *figures, size_t figures_words, const uint64_t *path, size_t path_words,
                         const uint64_t (*table)[EMBER_ROW_WORDS], size_t table_rows, size_t count, uint64_t root,
                         const uint8_t *message, size_t message_bytes, uint8_t *crosspoints, size_t crosspoint_bytes,
                         uint8_t answers[EMBER_ANSWERS_MAX], uint64_t *answer, size_t answer_words);

/* ---- A whole turn */

/* The answer of ember_turn, nine words: those of ember_feed, and after EMBER_MESSAGE, where a word says nothing it is 0:
 *   3: the tree reader's number: EMBER_DONE or 30 to 38
 *   4: the place of a refusal, 30 to 37
 *   5: how many entries were read, or for EMBER_NO_ROOM how many the message has
 *   6: after EMBER_DONE, what Root holds
 *   7: after EMBER_DONE, the desk's number: EMBER_DONE, or EMBER_SETUP if the desk is not legal
 *   8: how many answers there are, one for each connection of the message */
#define EMBER_TURN_WORDS 9
#define EMBER_TURN_TREE 3
#define EMBER_TURN_PLACE 4
#define EMBER_TURN_COUNT 5
#define EMBER_TURN_ROOT 6
#define EMBER_TURN_DESK 7
#define EMBER_TURN_ANSWERS 8

/* Takes a turn: the session's call on a chunk; if it gives EMBER_MESSAGE, the tree reader's call on that message; if that gives
 * EMBER_DONE, the desk's call on those entries. Answers the event's number, 2 to 24, or EMBER_DONE; offer the rest of the chunk
 * again. EMBER_SETUP for what ember_feed refuses, figures that are none, a table over 256 rows, path_words not 1 to 16,
 * crosspoint_bytes not as ember_desk_size says, or answer_words not 9: nothing was consumed or changed then. Else `answers` are
 * those of this turn, all zeros where the desk was not called.
 * Over any calls on one line and one legal desk with one count of table_rows, refused ones among them, on whatever chunks: what they
 * tell is what the rules of framing, tree and desk tell for the bytes consumed, each event once and in order, and what they keep is
 * what the rules keep.
 * Never changes table or crosspoints at any event but EMBER_MESSAGE, nor then unless the tree reader gives EMBER_DONE. */
uint64_t ember_turn(uint64_t *session, size_t session_words, uint8_t *store, size_t store_bytes, const uint8_t *chunk,
                    size_t chunk_bytes, uint64_t (*table)[EMBER_ROW_WORDS], size_t table_rows, const uint64_t *figures,
                    size_t figures_words, const uint64_t *path, size_t path_words, uint8_t *crosspoints,
                    size_t crosspoint_bytes, uint8_t answers[EMBER_ANSWERS_MAX], uint64_t *answer, size_t answer_words);

/* ---- Route sheets: a desk as text, hexadecimal lines, a frame each */

/* Bytes that always hold a sheet. */
#define EMBER_SHEET_MAX 25000

/* The answer of ember_sheet_write, one word: the length of the sheet; 0 after EMBER_NO_OUT. Of ember_sheet_read, one word: how many numbers
 * the desk's path has; 0 after a refusal. */
#define EMBER_SHEET_WORDS 1

/* Writes a legal desk's sheet: one message with the qualified matrix, its figures and every target's sources. EMBER_NO_OUT if out is too
 * short; EMBER_SETUP if the figures are none, the desk is not legal or answer_words is not 1.
 * Never writes a part of a sheet. */
uint64_t ember_sheet_write(const uint64_t *figures, size_t figures_words, const uint64_t *path, size_t path_words,
                           const uint8_t *crosspoints, size_t crosspoint_bytes, uint8_t *out, size_t out_bytes,
                           uint64_t *answer, size_t answer_words);

/* Reads a sheet of any length: EMBER_DONE, and figures, path and crosspoints are those of its desk, which is legal: the first of the lent
 * crosspoints, as many as ember_desk_size says of these figures, the others as they were; or the first refusal:
 * EMBER_BAD_BYTE for a bad line, 10 to 24, EMBER_BAD_GLOW unless it is one message of one qualified matrix and its connections, 30 to 38,
 * 41 to 45. ember_sheet_line (ember_line.h) says at which line, and which spellings are read. EMBER_SETUP if store_bytes is not 17,408,
 * figures_words not 7, path_words not 16, crosspoint_bytes not EMBER_CROSSPOINTS or answer_words not 1. The store is as it was after EMBER_SETUP and
 * a bad line; else as ember_feed leaves it that is fed the sheet's bytes, up to and including that of the first event from 10 up, or all
 * of them: a line's own store is not lent to it, then.
 * Never changes figures, path or crosspoints unless it answers EMBER_DONE. */
uint64_t ember_sheet_read(const uint8_t *text, size_t text_bytes, uint8_t *store, size_t store_bytes, uint64_t *figures,
                          size_t figures_words, uint64_t *path, size_t path_words, uint8_t *crosspoints,
                          size_t crosspoint_bytes, uint64_t *answer, size_t answer_words);

/* ---- The version of the installed library: 100 times major, and minor; EMBER_VERSION_NUMBER is this header's.
 * Never there in target/staticlib/libember.a: `make install` puts it in. */
#define EMBER_VERSION_NUMBER (100 * EMBER_VERSION_MAJOR + EMBER_VERSION_MINOR)
uint64_t ember_version(void);

#if defined __GNUC__ && !defined EMBER_VISIBLE
#pragma GCC visibility pop
#endif

#ifdef __cplusplus
}
#endif

#include "ember_names.h"
#include "ember_entries.h"
#include "ember_why.h"
#include "ember_line.h"

#endif
