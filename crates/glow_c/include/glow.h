/* The Glow tree for C: reads a message into the rows of a lent table, and writes the message of such rows.
 *
 * Link libglow_c.a, which `make target/staticlib/libglow_c.a` proves and builds (x86-64 Linux). The library keeps nothing between
 * calls, allocates nothing and calls nothing but memset: all memory is lent by the caller. A call is proved for every
 * message, every length and every content of the table, and always ends; it cannot test a pointer. So a pointer and its
 * count name memory of the caller's that is as long as the count says, aligned for its type, and shared by no other
 * argument of the call that is written to; where the count is 0 the pointer may be anything. */
#ifndef GLOW_H
#define GLOW_H

#include <stddef.h>
#include <stdint.h>

#ifdef __cplusplus
extern "C" {
#endif

/* The longest message in bytes, and the longest table in rows. The table needs no clearing. */
#define GLOW_MESSAGE_MAX 16384
#define GLOW_ROWS_MAX 256

/* An entry is a row of fifty words, one for each element, connection and stream entry, in message order:
 *   0: its kind
 *   1: its parent's place in the table and 1; 0 if it has none
 *   2 + 3c, 3 + 3c, 4 + 3c: cell c, for c from 0 to 15: the type of a member's value, and two words of content
 * Of an element, cell 0 is its number or path, and cell n + 1 is the member with context number n of its contents. Of a
 * command, a connection and a stream entry, cell n is the member with context number n. Every other cell is absent. */
#define GLOW_ROW_WORDS 50
#define GLOW_KIND 0
#define GLOW_PARENT 1
#define GLOW_CELLS 2
#define GLOW_CELL_WORDS 3

/* The kinds, and their cells. Contents of a parameter: 1 identifier, 2 description, 3 value, 4 minimum, 5 maximum,
 * 6 access, 9 factor, 10 online, 12 step, 15 stream. Of a node: 1 identifier, 2 description, 3 root, 4 online. Of a
 * matrix: 1 identifier, 2 description, 3 type, 4 mode, 5 targets, 6 sources, 7 total limit, 8 limit per target. */
#define GLOW_PARAMETER 1           /* 0 number, and contents */
#define GLOW_COMMAND 2             /* 0 number, 1 mask */
#define GLOW_NODE 3                /* 0 number, and contents */
#define GLOW_MATRIX 4              /* 0 number, and contents */
#define GLOW_QUALIFIED_PARAMETER 5 /* 0 path, and contents */
#define GLOW_QUALIFIED_NODE 6      /* 0 path, and contents */
#define GLOW_QUALIFIED_MATRIX 7    /* 0 path, and contents */
#define GLOW_CONNECTION 8          /* 0 target, 1 sources, 2 operation */
#define GLOW_STREAM_ENTRY 9        /* 0 stream, 1 value */

/* The type in a cell's first word is a universal tag number; its other two words follow. A part of the message that is
 * named by start and length lies in the message. */
#define GLOW_TYPE_ABSENT 0        /* no such member; 0, 0 */
#define GLOW_TYPE_BOOLEAN 1       /* 1 for true, 0 for false; 0 */
#define GLOW_TYPE_INTEGER 2       /* 64 bits in two's complement; 0 */
#define GLOW_TYPE_OCTETS 4        /* start and length in the message */
#define GLOW_TYPE_REAL 9          /* the 64 bits of the double; 0 */
#define GLOW_TYPE_TEXT 12         /* start and length in the message */
#define GLOW_TYPE_RELATIVE_OID 13 /* a path or sources: start and length of its octets in the message */

/* The answer, three words. Where a word says nothing it is 0.
 *   0: the place of a refusal, 30 to 37: a position in the message, or its length
 *   1: how many entries were read, or for GLOW_NO_ROOM how many the message has
 *   2: after GLOW_DONE, what Root holds: GLOW_ELEMENTS or GLOW_STREAMS */
#define GLOW_ANSWER_WORDS 3
#define GLOW_PLACE 0
#define GLOW_COUNT 1
#define GLOW_ROOT 2
#define GLOW_ELEMENTS 0
#define GLOW_STREAMS 3

/* The numbers answered, as document 01 has them (ember.h says the place of each). */
enum glow_answer {
    GLOW_DONE = 0, /* read: the table's first rows are the entries */
    GLOW_SETUP = 1, /* a table over 256 rows, a message over 16,384 bytes, or an answer of other than three words */
    GLOW_BAD_BER = 30, /* bad tag, length or value octets, a tag 00 that ends nothing, bytes run out or left after Root */
    GLOW_BAD_FORM = 31, /* an outer tag and its value, one definite and one indefinite */
    GLOW_BAD_DEPTH = 32, /* a 65th container open at once */
    GLOW_BAD_GLOW = 33, /* a tag unexpected, repeated or out of order, a member or value missing */
    GLOW_BAD_NUMBER = 34, /* a number out of its range */
    GLOW_BAD_REAL = 35, /* a real that is not accepted */
    GLOW_BAD_NAME = 36, /* an identifier against its rule */
    GLOW_BAD_PATH = 37, /* a path that is empty, over 16 numbers (parents counted) or has a number out of range */
    GLOW_NO_ROOM = 38, /* the message is right, the table too small */
    GLOW_NO_OUT = 46 /* writer: the output is too short, or the rows make no tree that the reader accepts in 16,384 bytes */
};

/* Reads a message into the table's rows. GLOW_DONE, 30 to 38, or GLOW_SETUP, which leaves the answer's words too.
 * Never changes the table unless it answers GLOW_DONE, and then no row past the count. */
uint64_t glow_read(const uint8_t *message, size_t message_bytes, uint64_t (*table)[GLOW_ROW_WORDS], size_t table_rows,
                   uint64_t *answer, size_t answer_words);

/* Writing. The rows are as glow_read leaves them, or made by hand: the same kinds, cells and types; texts, octets, paths
 * and sources are parts of `parts`, which may be any bytes. `root` is GLOW_ELEMENTS or GLOW_STREAMS. The answer is one
 * word, the length of the message that was written; 0 after GLOW_NO_OUT. */
#define GLOW_WRITE_WORDS 1

/* Writes the message of the table's first `count` rows: definite shortest lengths, ascending tags, no absent member and no
 * empty collection. What is written is read back as the same tree. Output past the message stays as it was. GLOW_NO_OUT leaves
 * the whole output as it was; GLOW_SETUP, for an answer of other than one word, leaves the answer too.
 * Never writes a part of a message. */
uint64_t glow_write(const uint64_t (*table)[GLOW_ROW_WORDS], size_t table_rows, size_t count, uint64_t root,
                    const uint8_t *parts, size_t parts_bytes, uint8_t *out, size_t out_bytes, uint64_t *answer,
                    size_t answer_words);

/* 1 if the table's first `count` rows make a tree that the reader accepts: some message of at most 16,384 bytes is read as
 * exactly these entries; else 0.
 * Never changes anything. */
uint64_t glow_accepts(const uint64_t (*table)[GLOW_ROW_WORDS], size_t table_rows, size_t count, uint64_t root,
                      const uint8_t *parts, size_t parts_bytes);

#ifdef __cplusplus
}
#endif

#endif
