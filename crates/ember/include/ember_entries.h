/* Entries for people: what a row of ember.h says, and rows made by hand. Plain C99 and C++; ember.h takes it in, and it ember.h.
 *
 * A row is `table[i]`, i under the count; a member is one of the cells that ember.h names (EMBER_PARAMETER_VALUE and so on);
 * the message is the one the table was read from, as long as it is there. No function here allocates or keeps anything,
 * and none reads past the row or the message: each tests what it uses. */
#include "ember.h"

#ifndef EMBER_ENTRIES_H
#define EMBER_ENTRIES_H

#include <stddef.h>
#include <stdint.h>
#include <string.h>

#ifdef __cplusplus
extern "C" {
#endif

/* ---- What an entry is */

/* The entry's kind, one of EMBER_KIND_*.
 * Never looks at its members. */
static inline uint64_t ember_kind(const uint64_t *row)
{
    return row[EMBER_ROW_KIND];
}

/* 1 if the entry stands in another one, whose place is then ember_parent; else 0.
 * Never says so of an entry that stands in Root. */
static inline int ember_has_parent(const uint64_t *row)
{
    return row[EMBER_ROW_PARENT] != 0;
}

/* The place in the table of the entry that this one stands in; 0 too if it stands in Root.
 * Never looks at that entry. */
static inline size_t ember_parent(const uint64_t *row)
{
    return row[EMBER_ROW_PARENT] == 0 ? 0 : (size_t)(row[EMBER_ROW_PARENT] - 1);
}

/* 1 if the entry has a full path in place of a number; else 0.
 * Never says so of an entry that is no element. */
static inline int ember_is_qualified(const uint64_t *row)
{
    return row[EMBER_ROW_KIND] >= EMBER_KIND_QUALIFIED_PARAMETER && row[EMBER_ROW_KIND] <= EMBER_KIND_QUALIFIED_MATRIX;
}

/* 1 if the entry is a parameter, qualified or not; else 0.
 * Never looks at its members. */
static inline int ember_is_parameter(const uint64_t *row)
{
    return row[EMBER_ROW_KIND] == EMBER_KIND_PARAMETER || row[EMBER_ROW_KIND] == EMBER_KIND_QUALIFIED_PARAMETER;
}

/* 1 if the entry is a node, qualified or not; else 0.
 * Never looks at its members. */
static inline int ember_is_node(const uint64_t *row)
{
    return row[EMBER_ROW_KIND] == EMBER_KIND_NODE || row[EMBER_ROW_KIND] == EMBER_KIND_QUALIFIED_NODE;
}

/* 1 if the entry is a matrix, qualified or not; else 0.
 * Never looks at its members. */
static inline int ember_is_matrix(const uint64_t *row)
{
    return row[EMBER_ROW_KIND] == EMBER_KIND_MATRIX || row[EMBER_ROW_KIND] == EMBER_KIND_QUALIFIED_MATRIX;
}

/* ---- What a member is. Each answers 1 if it is there and of that type, and 0, with nothing changed, if not */

/* The type of a member's value, one of EMBER_TYPE_*; EMBER_TYPE_ABSENT if it was not sent.
 * Never looks at its content. */
static inline uint64_t ember_type(const uint64_t *row, size_t member)
{
    return member < 16 ? row[EMBER_ROW_CELLS + EMBER_CELL_WORDS * member] : (uint64_t)EMBER_TYPE_ABSENT;
}

/* 1 if a member was sent; else 0.
 * Never asks of which type it is. */
static inline int ember_has(const uint64_t *row, size_t member)
{
    return ember_type(row, member) != EMBER_TYPE_ABSENT;
}

/* An integer.
 * Never converts a real or a boolean. */
static inline int ember_integer(const uint64_t *row, size_t member, int64_t *value)
{
    if (ember_type(row, member) != EMBER_TYPE_INTEGER)
        return 0;
    memcpy(value, &row[EMBER_ROW_CELLS + EMBER_CELL_WORDS * member + 1], sizeof *value);
    return 1;
}

/* A real.
 * Never converts an integer, and never rounds. */
static inline int ember_real(const uint64_t *row, size_t member, double *value)
{
    if (ember_type(row, member) != EMBER_TYPE_REAL)
        return 0;
    memcpy(value, &row[EMBER_ROW_CELLS + EMBER_CELL_WORDS * member + 1], sizeof *value);
    return 1;
}

/* A boolean, as 1 or 0.
 * Never converts a number. */
static inline int ember_boolean(const uint64_t *row, size_t member, int *value)
{
    if (ember_type(row, member) != EMBER_TYPE_BOOLEAN)
        return 0;
    *value = row[EMBER_ROW_CELLS + EMBER_CELL_WORDS * member + 1] != 0;
    return 1;
}

/* The bytes of a member of that type, EMBER_TYPE_TEXT, EMBER_TYPE_OCTETS or EMBER_TYPE_RELATIVE_OID: a part of the message.
 * Never gives a part that does not lie in the message. */
static inline int ember_bytes(const uint64_t *row, size_t member, uint64_t type, const uint8_t *message,
                              size_t message_bytes, const uint8_t **bytes, size_t *count)
{
    uint64_t start, length;
    if (type != EMBER_TYPE_TEXT && type != EMBER_TYPE_OCTETS && type != EMBER_TYPE_RELATIVE_OID)
        return 0;
    if (ember_type(row, member) != type)
        return 0;
    start = row[EMBER_ROW_CELLS + EMBER_CELL_WORDS * member + 1];
    length = row[EMBER_ROW_CELLS + EMBER_CELL_WORDS * member + 2];
    if (length > message_bytes || start > message_bytes - length)
        return 0;
    *bytes = length == 0 ? message : message + start;
    *count = (size_t)length;
    return 1;
}

/* A text as it was sent, with no 0 after it; the sender's UTF-8, which is not checked, and which may hold a 0.
 * Never copies it. */
static inline int ember_text(const uint64_t *row, size_t member, const uint8_t *message, size_t message_bytes,
                             const char **text, size_t *count)
{
    const uint8_t *bytes;
    if (!ember_bytes(row, member, EMBER_TYPE_TEXT, message, message_bytes, &bytes, count))
        return 0;
    *text = (const char *)bytes;
    return 1;
}

/* Octets.
 * Never copies them. */
static inline int ember_octets(const uint64_t *row, size_t member, const uint8_t *message, size_t message_bytes,
                               const uint8_t **bytes, size_t *count)
{
    return ember_bytes(row, member, EMBER_TYPE_OCTETS, message, message_bytes, bytes, count);
}

/* The numbers of a path or of sources, none if the member is absent: puts the first `max` of them into numbers and answers
 * how many there are.
 * Never puts more than max; if it answers more, there was no room for the others. */
static inline size_t ember_numbers(const uint64_t *row, size_t member, const uint8_t *message, size_t message_bytes,
                                   uint64_t *numbers, size_t max)
{
    const uint8_t *bytes;
    size_t count, i, found = 0;
    uint64_t number = 0;
    if (!ember_bytes(row, member, EMBER_TYPE_RELATIVE_OID, message, message_bytes, &bytes, &count))
        return 0;
    for (i = 0; i < count; i++) {
        number = number << 7 | (bytes[i] & 0x7f);
        if (bytes[i] < 0x80) {
            if (found < max)
                numbers[found] = number;
            found++;
            number = 0;
        }
    }
    return found;
}

/* An element's own number, 1 to 2,147,483,647: of a qualified one the last of its path. 0 if it has none.
 * Never looks at its parents. */
static inline uint64_t ember_number(const uint64_t *row, const uint8_t *message, size_t message_bytes)
{
    uint64_t path[EMBER_PATH_MAX];
    int64_t number;
    size_t count;
    if (ember_integer(row, EMBER_NUMBER_OR_PATH, &number))
        return number > 0 ? (uint64_t)number : 0;
    count = ember_numbers(row, EMBER_NUMBER_OR_PATH, message, message_bytes, path, EMBER_PATH_MAX);
    return count == 0 || count > EMBER_PATH_MAX ? 0 : path[count - 1];
}

/* The full path of the element at a place of the table's first `count` rows: its numbers into path, which has
 * EMBER_PATH_MAX words, and how many there are, 1 to 16; 0 if the entry is no element or the rows make no such path.
 * Never goes up more than sixteen parents, whatever the rows say. */
static inline size_t ember_path(const uint64_t (*table)[EMBER_ROW_WORDS], size_t count, size_t place,
                                const uint8_t *message, size_t message_bytes, uint64_t *path)
{
    uint64_t own[EMBER_PATH_MAX], front[EMBER_PATH_MAX];
    size_t above = 0, fronts = 0, i;
    int64_t number;
    for (;;) {
        const uint64_t *row;
        if (place >= count)
            return 0;
        row = table[place];
        if (ember_is_qualified(row)) {
            fronts = ember_numbers(row, EMBER_NUMBER_OR_PATH, message, message_bytes, front, EMBER_PATH_MAX);
            if (fronts == 0 || fronts + above > EMBER_PATH_MAX)
                return 0;
            break;
        }
        if (!ember_is_parameter(row) && !ember_is_node(row) && !ember_is_matrix(row))
            return 0;
        if (above == EMBER_PATH_MAX || !ember_integer(row, EMBER_NUMBER_OR_PATH, &number) || number < 1)
            return 0;
        own[above++] = (uint64_t)number;
        if (!ember_has_parent(row))
            break;
        place = ember_parent(row);
    }
    for (i = 0; i < fronts; i++)
        path[i] = front[i];
    for (i = 0; i < above; i++)
        path[fronts + i] = own[above - 1 - i];
    return fronts + above;
}

/* ---- A member's value, or another where it is absent or of another type */

/* An integer, or `otherwise`.
 * Never converts a real or a boolean. */
static inline int64_t ember_integer_or(const uint64_t *row, size_t member, int64_t otherwise)
{
    ember_integer(row, member, &otherwise);
    return otherwise;
}

/* A real, or `otherwise`.
 * Never converts an integer. */
static inline double ember_real_or(const uint64_t *row, size_t member, double otherwise)
{
    ember_real(row, member, &otherwise);
    return otherwise;
}

/* A boolean, or `otherwise`.
 * Never converts a number. */
static inline int ember_boolean_or(const uint64_t *row, size_t member, int otherwise)
{
    ember_boolean(row, member, &otherwise);
    return otherwise;
}

/* A text and how many bytes it has, or `otherwise`, which ends in a 0, and its length.
 * Never puts a 0 after a text that was sent: print it with "%.*s". */
static inline const char *ember_text_or(const uint64_t *row, size_t member, const uint8_t *message, size_t message_bytes,
                                        const char *otherwise, size_t *count)
{
    const char *text;
    if (ember_text(row, member, message, message_bytes, &text, count))
        return text;
    *count = strlen(otherwise);
    return otherwise;
}

/* The numbers of a path or of sources, one after another:
 *     struct ember_iterator it = ember_iterate(row, EMBER_CONNECTION_SOURCES, message, message_bytes);
 *     while (ember_next(&it, &source)) .. */
struct ember_iterator {
    const uint8_t *next;
    size_t left;
};

/* Begins with the first number; there is none if the member is absent.
 * Never copies them: the message stays as long as the iterator is asked. */
static inline struct ember_iterator ember_iterate(const uint64_t *row, size_t member, const uint8_t *message, size_t message_bytes)
{
    struct ember_iterator it;
    it.next = message;
    it.left = 0;
    ember_bytes(row, member, EMBER_TYPE_RELATIVE_OID, message, message_bytes, &it.next, &it.left);
    return it;
}

/* Gives the next number and 1; or 0, with *number as it was, after the last.
 * Never reads past the member. */
static inline int ember_next(struct ember_iterator *it, uint64_t *number)
{
    uint64_t next = 0;
    while (it->left > 0) {
        uint8_t octet = *it->next++;
        it->left--;
        next = next << 7 | (octet & 0x7f);
        if (octet < 0x80) {
            *number = next;
            return 1;
        }
    }
    return 0;
}

/* How many entries the one at a place stands in: 0 in Root.
 * Never more than count, whatever the rows say. */
static inline size_t ember_depth(const uint64_t (*table)[EMBER_ROW_WORDS], size_t count, size_t place)
{
    size_t depth = 0;
    while (place < count && depth < count && ember_has_parent(table[place])) {
        place = ember_parent(table[place]);
        depth++;
    }
    return depth;
}

/* The place of the connection that answer i is for, i from 0: answers of ember_turn and ember_desk_call are one for each connection.
 * Never past count: that is the answer if there is no such connection. */
static inline size_t ember_answered(const uint64_t (*table)[EMBER_ROW_WORDS], size_t count, size_t i)
{
    size_t place;
    for (place = 0; place < count; place++)
        if (ember_kind(table[place]) == EMBER_KIND_CONNECTION && i-- == 0)
            break;
    return place;
}

/* A row as a struct, which C and C++ copy: `struct ember_entry kept = ember_keep(table[i]);`, then kept.row as any other row.
 * Never copies its texts, octets, paths and sources: they stay parts of the message. */
struct ember_entry {
    ember_row row;
};

static inline struct ember_entry ember_keep(const uint64_t *row)
{
    struct ember_entry entry;
    memcpy(entry.row, row, sizeof entry.row);
    return entry;
}

/* ---- Rows made by hand, for ember_write and ember_frames: each entry, then all that stands in it, then the next beside it. Whether
 * they make a tree is ember_accepts' to say, and why they do not ember_why's (ember_why.h) */

/* What an entry stands in: Root, or the entry at a place of the rows. */
#define EMBER_IN_ROOT ((uint64_t)0)
#define EMBER_IN(place) ((uint64_t)(place) + 1)

/* Begins an entry: its kind, and what it stands in, EMBER_IN_ROOT or EMBER_IN(place); every member absent.
 * Never leaves a word of the row as it was. */
static inline void ember_begin(uint64_t *row, uint64_t kind, uint64_t in)
{
    size_t i;
    for (i = 0; i < EMBER_ROW_WORDS; i++)
        row[i] = 0;
    row[EMBER_ROW_KIND] = kind;
    row[EMBER_ROW_PARENT] = in;
}

/* Puts a member's type and its two words.
 * Never writes past the row: a member over 15 is left out. */
static inline void ember_put(uint64_t *row, size_t member, uint64_t type, uint64_t first, uint64_t second)
{
    if (member < 16) {
        row[EMBER_ROW_CELLS + EMBER_CELL_WORDS * member] = type;
        row[EMBER_ROW_CELLS + EMBER_CELL_WORDS * member + 1] = first;
        row[EMBER_ROW_CELLS + EMBER_CELL_WORDS * member + 2] = second;
    }
}

/* Puts an integer.
 * Never asks whether it is in its range. */
static inline void ember_put_integer(uint64_t *row, size_t member, int64_t value)
{
    ember_put(row, member, EMBER_TYPE_INTEGER, (uint64_t)value, 0);
}

/* Puts a real and answers 1: minus zero as zero, since Glow has no minus zero here; NaN, which it has not either, leaves the member
 * absent, and answers 0.
 * Never rounds it. */
static inline int ember_put_real(uint64_t *row, size_t member, double value)
{
    uint64_t bits = 0;
    if (value != value) {
        ember_put(row, member, EMBER_TYPE_ABSENT, 0, 0);
        return 0;
    }
    if (value != 0)
        memcpy(&bits, &value, sizeof bits);
    ember_put(row, member, EMBER_TYPE_REAL, bits, 0);
    return 1;
}

/* Puts a boolean.
 * Never keeps more of it than 1 or 0. */
static inline void ember_put_boolean(uint64_t *row, size_t member, int value)
{
    ember_put(row, member, EMBER_TYPE_BOOLEAN, value != 0, 0);
}

/* Puts a text (EMBER_TYPE_TEXT), octets (EMBER_TYPE_OCTETS), a path or sources (EMBER_TYPE_RELATIVE_OID) that stand at `start`
 * in the parts that ember_write is given. With an arena, below, nobody counts starts.
 * Never copies them. */
static inline void ember_put_bytes(uint64_t *row, size_t member, uint64_t type, size_t start, size_t length)
{
    ember_put(row, member, type, start, length);
}

/* Encodes the numbers of a path or of sources at `*at` of out, and moves *at past them. 1; or 0, with *at as it was, if out
 * is too short or a number over 2,147,483,647.
 * Never writes past out. */
static inline int ember_encode(const uint64_t *numbers, size_t count, uint8_t *out, size_t out_bytes, size_t *at)
{
    size_t next = *at, i;
    for (i = 0; i < count; i++) {
        int shift = 28;
        if (numbers[i] > 2147483647u)
            return 0;
        while (shift > 0 && numbers[i] >> shift == 0)
            shift -= 7;
        for (; shift >= 0; shift -= 7) {
            if (next >= out_bytes)
                return 0;
            out[next++] = (uint8_t)((numbers[i] >> shift & 0x7f) | (shift > 0 ? 0x80 : 0));
        }
    }
    *at = next;
    return 1;
}

/* ---- An arena: memory of the caller's for the texts, octets, paths and sources of rows made by hand. What it holds is the parts that
 * ember_write and ember_accepts are given: arena.bytes, arena.used. What could not be put is kept in `refused`, from the first on:
 * EMBER_NO_ROOM if it had no room, EMBER_BAD_NUMBER for a number over 2,147,483,647. So nobody needs to ask after each member:
 * ember_frames answers it */

struct ember_arena {
    uint8_t *bytes;
    size_t room, used;
    uint64_t refused;
};

/* An empty arena over lent bytes; 16,384, EMBER_MESSAGE_MAX, hold the parts of any message.
 * Never clears them. */
static inline struct ember_arena ember_arena_of(uint8_t *bytes, size_t room)
{
    struct ember_arena arena;
    arena.bytes = bytes;
    arena.room = room;
    arena.used = 0;
    arena.refused = EMBER_DONE;
    return arena;
}

/* Copies bytes into the arena and puts them as a member of that type: 1; or 0 and the member absent, if they have no room.
 * Never writes past the arena. */
static inline int ember_put_part(uint64_t *row, size_t member, uint64_t type, struct ember_arena *arena, const void *bytes, size_t count)
{
    if (count > arena->room - arena->used) {
        ember_put(row, member, EMBER_TYPE_ABSENT, 0, 0);
        if (arena->refused == EMBER_DONE)
            arena->refused = EMBER_NO_ROOM;
        return 0;
    }
    if (count > 0)
        memcpy(arena->bytes + arena->used, bytes, count);
    ember_put(row, member, type, arena->used, count);
    arena->used += count;
    return 1;
}

/* Puts a text, which ends in a 0 that is not sent: 1; or 0 and the member absent, if it has no room.
 * Never asks whether it is UTF-8, nor an identifier by its rule. */
static inline int ember_put_text(uint64_t *row, size_t member, struct ember_arena *arena, const char *text)
{
    return ember_put_part(row, member, EMBER_TYPE_TEXT, arena, text, strlen(text));
}

/* Puts octets: 1; or 0 and the member absent, if they have no room.
 * Never looks at them. */
static inline int ember_put_octets(uint64_t *row, size_t member, struct ember_arena *arena, const uint8_t *bytes, size_t count)
{
    return ember_put_part(row, member, EMBER_TYPE_OCTETS, arena, bytes, count);
}

/* Puts the numbers of a path or of sources: 1; or 0 and the member absent, if they have no room or one is over 2,147,483,647.
 * Never leaves the arena changed where it answers 0, but for `refused`. */
static inline int ember_put_numbers(uint64_t *row, size_t member, struct ember_arena *arena, const uint64_t *numbers, size_t count)
{
    size_t start = arena->used, i;
    if (!ember_encode(numbers, count, arena->bytes, arena->room, &arena->used)) {
        ember_put(row, member, EMBER_TYPE_ABSENT, 0, 0);
        for (i = 0; i < count && arena->refused == EMBER_DONE; i++)
            if (numbers[i] > 2147483647u)
                arena->refused = EMBER_BAD_NUMBER;
        if (arena->refused == EMBER_DONE)
            arena->refused = EMBER_NO_ROOM;
        return 0;
    }
    ember_put(row, member, EMBER_TYPE_RELATIVE_OID, start, arena->used - start);
    return 1;
}

/* A parameter, node or matrix with its number.
 * Never asks whether the kind has one: a qualified kind is ember_qualified's. */
static inline void ember_element(uint64_t *row, uint64_t kind, uint64_t in, uint64_t number)
{
    ember_begin(row, kind, in);
    ember_put(row, EMBER_NUMBER_OR_PATH, EMBER_TYPE_INTEGER, number, 0);
}

/* A qualified parameter, node or matrix with its full path, in Root: 1; or 0 if the path has no room.
 * Never asks whether the path is right. */
static inline int ember_qualified(uint64_t *row, uint64_t kind, struct ember_arena *arena, const uint64_t *path, size_t path_words)
{
    ember_begin(row, kind, EMBER_IN_ROOT);
    return ember_put_numbers(row, EMBER_NUMBER_OR_PATH, arena, path, path_words);
}

/* A command: EMBER_GET_DIRECTORY, EMBER_SUBSCRIBE or EMBER_UNSUBSCRIBE. In Root EMBER_GET_DIRECTORY asks for what stands there.
 * Never puts a mask: ember_put_integer(row, EMBER_COMMAND_MASK, ..) does. */
static inline void ember_command(uint64_t *row, uint64_t in, int64_t command)
{
    ember_begin(row, EMBER_KIND_COMMAND, in);
    ember_put_integer(row, EMBER_COMMAND_NUMBER, command);
}

/* A connection of the matrix that it stands in: its target, its sources, none if source_words is 0, and the operation, EMBER_ABSOLUTE
 * left out. 1; or 0 if the sources have no room or one is over 2,147,483,647.
 * Never asks whether the matrix has such a target or source. */
static inline int ember_connection(uint64_t *row, uint64_t in, struct ember_arena *arena, uint64_t target, const uint64_t *sources,
                                   size_t source_words, uint64_t operation)
{
    ember_begin(row, EMBER_KIND_CONNECTION, in);
    ember_put(row, EMBER_CONNECTION_TARGET, EMBER_TYPE_INTEGER, target, 0);
    if (operation != EMBER_ABSOLUTE)
        ember_put(row, EMBER_CONNECTION_OPERATION, EMBER_TYPE_INTEGER, operation, 0);
    return source_words == 0 || ember_put_numbers(row, EMBER_CONNECTION_SOURCES, arena, sources, source_words);
}

/* Writes rows and their arena as one message, in frames that can be sent: EMBER_DONE and *count, how many bytes; or, with out and *count as
 * they were, what the arena refused, or EMBER_NO_OUT, if out is too short (EMBER_FRAMES_MAX always holds a message), the message would be
 * over 16,384 bytes, or the rows make no tree (ember_why says why). It takes 16 KB of stack.
 * Never writes a part of a message. */
static inline uint64_t ember_frames(const uint64_t (*rows)[EMBER_ROW_WORDS], size_t row_count, uint64_t root, const struct ember_arena *arena,
                                    uint8_t *out, size_t out_bytes, uint64_t *count)
{
    uint8_t message[EMBER_MESSAGE_MAX];
    uint64_t length[EMBER_WRITE_WORDS];
    if (arena->refused != EMBER_DONE)
        return arena->refused;
    if (ember_write(rows, row_count, row_count, root, arena->bytes, arena->used, message, sizeof message, length, EMBER_WRITE_WORDS) != EMBER_DONE)
        return EMBER_NO_OUT;
    return ember_write_message(message, (size_t)length[0], out, out_bytes, count);
}

/* The rows as ember_write, ember_frames, ember_accepts, ember_desk_call and ember_path take them, which only look at them: ISO C has no such
 * conversion of its own.
 * Never copies them. */
static inline const ember_row *ember_rows(ember_row *table)
{
    return (const ember_row *)table;
}

#ifdef __cplusplus
}
#endif

#endif
