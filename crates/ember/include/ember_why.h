/* Why rows make no tree: which row, which member, and what is wrong with it. Plain C99 and C++; ember.h takes it in, and it ember.h.
 * The row is found by ember_accepts, which is proved exact; the member and the cause by the rules that ember.h states. */
#include "ember.h"

#ifndef EMBER_WHY_H
#define EMBER_WHY_H

#include <stddef.h>
#include <stdint.h>

#ifdef __cplusplus
extern "C" {
#endif

enum ember_cause {
    EMBER_WHY_TREE = 0,     /* nothing is wrong: it is a tree that the reader accepts */
    EMBER_WHY_COUNT = 1,    /* count is over the table's rows, or over 256 */
    EMBER_WHY_ROOT = 2,     /* root is neither EMBER_ELEMENTS nor EMBER_STREAMS */
    EMBER_WHY_KIND = 3,     /* the row has no kind of entry */
    EMBER_WHY_PARENT = 4,   /* what it stands in is no row before it, or one that is over: rows stand in message order */
    EMBER_WHY_STANDS = 5,   /* an entry of this kind may not stand there */
    EMBER_WHY_ORDER = 6,    /* a matrix's child after a connection of it */
    EMBER_WHY_MEMBER = 7,   /* the kind has no such member */
    EMBER_WHY_MISSING = 8,  /* a required member is absent */
    EMBER_WHY_TYPE = 9,     /* the member may not have this type */
    EMBER_WHY_WORDS = 10,   /* words that no value of this type has: a boolean over 1, a second word that is not 0 */
    EMBER_WHY_PART = 11,    /* a text, octets, a path or sources that do not lie in the parts */
    EMBER_WHY_RANGE = 12,   /* a number out of its range */
    EMBER_WHY_REAL = 13,    /* minus zero or NaN */
    EMBER_WHY_NAME = 14,    /* an identifier that does not start with a letter or "_", or holds "/" */
    EMBER_WHY_OCTETS = 15,  /* a path or sources whose numbers are not in the fewest octets */
    EMBER_WHY_PATH = 16,    /* a path that is empty, over 16 numbers (parents counted) or has a number out of range */
    EMBER_WHY_DEPTH = 17,   /* over 64 containers open at once */
    EMBER_WHY_LENGTH = 18   /* with this row the message is over 16,384 bytes */
};

/* A cause in words.
 * Never null: "no such cause" for a number that is none. */
static inline const char *ember_why_say(uint64_t cause)
{
    switch (cause) {
    case EMBER_WHY_TREE: return "a tree that the reader accepts";
    case EMBER_WHY_COUNT: return "more rows than the table has, or over 256";
    case EMBER_WHY_ROOT: return "root is neither elements nor streams";
    case EMBER_WHY_KIND: return "no kind of entry";
    case EMBER_WHY_PARENT: return "it stands in no row before it, or in one that is over";
    case EMBER_WHY_STANDS: return "an entry of this kind may not stand there";
    case EMBER_WHY_ORDER: return "a child after a connection of its matrix";
    case EMBER_WHY_MEMBER: return "the kind has no such member";
    case EMBER_WHY_MISSING: return "a required member is absent";
    case EMBER_WHY_TYPE: return "the member may not have this type";
    case EMBER_WHY_WORDS: return "words that no value of this type has";
    case EMBER_WHY_PART: return "it does not lie in the parts";
    case EMBER_WHY_RANGE: return "a number out of its range";
    case EMBER_WHY_REAL: return "minus zero or NaN";
    case EMBER_WHY_NAME: return "an identifier against its rule";
    case EMBER_WHY_OCTETS: return "numbers that are not in the fewest octets";
    case EMBER_WHY_PATH: return "a path that is empty, over 16 numbers or has a number out of range";
    case EMBER_WHY_DEPTH: return "over 64 containers open at once";
    case EMBER_WHY_LENGTH: return "the message is over 16,384 bytes";
    }
    return "no such cause";
}

/* What stands at a member of a kind, by its cell: a letter. ' ' none, '#' an element's number, '@' a path, 'i' an identifier, 't' a text,
 * 'b' a boolean, '*' any value, 's' sources, 'c' a count, 'n' a signed number, '3', '2', '1' a number from 0 to that.
 * Never another letter. */
static inline char ember_rule(uint64_t kind, size_t member)
{
    static const char rules[10][17] = {
        "                ", "#it***3  nb n  c", "nn              ", "#itbb           ", "#it21cccc       ",
        "@it***3  nb n  c", "@itbb           ", "@it21cccc       ", "cs2             ", "c*              ",
    };
    return kind < 10 && member < 16 ? rules[kind][member] : ' ';
}

/* What is wrong with the numbers of a path ('@') or of sources ('s'); EMBER_WHY_TREE if nothing is.
 * Never reads past the bytes. */
static inline uint64_t ember_why_numbers(char rule, const uint8_t *bytes, size_t count)
{
    uint64_t number = 0, numbers = 0, over = 0;
    size_t i;
    int inside = 0;
    for (i = 0; i < count; i++) {
        if (!inside && bytes[i] == 0x80)
            return EMBER_WHY_OCTETS;
        if (number <= 2147483647u)
            number = number << 7 | (bytes[i] & 0x7f);
        inside = bytes[i] >= 0x80;
        if (!inside) {
            over |= number > 2147483647u || (rule == '@' && number == 0);
            numbers++;
            number = 0;
        }
    }
    if (inside)
        return EMBER_WHY_OCTETS;
    if (rule == 's')
        return over ? EMBER_WHY_RANGE : EMBER_WHY_TREE;
    return over || numbers == 0 || numbers > EMBER_PATH_MAX ? EMBER_WHY_PATH : EMBER_WHY_TREE;
}

/* What is wrong with one member of a row, its parents left out of account; EMBER_WHY_TREE if nothing is.
 * Never reads past the parts. */
static inline uint64_t ember_why_member(const uint64_t *row, size_t member, const uint8_t *parts, size_t parts_bytes)
{
    char rule = ember_rule(row[EMBER_ROW_KIND], member);
    uint64_t type = ember_type(row, member), first = row[EMBER_ROW_CELLS + EMBER_CELL_WORDS * member + 1];
    uint64_t second = row[EMBER_ROW_CELLS + EMBER_CELL_WORDS * member + 2];
    const uint8_t *bytes;
    size_t count, i;
    int64_t integer;
    double real;
    if (type == EMBER_TYPE_ABSENT) {
        if (first != 0 || second != 0)
            return EMBER_WHY_WORDS;
        return member == 0 || (member == 1 && row[EMBER_ROW_KIND] == EMBER_KIND_STREAM_ENTRY) ? EMBER_WHY_MISSING : EMBER_WHY_TREE;
    }
    if (rule == ' ')
        return EMBER_WHY_MEMBER;
    switch (type) {
    case EMBER_TYPE_BOOLEAN:
        if (rule != 'b' && rule != '*')
            return EMBER_WHY_TYPE;
        return first > 1 || second != 0 ? EMBER_WHY_WORDS : EMBER_WHY_TREE;
    case EMBER_TYPE_INTEGER:
        if (rule == 'i' || rule == 't' || rule == 'b' || rule == '@' || rule == 's')
            return EMBER_WHY_TYPE;
        if (second != 0)
            return EMBER_WHY_WORDS;
        integer = ember_integer_or(row, member, 0);
        if (rule == '*')
            return EMBER_WHY_TREE;
        if (rule == 'n')
            return integer < -2147483647 - 1 || integer > 2147483647 ? EMBER_WHY_RANGE : EMBER_WHY_TREE;
        return integer < (rule == '#') || integer > (rule >= '1' && rule <= '3' ? rule - '0' : 2147483647) ? EMBER_WHY_RANGE : EMBER_WHY_TREE;
    case EMBER_TYPE_REAL:
        if (rule != '*')
            return EMBER_WHY_TYPE;
        if (second != 0)
            return EMBER_WHY_WORDS;
        real = ember_real_or(row, member, 0);
        return real != real || first == (uint64_t)1 << 63 ? EMBER_WHY_REAL : EMBER_WHY_TREE;
    case EMBER_TYPE_OCTETS:
    case EMBER_TYPE_TEXT:
    case EMBER_TYPE_RELATIVE_OID:
        if (type == EMBER_TYPE_OCTETS ? rule != '*' : type == EMBER_TYPE_TEXT ? rule != 'i' && rule != 't' && rule != '*' : rule != '@' && rule != 's')
            return EMBER_WHY_TYPE;
        if (!ember_bytes(row, member, type, parts, parts_bytes, &bytes, &count))
            return EMBER_WHY_PART;
        if (type == EMBER_TYPE_RELATIVE_OID)
            return ember_why_numbers(rule, bytes, count);
        if (rule != 'i')
            return EMBER_WHY_TREE;
        for (i = 0; i < count; i++)
            if (bytes[i] == '/')
                return EMBER_WHY_NAME;
        return count > 0 && (bytes[0] == '_' || (bytes[0] >= 'A' && bytes[0] <= 'Z') || (bytes[0] >= 'a' && bytes[0] <= 'z')) ? EMBER_WHY_TREE
                                                                                                                       : EMBER_WHY_NAME;
    }
    return EMBER_WHY_TYPE;
}

/* What is wrong with where the row at a place stands, the rows before it being a tree; EMBER_WHY_TREE if nothing is.
 * Never looks at its members. */
static inline uint64_t ember_why_here(const uint64_t (*table)[EMBER_ROW_WORDS], size_t place, uint64_t root)
{
    const uint64_t *row = table[place];
    uint64_t kind = row[EMBER_ROW_KIND], in = row[EMBER_ROW_PARENT];
    size_t at = place, i;
    if (kind < EMBER_KIND_PARAMETER || kind > EMBER_KIND_STREAM_ENTRY)
        return EMBER_WHY_KIND;
    if (in == EMBER_IN_ROOT) {
        if (root == EMBER_STREAMS)
            return kind == EMBER_KIND_STREAM_ENTRY ? EMBER_WHY_TREE : EMBER_WHY_STANDS;
        return kind == EMBER_KIND_STREAM_ENTRY || kind == EMBER_KIND_CONNECTION ? EMBER_WHY_STANDS : EMBER_WHY_TREE;
    }
    /* the row before it and what that stands in are the rows that go on */
    if (place == 0)
        return EMBER_WHY_PARENT;
    for (at = place - 1; EMBER_IN(at) != in; at = ember_parent(table[at]))
        if (!ember_has_parent(table[at]))
            return EMBER_WHY_PARENT;
    if (kind == EMBER_KIND_CONNECTION)
        return ember_is_matrix(table[at]) ? EMBER_WHY_TREE : EMBER_WHY_STANDS;
    if (kind > EMBER_KIND_MATRIX || !(ember_is_parameter(table[at]) || ember_is_node(table[at]) || ember_is_matrix(table[at])))
        return EMBER_WHY_STANDS;
    for (i = at + 1; i < place; i++)
        if (table[i][EMBER_ROW_PARENT] == in && table[i][EMBER_ROW_KIND] == EMBER_KIND_CONNECTION)
            return EMBER_WHY_ORDER;
    return EMBER_WHY_TREE;
}

/* How many numbers the path of the row at a place has, its parents' counted, the rows before it being a tree.
 * Never more than count and 16. */
static inline size_t ember_why_path(const uint64_t (*table)[EMBER_ROW_WORDS], size_t place, const uint8_t *parts, size_t parts_bytes)
{
    size_t numbers = 0;
    for (;; place = ember_parent(table[place])) {
        char rule = ember_rule(table[place][EMBER_ROW_KIND], 0);
        if (rule == '@')
            return numbers + ember_numbers(table[place], 0, parts, parts_bytes, NULL, 0);
        numbers += rule == '#';
        if (!ember_has_parent(table[place]))
            return numbers;
    }
}

/* Says why the table's first `count` rows make no tree that the reader accepts: answers the cause, and sets *row to the first row with
 * which they make none, and *member to the member that is wrong there, or to 16, EMBER_MEMBERS, if it is the row as a whole.
 * EMBER_WHY_TREE, with *row as count and *member as 16, exactly if ember_accepts gives 1. Then EMBER_NO_OUT of ember_write means that the output is too
 * short or the message over 16,384 bytes.
 * Never changes the rows, and never reads past them or the parts. */
#define EMBER_MEMBERS 16
static inline uint64_t ember_why(const uint64_t (*table)[EMBER_ROW_WORDS], size_t table_rows, size_t count, uint64_t root,
                                 const uint8_t *parts, size_t parts_bytes, size_t *row, size_t *member)
{
    size_t right = 0, wrong = count, place, depth, m;
    uint64_t cause;
    *row = count;
    *member = EMBER_MEMBERS;
    if (ember_accepts(table, table_rows, count, root, parts, parts_bytes))
        return EMBER_WHY_TREE;
    *row = 0;
    if (root != EMBER_ELEMENTS && root != EMBER_STREAMS)
        return EMBER_WHY_ROOT;
    if (count > table_rows || count > EMBER_ROWS_MAX) {
        *row = table_rows < EMBER_ROWS_MAX ? table_rows : EMBER_ROWS_MAX;
        return EMBER_WHY_COUNT;
    }
    /* the first rows of a tree are a tree: so the longest right beginning is found by halves */
    while (wrong - right > 1) {
        size_t middle = right + (wrong - right) / 2;
        if (ember_accepts(table, table_rows, middle, root, parts, parts_bytes))
            right = middle;
        else
            wrong = middle;
    }
    *row = place = wrong - 1;
    if ((cause = ember_why_here(table, place, root)) != EMBER_WHY_TREE)
        return cause;
    for (m = 0; m < EMBER_MEMBERS; m++)
        if ((cause = ember_why_member(table[place], m, parts, parts_bytes)) != EMBER_WHY_TREE) {
            *member = m;
            return cause;
        }
    if (ember_why_path(table, place, parts, parts_bytes) > EMBER_PATH_MAX) {
        *member = EMBER_NUMBER_OR_PATH;
        return EMBER_WHY_PATH;
    }
    /* Root and its collection are two containers; an item, its element and a member three, contents two more; each parent is four */
    depth = 2 + 4 * ember_depth(table, count, place) + 3;
    if (ember_rule(table[place][EMBER_ROW_KIND], 1) == 'i')
        for (m = 1; m < EMBER_MEMBERS; m++)
            if (ember_has(table[place], m)) {
                depth += 2;
                break;
            }
    return depth > 64 ? EMBER_WHY_DEPTH : EMBER_WHY_LENGTH;
}

#ifdef __cplusplus
}
#endif

#endif
