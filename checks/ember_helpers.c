/* The helpers of ember.h's own headers (ember_names.h, the arena and the readers of ember_entries.h, ember_why.h, ember_line.h): each is held
 * against the library. Every cause of ember_why is made once, and on rows damaged at random it says a tree exactly where ember_accepts does,
 * and a length only of long messages. Says what differs and ends with 1. */
#include "ember.h"
#include "ember_text.h"

#include <stdio.h>
#include <string.h>

static int wrong;

static void expect(const char *what, uint64_t got, uint64_t wanted)
{
    if (got != wanted) {
        printf("%s: %llu, and not %llu\n", what, (unsigned long long)got, (unsigned long long)wanted);
        wrong = 1;
    }
}

static uint64_t state = 88172645463325252u;

static uint64_t below(uint64_t count)
{
    state ^= state << 13;
    state ^= state >> 7;
    state ^= state << 17;
    return state % count;
}

/* ---- names */

static void names(void)
{
    static const char no_number[] = "no such number", no_member[] = "no such member";
    uint64_t n, kind;
    size_t member, listed = 0, said = 0;
    for (n = 0; n <= 100; n++)
        said += strcmp(ember_say(n), no_number) != 0;
    expect("numbers that are said", said, 34);
    expect("a large number", (uint64_t)strcmp(ember_say(UINT64_MAX), no_number), 0);
    expect("46", (uint64_t)(strlen(ember_say(EMBER_NO_OUT)) > 10), 1);
    for (kind = 0; kind <= 11; kind++) {
        expect("a kind", (uint64_t)(strcmp(ember_kind_name(kind), "no such kind") != 0), kind >= 1 && kind <= 9);
        for (member = 0; member <= 17; member++) {
            int named = strcmp(ember_member_name(kind, member), no_member) != 0;
            expect("a member is named where there is one", (uint64_t)named, ember_rule(kind, member) != ' ');
            listed += (size_t)named;
        }
    }
    expect("members that are named", listed, 2 * (11 + 5 + 9) + 2 + 3 + 2);
    expect("a path", (uint64_t)strcmp(ember_member_name(EMBER_KIND_QUALIFIED_NODE, 0), "path"), 0);
    expect("a type", (uint64_t)strcmp(ember_type_name(EMBER_TYPE_RELATIVE_OID), "numbers"), 0);
    expect("no type", (uint64_t)strcmp(ember_type_name(3), "no such type"), 0);
    for (n = 0; n <= EMBER_WHY_LENGTH + 1; n++)
        expect("a cause", (uint64_t)(strcmp(ember_why_say(n), "no such cause") == 0), n > EMBER_WHY_LENGTH);
    expect("version", EMBER_VERSION_NUMBER, 100 * EMBER_VERSION_MAJOR + EMBER_VERSION_MINOR);
    expect("version as text", (uint64_t)(EMBER_VERSION[0] - '0'), EMBER_VERSION_MAJOR);
}

/* ---- arena and readers */

static ember_row rows[EMBER_ROWS_MAX + 1];
static uint8_t bytes[EMBER_MESSAGE_MAX + 64];
static uint8_t frames[EMBER_FRAMES_MAX];
static struct ember_line line;

static void building(void)
{
    static const uint64_t path[] = {1, 200}, sources[] = {0, 300, 2147483647};
    struct ember_arena arena = ember_arena_of(bytes, 64), small;
    struct ember_iterator it;
    struct ember_entry kept;
    uint64_t count = 0, number = 9, numbers[4];
    size_t row = 99, member = 99, letters = 0;
    const char *text;
    expect("a path", (uint64_t)ember_qualified(rows[0], EMBER_KIND_QUALIFIED_MATRIX, &arena, path, 2), 1);
    expect("a text", (uint64_t)ember_put_text(rows[0], EMBER_IDENTIFIER, &arena, "router"), 1);
    ember_element(rows[1], EMBER_KIND_PARAMETER, EMBER_IN(0), 7);
    expect("octets", (uint64_t)ember_put_octets(rows[1], EMBER_PARAMETER_VALUE, &arena, (const uint8_t *)"\0\1", 2), 1);
    expect("a real", (uint64_t)ember_put_real(rows[1], EMBER_PARAMETER_MINIMUM, -0.0), 1);
    ember_put_boolean(rows[1], EMBER_PARAMETER_ONLINE, 1);
    ember_command(rows[2], EMBER_IN(1), EMBER_GET_DIRECTORY);
    expect("a connection", (uint64_t)ember_connection(rows[3], EMBER_IN(0), &arena, 5, sources, 3, EMBER_CONNECT), 1);
    expect("another", (uint64_t)ember_connection(rows[4], EMBER_IN(0), &arena, 6, NULL, 0, EMBER_ABSOLUTE), 1);
    expect("a tree", ember_why(ember_rows(rows), 5, 5, EMBER_ELEMENTS, arena.bytes, arena.used, &row, &member), EMBER_WHY_TREE);
    expect("no row and no member", row + member, 5 + EMBER_MEMBERS);
    expect("frames", ember_frames(ember_rows(rows), 5, EMBER_ELEMENTS, &arena, frames, sizeof frames, &count), EMBER_DONE);
    expect("too short", ember_frames(ember_rows(rows), 5, EMBER_ELEMENTS, &arena, frames, 8, &number), EMBER_NO_OUT);
    expect("as it was", number, 9);
    expect("listening", ember_line_listen(&line), EMBER_DONE);
    expect("a message", ember_line_turn(&line, frames, count), EMBER_MESSAGE);
    expect("read", line.tree, EMBER_DONE);
    expect("entries", line.count, 5);
    expect("no desk", line.answer_count + line.desk, 0);
    expect("depth", ember_depth(ember_rows(line.table), line.count, 2), 2);
    expect("depth", ember_depth(ember_rows(line.table), line.count, 0), 0);
    expect("depth", ember_line_depth(&line, 2) * 10 + ember_line_depth(&line, 5), 20);
    text = ember_line_text_or(&line, 0, EMBER_IDENTIFIER, "none", &letters);
    expect("text", (uint64_t)memcmp(text, "router", letters < 5 ? letters : 5) + letters, 6);
    ember_line_text_or(&line, 5, EMBER_IDENTIFIER, "none", &letters);
    expect("past the count", letters, 4);
    expect("answer 1", ember_line_answered(&line, 1), 4);
    expect("no answer 2", ember_line_answered(&line, 2), 5);
    expect("its path", ember_line_path(&line, 1, numbers), 3);
    expect("its last number", numbers[2], 7);
    text = ember_text_or(line.table[0], EMBER_IDENTIFIER, line.store, line.message_bytes, "none", &letters);
    expect("text", (uint64_t)memcmp(text, "router", letters), 0);
    text = ember_text_or(line.table[0], EMBER_DESCRIPTION, line.store, line.message_bytes, "none", &letters);
    expect("otherwise", (uint64_t)strcmp(text, "none") + letters, 4);
    expect("zero", (uint64_t)(ember_real_or(line.table[1], EMBER_PARAMETER_MINIMUM, 1) == 0), 1);
    expect("otherwise", (uint64_t)(ember_real_or(line.table[1], EMBER_PARAMETER_MAXIMUM, 2.5) == 2.5), 1);
    expect("true", (uint64_t)ember_boolean_or(line.table[1], EMBER_PARAMETER_ONLINE, 0), 1);
    expect("otherwise", (uint64_t)ember_boolean_or(line.table[0], EMBER_NODE_ONLINE, 7), 7);
    expect("command", (uint64_t)ember_integer_or(line.table[2], EMBER_COMMAND_NUMBER, 0), 32);
    expect("otherwise", (uint64_t)ember_integer_or(line.table[2], EMBER_COMMAND_MASK, EMBER_SUBSCRIBE + EMBER_UNSUBSCRIBE), 61);
    it = ember_iterate(line.table[3], EMBER_CONNECTION_SOURCES, line.store, line.message_bytes);
    for (number = 0; ember_next(&it, &numbers[number]); number++)
        ;
    expect("sources", number, 3);
    expect("in order", (uint64_t)memcmp(numbers, sources, sizeof sources), 0);
    it = ember_iterate(line.table[4], EMBER_CONNECTION_SOURCES, line.store, line.message_bytes);
    expect("none", (uint64_t)ember_next(&it, &number), 0);
    kept = ember_keep(line.table[3]);
    expect("kept", (uint64_t)memcmp(kept.row, line.table[3], sizeof kept.row), 0);

    /* as text, in enough room and in less, down to none */
    {
        char out[EMBER_PATH_TEXT], longest[EMBER_NUMBER_TEXT];
        uint64_t most[EMBER_PATH_MAX];
        static ember_row one;
        memset(out, '#', sizeof out);
        for (number = 0; number < EMBER_PATH_MAX; number++)
            most[number] = 2147483647;
        expect("the longest path", strlen(ember_path_text(most, EMBER_PATH_MAX, out, sizeof out)), 16 * 11 - 1);
        expect("none", strlen(ember_path_text(most, 0, out, sizeof out)), 0);
        expect("cut off", (uint64_t)strcmp(ember_path_text(path, 2, out, 4), "1.2"), 0);
        out[0] = '#';
        ember_path_text(path, 2, out, 0);
        expect("no room", out[0], '#');
        ember_begin(one, EMBER_KIND_PARAMETER, EMBER_IN_ROOT);
        ember_put_integer(one, EMBER_PARAMETER_VALUE, INT64_MIN);
        ember_put_real(one, EMBER_PARAMETER_MINIMUM, -2.2250738585072014e-308);
        expect("an integer", (uint64_t)strcmp(ember_value_text(one, EMBER_PARAMETER_VALUE, NULL, 0, longest, sizeof longest), "-9223372036854775808"), 0);
        expect("a real", (uint64_t)strcmp(ember_value_text(one, EMBER_PARAMETER_MINIMUM, NULL, 0, longest, sizeof longest), "-2.2250738585072014e-308"), 0);
        expect("absent", strlen(ember_value_text(one, EMBER_PARAMETER_MAXIMUM, NULL, 0, longest, sizeof longest)), 0);
        expect("sources", (uint64_t)strcmp(ember_value_text(line.table[3], EMBER_CONNECTION_SOURCES, line.store, line.message_bytes, out, sizeof out),
                                           "0.300.2147483647"), 0);
        expect("octets", (uint64_t)strcmp(ember_value_text(line.table[1], EMBER_PARAMETER_VALUE, line.store, line.message_bytes, out, sizeof out), "0001"), 0);
        expect("a boolean", (uint64_t)strcmp(ember_value_text(line.table[1], EMBER_PARAMETER_ONLINE, line.store, line.message_bytes, out, 3), "tr"), 0);
        expect("past the message", strlen(ember_value_text(line.table[0], EMBER_IDENTIFIER, line.store, 4, out, sizeof out)), 0);
        ember_put_bytes(one, EMBER_IDENTIFIER, EMBER_TYPE_TEXT, 0, 4);
        expect("control characters", (uint64_t)strcmp(ember_value_text(one, EMBER_IDENTIFIER, (const uint8_t *)"\033[2\177", 4, out, sizeof out), ".[2."), 0);
    }

    /* no NaN, no room, and a number over 2,147,483,647 */
    expect("NaN", (uint64_t)ember_put_real(rows[1], EMBER_PARAMETER_MINIMUM, (double)(1e308 * 10 - 1e308 * 10)), 0);
    expect("absent", (uint64_t)ember_has(rows[1], EMBER_PARAMETER_MINIMUM), 0);
    small = ember_arena_of(bytes, 5);
    expect("no room", (uint64_t)ember_put_text(rows[0], EMBER_IDENTIFIER, &small, "router"), 0);
    expect("absent", (uint64_t)ember_has(rows[0], EMBER_IDENTIFIER) + small.used, 0);
    expect("and not written", ember_frames(ember_rows(rows), 1, EMBER_ELEMENTS, &small, frames, sizeof frames, &count), EMBER_NO_ROOM);
    small = ember_arena_of(bytes, 5);
    expect("no room", (uint64_t)ember_put_numbers(rows[0], EMBER_NUMBER_OR_PATH, &small, sources, 3), 0);
    expect("as it was", small.used, 0);
    numbers[0] = 2147483648u;
    expect("too large", (uint64_t)ember_put_numbers(rows[0], EMBER_NUMBER_OR_PATH, &arena, numbers, 1), 0);
    expect("and told", arena.refused, EMBER_BAD_NUMBER);
}

/* ---- ember_why */

static uint64_t why(size_t count, uint64_t root, const struct ember_arena *arena, size_t *row, size_t *member)
{
    return ember_why(ember_rows(rows), EMBER_ROWS_MAX, count, root, arena->bytes, arena->used, row, member);
}

/* A node, a parameter in it, a matrix in the node, and a connection of it; then a change, which must be told. */
static void changed(const char *what, size_t at, size_t cell, uint64_t type, uint64_t first, uint64_t second, uint64_t cause)
{
    static const uint64_t path[] = {1, 2}, sources[] = {1};
    struct ember_arena arena = ember_arena_of(bytes, 64);
    size_t row = 99, member = 99;
    ember_qualified(rows[0], EMBER_KIND_QUALIFIED_NODE, &arena, path, 2);
    ember_put_text(rows[0], EMBER_IDENTIFIER, &arena, "a/b");
    rows[0][EMBER_ROW_CELLS + 5] = 1;
    ember_element(rows[1], EMBER_KIND_PARAMETER, EMBER_IN(0), 1);
    ember_element(rows[2], EMBER_KIND_MATRIX, EMBER_IN(0), 2);
    ember_connection(rows[3], EMBER_IN(2), &arena, 0, sources, 1, EMBER_ABSOLUTE);
    ember_element(rows[4], EMBER_KIND_NODE, EMBER_IN_ROOT, 3);
    expect(what, why(5, EMBER_ELEMENTS, &arena, &row, &member), EMBER_WHY_TREE);
    if (cell == EMBER_MEMBERS) {
        rows[at][EMBER_ROW_KIND] = first;
        rows[at][EMBER_ROW_PARENT] = second;
    } else {
        ember_put(rows[at], cell, type, first, second);
    }
    expect(what, why(5, EMBER_ELEMENTS, &arena, &row, &member), cause);
    expect(what, row, at);
    expect(what, member, cell);
}

static void causes(void)
{
    static const uint64_t path[16] = {1, 1, 1, 1, 1, 1, 1, 1, 1, 1, 1, 1, 1, 1, 1, 1};
    struct ember_arena arena = ember_arena_of(bytes, sizeof bytes);
    size_t row = 99, member = 99, i;
    changed("no kind", 1, EMBER_MEMBERS, 0, 10, 1, EMBER_WHY_KIND);
    changed("no parent", 1, EMBER_MEMBERS, 0, EMBER_KIND_PARAMETER, 2, EMBER_WHY_PARENT);
    changed("a parent that is over", 4, EMBER_MEMBERS, 0, EMBER_KIND_NODE, 2, EMBER_WHY_PARENT);
    changed("a far parent", 1, EMBER_MEMBERS, 0, EMBER_KIND_PARAMETER, UINT64_MAX, EMBER_WHY_PARENT);
    changed("the first in another", 0, EMBER_MEMBERS, 0, EMBER_KIND_NODE, 1, EMBER_WHY_PARENT);
    changed("a connection in a node", 4, EMBER_MEMBERS, 0, EMBER_KIND_CONNECTION, 1, EMBER_WHY_STANDS);
    changed("a qualified one in a node", 1, EMBER_MEMBERS, 0, EMBER_KIND_QUALIFIED_NODE, 1, EMBER_WHY_STANDS);
    changed("a stream entry among elements", 4, EMBER_MEMBERS, 0, EMBER_KIND_STREAM_ENTRY, 0, EMBER_WHY_STANDS);
    changed("a child of a connection", 4, EMBER_MEMBERS, 0, EMBER_KIND_COMMAND, 4, EMBER_WHY_STANDS);
    changed("a child after a connection", 4, EMBER_MEMBERS, 0, EMBER_KIND_COMMAND, 3, EMBER_WHY_ORDER);
    changed("no such member", 4, 5, EMBER_TYPE_INTEGER, 1, 0, EMBER_WHY_MEMBER);
    changed("absent", 3, EMBER_CONNECTION_TARGET, EMBER_TYPE_ABSENT, 0, 0, EMBER_WHY_MISSING);
    changed("a text for a number", 1, EMBER_NUMBER_OR_PATH, EMBER_TYPE_TEXT, 0, 0, EMBER_WHY_TYPE);
    changed("no type", 1, EMBER_PARAMETER_VALUE, 3, 0, 0, EMBER_WHY_TYPE);
    changed("a boolean of 2", 1, EMBER_PARAMETER_ONLINE, EMBER_TYPE_BOOLEAN, 2, 0, EMBER_WHY_WORDS);
    changed("an absent one with a word", 1, 7, EMBER_TYPE_ABSENT, 0, 1, EMBER_WHY_WORDS);
    changed("an integer of two words", 1, EMBER_PARAMETER_VALUE, EMBER_TYPE_INTEGER, 0, 1, EMBER_WHY_WORDS);
    changed("past the parts", 4, EMBER_DESCRIPTION, EMBER_TYPE_TEXT, 5, 10, EMBER_WHY_PART);
    changed("far past them", 4, EMBER_DESCRIPTION, EMBER_TYPE_TEXT, UINT64_MAX, 2, EMBER_WHY_PART);
    changed("access 4", 1, EMBER_PARAMETER_ACCESS, EMBER_TYPE_INTEGER, 4, 0, EMBER_WHY_RANGE);
    changed("number 0", 2, EMBER_NUMBER_OR_PATH, EMBER_TYPE_INTEGER, 0, 0, EMBER_WHY_RANGE);
    changed("factor", 1, EMBER_PARAMETER_FACTOR, EMBER_TYPE_INTEGER, 2147483648u, 0, EMBER_WHY_RANGE);
    changed("minus zero", 1, EMBER_PARAMETER_VALUE, EMBER_TYPE_REAL, (uint64_t)1 << 63, 0, EMBER_WHY_REAL);
    changed("NaN", 1, EMBER_PARAMETER_VALUE, EMBER_TYPE_REAL, (uint64_t)0x7ff8 << 48, 0, EMBER_WHY_REAL);
    changed("with a slash", 0, EMBER_IDENTIFIER, EMBER_TYPE_TEXT, 2, 3, EMBER_WHY_NAME);
    changed("empty", 0, EMBER_IDENTIFIER, EMBER_TYPE_TEXT, 2, 0, EMBER_WHY_NAME);
    changed("no path", 0, EMBER_NUMBER_OR_PATH, EMBER_TYPE_RELATIVE_OID, 0, 0, EMBER_WHY_PATH);
    bytes[63] = 0x80;
    expect("elements among streams", why(5, EMBER_STREAMS, &arena, &row, &member), EMBER_WHY_STANDS);
    expect("the first", row, 0);
    expect("no root", why(5, 1, &arena, &row, &member), EMBER_WHY_ROOT);
    expect("257", why(257, EMBER_ELEMENTS, &arena, &row, &member), EMBER_WHY_COUNT);
    expect("past the table", ember_why(ember_rows(rows), 2, 3, EMBER_ELEMENTS, bytes, 0, &row, &member), EMBER_WHY_COUNT);
    expect("its row", row, 2);
    bytes[0] = 0x80;
    bytes[1] = 0x01;
    ember_begin(rows[0], EMBER_KIND_QUALIFIED_NODE, EMBER_IN_ROOT);
    ember_put_bytes(rows[0], EMBER_NUMBER_OR_PATH, EMBER_TYPE_RELATIVE_OID, 0, 2);
    arena.used = 2;
    expect("not the fewest", why(1, EMBER_ELEMENTS, &arena, &row, &member), EMBER_WHY_OCTETS);

    /* 16 numbers, then one more in it; 16 nodes in each other, and what stands in the 15th */
    arena = ember_arena_of(bytes, sizeof bytes);
    ember_qualified(rows[0], EMBER_KIND_QUALIFIED_NODE, &arena, path, 16);
    ember_element(rows[1], EMBER_KIND_PARAMETER, EMBER_IN(0), 1);
    expect("a path of 17", why(2, EMBER_ELEMENTS, &arena, &row, &member), EMBER_WHY_PATH);
    expect("its row", row, 1);
    expect("its member", member, EMBER_NUMBER_OR_PATH);
    for (i = 0; i < 16; i++)
        ember_element(rows[i], EMBER_KIND_NODE, i, 1);
    expect("too deep", why(16, EMBER_ELEMENTS, &arena, &row, &member), EMBER_WHY_DEPTH);
    expect("its row", row, 15);
    ember_put_boolean(rows[14], EMBER_NODE_ROOT, 1);
    expect("deep enough", why(15, EMBER_ELEMENTS, &arena, &row, &member), EMBER_WHY_TREE);

    /* 16,384 bytes and more */
    arena = ember_arena_of(bytes, sizeof bytes);
    arena.used = arena.room;
    ember_element(rows[0], EMBER_KIND_NODE, EMBER_IN_ROOT, 1);
    ember_element(rows[1], EMBER_KIND_NODE, EMBER_IN_ROOT, 1);
    ember_put_bytes(rows[1], EMBER_DESCRIPTION, EMBER_TYPE_TEXT, 0, 16384);
    expect("too long", why(2, EMBER_ELEMENTS, &arena, &row, &member), EMBER_WHY_LENGTH);
    expect("its row", row, 1);
}

/* Rows that are a tree, damaged in a word or two: a tree by ember_why exactly if by ember_accepts; the rows before the one that it names are a
 * tree, those with it are not; with a member that is taken away where it names one that is not required, that member is no longer named. */
static void damage(void)
{
    static const uint64_t words[] = {0, 1, 2, 3, 4, 5, 8, 9, 12, 13, 16, 127, 128, 2147483647, 2147483648u, UINT64_MAX, (uint64_t)1 << 63};
    static const uint64_t path[] = {1, 2, 3}, sources[] = {0, 5, 300};
    uint64_t told[EMBER_WHY_LENGTH + 1] = {0};
    for (int run = 0; run < 300000; run++) {
        struct ember_arena arena = ember_arena_of(bytes, 256);
        size_t count = 1 + below(12), row = 99, member = 99, damages = below(3), i;
        uint64_t root = below(16) == 0 ? EMBER_STREAMS : EMBER_ELEMENTS, accepted, cause;
        for (i = 0; i < count; i++) {
            uint64_t kind = root == EMBER_STREAMS ? 9 : 1 + below(8), in = i == 0 || below(3) == 0 ? 0 : below(4) == 0 ? below(i + 1) : i;
            if (i > 0 && rows[i - 1][EMBER_ROW_KIND] == EMBER_KIND_CONNECTION) {
                kind = EMBER_KIND_CONNECTION;
                in = rows[i - 1][EMBER_ROW_PARENT];
            } else if (kind == EMBER_KIND_CONNECTION) {
                in = i;
            }
            if (kind == EMBER_KIND_CONNECTION)
                ember_connection(rows[i], in, &arena, below(9), sources, below(4), below(3));
            else if (kind == EMBER_KIND_COMMAND)
                ember_command(rows[i], in, (int64_t)below(40));
            else if (kind >= EMBER_KIND_QUALIFIED_PARAMETER && kind <= EMBER_KIND_QUALIFIED_MATRIX)
                ember_qualified(rows[i], kind, &arena, path, 1 + below(3));
            else
                ember_element(rows[i], kind, in, 1 + below(4));
            if (kind == EMBER_KIND_STREAM_ENTRY)
                ember_put_real(rows[i], EMBER_STREAM_VALUE, (double)below(1000) / 7);
            else if (kind != EMBER_KIND_CONNECTION && kind != EMBER_KIND_COMMAND && below(2) == 0)
                ember_put_text(rows[i], EMBER_IDENTIFIER, &arena, below(9) == 0 ? "9" : "_a");
        }
        for (i = 0; i < damages; i++)
            rows[below(count)][below(EMBER_ROW_WORDS)] = words[below(sizeof words / sizeof *words)];
        if (below(8) == 0 && arena.used > 0)
            bytes[below(arena.used)] = (uint8_t)below(256);
        accepted = ember_accepts(ember_rows(rows), EMBER_ROWS_MAX, count, root, bytes, arena.used);
        cause = why(count, root, &arena, &row, &member);
        expect("a tree exactly if it is accepted", cause == EMBER_WHY_TREE, accepted);
        told[cause]++;
        if (accepted)
            continue;
        expect("short, so no length", cause != EMBER_WHY_LENGTH, 1);
        expect("its row", row < count, 1);
        expect("what stands before it is a tree", ember_accepts(ember_rows(rows), EMBER_ROWS_MAX, row, root, bytes, arena.used), 1);
        expect("with it there is none", ember_accepts(ember_rows(rows), EMBER_ROWS_MAX, row + 1, root, bytes, arena.used), 0);
        if (cause >= EMBER_WHY_MEMBER && cause <= EMBER_WHY_OCTETS && cause != EMBER_WHY_MISSING && member != 0) {
            size_t before = member;
            ember_put(rows[row], member, EMBER_TYPE_ABSENT, 0, 0);
            if (why(row + 1, root, &arena, &row, &member) != EMBER_WHY_TREE && rows[row][EMBER_ROW_KIND] != EMBER_KIND_STREAM_ENTRY)
                expect("the named member was wrong", member > before || member == 0, 1);
        }
        if (wrong)
            return;
    }
    for (size_t i = 0; i < EMBER_WHY_LENGTH; i++)
        if (told[i] == 0 && i != EMBER_WHY_COUNT && i != EMBER_WHY_ROOT && i != EMBER_WHY_DEPTH && i != EMBER_WHY_PATH)
            expect(ember_why_say(i), 0, 1);
}

/* ---- what of Glow is read (docs/GLOW.md) */

/* A message of one element of an application number, with a member `5` under a context number, in its contents or beside them. */
static uint64_t glow(uint8_t application, int inside, uint8_t context, const uint8_t *value, uint8_t count)
{
    static const uint8_t number[] = {0xa0, 0x03, 0x02, 0x01, 0x01};
    static ember_row table[2];
    uint64_t told[EMBER_READ_WORDS];
    uint8_t out[64] = {0x60, 0, 0x6b, 0, 0xa0, 0, 0, 0};
    size_t at = 8;
    out[6] = (uint8_t)(0x60 + application);
    memcpy(out + at, number, 5);
    at += 5;
    if (inside) {
        out[at++] = 0xa1;
        out[at++] = (uint8_t)(4 + count);
        out[at++] = 0x31;
        out[at++] = (uint8_t)(2 + count);
    }
    out[at++] = (uint8_t)(0xa0 + context);
    out[at++] = count;
    memcpy(out + at, value, count);
    at += count;
    for (size_t i = 1; i < 8; i += 2)
        out[i] = (uint8_t)(at - i - 1);
    return ember_read(out, at, table, 2, told, EMBER_READ_WORDS);
}

static void of_glow(void)
{
    static const uint8_t five[] = {0x02, 0x01, 0x05}, null[] = {0x05, 0x00}, text[] = {0x0c, 0x02, 0x61, 0x62};
    static const uint8_t elements[] = {1, 2, 3, 13};
    for (uint8_t context = 6; context <= 18; context++) {
        int kept = context == 8 || context == 9 || context == 11 || context == 14;
        expect("a member of a parameter's contents", glow(1, 1, context, text, 4) == EMBER_DONE, !kept);
    }
    for (uint8_t context = 4; context <= 5; context++)
        expect("of a node's", glow(3, 1, context, text, 4), EMBER_DONE);
    for (uint8_t context = 8; context <= 12; context++)
        expect("of a matrix's", glow(13, 1, context, text, 4), EMBER_DONE);
    for (uint8_t context = 3; context <= 4; context++)
        expect("a matrix's targets and sources", glow(13, 0, context, text, 4), EMBER_DONE);
    expect("an invocation", glow(2, 0, 2, text, 4), EMBER_DONE);
    expect("a value", glow(1, 1, 2, five, 3), EMBER_DONE);
    expect("null", glow(1, 1, 2, null, 2), EMBER_BAD_GLOW);
    for (uint8_t application = 1; application < 31; application++) {
        int read = 0;
        for (size_t i = 0; i < sizeof elements; i++)
            read |= application == elements[i];
        expect("an element that is no other", glow(application, 0, 9, five, 3) == EMBER_DONE, read);
    }
}

/* ---- the line */

static struct ember_line again;

static void lines(void)
{
    static const uint64_t path[] = {1, 2}, sources[] = {0, 1, 2};
    static uint8_t sheet[EMBER_SHEET_MAX + 4];
    struct ember_arena arena = ember_arena_of(bytes, 64);
    uint64_t count = 0, had[EMBER_SIDE_MAX];
    size_t length = 0, at, cut;
    expect("no desk", ember_line_start(&line, EMBER_N_TO_N, 65, 3, 0, 0, path, 2), EMBER_BAD_DESK);
    expect("none", ember_line_request(&line, 0, sources, 1, EMBER_CONNECT), EMBER_SETUP);
    expect("a desk", ember_line_start(&line, EMBER_N_TO_N, 4, 3, 5, 2, path, 2), EMBER_DONE);
    expect("asked", ember_line_request(&line, 3, sources, 2, EMBER_CONNECT), EMBER_DONE);
    expect("the limit", ember_line_request(&line, 3, sources, 3, EMBER_CONNECT), EMBER_BAD_MANY);
    expect("connected", (uint64_t)ember_line_connected(&line, 3, 1), 1);
    expect("not", (uint64_t)ember_line_connected(&line, 3, 2) + (uint64_t)ember_line_connected(&line, 64, 0), 0);
    expect("sources", ember_line_sources(&line, 3, had), 2);
    expect("ascending", had[0] * 10 + had[1], 1);

    /* served, whole and in two parts at each place, with one connection that is refused */
    ember_qualified(rows[0], EMBER_KIND_QUALIFIED_MATRIX, &arena, path, 2);
    ember_connection(rows[1], EMBER_IN(0), &arena, 9, sources, 1, EMBER_CONNECT);
    ember_connection(rows[2], EMBER_IN(0), &arena, 1, sources + 2, 1, EMBER_CONNECT);
    expect("frames", ember_frames(ember_rows(rows), 3, EMBER_ELEMENTS, &arena, frames, sizeof frames, &count), EMBER_DONE);
    for (cut = 0; cut <= count; cut++) {
        memcpy(&again, &line, sizeof line);
        at = 0;
        if (cut < count) {
            expect("the first part", ember_line_turn(&again, frames, cut), EMBER_DONE);
            expect("all consumed", again.consumed, cut);
            at = cut;
        }
        expect("a message", ember_line_turn(&again, frames + at, count - at), EMBER_MESSAGE);
        expect("all of it", again.consumed, count - at);
        expect("read", again.tree, EMBER_DONE);
        expect("entries", again.count, 3);
        expect("served", again.desk, EMBER_DONE);
        expect("answers", again.answer_count, 2);
        expect("refused", again.answers[0], EMBER_NO_TARGET);
        expect("done", again.answers[1], EMBER_DONE);
        expect("its row", ember_line_answered(&again, 0), 1);
        expect("connected", (uint64_t)ember_line_connected(&again, 1, 2), 1);
    }
    again.session[0] = 6;
    expect("changed words", ember_line_turn(&again, frames, count), EMBER_SETUP);
    expect("and no loop", again.consumed, count);
    expect("anew", ember_line_restart(&again), EMBER_DONE);
    expect("works", ember_line_turn(&again, frames, count), EMBER_MESSAGE);

    /* 257 entries: how many, and no rows */
    {
        uint8_t message[4 + 4 + 257 * 9] = {0x60, 0x82, 0, 0, 0x6b, 0x82, 0, 0};
        message[2] = (sizeof message - 4) >> 8, message[3] = (sizeof message - 4) & 255;
        message[6] = (sizeof message - 8) >> 8, message[7] = (sizeof message - 8) & 255;
        for (at = 0; at < 257; at++)
            memcpy(message + 8 + 9 * at, "\xa0\x07\x63\x05\xa0\x03\x02\x01\x01", 9);
        expect("frames", ember_write_message(message, sizeof message, frames, sizeof frames, &count), EMBER_DONE);
        for (at = 0; at < count; at += again.consumed)
            ember_line_turn(&again, frames + at, count - at);
        expect("a message", again.event, EMBER_MESSAGE);
        expect("no room", again.tree, EMBER_NO_ROOM);
        expect("how many", again.needed, 257);
        expect("no rows", again.count, 0);
    }

    /* sheets, with a frame open on the stream */
    expect("a sheet", ember_line_sheet_write(&line, sheet, sizeof sheet, &length), EMBER_DONE);
    expect("no room", ember_line_sheet_write(&line, sheet, length - 1, &at), EMBER_NO_OUT);
    ember_line_listen(&again);
    expect("no sheet", ember_line_sheet_write(&again, sheet, sizeof sheet, &at), EMBER_SETUP);
    expect("half a frame", ember_line_turn(&again, frames, 5), EMBER_DONE);
    expect("read", ember_line_sheet_read(&again, sheet, length), EMBER_DONE);
    expect("the desk", (uint64_t)memcmp(again.crosspoints, line.crosspoints, sizeof line.crosspoints), 0);
    expect("its path", again.path_words * 100 + again.path[1], 202);
    expect("its figures", (uint64_t)memcmp(again.figures, line.figures, sizeof line.figures), 0);
    expect("the frame goes on", ember_line_turn(&again, frames + 5, 1000), EMBER_DONE);
    expect("its bytes", again.session[0], 2);
    expect("no line", ember_sheet_line(sheet, length), 0);
    expect("no text", ember_sheet_line(sheet, 0), 0);
    memcpy(sheet + length, "FE\n", 3);
    expect("a frame open", ember_line_sheet_read(&again, sheet, length + 3), EMBER_BAD_GLOW);
    expect("of no line", ember_sheet_line(sheet, length + 3), 0);
    memcpy(sheet + length, "00\n", 3);
    expect("a stray byte", ember_line_sheet_read(&again, sheet, length + 3), EMBER_BAD_STRAY);
    expect("its line", ember_sheet_line(sheet, length + 3), 2);
    memcpy(sheet + length, "\n", 1);
    expect("an empty line", ember_line_sheet_read(&again, sheet, length + 1), EMBER_BAD_BYTE);
    expect("its line", ember_sheet_line(sheet, length + 1), 2);
    sheet[length - 1] = '\r';
    expect("0D", ember_line_sheet_read(&again, sheet, length), EMBER_BAD_BYTE);
    expect("its line", ember_sheet_line(sheet, length), 1);
    expect("half a pair", ember_sheet_line(sheet, 3), 1);
    expect("the desk as it was", (uint64_t)memcmp(again.crosspoints, line.crosspoints, sizeof line.crosspoints) + again.path_words, 2);
}

int main(void)
{
    names();
    building();
    causes();
    damage();
    of_glow();
    lines();
    return wrong;
}
