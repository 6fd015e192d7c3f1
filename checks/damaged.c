/* Damaged calls over the C interface: streams, messages, rows, desks, words and lengths, drawn from a fixed seed, mostly right and
 * damaged in places. Every lent slice ends at a page that may not be touched and begins after bytes that must stay as they are; each
 * answer must be one that ember.h lists, and must leave alone what it says it leaves. The functions of ember_entries.h are run on the
 * same damage. Build with the address and undefined-behaviour sanitizers, which see this side; the pages see the library's.
 *
 *     damaged [CALLS [SEED]]      prints how many calls of each function gave which number; ends with 1 at the first that is wrong */
#define _DEFAULT_SOURCE

#include "ember.h"

#include <stdio.h>
#include <stdlib.h>
#include <string.h>
#include <sys/mman.h>

/* ---- chance */

static uint64_t state;

static uint64_t draw(void)
{
    state ^= state << 13;
    state ^= state >> 7;
    state ^= state << 17;
    return state;
}

static uint64_t below(uint64_t count)
{
    return draw() % count;
}

static int one_in(uint64_t count)
{
    return below(count) == 0;
}

/* A word that is often at an edge. */
static uint64_t word(void)
{
    static const uint64_t edges[] = {0,     1,     2,     3,     4,          5,          7,          8,          9,           12,         13,
                                     16,    63,    64,    65,    255,        256,        1024,       1025,       16384,       16385,      17408,
                                     65535, 65536, 65537, 1u << 31, (1u << 31) - 1, UINT64_MAX, UINT64_MAX - 1, (uint64_t)1 << 63, UINT32_MAX};
    return one_in(4) ? draw() : edges[below(sizeof edges / sizeof *edges)];
}

/* ---- lent memory */

enum { SLOTS = 10, PAGES = 40, PAGE = 4096, BEFORE = 64, MARK = 0xc5 };

static struct lent {
    uint8_t *pages, *bytes;
    size_t count;
    uint8_t *was;
} lent[SLOTS];

static const char *calling = "nothing";

static void wrong(const char *what)
{
    printf("%s: %s\n", calling, what);
    exit(1);
}

static void prepare(void)
{
    for (int i = 0; i < SLOTS; i++) {
        lent[i].pages = mmap(NULL, (PAGES + 1) * PAGE, PROT_READ | PROT_WRITE, MAP_PRIVATE | MAP_ANONYMOUS, -1, 0);
        if (lent[i].pages == MAP_FAILED || mprotect(lent[i].pages + PAGES * PAGE, PAGE, PROT_NONE) != 0)
            wrong("no memory");
        lent[i].was = malloc(PAGES * PAGE);
        memset(lent[i].pages, MARK, PAGES * PAGE);
    }
}

/* A slice of so many bytes, up to the page that may not be touched. */
static void *lend(int slot, size_t count)
{
    lent[slot].count = count;
    lent[slot].bytes = lent[slot].pages + PAGES * PAGE - count;
    memset(lent[slot].bytes - BEFORE, MARK, BEFORE);
    return lent[slot].bytes;
}

static void remember(void)
{
    for (int i = 0; i < SLOTS; i++)
        memcpy(lent[i].was, lent[i].bytes, lent[i].count);
}

static int same_from(int slot, size_t from)
{
    return from >= lent[slot].count || memcmp(lent[slot].was + from, lent[slot].bytes + from, lent[slot].count - from) == 0;
}

static int same(int slot)
{
    return same_from(slot, 0);
}

/* ---- what was counted */

static struct tally {
    const char *name;
    uint64_t numbers[47];
} tallies[24];

static uint64_t calls, looks;

static void count(const char *name, uint64_t number)
{
    struct tally *t = tallies;
    while (t->name != NULL && strcmp(t->name, name) != 0)
        t++;
    t->name = name;
    if (number > 46)
        wrong("a number that is none");
    t->numbers[number]++;
    if (name[0] == ' ')
        return; /* a part of a call */
    calls++;
    for (int i = 0; i < SLOTS; i++)
        for (int j = 1; j <= BEFORE; j++)
            if (lent[i].bytes[-j] != MARK)
                wrong("wrote before what was lent");
    if (number == EMBER_SETUP && strcmp(name, "ember_accepts") != 0 && strcmp(name, "ember_desk_is_legal") != 0)
        for (int i = 0; i < SLOTS; i++)
            if (!same(i))
                wrong("1 changed something");
}

/* A length that is mostly right. */
static size_t about(size_t right, size_t most)
{
    size_t n = one_in(24) ? right + below(3) - (right > 0) : one_in(48) ? below(most + 1) : right;
    return n > most ? most : n;
}

/* ---- stock: messages that are right, as bytes and as rows */

enum { STOCK = 64 };
static uint8_t stock[STOCK][2048];
static size_t stock_bytes[STOCK];
static uint64_t desk_path[EMBER_PATH_MAX] = {1, 2};

static size_t part(const char *bytes, size_t length, uint8_t *parts, size_t *at)
{
    size_t start = *at;
    memcpy(parts + start, bytes, length);
    *at += length;
    return start;
}

/* A row of some kind, with some of its members. */
static void grow(ember_row *rows, size_t i, uint8_t *parts, size_t *at)
{
    static const uint64_t kinds[] = {EMBER_KIND_PARAMETER,      EMBER_KIND_NODE,       EMBER_KIND_MATRIX,     EMBER_KIND_QUALIFIED_PARAMETER, EMBER_KIND_QUALIFIED_NODE,
                                     EMBER_KIND_QUALIFIED_MATRIX, EMBER_KIND_COMMAND, EMBER_KIND_CONNECTION, EMBER_KIND_CONNECTION};
    uint64_t kind = kinds[below(9)];
    uint64_t parent = i > 0 && one_in(2) ? i : 0;
    uint64_t *row = rows[i];
    if (i > 0 && ember_kind(rows[i - 1]) == EMBER_KIND_CONNECTION && one_in(2)) {
        kind = EMBER_KIND_CONNECTION;
        parent = rows[i - 1][EMBER_ROW_PARENT];
    } else if (i > 0 && ember_is_matrix(rows[i - 1])) {
        kind = EMBER_KIND_CONNECTION;
        parent = i;
    }
    ember_begin(row, kind, parent);
    if (ember_is_qualified(row)) {
        size_t start = *at;
        ember_encode(desk_path, one_in(4) ? 1 : 2, parts, 2048, at);
        ember_put_bytes(row, EMBER_NUMBER_OR_PATH, EMBER_TYPE_RELATIVE_OID, start, *at - start);
    } else {
        ember_put_integer(row, 0, kind == EMBER_KIND_CONNECTION ? (int64_t)below(9) : 1 + (int64_t)below(2));
    }
    if (kind == EMBER_KIND_CONNECTION) {
        uint64_t sources[4];
        size_t n = below(5), start = *at;
        for (size_t j = 0; j < n; j++)
            sources[j] = below(9);
        ember_encode(sources, n, parts, 2048, at);
        if (n > 0)
            ember_put_bytes(row, EMBER_CONNECTION_SOURCES, EMBER_TYPE_RELATIVE_OID, start, *at - start);
        if (one_in(2))
            ember_put_integer(row, EMBER_CONNECTION_OPERATION, (int64_t)below(3));
    } else if (kind != EMBER_KIND_COMMAND) {
        if (one_in(2))
            ember_put_bytes(row, EMBER_IDENTIFIER, EMBER_TYPE_TEXT, part("_gain9", 6, parts, at), 6);
        if (ember_is_parameter(row)) {
            ember_put_real(row, EMBER_PARAMETER_MINIMUM, (double)(int64_t)draw() / 3);
            ember_put_integer(row, EMBER_PARAMETER_VALUE, (int64_t)draw());
            ember_put_bytes(row, EMBER_PARAMETER_MAXIMUM, EMBER_TYPE_OCTETS, part("\xff\x00", 2, parts, at), 2);
        } else if (ember_is_node(row)) {
            ember_put_boolean(row, EMBER_NODE_ONLINE, (int)below(2));
        } else {
            ember_put_integer(row, EMBER_MATRIX_TARGETS, (int64_t)below(65));
            ember_put_integer(row, EMBER_MATRIX_TYPE, (int64_t)below(3));
        }
    }
}

static void fill_stock(void)
{
    static ember_row rows[16];
    static uint8_t parts[2048];
    for (size_t k = 0; k < STOCK;) {
        uint64_t length[EMBER_WRITE_WORDS];
        size_t n = 1 + below(16), at = 0;
        for (size_t i = 0; i < n; i++)
            grow(rows, i, parts, &at);
        if (ember_write(ember_rows(rows), n, n, EMBER_ELEMENTS, parts, at, stock[k], sizeof *stock, length, EMBER_WRITE_WORDS) == EMBER_DONE)
            stock_bytes[k++] = length[0];
    }
}

static void damage(uint8_t *bytes, size_t length)
{
    for (int i = one_in(2) ? 0 : (int)below(4); i > 0 && length > 0; i--) {
        size_t at = below(length);
        int bit = 1 << below(8);
        bytes[at] = one_in(2) ? (uint8_t)draw() : (uint8_t)(bytes[at] ^ bit);
    }
}

/* A message in a slot: one of the stock, damaged or not, or only noise. */
static size_t lend_message(int slot)
{
    size_t k = below(STOCK), n = one_in(16) ? below(40) : about(stock_bytes[k], 16385);
    uint8_t *bytes = lend(slot, n);
    for (size_t i = 0; i < n; i++)
        bytes[i] = i < stock_bytes[k] ? stock[k][i] : (uint8_t)draw();
    damage(bytes, n);
    return n;
}

static uint64_t *lend_words(int slot, size_t n)
{
    uint64_t *words = lend(slot, 8 * n);
    for (size_t i = 0; i < n; i++)
        words[i] = word();
    return words;
}

/* One of a slot's words, another. */
static void put_word(int slot, size_t words)
{
    size_t at = below(words);
    ((uint64_t *)lent[slot].bytes)[at] = word();
}

static uint8_t *lend_bytes(int slot, size_t n)
{
    uint8_t *bytes = lend(slot, n);
    memset(bytes, (int)draw() & 0xff, n);
    return bytes;
}

static size_t rows_lent(void)
{
    return one_in(40) ? 256 + below(2) : below(24);
}

static ember_row *lend_table(int slot, size_t rows)
{
    ember_row *table = lend(slot, rows * sizeof *table);
    memset(table, (int)draw() & 0xff, rows * sizeof *table);
    return table;
}

/* Rows in a slot that the message in another was read into, damaged or not; how many. */
static size_t read_rows(int slot, int message, size_t rows, uint64_t *root)
{
    ember_row *table = lend_table(slot, rows);
    uint64_t told[EMBER_READ_WORDS] = {0};
    size_t n = ember_read(lent[message].bytes, lent[message].count, table, rows, told, EMBER_READ_WORDS) == EMBER_DONE ? told[EMBER_COUNT] : below(rows + 2);
    *root = one_in(20) ? word() : told[EMBER_ROOT];
    for (int i = one_in(2) ? 0 : (int)below(6); i > 0 && rows > 0; i--) {
        uint64_t *row = table[below(n > 0 && n <= rows ? n : rows)];
        size_t at = below(EMBER_ROW_WORDS);
        row[at] = word();
    }
    return one_in(20) ? below(rows + 2) : n;
}

/* ---- the session, which goes on from call to call */

static uint64_t session[EMBER_SESSION_WORDS];
static uint8_t store[EMBER_STORE_BYTES];
static uint8_t stream[8192];
static size_t stream_bytes, stream_at;

/* A packet with flags, DTD and length of its own, so that messages come in pieces and headers are wrong in places. */
static uint64_t packet(uint8_t *content, size_t payload)
{
    static const uint8_t flags[] = {0x80, 0x80, 0x00, 0x00, 0x00, 0x40, 0xc0, 0x20, 0xe0, 0x81};
    static const uint8_t head[] = {0x00, 0x0e, 0x00, 0x01, 0xc0, 0x01, 0x02, 0x14, 0x02};
    uint64_t n = 0;
    memcpy(content, head, sizeof head);
    content[4] = payload == 0 ? 0xe0 : flags[below(sizeof flags)];
    if (one_in(40))
        damage(content, sizeof head);
    ember_write_frame(content, sizeof head + payload, stream, sizeof stream, &n);
    return n;
}

/* What comes next on the stream: keep-alives, noise in frames, packets, messages right or wrong; then bytes damaged in places. */
static void more_stream(void)
{
    static uint8_t message[2048];
    size_t k = below(STOCK);
    uint64_t n = 0;
    memcpy(message, stock[k], stock_bytes[k]);
    stream_at = 0;
    if (one_in(8))
        ember_write_request(stream, sizeof stream, &n);
    else if (one_in(8))
        ember_write_response(stream, sizeof stream, &n);
    else if (one_in(8))
        ember_write_frame(message, below(20), stream, sizeof stream, &n);
    else if (one_in(3))
        n = packet(message, one_in(2) ? 1000 + below(14) : below(60));
    else {
        damage(message, stock_bytes[k]);
        ember_write_message(message, stock_bytes[k], stream, sizeof stream, &n);
    }
    stream_bytes = n;
    if (one_in(3))
        damage(stream, stream_bytes);
}

static size_t lend_stream(int session_slot, int store_slot, int chunk_slot, size_t *words, size_t *bytes)
{
    size_t n;
    if (stream_at == stream_bytes)
        more_stream();
    n = one_in(3) ? below(stream_bytes - stream_at + 1) : stream_bytes - stream_at;
    *words = about(EMBER_SESSION_WORDS, 6);
    *bytes = one_in(60) ? EMBER_STORE_BYTES - 1 + below(3) : EMBER_STORE_BYTES;
    lend_words(session_slot, *words);
    if (*words == EMBER_SESSION_WORDS)
        memcpy(lent[session_slot].bytes, session, sizeof session);
    if (one_in(20) && *words > 0)
        put_word(session_slot, *words);
    lend_bytes(store_slot, *bytes);
    memcpy(lent[store_slot].bytes, store, *bytes < sizeof store ? *bytes : sizeof store);
    memcpy(lend(chunk_slot, n), stream + stream_at, n);
    return n;
}

static void stream_went(uint64_t number, int session_slot, int store_slot, uint64_t consumed, size_t chunk)
{
    if (number == EMBER_SETUP) {
        stream_at = stream_bytes;
        ember_start(session, EMBER_SESSION_WORDS);
        return;
    }
    if (consumed > chunk || (number == EMBER_DONE && consumed != chunk))
        wrong("consumed more than it was offered, or stopped with no event");
    stream_at += consumed;
    memcpy(session, lent[session_slot].bytes, sizeof session);
    memcpy(store, lent[store_slot].bytes, sizeof store);
}

static void feed(void)
{
    size_t words, bytes, chunk = lend_stream(0, 1, 2, &words, &bytes), k = about(EMBER_FEED_WORDS, 9);
    uint64_t *answer = lend_words(3, k), number;
    remember();
    number = ember_feed((uint64_t *)lent[0].bytes, words, lent[1].bytes, bytes, lent[2].bytes, chunk, answer, k);
    count("ember_feed", number);
    if (number != EMBER_SETUP && answer[EMBER_LENGTH] > EMBER_MESSAGE_MAX)
        wrong("a message too long");
    stream_went(number, 0, 1, number == EMBER_SETUP ? 0 : answer[EMBER_CONSUMED], chunk);
}

/* ---- the desk */

static uint8_t crosspoints[EMBER_CROSSPOINTS];
static uint64_t figures[EMBER_FIGURES_WORDS] = {2, 8, 8, 0, 0, 0, 0};

static void lend_desk(int f, int p, int c, size_t *words, size_t *numbers, size_t *cells)
{
    *words = about(EMBER_FIGURES_WORDS, 9);
    *numbers = about(2, 18);
    *cells = (size_t)ember_desk_size(figures, EMBER_FIGURES_WORDS);
    if (one_in(60))
        *cells = one_in(2) ? *cells - 1 : *cells + 1;
    lend_words(f, *words);
    if (!one_in(30))
        memcpy(lent[f].bytes, figures, *words < EMBER_FIGURES_WORDS ? 8 * *words : sizeof figures);
    if (one_in(20) && *words > 0)
        put_word(f, *words);
    lend_words(p, *numbers);
    if (!one_in(30))
        memcpy(lent[p].bytes, desk_path, (*numbers < 2 ? *numbers : 2) * 8);
    lend_bytes(c, *cells);
    memcpy(lent[c].bytes, crosspoints, *cells < sizeof crosspoints ? *cells : sizeof crosspoints);
    if (one_in(40) && *cells > 0)
        damage(lent[c].bytes, *cells);
}

/* A desk that was served stays; sometimes a new one. */
static void desk_went(uint64_t number, int f, int c, size_t words)
{
    if (number == EMBER_DONE && words == EMBER_FIGURES_WORDS) {
        memcpy(figures, lent[f].bytes, sizeof figures);
        memcpy(crosspoints, lent[c].bytes, (size_t)ember_desk_size(figures, EMBER_FIGURES_WORDS));
    }
    if (one_in(50)) {
        memset(crosspoints, 0, sizeof crosspoints);
        figures[0] = below(3);
        figures[1] = 1 + below(EMBER_SIDE_MAX);
        figures[2] = 1 + below(EMBER_SIDE_MAX);
        figures[3] = below(2);
        figures[4] = figures[3] * (1 + below(12));
        figures[5] = below(2);
        figures[6] = figures[5] * (1 + below(4));
    }
}

static void desk_size(void)
{
    size_t words, numbers, cells;
    uint64_t number;
    lend_desk(0, 1, 2, &words, &numbers, &cells);
    remember();
    number = ember_desk_size((uint64_t *)lent[0].bytes, words);
    count("ember_desk_size", number > 0);
    if (number > EMBER_CROSSPOINTS || !same(0))
        wrong("more than the largest desk has");
}

static void desk_open(void)
{
    size_t words, numbers, cells;
    uint64_t number;
    lend_desk(0, 1, 2, &words, &numbers, &cells);
    remember();
    number = ember_desk_open((uint64_t *)lent[0].bytes, words, one_in(10) ? word() : 0, (uint64_t *)lent[1].bytes, numbers, lent[2].bytes, cells);
    count("ember_desk_open", number);
    if (number != EMBER_DONE && !same(2))
        wrong("a desk that was not opened was changed");
    if (number == EMBER_DONE && ember_desk_is_legal((uint64_t *)lent[0].bytes, words, (uint64_t *)lent[1].bytes, numbers, lent[2].bytes, cells) != 1)
        wrong("opened, and not legal");
    desk_went(number, 0, 2, words);
}

static void desk_is_legal(void)
{
    size_t words, numbers, cells;
    uint64_t number;
    lend_desk(0, 1, 2, &words, &numbers, &cells);
    remember();
    number = ember_desk_is_legal((uint64_t *)lent[0].bytes, words, (uint64_t *)lent[1].bytes, numbers, lent[2].bytes, cells);
    count("ember_desk_is_legal", number);
    if (number > 1 || !same(2))
        wrong("neither 1 nor 0");
}

static void desk_request(void)
{
    size_t words, numbers, cells, n = below(9);
    uint64_t number, *sources, target = one_in(20) ? word() : below(9), operation = one_in(20) ? word() : below(3);
    int legal;
    lend_desk(0, 1, 2, &words, &numbers, &cells);
    sources = lend_words(3, n);
    for (size_t i = 0; i < n; i++)
        sources[i] = one_in(20) ? word() : below(9);
    remember();
    legal = ember_desk_is_legal((uint64_t *)lent[0].bytes, words, desk_path, 2, lent[2].bytes, cells) == 1;
    number = ember_desk_request((uint64_t *)lent[0].bytes, words, target, sources, n, operation, lent[2].bytes, cells);
    count("ember_desk_request", number);
    if (number != EMBER_DONE && !same(2))
        wrong("a refused request changed crosspoints");
    if (!legal && number != EMBER_SETUP)
        wrong("served a desk that is not legal");
    if (legal && ember_desk_is_legal((uint64_t *)lent[0].bytes, words, desk_path, 2, lent[2].bytes, cells) != 1)
        wrong("a legal desk is legal no more");
    desk_went(number, 0, 2, words);
}

static void desk_call(void)
{
    size_t words, numbers, cells, rows = rows_lent(), bytes = lend_message(4), k = about(EMBER_CALL_WORDS, 3), n;
    uint64_t number, root, *answer;
    uint8_t *answers;
    lend_desk(0, 1, 2, &words, &numbers, &cells);
    n = read_rows(3, 4, rows > 256 ? 256 : rows, &root);
    rows = lent[3].count / sizeof(ember_row);
    answers = lend_bytes(5, EMBER_ANSWERS_MAX);
    answer = lend_words(6, k);
    remember();
    number = ember_desk_call((uint64_t *)lent[0].bytes, words, (uint64_t *)lent[1].bytes, numbers, ember_rows((ember_row *)lent[3].bytes), rows, n, root, lent[4].bytes, bytes,
                             lent[2].bytes, cells, answers, answer, k);
    count("ember_desk_call", number);
    if (number == EMBER_DONE && answer[0] > n)
        wrong("more answers than entries");
    for (size_t i = EMBER_ANSWERS_MAX; number == EMBER_DONE && i-- > answer[0];)
        if (answers[i] != 0)
            wrong("no zeros after the answers");
    if (number == EMBER_SETUP && !same(5))
        wrong("refused, and other answers");
    for (size_t i = 0; number == EMBER_DONE && i < answer[0]; i++)
        if (answers[i] != EMBER_DONE && (answers[i] < EMBER_NO_MATRIX || answers[i] > EMBER_BAD_TOTAL))
            wrong("an answer that is none");
    desk_went(number, 0, 2, words);
}

/* ---- the tree */

/* Every function of ember_entries.h on a row and a message, whatever they hold. */
static void look(const ember_row *table, size_t rows, const uint8_t *message, size_t bytes)
{
    uint64_t numbers[EMBER_PATH_MAX];
    int64_t integer;
    double real;
    int boolean;
    const char *text;
    const uint8_t *octets;
    size_t n;
    for (size_t i = 0; i < rows; i++) {
        const uint64_t *row = table[i];
        looks++;
        if (ember_path(table, rows, i, message, bytes, numbers) > EMBER_PATH_MAX)
            wrong("a path over 16");
        if (ember_number(row, message, bytes) > INT64_MAX)
            wrong("a number over its type");
        if (ember_has_parent(row) && ember_parent(row) + 1 != row[EMBER_ROW_PARENT])
            wrong("another parent");
        if (ember_is_parameter(row) + ember_is_node(row) + ember_is_matrix(row) > 1)
            wrong("two kinds");
        for (size_t member = 0; member < 17; member++) {
            int kinds = ember_integer(row, member, &integer) + ember_real(row, member, &real) + ember_boolean(row, member, &boolean)
                      + ember_text(row, member, message, bytes, &text, &n) + ember_octets(row, member, message, bytes, &octets, &n);
            if (kinds > 1 || (kinds == 1 && !ember_has(row, member)))
                wrong("two types");
            if (ember_text(row, member, message, bytes, &text, &n))
                for (size_t j = 0; j < n; j++)
                    boolean ^= text[j];
            ember_numbers(row, member, message, bytes, numbers, EMBER_PATH_MAX);
        }
    }
}

static void read_tree(void)
{
    size_t rows = rows_lent(), bytes = lend_message(0), k = about(EMBER_READ_WORDS, 9);
    ember_row *table = lend_table(1, rows);
    uint64_t *answer = lend_words(2, k), number;
    remember();
    number = ember_read(lent[0].bytes, bytes, table, rows, answer, k);
    count("ember_read", number);
    if (number != EMBER_DONE && !same(1))
        wrong("a refusal changed the table");
    if (number == EMBER_DONE && (answer[EMBER_COUNT] > rows || !same_from(1, answer[EMBER_COUNT] * sizeof *table)))
        wrong("rows past the count");
    if (number >= EMBER_BAD_BER && number <= EMBER_BAD_PATH && answer[EMBER_PLACE] > bytes)
        wrong("a place past the message");
    if (number == EMBER_NO_ROOM && answer[EMBER_COUNT] <= rows)
        wrong("there was room");
    look(ember_rows(table), rows > 24 ? 24 : rows, lent[0].bytes, bytes);
}

static void write_tree(void)
{
    size_t rows = below(24), bytes = lend_message(0), n, m = one_in(3) ? below(200) : EMBER_MESSAGE_MAX, k = about(EMBER_WRITE_WORDS, 3);
    uint64_t root, *answer, number, accepted;
    uint8_t *out;
    n = read_rows(1, 0, rows, &root);
    out = lend_bytes(2, m);
    answer = lend_words(3, k);
    remember();
    accepted = ember_accepts(ember_rows((ember_row *)lent[1].bytes), rows, n, root, lent[0].bytes, bytes);
    count("ember_accepts", accepted);
    number = ember_write(ember_rows((ember_row *)lent[1].bytes), rows, n, root, lent[0].bytes, bytes, out, m, answer, k);
    count("ember_write", number);
    if (number == EMBER_NO_OUT && !same(2))
        wrong("46 changed the output");
    if (number == EMBER_DONE && (answer[0] > m || !same_from(2, answer[0])))
        wrong("bytes past the message");
    if (number == EMBER_DONE && !accepted)
        wrong("wrote what is not accepted");
    look(ember_rows((ember_row *)lent[1].bytes), rows, lent[0].bytes, bytes);
}

static void write_frames(void)
{
    size_t n = one_in(8) ? 1000 + below(50) : below(80), m = one_in(2) ? below(200) : 4096;
    uint8_t *content = lend(0, n), *out = lend_bytes(1, m);
    uint64_t *length = lend_words(2, 1), before = length[0], number;
    const char *name;
    for (size_t i = 0; i < n; i++)
        content[i] = (uint8_t)draw();
    remember();
    switch (below(4)) {
    case 0:
        number = ember_write_frame(content, n, out, m, length), name = "ember_write_frame";
        break;
    case 1:
        number = ember_write_message(content, n, out, m, length), name = "ember_write_message";
        break;
    case 2:
        number = ember_write_request(out, m, length), name = "ember_write_request";
        break;
    default:
        number = ember_write_response(out, m, length), name = "ember_write_response";
    }
    count(name, number);
    if (number == EMBER_NO_OUT && (!same(1) || length[0] != before))
        wrong("46 changed the output or the count");
    if (number == EMBER_DONE && (length[0] > m || !same_from(1, length[0])))
        wrong("bytes past the frames");
}

/* ---- a whole turn */

static void turn(void)
{
    size_t words, bytes, figure_words, numbers, cells, rows = rows_lent(), k = about(EMBER_TURN_WORDS, 12);
    size_t chunk = lend_stream(0, 1, 2, &words, &bytes);
    ember_row *table = lend_table(3, rows);
    uint64_t *answer, number;
    uint8_t *answers;
    lend_desk(4, 5, 6, &figure_words, &numbers, &cells);
    answers = lend_bytes(7, EMBER_ANSWERS_MAX);
    answer = lend_words(8, k);
    remember();
    number = ember_turn((uint64_t *)lent[0].bytes, words, lent[1].bytes, bytes, lent[2].bytes, chunk, table, rows, (uint64_t *)lent[4].bytes, figure_words,
                        (uint64_t *)lent[5].bytes, numbers, lent[6].bytes, cells, answers, answer, k);
    count("ember_turn", number);
    if (number == EMBER_MESSAGE) {
        count("  its tree", answer[EMBER_TURN_TREE]);
        if (answer[EMBER_TURN_TREE] == EMBER_DONE)
            count("  its desk", answer[EMBER_TURN_DESK]);
        if (answer[EMBER_TURN_TREE] != EMBER_DONE && (!same(3) || !same(6)))
            wrong("a refused tree changed table or crosspoints");
        if (answer[EMBER_TURN_TREE] == EMBER_DONE && answer[EMBER_TURN_ANSWERS] > answer[EMBER_TURN_COUNT])
            wrong("more answers than entries");
        if (answer[EMBER_TURN_TREE] == EMBER_DONE && answer[EMBER_TURN_DESK] == EMBER_DONE)
            desk_went(EMBER_DONE, 4, 6, figure_words);
    } else if (!same(3) || !same(6)) {
        wrong("no message, and table or crosspoints changed");
    }
    for (size_t i = EMBER_ANSWERS_MAX; number != EMBER_SETUP && i-- > answer[EMBER_TURN_ANSWERS];)
        if (answers[i] != 0)
            wrong("no zeros after the answers");
    if (number == EMBER_SETUP && !same(7))
        wrong("refused, and other answers");
    stream_went(number, 0, 1, number == EMBER_SETUP ? 0 : answer[EMBER_CONSUMED], chunk);
}

/* ---- route sheets */

static uint8_t sheet[EMBER_SHEET_MAX];
static size_t sheet_bytes;

static void write_sheet(void)
{
    size_t words, numbers, cells, m = one_in(3) ? below(3000) : EMBER_SHEET_MAX, k = about(EMBER_SHEET_WORDS, 3);
    uint64_t *answer, number;
    lend_desk(0, 1, 2, &words, &numbers, &cells);
    lend_bytes(3, m);
    answer = lend_words(4, k);
    remember();
    number = ember_sheet_write((uint64_t *)lent[0].bytes, words, (uint64_t *)lent[1].bytes, numbers, lent[2].bytes, cells, lent[3].bytes, m, answer, k);
    count("ember_sheet_write", number);
    if (number == EMBER_NO_OUT && !same(3))
        wrong("46 changed the output");
    if (number == EMBER_DONE && (answer[0] > m || !same_from(3, answer[0])))
        wrong("bytes past the sheet");
    if (number == EMBER_DONE) {
        memcpy(sheet, lent[3].bytes, answer[0]);
        sheet_bytes = answer[0];
    }
}

/* One or two of its characters other ones: hexadecimal digits, line ends or anything. */
static void damage_text(uint8_t *text, size_t length)
{
    static const char characters[] = "0123456789abcdefABCDEF\n\n\r gG";
    for (int i = one_in(2) ? 0 : (int)below(3); i > 0 && length > 0; i--) {
        size_t at = below(length);
        text[at] = one_in(8) ? (uint8_t)draw() : (uint8_t)characters[below(sizeof characters - 1)];
    }
}

static void read_sheet(void)
{
    size_t n = about(sheet_bytes, EMBER_SHEET_MAX), bytes = one_in(60) ? EMBER_STORE_BYTES - 1 + below(3) : EMBER_STORE_BYTES;
    size_t words = about(EMBER_FIGURES_WORDS, 9), numbers = about(EMBER_PATH_MAX, 18), cells = one_in(60) ? EMBER_CROSSPOINTS - 1 + below(3) : EMBER_CROSSPOINTS;
    size_t k = about(EMBER_SHEET_WORDS, 3);
    uint8_t *text = lend(0, n);
    uint64_t *answer, number;
    memcpy(text, sheet, n);
    damage_text(text, n);
    lend_bytes(1, bytes);
    lend_words(2, words);
    lend_words(3, numbers);
    lend_bytes(4, cells);
    answer = lend_words(5, k);
    remember();
    number = ember_sheet_read(text, n, lent[1].bytes, bytes, (uint64_t *)lent[2].bytes, words, (uint64_t *)lent[3].bytes, numbers, lent[4].bytes, cells, answer, k);
    count("ember_sheet_read", number);
    if (number != EMBER_DONE && (!same(2) || !same(3) || !same(4)))
        wrong("a refusal changed figures, path or crosspoints");
    if (number == EMBER_DONE && (answer[0] < 1 || answer[0] > EMBER_PATH_MAX || !same_from(3, 8 * answer[0])))
        wrong("another path");
    if (number == EMBER_DONE) {
        size_t size = (size_t)ember_desk_size((uint64_t *)lent[2].bytes, words);
        if (ember_desk_is_legal((uint64_t *)lent[2].bytes, words, (uint64_t *)lent[3].bytes, answer[0], lent[4].bytes, size) != 1)
            wrong("read, and not legal");
        if (!same_from(4, size))
            wrong("crosspoints past the desk's");
    }
}

static void start(void)
{
    size_t n = about(EMBER_SESSION_WORDS, 6);
    uint64_t *words = lend_words(0, n), number;
    remember();
    number = ember_start(words, n);
    count("ember_start", number);
    if ((number == EMBER_DONE) != (n == EMBER_SESSION_WORDS))
        wrong("a session of other words");
}

int main(int words, char **word_of)
{
    static const struct {
        const char *name;
        void (*call)(void);
    } all[] = {
        {"ember_feed", feed},           {"ember_turn", turn},           {"ember_turn", turn},     {"ember_read", read_tree},         {"ember_write", write_tree},
        {"ember_write_", write_frames}, {"ember_desk_open", desk_open}, {"ember_start", start},   {"ember_desk_call", desk_call},    {"ember_desk_request", desk_request},
        {"ember_desk_is_legal", desk_is_legal}, {"ember_desk_size", desk_size}, {"ember_sheet_write", write_sheet}, {"ember_sheet_read", read_sheet},
    };
    uint64_t wanted = words > 1 ? strtoull(word_of[1], NULL, 10) : 1000000;
    state = words > 2 ? strtoull(word_of[2], NULL, 10) : 20250101;
    prepare();
    for (int i = 0; i < SLOTS; i++)
        lend(i, 0);
    ember_start(session, EMBER_SESSION_WORDS);
    fill_stock();
    while (calls < wanted) {
        size_t i = below(sizeof all / sizeof *all);
        for (int j = 0; j < SLOTS; j++)
            lend(j, 0);
        calling = all[i].name;
        all[i].call();
    }
    for (struct tally *t = tallies; t->name != NULL; t++) {
        printf("%s:", t->name);
        for (int n = 0; n < 47; n++)
            if (t->numbers[n] != 0)
                printf(" %d*%llu", n, (unsigned long long)t->numbers[n]);
        printf("\n");
    }
    printf("calls of the library: %llu, rows looked at: %llu\n", (unsigned long long)calls, (unsigned long long)looks);
    return 0;
}
