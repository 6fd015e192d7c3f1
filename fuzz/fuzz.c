/* A fuzz harness for libFuzzer over all three C libraries. Every lent slice stands between two pages that may not be touched, at one of them, with
 * marked bytes on its other side; and what the headers promise is asked of every answer: that the stream's cuts do not matter, that what is written is
 * read back and what is read is written again as the same bytes, that a refusal leaves all as it was, that a legal desk stays legal, that ember_why says a
 * tree exactly where ember_accepts does. The library is not instrumented: what it answers guides the fuzzer, by extra counters.
 *
 *     make -C fuzz run TIME=300 */
#define _DEFAULT_SOURCE

#include "ember.h"
#include "ember_text.h"
#include "framing.h"
#include "supervision.h"

#include <stdio.h>
#include <stdlib.h>
#include <string.h>
#include <sys/mman.h>

int LLVMFuzzerTestOneInput(const uint8_t *data, size_t size);

/* ---- what guides the fuzzer */

__attribute__((section("__libfuzzer_extra_counters"))) static uint8_t counters[1 << 16];

static void seen(uint64_t a, uint64_t b, uint64_t c, uint64_t d)
{
    uint64_t hash = a;
    hash = hash * 0x9e3779b97f4a7c15u + b;
    hash = hash * 0x9e3779b97f4a7c15u + c;
    hash = hash * 0x9e3779b97f4a7c15u + d;
    hash ^= hash >> 29;
    counters[hash * 0x9e3779b97f4a7c15u >> 48] = 1;
}

/* ---- what is counted: calls of each function by the number answered, printed at the end */

static struct {
    const char *name;
    uint64_t numbers[48];
} tallies[64];
static uint64_t runs, calls;

static void report(void)
{
    printf("%llu runs, %llu calls\n", (unsigned long long)runs, (unsigned long long)calls);
    for (size_t i = 0; i < 64 && tallies[i].name != NULL; i++) {
        printf("%s", tallies[i].name);
        for (int n = 0; n < 48; n++)
            if (tallies[i].numbers[n] != 0)
                printf(" %d:%llu", n, (unsigned long long)tallies[i].numbers[n]);
        printf("\n");
    }
}

static uint64_t tally(const char *name, uint64_t number)
{
    size_t i = 0;
    while (tallies[i].name != NULL && strcmp(tallies[i].name, name) != 0)
        i++;
    tallies[i].name = name;
    tallies[i].numbers[number < 47 ? number : 47]++;
    calls++;
    return number;
}

static void must(int right, const char *what)
{
    if (!right) {
        fprintf(stderr, "not so: %s\n", what);
        abort();
    }
}

/* ---- the input */

static const uint8_t *next;
static size_t left;

static uint64_t byte(void)
{
    if (left == 0)
        return 0;
    left--;
    return *next++;
}

static uint64_t below(uint64_t count)
{
    return byte() % count;
}

static uint64_t word(void)
{
    static const uint64_t edges[] = {0,     1,     2,          63,          64,         65,         255,               256, 1024, 1025,
                                     16384, 16385, 2147483647, 2147483648u, UINT32_MAX, UINT64_MAX, (uint64_t)1 << 63};
    uint64_t how = byte(), value = 0;
    if (how < 128)
        return how;
    if (how < 128 + sizeof edges / sizeof *edges)
        return edges[how - 128];
    for (uint64_t i = 0; i < how % 8 + 1; i++)
        value = value << 8 | byte();
    return value;
}

/* ---- lent memory */

enum { SLOTS = 12, PAGE = 4096, ROOM = 40 * PAGE, MARKED = 64, MARK = 0xc5 };

static struct {
    uint8_t *room, *bytes, *was;
    size_t count;
    int used;
} lent[SLOTS];
static int slots;
static int at_end;

static void prepare(void)
{
    for (int i = 0; i < SLOTS; i++) {
        uint8_t *pages = mmap(NULL, ROOM + 2 * PAGE, PROT_NONE, MAP_PRIVATE | MAP_ANONYMOUS, -1, 0);
        must(pages != MAP_FAILED && mprotect(pages + PAGE, ROOM, PROT_READ | PROT_WRITE) == 0, "memory");
        lent[i].room = pages + PAGE;
        lent[i].was = malloc(ROOM);
    }
    atexit(report);
}

/* A slice of so many bytes, with these in it where they are given, at the page before or after. */
static void *lend(size_t count, const void *content)
{
    int i = slots++;
    must(i < SLOTS && count <= ROOM, "a slot");
    lent[i].count = count;
    lent[i].bytes = at_end ? lent[i].room + ROOM - count : lent[i].room;
    if (count + MARKED <= ROOM)
        memset(at_end ? lent[i].bytes - MARKED : lent[i].bytes + count, MARK, MARKED);
    if (content != NULL)
        memcpy(lent[i].bytes, content, count);
    else
        memset(lent[i].bytes, 0xee, count);
    return lent[i].bytes;
}

static void begin(void)
{
    slots = 0;
    at_end = !at_end;
}

static void remember(void)
{
    for (int i = 0; i < slots; i++)
        memcpy(lent[i].was, lent[i].bytes, lent[i].count);
}

static int same(const void *slice)
{
    for (int i = 0; i < slots; i++)
        if (lent[i].bytes == slice)
            return memcmp(lent[i].was, slice, lent[i].count) == 0;
    must(0, "lent");
    return 0;
}

/* After a call: nothing beside what was lent is touched; and after 1 nothing that was lent. */
static uint64_t done(const char *name, uint64_t number)
{
    for (int i = 0; i < slots; i++)
        if (lent[i].count + MARKED <= ROOM)
            for (int j = 0; j < MARKED; j++)
                must((at_end ? lent[i].bytes - MARKED : lent[i].bytes + lent[i].count)[j] == MARK, "nothing beside what is lent is touched");
    if (number == 1 && strcmp(name, "ember_accepts") != 0 && strcmp(name, "ember_desk_is_legal") != 0)
        for (int i = 0; i < slots; i++)
            must(same(lent[i].bytes), "1 leaves everything as it was");
    must(number <= 46, "a number that is listed");
    must(strcmp(ember_say(number), "no such number") != 0, "a number that is said");
    return tally(name, number);
}

/* ---- streams: raw bytes, frames around content, and messages in frames, as the input says */

static uint8_t stream[1 << 16];
static size_t stream_bytes;

static void make_stream(void)
{
    stream_bytes = 0;
    while (left > 0 && stream_bytes < sizeof stream - EMBER_FRAMES_MAX) {
        uint64_t what = byte(), count = byte(), written = 0;
        if (what & 4)
            count |= byte() << 8;
        if (count > left)
            count = left;
        if (what % 4 == 0) {
            memcpy(stream + stream_bytes, next, count);
            written = count;
        } else if (what % 4 == 1) {
            ember_write_frame(next, count, stream + stream_bytes, EMBER_FRAMES_MAX, &written);
        } else if (what % 4 == 2) {
            ember_write_message(next, count, stream + stream_bytes, EMBER_FRAMES_MAX, &written);
        } else if (what & 8) {
            ember_write_request(stream + stream_bytes, EMBER_FRAMES_MAX, &written);
        } else {
            /* a packet by its flags */
            uint8_t content[9 + 1013] = {0x00, 0x0e, 0x00, 0x01, (uint8_t)byte(), 0x01, 0x02, 0x14, 0x02};
            count = count > left ? left : count;
            count = count > 1013 ? 1013 : count;
            memcpy(content + 9, next, count);
            ember_write_frame(content, 9 + count, stream + stream_bytes, EMBER_FRAMES_MAX, &written);
        }
        next += what % 4 == 3 && (what & 8) ? 0 : count;
        left -= what % 4 == 3 && (what & 8) ? 0 : count;
        stream_bytes += written;
    }
}

/* ---- the session: whole and in chunks, the same events at the same places, from both libraries */

static void sessions(void)
{
    enum { MOST = 4096 };
    static struct { uint64_t number, at, discarded, length, sum; } events[2][MOST];
    size_t counts[2] = {0, 0};
    uint8_t cuts = (uint8_t)byte();
    make_stream();
    for (int run = 0; run < 2; run++) {
        uint64_t *session, *answer;
        uint8_t *store, *chunk;
        begin();
        session = lend(8 * EMBER_SESSION_WORDS, NULL);
        store = lend(EMBER_STORE_BYTES, NULL);
        answer = lend(8 * EMBER_FEED_WORDS, NULL);
        remember();
        done("ember_start", ember_start(session, EMBER_SESSION_WORDS));
        for (size_t at = 0; at < stream_bytes || at == 0;) {
            size_t offered = stream_bytes - at, most = run == 0 ? stream_bytes : 1 + (cuts * (at + 1) >> 3) % 97;
            uint64_t number;
            offered = offered < most ? offered : most;
            slots = 3;
            chunk = lend(offered, stream + at);
            remember();
            if (run == 0)
                number = done("ember_feed", ember_feed(session, EMBER_SESSION_WORDS, store, EMBER_STORE_BYTES, chunk, offered, answer, EMBER_FEED_WORDS));
            else
                number = done("framing_feed", framing_feed(session, EMBER_SESSION_WORDS, store, EMBER_STORE_BYTES, chunk, offered, answer, EMBER_FEED_WORDS));
            must(number != EMBER_SETUP && same(chunk), "a session goes on");
            must(answer[EMBER_CONSUMED] <= offered && (number != EMBER_DONE || answer[EMBER_CONSUMED] == offered), "consumed");
            at += answer[EMBER_CONSUMED];
            seen(1, number, session[0], answer[EMBER_DISCARDED] * 8 + session[2]);
            if (number != EMBER_DONE && counts[run] < MOST) {
                uint64_t sum = 0;
                for (uint64_t i = 0; i < answer[EMBER_LENGTH]; i++)
                    sum = sum * 31 + store[i];
                events[run][counts[run]].number = number;
                events[run][counts[run]].at = at;
                events[run][counts[run]].discarded = answer[EMBER_DISCARDED];
                events[run][counts[run]].length = answer[EMBER_LENGTH];
                events[run][counts[run]++].sum = sum;
            }
            if (stream_bytes == 0)
                break;
        }
    }
    must(counts[0] == counts[1] && memcmp(events[0], events[1], counts[0] * sizeof events[0][0]) == 0, "the cuts do not matter");
}

/* Any words for a session's. */
static void words(void)
{
    uint64_t *session, *answer, number, before;
    uint8_t *store, *chunk;
    size_t offered;
    begin();
    session = lend(8 * EMBER_SESSION_WORDS, NULL);
    for (int i = 0; i < EMBER_SESSION_WORDS; i++)
        session[i] = word();
    store = lend(byte() < 250 ? EMBER_STORE_BYTES : EMBER_STORE_BYTES - 1, NULL);
    answer = lend(8 * EMBER_FEED_WORDS, NULL);
    offered = left < 4000 ? left : 4000;
    chunk = lend(offered, next);
    remember();
    before = session[0];
    number = done("ember_feed", ember_feed(session, EMBER_SESSION_WORDS, store, lent[1].count, chunk, offered, answer, EMBER_FEED_WORDS));
    seen(2, number, before < 8 ? before : 8, session[0] < 8 ? session[0] : 8);
}

/* ---- the tree */

static ember_row first_rows[EMBER_ROWS_MAX];

/* The same tree: kinds, parents and members by content. */
static int same_tree(const ember_row *a, const uint8_t *bytes_a, size_t count_a, const ember_row *b, const uint8_t *bytes_b, size_t count_b, size_t rows)
{
    for (size_t i = 0; i < rows; i++) {
        if (a[i][0] != b[i][0] || a[i][1] != b[i][1])
            return 0;
        for (size_t m = 0; m < 16; m++) {
            const uint64_t *x = a[i] + 2 + 3 * m, *y = b[i] + 2 + 3 * m;
            const uint8_t *s, *t;
            size_t n, k;
            if (x[0] != y[0])
                return 0;
            if (ember_bytes(a[i], m, x[0], bytes_a, count_a, &s, &n)) {
                if (!ember_bytes(b[i], m, y[0], bytes_b, count_b, &t, &k) || n != k || memcmp(s, t, n) != 0)
                    return 0;
            } else if (x[1] != y[1] || x[2] != y[2]) {
                return 0;
            }
        }
    }
    return 1;
}

/* Rows and their parts, of which some are a tree: accepted or not, and why; written, read back as the same tree, and written again as the same bytes. */
static void write_rows(const ember_row *rows, size_t count, uint64_t root, const uint8_t *parts, size_t parts_bytes, int must_accept)
{
    static uint8_t message[EMBER_MESSAGE_MAX];
    uint64_t accepted, number, cause, *length;
    const ember_row *table;
    uint8_t *out, *bytes;
    size_t row = 0, member = 0, room = EMBER_MESSAGE_MAX;
    begin();
    table = lend(count * sizeof *rows, rows);
    bytes = lend(parts_bytes, parts);
    out = lend(room, NULL);
    length = lend(8 * EMBER_WRITE_WORDS, NULL);
    remember();
    accepted = done("ember_accepts", ember_accepts(table, count, count, root, bytes, parts_bytes));
    must(!must_accept || accepted, "what is read is accepted");
    cause = ember_why(table, count, count, root, bytes, parts_bytes, &row, &member);
    must((cause == EMBER_WHY_TREE) == (accepted == 1), "ember_why says a tree exactly where ember_accepts does");
    if (!accepted && cause != EMBER_WHY_COUNT && cause != EMBER_WHY_ROOT)
        must(row < count && ember_accepts(table, count, row, root, bytes, parts_bytes) && !ember_accepts(table, count, row + 1, root, bytes, parts_bytes),
             "the row that ember_why names is the first that is wrong");
    seen(3, cause, cause == EMBER_WHY_TREE || count == 0 ? 0 : ember_kind(rows[row < count ? row : 0]) % 16, member);
    tally("ember_why", cause);
    number = done("ember_write", ember_write(table, count, count, root, bytes, parts_bytes, out, room, length, EMBER_WRITE_WORDS));
    must(number == (accepted ? number : EMBER_NO_OUT), "only a tree is written");
    if (number == EMBER_NO_OUT) {
        must(same(out) && length[0] == 0, "46 leaves the output as it was");
        return;
    }
    must(number == EMBER_DONE && length[0] <= room, "written");
    room = (size_t)length[0];
    memcpy(message, out, room);
    {
        static ember_row again[EMBER_ROWS_MAX];
        uint64_t *answer, told;
        ember_row *back;
        uint8_t *sent;
        begin();
        sent = lend(room, message);
        back = lend(count * sizeof *rows, NULL);
        answer = lend(8 * EMBER_READ_WORDS, NULL);
        remember();
        told = done("ember_read", ember_read(sent, room, back, count, answer, EMBER_READ_WORDS));
        must(told == EMBER_DONE && answer[EMBER_COUNT] == count && answer[EMBER_ROOT] == root, "what is written is read back");
        must(same_tree(rows, parts, parts_bytes, (const ember_row *)back, message, room, count), "as the same tree");
        memcpy(again, back, count * sizeof *again);
        begin();
        table = lend(count * sizeof *again, again);
        bytes = lend(room, message);
        out = lend(room, NULL);
        length = lend(8 * EMBER_WRITE_WORDS, NULL);
        remember();
        told = done("ember_write", ember_write(table, count, count, root, bytes, room, out, room, length, EMBER_WRITE_WORDS));
        must(told == EMBER_DONE && length[0] == room && memcmp(out, message, room) == 0, "and is written again as the same bytes");
    }
}

static void check_message(size_t rows, const uint8_t *message, size_t bytes);

static void trees(void)
{
    static uint8_t message[EMBER_MESSAGE_MAX + 1];
    size_t rows = below(8) == 0 ? word() % 258 : 24, bytes = left < sizeof message ? left : sizeof message;
    memcpy(message, next, bytes);
    check_message(rows, message, bytes);
}

static void check_message(size_t rows, const uint8_t *message, size_t bytes)
{
    uint64_t number, *answer, counted;
    ember_row *table;
    uint8_t *sent;
    begin();
    sent = lend(bytes, message);
    table = lend(rows * sizeof *table, NULL);
    answer = lend(8 * EMBER_READ_WORDS, NULL);
    remember();
    number = done("ember_read", ember_read(sent, bytes, table, rows, answer, EMBER_READ_WORDS));
    must(same(sent), "the message stays");
    if (number != EMBER_DONE)
        must(same(table), "a refusal leaves the table as it was");
    if (number == EMBER_SETUP)
        return;
    seen(4, number, answer[EMBER_PLACE] < 64 ? answer[EMBER_PLACE] : 64, 0);
    if (number >= EMBER_BAD_BER && number <= EMBER_BAD_PATH)
        must(answer[EMBER_PLACE] <= bytes && answer[EMBER_COUNT] == 0, "the place lies in the message");
    if (number == EMBER_NO_ROOM) {
        must(answer[EMBER_COUNT] > rows, "more than there are rows");
        counted = answer[EMBER_COUNT];
        if (counted <= EMBER_ROWS_MAX) {
            begin();
            sent = lend(bytes, message);
            table = lend(counted * sizeof *table, NULL);
            answer = lend(8 * EMBER_READ_WORDS, NULL);
            must(ember_read(sent, bytes, table, counted, answer, EMBER_READ_WORDS) == EMBER_DONE, "as many rows as it said are enough");
        }
        return;
    }
    if (number != EMBER_DONE)
        return;
    must(answer[EMBER_COUNT] <= rows, "the count");
    for (size_t i = answer[EMBER_COUNT] * sizeof *table; i < rows * sizeof *table; i++)
        must(((uint8_t *)table)[i] == 0xee, "rows past the count stay");
    counted = answer[EMBER_COUNT];
    memcpy(first_rows, table, counted * sizeof *table);
    for (size_t i = 0; i < counted; i++) {
        char text[40];
        uint64_t path[EMBER_PATH_MAX];
        for (size_t m = 0; m < 16; m++) {
            seen(5, ember_kind(table[i]), m, ember_type(table[i], m));
            must(ember_rule(ember_kind(table[i]), m) != ' ' || !ember_has(table[i], m), "no member that is not listed");
            ember_value_text(table[i], m, sent, bytes, text, 1 + below(40));
        }
        ember_path((const ember_row *)table, counted, i, sent, bytes, path);
        seen(6, ember_depth((const ember_row *)table, counted, i), ember_kind(table[i]), 0);
    }
    write_rows((const ember_row *)first_rows, counted, answer[EMBER_ROOT], message, bytes, 1);
}

/* Rows as the input says: made by the builders, and damaged. */
static ember_row made[EMBER_ROWS_MAX];
static uint8_t parts[4096];

static size_t make_rows(struct ember_arena *arena, uint64_t *root)
{
    size_t count = 0, most = 1 + below(12);
    *root = below(8) == 0 ? EMBER_STREAMS : EMBER_ELEMENTS;
    while (count < most && left > 0) {
        uint64_t how = byte(), odd = how % 16 == 0, kind = *root == EMBER_STREAMS ? 9 : 1 + below(odd ? 9 : 8), in = how & 16 ? count : 0, numbers[8];
        size_t n = odd ? below(8) : 1 + below(3);
        if (odd)
            in = below(count + 1);
        else if (count > 0 && ember_kind(made[count - 1]) == EMBER_KIND_CONNECTION && (kind == EMBER_KIND_CONNECTION || !(how & 32)))
            in = made[count - 1][EMBER_ROW_PARENT], kind = EMBER_KIND_CONNECTION;
        else if (count > 0 && (ember_is_matrix(made[count - 1]) || kind == EMBER_KIND_CONNECTION))
            in = count, kind = EMBER_KIND_CONNECTION;
        else if (count > 0 && (made[count - 1][EMBER_ROW_KIND] == EMBER_KIND_COMMAND || made[count - 1][EMBER_ROW_KIND] == EMBER_KIND_CONNECTION || kind > 4))
            in = 0;
        if (*root == EMBER_STREAMS && !odd)
            in = 0, kind = EMBER_KIND_STREAM_ENTRY;
        for (size_t i = 0; i < n; i++)
            numbers[i] = odd ? word() : 1 + byte();
        if (kind == EMBER_KIND_CONNECTION)
            ember_connection(made[count], in, arena, odd ? word() : below(12), numbers, n, below(odd ? 4 : 3));
        else if (kind == EMBER_KIND_COMMAND)
            ember_command(made[count], in, 30 + (int64_t)below(4));
        else if (kind >= EMBER_KIND_QUALIFIED_PARAMETER && kind <= EMBER_KIND_QUALIFIED_MATRIX)
            ember_qualified(made[count], kind, arena, numbers, n);
        else
            ember_element(made[count], kind, in, odd ? word() : 1 + byte());
        if (kind == EMBER_KIND_STREAM_ENTRY && !odd)
            ember_put_integer(made[count], EMBER_STREAM_VALUE, (int64_t)word());
        if (!odd && ember_rule(kind, 1) == 'i' && (how & 64)) {
            ember_put_text(made[count], EMBER_IDENTIFIER, arena, "_name");
            ember_put_part(made[count], EMBER_DESCRIPTION, EMBER_TYPE_TEXT, arena, next, left < 9 ? left : 9);
            if (ember_is_parameter(made[count]))
                ember_put_integer(made[count], EMBER_PARAMETER_VALUE, (int64_t)word());
        }
        for (uint64_t more = how & 128 ? below(6) : 0; more > 0; more--) {
            size_t member = below(16), length = below(12);
            double real;
            uint64_t bits = word() << below(64), what = below(7);
            memcpy(&real, &bits, sizeof real);
            length = length < left ? length : left;
            switch (what) {
            case 0: ember_put_integer(made[count], member, (int64_t)bits); break;
            case 1: ember_put_boolean(made[count], member, (int)bits); break;
            case 2: ember_put_real(made[count], member, real); break;
            case 3: ember_put_part(made[count], member, EMBER_TYPE_TEXT, arena, next, length); break;
            case 4: ember_put_octets(made[count], member, arena, next, length); break;
            case 5: ember_put_numbers(made[count], member, arena, numbers, n); break;
            case 6: made[count][below(EMBER_ROW_WORDS)] = word(); break;
            }
        }
        count++;
    }
    return count;
}

/* The message of rows, with some of its bytes changed. */
static void spelled(void)
{
    static uint8_t message[EMBER_MESSAGE_MAX];
    struct ember_arena arena = ember_arena_of(parts, sizeof parts);
    uint64_t root, length[EMBER_WRITE_WORDS];
    size_t count = make_rows(&arena, &root);
    if (ember_write((const ember_row *)made, count, count, root, parts, arena.used, message, sizeof message, length, EMBER_WRITE_WORDS) != EMBER_DONE)
        return;
    for (uint64_t damage = below(4); damage > 0 && length[0] > 0; damage--)
        message[(byte() << 8 | byte()) % length[0]] ^= (uint8_t)(1u << below(8));
    check_message(24, message, (size_t)length[0]);
}

static void rows(void)
{
    struct ember_arena arena = ember_arena_of(parts, sizeof parts);
    uint64_t root;
    size_t count = make_rows(&arena, &root);
    if (below(16) == 0)
        root = word();
    write_rows((const ember_row *)made, count, root, parts, arena.used, 0);
}

/* ---- the desk. These three functions alone know how answers and tables are lent to the library: as 256 bytes and none, or as words and rows. */

static size_t size_of(const uint64_t *figures)
{
    return (size_t)ember_desk_size(figures, EMBER_FIGURES_WORDS);
}

static uint64_t call_desk(uint64_t *figures, uint64_t *path, size_t path_words, const ember_row *table, size_t count, uint64_t root, const uint8_t *message,
                          size_t bytes, uint8_t *crosspoints, uint8_t *answers, uint64_t *answer)
{
    uint8_t *lent_answers = lend(EMBER_ANSWERS_MAX, NULL);
    uint64_t number;
    remember();
    number = done("ember_desk_call", ember_desk_call(figures, EMBER_FIGURES_WORDS, path, path_words, table, count, count, root, message, bytes, crosspoints,
                                                     size_of(figures), lent_answers, answer, EMBER_CALL_WORDS));
    for (size_t i = 0; number == EMBER_DONE && i < answer[0]; i++)
        answers[i] = (uint8_t)lent_answers[i];
    return number;
}

static uint64_t call_turn(uint64_t *session, uint8_t *store, const uint8_t *chunk, size_t chunk_bytes, ember_row *table, size_t rows, uint64_t *figures,
                          uint64_t *path, size_t path_words, uint8_t *crosspoints, uint8_t *answers, uint64_t *answer)
{
    uint8_t *lent_answers = lend(EMBER_ANSWERS_MAX, NULL);
    uint64_t number;
    remember();
    number = done("ember_turn", ember_turn(session, EMBER_SESSION_WORDS, store, EMBER_STORE_BYTES, chunk, chunk_bytes, table, rows, figures,
                                           EMBER_FIGURES_WORDS, path, path_words, crosspoints, size_of(figures), lent_answers, answer, EMBER_TURN_WORDS));
    for (size_t i = 0; number == EMBER_MESSAGE && i < answer[EMBER_TURN_ANSWERS]; i++)
        answers[i] = (uint8_t)lent_answers[i];
    return number;
}

static uint64_t call_sheet(const uint8_t *text, size_t bytes, uint8_t *store, uint64_t *figures, uint64_t *path, uint8_t *crosspoints, uint64_t *answer)
{
    remember();
    return done("ember_sheet_read", ember_sheet_read(text, bytes, store, EMBER_STORE_BYTES, figures, EMBER_FIGURES_WORDS, path, EMBER_PATH_MAX, crosspoints,
                                                     EMBER_CROSSPOINTS, answer, EMBER_SHEET_WORDS));
}

static uint64_t desk_figures[EMBER_FIGURES_WORDS], desk_path[EMBER_PATH_MAX];
static size_t desk_path_words;
static uint8_t desk_crosspoints[EMBER_CROSSPOINTS];

/* A desk as the input says, mostly legal, with a request or two. */
static uint64_t make_desk(void)
{
    uint64_t *figures, *path, number;
    uint8_t *crosspoints;
    desk_figures[0] = below(3);
    desk_figures[1] = 1 + below(9);
    desk_figures[2] = 1 + below(9);
    for (int i = 3; i < 7; i += 2) {
        desk_figures[i] = below(4) == 0;
        desk_figures[i + 1] = desk_figures[i] * (1 + below(20));
    }
    if (below(16) == 0)
        desk_figures[below(7)] = word();
    desk_path_words = 1 + below(3);
    for (size_t i = 0; i < desk_path_words; i++)
        desk_path[i] = 1 + below(3);
    begin();
    figures = lend(sizeof desk_figures, desk_figures);
    path = lend(8 * desk_path_words, desk_path);
    crosspoints = lend(size_of(desk_figures), NULL);
    remember();
    number = done("ember_desk_open", ember_desk_open(figures, EMBER_FIGURES_WORDS, below(32) == 0, path, desk_path_words, crosspoints, size_of(figures)));
    must(number == EMBER_DONE || same(crosspoints), "45 opens nothing");
    if (number == EMBER_DONE)
        for (uint64_t more = below(5); more > 0; more--) {
            uint64_t *sources;
            size_t n = below(6);
            slots = 3;
            sources = lend(8 * n, NULL);
            for (size_t i = 0; i < n; i++)
                sources[i] = below(10);
            remember();
            number = done("ember_desk_request",
                          ember_desk_request(figures, EMBER_FIGURES_WORDS, below(10), sources, n, below(4), crosspoints, size_of(figures)));
            seen(7, number, desk_figures[0], n);
            must(number == EMBER_DONE || same(crosspoints), "40 to 44 leave the crosspoints");
            must(done("ember_desk_is_legal", ember_desk_is_legal(figures, EMBER_FIGURES_WORDS, path, desk_path_words, crosspoints, size_of(figures))) == 1,
                 "a legal desk stays legal");
        }
    memcpy(desk_crosspoints, crosspoints, size_of(desk_figures));
    if (below(16) == 0)
        desk_crosspoints[word() % (size_of(desk_figures) + 1) % EMBER_CROSSPOINTS] = (uint8_t)byte();
    return ember_desk_is_legal(desk_figures, EMBER_FIGURES_WORDS, desk_path, desk_path_words, desk_crosspoints, size_of(desk_figures));
}

static void desks(void)
{
    struct ember_arena arena = ember_arena_of(parts, sizeof parts);
    uint64_t legal = make_desk(), root, number, *figures, *path, *answer, connections = 0;
    size_t count = make_rows(&arena, &root);
    uint8_t *crosspoints, answers[EMBER_ROWS_MAX];
    const ember_row *table;
    const uint8_t *message;
    if (count > 0 && root == EMBER_ELEMENTS && below(4) != 0) {
        /* for its own matrix, with connections that may be possible */
        ember_qualified(made[0], EMBER_KIND_QUALIFIED_MATRIX, &arena, desk_path, desk_path_words);
        for (size_t i = 1; i < count; i++) {
            uint64_t sources[3] = {below(9), below(9), below(9)};
            ember_connection(made[i], EMBER_IN(0), &arena, below(9), sources, below(4), below(3));
        }
    }
    begin();
    figures = lend(sizeof desk_figures, desk_figures);
    path = lend(8 * desk_path_words, desk_path);
    crosspoints = lend(size_of(desk_figures), desk_crosspoints);
    table = lend(count * sizeof *made, made);
    message = lend(arena.used, parts);
    answer = lend(8 * EMBER_CALL_WORDS, NULL);
    number = call_desk(figures, path, desk_path_words, table, count, root, message, arena.used, crosspoints, answers, answer);
    must((number == EMBER_DONE) == (legal && ember_accepts(table, count, count, root, message, arena.used)), "1 for an illegal desk or no tree, and else 0");
    if (number != EMBER_DONE)
        return;
    for (size_t i = 0; i < count; i++)
        connections += ember_kind(table[i]) == EMBER_KIND_CONNECTION;
    must(answer[0] == connections, "an answer for each connection");
    for (size_t i = 0; i < answer[0]; i++) {
        tally("a connection", answers[i]);
        seen(8, answers[i], figures[0], i);
        must(answers[i] == 0 || (answers[i] >= 40 && answers[i] <= 44), "an answer");
        must(ember_kind(table[ember_answered(table, count, i)]) == EMBER_KIND_CONNECTION, "and its row");
    }
    must(ember_desk_is_legal(figures, EMBER_FIGURES_WORDS, path, desk_path_words, crosspoints, size_of(figures)) == 1, "a legal desk stays legal");
}

/* Whole turns, whole and in chunks, and by struct ember_line: the same desk at the end, the same answers on the way. */
static struct ember_line line;

static void turns(void)
{
    uint64_t sums[3] = {0}, legal = make_desk(), other;
    size_t rows = below(4) == 0 ? word() % 257 : below(4) == 0 ? EMBER_ROWS_MAX : 16;
    static uint8_t after[3][EMBER_CROSSPOINTS];
    uint8_t cuts = (uint8_t)byte(), answers[EMBER_ROWS_MAX] = {0};
    if (below(2) == 0) {
        /* a message for the desk */
        struct ember_arena arena = ember_arena_of(parts, sizeof parts);
        uint64_t count;
        size_t made_rows = make_rows(&arena, &other);
        ember_qualified(made[0], EMBER_KIND_QUALIFIED_MATRIX, &arena, desk_path, desk_path_words);
        if (ember_frames((const ember_row *)made, made_rows > 0 ? made_rows : 1, other, &arena, stream, sizeof stream, &count) != EMBER_DONE)
            return;
        stream_bytes = count;
    } else {
        make_stream();
    }
    for (int run = 0; run < 3; run++) {
        uint64_t *session, *answer, *figures, *path;
        uint8_t *store, *chunk, *crosspoints;
        ember_row *table;
        begin();
        session = lend(8 * EMBER_SESSION_WORDS, NULL);
        store = lend(EMBER_STORE_BYTES, NULL);
        table = lend(rows * sizeof *table, NULL);
        figures = lend(sizeof desk_figures, desk_figures);
        path = lend(8 * desk_path_words, desk_path);
        crosspoints = lend(size_of(desk_figures), desk_crosspoints);
        answer = lend(8 * EMBER_TURN_WORDS, NULL);
        ember_start(session, EMBER_SESSION_WORDS);
        ember_line_listen(&line);
        memcpy(line.figures, desk_figures, sizeof line.figures);
        memcpy(line.path, desk_path, sizeof line.path);
        line.path_words = desk_path_words;
        memcpy(line.crosspoints, desk_crosspoints, sizeof line.crosspoints);
        if (run == 2 && rows != EMBER_ROWS_MAX)
            return;
        for (size_t at = 0; at < stream_bytes;) {
            size_t offered = stream_bytes - at, most = run == 1 ? 1 + (cuts * (at + 1) >> 3) % 97 : stream_bytes;
            uint64_t number;
            offered = offered < most ? offered : most;
            if (run == 2) {
                number = tally("ember_line_turn", ember_line_turn(&line, stream + at, offered));
                must(line.consumed <= offered && line.count <= EMBER_ROWS_MAX && line.answer_count <= line.count, "the line's fields");
                at += line.consumed;
                if (number == EMBER_SETUP)
                    break;
                for (size_t i = 0; i < line.answer_count; i++)
                    sums[run] = sums[run] * 31 + line.answers[i] + 1;
                if (number == EMBER_MESSAGE)
                    sums[run] = sums[run] * 31 + line.tree * 1000 + line.place + line.count + line.needed + line.desk;
                continue;
            }
            slots = 7;
            chunk = lend(offered, stream + at);
            number = call_turn(session, store, chunk, offered, table, rows, figures, path, desk_path_words, crosspoints, answers, answer);
            if (number == EMBER_SETUP) {
                must(!legal, "a turn on a legal desk is made");
                break;
            }
            at += answer[EMBER_CONSUMED];
            if (number != EMBER_MESSAGE || answer[EMBER_TURN_TREE] != EMBER_DONE)
                must(same(table) && same(crosspoints), "nothing but a message that is read changes table or desk");
            if (number != EMBER_MESSAGE)
                continue;
            seen(9, answer[EMBER_TURN_TREE], answer[EMBER_TURN_DESK], answer[EMBER_TURN_ANSWERS]);
            for (size_t i = 0; i < answer[EMBER_TURN_ANSWERS]; i++)
                sums[run] = sums[run] * 31 + answers[i] + 1;
            sums[run] = sums[run] * 31 + answer[EMBER_TURN_TREE] * 1000 + answer[EMBER_TURN_PLACE] + answer[EMBER_TURN_COUNT] + answer[EMBER_TURN_DESK];
        }
        memcpy(after[run], run == 2 ? line.crosspoints : crosspoints, size_of(figures));
        must(run == 0 || (sums[run] == sums[0] && memcmp(after[run], after[0], size_of(desk_figures)) == 0), "the cuts do not matter to desk and answers");
        must(!legal || ember_desk_is_legal(desk_figures, EMBER_FIGURES_WORDS, desk_path, desk_path_words, after[run], size_of(desk_figures)), "it stays legal");
    }
}

/* ---- sheets: as text, or as the lines of a stream; what is read is legal, and its sheet is read as the same desk */

static uint8_t sheet[1 << 17];

static void sheets(void)
{
    static uint8_t again[EMBER_SHEET_MAX];
    uint64_t *figures, *path, *answer, number, how = below(3);
    uint8_t *crosspoints, *store, *text;
    size_t bytes = 0, words, line_number;
    if (how == 0) {
        bytes = left;
        memcpy(sheet, next, bytes);
    } else {
        uint64_t cut = 1 + byte();
        if (how == 2 && make_desk() == 1) {
            uint64_t length[1] = {0};
            ember_sheet_write(desk_figures, EMBER_FIGURES_WORDS, desk_path, desk_path_words, desk_crosspoints, size_of(desk_figures), sheet, sizeof sheet,
                              length, EMBER_SHEET_WORDS);
            bytes = (size_t)length[0];
            for (uint64_t damage = below(3); damage > 0 && bytes > 0; damage--)
                sheet[(byte() << 8 | byte()) % bytes] = (uint8_t)byte();
        } else {
            make_stream();
            for (size_t i = 0; i < stream_bytes && bytes + 3 < sizeof sheet; i++) {
                bytes += (size_t)sprintf((char *)sheet + bytes, i % 2 == 0 ? "%02X" : "%02x", stream[i]);
                if ((i + 1) % cut == 0)
                    sheet[bytes++] = '\n';
            }
        }
    }
    bytes = bytes < ROOM ? bytes : ROOM;
    begin();
    text = lend(bytes, sheet);
    store = lend(EMBER_STORE_BYTES, NULL);
    figures = lend(8 * EMBER_FIGURES_WORDS, NULL);
    path = lend(8 * EMBER_PATH_MAX, NULL);
    crosspoints = lend(EMBER_CROSSPOINTS, NULL);
    answer = lend(8 * EMBER_SHEET_WORDS, NULL);
    number = call_sheet(text, bytes, store, figures, path, crosspoints, answer);
    line_number = ember_sheet_line(text, bytes);
    seen(10, number, line_number > 3 ? 3 : line_number, how);
    must((line_number != 0) == (number >= EMBER_BAD_STRAY && number <= EMBER_BAD_BIG), "a line exactly for 10 to 24");
    if (number != EMBER_DONE) {
        must(same(figures) && same(path) && same(crosspoints) && answer[0] == 0, "a refusal gives no desk");
        return;
    }
    words = (size_t)answer[0];
    must(words >= 1 && words <= EMBER_PATH_MAX, "a path");
    memcpy(desk_figures, figures, sizeof desk_figures);
    memcpy(desk_path, path, sizeof desk_path);
    memcpy(desk_crosspoints, crosspoints, size_of(desk_figures));
    begin();
    figures = lend(sizeof desk_figures, desk_figures);
    path = lend(8 * words, desk_path);
    crosspoints = lend(size_of(desk_figures), desk_crosspoints);
    text = lend(EMBER_SHEET_MAX, NULL);
    answer = lend(8 * EMBER_SHEET_WORDS, NULL);
    remember();
    number = done("ember_desk_is_legal", ember_desk_is_legal(figures, EMBER_FIGURES_WORDS, path, words, crosspoints, size_of(figures)));
    must(number == 1, "what is read is legal");
    number = done("ember_sheet_write", ember_sheet_write(figures, EMBER_FIGURES_WORDS, path, words, crosspoints, size_of(figures), text, EMBER_SHEET_MAX,
                                                         answer, EMBER_SHEET_WORDS));
    must(number == EMBER_DONE && answer[0] <= EMBER_SHEET_MAX, "its sheet fits");
    bytes = (size_t)answer[0];
    memcpy(again, text, bytes);
    begin();
    text = lend(bytes, again);
    store = lend(EMBER_STORE_BYTES, NULL);
    figures = lend(8 * EMBER_FIGURES_WORDS, NULL);
    path = lend(8 * EMBER_PATH_MAX, NULL);
    crosspoints = lend(EMBER_CROSSPOINTS, NULL);
    answer = lend(8 * EMBER_SHEET_WORDS, NULL);
    number = call_sheet(text, bytes, store, figures, path, crosspoints, answer);
    must(number == EMBER_DONE && answer[0] == words && memcmp(figures, desk_figures, sizeof desk_figures) == 0 && memcmp(path, desk_path, 8 * words) == 0
             && memcmp(crosspoints, desk_crosspoints, size_of(desk_figures)) == 0,
         "its sheet is read as the same desk");
}

/* ---- frames written are read back; the supervisor, beside its rules over true time */

static void frames(void)
{
    size_t room = below(2) == 0 ? EMBER_FRAMES_MAX : word() % EMBER_FRAMES_MAX, bytes = left < EMBER_MESSAGE_MAX + 1 ? left : EMBER_MESSAGE_MAX + 1;
    uint64_t *count, number, session[EMBER_SESSION_WORDS], answer[EMBER_FEED_WORDS];
    static uint8_t store[EMBER_STORE_BYTES];
    uint8_t *content, *out;
    begin();
    content = lend(bytes, next);
    out = lend(room, NULL);
    count = lend(8, NULL);
    remember();
    number = done("ember_write_message", ember_write_message(content, bytes, out, room, count));
    seen(11, number, bytes / 2000, room / 8000);
    if (number == EMBER_NO_OUT) {
        must(same(out) && same(count), "46 leaves the output as it was");
    } else {
        uint64_t at = 0;
        must(number == EMBER_DONE && *count <= room, "written");
        ember_start(session, EMBER_SESSION_WORDS);
        do {
            number = ember_feed(session, EMBER_SESSION_WORDS, store, sizeof store, out + at, *count - at, answer, EMBER_FEED_WORDS);
            at += answer[EMBER_CONSUMED];
        } while (number == EMBER_PIECE && at < *count);
        must(number == EMBER_MESSAGE && at == *count && answer[EMBER_LENGTH] == bytes && memcmp(store, next, bytes) == 0, "the message is read back");
    }
    remember();
    number = done("ember_write_frame", ember_write_frame(content, bytes, out, room, count));
    if (number == EMBER_NO_OUT)
        must(same(out), "46 leaves the output as it was");
    else
        must(bytes <= EMBER_CONTENT_MAX && out[0] == 0xfe && out[*count - 1] == 0xff, "a frame");
    remember();
    done("ember_write_request", ember_write_request(out, room, count));
    remember();
    done("ember_write_response", ember_write_response(out, room, count));
}

static void supervised(void)
{
    uint64_t *link, at = word(), silent = at, asked = 0, dead = 0;
    begin();
    link = lend(8 * SUPERVISION_LINK_WORDS, NULL);
    remember();
    tally("supervision_start", supervision_start(link, SUPERVISION_LINK_WORDS, (uint32_t)at));
    while (left > 0) {
        uint64_t number = below(3) == 0 ? below(25) : 0, said, wanted;
        at += word() % 5100;
        if (number >= 2 && !dead) {
            silent = at;
            asked = 0;
        }
        wanted = number == 4 ? SUPERVISION_ANSWER : SUPERVISION_NOTHING;
        if (number != 4 && dead) {
            wanted = SUPERVISION_DEAD;
        } else if (number < 2 && !dead && at - silent >= SUPERVISION_SILENCE) {
            wanted = asked ? SUPERVISION_DEAD : SUPERVISION_ASK;
            dead = asked;
            asked = 1;
            silent = at;
        }
        remember();
        said = done("supervision_show", supervision_show(link, SUPERVISION_LINK_WORDS, (uint32_t)at, number));
        seen(12, said, link[0], number);
        must(said == wanted, "the supervisor is as its rules");
        {
            uint32_t latest = (uint32_t)at, tick = (uint32_t)word(), shown = supervision_later(latest, tick);
            must(shown == ((uint32_t)(tick - latest) < 0x80000000u ? tick : latest) && supervision_later(shown, latest) == shown, "of two ticks the later");
        }
    }
}

int LLVMFuzzerTestOneInput(const uint8_t *data, size_t size)
{
    static void (*const parts_of[])(void) = {sessions, words, trees, spelled, rows, desks, turns, sheets, frames, supervised};
    if (runs++ == 0)
        prepare();
    if (size == 0)
        return 0;
    next = data + 1;
    left = size - 1;
    parts_of[data[0] % (sizeof parts_of / sizeof *parts_of)]();
    return 0;
}
