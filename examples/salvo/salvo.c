/* A salvo: one message that connects many targets of a matrix at once, written to standard output as frames.
 *
 *     salvo PATH TARGET SOURCE [TARGET SOURCE ..]      PATH as 1.2.3
 *     salvo PATH all COUNT                              source t to target t, for t from 0 to COUNT - 1 */
#include "ember.h"

#include <stdio.h>
#include <stdlib.h>

static ember_row rows[EMBER_ROWS_MAX + 1];
static uint8_t bytes[EMBER_MESSAGE_MAX], frames[EMBER_FRAMES_MAX];

int main(int words, char **word)
{
    struct ember_arena arena = ember_arena_of(bytes, sizeof bytes);
    int all = words == 4 && strcmp(word[2], "all") == 0, i;
    uint64_t path[EMBER_PATH_MAX], length = 0, number;
    size_t numbers = 0, count = 0, row, member, pairs = words < 4 ? 0 : all ? strtoul(word[3], NULL, 10) : (size_t)(words - 2) / 2;
    if (pairs == 0 || pairs >= EMBER_ROWS_MAX || (!all && words % 2 != 0))
        return fprintf(stderr, "salvo PATH TARGET SOURCE .., or PATH all COUNT, at most 255\n"), 1;
    for (char *rest = word[1]; *rest != 0 && numbers < EMBER_PATH_MAX; rest += *rest == '.')
        path[numbers++] = strtoull(rest, &rest, 10);
    ember_qualified(rows[count++], EMBER_KIND_QUALIFIED_MATRIX, &arena, path, numbers);
    for (i = 0; i < (int)pairs; i++) {
        uint64_t target = all ? (uint64_t)i : strtoull(word[2 + 2 * i], NULL, 10);
        uint64_t source = all ? (uint64_t)i : strtoull(word[3 + 2 * i], NULL, 10);
        ember_connection(rows[count++], EMBER_IN(0), &arena, target, &source, 1, EMBER_CONNECT);
    }
    number = ember_frames(ember_rows(rows), count, EMBER_ELEMENTS, &arena, frames, sizeof frames, &length);
    if (number == EMBER_NO_OUT) {
        uint64_t why = ember_why(ember_rows(rows), count, count, EMBER_ELEMENTS, arena.bytes, arena.used, &row, &member);
        fprintf(stderr, "salvo: row %zu, %s: %s\n", row, ember_member_name(ember_kind(rows[row]), member), ember_why_say(why));
    } else if (number != EMBER_DONE) {
        fprintf(stderr, "salvo: %s\n", ember_say(number));
    }
    return number != EMBER_DONE || fwrite(frames, 1, length, stdout) != length;
}
