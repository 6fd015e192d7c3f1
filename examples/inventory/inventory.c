/* An inventory of a capture: it reads an S101 stream on standard input, and writes a line for each entry of each message: how deep it
 * stands, what it is, its path, its identifier and its value. What is refused is told in words, with its place.
 *
 *     inventory < capture */
#include "ember.h"
#include "ember_text.h"

#include <unistd.h>

static struct ember_line line;

static void list(size_t place)
{
    const uint64_t *row = line.table[place];
    uint64_t path[EMBER_PATH_MAX];
    size_t numbers = ember_line_path(&line, place, path), member;
    char text[EMBER_PATH_TEXT], value[64];
    printf("%*s%s", (int)(2 * ember_line_depth(&line, place)), "", ember_kind_name(ember_kind(row)));
    if (numbers > 0)
        printf(" %s", ember_path_text(path, numbers, text, sizeof text));
    for (member = numbers > 0; member < EMBER_MEMBERS; member++)
        if (ember_has(row, member))
            printf(", %s %s", ember_member_name(ember_kind(row), member),
                   ember_value_text(row, member, line.store, line.message_bytes, value, sizeof value));
    putchar('\n');
}

int main(void)
{
    static uint8_t input[65536];
    size_t at, place;
    ssize_t got;
    ember_line_listen(&line);
    while ((got = read(STDIN_FILENO, input, sizeof input)) > 0)
        for (at = 0; at < (size_t)got; at += line.consumed) {
            uint64_t event = ember_line_turn(&line, input + at, (size_t)got - at);
            if (event != EMBER_DONE)
                printf("%s\n", ember_say(event));
            if (event == EMBER_MESSAGE && line.tree != EMBER_DONE)
                printf("  %s, at %zu of %zu bytes\n", ember_say(line.tree), line.place, line.message_bytes);
            for (place = 0; place < line.count; place++)
                list(place);
        }
    return got < 0;
}
