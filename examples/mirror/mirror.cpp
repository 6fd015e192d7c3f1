// A mirror, in C++17 without exceptions: it keeps a desk beside a far one. It reads the far router's S101 stream on standard input, applies
// what each message says of its matrix, and writes to standard output what differs from a stored route sheet, as one message that would
// make the far desk like the sheet. Without a sheet it writes the sheet of the desk as it is.
//
//     mirror TARGETS SOURCES PATH [SHEET] < stream      PATH as 1.2.3
#include "ember.hpp"

#include <cstdio>
#include <cstdlib>
#include <cstring>
#include <unistd.h>

static ember::line line, wanted;
static ember::message<1 + EMBER_SIDE_MAX, EMBER_MESSAGE_MAX> changes;

static int fail(const char *what)
{
    std::fprintf(stderr, "mirror: %s\n", what);
    return 1;
}

int main(int words, char **word)
{
    static std::uint8_t input[65536], out[EMBER_FRAMES_MAX];
    ember::number path[EMBER_PATH_MAX], sources[EMBER_SIDE_MAX];
    std::size_t numbers = 0, count = 0;
    if (words != 4 && words != 5)
        return fail("TARGETS SOURCES PATH [SHEET]");
    for (char *rest = word[3]; *rest != 0 && numbers < EMBER_PATH_MAX; rest += *rest == '.')
        path[numbers++] = std::strtoull(rest, &rest, 10);
    if (auto number = line.start({EMBER_N_TO_N, std::strtoull(word[1], nullptr, 10), std::strtoull(word[2], nullptr, 10)}, path, numbers))
        return fail(ember::say(number));
    for (ssize_t got; (got = read(STDIN_FILENO, input, sizeof input)) > 0;)
        for (ember::bytes rest(input, static_cast<std::size_t>(got)); !rest.empty(); rest.remove_prefix(line.consumed())) {
            auto event = line.turn(rest);
            if (event >= EMBER_BAD_STRAY)
                std::fprintf(stderr, "%s\n", ember::say(event));
            for (std::size_t i = 0; i < line.answers(); i++)
                if (auto connection = line.answered(i); connection && line.answer(i) != EMBER_DONE)
                    std::fprintf(stderr, "target %lld: %s\n", static_cast<long long>(connection->integer(EMBER_CONNECTION_TARGET).value_or(-1)),
                                 ember::say(line.answer(i)));
        }
    if (words == 4) {
        if (auto number = line.write_sheet(out, sizeof out, count))
            return fail(ember::say(number));
        return std::fwrite(out, 1, count, stdout) != count;
    }
    auto file = std::fopen(word[4], "rb");
    if (file == nullptr)
        return fail("no such sheet");
    count = std::fread(input, 1, sizeof input, file);
    std::fclose(file);
    if (auto number = wanted.read_sheet({input, count})) {
        std::fprintf(stderr, "line %zu: ", ember_sheet_line(input, count));
        return fail(ember::say(number));
    }
    auto matrix = changes.qualified(EMBER_KIND_QUALIFIED_MATRIX, path, numbers);
    for (ember::number target = 0; target < EMBER_SIDE_MAX; target++) {
        ember::number had[EMBER_SIDE_MAX];
        auto now = ember_line_sources(&line.c(), target, had), then = ember_line_sources(&wanted.c(), target, sources);
        if (now != then || std::memcmp(had, sources, then * sizeof *sources) != 0)
            changes.connection(matrix, target, sources, then);
    }
    std::uint64_t length = 0;
    if (changes.size() > 1)
        if (auto number = changes.frames(out, sizeof out, length))
            return fail(ember::say(number));
    return std::fwrite(out, 1, length, stdout) != length;
}
