/* Every number of supervision.h against the library: each is what a call answers, or the length that it takes and the
 * next that it refuses. Says what differs and ends with 1. */
#include "supervision.h"

#include <stdio.h>
#include <string.h>

static int wrong;

static void expect(const char *what, uint64_t got, uint64_t wanted)
{
    if (got != wanted) {
        printf("%s: %llu, and not %llu\n", what, (unsigned long long)got, (unsigned long long)wanted);
        wrong = 1;
    }
}

static uint64_t link_words[SUPERVISION_LINK_WORDS + 1];

static uint64_t show(uint32_t tick, uint64_t number)
{
    return supervision_show(link_words, SUPERVISION_LINK_WORDS, tick, number);
}

static void start(uint32_t tick)
{
    expect("supervision_start", supervision_start(link_words, SUPERVISION_LINK_WORDS, tick), SUPERVISION_NOTHING);
}

static void words(const char *what, uint64_t place, uint64_t tick)
{
    expect(what, link_words[0], place);
    expect(what, link_words[1], tick);
}

static void lengths(void)
{
    for (int more = -1; more <= 1; more++) {
        uint64_t wanted = more == 0 ? SUPERVISION_NOTHING : SUPERVISION_SETUP;
        expect("words of the start", supervision_start(link_words, SUPERVISION_LINK_WORDS + more, 7), wanted);
        start(7);
        expect("words of the state", supervision_show(link_words, SUPERVISION_LINK_WORDS + more, 7, 0), wanted);
        words("as it was", 0, 7);
    }
}

static void silence(void)
{
    /* away from the wrap, at it, and over it */
    static const uint32_t ticks[] = {0, 1, 4294967295u, 4294967295u - SUPERVISION_SILENCE, 4294967295u - 7000};
    for (size_t i = 0; i < sizeof ticks / sizeof *ticks; i++) {
        uint32_t tick = ticks[i];
        start(tick);
        words("silent", 0, tick);
        expect("one less", show(tick + SUPERVISION_SILENCE - 1, 0), SUPERVISION_NOTHING);
        expect("SUPERVISION_ASK", show(tick + SUPERVISION_SILENCE, 0), SUPERVISION_ASK);
        words("asked", 1, (uint32_t)(tick + SUPERVISION_SILENCE));
        expect("one less after asking", show(tick + 2 * SUPERVISION_SILENCE - 1, 0), SUPERVISION_NOTHING);
        expect("SUPERVISION_DEAD", show(tick + 2 * SUPERVISION_SILENCE, 0), SUPERVISION_DEAD);
        words("dead", 2, 0);
        expect("an event on a dead link", show(tick, 3), SUPERVISION_DEAD);
        expect("a request on a dead link", show(tick, 4), SUPERVISION_ANSWER);
        words("dead for good", 2, 0);
    }
}

/* Which numbers of a session call count. */
static void numbers(void)
{
    for (uint64_t number = 0; number <= 24; number++) {
        int counts = number >= 2;
        start(0);
        expect("a number at the bound", show(SUPERVISION_SILENCE, number),
               !counts ? SUPERVISION_ASK : number == 4 ? SUPERVISION_ANSWER : SUPERVISION_NOTHING);
        words("after it", counts ? 0 : 1, SUPERVISION_SILENCE);
        /* asked, or an event that takes the asking away */
        start(0);
        show(SUPERVISION_SILENCE, 0);
        expect("a number at the link's end", show(2 * SUPERVISION_SILENCE, number),
               !counts ? SUPERVISION_DEAD : number == 4 ? SUPERVISION_ANSWER : SUPERVISION_NOTHING);
    }
}

/* Words that are no state's. */
static void refused(void)
{
    static const uint64_t none[][2] = {{0, 4294967296u}, {1, 4294967296u}, {2, 1}, {3, 0}, {4294967296u, 0}};
    static const uint64_t some[][2] = {{0, 4294967295u}, {1, 4294967295u}, {2, 0}};
    for (size_t i = 0; i < sizeof none / sizeof *none; i++) {
        link_words[0] = none[i][0];
        link_words[1] = none[i][1];
        expect("no state's", show(0, 4), SUPERVISION_SETUP);
        words("as they were", none[i][0], none[i][1]);
    }
    for (size_t i = 0; i < sizeof some / sizeof *some; i++) {
        link_words[0] = some[i][0];
        link_words[1] = some[i][1];
        expect("a state's", show(0, 4), SUPERVISION_ANSWER);
    }
}

/* Ticks that come out of order: as many as there are, none goes back, and the link lives as by the latest of them. */
static void out_of_order(void)
{
    static const uint32_t starts[] = {0, 1, 4294967295u, 2147483648u, 4294967295u - 7000};
    for (size_t i = 0; i < sizeof starts / sizeof *starts; i++) {
        uint32_t latest = starts[i];
        start(latest);
        expect("later", supervision_later(latest, latest + 10), (uint32_t)(latest + 10));
        expect("a millisecond back", supervision_later(latest, latest - 1), latest);
        expect("half the range back", supervision_later(latest, latest - 2147483648u), latest);
        expect("half the range on, but one", supervision_later(latest, latest + 2147483647u), (uint32_t)(latest + 2147483647u));
        struct supervision_link link;
        expect("a link", supervision_link_start(&link, starts[i]), SUPERVISION_NOTHING);
        expect("a millisecond back", supervision_link_show(&link, starts[i] - 1, 0), SUPERVISION_NOTHING);
        expect("asked by the latest", supervision_link_show(&link, starts[i] + SUPERVISION_SILENCE, 0), SUPERVISION_ASK);
        expect("back again", supervision_link_show(&link, starts[i], 0), SUPERVISION_NOTHING);
        expect("dead by the latest", supervision_link_show(&link, starts[i] + 2 * SUPERVISION_SILENCE, 0), SUPERVISION_DEAD);
        start(starts[i]);
        expect("bare, a millisecond back: 49 days", show(starts[i] - 1, 0), SUPERVISION_ASK);
    }
    for (uint64_t number = 0; number <= 5; number++)
        expect("said", (uint64_t)(strcmp(supervision_say(number), "no such number") == 0), number == 5);
    expect("version", SUPERVISION_VERSION_NUMBER, 300);
}

int main(void)
{
    out_of_order();
    lengths();
    silence();
    numbers();
    refused();
    return wrong;
}
