/* The supervisor of an S101 connection for C: it asks for a keep-alive request in a silence, says which requests are to
 * be answered, and declares a silent link dead.
 *
 * Link libsupervision_c.a, which `make target/staticlib/libsupervision_c.a` proves and builds (x86-64 Linux), or the
 * installed libsupervision.a (pkg-config: supervision). The library keeps nothing between calls, allocates nothing and calls
 * nothing: all memory is lent by the caller, and it reads no clock.
 * Each call is proved for every content of what is lent to it; it cannot test a pointer. So a pointer and its count
 * name memory of the caller's that is as long as the count says and aligned for its type; where the count is 0 the
 * pointer may be anything.
 *
 * It writes nothing to the link. With framing.h: what framing_feed answers is what supervision_show is shown, and
 * framing_write_request and framing_write_response write what it asks for (with ember.h: ember_feed, ember_turn and so on).
 *
 * Three things that a host must see to:
 * - Ticks never go back. They run past their top, so one that is a millisecond behind the last counts as 49 days later: a request is
 *   asked for, and a link that was asked is dead. Ticks from several threads, or from a clock that is set, may go back: struct
 *   supervision_link, below, keeps the latest and shows that then; by hand, supervision_later does.
 * - What has come is shown before that nothing has. After a pause of the host (it slept, was stopped, or was busy) bytes may wait
 *   that say the link lives: read and feed them first, and show a bare tick only when none are there.
 * - A bare tick is due also while bytes come that make no event. framing_feed answers 0 then, and 0 is what is shown: bytes alone
 *   keep no link alive, and half a frame every second is a silence.
 *
 * A loop that does so, over struct framing_line; `examples/gateway` is one:
 *
 *     supervision_link_start(&link, tick());
 *     for (alive = 1; alive;) {
 *         got = 0;
 *         if (poll(&input, 1, 500) > 0 && (got = read(from, chunk, sizeof chunk)) <= 0) break;     500 ms: shown every second
 *         at = 0;
 *         do {                                                                                     once also if nothing came
 *             number = framing_line_feed(&line, chunk + at, got - at);                             0 where nothing happened
 *             at += line.consumed;
 *             switch (supervision_link_show(&link, tick(), number)) {
 *             case SUPERVISION_ASK: ..        framing_write_request, and send it
 *             case SUPERVISION_ANSWER: ..     framing_write_response, and send it
 *             case SUPERVISION_DEAD: alive = 0;
 *             }
 *         } while (at < got);
 *     } */
#ifndef SUPERVISION_H
#define SUPERVISION_H

#include <stddef.h>
#include <stdint.h>

#ifdef __cplusplus
extern "C" {
#endif

/* The state of a link: two words, made by supervision_start and changed by supervision_show alone.
 *   0: 0 silent since the tick, 1 asked at the tick, 2 dead
 *   1: the tick, at most 4,294,967,295; 0 if the link is dead */
#define SUPERVISION_LINK_WORDS 2

/* The numbers answered; supervision_say(number) says each in words. */
enum supervision_answer {
    SUPERVISION_NOTHING = 0, /* nothing is to be done */
    SUPERVISION_SETUP = 1,   /* a wrong length, or words that are no state's: nothing was changed */
    SUPERVISION_ASK = 2,     /* write a keep-alive request */
    SUPERVISION_ANSWER = 3,  /* write a keep-alive response */
    SUPERVISION_DEAD = 4     /* the link is dead, for good */
};

/* A number in words.
 * Never null: "no such number" for any that is not listed. */
static inline const char *supervision_say(uint64_t number)
{
    switch (number) {
    case SUPERVISION_NOTHING: return "nothing to do";
    case SUPERVISION_SETUP: return "a wrong length, or words that are no state's";
    case SUPERVISION_ASK: return "write a keep-alive request";
    case SUPERVISION_ANSWER: return "write a keep-alive response";
    case SUPERVISION_DEAD: return "the link is dead";
    }
    return "no such number";
}

/* The version of this header; that of the installed library is supervision_version's, and the same: 100 times major, and minor. */
#define SUPERVISION_VERSION_NUMBER 300

#if defined __GNUC__ && !defined SUPERVISION_VISIBLE
#pragma GCC visibility push(hidden)
#endif

/* A silence of so many milliseconds is asked about, and one of so many after asking is the link's end. */
#define SUPERVISION_SILENCE 5000

/* Starts: the start counts as an event. tick is a count of milliseconds that runs past its top back to zero.
 * SUPERVISION_NOTHING, or SUPERVISION_SETUP if link_words is not 2.
 * Never reads a clock. */
uint64_t supervision_start(uint64_t *link, size_t link_words, uint32_t tick);

/* Shows the tick and the number that framing_feed answered at it, or 0 where nothing happened: 0 and 1 are no events, 4
 * is an incoming request, and every other number is an event. A tick is never behind the one shown before, but for the
 * wrap. An event counts before what is due at its tick. Show each event with its tick, and some tick at least once in
 * every 1,000 ms: then a link is declared dead no later than 12,000 ms after its last event, and one with an event in
 * every 4,000 ms never is. A request is answered in every state, that of a dead link too; at any other showing a dead
 * link answers SUPERVISION_DEAD. SUPERVISION_SETUP, with nothing changed, if link_words is not 2 or the words are no
 * state's.
 * Never writes to the link, and never asks twice in one silence. */
uint64_t supervision_show(uint64_t *link, size_t link_words, uint32_t tick, uint64_t number);

/* For hosts that cannot promise order: of the latest tick shown so far, at first that of supervision_start, and this one, the later, by the
 * shorter way round. So a tick that is behind by half the range at most, 24 days, counts as no time passed. Shown the
 * latest in place of each tick, supervision_show is shown ticks that never go back, which is what its promise asks for.
 * Never goes back. */
uint32_t supervision_later(uint32_t latest, uint32_t tick);

/* The version of the installed library.
 * Never there in target/staticlib/libsupervision_c.a: `make install` puts it in. */
uint64_t supervision_version(void);

#if defined __GNUC__ && !defined SUPERVISION_VISIBLE
#pragma GCC visibility pop
#endif

/* A link with the latest tick that it was shown, for hosts whose ticks may come out of order. */
struct supervision_link {
    uint64_t words[SUPERVISION_LINK_WORDS];
    uint32_t latest;
};

/* Starts: the start counts as an event. SUPERVISION_NOTHING.
 * Never reads a clock. */
static inline uint64_t supervision_link_start(struct supervision_link *link, uint32_t tick)
{
    link->latest = tick;
    return supervision_start(link->words, SUPERVISION_LINK_WORDS, tick);
}

/* Shows a tick and a number, as supervision_show; a tick that is behind the latest counts as no time passed.
 * Never shows a tick that goes back. */
static inline uint64_t supervision_link_show(struct supervision_link *link, uint32_t tick, uint64_t number)
{
    link->latest = supervision_later(link->latest, tick);
    return supervision_show(link->words, SUPERVISION_LINK_WORDS, link->latest, number);
}

#ifdef __cplusplus
}
#endif

#endif
