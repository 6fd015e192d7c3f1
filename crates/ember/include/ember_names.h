/* Numbers in words: what a call answered, and the names of kinds, members and types. Plain C99 and C++; ember.h takes it in, and it
 * ember.h. Every function answers a text that is never null, never freed and never changed, also for a number that is none. */
#include "ember.h"

#ifndef EMBER_NAMES_H
#define EMBER_NAMES_H

#include <stddef.h>
#include <stdint.h>

#ifdef __cplusplus
extern "C" {
#endif

/* What a number that was answered says, in words: of events, refusals and 0 and 1.
 * Never null: "no such number" for any that ember.h does not list. */
static inline const char *ember_say(uint64_t number)
{
    switch (number) {
    case EMBER_DONE: return "done";
    case EMBER_SETUP: return "a wrong length, a word out of range or a desk that is not legal";
    case EMBER_PIECE: return "a piece of a message";
    case EMBER_MESSAGE: return "a message";
    case EMBER_REQUEST: return "keep-alive request";
    case EMBER_RESPONSE: return "keep-alive response";
    case EMBER_BAD_STRAY: return "bytes outside frames";
    case EMBER_BAD_CUT: return "a frame cut off by the next";
    case EMBER_BAD_BYTE: return "a byte that may not stand there, or a bad line";
    case EMBER_BAD_LONG: return "a frame's content is over 1,024 bytes";
    case EMBER_BAD_ESCAPE: return "a frame ends in an escape";
    case EMBER_BAD_SHORT: return "a frame's content is under 6 bytes";
    case EMBER_BAD_CRC: return "a frame's CRC is wrong";
    case EMBER_BAD_HEADER: return "a frame's slot, type, command, version or header size is wrong";
    case EMBER_BAD_FLAGS: return "a frame's flags are wrong";
    case EMBER_BAD_DTD: return "a frame's DTD, count of application bytes or major version is wrong";
    case EMBER_BAD_ORPHAN: return "a later piece with no message open";
    case EMBER_BAD_BIG: return "a message over 16,384 bytes";
    case EMBER_BAD_BER: return "bad tag, length or value octets, or bytes that run out or are left";
    case EMBER_BAD_FORM: return "an outer tag and its value, one definite and one indefinite";
    case EMBER_BAD_DEPTH: return "more than 64 containers open at once";
    case EMBER_BAD_GLOW: return "a tag unexpected, repeated or out of order, or a member missing";
    case EMBER_BAD_NUMBER: return "a number out of its range";
    case EMBER_BAD_REAL: return "a real that is not accepted";
    case EMBER_BAD_NAME: return "an identifier against its rule";
    case EMBER_BAD_PATH: return "a path that is empty, over 16 numbers or has a number out of range";
    case EMBER_NO_ROOM: return "no room: more entries than the table has rows, or an arena too small";
    case EMBER_NO_MATRIX: return "a connection of another matrix";
    case EMBER_NO_TARGET: return "no such target";
    case EMBER_NO_SOURCE: return "no such source";
    case EMBER_BAD_MANY: return "more sources than the target may have";
    case EMBER_BAD_TOTAL: return "more connections than the desk may have";
    case EMBER_BAD_DESK: return "figures, mode or path out of range";
    case EMBER_NO_OUT: return "the output is too short, or this is nothing that the reader accepts";
    }
    return "no such number";
}

/* The name of a kind, EMBER_KIND_*.
 * Never null: "no such kind" for any other number. */
static inline const char *ember_kind_name(uint64_t kind)
{
    switch (kind) {
    case EMBER_KIND_PARAMETER: return "parameter";
    case EMBER_KIND_COMMAND: return "command";
    case EMBER_KIND_NODE: return "node";
    case EMBER_KIND_MATRIX: return "matrix";
    case EMBER_KIND_QUALIFIED_PARAMETER: return "qualified parameter";
    case EMBER_KIND_QUALIFIED_NODE: return "qualified node";
    case EMBER_KIND_QUALIFIED_MATRIX: return "qualified matrix";
    case EMBER_KIND_CONNECTION: return "connection";
    case EMBER_KIND_STREAM_ENTRY: return "stream entry";
    }
    return "no such kind";
}

/* The name of a member of a kind, by its cell, 0 to 15.
 * Never null: "no such member" where the kind has none there. */
static inline const char *ember_member_name(uint64_t kind, size_t member)
{
    static const char *const contents[3][16] = {
        {"number", "identifier", "description", "value", "minimum", "maximum", "access", "", "", "factor", "online", "", "step", "", "", "stream"},
        {"number", "identifier", "description", "root", "online", "", "", "", "", "", "", "", "", "", "", ""},
        {"number", "identifier", "description", "type", "mode", "targets", "sources", "total limit", "target limit", "", "", "", "", "", "", ""},
    };
    static const char *const others[3][3] = {{"number", "mask", ""}, {"target", "sources", "operation"}, {"stream", "value", ""}};
    const char *name = "";
    switch (kind) {
    case EMBER_KIND_PARAMETER:
    case EMBER_KIND_QUALIFIED_PARAMETER: name = member < 16 ? contents[0][member] : ""; break;
    case EMBER_KIND_NODE:
    case EMBER_KIND_QUALIFIED_NODE: name = member < 16 ? contents[1][member] : ""; break;
    case EMBER_KIND_MATRIX:
    case EMBER_KIND_QUALIFIED_MATRIX: name = member < 16 ? contents[2][member] : ""; break;
    case EMBER_KIND_COMMAND: name = member < 3 ? others[0][member] : ""; break;
    case EMBER_KIND_CONNECTION: name = member < 3 ? others[1][member] : ""; break;
    case EMBER_KIND_STREAM_ENTRY: name = member < 3 ? others[2][member] : ""; break;
    }
    if (member == 0 && kind >= EMBER_KIND_QUALIFIED_PARAMETER && kind <= EMBER_KIND_QUALIFIED_MATRIX)
        name = "path";
    return name[0] == 0 ? "no such member" : name;
}

/* The name of a type, EMBER_TYPE_*.
 * Never null: "no such type" for any other number. */
static inline const char *ember_type_name(uint64_t type)
{
    switch (type) {
    case EMBER_TYPE_ABSENT: return "absent";
    case EMBER_TYPE_BOOLEAN: return "boolean";
    case EMBER_TYPE_INTEGER: return "integer";
    case EMBER_TYPE_OCTETS: return "octets";
    case EMBER_TYPE_REAL: return "real";
    case EMBER_TYPE_TEXT: return "text";
    case EMBER_TYPE_RELATIVE_OID: return "numbers";
    }
    return "no such type";
}

#ifdef __cplusplus
}
#endif

#endif
