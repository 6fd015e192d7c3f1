/* Paths and values as text, for logs and lists. Plain C99 and C++, over ember.h; it is taken in by hand, since it needs <stdio.h>.
 * Each function writes into `out`, which has `room` bytes, ends it with a 0 if room is not 0, cuts off what has no room, and answers out.
 * Bytes of a text that are control characters come as ".", so that a far end cannot write to a terminal. */
#include "ember.h"

#ifndef EMBER_TEXT_H
#define EMBER_TEXT_H

#include <stddef.h>
#include <stdint.h>
#include <stdio.h>

#ifdef __cplusplus
extern "C" {
#endif

/* Rooms that hold any path, and any number with its sign. */
#define EMBER_PATH_TEXT 176
#define EMBER_NUMBER_TEXT 32

/* Appends to out at *at, and leaves its 0 in place.
 * Never writes past room. */
static inline void ember_append(char *out, size_t room, size_t *at, const char *bytes, size_t count)
{
    size_t i;
    for (i = 0; i < count && room > 0 && *at < room - 1; i++, ++*at)
        out[*at] = (unsigned char)bytes[i] < 0x20 || bytes[i] == 0x7f ? '.' : bytes[i];
    if (room > 0)
        out[*at] = 0;
}

/* A path as 1.2.3; "" if it has no numbers.
 * Never reads past path_words. */
static inline char *ember_path_text(const uint64_t *path, size_t path_words, char *out, size_t room)
{
    char number[EMBER_NUMBER_TEXT];
    size_t at = 0, i;
    ember_append(out, room, &at, "", 0);
    for (i = 0; i < path_words; i++) {
        int length = snprintf(number, sizeof number, "%s%llu", i == 0 ? "" : ".", (unsigned long long)path[i]);
        ember_append(out, room, &at, number, (size_t)length);
    }
    return out;
}

/* A member as text: numbers in decimal, reals with 17 digits, true or false, a text as it is, octets in hexadecimal, a path or sources as
 * 1.2.3; "" if it is absent.
 * Never gives bytes that do not lie in the message. */
static inline char *ember_value_text(const uint64_t *row, size_t member, const uint8_t *message, size_t message_bytes, char *out, size_t room)
{
    char number[EMBER_NUMBER_TEXT];
    struct ember_iterator it;
    const uint8_t *bytes;
    uint64_t type = ember_type(row, member), next;
    size_t at = 0, count = 0, i;
    int length = 0;
    ember_append(out, room, &at, "", 0);
    switch (type) {
    case EMBER_TYPE_BOOLEAN: length = snprintf(number, sizeof number, "%s", ember_boolean_or(row, member, 0) ? "true" : "false"); break;
    case EMBER_TYPE_INTEGER: length = snprintf(number, sizeof number, "%lld", (long long)ember_integer_or(row, member, 0)); break;
    case EMBER_TYPE_REAL: length = snprintf(number, sizeof number, "%.17g", ember_real_or(row, member, 0)); break;
    case EMBER_TYPE_TEXT:
        if (ember_bytes(row, member, type, message, message_bytes, &bytes, &count))
            ember_append(out, room, &at, (const char *)bytes, count);
        break;
    case EMBER_TYPE_OCTETS:
        if (ember_bytes(row, member, type, message, message_bytes, &bytes, &count))
            for (i = 0; i < count; i++) {
                snprintf(number, sizeof number, "%02X", bytes[i]);
                ember_append(out, room, &at, number, 2);
            }
        break;
    case EMBER_TYPE_RELATIVE_OID:
        it = ember_iterate(row, member, message, message_bytes);
        for (i = 0; ember_next(&it, &next); i++) {
            length = snprintf(number, sizeof number, "%s%llu", i == 0 ? "" : ".", (unsigned long long)next);
            ember_append(out, room, &at, number, (size_t)length);
        }
        return out;
    }
    ember_append(out, room, &at, number, (size_t)length);
    return out;
}

#ifdef __cplusplus
}
#endif

#endif
