"""EmBER octets, in any of the spellings that a reader must take: long tags and lengths, indefinite containers, members
of a set in any order, reals with a scale and spare bits. The random source draws the spelling; the value stays the same.

Octets that were spelled are pairs: the octets, and whether their own length is indefinite. An outer tag has the form of
what it holds."""

import struct

UNIVERSAL, APPLICATION, CONTEXT = 0x00, 0x40, 0x80
BOOLEAN, INTEGER, OCTETS, REAL, UTF8, RELATIVE_OID, SEQUENCE, SET = 1, 2, 4, 9, 12, 13, 16, 17


class Spelling:
    def __init__(self, random):
        self.random = random
        # Half of the messages have few odd spellings, so that these are seen alone as well.
        self.oddity = random.choice([0.0, 0.02, 0.3])

    def odd(self):
        return self.random.random() < self.oddity

    # Tags and lengths

    def tag(self, kind, number, constructed):
        first = kind | (0x20 if constructed else 0)
        if number < 31 and not self.odd():
            return bytes([first | number])
        octets = [number & 0x7F]
        while number >> 7:
            number >>= 7
            octets.append(number & 0x7F | 0x80)
        return bytes([first | 31]) + bytes(reversed(octets))

    def length(self, count):
        least = (count.bit_length() + 7) // 8
        if count < 128 and not self.odd():
            return bytes([count])
        size = self.random.randint(max(least, 1), 4) if self.odd() else max(least, 1)
        return bytes([0x80 | size]) + count.to_bytes(size, "big")

    # Containers

    def container(self, kind, number, contents):
        """A container of octets spelled before, definite or indefinite."""
        return self.closed(self.tag(kind, number, True), b"".join(octets for octets, _ in contents), self.odd())

    def outer(self, kind, number, inside):
        """An outer tag around one value: of the same form."""
        octets, indefinite = inside
        return self.closed(self.tag(kind, number, True), octets, indefinite)

    def closed(self, tag, octets, indefinite):
        if indefinite:
            return tag + b"\x80" + octets + b"\0\0", True
        return tag + self.length(len(octets)) + octets, False

    def member(self, number, inside):
        return self.outer(CONTEXT, number, inside)

    # Values

    def primitive(self, number, content):
        return self.tag(UNIVERSAL, number, False) + self.length(len(content)) + content, False

    def integer(self, value):
        size = 1
        while not -(1 << (8 * size - 1)) <= value < 1 << (8 * size - 1):
            size += 1
        return self.primitive(INTEGER, value.to_bytes(size, "big", signed=True))

    def boolean(self, value):
        return self.primitive(BOOLEAN, bytes([self.random.randint(1, 255) if value and self.odd() else 255 if value else 0]))

    def text(self, octets):
        return self.primitive(UTF8, octets)

    def octets(self, octets):
        return self.primitive(OCTETS, octets)

    def numbers(self, numbers):
        """A relative identifier: base 128, each number in fewest octets."""
        content = b""
        for number in numbers:
            part = [number & 0x7F]
            while number >> 7:
                number >>= 7
                part.append(number & 0x7F | 0x80)
            content += bytes(reversed(part))
        return self.primitive(RELATIVE_OID, content)

    def real(self, bits):
        return self.primitive(REAL, self.real_content(bits))

    def real_content(self, bits):
        value = struct.unpack(">d", struct.pack(">Q", bits))[0]
        if value == 0:
            return b""
        if value in (float("inf"), float("-inf")):
            return b"\x40" if value > 0 else b"\x41"
        fraction, field = bits & (1 << 52) - 1, bits >> 52 & 0x7FF
        mantissa, power = (fraction | 1 << 52, field - 1075) if field else (fraction, -1074)
        while mantissa % 2 == 0:
            mantissa, power = mantissa // 2, power + 1
        scale = 0
        if self.odd():
            scale = self.random.randint(0, 3)
        if self.odd():
            spare = self.random.randint(0, 63 - mantissa.bit_length())
            mantissa, power = mantissa << spare, power - spare
        exponent = power - scale
        exponent_size = 1
        while not -(1 << (8 * exponent_size - 1)) <= exponent < 1 << (8 * exponent_size - 1):
            exponent_size += 1
        mantissa_size = (mantissa.bit_length() + 7) // 8
        if self.odd():
            exponent_size = self.random.randint(exponent_size, 3)
            mantissa_size = self.random.randint(mantissa_size, 8)
        head = 0x80 | (0x40 if value < 0 else 0) | scale << 2 | exponent_size - 1
        return bytes([head]) + exponent.to_bytes(exponent_size, "big", signed=True) + mantissa.to_bytes(mantissa_size, "big")
