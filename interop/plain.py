"""What content octets and frames say, by X.690 and 001, in plain Python: for octets that tshark marks as a field's."""

import re
import struct
from fractions import Fraction


def double(bits):
    return struct.unpack(">d", struct.pack(">Q", bits))[0]


def real_of(content):
    """The number that X.690 8.5 gives to the content octets of a real in base 2, exactly."""
    if content in (b"", b"\x40", b"\x41"):
        return {b"": Fraction(0), b"\x40": float("inf"), b"\x41": float("-inf")}[content]
    mantissa, scale = content[2 + (content[0] & 3):], content[0] >> 2 & 3
    number = Fraction(int.from_bytes(mantissa, "big")) * Fraction(2) ** (power(content) + scale)
    return -number if content[0] & 0x40 else number


def power(content):
    """The exponent octets of a real; 0 where there are none."""
    return int.from_bytes(content[1:2 + (content[0] & 3)], "big", signed=True) if len(content) > 1 else 0


def mantissa_octets(bits):
    """How many octets the odd mantissa of a double takes; 0 where there is none."""
    fraction, field = bits & (1 << 52) - 1, bits >> 52 & 0x7FF
    mantissa = fraction | (1 << 52 if field else 0)
    if field == 0x7FF or mantissa == 0:
        return 0
    while mantissa % 2 == 0:
        mantissa //= 2
    return (mantissa.bit_length() + 7) // 8


def numbers_of(content):
    """The numbers of a relative identifier."""
    numbers, number = [], 0
    for octet in content:
        number = number << 7 | octet & 0x7F
        if octet < 0x80:
            numbers.append(number)
            number = 0
    return tuple(numbers)


def unescaped(frame):
    """A frame's content, CRC included."""
    return re.sub(rb"\xfd(.)", lambda found: bytes([found[1][0] ^ 0x20]), frame[1:-1], flags=re.DOTALL)


def escaped(content):
    """The frame of a content, CRC included."""
    return b"\xfe" + b"".join(bytes([0xFD, octet ^ 0x20]) if octet >= 0xF8 else bytes([octet]) for octet in content) + b"\xff"


def is_first(frame):
    """Whether it is the first of several packets."""
    return frame[3] == 0 and frame[5] == 0x80


def is_last(frame):
    """Whether it is the last of several packets."""
    return frame[3] == 0 and frame[5] == 0x40


def remainder(octets):
    """001's checksum rule over these bytes, bit by bit."""
    crc = 0xFFFF
    for octet in octets:
        crc ^= octet
        for _ in range(8):
            crc = crc >> 1 ^ 0x8408 if crc & 1 else crc >> 1
    return crc
