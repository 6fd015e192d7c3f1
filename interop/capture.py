"""A capture file (pcap, Ethernet, IPv4, TCP) with S101 bytes as TCP payload.

As a command it makes a capture of a stream that is at hand as hexadecimal lines, one frame in each segment:
    python3 interop/capture.py OUT.pcap < LINES"""

import struct
import sys

PORT = 9000  # the port at which tshark expects S101
BOF, EOF = 0xFE, 0xFF


def frames_of(stream):
    """The stream, cut behind each EOF. A rest without EOF is the last part."""
    parts = [part + bytes([EOF]) for part in stream.split(bytes([EOF]))]
    rest = parts.pop()[:-1]
    return parts + [rest] if rest else parts


def checksum(octets):
    """The Internet checksum."""
    if len(octets) % 2:
        octets += b"\0"
    total = sum(struct.unpack(">%dH" % (len(octets) // 2), octets))
    while total >> 16:
        total = (total & 0xFFFF) + (total >> 16)
    return ~total & 0xFFFF


class Capture:
    def __init__(self, path):
        self.file = open(path, "wb")
        self.file.write(struct.pack("<IHHiIII", 0xA1B2C3D4, 2, 4, 0, 0, 262144, 1))
        self.packets = 0
        self.sent = {}  # bytes sent so far, by connection and direction

    def __enter__(self):
        return self

    def __exit__(self, *_):
        self.file.close()

    def add(self, payload, port=50000, to_provider=True):
        """One segment of the connection from `port`, in one direction."""
        seq = self.sent.get((port, to_provider), 1)
        ack = self.sent.get((port, not to_provider), 1)
        self.sent[port, to_provider] = seq + len(payload)
        consumer, provider = bytes([10, 0, 0, 1]), bytes([10, 0, 0, 2])
        ends = [(consumer, port), (provider, PORT)]
        (source, source_port), (goal, goal_port) = ends if to_provider else ends[::-1]
        tcp = struct.pack(">HHIIBBHHH", source_port, goal_port, seq, ack, 5 << 4, 0x18, 65535, 0, 0) + payload
        tcp_sum = checksum(source + goal + struct.pack(">BBH", 0, 6, len(tcp)) + tcp)
        tcp = tcp[:16] + struct.pack(">H", tcp_sum) + tcp[18:]
        ip = struct.pack(">BBHHHBBH", 0x45, 0, 20 + len(tcp), 0, 0x4000, 64, 6, 0) + source + goal
        ip = ip[:10] + struct.pack(">H", checksum(ip)) + ip[12:]
        packet = bytes([2, 0, 0, 0, 0, 2, 2, 0, 0, 0, 0, 1, 8, 0]) + ip + tcp
        self.file.write(struct.pack("<IIII", self.packets // 1000, self.packets % 1000 * 1000, len(packet), len(packet)) + packet)
        self.packets += 1


def main():
    if len(sys.argv) != 2:
        sys.exit(__doc__)
    stream = bytes.fromhex("".join(sys.stdin.read().split()))
    with Capture(sys.argv[1]) as capture:
        for frame in frames_of(stream):
            capture.add(frame)


if __name__ == "__main__":
    main()
