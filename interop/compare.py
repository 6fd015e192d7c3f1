"""Holds the fields that tshark shows against ours. What differs and is known has a name, is looked for exactly, and is
counted; all else is a difference."""

import collections
import re

import theirs
from plain import double, mantissa_octets, numbers_of, power, real_of, remainder, unescaped


class Comparison:
    def __init__(self):
        self.seen = collections.Counter()  # what went through
        self.compared = collections.Counter()  # fields, by tshark's names where it has one
        self.known = collections.Counter()  # differences that are known
        self.differences = []

    def differ(self, where, what, our, their):
        self.differences.append("%s: %s: ours %s, tshark %s" % (where, what, our, their))

    def same(self, where, what, our, their, name):
        """One field that both show."""
        self.compared[name] += 1
        if our != their:
            self.differ(where, what, our, their)

    # Values

    def value(self, where, what, value, field, written):
        """A member: what is shown, and what the octets say that tshark marks as its content."""
        kind, content = value
        self.same(where, what, getattr(self, "shown_" + kind)(content, field), field.show, field.name)
        if written and kind == "real" and power(field.octets) < -1074:
            self.differ(where, what, "an odd mantissa", field.octets.hex())
        said = SAID[kind](field.octets)
        if said != (double(content) if kind == "real" else content):
            self.differ(where, what + "'s octets", content, field.octets.hex())
        if written and kind == "bool" and field.octets not in (b"\0", b"\xff"):
            self.differ(where, what, "00 or FF", field.octets.hex())
        remarks = [below.label for below in field.below]
        if remarks and not (kind == "text" and stray(content) and len(remarks) == 1 and theirs.STRAY in remarks[0]):
            self.differ(where, what, "no remark", remarks)

    def shown_int(self, content, field):
        return str(content)

    def shown_bool(self, content, field):
        return "1" if content else "0"

    def shown_path(self, content, field):
        return "".join(".%d" % number for number in content)

    def shown_octets(self, content, field):
        return ":".join("%02x" % octet for octet in content)

    def shown_real(self, content, field):
        """Exactly; or in 15 digits, which do not always tell doubles apart; or, with a power of two under -1,074 and spare
        bits in the mantissa, as 0: the power by itself is no double."""
        number = double(content)
        if float(field.show) == number:
            return field.show
        if power(field.octets) < -1074:
            self.known["denormals with a power of two under -1,074, shown as 0 (not as we write them)"] += 1
            return "0" if number > 0 else "-0"
        self.known["reals shown to 15 digits, which are another double's"] += 1
        return "%.15g" % number

    def shown_text(self, content, field):
        """In PDML a control character is \\x and its number; tab and line ends are blanks by XML's own rule."""
        text, nul, _ = content.decode().partition("\0")
        shown = re.sub("[\x01-\x08\x0b\x0c\x0e-\x1f\x7f]", lambda found: "\\x%x" % ord(found[0]), text)
        shown = re.sub("\r\n|[\t\n\r]", " ", shown)
        if nul:
            self.known["texts with a byte 00, shown up to it"] += 1
        elif shown != text:
            self.known["texts with control characters, shown as \\x.. or blanks"] += 1
        return shown

    # Trees

    def tree(self, where, entries, glow, written, stopped):
        """All claims in message order; where the dissector stopped at a real, those before it. A message that our writer
        did not write may have members in any order, and what we pass over or count as absent."""
        try:
            walk = theirs.Walk(glow, lenient=not written)
        except theirs.Strange as strange:
            return self.differ(where, "tree", "known fields", strange)
        claims, shown = list(claims_of(entries)), walk.claims
        if not written:
            self.known.update(walk.ours_not)
            there = {claim[:2] for claim in shown}
            claims = sorted((claim for claim in claims if not stopped or claim[:2] in there), key=by_place)
            shown = sorted(shown, key=by_place)
        for (index, what, our), (their_index, their_what, their) in zip(claims, shown):
            place = "%s, entry %s" % (where, index)
            if (index, what) != (their_index, their_what):
                return self.differ(place, "field", what, "entry %s, %s" % (their_index, their_what))
            if isinstance(our, tuple):
                self.value(place, what, our, their, written)
            elif isinstance(their, theirs.Field):
                self.same(place, what, str(our), their.show, their.name + " (how many)")
            else:
                self.same(place, what, our, their, NAMES.get(what, "a value's kind"))
        rest = claims[len(shown):]
        if len(shown) > len(claims):
            self.differ(where, "fields", len(claims), len(shown))
        elif stopped:
            self.known["messages that the dissector leaves at a real with a mantissa of one octet"] += 1
            self.known["fields behind such a real, not shown"] += len(list(claims_of(entries))) - len(shown)
            if written and not (rest and isinstance(rest[0][2], tuple) and one_octet(rest[0][2])):
                self.differ(where, "left", "at a real with a mantissa of one octet", "before %s" % (rest[:1],))
        elif rest:
            self.differ(where, "fields", "%d more from %s on" % (len(rest), rest[0]), "none")

    # Frames

    def header(self, where, octets, frame):
        """The S101 fields of a frame that `packets` wrote, by document 01."""
        content = unescaped(octets)
        crc, wire = "0x" + content[-2:].hex(), "0x" + octets[-3:-1].hex()
        if crc != wire and frame.fields["s101.crc"].show == wire:
            self.known["right CRCs with an escaped byte, shown as on the wire"] += 1
            crc = wire
        expected = {
            "s101.format": "0xfe", "s101.slot": "0x00", "s101.msgtype": "0x0e", "s101.cmdtype": "0x%02x" % content[2],
            "s101.version": "1", "s101.crc": crc, "s101.crc.status": "1", "s101.eof": "0xff",
        }
        if content[2] == 0:
            expected.update({
                "s101.flags": "0x%02x" % content[4], "s101.dtdtype": "1", "s101.applen": "2", "s101.appminver": "20",
                "s101.appmajver": "2",
            })
        shown = {name: field.show for name, field in frame.fields.items()}
        for name in sorted(expected.keys() | shown.keys()):
            self.same(where, name, expected.get(name), shown.get(name), name)
        if frame.remarks:
            self.differ(where, "frame", "no remark", frame.remarks)

    def event(self, where, event, frame):
        """What `frames` lists for it: 2 a piece, 3 a message, 4 and 5 keep-alives."""
        command, flags = frame.fields["s101.cmdtype"].show, frame.fields.get("s101.flags")
        shown = {"0x01": 4, "0x02": 5}.get(command)
        if command == "0x00":
            shown = 3 if int(flags.show, 16) & 0x40 else 2
        self.same(where, "event", event, shown, "s101.cmdtype and s101.flags, with events 2 to 5")

    def pieces(self, where, message, count, frame):
        """The message as tshark put it together, where it took several packets."""
        if count == 1:
            if frame.pieces:
                self.differ(where, "packets", 1, frame.pieces.label)
            return
        shown = {field.name: field.show for field in frame.pieces.below} if frame.pieces else {}
        for name, our in [
            ("s101.msg.fragment.count", str(count)),
            ("s101.msg.reassembled.length", str(len(message))),
            ("s101.msg.reassembled.data", message.hex(":")),
        ]:
            self.same(where, name, our, shown.get(name), name)

    def damaged(self, where, octets, event, frame):
        """A frame with a byte changed: the CRC's status is bad exactly where our session says 16."""
        content = unescaped(octets)
        status = frame.fields.get("s101.crc.status") if frame else None
        if not status:
            self.known["damaged frames that the dissector does not take for S101"] += 1
            if is_s101(content):
                self.differ(where, "CRC of damaged frame " + octets.hex(), event, "not shown")
            return
        if content[2] == 0 and octets[1:10] != content[:9] and status.show == "0":
            self.known["frames with an escaped byte in the header, shown as bad"] += 1
            return
        self.same(where, "CRC", event == 16, status.show == "0", "s101.crc.status of a damaged frame, with event 16")
        if event == 16:
            self.should_be(where, octets, content, frame.fields["s101.crc"])

    def should_be(self, where, octets, content, field):
        """The number after "should be" is the one shown, with the remainder over content and CRC folded in."""
        said = int(field.label.rpartition("should be 0x")[2], 16)
        right = remainder(content[:-2]) ^ 0xFFFF
        if said == int.from_bytes(octets[-3:-1], "big") ^ remainder(content):
            self.known['bad CRCs where the number that "should be" is no CRC'] += 1
        elif said.to_bytes(2, "big") != right.to_bytes(2, "little"):
            self.differ(where, "CRC that should be", "%04x" % right, field.label)


SAID = {
    "int": lambda octets: int.from_bytes(octets, "big", signed=True), "bool": any, "path": numbers_of,
    "octets": bytes, "text": bytes, "real": real_of,
}
NAMES = {"kind": "an entry's kind", "parent": "an entry's parent"}


def by_place(claim):
    return -1 if claim[0] is None else claim[0], claim[1]


def stray(content):
    """Whether a text goes on after a byte 00."""
    return bool(content.partition(b"\0")[2].strip(b"\0"))


def one_octet(value):
    return value[0] == "real" and mantissa_octets(value[1]) == 1


def has_one_octet(entries):
    return any(one_octet(value) for _, _, members in entries for value in members.values())


def is_s101(content):
    """What the dissector asks of a frame's first bytes before it shows the frame."""
    known = content[:2] == b"\x00\x0e" and content[2] <= 2 and content[3] == 1
    return known and (content[2] > 0 or (len(content) > 10 and content[4] & 15 == 0 and content[5:7] == b"\x01\x02"))


def claims_of(entries):
    """Our entries as (index, what, value or count or word), in the order of the message."""
    below = collections.defaultdict(list)
    for index, (kind, parent, _) in enumerate(entries):
        below[parent, kind == "connection"].append(index)

    def claims(index):
        kind, parent, members = entries[index]
        yield index, "kind", kind
        yield index, "parent", parent
        for name, value in members.items():
            if name in ("value", "minimum", "maximum"):
                yield index, name + "'s kind", value[0]
            yield index, name, value
        for what, connection in [("children", False), ("connections", True)]:
            if below[index, connection]:
                yield index, what, len(below[index, connection])
            for child in below[index, connection]:
                yield from claims(child)

    yield None, "elements", len(below[None, False])
    for index in below[None, False]:
        yield from claims(index)
