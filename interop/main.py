"""Compares what our programs write and read with what tshark shows of it.
    main.py COUNT SEED      COUNT trees, drawn from SEED

For each drawn tree: `tree write` writes its message anew, `tree read` reads that back, `packets` frames it, and `frames`
lists the events of the frames. The frames become the TCP payload of a capture, tshark dissects the capture, each field
that it shows is compared with ours, and ours with the tree that was drawn. The same for the message as it was drawn, in
another spelling than ours. Ends with 0 if nothing differs but what is known (docs/INTEROP.md), else with 1."""

import os
import random
import sys
import tempfile

import ours
import theirs
from capture import PORT, Capture
from compare import Comparison, has_one_octet
from outside import CASES
from plain import escaped, is_first, is_last, unescaped
from trees import Drawn

BATCH = 500  # trees to a capture
MESSAGE_MAX = 16384
# The consumer's port of each connection in the capture.
WRITTEN, SPELLED, DAMAGED, CUT, WOVEN, TWICE, OUTSIDE = range(50000, 50007)
STOPPED = 'failed assertion "lenE < len - 1"'
PLANTED = 0.1  # share of messages in which a difference is planted, to see that it is told


class Segment:
    """A TCP segment: for each of its frames the bytes, the event that `frames` lists, and, for the one that ends a
    message, (message, entries, count of its frames)."""

    def __init__(self, frames, port, to_provider=True):
        self.frames, self.port, self.to_provider = frames, port, to_provider


class Batch:
    """Some trees in one capture."""

    def __init__(self, comparison, source, count):
        self.comparison, self.source = comparison, source
        trees = [self.draw() for _ in range(count)]
        messages, entries = self.through_tree(trees)
        self.segments = self.stream(WRITTEN, messages, entries)
        self.segments += self.stream(SPELLED, [tree.message for tree in trees], [tree.entries for tree in trees])
        self.segments += self.damaged() + self.cut() + self.woven() + self.outside()

    def draw(self):
        while True:
            tree = Drawn(self.source)
            if len(tree.message) <= MESSAGE_MAX:
                return tree

    # What goes into the capture

    def through_tree(self, trees):
        """The messages as our writer writes them, and their entries as our reader reads them, which are those drawn."""
        seen, kept = self.comparison.seen, []
        for tree, (message, answer) in zip(trees, ours.written([tree.message for tree in trees])):
            if message is None:
                self.comparison.differ("tree " + tree.message.hex(), "write", answer, "(not asked)")
            else:
                kept.append((tree, message))
        messages = [message for _, message in kept]
        entries = ours.read(messages)
        for (tree, message), read in zip(kept, entries):
            if read != tree.entries:
                self.comparison.differ("tree " + message.hex(), "entries", read, "(drawn: %s)" % tree.entries)
            seen["trees"] += 1
            seen["entries"] += len(read)
            seen["bytes of messages"] += len(message)
            seen["bytes of messages as drawn"] += len(tree.message)
        return messages, entries

    def stream(self, port, messages, entries):
        """One frame to a segment, or some; keep-alives between messages and between the packets of one."""
        source, parts = self.source, ours.frames(["message " + message.hex().upper() for message in messages])
        keep_alives = [frames[0] for frames in ours.frames(["request", "response"])]
        stream = []
        for message, tree, frames in zip(messages, entries, parts):
            for frame in frames:
                if source.random() < 0.15:
                    stream.append((source.choice(keep_alives), None))
                stream.append((frame, (message, tree, len(frames)) if frame is frames[-1] else None))
        events = ours.events([frame for frame, _ in stream])
        if len(events) != len(stream) or sum(len(frame) for frame, _ in stream) != events[-1][0]:
            self.comparison.differ("frames", "events", len(stream), len(events))
        segments, waiting, room = [], [], 1
        for (frame, message), (_, event, _, event_message) in zip(stream, events):
            if message and event_message != message[0]:
                self.comparison.differ("frames", "message", event_message, message[0])
            # A second message of several packets that begins in a segment is not put together.
            again = is_first(frame) and any(is_first(earlier) for earlier, _, _ in waiting)
            # A message that stops the dissector hides what stands behind it in its segment.
            behind = waiting and waiting[-1][2] and (port == SPELLED or has_one_octet(waiting[-1][2][1]))
            if len(waiting) >= room or again or behind:
                segments.append(Segment(waiting, port))
                waiting, room = [], source.choice([1, 1, 1, 2, 5])
            waiting.append((frame, event, message))
        return segments + [Segment(waiting, port)]

    def written(self, *events):
        """The frames of what we wrote that have one of these events."""
        return [frame for segment in self.segments if segment.port == WRITTEN for frame, event, _ in segment.frames if event in events]

    def damaged(self):
        """Frames with a byte changed: under the old CRC, or under the one that `packets frame` writes for them."""
        source, whole = self.source, self.written(2, 3, 4, 5)
        frames, contents = [], []
        for frame in source.sample(whole, max(len(whole) // 8, 1)):
            content = bytearray(unescaped(frame))
            content[source.randrange(len(content))] ^= source.choice([1 << source.randrange(8), source.randrange(1, 256)])
            if source.random() < 0.6:
                frames.append(escaped(bytes(content)))
            else:
                contents.append(bytes(content[:-2]))
        # A right frame with another minor version, which is escaped: we read any.
        contents.append(b"\x00\x0e\x00\x01\xc0\x01\x02" + bytes([source.randrange(0xF8, 0x100)]) + b"\x02\x60\x02\x6b\x00")
        frames += [written[0] for written in ours.frames(["frame " + content.hex().upper() for content in contents])]
        return [Segment([(frame, event, None)], DAMAGED) for frame, (_, event, _, _) in zip(frames, ours.events(frames))]

    def cut(self):
        """Right frames, each cut over two segments."""
        segments, whole = [], self.written(3)
        for frame in self.source.sample(whole, min(len(whole), 10)):
            place = self.source.randrange(10, len(frame) - 1)
            segments += [Segment([(frame[:place], None, None)], CUT), Segment([(frame[place:], 3, None)], CUT)]
        return segments

    def woven(self):
        """A message of two packets in each direction, the packets taking turns; and that message twice in one segment."""
        frames = self.written(2, 3)
        pairs = [pair for pair in zip(frames, frames[1:]) if is_first(pair[0]) and is_last(pair[1])]
        if not pairs:
            return []
        first, last = (pairs[0][0], 2, None), (pairs[0][1], 3, None)
        turns = [Segment([frame], WOVEN, way) for frame in (first, last) for way in (True, False)]
        return turns + [Segment([first, last, first, last], TWICE)]

    def outside(self):
        """Messages outside the notation, a segment each."""
        answers = [ours.run("tree", ["read " + case[1]])[0] for case in CASES]
        for case, answer in zip(CASES, answers):
            if answer != case[2]:
                self.comparison.differ(case[0], "tree read", answer, "(expected: %s)" % case[2])
        frames = ours.frames(["message " + case[1] for case in CASES])
        return [Segment([(parts[0], 3, case)], OUTSIDE) for parts, case in zip(frames, CASES)]

    # What tshark shows of it

    def look(self, path):
        with Capture(path) as capture:
            for segment in self.segments:
                capture.add(b"".join(frame for frame, _, _ in segment.frames), segment.port, segment.to_provider)
        looks = {
            WRITTEN: self.look_whole, SPELLED: self.look_whole, DAMAGED: self.look_damaged, CUT: self.look_cut,
            WOVEN: self.look_woven, TWICE: self.look_twice, OUTSIDE: self.look_outside,
        }
        number = 0
        for segment, (frames, remarks) in zip(self.segments, theirs.dissected(path, PORT)):
            number += 1
            looks[segment.port]("packet %d" % number, segment, frames, remarks)
        self.comparison.seen["segments"] += number
        if number != len(self.segments):
            self.comparison.differ(path, "packets", len(self.segments), number)

    def look_whole(self, where, segment, frames, remarks):
        comparison = self.comparison
        stopped = [remark for remark in remarks if STOPPED in remark]
        if len(stopped) != len(remarks):
            comparison.differ(where, "packet", "no remark", remarks)
        if len(frames) != len(segment.frames):
            return comparison.differ(where, "frames", len(segment.frames), len(frames))
        for (octets, event, message), frame in zip(segment.frames, frames):
            comparison.seen["frames"] += 1
            comparison.seen["frames of keep-alives"] += event in (4, 5)
            comparison.header(where, octets, frame)
            comparison.event(where, event, frame)
            if bool(message) != bool(frame.glow):
                comparison.differ(where, "tree", bool(message), bool(frame.glow))
            elif message:
                comparison.seen["messages of several packets"] += message[2] > 1
                comparison.seen["packets of the longest message"] = max(comparison.seen["packets of the longest message"], message[2])
                comparison.pieces(where, message[0], message[2], frame)
                last = bool(stopped) and frame is frames[-1]
                comparison.tree(where, message[1], frame.glow, segment.port == WRITTEN, last)
                if segment.port == WRITTEN and not last and message[1] and self.source.random() < PLANTED:
                    self.plant(where, message[1], frame.glow)

    def plant(self, where, entries, glow):
        """Changes one thing in our entries: the comparison must tell it."""
        changed = [(kind, parent, dict(members)) for kind, parent, members in entries]
        place = self.source.randrange(len(changed))
        kind, parent, members = changed[place]
        name = self.source.choice(list(members))
        how, content = members[name]
        if how in ("int", "real"):
            members[name] = how, content ^ 1 << self.source.randrange(40 if how == "real" else 8)
        elif how == "bool":
            members[name] = how, not content
        elif how == "path":
            members[name] = how, content[:-1] if content and self.source.random() < 0.5 else content + (7,)
        else:
            members[name] = how, content[:-1] if content and content[-1] < 128 else content + b"?"
        if self.source.random() < 0.1:
            del members[name]
        trial = Comparison()
        trial.tree(where, changed, glow, True, False)
        self.comparison.seen["differences planted, and told"] += 1
        if not trial.differences:
            self.comparison.differ(where, "planted", changed[place], "not told")

    def look_damaged(self, where, segment, frames, remarks):
        octets, event, _ = segment.frames[0]
        self.comparison.seen["damaged frames"] += 1
        self.comparison.seen["damaged frames with event 16"] += event == 16
        self.comparison.damaged(where, octets, event, frames[0] if len(frames) == 1 else None)

    def look_cut(self, where, segment, frames, remarks):
        if segment.frames[0][1] is None:
            return
        self.comparison.seen["frames cut over two segments"] += 1
        status = [frame.fields.get("s101.crc.status") for frame in frames]
        if not any(field and field.show == "1" for field in status):
            self.comparison.known["frames cut over two segments, not put together"] += 1

    def look_woven(self, where, segment, frames, remarks):
        if segment.frames[0][1] == 3:
            self.comparison.seen["messages whose packets take turns with another direction's"] += 1
            if not (frames and frames[0].pieces):
                self.comparison.known["messages whose packets take turns with another direction's, not put together"] += 1

    def look_twice(self, where, segment, frames, remarks):
        together = sum(frame.pieces is not None for frame in frames)
        self.comparison.seen["messages of two packets, two in one segment"] += 2
        self.comparison.known["messages of several packets, the second that begins in a segment, not put together"] += 2 - together

    def look_outside(self, where, segment, frames, remarks):
        name, _, _, shown = segment.frames[0][2]
        labels = [field.label for frame in frames if frame.glow for field in frame.glow.all_below()]
        as_told = any(shown in label for label in labels) if shown else not labels
        if as_told:
            self.comparison.known["outside the notation: " + name] += 1
        else:
            self.comparison.differ(where, name, shown, labels)


def main(count, seed):
    source, comparison = random.Random(seed), Comparison()
    print(theirs.version())
    with tempfile.TemporaryDirectory() as folder:
        path = os.path.join(folder, "trees.pcap")
        while comparison.seen["trees"] < count and not comparison.differences:
            Batch(comparison, source, min(BATCH, count - comparison.seen["trees"])).look(path)
        if comparison.differences:
            with open(path, "rb") as made, open(os.path.join(ours.ROOT, "target", "interop.pcap"), "wb") as kept:
                kept.write(made.read())
    for title, counts in [("seen", comparison.seen), ("fields compared", comparison.compared), ("known differences", comparison.known)]:
        print(title)
        for name, number in sorted(counts.items()):
            print("%10d  %s" % (number, name))
    fields = sum(comparison.compared.values())
    print("seed %d, trees %d, fields compared %d, differences %d" % (seed, comparison.seen["trees"], fields, len(comparison.differences)))
    for difference in comparison.differences[:20]:
        print("    " + difference[:2000])
    if comparison.differences:
        print("the last capture is target/interop.pcap")
    return 1 if comparison.differences else 0


if __name__ == "__main__":
    if len(sys.argv) != 3:
        sys.exit(__doc__)
    sys.exit(main(int(sys.argv[1]), int(sys.argv[2])))
