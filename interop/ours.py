"""Our programs, run, and what they print, as entries and events."""

import os
import re
import subprocess

from capture import frames_of

ROOT = os.path.dirname(os.path.dirname(os.path.abspath(__file__)))
MEMBER = re.compile(r' ([a-z-]+)=((?:text:)?"[^"]*"|[^ ]*)')


def run(program, requests):
    """The lines that crates/PROGRAM/out/PROGRAM prints for these lines."""
    path = os.path.join(ROOT, "crates", program, "out", program)
    text = "".join(request + "\n" for request in requests)
    done = subprocess.run([path], input=text.encode(), stdout=subprocess.PIPE, check=True)
    return done.stdout.decode("ascii").splitlines()


def written(messages):
    """Each message as `tree write` writes it again, or None, and the answer."""
    lines = run("tree", ["write " + message.hex().upper() for message in messages])
    assert len(lines) == len(messages), "tree write: another count of answers"
    return [(bytes.fromhex(line[2:]) if line.startswith("0 ") else None, line) for line in lines]


def read(messages):
    """The entries of each message, by `tree read`."""
    lines = iter(run("tree", ["read " + message.hex().upper() for message in messages]))
    trees = []
    for message in messages:
        head = next(lines).split()
        if head[0] != "0" or head[1] != "elements":
            raise SystemExit("tree read %s: %s" % (message.hex(), " ".join(head)))
        trees.append([entry(next(lines)) for _ in range(int(head[2]))])
    assert next(lines, None) is None, "tree read: lines left"
    return trees


def entry(line):
    """A line of `tree read`, as (kind, parent's index or None, members)."""
    _, parent, rest = line.split(" ", 2)
    kind, _, members = rest.partition(" ")
    kept = {}
    place = 0
    members = " " + members
    while place < len(members):
        found = MEMBER.match(members, place)
        assert found, line
        kept[found[1]] = value(kind, found[1], found[2])
        place = found.end()
    return kind, None if parent == "-" else int(parent), kept


def value(kind, name, text):
    if text.startswith('"'):
        return "text", unquoted(text)
    if name == "path" or (kind == "connection" and name == "sources"):
        return "path", () if text == "-" else tuple(int(number) for number in text.split("."))
    how, colon, content = text.partition(":")
    if not colon:
        return ("bool", text == "true") if text in ("true", "false") else ("int", int(text))
    if how == "int":
        return "int", int(content)
    if how == "real":
        return "real", int(content, 16)
    if how == "text":
        return "text", unquoted(content)
    if how == "bool":
        return "bool", content == "true"
    assert how == "octets", text
    return "octets", b"" if content == "-" else bytes.fromhex(content)


def unquoted(text):
    """`"..."` with `\\` and two hexadecimal digits for a byte."""
    return re.sub(rb"\\(..)", lambda found: bytes.fromhex(found[1].decode()), text[1:-1].encode("ascii"))


def frames(requests):
    """What `packets` writes for each request, cut into frames."""
    lines = run("packets", requests)
    assert len(lines) == len(requests), "packets: another count of answers"
    return [frames_of(bytes.fromhex(line)) for line in lines]


def events(stream):
    """The events that `frames` lists for these frames, as (offset, number, discarded, message or None)."""
    listed = []
    for line in run("frames", [frame.hex().upper() for frame in stream]):
        words = line.split()
        if words[0] != "end":
            listed.append((int(words[0]), int(words[1]), int(words[2]), bytes.fromhex(words[3]) if len(words) > 3 else None))
    return listed
