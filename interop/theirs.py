"""What tshark shows of a capture: its S101 frames, and the tree of each message as a list of claims.

A claim is (index of the entry in message order or None, what, field). The walk is strict: a field that it does not know,
a choice that is labelled otherwise than what it holds, or an expert's remark is `Strange`."""

import collections
import os
import re
import subprocess
import tempfile
from xml.etree import ElementTree

KNOWN_PROTOCOLS = {"geninfo", "frame", "eth", "ip", "tcp"}
ELEMENTS = {
    "glow.node_element": "node", "glow.parameter_element": "parameter", "glow.matrix_element": "matrix",
    "glow.command_element": "command", "glow.qualifiedNode_element": "qualified-node",
    "glow.qualifiedParameter_element": "qualified-parameter", "glow.qualifiedMatrix_element": "qualified-matrix",
}
COMMON = {"glow.identifier": "identifier", "glow.description": "description"}
MEMBERS = {
    "node": {**COMMON, "glow.isRoot": "root", "glow.isOnline": "online"},
    "parameter": {
        **COMMON, "glow.value": "value", "glow.minimum": "minimum", "glow.maximum": "maximum", "glow.access": "access",
        "glow.factor": "factor", "glow.isOnline": "online", "glow.step": "step", "glow.streamIdentifier": "stream",
    },
    "matrix": {
        **COMMON, "glow.type": "type", "glow.addressingMode": "mode", "glow.targetCount": "targets",
        "glow.sourceCount": "sources", "glow.maximumTotalConnects": "total-limit",
        "glow.maximumConnectsPerTarget": "target-limit",
    },
}
CONNECTION = {"glow.target": "target", "glow.sources": "sources", "glow.operation": "operation"}
# 001's members that our reader passes over.
PASSED_OVER = {
    "glow.format", "glow.enumeration", "glow.formula", "glow.default", "glow.type", "glow.gainParameterNumber",
    "glow.targetList", "glow.sourceList", "glow.disposition",
}
VALUES = {"integer": "int", "real": "real", "string": "text", "boolean": "bool", "octets": "octets"}
STRAY = "Trailing stray characters"


class Strange(Exception):
    pass


class Field:
    """A line of tshark's tree: its name, what it shows, the octets that it marks, its label, and the lines below."""

    def __init__(self, node):
        self.name = node.get("name")
        self.show = node.get("show")
        self.hexadecimal = node.get("value") or ""
        self.label = node.get("showname") or self.show or ""
        self.below = [Field(child) for child in node]

    @property
    def octets(self):
        return bytes.fromhex(self.hexadecimal)

    def word(self):
        """The name in `Element: node (3)`."""
        found = re.search(r": (\w+) \(\d+\)$", self.label)
        return found[1] if found else None

    def all_below(self):
        for field in self.below:
            yield field
            yield from field.all_below()

    def only(self, name):
        if [field.name for field in self.below] != [name]:
            raise Strange("%s holds %s and not %s" % (self.label, [field.label for field in self.below], name))
        return self.below[0]


class Frame:
    """An S101 frame: its fields by name, the packets that were put together, the tree, and remarks."""

    def __init__(self, node):
        self.fields, self.pieces, self.glow, self.remarks = {}, None, None, []
        for child in node:
            field = Field(child)
            if field.name == "glow":
                self.glow = field
            elif field.name == "s101.msg.fragments":
                self.pieces = field
            elif field.name in self.fields or not field.name.startswith("s101."):
                self.remarks.append(field.label)
            else:
                self.fields[field.name] = field
                self.remarks += [below.label for below in field.below]


def version():
    return subprocess.run(["tshark", "--version"], stdout=subprocess.PIPE, stderr=subprocess.DEVNULL, check=True).stdout.decode().splitlines()[0]


def dissected(path, port):
    """For each packet of the capture its S101 frames, and remarks on the packet."""
    with tempfile.TemporaryDirectory() as nothing:
        # The preferences of whoever runs it do not matter.
        tshark = subprocess.Popen(
            ["tshark", "-n", "-r", path, "-d", "tcp.port==%d,s101" % port, "-T", "pdml", "-J", "s101"],
            stdout=subprocess.PIPE, stderr=subprocess.DEVNULL, env={**os.environ, "WIRESHARK_CONFIG_DIR": nothing})
        for _, node in ElementTree.iterparse(tshark.stdout):
            if node.tag == "packet":
                frames, remarks = [], []
                for protocol in node:
                    name = protocol.get("name")
                    if name == "s101":
                        frames.append(Frame(protocol))
                    elif name not in KNOWN_PROTOCOLS:
                        remarks.append(protocol.get("showname"))
                yield frames, remarks
                node.clear()
        if tshark.wait():
            raise SystemExit("tshark ended with %d" % tshark.returncode)


class Walk:
    """The claims that a dissected tree makes, in message order. If lenient, what our reader passes over or counts as absent
    is left out and counted."""

    def __init__(self, glow, lenient):
        self.claims = []
        self.count = 0
        self.lenient = lenient
        self.ours_not = collections.Counter()
        root = glow.only("glow.Root")
        if root.word() != "elements":
            raise Strange(root.label)
        elements = root.only("glow.elements")
        self.claim(None, "elements", elements)
        for item in elements.below:
            self.root_element(item)

    def claim(self, index, what, field):
        self.claims.append((index, what, field))

    def left_out(self, field):
        if self.lenient and field.name in PASSED_OVER:
            self.ours_not["members of 001 that our reader passes over, shown"] += 1
            return True
        if self.lenient and field.name in ("glow.children", "glow.connections") and field.show == "0" and not field.below:
            self.ours_not["empty children or connections, absent by our reader, shown as 0 items"] += 1
            return True
        return False

    def chosen(self, item, name):
        """What a choice holds; its label names it."""
        if item.name != name or len(item.below) != 1:
            raise Strange("%s where %s is expected" % (item.label, name))
        inside = item.below[0]
        if inside.name not in ("glow." + item.word(), "glow.%s_element" % item.word()):
            raise Strange("%s holds %s" % (item.label, inside.label))
        return inside

    def root_element(self, item):
        inside = self.chosen(item, "glow.RootElement")
        self.element(self.chosen(inside, "glow.element") if inside.name == "glow.element" else inside, None)

    def element(self, field, parent):
        kind = ELEMENTS.get(field.name)
        if not kind:
            raise Strange("element " + field.label)
        index = self.entry(kind, parent)
        plain = kind.replace("qualified-", "")
        key = "glow.number" if plain == kind else "glow.path"
        for part in field.below:
            if self.left_out(part):
                continue
            if part.name == key:
                self.claim(index, key[5:], part)
            elif part.name == "glow.options" and kind == "command":
                self.claim(index, "mask", self.chosen(part, "glow.options"))
            elif part.name == "glow.contents_element" and plain in MEMBERS:
                for member in part.below:
                    self.member(index, MEMBERS[plain], member)
            elif part.name == "glow.children" and plain in MEMBERS:
                self.claim(index, "children", part)
                for item in part.below:
                    self.element(self.chosen(item, "glow.Element"), index)
            elif part.name == "glow.connections" and plain == "matrix":
                self.claim(index, "connections", part)
                for item in part.below:
                    self.connection(item, index)
            else:
                raise Strange("%s in %s" % (part.label, kind))

    def entry(self, kind, parent):
        index = self.count
        self.count += 1
        self.claim(index, "kind", kind)
        self.claim(index, "parent", parent)
        return index

    def member(self, index, names, field):
        name = names.get(field.name)
        if not name:
            if self.left_out(field):
                return
            raise Strange("member " + str(field.label))
        if name in ("value", "minimum", "maximum"):
            self.claim(index, name + "'s kind", VALUES.get(field.word()))
            if field.below:
                self.claim(index, name, self.chosen(field, field.name))
        else:
            self.claim(index, name, field)

    def connection(self, field, parent):
        if field.name != "glow.Connection_element":
            raise Strange("connection " + field.label)
        index = self.entry("connection", parent)
        for part in field.below:
            self.member(index, CONNECTION, part)
