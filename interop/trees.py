"""Trees within 001's notation, drawn at random: a matrix's contents have the identifier and both counts, minimum and
maximum are numbers, texts are UTF-8, a mask stands with command 32 alone. No streams yet: the two application numbers
are settled by a later request.

An entry is (kind, parent's index or None, members): the kinds and the names of members are those that `tree` prints. A
value is a pair of its kind and its content: int, real (its 64 bits), text and octets (bytes), bool, path (a tuple)."""

from spelling import APPLICATION, SEQUENCE, SET, UNIVERSAL, Spelling

NUMBER_MAX = 2147483647
ENTRIES_MAX = 256
LEVELS_MAX = 14  # with 64 containers open at once, a connection or a command still stands in the 14th level
PATH_MAX = 16

KINDS = {"parameter": (1, 9), "command": (2, None), "node": (3, 10), "matrix": (13, 17)}
# The members of contents that our reader keeps: name, context number, kind.
MEMBERS = {
    "node": [("identifier", 0, "name"), ("description", 1, "text"), ("root", 2, "bool"), ("online", 3, "bool")],
    "parameter": [
        ("identifier", 0, "name"), ("description", 1, "text"), ("value", 2, "value"), ("minimum", 3, "limit"),
        ("maximum", 4, "limit"), ("access", 5, (0, 3)), ("factor", 8, "int32"), ("online", 9, "bool"),
        ("step", 11, "int32"), ("stream", 14, (0, NUMBER_MAX)),
    ],
    "matrix": [
        ("identifier", 0, "name"), ("description", 1, "text"), ("type", 2, (0, 2)), ("mode", 3, (0, 1)),
        ("targets", 4, (0, NUMBER_MAX)), ("sources", 5, (0, NUMBER_MAX)), ("total-limit", 6, (0, NUMBER_MAX)),
        ("target-limit", 7, (0, NUMBER_MAX)),
    ],
}
REQUIRED = {"matrix": {"identifier", "targets", "sources"}}
# 001's other members, which our reader passes over: context number, kind.
PASSED_OVER = {
    "node": [],
    "parameter": [(6, "text"), (7, "text"), (10, "text"), (12, "value"), (13, (1, 7))],
    "matrix": [(9, (1, 100))],
}
WORDS = ["Gain", "PGM 1", "Lautstärke", "Düsseldorf", "音量", "Ёлка", "🎚", "a<b>&c", 'say "no"', "it's", "back\\slash", "", " ", "x.y/z"]
CONTROLS = ["\n", "\t", "\r", "two\nlines", "\x01", "\x7f", "\x1b[0m", "\u0085", "\u2028", "\ufeff", "\ufffd", "e\u0301", "\0", "a\0b"]
LETTERS = "ABCDEFGHIJKLMNOPQRSTUVWXYZabcdefghijklmnopqrstuvwxyz_"


class Drawn:
    """One tree: its message in some spelling, and its entries."""

    def __init__(self, random):
        self.random = random
        self.spelling = Spelling(random)
        self.entries = []
        self.room = random.choice([1, 2, 4, 8, 8, 20, 60])  # how many entries, about
        self.breadth = random.choice([1, 1, 3, 10])  # 1: deep and narrow
        self.long_texts = random.random() < 0.06
        self.small_mantissas = random.random() < 0.08  # of one octet: tshark leaves such a message (docs/INTEROP.md)
        if random.random() < 0.02:
            self.room = ENTRIES_MAX
        self.message = self.root()

    # Values

    def integer(self, low, high):
        random = self.random
        edges = [edge for edge in (-32769, -129, -128, -1, 0, 1, 2, 127, 128, 255, 256, 16383, 16384, 65536) if low <= edge <= high]
        way = random.randrange(5)
        if way == 0:
            return random.choice([low, high])
        if way == 1 or not edges:
            return random.randint(low, high)
        if way == 2:
            size = random.randint(1, max(high.bit_length(), 1))
            drawn = random.getrandbits(size) * random.choice([1, -1])
            return drawn if low <= drawn <= high else low
        return random.choice(edges)

    def real_bits(self):
        random = self.random
        way = random.randrange(8)
        if way == 0:
            return random.choice([0, 0x7FF << 52, 0xFFF << 52, (0x7FF << 52) - 1, (0xFFF << 52) - 1, (1 << 52) - 1, 0x101])
        sign = random.getrandbits(1) << 63
        if way in (1, 2, 3):
            return sign | random.randrange(0x7FF) << 52 | random.getrandbits(51) << 1 | 1
        if way == 4:  # denormal
            return sign | random.getrandbits(random.randint(9, 52)) | 0x101
        # A mantissa of few bits, around 1: what faders send. One octet takes up to eight bits.
        field, bits = random.randint(1000, 1045), random.randint(9, 20)
        if self.small_mantissas:
            bits = random.randint(1, 8)
        fraction = random.getrandbits(bits - 1) | 1 if bits > 1 else 0
        return sign | field << 52 | fraction << 53 - bits

    def text(self):
        random = self.random
        if self.long_texts and random.random() < 0.2:
            return (random.choice(WORDS) * 400).encode()[:random.choice([127, 128, 255, 256, 400, 1013, 3000])].decode(errors="ignore").encode()
        words = random.choices(WORDS, k=random.choice([1, 1, 1, 2, 3]))
        if random.random() < 0.05:
            words.append(random.choice(CONTROLS))
        return " ".join(words).encode()

    def name(self):
        random = self.random
        tail = "".join(random.choices(LETTERS + "0123456789 -.é", k=random.choice([0, 3, 5, 12])))
        return (random.choice(LETTERS) + tail).encode()

    def octets(self):
        random = self.random
        return random.randbytes(random.choice([0, 1, 2, 8, 8, 40, 200 if self.long_texts else 10]))

    def drawn(self, kind):
        """A value of a member of this kind."""
        random = self.random
        if isinstance(kind, tuple):
            return "int", self.integer(*kind)
        if kind == "value":
            kind = random.choice(["int64", "real", "text", "bool", "octets"])
        if kind == "limit":
            kind = random.choice(["int64", "real"])
        if kind == "int32":
            return "int", self.integer(-NUMBER_MAX - 1, NUMBER_MAX)
        if kind == "int64":
            return "int", self.integer(-(1 << 63), (1 << 63) - 1)
        if kind == "real":
            return "real", self.real_bits()
        if kind == "bool":
            return "bool", random.random() < 0.5
        if kind == "octets":
            return "octets", self.octets()
        return "text", self.name() if kind == "name" else self.text()

    def spelled(self, value):
        kind, content = value
        spell = {"int": "integer", "real": "real", "text": "text", "bool": "boolean", "octets": "octets", "path": "numbers"}[kind]
        return getattr(self.spelling, spell)(content)

    # Elements

    def root(self):
        items = []
        for _ in range(self.random.choice([0, 1, 1, 1, 2, 4, 30]) if self.room > 1 else 1):
            if self.room > 0:
                items.append(self.spelling.member(0, self.element(None, 1, True)))
        collection = self.spelling.container(APPLICATION, 11, items)
        return self.spelling.outer(APPLICATION, 0, collection)[0]

    def add(self, kind, parent, members):
        self.room -= 1
        self.entries.append((kind, parent, members))
        return len(self.entries) - 1

    def element(self, parent, level, qualified_too):
        """`level` counts the containers' levels and, below a path, is never less than the path's length."""
        random = self.random
        kind = random.choices(["node", "parameter", "matrix", "command"], [5, 6, 2, 1])[0]
        if kind == "command":
            return self.command(parent)
        qualified = qualified_too and random.random() < 0.5
        if qualified:
            level = random.choice([1, 2, 3, 3, 5, 16])
            key = ("path", tuple(self.integer(1, NUMBER_MAX) for _ in range(level)))
        else:
            key = ("int", self.integer(1, NUMBER_MAX))
        members = {"path" if qualified else "number": key}
        index = self.add("qualified-" + kind if qualified else kind, parent, members)
        parts = [self.spelling.member(0, self.spelled(key))]
        contents = self.contents(kind, members)
        if contents:
            parts.append(self.spelling.member(1, contents))
        below = self.children(index, level + 1)
        if below:
            parts.append(self.spelling.member(2, below))
        if kind == "matrix":
            if self.spelling.odd():
                parts.append(self.spelling.member(3, self.signals(14)))
            if self.spelling.odd():
                parts.append(self.spelling.member(4, self.signals(15)))
            connections = self.connections(index)
            if connections:
                parts.append(self.spelling.member(5, connections))
        return self.spelling.container(APPLICATION, KINDS[kind][1 if qualified else 0], parts)

    def contents(self, kind, members):
        """The contents set, or None. What it holds is put into `members`."""
        random = self.random
        share = random.choice([0, 0.3, 0.6, 1])
        if share == 0:
            return None
        parts = []
        for name, number, what in MEMBERS[kind]:
            if name in REQUIRED.get(kind, ()) or random.random() < share:
                value = self.drawn(what)
                members[name] = value
                parts.append(self.spelling.member(number, self.spelled(value)))
        for number, what in PASSED_OVER[kind]:
            if self.spelling.odd():
                parts.append(self.spelling.member(number, self.spelled(self.drawn(what))))
        if self.spelling.odd():
            random.shuffle(parts)
        return self.spelling.container(UNIVERSAL, SET, parts)

    def children(self, parent, level):
        random = self.random
        if level > LEVELS_MAX or random.random() < 0.3:
            return None
        items = []
        for _ in range(random.randint(1, self.breadth)):
            if self.room > 0:
                items.append(self.spelling.member(0, self.element(parent, level, False)))
        if not items and not self.spelling.odd():
            return None
        return self.spelling.container(APPLICATION, 4, items)

    def command(self, parent):
        random = self.random
        number = random.choice([30, 31, 32, 32, 32, 33, self.integer(-NUMBER_MAX - 1, NUMBER_MAX)])
        members = {"number": ("int", number)}
        parts = [self.spelling.member(0, self.spelling.integer(number))]
        if number == 32 and random.random() < 0.5:
            mask = random.choice([-1, 0, 1, 2, 3, 4, 5, self.integer(-NUMBER_MAX - 1, NUMBER_MAX)])
            members["mask"] = ("int", mask)
            parts.append(self.spelling.member(1, self.spelling.integer(mask)))
        self.add("command", parent, members)
        return self.spelling.container(APPLICATION, 2, parts)

    def signals(self, application):
        """Targets or sources of a matrix, which our reader passes over."""
        items = []
        for _ in range(self.random.randint(0, 3)):
            number = self.spelling.member(0, self.spelling.integer(self.integer(0, NUMBER_MAX)))
            items.append(self.spelling.member(0, self.spelling.container(APPLICATION, application, [number])))
        return self.spelling.container(UNIVERSAL, SEQUENCE, items)

    def connections(self, matrix):
        random = self.random
        items = []
        for _ in range(random.choice([0, 1, 2, 3, 12])):
            if self.room <= 0:
                break
            members = {"target": ("int", self.integer(0, NUMBER_MAX))}
            parts = [self.spelling.member(0, self.spelled(members["target"]))]
            if random.random() < 0.8:
                count = random.choice([0, 1, 1, 2, 3, 8, 40 if self.long_texts else 5])
                members["sources"] = ("path", tuple(self.integer(0, NUMBER_MAX) for _ in range(count)))
                parts.append(self.spelling.member(1, self.spelled(members["sources"])))
            if random.random() < 0.6:
                members["operation"] = ("int", random.randint(0, 2))
                parts.append(self.spelling.member(2, self.spelled(members["operation"])))
            if self.spelling.odd():
                parts.append(self.spelling.member(3, self.spelling.integer(random.randint(0, 3))))
            self.add("connection", matrix, members)
            items.append(self.spelling.member(0, self.spelling.container(APPLICATION, 16, parts)))
        if not items and not self.spelling.odd():
            return None
        return self.spelling.container(UNIVERSAL, SEQUENCE, items)
