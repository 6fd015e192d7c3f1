#!/usr/bin/env python3
"""Spells the names that this repository declares as today's Rattle does: words in snake case (`digitOf` is `digit_of`).

usage: python3 tools/respell.py            once, at the top, right after /opt/rattle/port/port.py
       python3 tools/respell.py --list     what would be turned, and which names would fall together

Names of specs/ and proofs/ turn wherever they stand: in .antt files, in the clauses and ghost lines of .rt files, and in must-fail edits.
Names of the source, strings, inputs and outputs stay. Two definitions called `result`, which a clause now means the returned value by, get
names of their own, and the clauses that port.py left for that are written as the others are.
"""
import collections
import glob
import os
import re
import sys

DECLARED = re.compile(r"^\s*(?:abbrev |unfoldable |pub )*([^\s(){}.;,@\"«»:]+)(?: \{[^{}\n]*\})* :(?=\s|$)", re.M)
TOKEN = re.compile(r"[^\s(){}.;,@\"«»\[\]⌜⌝`]+")
# Names whose plain spelling is taken where they stand, or that have another by the library's words.
OTHER = {"getD-listed": "get_or-listed"}
# Lemmas that would have the name of the definition they speak of.
LEMMAS = "told_with root_in in_order is_real member_of kept_of cell_in is_read".split()
LEMMA = re.compile(r"(?<![^\s(){},;])(%s)(?![^\s(){},;])" % "|".join(LEMMAS))
# Two definitions called `result`, by the module that declares each.
RESULTS = {"glow_reader.specs.Message": "read_result", "desk_requests.specs.Request": "result_of"}
RESULT = re.compile(r"(?<![\w.'-])result(?![\w'-])")


def snake(name):
    return re.sub(r"(?<=[a-z0-9])([A-Z])", lambda m: "_" + m[1].lower(), name)


def turned(name):
    """A lemma's name has parts joined by dashes; each part that begins in lower case is a word."""
    if name in OTHER:
        return OTHER[name]
    return "-".join(snake(p) if p[:1].islower() else p for p in name.split("-"))


def read(path):
    with open(path, encoding="utf-8") as f:
        return f.read()


def files(*globs):
    return sorted(p for g in globs for p in glob.glob(g, recursive=True) if "/out/" not in p)


def names(antts):
    """Every name that the repository declares and that has a capital inside a word."""
    declared = {n for p in antts for n in DECLARED.findall(read(p))}
    # .. and those that a `use` line gives, or a pattern binds
    declared |= {m for p in antts for m in re.findall(r" as ([a-z]\w*)", read(p))}
    declared |= set("isFit toldBy isBit oidOf readTold treeSaid markedAt contentsIn".split())
    return {n: turned(n) for n in declared if turned(n) != n}


def strip_comment(text):
    return re.sub(r"(?<![^\s(){}.;,])--[^\n]*", "", text)


def main(argv):
    antts = files("crates/*/specs/**/*.antt", "crates/*/proofs/**/*.antt")
    rts = files("crates/*/src/**/*.rt")
    edits = files("crates/*/must-fail/*.edit")
    table = names(antts)
    table.update({m: turned(m) for p in rts for line in read(p).split("\n") if line.startswith("ghost use") for m in re.findall(r" as ([a-z]\w*)", line) if turned(m) != m})
    # also the names that are bound locally and are spelled like a declared one are turned with it, since whole words turn
    by_new = collections.defaultdict(set)
    for old, new in table.items():
        by_new[new].add(old)
    clashes = [(new, olds) for new, olds in by_new.items() if len(olds) > 1]
    for p in antts + rts:
        words = set(TOKEN.findall(strip_comment(read(p))))
        for w in words & set(table):
            if table[w] in words:
                clashes.append((p, w, table[w]))
    if "--list" in argv:
        print(len(table), "names")
        for it in clashes:
            print("falls together:", it)
        left = collections.Counter(w for p in antts for w in TOKEN.findall(strip_comment(read(p))) if re.match(r"[a-z]\w*[a-z0-9][A-Z]", w) and w not in table)
        print("stay:", dict(left))
        return 0
    for p in antts + rts + edits:
        text = was = read(p)
        if "/proofs/" in p:
            text = LEMMA.sub(r"\1_lem", text)
        text = TOKEN.sub(lambda m: table.get(m[0], m[0]), text)
        if p.endswith(".antt"):
            for module, new in RESULTS.items():
                if p == "crates/" + module.replace(".", "/") + ".antt" or re.search(r"use Rattle\.%s\.\{[^}]*(?<![\w.'-])result(?![\w'-])" % re.escape(module), text):
                    text = "\n".join(l if l.lstrip().startswith("--") else RESULT.sub(new, l) for l in text.split("\n"))
        if p.endswith(".rt"):
            if re.search(r"Message\.\{[^}]*\bresult\b", text):
                text = re.sub(r"(Message\.\{[^}]*)\bresult\b", r"\1read_result", text)
                text = re.sub(r"(ensures\* [^\n]*?≡ )result\b", r"\1read_result", text)
            text = starred(text)
        if text != was:
            with open(p, "w", encoding="utf-8") as f:
                f.write(text)
    return 0


def starred(text):
    """`ensures* NAME { λ r. ⌜ P ⌝ }` as `ensures NAME { P }`, with `result` for r."""
    def plain(m):
        body = m[3]
        if m[2] != "_":
            body = re.sub(r"(?<![\w.'-])%s(?![\w'-])" % re.escape(m[2]), "result", body)
        return f"ensures{m[1]} {{ {body} }}"
    return re.sub(r"ensures\*((?: \w+)?) \{ λ (\w+)\. ⌜ (.*?) ⌝ \}", plain, text, flags=re.S)


if __name__ == "__main__":
    raise SystemExit(main(sys.argv[1:]))
