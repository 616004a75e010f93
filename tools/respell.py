#!/usr/bin/env python3
"""Turns the repository's own words and lemmas to snake case, once, right after port.py: tools/respell.py

Words and lemmas are in snake case, a dash joins two words that have a name of their own, a constructor is joined to its type by
a dash. Text of Rust, comments, and names that Rattle makes keep their spelling. The table is tools/respelled.txt: old, new, and
whether the name is a record's field.
"""
import os
import re
import sys

HERE = os.path.dirname(os.path.realpath(__file__))
ROOT = sys.argv[1] if len(sys.argv) > 1 else os.path.dirname(HERE)
TOKEN = re.compile(r"[\w'·₀-₉?]+(?:-[\w'·₀-₉?→≤<≡+*]+)*")
# names that stand for something else in other files
ALONE = {
    "keys/specs/KeysLaws.antt": {"key_in": "key_in_lem"},
    "line/specs/LineStandard.antt": {"first_two": "first_two_lem"},
    "lane_runs/specs/LaneRunLaws.antt": {"F": "f_of"},
    "section_8_8/specs/LoopFilterProcess.antt": {"F": "f_at"},
    "wide_filter/specs/WideFilterLaws.antt": {"F": "f_at"},
    "wide_filter/specs/Taps.antt": {"F": "f_at"},
    "wide_filter/specs/WideFilter.antt": {"F": "f_at"},
    "wide_filter/specs/WideFilterStandard.antt": {"F": "f_at"},
}
# types and facts of std, and of proofs that go through the code by hand
CASED = {"T_true"}
# a struct of src/ has this name too
STRUCTS = {"LvlLookup"}


def table():
    words, fields = {}, set()
    with open(os.path.join(HERE, "respelled.txt"), encoding="utf-8") as f:
        for line in f:
            old, new, field = line.split()
            words[old] = new
            if field == "field":
                fields.add(old)
    return words, fields


def turned(text, words, fields, walk):
    def word(m):
        old = m.group(0)
        if old not in words or old in CASED:
            return old
        before = text[: m.start()]
        if walk and before.endswith("."):
            owner = re.search(r"([\w'·-]+)\.$", before)
            if not (owner and owner.group(1)[0].isupper()) and old not in fields:
                return old
        return words[old]

    return TOKEN.sub(word, text)


def antt(path, rel, words, fields):
    words = words | ALONE.get(rel, {})
    walk = os.path.basename(path) == "Proof.antt"
    with open(path, encoding="utf-8") as f:
        lines = f.read().split("\n")
    out = []
    for line in lines:
        code, dashes, comment = line.partition("--")
        out.append(turned(code, words, fields, walk) + dashes + comment)
    return "\n".join(out)


def rattle(path, words):
    words = {a: b for a, b in words.items() if a not in STRUCTS}
    camel = {a: b for a, b in words.items() if "-" not in a}
    with open(path, encoding="utf-8") as f:
        lines = f.read().split("\n")
    out = []
    for line in lines:
        code, slashes, comment = line.partition("//")
        ghost = re.match(r"\s*(ghost|requires|ensures)\b", code)
        out.append(turned(code, words if ghost else camel, set(), False) + slashes + comment)
    return "\n".join(out)


def page(path, words):
    words = {a: b for a, b in words.items() if a not in STRUCTS}
    with open(path, encoding="utf-8") as f:
        text = f.read()
    return re.sub(r"`[^`\n]+`", lambda m: turned(m.group(0), words, set(), False), text)


def main():
    words, fields = table()
    crates = os.path.join(ROOT, "crates")
    work = []
    for folder, below, files in os.walk(crates):
        below[:] = sorted(d for d in below if d != "out")
        for name in sorted(files):
            path = os.path.join(folder, name)
            rel = os.path.relpath(path, crates)
            if name.endswith(".antt"):
                work.append((path, antt(path, rel, words, fields)))
            elif name.endswith(".rt"):
                work.append((path, rattle(path, words)))
    pages = [os.path.join(ROOT, "README.md")] + [os.path.join(ROOT, "docs", p) for p in ("DECISIONS.md", "DIFFERENCES.md")]
    work += [(p, page(p, words)) for p in pages if os.path.exists(p)]
    for path, text in work:
        with open(path, "w", encoding="utf-8") as f:
            f.write(text)


main()
