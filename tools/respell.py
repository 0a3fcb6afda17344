#!/usr/bin/env python3
"""Brings the repository's own definitions and lemmas to snake case: `lookupReply` becomes `lookup_reply`, `countBelow-cong` `count_below-cong`.

usage: tools/respell.py     at the top of the repository, once, right after the toolchain's port.py

It turns .antt files, .rt files, must-fail edits, and the names in the pages of docs/ and in README.md. Functions of src/, exported
names, strings, inputs and outputs have no such names and stay. Where two names would fall together it stops and writes nothing: the names that stand may be those of functions of src/, which
their definitions share, or a definition and a lemma of one file, which ASIDE and APART keep apart. `--known` goes on.
"""
import os
import re
import sys

# a part of a name in which a capital follows a small letter or a digit
PART = re.compile(r"(?<![A-Za-z0-9_'′·])([a-zμ][A-Za-z0-9_]*?[a-z0-9][A-Z][A-Za-z0-9_]*)")
# local words of a file that begin with a capital and are no types
LOCAL = {
    "crates/marking/proofs/Marked.antt": {"Next": "next_marks"},
    "crates/invalidation/proofs/Invalidating.antt": {"Over": "over_servers", "On": "on_this"},
    "crates/medium/proofs/Marks.antt": {"On": "on_this", "Over": "over_servers", "Earlier": "earlier_marks"},
    "crates/medium/proofs/Invalidated.antt": {"On": "on_this", "Marks": "marks_here"},
    "crates/batch_steps/proofs/Stepping.antt": {"Next": "next_part", "At": "part_at"},
    "crates/batch/proofs/BatchParts.antt": {"Next": "next_parts", "At": "part_at"},
    "crates/batch/proofs/Batches.antt": {"Next": "next_part"},
    "crates/history/specs/Demand3.antt": {"S": "state", "L": "ledger"},
}

# names that would fall together with another in their file
APART = {"metSome": "some_met", "metNone": "none_met", "noCall": "no_call_number"}
ASIDE = [
    ("crates/sheet/", "end_below", "end_below-value"),
    ("crates/sheet/", "too_long", "when_too_long"),
    ("crates/history/proofs/WrittenMedium.antt", "value_there", "value_stands"),
    ("crates/call_words/", "too_short", "when_too_short"),
]


def snake(name):
    return re.sub(r"(?<=[a-z0-9])([A-Z])", lambda m: "_" + m.group(1).lower(), name).lower()


def files(root, ends):
    for folder, dirs, names in os.walk(root):
        dirs[:] = sorted(d for d in dirs if d not in ("out", ".git", "target"))
        for n in sorted(names):
            if n.endswith(ends):
                yield os.path.join(folder, n)


def read(path):
    with open(path, encoding="utf-8") as f:
        return f.read()


def code(text):
    return "\n".join(l for l in text.split("\n") if not l.lstrip().startswith("--"))


def main():
    camel, words = set(), set()
    for p in files("crates", ".antt"):
        t = code(read(p))
        for w in re.findall(r"[^\s(){};,\[\]λ.]+", t):
            for part in w.split("-"):
                words.add(part)
                if PART.fullmatch(part):
                    camel.add(part)
    names = {c: APART.get(c, snake(c)) for c in camel}
    bad = [f"{c} would be {s}, which stands" for c, s in sorted(names.items()) if s in words]
    taken = {}
    for c, s in sorted(names.items()):
        if s in taken:
            bad.append(f"{taken[s]} and {c} would both be {s}")
        taken[s] = c
    if bad and "--known" not in sys.argv:
        print("\n".join(bad))
        print("look at these; --known turns them all the same")
        return 2

    def turn(text):
        return PART.sub(lambda m: names.get(m.group(1), m.group(1)), text)

    changed = 0
    pages = list(files("docs", ".md")) + ["README.md"]
    for p in list(files("crates", (".antt", ".rt", ".edit"))) + pages:
        old = read(p)
        new = old
        if p.endswith(".antt"):
            for where, a, b in ASIDE:
                if p.startswith(where):
                    new = re.sub(rf"(?<![\w'.·-]){a}(?![\w'·-])", b, new)
        new = turn(new)
        for a, b in LOCAL.get(p, {}).items():
            new = "\n".join(l if l.lstrip().startswith("--") else re.sub(rf"(?<![\w'.·-]){a}(?![\w'·-])", b, l) for l in new.split("\n"))
        if new != old:
            with open(p, "w", encoding="utf-8") as f:
                f.write(new)
            changed += 1
    print(f"{len(names)} names, {changed} files")
    return 0


if __name__ == "__main__":
    raise SystemExit(main())
