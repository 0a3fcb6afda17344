#!/usr/bin/env python3
"""Counts the places in src/ that have an older form where the language has a plainer one, point by point, as docs/DESIGN-PASS.md
lists them: python3 tools/forms.py [FOLDER] [--list]. FOLDER is the top of a checkout, the working directory where none is given."""
import collections
import os
import re
import sys

args = [a for a in sys.argv[1:] if not a.startswith("--")]
top = args[0] if args else "."
listed = "--list" in sys.argv

FN = re.compile(r"^(?: {4})?(?:pub )?(?:extern \"C\" )?fn (\w+)", re.M)


def sources():
    for crate in sorted(os.listdir(os.path.join(top, "crates"))):
        folder = os.path.join(top, "crates", crate, "src")
        if os.path.isdir(folder):
            for name in sorted(os.listdir(folder)):
                if name.endswith(".rt"):
                    path = os.path.join(folder, name)
                    text = open(path, encoding="utf8").read()
                    yield crate, name, re.sub(r"//[^\n]*", "", text)


def functions(text):
    """Name, parameters, clauses and body of each function."""
    starts = [m for m in FN.finditer(text)]
    for i, m in enumerate(starts):
        end = starts[i + 1].start() if i + 1 < len(starts) else len(text)
        whole = text[m.start():end]
        depth = 0
        for j, c in enumerate(whole):
            depth += c in "(<" and not whole[j - 1] == "-"
            depth -= c == ")" or (c == ">" and whole[j - 1] != "-")
            if c == ")" and depth == 0:
                break
        params = re.findall(r"(\w+): ([^,()]+(?:\[[^\]]*\])?)", whole[:j])
        body = re.search(r"^(?: {4})?\{\n(.*?)^(?: {4})?\}", whole[j:], re.M | re.S)
        clauses = whole[j:j + body.start()] if body else whole[j:]
        yield m.group(1), params, clauses, body.group(1) if body else ""


found = collections.defaultdict(list)
bodies = collections.defaultdict(list)
blocks = collections.defaultdict(set)
for crate, name, text in sources():
    at = crate + "/" + name
    for m in re.finditer(r"^(?:pub )?enum (\w+)", text, re.M):
        found["1 enums"].append(f"{at} {m.group(1)}")
    for m in re.finditer(r"^(?:pub )?struct (\w+)[^{;]*\{(.*?)^\}", text, re.M | re.S):
        fields = re.findall(r"^    (?:pub )?(\w+): ([^\n]+),", m.group(2), re.M)
        if len(fields) > 1 and any(t == "bool" or f == "answer" for f, t in fields):
            found["1 structs of a flag or an answer with a value beside"].append(f"{at} {m.group(1)}")
        if sum(t.startswith("[") or t in ("Column", "Counters") for _, t in fields) > 1:
            found["6 structs of parallel arrays"].append(f"{at} {m.group(1)}")
        for f, t in fields:
            if f in ("refusal", "refusals") and "u32" in t:
                found["1 numbers for refusals and kinds"].append(f"{at} {m.group(1)}.{f}")
    for m in re.finditer(r"^ *(?:'\w+: )?(?:while|loop)\b", text, re.M):
        found["3 loops by hand"].append(f"{at}:{text[:m.start()].count(chr(10)) + 1}")
    for m in re.finditer(r"\w+ as (?:u64|u32|usize|u16)\b", text):
        found["4 casts by as"].append(f"{at} {m.group(0)}")
    for m in re.finditer(r"std::num::\w+", text):
        found["4 functions of std for a method"].append(f"{at} {m.group(0)}")
    for fn, params, clauses, body in functions(text):
        names = [p for p, _ in params]
        types = dict(params)
        if types.get("number", "").strip() == "u32" or types.get("letter", "").strip() == "u8":
            found["1 numbers for refusals and kinds"].append(f"{at} {fn}")
        if len(params) > 6:
            found["5 functions of more than six parameters"].append(f"{at} {fn} {len(params)}")
        if "shape" in names and "columns" in names:
            found["5 functions that take shape and columns"].append(f"{at} {fn}")
        for fact in ("Whole columns", "are_steps steps", "Limited weights"):
            if fact in clauses:
                found[f"5 contracts with the fact {fact}"].append(f"{at} {fn}")
        slices = [p for p, t in params if "[" in t or "Column" in t]
        if slices and any(p in ("n", "count") and t.strip() == "usize" for p, t in params):
            found["6 a length beside an array or a slice"].append(f"{at} {fn}")
        for m in re.finditer(r"match (number|letter)\b", body):
            found["7 matches on which call to run"].append(f"{at} {fn}")
        tokens = re.findall(r"\w+|[^\s\w]", body)
        if len(tokens) >= 30:
            seen = {}
            form = " ".join(
                "N" if t.isdigit() else (f"v{seen.setdefault(t, len(seen))}" if re.match(r"[a-zA-Z_]", t) else t)
                for t in tokens
            )
            bodies[form].append(f"{at} {fn}")
        lines = [l.strip() for l in body.split("\n") if l.strip()]
        for i in range(len(lines) - 5):
            blocks["\n".join(lines[i:i + 6])].add(f"{at} {fn}")
for places in bodies.values():
    if len(places) > 1:
        found["2 functions whose bodies differ in names and numbers alone"].append(" = ".join(places))
groups = {tuple(sorted(p)) for p in blocks.values() if len(p) > 1}
for places in sorted(groups):
    found["2 functions with six lines in common"].append(" = ".join(places))

size = files = 0
for folder, _, names in os.walk(os.path.join(top, "crates")):
    if "/proofs/" in folder + "/" and "/out/" not in folder + "/":
        for name in names:
            if name == "Answers.antt":
                files += 1
                size += os.path.getsize(os.path.join(folder, name))
for key in sorted(found):
    print(f"{len(found[key]):4}  {key}")
    if listed:
        for place in found[key]:
            print(f"        {place}")
print(f"{files:4}  8 functions with answers, {size:,} bytes")
