#!/usr/bin/env python3
"""Writes the sources as plain Rust, without clauses, ghost fields and imports of specs, so that clippy reads them:

    python3 tools/plain_rust.py TOP OUT
    cd OUT && cargo clippy --offline --keep-going -- -W clippy::pedantic -W clippy::nursery

TOP is the top of a checkout, OUT a folder that is written anew. Left out are streams, console and the programs, which name
traits that only the kit has."""
import os
import re
import shutil
import sys

top, out = sys.argv[1], sys.argv[2]

# Of the kit's crates one is used by a crate that is written: what it is called by stands in its place.
STAND_INS = {"itoa": "pub struct Buffer(String);\n\n"
             "impl Buffer {\n    pub fn new() -> Self {\n        Self(String::new())\n    }\n\n"
             "    pub fn format(&mut self, n: u32) -> &str {\n        self.0 = n.to_string();\n        &self.0\n    }\n}\n"}


def without(text, start):
    """The text without what begins by a pattern that ends in a brace, up to the brace that closes it."""
    kept = ""
    while m := re.search(start, text, re.M):
        kept += text[:m.start()]
        depth, end = 1, m.end()
        while depth:
            depth += {"{": 1, "}": -1}.get(text[end], 0)
            end += 1
        text = text[end:]
    return kept + text


def plain(text):
    text = re.sub(r"^\s*(pub )?ghost use [^;]*;\n", "", text, flags=re.M)
    text = re.sub(r"^\s*#!?\[tactic\(.*\)\]\n", "", text, flags=re.M)
    text = without(text, r"^\s*(requires|ensures|decreases|invariant)\b[^{\n]*\{")
    text = without(text, r"^\s*ghost \w+: *\{")
    text = re.sub(r"^\s*,\n", "", text, flags=re.M)
    text = text.replace("fmt<W: fmt::Write>(&self, f: &mut fmt::Formatter<W>)", "fmt(&self, f: &mut fmt::Formatter<'_>)")
    return text.replace("#[derive(Drop)]\n", "")


def crates():
    """Each crate that is written, and the crates that it uses."""
    used = {}
    for line in open(os.path.join(top, "crates.txt"), encoding="utf8"):
        line = line.split("#")[0].strip()
        if line:
            name, uses = line.split(":")
            used[name.split()[0]] = uses.split()
    for name, uses in used.items():
        folder = os.path.join(top, "crates", name, "src")
        if name in ("streams", "console") or os.path.exists(os.path.join(folder, "main.rt")):
            continue
        yield name, folder, uses


def write(path, text):
    os.makedirs(os.path.dirname(path), exist_ok=True)
    with open(path, "w", encoding="utf8") as file:
        file.write(text)


shutil.rmtree(out, ignore_errors=True)
members = list(STAND_INS)
for name, text in STAND_INS.items():
    write(os.path.join(out, name, "src", "lib.rs"), text)
    write(os.path.join(out, name, "Cargo.toml"), f'[package]\nname = "{name}"\nversion = "0.1.0"\nedition = "2024"\n')
for name, folder, uses in crates():
    members.append(name)
    for file in sorted(os.listdir(folder)) if os.path.isdir(folder) else []:
        text = open(os.path.join(folder, file), encoding="utf8").read()
        write(os.path.join(out, name, "src", file.replace(".rt", ".rs")), plain(text))
    if not os.path.isdir(folder):
        write(os.path.join(out, name, "src", "lib.rs"), "")
    paths = "".join(f'{u} = {{ path = "../{u}" }}\n' for u in uses)
    write(os.path.join(out, name, "Cargo.toml"),
          f'[package]\nname = "{name}"\nversion = "0.1.0"\nedition = "2024"\n\n[dependencies]\n{paths}')
write(os.path.join(out, "Cargo.toml"),
      '[workspace]\nresolver = "2"\nmembers = [' + ", ".join(f'"{m}"' for m in members) + "]\n")
