#!/usr/bin/env python3
"""Writes the tables of crates in docs/MAP.md and docs/PROVED.md, between their markers.

usage: crate_tables.py            writes both tables
       crate_tables.py --check    exits 1 where one differs from what would be written

What a crate promises is the first sentence of its head (`//!` in src/lib.rt or src/main.rt), and what is proved of it the paragraph of the
head that begins with `Proved: `. What it stands on and its layer, a heading `## LAYER`, are in crates.txt. A crate without a layer or a head, one
that names a crate that stands behind it, and a library that the program doesn't stand on, unless it holds tests, benches or examples, are refused."""
import os
import re
import sys

from reached_paths import listed

TOP = os.path.join(os.path.dirname(os.path.abspath(__file__)), "..")
PROGRAM = "v2g_charge"
# a layer of which the program stands on nothing
BESIDE = ("tests and benches",)


def read(path):
    with open(os.path.join(TOP, path), encoding="utf-8") as it:
        return it.read()


def layered():
    """(LAYER, CRATE, WORDS) of each crate of crates.txt, lowest first."""
    named, found, layer = listed(), {}, None
    for line in read("crates.txt").splitlines():
        if line.startswith("## "):
            layer = line[3:].strip()
            continue
        name = line.partition("#")[0].partition(":")[0].strip()
        if name not in named:
            continue
        if not layer:
            sys.exit(f"crates.txt: {name} stands in no layer (`## LAYER`)")
        for it in named[name]:
            if it in named and it not in found:
                sys.exit(f"crates.txt: {name} names {it}, which doesn't stand above it: a crate stands behind those that it names")
        found[name] = layer
    return [(layer, name, named[name]) for name, layer in found.items()]


def next_below(crates):
    """Of each crate those that it names and reaches through no other that it names."""
    named = {name: [it for it in words if it in crates] for name, words in crates.items()}
    below = {}

    def all_below(name):
        if name not in below:
            below[name] = set(named[name]).union(*map(all_below, named[name]))
        return below[name]

    return {name: [it for it in words if not any(it in all_below(by) for by in words)] for name, words in named.items()}


def beside(rows):
    """The libraries of layers below the program on which it doesn't stand, though they hold no examples."""
    named, found = {crate: words for _, crate, words in rows}, set()

    def reach(crate):
        if crate in named and crate not in found:
            found.add(crate)
            for it in named[crate]:
                reach(it)

    reach(PROGRAM)
    return [crate for layer, crate, _ in rows if crate not in found and layer not in BESIDE and not crate.endswith("_examples")]


def head(crate):
    """The paragraphs of a crate's head."""
    for file in ("lib", "main"):
        path = f"crates/{crate}/src/{file}.rt"
        if os.path.exists(os.path.join(TOP, path)):
            lines = re.match(r"(?://!.*\n)*", read(path)).group().splitlines()
            return [" ".join(it.split()) for it in "\n".join(line[3:].strip() for line in lines).split("\n\n") if it.strip()]
    return []


def promise(crate):
    paragraphs = head(crate)
    if not paragraphs:
        sys.exit(f"crates/{crate}: no head (`//!`) says what it promises")
    return re.split(r"\.(?:\s|$)", paragraphs[0])[0]


def proved(crate):
    return next((it.removeprefix("Proved: ") for it in head(crate) if it.startswith("Proved: ")), None)


def cell(text):
    return text.rstrip(".").replace("|", "\\|")


def names(crates):
    return ", ".join(f"`{it}`" for it in crates)


def tables():
    rows = layered()
    if beside(rows):
        sys.exit(f"crates.txt: {PROGRAM} doesn't stand on {', '.join(beside(rows))}, which are in no layer of tests")
    crates = {crate: words for _, crate, words in rows}
    below = next_below(crates)
    places, last = "| Layer | Crate | Stands on | What it promises |\n|---|---|---|---|\n", ""
    for layer, crate, _ in rows:
        places += f"| {layer if layer != last else ''} | `{crate}` | {names(below[crate])} | {cell(promise(crate))} |\n"
        last = layer
    said = [(it, proved(it)) for it in crates]
    theorems = "| Crate | Proved |\n|---|---|\n" + "".join(f"| `{it}` | {cell(text)} |\n" for it, text in said if text)
    rest = [it for it, text in said if not text]
    return {"docs/MAP.md": places, "docs/PROVED.md": f"{theorems}\nWithout a promise of their own, as programs, tests and benches: {names(rest)}.\n"}


def main():
    checks = sys.argv[1:] == ["--check"]
    if sys.argv[1:] and not checks:
        sys.exit(__doc__)
    begin, end = "<!-- crates: written by tools/crate_tables.py -->\n", "<!-- end of crates -->\n"
    differ = []
    for path, table in tables().items():
        text = read(path)
        if text.count(begin) != 1 or text.count(end) != 1:
            sys.exit(f"{path}: its markers are not there once each")
        before, rest = text.split(begin)
        wanted = before + begin + table + end + rest.split(end)[1]
        if checks and wanted != text:
            differ.append(path)
        elif not checks:
            with open(os.path.join(TOP, path), "w", encoding="utf-8") as it:
                it.write(wanted)
    if differ:
        sys.exit(f"{', '.join(differ)}: not what tools/crate_tables.py writes: run it")


if __name__ == "__main__":
    main()
