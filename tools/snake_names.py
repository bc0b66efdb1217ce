#!/usr/bin/env python3
"""Spells the definitions and lemmas of the crates in snake case, and facts in camel case.

usage: snake_names.py [FOLDER]

A name with a dash that a file of specs/ or proofs/ declares (also a local one, by let, where, λ or
as a named argument) is respelled wherever it stands: in .antt files, in the ghost parts of .rt files,
and between backticks in README.md and docs/. Names that the toolchain makes (those of proofs/F/) and
names that come from other libraries stay. Two names that would fall together are an error.
Run it once, right after the toolchain's own respelling.
"""
import glob
import os
import re
import sys

WORD = re.compile(r"(?<![\w'\-])[A-Za-z][\w'\-]*(?![\w'\-])")


# names that the toolchain's respelling had turned already, in crates but not in pages
TURNED = """
    add-step all-back answer-at at-most at-none at-some block-0 block-1 block-at block-in
    by-read copy-at core-at core-is counted-is digits-append digits-more end-step first-read
    goes-on head-in kept-full lane-first lane-room lanes-at less-one line-after line-at
    load-line load-of load-step no-digit no-items no-line no-raise no-room none-above number-of
    one-at one-less one-more one-same open-step place-here place-in place-none read-answer
    room-by row-is row-small runs-last same-total send-by size-of slots-length some-fits some-is
    start-of store-at store-line store-of store-step text-of without-sign word-at word-else
    word-fits word-kept word-same word-small
""".split()


def respelled(name):
    if name[0].isupper():
        return "".join(part[0].upper() + part[1:] for part in name.split("-"))
    return name.replace("-", "_")


def files(top, *patterns):
    return sorted(f for p in patterns for f in glob.glob(os.path.join(top, p), recursive=True))


def read(path):
    with open(path, encoding="utf-8") as f:
        return f.read()


def is_answer(path):
    return "/proofs/" in path and os.path.basename(path) in ("Answers.antt", "Invariants.antt")


def declared(text, local_only):
    """The names with a dash that a file declares."""
    names = set()
    if not local_only:
        names |= set(re.findall(r"^\s*(?:abbrev |unfoldable |pub )*([A-Za-z][\w'\-]*) :", text, re.M))
    names |= set(re.findall(r"\blet ([A-Za-z][\w'\-]*) ", text))
    for group in re.findall(r"[({]([^(){}:]+) :", text):
        names |= set(group.split())
    for group in re.findall(r"λ ([^.(]+)\.", text):
        names |= set(group.split())
    return {n for n in names if "-" in n and WORD.fullmatch(n)}


def brought(text, own):
    """The names that a file brings from a library that is not of this repository."""
    names = set()
    for path, items in re.findall(r"^(?:ghost )?use ([\w.]+)\.\{([^}]*)\}", text, re.M):
        if path.split(".")[1] not in own:
            names |= {i.strip() for i in items.split(",")}
    return names


def main():
    top = sys.argv[1] if len(sys.argv) > 1 else "."
    own = {os.path.basename(c) for c in glob.glob(os.path.join(top, "crates/*"))}
    antt = files(top, "crates/*/specs/**/*.antt", "crates/*/proofs/**/*.antt")
    code = files(top, "crates/*/src/**/*.rt")
    pages = files(top, "README.md", "docs/*.md")

    names = set()
    taken = set()
    for path in antt:
        text = read(path)
        names |= declared(text, is_answer(path)) - brought(text, own)
        taken |= set(re.findall(r"^\s*(?:abbrev |unfoldable |pub )*([A-Za-z][\w'\-]*) :", text, re.M))
    table = {n: respelled(n) for n in names}

    together = sorted(n for n in table if table[n] in taken)
    if len(set(table.values())) != len(table) or together:
        sys.exit(f"these names fall together with others: {together or sorted(table.values())}")

    turn = lambda m: table.get(m.group(0), m.group(0))
    for path in antt:
        text = read(path)
        stay = brought(text, own)
        new = WORD.sub(lambda m: m.group(0) if m.group(0) in stay else turn(m), text)
        write(path, text, new)
    for path in code:
        text = read(path)
        stay = brought(text, own)
        lines = []
        for line in text.split("\n"):
            head = line.lstrip()
            if not head.startswith("//") and '"' not in line:
                line = WORD.sub(lambda m: m.group(0) if m.group(0) in stay else turn(m), line)
            lines.append(line)
        write(path, text, "\n".join(lines))
    table |= {n: respelled(n) for n in TURNED}
    for path in pages:
        text = read(path)
        write(path, text, re.sub(r"`[^`\n]+`", lambda m: WORD.sub(turn, m.group(0)), text))
    print(f"{len(names)} names")


def write(path, old, new):
    if old != new:
        with open(path, "w", encoding="utf-8") as f:
            f.write(new)


if __name__ == "__main__":
    main()
