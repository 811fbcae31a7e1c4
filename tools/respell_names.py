#!/usr/bin/env python3
"""Respells the repository's own names of definitions and lemmas, once: words joined by `_` in place of `-`, and types without `-`.

usage: python3 tools/respell_names.py      at the top of the repository

A name is own if a file of specs/ or a lemma file of proofs/ declares it. Names that the check makes (the goals that
Answers.antt and Invariants.antt declare, and the steps and joins that they cite) stay as they are.
"""

import collections
import os
import re
import sys

MADE = ("Answers.antt", "Invariants.antt", "Proof.antt")
WORD = r"[\w'-]+"
VALUE = re.compile(r"^((?:(?:abbrev|unfoldable|pub)\s+)*)(" + WORD + r")\s*(?:\{.*?\}\s*)*:\s")
USE = re.compile(r"^\s*(?:pub |ghost )*use ([\w.]+)\.\{(.*)\}")
TOKEN = re.compile(r"(?<![\w'-])" + WORD + r"(?![\w'-])")


def files(*endings):
    for folder, folders, names in os.walk("crates"):
        folders[:] = sorted(f for f in folders if f != "out")
        for name in sorted(names):
            if name.endswith(endings):
                yield os.path.join(folder, name)


def joined(name):
    return re.fullmatch(r"[A-Za-z][\w']*(-[\w']+)+", name) or "getD" in name


def library(line):
    """The names that a line takes from another repository's library."""
    m = USE.match(line)
    crate = m and m.group(1).split(".")[1 if m.group(1).startswith("Rattle.") else 0]
    return [] if not m or os.path.isdir(os.path.join("crates", crate)) else TOKEN.findall(re.sub(r" as ", " ", m.group(2)))


def declared():
    """The joined names of specs/ and of lemma files that no library gives, and those of local lemmas in answers."""
    own, given = set(), set()
    for path in files(".antt"):
        made = os.path.basename(path) in MADE
        with open(path, encoding="utf-8") as text:
            for line in text:
                line = line.split("--")[0]
                given.update(library(line))
                if not made:
                    own.update(w for w in TOKEN.findall(line) if joined(w))
                elif (m := VALUE.match(line)) and "pub" not in m.group(1) and joined(m.group(2)):
                    own.add(m.group(2))
    return own - given


def respelled(name):
    if name in ("bit-or", "bit-and"):  # `bit_or` and `bit_and` are operations of the library
        return name.replace("-", "_of_")
    if name == "Some-after":  # a set of states, which the script before this one took for the variant Some
        return "some_after"
    if name[0].isupper():
        return "".join(w[:1].upper() + w[1:] for w in name.split("-"))
    return name.replace("-", "_").replace("getD", "get_or")


def turn(text, names, made):
    def one(m):
        word = m.group(0)
        if word not in names:
            return word
        before = text[: m.start()]
        if made and (before.endswith("goal.") or before.endswith("w.") and word.endswith("-is")):
            return word
        return names[word]

    return TOKEN.sub(one, text)


def main():
    names = {n: respelled(n) for n in declared()}
    meet = collections.Counter(names.values())
    if together := sorted(n for n, k in meet.items() if k > 1):
        sys.exit("these names would fall together: " + ", ".join(together))
    if said := os.environ.get("NAMES"):
        print("\n".join(f"{n} {names[n]}" for n in sorted(names)), file=open(said, "w"))
    for path in files(".antt", ".rt"):
        with open(path, encoding="utf-8") as f:
            text = f.read()
        if path.endswith(".rt"):
            # `-` is minus in code: only names in clauses and ghost items are turned, each of which has letters on both sides
            new = turn(text, names, False)
        else:
            new = turn(text, names, os.path.basename(path) in MADE)
        if new != text:
            with open(path, "w", encoding="utf-8") as f:
                f.write(new)
    print(f"{len(names)} names respelled")


if __name__ == "__main__":
    main()
