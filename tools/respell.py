#!/usr/bin/env python3
"""Brings this repository's own definitions and lemmas to the spelling of today's Rattle.

usage: python3 tools/respell.py [TOP]     once, at the top of the repository, right after the kit's port.py

Every name that a file of specs/ or proofs/ defines with dashes is respelled, where it is defined and where it is
used: types and facts in upper camel case (`Lawful-term` becomes `LawfulTerm`), all else in snake case
(`symbol-word` becomes `symbol_word`). A lemma keeps its dash where it joins a function on lists and another function,
as `length-blank`. Names that the library or the generated goals give, names of src/, strings and comments of code stay.
It says which new names were there before.
"""
import glob
import os
import re
import sys

WORD = re.compile(r"[^\s(){};,]+")
DEF = re.compile(
    r"^\s*((?:(?:abbrev|pub|unfoldable|data|record|mutual)\s+)*)([^\s(){};.,:=λ]+(?:\s+[^\s(){};.,:=λ]+)*?)\s*"
    r"(?:(?:\([^()]*(?:\([^()]*\)[^()]*)*\)|\{[^}]*\}|\s)*):\s+(.*)$"
)
LISTS = {"length", "take", "drop", "append", "replicate", "set"}


def files(top, *kinds):
    for kind in kinds:
        yield from sorted(
            p for p in glob.glob(os.path.join(top, "crates", "*", kind), recursive=True) if "/out/" not in p
        )


def definitions(top):
    """Each name with a dash that is defined, and whether it is a lemma; the names of all functions."""
    found, functions = {}, set()
    for p in files(top, "specs/**/*.antt", "proofs/**/*.antt"):
        with open(p, encoding="utf-8") as f:
            for line in f:
                if line.lstrip().startswith(("--", "use ")):
                    continue
                m = DEF.match(line)
                if not m or m.group(3).startswith("goal."):
                    continue
                for name in m.group(2).split():
                    lemma = not m.group(1).replace("pub", "").strip()
                    if "-" in name and name.strip("-"):
                        found[name] = found.get(name, True) and lemma
                    if not lemma:
                        functions.add(name)
    return found, functions | LISTS


def respelled(name, lemma, functions):
    parts = name.split("-")
    if name[0].isupper():
        return "".join(p[:1].upper() + p[1:] for p in parts)
    if lemma and len(parts) == 2 and LISTS & set(parts) and all(p in functions for p in parts):
        return name
    return "_".join(parts)


def from_library(text):
    """What a file imports from std, or from what is made of the code."""
    names = set()
    for m in re.finditer(r"use (Rattle\.[^\s{;]+)\.\{([^}]*)\}", text):
        if m.group(1).startswith("Rattle.std") or re.search(r"\.(Goals|Given)$", m.group(1)):
            names |= {n.split(" as ")[0].strip() for n in m.group(2).split(",")}
    return names


def turned(text, names, kept):
    def word(m):
        parts = m.group(0).split(".")
        if parts[0] in ("c", "w", "l", "g", "goal"):
            return m.group(0)
        return ".".join(p if p in kept else names.get(p, p) for p in parts)

    return WORD.sub(word, text)


def ghost(text, names, kept):
    """A file of code: only its ghost lines and clauses are turned."""
    out, depth = [], 0
    for line in text.split("\n"):
        head = re.match(r"\s*(ghost|requires|ensures)\b", line)
        if depth > 0 or head:
            depth += line.count("{") - line.count("}")
            line = turned(line, names, kept)
            depth = max(depth, 0)
        out.append(line)
    return "\n".join(out)


def main():
    top = sys.argv[1] if len(sys.argv) > 1 else "."
    found, functions = definitions(top)
    names = {n: respelled(n, lemma, functions) for n, lemma in found.items()}
    names = {n: to for n, to in names.items() if n != to}
    fall = {}
    for n, to in names.items():
        fall.setdefault(to, []).append(n)
    for to, olds in sorted(fall.items()):
        if len(olds) > 1:
            print(f"fall together: {' '.join(olds)} as {to}")
    for p in files(top, "specs/**/*.antt", "proofs/**/*.antt", "src/**/*.rt"):
        with open(p, encoding="utf-8") as f:
            text = f.read()
        kept = from_library(text)
        new = ghost(text, names, kept) if p.endswith(".rt") else turned(text, names, kept)
        if new == text:
            continue
        had = {part for w in WORD.findall(text) for part in w.split(".")}
        used = {part for w in WORD.findall(text) for part in w.split(".") if part in names and part not in kept}
        for n in sorted(used):
            if names[n] in had:
                print(f"there before: {names[n]} ({n}) in {p}")
        with open(p, "w", encoding="utf-8") as f:
            f.write(new)
    print(f"{len(names)} names respelled")


main()
