#!/usr/bin/env python3
"""Respells the repository's own definitions and lemmas after port.py: words in snake case.

usage: python3 tools/respell.py          at the top, once, right after port.py

A definition `phaseAfter` becomes `phase_after`, a lemma `page-done` becomes `page_done`. Types, Rust's names, strings, and the names that
Rattle makes for the steps and goals of a proof (`returns-2`, `loop-i-init`) stay. Where a lemma would get the name of a definition, it gets
`_lem` behind it. It goes by words: a word is respelled where it stands as code, or in backticks in a comment or a page.
"""
import os
import re
import sys
from collections import defaultdict

WORD = r"[A-Za-z_][\w'-]*"
DECLARED = re.compile(r"^\s*(?:(?:abbrev|unfoldable|pub)\s+)*(" + WORD + r")\s*:(?!=)")
MADE = re.compile(r"^(returns|invariant|decreases|loop|overflow|bounds|slice)-")
STD = re.compile(r"use (Rattle\.\w+)[\w.+'-]*\.\{(.*)\}")


def files(*endings):
    for top in ("crates", "docs", "tools"):
        for folder, dirs, names in os.walk(top):
            dirs[:] = sorted(d for d in dirs if d not in ("out", "__pycache__"))
            for name in sorted(names):
                if name.endswith(endings) and name not in ("respell.py", "PORT.md"):
                    yield os.path.join(folder, name)
    if ".md" in endings:
        yield "README.md"


def read(path):
    with open(path, encoding="utf-8") as f:
        return f.read()


def snake(name):
    name = name.replace("-", "_")
    return re.sub(r"(?<=[a-z0-9'])([A-Z])(?![A-Z])", lambda m: "_" + m.group(1).lower(), name)


def names():
    """old name -> new name, of all that specs/ and the lemma files declare."""
    shared, local, std = defaultdict(set), defaultdict(set), set()
    for path in files(".antt"):
        by_hand = os.path.basename(path) == "Proof.antt"
        for line in read(path).splitlines():
            if line.lstrip().startswith("--"):
                continue
            found = STD.search(line)
            if found:
                if not os.path.isdir("crates/" + found.group(1)[7:]):
                    std |= {item.strip().split(" as ")[0] for item in found.group(2).split(",")}
                continue
            found = DECLARED.match(line)
            if found:
                (local if by_hand else shared)[found.group(1)].add(path)
    old = {}
    for name in sorted(set(shared) | {n for n in local if n[0].islower() and re.search("[A-Z]", n)}):
        if name in std or MADE.match(name) or snake(name) == name:
            continue
        if "-" in name or name[0].islower():
            old[name] = snake(name)
    kept = set(shared) - set(old)
    definitions = {new for name, new in old.items() if "-" not in name} | kept
    taken = defaultdict(set)
    for name, new in list(old.items()):
        if "-" in name and new in definitions:
            new = old[name] = new + "_lem"
        taken[new].add(name)
    # a lemma that port.py has spelled so already, where a definition comes to the same name
    again = {new for new, those in taken.items() if new in kept}
    for new, those in taken.items():
        if len(those) > 1 or new in std:
            print("falls together:", new, sorted(those))
    fields = set()
    for name in old:
        for path in shared.get(name, ()):
            if re.search(r"^ +(?:pub )?" + re.escape(name) + r" *:", read(path), re.M):
                fields.add(name)
    return old, fields, again


def lemmas_again(text, again):
    """Those lemmas of a file, declared there or brought in from proofs/, get `_lem` too."""
    here = set()
    for line in text.splitlines():
        found = DECLARED.match(line)
        if found and found.group(1) in again:
            here.add(found.group(1))
        found = re.match(r"use Rattle\.\w+\.proofs\.[\w.+'-]*\.\{(.*)\}", line)
        if found:
            here |= again & {item.strip().split(" as ")[0] for item in found.group(1).split(",")}
    for name in sorted(here):
        text = re.sub(r"(?<![\w'.-])" + name + r"(?![\w'-])", name + "_lem", text)
    return text


def respelled(text, old, fields, by_hand):
    def one(m):
        word, dot = m.group(2), m.group(1)
        if dot and by_hand and "-" in word and word not in fields:
            return m.group(0)
        return dot + old.get(word, word)

    return re.sub(r"(?<![\w'-])(\.?)(" + WORD + ")", one, text)


def in_ticks(text, old, fields):
    return re.sub(r"`[^`\n]*`", lambda m: respelled(m.group(0), old, fields, False), text)


def prose(text, old, fields):
    """A comment: camel case anywhere, words with a dash in backticks."""
    camel = {a: b for a, b in old.items() if "-" not in a}
    return in_ticks(respelled(text, camel, fields, False), old, fields)


def code(line, mark, old, fields, by_hand):
    at = line.find(mark)
    if mark == "//":
        parts = re.split(r'("(?:[^"\\]|\\.)*")', line if at < 0 else line[:at])
        head = "".join(p if p.startswith('"') else respelled(p, old, fields, by_hand) for p in parts)
    else:
        head = respelled(line if at < 0 else line[:at], old, fields, by_hand)
    return head if at < 0 else head + prose(line[at:], old, fields)


def main():
    old, fields, again = names()
    for path in files(".antt", ".rt", ".edit", ".md"):
        text = read(path)
        if path.endswith(".md"):
            new = in_ticks(text, old, fields)
        else:
            mark = "//" if path.endswith(".rt") else "--"
            by_hand = os.path.basename(path) == "Proof.antt"
            if path.endswith(".antt") and "/proofs/" in path:
                text = lemmas_again(text, again)
            new = "\n".join(line if line.startswith("file: ") else code(line, mark, old, fields, by_hand) for line in text.split("\n"))
        if new != read(path):
            with open(path, "w", encoding="utf-8") as f:
                f.write(new)
    with open("docs/respelled.txt", "w", encoding="utf-8") as f:
        f.write("".join(f"{a} {b}\n" for a, b in sorted((old | {a: a + "_lem (the lemma)" for a in again}).items())))
    print(len(old), "names respelled")


main()
