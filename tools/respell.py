#!/usr/bin/env python3
"""Turns the spelling of this repository's own definitions and lemmas: words in snake case, facts in camel case.

usage: python3 tools/respell.py [--list]     at the top of the checkout, once, after the kit's port.py

It goes by text. A name is turned where a file of specs/ or proofs/ declares it: what begins with a small letter has its dashes and inner
capitals turned to underscores, what begins with a capital loses its dashes. Names of goals, which Rattle makes, and names that a file takes
from a library stay. With --list nothing is written: the names are printed, and those that would fall together with another.
"""
import collections
import os
import re
import sys

ROOT = os.getcwd()
CRATES = os.path.join(ROOT, "crates")
OWN = sorted(d for d in os.listdir(CRATES) if os.path.isdir(os.path.join(CRATES, d)))
WORDS = r"(?:(?:abbrev|unfoldable|pub|data|record|ruleset)\s+)*"
TOKEN = re.compile(r"[\w'′∀-￿·-]+|.", re.S)
NAME = r"[^\s(){}\[\]:;,.=λ×→]+"
FIRST = re.compile(r"^\s*" + WORDS + "(" + NAME + ")")
SKIP = {"let", "in", "module", "use", "where", "elim", "rw", "mod", "--", "omega", "search", "grind", "simp", "cc", "absurd", "unfolding", "unfold"}
# what a generated goal's name begins with
MADE = re.compile(r"^(returns|loop|overflow|invariant|decreases|bounds|slice|offset|nonzero)-|-requires(-|$)")
# lemmas that would fall together with the definition that they speak of
APART = {"body-part": "body_part-envelope", "bucket-body": "is_bucket_body"}
IMPORT = re.compile(r"\s*use (\S+?)\.\{(.*)\}")


def texts(endings):
    for folder, dirs, files in os.walk(CRATES):
        dirs[:] = sorted(d for d in dirs if d != "out")
        for f in sorted(files):
            if f.endswith(endings):
                yield os.path.join(folder, f)


def read(path):
    with open(path, encoding="utf-8") as f:
        return f.read()


def turned(name):
    if name in APART:
        return APART[name]
    if name[0].isupper():
        return "".join(p[:1].upper() + p[1:] for p in name.split("-"))
    name = re.sub(r"(?<=[a-z0-9])([A-Z])", lambda m: "_" + m.group(1).lower(), name)
    return name.replace("-", "_").replace("′", "'")


def collect():
    declared, goals, library = set(), set(), set()
    for path in texts(".antt"):
        for line in read(path).splitlines():
            m = IMPORT.match(line)
            if m:
                if m.group(1).split(".")[0] != "Rattle" or m.group(1).split(".")[1] not in OWN:
                    library.update(n.strip().split(" as ")[-1] for n in m.group(2).split(","))
                continue
            m = re.match(r"\s*(?:abbrev )?(?:pub )?(\S+) : goal\.", line)
            if m:
                goals.add(m.group(1))
                continue
            m = FIRST.match(line)
            if m and m.group(1) not in SKIP:
                declared.add(m.group(1))
    return {n: turned(n) for n in declared - goals - library if turned(n) != n and not MADE.search(n)}


def tokens(text):
    return TOKEN.findall(text)


def rewrite(path, names):
    out, comment = [], path.endswith(".rt")
    for line in read(path).splitlines(keepends=True):
        if comment and line.lstrip().startswith("//"):
            out.append(line)
            continue
        out.append("".join(names.get(t, t) for t in tokens(line)))
    return "".join(out)


def main():
    names = collect()
    if "--list" in sys.argv:
        new = collections.defaultdict(set)
        for a, b in names.items():
            new[b].add(a)
        for b, olds in sorted(new.items()):
            if len(olds) > 1:
                print("together:", b, sorted(olds))
        for path in texts((".antt", ".rt")):
            here = set(tokens(read(path)))
            for a in sorted(here & set(names)):
                if names[a] in here:
                    print("beside:", os.path.relpath(path, ROOT), a, names[a])
        print(len(names), "names")
        return
    for path in texts((".antt", ".rt")):
        text = rewrite(path, names)
        if text != read(path):
            with open(path, "w", encoding="utf-8") as f:
                f.write(text)


main()
