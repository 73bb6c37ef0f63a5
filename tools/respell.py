#!/usr/bin/env python3
"""Brings the repository's own definitions and lemmas to snake case.

usage: respell.py ROOT [--write] [--table]

It works on crates/ of ROOT, after the kit's port.py and once. Without --write it only says what would change: with --table each name, and always
where two names fall together. Types and modules keep their camel case; so do names of src/, which are in snake case already, and what Rattle makes
for a proof. A lemma that would get the name of a definition that stands in one file with it ends in `_lem`.
"""
import collections
import os
import re
import sys

# what ends a name in antt
TOKEN = re.compile("[^\\s(){};.,\"λ@]+")
# a name of the kit that stands in files beside one of the repository's own
OF_THE_KIT = {"or-true"}
HEAD = re.compile(r"^(\s*)((?:(?:unfoldable|abbrev|pub|record|data|opaque)\s+)*)([^\s:(){};,.\"]+)((?:\s*[({][^=]*?[)}])*)\s+:(?:\s|$)")
BY_HAND = re.compile(r"/proofs/.*/(Proof|Answers|Invariants)\.antt$")


def files(root, ends):
    for folder, dirs, names in os.walk(os.path.join(root, "crates")):
        dirs[:] = sorted(d for d in dirs if d not in ("out", "data"))
        for name in sorted(names):
            if name.endswith(ends):
                yield os.path.join(folder, name)


def lines_of(path):
    with open(path, encoding="utf-8") as text:
        return text.read().splitlines(keepends=True)


def without_comment(line):
    if line.strip().startswith(("--", "//")):
        return ""
    return re.split(r" (?:--|//) ", line)[0]


def snake(name):
    return re.sub(r"([a-z0-9'])([A-Z])", r"\1_\2", name).replace("-", "_").lower()


def declared(root):
    """Each own name, with whether it is declared as a definition anywhere, and the files that declare it."""
    defined, places = set(), collections.defaultdict(set)
    for path in files(root, ".antt"):
        block = False
        for line in lines_of(path):
            if re.match(r"(pub )?(record|data)\b", line):
                block = True
            elif line.strip() and not line.startswith(" "):
                block = False
            m = HEAD.match(without_comment(line))
            if not m or (BY_HAND.search(path) and "pub" not in m[2].split()):
                continue
            places[m[3]].add(path)
            if "/specs/" in path or block or re.search("unfoldable|abbrev", m[2]):
                defined.add(m[3])
    return defined, places


def own(name):
    return name not in OF_THE_KIT and re.fullmatch(r"[a-z][A-Za-z0-9'₀-₉_?-]*", name) and snake(name) != name


def uses(root, names):
    """In which files each of the names stands, fields of values and modules aside."""
    found = collections.defaultdict(set)
    for path in files(root, ".antt"):
        for line in lines_of(path):
            line = without_comment(line)
            if re.match(r"\s*(pub )?use ", line):
                line = line[line.index("{") :] if "{" in line else ""
            for m in TOKEN.finditer(line):
                if m[0] in names and line[m.start() - 1 : m.start()] != ".":
                    found[m[0]].add(path)
    return found


def table(root):
    """The new name of each own name, and what is renamed in single files alone: a lemma whose name a definition gets that stands in one file with it."""
    defined, places = declared(root)
    to = {name: snake(name) for name in places if own(name)}
    groups = collections.defaultdict(set)
    for old, new in to.items():
        groups[new].add(old)
    for new in groups:
        if new in places:
            groups[new].add(new)
    found = uses(root, {n for g in groups.values() if len(g) > 1 for n in g})
    alone = {}
    for new, olds in sorted(groups.items()):
        clash = {p for p in set().union(*(found[o] for o in olds)) if sum(p in found[o] for o in olds) > 1} if len(olds) > 1 else set()
        if not clash:
            continue
        keeps = sorted(olds, key=lambda o: (o not in defined, "-" in o, o))[0]
        for old in olds - {keeps}:
            if old in to:
                to[old] = new + "_lem"
            else:
                for path in found[old] & (clash | places[old]):
                    alone[path, old] = new + "_lem"
        if keeps not in to:
            alone.update({(p, o): new + "_lem" for (p, o) in alone if o == keeps})
    return to, alone, defined


def respelled(line, path, to, alone):
    """A line of a file; in an edit only what it takes away and writes. A name that stands so already is told from a field by the point before it."""
    if re.match(r"\s*(pub )?mod |file: ", line):
        return line

    def one(m):
        if (path, m[0]) in alone and line[m.start() - 1 : m.start()] != ".":
            return alone[path, m[0]]
        return to.get(m[0], m[0])

    return TOKEN.sub(one, line)


def clashes(root, to, alone):
    """Files in which two names would be one."""
    back = collections.defaultdict(set)
    for old, new in to.items():
        back[new].add(old)
    for path in files(root, ".antt"):
        there = collections.defaultdict(set)
        for line in lines_of(path):
            line = without_comment(line)
            if re.match(r"\s*(pub )?use ", line):
                line = line[line.index("{") :] if "{" in line else ""
            for m in TOKEN.finditer(line):
                if line[m.start() - 1 : m.start()] != ".":
                    new = alone.get((path, m[0])) or to.get(m[0], m[0])
                    if new in back:
                        there[new].add(m[0])
        for new, olds in there.items():
            if len(olds) > 1:
                yield path, new, sorted(olds)


def main():
    root = sys.argv[1]
    to, alone, defined = table(root)
    if "--table" in sys.argv:
        for old, new in sorted(to.items()):
            print(old, new)
        for (path, old), new in sorted(alone.items()):
            print(os.path.relpath(path, root), old, new)
    for path, new, olds in clashes(root, to, alone):
        print("together:", os.path.relpath(path, root), new, olds)
    print(len(to), "names,", len(alone), "in single files")
    if "--write" not in sys.argv:
        return
    for path in files(root, (".antt", ".rt", ".edit")):
        before = lines_of(path)
        after = [respelled(line, path, to, alone) for line in before]
        if after != before:
            with open(path, "w", encoding="utf-8") as text:
                text.write("".join(after))


if __name__ == "__main__":
    main()
