#!/usr/bin/env python3
"""The places that docs/DESIGN-PASS.md counts, one line a place.

usage: tools/design_places.py [POINT..] [--in FOLDER]

FOLDER is a checkout, else the one that this file stands in. Points are 1 to 7; of each the rules below say what is looked for in the sources
(crates/*/src). A rule finds more than what is to change, never less on purpose: what is found and stays has its reason beside it or on the page.
"""
import collections
import pathlib
import re
import sys

# 1: an enum with a case that only says no, and a function whose comment says that 0 is none
NO = "Bad|Refused|Ended|Closed|Past|Nothing|Skipped|Topmost|Altered|Beyond|Without|Missing|Failed|Short|Unfit|Wrong|Other|None"
ZERO = re.compile(r"\bor 0\b|\b0 for none\b|\b0 where none\b|\bnumber 0 is none\b|, or 0[.;,]|\bas a number\b")
# 4: by hand what a derive, From, TryFrom or Display writes
HAND = re.compile(r"fn (same\w*|\w*_same|equal\w*|\w*_equal|is_same\w*|alike\w*|\w*alike|eq_\w+|mark_of|flag\w*|\w*_flag|bit_of|tag_of|\w+_tag|from_tag|number_of\w*|word_of\w*|name_of\w*|print_\w+|put_text|text_of)\(")
FUNCTION = re.compile(r"^( *)(?:pub(?:\([a-z]+\))? )?(?:const )?fn (\w+)", re.M)
WORDS = re.compile(r"[A-Za-z_]\w*|\d+|[^\sA-Za-z_\d]")
KEYWORDS = set("fn let mut if else match while for in return loop break continue pub const struct enum impl self as ref move true false".split())


def sources(root):
    for file in sorted((root / "crates").glob("*/src/**/*.rt")):
        yield file, file.read_text(encoding="utf-8")


def functions(text):
    """(name, line, comment above, signature, body) of each function."""
    for m in FUNCTION.finditer(text):
        at, depth, start = m.end(), 0, None
        # the body is the first brace at the start of a line, or the one that ends a line of a signature without clauses
        body = re.compile(r"^%s\{$|\{$" % m[1], re.M)
        opened = body.search(text, at)
        while opened and re.search(r"(requires|ensures)\b[^\n]*$", text[at : opened.start()].rsplit("\n", 1)[-1]):
            opened = body.search(text, opened.end())
        if not opened:
            continue
        close = re.compile(r"^%s\}" % m[1], re.M).search(text, opened.end())
        above = re.search(r"((?:^ *//[^\n]*\n|^ *#\[[^\n]*\n)*)\Z", text[: m.start()], re.M)
        yield m[2], text.count("\n", 0, m.start()) + 1, above[1], text[m.start() : opened.start()], text[opened.end() : close.start() if close else len(text)]


def skeleton(body):
    """A body's words without the names of types, values and sizes."""
    return " ".join(w if w in KEYWORDS else "N" if w[0].isdigit() else "w" if re.match(r"\w", w) else w for w in WORDS.findall(re.sub(r"//[^\n]*", "", body)))


def point1(root):
    for file, text in sources(root):
        for m in re.finditer(r"^(?:pub )?enum (\w+)[^{]*\{(.*?)^\}", text, re.M | re.S):
            cases = re.findall(r"^    (\w+)", m[2], re.M)
            if any(re.fullmatch(NO, c) for c in cases) and len(cases) <= 3:
                yield file, text.count("\n", 0, m.start()) + 1, f"enum {m[1]} {{{', '.join(cases)}}}"
        for name, line, above, signature, body in functions(text):
            if re.search(r"-> (u64|usize|u8|Refusal)\b", signature) and (ZERO.search(above) or re.search(r"number: 0,\s*place: 0", body)):
                yield file, line, f"fn {name}: 0 for none"
        for m in re.finditer(r"^ +(?:pub )?(\w+): bool,", text, re.M):
            kind = re.findall(r"^(?:pub )?(struct|enum) (\w+)", text[: m.start()], re.M)
            if kind and kind[-1][0] == "struct" and "}" not in text[text.rindex("struct " + kind[-1][1], 0, m.start()) : m.start()]:
                yield file, text.count("\n", 0, m.start()) + 1, f"struct {kind[-1][1]}: flag {m[1]} beside values"


def point2(root):
    groups = collections.defaultdict(list)
    for file, text in sources(root):
        for name, line, _, _, body in functions(text):
            bones = skeleton(body)
            if len(bones.split()) >= 14:
                groups[bones].append((file, line, name))
    for group in sorted(groups.values(), key=lambda g: str(g[0])):
        if len(group) > 1:
            for file, line, name in group:
                yield file, line, f"fn {name}: as {', '.join(n for f, l, n in group if (f, l) != (file, line))}"


def point3(root):
    for file, text in sources(root):
        for name, line, _, _, body in functions(text):
            for m in re.finditer(r"\bwhile\b([^\n]*)", body):
                yield file, line, f"fn {name}: while{m[1].rstrip(' {')}"


def point4(root):
    for file, text in sources(root):
        for m in re.finditer(HAND, text):
            yield file, text.count("\n", 0, m.start()) + 1, f"fn {m[1]}"


def point5(root):
    facts, params = collections.defaultdict(set), collections.defaultdict(set)
    for file, text in sources(root):
        crate = file.relative_to(root).parts[1]
        for name, line, _, signature, _ in functions(text):
            for clause in re.findall(r"requires(?: \w+)? \{(.*?)\}\s*$", signature, re.M):
                for fact in re.split(r" × ", clause):
                    facts[re.sub(r"^\((.*)\)$", r"\1", fact.strip())].add(f"{crate}::{name}")
            inside = re.search(r"\((.*?)\)\s*(?:->|$|requires|ensures)", signature.replace("\n", " "))
            names = [p.strip() for p in (inside[1] if inside else "").split(",") if ":" in p]
            for size in (3, 4):
                for i in range(len(names) - size + 1):
                    params[tuple(names[i : i + size])].add(f"{crate}::{name}")
    for fact, where in sorted(facts.items()):
        if len(where) >= 3:
            yield None, len(where), f"fact {fact}: {', '.join(sorted(where))}"
    for group, where in sorted(params.items()):
        if len(where) >= 3:
            yield None, len(where), f"parameters ({', '.join(group)}): {', '.join(sorted(where))}"


def point6(root):
    for file, text in sources(root):
        for m in re.finditer(r"^ +(?:pub )?(len|used|count|filled|size|more): (usize|u64),", text, re.M):
            if re.search(r"\[u(8|64); [A-Z_\d]+\]", text[max(0, m.start() - 200) : m.end() + 200]):
                yield file, text.count("\n", 0, m.start()) + 1, f"{m[1]} beside a buffer"
        for name, line, _, signature, _ in functions(text):
            if re.search(r"&(?:mut )?\[u(8|64)\][^)]*\b(len|used|k|most): (usize|u64)", signature):
                yield file, line, f"fn {name}: a buffer with a length beside it"


def point7(root):
    for file, text in sources(root):
        for m in re.finditer(r"\bfn\(|: *&?dyn Fn", text):
            yield file, text.count("\n", 0, m.start()) + 1, "a function as a value"
        for name, line, _, signature, body in functions(text):
            if re.search(r"\b(which|list|how|what|part|kind|mode|letter|form): u(8|64)\b", signature) and len(re.findall(r"\bif (?:which|list|how|what|part|kind|mode|letter|form) == ", body)) >= 1:
                yield file, line, f"fn {name}: a number says which step to run"


def main():
    args, root = sys.argv[1:], pathlib.Path(__file__).resolve().parent.parent
    if "--in" in args:
        i = args.index("--in")
        root = pathlib.Path(args[i + 1]).resolve()
        del args[i : i + 2]
    for point in args or "1234567":
        found = list(globals()[f"point{point}"](root))
        for file, line, what in found:
            print(f"{point} {file.relative_to(root) if file else 'crates'}:{line} {what}")
        print(f"point {point}: {len(found)} places")


if __name__ == "__main__":
    main()
