#!/usr/bin/env python3
"""What the design pass changed of what is public: prints the last part of docs/DESIGN-PASS.md.

usage: tools/design_changes.py OLD NEW

OLD and NEW are checkouts. Of each crate: public functions with their clauses, public types, constants and what is handed on from another crate,
what specs/ declares, and the theorems in proofs/ that README.md or docs/ of either name; old lines begin with `-`, new ones with `+`. Before the
colon stands the module or the type that a line is in; behind the dash the parameters of the `module _` around it. What is the same in both is left
out, and so is a definition or a theorem whose text differs in the spelling of the answers alone (listed by name).
"""
import pathlib
import re
import sys

FUNCTION = re.compile(r"^( *)pub (?:const )?fn (\w+)", re.M)
IMPL = re.compile(r"^impl(?:<[^{]*?>)? (?:[A-Z]\w*(?:<[^{]*?>)? for )?(\w+)", re.M)
TYPE = re.compile(r"^(?:#\[derive[^\n]*\n)?pub (?:(?:struct|enum|trait) (\w+)[^{;]*\{.*?^\}|(?:struct|type|enum) (\w+)[^\n]*;)", re.M | re.S)
HANDED = re.compile(r"^pub (?:const|use) (?!fn\b)([\w:]*\w)[^;]*;", re.M)
HEAD = re.compile(r"( *)(?:module _ |(?:abbrev |unfoldable )?(pub )?(record |data )?(?!use |mod )([^\s:({]+))")
WORDS = re.compile(r"`([^`\n]+)`")


def squeeze(text):
    text = re.sub(r"\s+", " ", re.sub(r"//[^\n]*", "", text)).strip()
    text = re.sub(r",\s*([)}>])", r"\1", text)
    return re.sub(r"\(\s+", "(", re.sub(r"\{\s+", "{ ", text))


def sources(folder):
    for path in sorted(folder.glob("src/**/*.rt")):
        yield "" if path.stem in ("lib", "main") else path.stem, path.read_text(encoding="utf-8")


def clauses_end(text, at):
    """Where a function's signature and clauses end: before its body, or at a semicolon."""
    for o in re.compile(r"\{$", re.M).finditer(text, at):
        if not re.match(r"\s*(requires|ensures)\b", text[text.rfind("\n", 0, o.start()) + 1 : o.end()]):
            return o.start()
    return text.find(";", at)


def functions(folder):
    found = {}
    for module, text in sources(folder):
        for m in FUNCTION.finditer(text):
            owner = IMPL.findall(text[: m.start()])[-1:] if m[1] else [module] * bool(module)
            found[(*owner, m[2])] = ": ".join([*owner, squeeze(text[m.start() : clauses_end(text, m.start())])])
    return found


def types(folder):
    return {m[1] or m[2]: squeeze(m[0]) for _, text in sources(folder) for m in TYPE.finditer(text)}


def handed(folder):
    return {m[1]: squeeze(m[0]) for _, text in sources(folder) for m in HANDED.finditer(text)}


def modules(folder, part):
    """The modules of specs/ or proofs/ but those that only answer for a function or an invariant, each with its lines."""
    for path in sorted(folder.glob(f"{part}/**/*.antt")):
        if path.stem != "Lib" and not (part == "proofs" and path.stem in ("Answers", "Invariants")):
            lines = path.read_text(encoding="utf-8").split("\n")
            yield path.stem, [l for l in lines if l.strip() and not l.lstrip().startswith("--")]


def extent(lines, i, indent, name):
    """The first line behind a declaration's head, and the first behind its clauses."""
    deeper = lambda k: k < len(lines) and lines[k].startswith(indent + " ")
    head = i + 1
    while deeper(head):
        head += 1
    end = head
    while deeper(end) or end < len(lines) and re.match(rf"{indent}(unfolding|{re.escape(name)}) ", lines[end]) and not lines[end].startswith(f"{indent}{name} :"):
        end += 1
    return head, end


def declared(folder, part):
    """What specs/ or proofs/ declare as `pub`, by module and name: of a definition all its text, of a theorem what it states."""
    found = {}
    for module, lines in modules(folder, part):
        around, i = [], 0
        while i < len(lines):
            m = HEAD.match(lines[i])
            around = [(indent, of) for indent, of in around if not m or len(indent) < len(m[1])]
            if m and not m[4]:
                end = next(k for k in range(i, len(lines)) if lines[k].endswith("where")) + 1
                around.append((m[1], squeeze(" ".join(lines[i:end]))[len("module _ ") : -len(" where")]))
            elif m:
                head, end = extent(lines, i, m[1], m[4])
                if m[2]:
                    whole = part == "specs" or m[3] or not lines[i].lstrip().startswith("pub ")
                    text = squeeze(" ".join(lines[i : end if whole else head]))
                    found[module, m[4]] = f"{module}: {text}" + " — of " * bool(around) + " ".join(of for _, of in around)
            i = end if m else i + 1
    return found


def spelled(text):
    """A definition without the spelling of its answers, to tell which differ in that alone."""
    for old, new in (
        (r"\b\w*[sS]tep\.(Taken|Go)\b|\bgo-on\b", "Going"), (r"\b(feeds|finishes|feed|finish)\.(Read|Listed)\b", "Ok"),
        (r"\b(feeds|finishes|answer|looks|feed|finish)\.Refused\b", "Err"), (r"\b(FeedAnswer|FinishAnswer)\b", "Result ℕ Refusal"),
        (r"\bLookupAnswer\b", "Result Leaf Refusal"), (r"\b(\w+)\.(Head|Body)\b", r"in.\2"), (r"\(Result (ℕ|Leaf) Refusal\)", r"Result \1 Refusal"),
        (r"\banswer\.Found (\([^)]*\)|\w+) (\([^)]*\)|\w+)", r"Ok (the_leaf \1 \2)"),
    ):
        text = re.sub(old, new, text)
    return text


def show(title, old, new, same=lambda a, b: a == b):
    lines, alike = [], []
    for name in sorted(set(old) | set(new)):
        a, b = old.get(name), new.get(name)
        if a == b:
            continue
        if a and b and same(a, b):
            alike.append("::".join(name))
            continue
        lines += ([f"- {a}"] if a else []) + ([f"+ {b}"] if b else [])
    if alike:
        print(f"{title}, where the spelling of answers alone differs: " + ", ".join(f"`{n}`" for n in alike) + ".\n")
    if lines:
        print(f"{title}:\n\n```diff\n" + "\n".join(lines) + "\n```\n")


def names(checkout):
    """The names that the pages of a checkout mention, what this prints left out."""
    pages = [checkout / "README.md", *checkout.glob("docs/**/*.md")]
    return {w.rpartition("::")[2] for page in pages for w in WORDS.findall(page.read_text(encoding="utf-8").partition("\n## Old and new\n")[0])}


def main():
    old, new = (pathlib.Path(a).resolve() for a in sys.argv[1:3])
    named = names(old) | names(new)
    crates = [line.split(":")[0].split()[0] for line in (new / "crates.txt").read_text(encoding="utf-8").splitlines() if line and not line.startswith("#")]
    alike = lambda a, b: spelled(a) == spelled(b)
    never = lambda a, b: False
    for crate in crates:
        both = [checkout / "crates" / crate for checkout in (old, new)]
        theorems = [{k: text for k, text in declared(folder, "proofs").items() if k[1] in named} for folder in both]
        parts = [("Functions", [functions(f) for f in both], never), ("Types", [types(f) for f in both], never), ("Constants and what is handed on", [handed(f) for f in both], never),
                 ("Definitions", [declared(f, "specs") for f in both], alike), ("Theorems that the pages name", theorems, alike)]
        if any(a != b for _, (a, b), _ in parts):
            print(f"### {crate}\n")
            for title, (a, b), same in parts:
                show(title, a, b, same)


if __name__ == "__main__":
    main()
