#!/usr/bin/env python3
"""Each name in README.md and docs/**/*.md exists.

A word in backquotes has to be the name of a crate, a path, an edit, a module, what an .antt file declares, or what an .rt file
declares; `a::b` is what crate `a` declares, or a function of type `a`, or, with the trait's name after the type's, of an impl (`LeafListBoxList::end`
is `end` of `impl BoxList for LeafList`); before it its file may stand. Other words are listed in tests/doc_words.txt, and each of these is used.

Names that say where they stand are looked for there:

- `crate`, `Module`, `name`, .. (or: `crate`, specs `Module`, ..): declared in that module of that crate;
- in a table with a column "theorem (crate `x`)": `Module`, `name`, .. in that crate;
- in a table with a column "crate, module `X`": the crates of a row, and for each its names, parted by `;`;
- in a table with a column "function", also under "met by": `crate`, `function`, ..;
- in a table with a column "edit": `crate`, `function`: `edit`, .. (tests/edits_refused.py looks at the rest of the row);
- in a table with a column "crate": crates, and every crate is in such a table.
"""
import pathlib
import re
import sys

ROOT = pathlib.Path(__file__).resolve().parent.parent
# docs/PORT.md and docs/DESIGN-PASS.md are left out: they name what is no more.
DOCS = [ROOT / "README.md", *sorted(set((ROOT / "docs").glob("**/*.md")) - {ROOT / "docs/PORT.md", ROOT / "docs/DESIGN-PASS.md"})]
WORD = re.compile(r"`([^`\n]+)`")
LIST = r"`[^`\n]+`(?:(?:, | and )`[^`\n]+`)*"
PLACED = re.compile(rf"`([a-z_]+)`, (?:specs )?`([A-Z]\w*)`, ({LIST})")


def declared(path):
    """What an .antt file declares: definitions, theorems, records, their fields, and constructors."""
    text = re.sub(r"^ *let .*", "", path.read_text(encoding="utf-8"), flags=re.M)
    found = re.findall(r"^ *(?:(?:pub|abbrev|unfoldable) )*((?:[^\s:(){}=]+ )+)(?:[({].*[)}] )?:\s", text, re.M)
    found += re.findall(r"^ *(?:pub )?(?:record|data|module) (\S+)", text, re.M)
    return {word for line in found for word in line.split()}


def written(path):
    """What an .rt file declares: functions, types, constants, modules, fields and variants."""
    text = path.read_text(encoding="utf-8")
    found = re.findall(r"\b(?:fn|struct|enum|trait|const|type|mod|pub use \w+::) ?(\w+)", text)
    found += [name for names in re.findall(r"\bpub use \w+::\{([\w, ]+)\}", text) for name in names.split(", ")]
    fields = re.findall(r"^ +(?:pub )?(\w+): \S.*,$", text, re.M)
    return {*found, *fields, *re.findall(r"^ +([A-Z]\w*)(?:,$|\(| \{)", text, re.M)}


def methods(path):
    """The functions of an .rt file that stand in an impl, with the type's name, and its trait's after it."""
    for block in re.finditer(r"^impl(?:<[^{]*?>)? (?:([A-Z]\w*)(?:<[^{]*?>)? for )?(\w+)[^{]*\{\n(.*?)^\}", path.read_text(encoding="utf-8"), re.M | re.S):
        of = block[2] + (block[1] or "")
        yield from (f"{of}::{name}" for name in re.findall(r"^    (?:pub(?:\([a-z]+\))? )?fn (\w+)", block[3], re.M))


class Crate:
    def __init__(self, folder):
        self.modules = {}
        for path in [*folder.glob("specs/**/*.antt"), *folder.glob("proofs/**/*.antt")]:
            self.modules.setdefault(path.stem, set()).update(declared(path))
        code = {path.stem: path for path in folder.glob("src/*.rt")}
        self.functions = {name for path in code.values() for name in re.findall(r"\bfn (\w+)", path.read_text(encoding="utf-8"))}
        own = {(stem, name) for stem, path in code.items() for name in methods(path)}
        self.functions |= {name for _, name in own} | {f"{stem}::{name}" for stem, name in own}
        self.names = set(self.modules) | {word for names in self.modules.values() for word in names}
        self.names |= {word for path in code.values() for word in written(path)}
        self.edits = {path.stem for path in folder.glob("must-fail/*.edit")}


CRATES = {folder.name: Crate(folder) for folder in sorted((ROOT / "crates").iterdir()) if folder.is_dir()}
KNOWN = set(CRATES) | {word for crate in CRATES.values() for word in crate.names | crate.edits}
LINES = (ROOT / "tests/doc_words.txt").read_text(encoding="utf-8").splitlines()
OTHERS = {line for line in LINES if line and not line.startswith("#")}


def words(text):
    return WORD.findall(text)


def exists(word):
    if word in KNOWN or word in OTHERS or (ROOT / word).exists():
        return True
    of, _, name = word.partition("::")
    if of in CRATES:
        return name in CRATES[of].names
    return any(word in crate.functions or of in crate.names and name in crate.functions for crate in CRATES.values())


def in_module(crate, module, names):
    if crate not in CRATES or module not in CRATES[crate].modules:
        return [f"no module {module} in crate {crate}"]
    return [f"{name} is not declared in {crate}, {module}" for name in names if name not in CRATES[crate].modules[module]]


def functions(part):
    """`crate`, `function`, ..: the functions are that crate's. A list of crates is one too."""
    crate, *names = words(part) or [""]
    if crate not in CRATES:
        return [f"no crate {crate}"] if crate else []
    return [f"no function {name} in crate {crate}" for name in names if name not in CRATES and name not in CRATES[crate].functions]


def cell_faults(head, cell, row):
    """What is wrong with a cell, by the head of its column."""
    of_crate, of_module = re.search(r"crate `(\w+)`", head), re.search(r"crate, module `(\w+)`", head)
    if of_crate:
        module, *names = words(cell)
        return in_module(of_crate[1], module, names)
    if of_module:
        return [fault for crate, part in zip(words(cell), row[1].split(";")) for fault in in_module(crate, of_module[1], words(part))]
    if head in ("function", "met by"):
        return [fault for part in cell.split(";") for fault in functions(part)]
    if head == "edit":
        return functions(cell.partition(":")[0])
    if head == "crate":
        return [f"no crate {word}" for word in words(cell) if word not in CRATES]
    return []


def faults_of(path, shown):
    head = None
    text = re.sub(r"^```.*?^```", lambda m: "\n" * m[0].count("\n"), path.read_text(encoding="utf-8"), flags=re.M | re.S)
    for number, line in enumerate(text.splitlines(), 1):
        faults = [f"no such name: {word}" for word in words(line) if not exists(word)]
        for crate, module, names in PLACED.findall(line):
            faults += in_module(crate, module, words(names)) if crate in CRATES else []
        if not line.startswith("|"):
            head = None
        else:
            row = [cell.strip() for cell in line.strip().strip("|").split("|")]
            if head is None:
                head = row
            elif not row[0].startswith("---"):
                faults += [fault for key, cell in zip(head, row) for fault in cell_faults(key, cell, row)]
                shown |= set(words(row[0])) if head[0] == "crate" else set()
        yield from (f"{path.relative_to(ROOT)}:{number}: {fault}" for fault in dict.fromkeys(faults))


def main():
    shown = set()
    faults = [fault for path in DOCS for fault in faults_of(path, shown)]
    faults += [f"crate {crate} is in no table of crates" for crate in CRATES if crate not in shown]
    used = {word for path in DOCS for word in words(path.read_text(encoding="utf-8"))}
    faults += [f"tests/doc_words.txt: no page has this word: {word}" for word in sorted(OTHERS - used)]
    for fault in faults:
        print(f"doc_names: {fault}")
    if not faults:
        print(f"doc_names: the {len(used)} names of {len(DOCS)} pages exist")
    return 1 if faults else 0


if __name__ == "__main__":
    sys.exit(main())
