#!/usr/bin/env python3
"""Each wrong answer listed in docs/EDITS.md is refused in the function or the theorem that its row names.

usage: tests/edits_refused.py [LOG]
       tests/edits_refused.py --try CRATE..

It reads the tables of docs/EDITS.md that begin with a column "edit". Each edit is listed, and no other; as many wrong answers as it tells of,
of the functions that it says; and none changes a proof or a contract. `rt ci` tries the edits, but keeps no log of a try, and prints the first
refusal alone. So two things are read:

- Without --try, what `rt ci` printed, in LOG, else in target/log/ci: each edit is refused, for no limit of the prover, and not just because
  what a proof names is gone.
- With --try, each edit of these crates is made in a copy of the repository and checked there by `rt check`, whose whole log is read: each
  function or theorem of its rows is refused by itself, as said below. A try takes some ten seconds where `rt check` has proved the crate
  before on this machine, so this is no part of tests/run: it is for whoever changes an edit, a row or a proof.

A row is `crate`: `edit`, `edit` | wrong answers | refused in. In the last column each edit has its part, parted by `;`, or one part
holds for all. A part names functions of the crate, or a module and its theorems; each of them has to be refused by itself:

- a function: what it returns, the invariant of what it makes, or what its loop keeps, is refused in its own proof file, or `search` does not prove
  it there;
- a theorem: an error at it in its module.

An error that says only that something else was not admitted does not count, and neither does one that says only that a name is gone (a
goal's name has the test in it that leads there), a call of what is not proved, or a bound that fails: a read out of range or a sum that
wraps is no answer. An edit after which code or definitions cannot be read fails, whatever else its log shows.
"""
import pathlib
import re
import shutil
import subprocess
import sys
import tempfile

ROOT = pathlib.Path(__file__).resolve().parent.parent
PARTS = ("src", "specs", "proofs")
NAMES = re.compile(r"`[^`]+`(, `[^`]+`)*")
ERROR = re.compile(r"^(?:\./)?(\S*?):\d+:\d+: error: (?:`([^`]+)`: )?(.*)$")
FUNCTION = re.compile(r"^fn (\S+): (.*)$")
FOLLOWS = re.compile(r"^`[^`]+` (was not admitted|cannot be unfolded because it was not admitted)|^\d+ declarations? that depends? on ")
UNPROVED = "`search` did not prove "
# The goals that speak of a function's answer: what it returns, the invariant of what it makes, and what a loop keeps on the way to it.
ANSWER = re.compile(r"returns(-.*)?|invariant_of-.*|loop-.*|.*-(init|preserved)(-\d+)?")
# What a log says where a name, a case or a field that a proof or a definition names does not stand.
GONE = ("is not in scope", "has no field", "has no `", "that can be named from here", "has no clause")
# What `rt ci` says of an edit, and how that begins where the refusal says little.
TRIED = re.compile(r"^rt: must-fail (\w+)/([\w.-]+)\.edit: (.*)$", re.M)
REFUSED, LITTLE = "refused, as it must be", "refused, as it must be (only "


def names(text):
    if not NAMES.fullmatch(text.strip()):
        raise ValueError(f"not a list of names: {text.strip()}")
    return re.findall(r"`([^`]+)`", text)


def rows():
    """Each row of a table whose first column is "edit", as its cells."""
    inside = False
    for line in (ROOT / "docs/EDITS.md").read_text(encoding="utf-8").splitlines():
        if not line.startswith("|"):
            inside = False
            continue
        cells = [cell.strip() for cell in line.strip().strip("|").split("|")]
        if cells[0] == "edit":
            inside = True
        elif inside and not cells[0].startswith("---"):
            yield cells


def wanted(cells):
    """(crate, edit, the function that the row is of, the names that refuse it), for each edit of a row."""
    first, answers, last = cells
    where, _, edits = first.partition(":")
    (crate, *function), edits, parts = names(where), names(edits), last.split(";")
    if len(answers.split(";")) not in (1, len(edits)):
        raise ValueError(f"{len(edits)} edits, and {len(answers.split(';'))} wrong answers: {first}")
    if len(parts) not in (1, len(edits)):
        raise ValueError(f"{len(edits)} edits, and {len(parts)} parts of \"refused in\": {first}")
    if len(parts) == 1:
        parts = parts * len(edits)
    return [(crate, edit, function, names(part)) for edit, part in zip(edits, parts)]


class Log:
    """What the log of an edit says: errors as (file, declaration), functions by name, and signs that it cannot be read. `folder` is the crate's."""

    def __init__(self, text, folder):
        self.errors, self.functions, self.broken, self.folder = set(), {}, [], folder
        for line in text.splitlines():
            function, error = FUNCTION.match(line), ERROR.match(line)
            if function:
                self.functions[function[1]] = function[2]
                if function[2].startswith("no proof: ") and UNPROVED not in function[2] and "it calls `" not in function[2]:
                    self.broken.append(line[:200])
            elif error:
                self.read(*error.groups())
            elif re.search(r"\berror\[[\w-]+\]", line):
                self.broken.append(line[:200])

    def read(self, file, declaration, said):
        if FOLLOWS.match(said):
            return
        if declaration is None or not file.startswith("proofs/"):
            self.broken.append(f"{file}: {said[:160]}")
        elif not any(sign in said for sign in GONE):
            self.errors.add((file, declaration))

    def function(self, name):
        """Whether a function's own proof is refused. `mod::name` says in which module of the crate it stands."""
        found = [f for f in self.functions if f"::{f}".endswith(f"::{name}")]
        if len(found) != 1:
            return False
        said = self.functions[found[0]]
        *path, last = found[0].split("::")[1:]
        own = {self.goal(f, d) for f, d in self.errors if f.split("/")[1:-2] == path and last in f.split("/")[-2].split("+")}
        own |= set(re.findall(r"`([^`]+)`", said.partition(UNPROVED)[2].partition(";")[0]))
        return said != "proved" and any(goal is None or ANSWER.fullmatch(goal) for goal in own)

    def goal(self, file, declaration):
        """The goal that a declaration of a function's proof answers; none where it is a lemma of that proof."""
        answers = re.search(rf"^(?:pub )?{re.escape(declaration)} : \S*\bgoal\.(\S+)", (self.folder / file).read_text(encoding="utf-8"), re.M)
        return answers and answers[1]

    def theorem(self, module, name):
        return any(f.endswith(f"/{module}.antt") and d == name for f, d in self.errors)

    def missing(self, wanted_names):
        """The names that are not refused by themselves."""
        module, left = None, []
        for name in wanted_names:
            if name[0].isupper():
                module = name
            elif not (self.theorem(module, name) if module else self.function(name)):
                left.append(f"{module}, {name}" if module else name)
        return left


def text_of(crate, edit):
    return (ROOT / "crates" / crate / "must-fail" / f"{edit}.edit").read_text(encoding="utf-8").splitlines()


def told(crate, edit):
    """The wrong answers of an edit: the comments in it. One of several begins with the function that it is of."""
    return [line[1:].strip() for line in text_of(crate, edit) if line.startswith("#")]


def is_in_clause(before):
    """Whether a place of a source, given by the text before it, stands in a clause: the last one that opens there is not closed yet."""
    opens = [m.end() for m in re.finditer(r"\b(?:requires|ensures)\*?(?: \w+)? \{", before)]
    depth = 1 if opens else 0
    for sign in re.findall("[{}]", before[opens[-1] :] if opens else ""):
        depth += 1 if sign == "{" else -1
        if depth == 0:
            break
    return depth > 0


def misplaced(crate, edit):
    """Lines of an edit that change a proof or a contract, and so no answer."""
    text, is_code = "", False
    for line in text_of(crate, edit):
        key, _, words = line.partition(": ")
        if key == "file":
            text, is_code = (ROOT / "crates" / crate / words).read_text(encoding="utf-8"), words.startswith("src/")
        before = text.partition(words)[0] if key == "old" and is_code else ""
        if line.startswith("file: proofs/") or is_code and key in ("old", "new") and re.match(r"\s*(requires|ensures)\b", words) or is_in_clause(before):
            yield line


def listed_faults(crate, edit, listed):
    """What is wrong with an edit beside its rows: of each the function that it is of, and the names in it."""
    comments = told(crate, edit)
    if len(comments) != len(listed):
        yield f"it has {len(comments)} wrong answers, and docs/EDITS.md lists {len(listed)}"
    if len(comments) > 1 and sorted(c.partition(":")[0] for c in comments) != sorted(f for function, _ in listed for f in function):
        yield "its wrong answers are not of the functions that docs/EDITS.md lists"
    for line in misplaced(crate, edit):
        yield f"it changes a proof or a contract: {line}"


def ci_faults(said):
    """What is wrong with an edit by what `rt ci` said of it."""
    if said is None:
        yield "the log of `rt ci` does not tell of it"
    elif not said.startswith(REFUSED) or said.startswith(LITTLE):
        yield said


def log_faults(log, lists):
    """What is wrong with an edit by the log of its check, given the names of each of its rows."""
    for sign in log.broken:
        yield f"it cannot be read: {sign}"
    for part in lists:
        for name in log.missing(part):
            yield f"no refusal of its own in {name}"
    for name in {name for k, part in enumerate(lists) for name in part if any(name in other for other in lists[:k])}:
        yield f"two of its wrong answers are refused in {name}, and its log does not tell them apart"


def copied(to):
    """Copies the sources of all crates, without what earlier runs kept."""
    shutil.copy(ROOT / "crates.txt", to)
    (to / ".git").mkdir()
    for crate in (ROOT / "crates").iterdir():
        for part in PARTS:
            if (crate / part).is_dir():
                shutil.copytree(crate / part, to / "crates" / crate.name / part)


def edited(crate, edit, folder):
    """Makes an edit in a copy of its crate, and returns the files as they were."""
    were, file, old = {}, None, None
    for line in text_of(crate, edit):
        key, colon, words = line.partition(":")
        words = words[1:] if words.startswith(" ") else words
        if key == "file" and colon:
            file = folder / words.strip()
            were.setdefault(file, file.read_text(encoding="utf-8"))
        elif key == "old" and colon:
            old = words
        elif key == "new" and colon:
            text = file.read_text(encoding="utf-8")
            if text.count(old) != 1:
                raise ValueError(f"this stands {text.count(old)} times, and not once: {old}")
            file.write_text(text.replace(old, words), encoding="utf-8")
    return were


def tried(crate, edit, lists, top):
    """What is wrong with an edit by its own check, in a copy of the repository."""
    folder = top / "crates" / crate
    try:
        were = edited(crate, edit, folder)
    except ValueError as fault:
        shutil.rmtree(folder)
        for part in PARTS:
            if (ROOT / "crates" / crate / part).is_dir():
                shutil.copytree(ROOT / "crates" / crate / part, folder / part)
        return [str(fault)]
    ran = subprocess.run(["rt", "check"], cwd=folder, stdin=subprocess.DEVNULL, stdout=subprocess.PIPE, stderr=subprocess.STDOUT, text=True, errors="replace")
    logs = ROOT / "target/log/edits" / crate
    logs.mkdir(parents=True, exist_ok=True)
    (logs / f"{edit}.log").write_text(ran.stdout, encoding="utf-8")
    faults = ["it is not refused"] if ran.returncode == 0 else [*log_faults(Log(ran.stdout, folder), lists)]
    for file, text in were.items():
        file.write_text(text, encoding="utf-8")
    return faults


def main(words):
    is_try, faults, listed = words[:1] == ["--try"], [], {}
    for cells in rows():
        try:
            for crate, edit, function, part in wanted(cells):
                listed.setdefault((crate, edit), []).append((function, part))
        except ValueError as fault:
            faults.append(f"docs/EDITS.md: {fault}")
    there = {(f.parts[-3], f.stem) for f in (ROOT / "crates").glob("*/must-fail/*.edit")}
    faults += [f"{crate}/{edit}: docs/EDITS.md does not list it" for crate, edit in sorted(there - set(listed))]
    faults += [f"{crate}/{edit}: docs/EDITS.md lists it, and there is no such edit" for crate, edit in sorted(set(listed) - there)]
    looked = [key for key in sorted(there & set(listed)) if not is_try or key[0] in words[1:]]
    for key in looked:
        faults += [f"{'/'.join(key)}: {fault}" for fault in listed_faults(*key, listed[key])]
    if is_try:
        with tempfile.TemporaryDirectory(prefix="edits-") as room:
            copied(pathlib.Path(room))
            for key in looked:
                found = tried(*key, [part for _, part in listed[key]], pathlib.Path(room))
                faults += [f"{'/'.join(key)}: {fault}" for fault in found]
                print(f"edits_refused: {'/'.join(key)}: {'as listed' if not found else 'NOT as listed'}", flush=True)
    else:
        log = pathlib.Path(words[0]) if words else ROOT / "target/log/ci"
        if not log.exists():
            print(f"edits_refused: {log} is missing: it is what `rt ci` printed, and tests/run writes it", file=sys.stderr)
            return 2
        said = {(crate, edit): text for crate, edit, text in TRIED.findall(log.read_text(encoding="utf-8", errors="replace"))}
        for key in looked:
            faults += [f"{'/'.join(key)}: {fault}" for fault in ci_faults(said.get(key))]
    for fault in faults:
        print(f"edits_refused: {fault}")
    if not faults:
        count = sum(len(listed[key]) for key in looked)
        print(f"edits_refused: {len(looked)} edits, {count} wrong answers, each listed and refused{' where docs/EDITS.md says' if is_try else ''}")
    return 1 if faults else 0


if __name__ == "__main__":
    sys.exit(main(sys.argv[1:]))
