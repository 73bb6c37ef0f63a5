#!/usr/bin/env python3
"""Turns proofs of the older Rattle, proofs/F/Proof.antt, into Invariants.antt and Answers.antt.

usage: turn_proofs.py CRATE NAMES.json [F ..]

CRATE is a crate's folder, NAMES.json what `rt check --generated DIR --old-names` there wrote into DIR, once the libraries below it prove; F names
functions, as `calls.feed_any`. What it cannot turn it leaves, and says so. It goes by text: the check decides. A proof of functions that call each
other is for tools/turn_cycle.py.
"""
import json
import os
import re
import sys

STOP = " \t\n(){};,"
WORDCH = r"[^\s(){};,.\"λ]"


def balanced(text, i):
    """The end of the parenthesis that opens at i."""
    deep = 0
    for k in range(i, len(text)):
        if text[k] in "({[":
            deep += 1
        elif text[k] in ")}]":
            deep -= 1
            if deep == 0:
                return k + 1
    raise ValueError("unbalanced")


def arguments(text):
    """The arguments of tie.spec, in order."""
    at = text.index("tie.spec") + len("tie.spec")
    out = []
    while True:
        while at < len(text) and text[at] in " \n\t":
            at += 1
        if at >= len(text) or text[at] == ")":
            return out
        if text[at] == "(":
            end = balanced(text, at)
        else:
            m = re.compile(r"[^\s()]+").match(text, at)
            end = m.end()
        out.append(text[at:end])
        at = end


def blocks(text):
    """The declarations: each with its comment lines, and the lines of its text."""
    out, notes, now = [], [], None
    for line in text.splitlines():
        if line.startswith("--"):
            if now is not None:
                out.append(now)
                now = None
            notes.append(line)
        elif not line.strip():
            if now is not None:
                now[1].append("")
        elif not line.startswith(" ") and not line.startswith(")"):
            m = re.match(r"(?:abbrev |pub |unfoldable )*([^\s:]+)", line)
            name = m[1] if m else ""
            if now is not None and (now[2] == name or line.startswith("unfolding ")):
                now[1].append(line)
                continue
            if now is not None:
                out.append(now)
            now = [notes, [line], name]
            notes = []
        else:
            if now is None:
                now = [notes, [], ""]
                notes = []
            now[1].append(line)
    if now is not None:
        out.append(now)
    if notes:
        out.append([notes, [], ""])
    return out


def norm(name):
    return re.sub(r"_lem$", "", name.replace("-", "_").replace("IsPlace", "place").replace("IsStore", "store").lower())


class Names:
    def __init__(self, of):
        self.of = of
        self.index = {p[0]: i for i, p in enumerate(of["places"])}
        self.needs = of["needs"]
        self.asked = of["asked_at"]

    def chain(self, place):
        out = []
        while place is not None and place in self.index:
            i = self.index[place]
            out.append(i)
            place = self.of["places"][i][1]
        return out

    def maps(self, k):
        return self.maps_from(self.asked[k][0] if k < len(self.asked) else None)

    def maps_at(self, at):
        return self.maps_from(self.of["places"][at][0])

    def maps_from(self, place):
        """For a place: old step to new step, and old variable with its path to the new field."""
        places = self.of["places"]
        chain = self.chain(place) if place in self.index else list(range(len(places)))
        steps, arms, typed = {}, {}, {}
        order = chain + [i for i in range(len(places)) if i not in chain]
        for i in order:
            old, new = places[i][2]
            if old:
                steps.setdefault(norm(old), new)
            arm = self.of["arms"][i]
            if arm:
                for field, var, path in arm[2]:
                    arms.setdefault((norm(var), tuple(path)), f"{arm[0]}.{field}")
            for name, var in self.of["typed"][i]:
                typed.setdefault(norm(var), name)
        for loop in self.of["loops"]:
            steps.setdefault(norm(loop[0][0]), loop[0][1])
            steps.setdefault(norm(loop[0][0] + "-test"), loop[0][1] + "-test")
        return steps, arms, typed


def turn_paths(text, heads, maps, bare="c"):
    """Paths of c and of what stands for it: without .before, and with the steps' new names."""
    steps, arms, typed = maps
    pattern = re.compile(r"(?<![^\s(){};,\[←])(" + "|".join(sorted(map(re.escape, heads), key=len, reverse=True)) + r")((?:\." + WORDCH + r"+)*)(?![^\s(){};,.\]])")

    def one(m):
        path = [p for p in m[2].split(".") if p and p != "before"]
        if not path and re.match(r"\s*= ", m.string[m.end() :]) and re.search(r"[{;]\s*$", m.string[: m.start()]):
            return m[0]
        if not path:
            return bare
        for n in range(len(path), 0, -1):
            key = (norm(path[0]), tuple(path[1:n]))
            if n > 1 and key in arms:
                return ".".join(["c", arms[key], *path[n:]])
        first = path[0]
        if norm(first) in typed and len(path) > 1 and path[1] == "given":
            return ".".join(["c.type_inv", typed[norm(first)], *path[2:]])
        if norm(first) in steps and steps[norm(first)]:
            new = steps[norm(first)]
            if new.startswith("in_default") and path[1:2] and path[1] == "keys2":
                return "(opened " + ".".join(["c", new, new + "-own", *path[1:]]) + ")"
            if new.startswith("in_default") and path[1:2] == ["rest"]:
                new += "." + new + "-own"
            if path[1:2] == ["taken"]:
                path[1] = "true"
            return ".".join(["c", new, *path[1:]])
        return ".".join(["c", *path])

    return pattern.sub(one, text)


def turn_body(body, k, names, bound="c", bare="c", maps=None):
    """The text of an answer: aliases of places are dropped, and paths are turned."""
    maps = maps or names.maps(k)
    heads = {bound}
    # `let x = c.before.before in` only names a place
    again = True
    while again:
        again = False
        pattern = re.compile(r"\blet (" + WORDCH + r"+) = (" + "|".join(map(re.escape, heads)) + r")((?:\.before)*) in\s*")
        m = pattern.search(body)
        if m:
            heads.add(m[1])
            body = body[: m.start()] + body[m.end() :]
            again = True
    return turn_paths(body, heads, maps, bare)


def with_place(body, k, names, bound, goal, record):
    """A turned answer; what stands for the record that the sections are over is bound once."""
    if not record:
        return turn_body(body, k, names, bound)
    turned = turn_body(body, k, names, bound, "⟨place⟩")
    if "⟨place⟩" not in turned:
        return turned
    name = "k" if not re.search(r"(?<![\w.])k(?!\w)", turned) else "known"
    turned = turned.replace("⟨place⟩", name)
    return f"let {name} = (goal.at.{goal} c).{record} in\n    " + turned.lstrip()


def lambda_of(arg):
    """`(λ c κs. t)` as its variables and its text."""
    m = re.match(r"\(λ ([^.()]*?)\.\s", arg)
    if not m:
        return None
    return m[1].split(), arg[m.end() : -1].strip()


def more(bound, goal):
    """The variables of an answer behind c; a call's answer had one for lifetimes."""
    rest = bound[1:]
    return rest[1:] if "requires" in goal and rest else [v for v in rest if v != "κs"]


TRIVIAL = {"search rules", "omega arith", "(search rules)", "(omega arith)"}


def aligned(rest, needs, named, extra):
    """The arguments without those of goals that are asked no more: of all ways to leave so many out, the one in which most fit by name."""
    import itertools

    def fits(arg, need):
        if arg in named:
            m = re.search(r"tie\.(?:Need|goal)-(\S+)", "\n".join(named[arg][1]))
            return 4 if m and norm(m[1]) in (norm(need[0]), norm(need[1])) else 0
        lam = lambda_of(arg)
        inside = lam[1] if lam else arg
        if lam and len(lam[0]) > 1 and "κs" in lam[0]:
            return 1 if "requires" in need[0] else -1
        if "requires" in need[0]:
            return 0 if inside in TRIVIAL else -1
        return 0

    ways = itertools.combinations([i for i, a in enumerate(rest) if a not in named], extra)
    best = max(ways, key=lambda w: sum(fits(a, n) for a, n in zip([a for i, a in enumerate(rest) if i not in w], needs)))
    return [a for i, a in enumerate(rest) if i not in best]


def turn(crate, name, path, of):
    text = open(path, encoding="utf-8").read()
    names = Names(of)
    parts = blocks(text)
    heading, uses, decls, spec = [], [], [], None
    for notes, lines, first in parts:
        if lines and lines[0].startswith("use "):
            heading += notes
            uses += [l for l in lines if l.strip()]
            continue
        body = "\n".join(lines).rstrip()
        if "tie.spec" in body and "tie.close" in body:
            spec = body
            continue
        decls.append((notes, lines, first))
    # comments at the very top
    if parts and not uses:
        return "no imports"
    if spec is None:
        return "no tie.spec"
    if "tie.spec" not in spec:
        return "no spec"
    uses.append("use borrow.Enum.Refused.{opened}")
    uses = [u for u in uses if not re.search(r"\.(Statement\.\{statement\}|Tie as tie)$", u)]
    unfold = re.search(r"^unfolding (.*)$", spec, re.M)
    inner = spec[spec.index("(tie.spec") : balanced(spec, spec.index("(tie.spec"))] if "(tie.spec" in spec else spec
    args = arguments(inner[1:-1] if inner.startswith("(") else inner)
    loops = of["loops"]
    # sections over a place: a record of what is known there
    abbrevs = {}
    for notes, lines, first in decls:
        m = re.search(r"(?:lts|tie)\.((?:After|At|In|Then|Else|Start)[\w-]*)", "\n".join(lines))
        if m and re.match(r"abbrev " + re.escape(first) + r" : Type", lines[0]):
            abbrevs[first] = m[1]
    record, sections = None, []
    for notes, lines, first in decls:
        m = re.match(r"module _ \((\w+) : (?:tie\.)?([\w-]+)(?: invariant-loop decreases-loop)?\) where$", lines[0])
        m = m or re.match(re.escape(first) + r" : \((\w+) : tie\.([\w-]+)(?: invariant-loop decreases-loop)?\) → ", lines[0])
        if not m:
            continue
        place = abbrevs.get(m[2], m[2])
        at = [i for i, p in enumerate(of["places"]) if norm(p[0]) == norm(place)]
        if not at:
            if place.startswith(("After", "At", "In-", "Then", "Else")):
                return f"a section over {place}"
            continue
        arm = of["arms"][at[0]]
        new = arm[0][0].upper() + arm[0][1:] if arm else of["places_by_name"][at[0]]
        if record and record != new:
            return f"sections over {record} and {new}"
        record = new
        sections.append((first, lines, m[1], at[0]))
    if any(re.search(r"\b(?:tie|lts)\.(?:After|At|In-|Then|Else|Start)", "\n".join(l)) and f not in abbrevs and not l[0].startswith("module _") for n, l, f in decls if not any(s[1] is l for s in sections)):
        return "a type of a place"
    named = {first: (notes, lines) for notes, lines, first in decls}
    lead = args[: 2 * len(loops)] if loops else []
    rest = args[len(lead) :]
    extra = len(rest) - len(names.needs)
    if extra < 0 or extra > 3:
        return f"{len(args)} arguments, {len(names.needs)} goals"
    if extra:
        rest = aligned(rest, names.needs, named, extra)
    answers, used, invs = [], set(), []
    for k, arg in enumerate(rest):
        new = names.needs[k][1]
        if arg in named:
            used.add(arg)
            notes, lines = named[arg]
            unf = [l for l in lines if l.startswith("unfolding ")]
            eqs = [l for l in lines if not l.startswith("unfolding ")]
            body = "\n".join(eqs)
            # drop the signature, up to the equation
            m = re.search(r"^" + re.escape(arg) + r"((?: (?!:)[^\s=]+)*) =", body, re.M)
            if not m or not re.search(r"tie\.(Need|goal)", body[: m.start()]):
                return "no equation for " + arg
            bound = m[1].split()
            turned = with_place(body[m.end() :].strip("\n"), k, names, bound[0] if bound else "c", new, record)
            if not turned.startswith("\n"):
                turned = " " + turned.strip() if "\n" not in turned.strip() else " " + turned.lstrip()
            answers.append((notes, new, unf, turned, more(bound, new)))
        else:
            lam = lambda_of(arg)
            inside = lam[1] if lam else arg.strip()
            if inside in TRIVIAL and (not unfold or new.startswith(("enum_", "known_told"))):
                continue
            after = []
            if inside in TRIVIAL:
                body = " search rules" if "search" in inside else " omega arith"
            elif lam:
                body = " " + with_place(inside, k, names, lam[0][0], new, record)
                after = more(lam[0], new)
            else:
                body = " " + inside
                if re.fullmatch(r"[^\s()]+", inside):
                    return "an argument that is not declared: " + inside
            answers.append(([], new, ["unfolding " + unfold[1]] if unfold else [], body, after))
    helpers = []
    for notes, lines, first in decls:
        if first in used or first in lead or first in abbrevs:
            continue
        over = [s for s in sections if s[1] is lines]
        if over:
            _, _, c, at = over[0]
            if lines[0].startswith("module _"):
                head = f"module _ ({c} : {record}) where"
                whole = turn_body("\n".join(lines[1:]), None, names, c, c, names.maps_at(at))
                lines = [head] + whole.split("\n")
            else:
                whole = re.sub(r"\(" + c + r" : tie\.[\w-]+(?: invariant-loop decreases-loop)?\)", f"({c} : {record})", "\n".join(lines), count=1)
                lines = turn_body(whole, None, names, c, c, names.maps_at(at)).split("\n")
        helpers.append((notes, lines))
    if record:
        uses.append(f"use {module_of(crate, path)}.Goals.{{{record}}}")
    # invariants and measures
    kinds = []
    for loop in loops:
        kinds.append((loop[0][1], "invariant"))
        kinds.append((loop[0][1], "decreases"))
    if lead and len(lead) != len(kinds):
        return f"{len(lead)} invariants, {len(kinds)} asked"
    for (label, kind), arg in zip(kinds, lead):
        unf = []
        if arg in named:
            notes, lines = named[arg]
            used.add(arg)
            body = "\n".join(l for l in lines if not l.startswith("unfolding "))
            m = re.search(r"^" + re.escape(arg) + r"((?: (?!:)[^\s=]+)*) =", body, re.M)
            variables, inside = m[1].split(), body[m.end() :].strip()
        else:
            lam = lambda_of(arg)
            if not lam:
                return "an invariant that is no λ: " + arg
            variables, inside = lam
            notes = []
        for v in sorted(set(variables), key=len, reverse=True):
            if v == "_":
                continue
            to = "l.initial." + v[:-1] if v.endswith("₀") else "l." + v
            inside = re.sub(r"(?<![^\s(){};,\[←])" + re.escape(v) + r"(?![^\s(){};,.\]])", to, inside)
        invs.append((notes, f"{kind}-{label}", inside))
    folder = os.path.dirname(path)
    module = "Rattle." + os.path.basename(os.path.abspath(crate)) + ".proofs." + os.path.relpath(folder, os.path.join(crate, "proofs")).replace("/", ".")
    note = "\n".join(heading) if heading else ""
    if invs:
        out = [note] if note else []
        out += [u for u in uses if used_in(u, "\n".join(i[2] for i in invs))]
        out += [f"use {module}.Given as goal", ""]
        for notes, label, inside in invs:
            out += notes + [f"abbrev pub {label} : goal.{label}", f"{label} l = {inside}", ""]
        open(os.path.join(folder, "Invariants.antt"), "w", encoding="utf-8").write("\n".join(out).rstrip() + "\n")
    if answers or helpers:
        out = [note] if note and not invs else ([note] if note else [])
        body = []
        for notes, lines in helpers:
            body += notes + lines + [""]
        for notes, label, unf, inside, after in answers:
            inside = inside.rstrip()
            if inside.lstrip().startswith("let ") and "\n" in inside:
                inside = "\n    " + inside.lstrip()
            body += notes + [f"pub {label} : goal.{label}"] + unf + [f"{' '.join([label, 'c', *after])} ={inside}", ""]
        whole = "\n".join(body)
        out += [u for u in uses if used_in(u, whole)]
        out += [f"use {module}.Goals as goal", ""]
        open(os.path.join(folder, "Answers.antt"), "w", encoding="utf-8").write("\n".join(out) + "\n" + whole.rstrip() + "\n")
    os.remove(path)
    return None


def module_of(crate, path):
    folder = os.path.dirname(path)
    return "Rattle." + os.path.basename(os.path.abspath(crate)) + ".proofs." + os.path.relpath(folder, os.path.join(crate, "proofs")).replace("/", ".")


def used_in(use, text):
    m = re.search(r"\{(.*)\}", use)
    if not m:
        alias = re.search(r" as (\S+)$", use)
        return not alias or re.search(r"(?<![^\s(){};,\[])" + re.escape(alias[1]) + r"\.", text)
    for word in re.split(r",\s*", m[1]):
        word = word.split(" as ")[-1].strip()
        bare = word.replace("◌", "")
        if re.search(r"(?<![^\s(){};,\[.])" + re.escape(bare) + r"(?![^\s(){};,.\]])", text) or ("◌" in word and bare in text):
            return True
    return False


def main():
    crate, listed, only = sys.argv[1], json.load(open(sys.argv[2])), set(sys.argv[3:])
    name = os.path.basename(os.path.abspath(crate))
    done = 0
    for folder, _, files in sorted(os.walk(os.path.join(crate, "proofs"))):
        if "Proof.antt" not in files:
            continue
        at = os.path.relpath(folder, os.path.join(crate, "proofs")).replace("/", ".")
        if only and at not in only:
            continue
        key = f"Rattle-{name}-proofs.{at}.Lts"
        if key not in listed:
            print(f"{at}: not listed")
            continue
        try:
            said = turn(crate, at, os.path.join(folder, "Proof.antt"), listed[key])
        except Exception as e:
            said = f"{type(e).__name__}: {e}"
        if said:
            print(f"{at}: left: {said}")
        else:
            done += 1
    print(f"{name}: {done} turned")


if __name__ == "__main__":
    main()
