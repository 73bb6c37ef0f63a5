#!/usr/bin/env python3
"""Turns one proof of the older Rattle of functions that call each other, proofs/+NAME/Proof.antt: usage: turn_cycle.py CRATE NAMES.json +NAME.

CRATE and NAMES.json are as for tools/turn_proofs.py. It writes Answers.antt, and Invariants.antt with the measures as comments, to be written out
by hand, as `decreases-f l = ..`. The old file stays. It goes by text: the check decides.
"""
import json
import os
import re
import sys

import turn_proofs as turns


def spec_arguments(spec, at):
    """The arguments of one function's part of the cycle, behind its claims, its entry and its promise."""
    out = []
    while at < len(spec):
        while at < len(spec) and spec[at] in " \n\t":
            at += 1
        if at >= len(spec) or spec[at] in ")λ" or spec.startswith("(λ t.", at):
            break
        end = turns.balanced(spec, at) if spec[at] == "(" else re.compile(r"[^\s()]+").match(spec, at).end()
        out.append(spec[at:end])
        at = end
    return out[3:]


def equation(named, name):
    """What a declaration says behind its `=`, with its variables, its comments and its `unfolding`."""
    notes, lines = named[name]
    unfolding = [line for line in lines if line.startswith("unfolding ")]
    body = "\n".join(line for line in lines if not line.startswith("unfolding "))
    m = re.search(r"^" + re.escape(name) + r"((?: (?!:)[^\s=]+)*) =", body, re.M)
    return notes, unfolding, m[1].split(), body[m.end() :].strip()


def answers_of(function, names, args, named):
    loops = names.of["loops"]
    rest = args[2 * len(loops) :]
    if len(rest) != len(names.needs):
        sys.exit(f"{function}: {len(rest)} arguments, {len(names.needs)} goals")
    for k, arg in enumerate(rest):
        first = arg.strip("()").split()[0]
        if first in named:
            notes, unfolding, _, inside = equation(named, first)
        else:
            inner = turns.lambda_of(arg)
            notes, unfolding, inside = [], [], inner[1] if inner else arg
        if inside in turns.TRIVIAL:
            continue
        inside = turns.turn_body(inside, k, names, "c")
        # of what is asked, the first part was that the measure falls
        inside = re.sub(r"c\.requires\.1(?!\w)", "c.ASKED", inside)
        inside = re.sub(r"c\.requires\.0(?!\w)", "c.decreases", inside).replace("c.ASKED", "c.requires")
        goal = f"{function}-{names.needs[k][1]}"
        start = "\n    " if inside.startswith("let ") and "\n" in inside else " "
        yield notes + [f"pub {goal} : goal.{goal}"] + unfolding + [f"{goal} t c ={start}{inside.rstrip()}", ""]


def main():
    crate, listed, folder = sys.argv[1], json.load(open(sys.argv[2], encoding="utf-8")), sys.argv[3]
    name = os.path.basename(os.path.abspath(crate))
    where = os.path.join(crate, "proofs", folder)
    uses, heading, named, spec = [], [], {}, ""
    for notes, lines, first in turns.blocks(open(os.path.join(where, "Proof.antt"), encoding="utf-8").read()):
        body = "\n".join(lines)
        if lines and lines[0].startswith("use "):
            heading, uses = heading + notes, uses + [line for line in lines if line.strip()]
        elif "lts.spec" in body and "close" in body:
            spec = body
        else:
            named[first] = (notes, lines)
    functions = [key.split(".Lts-")[1] for key in listed if folder in key and ".Lts-" in key]
    out, measures = [], []
    for m in re.finditer(r"([\w-]+)-lts\.spec", spec):
        function = next(f for f in functions if turns.norm(f) == turns.norm(m[1]))
        names = turns.Names(listed[f"Rattle-{name}-proofs.{folder}.Lts-{function}"])
        args = spec_arguments(spec, m.end())
        for lines in answers_of(function, names, args, named):
            out += lines
        for loop, pair in zip(names.of["loops"], zip(args[::2], args[1::2])):
            for kind, arg in zip(("invariant", "decreases"), pair):
                _, _, variables, inside = equation(named, arg)
                measures += [f"-- {kind}-{function}-{loop[0][1]}, of {' '.join(variables)}:", *(f"-- {line}" for line in inside.split("\n"))]
    for first in named:
        if first.startswith("μ-"):
            measures += ["-- " + line for line in named[first][1] if line.strip()]
    uses = [u for u in uses if not re.search(r"(Reads|Kinds|Lts\S*) as |\.(Statement|Tie)\.|\.\{statement\}|PlainCycle|Fn\.Kinds", u)]
    uses.append("use borrow.Enum.Refused.{opened}")
    text = "\n".join(out)
    module = f"Rattle.{name}.proofs.{folder}"
    with open(os.path.join(where, "Answers.antt"), "w", encoding="utf-8") as it:
        it.write("\n".join(heading + [u for u in uses if turns.used_in(u, text)] + [f"use {module}.Goals as goal", "", text.rstrip()]) + "\n")
    with open(os.path.join(where, "Invariants.antt"), "w", encoding="utf-8") as it:
        it.write("\n".join([f"use {module}.Given as goal", "", *measures]) + "\n")


if __name__ == "__main__":
    main()
