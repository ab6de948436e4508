#!/usr/bin/env python3
"""Turns each proofs/F/Proof.antt that closes a Tie into Invariants.antt and Answers.antt.

usage: tools/answers_of_proofs.py NAMES CRATE..

NAMES is the folder that `rt names` wrote, CRATE a folder below crates/. A goal that was only searched for gets no answer.
"""

import glob
import json
import os
import re
import sys

from respell_names import WORD, read

plain = lambda it: re.sub("_lem$", "", it).replace("_", "-").lower()


def write(path, text):
    with open(path, "w", encoding="utf-8") as it:
        it.write(text)


def items(text):
    """The parts of a file: (name or None, text)."""
    out, now = [], []
    for line in text.split("\n"):
        if line == "":
            if now:
                out.append("\n".join(now))
            now = []
        else:
            now.append(line)
    if now:
        out.append("\n".join(now))
    # a part that goes on after a blank line is indented
    joined = []
    for part in out:
        if joined and part.startswith(" "):
            joined[-1] += "\n\n" + part
        else:
            joined.append(part)
    return joined


class Function:
    def __init__(self, of):
        self.of = of
        self.places = {p[0]: (i, p) for i, p in enumerate(of["places"])}
        self.said = []

    def chain(self, place):
        while place in self.places:
            i, p = self.places[place]
            yield i, p
            place = p[1]

    def path(self, place, comps, where):
        """The new path for an old one, without c."""
        rest = [c for c in comps]
        up = 0
        while rest and rest[0] == "before":
            rest.pop(0)
            up += 1
        if not rest:
            self.said.append(f"{where}: c.{'.'.join(comps)} is a whole step")
            return ["before"] * up
        step = rest[0]
        if plain(step) == "well-formed":
            return ["well_formed"] + rest[1:]
        if step in ("args", "requires", "ranges", "well_formed", "utf8", "captures"):
            return rest
        chain = list(self.chain(place))
        found = None
        for i, p in chain:
            if plain(p[2][0]) == plain(step):
                found = (i, p)
                break
        if not found and step.endswith("2") is False:
            for i, p in chain:
                if plain(p[2][0]).rstrip("0123456789") == plain(step).rstrip("0123456789"):
                    found = (i, p)
                    break
        if not found:
            self.said.append(f"{where}: no step {step} on the way to {place}")
            return rest
        i, p = found
        best = None
        for j, q in chain:
            arm = self.of["arms"][j]
            if not arm:
                continue
            for field, old, way in arm[2]:
                if plain(old) == plain(p[2][0]) and rest[1 : 1 + len(way)] == way:
                    if best is None or len(way) > best[0]:
                        best = (len(way), arm[0], field)
        if best:
            return [best[1], best[2]] + rest[1 + best[0] :]
        return [p[2][1]] + rest[1:]

    def body(self, text, place, where):
        def one(it):
            comps = it[0].split(".")[1:]
            return ".".join(["c"] + self.path(place, comps, where))

        # a step that has a name of its own: what is read off it is read off c
        alias = re.compile(rf"let ({WORD}) = c((?:\.before)+) in\s*")
        while it := alias.search(text):
            rest = re.sub(rf"(?<![\w.'-]){re.escape(it[1])}(?=\.)", "c" + it[2], text[it.end() :])
            text = text[: it.start()] + rest
        return re.sub(rf"(?<![\w.'-])c(?:\.{WORD})+", one, text)


def invariant(text, function, kind, k):
    """The invariant or measure of loop k over the record of its variables."""
    (old, new), variables = function.of["loops"][k]
    changed = function.of["changed"][k]
    head, _, body = text.partition(" =")
    lines = head.split("\n")
    params = lines[-1].split()[1:]
    values = [f"l.initial.{v}" if c else f"l.{v}" for v, c in zip(variables, changed)]
    values += [f"l.{v}" for v, c in zip(variables, changed) if c]
    if len(params) != len(values):
        function.said.append(f"{kind}-{new}: {len(params)} parameters for {len(values)} values")
    to = {p: v for p, v in zip(params, values) if p != "_"}
    body = re.sub(rf"(?<![\w.'-])({WORD})", lambda it: to.get(it[1], it[1]), body)
    unfold = "\n".join(l for l in lines if l.startswith("unfolding"))
    return f"abbrev pub {kind}-{new} : goal.{kind}-{new}\n" + (unfold + "\n" if unfold else "") + f"{kind}-{new} l ={body}\n"


def turn(folder, path, names, crate):
    text = read(path)
    key = f"Rattle-{crate}-proofs.{folder.replace('/', '.')}.Lts"
    if key not in names:
        return [f"no names for {key}"]
    function = Function(names[key])
    needs = {plain(old): (new, k) for k, (old, new) in enumerate(function.of["needs"])}
    loops = {plain(l[0][0]): k for k, l in enumerate(function.of["loops"])}
    base = f"Rattle.{crate}.proofs.{folder.replace('/', '.')}"
    comment, uses, invariants, answers, dropped = [], [], [], [], 0
    for part in items(text):
        while part.startswith("--"):
            line, _, part = part.partition("\n")
            (comment if not uses else answers).append(line)
            if uses:
                pass
        if not part:
            continue
        if part.startswith("use "):
            uses += [l for l in part.split("\n") if not re.search(r"\.Tie as |\.Statement\.", l)]
            continue
        it = re.match(rf"(?:abbrev )?(?:pub )?({WORD}) :\s+tie\.({WORD})", part)
        if it and it[2].startswith(("invariant-", "decreases-")):
            kind, _, loop = it[2].partition("-")
            invariants.append(invariant(part, function, kind, loops[plain(loop)]))
            continue
        if re.match(rf"pub {WORD} : \{{M : Type 1\}}", part):
            continue
        if it and it[2].startswith("Need-"):
            # the signature may run over several lines, up to the clause or `unfolding`
            lines = part.split("\n")
            at = next(n for n, l in enumerate(lines) if n and not l.startswith(" ") )
            name = it[1]
            entry = needs.get(plain(name)) or needs.get(plain(it[2][5:]))
            rest = lines[at:]
            if re.fullmatch(rf"{re.escape(name)}( c)?( κs)? =\s+search rules", "\n".join(rest)):
                dropped += 1
                continue
            if not entry:
                function.said.append(f"no goal for {name}")
                answers.append("-- NO GOAL\n" + part)
                continue
            new, k = entry
            place = function.of["asked_at"][k][0]
            out = [f"pub {new} : goal.{new}"]
            block = "\n".join(rest)
            block = re.sub(rf"(?m)^{re.escape(name)} c( κs)?(?= |$)", f"{new} c", block)
            block = re.sub(rf"(?m)^{re.escape(name)}(?= )", f"{new}", block)
            out.append(function.body(block, place, new))
            answers.append("\n".join(out))
            continue
        answers.append(part)
    if invariants:
        write(os.path.join(os.path.dirname(path), "Invariants.antt"), "\n".join(comment + uses + [f"use {base}.Given as goal", ""]) + "\n" + "\n".join(invariants))
    if any(re.match(r"pub ", a) for a in answers):
        write(os.path.join(os.path.dirname(path), "Answers.antt"), "\n".join(comment + uses + [f"use {base}.Goals as goal", ""]) + "\n" + "\n\n".join(answers) + "\n")
    elif any(not a.startswith("--") for a in answers):
        function.said.append("only helpers are left")
    os.remove(path)
    return function.said


def turn_cycle(folder, path, names, crate):
    """A cycle's functions have goals of their own, each under its function's name, and measures over their arguments."""
    text = read(path)
    base = f"Rattle.{crate}.proofs.{folder}"
    key = f"Rattle-{crate}-proofs.{folder}.Lts-"
    of = {k[len(key) :]: Function(v) for k, v in names.items() if k.startswith(key)}
    needs, loops = {}, {}
    for f, function in of.items():
        for k, (old, new) in enumerate(function.of["needs"]):
            needs[plain(f + "-" + old)] = (f, new, k)
        for k, l in enumerate(function.of["loops"]):
            for kind, letter in (("invariant", "inv"), ("decreases", "μ")):
                loops[plain(f"{f}-{letter}-{l[0][0]}")] = (f, kind, k)
    comment, uses, invariants, answers, said = [], [], [], [], []
    for part in items(text):
        while part.startswith("--"):
            line, _, part = part.partition("\n")
            (comment if not uses else answers).append(line)
        if not part:
            continue
        if part.startswith("use "):
            uses += [l for l in part.split("\n") if not re.search(r"\.Tie\b|\{statement\}|\.Reads as |\.Kinds as |\.Lts-|borrow\.Fn\.", l)]
            continue
        name = re.match(rf"(?:abbrev )?(?:pub )?({WORD})", part)[1]
        body = part.split("\n")
        if plain(name) in loops:
            f, kind, k = loops[plain(name)]
            new = invariant(part, of[f], kind, k)
            loop = of[f].of["loops"][k][0][1]
            invariants.append(new.replace(f"{kind}-{loop}", f"{kind}-{f}-{loop}"))
            continue
        if re.match(r"(abbrev )?μ_", part):
            f = name[2:]
            measure = part.split("=", 1)[1].strip()
            measure = re.sub(r"a(\.\d)+", "l.n", measure)
            invariants.append(f"abbrev pub decreases-{f} : goal.decreases-{f}\ndecreases-{f} l = {measure}\n")
            continue
        if re.search(r"_(at|below|calls)$", name) and part.startswith("abbrev"):
            continue
        if name.startswith("+"):
            continue
        asked = re.search(r"\.Need-(?:overflow-)?([\w-]+)", part)
        if plain(name) not in needs and asked:
            f = next((f for f in sorted(of, key=len, reverse=True) if name.startswith(f + "_")), "")
            if plain(f + "-" + asked[1]) in needs:
                needs[plain(name)] = needs[plain(f + "-" + asked[1])]
        if plain(name) not in needs:
            if ".Need-" in part:
                said.append(f"no goal for {name}")
            answers.append(part)
            continue
        f, new, k = needs[plain(name)]
        at = next(n for n, l in enumerate(body) if n and not l.startswith((" ", ")")))
        block = "\n".join(body[at:])
        if re.fullmatch(rf"{re.escape(name)} t c( κs)? =\s+search rules", block):
            continue
        goal = f"{f}-{new}"
        block = re.sub(rf"(?m)^{re.escape(name)} t c( κs)?(?= |$)", f"{goal} t c", block)
        place = of[f].of["asked_at"][k][0]
        answers.append(f"pub {goal} : goal.{goal}\n" + of[f].body(block, place, goal))
    top = os.path.dirname(path)
    write(os.path.join(top, "Invariants.antt"), "\n".join(comment + uses + [f"use {base}.Given as goal", ""]) + "\n" + "\n".join(invariants))
    write(os.path.join(top, "Answers.antt"), "\n".join(comment + uses + [f"use {base}.Goals as goal", ""]) + "\n" + "\n\n".join(answers) + "\n")
    os.remove(path)
    return said + [l for f in of.values() for l in f.said]


def main():
    folder, crates = sys.argv[1], sys.argv[2:]
    for crate in crates:
        top = crate.rstrip("/")
        name = os.path.basename(top)
        names = json.loads(read(os.path.join(folder, "crates", name, "names.json")))
        for path in sorted(glob.glob(f"{top}/proofs/**/Proof.antt", recursive=True)):
            of = os.path.dirname(os.path.relpath(path, f"{top}/proofs"))
            if of.startswith("+"):
                for line in turn_cycle(of, path, names, name):
                    print(f"{name}: {of}: {line}")
                continue
            if "tie.close" not in read(path):
                print(f"{name}: {of}: closes no tie, by hand")
                continue
            for line in turn(of, path, names, name):
                print(f"{name}: {of}: {line}")


if __name__ == "__main__":
    main()
