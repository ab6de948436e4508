#!/usr/bin/env python3
"""Brings the names of this repository's own definitions and lemmas to snake case.

usage: tools/respell_names.py [--list]     at the top of the repository, once, after the kit's port.py

    firstPlace -> first_place, eq-or-less -> eq_or_less, x′ -> x'

Types, facts and the constructors that are named as the report's rules keep their capitals. A name that a file
takes from the library is left in that file. Prints what fell together; --list prints each name and writes nothing.
"""

import glob
import re
import sys

WORD = r"[^\s(){}.;,@\"«»\[\]\\|]+"
TOKEN = re.compile(r"--[^\n]*|//[^\n]*|\"(?:[^\"\\]|\\.)*\"|" + WORD)
HEAD = re.compile(r"^[ ]*(?:(?:abbrev|unfoldable|pub|record|data) )*(" + WORD + r")(?: |$)[^=\n]*?:|^[ ]*(?:pub )?(?:record|data) (?:pub )?(" + WORD + ")", re.M)
GIVEN = re.compile(r"use Rattle\.std\.[\w.]*\.\{([^}]*)\}|use (?:mathlib|native|Prim|lib|borrow|denote)[\w.]*\.\{([^}]*)\}")
# Laws that port.py, or their author, had in snake case already, as the definition that they speak of now is.
LAWS = {"is_declared", "kept_record", "kept_word", "room_word", "taken_at", "value_in"}
# Fields that may have one name, since no record has both.
FIELDS = {"heap-ok"}


def snake(name):
    name = name.replace("′", "'").replace("-", "_")
    if name[:1].islower() or name[:1] in "_":
        name = re.sub(r"(?<=[a-z0-9])([A-Z])", lambda it: "_" + it[1].lower(), name)
        name = re.sub(r"([A-Z])", lambda it: it[1].lower(), name)
    return name


def files(*kinds):
    return sorted(p for kind in kinds for p in glob.glob("crates/" + kind, recursive=True) if "/out/" not in p)


def read(path):
    with open(path, encoding="utf-8") as it:
        return it.read()


def defined(text):
    text = re.sub(r"--[^\n]*", "", text)
    yield from re.findall(rf"^ *(?:pub )?({WORD})\n +:", text, re.M)
    for it in HEAD.finditer(text):
        name = it[1] or it[2]
        if ": tie." not in it[0] + text[it.end() : it.end() + 8].split("\n")[0]:
            yield name


def of_library(text):
    return {w for it in GIVEN.finditer(text) for w in re.findall(WORD, it[1] or it[2])}


def table(texts):
    own = set()
    for path, text in texts.items():
        if path.endswith(".antt"):
            own.update(defined(text))
    turned = {n: snake(n) for n in own if snake(n) != n and re.search("[A-Za-z]", n)}
    turned = {n: t for n, t in turned.items() if not (n[:1].isupper() and "-" not in n and "′" not in n)}
    definitions = {t for n, t in turned.items() if "-" not in n} | {n for n in own if "-" not in n and n not in turned}
    for n, t in turned.items():
        if "-" in n and t in definitions and n not in FIELDS:
            turned[n] = t + "_lem"
    return turned


def laws_of(text):
    """The names of LAWS that a file declares, or takes from a file of laws."""
    taken = {w for it in re.finditer(r"use Rattle\.\w+\.specs\.\w*Laws\.\{([^}]*)\}", text) for w in re.findall(WORD, it[1])}
    return {n for n in LAWS if n in taken or re.search(rf"^ *(pub )?{n} : ", text, re.M)}


def tokens(text):
    return {t for t in TOKEN.findall(text) if not t.startswith(("--", "//", '"'))}


def fallen(texts, turned):
    """Names that two meanings would have after the turn."""
    by, kept = {}, {}
    for old, new in turned.items():
        by.setdefault(new, []).append(old)
    for path, text in texts.items():
        for t in tokens(text):
            kept.setdefault(t, set()).add(path)
    for new, olds in sorted(by.items()):
        if len(olds) > 1:
            yield f"{new}: {' '.join(sorted(olds))}"
        elif new in kept:
            both = [p for p in kept[new] if p in kept.get(olds[0], ())]
            if both:
                yield f"{new}: stands already, beside {olds[0]}, in {' '.join(sorted(both)[:4])}"


def turn(text, turned):
    def one(it):
        t = it[0]
        if t.startswith(("--", "//")):
            return re.sub(r"`([^`]+)`", lambda q: "`" + turn(q[1], turned) + "`", t)
        return t if t.startswith('"') else turned.get(t, t)

    return TOKEN.sub(one, text)


def turn_edit(text, turned):
    """An edit: only what it takes out and puts in is turned."""
    return "\n".join(turn(l, turned) if l.startswith(("old:", "new:")) else l for l in text.split("\n"))


def main():
    texts = {p: read(p) for p in files("*/specs/**/*.antt", "*/proofs/**/*.antt", "*/src/**/*.rt", "*/must-fail/*.edit")}
    turned = table(texts)
    for line in fallen(texts, turned):
        print("look:", line)
    if "--list" in sys.argv:
        for old, new in sorted(turned.items()):
            print(old, new)
        return
    for path, text in texts.items():
        for law in laws_of(text):
            text = re.sub(rf"(?<![\w.-]){law}(?![\w'-])", law + "_lem", text)
        mine = {o: n for o, n in turned.items() if o not in of_library(text)}
        new = (turn_edit if path.endswith(".edit") else turn)(text, mine)
        if new != texts[path]:
            with open(path, "w", encoding="utf-8") as it:
                it.write(new)


if __name__ == "__main__":
    main()
