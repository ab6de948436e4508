#!/usr/bin/env python3
"""Moves the theorems of a file of specs/ to a file of the same name in proofs/, and keeps the definitions that are named.

usage: tools/move_theorems.py CRATE MODULE [NAME..]     at the top of the repository

Each file that takes a theorem from the module is told where it stands now.
"""

import glob
import os
import re
import sys

from answers_of_proofs import write
from respell_names import WORD, read


def blocks(lines, indent):
    """Lines in parts: a part begins at a line of this indent after a blank line."""
    out, now = [], []
    for line in lines:
        begins = line.strip() and len(line) - len(line.lstrip()) <= indent and (not now or now[-1] == "")
        if begins and any(l.strip() for l in now):
            out.append(now)
            now = []
        now.append(line)
    if any(l.strip() for l in now):
        out.append(now)
    for part in out:
        while part and part[-1] == "":
            part.pop()
        while part and part[0] == "":
            part.pop(0)
    return out


def names(part):
    got = set()
    for line in part:
        it = re.match(rf"\s*(?:(?:abbrev|unfoldable|pub|record|data) )*({WORD})(?: \(.*\)| \{{.*\}})*(?: :|$| \()", line)
        if it:
            got.add(it[1])
    return got


def split(parts, keep, indent=0):
    specs, proofs = [], []
    for part in parts:
        at = next((k for k, l in enumerate(part) if not l.strip().startswith("--")), 0)
        head = part[at] if part else ""
        if re.match(r"\s*module _ .*where$", head) or (re.match(r"\s*module _", head)):
            end = next(k for k in range(at, len(part)) if part[k].rstrip().endswith("where"))
            inner = blocks(part[end + 1 :], indent + 2)
            a, b = split(inner, keep, indent + 2)
            for side, into in ((a, specs), (b, proofs)):
                if side:
                    lead = part[: end + 1] if into is proofs or not b else part[at : end + 1]
                    lines = list(lead)
                    for k, one in enumerate(side):
                        lines += ([""] if k else []) + one
                    into.append(lines)
            continue
        (specs if names(part) & keep else proofs).append(part)
    return specs, proofs


def declared(parts):
    """The public names that other files may take: of a record its name, of a data its constructors too."""
    out = set()
    for part in parts:
        inside = None
        for line in part:
            indent = len(line) - len(line.lstrip())
            if inside is not None and line.strip() and indent <= inside[0]:
                inside = None
            it = re.match(rf"\s*(?:(?:abbrev|unfoldable) )*(?:pub )?(record|data) (?:pub )?({WORD})", line)
            if it:
                if "pub" in line.split(it[2])[0]:
                    out.add(it[2])
                inside = (indent, it[1])
                continue
            if inside and inside[1] == "record":
                continue
            if inside and (c := re.match(rf"\s+({WORD})(?: {WORD})* :", line)):
                out.add(c[1])
                continue
            it = re.match(rf"\s*(?:(?:abbrev|unfoldable) )*pub ({WORD})", line)
            if it and it[1] not in ("record", "data"):
                out.add(it[1])
    return out


def imports(head, body, crate, is_specs):
    """The lines above the body, with the names that it has."""
    used = set(re.findall(WORD, re.sub(r"--[^\n]*", "", body)))
    out = []
    for line in head:
        it = re.match(r"((?:pub )?use )([^{]*)\.\{([^}]*)\}$", line)
        if not it:
            if line.startswith("use ") and line.split(" as ")[-1].split(".")[-1] not in used:
                continue
            out.append(line)
            continue
        if is_specs and it[2].startswith(f"Rattle.{crate}.proofs"):
            continue
        names = [w.strip() for w in it[3].split(",")]
        there = [w for w in names if w.split(" as ")[-1].strip() in used or "◌" in w or w in ("[]",)]
        if there:
            out.append(f"{it[1]}{it[2]}.{{{', '.join(there)}}}")
    return out


def main():
    crate, module, keep = sys.argv[1], sys.argv[2], set(sys.argv[3:])
    path = f"crates/{crate}/specs/{module}.antt"
    lines = read(path).rstrip("\n").split("\n")
    end = max(k for k, l in enumerate(lines) if l.startswith("use ")) + 1
    head, body = lines[:end], lines[end:]
    specs, proofs = split(blocks(body, 0), keep)
    kept = declared(specs)
    moved = declared(proofs)
    text = lambda parts: "\n\n".join("\n".join(p) for p in parts)
    own = [f"use Rattle.{crate}.specs.{module}.{{{', '.join(sorted(kept))}}}"] if kept else []
    os.makedirs(f"crates/{crate}/proofs", exist_ok=True)
    write(f"crates/{crate}/proofs/{module}.antt", "\n".join(imports(head + own, text(proofs), crate, False)) + "\n\n" + text(proofs) + "\n")
    lib = f"crates/{crate}/proofs/Lib.antt"
    had = read(lib) if os.path.isfile(lib) else ""
    write(lib, had + f"pub mod {module}\n")
    specs_lib = f"crates/{crate}/specs/Lib.antt"
    if kept:
        write(path, "\n".join(imports(head, text(specs), crate, True)) + "\n\n" + text(specs) + "\n")
    else:
        os.remove(path)
        write(specs_lib, re.sub(rf"(?m)^pub mod {module}\n", "", read(specs_lib)))

    def told(it):
        pub, wanted = it[1] or "", [w.strip() for w in it[2].split(",")]
        name = lambda w: w.split(" as ")[0].strip()
        there = [w for w in wanted if name(w) in moved]
        here = [w for w in wanted if name(w) not in moved]
        out = []
        if here:
            out.append(f"{pub}use Rattle.{crate}.specs.{module}.{{{', '.join(here)}}}")
        if there:
            out.append(f"{pub}use Rattle.{crate}.proofs.{module}.{{{', '.join(there)}}}")
        return "\n".join(out)

    for file in glob.glob("crates/**/*.antt", recursive=True) + glob.glob("crates/**/*.rt", recursive=True):
        if "/out/" in file:
            continue
        was = read(file)
        now = re.sub(rf"(?m)^(pub )?use Rattle\.{crate}\.specs\.{module}\.\{{([^}}]*)\}}", told, was)
        if now != was:
            write(file, now)
        if re.search(rf"Rattle\.{crate}\.specs\.{module}(?!\.\{{)", now) and file.endswith(".antt"):
            print("look:", file)
    print(f"{crate}.{module}: kept {sorted(kept)}; moved {len(moved)} public names")


if __name__ == "__main__":
    main()
