#!/usr/bin/env python3
"""Brings the repository's own definitions and lemmas to today's spelling, after port.py: run once, at the top.

usage: python3 tools/respell.py [--table]      --table prints old and new names and changes nothing

A name in camel case that begins small, and a label or lemma with dashes, goes to snake case. A dash stays only where it joins two names that are
defined somewhere (as in length-append). Types and modules keep their capitals. What the kit calls so, and what the check makes (goals, steps of the
code), keeps its spelling. Functions of src/ are in snake case already. Comments, must-fail edits and clauses follow the same table.
"""

import os
import re
import sys

WORD = r"[A-Za-z0-9_'◌⁻₀-₉→←⇒≤≡<∷+]"
TOKEN = re.compile(r"[A-Za-z_][A-Za-z0-9_']*(?:-[A-Za-z0-9_']+)*")
DECLARED = re.compile(r"^(?:(?:abbrev|unfoldable)\s+)?(?:pub\s+)?(?:(?:abbrev|unfoldable)\s+)?([A-Za-z_][A-Za-z0-9_'-]*)\s*:(?!:)")
FIELD = re.compile(r"^\s+(?:pub\s+)([A-Za-z_][A-Za-z0-9_'-]*)\s*:")
HEAD = re.compile(r"^(?:pub\s+)?(?:record|data)\s+([A-Za-z_][A-Za-z0-9_'-]*)")
CASE = re.compile(r"^\s+([A-Za-z_][A-Za-z0-9_'-]*)\s*:")
USE = re.compile(r"^\s*(?:pub\s+)?(?:ghost\s+)?use\s+([^\s{;]+)\.\{([^}]*)\}")
# Where two names would fall together. A lemma that would have its function's name gets _lem.
APART = {
    "bit-or": "bit-or", "bit-and": "bit-and", "empty-store": "empty_store_lem", "cell_in": "cell_in_lem", "store_in": "is_store_in", "sheet-at": "sheet_at_is",
    "first-fault": "at_first_fault", "count-bytes": "count_bytes_shown", "domain-bytes": "domain_bytes_shown", "dead-first": "dead_first_shown",
    "other-hands": "other_hands_shown", "of-sheet": "each_sheet",
}
LOCAL = {
    "model/proofs/WrittenOut.antt": {"written_row": "row_written"},
    "book/proofs/Places.antt": {"wrong_byte": "byte_wrong"},
    "cover/proofs/Covers.antt": {"is_set": "set_is"},
}
# Names of the kit that the dash rule knows as names.
KIT_WORDS = {"length", "append", "set", "take", "drop", "map", "get_or", "eqb", "ltb", "sum", "reverse"}


def files(top):
    for at, dirs, names in os.walk(os.path.join(top, "crates")):
        dirs[:] = sorted(d for d in dirs if d != "out")
        for n in sorted(names):
            if n.endswith((".antt", ".rt", ".edit")):
                yield os.path.join(at, n)


def read(path):
    with open(path, encoding="utf-8") as f:
        return f.read()


def own(module, crates):
    parts = re.split(r"[.·]", module)
    return len(parts) > 1 and parts[0] == "Rattle" and parts[1] in crates


def declared(top):
    """The names that specs/ and the lemma files of proofs/ declare at the top, and labels and cases of records and data."""
    crates = set(os.listdir(os.path.join(top, "crates")))
    names, labels, kit = {}, set(), {}
    for path in files(top):
        text = read(path)
        if path.endswith(".edit"):
            continue
        imported = set()
        for line in text.split("\n"):
            u = USE.match(line)
            if u and not own(u.group(1), crates):
                for it in u.group(2).split(","):
                    imported.add(it.strip().split(" as ")[0])
        kit[path] = imported
        if not path.endswith(".antt"):
            continue
        proof = os.path.basename(path) in ("Proof.antt", "Answers.antt", "Invariants.antt") and "/proofs/" in path and len(os.path.relpath(path, top).split("/")) > 4
        inside = None
        for line in text.split("\n"):
            h = HEAD.match(line)
            if h:
                inside = "data" if "data" in line.split(h.group(1))[0] else "record"
                names.setdefault(h.group(1), set()).add(path)
                continue
            if line and not line[0].isspace():
                inside = None
            d = DECLARED.match(line)
            if d and not proof:
                names.setdefault(d.group(1), set()).add(path)
            f = FIELD.match(line)
            if f and not proof:
                names.setdefault(f.group(1), set()).add(path)
                if inside == "record":
                    labels.add(f.group(1))
            elif inside and CASE.match(line) and not proof:
                names.setdefault(CASE.match(line).group(1), set()).add(path)
    return names, labels, kit


def snake(part):
    # The kit's getD is get_or today.
    part = part.replace("getD", "get_or")
    part = re.sub(r"(?<=[a-z0-9])([A-Z])", r"_\1", part)
    return part.lower()


def spelt(name, known, labels):
    if name[0].isupper():
        # A law of a fact keeps the fact's capitals.
        if "-" not in name:
            return name
        parts = name.split("-")
        return parts[0] + "".join("-" + snake(p) if i == 0 and p in known else "_" + snake(p) for i, p in enumerate(parts[1:]))
    parts = [p if p[0].isupper() else snake(p) for p in name.split("-")]
    if name in labels:
        return "_".join(p if p[0].isupper() else p for p in parts)
    out = parts[0]
    for a, b in zip(parts, parts[1:]):
        joins = a in known and b in known
        out += ("-" if joins else "_") + b
    return out


def table(top):
    names, labels, kit = declared(top)
    specs = {n for n in names if n not in labels and any("/specs/" in p for p in names[n])}
    known = {snake(n) if n[0].islower() else n for n in specs if "-" not in n} | KIT_WORDS
    turned = {}
    for n in names:
        t = spelt(n, known, labels)
        if t != n:
            turned[n] = t
    turned.update(APART)
    return turned, names, kit


def main(argv):
    top = os.getcwd()
    turned, names, kit = table(top)
    here = os.path.join(os.path.dirname(os.path.realpath(__file__)), "respelled.tsv")
    if "--table" in argv:
        for a, b in sorted(turned.items()):
            print(f"{a}\t{b}")
        return 0
    if os.path.isfile(here):
        with open(here, encoding="utf-8") as f:
            turned = dict(line.rstrip("\n").split("\t") for line in f if line.strip())
    specs = re.compile(r"\b([a-z][A-Za-z0-9_]*(?:-[A-Za-z0-9_]+)*)-spec\b")
    n = 0
    for path in files(top):
        text = read(path)
        stays = kit.get(path, set())
        local = next((d for end, d in LOCAL.items() if path.endswith(end)), {})
        new = TOKEN.sub(lambda m: m.group(0) if m.group(0) in stays else local.get(m.group(0)) or turned.get(m.group(0), m.group(0)), text)
        if path.endswith("Proof.antt"):
            new = specs.sub(lambda m: m.group(1).replace("-", "_") + "_spec", new)
        if new != text:
            n += 1
            with open(path, "w", encoding="utf-8") as f:
                f.write(new)
    print(f"respell: {len(turned)} names, {n} files")
    return 0


if __name__ == "__main__":
    raise SystemExit(main(sys.argv[1:]))
