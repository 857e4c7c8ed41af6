#!/usr/bin/env python3
"""Brings the names of this repository's own definitions and lemmas to the spelling of today's Rattle, after port.py.

usage: python3 tools/respell.py            at the top of the repository, once, on what port.py left

Words are written in snake case: a definition `placeCount` becomes `place_count`, a lemma `recordFields-comma` becomes `record_fields-comma`; types, modules and
constructors that begin with a capital keep their names, and so do functions of src/. Where a lemma had the name that a definition gets, the lemma's name gets
`-law` behind it. The proof of a function f is named f_spec. Modules named Contracts, a word that Rattle keeps, are named Ensured, and the crate csv, whose name a
library of the kit has, is csv_records.
"""

import glob
import os
import re

# Lemmas that have the name which a definition gets.
FALL_TOGETHER = ["first_field", "in_order", "row_from", "list_length", "other_width", "base_word", "both_end", "after_first", "last_entry"]
FALL_TOGETHER_IN = {"crates/cases/": ["goes_on"]}

# What follows and goes before a name in antt and in clauses.
PART = r"A-Za-z0-9_'₀₁₂₃₄₅₆₇₈₉′·-"
TOKEN = re.compile("[A-Za-z][" + PART + "]*")


def files(*ends):
    for folder, dirs, names in os.walk("crates"):
        dirs[:] = sorted(d for d in dirs if d != "out")
        for name in sorted(names):
            if name.endswith(ends):
                yield os.path.join(folder, name)


def read(path):
    with open(path, encoding="utf-8", newline="") as f:
        return f.read()


def write(path, text):
    with open(path, "w", encoding="utf-8", newline="") as f:
        f.write(text)


def snake(name):
    name = re.sub(r"\bgetD\b", "get_or", name)
    return re.sub(r"(?<=[a-z0-9])([A-Z])", lambda m: "_" + m.group(1).lower(), name)


def is_camel(token):
    return re.match(r"^[a-z][a-z0-9]*[A-Z]", token) is not None


def code_of(line):
    """A line of antt without its comment."""
    return "" if line.lstrip().startswith("--") else line.split(" -- ")[0]


def camel_names():
    names = set()
    for path in files(".antt"):
        for line in read(path).split("\n"):
            names.update(t for t in TOKEN.findall(code_of(line)) if is_camel(t))
    return names


def laws(path, text):
    for name in FALL_TOGETHER + [n for folder, ns in FALL_TOGETHER_IN.items() if path.startswith(folder) for n in ns]:
        text = re.sub(r"(?<![." + PART + r"])" + name + r"(?![." + PART + r"])", name + "-law", text)
    return text


def rename(text, names):
    return TOKEN.sub(lambda m: snake(m.group(0)) if m.group(0) in names else m.group(0), text)


def spec_names(path, text):
    want = os.path.basename(os.path.dirname(path)).lstrip("+") + "_spec"
    m = re.search(r"^pub (\S+) : \{M : Type 1\} → statement M", text, re.M)
    if m and m.group(1) != want:
        text = re.sub(r"(?<![." + PART + "])" + re.escape(m.group(1)) + r"(?![" + PART + "])", want, text)
    return text


def crate_names(text):
    text = re.sub(r"\bRattle\.csv\.", "Rattle.csv_records.", text)
    return re.sub(r"(?<![\w.])csv(?=::)", "csv_records", text)


def main():
    os.rename("crates/csv", "crates/csv_records")
    listed = read("crates.txt")
    write("crates.txt", "\n".join(re.sub(r"(?<![\w])csv(?![\w])", "csv_records", line) if not line.startswith("#") else line for line in listed.split("\n")))
    names = camel_names()
    contracts = [p for p in files("Contracts.antt") if os.path.basename(p) == "Contracts.antt"]
    for path in list(files(".antt", ".rt", ".edit")):
        text = old = read(path)
        if path.endswith(".antt") or path.endswith(".edit") and "specs/" in text:
            text = laws(path, text)
        if path.endswith("Proof.antt"):
            text = spec_names(path, text)
        text = crate_names(rename(text, names))
        text = re.sub(r"use Rattle\.std\.proofs\.Math\.Logic\.\{(Dec[.·](and|not|or)(, )?)+\}", "use Rattle.std.proofs.Math.Logic.Dec", text)
        text = re.sub(r"\bDec·(and|not|or)\b", r"Dec.\1", text)
        text = re.sub(r"(\bspecs\.)Contracts\b", r"\1Ensured", text)
        if path.endswith("Lib.antt"):
            text = re.sub(r"^(pub )?mod Contracts$", r"\1mod Ensured", text, flags=re.M)
        if path.endswith(".edit"):
            text = text.replace("specs/Contracts.antt", "specs/Ensured.antt")
        if text != old:
            write(path, text)
    for path in contracts:
        os.rename(path, os.path.join(os.path.dirname(path), "Ensured.antt"))
    print(f"{len(names)} names in snake case, {len(contracts)} modules renamed")


main()
