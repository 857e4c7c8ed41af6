#!/usr/bin/env python3
"""Writes the repository's own names with underscores between plain words, after respell.py.

usage: python3 tools/dashes.py            at the top of the repository, once

A dash joins two names: `map-take` is on map and take, which both stand in its statement, and keeps it. Every other declaration of a .antt file whose name has dashes
gets underscores in their place: `way-empty` becomes `way_empty`. Where that is another declaration's name, or that of a function in the crate's src/, or it ended in
-law, it ends in _lem.
A constructor is no lemma: where its name would be a definition's, it gets another one, from a table. Goals, which Rattle names, and names that a file imports from
elsewhere keep their dashes, and so do the words of comments that are not in backticks.
"""

import collections
import glob
import re

# What stands in a name of antt, and a whole name.
PART = r"A-Za-z0-9_'₀₁₂₃₄₅₆₇₈₉→↔\-"
TOKEN = re.compile(r"(?<![" + PART + r"])[A-Za-z][" + PART + "]*")
WORD = re.compile(r"[A-Za-z0-9_'₀-₉]+")
DECLARED = re.compile(r"^\s*(?:(?:abbrev|unfoldable|pub|record|data)\s+)*([^\s:(){}=;]+) :(\s|$)")
COMMENT = re.compile(r"(?m)(^\s*--.*$| -- .*$|//.*$)")
QUOTED = re.compile(r"(`[^`]*`)")
FUNCTION = re.compile(r"\bfn ([a-z0-9_]+)")
IMPORTED = re.compile(r"^(?:ghost )?use (\S+?)\.\{([^}]*)\}", re.M)
OURS = re.compile(r"^Rattle\.(?!std\b|io\b|check\b|core\b)")
# Constructors whose names with underscores are those of definitions, by the modules that declare them.
CONSTRUCTORS = {
    "Rattle.code.specs.Definitions.Tables": {"no-word": "no_words"},
    "Rattle.code.specs.Laws.Openings": {"both-begin": "rivals_begin", "both-follow": "rivals_follow"},
}
GOAL = re.compile(
    r"^(returns|loop|overflow_\w+|bounds|offset_bounds|slice_bounds|shape_of|invariant|invariant_of|decreases|nonzero_\w+|In|After|At|then|else)(-|$)|-requires(-|$)"
)


def read(path):
    with open(path, encoding="utf-8", newline="") as f:
        return f.read()


def write(path, text):
    with open(path, "w", encoding="utf-8", newline="") as f:
        f.write(text)


def indent(line):
    return len(line) - len(line.lstrip())


def declarations(text):
    """The names that a .antt file declares, each with its statement."""
    lines = text.split("\n")
    for i, line in enumerate(lines):
        m = DECLARED.match(line)
        if m is None or line.lstrip().startswith("--") or re.search(r": (goal|tie)\.", line):
            continue
        statement = line[m.end(1) + 2 :]
        for later in lines[i + 1 :]:
            if not later.strip() or indent(later) <= indent(line):
                break
            statement += " " + later
        yield m.group(1), statement


def joins_names(name, statement):
    """Whether each part of the name stands in the statement, and not as a variable that it binds."""
    bound = {w for names in re.findall(r"[({]([^:(){}]*) :", statement) for w in names.split()}
    return all(part in WORD.findall(statement) and part not in bound for part in name.split("-"))


def imports(text):
    """What a file imports: the path, the name there, the name here."""
    for m in IMPORTED.finditer(text):
        for x in m.group(2).split(","):
            there, _, here = x.strip().partition(" as ")
            yield m.group(1), there, here or there


def new_names(files):
    statements = collections.defaultdict(list)
    crates = collections.defaultdict(set)
    functions = collections.defaultdict(set)
    taken = set()
    for path in files:
        text = read(path)
        crate = path.split("/")[1]
        if path.endswith(".antt"):
            for name, statement in declarations(text):
                statements[name].append(statement)
                crates[name].add(crate)
        if path.endswith(".rt"):
            functions[crate].update(FUNCTION.findall(text))
        taken.update(here for path, there, here in imports(text) if not OURS.match(path) or here != there)
    taken.update(n for n in statements if "-" not in n)
    names = {}
    for n in sorted(statements):
        if "-" not in n or not n[0].isalpha() or GOAL.search(n) or all(joins_names(n, s) for s in statements[n]):
            continue
        new = n.removesuffix("-law").replace("-", "_")
        lemma = n.endswith("-law") or new in taken or any(new in functions[c] for c in crates[n])
        names[n] = new + "_lem" if lemma else new
    # Two names would be one: that in which the dash joins two names keeps it.
    count = collections.Counter(names.values())
    names = {n: new for n, new in names.items() if count[new] == 1 or "_" not in n}
    assert len(set(names.values())) == len(names) and not set(names.values()) & taken
    return names


def rename(text, names):
    """The text with the new names: in code all over, in comments in backticks."""
    new = lambda s: TOKEN.sub(lambda m: names.get(m.group(0), m.group(0)), s)
    parts = COMMENT.split(text)
    quoted = lambda s: "".join(new(x) if x.startswith("`") else x for x in QUOTED.split(s))
    return "".join(quoted(x) if i % 2 else new(x) for i, x in enumerate(parts))


def constructors(path, text):
    """The names of the table that a file declares or imports."""
    here = "Rattle." + path.removeprefix("crates/").removesuffix(".antt").replace("/", ".")
    own = CONSTRUCTORS.get(here, {})
    return own | {there: CONSTRUCTORS[module][there] for module, there, _ in imports(text) if there in CONSTRUCTORS.get(module, {})}


def main():
    files = [p for p in sorted(glob.glob("crates/*/**/*", recursive=True)) if "/out/" not in p and p.endswith((".antt", ".rt", ".edit"))]
    names = new_names(files)
    for path in files:
        old = read(path)
        foreign = {there for module, there, _ in imports(old) if not OURS.match(module)}
        own = {n: new for n, new in names.items() if n not in foreign}
        text = rename(old, own | constructors(path, old))
        if text != old:
            write(path, text)
    print(f"{len(names)} names with underscores, {sum(new.endswith('_lem') for new in names.values())} of them with _lem")


main()
