#!/usr/bin/env python3
"""Spells the project's own definitions and lemmas as today's Rattle does: words in snake case, with `_` where `-` stood.

usage: python3 tools/spell.py        at the top of the repository, once, after /opt/rattle/port/port.py

It gathers what crates/*/specs and crates/*/proofs declare (definitions, lemmas, fields, local names, aliases), and
rewrites those names in specs/, proofs/, src/ (clauses and ghost lines) and must-fail/ of every crate. Types and modules,
which are in camel case, stay, and so do the one-letter symbols of the documents (d, S, C, B, W, and P and N), names
that begin with an operator, strings, and prose in comments but for what stands between backticks.
Where a lemma would get the name of a definition it gets `_lem` behind it; FIELDS has two fields of that kind. It stops
where two names would fall together all the same. What it renamed stands in tools/spelled.tsv.
"""
import collections
import glob
import os
import re
import sys

PART = r"[^\s(){}\[\],;.:`\"]+"
DELIMITER = re.compile(r"([\s(){}\[\],;.`\"]+)")
DELIMITER_RT = re.compile(r"([\s(){}\[\],;.`\"&:<>=!|/]+)")
# words that std spells another way now, as a part of a longer name
WORDS = {"getD": "get_or"}
# names of the toolchain's that the project declares nowhere, or passes on
FOREIGN = {"eq-eqb"}
# fields that would get the name of the definition that they speak of
FIELDS = {"short-book": "short_book_is", "five-lines": "five_lines_are"}
# records whose fields have the names of the functions that they speak of, as a module stands beside a field of its name
CALLS = {"crates/promises/specs/Inner.antt", "crates/promises/specs/EveryCall.antt"}


def spelled(name):
    if not re.match(r"^[A-Za-z][\w'⁺⁻ᴰ₀-₉ℤℕ-]*$", name):
        return name
    parts = []
    for part in name.split("-"):
        for old, new in WORDS.items():
            part = new if part == old else part
        if len(part) > 1 and part[0].islower():
            part = re.sub(r"(?<=[a-z0-9A-Z])([A-Z])", lambda m: "_" + m[1].lower(), part)
        parts.append(part)
    if len(parts) == 1 and name[0].isupper():
        return name
    return "_".join(parts)


def declared():
    """Every name that the project declares, with the files that do."""
    found = collections.defaultdict(set)
    files = glob.glob("crates/*/specs/**/*.antt", recursive=True) + glob.glob("crates/*/proofs/*.antt")
    for path in sorted(files):
        for line in open(path, encoding="utf-8"):
            if line.lstrip().startswith("--"):
                continue
            alias = re.match(r"^(?:pub )?use \S+ as (\S+)$", line.rstrip())
            if alias:
                found[alias[1]].add(path)
                continue
            if line.startswith(("use ", "pub use ", "mod ", "pub mod ")):
                for pair in re.finditer(r"\bas (" + PART + ")", line):
                    found[pair[1]].add(path)
                continue
            head = re.match(r"^\s*(?:unfoldable )?(?:abbrev )?(?:pub )?(?:(?:data|record|ruleset) )?(?:pub )?((?:" + PART + r"\s)+?)(?::|=)\s", line)
            record = re.match(r"^\s*(?:pub )?(?:data|record) (" + PART + ")", line)
            if record:
                found[record[1]].add(path)
            elif head:
                for name in head[1].split():
                    found[name].add(path)
    return found


def apart(names, table):
    """A name that would fall together with a definition's gets `_lem` behind it."""
    back = collections.defaultdict(list)
    for name in names:
        back[table.get(name, name)].append(name)
    for new, olds in back.items():
        defined = [o for o in olds if "-" not in o and any("/specs/" in p for p in names[o])]
        for old in olds if defined else ():
            if old not in defined and names[old] - CALLS:
                table[old] = FIELDS.get(old, new + "_lem")


def rewritten(text, table, is_rust):
    delimiter = DELIMITER_RT if is_rust else DELIMITER
    mark = "//" if is_rust else "--"
    lines = []
    for line in text.split("\n"):
        if line.lstrip().startswith(mark):
            line = re.sub(r"`[^`]*`", lambda m: "".join(table.get(t, t) for t in delimiter.split(m[0])), line)
        elif is_rust and re.search(r'b?"', line):
            pieces = re.split(r'("(?:[^"\\]|\\.)*")', line)
            line = "".join(p if i % 2 else "".join(table.get(t, t) for t in delimiter.split(p)) for i, p in enumerate(pieces))
        else:
            line = "".join(table.get(t, t) for t in delimiter.split(line))
        lines.append(line)
    return "\n".join(lines)


def main():
    names = declared()
    table = {n: spelled(n) for n in names if spelled(n) != n and n not in FOREIGN}
    apart(names, table)
    files = []
    for top in ("specs", "proofs", "src", "must-fail"):
        files += [p for e in ("antt", "rt", "edit") for p in glob.glob(f"crates/*/{top}/**/*.{e}", recursive=True)]
    bad = 0
    for path in sorted(files):
        text = open(path, encoding="utf-8").read()
        tokens = set(DELIMITER.split(text))
        for line in text.split("\n"):
            foreign = re.match(r"^(?:ghost |pub )*use (?!Rattle\.(?:" + "|".join(os.listdir("crates")) + r")\.)(\S+)\.\{(.*)\}", line)
            if foreign:
                for it in foreign[2].split(","):
                    if it.strip() in table:
                        print(f"foreign: {path}: {it.strip()} of {foreign[1]}")
                        bad += 1
        for old in tokens & set(table) if path not in CALLS and path.endswith(".antt") and "/Proof." not in path else ():
            if table[old] in tokens:
                print(f"together: {path}: {old} and {table[old]}")
                bad += 1
    if bad and "--force" not in sys.argv:
        return 1
    if "--dry" in sys.argv:
        return 0
    for path in files:
        text = open(path, encoding="utf-8").read()
        new = rewritten(text, table, path.endswith(".rt"))
        if new != text:
            open(path, "w", encoding="utf-8").write(new)
    with open("tools/spelled.tsv", "w", encoding="utf-8") as f:
        f.writelines(f"{o}\t{n}\n" for o, n in sorted(table.items()))
    print(f"{len(table)} names")
    return 0


if __name__ == "__main__":
    raise SystemExit(main())
