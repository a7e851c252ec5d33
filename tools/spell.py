#!/usr/bin/env python3
"""Brings the names of this repository's own definitions and lemmas to one spelling: words in snake case, facts and types in camel case.

usage: tools/spell.py [--list]      at the top of the repository; --list only says what would change

It goes by text, once, over specs/, proofs/, the clauses of src/ and must-fail/. What Rattle makes stays as it is:
the names of goals and steps in Answers and Invariants. So do names that a file imports from a library, functions, strings and prose.
Where a new spelling would meet a name that stands already in a file, it says so and changes nothing.
"""
import collections
import glob
import os
import re
import sys

OWN = sorted(os.path.basename(os.path.dirname(d)) for d in glob.glob("crates/*/src"))
WORD = r"[^\s(){}\[\].;,@\"«»λ]+"
DASHED = re.compile(r"[\w'’ℕℤ∷]-[\w'’ℕℤ∷]")
PARTS = re.compile(r'"(?:[^"\\\n]|\\.)*"|--[^\n]*|//[^\n]*|' + WORD + r"|\s+|.", re.S)
IMPORT = re.compile(r"\buse ([^\s{};]+)\.\{([^}]*)\}")
# A lemma that would have the name of the function whose contract it proves, or of a word of the library, ends in _lem.
# The others would meet another name too, or hold a word of the library's that has a new name itself.
LEMMAS = """bit-or draft-round-trips drafts-classed foreign-lawful forest-laws languages-parts marks-small mended-again
orders-visible reaches-lawful repair-ends repaired-keeps respelled-once round-trips walk-laws written-is-short""".split()
OTHERWISE = {n: n.replace("-", "_") + "_lem" for n in LEMMAS} | {
    "Line-at": "IsLineAt",
    "any-getD": "any_get_or",
    "getD-places": "get_or_places",
}
# The records that answers are given.
GIVEN = ("c", "goal", "g", "l", "G")
# Names that two things may have: a module's, or a function's, which no clause can name, and its definition's.
SHARED = {"Round-trips", "kind-of", "same-sort", "stands-under", "class-reached"}


def texts():
    for pattern in ("crates/*/specs/**/*.antt", "crates/*/proofs/**/*.antt", "crates/*/src/**/*.rt", "crates/*/must-fail/*.edit"):
        yield from sorted(glob.glob(pattern, recursive=True))


def of_function(path):
    return os.path.basename(path) in ("Answers.antt", "Invariants.antt", "Choices.antt", "Proof.antt")


def is_own(path):
    return re.match(rf"Rattle[.·](?:{'|'.join(OWN)})\b", path) is not None


def respelled(name):
    if name in OTHERWISE:
        return OTHERWISE[name]
    if name[0].isupper():
        return "".join(p[:1].upper() + p[1:] for p in name.split("-"))
    return name.replace("-", "_")


def imported(text):
    names = set()
    for path, items in IMPORT.findall(text):
        if not is_own(path):
            for item in items.split(","):
                names.update(item.strip().split(" as "))
    return names


def code(text):
    """The text without its comments and strings."""
    return "".join(p if not p.startswith(("--", "//", '"')) else " " for p in PARTS.findall(text))


def words(text):
    return set(re.findall(WORD, code(text)))


def declared(path, text):
    """The dashed names that a file of specs or lemmas has, and those that answers declare for themselves."""
    found = {w for w in words(text) if DASHED.search(w) and not w.startswith("◌")} - imported(text)
    if of_function(path):
        heads = set(re.findall(rf"(?m)^\s*(?:abbrev |pub |unfoldable )*({WORD}) :", text))
        return {w for w in found if w in heads and w not in goals_of(text)}
    return found


def goals_of(text):
    """The names of the goals that answers answer."""
    return set(re.findall(rf"(?m)^\s*(?:abbrev |pub |unfoldable )*({WORD}) : goal\.", text))


def is_made(part, chain, goals):
    """Whether Rattle made the name: a goal's, or the first behind one of the records that answers are given."""
    return part in goals or chain[-1:] == ["."] and (chain[0] == "goal" or len(chain) == 2 and chain[0] in GIVEN)


def turn(path, text, table):
    """The text with the names of the table respelled."""
    keep = imported(text)
    answers = of_function(path)
    goals = goals_of(text) if answers else set()
    out = []
    # the dotted name that the text has just gone through, with its dots
    chain = []
    for part in PARTS.findall(text):
        if part == ".":
            chain.append(part)
        elif not re.fullmatch(WORD, part) or part.startswith(("--", "//")):
            chain = []
        else:
            if part in table and part not in keep and not (answers and is_made(part, chain, goals)):
                out.append(table[part])
            else:
                out.append(part)
            chain = (chain if chain[-1:] == ["."] else []) + [part]
            continue
        out.append(part)
    return "".join(out)


def main():
    files = {p: open(p, encoding="utf-8").read() for p in texts()}
    names = set()
    for path, text in files.items():
        if path.endswith(".antt"):
            names |= declared(path, text)
    table = {n: respelled(n) for n in names}
    clashes = collections.defaultdict(list)
    for path, text in files.items():
        has = words(text)
        seen = {}
        for n in sorted(has):
            m = table.get(n)
            if m is None or n in imported(text):
                continue
            if m in has and n not in SHARED:
                clashes[n, m].append(path)
            if seen.setdefault(m, n) != n:
                clashes[n, seen[m]].append(path)
    if "--list" in sys.argv:
        for n in sorted(table):
            print(n, table[n])
    if clashes:
        for (n, m), where in sorted(clashes.items()):
            print(f"meet: {n} and {m} in {', '.join(where)}", file=sys.stderr)
        return 1
    if "--list" in sys.argv:
        return 0
    changed = 0
    for path, text in files.items():
        new = turn(path, text, table)
        if new != text:
            changed += 1
            with open(path, "w", encoding="utf-8") as f:
                f.write(new)
    print(f"{len(table)} names, {changed} files")
    return 0


if __name__ == "__main__":
    sys.exit(main())
