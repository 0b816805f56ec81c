#!/usr/bin/env python3
"""Spells this repository's own antt names as Rattle now does: definitions, lemmas, fields and constructors in snake case, facts and types in
upper camel case. A dash stays behind a type, as in `Row-reads`.

usage: tools/respell.py [--list]        in the repository, once, after the kit's port.py

It reads the names that specs/ and the lemma files of proofs/ declare, and turns each whole word in every .antt and .rt file below crates/,
and in backquotes in the pages. --list prints the names and writes nothing.
"""

import collections
import glob
import re
import sys

WORD = re.compile(r"[^\s(){}.;,@\"«»`\[\]|]+")
DECLARED = re.compile(
    r"^\s*(?:(?:unfoldable|abbrev|pub|data|record|opaque)\s+)*([^\s(){}.;,@\"«»`=\[\]|]+)((?: [^\s(){}.;,@\"«»`=\[\]|:]+)*)"
    r"(?: (?:\([^()]*(?:\([^()]*\)[^()]*)*\)|\{[^{}]*\}))* : ?(.*)$"
)
# Where the rule would give two names one spelling, or a word that the library has.
CHOSEN = {
    "underWay": "routes_under_way",
    "wellFormed": "is_well_formed",
    "sum-of": "the_sum",
    "difference-of": "the_difference",
    "stack-of": "a_stack",
    "balance-of": "a_balance",
    "meter-of": "a_meter",
}
# Spelled as the library's laws of these names, which other files import.
KEPT = ("and-false", "set-set")
# Lemmas that would have their definition's name.
LEMMAS = """above_zero after_check amount-in as-text bad-text before-point behind-point check-at length-in name-ok no_place no-transfer open-place
    part-of place_at plain-credits plain-put plain-total said-by same_bytes set-record sheet-sound transfer-at with-amount name-bytes run-text whole-text""".split()
CHOSEN.update({n: n.replace("-", "_") + "_lem" for n in LEMMAS})
# Of these, the ones that are spelled like a Rust name stay outside the crates whose lemmas they are.
AT_HOME = ("crates/book/proofs/", "crates/lent/proofs/")


def own_files():
    found = glob.glob("crates/*/specs/*.antt") + glob.glob("crates/*/proofs/*.antt")
    return sorted(f for f in found if not f.endswith("/Lib.antt"))


def in_snake_case(name):
    return re.sub(r"(?<=[a-z0-9])[A-Z]", lambda m: "_" + m[0].lower(), name)


def in_camel_case(name):
    return "".join(w[:1].upper() + w[1:] for w in re.split(r"[-_]", name))


def declared():
    """Each declared name, with the files that declare it and whether one of them is a definition of specs/."""
    names = collections.defaultdict(lambda: [set(), set()])
    for path in own_files():
        with open(path, encoding="utf-8") as f:
            for line in f:
                m = DECLARED.match(line)
                if not m or m[1] in ("let", "use", "module", "where", "in", "--", "elim", "λ"):
                    continue
                for name in [m[1], *m[2].split()]:
                    names[name][0].add(path)
                    names[name][1].add(m[3].strip())
    return names


def table():
    names = declared()
    rows = {}
    for name, (files, types) in names.items():
        if name in KEPT:
            continue
        if name in CHOSEN:
            rows[name] = CHOSEN[name]
            continue
        if any(t == "Type 0" or re.search(r"→ Type 0$", t) for t in types) and name[:1].islower():
            new = in_camel_case(name)
        elif name[:1].isupper() and "-" not in name:
            continue
        else:
            head, dash, rest = name.partition("-") if name[:1].isupper() else ("", "", name)
            new = head + dash + in_snake_case(rest).replace("-", "_")
        if new != name:
            rows[name] = new
    return names, rows


def clashes(names, rows):
    taken = collections.defaultdict(set)
    for n in names:
        taken[rows.get(n, n)].add(n)
    return {new: olds for new, olds in taken.items() if len(olds) > 1}


def turn(text, rows):
    return WORD.sub(lambda m: rows.get(m[0], m[0]), text)


def turned(path, text, rows):
    plain = {o: n for o, n in rows.items() if re.search("[A-Z-]", o) or path.startswith(AT_HOME)}
    if path.endswith(".antt"):
        # In a comment a name with a dash turns in backquotes alone: there it may be prose.
        camel = {o: n for o, n in plain.items() if "-" not in o}
        return "".join(turn(line, camel if line.lstrip().startswith("--") else plain) for line in text.splitlines(True))
    if path.endswith(".rt"):
        return turn(text, {o: n for o, n in plain.items() if re.search("[A-Z-]", o)})
    return re.sub(r"`[^`\n]+`", lambda m: turn(m[0], plain), text)


if __name__ == "__main__":
    names, rows = table()
    if "wellFormed" not in names:
        sys.exit("tools/respell.py: these names are spelled as today already")
    met = clashes(names, rows)
    if "--list" in sys.argv or met:
        for old in sorted(rows):
            print(old, rows[old], sep="\t")
        for new, olds in sorted(met.items()):
            print("clash:", new, sorted(olds), {o: sorted(names[o][0]) for o in olds})
        sys.exit(1 if met else 0)
    paths = [p for end in ("antt", "rt") for p in glob.glob("crates/**/*." + end, recursive=True)]
    for path in sorted(paths + glob.glob("docs/**/*.md", recursive=True) + ["README.md"]):
        with open(path, encoding="utf-8") as f:
            text = f.read()
        new = turned(path, text, rows)
        if new != text:
            with open(path, "w", encoding="utf-8") as f:
                f.write(new)
            print(path)
