#!/usr/bin/env python3
"""Spells the repository's own definitions and lemmas as today's Rattle spells names: in snake case.

usage: tools/respell.py            at the top of the repository, once, after port.py (docs/PORT.md)
       tools/respell.py --list     prints the rows, old and new, and writes nothing

What turns: names that specs/ and proofs/ declare (definitions, lemmas, fields, constructors), in .antt, in .rt, and in code spans of README.md and docs/.
What stays: functions of src/ and what is made of them (the answers in a function's own folder), types, modules, exported names, strings, and names that a file takes from the kit.
A name that would meet another stays, and is printed on a line that begins 'meets:'.
"""

import glob
import os
import re
import sys

WORD = re.compile(r"[^\s(){}.;,@\"«»`]+")
DECLARED = re.compile(r"^\s*(?:(?:abbrev|unfoldable|pub|let)\s+)*([^\s(){}.;,@\"«»:]+)\s:(?:\s|$)", re.M)
CAMEL = re.compile(r"^[a-z].*[A-Z]")
USE = re.compile(r"^\s*(?:pub )?(?:ghost )?use ([^\s;{]+?)(?:\.?\{([^}]*)\})?(?: as (\S+))?;?$", re.M)
SPAN = re.compile(r"`[^`\n]+`")
# A lemma or a field that would have a definition's name: the definition has it.
APART = {
    "all-nodes": "all_nodes_lem", "begin-item": "begin_item_lem", "end-in": "end_within", "endLine": "ended_line", "first-attempt": "first_attempt_lem", "first-in": "first_in_lem",
    "how-many": "how_many_lem", "in-row": "is_in_row", "in_place": "in_place_lem", "in_two": "in_two_lem", "is_free": "says_free", "is-range": "is_range_lem",
    "is-repetition": "is_repetition_lem", "kept-as": "kept_as_lem", "last_line": "last_line_lem", "left-recursive": "left_recursive_lem", "list-in": "list_in_lem", "made_in": "made_within",
    "mark-in": "mark_in_lem", "no-rule": "no_rule_lem", "node-fault": "node_fault_lem", "none_of": "none_of_kinds", "one-longer": "one_longer_lem", "pos-in": "pos_in_lem",
    "record-bytes": "record_bytes_lem", "root_in": "root_within", "root-of": "root_of_lem", "root-starts": "root_starts_lem", "top_in": "top_within", "turn-list": "turn_list_lem",
    "turn-pos": "turn_pos_lem", "turns-in": "turns_in_lem", "use-of": "use_of_lem",
}
# Variables and an operator, which no line declares as the others are.
VARIABLES = {n: n[: -len("After")] + "_after" for n in ("usedAfter", "countAfter", "pageAfter", "workAfter", "roomAfter", "lineAfter")}
OPERATORS = {"orElse": "or_else", "◌orElse◌": "◌or_else◌"}


def of_function(path):
    """Whether a proof file stands in the folder of a function, where names are those of goals."""
    parts = path.split(os.sep)
    if "proofs" not in parts:
        return False
    below = parts[parts.index("proofs") + 1:-1]
    return bool(below)


def files(*ends):
    return sorted(f for e in ends for f in glob.glob("crates/**/*" + e, recursive=True) if "/out/" not in f)


def spelled(name):
    return re.sub(r"(?<=[a-z0-9])([A-Z])(?=[a-z])", lambda m: "_" + m[1].lower(), name).replace("-", "_")


def rows():
    declared, inside = set(), set()
    for f in files(".antt"):
        with open(f, encoding="utf-8") as t:
            names = DECLARED.findall(re.sub(r"--.*", "", t.read()))
        (inside if of_function(f) else declared).update(names)
    made = {}
    for n in sorted(declared):
        if re.match(r"[a-z]", n) and ("-" in n or CAMEL.match(n)) and "Inv-loop" not in n:
            new = spelled(n)
            if new != n:
                made[n] = new
    taken = declared | inside
    made.update((old, new) for old, new in APART.items() if old in taken)
    made |= VARIABLES | OPERATORS
    back = {}
    for old, new in sorted(made.items()):
        if (new in taken and new not in made) or new in back:
            print(f"meets: {old} would be {new}", file=sys.stderr)
            made.pop(old)
        else:
            back[new] = old
    return made


def of_kit(text, own):
    """The names that a file takes from the kit."""
    taken = set()
    for module, names, _ in USE.findall(text):
        ours = re.match(r"Rattle\.(\w+)\.", module)
        if names and not (ours and ours[1] in own):
            taken.update(n.split(" as ")[-1].strip() for n in names.split(","))
    return taken


def turn(text, table, skip=()):
    return WORD.sub(lambda m: table[m[0]] if m[0] in table and m[0] not in skip else m[0], text)


def main():
    table = rows()
    if "--list" in sys.argv:
        for old, new in table.items():
            print(old, new)
        return
    own = {os.path.basename(d.rstrip("/")) for d in glob.glob("crates/*/")}
    for f in files(".antt", ".rt"):
        with open(f, encoding="utf-8") as t:
            text = t.read()
        skip = of_kit(text, own)
        if of_function(f):
            # What a goal is called is made of the code's own names.
            skip |= {n for n in DECLARED.findall(text) if "-" in n}
        new = turn(text, table, skip)
        if new != text:
            with open(f, "w", encoding="utf-8") as t:
                t.write(new)
    for f in ["README.md", *glob.glob("docs/*.md"), *glob.glob("docs/landings/*.md")]:
        if os.path.basename(f) == "PORT.md":
            continue
        with open(f, encoding="utf-8") as t:
            text = t.read()
        new = SPAN.sub(lambda m: turn(m[0], table), text)
        if new != text:
            with open(f, "w", encoding="utf-8") as t:
                t.write(new)


main()
