#!/usr/bin/env python3
"""Spells the definitions and lemmas of this repository as today's Rattle spells names: snake case for what isn't a type or a fact.

usage: tools/respell.py [--table] TOP

To be run once, at TOP, after the kit's port.py. A name that a text of specs/ or proofs/ declares, in camel case or with dashes,
gets underscores (`numberOf` and `or-pick` become `number_of` and `or_pick`); a type with dashes loses them (`Given-back` becomes
`GivenBack`). What Rattle makes of the code (the goals of a function's proof) keeps its name. Where the new name of a lemma is that
of a definition, the lemma gets `_lem`. Turned are the texts of specs/ and proofs/, clauses, `ghost use` items and comments of src/,
and the must-fail edits. --table prints the names and writes nothing.
"""
import collections
import os
import re
import sys

NAME = r'[^\s(){}.;,@"«»\[\]`]+'
DECLARED = re.compile(r"^ *(?:pub |abbrev |unfoldable |data |record |ruleset )*(" + NAME + r")(?: \{[^{}]*\}| \([^()]*\))* (:|=|where)(.*)$")
# Names whose parts no rule finds.
BY_HAND = {"at-getD": "at_get_or", "numberOr0": "number_or_0", "spelledOr0": "spelled_or_0", "littleEndianOr0": "little_endian_or_0", "any-key": "any_key_lem", "anyKey": "any_key", "place-key": "place_key_lem", "placeKey": "place_key"}


def texts(top, endings):
    for folder, folders, files in os.walk(os.path.join(top, "crates")):
        folders[:] = sorted(f for f in folders if f != "out")
        for name in sorted(files):
            if name.endswith(endings):
                yield os.path.join(folder, name)


def spelled(name):
    if name in BY_HAND:
        return BY_HAND[name]
    if name[0].isupper():
        return "".join(part[:1].upper() + part[1:] for part in name.split("-")) if "-" in name else name
    return re.sub(r"(?<=[a-z0-9])[A-Z](?=[a-z0-9])", lambda m: "_" + m[0].lower(), name).replace("-", "_")


def is_plain(name):
    return re.fullmatch(r"[A-Za-z][A-Za-z0-9_'-]*", name)


def table(top):
    """The new name of each declared name that has one, and where new names fall together."""
    declared, definitions = collections.defaultdict(set), set()
    for path in texts(top, ".antt"):
        with open(path, encoding="utf-8") as f:
            for line in f:
                found = DECLARED.match(line.rstrip("\n"))
                if not found or line.lstrip().startswith("--") or not is_plain(found[1]):
                    continue
                # What a proof by hand owes to the goals that Rattle makes.
                if re.match(r" *tie\.", found[3]) or found[1].endswith("-spec"):
                    continue
                declared[found[1]].add(path)
                if "/specs/" in path:
                    definitions.add(found[1])
    turned = {old: spelled(old) for old in declared if spelled(old) != old}
    for old in turned:
        others = [o for o in declared if o != old and turned.get(o, o) == turned[old]]
        if any(o in definitions or o in turned and o < old for o in others) and old not in definitions:
            turned[old] += "_lem"
    # A lemma that had the new spelling before its definition got it.
    news = {turned[old] for old in turned if old in definitions}
    for old in declared:
        if old in news and old not in turned and old not in definitions:
            turned[old] = old + "_lem"
    return turned


def turn(text, turned):
    """The text with its names turned, but for the paths of modules."""
    path = r"\buse [^\s{;]+(?=\.\{)|"
    return re.sub(path + NAME, lambda m: turned.get(m[0], m[0]), text)


CLAUSE = re.compile(r"(?:\b(?:requires|ensures)\b[^\n{]*\{|\bghost\b[^\n{;]*[{])")


def turn_rust(text, turned):
    """Clauses, ghost items and comments."""
    out, at = [], 0
    for found in re.finditer(r"//[^\n]*|\bghost use\b[^;]*;|" + CLAUSE.pattern, text):
        if found.start() < at:
            continue
        end = found.end()
        if not found[0].startswith(("//", "ghost use")):
            depth = 1
            while depth:
                depth += {"{": 1, "}": -1}.get(text[end], 0)
                end += 1
        out += [text[at:found.start()], turn(text[found.start():end], turned)]
        at = end
    return "".join(out + [text[at:]])


def main(argv):
    only_table = "--table" in argv
    top = [a for a in argv if not a.startswith("--")][0]
    turned = table(top)
    if only_table:
        for old, new in sorted(turned.items()):
            print(old, new)
        return 0
    count = 0
    for path in texts(top, (".antt", ".rt", ".edit")):
        with open(path, encoding="utf-8") as f:
            text = f.read()
        new = turn_rust(text, turned) if path.endswith(".rt") else turn(text, turned)
        if new != text:
            count += 1
            with open(path, "w", encoding="utf-8") as f:
                f.write(new)
    print(f"{len(turned)} names, {count} files")
    return 0


if __name__ == "__main__":
    raise SystemExit(main(sys.argv[1:]))
