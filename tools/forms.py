#!/usr/bin/env python3
"""Lists the places of older forms in crates/*/src, by the points of docs/DESIGN-PASS.md.

    python3 tools/forms.py [POINT..]    each place, and the count of each point
    python3 tools/forms.py -c           the counts alone
"""
import re
import sys
from collections import Counter, defaultdict
from glob import glob
from os.path import dirname, join

TOP = dirname(dirname(__file__)) or '.'


def sources():
    for path in sorted(glob(join(TOP, 'crates/*/src/**/*.rt'), recursive=True)):
        with open(path) as file:
            yield path[len(join(TOP, 'crates/')):], file.read()


def bare(text):
    """The text without comments and clauses: a line each, so that numbers of lines stay."""
    return re.sub(r'(?m)^(\s*)(//|ghost |requires|ensures).*$', r'\1', text)


def blocks(text, word):
    """The items that begin with a word: their names, line numbers and texts up to the brace that closes them."""
    for found in re.finditer(r'(?m)^[ \t]*(?:pub(?:\([^)]*\))? )?' + word + r' (\w+)', text):
        end = text.find('\n' + re.match(r'[ \t]*', found[0])[0] + '}', found.start())
        stop = text.find(';', found.start())
        if word == 'struct' and 0 <= stop < text.find('{', found.start()):
            end = stop
        yield found[1], text.count('\n', 0, found.start()) + 1, text[found.start():max(end, found.end())]


def body(item):
    return item.partition('{\n')[2]


def variants(item):
    return re.findall(r'(?m)^\s+(\w+)\s*(\(.*\)|\{.*|)(?: = \d+)?,?$', body(item))


def point_1():
    for path, text in sources():
        code = bare(text)
        for name, line, item in blocks(code, 'enum'):
            parts = variants(item)
            if any('Refusal' in held for _, held in parts) and len(parts) > 1:
                yield path, line, f'enum {name}: a Result, with a refusal'
            elif len(parts) == 2 and sum(1 for _, held in parts if held) == 1:
                yield path, line, f'enum {name}: an Option'
            elif any(word in ('Other', 'Nothing', 'Nowhere', 'Absent', 'Unknown', 'None') and not held for word, held in parts):
                yield path, line, f'enum {name}: a variant for none'
        for name, line, item in blocks(code, 'struct'):
            flags = re.findall(r'(\w+): bool', item)
            if flags and len(re.findall(r'\w+: ', item)) > len(flags):
                yield path, line, f'struct {name}: flags beside values ({", ".join(flags)})'
        for found in re.finditer(r'(?m)^\s*(?:pub )?const (\w+): u(?:8|16|32) = \d+;$', code):
            yield path, code.count('\n', 0, found.start()) + 1, f'const {found[1]}: a small number'
        for name, line, item in blocks(code, 'fn'):
            if re.search(r'-> bool\b', item) and not name.startswith('is_') and re.search(r'write|put|list|open|finish|show|receive|send', name):
                yield path, line, f'fn {name}: whether it went well, as a flag'
            if re.search(r'\bkind: u\d|\bwhich: u\d|\bword: u8\b', item.partition('{\n')[0]):
                yield path, line, f'fn {name}: a kind as a number'


def shape(item):
    """A body with its names of variables, numbers and texts blanked."""
    text = re.sub(r'b?"(\\.|[^"\\])*"', '"', body(item))
    text = re.sub(r'\b(0x)?[\d_]+(u\d+|usize)?\b', '0', text)
    text = re.sub(r'\b[uif](8|16|32|64|size)\b', 'T', text)
    text = re.sub(r'\b(?!if\b|else\b|return\b|let\b|mut\b|match\b|while\b|for\b|in\b|true\b|false\b)\w+', 'x', text)
    return re.sub(r'\s+', ' ', text)


def point_2():
    same = defaultdict(list)
    for path, text in sources():
        for name, line, item in blocks(bare(text), 'fn'):
            if len(body(item).strip().split('\n')) > 1 and len(shape(item)) > 30:
                same[shape(item)].append((path, line, name))
    for group in same.values():
        if len(group) > 1:
            for path, line, name in group:
                yield path, line, f'fn {name}: a body of the shape of {", ".join(n for _, _, n in group if n != name) or "its namesake"}'


def point_3():
    for path, text in sources():
        for number, line in enumerate(bare(text).split('\n'), 1):
            if re.search(r'\b(while|loop)\b.*\{', line):
                yield path, number, line.strip()


def point_4():
    for path, text in sources():
        code = bare(text)
        for name, line, item in blocks(code, 'fn'):
            inside = body(item).strip()
            arms = re.findall(r'(?m)^\s*(?:\w+::)?\w+(?:\([^)]*\))? => (true|false|\d+|[A-Z]\w*(?:::\w+)?),$', inside)
            if inside.startswith('match') and len(arms) > 1 and len(arms) == inside.count('=>'):
                yield path, line, f'fn {name}: a conversion or a test by a match'
            if len(re.findall(r'(\w+)\.(\w+) [!=]= \w+\.\2\b', inside)) > 1:
                yield path, line, f'fn {name}: equality field by field'
            if re.fullmatch(r'if (\w+) (<|<=|>|>=) (\w+) \{\s*(return )?\w+;?\s*\}( else \{)?\s*\w+\s*\}?', inside):
                yield path, line, f'fn {name}: the smaller or the larger'
            if re.search(r'% 10\b|/ 10\b|% 16\b', inside) and re.search(r"'0'|48|'a'", code):
                yield path, line, f'fn {name}: digits'
        for found in re.finditer(r'std::num::wrapping_add_u64|\+ 1\) % 256|% 256\) as u8', code):
            yield path, code.count('\n', 0, found.start()) + 1, f'{found[0]}: wrapping by hand'


def parameters(item):
    head = re.sub(r'<[^<>]*>', '', item.partition('{\n')[0])
    inside = re.search(r'\((.*?)\)\s*(->|\{|$|\n)', head, re.S)
    return re.findall(r'(?:^|[,(]|\s)(?:mut )?(\w+): ', inside[1]) if inside else []


def point_5():
    facts = defaultdict(list)
    groups = defaultdict(list)
    for path, text in sources():
        crate = path.split('/')[0]
        for found in re.finditer(r'(?m)^\s*requires \w*\s*\{ (.*) \}$', text):
            facts[crate, found[1]].append((path, text.count('\n', 0, found.start()) + 1))
        for name, line, item in blocks(bare(text), 'fn'):
            names = parameters(item)
            if len(names) > 2:
                groups[crate, tuple(names[:2])].append((path, line, name))
    for (crate, fact), places in facts.items():
        if len(places) > 2:
            for path, line in places:
                yield path, line, f'requires {fact}'
    for (crate, names), places in groups.items():
        if len(places) > 2:
            path, line, _ = places[0]
            yield path, line, f'({", ".join(names)}, ..) in {len(places)} functions: {", ".join(n for _, _, n in places)}'


def point_6():
    for path, text in sources():
        code = bare(text)
        for name, line, item in blocks(code, 'struct'):
            if re.search(r': \[u8; \d+\]', item) and re.search(r'(end|len|count): ', item):
                yield path, line, f'struct {name}: a buffer with a length beside'
        for name, line, item in blocks(code, 'fn'):
            head = item.partition('{\n')[0]
            if re.search(r'\w+: \[\w+; \d+\]|-> \[\w+; \d+\]', head):
                yield path, line, f'fn {name}: an array by value'
        for found in re.finditer(r'(?m)^\s*let mut (\w+) = \[0u8; \d+\];', code):
            yield path, code.count('\n', 0, found.start()) + 1, f'{found[1]}: a buffer'


def point_7():
    for path, text in sources():
        code = bare(text)
        for name, line, item in blocks(code, 'fn'):
            head = item.partition('{\n')[0]
            asked = re.findall(r'(\w+): (Wanted|Asked|Kind|Format|Word|Step|Which)\b', head)
            if asked and 'match' in body(item):
                yield path, line, f'fn {name}: a switch on {asked[0][1]}'


def point_8():
    for kind in ('Answers', 'Invariants'):
        for path in sorted(glob(join(TOP, f'crates/*/proofs/**/{kind}.antt'), recursive=True)):
            with open(path) as file:
                yield path[len(join(TOP, 'crates/')):], 1, f'{len(re.findall("(?m)^pub |^abbrev pub ", file.read()))} answers'


def main():
    points = {1: point_1, 2: point_2, 3: point_3, 4: point_4, 5: point_5, 6: point_6, 7: point_7, 8: point_8}
    words = [word for word in sys.argv[1:] if word != '-c']
    for number, find in points.items():
        if words and str(number) not in words:
            continue
        places = list(find())
        if '-c' not in sys.argv:
            for path, line, what in places:
                print(f'{number} {path}:{line} {what}')
        kinds = Counter(path.split('/')[0] for path, _, _ in places)
        print(f'point {number}: {len(places)} ({", ".join(f"{crate} {n}" for crate, n in sorted(kinds.items()))})')


main()
