#!/usr/bin/env python3
"""Brings the names of this repository's own definitions and lemmas to today's spelling.

    python3 tools/respell.py [DIR] [--dry]

A definition, a field and a lemma are in snake case and a fact is in camel case: pair-duty becomes pair_duty,
Best-choice becomes BestChoice, and a prime becomes an apostrophe. A dash stays only in a lemma that is named by
the left side of its equation, as sum-bundled and claims-append.

It was run once, on the tree that the toolchain's own script had turned. It changes the .antt and .rt files of
crates/, but no comment and no string of a .rt file, nor a must-fail edit; no name of Rust has a dash or is changed.
It prints each name that would fall together with another, and stops before it writes anything if there is one.
"""
import re
import sys
from pathlib import Path

NAME = r"[A-Za-z_][\w'′₀-₉]*"
TOKEN = re.compile(NAME + r"(?:-[\w'′₀-₉]+)*")
HEAD = r"^(\s*)((?:abbrev |unfoldable |pub |record |data )*)(" + NAME + r"(?:-[\w'′₀-₉]+)*)(?=[ :({]|$)"
DECLARED = re.compile(HEAD + r"[^=]*:(?!:)\s*(.*)$")
OUTER = {'sum', 'length'}
INNER = {'append', 'cons'}
# a name that would fall together with a field
OTHERWISE = {'pairs-room': 'pairs_have_room'}


def declarations(path, text):
    """The names that a file of specs/ or proofs/ declares, each with whether it is a lemma."""
    lemmas_only = 'proofs' in path.parts or path.stem.endswith('Lemmas')
    in_record = False
    for line in text.split('\n'):
        in_record = bool(re.match(r'(pub )?record ', line)) or in_record and not re.match(r'\S', line)
        found = DECLARED.match(line)
        if not found or found.group(4).lstrip().startswith('goal.'):
            continue
        marks, name = found.group(2), found.group(3)
        yield name, lemmas_only and not in_record and not re.search('abbrev|unfoldable|record|data', marks)


def snake(name):
    return name.replace('-', '_').replace('′', "'")


def respelled(name, lemma, definitions):
    if name in OTHERWISE:
        return OTHERWISE[name]
    if name[0].isupper():
        return ''.join(part[:1].upper() + part[1:] for part in name.split('-')).replace('′', "'")
    if lemma:
        for dash in re.finditer('-', name):
            left, right = snake(name[:dash.start()]), snake(name[dash.end():])
            if left in definitions and right in INNER or left in OUTER and right in definitions:
                return left + '-' + right
    return snake(name)


def main():
    top = Path(next((word for word in sys.argv[1:] if not word.startswith('--')), '.'))
    files = [path for path in sorted(top.glob('crates/*/**/*'))
             if path.suffix in ('.antt', '.rt') and 'out' != path.relative_to(top).parts[2] and path.is_file()]
    texts = {path: path.read_text() for path in files}

    kinds = {}
    library = set()
    fields = set()
    for path, text in texts.items():
        if path.suffix == '.antt':
            for name, lemma in declarations(path, text):
                kinds[name] = kinds.get(name, True) and lemma
        for line in text.split('\n'):
            if re.match(r'(ghost )?use Rattle\.std', line):
                library |= set(TOKEN.findall(line.split('{')[-1]))
            ghost = re.match(r'\s*ghost (' + NAME + r'):', line)
            if path.suffix == '.rt' and ghost:
                fields.add(ghost.group(1))

    definitions = {snake(name) for name, lemma in kinds.items() if not lemma} | library
    names = {}
    together = []
    for name in sorted(kinds):
        new = respelled(name, kinds[name], definitions)
        if new == name:
            continue
        if new in kinds or new in names.values() or new in library or new in fields or name in library:
            together.append((name, new))
        names[name] = new
    for name, new in together:
        print(f'falls together: {name} -> {new}')
    if together:
        sys.exit(1)

    def turn(text):
        return TOKEN.sub(lambda found: names.get(found.group(0), found.group(0)).replace('′', "'"), text)

    changed = 0
    for path, text in texts.items():
        kept = r'("(?:[^"\\]|\\.)*"|//[^\n]*)' if path.suffix == '.rt' else r'(--[^\n]*)'
        parts = re.split(kept, text)
        new = ''.join(part if i % 2 else turn(part) for i, part in enumerate(parts))
        if new != text:
            changed += 1
            if '--dry' not in sys.argv:
                path.write_text(new)
    if '--dry' in sys.argv:
        for name, new in names.items():
            print(name, '->', new)
    print(f'{len(names)} names, {changed} files')


main()
