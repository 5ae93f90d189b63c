#!/usr/bin/env python3
"""Brings the repository's own definitions and lemmas to snake case.

usage: python3 tools/respell.py [FOLDER]     once, right after the toolchain's own script; FOLDER is the top of the repository

A name is turned if a file of specs/ or proofs/ declares it: a definition, a lemma, or a field of a record there. Facts and types keep
their capitals. Goals, whose names the toolchain makes, and the functions of src/ keep their names. Names are turned in every .antt file, and in the
clauses and ghost items of every .rt file.
"""
import pathlib
import re
import sys

TOP = pathlib.Path(sys.argv[1] if len(sys.argv) > 1 else '.')
WORD = r"[A-Za-z_][A-Za-z0-9_'-]*"
DECLARED = re.compile(r"^(?:abbrev |unfoldable )?(?:pub )?(?:record |data )?(" + WORD + r") *[:({]")
FIELD = re.compile(r"^  (?:pub )?(" + WORD + r") :")
MADE = re.compile(r"(returns|loop|invariant|decreases|overflow)(-|$)")
GHOST = re.compile(r"^\s*(pub ghost|ghost|requires|ensures)\b")

# Lemmas that would have the name of the definition that they speak of.
CHOSEN = {
    'same_answer': 'same_answer_refl',
    'same_end': 'same_end_refl',
    'same_number': 'same_number_refl',
    'number-demand': 'number_demand_lem',
    'code-demand': 'code_demand_lem',
}


def snake(name):
    if not name[0].islower():
        return name
    return re.sub(r'(?<=[a-z0-9])([A-Z])', lambda m: '_' + m.group(1).lower(), name).replace('-', '_')


def files(*kinds):
    for kind in kinds:
        yield from sorted(TOP.glob(f'crates/*/{kind}'))


def goals(text):
    """The names in a file of answers that are not its own: they stand for goals."""
    return {m.group(1) for m in re.finditer(r"(?m)^(?:abbrev )?pub (" + WORD + r") : goal\.", text)}


names = {}
for path in files('specs/**/*.antt', 'proofs/**/*.antt'):
    text = path.read_text()
    made = goals(text)
    for line in text.splitlines():
        if line.startswith(('use ', 'mod ', 'pub mod ', 'pub use ')):
            continue
        for form in (DECLARED, FIELD):
            m = form.match(line)
            if m and m.group(1) not in made and not MADE.match(m.group(1)):
                name = m.group(1)
                names[name] = CHOSEN.get(name, snake(name))
names = {old: new for old, new in names.items() if old != new}
if not set(names) - set(CHOSEN):
    sys.exit('respell: nothing to turn: the names are in snake case already')

TOKEN = re.compile(r"(?<![A-Za-z0-9_'-])" + WORD)


def turn(text):
    return TOKEN.sub(lambda m: names.get(m.group(0), m.group(0)), text)


for path in files('specs/**/*.antt', 'proofs/**/*.antt'):
    path.write_text(turn(path.read_text()))
for path in files('src/**/*.rt'):
    lines = path.read_text().split('\n')
    depth = 0
    for i, line in enumerate(lines):
        if depth > 0 or GHOST.match(line):
            lines[i] = turn(line)
            depth += line.count('{') - line.count('}')
    path.write_text('\n'.join(lines))
print(f'respell: {len(names)} names turned')
