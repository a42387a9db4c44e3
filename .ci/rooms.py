#!/usr/bin/env python3
"""Checks that what must be believed stands apart from what describes machines.

    .ci/rooms.py

Definitions in specs/steps/ describe how a function computes. No definition outside specs/steps/ may import one of
them, and no contract of a public function may name one. Printed is each place that does.
"""
import glob
import os
import re
import sys

TOP = os.path.dirname(os.path.dirname(os.path.abspath(__file__)))
IMPORT = re.compile(r'use (Rattle\.\w+\.specs\.steps[\w.]*)(?:\.\{([^}]*)\}| as (\w+))')


def imported(text):
    """The names that a file has from specs/steps/."""
    names = set()
    for _, listed, alias in IMPORT.findall(text):
        if alias:
            names.add(alias)
        for name in listed.split(','):
            if name.strip():
                names.add(name.split(' as ')[-1].strip())
    return names


def definition_faults(name, text):
    if '/steps/' not in name and IMPORT.search(text):
        yield f'{name}: imports from specs/steps/'


def exported(root):
    """The names that a crate's root file gives to other crates; of a program, its top call."""
    if os.path.basename(root) == 'main.rt':
        return {'run'}
    with open(root, encoding='utf-8') as file:
        uses = re.findall(r'(?ms)^pub use ([^;]*);', file.read())
    return set(re.findall(r'\w+', ' '.join(uses)))


def owner(text, at):
    """The type of whose methods the function at this place is one, if it is a method."""
    before = re.findall(r'(?m)^(impl\b.*|\})$', text[:at])
    block = re.match(r'impl(?:<.*?>)? (?:.* for )?(\w+)', before[-1]) if before else None
    return block.group(1) if block else None


def public_contracts(text, names):
    """Each function that other crates can call, and what stands between it and its body."""
    for match in re.finditer(r'(?m)^( *)pub (?:const )?fn (\w+)', text):
        if (owner(text, match.start()) or match.group(2)) not in names:
            continue
        rest = text[match.end():]
        body = re.search(r'(?m)^' + match.group(1) + r'\{|\{$|;$', rest)
        yield match.group(2), rest[:body.start()] if body else rest


def contract_faults(name, text, public):
    names = imported(text)
    if not names:
        return
    for function, contract in public_contracts(text, public):
        for word in sorted(names):
            if re.search(r'(?<![\w.])' + re.escape(word) + r'(?!\w)', contract):
                yield f'{name}: the contract of the public function {function} names {word} of specs/steps/'


def faults():
    for path in sorted(glob.glob(os.path.join(TOP, 'crates/*/specs/**/*.antt'), recursive=True)):
        with open(path, encoding='utf-8') as file:
            yield from definition_faults(os.path.relpath(path, TOP), file.read())
    for crate in sorted(glob.glob(os.path.join(TOP, 'crates/*/src'))):
        root = os.path.join(crate, 'lib.rt')
        public = exported(root if os.path.exists(root) else os.path.join(crate, 'main.rt'))
        for path in sorted(glob.glob(os.path.join(crate, '**/*.rt'), recursive=True)):
            with open(path, encoding='utf-8') as file:
                yield from contract_faults(os.path.relpath(path, TOP), file.read(), public)


if __name__ == '__main__':
    found = list(faults())
    print('\n'.join(found) or 'rooms: no public contract rests on specs/steps/')
    sys.exit(1 if found else 0)
