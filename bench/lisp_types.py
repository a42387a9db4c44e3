#!/usr/bin/env python3
"""Asks about every name that a DEFTYPE or DEFSTRUCT of the Lisp files of a folder defines, and counts the answers.

    bench/lisp_types.py PROGRAM FOLDER

Behind the text of each file that can be read there is a query (SUBTYPEP 'NAME T) for each of its names. T tells a type
that stands by itself, ARGUMENT-COUNT one that takes arguments, and each other refusal is named. A name is what stands
behind `(deftype ` or `(defstruct ` at the begin of a line, so definitions in reader conditionals and comments of several
lines may count too.
"""
import collections
import os
import re
import subprocess
import sys

from lisp_files import lisp_files

DEFINITION = re.compile(rb"^\((deftype|defstruct)\s+\(?([^\s()'`,;\"|#]+)", re.MULTILINE | re.IGNORECASE)


def answers(program, text, names):
    queries = b''.join(b"\n(subtypep '" + name + b' t)' for name in names)
    done = subprocess.run([program, 'ask'], input=text + queries + b'\n', capture_output=True, check=False)
    if done.returncode not in (0, 1):
        return None
    lines = done.stdout.decode().splitlines()[-len(names):]
    return [' '.join(line.split()[1:3]) if 'REFUSED' in line else line.split()[1] for line in lines]


def main(program, folder):
    counts = {b'deftype': collections.Counter(), b'defstruct': collections.Counter()}
    files = 0
    for path in lisp_files(folder):
        with open(path, 'rb') as source:
            text = source.read()
        found = DEFINITION.findall(text)
        if not found:
            continue
        got = answers(program, text, [name for _, name in found])
        if got is None:
            counts[b'deftype']['in a file with a fault'] += sum(1 for kind, _ in found if kind.lower() == b'deftype')
            continue
        files += 1
        for (kind, _), answer in zip(found, got):
            counts[kind.lower()][answer] += 1
    for kind, counter in counts.items():
        print(f'{kind.decode()}: {sum(counter.values())} in {files} files')
        for answer, count in counter.most_common():
            print(f'    {answer}: {count}')


if __name__ == '__main__':
    if len(sys.argv) != 3:
        sys.exit(__doc__)
    main(*sys.argv[1:])
