#!/usr/bin/env python3
"""Compares what the documents say with what the program prints.

    .ci/documents.py PROGRAM

Checked are: the tables of docs/manual.md with the columns Text and Line; each command in an indented block of
README.md and docs/manual.md that a block of output follows, and each over files, with its output or none; that the
queries of README.md are those of examples/why.lisp; the comments `; => ..` behind the queries of examples/*.lisp;
the right answers of bench/beside.lisp; that docs/architecture.md has the crates of crates.txt, in that order, each with
the libraries that it stands on; and that each must-fail edit that docs/proved.md names is there.
"""
import glob
import os
import re
import shlex
import shutil
import subprocess
import sys
import tempfile

TOP = os.path.dirname(os.path.dirname(os.path.abspath(__file__)))


def read(name):
    with open(os.path.join(TOP, name), encoding='utf-8') as file:
        return file.read()


def printed(program, words, text):
    done = subprocess.run([program, *words], input=text.encode(), capture_output=True, check=False)
    return done.stdout.decode()


def cells(row):
    parts = re.split(r'(?<!\\)\|', row.strip())[1:-1]
    return [part.strip().replace('\\|', '|') for part in parts]


def code_span(cell):
    match = re.match(r'(`+) ?(.*?) ?\1', cell)
    return match.group(2) if match else None


def rows(page, header):
    """The rows of each table of the page with that header."""
    lines = page.splitlines()
    for at, line in enumerate(lines):
        if line.startswith('|') and cells(line)[:len(header)] == header:
            for row in lines[at + 2:]:
                if not row.startswith('|'):
                    break
                yield cells(row)


def table_faults(program, name):
    count = 0
    for row in rows(read(name), ['Text', 'Line']):
        text, wanted = code_span(row[0]), code_span(row[1])
        lines = '' if row[1] == 'none' else f'{wanted}\n'
        got = printed(program, ['ask'], text)
        count += 1
        if got != lines:
            yield f'{name}: {text} prints {got!r}, and not {lines!r}'
    if count == 0:
        yield f'{name}: no table of texts and lines was found'


def blocks(page):
    """The indented blocks of a page, in order."""
    return [re.sub(r'(?m)^    ', '', block) for block in re.findall(r'(?m)(?:^    .*\n)+', page)]


def command_faults(program, name):
    found = blocks(read(name))
    for command, output in zip(found, found[1:]):
        match = re.fullmatch(r'\./selvdrik ([^<]*)< (examples/\S+)\n', command)
        if match:
            got = printed(program, match.group(1).split(), read(match.group(2)))
            if got != output:
                yield f'{name}: {command.strip()} prints\n{got}and not\n{output}'


def script_printed(program, command):
    """What a command over the script prints, with the program beside it as it is installed."""
    with tempfile.TemporaryDirectory() as home:
        shutil.copy(program, os.path.join(home, 'subtypep_app'))
        shutil.copy(os.path.join(TOP, 'selvdrik'), home)
        shutil.copytree(os.path.join(TOP, 'tool'), os.path.join(home, 'tool'))
        words = command.replace('./selvdrik', shlex.quote(os.path.join(home, 'selvdrik')), 1)
        return subprocess.run(words, shell=True, cwd=TOP, stdout=subprocess.PIPE, check=False).stdout.decode()


def script_faults(program, name):
    """Commands over files: the block behind one is its output where it begins as lines of files do."""
    found = blocks(read(name))
    for command, output in zip(found, found[1:] + ['']):
        if re.fullmatch(r'\./selvdrik [^<\n]*examples/[^<\n]*\n', command):
            wanted = output if output.startswith('examples/') else ''
            got = script_printed(program, command)
            if got != wanted:
                yield f'{name}: {command.strip()} prints\n{got}and not\n{wanted}'


def why_faults():
    there = read('examples/why.lisp')
    asked = re.findall(r'(?m)^    (\(subtypep .*\))$', read('README.md'))
    for query in asked:
        if query not in there:
            yield f'README.md: {query} is not in examples/why.lisp'
    if not asked:
        yield 'README.md: no query was found'


def beside_faults(program):
    """The right answers of bench/beside.lisp, as far as the program decides."""
    text = read('bench/beside.lisp')
    wanted = re.findall(r'(?m)^;; right (T|NIL): ', text)
    got = printed(program, ['ask'], text).splitlines()
    if not wanted or len(wanted) != len(got):
        yield f'bench/beside.lisp: {len(got)} lines for {len(wanted)} queries'
    for line, want in zip(got, wanted):
        if line.split()[1] in ('T', 'NIL') and not agrees(line, want):
            yield f'bench/beside.lisp: {line}, and not {want}'


def agrees(line, wanted):
    """Whether an answered line is of the wanted kind: which witness is printed is free."""
    said = line.split(' ', 1)[1]
    if wanted == 'NIL':
        return said == 'NIL' or said.startswith('NIL WITNESS ')
    if wanted == 'UNSURE':
        return said == 'UNSURE' or said.startswith('NIL UNSURE ')
    return said == wanted or said.startswith(wanted + ' ')


def example_faults(program, name):
    text = read(name)
    wanted = re.findall(r'; => ([A-Z0-9 -]+)', text)
    got = printed(program, ['ask'], text).splitlines()
    if not wanted or len(wanted) != len(got):
        yield f'{name}: {len(got)} lines for {len(wanted)} expectations'
        return
    for line, want in zip(got, wanted):
        if not agrees(line, want.strip()):
            yield f'{name}: {line}, and not {want}'


def crate_faults():
    listed = [line.split('#')[0].split(':') for line in read('crates.txt').splitlines() if line.split('#')[0].strip()]
    wanted = [(name.split()[0], set(libraries.split())) for name, libraries in listed]
    told = []
    for row in rows(read('docs/architecture.md'), ['Crate', 'What it does', 'Stands on']):
        told.append((code_span(row[0]), set(re.findall(r'`(\w+)`', row[2]))))
    for want, tell in zip(wanted + [None] * len(told), told + [None] * len(wanted)):
        if want is None and tell is None:
            break
        if want != tell:
            yield f'crates.txt has {want}, and docs/architecture.md {tell}'


def edit_faults():
    there = {os.path.basename(path)[:-len('.edit')] for path in glob.glob(os.path.join(TOP, 'crates/*/must-fail/*.edit'))}
    for row in rows(read('docs/proved.md'), ['Contract', 'What it says', 'Edits']):
        for name in re.findall(r'`(\w+)`', row[2]):
            if name not in there:
                yield f'docs/proved.md names the edit {name}, which is not there'


def faults(program):
    yield from table_faults(program, 'docs/manual.md')
    for name in ('README.md', 'docs/manual.md'):
        yield from command_faults(program, name)
        yield from script_faults(program, name)
    yield from why_faults()
    for name in sorted(os.listdir(os.path.join(TOP, 'examples'))):
        if name.endswith('.lisp'):
            yield from example_faults(program, 'examples/' + name)
    yield from beside_faults(program)
    yield from crate_faults()
    yield from edit_faults()


def main(program):
    found = list(faults(os.path.abspath(program)))
    print('\n'.join(found) or 'documents: as the program prints')
    return 1 if found else 0


if __name__ == '__main__':
    if len(sys.argv) != 2:
        sys.exit(__doc__)
    sys.exit(main(sys.argv[1]))
