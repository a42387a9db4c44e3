#!/usr/bin/env python3
"""Reads every Lisp file of a folder with the program, and lists the faults.

    bench/lisp_files.py PROGRAM FOLDER

For instance FOLDER is /usr/share/common-lisp/source, where Debian's packages put the sources of Lisp libraries. The
files are read where they lie. The program reads a file to its end or answers its first fault, which is printed with
the line that it is in. Files that aren't in UTF-8 are refused as such.
"""
import os
import subprocess
import sys


def lisp_files(folder):
    for path, _, names in sorted(os.walk(folder)):
        for name in sorted(names):
            if name.endswith(('.lisp', '.lsp', '.cl', '.asd')):
                yield os.path.join(path, name)


def line_of(path, report):
    place = report.split()[-1].split(':')
    with open(path, 'rb') as source:
        lines = source.read().split(b'\n')
    number = int(place[0]) if place[0].isdigit() else 1
    return lines[number - 1].decode('utf-8', 'replace').strip()


def main(program, folder):
    read = faults = size = 0
    for path in lisp_files(folder):
        with open(path, 'rb') as source:
            done = subprocess.run([program, 'ask'], stdin=source, capture_output=True, check=False)
        size += os.path.getsize(path)
        if done.returncode in (0, 1):
            read += 1
            continue
        faults += 1
        report = done.stdout.decode().strip()
        print(f'{os.path.relpath(path, folder)}: status {done.returncode} {report}')
        if report.startswith('FAULT') and done.returncode == 3:
            print('    ' + line_of(path, report)[:100])
    print(f'{read} files read to their end, {faults} with a fault; {size} bytes')


if __name__ == '__main__':
    if len(sys.argv) != 3:
        sys.exit(__doc__)
    main(*sys.argv[1:])
