#!/usr/bin/env python3
"""Times the program beside SBCL on the same text.

    bench/against_sbcl.py PROGRAM TEXT [RUNS]

Both read the whole text; both answer each top-level `(subtypep 'a 'b)` and `(typep o 'a)` in it (SBCL with its own
SUBTYPEP and TYPEP, after it has evaluated the DEFTYPEs). Printed are the least processor seconds of some runs (3 by
default), the start of the process included, and how the answers compare: by how many each says T and NIL, and for how
many SBCL isn't sure. It is skipped where `sbcl` is missing. The two decide types by different rules (upgrading, which arrays and sequences there are, the kinds of objects), so the
answers may differ where such a rule matters: of the queries of examples/arrays.lisp they do for one, on SEQUENCE.
"""
import collections
import os
import resource
import shutil
import subprocess
import sys
import tempfile

LISP = '''
(let ((*features* (list* :ansi-cl :common-lisp *features*)) (*package* (find-package :cl-user)))
  (with-open-file (text (second sb-ext:*posix-argv*) :external-format :utf-8)
    (loop for form = (read text nil text) until (eq form text)
          do (when (and (consp form) (eq (first form) 'deftype)) (eval form))
             (when (and (consp form) (member (first form) '(subtypep typep)))
               (multiple-value-bind (yes sure)
                   (ignore-errors (if (eq (first form) 'typep)
                                      (values (typep (eval (second form)) (eval (third form))) t)
                                      (subtypep (eval (second form)) (eval (third form)))))
                 (write-line (cond ((not sure) "UNSURE") (yes "T") (t "NIL"))))))))
'''


def spent():
    usage = resource.getrusage(resource.RUSAGE_CHILDREN)
    return usage.ru_utime + usage.ru_stime


def least(command, runs, stdin=None):
    best, out = None, b''
    for _ in range(runs):
        source = open(stdin, 'rb') if stdin else subprocess.DEVNULL
        before = spent()
        out = subprocess.run(command, stdin=source, stdout=subprocess.PIPE, stderr=subprocess.DEVNULL, check=False).stdout
        seconds = spent() - before
        best = seconds if best is None else min(best, seconds)
    return best, out.decode('utf-8', 'replace').splitlines()


def kind(line):
    words = line.split(' ', 3)
    if words[1:3] == ['NIL', 'UNSURE']:
        return 'UNSURE'
    return words[1] if len(words) > 1 else line


def main(program, text, runs='3'):
    ours, lines = least([program, 'ask'], int(runs), stdin=text)
    print(f'program {ours:8.3f} s  {dict(collections.Counter(map(kind, lines)))}')
    if not shutil.which('sbcl'):
        print('sbcl is missing: skipped')
        return
    with tempfile.NamedTemporaryFile('w', suffix='.lisp', delete=False) as script:
        script.write(LISP)
    theirs, lines = least(['sbcl', '--script', script.name, os.path.abspath(text)], int(runs))
    os.unlink(script.name)
    print(f'sbcl    {theirs:8.3f} s  {dict(collections.Counter(lines))}')


if __name__ == '__main__':
    if len(sys.argv) not in (3, 4):
        sys.exit(__doc__)
    main(*sys.argv[1:])
