#!/usr/bin/env python3
"""Asks the queries of bench/beside.lisp of the program and of each Lisp that is installed: SBCL, CLISP, ECL.

    bench/beside.py PROGRAM [SECONDS] [CASES]

Each query goes to a fresh process of each, with a time limit (10 seconds without another). Printed are what each says
of each query (T, NIL, unsure, dies, or over the limit), and how often it is right. An answer against the right one of
the file has a ! behind it, and one that is not what the file has of an earlier version a *. The status is 1 where the
program contradicts the file. The cases that the program does not decide yet are named by its refusal.
"""
import collections
import os
import re
import shutil
import subprocess
import sys
import tempfile

TOP = os.path.dirname(os.path.dirname(os.path.abspath(__file__)))
LISPS = {
    'SBCL': ['sbcl', '--noinform', '--disable-ldb', '--lose-on-corruption', '--no-sysinit', '--no-userinit',
             '--disable-debugger', '--load'],
    'CLISP': ['clisp', '-q', '-q', '-norc'],
    'ECL': ['ecl', '--norc', '--shell'],
}
ASKED = '''
(defun p (x) (eql x 1))
(format t "~&VERSION ~A~%" (lisp-implementation-version))
(multiple-value-bind (yes sure) QUERY
  (format t "~&SAID ~A~%" (cond ((not sure) "unsure") (yes "T") (t "NIL"))))
(finish-output)
#+sbcl (sb-ext:exit :code 0 :abort t)
#+clisp (ext:exit 0)
#+ecl (ext:quit 0)
'''


class Case:
    """A query of the file, its right answer and what each Lisp said of it."""

    def __init__(self, right, why, said, query):
        self.right, self.why, self.said, self.query = right, why, said, query


def cases_of(path):
    with open(path, encoding='utf-8') as file:
        text = file.read()
    found = re.findall(r'(?m)^;; right (T|NIL): (.*)\n;; (SBCL .*)\n((?:;; .*\n)*)(\((?:.+\n)+)', text)
    return [Case(right, why, dict(part.split(' ', 1) for part in said.split(', ')), query.strip())
            for right, why, said, _, query in found]


def ran(command, seconds, text=None):
    """What a process printed, or None where it had not ended in time."""
    try:
        return subprocess.run(command, input=text, stdout=subprocess.PIPE, stderr=subprocess.DEVNULL, timeout=seconds,
                              stdin=None if text else subprocess.DEVNULL, check=False).stdout.decode('utf-8', 'replace')
    except subprocess.TimeoutExpired:
        return None


def asked_of_lisp(command, query, seconds):
    """(what it says, its version or None)."""
    with tempfile.NamedTemporaryFile('w', suffix='.lisp', delete=False) as file:
        file.write(ASKED.replace('QUERY', query))
    out = ran(command + [file.name], seconds)
    os.unlink(file.name)
    if out is None:
        return 'slow', None
    version = re.search(r'(?m)^VERSION (\S+)', out)
    said = re.search(r'(?m)^SAID (\w+)', out)
    return said.group(1) if said else 'dies', version.group(1) if version else None


def asked_of_program(program, query, seconds):
    out = ran([program, 'ask'], seconds, query.encode())
    if out is None:
        return 'slow'
    words = out.split()
    if len(words) < 2:
        return 'dies'
    if words[1:3] == ['NIL', 'UNSURE']:
        return 'unsure'
    return words[2] if words[1] == 'REFUSED' else words[1]


def marked(said, case, before=None):
    """The answer with a ! where it is wrong, and a * where it is another than before."""
    wrong = said in ('T', 'NIL') and said != case.right
    other = before is not None and before.split()[0] != said and not before.endswith(' slowly')
    return said + '!' * wrong + '*' * other


def counted(said, case):
    if said in ('T', 'NIL'):
        return 'right' if said == case.right else 'wrong'
    return said if said in ('unsure', 'dies', 'slow') else 'not built'


def main(program, seconds='10', path=os.path.join(TOP, 'bench/beside.lisp')):
    seconds = float(seconds)
    lisps = {name: command for name, command in LISPS.items() if shutil.which(command[0])}
    for name in LISPS.keys() - lisps.keys():
        print(f'{name} is missing and left out')
    names = ['program', *lisps]
    print('right', ' '.join(f'{name:>8}' for name in names), '  query')
    counts, versions = {name: collections.Counter() for name in names}, {}
    for case in cases_of(path):
        answers = [asked_of_program(program, case.query, seconds)]
        for name, command in lisps.items():
            said, version = asked_of_lisp(command, case.query, seconds)
            answers.append(said)
            versions.setdefault(name, version)
        for name, said in zip(names, answers):
            counts[name][counted(said, case)] += 1
        told = [marked(said, case, case.said.get(name)) for name, said in zip(names, answers)]
        columns = ' '.join(f'{said:>8}' for said in told)
        print(f'{case.right:5}', columns, ' ', re.sub(r'\s+', ' ', case.query), flush=True)
    for name in names:
        listed = ', '.join(f'{number} {kind}' for kind, number in sorted(counts[name].items()))
        print(f"{name}{' ' + versions[name] if versions.get(name) else ''}: {listed}")
    return 1 if counts['program']['wrong'] else 0


if __name__ == '__main__':
    if len(sys.argv) not in (2, 3, 4):
        sys.exit(__doc__)
    sys.exit(main(*sys.argv[1:]))
