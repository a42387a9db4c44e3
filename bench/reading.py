#!/usr/bin/env python3
"""Measures how quickly the program reads, and in how much memory.

    bench/reading.py PROGRAM [MEBIBYTES]

It writes texts of that size (16 by default, the greatest that the program takes), runs the program on each, and
prints the seconds of its processor (so that other work on the machine matters little), the megabytes a second, the
greatest memory in megabytes and that memory as a multiple of the text. None of the texts asks anything, so what is
measured is the reading alone. Linux only (it asks wait4 for the times and the memory).
"""
import os
import sys
import tempfile


def repeated(part, size):
    return (part * (size // len(part) + 1))[:size - size % len(part)]


def texts(size):
    yield 'nested lists', repeated(b'(a (bc (def g) h) ((i) j))\n', size)
    yield 'one string', b'"' + repeated(b'a string of words ', size - 2) + b'"'
    yield 'one token', repeated(b'a', size)
    yield 'small symbols', repeated(b'abc ', size)
    yield 'one list of small symbols', b'(' + repeated(b'abc ', size - 8) + b')'
    yield '256 deep', repeated(b'(' * 256 + b'a' + b')' * 256 + b'\n', size)
    yield 'source-like', repeated(b'(defun add-one (number &key (step 1)) ; adds\n  "Adds one." (+ number step #\\a :key 1.5 12))\n', size)


def measure(program, text):
    with tempfile.TemporaryFile() as source:
        source.write(text)
        source.seek(0)
        child = os.fork()
        if child == 0:
            os.dup2(source.fileno(), 0)
            os.execv(program, [program, 'ask'])
        _, status, usage = os.wait4(child, 0)
        return usage.ru_utime + usage.ru_stime, os.waitstatus_to_exitcode(status), usage.ru_maxrss * 1024


def main(program, mebibytes='16'):
    size = int(mebibytes) * 1024 * 1024
    for name, text in texts(size):
        seconds, status, memory = measure(program, text)
        print(f'{name:26} {seconds:6.2f} s {len(text) / seconds / 1e6:8.1f} MB/s {memory / 1e6:8.1f} MB {memory / len(text):6.1f}x  status {status}')


if __name__ == '__main__':
    if len(sys.argv) not in (2, 3):
        sys.exit(__doc__)
    main(*sys.argv[1:])
