#!/usr/bin/env python3
"""Writes a text of queries to standard output, the same for the same arguments.

    bench/queries.py ranges N     N queries of two integer ranges
    bench/queries.py mixed N      N queries of AND, OR, NOT, EQL and INTEGER, nested up to three deep
    bench/queries.py eql N        one query: an OR of N EQLs of integers against the same in reverse order
    bench/queries.py symbols N    the same of symbols
    bench/queries.py disjoint N   the same of N disjoint ranges of integers
    bench/queries.py member N     a MEMBER of N integers in T, in its range, and the range in it
    bench/queries.py conses N     2 N queries of conses of a range and a list
    bench/queries.py nots N       (not (cons integer (not (cons ..)))), N deep, against itself
    bench/queries.py overlaps N   conses N deep, at each level an OR of two that overlap, against conses of the whole
    bench/queries.py places N     N + 1 places with N numbers, against "two places alike"
    bench/queries.py arrays N     the queries of examples/arrays.lisp, N times
    bench/queries.py elements N   N queries of two vectors whose element types are ranges of integers
    bench/queries.py shapes N     one query: an OR of N arrays of two dimensions, no two alike, against the reverse
    bench/queries.py cubes N      the same of three dimensions
    bench/queries.py deftypes N   N DEFTYPEs, each naming the one before, and a query of the first
    bench/queries.py structs N    N structure types of which each includes the one before, and N that include none, with
                                  2 N queries of two of their names
    bench/queries.py deepest N    N DEFTYPEs, each of which nests its argument 250 lists deep and hands it to the next;
                                  with 44 the data are as deep as the room of a query lets them be
    bench/queries.py predicates N N queries of two types with three predicates among them
    bench/queries.py marks N      one query: the AND of N predicates against T
    bench/queries.py objects N    N queries of TYPEP, of numbers, lists and strings
    bench/queries.py generated N  the text that the program's own `gen N` answers: N DEFTYPEs and 2 N queries
"""
import itertools
import os
import random
import sys


def integer_range(rng):
    a, b, c, d = (rng.randint(-1000, 1000) for _ in range(4))
    return f"(subtypep '(integer {a} {b}) '(integer ({c}) {d}))"


def atom(rng):
    a, b = rng.randint(-50, 50), rng.randint(-50, 50)
    return rng.choice(['t', 'nil', 'integer', f'(eql {a})', f'(integer {a} {b})', f'(integer * ({b}))'])


def specifier(rng, depth):
    if depth == 0 or rng.random() < 0.4:
        return atom(rng)
    head = rng.choice(['and', 'or', 'or', 'not'])
    count = 1 if head == 'not' else rng.randint(0, 4)
    return '(' + ' '.join([head] + [specifier(rng, depth - 1) for _ in range(count)]) + ')'


def ask(first, second):
    print(f"(subtypep '{first} '{second})")


def joined(head, parts):
    return f'({head} ' + ' '.join(parts) + ')'


def against_reverse(parts):
    ask(joined('or', parts), joined('or', parts[::-1]))


def member(count):
    numbers = joined('member', map(str, range(count)))
    ask(numbers, 't')
    ask(numbers, f'(integer 0 {count - 1})')
    ask(f'(integer 0 {count - 1})', numbers)


def conses(count):
    def tagged(i):
        return f'(cons (integer 0 {i}) (or null (cons (eql {i}) t)))'
    for i in range(count):
        ask(tagged(i), '(cons integer list)')
        ask(tagged(i), tagged((7 * i + 3) % count))


def nots(count):
    inner = 'symbol'
    for _ in range(count):
        inner = f'(not (cons integer {inner}))'
    ask(inner, inner)


def overlaps(count):
    inner, whole = 'null', 'null'
    for level in range(count):
        inner = f'(or (cons (integer 0 {level + 5}) {inner}) (cons (integer 3 {level + 9}) {inner}))'
        whole = f'(cons (integer 0 {level + 9}) {whole})'
    ask(inner, whole)


def places(count):
    def listed(parts):
        return 'null' if not parts else f'(cons {parts[0]} {listed(parts[1:])})'
    alike = []
    for one, other in itertools.combinations(range(count + 1), 2):
        for number in range(1, count + 1):
            alike.append(listed([f'(eql {number})' if at in (one, other) else 't' for at in range(count + 1)]))
    ask(listed([f'(integer 1 {count})'] * (count + 1)), joined('or', alike))


def arrays(count):
    top = os.path.dirname(os.path.dirname(os.path.abspath(__file__)))
    with open(os.path.join(top, 'examples/arrays.lisp'), encoding='utf-8') as file:
        text = file.read()
    for _ in range(count):
        print(text)


def elements(count):
    rng = random.Random(1)
    for _ in range(count):
        a, b = (f'(vector (integer {rng.randint(-1000, 0)} {rng.randint(0, 1000)}))' for _ in range(2))
        ask(a, b)


def boxes(rank, count):
    """An OR of arrays with a number of its own at each place."""
    against_reverse([f"(array * ({' '.join(str(count * place + n) for place in range(rank))}))" for n in range(count)])


def deftypes(count):
    print("(deftype t0 () 'bit)")
    for n in range(1, count):
        print(f"(deftype t{n} () 't{n - 1})")
    ask('t0', 'integer')


def structs(count):
    rng = random.Random(1)
    print('(defstruct c0)')
    for n in range(1, count):
        print(f'(defstruct (c{n} (:include c{n - 1})))')
    for n in range(count):
        print(f'(defstruct f{n})')
    names = [f'c{n}' for n in range(count)] + [f'f{n}' for n in range(count)]
    for _ in range(2 * count):
        ask(rng.choice(names), rng.choice(names))


def deepest(count):
    """Templates that hand their argument on to the next one, 250 lists deep each: the expansions nest data further."""
    for n in range(count):
        print(f"(deftype t{n} (x) `(t{n + 1} {'(' * 250},x{')' * 250}))")
    print(f"(deftype t{count} (x) 't)")
    ask('(t0 t)', 't')


def predicates(count):
    rng = random.Random(1)
    for _ in range(count):
        a, b, c = (f'(satisfies {name})' for name in rng.sample(['p', 'q', 'r'], 3))
        lo, hi = rng.randint(-50, 0), rng.randint(1, 50)
        ask(f'(and (integer {lo} {hi}) {a})', rng.choice([f'(or (integer 0 *) {b})', f'(and integer (or {a} {c}))',
                                                          f'(or (not {b}) (and {b} {a}))']))


def marks(count):
    ask(joined('and', [f'(satisfies p{n})' for n in range(count)]), 't')


def objects(count):
    rng = random.Random(1)
    for n in range(count):
        a, b = rng.randint(-1000, 1000), rng.randint(-1000, 1000)
        object, type_ = rng.choice([
            (f'{a}', f'(integer * {b})'), (f"'({a} {b})", f'(cons (integer {b}) (cons integer null))'),
            (f'"{a}"', f'(or (string {len(str(b))}) (vector bit))'), (f"'s{n}", f'(member s{n} {a})'),
            (f'{a}/7', "(and rational (not integer))"), (f'#({a} {b})', '(simple-array t (2))')])
        print(f"(typep {object} '{type_})")


def generated(count):
    for i in range(count):
        print(f"(deftype g{i} () '(cons (integer 0 {i}) (or null (cons (eql {i}) t))))")
        print(f"(subtypep 'g{i} '(cons integer list))")
        print(f"(subtypep 'g{i} 'g{(7 * i + 3) % count})")


BY_NAME = {'member': member, 'conses': conses, 'nots': nots, 'overlaps': overlaps, 'places': places, 'arrays': arrays,
           'elements': elements, 'deftypes': deftypes, 'structs': structs, 'deepest': deepest, 'predicates': predicates,
           'marks': marks, 'objects': objects, 'generated': generated}


def main(kind, count):
    rng = random.Random(1)
    if kind == 'ranges':
        for _ in range(count):
            print(integer_range(rng))
    elif kind == 'mixed':
        for _ in range(count):
            ask(specifier(rng, 3), specifier(rng, 3))
    elif kind == 'eql':
        against_reverse([f'(eql {n})' for n in range(count)])
    elif kind == 'symbols':
        against_reverse([f'(eql s{n})' for n in range(count)])
    elif kind == 'disjoint':
        against_reverse([f'(integer {10 * n} {10 * n + 4})' for n in range(count)])
    elif kind in ('shapes', 'cubes'):
        boxes(2 if kind == 'shapes' else 3, count)
    elif kind in BY_NAME:
        BY_NAME[kind](count)
    else:
        sys.exit(__doc__)


if len(sys.argv) != 3:
    sys.exit(__doc__)
main(sys.argv[1], int(sys.argv[2]))
