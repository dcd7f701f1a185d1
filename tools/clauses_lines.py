#!/usr/bin/env python3
"""What crates/cases has to print for its clauses (N, M, H), a solver's lines (L, V) and models as bytes (G), made from
documents 01 and 02 without the library.

    tools/clauses_lines.py          prints each case for which crates/cases/stdout has another line
    tools/clauses_lines.py --all    prints what it expects of each case"""
import itertools
import os
import re
import sys

LENGTHS = {0x01: 2, 0x10: 2, 0x11: 2, 0x12: 2, 0x13: 2, 0x20: 2, 0x21: 2, 0x22: 1, 0x23: 2, 0x30: 3, 0x31: 3, 0x32: 3,
           0x7F: 0}
SORTS = {0x10: 'ee', 0x11: 'ee', 0x12: 'es', 0x13: 'es', 0x20: 'ss', 0x21: 'ss', 0x22: 's', 0x23: 'se', 0x30: 'sss',
         0x31: 'sss', 0x32: 'sss'}
LENT = 768


class Refused(Exception):
    pass


class Question:
    def __init__(self, elements, sets):
        self.elements, self.sets, self.statements, self.terms = elements, sets, [], elements

    def add(self, tag, names, place):
        if any(n >= (self.elements if sort == 'e' else self.sets) for sort, n in zip(SORTS[tag], names)):
            raise Refused(6, place)
        if tag == 0x21:
            if self.terms == 12:
                raise Refused(8, place)
            self.terms += 1
        self.statements.append((tag, *names))


def shape(elements, sets, place):
    if elements > 8 or sets > 16:
        raise Refused(5, place)
    return Question(elements, sets)


def of_table(data):
    q = shape(data[0], data[1], 0)
    if data[2] > 64:
        raise Refused(7, 0)
    for i in range(data[2]):
        tag = data[3 + 4 * i]
        q.add(tag, data[4 + 4 * i:][:LENGTHS[tag]], i)
    return q


def of_file(data):
    at, q = 0, None
    while True:
        if len(data) - at < 3:
            raise Refused(1, at)
        tag, length = data[at], data[at + 1] * 256 + data[at + 2]
        body = data[at + 3:][:length]
        if tag not in LENGTHS:
            raise Refused(2, at)
        if (tag == 0x01) != (q is None):
            raise Refused(3, at)
        if length != LENGTHS[tag]:
            raise Refused(4, at)
        if len(body) < length:
            raise Refused(1, at)
        if tag == 0x01:
            q = shape(*body, at)
        elif tag == 0x7F:
            break
        elif len(q.statements) == 64:
            raise Refused(7, at)
        else:
            q.add(tag, body, at)
        at += 3 + length
    if at + 3 < len(data):
        raise Refused(9, at + 3)
    return q


def variables(q):
    """Each pair of terms and each membership by its number, and the spare."""
    keys = list(itertools.combinations(range(q.terms), 2))
    keys += [(c, 's%d' % x) for c in range(q.terms) for x in range(q.sets)]
    return {key: i + 1 for i, key in enumerate(keys)}, len(keys) + 1


def clauses(q):
    number, spare = variables(q)
    member = lambda c, x: number[c, 's%d' % x]
    terms, witness, listed = range(q.terms), q.elements, []
    for b, c, d in itertools.combinations(terms, 3):
        bc, cd, bd = number[b, c], number[c, d], number[b, d]
        listed += [(-bc, -cd, bd), (-bc, -bd, cd), (-bd, -cd, bc)]
    for c, d in itertools.combinations(terms, 2):
        for x in range(q.sets):
            cd, p, r = number[c, d], member(c, x), member(d, x)
            listed += [(-cd, -p, r), (-cd, -r, p)]
    for tag, *n in q.statements:
        if tag in (0x10, 0x11):
            if n[0] != n[1]:
                cd = number[min(n), max(n)]
                listed.append((cd,) if tag == 0x10 else (-cd,))
            elif tag == 0x11:
                listed += [(spare,), (-spare,)]
        elif tag in (0x12, 0x13):
            listed.append((member(*n) * (1 if tag == 0x12 else -1),))
        elif tag == 0x21:
            p, r = member(witness, n[0]), member(witness, n[1])
            listed += [(p, r), (-p, -r)]
            witness += 1
        else:
            for c in terms:
                p, *of = [member(c, x) for x, sort in zip(n, SORTS[tag]) if sort == 's']
                if tag == 0x22:
                    listed.append((-p,))
                elif tag == 0x23:
                    listed += [(p,)] if c == n[1] else equal(p, number[min(c, n[1]), max(c, n[1])])
                elif tag == 0x20:
                    listed += equal(p, *of)
                else:
                    y, z = of
                    listed += {0x30: [(-p, y, z), (p, -y), (p, -z)], 0x31: [(-p, y), (-p, z), (p, -y, -z)],
                               0x32: [(-p, y), (-p, -z), (p, -y, z)]}[tag]
    lines = ['p cnf %d %d' % (spare, len(listed))] + [' '.join(map(str, clause + (0,))) for clause in listed]
    return ''.join(line + '\n' for line in lines)


def equal(p, q):
    return [(-p, q), (p, -q)]


def values(q, text):
    """The truth of each variable, or None for the solver's word that there is none."""
    spare, at, said, truth, ended = variables(q)[1], 0, None, {}, False
    for line in re.findall(r'[^\n]*\n|[^\n]+', text):
        fits = line.endswith('\n')
        if fits and line[0] != 'c':
            if said is None and line in ('s SATISFIABLE\n', 's UNSATISFIABLE\n'):
                said = line
                ended = line == 's UNSATISFIABLE\n'
            elif said is None or ended or not re.fullmatch(r'v(?: -?[1-9][0-9]*)* 0\n|v(?: -?[1-9][0-9]*)+\n', line):
                fits = False
            else:
                for word in map(int, line.split()[1:]):
                    fits &= (abs(word) <= spare and abs(word) not in truth) if word else len(truth) == spare
                    ended |= word == 0
                    truth[abs(word)] = word > 0
        if not fits:
            raise Refused(13, at)
        at += len(line)
    if not ended:
        raise Refused(13, at)
    return None if said == 's UNSATISFIABLE\n' else truth


def model(q, truth):
    number, _ = variables(q)
    classes, masks = [], []
    for d in range(q.terms):
        joined = [c for c in range(d) if truth[number[c, d]]]
        classes.append(classes[joined[0]] if joined else len(masks))
        if not joined:
            masks.append(sum(1 << x for x in range(q.sets) if truth[number[d, 's%d' % x]]))
    return classes, masks


MEANING = {0x10: lambda a, b: a == b, 0x11: lambda a, b: a != b, 0x12: lambda a, x: a in x, 0x13: lambda a, x: a not in x,
           0x20: lambda x, y: x == y, 0x21: lambda x, y: x != y, 0x22: lambda x: not x, 0x23: lambda x, a: x == {a},
           0x30: lambda x, y, z: x == y | z, 0x31: lambda x, y, z: x == y & z, 0x32: lambda x, y, z: x == y - z}


def holds(statement, classes, masks):
    tag, *names = statement
    return MEANING[tag](*[classes[n] if sort == 'e' else {d for d, m in enumerate(masks) if m >> n & 1}
                          for sort, n in zip(SORTS[tag], names)])


def answer(q, text, room):
    truth = values(q, text)
    if truth is None:
        return 'said unsatisfiable, buffer untouched'
    classes, masks = model(q, truth)
    if not all(holds(s, classes, masks) for s in q.statements):
        raise Refused(14, 0)
    data = bytes([0x40, 0, 1, 1, 0x41, 0, len(classes), *classes, 0x42, 0, 2 * len(masks)])
    data += b''.join(m.to_bytes(2, 'big') for m in masks) + b'\x7f\0\0'
    if len(data) > room:
        raise Refused(10, 0)
    return 'answer %s, the rest untouched' % data.hex(' ')


def judged(q, data):
    """The judgement of a model: n, the elements, and n masks of two bytes."""
    n, behind = (data or b'\0')[0], 1 + q.elements
    elements, masks = data[1:behind], [int.from_bytes(data[i:i + 2], 'big') for i in range(behind, len(data), 2)]
    if len(data) != behind + 2 * n or n > 12 or any(d >= n for d in elements) or any(m >> q.sets for m in masks):
        raise Refused(11, 0)
    failing = [i for i, s in enumerate(q.statements) if not holds(s, elements, masks)]
    return 'no %d' % failing[0] if failing else 'yes'


def expected(line):
    letter, *groups = line[0], *line[1:].split('/')
    groups += [''] * (3 - len(groups))
    data = bytes.fromhex(groups[0])
    room = bytes.fromhex(groups[2 if letter in 'LV' else 1])
    room = room[0] if room else LENT
    try:
        q = of_file(data) if letter in 'NLG' else of_table(data)
        if letter == 'G':
            return judged(q, bytes.fromhex(groups[1]))
        if letter in 'LV':
            return answer(q, groups[1].replace('|', '\n'), room)
        text = clauses(q)
        if letter == 'H':
            return '%d bytes, sum %d' % (len(text), sum(itertools.accumulate(text.encode())))
        if len(text) > room:
            raise Refused(10, 0)
        return '%d bytes %s, the rest untouched' % (len(text), text.replace('\n', '|'))
    except Refused as r:
        return 'refused %d at %d' % r.args + (', buffer untouched' if letter not in 'HG' else '')


def main():
    crate = os.path.join(os.path.dirname(__file__), '..', 'crates', 'cases')
    with open(os.path.join(crate, 'stdin')) as cases, open(os.path.join(crate, 'stdout')) as printed:
        pairs = itertools.zip_longest(cases.read().splitlines(), printed.read().splitlines())
    different = False
    for number, (case, line) in enumerate(pairs, 1):
        if case and case[0] in 'NMHLVG':
            if '--all' in sys.argv:
                print(expected(case))
            elif expected(case) != line:
                different = True
                print('line %d: %s' % (number, expected(case)))
    sys.exit(different)


main()
