#!/usr/bin/env python3
"""Questions with the verdict of cvc5, an outside solver, as crates/compare reads them from its stdin.

    tools/cvc5_verdicts.py >crates/compare/stdin

One question a line: P (possible) or I (impossible), a space, and the bytes of the question file in hexadecimal.
Four families, half of each possible and half impossible, as cvc5 says; a question on which it does not decide within
the limit is left out. Needs cvc5 1.0.3 or newer on the PATH. The same seed and version give the same file.

cvc5 takes the domain as an uninterpreted sort, which is never empty, and element and set names as constants."""
import itertools
import random
import subprocess

SEED = 8
EACH = 50  # questions of each family and verdict
LIMIT = 20000  # milliseconds for one question

EQUAL, DIFFER, IN, NOT_IN = 0x10, 0x11, 0x12, 0x13
SAME, OTHER, EMPTY, SINGLE = 0x20, 0x21, 0x22, 0x23
UNION, MEET, MINUS = 0x30, 0x31, 0x32
OPERATIONS = {UNION: frozenset.union, MEET: frozenset.intersection, MINUS: frozenset.difference}
SORTS = {EQUAL: 'ee', DIFFER: 'ee', IN: 'es', NOT_IN: 'es', SAME: 'ss', OTHER: 'ss', EMPTY: 's', SINGLE: 'se',
         UNION: 'sss', MEET: 'sss', MINUS: 'sss'}


def question_file(elements, sets, statements):
    field = lambda tag, body: bytes([tag, 0, len(body)]) + bytes(body)
    return field(0x01, (elements, sets)) + b''.join(field(s[0], s[1:]) for s in statements) + field(0x7F, ())


def formula(s):
    tag, names = s[0], [sort + str(n) for sort, n in zip(SORTS[s[0]], s[1:])]
    return {
        EQUAL: '(= {0} {1})', DIFFER: '(not (= {0} {1}))', IN: '(set.member {0} {1})',
        NOT_IN: '(not (set.member {0} {1}))', SAME: '(= {0} {1})', OTHER: '(not (= {0} {1}))',
        EMPTY: '(= {0} (as set.empty (Set D)))', SINGLE: '(= {0} (set.singleton {1}))',
        UNION: '(= {0} (set.union {1} {2}))', MEET: '(= {0} (set.inter {1} {2}))', MINUS: '(= {0} (set.minus {1} {2}))',
    }[tag].format(*names)


def verdict(elements, sets, statements):
    lines = ['(set-logic QF_UFFS)', '(declare-sort D 0)']
    lines += ['(declare-const e%d D)' % n for n in range(elements)]
    lines += ['(declare-const s%d (Set D))' % n for n in range(sets)]
    lines += ['(assert %s)' % formula(s) for s in statements] + ['(check-sat)']
    run = subprocess.run(['cvc5', '--lang=smt2', '--tlimit=%d' % LIMIT], input='\n'.join(lines),
                         capture_output=True, text=True)
    return {'sat': 'P', 'unsat': 'I'}.get(run.stdout.strip())


def planted(rng):
    """Statements that hold in some assignment, and at times a few that don't."""
    elements, sets, size = rng.randint(3, 8), rng.randint(5, 16), rng.randint(2, 6)
    at = [rng.randrange(size) for _ in range(elements)]
    part = [frozenset(d for d in range(size) if rng.random() < 0.5) for _ in range(sets)]
    for x in range(sets // 3, sets):
        y, z = rng.randrange(x), rng.randrange(x)
        part[x] = rng.choice(list(OPERATIONS.values()))(part[y], part[z])

    def holds(s):
        tag, names = s[0], [(at if sort == 'e' else part)[n] for sort, n in zip(SORTS[s[0]], s[1:])]
        if tag in OPERATIONS:
            return names[0] == OPERATIONS[tag](names[1], names[2])
        return {EQUAL: lambda a, b: a == b, DIFFER: lambda a, b: a != b, IN: lambda a, x: a in x,
                NOT_IN: lambda a, x: a not in x, SAME: lambda x, y: x == y, OTHER: lambda x, y: x != y,
                EMPTY: lambda x: not x, SINGLE: lambda x, a: x == {a}}[tag](*names)

    kinds = {}
    for tag, sorts in SORTS.items():
        for names in itertools.product(*[range(elements if sort == 'e' else sets) for sort in sorts]):
            if len(set(names)) == len(names) or 'e' in sorts and 's' in sorts:
                kinds.setdefault((tag, holds((tag,) + names)), []).append((tag,) + names)

    def draw(true, count):
        tags = [tag for tag, said in kinds if said == true]
        tags += [tag for tag in tags if tag in OPERATIONS] * 3
        return [rng.choice(kinds[rng.choice(tags), true]) for _ in range(count)]

    wrong = rng.choice((0, 1, 1, 2))
    return elements, sets, draw(True, rng.randint(10, 64 - wrong)) + draw(False, wrong)


def laws(rng):
    """Two expressions over a few sets, equal by the laws of ∪, ∩ and \\ or nearly so, and the claim that they differ."""
    def tree(depth):
        if depth == 0 or rng.random() < 0.1:
            return rng.randrange(4)
        return rng.choice(list(OPERATIONS)), tree(depth - 1), tree(depth - 1)

    def rewritten(t):
        if isinstance(t, int):
            return rng.choice((t, t, (UNION, t, t), (MEET, t, (UNION, t, rng.randrange(4)))))
        tag, y, z = t
        if tag == MINUS and isinstance(z, tuple) and z[0] in (UNION, MEET):
            other = MEET if z[0] == UNION else UNION
            return other, (MINUS, rewritten(y), z[1]), (MINUS, y, rewritten(z[2]))
        if tag in (UNION, MEET) and isinstance(z, tuple) and z[0] in (UNION, MEET) and z[0] != tag:
            return z[0], (tag, y, rewritten(z[1])), (tag, rewritten(y), z[2])
        if tag == MEET and rng.random() < 0.5:
            return MINUS, y, (MINUS, y, rewritten(z))
        if tag in (UNION, MEET):
            return tag, rewritten(z), rewritten(y)
        return tag, rewritten(y), rewritten(z)

    def changed(t):
        if isinstance(t, int):
            return rng.randrange(4)
        tag, y, z = t
        turn = rng.randrange(3)
        if turn == 0:
            return rng.choice(list(OPERATIONS)), y, z
        return (tag, changed(y), z) if turn == 1 else (tag, y, changed(z))

    statements, named = [], {}

    def flat(t):
        if isinstance(t, int):
            return t
        if t not in named:
            y, z = flat(t[1]), flat(t[2])
            named[t] = 4 + len(named)
            statements.append((t[0], named[t], y, z))
        return named[t]

    left = tree(3)
    right = rewritten(left)
    if rng.random() < 0.5:
        right = changed(right)
    a, b = flat(left), flat(right)
    statements.append((OTHER, a, b))
    if rng.random() < 0.3:
        statements.append((OTHER, rng.randrange(4), a))
    elements = rng.randint(0, 8)
    for _ in range(min(elements, 2)):
        statements.append((rng.choice((IN, NOT_IN)), rng.randrange(elements), rng.choice((0, 1, 2, 3, a, b))))
    return elements, 4 + len(named), statements


def pigeons(rng):
    """Names that are pairwise different, all in a union of single sets."""
    birds = rng.randint(2, 4)
    holes = birds - rng.randint(0, 1)
    elements = birds + holes
    statements = [(DIFFER, a, b) for a, b in itertools.combinations(range(birds), 2)]
    statements += [(SINGLE, h, birds + h) for h in range(holes)]
    union = 0
    sets = holes
    for h in range(1, holes):
        statements.append((UNION, sets, union, h))
        union, sets = sets, sets + 1
    statements += [(IN, a, union) for a in range(birds)]
    for _ in range(rng.randint(1, 3)):
        turn = rng.randrange(4)
        if turn == 0:
            statements.append((DIFFER, rng.randrange(elements), rng.randrange(elements)))
        elif turn == 1:
            statements.append((NOT_IN, rng.randrange(elements), rng.randrange(sets)))
        elif turn == 2:
            statements.append((OTHER, rng.randrange(sets), rng.randrange(sets)))
        else:
            statements.append((rng.choice((UNION, MEET, MINUS)), sets, rng.randrange(sets), rng.randrange(sets)))
            statements.append((rng.choice((IN, NOT_IN)), rng.randrange(elements), sets))
            sets += 1
    return elements, sets, statements


def steps(rng):
    """Passes of a trimming step: each cuts one segment from the kept ones and adds it to the covered ones."""
    elements, passes = rng.randint(2, 8), rng.randint(2, 3)
    cut = [rng.randrange(elements) for _ in range(passes)]
    kept, covered, none, sets = [0], [1], 2, 3
    statements = [(MEET, none, 0, 1), (EMPTY, none)]
    for a in cut:
        statements += [(SINGLE, sets, a), (MINUS, sets + 1, kept[-1], sets), (UNION, sets + 2, covered[-1], sets)]
        kept.append(sets + 1)
        covered.append(sets + 2)
        sets += 3
    statements += [(IN, a, x) for a, x in zip(cut, kept) if rng.random() < 0.5]
    for _ in range(rng.randint(1, 3)):
        a, b = rng.randrange(elements), rng.randrange(elements)
        statements.append(rng.choice([
            (IN, a, kept[-1]), (NOT_IN, a, covered[-1]), (IN, a, covered[rng.randrange(passes)]), (EQUAL, a, b),
            (DIFFER, a, b), (IN, a, 0), (OTHER, kept[-1], kept[0])]))
    statements += rng.choice([
        [(MEET, sets, kept[-1], covered[-1]), (OTHER, sets, none)],
        [(UNION, sets, kept[-1], covered[-1]), (UNION, sets + 1, 0, 1), (OTHER, sets, sets + 1)],
        [(SAME, kept[-1], kept[0]), (IN, rng.choice(cut), 0)],
        [(OTHER, covered[0], covered[-1])]])
    return elements, sets + 2, statements


def renamed(rng, elements, sets, statements):
    e, s = rng.sample(range(elements), elements), rng.sample(range(sets), sets)
    statements = [(t[0],) + tuple((e if sort == 'e' else s)[n] for sort, n in zip(SORTS[t[0]], t[1:])) for t in statements]
    rng.shuffle(statements)
    return elements, sets, statements


def wanted(elements, sets, statements):
    """Within the limits, and no small question."""
    witnesses = sum(s[0] == OTHER for s in statements)
    return elements <= 8 and sets <= 16 and 8 <= len(statements) <= 64 and elements + witnesses <= 12


def main():
    rng = random.Random(SEED)
    for family in (planted, laws, pigeons, steps):
        missing = {'P': EACH, 'I': EACH}
        while any(missing.values()):
            question = family(rng)
            if not wanted(*question):
                continue
            question = renamed(rng, *question)
            said = verdict(*question)
            if missing.get(said):
                missing[said] -= 1
                print(said, question_file(*question).hex().upper())


main()
