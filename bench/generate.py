#!/usr/bin/env python3
"""Writes the question files of the benchmark, all but slowest.txt. The same seed gives the same files."""
import random
from itertools import combinations
from pathlib import Path

from question import KINDS, to_hex

ELEMENTS, SETS, STATEMENTS, TERMS = 8, 16, 64, 12
OPERATIONS = ('union', 'inter', 'minus')


def draw(rng, kind, elements, sets):
    """A statement of this kind with names drawn at random."""
    return (kind, *(rng.randrange(elements if sort == 'e' else sets) for sort in KINDS[kind][1]))


def drawn(rng, elements, sets, count):
    """Statements of kinds drawn at random, at most as many 'differ' as the terms allow."""
    kinds = [kind for kind, (_, sorts) in KINDS.items() if (elements or 'e' not in sorts) and (sets or 's' not in sorts)]
    statements = []
    for _ in range(count):
        full = elements + sum(s[0] == 'differ' for s in statements) == TERMS
        statements.append(draw(rng, rng.choice([k for k in kinds if k != 'differ' or not full]), elements, sets))
    return statements


def named(_):
    """The inputs that any version must answer at once."""
    def differ(*pairs):
        return [('differ', x, y) for x, y in pairs]
    idle = [(('union', 'inter')[i // SETS % 2], i % SETS, i % SETS, i % SETS) for i in range(60)]
    chain = [('union', i, i + 1, i + 2) for i in range(13, -1, -1)]
    return [(ELEMENTS, SETS, statements) for statements in (
        differ((1, 2), (2, 3), (3, 4), (0, 0)),
        differ((2, 3), (3, 4), (4, 5)) + [('same', 0, 1)] + differ((0, 1)),
        [('single', 0, 7), ('single', 1, 7)] + differ((2, 3), (3, 4), (4, 5), (0, 1)),
        idle + differ((2, 3), (3, 4), (4, 5), (0, 0)),
        chain + differ((15, 14), (14, 13), (13, 12)) + [('same', 15, 0)] + differ((14, 0)))]


def small(rng):
    """E and S up to 3, up to six statements."""
    for _ in range(100):
        elements, sets = rng.randint(0, 3), rng.randint(1, 3)
        yield elements, sets, drawn(rng, elements, sets, rng.randint(1, 6))


def drawn_at_random(rng):
    """Names and statements drawn at random, of any legal size: all kinds alike, or mostly operations."""
    for number in range(100):
        elements, sets = (ELEMENTS, SETS) if number % 2 else (rng.randint(1, ELEMENTS), rng.randint(2, SETS))
        statements = drawn(rng, elements, sets, rng.randint(4, 20 if number % 4 < 2 else STATEMENTS))
        if number % 4 > 1:
            statements = [s if s[0] == 'differ' or rng.random() < 0.2 else draw(rng, rng.choice(OPERATIONS), elements, sets)
                          for s in statements]
        yield elements, sets, statements


def steps(rng):
    """Book-keeping over one to three passes: kept, cut, covered, barred; the right rule or a slip; a wish, denied."""
    for _ in range(100):
        passes, segments = rng.randint(1, 3), rng.randint(2, 6)
        kept, covered, barred, nothing = range(4)
        statements = [('empty', nothing)]
        statements += [('!=', a, b) for a, b in combinations(range(segments), 2) if rng.random() < 0.7]
        statements += [(rng.choice(('in', 'notin')), a, rng.choice((kept, covered, barred))) for a in range(1, segments)]
        make_due, make_cut = rng.choice((('inter', 'union'), ('inter', 'union'), ('inter', 'minus'), ('minus', 'union')))
        start, ground, sets = kept, covered, 4
        for _ in range(passes):
            due, cut, after = range(sets, sets + 3)
            statements += [(make_due, due, kept, covered), (make_cut, cut, due, barred), ('minus', after, kept, cut)]
            kept, sets = after, sets + 3
            if passes < 3:  # else there are no set names left
                statements.append(('union', sets, covered, cut))
                covered, sets = sets, sets + 1
        statements += rng.choice((
            [('minus', sets, kept, start), ('differ', sets, nothing)],    # what is kept was kept at the start
            [('inter', sets, kept, barred), ('differ', sets, nothing)],   # nothing barred is kept
            [('inter', sets, kept, ground), ('single', sets, 0)],         # no segment alone is covered and kept
            [('in', 0, kept), ('in', 0, cut)],                            # segment 0 isn't kept if it was cut
            [('in', 0, start), ('notin', 0, ground), ('notin', 0, barred), ('notin', 0, kept)],  # it is, if nothing forbids it
            [('in', 0, cut), ('notin', 0, barred)]))                      # it is cut only if it is barred: too much to wish
        yield segments, sets + 1, statements


def full(rng):
    """64 statements and T = 12, so four of them 'differ': all hold in a hidden model, but for one in every second question."""
    for number in range(60):
        size = rng.randint(3, TERMS)
        place = [rng.randrange(size) for _ in range(ELEMENTS)]
        value = [rng.getrandbits(size) & rng.getrandbits(size) for _ in range(SETS // 2)]
        while len(value) < SETS:  # sets made from others, so that enough statements hold
            y, z = rng.choice(value), rng.choice(value)
            value.append(rng.choice((y | z, y & z, y & ~z)))
        rng.shuffle(value)
        holds = [(kind, x, y, z) for x in range(SETS) for y in range(SETS) for z in range(SETS)
                 for kind, result in (('union', value[y] | value[z]), ('inter', value[y] & value[z]),
                                      ('minus', value[y] & ~value[z])) if value[x] == result]
        holds += [('same', x, y) for x, y in combinations(range(SETS), 2) if value[x] == value[y]]
        holds += [('single', x, a) for x in range(SETS) for a in range(ELEMENTS) if value[x] == 1 << place[a]]
        differ = [('differ', x, y) for x, y in combinations(range(SETS), 2) if value[x] != value[y]]
        statements = rng.sample(holds, STATEMENTS - 4) + rng.sample(differ, 4)
        if number % 2:
            statements[rng.randrange(STATEMENTS - 4)] = draw(rng, rng.choice(OPERATIONS), ELEMENTS, SETS)
        rng.shuffle(statements)
        yield ELEMENTS, SETS, statements


def chains(rng):
    """Operations one upon the other over 16 sets: two orders of the same union or intersection, or links of any kind."""
    for number in range(100):
        if number % 2:  # six sets joined in two orders, the results told apart, perhaps with a slip
            kind, statements, ends = rng.choice(('union', 'inter')), [], []
            for start in (6, 11):
                order = rng.sample(range(6), 6)
                last = order[0]
                for link, x in enumerate(order[1:]):
                    statements.append((kind, start + link, *rng.sample((last, x), 2)))
                    last = start + link
                ends.append(last)
            if rng.random() < 0.5:
                at = rng.randrange(len(statements))
                statements[at] = (rng.choice(OPERATIONS), *statements[at][1:])
            statements.append(('differ', *ends))
        else:
            links = [(rng.choice(OPERATIONS), x, x + 1, x + 2) for x in range(SETS - 2)]
            statements = links + [draw(rng, 'differ', 0, SETS) for _ in range(rng.randint(1, 4))]
            statements.append((rng.choice(('same', 'differ')), 0, rng.randint(1, SETS - 1)))
            statements = statements[:-1] if sum(s[0] == 'differ' for s in statements) > 4 else statements
        statements += [draw(rng, rng.choice(('in', 'notin', '!=')), ELEMENTS, SETS) for _ in range(rng.randint(0, 4))]
        yield ELEMENTS, SETS, statements


FAMILIES = {'named': named, 'small': small, 'random': drawn_at_random, 'steps': steps, 'full': full, 'chains': chains}

if __name__ == '__main__':
    for family, questions in FAMILIES.items():
        lines = [f'{family}-{number} {to_hex(q)}\n' for number, q in enumerate(questions(random.Random(family)))]
        Path(__file__).with_name('questions').joinpath(f'{family}.txt').write_text(''.join(lines))
