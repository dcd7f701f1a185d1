#!/usr/bin/env python3
"""What crates/compare has to print, counted without the library and without its second solver.

    tools/compare_counts.py | cmp - crates/compare/stdout

Small questions: the assignments over all domains that are large enough are listed one by one, each statement has the set
of those that meet it, and a list of statements the intersection. Questions drawn at random come from the same generator
and are decided domain element by domain element. What clashes of an impossible list is found by the walk that its
definition says. The third line counts the verdicts in crates/compare/stdin. Models are the first ones of document 01,
found a third way, and what a turned bit makes of each is said by the meaning of the statements. Which bit it is depends on
how many models came before, so questions and patterns come in the program's order."""
import collections
import functools
import itertools
import os

EQUAL, DIFFER, IN, NOT_IN = 0x10, 0x11, 0x12, 0x13
SAME, OTHER, EMPTY, SINGLE = 0x20, 0x21, 0x22, 0x23
UNION, MEET, MINUS = 0x30, 0x31, 0x32
# In the order of crates/compare/src/small.rt.
SORTS = {EQUAL: 'ee', DIFFER: 'ee', IN: 'es', NOT_IN: 'es', SAME: 'ss', OTHER: 'ss', SINGLE: 'se',
         UNION: 'sss', MEET: 'sss', MINUS: 'sss', EMPTY: 's'}
MEANING = {EQUAL: lambda a, b: a == b, DIFFER: lambda a, b: a != b, IN: lambda a, x: a in x,
           NOT_IN: lambda a, x: a not in x, SAME: lambda x, y: x == y, OTHER: lambda x, y: x != y,
           EMPTY: lambda x: not x, SINGLE: lambda x, a: x == {a}, UNION: lambda x, y, z: x == y | z,
           MEET: lambda x, y, z: x == y & z, MINUS: lambda x, y, z: x == y - z}
# In the order of crates/compare/src/patterns.rt: each name by the first that it is equal to.
PATTERNS = [[()], [(0,)], [(0, 0), (0, 1)], [(0, 0, 0), (0, 1, 0), (0, 0, 2), (0, 1, 1), (0, 1, 2)]]


class Tally:
    def __init__(self):
        self.questions = self.possible = self.patterns = self.models = self.clashing = 0
        self.turned = collections.Counter()

    def add(self, elements, sets, statements, found, can_hold):
        """A question with the patterns of equal names in which it is possible, and the test whether some of its statements
        can hold. With one pattern the library decides once, else once more without any."""
        self.questions += 1
        self.possible += any(found)
        self.patterns += len(found)
        for names in itertools.compress(PATTERNS[elements], found):
            self.add_model(elements, sets, statements + stated(names))
        if len(found) > 1 and any(found):
            self.add_model(elements, sets, statements)
        if not any(found):
            self.clashing += len(clash(statements, can_hold))

    def add_model(self, elements, sets, statements):
        """The first model of a possible question, and what it is with one bit of a mask turned: elements take turns, and so
        do sets and the first bit that is for none, if two bytes have it."""
        classes, masks = first_model(elements, sets, statements)
        assert all_hold(statements, classes, masks)
        if masks:
            bit = self.models // 12 % min(sets + 1, 16)
            masks[self.models % len(masks)] ^= 1 << bit
            self.turned['bad' if bit >= sets else 'holding' if all_hold(statements, classes, masks) else 'failing'] += 1
        self.models += 1

    def line(self, title):
        patterns = ', patterns compared %d' % self.patterns if self.patterns else ''
        clashing = ', clashing statements %d' % self.clashing if self.clashing else ''
        return ('%s: questions %d, possible %d, impossible %d%s, models judged %d, read back %d, judged as bytes %d, '
                'turned and holding %d, turned and failing %d, turned and bad %d%s, differences 0' % (
                    title, self.questions, self.possible, self.questions - self.possible, patterns, self.models, self.models,
                    self.models, self.turned['holding'], self.turned['failing'], self.turned['bad'], clashing))


def all_hold(statements, classes, masks):
    part = lambda x: {d for d, mask in enumerate(masks) if mask >> x & 1}
    return all(MEANING[tag](*[classes[n] if sort == 'e' else part(n) for sort, n in zip(SORTS[tag], names)])
               for tag, *names in statements)


def first_model(elements, sets, statements):
    """The first arrangement that has any solution, and of each class the smallest mask. Terms are placed one after the
    other; each class has the set of the masks that it may still have, as a number with bit m for the mask m."""
    every = (1 << (1 << sets)) - 1
    # of each set the masks that have it: runs of 2 to the x, every second one
    has = [every // ((1 << (1 << x)) + 1) << (1 << x) for x in range(sets)]
    rules = {SAME: lambda x, y: ~(x ^ y), EMPTY: lambda x: ~x, UNION: lambda x, y, z: ~(x ^ (y | z)),
             MEET: lambda x, y, z: ~(x ^ (y & z)), MINUS: lambda x, y, z: ~(x ^ (y & ~z))}
    unnamed = every
    for tag, *names in statements:
        if tag in rules:
            unnamed &= rules[tag](*[has[x] for x in names])
    others = [s for s in statements if s[0] == OTHER]

    def may_join(classes, t, k):
        """Does the term t, in class k, meet each a = b and a ≠ b with the terms before it and itself."""
        return not any(tag in (EQUAL, DIFFER) and t == max(n) and (tag == EQUAL) != (k == (classes + [k])[min(n)])
                       for tag, *n in statements)

    def place(classes, masks, unnamed):
        t = len(classes)
        if t == elements + len(others):
            return classes, [(some & -some).bit_length() - 1 for some in masks]
        # what the term t asks of its class, and of every other
        here = there = every
        if t >= elements:
            here = has[others[t - elements][1]] ^ has[others[t - elements][2]]
        for tag, *n in statements:
            if tag == IN and n[0] == t:
                here &= has[n[1]]
            elif tag == NOT_IN and n[0] == t:
                here &= ~has[n[1]]
            elif tag == SINGLE and n[1] == t:
                here, there = here & has[n[0]], there & ~has[n[0]]
        for k in range(len(masks) + 1):
            left = [some & (here if k == i else there) for i, some in enumerate(masks + [unnamed] * (k == len(masks)))]
            found = all(left) and may_join(classes, t, k) and place(classes + [k], left, unnamed & there)
            if found:
                return found
        return None

    return place([], [], unnamed)


def stated(names):
    return [(EQUAL if names[a] == names[b] else DIFFER, a, b) for a, b in itertools.combinations(range(len(names)), 2)]


def clash(statements, can_hold):
    """From index 0 upward, a statement is dropped for good if what remains without it still can't hold."""
    kept, left = [], list(statements)
    while left:
        first = left.pop(0)
        if can_hold(kept + left):
            kept.append(first)
    return kept


def pattern(elements):
    return tuple(elements.index(d) for d in elements)


def assignments(elements, sets, most):
    for n in range(most + 1):
        parts = [frozenset(d for d in range(n) if m >> d & 1) for m in range(1 << n)]
        for at in itertools.product(range(n), repeat=elements):
            for part in itertools.product(parts, repeat=sets):
                yield at, part


def small(tally, elements, sets, longest):
    listed = list(assignments(elements, sets, elements + longest + 1))
    meets = {}
    for tag, sorts in SORTS.items():
        ranges = [range(elements if sort == 'e' else sets) for sort in sorts]
        # the first name of a statement changes soonest, and a third one goes downward, as the program numbers them
        for last_first in itertools.product(*[some[::-1] for some in ranges[2:]], *ranges[1::-1]):
            names = last_first[::-1]
            meets[tag, *names] = sum(1 << i for i, (at, part) in enumerate(listed)
                                     if MEANING[tag](*[(at if sort == 'e' else part)[n] for sort, n in zip(sorts, names)]))
    of_pattern = {}
    for i, (at, _) in enumerate(listed):
        of_pattern[pattern(at)] = of_pattern.get(pattern(at), 0) | 1 << i

    def met(statements):
        return functools.reduce(lambda left, s: left & meets[s], statements, (1 << len(listed)) - 1)

    all_of = list(meets)
    for count in range(longest + 1):
        # the first statement changes soonest
        for last_first in itertools.product(range(len(all_of)), repeat=count):
            chosen = last_first[::-1]
            # of three, the first two in one order
            if count < 3 or chosen[0] <= chosen[1]:
                statements = [all_of[k] for k in chosen]
                left = met(statements)
                tally.add(elements, sets, statements, [left & of_pattern[names] != 0 for names in PATTERNS[elements]], met)


def drawn(count, state):
    """The generator of crates/compare/src/drawn.rt."""
    def following(x):
        x ^= x << 13 & (1 << 64) - 1
        x ^= x >> 7
        return x ^ (x << 17 & (1 << 64) - 1)

    def byte(k, n):
        return (state >> 8 * k & 255) % n if n else 0

    for _ in range(count):
        state = following(state)
        elements, sets, length = byte(1, 4), 1 + byte(2, 4), byte(3, 11)
        statements, others = [], 0
        for _ in range(10):
            state = following(state)
            a, b, x, y, z = byte(2, elements), byte(3, elements), byte(4, sets), byte(5, sets), byte(6, sets)
            s = [(SAME, x, y), (OTHER, x, y), (EMPTY, x), (UNION, x, y, z), (MEET, x, y, z), (MINUS, x, y, z),
                 (EQUAL, a, b), (DIFFER, a, b), (IN, a, x), (NOT_IN, a, x), (SINGLE, x, a)][byte(1, 11 if elements else 6)]
            others += s[0] == OTHER
            statements.append((SAME, x, y) if s[0] == OTHER and others > 2 else s)
        yield elements, sets, statements[:length]


def of_file(data):
    """The names and the statements of a question file that is sound."""
    statements, at = [], 5
    while data[at] != 0x7F:
        body = at + 3
        at = body + data[at + 2]
        statements.append((data[body - 3], *data[body:at]))
    return data[3], data[4], statements


def possible(sets, statements, names):
    """With this pattern: each named element picks a mask that it may have, others are there as often as wanted."""
    def may(mask, here):
        bit = lambda x: mask >> x & 1
        for tag, *n in statements:
            if (tag == IN and n[0] in here and not bit(n[1]) or tag == NOT_IN and n[0] in here and bit(n[1])
                    or tag == SAME and bit(n[0]) != bit(n[1]) or tag == EMPTY and bit(n[0])
                    or tag == SINGLE and bit(n[0]) != (n[1] in here)
                    or tag == UNION and bit(n[0]) != (bit(n[1]) | bit(n[2]))
                    or tag == MEET and bit(n[0]) != (bit(n[1]) & bit(n[2]))
                    or tag == MINUS and bit(n[0]) != (bit(n[1]) & ~bit(n[2]))):
                return False
        return True

    def shown(here):
        """Which x ≠ y an element with these names can show, for each mask that it may have."""
        return {frozenset(i for i, s in enumerate(statements) if s[0] == OTHER and (mask >> s[1] ^ mask >> s[2]) & 1)
                for mask in range(1 << sets) if may(mask, here)}

    if any(s[0] == EQUAL and names[s[1]] != names[s[2]] or s[0] == DIFFER and names[s[1]] == names[s[2]]
           for s in statements):
        return False
    wanted = frozenset(i for i, s in enumerate(statements) if s[0] == OTHER)
    unnamed = frozenset().union(*shown(()))
    named = [shown([a for a, c in enumerate(names) if c == k]) for k in set(names)]
    return any(wanted <= unnamed.union(*picked) for picked in itertools.product(*named))


def main():
    tally = Tally()
    for elements, sets in itertools.product(range(3), repeat=2):
        small(tally, elements, sets, 3 if elements == sets == 2 else 2)
    print(tally.line('every small question'))
    tally = Tally()
    for elements, sets, statements in drawn(20000, 0x5EED):
        tally.add(elements, sets, statements, [possible(sets, statements, names) for names in PATTERNS[elements]],
                  lambda some: any(possible(sets, some, names) for names in PATTERNS[elements]))
    print(tally.line('drawn at random'))
    tally = Tally()
    with open(os.path.join(os.path.dirname(__file__), '..', 'crates', 'compare', 'stdin')) as lines:
        for said, text in map(str.split, lines):
            tally.questions += 1
            if said == 'P':
                tally.possible += 1
                tally.add_model(*of_file(bytes.fromhex(text)))
    print(tally.line('verdicts of cvc5'))


main()
