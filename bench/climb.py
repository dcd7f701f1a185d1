#!/usr/bin/env python3
"""Looks for slow questions with E = 8, S = 16 and T = 12: changes statements at random and keeps what runs slowest.

    bench/climb.py SEED STEPS DRIVER WORDS..     prints the slowest question found, as a line of a question file
"""
import random
import subprocess
import sys

from generate import ELEMENTS, SETS, STATEMENTS, TERMS, draw
from question import KINDS, to_hex


def draw_any(rng):
    return draw(rng, rng.choice([kind for kind in KINDS if kind != 'differ']), ELEMENTS, SETS)


def changed(rng, statements):
    """A copy with one to three changes: a statement more or less or in another place, or names of one drawn again."""
    copy = list(statements)
    for _ in range(rng.choice((1, 1, 2, 3))):
        at = rng.randrange(len(copy))
        change = rng.random()
        if change < 0.25 and len(copy) < STATEMENTS:
            copy.insert(at, draw_any(rng))
        elif change < 0.4 and copy[at][0] != 'differ':
            del copy[at]
        elif change < 0.5:
            copy.insert(rng.randrange(len(copy)), copy.pop(at))
        elif change < 0.7 and copy[at][0] != 'differ':
            copy[at] = draw_any(rng)
        else:
            kind, *names = copy[at]
            place = rng.randrange(len(names))
            names[place] = draw(rng, kind, ELEMENTS, SETS)[1 + place]
            copy[at] = (kind, *names)
    return copy


def main(seed, steps, *driver):
    rng = random.Random(seed)
    run = subprocess.Popen([*driver, '2'], stdin=subprocess.PIPE, stdout=subprocess.PIPE, text=True)

    def measure(statements):
        run.stdin.write(f'climb {to_hex((ELEMENTS, SETS, statements))}\n')
        run.stdin.flush()
        return float(run.stdout.readline().split()[2])

    best = [draw_any(rng) for _ in range(rng.randint(4, 24))]
    best += [draw(rng, 'differ', ELEMENTS, SETS) for _ in range(TERMS - ELEMENTS)]
    slowest = measure(best)
    for _ in range(int(steps)):
        trial = changed(rng, best)
        taken = measure(trial)
        if taken >= 0.99 * slowest:  # about the same will do, to get off a plateau
            best, slowest = trial, max(taken, slowest)
    print(f'slowest-{seed} {to_hex((ELEMENTS, SETS, best))}')
    print(f'{slowest / 1e6:.3f} ms', file=sys.stderr)


if __name__ == '__main__':
    main(*sys.argv[1:])
