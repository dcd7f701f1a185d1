#!/usr/bin/env python3
"""The round through outside solvers: the clauses of some hundred questions are given to cadical and minisat, and what
they print is read back and compared with the library's own verdict. Then one line is damaged, which must be refused by
13, and one literal turned, which must be refused by 14 where the second judge of tests/ says that the model fails.

    tools/outside.py DRIVER WORDS..     the command that runs the built outside.c
"""
import random
import re
import shutil
import subprocess
import sys
import tempfile
from pathlib import Path

BENCH = Path(__file__).resolve().parent.parent / 'bench'
sys.path.insert(0, str(BENCH))
from generate import ELEMENTS, SETS, STATEMENTS, drawn  # noqa: E402
from question import to_hex  # noqa: E402

STORED = 3   # every third of the stored questions
DRAWN = 150  # and so many that are drawn
BAD_LINES, MODEL_FAILS = 13, 14


def all_questions(rng):
    """Of each name a question in hexadecimal: stored ones, and others of any legal size."""
    lines = [line for file in sorted((BENCH / 'questions').glob('*.txt')) for line in file.read_text().splitlines()]
    questions = dict(line.split() for line in lines[::STORED])
    for number in range(DRAWN):
        elements, sets = rng.randint(0, ELEMENTS), rng.randint(1, SETS)
        count = rng.randint(0, rng.choice((6, 16, STATEMENTS)))
        questions[f'drawn-{number}'] = to_hex((elements, sets, drawn(rng, elements, sets, count)))
    return questions


class Library:
    def __init__(self, driver):
        self.run = subprocess.Popen(driver, stdin=subprocess.PIPE, stdout=subprocess.PIPE)

    def ask(self, question, count, lines=b''):
        self.run.stdin.write(f'{question} {count}\n'.encode() + lines)
        self.run.stdin.flush()
        return self.run.stdout.readline().decode().split()

    def clauses(self, question):
        """The verdict, and the text of the clauses."""
        verdict, count = self.ask(question, -1)
        return int(verdict), self.run.stdout.read(int(count))

    def solved(self, question, lines):
        """The number and the answer, if the second reader says the same; else what both say, as text."""
        number, answer, *second = self.ask(question, len(lines), lines)
        return (int(number), answer) if [number, answer] == second else f'{number} {answer}, but the second reader {second}'


# Each solver gives its lines, and the same as it wrote them, for a file with clauses in which there are so many variables.

def cadical(file, variables):
    lines = subprocess.run(['cadical', file], stdout=subprocess.PIPE).stdout
    return lines, lines


def minisat(file, variables):
    """It writes a result file: SAT and a line of literals, or UNSAT. It leaves out variables behind the last one that
    a clause has, as the spare mostly is; any value does for them."""
    result = f'{file}.result'
    subprocess.run(['minisat', '-verb=0', file, result], stdout=subprocess.DEVNULL, stderr=subprocess.DEVNULL)
    said, *numbers = Path(result).read_text().split()
    if said == 'UNSAT':
        return (b's UNSATISFIABLE\n',) * 2
    left_out = set(range(1, variables + 1)) - {abs(int(number)) for number in numbers}
    whole = numbers[:-1] + [str(-variable) for variable in sorted(left_out)] + ['0']
    return tuple(f's SATISFIABLE\nv {" ".join(values)}\n'.encode() for values in (whole, numbers))


SOLVERS = {'cadical': cadical, 'minisat': minisat}


def damaged(rng, lines):
    """The lines with one of them damaged, in a way that is never good; and where that line begins."""
    spans = [match.span() for match in re.finditer(rb'^[sv].*\n', lines, re.MULTILINE)]
    start, end = rng.choice(spans)
    line = lines[start:end]
    numbers = [match for match in re.finditer(rb' -?\d+', line)]
    number = rng.choice(numbers) if numbers else None
    ways = [line[:-1] + b' \n', b' ' + line, line[:-1] + b'\r\n', b'\n' + line, line.replace(b' ', b'  ', 1),
            line.replace(b' ', b'\t', 1), line.replace(b' ', b'', 1), line[:1].upper() + line[1:]]
    if number:
        at, behind = number.span()
        ways += [line[:at] + b' +' + number[0].strip(b' -') + line[behind:], line[:behind] + b'x' + line[behind:],
                 line[:at] + b' 0' + number[0].strip(b' -') + line[behind:], line[:behind] + number[0] + line[behind:],
                 line[:behind] + b'0000' + line[behind:] if number[0] != b' 0' else line[:at] + b' -0' + line[behind:]]
    return lines[:start] + rng.choice(ways) + lines[end:], start


def turned(rng, lines):
    """The lines with one literal turned."""
    literals = [match for match in re.finditer(rb'(?<= )-?[1-9]\d*', lines)
                if lines[lines.rfind(b'\n', 0, match.start()) + 1:][:1] == b'v']
    literal = rng.choice(literals)
    other = literal[0][1:] if literal[0].startswith(b'-') else b'-' + literal[0]
    return lines[:literal.start()] + other + lines[literal.end():]


class Tally:
    def __init__(self, title):
        self.title, self.differences = title, []
        self.questions = self.models = self.words = self.left_out = self.damaged = self.fails = self.harmless = 0

    def expect(self, fine, name, what, got):
        if not fine:
            self.differences.append(f'{name}, {self.title}: {what}: {got}')

    def row(self):
        return (self.title, self.questions, self.models, self.words, self.left_out, self.damaged, self.fails, self.harmless,
                len(self.differences))


TITLES = ('solver', 'questions', 'models read back', 'unsatisfiable, its word', 'left out variables, refused by 13',
          'damaged, refused by 13', 'turned, refused by 14', 'turned, still a model', 'differences')


def is_answer(got):
    """Whether a possible answer was written, the same by the second reader."""
    return isinstance(got, tuple) and got[0] % 256 == 0 and got[1].startswith('40000101')


def try_model(rng, library, tally, name, question, lines, written):
    """Lines that say a model: an answer; 13 for a solver that leaves out variables; a literal turned."""
    got = library.solved(question, lines)
    tally.expect(is_answer(got), name, 'possible, but not read back', got)
    tally.models += 1
    if written != lines:
        got = library.solved(question, written)
        tally.expect(got == (BAD_LINES + 256 * written.index(b'v '), '-'), name, 'variables left out', got)
        tally.left_out += 1
    got = library.solved(question, turned(rng, lines))
    fails = got == (MODEL_FAILS, '-')
    tally.expect(fails or is_answer(got), name, 'a literal turned', got)
    tally.fails += fails
    tally.harmless += not fails


def try_solver(rng, library, title, solve, questions):
    tally = Tally(title)
    with tempfile.TemporaryDirectory() as place:
        file = f'{place}/clauses'
        for name, question in questions.items():
            verdict, text = library.clauses(question)
            Path(file).write_bytes(text)
            lines, written = solve(file, int(text.split(maxsplit=3)[2]))
            tally.questions += 1
            satisfiable = b'\ns SATISFIABLE\n' in b'\n' + lines
            tally.expect(satisfiable == (verdict == 1), name, 'another verdict', f'{verdict}, {lines[-40:]}')
            if satisfiable:
                try_model(rng, library, tally, name, question, lines, written)
            else:
                got = library.solved(question, lines)
                tally.expect(got == (0, '-'), name, 'unsatisfiable', got)
                tally.words += 1
            bad, start = damaged(rng, lines)
            got = library.solved(question, bad)
            tally.expect(got == (BAD_LINES + 256 * start, '-'), name, f'a line damaged at {start}: {bad[start:][:40]}', got)
            tally.damaged += 1
    return tally


def main(driver):
    library = Library(driver)
    questions = all_questions(random.Random('outside'))
    tallies = []
    for title, solve in SOLVERS.items():
        if shutil.which(title):
            tallies.append(try_solver(random.Random(title), library, title, solve, questions))
        else:
            print(f'{title} is missing: it is left out')
    for row in (TITLES, ['---'] * len(TITLES), *(tally.row() for tally in tallies)):
        print('| ' + ' | '.join(map(str, row)) + ' |')
    differences = [line for tally in tallies for line in tally.differences]
    print('\n'.join(differences[:20]), end='\n' if differences else '')
    return 1 if differences else 0


if __name__ == '__main__':
    sys.exit(main(sys.argv[1:]))
