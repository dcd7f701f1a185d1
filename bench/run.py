#!/usr/bin/env python3
"""Times this library and other solvers on the stored questions, compares all verdicts and prints ratios. Then the
same for the clashing part of each impossible question, beside the minimal unsat core of cvc5. Last, beside reading the
question, what it takes to write its clauses for an outside solver, and to judge the model of a possible one.

    bench/run.py DRIVER WORDS..     the command that runs the built driver.c

Times are processor time, the shortest of some runs. What it takes to put a question into the form of
another solver is not counted, nor is the start of cvc5 where one process takes many questions.
"""
import os
import platform
import re
import shutil
import subprocess
import sys
import tempfile
import time
from datetime import date
from pathlib import Path
from statistics import mean, median

from question import SMT_CORE, from_hex, part, size, smt_names, smt_statements, to_dimacs, to_smt

RUNS = 3
LIMIT = 20  # seconds that cvc5 may take for a question
SAMPLE = 5  # every fifth of the library's clashing parts is checked by cvc5
CORE = ['--produce-unsat-cores', '--minimal-unsat-cores']

# Each solver gives a dictionary: of a question's name the verdict (1, 0, or None if there is none), the seconds, and,
# where it was asked for it, the clashing part, a question in hexadecimal.


def driven(driver, questions, batches, more):
    """What the driver writes of each question, split into words."""
    lines = ''.join(f'{name} {text}\n' for name, text in questions.items())
    done = subprocess.run([*driver, str(batches), more], input=lines, stdout=subprocess.PIPE, text=True, check=True)
    return map(str.split, done.stdout.splitlines())


def library(driver, questions, batches=5):
    """Two dictionaries: of all questions, and of the clashes of those that are impossible."""
    answers, clashes = {}, {}
    for name, verdict, taken, *clash in driven(driver, questions, batches, 'clash'):
        answers[name] = int(verdict), float(taken) / 1e9, None
        if clash:
            clashes[name] = int(verdict), float(clash[0]) / 1e9, clash[1]
    return answers, clashes


def understood(text, says):
    """The verdict and the part in what cvc5 says of a question: the verdict, and maybe a core, one name a line."""
    return ({'sat': 1, 'unsat': 0}.get(says.partition('\n')[0]),
            part(text, sorted(map(int, re.findall(r'^a(\d+)$', says, re.MULTILINE)))))


def one_process(command, encode):
    """One process for each question: cvc5 says its verdict, SAT solvers give it as their status."""
    def solve(questions):
        results = {}
        with tempfile.TemporaryDirectory() as place:
            file, out = f'{place}/question', f'{place}/out'
            for name, text in questions.items():
                Path(file).write_text(encode(from_hex(text)))
                taken = []
                for _ in range(RUNS):
                    pid = os.posix_spawnp(command[0], [*command, file], os.environ, file_actions=[
                        (os.POSIX_SPAWN_OPEN, 1, out, os.O_WRONLY | os.O_CREAT | os.O_TRUNC, 0o600),
                        (os.POSIX_SPAWN_OPEN, 2, os.devnull, os.O_WRONLY, 0)])
                    _, status, usage = os.wait4(pid, 0)
                    taken.append(usage.ru_utime + usage.ru_stime)
                verdict, core = (understood(text, Path(out).read_text()) if command[0] == 'cvc5' else
                                 ({10: 1, 20: 0}.get(os.waitstatus_to_exitcode(status)), None))
                results[name] = verdict, min(taken), core
        return results
    return solve


def push_pop(core=False, runs=RUNS):
    """One process of cvc5 for all questions, each between push and pop; with a core of each that is impossible."""
    def solve(questions):
        results = {}
        asked = {name: from_hex(text) for name, text in questions.items()}
        for _ in range(runs):
            command = ['cvc5', '--lang=smt2', '--incremental', f'--tlimit-per={LIMIT}000', *(CORE if core else []), '-']
            cvc5 = subprocess.Popen(command, stdin=subprocess.PIPE, stdout=subprocess.PIPE, text=True)
            clock = (~cvc5.pid << 3) | 2  # the number of that process's clock, as clock_getcpuclockid gives it

            def ask(text):
                start = time.clock_gettime(clock)
                cvc5.stdin.write(text)
                cvc5.stdin.flush()
                says = line = cvc5.stdout.readline()
                while says.startswith('(\n') and line not in (')\n', ''):
                    line = cvc5.stdout.readline()
                    says += line
                time.sleep(0.001)  # the clock is exact once cvc5 waits again
                return says, time.clock_gettime(clock) - start

            names = smt_names(max(q[0] for q in asked.values()), max(q[1] for q in asked.values()))
            ask(names + '(push 1)\n(echo "ready")\n')
            for name, question in asked.items():
                says, taken = ask('(pop 1)\n(push 1)\n' + smt_statements(question, core))
                if core and says == 'unsat\n':
                    found, more = ask(SMT_CORE)
                    says, taken = says + found, taken + more
                verdict, found = understood(questions[name], says)
                results[name] = verdict, min(taken, results.get(name, (None, taken))[1]), found
            cvc5.communicate()
        return results
    return solve


CVC5 = ['cvc5', '--lang=smt2', f'--tlimit={LIMIT}000']
SOLVERS = {
    'cvc5, push and pop': ('cvc5', push_pop()),
    'cvc5, a process': ('cvc5', one_process(CVC5, to_smt)),
    'minisat, a process': ('minisat', one_process(['minisat', '-verb=0'], to_dimacs)),
    'cadical, a process': ('cadical', one_process(['cadical', '-q', '-n'], to_dimacs)),
}
CORES = {
    'core by cvc5, push and pop': ('cvc5', push_pop(core=True)),
    'core by cvc5, a process': ('cvc5', one_process(CVC5 + CORE, lambda question: to_smt(question, core=True))),
}


def readable(seconds):
    factor, unit = (1e6, 'µs') if seconds < 1e-3 else (1e3, 'ms') if seconds < 1 else (1, 's')
    return f'{seconds * factor:.3g} {unit}'


def own_times(own):
    times = [taken for _, taken, _ in own.values()]
    return readable(median(times)), readable(max(times)), readable(sum(times))


def ratios(own, other):
    """Median and worst over the questions, and that of the totals: how many times longer the other took."""
    each = sorted(other[name][1] / own[name][1] for name in own)
    return ' / '.join(f'{r:.0f}' if r >= 9.5 else f'{r:.2g}' for r in (
        median(each), each[0], sum(t for _, t, _ in other.values()) / sum(t for _, t, _ in own.values())))


def sizes(own, other, spared):
    """The mean size of the cores; how often the library's part is smaller, the core is, and the core isn't minimal."""
    pairs = [(size(own[name][2]), size(core)) for name, (_, _, core) in other.items()]
    return (f'{mean(core for _, core in pairs):.1f}: {sum(ours < core for ours, core in pairs)} / '
            f'{sum(core < ours for ours, core in pairs)} / {spared}')


def print_row(*cells):
    print('| ' + ' | '.join(map(str, cells)) + ' |', flush=True)


def print_titles(*titles):
    print_row(*titles)
    print('|---' * len(titles) + '|')


def other_verdicts(own, others):
    return [f'{name}: {verdict}, but {title} says {other[name][0]}' for name, (verdict, _, _) in own.items()
            for title, other in others.items() if other[name][0] != verdict]


def check_cores(driver, title, other):
    """Which cores are possible by the library, and how many have a statement that can be spared."""
    cores = {name: core for name, (verdict, _, core) in other.items() if verdict == 0}
    answers, clashes = library(driver, cores, batches=1)
    return ([f'{name}: {title} is possible' for name in answers if name not in clashes],
            sum(size(needed) < size(cores[name]) for name, (_, _, needed) in clashes.items()))


def check_parts(own):
    """Which of the library's parts aren't impossible by cvc5, or have a statement that can be spared."""
    asked = {}
    for name, (_, _, text) in list(own.items())[::SAMPLE]:
        every = range(size(text))
        asked |= {name: text, **{f'{name} without {i}': part(text, [j for j in every if j != i]) for i in every}}
    return [f'the part of {name}: cvc5 says {verdict}' for name, (verdict, _, _) in push_pop(runs=1)(asked).items()
            if verdict != (0 if name in own else 1)]


def stored():
    """Of each family its questions, by name."""
    return {file.stem: dict(line.split() for line in file.read_text().splitlines())
            for file in sorted(Path(__file__).with_name('questions').glob('*.txt'))}


def compare_answers(driver, solvers, details):
    """Prints the table of all questions; gives the differences, and of each family the clashes and their questions."""
    differences, families = [], {}
    print_titles('family', 'questions', 'possible', 'median', 'worst', 'total', *solvers)
    for family, questions in stored().items():
        own, clashes = library(driver, questions)
        others = {title: solve(questions) for title, solve in solvers.items()}
        print_row(family, len(own), sum(verdict for verdict, _, _ in own.values()), *own_times(own),
                  *(ratios(own, other) for other in others.values()))
        differences += other_verdicts(own, others)
        if clashes:
            families[family] = clashes, {name: questions[name] for name in clashes}
        for name, (verdict, _, _) in own.items():
            details[name] = [verdict, *(f'{results[name][1] * 1e6:.1f}' for results in (own, *others.values()))]
    return differences, families


def compare_clashes(driver, solvers, details, families):
    """Prints the table of the impossible questions, and gives the differences."""
    differences = []
    print_titles('family', 'impossible', 'median', 'worst', 'total', *solvers, 'statements', 'in the part',
                 *(f'in the {title}' for title in solvers))
    for family, (own, questions) in families.items():
        others = {title: solve(questions) for title, solve in solvers.items()}
        differences += other_verdicts(own, others) + (check_parts(own) if others else [])
        cells = []
        for title, other in others.items():
            possible, spared = check_cores(driver, title, other)
            differences += possible
            cells.append(sizes(own, other, spared))
        print_row(family, len(own), *own_times(own), *(ratios(own, other) for other in others.values()),
                  f'{mean(map(size, questions.values())):.1f}',
                  f'{mean(size(text) for _, _, text in own.values()):.1f}', *cells)
        for name, text in questions.items():
            results = [own[name], *(other[name] for other in others.values())]
            details[name] += [*(f'{taken * 1e6:.1f}' for _, taken, _ in results), size(text),
                              *(size(core) for _, _, core in results)]
    return differences


def time_clauses(driver):
    """Prints the table of what it takes to write the clauses: they are to be linear in the bytes that are written."""
    print_titles('family', 'bytes, median', 'most', 'reading, median', 'reading and writing, median', 'worst',
                 'ns a byte of writing alone, lowest', 'median', 'highest')
    for family, questions in stored().items():
        rows = [(int(count), float(writing), float(reading))
                for _, _, _, writing, count, reading in driven(driver, questions, 5, 'clauses')]
        counts, writings, readings = zip(*rows)
        each = sorted((writing - reading) / count for count, writing, reading in rows)
        print_row(family, f'{median(counts):.0f}', max(counts), *(readable(taken / 1e9) for taken in (
            median(readings), median(writings), max(writings))), *(f'{ns:.2f}' for ns in (each[0], median(each), each[-1])))


def time_judge(driver):
    """Prints the table of what it takes to judge the first model of each possible question."""
    print_titles('family', 'possible', 'reading, median', 'reading and judging, median', 'worst', 'judging alone, median',
                 'worst')
    for family, questions in stored().items():
        rows = [(float(words[3]), float(words[4])) for words in driven(driver, questions, 5, 'judge') if words[1] == '1']
        if rows:
            judgings, readings = zip(*rows)
            alone = [judging - reading for judging, reading in rows]
            print_row(family, len(rows), *(readable(taken / 1e9) for taken in (
                median(readings), median(judgings), max(judgings), median(alone), max(alone))))


def main(driver):
    solvers, cores = ({title: solve for title, (command, solve) in all_of.items() if shutil.which(command)}
                      for all_of in (SOLVERS, CORES))
    for command in sorted({command for command, _ in SOLVERS.values()}):
        if not shutil.which(command):
            print(f'{command} is missing: its columns are left out')
    print(f'{date.today()}, {platform.machine()}')
    print('Ratios: how many times longer the other took; median / worst / total\n')
    details = {'question': ['verdict', 'this library', *solvers, 'clash', *cores, 'statements', 'in the part',
                            *(f'in the {title}' for title in cores)]}
    differences, families = compare_answers(driver, solvers, details)
    print('\nThe clashing parts of the impossible questions; how many statements a question, a part and a core have by the mean;')
    print('with the core, how often the part is smaller / the core is smaller / the core is not minimal\n')
    differences += compare_clashes(driver, cores, details, families)
    print('\nThe clauses of all questions, as text\n')
    time_clauses(driver)
    print('\nThe judge on the first models of the possible questions\n')
    time_judge(driver)
    Path('target/bench.tsv').write_text(''.join('\t'.join(map(str, [name, *row])) + '\n' for name, row in details.items()))
    print('\n'.join(['', 'Each time in microseconds: target/bench.tsv', f'{len(differences)} differences', *differences]))
    return 1 if differences else 0


if __name__ == '__main__':
    sys.exit(main(sys.argv[1:]))
