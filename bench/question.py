"""Questions in Python: their file bytes, and how cvc5 and a SAT solver are asked the same thing."""
from itertools import combinations

# The kinds of statements: tag and the sort of each name in the body (e element, s set).
KINDS = {
    '=': (0x10, 'ee'), '!=': (0x11, 'ee'), 'in': (0x12, 'es'), 'notin': (0x13, 'es'),
    'same': (0x20, 'ss'), 'differ': (0x21, 'ss'), 'empty': (0x22, 's'), 'single': (0x23, 'se'),
    'union': (0x30, 'sss'), 'inter': (0x31, 'sss'), 'minus': (0x32, 'sss'),
}
TAGS = {tag: kind for kind, (tag, _) in KINDS.items()}

# A question is (E, S, [(kind, name, ..), ..]).


def to_hex(question):
    elements, sets, statements = question
    fields = [(0x01, elements, sets)] + [(KINDS[kind][0], *names) for kind, *names in statements] + [(0x7F,)]
    return b''.join(bytes([tag, 0, len(body), *body]) for tag, *body in fields).hex()


def from_hex(text):
    data, fields, at = bytes.fromhex(text), [], 0
    while at < len(data):
        end = at + 3 + data[at + 2]
        fields.append((data[at], *data[at + 3:end]))
        at = end
    (_, elements, sets), *statements = fields[:-1]
    return elements, sets, [(TAGS[tag], *names) for tag, *names in statements]


SMT = {
    '=': '(= e{} e{})', '!=': '(not (= e{} e{}))', 'in': '(set.member e{} s{})', 'notin': '(not (set.member e{} s{}))',
    'same': '(= s{} s{})', 'differ': '(not (= s{} s{}))', 'empty': '(= s{} (as set.empty (Set E)))',
    'single': '(= s{} (set.singleton e{}))', 'union': '(= s{} (set.union s{} s{}))',
    'inter': '(= s{} (set.inter s{} s{}))', 'minus': '(= s{} (set.minus s{} s{}))',
}

SMT_CORE = '(get-unsat-core)\n'


def smt_names(elements, sets):
    """The head of an SMT-LIB file: the logic, and the names with their two sorts."""
    return '\n'.join(['(set-logic QF_UFFS)', '(declare-sort E 0)']
                     + [f'(declare-const e{a} E)' for a in range(elements)]
                     + [f'(declare-const s{x} (Set E))' for x in range(sets)]) + '\n'


def smt_statements(question, named=False):
    """The statements and the command to decide; if named they are a0, a1 .., as a core then calls them."""
    assertion = '(assert (! {} :named a{}))\n' if named else '(assert {})\n'
    return ''.join(assertion.format(SMT[kind].format(*names), index)
                   for index, (kind, *names) in enumerate(question[2])) + '(check-sat)\n'


def to_smt(question, core=False):
    return smt_names(*question[:2]) + smt_statements(question, core) + (SMT_CORE if core else '')


def part(text, indexes):
    """The question with only these of its statements, both in hexadecimal."""
    elements, sets, statements = from_hex(text)
    return to_hex((elements, sets, [statements[index] for index in indexes]))


def size(text):
    """How many statements the question in hexadecimal has."""
    return len(from_hex(text)[2])


def to_dimacs(question):
    """The clauses of the reduced table: which terms are the same, which term is in which set, and the rows."""
    elements, sets, statements = question
    terms = elements + sum(kind == 'differ' for kind, *_ in statements)
    same = {pair: number for number, pair in enumerate(combinations(range(terms), 2), 1)}
    clauses = []

    def equal(c, d):
        return same[min(c, d), max(c, d)]

    def member(c, x):
        return len(same) + 1 + c * sets + x

    for b, c, d in combinations(range(terms), 3):
        bc, cd, bd = equal(b, c), equal(c, d), equal(b, d)
        clauses += [(-bc, -cd, bd), (-bc, -bd, cd), (-cd, -bd, bc)]
    for (c, d), number in same.items():
        for x in range(sets):
            clauses += [(-number, -member(c, x), member(d, x)), (-number, member(c, x), -member(d, x))]

    witness = elements
    for kind, *names in statements:
        if kind in ('=', '!='):
            a, b = names
            if a != b:
                clauses.append((equal(a, b) if kind == '=' else -equal(a, b),))
            elif kind == '!=':
                clauses.append(())
        elif kind in ('in', 'notin'):
            clauses.append((member(*names) if kind == 'in' else -member(*names),))
        elif kind == 'differ':
            p, q = (member(witness, x) for x in names)
            clauses += [(p, q), (-p, -q)]
            witness += 1
        else:
            for c in range(terms):
                clauses += row(kind, c, names, member, equal)
    variables = len(same) + terms * sets
    return f'p cnf {variables} {len(clauses)}\n' + ''.join(' '.join(map(str, (*c, 0))) + '\n' for c in clauses)


def row(kind, c, names, member, equal):
    """The clauses of one row that a statement gives for each term."""
    p = member(c, names[0])
    if kind == 'empty':
        return [(-p,)]
    if kind == 'single':
        a = names[1]
        return [(p,)] if a == c else [(-p, equal(a, c)), (p, -equal(a, c))]
    q = member(c, names[1])
    if kind == 'same':
        return [(-p, q), (p, -q)]
    r = member(c, names[2])
    if kind == 'union':
        return [(-p, q, r), (p, -q), (p, -r)]
    if kind == 'minus':
        r = -r
    return [(-p, q), (-p, r), (p, -q, -r)]
