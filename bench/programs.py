#!/usr/bin/env python3
"""Writes the programs on which whole solvers are measured, as MPS files, into a folder.

    programs.py FOLDER [NAME..]       all of them, or those that are named

Each is made from the numbers of one small generator, started with the seed that stands beside its name below, so the files are the same
everywhere. The fields stand in the places of fixed MPS and no name has a blank, so readers of fixed and of free files take them.
Every marked column has both its bounds in the file, since readers differ in what they take for granted."""
import sys
from fractions import Fraction
from pathlib import Path


class Draws:
    """The numbers g, each (75 times the one before + 74) modulo 65537."""

    def __init__(self, seed):
        self.last = seed % 65537

    def below(self, bound):
        self.last = (75 * self.last + 74) % 65537
        return self.last % bound


class Program:
    """Rows are (kind, right side), columns are (cost, entries, high bound, marked), each by its name in the order of the file."""

    def __init__(self):
        self.rows, self.columns, self.quadratic = {}, {}, {}

    def row(self, name, kind, right):
        self.rows[name] = (kind, Fraction(right))

    def column(self, name, cost, entries, high=None, marked=False):
        self.columns[name] = (Fraction(cost), {row: Fraction(value) for row, value in entries.items()}, high, marked)

    def text(self, title):
        out = ['NAME          ' + title.upper(), 'ROWS', ' N  obj']
        out += [' %s  %s' % (kind, name) for name, (kind, _) in self.rows.items()]
        out += self.column_lines()
        out += section('RHS', [('RHS', name, right) for name, (_, right) in self.rows.items() if right != 0])
        out += self.bound_lines()
        out += section('QUADOBJ', [(j, k, value) for (j, k), value in self.quadratic.items() if value != 0])
        return '\n'.join(out + ['ENDATA', ''])

    def column_lines(self):
        out, open_stretch = ['COLUMNS'], False
        for name, (cost, entries, _, marked) in self.columns.items():
            if marked != open_stretch:
                out.append(marker(marked))
                open_stretch = marked
            out += [entry(name, row, value) for row, value in [('obj', cost)] + list(entries.items()) if value != 0]
        return out + ([marker(False)] if open_stretch else [])

    def bound_lines(self):
        out = []
        for name, (_, _, high, _) in self.columns.items():
            if high is not None:
                out.append(' UP BND       %-8s  %12s' % (name, decimal(high)))
        return ['BOUNDS'] + out if out else []


def decimal(value):
    """The number without a rounding: a decimal with as many digits as it needs."""
    value = Fraction(value)
    for places in range(19):
        scaled = value * 10 ** places
        if scaled.denominator == 1:
            digits = '%0*d' % (places + 1, abs(scaled.numerator))
            body = digits if places == 0 else digits[:-places] + '.' + digits[-places:]
            return ('-' if value < 0 else '') + body
    raise ValueError('%s is no short decimal' % value)


def entry(first, second, value):
    return '    %-8s  %-8s  %12s' % (first, second, decimal(value))


def section(word, entries):
    return [word] + [entry(*fields) for fields in entries] if entries else []


def marker(begins):
    return "    MARKER    'MARKER'                 '%s'" % ('INTORG' if begins else 'INTEND')


def transport(draws, n):
    """n sources that hold as much as n sinks ask for. Sending from i to i costs u_i + v_i, any other way more, so that way is best and the
    least value is the sum of a_i (u_i + v_i)."""
    u = [draws.below(10) for _ in range(n)]
    v = [draws.below(10) for _ in range(n)]
    a = [1 + draws.below(20) for _ in range(n)]
    program = Program()
    for i in range(n):
        program.row('s%d' % (i + 1), 'E', a[i])
    for j in range(n):
        program.row('d%d' % (j + 1), 'E', a[j])
    for i in range(n):
        for j in range(n):
            more = 0 if i == j else 1 + draws.below(9)
            program.column('x%d_%d' % (i + 1, j + 1), u[i] + v[j] + more, {'s%d' % (i + 1): 1, 'd%d' % (j + 1): 1})
    return program


def staircase(draws, periods, all_cost):
    """Production over some periods, five rows and five columns each: each period's rows have entries of its own columns and of the period
    before alone. Entries are decimals. Either each column has a cost, or as much as possible is to be kept behind the last period."""
    program = Program()
    for t in range(1, periods + 1):
        program.row('stock%d' % t, 'E', 20 + draws.below(16))
        program.row('work%d' % t, 'L', 30)
        program.row('plant%d' % t, 'E', 40 if t == 1 else 0)
        program.row('over%d' % t, 'L', 0)
        program.row('cash%d' % t, 'L', 15)
    for t in range(1, periods + 1):
        last = t == periods
        make = Fraction(2 * (20 + draws.below(9)), 10)
        costs = [make, make + Fraction(3, 2), Fraction(1 + draws.below(4), 10), Fraction(1, 20), Fraction(3, 10)]
        if not all_cost:
            costs = [0, 0, -1 if last else 0, 0, 0]
        later = {} if last else {'stock%d' % (t + 1): 1}
        kept = {} if last else {'plant%d' % (t + 1): Fraction(-11, 10)}
        grown = {} if last else {'plant%d' % (t + 1): Fraction(-1, 4)}
        program.column('make%d' % t, costs[0], {'stock%d' % t: 1, 'work%d' % t: Fraction(3, 4), 'over%d' % t: Fraction(-1, 10)})
        program.column('late%d' % t, costs[1], {'stock%d' % t: 1, 'over%d' % t: 1, 'cash%d' % t: Fraction(2, 5)})
        program.column('keep%d' % t, costs[2], {'stock%d' % t: -1, **later})
        program.column('have%d' % t, costs[3], {'plant%d' % t: 1, 'work%d' % t: Fraction(-1, 10), **kept})
        program.column('grow%d' % t, costs[4], {'cash%d' % t: Fraction(11, 10), **grown})
    return program


def dense_quadratic(draws, n):
    """Q is B^T B and the unit matrix, where B has whole numbers from -2 to 2; the columns sum to n and meet two rows more."""
    b = [[draws.below(5) - 2 for _ in range(n)] for _ in range(n)]
    program = Program()
    program.row('sum', 'E', n)
    program.row('low', 'G', 3 * n)
    program.row('high', 'L', 5 * n)
    for j in range(n):
        program.column('x%d' % (j + 1), draws.below(21) - 10, {'sum': 1, 'low': 1 + draws.below(9), 'high': 1 + draws.below(9)})
    for j in range(n):
        for k in range(j, n):
            product = sum(row[j] * row[k] for row in b)
            program.quadratic['x%d' % (j + 1), 'x%d' % (k + 1)] = product + (1 if j == k else 0)
    return program


def projection(draws, n):
    """The point of the simplex that is nearest to a point t of twentieths: half of x·x less t·x, where x sums to 1."""
    program = Program()
    program.row('sum', 'E', 1)
    for j in range(n):
        name = 'x%d' % (j + 1)
        program.column(name, -Fraction(draws.below(21), 20), {'sum': 1})
        program.quadratic[name, name] = 1
    return program


def knapsack(draws, n):
    """Each of n things is taken or not; half of the weight of all has room."""
    prices = [1 + draws.below(30) for _ in range(n)]
    weights = [1 + draws.below(20) for _ in range(n)]
    program = Program()
    program.row('room', 'L', sum(weights) // 2)
    for j in range(n):
        program.column('x%d' % (j + 1), -prices[j], {'room': weights[j]}, 1, True)
    return program


def cover(draws, rows, columns):
    """Each of the columns covers the rows that the draws give it, about one in eight, and each row is covered at least once."""
    covers = [[draws.below(8) == 0 for _ in range(columns)] for _ in range(rows)]
    for i in range(rows):
        for _ in range(2):
            covers[i][draws.below(columns)] = True
    program = Program()
    for i in range(rows):
        program.row('r%d' % (i + 1), 'G', 1)
    for j in range(columns):
        entries = {'r%d' % (i + 1): 1 for i in range(rows) if covers[i][j]}
        program.column('x%d' % (j + 1), 1 + draws.below(9), entries, 1, True)
    return program


def assignment(draws, n):
    """Each of n people does one of n jobs, and each job is done by one; the columns are marked."""
    program = Program()
    for i in range(n):
        program.row('p%d' % (i + 1), 'E', 1)
    for j in range(n):
        program.row('j%d' % (j + 1), 'E', 1)
    for i in range(n):
        for j in range(n):
            entries = {'p%d' % (i + 1): 1, 'j%d' % (j + 1): 1}
            program.column('x%d_%d' % (i + 1, j + 1), 1 + draws.below(20), entries, 1, True)
    return program


def charges(draws, n):
    """At least 1 is to be bought from n sellers, each with a price for a piece and a charge that is due where anything is bought of it.
    The rows that tie a charge to what is bought have an entry of 100,000,000, so a share of 0.00000001 of a charge pays for one piece:
    within the usual tolerances that is a whole number, but it isn't."""
    program = Program()
    program.row('asked', 'G', 1)
    for j in range(n):
        program.row('open%d' % (j + 1), 'L', 0)
    for j in range(n):
        program.column('x%d' % (j + 1), 1 + draws.below(5), {'asked': 1, 'open%d' % (j + 1): 1})
    for j in range(n):
        program.column('y%d' % (j + 1), 100 + draws.below(50), {'open%d' % (j + 1): -10 ** 8}, 1, True)
    return program


# Name, seed, and how the program is made.
PROGRAMS = [
    ('transport8', 1, lambda draws: transport(draws, 8)),
    ('transport11', 1, lambda draws: transport(draws, 11)),
    ('staircase50', 1, lambda draws: staircase(draws, 10, False)),
    ('staircost50', 1, lambda draws: staircase(draws, 10, True)),
    ('denseqp10', 1, lambda draws: dense_quadratic(draws, 10)),
    ('project40', 1, lambda draws: projection(draws, 40)),
    ('project127', 1, lambda draws: projection(draws, 127)),
    ('knapsack12', 1, lambda draws: knapsack(draws, 12)),
    ('knapsack20', 1, lambda draws: knapsack(draws, 20)),
    ('knapsack40', 1, lambda draws: knapsack(draws, 40)),
    ('cover30x40', 1, lambda draws: cover(draws, 30, 40)),
    ('assign8', 1, lambda draws: assignment(draws, 8)),
    ('charge6', 1, lambda draws: charges(draws, 6)),
]


def main(words):
    if not words:
        sys.exit(__doc__)
    folder = Path(words[0])
    unknown = set(words[1:]) - {name for name, _, _ in PROGRAMS}
    if unknown:
        sys.exit('There is no program ' + ', '.join(sorted(unknown)))
    folder.mkdir(parents=True, exist_ok=True)
    for name, seed, make in PROGRAMS:
        if len(words) == 1 or name in words[1:]:
            (folder / (name + '.mps')).write_text(make(Draws(seed)).text(name))


if __name__ == '__main__':
    main(sys.argv[1:])
