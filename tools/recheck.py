#!/usr/bin/env python3
"""Checks a certificate as `qp check` does, without anything of qp.

    cat program.mps certificate.txt | python3 tools/recheck.py

Standard input, the line that is printed and the exit status are those of `qp check`: ACCEPTED (0), FILE line kind (1)
or REJECTED rule place (7). Numbers have no limit here, so nothing is ever WITHHELD, and a certificate that follows
SITE CHECK in the answer of `qp solve` is checked too. It begins behind the first line END of that answer:

    qp solve < program.mps > answer.txt
    (cat program.mps; sed '1,/^END$/d' answer.txt) | python3 tools/recheck.py

It was written from docs/PROGRAMS.md and docs/CERTIFICATES.md, not from the code of qp. A number above 2^127 - 1 in the
text of the program or of the certificate is refused as these two say; only what is calculated has no limit.

What it trusts: Python, its whole numbers and fractions.Fraction, the operating system, those two documents, and that
the input is the one that is meant. What it doesn't trust: whoever made the certificate, and all of qp, its proofs and
the toolchain that made them. Nothing is proved of this file; it is short, so read it.
"""

import io
import re
import sys
from dataclasses import dataclass, field
from fractions import Fraction
from math import lcm

MOST = 2 ** 127 - 1
MOST_INPUT, MOST_PROGRAM, MOST_NAME = 2 ** 30, 2 ** 20, 64
MOST_ROWS = MOST_COLUMNS = 128
MOST_LINES = {b"SQUARE": 128, b"BRANCH": 20256}


class Fault(Exception):
    """The input isn't taken: the kind, and the line unless it is the last one that was read."""


class Rejected(Exception):
    """A test of the certificate fails: its rule and place."""


def fault_if(kind, holds):
    if holds:
        raise Fault(kind)


def test(rule, place, holds):
    if not holds:
        raise Rejected(rule, place)


class Lines:
    """The lines of the input one by one, the number of the last that was read, and the bytes up to its end."""

    def __init__(self, text):
        self.file, self.number, self.bytes = io.BytesIO(text), 0, 0

    def next(self):
        """The next line with its LF; behind the last one an empty line, which is counted too."""
        line = self.file.readline()
        self.number += 1
        self.bytes += len(line)
        return line


def is_comment(line):
    return line.startswith(b"*")


# Numbers. Whole ones are kept as int, which mixes exactly with Fraction.

DECIMAL = re.compile(rb"([+-]?)(?=\.?\d)(\d*)(?:\.(\d*))?(?:[eEdD]([+-]?)(\d+))?")
FRACTION = re.compile(rb"([+-]?)(\d+)/(0*[1-9]\d*)")
CANONICAL = re.compile(rb"(-?)([1-9]\d*)(?:/([2-9]|[1-9]\d+))?")


def exact(sign, above, below):
    number = Fraction(-above if sign == b"-" else above, below)
    return number.numerator if number.denominator == 1 else number


def is_past(number):
    return max(abs(number.numerator), number.denominator) > MOST


def numeral(digits):
    """What the digits say; of long ones only that it is past."""
    digits = digits.lstrip(b"0") or b"0"
    return int(digits) if len(digits) <= 39 else MOST + 1


def decimal_number(sign, whole, behind, exponent_sign, exponent):
    digits = (whole + behind).rstrip(b"0")
    size = numeral(digits)
    shift = numeral(exponent) * (-1 if exponent_sign == b"-" else 1) + len(whole) - len(digits)
    if size == 0:
        return 0
    if size > MOST or abs(shift) > 127:  # beyond that, 2^128 or more is left above or below the line
        return MOST + 1
    return exact(sign, size * 10 ** max(shift, 0), 10 ** max(-shift, 0))


def fraction_number(sign, above, below):
    above, below = numeral(above), numeral(below)
    return MOST + 1 if max(above, below) > MOST else exact(sign, above, below)


def program_number(text):
    decimal, fraction = DECIMAL.fullmatch(text), FRACTION.fullmatch(text)
    fault_if("NumberText", not decimal and not fraction)
    return decimal_number(*decimal.groups(b"")) if decimal else fraction_number(*fraction.groups())


def certificate_number(word, text):
    if text == b"0":
        number = 0
    else:
        match = CANONICAL.fullmatch(text)
        fault_if("CertNumber", not match)
        above, below = numeral(match[2]), numeral(match[3] or b"1")
        fault_if("CertPast", max(above, below) > MOST)
        number = exact(match[1], above, below)
        fault_if("CertNumber", number.denominator != below)
    fault_if("CertNumber", number == 0 and word not in (b"VALUE", b"BRANCH") or number < 0 and word == b"SQUARE"
             or number.denominator != 1 and word == b"BRANCH")
    return number


# The program. Vectors are dicts of numbers by place; places count from 0, and what has no number is 0.

def dot(one, other):
    return sum(number * other[j] for j, number in one.items() if j in other)


@dataclass
class Row:
    kind: bytes
    entries: dict = field(default_factory=dict)
    right: object = None  # of the file, None where it has none
    range: object = None
    low: object = None  # None: no such side
    high: object = None

    def set_sides(self):
        right, size = self.right or 0, abs(self.range or 0)
        below = self.kind == b"L" or self.kind == b"E" and (self.range or 0) < 0
        self.low = None if self.kind == b"L" and self.range is None else right - size if below else right
        self.high = None if self.kind == b"G" and self.range is None else right if below else right + size


@dataclass
class Column:
    marked: bool
    low: object = 0  # None: no such bound
    high: object = None
    low_told: bool = False

    def set_bound(self, kind, number):
        if kind in (b"UP", b"UI") and number < 0 and not self.low_told:
            self.low = None
        if kind in (b"LO", b"LI", b"FX", b"FR", b"MI", b"BV"):
            self.low = None if kind in (b"FR", b"MI") else 0 if kind == b"BV" else number
            self.low_told = True
        if kind in (b"UP", b"UI", b"FX", b"FR", b"PL", b"BV"):
            self.high = None if kind in (b"FR", b"PL") else 1 if kind == b"BV" else number
        self.marked = self.marked or kind in (b"BV", b"LI", b"UI")


@dataclass
class Program:
    objective: Row = None
    constant: object = 0
    rows: list = field(default_factory=list)
    row_places: dict = field(default_factory=dict)  # by name
    columns: list = field(default_factory=list)
    column_places: dict = field(default_factory=dict)
    quadratic: list = field(default_factory=list)  # the rows of Q

    def curve(self, vector):
        """Q times the vector."""
        product = {}
        for k, number in vector.items():
            for j, entry in self.quadratic[k].items():
                product[j] = product.get(j, 0) + entry * number
        return product


QUADRATIC = (b"QUADOBJ", b"QMATRIX", b"DMATRIX")
TAIL = (b"RHS", b"RANGES", b"BOUNDS", *QUADRATIC, b"ENDATA")
NEXT_SECTIONS = {None: (b"NAME", b"ROWS"), b"NAME": (b"ROWS",), b"ROWS": (b"COLUMNS",), b"COLUMNS": TAIL}
NUMBER_BOUNDS, OTHER_BOUNDS = (b"UP", b"LO", b"FX", b"LI", b"UI"), (b"FR", b"MI", b"PL", b"BV")


class ProgramReader:
    def __init__(self, lines):
        self.lines, self.program = lines, Program()
        self.section, self.next_sections = None, NEXT_SECTIONS[None]
        self.rows = {}  # by name, those of kind N too
        self.in_stretch = False
        self.used_sets = {}  # by section
        self.ranges = []  # the line and the row of each
        self.pairs = {}  # entries of Q and their lines, by pair of columns
        self.in_triangle = False  # whether a pair stands for both triangles

    def read(self):
        while self.section != b"ENDATA":
            line = self.lines.next()
            fault_if("NoEnd", not line)
            self.read_line(line)
        self.set_sides()
        self.set_quadratic()
        return self.program

    def read_line(self, line):
        body = line.removesuffix(b"\n")
        fault_if("TextLong", body and self.lines.bytes - len(line) + len(body) > MOST_PROGRAM)
        if is_comment(body):
            return
        body = body.removesuffix(b"\r")
        fault_if("NotAscii", any(byte != 9 and not 32 <= byte <= 126 for byte in body))
        fields = body.split()
        if fields and body[0] not in b" \t":
            self.read_header(fields[0])
        elif fields:
            fault_if("SectionOrder", self.section in (None, b"NAME"))
            self.READERS[self.section](self, fields)

    def read_header(self, word):
        fault_if("MaxSense", word == b"OBJSENSE")
        fault_if("UnknownSection", word not in (b"NAME", b"ROWS", b"COLUMNS", *TAIL))
        fault_if("SectionOrder", word not in self.next_sections)
        fault_if("NoObjective", word == b"COLUMNS" and not self.program.objective)
        gone = QUADRATIC if word in QUADRATIC else (word,)
        self.next_sections = NEXT_SECTIONS.get(word) or tuple(set(self.next_sections) - set(gone))
        self.section = word

    def resolve(self, new_names, known, names, texts, factor=1):
        """What is known by the names, and the numbers of the texts."""
        fault_if("NameLong", any(len(name) > MOST_NAME for name in (*new_names, *names)))
        fault_if("NameUnknown", any(name not in known for name in names))
        numbers = [program_number(text) for text in texts]
        fault_if("NumberPast", any(is_past(number) or is_past(factor * number) for number in numbers))
        return [known[name] for name in names], [factor * number for number in numbers]

    def read_row(self, fields):
        fault_if("RowKind", fields[0] not in (b"N", b"L", b"G", b"E"))
        fault_if("Fields", len(fields) != 2)
        kind, name = fields
        fault_if("Marker", name == b"'MARKER'")
        self.resolve([name], {}, [], [])
        fault_if("NameTwice", name in self.rows)
        row = self.rows[name] = Row(kind)
        if kind != b"N":
            fault_if("TooMany", len(self.program.rows) == MOST_ROWS)
            self.program.row_places[name] = len(self.program.rows)
            self.program.rows.append(row)
        elif not self.program.objective:
            self.program.objective = row

    def is_free(self, row):
        """Whether it is of kind N and not the objective."""
        return row.kind == b"N" and row is not self.program.objective

    def read_column(self, fields):
        fault_if("Fields", len(fields) not in (3, 5))
        if len(fields) == 3 and fields[1] == b"'MARKER'":
            return self.read_marker(*fields)
        name, places = fields[0], self.program.column_places
        rows, numbers = self.resolve([name], self.rows, fields[1::2], fields[2::2])
        place = places.get(name, len(places))
        for row, number in zip(rows, numbers):
            fault_if("EntryTwice", place in row.entries and not self.is_free(row))
            row.entries[place] = number
        if name not in places:
            fault_if("TooMany", place == MOST_COLUMNS)
            places[name] = place
            self.program.columns.append(Column(self.in_stretch))

    def read_marker(self, name, _, word):
        fault_if("Marker", word != (b"'INTEND'" if self.in_stretch else b"'INTORG'"))
        self.resolve([name], {}, [], [])
        self.in_stretch = not self.in_stretch

    def is_used(self, set_name):
        return self.used_sets.setdefault(self.section, set_name) == set_name

    def read_sides(self, fields):
        """A line of RHS or RANGES."""
        fault_if("Fields", not 2 <= len(fields) <= 5)
        set_name = fields.pop(0) if len(fields) % 2 else b""
        rows, numbers = self.resolve([set_name], self.rows, fields[0::2], fields[1::2])
        told = "right" if self.section == b"RHS" else "range"
        for row, number in zip(rows, numbers) if self.is_used(set_name) else ():
            fault_if("EntryTwice", getattr(row, told) is not None and not self.is_free(row))
            setattr(row, told, number)
            if told == "range":
                self.ranges.append((self.lines.number, row))

    def read_bound(self, fields):
        kind, *rest = fields
        fault_if("BoundKind", kind not in (*NUMBER_BOUNDS, *OTHER_BOUNDS))
        fault_if("Fields", len(rest) not in ((2, 3) if kind in NUMBER_BOUNDS else (1, 2, 3)))
        texts = [rest.pop()] if kind in NUMBER_BOUNDS or len(rest) == 3 else []
        column_name, set_name = rest[-1], rest[0] if len(rest) == 2 else b""
        places, numbers = self.resolve([set_name], self.program.column_places, [column_name], texts)
        if self.is_used(set_name):
            self.program.columns[places[0]].set_bound(kind, *numbers or [None])

    def read_pairs(self, fields):
        """A line of a quadratic section."""
        fault_if("Fields", len(fields) not in (3, 5))
        self.in_triangle = self.section == b"QUADOBJ"
        (j, *others), numbers = self.resolve([], self.program.column_places, [fields[0], *fields[1::2]], fields[2::2],
                                             2 if self.section == b"DMATRIX" else 1)
        for k, number in zip(others, numbers):
            fault_if("EntryTwice", (j, k) in self.pairs or self.in_triangle and (k, j) in self.pairs)
            self.pairs[j, k] = number, self.lines.number

    READERS = {b"ROWS": read_row, b"COLUMNS": read_column, b"RHS": read_sides, b"RANGES": read_sides,
               b"BOUNDS": read_bound, b"QUADOBJ": read_pairs, b"QMATRIX": read_pairs, b"DMATRIX": read_pairs}

    def set_sides(self):
        for row in self.program.rows:
            row.set_sides()
        for line, row in self.ranges:
            if any(side is not None and is_past(side) for side in (row.low, row.high)):
                raise Fault("RangePast", line)
        self.program.constant = -(self.program.objective.right or 0)

    def set_quadratic(self):
        self.program.quadratic = [{} for _ in self.program.columns]
        for (j, k), (number, line) in self.pairs.items():
            self.program.quadratic[j][k] = number
            if self.in_triangle:
                self.program.quadratic[k][j] = number
            elif self.pairs.get((k, j), (0, line))[0] != number:
                raise Fault("NotSymmetric", line)


# The text of the certificate. It is read in blocks: a line and the entry lines behind it.

ENTRY = ("column", "number")
FIELDS = {  # what stands behind a word
    b"VALUE": ("number",), b"SQUARE": ("number",), b"CROSS": ("column",), b"Y": ("row", "number"), b"BRANCH": ENTRY,
    b"POINT": ENTRY, b"RAY": ENTRY, b"VECTOR": ENTRY, b"COEF": ENTRY, b"W": ENTRY}
ENTRIES = {  # the entry lines of a block, in their order
    b"VALUE": (b"POINT",), b"UNBOUNDED": (b"POINT", b"RAY"), b"SQUARE": (b"COEF",), b"BOUND": (b"W", b"Y"),
    b"FARKAS": (b"Y",), b"NOTCONVEX": (b"VECTOR",)}
DUE = {b"OPTIMAL": 1, b"INFEASIBLE": 1, b"BRANCH": 1, b"BOUND": -1, b"FARKAS": -1, b"CROSS": -1}  # trees


@dataclass
class Block:
    word: bytes
    place: int = None  # of its column
    number: object = None
    entries: dict = field(default_factory=dict)  # for each of its entry words a vector


def next_heads(verdict, word, due):
    """The words that may begin a block behind one that began with this word, where so many trees are due."""
    if word is None:
        return b"OPTIMAL", b"INFEASIBLE", b"UNBOUNDED", b"NOTCONVEX"
    if word == b"OPTIMAL":
        return (b"VALUE",)
    squares = (b"SQUARE",) if word in (b"VALUE", b"UNBOUNDED", b"SQUARE") else ()
    bound = (b"BOUND",) if verdict == b"OPTIMAL" else ()
    return (*squares, *bound, b"BRANCH", b"FARKAS", b"CROSS") if due else (*squares, b"END")


class CertificateReader:
    def __init__(self, program, lines):
        self.places = {"column": program.column_places, "row": program.row_places}
        self.lines, self.counts = lines, dict.fromkeys(MOST_LINES, 0)

    def blocks(self):
        """The blocks, END the last, each as soon as it is read; so a fault may come behind it."""
        line = self.first_line()
        block, verdict, due, entry_words = Block(None), None, 0, ()
        heads = next_heads(None, None, 0)
        while block.word != b"END":
            word, place, number = self.read_line(line, heads, entry_words)
            if word in entry_words:
                entries = block.entries[word]
                fault_if("CertOrder", entries and place <= next(reversed(entries)))
                entries[place] = number
                entry_words = entry_words[entry_words.index(word):]
            else:
                self.count(word)
                if block.word:
                    yield block
                verdict, due = verdict or word, due + DUE.get(word, 0)
                heads, entry_words = next_heads(verdict, word, due), ENTRIES.get(word, ())
                block = Block(word, place, number, {entry_word: {} for entry_word in entry_words})
            line = self.lines.next()
        fault_if("CertAfter", line)
        yield block

    def first_line(self):
        """The first line that is neither blank nor a comment."""
        line = self.lines.next()
        while line and (is_comment(line) or not line.removesuffix(b"\n").removesuffix(b"\r").strip(b" \t")):
            line = self.lines.next()
        return line

    def read_line(self, line, heads, entry_words):
        """Its word, one of these, with the place of its name and its number."""
        fault_if("CertEnd", not line.endswith(b"\n"))
        word, *texts = line[:-1].split(b" ")
        kinds = FIELDS.get(word, ())
        fault_if("CertLine", word not in (*heads, *entry_words) or len(texts) != len(kinds) or b"" in texts)
        place = number = None
        for kind, text in zip(kinds, texts):
            if kind == "number":
                number = certificate_number(word, text)
            else:
                place = self.places[kind].get(text)
                fault_if("CertName", place is None)
        return word, place, number

    def count(self, word):
        if word in self.counts:
            self.counts[word] += 1
            fault_if("CertMany", self.counts[word] > MOST_LINES[word])


# The check.

@dataclass
class Cut:
    column: int
    k: int
    low: object  # the column's bounds before it
    high: object
    is_above: bool = False


class Region:
    """The bounds at a node, and the cuts on the way to it."""

    def __init__(self, columns):
        self.lows, self.highs = [column.low for column in columns], [column.high for column in columns]
        self.cuts = []

    def go_left(self, j, k):
        low, high = self.lows[j], self.highs[j]
        self.cuts.append(Cut(j, k, low, high))
        self.highs[j] = k if high is None else min(high, k)

    def go_on(self):
        """From a leaf to the right tree of the last branch whose right tree is still to come."""
        while self.cuts and self.cuts[-1].is_above:
            cut = self.cuts.pop()
            self.lows[cut.column] = cut.low
        if self.cuts:
            cut = self.cuts[-1]
            cut.is_above = True
            self.highs[cut.column] = cut.high
            self.lows[cut.column] = cut.k + 1 if cut.low is None else max(cut.low, cut.k + 1)


def check_point(program, point):
    for i, row in enumerate(program.rows):
        number = dot(row.entries, point)
        test(1, i + 1, (row.low is None or row.low <= number) and (row.high is None or number <= row.high))
    for j, column in enumerate(program.columns):
        number = point.get(j, 0)
        test(2, j + 1, (column.low is None or column.low <= number) and (column.high is None or number <= column.high))
        test(3, j + 1, not column.marked or number.denominator == 1)


def check_value(program, point, claimed):
    half = dot(program.curve(point), point) * Fraction(1, 2)
    test(4, 0, half + dot(program.objective.entries, point) + program.constant == claimed)


def check_squares(program, blocks):
    """Takes the squares, and gives the block behind them."""
    rests = [dict(entries) for entries in program.quadratic]
    block = next(blocks)
    while block.word == b"SQUARE":
        form = block.entries[b"COEF"]
        for j, one in form.items():
            for k, other in form.items():
                rests[j][k] = rests[j].get(k, 0) - block.number * one * other
        block = next(blocks)
    for j, entries in enumerate(rests):
        test(5, j + 1, not any(entries.values()))
    return block


def side_product(number, low, high, node):
    side = low if number > 0 else high
    test(7, node, number == 0 or side is not None)
    return number * side if number else 0


def least_sum(program, region, gradient, multipliers, node):
    """S of a leaf. It is summed in whole multipliers, so times a scale, which is faster."""
    scale = lcm(*(multiplier.denominator for multiplier in multipliers.values()))
    total, residuals = 0, {j: scale * number for j, number in gradient.items()}
    for i, multiplier in multipliers.items():
        row, whole = program.rows[i], int(scale * multiplier)
        total += side_product(whole, row.low, row.high, node)
        for j, entry in row.entries.items():
            residuals[j] = residuals.get(j, 0) - whole * entry
    for j, residual in residuals.items():
        total += side_product(residual, region.lows[j], region.highs[j], node)
    return Fraction(total) / scale


def check_leaf(program, region, value, block, node):
    if block.word == b"CROSS":
        low, high = region.lows[block.place], region.highs[block.place]
        test(10, node, low is not None and high is not None and low > high)
    elif block.word == b"FARKAS":
        test(9, node, least_sum(program, region, {}, block.entries[b"Y"], node) > 0)
    else:
        point = block.entries[b"W"]
        gradient = program.curve(point)
        half = dot(gradient, point) * Fraction(1, 2)
        for j, cost in program.objective.entries.items():
            gradient[j] = gradient.get(j, 0) + cost
        total = least_sum(program, region, gradient, block.entries[b"Y"], node)
        test(8, node, program.constant - half + total >= value)


def check_tree(program, value, block, blocks):
    region, node = Region(program.columns), 1
    while block.word != b"END":
        if block.word == b"BRANCH":
            test(6, node, program.columns[block.place].marked)
            region.go_left(block.place, block.number)
        else:
            check_leaf(program, region, value, block, node)
            region.go_on()
        block, node = next(blocks), node + 1


def check_ray(program, ray):
    for i, row in enumerate(program.rows):
        test(11, i + 1, keeps_sides(dot(row.entries, ray), row))
    for j, column in enumerate(program.columns):
        test(12, j + 1, keeps_sides(ray.get(j, 0), column))
    for j, number in sorted(program.curve(ray).items()):
        test(13, j + 1, number == 0)
    test(14, 0, dot(program.objective.entries, ray) < 0)


def keeps_sides(step, sides):
    return (sides.low is None or step >= 0) and (sides.high is None or step <= 0)


def check(program, blocks):
    block = next(blocks)
    if block.word == b"OPTIMAL":
        block = next(blocks)
        check_point(program, block.entries[b"POINT"])
        check_value(program, block.entries[b"POINT"], block.number)
        check_tree(program, block.number, check_squares(program, blocks), blocks)
    elif block.word == b"INFEASIBLE":
        check_tree(program, None, next(blocks), blocks)
    elif block.word == b"UNBOUNDED":
        check_point(program, block.entries[b"POINT"])
        check_ray(program, block.entries[b"RAY"])
        check_squares(program, blocks)
    else:
        vector = block.entries[b"VECTOR"]
        test(15, 0, dot(program.curve(vector), vector) < 0)


def answer(text):
    """The line that is printed, and the exit status."""
    if len(text) > MOST_INPUT:
        return "FILE 0 TextLong", 1
    lines, printed = Lines(text), ("ACCEPTED", 0)
    try:
        program = ProgramReader(lines).read()
        blocks = CertificateReader(program, lines).blocks()
        try:
            check(program, blocks)
        except Rejected as rejected:
            printed = "REJECTED %d %d" % rejected.args, 7
        for _ in blocks:  # a fault of the text comes first, wherever it is
            pass
    except Fault as fault:
        kind, line = (*fault.args, lines.number)[:2]
        printed = "FILE %d %s" % (line, kind), 1
    return printed


if __name__ == "__main__":
    words, exit_status = answer(sys.stdin.buffer.read(MOST_INPUT + 1))
    print(words)
    sys.exit(exit_status)
