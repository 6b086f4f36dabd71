"""The call from the bench host: a book's bytes in; the bytes of its report back, or the refusal's number made negative.

What is wrong with a book, and the report of a right one, are those of `file`. Document 02, order 4, adds where short
buffers stand among the refusals and what becomes of the buffers.
"""

from functools import lru_cache

import file
from file import (
    BAD, EXAMPLE, GOOD, HEAVY, MOST_BYTES, OLD_SIZE, PLAIN, REPORT_WANTED, WIDE, book_file, bytes_read, example_files,
    file_of, report, run_file, widened,
)
from joins import JOIN
from making import ONE_EACH, block, written
from pairs import ANY_CASE, AT_MOST, BEFORE, EQUAL, EQUALITIES, EXACT
from shapes import WORK_WANTED, Refused, agree

# What the checking host has room for.
LONGEST_INPUT = 4_194_304
LONGEST_BOOK = 65_536
LONGEST_REPORT = 65_536
LONGEST_WORK = 131_072
MOST_CASES = 8192


# The expected line of a case.


@lru_cache(maxsize=None)
def ran(book):
    """The report of a book and 0, or nothing and the number of what is wrong with it."""
    try:
        text = run_file(book, REPORT_WANTED)
    except Refused as refusal:
        return b"", refusal.args[0]
    agree("the program's bytes", book, text, report(book))
    return text, 0


def refusal_due(book, report_length, work_length):
    """The number that is due, 0 for none: all that is wrong with the book comes before the buffers, the report last."""
    number = ran(book)[1]
    if number == 0 and work_length < WORK_WANTED:
        number = 4
    if number == 0 and report_length < REPORT_WANTED:
        number = 5
    return number


def case_read(line):
    report_length, work_length, field = line.split(" ")
    return bytes_read(field), int(report_length, 16), int(work_length, 16)


def expected_line(line):
    book, report_length, work_length = case_read(line)
    number = refusal_due(book, report_length, work_length)
    if number:
        return f"-{number} - kept kept"
    text = ran(book)[0]
    return f"{len(text)} {text.hex()} kept zeroed"


# Making cases.


class Cases:
    def __init__(self):
        self.made = {}

    def lent(self, book, report_length=REPORT_WANTED, work_length=WORK_WANTED):
        """A case, once only."""
        self.made[f"{report_length:x} {work_length:x} {book.hex() or '-'}"] = True

    def each(self, book, reports, works):
        for report_length in reports:
            for work_length in works:
                self.lent(book, report_length, work_length)


REPORTS = (0, OLD_SIZE, REPORT_WANTED - 1, REPORT_WANTED, REPORT_WANTED + 1, 40_000)
WORKS = (0, WORK_WANTED - 1, WORK_WANTED, WORK_WANTED + 1, 70_000)

# Too short and enough.
FEW_REPORTS = (0, REPORT_WANTED - 1, REPORT_WANTED)
FEW_WORKS = (0, WORK_WANTED - 1, WORK_WANTED)


def example_cases(cases):
    """The books of examples/ and document 01's, under both headings, with every length of both buffers."""
    for book in (EXAMPLE, WIDE, *example_files()):
        cases.each(book, REPORTS, WORKS)
    for book in example_files():
        cases.lent(widened(book))
    # A book whose rule says none, and one without rules.
    cases.each(file_of([written("a1..1"), written("b1..1")], [(EQUAL, 1, 2)]), REPORTS, WORKS)
    cases.each(file_of([GOOD], []), REPORTS, WORKS)


CROSSED, LARGE, EMPTY = ONE_EACH
LONG = [GOOD, block(b"a", 0, 126), block(b"a", 0, 125)]
OVER = (JOIN, 1, 2, 3)

# Each number that is about the book, with a book in which nothing else is wrong, and 0 with one in which nothing is;
# then books in which two things are wrong, with the number that is tried first.
ALONE = (
    (8, EXAMPLE[:-1]),
    (6, book_file([2], GOOD, [])),
    (2, file_of([GOOD, CROSSED], [(EQUAL, 1, 2)])),
    (10, file_of([GOOD, LARGE], [(EQUAL, 1, 2)])),
    (11, file_of([GOOD, EMPTY], [(EQUAL, 1, 2)])),
    (3, file_of([GOOD, HEAVY * 2], [(EQUAL, 1, 2)])),
    (7, file_of([GOOD, GOOD], [(EQUAL, 1, 1)])),
    (0, file_of([GOOD, GOOD], [(ANY_CASE, 1, 2)])),
    (7, file_of([GOOD, GOOD], [(EXACT, 1, 2, 1)])),
    (7, file_of([GOOD, GOOD], [(ANY_CASE, 1, 2, 1)])),
    (7, file_of([GOOD, GOOD], [(6, 1, 2)])),
    (12, file_of(LONG, [OVER])),
)
TOGETHER = (
    (8, book_file([2], GOOD, [])[:-1]),
    (8, file_of([BAD], [])[:-1]),
    (6, book_file([2], BAD, [])),
    (6, book_file([2], GOOD, [7, 7, 7, 7])),
    (2, file_of([block(b"", 252, 251)], [])),
    (10, file_of([block(b"", 0, 251)], [])),
    (2, file_of([CROSSED + LARGE], [])),
    (10, file_of([LARGE + CROSSED], [])),
    (11, file_of([EMPTY + CROSSED], [])),
    (11, file_of([HEAVY * 2 + EMPTY], [])),
    (3, file_of([HEAVY * 2, CROSSED], [])),
    (2, file_of([CROSSED, HEAVY * 2], [])),
    (3, file_of([HEAVY * 2], [(EQUAL, 1, 1)])),
    (2, file_of([*LONG, CROSSED], [OVER])),
    (7, file_of(LONG, [(JOIN, 2, 2, 3)])),
    (7, file_of(LONG, [(EQUAL, 1, 1), OVER])),
    (12, file_of(LONG, [(ANY_CASE, 1, 2), OVER])),
    (7, file_of(LONG, [(6, 1, 2), OVER])),
    (12, file_of(LONG, [OVER, (EQUAL, 1, 1)])),
    (12, file_of(LONG, [(EXACT, 1, 2), OVER, (ANY_CASE, 1, 2)])),
    (12, file_of(LONG, [(EXACT, 1, 2), OVER, (6, 1, 2)])),
)


def refused_cases(cases):
    """Every refusal of a book beside buffers that are too short: it comes before theirs, 4 before 5."""
    for number, book in ALONE + TOGETHER:
        agree("the number tried first", book, ran(book)[1], number)
        cases.each(book, FEW_REPORTS, FEW_WORKS)


def size_cases(cases):
    """Books of the greatest size and of one byte more, and next to none."""
    for book in (b"", b"\n", b"T", b"\0"):
        cases.each(book, FEW_REPORTS, FEW_WORKS)
    # No book in the grammar is as large as that: this one has more rules than it counts.
    filled = PLAIN + b"0 1 2 0\n" * 5000
    for number, size in ((8, OLD_SIZE), (8, OLD_SIZE + 1), (8, MOST_BYTES - 1), (8, MOST_BYTES), (9, MOST_BYTES + 1)):
        agree("the number tried first", size, ran(filled[:size])[1], number)
        cases.lent(filled[:size])
    for size in (MOST_BYTES, MOST_BYTES + 1):
        cases.lent(filled[:size], 0, WORK_WANTED - 1)
    cases.lent(b"Z" * 40_000)


def large_cases(cases):
    """The longest report, the most blocks and rules, the most blanks, and a run of many applications."""
    # 8 texts of 32 blocks, and as many counts of two digits as 250 characters allow.
    longest = [block([48 + number], 10, 10) * 25 + block((), 0, 0) * 7 for number in range(8)]
    cases.lent(file_of(longest, []), 40_000, 70_000)
    # With codes of all numbers of a base. The report is longer than it once could be, and does not fit into less.
    highest = [block([31 * number], 10, 10) * 25 + block((), 0, 0) * 7 for number in range(1, 9)]
    for rules in ([], [(BEFORE, 4, 5), (AT_MOST, 1, 8)], [(BEFORE, 5, 4)]):
        cases.lent(file_of(highest, rules, b"WIDE"))
    cases.each(file_of(highest, [], b"WIDE"), (OLD_SIZE, REPORT_WANTED - 1), (WORK_WANTED,))
    for rules in ([(AT_MOST, number % 7 + 1, 8) for number in range(16)], [(EQUAL, 7, 8)]):
        cases.each(file_of(longest, rules), (REPORT_WANTED - 1, REPORT_WANTED), (WORK_WANTED,))
    cases.lent(file_of([block([48 + number], 0, 7) * 32 for number in range(8)], [(AT_MOST, 1, 2), (BEFORE, 7, 8)] * 8))
    # Each round takes one character from either side of both texts.
    for most in (9, 99, 250):
        cases.lent(file_of([block(b"n", 0, most)] * 2, [(BEFORE, 1, 2)] * 15 + [(AT_MOST, 2, 1)]))
    shorter = [block(b"n", 0, 250), block(b"n", 0, 249), block(b"n", 1, 1)]
    cases.lent(file_of(shorter, [(JOIN, 1, 2, 3)] * 8 + [(AT_MOST, 1, 2)] * 8))
    # Nothing but padding, in all texts, equal but for it and then to the last blank.
    padding = [block(b" ", 250, 250), block(b" ", 0, 7) * 32, block((), 0, 0) * 32, *[block(b" n", 0, 250)] * 5]
    for kind in EQUALITIES:
        cases.lent(file_of(padding, [(EQUAL, number % 7 + 1, 8) for number in range(15)] + [(kind, 8, 3)]))


def sampled_cases(cases):
    """The files that `file` makes: all that are run, part of the refused ones, by turns with buffers of any length."""
    books = dict.fromkeys(bytes_read(line.split(" ")[2]) for line in file.all_cases())
    refused = 0
    for at, book in enumerate(books):
        if ran(book)[1] == 0:
            cases.lent(book)
            if at % 5 == 0:
                cases.lent(book, REPORTS[at % 6], WORKS[at // 6 % 5])
        else:
            refused += 1
            if refused % 3 == 0 and len(book) < 1000:
                cases.lent(book, REPORTS[at % 6], WORKS[at // 6 % 5])


def all_cases():
    file.hold_to_example()
    cases = Cases()
    example_cases(cases)
    refused_cases(cases)
    size_cases(cases)
    large_cases(cases)
    sampled_cases(cases)
    return list(cases.made)


def hold_to_room(lines):
    for line in lines:
        book, report_length, work_length = case_read(line)
        if len(book) > LONGEST_BOOK or report_length > LONGEST_REPORT or work_length > LONGEST_WORK:
            raise AssertionError(f"no room for this case: {line}")
    if len(lines) > MOST_CASES or sum(len(line) + 1 for line in lines) >= LONGEST_INPUT:
        raise AssertionError("no room for so many cases")
