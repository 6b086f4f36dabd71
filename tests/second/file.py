"""A book's file and the report of its run, as the program `narrow` reads and writes them.

Which line departs is found by two methods, held to each other: a scanner that goes through the bytes
and reads the book, and a regular expression for each kind of line.
"""

import re
from itertools import product
from pathlib import Path

from book import CASED, HIGH, PADDED, SERIAL, any_case_book, chain_book, join_book, merged_books, random_book
from groups import MOST_RULES, MOST_TEXTS, RULE_SIZE, book_of, four, merged, ran, shapes_at_end
from houses import (
    ALONE, APART, ARRANGED, KEPT, LATE, NARROWED, PARTED, QUICK, SPLICED, WORN, alone_books, drawn_book, graph_books,
    join_books, one_book, path_books, refused_books, shuffled, verdict_books,
)
from joins import JOIN
from making import (
    HIGH_ALPHABETS, HIGH_CASE_ALPHABETS, ONE_EACH, TWO_BAD, WORD_ENDS, Dice, block, high_unsound_blocks,
    hold_lines_to_room, many_blocks, unsound_blocks, words_of, written,
)
from narrow import TOGETHER, by_turns
from pairs import ANY_CASE, AT_MOST, BEFORE, CASED_EQUALITIES, EQUAL, EXACT
from shapes import ALL_CODES, BASE_SIZE, BLOCK_SIZE, MOST_BLOCKS, WORD_CODES, WORK_WANTED, Refused, agree

MOST_BYTES = 32_768
REPORT_WANTED = 32_768
MOST_NUMBER = 65_535
MOST_ALL_BLOCKS = 256

# What the first two were before document 02, order 10.
OLD_SIZE = 16_384

# The hex digits of a base under each heading of the blocks: codes up to 127, and all codes (document 02, order 10).
DIGITS = {b"BLOCKS": 32, b"WIDE": 64}

# What the program has room for.
LONGEST_FILE = 32_800
LONGEST_REPORT = 32_900

# Document 01's book, its rule with the fourth number of document 02, and what it prints by document 02, order 11.
EXAMPLE = b"""\
TEXTS 2
1
1
BLOCKS 2
0000000e000000000000000000000000 0 3
0000001c000000000000000000000000 2 2
RULES 1
0 1 2 0
"""
EXAMPLE_REPORT = b"""\
GROUP 1 STABLE 2
TEXTS 2
1
1
BLOCKS 2
0000000c000000000000000000000000 2 2
0000000c000000000000000000000000 2 2
"""

EXAMPLES = Path(__file__).resolve().parents[2] / "examples"


# Writing.


def numbers_line(numbers):
    return b" ".join(b"%d" % number for number in numbers) + b"\n"


def block_line(words, heading):
    *base, lower, upper = words
    value = sum(word << WORD_CODES * place for place, word in enumerate(base))
    return f"{value:0{DIGITS[heading]}x} {lower} {upper}\n".encode()


def texts_and_blocks(counts, words, heading):
    lines = [b"TEXTS %d\n" % len(counts), *(numbers_line([count]) for count in counts)]
    lines.append(b"%s %d\n" % (heading, len(words) // BLOCK_SIZE))
    lines += (block_line(words[at : at + BLOCK_SIZE], heading) for at in range(0, len(words), BLOCK_SIZE))
    return b"".join(lines)


def book_file(counts, words, rules, heading=b"BLOCKS"):
    """The file of a book, its rules as one row of numbers."""
    fours = [rules[at : at + RULE_SIZE] for at in range(0, len(rules), RULE_SIZE)]
    lines = [b"RULES %d\n" % len(fours), *map(numbers_line, fours)]
    return texts_and_blocks(counts, words, heading) + b"".join(lines)


# Reading, byte by byte. A line departs where the first byte stands that no file in the grammar has
# behind the bytes before it, or that is missing.


class Scanner:
    def __init__(self, file):
        self.file = file
        self.at = 0
        self.line = 1

    def depart(self):
        raise Refused(8, 0, self.line)

    def next(self):
        """The next byte, or None at the end."""
        return self.file[self.at] if self.at < len(self.file) else None

    def word(self, word):
        for byte in word:
            if self.next() != byte:
                self.depart()
            self.at += 1

    def newline(self):
        self.word(b"\n")
        self.line += 1

    def number(self, most):
        value, digits = 0, 0
        while self.next() is not None and 48 <= self.next() <= 57:
            if digits > 0 and value == 0:
                self.depart()
            value = 10 * value + self.next() - 48
            if value > most:
                self.depart()
            digits += 1
            self.at += 1
        if digits == 0:
            self.depart()
        return value

    def base(self, digits):
        """The numbers of a base, the one of the codes 0 to 63 first."""
        value = 0
        for _ in range(digits):
            if self.next() is None or self.next() not in b"0123456789abcdef":
                self.depart()
            value = 16 * value + b"0123456789abcdef".index(self.next())
            self.at += 1
        return [value >> WORD_CODES * place & 2**WORD_CODES - 1 for place in range(BASE_SIZE)]

    def section(self, word, most, content):
        """The numbers of the lines behind a count."""
        self.word(word + b" ")
        count = self.number(most)
        self.newline()
        numbers = []
        for _ in range(count):
            numbers += content()
            self.newline()
        return numbers

    def text(self):
        return [self.number(MOST_NUMBER)]

    def block(self, digits):
        words = self.base(digits)
        for _ in range(2):
            self.word(b" ")
            words.append(self.number(MOST_NUMBER))
        return words

    def rule(self):
        numbers = [self.number(MOST_NUMBER)]
        while len(numbers) < RULE_SIZE:
            self.word(b" ")
            numbers.append(self.number(MOST_NUMBER))
        return numbers

    def book(self):
        counts = self.section(b"TEXTS", MOST_TEXTS, self.text)
        heading = b"WIDE" if self.next() == ord("W") else b"BLOCKS"
        words = self.section(heading, MOST_ALL_BLOCKS, lambda: self.block(DIGITS[heading]))
        rules = self.section(b"RULES", MOST_RULES, self.rule)
        if self.next() is not None:
            self.depart()
        return counts, words, rules, heading


# Reading, line by line: the first line of each section, after a heading that it may have; then under each heading its
# other lines, and the least such line.

NUMBER = rb"(?:0|[1-9][0-9]{0,3}|[1-5][0-9]{4}|6[0-4][0-9]{3}|65[0-4][0-9]{2}|655[0-2][0-9]|6553[0-5])"
HEADS = {
    b"TEXTS": rb"(TEXTS) ([0-8])",
    b"BLOCKS": rb"(BLOCKS|WIDE) (0|[1-9][0-9]?|1[0-9]{2}|2[0-4][0-9]|25[0-6])",
    b"RULES": rb"(RULES) ([0-9]|1[0-6])",
}
OTHERS = {
    b"TEXTS": (NUMBER, b"0"),
    b"BLOCKS": (rb"[0-9a-f]{32} %s %s" % (NUMBER, NUMBER), b"0" * 32 + b" 0 0"),
    b"WIDE": (rb"[0-9a-f]{64} %s %s" % (NUMBER, NUMBER), b"0" * 64 + b" 0 0"),
    b"RULES": (rb"%s %s %s %s" % (NUMBER, NUMBER, NUMBER, NUMBER), b"0 0 0 0"),
}


def departs_by_patterns(file):
    """The number of the first line that departs, or None."""
    # What stands behind the last newline is no whole line; if it is empty it is none at all.
    *lines, unfinished = file.split(b"\n")
    at = 0
    for head in HEADS.values():
        found = re.fullmatch(head, lines[at]) if at < len(lines) else None
        at += 1
        if found is None:
            return at
        other, _ = OTHERS[found[1]]
        for _ in range(int(found[2])):
            at += 1
            if at > len(lines) or re.fullmatch(other, lines[at - 1]) is None:
                return at
    return None if at == len(lines) and not unfinished else at + 1


def completed(lines):
    """A file that begins with these lines, all of them in the grammar."""
    lines = list(lines)
    at = 0
    for heading, head in HEADS.items():
        if at == len(lines):
            lines.append(heading + b" 0")
        found = re.fullmatch(head, lines[at])
        _, least = OTHERS[found[1]]
        at += 1 + int(found[2])
        lines += [least] * (at - len(lines))
    return b"".join(line + b"\n" for line in lines)


def book_read(file):
    """Block counts, blocks and rules as three rows of numbers, and the heading of the blocks."""
    if len(file) > MOST_BYTES:
        raise Refused(9, 0, 0)
    try:
        book = Scanner(file).book()
    except Refused as refusal:
        line = refusal.args[2]
        agree("the line that departs", file, line, departs_by_patterns(file))
        # The lines before it begin some file.
        begun = completed(file.split(b"\n")[: line - 1])
        agree("the lines before", file, departs_by_patterns(begun), None)
        agree("the lines before", file, book_file(*Scanner(begun).book()), begun)
        raise
    agree("the line that departs", file, None, departs_by_patterns(file))
    agree("the book written again", file, book_file(*book), file)
    return book


# The report.


def run_file(file, room):
    """The report of a file's book, for an output of so many bytes. Refusals in order: 9, 8, the book's, then 5."""
    counts, words, rules, heading = book_read(file)
    shapes, fours = book_of(counts, words, rules)
    if room < REPORT_WANTED:
        raise Refused(5, 0, 0)
    groups = ran(shapes, fours)
    heads = (f"GROUP {group.name} {group.verdict.upper()} {group.count}\n".encode() for group in groups)
    words = [word for shape in shapes_at_end(groups) for word in words_of(shape)]
    return b"".join(heads) + texts_and_blocks(counts, words, heading)


def report(file):
    """What the program prints."""
    try:
        return run_file(file, REPORT_WANTED)
    except Refused as refusal:
        return b"REFUSED %d %d %d\n" % refusal.args


def hold_to_example():
    agree("document 01's program", EXAMPLE, report(EXAMPLE), EXAMPLE_REPORT)


# The expected line of a case.


def bytes_read(field):
    return b"" if field == "-" else bytes.fromhex(field)


def expected_line(line):
    _, length, field = line.split(" ")
    length = int(length, 16)
    try:
        text = run_file(bytes_read(field), length)
    except Refused as refusal:
        # All of the output is as on entry.
        return f"{refusal.line} rest {length}"
    if len(text) > REPORT_WANTED or b"Z" in text or b"/" in text:
        raise AssertionError(f"a report that cannot be shown: {text}")
    return f"report {len(text)} {text.decode().replace(chr(10), '/')} rest {length - len(text)}"


# Making cases.


class Cases:
    def __init__(self):
        self.made = {}

    @property
    def lines(self):
        return list(self.made)

    def file(self, file, length=REPORT_WANTED):
        """A case, once only."""
        self.made[f"F {length:x} {file.hex() or '-'}"] = True

    def lent(self, counts, words, rules):
        self.file(book_file(counts, words, rules))

    def book(self, texts, rules, heading=b"BLOCKS"):
        """A case of texts, each a shape's numbers, and rules, each as `four` takes it."""
        self.file(file_of(texts, rules, heading))


def file_of(texts, rules, heading=b"BLOCKS"):
    words = [word for text in texts for word in text]
    counts = [len(text) // BLOCK_SIZE for text in texts]
    return book_file(counts, words, [number for rule in rules for number in four(rule)], heading)


GOOD = block(b"ab", 0, 3)
BAD = block(b"a", 2, 1)
HEAVY = block(b"a", 0, 200)

# A book of several lines of each kind, stable in its second round.
PLAIN = file_of(
    [written("{a..z}0..3 {0..9}1..4"), written("{b..y}2..2 {5..9}1..1"), written("{0..9,a..z}0..9")],
    [(EQUAL, 1, 2), (AT_MOST, 2, 3)],
)


def example_files(names="*"):
    """The books of examples/, or those with such names."""
    return [path.read_bytes() for path in sorted(EXAMPLES.glob(f"{names}.book"))]


def older_files():
    """The books of examples/ but for those of the year, whose cases stand behind all others."""
    return [file for file in example_files() if file not in example_files("year_*")]


def picked_cases(cases):
    for file in (EXAMPLE, *older_files(), PLAIN):
        cases.file(file)
    cases.book([written("a1..1"), written("b1..1")], [(EQUAL, 1, 2)])
    cases.book([written("a0..2"), written("a0..1")], [(BEFORE, 1, 2)])
    cases.book([written("a1..1"), written("a1..1")], [(BEFORE, 1, 2)])
    cases.book([written("a0..1 a0..1"), written("a1..1")], [(EQUAL, 1, 2)])
    # No rules.
    for texts in (["a0..1"], ["empty 0..0"], ["a0..1", "b2..250"], ["a0..1"] * 8, ["A0..7 " * 32], ["A250..250"]):
        cases.book([written(text) for text in texts], [])
    # Each code of a base on its own place, and counts of one to three digits.
    for code in range(128):
        cases.book([block([code], code % 3, code)] if code else [block([code], 1, 1)], [])
    cases.book([block(range(128), 0, 250), block(range(64), 9, 10), block(range(64, 128), 99, 100)], [])
    for count in (1, 2, 9, 10, 11, 31, 32):
        cases.book([block(b"a", 0, 1) * count, block(b"b", 1, 1)], [(BEFORE, 1, 2)])


def round_cases(cases):
    """Books that need several rounds, their rules in several orders, both verdicts."""
    for most in (1, 2, 5, 20):
        text = block(b"n", 0, most)
        cases.book([text] * 2, [(BEFORE, 1, 2), (BEFORE, 2, 1)])
        cases.book([text] * 3, [(BEFORE, 3, 1), (BEFORE, 2, 3), (BEFORE, 1, 2)])
        cases.book([text] * 3, [(AT_MOST, 1, 2), (EQUAL, 2, 3), (AT_MOST, 3, 1)])
    for count in (3, 8):
        chain = [(BEFORE, text, text + 1) for text in range(1, count)]
        for most in (count - 2, count - 1, count + 3):
            for rules in (chain, chain[::-1], chain[1::2] + chain[::2], chain + chain[::-1]):
                cases.book([block(b"m", 0, most)] * count, rules)
    # Over 100 applications.
    cases.book([block(b"m", 0, 250)] * 2, [(BEFORE, 1, 2), (BEFORE, 2, 1)])
    cases.book([written("a0..9"), written("a3..5")], [(EQUAL, 1, 2)] * 16)


def random_cases(cases):
    dice = Dice(41)
    for number in range(105):
        texts, rules = chain_book(dice) if number % 5 < 2 else random_book(dice)
        cases.book(texts, rules)
        if number % 4 == 0 and len(rules) > 1:
            cases.book(texts, shuffled(dice, rules))


def large_cases(cases):
    """The most texts, blocks and rules, and lines with large numbers."""
    every = [(number % 3, number % 8 + 1, (number + 1 + number // 8) % 8 + 1) for number in range(MOST_RULES)]
    cases.book([block(b"ab", 0, 3)] * 8, [(min(kind, AT_MOST), one, other) for kind, one, other in every])
    cases.book([block(b"ab", 0, 3)] * 8, every)
    # The most texts with the most blocks.
    full = [block([48 + number % 10], 0, 7) * MOST_BLOCKS for number in range(MOST_TEXTS)]
    file = file_of(full, [(AT_MOST, 1, 2), (BEFORE, 7, 8)] * 8)
    cases.file(file)
    lines = file.splitlines(keepends=True)
    cases.file(b"".join(lines[:265] + [b"0" * 32 + b" 0 00\n"] + lines[266:]))
    cases.file(b"".join(lines[:-1]))
    cases.file(file + b"\n")


def count_cases(cases):
    """Counts that are wrong (6), also where blocks and rules are wrong too."""
    cases.lent([], [], [])
    cases.lent([], GOOD, [])
    cases.lent([], BAD, [3, 0, 0, 0])
    for texts in range(1, MOST_TEXTS + 1):
        for count in (0, 33, 34, 256, MOST_NUMBER):
            counts = [1] * MOST_TEXTS
            counts[texts - 1] = count
            cases.lent(counts, GOOD * min(7 + count, 8), [])
        counts = [1] * texts
        cases.lent(counts, GOOD * (texts - 1), [])
        cases.lent(counts, GOOD * (texts + 1), [])
        cases.lent(counts, [], [])
    cases.lent([33], GOOD * 33, [])
    cases.lent([32, 32], GOOD * 63, [])
    cases.lent([2], BAD, [3, 0, 0, 0])
    cases.lent([0], [], [0, 1, 1, 0])
    cases.lent([0, 1], GOOD, [])
    cases.lent([2, 0], GOOD * 2, [])
    cases.lent([65_535, 1], GOOD, [])
    # Right ones at the limits.
    cases.lent([1] * 8, GOOD * 8, [0, 1, 2, 0] * 16)
    cases.lent([1] * 8, GOOD * 8, [3, 1, 2, 3] * 16)
    cases.lent([32], block(b"a", 0, 1) * 32, [])
    cases.lent([31, 1], block(b"a", 0, 1) * 32, [1, 2, 1, 0])


def shape_cases(cases):
    """Bad blocks (2, 10, 11) and totals over 250 (3), text by text, before the rules."""
    for number, unsound in enumerate(unsound_blocks()):
        if max(unsound[-2:]) <= MOST_NUMBER:
            cases.book([GOOD, GOOD + unsound], [(EQUAL, 1, 2)] if number % 2 else [(3, 0, 0)])
    # The first bad text and its first bad block decide, whatever is wrong with those behind.
    for shape in TWO_BAD:
        cases.book([GOOD, shape], [(EQUAL, 1, 2)])
        cases.book([GOOD + shape[:BLOCK_SIZE], shape[BLOCK_SIZE:]], [(3, 0, 0)])
    for unsound in ONE_EACH:
        cases.book([GOOD, HEAVY * 2 + unsound], [(EQUAL, 1, 2)])
        cases.book([HEAVY * 2, unsound], [(EQUAL, 1, 2)])
        cases.book([GOOD, unsound, HEAVY * 2], [(3, 0, 0)])
    for count in (251, 256, 9_999, 10_000, 65_534, MOST_NUMBER):
        cases.book([GOOD, GOOD, block(b"a", 0, count) + GOOD], [])
        cases.book([block(b"", 0, count)], [])
        cases.book([block(b"a", count, 3)], [])
        cases.book([block(b"", count, count - 1)], [])
    for text in range(1, MOST_TEXTS + 1):
        for place in (1, text):
            texts = [GOOD] * MOST_TEXTS
            texts[text - 1] = GOOD * (place - 1) + BAD + GOOD
            cases.book(texts, [(EQUAL, 1, 2)])
        texts = [GOOD] * MOST_TEXTS
        texts[text - 1] = HEAVY * 2
        cases.book(texts, [(EQUAL, 1, 2)])
        if text < MOST_TEXTS:
            texts[MOST_TEXTS - 1] = BAD
            cases.book(texts, [(3, 0, 0)])
            texts[text - 1], texts[MOST_TEXTS - 1] = BAD, HEAVY * 2
            cases.book(texts, [(3, 0, 0)])
    for place in (1, 16, 31, 32):
        small = block(b"a", 0, 1)
        cases.book([small, small * (place - 1) + BAD + small * (32 - place)], [])
    for texts in (
        [HEAVY * 2 + BAD],
        [HEAVY + BAD + HEAVY, BAD],
        [GOOD * 3, GOOD + BAD + BAD],
        [many_blocks(32, 250)],
        [many_blocks(32, 251)],
        [written("a250..250 b0..1")],
        [written("a125..125 b125..125")],
        [block(b"a", 250, 250) * 32],
    ):
        cases.book(texts, [])


# All wrong but the second.
ASKED_RULES = (
    (3, 1, 2), (ANY_CASE, 1, 2), (MOST_NUMBER, 1, 2), (256, 1, 2), (EQUAL, 0, 1), (AT_MOST, 1, 0), (BEFORE, 0, 0),
    (EQUAL, 3, 1), (AT_MOST, 1, 3), (BEFORE, 3, 3), (EQUAL, MOST_NUMBER, 1), (BEFORE, 2, MOST_NUMBER),
    (EQUAL, 257, 2), (EQUAL, 1, 258), (EQUAL, 1, 1), (AT_MOST, 2, 2), (BEFORE, 1, 1), (EXACT, 0, 1), (EXACT, 1, 3),
    (EXACT, 1, 1), (260, 1, 2), (6, 1, 2), (8, 1, 2),
)


def rule_cases(cases):
    """Wrong rules (7), the first of them named."""
    texts = [GOOD, block(b"b", 1, 2)]
    for rule in ASKED_RULES:
        cases.book(texts, [rule])
        cases.book(texts, [(AT_MOST, 1, 2), rule, (7, 7, 7)])
    for place in range(1, MOST_RULES + 1):
        rule = ASKED_RULES[place % len(ASKED_RULES)]
        cases.book(texts, [(AT_MOST, 1, 2)] * (place - 1) + [rule] + [(7, 1, 2)] * (MOST_RULES - place))
        cases.book(texts, [(by_turns(place), 2, 1)] * (place - 1) + [(EQUAL, 2, 2)])
    # A rule is wrong even behind one that says none.
    none = [block(b"a", 1, 1), block(b"b", 1, 1)]
    cases.book(none, [(EQUAL, 1, 2), (EQUAL, 1, 1)])
    cases.book(none, [(EQUAL, 1, 2), (EQUAL, 2, 1)])
    cases.book([GOOD], [(EQUAL, 1, 2)])
    cases.book([GOOD], [(EQUAL, 1, 1)])


# A book with joins, stable in its second round.
JOINED = file_of(
    [written("{a,b}0..3"), written("a1..1"), written("b0..2")], [(JOIN, 1, 2, 3), (AT_MOST, 2, 1), (JOIN, 1, 2, 3)]
)

WRONG_JOINS = (
    (JOIN, 1, 2, 0), (JOIN, 1, 2, 4), (JOIN, 1, 2, 9), (JOIN, 1, 2, MOST_NUMBER), (JOIN, 1, 2, 259), (JOIN, 1, 2, 1),
    (JOIN, 1, 2, 2), (JOIN, 1, 1, 2), (JOIN, 3, 3, 3), (JOIN, 0, 2, 3), (JOIN, 1, 0, 3), (JOIN, 4, 2, 3),
    (JOIN, 1, 4, 3), (EQUAL, 1, 2, 1), (EQUAL, 1, 2, 3), (AT_MOST, 1, 2, 3), (BEFORE, 1, 2, 3), (EQUAL, 1, 2, 256),
    (BEFORE, 1, 2, MOST_NUMBER), (EXACT, 1, 2, 1), (EXACT, 1, 2, 3), (EXACT, 1, 2, 260), (ANY_CASE, 1, 2, 3),
    (259, 1, 2, 3), (MOST_NUMBER, 1, 2, 3),
)


def join_cases(cases):
    """Joins: their runs, the length of a rule's line (8), wrong ones (7), and texts too long to be joined (12)."""
    texts = [written(text) for text in SERIAL]
    cases.book(texts, [(JOIN, 1, 2, 5), (JOIN, 2, 3, 4)])
    cases.book(texts, [(JOIN, 2, 3, 4), (JOIN, 1, 2, 5)])
    cases.book([written("W1..1 {0,O}1..1 {1,7}4..4 -1..1 {A,4}1..1"), *texts[1:]], [(JOIN, 1, 2, 5), (JOIN, 2, 3, 4)])
    cases.book([written("W1..1 {0,O}1..1 {1,7}4..4 {A,4}1..1"), *texts[1:]], [(JOIN, 1, 2, 5), (JOIN, 2, 3, 4)])
    cases.file(JOINED)
    for line in (
        b"1", b"1 2", b"1 2 1", b"1 2 1 0 0", b"1 2 1 0 0 0", b"3", b"3 1", b"3 1 2", b"3 1 2 3", b"3 1 2 3 0",
        b"3 1 2 3 4 5", b"3 1 2 ", b"3 1 2  3", b"3  1 2 3", b"3 1 2 3 ", b"3 1 2 03", b"3 1 2 65535", b"3 1 2 65536",
        b"3 1 2 x", b"3,1,2,3", b"1 2 1 00", b"1 2 1 -0", b"03 1 2 3", b"",
    ):
        cases.file(JOINED.replace(b"1 2 1 0\n", line + b"\n"))
    # Rules of three numbers, as they once were, and one that lacks its last number at the end of the file.
    cases.file(EXAMPLE.replace(b"0 1 2 0\n", b"0 1 2\n"))
    cases.file(JOINED.replace(b"3 1 2 3\n", b"3 1 2\n"))
    cases.file(JOINED[:-3] + b"\n")
    texts = [GOOD, block(b"b", 1, 2), GOOD]
    for rule in WRONG_JOINS:
        cases.book(texts, [rule])
        cases.book(texts, [(JOIN, 1, 2, 3), rule, (7, 7, 7, 7)])
    for front, back in TOGETHER:
        cases.book([GOOD, block(b"a", 0, front), block(b"b", 0, back)], [(JOIN, 1, 2, 3)])
    long = [GOOD, block(b"a", 0, 126), block(b"a", 0, 125), GOOD]
    over = file_of(long, [(JOIN, 1, 2, 3)])
    for length in (0, REPORT_WANTED - 1, REPORT_WANTED + 1):
        cases.file(over, length)
    cases.file(over[:-1])
    cases.file(over + b"\n")
    for rules in (
        [(JOIN, 1, 2, 3), (JOIN, 1, 2, 9)], [(JOIN, 1, 2, 9), (JOIN, 1, 2, 3)], [(EQUAL, 2, 4), (JOIN, 1, 2, 3)],
        [(JOIN, 1, 4, 2), (JOIN, 2, 4, 3), (JOIN, 1, 3, 2)], [(JOIN, 2, 2, 3)], [(EQUAL, 1, 2, 3)],
        [(AT_MOST, 1, 4)] * (MOST_RULES - 1) + [(JOIN, 1, 2, 3)],
    ):
        cases.book(long, rules)
    for bad in (BAD, HEAVY * 2):
        cases.book([*long[:3], bad], [(JOIN, 1, 2, 3)])
    dice = Dice(42)
    for number in range(40):
        texts, rules = join_book(dice, number % 2 == 0)
        cases.book(texts, rules)


def padded_cases(cases):
    """Padded fields: the books of which the answer is found by hand, and two equalities in one small book."""
    for texts, rules, _, _ in PADDED:
        cases.book([written(text) for text in texts], rules)
    for kind in (b"0", b"1", b"2", b"3", b"4", b"5", b"04", b"4.", b"-4", b"40", b""):
        cases.file(EXAMPLE.replace(b"0 1 2 0\n", kind + b" 1 2 0\n"))
    # The rule of document 01's book, its texts padded by turns.
    for one, other in product(("", " { }3..3", " { }0..2"), repeat=2):
        for kind in CASED_EQUALITIES:
            cases.book([written("{a,b,c}0..3" + one), written("{b,c,d}2..2" + other)], [(kind, 1, 2)])


def any_case_cases(cases):
    """Letters in both cases: the books of which the answer is found by hand, document 01's book in several spellings,
    rules of kind 5 that are wrong (7), and books of every kind by chance."""
    for texts, rules, _, _ in CASED:
        cases.book([written(text) for text in texts], rules)
    for one, other in product(("{A,B,C}0..3", "{A,b,c}0..3"), ("{b,c,d}2..2", "{B,D,c}2..2")):
        for kind in (EXACT, ANY_CASE):
            cases.book([written(one), written(other)], [(kind, 1, 2)])
    for kind in (b"05", b"5.", b"-5", b"50", b"55", b"6", b"261"):
        cases.file(EXAMPLE.replace(b"0 1 2 0\n", kind + b" 1 2 0\n"))
    texts = [written("{N,n}0..3"), written("n1..1 N0..1")]
    for rule in (
        (ANY_CASE, 1, 1), (ANY_CASE, 2, 2), (ANY_CASE, 0, 1), (ANY_CASE, 1, 3), (ANY_CASE, 1, 2, 1),
        (ANY_CASE, 1, 2, 5), (ANY_CASE, 1, 2, MOST_NUMBER), (6, 1, 2), (261, 1, 2),
    ):
        cases.book(texts, [(ANY_CASE, 1, 2), rule, (7, 7, 7)])
    cases.book(texts, [(ANY_CASE, 2, 1)] * MOST_RULES)
    dice = Dice(43)
    for _ in range(16):
        cases.book(*any_case_book(dice))


def wrong_lines(line):
    """Lines that stand for this one, without its newline: nearly the same, or of another kind."""
    yield from (b"", b" ", b" " + line, line + b" ", line + b"\r", line + b"\t", line + b"\0", b"\0" + line)
    yield from (line + b" 0", line + b"0", line + b"x", line[:-1], line[1:], line.swapcase(), line + line)
    yield from (b"\xef\xbb\xbf" + line, line[:-1] + bytes([line[-1] | 128]), b"#" + line, b"-" + line, b"+" + line)
    if b" " in line:
        first, rest = line.split(b" ", 1)
        yield from (first, rest, first + b"  " + rest, first + b"\t" + rest, first + rest, first + b" 0" + rest)
        yield from (first + b" +" + rest, first + b" -" + rest, first + b"," + rest, first + b"\n" + rest)
        yield first + b" 0x" + rest
        front, last = line.rsplit(b" ", 1)
        yield from (front, front + b" ", front + b"  " + last, line + b" " + last)
        for number in (b"00", b"01", b"010", b"65535", b"65536", b"65540", b"66000", b"70000", b"99999", b"100000"):
            yield front + b" " + number
        for number in (2**16 + 1, 2**32 + 1, 2**64, 2**64 + 1, 10**30):
            yield front + b" %d" % number
        yield from (front + b" 1 " + last, front + b" " + last[::-1] + b".", front + b" 1e1", front + b" 1.0")
    yield from (b"TEXTS 1", b"BLOCKS 1", b"RULES 1", b"0", b"65535", b"65536", b"00", b"1 1 2", b"1 1 2 0")
    yield b"0" * 32 + b" 0 0"


def line_cases(cases):
    """Files that depart (8), at each kind of line."""
    lines = EXAMPLE.split(b"\n")[:-1]
    for at, line in enumerate(lines):
        for wrong in wrong_lines(line):
            cases.file(b"".join(line + b"\n" for line in lines[:at] + [wrong] + lines[at + 1 :]))
    # Every line left out, doubled, changed for the next, and missing with all behind it.
    lines = PLAIN.split(b"\n")[:-1]
    for at in range(len(lines)):
        for changed in (
            lines[:at] + lines[at + 1 :],
            lines[:at] + lines[at : at + 1] + lines[at:],
            lines[:at] + lines[at : at + 2][::-1] + lines[at + 2 :],
            lines[:at],
        ):
            cases.file(b"".join(line + b"\n" for line in changed))


def word_cases(cases):
    """Section words that are misspelt, and counts at their limits and past them."""
    for word, other in ((b"TEXTS", b"RULES"), (b"BLOCKS", b"TEXTS"), (b"RULES", b"BLOCKS")):
        wrong = [word.lower(), word.title(), word[:-1], word + b"S", word[1:], other, word + b":", b"", word[::-1]]
        wrong += [word[:at] + b"X" + word[at + 1 :] for at in range(len(word))]
        for instead in wrong:
            cases.file(EXAMPLE.replace(word + b" ", instead + b" "))
        cases.file(EXAMPLE.replace(word + b" ", word + b"\n"))
        cases.file(EXAMPLE.replace(word + b" ", word))
    for word, most in ((b"TEXTS", MOST_TEXTS), (b"BLOCKS", MOST_ALL_BLOCKS), (b"RULES", MOST_RULES)):
        count = re.search(word + rb" ([0-9]+)\n", EXAMPLE)[1]
        for number in (0, 1, 2, 3, 7, most - 1, most, most + 1, most + 2, 10 * most, 99, 100, 255, 999, 65_535, 65_536):
            cases.file(EXAMPLE.replace(word + b" " + count, word + b" %d" % number))
        for number in (b"00", b"02", b"002", b"+2", b"-2", b"2 ", b" 2", b"", b"two", b"2.", b"0x2", b"2 2", b"2\r"):
            cases.file(EXAMPLE.replace(word + b" " + count, word + b" " + number))
    # The most lines of a section, and one more, none of them there.
    for file in (b"TEXTS 8\n", b"TEXTS 9\n", b"TEXTS 0\nBLOCKS 256\n", b"TEXTS 0\nBLOCKS 257\n"):
        cases.file(file)
    for file in (b"RULES 16\n", b"RULES 17\n", b"RULES 0\n", b"RULES 0", b"RULES 1\n", b"RULES 1\n0 0 0 0\n"):
        cases.file(b"TEXTS 0\nBLOCKS 0\n" + file)
    cases.file(b"TEXTS 8\n" + b"1\n" * 8 + b"BLOCKS 8\n" + block_line(GOOD, b"BLOCKS") * 8 + b"RULES 17\n")


def short_cases(cases):
    """Files with next to nothing in them, and files that go on."""
    for file in (b"", b"\n", b"\n\n", b" ", b"\0", b"\xff", b"0\n"):
        cases.file(file)
    for file in (b"T", b"TEXTS", b"TEXTS ", b"TEXTS 1", b"TEXTS 1\n", EXAMPLE_REPORT):
        cases.file(file)
    for front in (b"STABLE 0\n", b"GROUP 1 STABLE 0\n", b"\n", b" "):
        cases.file(front + EXAMPLE)
    for end in (b"\r\n", b"\r", b" ", b""):
        cases.file(EXAMPLE.replace(b"\n", end))
    for more in (b"\n", b"\n\n", b" ", b" \n", b"0", b"x", b"\0", b"\r", b"\xff", b"0 1 2 0\n", b"RULES 0\n"):
        cases.file(EXAMPLE + more)
        cases.file(EXAMPLE[:-1] + more)
    cases.file(EXAMPLE + EXAMPLE)
    # The digits' neighbours, as a digit of a base and as a number.
    for byte in b"/:@AFG`gz~":
        one = bytes([byte])
        cases.file(EXAMPLE.replace(b"0000000e", b"0000000" + one))
        cases.file(EXAMPLE.replace(b"0000000e", one + b"000000e"))
        cases.file(EXAMPLE.replace(b" 0 3\n", b" %s 3\n" % one))
        cases.file(EXAMPLE.replace(b" 0 3\n", b" 0 3%s\n" % one))


def changed_cases(cases):
    """The small book cut at every byte, and every byte of it changed, taken out and pushed in."""
    for at in range(len(EXAMPLE)):
        cases.file(EXAMPLE[:at])
        cases.file(EXAMPLE[at:])
        cases.file(EXAMPLE[:at] + EXAMPLE[at + 1 :])
        for byte in b"09a \n\0\xff":
            if byte != EXAMPLE[at]:
                cases.file(EXAMPLE[:at] + bytes([byte]) + EXAMPLE[at + 1 :])
    for at in range(len(EXAMPLE) + 1):
        for byte in b"0 \n":
            cases.file(EXAMPLE[:at] + bytes([byte]) + EXAMPLE[at:])


def size_cases(cases):
    """Files around the greatest size, and around what it once was."""
    filled = EXAMPLE + b"0 1 2 0\n" * 5000
    for size in (OLD_SIZE, OLD_SIZE + 1, MOST_BYTES - 1):
        cases.file(filled[:size])
    # The file's refusals come before that of an output too short.
    for size in (OLD_SIZE + 1, MOST_BYTES, MOST_BYTES + 1):
        cases.file(filled[:size], REPORT_WANTED - 1)
    cases.file(b"\n" * OLD_SIZE, REPORT_WANTED - 1)
    cases.file(b"Z" * (OLD_SIZE + 1), 0)


def report_cases(cases):
    """Reports too short, exact and longer: too short is the last refusal, behind the file's and the book's."""
    files = [EXAMPLE, PLAIN, b"", EXAMPLE[:-1], EXAMPLE + b"\n"]
    files += [file_of([written("a1..1"), written("b1..1")], [(0, 1, 2)])]
    files += [file_of([BAD], []), file_of([HEAVY * 2], []), file_of([GOOD], [(0, 1, 1)]), book_file([], [], [])]
    for file in files:
        for length in (0, REPORT_WANTED - 1, REPORT_WANTED, REPORT_WANTED + 1, LONGEST_REPORT):
            cases.file(file, length)
    for length in (1, 13, 14, 15, 100, 109, 250, 4_096, 16_000, OLD_SIZE - 1, OLD_SIZE, OLD_SIZE + 1):
        for file in (EXAMPLE, b"", file_of([BAD], [])):
            cases.file(file, length)


def widened(text):
    """A file or a report headed BLOCKS as it is if headed WIDE: 32 zeros more before each base."""
    return re.sub(rb"(?m)^(?=[0-9a-f]{32} )", b"0" * 32, text).replace(b"BLOCKS ", b"WIDE ")


WIDE = widened(EXAMPLE)


def twin_cases(cases):
    """Files headed BLOCKS, and the same headed WIDE: each report has the heading of its book, and all else is alike."""
    files = [*older_files(), EXAMPLE, PLAIN, JOINED, *(file_of([bad], []) for bad in ONE_EACH)]
    files += [file_of([GOOD], [(EQUAL, 1, 1)]), file_of([HEAVY * 2], []), book_file([2], GOOD, [])]
    for texts, rules, _, _ in (PADDED + CASED)[::3]:
        files.append(file_of([written(text) for text in texts], rules))
    for file in files:
        agree("the file headed WIDE", file, report(widened(file)), widened(report(file)))
        cases.file(widened(file))
    for length in (0, OLD_SIZE, REPORT_WANTED - 1, REPORT_WANTED + 1, LONGEST_REPORT):
        cases.file(WIDE, length)


def digit_cases(cases):
    """Bases with too few digits for their heading and with too many, or with other bytes among them (8)."""
    for file in (EXAMPLE, WIDE):
        lines = file.splitlines()
        for at in (4, 5):
            digits, counts = lines[at].split(b" ", 1)
            for length in (0, 1, 16, 31, 32, 33, 48, 63, 64, 65, 96, 128):
                changed = (b"0" * length + digits)[len(digits) :]
                cases.file(b"\n".join([*lines[:at], changed + b" " + counts, *lines[at + 1 :], b""]))
    start = WIDE.index(b"WIDE 2\n") + len(b"WIDE 2\n")
    for place in (0, 31, 32, 63):
        for byte in b"AFg/:`@ \n":
            cases.file(WIDE[: start + place] + bytes([byte]) + WIDE[start + place + 1 :])


def heading_cases(cases):
    """Headings that are misspelt, in another's place, twice, or with a count that is none."""
    for line in (
        b"wide 2", b"Wide 2", b"WID 2", b"WIDES 2", b"IDE 2", b"XIDE 2", b"WXDE 2", b"WIXE 2", b"WIDX 2", b"WIDE2",
        b"WIDE", b"WIDE ", b"WIDE  2", b" WIDE 2", b"WIDE 2 ", b"WIDE\t2", b"WIDE\n2", b"WIDE\n", b"WIDE: 2", b"W 2",
        b"WIDE BLOCKS 2", b"BLOCKS WIDE 2", b"WIDEBLOCKS 2", b"WLOCKS 2", b"BIDE 2", b"TEXTS 2", b"RULES 2",
        b"WIDE 0", b"WIDE 1", b"WIDE 3", b"WIDE 256", b"WIDE 257", b"WIDE 258", b"WIDE 999", b"WIDE 65536", b"WIDE 02",
        b"WIDE 00", b"WIDE +2", b"WIDE -2", b"WIDE 2.", b"WIDE 2\r", b"WIDE 2 2", b"WIDE two", b"WIDE 2\nWIDE 2",
        b"WIDE 0\nBLOCKS 2", b"BLOCKS 0\nWIDE 2", b"BLOCKS 2",
    ):
        cases.file(WIDE.replace(b"WIDE 2", line))
    cases.file(EXAMPLE.replace(b"BLOCKS", b"WIDE"))
    for word in (b"TEXTS", b"RULES"):
        cases.file(WIDE.replace(word, b"WIDE"))
    for count in (0, 256, 257):
        cases.file(b"TEXTS 0\nWIDE %d\n" % count)
        cases.file(b"TEXTS 0\nWIDE %d\nRULES 0\n" % count)
    # Lines left out and doubled, and the file cut short.
    lines = WIDE.splitlines(keepends=True)
    for at in range(3, 6):
        cases.file(b"".join(lines[:at] + lines[at + 1 :]))
        cases.file(b"".join(lines[: at + 1] + lines[at:]))
    start = WIDE.index(b"WIDE")
    for at in (*range(start, start + 10), *range(start + 10, len(WIDE), 7)):
        cases.file(WIDE[:at])


def high_cases(cases):
    """Books with codes above 127, stable, none and refused."""
    for texts, rules, _, _ in HIGH:
        cases.book([written(text) for text in texts], rules, b"WIDE")
    for low, high in zip(WORD_ENDS, WORD_ENDS[1:]):
        texts = [block([low, high], 1, 1), block([high], 1, 2)]
        for rule in ((BEFORE, 1, 2), (BEFORE, 2, 1), (EXACT, 1, 2)):
            cases.book(texts, [rule], b"WIDE")
    for bad in high_unsound_blocks():
        cases.book([block([128], 0, 3), bad], [], b"WIDE")
    # Under the other heading their digits are too many.
    cases.book([block([128], 0, 3)], [])
    # Every code at its place, in the most blocks; the report has more bytes than it once could have.
    every = [[word for code in ALL_CODES[at : at + 32] for word in block([code], 1, 1)] for at in ALL_CODES[::32]]
    cases.book(every, [(BEFORE, text, text + 1) for text in range(1, MOST_TEXTS)], b"WIDE")
    dice = Dice(44)
    for _ in range(20):
        cases.book(*any_case_book(dice, HIGH_ALPHABETS + HIGH_CASE_ALPHABETS), b"WIDE")


def wide_cases(cases):
    twin_cases(cases)
    digit_cases(cases)
    heading_cases(cases)
    high_cases(cases)


REPORT = re.compile(rb"((?:GROUP .*\n)+)TEXTS .*\n([^A-Z]*)(?:BLOCKS|WIDE) .*\n([^A-Z]*)")


def report_parts(text):
    """What follows GROUP in a report, line by line; its block counts; its blocks."""
    heads, counts, blocks = REPORT.fullmatch(text).groups()
    return [head.split(b" ")[1:] for head in heads.splitlines()], counts, blocks


def merged_file(one, other):
    """Two books of one heading in one file, which reports of both what each reports of its own: their groups, the
    second one's behind the first one's, their counts and their blocks."""
    books = [book_read(file) for file in (one, other)]
    heading = books[0][3]
    lists = []
    for counts, words, rules, _ in books:
        ends = [BLOCK_SIZE * sum(counts[:at]) for at in range(len(counts) + 1)]
        texts = [words[start:end] for start, end in zip(ends, ends[1:])]
        lists.append((texts, [tuple(rules[at : at + RULE_SIZE]) for at in range(0, len(rules), RULE_SIZE)]))
    file = file_of(*merged(*lists), heading)
    (heads, counts, blocks), (others, *more) = report_parts(report(one)), report_parts(report(other))
    heads += ([b"%d" % (int(name) + len(lists[0][0])), *verdict] for name, *verdict in others)
    agree("two books in one", file, report_parts(report(file)), (heads, counts + more[0], blocks + more[1]))
    return file


def merged_examples(files, others):
    """Any one of these books and one of the others that are run, have one heading and fit into one book."""
    files, others = ([file for file in row if not report(file).startswith(b"REFUSED")] for row in (files, others))
    for one, other in product(files, others):
        (counts, _, _, heading), (more, _, _, beside) = book_read(one), book_read(other)
        if heading == beside and len(counts) + len(more) <= MOST_TEXTS:
            yield merged_file(one, other)


def group_cases(cases):
    """Books of several groups: stable, none and both, under both headings, and refused for one house's part."""
    books = [*verdict_books((QUICK, LATE, APART, NARROWED), 3), *verdict_books((QUICK, NARROWED), 4)]
    for arranged in ARRANGED:
        for houses in ((SPLICED, PARTED), (PARTED, ALONE, WORN), (WORN, KEPT, APART, QUICK)):
            books.append(one_book(houses, *arranged))
    # Every group is none, and no rules.
    for houses in ((APART,) * 4, (WORN, APART, NARROWED), (PARTED,) * 2, (NARROWED,), (WORN,) * 4, (ALONE,) * 8):
        books.append(one_book(houses))
    books += [*graph_books()][::5] + [*path_books()][::7] + [*join_books()][::9] + [*alone_books()][::5]
    books += merged_books(PADDED + CASED, 3)
    for at, (texts, rules) in enumerate(books):
        cases.book(texts, rules, b"WIDE" if at % 4 == 0 else b"BLOCKS")
        if at % 4 == 1:
            file = file_of(texts, rules)
            agree("the file headed WIDE", file, report(widened(file)), widened(report(file)))
    for texts, rules in merged_books(HIGH):
        cases.book(texts, rules, b"WIDE")
    older = [EXAMPLE, *older_files()]
    for at, file in enumerate(merged_examples(older, older)):
        if at % 4 == 0:
            cases.file(file)
    for texts, rules, work in refused_books():
        if work == WORK_WANTED:
            cases.book(texts, rules)
    for houses in ((APART, APART), (NARROWED, QUICK)):
        for length in (0, REPORT_WANTED - 1, REPORT_WANTED, REPORT_WANTED + 1):
            cases.file(file_of(*one_book(houses)), length)
    dice = Dice(45)
    draws = (chain_book, random_book, join_book, any_case_book)
    for _ in range(32):
        cases.book(*drawn_book(dice, draws))
    draws = (lambda dice: any_case_book(dice, HIGH_ALPHABETS + HIGH_CASE_ALPHABETS), chain_book)
    for _ in range(8):
        cases.book(*drawn_book(dice, draws), b"WIDE")


def year_cases(cases):
    """A book through the year (document 02, order 12): as it stands, with more rules, and as its report leaves it,
    under both headings and beside other books."""
    year = [file for name in ("year_before", "year_after", "year_again") for file in example_files(name)]
    before, _, again = year
    left = report(before)
    left = left[left.index(b"TEXTS") :]
    agree("the book again", before, again, left + before[before.index(b"RULES") :])
    agree("the report again", again, report(again)[-len(left) :], left)
    for file in year:
        cases.file(file)
        cases.file(widened(file))
    older = [EXAMPLE, *older_files()]
    for at, file in enumerate((*merged_examples(year, older), *merged_examples(older, year))):
        if at % 8 == 0:
            cases.file(file)


def all_cases():
    hold_to_example()
    cases = Cases()
    picked_cases(cases)
    round_cases(cases)
    count_cases(cases)
    shape_cases(cases)
    rule_cases(cases)
    line_cases(cases)
    word_cases(cases)
    short_cases(cases)
    changed_cases(cases)
    report_cases(cases)
    random_cases(cases)
    join_cases(cases)
    padded_cases(cases)
    large_cases(cases)
    size_cases(cases)
    any_case_cases(cases)
    wide_cases(cases)
    group_cases(cases)
    return cases.lines


def hold_to_room(lines):
    hold_lines_to_room(lines)
    for line in lines:
        _, length, field = line.split(" ")
        if len(bytes_read(field)) > LONGEST_FILE or int(length, 16) > LONGEST_REPORT:
            raise AssertionError(f"no room for this case: {line}")
