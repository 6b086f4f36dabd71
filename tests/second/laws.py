"""More rules, never more room (document 02, order 12), held to answers.

The books are those of further.py, in threes: A, B and A again. All is read off the lines of the cases and the lines
answered to them, by definitions of its own: nothing is run here. What A's answer shows has to be what is asked of A
again, and of each of its stable groups by itself.
"""

import re
from collections import Counter
from typing import NamedTuple

from book import book_line, further_threes

# A case of every form has to occur so many times.
SEVERAL = 3

# The numbers of a block: those of its base, its lower and its upper.
BASE, BLOCK, WORD_BITS = 4, 6, 64
RULE, JOIN, JOINED_MOST = 4, 3, 250
RECORDS = 8


class Broken(Exception):
    """A law that an answer does not keep, or a case that is not there."""


def hold_that(kept, what):
    if not kept:
        raise Broken(what)


# Reading.


class Block(NamedTuple):
    """A block, its base as one number."""

    base: int
    lower: int
    upper: int


def blocks_of(fields):
    numbers = [int(field, 16) for field in fields]
    blocks = []
    for at in range(0, len(numbers), BLOCK):
        words = numbers[at : at + BASE]
        base = sum(word << WORD_BITS * place for place, word in enumerate(words))
        blocks.append(Block(base, *numbers[at + BASE : at + BLOCK]))
    return blocks


def dealt(counts, row):
    """For each text as many of the row as it has."""
    texts, at = [], 0
    for count in counts:
        texts.append(row[at : at + count])
        at += count
    return texts


class Book(NamedTuple):
    """A case with its answer: the work buffer, the texts' counts, the blocks entered, the rules; for each text the name
    of its group, whether that is none, and its count; and the blocks left, also as fields."""

    work: str
    counts: list
    entered: list
    rules: list
    names: list
    none: list
    applied: list
    left: list
    fields: list

    @property
    def texts(self):
        return range(len(self.counts))


def list_read(fields):
    count = int(fields[0], 16)
    return fields[1 : count + 1], fields[count + 1 :]


ANSWER = re.compile(r"accepted((?: \d+ (?:stable|none) \d+){8})((?: [0-9a-f]+)*) work \d+ \d+")


def book_read(what, case, answer):
    _, work, *rest = case.split(" ")
    counts, rest = list_read(rest)
    words, rest = list_read(rest)
    numbers, _ = list_read(rest)
    counts, numbers = [int(count, 16) for count in counts], [int(number, 16) for number in numbers]
    found = ANSWER.fullmatch(answer)
    hold_that(found, f"{what} is not answered as an accepted book: {answer[:40]}")
    records, left = (part.split() for part in found.groups())
    hold_that(len(left) == len(words), f"{what} is answered with {len(left)} numbers for {len(words)}")
    return Book(
        work, counts, dealt(counts, blocks_of(words)),
        [tuple(numbers[at : at + RULE]) for at in range(0, len(numbers), RULE)],
        [int(name) for name in records[0::3]][: len(counts)],
        [verdict == "none" for verdict in records[1::3]][: len(counts)],
        [int(count) for count in records[2::3]][: len(counts)],
        dealt(counts, blocks_of(left)), left,
    )


# Definitions.


def within(one, other):
    """Whether a block is equal or narrower: base within base, counts within counts."""
    return one.base & ~other.base == 0 and other.lower <= one.lower and one.upper <= other.upper


def text_within(one, other):
    return len(one) == len(other) and all(map(within, one, other))


def named(rule):
    """The texts that a rule names, counted from 0."""
    return [text - 1 for text in (rule[1:] if rule[0] == JOIN else rule[1:3])]


def reached(text, rules):
    """The texts that rules link to this one, and itself."""
    group, grows = {text}, True
    while grows:
        grows = False
        for rule in rules:
            if group & {*named(rule)} and not {*named(rule)} <= group:
                group |= {*named(rule)}
                grows = True
    return group


def rules_of(text, rules):
    """The rules that name texts of this one's group."""
    group = reached(text, rules)
    return [rule for rule in rules if group & {*named(rule)}]


# The laws. Texts are counted from 1 where they are told.


def hold_to_groups(what, book):
    """A group is called by the least of its texts, which have one verdict and one count; those of a none are as they
    were entered."""
    for text in book.texts:
        name, group = book.names[text], reached(text, book.rules)
        hold_that(name == min(group) + 1, f"{what}: text {text + 1} is in a group called {name}")
        for other in group:
            alike = book.none[text] == book.none[other] and book.applied[text] == book.applied[other]
            hold_that(alike, f"{what}: texts {text + 1} and {other + 1} of one group have two records")
        if book.none[text]:
            hold_that(book.left[text] == book.entered[text], f"{what}: text {text + 1}, of a none, is not as entered")


def hold_to_order(what, before, after):
    """B has A's texts, each block equal or narrower, and all of A's rules."""
    texts = len(before.counts)
    hold_that(after.counts[:texts] == before.counts, f"{what}: B has not the texts of A")
    for text in before.texts:
        narrow = text_within(after.entered[text], before.entered[text])
        hold_that(narrow, f"{what}: text {text + 1} is entered wider in B than in A")
    hold_that({*before.rules} <= {*after.rules}, f"{what}: B has not all of A's rules")


def hold_to_more(what, before, after):
    """What more rules can do. Answers how many texts were compared, block for block."""
    compared = 0
    for text in before.texts:
        for other in before.texts:
            if before.names[text] == before.names[other]:
                linked = after.names[text] == after.names[other]
                hold_that(linked, f"{what}: texts {text + 1} and {other + 1} are one group in A and two in B")
        if before.none[text]:
            hold_that(after.none[text], f"{what}: the group of text {text + 1} is none in A and stable in B")
        if not after.none[text]:
            narrow = text_within(after.left[text], before.left[text])
            hold_that(narrow, f"{what}: text {text + 1} ends wider in B than in A")
            compared += 1
    return compared


def hold_to_again(what, book, again):
    """A report's shapes again: nothing changes, with a count equal to the number of rules; a none is none as before."""
    hold_that(again.entered == book.left, f"{what}: A again has not the blocks that A leaves")
    hold_that(again.left == again.entered, f"{what}: A again changes its blocks")
    hold_that(again.names == book.names, f"{what}: A again has other groups")
    hold_that(again.none == book.none, f"{what}: A again has other verdicts")
    for text in book.texts:
        due = book.applied[text] if book.none[text] else len(rules_of(text, book.rules))
        counted = again.applied[text]
        hold_that(counted == due, f"{what}: A again counts {counted} for the group of text {text + 1}, not {due}")


def hold_to_apart(what, name, rules, alone):
    """A stable group by itself, as A leaves it: one group, stable, which changes nothing."""
    what = f"{what}: group {name} by itself"
    hold_that({*alone.names} == {1} and not any(alone.none), f"{what} is not one stable group")
    hold_that({*alone.applied} == {len(rules)}, f"{what} counts {alone.applied[0]}, not {len(rules)}")
    hold_that(alone.left == alone.entered, f"{what} changes its blocks")


# Cases for what an answer shows.


def again_line(case, book):
    """The case with the blocks that its answer shows."""
    fields = case.split(" ")
    at = 3 + len(book.counts) + 1
    return " ".join([*fields[:at], *book.fields, *fields[at + len(book.fields) :]])


def apart_line(book, text):
    """The case of a text's group by itself, with the blocks that the answer shows."""
    group, rules = sorted(reached(text, book.rules)), rules_of(text, book.rules)
    fields = dealt([BLOCK * count for count in book.counts], book.fields)
    words = [field for one in group for field in fields[one]]
    numbers = []
    for kind, *texts in rules:
        numbers += [kind, *(group.index(one - 1) + 1 if one else 0 for one in texts)]
    lists = [[f"{book.counts[one]:x}" for one in group], words, [f"{number:x}" for number in numbers]]
    return " ".join(["B", book.work, *(field for row in lists for field in (f"{len(row):x}", *row))])


# Which forms the threes have, so that none is forgotten.

KINDS = range(6)
IN_A, FURTHER = ({kind: f"kind {kind} {where}" for kind in KINDS} for where in ("in A", "in a further rule"))

FORMS = (
    "groups of A that are one in B",
    "merged groups that are stable",
    "merged groups that are none, all stable in A",
    "more than two groups merged",
    "a stable group under another name",
    "none in A",
    "none in A and merged with a stable group",
    "none in A and entered narrower in B",
    "stable in A and none in B",
    "none in both, counted higher in B",
    "none in both, counted lower in B",
    "none in both, counted alike",
    "a text of a none of B wider than A leaves it",
    "narrower bases",
    "higher lowers",
    "lower uppers",
    "counts narrower on both sides",
    "blocks cut to 0..0",
    "rules in another order",
    "rules repeated in B",
    "rules repeated in A and once in B",
    "further texts with rules to A's",
    "further texts without rules",
    "further texts that are none by themselves",
    "further texts that merge groups of A",
    "a strictly narrower end",
    "a strictly narrower end by rules alone",
    "a strictly narrower end, counts",
    "a strictly narrower end, bases",
    "an equal end with more rules",
    "fewer applications with more rules",
    "a join of 250 in A and B",
    "a join of 250 in B alone",
    *IN_A.values(),
    *FURTHER.values(),
    "codes above 127",
    "a text alone in A that a rule of B names",
    "no rules in A",
    "B equal to A",
    "eight texts",
    "sixteen rules",
    "a B that is the A of another three",
    "a stable group counted above its number of rules",
    "A again narrower than A",
    "none in A again beside stable groups",
    "a stable group with rules by itself, of several",
    "a stable text without rules by itself, of several",
)


def strictly(one, other):
    return one != other and within(one, other)


def block_forms(before, after):
    for text in before.texts:
        for one, other in zip(after.entered[text], before.entered[text]):
            if one.upper == 0 < other.upper:
                yield "blocks cut to 0..0"
            elif one.base != other.base:
                yield "narrower bases"
            if one.lower > other.lower and one.upper < other.upper:
                yield "counts narrower on both sides"
            elif one.lower > other.lower:
                yield "higher lowers"
            elif 0 < one.upper < other.upper:
                yield "lower uppers"


def joined_most(book, join):
    """Whether the uppers of the two texts that a join puts end to end add to just 250."""
    return sum(block.upper for text in named(join)[1:] for block in book.entered[text]) == JOINED_MOST


def rule_forms(before, after):
    ours, theirs = Counter(before.rules), Counter(after.rules)
    first = [rule for rule in dict.fromkeys(after.rules) if rule in ours]
    if first != [*dict.fromkeys(before.rules)]:
        yield "rules in another order"
    if any(theirs[rule] > max(1, ours[rule]) for rule in theirs):
        yield "rules repeated in B"
    if any(ours[rule] > 1 == theirs[rule] for rule in ours):
        yield "rules repeated in A and once in B"
    yield from (IN_A[rule[0]] for rule in ours)
    yield from (FURTHER[rule[0]] for rule in theirs if rule not in ours)
    for rule in theirs:
        if rule[0] == JOIN and joined_most(after, rule):
            yield f"a join of 250 in {'A and B' if rule in ours and joined_most(before, rule) else 'B alone'}"
    if not ours and theirs:
        yield "no rules in A"
    if any(not rules_of(text, before.rules) and rules_of(text, after.rules) for text in before.texts):
        yield "a text alone in A that a rule of B names"


def size_forms(before, after):
    if before.counts == after.counts and before.entered == after.entered and before.rules == after.rules:
        yield "B equal to A"
    for book in (before, after):
        if len(book.counts) == RECORDS:
            yield "eight texts"
        if len(book.rules) == 16:
            yield "sixteen rules"
    if any(block.base >> 128 for text in before.entered for block in text):
        yield "codes above 127"
    texts = len(before.counts)
    for name in {after.names[text] for text in after.texts if text >= texts}:
        group = [text for text in after.texts if after.names[text] == name]
        ours = [text for text in group if text < texts]
        if ours:
            yield "further texts with rules to A's"
        elif after.none[group[0]]:
            yield "further texts that are none by themselves"
        if len(group) == 1:
            yield "further texts without rules"
        if len({before.names[text] for text in ours}) > 1 and len({*group} & {*range(texts)}) < len(group):
            yield "further texts that merge groups of A"


def group_forms(before, after):
    """By the groups of B."""
    for name in {after.names[text] for text in before.texts}:
        group = [text for text in before.texts if after.names[text] == name]
        parts = {before.names[text]: text for text in group}
        nones = [text for text in parts.values() if before.none[text]]
        others = [text for text in parts.values() if not before.none[text]]
        none = after.none[group[0]]
        if len(parts) > 1:
            yield "groups of A that are one in B"
            if not none:
                yield "merged groups that are stable"
                if any(part != name and before.applied[text] for part, text in parts.items()):
                    yield "a stable group under another name"
            elif not nones:
                yield "merged groups that are none, all stable in A"
            elif any(before.applied[text] for text in others):
                yield "none in A and merged with a stable group"
        if len(parts) > 2:
            yield "more than two groups merged"
        if nones:
            yield "none in A"
            if any(after.entered[text] != before.entered[text] for text in group if before.none[text]):
                yield "none in A and entered narrower in B"
            for text in nones:
                more = after.applied[text] - before.applied[text]
                yield f"none in both, counted {'alike' if more == 0 else 'higher in B' if more > 0 else 'lower in B'}"
        elif none:
            yield "stable in A and none in B"
        if none and any(not text_within(after.left[text], before.left[text]) for text in group):
            yield "a text of a none of B wider than A leaves it"


def end_forms(before, after):
    """By the texts that are stable in B."""
    same = before.entered == after.entered[: len(before.counts)]
    for text in before.texts:
        if after.none[text]:
            continue
        ends = [*zip(after.left[text], before.left[text])]
        if any(strictly(one, other) for one, other in ends):
            yield "a strictly narrower end"
            if same:
                yield "a strictly narrower end by rules alone"
            if any(one.upper and one.base != other.base for one, other in ends):
                yield "a strictly narrower end, bases"
            if any(one.upper and one[1:] != other[1:] for one, other in ends):
                yield "a strictly narrower end, counts"
        elif len(rules_of(text, after.rules)) > len(rules_of(text, before.rules)) > 0:
            yield "an equal end with more rules"
        if before.applied[text] > after.applied[text] and (
            len({*rules_of(text, after.rules)}) > len({*rules_of(text, before.rules)})
            and len(rules_of(text, after.rules)) > len(rules_of(text, before.rules))
        ):
            yield "fewer applications with more rules"


def again_forms(book, again):
    if again.entered != book.entered:
        yield "A again narrower than A"
    if any(book.none) and not all(book.none):
        yield "none in A again beside stable groups"
    for text in book.texts:
        rules = rules_of(text, book.rules)
        if not book.none[text] and len(rules) > 1 and book.applied[text] > len(rules):
            yield "a stable group counted above its number of rules"


# All threes.


def answers_of(cases, lines):
    """The line answered to each case, by the case."""
    hold_that(len(cases) == len(lines), "not one line for each case")
    answers = {}
    for case, line in zip(cases, lines):
        hold_that(answers.setdefault(case, line) == line, f"two answers to one case: {case}")
    return answers


def hold(cases, lines):
    """Raises where an answer breaks a law, where a book of a three is not among the cases, and where a form does not
    occur. Answers the number of threes, of texts compared, and how many threes have each form."""
    answers, threes = answers_of(cases, lines), further_threes()

    def read(what, case):
        hold_that(case in answers, f"{what} is not among the cases")
        return book_read(what, case, answers[case])

    pairs = [[book_line(*book, work) for book in (before, after)] for before, after, work in threes]
    firsts = {first for first, _ in pairs}
    compared, met = 0, Counter()
    for number, (first, second) in enumerate(pairs, 1):
        what = f"three {number}"
        before, after = read(f"{what}: A", first), read(f"{what}: B", second)
        hold_to_order(what, before, after)
        compared += hold_to_more(what, before, after)
        again = read(f"{what}: A again, as A's answer shows it,", again_line(first, before))
        hold_to_again(what, before, again)
        for name, book in (("A", before), ("B", after), ("A again", again)):
            hold_to_groups(f"{what}: {name}", book)
        forms = {
            form for forms in (block_forms, rule_forms, size_forms, group_forms, end_forms)
            for form in forms(before, after)
        }
        forms.update(again_forms(before, again))
        if second != first and second in firsts:
            forms.add("a B that is the A of another three")
        for text in before.texts:
            if before.names[text] == text + 1 and not before.none[text]:
                rules = rules_of(text, before.rules)
                alone = read(f"{what}: group {text + 1} by itself, as A's answer shows it,", apart_line(before, text))
                hold_to_apart(what, text + 1, rules, alone)
                if {*before.names} != {text + 1}:
                    forms.add(f"a stable {'group with' if rules else 'text without'} rules by itself, of several")
        met.update(forms)
    for form in (*FORMS, *met):
        hold_that(form in FORMS and met[form] >= SEVERAL, f"of this form there are {met[form]} threes: {form}")
    return len(pairs), compared, met
