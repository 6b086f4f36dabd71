"""The rules of a book, the groups to which they link its texts, and the run: each group by itself (document 02, order
11), by document 01's runner over the group's own rules.

Groups are found by flood fill over the links, and held to the closure of the links as a table. What a run gives is held
to runs that have to give the same: of all rules together, of each group in a book of its own, of the book with its
texts renamed, and of the book together with another one.
"""

from itertools import combinations, permutations, product
from typing import NamedTuple

from joins import JOIN, narrowed_join
from making import words_of, written
from pairs import BEFORE, EQUAL, HOLDS, KINDS, narrowed
from shapes import (
    BLOCK_SIZE, MOST_BLOCKS, Block, Refused, agree, all_texts, fillings, shape_of, too_long, total,
)

MOST_TEXTS = 8
MOST_RULES = 16

# Groups whose texts have at most so many combinations are held to every one of them.
FEW_ROWS = 3000
FEW_FILLINGS = 300

# Groups with a text of more characters are not run with their rules in other orders.
MOST_TRIED = 40


# Rules. They are four numbers, the fourth 0 except in a join.
RULE_SIZE = 4


def four(rule):
    """The rule's four numbers; the fourth may be left out where it is 0."""
    return (*rule, 0)[:RULE_SIZE]


def named(rule):
    """The numbers of the texts that a rule names, in the order in which it reads them."""
    return rule[1:] if rule[0] == JOIN else rule[1:3]


def renamed(rule, names):
    """The rule with each text k called `names[k]`."""
    return four((rule[0], *(names[text] for text in named(rule))))


def wrong_rule(rule, texts):
    """Whether the rule is wrong in a book of so many texts."""
    kind, *_, fourth = rule
    if kind not in (*KINDS, JOIN) or (kind != JOIN and fourth != 0):
        return True
    return any(not 1 <= text <= texts for text in named(rule)) or len({*named(rule)}) < len(named(rule))


def holds(rule, texts):
    """Whether the rule holds of texts, each under its number."""
    kind, (one, *others) = rule[0], (texts[number] for number in named(rule))
    return one == b"".join(others) if kind == JOIN else HOLDS[kind](one, *others)


def applied(rule, shapes):
    """The shapes that a rule names narrowed by it, or None for none."""
    return narrowed_join(*shapes) if rule[0] == JOIN else narrowed(*shapes, rule[0])


# Which books are refused.


def book_of(counts, words, rules):
    """The shapes and the rules, refused in the documents' order but for the work buffer."""
    if not 1 <= len(counts) <= MOST_TEXTS or not all(1 <= count <= MOST_BLOCKS for count in counts):
        raise Refused(6, 0, 0)
    if len(words) != BLOCK_SIZE * sum(counts) or len(rules) % RULE_SIZE != 0 or len(rules) > RULE_SIZE * MOST_RULES:
        raise Refused(6, 0, 0)
    shapes, at = [], 0
    for text, count in enumerate(counts, 1):
        shapes.append(shape_of(words[at : at + BLOCK_SIZE * count], text))
        at += BLOCK_SIZE * count
    fours = [tuple(rules[at : at + RULE_SIZE]) for at in range(0, len(rules), RULE_SIZE)]
    for place, rule in enumerate(fours, 1):
        if wrong_rule(rule, len(counts)):
            raise Refused(7, 0, place)
        if rule[0] == JOIN and too_long(*(shapes[number - 1] for number in rule[2:])):
            raise Refused(12, 0, place)
    return shapes, fours


# Groups.


def linked(count, rules):
    """For each of so many texts those that stand beside it in a rule."""
    links = {text: set() for text in range(1, count + 1)}
    for rule in rules:
        for one, other in permutations(named(rule), 2):
            links[one].add(other)
    return links


def flooded(links):
    """The groups, each as its texts in rising order, by their least texts."""
    dry, groups = set(links), []
    for text in sorted(links):
        if text in dry:
            wet, edge = {text}, [text]
            while edge:
                reached = links[edge.pop()] - wet
                wet |= reached
                edge += reached
            dry -= wet
            groups.append(tuple(sorted(wet)))
    return groups


def closed(count, rules):
    """The same groups: which text is tied to which is a table, closed over each text in between."""
    numbers = range(1, count + 1)
    tied = {(one, other): one == other for one, other in product(numbers, repeat=2)}
    for rule in rules:
        for one, other in combinations(named(rule), 2):
            tied[one, other] = tied[other, one] = True
    # The text in between changes slowest.
    for between, one, other in product(numbers, repeat=3):
        tied[one, other] = tied[one, other] or (tied[one, between] and tied[between, other])
    rows = [tuple(other for other in numbers if tied[one, other]) for one in numbers]
    return [row for one, row in zip(numbers, rows) if row[0] == one]


class Group(NamedTuple):
    """A group that was run: its texts in rising order, their shapes at the end, whether it is none, its count. The
    shapes of one that is none are those entered."""

    texts: tuple[int, ...]
    shapes: tuple[tuple[Block, ...], ...]
    none: bool
    count: int

    @property
    def name(self):
        return self.texts[0]

    @property
    def verdict(self):
        return "none" if self.none else "stable"

    def called(self, names):
        """The group with each text k called `names[k]`."""
        texts, shapes = zip(*sorted((names[text], shape) for text, shape in zip(self.texts, self.shapes)))
        return Group(texts, shapes, self.none, self.count)


# The run.


def run(shapes, rules):
    """The final shapes of a row, or None for none; and the applications made."""
    now, applications, changed = list(shapes), 0, bool(rules)
    while changed:
        changed = False
        for rule in rules:
            applications += 1
            entered = tuple(now[number - 1] for number in named(rule))
            result = applied(rule, entered)
            if result is None:
                return None, applications
            changed = changed or result != entered
            for number, shape in zip(named(rule), result):
                now[number - 1] = shape
    return now, applications


def rules_among(texts, rules):
    """The rules of a group."""
    return [rule for rule in rules if named(rule)[0] in texts]


def run_groups(shapes, rules):
    """The groups of a book, each run by itself."""
    groups = []
    for texts in flooded(linked(len(shapes), rules)):
        final, count = run(shapes, rules_among(texts, rules))
        ends = shapes if final is None else final
        groups.append(Group(texts, tuple(ends[text - 1] for text in texts), final is None, count))
    return groups


def shapes_at_end(groups):
    """The shapes of all texts, in the order of their numbers."""
    return [shape for _, shape in sorted(pair for group in groups for pair in zip(group.texts, group.shapes))]


# Books that have to give the same. A book is here its texts, written or as shapes, and its rules.


def alternated(rows):
    """One of each row, then the next of each, until all are at their ends."""
    return [row[at] for at in range(max(map(len, rows))) for row in rows if at < len(row)]


def merged(*books):
    """One book of several: the texts of each behind those of the one before, the rules by turns."""
    texts, rows = [], []
    for more, rules in books:
        names = {text: len(texts) + text for text in range(1, len(more) + 1)}
        rows.append([renamed(rule, names) for rule in rules])
        texts += more
    return texts, alternated(rows)


def with_names(texts, rules, order):
    """The book with its texts in another order, `order` being their old numbers, and the new name of each old one."""
    names = {text: name for name, text in enumerate(order, 1)}
    return [texts[text - 1] for text in order], [renamed(rule, names) for rule in rules], names


# A group that is none in its second round, when both texts are narrower than entered; a text alone; a stable group.
BESIDE = (
    [shape_of(written(text)) for text in ("a0..9", "b1..1", "a3..5", "c0..1", "{c,d}1..2")],
    [(EQUAL, 1, 3, 0), (EQUAL, 4, 5, 0), (BEFORE, 1, 3, 0)],
)
BESIDE_GROUPS = [
    Group((1, 3), (BESIDE[0][0], BESIDE[0][2]), True, 4),
    Group((2,), (BESIDE[0][1],), False, 0),
    Group((4, 5), (shape_of(written("c1..1")),) * 2, False, 2),
]


def hold_groups_to_laws(shapes, rules, groups):
    """Raises where the groups of a book, or what their runs give, depend on what they must not depend on."""
    book, count = (shapes, rules), len(shapes)
    agree("groups", book, [group.texts for group in groups], closed(count, rules))
    # A join links all its texts, and every rule is of one group.
    for rule in rules:
        agree("a rule's group", book, sum({*named(rule)} <= {*group.texts} for group in groups), 1)
    # All rules together: none if some group is, else the same shapes.
    final, _ = run(shapes, rules)
    agree("all rules together", book, final, None if any(group.none for group in groups) else shapes_at_end(groups))
    # Each group in a book of its own.
    for group in groups if len(groups) > 1 else ():
        own, own_rules, names = with_names(shapes, rules_among(group.texts, rules), group.texts)
        agree("a group alone", (book, group), run_groups(own, own_rules), [group.called(names)])
    # Other names.
    numbers = [*range(1, count + 1)]
    for order in (numbers[::-1], numbers[1::2] + numbers[::2]):
        texts, others, names = with_names(shapes, rules, order)
        agree("renamed texts", book, run_groups(texts, others), sorted(group.called(names) for group in groups))
    # Together with another book, behind it and before it.
    many, few = ({text: text + more for text in range(1, 1 + MOST_TEXTS)} for more in (count, len(BESIDE[0])))
    behind = groups + [group.called(many) for group in BESIDE_GROUPS]
    agree("a book before another", book, run_groups(*merged(book, BESIDE)), behind)
    before = BESIDE_GROUPS + [group.called(few) for group in groups]
    agree("a book behind another", book, run_groups(*merged(BESIDE, book)), before)


def hold_group_to_laws(shapes, rules, group):
    """Raises where the order of a group's rules counts, or where a row of texts that keeps all of them is lost."""
    entered = [shapes[text - 1] for text in group.texts]
    if not rules or max(map(total, entered)) > MOST_TRIED:
        return
    orders = [rules[::-1], rules[1:] + rules[:1], rules[::2] + rules[1::2]]
    final = None if group.none else shapes_at_end([group])
    for order in orders if len(rules) > 3 else permutations(rules):
        found, _ = run(shapes, list(order))
        agree("the order of rules", (shapes, rules), found and [found[text - 1] for text in group.texts], final)
    size = 1
    for shape in entered:
        size *= fillings(shape)
        if fillings(shape) > FEW_FILLINGS or size > FEW_ROWS:
            return
    for row in product(*map(all_texts, entered)):
        texts = dict(zip(group.texts, row))
        if all(holds(rule, texts) for rule in rules):
            if final is None or any(text not in all_texts(shape) for text, shape in zip(row, final)):
                raise AssertionError(f"texts lost: {shapes} {rules} {texts}")


def ran(shapes, rules):
    """The groups of a book, run and held to all laws."""
    groups = run_groups(shapes, rules)
    hold_groups_to_laws(shapes, rules, groups)
    for group in groups:
        hold_group_to_laws(shapes, rules_among(group.texts, rules), group)
    return groups


def hold_run_to_answer(what, texts, rules, final, applications):
    """Raises where the run of a book does not end as it should, texts and final ones written. Of a book that is one
    group the answer is its final texts, None for none, and its count; of any other all final texts and a list, for each
    group its name, verdict and count."""
    groups = run_groups([shape_of(written(text)) for text in texts], [four(rule) for rule in rules])
    if isinstance(applications, int):
        agree("one group", (texts, rules), len(groups), 1)
        applications = [(1, "none" if final is None else "stable", applications)]
    found = [words_of(shape) for shape in shapes_at_end(groups)]
    agree(what, (texts, rules), found, [*map(written, final or texts)])
    agree(what, (texts, rules), [(group.name, group.verdict, group.count) for group in groups], applications)
