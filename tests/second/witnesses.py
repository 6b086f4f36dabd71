"""The answers of narrowing on large shapes, held to fillings that are looked at by the definition alone.

For large shapes pairs.py and joins.py go through rows of states of one shape beside those of the other, which is
near to the library's own method. So their answers are held to something of another kind here. From the one side
each character, each least and each greatest count that an answer keeps is shown by fillings of the entered shapes
whose texts keep the rule. From the other side no such fillings, searched for or met by chance, have what the answer
does not keep, and there are none where it says none. How fillings are found is of no account: `is_filling` and
`keeps` decide.
"""

from functools import lru_cache

from bounds import bound
from joins import JOIN
from making import Dice, numbers_read, padded_anew, random_filling, recased
from narrow import case_read
from pairs import ANY_CASE, AT_MOST, BEFORE, EQUAL, HOLDS, KINDS
from shapes import ALL_CODES, BLANK, MOST_CHARACTERS, shape_of, total

# Shapes are large if there are so many pairs of places in them.
LARGE = 1000

# So many cases of each kind and each answer are looked at: of those that change most, and of all the others.
MOST_CASES = 6
SOME_CASES = 6

# How often texts are met by chance in each: by reading both shapes together, and by trying a text of one on the other.
WALKS = 4
TRIES = 30


# The definition.


def is_filling(runs, shape):
    return len(runs) == len(shape) and all(
        lower <= len(run) <= upper and set(run) <= set(base) for run, (base, lower, upper) in zip(runs, shape)
    )


def keeps(kind, texts):
    if kind == JOIN:
        whole, front, back = texts
        return whole == front + back
    return HOLDS[kind](*texts)


# What a block is given is a set of bits: one for each character, and behind them one for each count.
COUNTS = len(ALL_CODES)


def count_bits(least_count, greatest_count):
    return (1 << greatest_count + 1) - (1 << least_count) << COUNTS


def character_bits(codes):
    return sum(1 << code for code in set(codes))


def below(mask, bit):
    return mask & (1 << bit) - 1


def above(mask, bit):
    return mask >> bit + 1 << bit + 1


@lru_cache(maxsize=10_000)
def bits_of(mask):
    return tuple(bit for bit in range(mask.bit_length()) if mask >> bit & 1)


@lru_cache(maxsize=None)
def alike_bits(any_case, code):
    """The characters that count as this one: each by itself, or those of a text that is equal in any case."""
    if not any_case:
        return 1 << code
    return character_bits(other for other in range(COUNTS) if keeps(ANY_CASE, (bytes([code]), bytes([other]))))


@lru_cache(maxsize=10_000)
def alike_to(any_case, mask):
    """The characters that count as one of these."""
    found = 0
    for code in bits_of(mask):
        found |= alike_bits(any_case, code)
    return found


class Answer:
    """A case with the answer that is expected, None for none, and what fillings have shown of it: block by block, the
    blocks of all texts in a row, its characters and the counts from the least to the greatest."""

    def __init__(self, kind, shapes, narrow):
        self.kind, self.shapes, self.narrow = kind, shapes, narrow
        self.shown = [0] * sum(map(len, shapes))
        self.found = 0

    def fail(self, what):
        raise AssertionError(f"{what}: kind {self.kind}, {self.shapes}, expected {self.narrow}")

    def hold(self, fillings):
        """Raises where the fillings are not what they should be, or the answer does not keep what they have."""
        if len(fillings) != len(self.shapes) or not all(map(is_filling, fillings, self.shapes)):
            self.fail(f"no fillings: {fillings}")
        if not keeps(self.kind, [b"".join(runs) for runs in fillings]):
            self.fail(f"fillings that do not keep the rule: {fillings}")
        if self.narrow is None:
            self.fail(f"there are fillings, {fillings}")
        if not all(map(is_filling, fillings, self.narrow)):
            self.fail(f"fillings that are not kept, {fillings}")
        for number, run in enumerate(run for runs in fillings for run in runs):
            counts = bits_of(self.shown[number] >> COUNTS) + (len(run),)
            self.shown[number] |= character_bits(run) | count_bits(min(counts), max(counts))
        self.found += 1

    def hold_to_all_shown(self):
        """Raises where the answer keeps more than fillings have shown."""
        blocks = [block for shape in self.narrow or () for block in shape]
        for number, (base, lower, upper) in enumerate(blocks):
            if self.shown[number] != character_bits(base) | count_bits(lower, upper):
                self.fail(f"no filling shows all that is kept of block {number + 1} of all")


# Reading two shapes together. A place in a shape says how many characters of which block are laid; the last is the
# end. At a place a character is taken, or the run is ended, which is the bit of its count.


class Places:
    def __init__(self, shape, number):
        """The places of a shape whose first block has this number."""
        self.block, self.takes, self.closes, self.behind = [], [], [], []
        for base, lower, upper in shape:
            behind = len(self.block) + upper + 1
            for count in range(upper + 1):
                self.block.append(number)
                self.takes.append(character_bits(base) if count < upper else 0)
                self.closes.append(count_bits(count, count) if count >= lower else 0)
                self.behind.append(behind)
            number += 1
        self.end = len(self.block)
        self.takes.append(0)
        self.closes.append(0)

    def next(self, place, bit):
        return place + 1 if bit < COUNTS else self.behind[place]


class Together:
    """All that two shapes can read together under a rule. Of a join the second shape is front and back, end to end.

    A state is a number: a place of the first shape times the width, and a place of the second. A way is a list of
    (side, place, bit)."""

    def __init__(self, dice, answer):
        self.dice, self.answer = dice, answer
        self.any_case = answer.kind == ANY_CASE
        first, *others = answer.shapes
        self.sides = Places(first, 0), Places([block for shape in others for block in shape], len(first))
        self.width = self.sides[1].end + 1
        self.last = self.sides[0].end * self.width + self.sides[1].end
        # For each state that one text leads to, from where it does, and by which bits on either side.
        self.came = {0: []}
        for here in range(self.last + 1):
            if here in self.came:
                for there, masks in self.steps(here):
                    self.came.setdefault(there, []).append((here, masks))
        # The states from where the rule can be kept.
        self.alive = set()
        for here in sorted(self.came, reverse=True):
            if here in self.alive or self.may_end(here) or any(self.parting(here)):
                self.alive.add(here)
                self.alive.update(there for there, _ in self.came[here])

    def places(self, here):
        return divmod(here, self.width)

    def steps(self, here):
        """Where the two can go from here with their texts still alike, and by which bits on either side."""
        (ours, others), (at, beside) = self.sides, self.places(here)
        found = []
        if ours.closes[at]:
            found.append((ours.behind[at] * self.width + beside, (ours.closes[at], 0)))
        if others.closes[beside]:
            found.append((at * self.width + others.behind[beside], (0, others.closes[beside])))
        both = ours.takes[at] & alike_to(self.any_case, others.takes[beside])
        if both:
            found.append((here + self.width + 1, (both, others.takes[beside] & alike_to(self.any_case, both))))
        # One text has ended, and the other goes on over blanks.
        if self.answer.kind == EQUAL and beside == others.end and ours.takes[at] >> BLANK & 1:
            found.append((here + self.width, (1 << BLANK, 0)))
        if self.answer.kind == EQUAL and at == ours.end and others.takes[beside] >> BLANK & 1:
            found.append((here + 1, (0, 1 << BLANK)))
        return found

    def may_end(self, here):
        return here == self.last and self.answer.kind != BEFORE

    def parting(self, here):
        """The characters of either side with which the first text comes before the second here, the end before all."""
        at, beside = self.places(here)
        ours, others = self.sides[0].takes[at], self.sides[1].takes[beside]
        if self.answer.kind not in (AT_MOST, BEFORE) or not others:
            return 0, 0
        if at == self.sides[0].end:
            return 0, others
        ours = below(ours, others.bit_length() - 1)
        return ours, above(others, bits_of(ours)[0]) if ours else 0

    # Ways. What is not shown yet is taken first.

    def pick(self, side, place, mask):
        """The step by one bit of these, taken on this side at its place."""
        known = self.answer.shown[self.sides[side].block[place]]
        return side, place, self.dice.pick(bits_of(mask & ~known or mask))

    def taken(self, here, masks, side=0, bit=None):
        """The steps from here by one bit on each side that has some, this bit on this side if it is given: characters
        that count as one."""
        places, masks, way = self.places(here), list(masks), []
        if bit is not None:
            masks[side] = 1 << bit
        elif masks[0] and masks[1]:
            side = self.dice.below(2)
        for turn in (side, 1 - side):
            if masks[turn]:
                way.append(self.pick(turn, places[turn], masks[turn]))
                if masks[1 - turn]:
                    masks[1 - turn] &= alike_bits(self.any_case, way[-1][2])
        return way

    def way_to(self, here):
        ways = []
        while here:
            here, masks = self.dice.pick(self.came[here])
            ways.append(self.taken(here, masks))
        return [step for way in reversed(ways) for step in way]

    def way_on(self, here):
        way = []
        while True:
            on = [step for step in self.steps(here) if step[0] in self.alive]
            if any(self.parting(here)) and (not on or self.dice.below(4) == 0):
                return way + self.parted(here)
            if not on:
                return way
            there, masks = self.dice.pick(on)
            way += self.taken(here, masks)
            here = there

    def parted(self, here, side=0, bit=None, through=()):
        """A way on from where the texts part: this side takes this bit here, or takes one at a place further on."""
        places, masks, way = self.places(here), list(self.parting(here)), []
        if bit is not None:
            masks[side] = 1 << bit
        for turn in (side, 1 - side):
            if masks[turn]:
                way.append(self.pick(turn, places[turn], masks[turn]))
                code = way[-1][2]
                masks = [masks[0], above(masks[1], code)] if turn == 0 else [below(masks[0], code), masks[1]]
        starts = [places[turn] + (masks[turn] != 0) for turn in (0, 1)]
        for turn, start in enumerate(starts):
            way += self.alone(turn, start, *through if turn == side else ())
        return way

    def alone(self, side, place, target=None, bit=None):
        """A way from this place to the end, on which that bit is taken at the target."""
        places, way = self.sides[side], []
        while place != places.end:
            takes, closes = places.takes[place], places.closes[place]
            if place == target:
                mask, target = 1 << bit, None
            elif target is not None and places.behind[place] > target:
                mask = takes
            else:
                mask = takes if takes and (not closes or self.dice.below(2)) else closes
            way.append(self.pick(side, place, mask))
            place = places.next(place, way[-1][2])
        return way

    def fillings(self, way):
        runs = [bytearray() for _ in self.answer.shown]
        for side, place, bit in way:
            if bit < COUNTS:
                runs[self.sides[side].block[place]].append(bit)
        runs = iter(map(bytes, runs))
        return [[next(runs) for _ in shape] for shape in self.answer.shapes]

    # All that is on some way, shown by one.

    def hold(self, here, way):
        self.answer.hold(self.fillings(self.way_to(here) + way))

    def new(self, side, place, mask):
        """The bits of these that are not shown when their turn comes."""
        for bit in bits_of(mask):
            if not self.answer.shown[self.sides[side].block[place]] >> bit & 1:
                yield bit

    def hold_all(self):
        """Holds the answer to fillings for every bit that some way takes, as long as it is new."""
        free = [None, None]
        for here in sorted(self.alive):
            places = self.places(here)
            for there, masks in self.steps(here):
                for side in (0, 1) if there in self.alive else ():
                    for bit in self.new(side, places[side], masks[side]):
                        self.hold(here, self.taken(here, masks, side, bit) + self.way_on(there))
            for side, mask in enumerate(self.parting(here)):
                for bit in self.new(side, places[side], mask):
                    self.hold(here, self.parted(here, side, bit))
                if mask and (free[side] is None or places[side] < self.places(free[side])[side]):
                    free[side] = here
        # Behind where a text parts first, it goes on as it likes.
        for side, here in enumerate(free):
            if here is not None:
                for place in range(self.places(here)[side] + 1, self.sides[side].end):
                    for bit in self.new(side, place, self.sides[side].takes[place] | self.sides[side].closes[place]):
                        self.hold(here, self.parted(here, side, through=(place, bit)))


# By chance.


def respelled(dice, shape, text):
    """Some filling of the shape with this text, or None, by the lengths of its runs."""

    @lru_cache(maxsize=None)
    def lengths(number, start):
        """With which lengths of this block's run the rest fits."""
        base, lower, upper = shape[number]
        found = []
        for length in range(min(upper, len(text) - start) + 1):
            if length and text[start + length - 1] not in base:
                break
            if length >= lower and rest_fits(number + 1, start + length):
                found.append(length)
        return found

    def rest_fits(number, start):
        return bool(lengths(number, start)) if number < len(shape) else start == len(text)

    runs, start = [], 0
    for number in range(len(shape)):
        if not lengths(number, start):
            return None
        length = dice.pick(lengths(number, start))
        runs.append(text[start : start + length])
        start += length
    return runs


def texts_by_chance(dice, answer, together):
    """Texts that may keep the rule, some of them texts of the shapes."""
    shapes = answer.shapes
    for _ in range(WALKS if together.alive else 0):
        yield [b"".join(runs) for runs in together.fillings(together.way_on(0))]
    for turn in range(TRIES):
        texts = [random_filling(dice, shape) for shape in shapes]
        if answer.kind == JOIN and turn % 2:
            cut = dice.between(0, len(texts[0]))
            texts[1:] = texts[0][:cut], texts[0][cut:]
        elif answer.kind == JOIN:
            texts[0] = texts[1] + texts[2]
        elif answer.kind not in (AT_MOST, BEFORE):
            text = texts[turn % 2]
            if answer.kind == EQUAL:
                text = padded_anew(dice, text, MOST_CHARACTERS)
            elif answer.kind == ANY_CASE:
                text = dice.pick((text.swapcase(), text.lower(), text.upper(), recased(dice, text)))
            texts[1 - turn % 2] = text
        yield texts
    if answer.kind in (AT_MOST, BEFORE):
        yield [bound(shapes[0], False), bound(shapes[1], True)]


def hold_by_chance(dice, answer, together):
    """Holds the answer to fillings whose texts are met by chance, and answers how many."""
    before = answer.found
    for texts in texts_by_chance(dice, answer, together):
        if keeps(answer.kind, texts):
            fillings = [respelled(dice, shape, text) for shape, text in zip(answer.shapes, texts)]
            if None not in fillings:
                answer.hold(fillings)
    return answer.found - before


# The stored cases.


def answer_read(case, line):
    """A case with its expected line, or None if it is refused."""
    if line.startswith("refused"):
        return None
    kind, _, _, words = case_read(case)
    shapes = [shape_of(numbers) for numbers in words]
    if line.startswith("none"):
        return Answer(kind, shapes, None)
    outputs = line[: line.index(" work")].removeprefix("narrow").split(" /")
    outputs = [numbers_read(output.split())[: len(numbers)] for output, numbers in zip(outputs, words)]
    return Answer(kind, shapes, [shape_of(output) for output in outputs])


def large(answer):
    first, *others = (total(shape) + len(shape) for shape in answer.shapes)
    return first * sum(others) >= LARGE


def changed(answer):
    """How many blocks the answer changes."""
    pairs = zip(answer.shapes, answer.narrow or ())
    return sum(block != left for shape, narrow in pairs for block, left in zip(shape, narrow))


def sampled(answers):
    """A part of these, of every kind and both answers: those that change most blocks, and some of all the others."""
    for kind in (*KINDS, JOIN):
        for none in (False, True):
            alike = [answer for answer in answers if answer.kind == kind and (answer.narrow is None) == none]
            alike.sort(key=changed, reverse=True)
            most = min(MOST_CASES, len(alike))
            others = alike[most:]
            yield from alike[:most]
            yield from others[:: len(others) // SOME_CASES + 1]


def hold(cases, lines):
    """Raises where an expected line of a large case is refuted. Answers how many were looked at, and how many fillings
    of all their texts were searched for and met by chance."""
    if len(cases) != len(lines):
        raise AssertionError("not one line for each case")
    answers = [answer_read(case, line) for case, line in zip(cases, lines)]
    dice = Dice(26)
    looked, searched, met = 0, 0, 0
    for answer in sampled([answer for answer in answers if answer and large(answer)]):
        together = Together(dice, answer)
        together.hold_all()
        answer.hold_to_all_shown()
        searched += answer.found
        met += hold_by_chance(dice, answer, together)
        looked += 1
    if not looked or not searched or not met:
        raise AssertionError("nothing was looked at")
    return looked, searched, met
