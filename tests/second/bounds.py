"""Fitting, least and greatest text, and the order of two texts."""

import re
from functools import lru_cache

from shapes import FEW_FILLINGS, agree, all_texts, fillings

# Fitting. No table over text and blocks is filled here.


def fits_by_runs(shape, text):
    """Try each length of the first block's run, then the rest of the blocks on the rest of the text."""

    @lru_cache(maxsize=None)
    def rest_fits(number, start):
        if number == len(shape):
            return start == len(text)
        base, lower, upper = shape[number]
        for length in range(min(upper, len(text) - start) + 1):
            if length > 0 and text[start + length - 1] not in base:
                return False
            if length >= lower and rest_fits(number + 1, start + length):
                return True
        return False

    return rest_fits(0, 0)


def fits_by_pattern(shape, text):
    """The shape as a regular expression. It may try every filling, so it is for small shapes."""
    pattern = b""
    for base, lower, upper in shape:
        if upper > 0:
            pattern += b"[%s]{%d,%d}" % (b"".join(b"\\x%02x" % code for code in base), lower, upper)
    return re.fullmatch(pattern, text) is not None


def fits(shape, text):
    verdict = fits_by_runs(shape, text)
    if fillings(shape) <= FEW_FILLINGS:
        agree("fitting, every filling", shape, verdict, text in all_texts(shape))
        agree("fitting, pattern", shape, verdict, fits_by_pattern(shape, text))
    return verdict


# Least and greatest text: character by character over the states in which a filling can be. No
# successor and no choice of counts block by block occurs here. A state (number, count) says that
# `count` characters of block `number` are laid; from each one the filling can be completed, since a
# sound block never wants a character from an empty base.


def without_a_character(shape, states):
    """These states with those reached by ending a run that is long enough."""
    reached = set()
    for number, count in states:
        reached.add((number, count))
        while number < len(shape) and count >= shape[number].lower:
            number, count = number + 1, 0
            reached.add((number, count))
    return reached


def bound_by_states(shape, greatest):
    text = bytearray()
    states = without_a_character(shape, {(0, 0)})
    while True:
        may_end = (len(shape), 0) in states
        growing = [s for s in states if s[0] < len(shape) and s[1] < shape[s[0]].upper]
        codes = {code for number, _ in growing for code in shape[number].base}
        # The end comes before every character.
        if not codes or (may_end and not greatest):
            if not may_end:
                raise AssertionError(f"a filling that cannot be completed: {shape}")
            return bytes(text)
        code = max(codes) if greatest else min(codes)
        text.append(code)
        grown = {(number, count + 1) for number, count in growing if code in shape[number].base}
        states = without_a_character(shape, grown)


@lru_cache(maxsize=None)
def bound(shape, greatest):
    text = bound_by_states(shape, greatest)
    if fillings(shape) <= FEW_FILLINGS:
        # Python orders byte strings as 003 orders texts.
        whole = max(all_texts(shape)) if greatest else min(all_texts(shape))
        agree("greatest" if greatest else "least", shape, text, whole)
    if not fits_by_runs(shape, text):
        raise AssertionError(f"a bound that does not fit: {shape}")
    return text


# Order of texts.


def earlier(first, second):
    for one, other in zip(first, second):
        if one != other:
            return first if one < other else second
    return second if len(second) < len(first) else first
