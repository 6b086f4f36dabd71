#!/usr/bin/env python3
"""places.py [POINT]: the places of src/ that docs/DESIGN-PASS.md counts, one to a line, and how many of each point.

Run it at the top. A point is counted by form alone: whether a place should change is for the page to say.
"""
import collections
import glob
import re
import sys

FILES = sorted(glob.glob("crates/*/src/*.rt"))


def code(path):
    """The lines without comments."""
    return [re.sub(r"//.*", "", line).rstrip() for line in open(path, encoding="utf-8")]


def functions(path):
    """(name, first line, signature, clauses, body) of each function."""
    lines = code(path)
    i = 0
    while i < len(lines):
        head = re.match(r"^( *)(?:pub )?(?:extern \"C\" )?fn ([a-z_0-9]+)", lines[i])
        if not head or lines[i].endswith(";"):
            i += 1
            continue
        pad = head.group(1)
        j = i
        while not (lines[j] == pad + "{" or (lines[j].endswith(" {") and (j == i or lines[j].startswith(pad + ")")))):
            if lines[j].endswith(";"):
                break
            j += 1
        if lines[j].endswith(";"):
            i = j + 1
            continue
        k = j + 1
        while lines[k] != pad + "}":
            k += 1
        above = lines[i : j + 1]
        clause = next((n for n, l in enumerate(above) if re.match(r"\s+(requires|ensures) ", l)), len(above))
        signature = " ".join(l.strip() for l in above[:clause])
        clauses = " ".join(l.strip() for l in above[clause:])
        yield head.group(2), i + 1, signature, clauses, lines[j + 1 : k]
        i = k + 1


def parameters(signature):
    """Pairs of name and type."""
    inner = re.search(r"\((.*)\)", signature)
    kinds = r"(?:mut )?([a-z_0-9]+): ((?:&'?[a-z]* ?(?:mut )?)?(?:\[[^\]]*\]|[A-Za-z_0-9:<>]+))"
    return re.findall(kinds, inner.group(1)) if inner else []


def enums():
    """1: enums with a variant for an absence or a refusal, and constants that number kinds."""
    absent = r"\b(Refused|Not|Nothing|None|Departs|Failed|Stuck)\b"
    for path in FILES:
        text = "\n".join(code(path))
        for found in re.finditer(r"enum (\w+) \{([^}]*)\}", text):
            if re.search(absent, found.group(2)):
                yield f"{path}:{text[:found.start()].count(chr(10)) + 1}: enum {found.group(1)}"
        for n, line in enumerate(code(path), 1):
            if re.match(r"pub const (PADDED|AT_MOST|BEFORE|JOIN|EXACT|ANY_CASE): u64", line):
                yield f"{path}:{n}: {line}"
        for name, at, signature, _, body in functions(path):
            if name in ("decimal_digit", "hex_digit") or name == "next" and "-> Chosen" in signature:
                yield f"{path}:{at}: fn {name}, a number for none"
            if re.search(r"-> \w*Batch|-> Ran\b", signature):
                yield f"{path}:{at}: fn {name}, a flag with a value beside"


def shape_of(body):
    """A body with each name but the keywords and methods replaced by its number of first use."""
    seen = {}
    words = re.findall(r"[A-Za-z_][A-Za-z_0-9]*|[0-9]+|[^\s\w]", " ".join(body))
    keep = {"let", "mut", "if", "else", "while", "for", "in", "return", "match", "loop", "as"}
    named = re.compile(r"[A-Za-z_0-9]")
    return " ".join(w if w in keep or not named.match(w) else seen.setdefault(w, f"x{len(seen)}") for w in words)


def twins():
    """2: functions of five lines or more that differ in names and numbers alone; forms of one word beside wide ones."""
    groups = collections.defaultdict(list)
    for path in FILES:
        for name, at, _, _, body in functions(path):
            if len([l for l in body if l.strip()]) >= 5:
                groups[shape_of(body)].append(f"{path}:{at}: fn {name}")
    for same in groups.values():
        if len(same) > 1:
            yield from same[1:]
    word = re.compile(r"_(word|low)$|^with_word$")
    for path in FILES:
        for name, at, _, _, _ in functions(path):
            if word.search(name) and name not in ("read_word", "word_set", "in_word", "is_word", "as_word", "of_word"):
                yield f"{path}:{at}: fn {name}, the form of one word"


def loops():
    """3: loops that step a counter by hand."""
    for path in FILES:
        lines = code(path)
        for n, line in enumerate(lines):
            head = re.match(r"^( *)while (.*) \{$", line)
            if head:
                end = n + 1
                while lines[end] != head.group(1) + "}":
                    end += 1
                body = "\n".join(lines[n:end])
                counter = re.findall(r"\b([a-z_.0-9]+) (?:\+=|-=) 1;", body)
                counter += re.findall(r"\b(i) = BlockNumber\(i", body)
                if any(re.search(rf"\b{re.escape(c)}\b", head.group(2)) for c in counter):
                    yield f"{path}:{n + 1}: {line.strip()}"


COMPARED = r"(while|for) [^{]*\{ if \w+\[[^\]]*\] (==|!=|<) \w+(\[[^\]]*\])? \{ return [^;]*; \}"
TOLD = r"match (r|s|ended|answer|record) \{.*\}"
CHOSEN = r"if (.+) <=? (.+) \{ return (\w+|0|\w+ as usize|[\w.()]+); \} (.+)"


def by_hand():
    """4: elements copied, filled or compared one by one; the less or greater of two; an enum turned into numbers."""
    for path in FILES:
        for name, at, signature, _, body in functions(path):
            text = " ".join(line.strip() for line in body)
            one = r"(?:let \w+ = [^;]*; )?"
            if re.search(r"while [^{]*\{ " + one + r"\w+\[[^\]]*\] = (\w+\[[^\]]*\]|\w+); \w+ \+= 1; \}", text):
                yield f"{path}:{at}: fn {name}, copied or filled"
            elif re.search(COMPARED, text) or "if second.len() <= i" in text:
                yield f"{path}:{at}: fn {name}, compared"
            elif re.fullmatch(CHOSEN, text) and len(body) <= 4 and "->" in signature and "bool" not in signature:
                yield f"{path}:{at}: fn {name}, the less or the greater"
            elif re.fullmatch(TOLD, text) and re.search(r"-> (u64|AnswerRecord)$", signature):
                yield f"{path}:{at}: fn {name}, an answer turned into numbers"


def together():
    """5: clauses of three contracts or more, and three parameters that travel together through three functions."""
    clauses = collections.defaultdict(set)
    groups = collections.defaultdict(set)
    for path in FILES:
        for name, at, signature, text, _ in functions(path):
            for clause in re.findall(r"requires (?:[a-z_0-9]+ )?\{(.*?)\}(?= (?:requires|ensures)|\s*\{?$)", text):
                clauses[clause.strip()].add(f"{path}:{at}")
            names = [p for p, _ in parameters(signature)]
            for n in range(len(names) - 2):
                groups[" ".join(names[n : n + 3])].add(f"{path}:{at}")
    for clause, at in sorted(clauses.items()):
        if len(at) >= 3:
            yield f"{len(at)} contracts: {clause}"
    for names, at in sorted(groups.items()):
        if len(at) >= 3:
            yield f"{len(at)} functions: {names}"


def buffers():
    """6: a count beside a slice, arrays side by side, rows as loose words."""
    for path in FILES:
        for name, at, signature, _, _ in functions(path):
            ps = parameters(signature)
            slices = [p for p, t in ps if "[" in t]
            counts = [p for p, t in ps if t == "usize" and p in ("k", "m", "n")]
            if slices and counts:
                yield f"{path}:{at}: fn {name}, {' '.join(counts)} beside {' '.join(slices)}"
            if {"zones", "ends"} <= set(slices):
                yield f"{path}:{at}: fn {name}, zones, ends, slots side by side"
        for n, line in enumerate(code(path), 1):
            if re.search(r"rows::(row_at|put_row|SIZE)", line):
                yield f"{path}:{n}: {line.strip()}"


def switches():
    """7: a match or a flag that chooses which function runs."""
    for path in FILES:
        for n, line in enumerate(code(path), 1):
            if re.search(r"match (d|kind|heading|width|self) \{", line):
                yield f"{path}:{n}: {line.strip()}"


def answers():
    """8: answers that say only that the search finds them, and files of functions' proofs."""
    files = sorted(glob.glob("crates/*/proofs/**/Answers.antt", recursive=True))
    for path in files:
        for n, line in enumerate(open(path, encoding="utf-8"), 1):
            if re.search(r"= search rules$", line.rstrip()):
                yield f"{path}:{n}"


POINTS = [enums, twins, loops, by_hand, together, buffers, switches, answers]

if __name__ == "__main__":
    for number, point in enumerate(POINTS, 1):
        if len(sys.argv) < 2 or sys.argv[1] == str(number):
            places = list(point())
            if len(sys.argv) > 1:
                print("\n".join(places))
            print(f"{number}: {len(places)}")
