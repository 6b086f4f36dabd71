#!/usr/bin/env python3
"""same_statements.py COMMIT: holds this checkout's statements to those of COMMIT, the last commit in the older spelling.

Token by token, without parentheses and without what marks the moment of a value (`now`, `.old`, `.entry` ..), each
clause of src/, each line of specs/ and each signature of the lemma files of proofs/ has to be the older one under one
renaming, which is the same everywhere and never takes two names to one (but for the names in BOTH). It prints what
does not fit, and the renamings of each crate with --names. It does not look at imports, at what marks the moment of a
value, nor at code. Run it at the top.
"""
import collections
import os
import re
import subprocess
import sys

TOKEN = re.compile(r"[(){}\[\],;.⌜⌝]|[^\s(){}\[\],;.⌜⌝]+")
MOMENT = set("( ) . ⌜ ⌝ now entry exit old new".split())
DECLARED = re.compile(r"^(\s*)(?:abbrev |unfoldable |opaque |pub )*([^\s:(){};,]+) :(?: |$)")
TYPED = re.compile(r"^(\s*)(?:abbrev |unfoldable |pub )*(?:record|data) (\S+)")
# `no-block` was an alias for noBlock in one file.
BOTH = {"no_block"}


def git(*words):
    return subprocess.run(["git", *words], capture_output=True, text=True, check=True).stdout


def tokens(text, drop=frozenset("().")):
    return [t for t in TOKEN.findall(text) if t not in drop]


def clauses(text):
    text = re.sub(r"//[^\n]*", "", text)
    for m in re.finditer(r"\b(requires|ensures|ghost)\b ?(\w+)?:? ?\{", text):
        at, depth = m.end(), 1
        while depth:
            depth += {"{": 1, "}": -1}.get(text[at], 0)
            at += 1
        yield m.group(1), text[m.end() : at - 1].strip()


def clause(kind, text):
    bound = re.match(r"λ (\w+)\. ", text)
    name = None
    if bound and kind == "ensures":
        name, text = bound.group(1), text[bound.end() :]
    return ["result" if t == name else t for t in tokens(text, MOMENT)]


def plain(text):
    """A file of definitions without comments and imports."""
    text = re.sub(r"(?ms)^(pub )?use [^\n{]*(\{[^}]*\})?[^\n]*$", "", text)
    return "\n".join(re.sub(r"(^|\s)--( .*)?$", "", line) for line in text.split("\n"))


def signatures(text):
    lines, found, at = [l for l in text.split("\n") if not l.lstrip().startswith("--")], [], 0
    while at < len(lines):
        m = DECLARED.match(lines[at])
        at += 1
        if not m:
            continue
        part, indent = [lines[at - 1][m.end() :]], m.group(1)
        while at < len(lines) and lines[at].strip():
            line = lines[at]
            if not line.startswith((indent + "unfolding", indent + "unfold ")):
                if len(line) - len(line.lstrip()) <= len(indent):
                    break
                part.append(line)
            at += 1
        found.append((m.group(2), " ".join(part)))
    return found


def declared(text):
    names = []
    for line in text.split("\n"):
        m = DECLARED.match(line) or TYPED.match(line)
        if m and not line.lstrip().startswith("--"):
            names.append(m.group(2))
    return names


def main(commit):
    files = git("ls-tree", "-r", "--name-only", commit, "crates").split()
    rows, odd, names, n = [], [], collections.defaultdict(dict), collections.Counter()
    for path in files:
        kind = "src" if path.endswith(".rt") else "specs" if "/specs/" in path else "lemmas" if re.search(r"/proofs/[^/]+\.antt$", path) else None
        if not kind or not path.endswith((".rt", ".antt")):
            continue
        if not os.path.exists(path):
            odd.append(f"{path}: gone")
            continue
        old = git("show", f"{commit}:{path}")
        with open(path, encoding="utf-8") as f:
            new = f.read()
        if kind == "src":
            a, b = list(clauses(old)), list(clauses(new))
            if [k for k, _ in a] != [k for k, _ in b]:
                odd.append(f"{path}: other clauses")
                continue
            pairs = [(path, clause(*x), clause(*y)) for x, y in zip(a, b)]
        elif kind == "specs":
            pairs = [(path, tokens(plain(old)), tokens(plain(new)))]
        else:
            a, b = signatures(old), signatures(new)
            if len(a) != len(b):
                odd.append(f"{path}: {len(a)} declarations are {len(b)}")
                continue
            pairs = [(f"{path}, {x[0]} -> {y[0]}", [x[0], *tokens(x[1])], [y[0], *tokens(y[1])]) for x, y in zip(a, b)]
        n[kind] += len(pairs)
        rows += pairs
        if kind != "src":
            for x, y in zip(declared(old), declared(new)):
                if x != y:
                    names[path.split("/")[1]][x] = y
    seen = collections.defaultdict(collections.Counter)
    for where, a, b in rows:
        if len(a) == len(b):
            for x, y in zip(a, b):
                seen[x][y] += 1
    best = {x: c.most_common(1)[0][0] for x, c in seen.items()}
    for where, a, b in rows:
        if [best.get(x, x) for x in a] != b:
            odd.append(f"{where}:\n    - {' '.join(a)[:600]}\n    + {' '.join(b)[:600]}")
    back = collections.defaultdict(set)
    for x, y in best.items():
        back[y].add(x)
    odd += [f"two names are one: {sorted(xs)} -> {y}" for y, xs in back.items() if len(xs) > 1 and y not in BOTH]
    if "--names" in sys.argv:
        for crate, turned in names.items():
            print(f"{crate}: " + ", ".join(f"{x} → {y}" for x, y in turned.items()))
        return 0
    print(f"{n['src']} clauses, {n['specs']} files of definitions, {n['lemmas']} signatures of lemma files compared; {len(odd)} differ")
    print("\n".join(odd))
    return 1 if odd else 0


if __name__ == "__main__":
    raise SystemExit(main(sys.argv[1]))
