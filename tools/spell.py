#!/usr/bin/env python3
"""spell.py: brings this repository's own names to snake case, once, after port.py. Run it at the top.

A definition, law, field or constructor that specs/ or proofs/*.antt declares, in camel case or with dashes, is
respelled wherever it stands: in .antt files, in ghost lines and clauses, in must-fail edits, and between backticks in
comments and papers. Types, names from src/, names that the library has too and names of one function's proof stay.
Where two names fall together, the definition gets the plain name and the law `_lem`.
"""
import collections
import os
import re

DECLARED = re.compile(r"^\s*(?:abbrev |unfoldable |opaque |pub )*([^\s:(){};,]+) :(?: |$)")
USED = re.compile(r"(?ms)^(?:pub )?(?:ghost )?use ([^\s{;]+)\.\{([^}]*)\}")
WORD = re.compile(r"(?<![A-Za-z0-9_'-])[A-Za-z][A-Za-z0-9_'-]*")
TICKED = re.compile(r"`[^`\n]*`")
# Where a definition and a field of specs/ would fall together.
CHOSEN = {
    "checkShape": "check_shape_call",
    "commonText": "common_text_call",
    "runBook": "run_book_call",
    "runFile": "run_file_call",
    "runHost": "run_host_call",
    "eachText": "each_text_turn",
    "foundAll": "found_all_places",
    "fourNumbers": "numbers_of_four",
    "inFront": "put_in_front",
    "letterOf": "heading_letter",
    "noText": "no_text_ran",
    "ofBook": "of_lent_book",
    "ownBook": "book_of_own",
}
STRING = re.compile(r'"(?:[^"\\\n]|\\.)*"')


def files(*ends):
    for folder, folders, names in os.walk("crates"):
        folders[:] = sorted(f for f in folders if f != "out")
        for name in sorted(names):
            if name.endswith(ends):
                yield os.path.join(folder, name)


def read(path):
    with open(path, encoding="utf-8") as f:
        return f.read()


def snake(name):
    return re.sub(r"(?<=[a-z0-9])([A-Z])", lambda m: "_" + m.group(1).lower(), name.replace("-", "_"))


def respelled():
    own, library = collections.defaultdict(set), set()
    for path in files(".antt", ".rt"):
        text = read(path)
        for used in USED.finditer(text):
            head = used.group(1).split(".")
            if head[0] != "Rattle" or not os.path.isdir(os.path.join("crates", head[1])):
                library |= {n.strip().split(" as ")[0].strip() for n in used.group(2).split(",")}
        if path.endswith(".rt") or re.search(r"/proofs/[^/]+/[^/]+\.antt$", path):
            continue
        for line in text.split("\n"):
            declared = DECLARED.match(line)
            if declared and not line.lstrip().startswith("--"):
                own[declared.group(1)].add("/specs/" in path)
    new = {}
    wanted = collections.defaultdict(list)
    for name in sorted(own):
        if re.match(r"[a-z]", name) and name not in library:
            wanted[CHOSEN.get(name, snake(name))].append(name)
    for plain, names in sorted(wanted.items()):
        # the definition first, then what is spelled so already
        names.sort(key=lambda n: (True not in own[n], n != plain, n))
        for at, name in enumerate(names):
            spelled = plain if at == 0 and (plain not in library or name == plain) else plain + "_lem" * max(at, 1)
            if spelled != name:
                new[name] = spelled
    return new


def main():
    new = respelled()

    def words(text):
        return WORD.sub(lambda m: new.get(m.group(0), m.group(0)), text)

    def ticked(text):
        return TICKED.sub(lambda m: words(m.group(0)), text)

    def line_of(line, mark):
        """Code is respelled, comments between backticks, strings of a source file not at all."""
        at = line.find(mark)
        code, comment = (line, "") if at < 0 else (line[:at], line[at:])
        if mark == "//":
            parts, last = [], 0
            for string in STRING.finditer(code):
                parts += [words(code[last : string.start()]), string.group(0)]
                last = string.end()
            code = "".join(parts) + words(code[last:])
        else:
            code = words(code)
        return code + ticked(comment)

    for path in files(".antt", ".rt", ".edit"):
        text = read(path)
        if path.endswith(".edit"):
            turned = "\n".join(words(l) if l.startswith(("old: ", "new: ")) else ticked(l) for l in text.split("\n"))
        else:
            turned = "\n".join(line_of(l, "--" if path.endswith(".antt") else "//") for l in text.split("\n"))
        if turned != text:
            with open(path, "w", encoding="utf-8") as f:
                f.write(turned)
    for path in ("README.md", "docs/PROMISES.md", "docs/DECISIONS.md", "docs/PROOFS.md", "examples/README.md"):
        text = read(path)
        with open(path, "w", encoding="utf-8") as f:
            f.write(ticked(text))
    for name in sorted(new):
        print(name, new[name])


if __name__ == "__main__":
    main()
