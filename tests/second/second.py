#!/usr/bin/env python3
"""The second program for dashed strings, written from the papers alone.

It makes the test input of each test program and works out what that program has to print. Nothing in it is
taken from the proved library, and its methods are others, but for one: on large shapes narrowing goes through
rows of sets, near to the library's own method (pairs.py, joins.py). So its answers there are held to fillings
that are looked at by the definition alone (witnesses.py).

    second.py cases NAME               prints the test input of a program, always the same
    second.py expected NAME            reads a test input of that program and prints the expected output
    second.py report                   reads a book's file and prints the report that is due
    second.py wide                     reads a book's file headed BLOCKS and prints it headed WIDE
    second.py example                  prints document 01's book, its rule of four numbers
    second.py column                   prints where the unit starts in the torque line, as `unit_column` does
    second.py witnesses CASES LINES    holds the expected lines of large cases of narrowing to fillings
    second.py laws CASES LINES         holds the lines answered to books to what more rules can do to them

NAME is base, sweep, narrow, common, book, file, find, tray, host or reader. A case is a line, its fields parted by
single blanks. A number is lowercase hex without needless zeros. A list is its count and then its numbers; a shape
is lent as any count of 64-bit numbers, also none, of which a block takes six. Expected counts, and what a refusal
tells, are decimal.

base. A text is its bytes as hex pairs, `-` if it is empty. The words w are the rest of the line.

    C w w ..         sound | refused number text place
    F text w w ..    fits | unfit | refused number text place
    O text text      the earlier text
    L n w w ..       text length output | refused number text place output
    G n w w ..       the same with the greatest text

L and G lend an output of n bytes, each 0xa5, and show all of it as it is after the call.

sweep. The places of X in Y, into an output of r numbers, each 0xa5a5, all shown after the call.

    S r X Y          places looks output | cannot looks output | refused number text place output

narrow. The kind is a rule's: 0 equal once trailing blanks are dropped, 1 at most, 2 before, 4 equal to the
last character, 5 equal to the last character with A to Z counted as a to z. The work buffer has k bytes, each
0x5a; the outputs have rx and ry numbers, each 0xa5a5, all shown after the call with ` /` between the two. Of
the work buffer the bytes 0 at its start and the bytes 0x5a at its end are counted.

    N kind k rx ry X Y    narrow outputs work z e | none outputs work z e | refused number text place outputs work z e
    J k rx ry rz X Y Z    the same with three outputs

J narrows three shapes where the text of X is that of Y followed by that of Z.

common. The earliest common text of X and Y. The work buffer has k bytes, each 0x5a, and is shown as above.
The output has r bytes, each 0xa5; the text is shown as in base, and then the untouched bytes at the
output's end are counted, all of them where there is no text.

    C k r X Y        text length text rest e work z e | none rest e work z e
                     | refused number text place rest e work z e

book. Work buffer, block counts of the texts, blocks and rules, four numbers to a rule. Eight records are shown, one to
a text: the name of its group, then `stable` or `none`, then the group's count; past the last text, and in all of them
where the book is refused, `0 stable 0`. All numbers of the blocks are shown after the call, and the work buffer as
above.

    B k counts blocks rules    accepted records blocks work z e | refused number text place records blocks work z e

Not among them yet are books in threes: a book A, a book B with A's texts, no block wider, and all of A's rules, and A
again as its run leaves it (further.py). `laws` holds what is answered to them to document 02, order 12 (laws.py).

file. A report of k bytes, each 0x5a, and the file's bytes as hex pairs, `-` if it is empty. The report is
shown with `/` for each newline; e counts the untouched bytes at its end, all of them where the file is refused.

    F k file         report length text rest e | refused number text place rest e

find. Where a mark starts first in the fitting texts. A mark is its bytes as hex pairs, `-` if it is empty; the words w
are the rest of the line. Shown are the least and the greatest index, counted from 1: after `some` where some fitting
text lacks the mark, after `all` where none does; `nowhere` where no fitting text has it.

    M mark w w ..    nowhere | some least greatest | all least greatest | refused number text place

tray. Pairs of ranges in a run of blocks, four numbers to a pair, judged by the quick sweep. The row has r records, each
`cannot` with 0xa5a5 looks, all shown after the call, each behind ` /`: as `places looks`, as `cannot looks` or as
`refused number text place looks`, all decimal.

    T r blocks pairs    judged records | refused number text place records

host. The call of the bench host, which tests/host/check.c makes; nothing is stored of it. A report buffer of r bytes, a
work buffer of k bytes, and the book's bytes as hex pairs, `-` if there are none. Shown are the number given back, the
bytes written as hex pairs, whether the rest of the report is as found, and the work: zeroed where its first 63,001
bytes are 0 and the rest as found, kept where all of it is as found.

    r k book         length bytes kept zeroed | -number - kept kept

reader. Least and greatest text as tests/host/reader.c calls them; nothing is stored of it. As L and G of base, but that
of a refusal only the output is shown.

    L n w w ..       text length output | refused output
    G n w w ..       the same with the greatest text
"""

import sys
from pathlib import Path

import base
import book
import common
import file
import find
import host
import laws
import narrow
import reader
import sweep
import tray
import witnesses

NAMES = {
    "base": base, "sweep": sweep, "narrow": narrow, "common": common, "book": book, "file": file, "find": find,
    "tray": tray, "host": host, "reader": reader,
}

# More than a stored file should have, and those of which nothing is stored.
STORED_ROOM = 2_000_000
NOT_STORED = (host, reader)


def main(arguments):
    if arguments in (["report"], ["example"]):
        file.hold_to_example()
        sys.stdout.buffer.write(file.EXAMPLE if arguments == ["example"] else file.report(sys.stdin.buffer.read()))
        return
    if arguments == ["wide"]:
        sys.stdout.buffer.write(file.widened(sys.stdin.buffer.read()))
        return
    if arguments == ["column"]:
        print(find.unit_column())
        return
    if len(arguments) == 3 and arguments[0] == "witnesses":
        cases, searched, met = witnesses.hold(*(Path(name).read_text().splitlines() for name in arguments[1:]))
        print(f"{cases} large cases held to {searched} fillings searched for and {met} met by chance")
        return
    if len(arguments) == 3 and arguments[0] == "laws":
        try:
            threes, texts, _ = laws.hold(*(Path(name).read_text().splitlines() for name in arguments[1:]))
        except laws.Broken as broken:
            sys.exit(f"laws: {broken}")
        print(f"{threes} threes of books: laws kept, {texts} texts compared")
        return
    if len(arguments) != 2 or arguments[0] not in ("cases", "expected") or arguments[1] not in NAMES:
        usage = "second.py cases NAME | expected NAME | report | wide | example | column | {witnesses,laws} CASES LINES"
        sys.exit(f"{usage}, NAME one of {', '.join(NAMES)}")
    part = NAMES[arguments[1]]
    if arguments[0] == "cases":
        lines = part.all_cases()
        part.hold_to_room(lines)
    else:
        lines = [part.expected_line(line) for line in sys.stdin.read().splitlines()]
    text = "".join(line + "\n" for line in lines)
    if len(text) >= STORED_ROOM and part not in NOT_STORED:
        raise AssertionError("more than should be stored")
    sys.stdout.write(text)


if __name__ == "__main__":
    main(sys.argv[1:])
