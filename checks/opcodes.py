#!/usr/bin/env python3
"""Lists the opcodes that stand as bare numbers in the sources, where their constants have to stand; it needs nothing else.

    checks/opcodes.py

An opcode of three digits or more is looked for in all crates but those of tests. Each constant has to have one row, and its name
has to be the mnemonic that stands beside it, without the letter of an element's size. It ends with 1 where one differs.
Other scripts that read the sources take `plain` from it, which puts the numbers in the constants' place, and `machine_rows`, the
lines of the table of machine rows.
"""
import collections
import os
import re
import sys

CRATES = os.path.join(os.path.dirname(os.path.abspath(__file__)), "..", "crates")
CONSTANTS = os.path.join(CRATES, "s390x_rows", "src", "opcodes.rt")
TABLE = os.path.join(CRATES, "s390x_format", "src", "table.rt")
TESTS = ("s390x_known_answers",)
LINE = re.compile(r'^ *\$each!\((\w+), (\w+), Allowed::(\w+)(?: \{ low: (\d+), high: (\d+) \})?, \("(\w*)", (\w+), (\w+)\), FacilityRule::(.*?), RowSemantics::(.*)\), // (.+)$', re.M)

# A machine row: the number and the name of its opcode; what its first mask may be; what its mnemonics begin with, end with and stand before;
# the rule of its facility, what it does, as the table writes them; and its mnemonics.
MachineRow = collections.namedtuple("MachineRow", "format opcode name allowed low high stem suffix form facility semantics mnemonics")


def constants():
    """The opcodes by their names, as they are written."""
    with open(CONSTANTS) as file:
        return dict(re.findall(r"^pub const (\w+): u16 = (0x[0-9a-f]+);", file.read(), re.M))


def plain(text):
    """A source with the numbers in place of the opcodes' names."""
    known = constants()
    return re.sub(r"\bopcodes(?:::|\.)([A-Z][A-Z0-9]*)\b( as u8\b)?", lambda name: known[name[1]], text)


def machine_rows(path=TABLE):
    """The lines of the table of machine rows, in its order."""
    known = constants()
    with open(path) as file:
        lines = LINE.findall(file.read())
    return [MachineRow(kind, int(known[name], 16), name, allowed, int(low or 0), int(high or 0), *columns, mnemonics.split())
            for kind, name, allowed, low, high, *columns, mnemonics in lines]


def sources():
    """The program files, definitions and proofs of the crates, but for those of tests and the constants themselves."""
    for crate in sorted(set(os.listdir(CRATES)) - set(TESTS)):
        for part in ("src", "specs", "proofs"):
            for folder, _, files in sorted(os.walk(os.path.join(CRATES, crate, part))):
                for file in sorted(files):
                    path = os.path.join(folder, file)
                    if file.endswith((".rt", ".antt")) and not os.path.samefile(path, CONSTANTS):
                        yield path


def misnamed():
    """The constants of rows whose mnemonic is another one, with these."""
    rows = machine_rows()
    if sorted(row.name for row in rows) != sorted(constants()):
        raise SystemExit("the table hasn't one row for each constant")
    return [(row.name, row.mnemonics[0]) for row in rows if not re.fullmatch(row.name.lower() + "[bhfgq]?", row.mnemonics[0])]


def main():
    names = {number: name for name, number in constants().items() if len(number) >= 5}
    found = 0
    for path in sources():
        with open(path) as file:
            for number, line in enumerate(file, 1):
                code = re.split(r"//|--", line)[0]
                for word in re.findall(r"(?<![\w.\"])0x[0-9a-f]{3,4}(?![\w.])", code):
                    if word in names:
                        print(f"{os.path.relpath(path, CRATES)}:{number}: {word} is {names[word]}")
                        found += 1
    wrong = misnamed()
    for name, mnemonic in wrong:
        print(f"{name} stands at the row of {mnemonic}")
    print(f"{len(constants())} opcodes, {found} bare, {len(wrong)} misnamed")
    sys.exit(found + len(wrong) > 0)


if __name__ == "__main__":
    main()
