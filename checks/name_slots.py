#!/usr/bin/env python3
"""Compares the tables OFFSETS of s390x_job_lines/src/name.rt and ALL_NAMES of its name_hash.rt with the names of lines; run by hand.

    checks/name_slots.py            prints whether they are these names' tables, and ends with 1 where not
    checks/name_slots.py --print    prints the tables for these names

Each name has a slot of its own: the number that its letters tell, and an offset by how many they are, below 512.
Offsets that serve are kept, so that mostly a new name takes one blank of ALL_NAMES. The check proves the tables
right; where this program finds no offsets, another multiplier than 5 has to be tried.
"""
import pathlib
import re
import sys
from collections import defaultdict

SLOTS = 512
MULTIPLIER = 5
CRATES = pathlib.Path(__file__).parent.parent / "crates"
SOURCES = CRATES / "s390x_job_lines/src"
VIEWS = CRATES / "s390x_inst/src"
# The enums of s390x_job_lines/src/inst_name.rt, whose variants are spelled as they are named.
GROUPS = ("IntegerName", "MemoryName", "ControlName", "VectorName")
# The groups of loads and stores in s390x_inst/src/table.rt, which are spelled as their variants are named: the table, its group, and how ALL_NAMES writes a
# name of it, by the variant or by the layout behind it.
ACCESSES = (
    ("inst_table", "loads", "Load({0})"),
    ("inst_table", "stores", "Store({0})"),
    ("vector_table", "loads", "Whole(Direction::Load, {1})"),
    ("vector_table", "stores", "Whole(Direction::Store, {1})"),
)


def operators(file, enum):
    source = file.read_text()
    table = source[source.index(f"pub enum {enum} {{"):]
    return re.findall(r"\n    (\w+),", table[:table.index("}")])


def members(table, group):
    """The variants of a group, each with the word behind it."""
    source = (VIEWS / "table.rt").read_text().split(f"macro_rules! {table} {{")[1]
    return re.findall(r"\n {16}(\w+) (\w*) ?\{", re.search(rf"\n {{12}}{group} \{{(.*?)\n {{12}}\}}", source, re.S)[1])


def written_names():
    """Each name's text, with how ALL_NAMES writes it."""
    names = {text: name for name, text in re.findall(r'LineName::(\w+) => "(\w+)"', (SOURCES / "name.rt").read_text())}
    for group in GROUPS:
        names |= {name: f"{group.removesuffix('Name')}({name})" for name in operators(SOURCES / "inst_name.rt", group)}
    for table, group, form in ACCESSES:
        names |= {name: form.format(name, layout) for name, layout in members(table, group)}
    return names


def mix(name):
    number = 0
    for letter in name.encode():
        number = (number * MULTIPLIER + letter) % SLOTS
    return number


def kept_offsets():
    source = (SOURCES / "name.rt").read_text()
    table = source[source.index("pub const OFFSETS"):]
    return [int(number) for number in re.findall(r"\d+(?=,)", table[table.index("= ["):table.index("];")])]


def offsets(names):
    groups = defaultdict(list)
    for name in names:
        groups[len(name)].append(mix(name))
    taken, kept, found = set(), kept_offsets(), [0] * 32
    for letters, group in sorted(groups.items(), key=lambda item: -len(item[1])):
        slots, offset = next(
            (slots, offset)
            for offset in [kept[letters], *range(256)]
            for slots in [{(offset + number) % SLOTS for number in group}]
            if len(slots) == len(group) and not slots & taken
        )
        taken |= slots
        found[letters] = offset
    return found


def rows(items, width):
    return "".join("    " + " ".join(f"{item}," for item in items[at:at + width]) + "\n" for at in range(0, len(items), width))


def tables():
    """The lines of both tables, each with the file in which it stands."""
    names = written_names()
    shifts = offsets(names)
    slots = ["EndLine"] * SLOTS
    for text, name in names.items():
        slots[(shifts[len(text)] + mix(text)) % SLOTS] = name
    return {"OFFSETS": ("name.rt", rows(shifts, 16)), "ALL_NAMES": ("name_hash.rt", rows(slots, 4))}


def main():
    differences = []
    for table, (file, lines) in tables().items():
        if "--print" in sys.argv[1:]:
            print(f"{table}\n{lines}", end="")
        elif f"= [\n{lines}];" not in (SOURCES / file).read_text():
            differences.append(f"{table} of s390x_job_lines/src/{file} isn't the table of these names: checks/name_slots.py --print")
    if "--print" not in sys.argv[1:]:
        print("\n".join(differences or ["no difference"]))
    return 1 if differences else 0


if __name__ == "__main__":
    sys.exit(main())
