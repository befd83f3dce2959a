#!/usr/bin/env python3
"""Counts what makes the sources hard to live in, over all crates, and says how far each count may go.

    checks/house.py            the counts, and the worst places of each
    checks/house.py --all      every place
    checks/house.py CRATE..    of these crates alone

It reads the sources and nothing else. It ends with 1 where a count is above its bound, and it is no part of the gate.
"""
import os
import re
import sys

os.chdir(os.path.join(os.path.dirname(os.path.abspath(__file__)), ".."))
CLAUSE = re.compile(r"^\s*(requires|ensures|invariant|decreases)\b")
FUNCTION = re.compile(r"^(\s*)(pub )?(?:const )?(?:unsafe )?(?:extern \"C\" )?fn (\w+)")
# What the toolchain's CONTRACT_STYLE.md calls older forms; a parameter may have such a name.
OLD_FORMS = ("cond", "get_or", "eqb", "Decides")
# Their signatures are the original crate's.
FIXED = re.compile(r"^(enc_\w+|mem_(\w+_)?emit)$")


def crates():
    """The crates' names, lowest first."""
    lines = [line for line in open("crates.txt") if ":" in line and not line.startswith("#")]
    return [line.split(":")[0].split()[0] for line in lines]


def sources(crate):
    """The program files of a crate, each with its lines."""
    for folder, _, files in sorted(os.walk(f"crates/{crate}/src")):
        for file in sorted(files):
            if file.endswith(".rt"):
                path = os.path.join(folder, file)
                yield path, open(path).read().split("\n")


def clauses(lines):
    """Each clause: its first line's number, and its widest line's columns."""
    number = 0
    while number < len(lines):
        if not CLAUSE.match(lines[number]):
            number += 1
            continue
        first, widest, depth = number, 0, 0
        while number < len(lines):
            line = lines[number]
            widest = max(widest, len(line))
            depth += line.count("{") - line.count("}")
            number += 1
            if depth <= 0:
                break
        yield first + 1, widest


def parameters(lines, number):
    """How many parameters the function has that begins at this line."""
    text = "\n".join(lines[number:number + 40])
    start = text.index("(", text.index("fn "))
    depth, count, some = 0, 0, False
    for mark in text[start:]:
        if mark in "([{<":
            depth += 1
        elif mark in ")]}>":
            depth -= 1
            if depth == 0:
                break
        elif mark == "," and depth == 1:
            count += 1 if some else 0
            some = False
            continue
        if depth == 1 and not mark.isspace() and mark not in "(":
            some = True
    return count + (1 if some else 0)


def old_forms(lines):
    """The clauses of public functions with an older form: the line, and the form."""
    for first, _ in clauses(lines):
        above = next((number for number in range(first - 1, -1, -1) if FUNCTION.match(lines[number])), None)
        if above is None or not FUNCTION.match(lines[above]).group(2):
            continue
        head = " ".join(lines[above:first - 1])
        text, depth = "", 0
        for line in lines[first - 1:]:
            text += line + " "
            depth += line.count("{") - line.count("}")
            if depth <= 0:
                break
        for form in OLD_FORMS:
            if re.search(rf"(?<![\w.]){form}(?!\w)", text) and not re.search(rf"\b{form}:", head):
                yield first, form


def docstring(lines, number):
    """What stands above a function, and whether it is in an `impl` of a trait."""
    above = []
    number -= 1
    while number >= 0 and (lines[number].strip().startswith("///") or lines[number].strip().startswith("#")):
        if lines[number].strip().startswith("///"):
            above.insert(0, lines[number].strip()[3:].strip())
        number -= 1
    return " ".join(above)


def signature(lines, number):
    """The text of a function up to its body."""
    text = []
    for line in lines[number:number + 40]:
        text.append(line)
        if CLAUSE.match(line) or line.rstrip().endswith("{"):
            break
    return " ".join(text)


def main():
    """Counts, and prints."""
    named = [word for word in sys.argv[1:] if not word.startswith("-")]
    chosen = named or crates()
    found = {key: [] for key in BOUNDS}
    total = 0
    for crate in chosen:
        for path, lines in sources(crate):
            for number, line in enumerate(lines):
                if re.match(r"^pub mod \w+;", line):
                    found["public modules"].append((0, f"{path}:{number + 1}"))
                match = FUNCTION.match(line)
                if not match:
                    continue
                count = parameters(lines, number)
                if count > 6 and not FIXED.match(match.group(3)):
                    found["functions with more than six parameters"].append((count, f"{path}:{number + 1} {match.group(3)}"))
                if not match.group(2):
                    continue
                words = docstring(lines, number)
                if not words:
                    found["public functions without a docstring"].append((0, f"{path}:{number + 1} {match.group(3)}"))
                elif words.startswith("The same"):
                    found["docstrings that begin \"The same\""].append((0, f"{path}:{number + 1} {match.group(3)}"))
                if re.search(r"Result<.*EmitError>", signature(lines, number)) and words and not re.search(r"`[A-Z]\w+`|rror|efuse|memory", words):
                    found["functions that answer EmitError and don't say when"].append((0, f"{path}:{number + 1} {match.group(3)}"))
            for number, form in old_forms(lines):
                found["old forms in clauses of public functions"].append((0, f"{path}:{number} {form}"))
            for number, width in clauses(lines):
                total += 1
                if width > 100:
                    found["clauses above 100 columns"].append((width, f"{path}:{number}"))
                if width > 160:
                    found["clauses above 160 columns"].append((width, f"{path}:{number}"))
    wrong = report(found, total, named)
    print(f"{len(chosen)} crates" + ("" if named else " (at most 55, and what the library, objects and disassembler add)"))
    sys.exit(1 if wrong else 0)


def report(found, total, named):
    """Prints each count beside its bound, with its worst places; whether one is above."""
    wrong = False
    for key, bound in BOUNDS.items():
        limit = bound(total)
        places = sorted(found[key], key=lambda it: (-it[0], it[1]))
        wrong |= len(places) > limit
        of = f" of {total}" if key.startswith("clauses") else ""
        print(f"{key}: {len(places)}{of}" + ("" if named else f" (at most {limit})"))
        for measure, place in places if "--all" in sys.argv else places[:3]:
            print("    " + (f"{measure} " if measure else "") + place)
    return wrong


BOUNDS = {
    "public modules": lambda total: 80,
    "clauses above 100 columns": lambda total: total // 10,
    "clauses above 160 columns": lambda total: 0,
    "old forms in clauses of public functions": lambda total: 0,
    "functions with more than six parameters": lambda total: 0,
    "public functions without a docstring": lambda total: 0,
    "docstrings that begin \"The same\"": lambda total: 0,
    "functions that answer EmitError and don't say when": lambda total: 0,
}

if __name__ == "__main__":
    main()
