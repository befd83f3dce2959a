#!/usr/bin/env python3
"""Compares docs/REFUSALS.md with the sources, both ways; run by hand, from anywhere: checks/refusals.py

- Each call that its tables name is there, and each name of a clause or a cause in its row stands in the contracts.
- Each public call that may refuse stands in the page: a function, or a method of a type or trait, that the root of a library brings out by `pub use` or
  that another crate names, and that answers a `Result`, an `Option` or the end of a step. Left out are those that refuse only when out of memory, by the type of
  their error (`AllocError`, `NoMemory`), and the encoding calls, which the page names together.

It ends with 0 where nothing is missing, and else with 1 and a line for each that is.
"""
import glob
import os
import re
import sys

ROOT = os.path.dirname(os.path.dirname(os.path.abspath(__file__)))
PAGE = os.path.join(ROOT, "docs", "REFUSALS.md")

# Crates that aren't part of the product: tests, examples and measurements.
APART = re.compile(r"_tests$|_bench$|_example$|^s390x_(tool_cases|known_answers|step_vectors|case_runner)$")

REFUSES = re.compile(r"(Result|Option|\w+End)\b")
MEMORY_ALONE = re.compile(r"Result<.*\b(AllocError|NoMemory)>$")
NAMED_TOGETHER = re.compile(r"enc_\w+$")


def read(path):
    """The text of a file without its comments."""
    with open(path) as file:
        return re.sub(r"//.*", "", file.read())


def used_names(tree):
    """The names that a tree of a `use` brings in."""
    return re.findall(r"(\w+)\s*(?=[,}]|$)", tree)


def words_of(crates):
    """All words of the sources and definitions of these crates and of those that hold errors and causes."""
    words = set()
    for crate in crates + ["s390x_assign", "s390x_base", "s390x_operands", "s390x_smp", "s390x_typed_steps"]:
        for path in glob.glob(os.path.join(ROOT, "crates", crate, "*", "**", "*.*t*"), recursive=True):
            if os.sep + "out" + os.sep not in path:
                with open(path) as file:
                    words.update(re.findall(r"\w+", file.read()))
    return words


def named(cell):
    """The words and paths in backquotes."""
    return re.findall(r"`([\w:]+)`", cell)


def sources(crate):
    return sorted(glob.glob(os.path.join(ROOT, "crates", crate, "src", "**", "*.rt"), recursive=True))


def names_from_outside(crates):
    """For each crate the names that its root brings out, and those that other crates take from it."""
    found = {crate: set() for crate in crates}
    for crate in os.listdir(os.path.join(ROOT, "crates")):
        for path in sources(crate):
            text = read(path)
            if os.path.basename(path) == "lib.rt" and crate in found:
                for tree in re.findall(r"^pub use (?!s390x_)([^;]+);", text, re.M):
                    found[crate].update(used_names(tree))
            for other, tree in re.findall(r"^\s*(?:pub )?use (s390x_\w+)::([^;]+);", text, re.M):
                if other != crate and other in found:
                    found[other].update(used_names(tree))
    return found


def owner_of(line, head):
    """The type or trait of a block that begins here, and whether its functions are public by themselves; None for any other line."""
    block = re.match(r"^(?:pub )?(impl|trait)\b", line)
    if not block:
        return None
    bare = re.sub(r"<[^<>]*(<[^<>]*>[^<>]*)*>", "", head[block.end():])
    name = re.match(r"\s*(?:\w+ for )?(\w+)", bare)[1]
    # an implementation of a trait has no contract of its own
    return None if " for " in bare.split("{")[0] else (name, block[1] == "trait")


def signatures(text):
    """The functions of a file: the type or trait that has it or None, its name, whether it is public, and what it answers."""
    lines, owner = text.split("\n"), None
    for number, line in enumerate(lines):
        if re.match(r"^(pub )?(impl|trait)\b", line):
            owner = owner_of(line, " ".join(lines[number:number + 4]))
            skipped = owner is None
        elif line.startswith("}"):
            owner, skipped = None, False
        function = re.match(r"^(\s*)(pub )?(?:final )?(?:const )?fn (\w+)", line)
        if not function or function[1] and owner is None:
            continue
        head = re.sub(r"\[[^\[\]]*\]", "[]", " ".join(part.strip() for part in lines[number:number + 16]))
        answer = re.search(r"\)\s*->\s*(.+)$", re.split(r"\s(?:requires|ensures|where)\b|[{;]", head)[0])
        is_public = bool(function[2]) or bool(owner and owner[1])
        yield (owner[0] if function[1] else None), function[3], is_public, (answer[1].strip() if answer else "")


def refusing_calls():
    """The public calls that may refuse, with their crates."""
    with open(os.path.join(ROOT, "crates.txt")) as file:
        crates = [line.split(":")[0] for line in file if not line.startswith("#")]
    crates = [crate for crate in crates if not APART.search(crate) and os.path.exists(os.path.join(ROOT, "crates", crate, "src", "lib.rt"))]
    outside = names_from_outside(crates)
    for crate in crates:
        for path in sources(crate):
            for owner, name, is_public, answer in signatures(read(path)):
                if is_public and (owner or name) in outside[crate] and REFUSES.match(answer) and not MEMORY_ALONE.match(answer):
                    yield crate, owner, name, answer


def main():
    missing, words, on_page, count = [], set(), set(), 0
    with open(PAGE) as file:
        for line in file:
            if line.startswith("## "):
                words = words_of(re.findall(r"`(s390x_\w+)`", line))
            elif line.startswith("|"):
                on_page.update(named(line))
                for name in named(line):
                    count += 1
                    if name.split("::")[-1] not in words:
                        missing.append(f"in the sources {name}: {line.strip()[:100]}")
    calls = sorted(set(refusing_calls()), key=str)
    # a call is on the page by its own name, or by that of its type before it
    for crate, owner, name, answer in calls:
        if not {name, f"{owner}::{name}"} & on_page and not NAMED_TOGETHER.match(name):
            missing.append(f"in the page {crate} {owner + '::' if owner else ''}{name}: {answer}")
    for line in missing:
        print("MISSING", line)
    print(f"{count} names, {len(calls)} calls, {len(missing)} missing")
    return 1 if missing else 0


if __name__ == "__main__":
    sys.exit(main())
