#!/usr/bin/env python3
"""Changes lines of the table of machine rows, one at a time, each to another meaning of its kind, and tells which of the changes the known
steps of `crates/s390x_step_vectors` report; run by hand, from anywhere: checks/wrong_rows.py [COUNT [SEED]].

The table is read by the machine and by its definition alike, so that no proof refuses a line that is wrong there. Each change is tried on an unproved
build in a copy of the repository, which takes about two minutes. Ends with 1 if a change isn't reported.
"""
import pathlib
import random
import re
import shutil
import subprocess
import sys
import tempfile

ROOT = pathlib.Path(__file__).resolve().parent.parent
TABLE = "crates/s390x_format/src/table.rt"
LINE = re.compile(r"^ *\$each!\(\w+, (\w+), .*, (RowSemantics::.*)\), // (\S+)")
VECTOR = r"Elements\((VectorRow \{.*?\})\)"

# What a word is changed into: another of its kind.
WORDS = {
    "Size::Word": ["Size::Doubleword"],
    "Size::Doubleword": ["Size::Word"],
    "Width::Bits32": ["Width::Bits64"],
    "Width::Bits64": ["Width::Bits32"],
    "Signedness::Signed": ["Signedness::Unsigned"],
    "Signedness::Unsigned": ["Signedness::Signed"],
    "CodeRule::Set": ["CodeRule::Kept"],
    "CodeRule::Kept": ["CodeRule::Set"],
    "SignedOperator::Add": ["SignedOperator::Subtract"],
    "SignedOperator::Subtract": ["SignedOperator::Add"],
    "LogicalOperator::Add": ["LogicalOperator::Subtract"],
    "LogicalOperator::Subtract": ["LogicalOperator::Add"],
    "BitOperator::And": ["BitOperator::Or", "BitOperator::AndNot"],
    "BitOperator::Or": ["BitOperator::Xor", "BitOperator::And"],
    "BitOperator::Xor": ["BitOperator::Or"],
    "BitOperator::NotAnd": ["BitOperator::NotOr"],
    "BitOperator::NotOr": ["BitOperator::NotAnd"],
    "BitOperator::NotXor": ["BitOperator::Xor"],
    "BitOperator::AndNot": ["BitOperator::And"],
    "BitOperator::OrNot": ["BitOperator::Or"],
    "SelectedBitsOperator::Insert": ["SelectedBitsOperator::Or"],
    "SelectedBitsOperator::And": ["SelectedBitsOperator::Or"],
    "SelectedBitsOperator::Or": ["SelectedBitsOperator::Xor"],
    "SelectedBitsOperator::Xor": ["SelectedBitsOperator::Or"],
    "RowSemantics::MultiplySigned": ["RowSemantics::MultiplyLogical"],
    "RowSemantics::MultiplyLogical": ["RowSemantics::MultiplySigned"],
    "ElementSize::Byte": ["ElementSize::Halfword"],
    "ElementSize::Halfword": ["ElementSize::Word"],
    "ElementSize::Word": ["ElementSize::Doubleword"],
    "ElementSize::Doubleword": ["ElementSize::Word"],
    "VectorStorage::Whole": ["VectorStorage::ReversedBytes"],
    "VectorStorage::ReversedBytes": ["VectorStorage::ReversedElements"],
    "VectorStorage::ReversedElements": ["VectorStorage::ReversedBytes"],
}


def operands(text):
    """The names of second operands that the file reads, in capitals."""
    used = re.search(r"use crate::semantics::\{(.*?)\}", text, re.S)[1]
    return sorted(set(re.findall(r"\b[A-Z][A-Z_0-9]+\b", used)))


def changes(semantics, names, rows):
    """Each change of one word of a meaning."""
    found = []
    for word, others in WORDS.items():
        for place in re.finditer(re.escape(word) + r"\b", semantics):
            found += [semantics[:place.start()] + other + semantics[place.end():] for other in others]
    for name in names:
        for place in re.finditer(r"\b" + name + r"\b", semantics):
            others = [other for other in names if related(name, other)]
            found += [semantics[:place.start()] + other + semantics[place.end():] for other in others]
    place = re.search(VECTOR, semantics)
    if place:
        at = rows.index(place[1])
        found += [semantics.replace(place[1], other) for other in rows[max(0, at - 1):at + 2] if other != place[1]]
    return found


def related(name, other):
    """Whether a second operand is another one but for its sign, its width or the order of its bytes."""
    def bare(words):
        return [word for word in words.split("_") if word not in ("SIGNED", "REVERSED", "BYTE", "HALFWORD", "WORD", "DOUBLEWORD")]
    return name != other and bare(name) == bare(other)


def tried(copy):
    """What the known steps report on the copy: their last line."""
    crate = copy / "crates" / "s390x_step_vectors"
    with open(crate / "stdin", "rb") as steps:
        ran = subprocess.run(["rt", "try"], cwd=crate, stdin=steps, capture_output=True, text=True, check=False)
    told = [line for line in ran.stdout.splitlines() if "differ" in line]
    return told[-1] if told else (ran.stdout + ran.stderr).strip().splitlines()[-1]


def main():
    count = int(sys.argv[1]) if len(sys.argv) > 1 else 20
    drawn = random.Random(int(sys.argv[2]) if len(sys.argv) > 2 else 20)
    text = (ROOT / TABLE).read_text()
    lines = [line for line in text.splitlines() if LINE.match(line)]
    names = operands(text)
    vector = re.findall(VECTOR, text)
    # some of the steps are wrong on purpose
    wanted = (ROOT / "crates/s390x_step_vectors/stdout").read_text().splitlines()[-1]
    missed = 0
    with tempfile.TemporaryDirectory() as folder:
        copy = pathlib.Path(folder) / "repo"
        shutil.copytree(ROOT, copy, ignore=shutil.ignore_patterns("out", ".git", "unfinished"))
        subprocess.run(["git", "init", "-q"], cwd=copy, check=True)
        while count:
            line = drawn.choice(lines)
            _, semantics, mnemonic = LINE.match(line).groups()
            others = changes(semantics, names, vector)
            if not others:
                continue
            other = drawn.choice(others)
            (copy / TABLE).write_text(text.replace(line, line.replace(semantics, other)))
            told = tried(copy)
            # a build that stops by a fault tells the change too
            is_reported = "run=fault" in told or "differ" in told and told != wanted
            missed += not is_reported
            count -= 1
            print(f"{'reported' if is_reported else 'MISSED'} {mnemonic}: {semantics} -> {other}: {told}", flush=True)
    sys.exit(1 if missed else 0)


if __name__ == "__main__":
    main()
