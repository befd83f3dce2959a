#!/usr/bin/env python3
"""Compares the facility that the table of machine rows tells of each row with LLVM's processors, and with a table of rows of another hand.

    checks/facilities.py [--llvm llvm-mc] [--rows FILE]

Each row is tried with every value of its first mask that tells a facility. LLVM's disassembler has to read the instruction for the first
processor with the facility and not for the one before it: z14 is the base, z15 has miscellaneous-instruction-extensions 3 and
vector-enhancements 2, z17 has the next of both. Where an LLVM knows no z17, what needs it has to be unknown to z15.
FILE has a line a row, with tabs between: the opcode in hex, the format, the mnemonics and the facilities, and a first line that names the
columns; its opcodes, mnemonics and facilities have to be the table's. It ends with 0 where all agree, and else with 1.
"""
import argparse
import re
import subprocess
import sys

from disassembler import Rows
from opcodes import machine_rows

PROCESSORS = ("z14", "z15", "z17")
FIRST = {"Base": 0, "Mie3": 1, "VxrsExt2": 1, "Mie4": 2, "VxrsExt3": 2}
SIZES = {"Byte": 0, "Halfword": 1, "Word": 2, "Doubleword": 3, "Quadword": 4}
NAMES = {"base": "Base", "mie3": "Mie3", "mie4": "Mie4", "vxrs_ext2": "VxrsExt2", "vxrs_ext3": "VxrsExt3"}


def cases(row):
    """The first mask, None where it doesn't matter, and the facility."""
    always = re.fullmatch(r"Always\(Facility::(\w+)\)", row.facility)
    if always:
        return [(None, always[1])]
    if row.facility == "WholeCount":
        return [(0, "Base"), (8, "Mie3")]
    widest = SIZES[re.fullmatch(r"UpTo\(ElementSize::(\w+)\)", row.facility)[1]]
    low, high = (0, 4) if row.allowed == "ComparedLanes" else (row.low, row.high)
    return [(mask, "Base" if mask <= widest else "VxrsExt3") for mask in range(low, high + 1)]


def code(rows, row, mask):
    """An instruction of the row, with even registers."""
    slots = [row.opcode, 2, 2, 2, 2, row.low, 0, 0, 1 if row.allowed == "ReplicatedLane" else 0, 0, 0]
    slots[5] = mask if mask is not None else slots[5]
    return rows.encode(row.format, slots)


def readings(llvm, processor, codes):
    """The mnemonic of each as LLVM reads it for a processor, None of those that it doesn't read; None where it doesn't know the processor."""
    lines = "".join(" ".join(f"0x{byte:02x}" for byte in each) + "\n" for each in codes)
    done = subprocess.run([llvm, "--disassemble", "-triple=s390x", f"-mcpu={processor}"], input=lines, capture_output=True, text=True, check=False)
    if "is not a recognized processor" in done.stderr:
        return None
    missing = {int(line) - 1 for line in re.findall(r"^<stdin>:(\d+):\d+: warning", done.stderr, re.M)}
    names = iter(re.findall(r"^\t(\w+)", done.stdout, re.M))
    return [None if place in missing else next(names) for place in range(len(codes))]


def is_read(row, name):
    """Whether an instruction is read: of several elements' sizes by the mnemonic of its own, and not with the size as a number."""
    return name is not None and not (row.facility.startswith("UpTo") and name == row.stem)


def by_llvm(table, llvm):
    """What LLVM says otherwise."""
    rows = Rows()
    tried = [(row, mask, facility) for row in table for mask, facility in cases(row)]
    codes = [code(rows, row, mask) for row, mask, _ in tried]
    read = [readings(llvm, processor, codes) for processor in PROCESSORS]
    known = [place for place, names in enumerate(read) if names is not None]
    for at, ((row, mask, facility), each) in enumerate(zip(tried, codes)):
        wrong = [PROCESSORS[place] for place in known if is_read(row, read[place][at]) != (FIRST[facility] <= place)]
        if wrong:
            yield f"{row.mnemonics[0]} with mask {mask}: {facility}, which isn't what LLVM says of {' and '.join(wrong)} ({each.hex()})"
    print(f"{len(tried)} instructions of {len(table)} rows with LLVM" + ("" if read[2] is not None else ", which has no z17"))


def by_file(table, path):
    """What a table of another hand says otherwise."""
    with open(path) as file:
        lines = [line.split("\t") for line in file.read().splitlines()[1:]]
    others = {int(opcode, 16): (set(names.split()), {NAMES[word] for word in words.split()}) for opcode, _, names, words, *_ in lines}
    for row in table:
        ours = (set(row.mnemonics), {facility for _, facility in cases(row)})
        if others.pop(row.opcode, None) != ours:
            yield f"{row.name}: {ours}, which isn't what {path} says"
    yield from (f"{opcode:x}: only in {path}" for opcode in others)
    print(f"{len(table)} rows with {path}")


def main():
    parser = argparse.ArgumentParser()
    parser.add_argument("--llvm", default="llvm-mc")
    parser.add_argument("--rows")
    asked = parser.parse_args()
    table = machine_rows()
    found = list(by_llvm(table, asked.llvm)) + (list(by_file(table, asked.rows)) if asked.rows else [])
    for line in found:
        print(line)
    sys.exit(bool(found))


if __name__ == "__main__":
    main()
