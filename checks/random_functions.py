#!/usr/bin/env python3
"""Executes random emitted functions twice, by the program (`s390x run`) and by the emulator qemu-s390x, and compares how they end.

    checks/random_functions.py --try --count 300 --seed 1

An engineer runs it by hand; it is no part of the gate. Each function is on registers, vector registers and memory, with calls, loops and frames (`random_jobs.py`). Compared are where and
why a run ends, all general and vector registers, the condition code, and every byte of the memory. With --try an unproved build of the
program is taken; without, the proved one. Rows that the emulator lacks are named, and so are those that the machine as a program doesn't compute; functions that reach one aren't compared.
It ends with 0 where all functions agree, with 1 where one differs or is refused, and with 2 where it can't run.
"""
import argparse
import collections
import os
import random
import sys
import tempfile

import emulator
from opcodes import machine_rows
import program
from random_jobs import CODE_BASE, RandomJob

# The rows that qemu-s390x 7.2 doesn't have: those of the miscellaneous-instruction-extensions facility 4 and of the vector-enhancements facility 3,
# with the sizes of elements that the latter adds to other rows. Where it stops at any other row as no instruction, the two differ.
LACKING = {"clzg", "ctzg", "vblend", "veval", "vdlf", "vrlf", "vdf", "vrf"}
LACKING_SIZES = {
    "vmlb": (3, 4), "vmlhb": (3, 4), "vmhb": (3, 4), "vmleb": (3,), "vmeb": (3,), "vmlob": (3,), "vmob": (3,),
    "vmxb": (4,), "vmxlb": (4,), "vmnb": (4,), "vmnlb": (4,), "vavgb": (4,), "vavglb": (4,),
    "vlpb": (4,), "vlcb": (4,), "vclzb": (4,), "vctzb": (4,), "vupllb": (3,), "vuplhb": (3,), "vuplb": (3,), "vuphb": (3,),
    "vceqb": (4,), "vchb": (4,), "vchlb": (4,), "vecq": (4,), "veclq": (4,),
}

MOST_STEPS = 10000

# BCR 15,%r14.
RETURN_CODE = bytes([0x07, 0xfe])


def row_names():
    """The mnemonic of each opcode of the decoder's table."""
    return {row.opcode: row.mnemonics[0] for row in machine_rows()}


def row_at(names, code):
    """The mnemonic of the row that bytes begin with: its opcode is the first byte, with half of the second, with it, or with the sixth."""
    first, second = code[0], code[1] if len(code) > 1 else 0
    last = code[5] if len(code) > 5 else 0
    spread = [first << 8 | last] if first in (0xe3, 0xe6, 0xe7, 0xeb, 0xec) else [first, first << 4 | second & 15, first << 8 | second]
    for opcode in spread:
        if opcode in names:
            return names[opcode]
    return "no row"


def instructions(image):
    """An image's instructions, one behind the other."""
    found, at = [], 0
    while at < len(image):
        size = (2, 4, 4, 6)[image[at] >> 6]
        found.append(image[at:at + size])
        at += size
    return found


def differences(told, emulated):
    """What differs between the two ends, in words."""
    found = []
    returned = told.kind == "Access" and told.place == emulator.RETURN
    kind = None if returned else told.kind
    if (kind, told.place) != (emulated.kind, emulated.place):
        found.append(f"end {kind} {told.place:x}, emulated {emulated.kind} {emulated.place:x}")
    if told.code != emulated.code:
        found.append(f"condition code {told.code}, emulated {emulated.code}")
    for name, ours, theirs in (("r", told.general, emulated.general), ("v", told.vector, emulated.vector)):
        found += [f"%{name}{i} {a:x}, emulated {b:x}" for i, (a, b) in enumerate(zip(ours, theirs)) if a != b]
    for address, data in emulated.memory.items():
        ours = told.memory.get(address, b"")
        found += [f"byte {address + i:x} {ours[i]:02x}, emulated {data[i]:02x}" for i in range(len(data)) if ours[i:i + 1] != data[i:i + 1]][:4]
    return found


class Comparison:
    """What came of the functions."""

    def __init__(self, folder):
        self.names = row_names()
        self.folder = folder
        self.counts = collections.Counter()
        self.lacking, self.breaking, self.uncomputed = collections.Counter(), collections.Counter(), collections.Counter()
        self.rows = set()

    def judge(self, job, image_answer, run_answer):
        """What came of one function: a word, and what differs."""
        for status, text in (image_answer, run_answer):
            if status != 0:
                return f"refused ({text.strip()})", []
        image, told = bytes.fromhex(image_answer[1].strip()), program.Told(run_answer[1])
        if told.kind == "NoRow":
            self.uncomputed[self.row_with_size(image, told.place - CODE_BASE)[1]] += 1
            return "that reach a row whose result the machine leaves free or doesn't compute", []
        if told.kind == "Limit":
            return f"which don't end in {MOST_STEPS} steps", []
        try:
            emulated = self.emulate(job, image)
        except emulator.Broken:
            return self.judge_broken(job, image)
        if emulated is None:
            return "different", ["the emulator doesn't end"]
        lacking = self.lacking_at(image, emulated)
        if lacking:
            self.lacking[lacking] += 1
            return "that reach a row which the emulator lacks", []
        found = differences(told, emulated)
        if not found:
            self.rows |= {row_at(self.names, code) for code in instructions(image)} - {"no row"}
            self.counts[f"  of these {'return' if emulated.kind is None else 'stop by ' + emulated.kind}"] += 1
        return ("different" if found else "equal"), found

    def lacking_at(self, image, emulated):
        """The row at which the emulator stops, with the size of its elements, where it lacks it; else None."""
        offset = emulated.place - CODE_BASE
        if emulated.kind not in ("Operation", "Specification") or not 0 <= offset < len(image):
            return None
        row, sized = self.row_with_size(image, offset)
        if row in LACKING:
            return row
        return sized if row in LACKING_SIZES and image[offset + 4] >> 4 in LACKING_SIZES[row] else None

    def row_with_size(self, image, offset):
        """The mnemonic of the row at an offset, and that with the size of its elements, where it is one on vectors."""
        code = image[offset:offset + 6]
        row = row_at(self.names, code)
        return row, f"{row} with elements of {8 << (code[4] >> 4)} bits" if len(code) == 6 and code[0] == 0xe7 else row

    def emulate(self, job, image):
        return emulator.run(CODE_BASE, image, job.general, job.vector, job.regions, self.folder)

    def judge_broken(self, job, image):
        """The rows at which the emulator breaks down are those at which it does so alone."""
        rows = set()
        for code in set(instructions(image)):
            try:
                self.emulate(job, code + RETURN_CODE)
            except emulator.Broken:
                rows.add(row_at(self.names, code))
        self.breaking.update(rows)
        return ("that reach a row at which the emulator breaks down", []) if rows else ("different", ["the emulator breaks down"])


def compare(jobs, answers, comparison):
    """Judges each function, and prints those that differ."""
    for k, job in enumerate(jobs):
        word, found = comparison.judge(job, answers[2 * k], answers[2 * k + 1])
        comparison.counts[word] += 1
        if found or word.startswith("refused"):
            path = os.path.join(tempfile.gettempdir(), f"different-{job.number}.job")
            with open(path, "w") as file:
                file.write(job.text)
            print(f"function {job.number} ({path}): " + ("; ".join(found[:6]) or word), flush=True)


def main():
    parser = argparse.ArgumentParser(description=__doc__.split("\n")[0])
    parser.add_argument("--try", dest="unproved", action="store_true", help="take an unproved build of the program")
    parser.add_argument("--count", type=int, default=200, help="how many functions (200)")
    parser.add_argument("--seed", type=int, default=1, help="the first function's number (1)")
    parser.add_argument("--rows", action="store_true", help="print the rows that were in no function that was compared")
    words = parser.parse_args()
    if emulator.missing():
        print(emulator.missing(), file=sys.stderr)
        return 2
    jobs = []
    for number in range(words.seed, words.seed + words.count):
        jobs.append(RandomJob(random.Random(number)))
        jobs[-1].number = number
    asked = []
    for job in jobs:
        asked += [(["image", str(CODE_BASE)], job.code_text), (["run", str(CODE_BASE), str(MOST_STEPS)], job.text)]
    with tempfile.TemporaryDirectory() as cases, tempfile.TemporaryDirectory() as folder:
        answers = program.run_unproved(asked, cases) if words.unproved else program.run_proved(asked)
        comparison = Comparison(folder)
        compare(jobs, answers, comparison)
    return report(comparison, words)


def report(comparison, words):
    """Prints the counts, and gives the status."""
    for word, count in sorted(comparison.counts.items(), key=lambda pair: (pair[0].startswith(" "), -pair[1])):
        print(f"{count} {word.strip()}")
    for row, count in sorted(comparison.lacking.items()):
        print(f"the emulator lacks {row}: {count} functions")
    for row, count in sorted(comparison.breaking.items()):
        print(f"the emulator breaks down at {row}: {count} functions")
    for row, count in sorted(comparison.uncomputed.items()):
        print(f"the machine doesn't compute {row}: {count} functions")
    print(f"{len(comparison.rows)} of the {len(comparison.names)} machine rows stand in functions that are equal")
    if words.rows:
        print("not among them: " + " ".join(sorted(set(comparison.names.values()) - comparison.rows)))
    failed = comparison.counts["different"] + sum(count for word, count in comparison.counts.items() if word.startswith("refused"))
    return 1 if failed else 0


if __name__ == "__main__":
    sys.exit(main())
