#!/usr/bin/env python3
"""Makes the steps of the rows that branch for `crates/s390x_step_vectors`, by running them on the emulator qemu-s390x; run by hand, from anywhere:
checks/branch_steps.py [--count N] [--seed N]. Prints N lines a row (16), which stand at the end of that crate's input.

The instruction stands at 1000, and everything behind it and at its target is zeros, which is no instruction: the signal tells where the branch went.
"""
import argparse
import random
import sys
import tempfile

import emulator

PLACE = 0x1000
TARGETS = [0x2000, 0x12346, 0x7ffffffe, 0x80000000, 0x123456780, 0x3fffff000]
HALVES = [-0x7fff, -0x400, -1, 2, 3, 8, 0x7ff, 0x7fff]
LONG_HALVES = HALVES + [-0x7ff, 0x8000, 0x123456, 0x3fffff00]


def drawn_target(drawn):
    return drawn.choice(TARGETS) + 2 * drawn.randrange(16)


def drawn_half(drawn, halves):
    """A distance in halfwords to an address that isn't negative."""
    return drawn.choice([half for half in halves if PLACE + 2 * half > 0x100])


def bcr(drawn, registers):
    mask, target = drawn.randrange(16), drawn.choice([0] + list(range(1, 16)) * 2)
    registers[target] = drawn_target(drawn)
    return bytes([0x07, mask << 4 | target])


def basr(drawn, registers):
    link, target = drawn.randrange(16), drawn.choice([0] + list(range(1, 16)) * 2)
    registers[link] = drawn.getrandbits(64)
    registers[target] = drawn_target(drawn)
    return bytes([0x0d, link << 4 | target])


def brc(drawn, registers):
    half = drawn_half(drawn, HALVES) & 0xffff
    return bytes([0xa7, drawn.randrange(16) << 4 | 0x4, half >> 8, half & 0xff])


def bras(drawn, registers):
    link, half = drawn.randrange(16), drawn_half(drawn, HALVES) & 0xffff
    registers[link] = drawn.getrandbits(64)
    return bytes([0xa7, link << 4 | 0x5, half >> 8, half & 0xff])


def brcl(drawn, registers):
    half = drawn_half(drawn, LONG_HALVES) & 0xffffffff
    return bytes([0xc0, drawn.randrange(16) << 4 | 0x4]) + half.to_bytes(4, "big")


def brasl(drawn, registers):
    link, half = drawn.randrange(16), drawn_half(drawn, LONG_HALVES) & 0xffffffff
    registers[link] = drawn.getrandbits(64)
    return bytes([0xc0, link << 4 | 0x5]) + half.to_bytes(4, "big")


ROWS = {"07": bcr, "0d": basr, "a74": brc, "a75": bras, "c04": brcl, "c05": brasl}


def line(drawn, make, folder):
    """One step as it ends on the emulator, or None where the emulator doesn't say."""
    registers, code = [0] * 16, drawn.randrange(4)
    for _ in range(drawn.randrange(3)):
        registers[drawn.randrange(16)] = drawn.getrandbits(64)
    instruction = make(drawn, registers)
    image = instruction.ljust(emulator.PAGE, b"\0")
    try:
        ended = emulator.run(PLACE, image, registers, [0] * 32, [], folder, code)
    except emulator.Broken:
        return None
    if ended is None or ended.kind not in ("Operation", "Access"):
        return None
    before = [f"r{i}={value:x}" for i, value in enumerate(registers) if value]
    after = [f"r{i}={value:x}" for i, value in enumerate(ended.general) if value != registers[i]]
    moved = [f"p={ended.place:x}"] if ended.place != PLACE + len(instruction) else []
    return " ".join([instruction.hex(), "emulator", f"c={code}"] + before + [">", f"c={ended.code}"] + moved + after)


def main():
    parser = argparse.ArgumentParser()
    parser.add_argument("--count", type=int, default=16)
    parser.add_argument("--seed", type=int, default=48)
    chosen = parser.parse_args()
    if emulator.missing():
        raise SystemExit(emulator.missing())
    drawn = random.Random(chosen.seed)
    with tempfile.TemporaryDirectory() as folder:
        for opcode, make in ROWS.items():
            print(f"# {opcode} {make.__name__}")
            made = 0
            while made < chosen.count:
                told = line(drawn, make, folder)
                if told is not None:
                    print(told)
                    made += 1
                else:
                    print(f"{make.__name__}: a step that the emulator doesn't run", file=sys.stderr)


if __name__ == "__main__":
    main()
