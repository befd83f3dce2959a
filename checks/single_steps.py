#!/usr/bin/env python3
"""Writes single steps of the machine for every machine row, as others' emulators can try them; run by hand, from anywhere:

    checks/single_steps.py --out FOLDER [--count 1000] [--rows ark,vl] [--emulate 20]
    checks/single_steps.py --emulate 20

For each row a file OPCODE-MNEMONIC.json: a list of steps with `name` (the instruction in hex), `initial` and `final`. A state has `pc`, `cc`, `gpr` (16
numbers), `vr` (32) and `ram`, a list of an address and the bytes from there on; all but `cc` in hex. `final` has in place of these `stop` (`Access`,
`Specification`, `Operation`, `Divide`, `CompareTrap`) where the instruction stops, and then nothing else changes; it is null where the row leaves its result free, and
`free` in it names a vector register and how many bits on its right the row leaves free.
Masks, registers, immediates and the state are drawn. Rows, formats and what a row allows are read from the tables of `s390x_format`.

The steps are taken by `s390x_page_step` of the module in page/index.html, which is built of proved code, in one process of node (from 20 on); a thousand a row
take some minutes, most of them for writing 1.6 GB. --emulate N runs N steps of each row on qemu-s390x too, and tells of each row how many agree, differ, or are none
of the emulator's. It ends with 0 where all that the emulator has agrees, with 1 where one differs.
"""
import argparse
import collections
import json
import os
import random
import re
import struct
import subprocess
import sys
import tempfile

import emulator
from opcodes import machine_rows, plain
from random_functions import LACKING, LACKING_SIZES
from random_jobs import interesting

ROOT = os.path.dirname(os.path.dirname(os.path.abspath(__file__)))
SOURCES = os.path.join(ROOT, "crates", "s390x_format", "src")
# The page's machine has 1024 bytes of storage: the instruction and zeros, and behind them its operands, up to the end of an emulator's page.
PLACE, DATA, SIZE = 0x4001c00, 0x4001e00, 0x200
NOWHERE = 0x7000000000
# Where branches go by a register: zeros, which are no instruction.
ZEROS = 0x4001400

# How many bits on the right of the vector register that they write these rows leave free.
FREE_BITS = {"ldr": 64, "ld": 64, "ldy": 64, "ldgr": 64, "ler": 96, "le": 96, "ley": 96}

Row = collections.namedtuple("Row", "kind opcode name parts allowed")
Step = collections.namedtuple("Step", "row code general vector data cc")
End = collections.namedtuple("End", "kind place code general vector bytes")

# How a step ends, by the number that the page's machine answers.
KINDS = ["Went", "NoRow", "Access", "Specification", "Operation", "Divide", "CompareTrap"]

# Registers and storage as `s390x_page` lays them out: general, access, left and right halves of vector registers, place, condition code; where the storage
# begins, and its bytes.
LAYOUT = struct.Struct("<16Q16I32Q32QQB7xQ1024s")


def read(name):
    with open(os.path.join(SOURCES, name)) as file:
        return plain(file.read())


def layouts():
    """The parts of each format, as the name of a slot, the lowest bit and the width."""
    found = {}
    for name, body in re.findall(r"pub const (\w+)_PARTS: \[Part; \d+\] = \[(.*?)\];", read("kind.rt"), re.S):
        parts = re.findall(r"slot: (\w+), low: (\d+), width: (\d+)", body)
        found[name.replace("_", "").lower()] = tuple((slot, int(low), int(width)) for slot, low, width in parts)
    return found


def rows():
    """The machine rows, by the table's comment with the first of their mnemonics."""
    parts = layouts()
    return [Row(row.format, row.opcode, row.mnemonics[0], parts[row.format.lower()], (row.allowed, row.low, row.high)) for row in machine_rows()]


def drawn_slots(drawn, row):
    """A value for each slot, within what the row allows."""
    widths = collections.Counter()
    for slot, low, width in row.parts:
        widths[slot] = max(widths[slot], low + width)
    slots = {slot: interesting(drawn, width) if width >= 8 else drawn.getrandbits(width) for slot, width in widths.items()}
    slots["OPCODE"], slots["ZERO"] = row.opcode, 0
    kind, low, high = row.allowed
    if kind == "FirstMask":
        slots.update(MASK_1=drawn.randint(low, high), MASK_2=0, MASK_3=0)
    elif kind == "CountMode":
        slots.update(MASK_1=drawn.choice([0, 8]), MASK_2=0)
    elif kind == "ComparedLanes":
        slots.update(MASK_1=drawn.randrange(5), MASK_2=drawn.randrange(2))
    elif kind == "DoublewordPair":
        slots.update(MASK_1=drawn.choice([0, 1, 4, 5]), MASK_2=0, MASK_3=0)
    elif kind in ("RotateBits", "RotateBitsOrTest"):
        slots.update(MASK_1=drawn.randrange(64) + (drawn.choice([0, 128]) if kind == "RotateBitsOrTest" else 0), MASK_2=drawn.randrange(64), MASK_3=drawn.randrange(64))
    elif kind == "BitRange":
        size = drawn.randrange(4)
        slots.update(MASK_3=size, MASK_1=drawn.randrange(8 << size), MASK_2=drawn.randrange(8 << size))
    elif kind == "ReplicatedLane":
        size = drawn.randrange(4)
        slots.update(MASK_1=size, IMMEDIATE=drawn.randrange(1 << (4 - size)))
    return slots


def packed(parts, slots):
    """The instruction of the slots."""
    number, bits = 0, 0
    for slot, low, width in parts:
        number, bits = number << width | slots[slot] >> low & (1 << width) - 1, bits + width
    return number.to_bytes(bits // 8, "big")


def address_slots(row):
    """The slots of the base and of the index of an operand in storage, or None for each: the base stands before the displacement."""
    names = [slot for slot, _, _ in row.parts]
    if "DISPLACEMENT" not in names:
        return None, None
    return names[names.index("DISPLACEMENT") - 1], "REG_3" if row.kind in ("Rx", "Rxy", "Vrx") else None


def signed(value, bits):
    return value - (1 << bits) if value >> (bits - 1) else value


def pick_lane(drawn, slots, general):
    """The number of a lane is below their count: behind the last one the result is free."""
    lane = drawn.randrange(16 >> slots["MASK_1"])
    slots["DISPLACEMENT"] = drawn.randrange(lane + 1)
    if slots["REG_2"] == 0:
        slots["DISPLACEMENT"] = lane
    else:
        general[slots["REG_2"]] = lane - slots["DISPLACEMENT"]


def keep_out(slots, width):
    """A relative branch leads nowhere among the operands, where an instruction may stand by chance."""
    distance = 2 * signed(slots["IMMEDIATE"], width)
    if DATA <= PLACE + distance < DATA + SIZE:
        slots["IMMEDIATE"] = -distance // 2 % 2 ** width


def lead(drawn, row, slots, general, vector):
    """Most operands in storage lie in the region: by their base, or by their distance."""
    if row.name in ("vsl", "vsrl", "vsra"):
        # the bytes of the amount have to agree
        vector[slots["REG_3"]] = int.from_bytes(bytes([drawn.randrange(256)]) * 16, "big")
    if row.name in ("vlvgb", "vlgvb"):
        pick_lane(drawn, slots, general)
        return
    target = DATA + drawn.randrange(0, 0x100, drawn.choice([1, 2, 4, 8, 16])) if drawn.randrange(10) else NOWHERE
    base, index = address_slots(row)
    wide = any(slot == "DISPLACEMENT" and low == 12 for slot, low, _ in row.parts)
    if base:
        if slots[base] == 0:
            slots[base] = drawn.randrange(1, 16)
        if index and slots[index] == slots[base]:
            slots[index] = 0
        displacement = signed(slots["DISPLACEMENT"], 20) if wide else slots["DISPLACEMENT"]
        added = general[slots[index]] if index and slots[index] else 0
        general[slots[base]] = (target - displacement - added) % 2 ** 64
    elif row.opcode >> 4 in (0xc4, 0xc6) and row.parts[-1] == ("IMMEDIATE", 0, 32):
        # the emulator doesn't ask such operands to be aligned
        slots["IMMEDIATE"] = (target // 8 * 8 - PLACE) // 2 % 2 ** 32 if target != NOWHERE else drawn.randrange(0x10000000, 0x20000000, 4)
    elif row.name == "larl":
        # the emulator cuts great distances
        slots["IMMEDIATE"] = drawn.randrange(-0x1000000, 0x10000000) % 2 ** 32
    elif row.kind in ("RiB", "RiC") or row.opcode in (0xc04, 0xc05):
        keep_out(slots, 16 if row.kind in ("RiB", "RiC") else 32)
    elif row.opcode in (0x07, 0x0d):
        general[slots["REG_2"]] = ZEROS + 2 * drawn.randrange(16)


def step(drawn, row):
    """A drawn step."""
    slots = drawn_slots(drawn, row)
    general = [interesting(drawn, 64) for _ in range(16)]
    vector = [drawn.choice([0, interesting(drawn, 128), drawn.getrandbits(128)]) for _ in range(32)]
    data = b"".join(interesting(drawn, 64).to_bytes(8, "big") for _ in range(SIZE // 8))
    lead(drawn, row, slots, general, vector)
    return Step(row, packed(row.parts, slots), general, vector, data, drawn.randrange(4))


def taken(steps):
    """What the machine makes of steps."""
    half = (1 << 64) - 1
    given = b"".join(LAYOUT.pack(*each.general, *[0] * 16, *(v >> 64 for v in each.vector), *(v & half for v in each.vector), PLACE, each.cc, PLACE,
                                 each.code.ljust(SIZE, b"\0") + each.data) for each in steps)
    words = ["node", "--experimental-wasm-memory64", os.path.join(ROOT, "checks", "single_steps.mjs"), os.path.join(ROOT, "page", "index.html")]
    answer = subprocess.run(words, input=given, stdout=subprocess.PIPE, stderr=subprocess.DEVNULL, check=True).stdout
    size = LAYOUT.size + 8
    if len(answer) != size * len(steps):
        raise SystemExit(f"the module answered {len(answer) // size} of {len(steps)} steps")
    for at in range(0, len(answer), size):
        fields = LAYOUT.unpack_from(answer, at)
        vector = [high << 64 | low for high, low in zip(fields[32:64], fields[64:96])]
        yield End(KINDS[answer[at + LAYOUT.size]], fields[96], fields[97], list(fields[:16]), vector, fields[99])


def state(place, cc, general, vector, code, data):
    return {"pc": f"{place:x}", "cc": cc, "gpr": [f"{value:x}" for value in general], "vr": [f"{value:x}" for value in vector],
            "ram": [[f"{PLACE:x}", code.hex()], [f"{DATA:x}", data.hex()]]}


def free_part(each):
    """The vector register that the row leaves free in part, and how many bits of it; None for most rows."""
    bits = FREE_BITS.get(each.row.name)
    return [each.code[3 if each.row.kind == "Rre" else 1] >> 4, bits] if bits else None


def written(each, told):
    """A step with what the machine makes of it."""
    initial = state(PLACE, each.cc, each.general, each.vector, each.code, each.data)
    final = {"stop": told.kind}
    if told.kind == "NoRow":
        final = None
    elif told.kind == "Went":
        final = state(told.place, told.code, told.general, told.vector, told.bytes[:len(each.code)], told.bytes[SIZE:])
        if free_part(each):
            final["free"] = free_part(each)
    return {"name": each.code.hex(), "initial": initial, "final": final}


def emulated(steps, folder):
    """What the emulator makes of steps."""
    return emulator.run_many(PLACE, SIZE, [(each.code, each.general, each.vector, each.cc, [each.data]) for each in steps], [(DATA, SIZE)], folder)


def difference(each, told, ended):
    """What differs on the emulator: a text, empty where it agrees, or None where it lacks the row, breaks down or doesn't end."""
    if ended == "broken":
        return None
    stopped = ended is not None and ended.place == PLACE
    size = each.code[4] >> 4 if len(each.code) > 4 else 0
    if ended is None or stopped and ended.kind in ("Operation", "Specification") and (each.row.name in LACKING or size in LACKING_SIZES.get(each.row.name, ())):
        return None
    if told.kind != "Went":
        return "" if stopped and ended.kind == told.kind else f"{told.kind}, emulated {ended.kind} at {ended.place:x}"
    found = [f"pc {told.place:x}, emulated {ended.place:x}"] if ended.place != told.place else []
    found += [f"cc {told.code}, emulated {ended.code}"] if ended.code != told.code else []
    found += [f"%r{i} {a:x}, emulated {b:x}" for i, (a, b) in enumerate(zip(told.general, ended.general)) if a != b]
    register, bits = free_part(each) or (0, 0)
    free = [bits if i == register else 0 for i in range(32)]
    found += [f"%v{i} {a:x}, emulated {b:x}" for i, (a, b) in enumerate(zip(told.vector, ended.vector)) if a >> free[i] != b >> free[i]]
    found += ["memory"] if told.bytes[SIZE:] != ended.memory[DATA] else []
    return "; ".join(found[:4])


def compared(row, steps, ends, folder):
    """How many steps agree with the emulator, differ, are none of its, and aren't compared, since their result is free or they lead to themselves."""
    counts = collections.Counter()
    tried = [(each, end) for each, end in zip(steps, ends) if end.kind != "NoRow" and (end.kind != "Went" or end.place != PLACE)]
    counts["free"] = len(steps) - len(tried)
    for (each, end), ended in zip(tried, emulated([each for each, _ in tried], folder)):
        found = difference(each, end, ended)
        counts["lacking" if found is None else "differing" if found else "agreeing"] += 1
        if found:
            print(f"{row.name} {each.code.hex()}: {found}", flush=True)
    return counts


def told_rows(rows_of):
    """How many rows differ, agree, are lacking in the emulator, or are free: each by the first of these words that one of its steps has."""
    words = ("differing", "agreeing", "lacking", "free")
    found = {word: [name for name, counts in rows_of.items() if next(w for w in words if counts[w]) == word] for word in words}
    for word, names in found.items():
        print(f"{len(names)} rows {word}" + (": " + " ".join(names) if names and word != "agreeing" else ""))


def write(folder, row, steps, ends):
    """Writes the file of a row."""
    os.makedirs(folder, exist_ok=True)
    with open(os.path.join(folder, f"{row.opcode:x}-{row.name}.json"), "w") as file:
        json.dump([written(each, end) for each, end in zip(steps, ends)], file)


def main():
    parser = argparse.ArgumentParser(description=__doc__.split("\n")[0])
    parser.add_argument("--out", help="the folder that the files are written to; none by default")
    parser.add_argument("--count", type=int, default=1000, help="how many steps a row are written (1000)")
    parser.add_argument("--seed", type=int, default=1)
    parser.add_argument("--rows", default="", help="the mnemonics of the rows, with commas between; all by default")
    parser.add_argument("--emulate", type=int, default=0, help="how many of each row are run on the emulator too (0)")
    chosen = parser.parse_args()
    if chosen.emulate and emulator.missing():
        raise SystemExit(emulator.missing())
    wanted = set(filter(None, chosen.rows.split(",")))
    counts, rows_of = collections.Counter(), {}
    many = max(chosen.count if chosen.out else 0, chosen.emulate)
    asked = [row for row in rows() if not wanted or row.name in wanted]
    batch = max(1, 20000 // max(1, many))
    with tempfile.TemporaryDirectory() as folder:
        for first in range(0, len(asked), batch):
            steps = [step(random.Random(f"{chosen.seed} {row.opcode} {number}"), row) for row in asked[first:first + batch] for number in range(many)]
            ends = list(taken(steps))
            counts["steps"] += len(ends)
            counts["steps of a free result"] += sum(end.kind == "NoRow" for end in ends)
            for at, row in zip(range(0, len(steps), many), asked[first:]):
                if chosen.out:
                    write(chosen.out, row, steps[at:at + chosen.count], ends[at:at + chosen.count])
                if chosen.emulate:
                    rows_of[f"{row.opcode:x}-{row.name}"] = found = compared(row, steps[at:at + chosen.emulate], ends[at:at + chosen.emulate], folder)
                    print(f"{row.opcode:x}-{row.name}: " + ", ".join(f"{count} {word}" for word, count in found.items() if count), flush=True)
                    counts.update({f"steps {word}": count for word, count in found.items()})
    for word, count in counts.items():
        print(f"{count} {word}")
    if chosen.emulate:
        told_rows(rows_of)
    return 1 if counts["steps differing"] else 0


if __name__ == "__main__":
    sys.exit(main())
