#!/usr/bin/env python3
"""Lists the mnemonics of listings that the input of s390x_text_tests expects nowhere.

    checks/mnemonics.py

A mnemonic of a table of opcodes, which the table of machine rows tells, has to be expected of a job of one instruction, which has the
operator of its row and the form of operands of its column; any other mnemonic in the sources of s390x_text_rows, a string or that of an
opcode, has to be expected somewhere. It ends with 0 where all are, and else with 1.
"""
import glob
import os
import re
import sys

from opcodes import machine_rows

CRATES = os.path.join(os.path.dirname(os.path.dirname(os.path.abspath(__file__))), "crates")
SOURCES = os.path.join(CRATES, "s390x_text_rows", "src")
ROWS = os.path.join(CRATES, "s390x_typed_steps", "src")
# The instructions whose texts read a table of opcodes, by the columns that are read; none where they are named as the rows.
OPCODE_READERS = {
    "ALU_ROWS": {"three": "AluRRR", "two": "AluRR", "halfword": "AluRSImm16", "three_halfword": "AluRRSImm16", "signed_word": "AluRSImm32",
                 "unsigned_word": "AluRUImm32", "rx": "AluRX", "rxy": "AluRX", "atomic": "AtomicRmw", "parts": "AluRUImm16Shifted",
                 "halves": "AluRUImm32Shifted"},
    "CMP_ROWS": {"two": "CmpRR", "halfword": "CmpRSImm16", "signed_word": "CmpRSImm32", "unsigned_word": "CmpRUImm32", "rx": "CmpRX",
                 "rxy": "CmpRX", "ril": "CmpRX", "trap": "CmpTrapRR", "trap_signed": "CmpTrapRSImm16", "trap_unsigned": "CmpTrapRUImm16"},
    "LOAD_ROWS": {"rx": None, "rxy": None, "ril": None},
    "STORE_ROWS": {"rx": None, "rxy": None, "ril": None},
    "SHIFT_ROWS": {"": "ShiftRR"},
    "ROTATE_ROWS": {"change": "RxSBG"},
    "UNARY_ROWS": {"": "UnaryRR"},
}
# The same of tables of vectors' rows, with what ends each mnemonic.
VECTOR_READERS = {
    "VEC_BINARY_ROWS": {"VecRRR": ""},
    "VEC_UNARY_ROWS": {"VecRR": ""},
    "VEC_SHIFT_ROWS": {"VecShiftRR": ""},
    "VEC_COMPARISON_ROWS": {"VecIntCmp": "", "VecIntCmpS": "s"},
    "VEC_ELEMENT_COMPARISON_ROWS": {"VecIntEltCmp": ""},
}
# What stands behind `VecLoad` and `VecStore` in the name of an instruction, by the layout of its row.
LAYOUTS = {"Straight": "", "Reversed": "Rev", "Bytes16": "Byte16Rev", "Bytes32": "Byte32Rev", "Bytes64": "Byte64Rev", "Elements16": "Elt16Rev",
           "Elements32": "Elt32Rev", "Elements64": "Elt64Rev"}
# What stands behind a mnemonic with a condition, and the mnemonics that have one.
CONDITIONS = "o h nle l nhe lh ne e nlh he nl le nh no".split()
CONDITIONAL = "crt cgrt clrt clgrt cit cgit clfit clgit locr locgr lochi locghi".split()
# Strings in the sources that are no mnemonics: conditions, the letters of sizes and of one that is set, and the words of operands and labels.
OTHERS = CONDITIONS + ["b", "f", "g", "h", "q", "j", "label", "s", "tag", "u", "user"]


class Expected:
    """What the input of the tests expects."""

    def __init__(self):
        self.mnemonics = set()  # of any instruction
        self.told = set()  # instruction, operator and mnemonic of jobs of one instruction
        with open(os.path.join(CRATES, "s390x_text_tests", "stdin")) as file:
            for line in file:
                if "\t" in line:
                    self.add(*line.rstrip("\n").split("\t"))

    def add(self, job, texts):
        mnemonics = {text.split(" ")[0] for text in re.split(" ; | / ", texts.removeprefix("~ "))}
        mnemonics |= {name for name in CONDITIONAL for condition in CONDITIONS if name + condition in mnemonics}
        self.mnemonics |= mnemonics
        members = [part for part in job.split(" / ") if part.split(" ")[0] not in ("flags", "frame", "block", "end")]
        if len(members) == 1:
            name, operator = (members[0] + " ").split(" ")[:2]
            self.told |= {(name, operator, mnemonic) for mnemonic in mnemonics}
            self.told |= {(name, "", mnemonic) for mnemonic in mnemonics}


def opcode_entries():
    """The mnemonics of the tables of opcodes: where each stands, its instruction, its operator and the mnemonic."""
    stems = {row.name: row.stem for row in machine_rows()}
    for path in sorted(glob.glob(os.path.join(ROWS, "*_rows.rt"))):
        with open(path) as file:
            tables = re.findall(r"^pub const (\w+_ROWS): [^=]* = \[\n(.*?)^\];", file.read(), re.S | re.M)
        for table, rows in tables:
            for row, operator in re.findall(r"^ *(.*), // (\w+)$", rows, re.M):
                for column, name in OPCODE_READERS.get(table, {}).items():
                    cell = re.search(rf"\b{column}: (\w+(?:::\w+)?(?:\([^)]*\))?)", row)[1] if column else row
                    # what the table of operators on one register hasn't is the count of ones
                    opcodes = re.findall(r"opcodes::(\w+)", cell) or ["POPCNT"] * (table == "UNARY_ROWS")
                    for mnemonic in (stems[opcode] for opcode in opcodes):
                        yield table, (name, operator, mnemonic) if name else (operator, "", mnemonic)


def letters(row, code, operator):
    """What stands behind the stem of a vector row, by the code of its elements' size."""
    if row.suffix == "Plain":
        return ""
    # Cranelift's listings have `vuplh` for `vuplhw`
    return "hw" if row.suffix == "HalfwordSize" and code == 1 and operator != "UnpackSLow16x8" else "bhfgq"[code]


def vector_entries():
    """The same of the tables of vectors' rows."""
    machine = {row.name: row for row in machine_rows()}
    with open(os.path.join(ROWS, "vector_rows.rt")) as file:
        tables = re.findall(r"^pub const (\w+_ROWS): [^=]* = \[\n(.*?)^\];", file.read(), re.S | re.M)
    for table, rows in tables:
        for opcode, code, operator in re.findall(r"opcodes::(\w+), code: (\d) \}, // (\w+)$", rows, re.M):
            for name, end in VECTOR_READERS[table].items():
                yield table, (name, operator, machine[opcode].stem + letters(machine[opcode], int(code), operator) + end)


def whole_entries():
    """The same of loads and stores of a whole register, by their layouts."""
    machine = {row.name: row for row in machine_rows()}
    with open(os.path.join(ROWS, "access_rows.rt")) as file:
        rows = re.findall(r"load_opcode: opcodes::(\w+), store_opcode: opcodes::(\w+), mask: (\d) \}, // (\w+)$", file.read(), re.M)
    for load, store, mask, layout in rows:
        for name, opcode in (("VecLoad", load), ("VecStore", store)):
            yield "WHOLE_ROWS", (name + LAYOUTS[layout], "", machine[opcode].stem + letters(machine[opcode], int(mask), ""))


def lane_mnemonics():
    """The mnemonics of the opcodes that the sources name, with each letter that their sizes can have."""
    machine = {row.name: row for row in machine_rows()}
    for path in sorted(glob.glob(os.path.join(SOURCES, "*.rt"))):
        with open(path) as file:
            for opcode in re.findall(r"opcodes::([A-Z]\w*)", file.read()):
                row = machine[opcode]
                # bytes alone aren't reversed
                sizes = range(1 if "BR" in opcode else 0, 4)
                yield from [row.stem] if row.suffix == "Plain" else {row.stem + letters(row, code, "") for code in sizes}


def moved():
    """The mnemonics of moves, extensions and indexed addresses."""
    stems = {row.name: row.stem for row in machine_rows()}
    with open(os.path.join(ROWS, "move_rows.rt")) as file:
        return {stems[opcode] for opcode in re.findall(r"opcodes::(\w+)", file.read())}


def other_mnemonics():
    """The mnemonics that stand in no table of operators."""
    found = moved() | set(lane_mnemonics())
    for path in glob.glob(os.path.join(SOURCES, "*.rt")):
        if not path.endswith("mnemonics.rt"):
            with open(path) as file:
                found.update(re.findall(r'"([a-z][a-z0-9]*)"', file.read()))
    return sorted(found.difference(OTHERS))


def main():
    expected = Expected()
    entries, others = [*opcode_entries(), *whole_entries(), *vector_entries()], other_mnemonics()
    missing = [f"{table}: {mnemonic} of {name} {operator}".rstrip() for table, (name, operator, mnemonic) in entries
               if (name, operator, mnemonic) not in expected.told]
    missing += [f"in no table: {mnemonic}" for mnemonic in others if mnemonic not in expected.mnemonics]
    for line in missing:
        print("MISSING", line)
    print(f"{len(entries)} mnemonics in tables, {len(others)} others, {len(missing)} missing")
    return 1 if missing else 0


if __name__ == "__main__":
    sys.exit(main())
