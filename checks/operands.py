#!/usr/bin/env python3
"""Compares the stored cases of `operands` with the rule by which instructions report to an allocator; it needs nothing else.

    checks/operands.py

What is reported and what is assigned go by one description of each instruction (s390x_described), so no proof compares the order of
its registers, or a register that no code is made of, with anything else. The rule, as the original crate has it, goes by the fields of
`Inst` and `VecInst` alone: outputs first, an output has to be the input `ri`; inputs in the order of the fields, then memory; products
and divisions report what they read before the pair that they write. Each instruction has to stand in a case of s390x_tool_cases,
with other virtual registers in each of its fields. It ends with 0 where all do, and no case differs, and else with 1.
"""
import os
import re
import sys

CRATES = os.path.join(os.path.dirname(os.path.dirname(os.path.abspath(__file__))), "crates")
SCRATCH = "fixed %r1"
# What the linker or a table's address needs stands behind the operands of these.
NEED_SCRATCH = ("JTSequence", "LoadSymbolReloc")
# The ends of a range are no operands, and a return reports nothing.
MULTIPLES = ("LoadMultiple64", "StoreMultiple64")
SILENT = ("Ret",)


def variants():
    """The fields of each instruction, with their types, in order."""
    found = {}
    for file, name in (("inst.rt", "Inst"), ("vec_inst.rt", "VecInst")):
        with open(os.path.join(CRATES, "s390x_inst", "src", file)) as source:
            body = re.search(rf"^pub enum {name} \{{\n(.*?)^\}}", source.read(), re.S | re.M).group(1)
        for variant, fields in re.findall(r"^    (\w+)(?: \{ (.*) \}|\([^)]*\))?,$", body, re.M):
            found[variant] = re.findall(r"(\w+): ([^,]+)", fields)
    del found["Vector"]  # what it holds is told by its own name
    return found


def cases():
    """The input and the text of each case that lists operands, with its line."""
    with open(os.path.join(CRATES, "s390x_tool_cases", "stdin")) as file:
        lines = file.read().split("\n")
    for start, line in enumerate(lines):
        if line == "> operands":
            end = next(k for k in range(start, len(lines)) if lines[k].startswith(("< ", "| ")))
            behind = next((k for k in range(end + 1, len(lines)) if lines[k].startswith(("#", ">", "*", "!"))), len(lines))
            if lines[end].endswith(" 0"):
                yield start + 1, lines[start + 1:end], lines[end + 1:behind]


def is_virtual(register):
    return register[1] in "ix"


def placed(kind, register):
    """A register with its constraint; a real one is fixed."""
    return f"{kind} {register}" if is_virtual(register) else f"fixed {register}"


def memory(operand):
    """The registers of an operand in memory, and the one that its address may need."""
    registers = re.findall(r"%\w+", operand) if operand.startswith(("BXD", "RegOffset")) else []
    return [placed("use", register) for register in registers] + [SCRATCH]


def pairs(fields):
    """Of a product or a division: what it reads, the pair that it writes, and what has to stand in this pair before."""
    (high, low), = (word.split("/") for _, kind, word in fields if kind == "WritableRegPair")
    reads = [placed("use", word) for name, kind, word in fields if kind == "Reg" and name != "ri"]
    tied = [word.split("/") for name, _, word in fields if name == "ri"]
    halves = [f"use {word}={place}" for words in tied for word, place in zip(words, ("%r2", "%r3")[-len(words):], strict=True)]
    return reads + [f"def {high}=%r2", f"def {low}=%r3"] + halves


def listed(words):
    """The items of a list."""
    return [word for word in words.strip("[]").split(",") if word]


def call(words):
    """A call's target, arguments and results, and what it overwrites with its link."""
    link, target, uses, defs, clobbers = words[:5]
    target = [placed("use", target)] if target.startswith("%") else []
    results = [f"any {word.split('=')[0]}" if "=@" in word else f"def {word.split(':')[0]}" for word in listed(defs)]
    lost = sorted({link, *listed(clobbers)}, key=lambda register: (register[1], int(register[2:])))
    return target + [f"use {word}" for word in listed(uses)] + results + [f"clobber [{','.join(lost)}]"]


def reported(name, words, types):
    """What the rule says of an instruction with these words."""
    if name == "Call":
        return call(words)
    if name == "ReturnCall":
        target = [placed("use", words[0])] if words[0].startswith("%") else []
        return target + [f"use {word}" for word in listed(words[1])]
    if name in ("Args", "Rets"):
        return [("def " if name == "Args" else "use ") + word for word in listed(words[0])]
    if name in SILENT:
        return []
    fields = [(field, kind, word) for (field, kind), word in zip(types, words, strict=True)]
    if any(kind == "WritableRegPair" for _, kind, _ in fields):
        return pairs(fields)
    behind = [item for _, kind, word in fields if kind == "MemArg" for item in memory(word)]
    if name in MULTIPLES:
        first, last = (int(word[2:]) for word in words[:2])
        return behind + [f"fixed %r{number}" for number in range(first, min(last, 15) + 1)]
    output = "reuse(1)" if any(field == "ri" for field, _, _ in fields) else "def"
    told = [placed(output, word) for _, kind, word in fields if kind == "Writable<Reg>"]
    told += [placed("use", word) for _, kind, word in fields if kind == "Reg"]
    told += [f"fixed {word}" for _, kind, word in fields if kind == "PReg"]
    return told + behind + [SCRATCH] * (name in NEED_SCRATCH)


def is_telling(name, line):
    """Whether other virtual registers stand in each field of an instruction."""
    registers = re.findall(r"%\w+", line.split(" ", 3)[3] if name in MULTIPLES else line)
    free = registers if name not in ("Call", "ReturnCall", "Args", "Rets", "MovPReg", *SILENT) else []
    return len(set(registers)) == len(registers) and all(is_virtual(register) for register in free)


def expected(lines, types, told):
    """The listing of a job by the rule; `told` gets the instructions that say which register stands where."""
    listing, blocks, depth = [], 0, 0
    for name, *words in (line.split(" ") for line in lines):
        if name == "block":
            listing.append(f"block {blocks}")
            blocks += 1
        elif name == "endloop":
            depth -= 1
        elif name in types:
            items = [] if name == "Loop" else reported(name, words, types[name])
            if is_telling(name, " ".join([name, *words])):
                told.add(name)
            # a loop with its members is one line
            if depth:
                listing[-1] += items
            else:
                listing.append(items)
            depth += name == "Loop"
    listing = [line if isinstance(line, str) else ", ".join(line) or "none" for line in listing]
    return listing


def main():
    types, told, count, wrong = variants(), set(), 0, []
    for line, job, listing in cases():
        count += 1
        if expected(job, types, told) != listing:
            wrong.append(f"DIFFERS the case at line {line} of s390x_tool_cases/stdin")
    missing = sorted(set(types) - told)
    for line in wrong + [f"MISSING {name}" for name in missing]:
        print(line)
    print(f"{len(types)} instructions, {len(missing)} missing; {count} cases, {len(wrong)} differ")
    return 1 if wrong or missing else 0


if __name__ == "__main__":
    sys.exit(main())
