#!/usr/bin/env python3
"""compare: entries of the original's tests against this machine layer.

    compare.py [--demo DEMO] FILE..
    compare.py --print FILE..

An entry is `insns.push((INSTRUCTION, "HEX", "TEXT"));`, on one line or several. Each instruction is turned into a line of a
job, and the job's code is compared with HEX, and its text with TEXT. DEMO is bindings/c/emit_demo as it was built, out/c/emit_demo
if none is named. With --print the jobs are written, and nothing is compared.

It ends with 1 where an entry differs or can't be read.
"""
import argparse
import importlib.util
import os
import re
import subprocess
import sys

HERE = os.path.dirname(os.path.abspath(__file__))
ROOT = os.path.dirname(os.path.dirname(HERE))

# All facilities: the original's tests emit for the newest machine.
FLAGS = "flags mie3 mie4 vxrs_ext2 vxrs_ext3"

TOKEN = re.compile(r'\s*(?://[^\n]*\n\s*)*("(?:[^"\\]|\\.)*"|0x[0-9a-fA-F_]+|[0-9][0-9_]*|[A-Za-z_][A-Za-z_0-9]*!?|::|[{}()\[\],:;.&*<>=|-])')

TRAPS = {
    "STACK_OVERFLOW": "stk_ovf",
    "INTEGER_OVERFLOW": "int_ovf",
    "HEAP_OUT_OF_BOUNDS": "heap_oob",
    "INTEGER_DIVISION_BY_ZERO": "int_divz",
    "BAD_CONVERSION_TO_INTEGER": "bad_toint",
}

INTEGER_MASKS = {
    "Equal": 8, "NotEqual": 6, "SignedLessThan": 4, "SignedGreaterThanOrEqual": 10, "SignedGreaterThan": 2,
    "SignedLessThanOrEqual": 12, "UnsignedLessThan": 4, "UnsignedGreaterThanOrEqual": 10, "UnsignedGreaterThan": 2,
    "UnsignedLessThanOrEqual": 12,
}


class Unreadable(Exception):
    """An entry in another form."""


class Reader:
    """Reads expressions: a number; a name; a path with fields, with arguments, or alone; a list. Calls that only wrap, as
    `.unwrap()` and `Box::new`, are their argument."""

    def __init__(self, text):
        self.text, self.place = text, 0

    def peek(self):
        found = TOKEN.match(self.text, self.place)
        return found[1] if found else None

    def take(self, wanted=None):
        found = TOKEN.match(self.text, self.place)
        if not found or (wanted and found[1] != wanted):
            raise Unreadable(f"{wanted or 'an expression'} is wanted at {self.text[self.place:self.place + 40]!r}")
        self.place = found.end()
        return found[1]

    def items(self, close):
        found = []
        while self.peek() != close:
            found.append(self.expression())
            if self.peek() == ",":
                self.take()
        self.take(close)
        return found

    def expression(self):
        token = self.take()
        if token in "&*":
            return self.expression()
        if token == "-":
            return -self.expression()
        if token == "[":
            return self.items("]")
        if token == "(":
            return ("tuple", self.items(")"))
        if token[0] == '"':
            value = token[1:-1]
        elif token[0].isdigit():
            value = int(token.replace("_", ""), 0)
            if self.peek() and re.fullmatch(r"[iu](8|16|32|64|size)", self.peek() or ""):
                self.take()
        else:
            value = self.path(token)
        while self.peek() == ".":
            self.take()
            self.take()
            self.take("(")
            self.items(")")
        return value

    def path(self, token):
        if token == "vec!":
            self.take("[")
            return self.items("]")
        words = [token]
        while self.peek() == "::":
            self.take()
            words.append(self.take())
        if self.peek() == "(":
            self.take()
            return ("call", words, self.items(")"))
        if self.peek() == "{" and words[-1][0].isupper():
            self.take()
            return ("fields", words, self.fields())
        return ("name", words)

    def fields(self):
        found = {}
        while self.peek() != "}":
            field = self.take()
            if self.peek() == ":":
                self.take()
                found[field] = self.expression()
            else:
                found[field] = ("name", [field])
            if self.peek() == ",":
                self.take()
        self.take("}")
        return found


def shifted(value, bits):
    """A part of a value, as `BITS:SHIFT`."""
    for shift in range(64 // bits):
        if value >> (bits * shift) < 2**bits and value % 2 ** (bits * shift) == 0:
            return f"{value >> (bits * shift)}:{shift}"
    raise Unreadable(f"{value} isn't one part of {bits} bits")


def call_text(words, given):
    """The text of a call's value."""
    name = words[-1]
    if name in ("gpr", "writable_gpr", "gpr_preg"):
        return f"%r{given[0]}"
    if name in ("vr", "writable_vr"):
        return f"%v{given[0]}"
    if name == "zero_reg":
        return "%r0"
    if name in ("stack_reg", "writable_stack_reg"):
        return "%r15"
    if name in ("spilltmp_reg", "writable_spilltmp_reg"):
        return "%r1"
    if name in ("regpair", "writable_regpair"):
        return f"%r{given[0]}/%r{given[1]}"
    if words[0] == "UImm16Shifted":
        return shifted(given[0], 16)
    if words[0] == "UImm32Shifted":
        return shifted(given[0], 32)
    if words[0] in ("UImm12", "SImm20"):
        return str(given[0] if given else 0)
    if words[0] == "Cond":
        return str(given[0]) if name == "from_mask" else str(INTEGER_MASKS[given[0][1][-1]])
    if words[0] == "MemFlags":
        return "a" if name == "trusted" else "u"
    if words[0] == "TrapCode":
        return f"user{given[0]}"
    if name == "testcase":
        return "u" + (re.sub(r"\D", "", given[0]) or "0")
    if words[0] == "MemArg":
        return {
            "reg": lambda: f"BXD12({text_of(given[0])},%r0,0,{text_of(given[1])})",
            "reg_plus_reg": lambda: f"BXD12({text_of(given[0])},{text_of(given[1])},0,{text_of(given[2])})",
            "reg_plus_off": lambda: f"RegOffset({text_of(given[0])},{given[1]},{text_of(given[2])})",
        }[name]()
    if words[0] == "Box" or name in ("Some", "from_block", "from_u32", "new", "from_reg", "RealReg"):
        return text_of(given[0])
    raise Unreadable(f"the call {'::'.join(words)}")


def text_of(value):
    """The text of a field's value."""
    if isinstance(value, int):
        return str(value)
    if isinstance(value, list):
        return "[" + ",".join(text_of(item) for item in value) + "]"
    if isinstance(value, str):
        return value
    kind, words, *rest = value
    if kind == "call":
        return call_text(words, rest[0])
    if kind == "name":
        return TRAPS.get(words[-1], words[-1])
    if kind == "fields" and words[0] == "MemArg":
        return f"{words[-1]}(" + ",".join(text_of(item) for item in rest[0].values()) + ")"
    if kind == "fields" and words[-1] in ("RegPair", "WritableRegPair"):
        return f"{text_of(rest[0]['hi'])}/{text_of(rest[0]['lo'])}"
    raise Unreadable("::".join(words))


def orders():
    """The fields of each instruction, in the order of its line."""
    spec = importlib.util.spec_from_file_location("make_instructions", os.path.join(ROOT, "bindings", "rust", "make_instructions.py"))
    module = importlib.util.module_from_spec(spec)
    spec.loader.exec_module(module)
    return {name: [field for field, _ in fields] for file in ("inst.rt", "vec_inst.rt") for _, enum, cases in module.enums(file)
            if enum in ("Inst", "VecInst") for _, name, fields in cases}


def line_of(inst, order):
    """The line of an instruction."""
    if not isinstance(inst, tuple) or inst[1][0] not in ("Inst", "VecInst"):
        raise Unreadable("no instruction")
    name = inst[1][-1]
    if name not in order:
        raise Unreadable(f"the instruction {name}")
    given = inst[2] if inst[0] == "fields" else {}
    if set(given) != set(order[name]):
        raise Unreadable(f"{name} has the fields {', '.join(order[name])}")
    return " ".join([name] + [text_of(given[field]) for field in order[name]])


def entries(text):
    """The entries of a file: the number of its line, and the three parts or why it can't be read."""
    for found in re.finditer(r"insns\s*\.push\(\s*\(", text):
        number = text.count("\n", 0, found.start()) + 1
        reader = Reader(text[found.end():])
        try:
            parts = reader.items(")")
            if len(parts) != 3 or not all(isinstance(part, str) for part in parts[1:]):
                raise Unreadable("an instruction, its code and its text are wanted")
            yield number, parts
        except (Unreadable, TypeError, KeyError, IndexError, ValueError) as why:
            yield number, str(why)


def job_of(line):
    """The job of one instruction."""
    return f"{FLAGS}\nblock\n{line}\nend\n"


def code_of(demo, job):
    """The code of a job in hex, or how it ended."""
    done = subprocess.run([demo], input=job, capture_output=True, text=True)
    return done.stdout.split("\n")[0].removeprefix("code ").upper() if done.returncode == 0 else f"status {done.returncode}"


def shown(demo, job):
    """The text of a job's instruction, or how it ended."""
    done = subprocess.run([demo, "show"], input=job, capture_output=True, text=True)
    return done.stdout.split("\n")[1] if done.returncode == 0 else f"status {done.returncode}"


def main():
    parser = argparse.ArgumentParser(description=__doc__.split("\n")[0])
    parser.add_argument("--demo", default=os.path.join(ROOT, "out", "c", "emit_demo"))
    parser.add_argument("--print", action="store_true", dest="printing")
    parser.add_argument("files", nargs="+", metavar="FILE")
    words = parser.parse_args()
    order = orders()
    count = wrong = 0
    for file in words.files:
        for number, parts in entries(open(file).read()):
            count += 1
            try:
                if isinstance(parts, str):
                    raise Unreadable(parts)
                job = job_of(line_of(parts[0], order))
            except (Unreadable, TypeError, KeyError, IndexError, ValueError) as why:
                print(f"{file}:{number}: can't be read: {why}")
                wrong += 1
                continue
            if words.printing:
                print(job, end="")
                continue
            told = [("code", parts[1].upper(), code_of(words.demo, job)), ("text", parts[2], shown(words.demo, job))]
            for what, wanted, got in told:
                if wanted != got:
                    print(f"{file}:{number}: {what}: {wanted} there, {got} here: {job.splitlines()[2]}")
            wrong += any(wanted != got for _, wanted, got in told)
    if not words.printing:
        print(f"{count} entries, {wrong} differ")
    return 1 if wrong else 0


if __name__ == "__main__":
    sys.exit(main())
