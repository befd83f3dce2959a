"""Why an instruction is refused, as far as its line and the job's lines tell: what `checks/explain.py` says behind a cause.

It judges nothing: a reason is said only of what the program has refused by that cause.
"""
import re

# The fields of vector instructions that are general registers.
GENERAL = {
    "VecShiftRR": ["shift_reg"], "MovToVec128": ["rn", "rm"], "VecInsertLane": ["rn", "lane_reg"], "VecInsertLaneUndef": ["rn", "lane_reg"],
    "VecExtractLane": ["rd", "lane_reg"],
}
# The fields that name a block, and those by which a jump goes, where `%r0` leads nowhere.
BLOCKS = ["dest", "taken", "not_taken", "default", "label"]
WAYS = {"Ret": "link", "IndirectBr": "rn", "JTSequence": "ridx", "Call": "dest", "ReturnCall": "dest"}
STACK = "a block's AllocateArgs are followed by a call in the same block that takes as many bytes (callee_pop_size), outside every Loop, and no second one comes before it"


class Line:
    """An instruction's line: its name and its fields by their names."""

    def __init__(self, page, text):
        self.page, self.text = page, text
        self.name, *words = text.split(" ")
        self.kinds = dict(page.fields.get(self.name, []))
        self.fields = dict(zip(self.kinds, words))

    def number(self, field):
        """A field's number, or none where the line has no such number."""
        text = self.fields.get(field, "")
        return int(text) if re.fullmatch(r"-?\d+", text) else None

    def bad_register(self):
        """Which register can't stand there."""
        if virtual := re.search(r"%[ix]\d+", self.text):
            return f"{virtual[0]} is virtual: emission takes real registers, which `alloc` puts in by a plan"
        if self.fields.get(WAYS.get(self.name)) == "%r0":
            return f"{WAYS[self.name]} is %r0, by which no jump goes: any other general register"
        for field, kind in self.kinds.items():
            text = self.fields.get(field, "")
            pair = re.fullmatch(r"%r(\d+)/%r(\d+)", text)
            if kind == "PAIR" and not (pair and int(pair[1]) % 2 == 0 and int(pair[2]) == int(pair[1]) + 1):
                return f"{field} {text} is no pair: an even general register, and the one behind it"
            wanted = "v" if self.name in self.page.vector and field not in GENERAL.get(self.name, []) else "r"
            if kind in ("REG", "REAL") and text[1:2] != wanted:
                return f"{field} is a {'vector' if wanted == 'v' else 'general'} register here, and {text} is none"
        if address := re.search(r"\w+\([^)]*%v\d+[^)]*\)", self.text):
            return f"{address[0]}: the base and the index are general registers"
        return self.not_reused()

    def not_reused(self):
        """Which input has to be the output."""
        output, wanted = self.fields.get("rd", ""), self.kinds.get("ri")
        if wanted == "REG" and "/" in output:
            output = output.split("/")[1]
        given = self.fields.get("ri", output)
        return f"ri is {given}, and has to be {output}, which is written" if given != output else None

    def bad_operator(self):
        """Which value has no machine row."""
        operators = re.search(r"operators: ([^;]*)", self.page.notes.get(self.name, ""))
        if operators and next(iter(self.fields.values()), "") not in operators[1].split(", "):
            return f"{self.name} takes {operators[1]}"
        for field, kind in self.kinds.items():
            parts = {"PART16": 4, "PART32": 2}.get(kind, 0) // (2 if self.fields.get("alu_op", "").endswith("32") else 1)
            if parts and not int(self.fields[field].split(":")[1]) < parts:
                return f"{field} {self.fields[field]}: the part is from 0 to {parts - 1}"
        for field, allowed in self.allowed().items():
            if self.number(field) not in [None, *allowed]:
                shown = f"{allowed[0]} to {allowed[-1]}" if isinstance(allowed, range) else ", ".join(map(str, allowed))
                return f"{field} is {self.number(field)}, and has a row for {shown}"
        return None

    def allowed(self):
        """The numbers that have a row, by fields, as docs/JOBS.md lists them."""
        if self.name == "Extend":
            return {"to_bits": [32, 64], "from_bits": [1, 8, 16] if self.number("to_bits") == 32 else [1, 8, 16, 32]}
        if self.name.startswith("RxSBG"):
            return {"start_bit": range(64), "end_bit": range(64)}
        if self.name.endswith("IndexedAddr"):
            return {"size": range(1, 5)}
        size = self.number("size")
        rows = {"ar": range(16), "lane_count": [2, 4, 8, 16], "idx1": range(2), "idx2": range(2)}
        rows["size"] = [16, 32, 64] if "Rev" in self.name else [8, 16, 32, 64]
        if size in rows["size"]:
            rows |= {"lane_imm": range(128 // size), "start_bit": range(size), "end_bit": range(size)}
        return rows

    def blocks(self):
        """The blocks that are named."""
        found = [self.number(field) for field in BLOCKS] + [int(n) for n in re.findall(r"Label\((\d+)\)", self.text)]
        found += [int(n) for n in re.findall(r"\d+", self.fields.get("targets", ""))]
        ways = self.fields.get("try_call_info", "-")
        found += [int(n) for n in re.findall(r"(?:^|:)(\d+)(?=[\[,\]]|$)", ways)]
        return [number for number in found if number is not None]

    def unbound(self, lines):
        """Which block or constant there isn't."""
        blocks, constants = lines.count("block"), sum(line.startswith("const ") for line in lines)
        for number in self.blocks():
            if number >= blocks:
                return f"there is no block {number}: the job has {blocks}, counted from 0"
        for number in map(int, re.findall(r"Constant\((\d+)\)", self.text)):
            if number >= constants:
                return f"there is no constant {number}: the job has {constants} lines `const`, counted from 0"
        return None

    def unaligned(self, lines):
        """Which constant isn't aligned as its access needs."""
        constants = [line.split(" ")[1] for line in lines if line.startswith("const ")]
        found = re.search(r"Constant\((\d+)\)", self.text)
        if found and int(found[1]) < len(constants):
            return f"its constant has the alignment {constants[int(found[1])]}: the line `const` has to give it that of the access, by its width"
        return None


def of_instruction(page, cause, text, lines):
    """What is said of a cause that an instruction's line has in a job of these lines, or none."""
    line = Line(page, text)
    said = {
        "BadRegister": line.bad_register, "BadOperator": line.bad_operator, "UnboundLabel": lambda: line.unbound(lines),
        "BadAlignment": lambda: line.unaligned(lines), "BadStackState": lambda: STACK if line.name in ("AllocateArgs", "Call", "ReturnCall") else None,
        "MissingFacility": lambda: facility(page, line),
    }.get(cause)
    return said and said()


def facility(page, line):
    """The word of `flags` that an instruction needs."""
    operator = next(iter(line.fields.values()), "")
    flags = re.search(r"flags: (.*)", page.notes.get(line.name, ""))
    for flag, operators in re.findall(r"`(\w+)`(?: for ((?:\w+, )*\w+)(?:, |$))?", flags[1] if flags else ""):
        if not operators or operator in operators.split(", "):
            return f"the line `flags` has to name {flag}"
    return None


def of_job(cause, lines):
    """What is said of a cause that no instruction has, or none."""
    aligns = [(number, line.split(" ")[1]) for number, line in enumerate(lines, 1) if line.startswith("const ")]
    wrong = next((f"line {number}: a constant's alignment is 1, 2, 4, 8 or 16" for number, align in aligns if align not in ("1", "2", "4", "8", "16")), None)
    return wrong if cause == "BadAlignment" else None


def undefined_symbol(lines):
    """Which symbol of a job has no line, or none."""
    defined = {line.split(" ")[1] for line in lines if line.startswith("symbol ")}
    for number, line in enumerate(lines, 1):
        word, *fields = line.split(" ")
        target = {"Call": fields[1:2], "ReturnCall": fields[:1]}.get(word, [])
        names = [name for name in target if name.startswith("u")] + re.findall(r"(?:Symbol|Absolute)\((u\d+),", line)
        for name in names:
            if name not in defined:
                return f"line {number} names {name}, and needs a line `symbol {name} ADDRESS` before the blocks: {line[:200]}"
    return None
