#!/usr/bin/env python3
"""What the script `s390x` says of words or of an input that the program doesn't take: what is wrong, and where.

    checks/explain.py usage WORDS..                          of words that are no command
    checks/explain.py answer LINE INPUT PROGRAM WORDS..      of the line that the program wrote for these words and this input
    checks/explain.py parts INPUT FOLDER NAME WORDS..        writes the input, cut behind its instructions, as cases for `rt try --cases`
    checks/explain.py tried LINE INPUT OUTPUT NAME WORDS..   as `answer`, by what `rt try` wrote for these cases

The forms of lines are read from docs/JOBS.md. It judges nothing: the program has judged, and this looks for the reason. With the variable
REFUSAL, the second program, it asks that for the place of a refusal, and else lets the program judge parts of the input.
"""
import difflib
import os
import re
import subprocess
import sys

import reasons

ROOT = os.path.dirname(os.path.dirname(os.path.realpath(__file__)))
# The words behind each command's name: the least and the greatest number of each.
BASE, STEPS = ("BASE", 0, 2**64 - 1), ("STEPS", 0, 1000000)
COMMANDS = {
    "image": [BASE], "emit": [], "run": [BASE, STEPS], "operands": [], "show": [],
    "gen": [("N", 0, 100000), ("START", 0, 2**32 - 1)],
    "smp": [BASE, ("WORD", 0, 2**64 - 1), ("P", 1, 64), STEPS, ("START", 0, 2**32 - 1)],
    "bundle": [BASE], "alloc": [],
}
# Those of the second program, where it is there.
with open(os.path.join(ROOT, "crates.txt"), encoding="utf-8") as listed:
    if re.search(r"^s390x_binary:", listed.read(), re.M):
        COMMANDS |= {"refusal": [], "verify": [BASE], "disassemble": [BASE], "assemble": [BASE], "list": [BASE], "object": [], "objects": []}
# Of a function whose instructions are more, only so many parts are tried without a proof.
MOST_PARTS = 40
# A line that is said is cut behind so many characters, and parts are written of inputs of so many bytes at most.
MOST_SHOWN, MOST_BYTES = 400, 200000
NUMBER = re.compile(r"0|[1-9][0-9]*")
SIGNED = re.compile(r"0|-?[1-9][0-9]*")
FACILITIES = ["mie3", "mie4", "vxrs_ext2", "vxrs_ext3", "norel"]
TRAPS = ["stk_ovf", "int_ovf", "heap_oob", "int_divz", "bad_toint"]
# Lines before the blocks, in their order.
HEADS = ["flags", "frame", "const", "symbol", "reg", "mem"]


def near(word, words):
    """What is said of a word that isn't among these; of a long one nothing."""
    if len(word) > 60:
        return ""
    like = [x for x in words if x.lower() == word.lower()] or difflib.get_close_matches(word, words, 1, 0.6)
    return f"; the nearest is {like[0]}" if like else ""


def number_fault(word, least, most):
    """Why a word is no decimal number from the least to the greatest, or none."""
    if word == "":
        return "a number is lacking"
    if re.fullmatch(r"-?0[xX][0-9a-fA-F]+", word):
        return f"{word} is hexadecimal; in decimal it is {int(word, 16)}"
    if re.fullmatch(r"[-+]?[0-9]+", word):
        if len(word) > 60:
            return f"{word[:20]}.. is outside {least} to {most}"
        if not (SIGNED if least < 0 else NUMBER).fullmatch(word) and (least < 0 or word[0] != "-"):
            return f"{word} has a sign or a zero in front that isn't written; it is {int(word)}"
        return None if least <= int(word) <= most else f"{word} is outside {least} to {most}"
    return f"{word} is no decimal number"


def usage(words):
    """What is wrong with the words of a command."""
    if not words:
        return ["no command is given"]
    wanted = COMMANDS.get(words[0])
    if wanted is None:
        return [f"{words[0]} is no command" + near(words[0], COMMANDS)]
    for (name, least, most), word in zip(wanted, words[1:]):
        if fault := number_fault(word, least, most):
            is_file = ": an input comes on standard input, behind <" if os.path.exists(word) else ""
            return [f"{name} of {words[0]} is a number: {fault}{is_file}"]
    if words[0] == "object":
        return [f"{words[2]} is a word too many: object [NAME]"]
    form = " ".join([words[0]] + [name for name, _, _ in wanted])
    if len(words) - 1 < len(wanted):
        return [f"a word is lacking: {form}"]
    extra = words[1 + len(wanted)]
    is_file = ", an input comes on standard input, behind <" if os.path.exists(extra) else ""
    return [f"{extra} is a word too many{is_file}: {form}"]


class Page:
    """The forms of lines, as docs/JOBS.md lists them."""

    def __init__(self):
        with open(os.path.join(ROOT, "docs", "JOBS.md"), encoding="utf-8") as page:
            text = page.read().split("<!-- the lists begin -->")[1].split("<!-- the lists end -->")[0]
        self.words, self.fields, self.forms, self.notes, self.operands = {}, {}, {}, {}, {}
        # the names of instructions on vector registers
        self.vector = re.findall(r"^\| `(\w+)", text.split("### Vector instructions")[1], re.M)
        for cells in (line.strip("| ").split(" | ") for line in text.splitlines() if line.startswith("|")):
            form = cells[0].strip("`")
            if operand := re.fullmatch(r"(\w+)\((.*)\)", form):
                self.operands[operand[1]] = [part.split(":") for part in operand[2].split(",")]
            elif cells[0].startswith("`"):
                name, *fields = form.split(" ")
                self.forms[name], self.fields[name] = form, [part.split(":") for part in fields]
                self.notes[name] = cells[2] if len(cells) > 2 else ""
            elif len(cells) == 2:
                self.words[cells[0]] = cells[1].split(", ")


class Fields:
    """Why a text is no field of a kind, or none; one function for each kind that isn't a list of words or a number."""

    def __init__(self, page):
        self.page = page

    def fault(self, kind, text):
        """Why a text is no field of this kind, or none."""
        if kind in self.page.words:
            words = self.page.words[kind]
            return None if text in words else f"{text} is no word of {kind}{near(text, words)}"
        if sized := re.fullmatch(r"([US])(\d+)(\??)", kind):
            bits = int(sized[2])
            if sized[3] and text == "-":
                return None
            low, high = (0, 2**bits) if sized[1] == "U" else (-(2 ** (bits - 1)), 2 ** (bits - 1))
            return number_fault(text, low, high - 1)
        return getattr(self, kind.lower(), lambda text: None)(text)

    def real(self, text):
        """A real register."""
        if re.fullmatch(r"%r([0-9]|1[0-5])|%v([0-9]|[12][0-9]|3[01])", text):
            return None
        if re.fullmatch(r"%f\d+", text):
            return f"{text}: float registers are written %v0 to %v15"
        if re.fullmatch(r"[rv]\d+", text):
            return f"{text} lacks its %"
        if re.fullmatch(r"%[rv]\d+", text):
            return f"{text}: there are %r0 to %r15 and %v0 to %v31, without zeros in front"
        return f"{text} is no register; there are %r0 to %r15 and %v0 to %v31"

    def reg(self, text):
        """A register, real or virtual."""
        if virtual := re.fullmatch(r"%[ix](.*)", text):
            fault = number_fault(virtual[1], 0, 2**32 - 1)
            return fault and f"{text}: {fault}"
        return self.real(text)

    def pair(self, text):
        """Two registers."""
        parts = text.split("/")
        return self.reg(parts[0]) or self.reg(parts[1]) if len(parts) == 2 else f"{text} is no pair HIGH/LOW of registers"

    def mask(self, text):
        """The mask of a condition."""
        return number_fault(text, 1, 14)

    def bool(self, text):
        """A truth value."""
        return None if text in ("true", "false") else f"{text} is neither true nor false"

    def trap(self, text):
        """A trap code."""
        if text in TRAPS or (re.fullmatch(r"user[1-9]\d*", text) and int(text[4:]) <= 250):
            return None
        return f"{text} is no trap code: {', '.join(TRAPS)}, user1 to user250{near(text, TRAPS)}"

    def access(self, text):
        """What is known of an access."""
        letter, mark, trap = text.partition("!")
        if letter not in ("a", "u"):
            return f"{text}: a for an access that is known to be aligned, or u"
        return self.trap(trap) if mark else None

    def mem(self, text):
        """An operand in memory."""
        found = re.fullmatch(r"(\w+)\((.*)\)", text)
        if not found:
            return f"{text} is no operand in memory, as BXD12(%r2,%r0,8,u)"
        wanted = self.page.operands.get(found[1])
        if wanted is None:
            like = near(found[1], self.page.operands) or f"; the forms are {', '.join(self.page.operands)}, as BXD12(%r2,%r0,8,u)"
            return f"{found[1]} is no form of an operand in memory{like}"
        return self.parts(text, found[2].split(","), wanted, f"{found[1]}({','.join(':'.join(part) for part in wanted)})")

    def parts(self, text, found, wanted, form):
        """Parts, each of its kind."""
        if len(found) != len(wanted):
            return f"{text} has {len(found)} parts, and {len(wanted)} are wanted: {form}"
        for (name, kind), part in zip(wanted, found):
            if fault := self.fault(kind, part):
                return f"{name} in {text}: {fault}"
        return None

    def items(self, text, fault):
        """A list in brackets."""
        if not re.fullmatch(r"\[.*\]", text):
            return f"{text} is no list in brackets, as [] or [..,..]"
        return next(filter(None, map(fault, text[1:-1].split(",") if text != "[]" else [])), None)

    def labels(self, text):
        """Blocks."""
        return self.items(text, lambda item: number_fault(item, 0, 2**32 - 1))

    def pairs(self, text):
        """Values and the registers in which they are."""
        return self.items(text, lambda item: self.reg(item.partition("=")[0]) or self.reg(item.partition("=")[2]))

    def results(self, text):
        """Results of a call."""
        def fault(item):
            found = re.fullmatch(r"([^=]*)=([^:]*):(.*)", item)
            if not found:
                return f"{item} is no result, as %r2=%r2:I64 or %r2=@8:I64"
            at = number_fault(found[2][1:], -(2**63), 2**63 - 1) if found[2].startswith("@") else self.reg(found[2])
            return self.reg(found[1]) or at or self.fault("TYPE", found[3])
        return self.items(text, fault)

    def reals(self, text):
        """A set of real registers, general ones first, rising."""
        places = [(item[1] == "v", int(item[2:])) for item in text[1:-1].split(",")] if re.fullmatch(r"\[(%[rv]\d+,?)+\]", text) else []
        if any(a >= b for a, b in zip(places, places[1:])):
            return f"{text}: general registers stand first, and numbers rise"
        return self.items(text, self.real)

    def name(self, text):
        """A name."""
        return (text[:1] != "u" and f"{text} is no name, as u1") or number_fault(text[1:], 0, 2**32 - 1)

    def target(self, text):
        """What is called."""
        return self.reg(text) if text.startswith("%") else self.name(text)

    def handler(self, text):
        """A handler of a call."""
        tag, _, label = text.partition(":")
        return (tag != "*" and number_fault(tag, 0, 2**32 - 1)) or number_fault(label, 0, 2**32 - 1)

    def __getattr__(self, kind):
        """Kinds whose names are no names here."""
        others = {"try": self.handlers, "part16": lambda text: self.part(text, 16), "part32": lambda text: self.part(text, 32)}
        if kind in others:
            return others[kind]
        raise AttributeError(kind)

    def handlers(self, text):
        """Where a call goes on, and its handlers."""
        found = re.fullmatch(r"(\w+)(\[.*\])", text)
        if not found:
            return None if text == "-" else f"{text} is neither - nor BLOCK[TAG:BLOCK,*:BLOCK]"
        return number_fault(found[1], 0, 2**32 - 1) or self.items(found[2], self.handler)

    def part(self, text, bits):
        """Bits and which part they are."""
        number, mark, shift = text.partition(":")
        if not mark:
            return f"{text} is no part of an immediate, as {number}:0"
        return number_fault(number, 0, 2**bits - 1) or number_fault(shift, 0, 255)

    def reloc(self, text):
        """A relocation."""
        found = re.fullmatch(r"Absolute\((.*),(.*)\)", text)
        return (self.name(found[1]) or number_fault(found[2], -(2**63), 2**63 - 1)) if found else f"{text} isn't of the form Absolute(u1,0)"

    def bytes(self, text):
        """Bytes in hex."""
        if text == "-" or re.fullmatch(r"([0-9a-f]{2})+", text):
            return None
        return f"{text[:40]} is no hex: two lower-case digits a byte, or - for none"


class Text:
    """A text up to a line of it, and why that line can't stand there."""

    def __init__(self, page, command, lines):
        self.page, self.fields, self.command, self.lines = page, Fields(page), command, lines
        self.place, self.head, self.last = "head", -1, None
        # the numbers of the lines of Loops that are open, the outermost first
        self.loops = []
        if command in ("bundle", "objects"):
            self.place = "functions"

    def pass_line(self, number, line):
        """Goes past a line that isn't wrong and has this number."""
        name = line.split(" ")[0]
        if self.place in ("head", "block"):
            if name in HEADS:
                self.head, self.last = HEADS.index(name), line
            elif name == "end":
                self.place = {"bundle": "functions", "objects": "functions", "alloc": "plan", "verify": "hex"}.get(self.command, "end")
            elif name == "block":
                self.place = "block"
            elif name == "Loop":
                self.loops.append(number)
            elif name == "endloop":
                self.loops.pop()
        elif name == "function":
            self.place, self.head, self.last = "head", -1, None
        elif name == "close":
            self.place = "end"
        elif name == "plan":
            self.place = "blocks"

    def fault(self, number):
        """Why the line of this number is wrong, counted from 1."""
        for passed, line in enumerate(self.lines[: number - 1], 1):
            self.pass_line(passed, line)
        if number > len(self.lines):
            return self.lacking()
        line = self.lines[number - 1]
        return self.blanks(line) or self.order(line) or self.content(line)

    def lacking(self):
        """What an input that ends too early lacks."""
        ends = {"bundle": "close", "objects": "close", "alloc": "close"}.get(self.command, "end")
        lacks = []
        if self.place in ("head", "block"):
            lacks = ["endloop"] * len(self.loops) + ["end"]
        if self.command == "alloc" and self.place in ("head", "block", "plan"):
            lacks.append("plan")
        return f"the input ends here, and lacks {' and '.join(f'a line `{x}`' for x in lacks + [ends] * (ends not in lacks))}"

    def blanks(self, line):
        """What is wrong with the blanks of a line."""
        if line.endswith("\r"):
            return "it ends in a carriage return: lines end in a line feed alone (tr -d '\\r' takes carriage returns out)"
        if line == "":
            return "it is empty: no line is empty"
        if "\t" in line:
            return "it has a tab: one space stands between fields"
        if line != line.strip(" "):
            return f"it has a space too many, at its {'end' if line[0] != ' ' else 'beginning'}: none stands at the ends of a line"
        if "  " in line:
            return f"it has a space too many, behind {line.split('  ')[0].split(' ')[-1]}: one stands between fields"
        if re.search(r"(^|\s)(#|//|;)", line):
            return "there are no comments"
        return None

    def order(self, line):
        """Why a line can't follow those before it, whatever its fields."""
        name = line.split(" ")[0]
        if self.place == "end":
            return "nothing stands behind the last line"
        if self.place == "functions":
            return None if name in ("function", "close") else "a line `function uN` or `close` has to stand here"
        if self.place == "hex":
            return "behind `end` stand lines of hex digits, two for each byte"
        if self.place == "plan":
            return None if name == "plan" else "a line `plan` has to stand behind `end`"
        if self.place == "blocks":
            return None if name in ("block", "entry", "move", "step", "close") else f"{name} is no line of a plan"
        if name not in self.page.forms and name not in ("function", "close", "plan"):
            return f"no line has the name {name}{near(name, self.page.forms)}"
        if self.place == "head":
            return self.head_order(name)
        if name in HEADS or name in ("function", "close", "plan"):
            return f"a line `{name}` can't stand in a block" if name in HEADS else f"a line `end` is lacking before `{name}`"
        if self.loops and name in ("block", "end"):
            return f"a line `endloop` is lacking before it, for the Loop of line {self.loops[-1]}"
        if name == "endloop" and not self.loops:
            return "no Loop is open"
        if name == "Loop" and len(self.loops) == 9:
            return "at most nine Loops are open"
        return None

    def head_order(self, name):
        """Why a line can't stand before the blocks."""
        if name not in HEADS:
            return None if name in ("block", "end") else "a line `block` has to come first"
        rank = HEADS.index(name)
        if rank < self.head or (rank == self.head and rank < 2):
            return f"the lines before the blocks come in the order {', '.join(HEADS)}, flags and frame once"
        return None

    def content(self, line):
        """What is wrong with a line's fields."""
        name, *found = line.split(" ")
        if self.place == "functions":
            return self.fields.parts(line, found, [("name", "NAME")] if name == "function" else [], "function uN")
        if self.place == "blocks":
            return self.plan_content(name, found)
        if name == "flags":
            return self.flags(found)
        wanted, form = self.page.fields.get(name, []), self.page.forms.get(name, name)
        if len(found) != len(wanted):
            return f"{name} has {len(wanted)} fields, and {len(found)} stand here: {form}"
        for (field, kind), text in zip(wanted, found):
            if kind == "VALUE":
                kind = "U64" if found[0].startswith("%r") else "V128"
            fault = self.vector(text) if kind == "V128" else self.fields.fault(kind, text)
            if fault:
                return f"field {field}: {fault} ({form})"
        return self.head_content(name, line, found) or f"such a line has the form {form}"

    @staticmethod
    def vector(text):
        """The value of a vector register."""
        return None if re.fullmatch(r"[0-9a-f]{32}", text) else f"{text} isn't 32 lower-case hex digits"

    def flags(self, found):
        """What is wrong with the words of `flags`."""
        wrong = [word for word in found if word not in FACILITIES]
        if wrong:
            return f"{wrong[0]} is no word of flags: {', '.join(FACILITIES)}"
        return f"the words of flags stand in the order {', '.join(FACILITIES)}, one of them at least" if found else "flags without a word isn't written"

    def head_content(self, name, line, found):
        """Why a line before the blocks can't stand there, though its fields are such."""
        before = self.last.split(" ") if self.last and self.last.split(" ")[0] == name else None
        if name == "frame":
            return "the frame SystemV 0 0 0 0 0 0 - 0 isn't written: it is the one without a line"
        if name == "symbol":
            return before and "the names of symbols rise"
        if name == "reg":
            return "a value of 0 isn't written" if int(found[1], 16) == 0 else before and "registers rise, general ones first"
        if name == "mem":
            if found[1] == "-":
                return "a region has a byte at least"
            if int(found[0]) + len(found[1]) // 2 > 2**64:
                return "a region ends at 2^64 at most"
            return before and "regions rise, and none reaches into the next"
        return None

    def plan_content(self, name, found):
        """What is wrong with a line of a plan."""
        forms = {"block": 0, "close": 0, "step": 1, "move": 2, "entry": 1}
        if len(found) != forms[name]:
            return "the lines are `block`, `entry PLACE=REG`, `move TO FROM`, `step [R,R]` and `close`"
        places = found if name == "move" else [found[0].partition("=")[0]] if name == "entry" else []
        for place in places:
            slot = place.startswith("s")
            if fault := number_fault(place[1:], 0, 65535) if slot else self.fields.real(place):
                return f"{place} is no place, a real register or s0 to s65535: {fault}"
        if name == "entry":
            return self.fields.reg(found[0].partition("=")[2]) or "pairs stand before the edits of their block"
        return (name == "step" and self.fields.items(found[0], self.fields.reg)) or "a line `block` comes first"


class Job:
    """A job's lines, and where its instructions stand."""

    def __init__(self, lines, first=0, end=None):
        self.lines, self.at = lines[first:end], []
        self.first, block, path, in_block = first, -1, [0], False
        for number, line in enumerate(self.lines):
            name = line.split(" ")[0]
            if name == "block":
                block, path, in_block = block + 1, [0], True
            elif name == "endloop":
                path.pop()
                path[-1] += 1
            elif name == "end":
                break
            elif in_block:
                self.at.append((number, block, ".".join(map(str, path))))
                if name == "Loop":
                    path.append(0)
                else:
                    path[-1] += 1

    def cut(self, count):
        """The job with its first instructions alone."""
        last = self.at[count - 1][0] if count else -1
        kept, depth = [], 0
        for number, line in enumerate(self.lines):
            name = line.split(" ")[0]
            if number > last and name not in HEADS + ["block", "end"]:
                continue
            if number > last and depth:
                kept, depth = kept + ["endloop"] * depth, 0
            depth += (name == "Loop") - (name == "endloop")
            kept.append(line)
        return "\n".join(kept) + "\n"

    def first_refused(self, is_refused):
        """How many instructions the least part has that is refused, where the whole job is."""
        low, high = -1, len(self.at)
        while high - low > 1:
            middle = (low + high) // 2
            low, high = (low, middle) if is_refused(middle) else (middle, high)
        return high

    def line_of(self, block, path):
        """The number of the line of an instruction, counted from 1, or none."""
        return next((number + self.first + 1 for number, b, p in self.at if (b, p) == (block, path)), None)


def place_of(page, name, job, count):
    """What is said of the instruction that is the last of so many."""
    if not count:
        return ["no instruction has it: the frame, a constant, or the count of blocks and constants", reasons.of_job(name, job.lines)]
    number, block, path = job.at[count - 1]
    line = job.lines[number]
    said = f"block {block}, instruction {path} (both counted from 0), line {number + job.first + 1}: {line[:200]}"
    return [said, reasons.of_instruction(page, name, line, job.lines)]


def ask(command, text):
    """The first line that a command writes for an input."""
    done = subprocess.run(command, input=text.encode(), stdout=subprocess.PIPE, stderr=subprocess.DEVNULL)
    return done.stdout.decode(errors="replace").partition("\n")[0]


# What the second program says of a place that is no instruction.
OTHER_PLACES = {
    "start": "no instruction has it: the frame, a constant, or the count of blocks and constants",
    "length": "no instruction has it: the code is too long",
}


def told_place(page, name, job, answer):
    """What the line of the command `refusal` says of the place; none where it has another cause or knows no place."""
    told = re.fullmatch(r"refusal (\w+) (?:block (\d+) (?:inst ([\d.]+)|end)|start|length)", answer)
    if not told or told[1] != name:
        return None
    if told[2] is None:
        return [OTHER_PLACES[told[0].split(" ")[-1]]]
    if told[3] is None:
        return [f"the end of block {told[2]} (counted from 0) has it: arguments are still allocated there"]
    count = next((k + 1 for k, (_, block, path) in enumerate(job.at) if (block, path) == (int(told[2]), told[3])), None)
    return count and place_of(page, name, job, count)


def among(page, name, job, first, last):
    """What is said where one of the instructions from a first to a last, counted from 1, is refused: of the one with a reason, if there is one."""
    def is_reasoned(count):
        return reasons.of_instruction(page, name, job.lines[job.at[count - 1][0]], job.lines)

    if found := next(filter(is_reasoned, range(first, last + 1)), None):
        return place_of(page, name, job, found)
    numbers = [job.at[count - 1][0] + job.first + 1 for count in (first, last)]
    return [f"one of the lines {numbers[0]} to {numbers[1]} has it"] if last - first < len(job.at) - 1 else []


def refused(page, answer, words, lines, judge):
    """Where the program refuses a job."""
    name, job = answer.split(" ")[1], Job(lines)
    second = os.environ.get("REFUSAL")
    if second and words[0] != "operands":
        if said := told_place(page, name, job, ask([second, "refusal"], "\n".join(lines) + "\n")):
            return said
    is_refused, known = judge(job)
    first = job.first_refused(is_refused)
    last = first if known is None else next((count for count in known if count >= first), len(job.at))
    return place_of(page, name, job, first) if first == last else among(page, name, job, max(first, 1), last)


def member(lines, name):
    """Where the job of a function stands: from a line up to another, or none."""
    heads = [k for k, line in enumerate(lines) if line == f"function {name}"]
    ends = [k for k, line in enumerate(lines) if heads and k > heads[0] and line == "end"]
    return (heads[0] + 1, ends[0] + 1) if ends else None


def of_bundle(page, answer, lines, program, emits):
    """Where the function stands that a bundle is refused by, and which instruction it is, by a command that emits a job."""
    parts = answer.split(" ")
    found = member(lines, parts[2]) if len(parts) > 2 else None
    if not found:
        return []
    said = [f"the job of {parts[2]} stands in the lines {found[0] + 1} to {found[1]}"]
    cause = parts[3] if parts[1] == "Emit" else None
    if cause and program:
        job = Job(lines, *found)
        refused_as = f"refused {cause}"
        said += place_of(page, cause, job, job.first_refused(lambda count: ask([program, emits], job.cut(count)) == refused_as))
    return said


def of_plan(answer, lines):
    """The line of a plan, or of its job, that a fault names."""
    parts = answer.split(" ")
    if parts[1] == "Blocks" or "plan" not in lines:
        return []
    block, item = int(parts[2]), int(parts[3])
    if parts[1] in ("Unsupported", "Shape"):
        number = Job(lines).line_of(block, str(item))
    else:
        plan = lines.index("plan")
        heads = [k for k, line in enumerate(lines) if k > plan and line == "block"]
        named = ("entry",) if parts[1] == "Entry" else ("move", "step")
        stop = heads[block + 1] if block + 1 < len(heads) else len(lines)
        at = [k + 1 for k in range(heads[block], stop) if lines[k].split(" ")[0] in named] if block < len(heads) else []
        number = at[item] if item < len(at) else None
    said = [f"that is line {number}: {lines[number - 1][:200]}"] if number else []
    if number and lines[number - 1].startswith("step "):
        # The steps of a block are its instructions, in order.
        before = sum(lines[k - 1].startswith("step ") for k in at[:item])
        if of := Job(lines).line_of(block, str(before)):
            said.append(f"its instruction is line {of}: {lines[of - 1][:200]}; the command `operands` lists what it reports")
    return said


# What a line has to be in an input that is no job.
OTHER_TEXTS = {
    "disassemble": "a line has two hex digits for each byte, and nothing else",
    "assemble": "a line has to be as `disassemble BASE` writes it, with its address and bytes or without both",
}


def syntax(page, answer, words, data):
    """What is wrong in a line."""
    number = int(answer.split(" ")[1])
    text = data.decode(errors="replace")
    lines = text.split("\n")
    unended = lines.pop() != ""
    if unended:
        lines = text.split("\n")
    said = []
    if number <= len(lines):
        shown = lines[number - 1][:200].replace("\r", "^M").replace("\t", "^I")
        said.append(f"line {number}: {shown}")
    if unended and number == len(lines):
        return said + ["no line feed ends it"]
    if words[0] in OTHER_TEXTS:
        return said + [OTHER_TEXTS[words[0]]]
    return said + [Text(page, words[0], lines[:number]).fault(number)]


def explained(answer, path, words, judge, program):
    """What is said of a line that the program wrote. The judge says of a job which parts of it are refused, and of which
    lengths that is known, or none where it is of each."""
    with open(path, "rb") as file:
        data = file.read()
    page = Page()
    if answer.startswith("syntax "):
        return syntax(page, answer, words, data)
    lines = data.decode(errors="replace").rstrip("\n").split("\n")
    if answer.startswith("plan "):
        return of_plan(answer, lines)
    if answer.startswith("bundle "):
        return of_bundle(page, answer, lines, program, "object" if words[0] == "objects" else "emit")
    if answer == "link UndefinedSymbol":
        return [reasons.undefined_symbol(lines)]
    if answer.startswith("refusal "):
        return told_place(page, answer.split(" ")[1], Job(lines), answer) or []
    if answer.startswith("refused "):
        return refused(page, answer, words, lines, judge)
    return []


def answered(answer, path, program, *words):
    """What is said by the program itself, of parts of the input."""
    return explained(answer, path, words, lambda job: (lambda count: ask([program, *words], job.cut(count)) == answer, None), program)


def parts_of(job):
    """How many instructions each part has that is tried."""
    count = len(job.at)
    return sorted({count * k // MOST_PARTS for k in range(MOST_PARTS + 1)} if count > MOST_PARTS else range(count + 1))


def write_parts(path, folder, name, *words):
    """Writes parts of an input as cases, so that one build answers them all."""
    if not words or words[0] not in ("image", "emit", "run", "operands", "show", "list", "object"):
        return
    if os.path.getsize(path) > MOST_BYTES:
        return
    with open(path, "rb") as file:
        job = Job(file.read().decode(errors="replace").rstrip("\n").split("\n"))
    for count in parts_of(job):
        at = os.path.join(folder, f"{name}.{count:09}")
        with open(at, "w", encoding="utf-8") as file:
            file.write(job.cut(count))
        with open(f"{at}.args", "w", encoding="utf-8") as file:
            file.writelines(f"{word}\n" for word in words)


def tried(answer, path, output, name, *words):
    """What is said by the answers of an unproved build to parts of the input."""
    with open(output, encoding="utf-8", errors="replace") as file:
        answers = dict(re.findall(rf"^== {re.escape(name)}\.(\d{{9}})\n(.*)$", file.read(), re.M))

    def judge(job):
        known = sorted(int(count) for count in answers)
        return lambda count: answers.get(f"{next((k for k in known if k >= count), len(job.at)):09}", answer) == answer, known

    return explained(answer, path, words, judge, None)


def main():
    kind, arguments = sys.argv[1], sys.argv[2:]
    if kind == "parts":
        write_parts(*arguments)
        return
    said = {"usage": lambda *words: usage(list(words)), "answer": answered, "tried": tried}[kind](*arguments)
    print("\n".join(line if len(line) <= MOST_SHOWN else f"{line[:MOST_SHOWN]} .." for line in said if line))


if __name__ == "__main__":
    main()
