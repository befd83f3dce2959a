"""Compares the C interface with what is known of the program: each case of `emit`, `image`, `show`, `operands`, `bundle` and `alloc` in
crates/s390x_tool_cases/stdin, and of `refusal` in crates/s390x_text_tests/stdin, whose answers were taken from elsewhere; and random jobs against
the program itself, as it is built, or by an unproved build.

    checks/bindings_cases.py DEMO [--random N] [--try]

DEMO is bindings/c/emit_demo as it was built. Causes, faults and places are compared too, as the demo writes them.
"""
import argparse
import os
import random
import re
import subprocess
import sys
import tempfile

from program import run_unproved
from random_jobs import CODE_BASE, RandomJob

ROOT = os.path.dirname(os.path.dirname(os.path.abspath(__file__)))
CASES = os.path.join(ROOT, "crates", "s390x_tool_cases", "stdin")
BINARY_CASES = os.path.join(ROOT, "crates", "s390x_text_tests", "stdin")

# The first part of them is wrong on purpose, up to this line.
BEGIN = "# Words that are no command."
PROGRAM = os.path.join(ROOT, "crates", "s390x", "out", "s390x")

# The statuses that the C interface has too.
STATUSES = {0, 3, 4, 5, 8, 9, 11, 12}

# The demo's words for a command.
WORDS = {"emit": [], "image": [], "show": ["show"], "operands": ["operands"], "bundle": ["bundle"], "alloc": ["plan"], "refusal": []}

EMIT_CAUSES = "MissingFacility BadOperator BadRegister ScratchConflict OffsetOutOfRange BreakOutsideLoop BadStackState UnboundLabel BadAlignment LabelOutOfRange".split()
LINK_CAUSES = "MisalignedBase ImageTooHigh UndefinedSymbol AddressOverflow OddSymbol TooFar".split()
OPERAND_CAUSES = "ReuseInLoop NotReal".split()
BUNDLE_CAUSES = "DuplicateName EmptyMember TooLong AddressTooHigh".split()
FAULTS = "Blocks Unsupported Shape Order Operands Count Constraint Move Value Entry".split()


def cases(lines):
    """The cases of a text: their words, none where reads or writes fail or the last line has no line feed; their input, status and answer."""
    case, head, faulty = None, [], False
    for line in lines:
        if (line[:1] in ("#", ">", "*", "!") or (line[:2] in ("+ ", "- ") and case and case[2] is not None)) and case:
            yield case
            case = None
        if line.startswith("!"):
            faulty = True
        if line[:1] in ("#", "!", "+", "-") and case is None:
            continue
        if line.startswith(">"):
            case, head, faulty = [[] if faulty else line[1:].split(), [], None, []], [], False
        elif line.startswith("*"):
            head = [line[2:]] if line[2:] else []
        elif case is None:
            yield row(head, line)
        elif line[:2] in ("< ", "| "):
            case[0] = case[0] if line[0] == "<" else []
            case[2] = int(line[2:].split(" ")[0])
        elif case[2] is None:
            case[1].append(line)
        else:
            case[3].append(line)
    if case:
        yield case


def row(head, line):
    """The case of a row: an instruction, and its code or its refusal."""
    inst, wanted = line.split(" # ")[0].split(" = ")
    given = head + ["block", inst, "end"]
    return [["image", "4096"], given, 4, []] if wanted.startswith("refused") else [["image", "4096"], given, 0, [wanted.strip()]]


def entries(answer):
    """The demo's lines for the lines of `operands`."""
    lines, block, inst = [], -1, 0
    for line in answer:
        if line.startswith("block "):
            block, inst = int(line[6:]), 0
            continue
        for item in [] if line == "none" else re.split(r", (?![^\[]*\])", line):
            lost = item[9:-1] if item.startswith("clobber ") else None
            parts = [item] if lost is None else [f"clobber {reg}" for reg in lost.split(",") if reg]
            lines += [f"{block} {inst} {part}" for part in parts]
        inst += 1
    return lines


def number(causes, name):
    return causes.index(name) + 1


def wanted(words, status, answer):
    """What the demo has to end with and to write: its status, its lines, and the beginning of what it says."""
    command, line = words[0], answer[0].split(" ") if answer else [""]
    if status == 3:
        return 3, [], f"syntax {line[1]}"
    if command == "alloc" and status == 11:
        fault, numbers = line[1], line[2:]
        cause = number(OPERAND_CAUSES, numbers.pop()) if fault == "Operands" else 0
        numbers += ["0"] * (3 - len(numbers))
        return 11, [], f"fault {number(FAULTS, fault)} {' '.join(numbers)} {cause}\n"
    if command == "bundle" and status == 12:
        member = line[2][1:]
        if line[1] == "Emit":
            return 4, [], f"cause {number(EMIT_CAUSES, line[3])} member {member}\n"
        if line[1] == "Link":
            return 5, [], f"cause {number(LINK_CAUSES, line[3])} member {member}\n"
        return 12, [], f"cause {number(BUNDLE_CAUSES, line[1])} member {member}\n"
    if command == "refusal" and status == 4:
        return 4, [], f"cause {number(EMIT_CAUSES, line[1])} member 0 {' '.join(line[2:])}\n"
    if status == 4 and answer:
        return 4, [], f"cause {number(OPERAND_CAUSES if command == 'operands' else EMIT_CAUSES, line[1])} member 0 "
    if status == 5 and answer:
        return 5, [], f"cause {number(LINK_CAUSES, line[1])} member 0\n"
    if command in ("alloc", "refusal"):
        return status, None, ""
    return status, entries(answer) if command == "operands" and status == 0 else answer, ""


def run(command, text):
    done = subprocess.run(command, input=text, capture_output=True, text=True)
    return done.returncode, done.stdout, done.stderr


def differs(demo, words, given, status, answer):
    """What the demo answered, where it isn't what it has to."""
    ends, lines, said = wanted(words, status, answer)
    told, out, err = run([demo] + WORDS[words[0]] + words[1:], given)
    same = told == ends and err.startswith(said) and (status != 0 or lines is None or out.split("\n")[:-1] == lines)
    return None if same else (words, given, (ends, lines, said), (told, out, err))


def known(demo):
    """How many cases of each command were compared, and those that differ."""
    counts, wrong = {}, []
    for file in (CASES, BINARY_CASES):
        with open(file) as text:
            for words, given, status, answer in cases(text.read().partition(BEGIN)[2].split("\n")[1:-1]):
                if words[:1] == [] or words[0] not in WORDS or status not in STATUSES:
                    continue
                counts[words[0]] = counts.get(words[0], 0) + 1
                wrong.append(differs(demo, words, "".join(line + "\n" for line in given), status, answer))
    return counts, [case for case in wrong if case]


def drawn(demo, number, unproved):
    """The same of random jobs, against the program."""
    jobs = [
        (words, RandomJob(random.Random(seed)).code_text)
        for seed in range(1, number + 1)
        for words in (["emit"], ["image", str(CODE_BASE)], ["show"], ["operands"])
    ]
    if unproved:
        with tempfile.TemporaryDirectory() as folder:
            answers = run_unproved(jobs, folder)
    else:
        answers = [run([PROGRAM] + words, job)[:2] for words, job in jobs]
    counts, wrong = {}, []
    for (words, job), (status, answer) in zip(jobs, answers):
        counts[words[0]] = counts.get(words[0], 0) + 1
        wrong.append(differs(demo, words, job, status, answer.split("\n")[:-1]))
    return counts, [case for case in wrong if case]


def main():
    parser = argparse.ArgumentParser(description=__doc__.split("\n")[0])
    parser.add_argument("demo")
    parser.add_argument("--random", type=int, default=1000, help="how many random jobs (1000), where the program is built")
    parser.add_argument("--try", dest="unproved", action="store_true", help="random jobs against an unproved build of the program")
    words = parser.parse_args()
    found = [known(words.demo)]
    if words.unproved or os.path.exists(PROGRAM):
        found.append(drawn(words.demo, words.random, words.unproved))
    else:
        print("the program isn't built: no random jobs are compared", file=sys.stderr)
    for counts, wrong in found:
        print(", ".join(f"{count} of {word}" for word, count in sorted(counts.items())), f"compared, {len(wrong)} different")
        for case in wrong[:3]:
            print(*case, sep="\n    ")
    return 1 if any(wrong for _, wrong in found) else 0


if __name__ == "__main__":
    sys.exit(main())
