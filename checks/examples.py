#!/usr/bin/env python3
"""Compares the examples of docs/JOBS.md with examples/, with the cases that the gate runs, and with what GNU objdump shows; run by hand.

    checks/examples.py            prints what differs, and ends with 1 then
    checks/examples.py --write    writes the examples into the page

In crates/s390x_tool_cases/stdin a line `# examples/FILE` stands before a file's case. Without s390x-linux-gnu-objdump (Debian's package
binutils-s390x-linux-gnu) the listings aren't compared.
"""
import pathlib
import re
import shutil
import subprocess
import sys
import tempfile

TOP = pathlib.Path(__file__).resolve().parent.parent
PAGE = TOP / "docs" / "JOBS.md"
BEGIN, END = "<!-- the examples begin -->", "<!-- the examples end -->"
OBJDUMP = shutil.which("s390x-linux-gnu-objdump")
SHOWN = {
    "loop.job": "A loop: adds until the sum is zero.",
    "try_call.job": "A call of a symbol with two results, one of them on the stack, and block 2 as the handler for the tag 7 (`emit` writes the table of handlers).",
    "large_offset.job": "A large offset: the load's needs `%r1`, the store's has room in the row.",
    "jump_table.job": "A jump by a table of words behind the branch, each a block's distance from the table.",
    "vector_add.job": "Four sums of 32 bits.",
    "constant.job": "A constant, which stands behind the code on its boundary.",
    "trap.job": "Traps: a comparison that traps, a trap under a condition, and one that always comes. `emit` writes the table of their codes.",
    "spill.plan": "A plan with a spill: `alloc` writes the job with the plan's registers, with a store into slot 0 and a load from it.",
    "mutual.functions": "Two functions that call each other in place of returning, by `bundle 4096`: each is 1 or 0 for an even or an odd number. `la` takes the frame down, which here is none.",
}


def cases():
    """What the gate runs of each file: the words, the input and the text that is wanted."""
    found = {}
    text = (TOP / "crates" / "s390x_tool_cases" / "stdin").read_text()
    for name, words, given, status, wanted in re.findall(r"^# examples/(\S+)\n> (.*)\n((?:(?!<).*\n)*)< (\d+)\n((?:(?![>*#]).*\n)*)", text, re.M):
        if status == "0":
            found[name] = (words, given, wanted)
    return found


def objdump(code, at):
    """The code as objdump shows it, at an address."""
    with tempfile.NamedTemporaryFile() as file:
        file.write(code)
        file.flush()
        command = [OBJDUMP, "-b", "binary", "-m", "s390:64-bit", "-D", "-z", f"--adjust-vma={at}", file.name]
        shown = subprocess.run(command, stdout=subprocess.PIPE, check=True).stdout.decode()
    return [re.sub(r"\s+$", "", line.replace("\t", "  ")) for line in shown.splitlines() if re.match(r" +[0-9a-f]+:\t", line)]


def listing(code, is_bundle):
    """The code as objdump shows it, at 4096; of a bundle each function from its start, which zeros before it would hide."""
    lines, first = [], 0
    while True:
        shown = objdump(code[first:], 4096 + first)
        zeros = next((k for k, line in enumerate(shown) if is_bundle and re.match(r" *[0-9a-f]+: +00 00 .*\.long", line)), None)
        if zeros is None:
            return lines + shown
        at = int(shown[zeros].split(":")[0], 16)
        lines += shown[:zeros] + [f"    {at:x}:  00 00               .short  0x0000"]
        first = at + 2 - 4096


def part():
    """The page's part, and what of it isn't as the files have it."""
    lines, differences, told = [""], [], cases()
    for name, said in SHOWN.items():
        text = (TOP / "examples" / name).read_text()
        if name not in told or told[name][1] != text:
            differences.append(f"examples/{name} isn't the case of crates/s390x_tool_cases/stdin")
            continue
        words, _, wanted = told[name]
        lines += [f"### {name}", "", said, "", f"    ./s390x {words} < examples/{name}", ""]
        lines += ["    " + line for line in text.splitlines()] + [""]
        if re.fullmatch(r"[0-9a-f]+\n", wanted):
            lines += ["```text", *(listing(bytes.fromhex(wanted.strip()), words.startswith("bundle")) if OBJDUMP else ["(no objdump)"]), "```", ""]
        else:
            lines += ["writes", ""] + ["    " + line for line in wanted.splitlines()] + [""]
    return lines, differences


def main():
    lines, differences = part()
    page = PAGE.read_text().splitlines()
    first, last = page.index(BEGIN) + 1, page.index(END)
    if "--write" in sys.argv[1:]:
        PAGE.write_text("\n".join(page[:first] + lines + page[last:]) + "\n")
    elif OBJDUMP and page[first:last] != lines:
        differences.append("docs/JOBS.md shows other examples: checks/examples.py --write")
    print("\n".join(differences or ["no difference"]))
    return 1 if differences else 0


if __name__ == "__main__":
    sys.exit(main())
