#!/usr/bin/env python3
"""shape_lines.py NAME..: how many lines of the crates go with a variant or an operator, by code, definitions and proofs.

Those that name it, but in comments; with each the rest of its clause or arm: what stands further right behind it, and the bracket that closes it. An import,
and a line with several names, count as one. A lemma goes whole where its type names it. What nothing else uses then isn't counted. Crates that don't stand
on `s390x_inst` name no instruction: what has the same name there is another type's."""
import collections, pathlib, re, sys

ROOT = pathlib.Path(__file__).resolve().parent.parent / "crates"
LINES = [line.replace(":", " ").split() for line in (ROOT.parent / "crates.txt").read_text().splitlines()]
CRATES = {words[0] for words in LINES if "s390x_inst" in words}
FILES = {p: p.read_text() for name in sorted(CRATES) for p in sorted((ROOT / name).rglob("*")) if p.suffix in (".rt", ".antt") and "out" not in p.parts}


def depth(line):
    return len(line) - len(line.lstrip()) if line.strip() else -1


def rest(lines, at):
    """The numbers of a line and of what goes with it."""
    first, end, above = lines[at].strip(), at + 1, at
    several = len(re.findall(r"Inst::\w", first.split("=>")[0])) > 1 or re.match(r"\w+(\(\w+\))?, \w", first)
    if first.startswith(("|", "use ")) or several or lines[end].strip().startswith("| "):
        return {at}
    while depth(lines[end]) > depth(lines[at]) or depth(lines[end]) == depth(lines[at]) and lines[end].strip()[0] in ")}]":
        end += 1
    while first.endswith((",", "{")) and lines[above - 1].strip().startswith("///"):
        above -= 1
    return set(range(above, end))


for name in sys.argv[1:]:
    word, totals, named = re.compile(rf"\b{name}\b(?!')"), collections.Counter(), 0
    for path, text in ((p, t) for p, t in FILES.items() if name in t):
        lines, gone = text.split("\n"), set()
        for at, line in enumerate(lines):
            if word.search(line) and not line.strip().startswith(("//", "--")):
                gone, named = gone | rest(lines, at), named + 1
                if lemma := re.match(r"(?:pub )?([\w'-]+) : ", line):
                    gone |= set().union(*(rest(lines, n) for n, l in enumerate(lines) if l.startswith(lemma[1] + " ")))
        totals["code" if path.suffix == ".rt" else "definitions" if "specs" in path.parts else "proofs"] += len(gone)
    print(name, f"named on {named} lines, {sum(totals.values())} go:", ", ".join(f"{totals[k]} {k}" for k in ("code", "definitions", "proofs")))
