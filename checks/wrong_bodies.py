#!/usr/bin/env python3
"""Tries the wrong bodies of `checks/wrong_bodies`, which the prover has to refuse, and which the gate doesn't try since each costs it a check; run by
hand, from anywhere: checks/wrong_bodies.py [CRATE..]. With no name it tries those of every crate.

Prints a line each: `refused`; `refused only by a name`, where a proof names what the change took away, and `refused only by a limit`, where the search
gave up, so that either says little of the contract; `not refused`; `bad edit`, which can't be applied or read; `not tried`. Ends with 0 where each is
`refused`, else with 1.

Costs, for each crate, a check of it (seconds to minutes, as the list of costs in docs/BENCHMARKS.md says), 6 to 40 seconds for each of its bodies, and
the proofs of the crates below where the checkout hasn't built them.
"""
import os
import pathlib
import re
import shutil
import subprocess
import sys
import tempfile

ROOT = pathlib.Path(__file__).resolve().parent.parent
EDITS = ROOT / "checks" / "wrong_bodies"
LINE = re.compile(r"^(?:rt: )?must-fail (\S+)/(\S+)\.edit: (.*)$")

# How the answer to a body begins, and how it is written here. The first that fits counts.
ANSWERS = [
    ("refused, as it must be (only because a proof file names", "refused only by a name"),
    ("refused, as it must be (only by a limit", "refused only by a limit"),
    ("refused, as it must be", "refused"),
    ("NOT REFUSED", "not refused"),
    ("BAD EDIT", "bad edit"),
]


def answer(text):
    """How an answer of `rt must-fail` is written here."""
    return next((word for start, word in ANSWERS if text.startswith(start)), "not tried")


def link(one, other):
    """Gives a library's file a second name, as rt itself does, which never writes into such a file; where it can't, a copy."""
    try:
        os.link(one, other)
    except OSError:
        shutil.copy2(one, other)


def copy_crates(copy, names):
    """The crates with what the checkout has built of them; those of the names with the wrong bodies in place of the gate's."""
    for name in ("crates.txt", "HANDLES"):
        shutil.copy2(ROOT / name, copy / name)
    shutil.copytree(ROOT / "crates", copy / "crates", ignore=shutil.ignore_patterns("out", "must-fail"))
    for built in (ROOT / "crates").glob("*/out/rlib"):
        shutil.copytree(built, copy / built.relative_to(ROOT), copy_function=link)
    for name in names:
        shutil.copytree(EDITS / name, copy / "crates" / name / "must-fail")
        begun = ROOT / "crates" / name / "out" / "incremental"
        if begun.is_dir():
            shutil.copytree(begun, copy / begun.relative_to(ROOT))


def tried(copy, name):
    """Tries the bodies of a crate, prints their lines, and answers whether each was refused."""
    rt = os.environ.get("RT") or shutil.which("rt") or "/opt/rattle/bin/rt"
    ran = subprocess.run([rt, "must-fail", name], cwd=copy, stdout=subprocess.PIPE, stderr=subprocess.STDOUT, text=True, check=False)
    told = {found[2]: answer(found[3]) for found in map(LINE.match, ran.stdout.splitlines()) if found}
    bodies = sorted(path.stem for path in (EDITS / name).glob("*.edit"))
    for body in bodies:
        print(f"{name}/{body}: {told.get(body, 'not tried')}", flush=True)
    if any(body not in told for body in bodies):
        print(ran.stdout[-2000:], file=sys.stderr)
    return all(told.get(body) == "refused" for body in bodies)


def main():
    known = sorted(folder.name for folder in EDITS.iterdir() if folder.is_dir())
    names = sys.argv[1:] or known
    lacking = [name for name in names if name not in known]
    if lacking:
        raise SystemExit(f"no wrong bodies of {' '.join(lacking)}")
    with tempfile.TemporaryDirectory() as folder:
        copy = pathlib.Path(folder)
        copy_crates(copy, names)
        if not all([tried(copy, name) for name in names]):
            sys.exit(1)


if __name__ == "__main__":
    main()
