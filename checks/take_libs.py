#!/usr/bin/env python3
"""Gives a checkout the libraries that `rt ci` has kept on this machine of the same text, so that `rt check` builds none of them again.

    checks/take_libs.py [DIR]     of the checkout at DIR, or of this one; prints which it gave, had, and lacks

What lacks isn't proved here yet, or its text was changed. It asks the toolchain's `rt` for what it keeps and gives nothing that `rt`
would not: what it gives speeds checks, and counts for no gate. It uses parts of `rt` that have no page, so another kit may break it.
With a kit whose `rt ci` keeps nothing (`rattle-kit-13b`) it says so, gives nothing, and ends with 0.
"""
import importlib.machinery
import importlib.util
import os
import shutil
import sys


def toolchain():
    """The command `rt` as a module."""
    path = os.environ.get("RT") or shutil.which("rt") or "/opt/rattle/bin/rt"
    script = open(path, errors="replace").read(200)
    if "python" not in script.splitlines()[0]:
        path = "/opt/rattle/bin/rt"
    loader = importlib.machinery.SourceFileLoader("rt", os.path.realpath(path))
    module = importlib.util.module_from_spec(importlib.util.spec_from_loader("rt", loader))
    arguments, sys.argv = sys.argv, ["rt"]
    sys.path.insert(0, os.path.dirname(os.path.realpath(path)))
    loader.exec_module(module)
    sys.argv = arguments
    return module


def take(rt, kept, crate):
    """Whether the checkout has a crate's library now, and whether it had it before; none where it isn't kept."""
    key, folder = kept.key(crate), f"{crate.folder}/out/rlib"
    mine = f"{folder}/kept-key"
    if crate.is_built() and rt.rtlib.text_of(mine) == key:
        return True
    if not os.path.isdir(kept.place(crate, False, key)):
        return None
    shutil.rmtree(folder, ignore_errors=True)
    os.makedirs(folder)
    if not kept.give(crate, False, key):
        return None
    with open(f"{folder}/stamp", "w") as file:
        file.write(crate.stamp())
    with open(mine, "w") as file:
        file.write(key)
    return False


def main():
    os.chdir(os.path.abspath(sys.argv[1] if len(sys.argv) > 1 else "."))
    rt = toolchain()
    if not hasattr(rt, "Kept"):
        print("given: nothing, since this toolchain's rt ci keeps nothing of earlier runs")
        return
    rt.Crate.allowed = rt.handles_of(os.getcwd())
    crates = rt.crates_of(os.getcwd())
    kept = rt.Kept(crates)
    found = {"given": [], "had": [], "lacking": []}
    for crate in crates:
        if crate.is_program or getattr(crate, "is_static", False):
            continue
        lacks = any(below.name in found["lacking"] for below in crate.below())
        had = None if lacks else take(rt, kept, crate)
        found["lacking" if had is None else "had" if had else "given"].append(crate.name)
        if had is not None:
            kept.is_built(crate)
    for word, names in found.items():
        print(f"{word}:", *names)


if __name__ == "__main__":
    main()
