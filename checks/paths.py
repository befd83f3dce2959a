#!/usr/bin/env python3
"""Says which crates, files, wrong bodies and headings the pages name that aren't there; run by hand, from anywhere: checks/paths.py

A page is a Markdown file of the repository. Looked at are words in backquotes and links:

- `s390x_NAME` is a crate of crates.txt, an exported function, or a name that a program writes.
- A file (`.rt`, `.antt`, `.py`, `.sh` and their like) stands at that path from the top, in `crates/`, in the page's crate, or in a crate that its line names.
- `CRATE/WORD` is a folder or file of a crate, or one of its wrong bodies.
- A link's file is there, and has the heading.
- Each wrong body, in the gate or in `checks/wrong_bodies`, still fits its crate: the text that it changes stands once in its file.

Words in capitals stand for others, and files of "the kit's" aren't looked for. It ends with 0 where nothing is missing, and else with 1.
"""
import os
import pathlib
import re
import subprocess
import sys

TOP = pathlib.Path(__file__).resolve().parent.parent
FILE = re.compile(r"[\w./-]+\.(?:rt|antt|py|sh|mjs|tsv|html|edit)")


def tracked():
    """The repository's files, and the folders in which they stand."""
    files = subprocess.run(["git", "ls-files"], cwd=TOP, stdout=subprocess.PIPE, text=True, check=True).stdout.split("\n")[:-1]
    return set(files), {str(folder) for file in files for folder in pathlib.PurePath(file).parents}


FILES, FOLDERS = tracked()
CRATES = {line.split(":")[0].split()[0] for line in (TOP / "crates.txt").read_text().splitlines() if ":" in line}
EXPORTED = set(re.findall(r"\bs390x_\w+", "".join((TOP / file).read_text() for file in FILES if file.endswith(".h"))))
EXPORTED |= {
    name
    for file in FILES
    if file.endswith(".rt") and "/src/" in file
    for name in re.findall(r'(?:extern "C" fn |")(s390x_\w+)', (TOP / file).read_text())
}


def is_placeholder(path):
    """Whether a part of a path stands for any word."""
    return any(part.split(".")[0].isupper() for part in path.split("/"))


def stands(path, crates):
    """Whether a path is that of a file or a folder, from the top, in `crates/`, or in one of these crates."""
    path = path.rstrip("/")
    places = [path, f"crates/{path}"] + [f"crates/{crate}/{path}" for crate in crates]
    if any(place in FILES or place in FOLDERS for place in places):
        return True
    roots = [f"crates/{crate}/" for crate in crates] or [""]
    return any(file.startswith(root) and file.endswith("/" + path) for root in roots for file in FILES)


def is_wrong_body(crate, name):
    return f"crates/{crate}/must-fail/{name}.edit" in FILES or f"checks/wrong_bodies/{crate}/{name}.edit" in FILES


def lacks(word, line, page):
    """Whether what a word in backquotes names isn't there."""
    crate = re.match(r"(s390x_\w+)(?:/(.+))?$", word)
    if crate and crate[1] not in CRATES:
        return crate[1] not in EXPORTED
    if is_placeholder(word) or f"the kit's `{word}`" in line:
        return False
    if crate and crate[2]:
        return not stands(word, []) and not is_wrong_body(crate[1], crate[2])
    if not FILE.fullmatch(word):
        return False
    named = set(re.findall(r"\bs390x_\w+", line) + page.split("/")[1:2]) & CRATES
    return not stands(word, named) and not ("/" not in word and stands(word, []) and not named)


def heading(text):
    """A heading as a link names it."""
    return re.sub(r"[^\w\- ]", "", text.lower()).strip().replace(" ", "-")


def broken(target, page):
    """Whether a link leads nowhere."""
    if "://" in target:
        return False
    path, _, anchor = target.partition("#")
    file = os.path.normpath(os.path.join(os.path.dirname(page), path)) if path else page
    if not (TOP / file).exists():
        return True
    return bool(anchor) and anchor not in map(heading, re.findall(r"^#+ (.*)$", (TOP / file).read_text(), re.M))


def unfit(edit):
    """Which text of a wrong body doesn't stand once in its file, or none; further pairs change what the earlier ones made."""
    crate = edit.split("/")[2] if edit.startswith("checks/") else edit.split("/")[1]
    sources, file, old = {}, "", ""
    for line in (TOP / edit).read_text().splitlines():
        key, _, text = line.partition(": ")
        if key == "file":
            file = f"crates/{crate}/{text.strip()}"
            if file not in FILES:
                return text
            sources.setdefault(file, (TOP / file).read_text())
        elif key.rstrip(":") == "old":
            old = text
            if sources[file].count(old) != 1:
                return old
        elif key.rstrip(":") == "new":
            sources[file] = sources[file].replace(old, text)
    return None


def main():
    edits = sorted(file for file in FILES if file.endswith(".edit"))
    missing = [f"{edit}: {text}" for edit, text in ((edit, unfit(edit)) for edit in edits) if text is not None]
    count = len(edits)
    for page in sorted(file for file in FILES if file.endswith(".md")):
        for number, line in enumerate((TOP / page).read_text().split("\n"), 1):
            found = [(word, lacks(word, line, page)) for word in re.findall(r"`([^`]+)`", line)]
            found += [(target, broken(target, page)) for target in re.findall(r"\]\(([^)\s]+)\)", line)]
            count += len(found)
            missing += [f"{page}:{number}: {word}" for word, is_lacking in found if is_lacking]
    for line in missing:
        print("MISSING", line)
    print(f"{count} words, links and wrong bodies, {len(missing)} missing")
    return 1 if missing else 0


if __name__ == "__main__":
    sys.exit(main())
