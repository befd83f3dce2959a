#!/usr/bin/env python3
"""Compares the objects that the program writes with what two linkers and an assembler make of them.

    checks/objects.sh --try

An engineer runs it by `checks/objects.sh`; it is no part of the gate. Three things are compared:

* the object of a random job, linked by GNU ld at a drawn base with the job's symbols, with what `image` writes for this base;
* the object of several random functions that call each other, with what `bundle` writes;
* an object with that of the assembler for the same bytes and relocations: the file's header, `.text`, the relocations by the names
  of their symbols, the global symbols.

It ends with 0 where all agree, with 1 where some differ, and with 2 where it can't run.
"""
import argparse
import os
import random
import re
import shutil
import subprocess
import sys
import tempfile

import program
from random_jobs import MIDDLE, SYMBOL, RandomJob

TOOLS = "s390x-linux-gnu-"
# The functions of examples/object, each in a file of its name.
EXAMPLE = ["sum_up", "apply_twice", "u3", "spin_add", "checked_load", "chosen"]
BINARY = os.path.join(program.ROOT, "crates", "s390x_binary")


def tool(words, **more):
    """Runs a program of the binary utilities, and gives what it writes; None where it complains."""
    done = subprocess.run([TOOLS + words[0]] + words[1:], stdout=subprocess.PIPE, stderr=subprocess.PIPE, **more)
    if done.returncode or done.stderr:
        return None
    return done.stdout


def run_binary(jobs, unproved, folder):
    """What the program s390x_binary writes for each (words, input), as bytes; None where it doesn't end with 0."""
    if not unproved:
        done = [subprocess.run([os.path.join(program.ROOT, "s390x")] + words, input=text.encode(), stdout=subprocess.PIPE) for words, text in jobs]
        return [one.stdout if one.returncode == 0 else None for one in done]
    os.makedirs(folder)
    for i, (words, text) in enumerate(jobs):
        with open(os.path.join(folder, f"{i:06}"), "w") as file:
            file.write(text)
        with open(os.path.join(folder, f"{i:06}.args"), "w") as file:
            file.write("".join(word + "\n" for word in words))
    rt = os.environ.get("RT") or shutil.which("rt") or "/opt/rattle/bin/rt"
    done = subprocess.run([rt, "try", "--cases", folder], cwd=BINARY, stdout=subprocess.PIPE, stderr=subprocess.STDOUT)
    found = {int(name): (int(status), body) for name, body, status in
             re.findall(rb"^== (\d{6})\n(.*?)\n?case=\1 run=ended status=(\d+)", done.stdout, re.M | re.S)}
    if len(found) != len(jobs):
        raise SystemExit(f"the unproved build answered {len(found)} of {len(jobs)} jobs:\n" + done.stdout[-2000:].decode(errors="replace"))
    return [found[i][1] if found[i][0] == 0 else None for i in range(len(jobs))]


def run_first(jobs, unproved, folder):
    """What the program s390x writes for each (words, input), and its statuses."""
    if not unproved:
        return program.run_proved(jobs)
    os.makedirs(folder)
    return program.run_unproved(jobs, folder)


def linked(folder, name, base, symbols):
    """The text of an object that GNU ld links at a base, or why there is none."""
    words = [TOOLS + "ld", "-e", "0", f"-Ttext={base:#x}", "-o", os.path.join(folder, "out"), os.path.join(folder, name)]
    words += [f"--defsym={symbol}={address:#x}" for symbol, address in symbols.items()]
    done = subprocess.run(words, stdout=subprocess.PIPE, stderr=subprocess.PIPE, text=True)
    if done.returncode:
        return None, done.stderr
    subprocess.run([TOOLS + "objcopy", "-O", "binary", "-j", ".text", os.path.join(folder, "out"), os.path.join(folder, "text")], check=True)
    with open(os.path.join(folder, "text"), "rb") as file:
        return file.read(), ""


def symbols_of(text):
    """The addresses that a job's lines give."""
    return {name: int(address) for name, address in re.findall(r"^symbol (u\d+) (\d+)$", text, re.M)}


def drawn_base(rng):
    return rng.randrange(0x10000, SYMBOL + 0x80000000) & ~0xfff


class Bundle:
    """Functions that call each other by name, of random jobs."""

    def __init__(self, rng):
        self.names = [f"u{11 + i}" for i in range(rng.randrange(2, 6))]
        lines = []
        for name in self.names:
            lines.append(f"function {name}")
            for line in RandomJob(rng).code_text.splitlines():
                lines.append(line)
                if line == "block":
                    lines += self.uses(rng)
        self.text = "\n".join(lines + ["close", ""])

    def uses(self, rng):
        other = rng.choice(self.names)
        return rng.choice([
            [],
            [f"Call %r14 {other} [] [] [] 0 SystemV SystemV - false -"],
            [f"LoadSymbolReloc %r5 Absolute({other},{rng.randrange(-64, 64)})"],
            [f"LoadAddr %r6 Symbol({other},{2 * rng.randrange(-64, 64)},a)"],
        ])


def read_object(path):
    """What readelf tells of an object: the header without places and counts, relocations of the text and global symbols by name."""
    header = tool(["readelf", "-Wh", path]).decode()
    wanted = ["Magic", "Class", "Data", "Version", "OS/ABI", "ABI Version", "Type", "Machine", "Entry point address", "Flags", "Size of this header",
              "Size of section headers"]
    head = [line.strip() for line in header.splitlines() if line.split(":")[0].strip() in wanted]
    tables = re.split(r"^(?=Relocation section )", tool(["readelf", "-Wr", path]).decode(), flags=re.M)
    of_text = "".join(table for table in tables if table.startswith("Relocation section '.rela.text'"))
    relocations = [(int(offset, 16), kind, name, sign + addend) for offset, kind, name, sign, addend in
                   re.findall(r"^([0-9a-f]{16})\s+[0-9a-f]{16}\s+(R_390_\w+)\s+[0-9a-f]{16}\s+(\S+) ([+-]) ([0-9a-f]+)$", of_text, re.M)]
    symbols = set()
    for line in tool(["readelf", "-Ws", path]).decode().splitlines():
        words = line.split()
        if len(words) == 8 and words[4] == "GLOBAL":
            place = words[6] if words[6] == "UND" else "defined"
            symbols.add((words[7], words[1], words[2], words[3], words[5], place))
    text = tool(["objcopy", "-O", "binary", "-j", ".text", path, "/dev/stdout"])
    return head, relocations, symbols, text


def assembled(folder, name, emitted):
    """The assembler's object of a function's bytes and relocations, from the lines of `emit`."""
    code, lines, align = "", [], 4
    for line in emitted.splitlines():
        words = line.split(" ")
        if words[0] == "code":
            code = words[1]
        elif words[0] == "align":
            align = int(words[1])
        elif words[0] == "reloc":
            kind = {"PCRel32Dbl": "R_390_PC32DBL", "PLTRel32Dbl": "R_390_PLT32DBL", "Abs8": "R_390_64"}[words[2]]
            lines.append(f" .reloc {name}+{words[1]}, {kind}, {words[3]}{int(words[4]):+}")
    text = [" .text", f" .balign {align}", f" .globl {name}", f" .type {name},@function", f"{name}:"]
    text += [f" .byte {', '.join(str(b) for b in bytes.fromhex(code)[i:i + 16])}" for i in range(0, len(code) // 2, 16)]
    text += lines + [f" .size {name}, .-{name}", ' .section .note.GNU-stack,"",@progbits', ""]
    path = os.path.join(folder, "as.o")
    if tool(["as", "-o", path, "-"], input="\n".join(text).encode()) is None:
        raise SystemExit("the assembler refuses what `emit` wrote for " + name)
    return path


def compare_with_assembler(folder, jobs, objects, emitted):
    wrong = 0
    for i, (status, body) in enumerate(emitted):
        if status or objects[i] is None:
            continue
        path = os.path.join(folder, "ours.o")
        with open(path, "wb") as file:
            file.write(objects[i])
        ours, theirs = read_object(path), read_object(assembled(folder, f"f{i}", body))
        *others, text = theirs
        # The assembler fills its section up to a multiple of the alignment, by NOPR.
        filling = text[len(ours[3]):]
        if len(filling) < 16 and not filling.strip(b"\x07"):
            theirs = (*others, text[: len(ours[3])])
        for what, a, b in zip(("header", "relocations", "global symbols", "text"), ours, theirs):
            if a != b:
                wrong += 1
                print(f"job {i}: {what} differ\n  ours {a}\n  as   {b}\n{jobs[i]}")
    return wrong


def compare_linked(folder, kind, texts, bases, objects, images):
    """Links each object, and compares its text with the image."""
    agreed = wrong = refused = 0
    for i, text in enumerate(texts):
        status, body = images[i]
        if objects[i] is None:
            if status == 0:
                wrong += 1
                print(f"{kind} {i}: no object, but an image")
            continue
        path = os.path.join(folder, "one.o")
        with open(path, "wb") as file:
            file.write(objects[i])
        found, complaint = linked(folder, "one.o", bases[i], symbols_of(text))
        if status:
            refused += 1
            if found is not None:
                print(f"{kind} {i}: {body.strip()} here, and GNU ld links it")
        elif found is None or found != bytes.fromhex(body.strip()):
            wrong += 1
            print(f"{kind} {i} at {bases[i]:#x}: GNU ld gives {complaint or found.hex()}\n  the image is {body}")
        else:
            agreed += 1
    print(f"{kind}: {agreed} agree, {refused} without an image, {wrong} differ")
    return wrong


SOURCE = os.path.join(program.ROOT, "examples", "object")


def example_texts():
    """The jobs of examples/object."""
    texts = []
    for name in EXAMPLE:
        with open(os.path.join(SOURCE, name + ".job")) as file:
            texts.append(file.read())
    return texts


def example(folder, objects):
    """Links the functions of examples/object with a main in assembly and with one in C, by two linkers, and runs them on the emulator."""
    paths = []
    for name, body in zip(EXAMPLE, objects):
        if body is None:
            raise SystemExit(f"no object of examples/object/{name}.job")
        paths.append(os.path.join(folder, name + ".o"))
        with open(paths[-1], "wb") as file:
            file.write(body)
        for words in (["objdump", "-dr", paths[-1]], ["readelf", "-a", "-W", paths[-1]]):
            if tool(words) is None:
                raise SystemExit(f"{words[0]} complains of {name}.o")
    mains = {}
    for name in ("main", "start"):
        path = os.path.join(folder, name + ".s.o")
        tool(["as", "-o", path, os.path.join(SOURCE, name + ".s")])
        mains[name] = path
    compilers = {
        "gcc": [TOOLS + "gcc"],
        "clang": ["clang", "--target=s390x-linux-gnu"],
    }
    wrong = 0
    for linker in ([TOOLS + "ld"], [newest_lld(), "-m", "elf64_s390"]):
        wrong += runs(folder, linker, [mains["main"], paths[EXAMPLE.index("apply_twice")]], "main.s")
        for name, words in compilers.items():
            path = os.path.join(folder, name + ".o")
            subprocess.run(words + ["-O2", "-ffreestanding", "-fno-pic", "-c", "-o", path, os.path.join(SOURCE, "main.c")], check=True)
            wrong += runs(folder, linker, [mains["start"], path] + paths, "main.c by " + name)
    return wrong


def newest_lld():
    """LLVM's linker, which knows s390x from its version 18 on."""
    for name in [f"ld.lld-{version}" for version in range(30, 17, -1)] + ["ld.lld"]:
        if shutil.which(name):
            return name
    raise SystemExit("no ld.lld")


def runs(folder, linker, paths, what):
    """Whether what a linker makes of objects ends with 0 on the emulator, and says nothing wrong."""
    out = os.path.join(folder, "program")
    done = subprocess.run(linker + ["-o", out] + paths, stdout=subprocess.PIPE, stderr=subprocess.STDOUT, text=True)
    if done.returncode:
        print(f"{what}: {linker[0]} can't link it: {done.stdout.strip().splitlines()[-1]}")
        return 1
    ran = subprocess.run(["qemu-s390x", out], stdout=subprocess.PIPE, stderr=subprocess.STDOUT, text=True)
    good = ran.returncode == 0 and "WRONG" not in ran.stdout
    print(f"{what}: linked by {linker[0]}, {'runs' if good else 'runs wrong'}")
    if not good:
        print(ran.stdout)
    return 0 if good else 1


# What the first program refuses at a base, and linkers may take: the words, the job.
REFUSED = {
    "a branch 5 GiB ahead": "symbol u1 5368775680\nblock\nCall %r14 u1 [] [] [] 0 SystemV SystemV - false -\nRet %r14\nend\n",
    "an address with an odd offset": "symbol u1 131072\nblock\nLoadAddr %r2 Symbol(u1,1,u)\nRet %r14\nend\n",
    "a symbol plus an addend above 2^64": "symbol u1 18446744073709551615\nblock\nLoadSymbolReloc %r2 Absolute(u1,8)\nRet %r14\nend\n",
}


# Where they are linked.
REFUSED_BASE = 65536


def show_differences(folder, objects, told):
    """Prints what linkers do with what `image` refuses."""
    base = REFUSED_BASE
    for (what, text), body, (status, line) in zip(REFUSED.items(), objects, told):
        print(f"{what}: here {line.strip() if status else 'linked'}", end="")
        path = os.path.join(folder, "refused.o")
        with open(path, "wb") as file:
            file.write(body or b"")
        for linker in ([TOOLS + "ld"], [newest_lld(), "-m", "elf64_s390"]):
            words = linker + ["-e", "0", f"-Ttext={base:#x}", "-o", os.path.join(folder, "out"), path]
            words += [f"--defsym={symbol}={address:#x}" for symbol, address in symbols_of(text).items()]
            done = subprocess.run(words, stdout=subprocess.PIPE, stderr=subprocess.PIPE)
            print(f"; {linker[0]} {'refuses' if done.returncode else 'links'} it", end="")
        print()


def taken(answers, *counts):
    """Answers in parts of these counts."""
    parts, start = [], 0
    for count in counts:
        parts.append(answers[start:start + count])
        start += count
    return parts


def compare(options, rng, jobs, bundles):
    """Has each program run once on all that is compared, and compares it."""
    bases = [drawn_base(rng) for _ in jobs]
    bundle_bases = [drawn_base(rng) for _ in bundles]
    refused = list(REFUSED.values())
    with tempfile.TemporaryDirectory() as folder:
        objects = [(["object", name], text) for name, text in zip(EXAMPLE, example_texts())]
        objects += [(["object", "f"], text) for text in refused]
        objects += [(["object", f"f{i}"], text) for i, text in enumerate(jobs)]
        objects += [(["objects"], text) for text in bundles]
        examples, refused_objects, job_objects, bundle_objects = taken(
            run_binary(objects, options.unproved, os.path.join(folder, "objects")), len(EXAMPLE), len(refused), len(jobs), len(bundles))
        images = [(["image", str(REFUSED_BASE)], text) for text in refused]
        images += [(["image", str(base)], text) for base, text in zip(bases, jobs)]
        images += [(["emit"], text) for text in jobs]
        images += [(["bundle", str(base)], text) for base, text in zip(bundle_bases, bundles)]
        refused_told, job_images, emitted, bundle_images = taken(
            run_first(images, options.unproved, os.path.join(folder, "images")), len(refused), len(jobs), len(jobs), len(bundles))
        wrong = example(folder, examples)
        show_differences(folder, refused_objects, refused_told)
        wrong += compare_linked(folder, "jobs", jobs, bases, job_objects, job_images)
        wrong += compare_with_assembler(folder, jobs, job_objects, emitted)
        if bundles and not any(bundle_objects):
            print("bundles: not compared, since the program has no command `objects`")
        else:
            wrong += compare_linked(folder, "bundles", bundles, bundle_bases, bundle_objects, bundle_images)
    return 1 if wrong else 0


def main():
    parser = argparse.ArgumentParser(description=__doc__, formatter_class=argparse.RawDescriptionHelpFormatter)
    parser.add_argument("--try", dest="unproved", action="store_true", help="run unproved builds")
    parser.add_argument("--count", type=int, default=500, help="how many jobs")
    parser.add_argument("--bundles", type=int, default=300, help="how many bundles")
    parser.add_argument("--seed", type=int, default=1)
    options = parser.parse_args()
    rng = random.Random(options.seed)
    jobs = [RandomJob(rng).code_text for _ in range(options.count)]
    bundles = [Bundle(rng).text for _ in range(options.bundles)]
    return compare(options, rng, jobs, bundles)


if __name__ == "__main__":
    sys.exit(main())
