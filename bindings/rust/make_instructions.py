#!/usr/bin/env python3
"""make_instructions: writes src/instructions.rs, the enum of instructions and those of their operators, from the declarations in
crates/s390x_inst. Run it again where an instruction was added."""
import pathlib
import re

HERE = pathlib.Path(__file__).resolve().parent
SOURCE = HERE.parent.parent / "crates" / "s390x_inst" / "src"

# The types of fields here, by those there.
TYPES = {
    "Writable<Reg>": "Reg",
    "WritableRegPair": "RegPair",
    "MachLabel": "Label",
    "SImm20": "i32",
    "UImm16Shifted": "Shifted<u16>",
    "UImm32Shifted": "Shifted<u32>",
    "PReg": "Reg",
    "Vec<MachLabel>": "Vec<Label>",
}

# What stands in a module of its own.
SKIPPED = {"Vector"}


def enums(name):
    """The enums of a file: (docs, name, [(docs, variant, [(docs, field, type)])])."""
    text = (SOURCE / name).read_text()
    for found in re.finditer(r"((?:///[^\n]*\n)*)(?:#\[[^\n]*\]\n)*pub enum (\w+) \{\n(.*?)\n\}\n", text, re.S):
        yield found[1], found[2], list(variants(found[3]))


def variants(body):
    for found in re.finditer(r"((?:    ///[^\n]*\n)*)    (\w+)(?: \{ ([^\n]*) \})?(?:\([^\n]*\))?,(?=\n|$)", body + "\n"):
        yield found[1], found[2], re.findall(r"(\w+): ([^,]+)", found[3] or "")


def operators(out):
    for name in ("ops.rs", "vec_ops.rs"):
        for docs, enum, cases in enums(name.replace(".rs", ".rt")):
            out.append(f"\n{docs}#[allow(missing_docs)]\n#[derive(Clone, Copy, PartialEq, Eq, Debug)]\npub enum {enum} {{\n")
            out.extend(f"    {case},\n" for _, case, _ in cases)
            out.append("}\n\n")
            out.append(f"impl fmt::Display for {enum} {{\n    fn fmt(&self, f: &mut fmt::Formatter<'_>) -> fmt::Result {{\n        fmt::Debug::fmt(self, f)\n    }}\n}}\n")


def instructions(out):
    cases = [case for name, enum in (("inst.rt", "Inst"), ("vec_inst.rt", "VecInst"))
             for _, found, listed in enums(name) if found == enum for case in listed if case[1] not in SKIPPED]
    out.append("""
/// A typed instruction.
///
/// `rd` is written; `ri` is an input that has to be the same register as `rd`; `rn`, `rm` and `ra` are read.
#[allow(missing_docs)]
#[derive(Clone, PartialEq, Debug)]
pub enum Inst {
""")
    for docs, name, fields in cases:
        out.append(docs)
        if name == "Loop":
            fields = [("cond", "Cond"), ("body", "Vec<Inst>")]
        if fields:
            out.append(f"    {name} {{\n" + "".join(f"        {field}: {type_of(name, kind)},\n" for field, kind in fields) + "    },\n")
        else:
            out.append(f"    {name},\n")
    out.append("}\n\n")
    out.append("""impl Inst {
    /// Appends the instruction's line, and those of a loop's members.
    pub(crate) fn put(&self, out: &mut String) -> fmt::Result {
        match self {
""")
    for _, name, fields in cases:
        out.append(arm(name, fields))
    out.append("        }\n    }\n}\n")


def type_of(name, kind):
    if kind == "CallInfo":
        return "Box<CallInfo>"
    if kind.startswith("ReturnCallInfo"):
        return "Box<ReturnCallInfo>"
    return TYPES.get(kind, kind)


def arm(name, fields):
    if name == "Loop":
        return """            Inst::Loop { cond, body } => {
                writeln!(out, "Loop {cond}")?;
                for inst in body {
                    inst.put(out)?;
                }
                writeln!(out, "endloop")
            }
"""
    names = [field for field, _ in fields]
    words = [name]
    for field, kind in fields:
        words.append("{}" if kind.startswith("Vec<") else "{" + field + "}")
    rest = "".join(f", List({field})" for field, kind in fields if kind.startswith("Vec<"))
    pattern = f"Inst::{name} {{ {', '.join(names)} }}" if fields else f"Inst::{name}"
    line = " ".join(words)
    return f"            {pattern} => writeln!(out, \"{line}\"{rest}),\n"


def main():
    out = ["""//! The instructions and their operators. Written by make_instructions.py.

use crate::operands::{
    ArgPair, CallInfo, Cond, Label, List, MemArg, Reg, RegPair, RetPair, ReturnCallInfo, Shifted, SymbolReloc, TrapCode,
};
use std::fmt::{self, Write};
"""]
    operators(out)
    instructions(out)
    (HERE / "src" / "instructions.rs").write_text("".join(out))


if __name__ == "__main__":
    main()
