"""The lists of docs/JOBS.md, as the sources have them; `docs/coverage` compares and writes them."""
import re

BEGIN, END = "<!-- the lists begin -->", "<!-- the lists end -->"
# The word of the page for each kind of field; what is spelled so stands on the page itself.
KINDS = {
    "KReg": "REG", "KReal": "REAL", "KPair": "PAIR", "KMemory": "MEM", "KCond": "MASK", "KTrap": "TRAP", "KBool": "BOOL",
    "KNatural W8": "U8", "KNatural W16": "U16", "KNatural W32": "U32", "KNatural W64": "U64",
    "KInteger S8": "S8", "KInteger S16": "S16", "KInteger S20": "S20", "KInteger S32": "S32",
    "KShifted W16": "PART16", "KShifted W32": "PART32", "KOption W8": "U8?", "KOption W32": "U32?",
    "KLabels": "LABELS", "KArgs": "PAIRS", "KRets": "PAIRS", "KUses": "PAIRS", "KDefs": "RESULTS", "KSet": "REALS",
    "KTarget": "TARGET", "KTry": "TRY", "KReloc": "RELOC", "KName": "NAME", "KBytes": "BYTES", "KStart": "REAL VALUE",
    "KFlags": "FLAGS..", "KConvention": "CONV",
    "KAlu": "ALU", "KCmp": "CMP", "KShift": "SHIFT", "KRxsbg": "RXSBG", "KUnary": "UNARY", "KVecBinary": "VBINARY",
    "KVecUnary": "VUNARY", "KVecShift": "VSHIFT", "KVecCompare": "VCMP", "KVecElementCompare": "VELTCMP",
}
# The words of each kind that has a table of names.
NAMES = [
    ("ALU", "operators", "ALU_NAMES"), ("CMP", "operators", "CMP_NAMES"), ("SHIFT", "operators", "SHIFT_NAMES"),
    ("RXSBG", "operators", "RXSBG_NAMES"), ("UNARY", "operators", "UNARY_NAMES"),
    ("VBINARY", "vector_operators", "VEC_BINARY_NAMES"), ("VUNARY", "vector_operators", "VEC_UNARY_NAMES"),
    ("VSHIFT", "vector_operators", "VEC_SHIFT_NAMES"), ("VCMP", "vector_operators", "VEC_COMPARE_NAMES"),
    ("VELTCMP", "vector_operators", "VEC_ELEMENT_COMPARE_NAMES"),
    ("CONV", "operators", "CONVENTION_NAMES"), ("TYPE", "operators", "TYPE_NAMES"), ("forms of MEM", "memory", "FORM_NAMES"),
]
# The lines of a job that are no instruction, with the names of their fields.
OTHERS = {
    "FlagsLine": "flags", "FrameLine": "convention incoming tail clobbers storage slots outgoing first_saved saved_floats",
    "ConstantLine": "align bytes", "SymbolLine": "name address", "RegisterLine": "register value", "MemoryLine": "address bytes",
    "BlockLine": "", "EndLoopLine": "", "EndLine": "",
}


class JobLists:
    """What the sources say of a job's lines; `coverage` is the module of that name, and `found` its `Coverage`."""

    def __init__(self, coverage, found):
        self.coverage, self.found = coverage, found
        clauses = coverage.definitions("s390x_job_lines/specs/Kinds.antt")
        self.kinds = {}
        for name in ("integer_row", "memory_row", "control_row", "vector_row", "kinds"):
            self.kinds |= {re.findall(r"\w+", patterns)[-1]: re.sub(r"record { kinds = (.*?); .*", r"\1", body) for patterns, body in clauses[name]}
        kinds = dict(clauses["kinds"])
        self.kinds |= dict.fromkeys(found.loads.names, kinds["(N.Load op)"])
        self.kinds |= dict.fromkeys(found.stores.names, kinds["(N.Store op)"])
        self.kinds |= dict.fromkeys(found.wholes.told, kinds["(N.Whole direction layout)"])
        self.said = {}
        for path in ("inst", "vec_inst"):
            source = coverage.text(f"s390x_inst/src/{path}.rt")
            self.said |= {name: said for said, name in re.findall(r"    /// (.+)\n    (\w+)", source)}

    def words(self, name):
        """The words of the page for the kinds of a line's fields, in order."""
        kinds = [kind.strip(" ()") for kind in self.kinds[name].split("∷")]
        return " ".join(KINDS[kind] for kind in kinds if kind != "[]").split()

    def form(self, name, fields):
        """A line's form: its word, and each field with its kind."""
        spelled = self.found.names[name] if name in self.found.names else name
        kinds = self.words(name)
        if len(kinds) != len(fields):
            raise self.coverage.Unreadable(f"{name} has {len(kinds)} kinds, and {len(fields)} fields")
        return "`" + " ".join([spelled] + [f"{field}:{kind}" for field, kind in zip(fields, kinds)]) + "`"

    def operators(self, name, declared):
        """The operators at which an instruction has a row, where it hasn't one at all of them."""
        operators = self.found.operators(declared)
        body, defined = self.found.rows.body(name)
        having = [operator for operator in operators if self.found.rows.opcodes(body, operator, defined)]
        return ", ".join(having) if len(having) < len(operators) else ""

    def row(self, name, declared, vector):
        """The row of an instruction."""
        fields = self.found.line(name).strip("`").split(" ")[1:]
        facility = self.found.facility(name, declared, vector)
        at = self.operators(name, declared)
        notes = [f"operators: {at}"] if at else []
        if facility != "base":
            notes.append(f"flags: {self.flag(name, declared, vector)}")
        return f"| {self.form(name, fields)} | {self.said.get(name, '')} | {'; '.join(notes)} |"

    def flag(self, name, declared, vector):
        """The word of `flags` that an instruction needs, or some of its operators."""
        body = self.found.needed(name, vector)
        if not body.endswith(" op"):
            return f"`{self.spelled(body)}`"
        needed, by_flag = self.coverage.by_variant(self.found.facilities[body.split()[0]]), {}
        for operator in self.found.operators(declared):
            needs = needed.get(operator, needed[None])
            if needs != "Base":
                by_flag.setdefault(needs, []).append(operator)
        return ", ".join(f"`{self.spelled(needs)}` for {', '.join(names)}" for needs, names in sorted(by_flag.items()))

    def spelled(self, facility):
        """A facility's word in the line `flags`."""
        flags = dict(re.findall(r"facility_text f\.(?:has_)?(\w+) \(codes \"(\w+)\"\)", self.coverage.text("s390x_job_fields/specs/Bytes.antt")))
        word = {"MIE3": "mie3", "MIE4": "mie4", "VXRS_EXT2": "vxrs_ext2", "VXRS_EXT3": "vxrs_ext3"}.get(facility.upper())
        if word not in flags.values():
            raise self.coverage.Unreadable(f"no flag for {facility}")
        return word

    def names(self, file, table):
        """The words of a table of names."""
        rows = re.search(rf"const {table}: [^=]*= &\[\n(.*?)\n\];", self.coverage.text(f"s390x_job_fields/src/{file}.rt"), re.S)
        return re.findall(r'"(\w+)"', rows[1])

    def operand(self, name, declared):
        """A form of an operand in memory, with the kind of each field by the ranges that its text keeps."""
        source, kinds = self.coverage.text("s390x_job_fields/specs/Memory.antt"), []
        ranges, = re.findall(rf"^IsMemory \(M\.{name} .*?\) = (.*)$", source, re.M)
        inside, = re.findall(rf"^inside_text \(M\.{name} .*?\) = (.*)$", source, re.M)
        for kept in ranges.split(" × "):
            signed = re.search(r"signed_limit (S\d+)", kept)
            natural = re.search(r"< (\d+)", kept)
            if natural and "(117 ∷" in inside:
                kinds.append("NAME")
            elif natural:
                kinds.append(f"U{int(natural[1]).bit_length() - 1}")
            else:
                kinds.append(signed[1] if signed else {"IsReg": "REG", "IsSuffix": "ACCESS"}[kept.strip("( ").split()[0]])
        said, = re.findall(rf"    /// (.+)\n    {name} {{", self.coverage.text("s390x_inst/src/args.rt"))
        fields = ",".join(f"{field}:{kind}" for field, kind in zip(declared, kinds))
        return f"| `{name}({fields})` | {said} |"

    def lists(self):
        """The lines of the lists."""
        text, enum_of = self.coverage.text, self.coverage.enum_of
        lines = ["", "### Words by kind", "", "| kind | words |", "|---|---|"]
        for word, file, table in NAMES:
            lines.append(f"| {word} | {', '.join(self.names(file, table))} |")
        lines += ["", "### Lines that are no instruction", "", "| line |", "|---|"]
        lines += [f"| {self.form(name, fields.split())} |" for name, fields in OTHERS.items()]
        lines += ["", "### Operands in memory (MEM)", "", "| form | what it is |", "|---|---|"]
        lines += [self.operand(name, fields) for name, (fields, _) in enum_of(text("s390x_inst/src/args.rt"), "MemArg").items()]
        groups = {}
        for name, (fields, group) in enum_of(text("s390x_inst/src/inst.rt"), "Inst").items():
            if fields.get("") == "VecInst":
                vector = enum_of(text("s390x_inst/src/vec_inst.rt"), "VecInst")
                groups[group] = [(x, declared, True) for x, (declared, _) in vector.items()]
            else:
                groups.setdefault(group, []).append((name, fields, False))
        for group, members in groups.items():
            lines += ["", f"### {group}", "", "| line | what it does | |", "|---|---|---|"]
            lines += [self.row(*member) for member in members]
        return lines + [""]
