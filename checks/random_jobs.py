"""Random jobs: functions of one to four blocks on registers and memory, with what registers and memory hold when they start.

Registers: %r0 and %r2 to %r8 are read and written, %r10 is a small index, %r9 and %r11 count loops, %r12 and %r13 lead to regions, %r14 is where
the function returns to, %r15 leads to its frame, and %r1 belongs to helpers. All vector registers are read and written.

A function calls, and leaves for, a few instructions at the symbol u2, which return by %r14.
"""
import emulator

TARGETS = [0, 2, 3, 4, 5, 6, 7, 8]
SOURCES = [r for r in range(16) if r != 1]
PAIRS = [(2, 3), (4, 5), (6, 7)]

# The counters of loops that stand in one another, the outer one's first.
COUNTERS = ["%r11", "%r9"]

# The second region is named by %r13 plus this.
FAR = 600000

# How many bytes a region has, of a page of its own, and where the registers that lead to it point.
REGION = 0x400
MIDDLE = 0x200

CODE_BASE = 0x100000

# Where the regions of %r12, of %r13, of the symbol and of the frame begin.
DATA, FAR_DATA, SYMBOL, FRAME = [0x1000000, 0x1000000, 0x120000000], 0x3000000, 0x5000000, 0x7000000

# Where the code at u2 begins: AGR %r2,%r3; LGR %r0,%r4; CGR %r2,%r5; BCR 15,%r14.
CALLEE, CALLEE_CODE = 0x9000000, bytes.fromhex("b9080023b9040004b920002507fe")

# What the sizes of a frame are drawn from.
SIZES = [0, 0, 8, 16, 24]
LARGE_SIZES = [0, 8, 4096, 65536, 600000]

# An instruction is its name and its fields. A word in capitals is drawn anew (`Words`); `=` is the target that was drawn last.
INSTRUCTIONS = """
AluRRR ALU3 T S S
AluRRR ALU3 T S S
AluRR ALU2 T = S
AluRX ALUX T = M
AluRX ALUX T = M
AluRSImm16 ALUI16 T = I16
AluRRSImm16 ADD T S I16
AluRSImm32 ALUI16 T = I32
AluRUImm32 LOGICAL T = U32
AluRUImm16Shifted PART64 T = U16:N4
AluRUImm16Shifted PART32 T = U16:N2
AluRUImm32Shifted HALF64 T = U32:N2
AluRUImm32Shifted HALF32 T = U32:0
SMulWide P S S
UMulWide P L S
SDivMod32 P L D
SDivMod64 P L D
UDivMod32 P Q D
UDivMod64 P Q D
Flogr P S
ShiftRR SHIFT T S U8 SN
RxSBG RX T = S B B R8
UnaryRR UNARY T S
CmpRR CMP2 S S
CmpRX CMPX S M
CmpRX CMPX S Y
CmpRX CMPREL S YA
CmpRSImm16 CMPS S I16
CmpRSImm32 CMPS S I32
CmpRUImm32 CMPL S U32
Mov64 T S
MovPReg T REAL
Mov32 T S
Mov32Imm T U32
Mov32SImm16 T I16
Mov64SImm16 T I16
Mov64SImm32 T I32
Mov64UImm16Shifted T U16:N4
Mov64UImm32Shifted T U32:N2
Insert64UImm16Shifted T = U16:N4
Insert64UImm32Shifted T = U32:N2
CMov32 T C = S
CMov64 T C = S
CMov32SImm16 T C = I16
CMov64SImm16 T C = I16
Extend T S BOOL FROM1 TO
Extend T S BOOL 32 64
LoadAR T U4
InsertAR T = U4
Load32 T M
Load32ZExt8 T M
Load32SExt8 T M
Load32ZExt16 T M
Load32SExt16 T M
Load64 T M
Load64ZExt8 T M
Load64SExt8 T M
Load64ZExt16 T M
Load64SExt16 T M
Load64ZExt32 T M
Load64SExt32 T M
LoadRev16 T M
LoadRev32 T M
LoadRev64 T M
Store8 S M
Store16 S M
Store32 S M
Store64 S M
StoreRev16 S M
StoreRev32 S M
StoreRev64 S M
StoreImm8 U8 M
StoreImm16 I16 M
StoreImm32SExt16 I16 M
StoreImm64SExt16 I16 M
LoadMultiple64 FIRST LAST M
StoreMultiple64 SFIRST SLAST M
LoadAddr T M
LoadAddr T LABEL
LoadSymbolReloc T Absolute(u1,I16)
AtomicRmw ATOMIC T S A
AtomicRmw ATOMIC T S A
AtomicCas32 T = S A
AtomicCas64 T = S A
Fence
Nop0
Nop2
""".split("\n")[1:-1]

# The same on vector registers: X is the target, W the same again, V a source. LANES is a size of lanes with the number of one of them.
VECTOR_INSTRUCTIONS = """
VecRRR VECTOR2 X V V
VecRRR VECTOR2 X V V
VecRRR VECTOR2 X V V
VecRR VECTOR1 X V
VecRR VECTOR1 X V
VecShiftRR VECTORSHIFT X V U8 SN
VecSelect X V V V
VecPermute X V V V
VecPermuteDWImm X V V U1 U1
VecIntCmp VECTORCMP X V V
VecIntCmpS VECTORCMP X V V
VecInt128SCmpHi X V V
VecInt128UCmpHi X V V
VecLoad X M
VecLoadRev X M
VecLoadByte16Rev X M
VecLoadByte32Rev X M
VecLoadByte64Rev X M
VecLoadElt16Rev X M
VecLoadElt32Rev X M
VecLoadElt64Rev X M
VecStore V M
VecStoreRev V M
VecStoreByte16Rev V M
VecStoreByte32Rev V M
VecStoreByte64Rev V M
VecStoreElt16Rev V M
VecStoreElt32Rev V M
VecStoreElt64Rev V M
VecLoadReplicate LANES X M
VecLoadReplicateRev WIDELANES X M
VecLoadLane LANES X W M LANE
VecLoadLaneRev WIDELANES X W M LANE
VecLoadLaneUndef LANES XH M LANE
VecLoadLaneRevUndef WIDELANES X M LANE
VecStoreLane LANES V M LANE
VecStoreLaneRev WIDELANES V M LANE
VecMov X V
FpuMove32 XH V
FpuMove64 XH V
FpuCMov32 XH C W V
FpuCMov64 XH C W V
VecCMov X C W V
MovToVec128 X S S
VecImmByteMask X U16
VecImmBitMask LANES X LANEBIT LANEBIT
VecImmReplicate LANES X I16
VecInsertLane LANES XH W S LANE %r0
VecInsertLaneUndef LANES XH S LANE %r0
VecExtractLane LANES T V LANE %r0
VecInsertLaneImm LANES X W I16 LANE
VecInsertLaneImmUndef LANES X I16 LANE
VecReplicateLane LANES X V LANE
VecEltRev COUNT X V
""".split("\n")[1:-1]

# Instructions that may end a function before its return, or that the emulator lacks or breaks down at; few, so that most functions go far.
RARE = """
CmpTrapRR CMPT S S C TRAP
CmpTrapRSImm16 CMPS S I16 C TRAP
CmpTrapRUImm16 CMPL S U16 C TRAP
TrapIf C TRAP
Trap TRAP
Debugtrap
Load64 T OUT
Store32 S OUT
UDivMod64 P Q S
SDivMod32 P L S
RxSBGTest RXTEST S S B B R8
UnaryRR ZEROS T S
VecRRR VECTOR2NEW X V V
VecRR VECTOR1NEW X V
VecIntCmp VECTORCMPNEW X V V
VecIntCmpS VECTORCMPNEW X V V
VecIntEltCmp ELEMENTCMP V V
""".split("\n")[1:-1]

# Instructions that have rows on float registers, which leave the right half of the vector register free.
FLOATS = """
VecLoadLaneUndef LANES X M LANE
FpuMove64 X V
""".split("\n")[1:-1]


def sized(names, sizes=("32", "64")):
    return [name + size for name in names for size in sizes]


LANES = ["8x16", "16x8", "32x4", "64x2"]
ALL_LANES = LANES + ["128"]


ARITHMETIC = sized(["Add", "AddLogical", "Sub", "SubLogical", "Mul"])
BITS = sized(["And", "Orr", "Xor"])
EXTENDED = ["Add64Ext32", "AddLogical64Ext32", "Sub64Ext32", "SubLogical64Ext32", "Mul64Ext32"]
HALFWORDS = ["Add32Ext16", "Add64Ext16", "Sub32Ext16", "Sub64Ext16", "Mul32Ext16", "Mul64Ext16"]
MIE3 = sized(["NotAnd", "NotOrr", "NotXor", "AndNot", "OrrNot"])
COMPARED = ["CmpS32", "CmpS64", "CmpL32", "CmpL64"]

# What a word stands for, where it is one of a list.
CHOICES = {
    "ALU3": ARITHMETIC + ["Mul32CC", "Mul64CC"] + BITS + MIE3,
    "ALU2": ARITHMETIC + BITS + EXTENDED,
    "ALUX": ARITHMETIC + BITS + EXTENDED + HALFWORDS,
    "ALUI16": sized(["Add", "Mul"]),
    "ADD": sized(["Add"]),
    "LOGICAL": sized(["AddLogical", "SubLogical"]),
    "PART64": ["And64", "Orr64"],
    "PART32": ["And32", "Orr32"],
    "HALF64": sized(["And", "Orr", "Xor"], ("64",)),
    "HALF32": sized(["And", "Orr", "Xor"], ("32",)),
    "SHIFT": sized(["RotL", "LShL", "LShR", "AShR"]),
    "RX": ["Insert", "And", "Or", "Xor"],
    "RXTEST": ["And", "Or", "Xor"],
    "UNARY": ["Abs32", "Abs64", "Abs64Ext32", "Neg32", "Neg64", "Neg64Ext32", "PopcntByte", "PopcntReg", "BSwap32", "BSwap64"],
    "ZEROS": ["Clz64", "Ctz64"],
    "VECTOR2": sized(["Add", "Sub"], ALL_LANES) + ["Add128Cout", "Sub128Cout"] + sized(["Mul", "UMulHi", "SMulHi", "UMulEven", "SMulEven", "UMulOdd", "SMulOdd"], LANES[:3])
               + sized(["UMax", "SMax", "UMin", "SMin", "UAvg", "SAvg"], LANES)
               + sized(["And", "Orr", "Xor", "NotAnd", "NotOrr", "NotXor", "AndNot", "OrrNot", "BitPermute"], ["128"])
               + sized(["LShLByByte", "LShRByByte", "AShRByByte"], ["128"])
               + sized(["Pack", "PackUSat", "PackSSat"], LANES[1:]) + sized(["MergeLow", "MergeHigh"], LANES),
    "BYBITS": sized(["LShLByBit", "LShRByBit", "AShRByBit"], ["128"]),
    "VECTOR2NEW": sized(["Mul", "UMulHi", "SMulHi"], ["64x2", "128"]) + sized(["UMulEven", "SMulEven", "UMulOdd", "SMulOdd"], ["64x2"])
                  + sized(["UDiv", "SDiv", "URem", "SRem"], ["32x4", "64x2", "128"]) + sized(["UMax", "SMax", "UMin", "SMin", "UAvg", "SAvg"], ["128"]),
    "VECTOR1": sized(["Abs", "Neg", "Popcnt", "Clz", "Ctz"], LANES) + sized(["UnpackULow", "UnpackUHigh", "UnpackSLow", "UnpackSHigh"], LANES[:3]),
    "VECTOR1NEW": sized(["Abs", "Neg", "Clz", "Ctz"], ["128"]) + sized(["UnpackULow", "UnpackUHigh", "UnpackSLow", "UnpackSHigh"], ["64x2"]),
    "VECTORSHIFT": sized(["RotL", "LShL", "LShR", "AShR"], LANES),
    "VECTORCMP": sized(["CmpEq", "SCmpHi", "UCmpHi"], LANES),
    "VECTORCMPNEW": sized(["CmpEq", "SCmpHi", "UCmpHi"], ["128"]),
    "ELEMENTCMP": ["SCmp128", "UCmp128"],
    "COUNT": ["2", "4", "8", "16"],
    "CMP2": COMPARED + ["CmpS64Ext32", "CmpL64Ext32"],
    "CMPX": COMPARED + ["CmpS32Ext16", "CmpS64Ext16", "CmpS64Ext32", "CmpL64Ext32"],
    "CMPREL": ["CmpL32Ext16", "CmpL64Ext16"],
    "CMPT": COMPARED,
    "CMPS": ["CmpS32", "CmpS64"],
    "CMPL": ["CmpL32", "CmpL64"],
    "ATOMIC": sized(["And", "Orr", "Xor", "Add", "AddLogical"]),
    "BOOL": ["true", "false"],
    "FROM1": ["1", "8", "16"],
    "TO": ["32", "64"],
    "TRAP": ["stk_ovf", "int_ovf", "heap_oob", "int_divz", "bad_toint", "user1", "user250"],
    "REAL": [f"%r{r}" for r in SOURCES],
}


def interesting(rng, bits):
    """A number whose bits tell: near a power of two, small, of repeated bytes, or any."""
    kind = rng.randrange(6)
    if kind == 0:
        value = (1 << rng.randrange(bits)) + rng.choice([-1, 0, 1])
    elif kind == 1:
        value = -(1 << rng.randrange(bits)) + rng.choice([-1, 0, 1])
    elif kind == 2:
        value = rng.randrange(-9, 10)
    elif kind == 3:
        value = int.from_bytes(bytes([rng.choice([0, 1, 0x7f, 0x80, 0xff, rng.randrange(256)]) for _ in range(bits // 8)]), "big")
    else:
        value = rng.getrandbits(bits)
    return value % (1 << bits)


def signed(value, bits):
    return value - (1 << bits) if value >> (bits - 1) else value


class Words:
    """What the words of an instruction stand for."""

    def __init__(self, rng, constants, bases):
        self.rng = rng
        self.constants = constants
        # how far above the stack pointer each form of a frame operand counts from
        self.bases = bases
        self.target = self.pair = self.vector = self.lane_size = None

    def line(self, template):
        return " ".join(self.field(field) for field in template.split(" "))

    def field(self, field):
        if ":" in field:
            return ":".join(self.field(part) for part in field.split(":"))
        if field == "Absolute(u1,I16)":
            return f"Absolute(u1,{self.number('I16')})"
        if field in CHOICES:
            return self.rng.choice(CHOICES[field])
        if field[0] in "UIN" and field[1:].isdigit():
            return self.number(field)
        method = getattr(self, "word_" + field.replace("=", "same"), None)
        return method() if method and field.isupper() or field == "=" else field

    def number(self, field):
        size = int(field[1:])
        if field[0] == "N":
            return str(self.rng.randrange(size))
        if size < 8:
            return str(self.rng.getrandbits(size))
        value = interesting(self.rng, size)
        return str(signed(value, size) if field[0] == "I" else value)

    def word_X(self):
        self.vector = f"%v{self.rng.randrange(32)}"
        return self.vector

    def word_XH(self):
        # Rows of float registers leave the right half of a vector register free.
        self.vector = f"%v{self.rng.randrange(16, 32)}"
        return self.vector

    def word_W(self):
        return self.vector

    def word_V(self):
        return f"%v{self.rng.randrange(32)}"

    def word_LANES(self):
        self.lane_size = self.rng.choice([8, 16, 32, 64])
        return str(self.lane_size)

    def word_WIDELANES(self):
        self.lane_size = self.rng.choice([16, 32, 64])
        return str(self.lane_size)

    def word_LANE(self):
        return str(self.rng.randrange(128 // self.lane_size))

    def word_LANEBIT(self):
        return str(self.rng.randrange(self.lane_size))

    def word_LABEL(self):
        return "Label(0)"

    def word_T(self):
        self.target = f"%r{self.rng.choice(TARGETS)}"
        return self.target

    def word_same(self):
        return self.target

    def word_S(self):
        return f"%r{self.rng.choice(SOURCES)}"

    def word_SN(self):
        return f"%r{self.rng.choice([0, 0, 0] + SOURCES)}"

    def word_D(self):
        # A divisor that is seldom 0, and mostly great: %r12 to %r15 lead somewhere.
        return f"%r{self.rng.choice([12, 13, 14, 15, 15, 12, 10, 2])}"

    def word_P(self):
        self.pair = self.rng.choice(PAIRS)
        return self.word_Q()

    def word_Q(self):
        return f"%r{self.pair[0]}/%r{self.pair[1]}"

    def word_L(self):
        return f"%r{self.pair[1]}"

    def word_B(self):
        return str(self.rng.randrange(64))

    def word_R8(self):
        return str(self.rng.randrange(-128, 128))

    def word_C(self):
        return str(self.rng.randrange(1, 15))

    def word_FIRST(self):
        self.first = self.rng.randrange(2, 9)
        return f"%r{self.first}"

    def word_LAST(self):
        return f"%r{self.rng.randrange(self.first, 9)}"

    def word_SFIRST(self):
        self.first = self.rng.randrange(2, 16)
        return f"%r{self.first}"

    def word_SLAST(self):
        return f"%r{self.rng.randrange(self.first, 16)}"

    def flags(self):
        return self.rng.choice(["a", "u", "a!heap_oob", "u!user7"])

    def word_M(self):
        """An operand in a region, at any address."""
        kind = self.rng.randrange(10)
        if kind == 0 and self.constants:
            return f"Constant({self.rng.randrange(self.constants)})"
        if kind == 1:
            return self.word_Y()
        if kind == 2:
            form, base = self.rng.choice(sorted(self.bases.items()))
            return f"{form}({self.rng.randrange(-200, 200) - base})"
        return self.indexed(1)

    def word_A(self):
        """One whose address is a multiple of 8."""
        return self.indexed(8)

    def indexed(self, unit):
        offset = self.rng.randrange(-400, 200) // unit * unit
        index = self.rng.choice(["%r0", "%r10"])
        form = self.rng.randrange(4)
        if form == 0:
            return f"BXD12(%r12,{index},{offset % 200 // unit * unit},{self.flags()})"
        if form == 1:
            return f"BXD20(%r12,{index},{offset},{self.flags()})"
        if form == 2:
            return f"RegOffset(%r12,{offset},{self.flags()})"
        return f"RegOffset(%r13,{FAR + offset},{self.flags()})"

    def word_Y(self):
        """One in the symbol's region, whose address is a multiple of 8."""
        return f"Symbol(u1,{self.rng.randrange(-50, 50) * 8},{self.rng.choice(['a', 'u'])})"

    def word_YA(self):
        """One there that is told to be aligned."""
        return f"Symbol(u1,{self.rng.randrange(-50, 50) * 8},a)"

    def word_OUT(self):
        return f"RegOffset(%r12,{self.rng.choice([3, -3, 200]) * emulator.PAGE},u!heap_oob)"


class RandomJob:
    """A job: its text, and what it starts with."""

    def __init__(self, rng):
        self.rng = rng
        self.constants = rng.randrange(4)
        # A third is for a machine without relative loads, stores and compares, and a quarter has a large frame.
        self.is_relative = rng.randrange(3) > 0
        self.sizes = [rng.choice(LARGE_SIZES if rng.randrange(4) == 0 else SIZES) for _ in range(6)]
        self.words = Words(rng, self.constants, self.frame_bases())
        self.instructions = INSTRUCTIONS + VECTOR_INSTRUCTIONS
        if not self.is_relative:
            # there they have no row
            self.instructions = [each for each in self.instructions if "CMPREL" not in each]
        data = rng.choice(DATA)
        self.regions = sorted([(address, self.region()) for address in [data, FAR_DATA, SYMBOL, FRAME]] + [(CALLEE, CALLEE_CODE)])
        self.general = [interesting(rng, 64) for _ in range(16)]
        self.general[10] = rng.randrange(32) * 8
        self.general[12] = data + MIDDLE
        self.general[13] = FAR_DATA + MIDDLE - FAR
        self.general[14] = emulator.RETURN
        self.general[15] = FRAME + MIDDLE
        self.vector = [rng.choice([0, interesting(rng, 128)]) for _ in range(32)]
        heading, starts, blocks = self.heading(), self.starts(), self.blocks()
        self.text = "\n".join(heading + starts + blocks + ["end", ""])
        # Its image is the same without what registers and memory hold, and is read sooner.
        self.code_text = "\n".join(heading + blocks + ["end", ""])

    def frame_bases(self):
        """How far above the stack pointer each form of a frame operand counts from (cranelift-codegen, `mem_finalize`)."""
        incoming, _, clobbers, fixed, slots, outgoing = self.sizes
        frame = clobbers + fixed + outgoing
        return {"InitialSPOffset": frame, "IncomingArgOffset": frame + incoming + 160, "SpillOffset": slots + outgoing, "SlotOffset": outgoing,
                "OutgoingArgOffset": 160}

    def region(self):
        return b"".join(interesting(self.rng, 64).to_bytes(8, "big") for _ in range(REGION // 8))

    def heading(self):
        flags = "flags mie3 mie4 vxrs_ext2 vxrs_ext3" + ("" if self.is_relative else " norel")
        lines = [flags] + ([f"frame SystemV {' '.join(map(str, self.sizes))} - 0"] if any(self.sizes) else [])
        for _ in range(self.constants):
            lines.append(f"const 8 {self.rng.randbytes(64).hex()}")
        return lines + [f"symbol u1 {SYMBOL + MIDDLE}", f"symbol u2 {CALLEE}"]

    def starts(self):
        lines = [f"reg %r{i} {value}" for i, value in enumerate(self.general) if value]
        lines += [f"reg %v{i} {value:032x}" for i, value in enumerate(self.vector) if value]
        return lines + [f"mem {address} {data.hex()}" for address, data in self.regions]

    def blocks(self):
        count = self.rng.randrange(1, 5)
        lines = []
        for k in range(count):
            lines += ["block"] + self.members(self.rng.randrange(1, 9))
            lines += self.ending() if k == count - 1 else self.turn(k, count)
        return lines

    def ending(self):
        """The end of the last block: calls may have overwritten the register with which a function returns."""
        return [f"Mov64SImm32 %r14 {emulator.RETURN}", "ReturnCall u2 [] 0" if self.rng.randrange(6) == 0 else "Ret %r14"]

    def call(self):
        """A call of the symbol, by its name or by a register, that may have a result on the stack."""
        results = self.rng.choice(["[]", "[]", "[%r2=@8:I64]", "[%r3=@16:I32,%r2=%r2:I64]"])
        if self.rng.randrange(2) == 0:
            return [f"Call %r14 u2 [] {results} [] 0 SystemV SystemV - false -"]
        return ["LoadSymbolReloc %r6 Absolute(u2,0)", f"Call %r14 %r6 [] {results} [] 0 SystemV SystemV - false -"]

    def members(self, count):
        lines = []
        for _ in range(count):
            kind = self.rng.randrange(60)
            if kind < 3:
                lines += self.loop(COUNTERS)
            elif kind < 5:
                lines.append(self.words.line(self.rng.choice(RARE)))
            elif kind < 7:
                lines += self.call()
            elif kind < 9:
                lines += self.lane_by_register()
            elif kind < 10:
                lines += self.rng.choice([self.float_register, self.shift_by_bits])()
            else:
                lines.append(self.words.line(self.rng.choice(self.instructions)))
        return lines

    def lane_by_register(self):
        """A lane whose number is the sum of an immediate and a register: behind the last lane the result is free."""
        size = self.rng.choice([8, 16, 32, 64])
        added = self.rng.randrange(128 // size)
        lane = self.rng.randrange(128 // size - added)
        target, source = f"%v{self.rng.randrange(16, 32)}", self.words.word_S()
        moved = self.rng.choice([f"VecExtractLane {size} {self.words.word_T()} {target} {lane} %r8", f"VecInsertLaneUndef {size} {target} {source} {lane} %r8",
                                 f"VecInsertLane {size} {target} {target} {source} {lane} %r8"])
        return [f"Mov64SImm16 %r8 {added}", moved]

    def float_register(self):
        """An instruction on a float register, and one that sets the right half of its vector register."""
        line = self.words.line(self.rng.choice(FLOATS))
        return [line, self.words.line("VecInsertLaneImm 64 W W I16 1")]

    def shift_by_bits(self):
        """A shift by bits, behind what makes the bytes of its amount agree: else the result is free."""
        amount = self.words.line("VecReplicateLane 8 X V U4")
        return [amount, self.words.line(f"VecRRR BYBITS X V {self.words.vector}")]

    def loop(self, counters):
        """A loop that goes round a few times, maybe around another one: its last member counts down, and sets the code that goes on."""
        counter, inner = counters[0], counters[1:]
        body = [self.words.line(self.rng.choice(self.instructions)) for _ in range(self.rng.randrange(1, 5))]
        if self.rng.randrange(8) == 0:
            body += self.call()
        if inner and self.rng.randrange(3) == 0:
            body += self.loop(inner)
        if self.rng.randrange(3) == 0:
            body.append(f"CondBreak {self.words.word_C()}")
        start = f"Mov64SImm16 {counter} {self.rng.randrange(1, 9)}"
        return [start, "Loop 2"] + body + [f"AluRSImm16 Add64 {counter} {counter} -1", "endloop"]

    def turn(self, k, count):
        """The end of a block, which leads to later ones."""
        def later():
            return self.rng.randrange(k + 1, count)

        target = f"%r{self.rng.choice(TARGETS[1:])}"
        return self.rng.choice([
            [],
            [f"Jump {later()}"],
            [f"CondBr {later()} {later()} {self.words.word_C()}"],
            # The index is an offset in bytes.
            [f"AluRUImm32Shifted And64 {target} {target} 12:0", f"CmpRUImm32 CmpL64 {target} 8",
             f"JTSequence {target} {later()} 10 [{later()},{later()}]"],
            [f"LabelAddress %r8 {k + 1}", f"IndirectBr %r8 [{k + 1}]"],
            [f"Call %r14 u2 [] [] [] 0 SystemV SystemV {later()}[7:{later()}] false -"],
        ])
