//! The instructions and their operators. Written by make_instructions.py.

use crate::operands::{
    ArgPair, CallInfo, Cond, Label, List, MemArg, Reg, RegPair, RetPair, ReturnCallInfo, Shifted, SymbolReloc, TrapCode,
};
use std::fmt::{self, Write};

/// An integer arithmetic or logical operator.
#[allow(missing_docs)]
#[derive(Clone, Copy, PartialEq, Eq, Debug)]
pub enum ALUOp {
    Add32,
    Add32Ext16,
    Add64,
    Add64Ext16,
    Add64Ext32,
    AddLogical32,
    AddLogical64,
    AddLogical64Ext32,
    Sub32,
    Sub32Ext16,
    Sub64,
    Sub64Ext16,
    Sub64Ext32,
    SubLogical32,
    SubLogical64,
    SubLogical64Ext32,
    Mul32,
    Mul32Ext16,
    Mul32CC,
    Mul64,
    Mul64Ext16,
    Mul64Ext32,
    Mul64CC,
    And32,
    And64,
    Orr32,
    Orr64,
    Xor32,
    Xor64,
    NotAnd32,
    NotAnd64,
    NotOrr32,
    NotOrr64,
    NotXor32,
    NotXor64,
    AndNot32,
    AndNot64,
    OrrNot32,
    OrrNot64,
}

impl fmt::Display for ALUOp {
    fn fmt(&self, f: &mut fmt::Formatter<'_>) -> fmt::Result {
        fmt::Debug::fmt(self, f)
    }
}

/// An integer comparison.
#[allow(missing_docs)]
#[derive(Clone, Copy, PartialEq, Eq, Debug)]
pub enum CmpOp {
    CmpS32,
    CmpS32Ext16,
    CmpS64,
    CmpS64Ext16,
    CmpS64Ext32,
    CmpL32,
    CmpL32Ext16,
    CmpL64,
    CmpL64Ext16,
    CmpL64Ext32,
}

impl fmt::Display for CmpOp {
    fn fmt(&self, f: &mut fmt::Formatter<'_>) -> fmt::Result {
        fmt::Debug::fmt(self, f)
    }
}

/// A shift or rotation.
#[allow(missing_docs)]
#[derive(Clone, Copy, PartialEq, Eq, Debug)]
pub enum ShiftOp {
    RotL32,
    RotL64,
    LShL32,
    LShL64,
    LShR32,
    LShR64,
    AShR32,
    AShR64,
}

impl fmt::Display for ShiftOp {
    fn fmt(&self, f: &mut fmt::Formatter<'_>) -> fmt::Result {
        fmt::Debug::fmt(self, f)
    }
}

/// An operator on rotated and selected bits.
#[allow(missing_docs)]
#[derive(Clone, Copy, PartialEq, Eq, Debug)]
pub enum RxSBGOp {
    Insert,
    And,
    Or,
    Xor,
}

impl fmt::Display for RxSBGOp {
    fn fmt(&self, f: &mut fmt::Formatter<'_>) -> fmt::Result {
        fmt::Debug::fmt(self, f)
    }
}

/// An integer operator of one operand.
#[allow(missing_docs)]
#[derive(Clone, Copy, PartialEq, Eq, Debug)]
pub enum UnaryOp {
    Abs32,
    Abs64,
    Abs64Ext32,
    Neg32,
    Neg64,
    Neg64Ext32,
    PopcntByte,
    PopcntReg,
    BSwap32,
    BSwap64,
    Clz64,
    Ctz64,
}

impl fmt::Display for UnaryOp {
    fn fmt(&self, f: &mut fmt::Formatter<'_>) -> fmt::Result {
        fmt::Debug::fmt(self, f)
    }
}

/// A vector operator of two operands.
#[allow(missing_docs)]
#[derive(Clone, Copy, PartialEq, Eq, Debug)]
pub enum VecBinaryOp {
    Add8x16,
    Add16x8,
    Add32x4,
    Add64x2,
    Add128,
    Sub8x16,
    Sub16x8,
    Sub32x4,
    Sub64x2,
    Sub128,
    Add128Cout,
    Sub128Cout,
    Mul8x16,
    Mul16x8,
    Mul32x4,
    Mul64x2,
    Mul128,
    UMulHi8x16,
    UMulHi16x8,
    UMulHi32x4,
    UMulHi64x2,
    UMulHi128,
    SMulHi8x16,
    SMulHi16x8,
    SMulHi32x4,
    SMulHi64x2,
    SMulHi128,
    UMulEven8x16,
    UMulEven16x8,
    UMulEven32x4,
    UMulEven64x2,
    SMulEven8x16,
    SMulEven16x8,
    SMulEven32x4,
    SMulEven64x2,
    UMulOdd8x16,
    UMulOdd16x8,
    UMulOdd32x4,
    UMulOdd64x2,
    SMulOdd8x16,
    SMulOdd16x8,
    SMulOdd32x4,
    SMulOdd64x2,
    UDiv32x4,
    UDiv64x2,
    UDiv128,
    SDiv32x4,
    SDiv64x2,
    SDiv128,
    URem32x4,
    URem64x2,
    URem128,
    SRem32x4,
    SRem64x2,
    SRem128,
    UMax8x16,
    UMax16x8,
    UMax32x4,
    UMax64x2,
    UMax128,
    SMax8x16,
    SMax16x8,
    SMax32x4,
    SMax64x2,
    SMax128,
    UMin8x16,
    UMin16x8,
    UMin32x4,
    UMin64x2,
    UMin128,
    SMin8x16,
    SMin16x8,
    SMin32x4,
    SMin64x2,
    SMin128,
    UAvg8x16,
    UAvg16x8,
    UAvg32x4,
    UAvg64x2,
    UAvg128,
    SAvg8x16,
    SAvg16x8,
    SAvg32x4,
    SAvg64x2,
    SAvg128,
    And128,
    Orr128,
    Xor128,
    NotAnd128,
    NotOrr128,
    NotXor128,
    AndNot128,
    OrrNot128,
    BitPermute128,
    LShLByByte128,
    LShRByByte128,
    AShRByByte128,
    LShLByBit128,
    LShRByBit128,
    AShRByBit128,
    Pack16x8,
    Pack32x4,
    Pack64x2,
    PackUSat16x8,
    PackUSat32x4,
    PackUSat64x2,
    PackSSat16x8,
    PackSSat32x4,
    PackSSat64x2,
    MergeLow8x16,
    MergeLow16x8,
    MergeLow32x4,
    MergeLow64x2,
    MergeHigh8x16,
    MergeHigh16x8,
    MergeHigh32x4,
    MergeHigh64x2,
}

impl fmt::Display for VecBinaryOp {
    fn fmt(&self, f: &mut fmt::Formatter<'_>) -> fmt::Result {
        fmt::Debug::fmt(self, f)
    }
}

/// A vector operator of one operand.
#[allow(missing_docs)]
#[derive(Clone, Copy, PartialEq, Eq, Debug)]
pub enum VecUnaryOp {
    Abs8x16,
    Abs16x8,
    Abs32x4,
    Abs64x2,
    Abs128,
    Neg8x16,
    Neg16x8,
    Neg32x4,
    Neg64x2,
    Neg128,
    Popcnt8x16,
    Popcnt16x8,
    Popcnt32x4,
    Popcnt64x2,
    Clz8x16,
    Clz16x8,
    Clz32x4,
    Clz64x2,
    Clz128,
    Ctz8x16,
    Ctz16x8,
    Ctz32x4,
    Ctz64x2,
    Ctz128,
    UnpackULow8x16,
    UnpackULow16x8,
    UnpackULow32x4,
    UnpackULow64x2,
    UnpackUHigh8x16,
    UnpackUHigh16x8,
    UnpackUHigh32x4,
    UnpackUHigh64x2,
    UnpackSLow8x16,
    UnpackSLow16x8,
    UnpackSLow32x4,
    UnpackSLow64x2,
    UnpackSHigh8x16,
    UnpackSHigh16x8,
    UnpackSHigh32x4,
    UnpackSHigh64x2,
}

impl fmt::Display for VecUnaryOp {
    fn fmt(&self, f: &mut fmt::Formatter<'_>) -> fmt::Result {
        fmt::Debug::fmt(self, f)
    }
}

/// A shift or rotation of each lane.
#[allow(missing_docs)]
#[derive(Clone, Copy, PartialEq, Eq, Debug)]
pub enum VecShiftOp {
    RotL8x16,
    RotL16x8,
    RotL32x4,
    RotL64x2,
    LShL8x16,
    LShL16x8,
    LShL32x4,
    LShL64x2,
    LShR8x16,
    LShR16x8,
    LShR32x4,
    LShR64x2,
    AShR8x16,
    AShR16x8,
    AShR32x4,
    AShR64x2,
}

impl fmt::Display for VecShiftOp {
    fn fmt(&self, f: &mut fmt::Formatter<'_>) -> fmt::Result {
        fmt::Debug::fmt(self, f)
    }
}

/// A comparison of each lane.
#[allow(missing_docs)]
#[derive(Clone, Copy, PartialEq, Eq, Debug)]
pub enum VecIntCmpOp {
    CmpEq8x16,
    CmpEq16x8,
    CmpEq32x4,
    CmpEq64x2,
    CmpEq128,
    SCmpHi8x16,
    SCmpHi16x8,
    SCmpHi32x4,
    SCmpHi64x2,
    SCmpHi128,
    UCmpHi8x16,
    UCmpHi16x8,
    UCmpHi32x4,
    UCmpHi64x2,
    UCmpHi128,
}

impl fmt::Display for VecIntCmpOp {
    fn fmt(&self, f: &mut fmt::Formatter<'_>) -> fmt::Result {
        fmt::Debug::fmt(self, f)
    }
}

/// A comparison of two numbers of 128 bits.
#[allow(missing_docs)]
#[derive(Clone, Copy, PartialEq, Eq, Debug)]
pub enum VecIntEltCmpOp {
    SCmp128,
    UCmp128,
}

impl fmt::Display for VecIntEltCmpOp {
    fn fmt(&self, f: &mut fmt::Formatter<'_>) -> fmt::Result {
        fmt::Debug::fmt(self, f)
    }
}

/// A typed instruction.
///
/// `rd` is written; `ri` is an input that has to be the same register as `rd`; `rn`, `rm` and `ra` are read.
#[allow(missing_docs)]
#[derive(Clone, PartialEq, Debug)]
pub enum Inst {
    /// `rd` becomes `rn op rm`.
    AluRRR {
        alu_op: ALUOp,
        rd: Reg,
        rn: Reg,
        rm: Reg,
    },
    /// `rd` becomes `rn op imm`.
    AluRRSImm16 {
        alu_op: ALUOp,
        rd: Reg,
        rn: Reg,
        imm: i16,
    },
    /// `rd` becomes `ri op rm`; `ri` is `rd`.
    AluRR {
        alu_op: ALUOp,
        rd: Reg,
        ri: Reg,
        rm: Reg,
    },
    /// `rd` becomes `ri op` the operand in memory; `ri` is `rd`.
    AluRX {
        alu_op: ALUOp,
        rd: Reg,
        ri: Reg,
        mem: MemArg,
    },
    /// `rd` becomes `ri op imm`; `ri` is `rd`.
    AluRSImm16 {
        alu_op: ALUOp,
        rd: Reg,
        ri: Reg,
        imm: i16,
    },
    /// `rd` becomes `ri op imm`; `ri` is `rd`.
    AluRSImm32 {
        alu_op: ALUOp,
        rd: Reg,
        ri: Reg,
        imm: i32,
    },
    /// `rd` becomes `ri op imm`; `ri` is `rd`.
    AluRUImm32 {
        alu_op: ALUOp,
        rd: Reg,
        ri: Reg,
        imm: u32,
    },
    /// One part of 16 bits of `rd` becomes that part of `ri op imm`; `ri` is `rd`.
    AluRUImm16Shifted {
        alu_op: ALUOp,
        rd: Reg,
        ri: Reg,
        imm: Shifted<u16>,
    },
    /// One half of `rd` becomes that half of `ri op imm`; `ri` is `rd`.
    AluRUImm32Shifted {
        alu_op: ALUOp,
        rd: Reg,
        ri: Reg,
        imm: Shifted<u32>,
    },
    /// The pair `rd` becomes the signed product of `rn` and `rm`.
    SMulWide {
        rd: RegPair,
        rn: Reg,
        rm: Reg,
    },
    /// The pair `rd` becomes the unsigned product of `ri` and `rn`; `ri` is `rd.lo`.
    UMulWide {
        rd: RegPair,
        ri: Reg,
        rn: Reg,
    },
    /// `ri` divided by the low half of `rn`: the remainder to `rd.hi`, the quotient to `rd.lo`; `ri` is `rd.lo`.
    SDivMod32 {
        rd: RegPair,
        ri: Reg,
        rn: Reg,
    },
    /// `ri` divided by `rn`: the remainder to `rd.hi`, the quotient to `rd.lo`; `ri` is `rd.lo`.
    SDivMod64 {
        rd: RegPair,
        ri: Reg,
        rn: Reg,
    },
    /// The low halves of the pair `ri` divided by that of `rn`, unsigned; `ri` is `rd`.
    UDivMod32 {
        rd: RegPair,
        ri: RegPair,
        rn: Reg,
    },
    /// The pair `ri` divided by `rn`, unsigned; `ri` is `rd`.
    UDivMod64 {
        rd: RegPair,
        ri: RegPair,
        rn: Reg,
    },
    /// `rd.hi` becomes the number of leading zeros of `rn`, `rd.lo` the value without its leftmost one.
    Flogr {
        rd: RegPair,
        rn: Reg,
    },
    /// `rd` becomes `rn` shifted by the low six bits of `shift_imm` plus `shift_reg`.
    ShiftRR {
        shift_op: ShiftOp,
        rd: Reg,
        rn: Reg,
        shift_imm: u8,
        shift_reg: Reg,
    },
    /// `rn` rotated left is joined with `ri` in the selected bits; `ri` is `rd`.
    RxSBG {
        op: RxSBGOp,
        rd: Reg,
        ri: Reg,
        rn: Reg,
        start_bit: u8,
        end_bit: u8,
        rotate_amt: i8,
    },
    /// As `RxSBG`, for the condition code alone.
    RxSBGTest {
        op: RxSBGOp,
        rd: Reg,
        rn: Reg,
        start_bit: u8,
        end_bit: u8,
        rotate_amt: i8,
    },
    /// `rd` becomes `op rn`.
    UnaryRR {
        op: UnaryOp,
        rd: Reg,
        rn: Reg,
    },
    /// Compares `rn` with `rm`.
    CmpRR {
        op: CmpOp,
        rn: Reg,
        rm: Reg,
    },
    /// Compares `rn` with the operand in memory.
    CmpRX {
        op: CmpOp,
        rn: Reg,
        mem: MemArg,
    },
    /// Compares `rn` with `imm`.
    CmpRSImm16 {
        op: CmpOp,
        rn: Reg,
        imm: i16,
    },
    /// Compares `rn` with `imm`.
    CmpRSImm32 {
        op: CmpOp,
        rn: Reg,
        imm: i32,
    },
    /// Compares `rn` with `imm`.
    CmpRUImm32 {
        op: CmpOp,
        rn: Reg,
        imm: u32,
    },
    /// Traps where the comparison of `rn` with `rm` meets the condition.
    CmpTrapRR {
        op: CmpOp,
        rn: Reg,
        rm: Reg,
        cond: Cond,
        trap_code: TrapCode,
    },
    /// Traps where the comparison of `rn` with `imm` meets the condition.
    CmpTrapRSImm16 {
        op: CmpOp,
        rn: Reg,
        imm: i16,
        cond: Cond,
        trap_code: TrapCode,
    },
    /// Traps where the comparison of `rn` with `imm` meets the condition.
    CmpTrapRUImm16 {
        op: CmpOp,
        rn: Reg,
        imm: u16,
        cond: Cond,
        trap_code: TrapCode,
    },
    /// `rd` becomes `rm`.
    Mov64 {
        rd: Reg,
        rm: Reg,
    },
    /// `rd` becomes the real register `rm`.
    MovPReg {
        rd: Reg,
        rm: Reg,
    },
    /// The low half of `rd` becomes that of `rm`.
    Mov32 {
        rd: Reg,
        rm: Reg,
    },
    /// The low half of `rd` becomes `imm`.
    Mov32Imm {
        rd: Reg,
        imm: u32,
    },
    /// The low half of `rd` becomes `imm`.
    Mov32SImm16 {
        rd: Reg,
        imm: i16,
    },
    /// `rd` becomes `imm`.
    Mov64SImm16 {
        rd: Reg,
        imm: i16,
    },
    /// `rd` becomes `imm`.
    Mov64SImm32 {
        rd: Reg,
        imm: i32,
    },
    /// `rd` becomes `imm` at its place, all other bits zero.
    Mov64UImm16Shifted {
        rd: Reg,
        imm: Shifted<u16>,
    },
    /// `rd` becomes `imm` at its place, all other bits zero.
    Mov64UImm32Shifted {
        rd: Reg,
        imm: Shifted<u32>,
    },
    /// `rd` becomes `ri` with `imm` at its place; `ri` is `rd`.
    Insert64UImm16Shifted {
        rd: Reg,
        ri: Reg,
        imm: Shifted<u16>,
    },
    /// `rd` becomes `ri` with `imm` at its place; `ri` is `rd`.
    Insert64UImm32Shifted {
        rd: Reg,
        ri: Reg,
        imm: Shifted<u32>,
    },
    /// The low half of `rd` becomes that of `rm` where the condition holds; `ri` is `rd`.
    CMov32 {
        rd: Reg,
        cond: Cond,
        ri: Reg,
        rm: Reg,
    },
    /// `rd` becomes `rm` where the condition holds; `ri` is `rd`.
    CMov64 {
        rd: Reg,
        cond: Cond,
        ri: Reg,
        rm: Reg,
    },
    /// The low half of `rd` becomes `imm` where the condition holds; `ri` is `rd`.
    CMov32SImm16 {
        rd: Reg,
        cond: Cond,
        ri: Reg,
        imm: i16,
    },
    /// `rd` becomes `imm` where the condition holds; `ri` is `rd`.
    CMov64SImm16 {
        rd: Reg,
        cond: Cond,
        ri: Reg,
        imm: i16,
    },
    /// `rd` becomes the low `from_bits` of `rn`, extended to `to_bits`.
    Extend {
        rd: Reg,
        rn: Reg,
        signed: bool,
        from_bits: u8,
        to_bits: u8,
    },
    /// The low half of `rd` becomes the access register.
    LoadAR {
        rd: Reg,
        ar: u8,
    },
    /// The low half of `rd` becomes the access register; `ri` is `rd`.
    InsertAR {
        rd: Reg,
        ri: Reg,
        ar: u8,
    },
    /// Loads 32 bits.
    Load32 {
        rd: Reg,
        mem: MemArg,
    },
    /// Loads 8 bits, zero-extended to 32.
    Load32ZExt8 {
        rd: Reg,
        mem: MemArg,
    },
    /// Loads 8 bits, sign-extended to 32.
    Load32SExt8 {
        rd: Reg,
        mem: MemArg,
    },
    /// Loads 16 bits, zero-extended to 32.
    Load32ZExt16 {
        rd: Reg,
        mem: MemArg,
    },
    /// Loads 16 bits, sign-extended to 32.
    Load32SExt16 {
        rd: Reg,
        mem: MemArg,
    },
    /// Loads 64 bits.
    Load64 {
        rd: Reg,
        mem: MemArg,
    },
    /// Loads 8 bits, zero-extended to 64.
    Load64ZExt8 {
        rd: Reg,
        mem: MemArg,
    },
    /// Loads 8 bits, sign-extended to 64.
    Load64SExt8 {
        rd: Reg,
        mem: MemArg,
    },
    /// Loads 16 bits, zero-extended to 64.
    Load64ZExt16 {
        rd: Reg,
        mem: MemArg,
    },
    /// Loads 16 bits, sign-extended to 64.
    Load64SExt16 {
        rd: Reg,
        mem: MemArg,
    },
    /// Loads 32 bits, zero-extended to 64.
    Load64ZExt32 {
        rd: Reg,
        mem: MemArg,
    },
    /// Loads 32 bits, sign-extended to 64.
    Load64SExt32 {
        rd: Reg,
        mem: MemArg,
    },
    /// Loads 16 bits, their bytes reversed.
    LoadRev16 {
        rd: Reg,
        mem: MemArg,
    },
    /// Loads 32 bits, their bytes reversed.
    LoadRev32 {
        rd: Reg,
        mem: MemArg,
    },
    /// Loads 64 bits, their bytes reversed.
    LoadRev64 {
        rd: Reg,
        mem: MemArg,
    },
    /// Stores the low 8 bits.
    Store8 {
        rd: Reg,
        mem: MemArg,
    },
    /// Stores the low 16 bits.
    Store16 {
        rd: Reg,
        mem: MemArg,
    },
    /// Stores the low 32 bits.
    Store32 {
        rd: Reg,
        mem: MemArg,
    },
    /// Stores 64 bits.
    Store64 {
        rd: Reg,
        mem: MemArg,
    },
    /// Stores the low 16 bits, their bytes reversed.
    StoreRev16 {
        rd: Reg,
        mem: MemArg,
    },
    /// Stores the low 32 bits, their bytes reversed.
    StoreRev32 {
        rd: Reg,
        mem: MemArg,
    },
    /// Stores 64 bits, their bytes reversed.
    StoreRev64 {
        rd: Reg,
        mem: MemArg,
    },
    /// Stores the byte `imm`.
    StoreImm8 {
        imm: u8,
        mem: MemArg,
    },
    /// Stores `imm` in 16 bits.
    StoreImm16 {
        imm: i16,
        mem: MemArg,
    },
    /// Stores `imm` in 32 bits.
    StoreImm32SExt16 {
        imm: i16,
        mem: MemArg,
    },
    /// Stores `imm` in 64 bits.
    StoreImm64SExt16 {
        imm: i16,
        mem: MemArg,
    },
    /// Loads the registers `rt` to `rt2` from consecutive doublewords.
    LoadMultiple64 {
        rt: Reg,
        rt2: Reg,
        mem: MemArg,
    },
    /// Stores the registers `rt` to `rt2` to consecutive doublewords.
    StoreMultiple64 {
        rt: Reg,
        rt2: Reg,
        mem: MemArg,
    },
    /// `rd` becomes the address.
    LoadAddr {
        rd: Reg,
        mem: MemArg,
    },
    /// `rd` becomes `base` plus the signed index plus `offset`, shifted left by `size`.
    LoadIndexedAddr {
        rd: Reg,
        base: Reg,
        index: Reg,
        offset: i32,
        size: u8,
    },
    /// `rd` becomes `base` plus the unsigned index plus `offset`, shifted left by `size`.
    LoadLogicalIndexedAddr {
        rd: Reg,
        base: Reg,
        index: Reg,
        offset: i32,
        size: u8,
    },
    /// `rd` becomes the operand in memory, which becomes itself `op rn`, in one access.
    AtomicRmw {
        alu_op: ALUOp,
        rd: Reg,
        rn: Reg,
        mem: MemArg,
    },
    /// Compares the operand in memory with `rd`, and stores `rn` where they are equal; `ri` is `rd`.
    AtomicCas32 {
        rd: Reg,
        ri: Reg,
        rn: Reg,
        mem: MemArg,
    },
    /// Compares the operand in memory with `rd`, and stores `rn` where they are equal; `ri` is `rd`.
    AtomicCas64 {
        rd: Reg,
        ri: Reg,
        rn: Reg,
        mem: MemArg,
    },
    /// A serialization of all earlier accesses.
    Fence,
    /// Nothing, in no bytes.
    Nop0,
    /// Nothing, in two bytes.
    Nop2,
    /// Stops for a debugger.
    Debugtrap,
    /// Traps.
    Trap {
        trap_code: TrapCode,
    },
    /// Traps where the condition holds.
    TrapIf {
        cond: Cond,
        trap_code: TrapCode,
    },
    /// Goes to `dest`.
    Jump {
        dest: Label,
    },
    /// Goes to `taken` where the condition holds, else to `not_taken`.
    CondBr {
        taken: Label,
        not_taken: Label,
        cond: Cond,
    },
    /// Goes to the block of `targets` whose address `rn` holds.
    IndirectBr {
        rn: Reg,
        targets: Vec<Label>,
    },
    /// Returns to the address in `link`.
    Ret {
        link: Reg,
    },
    /// Goes to `default` where the condition holds, else to the target at the byte offset `ridx` of a table of words.
    JTSequence {
        ridx: Reg,
        default: Label,
        default_cond: Cond,
        targets: Vec<Label>,
    },
    /// Runs its members again while the condition holds behind them.
    Loop {
        cond: Cond,
        body: Vec<Inst>,
    },
    /// Leaves the innermost `Loop` where the condition holds.
    CondBreak {
        cond: Cond,
    },
    /// Calls a function.
    Call {
        link: Reg,
        info: Box<CallInfo>,
    },
    /// Calls a function in place of returning.
    ReturnCall {
        info: Box<ReturnCallInfo>,
    },
    /// Takes `size` bytes from the stack for the arguments of a call.
    AllocateArgs {
        size: u32,
    },
    /// `rd` becomes the address that a relocation names.
    LoadSymbolReloc {
        rd: Reg,
        symbol_reloc: SymbolReloc,
    },
    /// `dst` becomes the address of a label.
    LabelAddress {
        dst: Reg,
        label: Label,
    },
    /// The arguments come in.
    Args {
        args: Vec<ArgPair>,
    },
    /// The results go out.
    Rets {
        rets: Vec<RetPair>,
    },
    /// Uses a register, and does nothing.
    DummyUse {
        reg: Reg,
    },
    /// A place to stop at, in no bytes.
    SequencePoint,
    /// `rd` becomes `rn op rm`.
    VecRRR {
        op: VecBinaryOp,
        rd: Reg,
        rn: Reg,
        rm: Reg,
    },
    /// `rd` becomes `op rn`.
    VecRR {
        op: VecUnaryOp,
        rd: Reg,
        rn: Reg,
    },
    /// `rd` becomes `rn`, its lanes shifted by `shift_imm` plus `shift_reg`.
    VecShiftRR {
        shift_op: VecShiftOp,
        rd: Reg,
        rn: Reg,
        shift_imm: u8,
        shift_reg: Reg,
    },
    /// `rd` has the bits of `rn` where `ra` has ones, else those of `rm`.
    VecSelect {
        rd: Reg,
        rn: Reg,
        rm: Reg,
        ra: Reg,
    },
    /// `rd` has the bytes of `rn` and `rm` that the bytes of `ra` name.
    VecPermute {
        rd: Reg,
        rn: Reg,
        rm: Reg,
        ra: Reg,
    },
    /// `rd` has the lanes of `rn` or `rm` that the lanes of `ra` choose.
    VecBlend {
        rd: Reg,
        rn: Reg,
        rm: Reg,
        ra: Reg,
    },
    /// `rd` has for each bit of `rn`, `rm` and `ra` the bit that the truth table `imm` gives.
    VecEvaluate {
        imm: u8,
        rd: Reg,
        rn: Reg,
        rm: Reg,
        ra: Reg,
    },
    /// `rd` has doubleword `idx1` of `rn` and doubleword `idx2` of `rm`.
    VecPermuteDWImm {
        rd: Reg,
        rn: Reg,
        rm: Reg,
        idx1: u8,
        idx2: u8,
    },
    /// The lanes of `rd` become ones where the comparison holds, else zeros.
    VecIntCmp {
        op: VecIntCmpOp,
        rd: Reg,
        rn: Reg,
        rm: Reg,
    },
    /// As `VecIntCmp`, and sets the condition code.
    VecIntCmpS {
        op: VecIntCmpOp,
        rd: Reg,
        rn: Reg,
        rm: Reg,
    },
    /// Compares two numbers of 128 bits.
    VecIntEltCmp {
        op: VecIntEltCmpOp,
        rn: Reg,
        rm: Reg,
    },
    /// Whether `rn` is greater than `rm`, signed; `tmp` may change.
    VecInt128SCmpHi {
        tmp: Reg,
        rn: Reg,
        rm: Reg,
    },
    /// Whether `rn` is greater than `rm`, unsigned; `tmp` may change.
    VecInt128UCmpHi {
        tmp: Reg,
        rn: Reg,
        rm: Reg,
    },
    /// Loads 128 bits.
    VecLoad {
        rd: Reg,
        mem: MemArg,
    },
    /// Loads 128 bits, their bytes reversed.
    VecLoadRev {
        rd: Reg,
        mem: MemArg,
    },
    /// Loads 128 bits, the bytes of each lane of 16 bits reversed.
    VecLoadByte16Rev {
        rd: Reg,
        mem: MemArg,
    },
    /// Loads 128 bits, the bytes of each lane of 32 bits reversed.
    VecLoadByte32Rev {
        rd: Reg,
        mem: MemArg,
    },
    /// Loads 128 bits, the bytes of each lane of 64 bits reversed.
    VecLoadByte64Rev {
        rd: Reg,
        mem: MemArg,
    },
    /// Loads 128 bits, the lanes of 16 bits reversed.
    VecLoadElt16Rev {
        rd: Reg,
        mem: MemArg,
    },
    /// Loads 128 bits, the lanes of 32 bits reversed.
    VecLoadElt32Rev {
        rd: Reg,
        mem: MemArg,
    },
    /// Loads 128 bits, the lanes of 64 bits reversed.
    VecLoadElt64Rev {
        rd: Reg,
        mem: MemArg,
    },
    /// Stores 128 bits.
    VecStore {
        rd: Reg,
        mem: MemArg,
    },
    /// Stores 128 bits, their bytes reversed.
    VecStoreRev {
        rd: Reg,
        mem: MemArg,
    },
    /// Stores 128 bits, the bytes of each lane of 16 bits reversed.
    VecStoreByte16Rev {
        rd: Reg,
        mem: MemArg,
    },
    /// Stores 128 bits, the bytes of each lane of 32 bits reversed.
    VecStoreByte32Rev {
        rd: Reg,
        mem: MemArg,
    },
    /// Stores 128 bits, the bytes of each lane of 64 bits reversed.
    VecStoreByte64Rev {
        rd: Reg,
        mem: MemArg,
    },
    /// Stores 128 bits, the lanes of 16 bits reversed.
    VecStoreElt16Rev {
        rd: Reg,
        mem: MemArg,
    },
    /// Stores 128 bits, the lanes of 32 bits reversed.
    VecStoreElt32Rev {
        rd: Reg,
        mem: MemArg,
    },
    /// Stores 128 bits, the lanes of 64 bits reversed.
    VecStoreElt64Rev {
        rd: Reg,
        mem: MemArg,
    },
    /// Loads one lane of `size` bits into all lanes.
    VecLoadReplicate {
        size: u32,
        rd: Reg,
        mem: MemArg,
    },
    /// Loads one lane of `size` bits, its bytes reversed, into all lanes.
    VecLoadReplicateRev {
        size: u32,
        rd: Reg,
        mem: MemArg,
    },
    /// Loads the lane `lane_imm` of `size` bits; `ri` is `rd`.
    VecLoadLane {
        size: u32,
        rd: Reg,
        ri: Reg,
        mem: MemArg,
        lane_imm: u8,
    },
    /// Loads the lane `lane_imm` of `size` bits, its bytes reversed; `ri` is `rd`.
    VecLoadLaneRev {
        size: u32,
        rd: Reg,
        ri: Reg,
        mem: MemArg,
        lane_imm: u8,
    },
    /// Loads the lane `lane_imm` of `size` bits; the other lanes may change.
    VecLoadLaneUndef {
        size: u32,
        rd: Reg,
        mem: MemArg,
        lane_imm: u8,
    },
    /// Loads the lane `lane_imm` of `size` bits, its bytes reversed; the other lanes may change.
    VecLoadLaneRevUndef {
        size: u32,
        rd: Reg,
        mem: MemArg,
        lane_imm: u8,
    },
    /// Stores the lane `lane_imm` of `size` bits.
    VecStoreLane {
        size: u32,
        rd: Reg,
        mem: MemArg,
        lane_imm: u8,
    },
    /// Stores the lane `lane_imm` of `size` bits, its bytes reversed.
    VecStoreLaneRev {
        size: u32,
        rd: Reg,
        mem: MemArg,
        lane_imm: u8,
    },
    /// `rd` becomes `rn`.
    VecMov {
        rd: Reg,
        rn: Reg,
    },
    /// The left 32 bits of `rd` become those of `rn`; the others may change.
    FpuMove32 {
        rd: Reg,
        rn: Reg,
    },
    /// The left 64 bits of `rd` become those of `rn`; the others may change.
    FpuMove64 {
        rd: Reg,
        rn: Reg,
    },
    /// As `FpuMove32` from `rm`, where the condition holds; `ri` is `rd`.
    FpuCMov32 {
        rd: Reg,
        cond: Cond,
        ri: Reg,
        rm: Reg,
    },
    /// As `FpuMove64` from `rm`, where the condition holds; `ri` is `rd`.
    FpuCMov64 {
        rd: Reg,
        cond: Cond,
        ri: Reg,
        rm: Reg,
    },
    /// `rd` becomes `rm` where the condition holds; `ri` is `rd`.
    VecCMov {
        rd: Reg,
        cond: Cond,
        ri: Reg,
        rm: Reg,
    },
    /// `rd` becomes the general registers `rn` and `rm` side by side.
    MovToVec128 {
        rd: Reg,
        rn: Reg,
        rm: Reg,
    },
    /// Each byte of `rd` becomes ones where its bit of `mask` is one, else zeros.
    VecImmByteMask {
        rd: Reg,
        mask: u16,
    },
    /// Each lane of `size` bits becomes ones from `start_bit` to `end_bit`, wrapping.
    VecImmBitMask {
        size: u32,
        rd: Reg,
        start_bit: u8,
        end_bit: u8,
    },
    /// Each lane of `size` bits becomes `imm`.
    VecImmReplicate {
        size: u32,
        rd: Reg,
        imm: i16,
    },
    /// The lane `lane_imm` plus `lane_reg` becomes the low `size` bits of `rn`; `ri` is `rd`.
    VecInsertLane {
        size: u32,
        rd: Reg,
        ri: Reg,
        rn: Reg,
        lane_imm: u8,
        lane_reg: Reg,
    },
    /// The lane `lane_imm` plus `lane_reg` becomes the low `size` bits of `rn`; the other lanes may change.
    VecInsertLaneUndef {
        size: u32,
        rd: Reg,
        rn: Reg,
        lane_imm: u8,
        lane_reg: Reg,
    },
    /// `rd` becomes the lane `lane_imm` plus `lane_reg` of `size` bits, zero-extended.
    VecExtractLane {
        size: u32,
        rd: Reg,
        rn: Reg,
        lane_imm: u8,
        lane_reg: Reg,
    },
    /// The lane `lane_imm` of `size` bits becomes `imm`; `ri` is `rd`.
    VecInsertLaneImm {
        size: u32,
        rd: Reg,
        ri: Reg,
        imm: i16,
        lane_imm: u8,
    },
    /// The lane `lane_imm` of `size` bits becomes `imm`; the other lanes may change.
    VecInsertLaneImmUndef {
        size: u32,
        rd: Reg,
        imm: i16,
        lane_imm: u8,
    },
    /// All lanes of `size` bits become the lane `lane_imm` of `rn`.
    VecReplicateLane {
        size: u32,
        rd: Reg,
        rn: Reg,
        lane_imm: u8,
    },
    /// `rd` becomes `rn` with its lanes in reverse order.
    VecEltRev {
        lane_count: u64,
        rd: Reg,
        rn: Reg,
    },
}

impl Inst {
    /// Appends the instruction's line, and those of a loop's members.
    pub(crate) fn put(&self, out: &mut String) -> fmt::Result {
        match self {
            Inst::AluRRR { alu_op, rd, rn, rm } => writeln!(out, "AluRRR {alu_op} {rd} {rn} {rm}"),
            Inst::AluRRSImm16 { alu_op, rd, rn, imm } => writeln!(out, "AluRRSImm16 {alu_op} {rd} {rn} {imm}"),
            Inst::AluRR { alu_op, rd, ri, rm } => writeln!(out, "AluRR {alu_op} {rd} {ri} {rm}"),
            Inst::AluRX { alu_op, rd, ri, mem } => writeln!(out, "AluRX {alu_op} {rd} {ri} {mem}"),
            Inst::AluRSImm16 { alu_op, rd, ri, imm } => writeln!(out, "AluRSImm16 {alu_op} {rd} {ri} {imm}"),
            Inst::AluRSImm32 { alu_op, rd, ri, imm } => writeln!(out, "AluRSImm32 {alu_op} {rd} {ri} {imm}"),
            Inst::AluRUImm32 { alu_op, rd, ri, imm } => writeln!(out, "AluRUImm32 {alu_op} {rd} {ri} {imm}"),
            Inst::AluRUImm16Shifted { alu_op, rd, ri, imm } => writeln!(out, "AluRUImm16Shifted {alu_op} {rd} {ri} {imm}"),
            Inst::AluRUImm32Shifted { alu_op, rd, ri, imm } => writeln!(out, "AluRUImm32Shifted {alu_op} {rd} {ri} {imm}"),
            Inst::SMulWide { rd, rn, rm } => writeln!(out, "SMulWide {rd} {rn} {rm}"),
            Inst::UMulWide { rd, ri, rn } => writeln!(out, "UMulWide {rd} {ri} {rn}"),
            Inst::SDivMod32 { rd, ri, rn } => writeln!(out, "SDivMod32 {rd} {ri} {rn}"),
            Inst::SDivMod64 { rd, ri, rn } => writeln!(out, "SDivMod64 {rd} {ri} {rn}"),
            Inst::UDivMod32 { rd, ri, rn } => writeln!(out, "UDivMod32 {rd} {ri} {rn}"),
            Inst::UDivMod64 { rd, ri, rn } => writeln!(out, "UDivMod64 {rd} {ri} {rn}"),
            Inst::Flogr { rd, rn } => writeln!(out, "Flogr {rd} {rn}"),
            Inst::ShiftRR { shift_op, rd, rn, shift_imm, shift_reg } => writeln!(out, "ShiftRR {shift_op} {rd} {rn} {shift_imm} {shift_reg}"),
            Inst::RxSBG { op, rd, ri, rn, start_bit, end_bit, rotate_amt } => writeln!(out, "RxSBG {op} {rd} {ri} {rn} {start_bit} {end_bit} {rotate_amt}"),
            Inst::RxSBGTest { op, rd, rn, start_bit, end_bit, rotate_amt } => writeln!(out, "RxSBGTest {op} {rd} {rn} {start_bit} {end_bit} {rotate_amt}"),
            Inst::UnaryRR { op, rd, rn } => writeln!(out, "UnaryRR {op} {rd} {rn}"),
            Inst::CmpRR { op, rn, rm } => writeln!(out, "CmpRR {op} {rn} {rm}"),
            Inst::CmpRX { op, rn, mem } => writeln!(out, "CmpRX {op} {rn} {mem}"),
            Inst::CmpRSImm16 { op, rn, imm } => writeln!(out, "CmpRSImm16 {op} {rn} {imm}"),
            Inst::CmpRSImm32 { op, rn, imm } => writeln!(out, "CmpRSImm32 {op} {rn} {imm}"),
            Inst::CmpRUImm32 { op, rn, imm } => writeln!(out, "CmpRUImm32 {op} {rn} {imm}"),
            Inst::CmpTrapRR { op, rn, rm, cond, trap_code } => writeln!(out, "CmpTrapRR {op} {rn} {rm} {cond} {trap_code}"),
            Inst::CmpTrapRSImm16 { op, rn, imm, cond, trap_code } => writeln!(out, "CmpTrapRSImm16 {op} {rn} {imm} {cond} {trap_code}"),
            Inst::CmpTrapRUImm16 { op, rn, imm, cond, trap_code } => writeln!(out, "CmpTrapRUImm16 {op} {rn} {imm} {cond} {trap_code}"),
            Inst::Mov64 { rd, rm } => writeln!(out, "Mov64 {rd} {rm}"),
            Inst::MovPReg { rd, rm } => writeln!(out, "MovPReg {rd} {rm}"),
            Inst::Mov32 { rd, rm } => writeln!(out, "Mov32 {rd} {rm}"),
            Inst::Mov32Imm { rd, imm } => writeln!(out, "Mov32Imm {rd} {imm}"),
            Inst::Mov32SImm16 { rd, imm } => writeln!(out, "Mov32SImm16 {rd} {imm}"),
            Inst::Mov64SImm16 { rd, imm } => writeln!(out, "Mov64SImm16 {rd} {imm}"),
            Inst::Mov64SImm32 { rd, imm } => writeln!(out, "Mov64SImm32 {rd} {imm}"),
            Inst::Mov64UImm16Shifted { rd, imm } => writeln!(out, "Mov64UImm16Shifted {rd} {imm}"),
            Inst::Mov64UImm32Shifted { rd, imm } => writeln!(out, "Mov64UImm32Shifted {rd} {imm}"),
            Inst::Insert64UImm16Shifted { rd, ri, imm } => writeln!(out, "Insert64UImm16Shifted {rd} {ri} {imm}"),
            Inst::Insert64UImm32Shifted { rd, ri, imm } => writeln!(out, "Insert64UImm32Shifted {rd} {ri} {imm}"),
            Inst::CMov32 { rd, cond, ri, rm } => writeln!(out, "CMov32 {rd} {cond} {ri} {rm}"),
            Inst::CMov64 { rd, cond, ri, rm } => writeln!(out, "CMov64 {rd} {cond} {ri} {rm}"),
            Inst::CMov32SImm16 { rd, cond, ri, imm } => writeln!(out, "CMov32SImm16 {rd} {cond} {ri} {imm}"),
            Inst::CMov64SImm16 { rd, cond, ri, imm } => writeln!(out, "CMov64SImm16 {rd} {cond} {ri} {imm}"),
            Inst::Extend { rd, rn, signed, from_bits, to_bits } => writeln!(out, "Extend {rd} {rn} {signed} {from_bits} {to_bits}"),
            Inst::LoadAR { rd, ar } => writeln!(out, "LoadAR {rd} {ar}"),
            Inst::InsertAR { rd, ri, ar } => writeln!(out, "InsertAR {rd} {ri} {ar}"),
            Inst::Load32 { rd, mem } => writeln!(out, "Load32 {rd} {mem}"),
            Inst::Load32ZExt8 { rd, mem } => writeln!(out, "Load32ZExt8 {rd} {mem}"),
            Inst::Load32SExt8 { rd, mem } => writeln!(out, "Load32SExt8 {rd} {mem}"),
            Inst::Load32ZExt16 { rd, mem } => writeln!(out, "Load32ZExt16 {rd} {mem}"),
            Inst::Load32SExt16 { rd, mem } => writeln!(out, "Load32SExt16 {rd} {mem}"),
            Inst::Load64 { rd, mem } => writeln!(out, "Load64 {rd} {mem}"),
            Inst::Load64ZExt8 { rd, mem } => writeln!(out, "Load64ZExt8 {rd} {mem}"),
            Inst::Load64SExt8 { rd, mem } => writeln!(out, "Load64SExt8 {rd} {mem}"),
            Inst::Load64ZExt16 { rd, mem } => writeln!(out, "Load64ZExt16 {rd} {mem}"),
            Inst::Load64SExt16 { rd, mem } => writeln!(out, "Load64SExt16 {rd} {mem}"),
            Inst::Load64ZExt32 { rd, mem } => writeln!(out, "Load64ZExt32 {rd} {mem}"),
            Inst::Load64SExt32 { rd, mem } => writeln!(out, "Load64SExt32 {rd} {mem}"),
            Inst::LoadRev16 { rd, mem } => writeln!(out, "LoadRev16 {rd} {mem}"),
            Inst::LoadRev32 { rd, mem } => writeln!(out, "LoadRev32 {rd} {mem}"),
            Inst::LoadRev64 { rd, mem } => writeln!(out, "LoadRev64 {rd} {mem}"),
            Inst::Store8 { rd, mem } => writeln!(out, "Store8 {rd} {mem}"),
            Inst::Store16 { rd, mem } => writeln!(out, "Store16 {rd} {mem}"),
            Inst::Store32 { rd, mem } => writeln!(out, "Store32 {rd} {mem}"),
            Inst::Store64 { rd, mem } => writeln!(out, "Store64 {rd} {mem}"),
            Inst::StoreRev16 { rd, mem } => writeln!(out, "StoreRev16 {rd} {mem}"),
            Inst::StoreRev32 { rd, mem } => writeln!(out, "StoreRev32 {rd} {mem}"),
            Inst::StoreRev64 { rd, mem } => writeln!(out, "StoreRev64 {rd} {mem}"),
            Inst::StoreImm8 { imm, mem } => writeln!(out, "StoreImm8 {imm} {mem}"),
            Inst::StoreImm16 { imm, mem } => writeln!(out, "StoreImm16 {imm} {mem}"),
            Inst::StoreImm32SExt16 { imm, mem } => writeln!(out, "StoreImm32SExt16 {imm} {mem}"),
            Inst::StoreImm64SExt16 { imm, mem } => writeln!(out, "StoreImm64SExt16 {imm} {mem}"),
            Inst::LoadMultiple64 { rt, rt2, mem } => writeln!(out, "LoadMultiple64 {rt} {rt2} {mem}"),
            Inst::StoreMultiple64 { rt, rt2, mem } => writeln!(out, "StoreMultiple64 {rt} {rt2} {mem}"),
            Inst::LoadAddr { rd, mem } => writeln!(out, "LoadAddr {rd} {mem}"),
            Inst::LoadIndexedAddr { rd, base, index, offset, size } => writeln!(out, "LoadIndexedAddr {rd} {base} {index} {offset} {size}"),
            Inst::LoadLogicalIndexedAddr { rd, base, index, offset, size } => writeln!(out, "LoadLogicalIndexedAddr {rd} {base} {index} {offset} {size}"),
            Inst::AtomicRmw { alu_op, rd, rn, mem } => writeln!(out, "AtomicRmw {alu_op} {rd} {rn} {mem}"),
            Inst::AtomicCas32 { rd, ri, rn, mem } => writeln!(out, "AtomicCas32 {rd} {ri} {rn} {mem}"),
            Inst::AtomicCas64 { rd, ri, rn, mem } => writeln!(out, "AtomicCas64 {rd} {ri} {rn} {mem}"),
            Inst::Fence => writeln!(out, "Fence"),
            Inst::Nop0 => writeln!(out, "Nop0"),
            Inst::Nop2 => writeln!(out, "Nop2"),
            Inst::Debugtrap => writeln!(out, "Debugtrap"),
            Inst::Trap { trap_code } => writeln!(out, "Trap {trap_code}"),
            Inst::TrapIf { cond, trap_code } => writeln!(out, "TrapIf {cond} {trap_code}"),
            Inst::Jump { dest } => writeln!(out, "Jump {dest}"),
            Inst::CondBr { taken, not_taken, cond } => writeln!(out, "CondBr {taken} {not_taken} {cond}"),
            Inst::IndirectBr { rn, targets } => writeln!(out, "IndirectBr {rn} {}", List(targets)),
            Inst::Ret { link } => writeln!(out, "Ret {link}"),
            Inst::JTSequence { ridx, default, default_cond, targets } => writeln!(out, "JTSequence {ridx} {default} {default_cond} {}", List(targets)),
            Inst::Loop { cond, body } => {
                writeln!(out, "Loop {cond}")?;
                for inst in body {
                    inst.put(out)?;
                }
                writeln!(out, "endloop")
            }
            Inst::CondBreak { cond } => writeln!(out, "CondBreak {cond}"),
            Inst::Call { link, info } => writeln!(out, "Call {link} {info}"),
            Inst::ReturnCall { info } => writeln!(out, "ReturnCall {info}"),
            Inst::AllocateArgs { size } => writeln!(out, "AllocateArgs {size}"),
            Inst::LoadSymbolReloc { rd, symbol_reloc } => writeln!(out, "LoadSymbolReloc {rd} {symbol_reloc}"),
            Inst::LabelAddress { dst, label } => writeln!(out, "LabelAddress {dst} {label}"),
            Inst::Args { args } => writeln!(out, "Args {}", List(args)),
            Inst::Rets { rets } => writeln!(out, "Rets {}", List(rets)),
            Inst::DummyUse { reg } => writeln!(out, "DummyUse {reg}"),
            Inst::SequencePoint => writeln!(out, "SequencePoint"),
            Inst::VecRRR { op, rd, rn, rm } => writeln!(out, "VecRRR {op} {rd} {rn} {rm}"),
            Inst::VecRR { op, rd, rn } => writeln!(out, "VecRR {op} {rd} {rn}"),
            Inst::VecShiftRR { shift_op, rd, rn, shift_imm, shift_reg } => writeln!(out, "VecShiftRR {shift_op} {rd} {rn} {shift_imm} {shift_reg}"),
            Inst::VecSelect { rd, rn, rm, ra } => writeln!(out, "VecSelect {rd} {rn} {rm} {ra}"),
            Inst::VecPermute { rd, rn, rm, ra } => writeln!(out, "VecPermute {rd} {rn} {rm} {ra}"),
            Inst::VecBlend { rd, rn, rm, ra } => writeln!(out, "VecBlend {rd} {rn} {rm} {ra}"),
            Inst::VecEvaluate { imm, rd, rn, rm, ra } => writeln!(out, "VecEvaluate {imm} {rd} {rn} {rm} {ra}"),
            Inst::VecPermuteDWImm { rd, rn, rm, idx1, idx2 } => writeln!(out, "VecPermuteDWImm {rd} {rn} {rm} {idx1} {idx2}"),
            Inst::VecIntCmp { op, rd, rn, rm } => writeln!(out, "VecIntCmp {op} {rd} {rn} {rm}"),
            Inst::VecIntCmpS { op, rd, rn, rm } => writeln!(out, "VecIntCmpS {op} {rd} {rn} {rm}"),
            Inst::VecIntEltCmp { op, rn, rm } => writeln!(out, "VecIntEltCmp {op} {rn} {rm}"),
            Inst::VecInt128SCmpHi { tmp, rn, rm } => writeln!(out, "VecInt128SCmpHi {tmp} {rn} {rm}"),
            Inst::VecInt128UCmpHi { tmp, rn, rm } => writeln!(out, "VecInt128UCmpHi {tmp} {rn} {rm}"),
            Inst::VecLoad { rd, mem } => writeln!(out, "VecLoad {rd} {mem}"),
            Inst::VecLoadRev { rd, mem } => writeln!(out, "VecLoadRev {rd} {mem}"),
            Inst::VecLoadByte16Rev { rd, mem } => writeln!(out, "VecLoadByte16Rev {rd} {mem}"),
            Inst::VecLoadByte32Rev { rd, mem } => writeln!(out, "VecLoadByte32Rev {rd} {mem}"),
            Inst::VecLoadByte64Rev { rd, mem } => writeln!(out, "VecLoadByte64Rev {rd} {mem}"),
            Inst::VecLoadElt16Rev { rd, mem } => writeln!(out, "VecLoadElt16Rev {rd} {mem}"),
            Inst::VecLoadElt32Rev { rd, mem } => writeln!(out, "VecLoadElt32Rev {rd} {mem}"),
            Inst::VecLoadElt64Rev { rd, mem } => writeln!(out, "VecLoadElt64Rev {rd} {mem}"),
            Inst::VecStore { rd, mem } => writeln!(out, "VecStore {rd} {mem}"),
            Inst::VecStoreRev { rd, mem } => writeln!(out, "VecStoreRev {rd} {mem}"),
            Inst::VecStoreByte16Rev { rd, mem } => writeln!(out, "VecStoreByte16Rev {rd} {mem}"),
            Inst::VecStoreByte32Rev { rd, mem } => writeln!(out, "VecStoreByte32Rev {rd} {mem}"),
            Inst::VecStoreByte64Rev { rd, mem } => writeln!(out, "VecStoreByte64Rev {rd} {mem}"),
            Inst::VecStoreElt16Rev { rd, mem } => writeln!(out, "VecStoreElt16Rev {rd} {mem}"),
            Inst::VecStoreElt32Rev { rd, mem } => writeln!(out, "VecStoreElt32Rev {rd} {mem}"),
            Inst::VecStoreElt64Rev { rd, mem } => writeln!(out, "VecStoreElt64Rev {rd} {mem}"),
            Inst::VecLoadReplicate { size, rd, mem } => writeln!(out, "VecLoadReplicate {size} {rd} {mem}"),
            Inst::VecLoadReplicateRev { size, rd, mem } => writeln!(out, "VecLoadReplicateRev {size} {rd} {mem}"),
            Inst::VecLoadLane { size, rd, ri, mem, lane_imm } => writeln!(out, "VecLoadLane {size} {rd} {ri} {mem} {lane_imm}"),
            Inst::VecLoadLaneRev { size, rd, ri, mem, lane_imm } => writeln!(out, "VecLoadLaneRev {size} {rd} {ri} {mem} {lane_imm}"),
            Inst::VecLoadLaneUndef { size, rd, mem, lane_imm } => writeln!(out, "VecLoadLaneUndef {size} {rd} {mem} {lane_imm}"),
            Inst::VecLoadLaneRevUndef { size, rd, mem, lane_imm } => writeln!(out, "VecLoadLaneRevUndef {size} {rd} {mem} {lane_imm}"),
            Inst::VecStoreLane { size, rd, mem, lane_imm } => writeln!(out, "VecStoreLane {size} {rd} {mem} {lane_imm}"),
            Inst::VecStoreLaneRev { size, rd, mem, lane_imm } => writeln!(out, "VecStoreLaneRev {size} {rd} {mem} {lane_imm}"),
            Inst::VecMov { rd, rn } => writeln!(out, "VecMov {rd} {rn}"),
            Inst::FpuMove32 { rd, rn } => writeln!(out, "FpuMove32 {rd} {rn}"),
            Inst::FpuMove64 { rd, rn } => writeln!(out, "FpuMove64 {rd} {rn}"),
            Inst::FpuCMov32 { rd, cond, ri, rm } => writeln!(out, "FpuCMov32 {rd} {cond} {ri} {rm}"),
            Inst::FpuCMov64 { rd, cond, ri, rm } => writeln!(out, "FpuCMov64 {rd} {cond} {ri} {rm}"),
            Inst::VecCMov { rd, cond, ri, rm } => writeln!(out, "VecCMov {rd} {cond} {ri} {rm}"),
            Inst::MovToVec128 { rd, rn, rm } => writeln!(out, "MovToVec128 {rd} {rn} {rm}"),
            Inst::VecImmByteMask { rd, mask } => writeln!(out, "VecImmByteMask {rd} {mask}"),
            Inst::VecImmBitMask { size, rd, start_bit, end_bit } => writeln!(out, "VecImmBitMask {size} {rd} {start_bit} {end_bit}"),
            Inst::VecImmReplicate { size, rd, imm } => writeln!(out, "VecImmReplicate {size} {rd} {imm}"),
            Inst::VecInsertLane { size, rd, ri, rn, lane_imm, lane_reg } => writeln!(out, "VecInsertLane {size} {rd} {ri} {rn} {lane_imm} {lane_reg}"),
            Inst::VecInsertLaneUndef { size, rd, rn, lane_imm, lane_reg } => writeln!(out, "VecInsertLaneUndef {size} {rd} {rn} {lane_imm} {lane_reg}"),
            Inst::VecExtractLane { size, rd, rn, lane_imm, lane_reg } => writeln!(out, "VecExtractLane {size} {rd} {rn} {lane_imm} {lane_reg}"),
            Inst::VecInsertLaneImm { size, rd, ri, imm, lane_imm } => writeln!(out, "VecInsertLaneImm {size} {rd} {ri} {imm} {lane_imm}"),
            Inst::VecInsertLaneImmUndef { size, rd, imm, lane_imm } => writeln!(out, "VecInsertLaneImmUndef {size} {rd} {imm} {lane_imm}"),
            Inst::VecReplicateLane { size, rd, rn, lane_imm } => writeln!(out, "VecReplicateLane {size} {rd} {rn} {lane_imm}"),
            Inst::VecEltRev { lane_count, rd, rn } => writeln!(out, "VecEltRev {lane_count} {rd} {rn}"),
        }
    }
}
