//! Registers, memory operands, conditions, trap codes and what calls have: each displayed as a field of a job's line.

use std::fmt;

/// A register.
#[derive(Clone, Copy, PartialEq, Eq, Debug)]
pub enum Reg {
    /// `%r0` to `%r15`.
    General(u8),
    /// `%v0` to `%v31`; the first sixteen are the float registers.
    Vector(u8),
    /// A virtual general register, before allocation.
    VirtualGeneral(u32),
    /// A virtual vector register, before allocation.
    VirtualVector(u32),
}

/// The general register with this number.
pub fn gpr(number: u8) -> Reg {
    Reg::General(number)
}

/// The vector register with this number.
pub fn vr(number: u8) -> Reg {
    Reg::Vector(number)
}

impl fmt::Display for Reg {
    fn fmt(&self, f: &mut fmt::Formatter<'_>) -> fmt::Result {
        match self {
            Reg::General(number) => write!(f, "%r{number}"),
            Reg::Vector(number) => write!(f, "%v{number}"),
            Reg::VirtualGeneral(number) => write!(f, "%i{number}"),
            Reg::VirtualVector(number) => write!(f, "%x{number}"),
        }
    }
}

/// A pair of registers: the high half and the low half.
#[allow(missing_docs)]
#[derive(Clone, Copy, PartialEq, Eq, Debug)]
pub struct RegPair {
    pub hi: Reg,
    pub lo: Reg,
}

impl fmt::Display for RegPair {
    fn fmt(&self, f: &mut fmt::Formatter<'_>) -> fmt::Result {
        write!(f, "{}/{}", self.hi, self.lo)
    }
}

/// A part of a value: its bits, and how many times 16 or 32 bits it is shifted left.
#[allow(missing_docs)]
#[derive(Clone, Copy, PartialEq, Eq, Debug)]
pub struct Shifted<T> {
    pub bits: T,
    pub shift: u8,
}

impl<T: fmt::Display> fmt::Display for Shifted<T> {
    fn fmt(&self, f: &mut fmt::Formatter<'_>) -> fmt::Result {
        write!(f, "{}:{}", self.bits, self.shift)
    }
}

/// A block, by its number.
#[derive(Clone, Copy, PartialEq, Eq, Debug)]
pub struct Label(pub u32);

impl fmt::Display for Label {
    fn fmt(&self, f: &mut fmt::Formatter<'_>) -> fmt::Result {
        write!(f, "{}", self.0)
    }
}

/// A symbol, by the number of its name.
#[derive(Clone, Copy, PartialEq, Eq, Debug)]
pub struct Symbol(pub u32);

impl fmt::Display for Symbol {
    fn fmt(&self, f: &mut fmt::Formatter<'_>) -> fmt::Result {
        write!(f, "u{}", self.0)
    }
}

/// A condition: a mask of 1 to 14. Bit 8 stands for condition code 0, 4 for code 1, 2 for code 2 and 1 for code 3.
#[derive(Clone, Copy, PartialEq, Eq, Debug)]
pub struct Cond(pub u8);

impl fmt::Display for Cond {
    fn fmt(&self, f: &mut fmt::Formatter<'_>) -> fmt::Result {
        write!(f, "{}", self.0)
    }
}

/// A trap code.
#[allow(missing_docs)]
#[derive(Clone, Copy, PartialEq, Eq, Debug)]
pub enum TrapCode {
    StackOverflow,
    IntegerOverflow,
    HeapOutOfBounds,
    IntegerDivisionByZero,
    BadConversionToInteger,
    /// A user's, 1 to 250.
    User(u8),
}

impl fmt::Display for TrapCode {
    fn fmt(&self, f: &mut fmt::Formatter<'_>) -> fmt::Result {
        match self {
            TrapCode::StackOverflow => f.write_str("stk_ovf"),
            TrapCode::IntegerOverflow => f.write_str("int_ovf"),
            TrapCode::HeapOutOfBounds => f.write_str("heap_oob"),
            TrapCode::IntegerDivisionByZero => f.write_str("int_divz"),
            TrapCode::BadConversionToInteger => f.write_str("bad_toint"),
            TrapCode::User(number) => write!(f, "user{number}"),
        }
    }
}

/// What is known of a memory access.
#[derive(Clone, Copy, PartialEq, Eq, Debug, Default)]
pub struct MemFlags {
    /// Whether the address is a multiple of the width.
    pub aligned: bool,
    /// The code of a trap at this access; where there is none, the access doesn't fault.
    pub trap: Option<TrapCode>,
}

impl fmt::Display for MemFlags {
    fn fmt(&self, f: &mut fmt::Formatter<'_>) -> fmt::Result {
        f.write_str(if self.aligned { "a" } else { "u" })?;
        match self.trap {
            Some(code) => write!(f, "!{code}"),
            None => Ok(()),
        }
    }
}

/// A memory operand.
#[allow(missing_docs)]
#[derive(Clone, Copy, PartialEq, Eq, Debug)]
pub enum MemArg {
    /// Base plus index plus an unsigned displacement of 12 bits. `%r0` as base or index counts as zero.
    BXD12 { base: Reg, index: Reg, disp: u16, flags: MemFlags },
    /// Base plus index plus a signed displacement of 20 bits. `%r0` as base or index counts as zero.
    BXD20 { base: Reg, index: Reg, disp: i32, flags: MemFlags },
    /// The address of a block.
    Label { target: Label },
    /// The address of a constant, by its number.
    Constant { constant: u32 },
    /// The address of a symbol, plus an offset.
    Symbol { name: Symbol, offset: i32, flags: MemFlags },
    /// A register plus an offset. `%r0` counts as zero.
    RegOffset { reg: Reg, off: i64, flags: MemFlags },
    /// Offset from the stack pointer at the function's entry.
    InitialSPOffset { off: i64 },
    /// Offset into the function's incoming arguments.
    IncomingArgOffset { off: i64 },
    /// Offset into the outgoing arguments of a call.
    OutgoingArgOffset { off: i64 },
    /// Offset into the function's stack slots.
    SlotOffset { off: i64 },
    /// Offset into the function's spill area.
    SpillOffset { off: i64 },
}

impl fmt::Display for MemArg {
    fn fmt(&self, f: &mut fmt::Formatter<'_>) -> fmt::Result {
        match self {
            MemArg::BXD12 { base, index, disp, flags } => write!(f, "BXD12({base},{index},{disp},{flags})"),
            MemArg::BXD20 { base, index, disp, flags } => write!(f, "BXD20({base},{index},{disp},{flags})"),
            MemArg::Label { target } => write!(f, "Label({target})"),
            MemArg::Constant { constant } => write!(f, "Constant({constant})"),
            MemArg::Symbol { name, offset, flags } => write!(f, "Symbol({name},{offset},{flags})"),
            MemArg::RegOffset { reg, off, flags } => write!(f, "RegOffset({reg},{off},{flags})"),
            MemArg::InitialSPOffset { off } => write!(f, "InitialSPOffset({off})"),
            MemArg::IncomingArgOffset { off } => write!(f, "IncomingArgOffset({off})"),
            MemArg::OutgoingArgOffset { off } => write!(f, "OutgoingArgOffset({off})"),
            MemArg::SlotOffset { off } => write!(f, "SlotOffset({off})"),
            MemArg::SpillOffset { off } => write!(f, "SpillOffset({off})"),
        }
    }
}

/// What a relocation of eight bytes names.
#[allow(missing_docs)]
#[derive(Clone, Copy, PartialEq, Eq, Debug)]
pub enum SymbolReloc {
    Absolute { name: Symbol, offset: i64 },
}

impl fmt::Display for SymbolReloc {
    fn fmt(&self, f: &mut fmt::Formatter<'_>) -> fmt::Result {
        let SymbolReloc::Absolute { name, offset } = self;
        write!(f, "Absolute({name},{offset})")
    }
}

macro_rules! pairs {
    ($($(#[$docs:meta])* $name:ident)*) => {
        $(
            $(#[$docs])*
            #[allow(missing_docs)]
            #[derive(Clone, Copy, PartialEq, Eq, Debug)]
            pub struct $name {
                pub vreg: Reg,
                pub preg: Reg,
            }

            impl fmt::Display for $name {
                fn fmt(&self, f: &mut fmt::Formatter<'_>) -> fmt::Result {
                    write!(f, "{}={}", self.vreg, self.preg)
                }
            }
        )*
    };
}

pairs! {
    /// An argument as it comes in.
    ArgPair
    /// A result as it goes out.
    RetPair
    /// An argument of a call: the register that holds it, and the one that the convention wants.
    CallArgPair
}

/// Where a result of a call comes back: in a register, or at an offset into the outgoing arguments.
#[derive(Clone, Copy, PartialEq, Eq, Debug)]
pub enum RetLocation {
    /// In a register.
    Reg(Reg, ValueType),
    /// At an offset in bytes.
    Stack(i64, ValueType),
}

/// A result of a call: the register that takes it, and where it comes back.
#[allow(missing_docs)]
#[derive(Clone, Copy, PartialEq, Eq, Debug)]
pub struct CallRetPair {
    pub vreg: Reg,
    pub location: RetLocation,
}

impl fmt::Display for CallRetPair {
    fn fmt(&self, f: &mut fmt::Formatter<'_>) -> fmt::Result {
        match self.location {
            RetLocation::Reg(reg, kind) => write!(f, "{}={reg}:{kind}", self.vreg),
            RetLocation::Stack(offset, kind) => write!(f, "{}=@{offset}:{kind}", self.vreg),
        }
    }
}

/// The type of a value.
#[allow(missing_docs)]
#[derive(Clone, Copy, PartialEq, Eq, Debug)]
pub enum ValueType {
    I8,
    I16,
    I32,
    I64,
    I128,
    F16,
    F32,
    F64,
    F128,
    I8X8,
    I8X16,
    I16X8,
    I32X4,
    I64X2,
    F32X4,
    F64X2,
}

impl fmt::Display for ValueType {
    fn fmt(&self, f: &mut fmt::Formatter<'_>) -> fmt::Result {
        fmt::Debug::fmt(self, f)
    }
}

/// A calling convention.
#[allow(missing_docs)]
#[derive(Clone, Copy, PartialEq, Eq, Debug)]
pub enum CallConv {
    Fast,
    Tail,
    SystemV,
}

impl fmt::Display for CallConv {
    fn fmt(&self, f: &mut fmt::Formatter<'_>) -> fmt::Result {
        fmt::Debug::fmt(self, f)
    }
}

/// The target of a call.
#[derive(Clone, Copy, PartialEq, Eq, Debug)]
pub enum CallDest {
    /// A function by its name.
    Direct(Symbol),
    /// The address in a register.
    Indirect(Reg),
}

impl fmt::Display for CallDest {
    fn fmt(&self, f: &mut fmt::Formatter<'_>) -> fmt::Result {
        match self {
            CallDest::Direct(name) => write!(f, "{name}"),
            CallDest::Indirect(reg) => write!(f, "{reg}"),
        }
    }
}

/// A handler of exceptions at a call: for a tag, or for all of them, and its block.
#[allow(missing_docs)]
#[derive(Clone, Copy, PartialEq, Eq, Debug)]
pub struct TryHandler {
    pub tag: Option<u32>,
    pub label: Label,
}

impl fmt::Display for TryHandler {
    fn fmt(&self, f: &mut fmt::Formatter<'_>) -> fmt::Result {
        match self.tag {
            Some(tag) => write!(f, "{tag}:{}", self.label),
            None => write!(f, "*:{}", self.label),
        }
    }
}

/// Where a call with handlers goes on, and its handlers.
#[allow(missing_docs)]
#[derive(Clone, PartialEq, Eq, Debug)]
pub struct TryCall {
    pub continuation: Label,
    pub handlers: Vec<TryHandler>,
}

/// What is known of a call.
#[derive(Clone, PartialEq, Eq, Debug)]
pub struct CallInfo {
    /// Its target.
    pub dest: CallDest,
    /// Its arguments.
    pub uses: Vec<CallArgPair>,
    /// Its results.
    pub defs: Vec<CallRetPair>,
    /// The real registers that it overwrites, general ones first, each class with rising numbers.
    pub clobbers: Vec<Reg>,
    /// How many bytes of arguments the callee takes from the stack.
    pub callee_pop_size: u32,
    /// The caller's convention.
    pub caller_conv: CallConv,
    /// The callee's convention.
    pub callee_conv: CallConv,
    /// Where it goes on and its handlers, where it has some.
    pub try_call: Option<TryCall>,
    /// Whether its bytes may be replaced later.
    pub patchable: bool,
    /// The number of its stack map.
    pub stack_map: Option<u32>,
}

impl CallInfo {
    /// A call without arguments and results, under one convention.
    pub fn new(dest: CallDest, conv: CallConv) -> CallInfo {
        CallInfo {
            dest,
            uses: Vec::new(),
            defs: Vec::new(),
            clobbers: Vec::new(),
            callee_pop_size: 0,
            caller_conv: conv,
            callee_conv: conv,
            try_call: None,
            patchable: false,
            stack_map: None,
        }
    }
}

impl fmt::Display for CallInfo {
    fn fmt(&self, f: &mut fmt::Formatter<'_>) -> fmt::Result {
        write!(f, "{} {} {} {} {} ", self.dest, List(&self.uses), List(&self.defs), List(&self.clobbers), self.callee_pop_size)?;
        write!(f, "{} {} ", self.caller_conv, self.callee_conv)?;
        match &self.try_call {
            Some(it) => write!(f, "{}{} ", it.continuation, List(&it.handlers))?,
            None => f.write_str("- ")?,
        }
        write!(f, "{} ", self.patchable)?;
        match self.stack_map {
            Some(number) => write!(f, "{number}"),
            None => f.write_str("-"),
        }
    }
}

/// What is known of a tail call.
#[derive(Clone, PartialEq, Eq, Debug)]
pub struct ReturnCallInfo {
    /// Its target.
    pub dest: CallDest,
    /// Its arguments.
    pub uses: Vec<CallArgPair>,
    /// How many bytes of arguments the callee takes from the stack.
    pub callee_pop_size: u32,
}

impl fmt::Display for ReturnCallInfo {
    fn fmt(&self, f: &mut fmt::Formatter<'_>) -> fmt::Result {
        write!(f, "{} {} {}", self.dest, List(&self.uses), self.callee_pop_size)
    }
}

/// A list in brackets, its elements joined by commas.
pub(crate) struct List<'a, T>(pub(crate) &'a [T]);

impl<T: fmt::Display> fmt::Display for List<'_, T> {
    fn fmt(&self, f: &mut fmt::Formatter<'_>) -> fmt::Result {
        f.write_str("[")?;
        for (place, item) in self.0.iter().enumerate() {
            if place > 0 {
                f.write_str(",")?;
            }
            write!(f, "{item}")?;
        }
        f.write_str("]")
    }
}
