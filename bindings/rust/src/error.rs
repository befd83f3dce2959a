//! Why a call has no answer.

use crate::operands::Symbol;
use std::error;
use std::fmt;

macro_rules! causes {
    ($(#[$docs:meta])* $name:ident { $($number:literal $variant:ident $text:literal)* }) => {
        $(#[$docs])*
        #[derive(Clone, Copy, PartialEq, Eq, Debug)]
        pub enum $name { $(#[doc = $text] $variant = $number),* }

        impl $name {
            pub(crate) fn of(number: u32) -> Option<Self> {
                match number {
                    $($number => Some(Self::$variant),)*
                    _ => None,
                }
            }
        }

        impl fmt::Display for $name {
            fn fmt(&self, f: &mut fmt::Formatter<'_>) -> fmt::Result {
                f.write_str(match self { $(Self::$variant => $text),* })
            }
        }
    };
}

causes! {
    /// Why emission refuses a function: its first cause.
    EmitCause {
        1 MissingFacility "an instruction needs a facility that isn't among the job's flags"
        2 BadOperator "an instruction has an operator, type, size, lane, bit or shift without a machine row, or a memory operand without a form"
        3 BadRegister "a register isn't real, is of the wrong class, or isn't allowed in its place"
        4 ScratchConflict "%r1 would be read after a helper of the same instruction overwrote it"
        5 OffsetOutOfRange "an offset lies outside signed 32 bits"
        6 BreakOutsideLoop "a CondBreak stands outside every Loop"
        7 BadStackState "stack sizes, of the frame or of an instruction, don't fit the instruction"
        8 UnboundLabel "an instruction names a block or a constant that the job doesn't have"
        9 BadAlignment "an alignment isn't allowed, or an operand isn't aligned as its access needs"
        10 LabelOutOfRange "the code or its blocks go past their limits"
    }
}

causes! {
    /// Why linking refuses a code: its first cause.
    LinkCause {
        1 MisalignedBase "the base isn't a multiple of the code's alignment"
        2 ImageTooHigh "the base plus the length of the code is above 2^64"
        3 UndefinedSymbol "the code uses a symbol of which the job has no line"
        4 AddressOverflow "a symbol with its addend is no address"
        5 OddSymbol "a symbol with its addend lies at an odd distance from a field that counts in halfwords"
        6 TooFar "a symbol with its addend lies too far away: half the distance is outside signed 32 bits"
    }
}

causes! {
    /// Why the operands of an instruction can't be reported.
    OperandCause {
        1 ReuseInLoop "an output that has to be an input stands in a Loop"
        2 NotReal "a register that has to be real is virtual"
    }
}

/// Where a cause stands. Blocks and instructions are counted from 0.
#[derive(Clone, PartialEq, Eq, Debug)]
pub enum Place {
    /// Before the blocks: a stack size of the state, a constant's alignment, or the count of blocks and constants.
    Start,
    /// An instruction.
    Instruction {
        /// Its block.
        block: usize,
        /// Its number in the block; for a member of a `Loop` that of the outermost `Loop` in the block, and then, from the outside in, each
        /// member's number in the `Loop` around it.
        path: Vec<usize>,
    },
    /// The end of a block whose arguments are still allocated.
    BlockEnd {
        /// The block.
        block: usize,
    },
    /// The whole code, which is too long.
    Whole,
}

impl fmt::Display for Place {
    fn fmt(&self, f: &mut fmt::Formatter<'_>) -> fmt::Result {
        match self {
            Place::Start => f.write_str("before the blocks"),
            Place::Instruction { block, path } => {
                write!(f, "at instruction ")?;
                for (depth, number) in path.iter().enumerate() {
                    write!(f, "{}{number}", if depth == 0 { "" } else { "." })?;
                }
                write!(f, " of block {block}")
            }
            Place::BlockEnd { block } => write!(f, "at the end of block {block}"),
            Place::Whole => f.write_str("in the whole code"),
        }
    }
}

/// Why a function doesn't stand in one image with others: its first cause.
#[derive(Clone, Copy, PartialEq, Eq, Debug)]
pub enum MemberCause {
    /// An earlier function has its name, or a symbol line names it.
    DuplicateName,
    /// Emission refuses it.
    Refused(EmitCause),
    /// Its code and constants have no bytes.
    Empty,
    /// Its end would reach 2^31.
    TooLong,
    /// The base plus its start is 2^64 or above.
    AddressTooHigh,
    /// Linking refuses its code.
    Link(LinkCause),
}

impl fmt::Display for MemberCause {
    fn fmt(&self, f: &mut fmt::Formatter<'_>) -> fmt::Result {
        match self {
            MemberCause::DuplicateName => f.write_str("an earlier function has its name, or a symbol line names it"),
            MemberCause::Refused(cause) => write!(f, "emission refuses it: {cause}"),
            MemberCause::Empty => f.write_str("its code and constants have no bytes"),
            MemberCause::TooLong => f.write_str("its end would reach 2^31"),
            MemberCause::AddressTooHigh => f.write_str("the base plus its start is 2^64 or above"),
            MemberCause::Link(cause) => write!(f, "linking refuses its code: {cause}"),
        }
    }
}

/// The first fault of a plan of registers. Blocks, instructions, edits, operands and pairs are counted from 0.
#[allow(missing_docs)]
#[derive(Clone, Copy, PartialEq, Eq, Debug)]
pub enum PlanFault {
    /// The job and the plan differ in their number of blocks.
    Blocks,
    /// A `Loop`, or a `Call` with handlers of exceptions.
    Unsupported { block: u32, inst: u32 },
    /// An instruction that leaves the block before its end, or a label that is no block.
    Shape { block: u32, inst: u32 },
    /// A step without an instruction, or a move behind the block's end; at the number of edits, an instruction without a step.
    Order { block: u32, edit: u32 },
    /// The instruction's operands can't be reported.
    Operands { block: u32, edit: u32, cause: OperandCause },
    /// There are more or fewer registers than operands.
    Count { block: u32, edit: u32 },
    /// The register doesn't suit the operand.
    Constraint { block: u32, edit: u32, operand: u32 },
    /// It is no move.
    Move { block: u32, edit: u32 },
    /// The operand's register doesn't hold what is read.
    Value { block: u32, edit: u32, operand: u32 },
    /// A pair that isn't held where its block begins.
    Entry { block: u32, pair: u32 },
}

impl fmt::Display for PlanFault {
    fn fmt(&self, f: &mut fmt::Formatter<'_>) -> fmt::Result {
        match self {
            PlanFault::Blocks => f.write_str("the job and the plan differ in their number of blocks"),
            PlanFault::Unsupported { block, inst } => write!(f, "no plan is for instruction {inst} of block {block}"),
            PlanFault::Shape { block, inst } => write!(f, "instruction {inst} of block {block} has a wrong place or label"),
            PlanFault::Order { block, edit } => write!(f, "edit {edit} of block {block} stands at a wrong place, or lacks"),
            PlanFault::Operands { block, edit, cause } => write!(f, "edit {edit} of block {block}: {cause}"),
            PlanFault::Count { block, edit } => write!(f, "edit {edit} of block {block} has more or fewer registers than operands"),
            PlanFault::Constraint { block, edit, operand } => {
                write!(f, "the register of operand {operand} of edit {edit} of block {block} doesn't suit it")
            }
            PlanFault::Move { block, edit } => write!(f, "edit {edit} of block {block} is no move"),
            PlanFault::Value { block, edit, operand } => {
                write!(f, "the register of operand {operand} of edit {edit} of block {block} doesn't hold what is read")
            }
            PlanFault::Entry { block, pair } => write!(f, "pair {pair} isn't held where block {block} begins"),
        }
    }
}

/// Why a call has no answer.
#[derive(Clone, PartialEq, Eq, Debug)]
pub enum Error {
    /// The input is no such text; this is its first wrong line, or the one that is lacking, counted from 1.
    Syntax {
        /// The line.
        line: u32,
    },
    /// Emission refuses the function, by its first cause; nothing before the place has one.
    Refused {
        /// The cause.
        cause: EmitCause,
        /// Where it stands.
        place: Place,
    },
    /// Linking refuses its code.
    Link(LinkCause),
    /// Functions have no image together: the first cause.
    Bundle {
        /// The function that has it.
        member: Symbol,
        /// The cause.
        cause: MemberCause,
    },
    /// The operands of an instruction can't be reported, the first such one.
    Unreported {
        /// The cause.
        cause: OperandCause,
        /// Its block.
        block: usize,
        /// Its number in the block.
        instruction: usize,
    },
    /// A plan of registers has this first fault.
    Plan(PlanFault),
    /// The input has more than 16777216 bytes.
    TooLong,
    /// There was no memory; it may come in place of any other but `TooLong`.
    NoMemory,
}

impl fmt::Display for Error {
    fn fmt(&self, f: &mut fmt::Formatter<'_>) -> fmt::Result {
        match self {
            Error::Syntax { line } => write!(f, "line {line} is wrong or lacking"),
            Error::Refused { cause, place } => write!(f, "emission refuses the function {place}: {cause}"),
            Error::Link(cause) => write!(f, "linking refuses the code: {cause}"),
            Error::Bundle { member, cause } => write!(f, "the function {member} has no place in the image: {cause}"),
            Error::Unreported { cause, block, instruction } => {
                write!(f, "instruction {instruction} of block {block} can't be reported: {cause}")
            }
            Error::Plan(fault) => write!(f, "the plan is refused: {fault}"),
            Error::TooLong => f.write_str("the input has more than 16777216 bytes"),
            Error::NoMemory => f.write_str("there is no memory"),
        }
    }
}

impl error::Error for Error {}
