//! What a register allocator asks: what instructions report, and whether a plan of registers has a fault.

use crate::call::{common_error, entries_of, Reason};
use crate::error::{Error, OperandCause, Place, PlanFault};
use crate::operands::Reg;

/// What an instruction does with a register.
#[derive(Clone, Copy, PartialEq, Eq, Debug)]
pub enum OperandKind {
    /// It reads it.
    Use,
    /// It writes it.
    Def,
    /// It reads or writes it, and it is real.
    Fixed,
    /// Its value is lost, and it is real.
    Lost,
}

/// Where an operand may stand.
#[derive(Clone, Copy, PartialEq, Eq, Debug)]
pub enum OperandConstraint {
    /// Where it is: it is fixed or lost.
    NoChoice,
    /// In a register or on the stack.
    Any,
    /// In a register of its class.
    AnyRegister,
    /// In this register.
    Register(Reg),
    /// In the register of the operand with this number, counted from 0 in what the instruction reports.
    Reuse(usize),
}

/// What an instruction reports to a register allocator.
#[derive(Clone, Copy, PartialEq, Eq, Debug)]
pub struct Operand {
    /// Its block, counted from 0.
    pub block: usize,
    /// Its number in the block, counted from 0. A `Loop` reports for all of its members.
    pub instruction: usize,
    /// What it does with the register.
    pub kind: OperandKind,
    /// Whether it reads or writes it after its effects.
    pub is_late: bool,
    /// The register.
    pub reg: Reg,
    /// Where the operand may stand.
    pub constraint: OperandConstraint,
}

#[repr(C)]
#[derive(Clone, Copy, Default)]
struct RawRegister {
    is_virtual: u32,
    is_vector: u32,
    number: u32,
}

#[repr(C)]
#[derive(Clone, Copy, Default)]
struct RawConstraint {
    kind: u32,
    fixed: RawRegister,
    reused: usize,
}

#[repr(C)]
#[derive(Clone, Copy, Default)]
struct RawOperand {
    block: usize,
    instruction: usize,
    kind: u32,
    is_late: u32,
    reg: RawRegister,
    constraint: RawConstraint,
}

#[repr(C)]
#[derive(Clone, Copy, Default)]
struct RawPlanReason {
    line: u32,
    fault: u32,
    block: u32,
    index: u32,
    operand: u32,
    cause: u32,
}

extern "C" {
    fn s390x_operands(
        job: *const u8,
        length: usize,
        out: *mut RawOperand,
        room: usize,
        count: *mut usize,
        reason: *mut Reason,
    ) -> u32;
    fn s390x_check_plan(plan: *const u8, length: usize, reason: *mut RawPlanReason) -> u32;
}

fn register(raw: RawRegister) -> Reg {
    match (raw.is_virtual, raw.is_vector) {
        (0, 0) => Reg::General(raw.number as u8),
        (0, _) => Reg::Vector(raw.number as u8),
        (_, 0) => Reg::VirtualGeneral(raw.number),
        _ => Reg::VirtualVector(raw.number),
    }
}

fn operand(raw: RawOperand) -> Operand {
    Operand {
        block: raw.block,
        instruction: raw.instruction,
        kind: match raw.kind {
            0 => OperandKind::Use,
            1 => OperandKind::Def,
            2 => OperandKind::Fixed,
            _ => OperandKind::Lost,
        },
        is_late: raw.is_late == 1,
        reg: register(raw.reg),
        constraint: match raw.constraint.kind {
            0 => OperandConstraint::NoChoice,
            1 => OperandConstraint::Any,
            2 => OperandConstraint::AnyRegister,
            3 => OperandConstraint::Register(register(raw.constraint.fixed)),
            _ => OperandConstraint::Reuse(raw.constraint.reused),
        },
    }
}

fn operand_cause(number: u32) -> OperandCause {
    OperandCause::of(number).expect("a cause of an instruction that isn't reported")
}

/// The error of a report.
fn error_of(status: u32, reason: &Reason) -> Error {
    match status {
        4 => match reason.place() {
            Place::Instruction { block, path } => {
                Error::Unreported { cause: operand_cause(reason.cause), block, instruction: path[0] }
            }
            place => unreachable!("the place of an instruction that isn't reported: {place}"),
        },
        status => common_error(status, reason.line),
    }
}

/// What a job's instructions report to a register allocator, in order. The job is given by its text.
pub fn operands(job: &[u8]) -> Result<Vec<Operand>, Error> {
    let entries = entries_of(job.len() / 4 + 64, error_of, |out, room, count, reason| {
        // Each pointer is of a slice that lives through the call, and none of them overlap.
        unsafe { s390x_operands(job.as_ptr(), job.len(), out, room, count, reason) }
    })?;
    Ok(entries.into_iter().map(operand).collect())
}

fn plan_fault(raw: &RawPlanReason) -> PlanFault {
    let RawPlanReason { block, index, operand, .. } = *raw;
    match raw.fault {
        1 => PlanFault::Blocks,
        2 => PlanFault::Unsupported { block, inst: index },
        3 => PlanFault::Shape { block, inst: index },
        4 => PlanFault::Order { block, edit: index },
        5 => PlanFault::Operands { block, edit: index, cause: operand_cause(raw.cause) },
        6 => PlanFault::Count { block, edit: index },
        7 => PlanFault::Constraint { block, edit: index, operand },
        8 => PlanFault::Move { block, edit: index },
        9 => PlanFault::Value { block, edit: index, operand },
        10 => PlanFault::Entry { block, pair: index },
        fault => unreachable!("a fault of a plan: {fault}"),
    }
}

/// Whether a plan of registers has no fault; then, on every walk from the first block, whatever the values are, each instruction reads by the
/// plan's registers the values of its virtual registers. The plan is given by its text: a job, a line `plan`, the lines of each block's plan, and
/// a line `close`.
pub fn check_plan(plan: &[u8]) -> Result<(), Error> {
    let mut reason = RawPlanReason::default();
    // The pointers are of a slice and a struct that live through the call, and don't overlap.
    match unsafe { s390x_check_plan(plan.as_ptr(), plan.len(), &mut reason) } {
        0 => Ok(()),
        11 => Err(Error::Plan(plan_fault(&reason))),
        status => Err(common_error(status, reason.line)),
    }
}
