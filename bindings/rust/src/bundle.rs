//! Several functions in one image.

use crate::call::{common_error, emit_cause, entries_of, link_cause, Reason};
use crate::error::{Error, MemberCause};
use crate::job::Job;
use crate::operands::Symbol;
use std::fmt;

extern "C" {
    fn s390x_bundle(
        bundle: *const u8,
        length: usize,
        base: u64,
        out: *mut u8,
        room: usize,
        count: *mut usize,
        reason: *mut Reason,
    ) -> u32;
}

/// The error of a call on functions.
fn error_of(status: u32, reason: &Reason) -> Error {
    let cause = match (status, reason.cause) {
        (4, cause) => MemberCause::Refused(emit_cause(cause)),
        (5, cause) => MemberCause::Link(link_cause(cause)),
        (12, 1) => MemberCause::DuplicateName,
        (12, 2) => MemberCause::Empty,
        (12, 3) => MemberCause::TooLong,
        (12, 4) => MemberCause::AddressTooHigh,
        _ => return common_error(status, reason.line),
    };
    Error::Bundle { member: Symbol(reason.member), cause }
}

/// The image at a base of several functions that call each other by name, given by their text: for each a line `function uN` with its name
/// and its job, and then a line `close`.
pub fn bundle(functions: &[u8], base: u64) -> Result<Vec<u8>, Error> {
    entries_of(functions.len() / 2 + 64, error_of, |out, room, count, reason| {
        // Each pointer is of a slice that lives through the call, and none of them overlap.
        unsafe { s390x_bundle(functions.as_ptr(), functions.len(), base, out, room, count, reason) }
    })
}

/// Functions that call each other by name. Displayed, they are their text.
#[derive(Clone, PartialEq, Debug, Default)]
pub struct Bundle {
    /// Each function's name and its job.
    pub functions: Vec<(Symbol, Job)>,
}

impl Bundle {
    /// No functions.
    pub fn new() -> Bundle {
        Bundle::default()
    }

    /// With one function more.
    pub fn function(mut self, name: Symbol, job: Job) -> Bundle {
        self.functions.push((name, job));
        self
    }

    /// Their image at a base.
    pub fn image(&self, base: u64) -> Result<Vec<u8>, Error> {
        bundle(self.to_string().as_bytes(), base)
    }
}

impl fmt::Display for Bundle {
    fn fmt(&self, f: &mut fmt::Formatter<'_>) -> fmt::Result {
        self.functions.iter().try_for_each(|(name, job)| write!(f, "function {name}\n{job}"))?;
        f.write_str("close\n")
    }
}
