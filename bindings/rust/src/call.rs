//! What the calls of the library have in common.

use crate::error::{EmitCause, Error, LinkCause, Place};

/// The place of a cause, as the library tells it.
#[repr(C)]
#[derive(Clone, Copy, Default)]
struct RawPlace {
    kind: u32,
    block: usize,
    depth: usize,
    path: [usize; 9],
}

/// Why a call refuses, as the library tells it.
#[repr(C)]
#[derive(Clone, Copy, Default)]
pub(crate) struct Reason {
    pub(crate) line: u32,
    pub(crate) cause: u32,
    pub(crate) member: u32,
    place: RawPlace,
}

pub(crate) const DONE: u32 = 0;
pub(crate) const TOO_SMALL: u32 = 13;

impl Reason {
    /// Where the cause stands.
    pub(crate) fn place(&self) -> Place {
        let RawPlace { kind, block, depth, path } = self.place;
        match kind {
            1 => Place::Start,
            2 => Place::Instruction { block, path: path[..depth].to_vec() },
            3 => Place::BlockEnd { block },
            4 => Place::Whole,
            _ => unreachable!("a place of a refusal: {kind}"),
        }
    }
}

/// A cause of emission.
pub(crate) fn emit_cause(number: u32) -> EmitCause {
    EmitCause::of(number).expect("a cause of emission")
}

/// A cause of linking.
pub(crate) fn link_cause(number: u32) -> LinkCause {
    LinkCause::of(number).expect("a cause of linking")
}

/// The error of a status that every call may end with.
pub(crate) fn common_error(status: u32, line: u32) -> Error {
    match status {
        3 => Error::Syntax { line },
        8 => Error::TooLong,
        9 => Error::NoMemory,
        _ => unreachable!("a status of the library: {status}"),
    }
}

/// The error of a call on a job.
pub(crate) fn error_of(status: u32, reason: &Reason) -> Error {
    match status {
        4 => Error::Refused { cause: emit_cause(reason.cause), place: reason.place() },
        5 => Error::Link(link_cause(reason.cause)),
        status => common_error(status, reason.line),
    }
}

/// The entries that a call writes, which is asked once more where so many have no room.
pub(crate) fn entries_of<T: Clone + Default>(
    room: usize,
    error: impl Fn(u32, &Reason) -> Error,
    mut call: impl FnMut(*mut T, usize, &mut usize, &mut Reason) -> u32,
) -> Result<Vec<T>, Error> {
    let mut out = vec![T::default(); room];
    let (mut count, mut reason) = (0, Reason::default());
    loop {
        match call(out.as_mut_ptr(), out.len(), &mut count, &mut reason) {
            DONE => {
                out.truncate(count);
                return Ok(out);
            }
            TOO_SMALL => out.resize(count, T::default()),
            status => return Err(error(status, &reason)),
        }
    }
}
