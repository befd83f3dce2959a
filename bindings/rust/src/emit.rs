//! The code of a job's function, its image and its texts.

use crate::call::{entries_of, error_of, Reason, DONE, TOO_SMALL};
use crate::error::Error;

/// A field that is to be filled when the code is linked.
#[repr(C)]
#[derive(Clone, Copy, PartialEq, Eq, Debug, Default)]
pub struct Relocation {
    /// Where the field begins, in bytes from the code's beginning, as each offset of a table.
    pub offset: u32,
    /// The ELF number: `R_390_PC32DBL` 19, `R_390_PLT32DBL` 20, `R_390_64` 22.
    pub kind: u32,
    /// The number of the symbol's name.
    pub symbol: u32,
    /// What is added to the symbol's address, in bytes.
    pub addend: i64,
}

/// A trap. Its offset goes by what stops there, a machine instruction at P of N bytes (2 where its first byte is below 0x40, 4 where it is
/// below 0xc0, else 6):
///
/// - An access of memory, behind the instructions that make its operand's address: P. A load that begins the code: 0; behind one of 6
///   bytes: 6.
/// - Any other, a division, a compare and trap, or bytes that are no instruction: P + N - 1, its last byte. A division of 4 bytes at 0:
///   3; a compare and trap of 6 bytes at 8: 13; a `Trap` at 0, which is two zero bytes: 1; a `TrapIf` at 0, whose branch leads to its own
///   bytes 2 and 3, which are zeros: 3.
#[repr(C)]
#[derive(Clone, Copy, PartialEq, Eq, Debug, Default)]
pub struct Trap {
    /// In bytes from the code's beginning.
    pub offset: u32,
    /// 1 to 250 for a user's code, 251 to 255 for those of [`TrapCode`](crate::TrapCode) with names, in their order.
    pub code: u32,
}

/// A call with a try.
#[repr(C)]
#[derive(Clone, Copy, PartialEq, Eq, Debug, Default)]
pub struct Try {
    /// Where it returns to.
    pub offset: u32,
    /// How many handlers it has.
    pub handler_count: usize,
    /// The place of the first one in the table of handlers.
    pub first_handler: usize,
    /// From the stack pointer behind the call up to where the caller's frame begins, in bytes: the sum of outgoing arguments, fixed storage
    /// and clobbers.
    pub frame: u64,
}

/// A handler of a call with a try.
#[repr(C)]
#[derive(Clone, Copy, PartialEq, Eq, Debug, Default)]
pub struct Handler {
    /// Where it begins; 0 where its label was never bound.
    pub offset: u32,
    has_tag: u32,
    tag: u32,
}

impl Handler {
    /// The tag that it is for; none where it is for all.
    pub fn tag(&self) -> Option<u32> {
        (self.has_tag == 1).then_some(self.tag)
    }
}

/// A patchable call.
#[repr(C)]
#[derive(Clone, Copy, PartialEq, Eq, Debug, Default)]
pub struct PatchableCall {
    /// Where it returns to.
    pub offset: u32,
    /// How many bytes it has.
    pub length: u32,
}

/// A stack map.
#[repr(C)]
#[derive(Clone, Copy, PartialEq, Eq, Debug, Default)]
pub struct StackMap {
    /// Where the call returns to.
    pub offset: u32,
    /// Its number.
    pub map: u32,
}

/// The code of a function before linking, with its tables.
#[derive(Clone, PartialEq, Eq, Debug, Default)]
pub struct Code {
    /// The code, and its constants behind it.
    pub bytes: Vec<u8>,
    /// What the code's base has to be a multiple of, in bytes.
    pub alignment: u32,
    /// Where each block starts; 0 where its label was never bound.
    pub block_starts: Vec<u32>,
    /// Where each constant starts.
    pub constant_starts: Vec<u32>,
    /// The fields that are to be filled.
    pub relocations: Vec<Relocation>,
    /// The traps.
    pub traps: Vec<Trap>,
    /// Where each call without a try returns to, and where each tail call ends.
    pub call_sites: Vec<u32>,
    /// The calls with a try.
    pub tries: Vec<Try>,
    /// The handlers of all calls with a try, one call's behind the other's.
    pub handlers: Vec<Handler>,
    /// The patchable calls.
    pub patchable_calls: Vec<PatchableCall>,
    /// The stack maps.
    pub stack_maps: Vec<StackMap>,
}

impl Code {
    /// The handlers of a call with a try.
    pub fn handlers_of(&self, call: &Try) -> &[Handler] {
        &self.handlers[call.first_handler..][..call.handler_count]
    }
}

/// A buffer as the library takes it.
#[repr(C)]
struct Buffer<T> {
    entries: *mut T,
    room: usize,
}

#[repr(C)]
struct Buffers {
    code: Buffer<u8>,
    block_starts: Buffer<u32>,
    constant_starts: Buffer<u32>,
    relocations: Buffer<Relocation>,
    traps: Buffer<Trap>,
    call_sites: Buffer<u32>,
    tries: Buffer<Try>,
    handlers: Buffer<Handler>,
    patchable_calls: Buffer<PatchableCall>,
    stack_maps: Buffer<StackMap>,
}

#[repr(C)]
#[derive(Clone, Copy, Default)]
struct Sizes {
    code: usize,
    block_starts: usize,
    constant_starts: usize,
    relocations: usize,
    traps: usize,
    call_sites: usize,
    tries: usize,
    handlers: usize,
    patchable_calls: usize,
    stack_maps: usize,
    alignment: u32,
}

extern "C" {
    fn s390x_emit(job: *const u8, length: usize, out: *mut Buffers, sizes: *mut Sizes, reason: *mut Reason) -> u32;
    fn s390x_image(
        job: *const u8,
        length: usize,
        base: u64,
        out: *mut u8,
        room: usize,
        count: *mut usize,
        reason: *mut Reason,
    ) -> u32;
    fn s390x_show(
        job: *const u8,
        length: usize,
        out: *mut u8,
        room: usize,
        count: *mut usize,
        reason: *mut Reason,
    ) -> u32;
}

/// The buffer of all entries of a table.
fn buffer<T>(table: &mut Vec<T>) -> Buffer<T> {
    Buffer { entries: table.as_mut_ptr(), room: table.len() }
}

/// So many entries.
fn grow<T: Default + Clone>(table: &mut Vec<T>, size: usize) {
    table.resize(size, T::default());
}

impl Code {
    fn with_sizes(&mut self, sizes: &Sizes) {
        grow(&mut self.bytes, sizes.code);
        grow(&mut self.block_starts, sizes.block_starts);
        grow(&mut self.constant_starts, sizes.constant_starts);
        grow(&mut self.relocations, sizes.relocations);
        grow(&mut self.traps, sizes.traps);
        grow(&mut self.call_sites, sizes.call_sites);
        grow(&mut self.tries, sizes.tries);
        grow(&mut self.handlers, sizes.handlers);
        grow(&mut self.patchable_calls, sizes.patchable_calls);
        grow(&mut self.stack_maps, sizes.stack_maps);
        self.alignment = sizes.alignment;
    }

    fn buffers(&mut self) -> Buffers {
        Buffers {
            code: buffer(&mut self.bytes),
            block_starts: buffer(&mut self.block_starts),
            constant_starts: buffer(&mut self.constant_starts),
            relocations: buffer(&mut self.relocations),
            traps: buffer(&mut self.traps),
            call_sites: buffer(&mut self.call_sites),
            tries: buffer(&mut self.tries),
            handlers: buffer(&mut self.handlers),
            patchable_calls: buffer(&mut self.patchable_calls),
            stack_maps: buffer(&mut self.stack_maps),
        }
    }
}

/// The code of a job's function before linking, with its tables. The job is given by its text.
pub fn emit(job: &[u8]) -> Result<Code, Error> {
    let mut code = Code::default();
    // Room for most functions, so that most are emitted once.
    code.with_sizes(&Sizes {
        code: job.len() / 2 + 64,
        block_starts: job.len() / 8,
        constant_starts: 8,
        relocations: 16,
        traps: 64,
        call_sites: 16,
        tries: 4,
        handlers: 16,
        patchable_calls: 4,
        stack_maps: 16,
        alignment: 0,
    });
    let (mut sizes, mut reason) = (Sizes::default(), Reason::default());
    loop {
        let mut buffers = code.buffers();
        // Each pointer is of a slice that lives through the call, and none of them overlap.
        let status = unsafe { s390x_emit(job.as_ptr(), job.len(), &mut buffers, &mut sizes, &mut reason) };
        match status {
            DONE => {
                code.with_sizes(&sizes);
                return Ok(code);
            }
            TOO_SMALL => code.with_sizes(&sizes),
            status => return Err(error_of(status, &reason)),
        }
    }
}

/// The image of a job's function at a base, with the symbols of the job's own lines. The job is given by its text.
pub fn image(job: &[u8], base: u64) -> Result<Vec<u8>, Error> {
    entries_of(job.len() / 2 + 64, error_of, |out, room, count, reason| {
        // Each pointer is of a slice that lives through the call, and none of them overlap.
        unsafe { s390x_image(job.as_ptr(), job.len(), base, out, room, count, reason) }
    })
}

/// The texts of a job's instructions, in the mnemonics that assemblers take: for each block the line `block K`, and a line for each of its
/// instructions. The job is given by its text. A function that has no code has no texts.
pub fn show(job: &[u8]) -> Result<String, Error> {
    let bytes = entries_of(2 * job.len() + 64, error_of, |out, room, count, reason| {
        // As above.
        unsafe { s390x_show(job.as_ptr(), job.len(), out, room, count, reason) }
    })?;
    Ok(String::from_utf8(bytes).expect("the texts are ASCII"))
}
