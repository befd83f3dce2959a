//! A job: a function with the machine that it is emitted for, and its symbols.

use crate::instructions::Inst;
use crate::operands::{CallConv, Symbol};
use std::fmt::{self, Write};

/// Which facilities beyond the base the code may use, and which of the base it may not.
#[allow(missing_docs)]
#[derive(Clone, Copy, PartialEq, Eq, Debug, Default)]
pub struct Flags {
    pub mie3: bool,
    pub mie4: bool,
    pub vxrs_ext2: bool,
    pub vxrs_ext3: bool,
    /// No relative loads, stores and compares.
    pub no_relative_memory: bool,
}

/// A frame's sizes, in bytes, and what it saves.
#[allow(missing_docs)]
#[derive(Clone, Copy, PartialEq, Eq, Debug)]
pub struct Frame {
    pub conv: CallConv,
    pub incoming_args_size: u32,
    pub tail_args_size: u32,
    pub clobber_size: u32,
    pub fixed_frame_storage_size: u32,
    pub stackslots_size: u32,
    pub outgoing_args_size: u32,
    /// The first of the general registers that are saved, up to `%r14`.
    pub first_saved_gpr: Option<u8>,
    /// Bit n stands for float register n.
    pub saved_fprs: u16,
}

impl Default for Frame {
    fn default() -> Frame {
        Frame {
            conv: CallConv::SystemV,
            incoming_args_size: 0,
            tail_args_size: 0,
            clobber_size: 0,
            fixed_frame_storage_size: 0,
            stackslots_size: 0,
            outgoing_args_size: 0,
            first_saved_gpr: None,
            saved_fprs: 0,
        }
    }
}

/// A block of instructions. Its label is its number in the function.
#[derive(Clone, PartialEq, Debug, Default)]
pub struct Block {
    /// The instructions.
    pub insts: Vec<Inst>,
}

/// A function: its blocks and its constants.
#[derive(Clone, PartialEq, Debug, Default)]
pub struct Function {
    /// The blocks.
    pub blocks: Vec<Block>,
    /// The constants: the alignment of each, 1, 2, 4, 8 or 16, and its bytes.
    pub constants: Vec<(u32, Vec<u8>)>,
}

impl Function {
    /// A function of no blocks.
    pub fn new() -> Function {
        Function::default()
    }

    /// With one block more.
    pub fn block(mut self, insts: impl IntoIterator<Item = Inst>) -> Function {
        self.blocks.push(Block { insts: insts.into_iter().collect() });
        self
    }

    /// With one instruction more in the last block, or in a first one.
    pub fn inst(mut self, inst: Inst) -> Function {
        match self.blocks.last_mut() {
            Some(block) => block.insts.push(inst),
            None => self.blocks.push(Block { insts: vec![inst] }),
        }
        self
    }

    /// With one constant more.
    pub fn constant(mut self, align: u32, bytes: impl Into<Vec<u8>>) -> Function {
        self.constants.push((align, bytes.into()));
        self
    }
}

/// A function with the machine that it is emitted for, its frame, and the addresses of symbols. Displayed, it is the job's text.
#[derive(Clone, PartialEq, Debug, Default)]
pub struct Job {
    /// The machine.
    pub flags: Flags,
    /// The frame.
    pub frame: Frame,
    /// The function.
    pub function: Function,
    /// The addresses of symbols, for an image; names rise.
    pub symbols: Vec<(Symbol, u64)>,
}

impl Job {
    /// The function on the base machine, in a frame of no bytes, without symbols.
    pub fn new(function: Function) -> Job {
        Job { function, ..Job::default() }
    }

    /// With the address of one symbol more.
    pub fn symbol(mut self, name: Symbol, address: u64) -> Job {
        self.symbols.push((name, address));
        self
    }

    /// The code before linking, with its tables.
    #[cfg(feature = "emit")]
    pub fn emit(&self) -> Result<crate::Code, crate::Error> {
        crate::emit(self.to_string().as_bytes())
    }

    /// The image at a base.
    #[cfg(feature = "emit")]
    pub fn image(&self, base: u64) -> Result<Vec<u8>, crate::Error> {
        crate::image(self.to_string().as_bytes(), base)
    }

    /// The texts of the instructions.
    #[cfg(feature = "emit")]
    pub fn show(&self) -> Result<String, crate::Error> {
        crate::show(self.to_string().as_bytes())
    }

    /// What the instructions report to a register allocator.
    #[cfg(feature = "emit")]
    pub fn operands(&self) -> Result<Vec<crate::Operand>, crate::Error> {
        crate::operands(self.to_string().as_bytes())
    }

    fn put(&self, out: &mut String) -> fmt::Result {
        put_flags(out, &self.flags)?;
        put_frame(out, &self.frame)?;
        for (align, bytes) in &self.function.constants {
            writeln!(out, "const {align} {}", Hex(bytes))?;
        }
        for (name, address) in &self.symbols {
            writeln!(out, "symbol {name} {address}")?;
        }
        for block in &self.function.blocks {
            out.push_str("block\n");
            for inst in &block.insts {
                inst.put(out)?;
            }
        }
        out.push_str("end\n");
        Ok(())
    }
}

impl fmt::Display for Job {
    fn fmt(&self, f: &mut fmt::Formatter<'_>) -> fmt::Result {
        let mut out = String::new();
        self.put(&mut out)?;
        f.write_str(&out)
    }
}

/// The line of the machine, where it isn't the base one.
fn put_flags(out: &mut String, flags: &Flags) -> fmt::Result {
    if *flags == Flags::default() {
        return Ok(());
    }
    out.push_str("flags");
    for (is_set, name) in [
        (flags.mie3, " mie3"),
        (flags.mie4, " mie4"),
        (flags.vxrs_ext2, " vxrs_ext2"),
        (flags.vxrs_ext3, " vxrs_ext3"),
        (flags.no_relative_memory, " norel"),
    ] {
        if is_set {
            out.push_str(name);
        }
    }
    out.push('\n');
    Ok(())
}

/// The line of the frame, where it isn't that of no bytes.
fn put_frame(out: &mut String, frame: &Frame) -> fmt::Result {
    if *frame == Frame::default() {
        return Ok(());
    }
    write!(out, "frame {} {} {} {} ", frame.conv, frame.incoming_args_size, frame.tail_args_size, frame.clobber_size)?;
    write!(out, "{} {} ", frame.fixed_frame_storage_size, frame.stackslots_size)?;
    match frame.first_saved_gpr {
        Some(first) => writeln!(out, "{} {first} {}", frame.outgoing_args_size, frame.saved_fprs),
        None => writeln!(out, "{} - {}", frame.outgoing_args_size, frame.saved_fprs),
    }
}

/// Bytes in hex, `-` for none.
struct Hex<'a>(&'a [u8]);

impl fmt::Display for Hex<'_> {
    fn fmt(&self, f: &mut fmt::Formatter<'_>) -> fmt::Result {
        if self.0.is_empty() {
            return f.write_str("-");
        }
        self.0.iter().try_for_each(|byte| write!(f, "{byte:02x}"))
    }
}
