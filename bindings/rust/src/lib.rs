//! A proved machine layer for s390x: emission, linking, bundles, listings, what a register allocator asks, and decoding, by safe calls over its
//! static libraries.
//!
//! What each library call answers is proved of the library (`docs/PROVED.md` of its repository). This crate is not part of
//! those proofs: it passes slices on as they are, and each call here is safe because slices meet what the library wants of
//! pointers. The builder ([`Function`], [`Inst`]) prints the text of a job. A mistake in it can give the text of another job,
//! or of none, and then another function's code or an error, but never code that does something else than the text says.
//!
//! ```
//! use s390x_machine_layer::{gpr, Function, Inst, Job, ALUOp};
//!
//! let function = Function::new().block([
//!     Inst::Mov64 { rd: gpr(2), rm: gpr(3) },
//!     Inst::AluRRR { alu_op: ALUOp::Add64, rd: gpr(2), rn: gpr(2), rm: gpr(4) },
//!     Inst::Ret { link: gpr(14) },
//! ]);
//! let job = Job::new(function);
//! # #[cfg(feature = "emit")]
//! assert_eq!(job.image(4096).unwrap(), [0xb9, 0x04, 0x00, 0x23, 0xb9, 0x08, 0x00, 0x24, 0x07, 0xfe]);
//! ```

#![warn(missing_docs)]

#[cfg(feature = "emit")]
mod allocation;
#[cfg(feature = "emit")]
mod allocator;
#[cfg(feature = "emit")]
mod bundle;
#[cfg(feature = "emit")]
mod call;
mod decode;
#[cfg(feature = "emit")]
mod emit;
#[cfg(feature = "emit")]
mod error;
mod instructions;
mod job;
mod operands;

#[cfg(feature = "emit")]
pub use allocation::{check_plan, operands, Operand, OperandConstraint, OperandKind};
#[cfg(feature = "emit")]
pub use bundle::{bundle, Bundle};
pub use decode::{decode, Format, Instruction, Instructions};
#[cfg(feature = "emit")]
pub use emit::{emit, image, show, Code, Handler, PatchableCall, Relocation, StackMap, Trap, Try};
#[cfg(feature = "emit")]
pub use error::{EmitCause, Error, LinkCause, MemberCause, OperandCause, Place, PlanFault};
pub use instructions::*;
pub use job::{Block, Flags, Frame, Function, Job};
pub use operands::*;
