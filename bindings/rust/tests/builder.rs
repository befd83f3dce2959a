//! The text that the builder prints.

use s390x_machine_layer::*;

#[test]
fn a_job_with_every_line() {
    let flags = MemFlags { aligned: false, trap: Some(TrapCode::HeapOutOfBounds) };
    let function = Function::new()
        .constant(8, [1, 2])
        .constant(1, [])
        .block([
            Inst::Load32 { rd: gpr(2), mem: MemArg::BXD12 { base: gpr(2), index: gpr(3), disp: 0, flags } },
            Inst::Loop { cond: Cond(7), body: vec![Inst::CondBreak { cond: Cond(8) }, Inst::Nop0] },
            Inst::UMulWide { rd: RegPair { hi: gpr(2), lo: gpr(3) }, ri: gpr(3), rn: gpr(4) },
        ])
        .inst(Inst::Mov64UImm16Shifted { rd: Reg::VirtualGeneral(5), imm: Shifted { bits: 9, shift: 2 } })
        .block([Inst::JTSequence { ridx: gpr(2), default: Label(0), default_cond: Cond(2), targets: vec![Label(0), Label(1)] }]);
    let mut job = Job::new(function).symbol(Symbol(7), 8192);
    job.flags.mie3 = true;
    job.flags.no_relative_memory = true;
    job.frame.stackslots_size = 32;
    job.frame.first_saved_gpr = Some(6);
    assert_eq!(
        job.to_string(),
        "flags mie3 norel\nframe SystemV 0 0 0 0 32 0 6 0\nconst 8 0102\nconst 1 -\nsymbol u7 8192\nblock\n\
         Load32 %r2 BXD12(%r2,%r3,0,u!heap_oob)\nLoop 7\nCondBreak 8\nNop0\nendloop\nUMulWide %r2/%r3 %r3 %r4\n\
         Mov64UImm16Shifted %i5 9:2\nblock\nJTSequence %r2 0 2 [0,1]\nend\n"
    );
}

#[test]
fn lists_of_calls() {
    let mut info = CallInfo::new(CallDest::Indirect(gpr(6)), CallConv::Tail);
    info.uses.push(CallArgPair { vreg: Reg::VirtualGeneral(0), preg: gpr(2) });
    info.defs.push(CallRetPair { vreg: gpr(2), location: RetLocation::Reg(gpr(2), ValueType::I64) });
    info.defs.push(CallRetPair { vreg: vr(1), location: RetLocation::Stack(-8, ValueType::F64X2) });
    info.clobbers = vec![gpr(0), vr(31)];
    info.stack_map = Some(3);
    let job = Job::new(Function::new().inst(Inst::Call { link: gpr(14), info: Box::new(info) }));
    assert_eq!(
        job.to_string(),
        "block\nCall %r14 %r6 [%i0=%r2] [%r2=%r2:I64,%v1=@-8:F64X2] [%r0,%v31] 0 Tail Tail - false 3\nend\n"
    );
}
