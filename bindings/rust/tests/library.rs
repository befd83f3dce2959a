//! The library's answers, through this crate.
#![cfg(feature = "emit")]

use s390x_machine_layer::*;
use std::thread;

const ADD: &[u8] = b"block\nMov64 %r2 %r3\nAluRRR Add64 %r2 %r2 %r4\nRet %r14\nend\n";
const ADD_CODE: [u8; 10] = [0xb9, 0x04, 0x00, 0x23, 0xb9, 0x08, 0x00, 0x24, 0x07, 0xfe];

#[test]
fn code_and_image() {
    let code = emit(ADD).unwrap();
    assert_eq!(code.bytes, ADD_CODE);
    assert_eq!((code.alignment, code.block_starts), (4, vec![0]));
    assert_eq!(image(ADD, 4096).unwrap(), ADD_CODE);
    let offsets: Vec<_> = Instructions::new(&ADD_CODE).map(|(offset, it)| (offset, it.opcode)).collect();
    assert_eq!(offsets, [(0, 0xb904), (4, 0xb908), (8, 0x07)]);
}

#[test]
fn tables() {
    // One of the program's own cases, with a map, a trap and a relocation more.
    let mut call = CallInfo::new(CallDest::Direct(Symbol(1)), CallConv::SystemV);
    call.try_call = Some(TryCall {
        continuation: Label(1),
        handlers: vec![TryHandler { tag: Some(7), label: Label(2) }, TryHandler { tag: None, label: Label(2) }],
    });
    let job = Job::new(
        Function::new()
            .block([Inst::Call { link: gpr(14), info: Box::new(call) }])
            .block([Inst::Ret { link: gpr(14) }])
            .block([Inst::Ret { link: gpr(14) }]),
    );
    assert_eq!(
        job.to_string(),
        "block\nCall %r14 u1 [] [] [] 0 SystemV SystemV 1[7:2,*:2] false -\nblock\nRet %r14\nblock\nRet %r14\nend\n"
    );
    let code = job.emit().unwrap();
    assert_eq!(code.bytes, [0xc0, 0xe5, 0, 0, 0, 0, 0x07, 0xfe, 0x07, 0xfe]);
    assert_eq!(code.relocations, [Relocation { offset: 2, kind: 20, symbol: 1, addend: 2 }]);
    assert_eq!((code.tries.len(), code.tries[0].offset), (1, 6));
    let handlers: Vec<_> = code.handlers_of(&code.tries[0]).iter().map(|handler| (handler.tag(), handler.offset)).collect();
    assert_eq!(handlers, [(Some(7), 8), (None, 8)]);
}

#[test]
fn errors() {
    assert_eq!(emit(b"block\nMov64 %r2\nend\n"), Err(Error::Syntax { line: 2 }));
    let place = Place::Instruction { block: 0, path: vec![1, 0] };
    let refused = emit(b"block\nNop0\nLoop 7\nMov64 %r2 %v3\nendloop\nend\n").unwrap_err();
    assert_eq!(refused, Error::Refused { cause: EmitCause::BadRegister, place });
    assert_eq!(
        refused.to_string(),
        "emission refuses the function at instruction 1.0 of block 0: a register isn't real, is of the wrong class, or isn't allowed in its place"
    );
    let place = Place::BlockEnd { block: 0 };
    assert_eq!(show(b"block\nAllocateArgs 16\nend\n"), Err(Error::Refused { cause: EmitCause::BadStackState, place }));
    assert_eq!(image(ADD, 1), Err(Error::Link(LinkCause::MisalignedBase)));
    assert_eq!(emit(&vec![b'\n'; 16777217]), Err(Error::TooLong));
    assert_eq!(
        image(b"block\nCall %r14 u1 [] [] [] 0 SystemV SystemV - false -\nend\n", 0).unwrap_err().to_string(),
        "linking refuses the code: the code uses a symbol of which the job has no line"
    );
}

#[test]
fn bundles() {
    let callee = Job::new(Function::new().inst(Inst::Ret { link: gpr(14) }));
    let caller = Job::new(Function::new().block([
        Inst::Mov64 { rd: gpr(6), rm: gpr(14) },
        Inst::Call { link: gpr(14), info: Box::new(CallInfo::new(CallDest::Direct(Symbol(2)), CallConv::SystemV)) },
        Inst::Ret { link: gpr(6) },
    ]));
    let both = Bundle::new().function(Symbol(1), caller).function(Symbol(2), callee.clone());
    // The call stands 4 bytes behind the first function's start, and 12 before the second one's.
    let wanted = [0xb9, 0x04, 0, 0x6e, 0xc0, 0xe5, 0, 0, 0, 6, 0x07, 0xf6, 0, 0, 0, 0, 0x07, 0xfe];
    assert_eq!(both.image(4096).unwrap(), wanted);
    assert_eq!(bundle(b"", 0), Err(Error::Syntax { line: 1 }));
    let twice = both.function(Symbol(2), callee).image(0);
    assert_eq!(twice, Err(Error::Bundle { member: Symbol(2), cause: MemberCause::DuplicateName }));
}

#[test]
fn listings() {
    assert_eq!(show(ADD).unwrap(), "block 0\nlgr %r2, %r3\nagr %r2, %r4\nbr %r14\n");
    let job = Job::new(Function::new().block([
        Inst::Nop0,
        Inst::AluRR { alu_op: ALUOp::Add64, rd: Reg::VirtualGeneral(0), ri: Reg::VirtualGeneral(0), rm: Reg::VirtualGeneral(1) },
    ]));
    let operands = job.operands().unwrap();
    assert_eq!(operands.len(), 3);
    let it = operands[0];
    assert_eq!((it.block, it.instruction, it.kind, it.is_late), (0, 1, OperandKind::Def, true));
    assert_eq!((it.reg, it.constraint), (Reg::VirtualGeneral(0), OperandConstraint::Reuse(1)));
    assert_eq!(operands[2].constraint, OperandConstraint::AnyRegister);
    let reused = b"block\nLoop 7\nAluRR Add64 %i0 %i0 %r4\nendloop\nend\n";
    assert_eq!(
        s390x_machine_layer::operands(reused),
        Err(Error::Unreported { cause: OperandCause::ReuseInLoop, block: 0, instruction: 0 })
    );
}

#[test]
fn plans() {
    let job = "block\nMov64 %i0 %r3\nRet %r14\nend\nplan\nblock\n";
    assert_eq!(check_plan(format!("{job}step [%r2]\nstep []\nclose\n").as_bytes()), Ok(()));
    assert_eq!(
        check_plan(format!("{job}step []\nclose\n").as_bytes()),
        Err(Error::Plan(PlanFault::Count { block: 0, edit: 0 }))
    );
    assert_eq!(check_plan(job.as_bytes()), Err(Error::Syntax { line: 7 }));
}

#[test]
fn large_codes() {
    // More of each than there is room for at first.
    let mut function = Function::new();
    for _ in 0..500 {
        function = function.block(vec![Inst::Fence; 20]).inst(Inst::Trap { trap_code: TrapCode::User(250) });
    }
    let code = Job::new(function).emit().unwrap();
    assert_eq!((code.bytes.len(), code.traps.len(), code.block_starts.len()), (500 * 42, 500, 500));
    assert!(code.traps.iter().all(|trap| trap.code == 250));
}

#[test]
fn threads() {
    thread::scope(|scope| {
        for _ in 0..8 {
            scope.spawn(|| (0..500).for_each(|_| assert_eq!(emit(ADD).unwrap().bytes, ADD_CODE)));
        }
    });
}
