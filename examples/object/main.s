# A main in assembly: ends with 0 where apply_twice(7) is 5063, with 1 where it isn't.
    .text
    .globl _start, u1
_start:
    aghi %r15,-160
    lghi %r2,7
    brasl %r14,apply_twice
    cghi %r2,5063
    lghi %r2,1
    jne 1f
    lghi %r2,0
1:  lghi %r1,1
    svc 0
# Three times its argument; a callee may change these registers.
u1: msgfi %r2,3
    lghi %r0,-1
    lghi %r3,-1
    br %r14
    .data
    .balign 8
    .globl u2
u2: .quad 11
    .quad 5000
    .section .note.GNU-stack,"",@progbits
