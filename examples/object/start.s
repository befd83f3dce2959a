# The start of the program in C: calls c_main, and ends with its answer.
    .globl _start
_start:
    aghi %r15,-160
    brasl %r14,c_main
    lghi %r1,1
    svc 0
    .section .note.GNU-stack,"",@progbits
