lgr %r2,%r3
agr %r2,%r4
br %r14
