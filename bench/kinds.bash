# The kinds of lines that bench/reading.sh and bench/figures.sh measure, and what both count with. To be sourced; `count` says how many lines of a kind, `work` names
# a folder, and `kind` is called for each kind with its name, what stands before the block, the lines, and the same code as assembly, where it has a plain form.

# A text N times, with {i} for the number from 0 and {j} for the next one; \n ends a line.
times() {
    awk -v n="$count" -v unit="$1" 'BEGIN {
        gsub(/\\n/, "\n", unit)
        parts = 0
        while (match(unit, /[{][ij][}]/)) {
            piece[parts] = substr(unit, 1, RSTART - 1)
            more[parts++] = substr(unit, RSTART + 1, 1) == "j"
            unit = substr(unit, RSTART + 3)
        }
        for (i = 0; i < n; i++) {
            for (k = 0; k < parts; k++) printf "%s%d", piece[k], i + more[k]
            printf "%s", unit
        }
    }'
}

# A failure within $(..) ends a script that has set -e only with this, and only where it is all that a line assigns.
shopt -s inherit_errexit

# Tells that a program ends with a status other than 0, as one that isn't there does, and what was said of it beside valgrind's counts; ends with that status.
failed() {
    local program=$1 status=$2 log=$3
    echo "$program ends with status $status: $(grep -v '^==' "$log" | head -n 1)" >&2
    return "$status"
}

# Executed instructions of a command.
executed() {
    valgrind --tool=callgrind --callgrind-out-file="$work/counts" "$@" > "$work/out" 2> "$work/log" || failed "$1" $? "$work/log"
    sed -n 's/.*Collected : //p' "$work/log"
}

# How many of the instructions counted last were executed within a function, and what it called.
within() {
    callgrind_annotate --inclusive=yes --threshold=100 "$work/counts" | awk -v name="::$1" 'index($0, name) { gsub(",", "", $1); print $1; exit }'
}

# How many instructions the job has.
instructions() { grep -c -v -E '^(block|end|symbol .*|flags .*)$' "$work/job"; }

# How many more instructions an assembler executes for each instruction of the job, where `code` is the same as assembly.
assembler() {
    local none all
    : > "$work/code.s"
    none=$(executed "$@" -o "$work/code.o" "$work/code.s")
    times "$code" > "$work/code.s"
    all=$(executed "$@" -o "$work/code.o" "$work/code.s")
    echo $(((all - none) / $(instructions)))
}

gnu_as() { assembler s390x-linux-gnu-as -march=z14; }
llvm_mc() { assembler "${LLVM_MC:-llvm-mc}" -triple=s390x-linux-gnu -mcpu=z14 -filetype=obj; }

kinds() {
    kind branches 'block\n' 'AluRRR Add64 %r2 %r3 %r4\nAluRRR Add64 %r5 %r2 %r4\nCondBr {i} {j} 8\nblock\n' \
        '.L{i}: agrk %r2,%r3,%r4\n agrk %r5,%r2,%r4\n brcl 8,.L{i}\n'
    kind additions 'block\n' 'AluRRR Add64 %r2 %r3 %r4\n' ' agrk %r2,%r3,%r4\n'
    kind jumps 'block\n' 'Jump {j}\nblock\n' ''
    kind accesses 'block\n' 'Load64 %r2 RegOffset(%r3,8,a)\nStore64 %r2 RegOffset(%r15,160,a)\n' ' lg %r2,8(%r3)\n stg %r2,160(%r15)\n'
    kind far 'block\n' 'Load64 %r2 RegOffset(%r3,1000000,a)\n' ' lgfi %r1,1000000\n lg %r2,0(%r1,%r3)\n'
    kind vectors 'block\n' 'VecRRR Add64x2 %v1 %v2 %v3\n' ' vag %v1,%v2,%v3\n'
    kind vector-loads 'block\n' 'VecLoad %v1 RegOffset(%r3,16,a)\nVecStore %v1 RegOffset(%r15,160,a)\n' ' vl %v1,16(%r3)\n vst %v1,160(%r15)\n'
    kind calls 'symbol u1 8192\nblock\n' 'Call %r14 u1 [] [] [] 0 SystemV SystemV - false -\n' ' brasl %r14,u1\n'
    kind tail-calls 'symbol u1 8192\nblock\n' 'ReturnCall u1 [] 0\nblock\n' ''
    kind traps 'block\n' 'TrapIf 8 heap_oob\n' ''
    kind symbols 'symbol u1 8192\nblock\n' 'Load64 %r2 Symbol(u1,0,a)\n' ' lgrl %r2,u1\n'
    kind addresses 'symbol u1 8192\nblock\n' 'LoadSymbolReloc %r2 Absolute(u1,0)\n' ''
    kind norel 'flags norel\nsymbol u1 8192\nblock\n' 'Load64 %r2 Symbol(u1,0,a)\n' ''
}
