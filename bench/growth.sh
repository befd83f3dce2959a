#!/usr/bin/env bash
# Grows each dimension of the input of each command by ten, and prints by which factor the executed instructions grow (valgrind's callgrind, which is
# repeatable): at most 13 where the time is linear or its logarithm times that, 100 where it is the square. The rows beyond 13 are marked, and then the
# status is 1. Words that are given choose the commands (all if none is). Needs valgrind and the built program (rt run s390x, or rt ci). PROGRAM names
# another one; one whose name ends with _cases is taken for s390x_tool_cases, which gets each input as a case. bench/unproved.sh makes either without a proof.
set -eu
cd "$(dirname "$0")/.."
program=${PROGRAM:-crates/s390x/out/s390x}
chosen=" ${*:-image emit run operands show gen smp bundle alloc} "
work=$(mktemp -d)
trap 'rm -rf "$work"' EXIT
status=0

# A text N times, with {i} for the number from 0, {j} and {k} for the next two, {a} for an address and {n} for N; \n ends a line.
times() {
    awk -v n="$1" -v unit="$2" 'BEGIN {
        gsub(/\\n/, "\n", unit)
        for (i = 0; i < n; i++) {
            text = unit
            gsub(/{i}/, i, text)
            gsub(/{j}/, i + 1, text)
            gsub(/{k}/, i + 2, text)
            gsub(/{a}/, 65536 + 16 * i, text)
            gsub(/{n}/, n, text)
            printf "%s", text
        }
    }'
}

# A text in which \n ends a line.
say() {
    printf '%b' "$1"
}

# The same text N times in one line, with commas between.
list() {
    times "$1" "$2," | sed 's/,$//'
}

# The instructions that the program executes with these words and the job as its input.
executed() {
    case "$program" in
    *_cases) { echo "> $1"; cat "$work/job"; echo "< 0"; } > "$work/case"; set -- "" "$work/case" ;;
    *) set -- "$1" "$work/job" ;;
    esac
    valgrind --tool=callgrind --callgrind-out-file=/dev/null "$program" $1 < "$2" > "$work/text" 2> "$work/log" || true
    sed -n 's/.*Collected : //p' "$work/log"
}

# A dimension of a command: its name, its size and the words, and what writes the input of n items.
grow() {
    local name=$1 size=$2 words=$3 text=$4 n first second
    case "$chosen" in *" ${words%% *} "*) ;; *) return 0 ;; esac
    n=$size
    eval "$text" > "$work/job"
    first=$(executed "$(eval "echo $words")")
    n=$((size * 10))
    eval "$text" > "$work/job"
    second=$(executed "$(eval "echo $words")")
    awk -v a="$first" -v b="$second" -v name="${words%% *}, $name" -v told="$(head -c 30 "$work/text" | head -n 1)" \
        'BEGIN { printf "%6.2f%s  %-64s %s\n", b / a, (b > 13 * a) ? " !" : "  ", name, told; exit (b > 13 * a) }' || status=1
}

# ---- the parts of a job

add='AluRRR Add64 %r2 %r3 %r4\n'
call='Call %r14 u1 [] [] [] 0 SystemV SystemV - false -\n'
last='block\nRet %r14\nend\n'
for words in 'image 4096' emit operands show 'run 4096 1000'; do
    grow 'blocks without instructions' 100 "$words" 'times $n "block\n"; echo end'
    grow 'blocks with an addition' 100 "$words" 'times $n "block\n$add"; echo end'
    grow 'blocks that return' 100 "$words" 'times $n "block\nRet %r14\n"; echo end'
    grow 'jumps to the next block' 100 "$words" 'times $n "block\nJump {j}\n"; say "$last"'
    grow 'branches to the first block' 100 "$words" 'times $n "block\nCondBr 0 {j} 8\n"; say "$last"'
    grow 'branches to the last block' 100 "$words" 'times $n "block\nCondBr {n} {j} 8\n"; say "$last"'
    grow 'jumps to the last block' 100 "$words" 'times $n "block\nJump {n}\n"; say "$last"'
    grow 'additions' 100 "$words" 'echo block; times $n "$add"; echo end'
    grow 'loads' 100 "$words" 'echo block; times $n "Load64 %r2 RegOffset(%r3,8,a)\n"; echo end'
    grow 'stores' 100 "$words" 'echo block; times $n "Store64 %r2 RegOffset(%r15,160,a)\n"; echo end'
    grow 'far operands' 100 "$words" 'echo block; times $n "Load64 %r2 RegOffset(%r3,1000000,a)\n"; echo end'
    grow 'sums of vectors' 100 "$words" 'echo block; times $n "VecRRR Add64x2 %v1 %v2 %v3\n"; echo end'
    grow 'loads of vectors' 100 "$words" 'echo block; times $n "VecLoad %v1 RegOffset(%r3,16,a)\n"; echo end'
    grow 'traps' 100 "$words" 'echo block; times $n "TrapIf 8 heap_oob\n"; echo end'
    grow 'calls' 100 "$words" 'echo symbol u1 8192; echo block; times $n "$call"; echo end'
    grow 'calls of many symbols' 100 "$words" 'times $n "symbol u{j} 8192\n"; echo block; times $n "${call/u1/u{j\}}"; echo end'
    grow 'patchable calls' 100 "$words" 'echo symbol u1 8192; echo block; times $n "${call/false/true}"; echo end'
    grow 'calls with a handler' 100 "$words" 'echo symbol u1 8192; echo block; times $n "${call/- false/0[7:0] false}"; echo end'
    grow 'handlers of a call' 100 "$words" 'echo symbol u1 8192; echo block; printf "Call %%r14 u1 [] [] [] 0 SystemV SystemV 0["; list $n "{i}:0"; printf "] false -\nend\n"'
    grow 'targets of a branch' 100 "$words" 'echo block; printf "IndirectBr %%r5 ["; list $n 0; printf "]\nend\n"'
    grow 'targets of a table' 100 "$words" 'echo block; printf "JTSequence %%r5 0 2 ["; list $n 0; printf "]\nend\n"'
    grow 'tables' 100 "$words" 'times $n "block\nJTSequence %r5 {j} 2 [0,{j}]\n"; say "$last"'
    grow 'addresses of blocks' 100 "$words" 'echo block; times $n "LabelAddress %r2 0\n"; echo end'
    grow 'addresses of symbols' 100 "$words" 'echo symbol u1 8192; echo block; times $n "LoadSymbolReloc %r2 Absolute(u1,0)\n"; echo end'
    grow 'accesses to a symbol' 100 "$words" 'echo symbol u1 8192; echo block; times $n "Load64 %r2 Symbol(u1,0,a)\n"; echo end'
    grow 'accesses to a symbol without relative ones' 100 "$words" 'echo flags norel; echo symbol u1 8192; echo block; times $n "Load64 %r2 Symbol(u1,0,a)\n"; echo end'
    grow 'constants' 100 "$words" 'times $n "const 8 0102030405060708\n"; echo block; echo end'
    grow 'bytes of a constant' 1000 "$words" 'printf "const 8 "; times $n 01; echo; echo block; echo end'
    grow 'symbols' 100 "$words" 'times $n "symbol u{j} {i}\n"; echo block; echo end'
    grow 'regions of memory' 100 "$words" 'times $n "mem {a} 01\n"; echo block; echo end'
    grow 'bytes of a region' 1000 "$words" 'printf "mem 65536 "; times $n 01; echo; echo block; echo end'
    grow 'members of a loop' 100 "$words" 'echo block; echo Loop 7; times $n "$add"; echo endloop; echo end'
    grow 'loops' 100 "$words" 'echo block; times $n "Loop 7\nCondBreak 8\nendloop\n"; echo end'
    grow 'lines behind a wrong one' 100 "$words" 'echo block; echo Nop3; times $n "$add"; echo end'
    grow 'lines before a wrong one' 100 "$words" 'echo block; times $n "$add"; echo Nop3; echo end'
done
grow 'steps' 1000 'run 4096 $n' 'echo block; echo Jump 0; echo end'
grow 'steps over different instructions' 100 'run 4096 $n' 'echo block; times $n "$add"; echo end'
grow 'steps that store' 100 'run 4096 $n' 'echo block; times $n "Store64 %r2 RegOffset(%r3,8192,a)\nAluRSImm16 Add64 %r3 %r3 8\n"; echo end'
grow 'instructions' 1000 'gen $n 1' 'true'
grow 'steps' 1000 'smp 4096 65536 2 $n 1' 'true'
grow 'processors' 10 'smp 4096 65536 $n 1000 1' 'true'

# ---- bundles

member='function u{j}\nblock\nRet %r14\nend\n'
grow 'functions' 30 'bundle 4096' 'times $n "$member"; echo close'
grow 'functions that call the next one' 30 'bundle 4096' 'times $((n - 1)) "function u{i}\nblock\n${call/u1/u{j\}}end\n"; times 1 "function u$((n - 1))\nblock\nRet %r14\nend\n"; echo close'
grow 'functions with a symbol each' 30 'bundle 4096' 'times $n "function u{j}\nsymbol u100000 8192\nblock\n${call/u1/u100000}end\n"; echo close'
grow 'symbols of a function' 100 'bundle 4096' 'echo function u0; times $n "symbol u{j} {i}\n"; echo block; echo Ret %r14; echo end; echo close'
grow 'functions beside as many symbols' 30 'bundle 4096' 'echo function u0; times $n "symbol u{a} {i}\n"; echo block; echo Ret %r14; echo end; times $n "$member"; echo close'
grow 'additions of a function' 100 'bundle 4096' 'echo function u1; echo block; times $n "$add"; echo end; echo close'
grow 'calls of a function' 100 'bundle 4096' 'echo function u1; echo block; times $n "$call"; echo end; echo close'
grow 'calls of as many functions' 30 'bundle 4096' 'echo function u0; echo block; times $n "${call/u1/u{j\}}"; echo end; times $n "$member"; echo close'
grow 'names before one that comes twice' 30 'bundle 4096' 'times $n "$member"; times 1 "$member"; echo close'

# ---- plans

five='Mov64SImm16 %i0 5\n'
frame='frame SystemV 0 0 0 $((16 * n + 16)) 0 0 - 0'
grow 'blocks without instructions' 100 alloc 'times $n "block\n"; echo end; echo plan; times $n "block\n"; echo close'
grow 'jumps to the next block' 100 alloc 'times $n "block\nJump {j}\n"; say "$last"; echo plan; times $n "block\nstep []\n"; echo block; echo "step []"; echo close'
grow 'jumps with a value' 100 alloc 'say "block\n$five"; times $n "block\nJump {k}\n"; say "$last"; echo plan; echo block; echo "step [%r2]"; times $n "block\nentry %r2=%i0\nstep []\n"; echo block; echo entry %r2=%i0; echo "step []"; echo close'
grow 'jumps to one block with a value' 100 alloc 'say "block\n$five"; times $n "block\nCondBr {k} $((n + 1)) 8\n"; say "$last"; echo plan; echo block; echo "step [%r2]"; times $n "block\nentry %r2=%i0\nstep []\n"; echo block; echo entry %r2=%i0; echo "step []"; echo close'
grow 'targets of a branch' 100 alloc 'echo block; printf "IndirectBr %%r5 ["; list $n "{j}"; echo "]"; times $n "block\nRet %r14\n"; echo end; echo plan; times $n "block\nstep []\n"; echo block; echo "step []"; echo close'
grow 'targets of a table that are one block' 100 alloc 'say "block\n$five"; printf "JTSequence %%r5 1 2 ["; list $n 1; echo "]"; say "$last"; echo plan; echo block; echo "step [%r2]"; echo "step []"; echo block; echo entry %r2=%i0; echo "step []"; echo close'
grow 'slots with a value' 100 alloc 'eval echo "$frame"; say "block\n$five"; echo end; echo plan; echo block; echo "step [%r2]"; times $n "move s{i} %r2\n"; echo close'
grow 'slots with a value each' 100 alloc 'eval echo "$frame"; echo block; times $n "Mov64SImm16 %i{i} 5\n"; echo end; echo plan; echo block; times $n "step [%r2]\nmove s{i} %r2\n"; echo close'
grow 'slots that are loaded again' 100 alloc 'eval echo "$frame"; say "block\n$five"; times $n "Mov64 %i1 %i0\n"; echo end; echo plan; echo block; echo "step [%r2]"; times $n "move s{i} %r2\n"; times $n "move %r4 s{i}\nstep [%r3,%r4]\n"; echo close'
grow 'calls beside as many slots' 100 alloc 'eval echo "$frame"; say "block\n$five"; times $n "$call"; echo end; echo plan; echo block; echo "step [%r2]"; times $n "move s{i} %r2\n"; times $n "step []\n"; echo close'
grow 'pairs of slots' 100 alloc 'eval echo "$frame"; times 2 "block\nRet %r14\n"; echo end; echo plan; echo block; echo "step []"; echo block; times $n "entry s{i}=%i{i}\n"; echo "step []"; echo close'
grow 'pairs of one register' 100 alloc 'times 2 "block\nRet %r14\n"; echo end; echo plan; echo block; echo "step []"; echo block; times $n "entry %r2=%i{i}\n"; echo "step []"; echo close'
grow 'pairs of one register, and moves from it' 30 alloc 'eval echo "$frame"; times 2 "block\nRet %r14\n"; echo end; echo plan; echo block; echo "step []"; echo block; times $n "entry %r2=%i{i}\n"; times $n "move s{i} %r2\n"; echo "step []"; echo close'
grow 'pairs of one register, each written again' 100 alloc 'echo block; echo Ret %r14; echo block; times $n "Mov64SImm16 %i{i} 5\n"; echo end; echo plan; echo block; echo "step []"; echo block; times $n "entry %r2=%i{i}\n"; times $n "step [%r3]\n"; echo close'
grow 'pairs that go on to the next block' 100 alloc 'eval echo "$frame"; echo block; echo Ret %r14; echo block; echo block; echo Ret %r14; echo end; echo plan; echo block; echo "step []"; echo block; times $n "entry s{i}=%i{i}\n"; echo block; times $n "entry s{i}=%i{i}\n"; echo "step []"; echo close'
grow 'moves between two registers' 100 alloc 'say "block\n$five"; echo end; echo plan; echo block; echo "step [%r2]"; times $n "move %r3 %r2\n"; echo close'
grow 'writes of one register' 100 alloc 'echo block; times $n "$five"; echo end; echo plan; echo block; times $n "step [%r2]\n"; echo close'
grow 'results of a call' 100 alloc 'echo block; printf "Call %%r14 u1 [] ["; list $n "%i{i}=@8:I64"; echo "] [] 0 SystemV SystemV - false -"; echo end; echo plan; echo block; printf "step ["; list $n %r2; echo "]"; echo close'
exit $status
