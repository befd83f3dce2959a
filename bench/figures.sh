#!/usr/bin/env bash
# Takes all figures of docs/BENCHMARKS.md's first table in one run, by executed instructions (valgrind's callgrind), beside GNU as and LLVM's assembler on the same code:
# for each kind of line what `image`, its reading, `show` and `operands` take for a line, what emission takes for an instruction, what the assemblers take for it;
# then what a step of the machine takes in five loops, and how much memory a byte of input takes at most. N is the number of lines (2000 if none is given).
# Words behind N choose the kinds. PROGRAM and BENCH name other programs than the proved s390x and s390x_bench, LLVM_MC another assembler than llvm-mc.
set -eu
cd "$(dirname "$0")/.."
source bench/kinds.bash
program=${PROGRAM:-crates/s390x/out/s390x}
emitter=${BENCH:-crates/s390x_bench/out/s390x_bench}
count=${1:-2000}
[ $# = 0 ] || shift
work=$(mktemp -d)
trap 'rm -rf "$work"' EXIT

# What a command takes for each line of the job, beyond what it takes for an empty one.
line() {
    local all none
    all=$(executed "$program" "$@" < "$work/job")
    none=$(executed "$program" "$@" < "$work/nothing")
    echo $(((all - none) / $(wc -l < "$work/job")))
}

# What one emission more takes for each instruction of the job.
emission() {
    local once twice
    once=$(executed "$emitter" 1 < "$work/job")
    twice=$(executed "$emitter" 2 < "$work/job")
    echo $(((twice - once) / $(instructions)))
}

kind() {
    local name=$1 head=$2 unit=$3 code=$4 reading image emission show operands gnu='' llvm=''
    case " ${chosen:-$name} " in *" $name "*) ;; *) return 0 ;; esac
    { printf '%b' "$head"; times "$unit"; echo end; } > "$work/job"
    executed "$program" image 4096 < "$work/job" > /dev/null
    reading=$(($(within find_job) / $(wc -l < "$work/job")))
    image=$(line image 4096)
    emission=$(emission)
    show=$(line show)
    operands=$(line operands)
    if [ -n "$code" ]; then
        gnu=$(gnu_as)
        llvm=$(llvm_mc)
    fi
    echo "| $name | $reading | $image | $emission | $show | $operands | $gnu | $llvm |"
}

printf 'block\nend\n' > "$work/nothing"
chosen=$*
echo '| line | reading | `image` | emission | `show` | `operands` | GNU as | llvm-mc |'
echo '|---|---|---|---|---|---|---|---|'
kinds

# What a step takes in a loop of these lines, four times, an addition and two branches.
loop() {
    local name=$1 few many
    {
        printf 'reg %%r3 65536\nreg %%r4 3\nreg %%v3 %032x\nreg %%v4 %032x\nmem 65536 %0128x\nblock\nLoop 7\n' 5 7 1
        count=4 times "$2"
        printf 'AluRRR Add64 %%r2 %%r2 %%r4\nCondBreak 8\nendloop\nRet %%r14\nend\n'
    } > "$work/job"
    few=$(executed "$program" run 4096 1000 < "$work/job")
    many=$(executed "$program" run 4096 23000 < "$work/job")
    echo "| $name | $(((many - few) / 22000)) |"
}

echo
echo '| a step in a loop | executed |'
echo '|---|---|'
loop 'of registers' ''
loop 'four times `Load64` and `Store64`' 'Load64 %r5 RegOffset(%r3,8,a)\nStore64 %r5 RegOffset(%r3,16,a)\n'
loop 'four times `AluRX Add64` and `CmpRR CmpS64`' 'AluRX Add64 %r5 %r5 RegOffset(%r3,8,a)\nCmpRR CmpS64 %r5 %r4\n'
loop 'four times `VecLoad` and `VecStore`' 'VecLoad %v5 RegOffset(%r3,16,a)\nVecStore %v5 RegOffset(%r3,32,a)\n'
loop 'four times `VecRRR Add64x2` and `And128`' 'VecRRR Add64x2 %v5 %v3 %v4\nVecRRR And128 %v6 %v5 %v4\n'

# The peak of resident memory, in bytes for each byte of an input of at most 16 MB: so many times a text, between a head and a tail.
memory() {
    local name=$1 command=$2 head=$3 unit=$4 tail=$5 long peak
    long=$(printf '%b.' "${unit//\{?\}/1234567}")
    { printf '%b' "$head"; count=$((16700000 / ${#long})) times "$unit"; printf '%b' "$tail"; } > "$work/job"
    /usr/bin/time -f %M -o "$work/peak" "$program" "$command" 4096 < "$work/job" > /dev/null 2> "$work/log" || failed "$program" $? "$work/log"
    peak=$(tail -n 1 "$work/peak")
    awk -v name="$name" -v peak="$peak" -v size="$(stat -c %s "$work/job")" 'BEGIN { printf "| %s | %.1f |\n", name, peak * 1024 / size }'
}

echo
echo '| input | bytes of memory for each byte |'
echo '|---|---|'
memory '`block` and `Jump` to the next one by turns' image 'block\n' 'Jump {j}\nblock\n' 'end\n'
memory 'blocks of `bench/assembler.sh`' image 'block\n' 'AluRRR Add64 %r2 %r3 %r4\nMov64 %r5 %r2\nCondBr {i} {j} 8\nblock\n' 'end\n'
memory '`Loop`, `Nop2` and `endloop` by turns' image 'block\n' 'Loop 7\nNop2\nendloop\n' 'end\n'
memory 'functions of one `Ret`' bundle '' 'function u{i}\nblock\nRet %r14\nend\n' 'close\n'
memory '`Nop2` alone' image 'block\n' 'Nop2\n' 'end\n'
memory 'loads and stores' image 'block\n' 'Load64 %r2 RegOffset(%r3,8,a)\nStore64 %r2 RegOffset(%r15,160,a)\n' 'end\n'
