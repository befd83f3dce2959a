#!/usr/bin/env bash
# Counts the instructions that `image` executes for each line of a job of N lines (1000 if none is given), by valgrind's callgrind, for each kind of line:
# in all, and within `find_job`, which reads. GNU as and LLVM's assembler translate the same code where it has a plain form. Words behind N choose the kinds.
# PROGRAM names another program than the proved one, as bench/unproved.sh makes it, COMMAND another command than `image 4096`, as `show` or `operands`, and
# LLVM_MC another assembler of LLVM's than llvm-mc. Needs valgrind; for the assemblers s390x-linux-gnu-as and llvm-mc.
set -eu
cd "$(dirname "$0")/.."
source bench/kinds.bash
program=${PROGRAM:-crates/s390x/out/s390x}
read -ra command <<< "${COMMAND:-image 4096}"
count=${1:-1000}
[ $# = 0 ] || shift
work=$(mktemp -d)
trap 'rm -rf "$work"' EXIT

printf 'block\nend\n' > "$work/job"
nothing=$(executed "$program" "${command[@]}" < "$work/job")

kind() {
    local name=$1 head=$2 unit=$3 code=$4 all lines reading gnu llvm
    case " ${chosen:-$name} " in *" $name "*) ;; *) return 0 ;; esac
    { printf '%b' "$head"; times "$unit"; echo end; } > "$work/job"
    lines=$(wc -l < "$work/job")
    all=$(executed "$program" "${command[@]}" < "$work/job")
    reading=$(within find_job)
    printf '%-12s %6d a line, reading %6d' "$name" $(((all - nothing) / lines)) $((${reading:-0} / lines))
    if [ -n "$code" ]; then
        gnu=$(gnu_as)
        llvm=$(llvm_mc)
        printf ', as %6d, llvm-mc %6d' "$gnu" "$llvm"
    fi
    echo
}

chosen=$*
kinds
