#!/usr/bin/env bash
# Counts the instructions that the program executes for `image` of a job of N instructions (100000 if none is given), by valgrind's
# callgrind. The program has to be built first (./s390x image 4096 < examples/add.job). The count is repeatable, so that changes can be compared.
set -eu
cd "$(dirname "$0")/.."
program=crates/s390x/out/s390x
count=${1:-100000}
work=$(mktemp -d)
trap 'rm -rf "$work"' EXIT

{
    echo block
    for ((i = 0; i < count; i++)); do
        echo 'AluRRR Add64 %r2 %r3 %r4'
    done
    echo end
} > "$work/job"

valgrind --tool=callgrind --callgrind-out-file="$work/callgrind.out" "$program" image 4096 \
    < "$work/job" > "$work/image" 2> "$work/valgrind.log"
executed=$(sed -n 's/.*Collected : //p' "$work/valgrind.log")
echo "instructions in the job: $count"
echo "bytes of text: $(stat -c %s "$work/job")"
echo "executed: $executed, $((executed / count)) for each"
