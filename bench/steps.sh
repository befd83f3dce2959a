#!/usr/bin/env bash
# Counts executed instructions by valgrind's callgrind: those of a step of the machine in a loop over registers (`Loop` of an addition and two branches),
# by `run` with 1000 steps and with 101000, and those of `decode`, by `s390x_bench` with 1000 turns and with 101000; each time the difference
# counts. A turn of `s390x_bench` also makes the bytes and sums up the fields. The counts are repeatable. Both programs have to be built first
# (rt ci, or rt run in their folders).
set -eu
cd "$(dirname "$0")/.."
work=$(mktemp -d)
trap 'rm -rf "$work"' EXIT

cat > "$work/job" << 'END'
reg %r4 3
block
Loop 7
AluRRR Add64 %r2 %r2 %r4
CondBreak 8
endloop
Ret %r14
end
END

echo end > "$work/none"

# The instructions that a program executes with these words and this input.
counted() {
    valgrind --tool=callgrind --callgrind-out-file="$work/callgrind.out" "${@:2}" < "$work/$1" > "$work/text" 2> "$work/valgrind.log"
    sed -n 's/.*Collected : //p' "$work/valgrind.log"
}

step() {
    counted job crates/s390x/out/s390x run 4096 "$1"
}

decode() {
    counted none crates/s390x_bench/out/s390x_bench 0 "$1" "$2"
}

echo "executed for each step: $((($(step 101000) - $(step 1000)) / 100000))"
for bytes in b9e840220000 c084fffffffe e32030080004 a72b00010000 b90800240000; do
    number=$((16#$bytes))
    echo "executed to decode $bytes: $((($(decode 101000 "$number") - $(decode 1000 "$number")) / 100000))"
done
