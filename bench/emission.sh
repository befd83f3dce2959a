#!/usr/bin/env bash
# Tells what emission alone takes, of a function that is already read: nanoseconds for each instruction of a job, and instructions executed for
# each. There are two jobs of about N instructions (100000 if none is given): blocks of two additions and a branch, and one block of loads and stores.
# `s390x_bench` reads a job once and emits its function once or 21 times; the difference is 20 emissions, each with its checks, its buffer and
# `finish`. The least seconds of five turns count. The instructions are counted by valgrind's callgrind, which is repeatable. As a peer in the same
# run, GNU as translates the same code. Needs s390x-linux-gnu-as (Debian's binutils-s390x-linux-gnu), valgrind, and the built program
# (rt run s390x_bench, or rt ci).
set -eu
cd "$(dirname "$0")/.."
program=crates/s390x_bench/out/s390x_bench
count=${1:-100000}
more=20
work=$(mktemp -d)
trap 'rm -rf "$work"' EXIT

# Each block adds and branches: to itself where the sum is zero, else to the next one, for which no branch is needed.
branches() {
    awk -v n="$((count / 3))" 'BEGIN {
        for (i = 0; i < n; i++) {
            print "block"
            print "AluRRR Add64 %r2 %r3 %r4"
            print "AluRRR Add64 %r5 %r2 %r4"
            if (i + 1 < n) print "CondBr " i " " i + 1 " 8"; else print "Ret %r14"
        }
        print "end"
    }' > "$work/job"
    awk -v n="$((count / 3))" 'BEGIN {
        for (i = 0; i < n; i++) {
            print "L" i ":"
            print " agrk %r2,%r3,%r4"
            print " agrk %r5,%r2,%r4"
            if (i + 1 < n) print " brcl 8,L" i; else print " br %r14"
        }
    }' > "$work/code.s"
}

# Loads and stores by turns.
accesses() {
    awk -v n="$count" 'BEGIN {
        print "block"
        for (i = 0; i < n; i++) {
            if (i % 2 == 0) print "Load64 %r2 RegOffset(%r3,8,a)"; else print "Store64 %r2 RegOffset(%r15,160,a)"
        }
        print "end"
    }' > "$work/job"
    awk -v n="$count" 'BEGIN {
        for (i = 0; i < n; i++) {
            if (i % 2 == 0) print " lg %r2,8(%r3)"; else print " stg %r2,160(%r15)"
        }
    }' > "$work/code.s"
}

# The least nanoseconds of five turns.
best() {
    local least="" start end
    for _ in 1 2 3 4 5; do
        start=$(date +%s%N)
        "$@" < "$work/job" > "$work/out"
        end=$(date +%s%N)
        if [ -z "$least" ] || [ $((end - start)) -lt "$least" ]; then least=$((end - start)); fi
    done
    echo "$least"
}

# The instructions that the program executes for so many emissions.
executed() {
    valgrind --tool=callgrind --callgrind-out-file="$work/callgrind.out" "$program" "$1" < "$work/job" > "$work/out" 2> "$work/valgrind.log"
    sed -n 's/.*Collected : //p' "$work/valgrind.log"
}

# Measures the job that was written.
measure() {
    local given once often theirs ran_once ran_twice
    given=$(grep -c -v -e '^block$' -e '^end$' "$work/job")
    once=$(best "$program" 1)
    often=$(best "$program" $((1 + more)))
    theirs=$(best s390x-linux-gnu-as -march=z14 -o "$work/code.o" "$work/code.s")
    ran_once=$(executed 1)
    ran_twice=$(executed 2)
    awk -v what="$1" -v n="$given" -v a="$once" -v b="$often" -v m="$more" -v t="$theirs" -v x="$ran_once" -v y="$ran_twice" 'BEGIN {
        each = (b - a) / m
        printf "%s: %.1f ns and %.0f instructions executed for each of %d instructions; as takes %.1f times as long\n", what, each / n, (y - x) / n, n, t / each
    }'
}

branches
measure "branches and additions"
accesses
measure "loads and stores"
