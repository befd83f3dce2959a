#!/usr/bin/env bash
# Times `run 4096 0` of jobs with many memory lines, 20000 and 80000 unless two numbers are given, and tells the ratio. The lines stand in rising order,
# as a job has to have them, with a gap behind each. The least of three turns counts. The program has to be built first
# (./s390x image 4096 < examples/add.job).
set -eu
cd "$(dirname "$0")/.."
program=crates/s390x/out/s390x
few=${1:-20000}
many=${2:-80000}
work=$(mktemp -d)
trap 'rm -rf "$work"' EXIT

# A job with so many memory lines.
job() {
    awk -v n="$1" 'BEGIN {
        for (i = 0; i < n; i++) printf "mem %d 0011223344556677\n", 1000000 + 32 * i
        print "block"
        print "Ret %r14"
        print "end"
    }'
}

# The least milliseconds of three turns.
best() {
    local least="" start end
    for _ in 1 2 3; do
        start=$(date +%s%N)
        "$program" run 4096 0 < "$work/job" > "$work/text"
        end=$(date +%s%N)
        if [ -z "$least" ] || [ $(((end - start) / 1000000)) -lt "$least" ]; then least=$(((end - start) / 1000000)); fi
    done
    echo "$least"
}

job "$few" > "$work/job"
took_few=$(best)
job "$many" > "$work/job"
took_many=$(best)
awk -v a="$took_few" -v b="$took_many" -v n="$few" -v m="$many" 'BEGIN { printf "%d lines: %d ms, %d lines: %d ms, ratio %.1f\n", n, a, m, b, b / (a > 0 ? a : 1) }'
