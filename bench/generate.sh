#!/usr/bin/env bash
# Times `gen N START` (100000 and 1 if none are given) against GNU as on the text of the same function, three turns each, and compares the size
# and the sum of the bytes. `gen` reads no text, so this times emission and linking alone. Needs s390x-linux-gnu-as (Debian's
# binutils-s390x-linux-gnu) and the built program.
set -eu
cd "$(dirname "$0")/.."
program=crates/s390x/out/s390x
count=${1:-100000}
start=${2:-1}
work=$(mktemp -d)
trap 'rm -rf "$work"' EXIT

# Each product is below 2^53, so awk's numbers hold it.
awk -v n="$count" -v x="$start" 'BEGIN {
    for (k = 0; k < n; k++) {
        x = (x * 1664525 + 1013904223) % 4294967296
        choice = int(x / 65536) % 4
        offset = 8 * (int(x / 256) % 65536)
        print "L" k ":"
        if (choice == 0) print " agrk %r2,%r3,%r4"
        else if (choice == 1) print " agr %r2,%r4"
        else if (choice == 2) print " lg %r2," offset "(%r15)"
        else { print " lgfi %r1," offset + 524288; print " stg %r4,0(%r1,%r15)" }
        if (k + 1 == n) print " br %r14"; else if (x % n != k + 1) print " brcl 8,L" x % n
    }
}' > "$work/code.s"

# The least seconds of three turns.
best() {
    local least="" begin end
    for _ in 1 2 3; do
        begin=$(date +%s%N)
        "$@" > "$work/out" < /dev/null
        end=$(date +%s%N)
        if [ -z "$least" ] || [ $((end - begin)) -lt "$least" ]; then least=$((end - begin)); fi
    done
    echo "$least"
}

ours=$(best "$program" gen "$count" "$start")
line=$(cat "$work/out")
theirs=$(best s390x-linux-gnu-as -march=z14 -o "$work/code.o" "$work/code.s")
s390x-linux-gnu-objcopy -O binary -j .text "$work/code.o" "$work/code.bin"
# The assembler may fill its section up to a multiple of 8 bytes.
read -r _ _ _ size _ sum <<< "$line"
head -c "$size" "$work/code.bin" | od -An -v -tu1 | awk -v size="$size" -v wanted="$sum" '
    { for (i = 1; i <= NF; i++) { total += $i; read++ } }
    END {
        agree = read == size && total % 4294967296 == wanted
        print agree ? "size and sum agree with as" : "size or sum differ from as"
        exit !agree
    }'
echo "$line"
awk -v a="$ours" -v b="$theirs" 'BEGIN { printf "gen %.3f s, as %.3f s, ratio %.2f\n", a / 1e9, b / 1e9, a / b }'
