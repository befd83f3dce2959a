#!/usr/bin/env bash
# Times `image` of two jobs, N blocks that add, move and branch (N is 100000 if none is given) and one block of N loads and stores, against GNU
# as and LLVM's assembler on the same code, in one run: three turns each, and the ratios of the best ones. Needs s390x-linux-gnu-as (Debian's
# binutils-s390x-linux-gnu), llvm-mc (Debian's llvm) and the built program.
set -eu
cd "$(dirname "$0")/.."
program=crates/s390x/out/s390x
count=${1:-100000}
work=$(mktemp -d)
trap 'rm -rf "$work"' EXIT

# Each block adds and branches: to itself where the sum is zero, else to the next one, for which no branch is needed.
branches() {
    awk -v n="$count" 'BEGIN {
        for (i = 0; i < n; i++) {
            print "block"
            print "AluRRR Add64 %r2 %r3 %r4"
            print "Mov64 %r5 %r2"
            if (i + 1 < n) print "CondBr " i " " i + 1 " 8"; else print "Ret %r14"
        }
        print "end"
    }' > "$work/job"
    awk -v n="$count" 'BEGIN {
        for (i = 0; i < n; i++) {
            print "L" i ":"
            print " agrk %r2,%r3,%r4"
            print " lgr %r5,%r2"
            if (i + 1 < n) print " brcl 8,L" i; else print " br %r14"
        }
    }' > "$work/code.s"
}

# Loads and stores by turns.
accesses() {
    awk -v n="$count" 'BEGIN {
        print "block"
        for (i = 0; i < n; i++) {
            if (i % 2 == 0) print "Load64 %r2 RegOffset(%r3,8,a)"; else print "Store64 %r2 RegOffset(%r15,160,a)"
        }
        print "end"
    }' > "$work/job"
    awk -v n="$count" 'BEGIN {
        for (i = 0; i < n; i++) {
            if (i % 2 == 0) print " lg %r2,8(%r3)"; else print " stg %r2,160(%r15)"
        }
    }' > "$work/code.s"
}

# The least seconds of three turns.
best() {
    local least="" start end
    for _ in 1 2 3; do
        start=$(date +%s%N)
        "$@" > "$work/out" < "$work/job"
        end=$(date +%s%N)
        if [ -z "$least" ] || [ $((end - start)) -lt "$least" ]; then least=$((end - start)); fi
    done
    echo "$least"
}

# Times the job and compares the bytes.
compare() {
    local ours theirs llvm digits
    ours=$(best "$program" image 4096)
    cp "$work/out" "$work/image"
    theirs=$(best s390x-linux-gnu-as -march=z14 -o "$work/code.o" "$work/code.s")
    s390x-linux-gnu-objcopy -O binary -j .text "$work/code.o" "$work/code.bin"
    od -An -v -tx1 "$work/code.bin" | tr -d ' \n' > "$work/code.hex"
    llvm=$(best llvm-mc -triple=s390x-linux-gnu -mcpu=z14 -filetype=obj -o "$work/llvm.o" "$work/code.s")
    # The assemblers may fill their section up to a multiple of 8 bytes.
    digits=$(($(stat -c %s "$work/image") - 1))
    cmp -n "$digits" "$work/image" "$work/code.hex" && echo "the bytes agree with as: $((digits / 2))"
    s390x-linux-gnu-objcopy -O binary -j .text "$work/llvm.o" "$work/llvm.bin"
    od -An -v -tx1 "$work/llvm.bin" | tr -d ' \n' > "$work/llvm.hex"
    cmp -n "$digits" "$work/image" "$work/llvm.hex" && echo "the bytes agree with llvm-mc: $((digits / 2))"
    echo "bytes of text: ours $(stat -c %s "$work/job"), as $(stat -c %s "$work/code.s")"
    awk -v a="$ours" -v b="$theirs" -v c="$llvm" 'BEGIN {
        printf "image %.3f s, as %.3f s, llvm-mc %.3f s, ratios %.2f and %.2f\n", a / 1e9, b / 1e9, c / 1e9, a / b, a / c
    }'
}

echo "blocks that add and branch:"
branches
compare
echo "loads and stores:"
accesses
compare
