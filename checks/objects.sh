#!/usr/bin/env bash
# Links the program's objects by GNU ld and LLVM's, runs what they make on the emulator, and compares 500 random jobs and 300
# bundles with `image` and `bundle`; checks/objects.py says how. It needs clang, lld from version 18 on, qemu-user and the binary utilities and gcc for
# s390x-linux-gnu. It is no part of the gate.
#
#     checks/objects.sh --try
set -eu
here=$(CDPATH='' cd "$(dirname "${BASH_SOURCE[0]}")" && pwd)
for tool in s390x-linux-gnu-{as,ld,objdump,readelf,objcopy,gcc} clang qemu-s390x; do
    command -v "$tool" > /dev/null || { echo "objects.sh: no $tool" >&2; exit 2; }
done
exec python3 "$here/objects.py" "$@"
