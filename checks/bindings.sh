#!/usr/bin/env bash
# Builds and tests what calls the libraries from C and from Rust: the demos and tests in C with all warnings as errors, once
# more with the sanitizers, the program's cases and random jobs through C, the crate with its documentation, and the comparison
# with entries in the original's form. It needs cc, make, python3 and cargo, and no network. No part of the gate.
#
#     checks/bindings.sh [FOLDER]
#
# FOLDER has the libraries, out/library if none is named; where they aren't there, ./s390x library makes them.
set -u
root=$(CDPATH='' cd "$(dirname "${BASH_SOURCE[0]}")/.." && pwd)
folder=${1:-$root/out/library}
built=$root/out/c
failed=0

run() {
    echo "== $*"
    "$@" || { echo "failed: $*"; failed=1; }
}

if [ ! -f "$folder/libs390x_c.a" ] || [ ! -f "$folder/libs390x_decode_c.a" ]; then
    "$root/bindings/library.sh" "$folder" || exit 1
fi
folder=$(CDPATH='' cd "$folder" && pwd)
export S390X_LIBRARY=$folder CARGO_TARGET_DIR=${CARGO_TARGET_DIR:-$root/out/cargo} CARGO_NET_OFFLINE=true
run make -s -C "$root/bindings/c" LIBRARY="$folder" BUILD="$built" check
run make -s -C "$root/bindings/c" LIBRARY="$folder" BUILD="$built" SANITIZE=1 check
run env PYTHONPATH="$root/checks" python3 "$root/checks/bindings_cases.py" "$built/emit_demo"
cd "$root/bindings/rust" || exit 1
run cargo test -q
run cargo test -q --no-default-features
run env RUSTDOCFLAGS="-D warnings" cargo doc -q --no-deps
run python3 "$root/bindings/compare/compare.py" --demo "$built/emit_demo" "$root/bindings/compare/entries.rs"
exit "$failed"
