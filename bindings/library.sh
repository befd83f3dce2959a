#!/usr/bin/env bash
# Makes the static libraries for C and Rust, and lays them with their header and their allocator into a folder:
#
#     ./s390x library [FOLDER]
#
# The folder is out/library of the repository, if none is named; bindings/rust and bindings/c look for it there. The
# libraries are proved first, where they aren't or a source is newer: from a fresh clone that takes about as long as the
# program does. The variable RT names the command rt, where it isn't that of PATH; JOBS how many crates are proved side by
# side, if not one a core.
#
# FOLDER/libs390x_decode_c.a   s390x_decode; no allocator, no undefined symbols
# FOLDER/libs390x_c.a          the other calls of the header; leaves rattle_alloc, rattle_realloc and rattle_dealloc undefined
# FOLDER/s390x_decode.h        what s390x_decode answers, and what a caller owes
# FOLDER/s390x.h               the same of the other calls
# FOLDER/s390x_alloc.c         these three functions over malloc; yours can take their place
set -u
root=$(CDPATH='' cd "$(dirname "${BASH_SOURCE[0]}")/.." && pwd)
rt=${RT:-$(command -v rt || echo /opt/rattle/bin/rt)}
folder=${1:-$root/out/library}

say() {
    echo "library: $*" >&2
}

# How many crates to prove side by side: one a core, while each has 3 GB.
count_jobs() {
    awk -v jobs="$(nproc)" '
        /^MemAvailable:/ && $2 < 3000000 * jobs { jobs = int($2 / 3000000) }
        END { print jobs < 1 ? 1 : jobs }
    ' /proc/meminfo
}

# Proves the library with those below it, and builds its archive. What is said goes to the log $2.
build() {
    (cd "$root/crates/$1" && "$rt" all check --jobs "${JOBS:-$(count_jobs)}" && "$rt" lib) < /dev/null >> "$2" 2>&1 &&
        [ -f "$root/crates/$1/out/lib$1.a" ]
}

case $folder in
    -*) sed -n '2,/^set/s/^# \{0,1\}//p' "${BASH_SOURCE[0]}" | sed '/^set/d' && exit ;;
esac
log=$(mktemp) || exit 1
mkdir -p "$folder" || exit 1
for name in s390x_decode_c s390x_c; do
    say "proving and building lib$name.a"
    if ! build "$name" "$log"; then
        say "it isn't proved or built; what was said stands in $log"
        exit 1
    fi
    cp "$root/crates/$name/out/lib$name.a" "$folder/" || exit 1
done
cp "$root/bindings/c/s390x.h" "$root/bindings/c/s390x_decode.h" "$root/bindings/c/s390x_alloc.c" "$folder/" || exit 1
rm -f "$log"
say "made $folder"
