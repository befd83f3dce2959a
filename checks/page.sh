#!/usr/bin/env bash
# The page of instructions: it is built anew and compared with the one that is committed, opened in a headless browser from the file system,
# typed into, and what it shows is compared with the disassembler's stored output, with what GNU's assembler makes of lines, with the steps that
# the emulator and the manual gave, and with a small run worked out by hand. Run by hand, from anywhere:
#
#     checks/page.sh [--shown] [PICTURE.png]    --shown: not built anew; PICTURE.png: a picture of the page is written there
#
# Needs chromium (from 133 on), node (from 18 on) and binutils for s390x. The first build takes as long as the proofs of the libraries below that this checkout hasn't built.
set -eu
top=$(cd "$(dirname "$0")/.." && pwd)
folder=$(mktemp -d "${TMPDIR:-/tmp}/shown.XXXXXX")
# the browser may still write into its profile when it is told to end
trap 'rm -rf "$folder" 2> /dev/null || { sleep 1; rm -rf "$folder"; }' EXIT
if [ "${1:-}" = --shown ]; then
    shift
else
    "$top/page/build.sh" "$folder/index.html"
    cmp "$folder/index.html" "$top/page/index.html"
    echo "the page is what page/build.sh builds"
fi
node "$top/checks/page.mjs" "$top" "$folder/profile" ${1:+"$1"}
