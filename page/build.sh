#!/usr/bin/env bash
# Builds the page: puts the proved module and the sentences into page/index.html. Run by hand, from anywhere:
#
#     page/build.sh [OUT]    OUT is the page that is written, page/index.html where it isn't given
#
# The toolchain's gate takes no crate for wasm64. So s390x_page stands in crates.txt as a static library, which the gate proves, and here
# it and the crates below it are copied into an empty folder, where the one line says wasm64 in place of staticlib.
set -eu
top=$(cd "$(dirname "$0")/.." && pwd)
out=$(realpath -m "${1:-$top/page/index.html}")
folder=$(mktemp -d "${TMPDIR:-/tmp}/page.XXXXXX")
trap 'rm -rf "$folder"' EXIT
python3 - "$top/crates.txt" "$folder/crates.txt" <<'PYTHON' > "$folder/names"
import sys
lines = dict(line.split(":") for line in open(sys.argv[1]).read().splitlines() if line and line[0] != "#")
wanted, left = [], ["s390x_page staticlib"]
while left:
    name = left.pop()
    if name in lines and name not in wanted:
        wanted.append(name)
        left += lines[name].split()
open(sys.argv[2], "w").writelines("%s:%s\n" % (n.replace(" staticlib", " wasm64"), lines[n]) for n in lines if n in wanted)
print(*(name.split()[0] for name in wanted))
PYTHON
mkdir "$folder/crates"
for name in $(cat "$folder/names"); do
    mkdir "$folder/crates/$name"
    for part in src specs proofs; do
        if [ -d "$top/crates/$name/$part" ]; then cp -r "$top/crates/$name/$part" "$folder/crates/$name/"; fi
    done
    if [ -d "$top/crates/$name/out/rlib" ]; then mkdir "$folder/crates/$name/out" && cp -r "$top/crates/$name/out/rlib" "$folder/crates/$name/out/"; fi
done
rm "$folder/names"
# Libraries that this checkout has built of the same text needn't be proved again, nor those that `rt ci` has kept on this machine.
"${TAKE_LIBS:-$top/checks/take_libs.py}" "$folder" > "$folder/libraries" || true
(cd "$folder/crates/s390x_page" && rt lib) > "$folder/log" 2>&1 || { tail -20 "$folder/log"; exit 1; }
python3 "$top/page/sentences.py" > "$folder/sentences"
python3 - "$top/page/index.html" "$folder/crates/s390x_page/out/s390x_page.wasm" "$folder/sentences" "$out" <<'PYTHON'
import base64, re, sys
page, module, sentences = open(sys.argv[1]).read(), open(sys.argv[2], "rb").read(), open(sys.argv[3]).read().strip()
page = re.sub(r'(?m)^const MODULE = .*;$', lambda _: 'const MODULE = "%s";' % base64.b64encode(module).decode(), page)
page = re.sub(r'(?m)^const SENTENCES = .*;$', lambda _: 'const SENTENCES = %s;' % sentences, page)
open(sys.argv[4], "w").write(page)
print("module: %d bytes, page: %d bytes" % (len(module), len(page)))
PYTHON
