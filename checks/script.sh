#!/usr/bin/env bash
# Tests the script `s390x`: what it says of words, of wrong lines and of refusals, and how it ends. Run by hand.
#
#     checks/script.sh           with a stand-in for the proved program, in seconds
#     checks/script.sh --try     and what an unproved build answers to the examples and to wrong inputs, in a minute or two
#
# The stand-in answers what a test tells it, so this says nothing of the program.
set -u
root=$(CDPATH='' cd "$(dirname "${BASH_SOURCE[0]}")/.." && pwd)
room=$(mktemp -d) || exit 1
trap 'rm -rf "$room"' EXIT
failed=0 passed=0

# The test $1: the status $2, and a line that standard error has to have, $3, by what stands in `status` and `err`.
want() {
    if [ "$status" -eq "$2" ] && { [ -z "$3" ] || grep -qF -- "$3" "$room/err"; }; then
        passed=$((passed + 1))
    else
        failed=$((failed + 1))
        echo "$1: status $status and"
        sed 's/^/    /' "$room/err"
        echo "  in place of status $2 and: $3"
    fi
}

# Runs the script with these words, on the file `input`.
run() {
    timeout 60 "$copy/s390x" "$@" < "$room/input" > "$room/out" 2> "$room/err"
    status=$?
}

# The stand-in: the program answers by the file `answer` of its folder, `STATUS LINE`, where its input has the text in the
# file `where`; elsewhere it writes nothing and ends with 0.
copy=$room/copy
mkdir -p "$copy/crates/s390x/out" "$copy/checks" "$copy/docs"
cp "$root/s390x" "$root/crates.txt" "$root/README.md" "$copy/"
cp "$root/checks/explain.py" "$root/checks/reasons.py" "$copy/checks/"
cp "$root/docs/JOBS.md" "$root/docs/gate-seconds.tsv" "$copy/docs/"
cat > "$copy/crates/s390x/out/s390x" << 'END'
#!/usr/bin/env bash
here=${BASH_SOURCE[0]%/*}
read -r status line < "$here/answer"
if [ ! -s "$here/where" ] || grep -qF -- "$(cat "$here/where")" -; then
    [ -z "$line" ] || echo "$line"
    exit "$status"
fi
END
chmod +x "$copy/crates/s390x/out/s390x"
: > "$copy/crates/s390x/out/where"

# The stand-in answers $1 where the input has the text $2.
answers() {
    echo "$1" > "$copy/crates/s390x/out/answer"
    printf '%s' "${2-}" > "$copy/crates/s390x/out/where"
}

# The test $1: of a wrong input, $2 by printf, the program names the line $3, and the script says $4.
wrong() {
    printf "$2" > "$room/input"
    answers "3 syntax $3"
    run "${5:-image}" ${6-4096}
    want "$1" 3 "$4"
}

# Words
: > "$room/input"
answers "2 usage"
for words in "image 0x1000|in decimal it is 4096" "image 04096|it is 4096" "imgae 4096|the nearest is image" "image|a word is lacking: image BASE" \
    "gen 100001 1|100001 is outside 0 to 100000" "smp 0 0 0 0 0|P of smp" "image 4096 $copy/crates.txt|standard input, behind <" \
    "$copy/crates.txt|is no command" "emit 1|a word too many"; do
    run ${words%%|*}
    want "words ${words%%|*}" 2 "${words#*|}"
done

# Wrong lines
wrong tab 'block\nRet\t%%r14\nend\n' 2 "it has a tab"
wrong spaces 'block\nMov64 %%r2  %%r3\nend\n' 2 "a space too many"
wrong return 'block\r\nend\r\n' 1 "a carriage return"
wrong "empty line" 'block\n\nend\n' 2 "no line is empty"
wrong comment 'block\nRet %%r14 # back\nend\n' 2 "no comments"
wrong name 'block\nAluRRr Add64 %%r2 %%r3 %%r4\nend\n' 2 "the nearest is AluRRR"
wrong operator 'block\nAluRRR Add65 %%r2 %%r3 %%r4\nend\n' 2 "Add65 is no word of ALU; the nearest is Add64"
wrong fields 'block\nAluRRR Add64 %%r2 %%r3\nend\n' 2 "AluRRR has 4 fields, and 3 stand here"
wrong register 'block\nMov64 %%r2 %%r16\nend\n' 2 "there are %r0 to %r15"
wrong number 'block\nMov64SImm16 %%r2 0x10\nend\n' 2 "in decimal it is 16"
wrong range 'block\nMov64SImm16 %%r2 32768\nend\n' 2 "outside -32768 to 32767"
wrong operand 'block\nLoad64 %%r2 BXD12(%%r3,0,u)\nend\n' 2 "has 3 parts, and 4 are wanted"
wrong endloop 'block\nLoop 7\nend\n' 3 "a line \`endloop\` is lacking"
wrong end 'block\nRet %%r14\n' 3 "lacks a line \`end\`"
wrong "last line feed" 'block\nend' 2 "no line feed ends it"
wrong "behind the end" 'block\nend\nblock\n' 3 "nothing stands behind the last line"
wrong "a value of 0" 'reg %%r2 0\nblock\nend\n' 1 "a value of 0 isn't written"
wrong "order of heads" 'mem 0 00\nreg %%r2 1\nblock\nend\n' 2 "come in the order flags, frame"
wrong "no block" 'Ret %%r14\nend\n' 1 "a line \`block\` has to come first"
wrong plan 'block\nend\nblock\nclose\n' 3 "a line \`plan\` has to stand" alloc ""
wrong slot 'block\nend\nplan\nblock\nmove s70000 %%r2\nclose\n' 5 "outside 0 to 65535" alloc ""
wrong close 'function u1\nblock\nend\n' 4 "lacks a line \`close\`" bundle

# Refusals: the stand-in refuses where it meets an instruction, so its parts tell where.
printf 'block\nMov64 %%r2 %%r3\nblock\nLoop 7\nCondBreak 8\nAluRRR NotAnd64 %%r2 %%r3 %%r4\nendloop\nRet %%r14\nend\n' > "$room/input"
answers "4 refused MissingFacility" NotAnd64
run image 4096
want "place of a refusal" 4 "block 1, instruction 0.1 (both counted from 0), line 6: AluRRR NotAnd64"
want "facility" 4 "the line \`flags\` has to name mie3"
answers "4 refused BadOperator" NotAnd64
sed -i 's/AluRRR NotAnd64 %r2 %r3 %r4/AluRSImm16 NotAnd64 %r2 %r2 1/' "$room/input"
run image 4096
want "operators" 4 "AluRSImm16 takes Add32, Add64, Mul32, Mul64"
mkdir -p "$copy/crates/s390x_binary/out"
printf '#!/bin/sh\necho refusal BadOperator block 0 inst 0\nexit 4\n' > "$copy/crates/s390x_binary/out/s390x_binary"
chmod +x "$copy/crates/s390x_binary/out/s390x_binary"
run image 4096
want "the second program's place" 4 "block 0, instruction 0 (both counted from 0), line 2: Mov64 %r2 %r3"
rm -r "$copy/crates/s390x_binary"
sed -i '/^s390x_binary:/d' "$copy/crates.txt"
answers "2 usage"
grep -v '^s390x_binary:' "$root/crates.txt" > "$copy/crates.txt"
run refusal
want "no second program" 2 "refusal is no command"
cp "$root/crates.txt" "$copy/"
mkdir -p "$copy/crates/s390x_binary/out"
cp "$copy/crates/s390x/out/s390x" "$copy/crates/s390x_binary/out/s390x_binary"
: > "$copy/crates/s390x_binary/out/where"
echo "4 refusal BadRegister block 1 inst 0.1" > "$copy/crates/s390x_binary/out/answer"
run refusal
want "refusal" 4 "block 1, instruction 0.1 (both counted from 0), line 6"
echo "13 differs 4" > "$copy/crates/s390x_binary/out/answer"
run verify 4096
want "verify" 13 "4 is the first byte"
echo "2 usage" > "$copy/crates/s390x_binary/out/answer"
run verify 0x1000
want "the words of verify" 2 "in decimal it is 4096"
run list 0x1000
want "the words of list" 2 "in decimal it is 4096"
run object a b
want "the words of object" 2 "b is a word too many: object [NAME]"
run objects a
want "the words of objects" 2 "a is a word too many: objects"
echo "5 link UndefinedSymbol" > "$copy/crates/s390x_binary/out/answer"
run list 4096
want "list" 5 "the code uses a symbol of which the job has no line"
echo "14 object EmptyName" > "$copy/crates/s390x_binary/out/answer"
run object ""
want "object" 14 "the name for the function has no bytes"
echo "14 object EmptyMember" > "$copy/crates/s390x_binary/out/answer"
run objects
want "objects" 14 "a function's has none"
echo "12 bundle DuplicateName u1" > "$copy/crates/s390x_binary/out/answer"
run objects
want "objects of one name" 12 "an earlier function has the name u1 too"
echo "3 syntax 2" > "$copy/crates/s390x_binary/out/answer"
printf '07fe\n07f\n' > "$room/input"
run disassemble 4096
want "disassemble" 3 "a line has two hex digits for each byte"
printf 'br %%r14\nbr  %%r14\n' > "$room/input"
run assemble 4096
want "assemble" 3 "line 2: br  %r14"
rm -r "$copy/crates/s390x_binary"

# The stand-in refuses one instruction, and the script says why.
why() {
    printf "${5-}block\n$2\nend\n" > "$room/input"
    answers "4 refused $3" "${2%% *}"
    run image 4096
    want "why: $1" 4 "$4"
}
why virtual 'Mov64 %%r2 %%i3' BadRegister "%i3 is virtual"
why reuse 'AluRSImm16 Add64 %%r2 %%r3 1' BadRegister "ri is %r3, and has to be %r2"
why "low half" 'UMulWide %%r2/%%r3 %%r2 %%r6' BadRegister "ri is %r2, and has to be %r3"
why pair 'SMulWide %%r2/%%r4 %%r3 %%r4' BadRegister "rd %r2/%r4 is no pair"
why class 'VecRRR Add64x2 %%v1 %%v2 %%r3' BadRegister "rm is a vector register here"
why "class of an element" 'VecExtractLane 64 %%v1 %%v2 0 %%r0' BadRegister "rd is a general register here"
why base 'Load64 %%r2 BXD12(%%v3,%%r0,0,u)' BadRegister "the base and the index are general registers"
why way 'Ret %%r0' BadRegister "link is %r0"
why lane 'VecInsertLane 64 %%v1 %%v1 %%r2 2 %%r0' BadOperator "lane_imm is 2, and has a row for 0 to 1"
why part 'AluRUImm16Shifted And32 %%r2 %%r2 5:2' BadOperator "the part is from 0 to 1"
why block 'JTSequence %%r2 0 2 [0,5]' UnboundLabel "there is no block 5"
why handler 'Call %%r14 u1 [] [] [] 0 SystemV SystemV 0[*:2] false -' UnboundLabel "there is no block 2"
why constant 'Load64 %%r2 Constant(1)' UnboundLabel "there is no constant 1" 'const 8 0001020304050607\n'
why alignment 'Load64 %%r2 Constant(0)' BadAlignment "its constant has the alignment 1" 'const 1 0001020304050607\n'
why stack 'AllocateArgs 16' BadStackState "in the same block that takes as many bytes"
printf 'block\nCall %%r14 u1 [] [] [] 0 SystemV SystemV - false -\nend\n' > "$room/input"
answers "5 link UndefinedSymbol"
run image 4096
want "symbol" 5 "line 2 names u1, and needs a line"

# How it ends
for line in "6 read fault|standard input can't be read" "7|doesn't take what is written" "8 input too long|more than 16777216 bytes" "9 no memory|not enough memory"; do
    answers "${line%%|*}"
    run image 4096
    line_status=${line%%|*}
    want "status ${line%%|*}" "${line_status%% *}" "${line#*|}"
done
answers "10 bad word"
run smp 4096 65537 1 1 0
want "no multiple of 4" 10 "no multiple of 4"
run smp 4096 4096 1 1 0
want "in the code" 10 "in the code at BASE 4096"
for words in --help --version; do
    "$copy/s390x" $words > /dev/full 2> "$room/err"
    status=$?
    want "$words > /dev/full" 7 ""
done
ln -s "$copy/s390x" "$room/link"
answers "2 usage"
"$room/link" imgae < /dev/null > "$room/out" 2> "$room/err"
status=$?
want "a symbolic link" 2 "the nearest is image"
# Without Python it says less.
mkdir "$room/bin"
for tool in bash cat cp cut env find git grep head ls mkdir mktemp readlink rm sed tail timeout awk; do ln -s "$(command -v $tool)" "$room/bin/$tool"; done
printf 'block\nRet\t%%r14\nend\n' > "$room/input"
answers "3 syntax 2"
PATH=$room/bin run image 4096
want "without Python" 3 "line 2: Ret"
rm "$copy/crates/s390x/out/s390x"
RT=$room/none "$copy/s390x" image 4096 < /dev/null > "$room/out" 2> "$room/err"
status=$?
want "without rt" 1 "there is no command rt"
# A first build that fails: how long it takes, what is done, and the log.
printf '#!/bin/sh\necho "== s390x_base"\necho "no proof"\nexit 1\n' > "$room/rt" && chmod +x "$room/rt"
touch "$copy/crates/s390x/args"
RT=$room/rt "$copy/s390x" image 4096 < /dev/null > "$room/out" 2> "$room/err"
status=$?
want "a first build" 1 "minutes where nothing else runs"
want "a crate that is done" 1 "crates done, 0 minutes so far: s390x_base"
want "its log" 1 "its last line: no proof"
RT=$room/none "$copy/s390x" --try image 4096 < /dev/null > "$room/out" 2> "$room/err"
status=$?
want "--try without rt" 1 "there is no command rt"
# Nothing is built for words that can't be meant, nor for a file that isn't there.
RT=$room/none "$copy/s390x" --try imgae 4096 < /dev/null > "$room/out" 2> "$room/err"
status=$?
want "--try of a wrong word" 2 "the nearest is image"
RT=$room/none "$copy/s390x" --try image 4096 "$room/nothing" < /dev/null > "$room/out" 2> "$room/err"
status=$?
want "--try of no file" 2 "there is no file $room/nothing"

# Each cause of the sources has its words in the script.
wordless=
while read -r file kind; do
    for name in $(sed -n "/^pub enum $kind {/,/^}/p" "$root/crates/$file" | grep -oE '^    [A-Z][A-Za-z]*'); do
        grep -qE "^        ([A-Za-z]+ \| )*$name( \| [A-Za-z]+)*\)( |$)" "$root/s390x" || wordless="$wordless $kind::$name"
    done
done << 'END'
s390x_base/src/error.rt EmitError
s390x_operands/src/constraint.rt OperandError
s390x_text_rows/src/error.rt TextError
s390x_image/src/error.rt LinkError
s390x_bundle/src/error.rt BundleError
s390x_elf/src/error.rt ObjectError
s390x_alloc/src/fault.rt PlanFault
END
echo "$wordless" > "$room/err"
status=$([ -z "$wordless" ]; echo $?)
want "a cause without words" 0 ""

# By unproved builds: the commands of README.md, and what the program itself says of wrong inputs and of refusals.
given() {
    printf "$2" > "$room/wrong/$1"
}
told() {
    awk -v named=" of $room/wrong/$1, which ended" '/, which ended/ { on = index($0, named) } on' "$room/all" > "$room/err"
    status=0
    want "--try of $1" 0 "$2"
}
if [ "${1-}" = --try ]; then
    "$root/s390x" --try tour > "$room/out" 2> "$room/err"
    status=$?
    want tour 0 ""
    commands=$(grep -c '^\$ ' "$room/out")
    [ "$commands" -ge 14 ] || { echo "only $commands commands of README.md ran" && failed=$((failed + 1)); }
    mkdir "$room/wrong"
    given tab 'block\nRet\t%%r14\nend\n'
    given operator 'block\nAluRRR Add65 %%r2 %%r3 %%r4\nend\n'
    given endloop 'block\nLoop 7\nCondBreak 8\nend\n'
    given end 'block\nRet %%r14\n'
    given facility 'block\nMov64 %%r2 %%r3\nLoop 7\nCondBreak 8\nAluRRR NotAnd64 %%r2 %%r3 %%r4\nendloop\nRet %%r14\nend\n'
    given row 'block\nMov64 %%r2 %%r3\nblock\nAluRSImm16 And64 %%r2 %%r2 1\nRet %%r14\nend\n'
    given label 'block\nRet %%r14\nblock\nJump 7\nend\n'
    given class 'block\nMov64 %%r2 %%v3\nRet %%r14\nend\n'
    given constant 'const 3 00\nblock\nRet %%r14\nend\n'
    "$root/s390x" --try image 4096 "$room"/wrong/* > "$room/out" 2> "$room/all"
    told tab "line 2: Ret^I%r14"
    told operator "the nearest is Add64"
    told endloop "a line \`endloop\` is lacking"
    told end "lacks a line \`end\`"
    told facility "block 0, instruction 1.1 (both counted from 0), line 5"
    told facility "has to name mie3"
    told row "AluRSImm16 takes Add32"
    told label "block 1, instruction 0 (both counted from 0), line 4: Jump 7"
    told class "line 2: Mov64 %r2 %v3"
    told constant "no instruction has it"
fi

echo "$passed passed, $failed failed"
[ "$failed" -eq 0 ]
