#!/usr/bin/env bash
# Runs the solver's program over formulas and into its faults.
# GIPSAT is the built program: crates/gipsat/out/gipsat, which both `rt ci` and `rt run` leave. It prints a line for each
# case. The last line is 'N passed, M failed', and the status is 1 where a case failed. --list tells the names of the cases,
# and --only runs those that it names, with what makes their files.
set -u
# shellcheck source=tests/usage.sh
source "$(dirname "$0")/usage.sh"
take_rows "tests/gipsat.sh GIPSAT" "$@"
gipsat=$1
if [ ! -x "$gipsat" ]; then
    echo "no program $gipsat"
    echo "0 passed, 1 failed"
    exit 1
fi
stored=$(cd "$(dirname "$0")/../crates/gipsat" && pwd) || exit 2
tables=$(cd "$(dirname "$0")" && pwd) || exit 2
gipsat=$(realpath "$gipsat") || exit 2
# Where rows are listed, nothing is run.
[ -z "$is_listed" ] || { gipsat=true && exec 2> /dev/null; }
work=$(mktemp -d) || exit 2
trap 'rm -rf "$work"' EXIT
cd "$work" || exit 2

# What the last run did.
seen() {
    printf '%s%s, %s' "${status:+status $status, }" "$(head -c 200 "$work/err")" "$(head -c 200 "$work/out")"
}

# NAME STATUS ERROR OUTPUT INPUT [ARGUMENT..]: runs the program on this text, and expects this of it.
try() {
    ! is_wanted "$1" || make "$@"
}

# The same, also where this row is not wanted, since others need what it leaves.
make() {
    local name=$1 wanted=$2 error=$3 output=$4 input=$5 status
    shift 5
    printf '%b' "$input" | "$gipsat" "$@" > "$work/out" 2> "$work/err"
    status=$?
    [ "$status" = "$wanted" ] && [ "$(cat "$work/err")" = "$error" ] && [ "$(cat "$work/out")" = "$output" ]
    told "$name" $?
}

clash='p cnf 1 2\n1 0\n-1 0\n'
# shellcheck disable=SC2016
none='<stdin>:1: no header `p cnf VARIABLES CLAUSES`'

try "a formula in a file" 10 "" "$(cat "$stored/stdout")" "" "$stored/stdin"
try "no clause" 10 "" "$(printf 's SATISFIABLE\nv -1 -2 0')" 'p cnf 2 0\n'
try "units that clash" 20 "" "s UNSATISFIABLE" "$clash"
try "a clause of no literal" 20 "" "s UNSATISFIABLE" 'p cnf 1 1\n0\n'
try "no conflict is allowed" 0 "" "s UNKNOWN" "$clash" --conflicts 0
try "one conflict is allowed" 0 "" "s UNKNOWN" 'p cnf 2 4\n1 2 0\n-1 2 0\n1 -2 0\n-1 -2 0\n' --conflicts 1
try "a value joined to a short name" 20 "" "s UNSATISFIABLE" "$clash" -t9
try "lines with carriage returns, comments, a clause over two lines" 10 "" "$(printf 's SATISFIABLE\nv 1 2 0')" \
    'c one\r\np cnf 2 2\r\n1\r\nc two\r\n0 -1\t2 0\r\n'
try "an empty input" 1 "$none" "" ""
try "a second header" 1 "<stdin>:2: a second header" "" 'p cnf 1 1\np cnf 1 1\n'
try "a word that is no number" 1 "<stdin>:2: not a number" "" 'p cnf 1 1\n1 x 0\n'
try "a variable past the header's" 1 "<stdin>:2: a variable that the header does not have" "" 'p cnf 1 1\n2 0\n'
try "a number that is too great" 1 "<stdin>:2: a number past 2147483647" "" 'p cnf 1 1\n1 2147483648 0\n'
try "a clause too many" 1 "<stdin>:3: more clauses than the header says" "" 'p cnf 1 1\n1 0\n1 0\n'
try "a clause too few" 1 "<stdin>:3: fewer clauses than the header says" "" 'p cnf 1 2\n1 0\n'
try "a clause without its end" 1 "<stdin>:3: a clause without its 0" "" 'p cnf 1 1\n1\n'

# Forms that are found in files.
two=$(printf 's SATISFIABLE\nv 1 2 0')
try "comments behind words and behind numbers" 10 "" "$two" 'p cnf 2 2\n1 c one\n0c two\n-1 2 0 c three\n'
try "tabs, and several clauses in a line" 10 "" "$two" 'p\tcnf\t2\t2\n1\t0\t-1 2 0\n'
try "no newline at the end" 10 "" "$two" 'p cnf 2 2\n1 0\n-1 2 0'
try "a header over lines" 10 "" "$two" 'p cnf\n2\n2\n1 0\n-1 2 0\n'
try "a header whose words are in two lines" 1 "<stdin>:1: no header \`p cnf VARIABLES CLAUSES\`" "" 'p\ncnf 2 2\n1 0\n-1 2 0\n'
try "a zero with a minus" 10 "" "$two" 'p cnf 2 2\n1 -0\n-1 2 -0\n'
try "a percent sign behind the last clause" 10 "" "$two" 'p cnf 2 2\n1 0\n-1 2 0\n%\n0\n\n'
headless='1 0\n-1 2 0\n'
# shellcheck disable=SC2016
try "no header" 1 '<stdin>:1: no header `p cnf VARIABLES CLAUSES`' "" "$headless"
try "an empty input, with --relaxed" 10 "" "$(printf 's SATISFIABLE\nv 0')" "" --relaxed
try "no header, with --relaxed" 10 "" "$two" "$headless" --relaxed
try "too few clauses, with --relaxed" 10 "" "$two" "p cnf 2 9\\n$headless" --relaxed
try "too many clauses, with --relaxed" 10 "" "$two" "p cnf 2 1\\n$headless" --relaxed
try "a variable past the header's, with --relaxed" 10 "" "$two" "p cnf 1 2\\n$headless" --relaxed
try "a word that is no number, with --relaxed" 1 "<stdin>:1: not a number" "" '1 x 0\n' --relaxed
printf 'p cnf 1 1\n1 0\n' | gzip > "$work/packed.gz"
try "a formula in gzip" 1 "$work/packed.gz:1: gzip data (try: gzip -dc FILE | gipsat)" "" "" "$work/packed.gz"
printf '\xfd7zXZ\x00\x00' > "$work/packed.xz"
try "a formula in xz" 1 "$work/packed.xz:1: xz data (try: xz -dc FILE | gipsat)" "" "" "$work/packed.xz"
printf 'BZh91AY&SY' > "$work/packed.bz2"
try "a formula in bzip2" 1 "$work/packed.bz2:1: bzip2 data (try: bzip2 -dc FILE | gipsat)" "" "" "$work/packed.bz2"
printf '\x28\xb5\x2f\xfd\x04\x58' > "$work/packed.zst"
try "a formula in zstd" 1 "$work/packed.zst:1: zstd data (try: zstd -dc FILE | gipsat)" "" "" "$work/packed.zst"
try "a byte order mark" 1 "$none" "" '\xef\xbb\xbfp cnf 1 1\n1 0\n'
try "a formula in UTF-16" 1 "$none" "" 'p\0 \0c\0n\0f\0 \0001\0 \0001\0\n\0'
try "lines that end with carriage returns alone" 1 "$none" "" 'p cnf 2 2\r1 0\r-1 2 0\r'
try "two numbers in a word" 1 "<stdin>:2: not a number" "" 'p cnf 2 1\n1-2 0\n'
try "a number past 2^32" 1 "<stdin>:2: a number past 2147483647" "" 'p cnf 1 1\n4294967297 0\n'
try "a number with many zeros" 10 "" "$two" 'p cnf 0002 2\n00000000000000000001 00\n-01 000002 0\n'
# shellcheck disable=SC2016
try "a device without a byte" 1 '/dev/null:1: no header `p cnf VARIABLES CLAUSES`' "" "" /dev/null

# The stored texts.
asked=0
while IFS=$'\t' read -r rule outcome text; do
    asked=$((asked + 1))
    words=()
    [ "$rule" != relaxed ] || words=(--relaxed)
    case $rule,$outcome in
        '#'*) about=${rule#\# } ;;
        *,line*) try "$about ($text)" 1 "<stdin>:${outcome#line }" "" "$text" "${words[@]}" ;;
        *,unsatisfiable) try "$about ($text)" 20 "" "s UNSATISFIABLE" "$text" "${words[@]}" ;;
        *) try "$about ($text)" 10 "" "s SATISFIABLE"$'\n'"v $outcome" "$text" "${words[@]}" ;;
    esac
done < "$tables/formulas.txt"
[ "$asked" -gt 0 ] && [ "$asked" = "$(wc -l < "$tables/formulas.txt")" ]
told "all stored texts" $?

# Files that can't be read. A message names the file, the line where there is one, and the cause.
printf 'p cnf 1 1\n2 0\n' > "$work/broken"
try "a broken file" 1 "$work/broken:2: a variable that the header does not have" "" "" "$work/broken"
try "a file that is not there" 1 "$work/none: no such file" "" "" "$work/none"
try "a folder" 1 "$work: is a directory" "" "" "$work"
try "a file in a file's place" 1 "$work/broken/a: not a directory" "" "" "$work/broken/a"
try "a name that is too long" 1 "$(printf 'a%.0s' {1..300}): invalid filename" "" "" "$(printf 'a%.0s' {1..300})"
try "a file whose read fails" 1 "/proc/self/mem: cannot be read: Input/output error (os error 5)" "" "" /proc/self/mem
chmod a-r "$work/broken"
if [ ! -r "$work/broken" ]; then # the superuser reads it
    try "a file that may not be read" 1 "$work/broken: permission denied" "" "" "$work/broken"
fi
try "an argument that is no text" 1 "arguments: not UTF-8 text: word 1, '_'" "" "$clash" $'\xff'
try "an argument that is no text, behind others" 1 "arguments: not UTF-8 text: word 3, 'r__t.cnf'" "" "$clash" \
    -q -n $'r\xf6\x1bt.cnf'
try "a name that a terminal would take for commands" 1 "e_[31mred_x__y: no such file" "" "" $'e\e[31mred\nx\u202e\u009by'
try "a name in another script" 1 "größe.cnf: no such file" "" "" größe.cnf
try "an option that a terminal would take for a command" 2 "gipsat: unknown option '--_[2J' (try --help)" "" "" $'--\e[2J'
printf '1 x 0\n' > "$work/"$'a\nb'
try "a formula of such a name" 1 "$work/a_b:1: no header \`p cnf VARIABLES CLAUSES\`" "" "" "$work/"$'a\nb'

# The command line. Options stand in any order, and the last of two values counts.
try "standard input by a minus" 20 "" "s UNSATISFIABLE" "$clash" -
cp "$stored/stdin" "$work/-odd"
try "a file that begins with a minus" 10 "" "$(cat "$stored/stdout")" "" -- -odd
try "a file that is named as an option" 1 "--stats: no such file" "" "" -- --stats
try "options in any order" 0 "" "s UNKNOWN" "" "$stored/stdin" --conflicts 7 -q --stats --conflicts +0
try "long options with their values in one word" 0 "" "s UNKNOWN" "" \
    --time=60 --conflicts=7 "$stored/stdin" --conflicts=0
try "two hyphens and no file" 20 "" "s UNSATISFIABLE" "$clash" --
try "the version" 0 "" "gipsat 0.1.0" "" --version
try "the version behind other words" 0 "" "gipsat 0.1.0" "" a --stats --version --other
help=$("$gipsat" --help)
try "the help" 0 "" "$help" "" -h
[ -z "$(printf '%s\n' "$help" | grep '.\{81\}')" ]
told "the help fits into 80 columns" $?
for option in --conflicts -t --time --memory -n --no-witness -q --quiet --stats --proof --binary --lrat -f --force --relaxed -v --verbose --no-eliminate --no-vivify --no-simplify --assume --models --project --check --lrat-from-drat --cubes --cube --join -h --help --version --; do
    printf '%s\n' "$help" | grep -qE -- "^ *([^ ]+ )?${option}[ ,]"
    told "the help tells of $option" $?
done
# MESSAGE [ARGUMENT..]: expects that these arguments have no meaning, for this reason.
try_usage() {
    try "arguments ${*:2}" 2 "gipsat: $1 (try --help)" "" "$clash" "${@:2}"
}
try_usage "unknown option '--other'" --other
try_usage "unknown option '-x'" a -x
try_usage "unknown option '-nq'" -nq
try_usage "'--time' takes a number below 2^64, not 'q'" -tq
try_usage "one file too many, 'b'" a b
try_usage "one file too many, 'b'" - b
try_usage "one file too many, '-b'" a -- -b
try_usage "'--conflicts' needs a number behind it" --conflicts
try_usage "'--time' needs a number behind it" a -t
try_usage "'--proof' needs a file behind it" --proof
try_usage "'--conflicts' takes a number below 2^64, not 'x'" --conflicts x
try_usage "'--conflicts' takes a number below 2^64, not 'x'" --conflicts=x
try_usage "'--time' takes a number below 2^64, not ''" --time=
try_usage "'--time' takes a number below 2^64, not '=9'" -t=9
try_usage "'--check' takes no option '-t9'" --check -t9 a b
try_usage "'-' names no file to write, since standard output has the answer" --proof -
try_usage "'-' names no file to write, since standard output has the answer" --proof=-
try_usage "unknown option '--stats=9'" --stats=9
try_usage "unknown option '--=9'" --=9
try_usage "'--conflicts' takes a number below 2^64, not '18446744073709551616'" --conflicts 18446744073709551616
try_usage "'--conflicts' takes a number below 2^64, not '-1'" --conflicts -1
try_usage "'--time' takes a number below 2^64, not '1.5'" --time 1.5
try_usage "'--memory' takes a number below 2^64, not '1.5'" --memory 1.5
try_usage "'--lrat' needs '--proof'" --lrat a
try_usage "'--models' takes a number below 2^64, not 'all'" --models all
try_usage "'--assume' needs literals behind it" --assume
try_usage "'--project' needs variables behind it" --models 2 --project
try_usage "'--project' needs '--models'" --project 1
try_usage "'--proof' is of the formula alone, without '--assume' and '--models'" --proof p --models 2
try_usage "'--proof' is of the formula alone, without '--assume' and '--models'" --assume 1 --proof=p
try_usage "'--check' takes no option '--models'" --check --models 2 a b
try_usage "'--check' takes two files, FORMULA and PROOF" --check
try_usage "'--check' takes two files, FORMULA and PROOF" --check a
try_usage "one file too many, 'c'" --check a b c
try_usage "'--check' takes no option '--stats'" --stats --check a b
try_usage "'--check' takes no option '--proof'" --check --proof a b c
try_usage "'--check' takes no option '--lrat'" --check --lrat a b
try_usage "'--check' takes no option '--time=9'" --check --time=9 a b
try_usage "'--check' takes no option '--binary'" --check --binary a b
try_usage "one file at most is read from standard input" --check - -
try_usage "'--check' takes two files, FORMULA and PROOF" --lrat-from-drat a b
try_usage "'--lrat-from-drat' takes no option '--lrat'" --lrat-from-drat a --lrat b c
try_usage "'-' names no file to write, since standard output has the answer" --lrat-from-drat - a b
try_usage "'--cube' and '--join' take a file FORMULA and a file CUBES" --cube 1 a
try_usage "'--cube' and '--join' take a file FORMULA and a file CUBES" --join o a
try_usage "one file at most is read from standard input" --cube 1 - -
try_usage "one file too many, 'c'" --cube 1 a b c
try_usage "one file too many, 'b'" --cubes 9 a b
try_usage "'--cube' has a meaning without '--assume' and '--models'" --cube 1 --assume 2 a b
try_usage "a proof of '--cube' needs '--lrat'" --cube 1 --proof p a b
try_usage "'--cubes' has a meaning without '--assume', '--models', '--proof' and '--cube'" --cubes 9 --models 2 a
try_usage "'--cubes' has a meaning without '--assume', '--models', '--proof' and '--cube'" --cubes 9 --proof p a
try_usage "'--cubes' has a meaning without '--assume', '--models', '--proof' and '--cube'" --cubes 9 --cube 1 a b
try_usage "'--join' takes no option '--lrat'" --join o --lrat a b c
try_usage "'--join' takes no option '-q'" -q --join o a b c
try_usage "'--join' has a meaning without '--check' and '--lrat-from-drat'" --join o --check a b c
try_usage "'-' names no file to write, since standard output has the answer" --join - a b

# On a terminal it tells that it reads standard input, but for `-q`.
# NAME ERROR [ARGUMENT..]: types a formula, and expects this on standard error.
try_typed() {
    is_wanted "$1" || return 0
    printf '%b' "$clash" > "$work/typed"
    python3 - "$work/typed" "$gipsat" "${@:3}" 2> "$work/err" <<'END' && [ "$(cat "$work/err")" = "$2" ]
import os
import pty
import subprocess
import sys
keyboard, terminal = pty.openpty()
os.write(keyboard, open(sys.argv[1], "rb").read() + b"\x04")
ran = subprocess.run(sys.argv[2:], stdin=terminal, stdout=subprocess.PIPE, timeout=20)
sys.exit(ran.returncode != 20 or ran.stdout != b"s UNSATISFIABLE\n")
END
    told "$1" $?
}
try_typed "a formula that is typed" "c reading standard input"
try_typed "a formula that is typed to - and --" "c reading standard input" -- -
try_typed "a formula that is typed in quiet" "" -q

# An output that takes nothing. [ARGUMENT..]: of a run with these.
try_full() {
    is_wanted "a full device, ${*##*/}" || return 0
    "$gipsat" "$@" > /dev/full 2> "$work/err"
    local status=$?
    [ "$status" = 1 ] && [ "$(cat "$work/err")" = "<stdout>: cannot be written: no space left" ]
    told "a full device, ${*##*/}" $?
}
try_full "$stored/stdin"
try_full --help
try_full --version

# Proofs, beside a formula that nothing satisfies: a square over 2 and 3 without 1, and one over 4 and 5 with it.
squares='p cnf 5 8\n1 2 3 0\n1 2 -3 0\n1 -2 3 0\n1 -2 -3 0\n-1 4 5 0\n-1 4 -5 0\n-1 -4 5 0\n-1 -4 -5 0\n'
# NAME STATUS ERROR OUTPUT FORMULA PROOF: checks this proof beside this formula, and expects this of it.
try_check() {
    printf '%b' "$5" > "$work/formula"
    printf '%b' "$6" > "$work/proof"
    try "$1" "$2" "$3" "$4" "" --check "$work/formula" "$work/proof"
}
# NAME LINE REASON FORMULA PROOF: expects that this proof is refused.
try_refused() {
    try_check "$1" 1 "$work/proof:$2: $3" "s NOT VERIFIED" "$4" "$5"
}
not_shown='a clause that is neither RUP nor RAT on its first literal'
try_check "a proof" 0 "" "s VERIFIED" "$squares" '1 2 0\n1 0\n4 0\n0\n'
try_check "a proof with a comment and a deletion" 0 "" "s VERIFIED" "$squares" 'c one\n1 2 0\nd 2 3 1 0\n1 0\n4 0\n0\n'
try_refused "a clause left out" 3 "$not_shown" "$squares" '1 2 0\n4 0\n0\n'
try_refused "a literal turned" 1 "$not_shown" "$squares" '-1 2 0\n1 0\n4 0\n0\n'
try_refused "another formula" 4 "$not_shown" 'p cnf 5 2\n1 2 3 0\n1 2 4 0\n' '1 2 0\n1 0\n4 0\n0\n'
try_refused "a needed clause deleted" 2 "$not_shown" "$squares" 'd 1 2 3 0\n1 2 0\n1 0\n4 0\n0\n'
try_check "a deletion of what is not there" 0 \
    "c $work/proof: deletions of what is not there were passed over: 1, the first at line 1" "s VERIFIED" \
    "$squares" 'd 1 2 0\n1 2 0\n1 0\n4 0\n0\n'
read_as_drat="c $work/proof: read as DRAT, though its first number may be a name of LRAT"
try_check "variables of the proof's own" 0 "$read_as_drat" "s VERIFIED" "$squares" \
    '9 -1 0\n-9 1 0\n1 2 0\n9 0\n4 0\n0\n'
lrat='9 1 2 0 1 2 0\n10 1 0 9 3 4 0\n10 d 9 1 2 0\n11 4 0 10 5 6 0\n12 0 11 10 7 8 0\n'
try_check "a proof with hints" 0 "" "s VERIFIED" "$squares" "$lrat"
try_refused "a hint that is not unit" 1 "a hint whose clause is not unit" "$squares" '9 1 2 0 3 1 2 0\n'
try_refused "a hint that is deleted" 2 "a name that no clause has" "$squares" '8 d 1 0\n9 1 2 0 1 2 0\n'
try_refused "a name that is used twice" 2 "a name that is not greater than all before" "$squares" \
    '9 1 2 0 1 2 0\n9 1 0 9 3 4 0\n'
try_refused "hints that end too early" 1 "hints that do not show the clause" "$squares" '9 1 2 0 1 0\n'
try_refused "a proof that ends early" 2 "the end without the empty clause" "$squares" '1 2 0\n'
printf '%b' '\x1f\x8b\x08\x00' > "$work/squares.gz"
try "a proof beside a formula in gzip" 1 \
    "$work/squares.gz:1: gzip data (try: gzip -dc FORMULA | gipsat --check - PROOF)" "" "" \
    --check "$work/squares.gz" "$work/proof"
try "a proof beside a formula in zstd" 1 \
    "$work/packed.zst:1: zstd data (try: zstd -dc FORMULA | gipsat --check - PROOF)" "" "" \
    --check "$work/packed.zst" "$work/proof"
try_check "a proof beside a broken formula" 1 "$work/formula:2: not a number" "" 'p cnf 1 1\nx 0\n' '0\n'
printf '%b' "$squares" > "$work/formula"
try "no proof" 1 "$work/none: no such file" "" "" --check "$work/formula" "$work/none"
try "a proof beside no formula" 1 "$work/none: no such file" "" "" --check "$work/none" "$work/proof"

# The forms of proofs. The binary ones write those above, each literal as a code.
# NAME STATUS ERROR OUTPUT PROOF: checks this proof, which may be any bytes, beside the squares.
try_bytes() {
    try_check "$1" "$2" "$3" "$4" "$squares" "$5"
}
try_bytes "a binary proof" 0 "" "s VERIFIED" 'a\x02\x04\x00a\x02\x00a\x08\x00a\x00'
try_bytes "a binary proof with a deletion" 0 "" "s VERIFIED" 'a\x02\x04\x00d\x04\x06\x02\x00a\x02\x00a\x08\x00'
try_bytes "a binary proof that ends early" 1 "$work/proof: byte 4: the end without the empty clause" "s NOT VERIFIED" \
    'a\x02\x04\x00'
try_bytes "a binary clause that is not shown" 1 "$work/proof: byte 3: $not_shown" "s NOT VERIFIED" 'a\x02\x00'
try_bytes "a binary step of no kind" 1 "$work/proof: byte 5: a step that begins with neither a nor d" "s NOT VERIFIED" \
    'a\x02\x04\x00x\x02\x00'
try_bytes "a text that is no proof" 1 "$work/proof:1: not a number" "s NOT VERIFIED" 'hello'
# TOOL BYTES: a proof that begins with these bytes was compressed by this tool.
try_compressed() {
    try_bytes "a proof in $1" 1 "$work/proof: $1 data (try: $1 -dc PROOF | gipsat --check FORMULA -)" "" "$2"
}
try_compressed gzip '\x1f\x8b\x08\x00'
try_compressed xz '\xfd7zXZ\x00'
try_compressed bzip2 'BZh91AY'
try_compressed zstd '\x28\xb5\x2f\xfd'
try_bytes "a proof with picosat's first line" 1 \
    "$work/proof: a first line with % (try: sed 1d PROOF | gipsat --check FORMULA -)" "" '%RUPD32 5 8\n1 2 0\n'
for proof in 'o 1 1 2 3 0\n' 'a 9 1 2 0 l 1 2 0\n' 'o\x01\x02\x04\x06\x00'; do
    try_bytes "a FRAT proof, $proof" 1 "$work/proof: the FRAT form, which is not read (DRAT is)" "" "$proof"
done
for proof in '' 'hello' '\x1f\x8b' 'a\x02'; do
    try_check "a formula that is refuted by itself, beside '$proof'" 0 "" "s VERIFIED" "$clash" "$proof"
done
printf '%b' "$squares" > "$work/formula"
printf '1 2 0\n1 0\n4 0\n0\n' | gzip > "$work/proof"
for input in /dev/stdin -; do
    [ "$(gzip -dc "$work/proof" | "$gipsat" --check "$work/formula" "$input")" = "s VERIFIED" ]
    told "a proof through gzip -dc from $input" $?
done
printf '1 2 0\n1 0\n4 0\n0\n' > "$work/proof"
printf '%b' "$squares" | gzip > "$work/squares.gz"
[ "$(gzip -dc "$work/squares.gz" | "$gipsat" --check - "$work/proof")" = "s VERIFIED" ]
told "a formula through gzip -dc" $?
try "a proof beside a formula on standard input" 0 "" "s VERIFIED" "$squares" --check - "$work/proof"

# The stored proofs. A verified one without hints is turned into one with hints, as text and in bytes, which are checked.
declare -A named
asked=0
while IFS= read -r row; do
    asked=$((asked + 1))
    case $row in
        '#'*) topic=${row#\# } && continue ;;
        *$'\t'*) IFS=$'\t' read -r outcome noted formula proof <<< "$row" ;;
        *) named[${row%% = *}]=${row#* = } && continue ;;
    esac
    about="$topic ($formula: $proof)"
    formula=${named[$formula]-$formula}
    error=
    case $noted in drat*) error=$read_as_drat$'\n' ;; esac
    noted=${noted#drat}
    noted=${noted#, }
    case $noted in
        - | '') ;;
        *) error+="c $work/proof: deletions of what is not there were passed over: ${noted/ at /, the first at }"$'\n' ;;
    esac
    case $outcome in
        verified*) try_check "$about" 0 "${error%$'\n'}" "s VERIFIED" "$formula" "$proof" ;;
        line*) try_check "$about" 1 "$error$work/proof:${outcome#line }" "s NOT VERIFIED" "$formula" "$proof" ;;
        *) try_check "$about" 1 "$error$work/proof: $outcome" "s NOT VERIFIED" "$formula" "$proof" ;;
    esac
    [ "$outcome" = verified ] || continue
    for words in "" --binary; do
        is_wanted "$about, with hints$words" || continue
        # shellcheck disable=SC2086
        "$gipsat" $words --lrat-from-drat "$work/hinted" "$work/formula" "$work/proof" > "$work/out" 2> "$work/err"
        [ "$(cat "$work/out")" = "s VERIFIED" ] && [ "$(cat "$work/err")" = "${error%$'\n'}" ] &&
            [ "$("$gipsat" --check "$work/formula" "$work/hinted" 2> "$work/err")" = "s VERIFIED" ]
        told "$about, with hints$words" $?
        rm -f "$work/hinted"
    done
done < "$tables/proofs.txt"
[ "$asked" -gt 0 ] && [ "$asked" = "$(wc -l < "$tables/proofs.txt")" ]
told "all stored proofs" $?
# NAME HINTS PROOF FORMULA: expects that this proof is given these hints.
try_trimmed() {
    is_wanted "$1" || return 0
    printf '%b' "$3" > "$work/formula"
    printf '%b' "$2" > "$work/proof"
    "$gipsat" --lrat-from-drat "$work/hinted" "$work/formula" "$work/proof" > "$work/out" 2> "$work/err"
    printf '%b' "$4" | cmp -s - "$work/hinted"
    told "$1" $?
    rm -f "$work/hinted"
}
try_trimmed "a clause is deleted behind the step that needs it last" '1 2 3 0\n2 0\n' \
    'p cnf 3 4\n1 2 0\n-1 2 0\n1 -2 0\n-1 -2 0\n' '6 2 0 1 2 0\n6 d 1 2 0\n7 0 6 3 4 0\n'
try_trimmed "a clause that no step needs is deleted at once" '1 2 3 0\n2 0\n' \
    'p cnf 3 5\n1 2 0\n-1 2 0\n1 -2 0\n-1 -2 0\n1 3 0\n' '7 2 0 1 2 0\n7 d 5 1 2 0\n8 0 7 3 4 0\n'

# Deletions of more than half of many clauses, whose memory is given back: those that are left are there, and no others.
eight='1 2 3 0\n1 2 -3 0\n1 -2 3 0\n1 -2 -3 0\n-1 2 3 0\n-1 2 -3 0\n-1 -2 3 0\n-1 -2 -3 0\n'
others=$(for v in $(seq 10 1209); do printf '%s %s 0\\n' "$v" $((v + 1)); done)
deletions=$(for v in $(seq 10 1109); do printf 'd %s %s 0\\n' $((v + 1)) "$v"; done)
many="p cnf 1210 1208\\n$others$eight"
try_check "clauses that are left behind many deletions" 0 "" "s VERIFIED" "$many" "${deletions}1 2 0\n1 0\n2 0\n0\n"
try_check "a clause that is deleted twice among many" 0 \
    "c $work/proof: deletions of what is not there were passed over: 1, the first at line 1101" "s VERIFIED" \
    "$many" "${deletions}d 10 11 0\n1 2 0\n1 0\n2 0\n0\n"
try_refused "a needed clause is deleted among many" 1102 "$not_shown" "$many" "${deletions}d 1 2 3 0\n1 2 0\n"

# A proof with hints that comes of one without. It appears where that one is verified, and has only what was needed.
printf '%b' "$squares" > "$work/formula"
printf '1 2 5 0\n1 2 0\n1 0\n4 0\n0\n' > "$work/proof"
make "a proof without hints is given hints" 0 "" "s VERIFIED" "" \
    --lrat-from-drat "$work/hinted" "$work/formula" "$work/proof"
[ "$(grep -cv d "$work/hinted")" = 4 ]
told "that proof has no step that is not needed" $?
try "that proof is checked by its hints" 0 "" "s VERIFIED" "" --check "$work/formula" "$work/hinted"
make "that proof is written in bytes" 0 "" "s VERIFIED" "" \
    --check --binary --lrat-from-drat "$work/hinted.bytes" "$work/formula" "$work/proof"
try "those bytes are checked by their hints" 0 "" "s VERIFIED" "" --check "$work/formula" "$work/hinted.bytes"
try "a proof that has hints already" 1 "$work/hinted: the LRAT form, which has hints already" "" "" \
    --lrat-from-drat "$work/again" "$work/formula" "$work/hinted"
printf '1 2 0\n4 0\n0\n' > "$work/proof"
make "a proof that is refused is given no hints" 1 "$work/proof:3: $not_shown" "s NOT VERIFIED" "" \
    --lrat-from-drat "$work/again" "$work/formula" "$work/proof"
[ ! -e "$work/again" ]
told "no file appears where a proof is not verified" $?
printf '1 2 0\n1 0\n4 0\n0\n' > "$work/proof"
cp "$work/proof" "$work/before"
make "a proof is not written over by the one with hints" 1 \
    "$work/proof: is the proof that is read (--force writes over it)" "" "" \
    --lrat-from-drat "$work/proof" "$work/formula" "$work/proof"
cmp -s "$work/proof" "$work/before"
told "that proof stays as it was" $?
try "a formula is not written over by a proof with hints" 1 \
    "$work/formula: begins as a formula does (--force writes over it)" "" "" \
    --lrat-from-drat "$work/formula" "$work/formula" "$work/proof"
make "a proof is written over by force" 0 "" "s VERIFIED" "" -f --lrat-from-drat "$work/proof" "$work/formula" "$work/proof"
try "that proof has hints" 0 "" "s VERIFIED" "" --check "$work/formula" "$work/proof"
if [ -e /dev/full ]; then
    try "a proof with hints to a full device" 1 \
        "/dev/full: cannot be written: no space left" "" "" \
        --lrat-from-drat /dev/full "$work/formula" "$work/before"
fi

# Many deletions: of clauses with a repeated literal, of a clause that is there often, and of one that comes and goes.
# Each run takes a fraction of a second of a processor. It takes some 20 where a deletion looks at each clause.
python3 - "$work" << 'END'
import sys
triples = [(a, b, c) for a in range(1, 36) for b in range(36, 71) for c in range(71, 106)][:40000]


def write(name, clauses, steps):
    with open(f"{sys.argv[1]}/{name}.cnf", "w") as file:
        file.write(f"p cnf 105 {len(clauses)}\n")
        file.writelines(clauses)
    with open(f"{sys.argv[1]}/{name}.drat", "w") as file:
        file.writelines(steps)


write("repeated", [f"{a} {a} {b} {c} 0\n" for a, b, c in triples], [f"d {a} {b} {c} 0\n" for a, b, c in triples])
write("often", ["1 2 3 0\n"] * 40000, ["d 1 2 3 0\n"] * 40000)
write("moved", ["1 2 0\n"] + [f"{a} {b} {c} 0\n" for a, b, c in triples], ["1 2 3 0\nd 1 2 3 0\n"] * 40000)
END
TIMEFORMAT=%U
for name in repeated often moved; do
    is_wanted "deletions, $name" || continue
    lines=$(wc -l < "$work/$name.drat")
    (ulimit -t 5; exec "$gipsat" --check "$work/$name.cnf" "$work/$name.drat") > "$work/out" 2> "$work/err"
    [ "$(cat "$work/err")" = "$work/$name.drat:$((lines + 1)): the end without the empty clause" ]
    told "deletions, $name" $?
done

# Definitions of 10000 variables, each by three clauses that are RAT, without hints and with them. It takes many seconds
# where each of these clauses is held against all others.
python3 - "$work" << 'END'
import sys
with open(f"{sys.argv[1]}/defined.drat", "w") as drat, open(f"{sys.argv[1]}/defined.lrat", "w") as lrat:
    name = 9
    for a in range(6, 30006, 3):
        b, v = a + 1, a + 2
        drat.write(f"{v} -{a} -{b} 0\n-{v} {a} 0\n-{v} {b} 0\n")
        lrat.write(f"{name} {v} -{a} -{b} 0 0\n{name + 1} -{v} {a} 0 -{name} 0\n{name + 2} -{v} {b} 0 -{name} 0\n")
        name += 3
    drat.write("1 2 0\n1 0\n4 0\n0\n")
    lrat.write(f"{name} 1 2 0 1 2 0\n{name + 1} 1 0 {name} 3 4 0\n{name + 2} 4 0 {name + 1} 5 6 0\n")
    lrat.write(f"{name + 3} 0 {name + 1} {name + 2} 7 8 0\n")
END
printf '%b' "$squares" > "$work/defined.cnf"
# NAME [ARGUMENT..]: expects that the program verifies a proof within five seconds of a processor.
try_soon() {
    is_wanted "$1" || return 0
    local name=$1
    shift
    (ulimit -t 5; exec "$gipsat" "$@") > "$work/out" 2> "$work/err"
    [ "$(cat "$work/out")" = "s VERIFIED" ]
    told "$name" $?
}
try_soon "definitions without hints" --lrat-from-drat "$work/defined.hinted" "$work/defined.cnf" "$work/defined.drat"
try_soon "definitions with hints" --check "$work/defined.cnf" "$work/defined.lrat"

# Proofs that the program writes: of the squares, of six pigeons in five holes, of eight in seven, after whose first slice
# variables are eliminated, and of nine in eight, which takes so many conflicts that clauses leave the store.
# HOLES: a formula that seats one pigeon more than there are holes.
pigeons() {
    python3 - "$1" <<'END'
import itertools
import sys
holes = int(sys.argv[1])
sits = lambda pigeon, hole: pigeon * holes + hole + 1
clauses = [[sits(p, h) for h in range(holes)] for p in range(holes + 1)]
clauses += [[-sits(a, h), -sits(b, h)] for h in range(holes) for a, b in itertools.combinations(range(holes + 1), 2)]
print("p cnf", (holes + 1) * holes, len(clauses))
for clause in clauses:
    print(*clause, 0)
END
}
pigeons 5 > "$work/pigeons"
pigeons 7 > "$work/crowd"
pigeons 8 > "$work/throng"
for formula in formula pigeons crowd throng; do
    names=("a proof of $formula is written" "the proof of $formula is checked")
    [ "$formula" != throng ] || names+=("clauses leave the store" "a proof of the pigeons beside another formula")
    is_wanted "${names[@]}" || continue
    make "a proof of $formula is written" 20 "" "s UNSATISFIABLE" "" -q --proof "$work/written" "$work/$formula"
    try "the proof of $formula is checked" 0 "" "s VERIFIED" "" --check "$work/$formula" "$work/written"
    [ "$formula" = throng ] || continue
    grep -q '^d ' "$work/written"
    told "clauses leave the store" $?
    printf 'p cnf 1 1\n1 0\n' > "$work/other"
    [ "$("$gipsat" --check "$work/other" "$work/written" 2> /dev/null)" = "s NOT VERIFIED" ]
    told "a proof of the pigeons beside another formula" $?
done
try "a proof that can't be opened" 1 "$work/none/proof: no such file" "" "" --proof "$work/none/proof" "$work/formula"
try "a proof in a folder's place" 1 "$work: is a directory" "" "" --proof "$work" "$work/formula"
try "a proof to a full device" 1 "/dev/full: cannot be written: no space left" "" "" --proof /dev/full "$work/formula"

# More variables have numbers than occur. Memory goes with the text: a table of so many takes gigabytes.
sparse='p cnf 1000003 4\n1000001 1000003 0\n1000001 -1000003 0\n-1000001 1000003 0\n-1000001 -1000003 0\n'
printf '%b' "$sparse" > "$work/sparse"
make "a proof of a formula with great numbers is written" 20 "" "s UNSATISFIABLE" "" -q --proof "$work/written" "$work/sparse"
try "the proof of a formula with great numbers is checked" 0 \
    "c $work/written: read as DRAT, though its first number may be a name of LRAT" "s VERIFIED" "" \
    --check "$work/sparse" "$work/written"
# NAME FORMULA PROOF [HINTS]: expects that little memory is enough to verify this proof, and to turn it into one with hints.
try_far() {
    is_wanted "$1" || return 0
    printf '%b' "$2" > "$work/far.cnf"
    printf '%b' "$3" > "$work/far"
    (ulimit -v 200000; exec "$gipsat" --check "$work/far.cnf" "$work/far") > "$work/out" 2> "$work/err" &&
        [ "$(cat "$work/out")" = "s VERIFIED" ] && { [ -z "${4-}" ] || hints_are "$4"; }
    told "$1" $?
}
# HINTS: whether little memory is enough to turn that proof into one with hints, and it has these.
hints_are() {
    rm -f "$work/hinted"
    (ulimit -v 200000; exec "$gipsat" --lrat-from-drat "$work/hinted" "$work/far.cnf" "$work/far") > "$work/out" 2> "$work/err" &&
        printf '%b' "$1" | cmp -s - "$work/hinted"
}
near='p cnf 2 4\n1 2 0\n-1 2 0\n1 -2 0\n-1 -2 0\n'
far='p cnf 2147483647 4\n2147483647 7 0\n-2147483647 7 0\n2147483647 -7 0\n-2147483647 -7 0\n'
steps='1500000000 -7 0\n-1500000000 2147483647 0\n7 0\n0\n'
try_far "great numbers in a proof take little memory" "$near" '2147483647 1 0\nd 2147483646 1 0\n1 0\n0\n' \
    '6 1 0 1 3 0\n6 d 1 3 0\n7 0 6 2 4 0\n'
try_far "great numbers in a formula take little memory where a proof is checked" "$far" "$steps" \
    '7 7 0 1 2 0\n7 d 1 2 0\n8 0 7 3 4 0\n'
try_far "great numbers in a proof with hints take little memory" "$near" '5 2147483647 1 0 1 3 0\n6 1 0 1 3 0\n7 0 6 2 4 0\n'
try_far "great numbers beside hints take little memory" "$far" '5 1500000000 7 0 1 2 0\n6 7 0 1 2 0\n7 0 6 3 4 0\n'
try_far "great numbers in a binary proof take little memory" "$far" 'a\x80\xbc\xc1\x96\x0b\x0f\x00a\x0e\x00a\x00'
try "a model of a formula with great numbers" 10 "" "$(printf 's SATISFIABLE\nv -1 -2 -3 -4 5 -6 -7 8 -9 0')" \
    'p cnf 9 2\n8 0\n-8 5 0\n'
printf 'p cnf 16777216 1\n16777216 0\n' > "$work/great"
(ulimit -v 200000 && "$gipsat" -n "$work/great") > "$work/out" 2> "$work/err"
[ $? = 10 ] && [ "$(cat "$work/out")" = "s SATISFIABLE" ]
told "a great number takes little memory" $?

# What is told at the end, on standard error. One clause is learned, of one literal, and then the empty one, which does
# not count among the clauses kept.
told='c 2 conflicts, 0 restarts, 5 clauses kept, 0 deleted, 1.00 literals in each of the last learned'
printf 'p cnf 2 4\n1 2 0\n-1 2 0\n1 -2 0\n-1 -2 0\n' | "$gipsat" --stats > "$work/out" 2> "$work/err"
[ "$(cat "$work/out")" = "s UNSATISFIABLE" ] && grep -qxF "$told" "$work/err" &&
    grep -q '^c 2 variables, 4 clauses read in [0-9]*\.[0-9]\{3\} s$' "$work/err" &&
    grep -q '^c [0-9]*\.[0-9]\{3\} s, [0-9]* kB of memory at most$' "$work/err"
told "a summary" $?

# Nothing is lost. The formula is read whole before the proof's file is made, and no formula is written over.
# NAME STATUS ERROR OUTPUT FILE INPUT [ARGUMENT..]: as `try`, and then that the file still holds what it held.
try_kept() {
    local name=$1 file=$5
    is_wanted "$name" "$name: the file is as it was" || return 0
    cp "$file" "$work/held"
    make "$name" "$2" "$3" "$4" "$6" "${@:7}"
    cmp -s "$file" "$work/held"
    told "$name: the file is as it was" $?
}
kept="$work/kept.cnf"
printf '%b' "$squares" > "$kept"
ln -s kept.cnf "$work/link"
ln "$kept" "$work/hard"
over='begins as a formula does (--force writes over it)'
try_kept "the proof's name is forgotten" 1 "$kept: $over" "" "$kept" "$squares" --proof "$kept"
try_kept "no formula at all" 1 "$none" "" "$kept" "" --proof "$kept"
try_kept "the formula by its name" 1 "$kept: $over" "" "$kept" "" --proof "$kept" "$kept"
try_kept "the formula by another name" 1 "$work/./kept.cnf: $over" "" "$kept" "" --proof "$work/./kept.cnf" "$kept"
try_kept "the formula by a symbolic link" 1 "$work/link: $over" "" "$kept" "" --proof "$work/link" "$kept"
try_kept "the formula by a hard link" 1 "$work/hard: $over" "" "$kept" "" --proof "$work/hard" "$kept"
try_kept "the formula on standard input" 1 "$kept: $over" "" "$kept" "$squares" --proof "$kept"
printf 'c a comment\r\n\n  c another\np  cnf 1 1\n1 0\n' > "$work/other.cnf"
try_kept "another formula in its file" 1 "$work/other.cnf: $over" "" "$work/other.cnf" "" --proof "$work/other.cnf" "$kept"
{ yes 'c a comment' | head -c 70000; printf 'p cnf 1 1\n1 0\n'; } > "$work/comments.cnf"
try_kept "a formula behind many comments" 1 "$work/comments.cnf: $over" "" "$work/comments.cnf" "" \
    --proof "$work/comments.cnf" "$kept"
# The guard reads the first 65536 bytes of the file, which may end within the header.
for place in 65530 65531 65532 65533 65534 65535 65536; do
    { printf c; head -c $((place - 2)) /dev/zero | tr '\0' a; printf '\np cnf 1 2\n1 0\n-1 0\n'; } > "$work/padded.cnf"
    try_kept "a formula whose header begins at byte $place" 1 "$work/./padded.cnf: $over" "" "$work/padded.cnf" "" \
        --proof "$work/./padded.cnf" "$work/padded.cnf"
done
printf '1 0\n0\n' > "$work/old"
try_kept "an old proof, and a refused formula" 1 "<stdin>:2: not a number" "" "$work/old" 'p cnf 1 1\nx 0\n' --proof "$work/old"
there='is there, and may be a formula (--force writes over it)'
try_kept "an old proof, and no formula file" 1 "$work/old: $there" "" "$work/old" "$squares" --proof "$work/old"
printf '1 0\n-1 0\n' > "$work/bare.cnf"
ln -s bare.cnf "$work/bare_link"
ln "$work/bare.cnf" "$work/bare_hard"
try_kept "a formula without a header by its name" 1 "$work/bare.cnf: $over" "" "$work/bare.cnf" "" \
    --relaxed --proof "$work/bare.cnf" "$work/bare.cnf"
try_kept "a formula without a header by another name" 1 "$work/./bare.cnf: $there" "" "$work/bare.cnf" "" \
    --relaxed --proof "$work/./bare.cnf" "$work/bare.cnf"
try_kept "a formula without a header by a symbolic link" 1 "$work/bare_link: $there" "" "$work/bare.cnf" "" \
    --relaxed --proof "$work/bare_link" "$work/bare.cnf"
try_kept "a formula without a header by a hard link" 1 "$work/bare_hard: $there" "" "$work/bare.cnf" "" \
    --relaxed --proof "$work/bare_hard" "$work/bare.cnf"
printf '\vp cnf 1 2\n1 0\n-1 0\n' > "$work/tabbed.cnf"
try_kept "a formula behind a vertical tab" 1 "$work/./tabbed.cnf: $over" "" "$work/tabbed.cnf" "" \
    --proof "$work/./tabbed.cnf" "$work/tabbed.cnf"
make "an old proof is written over" 20 "" "s UNSATISFIABLE" "" --proof "$work/old" "$kept"
try "that proof is checked" 0 "" "s VERIFIED" "" --check "$kept" "$work/old"
: > "$work/empty"
make "an empty file, and no formula file" 20 "" "s UNSATISFIABLE" "$squares" --proof "$work/empty"
try "that proof is checked too" 0 "" "s VERIFIED" "" --check "$kept" "$work/empty"
cp "$kept" "$work/forced.cnf"
make "a formula is written over by force" 20 "" "s UNSATISFIABLE" "" --force --proof "$work/forced.cnf" "$kept"
try "that proof is checked as well" 0 "" "s VERIFIED" "" --check "$kept" "$work/forced.cnf"

if [ "$(id -u)" != 0 ]; then
    printf '0\n' > "$work/guarded"
    chmod a-w "$work/guarded"
    try_kept "an old proof that may not be written" 1 "$work/guarded: permission denied" "" "$work/guarded" "" \
        --proof "$work/guarded" "$kept"
fi

make "a proof's file beside a formula that is satisfied" 10 "" "$two" 'p cnf 2 2\n1 0\n-1 2 0\n' --proof "$work/unneeded"
[ -e "$work/unneeded" ]
told "that file is written whatever the answer is" $?

# Standard streams that are closed. No file that is opened takes their place.
unheard='<stdout>: cannot be written: closed, or open the other way alone'
"$gipsat" --proof "$work/closed" "$kept" > "$work/out" 2> "$work/err" <&-
[ "$?" = 20 ] && [ "$(cat "$work/out")" = "s UNSATISFIABLE" ] && [ ! -s "$work/err" ] &&
    [ "$("$gipsat" --check "$kept" "$work/closed")" = "s VERIFIED" ]
told "no standard input, beside a formula in a file" $?
"$gipsat" --relaxed > "$work/out" 2> "$work/err" <&-
[ "$?" = 1 ] && [ ! -s "$work/out" ] && [ "$(cat "$work/err")" = "<stdin>: cannot be read: closed, or open the other way alone" ]
told "no standard input, where the formula comes from there" $?
"$gipsat" --check "$kept" - > "$work/out" 2> "$work/err" <&-
[ "$?" = 1 ] && [ ! -s "$work/out" ] && [ "$(cat "$work/err")" = "<stdin>: cannot be read: closed, or open the other way alone" ]
told "no standard input, where the proof comes from there" $?
: > "$work/out"
for formula in "$kept" -; do
    for format in --quiet --binary --lrat; do
        rm -f "$work/closed"
        "$gipsat" "$format" --proof "$work/closed" "$formula" < "$kept" >&- 2> "$work/err"
        [ "$?" = 1 ] && [ "$(cat "$work/err")" = "$unheard" ] &&
            [ "$("$gipsat" --check "$kept" "$work/closed")" = "s VERIFIED" ]
        told "no standard output, formula ${formula##*/}, $format" $?
        rm -f "$work/closed"
        "$gipsat" --stats "$format" --proof "$work/closed" "$formula" < "$kept" > "$work/out" 2>&-
        [ "$?" = 20 ] && [ "$(cat "$work/out")" = "s UNSATISFIABLE" ] &&
            [ "$("$gipsat" --check "$kept" "$work/closed")" = "s VERIFIED" ]
        told "no standard error, formula ${formula##*/}, $format" $?
    done
done
: > "$work/err"
rm -f "$work/closed"
"$gipsat" --proof "$work/closed" "$kept" <&- >&- 2>&-
[ "$?" = 1 ] && [ "$("$gipsat" --check "$kept" "$work/closed")" = "s VERIFIED" ]
told "no standard stream" $?
cp "$work/closed" "$work/held"
"$gipsat" --lrat-from-drat "$work/hinted" "$kept" "$work/closed" > "$work/out" 2> "$work/err"
cp "$work/hinted" "$work/hints"
rm "$work/hinted"
"$gipsat" --lrat-from-drat "$work/hinted" "$kept" "$work/closed" >&- 2> "$work/err"
[ "$?" = 1 ] && [ "$(cat "$work/err")" = "$unheard" ] && { [ ! -e "$work/hinted" ] || cmp -s "$work/hinted" "$work/hints"; }
told "no standard output, beside a proof that is given hints" $?
rm -f "$work/hinted"
for words in "--check $kept $work/closed" "$kept" --help --version; do
    # shellcheck disable=SC2086
    "$gipsat" $words >&- 2> "$work/err"
    [ "$?" = 1 ] && [ "$(cat "$work/err")" = "$unheard" ] && cmp -s "$work/closed" "$work/held"
    told "no standard output, arguments ${words//$work\//}" $?
done

# A proof appears under its name when it is whole, and what came there meanwhile stays.
# Its bytes are in a part until then, which comes within the first tenth of the time.
pigeons 11 > "$work/many"
printf '0\n' > "$work/late"
if is_wanted "an old proof is there until the new one is whole" "an old proof is replaced at the end"; then
    "$gipsat" -q --time 2 --proof "$work/late" "$work/many" > "$work/out" 2> "$work/err" &
    await compgen -G "$work/l*.part"
    [ "$(cat "$work/late")" = 0 ]
    told "an old proof is there until the new one is whole" $?
    wait
    [ "$(cat "$work/out")" = "s UNKNOWN" ] && [ "$(wc -l < "$work/late")" -gt 100 ] && [ -z "$(ls "$work"/late.* 2> /dev/null)" ]
    told "an old proof is replaced at the end" $?
fi
rm -f "$work/late"
if is_wanted "a proof has no name before it is whole" "a file that came meanwhile stays"; then
    "$gipsat" -q --time 2 --proof "$work/late" "$work/many" > "$work/out" 2> "$work/err" &
    await compgen -G "$work/l*.part"
    [ ! -e "$work/late" ]
    told "a proof has no name before it is whole" $?
    echo precious > "$work/late"
    wait $!
    [ "$?" = 1 ] && [ ! -s "$work/out" ] && [ "$(cat "$work/late")" = precious ] &&
        [ "$(cat "$work/err")" = "$work/late: another file came there meanwhile (see $(ls "$work"/late.*.part))" ]
    told "a file that came meanwhile stays" $?
    rm "$work"/late.*.part
fi
if is_wanted "a proof whose folder is removed meanwhile"; then
    mkdir "$work/gone"
    "$gipsat" -q --time 2 --proof "$work/gone/late" "$work/many" > "$work/out" 2> "$work/err" &
    await compgen -G "$work/gone/l*.part"
    rm -r "$work/gone"
    wait $!
    [ "$?" = 1 ] && [ ! -s "$work/out" ] && [ "$(cat "$work/err")" = "$work/gone/late: cannot be written: no such file" ]
    told "a proof whose folder is removed meanwhile" $?
fi
echo precious > "$work/late"
if is_wanted "an old proof that is exchanged meanwhile stays"; then
    "$gipsat" -q --time 2 --force --proof "$work/late" "$work/many" > "$work/out" 2> "$work/err" &
    await compgen -G "$work/l*.part"
    rm "$work/late"
    echo precious > "$work/late"
    wait $!
    [ "$?" = 1 ] && [ ! -s "$work/out" ] && [ "$(cat "$work/late")" = precious ] &&
        [ "$(cat "$work/err")" = "$work/late: another file came there meanwhile (see $(ls "$work"/late.*.part))" ]
    told "an old proof that is exchanged meanwhile stays" $?
    rm "$work"/late.*.part
fi
# A link stays, and what it leads to is replaced.
printf '0\n' > "$work/late"
ln -s late "$work/lead"
if is_wanted "an old proof behind a link is there until the new one is whole" \
    "an old proof behind a link is replaced at the end"; then
    "$gipsat" -q --time 2 --proof "$work/lead" "$work/many" > "$work/out" 2> "$work/err" &
    await compgen -G "$work/l*.part"
    [ "$(cat "$work/late")" = 0 ]
    told "an old proof behind a link is there until the new one is whole" $?
    wait $!
    [ "$?" = 0 ] && [ "$(cat "$work/out")" = "s UNKNOWN" ] && [ -L "$work/lead" ] && [ "$(wc -l < "$work/late")" -gt 100 ] &&
        [ -z "$(ls "$work"/lead.* "$work"/late.* 2> /dev/null)" ]
    told "an old proof behind a link is replaced at the end" $?
fi
rm "$work/lead" "$work/late"
ln -s late "$work/lead"
make "a link that leads to nothing" 20 "" "s UNSATISFIABLE" "" --proof "$work/lead" "$kept"
[ -L "$work/lead" ] && [ "$("$gipsat" --check "$kept" "$work/late")" = "s VERIFIED" ]
told "a proof behind that link" $?
rm "$work/lead" "$work/late"
# The system takes names of 255 bytes.
for length in 244 255; do
    long=$work/$(printf 'a%.0s' $(seq "$length"))
    make "a proof of a long name ($length bytes)" 20 "" "s UNSATISFIABLE" "" --proof "$long" "$kept"
    try "that proof of a long name is checked ($length bytes)" 0 "" "s VERIFIED" "" --check "$kept" "$long"
    rm -f "$long"
done
printf '0\n' > "$work/late"
# A file that another one is mounted on has a name that the system gives to no other.
if unshare -rm true 2> /dev/null; then
    : > "$work/below"
    # shellcheck disable=SC2016
    unshare -rm sh -c 'mount --bind "$1" "$2" && exec "$3" -q --force --proof "$2" "$4"' sh \
        "$work/below" "$work/late" "$gipsat" "$kept" > "$work/out" 2> "$work/err"
    [ "$?" = 1 ] && [ ! -s "$work/out" ] &&
        grep -q "late: cannot be written: .* (see $work/late[.][0-9]*[.]part)$" "$work/err" &&
        [ "$("$gipsat" --check "$kept" "$(ls "$work"/late.*.part)")" = "s VERIFIED" ]
    told "a proof that cannot get its name stays beside it" $?
    rm -f "$work"/late.*.part
fi
try "a proof of an empty name" 1 ": no such file" "" "" --proof "" "$kept"
try "a proof of an empty name behind =" 1 ": no such file" "" "" --proof= "$kept"
if is_wanted "a run that is killed leaves no empty file"; then
    "$gipsat" -q --proof "$work/killed" "$work/many" > "$work/out" 2> "$work/err" &
    is_begun() {
        [ -n "$(find "$work" -name 'killed.*')" ]
    }
    await is_begun
    is_killed=$?
    kill -KILL $!
    wait $! 2> /dev/null
    [ "$is_killed" = 0 ] && [ ! -e "$work/killed" ] && [ -z "$(find "$work" -name 'killed.*' -empty)" ]
    told "a run that is killed leaves no empty file" $?
fi
if is_wanted "a run that is ended leaves its steps and no answer"; then
    "$gipsat" --stats --proof "$work/ended" "$work/many" > "$work/out" 2> "$work/err" &
    has_steps() {
        [ -n "$(find "$work" -name 'ended.*.part' -size +0)" ]
    }
    await has_steps
    kill -TERM $!
    wait $! 2> /dev/null
    [ $? = 143 ] && [ ! -s "$work/out" ] && [ ! -e "$work/ended" ] && has_steps && ! grep -q ' of memory at most$' "$work/err"
    told "a run that is ended leaves its steps and no answer" $?
fi
(trap '' XFSZ; ulimit -f 0; exec "$gipsat" -q --proof "$work/limited" "$kept" 2>&1) | cat > "$work/out"
[ "$(cat "$work/out")" = "$work/limited: cannot be written: file too large" ] && [ -z "$(ls "$work"/limited* 2> /dev/null)" ]
told "a proof that cannot be written leaves no file" $?

# A proof that can't be written further ends the search, which would take hours.
if is_wanted "a proof to a full device ends the search"; then
    timeout 60 "$gipsat" -q --proof /dev/full "$work/many" > "$work/out" 2> "$work/err"
    status=$?
    [ "$status" = 1 ] && [ ! -s "$work/out" ] && [ "$(cat "$work/err")" = "/dev/full: cannot be written: no space left" ]
    told "a proof to a full device ends the search" $?
fi

# A proof in the binary form: the steps of the clash, which needs none but the last, and proofs that are checked.
make "a binary proof is written" 20 "" "s UNSATISFIABLE" "" --binary --proof "$work/bytes" "$kept"
try "that binary proof is checked" 0 "" "s VERIFIED" "" --check "$kept" "$work/bytes"
[ "$(head -c 1 "$work/bytes")" = a ] && [ "$(tail -c 2 "$work/bytes" | od -An -tx1)" = " 61 00" ]
told "a binary proof has its form" $?
make "a proof is written to a name behind =" 20 "" "s UNSATISFIABLE" "" "--proof=$work/joined" "$kept"
try "that proof behind = is checked" 0 "" "s VERIFIED" "" --check "$kept" "$work/joined"
if is_wanted "a larger binary proof is written" "that larger binary proof is checked"; then
    make "a larger binary proof is written" 20 "" "s UNSATISFIABLE" "" -q --binary --proof "$work/bytes" "$work/crowd"
    try "that larger binary proof is checked" 0 "" "s VERIFIED" "" --check "$work/crowd" "$work/bytes"
fi

# Proofs with hints, as text and as bytes. A step of the text has two ends, and none of DRAT has; the bytes are others.
if is_wanted "a proof with hints is written" "that proof with hints is checked" "a proof with hints has its form"; then
    make "a proof with hints is written" 20 "" "s UNSATISFIABLE" "" -q --lrat --proof "$work/hints" "$work/crowd"
    try "that proof with hints is checked" 0 "" "s VERIFIED" "" --check "$work/crowd" "$work/hints"
    head -n 1 "$work/hints" | grep -qE '^[0-9]+ (-?[0-9]+ )*0 ([0-9]+ )+0$'
    told "a proof with hints has its form" $?
fi
if is_wanted "a binary proof with hints is written" "that binary proof with hints is checked" \
    "a binary proof with hints has its form"; then
    make "a binary proof with hints is written" 20 "" "s UNSATISFIABLE" "" \
        -q --lrat --binary --proof "$work/hints" "$work/crowd"
    try "that binary proof with hints is checked" 0 "" "s VERIFIED" "" --check "$work/crowd" "$work/hints"
    [ "$(head -c 1 "$work/hints")" = a ] && ! cmp -s "$work/hints" "$work/bytes"
    told "a binary proof with hints has its form" $?
fi
if is_wanted "a proof with hints that frees clauses is written" "that proof that frees clauses is checked" \
    "clauses that leave the store are told by their names" \
    "the first step has the name behind those of the formula"; then
    make "a proof with hints that frees clauses is written" 20 "" "s UNSATISFIABLE" "" \
        -q --lrat --proof "$work/hints" "$work/throng"
    try "that proof that frees clauses is checked" 0 "" "s VERIFIED" "" --check "$work/throng" "$work/hints"
    grep -qE '^[0-9]+ d [0-9]+ 0$' "$work/hints"
    told "clauses that leave the store are told by their names" $?
    [ "$(grep -vm 1 ' d ' "$work/hints" | cut -d ' ' -f 1)" = "$(($(awk '/^p/ { print $4 }' "$work/throng") + 1))" ]
    told "the first step has the name behind those of the formula" $?
fi
# A proof with hints that is so long that the memory of deleted clauses is given back, so that those that are left move up:
# ten pigeons in nine holes.
if is_wanted "a long proof with hints is written" "that long proof with hints is checked" \
    "that proof has more than a million numbers"; then
    pigeons 9 > "$work/flock"
    make "a long proof with hints is written" 20 "" "s UNSATISFIABLE" "" -q --lrat --proof "$work/hints" "$work/flock"
    try "that long proof with hints is checked" 0 "" "s VERIFIED" "" --check "$work/flock" "$work/hints"
    [ "$(wc -w < "$work/hints")" -gt 1000000 ]
    told "that proof has more than a million numbers" $?
fi
# A proof with hints of a large text: a circuit of 7600 gates twice, whose last outputs are said to differ.
if is_wanted "a proof with hints of a large text is written" "that proof of a large text is checked" \
    "that text has 50 000 clauses"; then
    python3 - > "$work/twice" << 'END'
import random
random.seed(5)
circuits, clauses, last = [list(range(1, 61)) for _ in range(2)], [], 60
for gate in range(7600):
    operands = [(random.choice((1, -1)), -1 - random.randrange(60)) for _ in range(2)]
    is_xor = random.random() < 0.3
    for nodes in circuits:
        last += 1
        a, b = (sign * nodes[place] for sign, place in operands)
        nodes.append(last)
        if is_xor:
            clauses += [[-last, a, b], [-last, -a, -b], [last, -a, b], [last, a, -b]]
        else:
            clauses += [[-last, a], [-last, b], [last, -a, -b]]
differ = range(last + 1, last + 13)
for unlike, left, right in zip(differ, *(nodes[-12:] for nodes in circuits)):
    clauses += [[-unlike, left, right], [-unlike, -left, -right]]
print("p cnf", differ[-1], len(clauses) + 1)
for clause in [*clauses, differ]:
    print(*clause, 0)
END
    [ "$(grep -c ' 0$' "$work/twice")" -ge 50000 ]
    told "that text has 50 000 clauses" $?
    make "a proof with hints of a large text is written" 20 "" "s UNSATISFIABLE" "" -q --lrat --proof "$work/hints" "$work/twice"
    try "that proof of a large text is checked" 0 "" "s VERIFIED" "" --check "$work/twice" "$work/hints"
fi
if is_wanted "a proof without elimination is written" "that proof without elimination is checked"; then
    make "a proof without elimination is written" 20 "" "s UNSATISFIABLE" "" -q --no-simplify --proof "$work/plain" "$work/crowd"
    try "that proof without elimination is checked" 0 "" "s VERIFIED" "" --check "$work/crowd" "$work/plain"
fi

# Random formulas: each clause that the search tells follows by the clauses that it says it was resolved from, and those
# that it frees are held, and not needed any more. Where there is a model, all steps are read, and none is the empty clause.
if is_wanted "proofs of random formulas are checked, with hints and without"; then
    python3 - "$gipsat" "$work" > "$work/out" 2> "$work/err" << 'END'
import random
import subprocess
import sys
random.seed(11)
gipsat, work = sys.argv[1:]
refuted, steps = 0, 0


def run(*words):
    ran = subprocess.run([gipsat, *words], capture_output=True, text=True)
    return ran.stdout, ran.stderr


for _ in range(100):
    sizes = random.choices((0, 1, 2, 3), (1, 25, 100, 1900), k=random.randint(80, 110))
    clauses = [random.choices([s * v for s in (1, -1) for v in range(1, 21)], k=size) for size in sizes]
    with open(f"{work}/random", "w") as file:
        print("p cnf 20", len(clauses), file=file)
        for clause in clauses:
            print(*clause, 0, file=file)
    for form in (["--lrat"], []):
        said, _ = run("-q", "-n", "--force", *form, "--proof", f"{work}/steps", f"{work}/random")
        checked = run("--check", f"{work}/random", f"{work}/steps")
        if said == "s UNSATISFIABLE\n":
            refuted += 1
            assert checked == ("s VERIFIED\n", ""), clauses
        else:
            with open(f"{work}/steps") as file:
                lines = len(file.readlines())
            steps += lines
            end = f"{work}/steps:{lines + 1}: the end without the empty clause\n"
            assert said == "s SATISFIABLE\n" and checked == ("s NOT VERIFIED\n", end), clauses
assert refuted > 60 and steps > 100, (refuted, steps)
END
    told "proofs of random formulas are checked, with hints and without" $?
fi

# An elimination of variables shows in the summary, and --no-simplify prevents it.
stats() {
    "$gipsat" -n --stats "$@" "$work/crowd" 2>&1 > "$work/out" | grep ' conflicts, '
}
if is_wanted "variables are eliminated, but for --no-simplify"; then
    with=$(stats)
    without=$(stats --no-simplify)
    [ -n "$with" ] && [ -n "$without" ] && [ "$with" != "$without" ]
    told "variables are eliminated, but for --no-simplify" $?
fi

# Each of the two can be prevented alone, and proofs are checked then too.
for switch in --no-eliminate --no-vivify; do
    if is_wanted "a search with $switch"; then
        alone=$(stats "$switch")
        [ -n "$alone" ] && [ "$alone" != "$(stats)" ] && [ "$alone" != "$(stats --no-simplify)" ]
        told "a search with $switch" $?
    fi
    is_wanted "a proof with $switch is written" "that proof with $switch is checked" || continue
    make "a proof with $switch is written" 20 "" "s UNSATISFIABLE" "" -q "$switch" --proof "$work/plain" "$work/crowd"
    try "that proof with $switch is checked" 0 "" "s VERIFIED" "" --check "$work/crowd" "$work/plain"
done

# A question after the first one costs its search alone: beside a chain of 100 000 variables each would take milliseconds
# if it set all up again.
if is_wanted "20 000 questions beside a long chain"; then
    python3 - > "$work/questions" << 'END'
print("p inccnf\n1 0")
for variable in range(1, 100000):
    print(-variable, variable + 1, 0)
print("-200001 200002 0")
for _ in range(20000):
    print("a 200001 -200002 0")
END
    TIMEFORMAT=%U
    spent=$( { time timeout 600 "$gipsat" -q "$work/questions" > "$work/out" 2> "$work/err"; } 2>&1)
    echo "$spent s" >> "$work/err"
    [ "$(grep -c '^s UNSATISFIABLE$' "$work/out")" = 20000 ] && awk "BEGIN { exit !($spent < 10) }"
    told "20 000 questions beside a long chain" $?
fi

# A summary has no average of nothing.
printf 'p cnf 2 1\n1 2 0\n' | "$gipsat" --stats > "$work/out" 2> "$work/err"
grep -q '^c 0 conflicts, 0 restarts, 1 clauses kept, 0 deleted$' "$work/err" && ! grep -q NaN "$work/err"
told "a summary without a conflict" $?

# A time limit ends the search, without an answer. Every five seconds a line tells how far the search is, also where it
# meets no conflict, and how much of an input that comes slowly was read.
easy=("a line of a long search that meets few conflicts" "a time limit where few conflicts are met" "memory is refused")
! is_wanted "${easy[@]}" > /dev/null || python3 - > "$work/easy" <<'END'
import random
random.seed(1)
print("p cnf 300000 1050000")
for _ in range(1050000):
    print(*(random.choice((1, -1)) * variable for variable in random.sample(range(1, 300001), 3)), 0)
END
progress='^c [0-9]* conflicts, [0-9]* restarts, [0-9]* clauses kept, [0-9]* deleted'
# The input comes fifteen seconds late: also a program that begins late has then waited for five.
! is_wanted "lines of a slow input" > /dev/null ||
    { printf 'p cnf 1 1\n'; sleep 15; printf '1 0\n'; } | timeout 120 "$gipsat" > "$work/slow" 2> "$work/slow_err" &
slow=$!
# NAME FILE COUNT [ARGUMENT..]: expects so many lines of progress of a search that goes on.
try_progress() {
    is_wanted "$1" || return 0
    "$gipsat" "${@:4}" > /dev/null 2> "$2" &
    await has_lines "$progress" "$2" "$3"
    told "$1" $?
    kill -KILL $!
    wait $! 2> /dev/null
}
try_progress "a line of a long search" "$work/err" 1 "$work/many"
try_progress "a line of a long search that meets few conflicts" "$work/err" 1 -n "$work/easy"
try_progress "a line every five seconds, with -v and -q" "$work/err" 2 -n -q -v "$work/many"
try "a time limit" 0 "" "s UNKNOWN" "" -q --time 2 "$work/many"
try "a memory limit" 0 "" "s UNKNOWN" "" -q --memory 1 "$work/many"
try "a time limit of 0" 0 "" "s UNKNOWN" "" -q --time 0 "$work/many"
try "a memory limit of 0" 0 "" "s UNKNOWN" "" -q --memory 0 "$work/many"
try "a memory limit that is not reached" 20 "" "s UNSATISFIABLE" "$clash" --memory 100000
if is_wanted "a summary at a memory limit"; then
    "$gipsat" --stats --memory 1 --proof "$work/full" "$work/many" > "$work/out" 2> "$work/err"
    [ "$?" = 0 ] && [ "$(cat "$work/out")" = "s UNKNOWN" ] && [ -s "$work/full" ] &&
        grep -q '^c [0-9.]* s, [0-9]* kB of memory at most$' "$work/err"
    told "a summary at a memory limit" $?
fi
if is_wanted "lines of a slow input"; then
    wait "$slow"
    mv "$work/slow" "$work/out"
    mv "$work/slow_err" "$work/err"
    [ "$(cat "$work/out")" = "$(printf 's SATISFIABLE\nv 1 0')" ] && grep -q '^c 14 bytes read$' "$work/err" &&
        grep -q '^c 1 variables, 1 clauses read in [0-9]*\.[0-9]\{3\} s$' "$work/err"
    told "lines of a slow input" $?
fi

# A search pauses after some work, also where it meets few conflicts: where the time was over before it began, it decides some
# 34 000 variables of 300 000.
if is_wanted "a time limit where few conflicts are met"; then
    { cat "$work/easy"; sleep 2; } | "$gipsat" -n --stats --time 1 > "$work/out" 2> "$work/err"
    decided=$(sed -n 's/^c \([0-9]*\) decisions,.*/\1/p' "$work/err")
    [ "$(cat "$work/out")" = "s UNKNOWN" ] && [ "${decided:-999999}" -lt 100000 ]
    told "a time limit where few conflicts are met" $?
fi

# Memory that is refused, while the clauses are read and where a variable has the greatest number.
if is_wanted "memory is refused"; then
    (ulimit -v 60000; "$gipsat" "$work/easy") > "$work/out" 2> "$work/err"
    [ "$?" = 1 ] && [ ! -s "$work/out" ] && [ "$(cat "$work/err")" = "memory: refused" ]
    told "memory is refused" $?
fi
printf 'p cnf 2147483647 1\n2147483647 0\n' > "$work/greatest"
(ulimit -v 2000000; "$gipsat" "$work/greatest") > "$work/out" 2> "$work/err"
[ "$?" = 1 ] && [ ! -s "$work/out" ] && [ "$(cat "$work/err")" = "memory: refused" ]
told "memory is refused for the greatest variable" $?

# A conflict costs no more where many literals are fixed: 500 000 units beside eight pigeons in seven holes.
if is_wanted "a search beside many fixed literals"; then
    awk 'NR == 1 { $3 = 510000; $4 += 500000 } { print } END { for (v = 10001; v <= 510000; v++) print v, 0 }' \
        "$work/crowd" > "$work/fixed"
    TIMEFORMAT=%U
    alone=$( { time "$gipsat" "$work/crowd" > /dev/null 2>&1; } 2>&1)
    beside=$( { time timeout 60 "$gipsat" "$work/fixed" > "$work/out" 2> "$work/err"; } 2>&1)
    echo "$alone s alone, $beside s beside them" >> "$work/err"
    [ "$(cat "$work/out")" = "s UNSATISFIABLE" ] && awk "BEGIN { exit !($beside < 2 * $alone + 3) }"
    told "a search beside many fixed literals" $?
fi
try "no witness is wanted" 10 "" "s SATISFIABLE" 'p cnf 1 1\n1 0\n' -n

# Assumptions are clauses of one literal each.
party='p cnf 3 3\n1 2 3 0\n-1 2 0\n-2 -3 0\n'
cleo=$(printf 's SATISFIABLE\nv -1 -2 3 0')
try "an assumption" 10 "" "$cleo" "$party" --assume 3
try "assumptions with a 0 behind them" 10 "" "$cleo" "$party" --assume '3 -1 0'
try "assumptions that the formula excludes" 20 "" "s UNSATISFIABLE" "$party" --assume='2 3'
try "assumptions that clash" 20 "" "s UNSATISFIABLE" "$party" --assume '1 -1'
try "the last of two lists of assumptions" 10 "" "$cleo" "$party" --assume 1 --assume 3
try "assumptions beside a formula without a header" 10 "" "$cleo" '1 2 3 0\n-1 2 0\n-2 -3 0\n' --relaxed --assume 3
try "assumptions that are no literals" 1 "--assume: not a number" "" "$party" --assume '1 x'
try "an assumption that the formula does not name" 1 "--assume: a variable that <stdin> does not have" "" "$party" --assume 4

# Several models: all, some, those that a projection tells apart, and those under assumptions.
# NAME VALUES LAST [ARGUMENT..]: expects a model for each of these values, sorted, and then this line, if it is one.
try_models() {
    is_wanted "$1" || return 0
    printf '%b' "$party" | "$gipsat" -q "${@:4}" > "$work/out" 2> "$work/err"
    [ "$?" = 10 ] && [ "$(sed -n 's/^v //p' "$work/out" | sort | tr '\n' ';')" = "$2" ] &&
        [ "$(tail -n 1 "$work/out" | grep '^s')" = "$3" ] && [ ! -s "$work/err" ]
    told "$1" $?
}
try_models "all models" "-1 -2 3 0;-1 2 -3 0;1 2 -3 0;" "s UNSATISFIABLE" --models 0
try_models "as many models as there are" "-1 -2 3 0;-1 2 -3 0;1 2 -3 0;" "" --models 3
try_models "models under an assumption" "-1 2 -3 0;1 2 -3 0;" "s UNSATISFIABLE" --models 9 --assume 2
try_models "models without values" "" "s UNSATISFIABLE" --models 9 -n
if is_wanted "models are written as they are found"; then
    timeout 120 "$gipsat" -q --models 0 2> "$work/err" <<< 'p cnf 40 0' | grep -m 51 '^s SATISFIABLE$' > "$work/out"
    [ "$(wc -l < "$work/out")" = 51 ]
    told "models are written as they are found" $?
fi
try "no model at all" 20 "" "s UNSATISFIABLE" "$clash" --models 0
try "a limit among models" 0 "" "s UNKNOWN" "$clash" --models 0 --conflicts 0
try "a projection on no variable" 10 "" "$(printf 's SATISFIABLE\nv -1 0\ns UNSATISFIABLE')" 'p cnf 1 0\n' \
    --models 5 --project ''
try "a projection that the formula does not name" 1 "--project: a variable that <stdin> does not have" "" "$party" \
    --models 5 --project 4
try "a projection that is no list" 1 "--project: not a number" "" "$party" --models 5 --project '1,2'
if is_wanted "models of many formulas, by projections, are those of a table"; then
    python3 - "$gipsat" > "$work/out" 2> "$work/err" << 'END'
import itertools
import random
import subprocess
import sys
random.seed(7)
for _ in range(60):
    n = random.randint(1, 5)
    clauses = [[random.choice((1, -1)) * random.randint(1, n) for _ in range(3)] for _ in range(random.randint(0, 9))]
    chosen = random.sample(range(1, n + 1), random.randint(0, n))
    text = f"p cnf {n} {len(clauses)}\n" + "".join(" ".join(map(str, c)) + " 0\n" for c in clauses)
    all_models = [m for m in itertools.product((False, True), repeat=n)
                  if all(any(m[abs(l) - 1] == (l > 0) for l in c) for c in clauses)]
    wanted = {tuple(m[v - 1] for v in chosen) for m in all_models}
    words = [sys.argv[1], "-q", "--models", "0", "--project", " ".join(map(str, chosen))]
    ran = subprocess.run(words, input=text, capture_output=True, text=True)
    found = [tuple(int(w) > 0 for w in line.split()[1:-1]) for line in ran.stdout.splitlines() if line[0] == "v"]
    told = [tuple(m[v - 1] for v in chosen) for m in found]
    assert all(m in all_models for m in found) and len(told) == len(set(told)) and set(told) == wanted, (text, chosen)
    assert ran.stdout.endswith("s UNSATISFIABLE\n") and ran.returncode == (10 if found else 20), (text, chosen)
END
    told "models of many formulas, by projections, are those of a table" $?
fi

# A limit above 0: as many conflicts as it says are met, by all models together and by each question. Six pigeons in five
# holes take more; `31` stands for them, so that they need not sit where it is false.
# NAME STATUS OUTPUT CONFLICTS FILE [ARGUMENT..]: expects that a search without values meets so many conflicts.
try_limit() {
    is_wanted "$1" || return 0
    "$gipsat" -n --stats "${@:6}" "$5" > "$work/out" 2> "$work/err"
    [ "$?" = "$2" ] && [ "$(cat "$work/out")" = "$3" ] &&
        [ "$(sed -n 's/^c \([0-9]*\) conflicts,.*/\1/p' "$work/err" | tail -n 1)" = "$4" ]
    told "$1" $?
}
awk 'NR == 1 { $3 += 1; print } NR > 1 { print -31, $0 }' "$work/pigeons" > "$work/chosen"
{ echo 'p inccnf'; sed 1d "$work/chosen"; printf 'a 31 0\na -31 0\na 31 0\n'; } > "$work/asked"
try_limit "a limit of five conflicts" 0 "s UNKNOWN" 5 "$work/pigeons" --conflicts 5
try_limit "a limit of five conflicts among models" 10 $'s SATISFIABLE\ns UNKNOWN' 5 "$work/chosen" \
    --models 0 --project 31 --conflicts 5
try_limit "a limit of five conflicts for each question" 10 $'s UNKNOWN\ns SATISFIABLE\ns UNKNOWN' 10 "$work/asked" \
    --conflicts 5

# Questions: from an a, with which a line begins, to a 0, behind a header p inccnf. Each is asked of the clauses before it.
asked='c two\nc comments\n\np inccnf\n1 2 3 0\n-1 2\n0\na 0\n-2 -3 0\na 3 0\na 3 2 0\na -3 -2 0\n'
try "questions" 10 "" "$(printf 's SATISFIABLE\nv 1 2 -3 0\ns SATISFIABLE\nv -1 -2 3 0\ns UNSATISFIABLE\ns UNSATISFIABLE')" "$asked"
printf '%b' "$asked" > "$work/asked"
try "questions in a file, without values" 10 "" "$(printf 's SATISFIABLE\ns SATISFIABLE\ns UNSATISFIABLE\ns UNSATISFIABLE')" \
    "" -n "$work/asked"
try "questions that nothing satisfies" 20 "" "$(printf 's UNSATISFIABLE\ns UNSATISFIABLE')" 'p inccnf\n1 0\na -1 0\n2 0\na -2 0\n'
try "no question" 0 "" "" 'p inccnf\n1 0\n-1 0\n'
try "a question over lines" 20 "" "s UNSATISFIABLE" 'p inccnf\n1 2 0\na -1\n-2 0\n'
try "a question over lines, with comments" 10 "" "$(printf 's SATISFIABLE\nv -1 2 0\ns UNSATISFIABLE')" \
    'p inccnf\n1 2 0\na c 1 0\n\nc 2 0\n -1\n0 c 0\n-2 0\na -1\n0\n'
try "a question without its 0" 1 "<stdin>:2: a question without its 0" "" 'p inccnf\na -1\n'
try "a question that the file cuts off" 1 "<stdin>:3: a question without its 0" "$(printf 's SATISFIABLE\nv 1 0')" \
    'p inccnf\na 1 0\na 1\n2\n'
try "a question within another" 1 "<stdin>:2: a question without its 0" "" 'p inccnf\na 1\na 2 0\n'
try "a literal behind a question" 1 "<stdin>:2: a word behind the 0 of a question" "" 'p inccnf\na -1 -2 0 1 0\n'
try "a clause behind a question over lines" 1 "<stdin>:3: a word behind the 0 of a question" "" 'p inccnf\na -1\n0 1 0\n'
try "a second 0 behind a question" 1 "<stdin>:2: a word behind the 0 of a question" "" 'p inccnf\na 1 0 0\n'
try "no word in a question's next line" 1 "<stdin>:3: not a number" "" 'p inccnf\na 1\n2 x 0\n'
try "a header in a question" 1 "<stdin>:2: a second header" "" 'p inccnf\na p cnf 1 1\n0\n'
try "the end of a text in a question" 1 "<stdin>:2: not a number" "" 'p inccnf\na % 0\n'
try "questions with carriage returns" 10 "" "$(printf 's SATISFIABLE\nv 1 0')" 'p inccnf\r\n1 0\r\na 1 0\r\n'
try "no conflict is allowed for a question" 0 "" "s UNKNOWN" 'p inccnf\n1 2 0\n1 -2 0\n-1 2 0\n-1 -2 0\na 0\n' --conflicts 0
try "questions up to an error" 1 "<stdin>:5: not a number" "$(printf 's SATISFIABLE\nv 1 0')" 'p inccnf\n1 0\na 0\n2 0\nx 0\na 0\n'
try "a question that is no list" 1 "<stdin>:3: not a number" "" 'p inccnf\n1 0\na x 0\n'
try "a clause without its 0 before a question" 1 "<stdin>:3: a clause without its 0" "" 'p inccnf\n1\na 0\n'
try "a header of neither kind" 1 "<stdin>:2: no header \`p cnf VARIABLES CLAUSES\`" "" 'c\np inccnf 3 4\n1 0\n'
printf 'p inccnf\n2147483647 0\na 1 0\n5 0\na -5 0\na -1 2147483647 0\n' > "$work/great_questions"
(ulimit -v 200000; "$gipsat" "$work/great_questions") > "$work/out" 2> "$work/err"
[ "$?" = 10 ] && [ ! -s "$work/err" ] &&
    [ "$(cat "$work/out")" = "$(printf 's SATISFIABLE\nv 1 -5 2147483647 0\ns UNSATISFIABLE\ns SATISFIABLE\nv -1 5 2147483647 0')" ]
told "questions with great numbers take little memory" $?
try "a question of a memory limit" 0 "" "s UNKNOWN" "$(printf 'p inccnf\n'; sed 1d "$work/many")\na 0\n" -q --memory 1
try "questions and a proof" 1 "<stdin>: a text with questions takes no option '--proof'" "" "$asked" --proof "$work/unasked"
try "questions and models" 1 "<stdin>: a text with questions takes no option '--models'" "" "$asked" --models 2
try "questions and assumptions" 1 "<stdin>: a text with questions takes no option '--assume'" "" "$asked" --assume 1
if is_wanted "replies to many questions that share literals are those of a table"; then
    python3 - "$gipsat" > "$work/out" 2> "$work/err" << 'END'
import itertools
import random
import subprocess
import sys
random.seed(9)
for _ in range(40):
    n = random.randint(1, 6)
    clauses, lines, wanted, assumed = [], ["p inccnf"], [], []
    for _ in range(random.randint(1, 12)):
        for _ in range(random.choice((0, 0, 1, 2, 4))):
            clauses.append([random.choice((1, -1)) * random.randint(1, n) for _ in range(3)])
            lines.append(" ".join(map(str, clauses[-1])) + " 0")
        more = [random.choice((1, -1)) * random.randint(1, n) for _ in range(random.randint(0, 2))]
        assumed = assumed[: random.randint(0, 3)] + more
        lines.append("a" + "".join(random.choice((" ", "\n")) + str(l) for l in [*assumed, 0]))
        wanted.append((list(clauses), assumed))
    ran = subprocess.run([sys.argv[1], "-q"], input="\n".join(lines) + "\n", capture_output=True, text=True)
    replies = [part.split() for part in ran.stdout.split("s ")[1:]]
    assert len(replies) == len(wanted), (lines, ran)
    for (given, assumed), (said, *values) in zip(wanted, replies):
        is_true = lambda m, l: m[abs(l) - 1] == (l > 0)
        fits = lambda m: all(any(is_true(m, l) for l in c) for c in given) and all(is_true(m, l) for l in assumed)
        if said == "SATISFIABLE":
            shown = {int(w) for w in values if w not in ("v", "0")}
            assert fits([v in shown for v in range(1, n + 1)]), (lines, ran)
        else:
            assert said == "UNSATISFIABLE" and not any(map(fits, itertools.product((False, True), repeat=n))), (lines, ran)
END
    told "replies to many questions that share literals are those of a table" $?
fi

end_rows
