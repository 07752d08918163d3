#!/usr/bin/env bash
# Runs the program into each of its faults.
# GIP is the built program: crates/gip/out/gip, which both `rt ci` and `rt run` leave. It prints a line for each
# case. The last line is 'N passed, M failed', and the status is 1 where a case failed.
set -u
# shellcheck source=tests/usage.sh
source "$(dirname "$0")/usage.sh"
take_arguments "tests/gip.sh GIP" "$@"
gip=$1
if [ ! -x "$gip" ]; then
    echo "no program $gip"
    echo "0 passed, 1 failed"
    exit 1
fi
work=$(mktemp -d) || exit 2
trap 'rm -rf "$work"' EXIT
passed=0
failed=0

# Counts a case that passed, or one that failed.
pass() {
    echo "ok: $1"
    passed=$((passed + 1))
}
fail() {
    echo "FAILED: $1"
    failed=$((failed + 1))
}

# NAME STATUS ERROR OUTPUT: the last run had this status and wrote this to standard error and output.
expect() {
    if [ "$status" = "$2" ] && [ "$(cat "$work/err")" = "$3" ] && [ "$(cat "$work/out")" = "$4" ]; then
        pass "$1"
    else
        fail "$1 (status $status, $(head -c 200 "$work/err"))"
    fi
}

# NAME STATUS ERROR OUTPUT [ARGUMENT..]: runs the program with these arguments on standard input, and expects this.
try() {
    local name=$1 wanted=$2 error=$3 output=$4
    shift 4
    "$gip" "$@" > "$work/out" 2> "$work/err"
    status=$?
    expect "$name" "$wanted" "$error" "$output"
}

# NAME LINES [ARGUMENT..]: runs the program on standard input for two seconds of a processor at most, where a tenth of one is
# usual, and expects so many lines.
try_large() {
    local name=$1 lines=$2
    shift 2
    (ulimit -t 2; exec "$gip" "$@") > "$work/out" 2> "$work/err"
    status=$?
    if [ "$status" = 0 ] && [ "$(wc -l < "$work/out")" = "$lines" ]; then
        pass "$name within 2 seconds of a processor"
    else
        fail "$name within 2 seconds of a processor (status $status)"
    fi
}

printf 'push 1\npush 16\n' > "$work/other_form"
try "the first line of another form" 2 "line 2: refused" "" < "$work/other_form"
try "an empty input" 0 "" "" < /dev/null
try "a read that fails" 2 "input: refused" "" < /
try "an input of 1048577 bytes" 2 "input: refused" "" < <(head -c 1048577 /dev/zero)
try "an input of 1048576 bytes in one line" 2 "line 1: refused" "" < <(head -c 1048576 /dev/zero)

: > "$work/out"
echo pop | "$gip" > /dev/full 2> "$work/err"
status=$?
expect "a write that fails" 1 "output: failed" ""

# Standard streams that are closed.
try "no standard input" 2 "input: refused" "" <&-
: > "$work/out"
echo pop | "$gip" >&- 2> "$work/err"
status=$?
expect "no standard output" 1 "output: failed" ""
: > "$work/err"
echo pop | "$gip" > "$work/out" 2>&-
status=$?
expect "no standard error" 0 "" none
echo other | "$gip" > "$work/out" 2>&-
status=$?
expect "no standard error, and a line of another form" 2 "" ""
"$gip" <&- >&- 2>&-
status=$?
expect "no standard stream" 2 "" ""

# The program is loaded, but has no room for its input: at which limit that is so depends on the system.
status=0
for limit in $(seq 2000 50 8000); do
    (ulimit -v "$limit" && exec "$gip" < "$work/other_form" > "$work/out" 2> "$work/err") 2> /dev/null
    status=$?
    if [ "$(cat "$work/err")" = "memory: refused" ]; then
        break
    fi
done
expect "want of memory" 1 "memory: refused" ""

for argument in other Bits '' $'\xff'; do
    try "another argument" 2 "usage: gip [bits]" "" "$argument" < "$work/other_form"
done
for argument in bits ''; do
    try "an argument more" 2 "usage: gip [bits]" "" bits "$argument" < "$work/other_form"
done
try "a beginning of an argument" 2 "usage: gip [bits]" "" bit < "$work/other_form"
try "the usage line" 0 "" "usage: gip [bits]" --help < "$work/other_form"
try "an argument behind --help" 2 "usage: gip [bits]" "" --help bits < "$work/other_form"

# A program that is found by a path that is no text.
built=$gip
gip=$work/$'\xff'/gip
mkdir "$work"/$'\xff' && cp "$built" "$gip"
try "a path that is no text" 0 "" none <<< pop
try "a path that is no text, with bits" 0 "" "1 0x1 1" bits <<< 1
try "a path that is no text, with another argument" 2 "usage: gip [bits]" "" other < "$work/other_form"
gip=$built

# Ranks that change at once.
pushes=$(printf 'rank 0 10\nrank 1 8\nrank 2 2\nrank 3 6\npush 0\npush 1\npush 2\npush 3')
replies=$(yes ok | head -n 9; printf '3\n2\n0\n1\n')
try "two ranks that change at once" 0 "" "$replies" < <(printf '%s\nranks 0 1 1 0\npop\npop\npop\npop\n' "$pushes")
for line in 'ranks' 'ranks 1' 'ranks 1 2 3'; do
    try "the line $line" 2 "line 1: refused" "" <<< "$line"
done

# Lines of bits.
try "lines of bits" 0 "" "$(printf '01101 0xd 5\n[] [] 0\n000 0x0 3')" bits < <(printf '01101\n[]\n000\n')
digits=1$(printf '0%.0s' {1..64})
try "more bits than a word has" 0 "" "$digits 0x10000000000000000 65" bits <<< "$digits"
try "the first line without bits" 2 "line 2: refused" "" bits < <(printf '0\n012\n')
try "no line of bits" 0 "" "" bits < /dev/null
try "a script as lines of bits" 2 "line 1: refused" "" bits < "$work/other_form"
try "an input of 1048577 digits" 2 "input: refused" "" bits < <(yes 1 | tr -d '\n' | head -c 1048577)

# The largest inputs: as many lines as there can be, and as many bytes of other lines.
try_large "262144 lines" 262144 < <(yes pop | head -n 262144)
if [ "$(sort -u "$work/out")" = none ]; then
    pass "each reply to them"
else
    fail "each reply to them"
fi
try_large "a largest input of rank" 116508 < <(yes 'rank 0 5' | head -n 116508)
try_large "a largest input of ranks" 95325 < <(yes 'ranks 0 50' | head -n 95325)
try_large "a largest input of mixed lines" 190650 < <(yes "$(printf 'push 3\npop')" | head -n 190650)
try_large "524288 lines of bits" 524288 bits < <(yes 1 | head -n 524288)
try_large "1048576 bits" 1 bits < <(yes 1 | tr -d '\n' | head -c 1048576)

echo "$passed passed, $failed failed"
[ "$failed" -eq 0 ]
