#!/usr/bin/env bash
# Runs the model checker's program over circuits and into its faults.
# GIPMC is the built program: crates/gipmc/out/gipmc, which both `rt ci` and `rt run` leave. It prints a line for each
# case. The last line is 'N passed, M failed', and the status is 1 where a case failed. --list tells the names of the cases,
# and --only runs those that it names, with what makes their files.
set -u
# shellcheck source=tests/usage.sh
source "$(dirname "$0")/usage.sh"
take_rows "tests/gipmc.sh GIPMC" "$@"
gipmc=$1
if [ ! -x "$gipmc" ]; then
    echo "no program $gipmc"
    echo "0 passed, 1 failed"
    exit 1
fi
top=$(cd "$(dirname "$0")/.." && pwd) || exit 2
rows=$top/tests/circuits.txt
gipmc=$(realpath "$gipmc") || exit 2
# Where rows are listed, nothing is run.
[ -z "$is_listed" ] || { gipmc=true && exec 2> /dev/null; }
work=$(mktemp -d) || exit 2
trap 'rm -rf "$work"' EXIT
cd "$work" || exit 2

# What the last run did.
seen() {
    printf 'status %s, %s, %s' "${status-}" "$(head -c 200 "$work/err")" "$(head -c 200 "$work/out")"
}

# [FILE]: what it answers, without the lines `u N` that tell before an answer how far the search is. The last one before `2`
# belongs to the answer.
answers() {
    awk '/^u/ { told = $0 "\n"; next } { if ($0 == "2") printf "%s", told; print; told = "" }' "$@"
}

# NAME STATUS ERROR OUTPUT INPUT [ARGUMENT..]: runs the program on this text, and expects this of it.
try() {
    ! is_wanted "$1" || make "$@"
}

# The same, also where this row is not wanted, since others need what it leaves.
make() {
    local name=$1 wanted=$2 error=$3 output=$4 input=$5
    shift 5
    printf '%b' "$input" | "$gipmc" "$@" > "$work/out" 2> "$work/err"
    status=$?
    [ "$status" = "$wanted" ] && [ "$(cat "$work/err")" = "$error" ] && [ "$(answers "$work/out")" = "$output" ]
    told "$name" $?
}

# A latch that holds next what the input was, and is bad; one that keeps 0; both.
held='aag 2 1 1 0 0 1\n2\n4 2\n4\n'
kept='aag 1 0 1 0 0 1\n2 2\n2\n'
two='aag 3 1 2 0 0 2\n2\n4 4\n6 2\n4\n6\n'
fails=$(printf '1\nb0\n0\n1\n0\n.')
safe=$(printf '0\nb0\n.')
open() { printf 'u%s\n2\nb0\n.' "$1"; }

try "a latch that may rise" 10 "" "$fails" "$held" --engine bmc
try "a latch that may rise, in the binary form" 10 "" "$fails" 'aig 2 1 1 0 0 1\n2\n4\n' --engine bmc
try "a latch that stays, within 100" 0 "" "$(open 100)" "$kept" --engine bmc
try "a latch that stays, within 7" 0 "" "$(open 7)" "$kept" --engine bmc --depth 7
try "a latch that stays, within 0" 0 "" "$(open 0)" "$kept" --engine bmc --depth=0
try "a latch that stays" 20 "" "$safe" "$kept"
try "a latch that stays, by IC3" 20 "" "$safe" "$kept" --engine ic3
try "a latch that may rise, by IC3" 10 "" "$fails" "$held" --engine ic3
try "a latch that stays, by induction" 20 "" "$safe" "$kept" --engine induction
try "a latch that may rise, by induction" 10 "" "$fails" "$held" --engine induction
try "a latch that stays, by states" 20 "" "$safe" "$kept" --engine states
try "a latch that may rise, by states" 10 "" "$fails" "$held" --engine states

# LATCHES: a token goes round in so many latches. Gate 1 + LATCHES is bad: it is true where the first two have one.
token() {
    local latch bad=$((2 * $1 + 2))
    printf 'aag %s 0 %s 0 1 1\n2 %s 1\n' $(($1 + 1)) "$1" $((2 * $1))
    for latch in $(seq 2 "$1"); do
        printf '%s %s\n' $((2 * latch)) $((2 * latch - 2))
    done
    printf '%s\n%s 2 4\n' $bad $bad
}
try "a token in 30 latches, by states" 20 "" "$safe" "$(token 30)\n" --engine states
try "a token in 64 latches, by states" 0 "" "$(printf '2\nb0\n.')" "$(token 64)\n" --engine states

try "no time for IC3" 0 "" "$(printf '2\nb0\n.')" "$kept" --engine ic3 -t 0
try "no memory for a search" 0 "" "$(printf '2\nb0\n.')" "$kept" --memory 0
try "a memory limit that is not reached" 20 "" "$safe" "$kept" --memory 9999999
try "a limit of conflicts is none of IC3" 20 "" "$safe" "$kept" --engine ic3 --limit 0
try "a latch that may rise, within 0" 0 "" "$(open 0)" "$held" --engine bmc --depth 0
try "no conflict is allowed" 0 "" "$(printf '2\nb0\n.')" "$held" --engine bmc --limit 0
try "simulation finds nothing" 0 "" "$(printf '2\nb0\n.')" "$kept" --engine sim
try "two bad literals" 10 "" "$(printf 'u3\n2\nb0\n.\n1\nb1\n00\n1\n0\n.')" "$two" --engine bmc --depth 3
try "the first bad literal" 0 "" "$(open 3)" "$two" --bad 0 --engine bmc --depth 3
try "the first bad literal, by all engines" 20 "" "$safe" "$two" --bad 0
try "the second bad literal" 10 "" "$(printf '1\nb1\n00\n1\n0\n.')" "$two" --bad=1 --engine bmc
try "a bad literal that is not there" 1 "<stdin>: no bad literal 2, of 2" "" "$two" --bad 2
try "no bad literal at all" 20 "c <stdin>: no bad literal" "" 'aag 1 1 0 0 0\n2\n'
# One answer for all bad literals. Of the options about a property the last one counts.
stay='aag 2 0 2 0 0 2\n2 2\n4 4\n2\n4\n'
second='aag 3 1 2 0 0 3\n2\n4 4\n6 2\n4\n6\n4\n'
rises=$(printf '1\nb1\n00\n1\n0\n.')
try "one answer, where all are safe" 20 "" "$safe" "$stay" --any
try "one answer, where the second of three fails" 10 "" "$rises" "$second" --any --engine bmc
try "one answer, by a shortest trace" 10 "" "$rises" "$second" --any --engine bmc --shortest
try "one answer, within 0" 0 "" "$(open 0)" "$second" --any --engine bmc --depth 0
try "one answer, without time" 0 "" "$(printf '2\nb0\n.')" "$second" --any -t 0
try "one answer, and then one literal" 20 "" "$safe" "$second" --any --bad 0
try "one literal, and then one answer" 10 "" "$rises" "$second" --bad 0 --any --engine bmc
try "one answer for no bad literal" 1 "<stdin>: no bad literal" "" 'aag 1 1 0 0 0\n2\n' --any
try "an output in place of a bad literal" 10 "" "$fails" 'aag 2 1 1 1 0\n2\n4 2\n4\n' --engine bmc
try "a bad literal that is true" 10 "" "$(printf '1\nb0\n\n\n.')" 'aag 0 0 0 0 0 1\n1\n' --engine bmc
try "a latch that begins at 1" 10 "" "$(printf '1\nb0\n1\n\n.')" 'aag 1 0 1 0 0 1\n2 2 1\n2\n' --engine bmc
try "a latch that begins at either value" 10 "" "$(printf '1\nb0\n1\n\n.')" 'aag 1 0 1 0 0 1\n2 2 2\n2\n' --engine bmc
try "a constraint that the last moment breaks" 0 "" "$(open 9)" \
    'aag 2 1 1 0 0 1 1\n2\n4 2\n4\n5\n' --engine bmc --depth 9
try "a constraint that the first moment breaks" 0 "" "$(open 9)" 'aag 1 0 1 0 0 1 1\n2 2\n2\n2\n' --engine bmc --depth 9
try "a constraint that the inputs meet" 10 "" "$fails" 'aag 3 1 1 0 1 1 1\n2\n4 2\n4\n7\n6 4 2\n' --engine bmc

# Status 0 whatever is answered, and that of errors as ever.
try "a latch that may rise, with status 0" 0 "" "$fails" "$held" --engine bmc --exit-zero
try "a latch that stays, with status 0" 0 "" "$safe" "$kept" --exit-zero
try "an error beside status 0" 1 "<stdin>: no bad literal 2, of 2" "" "$two" --bad 2 --exit-zero

# SymbiYosys takes an engine's word so: status 0, lines `uN`, then a line 0, 1 or 2, and behind a 1 the lines of a trace up
# to a dot.
# NAME VERDICT INPUT OPTION..: tells PASS, FAIL or UNKNOWN so of this circuit; where it fails, the trace is a counterexample,
# and where nothing is known, a line tells a depth.
play_symbiyosys() {
    local name=$1 wanted=$2 said
    is_wanted "$name" || return 0
    printf '%b' "$3" > design.aig
    "$gipmc" --any --exit-zero --depth 9 "${@:4}" design.aig > out 2> err
    status=$?
    said=$(awk 'known { if (!ended) print > "trace.aiw"; if ($0 == ".") ended = 1; next }
        /^u[0-9]+$/ { next }
        /^[012]$/ { known = 1; verdict = substr("PUF", $0 == 0 ? 1 : $0 == 2 ? 2 : 3, 1); print > "trace.aiw"; next }
        { exit }
        END { print verdict }' out)
    [ "$status" = 0 ] && [ "$said" = "${wanted:0:1}" ] &&
        { [ "$wanted" != UNKNOWN ] || [ "$(head -n 1 out)" = u9 ]; } &&
        { [ "$wanted" != FAIL ] || [ "$("$gipmc" --replay trace.aiw design.aig)" = "s VERIFIED" ]; }
    told "$name" $?
}
play_symbiyosys "an engine of SymbiYosys, where all assertions hold" PASS "$stay"
play_symbiyosys "an engine of SymbiYosys, where the second of three fails" FAIL "$second"
play_symbiyosys "an engine of SymbiYosys, where a latch may begin at 1" FAIL 'aag 1 0 1 0 0 1\n2 2 2\n2\n'
play_symbiyosys "an engine of SymbiYosys, within a depth" UNKNOWN "$stay" --engine bmc

# The properties of a circuit, each with what it and the constraints depend on.
try "a list of two bad literals" 0 "" "$(printf 'b0 latches 1 gates 0 inputs 0\nb1 latches 1 gates 0 inputs 1')" "$two" \
    --list
try "a list of a justice property" 0 "" "j0 latches 2 gates 1 inputs 0" \
    'aag 3 0 2 0 1 0 0 1\n2 3\n4 6 1\n1\n4\n6 4 3\n' --list
try "a list of an output" 0 "" "b0 latches 1 gates 0 inputs 1" 'aag 2 1 1 1 0\n2\n4 2\n4\n' --list
try "a list beside a constraint" 0 "" "b0 latches 1 gates 1 inputs 1" 'aag 3 1 1 0 1 1 1\n2\n4 4\n4\n7\n6 4 2\n' --list
try "a list of nothing" 0 "" "" 'aag 1 1 0 0 0\n2\n' --list
# shellcheck disable=SC2016
try "a list of no circuit" 1 '<stdin>:1: no header `aag` or `aig`' "" 'xyz\n' --list

# Certificates of the bad literals of a circuit, put together to one.
printf '%b' "$stay" > staying.aag
for place in 0 1; do
    "$gipmc" --engine ic3 --bad $place --certificate joins$place staying.aag > out 2> err
done
# NAME STATUS ERROR OUTPUT PART..: joins these, and expects this; a file appears where all is verified alone.
try_parts() {
    local name=$1 wanted=$2 error=$3 output=$4
    shift 4
    is_wanted "$name" || return 0
    rm -f joined
    "$gipmc" --join joined staying.aag "$@" > out 2> err
    status=$?
    [ "$status" = "$wanted" ] && [ "$(cat err)" = "$error" ] && [ "$(cat out)" = "$output" ] &&
        if [ "$wanted" = 0 ]; then [ "$("$gipmc" --certify joined staying.aag)" = "s VERIFIED" ]; else [ ! -e joined ]; fi
    told "$name" $?
}
printf 'p cnf 2 1\n1 0\n' > rising
printf 'p cnf 3 1\n-3 0\n' > wider
printf 'k 1\n' > counted
cp staying.aag drawn_part
try_parts "certificates of both bad literals" 0 "" "s VERIFIED" joins0 joins1
try_parts "certificates in another order, one of them twice" 0 "" "s VERIFIED" joins1 joins0 joins1
try_parts "a certificate that is missing" 1 "joined: b1: the clauses allow a bad moment" "s NOT VERIFIED" joins0
try_parts "no certificate" 2 \
    "gipmc: '--join' needs certificates behind the circuit (try --help)" ""
try_parts "a certificate of another circuit" 1 "rising: b0: clause 1 is false at an initial moment" "s NOT VERIFIED" \
    joins0 joins1 rising
# shellcheck disable=SC2016
try_parts "a certificate over more latches" 1 'wider:1: no header `p cnf LATCHES CLAUSES` that says what follows' "" \
    joins0 wider
try_parts "a certificate with a k" 1 \
    "counted: no part, since it has a k or is a circuit ('--engine ic3' finds clauses alone)" "" joins0 counted
try_parts "a certificate that is a circuit" 1 \
    "drawn_part: no part, since it has a k or is a circuit ('--engine ic3' finds clauses alone)" "" drawn_part
try_parts "a certificate that is not there" 1 "none: no such file" "" joins0 none
cp joins0 stands
try "a joined certificate whose name is taken" 1 "stands: cannot be made: entity already exists" "" "" \
    --join stands staying.aag joins0
# shellcheck disable=SC2016
try "no circuit to join for" 1 '<stdin>:1: no header `aag` or `aig`' "" "" --join joined - joins0

# Simulation: what it finds is a trace.
printf '%b' "$held" > held.aag
"$gipmc" --engine sim --seed 3 held.aag > sim.wit 2> err
status=$?
[ "$status" = 10 ] && [ "$("$gipmc" --replay sim.wit held.aag)" = "s VERIFIED" ]
told "a trace by simulation" $?
"$gipmc" held.aag > both.wit 2> err
status=$?
[ "$status" = 10 ] && [ "$("$gipmc" --replay both.wit held.aag)" = "s VERIFIED" ]
told "a trace by all engines" $?

# A latch that rises unless ten inputs are all true. The seed draws their values.
{
    echo 'aag 20 10 1 0 9 1'
    seq 2 2 20
    printf '22 41\n22\n24 4 2\n'
    for gate in $(seq 26 2 40); do echo "$gate $((gate - 2)) $((gate - 20))"; done
} > drawn.aag
for seed in 1 2; do
    "$gipmc" --seed "$seed" drawn.aag > "seed$seed" 2> err
done
"$gipmc" --seed 1 drawn.aag > again 2> err
status=$?
[ "$status" = 10 ] && cmp -s seed1 again && ! cmp -s seed1 seed2 && [ "$("$gipmc" --replay seed2 drawn.aag)" = "s VERIFIED" ]
told "a trace of another seed" $?

printf '%b' 'aag 4 1 2 0 1 1\n2\n4 2\n6 8\n6\n8 4 2\n' > twice.aag
"$gipmc" --engine sim twice.aag > sim.wit 2> err
status=$?
moments=$(($(wc -l < sim.wit) - 4))
early=0
for ((n = 1; n < moments; n++)); do
    { head -n $((n + 3)) sim.wit; echo .; } > cut.wit
    [ "$("$gipmc" --replay cut.wit twice.aag 2> err)" = "s NOT VERIFIED" ] || early=$((early + 1))
done
[ "$status" = 10 ] && [ "$moments" -gt 2 ] && [ "$early" = 0 ]
told "a trace by simulation fails at its last moment alone" $?

# A latch that holds next whether twelve inputs are true. Few runs come to it at once.
{
    printf 'aag 24 12 1 0 11 1\n'
    for ((n = 1; n <= 12; n++)); do echo $((2 * n)); done
    printf '26 48\n26\n28 2 4\n'
    for ((n = 15; n <= 24; n++)); do echo "$((2 * n)) $((2 * n - 2)) $((2 * n - 24))"; done
} > wide.aag
"$gipmc" --engine sim wide.aag > sim.wit 2> err
status=$?
[ "$status" = 10 ] && [ "$(wc -l < sim.wit)" -gt 6 ]
told "a trace by simulation that is not a shortest one" $?
"$gipmc" --engine sim --shortest wide.aag > out 2> err
status=$?
[ "$status" = 10 ] && [ ! -s err ] && [ "$(answers out | wc -l)" = 6 ] && [ "$("$gipmc" --replay out wide.aag)" = "s VERIFIED" ]
told "a shortest trace in place of one by simulation" $?
"$gipmc" --engine sim --shortest --limit 0 wide.aag > out 2> err
status=$?
[ "$status" = 10 ] && [ "$(cat err)" = "c b0: there may be a shorter trace" ] && cmp -s out sim.wit
told "a trace that may not be a shortest one" $?
try "a shortest trace of one moment" 10 "" "$(printf '1\nb0\n1\n\n.')" 'aag 1 0 1 0 0 1\n2 2 1\n2\n' --shortest
try "a shortest trace where nothing fails" 20 "" "$safe" "$kept" --shortest

# A counter of N bits goes on where one of two inputs is true, beside a register of W bits that are mixed with a third
# input. It is bad where the counter is at T, and three bits of the register are what they rarely are.
deep() {
    awk -v n="$1" -v w="$2" -v t="$3" '
    function and(a, b) { m++; gates[++count] = 2 * m " " a " " b; return 2 * m }
    function not(a) { return a % 2 ? a - 1 : a + 1 }
    function xor(a, b) { return and(not(and(a, b)), not(and(not(a), not(b)))) }
    BEGIN {
        m = 3 + n + w
        carry = not(and(3, 5))
        bad = 1
        for (i = 0; i < n; i++) {
            q = 2 * (4 + i)
            rows[i] = q " " xor(q, carry)
            carry = and(q, carry)
            bad = and(bad, int(t / 2 ^ i) % 2 ? q : not(q))
        }
        r = 2 * (4 + n)
        for (i = 0; i < w; i++) {
            before = i ? r + 2 * (i - 1) : xor(r + 2 * (w - 1), 6)
            mixed = and(r + 2 * ((7 * i + 3) % w), not(r + 2 * ((5 * i + 1) % w)))
            rows[n + i] = r + 2 * i " " xor(before, mixed) " " i % 2
        }
        bad = and(and(bad, r), and(r + 2 * int(w / 2), not(r + 2 * (w - 1))))
        print "aag", m, 3, n + w, 0, count, 1 "\n2\n4\n6"
        for (i = 0; i < n + w; i++) print rows[i]
        print bad
        for (i = 1; i <= count; i++) print gates[i]
    }'
}

# The first rounds of simulation have 256 moments. Beside other engines longer ones follow.
deep 9 24 267 > deep.aag
"$gipmc" --engine sim deep.aag > out 2> err
status=$?
[ "$status" = 0 ] && [ "$(cat out)" = "$(printf '2\nb0\n.')" ]
told "a bug behind the first rounds of simulation" $?
if is_wanted "simulation goes on beside the other engines"; then
    "$gipmc" --stats deep.aag > sim.wit 2> err
    status=$?
    [ "$status" = 10 ] && grep -q '^c b0: round [0-9].* decided by sim; ' err && [ "$(answers sim.wit | wc -l)" -gt 267 ] &&
        [ "$("$gipmc" --replay sim.wit deep.aag)" = "s VERIFIED" ]
    told "simulation goes on beside the other engines" $?
fi
# Latch 40 is true once the input was true at 40 moments in turn, which is rare where each has chance 1/2.
{
    printf 'aag 80 1 40 0 39 1\n2\n4 2\n'
    for ((n = 2; n <= 40; n++)); do echo "$((2 * n + 2)) $((2 * n + 80))"; done
    echo 82
    for ((n = 2; n <= 40; n++)); do echo "$((2 * n + 80)) $((2 * n)) 2"; done
} > run.aag
"$gipmc" --engine sim run.aag > sim.wit 2> err
status=$?
[ "$status" = 10 ] && [ "$("$gipmc" --replay sim.wit run.aag)" = "s VERIFIED" ]
told "simulation by inputs that are mostly true or held" $?
# A constraint wants that the input is what a latch is, which changes at each moment. It is bad behind 40 of them.
{
    printf 'aag 45 1 41 0 3 1 1\n2\n4 5\n6 1\n'
    for ((n = 2; n <= 40; n++)); do echo "$((2 * n + 4)) $((2 * n + 2))"; done
    printf '84\n91\n86 2 4\n88 3 5\n90 87 89\n'
} > told.aag
"$gipmc" --engine sim told.aag > sim.wit 2> err
status=$?
[ "$status" = 10 ] && [ "$("$gipmc" --replay sim.wit told.aag)" = "s VERIFIED" ]
told "inputs that a constraint forbids are drawn again" $?

# A latch that holds whether two products of numbers of N bits differ, whose factors are exchanged.
products() {
    awk -v n="$1" '
    function and(a, b) { m++; gates[++count] = 2 * m " " a " " b; return 2 * m }
    function not(a) { return a % 2 ? a - 1 : a + 1 }
    function either(a, b) { return not(and(not(a), not(b))) }
    function xor(a, b) { return and(not(and(a, b)), either(a, b)) }
    function multiply(c, x, y,    i, j, p, s, carry) {
        for (i = 0; i < 2 * n; i++) made[c, i] = 0
        for (j = 0; j < n; j++) {
            carry = 0
            for (i = 0; i < n; i++) {
                p = and(x + 2 * i, y + 2 * j)
                s = xor(made[c, i + j], p)
                p = either(and(made[c, i + j], p), and(s, carry))
                made[c, i + j] = xor(s, carry)
                carry = p
            }
            made[c, n + j] = carry
        }
    }
    BEGIN {
        m = 2 * n + 1
        multiply(0, 2, 2 + 2 * n)
        multiply(1, 2 + 2 * n, 2)
        for (i = 0; i < 2 * n; i++) differ = either(differ + 0, xor(made[0, i], made[1, i]))
        print "aag", m, 2 * n, 1, 0, count, 1
        for (i = 1; i <= 2 * n; i++) print 2 * i
        print 4 * n + 2 " " differ
        print 4 * n + 2
        for (i = 1; i <= count; i++) print gates[i]
    }'
}

# Latches that stay, each with a bad literal: a moment has much work and no gate, and each is decided with the others.
if is_wanted "ten thousand latches that stay, each with a bad literal"; then
    {
        echo "aag 10000 0 10000 0 0 10000"
        seq 2 2 20000 | sed 's/.*/& &/'
        seq 2 2 20000
    } > stay.aag
    (ulimit -t 20; exec "$gipmc" --quiet stay.aag) > out 2> err
    status=$?
    [ "$status" = 20 ] && [ ! -s err ] && [ "$(grep -c '^0$' out)" = 10000 ]
    told "ten thousand latches that stay, each with a bad literal" $?
    rm stay.aag
fi

# One question about them takes minutes. It may take ten seconds of the processor here until all is told.
products 11 > products.aag
for engine in ic3 bmc induction all; do
    is_wanted "the time is over within a question: $engine" || continue
    words=(--engine "$engine")
    [ "$engine" = all ] && words=()
    (ulimit -t 10; exec timeout -s KILL 100 "$gipmc" --quiet "${words[@]}" -t 1 products.aag) > out 2> err
    status=$?
    [ "$status" = 0 ] && [ ! -s err ] && [ "$(tail -n 3 out)" = "$(printf '2\nb0\n.')" ]
    told "the time is over within a question: $engine" $?
done

# A latch that holds what the input was, and a chain of gates each of which is true where both are; the last one is bad, and
# with `1` its negation is a constraint. A question makes its formula in parts.
long_chain() {
    local gates=300000
    printf 'aig %s 1 1 0 %s 1%s\n2\n%s\n%s' $((gates + 2)) "$gates" "${1:+ 1}" $((2 * gates + 4)) "${1:+$((2 * gates + 5))$'\n'}"
    head -c $((2 * gates)) /dev/zero | tr '\0' '\2'
}
if is_wanted "a formula in parts, by bmc" "a formula in parts, by bmc with a limit" "a constraint in parts, by bmc" \
    "a constraint in parts, by induction"; then
    long_chain > chain.aig
    "$gipmc" --engine bmc chain.aig > out 2> err
    status=$?
    [ "$status" = 10 ] && [ ! -s err ] && [ "$(answers out)" = "$(printf '1\nb0\n0\n1\n1\n.')" ]
    told "a formula in parts, by bmc" $?
    "$gipmc" --engine bmc --limit 1 chain.aig > out 2> err
    status=$?
    [ "$status" = 10 ] && [ ! -s err ] && [ "$(answers out)" = "$(printf '1\nb0\n0\n1\n1\n.')" ]
    told "a formula in parts, by bmc with a limit" $?
    long_chain 1 > chain.aig
    "$gipmc" --engine bmc --depth 3 chain.aig > out 2> err
    status=$?
    [ "$status" = 0 ] && [ ! -s err ] && [ "$(answers out)" = "$(open 3)" ]
    told "a constraint in parts, by bmc" $?
    "$gipmc" --engine induction chain.aig > out 2> err
    status=$?
    [ "$status" = 20 ] && [ ! -s err ] && [ "$(answers out)" = "$safe" ]
    told "a constraint in parts, by induction" $?
    rm chain.aig
fi

# Two copies of a machine with N latches, whose next values are mixed; it is bad if they differ in the last latch.
twins() {
    awk -v n="$1" '
    function random(k) { seed = (seed * 1103515245 + 12345) % 2147483648; return int(seed / 256) % k }
    function and(a, b) { m++; gates[++count] = 2 * m " " a " " b; return 2 * m }
    function not(a) { return a % 2 ? a - 1 : a + 1 }
    function xor(a, b) { return and(not(and(a, b)), not(and(not(a), not(b)))) }
    BEGIN {
        seed = 1
        for (i = 0; i < n; i++) for (j = 0; j < 4; j++) from[i, j] = random(n)
        m = 2 + 2 * n
        for (c = 0; c < 2; c++) for (i = 0; i < n; i++) {
            l = 2 * (3 + c * n)
            mixed = xor(and(l + 2 * from[i, 0], l + 2 * from[i, 1]), and(l + 2 * from[i, 2] + 1, l + 2 * from[i, 3]))
            mixed = xor(l + 2 * i, mixed)
            mixed = xor(mixed, and(i % 2 ? 2 : 4, l + 2 * ((i + 1) % n) + 1))
            next_of[c * n + i] = l + 2 * i " " mixed
        }
        bad = xor(2 * (2 + n), 2 * (2 + 2 * n))
        print "aag", m, 2, 2 * n, 0, count, 1 "\n2\n4"
        for (i = 0; i < 2 * n; i++) print next_of[i]
        print bad
        for (i = 1; i <= count; i++) print gates[i]
    }'
}

# They are merged, latch by latch, in a search that takes long; without that it is open for long.
merges="two copies of a machine, merged"
if is_wanted "$merges" "$merges beside clauses" "$merges beside a circuit" "$merges for a later literal" "$merges, unordered"; then
    twins 16 > twins.aag
    "$gipmc" --quiet -t 60 twins.aag > out 2> err
    status=$?
    [ "$status" = 20 ] && [ ! -s err ] && [ "$(cat out)" = "$safe" ]
    told "$merges" $?
    # OPTION..: whether the answer is the same with these options and a certificate, and that is verified.
    is_certified() {
        rm -f twins.cert
        "$gipmc" --quiet -t 60 --certificate twins.cert "$@" twins.aag > out 2> err
        status=$?
        [ "$status" = 20 ] && [ ! -s err ] && [ "$(cat out)" = "$safe" ] &&
            [ "$("$gipmc" --certify twins.cert twins.aag)" = "s VERIFIED" ]
    }
    is_certified
    told "$merges beside clauses" $?
    is_certified --aiger
    told "$merges beside a circuit" $?
    # Before it stand a literal that is never true, and an input.
    sed '1s/1$/3/; 36i 0\n2' twins.aag > third.aag
    # OPTION..: whether the last two literals are answered as they are, with these options.
    is_third() {
        "$gipmc" --quiet -t 60 "$@" third.aag > out 2> err
        status=$?
        [ "$status" = 10 ] && [ ! -s err ] && [ "$(grep -A 1 '^0$' out | grep '^b' | sort | tr '\n' ' ')" = "b0 b2 " ] &&
            [ "$(grep -A 1 '^1$' out | grep '^b')" = b1 ]
    }
    is_third
    told "$merges for a later literal" $?
    is_third --unordered
    told "$merges, unordered" $?
fi

# Witnesses of other programs.
witness() { printf '%b' "$1" > wit; }
witness '1\nb0\n0\n1\n0\n.\n'
try "a witness" 0 "" "s VERIFIED" "$held" --replay wit
try "a witness, and the circuit's file named" 0 "" "s VERIFIED" "" --replay=wit held.aag
try "a witness from standard input" 0 "" "s VERIFIED" '1\nb0\n0\n1\n0\n.\n' --replay - held.aag
witness '1\nb0\n0\n1\n.\n'
try "a witness that ends too early" 1 \
    "wit: witness 1, b0: the bad literal is false at the last moment, 0" "s NOT VERIFIED" "$held" --replay wit
witness '1\nb0\n1\n0\n.\n'
try "a witness that begins elsewhere" 1 \
    "wit: witness 1, b0: latch 0 does not begin at its reset" "s NOT VERIFIED" "$held" --replay wit
witness '1\nb0\n0\n1\n0\n.\n'
try "a witness that breaks a constraint" 1 "wit: witness 1, b0: constraint 1 is false at moment 1" "s NOT VERIFIED" \
    'aag 2 1 1 0 0 1 2\n2\n4 2\n4\n1\n5\n' --replay wit
witness '1\nb0\n0\n.\n'
try "a witness without a moment" 1 "wit: witness 1, b0: no moment" "s NOT VERIFIED" "$held" --replay wit
try "a witness from standard input that is none" 1 "<stdin>: witness 1, b0: no moment" "s NOT VERIFIED" \
    '1\nb0\n0\n.\n' --replay - held.aag
witness '1\nb3\n0\n1\n0\n.\n'
try "a witness of a literal that is not there" 1 \
    "wit:2: it names bad literal 3, and the circuit has 1" "" "$held" --replay wit
try "a witness of a literal that is not there, from standard input" 1 \
    "<stdin>:2: it names bad literal 3, and the circuit has 1" "" '1\nb3\n0\n1\n0\n.\n' --replay - held.aag
try "a witness, and a literal that is not there" 1 "<stdin>: no bad literal 7, of 1" "" "$held" --replay wit --bad 7
try "a witness, and no bad literal at all" 1 "<stdin>: no bad literal" "" 'aag 1 1 0 0 0\n2\n' --replay wit
witness '1\nb1\n00\n1\n0\n.\n'
try "a witness of the literal that is asked for" 0 "" "s VERIFIED" "$two" --replay wit --bad 1
try "a witness of another literal than is asked for" 1 \
    "wit: no witness of bad literal 0, which '--bad' asks for" "" "$two" --replay wit --bad 0
witness '2\nb0\n.\n'
try "no witness" 1 "wit: no witness" "" "$held" --replay wit
witness 'unsat\n3\nb0\n.\n'
# shellcheck disable=SC2016
try "a text that is no answer" 1 'wit:2: no line `1`, with which a witness begins' "" "$held" --replay wit
witness '1\nb0\n00\n1\n.\n'
try "a witness with a value too many" 1 \
    "wit:3: more or fewer values than the circuit has latches or inputs" "" "$held" --replay wit

# All witnesses of a text: between other answers, of several literals, and with values that do not matter.
both='aag 3 1 2 0 0 2\n2\n4 2\n6 2\n4\n6\n'
witness 'u0\n2\nb0\n.\n1\nb1\n00\n1\nx\n.\n0\nb2\n.\nc b1\nc #0 i0 = 1\n'
try "a witness between other answers" 0 "" "s VERIFIED" "$two" --replay wit
witness '1\nb1\n00\n1\n0\n.\n1\nb1\n00\n0\n1\n.\n'
try "the second of two witnesses" 1 \
    "wit: witness 2, b1: the bad literal is false at the last moment, 1" "s NOT VERIFIED" "$two" --replay wit
witness '1\nb0b1\nxx\n1\nx\n.\n'
try "a witness of two literals" 0 "" "s VERIFIED" "$both" --replay wit
try "a witness of two literals, asked for one" 0 "" "s VERIFIED" "$both" --replay wit --bad 1
try "a witness of two literals, one of which stays" 1 \
    "wit: witness 1, b0: the bad literal is false at the last moment, 1" "s NOT VERIFIED" "$two" --replay wit
try "a witness of two literals, asked for the one that rises" 0 "" "s VERIFIED" "$two" --replay wit --bad 1
printf '%b' "$two" > two.aag
"$gipmc" two.aag > answers 2> err
try "what the program has written" 0 "" "s VERIFIED" "" --replay answers two.aag

# A trace as abc 1.01 writes it by write_cex -a.
witness '0\n1\n0# DONE\n'
try "a trace of abc" 0 "" "s VERIFIED" "$held" --replay wit
witness '00\n1\n0# DONE\n'
try "a trace of abc, of the literal that is asked for" 0 "" "s VERIFIED" "$two" --replay wit --bad 1
try "a trace of abc stands for the first literal" 1 \
    "wit: witness 1, b0: the bad literal is false at the last moment, 1" "s NOT VERIFIED" "$two" --replay wit
if command -v berkeley-abc > path; then
    printf 'aig 2 1 1 1 0\n2\n4\n' > held.aig
    berkeley-abc -c "read_aiger held.aig; bmc3 -F 10; write_cex -a cex" > out 2>&1
    try "a trace that abc has written" 0 "" "s VERIFIED" "" --replay cex held.aig
else
    echo "left out: a trace that abc has written (no berkeley-abc)"
fi

# Certificates of other programs that are clauses.
invariant() { printf '%b' "$1" > inv; }
invariant 'p cnf 1 1\n-1 0\n'
try "an invariant" 0 "" "s VERIFIED" "$kept" --certify inv
try "an invariant that does not stay" 1 \
    "inv: b0: clause 1 is not kept by a transition" "s NOT VERIFIED" "$held" --certify inv
invariant 'p cnf 1 2\n1 -1 0\n1 0\n'
try "an invariant that does not begin" 1 \
    "inv: b0: clause 2 is false at an initial moment" "s NOT VERIFIED" "$kept" --certify inv
invariant 'p cnf 1 0\n'
try "an invariant that allows a bad moment" 1 \
    "inv: b0: the clauses allow a bad moment" "s NOT VERIFIED" "$kept" --certify inv
invariant 'p cnf 1 1\n-1 0\n'
try "an invariant, and a question that is left open" 1 \
    "inv: b0: a question was left open at the limit" "s NOT VERIFIED" "$kept" --certify inv --limit 0
invariant 'p cnf 2 1\n-1 0\n'
try "an invariant of one bad literal, asked about it" 0 "" "s VERIFIED" "$two" --certify inv --bad 0
try "an invariant of one bad literal, asked about both" 1 \
    "inv: b1: the clauses allow a bad moment" "s NOT VERIFIED" "$two" --certify inv
try "an invariant, and a literal that is not there" 1 "<stdin>: no bad literal 9, of 2" "" "$two" --certify inv --bad 9
invariant 'p cnf 0 0\n'
try "an invariant, and no bad literal at all" 1 "<stdin>: no bad literal" "" 'aag 1 1 0 0 0\n2\n' --certify inv
invariant 'p cnf 9 1\n-1 0\n'
# shellcheck disable=SC2016
try "an invariant of another circuit" 1 \
    'inv:1: no header `p cnf LATCHES CLAUSES` that says what follows' "" "$kept" --certify inv

# Certificates that are a number k, or that and clauses.
invariant 'k 1\n'
try "a latch that stays is 1-inductive" 0 "" "s VERIFIED" "$kept" --certify inv
try "a latch that may rise is not 1-inductive" 1 \
    "inv: b0: not 1-inductive: a path of 1 transition ends where it is true for the first time" "s NOT VERIFIED" \
    "$held" --certify inv
try "a number k, and a question that is left open" 1 \
    "inv: b0: whether it is 1-inductive was left open at the limit" "s NOT VERIFIED" "$kept" --certify inv --limit 0
try "a number k of the first of two literals" 0 "" "s VERIFIED" "$two" --certify inv --bad 0
try "a number k of one of two literals" 1 \
    "inv: b1: not 1-inductive: a path of 1 transition ends where it is true for the first time" "s NOT VERIFIED" \
    "$two" --certify inv
invariant 'k 0\n'
try "a latch that stays is not 0-inductive" 1 \
    "inv: b0: not 0-inductive: a path of 0 transitions ends where it is true for the first time" "s NOT VERIFIED" \
    "$kept" --certify inv
invariant 'k 9\n'
try "a base case that fails" 1 \
    "inv: b0: not 9-inductive: a trace of 1 transition ends where it is true" "s NOT VERIFIED" "$held" --certify inv
# b0 is excluded by clauses and not 1-inductive, and b1 the other way round.
invariant 'k 1\np cnf 3 2\n-1 0\n-2 0\n'
either='aag 3 0 3 0 0 2\n2 2\n4 2\n6 6\n4\n6\n'
try "a number k beside clauses" 0 "" "s VERIFIED" "$either" --certify inv
invariant 'p cnf 3 2\n-1 0\n-2 0\n'
try "the clauses without the number k" 1 "inv: b1: the clauses allow a bad moment" "s NOT VERIFIED" "$either" --certify inv
invariant 'k 1\n'
try "the number k without the clauses" 1 \
    "inv: b0: not 1-inductive: a path of 1 transition ends where it is true for the first time" "s NOT VERIFIED" \
    "$either" --certify inv
invariant 'k 0\np cnf 1 1\n-1 0\n'
try "a number k beside clauses that are kept by no transition" 1 \
    "inv: b0: clause 1 is not kept by a transition; not 0-inductive: a path of 0 transitions ends where it is true for the \
first time" "s NOT VERIFIED" "$held" --certify inv
# shellcheck disable=SC2016
invariant 'k 1\np cnf 9 0\n'
# shellcheck disable=SC2016
try "a number k beside clauses of another circuit" 1 \
    'inv:2: no header `p cnf LATCHES CLAUSES` that says what follows' "" "$kept" --certify inv
invariant 'k\n'
# shellcheck disable=SC2016
try "a line that names no k" 1 'inv:1: no header `p cnf LATCHES CLAUSES` that says what follows' "" "$kept" --certify inv

# Certificates that are circuits: with the same latches, whose bad literal is false where the invariant holds.
printf '%b' 'aag 1 0 1 0 0 1\n2 2\n2\n' > cert.aag
try "a circuit that certifies" 0 "" "s VERIFIED" "$kept" --certify cert.aag
printf '%b' 'aag 1 0 1 1 0\n2 2\n2\n' > cert.aag
try "a circuit that certifies, by its output" 0 "" "s VERIFIED" "$kept" --certify cert.aag
printf '%b' 'aag 1 0 1 0 0 1\n2 2\n3\n' > cert.aag
try "a circuit that excludes all initial states" 1 \
    "cert.aag: b0: clause 1 is false at an initial moment" "s NOT VERIFIED" "$kept" --certify cert.aag
printf '%b' 'aag 1 0 1 0 0 1\n2 2\n0\n' > cert.aag
try "a circuit that excludes nothing" 1 \
    "cert.aag: b0: the clauses allow a bad moment" "s NOT VERIFIED" "$kept" --certify cert.aag
printf '%b' 'aag 2 0 2 0 0 1\n2 2\n4 4\n2\n' > cert.aag
try "a circuit of more latches" 0 "" "s VERIFIED" "$kept" --certify cert.aag
printf '%b' 'aag 3 0 3 0 0 1\n2 2\n4 4 6\n6 6 4\n2\n' > cert.aag
try "a circuit of resets in a circle" 1 \
    "cert.aag: a reset that depends on itself, or a name \`= n\` that does not fit" "" "$kept" --certify cert.aag
printf '%b' 'aag 2 0 2 0 0 1\n2 2\n4 4\n4\nl1 = 2\n' > cert.aag
try "a circuit whose second latch is the first one" 0 "" "s VERIFIED" "$kept" --certify cert.aag
printf '%b' 'aag 1 0 1 0 0 1\n2 2\n' > cert.aag
try "a circuit that ends too early" 1 "cert.aag:3: not a number" "" "$kept" --certify cert.aag

# Certificates that are written, and checked again. The answer is written first.
printf '%b' "$two" > two.aag
rm -f cert
"$gipmc" --bad 0 --certificate cert two.aag > out 2> err
status=$?
[ "$status" = 20 ] && [ "$(answers out)" = "$safe" ] && [ ! -s err ] &&
    [ "$("$gipmc" --certify cert --bad 0 two.aag)" = "s VERIFIED" ]
told "a certificate that is written" $?
[ "$("$gipmc" --certify cert two.aag 2> err)" = "s NOT VERIFIED" ]
told "a certificate of the first literal is none of both" $?
rm -f circuit
make "no circuit of a k" 1 "circuit: not written, since '--engine induction' finds a k, and a k has no circuit" "" "$kept" \
    --engine induction --certificate circuit --aiger
[ ! -e circuit ]
told "no file of such a circuit" $?
"$gipmc" --bad 0 --certificate circuit --aiger two.aag > out 2> err
status=$?
[ "$status" = 20 ] && [ "$(answers out)" = "$safe" ] && [ ! -s err ] && [ "$(head -c 4 circuit)" = "aag " ] &&
    [ "$("$gipmc" --certify circuit --bad 0 two.aag)" = "s VERIFIED" ]
told "a certificate that is written as a circuit" $?
[ "$("$gipmc" --certify circuit two.aag 2> err)" = "s NOT VERIFIED" ]
told "a certificate as a circuit of the first literal is none of both" $?
cp cert kept
make "a certificate, and a file that is there" 1 \
    "cert: cannot be made: entity already exists" "" "" --bad 0 --certificate cert two.aag
cmp -s cert kept
told "a file that is there is left" $?
rm cert
ln -s nowhere cert
make "a certificate, and a link to nothing" 1 \
    "cert: cannot be made: entity already exists" "" "" --bad 0 --certificate cert two.aag
[ -L cert ] && [ ! -e nowhere ]
told "a link to nothing is left" $?
rm cert
try "a certificate in no folder" 1 \
    "none/cert: cannot be made: no such file" "" "" --bad 0 --certificate none/cert two.aag
if [ "$(id -u)" != 0 ]; then
    mkdir locked
    chmod a-w locked
    try "a certificate in a folder that may not be written" 1 \
        "locked/cert: cannot be made: permission denied" "" "" --bad 0 --certificate locked/cert two.aag
fi
out=$(trap '' XFSZ; ulimit -f 0; exec "$gipmc" --bad 0 --certificate cert two.aag 2>&1)
status=$?
[ "$status" = 1 ] && [ "$(answers <<< "$out")" = "$safe"$'\n'"cert: cannot be written: file too large" ] && [ ! -e cert ]
told "a certificate that cannot be written, behind the answer" $?
if [ -e /dev/full ]; then
    "$gipmc" --bad 0 --certificate cert two.aag > /dev/full 2> err
    status=$?
    [ "$status" = 1 ] && [ "$(cat err)" = "<stdout>: cannot be written: no space left" ] &&
        [ "$("$gipmc" --certify cert --bad 0 two.aag)" = "s VERIFIED" ]
    told "a certificate where the answer cannot be written" $?
    rm -f cert
    printf '%b' 'aag 3 1 2 0 0 2\n2\n4 4\n6 2\n6\n4\n' > swapped.aag
    timeout -s KILL 20 "$gipmc" --engine bmc --depth 999999999 swapped.aag > /dev/full 2> err
    status=$?
    [ "$status" = 1 ] && [ "$(cat err)" = "<stdout>: cannot be written: no space left" ]
    told "an answer that cannot be written ends the search" $?
    printf '%b' "$kept" > kept.aag
    timeout -s KILL 60 "$gipmc" --engine bmc --depth 999999999 kept.aag > /dev/full 2> err
    status=$?
    [ "$status" = 1 ] && [ "$(cat err)" = "<stdout>: cannot be written: no space left" ]
    told "a line of progress that cannot be written ends the search" $?
fi
printf '%b' "$kept" > kept.aag
timeout -s KILL 60 "$gipmc" --engine bmc --depth 999999999 --stats kept.aag 2> err | head -n 1 > out
status=${PIPESTATUS[0]}
[ "$status" = 1 ] && [ "$(cat out)" = u0 ] && [ "$(tail -n 1 err)" = "<stdout>: cannot be written: broken pipe" ] &&
    [ "$(grep -c '^c b0: ' err)" = 1 ]
told "a reader that leaves ends the search" $?
"$gipmc" --certificate cert two.aag > out 2> err
status=$?
[ "$status" = 10 ] && [ ! -e cert ] && [ ! -s err ]
told "no certificate of a circuit that fails" $?
"$gipmc" --engine bmc --depth 3 --bad 0 --certificate cert two.aag > out 2> err
status=$?
[ "$status" = 0 ] && [ "$(answers out)" = "$(open 3)" ] && [ ! -e cert ] && [ ! -s err ]
told "no certificate where the answer is open" $?
make "no certificate of a literal that is not there" 1 \
    "two.aag: no bad literal 2, of 2" "" "" --bad 2 --certificate cert two.aag
[ ! -e cert ]
told "no file is left where nothing is answered" $?
printf '%b' 'aag 1 1 0 0 0\n2\n' > none.aag
"$gipmc" --certificate cert none.aag > out 2> err
status=$?
[ "$status" = 1 ] && [ ! -s out ] && [ ! -e cert ] &&
    grep -qx "cert: not written, since the circuit has no bad literal" err
told "no certificate where there is no bad literal" $?
rm none.aag
"$gipmc" --certificate ./- --bad 0 two.aag > out 2> err
status=$?
[ "$status" = 20 ] && [ "$("$gipmc" --certify ./- --bad 0 two.aag)" = "s VERIFIED" ]
told "a certificate in a file of the name of a minus" $?
printf '%b' 'aag 2 0 2 0 0 2\n2 2\n4 4\n2\n4\n' > both.aag
"$gipmc" --engine ic3 --certificate cert both.aag > out 2> err
status=$?
[ "$status" = 20 ] && [ "$("$gipmc" --certify cert both.aag)" = "s VERIFIED" ] &&
    [ "$("$gipmc" --certify cert --bad 1 both.aag)" = "s VERIFIED" ]
told "a certificate of two literals" $?
rm -f cert

# A certificate appears when it is whole, and what came there meanwhile stays.
endless=(--engine bmc --depth 999999999)
printf '%b' "$kept" > kept.aag
rm -f cert
if is_wanted "a certificate has no name while it is searched for" "no certificate where the time is over"; then
    "$gipmc" "${endless[@]}" -t 2 --certificate cert kept.aag > out 2> err &
    await has_lines '^u' out 1 && [ ! -e cert ]
    told "a certificate has no name while it is searched for" $?
    wait $!
    status=$?
    [ "$status" = 0 ] && [ ! -e cert ] && [ ! -s err ]
    told "no certificate where the time is over" $?
fi
# Standard output is a pipe that is full, so the certificate waits behind the answer. The other file comes when the program
# is writing that.
if is_wanted "a file that came meanwhile stays"; then
    rm -f pid
    is_writing() {
        grep -q '^1 0x1 ' "/proc/$(cat pid)/syscall"
    }
    {
        head -c 65536 /dev/zero
        echo "$BASHPID" > pid
        exec "$gipmc" --bad 0 --certificate cert two.aag 2> err
    } | {
        await is_writing
        echo precious > cert
        tr -d '\0' > out
    }
    status=${PIPESTATUS[0]}
    [ "$status" = 1 ] && [ "$(answers out)" = "$safe" ] && [ "$(cat cert)" = precious ] &&
        [ "$(cat err)" = "cert: another file came there meanwhile (see $(ls cert.*.part))" ] &&
        [ "$("$gipmc" --certify "$(ls cert.*.part)" --bad 0 two.aag)" = "s VERIFIED" ]
    told "a file that came meanwhile stays" $?
    rm -f cert cert.*.part
fi
try "a certificate of an empty name" 1 ": cannot be made: no such file" "" "" --certificate "" two.aag
if is_wanted "a run that is killed leaves no file"; then
    "$gipmc" "${endless[@]}" --certificate killed kept.aag > out 2> err &
    await has_lines '^u' out 1
    is_begun=$?
    kill -KILL $!
    wait $! 2> /dev/null
    [ "$is_begun" = 0 ] && [ -z "$(ls killed* 2> /dev/null)" ]
    told "a run that is killed leaves no file" $?
fi

# Answers are written as they are found, also where a later one is not: for want of time, or of memory.
printf '%b' 'aag 3 1 2 0 0 2\n2\n4 4\n6 2\n6\n4\n' > swapped.aag
first=$(printf '1\nb0\n00\n1\n0\n.')
if is_wanted "an answer is written when it is found"; then
    "$gipmc" "${endless[@]}" swapped.aag > out 2> err &
    is_first() {
        [ "$(answers out)" = "$first" ]
    }
    await is_first
    told "an answer is written when it is found" $?
    kill -KILL $!
    wait $! 2> /dev/null
fi
if is_wanted "an answer before the time is over"; then
    SECONDS=0
    "$gipmc" "${endless[@]}" --time 1 swapped.aag > out 2> err
    status=$?
    [ "$status" = 10 ] && [ "$SECONDS" -lt 20 ] && [ "$(answers out | head -n 6)" = "$first" ] && [ ! -s err ] &&
        [ "$(answers out | sed 1,6d | tr '\n' '#' | sed 's/u[0-9]*/u/')" = 'u#2#b1#.#' ]
    told "an answer before the time is over" $?
fi
# In whatever order an answer does not wait for one before it.
if is_wanted "unordered, an answer is written when it is found"; then
    "$gipmc" "${endless[@]}" --unordered two.aag > out 2> err &
    is_second() {
        [ "$(cat out)" = "$rises" ]
    }
    await is_second
    told "unordered, an answer is written when it is found" $?
    kill -KILL $!
    wait $! 2> /dev/null
fi
# A register of 20 latches whose last one comes first, each behind a latch that stays.
{
    printf 'aag 41 1 40 0 0 40\n2\n'
    for n in $(seq 20); do printf '%s %s\n%s %s\n' $((4 * n)) $((n > 1 ? 4 * n - 4 : 2)) $((4 * n + 2)) $((4 * n + 2)); done
    for n in $(seq 20 -1 1); do printf '%s\n%s\n' $((4 * n)) $((4 * n + 2)); done
} > stages.aag
if is_wanted "unordered, the latches of a register in the order in which they rise"; then
    "$gipmc" --engine bmc --depth 30 --unordered stages.aag > out 2> err
    status=$?
    [ "$status" = 10 ] && [ ! -s err ] && [ "$(grep -A 1 '^1$' out | grep '^b' | tr '\n' ' ')" = \
        "$(seq 38 -2 0 | sed 's/^/b/' | tr '\n' ' ')" ] && [ "$(grep -c '^u30$' out)" = 20 ]
    told "unordered, the latches of a register in the order in which they rise" $?
fi
# [FILE]: its answers, a line for each, in the order of their bytes.
lines_of() {
    answers "$@" | awk '{ printf "%s#", $0 } $0 == "." { print "" }' | sort
}
# FILE [OPTION]..: whether the answers in whatever order are those in the order of the places, and the status is the same.
are_same() {
    local ordered
    "$gipmc" "${@:2}" "$1" > ordered 2> err
    ordered=$?
    "$gipmc" "${@:2}" --unordered "$1" > out 2> err
    status=$?
    [ "$status" = "$ordered" ] && [ ! -s err ] && [ -s out ] && [ "$(lines_of out)" = "$(lines_of ordered)" ]
}
# FILE: notes where they are not.
differing=
compare_orders() {
    [ -z "$is_listed" ] && is_wanted "unordered, the same answers" || return
    are_same "$1" && are_same "$1" --engine bmc --depth 30 && are_same "$1" --engine ic3 || differing=1
}
for circuit in two swapped stages; do compare_orders "$circuit.aag"; done
# The program has 2 MB at first, and a little more at each depth.
if is_wanted "a memory limit"; then
    timeout -s KILL 300 "$gipmc" "${endless[@]}" --memory 4 swapped.aag > out 2> err
    status=$?
    [ "$status" = 10 ] && [ "$(answers out | head -n 6)" = "$first" ] && [ ! -s err ] &&
        [ "$(answers out | sed 1,6d | tr '\n' '#' | sed 's/u[0-9]*/u/')" = 'u#2#b1#.#' ]
    told "a memory limit" $?
fi
# A latch that keeps 0, and a chain of two million gates behind it. A round of simulation has 64 moments, and takes many
# seconds of a processor.
if is_wanted "the time is over within a round of simulation" "progress within a round of simulation"; then
    gates=2000000
    {
        printf 'aig %s 4 1 0 %s 1\n10\n%s\n' $((gates + 5)) "$gates" $((2 * gates + 10))
        head -c $((2 * gates)) /dev/zero | tr '\0' '\2'
    } > chain.aig
    rm -f cert
    within='^c b0: \(round 1; \)\?[0-9]* moments of round [12]; [0-9]*[.][0-9][0-9][0-9] s$'
    "$gipmc" --engine sim --time 6 --stats --certificate cert chain.aig > out 2> err
    status=$?
    [ "$status" = 0 ] && [ "$(cat out)" = "$(printf '2\nb0\n.')" ] && [ ! -e cert ] && has_lines "$within" err 1
    told "the time is over within a round of simulation" $?
    "$gipmc" --engine sim --verbose chain.aig > out 2> err &
    await has_lines "$within" err 1
    told "progress within a round of simulation" $?
    kill -KILL $!
    wait $! 2> /dev/null
    rm chain.aig
fi
if is_wanted "an answer before memory is refused"; then
    (ulimit -v 200000; exec "$gipmc" "${endless[@]}" swapped.aag) > out 2> err
    status=$?
    [ "$status" = 10 ] && [ "$(cat err)" = "memory: refused (b1 is left open)" ] && [ "$(answers out | head -n 6)" = "$first" ] &&
        [ "$(answers out | sed 1,6d | tr '\n' '#' | sed 's/u[0-9]*/u/')" = 'u#2#b1#.#' ]
    told "an answer before memory is refused" $?
fi
"$gipmc" -t 0 swapped.aag > out 2> err
status=$?
[ "$status" = 0 ] && [ "$(answers out)" = "$(printf '2\nb0\n.\n2\nb1\n.')" ]
told "no time" $?
if is_wanted "progress in a file, every five seconds"; then
    "$gipmc" "${endless[@]}" -v kept.aag > out 2> err &
    await has_lines '^c b0: depth [0-9]*, [0-9]* clauses kept, [0-9]* learned; [0-9]*[.][0-9][0-9][0-9] s$' err 2
    told "progress in a file, every five seconds" $?
    kill -KILL $!
    wait $! 2> /dev/null
fi

# Lines that tell before an answer how far the search is: where it is no terminal, and also there by --verbose.
deep=(--engine bmc --depth 7 kept.aag)
# TEXT: whether it tells of greater and greater depths, the last one with the answer.
rises() {
    [ "$(answers <<< "$1")" = "$(open 7)" ] && [ "$(grep -c '^u' <<< "$1")" -gt 2 ] && sed -n 's/^u//p' <<< "$1" | sort -cn
}
"$gipmc" "${deep[@]}" > out 2> err
status=$?
[ "$status" = 0 ] && [ ! -s err ] && rises "$(cat out)" && rises "$("$gipmc" "${deep[@]}" | cat)" &&
    rises "$("$gipmc" --verbose --quiet "${deep[@]}" 2> err)"
told "how far the search is, in a file and in a pipe" $?
[ "$("$gipmc" --quiet "${deep[@]}" 2> err)" = "$(open 7)" ]
told "no word of how far the search is" $?
if command -v script > path; then
    # WORD..: what the program writes on a terminal.
    on_terminal() { script -qec "$(printf '%q ' "$gipmc" "$@")" /dev/null < /dev/null | tr -d '\r'; }
    [ "$(on_terminal "${deep[@]}")" = "$(open 7)" ] && rises "$(on_terminal --verbose "${deep[@]}")"
    told "no word of how far the search is on a terminal" $?
else
    echo "left out: no word of how far the search is on a terminal (no script)"
fi
"$gipmc" --engine bmc twice.aag > out 2> err
status=$?
[ "$status" = 10 ] && [ "$(head -n 3 out)" = "$(printf 'u0\nu1\n1')" ] &&
    [ "$("$gipmc" --engine bmc twice.aag | "$gipmc" --replay - twice.aag)" = "s VERIFIED" ]
told "a witness behind lines that tell how far the search is" $?

# Traces with names. The circuit has a vector of two inputs and one of two latches, which are given in opposite orders.
cat > named.aag << 'END'
aag 6 3 2 0 1 2
2
4
6
8 2
10 4
8
12
12 8 10
i0 top.in[1]
i1 top.in[0]
i2 a b
l0 top.sub.held[0]
l1 top.sub.held[1]
b1 both
c
b0 of a comment
END
table='c b0
c #0 top.in[1:0] = 1-
c #0 top.sub.held[1:0] = 00
c #1 top.sub.held[1:0] = -1'
# Some inputs may have any value.
"$gipmc" --engine bmc --bad 0 --names named.aag > out 2> err
status=$?
sed -n '/^c/{/a_b = [01]$/d; /^c #1 top.in/d; s/= 1[01]$/= 1-/; s/= [01]1$/= -1/; p}' out > told
[ "$status" = 10 ] && [ ! -s err ] && [ "$(cat told)" = "$table" ]
told "names" $?
"$gipmc" --engine bmc --names named.aag > out 2> err
[ "$(grep '^c b' out)" = "$(printf 'c b0\nc b1 both')" ] && [ "$("$gipmc" --replay out named.aag)" = "s VERIFIED" ]
told "names of two literals, which a reader of witnesses passes over" $?
printf '%b' 'aag 3 1 2 0 0 3\n2\n4 4\n6 2\n4\n6\n5\nb0 stays\nb1 rises\n' > three.aag
"$gipmc" --names three.aag > out 2> err
status=$?
[ "$status" = 10 ] && [ ! -s err ] && [ "$(grep '^c b' out)" = "$(printf 'c b0 stays: safe\nc b1 rises\nc b2')" ] &&
    [ "$("$gipmc" --replay out three.aag)" = "s VERIFIED" ]
told "names of what fails and of what is safe" $?
"$gipmc" --engine bmc --depth 3 --names --bad 0 three.aag > out 2> err
status=$?
[ "$status" = 0 ] && [ "$(answers out)" = "$(printf 'u3\n2\nb0\n.\nc b0 stays: open')" ]
told "a name of what is open" $?
"$gipmc" --names kept.aag > out 2> err
status=$?
[ "$status" = 20 ] && [ "$(answers out)" = "$safe" ] && [ ! -s err ]
told "no names where nothing fails" $?
rm -f wave
"$gipmc" --engine bmc --vcd wave named.aag > out 2> err
status=$?
# shellcheck disable=SC2016
wave='$timescale 1 ns $end
$scope module circuit $end
$scope module top $end
$var wire 2 ! in [1:0] $end
$upscope $end
$var wire 1 " a_b  $end
$scope module top $end
$scope module sub $end
$var reg 2 # held [1:0] $end
$upscope $end
$upscope $end
$upscope $end
$enddefinitions $end'
[ "$status" = 10 ] && [ ! -s err ] && [ "$(head -n 13 wave)" = "$wave" ] && grep -qx 'b[01]1 #' wave &&
    [ "$(grep '^#' wave | tr '\n' ' ')" = "#0 #1 #2 " ]
told "a wave" $?
# Another program reads a wave and tells what it found: the same variables in the same scopes, and the same changes.
variables() { grep -E '^[$](scope|var|upscope)' "$1" | tr -s ' '; }
changes() { awk '/^#/ { moment = $0; next } /^[01b]/ { print moment, $0 }' "$1" | sort; }
read_back() {
    if command -v vcd2fst > path; then
        rm -f wave.fst
        vcd2fst wave wave.fst > out 2> err && fst2vcd wave.fst > again 2> err &&
            [ "$(variables wave)" = "$(variables again)" ] && [ "$(changes wave)" = "$(changes again)" ]
        told "$1" $?
    else
        echo "left out: $1 (no vcd2fst)"
    fi
}
read_back "a wave that GTKWave reads"
mv wave drawn
for words in --names "--names --witness closed-"; do
    # shellcheck disable=SC2086
    "$gipmc" --engine bmc --vcd wave $words named.aag >&- 2> err
    status=$?
    [ "$status" = 1 ] && [ "$(cat err)" = "<stdout>: cannot be written: closed, or open the other way alone" ] && cmp -s wave drawn
    told "a wave where the table cannot be written, beside $words" $?
    rm -f wave closed-*
done
: > taken-b0.aiw
"$gipmc" --engine bmc --vcd wave --witness taken- named.aag > out 2> err
status=$?
[ "$status" = 1 ] && [ "$(cat err)" = "taken-b0.aiw: cannot be written: entity already exists" ] && cmp -s wave drawn
told "a wave where the file of a witness cannot be written" $?
mv drawn wave
printf '%b' 'aag 2 1 1 0 0 1\n2\n4 2\n4\ni0 $end\nl0 $end.$end\n' > ended.aag
"$gipmc" --engine bmc --vcd ended ended.aag > out 2> err
status=$?
# shellcheck disable=SC2016
[ "$status" = 10 ] && [ "$(grep _end ended)" = '$var wire 1 ! _end  $end
$scope module _end $end
$var reg 1 " _end  $end' ]
told "a wave of signals that are called \$end" $?
for words in "--certificate twin --vcd twin" "--witness twi --vcd twib0.aiw" "--witness ./tw --certificate ./twj17.aiw"; do
    name=${words##* }
    # shellcheck disable=SC2086
    "$gipmc" $words named.aag > out 2> err
    status=$?
    [ "$status" = 1 ] && [ ! -s out ] && [ "$(cat err)" = "$name: two files would have this name" ] && [ ! -e "$name" ]
    told "two files of one name, $words" $?
done
try "a wave, and a file that is there" 1 "wave: cannot be made: entity already exists" "" "" --vcd wave named.aag
rm -f wave
"$gipmc" --vcd wave kept.aag > out 2> err
status=$?
[ "$status" = 20 ] && [ ! -e wave ] && [ ! -s err ]
told "no wave where nothing fails" $?
try "a wave on standard output" 2 \
    "gipmc: '-' names no file to write, since standard output has the answer (try --help)" "" "" --vcd -
mkdir traces
"$gipmc" --engine bmc --depth 3 --witness traces/ two.aag > out 2> err
status=$?
[ "$status" = 10 ] && [ "$(ls traces)" = b1.aiw ] && [ "$(cat traces/b1.aiw)" = "$(printf '1\nb1\n00\n1\n0\n.')" ] &&
    [ "$("$gipmc" --replay traces/b1.aiw --bad 1 two.aag)" = "s VERIFIED" ]
told "files of witnesses" $?
mkdir one
"$gipmc" --any --engine bmc --names --vcd one.vcd --witness one/ two.aag > out 2> err
status=$?
[ "$status" = 10 ] && [ "$(ls one)" = b1.aiw ] && [ "$(head -n 2 out | tr '\n' ' ')" = "1 b1 " ] && [ -s one.vcd ] &&
    [ "$("$gipmc" --replay out --any two.aag)" = "s VERIFIED" ] && [ "$(cat err)" = "" ]
told "the files of one answer" $?
printf '%b' "$stay" > stay.aag
"$gipmc" --any --certificate one.cnf stay.aag > out 2> err
status=$?
[ "$status" = 20 ] && [ "$(cat out)" = "$safe" ] && [ "$("$gipmc" --certify one.cnf --bad 9 --any stay.aag)" = "s VERIFIED" ]
told "a certificate of all, beside one answer" $?
"$gipmc" --engine bmc --depth 3 --witness traces/ two.aag > out 2> err
status=$?
[ "$status" = 1 ] && [ "$(cat err)" = "traces/b1.aiw: cannot be written: entity already exists" ] &&
    grep -qx b1 out
told "a file of a witness that is there" $?
printf '%b' 'aag 3 1 2 0 0 2\n2\n6 2\n4 4\n6\n4\n' > first.aag
if is_wanted "a file of a witness is there when its answer is"; then
    "$gipmc" --engine bmc --depth 999999999 --witness early- first.aag > out 2> err &
    await test -e early-b0.aiw
    [ "$("$gipmc" --replay early-b0.aiw --bad 0 first.aag)" = "s VERIFIED" ] && kill -0 $! && [ ! -e early-b1.aiw ]
    told "a file of a witness is there when its answer is" $?
    kill -KILL $!
    wait $! 2> /dev/null
fi
for option in --names --vcd=a --witness=a; do
    try "$option beside --replay" 2 \
        "gipmc: '$option' goes with none of '--replay', '--certify', '--list' and '--join' (try --help)" "" "" \
        --replay a "$option"
done
printf '%b' 'aag 2 1 1 0 0 1\r\n2\r\n4 2\r\n4\r\n' > returns.aag
try "a circuit with carriage returns" 10 "" "$fails" "" --engine bmc returns.aag
witness '1\r\nb0\r\n0\r\n1\r\n0\r\n.\r\n'
try "a witness with carriage returns" 0 "" "s VERIFIED" "$held" --replay wit
try "a carriage return in the binary form" 1 "<stdin>:1: not a space or a line end where one is wanted" "" \
    'aig 2 1 1 0 0 1\r\n2\r\n4\r\n' --engine bmc

# Two bits count 0, 1, 2, 0. The base of k = 1 is that no trace without a transition fails.
printf 'aag 5 0 2 0 3 3\n2 6\n4 8\n10\n4\n2\n6 5 3\n8 5 2\n10 4 2\n' > three.aag
"$gipmc" --engine induction --depth 0 three.aag > out 2> err
status=$?
[ "$status" = 0 ] && [ ! -s err ] && [ "$(answers out | tr '\n' ' ')" = "0 b0 . u0 2 b1 . u0 2 b2 . " ]
told "induction within 0" $?
"$gipmc" --any --engine induction --depth 0 three.aag > out 2> err
status=$?
[ "$status" = 0 ] && [ ! -s err ] && [ "$(answers out | tr '\n' ' ')" = "u0 2 b1 . " ]
told "one answer, of the first of those of which least is known" $?
# A register of 20 bits that goes through very many states, and a latch that stays.
{
    printf 'aag 43 0 21 0 22 2\n2 49 1\n'
    for ((n = 2; n <= 20; n++)); do echo "$((2 * n)) $((2 * n - 2))"; done
    printf '42 42\n42\n86\n'
    printf '44 40 35\n46 41 34\n48 45 47\n'
    for ((n = 25; n <= 43; n++)); do echo "$((2 * n)) $((n == 25 ? 2 : 2 * n - 2)) $((2 * n - 46))"; done
} > hard.aag
if is_wanted "a literal that is safe beside a hard one, by IC3"; then
    timeout -s KILL 60 "$gipmc" --engine ic3 -t 5 hard.aag > out 2> err
    [ "$(answers out | head -n 3)" = "$safe" ]
    told "a literal that is safe beside a hard one, by IC3" $?
fi
sed '/^42$/d; s/^86$/&\n42/' hard.aag > hard_first.aag
if is_wanted "a literal that is safe behind a hard one, by IC3"; then
    timeout -s KILL 60 "$gipmc" --engine ic3 -t 5 hard_first.aag > out 2> err
    [ "$(answers out | tail -n 3)" = "$(printf '0\nb1\n.')" ]
    told "a literal that is safe behind a hard one, by IC3" $?
fi
# The latch rises in place.
sed 's/^42 42$/42 43/' hard_first.aag > rises_late.aag
if is_wanted "the first trace ends the search"; then
    timeout -s KILL 300 "$gipmc" --any rises_late.aag > out 2> err
    status=$?
    [ "$status" = 10 ] && [ "$(head -n 2 out | tr '\n' ' ')" = "1 b1 " ] &&
        [ "$("$gipmc" --replay out rises_late.aag)" = "s VERIFIED" ]
    told "the first trace ends the search" $?
fi
if is_wanted "the first trace ends the search, by IC3"; then
    timeout -s KILL 300 "$gipmc" --any --engine ic3 rises_late.aag > out 2> err
    status=$?
    [ "$status" = 10 ] && [ "$(head -n 2 out | tr '\n' ' ')" = "1 b1 " ]
    told "the first trace ends the search, by IC3" $?
fi
if is_wanted "how far all engines came by turns"; then
    timeout -s KILL 60 "$gipmc" --quiet --bad 1 -t 2 hard.aag > out 2> err
    status=$?
    [ "$status" = 0 ] && [ ! -s err ] && [ "$(tr '\n' '#' < out | sed 's/^u[1-9][0-9]*#/u#/')" = 'u#2#b1#.#' ]
    told "how far all engines came by turns" $?
fi

# Standard streams that are closed. No file that is opened takes their place.
unheard='<stdout>: cannot be written: closed, or open the other way alone'
"$gipmc" --bad 0 --certificate cert two.aag > out 2> err <&-
status=$?
[ "$status" = 20 ] && [ "$(answers out)" = "$safe" ] && [ "$("$gipmc" --certify cert --bad 0 two.aag)" = "s VERIFIED" ]
told "no standard input, beside a circuit in a file" $?
for words in "" "--certify - kept.aag" "--replay - kept.aag"; do
    # shellcheck disable=SC2086
    "$gipmc" $words > out 2> err <&-
    status=$?
    [ "$status" = 1 ] && [ ! -s out ] && [ "$(cat err)" = "<stdin>: cannot be read: closed, or open the other way alone" ]
    told "no standard input, arguments $words" $?
done
for circuit in two.aag -; do
    rm -f cert
    "$gipmc" --bad 0 --certificate cert "$circuit" < two.aag >&- 2> err
    status=$?
    [ "$status" = 1 ] && [ "$(cat err)" = "$unheard" ] && [ "$("$gipmc" --certify cert --bad 0 two.aag)" = "s VERIFIED" ]
    told "no standard output, circuit $circuit" $?
    rm -f cert
    "$gipmc" --bad 0 --stats --certificate cert "$circuit" < two.aag > out 2>&-
    status=$?
    [ "$status" = 20 ] && [ "$(answers out)" = "$safe" ] && [ "$("$gipmc" --certify cert --bad 0 two.aag)" = "s VERIFIED" ]
    told "no standard error, circuit $circuit" $?
done
# The answer goes into no other file.
"$gipmc" --engine bmc --witness closed- --vcd closed.vcd named.aag > out 2> err
mkdir closed
mv closed?* closed
for option in --witness=closed- --vcd=closed.vcd; do
    "$gipmc" --engine bmc "$option" named.aag >&- 2> err
    status=$?
    others=0
    for file in closed?*; do cmp -s "$file" "closed/$file" || others=1; done
    [ "$status" = 1 ] && [ "$(cat err)" = "$unheard" ] && [ "$others" = 0 ]
    told "no standard output, beside ${option%=*}" $?
    rm closed?*
done
rm -f cert
"$gipmc" --bad 0 --aiger --certificate cert two.aag >&- 2> err
status=$?
[ "$status" = 1 ] && [ "$(cat err)" = "$unheard" ] && [ "$(head -c 4 cert)" = "aag " ] &&
    [ "$("$gipmc" --certify cert --bad 0 two.aag)" = "s VERIFIED" ]
told "no standard output, beside a certificate as a circuit" $?
rm -f cert
"$gipmc" --bad 0 --certificate cert two.aag <&- >&- 2>&-
status=$?
[ "$status" = 1 ] && [ "$("$gipmc" --certify cert --bad 0 two.aag)" = "s VERIFIED" ]
told "no standard stream" $?
cp cert held
for words in "--certify cert --bad 0 two.aag" two.aag --help --version; do
    # shellcheck disable=SC2086
    "$gipmc" $words >&- 2> err
    status=$?
    [ "$status" = 1 ] && [ "$(cat err)" = "$unheard" ] && cmp -s cert held
    told "no standard output, arguments $words" $?
done
rm -f cert

# Justice properties. One arbiter changes whose turn it is, and one never does; the client waits from the start on.
fair='aag 3 0 2 0 1 0 0 1\n2 3\n4 6 1\n1\n4\n6 4 3\n'
starves='aag 3 0 2 0 1 0 0 1\n2 2\n4 6 1\n1\n4\n6 4 3\n'
is_live=$(printf '0\nj0\n.')
printf '1\nj0\n01\n\n.\n' > lasso
try "a fair arbiter" 20 "" "$is_live" "$fair"
try "an arbiter that lets a client starve" 10 "" "$(cat lasso)" "$starves"
try "the lasso of it" 0 "" "s VERIFIED" "$starves" --replay lasso
try "a loop that does not close" 1 \
    "lasso: witness 1, j0: behind the last moment the latches hold what they held at none before" "s NOT VERIFIED" \
    "$fair" --replay lasso
never='aag 1 0 1 0 0 0 0 1 1\n2 2\n1\n1\n2\n'
try "fairness that no run meets" 20 "" "$is_live" "$never"
printf '1\nj0\n0\n\n.\n' > lasso
try "a lasso that forgets fairness" 1 \
    "lasso: witness 1, j0: fairness constraint 0 is false from moment 0 on, where the loop begins" "s NOT VERIFIED" \
    "$never" --replay lasso
try "a constraint that ends every run" 20 "" "$is_live" 'aag 1 0 1 0 0 0 1 1\n2 1\n3\n1\n1\n'
printf '1\nj0\n0\n\n\n.\n' > lasso
try "a property that is met outside the loop" 1 \
    "lasso: witness 1, j0: literal 0 is false from moment 1 on, where the loop begins" "s NOT VERIFIED" \
    'aag 1 0 1 0 0 0 0 1\n2 1\n1\n3\n' --replay lasso
try "no bad literal beside a justice property" 1 "<stdin>: no bad literal" "" "$fair" --bad 0
try "a justice property that is not there" 1 "<stdin>: no justice property 1, of 1" "" "$fair" --justice 1

# A bad literal, and two justice properties under a fairness constraint.
several='aag 1 0 1 0 0 1 0 2 1\n2 2\n2\n1\n2\n3\n1\n2\n3\n'
printf '0\nb0\n.\n1\nj0\n0\n\n.\n0\nj1\n.\n' > all
try "a bad literal and justice properties, in order" 10 "" "$(cat all)" "$several"
try "the bad literal alone" 20 "" "$safe" "$several" --bad 0
try "one answer beside justice properties" 20 "c <stdin>: its bad literals alone are asked about" "$safe" "$several" \
    --justice 0 --any
try "one answer beside a justice property alone" 1 "<stdin>: no bad literal" "" "$fair" --any
for engine in sim bmc; do
    try "a live property is open to $engine alone" 0 "" "$(printf '2\nj0\n.')" "$fair" --engine "$engine"
    try "a lasso by $engine alone" 10 "" "$(printf '1\nj0\n01\n\n.')" "$starves" --engine "$engine"
done
try "a justice property alone" 20 "" "$(printf '0\nj1\n.')" "$several" --justice 1
try "a justice property, which is asked for last" 10 "" "$(printf '1\nj0\n0\n\n.')" "$several" --bad 0 --justice 0
try "the witnesses of all answers" 0 "" "s VERIFIED" "$several" --replay all
try "the witnesses of all answers, though one was asked for" 0 "" "s VERIFIED" "$several" --replay all --justice 1 --any
# Witnesses of both kinds in one text. A latch that rises and stays up is bad, and true again and again.
rising='aag 1 0 1 0 0 1 0 1\n2 1\n2\n1\n2\n'
witness '1\nb0\n0\n\n\n.\n1\nj0\n0\n\n\n.\n'
try "a right trace and a right lasso" 0 "" "s VERIFIED" "$rising" --replay wit
witness '1\nb0\n0\n\n.\n1\nj0\n0\n\n\n.\n'
try "a right lasso behind a wrong trace" 1 \
    "wit: witness 1, b0: the bad literal is false at the last moment, 0" "s NOT VERIFIED" "$rising" --replay wit
witness '1\nj0\n0\n\n\n.\n1\nb0\n0\n\n.\n'
try "a right lasso before a wrong trace" 1 \
    "wit: witness 1, b0: the bad literal is false at the last moment, 0" "s NOT VERIFIED" "$rising" --replay wit
witness '1\nb0\n0\n\n\n.\n1\nj0\n0\n\n.\n'
try "a wrong lasso behind a right trace" 1 \
    "wit: witness 1, j0: behind the last moment the latches hold what they held at none before" "s NOT VERIFIED" \
    "$rising" --replay wit
witness '0\nb0\n.\n0\nj0\n.\n'
try "no witness of either kind" 1 "wit: no witness" "" "$rising" --replay wit
try "no witness of either kind, beside no bad literal" 1 "wit: no witness" "" "$fair" --replay wit
# A witness of a kind of which the circuit has none is refused, beside a right one of the other kind too.
recurring='aag 1 0 1 0 0 0 0 1\n2 1\n1\n2\n'
witness '1\nj0\n0\n\n\n.\n'
try "a right lasso" 0 "" "s VERIFIED" "$recurring" --replay wit
witness '1\nj0\n0\n\n\n.\n1\nb0\n0\n\n.\n'
try "a right lasso, and a trace of no bad literal" 1 "<stdin>: no bad literal" "" "$recurring" --replay wit
witness '1\nb0\n0\n1\n0\n.\n1\nj0\n0\n1\n0\n.\n'
try "a right trace, and a lasso of no property" 1 "<stdin>: no justice property" "" "$held" --replay wit
try "no witness of the other property" 1 "all: no witness of justice property 1, which '--justice' asks for" "" \
    "$several" --replay all --justice 1
try "no witness of the bad literal" 1 "all: no witness of bad literal 0, which '--bad' asks for" "" \
    "$several" --replay all --bad 0

# Certificates of justice properties: the latches of a chain that counts stand behind those of the circuit.
rm -f counts
make "a certificate of a justice property" 20 "" "$is_live" "$fair" --certificate counts
try "it certifies the property" 0 "" "s VERIFIED" "$fair" --certify counts --justice 0
printf '%b' "$starves" | "$gipmc" --certify counts --justice 0 > out 2> err
status=$?
[ "$status" = 1 ] && [ "$(answers out)" = "s NOT VERIFIED" ]
told "it certifies no other circuit" $?
printf 'p cnf 2 0\n' > counts
try "a count that is too small" 1 "counts: j0: the clauses allow one literal more to be met" "s NOT VERIFIED" \
    "$fair" --certify counts --justice 0
# A counter of six bits, which stays at 63. It counts on no run again and again.
counter='aag 31 1 6 0 24 0 0 1\n2\n4 32\n6 38\n8 44\n10 50\n12 56\n14 62\n1\n26\n16 4 6\n18 16 8\n20 18 10\n'
counter+='22 20 12\n24 22 14\n26 2 25\n28 4 26\n30 5 27\n32 29 31\n34 6 28\n36 7 29\n38 35 37\n40 8 34\n'
counter+='42 9 35\n44 41 43\n46 10 40\n48 11 41\n50 47 49\n52 12 46\n54 13 47\n56 53 55\n58 14 52\n60 15 53\n'
counter+='62 59 61\n'
rm -f counts
make "a certificate of an invariant that excludes lassos" 20 "" "$is_live" "$counter" --certificate counts
[ "$(head -n 1 counts)" = "c no lasso" ]
told "a line tells that it excludes lassos" $?
try "it certifies that the counter stays" 0 "" "s VERIFIED" "$counter" --certify counts --justice 0
printf '%b' "$counter" > counter.aag
sed -i 1d counts
"$gipmc" --certify counts --justice 0 counter.aag > out 2> err
status=$?
[ "$status" = 1 ] && [ "$(cat out)" = "s NOT VERIFIED" ]
told "without the line it is taken for a count" $?
rm -f counts
make "no certificate of several properties" 1 \
    "counts: not written, since '--justice' asks for the property that it is to be of" \
    "$(printf '0\nj0\n.\n0\nj1\n.')" 'aag 1 0 1 0 0 0 0 2\n2 2\n1\n1\n2\n2\n' --certificate counts
[ ! -e counts ]
told "no file of such a certificate" $?
no_circuit="counts: not written, since the certificate of a justice property is clauses, without '--aiger'"
try "no circuit for a justice property that is asked for" 1 "$no_circuit" "" "$fair" --certificate counts --aiger --justice 0
try "no circuit for the only justice property" 1 "$no_circuit" "$is_live" "$fair" --certificate counts --aiger

# Lassos with names. A latch rises and stays up.
printf '%b' 'aag 1 0 1 0 0 0 0 2\n2 1\n1\n1\n2\n0\nl0 top.up\nj0 stays up\nj1 never\n' > rises.aag
"$gipmc" --names rises.aag > out 2> err
status=$?
table='c j0 stays up
c #0 top.up = 0
c #1 top.up = 1
c #2 is #1 again
c j1 never: safe'
[ "$status" = 10 ] && [ ! -s err ] && [ "$(grep '^c' out)" = "$table" ] && [ "$("$gipmc" --replay out rises.aag)" = "s VERIFIED" ]
told "names of a lasso and of a property that holds" $?
rm -f wave
"$gipmc" --vcd wave rises.aag > out 2> err
status=$?
# shellcheck disable=SC2016
wave='$timescale 1 ns $end
$scope module circuit $end
$scope module top $end
$var reg 1 ! up  $end
$upscope $end
$upscope $end
$scope module lasso $end
$var wire 1 " again  $end
$upscope $end
$enddefinitions $end
#0
0!
0"
#1
1!
1"
#2'
[ "$status" = 10 ] && [ ! -s err ] && [ "$(cat wave)" = "$wave" ]
told "a wave of a lasso" $?
read_back "a wave of a lasso that GTKWave reads"
rm -f wave
rm -f traces/*
"$gipmc" --witness traces/ rises.aag > out 2> err
status=$?
[ "$status" = 10 ] && [ "$(ls traces)" = j0.aiw ] && [ "$(cat traces/j0.aiw)" = "$(printf '1\nj0\n0\n\n\n.')" ] &&
    [ "$("$gipmc" --replay traces/j0.aiw --justice 0 rises.aag)" = "s VERIFIED" ]
told "a file of a lasso" $?

# Texts that are refused.
# shellcheck disable=SC2016
try "an empty input" 1 '<stdin>:1: no header `aag` or `aig`' "" ""
live='aag 1 0 1 0 0 1 0 2 1\n2 2\n2\n1\n2\n3\n1\n2\n3\nl0 held\nj1 live\nb0 bad\n'
printf '%b' "$live" > live.aag
try "a certificate of bad literals beside justice properties" 0 "c live.aag: its bad literals alone are certified" \
    "s VERIFIED" 'p cnf 1 1\n-1 0\n' --certify - live.aag
rm -f cert
"$gipmc" --certificate cert live.aag > out 2> err
[ "$(cat err)" = "c live.aag: its bad literals alone are certified" ] && [ "$("$gipmc" --certify cert --bad 0 live.aag)" = "s VERIFIED" ]
told "a certificate that is written of bad literals beside justice properties" $?
rm -f cert
try "a certificate of one bad literal beside justice properties" 0 "" "s VERIFIED" 'p cnf 1 1\n-1 0\n' --certify - \
    --bad 0 live.aag
printf '%b' 'aag 1 0 1 0 0 1 0 1\n2 2 1\n2\n1\n3\nl0 held\nj0 live\nb0 bad\n' > live.aag
"$gipmc" --engine bmc --names live.aag > out 2> err
status=$?
[ "$status" = 10 ] && [ "$(grep '^c' out)" = "$(printf 'c b0 bad\nc #0 held = 1\nc j0 live: open')" ]
told "names of a bad literal and of a justice property" $?
try "a latch that is not there" 1 "<stdin>:2: not a number" "" 'aag 1 0 1 0 0\n'
try "a literal that is too great" 1 "<stdin>:3: a number that is too great" "" 'aag 1 0 1 0 0 1\n2 2\n4\n'
try "a variable that is not defined" 1 "<stdin>:2: variable 1 is not defined" "" 'aag 1 0 0 0 0 1\n2\n'
try "a variable of a justice property that is not defined, beside a bad literal that is asked for" 1 \
    "<stdin>:5: variable 2 is not defined" "" 'aag 2 1 0 0 0 1 0 1\n2\n3\n1\n4\n' --bad 0
try "a variable that is defined twice" 1 "<stdin>:3: variable 1 is defined twice" "" 'aag 2 1 1 0 0 1\n2\n2 2\n2\n'
try "a gate that depends on itself" 1 \
    "<stdin>:3: the gate of variable 1 depends on itself" "" 'aag 1 0 0 0 1 1\n2\n2 2 2\n'

# What is judged, line by line: NAME|CIRCUIT|TEXT|ARGUMENTS|SAID, of a circuit of this name. Nothing is said of what is
# verified; behind `!` stands why a text is not judged at all.

# KIND OPTION: judges each line's text, which the option reads.
judge() {
    local name circuit text arguments said verdict
    while IFS='|' read -r name circuit text arguments said; do
        printf '%b' "$text" > text
        case $said in
            '') verdict="s VERIFIED" ;;
            '!'*) verdict="" ;;
            *) verdict="s NOT VERIFIED" ;;
        esac
        # shellcheck disable=SC2086
        try "$1: $name" $((${#said} > 0)) "${said#!}" "$verdict" "${circuits[$circuit]}" "$2" text $arguments
    done
}

declare -A circuits=(
    [kept]='aag 1 0 1 0 0 1\n2 2\n2\n'
    [held]='aag 2 1 1 0 0 1\n2\n4 2\n4\n'
    [two]='aag 3 1 2 0 0 2\n2\n4 4\n6 2\n4\n6\n'
    [falling]='aag 9 1 2 0 1 2\n2\n18 18\n6 6\n18\n6\n8 2 18\n'
    [three]='aag 5 0 2 0 3 3\n2 6\n4 8\n10\n4\n2\n6 5 3\n8 5 2\n10 4 2\n'
    [chain]='aag 2 0 2 0 0 1\n2 2\n4 2\n4\n'
    [gated]='aag 4 1 2 0 1 1 1\n2\n4 2\n6 6 6\n8\n7\n8 4 6\n'
    [gated_input]='aag 4 1 2 0 1 1 1\n2\n4 2\n6 6 6\n2\n7\n8 4 6\n'
    [gated0]='aag 4 1 2 0 1 1\n2\n4 2\n6 6 6\n8\n8 4 6\n'
    [gated3]='aag 4 1 2 0 1 1 1\n2\n4 2\n6 6 6\n8\n3\n8 4 6\n'
    [gated5]='aag 4 1 2 0 1 1 1\n2\n4 2\n6 6 6\n8\n5\n8 4 6\n'
    [gated6]='aag 4 1 2 0 1 1 1\n2\n4 2\n6 6 6\n8\n6\n8 4 6\n'
    [changes]='aag 1 0 1 0 0 1 0 1\n2 3\n0\n2\n2\n3\n'
    [starves]='aag 3 0 2 0 1 0 0 1\n2 2\n4 6 1\n1\n4\n6 4 3\n'
    [either]='aag 1 0 1 0 0 0 0 1\n2 2 2\n1\n2\n'
    [granted]='aag 3 1 1 0 1 0 0 2 1\n2\n4 6 1\n1\n1\n5\n4\n2\n6 4 3\n'
    [none]='aag 1 0 1 0 0 1\n2 2\n2\n'
    [fair]='aag 3 0 2 0 1 0 0 1\n2 3\n4 6 1\n1\n4\n6 4 3\n'
    [once]='aag 4 1 1 0 2 0 0 1\n2\n4 9\n1\n6\n6 5 2\n8 5 3\n'
    [once_up]='aag 4 1 1 0 2 0 0 1\n2\n4 9\n1\n4\n6 5 2\n8 5 3\n'
    [once_input]='aag 4 1 1 0 2 0 0 1\n2\n4 9\n1\n2\n6 5 2\n8 5 3\n'
)
judge "a trace" --replay << 'END'
a latch that begins at 1 by choice|gated0|1\nb0\n01\n1\n0\n.\n||
a latch that begins at 0 by choice|gated0|1\nb0\n00\n1\n0\n.\n||text: witness 1, b0: the bad literal is false at the last moment, 1
a latch that does not begin at its reset|gated0|1\nb0\n11\n0\n.\n||text: witness 1, b0: latch 0 does not begin at its reset
no moment|gated0|1\nb0\n01\n.\n||text: witness 1, b0: no moment
a constraint that is false at the first moment|gated3|1\nb0\n01\n1\n0\n.\n||text: witness 1, b0: constraint 0 is false at moment 0
a constraint that is false at the last moment|gated5|1\nb0\n01\n1\n0\n.\n||text: witness 1, b0: constraint 0 is false at moment 1
a constraint that holds|gated6|1\nb0\n01\n1\n0\n.\n||
END
judge "a certificate" --certify << 'END'
clauses that stay|kept|p cnf 1 1\n-1 0\n||
a circuit of the first literal|kept|aag 1 0 1 0 0 1\n2 2\n2\n|--bad 0|
clauses that do not stay|held|p cnf 1 1\n-1 0\n||text: b0: clause 1 is not kept by a transition
clauses of the first of two|two|p cnf 2 1\n-1 0\n|--bad 0|
clauses of the first of two, asked about both|two|p cnf 2 1\n-1 0\n||text: b1: the clauses allow a bad moment
clauses of the first of two, asked about the second|two|p cnf 2 1\n-1 0\n|--bad 1|text: b1: the clauses allow a bad moment
no clause|two|p cnf 2 0\n||text: b0: the clauses allow a bad moment
a second clause that does not stay|two|p cnf 2 2\n-1 0\n-2 0\n||text: b0: clause 2 is not kept by a transition
a second clause that does not stay, asked about the second|two|p cnf 2 2\n-1 0\n-2 0\n|--bad 1|text: b1: clause 2 is not kept by a transition
a second clause that does not begin|falling|p cnf 2 2\n1 -1 0\n1 0\n||text: b0: clause 2 is false at an initial moment
latches that change places by their names|two|aag 2 0 2 0 0 1\n2 2\n4 4\n4\nl0 = 6\nl1 = 4\n|--bad 0|
latches that change places, asked about the second|two|aag 2 0 2 0 0 1\n2 2\n4 4\n4\nl0 = 6\nl1 = 4\n|--bad 1|text: b1: the clauses allow a bad moment
a latch that begins as another one|two|aag 3 0 3 0 0 2\n2 2\n4 4 6\n6 6 2\n2\n4\nl0 = 4\n|--bad 0|
fewer latches|two|aag 1 0 1 0 0 1\n2 2\n2\n|--bad 0|
gates in another order|kept|aag 3 0 1 0 2 1\n2 2\n6\n6 4 2\n4 2 2\n||
k = 1|kept|k 1\n||
k = 0|kept|k 0\n||text: b0: not 0-inductive: a path of 0 transitions ends where it is true for the first time
k = 1 of what rises|held|k 1\n||text: b0: not 1-inductive: a path of 1 transition ends where it is true for the first time
k = 2 of what rises|held|k 2\n||text: b0: not 2-inductive: a trace of 1 transition ends where it is true
k = 1 of the first of two|two|k 1\n|--bad 0|
k = 1 of the second of two|two|k 1\n|--bad 1|text: b1: not 1-inductive: a path of 1 transition ends where it is true for the first time
k = 1 of two|two|k 1\n||text: b1: not 1-inductive: a path of 1 transition ends where it is true for the first time
k = 0 of a counter that goes from 2 to 0|three|k 0\n|--bad 0|text: b0: not 0-inductive: a path of 0 transitions ends where it is true for the first time
k = 1 of this counter|three|k 1\n|--bad 0|
k = 9 of this counter|three|k 9\n|--bad 0|
k = 9 of its high digit|three|k 9\n|--bad 1|text: b1: not 9-inductive: a trace of 2 transitions ends where it is true
k = 1 of a chain of two|chain|k 1\n||text: b0: not 1-inductive: a path of 1 transition ends where it is true for the first time
k = 2 of a chain of two|chain|k 2\n||
k = 1 of falling numbers|falling|k 1\n||
a clause of the first beside k = 0|falling|k 0\np cnf 2 1\n-1 0\n|--bad 0|
a clause of the first beside k = 0, asked about both|falling|k 0\np cnf 2 1\n-1 0\n||text: b1: the clauses allow a bad moment; not 0-inductive: a path of 0 transitions ends where it is true for the first time
a clause that says nothing beside k = 1|falling|k 1\np cnf 2 1\n1 -1 0\n||
clauses of falling numbers|falling|p cnf 2 2\n-1 0\n-2 0\n||
a clause of falling numbers|falling|p cnf 2 1\n-1 0\n|--bad 0|
a clause of falling numbers, asked about the second|falling|p cnf 2 1\n-1 0\n|--bad 1|text: b1: the clauses allow a bad moment
a clause by the constraint|gated|p cnf 2 1\n-2 0\n||
a clause that does not begin|gated|p cnf 2 1\n1 0\n||text: b0: clause 1 is false at an initial moment
a clause that does not stay under a constraint|gated|p cnf 2 1\n-1 0\n||text: b0: clause 1 is not kept by a transition
a clause that leaves the input open|gated_input|p cnf 2 1\n1 -1 0\n||text: b0: the clauses allow a bad moment
a circuit: both latches are not 1|gated|aag 4 0 2 0 2 1\n2 2\n4 4\n8\n6 4 2\n8 6 2\nl0 = 4\nl1 = 6\n||
a circuit: the first without the second|gated|aag 4 0 2 0 2 1\n2 2\n4 4\n8\n6 5 2\n8 6 2\nl0 = 4\nl1 = 6\n||text: b0: clause 1 is not kept by a transition
a circuit: the second without the first|gated|aag 4 0 2 0 2 1\n2 2\n4 4\n8\n6 5 2\n8 6 2\nl0 = 6\nl1 = 4\n||
a circuit with a constraint|gated|aag 4 0 2 0 2 1 1\n2 2\n4 4\n8\n2\n6 4 2\n8 6 2\nl0 = 4\nl1 = 6\n||text: b0: clause 2 is false at an initial moment
a circuit of own latches: one begins as the other|gated|aag 5 1 2 0 2 1\n2\n4 4 6\n6 6 6\n10\n8 7 4\n10 8 4\ni0 = 2\n||
a circuit of own latches: one begins as the negation|gated|aag 5 1 2 0 2 1\n2\n4 4 7\n6 6 6\n10\n8 7 4\n10 8 4\ni0 = 2\n||text: b0: clause 1 is false at an initial moment
a circuit of own latches: both begin at any value|gated|aag 5 1 2 0 2 1\n2\n4 4 4\n6 6 6\n10\n8 7 4\n10 8 4\ni0 = 2\n||text: b0: clause 1 is false at an initial moment
a circuit of an own latch that changes|gated|aag 4 1 1 0 2 1\n2\n4 5 0\n8\n6 4 4\n8 6 4\ni0 = 2\n||text: b0: clause 1 is not kept by a transition
a circuit of resets in a circle|gated|aag 5 1 2 0 2 1\n2\n4 4 6\n6 6 4\n10\n8 7 4\n10 8 4\ni0 = 2\n||!text: a reset that depends on itself, or a name `= n` that does not fit
a circuit of a latch that begins at its negation|gated|aag 4 1 1 0 2 1\n2\n4 4 5\n8\n6 4 4\n8 6 4\ni0 = 2\n||!text: a reset that depends on itself, or a name `= n` that does not fit
a circuit of a latch with two names|gated|aag 4 0 2 0 2 1\n2 2\n4 4\n8\n6 4 2\n8 6 2\nl0 = 4\nl0 = 6\n||!text: a reset that depends on itself, or a name `= n` that does not fit
a circuit of a name that nothing has|gated|aag 4 0 2 0 2 1\n2 2\n4 4\n8\n6 4 2\n8 6 2\nl0 = 4\nl1 = 18\n||!text: a reset that depends on itself, or a name `= n` that does not fit
a circuit of an operand that nothing defines|gated|aag 4 0 1 0 2 1\n2 2\n8\n6 4 2\n8 6 2\nl0 = 4\n||!text:4: variable 2 is not defined
END
# Certificates that are found of these circuits: of latches whose numbers fall, and of the second of two properties.
printf '%b' "${circuits[falling]}" > falling.aag
for form in "" --aiger; do
    for asked in "" "--bad 1"; do
        rm -f cert
        # shellcheck disable=SC2086
        "$gipmc" $asked --certificate cert $form falling.aag > out 2> err
        status=$?
        # shellcheck disable=SC2086
        [ "$status" = 20 ] && [ ! -s err ] && [ "$("$gipmc" --certify cert $asked falling.aag)" = "s VERIFIED" ]
        told "a certificate of latches whose numbers fall, arguments $asked $form" $?
    done
done
rm -f cert
make "a certificate of the second of two justice properties" 20 "" "$(printf '0\nj1\n.')" "${circuits[granted]}" \
    --justice 1 --certificate cert
try "it certifies the second property" 0 "" "s VERIFIED" "${circuits[granted]}" --certify cert --justice 1
rm -f cert
judge "a lasso" --replay << 'END'
a loop of two moments|changes|1\nj0\n0\n\n\n.\n|--justice 0|
the same loop twice|changes|1\nj0\n0\n\n\n\n\n.\n|--justice 0|
the same loop behind a moment|changes|1\nj0\n0\n\n\n\n.\n|--justice 0|
a loop of one moment behind two|starves|1\nj0\n01\n\n\n\n.\n|--justice 0|
a loop of a latch that begins at either value|either|1\nj0\n1\n\n.\n|--justice 0|
the other value of this latch|either|1\nj0\n0\n\n.\n|--justice 0|text: witness 1, j0: literal 0 is false from moment 0 on, where the loop begins
a grant in the loop|granted|1\nj0\n1\n1\n1\n.\n|--justice 0|
a grant at the end of the loop|granted|1\nj0\n1\n0\n1\n0\n1\n.\n|--justice 0|
a grant in the longer one of two loops|granted|1\nj0\n1\n1\n1\n0\n.\n|--justice 0|
a grant outside the loop|granted|1\nj0\n1\n1\n0\n.\n|--justice 0|text: witness 1, j0: fairness constraint 0 is false from moment 1 on, where the loop begins
the stem of it alone|changes|1\nj0\n0\n\n.\n|--justice 0|text: witness 1, j0: behind the last moment the latches hold what they held at none before
a property that is not there|starves|1\nj2\n01\n\n.\n||!text:2: it names justice property 2, and the circuit has 1
the other of two properties|granted|1\nj0\n1\n1\n1\n.\n|--justice 1|!text: no witness of justice property 1, which '--justice' asks for
no lasso|starves|0\nj0\n.\n|--justice 0|!text: no witness of justice property 0, which '--justice' asks for
a lasso beside no property|none|1\nj0\n01\n\n.\n|--justice 0|!<stdin>: no justice property
END
judge "a certificate of a justice property" --certify << 'END'
a count of fewer latches|fair|p cnf 1 0\n|--justice 0|!text:1: no header `p cnf LATCHES CLAUSES` that says what follows
a count of nothing|fair|p cnf 2 0\n|--justice 0|text: j0: the clauses allow one literal more to be met
a count of a property that is not there|fair|p cnf 3 0\n|--justice 3|!<stdin>: no justice property 3, of 1
no lasso where something happens once|once|c no lasso\np cnf 4 4\n-2 -3 1 0\n-4 2 0\n-4 -3 0\n-4 1 0\n|--justice 0|
the same clauses as a count|once|p cnf 4 4\n-2 -3 1 0\n-4 2 0\n-4 -3 0\n-4 1 0\n|--justice 0|text: j0: clause 3 is not kept by a transition
without the last of these clauses|once|c no lasso\np cnf 4 3\n-2 -3 1 0\n-4 2 0\n-4 -3 0\n|--justice 0|text: j0: the clauses allow a lasso
without the first of these clauses|once|c no lasso\np cnf 4 3\n-4 2 0\n-4 -3 0\n-4 1 0\n|--justice 0|text: j0: clause 2 is not kept by a transition
without the second of these clauses|once|c no lasso\np cnf 4 3\n-2 -3 1 0\n-4 -3 0\n-4 1 0\n|--justice 0|text: j0: clause 2 is not kept by a transition
without the third of these clauses|once|c no lasso\np cnf 4 3\n-2 -3 1 0\n-4 2 0\n-4 1 0\n|--justice 0|text: j0: the clauses allow a lasso
these clauses of a latch that stays|once_up|c no lasso\np cnf 4 4\n-2 -3 1 0\n-4 2 0\n-4 -3 0\n-4 1 0\n|--justice 0|text: j0: clause 3 is not kept by a transition
these clauses of an input|once_input|c no lasso\np cnf 4 4\n-2 -3 1 0\n-4 2 0\n-4 -3 0\n-4 1 0\n|--justice 0|text: j0: clause 3 is not kept by a transition
fewer latches than the circuit has that saves|once|c no lasso\np cnf 3 0\n|--justice 0|!text:2: no header `p cnf LATCHES CLAUSES` that says what follows
END

# Texts that are refused, each with the place and the reason.

# KIND [OPTION CIRCUIT]: each line is a text, `|` and what is said of it, of a circuit or of what the option reads beside one.
refuse() {
    local kind=$1 text said
    while IFS='|' read -r text said; do
        if [ $# = 1 ]; then
            try "$kind that is refused: $text" 1 "<stdin>:$said" "" "$text" --engine bmc --depth 0
        else
            printf '%b' "$text" > text
            try "$kind that is refused: $text" 1 "text:$said" "" "$3" "$2" text
        fi
    done
}

refuse "a circuit" << 'END'
|1: no header `aag` or `aig`
abg 0 0 0 0 0\n|1: no header `aag` or `aig`
aag 0 0 0 0\n|1: not a space or a line end where one is wanted
aag  0 0 0 0 0\n|1: not a number
aag 0 0 0 0 x\n|1: not a number
aag 2147483648 0 0 0 0\n|1: a number that is too great
aag 0 0 0 0 0 0 0 0 1\n|2: not a number
aag 0 0 0 0 0 1 0 1\n1\n|3: not a number
aag 0 0 0 0 0 1 0 2\n1\n1\n2\n0\n1\n|7: not a number
aag 0 0 0 0 0 1 0 0 1\n1\n2\n|3: a number that is too great
aag 0 0 0 0 0 1 0 1\n1\n1\n0\nj1 x\n|5: neither a symbol nor a comment behind the gates
aag 0 0 0 0 0 0 0 0 0 0\n|1: not a space or a line end where one is wanted
aag 0 0 0 0 0|1: not a space or a line end where one is wanted
aag 0 1 0 0 0\n2\n|1: the header's variables are not its inputs, latches and gates
aig 2 1 0 0 0\n|1: the header's variables are not its inputs, latches and gates
aag 1 1 0 0 0\n3\n|2: a negated or constant literal in front of an input, a latch or a gate
aag 1 1 0 0 0\n0\n|2: a negated or constant literal in front of an input, a latch or a gate
aag 1 1 0 1 0\n2\n4\n|3: a number that is too great
aag 1 1 0 1 0\n2\n|3: not a number
aag 1 0 1 0 0\n2\n|2: not a space or a line end where one is wanted
aag 1 0 1 0 0\n2 2 3\n|2: a reset that is neither 0, nor 1, nor the latch itself
aag 1 0 1 0 0\n2 2 \n|2: not a number
aag 2 1 0 0 1\n2\n4 2\n|3: not a space or a line end where one is wanted
aag 2 1 0 0 1\n2\n4 2 2 2\n|3: not a space or a line end where one is wanted
aag 1 1 0 0 0\n2\ni1 a\n|3: neither a symbol nor a comment behind the gates
aag 1 1 0 0 0\n2\n4 2 2\n|3: neither a symbol nor a comment behind the gates
aag 1 1 0 0 0\n2\n\n|3: neither a symbol nor a comment behind the gates
aag 2 2 0 0 0\n2\n2\n|3: variable 1 is defined twice
aag 2 1 0 1 0\n2\n4\n|3: variable 2 is not defined
aag 2 0 1 0 0\n2 4\n|2: variable 2 is not defined
aag 2 0 0 0 1\n2 4 0\n|2: variable 2 is not defined
aag 1 0 0 0 1\n2 2 0\n|2: the gate of variable 1 depends on itself
aag 2 0 0 0 2\n2 4 4\n4 2 2\n|2: the gate of variable 1 depends on itself
aig 1 0 0 0 1\n\x00\x00| byte 14: a gate whose operands are not below it, the greater first
aig 1 0 0 0 1\n\x03\x00| byte 14: a gate whose operands are not below it, the greater first
aig 1 0 0 0 1\n\x02| byte 15: no number in groups of 7 bits
aig 1 0 0 0 1\n\xff\xff\xff\xff\xff\x01| byte 19: no number in groups of 7 bits
aag 0 0 0 0 0 0 0 1\n|2: not a number
aag 1 1 0 0 0 0 0 1\n2\n2147483647\n2\n|5: not a number
aag 1 1 0 0 0 0 0 1\n2\n2147483648\n2\n|3: a number that is too great
aag 1 1 0 0 0 0 0 1\n2\n1\n4\n|4: a number that is too great
aag 0 0 0 0 0 0 0 1\n0\nj1 x\n|3: neither a symbol nor a comment behind the gates
aag 2 1 0 0 0 0 0 1\n2\n1\n4\n|4: variable 2 is not defined
aag 2 2 0 0 0 0 0 1\n2\n2\n0\n|3: variable 1 is defined twice
aag 1 0 0 0 1 0 0 1\n1\n2\n2 2 0\n|4: the gate of variable 1 depends on itself
aag 2 1 0 0 0 0 0 1 1\n2\n0\n5\n|4: variable 2 is not defined
END
refuse "a witness" --replay 'aag 3 2 1 0 0 1\n2\n4\n6 6\n6\n' << 'END'
1\nb0 \n0\n00\n.\n|2: no line `b` with the number of a bad literal
1\nb\n0\n00\n.\n|2: not a number
1\nb0\n00\n00\n.\n|3: more or fewer values than the circuit has latches or inputs
1\nb0\n0\n0\n.\n|4: more or fewer values than the circuit has latches or inputs
1\nb0\n0\n02\n.\n|4: a value that is neither 0, nor 1, nor x
1\nb0\n0\n00\n|5: the text ends too early
u0\n\n1\n|2: no line `1`, with which a witness begins
1\nb0\nc\nc\n00\n.\n|5: more or fewer values than the circuit has latches or inputs
1\nb0\nc\n2\n.\n|4: a value that is neither 0, nor 1, nor x
1\nb0\n0\n00\nu1\nc\n0\n.\n|7: more or fewer values than the circuit has latches or inputs
1\nb0\n0\nc\n\n|5: more or fewer values than the circuit has latches or inputs
1\nb0\n0\nc\n0x2|5: more or fewer values than the circuit has latches or inputs
1\nj0\n1\n1\n1\n.\n1\nb0\n0\n0\n.\n|4: more or fewer values than the circuit has latches or inputs
3\nb0\n.\n|1: no line `1`, with which a witness begins
0\nb0\n.\n1\n0\n0\n|5: no line `b` with the number of a bad literal
2\nb0\n.\n1\nb0b\n0\n00\n.\n|5: not a number
1\nb0\n0\n00\n.\n1\nb1\n0\n0\n.\n|9: more or fewer values than the circuit has latches or inputs
1\nb0\n0\n00\n.\n1\nb1\n0\n00\n|10: the text ends too early
00\n00# DONE\n|1: more or fewer values than the circuit has latches or inputs
0\n00\n0# DONE\n|3: more or fewer values than the circuit has latches or inputs
0# DONE\n|1: more or fewer values than the circuit has latches or inputs
END
refuse "a lasso" --replay 'aag 3 2 1 0 0 0 0 1\n2\n4\n6 6\n1\n6\n' << 'END'
1\nj\n0\n00\n.\n|2: not a number
1\nj0b1\n0\n00\n.\n|2: no line `b` with the number of a bad literal
1\nb0\n0\n00\n.\n1\nj0\n0\n0\n.\n|9: more or fewer values than the circuit has latches or inputs
1\nj0\n0\n00# DONE\n|2: a value that is neither 0, nor 1, nor x
END
refuse "an invariant" --certify 'aag 2 0 2 0 0 1\n2 2\n4 4\n2\n' << 'END'
|1: no header `p cnf LATCHES CLAUSES` that says what follows
1 0\n|1: no header `p cnf LATCHES CLAUSES` that says what follows
p cnf 1 0\n|1: no header `p cnf LATCHES CLAUSES` that says what follows
p cnf 2 2\n1 0\n|3: no header `p cnf LATCHES CLAUSES` that says what follows
p cnf 2 1\n3 0\n|2: a number that is too great
p cnf 2 1\nx 0\n|2: not a number
p cnf 2 1\n1\n|2: not a space or a line end where one is wanted
p cnf 2 1\n1 0 2\n|2: not a space or a line end where one is wanted
c\np cnf 2 x\n|2: no header `p cnf LATCHES CLAUSES` that says what follows
p cnf 2 0 0\n|1: no header `p cnf LATCHES CLAUSES` that says what follows
p cnf 2 1\n1 0\n2 0\n|4: no header `p cnf LATCHES CLAUSES` that says what follows
p cnf 2 1\nc\n1  0\n|3: not a number
p cnf 2 1\n- 0\n|2: not a number
p cnf 2 1\n-3 0\n|2: a number that is too great
p cnf 2 1\n1 2147483648 0\n|2: a number that is too great
END

# Data that are compressed, told by their first bytes.
for data in 'gzip \037\213' 'xz \375\067zXZ' 'bzip2 BZh' 'zstd \050\265\057\375'; do
    printf '%b' "${data#* }9" > packed
    try "a circuit in ${data%% *}" 1 "packed:1: ${data%% *} data (try: ${data%% *} -dc FILE)" "" "" packed
    try "a witness in ${data%% *}" 1 "packed:1: ${data%% *} data (try: ${data%% *} -dc FILE)" "" "$kept" --replay packed
done

# Twenty latches that stay, each of them bad, beside gates that matter to none.
if is_wanted "many bad literals beside gates that do not matter" \
    "a certificate of many bad literals beside gates that do not matter"; then
    {
        printf 'aag 20022 2 20 0 20000 20\n2\n4\n'
        for ((n = 3; n <= 22; n++)); do echo "$((2 * n)) $((2 * n))"; done
        for ((n = 3; n <= 22; n++)); do echo $((2 * n)); done
        for ((n = 23; n <= 20022; n++)); do echo "$((2 * n)) $((n > 23 ? 2 * n - 1 : 2)) $((2 + n % 2 * 2))"; done
    } > many.aag
    "$gipmc" --time 100 many.aag > out 2> err
    status=$?
    [ "$status" = 20 ] && [ ! -s err ] && [ "$(grep -c '^0$' out)" = 20 ]
    told "many bad literals beside gates that do not matter" $?
    rm -f cert
    "$gipmc" --certificate cert many.aag > out 2> err
    status=$?
    [ "$status" = 20 ] && [ ! -s err ] && [ "$("$gipmc" --certify cert many.aag)" = "s VERIFIED" ]
    told "a certificate of many bad literals beside gates that do not matter" $?
    rm -f cert
fi

# A short text whose numbers are great takes a byte for each number, where its gates are in order.
# NUMBER KILOBYTES: a circuit of one input of this number, within so much memory.
great() {
    is_wanted "a number of $1 within $2 kB of memory" || return 0
    printf 'aag %s 1 0 0 0 1\n%s\n%s\n' "$1" $((2 * $1)) $((2 * $1)) > great.aag
    (ulimit -v "$2"; exec "$gipmc" great.aag) > out 2> err
    status=$?
    [ "$status" = 10 ] && [ ! -s err ] && [ "$("$gipmc" --replay out great.aag)" = "s VERIFIED" ]
    told "a number of $1 within $2 kB of memory" $?
}
great 1048576 100000
great 16777216 300000
great 67108864 1000000
if is_wanted "a justice property of a great number, and little memory"; then
    printf 'aag 16777216 1 0 0 0 0 0 1\n33554432\n1\n33554432\n' > great.aag
    (ulimit -v 300000; exec "$gipmc" great.aag) > out 2> err
    status=$?
    [ "$status" = 10 ] && [ ! -s err ] && [ "$("$gipmc" --replay out great.aag)" = "s VERIFIED" ]
    told "a justice property of a great number, and little memory" $?
fi
if is_wanted "many inputs that do not matter"; then
    printf 'aig 1048576 1048576 0 0 0 1\n2\n' > wide.aig
    (ulimit -v 800000; exec "$gipmc" wide.aig) > out 2> err
    status=$?
    [ "$status" = 10 ] && [ ! -s err ] && [ "$("$gipmc" --replay out wide.aig)" = "s VERIFIED" ]
    told "many inputs that do not matter" $?
fi
# Where memory is refused, nothing else is told.
if is_wanted "the greatest number, and little memory"; then
    printf 'aag 2147483647 1 0 0 0 1\n4294967294\n4294967294\n' > great.aag
    rm -f cert
    (ulimit -v 200000; exec "$gipmc" --certificate cert great.aag) > out 2> err
    status=$?
    [ "$status" = 1 ] && [ "$(cat err)" = "memory: refused" ] && [ ! -s out ] && [ ! -e cert ]
    told "the greatest number, and little memory" $?
fi
if is_wanted "a certificate where numbers are great, and little memory"; then
    printf 'aag 16777216 0 2 0 0 1\n33554432 33554432\n4 4\n33554432\n' > stays.aag
    rm -f cert
    (ulimit -v 200000; exec "$gipmc" --certificate cert stays.aag) > out 2> err
    status=$?
    [ "$status" = 20 ] && [ ! -s err ] &&
        [ "$(ulimit -v 200000; exec "$gipmc" --certify cert stays.aag)" = "s VERIFIED" ]
    told "a certificate where numbers are great, and little memory" $?
    rm -f cert
fi

# Files that are not there.
try "no such file" 1 "none.aag: no such file" "" "" none.aag
try "no such witness" 1 "none.wit: no such file" "" "$held" --replay none.wit
mkdir folder
try "a directory" 1 "folder: is a directory" "" "" folder
if [ -e /dev/full ]; then
    printf '%b' "$kept" | "$gipmc" > /dev/full 2> err
    status=$?
    [ "$status" = 1 ] && [ "$(cat err)" = "<stdout>: cannot be written: no space left" ]
    told "an output that is full" $?
fi

# Arguments.
try "an option that there is not" 2 "gipmc: unknown option '--deep' (try --help)" "" "" --deep
try "a value for an option that there is not" 2 "gipmc: unknown option '--deep=3' (try --help)" "" "" --deep=3
try "no depth" 2 "gipmc: '--depth' needs a number behind it (try --help)" "" "" --depth
try "no witness behind the option" 2 "gipmc: '--replay' needs a file behind it (try --help)" "" "" --replay
try "no engine" 2 "gipmc: '--engine' needs sim, bmc, ic3, induction or states behind it (try --help)" "" "" --engine
try "another engine" 2 "gipmc: '--engine' takes sim, bmc, ic3, induction or states, not 'ic4' (try --help)" "" "" --engine ic4
try "a time that is no number" 2 "gipmc: '--time' takes a number below 2^64, not 'x' (try --help)" "" "" -t x
try "no time behind the option" 2 "gipmc: '--time' needs a number behind it (try --help)" "" "" -t
try "a short option with = in it" 2 "gipmc: '--time' takes a number below 2^64, not '=9' (try --help)" "" "" -t=9
try "a memory that is no number" 2 "gipmc: '--memory' takes a number below 2^64, not '1.5' (try --help)" "" "" --memory 1.5
try "a depth that is no number" 2 "gipmc: '--depth' takes a number below 2^64, not 'x' (try --help)" "" "" --depth x
try "two files" 2 "gipmc: one file too many, 'b' (try --help)" "" "" a b
try "a word that is no text" 1 "arguments: not UTF-8 text: word 2, 'a_.aag'" "" "" -q $'a\377.aag'
try "a name that a terminal would take for commands" 1 "e_[31mred_x: no such file" "" "" $'e\e[31mred\nx'
printf '%b' "$two" > $'two\n.aag'
printf '1\nb1\n00\n.\n' > $'wit\n'
try "a witness of such a name" 1 "wit_: witness 1, b1: no moment" "s NOT VERIFIED" "" --replay $'wit\n' $'two\n.aag'
try "a witness and a certificate" 2 \
    "gipmc: one at most of '--replay', '--certify', '--list' and '--join' is done (try --help)" "" "" --replay a --certify b
try "a witness, and a file for a certificate" 2 \
    "gipmc: '--certificate' goes with none of '--replay', '--certify', '--list' and '--join' (try --help)" "" "" \
    --replay a --certificate b
for option in --engine=bmc --depth=9 --seed=1 --shortest --time=9 --memory=9 --stats --exit-zero; do
    for task in --replay=a --certify=a --list --join=a; do
        try "$option beside ${task%=a}" 2 \
            "gipmc: '$option' goes with none of '--replay', '--certify', '--list' and '--join' (try --help)" "" "" \
            "$task" "$option"
    done
done
for option in --bad=0 --justice=0 --any; do
    for task in --list --join=a; do
        try "$option beside ${task%=a}" 2 \
            "gipmc: '$option' goes with neither '--list' nor '--join' (try --help)" "" "" "$task" "$option"
    done
done
for task in --replay=a --list; do
    try "a limit beside ${task%=a}" 2 "gipmc: '--limit' goes with neither '--replay' nor '--list' (try --help)" "" "" \
        "$task" --limit 9
done
for task in --replay=a --certify=a --join=a; do
    try "a list and ${task%=a}" 2 \
        "gipmc: one at most of '--replay', '--certify', '--list' and '--join' is done (try --help)" "" "" --list "$task"
done
try "two files to list" 2 "gipmc: one file too many, 'b' (try --help)" "" "" --list a b
try "standard output for a certificate" 2 \
    "gipmc: '-' names no file to write, since standard output has the answer (try --help)" "" "" --certificate -
try "standard output for a certificate, joined" 2 \
    "gipmc: '-' names no file to write, since standard output has the answer (try --help)" "" "" --certificate=-
try "standard input twice" 2 "gipmc: one file at most is read from standard input (try --help)" "" "" --replay -
try "the version" 0 "" "gipmc 0.1.0" "" --version
cp held.aag ./-held.aag
try "a file whose name begins with a minus" 10 "" "$fails" "" --engine bmc -- -held.aag
try "a minus for standard input" 10 "" "$fails" "$held" --engine bmc -
"$gipmc" --help > out 2> err
status=$?
[ "$status" = 0 ] && grep -q "^usage: gipmc" out && [ ! -s err ]
told "help" $?
! grep -q '.\{81\}' out
told "the help fits into 80 columns" $?

# Summaries: a line for each property, with the parts that ran, and one for the whole.
# NAME STATUS LINES [ARGUMENT..]: runs the program, and expects these lines on standard error, with `#` behind each, before
# the last one.
summary() {
    local name=$1 wanted=$2 lines=$3
    is_wanted "$name" || return 0
    shift 3
    "$gipmc" --stats "$@" > out 2> err
    status=$?
    [ "$status" = "$wanted" ] && tr '\n' '#' < err | grep -qx "$lines$whole"
    told "$name" $?
}
solver='[0-9]* clauses kept, [0-9]* learned; '
bmc="depth [0-9]*, $solver"
steps="k [0-9]*, $solver"
ic3='frame [0-9]*, [0-9]* calls, [0-9]* obligations, [0-9]*\.[0-9][0-9] literals in each of [0-9]* lemmas; '
seconds='[0-9]*[.][0-9][0-9][0-9] s'
took="$seconds#"
whole="c $seconds, [0-9]* kB of memory at most#"
printf '%b' "$kept" > kept.aag
summary "a summary" 0 "c b0: $bmc$took" --engine bmc --depth 5 kept.aag
summary "a summary of simulation" 0 "c b0: round [0-9]*; $took" --engine sim kept.aag
summary "a summary of simulation that decides" 10 "c b0: \(round [0-9]*; \)*decided by sim; $took" --engine sim held.aag
summary "a summary where a constant decides" 20 "c b0: decided by ternary simulation; $took" --engine ic3 kept.aag
# Two latches that are equal, and change.
printf '%b' 'aag 3 0 2 0 1 1\n2 3\n4 5\n6\n6 5 2\n' > twins.aag
summary "a summary of IC3 where its first calls decide" 20 "c b0: ${ic3}decided by ic3; $took" --engine ic3 twins.aag
# An input is not other than itself.
printf '%b' 'aag 3 1 0 0 2 1\n2\n6\n4 2 2\n6 5 2\n' > same.aag
summary "a summary of IC3 without a lemma" 20 \
    "c b0: frame [0-9]*, [0-9]* calls, [0-9]* obligations; decided by ic3; $took" --engine ic3 same.aag
# `tools/pdr.py --family queue_length 4` made it.
summary "a summary of IC3" 20 "c b0: ${ic3}decided by ic3; $took" --engine ic3 "$top/tests/queue.aag"
# `tools/pdr.py --family traffic 4` made it. Bounded model checking comes far beyond a depth of 5 before IC3 decides.
summary "bounded search within a depth, beside all engines" 20 \
    "c b0: round [0-9]*; depth 5, $solver$steps${ic3}decided by ic3; $took" --depth 5 "$top/tests/traffic.aag"
summary "bounded search without a depth, beside all engines" 20 \
    "c b0: round [0-9]*; depth [1-9][0-9][0-9]*, $solver$steps${ic3}decided by ic3; $took" "$top/tests/traffic.aag"
summary "a summary of two literals" 10 "c b0: $bmc${took}c b1: ${bmc}decided by bmc; $took" --engine bmc --depth 3 two.aag
summary "a summary of the second literal" 10 "c b1: ${bmc}decided by bmc; $took" --engine bmc --bad 1 two.aag
summary "a summary of explicit states" 20 "c b0: decided by explicit states; $took" --engine states kept.aag
summary "a summary of induction" 20 "c b0: ${bmc}${steps}decided by induction; $took" --engine induction kept.aag
printf '%b' "$fair" > fair.aag
summary "a summary of a property that holds" 20 "c j0: [^#]*${took}c j0: decided by counting to [0-9]*#" fair.aag
summary "a summary of an invariant that excludes lassos" 20 \
    "c j0: [^#]*${took}c j0: decided by an invariant that excludes lassos#" counter.aag
printf '%b' "$starves" > starves.aag
summary "a summary of a lasso" 10 "c j0: [^#]*${took}c j0: decided by a lasso#" starves.aag
printf '%b' "$kept" | "$gipmc" --quiet > out 2> err
status=$?
[ "$status" = 20 ] && [ ! -s err ]
told "no word on standard error" $?

# Small circuits, of whose states or runs it was enumerated what holds of each property: `tools/circuits.py` tells the
# words. Each is asked of each engine. A trace of bounded model checking is a shortest one, and so is one of IC3 on the
# circuits that have no number in their names. Each trace is replayed.

# FILE: of each property what is answered: `0`, `2`, or `1:N` where a trace of N moments fails, with commas between.
statuses() {
    awk '/^u/ { next }
        line == 0 { status = $0; line = 1; next }
        line == 1 { line = 2; rows = 0; next }
        $0 == "." { printf "%s%s%s", comma, status, status == "1" ? ":" rows - 1 : ""; comma = ","; line = 0; next }
        { rows++ }' "$1"
}

# ENGINE [ARGUMENT..]: asks about row.aag, and expects what the row says of each property.
ask() {
    local by=$1 wanted='' wanted_status=20 word one
    is_wanted "$name $said, by $by" || return 0
    shift
    for word in ${said//,/ }; do
        case $by,$word in
            bmc,fails:* | shortest,fails:* | known*,fails:*) one=1:$((${word#*:} + 1)) ;;
            sim,fails:*) one='@(2|1:+([0-9]))' ;;
            *,fails:* | *,lasso) one='1:+([0-9])' ;;
            bmc,safe:* | sim,safe:* | induction,safe:-) one=2 ;;
            *) one=0 ;;
        esac
        wanted+=,$one
        case $one in
            1*) wanted_status=10 ;;
            *) [ "$one" = 0 ] || [ "$wanted_status" = 10 ] || wanted_status=0 ;;
        esac
    done
    "$gipmc" "$@" row.aag > out 2> err
    status=$?
    # shellcheck disable=SC2053
    [[ ,$(statuses out) == $wanted ]] && [ ! -s err ] &&
        { [ "$by" != bmc ] || [ "$(answers out | grep -c -x 2)" = "$(answers out | grep -c -x u64)" ]; } &&
        { [ "$status" = "$wanted_status" ] || [ "$by,$status" = sim,10 ]; } &&
        { [ "$status" != 10 ] || [ "$("$gipmc" --replay out row.aag)" = "s VERIFIED" ]; }
    told "$name $said, by $by" $?
}

# K STATUS ERROR: puts it to row.aag that its bad literal is K-inductive.
put() {
    is_wanted "$name $said, for k = $1" || return 0
    echo "k $1" > inv
    "$gipmc" --certify inv row.aag > out 2> err
    status=$?
    # shellcheck disable=SC2053
    [ "$status" = "$2" ] && [[ $(cat err) == $3 ]]
    told "$name $said, for k = $1" $?
}

# HOW [ARGUMENT..]: expects a certificate of row.aag where all is safe, and shown so, and else none.
certify() {
    local how=$1 wanted=20
    is_wanted "$name $said, a certificate $how" || return 0
    case $how,$said in
        *fails*) wanted=10 ;;
        "by induction",*safe:-*) wanted=0 ;;
    esac
    shift
    "$gipmc" "$@" row.aag > out 2> err
    status=$?
    if [ "$wanted" = 20 ]; then
        [ "$status" = 20 ] && [ ! -s err ] && [ "$("$gipmc" --certify cert row.aag)" = "s VERIFIED" ]
    else
        [ "$status" = "$wanted" ] && [ ! -e cert ]
    fi
    told "$name $said, a certificate $how" $?
    rm -f cert
}

shopt -s extglob
base='inv: b0: not +([0-9])-inductive'
path="$base: a path of +([0-9]) transition?(s) ends where it is true for the first time"
asked=0
while read -r name said text; do
    asked=$((asked + 1))
    printf '%s' "$text" | tr ';' '\n' > row.aag
    rm -f cert
    if [[ $said == *live* || $said == *lasso* ]]; then
        ask "all engines"
        if is_wanted "$name $said, a certificate"; then
            "$gipmc" --justice 0 --certificate cert row.aag > out 2> err
            status=$?
            if [ "$(tr , '\n' <<< "$said" | grep -m 1 '^l')" = lasso ]; then
                [ "$status" = 10 ] && [ ! -e cert ]
            else
                [ "$status" = 20 ] && [ "$("$gipmc" --certify cert --justice 0 row.aag)" = "s VERIFIED" ]
            fi
            told "$name $said, a certificate" $?
        fi
        continue
    fi
    ask bmc --engine bmc --depth 64
    [[ $said != *,* ]] || compare_orders row.aag
    if [[ $name == *[0-9] ]]; then
        ask ic3 --engine ic3
        # Where no certificate is wanted, latches and gates that are equal are merged.
        [[ $name != several-* ]] || ask "all engines, uncertified"
    else
        ask "known to ic3" --engine ic3
        ask "known to ic3 over latches" --engine ic3 --certificate cert
        rm -f cert
        ask "all engines, uncertified"
        certify "as a circuit" --certificate cert --aiger
        certify "by induction" --certificate cert --engine induction --depth 64
    fi
    ask states --engine states
    certify "by states" --engine states --certificate cert
    ask induction --engine induction --depth 64
    [[ $said != *fails* ]] || ask sim --engine sim
    [[ $said != *fails* ]] || ask shortest --shortest
    ask "all engines" --certificate cert
    if [[ $said != *fails* ]] && is_wanted "$name $said, a certificate"; then
        [ -e cert ] || "$gipmc" --certificate cert row.aag > out 2> err
        [ "$("$gipmc" --certify cert row.aag)" = "s VERIFIED" ]
        told "$name $said, a certificate" $?
    fi
    [[ $said != *,* ]] || continue
    # Each k up to 5 and to one more than the number of the row, and one that is far greater.
    least=${said#*:}
    for k in $(seq 0 $((${least/-/0} > 4 ? least + 1 : 5))) 30; do
        if [ "$least" = - ] || [ "$k" -lt "$least" ]; then
            put "$k" 1 "$path"
        elif [[ $said == safe:* ]]; then
            put "$k" 0 ""
        elif [ "$k" = "$least" ]; then
            put "$k" 1 "$path"
        else
            put "$k" 1 "$base: a trace of $least transition?(s) ends where it is true"
        fi
    done
done < "$rows"
[ "$asked" -gt 0 ] && [ "$asked" = "$(wc -l < "$rows")" ]
told "all rows of circuits" $?
[ -z "$differing" ]
told "unordered, the same answers" $?

# Larger ones, of `tools/live.py`: an arbiter of eight, and a memory that is refreshed in time.
for name in arbiter-8 refresh-20; do
    if is_wanted "$name-right, with its certificate"; then
        "$top/tools/live.py" --print "$name-right" > live.aag
        answer=$("$gipmc" -q --justice 0 --certificate live.cert live.aag 2> err)
        status=$?
        [ "$status" = 20 ] && [ "$answer" = "$(printf '0\nj0\n.')" ] &&
            [ "$("$gipmc" --justice 0 --certify live.cert live.aag)" = "s VERIFIED" ]
        told "$name-right, with its certificate" $?
        rm -f live.cert
    fi
    if is_wanted "$name-bug, with its lasso"; then
        "$top/tools/live.py" --print "$name-bug" > live.aag
        "$gipmc" --justice 0 live.aag > out 2> err
        status=$?
        [ "$status" = 10 ] && [ "$("$gipmc" --replay out live.aag)" = "s VERIFIED" ]
        told "$name-bug, with its lasso" $?
    fi
done

# A certificate as a circuit of 5000 gates, whose one claim is left open as a whole and kept in parts; and the same behind
# a claim that is kept, where a gate of it forgets an operand.
in_parts="a certificate as a circuit that is asked about in parts"
if is_wanted "$in_parts" "$in_parts, one of which is not kept"; then
    "$top/tools/protocols.py" --print moved_registers-16-8-right > moved.aag
    "$gipmc" -q --engine ic3 --certificate moved.cert --aiger moved.aag > out 2> err
    status=$?
    [ "$status" = 20 ] && [ "$("$gipmc" --limit 1000 --certify moved.cert moved.aag)" = "s VERIFIED" ]
    told "$in_parts" $?
    awk 'NR == 1 { $7 = 2 } NR == 99 { print 0 } 1' moved.cert > two.cert
    awk 'NR == 2001 && NF == 3 { $3 = 1 } 1' two.cert > forgetful.cert
    "$gipmc" --limit 1000 --certify forgetful.cert moved.aag > out 2> err
    status=$?
    [ "$status" = 1 ] && ! cmp -s two.cert forgetful.cert &&
        [ "$(cat err)" = "forgetful.cert: b0: clause 2 is not kept by a transition" ] &&
        [ "$("$gipmc" --limit 1000 --certify two.cert moved.aag)" = "s VERIFIED" ]
    told "$in_parts, one of which is not kept" $?
    rm -f moved.cert two.cert forgetful.cert
fi

# Many bad literals, of `tools/protocols.py`: pairs of turns and clients that are served in time, and pairs of tokens.
# Each name stands before how many are safe and how many fail.
while read -r name safe fails; do
    if is_wanted "$name, each answer as it is known"; then
        "$top/tools/protocols.py" --print "$name" > many.aag
        "$gipmc" --unordered many.aag > out 2> err
        status=$?
        [ "$status" = "$([ "$fails" = 0 ] && echo 20 || echo 10)" ] &&
            [ "$(grep -c '^0$' out)" = "$safe" ] && [ "$(grep -c '^1$' out)" = "$fails" ] &&
            { [ "$fails" = 0 ] || [ "$("$gipmc" --replay out many.aag)" = "s VERIFIED" ]; }
        told "$name, each answer as it is known" $?
    fi
done << 'END'
in_time-16-right 136 0
in_time-16-bug 121 15
one_token-21-right 210 0
one_token-21-bug 0 210
END

# Circuits with justice properties beside the stored ones: their runs are enumerated now.
if is_wanted "justice properties of 500 more circuits"; then
    "$top/tools/circuits.py" --justice 500 "$gipmc" > out 2> err
    status=$?
    [ "$status" = 0 ] && grep -q '^500 passed, 0 failed; ' out
    told "justice properties of 500 more circuits" $?
fi

end_rows
