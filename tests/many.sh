#!/usr/bin/env bash
# Splits formulas and the properties of circuits, solves the parts by the recipes of docs/MANY.md, of which one is killed,
# and joins the proofs and certificates; and gives gipsat cubes and proofs that are not as they should be.
# GIPSAT and GIPMC are the built programs. It prints a line for each case. The last line is 'N passed, M failed', and the
# status is 1 where a case failed. --list tells the names of the cases, and --only runs those that it names.
set -u
# shellcheck source=tests/usage.sh
source "$(dirname "$0")/usage.sh"
take_rows "tests/many.sh GIPSAT GIPMC" "$@"
gipsat=$1
gipmc=$2
for program in "$gipsat" "$gipmc"; do
    if [ ! -x "$program" ]; then
        echo "no program $program"
        echo "0 passed, 1 failed"
        exit 1
    fi
done
page=$(cd "$(dirname "$0")/../docs" && pwd)/MANY.md || exit 2
gipsat=$(realpath "$gipsat") || exit 2
gipmc=$(realpath "$gipmc") || exit 2
work=$(mktemp -d) || exit 2
trap 'rm -rf "$work"' EXIT
cd "$work" || exit 2

# What the last run did.
seen() {
    head -c 300 "$work/err" "$work/out" 2> /dev/null | tr '\n' ' '
}

# LANGUAGE NUMBER: the block of this number, from 1 on, that the page has in a language.
block() {
    awk -v begin="\`\`\`$1" -v wanted="$2" '
        $0 == "```" { shown = 0 }
        shown { print }
        $0 == begin && ++met == wanted { shown = 1 }' "$page"
}

# HOLES: the clauses that put one pigeon more than there are holes into these, so that none shares one.
pigeons() {
    awk -v holes="$1" 'BEGIN {
        printf "p cnf %d %d\n", (holes + 1) * holes, holes + 1 + holes * (holes + 1) * holes / 2
        for (i = 0; i <= holes; i++) {
            for (j = 1; j <= holes; j++) printf "%d ", i * holes + j
            print 0
        }
        for (j = 1; j <= holes; j++)
            for (i = 0; i <= holes; i++)
                for (k = i + 1; k <= holes; k++) printf "-%d -%d 0\n", i * holes + j, k * holes + j
    }'
}

# SIZE ONE OTHER: the clauses that give each number up to SIZE one of two colours, so that no ONE numbers of the first colour,
# and no OTHER of the second, are in arithmetic progression.
progressions() {
    awk -v size="$1" -v one="$2" -v other="$3" '
        function add(sign, many, apart, first, k, clause) {
            for (apart = 1; (many - 1) * apart < size; apart++)
                for (first = 1; first + (many - 1) * apart <= size; first++) {
                    clause = ""
                    for (k = 0; k < many; k++) clause = clause sign * (first + k * apart) " "
                    clauses = clauses clause "0\n"
                    count++
                }
        }
        BEGIN { add(1, one); add(-1, other); printf "p cnf %d %d\n%s", size, count, clauses }'
}

# FOLDER: a folder with a formula of four parts, the script of the page, and a program before the built one in the path
# that is killed when it first solves part 2.
prepare() {
    mkdir -p "$1/bin"
    pigeons 7 > "$1/formula.cnf"
    block sh 1 > "$1/part.sh"
    cat > "$1/bin/gipsat" << END
#!/bin/sh
case " \$* " in
    *" --cube 2 "*)
        if [ ! -e "$work/$1/killed" ]; then
            touch "$work/$1/killed"
            "$gipsat" "\$@" & kill -9 \$!
            exit 137
        fi ;;
esac
exec "$gipsat" "\$@"
END
    chmod +x "$1/bin/gipsat"
    "$gipsat" --cubes 4 "$1/formula.cnf" > "$1/cubes"
}

# NAME FOLDER COMMAND..: a command that fails where part 2 is killed, and joins all parts when it is run again.
try_recipe() {
    local name=$1 folder=$2
    shift 2
    is_wanted "$name" || return 0
    prepare "$folder"
    (
        cd "$folder" || exit 2
        PATH=$PWD/bin:$PATH
        ! "$@" && [ -e killed ] && [ ! -e part.2 ] && [ ! -e proof.lrat ] && "$@" && [ "$(ls part.? | wc -l)" = 4 ] \
            && [ "$(gipsat --check formula.cnf proof.lrat)" = "s VERIFIED" ]
    ) > "$work/out" 2> "$work/err"
    told "$name" $?
}

mkdir make parallel
block make 1 > make/Makefile
try_recipe "make goes on after a part was killed" make make -j 2
if command -v parallel > /dev/null; then
    { echo 'set -e -o pipefail' && block sh 2; } > parallel/run.sh
    try_recipe "GNU parallel goes on after a part was killed" parallel bash run.sh
else
    echo "GNU parallel is not installed: its recipe is not tried"
fi

# FOLDER FILE: a folder with a circuit, the script of the page, and a program before the built one in the path that is killed
# when it first answers about bad literal 2.
prepare_circuit() {
    mkdir -p "$1/bin"
    cp "$2" "$1/circuit.aig"
    block sh 3 > "$1/property.sh"
    cat > "$1/bin/gipmc" << END
#!/bin/sh
case " \$* " in
    *" --bad 2 "*)
        if [ ! -e "$work/$1/killed" ]; then
            touch "$work/$1/killed" "$work/$1/part.2"
            exit 137
        fi ;;
esac
exec "$gipmc" "\$@"
END
    chmod +x "$1/bin/gipmc"
}

# NAME FOLDER COMMAND..: a command that fails where the run of bad literal 2 is killed, and certifies all when it is run again.
try_properties() {
    local name=$1 folder=$2
    shift 2
    is_wanted "$name" || return 0
    prepare_circuit "$folder" safe.aag
    (
        cd "$folder" || exit 2
        PATH=$PWD/bin:$PATH
        ! "$@" && [ -e killed ] && [ ! -e says.2 ] && [ ! -e certificate ] && "$@" && [ "$(grep -c '^0$' answers)" = 6 ] \
            && [ "$("$gipmc" --certify certificate circuit.aig)" = "s VERIFIED" ]
    ) > "$work/out" 2> "$work/err"
    told "$name" $?
}

# Six latches, of which each takes the value of the one before it and the first one keeps 0: none rises. In the other circuit
# the first one takes that of an input.
{ echo 'aag 6 0 6 0 0 6' && printf '2 2\n4 2\n6 4\n8 6\n10 8\n12 10\n' && seq 2 2 12; } > safe.aag
{ echo 'aag 7 1 6 0 0 2' && printf '14\n2 14\n4 2\n6 4\n8 6\n10 8\n12 12\n10\n12\n'; } > fails.aag
mkdir makes parallels fails
block make 2 > makes/Makefile
cp makes/Makefile fails
try_properties "make goes on after the answer of a property was killed" makes make -j 2 certificate
if command -v parallel > /dev/null; then
    { echo 'set -e -o pipefail' && block sh 4; } > parallels/run.sh
    try_properties "GNU parallel goes on after the answer of a property was killed" parallels bash run.sh
fi
is_wanted "make replays the traces of a circuit that fails" && {
    prepare_circuit fails fails.aag
    (
        cd fails || exit 2
        PATH=$PWD/bin:$PATH
        make && grep -qx b0 answers && [ "$(gipmc --replay answers circuit.aig)" = "s VERIFIED" ] && ! make certificate \
            && [ ! -e certificate ]
    ) > out 2> err
    told "make replays the traces of a circuit that fails" $?
}

# The parts of a formula, for the faults below.
pigeons 4 > f.cnf
pigeons 5 > other.cnf
"$gipsat" --cubes 4 f.cnf > cubes
for i in 1 2 3 4; do "$gipsat" -q --cube $i --lrat --proof p$i f.cnf cubes > "says$i"; done
"$gipsat" -q --cube 1 --lrat --binary --proof b1 f.cnf cubes > "says1"

# NAME STATUS ERROR OUTPUT ARGUMENT..: joins these, and expects this of it; a file appears where all is verified alone.
try_join() {
    local name=$1 wanted=$2 error=$3 output=$4 status
    shift 4
    is_wanted "$name" || return 0
    rm -f joined
    "$gipsat" "$@" > out 2> err
    status=$?
    [ "$status" = "$wanted" ] && [ "$(cat err)" = "$error" ] && [ "$(cat out)" = "$output" ] \
        && { [ "$wanted" = 0 ] && [ "$("$gipsat" --check f.cnf joined)" = "s VERIFIED" ] || [ ! -e joined ]; }
    told "$name" $?
}

try_join "all parts in any order" 0 "" "s VERIFIED" --join joined f.cnf cubes p3 p1 p4 p2
try_join "a part in bytes, to bytes" 0 "" "s VERIFIED" --join joined --binary f.cnf cubes b1 p2 p3 p4
try_join "a part that is missing" 1 "cubes: no proof of cube 3" "" --join joined f.cnf cubes p1 p2 p4
try_join "a part that is there twice" 1 "p2: another proof of cube 2" "" --join joined f.cnf cubes p1 p2 p2 p3 p4
try_join "no part" 1 "cubes: no proof of cube 1" "" --join joined f.cnf cubes
printf 'p inccnf\na 1 0\n' > half
try_join "cubes that do not cover" 1 "half: propagation does not show that the cubes cover the formula" "" --join joined f.cnf half p1
try_join "a file that is no proof" 1 "cubes: not in the LRAT form" "" --join joined f.cnf cubes cubes
try_join "no file of cubes" 1 "none: no such file" "" --join joined f.cnf none p1
try_join "the joined proof is a part" 1 "p1: is the proof that is read (--force writes over it)" "" --join p1 f.cnf cubes p1 p2 p3 p4
head -n 3 p4 > short
try_join "a part that was cut off" 1 "short: its last clause is not the negation of a cube" "" --join joined f.cnf cubes p1 p2 p3 short
is_wanted "parts of another formula" && {
    "$gipsat" --join joined other.cnf cubes p1 p2 p3 p4 > out 2> err
    [ $? = 1 ] && grep -q '^\(p1\|cubes\):' err && [ ! -s out ] && [ ! -e joined ]
    told "parts of another formula" $?
}
try_join "a cube that is not there" 1 "cubes: no cube 5, of 4" "" --cube 5 f.cnf cubes
try_join "a cube 0" 1 "cubes: no cube 0, of 4" "" --cube 0 f.cnf cubes
printf 'p inccnf\na 1 2\n' > open
try_join "a cube without its 0" 1 "open:2: a question without its 0" "" --cube 1 f.cnf open
printf 'p inccnf\na 99 0\n' > foreign
try_join "a cube of another variable" 1 "--cube: a variable that f.cnf does not have" "" --cube 1 f.cnf foreign
printf 'p cnf 2 2\n1 2 0\n-1 2 0\n' > sat.cnf
"$gipsat" --cubes 2 sat.cnf > sat.cubes
is_wanted "a model under a cube" && {
    "$gipsat" --cube 1 sat.cnf sat.cubes > out 2> err
    [ $? = 10 ] && grep -q '^v .*[ ]2 0$' out
    told "a model under a cube" $?
}

# What is outside of cubes, by the page: nothing, and what satisfies a formula.
mkdir -p rest/bin
ln -s "$gipsat" rest/bin/gipsat
block bash 1 > rest/run.sh
try_rest() {
    is_wanted "$1" || return 0
    cp "$2" rest/formula.cnf
    cp "$3" rest/cubes
    (cd rest && PATH=$PWD/bin:$PATH bash run.sh) > out 2> err
    [ "$(cat out)" = "$4" ]
    told "$1" $?
}
try_rest "nothing is outside of the cubes" f.cnf cubes "s UNSATISFIABLE"
printf 'p inccnf\na 1 2 0\n' > one.cubes
try_rest "a model outside of the cubes" sat.cnf one.cubes "s SATISFIABLE"

# Many cubes, whose literals imply each other.
is_wanted "128 parts" && {
    progressions 55 4 5 > numbers.cnf
    "$gipsat" --cubes 128 numbers.cnf > numbers.cubes
    for i in $(seq 128); do "$gipsat" -q --cube "$i" --lrat --proof "n$i" numbers.cnf numbers.cubes > "says$i"; done
    "$gipsat" --join numbers numbers.cnf numbers.cubes $(seq -f n%g 128) > out 2> err
    [ $? = 0 ] && [ "$("$gipsat" --check numbers.cnf numbers)" = "s VERIFIED" ]
    told "128 parts" $?
}

# Cubes and proofs of formulas that nothing satisfies, changed here and there, about the formula without some clauses, which
# something satisfies.
is_wanted "500 changed cubes and proofs" && {
    python3 - "$gipsat" > out 2> err << 'END'
import pathlib, random, subprocess, sys

gipsat, draw = sys.argv[1], random.Random(11)


def run(*words):
    return subprocess.run([gipsat, *map(str, words)], capture_output=True, text=True)


def write(name, clauses):
    lines = [" ".join(map(str, [*clause, 0])) for clause in clauses]
    pathlib.Path(name).write_text("\n".join([f"p cnf 6 {len(clauses)}", *lines, ""]))


def changed(text):
    lines = text.splitlines()
    place = draw.randrange(len(lines))
    kind = draw.randrange(6)
    if kind == 0:
        del lines[place]
    elif kind == 1:
        lines.insert(place, draw.choice(lines))
    elif kind == 2:
        words = lines[place].split(" ")
        words[draw.randrange(len(words))] = str(draw.randint(-9, 60))
        lines[place] = " ".join(words)
    elif kind == 3:
        lines = lines[:place]
    elif kind == 4:
        return text[: draw.randrange(len(text))] + chr(draw.randrange(1, 127)) + text[draw.randrange(len(text)) :]
    else:
        lines[place] = f"{draw.randint(1, 99)} 0 {draw.randint(1, 30)} 0"
    return "\n".join(lines) + "\n"


def formula():
    """Clauses that nothing satisfies, and some of them that something satisfies."""
    while True:
        clauses = [[draw.choice([v, -v]) for v in draw.sample(range(1, 7), 3)] for _ in range(45)]
        write("whole", clauses)
        if run("-n", "whole").returncode != 20:
            continue
        for length in range(len(clauses), 0, -1):
            write("some", clauses[:length])
            if run("-n", "some").returncode == 10:
                return


tried = joined = 0
while tried < 500:
    formula()
    pathlib.Path("c").write_text(run("--cubes", 3, "whole").stdout)
    count = pathlib.Path("c").read_text().count("a ")
    names = [f"q{i}" for i in range(1, count + 1)]
    for i, name in enumerate(names):
        run("-q", "--cube", i + 1, "--lrat", "--proof", name, "whole", "c")
    texts = {name: pathlib.Path(name).read_text() for name in ["c", *names]}
    for _ in range(25):
        for name in draw.sample(["c", *names], draw.randint(0, min(2, count))):
            pathlib.Path(name).write_text(changed(texts[name]) if texts[name] else "x")
        done = run("--join", "o", "--force", "some", "c", *names)
        tried += 1
        if done.returncode != 1 or done.stdout or not done.stderr or pathlib.Path("o").exists():
            joined += 1
            print("joined", done, {name: pathlib.Path(name).read_text() for name in ["some", "c", *names]})
        for name, text in texts.items():
            pathlib.Path(name).write_text(text)
print(tried, joined)
sys.exit(joined > 0)
END
    told "500 changed cubes and proofs" $?
}
end_rows
