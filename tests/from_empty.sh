#!/usr/bin/env bash
# Tries what docs/ELSEWHERE.md says of a repository that takes the heap, the solver or the engines: makes an empty one
# with the folders and the lines of crates.txt that are named there and no others, and a caller of each, which is the file
# that its page shows, and runs rt ci there. What rt ci has proved on this machine of the same files, it takes.
# The last line is 'N passed, M failed': a row for each caller, and one for rt ci, which tries more than these.
set -uo pipefail
# shellcheck source=tests/usage.sh
source "$(dirname "$0")/usage.sh"
take_arguments tests/from_empty.sh "$@"
here=$(cd "$(dirname "$0")/.." && pwd) || exit 2
there=$(mktemp -d) || exit 2
trap 'rm -rf "$there"' EXIT
cd "$there" && git init -q . && touch crates.txt || exit 2

# Takes the folders of crates, and their lines of crates.txt. Not each has all three.
take() {
    local crate part
    for crate in "$@"; do
        mkdir -p "crates/$crate"
        for part in src specs proofs; do
            [ ! -d "$here/crates/$crate/$part" ] || cp -r "$here/crates/$crate/$part" "crates/$crate" || exit 2
        done
        grep "^$crate:" "$here/crates.txt" >> crates.txt || exit 2
    done
}

# Makes a crate of a module of another one, with the proofs that are named: a caller of the libraries.
call() {
    local caller=$1 crate=$2 module=$3 libraries=$4 name
    rt new "crates/$caller" start_lib > log 2>&1 || exit 2
    rm -rf "crates/$caller"/{src,specs,proofs}
    mkdir "crates/$caller/src"
    name=$(basename "$module")
    cp "$here/crates/$crate/src/$module.rt" "crates/$caller/src/$name.rt" || exit 2
    printf '%s\n' "//! A caller of $libraries." '#![tactic(auto)]' '' "pub mod $name;" > "crates/$caller/src/lib.rt"
    for name in "${@:5}"; do
        mkdir -p "crates/$caller/proofs/$(dirname "$name")"
        sed "s/Rattle\.$crate\./Rattle.$caller./" "$here/crates/$crate/proofs/$name.antt" \
            > "crates/$caller/proofs/$name.antt" || exit 2
        [ "$(dirname "$name")" != . ] || echo "mod $name" >> "crates/$caller/proofs/Lib.antt"
    done
    printf '%s\n' "$caller: $libraries" >> crates.txt
}

take giputils_vec giputils_bounded giputils_heap gipsat_cnf gipsat_kernel gipsat_search gipsat_solver
take giputils_hash giputils_index giputils_bits gipsat_plain
take gipmc_circuits gipmc_unroll gipmc_reduce gipmc_ic3 gipmc_engines
call heap_caller giputils_uses heap_caller giputils_heap
call solver_caller gipsat_uses first_question "gipsat_solver gipsat_cnf" FirstQuestion first_question/ask/Answers
call engine_caller gipmc_uses pages/verdict "gipmc_engines gipmc_circuits gipsat_cnf gipsat_plain"

# What a row that fails shows.
seen() {
    tail -n 1 log
}

began=$SECONDS
rt ci > log 2>&1
status=$?
echo "rt ci took $((SECONDS - began)) s"
if [ "$status" -eq 0 ]; then
    grep '^rt: ok' log
else
    cat log
fi
for caller in heap_caller solver_caller engine_caller; do
    grep -qE "^rt: $caller (proved|is kept)" log
    told "$caller" $?
done
told rt_ci "$status"
end_rows
