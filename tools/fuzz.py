#!/usr/bin/env python3
"""Compares gipsat, under random options, with other solvers on random formulas.

    tools/fuzz.py --many 10000 crates/gipsat/out/gipsat minisat cadical

The formulas are small: random clauses of many ratios, exclusive or, pigeons, horn clauses, and joins of these. The
answers have to be equal. Each model is tried on its formula here, and each proof is judged by `--check` of gipsat. The
formula N of a seed is the same in each run. One that differs is kept as a file, whose name is printed. The last line
counts; the status is 1 where something differs. It needs the solvers; minisat gets a file for its answer.
"""

import argparse
import collections
import itertools
import os
import pathlib
import random
import shutil
import subprocess
import sys
import tempfile

ANSWERS = {10: "sat", 20: "unsat", 0: "unknown"}


def random_clauses(rng, variables):
    """Clauses of two to five literals, about as many as make both answers likely."""
    ratio = rng.choice((1.5, 3.0, 4.0, 4.26, 4.6, 6.0))
    lengths = rng.choice(((3,), (2, 3), (3, 4), (2, 3, 3, 4, 5)))
    for _ in range(int(variables * ratio)):
        chosen = rng.sample(range(1, variables + 1), min(rng.choice(lengths), variables))
        yield [l * rng.choice((1, -1)) for l in chosen]


def parities(rng, variables):
    """Sums modulo two of three variables."""
    for _ in range(int(variables * rng.choice((0.6, 0.9, 1.0)))):
        chosen, odd = rng.sample(range(1, variables + 1), 3), rng.randrange(2)
        for signs in itertools.product((1, -1), repeat=3):
            if signs.count(-1) % 2 != odd:
                yield [l * sign for l, sign in zip(chosen, signs)]


def pigeons(rng, variables):
    """Pigeons in holes, sometimes with a hole for each."""
    holes = rng.randint(3, 6)
    count = holes + rng.choice((0, 1))
    at = lambda pigeon, hole: pigeon * holes + hole + 1
    for pigeon in range(count):
        yield [at(pigeon, hole) for hole in range(holes)]
    for hole, (one, other) in itertools.product(range(holes), itertools.combinations(range(count), 2)):
        yield [-at(one, hole), -at(other, hole)]


def horn(rng, variables):
    """Clauses with at most one positive literal, and units."""
    for _ in range(variables * 3):
        chosen = rng.sample(range(1, variables + 1), rng.choice((2, 3)))
        yield [-l for l in chosen[1:]] + [chosen[0] * rng.choice((1, 1, 1, -1))]
    for _ in range(rng.randint(1, 4)):
        yield [rng.randint(1, variables)]


def formula(rng):
    """A formula of one or two kinds, its clauses and literals in any order, its variables renamed and negated."""
    variables = rng.choice((6, 20, 50, 90, 130))
    kinds = rng.sample((random_clauses, random_clauses, parities, pigeons, horn), rng.choice((1, 1, 2)))
    clauses = [clause for kind in kinds for clause in kind(rng, variables)]
    variables = max([variables, *(abs(l) for clause in clauses for l in clause)])
    name = list(range(1, variables + 1))
    rng.shuffle(name)
    sign = [rng.choice((1, -1)) for _ in name]
    clauses = [[name[abs(l) - 1] * sign[abs(l) - 1] * (1 if l > 0 else -1) for l in clause] for clause in clauses]
    for clause in clauses:
        rng.shuffle(clause)
    rng.shuffle(clauses)
    return variables, clauses


def options(rng, proof):
    """Options of gipsat that change no answer, and whether it writes a proof."""
    words = rng.choice(([], [], ["--no-eliminate"], ["--no-vivify"], ["--no-simplify"]))
    words = [*words, *rng.choice(([], ["-q"], ["--stats"], ["--relaxed"]))]
    if rng.random() < 0.5:
        return words, False
    forms = rng.choice(([], ["--binary"], ["--lrat"], ["--lrat", "--binary"]))
    return [*words, "--proof", proof, *forms], True


def ask(words):
    """What a solver answers, and its lines."""
    ran = subprocess.run(words, stdin=subprocess.DEVNULL, capture_output=True, text=True, errors="replace")
    return ANSWERS.get(ran.returncode, f"status {ran.returncode}"), ran.stdout.splitlines()


def is_model(clauses, lines):
    """Whether the values of the lines satisfy each clause."""
    true = {int(word) for line in lines if line.startswith("v") for word in line.split()[1:]}
    return not any(-l in true for l in true if l) and all(any(l in true for l in clause) for clause in clauses)


def faults(rng, asked, room, clauses, counts):
    """What is wrong with the answers to the formula in the folder."""
    file, proof = f"{room}/formula.cnf", f"{room}/proof"
    pathlib.Path(proof).unlink(missing_ok=True)
    words, proves = options(rng, proof)
    answer, lines = ask([asked.gipsat, *words, file])
    counts[answer] += 1
    found = [] if answer in ("sat", "unsat") else [f"gipsat {' '.join(words)}: {answer}"]
    if answer == "sat" and not is_model(clauses, lines):
        found.append(f"gipsat {' '.join(words)}: no model")
    if answer == "unsat" and proves:
        counts["proofs"] += 1
        said = ask([asked.gipsat, "--check", file, proof])[1]
        if "s VERIFIED" not in said:
            found.append(f"gipsat {' '.join(words)}: proof {said}")
    for solver in asked.solvers:
        is_minisat = os.path.basename(solver).startswith("minisat")
        other = ask([solver, file, f"{room}/answer"] if is_minisat else [solver, file])[0]
        if other != answer:
            found.append(f"gipsat {' '.join(words)}: {answer}, {solver}: {other}")
    return found


def main():
    parser = argparse.ArgumentParser(description=__doc__, formatter_class=argparse.RawDescriptionHelpFormatter)
    parser.add_argument("--many", type=int, default=1000, metavar="N", help="how many formulas")
    parser.add_argument("--seed", type=int, default=1, metavar="S", help="of which seed")
    parser.add_argument("gipsat", metavar="GIPSAT")
    parser.add_argument("solvers", nargs="*", metavar="SOLVER", help="minisat, cadical or others")
    asked = parser.parse_args()
    for program in [asked.gipsat, *asked.solvers]:
        if not shutil.which(program):
            parser.error(f"{program} cannot be run")
    counts, differ = collections.Counter(), 0
    with tempfile.TemporaryDirectory(prefix="fuzz-") as room:
        for number in range(asked.many):
            rng = random.Random(f"{asked.seed} {number}")
            variables, clauses = formula(rng)
            text = "".join(" ".join(map(str, [*clause, 0])) + "\n" for clause in clauses)
            pathlib.Path(room, "formula.cnf").write_text(f"p cnf {variables} {len(clauses)}\n{text}")
            found = faults(rng, asked, room, clauses, counts)
            if found:
                differ += 1
                kept = f"fuzz-{asked.seed}-{number}.cnf"
                shutil.copyfile(f"{room}/formula.cnf", kept)
                print(f"{kept}: {'; '.join(found)}", flush=True)
    told = ", ".join(f"{count} {what}" for what, count in sorted(counts.items()))
    print(f"{asked.many} formulas: {told}; {differ} differ")
    sys.exit(differ > 0)


if __name__ == "__main__":
    main()
