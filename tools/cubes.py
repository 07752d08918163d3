#!/usr/bin/env python3
"""Times formulas that are split by cubes: one process, and parts that several processors solve (docs/MANY.md).

    tools/cubes.py crates/gipsat/out/gipsat                   all formulas, by 32 parts and 1, 2 and 4 processors
    tools/cubes.py crates/gipsat/out/gipsat --balance         the conflicts of the parts alone
    tools/cubes.py --list                                     the names of the formulas

For each formula a process solves it whole, and then its parts, so many processors at a time; their proofs are joined,
and the joined proof is checked. All proofs are in the LRAT form, as text. It prints seconds of the clock and of
processors (user and system), the megabytes of memory at most, and the bytes of proofs. It needs /usr/bin/time and
taskset.

Beside a speed-up stands what the machine can give: so many copies of the part that took longest run at a time, one on
each processor. Their number, by how much longer that takes than one alone, is the speed-up of parts that share nothing
but the machine. It is below the number where processors are threads of one core, or where other programs run.

    --formulas NAME,..   these formulas; another name is that of a file
    --parts N,..         how many cubes there are at most, 32 where it is not given
    --workers N,..       how many processors solve parts at a time, 1,2,4 where it is not given
    --processors N,..    the processors, of which the first ones are taken, 0,1,2,3 where it is not given
    --balance            solve each part once, by all processors, and print how many conflicts it has
    --whole              solve no parts

On a machine that does other work it belongs behind `nice -n -18`. A formula that is not refuted, or a proof that is not
verified, ends it with status 1.
"""

import argparse
import queue
import random
import re
import shutil
import statistics
import subprocess
import sys
import tempfile
import time
from concurrent.futures import ThreadPoolExecutor
from pathlib import Path
from typing import NamedTuple

from formulas import Row

# Formulas that nothing satisfies.
FORMULAS = {
    "random-300": Row("random-300", "random_clauses", "unsat", 5, (300, 3, 4.4)),
    "pigeons-8": Row("pigeons-8", "pigeonhole", "unsat", 0, (8,)),
    "pigeons-10": Row("pigeons-10", "pigeonhole", "unsat", 0, (10,)),
    "vdw-55": Row("vdw-55", "progressions", "unsat", 1, (55, 4, 5)),
    "vdw-114": Row("vdw-114", "progressions", "unsat", 1, (114, 3, 11)),
    "vdw-142": Row("vdw-142", "progressions", "unsat", 1, (142, 3, 12)),
    "multipliers-6": Row("multipliers-6", "multipliers", "unsat", 0, (6,)),
    "multipliers-8": Row("multipliers-8", "multipliers", "unsat", 0, (8,)),
}


# The seconds of the clock that /usr/bin/time tells apart.
TICK = 0.01


class Cost(NamedTuple):
    """What a run takes: seconds of the clock and of processors, and megabytes; and how many conflicts it tells."""

    clock: float
    processor: float
    megabytes: float
    conflicts: int


def run(words, processors, wanted):
    """Runs a program on some processors, and expects its status."""
    with tempfile.NamedTemporaryFile("r") as told:
        pinned = ["taskset", "-c", ",".join(map(str, processors))]
        words = ["/usr/bin/time", "-f", "%e %U %S %M", "-o", told.name, *pinned, *map(str, words)]
        done = subprocess.run(words, capture_output=True, text=True)
        if done.returncode != wanted:
            sys.exit(f"{' '.join(words)}: status {done.returncode}\n{done.stdout[:300]}{done.stderr[:300]}")
        clock, user, system, kilobytes = map(float, told.read().splitlines()[-1].split())
    found = re.findall(r"(\d+) conflicts", done.stderr)
    return Cost(clock, user + system, kilobytes / 1024, int(found[-1]) if found else 0)


class Split:
    """A formula in a folder, and its cubes."""

    def __init__(self, gipsat, formula, folder, most, processor):
        self.gipsat, self.formula, self.folder = gipsat, formula, folder
        self.cubes = folder / "cubes"
        words = ["sh", "-c", '"$0" -q --cubes "$1" "$2" > "$3"', gipsat, most, formula, self.cubes]
        self.choice = run(words, [processor], 0)
        self.count = self.cubes.read_text().count("a ")

    def proof(self, number):
        return self.folder / f"part.{number}"

    def solve(self, number, processors):
        """Solves a part, and leaves its proof."""
        proof = ["--lrat", "--force", "--proof", self.proof(number)]
        words = [self.gipsat, "-n", "--stats", "--cube", number, *proof, self.formula, self.cubes]
        return run(words, processors, 20)

    def solve_all(self, processors):
        """Solves all parts, one at a time on each processor: the seconds of the clock, and what each part takes."""
        free = queue.SimpleQueue()
        for processor in processors:
            free.put(processor)

        def solve(number):
            processor = free.get()
            try:
                return self.solve(number, [processor])
            finally:
                free.put(processor)

        begin = time.monotonic()
        with ThreadPoolExecutor(len(processors)) as pool:
            costs = list(pool.map(solve, range(1, self.count + 1)))
        return time.monotonic() - begin, costs

    def copies(self, number, processors):
        """The seconds of the clock in which each of the processors solves the part once."""

        def solve(processor):
            proof = ["--lrat", "--force", "--proof", self.folder / f"copy.{processor}"]
            words = [self.gipsat, "-q", "-n", "--cube", number, *proof, self.formula, self.cubes]
            return run(words, [processor], 20).clock

        with ThreadPoolExecutor(len(processors)) as pool:
            return max(TICK, statistics.mean(pool.map(solve, processors)))

    def join(self, processor):
        """Joins the proofs, and checks the joined one: what both take, and its bytes."""
        joined = self.folder / "joined"
        proofs = map(self.proof, range(1, self.count + 1))
        join = run([self.gipsat, "--force", "--join", joined, self.formula, self.cubes, *proofs], [processor], 0)
        check = run([self.gipsat, "--check", self.formula, joined], [processor], 0)
        return join, check, joined.stat().st_size


def spread(costs):
    """Least and greatest numbers of conflicts, and the greatest by the least and by the mean."""
    conflicts = [cost.conflicts for cost in costs]
    least, greatest, total = min(conflicts), max(conflicts), sum(conflicts)
    ratios = f"{greatest / max(least, 1):.1f} and {greatest * len(conflicts) / max(total, 1):.1f}"
    return f"{total} conflicts, {least} to {greatest}: greatest by least and by mean {ratios}"


def tell(name, text):
    print(f"{name}: {text}", flush=True)


def told(cost):
    return f"{cost.clock:.1f} s, {cost.processor:.1f} s of a processor, {cost.megabytes:.0f} MB"


def measure_whole(name, gipsat, formula, folder, processor):
    """Solves a formula, and checks its proof: the seconds of the clock."""
    proof = folder / "whole"
    words = [gipsat, "-n", "--stats", "--lrat", "--force", "--proof", proof, formula]
    whole = run(words, [processor], 20)
    check = run([gipsat, "--check", formula, proof], [processor], 0)
    size = proof.stat().st_size
    tell(name, f"whole {told(whole)}, {whole.conflicts} conflicts; proof {size} bytes, check {told(check)}")
    return whole.clock


def measure_parts(name, split, whole, workers, processors):
    """Solves the parts with each number of workers."""
    first = alone = longest = 0
    for count in workers:
        used = processors[:count]
        clock, costs = split.solve_all(used)
        if not first:
            tell(name, f"{split.count} parts, chosen in {told(split.choice)}; {spread(costs)}")
            first = clock
            longest = max(range(split.count), key=lambda index: costs[index].clock) + 1
            alone = split.copies(longest, used[:1])
        given = count * alone / split.copies(longest, used)
        spent = sum(cost.processor for cost in costs)
        last = max(cost.clock for cost in costs)
        text = f"{clock:.1f} s, {spent:.1f} s of processors, longest {last:.1f} s"
        ratios = f"{whole / clock:.2f} of whole, {first / clock:.2f} of the first, the machine's {given:.2f}"
        tell(name, f"{split.count} parts by {count}: {text}; speed-up {ratios}")


def measure(name, words, formula, folder):
    """Measures a formula."""
    first, *_ = words.processors
    whole = 0 if words.balance else measure_whole(name, words.gipsat, formula, folder, first)
    for most in [] if words.whole else words.parts:
        split = Split(words.gipsat, formula, folder, most, first)
        if words.balance:
            _, costs = split.solve_all(words.processors)
            tell(name, f"{split.count} parts: {spread(costs)}")
            continue
        measure_parts(name, split, whole, words.workers, words.processors)
        join, check, size = split.join(first)
        tell(name, f"{split.count} parts: join {told(join)}; {size} bytes; check {told(check)}")


def numbers(text):
    return [int(word) for word in text.split(",")]


def parse(words):
    parser = argparse.ArgumentParser(description=__doc__, formatter_class=argparse.RawDescriptionHelpFormatter)
    parser.add_argument("gipsat", nargs="?", metavar="GIPSAT")
    parser.add_argument("--formulas", metavar="NAME,..", default=",".join(FORMULAS))
    parser.add_argument("--parts", type=numbers, default=[32], metavar="N,..")
    parser.add_argument("--workers", type=numbers, default=[1, 2, 4], metavar="N,..")
    parser.add_argument("--processors", type=numbers, default=[0, 1, 2, 3], metavar="N,..")
    parser.add_argument("--balance", action="store_true")
    parser.add_argument("--whole", action="store_true")
    parser.add_argument("--list", action="store_true")
    found = parser.parse_args(words)
    found.formulas = found.formulas.split(",")
    for name in found.formulas:
        if name not in FORMULAS and not Path(name).is_file():
            parser.error(f"there is no formula '{name}'")
    if not found.list and not shutil.which(found.gipsat or ""):
        parser.error(f"there is no program '{found.gipsat or ''}'")
    if max(found.workers) > len(found.processors):
        parser.error("there are fewer processors than workers")
    return found


def main():
    words = parse(sys.argv[1:])
    if words.list:
        print("\n".join(FORMULAS))
        return
    for name in words.formulas:
        with tempfile.TemporaryDirectory(prefix="cubes-") as room:
            folder = Path(room)
            formula = Path(name)
            if name in FORMULAS:
                formula = folder / "formula.cnf"
                FORMULAS[name].write(formula)
            measure(Path(name).name, words, formula, folder)


if __name__ == "__main__":
    main()
