#!/usr/bin/env python3
"""Times the workloads of giputils_bench beside those of other programs, and names the ratios that got worse.

Run it by hand, where a change touches a container or its workloads. FILE is the program, by default
crates/giputils_bench/out/giputils_bench, which `rt run` makes in crates/giputils_bench. DIR holds the programs to
compare with (by default the one that the variable GIPUTILS_PEERS names): bench-giputils, over the Rust crate giputils,
and others with names bench-*. Each takes WORKLOAD SIZE SEED REPS, runs the workload REPS times, each with the
generator PCG32 of giputils_bench and the next seed, and writes the same checksum as giputils_bench. Status 3 tells
that it lacks the workload. Without DIR only the ratios of two workloads of giputils_bench are measured.

The workloads of the solver, `calls` and `calls_within`, are measured where they are named, and by another program:
trials/out/gipsat_bench, which tests/trials.py builds without proofs. A proved one is faster; tools/unproved.py --help says by
how much. Their ratios are not stored.

A line of tools/speed.txt is a ratio of user times: WORKLOAD SIZE REPS OTHER RATIO NOISE, the time of giputils_bench by
the time of OTHER, a program, or a workload of giputils_bench. The programs of a workload run by turns, N times (7) on
one processor. A time is the least of a program's, since other work on the machine only adds to it. In each turn
giputils_bench runs twice. The noise is how far the least of its first runs is from that of its second runs, or the
ratio of every other turn from that of the rest, whichever is more. A ratio is worse than the stored one if it is above
it by more than both noises together; then the status is 1. It is better likewise. Behind it stands the median of the
turns' ratios, where the two runs of giputils_bench count by their mean, with the least and the greatest of them.

Where valgrind is installed, a ratio at up to 10 000 has that of instructions beside it, which no other work on the
machine changes. They are the difference between 40 and 20 runs of the workload, so that no program's start counts. The
workloads of the solver, which take long, have none.

With --size, it measures at this size alone, and compares and stores nothing. With --write, the ratios of a workload
replace the stored ones as soon as they are measured, and the table of crates/giputils_bench/README.md is made of all
that are stored.
"""
import argparse
import os
import pathlib
import re
import shutil
import statistics
import subprocess
import sys

TOP = pathlib.Path(__file__).resolve().parent.parent
STORED = TOP / "tools/speed.txt"
PAGE = TOP / "crates/giputils_bench/README.md"
BEGIN, END = "<!-- speed -->\n", "<!-- end -->\n"
CRATE = "giputils"
SEED = "7"
SIZES = (1000, 1000000)
# The workloads of the solver, and how many questions they ask.
OF_SOLVER = ("calls", "calls_within")
CALLS = (1000, 100000)
# What runs the workloads of containers, what runs those of the solver, and how each is made.
PROGRAMS = (
    ("crates/giputils_bench/out/giputils_bench", "`rt run` in crates/giputils_bench"),
    ("trials/out/gipsat_bench", "tests/trials.py gipsat_bench"),
)
# The system counts no shorter user time well, and sometimes tells 0.
SHORTEST = 0.001
# How often a workload runs at the greater of its sizes; at the lesser one as much oftener.
REPS = {
    "bits_hex": 100,
    "bits_logic": 50,
    "bits_eq": 50,
    "bits_count": 50,
    "bits_push": 20,
    "bits_bin": 20,
    "bits_append": 50,
    "bits_ones": 10,
    "bits_few": 10,
    "bits_subset": 10,
    "bits_get": 5,
}
# Instructions are counted between so many runs of a workload, up to this size.
COUNTED = (20, 40)
MOST_COUNTED = 10000
# The other workload that does the same in another way.
TWINS = {
    "rebuild": ("rebuild_by_update", "rebuild_std"),
    "bits_append": ("bits_append_by_push",),
    "vsids_up": ("vsids",),
    "galloc_table": ("galloc",),
    "calls_within": ("calls",),
}
# A peer that lacks a workload may have the same under another name.
ALIASES = {"galloc_table": "galloc", "calls_within": "calls"}


def sizes(workload):
    return CALLS if workload in OF_SOLVER else SIZES


def workloads():
    source = (TOP / "crates/giputils_bench/src/main.rt").read_text()
    return re.findall(r'"(\w+)"', re.search(r"const WORKLOADS.*?= \[(.*?)\];", source, re.S)[1])


def run(program, workload, size, reps):
    """The user time of a run in seconds and its checksum; None where the program lacks the workload."""
    words = [program, workload, str(size), SEED, str(reps)]
    process = subprocess.Popen(words, stdout=subprocess.PIPE, stderr=subprocess.DEVNULL)
    said = process.stdout.read().decode().strip()
    _, status, usage = os.wait4(process.pid, 0)
    process.returncode = status = os.waitstatus_to_exitcode(status)
    if status == 3:
        return None
    if status:
        sys.exit(f"speed.py: {program} {workload} {size} {SEED} {reps} ended with status {status}")
    return max(usage.ru_utime, SHORTEST), said


def instructions(program, workload, size):
    """How many instructions the runs of a workload take between the two counts."""
    few, many = (collected(program, workload, size, reps) for reps in COUNTED)
    return many - few


def collected(program, workload, size, reps):
    """The instructions of a process, as valgrind counts them."""
    words = ["valgrind", "--tool=callgrind", "--callgrind-out-file=/dev/null", program, workload, str(size), SEED, str(reps)]
    process = subprocess.run(words, stdout=subprocess.DEVNULL, stderr=subprocess.PIPE, text=True, check=True)
    return int(re.search(r"Collected : (\d+)", process.stderr)[1])


def counted(program, others, workload, size):
    """For each other, the ratio of instructions, or none where they are not counted."""
    if size > MOST_COUNTED or workload in OF_SOLVER or not shutil.which("valgrind"):
        return {}
    ours = instructions(program, workload, size)
    return {name: ours / instructions(path, twin, size) for name, (path, twin) in others.items()}


def rivals(program, peers, workload, size, reps):
    """What runs beside a workload: names with a program and its workload each. All write the same checksum."""
    wanted = run(program, workload, size, reps)[1]
    found = {}
    for name, path in peers.items():
        said = run(path, ALIASES.get(workload, workload), size, reps)
        if said and said[1] != wanted:
            sys.exit(f"speed.py: at {workload} {size} {path} writes the checksum {said[1]}, and {program} {wanted}")
        if said:
            found[name] = (path, ALIASES.get(workload, workload))
    found |= {twin: (program, twin) for twin in TWINS.get(workload, ())}
    return found


def least_ratio(ours, theirs):
    return min(ours) / min(theirs)


def distance(one, other):
    """By how much the greater of two numbers is above the other."""
    return max(one, other) / min(one, other) - 1


def measured(program, others, workload, size, reps, turns):
    """For each other, the ratio of the least times, the noise, and the ratio of each turn."""
    first, second, times = [], [], {name: [] for name in others}
    for _ in range(turns):
        first.append(run(program, workload, size, reps)[0])
        for name, (path, twin) in others.items():
            times[name].append(run(path, twin, size, reps)[0])
        second.append(run(program, workload, size, reps)[0])
    found = {}
    for name, theirs in times.items():
        halves = [least_ratio(first[k::2] + second[k::2], theirs[k::2]) for k in (0, 1)]
        noise = max(distance(min(first), min(second)), distance(*halves))
        by_turn = [(one + two) / (2 * other) for one, two, other in zip(first, second, theirs)]
        found[name] = (least_ratio(first + second, theirs), noise, by_turn)
    return found


def load():
    rows = {}
    for line in STORED.read_text().splitlines() if STORED.is_file() else []:
        workload, size, reps, other, ratio, noise = line.split()
        rows[workload, int(size), other] = (int(reps), float(ratio), float(noise))
    return rows


def best(rows, workload, size):
    """The fastest of the peers besides the Rust crate: against it this program's ratio is greatest."""
    no_peers = (CRATE, *TWINS.get(workload, ()))
    names = [other for w, s, other in rows if (w, s) == (workload, size) and other not in no_peers]
    return max(names, key=lambda name: rows[workload, size, name][1], default=None)


def write(rows):
    order = workloads()
    keys = sorted(rows, key=lambda key: (order.index(key[0]), key[1], key[2]))
    lines = [f"{w} {s} {rows[w, s, o][0]} {o} {rows[w, s, o][1]:.2f} {rows[w, s, o][2]:.2f}" for w, s, o in keys]
    STORED.write_text("".join(f"{line}\n" for line in lines))
    table = f"| Workload | Other | 1000 | {max(SIZES)} |\n|---|---|---|---|\n"
    for workload in order:
        others = {other for w, _, other in keys if w == workload}
        others = sorted(others, key=lambda other: (other != CRATE, other in order, other))
        for other in others:
            cells = [rows.get((workload, size, other)) for size in sizes(workload)]
            shown = " | ".join(f"{cell[1]:.2f} ± {cell[2]:.2f}" if cell else "" for cell in cells)
            name = "the Rust crate" if other == CRATE else f"`{other}`" if other in order else other
            table += f"| `{workload}` | {name} | {shown} |\n"
    page = PAGE.read_text()
    before, rest = page.split(BEGIN)
    PAGE.write_text(before + BEGIN + table + END + rest.split(END, 1)[1])


def main():
    parser = argparse.ArgumentParser(description=__doc__, formatter_class=argparse.RawDescriptionHelpFormatter)
    parser.add_argument("--program", metavar="FILE")
    parser.add_argument("--peers", default=os.environ.get("GIPUTILS_PEERS"), metavar="DIR")
    parser.add_argument("--turns", type=int, default=7, metavar="N", help="at least 2")
    parser.add_argument("--processor", type=int, metavar="N")
    parser.add_argument("--size", type=int, metavar="N")
    parser.add_argument("--write", action="store_true")
    parser.add_argument("workloads", nargs="*", metavar="WORKLOAD")
    said = parser.parse_args()
    if said.turns < 2:
        parser.error("--turns is at least 2, since the noise is measured between turns")
    if said.size is not None and (said.write or not 1000 <= said.size <= max(SIZES)):
        parser.error(f"--size is from 1000 to {max(SIZES)}, and does not go with --write")
    known = workloads()
    unknown = [it for it in said.workloads if it not in (*known, *OF_SOLVER)]
    if unknown:
        parser.error(f"no workload has the name {unknown[0]}; there are {' '.join((*known, *OF_SOLVER))}")
    of_solver = [it for it in said.workloads if it in OF_SOLVER]
    if of_solver and (said.write or len(of_solver) < len(said.workloads)):
        parser.error(f"{of_solver[0]} is of another program, and does not go with --write or with workloads of containers")
    program, way = PROGRAMS[bool(of_solver)]
    said.program = said.program or str(TOP / program)
    if not os.access(said.program, os.X_OK):
        parser.error(f"there is no program {said.program}: make it by {way}")
    folder = sorted(pathlib.Path(said.peers).glob("bench-*")) if said.peers else []
    if said.peers and not folder:
        parser.error(f"no program in {said.peers} has a name bench-*")
    peers = {path.name.removeprefix("bench-"): str(path) for path in folder if os.access(path, os.X_OK)}
    os.sched_setaffinity(0, {max(os.sched_getaffinity(0)) if said.processor is None else said.processor})
    rows, worse = load(), 0
    for workload in said.workloads or known:
        for size in [said.size] if said.size else sizes(workload):
            reps = REPS.get(workload, 1) * max(sizes(workload)) // size
            others = rivals(said.program, peers, workload, size, reps)
            fastest = best(rows, workload, size)
            if not said.write and not said.size and fastest:
                others = {name: it for name, it in others.items() if name in (CRATE, fastest, *TWINS.get(workload, ()))}
            if not others:
                continue
            found = measured(said.program, others, workload, size, reps, said.turns)
            by_count = counted(said.program, others, workload, size)
            new = {(workload, size, name): (reps, *it[:2]) for name, it in found.items()}
            if said.write:
                kept = {CRATE, best(new, workload, size), *TWINS.get(workload, ())}
                rows = {key: it for key, it in rows.items() if key[:2] != (workload, size) or not peers}
                rows |= {key: it for key, it in new.items() if key[2] in kept}
                write(rows)
            for (_, _, name), (_, ratio, noise) in new.items():
                _, old, old_noise = (reps, None, 0) if said.size else rows.get((workload, size, name), (reps, None, 0))
                word = ""
                if old and not said.write:
                    margin = 1 + noise + old_noise
                    word = "WORSE" if ratio > old * margin else "better" if ratio * margin < old else "as stored"
                worse += word == "WORSE"
                stored = f", stored {old:.2f} ± {old_noise:.2f}: {word}" if word else ""
                count = f", {by_count[name]:.2f} of its instructions" if name in by_count else ""
                turns = found[name][2]
                middle = f", turns {statistics.median(turns):.2f} ({min(turns):.2f} to {max(turns):.2f})"
                print(f"{workload} {size} to {name}: {ratio:.2f} ± {noise:.2f}{stored}{count}{middle}", flush=True)
    if worse:
        sys.exit(f"speed.py: ratios that are worse than the stored ones: {worse}")


if __name__ == "__main__":
    main()
