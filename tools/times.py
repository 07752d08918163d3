#!/usr/bin/env python3
"""Runs ./test, and prints where its processor time went, by crate and by stage, beside the time of a yardstick.

It shows what ./test prints, and then tables for docs/SPEED.md. It takes as long as ./test, and a minute more.

The yardstick is the check of one small crate from nothing, before ./test and after it. By it the figures of two
machines compare, and of one whose processors are lent out to others.

The processes are looked at five times a second. The processor time of the prover's is added up by crate and by what
they prove: the crate, or mutants of it. What they take between the last look and their end is no part of that. Stages are
the commands that ./test runs. What is no proof of a crate is compilers, trials, programs and scripts.
"""

import argparse
import collections
import os
import pathlib
import re
import resource
import shutil
import subprocess
import sys
import tempfile
import time

ROOT = pathlib.Path(__file__).resolve().parent.parent
# It stands on the kit alone.
YARDSTICK = "giputils_refusing"
PARTS = ("proof", "mutants")
TICKS = os.sysconf("SC_CLK_TCK")


def children_seconds():
    """The processor time of all processes that have ended below this one."""
    used = resource.getrusage(resource.RUSAGE_CHILDREN)
    return used.ru_utime + used.ru_stime


def yardstick():
    """The processor time that a check of the yardstick takes from nothing."""
    line = next(line for line in (ROOT / "crates.txt").read_text().splitlines() if line.startswith(f"{YARDSTICK}:"))
    with tempfile.TemporaryDirectory(prefix="giputils-times-") as room:
        shutil.copytree(ROOT / "crates" / YARDSTICK, f"{room}/crates/{YARDSTICK}", ignore=shutil.ignore_patterns("out"))
        pathlib.Path(room, "crates.txt").write_text(line + "\n")
        # From nothing: a text of which no check on this machine has kept anything, and an empty folder to keep it in.
        with open(f"{room}/crates/{YARDSTICK}/src/lib.rt", "a") as text:
            text.write(f"// {time.time()}\n")
        pathlib.Path(room, "crates", YARDSTICK, "out", "incremental").mkdir(parents=True)
        before = children_seconds()
        subprocess.run(["rt", "check", "--jobs", "1"], cwd=f"{room}/crates/{YARDSTICK}", stdout=subprocess.DEVNULL, check=True)
        return children_seconds() - before


def processes():
    """Each process: its number, its parent's, the seconds that it has taken, and those with its children that have ended."""
    for name in filter(str.isdigit, os.listdir("/proc")):
        try:
            stat = pathlib.Path(f"/proc/{name}/stat").read_text(errors="replace")
        except OSError:
            continue
        fields = stat.rpartition(")")[2].split()
        own, children = sum(map(int, fields[11:13])), sum(map(int, fields[13:15]))
        yield int(name), int(fields[1]), own / TICKS, (own + children) / TICKS


def words_of(process):
    """The words of a process's command, none where it has ended."""
    try:
        return pathlib.Path(f"/proc/{process}/cmdline").read_text(errors="replace").split("\0")[:-1]
    except OSError:
        return []


def part_of(process):
    """The crate that a process of the prover works for, and which part of it, or None for another process."""
    words = words_of(process)
    if "--crate-name" not in words or not words[0].endswith("rattle"):
        return None
    try:
        folder = os.readlink(f"/proc/{process}/cwd")
    except OSError:
        return None
    crate = words[words.index("--crate-name") + 1]
    if pathlib.Path(folder).is_relative_to(ROOT):
        return crate, "proof"
    # Mutants are checked in a copy of the crate; what stands elsewhere is no crate of this repository.
    return (crate, "mutants") if "/giputils-mutant-" in folder else None


class Gate:
    """A run of ./test, and what was seen of its processes so far."""

    def __init__(self):
        self.run = subprocess.Popen([ROOT / "test"], cwd=ROOT)
        self.proofs, self.stages = {}, {}

    def look(self):
        """Notes what each process of the prover, and each stage, has taken so far."""
        found = {process: rest for process, *rest in processes()}
        seconds = collections.Counter()
        for process, (_, own, whole) in found.items():
            if stage := self.stage_of(process, found):
                seconds[stage] += whole
                if part := part_of(process):
                    self.proofs[process, stage, *part] = own
        for stage, each in seconds.items():
            self.stages[stage] = max(each, self.stages.get(stage, 0))

    def stage_of(self, process, found):
        """The stage that a process works for, or None: the script above it that the gate runs."""
        script = ""
        while process in found and process != self.run.pid:
            words = words_of(process)[1:3]
            # A shell of the gate itself has its words.
            if words and words[0].startswith("tests/"):
                script = words[0]
            elif words[1:] == ["ci"]:
                script = "rt ci"
            process = found[process][0]
        return script if process == self.run.pid else None


def crates():
    """The crates of the repository, as crates.txt lists them."""
    lines = (ROOT / "crates.txt").read_text(encoding="utf-8").splitlines()
    return [match[1] for match in map(re.compile(r"(\w+)[^#:]*:").match, lines) if match]


def print_crates(sums):
    """Prints the seconds of the prover by crate and part."""
    print("\n| Crate | Proof | Mutants |\n|---|---|---|")
    for crate in crates():
        cells = [f"{sums[crate, part]:.0f}" if sums[crate, part] else "" for part in PARTS]
        print(f"| `{crate}` | {' | '.join(cells)} |")
    parts = [sum(sums[crate, part] for crate in crates()) / 60 for part in PARTS]
    print(f"| all, in minutes | {' | '.join(f'{part:.1f}' for part in parts)} |")


def print_stages(stages, proofs):
    """Prints the minutes of each stage, and how many of them are no proof of a crate."""
    print("\n| Stage | Processor minutes | No proof of a crate |\n|---|---|---|")
    for stage, seconds in sorted(stages.items(), key=lambda row: -row[1]):
        print(f"| `{stage}` | {seconds / 60:.1f} | {(seconds - proofs[stage]) / 60:.1f} |")


def main():
    argparse.ArgumentParser(description=__doc__, formatter_class=argparse.RawDescriptionHelpFormatter).parse_args()
    before = yardstick()
    start, began = children_seconds(), time.monotonic()
    gate = Gate()
    while gate.run.poll() is None:
        gate.look()
        time.sleep(0.2)
    minutes, seconds = (time.monotonic() - began) / 60, children_seconds() - start
    after = yardstick()
    by_part, by_stage, known = collections.Counter(), collections.Counter(), set(crates())
    for (_, stage, crate, part), each in gate.proofs.items():
        if crate in known:
            by_part[crate, part] += each
            by_stage[stage] += each
    print_crates(by_part)
    print_stages(gate.stages, by_stage)
    rest = (seconds - sum(by_part.values())) / 60
    print(f"\n{seconds / 60:.0f} processor minutes in {minutes:.0f} minutes, {rest:.0f} of them no proof of a crate")
    print(f"yardstick: {before:.0f} s before, {after:.0f} s after; the whole took {2 * seconds / (before + after):.0f} of it")
    return gate.run.returncode


if __name__ == "__main__":
    sys.exit(main())
