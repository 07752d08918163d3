#!/usr/bin/env python3
"""Runs gipmc and abc by turns on a folder of circuits, judges their answers, and prints tables.

    tools/beside.py FOLDER PROGRAM..      runs the programs on each file FOLDER/*.aig; a line for each, then the tables
    tools/beside.py --table FILE [PROGRAM..]
                                          prints the tables of runs that were kept: of all, or of these programs alone;
                                          --table may stand several times

A PROGRAM is gipmc with its options, or the commands of abc behind `abc`, which get the circuit with its constraints
folded in: "crates/gipmc/out/gipmc --engine ic3", "abc pdr", "abc scorr; pdr", "abc dprove", or "abc pdr -a", which
answers each of many bad literals. abc has the name berkeley-abc. Each line of the file that --keep names has the runs of a circuit.

    --limit SECONDS     processor time that a run may take, 10 where it is not given
    --processor N       the processor on which all programs run, in their turn
    --keep FILE         adds each run to this file; what stands there already is run again only if it was left open with
                        a smaller limit
    --family NAME,..    the circuits of these families (how their names begin)
    --least SECONDS     the processor time that one of two programs takes where their times are compared, 0.1 where it
                        is not given

Answers of two programs to one bad literal are compared, and each trace is replayed here by a simulation that shares
nothing with the programs; a fault is told on the circuit's line, and the status is 1. Of the tables, one counts the bad
literals that each program decided; one compares the first program's times with those of each other; one has the memory;
the last one names the circuits that the first program leaves open or is slow on. Times are processor times, of the user
and of the system, with reading. It needs Linux, /usr/bin/time, and stdbuf for abc.
"""

import argparse
import collections
import contextlib
import json
import math
import os
import re
import shlex
import shutil
import signal
import subprocess
import sys
import tempfile
import time
from pathlib import Path
from typing import NamedTuple

from lib import aiger

ABC = "berkeley-abc"
# Of two times below this the ratio is noise.
LEAST = 0.1
# How many times another's time the first one's is where it is named as slow.
SLOW = 3


class Run(NamedTuple):
    """A letter for each bad literal (s safe, f fails, - open), what it took and might take, and whether a trace was
    refused."""

    answers: str
    seconds: float
    megabytes: float
    limit: float
    refused: bool

    def is_whole(self):
        return "-" not in self.answers

    def within(self, limit):
        """The run as it would be with a smaller limit: it is open if it took more."""
        return self if self.seconds <= limit else self._replace(answers="-" * len(self.answers), seconds=limit)


def run(program, path, bads, limit, processor):
    """What a program says to a circuit, its processor seconds and megabytes, and the traces by bad literals."""
    with tempfile.TemporaryDirectory() as folder:
        trace = Path(folder) / "trace"
        if program.startswith("abc "):
            commands = program.removeprefix("abc ")
            tail = "" if re.search(r"pdr.* -\w*a", commands) else f"; write_cex -a {trace}"
            words = ["stdbuf", "-oL", ABC, "-c", f"read_aiger {path}; fold; {commands}{tail}"]
        else:
            words = [*shlex.split(program), str(path)]
        said, took, megabytes = limited(words, limit, processor, Path(folder))
        if program.startswith("abc "):
            lines = trace.read_text().split("#")[0].split() if trace.exists() else []
            answers, traces = of_abc(said, bads, lines)
        else:
            answers, traces = of_gipmc(said, bads)
    return "".join(answers), took, megabytes, traces


def limited(words, limit, processor, folder):
    """What a program writes until it ends or has used so many processor seconds, those that it used, and megabytes.

    RLIMIT_CPU counts the ticks of a timer, which can be half of what was used where a processor is shared. The memory
    of a process that Python begins is at least that of Python; so another one begins it."""
    peak, output = folder / "peak", folder / "output"
    with output.open("wb") as file:
        words = ["/usr/bin/time", "-f", "%M", "-o", str(peak), *words]
        process = subprocess.Popen(words, stdin=subprocess.DEVNULL, stdout=file, stderr=subprocess.DEVNULL)
    if processor is not None:
        os.sched_setaffinity(process.pid, {processor})
    while not (ended := os.wait4(process.pid, os.WNOHANG))[0]:
        # The child may end meanwhile.
        with contextlib.suppress(OSError):
            for child in map(int, Path(f"/proc/{process.pid}/task/{process.pid}/children").read_text().split()):
                # The clock of the processor time of a process, as clock_getcpuclockid gives it.
                if time.clock_gettime(~child << 3 | 2) > limit:
                    os.kill(child, signal.SIGKILL)
        time.sleep(0.01)
    process.returncode = os.waitstatus_to_exitcode(ended[1])
    said = output.read_text(encoding="utf-8", errors="replace")
    return said, ended[2].ru_utime + ended[2].ru_stime, int(peak.read_text().split()[-1]) / 1024


def of_abc(text, bads, trace):
    answers, traces = ["-"] * bads, {}
    for place, frame in re.findall(r"Output +(\d+) .*?was asserted in frame +(\d+)", text):
        answers[int(place)] = "f"
        if trace:
            # Its latches are those that it kept, and one for the constraints. Without inputs it has no line for a moment.
            traces[int(place)] = ["", *(trace[1:] or [""] * (int(frame) + 1))]
    counts = re.search(r"All = \d+. Proved = (\d+). Disproved = (\d+). Undecided = 0", text)
    if "Property proved" in text or "Networks are equivalent" in text or counts:
        answers = ["s" if answer == "-" else answer for answer in answers]
    return answers, traces


def of_gipmc(text, bads):
    answers, traces = ["-"] * bads, {}
    block = []
    for line in text.splitlines():
        if line != ".":
            block += [line] if not line.startswith(("c", "u")) else []
            continue
        places = [int(word) for part in block[1:] if part.startswith("b") for word in re.findall(r"b(\d+)", part)]
        for place in places:
            answers[place] = {"0": "s", "1": "f"}.get(block[0], "-")
            if block[0] == "1":
                traces[place] = [part for part in block[1:] if not part.startswith("b")]
        block = []
    return answers, traces


def measure(paths, programs, limit, processor, keep, least):
    """Runs the programs, prints a line for each circuit and then the tables; whether all answers agree."""
    kept = {row["name"]: row for row in merged(read([keep]))} if keep and keep.exists() else {}
    rows, faults = [], 0
    for path in paths:
        row = kept.get(path.stem)
        if not row:
            latches, gates, bads = aiger.size(path)
            row = {"name": path.stem, "latches": latches, "gates": gates, "bads": bads, "runs": {}}
        new = {}
        for program in programs:
            before = row["runs"].get(program)
            if not before or (before.limit < limit and not before.is_whole()):
                answers, took, megabytes, traces = run(program, path, row["bads"], limit, processor)
                circuit = aiger.parse(path.read_bytes()) if traces else None
                refused = not all(aiger.replays(circuit, place, lines) for place, lines in traces.items())
                new[program] = Run(answers, round(took, 3), round(megabytes, 1), limit, refused)
        row["runs"].update(new)
        if keep and new:
            with keep.open("a") as file:
                file.write(json.dumps({**row, "runs": new}) + "\n")
        faults += bool(told(row, programs))
        rows.append(row)
    print_tables(rows, programs, limit, least)
    return not faults


def told(row, programs):
    """Prints a circuit's line, and tells what is wrong with the answers."""
    runs = [row["runs"][program] for program in programs]
    given = [set(answers) - {"-"} for answers in zip(*(found.answers for found in runs))]
    fault = " ANSWERS DIFFER" * any(len(answers) > 1 for answers in given)
    fault += " A TRACE IS WRONG" * any(found.refused for found in runs)
    cells = "; ".join(f"{short(found.answers)} {found.seconds:.2f} s, {found.megabytes:.0f} MB" for found in runs)
    print(f"{row['name']} ({row['latches']} latches, {row['gates']} gates): {cells}{fault}", flush=True)
    return fault


def short(answers):
    words = {"s": "safe", "f": "fails", "-": "open"}
    if len(answers) == 1:
        return words[answers]
    return ", ".join(f"{answers.count(letter)} {word}" for letter, word in words.items() if letter in answers)


def read(paths):
    return [json.loads(line) for path in paths for line in path.read_text(encoding="utf-8").splitlines()]


def merged(rows):
    """The rows, of which those of one circuit are one, with the last run of each program that decides most."""
    found = {}
    for row in rows:
        runs = found.setdefault(row["name"], {**row, "runs": {}})["runs"]
        for program, fields in row["runs"].items():
            run_, before = Run(*fields), runs.get(program)
            if not before or run_.is_whole() or (not before.is_whole() and run_.limit >= before.limit):
                runs[program] = run_
    return list(found.values())


def title(program):
    if program.startswith("abc "):
        return program
    name, *options = shlex.split(program)
    return " ".join([Path(name).name, *options])


def print_tables(rows, programs, limit, least):
    """The tables of the circuits that all of these programs ran on, with a limit; no ratio is of two times below the
    least."""
    groups = collections.defaultdict(list)
    for row in rows:
        if all(program in row["runs"] for program in programs):
            runs = [row["runs"][program].within(limit) for program in programs]
            groups[row["name"].split("-")[0]].append((row, runs))
    table = dict(sorted(groups.items()))
    table["all"] = [pair for group in groups.values() for pair in group]
    heads = [title(program) for program in programs]
    print("\nBad literals that are decided: safe + failing; seconds, with the limit where some are not decided")
    print_table(["Family", "Circuits", "Bads", *heads], table, lambda group: decided(group, limit))
    print(f"\nThe times of {heads[0]} by those of another, where both decide all and one takes {least:g} s:")
    print("geometric mean on circuits that are safe, and on those of which some bad literal fails (how many)")
    print_table(["Family", "Circuits", "Bads", *heads[1:]], table, lambda group: ratios(group, least))
    print("\nThe greatest memory in MB: the mean of the circuits that all decide, and the greatest of all")
    print_table(["Family", "Circuits", "Bads", *heads], table, memory)
    print(f"\nWhat {heads[0]} leaves open and another decides, or takes {SLOW} times as long for")
    for row, (first, *others) in table["all"]:
        whole = [other for other in others if other.is_whole()]
        best = min(whole, key=lambda other: other.seconds, default=None)
        if best and (not first.is_whole() or first.seconds > max(least, SLOW * best.seconds)):
            print(f"  {row['name']}: {short(first.answers)} {first.seconds:.2f} s, other {best.seconds:.2f} s")
    for name, letter in (("safe", "s"), ("failing", "f")):
        alone = [row["name"] for row, runs in table["all"] if alone_decides(runs, letter)]
        print(f"{heads[0]} alone decides {len(alone)} {name}: {', '.join(alone)}")
    openly = [row["name"] for row, runs in table["all"] if not any(found.is_whole() for found in runs)]
    print(f"open for all: {len(openly)}: {', '.join(openly)}")


def alone_decides(runs, letter):
    first, *others = runs
    return first.is_whole() and letter in first.answers and not any(other.is_whole() for other in others)


def print_table(heads, table, cells):
    print(f"| {' | '.join(heads)} |\n|{'---|' * len(heads)}")
    for family, group in table.items():
        bads = sum(row["bads"] for row, _ in group)
        print(f"| {' | '.join([family, str(len(group)), str(bads), *cells(group)])} |")


def columns(group):
    return zip(*(runs for _, runs in group))


def decided(group, limit):
    for column in columns(group):
        counts = [sum(found.answers.count(letter) for found in column) for letter in "sf"]
        seconds = sum(found.seconds if found.is_whole() else limit for found in column)
        yield f"{counts[0]} + {counts[1]}, {seconds:.1f} s"


def ratios(group, least):
    first, *others = columns(group)
    for other in others:
        logs = {False: [], True: []}
        for pair in zip(first, other):
            if all(found.is_whole() for found in pair) and max(found.seconds for found in pair) >= least:
                one, two = (max(found.seconds, 0.01) for found in pair)
                logs["f" in pair[0].answers].append(math.log(one / two))
        means = [f"{math.exp(sum(part) / len(part)):.2f} ({len(part)})" if part else "-" for part in logs.values()]
        yield ", ".join(means)


def memory(group):
    done = [runs for _, runs in group if all(found.is_whole() for found in runs)]
    for place, column in enumerate(columns(group)):
        mean = sum(runs[place].megabytes for runs in done) / len(done) if done else 0
        yield f"{mean:.0f}, {max(found.megabytes for found in column):.0f}"


def parse(words):
    parser = argparse.ArgumentParser(description=__doc__, formatter_class=argparse.RawDescriptionHelpFormatter)
    parser.add_argument("words", nargs="*", metavar="FOLDER PROGRAM")
    parser.add_argument("--table", action="append", metavar="FILE", type=Path)
    parser.add_argument("--limit", type=int, default=10, metavar="SECONDS")
    parser.add_argument("--processor", type=int, metavar="N")
    parser.add_argument("--keep", type=Path, metavar="FILE")
    parser.add_argument("--family", metavar="NAME,..")
    parser.add_argument("--least", type=float, default=LEAST, metavar="SECONDS")
    asked = parser.parse_intermixed_args(words)
    for path in asked.table or []:
        if not path.is_file():
            parser.error(f"there is no file '{path}'")
    if asked.table:
        return asked
    folder, *programs = asked.words or [""]
    if not Path(folder).is_dir() or not folder:
        parser.error(f"a folder of circuits is wanted, not '{folder}'")
    if not programs:
        parser.error("a program is wanted behind FOLDER")
    for program in programs:
        name = ABC if program.startswith("abc ") else (shlex.split(program) or [""])[0]
        if not shutil.which(name):
            parser.error(f"there is no program '{name}'")
    return asked


def is_chosen(name, families):
    return not families or name.startswith(tuple(families.split(",")))


def main():
    asked = parse(sys.argv[1:])
    if asked.table:
        rows = [row for row in merged(read(asked.table)) if is_chosen(row["name"], asked.family)]
        programs = asked.words or list(dict.fromkeys(program for row in rows for program in row["runs"]))
        print_tables(rows, programs, asked.limit, asked.least)
        return 0
    folder, *programs = asked.words
    paths = [path for path in Path(folder).glob("*.aig") if is_chosen(path.name, asked.family)]
    paths.sort(key=lambda path: re.sub(r"\d+", lambda digits: digits[0].zfill(6), path.name))
    return 0 if measure(paths, programs, asked.limit, asked.processor, asked.keep, asked.least) else 1


if __name__ == "__main__":
    sys.exit(main())
