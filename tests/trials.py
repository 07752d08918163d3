#!/usr/bin/env python3
"""Builds the crates of trials/ without proofs, and runs them: the tests of libraries, and programs on stored input.

    tests/trials.py            all of them
    tests/trials.py CRATE..    these

Nothing has to be proved before. The sources stand in trials/CRATE/src as files `.rs`, since `rt ci` takes each file `.rt`
for one of a crate that it proves. They are laid beside a copy of crates/ in a folder of their own, with the lines of
crates.txt and of trials/trials.txt. A crate that is not in the layout of `rt fmt` fails by the name of each such file;
--format writes the layout, and runs nothing.

Tests are compiled for speed, but keep the tests of each access that a proved program lacks (`tools/unproved.py
--checked`): a place past the end of a list, a number that wraps, or what can't be reached ends a test by a signal. A test
runs in a process of its own, for 600 seconds at most. A program is built without these tests. It counts as one test, which
runs on its files `args` and `stdin`, for 1200 seconds at most, and has to write its file `stdout`. The tests are left as
OUT/CRATE_tests, the programs as OUT/CRATE; OUT is trials/out where it is not given. The last line is
'N passed, M failed'.
"""

import argparse
import itertools
import pathlib
import re
import resource
import shutil
import subprocess
import sys
import tempfile
import time

sys.dont_write_bytecode = True
ROOT = pathlib.Path(__file__).resolve().parent.parent
TRIALS = ROOT / "trials"
sys.path.insert(0, str(ROOT / "tools"))
import unproved

# Of the clock, ten times what they may take on a machine with nothing else to do.
SECONDS_OF_TEST = 600
SECONDS_OF_PROGRAM = 1200
# The compiler takes longer at -O3, and the tests as long as here.
LEVEL_OF_TESTS = "-O1"
ENDED = re.compile(r"^test (\S+) \.\.\. (ok|FAILED)", re.MULTILINE)


def names():
    """The crates of trials/, in the order of their lines."""
    return re.findall(r"^(\w+):", (TRIALS / "trials.txt").read_text(encoding="utf-8"), re.MULTILINE)


def lay_out(room):
    """Makes a repository of crates/ and of trials/ in a folder."""
    for folder in sorted((ROOT / "crates").glob("*/src")):
        shutil.copytree(folder, room / folder.relative_to(ROOT))
    for name in names():
        for path in sorted((TRIALS / name / "src").rglob("*.rs")):
            copy = room / "crates" / path.relative_to(TRIALS).with_suffix(".rt")
            copy.parent.mkdir(parents=True, exist_ok=True)
            shutil.copy(path, copy)
    lines = [(folder / file).read_text(encoding="utf-8") for folder, file in ((ROOT, "crates.txt"), (TRIALS, "trials.txt"))]
    (room / "crates.txt").write_text("".join(lines), encoding="utf-8")


def source_of(path, room):
    """The file of trials/ of which a file of the folder is a copy."""
    return TRIALS / path.relative_to(room / "crates").with_suffix(".rs")


def out_of_layout(room, name):
    """Lays out the copies of a crate's files, and tells which of them it has changed, or None where one can't be read."""
    folder = room / "crates" / name
    before = {path: path.read_bytes() for path in sorted((folder / "src").rglob("*.rt"))}
    if subprocess.run(["rt", "fmt"], cwd=folder, stdin=subprocess.DEVNULL, stdout=subprocess.DEVNULL).returncode:
        return None
    return [path for path, text in before.items() if path.read_bytes() != text]


class Counts:
    """How many tests passed and how many failed."""

    def __init__(self):
        self.passed = self.failed = 0

    def add(self, name, fault):
        self.passed, self.failed = self.passed + (not fault), self.failed + bool(fault)
        if fault:
            print(f"FAILED: {name}: {fault}", flush=True)


def tests_of(name):
    """How many tests the files of a crate have."""
    texts = [path.read_text(encoding="utf-8") for path in (TRIALS / name / "src").rglob("*.rs")]
    return sum(len(re.findall(r"(?m)^\s*#\[test\]", text)) for text in texts)


def run_tests(kit, name, program, counts):
    """Runs each test of a built library, and tells how many there are."""
    words = [f"{kit.KIT}/bin/rattle-test", "--seconds", str(SECONDS_OF_TEST), program]
    with tempfile.TemporaryDirectory() as room:
        ran = subprocess.run(words, cwd=room, stdin=subprocess.DEVNULL, capture_output=True, text=True, errors="replace")
    ended = ENDED.findall(ran.stdout)
    has_failed = any(end == "FAILED" for _, end in ended)
    if has_failed:
        print(ran.stdout, end="")
    for test, end in ended:
        counts.add(f"{name} {test}", "" if end == "ok" else "it failed")
    if not ended or bool(ran.returncode) != has_failed:
        counts.add(name, f"its tests ended with status {ran.returncode}: {ran.stderr[-500:]}")
    if len(ended) != tests_of(name):
        counts.add(name, f"{len(ended)} tests ran, and its files have {tests_of(name)}")
    return f"{len(ended)} tests"


def run_program(name, program, counts):
    """Runs a built program as its files tell, and tells how many lines it wrote."""
    files = [TRIALS / name / part for part in ("args", "stdin", "stdout")]
    args, given, wanted = (path.read_bytes() if path.is_file() else b"" for path in files)
    with tempfile.TemporaryDirectory() as room:
        words = [program, *args.decode().split()]
        try:
            ran = subprocess.run(words, cwd=room, input=given, capture_output=True, timeout=SECONDS_OF_PROGRAM)
        except subprocess.TimeoutExpired:
            counts.add(name, f"no end within {SECONDS_OF_PROGRAM} seconds")
            return "no end"
    counts.add(name, f"status {ran.returncode}, {ran.stderr[-500:]!r}" if ran.returncode else first_difference(ran.stdout, wanted))
    return f"{len(ran.stdout.splitlines())} lines"


def first_difference(written, wanted):
    """Which line is the first that was written otherwise than it was wanted, or nothing."""
    if written == wanted:
        return ""
    pairs = itertools.zip_longest(written.splitlines(), wanted.splitlines())
    place = next((at for at, (one, other) in enumerate(pairs, 1) if one != other), 0)
    return f"line {place} is another one than in stdout" if place else "the end of the last line is another one than in stdout"


def try_crate(kit, crate, out, counts):
    """Builds a crate and runs it."""
    began, before = time.monotonic(), spent()
    program = out / (crate.name if crate.is_program else f"{crate.name}_tests")
    program.unlink(missing_ok=True)
    level = "-O3" if crate.is_program else LEVEL_OF_TESTS
    if fault := unproved.build(kit, crate, program, level, checked=not crate.is_program):
        counts.add(crate.name, fault)
        return
    built = spent()
    what = run_program(crate.name, program, counts) if crate.is_program else run_tests(kit, crate.name, program, counts)
    times = f"built in {built - before:.0f} s of a processor, run in {spent() - built:.0f} s"
    print(f"{crate.name}: {what}; {times}; {time.monotonic() - began:.0f} s of the clock", flush=True)


def spent():
    """The processor time that ended processes have taken."""
    used = resource.getrusage(resource.RUSAGE_CHILDREN)
    return used.ru_utime + used.ru_stime


def main():
    parser = argparse.ArgumentParser(description=__doc__, formatter_class=argparse.RawDescriptionHelpFormatter)
    parser.add_argument("--out", type=pathlib.Path, default=TRIALS / "out", metavar="OUT", help="where to leave what is built")
    parser.add_argument("--format", action="store_true", help="write the layout, and run nothing")
    parser.add_argument("crates", nargs="*", metavar="CRATE")
    asked = parser.parse_args()
    if unknown := [name for name in asked.crates if name not in names()]:
        parser.error(f"trials/ has no crate {', '.join(unknown)}")
    out, counts, kit = asked.out.resolve(), Counts(), unproved.load_kit()
    with tempfile.TemporaryDirectory(prefix="giputils-trials-") as folder:
        room = pathlib.Path(folder)
        lay_out(room)
        if not asked.format:
            out.mkdir(parents=True, exist_ok=True)
        crates = {crate.name: crate for crate in kit.rtlib.crates_below(str(room))}
        for name in asked.crates or names():
            differ = out_of_layout(room, name)
            if asked.format:
                for path in differ or []:
                    shutil.copy(path, source_of(path, room))
                    print(f"laid out: {source_of(path, room).relative_to(ROOT)}")
                continue
            for path in differ or []:
                counts.add(source_of(path, room).relative_to(ROOT), "it is not laid out: tests/trials.py --format")
            if differ is None:
                counts.add(name, "rt fmt cannot read it")
            try_crate(kit, crates[name], out, counts)
    if asked.format:
        return 0
    print(f"{counts.passed} passed, {counts.failed} failed")
    return 1 if counts.failed or not counts.passed else 0


if __name__ == "__main__":
    sys.exit(main())
