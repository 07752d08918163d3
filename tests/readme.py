#!/usr/bin/env python3
"""Runs the commands that pages show, and compares what they print with what stands below them.

A command is a line `$ COMMAND` of a block ```console, which bash runs at the top of the checkout. It has to end with
status 0, and to print the lines that follow, to standard output or error; a line `...` stands for any lines, and a
command with no line below it may print anything. A page shows what a terminal shows: lines `u N`, which gipmc writes to
a pipe alone, are left out. `./test`, which runs this script, and `rt ci`, which runs before it, are not run.

The commands of a page run in order in a copy of the files that git lists, with the programs crates/NAME/out/NAME that
`rt ci` has built. Those of a page that needs a program which is not installed are not run. A command counts as a test.
The last line is 'N passed, M failed'.
"""

import argparse
import os
import pathlib
import re
import shutil
import signal
import subprocess
import sys
import tempfile

ROOT = pathlib.Path(__file__).resolve().parent.parent
# The pages, each with the programs that it needs.
PAGES = {"README.md": (), "docs/FORMULAS.md": ("awk",), "docs/CIRCUITS.md": ("yosys", "yosys-abc", "awk")}
SECONDS = 600
BLOCK = re.compile(r"^```console\n(.*?)^```$", re.DOTALL | re.MULTILINE)
NOT_RUN = re.compile(r"(?:\./test|rt ci)(?:\s+#.*)?")


def commands(page):
    """The commands of a page, each with the lines that it has to print."""
    found = []
    for block in BLOCK.findall(page):
        for number, line in enumerate(block.splitlines()):
            if line.startswith("$ "):
                found.append((line[2:], []))
            elif number:
                found[-1][1].append(line)
            else:
                sys.exit(f"a block begins with no command, but with {line!r}")
    for _, lines in found:
        while lines and not lines[-1]:
            lines.pop()
    return found


def copy_checkout(folder):
    """Copies the files that git lists, and the programs that were built."""
    words = ["git", "ls-files", "-z", "--cached", "--others", "--exclude-standard"]
    listed = subprocess.run(words, cwd=ROOT, stdout=subprocess.PIPE, check=True, text=True).stdout
    files = [ROOT / name for name in listed.split("\0") if name]
    files += [path / "out" / path.name for path in (ROOT / "crates").iterdir()]
    for file in filter(pathlib.Path.is_file, files):
        copy = folder / file.relative_to(ROOT)
        copy.parent.mkdir(parents=True, exist_ok=True)
        shutil.copy(file, copy)


def run(command, folder):
    """What a command prints, and its status."""
    streams = {"stdin": subprocess.DEVNULL, "stdout": subprocess.PIPE, "stderr": subprocess.STDOUT}
    words = ["bash", "-c", command]
    with subprocess.Popen(words, cwd=folder, text=True, errors="replace", start_new_session=True, **streams) as process:
        try:
            return process.communicate(timeout=SECONDS)[0], process.returncode
        except subprocess.TimeoutExpired:
            # With all that it has started.
            os.killpg(process.pid, signal.SIGKILL)
            return process.communicate()[0], f"none within {SECONDS} seconds"


def is_as_shown(printed, lines):
    """Whether a command printed what is shown; spaces at the ends of lines are no matter."""
    wanted = "".join(r"(?:.*\n)*" if line == "..." else re.escape(line.rstrip()) + "\n" for line in lines)
    told = (line.rstrip() for line in printed.splitlines() if not re.fullmatch(r"u\d+", line))
    return not lines or re.fullmatch(wanted, "".join(f"{line}\n" for line in told))


def run_page(name):
    """How many commands of a page do as it shows, and how many do not."""
    passed = failed = 0
    with tempfile.TemporaryDirectory(prefix="giputils-readme-") as room:
        copy_checkout(pathlib.Path(room))
        for command, lines in commands((ROOT / name).read_text(encoding="utf-8")):
            if NOT_RUN.fullmatch(command):
                continue
            printed, status = run(command, room)
            is_well = status == 0 and is_as_shown(printed, lines)
            passed, failed = passed + bool(is_well), failed + (not is_well)
            print(f"{'ok' if is_well else 'FAILED'}: {command}", flush=True)
            if not is_well:
                print(f"status {status}; it printed\n{printed[-2000:]}")
    return passed, failed


def main():
    argparse.ArgumentParser(description=__doc__, formatter_class=argparse.RawDescriptionHelpFormatter).parse_args()
    passed = failed = 0
    for name, programs in PAGES.items():
        if missing := [program for program in programs if not shutil.which(program)]:
            print(f"{name}: not run, for want of {', '.join(missing)}")
            continue
        ran = run_page(name)
        passed, failed = passed + ran[0], failed + ran[1]
    print(f"{passed} passed, {failed} failed")
    return 1 if failed or not passed else 0


if __name__ == "__main__":
    sys.exit(main())
