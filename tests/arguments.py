#!/usr/bin/env python3
"""Tests that each script of tests/ and tools/, and ./test, answers --help and refuses what it does not know, at once.

A script is a file that may be executed. The last line is 'N passed, M failed'.
"""

import argparse
import os
import pathlib
import signal
import subprocess
import sys

ROOT = pathlib.Path(__file__).resolve().parent.parent
# What a script takes at most, on a machine with much beside it: a run that one starts by mistake takes minutes.
SECONDS = 60


def scripts():
    found = [path for folder in ("tests", "tools") for path in sorted((ROOT / folder).rglob("*"))]
    return [ROOT / "test", *(path for path in found if path.is_file() and os.access(path, os.X_OK))]


def run(script, *words):
    """A script's status, and what it writes to standard output and to standard error."""
    streams = {"stdin": subprocess.DEVNULL, "stdout": subprocess.PIPE, "stderr": subprocess.PIPE}
    with subprocess.Popen([script, *words], cwd=ROOT, text=True, start_new_session=True, **streams) as process:
        try:
            out, err = process.communicate(timeout=SECONDS)
        except subprocess.TimeoutExpired:
            # With all that it has started.
            os.killpg(process.pid, signal.SIGKILL)
            return None, "", f"no end within {SECONDS} seconds"
    return process.returncode, out, err


def fault_of_help(script):
    """What is wrong with a script's answer to --help: it begins with the usage, and then tells more."""
    status, out, err = run(script, "--help")
    lines = out.splitlines()
    is_well = status == 0 and not err and len(lines) > 2 and lines[0].startswith("usage: ") and script.name in lines[0]
    return "" if is_well else f"status {status}, {(out + err)[:200]!r}"


def fault_of_refusal(script, *words):
    """What is wrong with a script's answer to words that it does not know: its last line names the script and the fault."""
    status, out, err = run(script, *words)
    last = (err.splitlines() or [""])[-1]
    is_well = status == 2 and not out and script.name in last.partition(": ")[0]
    return "" if is_well else f"status {status}, {(out + err)[:200]!r}"


def main():
    argparse.ArgumentParser(description=__doc__, formatter_class=argparse.RawDescriptionHelpFormatter).parse_args()
    passed = failed = 0
    for script in scripts():
        answers = {
            "--help": fault_of_help(script),
            "--no-such-option": fault_of_refusal(script, "--no-such-option"),
            "words that it does not know": fault_of_refusal(script, *4 * ["no-such-word"]),
        }
        for asked, fault in answers.items():
            passed, failed = passed + (not fault), failed + bool(fault)
            if fault:
                print(f"FAILED: {script.relative_to(ROOT)}: {asked}: {fault}")
    print(f"{passed} passed, {failed} failed")
    return 1 if failed else 0


if __name__ == "__main__":
    sys.exit(main())
