#!/usr/bin/env python3
"""Tries to compile what must not compile, and wants the compiler's own error for each.

Each file of tests/must_not_compile is one change of a source file, with the error that it must meet:
lines 'file: PATH', 'old: TEXT' (which stands once in that file), 'new: TEXT' and 'error: TEXT'.
The changes are made one by one in a copy of the repository's crates. Nothing is proved in it: the compiler's errors come
before any proof.
"""

import argparse
import pathlib
import shutil
import subprocess
import sys
import tempfile

ROOT = pathlib.Path(__file__).resolve().parent.parent
SECONDS = 600


def read_case(path):
    case = {}
    for line in path.read_text(encoding="utf-8").splitlines():
        key, _, value = line.partition(": ")
        case[key] = value
    return case


def compile_with(case, copy):
    """Returns what the compiler says of the changed crate, or None where the change cannot be made."""
    source = copy / case["file"]
    text = source.read_text(encoding="utf-8")
    if text.count(case["old"]) != 1:
        return None
    source.write_text(text.replace(case["old"], case["new"]), encoding="utf-8")
    try:
        check = subprocess.run(
            ["rt", "check", "--only", ""],
            cwd=copy / pathlib.Path(*pathlib.Path(case["file"]).parts[:2]),
            stdin=subprocess.DEVNULL,
            stdout=subprocess.PIPE,
            stderr=subprocess.STDOUT,
            errors="replace",
            timeout=SECONDS,
        )
    finally:
        source.write_text(text, encoding="utf-8")
    return check.stdout if check.returncode != 0 else "it compiles"


def main():
    argparse.ArgumentParser(description=__doc__, formatter_class=argparse.RawDescriptionHelpFormatter).parse_args()
    with tempfile.TemporaryDirectory(prefix="giputils-") as room:
        copy = pathlib.Path(room)
        shutil.copytree(ROOT / "crates", copy / "crates", ignore=shutil.ignore_patterns("incremental", "rlib"))
        shutil.copy(ROOT / "crates.txt", copy)
        return try_all(copy)


def try_all(copy):
    """Tries each case in the copy, and tells the status to end with."""
    passed = failed = 0
    for path in sorted((ROOT / "tests" / "must_not_compile").glob("*.edit")):
        case = read_case(path)
        said = compile_with(case, copy)
        if said is None:
            failed += 1
            print(f"FAILED: must-not-compile {path.name}: its 'old:' text does not stand once in {case['file']}")
        elif case["error"] in said:
            passed += 1
            print(f"must-not-compile {path.name}: refused, as it must be: {case['error']}")
        else:
            failed += 1
            print(f"FAILED: must-not-compile {path.name}: no '{case['error']}' in\n{said}")
    print(f"{passed} passed, {failed} failed")
    return 1 if failed or not passed else 0


if __name__ == "__main__":
    sys.exit(main())
