#!/usr/bin/env python3
"""Puts the programs among some crates where ./test looks for them, as `rt ci CRATE..` proved and built them.

    tests/programs.py CRATE..

`rt ci CRATE..` works on a copy of the crates, and keeps what it built. A program counts as a test. The last line is
'N passed, M failed'.
"""

import argparse
import sys
import tempfile

sys.dont_write_bytecode = True
import mutant_checks
from mutant_files import ROOT


def main():
    parser = argparse.ArgumentParser(description=__doc__, formatter_class=argparse.RawDescriptionHelpFormatter)
    parser.add_argument("crates", nargs="+", metavar="CRATE")
    asked = parser.parse_args()
    passed = failed = 0
    with tempfile.TemporaryDirectory(prefix="giputils-programs-") as room:
        libraries = mutant_checks.Libraries(ROOT, room)
        if unknown := set(asked.crates) - set(libraries.crates):
            parser.error(f"'{min(unknown)}' is no crate")
        programs = [name for name in asked.crates if libraries.crates[name].is_program]
        libraries.find(libraries.below(programs))
        for name in programs:
            program = libraries.crates[name]
            is_there = libraries.is_given(name) and libraries.kept.give(program, False, libraries.kept.key(program))
            print(f"ok: {name}" if is_there else f"FAILED: {name}: rt ci has not left it")
            passed, failed = passed + bool(is_there), failed + (not is_there)
    print(f"{passed} passed, {failed} failed")
    return 1 if failed else 0


if __name__ == "__main__":
    sys.exit(main())
