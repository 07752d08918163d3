#!/usr/bin/env python3
"""Tests that want of memory is told exactly where a request is refused, and what memory a library holds.

    tests/refused.py PROGRAMS [CRATE..]

A row is a test of a crate of trials/, whose tests `tests/trials.py` has left in PROGRAMS (trials/out). It runs once for
each request for memory that it makes, which is refused by tests/refuse.c, alone or with those behind it. A test that
asks for answers has to end with the error of a refused call each time; a collection at the end of `simplify` alone may be
refused unseen, since a later one does its work. One that goes on behind a refused call has to pass so often at least, and
never ends otherwise than with that error. Others may hold only so many bytes at a time, and
nothing is refused. Where crates are named, their rows are run alone. The last line is 'N passed, M failed'.
"""

import argparse
import pathlib
import re
import sys
import tempfile

sys.dont_write_bytecode = True
import memory

# Tests that ask for answers, and how many requests they make at least.
TOLD = [
    ("gipsat_trials", "formulas::a_formula_tells_its_literals", 3),
    ("gipsat_trials", "formulas::the_example_finds_values", 3),
    ("gipsat_trials", "verdicts::each_question_is_answered", 3),
    ("gipsat_trials", "verdicts::the_clauses_of_the_formula_stay", 6),
    ("gipsat_trials", "refusals::small_questions_are_answered", 100),
    ("gipsat_trials", "texts::answered::a_text_is_answered", 20),
    ("gipsat_trials", "texts::checked::a_proof_is_checked", 20),
    ("gipmc_trials", "circuits::longer::a_literal_of_no_variable_is_not_followed", 20),
]

# In how many runs of a test a collection at the end of `simplify` is refused.
COLLECTIONS = {"refusals::small_questions_are_answered": 4}

# Tests that go on behind a refused call, and in how many runs at least.
KEPT = [
    ("gipsat_trials", "verdicts::no_derivation_is_left_open", 3),
    ("gipsat_trials", "texts::deletions::forgets_deleted_clauses_alone", 11),
]

# Tests, and how many bytes they may hold at a time.
HELD = [
    # It adds 5000 clauses and takes them back. Their literals alone take 60 000 bytes, and their watches 80 000 more.
    ("gipsat_trials", "costs::clauses_that_were_taken_back_are_dropped", 80_000),
]


def program_of(programs, crate):
    return (programs / f"{crate}_tests").resolve()


class Trials:
    """A machine on which tests of crates of trials/ run."""

    def __init__(self, programs, folder):
        names = sorted({crate for crate, _, _ in TOLD + KEPT + HELD})
        self.machine = memory.Machine({name: str(program_of(programs, name)) for name in names}, folder)

    def end_of(self, crate, test, first=0, last=0):
        """How a test ends that is refused its requests from the first to the last one: `passed`, `refused`, or otherwise."""
        run = memory.Run(test, crate, [test])
        self.machine.lay_out(run)
        status, out, err = self.machine.result(run, run.words, first, last)
        if status == 0 and out.endswith(b"test result: ok\n"):
            return "passed"
        if status == 101 and re.search(rb"Memory|AllocError|Output", err):
            return "refused"
        return f"status {status}, {out[:200]!r}, {err[:200]!r}"

    def requests(self, crate, test):
        """How many requests a test makes that passes, or what is wrong with it."""
        end = self.end_of(crate, test)
        return self.machine.requests() if end == "passed" else end

    def fault_of_told(self, crate, test, least):
        """What is wrong with a test that has to end with an error wherever it is refused memory, or None."""
        requests = self.requests(crate, test)
        if isinstance(requests, str) or requests < least:
            return f"without a refusal: {requests}"
        unseen = 0
        for refused in range(1, requests + 1):
            alone = self.end_of(crate, test, refused, refused)
            behind = self.end_of(crate, test, refused, sys.maxsize)
            unseen += alone == "passed"
            if alone not in ("passed", "refused") or behind != "refused" or unseen > COLLECTIONS.get(test, 0):
                return f"request {refused} of {requests}: {alone}, with those behind it: {behind}"
        return None

    def fault_of_kept(self, crate, test, least):
        """What is wrong with a test that passes where calls are refused that it makes again, or None."""
        requests = self.requests(crate, test)
        if isinstance(requests, str):
            return f"without a refusal: {requests}"
        ends = [self.end_of(crate, test, refused, refused) for refused in range(1, requests + 1)]
        for refused, end in enumerate(ends, 1):
            if end not in ("passed", "refused"):
                return f"request {refused} of {requests}: {end}"
        return None if ends.count("passed") >= least else f"{ends.count('passed')} of {requests} runs pass"

    def fault_of_held(self, crate, test, most):
        """What is wrong with a test that may hold so many bytes, or None."""
        end = self.end_of(crate, test)
        if end != "passed":
            return f"without a refusal: {end}"
        return None if self.machine.held() <= most else f"{self.machine.held()} bytes are held"


def main():
    parser = argparse.ArgumentParser(description=__doc__, formatter_class=argparse.RawDescriptionHelpFormatter)
    parser.add_argument("programs", metavar="PROGRAMS", type=pathlib.Path)
    parser.add_argument("crates", metavar="CRATE", nargs="*")
    asked = parser.parse_args()
    crates = {crate for crate, _, _ in TOLD + KEPT + HELD}
    if unknown := set(asked.crates) - crates:
        parser.error(f"'{min(unknown)}' is no crate with rows")
    passed = failed = 0
    with tempfile.TemporaryDirectory() as folder:
        trials = Trials(asked.programs, folder)
        for rows, fault_of in ((TOLD, trials.fault_of_told), (KEPT, trials.fault_of_kept), (HELD, trials.fault_of_held)):
            for crate, test, number in [row for row in rows if row[0] in (asked.crates or crates)]:
                there = program_of(asked.programs, crate).is_file()
                fault = fault_of(crate, test, number) if there else "its tests are not built"
                print(f"FAILED: {crate} {test}: {fault}" if fault else f"ok: {crate} {test}", flush=True)
                passed, failed = passed + (not fault), failed + bool(fault)
    print(f"{passed} passed, {failed} failed")
    return 1 if failed else 0


if __name__ == "__main__":
    sys.exit(main())
