#!/usr/bin/env python3
"""Tries the mutants that a change affects, and those that a rota samples; part of ./test.

    tests/mutants.py [CRATE..]           those of all crates, or of some
    tests/mutants.py --only NAME..       these (CRATE/NAME), and no others
    tests/mutants.py --all [CRATE..]     all: some three hours of a processor

    --list           tells which would be tried, and why, and tries none
    --base COMMIT    compares with this commit
    --beside FILE    waits for the libraries of an `rt ci` that goes on, until this file is there
    --jobs N         checks at a time (as many as there are processors and memory)
    --said FOLDER    keeps what the prover said of each check

The tree is compared with a base: on a branch the commit where it left the main branch, and on the main branch itself the commit
that stands 60 before HEAD. Where there is no base, or its README names another kit, all are tried. It takes the libraries
that `rt ci` built, and else builds them. No result is stored. All mutants of functions are applied and compiled, also those
that are not tried. It fails, too, where a mutant is gone that a commit since the base had, and no message of a commit says why, by
a line 'NAME: TEXT'. The last line is 'N passed, M failed'.
"""

import argparse
import concurrent.futures
import pathlib
import signal
import subprocess
import sys

sys.dont_write_bytecode = True
import mutant_checks
import mutant_choice
import mutant_compiles
import mutant_files
from mutant_files import ROOT


def chosen_since(commit, mutants):
    """Those that are affected by what changed since a commit, and those that are sampled, each with why."""
    with mutant_choice.files_of(ROOT, commit) as folder:
        version = subprocess.run(["rt", "version"], stdout=subprocess.PIPE, text=True).stdout
        if mutant_choice.is_of_another_kit(folder, version):
            return dict.fromkeys(mutants, f"the README of the base names another kit than {version.strip()}")
        affected = mutant_choice.affected(mutants, mutant_choice.Tree(ROOT), mutant_choice.Tree(folder))
    # The round is one of all crates' mutants, whichever are asked for.
    sampled = mutant_choice.sampled(mutant_files.all_mutants(), ROOT, commit)
    names = {mutant.name for mutant in sampled}
    return {mutant: "the rota samples it" for mutant in mutants if mutant.name in names} | affected


def chosen(asked, mutants):
    """The mutants that are tried, each with why, and those that are gone without a reason."""
    if asked.only:
        return {mutant: "it is asked for" for mutant in mutants if mutant.name in asked.only}, []
    commit, why = (asked.base, "as asked") if asked.base else mutant_choice.base_of(ROOT)
    if commit is None:
        print(f"base: none, since {why}: all are tried")
        return dict.fromkeys(mutants, "there is no base"), []
    print(f"base: {commit[:12]}, {why}")
    gone = mutant_choice.gone(ROOT, commit)
    if asked.all:
        return dict.fromkeys(mutants, "all are asked for"), gone
    return chosen_since(commit, mutants), gone


def arguments():
    """What is asked for, of the mutants of which crates."""
    parser = argparse.ArgumentParser(description=__doc__, formatter_class=argparse.RawDescriptionHelpFormatter)
    parser.add_argument("crates", nargs="*", metavar="CRATE")
    parser.add_argument("--only", nargs="+", default=[], metavar="NAME")
    parser.add_argument("--all", action="store_true")
    parser.add_argument("--list", action="store_true")
    parser.add_argument("--base", metavar="COMMIT")
    parser.add_argument("--beside", type=pathlib.Path, metavar="FILE")
    parser.add_argument("--jobs", type=int, metavar="N")
    parser.add_argument("--said", type=pathlib.Path, metavar="FOLDER")
    asked = parser.parse_args()
    every = mutant_files.all_mutants()
    if unknown := set(asked.crates) - set(mutant_files.libraries()):
        parser.error(f"'{min(unknown)}' is no crate")
    if unknown := set(asked.only) - {mutant.name for mutant in every}:
        parser.error(f"'{min(unknown)}' is no mutant")
    if asked.base and mutant_choice.git(ROOT, "rev-parse", "--verify", "--quiet", f"{asked.base}^{{commit}}") is None:
        parser.error(f"'{asked.base}' is no commit")
    if asked.jobs is not None and asked.jobs < 1:
        parser.error("--jobs is at least 1")
    if asked.said:
        asked.said.mkdir(parents=True, exist_ok=True)
    return asked, [mutant for mutant in every if not asked.crates or mutant.crate in asked.crates]


def main():
    asked, mutants = arguments()
    why, gone = chosen(asked, mutants)
    print(f"tried: {len(why)} of {len(mutants)}", flush=True)
    if asked.list:
        # A reader that has seen enough ends the list.
        signal.signal(signal.SIGPIPE, signal.SIG_DFL)
        for mutant, reason in why.items():
            print(f"{mutant.name}: {reason}")
        return 0
    faults = [f"{mutant.name}: {mutant.fault}" for mutant in mutants if mutant.fault and mutant not in why]
    faults += [f"{name}: it is gone, and no message of a commit says why" for name in gone]
    mutant_checks.load_kit()
    with concurrent.futures.ThreadPoolExecutor() as beside:
        compiled = beside.submit(mutant_compiles.faults, list(why) if asked.only else mutants)
        outcomes = mutant_checks.try_all(list(why), asked.jobs or mutant_checks.processors(), asked.said, asked.beside)
    faults += [f"{mutant.name}: {fault}" for mutant, fault in compiled.result().items()]
    passed, failed = mutant_checks.report(outcomes)
    for fault in faults:
        print(f"FAILED: {fault}")
    passed, failed = passed + (not faults), failed + len(faults)
    untried = [mutant.wanted for mutant in mutants if mutant not in outcomes]
    reasons = [*untried, *(found for found, _ in outcomes.values())]
    print(f"refused: {mutant_checks.counted(reasons)}; {len(untried)} of these as their files say, and not tried")
    print(f"{passed} passed, {failed} failed")
    return 1 if failed else 0


if __name__ == "__main__":
    sys.exit(main())
