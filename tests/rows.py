#!/usr/bin/env python3
"""Tests the stored lists of calls: that those which were written by hand are those of tools/rows, formulas, and that a
solver goes on behind a request for memory that is refused.

    tests/rows.py GIPUTILS_REPLAY

`tools/make_lists.py --rows` puts the lists of tools/rows first into stdin and stdout of the program that runs them. A
file of tools/rows counts as a test, and so do the lists behind the rows, which begin where the rows end.

The lists of tests/lists are of formulas. Each is given as calls to GIPUTILS_REPLAY, the program that `tests/trials.py`
has built (trials/out/giputils_replay), and its answers are compared. Sessions of calls at random are run again with
each request for memory refused alone, as tests/memory.py does: one call tells that at the most, no clause is left open,
and the last answer is that of the session without this call. Where the call is made again, it is not refused, and the
last answer is that of the session in which nothing is refused. A few requests are of the input or of the text of a reply,
which is then lost. Of a later question it is counted how many requests it makes. The last line is 'N passed, M failed'.
"""

import argparse
import pathlib
import random
import subprocess
import sys
import tempfile

sys.dont_write_bytecode = True
ROOT = pathlib.Path(__file__).resolve().parent.parent
sys.path.insert(0, str(ROOT / "tools"))
import make_lists
import memory
from lib import solver_lists

# How many conflicts an answer to a larger formula may take.
LIMIT = 1_000_000

# How many sessions there are, and how many calls each has before the last one.
SESSIONS = 4

CALLS = 40

# A question, clauses with a long chain beside what it asks of, and one clause more.
QUESTION = "under 10 2001 -2002"

CHAIN = ["clause 1", *(f"clause -{variable} {variable + 1}" for variable in range(1, 1000)), "clause -2001 2002"]

MORE = "clause 2001 2003"

# How many requests for memory the question makes again at the most, and behind one clause more, with that clause.
AGAIN, BEHIND_MORE = 8, 22


def faults():
    """What is wrong with the lists of each file of tools/rows, and with those behind them."""
    stored, begin = make_lists.stored_lines(), 0
    for path in make_lists.ROWS:
        rows = list(make_lists.rows_of(path))
        found = stored[begin : begin + len(rows)]
        yield "" if found == rows else f"the lines from {begin + 1} on are not those of {path.relative_to(ROOT)}"
        begin += len(rows)
    yield "" if stored[begin:] == make_lists.generated() else f"line {begin + 1} is of no file of tools/rows"


def clause_call(clause):
    return " ".join(map(str, ["clause", *clause]))


def calls_of(line):
    """The calls for a line of a list, of a solver that has no clause: each with whether its answer counts."""
    words = line.split()
    if words[0] == "cnf":
        yield from ((clause_call(clause_of(word)), False) for word in words[1:])
        yield f"solve {LIMIT}", True
    elif words[0] == "under":
        yield from ((clause_call(solver_lists.literals(int(word))), False) for word in words[1:])
        for assumed in solver_lists.CLAUSES:
            yield " ".join(map(str, ["under", solver_lists.LIMIT, *solver_lists.literals(assumed)])), True
    else:
        for word in words:
            yield clause_call(solver_lists.literals(int(word))), False
            yield f"solve {solver_lists.LIMIT}", True


def clause_of(word):
    """The clause of a word: a letter is a literal, and a digit tells which 26 variables the letters behind it are."""
    clause, block = [], 0
    for sign in word:
        if sign.isdigit():
            block = int(sign)
        else:
            variable = 26 * block + ord(sign.upper()) - ord("A") + 1
            clause.append(variable if sign.isupper() else -variable)
    return clause


def answered(program, lines):
    """What the program answers to the lines of a list."""
    asked = [list(calls_of(line)) for line in lines]
    text = "".join("new solver\n" + "".join(f"{call}\n" for call, _ in calls) for calls in asked)
    ran = subprocess.run([program], input=text, stdout=subprocess.PIPE, text=True, check=True)
    replies = iter(ran.stdout.splitlines())
    for calls in asked:
        next(replies, "")
        # Behind `unsat` stands a core.
        yield " ".join(reply.split()[0] for (_, counts), reply in zip(calls, replies) if counts)


def wrong_answers(program, path):
    """The lines of a list that are answered otherwise, and how many others there are."""
    rows = [line.split(" -> ") for line in path.read_text(encoding="utf-8").splitlines() if " -> " in line]
    found = list(answered(program, [line for line, _ in rows]))
    wrong = [line for (line, wanted), answer in zip(rows, found) if answer != wanted]
    return wrong, len(found) - len(wrong)


def session(rng):
    """Calls at random on a solver over eight variables."""

    def some(most):
        return " ".join(str(rng.choice((1, -1)) * rng.randint(1, 8)) for _ in range(rng.randint(1, most)))

    for _ in range(CALLS):
        yield rng.choice(
            [
                *[f"clause {some(3)}"] * 8,
                f"solve {rng.randrange(6)}",
                f"limited {rng.randrange(6)} {rng.randrange(40)}",
                f"under {rng.randrange(6)} {some(3)}",
                f"domain {' '.join(str(rng.randint(1, 8)) for _ in range(rng.randrange(5)))}".strip(),
                f"guess 9 {some(2)}",
                f"eliminate {rng.randrange(2000)} {rng.randint(1, 8)}",
                f"vivify {rng.randrange(400)}",
                "simplify",
                "find",
            ]
        )
    yield "find"


def replies(machine, calls, refused=0):
    """How the program ends where one request is refused, unless it is number 0, and what is replied to calls."""
    text = "".join(f"{line}\n" for line in ["new solver a session", *calls])
    status, out, _ = machine.result(memory.Run("", "giputils_replay", [], text.encode()), [], refused, refused)
    return status, out.decode().splitlines()[1:]


def refused_sessions(machine):
    """For each session what is wrong where a request is refused, or None, and how often a call told of it."""
    for seed in range(SESSIONS):
        yield fault_of(machine, list(session(random.Random(seed))))


def fault_of(machine, calls):
    status, whole = replies(machine, calls)
    requests, told, repeated, lost = machine.requests(), 0, 0, 0
    if status != 0 or len(whole) != len(calls) or {"no memory", "open"} & set(whole):
        return f"without a refusal: status {status}, {whole}", told
    for refused in range(1, requests + 1):
        status, said = replies(machine, calls, refused)
        if status not in (0, 1) or len(said) > len(calls):
            return f"request {refused} of {requests}: status {status}, {said}", told
        if len(said) < len(calls):
            lost += 1
            continue
        places = [place for place, reply in enumerate(said) if reply == "no memory"]
        kept = [call for place, call in enumerate(calls) if place not in places]
        if len(places) > 1 or "open" in said or said[-1] not in ("no memory", replies(machine, kept)[1][-1]):
            return f"request {refused} of {requests}: {said}", told
        told += len(places)
        for place in places:
            again = replies(machine, [*calls[: place + 1], *calls[place:]], refused)[1]
            # The longer input may ask for memory once more.
            if again[place] == "no memory":
                repeated += 1
                if "no memory" in again[place + 1 :] or again[-1] != whole[-1]:
                    return f"request {refused} of {requests}, call {place} again: {again}", told
    is_well = told > 20 and repeated > 20 > lost
    return None if is_well else f"{told} of {requests} were told, {repeated} repeated, {lost} lost", told


def requests_of(machine, calls):
    replies(machine, calls)
    return machine.requests()


def costs(machine):
    """For each question behind another one how many requests it makes, and how many it may make."""
    once = requests_of(machine, [*CHAIN, QUESTION])
    yield "a second question", requests_of(machine, [*CHAIN, QUESTION, QUESTION]) - once, AGAIN
    behind = requests_of(machine, [*CHAIN, QUESTION, MORE, QUESTION]) - once
    yield "a question behind one clause more", behind, BEHIND_MORE


def main():
    parser = argparse.ArgumentParser(description=__doc__, formatter_class=argparse.RawDescriptionHelpFormatter)
    parser.add_argument("program", metavar="GIPUTILS_REPLAY")
    asked = parser.parse_args()
    if not pathlib.Path(asked.program).is_file():
        parser.error(f"there is no program {asked.program}")
    found = list(faults())
    for fault in filter(None, found):
        print(f"FAILED: {fault}: tools/make_lists.py --rows")
    passed, failed = found.count(""), len(found) - found.count("")
    for path in sorted((ROOT / "tests" / "lists").glob("*.txt")):
        wrong, right = wrong_answers(asked.program, path)
        for line in wrong[:5]:
            print(f"FAILED: {path.name}: {line[:100]}")
        passed, failed = passed + right, failed + len(wrong)
    with tempfile.TemporaryDirectory() as folder:
        machine = memory.Machine({"giputils_replay": str(pathlib.Path(asked.program).resolve())}, folder)
        machine.lay_out(memory.Run("", "giputils_replay", []))
        for fault, told in refused_sessions(machine):
            print(f"FAILED: a session: {fault}" if fault else f"ok: a session, of which {told} calls were refused")
            passed, failed = passed + (fault is None), failed + (fault is not None)
        for name, requests, most in costs(machine):
            is_well = requests <= most
            print(f"{'ok' if is_well else 'FAILED'}: {name} makes {requests} requests")
            passed, failed = passed + is_well, failed + (not is_well)
    print(f"{passed} passed, {failed} failed")
    return 0 if failed == 0 else 1


if __name__ == "__main__":
    sys.exit(main())
