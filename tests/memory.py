#!/usr/bin/env python3
"""Tests that want of memory loses nothing: each request of some small runs of the built programs is refused in turn.

A row is a run of GIP, GIPSAT or GIPMC, and which requests for memory are refused: the Nth alone, or the Nth and all
that follow it, for each N. Each refused run has to end as the run does that is refused nothing, or to say that memory
was refused, or that an answer is open. It may then say less, and nothing else. It ends by itself, with a status that
the programs have. A file that it was to write is absent or whole: the same as without the refusal, or another one that
the program itself verifies; the part of one that did not get its name stays only where the error names it.

`rt try --fail-alloc N` refuses the Nth request of a run too, but it builds the program anew for each N, which takes
minutes. So what is refused here is the built program, by tests/refuse.c. The last line is 'N passed, M failed'.
"""

import argparse
import mmap
import os
import pathlib
import re
import subprocess
import sys
import tempfile

TESTS = pathlib.Path(__file__).resolve().parent
# What a run takes at most, on a machine with much beside it. One that is refused nothing takes some milliseconds.
SECONDS = 20
# Of longer runs so many requests are refused: the first ones, and then some that are as far apart as each other.
MOST = 700

# A formula that nothing satisfies, and one that something does.
UNSATISFIABLE = b"p cnf 2 4\n1 2 0\n1 -2 0\n-1 2 0\n-1 -2 0\n"
SATISFIABLE = b"p cnf 3 3\n1 2 3 0\n-1 2 0\n-2 -3 0\n"
# Three pigeons in two holes.
PIGEONS = b"p cnf 6 9\n1 2 0\n3 4 0\n5 6 0\n-1 -3 0\n-1 -5 0\n-3 -5 0\n-2 -4 0\n-2 -6 0\n-4 -6 0\n"
QUESTIONS = b"p inccnf\n1 2 3 0\n-1 2 0\na 0\n-2 -3 0\na 3 2 0\na -3 -2 0\n"
DRAT = b"1 0\n0\n"
LRAT = b"5 1 0 1 2 0\n6 0 5 3 4 0\n"
NO_PROOF = b"3 0\n"
# Numbers of which most have no variable.
FAR = b"p cnf 2147483647 4\n2147483647 7 0\n-2147483647 7 0\n2147483647 -7 0\n-2147483647 -7 0\n"
FAR_DRAT = b"1500000000 -7 0\n7 0\n0\n"
FAR_LRAT = b"5 1500000000 7 0 1 2 0\n6 7 0 1 2 0\n7 0 6 3 4 0\n"

# A latch that stays 0, and one that holds next what the input was; each is bad. A counter of two bits that goes from 2
# to 0: it is never 3, is 2 after two transitions.
TWO = b"aag 3 1 2 0 0 2\n2\n4 4\n6 2\n4\n6\ni0 in\nl1 held\nb1 rises\n"
COUNTER = b"aag 6 0 3 0 3 1\n2 8 0\n4 10 0\n6 2 0\n12\n8 3 5\n10 2 5\n12 2 4\n"
FAILS = b"aag 6 0 3 0 3 1\n2 8 0\n4 10 0\n6 2 0\n4\n8 3 5\n10 2 5\n12 2 4\n"
# Two copies of that counter, which are merged, and bad where they differ.
COPIES = b"aag 10 0 4 0 6 1\n2 10\n4 12\n6 14\n8 16\n18\n10 3 5\n12 2 5\n14 7 9\n16 6 9\n18 4 9\n20 2 7\n"
# An arbiter that changes whose turn it is, one that never does, and a counter that stays at 3 and counts on no run
# again and again.
FAIR = b"aag 3 0 2 0 1 0 0 1\n2 3\n4 6 1\n1\n4\n6 4 3\n"
STARVES = b"aag 3 0 2 0 1 0 0 1\n2 2\n4 6 1\n1\n4\n6 4 3\nj0 starves\n"
WITNESS = b"1\nb1\n00\n1\n0\n.\n"
INVARIANT = b"p cnf 2 1\n-1 0\n"
STAYS = b"aag 2 0 2 0 0 2\n2 2\n4 4\n2\n4\n"
AS_CIRCUIT = b"aag 2 0 2 0 0 1\n2 2\n4 4\n2\n"
LASSO = b"1\nj0\n01\n\n.\n"

SCRIPT = b"rank 0 10\nrank 1 8\nrank 2 2\npush 0\npush 1\npush 2\npop\nranks 0 1 1 0\npop\npop\npop\n"


class Run:
    """A run of a program: its words, standard input, the files that it reads, and the one that it is to write, with the
    words by which the program verifies that file."""

    def __init__(self, name, program, words, text=b"", files=(), written=None, verified=()):
        self.name, self.program, self.words, self.text = name, program, words, text
        self.files, self.written, self.verified = dict(files), written, verified

    def is_check(self):
        """Whether status 0 says that a proof, a witness or a certificate is verified."""
        return self.words[:1] in (["--check"], ["--replay"], ["--certify"], ["--join"])


def solver(name, words, text=b"", files=(), written=None, verified=()):
    return Run(f"gipsat, {name}", "gipsat", words, text, files, written, verified)


def checker(name, words, text=b"", files=(), written=None, verified=()):
    return Run(f"gipmc, {name}", "gipmc", words, text, files, written, verified)


def runs():
    f, p, c = "f.cnf", "proof", "c.aag"
    yield solver("a formula with a model", [f], files={f: SATISFIABLE})
    yield solver("a formula with no model", [f], files={f: PIGEONS})
    yield solver("a formula on standard input, with figures", ["--stats"], PIGEONS)
    for form in ([], ["--binary"], ["--lrat"]):
        words = ["--proof", p, *form, f]
        name = " ".join(["a proof that is written", *form])
        yield solver(name, words, files={f: PIGEONS}, written=p, verified=["--check", f, p])
    yield solver("steps where there is a model", ["--proof", p, f], files={f: SATISFIABLE}, written=p)
    yield solver("a proof that is checked", ["--check", f, p], files={f: UNSATISFIABLE, p: DRAT})
    yield solver("a proof with hints that is checked", ["--check", f, p], files={f: UNSATISFIABLE, p: LRAT})
    yield solver("a proof that is none", ["--check", f, p], files={f: UNSATISFIABLE, p: NO_PROOF})
    yield solver("a proof of great numbers that is checked", ["--check", f, p], files={f: FAR, p: FAR_DRAT})
    yield solver("a proof of great numbers with hints", ["--check", f, p], files={f: FAR, p: FAR_LRAT})
    words = ["--lrat-from-drat", "hinted", f, p]
    yield solver("hints that are written", words, files={f: UNSATISFIABLE, p: DRAT}, written="hinted",
                 verified=["--check", f, "hinted"])
    yield solver("all models", ["--models", "0", f], files={f: SATISFIABLE})
    yield solver("all models of two variables", ["--models", "0", "--project", "1 2", f], files={f: SATISFIABLE})
    yield solver("an assumption", ["--assume", "1 -2", f], files={f: SATISFIABLE})
    yield solver("questions", [f], files={f: QUESTIONS})
    for engine in ("all", "sim", "bmc", "ic3", "induction", "states"):
        words = [] if engine == "all" else ["--engine", engine, *(["--depth", "9"] if engine == "bmc" else [])]
        for kind, text in (("is safe", COUNTER), ("fails", FAILS)):
            yield checker(f"a circuit that {kind}, by {engine}", [*words, c], files={c: text})
    yield checker("a shortest trace", ["--shortest", c], files={c: FAILS})
    yield checker("two bad literals, with figures", ["--stats", c], files={c: TWO})
    yield checker("copies that are merged", [], COPIES)
    yield checker("names", ["--names", c], files={c: TWO})
    yield checker("a wave", ["--bad", "1", "--vcd", "wave", c], files={c: TWO}, written="wave")
    yield checker("a file of a witness", ["--witness", "w-", c], files={c: TWO}, written="w-b1.aiw",
                  verified=["--replay", "w-b1.aiw", "--bad", "1", c])
    for form in ([], ["--aiger"], ["--engine", "induction"]):
        name = " ".join(["a certificate that is written", *form[:2]])
        yield checker(name, ["--certificate", "cert", *form, c], files={c: COUNTER}, written="cert",
                      verified=["--certify", "cert", c])
    yield checker("a witness", ["--replay", "w", c], files={c: TWO, "w": WITNESS})
    yield checker("a certificate", ["--certify", "cert", "--bad", "0", c], files={c: TWO, "cert": INVARIANT})
    yield checker("a certificate that is none", ["--certify", "cert", c], files={c: TWO, "cert": INVARIANT})
    yield checker("a certificate that is a circuit", ["--certify", "cert", "--bad", "0", c],
                  files={c: TWO, "cert": AS_CIRCUIT})
    yield checker("a certificate that is a number", ["--certify", "cert", c], files={c: COUNTER, "cert": b"k 1\n"})
    yield checker("a list", ["--list", c], files={c: TWO})
    parts = {"p": b"p cnf 2 1\n-1 0\n", "q": b"p cnf 2 1\n-2 0\n"}
    yield checker("certificates that are joined", ["--join", "cert", c, "p", "q"], files={c: STAYS} | parts,
                  written="cert", verified=["--certify", "cert", c])
    yield checker("a justice property that holds", [c], files={c: FAIR})
    yield checker("a justice property that fails", ["--names", c], files={c: STARVES})
    yield checker("a certificate of a justice property", ["--certificate", "cert", c], files={c: FAIR},
                  written="cert", verified=["--certify", "cert", "--justice", "0", c])
    yield checker("a lasso", ["--replay", "w", c], files={c: STARVES, "w": LASSO})
    yield Run("gip, a script", "gip", [], SCRIPT)
    yield Run("gip, lines of bits", "gip", ["bits"], b"01101\n[]\n000\n" + b"1" * 70 + b"\n")


class Machine:
    """A folder in which programs run, and are refused requests for memory."""

    def __init__(self, programs, folder):
        self.programs, self.folder = programs, pathlib.Path(folder)
        self.library = self.folder / "refuse.so"
        self.build()
        self.count = self.folder / "requests"
        self.count.write_bytes(bytes(16))
        with open(self.count, "r+b") as file:
            self.counted = mmap.mmap(file.fileno(), 16)
        self.work = self.folder / "work"

    def build(self):
        """By the toolchain's own compiler, against the C library that it links programs with."""
        page = subprocess.run(["rt", "doc"], capture_output=True, text=True, check=True).stdout.strip()
        chain = pathlib.Path(page).parent / "toolchain"
        part = self.folder / "refuse.o"
        subprocess.run([chain / "bin/clang", "-O2", "-fPIC", "-c", TESTS / "refuse.c", "-o", part], check=True)
        subprocess.run([chain / "bin/ld.lld", "-shared", part, "-o", self.library, chain / "lib/libc.so.6"], check=True)

    def requests(self):
        """How many requests the last run made."""
        return int.from_bytes(self.counted[:8], sys.byteorder)

    def held(self):
        """How many bytes it held at most."""
        return int.from_bytes(self.counted[8:], sys.byteorder)

    def lay_out(self, run):
        """A folder with the files of a run, and nothing else."""
        if self.work.exists():
            for path in self.work.iterdir():
                path.unlink()
        else:
            self.work.mkdir()
        for name, content in run.files.items():
            (self.work / name).write_bytes(content)

    def result(self, run, words, first=0, last=0):
        """How a program ends that is refused its requests from the first to the last one: its status, what it writes to
        standard output and to standard error. No status where it does not end."""
        refused = {"LD_PRELOAD": str(self.library), "REQUESTS": str(self.count), "FIRST": str(first), "LAST": str(last)}
        try:
            command = [self.programs[run.program], *words]
            streams = {"input": run.text, "capture_output": True}
            done = subprocess.run(command, **streams, env=refused, cwd=self.work, timeout=SECONDS, check=False)
        except subprocess.TimeoutExpired:
            return None, b"", b"no end"
        return done.returncode, done.stdout, done.stderr

    def refused(self, run, first, last):
        """How a run ends where those requests are refused, and what it leaves in the file that it is to write."""
        for path in self.work.iterdir():
            if path.name not in run.files:
                path.unlink()
        said = self.result(run, run.words, first, last)
        path = self.work / run.written if run.written else None
        written = path.read_bytes() if path and path.exists() else None
        left = sorted(path.name for path in self.work.iterdir() if path.name not in run.files)
        return said, written, [name for name in left if name != run.written]


def plain(text):
    """A text without the lines that tell how far a search is, and without figures."""
    return b"".join(line for line in text.splitlines(True) if not re.match(rb"u[0-9]+\n|c .*[0-9]", line))


def solver_claims(text):
    """The answers of gipsat, in order. Values belong to the answer before them."""
    return [line for line in text.splitlines() if line.startswith(b"s ") and line != b"s UNKNOWN"]


def checker_claims(text):
    """What gipmc says of each property that it does not leave open, and of witnesses and certificates."""
    lines = [line for line in text.splitlines() if not re.fullmatch(rb"u[0-9]+", line)]
    said = {line for line in lines if line.startswith(b"s ")}
    for place, line in enumerate(lines[:-1]):
        if line in (b"0", b"1") and re.fullmatch(rb"[bj][0-9]+", lines[place + 1]):
            said.add((line, lines[place + 1]))
    return said


def is_no_more(run, text, whole):
    """Whether what a refused run says is part of what it says else."""
    if run.program == "gipsat":
        said, wanted = solver_claims(text), solver_claims(whole)
        return said == wanted[:len(said)]
    if run.program == "gipmc":
        return checker_claims(text) <= checker_claims(whole)
    return True


def are_replies(machine, run, text):
    """Whether gip replies to each line but those that it was refused memory for as where these are left out."""
    if run.program != "gip":
        return True
    said, lines = text.splitlines(True), run.text.splitlines(True)
    kept = [place for place, reply in enumerate(said) if reply != b"memory\n"]
    rest = Run(run.name, "gip", run.words, b"".join(lines[place] for place in kept))
    return machine.result(rest, run.words)[:2] == (0, b"".join(said[place] for place in kept))


def are_models(run, text):
    """Whether the values that gipsat writes satisfy the clauses of the formula, apart from those behind a question."""
    formula = run.files.get("f.cnf", run.text)
    if b"inccnf" in formula:
        return True
    clauses = [[int(word) for word in line.split()[:-1]] for line in formula.splitlines()[1:]]
    models = [{int(word) for word in line.split()[1:]} for line in text.splitlines() if line.startswith(b"v ")]
    return all(any(l in model for l in clause) for model in models for clause in clauses)


def traces_hold(machine, run, text):
    """Whether gipmc replays the traces that it has written."""
    if run.program != "gipmc" or not any(line[0] == b"1" for line in checker_claims(text)):
        return True
    (machine.work / "said").write_bytes(text)
    status, out, _ = machine.result(run, ["--replay", "said", *run.words[-1:]])
    return status == 0 and out == b"s VERIFIED\n"


def is_whole(machine, run, written, whole):
    """Whether a file is absent, the same as else, or verified by the program itself."""
    if written is None or written == whole:
        return True
    return bool(run.verified) and machine.result(run, run.verified)[:2] == (0, b"s VERIFIED\n")


def is_told(run, status, out, err):
    """Whether a run tells that it was refused memory, or else that something is open or not written."""
    if run.program == "gip" and status == 0:
        return b"memory\n" in out
    is_open = run.program == "gipmc" and (b"2" in out.splitlines() or b"there may be a shorter trace" in err)
    return is_open or re.search(rb"memory|cannot be written|: not written", err) is not None


def fault(machine, run, whole, got):
    """What is wrong with a run that is refused memory, beside the one that is not; or None."""
    (status, out, err), written, left = got
    (wanted, all_out, all_err), all_written, _ = whole
    if status is None or status < 0:
        return "no end of its own"
    if not all(f"(see {name})".encode() in err for name in left):
        return f"it leaves {', '.join(left)}"
    if not is_whole(machine, run, written, all_written):
        return f"{run.written} is not whole"
    if not is_no_more(run, out, all_out) or not are_replies(machine, run, out):
        return "it says what is not so"
    if run.program == "gipsat" and not are_models(run, out):
        return "values that satisfy nothing"
    if status == wanted:
        # Another trace or other values are as good. As many answers there are, and no word of memory.
        same = plain(out) == plain(all_out) or is_no_more(run, all_out, out) and traces_hold(machine, run, out)
        if same and plain(err) == plain(all_err) and (written is None) == (all_written is None):
            return None
    if status not in (0, 1, 2, 10) or status == 10 != wanted:
        return "a status of something else"
    if status == 0 and run.is_check() and b"s VERIFIED" not in out.splitlines():
        return "the status of what is verified"
    if not traces_hold(machine, run, out):
        return "a trace that is none"
    return None if is_told(run, status, out, err) else "no word of it"


def places(requests):
    """The requests that are refused: all, or of very many the first ones and some."""
    if requests <= MOST:
        return range(1, requests + 1)
    half = MOST // 2
    return [*range(1, half + 1), *range(half + 1, requests + 1, -(-(requests - half) // half))]


def fault_of(machine, run, follow):
    """What is wrong with a run where each request is refused in turn, and those that follow it, if they are to be; and
    how many were tried."""
    machine.lay_out(run)
    whole = machine.refused(run, 0, 0)
    requests = machine.requests()
    if whole[0][0] not in (0, 1, 10, 20) or requests < 3 or fault(machine, run, whole, whole):
        return f"without a refusal: {requests} requests, {whole[0]}", 0
    tried = places(requests)
    for place in tried:
        got = machine.refused(run, place, sys.maxsize if follow else place)
        said = fault(machine, run, whole, got)
        if said:
            return f"request {place} of {requests}: {said}: {got}", len(tried)
    return None, len(tried)


def main():
    parser = argparse.ArgumentParser(description=__doc__, formatter_class=argparse.RawDescriptionHelpFormatter)
    for name in ("gip", "gipsat", "gipmc"):
        parser.add_argument(name, metavar=name.upper())
    asked = parser.parse_args()
    programs = {name: os.path.abspath(path) for name, path in vars(asked).items()}
    for name, path in programs.items():
        if not os.access(path, os.X_OK):
            print(f"no program {path}\n0 passed, 1 failed")
            return 1
    passed = failed = 0
    with tempfile.TemporaryDirectory() as folder:
        machine = Machine(programs, folder)
        for run in runs():
            for follow in (False, True):
                said, tried = fault_of(machine, run, follow)
                name = f"{run.name}: {'each request and those behind it' if follow else 'each request alone'}"
                print(f"FAILED: {name}: {said}" if said else f"ok: {name} ({tried} refused)", flush=True)
                passed, failed = passed + (not said), failed + bool(said)
    print(f"{passed} passed, {failed} failed")
    return 1 if failed else 0


if __name__ == "__main__":
    sys.exit(main())
