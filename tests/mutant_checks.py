"""Checks of mutants: over which libraries, how many in one, and what became of each. Read by the scripts that try
mutants.

The prover judges each function by itself: it says of a function which of its goals do not hold, and of one that calls
it that it waits. So one check tries many mutants that stand in different functions, and asks for these functions
alone. One that shows less than its file says, or only waits, is tried once more, by itself: beside others its goals may
wait for one of them."""

import collections
import contextlib
import copy
import functools
import hashlib
import importlib.machinery
import importlib.util
import itertools
import os
import pathlib
import re
import resource
import shutil
import signal
import subprocess
import sys
import tempfile
import threading
import time

import mutant_files
import mutant_sources
import mutant_stubs
from mutant_files import PARTS, ROOT
from mutant_judge import REASONS, Said, is_less, rank
from mutant_sources import names_of

# What a check takes of a processor at most, and of the clock on a machine that has much else to do. A mutant without a
# verdict then fails.
SECONDS, PATIENCE = 15 * 60, 60 * 60
# How many mutants a check tries: no fewer where more are left, since each check reads the libraries (some 10 s, and
# 8 s for a mutant), and no more, so that all processors are busy until the end.
FEWEST, MOST = 4, 16
# How many lines the body of a control has at most.
LONGEST = 12
# How many seconds pass until libraries are looked for again.
AGAIN = 5


# The libraries below, each built once.


@functools.cache
def load_kit():
    """The kit's `rt` as a module, which knows the words of a check, and what earlier runs on this machine built."""
    sys.dont_write_bytecode = True
    loader = importlib.machinery.SourceFileLoader("rt_of_kit", shutil.which("rt"))
    made = importlib.util.module_from_spec(importlib.util.spec_from_loader("rt_of_kit", loader))
    loader.exec_module(made)
    made.rtlib.Crate = made.Crate
    return made


class Libraries:
    """The libraries of the repository: as `rt ci` built them of the same files, or else as `rt check` does. Each is found or
    built once, those below first."""

    def __init__(self, root, room):
        self.root, self.room, self.kit = root, room, load_kit()
        self.kit.Crate.allowed = self.kit.handles_of(str(root))
        self.crates = {crate.name: crate for crate in self.kit.rtlib.crates_below(str(root))}
        # Where those lie that `rt ci` built, of those that it kept.
        self.given, self.kept = {}, self.kit.Kept(list(self.crates.values()))

    def find(self, libraries):
        """Takes those of these libraries that `rt ci` built. Each stands behind those that it stands on."""
        for library in libraries:
            if library.name not in self.given and all(it.name in self.given for it in library.below()):
                self.take(library)

    def below(self, names):
        """The libraries below these crates, each behind those that it stands on."""
        needed = {library.name: library for name in names for library in self.crates[name].below()}
        return sorted(needed.values(), key=lambda it: len(it.below()))

    def prepare(self, names):
        """Finds or builds what is below these crates, and answers which of them can be checked."""
        in_order = self.below(names)
        self.find(in_order)
        # What is below a crate is of one kind: where `rt ci` left not all of it, `rt check` builds all.
        lacking = {library.name for name in names if not self.is_given(name) for library in self.crates[name].below()}
        for library in in_order:
            if library.name in lacking and not library.is_built():
                print(f"{library.name}: it is built, since rt ci has not left it and what it stands on", flush=True)
                subprocess.run(["rt", "lib"], cwd=library.folder, stdout=subprocess.PIPE, stderr=subprocess.STDOUT)
        return [name for name in names if self.is_given(name) or all(it.is_built() for it in self.crates[name].below())]

    def is_given(self, name):
        return all(library.name in self.given for library in self.crates[name].below())

    def take(self, library):
        """Takes a library that `rt ci` built of the same files over the same libraries, where there is one."""
        taken = copy.copy(library)
        taken.folder = f"{self.room}/{library.name}"
        taken.rlib = f"{taken.folder}/out/rlib/{library.name}.rlib"
        if self.kept.give(taken, False, self.kept.key(library)):
            self.kept.is_built(taken)
            self.given[library.name] = taken.rlib

    def command(self, name):
        """The words of a check of a crate in the current folder."""
        for library in self.crates[name].below():
            built = f"{library.folder}/out/rlib/{library.name}.rlib"
            library.rlib = self.given[library.name] if self.is_given(name) else built
        return [self.kit.rtlib.RATTLE, "check", *self.crates[name].words(["--jobs", "1"], keeps=False)]

    def begun(self, name):
        """What a check of the crate left in a checkout on this machine, if one did."""
        return self.kit.work_for(self.crates[name])


# The checks of a crate.


class Crate:
    """A crate, and how its mutants are tried."""

    def __init__(self, name, mutants, command, begun, room, said_to=None):
        self.name, self.mutants, self.command, self.begun = name, mutants, command, begun
        self.folder, self.room, self.said_to = ROOT / "crates" / name, pathlib.Path(room), said_to
        self.outcomes = {mutant: ("other", mutant.fault) for mutant in mutants if mutant.fault}
        # Those to be tried over stubs, those of a proof each by itself; then those to be tried over all of the crate, and groups of
        # these that are one check each.
        self.left = [mutant for mutant in mutants if not mutant.fault]
        self.plain, self.groups = [], []
        # Those for which all of the crate is asked, since the prover names their functions otherwise.
        self.whole = set()
        # How the prover names the functions in which they stand, and how often each was named anew.
        self.names, self.named = {}, collections.Counter()
        # Those that only waited for another one.
        self.waited = set()
        # Controls that were refused, with what the prover said of them.
        self.refused_controls = []
        # Work that checks of this crate kept, and that no check is using.
        self.kept, self.numbers, self.checks = collections.defaultdict(list), itertools.count(1), 0

    def count(self):
        """How many are to be tried."""
        return len(self.left) + len(self.plain) + sum(map(len, self.groups))

    def take(self, most):
        """Takes mutants that can be tried in one check, and whether over stubs: at most so many, in different functions."""
        if self.left:
            return taken_from(self.left, most), True
        if self.groups:
            return self.groups.pop(), False
        return taken_from(self.plain, most), False

    def put_back(self, again):
        """Puts those back that are to be tried again."""
        self.left += again.left
        self.plain += again.plain
        self.groups += again.groups

    def kept_work(self, over_stubs):
        """A folder of kept work for a check: one that an earlier check of this crate is done with, or a new one."""
        with contextlib.suppress(IndexError):
            return self.kept[over_stubs].pop()
        folder = self.room / f"{self.name}.{next(self.numbers)}"
        with contextlib.suppress(OSError, shutil.Error):
            if self.begun:
                load_kit().linked(self.begun, folder)
        folder.mkdir(parents=True, exist_ok=True)
        return folder

    def check(self, texts, only, stubbed=None):
        """What the prover says of a copy of the crate with these texts, and of these functions alone where there are any; None
        where it came to no end in time. Where keys of functions are given, all others are stubs."""
        over_stubs = stubbed is not None
        kept = self.kept_work(over_stubs)
        with tempfile.TemporaryDirectory(prefix="giputils-mutant-") as room:
            for part in PARTS:
                if (self.folder / part).is_dir():
                    shutil.copytree(self.folder / part, f"{room}/{part}")
            for path, text in texts.items():
                pathlib.Path(room, path).write_text(text, encoding="utf-8")
            if over_stubs:
                mutant_stubs.put_stubs(room, self.name, stubbed)
            words = [*self.command, "--incremental", str(kept), *(word for name in only for word in ("--only", name))]
            words += ["--allow-holes"] * over_stubs
            said, is_killed = run(words, room)
            if is_killed:
                # Most likely for memory: once more, from nothing.
                shutil.rmtree(kept, ignore_errors=True)
                kept.mkdir()
                said, is_killed = run(words, room)
        self.checks += 1
        if said is None:
            # What it was writing may be of no use.
            shutil.rmtree(kept, ignore_errors=True)
            return None
        self.kept[over_stubs].append(kept)
        if self.said_to:
            (self.said_to / f"{self.name}.{self.checks}.txt").write_text(said, encoding="utf-8")
        return Said(said)

    def judge(self, batch, over_stubs):
        """Tries the mutants of a batch in one check, and answers which are to be tried again, and how."""
        return self.judge_over_stubs(batch) if over_stubs else self.judge_plainly(batch)

    def judge_over_stubs(self, batch):
        """Tries mutants, each in its function alone. One that shows less than its file says, or that a check says nothing of, is
        tried once more over all of the crate, and so are all where the control is refused."""
        if not batch[0].places:
            return self.judge_proof(batch[0])
        control = self.control_for(batch)
        places = {place for mutant in batch for place in mutant.places} | ({control} if control else set())
        keys = {mutant_stubs.key_of(*place) for place in places}
        said = self.check(mutant_files.texts_with(batch, self.folder), self.asked_for_all(places), keys)
        if said and (misnamed := said.misnamed()):
            return self.named_anew(batch, misnamed, control, over_stubs=True)
        if said is None or not said.reached:
            return Again(plain=batch)
        if not control or not said.accepts(self.names_at([control], said)):
            self.refused_controls += self.asked_for(control) if control else ()
            return Again(plain=batch)
        again = Again()
        for mutant in batch:
            outcome = said.reason_of(self.names_at(mutant.places, said))
            if outcome and not is_less(outcome[0], mutant.wanted):
                self.outcomes[mutant] = outcome
            else:
                again.plain.append(mutant)
        return again

    def judge_proof(self, mutant):
        """Tries a mutant of a proof, where each function is a stub."""
        said = self.check(mutant_files.texts_with([mutant], self.folder), (), set())
        outcome = said.reason_of_proofs({path for path, _, _ in mutant.hunks}) if said and said.reached else None
        if outcome and not is_less(outcome[0], mutant.wanted):
            self.outcomes[mutant] = outcome
            return Again()
        self.whole.add(mutant)
        return Again(groups=[[mutant]])

    def control_for(self, batch):
        """The place of a function that no mutant of the batch changes, and whose right body has to be accepted beside them. It is
        drawn by their names, of those with a contract where there are such; None where there is none."""
        changed = {mutant_stubs.key_of(*place) for mutant in batch for place in mutant.places}
        names = [mutant.stem for mutant in batch]
        drawn = lambda place: hashlib.sha256(repr([mutant_stubs.key_of(*place), names]).encode()).digest()
        free = [(place, has_contract) for place, has_contract in self.controls.items() if mutant_stubs.key_of(*place) not in changed]
        return min(free, key=lambda each: (not each[1], drawn(each[0])), default=(None, False))[0]

    @functools.cached_property
    def controls(self):
        """The places of the crate's short functions, each with whether it ensures something."""
        found = {}
        for path, text in self.texts.items():
            for function in mutant_sources.functions_of(text):
                head, body = text[function.start : function.opens], text[function.opens : function.closes]
                if body.count("\n") <= LONGEST and mutant_stubs.can_be_stub(text, function):
                    found[path, function] = bool(re.search(r"\bensures\b", head))
        return found

    def judge_plainly(self, batch):
        """Tries mutants over all that their functions call, in one check. One that shows less than its file says, or only waits, is
        tried once more, by itself: beside others its goals may wait for one of them."""
        is_whole = batch[0] in self.whole
        only = () if is_whole else self.asked_for_all({place for mutant in batch for place in mutant.places})
        said = self.check(mutant_files.texts_with(batch, self.folder), only)
        if said is None:
            return self.halves(batch, ("none", f"no verdict: it took {SECONDS // 60} minutes of a processor, or was killed"))
        if misnamed := said.misnamed():
            return self.named_anew(batch, misnamed)
        if not said.reached:
            return self.halves(batch, ("other", f"it does not compile: {said.first_error()}"))
        again = Again()
        for mutant in batch:
            outcome = said.reason_of_crate() if is_whole else said.reason_of(self.names_at(mutant.places, said))
            if outcome and (len(batch) == 1 or not is_less(outcome[0], mutant.wanted)):
                self.outcomes[mutant] = outcome
            elif len(batch) > 1 and not outcome and mutant not in self.waited:
                self.waited.add(mutant)
                again.plain.append(mutant)
            elif len(batch) > 1:
                again.groups.append([mutant])
            elif is_whole:
                self.outcomes[mutant] = "other", "nothing is told of its function"
            else:
                self.whole.add(mutant)
                again.groups.append([mutant])
        return again

    def asked_for_all(self, places):
        return sorted(set().union(*map(self.asked_for, places)))

    def asked_for(self, place):
        """The prover's names of the function at a place, or the ends of these."""
        if place not in self.names:
            self.names[place] = {"::".join(mutant_stubs.proved_name(*place, self.types))}
        return self.names[place]

    @functools.cached_property
    def types(self):
        """The modules of the crate's types."""
        return mutant_stubs.types_of(self.texts)

    @functools.cached_property
    def texts(self):
        """The sources of the crate."""
        source = self.folder / "src"
        return {f"src/{file.relative_to(source)}": file.read_text(encoding="utf-8") for file in sorted(source.rglob("*.rt"))}

    def named_anew(self, batch, misnamed, control=None, over_stubs=False):
        """Has a batch tried again with other names of the functions of some: the end alone, of which the prover tells what it
        stands for, or one of these. Where it knows none, all of the crate is asked."""
        for place in [*(place for mutant in batch for place in mutant.places), *([control] if control else [])]:
            names, (path, function) = self.asked_for(place), place
            if not names & set(misnamed):
                continue
            several = set().union(*(misnamed.get(name, ()) for name in names))
            found = names_of(function, mutant_files.module_of(path), several)
            self.named[place] += 1
            if found and self.named[place] < 4:
                self.names[place] = found
            elif names != {function.name}:
                self.names[place] = {function.name}
            elif place == control:
                self.controls.pop(control, None)
            else:
                self.whole |= {mutant for mutant in batch if place in mutant.places}
        known = [mutant for mutant in batch if mutant not in self.whole]
        groups = [[mutant] for mutant in batch if mutant in self.whole]
        return Again(known, [], groups) if over_stubs else Again([], known, groups)

    def halves(self, batch, outcome):
        """Has each half of a batch tried by itself; of one mutant this is the outcome."""
        if len(batch) > 1:
            half = len(batch) // 2
            return Again(groups=[batch[:half], batch[half:]])
        self.outcomes[batch[0]] = outcome
        return Again()

    def forget(self):
        """Removes what the checks kept."""
        for folders in self.kept.values():
            while folders:
                shutil.rmtree(folders.pop(), ignore_errors=True)

    def names_at(self, places, said):
        """The prover's names of the functions at these places, as a check tells them; none where one is not told."""
        found = [names_of(function, mutant_files.module_of(path), set(said.judged)) for path, function in places]
        return set().union(*found) if all(found) else set()


class Again:
    """Mutants that are to be tried again: over stubs, over all of the crate, and groups of these that are one check each."""

    def __init__(self, left=(), plain=(), groups=()):
        self.left, self.plain, self.groups = list(left), list(plain), list(groups)

    def count(self):
        return len(self.left) + len(self.plain) + sum(map(len, self.groups))


def taken_from(mutants, most):
    """Takes at most so many mutants in different functions out of a list, or one of a proof."""
    taken, functions = [mutant for mutant in mutants if not mutant.places][:1], set()
    most = 1 if taken else most
    for mutant in mutants:
        if len(taken) < most and not functions & mutant.places:
            taken.append(mutant)
            functions |= mutant.places
    mutants[:] = [mutant for mutant in mutants if mutant not in taken]
    return taken


# Runs a command with a limit of its processor time, and beside it a guard that ends it with all that it has started when
# its standard input is closed.
GUARDED = 'ulimit -S -t "$0"; exec 3<&0; (read -r _ <&3; kill -9 0) > /dev/null 2>&1 & exec "$@" < /dev/null 3<&-'


def run(words, folder):
    """What a command says, or None where it comes to no end in time, and whether another one killed it. It ends with the
    script, however that ends."""
    streams = {"stdin": subprocess.PIPE, "stdout": subprocess.PIPE, "stderr": subprocess.STDOUT}
    guarded = ["sh", "-c", GUARDED, str(SECONDS), *words]
    with subprocess.Popen(guarded, cwd=folder, process_group=0, **streams) as process:
        # The guard waits while this thread holds its standard input.
        held, process.stdin = process.stdin, None
        try:
            said = process.communicate(timeout=PATIENCE)[0].decode(errors="replace")
            is_late = False
        except subprocess.TimeoutExpired:
            said, is_late = None, True
        held.close()
        if is_late:
            process.communicate()
    if is_late or process.returncode == -signal.SIGXCPU:
        return None, False
    return (None, True) if process.returncode == -signal.SIGKILL else (said, False)


# All crates.


class Trial:
    """The mutants of some crates, tried by as many checks at a time as there is room for. The crates come one by one, those first
    whose libraries are there; while some are still to come, other proofs are running, and half of the room is theirs."""

    def __init__(self, coming, jobs, tells=True):
        self.coming, self.jobs, self.tells, self.running = coming, jobs, tells, collections.Counter()
        self.crates, self.is_whole, self.changed = [], False, threading.Condition()

    def say(self, text):
        if self.tells:
            print(text, flush=True)

    def run(self):
        workers = [threading.Thread(target=self.work, daemon=True) for _ in range(self.jobs)]
        for worker in workers:
            worker.start()
        try:
            for crate in self.coming:
                with self.changed:
                    self.crates.append(crate)
                    self.changed.notify_all()
        finally:
            with self.changed:
                self.is_whole = True
                self.changed.notify_all()
        for worker in workers:
            worker.join()
        for crate in self.crates:
            for name in crate.refused_controls:
                self.say(f"{crate.name}: the right body of {name} was refused over stubs, so its check was made without them")

    def work(self):
        while True:
            with self.changed:
                while not (taken := self.take()) and (sum(self.running.values()) or not self.is_whole):
                    self.changed.wait()
                if not taken:
                    self.changed.notify_all()
                    return
                crate, batch, over_stubs = taken
                self.running[crate] += 1
            again, began = Again(), time.monotonic()
            try:
                again = crate.judge(batch, over_stubs)
                how = "over stubs" if over_stubs else "over all"
                took = time.monotonic() - began
                self.say(f"{crate.name}: {len(batch)} {how} in {took:.0f} s, {crate.count() + again.count()} left")
            except Exception as fault:  # What is not tried is told by name, and the others are tried.
                crate.outcomes.update({mutant: ("none", f"it was not tried: {fault}") for mutant in batch})
            with self.changed:
                self.running[crate] -= 1
                crate.put_back(again)
                if not crate.count() and not self.running[crate]:
                    crate.forget()
                self.changed.notify_all()

    def take(self):
        """The next mutants to try, and how: of the crate with the most of them, and first of one that has no check running, whose
        next check takes what this one keeps."""
        crates = [crate for crate in self.crates if crate.count()]
        if not crates or not self.is_whole and sum(self.running.values()) >= max(1, self.jobs // 2):
            return None
        crate = max(crates, key=lambda it: (not self.running[it], it.count() / (1 + self.running[it])))
        share = -(-sum(each.count() for each in crates) // self.jobs)
        return crate, *crate.take(min(max(share, FEWEST), MOST))


def crates_of(by_crate, libraries, room, said_to, ended):
    """The crates of these mutants, each as soon as the libraries below it are there. Those that `rt ci` has not left are built,
    unless it is going on: then they are waited for until this file tells that it ended."""
    left = list(by_crate)
    while left:
        # Where the folder is gone, too, nothing is to come.
        is_last = ended is None or ended.exists() or not ended.parent.exists()
        if ended is None:
            there = libraries.prepare(left)
        else:
            libraries.find(libraries.below(left))
            there = [name for name in left if libraries.is_given(name)]
        for name in there:
            yield Crate(name, by_crate[name], libraries.command(name), libraries.begun(name), room, said_to)
        left = [name for name in left if name not in there]
        if is_last:
            return
        time.sleep(AGAIN)


def try_all(mutants, jobs, said_to=None, ended=None):
    """Tries mutants, and answers the outcome of each: a reason and what shows it, or another word where it is not refused."""
    by_crate = collections.defaultdict(list)
    for mutant in mutants:
        by_crate[mutant.crate].append(mutant)
    outcomes = {mutant: ("none", "it was not tried: a library below its crate is not built") for mutant in mutants}
    with tempfile.TemporaryDirectory(prefix="giputils-mutant-") as room:
        trial = Trial(crates_of(by_crate, Libraries(ROOT, room), room, said_to, ended), jobs)
        trial.run()
        for crate in trial.crates:
            outcomes.update(crate.outcomes)
    spent = resource.getrusage(resource.RUSAGE_CHILDREN)
    checks = sum(crate.checks for crate in trial.crates)
    print(f"tried: {len(mutants)} in {checks} checks, {spent.ru_utime + spent.ru_stime:.0f} s of a processor", flush=True)
    return outcomes


def processors():
    """How many checks there is room for: one a processor, and 3 GB each."""
    memory = int(re.search(r"MemAvailable:\s+(\d+)", pathlib.Path("/proc/meminfo").read_text())[1])
    return max(1, min(len(os.sched_getaffinity(0)), memory // 3_000_000))


# What is told of them.


def report(outcomes):
    """Prints what became of mutants, and answers how many were refused as their files say, and how many not."""
    failed = 0
    for mutant, (found, shown) in outcomes.items():
        is_well = found in REASONS and not mutant.fault and not is_less(found, mutant.wanted)
        if is_well:
            verdict = f"refused ({found})"
        else:
            verdict = f"WRONG REASON ({found}, and not {mutant.wanted})" if found in REASONS else "NOT REFUSED"
        failed += not is_well
        print(f"{mutant.name}: {verdict}: {shown[:160]}", flush=True)
    return len(outcomes) - failed, failed


def counted(reasons):
    """How many are refused for each reason."""
    counts = collections.Counter(reasons)
    words = [f"{counts[reason]} by {'a ' if reason == 'goal' else ''}{reason}" for reason in REASONS if reason != "other" or counts[reason]]
    return ", ".join(words)
