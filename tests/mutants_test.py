#!/usr/bin/env python3
"""Tests the scripts that try mutants, without the prover, in small repositories: which a change affects, with which commit a tree
is compared, which are gone, which a rota samples, how a check is shared, what is a stub in it, which are compiled together,
and what is made of what the prover says. The last line is 'N passed, M failed'."""

import argparse
import contextlib
import copy
import itertools
import os
import pathlib
import subprocess
import sys
import tempfile

sys.dont_write_bytecode = True
import mutant_checks
import mutant_choice
import mutant_compiles
import mutant_files
import mutant_stubs
from mutant_judge import Said

LOW = """\
//! Multiples of a number.
#![tactic(auto)]
ghost use Rattle.std.specs.Prelude.{◌≡◌, ◌+◌};
ghost use Rattle.low.specs.Prelude.{IsSmall};

/// Twice the number.
pub fn double(n: u8) -> u16
    ensures { result ≡ n + n }
{
    u16::from(n) + u16::from(n)
}

/// Four times the number.
pub fn quadruple(n: u8) -> u16
    ensures { result ≡ n + n + n + n }
{
    let twice = same(double(n));
    twice + twice
}

// The number itself.
fn same(m: u16) -> u16
    ensures { result ≡ m }
{
    m
}

/// What counts.
pub struct Counter {
    pub count: u8,
}

impl Model for Counter {
    ghost Value = { ℕ };

    ghost view = { λ c. c.count };

    ghost invariant = { λ c. IsSmall c.count };
}

impl Counter {
    /// The count.
    pub fn get(&self) -> u8
        ensures { result ≡ self.now }
    {
        self.count
    }
}

const STEP: u16 = 1;
"""

HIGH = """\
//! Five times a number.
#![tactic(auto)]
ghost use Rattle.std.specs.Prelude.{◌≡◌, ◌+◌};

use low::{Counter, quadruple};

/// Five times the number.
pub fn quintuple(n: u8) -> u16
    ensures { result ≡ n + n + n + n + n }
{
    quadruple(n) + u16::from(n)
}

/// Five times the count.
#[tactic(auto, using(crate::proofs::Kept::kept))]
pub fn of_counter(counter: &Counter) -> u16 {
    quintuple(counter.get())
}
"""

NUMBERS = """\
-- Small numbers.
use Rattle.std.specs.Prelude.{ℕ, ◌<◌}

-- the greatest of them
abbrev pub greatest : ℕ
greatest = 9

abbrev pub IsSmall : ℕ → Type 0
IsSmall n = n < greatest

-- nothing uses it
abbrev pub lonely : ℕ
lonely = 3
"""

FACTS = """\
-- Facts on numbers.
use Rattle.std.specs.Prelude.{◌≡◌, ℕ, refl}

pub itself : (n : ℕ) → n ≡ n
itself n = refl

pub again : (n : ℕ) → n ≡ n
again n = refl
"""

KEPT = """\
use Rattle.std.specs.Prelude.{ℕ}
use Rattle.low.proofs.Facts.{again}

pub kept : (n : ℕ) → n ≡ n
kept n = again n
"""

ANSWERS = """\
use Rattle.low.proofs.quadruple.Goals as goal
use Rattle.low.proofs.Facts.{itself}

pub returns : goal.returns
returns c = itself c.args.n
"""

FILES = {
    "crates.txt": "low:\nhigh: low\n",
    "crates/low/src/lib.rt": LOW,
    "crates/low/specs/Lib.antt": "pub mod Numbers\n",
    "crates/low/specs/Numbers.antt": NUMBERS,
    "crates/low/specs/Prelude.antt": "unfoldable pub use Rattle.low.specs.Numbers.{IsSmall}\n",
    "crates/low/proofs/Lib.antt": "pub mod Facts\n",
    "crates/low/proofs/Facts.antt": FACTS,
    "crates/low/proofs/quadruple/Answers.antt": ANSWERS,
    "crates/low/proofs/other/Counter/get/Answers.antt": "pub returns : goal.returns\nreturns c = c.count\n",
    "crates/high/src/lib.rt": HIGH,
    "crates/high/proofs/Lib.antt": "mod Kept\n",
    "crates/high/proofs/Kept.antt": KEPT,
}

# Mutants: the old text and the new one.
MUTANTS = {
    "low/double_is_one_more": ("u16::from(n) + u16::from(n)", "u16::from(n) + u16::from(n) + 1"),
    "low/quadruple_is_triple": ("twice + twice", "twice + u16::from(n)"),
    "low/count_is_one_more": ("self.count", "self.count + 1"),
    "high/quintuple_is_quadruple": ("quadruple(n) + u16::from(n)", "quadruple(n)"),
    "high/of_nothing": ("quintuple(counter.get())", "0"),
}

# Changes: what is changed, the file, the old and the new text, and what is affected then.
CHANGES = [
    ("a body", "low/src/lib.rt", "    twice + twice", "    2 * twice", {"quadruple_is_triple"}),
    ("the body of what is called", "low/src/lib.rt", "    m\n", "    m + 0\n", set()),
    ("a contract that is called", "low/src/lib.rt", "ensures { result ≡ m }", "ensures same { result ≡ m }", {"quadruple_is_triple"}),
    ("a contract of a library", "low/src/lib.rt", "n + n + n + n }", "4 * n }", {"quadruple_is_triple", "quintuple_is_quadruple"}),
    ("a comment", "low/src/lib.rt", "Twice the number", "Two times the number", set()),
    ("a comment of a specification", "low/specs/Numbers.antt", "-- the greatest", "-- the very greatest", set()),
    ("the layout", "low/src/lib.rt", "let twice = same", "let twice =\n        same", set()),
    ("a clause of a type", "low/src/lib.rt", "λ c. c.count }", "λ c. c.count + 1 }", {"count_is_one_more", "of_nothing"}),
    ("the head of an impl", "low/src/lib.rt", "impl Counter {", "impl<> Counter {", {"count_is_one_more", "of_nothing"}),
    ("the head of a file", "low/src/lib.rt", "#![tactic(auto)]", "#![tactic(auto, using(std::x))]", set()),
    ("a definition that is reached", "low/specs/Numbers.antt", "greatest = 9", "greatest = 8", {"count_is_one_more", "of_nothing"}),
    ("what a Prelude hands on", "low/specs/Numbers.antt", "n < greatest", "n < 9", {"count_is_one_more", "of_nothing"}),
    ("one that is not", "low/specs/Numbers.antt", "lonely = 3", "lonely = 4", set()),
    ("an answer", "low/proofs/quadruple/Answers.antt", "itself c.args.n", "itself c.n", set()),
    ("a lemma that an answer imports", "low/proofs/Facts.antt", "itself n = refl", "itself m = refl", set()),
    ("a lemma that an attribute leads to", "low/proofs/Facts.antt", "again n = refl", "again m = refl", set()),
    ("a mutant", "high/mutants/of_nothing.edit", "new: 0", "new: 1", {"of_nothing"}),
    ("why it is no goal", "high/mutants/of_nothing.edit", "file:", "why: none\nfile:", set()),
    ("for which reason", "high/mutants/of_nothing.edit", "file:", "refused: limit\nwhy: none\nfile:", {"of_nothing"}),
    ("for which reason, and not why", "high/mutants/of_nothing.edit", "file:", "refused: limit\nfile:", {"of_nothing"}),
    ("a text that does not stand there", "high/mutants/of_nothing.edit", "old: quintuple", "old: quint", {"of_nothing"}),
    ("a text outside of functions", "low/mutants/count_is_one_more.edit", "old: self.count", "old: u16 = 1", {"count_is_one_more"}),
]

# What the prover says of functions, with what is made of it: the reason for which `f` is refused.
SAID = {
    "a goal does not hold": (
        "note: src/lib.rt:3:1: it is not proved that the clause holds (`returns`); it may be false\n"
        "fn c::f: no proof: expected answers in ./proofs/f/Answers.antt; `search` did not prove `returns`\nonly=1 proved=0",
        "goal",
    ),
    "a search gave up": (
        "note: src/lib.rt:3:1: it is not proved that the clause holds (`returns`); `search` gave up at one of its limits\n"
        "fn c::f: no proof: expected answers in ./proofs/f/Answers.antt; `search` did not prove `returns`\nonly=1 proved=0",
        "limit",
    ),
    "an answer does not follow": (
        "proofs/f/Answers.antt:7:2: error: `returns`: `omega`: the goal does not follow from what it read\nfn c::f: not proved\nonly=1 proved=0",
        "goal",
    ),
    "an answer names what is not there": (
        "proofs/f/Answers.antt:7:2: error: `goal.x`: module `M` has no `x`\nfn c::f: not proved\nonly=1 proved=0",
        "name",
    ),
    "an answer does not fit": (
        "proofs/f/Answers.antt:7:2: error: `returns`: expected type A\nfn c::f: not proved\nonly=1 proved=0",
        "type",
    ),
    "no clause was tried": ("fn c::f: no proof: a loop is not covered\nonly=1 proved=0", "form"),
    "it is proved": ("fn c::f: proved\nonly=1 proved=1", "none"),
    "it has no holes of its own": ("fn c::f: no holes\nonly=1 holes=0", None),
    "it depends on a hole": ("fn c::f: depends on a hole in ./proofs/g/Proof.antt\nonly=1 holes=1", None),
    "it waits for another one": ("fn c::f: not proved\nfn c::g: not proved\nonly=2 proved=0", None),
    "nothing is told of it": ("fn c::g: proved\nonly=1 proved=1", None),
}


def write(path, text):
    path.parent.mkdir(parents=True, exist_ok=True)
    path.write_text(text, encoding="utf-8")


def make(folder):
    """A repository of two crates."""
    for name, text in FILES.items():
        write(folder / name, text)
    for name, (old, new) in MUTANTS.items():
        crate, _, stem = name.partition("/")
        write(folder / "crates" / crate / "mutants" / f"{stem}.edit", f"file: src/lib.rt\nold: {old}\nnew: {new}\n")


def with_text(path, old, new, action):
    """What an action answers while a text of a file is another one."""
    text = path.read_text(encoding="utf-8")
    if text.count(old) != 1:
        raise ValueError(f"{old} does not stand once in {path}")
    path.write_text(text.replace(old, new), encoding="utf-8")
    try:
        return action()
    finally:
        path.write_text(text, encoding="utf-8")


def changes(folder):
    """Which mutants each change affects."""
    make(folder / "base")
    make(folder / "tree")
    base = mutant_choice.Tree(folder / "base")

    def stems():
        mutants = mutant_files.all_mutants(folder / "tree")
        return {mutant.stem for mutant in mutant_choice.affected(mutants, mutant_choice.Tree(folder / "tree"), base)}

    yield "nothing is affected where nothing changed", stems(), set()
    for what, file, old, new, wanted in CHANGES:
        yield f"affected by a change of {what}", with_text(folder / "tree/crates" / file, old, new, stems), wanted
    write(folder / "tree/crates/high/mutants/another.edit", "file: src/lib.rt\nold: quadruple(n) + u16::from(n)\nnew: 5\n")
    yield "one that is new is affected", stems(), {"another"}
    (folder / "tree/crates/high/mutants").rename(folder / "tree/crates/high/wrong")
    (folder / "base/crates/low/mutants").rename(folder / "base/crates/low/wrong")
    base = mutant_choice.Tree(folder / "base")
    yield "a folder's earlier name makes none new, and is read in a base alone", stems(), set()
    write(folder / "base/README.md", "The kit is `kit-9`; any with its logic, `0a1b`, should do.\n")
    for version, wanted in (("kit-9 logic 0a1b", False), ("kit-8 logic 0a1b", False), ("kit-9 logic 2c", True), ("", True)):
        yield f"all are tried by another kit: {version}", mutant_choice.is_of_another_kit(folder / "base", version), wanted


def covers(folder):
    """Which mutants are tried of the items that changed."""
    make(folder)
    one, mutant_choice.COVER = mutant_files.all_mutants(folder)[0], 2

    def cover(reached, chosen=()):
        mutants = {name: copy.copy(one) for name in reached}
        for name, mutant in mutants.items():
            mutant.crate, mutant.name = name.split("/")[0], name
        items = {mutants[name]: found if isinstance(found, dict) else dict.fromkeys(found, 1) for name, found in reached.items()}
        return sorted(mutant.name for mutant in mutant_choice.covering(items, [mutants[name] for name in chosen]))

    several = {"a/1": "xy", "a/2": "xy", "a/3": "x", "b/1": "y", "b/2": "z"}
    yield "each item is reached so often as it can be", cover(several), ["a/1", "a/2", "b/2"]
    yield "those that are tried all the same count", cover(several, ["a/3", "b/1", "b/2"]), ["a/1"]
    yield "none where nothing changed", cover({"a/1": "", "b/1": ""}), []
    far = {"a/1": {"x": 2}, "a/2": {"x": 1, "y": 3}, "a/3": {"x": 3}, "b/1": {"x": 1}, "b/2": {"y": 3}}
    yield "by as few steps as any do", cover(far), ["a/2", "b/1", "b/2"]
    even = {"a/1": "x", "b/1": "x", "c/1": "x", "c/2": "y", "c/3": "y"}
    yield "crates that are open come first", cover(even, ["c/2"]), ["a/1", "c/1", "c/3"]


def bases(folder):
    """With which commit a tree is compared."""
    base = lambda: mutant_choice.base_of(folder)[0]
    git = lambda *words: subprocess.run(["git", "-C", folder, *words], check=True, stdout=subprocess.PIPE, text=True).stdout.strip()

    def commit(name):
        git("-c", "user.name=A", "-c", "user.email=a@b", "commit", "--quiet", "--allow-empty", "-m", name)
        return git("rev-parse", "HEAD")

    folder.mkdir()
    yield "there is no base without a history", base(), None
    git("init", "--quiet", "--initial-branch=main")
    yield "nor without a commit", base(), None
    commits = [commit(str(number)) for number in range(mutant_choice.BACK)]
    yield "nor on the main branch where it is short", base(), None
    commits.append(commit("one more"))
    yield "on the main branch it stands some commits back", base(), commits[0]
    git("checkout", "--quiet", "-b", "work")
    yield "also on a branch that has no commit of its own", base(), commits[0]
    commit("work")
    yield "on a branch it is where that left the main branch", base(), commits[-1]
    git("update-ref", "refs/remotes/origin/main", commits[-3])
    yield "the branch of the origin comes first", base(), commits[-3]
    git("checkout", "--quiet", "main")
    yield "what was not pushed is on a branch, too", base(), commits[-3]
    (folder / "below").mkdir()
    yield "a folder below is no repository", mutant_choice.base_of(folder / "below")[0], None
    write(folder / "file", "text\n")
    git("add", "file")
    with mutant_choice.files_of(folder, commit("a file")) as files:
        yield "the files of a commit", (files / "file").read_text(encoding="utf-8"), "text\n"


def history(folder):
    """Which mutants that commits took out are gone without a reason."""
    git = lambda *words: subprocess.run(["git", "-C", folder, *words], check=True, stdout=subprocess.PIPE, text=True).stdout.strip()
    text, high, low = "file: src/lib.rt\nold: 1\nnew: 2\n", folder / "crates/high/mutants", folder / "crates/low/wrong"

    def commit(message="a commit"):
        git("add", "--all")
        git("-c", "user.name=A", "-c", "user.email=a@b", "commit", "--quiet", "--allow-empty", "-m", message)
        return git("rev-parse", "HEAD")

    folder.mkdir()
    git("init", "--quiet", "--initial-branch=main")
    write(folder / "crates.txt", "low:\nhigh: low\n")
    for name in ("of_base", "of_list", "moved", "told"):
        write(high / f"{name}.edit", text)
    base = commit()
    gone = lambda: mutant_choice.gone(folder, base)
    yield "none is gone", gone(), []
    (high / "of_base.edit").unlink()
    commit()
    yield "one that the base has", gone(), ["high/of_base"]
    (high / "told.edit").unlink()
    commit("High: a mutant goes\n\ntold: another one is of the same clause\n")
    yield "one of which the message says why", gone(), ["high/of_base"]
    commit("of_base: said later\n")
    yield "a later message says why", gone(), []
    write(high / "told.edit", text)
    commit()
    (high / "told.edit").unlink()
    commit()
    yield "one that came back and went once more, of which an earlier message says why", gone(), ["high/told"]
    commit("told: once more\n")
    write(high / "short_lived.edit", text)
    commit()
    (high / "short_lived.edit").unlink()
    commit("short_lived:\n\nno reason\n")
    yield "one that came since the base, and a line without a reason", gone(), ["high/short_lived"]
    write(high / "short_lived.edit", text)
    commit()
    yield "one that came back", gone(), []
    low.mkdir(parents=True)
    (high / "moved.edit").rename(folder / "crates/low/mutants-moved.edit")
    commit()
    yield "one that stands where none is read", gone(), ["high/moved"]
    write(folder / "crates/low/mutants/moved.edit", text)
    commit()
    yield "one that another crate took over", gone(), []
    write(low / "LIST", "of_list: it was a trial\n")
    commit()
    (low / "LIST").unlink()
    (high / "of_list.edit").unlink()
    commit()
    yield "one of which a list of names said why", gone(), []
    yield "none that went before the base", mutant_choice.gone(folder, git("rev-parse", "HEAD")), []


def rota(folder):
    """Which mutants are sampled."""
    git = lambda *words: subprocess.run(["git", "-C", folder, *words], check=True, stdout=subprocess.PIPE, text=True).stdout.strip()
    make(folder)
    for number in range(15):
        write(folder / f"crates/{'low' if number < 9 else 'high'}/mutants/m{number}.edit", "file: src/lib.rt\nold: 1\nnew: 2\n")
    git("init", "--quiet", "--initial-branch=main")
    for number in range(50):
        # One comes in the middle of a round, and another one goes.
        if number == 27:
            write(folder / "crates/low/mutants/late.edit", "file: src/lib.rt\nold: 1\nnew: 2\n")
            (folder / "crates/low/mutants/m0.edit").unlink()
        git("add", "--all")
        git("-c", "user.name=A", "-c", "user.email=a@b", "commit", "--quiet", "--allow-empty", "-m", str(number))
    mutant_choice.ROUND = 20
    commits = git("rev-list", "--first-parent", "--reverse", "HEAD").split()

    def tried(first, last):
        """Those that are sampled where a landing ends at one commit and its base is another one."""
        git("checkout", "--quiet", commits[last - 1])
        return {mutant.name for mutant in mutant_choice.sampled(mutant_files.all_mutants(folder), folder, commits[first - 1])}

    git("checkout", "--quiet", commits[25])
    names = {mutant.name for mutant in mutant_files.all_mutants(folder)}
    parts = [tried(first, first + 4) for first in range(19, 39, 4)]
    yield "a round samples each that stands throughout", set().union(*parts) | {"low/m0"}, names
    yield "once", sum(map(len, parts)) in (len(names) - 1, len(names)), True
    yield "a part of them at a time", max(map(len, parts)) <= len(names) // 4, True
    yield "however the landings part it", tried(21, 23) | tried(23, 25), tried(21, 25)
    in_order = [{name.partition("/")[0] for name in tried(number, number + 1)} for number in range(19, 39)]
    yield "crate by crate", len(list(itertools.groupby(crate for crates in in_order for crate in sorted(crates)))) <= 3, True
    yield "also from one round to the next", tried(35, 45), tried(35, 39) | tried(39, 45)
    yield "none without a commit", tried(30, 30), set()


def stubs(folder):
    """What is a stub in a check."""
    make(folder)
    more = "\nconst fn fixed() -> u8 {\n    7\n}\n\n#[tactic(cycle(turn))]\nfn turn() -> u8 {\n    8\n}\n\npub trait Kind {\n    fn kind(&self) -> u8 {\n        9\n    }\n}\n"
    more += "\nimpl Drop for Counter {\n    fn drop(self) {\n        10;\n    }\n}\n\nimpl Kind for Counter {\n    fn kind(&self) -> u8 {\n        11\n    }\n}\n"
    source = folder / "crates/low/src/lib.rt"
    source.write_text(LOW + more, encoding="utf-8")
    kept = {("src/lib.rt", "", "", "quadruple")}
    mutant_stubs.put_stubs(folder / "crates/low", "low", kept)
    text = source.read_text(encoding="utf-8")
    yield "others lose their bodies", [part in text for part in ("u16::from(n) + u16::from(n)", "self.count\n", "    m\n", "10;", "11")], 5 * [False]
    yield "those that are tried keep theirs, as do constants, cycles and what traits provide", [part in text for part in ("twice + twice", "7", "8", "9")], 4 * [True]
    yield "contracts stay", text.count("ensures"), LOW.count("ensures")
    proofs = folder / "crates/low/proofs"
    holes = sorted(str(path.parent.relative_to(proofs)) for path in proofs.rglob("Proof.antt"))
    yield "each stub's statement has a hole", holes, ["Counter/drop", "Counter/get", "CounterKind/kind", "double", "same"]
    yield "which names it", (proofs / "Counter/get/Proof.antt").read_text(encoding="utf-8").splitlines()[0], "use Rattle.low.proofs.Counter.get.Statement as stated"
    yield "the proof of what is tried stays", (proofs / "quadruple/Answers.antt").is_file(), True


def compiled(folder):
    """Which mutants are compiled together, and what is made of errors."""
    make(folder)
    write(folder / "crates/low/mutants/double_is_triple.edit", "file: src/lib.rt\nold: u16::from(n) + u16::from(n)\nnew: 3 * n\n")
    mutants = mutant_files.all_mutants(folder)
    parts = [([mutant.stem for mutant in batch], sorted(texts)) for batch, texts in mutant_files.rounds(mutants, folder)]
    first = ["count_is_one_more", "double_is_one_more", "quadruple_is_triple", "of_nothing", "quintuple_is_quadruple"]
    yield "those of one function are apart", parts, [(first, ["high/src/lib.rt", "low/src/lib.rt"]), (["double_is_triple"], ["low/src/lib.rt"])]
    batch, texts = next(mutant_files.rounds(mutants, folder))
    yield "all are applied", [new in texts[f"{mutant.crate}/src/lib.rt"] for mutant in batch for _, _, new in mutant.hunks], 5 * [True]

    class Low:
        name, folder = "low", ""

    Low.folder = str(folder / "crates/low")
    refused = lambda said: {mutant.stem: why for mutant, why in mutant_compiles.refused(batch, said, folder, Low).items()}
    yield "none is refused where all is read", refused(f"src/lib.rt:1:1: {mutant_compiles.IS_READ}: help"), {}
    error = f"{folder}/crates/high/src/lib.rt:7:1: error[unknown]: no `x`"
    yield "those of a file with an error are", sorted(refused(error)), ["of_nothing", "quintuple_is_quadruple"]
    yield "and all where the error is elsewhere", len(refused("other.rt:7:1: error[unknown]: no `x`")), 5


def told(folder):
    """What is told of mutants."""
    make(folder)
    mutant = next(mutant for mutant in mutant_files.all_mutants(folder) if mutant.stem == "of_nothing")

    def count(found):
        with open(os.devnull, "w", encoding="utf-8") as nobody, contextlib.redirect_stdout(nobody):
            return mutant_checks.report({mutant: (found, "")})

    yield "one that a goal refuses", count("goal"), (1, 0)
    yield "one that shows less", count("limit"), (0, 1)
    yield "one that is proved", count("none"), (0, 1)
    mutant.wanted = "limit"
    yield "one that shows more than it says", count("goal"), (1, 0)
    yield "one that shows less than it says", count("name"), (0, 1)
    mutant.fault = "it has no reason"
    yield "one that has a fault", count("goal"), (0, 1)
    yield "counts", mutant_checks.counted(["goal", "limit", "goal", "none"]), "2 by a goal, 0 by type, 1 by limit, 0 by form, 0 by name"


def judged(_):
    """What is made of what the prover says."""
    for name, (text, wanted) in SAID.items():
        found = Said(text).reason_of({"f"})
        yield name, found and found[0], wanted
    yield "a function that is not known", Said("rattle: error: `c` has no function `a::f`: help").misnamed(), {"a::f": set()}
    several = "rattle: error: several functions are named `f`: help: write one of `c::A::f`, `c::b::B::f`"
    yield "a name of several functions", Said(several).misnamed(), {"f": {"A::f", "b::B::f"}}
    yield "what does not compile", Said("error[E0425]: no such name").reached, False


class Checked(mutant_checks.Crate):
    """A crate whose checks are answered by what a test says of each function, over stubs and over all of the crate."""

    def __init__(self, mutants, room, over_stubs, over_all):
        super().__init__("low", mutants, [], None, room)
        self.answers, self.tried = {True: over_stubs, False: over_all}, []

    def check(self, texts, only, stubbed=None):
        over_stubs = stubbed is not None
        self.tried.append(("stubs" if over_stubs else "all", sorted(only)))
        return self.answers[over_stubs](texts, only)


def shared(folder):
    """How mutants are shared out among checks."""
    make(folder)
    mutant_checks.ROOT = folder
    refused = "note: src/lib.rt:3:1: it is not proved that the clause holds (`returns`); it may be false\nfn low::{}: no proof; `search` did not prove `returns`\n"
    accepted = "fn low::{}: depends on a hole in ./proofs/x/Proof.antt\n"
    changed = ["Counter::get", "double", "quadruple"]
    goals = dict.fromkeys(["count_is_one_more", "double_is_one_more", "quadruple_is_triple"], "goal")
    # `same` is the only function that no mutant changes, and so the control.
    said = lambda names, control=accepted: Said("".join((control if name == "same" else refused).format(name) for name in names) + "only=1 holes=0")
    right = lambda texts, only: said(only)
    blind = lambda texts, only: Said("".join(accepted.format(name) for name in only) + "only=1 holes=1")

    def run(over_stubs, over_all=right):
        mutants = mutant_files.mutants_of("low", folder)
        crate = Checked(mutants, folder, over_stubs, over_all)
        mutant_checks.Trial([crate], 1, tells=False).run()
        return {mutant.stem: crate.outcomes[mutant][0] for mutant in mutants}, crate.tried

    yield "different functions are one check over stubs, beside a control", run(right), (goals, [("stubs", [*changed, "same"])])
    found, tried = run(lambda texts, only: said(only, refused))
    yield "where the control is refused, all of the crate is asked", (found, tried[1:]), (goals, [("all", changed)])
    found, tried = run(lambda texts, only: said(set(only) - {"same"}))
    yield "or where nothing is told of it", (found, tried[1:]), (goals, [("all", changed)])
    crate = Checked(mutant_files.mutants_of("low", folder), folder, right, right)
    crate.controls = {}
    mutant_checks.Trial([crate], 1, tells=False).run()
    yield "or where there is none", crate.tried, [("stubs", changed), ("all", changed)]
    yield "what stubs let pass is tried over all", run(blind), (goals, [("stubs", [*changed, "same"]), ("all", changed)])
    accepts = lambda texts, only: Said("fn low::double: proved\n" + said(set(only) - {"double"}).text)
    yield "and is not refused where that is proved", run(blind, accepts)[0], goals | {"double_is_one_more": "none"}
    breaks = lambda texts, only: said(only) if "self.count + 1" not in str(texts) else Said("error[E1]: no")
    found, tried = run(breaks, breaks)
    yield "one that does not compile is told apart", (found, len(tried)), (goals | {"count_is_one_more": "other"}, 4)
    waits = lambda _, only: said(only) if only == ["quadruple"] else said(set(only) - {"quadruple"})
    found, tried = run(blind, waits)
    yield "one that waits is tried by itself", (found, tried[2:]), (goals, [("all", ["quadruple"])])
    other = lambda _, only: Said("rattle: error: `low` has no function `double`: help") if "double" in only else said(only or ["double"])
    found, tried = run(blind, other)
    yield "a function of another name is asked of the crate", (found, ("all", []) in tried), (goals, True)

    def elsewhere(_, only):
        if "Counter::get" in only:
            return Said("rattle: error: `low` has no function `Counter::get`: help")
        if "get" in only:
            return Said("rattle: error: several functions are named `get`: help: write one of `low::a::Counter::get`, `low::Other::get`")
        return said(only)

    found, tried = run(elsewhere)
    yield "or by the name that the prover tells", (found, tried[-1]), (goals, ("stubs", ["a::Counter::get", "double", "quadruple", "same"]))
    silent = lambda _, only: Said("fn low::other: proved\nonly=1 proved=1")
    yield "what is not judged is not refused", run(silent, silent)[0], dict.fromkeys(goals, "other")
    crate = Checked(mutant_files.mutants_of("low", folder), folder, right, right)
    proof = copy.copy(crate.left[0])
    proof.places, proof.hunks = set(), [("proofs/Facts.antt", "itself n = refl", "itself n = n")]
    crate.left.append(proof)
    batches = [crate.take(16)[0] for _ in range(3)]
    yield "one of a proof is a check by itself", ([len(batch) for batch in batches], batches[0]), ([1, 3, 0], [proof])
    of_another = "proofs/Kept.antt:9:3: error: `kept`: expected type A\nholes=4"
    answers = {"proofs/Facts.antt:9:3: error: `itself`: expected type A\nholes=4": "type", "holes=4": None, of_another: None}
    for said_of_proof, wanted in answers.items():
        crate = Checked([proof], folder, lambda texts, only, text=said_of_proof: Said(text), lambda texts, only: Said("logic=proved "))
        proof.wanted = "type"
        mutant_checks.Trial([crate], 1, tells=False).run()
        yield f"one of a proof is refused by {wanted}", (crate.outcomes[proof][0], crate.tried[0]), (wanted or "none", ("stubs", []))
    late = lambda _, only: None if "double" in only else said(only)
    yield "nor is what comes to no end", run(late, late)[0], goals | {"double_is_one_more": "none"}


def main():
    argparse.ArgumentParser(description=__doc__, formatter_class=argparse.RawDescriptionHelpFormatter).parse_args()
    passed = failed = 0
    for cases in (changes, covers, bases, history, rota, stubs, compiled, told, judged, shared):
        with tempfile.TemporaryDirectory(prefix="giputils-mutant-test-") as folder:
            for name, found, wanted in cases(pathlib.Path(folder, "it")):
                if found == wanted:
                    passed += 1
                else:
                    failed += 1
                    print(f"FAILED: {name}: found {found!r}, and not {wanted!r}")
    print(f"{passed} passed, {failed} failed")
    return 1 if failed else 0


if __name__ == "__main__":
    sys.exit(main())
