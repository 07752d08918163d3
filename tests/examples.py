#!/usr/bin/env python3
"""Compiles the examples in Rust of the crates' READMEs, as they stand there.

Each example is a module of a library, or of a program of tests if it is a test, in a copy of the repository's crates. The
libraries below are those that `rt ci` left of the same files; a README fails if one of them is lacking. Where an example
has contracts, these are read too. Nothing is proved. A README that gives a line of crates.txt has an example, and its
examples name only crates of that line and of the kit's library, and no callers. A README counts as a test. The last line
is 'N passed, M failed'.

    tests/examples.py              the examples of all READMEs
    tests/examples.py CRATE..      those of these crates
"""

import argparse
import pathlib
import re
import shutil
import subprocess
import sys
import tempfile

import mutant_checks
from mutant_files import PARTS, ROOT

SECONDS = 30 * 60
LINE = re.compile(r"`your_crate: ([^`]*)`")
BLOCK = re.compile(r"^```rust\n(.*?)^```$", re.DOTALL | re.MULTILINE)
CONTRACT = re.compile(r"\bfn (\w+)[^{};]*\n *(?:requires|ensures)\b")
# The crates that an example names, in code and in contracts.
NAMED = re.compile(r"\b(?:use (\w+)::|Rattle\.(\w+)\.|(gip\w*)::)")
CALLERS = re.compile(r"\w+_(?:uses|trials)")


class Page:
    """The README of a crate, with its examples and the crates that its line of crates.txt names."""

    def __init__(self, path):
        self.crate, text = path.parent.name, path.read_text(encoding="utf-8")
        line = LINE.search(" ".join(text.split()))
        self.below = line[1].split() if line else None
        self.examples = {f"{self.crate}_{number}": block for number, block in enumerate(BLOCK.findall(text), 1)}

    def faults(self):
        """What is wrong before anything is compiled."""
        named = {name for example in self.examples.values() for groups in NAMED.findall(example) for name in groups}
        faults = [] if self.examples else ["it gives a line of crates.txt, and has no example"]
        faults += [f"its line of crates.txt does not name {name}" for name in sorted(named - {*self.below, "", "std"})]
        return faults + [f"its line of crates.txt names {name}" for name in self.below if CALLERS.fullmatch(name)]

    def needed(self, libraries):
        """The libraries of the repository that its examples stand on."""
        named = [libraries.crates[name] for name in self.below if name in libraries.crates]
        return {library.name: library for crate in named for library in [*crate.below(), crate]}.values()

    def lacking(self, libraries):
        """Those of them that `rt ci` has not left."""
        return [f"rt ci has not left {it.name}" for it in self.needed(libraries) if it.name not in libraries.given]


class Crate:
    """The crate that the examples of some pages make: those that are tests, or the others."""

    def __init__(self, pages, are_tests):
        self.name = "tests_of_pages" if are_tests else "examples_of_pages"
        self.flags = ["--jobs", "1", *(["--test"] if are_tests else [])]
        self.below, self.examples = set(), {}
        for page in pages:
            chosen = {module: text for module, text in page.examples.items() if ("#[test]" in text) == are_tests}
            self.examples |= chosen
            self.below |= {*page.below} if chosen else set()

    def write(self, root):
        """Writes the crate and its line of crates.txt."""
        source = root / "crates" / self.name / "src"
        source.mkdir(parents=True)
        for module, text in self.examples.items():
            (source / f"{module}.rt").write_text(text, encoding="utf-8")
        modules = "".join(f"pub mod {module};\n" for module in self.examples)
        (source / "lib.rt").write_text(f"//! The examples.\n#![tactic(auto)]\n\n{modules}", encoding="utf-8")
        with (root / "crates.txt").open("a", encoding="utf-8") as lines:
            lines.write(f"{self.name}: {' '.join(sorted(self.below))}\n")

    def asked(self):
        """What is asked of the compiler: to read all, and each contract."""
        stated = [f"{module}::{name}" for module, text in self.examples.items() for name in CONTRACT.findall(text)]
        if not stated:
            return [*self.flags, "--only", ""]
        return [*self.flags, "--generated", f"../{self.name}.stated", *(word for name in stated for word in ("--start", name))]

    def compiled(self, libraries):
        """What the compiler says of the examples, and its status."""
        crate = libraries.crates[self.name]
        for library in crate.below():
            library.rlib = libraries.given[library.name]
        words = [libraries.kit.rtlib.RATTLE, "check", *crate.words(self.asked(), keeps=False)]
        streams = {"stdin": subprocess.DEVNULL, "stdout": subprocess.PIPE, "stderr": subprocess.STDOUT}
        try:
            ran = subprocess.run(words, cwd=crate.folder, errors="replace", timeout=SECONDS, check=False, **streams)
        except subprocess.TimeoutExpired:
            return f"no end within {SECONDS} seconds\n", None
        return ran.stdout, ran.returncode


def copy_crates(root):
    """Copies what crates are made of."""
    for part in PARTS:
        for folder in sorted((ROOT / "crates").glob(f"*/{part}")):
            shutil.copytree(folder, root / folder.relative_to(ROOT))
    for name in ("crates.txt", "HANDLES"):
        shutil.copy(ROOT / name, root)


def compile_all(pages, room):
    """The faults of these pages, as the compiler finds them, by the names of their crates."""
    libraries = mutant_checks.Libraries(ROOT, room)
    libraries.find(sorted({library for page in pages for library in page.needed(libraries)}, key=lambda it: len(it.below())))
    faults = {page.crate: page.lacking(libraries) for page in pages}
    tried = [page for page in pages if not faults[page.crate]]
    crates = [crate for crate in (Crate(tried, False), Crate(tried, True)) if crate.examples]
    root = pathlib.Path(room, "repository")
    root.mkdir()
    copy_crates(root)
    for crate in crates:
        crate.write(root)
    with_examples = mutant_checks.Libraries(root, room)
    with_examples.given = libraries.given
    for crate in crates:
        said, status = crate.compiled(with_examples)
        if status == 0:
            continue
        print(f"{said}the compiler of {crate.name} ended with status {status}")
        wrong = set(re.findall(r"^src/(\w+)\.rt:\d+:\d+: error", said, re.MULTILINE)) or {*crate.examples}
        for page in tried:
            faults[page.crate] += [f"{module} does not compile" for module in page.examples if module in wrong]
    return faults


def try_all(pages):
    """Compiles the examples of these pages, and tells how many pass and how many fail."""
    with tempfile.TemporaryDirectory(prefix="giputils-examples-") as room:
        found, failed = compile_all(pages, room), 0
    for page in pages:
        faults = [*page.faults(), *found[page.crate]]
        failed += bool(faults)
        print(f"{'FAILED' if faults else 'ok'}: crates/{page.crate}/README.md", *faults, sep="\n  ")
    return len(pages) - failed, failed


def main():
    parser = argparse.ArgumentParser(description=__doc__, formatter_class=argparse.RawDescriptionHelpFormatter)
    parser.add_argument("crates", nargs="*", metavar="CRATE", help="a crate whose README has examples")
    wanted = parser.parse_args().crates
    pages = {page.crate: page for page in map(Page, sorted((ROOT / "crates").glob("*/README.md"))) if page.below}
    if unknown := [name for name in wanted if name not in pages]:
        parser.error(f"no README with a line of crates.txt: {', '.join(unknown)}")
    passed, failed = try_all([pages[name] for name in wanted or pages])
    print(f"{passed} passed, {failed} failed")
    return 1 if failed or not passed else 0


if __name__ == "__main__":
    sys.exit(main())
