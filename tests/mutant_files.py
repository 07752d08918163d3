"""The mutants of the crates. Read by the scripts that try mutants.

A mutant is a file crates/NAME/mutants/*.edit: a line 'file: src/..' and pairs of lines 'old: TEXT' and 'new: TEXT', where
each old TEXT stands in the file once. It changes the body of a function so that a clause no longer holds; or a proof of a
caller (file: proofs/..), which then rests on what it may not know. A goal refuses it, or the file says which other
reason does, in a line 'refused: REASON', and in a line 'why: TEXT' why no goal can."""

import pathlib
import re

import mutant_sources
from mutant_judge import REASONS

ROOT = pathlib.Path(__file__).resolve().parent.parent
FOLDER = "mutants"
PARTS = ("src", "specs", "proofs")


def libraries(root=ROOT):
    """The crates and, for each, the libraries that its line of crates.txt names."""
    file = pathlib.Path(root, "crates.txt")
    lines = file.read_text(encoding="utf-8").splitlines() if file.is_file() else []
    named = [re.fullmatch(r"(\w+)[^:#]*:(.*)", line) for line in lines]
    return {match[1]: match[2].split() for match in named if match}


def below(crate, uses):
    """The libraries of the repository below a crate, each after those that it uses."""
    found = []
    for library in uses[crate]:
        if library in uses:
            found += [each for each in [*below(library, uses), library] if each not in found]
    return found


def mutants_of(crate, root=ROOT, folders=(FOLDER,)):
    """The mutants of a crate."""
    folder = pathlib.Path(root, "crates", crate)
    return [Mutant(file, crate, folder) for each in folders for file in sorted((folder / each).glob("*.edit"))]


def all_mutants(root=ROOT, folders=(FOLDER,)):
    """The mutants of all crates."""
    return [mutant for crate in libraries(root) for mutant in mutants_of(crate, root, folders)]


class Mutant:
    """A mutant: the texts that it changes, and the functions of the crate in which these stand."""

    def __init__(self, file, crate, folder):
        self.crate, self.stem, self.name = crate, file.stem, f"{crate}/{file.stem}"
        self.wanted, self.why, self.hunks, self.fault = "goal", "", [], None
        # The functions in which it stands, each with its file; none where it changes a proof.
        self.places = set()
        texts, path, old = {}, None, None
        for line in filter(None, file.read_text(encoding="utf-8").splitlines()):
            key, _, value = line.partition(":")
            value = value.removeprefix(" ")
            if key == "refused":
                self.wanted = value
            elif key == "why":
                self.why = value
            elif key == "file":
                path = value
            elif key == "old":
                old = value
            elif key == "new" and path:
                if path not in texts:
                    texts[path] = (folder / path).read_text(encoding="utf-8") if (folder / path).is_file() else ""
                if not old or texts[path].count(old) != 1:
                    self.fault = f"an 'old:' text does not stand once in {path}"
                    return
                if path.endswith(".rt"):
                    place = place_of(path, texts[path], texts[path].index(old), len(old))
                    if place is None:
                        self.fault = f"an 'old:' text stands in no function of {path}"
                        return
                    self.places.add(place)
                self.hunks.append((path, old, value))
                texts[path] = texts[path].replace(old, value)
            else:
                self.fault = f"it has a line {line[:40]!r}"
                return
        if not self.hunks:
            self.fault = "it has no pair of 'old:' and 'new:' lines"
        elif self.wanted not in REASONS or self.wanted == "other":
            self.fault = f"'refused: {self.wanted}' is no reason"
        elif self.wanted != "goal" and not self.why:
            self.fault = f"'refused: {self.wanted}' wants a line 'why: TEXT'"


def place_of(path, text, at, length):
    """The function in which a text stands, with its file, or None where it stands in none."""
    for function in mutant_sources.functions_of(text):
        if function.start <= at + length - 1 <= function.closes:
            return path, function
    return None


def module_of(path):
    """The module of a source, below its crate."""
    parts = pathlib.PurePath(path).with_suffix("").parts[1:]
    return () if parts in (("lib",), ("main",)) else parts


def rounds(mutants, root=ROOT):
    """Parts of these mutants, each with its texts by their paths below `crates`: all that can be applied together."""
    left = list(mutants)
    while left:
        texts, places, later = {}, set(), []
        for mutant in left:
            here = {f"{mutant.crate}/{path}" for path, _, _ in mutant.hunks}
            taken = {path: texts.get(path) or pathlib.Path(root, "crates", path).read_text(encoding="utf-8") for path in here}
            there = {(mutant.crate, path, function) for path, function in mutant.places}
            if there & places or not applies(mutant, taken):
                later.append(mutant)
            else:
                texts |= taken
                places |= there
        yield [mutant for mutant in left if mutant not in later], texts
        left = later


def applies(mutant, texts):
    """Writes a mutant into texts, by their paths below `crates`, and answers whether each of its old texts stood there once."""
    for path, old, new in mutant.hunks:
        text = texts[f"{mutant.crate}/{path}"]
        if text.count(old) != 1:
            return False
        texts[f"{mutant.crate}/{path}"] = text.replace(old, new)
    return True


def texts_with(mutants, folder):
    """The texts of the files that these mutants change, with all of them."""
    texts = {}
    for mutant in mutants:
        for path, old, new in mutant.hunks:
            text = texts.get(path) or (folder / path).read_text(encoding="utf-8")
            if text.count(old) != 1:
                raise ValueError(f"{mutant.name}: {old!r} does not stand once in {path} beside other mutants")
            texts[path] = text.replace(old, new)
    return texts
