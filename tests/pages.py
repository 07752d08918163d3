#!/usr/bin/env python3
"""Compares the pages with the sources, and ends with 'N passed, M failed'.

Each crate that PARTS names, and each one with a page for callers, has a page README.md in its folder of crates/ or
trials/, with the parts that PARTS lists. A page for callers, crates/NAME/CALLING.md, quotes the sources. Pages may quote, between a line
`<!-- quote ... -->` and the next line `<!-- end -->`; all else is written by hand.

    <!-- quote file giputils_uses/src/drain.rt -->   a file below crates/, or one below the root where it is of trials/
    <!-- quote file giputils_uses/src/activity.rt: bump pick -->
                                                    the same, with these functions and methods alone
    <!-- quote functions gipsat/src/main.rt: use solve -->
                                                    these functions of a file alone, behind what they import where
                                                    `use` is named
    <!-- quote bare gipsat/src/main.rt: solve -->   the same, without comments, and without links below it
    <!-- quote contracts -->                         the public contracts of the crate
    <!-- quote contracts: push HeapStep::new Gvec::Index<u32> -->
                                                    those of these functions, traits, and impls of traits alone
    <!-- quote words -->                            the words of the public contracts that the page does not quote
    <!-- quote lemmas Ranks: name name -->           statements of public lemmas of the crate, from proofs/Ranks.antt
    <!-- quote records Calls: Name Name -->          records of the crate with their fields, from specs/Calls.antt
    <!-- quote map -->                              the libraries and programs of crates.txt, and those that each stands
                                                    on
    <!-- quote parts -->                            the parts that the rows of the quote name, each with its folders: the
                                                    last one that a row names, and all that crates.txt asks for; with
                                                    those of the solver where the part's name ends in `with a solver`

In a contract `S` is what `self` points to at the call, and `S'` at the return. An item is public if it is `pub` in a
public module, or if a public module names it by `pub use`. A public function that is not quoted on a page for callers
stands there, or in the README beside it, by name. Below a quote stand its words, each with a link to its definition in
specs/. Each word of specs/ that a public contract uses has a comment there, and a link on a page that quotes contracts.
The crate `giputils` hands out the files of specs/ that have these words, and all public lemmas.

Each line of a test in Rust on a README that is not quoted stands in trials/giputils_trials/src/examples.rs, its imports
under the names that `giputils` gives them. The page of `gip` has the script that `gip` is run on, with its replies.
docs/DESIGN.md names each crate, and links to its README; the solver has the names that stand there beside MiniSat's,
the imports of its modules make no cycle, and each module begins with a line `//!`. A type has a name that no type of
another file has, but for those of tests/names.txt, which has a reason for each. Each file that a page names is there,
and each part of a page that a link names; no line has more than 120 columns, but for imports that are quoted, and the
README of the root has at most 80 lines.
"""

import argparse
import collections
import functools
import graphlib
import os
import pathlib
import re
import sys
import textwrap

ROOT = pathlib.Path(__file__).resolve().parent.parent
CRATES = ROOT / "crates"
TRIALS = ROOT / "trials"
NAMES = ROOT / "tests/names.txt"
GATHERED = tuple(f"giputils_{part}" for part in "bits bounded hash heap index stat vec".split())
SOLVER, WITH_SOLVER = "gipsat_solver", ", with a solver"
WIDTH = 120
LINES = 80
PEER, PROVED, TESTED = "## What differs from ", "## What is proved", "## What is only tested"
EXAMPLE, DIFFERS, CHOICES, COST = "## Example", PEER + "the Rust crate", "## Choices", "## Cost"
ALL = (EXAMPLE, DIFFERS, PROVED, TESTED, CHOICES, COST)
# What the READMEs of crates have, besides a heading. Those of other crates may have any parts.
PARTS = {
    "giputils": (EXAMPLE, DIFFERS, PROVED, TESTED, COST),
    "giputils_vec": ALL,
    "giputils_hash": (EXAMPLE, DIFFERS, PROVED, TESTED, COST),
    "giputils_index": ALL,
    "giputils_bits": ALL,
    "giputils_bounded": ALL,
    "giputils_heap": ALL,
    "giputils_stat": ALL,
    "giputils_text": (EXAMPLE, PROVED, TESTED, CHOICES),
    "giputils_refusing": (EXAMPLE, PROVED, TESTED, CHOICES),
    "gipsat_cnf": (EXAMPLE, PROVED, TESTED, CHOICES),
    "gipsat_encodings": (EXAMPLE, PROVED, TESTED, CHOICES, COST),
    "gipsat_kernel": (EXAMPLE, PROVED, TESTED, CHOICES, COST),
    "gipsat_solver": (EXAMPLE, PEER + "MiniSat", PROVED, TESTED, CHOICES, COST),
    "gipsat_dimacs": (EXAMPLE, PEER + "CaDiCaL", PROVED, TESTED, CHOICES, COST),
    "gipsat_answers": (EXAMPLE, PROVED, TESTED, CHOICES, COST),
    "gipsat_drat": (EXAMPLE, PEER + "other checkers", PROVED, TESTED, CHOICES, COST),
    "gipmc_circuits": (EXAMPLE, PEER + "AIGER", PROVED, TESTED, CHOICES, COST),
    "gipmc_builder": (EXAMPLE, PROVED, TESTED, CHOICES, COST),
    "gipmc_aiger": (EXAMPLE, PEER + "AIGER 1.9", PROVED, TESTED, CHOICES, COST),
    "gipmc_ic3": (EXAMPLE, PROVED, TESTED, CHOICES, COST),
    "gipmc_engines": (EXAMPLE, PROVED, TESTED, CHOICES, COST),
    "gipmc_task": (EXAMPLE, PROVED, TESTED, CHOICES, COST),
    "gipmc": (PROVED, TESTED),
    "gip_cli": (EXAMPLE, PROVED, TESTED, CHOICES),
    "gip_lines": (EXAMPLE, PROVED, TESTED, CHOICES, COST),
    "gip": (EXAMPLE,),
    "giputils_uses": (PROVED, TESTED, CHOICES),
    "gipsat_uses": (PROVED, TESTED),
    "gipmc_uses": (PROVED, TESTED),
    "giputils_replay": (TESTED,),
    "giputils_bench": ("## Workloads", "## How to measure"),
}

QUOTE = re.compile(r"(<!-- quote (.*?) -->\n).*?(<!-- end -->\n)", re.DOTALL)
TOP = re.compile(r"^(?:pub (?:const )?fn|pub trait|impl)\b.*?(?:^\}|\{\}$)", re.DOTALL | re.MULTILINE)
FUNCTION = re.compile(r"^ *(?:pub )?(?:const )?fn .*?(?= \{\}?$|^ *\{\}?$|;$)", re.DOTALL | re.MULTILINE)
MEMBER = re.compile(r"^    ghost (?!use\b)\w+ ?[=:].*?;$", re.DOTALL | re.MULTILINE)
OWN = re.compile(r"^(pub )?(?:pub\(\w+\) )?(?:const )?(?:fn|struct|enum|trait|type) (\w+)", re.MULTILINE)
USE = re.compile(r"^ *pub use ((?:\w+::)*)(\w+|\*|\{[^}]*\});", re.MULTILINE)
METHOD = re.compile(r"(?:^    (?://|#)[^\n]*\n)*^    (?:pub )?fn (\w+).*?^    \}\n\n?", re.DOTALL | re.MULTILINE)
FREE = re.compile(r"(?:^(?://|#)[^\n]*\n)*^(?:pub )?fn (\w+).*?^\}$", re.DOTALL | re.MULTILINE)
DEFINED = re.compile(r"^(?:  )?(?:(?:abbrev|unfoldable|pub|record|data) +)+(?!use |mod )([^\s:(){}]+)(?=[ :({]|$)")
IMPORTS = re.compile(r"\buse Rattle\.(\w+\.specs\.(?!contracts|declared)[\w.]+)\.\{([^}]*)\}")
HANDED_ON = re.compile(r"^(?:unfoldable )?pub use Rattle\.(\w+\.specs\.[\w.]+)\.\{([^}]*)\}$", re.MULTILINE)
RECORD = re.compile(r"^( *)pub record ([^\s:(){}]+)([^\n]*?) : Type 0 where\n((?:\1 +[^\n]*\n)+)", re.MULTILINE)
LEMMA = re.compile(r"^( *)(pub )?(?:unfoldable )?([^\s:(){}]+) :(?= |$)(.*(?:\n(?:\1 +.*)?)*)", re.MULTILINE)


class Crate:
    """The sources of a crate, and which of its items are public."""

    def __init__(self, folder):
        self.folder = folder
        self.texts = {path: path.read_text(encoding="utf-8") for path in sorted((folder / "src").rglob("*.rt"))}
        self.own = {name for text in self.texts.values() for _, name in OWN.findall(text)}
        self.public = set()
        found, known = [path for path in self.texts if path.name in ("lib.rt", "main.rt")], set()
        while found:
            path = found.pop()
            if path not in known:
                known.add(path)
                found += self.named_in(path)

    def named_in(self, path):
        """Notes what a public module names as public, and tells the public modules below it."""
        text = self.texts[path]
        below = path.parent if path.name in ("lib.rt", "main.rt") else path.with_suffix("")
        self.public |= {name for is_pub, name in OWN.findall(text) if is_pub}
        found = [below / f"{name}.rt" for name in re.findall(r"^pub mod (\w+);", text, re.MULTILINE)]
        for way, names in USE.findall(text):
            modules = pathlib.Path(*re.findall(r"\w+", way))
            self.public |= set(re.findall(r"\w+", names))
            found += [below / modules / f"{name}.rt" for name in re.findall(r"\w+", names)]
            found += [(below / modules).with_suffix(".rt")] if names == "*" else []
        return [file for file in found if file in self.texts]

    def is_public(self, name):
        """Whether a name is no item of the crate's own, or a public one."""
        return name in self.public or name not in self.own


def without_comments(text):
    """The text without comments, attributes and empty lines."""
    return re.sub(r"^ *(?://.*|#!?\[.*\]|)\n", "", text, flags=re.MULTILINE)


def indented(text):
    """The lines of an item, each indented."""
    return [f"    {line.removeprefix('    ')}" for line in text.rstrip().split("\n")]


def in_short(lines):
    """The lines of contracts with what `self` points to in short."""
    pairs = [(r"\bself\.(?:old|now)\b", "S"), (r"\bself\.new\b", "S'"), (r"^(\s*)pub ", r"\1")]
    for old, new in pairs:
        lines = [re.sub(old, new, line) for line in lines]
    return lines


def name_of(function):
    """The name of a function."""
    return re.search(r"\bfn (\w+)", function)[1]


def parts_of(head):
    """The trait of an impl, without and with its arguments (each None where there is none), and its type."""
    bare = re.sub(r"^impl(<.*?>)? (?=\w)", "", head.partition(" where")[0])
    trait, _, kind = bare.rpartition(" for ")
    names = [re.sub(r"<.*", "", each).rpartition("::")[2] or None for each in (trait, kind)]
    return names[0], trait.replace(" ", "") or None, (re.findall(r"\w+", names[1]) or [kind])[-1]


def contracts(crate, text, chosen, named, met):
    """The public contracts of a text, in order: of a trait, of an impl with the members that callers see, of functions.

    All, or those chosen. Notes the names of all functions, and which of the chosen ones it has met.
    """

    def is_chosen(*ways):
        met.update(chosen & set(ways))
        return not chosen or bool(chosen & set(ways))

    def wanted(name, kind=None):
        named.add(name)
        return is_chosen(name, f"{kind}::{name}")

    lines = []
    for item in TOP.findall(without_comments(text)):
        head = " ".join(item.partition(" {")[0].split())
        if item.startswith("pub trait"):
            name = re.search(r"trait (\w+)", item)[1]
            if crate.is_public(name) and is_chosen(name, *re.findall(rf"{name}::\w+", " ".join(chosen))):
                lines += item.split("\n")[:-1] + ["}"]
        elif item.startswith("pub"):
            if name_of(item) in crate.public and wanted(name_of(item)):
                lines += FUNCTION.match(item).group().rstrip().split("\n")
        if not item.startswith("impl"):
            continue
        trait, full, kind = parts_of(head)
        if not crate.is_public(kind) or trait and not crate.is_public(trait):
            continue
        functions = FUNCTION.findall(item)
        if trait:
            kept = [member for member in MEMBER.findall(item) if trait != "Model" or "ghost Value" in member]
            kept += [each for each in functions if "ensures" in each or "requires" in each]
            kept = kept if kept and is_chosen(trait, full, f"{kind}::{trait}", f"{kind}::{full}") else []
        else:
            kept = [each for each in functions if each.lstrip().startswith("pub ") and wanted(name_of(each), kind)]
        lines += [head, *sum(map(indented, kept), [])] if kept else []
    return in_short(lines)


def has_name(text, name):
    """Whether a text has a name, or each part of an operator."""
    parts = [re.escape(part) for part in name.split("◌") if part]
    return all(re.search(rf"(?<![\w-]){part}(?![\w-])" if re.match(r"\w", part) else part, text) for part in parts)


def with_imports_of(text, whole):
    """A text without the names that it imports for functions of the whole text that it leaves out."""

    def narrowed(match):
        names = [name.strip() for name in match[3].split(",") if name.strip()]
        names = [name for name in names if has_name(said, name.split(" as ")[-1]) or not has_name(all_said, name)]
        alone = len(names) == 1 and not match[1]
        listed = names[0] if alone else f"{{{', '.join(names)}}}"
        return f"{match[1] or ''}use {match[2]}{listed};\n" if names else ""

    def used(match):
        name = match[2].rpartition("::")[2]
        return match[0] if has_name(said, name) or not has_name(all_said, name) else ""

    said, all_said = (re.sub(r"^(?:ghost )?use [^;]*;\n|//.*", "", each, flags=re.MULTILINE) for each in (text, whole))
    text = re.sub(r"^(ghost )?use ([\w:.]+(?:::|\.))\{([^;]*)\};\n", narrowed, text, flags=re.MULTILINE)
    return re.sub(r"^(ghost )?use ([\w:]+);\n", used, text, flags=re.MULTILINE)


def with_functions(text, chosen):
    """A text that has the functions and methods that are chosen alone, and what these import."""
    whole = text
    for function in (METHOD, re.compile(FREE.pattern + r"\n*", FREE.flags)):
        text = function.sub(lambda m: m[0] if m[1] in chosen else "", text)
    text = with_imports_of(text, whole)
    return re.sub(r"\n\n(?=\})", "\n", re.sub(r"(?<=\{\n)\n", "", text))


def functions_of(text, chosen):
    """These functions of a text, what they import where `use` is chosen, and those that it has not."""
    found = {match[1]: match[0].split("\n") for match in FREE.finditer(text)}
    lines = sum(([*found[name], ""] for name in chosen if name in found), [])
    if "use" in chosen:
        groups = [re.findall(rf"^{kind}use [^;]*;\n", text, re.MULTILINE) for kind in ("ghost ", "")]
        heads = "\n".join("".join(group) for group in groups if group)
        lines = with_imports_of("\n".join([heads, *lines]), text).lstrip("\n").split("\n")
    return lines[:-1], [name for name in chosen if name not in found and name != "use"]


def laid_out(statement):
    """A statement in lines of the width, broken behind arrows that stand in no brackets."""
    lines, parts, depth = [], [""], 0
    for word in statement.split(" "):
        depth += len(re.findall(r"[({]", word)) - len(re.findall(r"[)}]", word))
        parts[-1] += f" {word}" if parts[-1] else word
        parts += [""] if word == "→" and not depth else []
    for part in parts:
        if lines and len(lines[-1]) + 1 + len(part) <= WIDTH:
            lines[-1] += " " + part
        else:
            lines.append("    " * bool(lines) + part)
    return lines


def lemmas(path, chosen):
    """The statements of lemmas of a file of proofs, as they stand."""
    found = {}
    for _, is_pub, name, statement in LEMMA.findall(path.read_text(encoding="utf-8")):
        if is_pub:
            found[name] = laid_out(" ".join(f"{name} : {statement}".split()))
    lost = [name for name in chosen if name not in found]
    return sum((found[name] for name in chosen if name in found), []), lost


def records(path, chosen):
    """The records of a file of definitions, with their fields."""
    found = {}
    for _, name, arguments, fields in RECORD.findall(path.read_text(encoding="utf-8")):
        found[name] = [f"record {name}{arguments}", *(f"    {each.strip()}" for each in fields.rstrip().split("\n"))]
    lines = sum((found[name] for name in chosen if name in found), [])
    return [line.replace("    pub ", "    ") for line in lines], [name for name in chosen if name not in found]


def marker(line):
    """The lines of a marker."""
    words = " ".join(line.split())
    return textwrap.wrap(words, WIDTH, subsequent_indent="     ", break_long_words=False, break_on_hyphens=False)


@functools.cache
def file_of(module):
    """The file of specs/ that has the name of a module, also by way of `giputils`, or None if it is one of the kit."""
    if module.startswith("giputils."):
        lists = (CRATES / "giputils/specs/Lib.antt").read_text(encoding="utf-8")
        own = re.search(rf"^pub use Rattle\.(\w+\.specs\.{module.rpartition('.')[2]})$", lists, re.MULTILINE)
        module = own[1] if own else module
    path = CRATES / f"{module.replace('.', '/')}.antt"
    return path if path.is_file() else None


@functools.cache
def handed_on_by(module):
    """The words that the Prelude of a crate hands on, each with the module that declares it; of another module none."""
    path = file_of(module)
    if not module.endswith(".specs.Prelude") or path is None:
        return {}
    groups = HANDED_ON.findall(path.read_text(encoding="utf-8"))
    return {name: own for own, group in groups for name in group.split(", ")}


def words(text, lines):
    """The words of specs/ that some lines of a text use, each with the module that declares it."""
    said = "\n".join(line for line in lines if "use Rattle." not in line)
    names = {name: module for module, group in IMPORTS.findall(text) for name in re.split(r",\s*", group.strip())}
    names = {name: handed_on_by(module).get(name, module) for name, module in names.items()}
    return {name: names[name] for name in names if re.search(rf"(?<![\w-]){re.escape(name)}(?![\w-])", said)}


@functools.cache
def defined_in(path):
    """The definitions of a file of specs/: the line of each, and the comment above it, or above those before it."""
    found, comment, section, open_comment = {}, "", "", False
    for number, line in enumerate(path.read_text(encoding="utf-8").split("\n"), 1):
        said = re.match(r" *--( -{3,})? ?(.*)", line)
        name = DEFINED.match(line)
        if said and said[1]:
            section = f"{said[2]}: "
        elif said:
            comment = f"{comment} {said[2]}" if open_comment else section + said[2]
        elif line.startswith("use "):
            comment = ""
        elif name:
            found.setdefault(name[1], (number, comment))
        open_comment = bool(said)
    return found


def links(page, used, begin="Words"):
    """The lines that lead from words to their definitions."""
    found = []
    for name, module in sorted(used.items(), key=lambda pair: pair[0].lower()):
        path = file_of(module)
        if path and name in defined_in(path):
            way = os.path.relpath(path, page.parent)
            found.append(f"[`{name}`]({way}#L{defined_in(path)[name][0]})")
    text = f"{begin}: {', '.join(found)}."
    return textwrap.wrap(text, WIDTH, break_long_words=False, break_on_hyphens=False) if found else []


def fenced(page, kind, lines, used):
    """A block of lines, and below it the links of its words."""
    below = links(page, used)
    return [f"```{kind}", *lines, "```", *([""] if below else []), *below]


def contracts_of(folder, chosen, named, met):
    """The public contracts of a crate, or those chosen, under the names of their files; and their words."""
    crate, lines, used = Crate(folder), [], {}
    for file, text in crate.texts.items():
        found = contracts(crate, text, chosen, named, met)
        lines += [f"// {file.relative_to(folder)}", *found, ""] if found else []
        used = words(text, found) | used
    kits = handed_on()
    return lines[:-1], {name: module for name, module in used.items() if module.startswith("gip") or module in kits}


def words_not_quoted(page):
    """The words of the public contracts of a page's crate that are in no contract that the page quotes."""
    quoted = set()
    for _, what, _ in QUOTE.findall(page.read_text(encoding="utf-8")):
        if what.startswith("contracts"):
            quoted |= set(contracts_of(page.parent, set(what.split()[1:]), set(), set())[1])
    return {name: module for name, module in words_of_contracts(page.parent).items() if name not in quoted}


def quote(page, what, complaints):
    """The lines that a quote on the page should have."""
    kind, _, names = what.partition(":")
    chosen = names.split()
    if kind.startswith(("file ", "functions ", "bare ")):
        path = kind.partition(" ")[2]
        file = (ROOT if path.startswith("trials/") else CRATES) / path
        if not file.is_file():
            complaints.append(f"there is no {kind}")
            return []
        text = file.read_text(encoding="utf-8")
        if kind.startswith("file "):
            lines = (with_functions(text, chosen) if chosen else text).rstrip().split("\n")
        else:
            lines, lost = functions_of(text, chosen)
            lines = [line for line in lines if not (kind.startswith("bare ") and line.lstrip().startswith("//"))]
            complaints += [f"{file.name} has no function {name}" for name in lost]
        return fenced(page, "rust", lines, {} if kind.startswith("bare ") else words(text, lines))
    if kind.startswith("lemmas "):
        file = page.parent / "proofs" / f"{kind.removeprefix('lemmas ')}.antt"
        lines, lost = lemmas(file, chosen) if file.is_file() else ([], chosen)
        complaints += [f"{file.stem} has no lemma {name}" for name in lost]
        return fenced(page, "text", lines, words(file.read_text(encoding="utf-8"), lines) if lines else {})
    if kind.startswith("records "):
        file = page.parent / "specs" / f"{kind.removeprefix('records ')}.antt"
        lines, lost = records(file, chosen) if file.is_file() else ([], chosen)
        complaints += [f"{file.stem} has no record {name}" for name in lost]
        return fenced(page, "text", lines, words(file.read_text(encoding="utf-8"), lines) if lines else {})
    if kind == "map":
        return table_of_crates()
    if kind == "parts":
        return table_of_parts(page)
    if kind == "words":
        return links(page, words_not_quoted(page), "Words of the other contracts")
    named, met = set(), set()
    lines, used = contracts_of(page.parent, set(chosen), named, met)
    beside = [each for each in (page, page.with_name("README.md")) if each.is_file()]
    told = "".join(QUOTE.sub("", each.read_text(encoding="utf-8")) for each in beside)
    told = set(re.findall(r"\w+", " ".join(re.findall(r"`([^`]+)`", told))))
    told |= {each for name in chosen for each in name.split("::")}
    complaints += [f"{name} is neither quoted nor named" for name in sorted(named - told) if chosen]
    complaints += [f"there is no public {name}" for name in chosen if name not in met]
    return fenced(page, "text", lines, used)


def too_wide(text):
    """The numbers of the lines that have too many columns, but for imports that are quoted."""
    lines = enumerate(text.split("\n"), 1)
    return [f"line {number} is too long" for number, line in lines if len(line) > WIDTH and "ghost use " not in line]


def lost_files(text):
    """The files that a page names and that are not there."""
    lost = []
    for path in re.findall(r"`((?:src|specs|proofs|tests|tools|docs|crates|trials)/[\w/.-]+)`", QUOTE.sub("", text)):
        is_whole = path.startswith(("tests", "tools", "docs", "crates", "trials"))
        ways = [ROOT] if is_whole else [*CRATES.iterdir(), *TRIALS.iterdir()]
        found = [way for way in ways for end in ("", ".rt", ".rs", ".antt") if (way / f"{path}{end}").exists()]
        if not found and "NAME" not in path:
            lost.append(f"there is no {path}")
    return lost


def anchors(page):
    """The names by which links lead to the parts of a page."""
    heads = re.findall(r"^#+ (.*)$", QUOTE.sub("", page.read_text(encoding="utf-8")), re.MULTILINE)
    return {re.sub(r"[^\w -]", "", head.lower()).replace(" ", "-") for head in heads}


def lost_pages(page, text):
    """The links to pages of the repository, or to parts of them, that are not there."""
    links = re.findall(r"\]\(([^)#:]+)(?:#([^)]*))?\)", QUOTE.sub("", text))
    lost = [f"there is no page {link}" for link, _ in links if not (page.parent / link).exists()]
    parts = [(link, part) for link, part in links if part and (page.parent / link).is_file()]
    return lost + [f"{link} has no part {part}" for link, part in parts if part not in anchors(page.parent / link)]


def wrong_counts(text):
    """What a page says otherwise than it is of how many mutants stand, and how many of them a goal refuses."""
    files = [path.read_text(encoding="utf-8") for path in CRATES.glob("*/mutants/*.edit")]
    right = (str(len(files)), str(sum("\nrefused:" not in f"\n{file}" for file in files)))
    told = re.findall(r"[Oo]f\s+(\d+)\s+\[?mutants\b(?s:.{,200}?)\ba\s+goal\s+refuses\s+(\d+)", text)
    return [f"of {right[0]} mutants a goal refuses {right[1]}, and not {' '.join(each)}" for each in told if each != right]


def sound(page, text):
    """What is wrong with a page's lines, the files and pages that it names, and its counts."""
    return too_wide(text) + lost_files(text) + lost_pages(page, text) + wrong_counts(text)


def with_quotes(page, text, complaints):
    """A page's text with its quotes as they should be."""
    return QUOTE.sub(lambda m: "\n".join([*marker(m[1]), *quote(page, m[2], complaints), m[3]]), text)


def not_explained(page, text):
    """The words of public contracts that have no comment, or no link where a page quotes contracts of its crate."""
    used = words_of_contracts(page.parent) if "<!-- quote contracts" in text else {}
    used = {name: file_of(module) for name, module in used.items() if file_of(module)}
    lost = [f"{name} has no link: <!-- quote words -->" for name in used if f"[`{name}`](" not in text]
    told = {name for name, path in used.items() if defined_in(path).get(name, (0, ""))[1]}
    return lost + [f"{name} has no comment" for name in used if name not in told]


def page_for_callers(page, text):
    """What is wrong with a page for callers."""
    return ([] if QUOTE.search(text) else ["it quotes nothing"]) + not_explained(page, text) + sound(page, text)


def packed(text):
    """A text of Rust without comments and white space."""
    return re.sub(r"\s", "", re.sub(r"//.*", "", text))


def imports(text):
    """The names that a text of Rust imports, each with its path."""
    found = re.findall(r"\buse ([\w:]+?)(?:::\{([^}]*)\})?;", text)
    return {f"{path}::{name.strip()}" if names else path for path, names in found for name in (names or path).split(",") if name.strip()}


def examples(text):
    """The lines of a page's tests in Rust that no test has, imports by the names that `giputils` gives them."""
    tests = (TRIALS / "giputils_trials/src/examples.rs").read_text(encoding="utf-8")
    found = re.findall(r"^```rust\n(.*?)^```", QUOTE.sub("", text), re.DOTALL | re.MULTILINE)
    lines = [line for example in found if "#[test]" in example for line in example.split("\n") if packed(line)]
    complaints, told, imported = [], packed(tests), imports(tests)
    for line in lines:
        named = re.sub(r"giputils_(?:base|bits|hash|index|stat|vec)::(?:others::)?", "giputils::", line)
        named = re.sub(r"giputils_(?:bounded|heap)::", "giputils::heap::", named)
        if not (imports(named) <= imported if imports(named) else packed(named) in told):
            complaints.append(f"no test has the line {line.strip()}")
    return complaints


def readme(page, text):
    """What is wrong with the README of the root."""
    count = text.count("\n")
    complaints = [f"it has {count} lines, and {LINES} are allowed"] if count > LINES else []
    return complaints + sound(page, text) + examples(text)


def readme_of_crate(page, text):
    """What is wrong with the README of a crate: the parts that it lacks, and another script than `gip` is run on."""
    complaints, crate = [], page.parent.name
    if crate not in PARTS:
        return sound(page, text)
    heads = re.findall(r"^##? .*$", QUOTE.sub("", text), re.MULTILINE)
    complaints += [f"it has no part {part}" for part in (f"# `{crate}`", *PARTS[crate]) if part not in heads]
    if EXAMPLE in PARTS[crate] and crate != "gip" and f"`your_crate: {crate}" not in text:
        complaints.append("it does not say the line of crates.txt")
    for name in ("stdin", "stdout") if crate == "gip" else ():
        lines = (page.parent / name).read_text(encoding="utf-8").splitlines()
        if ", ".join(f"`{line}`" for line in lines) not in " ".join(text.split()):
            complaints.append(f"it has not the lines of crates/gip/{name}")
    if crate == "giputils":
        complaints += not_gathered()
    return complaints + not_explained(page, text) + sound(page, text) + examples(text)


@functools.cache
def uses():
    """The crates of the repository that the line of each crate in crates.txt names."""
    lines = re.findall(r"^(\w+):(.*)$", (ROOT / "crates.txt").read_text(encoding="utf-8"), re.MULTILINE)
    return {crate: [other for other in others.split() if (CRATES / other).is_dir()] for crate, others in lines}


def needed(crate):
    """A crate with all crates of the repository below it."""
    return {crate}.union(*(needed(other) for other in uses().get(crate, [])))


@functools.cache
def sections():
    """The crates of crates.txt, in its order, under the heads of its sections."""
    found, head = {}, ""
    for line in (ROOT / "crates.txt").read_text(encoding="utf-8").split("\n"):
        if line.startswith("# "):
            head = line
        elif ":" in line:
            found.setdefault(head, []).append(line.partition(":")[0])
    return found


def table_of_crates():
    """A row for the libraries and programs of a section that stand on the same others, of which those are named that no
    other one stands on."""
    rows = ["| Crates | Stand on |", "|---|---|"]
    for head, crates in sections().items():
        if head.startswith(("# Tests", "# Tools")):
            continue
        alike = {}
        for crate in crates:
            below = set().union(*(needed(other) - {other} for other in uses()[crate]))
            others = [other for other in uses()[crate] if other not in below]
            alike.setdefault(tuple(sorted(others, key=list(uses()).index)), []).append(crate)
        for others, own in alike.items():
            names = [", ".join(f"`{crate}`" for crate in each) for each in (own, others)]
            rows.append(f"| {names[0]} | {names[1] or 'the kit'} |")
    return rows


def table_of_parts(page):
    """The rows of the quote on the page, each with the folders of its part: those of rows above, and others by name."""
    body = re.search(r"<!-- quote parts -->\n(.*?)<!-- end -->", page.read_text(encoding="utf-8"), re.DOTALL)
    lines, rows = ["| Part | Folders of `crates/` |", "|---|---|"], {}
    for part, folders in re.findall(r"^\| ([^|]+) \| ([^|]*`\w+`) \|$", body[1] if body else "", re.MULTILINE):
        if part == "Part":
            continue
        last = re.findall(r"`(\w+)`", folders)[-1]
        part_needs = needed(last) | (needed(SOLVER) if part.endswith(WITH_SOLVER) else set())
        left, told = set(part_needs), []
        for other in sorted(rows, key=lambda each: -len(rows[each])):
            if rows[other] < part_needs and len(rows[other] & left) > 1:
                told.append(f"*{other.removesuffix(WITH_SOLVER)}*")
                left -= rows[other]
        names = [f"`{crate}`" for crate in uses() if crate in left - {last}] + [f"`{last}`"]
        lines.append(f"| {part} | {', '.join(['those of ' + ' and of '.join(told)] * bool(told) + names)} |")
        rows[part] = part_needs
    return lines


def handed_on():
    """The files of the kit's specs/ that the gathered libraries hand on."""
    lists = [(CRATES / crate / "specs/Lib.antt").read_text(encoding="utf-8") for crate in GATHERED]
    return set(re.findall(r"^pub use Rattle\.([\w.]+)", "\n".join(lists), re.MULTILINE))


@functools.cache
def words_of_contracts(folder):
    """The words of specs/ that the public contracts of a crate use, each with the module that it comes from."""
    return contracts_of(folder, set(), set(), set())[1]


def not_gathered():
    """The files of public lemmas, and of words that callers need, which the crate `giputils` does not hand out."""
    pages = (path for path in CRATES.glob("*/*.md") if "<!-- quote contracts" in path.read_text(encoding="utf-8"))
    files = {file for folder in {path.parent for path in pages} for file in words_of_contracts(folder).values()}
    wanted = {file for file in files if file.split(".")[0] in GATHERED}
    for crate in GATHERED:
        lemmas_of = (CRATES / crate / "proofs/Lib.antt").read_text(encoding="utf-8")
        wanted |= {f"{crate}.proofs.{name}" for name in re.findall(r"^pub mod (\w+)", lemmas_of, re.MULTILINE)}
    lists = "".join((CRATES / f"giputils/{part}/Lib.antt").read_text(encoding="utf-8") for part in ("specs", "proofs"))
    handed_out = set(re.findall(r"^pub use Rattle\.([\w.]+)", lists, re.MULTILINE))
    last = {file.split(".")[-1] for file in handed_out}
    lost = sorted(wanted - handed_out) + sorted(file for file in handed_on() if file.split(".")[-1] not in last)
    return [f"giputils does not hand out {file}" for file in lost]


def ring_of_modules(folder):
    """A complaint on modules of a folder that import each other in a ring, if there are any."""
    texts = {path.stem: without_comments(path.read_text(encoding="utf-8")) for path in folder.glob("*.rt")}
    imports = {module: set(re.findall(r"\bcrate::(\w+)", text)) - {module} for module, text in texts.items()}
    try:
        graphlib.TopologicalSorter(imports).prepare()
    except graphlib.CycleError as error:
        return [f"modules import each other: {', '.join(error.args[1])}"]
    return []


def map_of_crates(page, text):
    """What is wrong with the map: a crate that it does not name, a name beside one of MiniSat that the solver has not,
    modules of the solver that import each other, and a module whose first line says nothing."""
    crates = sorted(path.parent.name for folder in (CRATES, TRIALS) for path in folder.glob("*/src"))
    complaints = [f"it does not name {crate}" for crate in crates if not re.search(rf"[`\[]{crate}[`\]]", text)]
    readmes = sorted(path.relative_to(ROOT) for folder in (CRATES, TRIALS) for path in folder.glob("*/README.md"))
    complaints += [f"it has no link to {path}" for path in readmes if f"](../{path})" not in text]
    folders = [CRATES / crate / "src" for crate in ("gipsat_cnf", "gipsat_kernel", "gipsat_search", "gipsat_solver")]
    solver = "".join(path.read_text(encoding="utf-8") for folder in folders for path in folder.rglob("*.rt"))
    rows = re.findall(r"^\| ([^|]*) \| [^|]* \|$", text.partition("| MiniSat |")[2].partition("\n## ")[0], re.MULTILINE)
    lost = [name for row in rows for name in re.findall(r"`(\w+)`", row) if not name.startswith("gip") and not re.search(rf"\b{name}\b", solver)]
    complaints += [f"the solver has no {name}" for name in lost]
    complaints += [ring for folder in folders for ring in ring_of_modules(folder)]
    for path in sources():
        if not path.read_text(encoding="utf-8").startswith("//! "):
            complaints.append(f"{path.relative_to(ROOT)} does not begin with a line //!")
    return complaints + sound(page, text)


def sources():
    """The sources of all crates, those that are proved and those of trials/."""
    return sorted([*CRATES.glob("*/src/**/*.rt"), *TRIALS.glob("*/src/**/*.rs")])


def names_with_reasons():
    """The names that several types may have: those of each group of tests/names.txt that begins with its reason."""
    groups = NAMES.read_text(encoding="utf-8").split("\n\n")
    lines = [group.splitlines() for group in groups if group.startswith("# ")]
    return {name for group in lines for line in group if not line.startswith("#") for name in line.split()}


def names_given_twice():
    """The names that types of several files have."""
    files = collections.defaultdict(set)
    for path in sources():
        text = without_comments(path.read_text(encoding="utf-8"))
        for name in re.findall(r"^ *(?:pub(?:\(\w+\))? )?(?:struct|enum|trait) (\w+)", text, re.MULTILINE):
            files[name].add(path)
    return {name for name in files if len(files[name]) > 1}


def decisions(page, text):
    """What is wrong with the page of decisions: a name that types of several files have, and no line of the list."""
    listed, given = names_with_reasons(), names_given_twice()
    complaints = [f"several types are named {name}" for name in sorted(given - listed)]
    complaints += [f"{NAMES.name} lists {name}, which no two types have" for name in sorted(listed - given)]
    return complaints + sound(page, text)


def folder_of(crate):
    """The folder of a crate, which is proved, or one of trials/."""
    return TRIALS / crate if (TRIALS / crate).is_dir() else CRATES / crate


def arguments():
    """What the command line asks for."""
    parser = argparse.ArgumentParser(description=__doc__, formatter_class=argparse.RawDescriptionHelpFormatter)
    parser.add_argument("--write", action="store_true", help="write the quotes, and the links below them, anew")
    return parser.parse_args()


def main():
    write = arguments().write
    pages = {page: sound for folder in ("docs", "tools") for page in sorted((ROOT / folder).rglob("*.md"))}
    pages |= {ROOT / "docs/DESIGN.md": map_of_crates, ROOT / "README.md": readme, TRIALS / "README.md": sound}
    pages[ROOT / "docs/DECISIONS.md"] = decisions
    callers = sorted(CRATES.glob("*/CALLING.md"))
    pages |= {page: page_for_callers for page in callers}
    wanted = {page.with_name("README.md") for page in callers} | {folder_of(crate) / "README.md" for crate in PARTS}
    wanted |= {page for folder in (CRATES, TRIALS) for page in folder.glob("*/README.md")}
    pages |= {page: readme_of_crate for page in sorted(wanted)}
    failed = 0
    for page, look in pages.items():
        complaints = []
        if page.is_file():
            text = page.read_text(encoding="utf-8")
            quoting = with_quotes(page, text, complaints)
            if write:
                page.write_text(quoting, encoding="utf-8")
            elif text != quoting:
                complaints.append("it does not quote the sources as they are: tests/pages.py --write")
            complaints += look(page, quoting)
        else:
            complaints.append("it is not there")
        failed += bool(complaints)
        for complaint in complaints:
            print(f"FAILED: {page.relative_to(ROOT)}: {complaint}")
    print(f"{len(pages) - failed} passed, {failed} failed")
    sys.exit(failed > 0)


if __name__ == "__main__":
    main()
