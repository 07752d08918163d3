#!/usr/bin/env python3
"""Makes the manual pages and the bash completions of the programs, tests them, and ends with 'N passed, M failed'.

    tests/manuals.py                   tests them, and tries their examples, tools/install and tools/package
    tests/manuals.py --write FOLDER    writes those of the programs that are built, as tools/install does

What a program tells by --help is made into NAME.1 and NAME.bash, and what the README of gip says into a page of gip.
Where a program is not built, `rt try` runs it, and neither examples nor tools are tried. The help has this form: lines
of usage; paragraphs on the program; sections, each a title with a colon and the options below it, whose texts begin in
column 25; more paragraphs; one that begins with `Exit status: `. No line has more than 80 columns.
"""

import argparse
import lzma
import os
import pathlib
import re
import shutil
import subprocess
import sys
import tempfile

ROOT = pathlib.Path(__file__).resolve().parent.parent
# What each program is, in a line.
PROGRAMS = {"gipsat": "SAT solver, and checker of its proofs", "gipmc": "model checker of AIGER circuits"}
GIP = "calls on a heap, or bit vectors, line by line"
# What each program is used for, and how; the examples are run beside these files.
EXAMPLES = {
    "gipsat": [
        ("Solve a formula.", "gipsat formula.cnf"),
        ("Write a proof that nothing satisfies it, and check that.",
         "gipsat --proof proof formula.cnf; gipsat --check formula.cnf proof"),
        ("Write all models, of those that agree on the variables 1 and 2 one each.",
         "gipsat --models 0 --project '1 2' formula.cnf"),
        ("Solve a compressed formula, within a minute.", "xz -dc formula.cnf.xz | gipsat --time 60"),
    ],
    "gipmc": [
        ("Find out whether a bad state can be reached.", "gipmc circuit.aig"),
        ("Write a certificate that none can be, and check that.",
         "gipmc --certificate clauses circuit.aig; gipmc --certify clauses circuit.aig"),
        ("Look for a shortest trace to one, and show it by names and as a wave.",
         "gipmc --engine bmc --names --vcd trace.vcd circuit.aig"),
    ],
    "gip": [
        ("Push two keys of the heap, and pop the greater one.", r"printf 'push 3\npush 5\npop\n' | gip"),
        ("Write three bits as a number.", "echo 011 | gip bits"),
    ],
}
# What stands before a word, the word, and what it is completed to.
COMPLETED = {
    "gipsat": [("", "--ver", ["--verbose", "--version"])],
    "gipmc": [("", "--ver", ["--verbose", "--version"]), ("--engine", "i", ["ic3", "induction"]),
              ("--engine =", "b", ["bmc"])],
}
FILES = {
    "formula.cnf": b"p cnf 2 4\n1 2 0\n1 -2 0\n-1 2 0\n-1 -2 0\n",
    "circuit.aig": b"aag 3 0 2 0 1 1\n2 4\n4 2\n6\n6 4 2\n",
}
SEE_ALSO = {"gip": "gipsat gipmc", "gipsat": "gip gipmc", "gipmc": "gip gipsat yosys gtkwave"}
COLUMN = 24
WIDTH = 80
# The day on which an option or a program's help last changed: pages made on two days are the same.
DATE = "2026-11-29"


class Option:
    """An option of a help: how it is written, and what it does."""

    def __init__(self, written, text):
        self.written = written
        self.text = text

    def names(self):
        return [word.split()[0] for word in self.written.split(", ")]


class Help:
    """What a help says."""

    def __init__(self, text):
        blocks = [block.split("\n") for block in text.strip("\n").split("\n\n")]
        self.usage = [line.strip() for line in re.sub(r"^usage:", "", "\n".join(blocks[0])).split("\n")]
        self.paragraphs, self.sections, self.notes, self.statuses = [], [], [], ""
        for block in blocks[1:]:
            if block[0].endswith(":") and len(block) > 1 and block[1].startswith("  "):
                self.sections.append((block[0][:-1], list(options(block[1:]))))
            elif block[0].startswith("Exit status: "):
                self.statuses = " ".join(block).removeprefix("Exit status: ")
            elif self.sections:
                self.notes.append(" ".join(block))
            else:
                self.paragraphs.append(" ".join(block))

    def names(self):
        return [name for _, found in self.sections for option in found for name in option.names()]


def options(lines):
    """The options of a section. A line whose first columns are blank goes on with the text of the one before."""
    written, texts = "", []
    for line in lines:
        # Behind an option that is too long for its columns, the text begins in the next line.
        is_long = line[COLUMN - 1:COLUMN].strip()
        option, text = (line, "") if is_long else (line[:COLUMN], line[COLUMN:])
        if option.strip():
            if written:
                yield Option(written, " ".join(texts))
            written, texts = option.strip(), []
        if text:
            texts.append(text.strip())
    yield Option(written, " ".join(texts))


def roff(text):
    """A text of a manual page. No line of it begins with a control character."""
    text = text.replace("\\", "\\e").replace("-", "\\-")
    # A full stop would be taken for the end of the sentence.
    text = text.replace("`.`", r"\(lq\fB.\fR\(rq")
    text = re.sub(r"`([^`]*)`", r"\\fB\1\\fR", text)
    return re.sub(r"^([.'])", r"\\&\1", text)


def ends(name):
    """The lines with which a page ends: examples, and other pages."""
    yield ".SH EXAMPLES"
    for what, command in EXAMPLES[name]:
        yield from (roff(what), ".PP", ".nf", ".RS", f".B {roff(command)}", ".RE", ".fi", ".PP")
    yield ".SH SEE ALSO"
    yield " ,\n".join(f".BR {other} (1)" for other in SEE_ALSO[name].split())


def manual(name, version, told):
    lines = [f'.\\" Made by tests/manuals.py from the help of {name}.', f'.TH {name.upper()} 1 "{DATE}" "{version}"']
    lines += [".SH NAME", f"{name} \\- {PROGRAMS[name]}", ".SH SYNOPSIS"]
    lines += [line for usage in told.usage for line in (f".B {roff(usage)}", ".br")][:-1]
    lines += [".SH DESCRIPTION"]
    lines += [line for text in told.paragraphs for line in (roff(text), ".PP")][:-1]
    lines += [".SH OPTIONS"]
    for title, found in told.sections:
        lines += [f".SS {title}"]
        lines += [line for option in found for line in (".TP", f".B {roff(option.written)}", roff(option.text))]
    lines += [line for text in told.notes for line in (".PP", roff(text))]
    lines += [".SH EXIT STATUS", roff(told.statuses[0].upper() + told.statuses[1:]), *ends(name)]
    return "\n".join(lines) + "\n"


def manual_of_gip():
    """The page of gip, which has no help: what its README says, and the table of its lines."""
    blocks = (ROOT / "crates" / "gip" / "README.md").read_text().split("\n\n")

    def said(beginning):
        """The paragraph that begins so, without links."""
        found = next(block for block in blocks if block.startswith(beginning))
        return roff(re.sub(r"\[([^]]*)\]\([^)]*\)", r"\1", " ".join(found.split("\n"))))

    rows = [row.strip("|").split("|") for row in next(b for b in blocks if b.startswith("| Line |")).split("\n")[2:]]
    lines = ['.\\" Made by tests/manuals.py from the README of gip.', f'.TH GIP 1 "{DATE}" "giputils"']
    lines += [".SH NAME", f"gip \\- {GIP}", ".SH SYNOPSIS", ".B gip [bits]", ".SH DESCRIPTION"]
    lines += [roff("Reads lines from standard input, and writes a reply to each. Without an argument a line is a call on a heap:")]
    for line, effect, reply in rows:
        lines += [".TP", roff(line.strip()), roff(f"{effect.strip()}; the reply is {reply.strip()}")]
    statuses = said("Any other argument").replace("those below", "those above")
    lines += [".PP", said("Of keys with the same rank"), ".SH EXIT STATUS", statuses, *ends("gip")]
    return "\n".join(lines) + "\n"


def choices_of(name, told):
    """The words that an option takes, of each that takes one out of a list: the program tells them at another word."""
    for option in (option for _, found in told.sections for option in found if " " in option.written.split(", ")[-1]):
        written = option.names()[-1]
        said = re.search(f"'{written}' takes (.*), not ''", answer_of(name, written, "", "--help").stderr)
        if said and "number" not in said[1]:
            yield written, re.split(", | or ", said[1])


def completion(name, told):
    words = "".join(f"""        {option})
            mapfile -t COMPREPLY < <(compgen -W '{" ".join(words)}' -- "$word") ;;
""" for option, words in choices_of(name, told))
    return f"""# Completion of {name} for bash. Made by tests/manuals.py from its help.
_{name}() {{
    local word=${{COMP_WORDS[COMP_CWORD]}} before=${{COMP_WORDS[COMP_CWORD - 1]}}
    COMPREPLY=()
    [[ $before == = ]] && before=${{COMP_WORDS[COMP_CWORD - 2]}}
    case $before in
{words}        *)
            if [[ $word == -* ]]; then
                mapfile -t COMPREPLY < <(compgen -W '{" ".join(told.names())}' -- "$word")
            fi ;;
    esac
}}
complete -o default -F _{name} {name}
"""


def answer_of(name, *words):
    """A program's answer to some words, built or not."""
    folder = ROOT / "crates" / name
    built = folder / "out" / name
    command = [built, *words] if built.is_file() else ["rt", "try", "--", *words]
    return subprocess.run(command, cwd=folder, stdin=subprocess.DEVNULL, capture_output=True, text=True)


def told_by(name, option):
    """What a program writes at an option."""
    answer = answer_of(name, option)
    answer.check_returncode()
    return answer.stdout


def faults_of_questions(name, told):
    """Each option that the sources ask for is one of the help: the words of another one would be told as unknown."""
    for path in sorted((ROOT / "crates").glob(f"{name}*/src/*.rt")):
        for question in re.finditer(r'asked\s*\.(?:has|number|word)\(\s*"([^"]*)"', path.read_text()):
            is_well = question[1] in told.names()
            yield "" if is_well else f"{path.relative_to(ROOT)}: asks for {question[1]}, which is no option"


def made(name):
    """The texts of a program's files by their names."""
    if name not in PROGRAMS:
        return {f"{name}.1": manual_of_gip()}
    told = Help(told_by(name, "--help"))
    return {f"{name}.1": manual(name, told_by(name, "--version").strip(), told), f"{name}.bash": completion(name, told)}


def write(folder, names):
    folder.mkdir(parents=True, exist_ok=True)
    for file, text in (file for name in names for file in made(name).items()):
        (folder / file).write_text(text)


def faults_of_page(path, wanted):
    """What a formatter says of a manual page, and which of these words it does not show."""
    if shutil.which("groff"):
        told = run("groff", "-man", "-ww", "-Tascii", "-P-cbou", path)
        yield f"{path.name}: {told.stderr}" if told.stderr else ""
        shown = " ".join(told.stdout.split())
        for words in wanted:
            yield "" if words in shown else f"{path.name}: it does not show {words}"


def faults_of(name, folder):
    """What is wrong with a program's files in a folder. Each is a text, or empty where all is well."""
    text = told_by(name, "--help")
    told = Help(text)
    for line in text.split("\n"):
        yield f"{name} --help: too wide: {line}" if len(line) > WIDTH else ""
    yield from faults_of_questions(name, told)
    yield from faults_of_page(folder / f"{name}.1", (option.written for _, found in told.sections for option in found))
    completed = [*COMPLETED[name], *(("", begun, [o for o in told.names() if o.startswith(begun)]) for begun in told.names())]
    completed += [(option, word, [word]) for option, words in choices_of(name, told) for word in words]
    for before, word, wanted in completed:
        names = run("bash", "-c", f'source "$1"; COMP_WORDS=({name} {before} {word}); COMP_CWORD={len(before.split()) + 1}; '
                    f'_{name}; printf "%s\\n" "${{COMPREPLY[*]}}"', "bash", folder / f"{name}.bash")
        is_well = names.stdout.split() == wanted and not names.stderr
        yield "" if is_well else f"{name}.bash: it completes {before} {word} so: {names.stdout}{names.stderr}"


def run(*words, **how):
    return subprocess.run(words, capture_output=True, text=True, **how)


def faults_of_examples(programs):
    """What is wrong with the examples of the pages of these programs."""
    with tempfile.TemporaryDirectory() as room:
        folder = pathlib.Path(room)
        for file, text in FILES.items():
            (folder / file).write_bytes(text)
        (folder / "formula.cnf.xz").write_bytes(lzma.compress(FILES["formula.cnf"]))
        path = os.pathsep.join([*(str(ROOT / "crates" / name / "out") for name in programs), os.environ["PATH"]])
        for command in (command for name in programs for _, command in EXAMPLES[name]):
            told = run("bash", "-c", command, cwd=room, env={**os.environ, "PATH": path})
            is_well = told.returncode in (0, 10, 20) and told.stdout and not told.stderr
            yield "" if is_well else f"{command}: status {told.returncode}, {told.stderr}{told.stdout}"


def faults_below(prefix, programs):
    """What is wrong with these programs where they were installed: each runs in an empty environment, and has its files."""
    for name in programs:
        told = run("env", "-i", f"{prefix}/bin/{name}", "--version" if name in PROGRAMS else "bits", stdin=subprocess.DEVNULL)
        yield "" if told.returncode == 0 else f"{name} does not run below {prefix}: {told.stderr}"
        files = [f"share/man/man1/{name}.1"]
        files += [f"share/bash-completion/completions/{name}"] if name in PROGRAMS else []
        for file in files:
            yield "" if (prefix / file).is_file() else f"no {file} below {prefix}"


def faults_of_install(programs):
    """What is wrong with tools/install where these programs are built, where one of them is, and where none is."""
    for built in (programs, programs[:1], []):
        with tempfile.TemporaryDirectory() as room:
            top, prefix = pathlib.Path(room), pathlib.Path(room) / "prefix"
            for file in ("tools/install", "tests/usage.sh", "tests/manuals.py", "crates/gip/README.md"):
                (top / file).parent.mkdir(parents=True, exist_ok=True)
                shutil.copy(ROOT / file, top / file)
            for name in built:
                (top / "crates" / name).mkdir(exist_ok=True)
                (top / "crates" / name / "out").symlink_to(ROOT / "crates" / name / "out")
            told = run(top / "tools" / "install", prefix)
            left_out = re.findall(r"^tools/install: (\w+) is left out, since it is not built", told.stderr, re.MULTILINE)
            is_well = told.returncode == (0 if built else 1) and sorted(left_out) == sorted({*EXAMPLES} - {*built})
            yield "" if is_well else f"tools/install, {built} built: status {told.returncode}, {told.stderr}"
            yield from faults_below(prefix, built)


def faults_of_package(programs):
    """What is wrong with tools/package: its sums are right, it runs where /opt is empty, and two runs make the same bytes."""
    with tempfile.TemporaryDirectory() as room:
        folder = pathlib.Path(room)
        told = [run(ROOT / "tools" / "package", folder / place / "giputils.tar.gz") for place in ("", "again")
                if not place or not (folder / place).mkdir()]
        is_well = all(one.returncode == 0 for one in told)
        yield "" if is_well else f"tools/package: {[one.stderr for one in told]}"
        if not is_well:
            return
        archives = [(folder / place / "giputils.tar.gz").read_bytes() for place in ("", "again")]
        yield "" if archives[0] == archives[1] else "tools/package: two runs make two archives"
        run("tar", "-xzf", "giputils.tar.gz", cwd=room, check=True)
        unpacked = folder / "giputils"
        sums = run("sha256sum", "--check", "--strict", "SHA256SUMS", cwd=unpacked)
        listed = {line.split("  ./")[1] for line in (unpacked / "SHA256SUMS").read_text().splitlines()}
        files = {str(path.relative_to(unpacked)) for path in unpacked.rglob("*") if path.is_file()}
        yield "" if sums.returncode == 0 else f"tools/package: {sums.stdout}{sums.stderr}"
        yield "" if listed == files - {"SHA256SUMS"} else f"tools/package: sums of {listed}, and the files are {files}"
        yield from faults_below(unpacked, programs)
        # The kit lies below /opt. Where a folder can be hidden, the program runs without it.
        hidden = ["unshare", "-rm", "sh", "-c", 'mount -t tmpfs none /opt && exec env -i "$0" "$1"']
        if run("unshare", "-rm", "mount", "-t", "tmpfs", "none", "/opt").returncode == 0 and "gipsat" in programs:
            (folder / "formula.cnf").write_bytes(FILES["formula.cnf"])
            told = run(*hidden, unpacked / "bin" / "gipsat", folder / "formula.cnf")
            is_well = (told.returncode, told.stdout, told.stderr) == (20, "s UNSATISFIABLE\n", "")
            yield "" if is_well else f"tools/package: gipsat, where /opt is hidden: {told.stdout}{told.stderr}"


def main():
    parser = argparse.ArgumentParser(description=__doc__, formatter_class=argparse.RawDescriptionHelpFormatter)
    parser.add_argument("--write", metavar="FOLDER", type=pathlib.Path, help="write those of the programs that are built")
    folder = parser.parse_args().write
    built = [name for name in EXAMPLES if (ROOT / "crates" / name / "out" / name).is_file()]
    if folder:
        write(folder, built)
        return 0
    with tempfile.TemporaryDirectory() as room:
        folder = pathlib.Path(room)
        write(folder, EXAMPLES)
        faults = [fault for name in PROGRAMS for fault in faults_of(name, folder)]
        faults += faults_of_page(folder / "gip.1", ["push 3"])
    if built:
        faults += [*faults_of_examples(built), *faults_of_install(built), *faults_of_package(built)]
    else:
        print("the examples, tools/install and tools/package are not tried: no program is built")
    for fault in filter(None, faults):
        print(fault)
    failed = sum(map(bool, faults))
    print(f"{len(faults) - failed} passed, {failed} failed")
    return 1 if failed else 0


if __name__ == "__main__":
    sys.exit(main())
