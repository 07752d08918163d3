"""A copy of a crate in which some functions are checked alone: each other one is a stub, with a body that is never reached and a
statement whose proof is a hole. A declaration with a hole is taken by its signature, so what calls a stub has its contract
and no more, and nothing of it is proved. Read by the scripts that try mutants."""

import pathlib
import re

import mutant_files
import mutant_sources

BODY = "{ unreachable!() }"
PROOF = """use Rattle.{crate}.proofs.{path}.Statement as stated

pub {name}_spec : {{M : Type 1}} → stated.statement M
{name}_spec = ?
"""
TYPE = re.compile(r"\b(?:struct|enum|union|trait) (\w+)")
# Functions that keep their bodies: members of a cycle, which one proof is about, and those that are computed while compiling.
KEEPS = re.compile(r"\bcycle\(|\bconst fn\b")


def key_of(path, function):
    """What tells a function of a crate from its others, whatever was written into their bodies."""
    return path, function.owner, function.arguments, function.name


def can_be_stub(text, function):
    """Whether a function of a source may be a stub. Methods that a trait provides keep their bodies."""
    head = text[function.begins : function.opens]
    return function.name != "main" and not KEEPS.search(head) and not re.match(r"(?:pub\S* )?(?:unsafe )?trait\b", function.head)


def types_of(texts):
    """The modules in which each type of a crate stands, by its sources."""
    found = {}
    for path, text in texts.items():
        for name in TYPE.findall(mutant_sources.blanked(text)):
            found.setdefault(name, []).append(mutant_files.module_of(path))
    return found


def proved_name(path, function, types):
    """How the prover names a function, as the parts of a path below its crate. What is written at a type stands in the module of
    the type, and what is written at a trait for it in that of its file."""
    module = mutant_files.module_of(path)
    if not function.owner:
        return (*module, function.name)
    trait, implementor = mutant_sources.parts_of_head(function.head)
    if trait == "Drop":
        return (*types.get(implementor, [module])[0], implementor, function.name)
    if not trait:
        module = types.get(implementor, [module])[0]
    return (*module, function.owner + function.arguments, function.name)


def put_stubs(room, crate, kept):
    """Makes stubs of all functions of the copy in this folder but those with these keys."""
    source = pathlib.Path(room, "src")
    texts = {f"src/{file.relative_to(source)}": file.read_text(encoding="utf-8") for file in sorted(source.rglob("*.rt"))}
    types = types_of(texts)
    for path, text in texts.items():
        for function in reversed(mutant_sources.functions_of(text)):
            if key_of(path, function) in kept or not can_be_stub(text, function):
                continue
            text = text[: function.opens] + BODY + text[function.closes + 1 :]
            put_hole(pathlib.Path(room, "proofs"), crate, proved_name(path, function, types))
        pathlib.Path(room, path).write_text(text, encoding="utf-8")


def put_hole(proofs, crate, name):
    """Puts a hole in the place of a function's proof."""
    folder = proofs.joinpath(*name)
    folder.mkdir(parents=True, exist_ok=True)
    for file in folder.iterdir():
        if file.is_file():
            file.unlink()
    text = PROOF.format(crate=crate, path=".".join(name), name=name[-1])
    (folder / "Proof.antt").write_text(text, encoding="utf-8")
