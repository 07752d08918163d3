#!/usr/bin/env python3
"""Makes circuits of families of designs in SystemVerilog, by yosys, each right and with a bug put in.

    tools/verilog.py FOLDER           writes an AIGER file for each circuit into FOLDER
    tools/verilog.py --list           tells the families: what each is, and its sizes
    tools/verilog.py --print NAME     prints the text of a circuit, as `lift-9-bug`

Of the settings of gipmc those of merges alone were chosen with some in view (docs/EXPERIMENTS.md). The name of a
file is that of the family, the sizes, and `right` or `bug`: `lift-9-bug.aig`. Of one text and one yosys the files are
the same each time. A file that stands there already is left alone. What is said to be right is not known to be; only
the answers of model checkers tell.

The families of the kind `one` have one bad literal, those of `many` 10 to 200, and those of `cone` 10^5 to 10^6 gates,
few of which matter to their one bad literal. They stand in tools/lib.
"""
import argparse
import subprocess
import sys
import tempfile
from pathlib import Path

from lib import arithmetic, coded, control, crowds, machines, storage  # noqa: F401
from lib.designs import FAMILIES

# yosys's passes from a design to and-gates, registers and asserts.
BY_MODULE = "proc; opt; memory; opt -full; async2sync; techmap; opt -fast; dffunmap; setundef -zero -undriven; aigmap"
PASSES = {
    "one": "flatten; " + BY_MODULE + "; opt_clean",
    "many": "flatten; " + BY_MODULE + "; opt_clean",
    # Each module once, since there are many copies of one.
    "cone": BY_MODULE + "; flatten; opt_clean",
}


def circuits(count=None):
    """For each circuit its name, its family and its parameters; only so many sizes of each family."""
    for family in FAMILIES.values():
        for sizes in family.sizes[:count]:
            for variant in ("right", "bug"):
                name = "-".join([family.name, *map(str, sizes.values()), variant])
                yield name, family, {**sizes, "BUG": int(variant == "bug")}


def text(family, parameters):
    """The text of a circuit, whose parameters stand in its head."""
    made = family.text().strip() + "\n"
    for name, value in parameters.items():
        head, equals, rest = made.partition(f"{name} = ")
        if not equals:
            raise SystemExit(f"verilog.py: {family.name}: there is no parameter {name}")
        made = head + equals + str(value) + rest.lstrip("0123456789")
    return f"// {family.about}\n{made}"


def write(name, family, parameters, folder):
    path = folder / f"{name}.aig"
    if path.exists():
        return
    with tempfile.TemporaryDirectory() as work:
        source, made = Path(work) / "design.sv", Path(work) / "design.aig"
        source.write_text(text(family, parameters), encoding="utf-8")
        passes = f"hierarchy -check -top top; {PASSES[family.kind]}; write_aiger -zinit -I -B {made}"
        run = subprocess.run(
            ["yosys", "-q", "-p", f"read_verilog -formal -sv {source}; {passes}"], capture_output=True, text=True
        )
        if run.returncode != 0:
            raise SystemExit(f"verilog.py: {name}: yosys says {(run.stderr or run.stdout).strip()}")
        path.write_bytes(made.read_bytes())


def main():
    parser = argparse.ArgumentParser(description=__doc__, formatter_class=argparse.RawDescriptionHelpFormatter)
    mode = parser.add_mutually_exclusive_group(required=True)
    mode.add_argument("folder", nargs="?", type=Path, metavar="FOLDER")
    mode.add_argument("--list", action="store_true")
    mode.add_argument("--print", metavar="NAME")
    parser.add_argument("--family", metavar="NAME,..", help="of these families alone")
    parser.add_argument("--kind", choices=PASSES, help="of this kind alone")
    parser.add_argument("--sizes", type=int, metavar="N", help="the N smallest sizes of each family alone")
    asked = parser.parse_args()
    wanted = asked.family.split(",") if asked.family else list(FAMILIES)
    for name in wanted:
        if name not in FAMILIES:
            parser.error(f"there is no family '{name}'; --list tells them")
    chosen = [row for row in circuits(asked.sizes) if row[1].name in wanted and asked.kind in (None, row[1].kind)]
    if asked.list:
        for name in wanted:
            family = FAMILIES[name]
            sizes = ", ".join("-".join(map(str, size.values())) for size in family.sizes)
            print(f"{name} ({family.kind}; {sizes}): {family.about}")
    elif asked.print:
        for name, family, parameters in chosen:
            if name == asked.print:
                sys.stdout.write(text(family, parameters))
                return
        parser.error(f"there is no circuit '{asked.print}'")
    else:
        asked.folder.mkdir(parents=True, exist_ok=True)
        for name, family, parameters in chosen:
            write(name, family, parameters, asked.folder)
            print(name, flush=True)


if __name__ == "__main__":
    main()
