#!/usr/bin/env python3
"""Makes formulas in conjunctive form by stated seeds: a list with minisat's answers, and files to time solvers with.

    tools/formulas.py --list                      writes the list tests/lists/formulas.txt; it needs minisat
    tools/formulas.py --write FOLDER FORMULAS     a DIMACS file for each of the formulas
    tools/formulas.py --time FORMULAS PROGRAM..   runs the programs by turns on each formula, and prints tables
    tools/formulas.py --table FILE..              prints the tables of runs that were kept
    tools/formulas.py --check FORMULAS GIPSAT [CADICAL]    has each formula that GIPSAT refutes checked with the proof
                                                  that it writes; GIPSAT checks the proofs of CADICAL, if that is given

FORMULAS is a folder of DIMACS files, or the name of a list: `tuning`, on which the settings of gipsat were chosen;
`report`, whose formulas have other sizes and seeds, and in part other families; `fresh`, which has other families
alone; or `further`, which has others again, and large texts. No setting is chosen on these three. Of FORMULAS these
take a part, and they stand behind all other words:

    --family NAME,..    the formulas of these families (how their names begin)
    --sample N          N formulas, spread over the list
    --skip N            all but the first N

and these belong to --time:

    --limit SECONDS     processor time that a run may take, 30 where it is not given
    --processor N       the processor on which all programs run, in their turn
    --keep FILE         adds each run to a file for --table, as a line

A line `cnf CLAUSE..` of the list `new formulas` has a word for each clause, and a letter for each literal: `A` is a
variable, and `a` its negation. A digit tells which 26 variables the letters behind it are; without one they are those of
0, and `0` is the clause of no literal. minisat's models are tried here on their formulas.

A PROGRAM that is named minisat gets the names of a file and of one for its answer, any other the file as its standard
input, and answers as solvers do at competitions: a line `s SATISFIABLE` with lines `v ..`, or `s UNSATISFIABLE`. The
programs' answers are compared with each other and with those that are known, and each model is tried on its formula.
Times are processor times, of the user and of the system; it needs /usr/bin/time, and taskset.
"""

import argparse
import collections
import itertools
import json
import math
import random
import re
import resource
import shlex
import shutil
import subprocess
import sys
import tempfile
from pathlib import Path
from typing import NamedTuple

from lib import families, fresh, further
from lib.families import colouring, mixed, one_model, parity, parity_chains, pigeonhole, random_clauses, units

SECONDS = 100
LIST = Path(__file__).resolve().parent.parent / "tests" / "lists" / "formulas.txt"
HEADER = "new formulas"


# The lists of formulas to time solvers with.


class Row(NamedTuple):
    """A formula: its name, what makes it, whether it is known to be `sat` or `unsat`, the seed, and sizes."""

    name: str
    family: str
    known: str
    seed: int
    sizes: tuple

    def write(self, path):
        module = next(module for module in (further, fresh, families) if hasattr(module, self.family))
        made = getattr(module, self.family)(random.Random(self.seed), *self.sizes)
        with path.open("w") as file:
            file.writelines(lines_of(made) if isinstance(made, list) else made)


def rows(family, known, *sizes, seeds=(1,)):
    """The formulas of a family that have these sizes and seeds."""
    return [
        Row("-".join([family, *map(str, map(float_free, size))]) + f".{seed}", family, known, seed, size)
        for size in sizes
        for seed in seeds
    ]


def float_free(size):
    """A size as it stands in a name."""
    return int(size) if isinstance(size, bool) else size


def named(name, family, known, *sizes):
    """A formula whose name ends with its seed."""
    return Row(name, family, known, int(name.split("-")[-1]), sizes)


TUNING = [
    *[
        named(f"random-{size}-{seed}", "random_clauses", "", size)
        for size in (150, 175, 200, 225, 250)
        for seed in range(1, 7)
    ],
    *[named(f"easy-20000-{seed}", "random_clauses", "", 20000, 3, 3.0) for seed in (1, 2)],
    *[named(f"pigeonhole-{holes}-0", "pigeonhole", "unsat", holes) for holes in (7, 8, 9)],
    *[named(f"parity-{size}-{seed}", "parity", "", size, size) for size, seed in ((40, 1), (60, 2), (100, 3))],
    *[named(f"chains-{size}-{size}", "parity_chains", "unsat", size, False) for size in (20, 25, 30)],
    *[named(f"chains-{size}-1", "parity_chains", "sat", size, True) for size in (40, 60)],
    *[
        named(f"colouring-{size}-{seed}", "colouring", "", size, size * 23 // 10)
        for size in (200, 300, 400)
        for seed in (1, 2)
    ],
    named("counter-600-1", "counter", "sat", 16, 600, 300),
    named("counter-700-1", "counter", "sat", 12, 700, 300),
    named("counters-200-0", "counters_differ", "unsat", 8, 200),
    named("counters-500-0", "counters_differ", "unsat", 8, 500),
    *[named(f"product-{bits}-0", "product_commutes", "unsat", bits) for bits in (5, 6, 7)],
    named("factors-13-0", "factors", "sat", 5003 * 7919, 13),
    named("factors-16-0", "factors", "sat", 40961 * 52361, 16),
    named("factors-18-0", "factors", "sat", 131101 * 200003, 18),
    named("units-100000-1", "units", "unsat", 100000, True),
    named("units-100000-2", "units", "sat", 100000, False),
    named("arbiter-30-0", "arbiter", "unsat", 10, 30, False),
    named("arbiter-100-0", "arbiter", "sat", 20, 100, True),
    *[named(f"multipliers-{bits}-0", "multipliers", "unsat", bits) for bits in (6, 7)],
    named("gray-36-0", "gray", "unsat", 7, 36),
    named("register-132-1", "register", "sat", 44, 132, 3),
    named("sliding-21-1", "sliding", "unsat", 22, 21),
    named("sliding-26-2", "sliding", "sat", 26, 26),
    named("queens-9-0", "queens", "sat", 8, 9),
    named("mycielski-5-0", "mycielski", "unsat", 4, 5),
    *rows("pipeline", "unsat", (2, 4, 4, False), (4, 3, 4, False)),
    *rows("pipeline", "sat", (8, 8, 8, True)),
    *rows("divider", "unsat", (9, False)),
    *rows("divider", "sat", (12, True)),
    *rows("popcount", "unsat", (18,), (22,)),
    *rows("sums", "unsat", (4, 10), (5, 8)),
    *rows("memory", "unsat", (8, 8, 24)),
    *rows("coherence", "unsat", (3, 18, False)),
    *rows("coherence", "sat", (6, 30, True)),
    *rows("fifo", "unsat", (4, 4, 12), (8, 2, 11)),
    *rows("miter", "unsat", (30, 160), (30, 180)),
    *rows("md4", "sat", (24, 32, 26)),
    *rows("sha", "sat", (20, 32, 16)),
    *rows("speck", "sat", (5, 16, 28)),
    *rows("simon", "sat", (8, 16, 40)),
    *rows("pancakes", "sat", (7, 7, 7), (8, 8, 8)),
    *rows("pancakes", "unsat", (7, 6, 7)),
    *rows("robots", "", (8, 10, 10, 10), (6, 8, 7, 4)),
    *rows("packages", "", (10, 10, 3, 9)),
    *rows("latin", "sat", (30, 380), (33, 460)),
    *rows("pebbling", "unsat", (40, 0), (8, 8)),
    *rows("clique_colouring", "unsat", (10, 5)),
    *rows("tseitin", "unsat", (15, 4), (26, 3)),
    *rows("isomorphism", "unsat", (20, 3, False)),
    *rows("jobs", "", (6, 5, 34), (6, 5, 30)),
    *rows("packing", "sat", (15, 15, 12, False)),
    *rows("dominoes", "unsat", (8,)),
    *rows("progressions", "unsat", (55, 4, 5), (58, 3, 8)),
    *rows("schur", "sat", (110, 5)),
    *rows("schur", "unsat", (45, 4)),
    *rows("langford", "unsat", (9,)),
    *rows("golomb", "unsat", (7, 24)),
    *rows("cover", "", (40, 80, 10)),
    *rows("planted", "sat", (1500, 4.2, 3)),
]

REPORT = [
    # Hardware.
    *rows("pipeline", "unsat", (2, 5, 4, False), (4, 2, 5, False), (2, 6, 3, False), (4, 4, 4, False)),
    *rows("pipeline", "sat", (4, 8, 10, True), (8, 16, 7, True)),
    *rows("divider", "unsat", (8, False), (10, False)),
    *rows("divider", "sat", (11, True), (13, True), seeds=(3,)),
    *rows("popcount", "unsat", (17,), (20,)),
    *rows("sums", "unsat", (4, 9), (4, 11)),
    *rows("memory", "unsat", (16, 4, 30), (8, 16, 40)),
    *rows("coherence", "unsat", (3, 16, False), (5, 18, False)),
    *rows("coherence", "sat", (7, 36, True)),
    *rows("fifo", "unsat", (4, 8, 11), (8, 3, 12)),
    *rows("miter", "unsat", (30, 150), (40, 220), seeds=(5,)),
    *rows("multipliers", "unsat", (5,)),
    *rows("factors", "sat", (40009 * 60013, 16)),
    *rows("counters_differ", "unsat", (10, 200)),
    *rows("arbiter", "unsat", (8, 24, False)),
    *rows("arbiter", "sat", (16, 80, True)),
    *rows("gray", "unsat", (6, 32)),
    *rows("lock", "sat", (30, 16, 30), seeds=(2,)),
    # Ciphers and digests.
    *rows("md4", "sat", (24, 32, 22), (27, 32, 16), seeds=(4,)),
    *rows("sha", "sat", (20, 32, 15), (22, 32, 12), seeds=(4,)),
    *rows("speck", "sat", (7, 16, 22), (8, 16, 17), seeds=(3,)),
    *rows("simon", "sat", (9, 16, 17), seeds=(3,)),
    *rows("register", "sat", (40, 120, 3), seeds=(7,)),
    # Plans.
    *rows("pancakes", "sat", (9, 9, 8), (11, 13, 0), seeds=(2,)),
    *rows("pancakes", "unsat", (9, 7, 8), seeds=(2,)),
    *rows("sliding", "unsat", (20, 19), seeds=(3,)),
    *rows("sliding", "sat", (23, 23), seeds=(3,)),
    *rows("robots", "", (7, 12, 8, 6), (8, 14, 11, 12), seeds=(3,)),
    *rows("packages", "", (12, 10, 3, 10), (20, 12, 4, 10), seeds=(3,)),
    # Puzzles, designs and graphs.
    *rows("latin", "sat", (37, 576), (42, 740), seeds=(2,)),
    *rows("sudoku", "sat", (5, 215), seeds=(2,)),
    *rows("pebbling", "unsat", (60, 0), (7, 7), seeds=(2,)),
    *rows("clique_colouring", "unsat", (9, 5)),
    *rows("ordering", "unsat", (50,), seeds=(2,)),
    *rows("tseitin", "unsat", (19, 4), (44, 3), seeds=(2,)),
    *rows("isomorphism", "unsat", (30, 4, False), seeds=(2,)),
    *rows("isomorphism", "sat", (50, 3, True), seeds=(2,)),
    *rows("jobs", "", (8, 8, 46), (8, 8, 51), seeds=(3,)),
    *rows("packing", "sat", (15, 15, 12, False), seeds=(2,)),
    *rows("dominoes", "unsat", (10,), (12,)),
    *rows("progressions", "sat", (76, 3, 9), seeds=(2,)),
    *rows("progressions", "unsat", (77, 3, 9), seeds=(2,)),
    *rows("schur", "sat", (44, 4), (105, 5), seeds=(2,)),
    *rows("langford", "unsat", (10,)),
    *rows("langford", "sat", (28,)),
    *rows("golomb", "sat", (9, 44)),
    *rows("cover", "", (44, 90, 10), seeds=(3,)),
    *rows("round_trip", "", (50, 3), seeds=(2,)),
    *rows("tournament", "sat", (8,)),
    *rows("queens", "sat", (9, 11)),
    *rows("colouring", "", (350, 805), (110, 480, 4), seeds=(3,)),
    # Clauses at random.
    *rows("random_clauses", "", (230,), (75, 4, 9.9), (60, 5, 21.1), (50, 6, 43.4), (45, 7, 87.8), seeds=(11,)),
    *rows("random_clauses", "", (90, 4, 9.6), (5000, 3, 3.7), (240,), seeds=(12,)),
    *rows("planted", "sat", (1000, 4.2, 3), seeds=(2,)),
    *rows("easy_text", "sat", (1200000, 2700000)),
]

FRESH = [
    # Circuits that are built in two ways.
    *rows("shifters", "unsat", (6,), (7,), seeds=(2,)),
    *rows("carry_save", "unsat", (5, 8), (8, 3)),
    *rows("prefix_adders", "unsat", (5, 16)),
    *rows("crc", "unsat", (30, 20, 5)),
    *rows("leading_zeros", "unsat", (6,)),
    *rows("booth", "unsat", (7, False)),
    *rows("booth", "sat", (16, True)),
    *rows("karatsuba", "unsat", (7,)),
    *rows("square_roots", "unsat", (11,)),
    *rows("decimals", "unsat", (18,), (20,)),
    *rows("hamming", "unsat", (14, 1), (16, 1)),
    # Protocols and controllers.
    *rows("filter_lock", "unsat", (3, 20, False)),
    *rows("elevator", "unsat", (16, 60)),
    *rows("elevator", "sat", (16, 50)),
    *rows("token_ring", "sat", (8, 3, 42)),
    *rows("crossing", "sat", (4, 3, 40, 12)),
    *rows("cache", "unsat", (4, 4, 4, 6, False)),
    *rows("cache", "sat", (8, 4, 8, 30, True)),
    *rows("philosophers", "sat", (30, 90, True)),
    # Plans.
    *rows("hanoi", "sat", (6, 3, 63)),
    *rows("solitaire", "sat", (6, 20, False)),
    *rows("lights_out", "sat", (11, 40, 40)),
    *rows("blocks_world", "unsat", (24, 21)),
    *rows("cube", "unsat", (20, 7)),
    # Puzzles and designs.
    *rows("quasigroups", "unsat", (9, 3)),
    *rows("quasigroups", "sat", (13, 7)),
    *rows("steiner", "sat", (14, 4, 3), (16, 4, 2)),
    *rows("golfers", "unsat", (4, 3, 5)),
    *rows("golfers", "sat", (8, 4, 6)),
    *rows("nonograms", "sat", (25, 25, 0.5)),
    *rows("magic_squares", "sat", (5, 0)),
    *rows("magic_squares", "sat", (5, 6), seeds=(2,)),
    *rows("knights_tours", "unsat", (7, 7)),
    *rows("knights_tours", "sat", (8, 8)),
    *rows("life", "sat", (16, 0.4, 1), (22, 0.4, 1), (10, 0.4, 2)),
    *rows("still_life", "unsat", (7, 29)),
    *rows("still_life", "sat", (8, 36)),
    *rows("discrepancy", "sat", (400, 2), (600, 2)),
    *rows("pythagoras", "sat", (5200,)),
    # Counting and parity.
    *rows("ramsey", "unsat", (10, 3, 4)),
    *rows("relativised", "unsat", (7, 9)),
    *rows("onto_holes", "unsat", (8, 1), (5, 2)),
    *rows("even_colouring", "unsat", (26, 4, True)),
    *rows("torus", "unsat", (4, 7, True)),
    *rows("triples", "unsat", (46, 10)),
    *rows("two_counts", "unsat", (22, 11)),
    *rows("small_groups", "unsat", (17,), (20,)),
    *rows("one_of_five", "sat", (24,)),
    # Schedules and packing.
    *rows("bins", "sat", (5, 20, 50, 0), (6, 20, 100, 0)),
    *rows("bins", "unsat", (4, 12, 30, -1)),
    *rows("subset_sums", "unsat", (16, 16, 1)),
    *rows("timetables", "", (8, 8, 6, 12, 60)),
    *rows("rosters", "sat", (14, 21, 3, 3, 2)),
    *rows("car_sequences", "unsat", (40, 5, 10), seeds=(2,)),
    # Ciphers.
    *rows("present", "sat", (16, 6, 16, 2), (16, 8, 18, 2)),
    *rows("trivium", "sat", (48, 80, 200)),
    *rows("combiner", "sat", (100, 15, 17, 19), (120, 17, 19, 21)),
    *rows("sponge", "sat", (8, 2, 44)),
    *rows("feistel", "unsat", (16, 4, False)),
    *rows("feistel", "sat", (24, 6, True)),
    # Things that are learned.
    *rows("exact_synthesis", "sat", (5, 8, 12)),
    *rows("automata", "sat", (11, 11, 400, 16)),
]

FURTHER = [
    # Data flow, and ways on a grid.
    *rows("reaching", "", (1200, 40, 60, 150, False)),
    *rows("points_to", "", (40, 25, 200, 300, False)),
    *rows("routing", "sat", (24, 5, 60, 0)),
    # Orders of a graph's nodes.
    *rows("bandwidths", "sat", (46, 44, 7, False)),
    *rows("bandwidths", "", (26, 22, 6, True)),
    *rows("treewidths", "sat", (40, 220, 8)),
    *rows("grid_treewidths", "unsat", (4, 8, 3)),
    *rows("cutwidths", "", (20, 3, 4)),
    *rows("book_pages", "", (12, 40, 3), (14, 42, 3)),
    # Codes, and sets of words.
    *rows("parity_checks", "", (120, 6, 10, 2)),
    *rows("covering_codes", "sat", (2, 6, 12), (3, 4, 9)),
    *rows("weight_codes", "sat", (10, 4, 2, 20)),
    *rows("linear_codes", "sat", (18, 6, 8)),
    *rows("linear_codes", "", (13, 5, 6)),
    *rows("autocorrelations", "", (22, 2), (26, 2)),
    *rows("covering_arrays", "", (10, 5, 3)),
    *rows("haplotypes", "sat", (50, 40, 20, 0)),
    *rows("superstrings", "", (3, 12, 10, 50, 3)),
    *rows("superstrings", "sat", (3, 14, 10, 54, 0)),
    # Designs, and labels of graphs.
    *rows("costas_arrays", "sat", (15, 0)),
    *rows("queens_that_guard", "sat", (9, 5)),
    *rows("queens_that_guard", "unsat", (8, 4)),
    *rows("cliques", "sat", (100, 0.5, 12, 12), (140, 0.5, 13, 13)),
    *rows("subgraphs", "sat", (100, 3, 40, 0)),
    *rows("subgraphs", "", (100, 3, 30, 1)),
    *rows("edge_colourings", "", (300, 5, False)),
    *rows("edge_colourings", "unsat", (30, 4, True)),
    *rows("graceful_labels", "", (11, 25)),
    *rows("odd_pairs", "unsat", (13,)),
    # Things that are sought.
    *rows("sorting_networks", "sat", (8, 6)),
    *rows("matrix_products", "sat", (10,)),
    *rows("substitution_boxes", "sat", (4, 4)),
    *rows("edge_puzzles", "sat", (9, 6, False)),
    *rows("cell_rows", "sat", (140, 28, 110, 0)),
    *rows("gene_networks", "", (50, 3, 8)),
    # Ciphers and equations.
    *rows("quadratic_equations", "sat", (24, 28, 12, True)),
    *rows("quadratic_equations", "", (20, 30, 10, False), (24, 30, 12, False)),
    *rows("stop_and_go", "sat", (28, 8, 9, 10)),
    *rows("keeloq", "sat", (128, 2, 26)),
    # Circuits and programs that are made in two ways.
    *rows("field_products", "sat", (14, True)),
    *rows("field_products", "unsat", (8, False)),
    *rows("remainders", "unsat", (16, 7)),
    *rows("filters", "unsat", (3, 6)),
    *rows("bit_tricks", "unsat", (16,)),
    *rows("binary_searches", "unsat", (16, 8, False)),
    *rows("binary_searches", "sat", (64, 14, True)),
    *rows("heap_sinks", "unsat", (7, 6, 3, False)),
    *rows("text_matches", "unsat", (3, 10, 60)),
    # Protocols, plans and schedules.
    *rows("alternating_bits", "unsat", (22, 4, False)),
    *rows("ring_elections", "unsat", (4, 3, 12)),
    *rows("single_tracks", "", (10, 8, 4, 50)),
    *rows("live_ranges", "", (50, 7, 100, 10, 9)),
    *rows("partner_units", "", (24, 24, 8, 9, 3)),
    *rows("votes", "unsat", (2, 4, False)),
    *rows("votes", "sat", (2, 4, True)),
    # Large texts.
    *rows("implications", "sat", (1500000, 2900000, True)),
    *rows("implications", "", (2700000, 2900000, False)),
    *rows("horn_rules", "unsat", (700000, 1500000, True)),
    *rows("horn_rules", "sat", (700000, 1500000, False)),
    *rows("features", "sat", (300000, 1500000, 500, 0)),
    *rows("versions", "sat", (60000, 6, 4, 1, True)),
    *rows("reaching", "sat", (2700, 80, 200, 400, True)),
    *rows("points_to", "sat", (80, 70, 350, 300, True)),
    *rows("petri_nets", "sat", (150, 10, 1500, 120, 120, 0)),
    *rows("mines", "sat", (210, 0.2, 0.2, False)),
]

LISTS = {"tuning": TUNING, "report": REPORT, "fresh": FRESH, "further": FURTHER}


def count_of(clauses):
    """The greatest variable."""
    return max((abs(literal) for clause in clauses for literal in clause), default=0)


def lines_of(clauses):
    """The lines of a DIMACS file."""
    yield f"p cnf {count_of(clauses)} {len(clauses)}\n"
    for clause in clauses:
        yield f"{' '.join(map(str, [*clause, 0]))}\n"


# The list `new formulas`.


def formulas(rng):
    """The formulas of the list."""
    for _ in range(160):
        yield random_clauses(rng, min(rng.randint(20, 120) for _ in range(2)))
    for _ in range(60):
        variables = rng.randint(1, 12)
        yield mixed(rng, variables, rng.randint(0, 4 * variables))
    for _ in range(30):
        variables = rng.randint(3, 24)
        yield parity(rng, variables, variables - rng.randint(-1, 1))
    for size in range(3, 18):
        yield parity_chains(rng, size, rng.random() < 0.5)
    for _ in range(30):
        nodes = rng.randint(4, 30)
        yield colouring(rng, nodes, min(nodes * 23 // 10, nodes * (nodes - 1) // 2))
    for holes in range(7):
        yield pigeonhole(rng, holes)
    for _ in range(12):
        yield one_model(rng, rng.randint(2, 60))
    for clash in (True, False) * 6:
        yield units(rng, rng.randint(1, 80), clash)
    for ratio in (0.8, 0.9, 1.0, 1.1) * 3:
        yield random_clauses(rng, rng.randint(20, 80), 2, ratio)


def word(clause):
    """A clause as letters."""
    text, block = "", 0
    for literal in clause:
        digit, letter = divmod(abs(literal) - 1, 26)
        text += str(digit) * (digit != block) + chr(ord("A" if literal > 0 else "a") + letter)
        block = digit
    return text or "0"


def write_list():
    """Writes the list."""
    lines = [HEADER]
    with tempfile.TemporaryDirectory() as folder:
        path = Path(folder) / "formula.cnf"
        for clauses in formulas(random.Random(1971)):
            path.write_text("".join(lines_of(clauses)))
            run = answer("minisat", path)
            if run.what == "none" or (run.what == "sat" and not satisfies(run.model, clauses)):
                sys.exit(f"minisat has no answer to {clauses}")
            lines.append(" ".join(["cnf", *map(word, clauses), "->", run.what]))
    LIST.write_text("".join(f"{line}\n" for line in lines))


# Timing.


def clauses_of(path):
    """The clauses of a file, one after another."""
    clause = []
    with path.open() as lines:
        for line in lines:
            if not line.startswith(("c", "p")):
                for number in map(int, line.split()):
                    if number:
                        clause.append(number)
                    else:
                        yield clause
                        clause = []


def satisfies(model, clauses):
    """Whether each clause has a true literal. A variable of which nothing is said is false."""
    true = {literal for literal in model if literal > 0}
    return all(any((abs(literal) in true) == (literal > 0) for literal in clause) for clause in clauses)


class Run(NamedTuple):
    """What a program answers to a file, `sat`, `unsat` or `none`, and what it took; 0 where it does not count."""

    what: str
    seconds: float
    megabytes: float
    conflicts: int
    propagations: int
    model: list


def number_of(name, text):
    """The last number that stands in a text before a name, or behind it and a colon, or 0."""
    found = re.findall(rf"(\d+) {name}|^(?:c )?{name} *: *(\d+)", text, re.MULTILINE)
    return int(found[-1][0] or found[-1][1]) if found else 0


def spent():
    used = resource.getrusage(resource.RUSAGE_CHILDREN)
    return used.ru_utime + used.ru_stime


def answer(program, path, seconds=SECONDS, processor=None):
    words = shlex.split(program)

    def limit():
        resource.setrlimit(resource.RLIMIT_CPU, (math.ceil(seconds), math.ceil(seconds)))

    # `time` is small when it starts the program, as this process is not: what is resident before that counts as well.
    with tempfile.NamedTemporaryFile("r") as result, tempfile.NamedTemporaryFile("r") as peak, path.open() as formula:
        if Path(words[0]).name == "minisat":
            words += ["-verb=1", path, result.name]
        words = ["/usr/bin/time", "-f", "%M", "-o", peak.name, *words]
        if processor is not None:
            words = ["taskset", "-c", str(processor), *words]
        before = spent()
        run = subprocess.run(
            words, stdin=formula, stdout=subprocess.PIPE, stderr=subprocess.PIPE, text=True, preexec_fn=limit
        )
        took = spent() - before
        text = result.read() + run.stdout
        megabytes = int(peak.read().split()[-1]) / 1024
    what, model = "none", []
    if re.search(r"^(s )?UNSAT", text, re.MULTILINE):
        what = "unsat"
    elif re.search(r"^(s )?SAT", text, re.MULTILINE):
        what = "sat"
        lines = [line.removeprefix("v") for line in text.splitlines() if re.match(r"v |-?\d", line)]
        model = [int(word) for line in lines for word in line.split()]
    counts = [number_of(name, run.stdout + run.stderr) for name in ("conflicts", "propagations")]
    return Run(what, took, megabytes, *counts, model)


def measure(chosen, programs, seconds, processor, kept):
    """Runs the programs on the formulas, prints a line for each and then the tables, and tells how many answers were
    wrong."""
    faults, results = 0, []
    for name, family, known, path in chosen:
        runs = [answer(program, path, seconds, processor) for program in programs]
        given = {run.what for run in runs} - {"none"}
        fault = " ANSWERS DIFFER" * (len(given) > 1) + " AN ANSWER IS WRONG" * bool(known and given - {known})
        fault += " A MODEL IS WRONG" * any(
            run.what == "sat" and not satisfies(run.model, clauses_of(path)) for run in runs
        )
        faults += bool(fault)
        cells = "; ".join(
            f"{run.what} {run.seconds:.2f} s, {run.megabytes:.1f} MB, {run.conflicts} conflicts, "
            f"{run.propagations} propagations"
            for run in runs
        )
        print(f"{name}: {cells}{fault}", flush=True)
        result = {"name": name, "family": family, "limit": seconds}
        result["runs"] = {program: run[:-1] for program, run in zip(programs, runs)}
        results.append(result)
        if kept:
            with kept.open("a") as file:
                file.write(json.dumps(result) + "\n")
    print_tables(results)
    return faults


def print_tables(results):
    """The tables of some runs: of each program beside the first one."""
    programs = list(results[0]["runs"]) if results else []
    grouped = collections.defaultdict(list)
    for result in results:
        runs = [Run(*result["runs"][program], []) for program in programs]
        # A run without an answer counts as one that took the limit.
        runs = [run if run.what != "none" else run._replace(seconds=result["limit"]) for run in runs]
        grouped[result["family"]].append((result["limit"], runs))
    every = list(itertools.chain(*grouped.values()))
    table = dict(sorted(grouped.items())) | {"all": every}
    heads = [title(program, programs) for program in programs]
    print("\nSolved, and twice the limit for each that is not, with the seconds of the others")
    print_table(["Family", "Formulas", *heads], table, lambda group: map(solved, zip(*columns(group))))
    print(f"\nThe times of {heads[0]} by those of another: geometric mean (of satisfiable, of unsatisfiable ones; how many),")
    print(f"greatest ratio of unsatisfiable ones. These count where one took more than {NOISE} s and one has an answer")
    rest = range(1, len(programs))
    print_table(["Family", "Formulas", *heads[1:]], table, lambda group: (ratios(group, other) for other in rest))
    print("\nThe greatest memory in MB, in sum, of the formulas that all have answered")
    print_table(["Family", "Formulas", *heads], table, memory_of)
    print("\nConflicts, conflicts and propagations in a second, all in thousands")
    print_table(["Family", "Formulas", *heads], table, lambda group: map(rates_of, columns(group)[1]))


# Of two times below this the ratio is noise.
NOISE = 0.15


def title(program, programs):
    """The program's name, with its options where another has the same name."""
    short = [Path(shlex.split(other)[0]).name for other in programs]
    name = Path(shlex.split(program)[0]).name
    return name if short.count(name) == 1 else " ".join([name, *shlex.split(program)[1:]])


def print_table(heads, table, cells):
    print(f"| {' | '.join(heads)} |\n|{'---|' * len(heads)}")
    for family, group in table.items():
        print(f"| {' | '.join([family, str(len(group)), *cells(group)])} |")


def columns(group):
    """For each program: the limits and its runs."""
    limits, rows_of_runs = zip(*group)
    return [limits] * len(rows_of_runs[0]), list(zip(*rows_of_runs))


def solved(column):
    limits, runs = column
    left = sum(run.what == "none" for run in runs)
    par2 = sum(2 * limit if run.what == "none" else run.seconds for limit, run in zip(limits, runs))
    return f"{len(runs) - left}, {par2:.1f} s"


def ratios(group, other):
    logs = {"sat": [], "unsat": []}
    for _, runs in group:
        pair = (runs[0], runs[other])
        what = ({run.what for run in pair} - {"none"} or {"none"}).pop()
        if what != "none" and max(run.seconds for run in pair) > NOISE:
            logs[what].append(math.log(max(pair[0].seconds, 0.01) / max(pair[1].seconds, 0.01)))
    means = [mean(part) for part in (logs["sat"] + logs["unsat"], logs["sat"], logs["unsat"])]
    worst = f"{math.exp(max(logs['unsat'])):.2f}" if logs["unsat"] else "-"
    return f"{means[0]} ({means[1]}, {means[2]}; {len(logs['sat'])} + {len(logs['unsat'])}), {worst}"


def mean(logs):
    return f"{math.exp(sum(logs) / len(logs)):.2f}" if logs else "-"


def memory_of(group):
    done = [runs for _, runs in group if all(run.what != "none" for run in runs)]
    count = len(group[0][1])
    return [f"{sum(runs[k].megabytes for runs in done):.0f}" for k in range(count)]


def rates_of(runs):
    conflicts, propagations = (sum(getattr(run, name) for run in runs) for name in ("conflicts", "propagations"))
    seconds = sum(run.seconds for run in runs) or math.inf
    return f"{conflicts / 1000:.0f}, {conflicts / seconds / 1000:.1f}, {propagations / seconds / 1000:.0f}"


def check(chosen, gipsat, peer):
    """Prints for each formula that is refuted how long it took to refute it and to check the proof, and the proof's size;
    tells how many proofs were refused."""
    faults = 0
    for name, _, _, path in chosen:
        with tempfile.NamedTemporaryFile() as proof:
            words = [*peer, path, proof.name] if peer else [*gipsat, "--proof", proof.name, path]
            status, solving = timed(words)[1:]
            if status != 20:
                print(f"{name}: status {status} in {solving:.2f} s", flush=True)
                continue
            size = Path(proof.name).stat().st_size
            text, status, checking = timed([gipsat[0], "--check", path, proof.name])
            faults += (text, status) != ("s VERIFIED\n", 0)
            print(f"{name}: {solving:.2f} s, {size} bytes, {checking:.2f} s, {text.strip()}", flush=True)
    print(f"{faults} refused")
    return faults


def timed(words):
    """The output of a program, its status, and its processor time."""

    def limit():
        resource.setrlimit(resource.RLIMIT_CPU, (SECONDS, SECONDS))

    before = spent()
    run = subprocess.run(words, stdout=subprocess.PIPE, stderr=subprocess.DEVNULL, text=True, preexec_fn=limit)
    return run.stdout, run.returncode, spent() - before


# The command line.


def choose(words):
    """The formulas that the words choose: their names, families, what is known of them, and a file of each, which stands
    until the next one is asked for."""
    source = words.formulas
    if source in LISTS:
        found = [(row.name, row.family, row.known, row) for row in LISTS[source]]
    else:
        paths = sorted(Path(source).glob("*.cnf"), key=lambda path: re.sub(r"\d+", lambda m: m[0].zfill(6), path.name))
        found = [(path.stem, path.stem.split("-")[0], "", path) for path in paths]
    if words.family:
        found = [entry for entry in found if entry[1].startswith(tuple(words.family.split(",")))]
    found = found[words.skip :]
    if words.sample and words.sample < len(found):
        found = [found[k * len(found) // words.sample] for k in range(words.sample)]
    for name, family, known, made in found:
        if isinstance(made, Path):
            yield name, family, known, made
            continue
        with tempfile.TemporaryDirectory() as folder:
            path = Path(folder) / f"{name}.cnf"
            made.write(path)
            yield name, family, known, path


def parse(words):
    parser = argparse.ArgumentParser(description=__doc__, formatter_class=argparse.RawDescriptionHelpFormatter)
    mode = parser.add_mutually_exclusive_group(required=True)
    mode.add_argument("--list", action="store_true")
    mode.add_argument("--write", metavar="FOLDER", type=Path)
    mode.add_argument("--time", action="store_true")
    mode.add_argument("--table", nargs="+", metavar="FILE", type=Path)
    mode.add_argument("--check", action="store_true")
    parser.add_argument("formulas", nargs="?", metavar="FORMULAS")
    parser.add_argument("programs", nargs="*", metavar="PROGRAM")
    parser.add_argument("--family", metavar="NAME,..")
    parser.add_argument("--sample", type=int, metavar="N")
    parser.add_argument("--skip", type=int, default=0, metavar="N")
    parser.add_argument("--limit", type=float, default=30, metavar="SECONDS")
    parser.add_argument("--processor", type=int, metavar="N")
    parser.add_argument("--keep", type=Path, metavar="FILE")
    found = parser.parse_intermixed_args(words)
    if (found.write or found.time or found.check) and not found.formulas:
        parser.error(f"FORMULAS are wanted: a folder, or one of {', '.join(LISTS)}")
    if found.formulas and found.formulas not in LISTS and not Path(found.formulas).is_dir():
        parser.error(f"'{found.formulas}' is neither a folder nor one of {', '.join(LISTS)}")
    least, most = (1, None) if found.time else (1, 2) if found.check else (0, 0)
    if len(found.programs) < least:
        parser.error("a program is wanted behind FORMULAS")
    if most is not None and len(found.programs) > most:
        parser.error(f"one word too many: '{found.programs[most]}'")
    for program in found.programs:
        if not shutil.which((shlex.split(program) or [""])[0]):
            parser.error(f"there is no program '{program}'")
    if (found.list or found.table) and found.formulas:
        parser.error(f"one word too many: '{found.formulas}'")
    return found


def main():
    words = parse(sys.argv[1:])
    if words.list:
        write_list()
    elif words.table:
        print_tables([json.loads(line) for path in words.table for line in path.read_text().splitlines()])
    elif words.write:
        words.write.mkdir(parents=True, exist_ok=True)
        for name, _, _, path in choose(words):
            shutil.copy(path, words.write / f"{name}.cnf")
    elif words.time:
        sys.exit(measure(choose(words), words.programs, words.limit, words.processor, words.keep) > 0)
    else:
        gipsat, *peer = map(shlex.split, words.programs)
        sys.exit(check(choose(words), gipsat, peer[0] if peer else []) > 0)


if __name__ == "__main__":
    main()
