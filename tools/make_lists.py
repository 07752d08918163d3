#!/usr/bin/env python3
"""Makes the lists of calls that giputils_replay runs, and asks another program for the answers.

    tools/make_lists.py PROGRAM       writes stdin and stdout of the crate, and tests/lists/tables.txt
    tools/make_lists.py --rows        writes anew the lists of tools/rows alone, which come first in stdin and stdout

A file of tools/rows has lists that were written by hand, each with what it shows: a line `new NAME TITLE`, and then
lines `CALL -> ANSWER`. Lines that begin with `#` and empty lines are left out.

Each list begins with a line `new NAME ..` and is for a container of its own, which is empty at first. PROGRAM is run
once for each list, with the words after `new` as its arguments. It reads the list's other lines and answers each with
one line. The answer to `new NAME ..` is that line itself, so that line n of stdout is the answer to line n of stdin.

The kept answers come from a program over the Rust crate giputils 0.3.6 that makes each call of a list on the crate's
own container (command: `tools/make_lists.py giputils-oracle`). A call whose condition doesn't hold it answers by
`skipped`, without making it. What it answers of a heap is compared with what a set of keys with ranks would.

The list `new texts` is of questions on statistics. PROGRAM isn't asked: lib/texts.py answers. Nor
is it of the lists `new solver ..` and `new tables ..`, which lib/solver_lists.py makes with their answers.

Each sort of list comes from a seed of its own, so that a change of one sort leaves the others as they are.
"""

import argparse
import random
import shutil
import subprocess
import sys
from pathlib import Path

from lib import solver_lists, texts

ROOT = Path(__file__).resolve().parent.parent

TABLES = ROOT / "tests" / "lists" / "tables.txt"

# The folder of the program that runs the lists.
REPLAY = ROOT / "trials" / "giputils_replay"

# The files of tools/rows, and the first line behind their lists.
ROWS = tuple(ROOT / "tools" / "rows" / f"{name}.txt" for name in ("base", "bits", "solver"))

FIRST = "new galloc"

LARGEST_VALUE = 2**32 - 1

# How often each call of the index allocator comes.
GALLOC_WEIGHTS = {
    "alloc": 40,
    "dealloc": 20,
    "write": 10,
    "read": 10,
    "is_removed": 8,
    "gc": 8,
    "len": 4,
}


def galloc_list(rng):
    """Calls of an index allocator. It keeps track of the marks, so that most indexes are in range."""
    marks = []
    yield "new galloc"
    for _ in range(rng.randint(1, 30)):
        (name,) = rng.choices(list(GALLOC_WEIGHTS), list(GALLOC_WEIGHTS.values()))
        value = LARGEST_VALUE if rng.random() < 0.05 else rng.randrange(1000)
        if marks and rng.random() < 0.9:
            index = rng.randrange(len(marks))
        else:
            index = len(marks) + rng.randrange(3)
        if name == "alloc":
            marks.append(False)
            yield f"alloc {value}"
        elif name == "write":
            yield f"write {index} {value}"
        elif name in ("dealloc", "read", "is_removed"):
            if name == "dealloc" and index < len(marks):
                marks[index] = True
            yield f"{name} {index}"
        else:
            if name == "gc":
                marks = [mark for mark in marks if not mark]
            yield name


# How often each call of a bit vector comes.
BITS_WEIGHTS = {
    "push": 20,
    "push_word": 10,
    "extend": 12,
    "set": 12,
    "get": 10,
    "make": 6,
    "clear": 2,
    "iter": 6,
    "ask": 22,
}

BITS_QUESTIONS = ["len", "word_len", "to_usize", "is_empty", "is_zero", "is_one", "is_ones", "try_bool"]

# Lengths at the ends of words.
BITS_LENGTHS = [1, 2, 63, 64, 65, 127, 128, 129, 200]


def bits_list(rng):
    """Calls of a bit vector. It keeps track of the length, so that most indexes are in range and words are pushed where
    the Rust crate takes them."""
    length = 0
    yield "new bits"
    for _ in range(rng.randint(1, 40)):
        (name,) = rng.choices(list(BITS_WEIGHTS), list(BITS_WEIGHTS.values()))
        bit = rng.randrange(2)
        index = rng.randrange(length + 2) if rng.random() < 0.1 or not length else rng.randrange(length)
        if name == "push_word" and length % 64 == 0:
            length += 64
            yield f"push_word {rng.choice([0, 1, rng.randrange(2**64), 2**64 - 1])}"
        elif name in ("push", "push_word"):
            length += 1
            yield f"push {bit}"
        elif name == "extend":
            items = rng.choices("01", k=rng.choice([1, 3, 20, 64 - length % 64, 70, 130]))
            length += len(items)
            yield f"extend {''.join(items)}"
        elif name == "set":
            yield f"set {index} {bit}"
        elif name == "get":
            yield f"get {index}"
        elif name == "make":
            length = rng.choice(BITS_LENGTHS)
            yield rng.choice(
                [
                    f"from_elem {length} {bit}",
                    f"zero {length}",
                    f"ones {length}",
                    f"one {length}",
                    f"from_usize {length} {rng.choice([0, 1, 12345, 2**64 - 1])}",
                    f"from {''.join(rng.choices('01', k=length))}",
                ]
            )
        elif name == "clear":
            length = 0
            yield "clear"
        elif name == "iter":
            yield f"iter {''.join(rng.choices('nb', k=rng.randint(1, 12)))}"
        else:
            yield rng.choice(BITS_QUESTIONS)


# How often each call of logic and each text comes.
LOGIC_WEIGHTS = {
    "and": 10,
    "or": 10,
    "xor": 10,
    "invert": 10,
    "change": 10,
    "text": 30,
}


def logic_list(rng):
    """Calls of logic on a bit vector, and its texts. It keeps track of the length, so that most vectors have the right one."""
    length = rng.choice(BITS_LENGTHS)
    yield "new bits"
    yield f"from {''.join(rng.choices('01', k=length))}"
    for _ in range(rng.randint(1, 20)):
        (name,) = rng.choices(list(LOGIC_WEIGHTS), list(LOGIC_WEIGHTS.values()))
        if name in ("and", "or", "xor"):
            other = length if rng.random() < 0.9 else rng.choice(BITS_LENGTHS)
            yield f"{name} {''.join(rng.choices('01', k=other))}"
        elif name == "change" and rng.random() < 0.5:
            yield f"set {rng.randrange(length)} {rng.randrange(2)}"
        elif name == "change":
            length += 1
            yield f"push {rng.randrange(2)}"
        elif name == "text":
            yield rng.choice(["bin", "hex", "HEX"])
        else:
            yield name


# Vectors at the ends of words, and what is asked of them. Each is a list of its own.
BITS_ROWS = [
    ["from_usize 10 12345", "to_usize", "len", "bin", "hex", "HEX"],
    ["from_usize 64 12345", "to_usize", "word_len", "bin", "hex", "HEX"],
    ["from_usize 128 12345", "to_usize", "word_len", "bin", "hex"],
    ["from_usize 70 18446744073709551615", "to_usize", "word_len", "bin", "hex"],
    ["push_word 18446744073709551615", "push_word 1", "len", "word_len", "to_usize", "bin", "hex", "HEX"],
    ["ones 65", "len", "word_len", "is_ones", "bin", "hex", "HEX", "invert", "is_zero", "bin", "hex"],
    ["from_elem 65 1", "is_ones", "bin", "invert", "invert", "is_ones", "push 1", "is_ones", "bin"],
    ["bin", "hex", "HEX", "len", "word_len", "to_usize", "is_empty", "try_bool", "invert", "bin"],
    ["push 1", "from_elem 0 1", "bin", "hex", "len", "word_len", "to_usize", "is_empty", "try_bool"],
    ["from 10101", "get 0", "get 1", "get 2", "get 3", "get 4", "get 5", "iter nnnnnn"],
    ["from 10110", "bin", "iter nbnn", "iter nnnnnn", "iter bbbbbb", "len"],
    ["from 10110100", "iter nbnbnbnbnb", "iter bnbnbnbnbn"],
    ["extend 101", "extend 01", "len", "bin", "get 3", "get 4"],
    ["extend " + "10" * 35, "len", "word_len", "to_usize", "bin", "hex", "push 1", "extend " + "1" * 58, "len", "bin"],
    ["one 65", "word_len", "to_usize", "is_one", "set 64 1", "is_one", "is_ones", "set 0 0", "set 64 0", "is_zero", "hex"],
    ["ones 65", "clear", "len", "word_len", "bin", "push 1", "len", "is_one", "is_ones", "bin"],
    ["from_elem 3 1", "invert", "hex", "from 111" + "0" * 61, "hex", "invert", "hex"],
]


def row_lists():
    """The hand-written lists."""
    for row in BITS_ROWS:
        yield ["new bits", *row]


HEAP_KEYS = 64

# How often each call of the heap comes. After `rank KEY RANK` comes `update KEY`.
HEAP_WEIGHTS = {
    "push": 34,
    "pop": 16,
    "rank": 14,
    "update": 4,
    "up": 4,
    "down": 4,
    "clear": 2,
    "len": 5,
    "is_empty": 5,
    "elements": 6,
}


def heap_list(rng):
    """Calls of a heap. It keeps track of the held keys, so that most calls name one of them.

    Keys are compared by rank and then by number, so no two are alike; and each `rank KEY RANK` is followed by
    `update KEY`, so that the heap stays in order. So each pop has one right answer.
    """
    ranks = [0] * HEAP_KEYS
    held = set()
    calls_left = rng.randint(5, 30)
    yield "new heap"
    while calls_left > 0:
        (name,) = rng.choices(list(HEAP_WEIGHTS), list(HEAP_WEIGHTS.values()))
        if name == "rank" and calls_left == 1:
            name = "pop"
        if name != "push" and held and rng.random() < 0.7:
            key = rng.choice(sorted(held))
        else:
            key = rng.randrange(HEAP_KEYS)
        calls_left -= 1
        if name == "rank":
            ranks[key] = rng.randrange(LARGEST_VALUE + 1) if rng.random() < 0.5 else rng.randrange(4)
            calls_left -= 1
            yield f"rank {key} {ranks[key]}"
            yield f"update {key}"
        elif name in ("push", "update", "up", "down"):
            if name == "push":
                held.add(key)
            yield f"{name} {key}"
        else:
            if name == "pop" and held:
                held.remove(first_of(held, ranks))
            elif name == "clear":
                held.clear()
            yield name


# How often each call of a heap comes whose ranks change.
REPAIR_WEIGHTS = {
    "rank": 40,
    "push": 10,
    "pop": 10,
    "elements": 4,
    "len": 2,
}


def repair_list(rng):
    """Calls of a heap in which ranks of held keys change, and the order is repaired by one call each: `up` or `update`
    where a rank rose, `down` or `update` where it fell. In the end all keys are popped."""
    ranks = [0] * HEAP_KEYS
    held = set()
    yield "new heap"
    for key in rng.sample(range(HEAP_KEYS), rng.randint(3, HEAP_KEYS)):
        ranks[key] = rng.randrange(100)
        held.add(key)
        yield f"rank {key} {ranks[key]}"
        yield f"push {key}"
    for _ in range(rng.randint(5, 30)):
        (name,) = rng.choices(list(REPAIR_WEIGHTS), list(REPAIR_WEIGHTS.values()))
        key = rng.choice(sorted(held)) if held and rng.random() < 0.9 else rng.randrange(HEAP_KEYS)
        if name == "rank":
            rank = rng.choice([0, rng.randrange(100), rng.randrange(100), LARGEST_VALUE])
            repairs = ["update"] + ["up"] * (rank >= ranks[key]) + ["down"] * (rank <= ranks[key])
            ranks[key] = rank
            yield f"rank {key} {rank}"
            yield f"{rng.choice(repairs)} {key}"
        elif name == "push":
            held.add(key)
            yield f"push {key}"
        else:
            if name == "pop" and held:
                held.remove(first_of(held, ranks))
            yield name
    for _ in range(len(held) + 1):
        yield "pop"


def first_of(held, ranks):
    """The key that a pop takes."""
    return max(held, key=lambda key: (ranks[key], key))


def heap_answers(calls):
    """What a heap answers that is in order whenever a key is popped: a set of keys with ranks."""
    ranks = [0] * HEAP_KEYS
    held = set()
    for call in calls:
        name, *numbers = call.split()
        if name == "pop":
            answer = first_of(held, ranks) if held else "none"
            held.discard(answer)
        elif name == "len":
            answer = len(held)
        elif name == "is_empty":
            answer = "false" if held else "true"
        elif name == "elements":
            answer = f"[{' '.join(map(str, sorted(held)))}]"
        else:
            if name == "push":
                held.add(int(numbers[0]))
            elif name == "rank":
                ranks[int(numbers[0])] = int(numbers[1])
            elif name == "clear":
                held.clear()
            answer = "ok"
        yield str(answer)


def text_list(rng):
    """Questions on statistics."""
    yield "new texts"
    for words in texts.questions(rng):
        yield " ".join(map(str, words))


# What makes one list, how many lists, and the seed.
SORTS = [
    (galloc_list, 300, 36),
    (bits_list, 300, 64),
    (heap_list, 300, 64),
    (logic_list, 100, 65),
    (repair_list, 60, 66),
    (text_list, 1, 79),
]


def all_lists():
    for make_list, count, seed in SORTS:
        rng = random.Random(seed)
        for _ in range(count):
            yield list(make_list(rng))
    yield from row_lists()


def answers_of(program, header, calls):
    """What the program answers to one list's calls, or what texts.py does."""
    if header == "new texts":
        return [texts.text(call) for call in calls]
    text = "".join(f"{call}\n" for call in calls)
    arguments = header.split()[1:]
    run = subprocess.run([program, *arguments], input=text, stdout=subprocess.PIPE, text=True, check=True)
    answers = run.stdout.splitlines()
    if len(answers) != len(calls):
        sys.exit(f"{header}: {len(answers)} answers to {len(calls)} calls")
    if header == "new heap" and answers != list(heap_answers(calls)):
        sys.exit(f"{header}: the program and a set of keys with ranks answer differently")
    return answers


def rows_of(path):
    """The lists of a file of tools/rows, as lines with their answers. The answer to a list's first line is that line."""
    for number, line in enumerate(path.read_text(encoding="utf-8").splitlines(), 1):
        call, arrow, answer = line.partition(" -> ")
        if line.startswith("new ") and len(line.split()) > 2:
            yield line, line
        elif arrow:
            yield call, answer
        elif line and not line.startswith("#"):
            sys.exit(f"{path}:{number}: neither 'new NAME TITLE' nor 'CALL -> ANSWER'")


def hand_written():
    """The lists of the files of tools/rows."""
    return [line for path in ROWS for line in rows_of(path)]


def stored_lines():
    """The lines of all lists that the program is run on, with their answers."""
    calls, answers = ((REPLAY / name).read_text(encoding="utf-8").splitlines() for name in ("stdin", "stdout"))
    return list(zip(calls, answers, strict=True))


def generated():
    """The stored lines behind those that were written by hand."""
    lines = stored_lines()
    return lines[lines.index((FIRST, FIRST)) :]


def write(generated):
    """Writes the lists that were written by hand, and others behind them."""
    lines = [*hand_written(), *generated]
    for place, name in enumerate(("stdin", "stdout")):
        (REPLAY / name).write_text("".join(f"{line[place]}\n" for line in lines), encoding="utf-8")


def main():
    parser = argparse.ArgumentParser(description=__doc__, formatter_class=argparse.RawDescriptionHelpFormatter)
    source = parser.add_mutually_exclusive_group(required=True)
    source.add_argument("--rows", action="store_true")
    source.add_argument("program", nargs="?", metavar="PROGRAM")
    asked = parser.parse_args()
    if asked.rows:
        write(generated())
        return
    if not shutil.which(asked.program):
        parser.error(f"there is no program '{asked.program}'")
    lists, tables = [], []
    for header, *calls in all_lists():
        lists += [(header, header), *zip(calls, answers_of(asked.program, header, calls))]
    for header, calls, wanted in solver_lists.lists():
        if header.startswith("new tables"):
            tables += [header, *(f"{call} -> {answer}" for call, answer in zip(calls, wanted))]
        else:
            lists += [(header, header), *zip(calls, wanted)]
    write(lists)
    TABLES.write_text("".join(f"{line}\n" for line in tables), encoding="utf-8")


if __name__ == "__main__":
    main()
