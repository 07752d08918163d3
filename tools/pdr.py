#!/usr/bin/env python3
"""Times gipmc beside abc's pdr, on families of circuits.

    tools/pdr.py SECONDS GIPMC [OPTION]..  GIPMC is the built program; `--engine ic3` times IC3 alone
    tools/pdr.py --family NAME SIZE        prints a circuit

The program gets the name of a file in AIGER's binary form as its last word, and writes a first line `0` where the
circuit is safe, and `1` where it fails.
Each runs for so many seconds of processor time. A row has the latches and gates, both answers and both times. The last
line has how many circuits each decided, and the geometric mean of the ratio of the times, where both decided and one of
them took a tenth of a second.
"""
import argparse
import itertools
import math
import os
import random
import re
import resource
import shutil
import subprocess
import sys
import tempfile

from circuits import FAMILIES, Circuit, binary


def registers(c, count, value=0):
    """So many latches, which begin at the digits of a number, the low one first."""
    return [c.latch(value >> i & 1) for i in range(count)]


def set_next(c, latches, literals):
    for latch, literal in zip(latches, literals, strict=True):
        c.next(latch, literal)


def constant(value, count):
    return [value >> i & 1 for i in range(count)]


def decrement(c, digits):
    return [x ^ 1 for x in c.increment([y ^ 1 for y in digits], 1)]


def is_equal(c, xs, ys):
    return c.all([c.xor(x, y) ^ 1 for x, y in zip(xs, ys, strict=True)])


def is_less(c, xs, ys):
    less = 0
    for x, y in zip(xs, ys, strict=True):
        less = c.mux(c.xor(x, y), y, less)
    return less


def any_of(c, literals):
    found = 0
    for l in literals:
        found = c.disj(found, l)
    return found


def two_of(c, literals):
    one = two = 0
    for l in literals:
        two = c.disj(two, c.conj(one, l))
        one = c.disj(one, l)
    return two


def first_of(c, inputs):
    """For each input whether it is the first one that is true."""
    return [c.all([x, *(y ^ 1 for y in inputs[:i])]) for i, x in enumerate(inputs)]


def up_or_down(c, digits, up, down):
    """The next digits of a counter."""
    more, less = c.increment(digits, 1), decrement(c, digits)
    return [
        c.mux(c.conj(up, down ^ 1), a, c.mux(c.conj(down, up ^ 1), b, x))
        for a, b, x in zip(more, less, digits, strict=True)
    ]


def lossy_arbiter(c, n):
    """The token of an arbiter is doubled once a counter of requests is full."""
    asks = [c.input() for _ in range(n)]
    turn, grants = registers(c, n, 1), registers(c, n)
    count = registers(c, 5)
    set_next(c, count, c.increment(count, asks[0]))
    full = c.equal(count, 31)
    for i in range(n):
        c.next(turn[i], c.disj(turn[i - 1], c.conj(full, turn[i])))
        c.next(grants[i], c.conj(asks[i], turn[i]))
    c.bads.append(two_of(c, grants))


def queue_ends(c, n, width):
    """The ends and the length of a queue of n items: head, tail, length, and whether it is pushed and popped."""
    push, pop = c.input(), c.input()
    head, tail, length = registers(c, width), registers(c, width), registers(c, width + 1)
    pushed = c.conj(push, c.equal(length, n) ^ 1)
    popped = c.conj(pop, c.equal(length, 0) ^ 1)
    set_next(c, tail, c.increment(tail, pushed))
    set_next(c, head, c.increment(head, popped))
    set_next(c, length, up_or_down(c, length, pushed, popped))
    return head, tail, length, pushed, popped


def queue_length(c, n):
    """The length of a queue is the distance of its ends."""
    width = n.bit_length()
    head, tail, length, _, _ = queue_ends(c, 2 ** width, width)
    distance, carry = [], 1
    for x, y in zip(tail, head, strict=True):
        distance.append(c.xor(c.xor(x, y ^ 1), carry))
        carry = c.disj(c.conj(x, y ^ 1), c.conj(carry, c.xor(x, y ^ 1)))
    wrong = is_equal(c, distance, length[:width]) ^ 1
    c.bads.append(c.disj(wrong, is_less(c, constant(2 ** width, width + 1), length)))


def queue_data(c, n):
    """An item that was marked comes out of a queue as it went in."""
    mark, item = c.input(), c.input()
    width = (n - 1).bit_length()
    head, tail, length, pushed, popped = queue_ends(c, n, width)
    items = registers(c, n)
    for i, latch in enumerate(items):
        c.next(latch, c.mux(c.conj(pushed, c.equal(tail, i)), item, latch))
    out = any_of(c, [c.conj(c.equal(head, i), latch) for i, latch in enumerate(items)])
    is_marked, value = c.latch(), c.latch()
    before = registers(c, width + 1)
    begins = c.all([mark, pushed, is_marked ^ 1])
    ends = c.all([is_marked, popped, c.equal(before, 0)])
    c.next(value, c.mux(begins, item, value))
    c.next(is_marked, c.mux(begins, 1, c.mux(ends, 0, is_marked)))
    now, less = decrement(c, length), decrement(c, before)
    for i, latch in enumerate(before):
        at_first = c.mux(popped, now[i], length[i])
        c.next(latch, c.mux(begins, at_first, c.mux(c.conj(is_marked, popped), less[i], latch)))
    c.bads.append(c.conj(ends, c.xor(out, value)))


def open_lock(c, n):
    """A lock that opens after n digits."""
    digit = [c.input() for _ in range(3)]
    rng = random.Random(n)
    place = registers(c, n.bit_length())
    hit = any_of(c, [c.conj(c.equal(place, i), c.equal(digit, rng.randrange(8))) for i in range(n)])
    is_open = c.equal(place, n)
    set_next(c, place, c.increment(place, c.conj(hit, is_open ^ 1)))
    c.bads.append(is_open)


def mutex(c, n):
    """Processes that take one lock."""
    chosen = first_of(c, [c.input() for _ in range(n)])
    lock = c.latch()
    wants, holds = registers(c, n), registers(c, n)
    taken, freed = [], []
    for s, want, hold in zip(chosen, wants, holds, strict=True):
        take = c.all([s, want, hold ^ 1, lock ^ 1])
        free = c.conj(s, hold)
        c.next(want, c.mux(c.all([s, want ^ 1, hold ^ 1]), 1, c.mux(free, 0, want)))
        c.next(hold, c.mux(take, 1, c.mux(free, 0, hold)))
        taken.append(take)
        freed.append(free)
    c.next(lock, c.mux(any_of(c, taken), 1, c.mux(any_of(c, freed), 0, lock)))
    c.bads.append(two_of(c, holds))


def ticket_lock(c, n):
    """Processes that take tickets."""
    chosen = first_of(c, [c.input() for _ in range(n)])
    width = n.bit_length()
    served, next_ticket = registers(c, width), registers(c, width)
    drawn, left, inside = [], [], []
    for s in chosen:
        waits, enters = c.latch(), c.latch()
        ticket = registers(c, width)
        draws = c.all([s, waits ^ 1, enters ^ 1])
        goes = c.all([s, waits, is_equal(c, ticket, served)])
        leaves = c.conj(s, enters)
        c.next(waits, c.mux(draws, 1, c.mux(goes, 0, waits)))
        c.next(enters, c.mux(goes, 1, c.mux(leaves, 0, enters)))
        set_next(c, ticket, [c.mux(draws, y, x) for x, y in zip(ticket, next_ticket, strict=True)])
        drawn.append(draws)
        left.append(leaves)
        inside.append(enters)
    set_next(c, next_ticket, c.increment(next_ticket, any_of(c, drawn)))
    set_next(c, served, c.increment(served, any_of(c, left)))
    c.bads.append(two_of(c, inside))


def peterson(c, n):
    """n pairs of processes by Peterson's algorithm."""
    both = []
    for _ in range(n):
        choice, turn = c.input(), c.latch()
        wants, inside = registers(c, 2), registers(c, 2)
        asks = []
        for i in range(2):
            chosen = choice ^ i
            ask = c.all([chosen, wants[i] ^ 1, inside[i] ^ 1])
            may = c.disj(wants[1 - i] ^ 1, turn ^ 1 ^ i)
            go = c.all([chosen, wants[i], inside[i] ^ 1, may])
            leave = c.all([chosen, wants[i], inside[i]])
            c.next(wants[i], c.mux(ask, 1, c.mux(leave, 0, wants[i])))
            c.next(inside[i], c.mux(go, 1, c.mux(leave, 0, inside[i])))
            asks.append(ask)
        c.next(turn, c.mux(asks[0], 1, c.mux(asks[1], 0, turn)))
        both.append(c.all(inside))
    c.bads.append(any_of(c, both))


def coherence(c, n):
    """Caches by the MSI protocol; one asks for the line at each moment, to read or to write it."""
    chosen, writes = first_of(c, [c.input() for _ in range(n)]), c.input()
    shared, modified = registers(c, n), registers(c, n)
    for i in range(n):
        others = any_of(c, chosen[:i] + chosen[i + 1:])
        valid = c.disj(shared[i], modified[i])
        c.next(modified[i], c.mux(c.conj(chosen[i], writes), 1, c.mux(others, 0, modified[i])))
        after = c.mux(others, c.conj(valid, writes ^ 1), shared[i])
        c.next(shared[i], c.mux(chosen[i], writes ^ 1, after))
    c.bads.append(any_of(c, [
        c.conj(modified[i], c.disj(shared[j], modified[j])) for i, j in itertools.permutations(range(n), 2)
    ]))


def parity_memory(c, n):
    """Words of a memory, each with its parity."""
    address = [c.input() for _ in range((n - 1).bit_length())]
    data, write = [c.input() for _ in range(4)], c.input()
    parity = 0
    for x in data:
        parity = c.xor(parity, x)
    wrong = []
    for i in range(n):
        row = registers(c, 5)
        hit = c.equal(address, i)
        set_next(c, row, [c.mux(c.conj(write, hit), x, l) for x, l in zip([*data, parity], row, strict=True)])
        sum_ = 0
        for l in row:
            sum_ = c.xor(sum_, l)
        wrong.append(c.conj(hit, sum_))
    c.bads.append(any_of(c, wrong))


def elevator(c, n):
    """The door is shut while it moves, and it stays between its floors."""
    up, down, opens = c.input(), c.input(), c.input()
    floor = registers(c, n.bit_length())
    door, moves, rises = c.latch(), c.latch(), c.latch()
    still = c.conj(door ^ 1, moves ^ 1)
    goes_up = c.all([up, still, c.equal(floor, n) ^ 1])
    goes_down = c.all([down, up ^ 1, still, c.equal(floor, 0) ^ 1])
    c.next(moves, c.disj(goes_up, goes_down))
    c.next(rises, c.mux(goes_up, 1, c.mux(goes_down, 0, rises)))
    set_next(c, floor, up_or_down(c, floor, c.conj(moves, rises), c.conj(moves, rises ^ 1)))
    c.next(door, c.all([opens, moves ^ 1, goes_up ^ 1, goes_down ^ 1]))
    c.bads.append(c.disj(c.conj(door, moves), is_less(c, constant(n, n.bit_length()), floor)))


def modulo_counter(c, n):
    """A counter that wraps before its last value."""
    step, count = c.input(), registers(c, n)
    wraps = c.equal(count, 2 ** n - 3)
    more = c.increment(count, 1)
    set_next(c, count, [c.mux(step, c.conj(wraps ^ 1, a), x) for a, x in zip(more, count, strict=True)])
    c.bads.append(c.equal(count, 2 ** n - 1))


def token_ring(c, n):
    """Stations that hold a token or pass it on."""
    holds = [c.input() for _ in range(n)]
    token, busy = registers(c, n, 1), registers(c, n)
    for i in range(n):
        keeps = c.conj(token[i], holds[i])
        c.next(token[i], c.disj(keeps, c.conj(token[i - 1], holds[i - 1] ^ 1)))
        c.next(busy[i], keeps)
    c.bads.append(two_of(c, busy))


def two_counters(c, n):
    """Two counters in step."""
    step, reset = c.input(), c.input()
    counts = [registers(c, n), registers(c, n)]
    for count in counts:
        set_next(c, count, [c.conj(reset ^ 1, x) for x in c.increment(count, step)])
    c.bads.append(is_equal(c, *counts) ^ 1)


def traffic(c, n):
    """Lights that are green in turn, by a timer."""
    cars = [c.input() for _ in range(n)]
    phase, timer, green = registers(c, n, 1), registers(c, 3), registers(c, n)
    ends = c.equal(timer, 5)
    set_next(c, timer, [c.conj(ends ^ 1, x) for x in c.increment(timer, 1)])
    for i in range(n):
        c.next(phase[i], c.mux(ends, phase[i - 1], phase[i]))
        c.next(green[i], c.all([phase[i], ends ^ 1, c.disj(cars[i], green[i])]))
    c.bads.append(two_of(c, green))


SIZES = {
    lossy_arbiter: (4, 8, 16), queue_length: (4, 8), queue_data: (4, 8), open_lock: (8, 16, 31), mutex: (4, 8, 16),
    ticket_lock: (2, 3, 4), peterson: (1, 3, 6), coherence: (4, 8, 12), parity_memory: (4, 8), elevator: (6, 14, 30),
    modulo_counter: (8, 16, 24), token_ring: (8, 16, 32), two_counters: (6, 8, 10), traffic: (4, 8, 16),
}

# Those of circuits.py, by the sizes at which one of the two decides.
USUAL_SIZES = {
    "arbiter": (8, 16, 24), "gray": (8, 12, 16), "lfsr": (16, 32, 64), "lock": (16, 64), "pipeline": (4, 8, 12),
    "parity": (8, 10, 12), "johnson": (16, 32, 64), "counter": (6, 8, 9), "fifo": (8, 12), "random": (100, 200, 400),
}


def made(name, size):
    c = Circuit()
    for family in SIZES:
        if family.__name__ == name:
            family(c, size)
            return c
    FAMILIES[name][0](c, size)
    return c


def all_circuits():
    for family, sizes in SIZES.items():
        for size in sizes:
            yield f"{family.__name__}-{size}", made(family.__name__, size)
    for name, sizes in USUAL_SIZES.items():
        for size in sizes:
            yield f"{name}-{size}", made(name, size)


def run(words, seconds):
    """What a program writes, and its processor time."""
    before = resource.getrusage(resource.RUSAGE_CHILDREN).ru_utime
    done = subprocess.run(["prlimit", f"--cpu={seconds}", *words], capture_output=True, text=True)
    return done.stdout, resource.getrusage(resource.RUSAGE_CHILDREN).ru_utime - before


def answer_of_gipmc(text):
    """The status behind the lines that tell how far the search is."""
    return {"0": "safe", "1": "fails"}.get(re.sub(r"^(u\d+\n)*", "", text).split("\n")[0], "-")


def answer_of_pdr(text):
    if "Property proved" in text:
        return "safe"
    return "fails" if re.search("was asserted in frame", text) else "-"


def timed(seconds, command):
    shares, decided = [], [0, 0]
    with tempfile.TemporaryDirectory() as folder:
        file = os.path.join(folder, "c.aig")
        for name, c in all_circuits():
            with open(file, "wb") as f:
                f.write(binary(c))
            text, time = run([*command, file], seconds)
            said = answer_of_gipmc(text)
            text, time_of_pdr = run(["berkeley-abc", "-c", f"read_aiger {file}; pdr"], seconds)
            said_by_pdr = answer_of_pdr(text)
            decided[0] += said != "-"
            decided[1] += said_by_pdr != "-"
            differ = " DIFFER" if "-" not in (said, said_by_pdr) and said != said_by_pdr else ""
            print(f"{name:20} {len(c.latches):4} {len(c.gates):5} {said:5} {time:6.2f}   "
                  f"{said_by_pdr:5} {time_of_pdr:6.2f}{differ}", flush=True)
            if "-" not in (said, said_by_pdr) and max(time, time_of_pdr) >= 0.1:
                shares.append(math.log(max(time, 0.01) / max(time_of_pdr, 0.01)))
    mean = math.exp(sum(shares) / len(shares)) if shares else 0
    print(f"decided: {decided[0]}, by pdr {decided[1]}; ratio of times {mean:.2f}, of {len(shares)}")


def main():
    parser = argparse.ArgumentParser(description=__doc__, formatter_class=argparse.RawDescriptionHelpFormatter)
    parser.add_argument("--family", nargs=2, metavar=("NAME", "SIZE"))
    parser.add_argument("seconds", nargs="?", type=int, metavar="SECONDS")
    parser.add_argument("program", nargs=argparse.REMAINDER, metavar="GIPMC [OPTION]..")
    asked = parser.parse_args()
    if asked.family:
        name, size = asked.family
        names = [*(family.__name__ for family in SIZES), *FAMILIES]
        if name not in names or not size.isdigit() or asked.seconds is not None:
            parser.error(f"--family takes one of {', '.join(names)} and a size, and nothing more")
        sys.stdout.write(made(name, int(size)).text())
        return
    if not asked.program:
        parser.error("SECONDS and the program GIPMC are wanted")
    for program in (asked.program[0], "berkeley-abc"):
        if not shutil.which(program):
            parser.error(f"there is no program '{program}'")
    timed(asked.seconds, asked.program)


if __name__ == "__main__":
    main()
