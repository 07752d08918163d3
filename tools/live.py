#!/usr/bin/env python3
"""Circuits with a justice property, of families, each right and with a bug put in, beside abc.

    tools/live.py --list                     tells the names of the circuits
    tools/live.py --print NAME               prints one in the ascii form of AIGER
    tools/live.py --beside GIPMC             times GIPMC and abc's `l2s; dprove` on each, SECONDS at most for each

A circuit that is right has no run on which its property fails; one with a bug has one. abc reads no justice properties:
it gets the same circuit with each literal as an output that is assumed to recur, and one that is asserted to recur and is
always false.
"""
import argparse
import math
import os
import resource
import shutil
import subprocess
import sys
import tempfile
import time

from circuits import Circuit, binary

SECONDS = 30


def hold(c, latch, change, literal):
    """The latch takes the literal where it is to change."""
    c.next(latch, c.mux(change, literal, latch))


def waiting(c, begins, served):
    """A wait that begins once, at a moment that an input tells, and ends where it is served."""
    pick, once, waits = c.input(), c.latch(), c.latch()
    begun = c.all([pick, once ^ 1, begins])
    c.next(once, c.disj(once, begun))
    c.next(waits, c.conj(c.disj(waits, begun), served ^ 1))
    c.justice.append([waits])


def ring(c, n, bug):
    """A token goes round; a client that asks waits until it has it. With the bug the last one is passed over."""
    token = [c.latch(1 if i == 0 else 0) for i in range(n)]
    asks, waits = [c.input() for _ in range(n)], [c.latch() for _ in range(n)]
    for i in range(n):
        before = token[i - 2] if bug and i == 0 else token[i - 1]
        c.next(token[i], 0 if bug and i == n - 1 else before)
        c.next(waits[i], c.conj(c.disj(asks[i], waits[i]), token[i] ^ 1))
    pick, done, stuck = c.input(), c.latch(), c.latch()
    c.next(done, c.disj(done, pick))
    begins = c.all([pick, done ^ 1, asks[n - 1]])
    c.next(stuck, c.conj(c.disj(stuck, begins), token[n - 1] ^ 1))
    c.justice.append([stuck])


def fair_ring(c, n, bug):
    """The token moves at each step, and steps recur by a fairness constraint, which the bug leaves out."""
    token = [c.latch(1 if i == 0 else 0) for i in range(n)]
    step, waits = c.input(), c.latch(1)
    for i in range(n):
        hold(c, token[i], step, token[i - 1])
    c.next(waits, c.conj(waits, c.conj(token[n - 1], step) ^ 1))
    c.justice.append([waits])
    if not bug:
        c.fairness.append(step)


def priority(c, n, bug):
    """The first client that asks is served, and by turns with the bug mended, the last one."""
    asks = [c.input() for _ in range(n - 1)]
    waits, turn = c.latch(1), c.latch()
    none = c.all([a ^ 1 for a in asks])
    served = none if bug else c.disj(none, turn)
    c.next(turn, turn ^ 1)
    c.next(waits, c.conj(waits, served ^ 1))
    c.justice.append([waits])


def timer(c, n, bug):
    """A timer of n bits runs down, and may be set again only when it has run out; with the bug at any time."""
    again = c.input()
    held = [c.latch(1) for _ in range(n)]
    out = c.equal(held, 0)
    less = [x ^ 1 for x in c.increment([y ^ 1 for y in held], 1)]
    sets = again if bug else c.conj(again, out)
    for latch, literal in zip(held, less):
        c.next(latch, c.mux(sets, 1, c.mux(out, 0, literal)))
    stuck = c.latch(1)
    c.next(stuck, c.conj(stuck, out ^ 1))
    c.justice.append([stuck])


def mutex(c, n, bug):
    """n processes enter one after another by tickets; each is to be scheduled again and again, but for the bug."""
    bits = max(1, math.ceil(math.log2(n)))
    pick = [c.input() for _ in range(bits)]
    turn = [c.latch() for _ in range(bits)]
    moves = [c.equal(pick, i) for i in range(n)]
    inside = [c.equal(turn, i) for i in range(n)]
    on = 0
    for m, i in zip(moves, inside):
        on = c.disj(on, c.conj(m, i))
    last = c.equal(turn, n - 1)
    for latch, literal in zip(turn, c.increment(turn, 1)):
        c.next(latch, c.mux(on, c.conj(literal, last ^ 1), latch))
    waits = c.latch(1)
    c.next(waits, c.conj(waits, c.conj(inside[n - 1], moves[n - 1]) ^ 1))
    c.justice.append([waits])
    c.fairness += moves[:-1] if bug else moves


def queue(c, n, bug):
    """What is pushed into a queue of n places goes out, where pops recur; with the bug the last place may be taken over."""
    push, pop, mark = c.input(), c.input(), c.input()
    full, marked = [c.latch() for _ in range(n)], [c.latch() for _ in range(n)]
    once = c.latch()
    puts = c.all([push, mark, once ^ 1, full[0] ^ 1])
    c.next(once, c.disj(once, puts))
    free = [0] * n
    down = pop
    for i in reversed(range(n)):
        free[i] = c.disj(full[i] ^ 1, down)
        down = free[i]
    for i in range(n):
        from_full, from_mark = (full[i - 1], marked[i - 1]) if i else (push, puts)
        take = free[i]
        c.next(full[i], c.mux(take, from_full, full[i]))
        c.next(marked[i], c.mux(take, from_mark if i else c.conj(puts, free[0]), marked[i]))
    some = 0
    for m in marked:
        some = c.disj(some, m)
    c.justice.append([some])
    c.fairness.append(pop if not bug else 1)


def arbiter(c, n, bug):
    """Clients that wait are served in turn, behind the one that was served last; with the bug behind the first."""
    asks, waits, served = [c.input() for _ in range(n)], [c.latch() for _ in range(n)], [c.latch() for _ in range(n)]
    last = [c.latch() for _ in range(max(1, math.ceil(math.log2(n))))]
    serves = [0] * n
    for before in range(n):
        free = c.equal(last, before)
        for i in range(1, n + 1):
            client = (before + i) % n
            serves[client] = c.disj(serves[client], c.conj(free, waits[client]))
            free = c.conj(free, waits[client] ^ 1)
    for i in range(n):
        c.next(waits[i], c.conj(c.disj(waits[i], asks[i]), served[i] ^ 1))
        c.next(served[i], serves[i])
    none = c.all([s ^ 1 for s in serves])
    for bit, latch in enumerate(last):
        of = c.all([serves[i] ^ 1 for i in range(n) if i >> bit & 1]) ^ 1
        hold(c, latch, 0 if bug else none ^ 1, of)
    waiting(c, asks[0], served[0])


def refresh(c, n, bug):
    """A memory is refreshed again n steps later, once no access goes on, which n steps end; with the bug another may begin."""
    wants, ends = c.input(), c.input()
    age, since = [c.latch() for _ in range(n.bit_length())], [c.latch() for _ in range(n.bit_length())]
    busy, due, fresh = c.latch(), c.latch(), c.latch()
    begins = c.all([wants, busy ^ 1, 1 if bug else due ^ 1])
    stops = c.disj(ends, c.equal(age, n - 1))
    starts = c.all([due, busy ^ 1, begins ^ 1])
    c.next(busy, c.mux(busy, stops ^ 1, begins))
    c.next(due, c.mux(due, starts ^ 1, c.equal(since, n - 1)))
    c.next(fresh, starts)
    for latch, literal in zip(age, c.increment(age, 1)):
        c.next(latch, c.conj(busy, literal))
    for latch, literal in zip(since, c.increment(since, 1)):
        c.next(latch, c.mux(due, c.conj(starts ^ 1, latch), literal))
    waiting(c, 1, fresh)


FAMILIES = {
    "ring": (ring, (4, 8, 16, 32, 64)),
    "fair_ring": (fair_ring, (4, 8, 16, 24, 32)),
    "priority": (priority, (4, 8, 16, 32, 64)),
    "timer": (timer, (3, 4, 5, 6, 7)),
    "mutex": (mutex, (2, 3, 4, 6, 8)),
    "queue": (queue, (2, 3, 4, 6, 8)),
    "arbiter": (arbiter, (3, 4, 5, 6, 8)),
    "refresh": (refresh, (5, 10, 15, 20, 31)),
}


def circuits():
    for name, (make, sizes) in FAMILIES.items():
        for size in sizes:
            for bug in (False, True):
                c = Circuit()
                make(c, size, bug)
                yield f"{name}-{size}-{'bug' if bug else 'right'}", c


def assumed(c):
    """The circuit for abc, in the binary form."""
    d = Circuit()
    d.__dict__.update(c.__dict__)
    outs = c.justice[0] + c.fairness + [0]
    d.bads, d.justice, d.fairness = outs, [], []
    head, _, rest = binary(d).partition(b"\n")
    words = head.split()
    words = [*words[:4], str(len(outs)).encode(), words[5]]
    names = [f"o{i} assume_fair_{i}" for i in range(len(outs) - 1)] + [f"o{len(outs) - 1} assert_fair_0"]
    return b" ".join(words) + b"\n" + rest + "\n".join(names).encode() + b"\n"


def timed(words, text=None):
    """What a program writes, and the processor seconds that it took, or None after too many."""
    before = resource.getrusage(resource.RUSAGE_CHILDREN)
    limit = lambda: resource.setrlimit(resource.RLIMIT_CPU, (SECONDS, SECONDS))
    done = subprocess.run(words, input=text, capture_output=True, text=True, preexec_fn=limit)
    after = resource.getrusage(resource.RUSAGE_CHILDREN)
    return done, after.ru_utime + after.ru_stime - before.ru_utime - before.ru_stime


def beside(gipmc, rows):
    """Times the programs on circuits with their names, and answers how many answers differ."""
    ratios, ours, theirs, differ, count = [], 0, 0, 0, 0
    with tempfile.TemporaryDirectory() as folder:
        aig = os.path.join(folder, "c.aig")
        for name, c in rows:
            count += 1
            with open(aig, "wb") as f:
                f.write(assumed(c))
            done, took = timed([gipmc, "--justice", "0"], c.text())
            said = {20: "right", 10: "bug"}.get(done.returncode)
            other, time_ = timed(["berkeley-abc", "-c", f"read_aiger {aig}; l2s; strash; dprove"])
            told = "right" if "Networks are equivalent" in other.stdout else None
            told = "bug" if "are not equivalent" in other.stdout or "NOT EQUIVALENT" in other.stdout else told
            ours, theirs = ours + bool(said), theirs + bool(told)
            if said and told and said != told or said and not name.endswith(said):
                differ += 1
            if said and told:
                ratios.append(max(took, 0.01) / max(time_, 0.01))
            print(f"{name}: {said or 'open'} {took:.2f} s, abc {told or 'open'} {time_:.2f} s", flush=True)
    mean = math.exp(sum(map(math.log, ratios)) / len(ratios)) if ratios else 0
    print(f"of {count} decided {ours}, abc {theirs}; {differ} differ; {mean:.2f} of abc's time in the geometric mean")
    return differ


def main():
    parser = argparse.ArgumentParser(description=__doc__, formatter_class=argparse.RawDescriptionHelpFormatter)
    mode = parser.add_mutually_exclusive_group(required=True)
    mode.add_argument("--list", action="store_true")
    mode.add_argument("--print", metavar="NAME")
    mode.add_argument("--beside", metavar="GIPMC")
    asked = parser.parse_args()
    if asked.beside:
        if not shutil.which(asked.beside):
            parser.error(f"there is no program '{asked.beside}'")
        return 1 if beside(asked.beside, circuits()) else 0
    for name, c in circuits():
        if asked.list:
            print(name)
        elif name == asked.print:
            sys.stdout.write(c.text())
            return 0
    if asked.print:
        parser.error(f"there is no circuit '{asked.print}'")
    return 0


if __name__ == "__main__":
    sys.exit(main())
