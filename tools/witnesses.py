#!/usr/bin/env python3
"""Small circuits with witness circuits, by which gipmc certifies them or not, beside an enumeration of all states.

    tools/witnesses.py N GIPMC     makes N pairs, and compares what GIPMC answers to `--certify` with the enumeration
    tools/witnesses.py --made N GIPMC
                                   has GIPMC write certificates of N circuits by `--certificate F --aiger`, and enumerates

A witness circuit is valid if the five questions of Certifaiger hold of it: reset, transition, property, base, step. The
witnesses have further latches and inputs, leave some of the circuit's out, have resets that are literals, and name what
they share in their symbols or stand in the same order. Each valid one has to be verified, and none of a circuit that
fails. Nothing here reads a circuit as the program does: it is run by the rows that the generator made.
"""
import argparse
import itertools
import os
import random
import subprocess
import sys
import tempfile

sys.path.insert(0, os.path.dirname(os.path.abspath(__file__)))
from circuits import Circuit  # noqa: E402

BOOLEANS = (False, True)


class Witness(Circuit):
    """A circuit whose resets are literals (None: either value), and what it shares: (its place, the other's place)."""

    def __init__(self):
        super().__init__()
        self.shared_inputs, self.shared_latches = [], []
        self.named = False

    def symbols(self, other):
        lines = [f"i{own} = {other.inputs[place]}" for own, place in self.shared_inputs]
        return lines + [f"l{own} = {other.latches[place][0]}" for own, place in self.shared_latches]

    def written(self, other):
        lines = self.symbols(other) if self.named else []
        return self.text() + "".join(line + "\n" for line in lines)


def literal(rng, c):
    return 2 * rng.randint(0, c.variables) + rng.randint(0, 1)


def gates(rng, c, count):
    for _ in range(count):
        c.gates.append((c.new(), *sorted((literal_below(rng, c), literal_below(rng, c)), reverse=True)))


def literal_below(rng, c):
    return 2 * rng.randint(0, c.variables - 1) + rng.randint(0, 1)


def model(rng):
    """A circuit of at most two inputs and two latches."""
    c = Circuit()
    for _ in range(rng.randint(0, 1)):
        c.input()
    latches = [c.latch(rng.choice((0, 0, 1, None))) for _ in range(rng.randint(1, 2))]
    gates(rng, c, rng.randint(0, 3))
    for latch in latches:
        c.next(latch, literal(rng, c))
    c.bads.append(c.all([literal(rng, c), literal(rng, c)]))
    if rng.random() < 0.25:
        c.constraints.append(literal(rng, c))
    return c


def part(rng, items, named):
    """Which places are shared, in which order."""
    places = list(range(len(items)))
    if not named:
        return places[: rng.choice((len(places), len(places), rng.randint(0, len(places))))]
    rng.shuffle(places)
    return places[: rng.choice((len(places), len(places), rng.randint(0, len(places))))]


def witness(rng, c):
    """A witness circuit of the circuit: mostly one that is near to a valid one."""
    w = Witness()
    w.named = rng.random() < 0.5
    here = {0: 0}
    inputs, latches = part(rng, c.inputs, w.named), part(rng, c.latches, w.named)
    if not w.named and len(inputs) < len(c.inputs):
        further_inputs = 0
    else:
        further_inputs = rng.choice((0, 0, 1))
    if not w.named and len(latches) < len(c.latches):
        further_latches = 0
    else:
        further_latches = rng.choice((0, 1, 1, 2))
    for own, place in enumerate(inputs):
        here[c.inputs[place]] = w.input()
        w.shared_inputs.append((own, place))
    for _ in range(further_inputs):
        w.input()
    for own, place in enumerate(latches):
        here[c.latches[place][0]] = w.latch(None)
        w.shared_latches.append((own, place))
    own_latches = [w.latch(None) for _ in range(further_latches)]
    if w.named and not w.shared_inputs and not w.shared_latches:
        w.named = False
        w.shared_inputs = [(i, i) for i in range(min(len(w.inputs), len(c.inputs)))]
        w.shared_latches = [(i, i) for i in range(min(len(w.latches), len(c.latches)))]
    for out, a, b in c.gates:
        if a & ~1 in here and b & ~1 in here:
            here[out] = w.conj(here[a & ~1] ^ a & 1, here[b & ~1] ^ b & 1)
    gates(rng, w, rng.randint(0, 2))
    there = lambda l: here[l & ~1] ^ l & 1 if l & ~1 in here and rng.random() < 0.95 else literal(rng, w)
    for own, place in w.shared_latches:
        variable, nxt, reset = c.latches[place]
        w.latches[own][1] = there(nxt)
        w.latches[own][2] = reset if rng.random() < 0.9 else rng.choice((0, 1, None))
    shared = {w.latches[own][0] for own, _ in w.shared_latches}
    for row in w.latches:
        if row[0] not in shared:
            row[1] = literal(rng, w)
            row[2] = rng.choice((0, 1, None, literal(rng, w), literal(rng, w)))
    w.constraints += [there(l) for l in c.constraints if rng.random() < 0.9]
    bad = there(c.bads[0])
    for _ in range(rng.choice((0, 1, 1, 2))):
        bad = w.disj(bad, w.all([2 * rng.choice([v[0] // 2 for v in w.latches]) + rng.randint(0, 1) for _ in range(2)]
                                if w.latches else [literal(rng, w)]))
    w.bads.append(bad if rng.random() < 0.95 else literal(rng, w))
    return w


def is_stratified(w):
    """Whether no reset depends on itself."""
    gate = {out: (a & ~1, b & ~1) for out, a, b in w.gates}
    reset = {v: r for v, _, r in w.latches}
    done, open_ = set(), set()

    def visit(v):
        if v in done:
            return True
        if v in open_:
            return False
        open_.add(v)
        below = gate.get(v, ())
        if v in reset and reset[v] is not None and reset[v] != v:
            below = (reset[v] & ~1,)
        good = all(visit(u) for u in below)
        open_.discard(v)
        done.add(v)
        return good

    return all(visit(v) for v in list(reset) + list(gate))


def reset_holds(at, row):
    variable, _, reset = row
    return reset is None or at(variable) == at(reset)


def rows(c):
    """All valuations: state, inputs, values."""
    for state in itertools.product(BOOLEANS, repeat=len(c.latches)):
        for inputs in itertools.product(BOOLEANS, repeat=len(c.inputs)):
            yield state, inputs, c.values(state, inputs)


def view(c, state, inputs, at, shared_latches, side):
    return {
        "state": state,
        "next": tuple(at(n) for _, n, _ in c.latches),
        "good": not any(at(b) for b in c.bads),
        "allowed": all(at(l) for l in c.constraints),
        "resets": [reset_holds(at, row) for row in c.latches],
        "key": (tuple(state[pair[side]] for pair in shared_latches), inputs),
    }


def is_valid(c, w):
    """The five questions of Certifaiger."""
    if not is_stratified(w):
        return False
    pairs = w.shared_latches
    mine = [view(c, s, i, at, pairs, 1) for s, i, at in rows(c)]
    other = [view(w, s, i, at, pairs, 0) for s, i, at in rows(w)]
    key_of = lambda v, side: (v["key"][0], tuple(v["key"][1][p[side]] for p in w.shared_inputs))
    by_key = {}
    for v in other:
        by_key.setdefault(key_of(v, 0), []).append(v)
    joint = [(m, v) for m in mine for v in by_key.get(key_of(m, 1), [])]
    for m, v in joint:
        if m["allowed"] and all(m["resets"][p] for _, p in pairs):
            if not (v["allowed"] and all(v["resets"][o] for o, _ in pairs)):
                return False
        if m["allowed"] and v["allowed"] and v["good"] and not m["good"]:
            return False
    allowed = [(m, v) for m, v in joint if m["allowed"]]
    for m, v in allowed:
        if not v["allowed"]:
            continue
        wanted = tuple(m["next"][p] for _, p in pairs)
        kept = tuple(v["next"][o] for o, _ in pairs) == wanted
        for n, x in allowed:
            if n["key"][0] == wanted and not (kept and x["allowed"]):
                return False
    for v in other:
        if v["allowed"] and all(v["resets"]) and not v["good"]:
            return False
        if v["allowed"] and v["good"]:
            for x in other:
                if x["allowed"] and x["state"] == v["next"] and not x["good"]:
                    return False
    return True


def verified(gipmc, folder, c, w_text):
    circuit, certificate = os.path.join(folder, "c.aag"), os.path.join(folder, "w.aag")
    with open(circuit, "w") as f:
        f.write(c.text())
    with open(certificate, "w") as f:
        f.write(w_text)
    run = subprocess.run([gipmc, "--certify", certificate, circuit], capture_output=True, text=True)
    return run.stdout == "s VERIFIED\n", run


def compare(count, gipmc, seed):
    rng = random.Random(seed)
    valid = accepted = unsafe = wrong = 0
    with tempfile.TemporaryDirectory() as folder:
        for _ in range(count):
            c = model(rng)
            w = witness(rng, c)
            fails = c.fails_after(c.bads[0]) is not None
            is_good = is_valid(c, w)
            said, run = verified(gipmc, folder, c, w.written(c))
            valid, accepted, unsafe = valid + is_good, accepted + said, unsafe + fails
            if (fails and is_good) or (fails and said) or (is_good and not said):
                wrong += 1
                print("fails" if fails else "safe", "valid" if is_good else "not valid", run.stdout, run.stderr)
                print(c.text() + w.written(c))
    print(f"{count} pairs, {unsafe} of circuits that fail: {valid} valid, {accepted} verified, {wrong} wrong")
    return wrong


def as_witness(text, c):
    """The witness that a text writes, which shares all inputs and latches in order."""
    w = Witness()
    lines = text.split("\n")
    m, i, l, o, a, b = map(int, (lines[0].split()[1:] + ["0"])[:6])
    constraints = int((lines[0].split() + ["0"])[7]) if len(lines[0].split()) > 7 else 0
    at = iter(lines[1:])
    w.variables = m
    w.inputs = [int(next(at)) for _ in range(i)]
    for _ in range(l):
        variable, nxt, reset = map(int, next(at).split())
        w.latches.append([variable, nxt, None if reset == variable else reset])
    w.bads = [int(next(at)) for _ in range(b)]
    w.constraints = [int(next(at)) for _ in range(constraints)]
    w.gates = [tuple(map(int, next(at).split())) for _ in range(a)]
    w.shared_inputs = [(k, k) for k in range(len(c.inputs))]
    w.shared_latches = [(k, k) for k in range(len(c.latches))]
    return w


def made(count, gipmc, seed):
    rng = random.Random(seed)
    written = wrong = 0
    with tempfile.TemporaryDirectory() as folder:
        circuit, certificate = os.path.join(folder, "c.aag"), os.path.join(folder, "w.aag")
        for _ in range(count):
            c = model(rng)
            with open(circuit, "w") as f:
                f.write(c.text())
            if os.path.exists(certificate):
                os.remove(certificate)
            subprocess.run([gipmc, "--aiger", "--certificate", certificate, circuit], capture_output=True)
            is_there = os.path.exists(certificate)
            fails = c.fails_after(c.bads[0]) is not None
            written += is_there
            if is_there == fails or is_there and not is_valid(c, as_witness(open(certificate).read(), c)):
                wrong += 1
                print("fails" if fails else "safe", c.text())
    print(f"{count} circuits, {written} certificates: {wrong} wrong")
    return wrong


def main():
    parser = argparse.ArgumentParser(description=__doc__, formatter_class=argparse.RawDescriptionHelpFormatter)
    parser.add_argument("count", type=int, metavar="N")
    parser.add_argument("gipmc", metavar="GIPMC")
    parser.add_argument("--made", action="store_true", help="enumerate certificates that are written")
    parser.add_argument("--seed", type=int, default=1)
    asked = parser.parse_args()
    task = made if asked.made else compare
    sys.exit(1 if task(asked.count, asked.gipmc, asked.seed) else 0)


if __name__ == "__main__":
    main()
