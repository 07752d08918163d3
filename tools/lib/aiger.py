"""Reads circuits in the binary form of AIGER, and replays traces on them, to judge what programs answer. It shares
nothing with them."""

from typing import NamedTuple


class Aiger(NamedTuple):
    """Literals are AIGER's; a latch is its next literal and its reset: 0, 1, or None where both are possible."""

    inputs: int
    latches: list
    bads: list
    constraints: list
    gates: list

    def cone(self, bad):
        """The gates that a bad literal depends on at some moment, in their order, and the places of such latches."""
        first_latch, first_gate = self.inputs + 1, self.inputs + len(self.latches) + 1
        seen, left = set(), [literal >> 1 for literal in (bad, *self.constraints)]
        while left:
            variable = left.pop()
            if variable in seen:
                continue
            seen.add(variable)
            if variable >= first_gate:
                left += [literal >> 1 for literal in self.gates[variable - first_gate]]
            elif variable >= first_latch:
                left.append(self.latches[variable - first_latch][0] >> 1)
        gates = [(variable, *self.gates[variable - first_gate]) for variable in sorted(seen) if variable >= first_gate]
        return gates, [place for place in range(len(self.latches)) if first_latch + place in seen]


def parse(data):
    """The circuit of some bytes; outputs are taken for bad literals where there are none."""
    end = data.index(b"\n") + 1
    kind, *head = data[:end].split()
    head = [int(word) for word in head]
    if kind != b"aig":
        raise ValueError("it is not in the binary form of AIGER")
    _, inputs, latches, outputs, gates, bads, constraints = (head + [0, 0])[:7]

    def line():
        nonlocal end
        begin, end = end, data.index(b"\n", end) + 1
        return [int(word) for word in data[begin:end].split()]

    def number():
        nonlocal end
        value = shift = 0
        while True:
            byte = data[end]
            end += 1
            value |= (byte & 127) << shift
            if byte < 128:
                return value
            shift += 7

    rows = []
    for place in range(latches):
        after, *reset = line()
        rows.append((after, {0: 0, 1: 1}.get(reset[0]) if reset else 0))
    ends = [line()[0] for _ in range(outputs)]
    found = [line()[0] for _ in range(bads)]
    held = [line()[0] for _ in range(constraints)]
    pairs = []
    for variable in range(inputs + latches + 1, inputs + latches + gates + 1):
        a = 2 * variable - number()
        pairs.append((a, a - number()))
    return Aiger(inputs, rows, found or ends, held, pairs)


def size(path):
    """The numbers of latches, gates and bad literals that a file's head tells."""
    with open(path, "rb") as file:
        head = [int(word) for word in file.readline().split()[1:]]
    return head[2], head[4], (head[5] if len(head) > 5 else 0) or head[3]


def replays(circuit, place, lines):
    """Whether a trace (a line of latches, and lines of inputs) leads to the bad literal at a place. An `x` is a 0, and
    an empty line of latches is their resets."""
    bits = [[character == "1" for character in line] for line in lines]
    bad, state = circuit.bads[place], bits[0] or [reset == 1 for _, reset in circuit.latches]
    if len(state) != len(circuit.latches) or any(len(row) != circuit.inputs for row in bits[1:]):
        return False
    if any(reset is not None and bool(reset) != value for (_, reset), value in zip(circuit.latches, state)):
        return False
    gates, latches = circuit.cone(bad)
    value = {0: False}
    is_true = lambda literal: value[literal >> 1] ^ (literal & 1)
    for row in bits[1:]:
        value.update(zip(range(1, circuit.inputs + 1), row))
        value.update((circuit.inputs + 1 + latch, state[latch]) for latch in latches)
        for variable, a, b in gates:
            value[variable] = (value[a >> 1] ^ (a & 1)) & (value[b >> 1] ^ (b & 1))
        if not all(is_true(literal) for literal in circuit.constraints):
            return False
        if is_true(bad):
            return True
        for latch in latches:
            state[latch] = is_true(circuit.latches[latch][0])
    return False
