"""More families of formulas in conjunctive form, for the list `fresh` of tools/formulas.py.

Each function makes a formula of a generator of random numbers and of sizes, as those of families.py do; none of them is
a family of that module.
"""

import collections
import functools
import itertools
import math
import operator

from lib.families import (
    Circuit,
    at_most,
    chosen,
    constant,
    deny_equal,
    exactly_one,
    in_pairs,
    inverted,
    is_equal,
    is_less,
    is_odd_sum,
    picked,
    plus,
    regular_graph,
)

# Parts of circuits. A number is a list of wires, the lowest bit first.


def all_of(circuit, wires):
    return functools.reduce(circuit.both, wires, 1)


def any_of(circuit, wires):
    return functools.reduce(circuit.either, wires, -1)


def parity_of(circuit, wires):
    return functools.reduce(circuit.differ, wires, -1)


def widened(word, bits):
    return [*word, *[-1] * (bits - len(word))]


def at_least(circuit, literals, least):
    at_most(circuit, [-literal for literal in literals], len(literals) - least)


def counted(circuit, literals):
    """How many of the literals are true, as a number: by a tree of sums."""
    parts = [[literal] for literal in literals]
    while len(parts) > 1:
        pairs = [pair if len(pair) == 2 else [pair[0], []] for pair in in_pairs(parts)]
        bits = len(pairs[0][0]) + 1
        parts = [plus(circuit, widened(a, bits), widened(b, bits)) for a, b in pairs]
    return parts[0]


# Circuits that are built in two ways.


def shifters(rng, places):
    """A word of 2^places bits that is turned by a number: by the bits of the number in two orders. Can the words
    differ? No model."""
    circuit = Circuit()
    word, number = circuit.wires(2**places), circuit.wires(places)

    def turned(order):
        now = word
        for place in order:
            now = chosen(circuit, number[place], now[-(2**place) :] + now[: -(2**place)], now)
        return now

    order = rng.sample(range(places), places)
    deny_equal(circuit, turned(order), turned(order[::-1]))
    return circuit.clauses


def carry_save(rng, terms, bits):
    """The sum of some numbers, by adders one after another, and by adders that save their carries. Can it differ? No
    model."""
    circuit = Circuit()
    numbers = [circuit.wires(bits) for _ in range(terms)]
    total = functools.reduce(functools.partial(plus, circuit), numbers)
    rows = rng.sample(numbers, terms)
    while len(rows) > 2:
        a, b, c, *rows = rows
        digits, carries = zip(*(circuit.sum(*column) for column in zip(a, b, c)))
        rows += [list(digits), [-1, *carries[:-1]]]
    deny_equal(circuit, total, plus(circuit, *rows))
    return circuit.clauses


def prefix_adders(_rng, terms, bits):
    """The sum of some numbers, by adders whose carries ripple, and by those of Kogge and Stone, which find them in a
    tree. Can it differ? No model."""
    circuit = Circuit()

    def prefix_plus(a, b):
        makes = [circuit.both(x, y) for x, y in zip(a, b)]
        passes = digits = [circuit.differ(x, y) for x, y in zip(a, b)]
        gap = 1
        while gap < bits:
            makes = makes[:gap] + [
                circuit.either(here, circuit.both(through, below))
                for here, through, below in zip(makes[gap:], passes[gap:], makes)
            ]
            passes = passes[:gap] + [circuit.both(here, below) for here, below in zip(passes[gap:], passes)]
            gap *= 2
        return [circuit.differ(digit, carry) for digit, carry in zip(digits, [-1, *makes])]

    numbers = [circuit.wires(bits) for _ in range(terms)]
    rippled = functools.reduce(functools.partial(plus, circuit), numbers)
    deny_equal(circuit, rippled, functools.reduce(prefix_plus, numbers))
    return circuit.clauses


def crc(rng, bits, degree, flips):
    """An error of so many bits, or fewer, in a message that is followed by its check digits, which are the remainder by
    a drawn polynomial: can the digits miss it?"""
    circuit = Circuit()
    taps = [1, *(rng.random() < 0.5 for _ in range(degree - 1))]
    errors = circuit.wires(bits + degree)
    rest = [-1] * degree
    for error in errors:
        top = rest[-1]
        shifted = [error, *rest[:-1]]
        rest = [circuit.differ(bit, top) if tap else bit for bit, tap in zip(shifted, taps)]
    circuit.clauses += [[-bit] for bit in rest] + [errors]
    at_most(circuit, errors, flips)
    return circuit.clauses


def leading_zeros(_rng, places):
    """A number of 2^places bits that is shifted until its highest bit is true: by the place of that bit, which is found
    first, and by halves. Can the results differ? No model."""
    circuit = Circuit()
    number = circuit.wires(2**places)
    circuit.clauses.append(number)
    zeros = constant(2**places - 1, places)
    for place, bit in enumerate(number):
        zeros = chosen(circuit, bit, constant(2**places - 1 - place, places), zeros)
    at_once = number
    for place, bit in enumerate(zeros):
        at_once = chosen(circuit, bit, [-1] * 2**place + at_once[: -(2**place)], at_once)
    by_halves = number
    for place in reversed(range(places)):
        empty = -any_of(circuit, by_halves[-(2**place) :])
        by_halves = chosen(circuit, empty, [-1] * 2**place + by_halves[: -(2**place)], by_halves)
    deny_equal(circuit, at_once, by_halves)
    return circuit.clauses


def booth(rng, bits, wrong):
    """Two numbers whose product by rows differs from that by Booth's digits, from -2 to 2. Not by the right one; the
    wrong one adds 1 too little for the highest digit below 0, where one factor has drawn bits."""
    circuit = Circuit()
    a, b = circuit.wires(bits), circuit.wires(bits)
    width = 2 * bits
    total, digits = [-1] * width, [-1, *b, -1, -1]
    drawn = is_equal(circuit, a[: bits // 2], constant(rng.getrandbits(bits // 2), bits // 2))
    for place in range(0, bits + 1, 2):
        below, low, high = digits[place : place + 3]
        once = circuit.differ(below, low)
        twice = circuit.both(-once, circuit.differ(low, high))
        taken = [
            circuit.either(circuit.both(once, x), circuit.both(twice, y)) for x, y in zip([*a, -1], [-1, *a])
        ]
        row = [circuit.differ(high, bit) for bit in widened(taken, width - place)]
        carried = circuit.both(high, -drawn) if wrong and place == bits // 2 * 2 - 2 else high
        total = total[:place] + plus(circuit, total[place:], row[: width - place], carried)
    deny_equal(circuit, circuit.product(a, b), total)
    return circuit.clauses


def karatsuba(_rng, bits):
    """Two numbers whose product by rows differs from that by three products of their halves. No model."""
    circuit = Circuit()
    a, b = circuit.wires(bits), circuit.wires(bits)
    half, width = bits // 2, 2 * bits
    low, high = circuit.product(a[:half], b[:half]), circuit.product(a[half:], b[half:])
    long = bits - half + 1
    sums = [plus(circuit, widened(word[:half], long), widened(word[half:], long)) for word in (a, b)]
    middle = widened(circuit.product(*sums), width)
    for part in (low, high):
        middle = plus(circuit, middle, [-bit for bit in widened(part, width)], 1)
    total = plus(circuit, widened(low + high, width), [-1] * half + middle[: width - half])
    deny_equal(circuit, circuit.product(a, b), total)
    return circuit.clauses


def square_roots(_rng, bits):
    """The root of a number, digit by digit: can its square be above the number, or that of the next root not be? No
    model."""
    circuit = Circuit()
    number = circuit.wires(2 * bits)
    width = 2 * bits + 2
    root, rest = [], [-1] * width
    for place in reversed(range(bits)):
        rest = [number[2 * place], number[2 * place + 1], *rest[:-2]]
        tried = widened([1, -1, *root], width)
        fits = -is_less(circuit, rest, tried)
        rest = chosen(circuit, fits, plus(circuit, rest, [-bit for bit in tried], 1), rest)
        root = [fits, *root]
    square = widened(circuit.product(root, root), width)
    following = plus(circuit, square, widened([1, *root], width))
    wide = widened(number, width)
    circuit.clauses.append([is_less(circuit, wide, square), -is_less(circuit, wide, following)])
    return circuit.clauses


def decimals(_rng, bits):
    """The decimal digits of a number, by doubling and by adding 3 where a digit is above 4: can the number that they
    stand for be another one? No model."""
    circuit = Circuit()
    number = circuit.wires(bits)
    count = len(str(2**bits - 1))
    digits = [[-1] * 4 for _ in range(count)]
    for bit in reversed(number):
        digits = [
            chosen(circuit, -is_less(circuit, digit, constant(5, 4)), plus(circuit, digit, constant(3, 4)), digit)
            for digit in digits
        ]
        line = [bit, *itertools.chain(*digits)]
        digits = [line[4 * k : 4 * k + 4] for k in range(count)]
    total = [-1] * bits
    for digit in reversed(digits):
        twice = [-1, *total[:-1]]
        total = plus(circuit, plus(circuit, twice, [-1, -1, *twice[:-2]]), widened(digit, bits)[:bits])
    deny_equal(circuit, number, total)
    return circuit.clauses


def hamming(rng, bits, flips):
    """A word with check bits, each a parity, of which so many bits are flipped, and which is mended: can another word
    come out? Not where one is flipped."""
    circuit = Circuit()
    places = [place for place in range(1, 2 * bits + 16) if place & (place - 1)][:bits]
    word, errors = circuit.wires(bits), circuit.wires(2 ** max(places).bit_length())
    checks = [1 << k for k in range(max(places).bit_length())]
    sent = dict(zip(places, word))
    for check in checks:
        sent[check] = parity_of(circuit, [sent[place] for place in rng.sample(places, bits) if place & check])
    at_most(circuit, [errors[place] for place in sorted(sent)], flips)
    got = {place: circuit.differ(bit, errors[place]) for place, bit in sent.items()}
    order = rng.sample(sorted(got), len(got))
    syndrome = [parity_of(circuit, [got[place] for place in order if place & check]) for check in checks]
    mended = [
        circuit.differ(got[place], is_equal(circuit, syndrome, constant(place, len(checks)))) for place in places
    ]
    deny_equal(circuit, word, mended)
    return circuit.clauses


# Protocols and controllers, over so many steps.


def filter_lock(_rng, count, steps, wrong):
    """Processes that enter a critical section by Peterson's lock for many: are two ever in it? Not by the right one;
    the wrong one writes the two variables of a level in the other order."""
    circuit = Circuit()
    both, either = circuit.both, circuit.either
    # Where a process is: outside, before the first and second write of a level and waiting there, or inside.
    stages = 3 * (count - 1) + 2
    at = [[1] + [-1] * (stages - 1) for _ in range(count)]
    last = [[-1] * count for _ in range(count - 1)]
    faults = []
    for _ in range(steps):
        who = circuit.wires(count)
        circuit.clauses += exactly_one(who)
        raised = [
            [any_of(circuit, row[3 * level + 2 + wrong :]) for level in range(count - 1)] for row in at
        ]
        moves = []
        for k, row in enumerate(at):
            goes = [who[k]] * stages
            for level in range(count - 1):
                others = any_of(circuit, [raised[other][level] for other in range(count) if other != k])
                goes[3 * level + 3] = both(who[k], either(-last[level][k], -others))
            moves.append([both(go, here) for go, here in zip(goes, row)])
        for level in range(count - 1):
            writes = [row[3 * level + (1 if wrong else 2)] for row in moves]
            written = any_of(circuit, writes)
            last[level] = chosen(circuit, written, writes, last[level])
        at = [
            [either(before, both(here, -leaves)) for here, leaves, before in zip(row, move, move[-1:] + move[:-1])]
            for row, move in zip(at, moves)
        ]
        faults += [both(a[-1], b[-1]) for a, b in itertools.combinations(at, 2)]
    circuit.clauses.append(faults)
    return circuit.clauses


def token_ring(_rng, nodes, bits, steps):
    """Dijkstra's ring, in which a node may move where its number differs from that of the one before, or the first node
    where it does not: from any numbers, can two nodes still be free to move after so many moves?"""
    circuit = Circuit()
    numbers = [circuit.wires(bits) for _ in range(nodes)]
    for step in range(steps + 1):
        may = [is_equal(circuit, numbers[0], numbers[-1])]
        may += [-is_equal(circuit, a, b) for a, b in itertools.pairwise(numbers)]
        if step == steps:
            break
        who = circuit.wires(nodes)
        circuit.clauses += exactly_one(who) + [[-a, b] for a, b in zip(who, may)]
        new = [plus(circuit, numbers[0], [-1] * bits, 1), *numbers[:-1]]
        numbers = [chosen(circuit, *three) for three in zip(who, new, numbers)]
    at_least(circuit, may, 2)
    return circuit.clauses


def elevator(_rng, floors, steps):
    """An elevator that goes on in its direction while there are calls ahead, and stops for a step at a floor with a
    call: from any state, can a call wait for so many steps, while others are made?"""
    circuit = Circuit()
    both, either = circuit.both, circuit.either
    at, up, calls, waits = circuit.wires(floors), circuit.wire(), circuit.wires(floors), circuit.wires(floors)
    circuit.clauses += exactly_one(at) + exactly_one(waits)
    stopped = -1
    for _ in range(steps):
        calls = [either(call, circuit.wire()) for call in calls]
        stops = both(-stopped, any_of(circuit, [both(*pair) for pair in zip(at, calls)]))
        is_above = any_of(circuit, [both(here, any_of(circuit, calls[k + 1 :])) for k, here in enumerate(at)])
        is_below = any_of(circuit, [both(here, any_of(circuit, calls[:k])) for k, here in enumerate(at)])
        up = circuit.choose(up, either(is_above, -is_below), both(is_above, -is_below))
        rises, falls = both(-stops, both(up, is_above)), both(-stops, both(-up, is_below))
        calls = [both(call, -both(stops, here)) for call, here in zip(calls, at)]
        circuit.clauses += [[-wait, call] for wait, call in zip(waits, calls)]
        at = [
            circuit.choose(rises, lower, circuit.choose(falls, upper, here))
            for lower, here, upper in zip([-1, *at[:-1]], at, [*at[1:], -1])
        ]
        stopped = stops
    return circuit.clauses


def crossing(_rng, roads, limit, steps, length):
    """The lights of a crossing, where a car may come in each step. A light is green until its road is empty or the
    limit is over, and then the next one after a step of yellow. Can a queue be so long after so many steps?"""
    circuit = Circuit()
    both = circuit.both
    bits, wide = length.bit_length() + 1, limit.bit_length()
    green, yellow, timer = [1] + [-1] * (roads - 1), -1, constant(0, wide)
    queues = [constant(0, bits) for _ in range(roads)]
    for _ in range(steps):
        comes = circuit.wires(roads)
        circuit.clauses += [[-a, -b] for a, b in itertools.combinations(comes, 2)]
        waiting = [any_of(circuit, queue) for queue in queues]
        leaves = [both(both(light, -yellow), wait) for light, wait in zip(green, waiting)]
        done = both(-yellow, circuit.either(-any_of(circuit, leaves), is_equal(circuit, timer, constant(limit, wide))))
        queues = [
            plus(circuit, plus(circuit, queue, constant(0, bits), come), [leave] * bits)
            for queue, come, leave in zip(queues, comes, leaves)
        ]
        green = chosen(circuit, yellow, green[-1:] + green[:-1], green)
        timer = chosen(circuit, yellow, constant(0, wide), plus(circuit, timer, constant(0, wide), 1))
        yellow = done
    circuit.clauses.append([-is_less(circuit, queue, constant(length, bits)) for queue in queues])
    return circuit.clauses


def cache(_rng, places, tags, width, steps, wrong):
    """A cache that writes a word back when another one takes its place, beside a memory without one: can a read differ?
    Not by the right one; the wrong one forgets to write back the last tag where the first one takes its place."""
    circuit = Circuit()
    both, either = circuit.both, circuit.either
    bits, wide = (places - 1).bit_length(), (tags - 1).bit_length()
    plain = [[-1] * width for _ in range(places * tags)]
    behind, kept = list(plain), [[-1] * width for _ in range(places)]
    tag_of, dirty = [[-1] * wide for _ in range(places)], [-1] * places
    faults = []
    for _ in range(steps):
        place, tag, word, writes = circuit.wires(bits), circuit.wires(wide), circuit.wires(width), circuit.wire()
        old_tag = picked(circuit, place, tag_of)
        old = picked(circuit, place, kept)
        hit = is_equal(circuit, tag, old_tag)
        back = both(-hit, picked(circuit, place, [[bit] for bit in dirty])[0])
        if wrong:
            lost = both(is_equal(circuit, old_tag, constant(tags - 1, wide)), -any_of(circuit, tag))
            back = both(back, -lost)
        here = [is_equal(circuit, place, constant(k, bits)) for k in range(places)]
        tagged = [is_equal(circuit, old_tag, constant(k, wide)) for k in range(tags)]
        fetched = picked(circuit, [*place, *tag], behind)
        behind = [
            chosen(circuit, both(back, both(here[k % places], tagged[k // places])), old, stored)
            for k, stored in enumerate(behind)
        ]
        now = chosen(circuit, hit, old, fetched)
        read = picked(circuit, [*place, *tag], plain)
        faults += [both(-writes, circuit.differ(a, b)) for a, b in zip(now, read)]
        new = chosen(circuit, writes, word, now)
        kept = [chosen(circuit, test, new, stored) for test, stored in zip(here, kept)]
        tag_of = [chosen(circuit, test, tag, stored) for test, stored in zip(here, tag_of)]
        dirty = [circuit.choose(test, either(writes, both(hit, bit)), bit) for test, bit in zip(here, dirty)]
        wanted = [is_equal(circuit, tag, constant(k, wide)) for k in range(tags)]
        plain = [
            chosen(circuit, both(writes, both(here[k % places], wanted[k // places])), word, stored)
            for k, stored in enumerate(plain)
        ]
    circuit.clauses.append(faults)
    return circuit.clauses


def philosophers(_rng, count, steps, wrong):
    """Philosophers at a round table, of whom one a step takes his first fork or his second one, or lays both down: can
    none of them go on after so many steps? Not where one begins with the other fork; at the wrong table no one does."""
    circuit = Circuit()
    both, either = circuit.both, circuit.either
    # one[k]: the philosopher has his first fork; two[k]: both.
    one, two = [-1] * count, [-1] * count
    first = [k if wrong or k < count - 1 else 0 for k in range(count)]
    second = [(k + 1) % count if wrong or k < count - 1 else k for k in range(count)]
    for step in range(steps + 1):
        taken = [[] for _ in range(count)]
        for k in range(count):
            taken[first[k]].append(one[k])
            taken[second[k]].append(two[k])
        free = [-any_of(circuit, wires) for wires in taken]
        begins = [both(-one[k], free[first[k]]) for k in range(count)]
        goes_on = [both(both(one[k], -two[k]), free[second[k]]) for k in range(count)]
        if step == steps:
            break
        who = circuit.wires(count)
        circuit.clauses += exactly_one(who)
        begin, more, done = ([both(w, can) for w, can in zip(who, row)] for row in (begins, goes_on, two))
        circuit.clauses += [[-w, *moves] for w, *moves in zip(who, begin, more, done)]
        one = [both(either(have, gets), -ends) for have, gets, ends in zip(one, begin, done)]
        two = [both(either(have, gets), -ends) for have, gets, ends in zip(two, more, done)]
    circuit.clauses += [[-can] for can in (*begins, *goes_on, *two)]
    return circuit.clauses


# Plans.


def hanoi(_rng, disks, pegs, steps):
    """The towers of Hanoi: all disks from the first peg to the last, in so many moves, or fewer."""
    circuit = Circuit()
    at = [[circuit.wires(pegs) for _ in range(disks)] for _ in range(steps + 1)]
    clauses = circuit.clauses
    clauses += [[at[0][disk][0]] for disk in range(disks)] + [[at[steps][disk][-1]] for disk in range(disks)]
    for row in at:
        for wires in row:
            clauses += exactly_one(wires)
    for now, then in itertools.pairwise(at):
        moves = circuit.wires(disks)
        clauses += [[-a, -b] for a, b in itertools.combinations(moves, 2)]
        for disk, peg in itertools.product(range(disks), range(pegs)):
            clauses.append([moves[disk], -now[disk][peg], then[disk][peg]])
            clauses.append([-moves[disk], -now[disk][peg], -then[disk][peg]])
            for above in range(disk):
                clauses.append([-moves[disk], -now[disk][peg], -now[above][peg]])
                clauses.append([-moves[disk], -then[disk][peg], -now[above][peg]])
    return clauses


def solitaire(rng, side, jumps, spoilt):
    """Pegs on a board, of which one jumps over another, which is taken away: to a last one in the middle, in so many
    jumps. A drawn board from which it can be done; where it is spoilt, one peg is moved."""
    middle = (side // 2, side // 2)
    cells = list(itertools.product(range(side), repeat=2))
    lines = [
        ((r, c), (r + dr, c + dc), (r + 2 * dr, c + 2 * dc))
        for r, c in cells
        for dr, dc in ((0, 1), (1, 0), (0, -1), (-1, 0))
        if 0 <= r + 2 * dr < side and 0 <= c + 2 * dc < side
    ]
    pegs = set()
    while len(pegs) != jumps + 1:
        pegs = {middle}
        for _ in range(jumps):
            backwards = [(a, b, c) for a, b, c in lines if c in pegs and a not in pegs and b not in pegs]
            if not backwards:
                break
            a, b, c = rng.choice(backwards)
            pegs = pegs - {c} | {a, b}
    if spoilt:
        pegs.remove(rng.choice(sorted(pegs)))
        pegs.add(rng.choice(sorted(set(cells) - pegs)))
    circuit = Circuit()
    has = [{cell: circuit.wire() for cell in cells} for _ in range(jumps + 1)]
    clauses = circuit.clauses
    clauses += [[has[0][cell] if cell in pegs else -has[0][cell]] for cell in cells]
    clauses += [[has[jumps][cell] if cell == middle else -has[jumps][cell]] for cell in cells]
    for now, then in itertools.pairwise(has):
        moves = circuit.wires(len(lines))
        clauses += exactly_one(moves)
        falls, rises = {cell: [] for cell in cells}, {cell: [] for cell in cells}
        for move, (a, b, c) in zip(moves, lines):
            clauses += [[-move, wire] for wire in (now[a], now[b], -now[c], -then[a], -then[b], then[c])]
            falls[a].append(move)
            falls[b].append(move)
            rises[c].append(move)
        for cell in cells:
            clauses += [[-now[cell], then[cell], *falls[cell]], [now[cell], -then[cell], *rises[cell]]]
    return clauses


def lights_out(rng, side, presses, most):
    """Lights of a square, of which a press changes one and those beside it. So many drawn presses put some on: can at
    most `most` presses put them out? It has a model where that is no less."""
    circuit = Circuit()
    cells = list(itertools.product(range(side), repeat=2))
    pressed = dict(zip(cells, circuit.wires(side * side)))
    drawn = rng.sample(cells, presses)
    for r, c in cells:
        near = [cell for cell in ((r, c), (r + 1, c), (r - 1, c), (r, c + 1), (r, c - 1)) if cell in pressed]
        circuit.clauses += is_odd_sum([pressed[cell] for cell in near], sum(cell in drawn for cell in near) % 2 == 1)
    at_most(circuit, list(pressed.values()), most)
    return circuit.clauses


def blocks_world(rng, blocks, steps):
    """Blocks in drawn towers, of which one a step is put onto the table or another block: to other drawn towers in so
    many steps, or fewer."""

    def towers():
        order = rng.sample(range(blocks), blocks)
        return {block: below if rng.random() < 0.7 else blocks for block, below in zip(order, [blocks, *order])}

    circuit = Circuit()
    on = [[circuit.wires(blocks + 1) for _ in range(blocks)] for _ in range(steps + 1)]
    clauses = circuit.clauses
    for row, placed in ((on[0], towers()), (on[steps], towers())):
        clauses += [[row[block][below]] for block, below in placed.items()]
    for row in on:
        for block, wires in enumerate(row):
            clauses += exactly_one(wires) + [[-wires[block]]]
            clauses += [[-row[a][block], -row[b][block]] for a, b in itertools.combinations(range(blocks), 2)]
    for now, then in itertools.pairwise(on):
        moves = circuit.wires(blocks)
        clauses += [[-a, -b] for a, b in itertools.combinations(moves, 2)]
        for block, below in itertools.product(range(blocks), range(blocks + 1)):
            clauses.append([moves[block], -now[block][below], then[block][below]])
            if below < blocks:
                clauses += [[-moves[below], -row[block][below]] for row in (now, then)]
    return clauses


def cube_turns():
    """What each turn of a cube of 2 by 2 by 2 does: where the sticker of each place comes from. The corner -1, -1, -1
    stays."""
    stickers = list(itertools.product(itertools.product((-1, 1), repeat=3), range(3)))

    def turned(sticker, axis):
        (corner, side), (b, c) = sticker, ((axis + 1) % 3, (axis + 2) % 3)
        if corner[axis] < 0:
            return sticker
        moved = list(corner)
        moved[b], moved[c] = -corner[c], corner[b]
        return tuple(moved), {b: c, c: b}.get(side, side)

    for axis in range(3):
        quarter = [0] * len(stickers)
        for place, sticker in enumerate(stickers):
            quarter[stickers.index(turned(sticker, axis))] = place
        half = [quarter[place] for place in quarter]
        yield from (quarter, half, [quarter[place] for place in half])


def cube(rng, drawn, steps):
    """A cube of 2 by 2 by 2 after drawn turns: to its goal in at most so many turns. It has a model where there are as
    many, or 11."""
    turns = list(cube_turns())
    # The colour of a sticker is its axis and the side of its corner there.
    goal = [2 * axis + (corner[axis] > 0) for corner in itertools.product((-1, 1), repeat=3) for axis in range(3)]
    start = goal
    for _ in range(drawn):
        start = [start[place] for place in rng.choice(turns)]
    circuit = Circuit()
    has = [[circuit.wires(6) for _ in goal] for _ in range(steps + 1)]
    clauses = circuit.clauses
    for row in has:
        for wires in row:
            clauses += exactly_one(wires)
    for row, place in ((has[0], start), (has[steps], goal)):
        clauses += [[wires[colour]] for wires, colour in zip(row, place)]
    for now, then in itertools.pairwise(has):
        moves = circuit.wires(len(turns) + 1)
        clauses += exactly_one(moves)
        for move, turn in zip(moves, [*turns, range(len(goal))]):
            for place, source in enumerate(turn):
                clauses += [[-move, -a, b] for a, b in zip(now[source], then[place])]
    return clauses


# Puzzles and designs.


def ramsey(rng, nodes, *sizes):
    """One of some colours for each pair of nodes: each colour has a size, and no set of that size has all of its pairs
    in that colour."""
    pairs = list(itertools.combinations(range(nodes), 2))
    place = dict(zip(pairs, rng.sample(range(len(pairs)), len(pairs))))
    colours = len(sizes)
    clauses = []
    if colours > 2:
        clauses += [[place[pair] * colours + colour + 1 for colour in range(colours)] for pair in pairs]
    for colour, size in enumerate(sizes):
        for group in itertools.combinations(range(nodes), size):
            inside = [place[pair] for pair in itertools.combinations(group, 2)]
            if colours == 2:
                clauses.append([(-1, 1)[colour] * (k + 1) for k in inside])
            else:
                clauses.append([-(k * colours + colour + 1) for k in inside])
    return clauses


def quasigroups(_rng, order, number):
    """A quasigroup of this order, in which each x * x is x, and that has an identity: one of those that are numbered
    from 3 to 7."""

    def is_product(a, b, c):
        """a * b is c."""
        return (a * order + b) * order + c + 1

    every = range(order)
    clauses = []
    for a, b in itertools.product(every, repeat=2):
        clauses += exactly_one([is_product(a, b, k) for k in every])
        clauses += exactly_one([is_product(a, k, b) for k in every])
        clauses += exactly_one([is_product(k, a, b) for k in every])
    clauses += [[is_product(a, a, a)] for a in every]
    # Of tables that differ in the names of their elements alone fewer are left.
    clauses += [[-is_product(a, order - 1, b)] for a in every for b in range(a - 1)]
    for a, b, c, d in itertools.product(every, repeat=4):
        match number:
            case 3:  # (a * b) * (b * a) = a
                clauses.append([-is_product(a, b, c), -is_product(b, a, d), is_product(c, d, a)])
            case 4:  # (b * a) * (a * b) = a
                clauses.append([-is_product(b, a, c), -is_product(a, b, d), is_product(c, d, a)])
            case 5:  # ((b * a) * b) * b = a
                clauses.append([-is_product(b, a, c), -is_product(c, b, d), is_product(d, b, a)])
            case 6:  # (a * b) * b = a * (a * b)
                clauses.append([-is_product(a, b, c), -is_product(c, b, d), is_product(a, c, d)])
            case 7:  # (b * a) * b = a * (b * a)
                clauses.append([-is_product(b, a, c), -is_product(c, b, d), is_product(a, c, d)])
    return clauses


def steiner(rng, points, size, together):
    """Blocks of so many points, such that any `together` of them are in one block and no other: Steiner systems."""
    names = rng.sample(range(points), points)
    within = {}
    for number, block in enumerate(itertools.combinations(range(points), size), 1):
        for part in itertools.combinations(sorted(names[point] for point in block), together):
            within.setdefault(part, []).append(number)
    return list(itertools.chain(*(exactly_one(within[part]) for part in sorted(within))))


def golfers(_rng, groups, size, weeks):
    """Golfers who play in so many groups of this size each week, no two of them twice in one."""
    circuit = Circuit()
    players = groups * size
    plays = [[circuit.wires(groups) for _ in range(players)] for _ in range(weeks)]
    clauses = circuit.clauses
    met = {pair: [] for pair in itertools.combinations(range(players), 2)}
    for week, row in enumerate(plays):
        for player, wires in enumerate(row):
            clauses += exactly_one(wires)
            if week == 0:
                clauses.append([wires[player // size]])
            elif player < min(size, groups):
                clauses.append([wires[player]])
        for group in range(groups):
            at_most(circuit, [wires[group] for wires in row], size)
        for a, b in met:
            together = circuit.wire()
            clauses += [[-x, -y, together] for x, y in zip(row[a], row[b])]
            met[a, b].append(together)
    for wires in met.values():
        clauses += [[-a, -b] for a, b in itertools.combinations(wires, 2)]
    return clauses


def nonograms(rng, height, width, density):
    """A picture of which the lengths of the black runs of each row and column are known: it has a model."""
    picture = [[rng.random() < density for _ in range(width)] for _ in range(height)]
    circuit = Circuit()
    cells = [circuit.wires(width) for _ in range(height)]
    clauses = circuit.clauses
    for drawn, wires in itertools.chain(zip(picture, cells), zip(zip(*picture), zip(*cells))):
        runs = [len(list(run)) for black, run in itertools.groupby(drawn) if black]
        places = range(len(wires))
        covers = [[] for _ in places]
        before = None
        for run in runs:
            starts = circuit.wires(len(wires) - run + 1)
            clauses += exactly_one(starts)
            for place, start in enumerate(starts):
                for cell in range(place, place + run):
                    covers[cell].append(start)
                if before:
                    length, others = before
                    clauses += [[-start, -other] for k, other in enumerate(others) if k + length >= place]
            before = run, starts
        for wire, starts in zip(wires, covers):
            clauses += [[-wire, *starts]] + [[wire, -start] for start in starts]
    return clauses


def magic_squares(rng, order, clues):
    """A square of the numbers from 1, each once, whose rows, columns and diagonals have the same sum; some drawn cells
    have drawn numbers."""
    circuit = Circuit()
    cells = order * order
    bits = (cells * order).bit_length() + order.bit_length()
    has = [circuit.wires(cells) for _ in range(cells)]
    clauses = circuit.clauses
    for k in range(cells):
        clauses += exactly_one(has[k]) + exactly_one([row[k] for row in has])
    values = []
    for row in has:
        value = circuit.wires(cells.bit_length())
        for number, wire in enumerate(row, 1):
            clauses += [[-wire, bit if number >> k & 1 else -bit] for k, bit in enumerate(value)]
        values.append(widened(value, bits))
    lines = [range(k * order, k * order + order) for k in range(order)] + [range(k, cells, order) for k in range(order)]
    lines += [range(0, cells, order + 1), range(order - 1, cells - 1, order - 1)]
    for line in lines:
        total = functools.reduce(functools.partial(plus, circuit), (values[cell] for cell in line))
        circuit.is_number(total, order * (cells + 1) // 2)
    for cell, number in zip(rng.sample(range(cells), clues), rng.sample(range(cells), clues)):
        clauses.append([has[cell][number]])
    return clauses


def knights_tours(_rng, height, width):
    """A closed tour of a knight that meets each cell of a board once: each cell has a number in it."""
    circuit = Circuit()
    cells = list(itertools.product(range(height), range(width)))
    leaps = [(a, b) for a, b in itertools.product((-2, -1, 1, 2), repeat=2) if abs(a * b) == 2]
    near = {(r, c): [(r + a, c + b) for a, b in leaps if (r + a, c + b) in cells] for r, c in cells}
    goes = {(a, b): circuit.wire() for a in cells for b in near[a]}
    bits = len(cells).bit_length()
    number = {cell: circuit.wires(bits) for cell in cells}
    clauses = circuit.clauses
    circuit.is_number(number[cells[0]], 0)
    for cell in cells:
        clauses += exactly_one([goes[cell, other] for other in near[cell]])
        clauses += exactly_one([goes[other, cell] for other in near[cell]])
        following = plus(circuit, number[cell], [-1] * bits, 1)
        for other in near[cell]:
            if other == cells[0]:
                circuit.clauses += [
                    [-goes[cell, other], bit if len(cells) - 1 >> k & 1 else -bit] for k, bit in enumerate(number[cell])
                ]
            else:
                for a, b in zip(number[other], following):
                    clauses += [[-goes[cell, other], -a, b], [-goes[cell, other], a, -b]]
    return clauses


AROUND = [(a, b) for a, b in itertools.product((-1, 0, 1), repeat=2) if (a, b) != (0, 0)]


def lives(circuit, before):
    """The cells of Conway's game of life, one step later: those alive are wires, and all others are dead."""

    def following(r, c):
        low, middle, *high = counted(circuit, [before.get((r + a, c + b), -1) for a, b in AROUND])
        few = circuit.both(middle, all_of(circuit, [-bit for bit in high]))
        return circuit.both(few, circuit.either(low, before[r, c]))

    return {cell: following(*cell) for cell in before}


def life(rng, side, density, steps):
    """What a drawn board is after so many steps of the game of life, in which the cells beyond it are dead: what was it
    before? It has a model."""

    def after(alive):
        counts = collections.Counter((r + a, c + b) for r, c in alive for a, b in AROUND)
        return {cell for cell in cells if counts[cell] == 3 or (counts[cell] == 2 and cell in alive)}

    cells = list(itertools.product(range(side), repeat=2))
    board = {cell for cell in cells if rng.random() < density}
    circuit = Circuit()
    wires = dict(zip(cells, circuit.wires(len(cells))))
    for _ in range(steps):
        board, wires = after(board), lives(circuit, wires)
    circuit.clauses += [[wires[cell] if cell in board else -wires[cell]] for cell in cells]
    return circuit.clauses


def still_life(_rng, side, least):
    """A board of the game of life with at least so many living cells, which stays as it is, and so do the dead cells
    around it."""
    circuit = Circuit()
    cells = list(itertools.product(range(-1, side + 1), repeat=2))
    inside = [cell for cell in cells if 0 <= min(cell) and max(cell) < side]
    wires = dict.fromkeys(cells, -1) | dict(zip(inside, circuit.wires(len(inside))))
    for cell, wire in lives(circuit, wires).items():
        circuit.clauses += [[-wire, wires[cell]], [wire, -wires[cell]]]
    at_least(circuit, [wires[cell] for cell in inside], least)
    return circuit.clauses


def discrepancy(_rng, length, most):
    """Signs in a row: those at the multiples of any number, from the first on, never have a sum above `most` or below
    its negation."""
    circuit = Circuit()
    signs = circuit.wires(length)
    for step in range(1, length // (most + 1) + 1):
        sums = {0: 1}
        for sign in signs[step - 1 :: step]:
            circuit.clauses += [[-sums.get(most, -1), -sign], [-sums.get(-most, -1), sign]]
            sums = {
                k: circuit.choose(sign, sums.get(k - 1, -1), sums.get(k + 1, -1)) for k in range(-most, most + 1)
            }
    return circuit.clauses


def pythagoras(rng, size):
    """Numbers up to the size in two colours, with no a, b and c in one colour such that a^2 and b^2 make c^2. It has a
    model up to 7824."""
    names = rng.sample(range(1, size + 1), size)
    clauses = []
    for m in range(2, math.isqrt(size) + 1):
        for n in range(1 + m % 2, m, 2):
            if math.gcd(m, n) == 1:
                sides = (m * m - n * n, 2 * m * n, m * m + n * n)
                for times in range(1, size // sides[2] + 1):
                    clauses += [[sign * names[times * side - 1] for side in sides] for sign in (1, -1)]
    return clauses


# Counting and parity, which resolution finds hard.


def relativised(_rng, pigeons, rests):
    """Pigeons that go to resting places, each to its own, and from these to holes, of which there is one less than
    pigeons, such that no hole gets two. No model."""
    circuit = Circuit()
    holes = pigeons - 1
    rest_of = [circuit.wires(rests) for _ in range(pigeons)]
    hole_of = [circuit.wires(holes) for _ in range(rests)]
    used = circuit.wires(rests)
    clauses = circuit.clauses
    clauses += rest_of
    for rest in range(rests):
        clauses += [[-row[rest], used[rest]] for row in rest_of]
        clauses += [[-a[rest], -b[rest]] for a, b in itertools.combinations(rest_of, 2)]
        clauses.append([-used[rest], *hole_of[rest]])
    for (a, x), (b, y) in itertools.combinations(enumerate(hole_of), 2):
        clauses += [[-used[a], -used[b], -p, -q] for p, q in zip(x, y)]
    return clauses


def onto_holes(rng, holes, per_hole):
    """Pigeons in holes, each in one, with so many in each hole; one pigeon more than there is room for. No model."""
    pigeons = rng.sample(range(holes * per_hole + 1), holes * per_hole + 1)

    def sits(pigeon, hole):
        return pigeon * holes + hole + 1

    clauses = list(itertools.chain(*(exactly_one([sits(pigeon, hole) for hole in range(holes)]) for pigeon in pigeons)))
    for hole in range(holes):
        inside = [sits(pigeon, hole) for pigeon in pigeons]
        clauses += [[-wire for wire in group] for group in itertools.combinations(inside, per_hole + 1)]
        clauses.append(inside)
    return clauses


def even_colouring(rng, nodes, degree, split):
    """Two colours for the edges of a drawn graph, with as many of each at every node. It has a model where the number
    of edges is even, as it is for degree 4; a node in the middle of a split edge makes it odd."""
    edges = regular_graph(rng, nodes, degree)
    if split:
        a, b = edges.pop(rng.randrange(len(edges)))
        edges += [(a, nodes), (b, nodes)]
    clauses = []
    for node in range(nodes + split):
        near = [k + 1 for k, edge in enumerate(edges) if node in edge]
        for group in itertools.combinations(near, len(near) // 2 + 1):
            clauses += [list(group), [-k for k in group]]
    return clauses


def small_groups(rng, groups):
    """Variables in groups of four and one of five, with at most two true in each, and in other such groups, with at
    most two false in each. No model (Spence's formulas)."""
    count = 4 * groups + 1
    clauses = []
    for sign in (-1, 1):
        order = rng.sample(range(1, count + 1), count)
        parts = [order[place : place + 4] for place in range(0, count - 5, 4)] + [order[-5:]]
        for part in parts:
            clauses += [[sign * name for name in three] for three in itertools.combinations(part, 3)]
    return clauses


def one_of_five(rng, groups):
    """Variables in groups of five, with at most one true in each, and twice in other such groups, with at least one
    true in each. It has a model."""
    order = rng.sample(range(1, 5 * groups + 1), 5 * groups)
    true, false = order[:groups], order[groups:]
    clauses = []
    for sign in (-1, 1, 1):
        rng.shuffle(false)
        parts = [[name, *false[4 * k : 4 * k + 4]] for k, name in enumerate(true)]
        for part in parts:
            clauses += [part] if sign > 0 else [[-a, -b] for a, b in itertools.combinations(part, 2)]
    return clauses


def two_counts(rng, size, most):
    """At most so many of some variables are true, by a counter, and at least one more, by a network that sorts them in
    another order. No model."""
    circuit = Circuit()
    inputs = circuit.wires(size)
    at_most(circuit, inputs, most)
    row = rng.sample(inputs, size)
    for turn in range(size):
        for place in range(turn % 2, size - 1, 2):
            a, b = row[place : place + 2]
            row[place : place + 2] = circuit.either(a, b), circuit.both(a, b)
    circuit.clauses.append([row[most]])
    return circuit.clauses


def triples(rng, elements, rounds):
    """Elements that are drawn into groups of three in so many rounds, the last group filled up with the first elements:
    some of the groups that have each element once. It has a model where 3 divides the number of elements, else none."""
    within = [[] for _ in range(elements)]
    number = 0
    for _ in range(rounds):
        order = rng.sample(range(elements), elements)
        order += order[: -elements % 3]
        for place in range(0, elements, 3):
            number += 1
            for element in order[place : place + 3]:
                within[element].append(number)
    return list(itertools.chain(*map(exactly_one, within)))


def torus(rng, height, width, is_odd):
    """Some edges of a grid whose opposite sides meet, of which each node has a drawn odd or even number. No model where
    the numbers are odd in all."""
    nodes = list(itertools.product(range(height), range(width)))
    edges = [((r, c), other) for r, c in nodes for other in (((r + 1) % height, c), (r, (c + 1) % width))]
    names = rng.sample(range(1, len(edges) + 1), len(edges))
    odd = {node: rng.random() < 0.5 for node in nodes}
    odd[nodes[0]] ^= (sum(odd.values()) % 2 == 1) != is_odd
    return list(
        itertools.chain(
            *(is_odd_sum([name for name, edge in zip(names, edges) if node in edge], odd[node]) for node in nodes)
        )
    )


# Schedules and packing.


def bins(rng, count, items, capacity, left):
    """Items of drawn sizes that fill so many bins of this capacity but for `left` in all, to be put into them again.
    Below 0 they are more than fit."""
    sizes = [capacity] * count
    while len(sizes) < items:
        size = sizes.pop(sizes.index(max(sizes)))
        cut = rng.randint(size // 4, size // 2)
        sizes += [cut, size - cut]
    for _ in range(abs(left)):
        sizes[rng.randrange(items)] += 1 if left < 0 else -1
    sizes.sort(reverse=True)
    circuit = Circuit()
    inside = [circuit.wires(count) for _ in sizes]
    bits = sum(sizes).bit_length()
    for wires in inside:
        circuit.clauses += exactly_one(wires)
    for k in range(count):
        total = [-1] * bits
        for size, wires in zip(sizes, inside):
            total = plus(circuit, total, [wires[k] if bit > 0 else -1 for bit in constant(size, bits)])
        circuit.clauses.append([-is_less(circuit, constant(capacity, bits), total)])
    return circuit.clauses


def subset_sums(rng, items, bits, away):
    """Some of drawn numbers whose sum is that of some drawn ones, or by so much more."""
    numbers = [rng.getrandbits(bits) for _ in range(items)]
    wanted = sum(rng.sample(numbers, items // 2)) + away
    circuit = Circuit()
    width = sum(numbers).bit_length()
    total = [-1] * width
    for number in numbers:
        wire = circuit.wire()
        total = plus(circuit, total, [wire if bit > 0 else -1 for bit in constant(number, width)])
    circuit.is_number(total, wanted)
    return circuit.clauses


def timetables(rng, classes, teachers, rooms, hours, lessons):
    """Lessons, each of a drawn class and teacher, who is away in drawn hours: each in an hour and a room, of which some
    rooms are too small, such that no class, teacher or room has two at once."""
    circuit = Circuit()
    away = [set(rng.sample(range(hours), hours // 4)) for _ in range(teachers)]
    held = [(rng.randrange(classes), rng.randrange(teachers)) for _ in range(lessons)]
    small = [set(rng.sample(range(rooms), rooms // 3)) for _ in range(classes)]
    at = [circuit.wires(hours) for _ in held]
    in_room = [circuit.wires(rooms) for _ in held]
    for (group, teacher), hour, room in zip(held, at, in_room):
        circuit.clauses += exactly_one(hour) + exactly_one(room)
        circuit.clauses += [[-hour[k]] for k in sorted(away[teacher])] + [[-room[k]] for k in sorted(small[group])]
    for a, b in itertools.combinations(range(lessons), 2):
        if held[a][0] == held[b][0] or held[a][1] == held[b][1]:
            circuit.clauses += [[-x, -y] for x, y in zip(at[a], at[b])]
        else:
            same = circuit.wire()
            circuit.clauses += [[-x, -y, same] for x, y in zip(at[a], at[b])]
            circuit.clauses += [[-x, -y, -same] for x, y in zip(in_room[a], in_room[b])]
    return circuit.clauses


def rosters(rng, nurses, days, *needs):
    """Nurses of whom so many are at work in each of three shifts of a day: none by day after a night in the third, nor
    on more than five of seven days, nor on drawn days off."""
    circuit = Circuit()
    shifts = [[circuit.wires(3) for _ in range(days)] for _ in range(nurses)]
    for row in shifts:
        for day, wires in enumerate(row):
            circuit.clauses += [[-a, -b] for a, b in itertools.combinations(wires, 2)]
            if day:
                circuit.clauses += [[-row[day - 1][2], -wire] for wire in wires[:2]]
        works = [any_of(circuit, wires) for wires in row]
        for first in range(days - 6):
            at_most(circuit, works[first : first + 7], 5)
        circuit.clauses += [[-works[day]] for day in rng.sample(range(days), days // 6)]
    for day, shift in itertools.product(range(days), range(3)):
        at_least(circuit, [row[day][shift] for row in shifts], needs[shift])
    return circuit.clauses


def car_sequences(rng, cars, options, kinds):
    """Cars of drawn kinds in a line of assembly, such that of so many in a row at most so many have an option."""
    circuit = Circuit()
    limits = [sorted(rng.sample(range(1, 6), 2)) for _ in range(options)]
    has = [[rng.random() < 0.45 for _ in range(options)] for _ in range(kinds)]
    counts = [cars // kinds + (kind < cars % kinds) for kind in range(kinds)]
    line = [circuit.wires(kinds) for _ in range(cars)]
    for wires in line:
        circuit.clauses += exactly_one(wires)
    for kind, count in enumerate(counts):
        wires = [row[kind] for row in line]
        at_most(circuit, wires, count)
        at_least(circuit, wires, count)
    for option, (most, among) in enumerate(limits):
        uses = [any_of(circuit, [row[kind] for kind in range(kinds) if has[kind][option]]) for row in line]
        for first in range(cars - among + 1):
            groups = itertools.combinations(uses[first : first + among], most + 1)
            circuit.clauses += [[-wire for wire in group] for group in groups]
    return circuit.clauses


# Ciphers.


PRESENT_BOX = (12, 5, 6, 11, 9, 0, 10, 13, 3, 14, 15, 8, 4, 7, 1, 2)


def table_clauses(inputs, outputs, box):
    """That the outputs are what the box says of the inputs: a clause for each row and output."""
    return [
        [*(-wire if row >> k & 1 else wire for k, wire in enumerate(inputs)), out if value >> k & 1 else -out]
        for row, value in enumerate(box)
        for k, out in enumerate(outputs)
    ]


def present(rng, bits, rounds, unknown, texts):
    """The key of the cipher Present, of so many bits a text, where some texts are known, and all but some bits of the
    key."""
    circuit = Circuit()
    long = bits * 5 // 4
    drawn = rng.getrandbits(long)

    def boxed(word):
        out = 0
        for k in range(0, bits, 4):
            out |= PRESENT_BOX[word >> k & 15] << k
        return out

    def keys():
        """The words of the key of each round, as numbers and as wires."""
        number, wires = drawn, circuit.wires(long)
        circuit.is_number(wires[unknown:], drawn >> unknown)
        for turn in range(1, rounds + 2):
            yield number >> (long - bits), wires[long - bits :]
            turned = 61 % long
            number = (number << turned | number >> (long - turned)) & (2**long - 1)
            top = number >> (long - 4)
            number ^= (top ^ PRESENT_BOX[top]) << (long - 4) ^ turn << 3
            wires = wires[long - turned :] + wires[: long - turned]
            outs = circuit.wires(4)
            circuit.clauses += table_clauses(wires[-4:], outs, PRESENT_BOX)
            wires = wires[:-4] + outs
            wires = [-wire if turn << 3 >> k & 1 else wire for k, wire in enumerate(wires)]

    places = [k * bits // 4 % (bits - 1) if k < bits - 1 else k for k in range(bits)]
    schedule = list(keys())
    for _ in range(texts):
        number = rng.getrandbits(bits)
        wires = constant(number, bits)
        for turn, (key, key_wires) in enumerate(schedule):
            number ^= key
            wires = [circuit.differ(a, b) for a, b in zip(wires, key_wires)]
            if turn < rounds:
                number = boxed(number)
                outs = circuit.wires(bits)
                for k in range(0, bits, 4):
                    circuit.clauses += table_clauses(wires[k : k + 4], outs[k : k + 4], PRESENT_BOX)
                wires = [None] * bits
                for place, out in zip(places, outs):
                    wires[place] = out
                number = sum((number >> k & 1) << place for k, place in enumerate(places))
        circuit.is_number(wires, number)
    return circuit.clauses


def known_outputs(rng, bits, unknown, outputs):
    """A drawn state of which so many bits are unknown, and all that is made of it."""
    circuit = Circuit()
    drawn = [rng.random() < 0.5 for _ in range(bits)]
    wires = circuit.wires(bits)
    circuit.clauses += [[wires[k] if drawn[k] else -wires[k]] for k in rng.sample(range(bits), bits - unknown)]
    for wire, bit in zip(outputs(wires, circuit.differ, circuit.both), outputs(drawn, operator.xor, operator.and_)):
        circuit.clauses.append([wire if bit else -wire])
    return circuit.clauses


def trivium(rng, scale, unknown, length):
    """The state of the stream cipher Trivium, of whose registers 96ths are left as `scale` says, and of which some bits
    are unknown, where so many bits of the stream are known."""
    sizes = [size * scale // 96 for size in (93, 84, 111)]
    # In each register: a bit that is given out, and one that is fed into itself.
    given, kept = ([tap * scale // 96 for tap in taps] for taps in ((65, 68, 65), (68, 77, 86)))

    def outputs(state, differ, both):
        ends = list(itertools.accumulate(sizes))
        registers = [state[end - size : end] for end, size in zip(ends, sizes)]
        for _ in range(length):
            sums = [differ(register[tap], register[-1]) for register, tap in zip(registers, given)]
            yield functools.reduce(differ, sums)
            fed = [differ(total, both(*register[-3:-1])) for total, register in zip(sums, registers)]
            registers = [
                [differ(fed[k - 1], register[kept[k]]), *register[:-1]] for k, register in enumerate(registers)
            ]

    return known_outputs(rng, sum(sizes), unknown, outputs)


def combiner(rng, length, *lengths):
    """What three shift registers with drawn taps held at first: in each step the first one chooses which of the others
    gives out its bit (Geffe's generator)."""
    taps = [[0, *rng.sample(range(1, size), 3)] for size in lengths]

    def outputs(state, differ, both):
        ends = list(itertools.accumulate(lengths))
        registers = [state[end - size : end] for end, size in zip(ends, lengths)]
        for _ in range(length):
            a, b, c = (register[0] for register in registers)
            yield differ(both(a, differ(b, c)), c)
            registers = [
                [*register[1:], functools.reduce(differ, (register[tap] for tap in row))]
                for register, row in zip(registers, taps)
            ]

    return known_outputs(rng, sum(lengths), sum(lengths), outputs)


def sponge(rng, lane, rounds, unknown):
    """What some rounds with Keccak's steps began with, five rows of five words of so many bits, of which some bits are
    unknown, where two rows are known of what they end with."""

    def outputs(op, lanes):
        rows = [list(lanes[k : k + 5]) for k in range(0, 25, 5)]
        for turn in range(rounds):
            columns = [op.xor(*(row[k] for row in rows)) for k in range(5)]
            mixed = [op.xor(columns[k - 1], op.left(columns[(k + 1) % 5], 1)) for k in range(5)]
            rows = [[op.xor(word, mixed[k]) for k, word in enumerate(row)] for row in rows]
            moved = [[None] * 5 for _ in range(5)]
            for y, x in itertools.product(range(5), repeat=2):
                moved[(2 * x + 3 * y) % 5][y] = op.left(rows[y][x], (7 * y + 3 * x * x + x * y) % lane)
            zero = op.constant(0)
            rows = [
                [op.xor(word, op.choose(row[k - 4], zero, row[k - 3])) for k, word in enumerate(row)] for row in moved
            ]
            rows[0][0] = op.xor(rows[0][0], op.constant(turn + 1))
        return [*rows[0], *rows[1]]

    return inverted(rng, lane, 25, unknown, outputs)


def feistel(rng, bits, rounds, wrong):
    """A word that a cipher with drawn boxes makes into another, and back with the same keys: can it come out otherwise?
    Not by the right one; in the wrong one a round back takes another key, where a half has drawn bits."""
    circuit = Circuit()
    half = bits // 2
    boxes = [rng.sample(range(16), 16) for _ in range(half // 4)]
    keys = [circuit.wires(half) for _ in range(rounds)]

    def mixed(word, key):
        total = plus(circuit, word, key)
        outs = circuit.wires(half)
        for k, box in enumerate(boxes):
            circuit.clauses.extend(table_clauses(total[4 * k : 4 * k + 4], outs[4 * k : 4 * k + 4], box))
        turned = outs[3:] + outs[:3]
        return [circuit.differ(a, b) for a, b in zip(turned, key)]

    def xor(a, b):
        return [circuit.differ(x, y) for x, y in zip(a, b)]

    left, right = first = circuit.wires(half), circuit.wires(half)
    for key in keys:
        left, right = right, xor(left, mixed(right, key))
    drawn = constant(rng.getrandbits(half), half)
    for turn, key in enumerate(reversed(keys)):
        lost = is_equal(circuit, left, drawn) if wrong and turn == rounds // 2 else -1
        right, left = left, xor(right, mixed(left, [circuit.differ(key[0], lost), *key[1:]]))
    deny_equal(circuit, [*first[0], *first[1]], [*left, *right])
    return circuit.clauses


# Things that are learned.


def exact_synthesis(rng, inputs, gates, drawn):
    """A circuit of so many gates of two inputs for the function of a drawn circuit of `drawn` gates."""
    rows = range(2**inputs)
    table = [[row >> k & 1 for row in rows] for k in range(inputs)]
    for _ in range(drawn):
        (a, b), kind = rng.sample(table[-inputs - 1 :], 2), rng.choice((1, 2, 4, 6, 7, 8, 9, 11, 13, 14))
        table.append([kind >> (2 * x + y) & 1 for x, y in zip(a, b)])
    circuit = Circuit()
    clauses = circuit.clauses
    values = [[1 if bit else -1 for bit in line] for line in table[:inputs]]
    uses = []
    for gate in range(inputs, inputs + gates):
        kind, line = circuit.wires(4), circuit.wires(len(rows))
        pairs = list(itertools.combinations(range(gate), 2))
        picks = circuit.wires(len(pairs))
        clauses += exactly_one(picks)
        uses.append(dict(zip(pairs, picks)))
        for pick, (a, b) in zip(picks, pairs):
            for row, (x, y) in itertools.product(rows, itertools.product((0, 1), repeat=2)):
                here = [-pick, -values[a][row] if x else values[a][row], -values[b][row] if y else values[b][row]]
                clauses += [[*here, -line[row], kind[2 * x + y]], [*here, line[row], -kind[2 * x + y]]]
        values.append(line)
    clauses += [[wire if bit else -wire] for wire, bit in zip(values[-1], table[-1])]
    for gate in range(inputs, inputs + gates - 1):
        clauses.append([pick for line in uses for pair, pick in line.items() if gate in pair])
    return clauses


def automata(rng, states, drawn, words, length):
    """An automaton of so many states that takes and refuses drawn words as a drawn automaton does."""
    follow = [[rng.randrange(drawn) for _ in range(2)] for _ in range(drawn)]
    takes = [rng.random() < 0.5 for _ in range(drawn)]
    circuit = Circuit()
    clauses = circuit.clauses
    goes = [[circuit.wires(states) for _ in range(2)] for _ in range(states)]
    good = circuit.wires(states)
    for row in goes:
        for wires in row:
            clauses += exactly_one(wires)
    at = {(): [1] + [-1] * (states - 1)}
    for _ in range(words):
        word, place = (), 0
        for _ in range(rng.randint(1, length)):
            letter = rng.randrange(2)
            place = follow[place][letter]
            if word + (letter,) not in at:
                wires = at[word + (letter,)] = circuit.wires(states)
                clauses += exactly_one(wires)
                for here, row in zip(at[word], goes):
                    clauses += [[-here, -go, wire] for go, wire in zip(row[letter], wires)]
            word += (letter,)
        clauses += [[-wire, mark if takes[place] else -mark] for wire, mark in zip(at[word], good)]
    return clauses
