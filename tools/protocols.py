#!/usr/bin/env python3
"""Circuits of families that tools/verilog.py and tools/live.py do not have, each right and with a bug put in.

    tools/protocols.py FOLDER          writes an AIGER file for each circuit with one bad literal into FOLDER
    tools/protocols.py --many FOLDER   writes one for each circuit with many of them
    tools/protocols.py --list          tells the families: what each is, its sizes, and whether it has many bad
                                       literals, or a justice property
    tools/protocols.py --print NAME    prints a circuit in the ascii form of AIGER, as `barrier-5-bug`
    tools/protocols.py --live GIPMC    times GIPMC and abc's `l2s; dprove` on each circuit with a justice property

The name of a file is that of the family, the sizes, and `right` or `bug`. The files are the same each time. What is
said to be right is not known to be; only the answers of model checkers tell. `tools/beside.py FOLDER PROGRAM..` runs
programs on the files; with --live, SECONDS of tools/live.py is the limit, and a status of 1 says that an answer
differs.
"""

import argparse
import random
import shutil
import sys
from pathlib import Path
from typing import Callable, NamedTuple

import live
from circuits import binary
from lib.words import Words, constant, wide


class Family(NamedTuple):
    """A family of circuits; its function has a circuit, the numbers of a size, and whether a bug is put in. Its kind is
    ONE, with a bad literal, MANY, with many of them, or LIVE, with a justice property."""

    make: Callable
    sizes: tuple
    kind: str


FAMILIES = {}
ONE, MANY, LIVE = "one", "many", "justice"


def family(*sizes, kind=ONE):
    """Puts a function into the list."""

    def put(make):
        sizes_ = tuple(size if isinstance(size, tuple) else (size,) for size in sizes)
        FAMILIES[make.__name__] = Family(make, sizes_, kind)
        return make

    return put


def bits_of(count):
    """How many bits the numbers below the count have."""
    return max(1, (count - 1).bit_length())


# Protocols.


@family(2, 3, 4, 6)
def directory(c, n, bug):
    """Caches that ask a directory, which recalls a line from others first: a line that is written is in no other
    cache."""
    chosen, action = c.decode(c.free(bits_of(n)), n), c.decode(c.free(3), 5)
    asks, serves, drops, hears, grants = action
    wants_write = c.input()
    shares, owns, reads, writes, recalled, answered, known, target = (c.register(n) for _ in range(8))
    busy, exclusive, is_write = c.latch(), c.latch(), c.latch()
    waits = [c.disj(r, w) for r, w in zip(reads, writes)]
    served = c.all([serves, busy ^ 1, c.any([c.conj(p, w) for p, w in zip(chosen, waits)])])
    served_write = c.any([c.conj(p, w) for p, w in zip(chosen, writes)])
    alone = [c.disj(t, k ^ 1) for t, k in zip(target, known)]
    shared = c.conj(is_write ^ 1, exclusive ^ 1)
    granted = c.all([grants, busy, c.disj(shared, c.all(alone[:-1] if bug else alone))])
    for i in range(n):
        begins = c.all([asks, chosen[i], waits[i] ^ 1, owns[i] ^ 1])
        mine, drop = c.conj(granted, target[i]), c.all([drops, chosen[i], recalled[i]])
        hear = c.all([hears, chosen[i], answered[i]])
        recalls = c.all([served, chosen[i] ^ 1, known[i], c.disj(served_write, exclusive)])
        c.update([reads[i]], (mine, [0]), (begins, [c.conj(wants_write ^ 1, shares[i] ^ 1)]))
        c.update([writes[i]], (mine, [0]), (begins, [wants_write]))
        c.update([shares[i]], (mine, [is_write ^ 1]), (drop, [0]))
        c.update([owns[i]], (mine, [is_write]), (drop, [0]))
        c.update([recalled[i]], (drop, [0]), (recalls, [1]))
        c.update([answered[i]], (hear, [0]), (drop, [1]))
        c.update([known[i]], (mine, [1]), (hear, [0]))
        c.update([target[i]], (served, [chosen[i]]))
    c.update([busy], (served, [1]), (granted, [0]))
    c.update([is_write], (served, [served_write]))
    c.update([exclusive], (granted, [is_write]))
    holds = [c.disj(s, o) for s, o in zip(shares, owns)]
    others = [c.any(holds[:i] + holds[i + 1 :]) for i in range(n)]
    c.bads.append(c.any([c.conj(o, other) for o, other in zip(owns, others)]))


@family(1, 2, 3, 4)
def window(c, b, bug):
    """Numbered words over a line that loses and doubles, several under way: they come once each, in order."""
    wide_, most = b + 2, (1 << b) - (0 if bug else 1)
    base, wanted, word, receipt = (c.register(wide_) for _ in range(4))
    is_word, is_receipt = c.latch(), c.latch()
    offset = c.free(b)
    sends, loses, takes, answers, loses_receipt, hears = c.free(6)
    sends = c.conj(sends, c.less(offset, constant(most, b + 1)))
    c.update(word, (sends, c.plus(base, offset)[0]))
    c.update([is_word], (sends, [1]), (loses, [0]))
    fits = c.all([takes, is_word, c.same(word[:b], wanted[:b])])
    c.update(wanted, (fits, c.plus(wanted, [1])[0]))
    c.update(receipt, (answers, wanted))
    heard = c.conj(hears, is_receipt)
    c.update([is_receipt], (answers, [1]), (c.disj(loses_receipt, heard), [0]))
    gap = c.minus(receipt[:b], base[:b])[0]
    c.update(base, (heard, c.plus(base, gap)[0]))
    c.bads.append(c.conj(fits, c.same(word, wanted) ^ 1))


@family((1, 3), (1, 5), (2, 7), (2, 9))
def time_outs(c, tag_bits, timer_bits, bug):
    """A bus whose slave answers late or never, so that a master gives up: no answer is taken for that of another
    request."""
    stages = 2
    starts, answers = c.input(), c.input()
    datum = c.free(2)
    busy, tag, timer, asked = c.latch(), c.register(tag_bits), c.register(timer_bits), c.register(2)
    has, has_tag, has_datum = c.latch(), c.register(tag_bits), c.register(2)
    line = [(c.latch(), c.register(tag_bits), c.register(2)) for _ in range(stages)]
    comes, comes_tag, comes_datum = line[-1]
    taken = c.all([busy, comes, c.same(comes_tag, tag)])
    over = c.all([busy, c.all(timer), taken ^ 1])
    begins = c.conj(starts, busy ^ 1)
    c.update([busy], (begins, [1]), (c.disj(taken, over), [0]))
    c.update(timer, (begins, constant(0, timer_bits)), (busy, c.plus(timer, [1])[0]))
    c.update(tag, (taken if bug else c.disj(taken, over), c.plus(tag, [1])[0]))
    c.update(asked, (begins, datum))
    sends = c.conj(has, answers)
    c.update([has], (begins, [1]), (sends, [0]))
    c.update(has_tag, (begins, tag))
    c.update(has_datum, (begins, datum))
    before = (sends, has_tag, has_datum)
    for is_full, own_tag, own_datum in line:
        c.update([is_full], (1, [before[0]]))
        c.follow(own_tag, before[1])
        c.follow(own_datum, before[2])
        before = (is_full, own_tag, own_datum)
    c.bads.append(c.conj(taken, c.same(comes_datum, asked) ^ 1))


@family(3, 4, 5, 6)
def token_bus(c, n, bug):
    """Stations on a bus join and leave a ring of successors while they have the token: the ring loses no station."""
    bits = bits_of(n)
    pick, joins, leaves, passes = c.free(bits), c.input(), c.input(), c.input()
    chosen = c.decode(pick, n)
    member = [c.latch(int(i < 2)) for i in range(n)]
    after = [c.register(bits, {0: 1}.get(i, 0)) for i in range(n)]
    token, before = c.register(bits), c.register(bits, 1)
    at, at_before = c.decode(token, n), c.decode(before, n)
    target, size = c.select(at, after), c.register(bits_of(n + 1), 2)
    is_member = c.any([c.conj(p, m) for p, m in zip(chosen, member)])
    exists = c.any(chosen)
    join = c.all([joins, exists, is_member ^ 1])
    # The one that has the token leaves, if it is not alone: its predecessor goes on to its successor.
    leave = c.all([leaves, joins ^ 1, c.equal(size, 1) ^ 1])
    move = c.all([passes, joins ^ 1, leaves ^ 1])
    for i in range(n):
        c.update([member[i]], (c.conj(join, chosen[i]), [1]), (c.conj(leave, at[i]), [0]))
        c.update(
            after[i],
            (c.conj(join, at[i]), pick),
            (c.conj(join, chosen[i]), target),
            (c.conj(leave, at_before[i]), target),
        )
    c.update(token, (c.disj(leave, move), target))
    # Who joins stands behind the one that has the token, and is not before it.
    stands = 0 if bug else c.conj(join, c.same(target, token))
    c.update(before, (stands, pick), (move, token))
    c.update(size, (join, c.plus(size, [1])[0]), (leave, c.minus(size, [1])[0]))
    held = c.select(c.decode(token, n), [[m] for m in member])[0]
    c.bads.append(held ^ 1)


@family(3, 5, 8, 12)
def barrier(c, n, bug):
    """Processes meet at a barrier whose sense turns when the last one comes: none is two rounds ahead."""
    bits = bits_of(n + 1)
    chosen = c.decode(c.free(bits_of(n)), n)
    rounds = [c.register(2) for _ in range(n)]
    waits, senses = c.register(n), c.register(n)
    count, sense = c.register(bits), c.latch()
    comes = c.any([c.all([p, w ^ 1]) for p, w in zip(chosen, waits)])
    last = c.conj(comes, c.equal(count, n - 1))
    for i in range(n):
        arrives = c.all([chosen[i], waits[i] ^ 1])
        leaves = c.all([chosen[i], waits[i], c.xor(senses[i], sense)])
        c.update([waits[i]], (arrives, [1]), (leaves, [0]))
        c.update([senses[i]], (arrives, [sense]))
        c.update(rounds[i], (leaves, c.plus(rounds[i], [1])[0]))
    c.update([sense], (last, [sense ^ 1]))
    # With the bug each fourth round of the first one begins with one that has not come.
    early = c.all([int(bug), *rounds[0]])
    c.update(count, (c.conj(last, early), constant(1, bits)), (last, [0] * bits), (comes, c.plus(count, [1])[0]))
    apart = [c.equal(c.minus(x, y)[0], 2) for i, x in enumerate(rounds) for y in rounds[:i]]
    c.bads.append(c.any(apart))


@family((3, 3), (4, 4), (6, 6), (8, 8))
def bit_arbitration(c, n, width, bug):
    """Stations send their numbers bit by bit, and fall silent where they hear a 0 in place of their 1: one is left."""
    starts, asks = c.input(), c.free(n)
    given, names = [c.free(width) for _ in range(n)], [c.register(width) for _ in range(n)]
    differ = [c.same(x, y) ^ 1 for i, x in enumerate(given) for y in given[:i]]
    active, place, runs, done = c.register(n), c.register(bits_of(width), width - 1), c.latch(), c.latch()
    at = c.decode(place, width)
    sent = [c.any([c.conj(p, x) for p, x in zip(at, name)]) for name in names]
    low = c.any([c.conj(a, s ^ 1) for a, s in zip(active, sent)])
    begins, last = c.all([starts, runs ^ 1, done ^ 1, *differ]), at[0]
    for i in range(n):
        c.update(names[i], (begins, given[i]))
        silent = c.conj(low, sent[i])
        if bug and i == n - 1:
            silent = c.conj(silent, last ^ 1)
        c.update([active[i]], (begins, [asks[i]]), (runs, [c.conj(active[i], silent ^ 1)]))
    c.update([runs], (begins, [1]), (last, [0]))
    c.update([done], (c.conj(runs, last), [1]))
    c.update(place, (runs, c.minus(place, [1])[0]))
    c.bads.append(c.conj(done, c.two_of(active)))


@family((4, 2), (6, 3), (8, 4), (12, 4))
def weighted(c, n, width, bug):
    """An arbiter by turns that gives each one as many grants a round as it weighs: grants and credits are its
    weight."""
    asks = c.free(n)
    weights = [constant(i % ((1 << width) - 1) + 1, width) for i in range(n)]
    credits, given = [c.register(width, i % ((1 << width) - 1) + 1) for i in range(n)], []
    wants = [c.conj(a, c.any(x)) for a, x in zip(asks, credits)]
    grants, renews = c.first_of(wants), c.conj(c.any(wants) ^ 1, c.any(asks))
    for i in range(n):
        given.append(c.register(width))
        spends = grants[i]
        if bug and i == n - 1:
            spends = c.conj(spends, c.conj(asks[0], c.equal(credits[i], 1)) ^ 1)
        c.update(credits[i], (renews, weights[i]), (spends, c.minus(credits[i], [1])[0]))
        c.update(given[i], (renews, constant(0, width)), (grants[i], c.plus(given[i], [1])[0]))
    sums = [c.same(c.plus(x, y)[0], w) for x, y, w in zip(credits, given, weights)]
    c.bads.append(c.all(sums) ^ 1)


@family((4, 2), (6, 3), (10, 4), (16, 6))
def railway(c, n, trains, bug):
    """Two loops of track with a section in common, and trains on each: a section that is taken is not entered."""
    bits = bits_of(2 * n - 1)
    goes = c.free(trains)
    # The section 0 is in both loops; the others of the second one are n and above.
    places = [(i // 2 + 1) * (n // (trains // 2 + 2)) + (n - 1) * (i % 2) for i in range(trains)]
    at = [c.register(bits, place) for place in places]
    taken = [c.latch(int(section in places)) for section in range(2 * n - 1)]
    enters, leaves, entering = [[] for _ in taken], [[] for _ in taken], 0
    for i, place in enumerate(at):
        here = c.decode(place, 2 * n - 1)
        loop = [0, *range(1, n)] if i % 2 == 0 else [0, *range(n, 2 * n - 1)]
        after = [loop[(k + 1) % n] for k in range(n)]
        is_free = c.any([c.conj(here[s], taken[t] ^ 1) for s, t in zip(loop, after)])
        moves = c.conj(goes[i], is_free)
        to_common = c.conj(moves, here[loop[-1]])
        if not (bug and i == trains - 1):
            moves = c.conj(moves, c.conj(to_common, entering) ^ 1)
        entering = c.disj(entering, to_common)
        c.update(place, (moves, c.select([here[s] for s in loop], [constant(t, bits) for t in after])))
        for s, t in zip(loop, after):
            enters[t].append(c.conj(moves, here[s]))
            leaves[s].append(c.conj(moves, here[s]))
    for latch, come, go in zip(taken, enters, leaves):
        c.update([latch], (c.any(come), [1]), (c.any(go), [0]))
    c.bads.append(c.any([c.same(x, y) for i, x in enumerate(at) for y in at[:i]]))


# Numbers.


@family(2, 4, 6, 8)
def booth(c, width, bug):
    """A multiplier by Booth's digits of two bits beside one by single bits: in the end they have the same product."""
    starts, x, y = c.input(), c.free(width), c.free(width)
    wide_ = 2 * width + 2
    a, a4 = c.register(2 * width), c.register(wide_)
    b, digits = c.register(width), c.register(width + 3)
    total, booths = c.register(2 * width), c.register(wide_)
    count, busy, done = c.register(bits_of(width + 1)), c.latch(), c.latch()
    begins, last = c.conj(starts, busy ^ 1), c.equal(count, 1)
    c.update([busy], (begins, [1]), (c.conj(busy, last), [0]))
    c.update([done], (begins, [0]), (c.conj(busy, last), [1]))
    c.update(count, (begins, constant(width, len(count))), (busy, c.minus(count, [1])[0]))
    c.update(a, (begins, wide(x, 2 * width)), (busy, [0, *a[:-1]]))
    c.update(b, (begins, y), (busy, [*b[1:], 0]))
    c.update(total, (begins, [0] * 2 * width), (busy, c.choose(b[0], c.plus(total, a)[0], total)))
    # A digit is the lowest bit and the two above it: -2, -1, 0, 1 or 2.
    low, mid, high = digits[:3]
    one, two = c.xor(low, mid), c.conj(c.xor(high, mid), c.xor(mid, low) ^ 1)
    if bug:
        two = c.conj(two, c.all([high, c.equal(count, width // 2 + 1), a4[width - 1]]) ^ 1)
    part = [c.disj(c.conj(one, p), c.conj(two, q)) for p, q in zip(a4, [0, *a4[:-1]])]
    signed = [c.xor(p, high) for p in part]
    c.update(a4, (begins, wide(x, wide_)), (busy, [0, 0, *a4[:-2]]))
    c.update(digits, (begins, [0, *y, 0, 0]), (busy, [*digits[2:], 0, 0]))
    c.update(booths, (begins, [0] * wide_), (busy, c.plus(booths, signed, high)[0]))
    c.bads.append(c.conj(done, c.same(total, booths[: 2 * width]) ^ 1))


@family(2, 3, 4, 6)
def two_dividers(c, width, bug):
    """A divider that takes back what does not fit beside one that adds it in the next step: they have the same
    quotient."""
    starts, x, y = c.input(), c.free(width), c.free(width)
    wide_ = width + 2
    left, left_, divisor = c.register(width), c.register(width), c.register(width, 1)
    rest, signed = c.register(wide_), c.register(wide_)
    quotient, quotient_ = c.register(width), c.register(width)
    count, busy, done = c.register(bits_of(width + 1)), c.latch(), c.latch()
    begins, last = c.all([starts, busy ^ 1, c.any(y)]), c.equal(count, 1)
    c.update([busy], (begins, [1]), (c.conj(busy, last), [0]))
    c.update([done], (begins, [0]), (c.conj(busy, last), [1]))
    c.update(count, (begins, constant(width, len(count))), (busy, c.minus(count, [1])[0]))
    c.update(divisor, (begins, y))
    for word in (left, left_):
        c.update(word, (begins, x), (busy, [0, *word[:-1]]))
    next_ = [left[-1], *rest[:-1]]
    less, is_less = c.minus(next_, divisor)
    c.update(rest, (begins, [0] * wide_), (busy, c.choose(is_less, next_, less)))
    c.update(quotient, (begins, [0] * width), (busy, [is_less ^ 1, *quotient[:-1]]))
    # The rest is in two's complement; it is added to where it is negative.
    shifted, negative = [left_[-1], *signed[:-1]], signed[-1]
    if bug:
        negative = c.conj(negative, c.conj(c.equal(divisor, (1 << width) - 1), last) ^ 1)
    step = c.plus(shifted, [c.xor(d, negative ^ 1) for d in wide(divisor, wide_)], negative ^ 1)[0]
    c.update(signed, (begins, [0] * wide_), (busy, step))
    c.update(quotient_, (begins, [0] * width), (busy, [step[-1] ^ 1, *quotient_[:-1]]))
    c.bads.append(c.conj(done, c.same(quotient, quotient_) ^ 1))


@family((8, 3), (16, 4), (24, 5), (32, 6))
def late_carry(c, width, low_bits, bug):
    """A counter whose carry comes a moment late beside a plain one: where none is under way they are the same."""
    step = c.input()
    plain, low, high, carry = c.register(width), c.register(low_bits), c.register(width - low_bits), c.latch()
    c.update(plain, (step, c.plus(plain, [1])[0]))
    c.update(low, (step, c.plus(low, [1])[0]))
    c.next(carry, c.conj(step, c.all(low)))
    applied = c.conj(carry, c.disj(step, c.all(high[:2]) ^ 1)) if bug else carry
    c.update(high, (applied, c.plus(high, [1])[0]))
    c.bads.append(c.conj(carry ^ 1, c.same(plain, low + high) ^ 1))


@family((12, 3), (20, 4), (26, 5), (32, 8))
def prescaled(c, width, low_bits, bug):
    """A counter with its own look-ahead of carries beside one with a carry through all bits, up to a limit: both stop
    there."""
    step, limit = c.input(), (1 << (width - 1)) + 5
    plain = c.register(width)
    blocks = [c.register(min(low_bits, width - i)) for i in range(0, width, low_bits)]
    ends = c.equal(plain, limit)
    joined = [x for block in blocks for x in block]
    ends_ = c.equal(joined, limit)
    c.update(plain, (c.conj(step, ends ^ 1), c.plus(plain, [1])[0]))
    carry = c.conj(step, ends_ ^ 1)
    for i, block in enumerate(blocks):
        full = c.all(block)
        c.update(block, (carry, c.plus(block, [1])[0]))
        carry = c.conj(carry, c.all(block[1:]) if bug and i == 1 else full)
    c.bads.append(c.same(plain, joined) ^ 1)


@family((2, 3), (3, 3), (4, 4), (6, 5))
def tally(c, n, width, bug):
    """Counters of what comes to each of several places and goes on from one to another: their sum is the count of
    all."""
    bits = bits_of(n)
    from_, to, comes = c.decode(c.free(bits), n), c.decode(c.free(bits), n), c.input()
    counts, total = [c.register(width) for _ in range(n)], c.register(width)
    has = c.any([c.conj(f, c.any(x)) for f, x in zip(from_, counts)])
    adds = c.conj(comes, c.any(to))
    moves = c.all([comes ^ 1, has, c.any(to)])
    for f, t, count in zip(from_, to, counts):
        here = c.conj(f, t) if not bug else 0
        up = c.conj(t, c.disj(adds, c.conj(moves, here ^ 1)))
        down = c.all([f, moves, here ^ 1])
        c.update(count, (up, c.plus(count, [1])[0]), (down, c.minus(count, [1])[0]))
    c.update(total, (adds, c.plus(total, [1])[0]))
    sum_ = constant(0, width)
    for count in counts:
        sum_ = c.plus(sum_, count)[0]
    c.bads.append(c.same(sum_, total) ^ 1)


# Copies of one behaviour.


@family(8, 16, 24, 32)
def two_feedbacks(c, n, bug):
    """A shift register with one sum of its taps, and one with sums between its places: they give the same bits."""
    taps = [*sorted(random.Random(n).sample(range(1, n), 3)), n]
    bits = [1] + [0] * (n - 1)
    # What the taps have added to a bit before it comes out is no part of the start.
    start = [(bits[i] + sum(bits[i - t] for t in taps if t <= i)) & 1 for i in range(n)]
    plain, between = [c.latch(x) for x in bits], [c.latch(x) for x in start]
    total = 0
    for t in taps:
        total = c.xor(total, plain[n - t])
    c.follow(plain, [*plain[1:], total])
    out = between[0]
    fed = [c.xor(between[i + 1], out) if i + 1 in taps else between[i + 1] for i in range(n - 1)]
    if bug:
        # A bit is wrong in one of the states.
        for _ in range(40 * n):
            bits = [*bits[1:], sum(bits[n - t] for t in taps) & 1]
        out = c.xor(out, c.all([x if bit else x ^ 1 for x, bit in zip(plain, bits)]))
    c.follow(between, [*fed, out])
    c.bads.append(c.xor(plain[0], out))


@family((4, 1), (8, 1), (8, 2), (16, 2))
def two_ended(c, n, width, bug):
    """A queue with two ends in a ring, and one that shifts: they have the same first and last words."""
    bits = bits_of(n)
    word, front, push, pop = c.free(width), c.input(), c.input(), c.input()
    head, size = c.register(bits), c.register(bits + 1)
    ring, row = [c.register(width) for _ in range(n)], [c.register(width) for _ in range(n)]
    push = c.conj(push, c.equal(size, n) ^ 1)
    pop = c.all([pop, push ^ 1, c.any(size)])
    before, behind = c.minus(head, [1])[0], c.plus(head, size[:bits])[0]
    if bug:
        wraps = c.all([c.equal(head, 1), c.equal(size, n - 1)])
        before = c.choose(wraps, c.minus(head, [0, 1])[0], before)
    put = c.decode(c.choose(front, before, behind), n)
    for place, word_ in zip(put, ring):
        c.update(word_, (c.conj(push, place), word))
    c.update(head, (c.conj(push, front), before), (c.conj(pop, front), c.plus(head, [1])[0]))
    c.update(size, (push, c.plus(size, [1])[0]), (pop, c.minus(size, [1])[0]))
    at_size = c.decode(size, n)
    for i, word_ in enumerate(row):
        shifts = (c.conj(push, front), row[i - 1] if i else word)
        falls = (c.conj(pop, front), row[i + 1] if i + 1 < n else word_)
        c.update(word_, shifts, falls, (c.conj(push, at_size[i]), word))
    last = c.minus(behind, [1])[0]
    first_ring, last_ring = c.select(c.decode(head, n), ring), c.select(c.decode(last, n), ring)
    last_row = c.select(c.decode(c.minus(size, [1])[0], n), row)
    differ = c.disj(c.same(first_ring, row[0]) ^ 1, c.same(last_ring, last_row) ^ 1)
    c.bads.append(c.conj(c.any(size), differ))


@family((3, 2), (4, 3), (6, 3), (10, 4))
def sorted_queue(c, n, width, bug):
    """A queue that gives its least key first, whose places compare a new key at once: it is in order, and loses no
    key."""
    key, push, pop = c.free(width), c.input(), c.input()
    begun, mark, count, size = c.latch(), c.register(width), c.register(bits_of(n + 1)), c.register(bits_of(n + 1))
    places = [c.register(width) for _ in range(n)]
    push = c.all([push, begun, c.equal(size, n) ^ 1])
    pop = c.all([pop, push ^ 1, c.any(size)])
    full = [c.less(constant(i, len(size)), size) for i in range(n)]
    later = [c.disj(f ^ 1, c.less(key, p)) for f, p in zip(full, places)]
    if bug:
        later[-2] = c.disj(full[-2] ^ 1, c.less(key[:-1], places[-2][:-1]))
    c.next(begun, 1)
    c.update(mark, (begun ^ 1, key))
    for i, place in enumerate(places):
        shifted = c.choose(later[i - 1], places[i - 1], key) if i else key
        c.update(place, (c.conj(push, later[i]), shifted), (pop, places[i + 1] if i + 1 < n else place))
    c.update(size, (push, c.plus(size, [1])[0]), (pop, c.minus(size, [1])[0]))
    comes, goes = c.conj(push, c.same(key, mark)), c.conj(pop, c.same(places[0], mark))
    c.update(count, (comes, c.plus(count, [1])[0]), (goes, c.minus(count, [1])[0]))
    marked = constant(0, len(count))
    for f, place in zip(full, places):
        marked = c.plus(marked, [c.conj(f, c.same(place, mark))])[0]
    wrong = [c.conj(f, c.less(q, p)) for f, p, q in zip(full[1:], places, places[1:])]
    c.bads.append(c.disj(c.any(wrong), c.same(marked, count) ^ 1))


@family((6, 4), (10, 6), (16, 8), (28, 10))
def moved_registers(c, n, depth, bug):
    """Random gates in layers, with registers behind other layers in a second copy: what comes out is the same."""
    rng = random.Random(1000 * n + depth)
    layers = [[(rng.randrange(4), *rng.sample(range(n), 2)) for _ in range(n)] for _ in range(depth)]

    def through(word, begin, end):
        for layer in layers[begin:end]:
            kinds = (c.conj, c.disj, c.xor, c.xor)
            word = [kinds[kind](word[i], word[j] ^ (i < j)) for kind, i, j in layer]
        return word

    stop, word, outs = c.input(), c.free(n), []
    first = c.register(n)
    c.update(first, (stop ^ 1, word))
    for cuts in ((depth // 4, depth // 2), (depth // 2, depth)):
        held, begin = first, 0
        for end in cuts:
            before, held = held, [c.latch(x) for x in through([0] * n, 0, end)]
            c.update(held, (stop ^ 1, through(before, begin, end)))
            begin = end
        outs.append(through(held, begin, depth))
    if bug:
        outs[1][0] = c.xor(outs[1][0], c.all(first[:12]))
    c.bads.append(c.same(*outs) ^ 1)


@family((2, 1, 2), (4, 1, 3), (4, 2, 4), (8, 2, 4))
def rollback(c, n, width, most, bug):
    """Words that go back to a state that was kept, by a copy and by a list of old values: they are the same."""
    bits = bits_of(n)
    place, at, word = c.free(bits), c.free(bits), c.free(width)
    writes, keeps, drops, undoes = c.free(4)
    kept, count = c.latch(), c.register(bits_of(most + 1))
    plain, copy, own = ([c.register(width) for _ in range(n)] for _ in range(3))
    log = [(c.register(bits), c.register(width)) for _ in range(most)]
    fits = c.disj(kept ^ 1, c.equal(count, most) ^ 1)
    undo = c.conj(undoes, kept)
    write = c.all([writes, undo ^ 1, fits])
    keep = c.all([keeps, writes ^ 1, kept ^ 1])
    drop = c.all([drops, writes ^ 1, undo ^ 1, kept])
    chosen = c.decode(place, n)
    c.update([kept], (keep, [1]), (c.disj(undo, drop), [0]))
    logs = c.conj(write, kept)
    c.update(count, (keep, constant(0, len(count))), (logs, c.plus(count, [1])[0]))
    old = c.select(chosen, own)
    for i, (log_place, log_word) in enumerate(log):
        here = c.conj(logs, c.equal(count, i))
        c.update(log_place, (here, place))
        c.update(log_word, (here, old))
    for i in range(n):
        own_write = c.conj(write, chosen[i])
        c.update(plain[i], (own_write, word), (undo, copy[i]))
        c.update(copy[i], (keep, plain[i]))
        entries = [c.conj(c.less(constant(j, len(count)), count), c.equal(p, i)) for j, (p, _) in enumerate(log)]
        oldest = c.first_of(entries[::-1])[::-1] if bug else c.first_of(entries)
        before = c.choose(c.any(entries), c.select(oldest, [w for _, w in log]), own[i])
        c.update(own[i], (own_write, word), (undo, before))
    shown = c.decode(at, n)
    c.bads.append(c.same(c.select(shown, plain), c.select(shown, own)) ^ 1)


@family((3, 1), (4, 2), (6, 2), (8, 3))
def stack_machine(c, n, width, bug):
    """A machine with a stack whose top is in a register, and one that shifts its stack: they have the same top."""
    word, action = c.free(width), c.decode(c.free(3), 5)
    size, top, below = c.register(bits_of(n + 1)), c.register(width), [c.register(width) for _ in range(n - 1)]
    row = [c.register(width) for _ in range(n)]
    some, two = c.any(size), c.less([1], size)
    push = c.all([action[0], c.equal(size, n) ^ 1])
    pop, add, swap = c.conj(action[1], some), c.conj(action[2], two), c.conj(action[3], two)
    double = c.all([action[4], some, c.equal(size, n) ^ 1])
    height = c.minus(size, [1])[0]
    under = c.minus(size, [0, 1])[0]
    second = c.select(c.decode(under, n - 1), below)
    grows, shrinks = c.disj(push, double), c.disj(pop, add)
    c.update(size, (grows, c.plus(size, [1])[0]), (shrinks, height))
    c.update(top, (push, word), (pop, second), (add, c.plus(top, second)[0]), (swap, second))
    swaps = c.conj(swap, c.equal(size, n) ^ 1) if bug else swap
    for i, place in enumerate(below):
        pushed, swapped = c.all([grows, some, c.equal(height, i)]), c.conj(swaps, c.equal(under, i))
        c.update(place, (c.disj(pushed, swapped), top))
    for i, place in enumerate(row):
        after = row[i + 1] if i + 1 < n else place
        grown = row[i - 1] if i else c.choose(push, word, place)
        rules = [(grows, grown)]
        if i == 0:
            rules += [(pop, after), (add, c.plus(place, after)[0]), (swap, after)]
        else:
            rules += [(shrinks, after)] + [(swap, row[0])] * (i == 1)
        c.update(place, *rules)
    c.bads.append(c.conj(some, c.same(top, row[0]) ^ 1))


@family(2, 3, 4, 5)
def buddies(c, height, bug):
    """Blocks that are halved as they are wanted, with a bit for each that a part of it is taken: none is taken
    twice."""
    n = 2 << height
    asks, frees = c.input(), c.input()
    chosen = c.decode(c.free(height + 1), n)
    taken, parted = c.register(n), c.register(n)
    above = [[] if v < 2 else [v >> i for i in range(1, v.bit_length())] for v in range(n)]
    gives = [0] * n
    for v in range(1, n):
        is_free = c.any([taken[v], parted[v], *(taken[u] for u in above[v])]) ^ 1
        gives[v] = c.all([asks, chosen[v], is_free])
    back = [0] + [c.all([frees, asks ^ 1, chosen[v], taken[v]]) for v in range(1, n)]
    # Whether nothing below a block is taken any more, since the last part comes back.
    clears = [0] * n
    for v in reversed(range(1, n // 2)):
        for own, other in ((2 * v, 2 * v + 1), (2 * v + 1, 2 * v)):
            empty = 1 if bug and v == n // 2 - 1 and own > other else c.any([taken[other], parted[other]]) ^ 1
            clears[v] = c.disj(clears[v], c.conj(c.disj(back[own], clears[own]), empty))
    for v in range(1, n):
        below = [u for u in range(v + 1, n) if v in above[u]]
        c.update([taken[v]], (gives[v], [1]), (back[v], [0]))
        c.update([parted[v]], (c.any([gives[u] for u in below]), [1]), (clears[v], [0]))
    c.bads.append(c.any([c.conj(taken[v], taken[u]) for v in range(1, n) for u in above[v]]))


# What never ends. The justice property is that somebody waits for ever.


@family(3, 4, 6, 8, kind=LIVE)
def lift_calls(c, n, bug):
    """A lift that goes on in its direction while somebody calls there; with the bug it goes up wherever one calls
    above."""
    calls = c.register(n)
    at, up = [c.latch(int(i == 0)) for i in range(n)], c.latch(1)
    asks = c.free(n)
    below, above = [0] * n, [0] * n
    for i in range(1, n):
        below[i] = c.disj(below[i - 1], calls[i - 1])
    for i in reversed(range(n - 1)):
        above[i] = c.disj(above[i + 1], calls[i + 1])
    is_above = c.any([c.conj(a, x) for a, x in zip(at, above)])
    is_below = c.any([c.conj(a, x) for a, x in zip(at, below)])
    stops = c.any([c.conj(a, x) for a, x in zip(at, calls)])
    goes_up = is_above if bug else c.disj(c.conj(up, is_above), c.conj(is_above, is_below ^ 1))
    goes_down = c.conj(is_below, goes_up ^ 1)
    c.update([up], (stops, [up]), (goes_up, [1]), (goes_down, [0]))
    for i in range(n):
        to = [at[i - 1] if i else at[i], at[i + 1] if i + 1 < n else at[i]]
        c.update([at[i]], (stops, [at[i]]), (goes_up, [to[0] if i else 0]), (goes_down, [to[1] if i + 1 < n else 0]))
        c.update([calls[i]], (c.conj(at[i], calls[i]), [0]), (asks[i], [1]))
    live.waiting(c, c.conj(asks[0], at[0] ^ 1), c.conj(at[0], calls[0]))


@family(3, 4, 6, 8, kind=LIVE)
def aging(c, n, bug):
    """An arbiter that grants the one that waits longest, by counts that stop at their end; with the bug they end too
    soon."""
    width = 1 if bug else bits_of(n + 1)
    asks = c.free(n - 1)
    ages, waits = [c.register(width) for _ in range(n)], c.register(n)
    wants = [c.disj(w, a) for w, a in zip(waits, [*asks, 0])]
    best, chosen = [0] * width, [0] * n
    for i in range(n):
        older = c.conj(wants[i], c.disj(c.less(best, ages[i]), c.any(chosen) ^ 1))
        chosen = [c.conj(x, older ^ 1) for x in chosen]
        chosen[i] = older
        best = c.choose(older, ages[i], best)
    for i in range(n):
        c.next(waits[i], c.conj(wants[i], chosen[i] ^ 1) if i < n - 1 else 1)
        older = c.choose(c.all(ages[i]), ages[i], c.plus(ages[i], [1])[0])
        c.update(ages[i], (chosen[i], [0] * width), (wants[i], older))
    live.waiting(c, 1, chosen[-1])


@family(1, 2, 4, 6, kind=LIVE)
def retries(c, width, bug):
    """A word that is sent again when a timer has run out, over a line that lets words and answers through again and
    again; with the bug it may lose all answers."""
    passes, loses, passes_answer, loses_answer = c.free(4)
    number, wanted, sent, answered, timer = c.latch(), c.latch(), c.latch(), c.latch(), c.register(width)
    out = c.all(timer)
    arrives, heard = c.conj(sent, passes), c.conj(answered, passes_answer)
    fits = c.conj(heard, c.xor(number, wanted))
    c.update([sent], (out, [1]), (c.disj(arrives, loses), [0]))
    c.update([wanted], (c.conj(arrives, c.xor(number, wanted) ^ 1), [wanted ^ 1]))
    c.update([answered], (arrives, [1]), (c.disj(heard, loses_answer), [0]))
    c.update([number], (fits, [number ^ 1]))
    c.update(timer, (fits, [0] * width), (1, c.plus(timer, [1])[0]))
    c.fairness += [arrives] if bug else [arrives, heard]
    live.waiting(c, 1, fits)


@family(2, 3, 4, 6, kind=LIVE)
def philosophers_eat(c, n, bug):
    """Philosophers at a table, half of which take the right fork first; with the bug all take the left one, and may
    starve."""
    chosen = c.decode(c.free(bits_of(n)), n)
    first, both, forks = c.register(n), c.register(n), c.register(n)
    takes, gives, eats = [[] for _ in range(n)], [[] for _ in range(n)], []
    for i in range(n):
        left, right = i, (i + 1) % n
        one, two = (right, left) if i == 0 and not bug else (left, right)
        begins = c.all([chosen[i], first[i] ^ 1, forks[one] ^ 1])
        goes_on = c.all([chosen[i], first[i], both[i] ^ 1, forks[two] ^ 1])
        ends = c.conj(chosen[i], both[i])
        c.update([first[i]], (begins, [1]), (ends, [0]))
        c.update([both[i]], (goes_on, [1]), (ends, [0]))
        takes[one].append(begins)
        takes[two].append(goes_on)
        gives[left].append(ends)
        gives[right].append(ends)
        eats.append(goes_on)
    for fork, take, give in zip(forks, takes, gives):
        c.update([fork], (c.any(take), [1]), (c.any(give), [0]))
    c.fairness += chosen
    live.waiting(c, 1, c.any(eats))


@family(2, 3, 4, 5, kind=LIVE)
def filter_lock(c, n, bug):
    """Processes pass one level after another, at each of which the last one to come waits; with the bug all but the
    first one come to the top without saying so."""
    bits = bits_of(n + 1)
    chosen, asks = c.decode(c.free(bits_of(n)), n), c.input()
    levels, last = [c.register(bits) for _ in range(n)], [c.register(bits_of(n)) for _ in range(n + 1)]
    comes = [[0] * n for _ in range(n + 1)]
    for i, level in enumerate(levels):
        at = c.decode(level, n + 1)
        comes[1][i] = c.all([chosen[i], at[0], asks])
        for k in range(1, n):
            others = [c.less(other, constant(k, bits)) for j, other in enumerate(levels) if j != i]
            is_free = c.disj(c.all(others), c.equal(last[k], i) ^ 1)
            comes[k + 1][i] = c.all([chosen[i], at[k], is_free])
        up, ends = c.any([row[i] for row in comes]), c.conj(chosen[i], at[n])
        c.update(level, (up, c.plus(level, [1])[0]), (ends, [0] * bits))
    for k, word in enumerate(last):
        told = [0 if bug and k == n - 1 and i > 0 else come for i, come in enumerate(comes[k])]
        c.update(word, *((come, constant(i, len(word))) for i, come in enumerate(told)))
    c.fairness += chosen
    live.waiting(c, comes[1][0], c.equal(levels[0], n))


@family(2, 4, 8, 15, kind=LIVE)
def credits_return(c, n, bug):
    """A sender with credits, of which one comes back for each word that is taken out; with the bug one is lost that
    comes back where there is none."""
    bits = bits_of(n + 1)
    sends, takes = c.input(), c.input()
    credit, held, back = c.register(bits, n), c.register(bits), c.latch()
    sent = c.conj(sends, c.any(credit))
    taken = c.conj(takes, c.any(held))
    both = c.conj(sent, back)
    less, more = c.minus(credit, [1])[0], c.plus(credit, [1])[0]
    lost = c.conj(back, c.any(credit) ^ 1) if bug else 0
    c.update(credit, (c.disj(both, lost), credit), (sent, less), (back, more))
    c.update(held, (c.conj(sent, taken), held), (sent, c.plus(held, [1])[0]), (taken, c.minus(held, [1])[0]))
    c.next(back, taken)
    c.fairness += [c.disj(taken, c.any(held) ^ 1), sends]
    live.waiting(c, 1, sent)


@family((2, 2), (3, 2), (4, 3), (8, 4), kind=LIVE)
def slow_turns(c, n, width, bug):
    """Clients have turns of some length each, which end at once where they do not ask; with the bug one that asks goes
    on."""
    asks = c.free(n - 1)
    turn = [c.latch(int(i == 0)) for i in range(n)]
    time = c.register(width)
    own = c.any([c.conj(t, a) for t, a in zip(turn, [*asks, 1])])
    last = c.conj(turn[0], asks[0] ^ 1) if bug else c.disj(own ^ 1, c.all(time))
    ends = c.disj(last, c.all([turn[0] ^ 1, c.all(time)])) if bug else last
    for i, latch in enumerate(turn):
        c.update([latch], (ends, [turn[i - 1]]))
    c.update(time, (ends, [0] * width), (own, c.plus(time, [1])[0]))
    live.waiting(c, 1, turn[-1])


# Many bad literals.


@family(8, 12, 16, kind=MANY)
def in_time(c, n, bug):
    """Clients that get turns behind the one who had the last: no two have one at once, and each waits for fewer
    than n moments."""
    asks, turn = c.free(n), [c.latch(int(i == 0)) for i in range(n)]
    grants, free = [0] * n, 0
    for j in range(2 * n):
        i = j % n
        free = c.disj(free, turn[i]) if j < n else free
        grants[i] = c.disj(grants[i], c.conj(free, asks[i]))
        free = c.conj(free, asks[i] ^ 1)
    stays = c.all([grants[0], asks[1], asks[2], turn[0]]) if bug else 0
    some = c.any(grants)
    for i in range(n):
        c.update([turn[i]], (stays, [turn[i]]), (some, [grants[i - 1]]))
    width = bits_of(n + 1)
    waits = [c.register(width) for _ in range(n)]
    for grant, ask, waited in zip(grants, asks, waits):
        c.update(waited, (c.disj(grant, ask ^ 1), [0] * width), (1, c.plus(waited, [1])[0]))
    c.bads += [c.conj(grants[i], grants[j]) for i in range(n) for j in range(i)]
    c.bads += [c.equal(waited, n) for waited in waits]


@family(8, 15, 21, kind=MANY)
def one_token(c, n, bug):
    """Stations in a ring that pass a token on, or keep it for a while: no two have one."""
    keeps, tokens = c.free(n), [c.latch(int(i == 0)) for i in range(n)]
    for i in range(n):
        stays = c.conj(tokens[i], keeps[i])
        if bug and i == n - 1:
            stays = c.conj(tokens[i], c.disj(keeps[i], c.conj(keeps[0], keeps[1])))
        c.next(tokens[i], c.disj(stays, c.conj(tokens[i - 1], keeps[i - 1] ^ 1)))
    c.bads += [c.conj(tokens[i], tokens[j]) for i in range(n) for j in range(i)]


def circuits(*kinds):
    """For each circuit of these kinds its name and the circuit."""
    for name, (make, sizes, kind) in FAMILIES.items():
        if kind not in kinds:
            continue
        for size in sizes:
            for bug in (False, True):
                c = Words()
                make(c, *size, bug)
                yield "-".join([name, *map(str, size), "bug" if bug else "right"]), c


def write(folder, kind):
    folder.mkdir(parents=True, exist_ok=True)
    for name, c in circuits(kind):
        (folder / f"{name}.aig").write_bytes(binary(c))
        print(name, flush=True)


def tell():
    for name, (make, sizes, kind) in FAMILIES.items():
        listed = ", ".join("-".join(map(str, size)) for size in sizes)
        about = " ".join(make.__doc__.split())
        print(f"{name} ({'' if kind == ONE else f'{kind}; '}{listed}): {about}")


def main():
    parser = argparse.ArgumentParser(description=__doc__, formatter_class=argparse.RawDescriptionHelpFormatter)
    mode = parser.add_mutually_exclusive_group(required=True)
    mode.add_argument("folder", nargs="?", type=Path, metavar="FOLDER")
    mode.add_argument("--many", type=Path, metavar="FOLDER")
    mode.add_argument("--list", action="store_true")
    mode.add_argument("--print", metavar="NAME")
    mode.add_argument("--live", metavar="GIPMC")
    asked = parser.parse_args()
    if asked.list:
        tell()
    elif asked.live:
        if not shutil.which(asked.live):
            parser.error(f"there is no program '{asked.live}'")
        return 1 if live.beside(asked.live, list(circuits(LIVE))) else 0
    elif asked.print:
        for name, c in circuits(ONE, MANY, LIVE):
            if name == asked.print:
                sys.stdout.write(c.text())
                return 0
        parser.error(f"there is no circuit '{asked.print}'")
    elif asked.many:
        write(asked.many, MANY)
    else:
        write(asked.folder, ONE)
    return 0


if __name__ == "__main__":
    sys.exit(main())
