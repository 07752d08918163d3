"""Still more families of formulas in conjunctive form, for the list `further` of tools/formulas.py.

Each function makes a formula of a generator of random numbers and of sizes, as those of families.py and fresh.py do;
none of them is a family of these modules. Those that say so make the lines of a text, not its clauses.
"""

import collections
import functools
import itertools

from lib.families import (
    Circuit,
    at_most,
    chosen,
    constant,
    deny_equal,
    exactly_one,
    is_equal,
    is_less,
    picked,
    plus,
    regular_graph,
)
from lib.fresh import all_of, any_of, at_least, known_outputs, parity_of, table_clauses, widened

# Large texts.


def implications(rng, variables, clauses, has_model):
    """The lines of a large text whose clauses have two drawn literals each, of which a drawn assignment makes one true
    where it has a model."""
    yield f"p cnf {variables} {clauses}\n"
    model, every = rng.randbytes(variables + 1), range(1, variables + 1)
    signs = rng.randbytes(clauses)
    for sign in signs:
        a, b = rng.choices(every, k=2)
        is_true = model[a] & 1 if has_model else sign & 2
        yield f"{a if is_true else -a} {b if sign & 1 else -b} 0\n"


def horn_rules(rng, atoms, rules, derived):
    """The lines of a large text of facts, rules by which two or three atoms make another one true, and atoms that are
    denied. No model where these are derived; else each rule for them has one of them."""
    ends = atoms // 1000
    yield f"p cnf {atoms} {rules + 2 * ends}\n"
    names = rng.sample(range(1, atoms + 1), atoms)
    for name in names[:ends]:
        yield f"{name} 0\n"
    cut = atoms // 2
    for k in range(rules):
        head = ends + k % (atoms - ends)
        first = k < atoms - ends
        low = cut if not derived and head >= cut else 0
        body = rng.choices(range(max(0, head - atoms // 20), head) if first else range(atoms), k=rng.choice((2, 3)))
        body[0] = max(body[0], low)
        yield f"{names[head]} {' '.join(str(-names[atom]) for atom in body)} 0\n"
    for name in names[-ends:]:
        yield f"-{name} 0\n"


def features(rng, count, links, wanted, most):
    """A product line: a tree of features, whose children a feature has all, or any of them, or one, or at least one;
    links between features (one asks for others, or shuts one out), that a drawn product keeps; and some features of
    this product that are wanted, with at most so many in all (0: as many as there are)."""
    clauses, product, ready, last = [[1]], {1}, collections.deque([1]), 1
    while last < count:
        parent, size = ready.popleft(), rng.randint(2, 6)
        group = list(range(last + 1, last + 1 + size))
        last += size
        clauses += [[-child, parent] for child in group]
        kind = rng.choice(("all", "any", "one", "some"))
        if kind == "all":
            clauses += [[-parent, child] for child in group]
        elif kind != "any":
            clauses += [[-parent, *group]]
        if kind == "one":
            clauses += [[-a, -b] for a, b in itertools.combinations(group, 2)]
        taken = {"all": size, "any": rng.randint(0, size), "one": 1, "some": rng.randint(1, size)}[kind]
        if parent in product:
            product.update(rng.sample(group, taken))
        ready.extend(rng.sample(group, size))
    kept = sorted(product)
    for _ in range(links):
        a, b, c = rng.sample(range(1, last + 1), 3)
        d, e = rng.choices(kept, k=2)
        link = rng.choice(([-a, b], [-a, -b], [-a, b, c], [-d, e], [-a, e]))
        if any((abs(literal) in product) == (literal > 0) for literal in link):
            clauses.append(link)
    clauses += [[feature] for feature in rng.sample(kept, wanted)]
    if most:
        circuit = Circuit()
        circuit.clauses, circuit.last = clauses, last
        at_most(circuit, range(2, last + 1), most)
    return clauses


def versions(rng, count, each, needs, clashes, has_model):
    """Packages in so many versions each, of which at most one is installed. A version needs some other packages, each
    in a drawn range of versions, and clashes with versions of others; some packages are wanted. A drawn installation
    keeps all of this where it has a model."""
    taken = [rng.randrange(each) for _ in range(count)] if has_model else [-1] * count
    clauses = []
    for package in range(count):
        first = package * each + 1
        clauses += [[-a, -b] for a, b in itertools.combinations(range(first, first + each), 2)]
        for version in range(each):
            for other in rng.choices(range(count), k=rng.randint(0, 2 * needs)):
                low = rng.randrange(each)
                span = range(low, min(each, low + rng.randint(1, each)))
                if taken[package] == version and taken[other] not in span:
                    span = range(min(low, taken[other]), max(low, taken[other]) + 1)
                if other != package:
                    clauses.append([-first - version, *(other * each + 1 + k for k in span)])
            for other in rng.choices(range(count), k=rng.randint(0, 2 * clashes)):
                bad = rng.randrange(each)
                if other != package and not (has_model and taken[package] == version and taken[other] == bad):
                    clauses.append([-first - version, -other * each - 1 - bad])
    for package in rng.sample(range(count), max(1, count // 50)):
        clauses.append([package * each + 1 + version for version in range(each)])
    return clauses


def reaching(rng, nodes, variables, conditions, demands, has_model):
    """Which definitions of variables reach which nodes of a program, as implications. A node goes on to the next one,
    or to another one near it, as one of some shared conditions says. Are there conditions by which drawn definitions do
    not reach drawn nodes? It has a model where drawn conditions say which."""
    defines = [rng.randrange(variables) for _ in range(nodes)]
    is_kept = [rng.random() < 0.85 for _ in range(nodes)]
    asks = [rng.choice((1, -1)) * rng.randint(1, conditions) for _ in range(nodes)]
    jumps = [max(0, min(nodes - 1, node + rng.choice((-1, 1, 1, 1)) * rng.randint(2, 60))) for node in range(nodes)]
    drawn = [rng.random() < 0.5 for _ in range(conditions + 1)]
    count = nodes // 8
    sources = sorted(rng.sample(range(nodes), count))

    def at(node, definition):
        return conditions + 1 + node * count + definition

    clauses, flows = [], collections.defaultdict(list)
    for node in range(nodes):
        for follow, ask in ((min(node + 1, nodes - 1), asks[node]), (jumps[node], -asks[node])):
            if drawn[abs(ask)] == (ask > 0):
                flows[node].append(follow)
            for definition, source in enumerate(sources):
                if source == node:
                    clauses.append([-ask, at(follow, definition)])
                elif is_kept[node] or defines[source] != defines[node]:
                    clauses.append([-ask, -at(node, definition), at(follow, definition)])
    for _ in range(demands):
        definition = rng.randrange(count)
        seen, open_nodes = set(), list(flows[sources[definition]])
        while has_model and open_nodes:
            node = open_nodes.pop()
            if node not in seen:
                seen.add(node)
                if node != sources[definition] and (is_kept[node] or defines[sources[definition]] != defines[node]):
                    open_nodes += flows[node]
        near = range(sources[definition] + 1, min(nodes, sources[definition] + 400))
        free = [node for node in near if node not in seen]
        if free:
            clauses.append([-at(rng.choice(free), definition)])
    return clauses


def points_to(rng, pointers, objects, calls, forbidden, has_model):
    """What pointers point to, as implications (Andersen's analysis). Each call does one of three drawn statements: it
    takes an address, copies a pointer, reads through one, or writes through one. Are there statements by which drawn
    pointers do not point to drawn objects? It has a model where drawn statements say which."""

    def points(pointer, to):
        return pointer * objects + to + 1

    every = range(objects)
    last = (pointers + objects) * objects
    clauses, facts = [], []
    for _ in range(calls):
        picks = [last + 1, last + 2, last + 3]
        last += 3
        clauses.append(picks)
        taken = rng.choice(picks)
        for pick in picks:
            kind = rng.choice(("address", "address", "copy", "copy", "read", "write"))
            p, q = rng.sample(range(objects, objects + pointers), 2)
            a = rng.randrange(objects)
            if kind == "address":
                rules = [([], points(p, a))]
            elif kind == "copy":
                rules = [([points(q, b)], points(p, b)) for b in every]
            elif kind == "read":
                rules = [([points(q, b), points(b, c)], points(p, c)) for b in every for c in every]
            else:
                rules = [([points(p, b), points(q, c)], points(b, c)) for b in every for c in every]
            clauses += [[-pick, *(-atom for atom in body), head] for body, head in rules]
            if has_model and pick == taken:
                facts += rules
    uses, derived, ready = collections.defaultdict(list), set(), []
    for body, head in facts:
        for atom in body:
            uses[atom].append((body, head))
        if not body:
            ready.append(head)
    while ready:
        atom = ready.pop()
        if atom not in derived:
            derived.add(atom)
            ready += [head for body, head in uses[atom] if derived.issuperset(body)]
    free = [points(p, a) for p in range(objects, objects + pointers) for a in every if points(p, a) not in derived]
    return clauses + [[-atom] for atom in rng.sample(free, forbidden)]


def petri_nets(rng, machines, places, moves, steps, wanted, late):
    """A net of machines with a token each, in a ring of places and with drawn ways between; some moves are made by two
    machines at once. Are wanted machines at their drawn places after so many steps? They are there in a drawn run,
    whose last `late` steps are left out."""
    circuit = Circuit()
    clauses = circuit.clauses
    ways = []
    for _ in range(moves):
        who = rng.sample(range(machines), rng.choice((1, 2, 2)))
        ways.append([(k, *rng.sample(range(places), 2)) for k in who])
    now = [0] * machines
    for _ in range(steps + late):
        moved = set()
        for way in rng.sample(ways, len(ways)):
            if all(k not in moved and now[k] == start for k, start, _ in way):
                moved |= {k for k, _, _ in way}
                for k, _, end in way:
                    now[k] = end
    at = [[1] + [-1] * (places - 1) for _ in range(machines)]
    for _ in range(steps):
        fires = circuit.wires(len(ways))
        after = [circuit.wires(places) for _ in range(machines)]
        leaves, enters = collections.defaultdict(list), collections.defaultdict(list)
        for fire, way in zip(fires, ways):
            for k, start, end in way:
                clauses += [[-fire, at[k][start]], [-fire, after[k][end]]]
                leaves[k, start].append(fire)
                enters[k, end].append(fire)
        for k, row in enumerate(after):
            clauses.extend([-a, -b] for a, b in itertools.combinations(row, 2))
            for place, wire in enumerate(row):
                clauses.append([-wire, at[k][place], *enters[k, place]])
                clauses.append([wire, -at[k][place], *leaves[k, place]])
        at = after
    for k in rng.sample(range(machines), wanted):
        clauses.append([at[k][now[k]]])
    return clauses


def routing(rng, side, nets, blocked, extra):
    """Ways between two ends each on a square grid, no two through one cell. Drawn ways are kept free of the blocked
    cells; each extra pair of ends is drawn among the other cells."""
    cells = list(itertools.product(range(side), repeat=2))
    near = {
        (r, c): [(a, b) for a, b in ((r - 1, c), (r + 1, c), (r, c - 1), (r, c + 1)) if 0 <= a < side and 0 <= b < side]
        for r, c in cells
    }
    used, ends = set(), []
    while len(ends) < nets:
        start, end = rng.sample([cell for cell in cells if cell not in used], 2)
        before, ready = {start: None}, [start]
        while ready and end not in before:
            wave, ready = ready, []
            for cell in rng.sample(wave, len(wave)):
                fresh = [other for other in near[cell] if other not in before and other not in used]
                before.update(dict.fromkeys(fresh, cell))
                ready += fresh
        if end in before and abs(start[0] - end[0]) + abs(start[1] - end[1]) >= side // 2:
            ends.append((start, end))
            while end:
                used.add(end)
                end = before[end]
    free = rng.sample([cell for cell in cells if cell not in used], blocked + 2 * extra)
    ends += zip(free[blocked : blocked + extra], free[blocked + extra :])
    circuit = Circuit()
    clauses = circuit.clauses
    on = {cell: circuit.wires(len(ends)) for cell in cells if cell not in set(free[:blocked])}
    for cell, wires in on.items():
        clauses.extend([-a, -b] for a, b in itertools.combinations(wires, 2))
        for k, wire in enumerate(wires):
            around = [on[other][k] for other in near[cell] if other in on]
            if cell in ends[k]:
                clauses += [[wire], *exactly_one(around)]
            else:
                clauses += [[-wire, *(b for b in around if b != a)] for a in around]
                clauses += [[-wire, -a, -b, -c] for a, b, c in itertools.combinations(around, 3)]
    return clauses


def mines(rng, side, density, hidden, spoilt):
    """Where mines lie on a board, of whose other cells all but a drawn part tell how many lie beside them. Where it is
    spoilt, one of these numbers is another one."""
    cells = list(itertools.product(range(side), repeat=2))
    lies = {cell: rng.random() < density for cell in cells}
    told = [cell for cell in cells if not lies[cell] and rng.random() >= hidden]
    wrong = rng.choice(told) if spoilt else None
    clauses = [[-cell[0] * side - cell[1] - 1] for cell in told]
    for r, c in told:
        beside = [(a, b) for a in (r - 1, r, r + 1) for b in (c - 1, c, c + 1) if (a, b) in lies and (a, b) != (r, c)]
        number = sum(lies[cell] for cell in beside)
        number += (1 if number < len(beside) else -1) * ((r, c) == wrong)
        wires = [a * side + b + 1 for a, b in beside]
        clauses.extend([-wire for wire in group] for group in itertools.combinations(wires, number + 1))
        clauses.extend(map(list, itertools.combinations(wires, len(wires) - number + 1)))
    return clauses


# Orders of a graph's nodes.


def bandwidths(rng, nodes, edges, width, is_drawn):
    """A place for each node of a graph, such that the ends of each edge are at most `width` places apart: edges that
    keep to a drawn order, or any."""
    order = rng.sample(range(nodes), nodes)
    pairs = [
        (a, b) for (i, a), (j, b) in itertools.combinations(enumerate(order), 2) if j - i <= width or is_drawn
    ]
    chain = list(itertools.pairwise(order))
    links = sorted({*chain, *rng.sample(pairs, edges)})

    def at(node, place):
        return node * nodes + place + 1

    every = range(nodes)
    clauses = []
    for k in every:
        clauses += exactly_one([at(k, place) for place in every]) + exactly_one([at(node, k) for node in every])
    for a, b in links:
        for place in every:
            clauses.append([-at(a, place), *(at(b, k) for k in every if 0 < abs(k - place) <= width)])
            clauses.append([-at(b, place), *(at(a, k) for k in every if 0 < abs(k - place) <= width)])
    return clauses


def treewidths(rng, nodes, edges, width):
    """An order in which the nodes of a graph are taken away, each joining its neighbours, of which it never has more
    than `width`. Each node of the graph joins a drawn clique of its width; of these edges so many are left."""
    pairs, groups = set(), [list(range(width + 1))]
    pairs.update(itertools.combinations(range(width + 1), 2))
    for node in range(width + 1, nodes):
        group = rng.sample(rng.choice(groups), width)
        pairs.update((other, node) for other in group)
        groups.append([*group, node])
    return fill_in(rng, nodes, rng.sample(sorted(pairs), edges), width)


def grid_treewidths(rng, height, length, width):
    """The same for a grid, whose treewidth is the less of its sides."""
    pairs = [(r * length + c, r * length + c + 1) for r in range(height) for c in range(length - 1)]
    pairs += [(r * length + c, r * length + c + length) for r in range(height - 1) for c in range(length)]
    return fill_in(rng, height * length, pairs, width)


def fill_in(rng, nodes, edges, width):
    """An order of nodes, with the edges that it makes (Samer's and Veith's encoding)."""
    circuit = Circuit()
    clauses = circuit.clauses
    names = rng.sample(range(nodes), nodes)
    before = {}
    for a, b in itertools.combinations(range(nodes), 2):
        before[a, b] = circuit.wire()
        before[b, a] = -before[a, b]
    arc = {pair: circuit.wire() for pair in itertools.permutations(range(nodes), 2)}
    for a, b, c in itertools.permutations(range(nodes), 3):
        clauses.append([-before[a, b], -before[b, c], before[a, c]])
        if b < c:
            clauses += [[-arc[a, b], -arc[a, c], -before[b, c], arc[b, c]]]
            clauses += [[-arc[a, b], -arc[a, c], -before[c, b], arc[c, b]]]
    for a, b in edges:
        a, b = names[a], names[b]
        clauses += [[-before[a, b], arc[a, b]], [-before[b, a], arc[b, a]]]
    for a in range(nodes):
        at_most(circuit, [arc[a, b] for b in range(nodes) if b != a], width)
    return clauses


def cutwidths(rng, nodes, degree, width):
    """An order of a drawn graph's nodes, between any two of which at most so many edges pass."""
    circuit = Circuit()
    edges = regular_graph(rng, nodes, degree)
    placed = [[-1] * nodes]
    for count in range(1, nodes):
        row = circuit.wires(nodes)
        circuit.clauses += [[-a, b] for a, b in zip(placed[-1], row)]
        at_most(circuit, row, count)
        at_least(circuit, row, count)
        at_most(circuit, [circuit.differ(row[a], row[b]) for a, b in edges], width)
        placed.append(row)
    return circuit.clauses


def book_pages(rng, nodes, edges, pages):
    """An order of a drawn graph's nodes, and a page for each of its edges, such that no two edges of a page cross."""
    circuit = Circuit()
    clauses = circuit.clauses
    before = {}
    for a, b in itertools.combinations(range(nodes), 2):
        before[a, b] = circuit.wire()
        before[b, a] = -before[a, b]
    for a, b, c in itertools.permutations(range(nodes), 3):
        clauses.append([-before[a, b], -before[b, c], before[a, c]])
    links = rng.sample(list(itertools.combinations(range(nodes), 2)), edges)
    page = [circuit.wires(pages) for _ in links]
    clauses += [*page, *([before[0, node]] for node in range(1, nodes))]
    for (one, (a, b)), (two, (c, d)) in itertools.combinations(enumerate(links), 2):
        if not {a, b} & {c, d}:
            same = circuit.wire()
            clauses += [[-x, -y, same] for x, y in zip(page[one], page[two])]
            for (p, q), (r, s) in itertools.product(((a, b), (b, a)), ((c, d), (d, c))):
                clauses.append([-same, -before[p, r], -before[r, q], -before[q, s]])
                clauses.append([-same, -before[r, p], -before[p, s], -before[s, q]])
    return clauses


# Codes, and sets of words.


def parity_checks(rng, bits, degree, flips, less):
    """So many flipped bits of a word, each bit in three checks, and each check of so many bits: which at most so many
    flips, or `less` fewer, make the checks what they are?"""
    circuit = Circuit()
    count = bits * 3 // degree
    places = [k % count for k in range(3 * bits)]
    rng.shuffle(places)
    checks = [[] for _ in range(count)]
    for k, check in enumerate(places):
        checks[check].append(k // 3)
    flipped = set(rng.sample(range(bits), flips))
    errors = circuit.wires(bits)
    for check in checks:
        is_odd = sum(bit in flipped for bit in check) % 2 == 1
        parity = parity_of(circuit, [errors[bit] for bit in check])
        circuit.clauses.append([parity if is_odd else -parity])
    at_most(circuit, errors, flips - less)
    return circuit.clauses


def covering_codes(rng, values, length, words):
    """At most so many words of this length over so many values, such that each word differs from one of them in at most
    one place."""
    circuit = Circuit()
    every = list(itertools.product(range(values), repeat=length))
    wires = dict(zip(rng.sample(every, len(every)), circuit.wires(len(every))))
    for word in every:
        near = [word[:k] + (value,) + word[k + 1 :] for k in range(length) for value in range(values)]
        circuit.clauses.append([wires[other] for other in {*near}])
    circuit.clauses.append([wires[every[0]]])
    at_most(circuit, list(wires.values()), words)
    return circuit.clauses


def weight_codes(_rng, length, weight, shared, words):
    """Rising words of so many bits with this weight, of which no two have more than `shared` true bits in common."""
    circuit = Circuit()
    rows = [circuit.wires(length) for _ in range(words)]
    for row in rows:
        at_most(circuit, row, weight)
        at_least(circuit, row, weight)
    for a, b in itertools.pairwise(rows):
        circuit.clauses.append([is_less(circuit, a, b)])
    for a, b in itertools.combinations(rows, 2):
        at_most(circuit, [circuit.both(x, y) for x, y in zip(a, b)], shared)
    return circuit.clauses


def linear_codes(_rng, length, dimension, distance):
    """A code of words of so many bits, which are the sums of some of so many words: each has at least `distance` true
    bits."""
    circuit = Circuit()
    rest = [circuit.wires(length - dimension) for _ in range(dimension)]
    sums = {0: [-1] * (length - dimension)}
    for number in range(1, 2**dimension):
        top = number.bit_length() - 1
        below = sums[number - 2**top]
        sums[number] = [circuit.differ(a, b) for a, b in zip(below, rest[top])] if number > 2**top else rest[top]
        at_least(circuit, sums[number], max(0, distance - number.bit_count()))
    for a, b in itertools.pairwise(rest):
        circuit.clauses.append([-is_less(circuit, b, a)])
    return circuit.clauses


def autocorrelations(_rng, length, most):
    """A row of signs, of which each part at its beginning and the part as long at its end agree in as many places as
    they do not, but for `most`."""
    circuit = Circuit()
    signs = circuit.wires(length)
    circuit.clauses += [[signs[0]]]
    for gap in range(1, length):
        terms = [circuit.differ(a, b) for a, b in zip(signs, signs[gap:])]
        at_most(circuit, terms, min(len(terms), (len(terms) + most) // 2))
        at_least(circuit, terms, max(0, (len(terms) - most + 1) // 2))
    return circuit.clauses


def covering_arrays(_rng, rows, columns, values):
    """Rows of so many columns, such that any two columns have all pairs of values in some rows."""
    circuit = Circuit()
    cells = [[circuit.wires(values) for _ in range(columns)] for _ in range(rows)]
    for row in cells:
        for wires in row:
            circuit.clauses += exactly_one(wires)
    circuit.clauses += [[wires[0]] for wires in cells[0]]
    for a, b in itertools.combinations(range(columns), 2):
        for x, y in itertools.product(range(values), repeat=2):
            circuit.clauses.append([circuit.both(row[a][x], row[b][y]) for row in cells])
    return circuit.clauses


def haplotypes(rng, count, sites, kinds, less):
    """Pairs of drawn words of so many kinds, of each of which is known where the two differ and what they are
    elsewhere: are `less` fewer words than there were enough?"""
    words = [[rng.random() < 0.5 for _ in range(sites)] for _ in range(kinds)]
    pairs = [(words[k], words[k + 1]) if k + 1 < kinds else rng.choices(words, k=2) for k in range(count)]
    circuit = Circuit()
    found = [circuit.wires(sites) for _ in range(kinds - less)]
    for pair in pairs:
        picks = [circuit.wires(kinds - less) for _ in range(2)]
        circuit.clauses += picks
        for site, (a, b) in enumerate(zip(*pair)):
            first = circuit.wire() if a != b else 1 if a else -1
            for pick, value in zip(picks, (first, -first if a != b else first)):
                for wire, word in zip(pick, found):
                    circuit.clauses += [[-wire, -word[site], value], [-wire, word[site], -value]]
    return circuit.clauses


def superstrings(rng, letters, count, length, total, less):
    """A word of so many letters, of which so many drawn words were cut, so many letters long each, from some place on:
    is there one that is `less` shorter?"""
    text = [rng.randrange(letters) for _ in range(total)]
    starts = [0, total - length, *rng.sample(range(1, total - length), count - 2)]
    circuit = Circuit()
    cells = [circuit.wires(letters) for _ in range(total - less)]
    for wires in cells:
        circuit.clauses += [[-a, -b] for a, b in itertools.combinations(wires, 2)]
    for start in rng.sample(starts, count):
        picks = circuit.wires(len(cells) - length + 1)
        circuit.clauses.append(picks)
        for first, pick in enumerate(picks):
            circuit.clauses += [[-pick, cells[first + k][text[start + k]]] for k in range(length)]
    return circuit.clauses


# Designs, and labels of graphs.


def costas_arrays(rng, order, clues):
    """A place in each column of a square, each in another row, such that no two pairs of places are as far apart in the
    same direction; some drawn columns have drawn rows."""
    circuit = Circuit()
    at = [circuit.wires(order) for _ in range(order)]
    for k in range(order):
        circuit.clauses += exactly_one(at[k]) + exactly_one([row[k] for row in at])
    for gap in range(1, order):
        rises = []
        for a, b in zip(at, at[gap:]):
            rise = {k: circuit.wire() for k in range(1 - order, order)}
            circuit.clauses.extend([-a[i], -b[j], rise[j - i]] for i in range(order) for j in range(order))
            rises.append(rise)
        for one, two in itertools.combinations(rises, 2):
            circuit.clauses += [[-one[k], -two[k]] for k in one]
    for column, row in zip(rng.sample(range(order), clues), rng.sample(range(order), clues)):
        circuit.clauses.append([at[column][row]])
    return circuit.clauses


def queens_that_guard(_rng, side, most):
    """At most so many queens of a board, such that each cell has one or is a queen's move away from one."""
    circuit = Circuit()
    cells = {cell: circuit.wire() for cell in itertools.product(range(side), repeat=2)}
    for r, c in cells:
        guards = [(a, b) for a, b in cells if a == r or b == c or abs(a - r) == abs(b - c)]
        circuit.clauses.append([cells[cell] for cell in guards])
    at_most(circuit, list(cells.values()), most)
    return circuit.clauses


def cliques(rng, nodes, density, size, planted):
    """A clique of so many nodes in a drawn graph, into which one of `planted` nodes was put."""
    inside = set(rng.sample(range(nodes), planted))
    edges = {
        (a, b)
        for a, b in itertools.combinations(range(nodes), 2)
        if rng.random() < density or (a in inside and b in inside)
    }
    circuit = Circuit()
    wires = circuit.wires(nodes)
    circuit.clauses += [
        [-wires[a], -wires[b]] for a, b in itertools.combinations(range(nodes), 2) if (a, b) not in edges
    ]
    at_least(circuit, wires, size)
    return circuit.clauses


def subgraphs(rng, nodes, degree, size, extra):
    """A map from a graph to another one with these nodes, that keeps its edges: the first is the second among so many
    of its nodes, with some edges more."""
    edges = {*regular_graph(rng, nodes, degree)}
    edges |= {(b, a) for a, b in edges}
    part = [0]
    for node in part:
        part += [b for a, b in sorted(edges) if a == node and b not in part][: size - len(part)]
    names = rng.sample(part, len(part))
    pattern = [(a, b) for a, b in itertools.combinations(range(len(names)), 2) if (names[a], names[b]) in edges]
    others = [pair for pair in itertools.combinations(range(len(names)), 2) if pair not in set(pattern)]
    circuit = Circuit()
    goes = [circuit.wires(nodes) for _ in names]
    for row in goes:
        circuit.clauses += exactly_one(row)
    for column in zip(*goes):
        circuit.clauses += [[-a, -b] for a, b in itertools.combinations(column, 2)]
    for a, b in [*pattern, *rng.sample(others, extra)]:
        for k, wire in enumerate(goes[a]):
            circuit.clauses.append([-wire, *(goes[b][j] for j in range(nodes) if (k, j) in edges)])
        for k, wire in enumerate(goes[b]):
            circuit.clauses.append([-wire, *(goes[a][j] for j in range(nodes) if (k, j) in edges)])
    return circuit.clauses


def edge_colourings(rng, nodes, degree, cut):
    """A colour for each edge of a drawn graph, as many colours as each node has edges; where it is cut, an edge is, and
    its two ends meet in a new node, by which there is no model."""
    edges = sorted(regular_graph(rng, nodes, degree))
    if cut:
        a, b = edges.pop(rng.randrange(len(edges)))
        edges += [(a, nodes), (b, nodes)]
    circuit = Circuit()
    ends = collections.defaultdict(list)
    for a, b in edges:
        wires = circuit.wires(degree)
        circuit.clauses.append(wires)
        ends[a].append(wires)
        ends[b].append(wires)
    for group in ends.values():
        for one, two in itertools.combinations(group, 2):
            circuit.clauses += [[-a, -b] for a, b in zip(one, two)]
    return circuit.clauses


def graceful_labels(rng, nodes, edges):
    """A number for each node of a drawn graph, from 0 to the number of edges, all others than each other, such that
    each edge has another difference of its ends."""
    circuit = Circuit()
    links = rng.sample(list(itertools.combinations(range(nodes), 2)), edges)
    has = [circuit.wires(edges + 1) for _ in range(nodes)]
    for row in has:
        circuit.clauses += exactly_one(row)
    for column in zip(*has):
        circuit.clauses += [[-a, -b] for a, b in itertools.combinations(column, 2)]
    differs = [[None, *circuit.wires(edges)] for _ in links]
    for (a, b), row in zip(links, differs):
        circuit.clauses.append(row[1:])
        for x, y in itertools.permutations(range(edges + 1), 2):
            circuit.clauses.append([-has[a][x], -has[b][y], row[abs(x - y)]])
    for column in list(zip(*differs))[1:]:
        circuit.clauses += exactly_one(column)
    return circuit.clauses


def odd_pairs(rng, nodes):
    """Pairs of an odd number of nodes, of which each is in one pair. No model."""
    edges = list(itertools.combinations(range(nodes), 2))
    circuit = Circuit()
    ends = collections.defaultdict(list)
    for a, b in rng.sample(edges, len(edges)):
        wire = circuit.wire()
        ends[a].append(wire)
        ends[b].append(wire)
    for group in ends.values():
        circuit.clauses += exactly_one(group)
    return circuit.clauses


# Things that are sought.


def sorting_networks(_rng, channels, layers):
    """A network of comparators in so many layers that sorts all rows of bits."""
    circuit = Circuit()
    clauses = circuit.clauses
    pairs = list(itertools.combinations(range(channels), 2))
    used = [dict(zip(pairs, circuit.wires(len(pairs)))) for _ in range(layers)]
    clauses += [[used[0][k, k + 1]] for k in range(0, channels - 1, 2)]
    idle = []
    for layer in used:
        rows = [[wire for pair, wire in layer.items() if k in pair] for k in range(channels)]
        clauses.extend([-a, -b] for row in rows for a, b in itertools.combinations(row, 2))
        idle.append([-any_of(circuit, row) for row in rows])
    for bits in itertools.product((False, True), repeat=channels):
        if sorted(bits) == list(bits) or any(bits[k] and not bits[k + 1] for k in range(0, channels - 1, 2)):
            continue
        now = [1 if bit else -1 for bit in bits]
        for layer, rests in zip(used, idle):
            after = circuit.wires(channels)
            for (a, b), wire in layer.items():
                clauses += [[-wire, -after[a], now[a]], [-wire, -after[a], now[b]], [-wire, after[a], -now[a], -now[b]]]
                clauses += [[-wire, after[b], -now[a]], [-wire, after[b], -now[b]], [-wire, -after[b], now[a], now[b]]]
            for rest, old, new in zip(rests, now, after):
                clauses += [[-rest, -old, new], [-rest, old, -new]]
            now = after
        zeros = bits.count(False)
        clauses += [[-wire] for wire in now[:zeros]] + [[wire] for wire in now[zeros:]]
    return clauses


STRASSEN = (
    ("1001", "1001", "1001"), ("0011", "1000", "0011"), ("1000", "0101", "0101"), ("0001", "1010", "1010"),
    ("1100", "0001", "1100"), ("1010", "1100", "0001"), ("0101", "0011", "1000"),
)


def matrix_products(rng, known):
    """Seven products of sums by which two matrices of two rows and columns are multiplied modulo 2: Strassen's, of
    which so many bits are told."""
    circuit = Circuit()
    terms = [[circuit.wires(4) for _ in range(3)] for _ in STRASSEN]
    for i, j, k in itertools.product(range(4), repeat=3):
        parts = [all_of(circuit, [a[i], b[j], c[k]]) for a, b, c in terms]
        is_one = i % 2 == j // 2 and k == i // 2 * 2 + j % 2
        parity = parity_of(circuit, parts)
        circuit.clauses.append([parity if is_one else -parity])
    bits = [
        wire if bit == "1" else -wire
        for words, row in zip(terms, STRASSEN)
        for wires, text in zip(words, row)
        for wire, bit in zip(wires, text)
    ]
    circuit.clauses += [[bit] for bit in rng.sample(bits, known)]
    return circuit.clauses


def substitution_boxes(_rng, bits, most):
    """A box that changes words of so many bits, such that two inputs that differ in some bits give the same difference
    at most so many times."""
    circuit = Circuit()
    size = 2**bits
    words = [circuit.wires(bits) for _ in range(size)]

    def is_value(word, value):
        return all_of(circuit, [wire if value >> k & 1 else -wire for k, wire in enumerate(word)])

    values = [[is_value(word, value) for value in range(size)] for word in words]
    circuit.is_number(words[0], 0)
    for column in zip(*values):
        circuit.clauses += exactly_one(column)
    for change in range(1, size):
        pairs = [(a, a ^ change) for a in range(size) if a < a ^ change]
        changes = [[circuit.differ(x, y) for x, y in zip(words[a], words[b])] for a, b in pairs]
        for value in range(1, size):
            at_most(circuit, [is_value(word, value) for word in changes], most // 2)
    return circuit.clauses


# What was there before.


def edge_puzzles(rng, side, colours, spoilt):
    """Square pieces that were cut from a board with a drawn colour at each inner edge, to be laid again, each turned
    as it was; where it is spoilt, one edge of a piece has another colour, by which there is no model."""
    rows = [[rng.randint(1, colours) for _ in range(side - 1)] for _ in range(side)]
    columns = [[rng.randint(1, colours) for _ in range(side)] for _ in range(side - 1)]
    pieces = []
    for r, c in itertools.product(range(side), repeat=2):
        left, right = rows[r][c - 1] if c else 0, rows[r][c] if c < side - 1 else 0
        up, down = columns[r - 1][c] if r else 0, columns[r][c] if r < side - 1 else 0
        pieces.append([right, down, left, up])
    if spoilt:
        pieces[side + 1][0] = pieces[side + 1][0] % colours + 1
    rng.shuffle(pieces)
    circuit = Circuit()
    at = [[circuit.wires(len(pieces)) for _ in range(side)] for _ in range(side)]
    edges = {}
    for r, c in itertools.product(range(side), repeat=2):
        for place in ((r, c, 0), (r, c, 1)):
            edges[place] = circuit.wires(colours + 1)
            circuit.clauses += exactly_one(edges[place])
    border = [1] + [-1] * colours
    for r, c in itertools.product(range(side), repeat=2):
        circuit.clauses += exactly_one(at[r][c])
        near = [edges[r, c, 0], edges[r, c, 1], edges.get((r, c - 1, 0), border), edges.get((r - 1, c, 1), border)]
        for wire, piece in zip(at[r][c], pieces):
            circuit.clauses += [[-wire, row[colour]] for row, colour in zip(near, piece)]
    for k in range(len(pieces)):
        circuit.clauses += exactly_one([at[r][c][k] for r in range(side) for c in range(side)])
    return circuit.clauses


def cell_rows(rng, width, steps, rule, flipped):
    """What a ring of cells was so many steps ago, where a cell, with its two neighbours, becomes what the rule says: a
    drawn ring, or, where so many cells of the last one are flipped, perhaps none."""
    now = [rng.random() < 0.5 for _ in range(width)]
    circuit = Circuit()
    wires = circuit.wires(width)
    for _ in range(steps):
        now = [rule >> (4 * now[k - 1] + 2 * now[k] + now[(k + 1) % width]) & 1 for k in range(width)]
        after = circuit.wires(width)
        for k, out in enumerate(after):
            inputs = [wires[(k + 1) % width], wires[k], wires[k - 1]]
            circuit.clauses += table_clauses(inputs, [out], [rule >> row & 1 for row in range(8)])
        wires = after
    for k in rng.sample(range(width), flipped):
        now[k] = not now[k]
    circuit.clauses += [[wire if bit else -wire] for wire, bit in zip(wires, now)]
    return circuit.clauses


def gene_networks(rng, genes, inputs, length):
    """Genes that are on after a step as drawn functions of other genes say: a state that comes back after so many
    steps, and not before half of them."""
    circuit = Circuit()
    nets = [(rng.sample(range(genes), inputs), [rng.getrandbits(1) for _ in range(2**inputs)]) for _ in range(genes)]
    states = [circuit.wires(genes)]
    for _ in range(length):
        after = circuit.wires(genes)
        for out, (places, table) in zip(after, nets):
            circuit.clauses += table_clauses([states[-1][place] for place in places], [out], table)
        states.append(after)
    for a, b in zip(states[0], states[-1]):
        circuit.clauses += [[-a, b], [a, -b]]
    for state in states[1 : length // 2 + 1]:
        deny_equal(circuit, states[0], state)
    return circuit.clauses


# Ciphers and equations.


def quadratic_equations(rng, variables, equations, terms, has_model):
    """Equations between sums of drawn products of two variables, modulo 2: as a drawn assignment makes them, or any."""
    circuit = Circuit()
    wires = circuit.wires(variables)
    model = [rng.random() < 0.5 for _ in wires]
    pairs = list(itertools.combinations(range(variables), 2))
    products = {}
    for _ in range(equations):
        total, is_odd = -1, rng.random() < 0.5
        value = False
        for a, b in rng.sample(pairs, terms):
            if (a, b) not in products:
                products[a, b] = circuit.both(wires[a], wires[b])
            total = circuit.differ(total, products[a, b])
            value ^= model[a] and model[b]
        for a in rng.sample(range(variables), 3):
            total = circuit.differ(total, wires[a])
            value ^= model[a]
        circuit.clauses.append([total if (value if has_model else is_odd) else -total])
    return circuit.clauses


def stop_and_go(rng, length, *lengths):
    """What three registers held at first, of which those are shifted in a step whose middle bit is that of most (as in
    the cipher A5/1), where what they give out is known."""
    taps = [[0, *rng.sample(range(1, size), 3)] for size in lengths]

    def outputs(state, differ, both):
        ends = list(itertools.accumulate(lengths))
        registers = [state[end - size : end] for end, size in zip(ends, lengths)]
        for _ in range(length):
            a, b, c = (register[len(register) // 2] for register in registers)
            most = differ(differ(both(a, b), both(a, c)), both(b, c))
            moved = []
            for register, row in zip(registers, taps):
                middle = register[len(register) // 2]
                after = [*register[1:], functools.reduce(differ, (register[tap] for tap in row))]
                stays = differ(middle, most)
                moved.append([differ(y, both(differ(x, y), stays)) for x, y in zip(register, after)])
            registers = moved
            yield functools.reduce(differ, (register[0] for register in registers))

    return known_outputs(rng, sum(lengths), sum(lengths), outputs)


def keeloq(rng, rounds, texts, unknown):
    """The key of the cipher KeeLoq, whose function of five bits is 0x3A5C742E, where some texts are known, and all but
    some bits of the key."""
    table = [0x3A5C742E >> row & 1 for row in range(32)]
    key = [rng.getrandbits(1) for _ in range(64)]
    circuit = Circuit()
    wires = circuit.wires(64)
    circuit.clauses += [[w if bit else -w] for w, bit in itertools.islice(zip(wires, key), 64 - unknown)]
    for _ in range(texts):
        word = [rng.getrandbits(1) for _ in range(32)]
        line = constant(sum(bit << k for k, bit in enumerate(word)), 32)
        for turn in range(rounds):
            place = turn % 64
            taps = (1, 9, 20, 26, 31)
            value = table[sum(word[tap] << k for k, tap in enumerate(taps))]
            word = [*word[1:], value ^ word[16] ^ word[0] ^ key[place]]
            out = circuit.wire()
            circuit.clauses += table_clauses([line[tap] for tap in taps], [out], table)
            line = [*line[1:], parity_of(circuit, [out, line[16], line[0], wires[place]])]
        circuit.clauses += [[w if bit else -w] for w, bit in zip(line, word)]
    return circuit.clauses


# Circuits and programs that are made in two ways.


def field_products(rng, bits, wrong):
    """The product of two elements of a field of 2^bits, by rows that are reduced at once, and by the sum of all digits
    that is reduced at the end: can they differ? Not by the right one; the wrong one loses a product of drawn bits where
    two others are true."""
    circuit = Circuit()
    a, b = circuit.wires(bits), circuit.wires(bits)
    taps = {0, *rng.sample(range(1, bits), min(bits - 1, 3))}
    row, total = a, [-1] * bits
    for bit in b:
        total = [circuit.differ(x, circuit.both(y, bit)) for x, y in zip(total, row)]
        top = row[-1]
        row = [circuit.differ(x, top) if k in taps else x for k, x in enumerate([-1, *row[:-1]])]
    digits = [[] for _ in range(2 * bits - 1)]
    lost = rng.sample(range(bits), 2)
    for i, j in itertools.product(range(bits), repeat=2):
        part = circuit.both(a[i], b[j])
        if wrong and [i, j] == lost:
            part = circuit.both(part, -all_of(circuit, [a[i - 1], b[j - 1], *a[:bits // 2], -b[j - 2]]))
        digits[i + j].append(part)
    sums = [parity_of(circuit, column) for column in digits]
    for place in range(2 * bits - 2, bits - 1, -1):
        for tap in taps:
            at = place - bits + tap
            sums[at] = circuit.differ(sums[at], sums[place])
    deny_equal(circuit, total, sums[:bits])
    return circuit.clauses


def remainders(_rng, bits, divisor):
    """The remainder of a number, by subtracting step by step from the highest digit on, and by a sum of what each digit
    leaves, with the same reduced again: can they differ? No model."""
    circuit = Circuit()
    number = circuit.wires(bits)
    width = divisor.bit_length() + 1
    rest = [-1] * width
    for bit in reversed(number):
        rest = [bit, *rest[:-1]]
        fits = -is_less(circuit, rest, constant(divisor, width))
        rest = chosen(circuit, fits, plus(circuit, rest, [-x for x in constant(divisor, width)], 1), rest)
    total = [-1] * width
    for place, bit in enumerate(number):
        total = plus(circuit, total, [bit if x > 0 else -1 for x in constant(pow(2, place, divisor), width)])
        fits = -is_less(circuit, total, constant(divisor, width))
        total = chosen(circuit, fits, plus(circuit, total, [-x for x in constant(divisor, width)], 1), total)
    deny_equal(circuit, rest, total)
    return circuit.clauses


def filters(rng, taps, bits):
    """The sum of some numbers, each times a drawn constant: by rows of the constants' digits, and by digits that may be
    -1, in another order. Can it differ? No model."""
    circuit = Circuit()
    width = 2 * bits
    terms = [(widened(circuit.wires(bits), width), rng.randrange(3, 2**bits, 2)) for _ in range(taps)]
    total, other = [-1] * width, [-1] * width
    for word, factor in terms:
        for place in range(bits):
            if factor >> place & 1:
                total = plus(circuit, total, [-1] * place + word[: width - place])
    for word, factor in rng.sample(terms, taps):
        place = 0
        while factor:
            digit = 2 - factor % 4 if factor & 1 else 0
            shifted = [-1] * place + word[: width - place]
            if digit:
                other = plus(circuit, other, shifted if digit > 0 else [-x for x in shifted], -digit)
            factor, place = (factor - digit) // 2, place + 1
    deny_equal(circuit, total, other)
    return circuit.clauses


def bit_tricks(_rng, bits):
    """How many bits of a word are true, by masks and shifts of sums side by side, and by clearing the lowest one again
    and again: can the counts differ? No model."""
    circuit = Circuit()
    word = circuit.wires(bits)
    rest, count = word, [-1] * bits
    for _ in range(bits):
        is_any = any_of(circuit, rest)
        rest = [circuit.both(a, b) for a, b in zip(rest, plus(circuit, rest, [1] * bits))]
        count = plus(circuit, count, [is_any] + [-1] * (bits - 1))
    step, total = 1, word
    while step < bits:
        mask = [k // step % 2 == 0 for k in range(bits)]
        low = [x if keep else -1 for x, keep in zip(total, mask)]
        high = [x if keep else -1 for x, keep in zip([*total[step:], *[-1] * step], mask)]
        total = plus(circuit, low, high)
        step *= 2
    deny_equal(circuit, count, total)
    return circuit.clauses


def binary_searches(rng, places, width, wrong):
    """A search by halves in a row of rising numbers: can it miss a number that is there? Not the right one; the wrong
    one goes to the lower half where a drawn number is met."""
    circuit = Circuit()
    row = [circuit.wires(width) for _ in range(places)]
    circuit.clauses += [[is_less(circuit, a, b)] for a, b in itertools.pairwise(row)]
    bits = (places - 1).bit_length()
    key, there = circuit.wires(width), circuit.wires(bits)
    circuit.clauses.append([is_equal(circuit, key, picked(circuit, there, row))])
    drawn = is_equal(circuit, key[: width - 2], constant(rng.getrandbits(width - 2), width - 2))
    low = [-1] * bits
    for place in reversed(range(bits)):
        middle = [*low[:place], 1, *low[place + 1 :]]
        is_past = is_less(circuit, key, picked(circuit, middle, row))
        if wrong and place == 0:
            is_past = circuit.either(is_past, drawn)
        low = [*low[:place], -is_past, *low[place + 1 :]]
    circuit.clauses.append([-is_equal(circuit, key, picked(circuit, low, row))])
    return circuit.clauses


def heap_sinks(rng, places, width, steps, wrong):
    """A heap whose top is replaced by any number, which sinks: is it no heap after so many times? The right one is;
    the wrong one takes the left one of the two below where all of its bits but the last are drawn ones."""
    circuit = Circuit()
    heap = [circuit.wires(width) for _ in range(places)]
    for k in range(1, places):
        circuit.clauses.append([-is_less(circuit, heap[(k - 1) // 2], heap[k])])
    drawn = rng.getrandbits(width - 1)
    for _ in range(steps):
        heap[0] = circuit.wires(width)
        here = [1]
        for first in (2**k - 1 for k in range(places.bit_length())):
            goes = []
            for k in range(first, min(2 * first + 1, places)):
                left, right = 2 * k + 1, 2 * k + 2
                is_here = here[k - first]
                if left >= places:
                    continue
                top = heap[k]
                turns = is_less(circuit, heap[left], heap[right]) if right < places else -1
                if wrong and right < places:
                    same = is_equal(circuit, heap[left][1:], constant(drawn, width - 1))
                    turns = circuit.both(turns, -same)
                below = chosen(circuit, turns, heap[right], heap[left]) if right < places else heap[left]
                sinks = circuit.both(is_here, is_less(circuit, top, below))
                to_right, to_left = circuit.both(sinks, turns), circuit.both(sinks, -turns)
                heap[k] = chosen(circuit, sinks, below, top)
                heap[left] = chosen(circuit, to_left, top, heap[left])
                if right < places:
                    heap[right] = chosen(circuit, to_right, top, heap[right])
                goes += [to_left, to_right]
            here = goes + [-1] * places
    circuit.clauses.append([is_less(circuit, heap[(k - 1) // 2], heap[k]) for k in range(1, places)])
    return circuit.clauses


def text_matches(rng, letters, length, places):
    """Where a drawn word ends in a text: by an automaton that reads letter by letter (Knuth, Morris and Pratt), and by
    comparing at each place. Can they differ? No model."""
    circuit = Circuit()
    word = [rng.randrange(letters) for _ in range(length)]
    text = [circuit.wires(letters) for _ in range(places)]
    for wires in text:
        circuit.clauses += exactly_one(wires)

    def follow(state, letter):
        read = [*word[:state], letter]
        return next(k for k in range(length, -1, -1) if k <= len(read) and read[len(read) - k :] == word[:k])

    at, faults = [1] + [-1] * length, []
    for place, wires in enumerate(text):
        after = [[] for _ in range(length + 1)]
        for state, here in enumerate(at):
            for letter, wire in enumerate(wires):
                after[follow(state, letter)].append(circuit.both(here, wire))
        at = [any_of(circuit, ways) for ways in after]
        if place + 1 >= length:
            plain = all_of(circuit, [text[place - length + 1 + k][letter] for k, letter in enumerate(word)])
            faults.append(circuit.differ(plain, at[length]))
    circuit.clauses.append(faults)
    return circuit.clauses


# Protocols, plans and schedules.


def alternating_bits(_rng, steps, width, wrong):
    """A sender and a receiver that number messages with one bit, over channels that lose and repeat them: is a message
    ever taken that is not the next one? Not by the right ones; the wrong receiver takes any number after it has lost
    four of its answers in a row."""
    circuit = Circuit()
    both, either, choose = circuit.both, circuit.either, circuit.choose
    sent, got = constant(0, width), constant(0, width)
    # What lies in each channel: whether there is something, its bit, and the number of the message.
    there, there_bit, there_number = -1, -1, constant(0, width)
    back, back_bit = -1, -1
    sender, receiver, lost, faults = -1, -1, constant(0, 3), []
    for _ in range(steps):
        sends, loses, takes, answers, drops, hears = circuit.wires(6)
        there_bit = choose(sends, sender, there_bit)
        there_number = chosen(circuit, sends, sent, there_number)
        there = both(either(there, sends), -loses)
        arrives = both(both(there, takes), -sends)
        fits = -circuit.differ(there_bit, receiver)
        if wrong:
            fits = either(fits, is_equal(circuit, lost, constant(4, 3)))
        taken = both(arrives, fits)
        faults.append(both(taken, -is_equal(circuit, there_number, got)))
        got = plus(circuit, got, [taken] + [-1] * (width - 1))
        receiver = circuit.differ(receiver, taken)
        back_bit = choose(answers, -receiver, back_bit)
        gone = both(answers, drops)
        lost = chosen(circuit, gone, circuit.step_up(lost, -1), chosen(circuit, answers, constant(0, 3), lost))
        back = both(either(back, answers), -drops)
        heard = both(both(back, hears), -circuit.differ(back_bit, sender))
        sent = plus(circuit, sent, [heard] + [-1] * (width - 1))
        sender = circuit.differ(sender, heard)
    circuit.clauses.append(faults)
    return circuit.clauses


def ring_elections(_rng, nodes, bits, steps):
    """Nodes in a ring, with different numbers, of which each sends its own on, or the greater one that came (Chang's
    and Roberts's election): does a node ever hear its own number that is not the greatest? No model."""
    circuit = Circuit()
    names = [circuit.wires(bits) for _ in range(nodes)]
    for a, b in itertools.combinations(names, 2):
        deny_equal(circuit, a, b)
    held, full, faults = names, [1] * nodes, []
    for _ in range(steps):
        moves = [circuit.both(has, circuit.wire()) for has in full]
        circuit.clauses += [[-moves[k], -full[(k + 1) % nodes], moves[(k + 1) % nodes]] for k in range(nodes)]
        after, fills = [], []
        for k in range(nodes):
            comes = moves[k - 1]
            passes = circuit.both(comes, is_less(circuit, names[k], held[k - 1]))
            is_own = circuit.both(comes, is_equal(circuit, names[k], held[k - 1]))
            greater = [is_less(circuit, names[k], name) for other, name in enumerate(names) if other != k]
            faults.append(circuit.both(is_own, any_of(circuit, greater)))
            after.append(chosen(circuit, passes, held[k - 1], held[k]))
            fills.append(circuit.either(passes, circuit.both(full[k], -moves[k])))
        held, full = after, fills
    circuit.clauses.append(faults)
    return circuit.clauses


def single_tracks(rng, trains, stations, longest, horizon):
    """Trains on a line with one track between stations, both ways, each from a drawn hour on, with drawn times for each
    track: all at their ends within the horizon, no two on a track at once."""
    circuit = Circuit()
    takes = [rng.randint(1, longest) for _ in range(stations - 1)]
    tracks = [[] for _ in takes]
    for train in range(trains):
        order = range(stations - 1) if train % 2 else range(stations - 2, -1, -1)
        earliest = rng.randrange(trains)
        rows = []
        for track in order:
            # Whether the train is on the track, or behind it, at each time.
            row = [-1] * earliest + circuit.wires(horizon - earliest - takes[track]) + [1] * (takes[track] + 1)
            circuit.clauses += [[-a, b] for a, b in itertools.pairwise(row)]
            if rows:
                before, length = rows[-1]
                circuit.clauses += [[-row[k], before[k - length] if k >= length else -1] for k in range(horizon)]
            rows.append((row, takes[track]))
            tracks[track].append(row)
    for track, length in zip(tracks, takes):
        for a, b in itertools.combinations(track, 2):
            first = circuit.wire()
            for k in range(horizon):
                end = min(k + length, horizon)
                for one, two, sign in ((a, b, -first), (b, a, first)):
                    # The second begins after the end of the first.
                    if k >= length:
                        circuit.clauses.append([sign, -two[k], one[k - length]])
                    else:
                        circuit.clauses.append([sign, -two[k]])
    return circuit.clauses


def live_ranges(rng, count, registers, length, moves, saved):
    """A register for each of some values that live in drawn parts of a program, or a place in memory for at most
    `saved` of them; the two values of a move have one register, where both have one."""
    circuit = Circuit()
    parts = [(start := rng.randrange(length), start + rng.randint(1, length // 4)) for _ in range(count)]
    spill, has = circuit.wires(count), [circuit.wires(registers) for _ in range(count)]
    for wire, row in zip(spill, has):
        circuit.clauses += [[wire, *row]]
    apart = []
    for a, b in itertools.combinations(range(count), 2):
        if parts[a][0] < parts[b][1] and parts[b][0] < parts[a][1]:
            circuit.clauses += [[-x, -y] for x, y in zip(has[a], has[b])]
        else:
            apart.append((a, b))
    for a, b in rng.sample(apart, moves):
        circuit.clauses += [[spill[b], -x, y] for x, y in zip(has[a], has[b])]
    at_most(circuit, spill, saved)
    return circuit.clauses


def partner_units(rng, zones, sensors, links, units, capacity):
    """Zones and sensors on units of so many of each, of which a unit has at most two partners: a sensor is on the unit
    of each of its zones, or on a partner of it."""
    circuit = Circuit()
    zone = [circuit.wires(units) for _ in range(zones)]
    sensor = [circuit.wires(units) for _ in range(sensors)]
    partner = {}
    for a, b in itertools.combinations(range(units), 2):
        partner[a, b] = partner[b, a] = circuit.wire()
    for row in zone + sensor:
        circuit.clauses += exactly_one(row)
    for rows in (zone, sensor):
        for column in zip(*rows):
            at_most(circuit, column, capacity)
    for a in range(units):
        at_most(circuit, [partner[a, b] for b in range(units) if b != a], 2)
    pairs = [(k, k + d) for k in range(zones) for d in (0, 1) if k + d < sensors]
    pairs += rng.sample(list(itertools.product(range(zones), range(sensors))), links)
    for z, s in pairs:
        for a, b in itertools.permutations(range(units), 2):
            circuit.clauses.append([-zone[z][a], -sensor[s][b], partner[a, b]])
    return circuit.clauses


def votes(_rng, voters, choices, dictator):
    """A rule by which orders of all voters choose one of some things, each of which may win, and by which none gains by
    lying: with three things or more there is a dictator (Gibbard and Satterthwaite), who may be denied."""
    circuit = Circuit()
    orders = list(itertools.permutations(range(choices)))
    profiles = list(itertools.product(orders, repeat=voters))
    wins = {profile: circuit.wires(choices) for profile in profiles}
    for profile, wires in wins.items():
        circuit.clauses += exactly_one(wires)
        for voter, other in itertools.product(range(voters), orders):
            lie = profile[:voter] + (other,) + profile[voter + 1 :]
            mine = profile[voter]
            for better, worse in itertools.combinations(mine, 2):
                circuit.clauses.append([-wins[lie][better], -wires[worse]])
    for thing in range(choices):
        circuit.clauses.append([wires[thing] for wires in wins.values()])
    if not dictator:
        for voter in range(voters):
            circuit.clauses.append([-wires[profile[voter][0]] for profile, wires in wins.items()])
    return circuit.clauses
