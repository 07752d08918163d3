"""Lists of calls of the solver and their answers, for tools/make_lists.py: rows by plain names, and all small formulas.

A formula is a list of clauses, which are lists of literals; variable 1 is 1, and its negation is -1. What is wanted
stands in the rows by hand, and is compared here with a search by cases; the tables come from tables of truth.
"""

import functools
import itertools
import sys

LIMIT = 100

# The formulas that many rows are about: one model, and none.
ONE_MODEL = [[1, 2], [-1, 2], [1, -2]]
NO_MODEL = [*ONE_MODEL, [-1, -2]]


# Formulas.


def pigeons(holes):
    """One pigeon more than there are holes, each in a hole of its own."""

    def sits(pigeon, hole):
        return pigeon * holes + hole + 1

    clauses = [[sits(pigeon, hole) for hole in range(holes)] for pigeon in range(holes + 1)]
    for hole in range(holes):
        for a in range(holes + 1):
            clauses += [[-sits(a, hole), -sits(b, hole)] for b in range(a)]
    return clauses


def colouring(nodes, edges, colours):
    """A colour for each node, such that no edge has one colour at both ends."""

    def has(node, colour):
        return node * colours + colour + 1

    clauses = [[has(node, colour) for colour in range(colours)] for node in range(nodes)]
    for a, b in edges:
        clauses += [[-has(a, colour), -has(b, colour)] for colour in range(colours)]
    return clauses


def is_sum(a, b, c):
    """That c is the sum of a and b modulo 2."""
    return [[a, b, -c], [a, -b, c], [-a, b, c], [-a, -b, -c]]


def there_and_back(variables, is_odd):
    """The sum of all variables modulo 2, by a chain to the last one, and on by a chain through all of them again: it is
    even, and is said to be odd or not."""
    total = variables + 1
    clauses = [[-total]]
    for step in range(2 * variables):
        clauses += is_sum(total, step % variables + 1, total + 1)
        total += 1
    return [*clauses, [total if is_odd else -total]]


RING = [(0, 1), (1, 2), (2, 3), (3, 4), (4, 0)]
COMPLETE = list(itertools.combinations(range(4), 2))
# Petersen's graph.
PETERSEN = [*RING, *((node, node + 5) for node in range(5)), (5, 7), (7, 9), (9, 6), (6, 8), (8, 5)]


def selected(clauses, first):
    """Each clause holds only if a variable of its own is true: the first one is `first`."""
    return [[*clause, -selector] for selector, clause in enumerate(clauses, first)]


def has_model(clauses):
    """Whether anything satisfies the formula."""
    return splits(tuple(map(tuple, clauses)))


@functools.cache
def splits(clauses):
    """The same, by the cases of a literal of a shortest clause."""
    if not clauses:
        return True
    shortest = min(clauses, key=len)
    if not shortest:
        return False
    literal = shortest[0]
    return any(splits(assigned(clauses, case)) for case in (literal, -literal))


def assigned(clauses, literal):
    """What is left of the clauses where the literal is true."""
    return tuple(tuple(o for o in clause if o != -literal) for clause in clauses if literal not in clause)


# A list is made with its answers: each step is a call with its answer.


class List:
    """The calls of a list with their answers, and the clauses that were given."""

    def __init__(self, name):
        self.name = name
        self.clauses = []
        self.steps = []

    def step(self, call, wanted):
        self.steps.append((call, wanted))
        return self

    def give(self, clauses):
        self.clauses = self.clauses + clauses
        for clause in clauses:
            self.step(" ".join(map(str, ["clause", *clause])), "ok")
        return self

    def simplify(self):
        return self.step("simplify", "ok")

    def ask(self, call, wanted):
        """A question that is answered by `sat` or `unsat`, or is left open."""
        if wanted != "unknown":
            self.compare(call, self.clauses, wanted)
        return self.step(call, wanted)

    def under(self, assumptions, wanted, limit=LIMIT):
        """A question under assumptions. Of a core it is wanted how many literals it has: here only one set is such."""
        call = " ".join(map(str, ["under", limit, *assumptions]))
        if wanted == "unknown":
            return self.step(call, wanted)
        units = [[literal] for literal in assumptions]
        if wanted == "sat":
            self.compare(call, self.clauses + units, wanted)
            return self.step(call, wanted)
        sets = itertools.combinations(sorted(set(assumptions)), wanted)
        cores = [core for core in sets if not has_model(self.clauses + [[literal] for literal in core])]
        if len(cores) != 1:
            sys.exit(f"{self.name}: {call}: {len(cores)} cores of {wanted} literals")
        return self.step(call, " ".join(map(str, ["unsat", *cores[0]])))

    def compare(self, call, clauses, wanted):
        if has_model(clauses) != (wanted == "sat"):
            sys.exit(f"{self.name}: {call}: not {wanted}")

    def parts(self):
        """The header, the calls, and their answers."""
        calls, answers = zip(*self.steps)
        return f"new solver {self.name}", list(calls), list(answers)


FORMULAS = [
    ("the empty formula", [], "sat"),
    ("the empty clause", [[]], "unsat"),
    ("the empty clause behind others", [[1], [-2, 3], [], []], "unsat"),
    ("a unit", [[-1]], "sat"),
    ("a unit twice", [[7], [7]], "sat"),
    ("units that clash", [[1], [-1]], "unsat"),
    ("a tautology", [[1, -1]], "sat"),
    ("a tautology beside units that clash", [[2, -2, 1], [2], [-2]], "unsat"),
    ("a literal twice", [[1, 1], [-1, -1, 2]], "sat"),
    ("a literal twice in clauses that clash", [[1, 1], [-1, -1, -1]], "unsat"),
    ("variables that no clause has", [[1, 900], [-900]], "sat"),
    ("one model", ONE_MODEL, "sat"),
    ("no model", NO_MODEL, "unsat"),
    ("a chain of units", [[1], [-1, 2], [-2, 3], [-3, -1]], "unsat"),
]

FAMILIES = [
    ("4 holes", pigeons(4), "unsat"),
    ("5 holes", pigeons(5), "unsat"),
    ("6 holes", pigeons(6), "unsat"),
    ("7 holes", pigeons(7), "unsat"),
    ("a sum of 1 variable that is odd", there_and_back(1, True), "unsat"),
    ("a sum of 2 variables that is even", there_and_back(2, False), "sat"),
    ("a sum of 8 variables that is odd", there_and_back(8, True), "unsat"),
    ("a sum of 30 variables that is even", there_and_back(30, False), "sat"),
    ("a ring of five in 2 colours", colouring(5, RING, 2), "unsat"),
    ("a ring of five in 3 colours", colouring(5, RING, 3), "sat"),
    ("four neighbours in 3 colours", colouring(4, COMPLETE, 3), "unsat"),
    ("four neighbours in 4 colours", colouring(4, COMPLETE, 4), "sat"),
    ("Petersen's graph in 2 colours", colouring(10, PETERSEN, 2), "unsat"),
    ("Petersen's graph in 3 colours", colouring(10, PETERSEN, 3), "sat"),
    ("no colour", colouring(1, [], 0), "unsat"),
]

WITH_NO_LIMIT = [
    ("the empty formula", [], "sat"),
    ("the empty clause", [[1], []], "unsat"),
    ("one model", ONE_MODEL, "sat"),
    ("no model", NO_MODEL, "unsat"),
    ("7 holes", pigeons(7), "unsat"),
    ("a sum of 30 variables that is even", there_and_back(30, False), "sat"),
    ("Petersen's graph in 3 colours", colouring(10, PETERSEN, 3), "sat"),
]

# A formula, assumptions, and `sat` or how many of them can't hold together.
ASSUMPTIONS = [
    ("none", [[1, 2]], [], "sat"),
    ("some that hold", [[1, 2]], [1, -2], "sat"),
    ("one twice", [[1, 2]], [-1, -1], "sat"),
    ("one that a unit says", [[-1]], [2, -1], "sat"),
    ("of no clause", [[1]], [900, -800], "sat"),
    ("one against a unit", [[-1]], [2, 1], 1),
    ("two against a clause", [[1, 2]], [3, -1, 4, -2], 2),
    ("a literal and its negation", [[1, 2]], [3, 4, -3], 2),
    ("the ends of a chain", [[-1, 2], [-2, 3], [-3, 4]], [5, 1, 6, -4], 2),
    ("after a conflict", [[1, 2, -9], [-1, 2, -9], [1, -2, -9], [-1, -2, -9]], [8, 9], 1),
    ("of a formula with no model", [[1], [-1]], [2], 0),
    ("of the empty clause", [[]], [1], 0),
]


def rows():
    """The lists with rows: a formula, one question, and its answer."""
    for name, clauses, wanted in FORMULAS:
        yield List(name).give(clauses).ask(f"solve {LIMIT}", wanted)
    for name, clauses, wanted in FAMILIES:
        yield List(name).give(clauses).ask("solve 1000000", wanted)
    for name, clauses, wanted in WITH_NO_LIMIT:
        yield List(f"{name}, with no limit").give(clauses).ask("find", wanted)
    for name, clauses, assumptions, wanted in ASSUMPTIONS:
        yield List(f"assumptions: {name}").give(clauses).under(assumptions, wanted)


def clauses_come():
    """Clauses that come after an answer, also after one that was left open."""
    for name, ask in (("clauses after an answer", f"solve {LIMIT}"), ("models as clauses come", "find")):
        made = List(name).give(ONE_MODEL[:2]).ask(ask, "sat").give(ONE_MODEL[2:]).ask(ask, "sat")
        yield made.give(NO_MODEL[3:]).ask("solve 0", "unknown").ask(ask, "unsat")


def variables_come():
    """Clauses over new variables after each answer, also where the formula was simplified before."""
    parts = [[[1, 2]], [[-1, 7], [-2, -7], [7, 9]], [[-9], [-7]]]
    answers = ["sat", "sat", "unsat"]
    after = List("variables after an answer")
    for part, wanted in zip(parts, answers):
        after.give(part).ask(f"solve {LIMIT}", wanted)
    yield after
    simplified = List("clauses for a simplified formula").give(parts[0]).ask(f"solve {LIMIT}", answers[0])
    for part, wanted in zip(parts[1:], answers[1:]):
        simplified.simplify().give(part).ask(f"solve {LIMIT}", wanted)
    yield simplified


def slices():
    """A search that goes on from call to call. The second formula has 204 clauses: some 1500 learned ones are watched
    before half of them are forgotten, and a tenth more each time that the conflicts have grown by half."""
    going_on = List("a further call goes on").give(pigeons(5)).ask("slices 20", "unsat")
    yield going_on.step("conflicts_above 20", "true")
    small = List("a store stays small").give(pigeons(7)).ask("slices 100", "unsat")
    yield small.step("known_below 3000", "true").step("conflicts_above 4000", "true")


def selectors():
    """Three pigeons for two holes, each clause with a selector. Each clause is needed, so a core has all selectors."""
    clauses, chosen = selected(pigeons(2), 7), list(range(7, 16))
    yield (
        List("clauses that are selected")
        .give(clauses)
        .under(chosen, 9)
        .under([], "sat")
        .under(chosen[:8], "sat")
        .under(chosen, 9)
    )
    yield List("a limit under assumptions").give(clauses).under(chosen, "unknown", 0).under(chosen, 9)


# Tables of truth. An assignment is a number from 0 to 7, whose bit k is the value of variable k.


def literals(clause):
    """The literals of a clause below 27, whose digits to base 3 tell of each variable whether the clause has it (1), has
    its negation (2), or neither."""
    digits = (clause % 3, clause // 3 % 3, clause // 9)
    return [variable if digit == 1 else -variable for variable, digit in enumerate(digits, 1) if digit]


def is_true(literal, assignment):
    return (assignment >> abs(literal) - 1 & 1 == 1) == (literal > 0)


CLAUSES = range(27)
ANY = [{a for a in range(8) if any(is_true(literal, a) for literal in literals(clause))} for clause in CLAUSES]
ALL = [{a for a in range(8) if all(is_true(literal, a) for literal in literals(clause))} for clause in CLAUSES]


def word(models):
    return "sat" if models else "unsat"


def formulas_of_four():
    """All formulas of four clauses over three variables: the answer after each clause."""
    calls, answers = [], []
    for clauses in itertools.combinations_with_replacement(CLAUSES, 4):
        models = itertools.accumulate((ANY[clause] for clause in clauses), set.intersection)
        calls.append(" ".join(map(str, clauses)))
        answers.append(" ".join(map(word, models)))
    return "new tables four clauses over three variables", calls, answers


def formulas_of_two():
    """All formulas of two clauses: the answer under the literals of each clause."""
    calls, answers = [], []
    for a, b in itertools.combinations_with_replacement(CLAUSES, 2):
        calls.append(f"under {a} {b}")
        answers.append(" ".join(word(ANY[a] & ANY[b] & assumed) for assumed in ALL))
    return "new tables two clauses under assumptions", calls, answers


def lists():
    """The header of each list, its calls, and their answers."""
    for made in itertools.chain(rows(), clauses_come(), variables_come(), slices(), selectors()):
        yield made.parts()
    yield formulas_of_four()
    yield formulas_of_two()
