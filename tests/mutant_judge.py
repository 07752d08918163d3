"""How what the prover said of a mutant becomes the reason for which it is refused.

    goal    a goal does not hold
    type    an answer or a lemma does not fit what the mutant makes of its goal
    limit   a search for a goal's proof gave up at its limit: the goal may hold
    form    the borrow checker does not cover the mutant: no clause was tried
    name    an answer or a lemma cites a name that the mutant has not, or that is closed to it
    other   another error: it does not compile, or a text of it does not stand once"""

import collections
import re

# Why a mutant is refused, first what shows most of a contract.
REASONS = ("goal", "type", "limit", "form", "name", "other")

JUDGED = re.compile(r"^fn \w+::(\S+): (.*)", re.MULTILINE)
# A goal that no search closed, and one at which an answer's tactic ended.
OPEN = re.compile(r"^note: \S+?:\d+:\d+: .*?\(`([^`]+)`\)(.*)", re.MULTILINE)
UNPROVED = re.compile(r"`search` did not prove ((?:`[^`]+`(?:, )?)+)")
ANSWER = re.compile(r"^(?:\./)?proofs/(\S+?):\d+:\d+: error: (?:`([^`]*)`: )?(.*(?:\n  .*)*)", re.MULTILINE)
FALSE = re.compile(r"may be false|allow values at which|All of that holds, and the goal fails")
DOES_NOT_FOLLOW = re.compile(r"does not follow|may be false|did not prove|found no proof|no proof (?:of|was found)")
LIMIT = re.compile(r"the goal may hold|limit|gave up|ran out")
NAME = re.compile(r"has no field|is not in scope|has no `|was not admitted|is no name|cannot be unfolded here")
TYPE = re.compile(r"expected type|types? first differ|does not fit|has this type|no occurrence of")
FORM = re.compile(r"(?:is|are) not covered|does not cover|expected a measure")
# What it says of a function whose own goals all hold: where holes are let pass, and where they are not.
ACCEPTED = re.compile(r"proved|no holes|depends on a hole|it calls .* which (?:are|is) not proved")
WAITS = re.compile(r"declarations? that depends? on")
# How a check ends that reached the prover.
REACHED = re.compile(r"^(?:logic=|only=|holes=|rattle: no verdict)", re.MULTILINE)
# How it ends where all of a crate is proved.
WHOLE = re.compile(r"^logic=proved ", re.MULTILINE)
UNKNOWN = re.compile(r"^rattle: error: `\w+` has no function `([^`]+)`", re.MULTILINE)
SEVERAL = re.compile(r"^rattle: error: several functions are named `([^`]+)`: help: write one of (.*)", re.MULTILINE)
# What becomes of a mutant that is no mutant.
PROVED = ("none", "it is proved")


def kind_of(error):
    """Which reason an error of an answer or a lemma gives."""
    kinds = {"goal": DOES_NOT_FOLLOW, "limit": LIMIT, "name": NAME, "type": TYPE}
    return next((kind for kind, words in kinds.items() if words.search(error)), "other")


def foremost(goals, others):
    """The reason that shows most of a contract, and what shows it; None where there is none."""
    if any(known != "limit" for known in goals.values()):
        return "goal", ", ".join(goals)
    if goals:
        others["limit"] = ", ".join(goals)
    return min(others.items(), key=rank, default=None)


def rank(reason):
    return REASONS.index(reason[0])


def is_less(found, wanted):
    """Whether a reason shows less of a contract than another one does."""
    return found in REASONS and REASONS.index(found) > REASONS.index(wanted)


class Said:
    """What the prover said in one check."""

    def __init__(self, text):
        self.text, self.reached, self.is_proved = text, bool(REACHED.search(text)), bool(WHOLE.search(text))
        self.errors = ANSWER.findall(text)
        # Of each function its line, and the notes on its open goals, which stand in front of that.
        self.judged, self.notes, start = {}, collections.defaultdict(list), 0
        for match in JUDGED.finditer(text):
            self.judged[match[1]] = match[2]
            self.notes[match[1]] += OPEN.findall(text, start, match.start())
            start = match.end()

    def reason(self, function):
        """Why the prover refuses a function by its own goals, and what shows it; None where it is proved or only waits."""
        judged, folder = self.judged.get(function, ""), function.replace("::", "/") + "/"
        if ACCEPTED.match(judged):
            return None
        goals, others = {}, {}
        for names in UNPROVED.findall(judged):
            for goal in re.findall(r"`([^`]+)`", names):
                self.sort_open(function, goal, goals, others)
        self.sort_errors(folder, goals, others)
        if FORM.search(judged):
            others.setdefault("form", judged)
        return foremost(goals, others)

    def reason_of(self, functions):
        """Why the prover refuses a mutant that stands in these functions, and what shows it; None where it only waits for
        another one, or where nothing is told of these."""
        found = min(filter(None, map(self.reason, functions)), key=rank, default=None)
        if not found and functions and all(self.judged.get(name) == "proved" for name in functions):
            return PROVED
        return found

    def accepts(self, functions):
        """Whether the prover refuses no goal of these functions, and tells of each."""
        return bool(functions) and all(ACCEPTED.match(self.judged.get(name, "")) for name in functions)

    def reason_of_crate(self):
        """Why the prover refuses a crate, where a mutant stands in no function that can be told."""
        goals, others = {}, {}
        self.sort_errors("", goals, others)
        found = [foremost(goals, others), *map(self.reason, self.judged)]
        return min(filter(None, found), key=rank, default=PROVED if self.is_proved else None)

    def reason_of_proofs(self, paths):
        """Why the prover refuses what stands in these files of proofs/, and what shows it; None where it says nothing of them."""
        goals, others = {}, {}
        for path in paths:
            self.sort_errors(path.removeprefix("proofs/"), goals, others)
        return foremost(goals, others)

    def misnamed(self):
        """The names of functions that were asked for and that stand for none or for several, each with these."""
        found = {name: set() for name in UNKNOWN.findall(self.text)}
        for name, several in SEVERAL.findall(self.text):
            found[name] = {each.partition("::")[2] for each in re.findall(r"`([^`]+)`", several)}
        return found

    def first_error(self):
        return next((line for line in self.text.splitlines() if "error" in line), self.text.strip()[-200:])

    def sort_errors(self, folder, goals, others):
        """Sorts the errors below a folder of proofs into goals and other reasons."""
        for path, name, error in self.errors:
            if not path.startswith(folder) or WAITS.search(error):
                continue
            kind = kind_of(error)
            if kind in ("goal", "limit") and name:
                goals[name] = kind if kind == "limit" and goals.get(name) != "" else ""
            else:
                others.setdefault(kind, f"{name}: {error.splitlines()[0]}" if name else error.splitlines()[0])

    def sort_open(self, function, goal, goals, others):
        """Sorts a goal that no search closed: it does not hold, or all searches for it gave up at their limits."""
        rests = [rest for name, rest in self.notes[function] if name == goal]
        if not rests:
            others.setdefault("other", f"nothing is said of {goal}")
        else:
            goals[goal] = "limit" if all(LIMIT.search(rest) and not FALSE.search(rest) for rest in rests) else ""
