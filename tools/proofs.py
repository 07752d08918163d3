#!/usr/bin/env python3
"""A plain checker of proofs, written apart from gipsat's: DRAT and LRAT, as text or binary.

    tools/proofs.py --check FORMULA PROOF    writes `s VERIFIED` or `s NOT VERIFIED`
    tools/proofs.py --stored                 judges each proof of tests/proofs.txt
    tools/proofs.py --hostile N GIPSAT       changes right proofs at random, N times: `GIPSAT --check` may verify none of a
                                             satisfiable formula, and has to judge all as this checker does
    tools/proofs.py --convert N GIPSAT CADICAL    has GIPSAT turn the stored DRAT proofs, and those that CADICAL writes of N
                                             random formulas, into LRAT, and judges what is written

It is for small formulas: propagation looks at all clauses again and again, and whether something satisfies a formula is
found by trying all values.
"""
import argparse
import ast
import itertools
import pathlib
import random
import re
import subprocess
import sys
import tempfile

ROOT = pathlib.Path(__file__).resolve().parent.parent
STORED = ROOT / "tests/proofs.txt"


class Refused(Exception):
    """A proof is refused."""


def read_formula(data):
    words = [word for line in data.split(b"\n") if not line.startswith((b"c", b"p")) for word in line.split()]
    clauses, clause = [], []
    for word in words:
        if int(word):
            clause.append(int(word))
        else:
            clauses.append(tuple(clause))
            clause = []
    return clauses


def is_satisfiable(clauses):
    variables = sorted({abs(l) for clause in clauses for l in clause})
    for signs in itertools.product((1, -1), repeat=len(variables)):
        true = {v * sign for v, sign in zip(variables, signs)}
        if all(true.intersection(clause) for clause in clauses):
            return True
    return False


# The numbers of a proof, as steps (kind, name, numbers): kind is "a" or "d".

def text_words(data):
    for line in re.split(rb"\n", data):
        if line.lstrip(b" \t\r").startswith(b"c"):
            continue
        for word in re.split(rb"[ \t\r]+", line):
            if word:
                yield word


def number_of(word, greatest):
    if not re.fullmatch(rb"-?[0-9]+", word) or word.startswith(b"-") and int(word) == 0 or abs(int(word)) > greatest:
        raise Refused(f"word {word}")
    return int(word)


def drat_text(data):
    clause, kind = [], "a"
    for word in text_words(data):
        if word == b"d" and kind == "a" and not clause:
            kind = "d"
            continue
        number = number_of(word, 2**31 - 1)
        if number:
            clause.append(number)
        else:
            yield kind, 0, clause, []
            clause, kind = [], "a"
    raise Refused("the end")


def lrat_text(data):
    words = text_words(data)
    for word in words:
        name, lists, kind = number_of(word, 2**55), [[], []], "a"
        if name <= 0:
            raise Refused("name")
        place = 0
        for word in words:
            if word == b"d" and kind == "a" and place == 0 and not lists[0]:
                kind, place = "d", 1
                continue
            number = number_of(word, 2**31 - 1 if place == 0 else 2**55)
            if number:
                lists[place].append(number)
            elif place == 1:
                break
            else:
                place = 1
        else:
            break
        yield kind, name, lists[0], lists[1]
    raise Refused("the end")


def code_at(data, at, greatest):
    value, scale = 0, 1
    while at < len(data):
        if scale > greatest:
            raise Refused("code")
        value += data[at] % 128 * scale
        if value > greatest:
            raise Refused("code")
        if data[at] < 128:
            return value, at + 1
        scale *= 128
        at += 1
    raise Refused("the end")


def codes_at(data, at, greatest, signed):
    numbers = []
    while True:
        code, at = code_at(data, at, greatest)
        if code == 0:
            return numbers, at
        if signed and code == 1:
            raise Refused("0 with a sign")
        numbers.append((code // 2) * (-1 if code % 2 else 1) if signed else code)


def drat_bytes(data):
    at = 0
    while at < len(data):
        kind = chr(data[at])
        if kind not in "ad":
            raise Refused("step")
        clause, at = codes_at(data, at + 1, 2**32 - 1, True)
        yield kind, 0, clause, []
    raise Refused("the end")


def lrat_bytes(data):
    at = 0
    while at < len(data):
        kind = chr(data[at])
        if kind == "a":
            name, at = code_at(data, at + 1, 2**56 + 1)
            if name == 0:
                raise Refused("name")
            clause, at = codes_at(data, at, 2**56 + 1, True)
            if any(abs(l) > 2**31 - 1 for l in clause):
                raise Refused("literal")
            hints, at = codes_at(data, at, 2**56 + 1, True)
            yield "a", name, clause, hints
        elif kind == "d":
            names, at = codes_at(data, at + 1, 2**56 + 1, False)
            yield "d", 0, [], names
        else:
            raise Refused("step")
    raise Refused("the end")


class Drat:
    """Clauses held, and what is true by them for good."""

    def __init__(self, clauses):
        self.clauses, self.true, self.refuted = list(clauses), set(), False
        self.settle()

    def propagate(self, true):
        """Adds to the set what becomes true; whether some clause has no literal left."""
        changed = True
        while changed:
            changed = False
            for clause in self.clauses:
                if any(l in true for l in clause):
                    continue
                left = {l for l in clause if -l not in true}
                if not left:
                    return True
                if len(left) == 1:
                    true |= left
                    changed = True
        return False

    def settle(self):
        self.refuted = self.refuted or self.propagate(self.true)

    def is_rup(self, clause):
        true = set(self.true)
        for l in clause:
            if l in true:
                return True
            true.add(-l)
        return self.propagate(true)

    def is_rat(self, clause):
        if not clause or clause[0] in self.true or -clause[0] in self.true:
            return False
        others = [d for d in self.clauses if -clause[0] in d]
        return all(self.is_rup([*clause, *(l for l in d if l != -clause[0])]) for d in others)

    def step(self, kind, name, clause, hints):
        if kind == "d":
            for held in self.clauses:
                if set(held) == set(clause):
                    self.clauses.remove(held)
                    break
        elif self.is_rup(clause) or self.is_rat(clause):
            self.clauses.append(tuple(clause))
            self.settle()
        else:
            raise Refused("neither RUP nor RAT")


class Lrat:
    """Clauses by their names."""

    def __init__(self, clauses):
        self.clauses, self.last, self.refuted = dict(enumerate(clauses, 1)), len(clauses), False

    def follow(self, true, hints):
        """Adds to the set what the hints make true; whether some clause has no literal left."""
        for hint in hints:
            if hint not in self.clauses:
                raise Refused("hint")
            clause = self.clauses[hint]
            left = {l for l in clause if -l not in true}
            if not left:
                return True
            if len(left) > 1 or left & true:
                raise Refused("not unit")
            true |= left
        return False

    def is_shown(self, true, clause, hints):
        for l in clause:
            if l in true:
                return True
            true.add(-l)
        return self.follow(true, hints)

    def is_rat(self, true, clause, groups):
        found = set()
        for (name, *hints) in groups:
            other = self.clauses.get(-name)
            if other is None or -clause[0] not in other:
                return False
            found.add(-name)
            rest = [*clause, *(l for l in other if l != -clause[0])]
            if not self.is_shown(set(true), rest, hints):
                return False
        return all(name in found for name, other in self.clauses.items() if -clause[0] in other)

    def step(self, kind, name, clause, hints):
        if kind == "d":
            for hint in hints:
                if hint not in self.clauses:
                    raise Refused("deletion")
                del self.clauses[hint]
            return
        if name <= self.last:
            raise Refused("name")
        first = next((i for i, hint in enumerate(hints) if hint < 0), len(hints))
        true = set()
        if not self.is_shown(true, clause, hints[:first]):
            groups, rest = [], hints[first:]
            for hint in rest:
                groups.append([hint]) if hint < 0 else groups[-1].append(hint)
            if not clause or not self.is_rat(true, clause, groups):
                raise Refused("not shown")
        self.clauses[name], self.last = tuple(clause), name
        self.refuted = not clause


def is_text(data):
    line_begins = False
    for byte in data[:32]:
        if byte == ord("c") and line_begins:
            return True
        if byte not in b"0123456789- \t\r\nadflor":
            return False
        line_begins = byte == 10
    return True


def is_lrat_text(data, count):
    """In the first line with words: `d` as the second one, or a name that no clause has and a number behind a 0."""
    for line in data.split(b"\n"):
        words = re.findall(rb"[^ \t\r]+", line)
        if not words or words[0].startswith(b"c"):
            continue
        numbers = []
        for word in words:
            if word == b"d":
                return len(numbers) == 1
            try:
                number = number_of(word, 2**55)
            except Refused:
                return False
            if 0 in numbers:
                return numbers[0] > count
            numbers.append(number)
        return False
    return False


def is_lrat_bytes(data, count):
    """As DRAT a step begins with something else than a or d, and the first step's number is no clause's."""
    at, named = 0, False
    while at < len(data):
        if data[at] not in b"ad":
            return named
        try:
            numbers, end = codes_at(data, at + 1, 2**56 + 1, False)
        except Refused:
            return False
        if data[at] == ord("a") and not named:
            if not numbers or numbers[0] <= count:
                return False
            named = True
        at = end
    return False


def judge(formula, data):
    """Whether the proof shows that nothing satisfies the formula. None if its form is not read."""
    clauses = read_formula(formula)
    if data[:2] in (b"\x1f\x8b", b"o ") or data[:1] in (b"%", b"o") or data[:2] == b"a " and is_text(data):
        return Drat(clauses).refuted or None
    if data[:1] in (b"a", b"d") and not is_text(data):
        hinted, steps = (True, lrat_bytes) if is_lrat_bytes(data, len(clauses)) else (False, drat_bytes)
    else:
        hinted, steps = (True, lrat_text) if is_lrat_text(data, len(clauses)) else (False, drat_text)
    checker = Lrat(clauses) if hinted else Drat(clauses)
    try:
        if checker.refuted:
            return True
        for step in steps(data):
            checker.step(*step)
            if checker.refuted:
                return True
    except Refused:
        pass
    return False


def stored():
    """The proofs of tests/proofs.txt: a name, formula, proof, and whether it is verified."""
    names, about = {}, ""
    for number, row in enumerate(STORED.read_text(encoding="utf-8").splitlines(), 1):
        if row.startswith("#"):
            about = row[2:]
        elif "\t" in row:
            outcome, _, formula, proof = row.split("\t")
            yield f"{number}: {about}", bytes_of(names.get(formula, formula)), bytes_of(proof), outcome.startswith("verified")
        else:
            name, _, formula = row.partition(" = ")
            names[name] = formula


def bytes_of(text):
    """The bytes of a text with escapes."""
    return ast.literal_eval(f'b"""{text}"""')


def judge_stored():
    passed = failed = 0
    for name, formula, proof, wanted in stored():
        if bool(judge(formula, proof)) == wanted:
            passed += 1
        else:
            failed += 1
            print(f"{name}: {proof!r} is {'refused' if wanted else 'verified'} here")
    print(f"{passed} passed, {failed} failed")
    return failed == 0 and passed > 0


def changed(rng, data):
    """A proof with a change at random."""
    words = re.findall(rb"\S+|\s+", data)
    choice = rng.randrange(7)
    if choice < 4 and not data[:1] in (b"a", b"d"):
        numbers = [place for place, word in enumerate(words) if re.fullmatch(rb"-?[0-9]+", word)]
        if numbers:
            place = rng.choice(numbers)
            number = int(words[place])
            words[place] = (b"%d" % rng.choice([-number, number + 1, number - 1, 0, rng.randrange(-20, 21)]), b"",
                            b"0 " + words[place], words[place] + b" 0")[choice]
        return b"".join(words)
    if choice == 4:
        lines = data.split(b"\n")
        i, j = rng.randrange(len(lines)), rng.randrange(len(lines))
        lines[i], lines[j] = lines[j], lines[i]
        return b"\n".join(lines)
    place = rng.randrange(len(data))
    if choice == 5:
        return data[:place] + data[place + rng.randrange(1, 4):]
    return data[:place] + bytes([rng.choice((data[place] ^ 1, data[place] ^ 2, rng.randrange(256)))]) + data[place + 1:]


def hostile(count, gipsat):
    rng = random.Random(51)
    proofs = [(formula, proof) for _, formula, proof, wanted in stored() if wanted and proof]
    verified = differing = wrong = 0
    with tempfile.TemporaryDirectory() as folder:
        paths = [str(pathlib.Path(folder) / name) for name in ("formula", "proof")]
        for _ in range(count):
            formula, proof = rng.choice(proofs)
            header, _, body = formula.partition(b"\n")
            clauses = read_formula(formula)
            if rng.random() < 0.7:
                del clauses[rng.randrange(len(clauses))]
            variables = int(header.split()[2])
            text = b"p cnf %d %d\n" % (variables, len(clauses))
            text += b"".join(b" ".join(b"%d" % l for l in (*clause, 0)) + b"\n" for clause in clauses)
            for _ in range(rng.randrange(4)):
                proof = changed(rng, proof) or proof
            if any(abs(int(word)) > 10**4 for word in re.findall(rb"-?[0-9]+", proof)) and proof[:1] not in b"ad":
                continue
            for path, data in zip(paths, (text, proof)):
                pathlib.Path(path).write_bytes(data)
            run = subprocess.run([gipsat, "--check", *paths], capture_output=True)
            says = run.stdout.startswith(b"s VERIFIED")
            verified += says
            if says and is_satisfiable(clauses):
                wrong += 1
                print(f"verified, and something satisfies it: {text!r} {proof!r}")
            elif says != bool(judge(text, proof)):
                differing += 1
                print(f"{'verified' if says else 'refused'}, and not so here: {text!r} {proof!r} {run.stderr!r}")
    print(f"{count} proofs, {verified} verified, {wrong} of them wrong; {differing} judged otherwise here")
    return wrong == 0 and differing == 0


def random_formula(rng):
    """Clauses of three literals, so many that mostly nothing satisfies them all."""
    count = rng.randrange(20, 70)
    clauses = [[v * rng.choice((1, -1)) for v in rng.sample(range(1, count + 1), 3)] for _ in range(5 * count)]
    return b"p cnf %d %d\n" % (count, len(clauses)) + b"".join(b"%d %d %d 0\n" % tuple(clause) for clause in clauses)


def convert(count, gipsat, cadical):
    rng = random.Random(52)
    converted = failed = 0
    with tempfile.TemporaryDirectory() as folder:
        formula, proof, out = (pathlib.Path(folder) / name for name in ("formula", "proof", "out"))

        def drat():
            for _, text, data, wanted in stored():
                if wanted:
                    yield text, data
            for _ in range(count):
                text = random_formula(rng)
                formula.write_bytes(text)
                form = rng.choice(("--no-binary", "--binary"))
                subprocess.run([cadical, "-q", form, formula, proof], capture_output=True)
                yield text, proof.read_bytes()

        for text, data in drat():
            formula.write_bytes(text)
            proof.write_bytes(data)
            out.unlink(missing_ok=True)
            form = rng.choice(([], ["--binary"]))
            run = subprocess.run([gipsat, "--lrat-from-drat", out, *form, formula, proof], capture_output=True)
            if not run.stdout.startswith(b"s VERIFIED"):
                failed += out.exists()
                continue
            verified = subprocess.run([gipsat, "--check", formula, out], capture_output=True).stdout == b"s VERIFIED\n"
            converted += 1
            if not judge(text, out.read_bytes()) or not verified:
                failed += 1
                print(f"not verified once it is converted: {text!r} {data!r} {out.read_bytes()!r}")
    print(f"{converted} proofs converted, {failed} failed")
    return failed == 0 and converted > 0


def main():
    parser = argparse.ArgumentParser(description=__doc__, formatter_class=argparse.RawDescriptionHelpFormatter)
    work = parser.add_mutually_exclusive_group(required=True)
    work.add_argument("--check", nargs=2, metavar=("FORMULA", "PROOF"))
    work.add_argument("--stored", action="store_true")
    work.add_argument("--hostile", nargs=2, metavar=("N", "GIPSAT"))
    work.add_argument("--convert", nargs=3, metavar=("N", "GIPSAT", "CADICAL"))
    words = parser.parse_args()
    if words.check:
        verdict = judge(*(pathlib.Path(path).read_bytes() for path in words.check))
        print("s VERIFIED" if verdict else "s NOT VERIFIED")
        sys.exit(0 if verdict else 1)
    if words.stored:
        sys.exit(0 if judge_stored() else 1)
    if not (words.hostile or words.convert)[0].isdigit():
        parser.error(f"no number: {(words.hostile or words.convert)[0]}")
    if words.convert:
        sys.exit(0 if convert(int(words.convert[0]), *words.convert[1:]) else 1)
    sys.exit(0 if hostile(int(words.hostile[0]), words.hostile[1]) else 1)


if __name__ == "__main__":
    main()
