"""Questions on statistics, and their answers, for tools/make_lists.py.

The answers come from python alone, and the texts from its module `decimal`: a quotient of 200 digits is rounded by its
ROUND_HALF_EVEN. A fraction whose denominator is below 2 ** 64 is a tie or farther from one than those digits tell, so
that rounding twice makes no difference. The answers to the rows by hand stand beside them too, and have to be the same.
"""

from decimal import ROUND_HALF_EVEN, Decimal, getcontext

GREATEST = 2**64 - 1
BILLION = 10**9
# The nanoseconds of the longest duration.
LONGEST = 2**64 * BILLION - 1

getcontext().prec = 200
getcontext().rounding = ROUND_HALF_EVEN


def decimal_text(numerator, denominator, places):
    """The fraction to so many decimals."""
    quotient = Decimal(numerator) / Decimal(denominator)
    return f"{quotient.quantize(Decimal(1).scaleb(-places)):f}"


def seconds(nanos, places):
    return decimal_text(nanos, BILLION, places) + "s"


def average_text(numbers):
    return decimal_text(sum(numbers), len(numbers), 6) if numbers else "NaN"


def moving_average(room, *numbers):
    """The texts of the last numbers, beginning with none, and what is told at the end, where they are forgotten."""
    texts = [average_text(numbers[max(end - room, 0) : end]) for end in range(len(numbers) + 1)]
    kept = min(room, len(numbers))
    return " ".join([*texts, "full" if kept == room else "open", str(kept), "NaN"])


def rate_text(won, lost):
    rate = decimal_text(100 * won, won + lost, 2) if won + lost else "NaN"
    return f"success: {won}, fail: {lost}, success rate: {rate}%"


# What answers a question, from its numbers.
ANSWERS = {
    "decimal": decimal_text,
    "percent": lambda part, whole, places: decimal_text(100 * part, whole, places),
    "average": lambda *numbers: average_text(numbers),
    "average_sum": lambda *numbers: sum(numbers),
    "average_mean": lambda places, *numbers: decimal_text(sum(numbers), len(numbers), places) if numbers else "none",
    "moving_average": moving_average,
    "average_duration": lambda *nanos: seconds(sum(nanos) // len(nanos), 9) if nanos else "None",
    "average_duration_sum": lambda *nanos: sum(nanos),
    "average_duration_mean": lambda *nanos: sum(nanos) // len(nanos) if nanos else "none",
    "counted_duration": lambda *nanos: f"{len(nanos)} times in {seconds(sum(nanos), 6)}",
    "counted_duration_sum": lambda *nanos: sum(nanos),
    "doubled_average": lambda times, nanos: f"{2**times} {seconds(nanos, 9)}",
    "success_rate": rate_text,
    "tried_rate": rate_text,
    "tries": lambda won, lost: f"{won} {lost}",
    "running_time": lambda start, now: seconds(max(now - start, 0), 2),
    "time": lambda start, now: max(now - start, 0),
    "since_label": lambda start, labelled, now: max(now - start, 0) - max(labelled - start, 0),
}

# Questions by hand, and their answers.
ROWS = {
    "averages are rounded to six decimals": [
        ("average", "NaN"),
        ("average 0", "0.000000"),
        ("average 1 1 0", "0.666667"),
        ("average 1 2", "1.500000"),
        ("average 4294967296", "4294967296.000000"),
        (f"average {GREATEST}", "18446744073709551615.000000"),
        (f"average {GREATEST} 0", "9223372036854775807.500000"),
        (f"average {GREATEST} {GREATEST}", "18446744073709551615.000000"),
    ],
    "sums and means are told": [
        (f"average_sum {GREATEST} {GREATEST} 0", "36893488147419103230"),
        (f"average_mean 2 {GREATEST} {GREATEST} 0", "12297829382473034410.00"),
        ("average_mean 1", "none"),
        (f"average_duration_sum 1 {LONGEST - 1}", "18446744073709551615999999999"),
        (f"counted_duration_sum 1 {LONGEST - 1}", "18446744073709551615999999999"),
        (f"average_duration_mean 1 {LONGEST - 1}", "9223372036854775807999999999"),
        ("average_duration_mean", "none"),
        ("tries 2 1", "2 1"),
        ("percent 2 3 3", "66.667"),
    ],
    "a moving average is of the last numbers": [
        (
            f"moving_average 3 1 2 3 {GREATEST} 0 0 0",
            "NaN 1.000000 1.500000 2.000000 6148914691236517206.666667 6148914691236517206.000000 "
            "6148914691236517205.000000 0.000000 full 3 NaN",
        ),
        ("moving_average 0 7", "NaN NaN full 0 NaN"),
    ],
    "decimals have up to 19 places": [
        ("decimal 9999995 10000000 6", "1.000000"),
        ("decimal 0 1 1", "0.0"),
        ("decimal 1 1 19", "1.0000000000000000000"),
        (f"decimal 1 {GREATEST} 19", "0.0000000000000000001"),
        (f"decimal {2**128 - 1} 1 1", "340282366920938463463374607431768211455.0"),
    ],
    "durations are shown in seconds": [
        ("average_duration", "None"),
        ("counted_duration", "0 times in 0.000000s"),
        ("average_duration 0", "0.000000000s"),
        ("counted_duration 0", "1 times in 0.000000s"),
        ("average_duration 1500", "0.000001500s"),
        ("counted_duration 1500", "1 times in 0.000002s"),
        (f"average_duration {BILLION} {2 * BILLION}", "1.500000000s"),
        (f"counted_duration {BILLION} {2 * BILLION}", "2 times in 3.000000s"),
        (f"average_duration {3600 * BILLION}", "3600.000000000s"),
        (f"counted_duration {3600 * BILLION}", "1 times in 3600.000000s"),
        (f"average_duration {3600 * BILLION + 1}", "3600.000000001s"),
        (f"counted_duration {3600 * BILLION + 1}", "1 times in 3600.000000s"),
        (f"average_duration {LONGEST}", "18446744073709551615.999999999s"),
        (f"counted_duration {LONGEST}", "1 times in 18446744073709551616.000000s"),
    ],
    "a rate at a tie goes to the even hundredth": [
        ("tried_rate 0 0", "success: 0, fail: 0, success rate: NaN%"),
        ("tried_rate 1 799", "success: 1, fail: 799, success rate: 0.12%"),
        ("tried_rate 3 797", "success: 3, fail: 797, success rate: 0.38%"),
        ("tried_rate 0 1", "success: 0, fail: 1, success rate: 0.00%"),
        ("tried_rate 1 1", "success: 1, fail: 1, success rate: 50.00%"),
        ("tried_rate 2 1", "success: 2, fail: 1, success rate: 66.67%"),
        ("tried_rate 1 0", "success: 1, fail: 0, success rate: 100.00%"),
    ],
    "a running time is that since its beginning": [
        ("running_time 0 0", "0.00s"),
        ("running_time 0 1005000000", "1.00s"),
        ("running_time 0 1015000000", "1.02s"),
        (f"running_time 0 {3601 * BILLION}", "3601.00s"),
        (f"running_time 0 {LONGEST}", "18446744073709551616.00s"),
        (f"time {5 * BILLION} {3 * BILLION}", "0"),
        (f"since_label {5 * BILLION} {6 * BILLION} {8 * BILLION}", "2000000000"),
    ],
    "an average divides by the whole count": [
        ("doubled_average 32 1", "4294967296 0.000000001s"),
    ],
}

# The answers to the rows by hand.
WANTED = {question: answer for rows in ROWS.values() for question, answer in rows}


def text(line):
    """The answer to a question, of a line with its name and its numbers."""
    name, *words = line.split()
    answer = str(ANSWERS[name](*map(int, words)))
    if answer != WANTED.get(line, answer):
        raise ValueError(f"{line}: {answer}, and the row has {WANTED[line]}")
    return answer


def number(rng):
    """A number of any size up to the greatest, small ones as often as large ones."""
    return rng.randrange(2 ** rng.randint(1, 64))


def questions(rng):
    """The words of each line: the rows by hand, and then others."""
    for question in WANTED:
        yield question.split()
    for name in ["average", "average_duration", "counted_duration"]:
        yield [name]
        yield [name, 0]
        yield [name, GREATEST]
        yield [name, GREATEST, GREATEST, GREATEST - 1]
    yield ["success_rate", 0, 0]
    yield ["decimal", GREATEST, 1, 19]
    yield ["decimal", GREATEST, GREATEST, 19]
    yield ["decimal", GREATEST - 1, GREATEST, 19]
    yield ["decimal", 1, GREATEST, 19]
    for _ in range(120):
        yield ["decimal", number(rng), max(number(rng), 1), rng.randint(1, 19)]
    # Ties, and what is next to one.
    for _ in range(60):
        places, factor = rng.randint(1, 9), rng.randint(1, 9)
        tie = (2 * rng.randrange(10**places) + 1) * factor
        for off in [-1, 0, 1]:
            yield ["decimal", tie + off, 2 * 10**places * factor, places]
    # A carry into the whole part.
    for _ in range(20):
        places = rng.randint(1, 9)
        unit = 10 ** (places + 1)
        yield ["decimal", rng.randrange(1, 1000) * unit - rng.randint(1, 6), unit, places]
    for _ in range(40):
        yield ["average"] + [rng.randrange(100) for _ in range(rng.randint(1, 20))]
        yield ["average"] + [number(rng) for _ in range(rng.randint(1, 8))]
        yield ["average_duration"] + [number(rng) for _ in range(rng.randint(1, 8))]
        yield ["counted_duration"] + [number(rng) for _ in range(rng.randint(1, 8))]
        yield ["counted_duration", 1000 * rng.randrange(10**6) + rng.choice([499, 500, 501])]
        yield ["success_rate", rng.randrange(1000), rng.randrange(1000)]
        won = rng.randrange(800)
        yield ["success_rate", won, 800 - won]
        start = number(rng)
        yield ["running_time", start, min(start + number(rng), GREATEST)]
        yield ["running_time", start, rng.randrange(start + 1)]
        yield ["running_time", 0, 10**7 * rng.randrange(10**6) + rng.choice([4999999, 5000000, 5000001])]
    for _ in range(20):
        yield ["percent", rng.randrange(1000), rng.randrange(1, 1000), rng.randint(1, 19)]
        yield ["average_sum"] + [number(rng) for _ in range(rng.randint(1, 8))]
        yield ["average_mean", rng.randint(1, 19)] + [number(rng) for _ in range(rng.randint(1, 8))]
        yield ["moving_average", rng.randint(1, 5)] + [number(rng) for _ in range(rng.randint(1, 8))]
        yield ["average_duration_mean"] + [number(rng) for _ in range(rng.randint(1, 8))]
        yield ["doubled_average", rng.randrange(60), rng.randrange(10**9)]
        yield ["tried_rate", rng.randrange(1000), rng.randrange(1000)]
        yield ["since_label"] + [number(rng)] + sorted([number(rng), number(rng)])
