#!/usr/bin/env python3
"""Draws how many formulas each program solved within a time: a cactus plot, as SVG.

    tools/cactus.py FILE.. --output PLOT.svg

FILE has runs that `tools/formulas.py --time .. --keep FILE` has kept. A program's curve rises at the processor time of
each formula that it solved, the shortest first, so a higher curve is better, and its name has their number. Times stand
on a logarithmic axis from 0.01 s, where the shorter ones stand too, to the limit of the runs.
"""

import argparse
import json
import math
from pathlib import Path

from formulas import title

WIDTH, HEIGHT = 640, 400
LEFT, RIGHT, TOP, BOTTOM = 50, 150, 20, 45
LEAST = 0.01
# Colours that are told apart by colour-blind readers too, on white and on black.
COLOURS = ("#0072b2", "#d55e00", "#009e73", "#cc79a7", "#e69f00")
GREY = "#888888"


def curves(files):
    """For each program the times of the formulas that it solved, rising; how many formulas there are, and the limit."""
    rows = [(path, json.loads(line)) for path in files for line in path.read_text(encoding="utf-8").splitlines()]
    if not rows:
        raise SystemExit("cactus.py: no run was kept there")
    first, times = rows[0][0], {program: [] for program in rows[0][1]["runs"]}
    for path, row in rows:
        if row["runs"].keys() != times.keys():
            raise SystemExit(f"cactus.py: {path}: it has runs of other programs than {first}")
        for program, (what, seconds, *_) in row["runs"].items():
            if what != "none":
                times[program].append(max(seconds, LEAST))
    titled = {}
    for program, found in times.items():
        name = title(program, times)
        if name in titled:
            raise SystemExit(f"cactus.py: two programs would have the title '{name}'")
        titled[name] = sorted(found)
    return titled, len(rows), max(row["limit"] for _, row in rows)


def text(x, y, words, anchor="middle", colour=GREY):
    return f'<text x="{x:.1f}" y="{y:.1f}" text-anchor="{anchor}" fill="{colour}">{words}</text>'


def line(x1, y1, x2, y2):
    return f'<line x1="{x1:.1f}" y1="{y1:.1f}" x2="{x2:.1f}" y2="{y2:.1f}" stroke="{GREY}" stroke-width="0.5"/>'


def drawn(found, count, limit):
    """The lines of the plot."""
    right, bottom = WIDTH - RIGHT, HEIGHT - BOTTOM
    decades = math.log10(limit / LEAST)

    def x(seconds):
        return LEFT + (right - LEFT) * math.log10(seconds / LEAST) / decades

    def y(solved):
        return bottom - (bottom - TOP) * solved / count

    yield f'<svg xmlns="http://www.w3.org/2000/svg" viewBox="0 0 {WIDTH} {HEIGHT}" font-family="sans-serif" font-size="12">'
    for seconds in (LEAST * 10**power for power in range(math.floor(decades) + 1)):
        yield line(x(seconds), TOP, x(seconds), bottom)
        yield text(x(seconds), bottom + 16, f"{'≤ ' if seconds == LEAST else ''}{seconds:g}")
    step = max(1, 10 ** math.floor(math.log10(count)) // (1 if count >= 40 else 2))
    for solved in range(0, count + 1, step):
        yield line(LEFT, y(solved), right, y(solved))
        yield text(LEFT - 6, y(solved) + 4, solved, "end")
    yield text((LEFT + right) / 2, HEIGHT - 8, f"seconds, at most {limit:g}")
    yield text(LEFT, TOP - 7, f"formulas solved, of {count}", "start")
    ends = sorted((y(len(times)), name) for name, times in found.items())
    places, last = {}, -math.inf
    for end, name in ends:
        places[name] = last = max(end, last + 15)
    for (name, times), colour in zip(found.items(), COLOURS):
        points = [(x(LEAST), y(0))]
        for solved, seconds in enumerate(times, 1):
            points += [(x(seconds), y(solved - 1)), (x(seconds), y(solved))]
        points.append((right, y(len(times))))
        path = " ".join(f"{px:.1f},{py:.1f}" for px, py in points)
        yield f'<polyline points="{path}" fill="none" stroke="{colour}" stroke-width="2"/>'
        yield text(right + 6, places[name] + 4, f"{name}: {len(times)}", "start", colour)
    yield "</svg>"


def main():
    parser = argparse.ArgumentParser(description=__doc__, formatter_class=argparse.RawDescriptionHelpFormatter)
    parser.add_argument("files", nargs="+", metavar="FILE", type=Path)
    parser.add_argument("--output", required=True, metavar="PLOT.svg", type=Path)
    words = parser.parse_args()
    for path in words.files:
        if not path.is_file():
            parser.error(f"there is no file '{path}'")
    found, count, limit = curves(words.files)
    if len(found) > len(COLOURS):
        parser.error(f"there are colours for {len(COLOURS)} programs alone")
    words.output.write_text("".join(f"{part}\n" for part in drawn(found, count, limit)), encoding="utf-8")


if __name__ == "__main__":
    main()
