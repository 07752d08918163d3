#!/usr/bin/env python3
"""Draws the times of two programs against each other, a point for each circuit, as SVG.

    tools/scatter.py FILE.. --output PLOT.svg [--across PROGRAM] [--up PROGRAM] [--limit SECONDS]

FILE has runs that `tools/beside.py .. --keep FILE` has kept. A point stands at the processor time of one program across,
and of the other up, both on logarithmic axes from 0.01 s, where shorter times stand too, to the limit; where a program
left a bad literal open, the point stands at the limit, which is called "open". So points above the diagonal are circuits on which the program across was faster. The
programs are the first two that the runs have, or those that are named; `abc pdr`, say.
"""

import argparse
import math
from pathlib import Path

from beside import merged, read, title
from cactus import COLOURS, GREY, LEAST, line, text

SIZE, LEFT, RIGHT, TOP, BOTTOM = 480, 55, 20, 40, 50


def points(rows, limit, across, up):
    """For each circuit the two times, and whether some bad literal fails; those open for both are left out."""
    for row in rows:
        if across in row["runs"] and up in row["runs"]:
            pair = [row["runs"][program].within(limit) for program in (across, up)]
            times = [min(max(run.seconds, LEAST), limit) if run.is_whole() else limit for run in pair]
            if any(run.is_whole() for run in pair):
                yield (*times, any("f" in run.answers for run in pair))


def drawn(found, limit, across, up):
    """The lines of the plot."""
    edge, bottom = SIZE - RIGHT, SIZE - BOTTOM
    span = math.log10(limit / LEAST)

    def x(seconds):
        return LEFT + (edge - LEFT) * math.log10(seconds / LEAST) / span

    def y(seconds):
        return bottom - (bottom - TOP) * math.log10(seconds / LEAST) / span

    yield f'<svg xmlns="http://www.w3.org/2000/svg" viewBox="0 0 {SIZE} {SIZE}" font-family="sans-serif" font-size="12">'
    ticks = [10.0**exponent for exponent in range(-2, math.ceil(math.log10(limit)))]
    labels = {seconds: f"{seconds:g}" for seconds in ticks} | {LEAST: f"≤ {LEAST:g}", limit: f"{limit:g}, open"}
    for seconds, label in labels.items():
        yield line(x(seconds), TOP, x(seconds), bottom)
        yield line(LEFT, y(seconds), edge, y(seconds))
        yield text(x(seconds), bottom + 16, label, "end" if seconds == limit else "middle")
        yield text(LEFT - 6, y(seconds) + 4, label, "end")
    yield line(LEFT, bottom, edge, TOP)
    yield text((LEFT + edge) / 2, SIZE - 10, f"seconds of {across}")
    yield text(LEFT, TOP - 24, f"seconds of {up}, up", "start")
    kinds = ("safe", COLOURS[0]), ("failing", COLOURS[1])
    for fails, (name, colour) in enumerate(kinds):
        some = [point for point in found if point[2] == bool(fails)]
        yield text(LEFT + 90 * fails, TOP - 7, f"{name}: {len(some)}", "start", colour)
        for a, b, _ in some:
            yield f'<circle cx="{x(a):.1f}" cy="{y(b):.1f}" r="2.5" fill="{colour}" fill-opacity="0.6"/>'
    if not found:
        yield text((LEFT + edge) / 2, (TOP + bottom) / 2, "no circuit", colour=GREY)
    yield "</svg>"


def main():
    parser = argparse.ArgumentParser(description=__doc__, formatter_class=argparse.RawDescriptionHelpFormatter)
    parser.add_argument("files", nargs="+", metavar="FILE", type=Path)
    parser.add_argument("--output", required=True, metavar="PLOT.svg", type=Path)
    parser.add_argument("--limit", type=int, metavar="SECONDS", help="as if runs had this limit")
    parser.add_argument("--across", metavar="PROGRAM")
    parser.add_argument("--up", metavar="PROGRAM")
    asked = parser.parse_args()
    for path in asked.files:
        if not path.is_file():
            parser.error(f"there is no file '{path}'")
    rows = merged(read(asked.files))
    programs = list(dict.fromkeys(program for row in rows for program in row["runs"]))
    across = asked.across or next(iter(programs), "")
    up = asked.up or next((program for program in programs if program != across), "")
    for program in (across, up):
        if program not in programs:
            parser.error(f"there are no runs of '{program}', only of {', '.join(programs) or 'nothing'}")
    limit = asked.limit or max(run.limit for row in rows for run in row["runs"].values())
    found = list(points(rows, limit, across, up))
    asked.output.write_text(
        "".join(f"{part}\n" for part in drawn(found, limit, title(across), title(up))), encoding="utf-8"
    )


if __name__ == "__main__":
    main()
