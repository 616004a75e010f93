#!/usr/bin/env python3
"""Draws growth.svg beside this file from the CSV of `bench growth` on standard input.

    cd tests && cargo run --release -p differential --bin bench growth | python3 ../docs/plots/growth.py

The only argument, if there is one, names another file to write.
"""

import csv
import math
import pathlib
import sys

WIDTH, HEIGHT = 700, 420
# The borders of the plot. To its right stand the names of the lines.
LEFT, RIGHT, TOP, BOTTOM = 70, 600, 50, 360

HEAD = ["positions", "ours ns", "Rust ns"]
LINES = [("ours", "#0b6e4f"), ("the Rust", "#b5482a")]

# Names of lines that end nearer to each other than this could not be read.
NAME_HEIGHT = 18


def read(source):
    """The positions of the points, and the microseconds of each line."""
    rows = [row for row in csv.reader(source) if row]
    if rows[:1] != [HEAD] or len(rows) < 3:
        sys.exit(f"no CSV of `bench growth`: expected the head {','.join(HEAD)} and two points or more")
    points = sorted([float(number) for number in row] for row in rows[1:])
    positions, *lines = zip(*points)
    return positions, [[ns / 1000 for ns in line] for line in lines]


def ticks(most):
    """Round numbers from 0 to the first that is not below `most`, eight steps at most."""
    ten = 10 ** math.floor(math.log10(most / 8))
    step = next(ten * factor for factor in (1, 2, 5, 10) if ten * factor * 8 >= most)
    return [step * k for k in range(math.ceil(most / step) + 1)]


def text(x, y, words, anchor="middle", more=""):
    return f'<text x="{x:.1f}" y="{y:.1f}" text-anchor="{anchor}"{more}>{words}</text>'


def stroke(x1, y1, x2, y2, colour):
    return f'<line x1="{x1:.1f}" y1="{y1:.1f}" x2="{x2:.1f}" y2="{y2:.1f}" stroke="{colour}"/>'


def axes(across, up, place):
    """The grid, the numbers and what they are of."""
    parts = []
    for number in up:
        _, y = place(0, number)
        parts += [stroke(LEFT, y, RIGHT, y, "#dddddd"), text(LEFT - 8, y + 4, f"{number:,g}", "end")]
    for number in across:
        x, _ = place(number, 0)
        parts += [stroke(x, BOTTOM, x, BOTTOM + 5, "#333333"), text(x, BOTTOM + 20, f"{number:,g}")]
    parts += [stroke(LEFT, BOTTOM, RIGHT, BOTTOM, "#333333"), stroke(LEFT, TOP, LEFT, BOTTOM, "#333333")]
    middle, centre = (LEFT + RIGHT) / 2, (TOP + BOTTOM) / 2
    parts.append(text(middle, 26, "All six passes of a 4:2:0 superblock, depth 8", more=' font-size="16"'))
    parts.append(text(middle, BOTTOM + 44, "filtered positions in the superblock"))
    parts.append(text(20, centre, "microseconds", more=f' transform="rotate(-90 20 {centre:.1f})"'))
    return parts


def line(points, colour):
    path = " ".join(f"{x:.1f},{y:.1f}" for x, y in points)
    dots = [f'<circle cx="{x:.1f}" cy="{y:.1f}" r="3" fill="{colour}"/>' for x, y in points]
    return [f'<polyline points="{path}" fill="none" stroke="{colour}" stroke-width="2"/>', *dots]


def names(ends):
    """The name of each line at its end, moved apart where they are too near."""
    heights = sorted((y, k) for k, (_, y) in enumerate(ends))
    parts, last = [], -math.inf
    for y, k in heights:
        last = max(y, last + NAME_HEIGHT)
        name, colour = LINES[k]
        parts.append(text(RIGHT + 10, last + 5, name, "start", f' fill="{colour}" font-weight="bold"'))
    return parts


def drawing(positions, lines):
    across, up = ticks(max(positions)), ticks(max(map(max, lines)))

    def place(position, microseconds):
        x = LEFT + (RIGHT - LEFT) * position / across[-1]
        return x, BOTTOM - (BOTTOM - TOP) * microseconds / up[-1]

    placed = [[place(*point) for point in zip(positions, of_line)] for of_line in lines]
    parts = axes(across, up, place)
    for points, (_, colour) in zip(placed, LINES):
        parts += line(points, colour)
    parts += names([points[-1] for points in placed])
    head = f'<svg xmlns="http://www.w3.org/2000/svg" width="{WIDTH}" height="{HEIGHT}" viewBox="0 0 {WIDTH} {HEIGHT}"'
    style = ' font-family="sans-serif" font-size="13" fill="#222222">'
    ground = f'<rect width="{WIDTH}" height="{HEIGHT}" fill="#ffffff"/>'
    return "\n".join([head + style, ground, *parts, "</svg>", ""])


def main():
    file = pathlib.Path(sys.argv[1]) if len(sys.argv) > 1 else pathlib.Path(__file__).with_name("growth.svg")
    file.write_text(drawing(*read(sys.stdin)))


main()
