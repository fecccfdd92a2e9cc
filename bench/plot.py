#!/usr/bin/env python3
"""Draws the rows of a file that run.sh writes: FOLDER/growth_calls.svg has time and memory by calls, and
FOLDER/growth_mapped.svg has time and memory by what is mapped. With PORTS, a file that measure_ports.py writes,
FOLDER/signals_threads.svg has signals a second by threads.

usage: plot.py FIGURES FOLDER [PORTS]
"""

import csv
import math
import os
import sys
from collections import defaultdict

# By calls: what each kind is called in the legend.
BY_CALLS = {"signals": "signals", "mixed": "mixed lines"}
# By what is mapped.
BY_MAPPED = {
    "events": "eight migrations, events of one device",
    "devices": "eight migrations, devices",
    "overlap": "a save that is refused, devices",
    "map-devices-rising": "mapping devices, rising",
    "map-devices-falling": "mapping devices, falling",
    "map-devices-scattered": "mapping devices, scattered",
    "map-events-rising": "mapping events, rising",
    "map-events-falling": "mapping events, falling",
    "map-events-scattered": "mapping events, scattered",
}
# By threads: the calls of each line, and the column that has their time.
BY_THREADS = {
    "a device for each thread": (("signal-1", "signal-2-devices", "signal-4-devices"), "ns"),
    "a device for each thread, plain Rust": (("signal-1", "signal-2-devices", "signal-4-devices"), "peer_ns"),
    "one device": (("signal-1", "signal-2-one"), "ns"),
    "one device, plain Rust": (("signal-1", "signal-2-one"), "peer_ns"),
    "a Mutex around a map": (("signal-1", "signal-2-devices", "signal-4-devices"), "mutex_ns"),
    "the locked instructions of a hit alone": (("signal-1", "signal-2-devices", "signal-4-devices"), "locked_ns"),
}
COLOURS = ["#0b62a4", "#c44e00", "#3a7d2c", "#8a3ffc", "#b3003c", "#00707a", "#7a5a00", "#555555", "#d02090"]

PANEL_WIDTH, PANEL_HEIGHT = 300, 200
LEFT, TOP, GAP, FOOT = 64, 40, 96, 56
LEGEND_ROW = 18


def rows_of(figures):
    """For each kind its rows, by their numbers."""
    rows = defaultdict(list)
    with open(figures, newline="", encoding="ascii") as lines:
        for row in csv.DictReader(lines):
            rows[row["kind"]].append({name: float(row[name]) for name in ("size", "calls", "seconds", "mib")})
    return rows


def ticks(most):
    """Up to six steps of 1, 2, 5, 10, .. or a decimal part of these, that reach so far, after 0."""
    step = 0.001
    while True:
        for times in (1, 2, 5):
            if step * times * 6 >= most:
                return [step * times * n for n in range(math.ceil(most / (step * times)) + 1)]
        step *= 10


def label(number):
    """A tick's number: 250k, 1M, 0.5."""
    for size, unit in ((1_000_000, "M"), (1_000, "k")):
        if number >= size:
            return f"{number / size:g}{unit}"
    return f"{number:g}"


class Panel:
    """Axes from zero, and a line for each kind."""

    def __init__(self, left, title, lines, x_name, y_name):
        self.left = left
        self.title = title
        self.lines = lines
        self.names = x_name, y_name
        self.across = ticks(max(x for points in lines.values() for x, _ in points))
        self.up = ticks(max(y for points in lines.values() for _, y in points))

    def at(self, x, y):
        across = self.left + PANEL_WIDTH * x / self.across[-1]
        down = TOP + PANEL_HEIGHT * (1 - y / self.up[-1])
        return f"{across:.1f}", f"{down:.1f}"

    def axes(self):
        bottom = TOP + PANEL_HEIGHT
        yield f'<text x="{self.left}" y="{TOP - 14}" class="title">{self.title}</text>'
        for tick in self.up:
            _, y = self.at(0, tick)
            yield f'<line x1="{self.left}" y1="{y}" x2="{self.left + PANEL_WIDTH}" y2="{y}" class="grid"/>'
            yield f'<text x="{self.left - 8}" y="{float(y) + 4:.1f}" text-anchor="end">{label(tick)}</text>'
        for tick in self.across:
            x, _ = self.at(tick, 0)
            yield f'<text x="{x}" y="{bottom + 18}" text-anchor="middle">{label(tick)}</text>'
        x_name, y_name = self.names
        middle = self.left + PANEL_WIDTH / 2
        yield f'<text x="{middle}" y="{bottom + 38}" text-anchor="middle">{x_name}</text>'
        yield (
            f'<text transform="rotate(-90)" x="{-(TOP + PANEL_HEIGHT / 2)}" y="{self.left - 46}" '
            f'text-anchor="middle">{y_name}</text>'
        )

    def curves(self, colours):
        for name, points in self.lines.items():
            places = [self.at(x, y) for x, y in sorted(points)]
            drawn = " ".join(f"{x},{y}" for x, y in places)
            yield f'<polyline points="{drawn}" stroke="{colours[name]}" class="curve"/>'
            for x, y in places:
                yield f'<circle cx="{x}" cy="{y}" r="3" fill="{colours[name]}"/>'


def legend(names, colours, top):
    for number, name in enumerate(names):
        y = top + LEGEND_ROW * number
        yield f'<line x1="{LEFT}" y1="{y}" x2="{LEFT + 24}" y2="{y}" stroke="{colours[name]}" class="curve"/>'
        yield f'<text x="{LEFT + 32}" y="{y + 4}">{name}</text>'


STYLE = """\
text { font: 12px sans-serif; fill: #222 }
.title { font-weight: bold }
.grid { stroke: #ddd }
.curve { fill: none; stroke-width: 2 }
"""


def figure(rows, names, x, x_name):
    """Two panels beside each other: seconds and MiB, by x."""
    kinds = [kind for kind in names if kind in rows]
    colours = {names[kind]: COLOURS[at % len(COLOURS)] for at, kind in enumerate(kinds)}
    seconds = {names[kind]: [(row[x], row["seconds"]) for row in rows[kind]] for kind in kinds}
    memory = {names[kind]: [(row[x], row["mib"]) for row in rows[kind]] for kind in kinds}
    return drawing(
        [
            Panel(LEFT, "Time", seconds, x_name, "seconds"),
            Panel(LEFT + PANEL_WIDTH + GAP, "Peak memory", memory, x_name, "MiB"),
        ],
        colours,
    )


def threads_figure(ports):
    """Million signals a second, by threads."""
    lines = {}
    for name, (calls, column) in BY_THREADS.items():
        lines[name] = [(float(ports[call]["threads"]), 1000 / float(ports[call][column])) for call in calls]
    colours = {name: COLOURS[at] for at, name in enumerate(lines)}
    return drawing([Panel(LEFT, "Signals", lines, "threads", "million a second")], colours)


def drawing(panels, colours):
    """Panels beside each other, and the lines' names."""
    width = LEFT + len(panels) * (PANEL_WIDTH + GAP) - GAP + 32
    legend_top = TOP + PANEL_HEIGHT + FOOT
    height = legend_top + LEGEND_ROW * len(colours) + 4
    yield f'<svg xmlns="http://www.w3.org/2000/svg" viewBox="0 0 {width} {height}" width="{width}" height="{height}">'
    yield f"<style>{STYLE}</style>"
    yield f'<rect width="{width}" height="{height}" fill="#fff"/>'
    for panel in panels:
        yield from panel.axes()
        yield from panel.curves(colours)
    yield from legend(colours, colours, legend_top)
    yield "</svg>"


def draw(path, lines):
    with open(path, "w", encoding="ascii") as svg:
        svg.writelines(line + "\n" for line in lines)


def main():
    if len(sys.argv) not in (3, 4):
        raise SystemExit(__doc__)
    figures, folder = sys.argv[1:3]
    rows = rows_of(figures)
    draw(os.path.join(folder, "growth_calls.svg"), figure(rows, BY_CALLS, "calls", "calls"))
    draw(os.path.join(folder, "growth_mapped.svg"), figure(rows, BY_MAPPED, "size", "devices or events"))
    if len(sys.argv) == 4:
        with open(sys.argv[3], newline="", encoding="ascii") as lines:
            ports = {row["name"]: row for row in csv.DictReader(lines)}
        draw(os.path.join(folder, "signals_threads.svg"), threads_figure(ports))


if __name__ == "__main__":
    main()
