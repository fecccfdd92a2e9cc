"""Figures of pages against the tree and the files of bench/: counts, times, and what the README repeats."""
import csv
import re

from page_tree import CRATES, TOP, crates, pages

def counts():
    page = TOP / "docs/TESTING.md"
    said = re.search(r"has (\d+) crates, (\d+) edits and (\d+) tests", page.read_text(encoding="utf-8"))
    edits = len(list(CRATES.glob("*/must-fail/*.edit")))
    tests = sum(path.read_text(encoding="utf-8").count("#[test]") for path in CRATES.rglob("src/**/*.rt"))
    found = (len(crates()), edits, tests)
    if not said:
        yield page, "has no count of crates, edits and tests"
    elif tuple(map(int, said.groups())) != found:
        yield page, f"counts {said.groups()} crates, edits and tests, where there are {found}"


def figures():
    """Figures of README's first table stand on another page, where they are explained."""
    readme = TOP / "README.md"
    others = "\n".join(path.read_text(encoding="utf-8") for path in pages() if path != readme)
    first = readme.read_text(encoding="utf-8").split("\n| What was played", 1)[1].split("\n\n", 1)[0]
    lines = [line for line in first.splitlines() if line.startswith("| ")]
    for figure in sorted({it for line in lines for it in re.findall(r"\b\d[\d,]*\d\b", line)}):
        if figure not in others:
            yield readme, f"no other page has the figure {figure}"


def table(name):
    """The rows of a file of figures in bench/."""
    with open(TOP / "bench" / name, encoding="utf-8") as file:
        return list(csv.DictReader(file))


UNITS = {"ns": 1.0, "µs": 1e3, "ms": 1e6}


def agrees(said, nanoseconds):
    """Whether a time as it is told, with its unit, is this one, rounded."""
    number, _, unit = said.partition(" ")
    places = len(number.partition(".")[2])
    return unit in UNITS and f"{float(nanoseconds) / UNITS[unit]:.{places}f}" == number


def ports(page, lines):
    """The times of calls of the ports are those of bench/ports.csv."""
    told = {row["name"]: row for row in table("ports.csv")}
    for cells in lines:
        row = told.get(cells[0].strip("`"))
        if row is None or len(cells) != 5 or not cells[0].startswith("`"):
            continue
        for said, column in ((cells[1], "ns"), (cells[3], "peer_ns")):
            if said and not agrees(said, row[column] or 0):
                yield page, f"says {said} of {row['name']}, where bench/ports.csv has {row[column]} ns"


def growth(page, lines, text):
    """The times and the memory of `its run` are those of bench/figures.csv."""
    kinds = {}
    for row in table("figures.csv"):
        kinds.setdefault(row["kind"], []).append(row)
    of_calls = {f"{int(row['calls']):,}": row for row in sum(kinds.values(), [])}
    for cells in lines:
        row = of_calls.get(cells[1]) if len(cells) == 5 else None
        if row and (cells[2], cells[3]) != (f"{row['seconds']} s", f"{row['mib']} MiB"):
            yield page, f"says {cells[2]} and {cells[3]} of {cells[0]}, which bench/figures.csv doesn't"
    for kind, rows_of in kinds.items():
        seconds = [f"{row['seconds']} s" for row in rows_of]
        forms = (" | ".join(seconds), ", ".join(seconds), f"{', '.join(seconds[:-1])} and {seconds[-1]}")
        if kind.startswith(("map-", "events", "devices", "overlap")) and not any(it in text for it in forms):
            yield page, f"doesn't tell {', '.join(seconds)} of {kind}, as bench/figures.csv does"


def speed():
    """Figures of docs/SPEED.md that a file of bench/ has."""
    page = TOP / "docs/SPEED.md"
    text = page.read_text(encoding="utf-8")
    told = (line for line in text.splitlines() if line.startswith("|"))
    lines = [[cell.strip() for cell in line.strip("|").split("|")] for line in told]
    yield from ports(page, lines)
    yield from growth(page, lines, text)
