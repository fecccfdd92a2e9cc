#!/usr/bin/env python3
"""Checks the edits of must-fail/ against the tree and docs/TESTING.md, from the top of a clone:

    python3 bench/check_edits.py

Each edit changes files of its crate's src/ alone; each text that it takes away stands there once, by
itself or after the pairs before it; no two edits of a crate leave the same files; a crate has twelve
at most. In the page's table of wrong bodies each edit that is named is there, in its crate and once,
each row names one, and "and four more" says how many others have the prefix of the first. Each crate
has edits or stands on the page among those that have none. It prints a line for each thing that is
wrong, and ends with status 1 if there is any. It makes no edit: `rt must-fail NAME` does.
"""
import collections
import re
import sys

from page_tree import CRATES, TOP, crates, rows

PAGE = TOP / "docs/TESTING.md"
HEADING = "Edits that must fail"
MOST = 12
NUMBERS = "no one two three four five six seven eight nine ten eleven twelve".split()


def found():
    """The edits of each crate that has some."""
    edits = collections.defaultdict(list)
    for path in sorted(CRATES.glob("*/must-fail/*.edit")):
        edits[path.parent.parent.name].append(path)
    return edits


def applied(path):
    """The files that an edit leaves, by their place in the crate; or why it can't be made."""
    file, old, left = "", "", {}
    for line in path.read_text(encoding="utf-8").splitlines():
        kind, _, text = line.partition(": ")
        if kind == "file":
            file, old = text.strip(), ""
            if not file.startswith("src/") or not (path.parent.parent / file).is_file():
                return None, f"names {file}, which is no file of the crate's src/"
            left.setdefault(file, (path.parent.parent / file).read_text(encoding="utf-8"))
        elif kind == "old":
            old = text
        elif line.startswith("new:") and file and old:
            times = left[file].count(old)
            if times != 1:
                return None, f"takes away a text that {file} has {times} times: {old.strip()[:60]}"
            left[file], old = left[file].replace(old, line[4:].removeprefix(" ")), ""
        elif line.strip():
            return None, f"has a line that isn't read: {line.strip()[:60]}"
    same = all((path.parent.parent / name).read_text(encoding="utf-8") == text for name, text in left.items())
    return (None, "changes nothing") if same else (left, None)


def each_edit(edits):
    for crate, paths in edits.items():
        if crate not in crates():
            yield CRATES / crate, "has edits, and isn't in crates.txt"
        if len(paths) > MOST:
            yield CRATES / crate, f"has {len(paths)} edits, where {MOST} are the most"
        leaves = {}
        for path in paths:
            left, why = applied(path)
            if why:
                yield path, why
                continue
            key = tuple(sorted(left.items()))
            if key in leaves:
                yield path, f"leaves what {leaves[key]} leaves"
            leaves[key] = path.stem


def named(cell):
    """The edits that a cell of the table names, each with its crate, and how many more it tells of."""
    for part in cell.split("; "):
        crate, colon, names = part.partition(": ")
        listed = re.findall(r"\b[a-z0-9]+(?:_[a-z0-9]+)+\b", names)
        more = re.search(r"\band (\w+) more\b", names)
        yield crate if colon else None, listed, NUMBERS.index(more.group(1)) if more else 0


def table(edits):
    """The table of wrong bodies."""
    times = collections.Counter()
    for cells in rows(PAGE, HEADING, 2):
        if cells[0] == "A wrong body":
            continue
        for crate, listed, more in named(cells[1]):
            there = [path.stem for path in edits.get(crate, [])]
            if crate is None or not listed:
                yield PAGE, f"names no crate, or no edit of it: {cells[0][:60]}"
                continue
            for name in listed:
                times[crate, name] += 1
                if name not in there:
                    yield PAGE, f"{crate}: no edit {name}"
            prefix = listed[0].split("_")[0] + "_" if listed[0].startswith("always_") else ""
            others = [name for name in there if name.startswith(prefix) and name not in listed]
            if more and len(others) != more:
                yield PAGE, f"{crate}: tells of {more} more, where there are {len(others)}"
    for (crate, name), count in times.items():
        if count > 1:
            yield PAGE, f"{crate}: names {name} {count} times"


def without(edits):
    """Each crate has edits, or the page says that it has none."""
    text = PAGE.read_text(encoding="utf-8").split(f"\n## {HEADING}\n", 1)[1].split("\n## ", 1)[0]
    prose = "\n".join(line for line in text.splitlines() if not line.startswith("|"))
    none = set()
    for sentence in re.findall(r"- (.*)", prose):
        for span in re.findall(r"(?:^|[.;:)] )([^.]*?\b(?:have none|had some|have none either)\b[^.]*)", sentence):
            none.update(word for word in re.findall(r"[a-z][a-z0-9_]+", span) if (CRATES / word).is_dir())
    for crate in crates():
        if crate in edits and crate in none:
            yield PAGE, f"says that {crate} has no edits, which has {len(edits[crate])}"
        if crate not in edits and crate not in none:
            yield PAGE, f"doesn't say that {crate} has no edits"
    for crate, number in re.findall(r"\b([a-z_]+)\b[^.]*?, has (\w+):", prose):
        if crate in edits and number in NUMBERS and len(edits[crate]) != NUMBERS.index(number):
            yield PAGE, f"says that {crate} has {number} edits, which has {len(edits[crate])}"
    for first, second, number in re.findall(r"\b([a-z_]+) and ([a-z_]+) have (\w+) each:", prose):
        for crate in (first, second):
            if len(edits[crate]) != NUMBERS.index(number):
                yield PAGE, f"says that {crate} has {number} edits, which has {len(edits[crate])}"


def edits():
    """Everything that is wrong."""
    there = found()
    for check in (each_edit, table, without):
        yield from check(there)


def main():
    wrong = list(edits())
    for place, what in wrong:
        print(f"{place.relative_to(TOP)}: {what}")
    return 1 if wrong else 0


if __name__ == "__main__":
    sys.exit(main())
