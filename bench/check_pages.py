#!/usr/bin/env python3
"""Checks what it can of the pages against the tree, from the top of a clone:

    python3 bench/check_pages.py

Links and their anchors; files, functions and definitions that pages name with their crate; the
functions and clauses of docs/PROMISES.md; the picture of layers and the specs files of
docs/ARCHITECTURE.md; that both pages have every crate; the files that a new command costs
(CONTRIBUTING.md); the edits (check_edits.py); examples, the words of scripts, version and kit; the
counts of docs/TESTING.md; the figures of docs/SPEED.md that files of bench/ have; and that a figure
of README.md's first table stands on another page too. It prints a line for each thing that is
wrong, and ends with status 1 if there is any.
"""
import re
import sys

from check_edits import edits
from page_figures import counts, figures, speed
from page_tree import CRATES, TOP, crates, has, pages, prose, rows, sources


def anchor(heading):
    """The anchor that a heading gets on the forges where pages are read."""
    text = re.sub(r"`|\*|\[([^]]*)\]\([^)]*\)", lambda m: m.group(1) or "", heading.strip())
    text = re.sub(r"[^\w\- ]", "", text.lower())
    return text.replace(" ", "-")


def anchors(path):
    lines = path.read_text(encoding="utf-8").splitlines()
    return {anchor(line.lstrip("#")) for line in lines if line.startswith("#")}


def links():
    for page in pages():
        for target in re.findall(r"\]\(([^)\s]+)\)", prose(page)):
            if target.startswith(("http:", "https:", "mailto:")):
                continue
            name, _, fragment = target.partition("#")
            path = (page.parent / name).resolve() if name else page
            if not path.exists():
                yield page, f"link to {target}, which isn't there"
            elif fragment and path.suffix == ".md" and fragment not in anchors(path):
                yield page, f"link to {target}, a heading that isn't there"


def clauses(crate):
    """The functions and methods of a crate's src/, each with the names of its clauses."""
    found = {}
    start = r'^\s*(?=(?:pub )?(?:const |unsafe |extern "C" )*fn )'
    for part in re.split(start, sources(crate, "src"), flags=re.M):
        name = re.match(r'(?:pub )?(?:const |unsafe |extern "C" )*fn (\w+)', part)
        if name:
            found.setdefault(name.group(1), set()).update(re.findall(r"\bensures\*?\s+(\w+)\s*\{", part))
    return found


def types(crate):
    return set(re.findall(r"\b(?:struct|enum|trait|type|const)\s+(\w+)", sources(crate, "src")))


def groups(cell):
    """What a cell names, in order: names before a bracket, and those in it."""
    before = []
    for outside, inside in re.findall(r"([^()]*)(?:\(([^)]*)\))?", cell):
        named = re.findall(r"`([A-Za-z][A-Za-z_:]*)`", outside)
        before = named or before
        # `x` of `f`: a clause of a function that is named beside it
        of = re.search(r"; of (.*)", inside)
        yield named, before, re.findall(r"`([a-z_]+)`", inside[: of.start()] if of else inside)


def promised(page, heading):
    """The functions and clauses that a table of promises names, each in its crate."""
    crate = None
    for cells in rows(page, heading):
        crate = cells[0] if cells[0] and (CRATES / cells[0]).is_dir() else crate
        if crate is None or cells[1].startswith("("):
            continue
        functions, kinds = clauses(crate), types(crate)
        for named, before, inside in groups(cells[1]):
            for name in named:
                if name.rpartition("::")[2] not in kinds | functions.keys():
                    yield page, f"{crate}: no {name} in its src/"
            owners = [name.rpartition("::")[2] for name in before]
            if any(owner in kinds for owner in owners):
                known = functions.keys() | set().union(*functions.values())
            else:
                known = set().union(*(functions.get(owner, set()) for owner in owners))
            for name in inside:
                if name not in known:
                    yield page, f"{crate}: {', '.join(owners)} has no clause {name}"


def told_of(page, crate, functions, names):
    """The clauses that a row tells of functions of a crate; words with a capital are definitions."""
    known = clauses(crate)
    last = [name.rpartition("::")[2] for name in functions]
    for name in last:
        if name not in known:
            yield page, f"{crate}: no {name} in its src/"
    for name in names:
        if name[0].islower() and not any(name in known.get(it, set()) for it in last):
            yield page, f"{crate}: {', '.join(functions)} has no clause {name}"


def steps_and_laws(page):
    """The rows of what `its` rests on, of the laws of schedules, and of the shared machine."""
    spans = r"`([A-Za-z][\w:]*)`"
    for cells in rows(page, "The statuses of `its`"):
        parts = re.findall(r"((?:`[\w:]+`(?:, )?)+) \((\w+)\)", cells[1])
        if len(parts) == 1:
            names, crate = parts[0]
            yield from told_of(page, crate, re.findall(spans, names), re.findall(spans, cells[2]))
    for cells in rows(page, "Every schedule"):
        yield from told_of(page, "its_steps", re.findall(spans, cells[0]), re.findall(spans, cells[1]))
    for cells in rows(page, "The machine that threads share", 2):
        outside, inside = re.sub(r"\([^)]*\)", "", cells[0]), " ".join(re.findall(r"\(([^)]*)\)", cells[0]))
        yield from told_of(page, "its_turns", re.findall(spans, outside), re.findall(spans, inside))


def promises():
    page = TOP / "docs/PROMISES.md"
    yield from steps_and_laws(page)
    yield from promised(page, "All contracts, crate by crate")
    yield from promised(page, "The machine that threads share")
    text = page.read_text(encoding="utf-8")
    for crate in crates():
        if not re.search(rf"\b{crate}\b", text):
            yield page, f"says nothing of {crate}"


def stands_on():
    """For each crate the repository's own crates that it stands on."""
    lines = (TOP / "crates.txt").read_text(encoding="utf-8").splitlines()
    pairs = [line.split(":") for line in lines if ":" in line and not line.startswith("#")]
    own = set(crates())
    return {a.split()[0]: set(b.split()) & own for a, b in pairs}


def architecture():
    page = TOP / "docs/ARCHITECTURE.md"
    text = page.read_text(encoding="utf-8")
    for crate in crates():
        if not re.search(rf"\b{crate}\b", text):
            yield page, f"says nothing of {crate}"
    yield from definitions(page, text.split("\n## Where each definition stands\n", 1)[1])
    yield from layers(page, text.split("\n## Layers\n", 1)[1])


def definitions(page, text):
    """The tables of definitions name each file of specs/, and no other."""
    named = {}
    for line in text.splitlines():
        cell = line.strip("|").split("|")[0]
        owners = []
        for part in cell.split(";"):
            names, _, files = part.rpartition(":")
            owners = [it.strip() for it in names.split(",")] if names else owners
            for owner in owners:
                named.setdefault(owner, set()).update(re.findall(r"\b[A-Z]\w+", files))
    for crate in crates():
        there = {path.stem for path in (CRATES / crate).glob("specs/*.antt")} - {"Lib"}
        for file in sorted(there - named.get(crate, set())):
            yield page, f"names no {crate}: {file}"
        for file in sorted(named.get(crate, set()) - there):
            yield page, f"{crate}: no specs/{file}.antt"


def drawn(text):
    """The boxes of the first picture with what is in them, its arrows, and its texts."""
    boxes, arrows, texts, box = {}, set(), {}, None
    for line in re.search(r"```mermaid\n(.*?)```", text, re.S).group(1).splitlines():
        line = line.strip()
        if opened := re.match(r"subgraph (\w+)", line):
            box = opened.group(1)
            boxes[box] = set()
        elif line == "end":
            box = None
        elif not line.startswith("flowchart"):
            named = re.findall(r"(?:^|-->)\s*(\w+)(?:\[\"([^\"]*)\"\])?", line)
            texts.update({name: said for name, said in named if said})
            boxes.get(box, set()).update(name for name, _ in named)
            arrows.update((a, b) for (a, _), (b, _) in zip(named, named[1:]))
    return boxes, arrows, texts


def layers(page, text):
    """An arrow of the picture of layers stands for what crates.txt says, and each line there is drawn."""
    boxes, arrows, texts = drawn(text)
    boxes["ports"] = set(re.findall(r"\w+_\w+", texts["ports"]))
    # what is named outside its box, by an arrow from another one, stands in the one with its text
    home = {name: box for box, names in reversed(boxes.items()) for name in names}
    stands = stands_on()
    arrow_of = {}
    for a, b in arrows:
        arrow_of.setdefault(a, set()).add(b)
        if not any(stands.get(x, set()) & boxes.get(b, {b}) for x in boxes.get(a, {a})):
            yield page, f"draws an arrow from {a} to {b}, which crates.txt doesn't have"
    for crate in sorted(set(stands) - {"its_bench"}):
        seen, todo = set(), [crate]
        while todo:
            name = todo.pop()
            near = arrow_of.get(name, set()) | boxes.get(name, set()) | {home.get(name, name)}
            todo += near - seen
            seen |= near
        for below in sorted(stands[crate] - seen):
            yield page, f"draws no way from {crate} to {below}"


def files():
    """Files that a page names in words, and what it says stands in them."""
    told = r"(?:\b([a-z]\w+), )?\b(specs|proofs|src)/([\w/]+\.(?:antt|rt))(?:, (?:by |field )*`(\w+)`)?"
    for page in pages():
        for crate, folder, file, name in re.findall(told, prose(page)):
            owner = crate if (CRATES / crate / folder).is_dir() and crate else "*"
            found = list(CRATES.glob(f"{owner}/{folder}/**/{file}"))
            if not found:
                yield page, f"names {folder}/{file}, which isn't there"
            elif name and not any(has(path.read_text(encoding="utf-8"), name) for path in found):
                yield page, f"says that {name} stands in {folder}/{file}"


def owners():
    """What a page says stands in a crate, as in "`commit` (its_turns)". History may name what went."""
    told = r"((?:`[\w:]+`(?:, | and )?)+) \(([a-z]\w+)[,;)]"
    for page in pages():
        for names, crate in re.findall(told, prose(page)):
            if page.name == "CHANGELOG.md" or not (CRATES / crate).is_dir():
                continue
            code = "".join(sources(crate, folder) for folder in ("src", "specs", "proofs"))
            for name in re.findall(r"`([\w:]+)`", names):
                if not has(code, name.rpartition("::")[2]):
                    yield page, f"says that {name} stands in {crate}"


def listed(cell):
    """The files of a cell, each in the folder that was named last: `src/a.rt, b.rt, proofs/c/`."""
    folder = ""
    for word in cell.split(", "):
        folder, slash, name = word.rpartition("/") if "/" in word else (folder, "/", word)
        yield folder + slash + name


def command_files():
    """What CONTRIBUTING.md lists for a new command are the files that DISCARD stands in."""
    page = TOP / "CONTRIBUTING.md"
    named, crate = set(), None
    for cells in rows(page, "What a new command costs"):
        crate = cells[0] or crate
        if (CRATES / crate).is_dir() and "where" not in cells[2]:
            named |= {f"{crate}/{file}" for file in listed(cells[1])}
    there = set()
    for path in [*CRATES.rglob("*.rt"), *CRATES.rglob("*.antt")]:
        if "discard" in path.read_text(encoding="utf-8").lower() and "out" not in path.parts:
            there.add(str(path.relative_to(CRATES)))
    for name in sorted(named):
        if not any(file == name or name.endswith("/") and file.startswith(name) for file in there):
            yield page, f"lists {name} for a command, where DISCARD doesn't stand"
    for file in sorted(there):
        if file not in named and not any(it.endswith("/") and file.startswith(it) for it in named):
            yield page, f"doesn't list {file}, where DISCARD stands"
    count = f"{len(there)} files of {len({file.split('/')[0] for file in there})} crates"
    if count not in page.read_text(encoding="utf-8"):
        yield page, f"doesn't say that DISCARD stands in {count}"


def examples():
    """Each example stands in the list of examples, and each variation in the tutorial's."""
    for folder, page in (("examples", "examples/README.md"), ("examples/variations", "docs/TUTORIAL.md")):
        text = (TOP / page).read_text(encoding="utf-8")
        for path in sorted((TOP / folder).glob("*.its")):
            if not has(text, path.stem):
                yield TOP / page, f"says nothing of {path.name}"


def words():
    """Each word of scripts and of reports stands in docs/FORMATS.md."""
    page = TOP / "docs/FORMATS.md"
    told = set(re.findall(r"[\w-]+", " ".join(re.findall(r"`([^`]+)`", page.read_text(encoding="utf-8")))))
    spans = set(re.findall(r"`([^`]+)`", page.read_text(encoding="utf-8")))
    grammar = (CRATES / "its_explain/src/grammar.rt").read_text(encoding="utf-8")
    for form in re.findall(r'"(?:command ADDR )?([a-z-]+(?: [A-Z][A-Z0-9]*)+)"', grammar):
        if form not in spans and not form.startswith(("brestore", "an ")):
            yield page, f"doesn't have the line {form} of its_explain"
    for place in ("event_script/src/words.rt", "its_history/src/replies.rt"):
        code = (CRATES / place).read_text(encoding="utf-8")
        for word in re.findall(r'=> (?:out\.push_str\()?"([a-z][a-z0-9-]*[a-z0-9])"', code):
            if word not in told:
                yield page, f"doesn't have the word {word} of {place}"


def library():
    """The calls of include/its.h: docs/LIBRARY.md says how many there are, and has each."""
    header = (TOP / "include/its.h").read_text(encoding="utf-8")
    calls = re.findall(r"^uint32_t (its_\w+)\(", header, re.M)
    page = TOP / "docs/LIBRARY.md"
    text = page.read_text(encoding="utf-8")
    if f"with {len(calls)} calls" not in text:
        yield page, f"doesn't say that there are {len(calls)} calls"
    for call in calls:
        if not has(text, call):
            yield page, f"says nothing of {call}"


def versions():
    """Version and kit are the same in the program, the changes and the pages; so is the header's."""
    help_text = (CRATES / "its_words/specs/Help.antt").read_text(encoding="utf-8")
    version = re.search(r"its ([\d.]+) \(Bacciledru\)", help_text).group(1)
    kit = re.search(r"rattle-kit-\S+ logic \w+", help_text).group(0)
    changes = TOP / "CHANGELOG.md"
    if re.search(r"^## (.*)$", changes.read_text(encoding="utf-8"), re.M).group(1) != version:
        yield changes, f"doesn't begin with {version}, as its_words does"
    for page in pages():
        for other in re.findall(r"rattle-kit-\S+ logic \w+", page.read_text(encoding="utf-8")):
            if other != kit:
                yield page, f"names the kit {other}, where its_words has {kit}"
    header = re.search(r"ITS_VERSION (\d+)", (TOP / "include/its.h").read_text(encoding="utf-8")).group(1)
    library = TOP / "docs/LIBRARY.md"
    if f"At {header} " not in library.read_text(encoding="utf-8"):
        yield library, f"doesn't say what came with version {header} of the header"


CHECKS = (
    links, promises, architecture, files, owners, command_files,
    edits, examples, words, library, versions, counts, figures, speed,
)


def main():
    wrong = [it for check in CHECKS for it in check()]
    for page, what in wrong:
        print(f"{page.relative_to(TOP)}: {what}")
    return 1 if wrong else 0


if __name__ == "__main__":
    sys.exit(main())
