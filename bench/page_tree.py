"""The pages and the crates of the repository, as check_pages.py reads them."""
import pathlib
import re

TOP = pathlib.Path(__file__).resolve().parent.parent
CRATES = TOP / "crates"


def pages():
    """Every page of the repository, in order."""
    found = [path for path in TOP.rglob("*.md") if "out" not in path.relative_to(TOP).parts]
    return sorted(found)


def prose(path):
    """A page's text without its blocks of code."""
    return re.sub(r"```.*?```", "", path.read_text(encoding="utf-8"), flags=re.S)


def sources(crate, folder):
    """The text of all files of a crate's folder."""
    files = sorted((CRATES / crate / folder).rglob("*.*"))
    return "\n".join(path.read_text(encoding="utf-8") for path in files if path.is_file())


def rows(path, after, count=None):
    """The cells of each row of the tables after a heading: of three and more, or of so many."""
    text = path.read_text(encoding="utf-8").split(f"\n## {after}\n", 1)[1]
    for line in re.split(r"\n## ", text, maxsplit=1)[0].splitlines():
        cells = [cell.strip() for cell in line.strip().strip("|").split("|")]
        fits = len(cells) == count if count else len(cells) >= 3
        if line.startswith("|") and fits and not set(line) <= set("|- "):
            yield cells


def crates():
    """The crates of crates.txt, in order."""
    lines = (TOP / "crates.txt").read_text(encoding="utf-8").splitlines()
    return [line.split(":")[0].split()[0] for line in lines if line and not line.startswith("#")]


def has(code, name):
    return re.search(rf"\b{re.escape(name)}\b", code)
