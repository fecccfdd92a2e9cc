#!/usr/bin/env python3
"""Writes the pages of a release into its folder: README.md, man/man1/its.1 and man/man3/its.h.3.

usage: pages.py FOLDER TARGET NAME=VALUE..    TARGET is x86_64 or aarch64

README.md is release/README.in: a line that begins with @TARGET and a space is for that target alone, @NAME@ is a
value, and @limits@ is the section of that name in the repository's README. its(1) is the text of `its help`, its.h(3)
is the header. Links of the folder's pages to what isn't in it become plain words. It runs at the top of a clone.
"""
import os
import re
import sys

folder, target, *rest = sys.argv[1:]
values = dict(one.split("=", 1) for one in rest)


def read(path):
    with open(path, encoding="utf-8") as file:
        return file.read()


def write(path, text):
    path = f"{folder}/{path}"
    os.makedirs(os.path.dirname(path), exist_ok=True)
    with open(path, "w", encoding="utf-8") as file:
        file.write(text)


def roff(text):
    """Text as roff reads it."""
    text = text.replace("\\", "\\e").replace("-", "\\-").replace("`", "\\(ga").replace("^", "\\(ha").replace("~", "\\(ti")
    return re.sub(r"^([.'])", r"\\&\1", text, flags=re.M)


def one_line(text):
    return " ".join(text.split())


def head(name, section):
    return f'.TH {name} {section} "{values["date"]}" "Bacciledru {values["version"]}"\n.SH NAME\n'


def listed(rows):
    """Rows of a word and what it is."""
    return "".join(f".TP\n.B {roff(word)}\n{roff(text)}\n" for word, text in rows)


def its_page():
    """its(1), of what `its help` prints."""
    source = read("crates/its_words/src/help.rt")
    text = re.search(r'fn help_text\(\).*?\n\{\n    "(.*?)"\n\}', source, re.S)[1]
    title, commands, statuses, limits, pages = text.strip("\n").split("\n\n")
    name, what = title.split(", ", 1)
    rows = [re.fullmatch(r"(its \S.*?)  +(.*)", line).groups() for line in commands.split("\n")]
    ends = re.findall(r"(\d+) (.*?)(?:, (?=\d)|\.$)", one_line(statuses).removeprefix("Statuses: "))
    assert [int(number) for number, _ in ends] == list(range(len(ends))), ends
    synopsis = "\n.br\n".join(f".B {roff(row)}" for row, _ in rows)
    return (
        head("ITS", 1) + f"{name} \\- {roff(what)}\n.SH SYNOPSIS\n{synopsis}\n.SH COMMANDS\n{listed(rows)}"
        f".SH EXIT STATUS\n{listed(ends)}.SH LIMITS\n{roff(one_line(limits).removeprefix('Limits: '))}\n"
        f".SH SEE ALSO\n.BR its.h (3).\n{roff(one_line(pages))}\n"
    )


def comment(text):
    """A comment's paragraphs."""
    lines = [re.sub(r"^ ?\*? ?", "", line) for line in text.strip().split("\n")]
    return [one_line(part) for part in "\n".join(lines).strip().split("\n\n")]


def header_page():
    """its.h(3), of the header."""
    header = read("include/its.h")
    calls = re.findall(r"/\*((?:(?!\*/).)*)\*/\n((?:uint32_t its_\w+\([^;]*\);\n)+)", header, re.S)
    named = re.findall(r"^uint32_t its_\w+\(", header, re.M)
    assert sum(len(re.findall(r"^uint32_t its_", those, re.M)) for _, those in calls) == len(named)
    first, *others = [it for it in comment(re.match(r"/\*(.*?)\*/", header, re.S)[1]) if not it.startswith("SPDX")]
    types = header[header.index("/* Counts the changes") :]
    types = types[: types.rindex("/*", 0, types.index("\nuint32_t its_"))]
    text = head("ITS.H", 3) + f"its.h \\- {roff(first[0].lower() + first[1:].removesuffix('.'))}\n"
    text += '.SH SYNOPSIS\n.B #include <its.h>\n.PP\nLink with libits_c.a, or with libits_shared.a for its_share, its_split and the calls of a pass, and with three functions of a heap, as examples/monitor/heap.c has them. include/its_wait.h has how to wait where a pass answers ITS_BUSY.\n'
    text += ".SH DESCRIPTION\n" + "\n.PP\n".join(roff(it) for it in others) + "\n.SH CALLS\n"
    for said, call in calls:
        text += f".PP\n.nf\n\\fB{roff(call.strip())}\\fR\n.fi\n.RS\n" + "\n.PP\n".join(roff(it) for it in comment(said)) + "\n.RE\n"
    return text + f".SH TYPES AND NUMBERS\n.nf\n{roff(types.strip())}\n.fi\n.SH SEE ALSO\n.BR its (1).\nThe page docs/LIBRARY.md.\n"


def readme():
    """README.md, of the template."""
    lines = []
    for line in read("release/README.in").split("\n"):
        only = re.match(r"@(x86_64|aarch64) ?(.*)", line)
        if not only:
            lines.append(line)
        elif only[1] == target:
            lines.append(only[2])
    section = re.search(r"\n## Limits\n\n(.*?)\n\n## ", read("README.md"), re.S)[1]
    section = re.sub(r"^\| room \|.*\n?", "", section, flags=re.M).strip()  # what the repository takes
    text = "\n".join(lines).replace("@limits@", section)
    text = re.sub(r"@(\w+)@", lambda it: values[it[1]], text)
    links = re.findall(r"\]\(([^)#]*)", text)
    missing = [it for it in links if not os.path.exists(f"{folder}/{it}")]
    assert not missing, f"README.md has links to what isn't there: {missing}"
    return text


def without_dead_links():
    """Links that lead out of the folder become words; the others have to lead somewhere."""
    for place, _, names in os.walk(folder):
        for name in names:
            if not name.endswith(".md"):
                continue
            path = os.path.relpath(f"{place}/{name}", folder)
            text = read(f"{folder}/{path}")

            def kept(link):
                if link[2].startswith(("http:", "https:", "#")):
                    return link[0]
                to = os.path.normpath(os.path.join(place, link[2].split("#")[0]))
                return link[0] if os.path.exists(to) else link[1]

            write(path, re.sub(r"\[([^]]*)\]\(([^)\s]*)\)", kept, text))


write("README.md", readme())
write("man/man1/its.1", its_page())
write("man/man3/its.h.3", header_page())
without_dead_links()
