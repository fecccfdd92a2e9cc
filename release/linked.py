"""Which crates a crate is linked with. It is asked at the top of a clone."""
import re


def read_uses():
    """The crates of the repository, with those that each names in crates.txt."""
    found = {}
    with open("crates.txt", encoding="utf-8") as rows:
        for row in rows:
            if not row.startswith("#") and ":" in row:
                head, below = row.split(":")
                found[head.split()[0]] = below.split()
    return found


def all_below(name, uses, kit):
    """A crate and those that it stands on, of the repository and of the kit, once each."""
    found = [name]
    for one in found:
        found += [it for it in named_by(one, uses, kit) if it not in found]
    return found


def named_by(name, uses, kit):
    if name in uses:
        return uses[name] + ["std"]
    with open(f"{kit}/rlibs/{name}.rlib/format", encoding="utf-8") as form:
        return re.findall(r"^dep (\w+)$", form.read(), re.M)
