#!/usr/bin/env python3
"""Holds include/its.h to the sources of the library.

usage: check_header.py HEADER SOURCE..

Prints a C file that compiles only if the header declares what the sources define: each call with the
same types, each struct with the same fields at the same places, each code with the same value. Ends
with 1, and names what differs, where one side has a name that the other hasn't. Each constant of an
enum is held to the word that the sources have for its number.
"""
import re
import sys

NUMBERS = {"u8": "uint8_t", "u32": "uint32_t", "u64": "uint64_t", "usize": "size_t"}


def snake(name):
    return "its_" + re.sub(r"(?<!^)([A-Z])", r"_\1", name).lower()


def c_type(name):
    return NUMBERS.get(name) or "struct " + snake(name)


def declared_as(kind, field):
    """A field as C declares it, and the type that it has in an expression: an array's is a pointer."""
    array = re.fullmatch(r"\[(\w+); (\d+)\]", kind)
    if array:
        return f"{c_type(array[1])} {field}[{array[2]}]", c_type(array[1]) + " *"
    kind = "void *" if kind.startswith("*mut") else c_type(kind)
    return f"{kind} {field}", kind


def structs(text):
    """Each repr(C) struct: its C name, and of each field that has bytes its name, declaration and C type."""
    pattern = r"#\[repr\(C\)\]\s*(?:#\[[^\]]*\]\s*)*pub struct (\w+) \{(.*?)\n\}"
    for name, body in re.findall(pattern, text, re.S):
        fields = []
        body = re.sub(r"//.*", "", body)
        for ghost, field, kind in re.findall(r"^\s*(?:pub(?:\(crate\))? )?(ghost )?(\w+): ([^,]*),?$", body, re.M):
            if ghost or kind == "Global":
                continue
            fields.append((field, *declared_as(kind, field)))
        yield snake(name), fields


def parameter(text):
    """The C parameters of one of Rust's."""
    name, kind = text.split(": ")
    if kind == "Global":
        return []
    if not kind.startswith("&"):
        return [f"{c_type(kind)} {name}"]
    const = "" if kind.startswith("&mut ") else "const "
    kind = kind.removeprefix("&").removeprefix("mut ")
    if kind.startswith("["):
        return [f"{const}{c_type(kind[1:-1])} *{name}", f"size_t {name}_len"]
    return [f"{const}{c_type(kind)} *{name}"]


def calls(text):
    for name, arguments, result in re.findall(r'pub extern "C" fn (\w+)\((.*?)\) -> (\w+)', text, re.S):
        arguments = [a.strip() for a in arguments.split(",") if a.strip()]
        yield name, f"{c_type(result)} {name}({', '.join(p for a in arguments for p in parameter(a))});"


def codes(text):
    for name, value in re.findall(r"pub const (\w+): u32 = (\d+);", text):
        yield "ITS_" + name, value


# The enum of each list of words, in the order of their numbers, and what its constants begin with.
LISTS = {
    "answer": "ITS_",
    "make_fault": "ITS_MAKE_",
    "save_fault": "ITS_SAVE_",
    "region": "ITS_REGION_",
    "cause": "ITS_CAUSE_",
    "reason": "ITS_REASON_",
    "outcome": "ITS_OUTCOME_",
    "table": "ITS_TABLE_",
}


def words(text):
    """Each number of a list that has a word: the list's function, the number and the word."""
    for function, body in re.findall(r"^fn (\w+)\(number: u32\) -> &'static str.*?\{\n    match number \{(.*?)\n    \}", text, re.S | re.M):
        for number, word in re.findall(r'^\s*(\d+) => "([^"]+)",', body, re.M):
            yield function, int(number), word


def constants(header):
    """Each constant of an enum of the header: the enum's name, the constant's, and its number."""
    for enum, body in re.findall(r"^enum its_(\w+) \{(.*?)\n\};", header, re.M | re.S):
        for name, number in re.findall(r"(ITS_\w+) = (\d+)", body):
            yield enum, name, int(number)


def differing_words(header, text):
    """What is wrong with the enums: a number without its word, or a name that isn't made of the word."""
    said = {(function, number): word for function, number, word in words(text)}
    declared = {}
    for enum, name, number in constants(header):
        declared[enum.replace("_kind", ""), number] = name
    for (function, number), word in said.items():
        name = declared.get((function, number))
        wanted = LISTS[function] + word.replace("-", "_").upper()
        # The configuration table of one processor has the word of that of all.
        if name not in (wanted, wanted + "_OF"):
            yield f"enum its_{function}: {number} is {word!r}, and the header has {name}"
    for (enum, number), name in declared.items():
        if enum in LISTS and (enum, number) not in said:
            yield f"enum its_{enum}: {name} has no word"
    lists = [name for enum, name, _ in constants(header) if enum == "list"]
    if lists != ["ITS_LIST_" + ("CAUSES" if f == "cause" else f.upper() + "S") for f in LISTS]:
        yield "enum its_list isn't that of the lists of words"


def main():
    header = re.sub(r"/\*.*?\*/", "", open(sys.argv[1]).read(), flags=re.S)
    text = "\n".join(open(source).read() for source in sys.argv[2:])
    found_structs, found_calls, found_codes = dict(structs(text)), dict(calls(text)), dict(codes(text))
    declared = {
        "struct": (set(re.findall(r"^struct (\w+) \{", header, re.M)), set(found_structs)),
        "call": (set(re.findall(r"^uint32_t (\w+)\(", header, re.M)), set(found_calls)),
        "code": ({name for enum, name, _ in constants(header) if enum == "answer"}, set(found_codes)),
    }
    differing = [f"{what} {name}: in one of header and sources alone" for what, (a, b) in declared.items() for name in sorted(a ^ b)]
    differing += differing_words(header, text)
    if differing or not found_calls:
        sys.exit("\n".join(differing) or "no call was found")
    print('#include "its.h"\n#include <assert.h>')
    for name, value in found_codes.items():
        print(f"static_assert({name} == {value}, \"{name}\");")
    for name, fields in found_structs.items():
        print(f"struct of_sources_{name} {{ {' '.join(f'{declared};' for _, declared, _ in fields)} }};")
        print(f"static_assert(sizeof(struct {name}) == sizeof(struct of_sources_{name}), \"size of {name}\");")
        for field, _, kind in fields:
            same = f"offsetof(struct {name}, {field}) == offsetof(struct of_sources_{name}, {field})"
            print(f"static_assert({same}, \"{name}.{field}\");")
            print(f"static_assert(_Generic(((struct {name} *)0)->{field}, {kind}: 1, default: 0), \"type of {name}.{field}\");")
    for call in found_calls.values():
        print(call)


main()
