#!/usr/bin/env python3
"""make_page.py MODULE.wasm EXAMPLES: the page, with its module, style, script and examples inside, on standard output."""
import base64
import hashlib
import json
import os
import sys

HERE = os.path.dirname(os.path.abspath(__file__))
PARTS = ["asking.js", "report.js", "drawing.js", "page.js", "start.js"]
WORKER = ["module.js", "worker.js"]
FIRST = ["first_lpi", "taking_turns", "move_and_discard", "moving_collections"]
LARGEST = 65536


def read(name):
    with open(os.path.join(HERE, "src", name), encoding="utf-8") as file:
        return file.read()


def examples(folder):
    """The scripts of the repository, and those of the page, by name."""
    found = {}
    for place in (folder, os.path.join(HERE, "examples")):
        for name in sorted(os.listdir(place)):
            path = os.path.join(place, name)
            if name.endswith(".its") and os.path.getsize(path) <= LARGEST:
                with open(path, encoding="ascii") as file:
                    found[name[:-4]] = file.read()
    order = [name for name in FIRST if name in found] + [name for name in sorted(found) if name not in FIRST]
    return {name: found[name] for name in order}


def literal(value):
    """Text as the script has it, inside of a page."""
    return json.dumps(value).replace("<", "\\u003c")


def allowed(text):
    """The source of a content security policy that allows just this text."""
    return "'sha256-" + base64.b64encode(hashlib.sha256(text.encode()).digest()).decode() + "'"


def main():
    module, folder = sys.argv[1:]
    with open(module, "rb") as file:
        packed = base64.b64encode(file.read()).decode()
    code = '"use strict";\n(() => {\nconst EXAMPLES = ' + literal(examples(folder)) + ';\nconst MODULE = "' + packed
    code += '";\nconst WORKER = ' + literal('"use strict";\n' + "\n".join(read(part) for part in WORKER)) + ";\n"
    code += "\n".join(read(part) for part in PARTS) + "})();\n"
    style = read("style.css")
    policy = "; ".join([
        "default-src 'none'", "script-src " + allowed(code) + " 'wasm-unsafe-eval'", "worker-src blob:", "style-src " + allowed(style),
        "img-src data:", "base-uri 'none'", "form-action 'none'"])
    page = read("page.html").replace("@POLICY@", policy).replace("@STYLE@", style).replace("@SCRIPT@", code)
    sys.stdout.write(page)


main()
