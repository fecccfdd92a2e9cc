#!/usr/bin/env python3
"""Runs each case of cases.py and more_cases.py on each kernel and on `its`, and tells where the answers differ.

usage: differences.py DIR PROGRAM [--kernel VERSION ..] [--case NAME ..] [--all]

A line of a case is a call here, KVM's answer, and `its`'s; --all tells the calls that agree too.
"""
import argparse

import boot
import more_cases  # noqa: F401: it adds its cases
import tables
from cases import CASES
from compare import Report


class Rows:
    """What both sides answered to a script, in rows: the call, KVM's answer, the answer here."""

    def __init__(self, script, answers, report):
        self.answers = answers
        self.report = report
        self.rows = []
        for kind, *check in script.checks:
            getattr(self, kind)(*check)

    def row(self, what, theirs, ours, agrees=None):
        self.rows.append((what, str(theirs), str(ours), theirs == ours if agrees is None else agrees))

    def step(self, _, call):
        command = self.report.replies[call]
        self.rows.append((f"step -> {command}", "", "", True))

    def signal(self, answer, call):
        number, reply = self.answers[answer].number, self.report.replies[call]
        told = {1: "delivered", 0: "dropped", -16: "dropped: off"}.get(number, number)
        off = reply.endswith(("disabled", "lpis-off"))
        agrees = reply.startswith("delivered") == (number == 1) and off == (number == -16)
        self.row(self.report.calls[call], told, reply, agrees)

    def register(self, answer, call, file, offset):
        name = f"{self.report.calls[call]} ({file})"
        self.row(name, f"{self.answers[answer].number:#x}", self.report.replies[call].split()[1])

    def acknowledge(self, answer, best, claim):
        number = self.answers[answer].number
        first = self.report.replies[best].split()
        ours = "none" if first == ["none"] else first[1]
        self.row(f"acknowledge at {self.report.calls[best].split()[1]}", "none" if number == 1023 else number, ours,
                 (number == 1023 and ours == "none") or str(number) == ours)

    def save(self, answer, call):
        number, reply = self.answers[answer].number, self.report.replies[call]
        letter = {"Q": "pending tables saved", "V": "tables saved"}[self.answers[answer].letter]
        self.row(letter, "saved" if number == 0 else f"error {number}", reply)

    def restored(self, answer, _):
        number = self.answers[answer].number
        self.row("restored", "yes" if number == 0 else f"error {number}", "yes")

    def pending(self, answer, call, v, low):
        data = self.report.bytes(call)
        self.row(f"pending at {v}", self.answers[answer].numbers,
                 [low + i for i in range(8 * len(data)) if data[i // 8] >> i % 8 & 1])

    def words(self, answers, peeks):
        theirs = {at: word for answer in answers for at, word in self.answers[answer].words.items()}
        ours = self.report.words(peeks)
        for at in sorted(theirs.keys() | ours.keys()):
            self.row(f"word {at:#x}", f"{theirs.get(at, 0):#x}", f"{ours.get(at, 0):#x}")

    def collections(self, answers, peeks):
        def shown(words):
            return " ".join(f"{icid}:{target:#x}" if target > 99 else f"{icid}:{target}"
                            for icid, target in tables.collections(words))
        self.row("collections", shown(self.answers[answers[0]].words), shown(self.report.words(peeks)))


def tell(script, made, answers, program, everything):
    """Prints a case's rows, and says whether any differs."""
    print(f"  {script.title}: {made.__doc__}")
    if len(answers) < script.answers:
        print(f"      the kernel gave {len(answers)} of {script.answers} answers")
        return
    report, status = boot.run_its(program, script.script(answers))
    rows = Rows(script, answers, Report(report)).rows if status == 0 else []
    if status:
        print(f"      its ended with status {status}: {report.splitlines()[-1]}")
    for what, theirs, ours, agrees in rows:
        if everything or not agrees:
            print(f"      {what:34} {theirs or '-':34} {ours}")
    if rows and all(row[3] for row in rows):
        print("      no difference")


def main():
    parser = argparse.ArgumentParser(description=__doc__.splitlines()[0])
    parser.add_argument("folder")
    parser.add_argument("program")
    parser.add_argument("--kernel", action="append", default=[])
    parser.add_argument("--case", action="append", default=[])
    parser.add_argument("--all", action="store_true")
    given = parser.parse_args()
    names = given.case or list(CASES)
    for version, kernel in boot.kernels(given.folder, given.kernel):
        scripts = [CASES[name]() for name in names]
        told, answers, trouble = boot.play(given.folder, kernel, scripts)
        print(f"{version}: {told}")
        for name, script, answer in zip(names, scripts, answers):
            tell(script, CASES[name], answer, given.program, given.all)
        for line in trouble[:8]:
            print(f"  console: {line}")


if __name__ == "__main__":
    main()
