"""What player.c printed, script by script."""


class Answer:
    """One answer: a number, a failure, a list of numbers, or words by their addresses."""

    def __init__(self, letter, number=None, error=0, numbers=(), words=None):
        self.letter = letter
        self.number = number
        self.error = error
        self.numbers = list(numbers)
        self.words = words or {}


def read_line(fields):
    letter = fields[0]
    if fields[1:2] == ["error"]:
        return Answer(letter, error=int(fields[2]))
    if letter in "SVXQ":
        return Answer(letter, number=int(fields[1]))
    if letter == "B":
        return Answer(letter, numbers=[int(field, 16) for field in fields[1:]])
    return Answer(letter, number=int(fields[1], 16))


def read_answers(text):
    """The kernel's line, each script's answers in order, and lines of trouble: complaints, and what a kernel says."""
    kernel, scripts, trouble, words = "", [], [], {}
    for line in text.replace("\r", "").split("\n"):
        fields = line.split()
        if not fields:
            continue
        if fields[0] == "#":
            kernel = kernel or line[2:]
        elif fields[0] == "T":
            scripts.append([])
        elif fields[0] == "D":
            words[int(fields[1], 16)] = int(fields[2], 16)
        elif fields[0] == ".":
            scripts[-1].append(Answer("D", words=words))
            words = {}
        elif len(fields[0]) == 1 and fields[0] in "SVXQBAGgl" and scripts:
            scripts[-1].append(read_line(fields))
        elif "reboot: Power down" not in line:
            trouble.append(line)
    return kernel, scripts, trouble
