"""The input of `its fit` for a round: its script, and what KVM's calls were answered, with their times.

KVM shows of a signal whether it was delivered, and not where or why not. Of a kick it shows when GITS_CWRITER was
written and that the call returned, and not what came of each command. Both follow from what is mapped, which one thread
alone changes. Where a signal went beside commands that change its answer there are several answers that KVM may have
meant: each is tried, and a round fits if one of these does.
"""
import collections
import itertools

import layout

BUSY = 16           # EBUSY: a save while a processor is inside
MOST_CHOICES = 256  # of answers that KVM may have meant
PARTS = (0, 0.25, 0.5, 0.75, 1)     # of a call's time, at which it may have taken effect


class Told:
    """What KVM told of one call."""

    def __init__(self, begin, end, answer, seen=""):
        self.begin = begin
        self.end = end
        self.answer = answer
        self.seen = seen


class Line:
    """A line of the trace: a call with its replies, of which KVM gave one, and those that are likely."""

    def __init__(self, thread, begin, end, call, replies, likely=()):
        self.thread = thread
        self.begin = begin
        self.end = end
        self.call = call
        self.replies = replies
        self.likely = likely or [replies[0]] * len(PARTS) ** 2

    def text(self, reply):
        return f"1.{self.thread + 1} {self.begin} {self.end} {self.call} -> {reply}"


class Strange(Exception):
    """An answer that no rule here expects."""


def kicked(thread, call, told, reply):
    """The write, and the step that is made during it. Of the write it shows nowhere when it takes effect, so it does as
    the call begins."""
    end, = call.more
    return [Line(thread, told.begin, told.begin, f"write {layout.CWRITER:#x} 8 {end:#x}", ["ok"]),
            Line(thread, told.begin, told.end, "step", [reply])]


def at(one, part):
    return one.begin + part * (one.end - one.begin)


def meant(round_, call, told, kicks):
    """The replies that KVM may have meant with a signal's answer, by the commands that went before or beside it, and
    those that are likely: as if all commands, and all signals, took effect at one part of their time."""
    first = sum(one.end < told.begin for one in kicks)
    last = sum(one.begin <= told.end for one in kicks)
    answers = [state.answer(*call.more) for state in round_.states]
    if told.answer not in (0, 1):
        raise Strange(f"a signal was answered {told.answer}")
    word = "delivered" if told.answer else "dropped"
    here = [answer for answer in answers[first:last + 1] if answer.startswith(word)]
    anywhere = [answer for answer in answers if answer.startswith(word)] or [f"{word} no-event"]
    replies = list(dict.fromkeys(here or anywhere))
    likely = [answers[sum(at(one, part) <= at(told, own) for one in kicks)] for part in PARTS for own in PARTS]
    return replies, [answer if answer in replies else replies[0] for answer in likely]


def lines(round_, told):
    """The lines of all threads, by thread, and how many saves were answered that they can't be made now."""
    found, busy, replies = [], 0, iter(round_.replies)
    for thread, (calls, answers) in enumerate(zip(round_.threads, told, strict=True)):
        of_thread = []
        for call, one in zip(calls, answers, strict=True):
            if call.kind == "signal":
                of_thread.append(Line(thread, one.begin, one.end, "signal {} {}".format(*call.more),
                                      *meant(round_, call, one, told[2])))
            elif call.kind == "kick":
                if one.answer:
                    raise Strange(f"a kick was answered {one.answer}")
                of_thread += kicked(thread, call, one, next(replies))
            elif call.kind == "peek":
                of_thread.append(Line(thread, one.begin, one.end, f"peek {call.more[0]:#x} 64", [f"bytes {one.seen}"]))
            elif one.answer == BUSY:
                busy += 1
            elif one.answer:
                raise Strange(f"a save was answered {one.answer}")
            else:
                of_thread.append(Line(thread, one.begin, one.end, "save", ["saved"]))
        found.append(of_thread)
    return found, busy


def beside(round_, told):
    """How many pairs of calls of two threads went beside each other, by their kinds."""
    every = [(thread, call.kind, one) for thread, (calls, answers) in enumerate(zip(round_.threads, told))
             for call, one in zip(calls, answers) if not (call.kind == "save" and one.answer)]
    return collections.Counter(
        "beside each other: " + ", ".join(sorted((kind, other_kind))) for thread, kind, one in every
        for other_thread, other_kind, other in every
        if thread < other_thread and one.begin <= other.end and other.begin <= one.end)


def choices(every):
    """Which reply each line may have, the likely ones first, each choice once."""
    likely = [tuple(line.likely[i] for line in every) for i in range(len(PARTS) ** 2)]
    all_of_them = itertools.islice(itertools.product(*(line.replies for line in every)), MOST_CHOICES)
    return dict.fromkeys([*likely, *all_of_them])


def texts(round_, found, pending):
    """The inputs of `its fit`, one for each choice of what KVM may have meant."""
    shape = round_.shape
    body = ["phase"]
    for of_thread in found:
        body += ["thread", *(line.call for line in of_thread)]
    script = [*shape.description(round_.image().description()), *body, "end", "trace"]
    every = [line for of_thread in found for line in of_thread]
    last = [f"vcpu {v} pending {' '.join(map(str, lpis)) or 'none'}" for v, lpis in enumerate(pending)]
    for replies in choices(every):
        yield "\n".join([*script, *(line.text(reply) for line, reply in zip(every, replies)), *last, ""])
