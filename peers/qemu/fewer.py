"""Leaves calls of a recording out that change nothing of the others' answers."""
import collections

CREADR = "read 0x90 "


def configuration(calls):
    """The calls without the configuration bytes of LPIs after the last that a MAPTI or MAPI names.

    Linux writes the whole table, and a script of all its bytes would be long.
    """
    last, tables = 8192, set()
    for text, _, remark in calls:
        f = text.split()
        if f[0] == "rwrite" and int(f[2], 0) == 0x70:
            tables.add(int(f[4], 0) & 0x000FFFFFFFFFF000)
        if remark == "command" and f[2][:2] in ("0a", "0b"):
            data = bytes.fromhex(f[2])
            last = max(last, int.from_bytes(data[12:16] if data[0] == 10 else data[8:12], "little"))
    kept = []
    for call in calls:
        f = call[0].split()
        if f[0] == "poke" and call[2] != "command":
            address = int(f[1], 0)
            ends = [table + min(last, 65535) - 8191 for table in tables if table <= address < table + 57344]
            if ends and ends[0] <= address:
                continue
            if ends:
                call = (f"poke {f[1]} {f[2][:2 * (ends[0] - address)]}",) + call[1:]
        kept.append(call)
    return kept


class Told:
    """What the calls that are kept told already, and which LPIs may be pending."""

    def __init__(self, most):
        self.most = most
        self.read = {}
        self.heard = collections.Counter()
        self.pending = set()

    def tells(self, text, answer):
        """Whether a call does something, or reads what it didn't read when it came last.

        CREADR only says what steps say. Linux looks at all BASERs, and those after the second aren't there.
        """
        f = text.split()
        if f[0] in ("read", "write") and 0x110 <= int(f[1], 0) < 0x140:
            return False
        if f[0] not in ("read", "rread"):
            return True
        new = self.read.get(text) != answer and not (text.startswith(CREADR) and text in self.read)
        self.read[text] = answer
        return new

    def is_heard(self, call, follower):
        """Whether a signal and the call after it, which acknowledges its LPI, leave all as it was, and say it again."""
        answer = call[1].split()
        if answer[0] != "delivered" or answer[2] in self.pending:
            return False
        if follower[:2] != (f"take {answer[1]}", f"lpi {answer[2]}"):
            return False
        self.heard[call[:2]] += 1
        return self.heard[call[:2]] > self.most

    def note(self, answer):
        f = answer.split()
        if f[0] == "delivered":
            self.pending.add(f[2])
        elif f[0] == "lpi":
            self.pending.discard(f[1])
        elif f[0] == "ran" and f[1] == "mapd":
            self.heard.clear()


def short(calls, most):
    """The calls without reads that tell nothing new, and with at most so many signals of an event that are
    acknowledged at once, counted anew at each MAPD. What is left out changes nothing, so the other answers stand."""
    told, kept, i = Told(most), [], 0
    while i < len(calls):
        if i + 1 < len(calls) and told.is_heard(calls[i], calls[i + 1]):
            i += 2
            continue
        text, answer, _ = calls[i]
        if told.tells(text, answer):
            kept.append(calls[i])
            told.note(answer)
        i += 1
    return kept
