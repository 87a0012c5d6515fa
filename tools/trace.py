"""Reads the text of a trace, as docs/TRACE.md describes it, for tools/picture.py and tools/qlog.py."""
import re

HEX = r"(?:-|(?:[0-9a-f]{2})+)"
ADDRESS = r"(?:[0-9a-f]{8}|[0-9a-f]{32})/\d+"
SPACE = r"(?:initial|handshake|data)"
FRAME = r"[A-Z0-9_]+(?:/[0-9a-f]+|\*\d+)"
REASON = r"[A-Z]\w*(?: \S+)*"
WORDS = ("datagram", "timeout", "transmit", "close", "ping", "ids", "streams", "sendwindow", "recvwindow", "open", "accept", "write", "finish", "reset", "stop", "read", "send", "recv", "update", "path_changed")
# The lines of a step, in the order in which their kinds stand; those of one kind may come in any number but for one answer and one timer.
DEEDS = re.compile(rf"seal {SPACE} \d+ \w+(?: {FRAME})*|piece (?:-|{SPACE}) (?:-|\d+) [A-Z]\w*|gave \w+ (?:{FRAME}|{HEX})|life [0-4]|lost {REASON}|quiet [A-Z]\w*")
ANSWER = re.compile(rf"out {ADDRESS} \d+ (?:-|\d+) [-0-3] {HEX}|answer [a-z]\w*(?: \S+)*")
EVENT = re.compile(r"event [a-z]\S*(?: \S+)*")
ENDPOINT = re.compile(r"endpoint [a-z]\S*(?: \S+)*")
TIMER = re.compile(r"timer (?:-|\d+)")
LAST = re.compile(r"end|no memory|input \d+ (?:time back \d+ \d+|bad call \S+(?: \S+)*)")


class TraceFault(Exception):
    """The first line with which no trace goes on, counted from 1, and what it holds."""

    def __init__(self, line, text):
        super().__init__(f"line {line} is no line of a trace: {text[:80]!r}")
        self.line = line


class Step:
    """One step: its input's word and time, and the lines that tell what came of it, each split into its words."""

    def __init__(self, number, word, time):
        self.number, self.word, self.time = number, word, time
        self.deeds, self.answer, self.events, self.endpoint, self.timer = [], None, [], [], None

    def sealed(self):
        """The packets that it sealed: space, number and frames."""
        return [(deed[1], int(deed[2]), deed[4:]) for deed in self.deeds if deed[0] == "seal"]

    def pieces(self):
        """The packets that came: space, number (None where it didn't open) and verdict."""
        return [(deed[1], None if deed[2] == "-" else int(deed[2]), deed[3]) for deed in self.deeds if deed[0] == "piece"]

    def out(self):
        """What it sent: address, number of bytes, segment, mark and bytes; None where it sent nothing."""
        return self.answer[1:] if self.answer and self.answer[0] == "out" else None


def read_trace(text):
    """The steps of a trace, and its last line. Raises TraceFault."""
    lines = text.split("\n")
    steps, at = [], 1

    def line():
        return lines[at] if at < len(lines) - 1 else ""

    if lines[0] != "qconn 1" or len(lines) < 2:
        raise TraceFault(1, lines[0])
    while it := re.fullmatch(r"step (\d+) (\w+) (\d+)", line()):
        if int(it[1]) != len(steps) or it[2] not in WORDS:
            raise TraceFault(at + 1, lines[at])
        step = Step(int(it[1]), it[2], int(it[3]))
        at += 1
        while DEEDS.fullmatch(line()):
            step.deeds.append(line().split(" "))
            at += 1
        if ANSWER.fullmatch(line()):
            step.answer = line().split(" ")
            at += 1
        for kind, found in ((EVENT, step.events), (ENDPOINT, step.endpoint)):
            while kind.fullmatch(line()):
                found.append(line().split(" "))
                at += 1
        if not TIMER.fullmatch(line()):
            raise TraceFault(at + 1, lines[at] if at < len(lines) else "")
        step.timer = line().split(" ")[1]
        steps.append(step)
        at += 1
    if not LAST.fullmatch(line()) or lines[at + 1 :] != [""]:
        raise TraceFault(at + 1 + bool(LAST.fullmatch(line())), lines[min(at, len(lines) - 1)])
    return steps, line()
