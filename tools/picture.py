#!/usr/bin/env python3
"""Draws a trace, or a client's and a server's side by side, as an SVG on standard output.

    tools/picture.py TRACE          one end, with its peer as a bare line
    tools/picture.py TRACE TRACE    two ends; a datagram of the one that opened at the other is one arrow
    tools/picture.py --check        fails where docs/handshake.svg and docs/stream.svg aren't the pictures of the example scripts; their
                                    traces are those that the program gives

Time goes downwards, a row a step that tells something. An arrow is a datagram, with its packets: the space (I, H or D for
Initial, Handshake and 1-RTT), the number and the frames; a STREAM frame with its stream, and from where to where its bytes go. What
became of it stands where it arrives, and what a call of a stream answered where it was made. A file that is no trace is named with its
first wrong line, and nothing is drawn.
"""
import html
import os
import re
import subprocess
import sys

sys.path.insert(0, os.path.dirname(os.path.realpath(__file__)))
from qlog import frame_of
from trace import TraceFault, read_trace

TOP = os.path.dirname(os.path.dirname(os.path.realpath(__file__)))
# Which example scripts each picture is of.
PICTURES = {"handshake": ("client", "server"), "stream": ("asking", "answering")}
LINE, LEFT, RIGHT, WIDTH, LETTER = 15, 330, 890, 1220, 6.1
LIVES = ("handshake", "established", "closed", "draining", "drained")
SHORT = {"initial": "I", "handshake": "H", "data": "D"}


def frame_in_short(frame):
    """A frame by its name, with its stream where it has one, and where the bytes of a STREAM frame begin and end."""
    name = re.split(r"[/*]", frame)[0]
    fields = frame_of(frame) if "STREAM" in name else {}
    if "stream_id" not in fields:
        return name
    if name != "STREAM":
        return f"{name} {fields['stream_id']}"
    end = fields["offset"] + fields["length"]
    return f"STREAM {fields['stream_id']} from {fields['offset']} to {end}{' fin' * fields['fin']}"


def frames_in_short(frames):
    """Frames by their names, PADDING left out where something else is there, runs of one name counted."""
    names = [frame_in_short(frame) for frame in frames]
    names = [name for name in names if name != "PADDING"] or names[:1]
    told = []
    for name in names:
        if told and told[-1][0] == name:
            told[-1][1] += 1
        else:
            told.append([name, 1])
    return " ".join(name if count == 1 else f"{name}*{count}" for name, count in told)


def packets_in_short(step):
    return " | ".join(f"{SHORT[space]}{number} {frames_in_short(frames)}".strip() for space, number, frames in step.sealed())


def call_in_short(step):
    """The call of a step, and what it answered, if that is more than that it is done."""
    answer = step.answer[1:]
    if answer[0] == "done":
        return step.word
    if answer[0] == "read":
        return f"read: {len(answer[2]) // 2} bytes from {answer[1]}"
    return f"{step.word}: {' '.join(answer)}"


def remarks(step):
    """What a step tells beside its datagram, a line each."""
    told = []
    if step.word not in ("datagram", "transmit"):
        told.append("timer fires" if step.word == "timeout" else call_in_short(step))
    for space, number, verdict in step.pieces():
        told.append(f"{SHORT.get(space, '?')}{'' if number is None else number} {verdict}")
    for deed in step.deeds:
        if deed[0] == "life":
            told.append(f"life: {LIVES[int(deed[1])]}")
        elif deed[0] == "lost":
            told.append(" ".join(deed[:3]))
        elif deed[0] == "quiet" and deed[1] not in ("NothingOwed", "Silent"):
            told.append(" ".join(deed))
    told += [" ".join(event if event[1] == "stream" else event[:2]) for event in step.events]
    return told


class Row:
    """What is drawn of one step: whose it is, its place in time, and its lines."""

    def __init__(self, end, step):
        self.end, self.step, self.told, self.arrow, self.came, self.y = end, step, remarks(step), bool(step.out()), None, 0

    def lines(self):
        return max(len(self.told), 1)


def rows_of(traces):
    rows = [Row(end, step) for end, steps in enumerate(traces) for step in steps]
    rows = [row for row in rows if row.told or row.arrow or row.step.word == "datagram"]
    return sorted(rows, key=lambda row: (row.step.time, row.step.word == "datagram", row.step.number))


def meet(rows):
    """Notes for each datagram that came the row in which the other end sent it: the latest one before it with all its packets."""
    for at, row in enumerate(rows):
        opened = {(space, number) for space, number, _ in row.step.pieces() if number is not None}
        if row.step.word != "datagram" or not opened:
            continue
        for sent in reversed(rows[:at]):
            if sent.end != row.end and sent.arrow and opened <= {it[:2] for it in sent.step.sealed()}:
                row.came = sent
                break


def text(x, y, words, side="start", kind=""):
    most = int((LEFT - 75 if side != "middle" else RIGHT - LEFT - 30) / LETTER)
    words = words if len(words) <= most else words[: most - 1] + "…"
    return f'<text x="{x:g}" y="{y:g}" text-anchor="{side}"{kind and f" class={chr(34)}{kind}{chr(34)}"}>{html.escape(words)}</text>'


def arrow(begin, end, label):
    (x1, y1), (x2, y2) = begin, end
    drawn = [f'<line x1="{x1:g}" y1="{y1:g}" x2="{x2:g}" y2="{y2:g}" class="arrow" marker-end="url(#head)"/>']
    if label:
        drawn.append(text((LEFT + RIGHT) / 2, (y1 + y2) / 2 - 6, label, "middle"))
    return drawn


def draw(names, traces):
    rows = rows_of(traces)
    meet(rows)
    y, places = 46, (LEFT, RIGHT)
    for row in rows:
        y += LINE + 4
        row.y = y
        y += LINE * (row.lines() - 1)
    out = [
        f'<svg xmlns="http://www.w3.org/2000/svg" viewBox="0 0 {WIDTH} {y + 30}" width="{WIDTH}" height="{y + 30}">',
        "<style>text{font:10px monospace;fill:#222}.end{font-weight:bold;font-size:13px}.time{fill:#888}.life{fill:#0a5}.bad{fill:#b30}"
        ".arrow{stroke:#36c;stroke-width:1.2}.column{stroke:#555;stroke-width:2}.alone{stroke:#b30;stroke-dasharray:4 3}</style>",
        '<defs><marker id="head" viewBox="0 0 8 8" refX="8" refY="4" markerWidth="7" markerHeight="7" orient="auto"><path d="M0 0 8 4 0 8z" fill="#36c"/></marker></defs>',
        f'<rect width="{WIDTH}" height="{y + 30}" fill="#fff"/>',
    ]
    for x, name in zip(places, names):
        out.append(text(x, 22, name, "middle", "end"))
        out.append(f'<line x1="{x}" y1="32" x2="{x}" y2="{y + 20}" class="column"/>')
    met = {id(row.came) for row in rows if row.came}
    for row in rows:
        out += drawn_row(row, places, id(row) in met, len(traces) == 1)
    return "\n".join([*out, "</svg>", ""])


def drawn_row(row, places, is_met, is_alone):
    here, there = places[row.end], places[1 - row.end]
    outward, side = (-1, "end") if row.end == 0 else (1, "start")
    out = [text(8 if row.end == 0 else WIDTH - 8, row.y, f"{row.step.time / 1e6:g} ms", "start" if row.end == 0 else "end", "time")]
    for number, words in enumerate(row.told):
        kind = "life" if words.startswith(("life", "event")) else "bad" if words.startswith("lost") else ""
        out.append(text(here + 8 * outward, row.y + LINE * number, words, side, kind))
    if row.came:
        out += arrow((there, row.came.y - 3), (here, row.y - 3), packets_in_short(row.came.step))
    elif row.step.word == "datagram":
        out += arrow((there if is_alone else here - 60 * outward, row.y - 3), (here, row.y - 3), "")
    if row.arrow and is_alone:
        out += arrow((here, row.y - 3), (there, row.y - 3), packets_in_short(row.step))
    elif row.arrow and not is_met:
        out.append(f'<line x1="{here}" y1="{row.y - 3}" x2="{here - 60 * outward}" y2="{row.y - 3}" class="alone"/>')
        out.append(text(here - 64 * outward, row.y, packets_in_short(row.step), "start" if row.end == 0 else "end", "bad"))
    return out


def picture(texts):
    """The SVG of one text or two. Raises TraceFault, with the number of the text that is none."""
    traces = []
    for number, it in enumerate(texts):
        try:
            traces.append(read_trace(it)[0])
        except TraceFault as fault:
            fault.trace = number
            raise
    names = ("client", "server") if len(traces) == 2 else ("this end", "peer")
    return draw(names, traces)


def is_current(name, scripts):
    """Whether a picture is that of these scripts' traces. Tells it."""
    texts = []
    for script in scripts:
        with open(f"{TOP}/examples/{script}.script", encoding="utf-8") as file:
            texts.append(subprocess.run([f"{TOP}/qconn", "run"], stdin=file, capture_output=True, text=True, check=True).stdout)
    with open(f"{TOP}/docs/{name}.svg", encoding="utf-8") as file:
        current = file.read() == picture(texts)
    print(f"docs/{name}.svg is current" if current else f"docs/{name}.svg isn't the picture of the example scripts")
    return current


def check():
    return 0 if all([is_current(name, scripts) for name, scripts in PICTURES.items()]) else 1


def main():
    names = sys.argv[1:]
    if names == ["--check"]:
        return check()
    if len(names) not in (1, 2) or any(it.startswith("-") for it in names):
        print(__doc__, file=sys.stderr)
        return 2
    texts = []
    for name in names:
        with open(name, encoding="utf-8", errors="replace", newline="") as file:
            texts.append(file.read())
    try:
        sys.stdout.write(picture(texts))
    except TraceFault as fault:
        print(f"{names[fault.trace]}: {fault}", file=sys.stderr)
        return 1
    return 0


if __name__ == "__main__":
    sys.exit(main())
