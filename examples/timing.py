#!/usr/bin/env python3
"""Draws the timing diagram of a run on the display bus, as SVG.

    bash examples/run_c driver | python3 examples/timing.py

Standard input has what the example printed; examples/timing runs both. A line of it that begins with a time is an access to the bus: by
whom, what, the answer, and status, refusal number, verdict, mask, flags, order and line as it left them. All that is drawn comes from these
lines. The first part of the log is drawn, up to an empty line.
"""

import re
import sys

SCALE = 6
LEFT = 74
RIGHT = 16
TOP = 12
PITCH = 33
HIGH = 20
INK = "#333333"
PALE = "#9a9a9a"
BLUE = "#2b5c9e"
OCHRE = "#b5761b"
RED = "#b03030"
FILLS = {BLUE: "#dce7f6", OCHRE: "#fbe7c2", RED: "#f6d9d9", INK: "#efefef"}
ACCESS = re.compile(r" *(\d+)  (main|timer|handler) +(.*?) +(-?\d+)((?: +\d+){6}) +(low|raised)$")
NAMES = ["status", "refusal", "verdict", "mask", "flags", "order"]
VERDICTS = ["none", "definite", "not definite", "undecided"]


def accesses(lines):
    """The accesses of a log's first part: time, by whom, what, answer, and the registers and the line behind it by name."""
    found = []
    for line in lines:
        if line == "\n":
            break
        match = ACCESS.match(line.rstrip("\n"))
        if match:
            time, who, what, answer, values, level = match.groups()
            left = dict(zip(NAMES, map(int, values.split())), line=int(level == "raised"))
            found.append((int(time), who, what, int(answer), left))
    return found


def spans(log, end, value):
    """The times over which a value of the registers is the same: from, to, value. All registers begin at 0."""
    steps = [(0, value(dict.fromkeys(NAMES + ["line"], 0)))] + [(time, value(left)) for time, _, _, _, left in log]
    changes = [step for k, step in enumerate(steps) if k == 0 or step[1] != steps[k - 1][1]]
    return [(time, after[0], kept) for (time, kept), after in zip(changes, changes[1:] + [(end, None)])]


def ticks(log):
    """The ticks: time, and the number that each has in its run, 'search' where it searched, or None where it had nothing to do."""
    count, busy, found = 0, 0, []
    for time, _, what, answer, left in log:
        if what == "start" and answer == 0:
            count = 0
        if what == "tick":
            count += busy
            searched = busy and left["verdict"] > 1
            found.append((time, ("search" if searched else str(count)) if busy else None))
        busy = left["status"] & 1
    return found


class Drawing:
    def __init__(self, log):
        self.log = log
        self.end = log[-1][0] + 2
        self.rows = 0
        self.parts = []

    def x(self, time):
        return LEFT + time * SCALE

    def add(self, text):
        self.parts.append(text)

    def text(self, x, y, words, colour=INK, anchor="middle"):
        self.add(f'<text x="{x:.1f}" y="{y:.1f}" fill="{colour}" text-anchor="{anchor}">{words}</text>')

    def box(self, begin, end, high, colour, more=""):
        place = f'x="{self.x(begin):.1f}" y="{high}" width="{(end - begin) * SCALE:.1f}" height="{HIGH}"'
        self.add(f'<rect {place} fill="{FILLS[colour]}"{more}/>')

    def base(self, low):
        """The line that a row of events stands on."""
        self.add(f'<path d="M{self.x(0):.1f},{low} L{self.x(self.end):.1f},{low}" stroke="{PALE}" stroke-width="1"/>')

    def row(self, name):
        """A new row: its name at the left. Its low and its high place."""
        low = TOP + PITCH * self.rows + PITCH - 6
        self.rows += 1
        self.text(LEFT - 10, low - 6, name, anchor="end")
        return low, low - HIGH

    def wave(self, name, value, colour, words=None):
        """A row that is low where a value is 0, and high elsewhere, with its word there."""
        low, high = self.row(name)
        path = ""
        for begin, end, up in spans(self.log, self.end, value):
            y = high if up else low
            if up:
                self.box(begin, end, high, colour)
                if words:
                    self.text(self.x((begin + end) / 2), low - 6, words(up), colour)
            path += f"{'L' if path else 'M'}{self.x(begin):.1f},{y} L{self.x(end):.1f},{y} "
        self.add(f'<path d="{path.strip()}" fill="none" stroke="{colour}" stroke-width="1.6"/>')

    def lane(self, name, value, words):
        """A row of values: a box for each, with its word where there is room."""
        low, high = self.row(name)
        for begin, end, kept in spans(self.log, self.end, value):
            left, right, middle, slant = self.x(begin), self.x(end), (low + high) / 2, 2
            fill = FILLS[BLUE] if kept else "none"
            above = [(left, middle), (left + slant, high), (right - slant, high)]
            below = [(right, middle), (right - slant, low), (left + slant, low)]
            points = " ".join(f"{x:.1f},{y:.1f}" for x, y in above + below)
            self.add(f'<polygon points="{points}" fill="{fill}" stroke="{INK}" stroke-width="1"/>')
            word = words(kept)
            if right - left > 6.2 * len(word) + 2:
                self.text((left + right) / 2, low - 6, word, INK if kept else PALE)

    def commands(self):
        """The row of starts and resets."""
        low, high = self.row("command")
        self.base(low)
        for time, _, what, answer, _ in self.log:
            if what in ("start", "reset"):
                colour = RED if answer else INK
                self.arrow(self.x(time), low, colour)
                self.text(self.x(time), high + 4, f"{what}: {answer}" if answer else what, colour)

    def arrow(self, x, low, colour):
        self.add(f'<path d="M{x:.1f},{low - 12} L{x:.1f},{low}" stroke="{colour}" stroke-width="1.4"/>')
        self.add(f'<polygon points="{x - 3:.1f},{low - 6} {x + 3:.1f},{low - 6} {x:.1f},{low}" fill="{colour}"/>')

    def tick_row(self):
        low, high = self.row("tick")
        self.base(low)
        for time, number in ticks(self.log):
            colour = PALE if number is None else OCHRE if number == "search" else BLUE
            self.arrow(self.x(time), low, colour)
            if number:
                self.text(self.x(time), high + 4, number, colour)

    def handlers(self):
        """The row of the handler: a box from its first access to its last."""
        low, high = self.row("handler")
        self.base(low)
        boxes = []
        for time, who, *_ in self.log:
            if who == "handler" and boxes and boxes[-1][1] == time - 1:
                boxes[-1][1] = time
            elif who == "handler":
                boxes.append([time, time])
        for begin, end in boxes:
            self.box(begin - 0.5, end + 0.5, high, OCHRE, f' stroke="{OCHRE}" stroke-width="1.2"')

    def axis(self):
        """The times of the ticks, and a line through all rows at each."""
        bottom = TOP + PITCH * self.rows + 4
        lines = []
        for time, _ in ticks(self.log):
            x = self.x(time)
            lines.append(f'<path d="M{x:.1f},{TOP} L{x:.1f},{bottom}" stroke="#e4e4e4" stroke-width="1"/>')
            self.text(x, bottom + 14, time, PALE)
        self.text(LEFT - 10, bottom + 14, "time", PALE, "end")
        return lines

    def draw(self):
        self.commands()
        self.lane("order", lambda left: left["order"], str)
        self.tick_row()
        self.wave("busy", lambda left: left["status"] & 1, BLUE)
        self.wave("done", lambda left: left["status"] & 2, BLUE)
        self.wave("refused", lambda left: left["refusal"] if left["status"] & 4 else 0, RED, str)
        self.lane("verdict", lambda left: left["verdict"], lambda number: VERDICTS[number])
        self.lane("flags", lambda left: left["flags"], str)
        self.lane("mask", lambda left: left["mask"], str)
        self.wave("line", lambda left: left["line"], OCHRE)
        self.handlers()
        lines = self.axis()
        width, height = round(self.x(self.end)) + RIGHT, TOP + PITCH * self.rows + 28
        sizes = f'width="{width}" height="{height}"'
        head = f'<svg xmlns="http://www.w3.org/2000/svg" viewBox="0 0 {width} {height}" {sizes} font-family="sans-serif" font-size="11">'
        return "\n".join([head, f'<rect {sizes} fill="white"/>'] + lines + self.parts + ["</svg>"])


def main():
    if sys.argv[1:] == ["--help"]:
        print(__doc__, end="")
        return
    if sys.argv[1:]:
        print("timing.py: it takes no argument; timing.py --help says more", file=sys.stderr)
        sys.exit(2)
    log = accesses(sys.stdin)
    if not log:
        sys.exit("timing.py: the input has no access to a bus")
    print(Drawing(log).draw())


main()
