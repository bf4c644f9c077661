"""The frames of a run, from the lines of its events: what bench/konata and bench/timeline share."""
import re
import sys

# The line of an event (docs/trips.1): the number of its cycle, what happens, and names with numbers.
LINE = re.compile(r"cycle (\d+) (begin|predict|give up|fetch|read|fire|deliver|load|store|exit|seal|commit|trap|"
                  r"flush)\b")


class Frame:
    """What a block did from its fetch on. A cycle that did not come before the last line is None."""

    def __init__(self, block, begun=None, number=None, careful=False):
        self.block, self.begun, self.number, self.careful = block, begun, number, careful
        self.filled = self.sealed = self.ended = None
        # how it ended: commit, trap, flush or give up, and of a flush the cause
        self.end = self.cause = None
        # (cycle, slot, operation) of each firing, and (cycle, text) of each other event
        self.fired, self.told = [], []


class Run:
    """The frames of a run in the order in which they were begun, and the first and last cycle of which is told."""

    def __init__(self, lines):
        self.frames, self.flying, self.fetching = [], {}, None
        self.first = self.last = None
        for line in lines:
            found = LINE.match(line)
            if found:
                self.take(int(found[1]), found[2], line[found.end():].strip())

    def add(self, frame):
        self.frames.append(frame)
        return frame

    def frame(self, number):
        """The frame of a number in flight. Of one that was filled before the first line the block is not known yet."""
        if number not in self.flying:
            self.flying[number] = self.add(Frame(None, number=number))
        return self.flying[number]

    def take(self, cycle, kind, rest):
        self.first = cycle if self.first is None else self.first
        self.last = cycle
        numbers = {name: int(n) for name, n in re.findall(r"(\w+) (\d+)", rest)}
        if kind == "begin":
            self.fetching = self.add(Frame(numbers["block"], cycle, careful=rest.endswith("careful")))
        elif kind == "give up":
            fetch = self.fetching or self.add(Frame(numbers["block"]))
            fetch.ended, fetch.end, self.fetching = cycle, kind, None
        elif kind == "fetch":
            frame = self.fetching or self.add(Frame(numbers["block"]))
            frame.number, frame.filled, self.fetching = numbers["frame"], cycle, None
            self.flying[frame.number] = frame
        else:
            self.act(cycle, kind, rest, numbers, self.frame(numbers["frame"]))

    def act(self, cycle, kind, rest, numbers, frame):
        if kind == "fire":
            frame.fired.append((cycle, numbers["slot"], rest.split(" ")[4] if rest.count(" ") > 3 else ""))
            return
        frame.told.append((cycle, f"{kind} {rest}"))
        if kind == "seal":
            frame.sealed = cycle
        elif kind in ("commit", "trap", "flush"):
            frame.ended, frame.end = cycle, kind
            frame.block = numbers.get("block", frame.block)
            frame.cause = rest.partition(" cause ")[2]
            del self.flying[frame.number]


def lines_of(report):
    """The lines of a report, without what the program put out."""
    head = re.match(rb"output (\d+)\n", report)
    if head:
        report = report[head.end() + int(head[1]) + 1:]
    return report.decode("ascii", "replace").splitlines()


def read(path):
    """The run of a report in a file, or on standard input for `-`."""
    if path == "-":
        return Run(lines_of(sys.stdin.buffer.read()))
    with open(path, "rb") as file:
        return Run(lines_of(file.read()))


def named(frame):
    """A frame in words."""
    words = ["block ?" if frame.block is None else f"block {frame.block}"]
    words += [] if frame.number is None else [f"frame {frame.number}"]
    words += ["careful"] if frame.careful else []
    words += [f"flushed: {frame.cause}"] if frame.end == "flush" else []
    words += {"trap": ["trapped"], "give up": ["given up"]}.get(frame.end, [])
    return ", ".join(words)
