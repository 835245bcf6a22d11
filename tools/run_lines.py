"""The lines that `simulate`, `audit`, `replay` and `loop` print, as tools/plot and tools/stability read them: what each node said, and when.

True time comes from the `= pass` events of `loop`. Without them the time of a line is its node's ticks times a nominal tick,
and never before the time of the line above it: lines come in the order of what happened."""
import collections
import math
import re

TAU_IN_PS = 65_536
TAU_IN_S = 65_536 * 10**12
SERVO = ("uninit", "sync-tai", "sync-nsec", "sync-phase", "wait-stable", "track", "holdover")
PORT = ("down", "quiet", "ptp", "present", "s-lock", "m-lock", "locked", "resp-calib", "calibration", "calibrated", "link-on")
NAME, NUMBER, SIGNED = r"[a-z]\w{0,15}", r"\d{1,39}", r"-?\d{1,39}"
KINDS = {
    "send": rf"{NUMBER} [0-9a-f]+",
    "step": SIGNED,
    "dac": NUMBER,
    "link": rf"{NUMBER} ({'|'.join(PORT)})",
    "servo": "|".join(SERVO),
    "track": rf"{SIGNED} {NUMBER}( true {SIGNED})?",
}
FORMS = {kind: re.compile(form, re.A) for kind, form in KINDS.items()}
HEAD = re.compile(rf"({NAME}) ({NUMBER}) ({'|'.join(KINDS)}) (.*)", re.A)
SUM = re.compile(rf"({NAME}) sum ({NUMBER}) {NUMBER} {NUMBER} ({NUMBER}) ({'|'.join(SERVO)})", re.A)
PASSED_OVER = re.compile(rf"{NAME} count {NUMBER} [a-z]+ {NUMBER}|forged {NUMBER}", re.A)
REFUSAL = re.compile(r"(usage:|(bad-network|bad-trace|broken|too-large|bad-capture|bad-calib) )[ -~]*")
EVENTS = ("pass", "tick", "sample", "depart", "arrive", "deliver", "noise", "down", "up", "cut", "join")
SLOTS = 1060


class Refused(Exception):
    """Lines of which no picture can be made, and the sentence that says why."""


class Curve:
    """A value over a window of time, in at most SLOTS slots of equal length: of each the first, the least, the greatest and
    the last value, with their times and their place in the order of all."""

    def __init__(self, window):
        self.first, self.last = window
        self.width, self.slots, self.count = 0.001, [], 0

    def add(self, time, value):
        if not self.first <= time <= self.last:
            return
        while time - self.first >= self.width * SLOTS:
            self.halve()
        self.count += 1
        self.put(int((time - self.first) / self.width), [(self.count, time, value)] * 4)

    def put(self, at, points):
        """Puts points into the slot of this number, which is the last one or a new one."""
        if not self.slots or self.slots[-1][0] != at:
            self.slots.append((at, points))
            return
        mine = self.slots[-1][1]
        least, most = min(mine[1], points[1], key=lambda it: it[2]), max(mine[2], points[2], key=lambda it: it[2])
        self.slots[-1] = at, [mine[0], least, most, points[3]]

    def halve(self):
        """Makes two slots into one, as often as there are two."""
        self.width *= 2
        old, self.slots = self.slots, []
        for at, points in old:
            self.put(at // 2, points)

    def points(self):
        """The times and values that are kept, in their order."""
        return [(time, value) for _, points in self.slots for _, time, value in sorted(set(points))]


# A `track` line: when it came, the chain of samples that it is in, the estimate, the true offset or None, and the tick.
Track = collections.namedtuple("Track", "time chain est true tick")


class Node:
    """What the lines say of a node. Times are in s from the start of the run, offsets and bounds in tau."""

    def __init__(self):
        self.tracks, self.servo, self.ports, self.steps, self.lives, self.downs = [], [], {}, [], [], []
        self.bound, self.chain = None, 0
        self.off, self.curves = None, []

    def take(self, time, tick, kind, words):
        """Takes a line of this node."""
        self.lives[-1][1] = time
        if kind == "track":
            self.bound = int(words[1])
            self.tracks.append(Track(time, self.chain, int(words[0]), int(words[3]) if len(words) == 4 else None, tick))
        elif kind == "servo":
            self.chain += words[0] != "track"
            self.servo.append((time, words[0]))
        elif kind == "link":
            self.ports.setdefault(int(words[0]), []).append((time, words[1]))
        elif kind == "step":
            self.steps.append((time, int(words[0])))

    def begin(self, time):
        """The node comes up."""
        self.lives.append([time, time])
        self.chain += 1

    def stretches(self, told):
        """What was reported as stretches: from where to where it held. None goes past the end of a life."""
        found = []
        for (time, what), after in zip(told, [*told[1:], None]):
            end = max((it[1] for it in self.lives if it[0] <= time), default=time)
            found.append((time, end if after is None else min(end, after[0]), what))
        return found


class Run:
    """What the lines say of a run."""

    def __init__(self, tick, period, window):
        self.tick, self.period, self.window = tick, period, window
        self.nodes, self.said, self.marks, self.changes = {}, [], [], []
        self.tau, self.time, self.has_true_time, self.agrees = 0, 0.0, False, 0

    def node(self, name):
        return self.nodes.setdefault(name, Node())

    def up(self, name):
        """A node that is up, by the events so far."""
        node = self.nodes.get(name)
        if node is None or node.off is None:
            raise Refused(f"at {self.time:.3f} s a line tells of {name}, and no event says that it is up: lines are missing")
        return node

    def event(self, line, at):
        """Takes an event that `loop` wrote."""
        if not self.has_true_time and self.said:
            raise Refused(f"line {at} is an event of loop, and the lines above it have none: these are lines of two runs")
        self.has_true_time = True
        kind, *fields = line[2:].split(",")
        if kind not in EVENTS:
            raise ValueError(line)
        if kind == "pass":
            self.passes(int(fields[0]), fields[1:])
        elif kind in ("up", "down"):
            self.carries(kind, fields)
        elif kind in ("cut", "join"):
            self.mark(f"{kind} {fields[0]}")

    def passes(self, tau, moves):
        """True time passes, and clocks drift meanwhile."""
        self.tau += tau
        self.time = self.tau / TAU_IN_S
        for it in moves:
            name, _, drift = it.partition("=")
            if "/" not in drift:
                self.up(name).off += int(drift)
        for node in self.nodes.values():
            if node.off is not None:
                node.curves[-1].add(self.time, node.off)
                node.lives[-1][1] = self.time

    def carries(self, kind, fields):
        """A node comes up with its offset, or goes down."""
        node = self.node(fields[0])
        if kind == "down":
            node.off = None
            node.downs.append(self.time)
        else:
            node.begin(self.time)
            node.off = int(fields[1])
            node.curves.append(Curve(self.window))
            node.curves[-1].add(self.time, node.off)
        self.mark(f"{fields[0]} {kind}")

    def mark(self, what):
        if self.time > 0:
            self.marks.append((self.time, what))

    def line(self, name, tick, kind, words):
        """Takes a line of a node."""
        if not self.has_true_time:
            self.said.append((name, tick, kind, words))
            return
        node = self.up(name) if kind in ("step", "track") or name not in self.nodes else self.nodes[name]
        node.take(self.time, tick, kind, words)
        self.changed(name, tick, kind, words)
        if kind == "step":
            node.off += int(words[0]) * self.period
            node.curves[-1].add(self.time, node.off)
        elif kind == "track":
            if len(words) < 4 or int(words[3]) != node.off:
                raise Refused(f"at {self.time:.3f} s {name} is {words[-1]} tau off by its track line, and {node.off} by its events: "
                              "lines are missing, or the network file is of another run")
            self.agrees += 1

    def changed(self, name, tick, kind, words):
        """Notes a change of a node's servo or of a port, or a step of its clock, in the order of the lines."""
        if kind in ("link", "servo", "step"):
            self.changes.append((self.time, name, tick, kind, words))

    def ends(self, name, tick, bound):
        """Takes the line that closes a node."""
        if not self.has_true_time:
            self.said.append((name, tick, "sum", [bound]))

    def give_times(self):
        """Without true time: gives each line the time of its node's ticks, and never one before the line above it."""
        ticks, bases = {}, {}
        for at, (name, tick, kind, words) in enumerate(self.said):
            node = self.node(name)
            if name not in ticks or tick < ticks[name]:
                began = self.began(at, ticks, bases)
                bases[name] = began - tick * self.tick if name in ticks else 0.0
                node.begin(max(bases[name], 0.0))
            ticks[name] = tick
            self.time = max(self.time, bases[name] + tick * self.tick)
            if kind == "sum":
                node.lives[-1][1] = max(node.lives[-1][1], bases[name] + tick * self.tick)
                node.bound = int(words[0]) or node.bound
            else:
                node.take(self.time, tick, kind, words)
                self.changed(name, tick, kind, words)

    def began(self, at, ticks, bases):
        """When a node began again: with the next line of a port that hears its carrier come, or else with the line above."""
        name, tick = self.said[at][:2]
        for other, its, kind, words in self.said[at:]:
            if (other, its) != (name, tick):
                if other != name and other in ticks and its >= ticks[other] and kind == "link" and words[1] == "quiet":
                    return max(self.time, bases[other] + its * self.tick)
                break
        return self.time

    def span(self):
        """The time from the start to the last line or event."""
        return max([self.time, *(it[1] for node in self.nodes.values() for it in node.lives)])


def shown(line):
    return repr(line if len(line) <= 60 else line[:60] + "..")


def read_run(lines, what, tick, period, window=(0.0, math.inf)):
    """The run that lines describe. `what` is what the lines are called in a refusal, `tick` the nominal tick in s, `period` the
    period of the clocks in tau, and `window` the times between which offsets are computed."""
    run, at = Run(tick, period, window), 0
    for at, whole in enumerate(lines, 1):
        line = whole.removesuffix("\n")
        if line == whole:
            raise Refused(f"{what} was cut: its last line, {at}, has no end: {shown(line)}")
        try:
            take(run, line, at, what)
        except (ValueError, IndexError, OverflowError):
            raise Refused(f"{what}: line {at} is none that simulate, audit, replay or loop prints: {shown(line)}") from None
    if not at:
        raise Refused(f"{what} is empty: the command before it printed nothing")
    if not run.has_true_time:
        run.give_times()
    if not run.nodes:
        raise Refused(f"{what} has no line of a node with a tick")
    return run


def take(run, line, at, what):
    """Takes a line, or raises a fault."""
    if line.startswith("= "):
        run.event(line, at)
    elif head := HEAD.fullmatch(line):
        name, tick, kind, rest = head.groups()
        if not FORMS[kind].fullmatch(rest):
            raise ValueError(line)
        run.line(name, int(tick), kind, rest.split(" "))
    elif end := SUM.fullmatch(line):
        run.ends(end[1], int(end[2]), end[3])
    elif REFUSAL.fullmatch(line):
        raise Refused(f"{what} ends with a refusal of the program: {line}")
    elif not PASSED_OVER.fullmatch(line):
        raise ValueError(line)
