"""Events of a network over true time, each error at the limit that its premise sets and all of them to the same side.

What is here is the world of docs/WORLD.md: clocks, fibres, modules, stamps, tags and beat bits. What a node makes of them is not
computed: the frames that nodes send, and the states of their servos, are what the program prints (tools/worst runs it).

All nodes tick together, `dmax_ns` apart. At a tick come, in this order, the ticks, the samples, the frames that arrived since the
tick before, and the departures of all frames that nodes have sent since."""
from keys import KEYS
from network import TAU_IN_NS, TAU_IN_PS, Fault

TAU_IN_S = 10**9 * TAU_IN_NS
STEPS = 16_384
# So far both ways of a fibre may move, in 10^-12 of the time.
FIBRE_RATE = 2


class Port:
    """An end of a link: its node, the number of the port, and its module with the true delays."""

    def __init__(self, network, link, end, sign):
        node, _, number = link[end].partition(":")
        self.node, self.number, self.module = node, int(number), link[f"{end}_module"]
        waves = link.get("down_nm", 0), link.get("up_nm", 0)
        entry = entry_of(network.file, self.module, waves if end == "upper" else waves[::-1])
        # Down the delays are shorter than their entries say, and up they are longer.
        side = sign if end == "upper" else -sign
        self.tx, self.rx = (min(max(it, 0), 10**12) for it in (entry["tx"] - side * entry["err"], entry["rx"] + side * entry["err"]))
        self.transition = entry["transition"]


def entry_of(file, name, waves):
    """The entry of a module for two wavelengths."""
    module = next(it for it in file["module"] if it["name"] == name)
    pairs = {(it.get("tx_nm", 0), it.get("rx_nm", 0)): it for it in module.get("pair", [module])}
    return pairs.get(waves) or pairs[0, 0]


class Link:
    """A link, with the true delays of its fibre: `down` and `up`."""

    def __init__(self, network, link, both, sign):
        self.name = link["name"]
        self.upper, self.lower = (Port(network, link, end, sign) for end in ("upper", "lower"))
        fibre = next(it for it in network.file["fibre"] if it["name"] == link["fibre"])
        share = (2**39 + fibre["kappa"]) * both // 2**40
        # What is left of the error is for the rounding of the share while the fibre moves.
        self.down = min(max(share - sign * max(fibre["err"] - 1000, 0), 0), both)
        self.up = both - self.down
        self.moved = 0

    def way_down(self):
        return self.upper.tx + self.down - self.moved + self.lower.rx

    def way_up(self):
        return self.lower.tx + self.up - self.moved + self.upper.rx


class Plan:
    """What is chosen: where each clock starts, in tau from its parent's; how many ticks there are; for how many of the last ones
    no frame departs or is delivered; how many of these have no sample; and how far each clock is pushed in the others."""

    def __init__(self, ticks, starts, silent=0, unsampled=0, pushes=None):
        self.ticks, self.starts, self.silent, self.unsampled, self.pushes = ticks, starts, silent, unsampled, pushes or {}


class Edge:
    """A network whose errors are at their limits."""

    def __init__(self, network, both_ways, sign=1):
        numbers = {**{key: it.default for key, it in KEYS["network"].items()}, **network.numbers}
        self.network, self.sign, self.numbers = network, sign, numbers
        self.period = numbers["period_ps"] * TAU_IN_PS
        self.step = self.period // STEPS
        # A whole number of periods, so that each reading at a tick is at the same place of its period.
        self.tick = numbers["dmax_ns"] * TAU_IN_NS // self.period * self.period
        self.both_ways = both_ways
        self.nodes = list(network.nodes)
        if numbers["life_ns"] * TAU_IN_NS < 2 * self.tick:
            raise Fault("the life of a frame is shorter than two ticks, and this tool hands a frame over one tick after it was put out")
        if numbers["reach_ns"] * TAU_IN_NS >= self.tick:
            raise Fault("a fibre of this network may delay a frame by more than a tick")

    def start_of(self, name, starts):
        """The offset with which a node comes up: its own part and the parts of all nodes above it."""
        return sum(starts.get(it, 0) for it in self.network.on_the_way(name))

    def events(self, plan, sent):
        """The event lines of a plan. `sent` has for each node and tick the ports at which frames are sent."""
        return Course(self, plan, sent).lines


class Course:
    """One course of events, and its lines."""

    def __init__(self, edge, plan, sent):
        self.edge, self.plan, self.sent, self.lines = edge, plan, sent, []
        self.now = edge.numbers["epoch"] * TAU_IN_S
        self.links = [Link(edge.network, it, edge.both_ways.get(it["name"], 0), edge.sign) for it in edge.network.file.get("link", [])]
        self.off = {it: edge.sign * edge.start_of(it, plan.starts) for it in edge.nodes}
        self.count, self.flying, self.arrived, self.pushed = 0, [], [], {}
        self.ends = {(port.node, port.number): (it, port is it.upper) for it in self.links for port in (it.upper, it.lower)}
        self.above = {it.lower.node: it for it in reversed(self.links)}
        self.begin()
        for tick in range(plan.ticks):
            self.at(tick)
            self.on_the_fibres(self.now + edge.tick, tick)
            self.lines += [f"tick,{it}" for it in edge.nodes]

    def begin(self):
        """Links are joined, and nodes come up."""
        self.lines += [f"join,{it.name},{it.down},{it.up}" for it in self.links]
        for name in self.edge.nodes:
            ports = [port for it in self.links for port in (it.upper, it.lower) if port.node == name]
            parts = [f"{it.number}:{it.module}:{it.tx}:{it.rx}" for it in ports]
            self.lines.append(",".join([f"up,{name},{self.off[name]}", *parts]))

    def at(self, tick):
        """What comes at a tick: samples, deliveries and departures."""
        left = self.plan.ticks - tick
        if tick and left >= self.plan.unsampled:
            self.lines += [self.sample(it, left) for it in self.edge.nodes if it in self.above]
        if left > self.plan.silent:
            self.lines += [f"deliver,{it}" for it in self.arrived]
            self.arrived = []
            for name in self.edge.nodes:
                for number in self.sent.get((name, tick), ()):
                    self.depart(name, number)

    def sample(self, name, left):
        """A sample of a node: its tag is on one side of the truth, and while no frame comes on the other."""
        edge, link = self.edge, self.above[name]
        phase = self.off[name] - self.off[link.upper.node] + link.way_down()
        beat = edge.network.nodes[name]["beat"] * edge.sign * (-1 if left <= self.plan.silent else 1)
        bits = (1 << (32 - beat)) - 1
        return f"sample,{name},{(phase % edge.period // edge.step - 32) % STEPS},{bits:016x}"

    def depart(self, name, number):
        """The oldest frame of a port departs, with a stamp that is late at the upper end and early at the lower one."""
        link, is_upper = self.ends[name, number]
        reading, most = self.now + self.off[name], self.edge.network.nodes[name]["e_tx"]
        late = is_upper == (self.edge.sign > 0)
        stamp = (reading + most) // 1000 * 1000 if late else -((most - reading) // 1000) * 1000
        self.lines.append(f"depart,{name},{number},{stamp}")
        self.count += 1
        self.flying.append((self.now + (link.way_down() if is_upper else link.way_up()), self.count, link, is_upper))

    def on_the_fibres(self, end, tick):
        """True time passes up to the next tick, and frames arrive meanwhile."""
        for due, number, link, is_down in sorted(self.flying, key=lambda it: it[:2]):
            if due > self.now:
                self.lines.append(f"pass,{due - self.now}")
                self.now = due
            self.lines.append(self.arrive(number, link.lower if is_down else link.upper, is_down))
            self.arrived.append(number)
        self.flying = []
        self.lines.append(self.passes(end - self.now, tick))
        self.now = end

    def arrive(self, number, port, is_down):
        """A frame arrives: its tag is early at the lower end and late at the upper one."""
        edge, reading = self.edge, self.now + self.off[port.node]
        place, most = reading % edge.period, edge.network.nodes[port.node]["e_tag"]
        is_early = is_down == (edge.sign > 0)
        tag = -((most - place) // edge.step) if is_early else (place + most) // edge.step
        counters = f"{reading // edge.period},{(reading + edge.period // 2) // edge.period}"
        return f"arrive,{number},{counters},{(tag + port.transition) % STEPS}"

    def passes(self, time, tick):
        """True time passes; near the end clocks and fibres move meanwhile."""
        left, parts = self.plan.ticks - tick, [f"pass,{time}"]
        if left <= self.plan.silent:
            parts += [f"{name}={moved}" for name in self.edge.nodes if (moved := self.push(name, left, time))]
            move = self.edge.sign * (FIBRE_RATE * time // 10**12)
            for it in self.links if move else ():
                if min(it.down, it.up) > abs(it.moved + move):
                    it.moved += move
                    parts.append(f"{it.name}={-move}/{-move}")
        return ",".join(parts)

    def push(self, name, left, time):
        """Moves a clock, and says how far. The last moves are as fast as the clock may; the ones before make its push even."""
        if name not in self.above:
            return 0
        edge, plan = self.edge, self.plan
        limit = edge.network.nodes[name]["slew"] * time // 10**12
        if left <= plan.unsampled:
            moved = limit
        else:
            whole, share = plan.silent - plan.unsampled, plan.silent - left + 1
            goal = edge.start_of(name, plan.pushes) * share // whole
            moved = max(-limit, min(limit, goal - self.pushed.get(name, 0)))
            self.pushed[name] = self.pushed.get(name, 0) + moved
        self.off[name] += edge.sign * moved
        return edge.sign * moved
