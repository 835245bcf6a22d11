"""A network file as the tools read it: its numbers with their defaults, and the bounds that docs/CONTROL.md makes of them."""
import re
import tomllib

NETWORK = {"dmax_ns": 11_000_000, "life_ns": 100_000_000, "reach_ns": 100_000, "holdover": 320, "age": 300, "gap": 2,
           "track_tau": 3_276_800, "loop_tau": 3_276_800, "period_ps": 8000}
NODE = {"e_tx": 655_360, "e_tag": 64_000, "beat": 4, "slew": 500, "held": 10}
OPTIONAL = {*NODE, "table_err", "down_nm", "up_nm", "tx", "rx"}
TAU_IN_NS = 65_536_000
TAU_IN_PS = 65_536
TEXT_LIMIT = 262_144


class Fault(ValueError):
    """What is wrong with an input, as a sentence."""


def up(number, divisor):
    return -(-number // divisor)


class Network:
    """The numbers of a network file, with the defaults of the ones that it leaves out."""

    def __init__(self, file):
        self.file = file
        self.numbers = {**NETWORK, **file.get("network", {})}
        self.nodes = {it["name"]: {**NODE, **it} for it in file["node"]}
        self.above = {}
        for link in file.get("link", []):
            self.above.setdefault(link["lower"].partition(":")[0], link)

    def parent(self, name):
        return self.above[name]["upper"].partition(":")[0] if name in self.above else None

    def rate(self, name):
        """The greatest rate of a node's clock in 10^-12: 0 of the grandmaster."""
        node = self.nodes[name]
        return max(node["slew"], node["held"]) if name in self.above else 0

    def entry(self, module, sent, received):
        """A module's entry for two wavelengths, or None if it has none."""
        if self.file.get("version", 1) == 1:
            return module
        pairs = {(it["tx_nm"], it["rx_nm"]): it for it in module["pair"]}
        return pairs.get((sent, received), pairs.get((0, 0)))

    def errors(self, link):
        """Of each module of the file that is listed for a link's wavelengths at either end, fitted there or not: its greater
        error and its name."""
        down, upwards = link.get("down_nm", 0), link.get("up_nm", 0)
        for module in self.file.get("module", []):
            found = [self.entry(module, *end) for end in ((down, upwards), (upwards, down))]
            if any(found):
                yield max(it["err"] for it in found if it), module["name"]

    def e_db(self, link):
        """The greatest error of all modules of the file that are listed for a link's wavelengths at either end."""
        return max((error for error, _ in self.errors(link)), default=0)

    def longest_sum(self):
        """The greatest sum of both ways that a scenario may give a fibre: three of it are at most four times what the
        ninth inequality leaves of the reach. All entries of all modules count."""
        entries = [it for module in self.file.get("module", []) for it in module.get("pair", [module])]
        tx, rx, err = (max((it.get(key, 0) for it in entries), default=0) for key in ("tx", "rx", "err"))
        return max(0, 4 * (self.numbers["reach_ns"] * TAU_IN_NS - (tx + rx + 2 * err)) // 3)

    def hop(self, name):
        """The parts of a node's hop."""
        return self.parts(name)[0]

    def shares(self, name):
        """What the scaled error of a node's hop is a share of: the way down's of both ways."""
        return self.parts(name)[1]

    def parts(self, name):
        """The parts of a node's hop, and the parts of its error of both ways."""
        link, node, parent = self.above[name], self.nodes[name], self.nodes[self.parent(name)]
        fibre = next(it for it in self.file["fibre"] if it["name"] == link["fibre"])
        numbers, dmax = self.numbers, self.numbers["dmax_ns"] * TAU_IN_NS
        step = numbers["period_ps"] * TAU_IN_PS // 16384
        rate, rate_above = self.rate(name), self.rate(self.parent(name))
        detector = (node["beat"] + 1) * step
        motion = up((rate + rate_above + 2) * (numbers["gap"] + 1) * dmax, 10**12)
        reach = up((rate_above + 2) * numbers["reach_ns"] * TAU_IN_NS, 10**12)
        down = parent["e_tx"] + node["e_tag"] + reach + detector + motion
        upwards = node["e_tx"] + parent["e_tag"] + reach + detector + motion
        age = up(4 * ((numbers["age"] + 2) * dmax + numbers["life_ns"] * TAU_IN_NS), 10**12)
        both = {"down_error": down, "up_error": upwards, "4 * e_db": 4 * self.e_db(link), "age_motion": age}
        return {
            "track_tau": numbers["track_tau"],
            "loop_tau": numbers["loop_tau"],
            "down_error": down,
            "detector_error": detector,
            "gap_motion": motion,
            "scaled_error": up((2**39 + fibre["kappa"]) * sum(both.values()), 2**40),
            "2 * e_db": 2 * self.e_db(link),
            "e_asym": fibre["err"],
            "age_motion": age,
            "law_err": fibre.get("table_err", 0) + 1,
        }, both

    def path(self, name):
        """A node's bound in TRACK, with the bound in HOLDOVER of its parent."""
        if name not in self.above:
            return 0
        return sum(self.hop(name).values()) + self.holdover(self.parent(name))

    def holdover(self, name):
        if name not in self.above:
            return 0
        longest = (self.numbers["holdover"] + 1) * self.numbers["dmax_ns"] * TAU_IN_NS
        return self.path(name) + up(self.nodes[name]["held"] * longest, 10**12)

    def on_the_way(self, name):
        """The node and those above it, up to the grandmaster."""
        found = []
        while name is not None:
            found.append(name)
            name = self.parent(name)
        return found


def split_input(octets):
    """An input in two: the bytes before its line `---`, and the bytes after it."""
    line = re.search(rb"^---\r?$\n?", octets, re.M)
    return (octets[: line.start()], octets[line.end() :]) if line else (octets, b"")


def decoded(octets):
    """A network text, without the byte order mark that it may begin with."""
    try:
        return octets.decode("utf-8-sig")
    except UnicodeDecodeError as it:
        line = octets.count(b"\n", 0, it.start) + 1
        column = it.start - octets.rfind(b"\n", 0, it.start)
        raise Fault(f"byte {column} of line {line} is no UTF-8") from None


def network_text(path):
    """What is before the line `---` of an input, or all of a network file."""
    with open(path, "rb") as it:
        octets, _ = split_input(it.read(TEXT_LIMIT + 16))
    if len(octets) > TEXT_LIMIT:
        raise Fault(f"{path} has no line --- within {TEXT_LIMIT:,} bytes, which is the most that a network text may have")
    return decoded(octets)


def parsed(text):
    """The tables of a text. What is no TOML is named by its line and column."""
    try:
        return tomllib.loads(text)
    except tomllib.TOMLDecodeError as it:
        lines = text.split("\n")
        end = f"at line {len(lines)}, column {len(lines[-1]) + 1}, where the text ends"
        raise Fault(f"no TOML: {str(it).replace('at end of document', end)}") from None
    except (RecursionError, ValueError):
        raise Fault("no TOML that can be read: it nests too deeply, or has a number that is too long") from None


def is_number(it):
    """Whether it is a whole number of 64 bits."""
    return isinstance(it, int) and not isinstance(it, bool) and -(2**63) <= it < 2**63


def is_table(points):
    """Whether it is a list of pairs of numbers."""
    return isinstance(points, list) and points and all(isinstance(it, list) and len(it) == 2 and all(map(is_number, it)) for it in points)


def tables(file, kind, strings, numbers):
    """The tables of a kind, each with the strings and whole numbers that it has to have."""
    found = file.get(kind, [])
    if not isinstance(found, list) or not all(isinstance(it, dict) for it in found):
        raise Fault(f"{kind} is no list of tables")
    for at, it in enumerate(found, 1):
        for key in strings:
            if not isinstance(it.get(key), str):
                raise Fault(f"{kind}.{at} has no text {key}")
        for key in numbers:
            if not is_number(it.get(key, 0 if key in OPTIONAL else None)):
                raise Fault(f"{kind}.{at} has no whole number {key}")
    return found


def sound(file):
    """The file, if the sums can be made of it. Whether the program accepts it is another question."""
    nodes = tables(file, "node", ["name"], NODE)
    names = [it["name"] for it in nodes]
    if not nodes:
        raise Fault("there is no node in this network")
    if len(set(names)) < len(names):
        raise Fault("two nodes have the same name")
    numbers = file.get("network", {})
    if not isinstance(numbers, dict) or not all(is_number(numbers.get(key, 0)) for key in NETWORK):
        raise Fault("network is no table of whole numbers")
    fibres = tables(file, "fibre", ["name"], ["kappa", "err", "table_err"])
    if not all(abs(it["kappa"]) <= 2**38 and is_table(it.get("table", [[0, 0]])) for it in fibres):
        raise Fault("a fibre has a kappa out of its range, or a table that is no list of points")
    for link in tables(file, "link", ["name", "upper", "lower", "fibre"], ["down_nm", "up_nm"]):
        for key in ("upper", "lower"):
            if link[key].partition(":")[0] not in names:
                raise Fault(f"a link names {link[key]}, and no node has that name")
        if link["fibre"] not in (it["name"] for it in fibres):
            raise Fault(f"a link names the fibre {link['fibre']}, which is not listed")
    is_old = file.get("version", 1) == 1
    for module in tables(file, "module", ["name"], ["tx", "rx", "err"] if is_old else []):
        if not is_old:
            tables(module, "pair", [], ["tx_nm", "rx_nm", "tx", "rx", "err"])
    network = Network(file)
    for name in names:
        seen = set()
        while name is not None and name not in seen:
            seen.add(name)
            name = network.parent(name)
        if name is not None:
            raise Fault(f"the way up from {name} comes back to it")
    return file


def network_of(text):
    """The network of a text."""
    return Network(sound(parsed(text)))
