"""The keys of a network file: their units, defaults and ranges, as docs/FILES.md has them, and how a tool changes one."""
import copy
import fractions
import json
import re

from network import NETWORK, NODE, Fault

# The units in which a number may be given, in tau.
UNITS = {"tau": 1, "ps": 65_536, "ns": 65_536_000, "us": 65_536_000_000, "ms": 65_536_000_000_000, "s": 65_536_000_000_000_000}
TICKS, SAMPLES, STEPS, RATE = "ticks", "samples", "steps", "ps a second"


class Key:
    """A key: its unit (of a time a name of UNITS), its least and greatest value, and its default, if it has one."""

    def __init__(self, unit, least, greatest, default=None):
        self.unit, self.least, self.greatest, self.default = unit, least, greatest, default


KEYS = {
    "network": {
        "epoch": Key("s", 1_000_000, 2**35, 1_000_000),
        "domain": Key("", 0, 255, 0),
        "dmin_ns": Key("ns", 1000, 10**9, 9_000_000),
        "dmax_ns": Key("ns", 1000, 10**9, NETWORK["dmax_ns"]),
        "life_ns": Key("ns", 1, 10**10, NETWORK["life_ns"]),
        "reach_ns": Key("ns", 1, 10**9, NETWORK["reach_ns"]),
        "quiet": Key(TICKS, 2, 10**6, 24),
        "holdover": Key(TICKS, 2, 10**6, NETWORK["holdover"]),
        "wait": Key(TICKS, 1, 10**6, 30),
        "lock_wait": Key(TICKS, 1, 10**6, 1500),
        "holdoff": Key(TICKS, 1, 10**6, 300),
        "lease": Key(TICKS, 1, 10**6, 250),
        "age": Key(TICKS, 1, 10**6, NETWORK["age"]),
        "report": Key(TICKS, 1, 10**6, 100),
        "stable": Key(SAMPLES, 1, 10**6, 50),
        "lock_samples": Key(SAMPLES, 1, 10**6, 100),
        "retries": Key("", 0, 100, 3),
        "gap": Key(TICKS, 1, 100, NETWORK["gap"]),
        "announce": Key(TICKS, 1, 10_000, 100),
        "sync": Key(TICKS, 1, 10_000, 25),
        "delay": Key(TICKS, 1, 10_000, 25),
        "ring": Key(SAMPLES, 1, 4096, 64),
        "track_tau": Key("tau", 1, 10**9, NETWORK["track_tau"]),
        "loop_tau": Key("tau", 1, 10**9, NETWORK["loop_tau"]),
        "phase_step": Key("tau", 1, 10**9, 100_000),
        "kp": Key("", 0, 65_535, 125),
        "ki": Key("", 0, 65_535, 5),
        "bias": Key("", 0, 65_535, 32_768),
        "threshold": Key("", 1, 2**20, 6400),
        "delock_samples": Key(SAMPLES, 0, 10**6, 50),
        "period_ps": Key("ps", 8000, 16_000, NETWORK["period_ps"]),
    },
    "node": {
        "e_tx": Key("tau", 1000, 10**9, NODE["e_tx"]),
        "e_tag": Key("tau", 32_000, 65_535_999, NODE["e_tag"]),
        "beat": Key(STEPS, 0, 24, NODE["beat"]),
        "slew": Key(RATE, 0, 10**9, NODE["slew"]),
        "held": Key(RATE, 0, 10**9, NODE["held"]),
    },
    "link": {"down_nm": Key("", 0, 1700, 0), "up_nm": Key("", 0, 1700, 0)},
    "module": {
        "tx": Key("tau", 0, 10**12),
        "rx": Key("tau", 0, 10**12),
        "transition": Key(STEPS, 0, 16_383),
        "err": Key("tau", 0, 10**9),
    },
    "fibre": {
        "kappa": Key("", -(2**38), 2**38),
        "err": Key("tau", 1, 10**9),
        "table_err": Key("tau", 0, 10**9, 0),
    },
}
# The keys whose values are no number; the keys of a module are of version 1.
OTHERS = {"network": [], "node": ["name", "identity"], "link": ["name", "upper", "lower", "fibre", "upper_module", "lower_module", "wr"],
          "module": ["name"], "fibre": ["name", "table"]}
# The keys that have a share in the bound. A node's count if it is on the way from the grandmaster, and some of them only
# below the grandmaster.
BELOW = ["beat", "slew", "held"]
SHARES = {"network": ["track_tau", "loop_tau", "dmax_ns", "gap", "age", "life_ns", "reach_ns", "holdover", "period_ps"],
          "node": ["e_tx", "e_tag", "beat", "slew", "held"], "module": ["err"], "fibre": ["err", "table_err"]}


def spelled(tau):
    """A time in a unit that suits it."""
    size = abs(tau)
    unit = next((it for it in ("ps", "ns", "us", "ms") if size < 1000 * UNITS[it]), "s")
    digits = 2 if unit == "ps" and (size >= UNITS["ps"] // 100 or not size) else 4 if unit == "ps" else 3
    return f"{tau / UNITS[unit]:.{digits}f} {unit}"


class Number:
    """A number of a network file: a key of the network, of one node, link, module or fibre, or of all of a kind. A key of
    a module is the key of each of its entries."""

    def __init__(self, file, kind, key, name=None):
        self.kind, self.key, self.name = kind, key, name
        self.about = KEYS[kind][key]
        self.label = key if kind == "network" else f"{name or kind}.{key}"
        if name and (name in KEYS or len(kinds_of(file, name, key)) > 1):
            self.label = f"{kind}.{name}.{key}"

    def tables(self, file):
        """The tables of a file that have this number."""
        if self.kind == "network":
            return [file.setdefault("network", {})]
        found = [it for it in file.get(self.kind, []) if self.name in (None, it.get("name"))]
        if self.kind == "module":
            return [part for it in found for part in it.get("pair", [it])]
        return found

    def values(self, file):
        """The values that the file has for it, in the order of the file."""
        return [it.get(self.key, self.about.default) for it in self.tables(copy.deepcopy(file))]

    def changed(self, file, value):
        """The file with another value."""
        other = copy.deepcopy(file)
        for it in self.tables(other):
            it[self.key] = value
        return other

    def shown(self, value):
        """A value as the file has it, with its unit, or if it is a time with that time in words."""
        unit = self.about.unit
        return f"{value}, {spelled(value * UNITS[unit])}" if unit in UNITS else f"{value} {unit}".strip()

    def choices(self):
        """The values that it may have, the least first."""
        if self.key == "period_ps":
            return [self.about.least, self.about.greatest]
        return range(self.about.least, self.about.greatest + 1)


def kinds_of(file, name, key):
    """The kinds of which one has this name, and may have this key."""
    found = [kind for kind in KEYS if kind != "network" and key in KEYS[kind]]
    return [kind for kind in found if any(it.get("name") == name for it in file.get(kind, []))]


def number_named(file, word):
    """The number that a word names: KEY of the network, KIND.KEY of all of a kind, NAME.KEY or KIND.NAME.KEY of one."""
    parts = word.split(".")
    key, kind, name = parts[-1], parts[0], parts[1] if len(parts) == 3 else None
    if len(parts) == 1:
        if key in KEYS["network"]:
            return Number(file, "network", key)
        owners = [it for it in KEYS if key in KEYS[it]]
        more = f"; {' or '.join(f'{it}.{key}' for it in owners)} is the key of all of that kind" if owners else ""
        raise Fault(f"the network has no key {key}{more}")
    if len(parts) > 3 or (len(parts) == 3 and kind not in KEYS):
        raise Fault(f"{word} is none of KEY, KIND.KEY, NAME.KEY and KIND.NAME.KEY, where KIND is {', '.join(KEYS)}")
    if kind not in KEYS:
        kind, name = kind_named(file, parts[0], key), parts[0]
    if key not in KEYS[kind]:
        raise Fault(f"a {kind} has no number {key}: its numbers are {', '.join(KEYS[kind])}")
    found = Number(file, kind, key, name)
    if not found.tables(copy.deepcopy(file)):
        raise Fault(f"there is no {kind} of the name {name}" if name else f"the file has no {kind}")
    return found


def kind_named(file, name, key):
    """Of which kind the thing is that has a name and a key."""
    kinds = kinds_of(file, name, key)
    if len(kinds) > 1:
        raise Fault(f"{name} is both a {kinds[0]} and a {kinds[1]}: say {kinds[0]}.{name}.{key} or {kinds[1]}.{name}.{key}")
    if kinds:
        return kinds[0]
    owners = [kind for kind in KEYS if kind != "network" and any(it.get("name") == name for it in file.get(kind, []))]
    if not owners:
        raise Fault(f"nothing in this network has the name {name}")
    raise Fault(f"the {owners[0]} {name} has no number {key}: its numbers are {', '.join(KEYS[owners[0]])}")


def value_of(number, word):
    """The value that a word says for a number: a whole number, or one with a unit if the number is a time."""
    found = re.fullmatch(r"(-?\d{1,30}(?:\.\d{1,30})?) ?([a-z]*)", word)
    if not found:
        raise Fault(f"{number.label} is to be {word!r}, which is no number")
    unit, own = found[2], number.about.unit
    if not unit and "." not in found[1]:
        return int(found[1])
    if own not in UNITS:
        raise Fault(f"{number.label} is to be {word!r}: it takes a whole number, without a unit")
    if unit not in UNITS:
        raise Fault(f"{number.label} is to be {word!r}: it takes a whole number in {own}, or a number with one of {', '.join(UNITS)}")
    return round(fractions.Fraction(found[1]) * UNITS[unit] / UNITS[own])


def with_settings(file, settings):
    """The file with each setting KEY=VALUE, and what was set: the number, the values that it had, and its new one."""
    changes = []
    for it in settings:
        word, equals, value = it.partition("=")
        if not equals:
            raise Fault(f"--set takes KEY=VALUE, as node.held=20, and not {it}")
        number = number_named(file, word.strip())
        had, new = number.values(file), value_of(number, value.strip())
        file = number.changed(file, new)
        changes.append((number, had, new))
    return file, changes


def numbers_of(network, name):
    """Each number that has a share in a node's bound: of all of a kind if there are several, and of each."""
    file, way = network.file, network.on_the_way(name)
    used = {"node": way, "module": [it["name"] for it in file.get("module", [])],
            "fibre": [it["name"] for it in file.get("fibre", []) if it["name"] in {network.above[node]["fibre"] for node in way[:-1]}]}
    found = [Number(file, "network", key) for key in SHARES["network"]]
    for kind, names in used.items():
        for key in SHARES[kind]:
            some = [Number(file, kind, key, it) for it in names if key not in BELOW or it in network.above]
            if key == "table_err":
                some = [it for it in some if "table" in it.tables(copy.deepcopy(file))[0]]
            found += [Number(file, kind, key)] * (len(some) > 1) + some
    return found


def value(it):
    """A value as TOML writes it."""
    if isinstance(it, bool):
        return str(it).lower()
    if isinstance(it, list):
        return f"[{', '.join(map(value, it))}]"
    if isinstance(it, dict):
        return f"{{ {', '.join(f'{key} = {value(part)}' for key, part in it.items())} }}"
    return json.dumps(it, ensure_ascii=False) if isinstance(it, str) else str(it)


def text(file):
    """A network file as a text."""
    lines = [f"version = {file['version']}"] if "version" in file else []

    def table(head, numbers):
        lines.append(head)
        lines.extend(f"{key} = {value(it)}" for key, it in numbers.items() if key != "pair")

    if "network" in file:
        table("[network]", file["network"])
    for kind in ("node", "link", "module", "fibre"):
        for it in file.get(kind, []):
            table(f"[[{kind}]]", it)
            for pair in it.get("pair", []):
                table("[[module.pair]]", pair)
    return "\n".join(lines) + "\n"
