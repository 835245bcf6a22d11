"""How the tools run the program: where it is, what bounds it prints for a network, and what its refusals mean in words.

They start the built program itself and never the launcher ./wrnet, which would prove it first."""
import os
import re
import subprocess

from keys import KEYS, OTHERS, UNITS, spelled
from network import Fault, decoded, parsed

TOP = os.path.dirname(os.path.dirname(os.path.realpath(__file__)))
BUILT = f"{TOP}/crates/wrnet/out/wrnet"
HOW = "./wrnet proves and builds it, and WRNET in the environment names another"

# Of each inequality: what has to hold, and what to change if it does not. docs/CONTROL.md has them.
INEQUALITIES = {
    "1": ("(quiet - 1) * dmin > 2 * life", "a longer quiet, or a shorter life_ns"),
    "2": ("(holdover - 1) * dmin > (lease + 1) * dmax + life", "a longer holdover, or a shorter lease"),
    "3": ("2 * gap_motion + 4 * detector_error < the period", "a smaller gap, slew, beat or dmax_ns"),
    "4": ("dmin <= dmax", "a smaller dmin_ns, or a greater dmax_ns"),
    "5": ("quiet <= holdoff", "a longer holdoff, or a shorter quiet"),
    "6": ("reach <= life", "a longer life_ns, or a shorter reach_ns"),
    "7": ("delock_samples < lock_samples", "fewer delock_samples, or more lock_samples"),
    "8": ("65,000 * min(sync, delay) * dmin > ring * (gap + 1) * dmax + 4 * life", "a smaller ring, gap or life_ns, or a longer sync or delay"),
    "9": ("tx_max + rx_max + 2 * e_db <= reach", "a longer reach_ns, or a smaller tx, rx or err of the modules"),
}
IN_TICKS = "57"


def program():
    """The program to run: what the environment names as WRNET, else the built one; None if there is none."""
    named = os.environ.get("WRNET")
    return named or (BUILT if os.access(BUILT, os.X_OK) else None)


def run(path, words, octets, seconds=60):
    """Runs the program: its status and its output."""
    try:
        ran = subprocess.run([path, *words], input=octets, stdout=subprocess.PIPE, stderr=subprocess.DEVNULL, timeout=seconds)
    except OSError as it:
        raise Fault(f"the program {path} does not start: {it.strerror}") from None
    except subprocess.TimeoutExpired:
        raise Fault(f"the program {path} did not answer within {seconds} s") from None
    return ran.returncode, ran.stdout.decode("ascii", "replace").splitlines()


def bounds(path, network):
    """The BOUND of each node as the program prints it for a network text, or its last line if it refuses that."""
    octets = network.encode() if isinstance(network, str) else network
    status, lines = run(path, ["simulate", "--seed", "1"], octets + b"\n---\nlength,0\n")
    if status in (2, 8) and lines and lines[-1].startswith(("bad-network ", "too-large ")):
        return lines[-1]
    sums = [it.split() for it in lines]
    found = {it[0]: int(it[5]) for it in sums if len(it) == 7 and it[1] == "sum" and it[5].isdigit()}
    if status or not found:
        raise Fault(f"the program {path} ends with status {status}, and prints no bounds: is it wrnet?")
    return found


def shown(side, number):
    """A side of an inequality: a time, or a count."""
    return side if number in IN_TICKS else spelled(int(side))


def clash(place):
    found = re.fullmatch(r"c([1-9]):(-?\d+):(-?\d+)", place)
    if not found:
        return f"the inequality {place} does not hold"
    number, left, right = found.groups()
    what, change = INEQUALITIES[number]
    return f"`{what}` does not hold, with {shown(left, number)} on its left and {shown(right, number)} on its right: take {change}"


def in_short(line):
    """A refusal in a few words."""
    found = re.fullmatch(r"bad-network 10 Clash c([1-9]):.*", line)
    return f"refused: {INEQUALITIES[found[1]][0]} would not hold" if found else f"refused: {line}"


def table_at(file, place):
    """The kind and the table of a place, as module.2.pair.1, and the last key in it, if any."""
    parts = place.split(".")
    kind, table = parts[0], file.get(parts[0]) if isinstance(file, dict) else None
    if kind == "network":
        return kind, table, parts[1] if len(parts) > 1 else None
    at = 1
    while at < len(parts) and parts[at].isdigit() and isinstance(table, list) and int(parts[at]) <= len(table):
        table = table[int(parts[at]) - 1]
        at += 1
        if at < len(parts) and parts[at] == "pair" and isinstance(table, dict) and at + 1 < len(parts) and parts[at + 1].isdigit():
            table = table.get("pair")
            at += 1
    return kind, table, parts[at] if at < len(parts) else None


def called(table, place):
    """A place with the name of its table beside it."""
    name = table.get("name") if isinstance(table, dict) else None
    return f"{place} of {name}" if isinstance(name, str) else place


def keys_of(file, place):
    """The keys that the table of a place may have."""
    kind = place.split(".")[0]
    if kind == "top":
        return ["version", "network", "node", "link", "module", "fibre"]
    is_new = file.get("version", 1) == 2
    if kind != "module" or not is_new:
        return [*OTHERS.get(kind, ["name"]), *KEYS.get(kind, {})]
    return ["tx_nm", "rx_nm", *KEYS["module"]] if ".pair." in place else ["name", "pair"]


def unknown_key(file, place):
    table, known = file if place == "top" else table_at(file, place)[1], keys_of(file, place)
    odd = [it for it in table if it not in known] if isinstance(table, dict) else []
    if odd:
        return f"{called(table, place)} may not have the key {odd[0]}: it may have {', '.join(known)}"
    return f"{called(table, place)} may have table_err only beside a table"


def out_of_range(file, place):
    kind, table, key = table_at(file, place)
    about = None if key and key.endswith("_nm") else KEYS.get(kind, {}).get(key)
    has = f" is {table[key]!r}" if isinstance(table, dict) and key in table else ""
    if about:
        in_words = f" ({spelled(about.least * UNITS[about.unit])} to {spelled(about.greatest * UNITS[about.unit])})" if about.unit in UNITS else ""
        unit = f" {about.unit}" if about.unit else ""
        return f"{called(table, place)}{has}, and has to be a whole number from {about.least} to {about.greatest}{unit}{in_words}"
    if key and key.endswith("_nm"):
        return f"{called(table, place)}{has}: a wavelength is 800 to 1700 nm, or both of a pair are 0 or missing"
    return f"{called(table, place)}{has}: that is of another sort than the key takes, out of its range, or a name that is not listed for it"


def too_long(it):
    """A whole number in the file that does not fit 64 bits, if there is one."""
    if isinstance(it, (dict, list)):
        found = (too_long(part) for part in (it.values() if isinstance(it, dict) else it))
        return next((part for part in found if part is not None), None)
    return it if isinstance(it, int) and not -(2**63) <= it < 2**63 else None


def syntax(octets):
    """What is no TOML in a text, with the line and the column that Python's tomllib names."""
    try:
        long = too_long(parsed(decoded(octets)))
    except Fault as it:
        return str(it)
    if long is not None:
        return f"the number {long} does not fit 64 bits"
    return "Python's tomllib takes this text, and so names no place in it"


TREE = {
    "NotATree": "has no parent and is not the first such node, or the way up from it comes back to it: each node but the grandmaster is the lower end of one link",
    "TwoSlaves": "is the lower end of two links",
    "TooDeep": "is more than 8 links below the grandmaster",
}


def explained(line, octets):
    """A refusal of a network text, in a sentence."""
    words = line.split(" ", 3)
    if words[0] != "bad-network" or len(words) < 4:
        return f"{line}: the network text has more than 262,144 bytes"
    name, place = words[2], words[3]
    if name == "Syntax":
        return f"{line}: {syntax(octets)}"
    try:
        file = parsed(decoded(octets))
    except Fault:
        return line
    if name == "Clash":
        return f"{line}: {clash(place)}"
    if name in TREE:
        return f"{line}: {called(table_at(file, place)[1], place)} {TREE[name]}"
    if name == "UnknownKey":
        return f"{line}: {unknown_key(file, place)}"
    if name == "Missing":
        return f"{line}: {called(table_at(file, place)[1], place)} has to be there"
    if name == "Twice":
        return f"{line}: {called(table_at(file, place)[1], place)} repeats a name, an identity, a port or a pair of wavelengths that came before"
    return f"{line}: {out_of_range(file, place)}"
