"""What the program is measured on: each input is a text or a capture that is made here, from the examples of this
repository and from nothing else. What needs the events of a simulated network gets them from `events.py`."""
import os
import struct
import subprocess

import events

TOP = os.path.dirname(os.path.dirname(os.path.realpath(__file__)))
PROGRAM = os.environ.get("WRNET", f"{TOP}/crates/wrnet/out/wrnet")
MILLION = 1_000_000

MODULES = """[[module]]
name = "blue"
tx = 14745600000
rx = 14745600000
transition = 0
err = 1310720
[[module]]
name = "violet"
tx = 14811136000
rx = 14876672000
transition = 0
err = 1310720
[[fibre]]
name = "smf"
kappa = 73622176
err = 1310720
"""


def example(name):
    """The network text of an example, and its records."""
    with open(f"{TOP}/examples/{name}") as file:
        network, _, records = file.read().partition("---\n")
    return network, records


def output(words, text):
    """What the program writes."""
    return subprocess.run([PROGRAM, *words], input=text, stdout=subprocess.PIPE, text=True, check=True).stdout


def tree(count):
    """A network of so many nodes in three levels: the grandmaster, a switch for each eight leaves, and the leaves."""
    switches = -(-(count - 1) // 9)
    names = ["gm"] + [f"sw{n}" for n in range(switches)] + [f"leaf{n}" for n in range(count - 1 - switches)]
    text = "".join(f'[[node]]\nname = "{name}"\nidentity = "001bc5fffe{n + 1:06x}"\n' for n, name in enumerate(names))
    for n, name in enumerate(names[1:]):
        leaf = n - switches
        upper = f"gm:{n + 1}" if leaf < 0 else f"sw{leaf % switches}:{2 + leaf // switches}"
        text += f'[[link]]\nname = "f{n}"\nupper = "{upper}"\nlower = "{name}:1"\nfibre = "smf"\n'
        text += 'upper_module = "blue"\nlower_module = "violet"\n'
    return names, text + MODULES


def tree_run(count, length):
    """A run of such a network for so many ms: each node has its own offset and rate, each fibre its length."""
    names, network = tree(count)
    lines = [f"length,{length}"]
    for n, name in enumerate(names[1:]):
        lines += [f"fibre,f{n},{6_000_000_000_000 + n * 10_000_000_000}", f"offset,{name},{(n + 1) * 1_000_003}"]
        lines.append(f"free,{name},{(n % 5 - 2) * 9_000}")
    return network + "---\n" + "\n".join(lines) + "\n"


def three_run(length, is_cut=True):
    """The run of the example of three nodes, for so many ms; at 50 s the upper fibre is cut, or it is not."""
    network, scenario = example("simulation.txt")
    lines = [line for line in scenario.splitlines() if not line.startswith("length") and (is_cut or "cut" not in line)]
    return network + "---\n" + "\n".join([f"length,{length}", *lines]) + "\n"


def many_fibres():
    """A run of no length of the example of three nodes, with a calibration database of 6,000 fibres."""
    network, _ = example("simulation.txt")
    fibres = "".join(f'[[fibre]]\nname="x{n}"\nkappa=1\nerr=9\n' for n in range(5_999))
    return network + fibres + "---\nlength,0\n"


def ticks(network):
    """A million ticks of a node."""
    return network + "---\n" + "tick\n" * MILLION


def handshakes():
    """10,000 handshakes of a slave with its samples."""
    network, records = example("handshake.txt")
    return network + "---\n" + records * 10_000


def to_track():
    """100,000 lines of a node that goes from a reset to TRACK again and again."""
    network, records = example("audit.txt")
    way = "reset\n" + output(["audit", "--emit", "sw1"], network + "---\n" + records)
    lines = (way * (1 + 100_000 // way.count("\n"))).splitlines()[:100_000]
    return network + "---\n" + "\n".join(lines) + "\n"


def lonely_ticks():
    """A million events of two nodes that tick without a link."""
    network, _ = example("two-nodes.toml")
    one = "pass,655360000000000,sw1=4096\ntick,gm\ntick,sw1\n"
    return network + "---\nup,gm,0\nup,sw1,0\n" + one * (MILLION // 3)


def messages():
    """The eight messages of a handshake as frames, the slave's and the master's, with their senders' and targets' ports."""
    found = []
    for name, node in (("handshake.txt", "sw1"), ("handshake-of-the-master.txt", "gm")):
        network, records = example(name)
        written = output(["replay", "--node", node], network + "---\n" + records)
        found += [line.split()[-1] for line in written.splitlines() if " send " in line]
    frames = [bytes.fromhex(it) for it in found]
    signals = {}
    for frame in frames:
        if frame[0] & 15 == 12:
            signals.setdefault((frame[20:30], frame[54:56]), frame)
    return signals


def handshake():
    """Those messages in their order, as pairs of whether the slave sends it and the frame."""
    signals = messages()
    ends = {end for end, _ in signals}
    slave = next(end for end, word in signals if word == b"\x10\x00")
    master = next(iter(ends - {slave}))
    order = [(slave, 0x1000), (master, 0x1001), (slave, 0x1002), (master, 0x1003), (master, 0x1004), (slave, 0x1003), (slave, 0x1004), (master, 0x1005)]
    return [(end == slave, signals[end, struct.pack(">H", word)]) for end, word in order]


def packet(is_slave, frame, number, sequence):
    """A packet of a capture: the frame as one between the pair of ports of this number."""
    master = b"\x02\xaa" + struct.pack(">I", number) + b"\x00\x01\x00\x01"
    slave = b"\x02\xbb" + struct.pack(">I", number) + b"\x00\x02\x00\x01"
    source, target = (slave, master) if is_slave else (master, slave)
    frame = frame[:20] + source + struct.pack(">H", sequence & 0xFFFF) + frame[32:34] + target + frame[44:]
    octets = b"\x01\x1b\x19\x00\x00\x00" + source[:6] + b"\x88\xf7" + frame
    return struct.pack(">IIII", number, 0, len(octets), len(octets)) + octets


def capture(one):
    """A capture of 100 MB, packet by packet."""
    octets = bytearray(struct.pack(">IHHIIII", 0xA1B2C3D4, 2, 4, 0, 0, 262_144, 1))
    number = 0
    while len(octets) < 100 * MILLION:
        octets += one(number)
        number += 1
    return bytes(octets)


def old_pairs():
    """Handshakes side by side over 64 pairs of ports."""
    way = handshake()
    return capture(lambda k: packet(*way[k // 64 % 8], k % 64, k // 512))


def new_pairs():
    """The SLAVE_PRESENT of a new pair each, which is kept of each pair."""
    first = handshake()[0]
    return capture(lambda k: packet(*first, k, k))


def audited(run):
    """The audit of a run's events."""
    network = run.partition("---\n")[0]
    return network + "---\n" + events.of_run(PROGRAM, run)


REPLAY = ["replay", "--node", "sw1"]
SIMULATE = ["simulate", "--seed", "1"]

# The name of each input, the words of its command, and what makes it.
INPUTS = {
    "replay-ticks": (REPLAY, lambda: ticks(example("two-nodes.toml")[0])),
    "replay-handshakes": (REPLAY, handshakes),
    "replay-track": (REPLAY, to_track),
    "audit-example": (["audit"], lambda: "---\n".join(example("audit.txt"))),
    "audit-emit-example": (["audit", "--emit", "sw1"], lambda: "---\n".join(example("audit.txt"))),
    "audit-ticks": (["audit"], lonely_ticks),
    "audit-three-120s": (["audit"], lambda: audited(three_run(120_000))),
    "audit-three-1200s": (["audit"], lambda: audited(three_run(1_200_000))),
    "audit-three-1200s-uncut": (["audit"], lambda: audited(three_run(1_200_000, False))),
    "audit-8-5s": (["audit"], lambda: audited(tree_run(8, 5_000))),
    "audit-32-5s": (["audit"], lambda: audited(tree_run(32, 5_000))),
    "audit-64-5s": (["audit"], lambda: audited(tree_run(64, 5_000))),
    "simulate-three-120s": (SIMULATE, lambda: three_run(120_000)),
    "simulate-three-1200s": (SIMULATE, lambda: three_run(1_200_000)),
    "simulate-three-10000s": (SIMULATE, lambda: three_run(10_000_000)),
    "simulate-4-5s": (SIMULATE, lambda: tree_run(4, 5_000)),
    "simulate-8-5s": (SIMULATE, lambda: tree_run(8, 5_000)),
    "simulate-16-5s": (SIMULATE, lambda: tree_run(16, 5_000)),
    "simulate-32-5s": (SIMULATE, lambda: tree_run(32, 5_000)),
    "simulate-64-5s": (SIMULATE, lambda: tree_run(64, 5_000)),
    "simulate-6000-fibres": (SIMULATE, many_fibres),
    "loop-three-120s": (["loop", "--seed", "1"], lambda: three_run(120_000)),
    "inspect-old-pairs": (["inspect"], old_pairs),
    "inspect-new-pairs": (["inspect"], new_pairs),
}
