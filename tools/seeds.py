"""Runs of `simulate` with many seeds, one after the other, as tools/campaign starts them on each machine.

It is started with the program, an input, the number of the input, and the first and the last seed. It uses no other file, since a
machine gets it without the other tools. For each run it prints one line:

    INPUT SEED STATUS NODE:PORT:LINK_ON:TRACK:TRACKS:WORST:BOUND:STATE ..

with the ticks of the first `link-on` of each port and of the first `track` of the servo, or `-` if there is none. Of a run
that ends with another status than 0 there are no nodes."""
import re
import signal
import subprocess
import sys

LINK_ON = re.compile(r"(\w+) (\d+) link (\d+) link-on", re.A)
IN_TRACK = re.compile(r"(\w+) (\d+) servo track", re.A)
SUM = re.compile(r"(\w+) sum \d+ (\d+) (\d+) (\d+) ([a-z-]+)", re.A)


def summed(lines):
    """What the lines of a run say of each node."""
    link_on, in_track, found = {}, {}, []
    for line in lines:
        if it := LINK_ON.fullmatch(line):
            link_on.setdefault(it[1], {}).setdefault(it[3], it[2])
        elif it := IN_TRACK.fullmatch(line):
            in_track.setdefault(it[1], it[2])
        elif it := SUM.fullmatch(line):
            ports = "+".join(f"{port}@{tick}" for port, tick in link_on.get(it[1], {}).items())
            found.append(":".join([it[1], ports or "-", in_track.get(it[1], "-"), *it.groups()[1:]]))
    return found


def main(words):
    program, path, number, first, last = words
    for seed in range(int(first), int(last) + 1):
        with open(path, "rb") as octets:
            ran = subprocess.run([program, "simulate", "--seed", str(seed)], stdin=octets, stdout=subprocess.PIPE, stderr=subprocess.DEVNULL)
        lines = ran.stdout.decode("ascii", "replace").splitlines()
        print(number, seed, ran.returncode, *(summed(lines) if ran.returncode == 0 else []), flush=True)


if __name__ == "__main__":
    signal.signal(signal.SIGINT, signal.SIG_DFL)
    main(sys.argv[1:])
