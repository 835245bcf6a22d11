"""A capture in the classic pcap format, as tools/records reads it: each packet's time, its PTP frame and what `wrnet inspect`
says of it."""
import os
import re
import struct
import subprocess

TOP = os.path.dirname(os.path.dirname(os.path.realpath(__file__)))
BUILT = f"{TOP}/crates/wrnet/out/wrnet"
# The magic as the first four bytes of a file: the order of the bytes of its numbers, and the ns of a fraction's unit.
MAGICS = {b"\xd4\xc3\xb2\xa1": ("<", 1000), b"\xa1\xb2\xc3\xd4": (">", 1000), b"\x4d\x3c\xb2\xa1": ("<", 1), b"\xa1\xb2\x3c\x4d": (">", 1)}
PTP, VLAN = b"\x88\xf7", b"\x81\x00"
LINE = re.compile(r"(\d+) (?:fault (\d) ([a-z]+)|(sync|delay-req|follow-up|delay-resp|announce|signaling) ([0-9a-f]{16}):(\d+) \d+(?: ([a-z-]+))?)", re.A)
VERDICT = re.compile(r"(\d+) link ([0-9a-f]{16}):(\d+) ([0-9a-f]{16}):(\d+) (complete|restarted|missing)( \d+)+", re.A)
SUM = re.compile(r"sum \d+ \d+ \d+ \d+ \d+", re.A)
REASONS = {
    "Magic": "this is no classic pcap: of a pcapng file `editcap -F pcap in.pcapng out.pcap` makes one, and gunzip of a compressed one",
    "LinkType": "the packets are not of Ethernet, as in a capture of all interfaces (-i any): capture at one, as -i eth0",
    "Long": "the file is damaged: a packet of more than 262,144 bytes",
}


class Refused(Exception):
    """What cannot be done, and the sentence that says why."""


class Packet:
    """A packet: its number, its time in ns, its PTP frame or None, and what inspect says of it: the message, or the fault."""

    def __init__(self, number, time, frame):
        self.number, self.time, self.frame = number, time, frame
        self.kind = self.fault = None

    def sender(self):
        """The sourcePortIdentity, as inspect writes it, or None if the frame is too short to have one."""
        return port_identity(self.frame, 20)

    def target(self):
        """The targetPortIdentity of a Signaling."""
        return port_identity(self.frame, 34)

    def domain(self):
        return self.frame[4]


def port_identity(frame, at):
    if len(frame) < at + 10:
        return None
    return f"{frame[at : at + 8].hex()}:{int.from_bytes(frame[at + 8 : at + 10])}"


def program():
    """The program to run: what the environment names as WRNET, or else the built one. The launcher ./wrnet would prove it first."""
    named = os.environ.get("WRNET") or BUILT
    if not os.access(named, os.X_OK) or os.path.isdir(named):
        raise Refused(f"there is no program {named}: ./wrnet proves and builds it, and WRNET in the environment names another")
    return named


def ask(words, octets):
    """The status and the lines of the program for these words and this input."""
    try:
        ran = subprocess.run([program(), *words], input=octets, stdout=subprocess.PIPE, stderr=subprocess.DEVNULL)
    except OSError as it:
        raise Refused(f"the program {program()} does not start: {it.strerror}") from None
    return ran.returncode, ran.stdout.decode("ascii", "replace").splitlines()


def frame_of(octets):
    """The PTP frame of a packet, from its header on, or None if it carries none."""
    at = 16 if octets[12:14] == VLAN else 12
    return octets[at + 2 :] if octets[at : at + 2] == PTP else None


def packets_of(octets):
    """The packets of a capture that inspect accepts, and the place at which the last whole one ends."""
    order, unit = MAGICS.get(octets[:4], ("<", 1))
    found, at = [], 24
    while at + 16 <= len(octets):
        seconds, fraction, length, _ = struct.unpack_from(f"{order}IIII", octets, at)
        if at + 16 + length > len(octets):
            break
        found.append(Packet(len(found) + 1, seconds * 10**9 + fraction * unit, frame_of(octets[at + 16 : at + 16 + length])))
        at += 16 + length
    return found, at


def refusal(line, octets, what):
    """A refusal of inspect, in a sentence."""
    _, packet, _, name = line.split(" ")
    if name in ("Header", "Packet"):
        end = packets_of(octets)[1]
        return f"{what}: {line}: the file is cut in packet {packet}; head -c {end} has the whole packets before it"
    return f"{what}: {line}: {REASONS.get(name, 'the file is damaged')}"


def read_capture(octets, what):
    """The packets of a capture, and inspect's lines about whole handshakes."""
    if not octets:
        raise Refused(f"{what} is empty")
    status, lines = ask(["inspect"], octets)
    if status == 10 and lines and re.fullmatch(r"bad-capture \d+ \d [A-Za-z]+", lines[-1]):
        raise Refused(refusal(lines[-1], octets, what))
    if status or not lines or not SUM.fullmatch(lines[-1]):
        raise Refused(f"the program {program()} ends with status {status} and no sum line: is it wrnet?")
    packets, verdicts = packets_of(octets)[0], []
    for line in lines[:-1]:
        if found := LINE.fullmatch(line):
            packet = packets[int(found[1]) - 1]
            packet.fault = found[3]
            packet.kind = found[7] or found[4]
        elif found := VERDICT.fullmatch(line):
            verdicts.append(found)
    return packets, verdicts
