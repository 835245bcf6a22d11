"""What the tools that read the lines of a run take and write: the words of the command, the lines, the network file, the output."""
import argparse
import contextlib
import math
import os
import sys

from network import network_of, network_text
from run_lines import Refused


class Words(argparse.ArgumentParser):
    """Words of the command line of a tool. What is wrong with them is one sentence, and the status 1."""

    def error(self, message):
        raise Refused(f"{message}; {self.prog} -h says what there is")


def seconds(word):
    """A time of the command line."""
    if not math.isfinite(float(word)):
        raise ValueError(word)
    return float(word)


def text_of(path):
    """The lines of a file, or of standard input."""
    what = "standard input" if path == "-" else path
    try:
        if path != "-":
            with open(path, encoding="ascii", newline="\n") as it:
                yield from it
        elif sys.stdin is None:
            raise Refused("standard input is closed")
        else:
            sys.stdin.reconfigure(encoding="ascii", newline="\n")
            yield from sys.stdin
    except UnicodeDecodeError:
        raise Refused(f"{what} is no text that the program prints: it has bytes from 128 on") from None
    except OSError as it:
        raise Refused(f"{what}: {it.strerror}") from None


def read_network(path):
    """The network of a file, by which bounds can be computed."""
    try:
        network = network_of(network_text(path))
        tick_and_period(network)
        fibres = [it["name"] for it in network.file.get("fibre", [])]
        for name, link in network.above.items():
            if link["fibre"] not in fibres:
                raise Refused(f"{path}: the link above {name} names the fibre {link['fibre']}, which is not listed")
            network.holdover(name)
        return network
    except OSError as it:
        raise Refused(f"{path}: {it.strerror}") from None
    except UnicodeDecodeError:
        raise Refused(f"{path} is no text") from None
    except ValueError as it:
        raise Refused(f"{path}: {it}") from None
    except (KeyError, TypeError, AttributeError, StopIteration, RecursionError):
        raise Refused(f"{path} is no network file: ./wrnet simulate --seed 1 < {path} names its fault") from None


def tick_and_period(network):
    """The nominal tick of a network in s, and the period of its clocks in ps."""
    numbers = network.numbers if network else {}
    return (numbers.get("dmin_ns", 9_000_000) + numbers.get("dmax_ns", 11_000_000)) / 2e9, numbers.get("period_ps", 8000) + 0


def write(text):
    """Writes to standard output, and says nothing of a reader that went away."""
    if sys.stdout is None:
        raise Refused("standard output is closed")
    try:
        sys.stdout.write(text)
        sys.stdout.flush()
    except OSError as it:
        os.dup2(os.open(os.devnull, os.O_WRONLY), sys.stdout.fileno())
        if not isinstance(it, BrokenPipeError):
            raise Refused(f"standard output: {it.strerror}") from None


def say(sentence):
    """Writes to standard error, if there is one."""
    with contextlib.suppress(OSError):
        print(sentence, file=sys.stderr or open(os.devnull, "w"))
