"""Reads the case files of the program of cases, whose format docs/CASES.md describes: their texts, and the words and the input of each case."""
import os
import re
import sys

TOP = os.path.dirname(os.path.dirname(os.path.dirname(os.path.realpath(__file__))))
DATA = f"{TOP}/crates/wrp_run_cases/data"
PROGRAM = os.environ.get("WRNET", f"{TOP}/crates/wrnet/out/wrnet")
PARTS = ("words", "word", "room", "source", "sink", "gives", "takes", "left", "calls", "link_call", "status")


def is_missing(tool, program=PROGRAM, how="./wrnet builds it"):
    """Whether the program is not there; then standard error says so."""
    if os.path.isfile(program) and os.access(program, os.X_OK):
        return False
    print(f"{tool}: there is no program {program}; {how}", file=sys.stderr)
    return True


class Case:
    """A case, or a text: its kind and name, its words, its input, the expected number, and what it sets."""

    def __init__(self, kind, name):
        self.kind, self.name, self.words, self.input, self.status, self.sets = kind, name, [], b"", 0, {}
        self.cut, self.put = [], []


def piece(texts, how, rest):
    """The bytes that a line of an input stands for."""
    if how == "":
        return rest.encode() + b"\n"
    if how == "-":
        return rest.encode()
    if how == "x":
        return bytes.fromhex(rest)
    if how == "@":
        return texts[rest]
    if how.startswith("-"):
        return rest.encode() * int(how[1:])
    return (rest.encode() + b"\n") * int(how)


def take(case, texts, head, rest):
    """Takes a line of a case."""
    if head.startswith("<"):
        case.input += piece(texts, head[1:], rest)
    elif head == "words":
        case.words += rest.split()
    elif head == "word":
        case.words.append(rest)
    elif head == "-":
        case.cut.append(rest)
    elif head == "+":
        case.put.append(rest)
    elif head == "status":
        case.status = int(rest)
    elif head in PARTS:
        case.sets[head] = int(rest)


def ended(case, texts):
    """A case, or a text, at its end."""
    if case.cut:
        case.input = case.input.replace("\n".join(case.cut).encode(), "\n".join(case.put).encode(), 1)
    if case.kind == "text":
        texts[case.name] = case.input
    return case


def cases_of(name, texts):
    """The cases and the texts of a file; the texts of earlier files are given, and the texts of this one are added to them."""
    case, found = None, []
    with open(f"{DATA}/{name}", encoding="utf-8") as file:
        lines = file.read().split("\n")
    for line in lines:
        if line == "" or line.startswith("#"):
            continue
        head, _, rest = line.partition(" ")
        if re.match(r"[<>+-]", head) or head in PARTS:
            take(case, texts, head, rest)
            continue
        if case:
            found.append(ended(case, texts))
        case = None if head == "end" else Case(head, rest)
    return found


def all_cases():
    """All cases of the files that `args` names, and their texts."""
    texts, found = {}, []
    with open(f"{DATA}/../args", encoding="utf-8") as file:
        names = file.read().split()
    for name in names:
        found += [it for it in cases_of(name, texts) if it.kind != "text"]
    return found, texts
