"""A network file with other numbers: what the program answers for it, and the greatest value of a number that keeps a target."""
import asking
from keys import text, with_settings
from network import Fault, Network, decoded, parsed, sound

VALUE, NO_VALUE, NO_LIMIT = "value", "no value", "no limit"


class Asked:
    """A network file and what the program answers for it and for files that differ from it. Without a program the sums of
    the tool are the answers, and no file is refused."""

    def __init__(self, program, octets, settings):
        self.program, self.known, self.is_halved = program, {}, True
        first = asking.bounds(program, octets) if program else None
        if isinstance(first, str) and not (settings and first.startswith("bad-network 10 ")):
            raise Fault(f"the program refuses this network: {asking.explained(first, octets)}")
        given = sound(parsed(decoded(octets)))
        changed, self.changes = with_settings(given, settings)
        self.file = sound(changed)
        self.network = Network(self.file)
        self.bounds = self.of(self.file) if settings or not program else first
        if isinstance(self.bounds, str):
            raise Fault(f"with these settings the program refuses the network: {asking.explained(self.bounds, text(self.file).encode())}")
        self.before = (first or self.of(given)) if settings else None

    def of(self, file):
        """The bounds of the nodes of a file, or its refusal."""
        if self.program:
            return asking.bounds(self.program, text(file))
        network = Network(file)
        return {name: network.path(name) for name in network.nodes}

    def with_value(self, number, value):
        """The same with another value of a number."""
        if (number.label, value) not in self.known:
            self.known[number.label, value] = self.of(number.changed(self.file, value))
        return self.known[number.label, value]

    def halved(self, number):
        """The same with a number halved, in each place where it occurs."""
        other = number.changed(self.file, 0)
        for table, value in zip(number.tables(other), number.values(self.file)):
            table[number.key] = value // 2
        if number.label not in self.known:
            self.known[number.label] = self.of(other)
        return self.known[number.label]

    def accepts(self, number, value):
        return isinstance(self.with_value(number, value), dict)


class Greatest:
    """The greatest value of a number at which a node's path is at most a target and the network is accepted, if all other
    numbers stay; and what the program answers for the next value, or for the least one if there is no value.

    A path grows with each number, and an inequality of the network holds from some value of a number on, or up to some value.
    So the values that are accepted lie side by side, and so do the values that keep the target, from the least on."""

    def __init__(self, asked, number, name, target):
        self.asked, self.number, self.name, self.target = asked, number, name, target
        self.kind, self.value, self.next, self.answer = NO_VALUE, None, None, None
        choices = number.choices()
        kept = self.last(choices, lambda it: self.own_path(it) <= target)
        now = min(number.values(asked.file))
        found = None
        if kept is not None and asked.accepts(number, kept):
            found = kept
        elif kept is not None and kept > now:
            between = choices[choices.index(now) : choices.index(kept)]
            found = self.last(between, lambda it: asked.accepts(number, it))
        if found is None:
            self.next = self.first(choices, now)
        else:
            self.value = found
            self.kind = NO_LIMIT if found == choices[-1] else VALUE
            self.next = None if found == choices[-1] else choices[choices.index(found) + 1]
        if self.next is not None:
            self.answer = asked.with_value(number, self.next)
        self.test()

    def own_path(self, value):
        return Network(self.number.changed(self.asked.file, value)).path(self.name)

    def last(self, choices, holds):
        """The last of some values that holds, if the values that hold come first; None if none does."""
        low, high = 0, len(choices)
        while low < high:
            middle = (low + high) // 2
            low, high = (middle + 1, high) if holds(choices[middle]) else (low, middle)
        return choices[low - 1] if low else None

    def first(self, choices, now):
        """The least value that the program accepts, if it accepts the present one."""
        if self.asked.accepts(self.number, choices[0]):
            return choices[0]
        below = choices[: choices.index(now) + 1]
        refused = self.last(below, lambda it: not self.asked.accepts(self.number, it))
        return below[below.index(refused) + 1]

    def over(self, answer):
        return isinstance(answer, str) or answer[self.name] > self.target

    def test(self):
        """Whether what the program answered is what was looked for."""
        is_kept = self.value is None or not self.over(self.asked.with_value(self.number, self.value))
        is_last = self.answer is None or self.over(self.answer)
        if not (is_kept and is_last):
            raise Fault(f"the program's bounds of {self.name} do not go as these sums do, at {self.number.label} = {self.value}")
