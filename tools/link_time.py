"""How long link setup takes at most, and whether the timers of a network are long enough for that.

The law is proved for one link (`comes_up` and `comes_up_in_turn` of wrp_link_up_laws); docs/OPERATING.md, "How long until the link
is up", has it with its letters. The sums are made here. All times are in ns."""
import re

from keys import KEYS
from network import Fault, is_number

SOURCE = "the law is proved; this sum is the tool's"
KEPT, NOT_KEPT = "messages keep their order", "messages may overtake each other"
FORMULAS = {KEPT: "(Q + 2) * dmax + A + K + 6 * D", NOT_KEPT: "(Q + 2 * wait + 2) * dmax + A + K + 6 * D"}


def lock_of(word):
    """The K that a word says in seconds, in ns."""
    if not re.fullmatch(r"\d{1,9}(\.\d{1,9})?", word):
        raise Fault(f"--lock takes a time in seconds with at most 9 digits after the point, as 1.5, and not {word}")
    whole, _, part = word.partition(".")
    return int(whole) * 10**9 + int(part.ljust(9, "0"))


def seconds(ns):
    """A time in seconds, exactly, with 3 digits after the point or as many as it needs."""
    whole, part = divmod(ns, 10**9)
    return f"{whole}.{f'{part:09}'.rstrip('0'):0<3} s"


class Broken:
    """An inequality that does not hold, with both sides, and each number that would make it hold by itself: its key, its value
    and the value that it has to have at least."""

    def __init__(self, what, left, right, causes):
        self.what, self.left, self.right = what, left, right
        self.causes = [it for it in causes if it[2] is not None and it[2] <= KEYS["network"][it[0]].greatest]

    def __str__(self):
        fixes = " or ".join(f"{key} is {now} and has to be at least {least}" for key, now, least in self.causes)
        sides = f"with {seconds(self.left)} on its left and {seconds(self.right)} on its right"
        return f"`{self.what}` does not hold, {sides}" + (f": {fixes}" if fixes else "")


class LinkTime:
    """The times of a link of a network, both ends with the counts of [network]; K is None if it is not known."""

    def __init__(self, file, lock):
        self.lock = lock
        numbers = file.get("network", {})
        self.counts = {}
        for key in ("dmin_ns", "dmax_ns", "life_ns", "quiet", "wait", "lock_wait", "retries", "announce"):
            about = KEYS["network"][key]
            value = numbers.get(key, about.default)
            if not is_number(value) or not about.least <= value <= about.greatest:
                raise Fault(f"network.{key} is {value!r}, and has to be a whole number from {about.least} to {about.greatest}")
            self.counts[key] = value
        self.dmin, self.dmax, self.delay = (self.counts[key] for key in ("dmin_ns", "dmax_ns", "life_ns"))
        self.announce = self.counts["announce"] * self.dmax + self.delay

    def time(self, order):
        """The stated time, without K if K is not known."""
        waits = 0 if order == KEPT else 2 * self.counts["wait"]
        return (self.counts["quiet"] + waits + 2) * self.dmax + self.announce + 6 * self.delay + (self.lock or 0)

    def said(self, order):
        return seconds(self.time(order)) + (" and K" if self.lock is None else "")

    def patience(self, key):
        """How long a timer lasts at least with all its retries."""
        return self.counts[key] * (1 + self.counts["retries"]) * self.dmin

    def longest_lock(self):
        """K has to be below this."""
        return self.patience("lock_wait") - 2 * self.delay - self.dmin

    def inequalities(self, order):
        """The inequalities of the law, in the order of the page."""
        wait, retries, lock_wait = (self.counts[key] for key in ("wait", "retries", "lock_wait"))
        two, round_trip = self.dmin * (1 + retries), 2 * self.delay + self.dmin
        if order == NOT_KEPT:
            left = self.delay + self.dmin
            yield "D + dmin < wait * dmin", left, wait * self.dmin, [("wait", wait, left // self.dmin + 1)]
            left = (wait + 1) * self.dmax + round_trip
            longer = (self.dmax + round_trip) // (two - self.dmax) + 1 if two > self.dmax else None
            causes = [("retries", retries, left // (wait * self.dmin)), ("wait", wait, longer)]
            yield "(wait + 1) * dmax + 2 * D + dmin < wait * (1 + retries) * dmin", left, self.patience("wait"), causes
        else:
            left = self.dmax + round_trip
            causes = [("retries", retries, left // (wait * self.dmin)), ("wait", wait, left // two + 1)]
            yield "dmax + 2 * D + dmin < wait * (1 + retries) * dmin", left, self.patience("wait"), causes
        left = (self.lock or 0) + round_trip
        causes = [("lock_wait", lock_wait, left // two + 1), ("retries", retries, left // (lock_wait * self.dmin))]
        yield "K + 2 * D + dmin < lock_wait * (1 + retries) * dmin", left, self.patience("lock_wait"), causes

    def broken(self, order):
        """The first inequality that does not hold, if there is one; without K, the last is tried with a K of nothing."""
        return next((Broken(*it) for it in self.inequalities(order) if it[1] >= it[2]), None)


def warnings(file):
    """What to say of timers that are too short for the law, whatever K is."""
    times = LinkTime(file, None)
    for order in (KEPT, NOT_KEPT):
        broken = times.broken(order)
        if broken:
            yield f"no time to the link up is stated where {order}: {broken}"


def show(network, names, path, lock):
    """Prints the times of the links above some nodes."""
    times = LinkTime(network.file, lock)
    counts = times.counts
    print(f"{'standard input' if path == '-' else path}: how long until a link is up at the latest, if no frame is lost ({SOURCE})")
    print(f"  dmin {seconds(times.dmin)}, dmax {seconds(times.dmax)}, D = life {seconds(times.delay)}, Q = quiet {counts['quiet']}, "
          f"wait {counts['wait']}, lock_wait {counts['lock_wait']}, retries {counts['retries']}")
    print(f"  A = announce * dmax + D = {counts['announce']} * {seconds(times.dmax)} + {seconds(times.delay)} = {seconds(times.announce)}")
    print(f"  K {'is not known; --lock SECONDS says it' if lock is None else seconds(lock)}")
    for name in names:
        link = network.above[name]
        print(f"\n{link['name']}, {link['upper']} to {link['lower']}")
        if link.get("wr", True) is False:
            print("  never: wr = false")
            continue
        for order, formula in FORMULAS.items():
            broken = times.broken(order)
            print(f"  {'no time stated' if broken else times.said(order)}, where {order}: {broken or formula}")
        if lock is None and times.longest_lock() > 0:
            print(f"  K has to be below {seconds(times.longest_lock())}")
        print("  after its carriers came")


def records(network, names, lock):
    """The same as records, times in ns; a time is without K if K is not known."""
    times = LinkTime(network.file, lock)
    for name in names:
        link = network.above[name]
        for order in FORMULAS if link.get("wr", True) else ():
            broken = times.broken(order)
            yield {"link": link["name"], "upper": link["upper"], "lower": link["lower"], "where": order, "ns": None if broken else times.time(order),
                   "lock_ns": lock, "lock_below_ns": max(times.longest_lock(), 0), "broken": str(broken) if broken else None, "source": SOURCE}
