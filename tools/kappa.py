"""The asymmetry of two strands from the records of `calibrate`: by its rule, and the exact interval that the records allow.

The delays of the ports p and q and of the strands x and y keep the stated errors if each of these is in an interval: p, q, p + x,
q + y, p + y and q + x. With p and q negated each of them is the difference of two unknowns, or of an unknown and 0. So the shortest
ways between the unknowns give the least and the greatest of each difference, among them x - y, in which p and q cancel."""
from network import Fault

SCALE, HALF = 2**40, 2**39
KINDS = ("ref", "straight", "swapped")


def asymmetry(low, high):
    """The interval of kappa between two shares of x in x + y, each as a pair (x, y), rounded outward."""
    return low[0] * SCALE // sum(low) - HALF, -(-high[0] * SCALE // sum(high)) - HALF


def by_the_rule(x, y):
    """The interval of kappa that `calibrate` prints: x and y anywhere in their intervals."""
    return asymmetry((x[0], y[1]), (x[1], y[0]))


class Records:
    """The records of a calibration that the program answered: the errors, and of each kind of runs and each way the intersection
    of the intervals about the measured delays."""

    def __init__(self, text):
        try:
            rows = [(it[0], *map(int, it[1:])) for it in (line.strip().split(",") for line in text.splitlines())]
            (_, self.error), (_, cord, cord_error), *runs = rows
            sums = {kind: [(t2 - t1 - skew, t4 - t3 + skew) for it, t1, t2, t3, t4, skew in runs if it == kind] for kind in KINDS}
            self.sums = {kind: [self.within(way) for way in zip(*sums[kind])] for kind in KINDS}
            self.p, self.q = ((low - cord - cord_error, high - cord + cord_error) for low, high in self.sums["ref"])
        except (ValueError, IndexError, TypeError):
            raise Fault("these records are none that calibrate answers") from None

    def within(self, delays):
        return max(delays) - self.error, min(delays) + self.error

    def strands(self):
        """The intervals of x and y as `calibrate` has them."""
        (f, g), (h, k) = self.sums["straight"], self.sums["swapped"]
        found = [(f, self.p, k, self.q), (h, self.p, g, self.q)]
        return [(max(a[0] - p[1], b[0] - q[1]), min(a[1] - p[0], b[1] - q[0])) for a, p, b, q in found]

    def closed(self):
        """The greatest value of each difference of two of 0, x, y, -p and -q, or None if no delays keep the errors."""
        zero, x, y, p, q = range(5)
        (f, g), (h, k) = self.sums["straight"], self.sums["swapped"]
        greatest = {(a, b): 0 if a == b else None for a in range(5) for b in range(5)}
        for a, b, (low, high) in ((zero, p, self.p), (zero, q, self.q), (x, p, f), (y, q, g), (y, p, h), (x, q, k)):
            greatest[a, b], greatest[b, a] = high, -low
        for middle in range(5):
            for a in range(5):
                for b in range(5):
                    first, then, now = greatest[a, middle], greatest[middle, b], greatest[a, b]
                    if first is not None and then is not None and (now is None or first + then < now):
                        greatest[a, b] = first + then
        return None if any(greatest[it, it] < 0 for it in range(5)) else greatest

    def exact(self):
        """The exact interval of kappa, rounded outward, or None if no delays keep the errors of all records together. The share of
        x grows with x and falls as y grows, so its ends are at corners."""
        greatest = self.closed()
        if greatest is None:
            return None
        zero, x, y = range(3)
        x_high, x_low, y_high, y_low = greatest[x, zero], -greatest[zero, x], greatest[y, zero], -greatest[zero, y]
        most, least = greatest[x, y], -greatest[y, x]
        high = [(x_high, y_low)] if x_high - y_low <= most else [(x_high, x_high - most), (y_low + most, y_low)]
        low = [(x_low, y_high)] if x_low - y_high >= least else [(x_low, x_low - least), (y_high + least, y_high)]
        return min(asymmetry(it, it)[0] for it in low), max(asymmetry(it, it)[1] for it in high)
