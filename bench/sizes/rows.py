"""What a load took, as a row of a table, and what of it is over a bound."""

import math

from loads import MIB

MOST_GROWTH = 1.15
MOST_OF_THE_MAIL = 1.3
MOST_OF_A_MESSAGE = 300
COLUMNS = ["Load", "Size", "Seconds", "Exponent", "Page faults", "Peak, MiB", "Bytes a message", "Memory, of its bound"]


def shown(size):
    """A size in words: bytes are whole MiB."""
    return "%d MiB" % (size // MIB) if size % MIB == 0 else format(size, ",")


class Row:
    """What a load of a size took: the figures of its run and of an empty one, and what it was given."""

    def __init__(self, load, size, given, used, empty):
        self.name = "%s: %s" % (load.who, load.what)
        self.size, self.given = size, given
        self.seconds = used["time"] - empty["time"]
        self.faults = used["faults"]
        self.peak = used["memory"] * 1024
        self.taken = self.peak - empty["memory"] * 1024

    def of_bound(self):
        """Its memory, over what it may be."""
        return self.taken / (MOST_OF_THE_MAIL * self.given.mail + MOST_OF_A_MESSAGE * self.given.messages)

    def growth(self, first):
        """The exponent of its time over the logarithm of the size, since the first size; none of that one, and where there is no time."""
        if first is self or min(self.seconds, first.seconds) <= 0:
            return None
        ratio = self.seconds / math.log(self.size) / (first.seconds / math.log(first.size))
        return math.log(ratio) / math.log(self.size / first.size)

    def line(self, first):
        growth = self.growth(first)
        return line([
            self.name, shown(self.size), "%.2f" % self.seconds, "-" if growth is None else "%.2f" % growth, format(self.faults, ","),
            format(self.peak / MIB, ",.0f"), format(self.taken / self.given.messages, ",.0f"), "%.2f" % self.of_bound()])

    def over_bounds(self, first):
        """What of it is over a bound."""
        growth = self.growth(first)
        if growth is not None and growth > MOST_GROWTH:
            yield "%s, %s: the exponent of its time is %.2f, over %.2f" % (self.name, shown(self.size), growth, MOST_GROWTH)
        if self.of_bound() > 1:
            yield "%s, %s: its memory is %.2f of its bound" % (self.name, shown(self.size), self.of_bound())


def line(cells):
    return "| " + " | ".join(cells) + " |"
