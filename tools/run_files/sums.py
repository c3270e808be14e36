"""Sums over samples, as a report has them."""
from itertools import compress

from run_files.values import value_of


class Sums:
    """How many samples, how many of them failed, the sums of their times and bytes, their least and greatest time."""

    __slots__ = ("count", "errors", "total", "size", "least", "greatest")
    NAMES = ("COUNT", "ERRORS", "TOTAL", "BYTES", "LEAST", "GREATEST")  # of the six numbers, as the format calls them

    def __init__(self, count=0, errors=0, total=0, size=0, least=0, greatest=0):
        self.count = count
        self.errors = errors
        self.total = total
        self.size = size
        self.least = least
        self.greatest = greatest

    def add_sample(self, elapsed, failed, size):
        """Adds one sample."""
        if elapsed < self.least or not self.count:
            self.least = elapsed
        if elapsed > self.greatest:
            self.greatest = elapsed
        self.count += 1
        self.errors += failed
        self.total += elapsed
        self.size += size

    def add(self, other):
        """Adds the samples of other sums."""
        if other.count:
            if other.least < self.least or not self.count:
                self.least = other.least
            if other.greatest > self.greatest:
                self.greatest = other.greatest
        self.count += other.count
        self.errors += other.errors
        self.total += other.total
        self.size += other.size

    @property
    def numbers(self):
        """The six numbers in the order of the format."""
        return self.count, self.errors, self.total, self.size, self.least, self.greatest

    @property
    def mean(self):
        """The mean time, or None where there is no sample."""
        return self.total / self.count if self.count else None

    @property
    def share(self):
        """The share of failed samples, from 0 to 1; 0 where there is no sample."""
        return self.errors / self.count if self.count else 0.0


def add_samples(into, keys, times, successes, sizes):
    """Adds samples to the sums of their keys, in a defaultdict, as `add_sample` does, but without a call for each."""
    for key, elapsed, success, size in zip(keys, times, successes, sizes):
        sums = into[key]
        if elapsed < sums.least or not sums.count:
            sums.least = elapsed
        if elapsed > sums.greatest:
            sums.greatest = elapsed
        sums.count += 1
        if success == "false":
            sums.errors += 1
        sums.total += elapsed
        sums.size += size


def sum_of(rows):
    """The sums of one or more rows of a ReportBlock, column by column.

    Sums of times and bytes seldom come again, and `int` is faster for such; the other numbers do.
    """
    _, _, counts, errors, totals, sizes, leasts, greatests = zip(*rows)
    counts = list(map(value_of, counts))
    least = min(compress(map(value_of, leasts), counts), default=0)  # of the rows that have a sample
    greatest = max(compress(map(value_of, greatests), counts), default=0)
    return Sums(sum(counts), sum(map(value_of, errors)), sum(map(int, totals)), sum(map(int, sizes)), least, greatest)


def over_all(by_label):
    """The sums of all labels together."""
    found = Sums()
    for sums in by_label.values():
        found.add(sums)
    return found
