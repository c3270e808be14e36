"""Sums of samples along the intervals of a run."""
import collections

from run_files.sums import Sums, over_all, sum_of

MOST = 600  # parts that are told apart
ROWS = 1 << 13  # that wait, about, at most


def add_all(into, by_label):
    """Adds sums by label to others."""
    for label, sums in by_label.items():
        if label not in into:
            into[label] = Sums()
        into[label].add(sums)


class Timeline:
    """For each interval and label the sums of its samples.

    There are at most MOST parts. Where there are more intervals, a part joins 2 neighbours, or 4, 8 and so on; `width`
    says how many, and `intervals` how many there are in all.
    """

    def __init__(self):
        self.width = 1
        self.intervals = 0
        self.parts = []  # of each the sums by label
        self._part = None  # the one that rows wait to be added to
        self._rows = []

    def part(self, number):
        """The sums by label of the part with the interval of this number, to be added to; it goes on up to there."""
        at = number // self.width
        if number >= self.intervals:
            self.intervals = number + 1
            while (at := number // self.width) >= MOST:
                self._halve()
            while len(self.parts) <= at:
                self.parts.append({})
        return self.parts[at]

    def add(self, number, rows):
        """Adds the rows of an interval."""
        self._add_rows()
        part = self.part(number)
        for row in rows:
            if (sums := part.get(row.label)) is None:
                part[row.label] = sums = Sums()
            sums.add(row)

    def add_block(self, block):
        """Adds the reports of a ReportBlock. Their rows wait, to be added many at once."""
        last = block.first + len(block.counts) - 1
        if self.part(last) is self.part(block.first):
            self._wait(self.part(last), block.rows)
            return
        at = 0
        for number, count in enumerate(block.counts, block.first):
            self._wait(self.part(number), block.rows[at:at + count])
            at += count

    def _wait(self, part, rows):
        if part is not self._part or len(self._rows) > ROWS:
            self._add_rows()
            self._part = part
        self._rows += rows

    def add_sample(self, number, label, elapsed, failed, size):
        """Adds one sample to an interval."""
        part = self.part(number)
        if (sums := part.get(label)) is None:
            part[label] = sums = Sums()
        sums.add_sample(elapsed, failed, size)

    def labels(self):
        """For each label its sums over all intervals."""
        self._add_rows()
        found = {}
        for part in self.parts:
            add_all(found, part)
        return found

    def line(self, label):
        """The sums of a label in each part."""
        self._add_rows()
        nothing = Sums()
        return [part.get(label, nothing) for part in self.parts]

    def line_over_all(self):
        """The sums over all labels in each part."""
        self._add_rows()
        return [over_all(part) for part in self.parts]

    def names(self):
        """Of each part the number of its interval, or those of its first and last."""
        firsts = range(0, self.intervals, self.width)
        lasts = (min(first + self.width, self.intervals) - 1 for first in firsts)
        return [str(first) if first == last else f"{first}–{last}" for first, last in zip(firsts, lasts)]

    def _add_rows(self):
        """Adds the rows that wait, those of a label at once."""
        by_label = collections.defaultdict(list)
        for row in self._rows:
            by_label[row[1]].append(row)
        add_all(self._part, {label: sum_of(rows) for label, rows in by_label.items()})
        self._rows.clear()

    def _halve(self):
        self._add_rows()
        self.width *= 2
        firsts, seconds = self.parts[0::2], self.parts[1::2]
        for first, second in zip(firsts, seconds):
            add_all(first, second)
        self.parts = firsts
