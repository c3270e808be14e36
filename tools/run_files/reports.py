"""Reading REPORTS: the reports of intervals, the summary, and how each thread ended."""
import contextlib
import enum
import re
from itertools import chain, repeat
from typing import NamedTuple

from run_files.records import FileFault, records_of
from run_files.sums import Sums
from run_files.texts import shown
from run_files.values import DIGITS, value_of

ROW = 9  # fields of a row
CHARACTERS = 1 << 14  # of reports that are read at once, about; many more would not stay in the processor's own memory
NUMBER = f",[0-9]{{1,{DIGITS}}}"
INTERVALS = re.compile(r"\ninterval,([0-9]+)" + 2 * NUMBER + "$", re.MULTILINE)
ROWS = re.compile(r"\nrow,([0-9]+),([^,\n]*)" + 6 * f",({NUMBER[1:]})" + "$", re.MULTILINE)  # where nothing is quoted
SCRIPT = "jm: "  # how the script jm begins what it says of building the program, before the program's own lines


class OrderFault(FileFault):
    """A line of reports that can't stand where it stands."""


class Stage(enum.Enum):
    """What the last line of reports was."""

    START = "the start"
    INTERVALS = "a report of an interval"
    TOTALS = "a line `total`"
    ALL = "the line `all`"
    ENDS = "a line `end`"


class IntervalLine(NamedTuple):
    """`interval`: an interval is closed, with this many samples, of which this many failed."""

    number: int
    count: int
    errors: int


class RowLine(Sums):
    """`row`: a label in an interval, with its sums."""

    __slots__ = ("number", "label")

    def __init__(self, number, label, count, errors, total, size, least, greatest):  # all at once, since most lines are rows
        self.number = number
        self.label = label
        self.count = count
        self.errors = errors
        self.total = total
        self.size = size
        self.least = least
        self.greatest = greatest


class TotalLine(NamedTuple):
    """`total`: a label over all intervals."""

    label: str
    sums: Sums


class AllLine(NamedTuple):
    """`all`: the sums over all labels."""

    count: int
    errors: int
    total: int
    size: int


class EndLine(NamedTuple):
    """`end`: how a thread ended."""

    thread: str
    end: str


class ReportBlock(NamedTuple):
    """Whole reports that follow each other: the first one's interval, how many rows each has, and all rows.

    Of a row there are the texts: its interval, its label, and its six numbers.
    """

    first: int
    counts: list
    rows: list


class Reports:
    """The lines of reports, to be gone through once.

    Their form and their order are held against the format; their sums are not. Lines of the script jm, which come first,
    are passed over. What is `cut` and `whole` is known at the end.
    """

    def __init__(self, records):
        self.stage = Stage.START
        self.records = records
        self._number, self._text = -1, None  # of the interval whose rows can follow
        self._labels = set()
        self._kinds = {"interval": (4, self._interval), "total": (8, self._total),
                       "all": (5, self._all), "end": (3, self._end)}

    @property
    def line(self):
        """The number of the line that came last."""
        return self.records.line

    @property
    def cut(self):
        """Whether the last line is cut off."""
        return self.records.cut

    @property
    def has_summary(self):
        """Whether the summary is there."""
        return self.stage in (Stage.ALL, Stage.ENDS)

    @property
    def whole(self):
        """Whether the summary and end lines are there, and nothing is cut off."""
        return self.stage is Stage.ENDS and not self.cut

    def __iter__(self):
        return self._lines(self.records)

    def in_blocks(self):
        """The same lines, but most reports of intervals in blocks, each a ReportBlock."""
        for text in self.records.texts():
            end = text.rfind("\ninterval,")  # more rows may follow that one in the next text
            at = 0 if text.startswith("interval,") else text.find("\ninterval,") + 1
            if '"' in text or end < at:  # what is quoted may have line feeds
                yield from self._lines(self.records.of(text))
                continue
            if at:
                yield from self._lines(self.records.of(text[:at - 1]))
            while at <= end:
                stop = text.find("\ninterval,", min(at + CHARACTERS, end))
                block = self._block_of(text[at:stop])
                if block is None:
                    yield from self._lines(self.records.of(text[at:stop]))
                else:
                    yield block
                at = stop + 1
            yield from self._lines(self.records.of(text[at:]))

    def _block_of(self, text):
        """The reports of a text that begins with an interval and ends before one; None where its lines must be read one by one."""
        reports, rows, first = text.split("\ninterval,"), ROWS.findall(text), self._number + 1
        counts = [report.count("\n") for report in reports]
        numbers = [str(number) for number in range(first, first + len(reports))]
        rows_of, labels = (*zip(*rows),)[:2] if rows else ((), ())
        if (self.stage is not Stage.INTERVALS or INTERVALS.findall("\n" + text) != numbers
                or list(rows_of) != list(chain.from_iterable(map(repeat, numbers, counts)))
                or len(set(zip(rows_of, labels))) != len(rows)):
            return None
        self._number += len(reports)
        self._text = numbers[-1]  # the next line is one of an interval, so the labels need not be known
        self.records.line += len(reports) + len(rows)
        return ReportBlock(first, counts, rows)

    def _lines(self, records):
        labels = self._labels
        for fields in records:
            if len(fields) == ROW and fields[0] == "row":  # most lines, so without a call of its own
                _, number, label, *texts = fields
                if number != self._text or label in labels:
                    self._refuse_row(number, label)
                labels.add(label)
                try:
                    line = RowLine(self._number, label, *map(value_of, texts))
                except ValueError:
                    raise self._no_numbers(texts) from None
                yield line
                continue
            first = fields[0] if fields else ""
            width, kind = self._kinds.get(first, (None, None))
            if width == len(fields):
                yield kind(fields)
            elif self.stage is not Stage.START or not first.startswith(SCRIPT):
                raise self.fault(f"this is no line of reports: {shown(','.join(fields), 80)}")

    def fault(self, text):
        """A fault at the line that came last."""
        return self.records.fault(text)

    def misplaced(self, text):
        """A fault of the order at the line that came last."""
        return OrderFault(f"{self.records.name}:{self.line}: {text}")

    def _numbers(self, texts):
        try:
            return list(map(value_of, texts))
        except ValueError:
            raise self._no_numbers(texts) from None

    def _no_numbers(self, texts):
        return self.fault(f"numbers are to stand here: {shown(','.join(texts), 80)}")

    def _once(self, label):
        if label in self._labels:
            raise self.misplaced(f"a second line of label {shown(label)}")
        self._labels.add(label)
        return label

    def _go_on(self, stage, after):
        if self.stage not in after:
            raise self.misplaced(f"this line can't stand after {self.stage.value}")
        if self.stage is not stage:
            self._labels.clear()
            self._text = None  # no row can follow, but after a line of an interval
        self.stage = stage

    def _interval(self, fields):
        if self.stage is not Stage.INTERVALS:
            self._go_on(Stage.INTERVALS, (Stage.START,))
        number, text = self._number + 1, str(self._number + 1)
        if fields[1] != text and self._numbers(fields[1:])[0] != number:  # digits are read where they aren't those expected
            raise self.misplaced(f"interval {value_of(fields[1])} stands where interval {number} is to stand")
        self._number, self._text = number, text
        self._labels.clear()
        return IntervalLine(number, *self._numbers(fields[2:]))

    def _refuse_row(self, number, label):
        if self.stage is not Stage.INTERVALS:
            raise self.misplaced(f"a row can't stand after {self.stage.value}")
        if number != self._text:
            raise self.misplaced(f"a row of interval {shown(number, 20)} can't stand in interval {self._text}")
        raise self.misplaced(f"a second line of label {shown(label)}")

    def _total(self, fields):
        self._go_on(Stage.TOTALS, (Stage.START, Stage.INTERVALS, Stage.TOTALS))
        return TotalLine(self._once(fields[1]), Sums(*self._numbers(fields[2:])))

    def _all(self, fields):
        self._go_on(Stage.ALL, (Stage.START, Stage.INTERVALS, Stage.TOTALS))
        return AllLine(*self._numbers(fields[1:]))

    def _end(self, fields):
        self._go_on(Stage.ENDS, (Stage.ALL, Stage.ENDS))
        return EndLine(*fields[1:])


@contextlib.contextmanager
def reports_of(path):
    """The lines of the file at a path."""
    records, file = records_of(path)
    with file:
        yield Reports(records)
