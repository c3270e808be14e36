"""Reading RESULTS: the header, and a line for each sample."""
from typing import NamedTuple

from run_files.records import FileFault, records_of
from run_files.texts import shown
from run_files.values import DIGITS, value_of

HEADER = ["timeStamp", "elapsed", "label", "responseCode", "responseMessage", "threadName", "success", "failureMessage",
          "bytes", "interval"]
CHARACTERS = 1 << 14  # of a block, about; one that is much larger would not stay in the processor's own memory
ROWS = 300  # of a block that is read by its records


class Sample(NamedTuple):
    """One result line, its numbers as numbers but for the code, which is the digits."""

    stamp: int
    elapsed: int
    label: str
    code: str
    message: str
    thread: str
    failed: bool
    failure: str
    size: int
    interval: int


def sample_of(row):
    """The sample of a result line's fields."""
    stamp, elapsed, label, code, message, thread, success, failure, size, interval = row
    return Sample(int(stamp), int(elapsed), label, code, message, thread, success == "false", failure, int(size), int(interval))


class Block(NamedTuple):
    """Result lines that follow each other, with a column of texts for each of their fields."""

    stamps: list
    elapsed: list
    labels: list
    codes: list
    messages: list
    threads: list
    successes: list
    failures: list
    sizes: list
    intervals: list

    def row(self, at):
        """The fields of the line at a place."""
        return [column[at] for column in self]


class Results:
    """The result lines of RESULTS, to be gone through once, in blocks.

    Each is held against the format: its numbers are digits, and its success is `true` or `false`. `cut` says from then on
    that the last line, or the header, is cut off, and `empty` that there is not even a header.
    """

    def __init__(self, path):
        self.path = path
        self.cut = False
        self.empty = False

    def __iter__(self):
        records, file = records_of(self.path)
        with file:
            header = next(iter(records), None)
            self.empty = header is None and not records.cut
            if header not in (None, HEADER):
                raise records.fault(f"this is not the header of results, `{','.join(HEADER)}`")
            for text in records.texts():
                yield from blocks_with_quotes(records, text) if '"' in text else blocks_without_quotes(records, text)
            self.cut = records.cut


def blocks_without_quotes(records, text):
    """The blocks of a text without quotes, each split into its fields at once."""
    width = len(HEADER) + 1
    at = 0
    while at <= len(text):
        end = text.find("\n", at + CHARACTERS)
        lines = text[at:end] if end >= 0 else text[at:]
        count = lines.count("\n") + 1
        fields = lines.replace("\n", ",\n,").split(",")  # ten of each line, and between two lines one that is the line feed
        block = Block(*(fields[field::width] for field in range(width - 1)))
        if len(fields) == width * count - 1 and fields[width - 1::width].count("\n") == count - 1 and are_results(block):
            records.line += count
            yield block
        else:
            yield from blocks_with_quotes(records, lines)
        at += len(lines) + 1


def blocks_with_quotes(records, text):
    """The blocks of any text, by its records."""
    rows, lines = [], []
    try:
        for row in records.of(text):
            rows.append(row)
            lines.append(records.line)
            if len(rows) == ROWS:
                yield checked(records, rows, lines)
                rows, lines = [], []
    except FileFault:
        checked(records, rows, lines)  # which come before the fault
        raise
    if rows:
        yield checked(records, rows, lines)


def checked(records, rows, lines):
    """The block of some records, which end in these lines; a fault where one of them is no result line."""
    if {len(row) for row in rows} == {len(HEADER)} and are_results(block := Block(*zip(*rows))):
        return block
    for row, line in zip(rows, lines):
        if not is_result(row):
            records.line = line
            raise records.fault(f"this is no result line: {shown(','.join(row), 80)}")


def are_results(block):
    """Whether the fields of each line are those of a result line, as `is_result` says of one."""
    others = {*block.elapsed, *block.codes, *block.sizes, *block.intervals}  # most of which come again and again
    return are_digits(block.stamps) and are_digits(others) and {"true", "false"}.issuperset(block.successes)


def are_digits(texts):
    """Whether each of some texts is 1 to DIGITS decimal digits."""
    digits = "".join(texts)
    return digits.isdigit() and digits.isascii() and "" not in texts and max(map(len, texts)) <= DIGITS


def is_result(row):
    """Whether fields are those of a result line."""
    try:
        stamp, elapsed, _, code, _, _, success, _, size, interval = row
        value_of(elapsed), value_of(code), value_of(size), value_of(interval)
    except ValueError:
        return False
    return stamp.isdigit() and stamp.isascii() and len(stamp) <= DIGITS and success in ("true", "false")
