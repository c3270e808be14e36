"""The records of a CSV file as the program writes it: fields quoted where they must be, a line feed after each record."""
import csv

PIECE = 1 << 20  # characters that are read at once
LINE = 65_536  # of a line, at most; a record of the program has a few thousand


class FileFault(Exception):
    """A file that can't be read, or that is not what it should be. Its text says where and why."""


class Records:
    """The records of one file, each a list of texts, to be gone through once.

    A last record that is cut off, with no line feed after it, is left out, and `cut` says so from then on. Who reads many
    records at a time takes `texts`, and asks `of` for the records of those that it can't read so.
    """

    def __init__(self, name, pieces):
        """The pieces are texts that together are the text of the file."""
        self.name = name
        self.cut = False
        self.line = 0  # the number of the last line of the record that came last, counted from 1
        self._parts = self._parts_of(pieces)
        self._lines = iter(())  # those of the part that came last, as far as no record has them

    def fault(self, text):
        """A fault at the record that came last."""
        return FileFault(f"{self.name}:{self.line}: {text}")

    def __iter__(self):
        for text in self.texts():
            yield from self.of(text)

    def texts(self):
        """What is left of the file, in texts of whole lines, each without its last line feed. `line` is left as it is."""
        left = list(self._lines)
        if left:
            yield "\n".join(left)
        for text in self._parts:  # no `yield from`, which would close them where somebody stops in between
            yield text

    def of(self, text):
        """The records of a text. Where the last of them goes on in the next text, those of that one come too."""
        lines, self._lines = None, iter(text.split("\n"))
        try:
            while lines is not self._lines:  # which are those of the next text where a record went on there
                lines = self._lines
                for line in lines:
                    self.line += 1
                    if '"' in line:
                        yield next(csv.reader(self._lines_from(line), strict=True))
                    else:
                        yield line.split(",")  # the same, and faster
        except csv.Error as error:
            if "unexpected end of data" not in str(error):  # which is the end of the file in a quoted field
                raise self.fault(f"no CSV: {error}") from error
            self.cut = True

    def _lines_from(self, line):
        yield line + "\n"
        while True:
            for line in self._lines:
                self.line += 1
                yield line + "\n"
            text = next(self._parts, None)
            if text is None:
                return
            self._lines = iter(text.split("\n"))

    def _parts_of(self, pieces):
        rest = ""
        try:
            for piece in pieces:
                text, feed, rest = (rest + piece).rpartition("\n")
                if feed:
                    yield text
                if len(rest) > LINE:
                    raise self.fault(f"after this line comes one of more than {LINE:,} characters")
        except OSError as error:
            raise FileFault(f"{self.name}: {error.strerror}") from error
        self.cut = bool(rest)


def records_of(path):
    """The records of the file at a path, and the file, which is to be closed."""
    try:
        file = open(path, encoding="utf-8", errors="surrogateescape", newline="\n")
    except OSError as error:
        raise FileFault(f"{path}: {error.strerror}") from error
    return Records(path, iter(lambda: file.read(PIECE), "")), file
