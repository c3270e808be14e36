"""The rows of a CSV Data Set's file, as far as the engine's limit allows."""
from __future__ import annotations

import codecs
import csv
import io
import re
from dataclasses import dataclass
from pathlib import Path

LONGEST_TEXT = 65_536
MOST_READ = 1_048_576


class NoRows(Exception):
    """There are no rows to be had; the text says why."""


@dataclass
class Form:
    """How a file is read."""

    encoding: str
    delimiter: str
    quoted: bool
    names: list[str]  # none where the first line has them
    skip_first: bool


@dataclass
class Rows:
    """What of a file goes into the plan."""

    names: list[str]
    text: str
    count: int
    cut: bool = False  # there are more rows in the file
    short: int = 0  # rows with fewer fields than there are names


def find(folder: Path, name: str) -> Path:
    """The file in a folder: at the place that the test plan says, or by its last name. Nothing outside the folder is read."""
    parts = [part for part in re.split(r"[/\\]", name) if part]
    if not parts:
        raise NoRows("it names no file")
    top = folder.resolve()
    for place in (folder.joinpath(*parts), folder / parts[-1]):
        try:
            real = place.resolve()
            if real.is_relative_to(top) and real.is_file():
                return real
        except (OSError, ValueError, RuntimeError):
            continue
    raise NoRows(f"its file is not in {str(folder)!a}")


def lines_of(path: Path, encoding: str) -> tuple[str, bool]:
    """The beginning of a file as text, and whether there is more of it."""
    try:
        with path.open("rb") as file:
            data = file.read(MOST_READ + 1)
        b"".decode(encoding or "utf-8")  # refuses what is no encoding of text
        decoder = codecs.getincrementaldecoder(encoding or "utf-8")()
        text = decoder.decode(data[:MOST_READ], final=len(data) <= MOST_READ)
        text = text.removeprefix("\ufeff").encode(errors="replace").decode()
    except OSError as error:
        raise NoRows(f"its file can't be read: {error.strerror}") from None
    except (LookupError, ValueError, TypeError):
        raise NoRows(f"its file is not text in {(encoding or 'utf-8')[:40]!a}") from None
    return text, len(data) > MOST_READ


def records_of(text: str, form: Form) -> list[list[str]]:
    """The rows of a text, one a line, or with quotes as CSV has them."""
    delimiter = {"": ",", "\\t": "\t"}.get(form.delimiter, form.delimiter)
    if not form.quoted:
        return (
            [line.split(delimiter) for line in re.split("\r\n|\r|\n", text.removesuffix("\n").removesuffix("\r"))]
            if text
            else []
        )
    csv.field_size_limit(MOST_READ)
    try:
        return [row or [""] for row in csv.reader(io.StringIO(text, newline=""), delimiter=delimiter[0])]
    except (csv.Error, TypeError) as error:
        raise NoRows(f"its file is not CSV: {error}") from None


def read_rows(folder: Path, name: str, form: Form) -> Rows:
    """The names and rows of a file, with as many rows as fit into a text of the engine."""
    text, more = lines_of(find(folder, name), form.encoding)
    records = records_of(text, form)
    if more and records:
        records.pop()  # its end may be missing
    names, skip = form.names, form.skip_first
    if not names and records:
        names, skip = records[0], True
    return fitting(Rows([name.strip() for name in names], "", 0, cut=more), records[1 if skip else 0 :])


def fitting(rows: Rows, records: list[list[str]]) -> Rows:
    """Writes records with a field for each name, up to the engine's limit."""
    width, size, lines = len(rows.names), 0, []
    for record in records:
        out = io.StringIO(newline="")
        csv.writer(out, lineterminator="\r\n").writerow(
            (record + [""] * width)[:width]
        )  # so both have quotes in a field
        line = out.getvalue().removesuffix("\r\n") + "\n"
        size += len(line.encode())
        if size > LONGEST_TEXT:
            rows.cut = True
            break
        lines.append(line)
        rows.short += len(record) < width
    rows.text, rows.count = "".join(lines), len(lines)
    return rows
