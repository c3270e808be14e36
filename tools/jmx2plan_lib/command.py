"""The command: its words, and what it writes."""
from __future__ import annotations

import argparse
import contextlib
import os
import subprocess
import sys
from pathlib import Path

from .jmx import read_jmx
from .limits import plan_text
from .losses import Loss, one_line
from .tree import carry_tree
from .xml_tree import Unreadable

PROGRAM = Path(__file__).resolve().parents[2] / "crates/jm_program/out/jm_program"
MOST_BYTES = 67_108_864
CONVERTED, LOST, UNREAD = 0, 1, 3  # 2 is argparse's own, for wrong words
SECONDS = 120


def words() -> argparse.ArgumentParser:
    """The words of the command."""
    parser = argparse.ArgumentParser(
        prog="jmx2plan",
        allow_abbrev=False,
        description=(
            "Reads a JMeter test plan (.jmx) and writes the plan for jm on standard output. On standard error a line comes for each "
            "thing that is not carried over exactly: the element, its property, what becomes of it (dropped, disabled, changed, "
            "unsupported) and why, with a tab between two."
        ),
        epilog=("Status: 0 converted, 1 with --strict where something is lost, 2 wrong words, 3 no readable .jmx."),
    )
    parser.add_argument("jmx", metavar="FILE", help="the .jmx; - is standard input")
    parser.add_argument(
        "--strict", action="store_true", help="status 1 where more than comments and listeners' settings is lost"
    )
    parser.add_argument(
        "--data-dir",
        metavar="DIR",
        type=Path,
        help="where the files of CSV Data Sets are looked for; by default beside FILE",
    )
    parser.add_argument("--check", action="store_true", help="also have jm check the plan, where it is built")
    return parser


def read_bytes(name: str) -> bytes:
    """The bytes of the .jmx."""
    try:
        if name == "-":
            text = sys.stdin.buffer.read(MOST_BYTES + 1)
        else:
            with open(name, "rb") as file:
                text = file.read(MOST_BYTES + 1)
    except (OSError, ValueError) as error:
        raise Unreadable(f"it can't be read: {getattr(error, 'strerror', None) or error}") from None
    if len(text) > MOST_BYTES:
        raise Unreadable(f"it has more than {MOST_BYTES:,} bytes")
    return text


def convert(text: bytes, data_dir: Path) -> tuple[str, list[Loss]]:
    """The plan of a .jmx as JSON, and what is lost."""
    try:
        plan, work = carry_tree(read_jmx(text), data_dir)
        return plan_text(plan, work.losses), work.losses
    except MemoryError:
        raise Unreadable("there is not enough memory for it") from None


def checked(plan: str) -> str:
    """What jm check says of a plan, in one line; Unreadable where it refuses it."""
    if not PROGRAM.exists():
        return f"not checked: there is no {PROGRAM}"
    try:
        done = subprocess.run(
            [PROGRAM, "check"], input=plan.encode(), capture_output=True, timeout=SECONDS, check=False
        )
    except (OSError, subprocess.TimeoutExpired) as error:
        return f"not checked: {error}"
    if done.returncode != 0:
        said = done.stderr.decode(errors="replace").strip() or f"status {done.returncode}"
        raise Unreadable(f"the plan that was made of it is not accepted by jm check: {said}")
    return "accepted by jm check"


def write(descriptor: int, text: str) -> None:
    """Writes a text past Python's own buffers, which at the end would complain again of what can't be written."""
    left = memoryview(text.encode(errors="backslashreplace"))
    while left:
        left = left[os.write(descriptor, left) :]


def say(text: str) -> None:
    """Writes to standard error, where there is one."""
    with contextlib.suppress(OSError):
        write(2, text)


def refuse(name: str, why: str) -> int:
    """Says in one line why there is no plan, and gives the status."""
    say(f"jmx2plan: {one_line(name, 4_096)}: {one_line(why, 4_096)}\n")
    return UNREAD


def main(arguments: list[str] | None = None) -> int:
    """Runs the command and gives its status."""
    given = words().parse_args(arguments)
    if given.data_dir is not None and not given.data_dir.is_dir():
        words().error(f"there is no folder {one_line(str(given.data_dir), 4_096)}")
    data_dir = given.data_dir or (Path() if given.jmx == "-" else Path(given.jmx).parent)
    try:
        plan, losses = convert(read_bytes(given.jmx), data_dir)
        said = f"jmx2plan: {checked(plan)}\n" if given.check else ""
    except Unreadable as why:
        return refuse(given.jmx, str(why))
    except Exception as fault:  # no trace of Python for a user, whatever is wrong with the tool
        return refuse(given.jmx, f"the tool itself failed, please report it: {type(fault).__name__} {fault}")
    say("".join(loss.line() + "\n" for loss in losses) + said)
    try:
        write(1, plan)
    except OSError as error:
        return refuse(given.jmx, f"the plan could not be written: {error.strerror}")
    return LOST if given.strict and any(loss.counts for loss in losses) else CONVERTED
