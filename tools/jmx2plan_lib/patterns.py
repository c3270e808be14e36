"""Regular expressions: JMeter's are those of Perl 5, the engine's those of the Rust crate `regex`.

A pattern is written so that it means the same there, where that is a matter of spelling. What the engine would refuse, or would
read otherwise, is a fault: then its element can't be carried over."""
from __future__ import annotations

import re
from dataclasses import dataclass, field

from .losses import shown

DEEPEST = 100
MOST_COST = 20_000  # a bound on how large the engine's form of a pattern may be, far below its own
WIDE = 200  # what a class such as \\w costs, which has many letters of many scripts
META = set("\\.+*?()|[]{}^$#&-~")
CLASSES = set("dDwWsS")
SINGLE = set("nrtfabAzB")  # `a` is the bell; `b`, `B`, `A` and `z` are places in the text
QUANTIFIER = re.compile(r"\{([0-9]{1,6})(,([0-9]{0,6}))?\}")
HEX = re.compile(r"x[0-9A-Fa-f]{2}")
POSIX = re.compile(r"\[:\^?(alnum|alpha|ascii|blank|cntrl|digit|graph|lower|print|punct|space|upper|word|xdigit):\]")
FLAGS = re.compile(r"\?([ims]*)(-[ims]+)?(:|\))")


class Fault(Exception):
    """The engine doesn't know the pattern, or reads it otherwise."""


@dataclass
class Level:
    """What is open: a group, or the whole pattern."""

    cost: int = 0  # of what stands in it so far
    last: int = 0  # of the item that a quantifier would take
    quantified: bool = False
    item: bool = False


@dataclass
class Reader:
    """Goes through a pattern from the left, and writes it anew."""

    text: str
    at: int = 0
    out: list[str] = field(default_factory=list)
    notes: list[str] = field(default_factory=list)
    levels: list[Level] = field(default_factory=lambda: [Level()])

    def emit(self, text: str, cost: int = 1, item: bool = True) -> None:
        """Writes an item, or something that no quantifier may follow."""
        self.out.append(text)
        level = self.levels[-1]
        level.cost += cost
        level.last, level.item, level.quantified = cost, item, False
        if level.cost > MOST_COST:
            raise Fault("it is larger than what the engine is sure to read")

    def read(self) -> str:
        """The whole pattern, written anew."""
        while self.at < len(self.text):
            char = self.text[self.at]
            handler = {"\\": self.escape, "[": self.bracket, "(": self.opened, ")": self.closed, "{": self.brace}.get(
                char
            )
            if handler:
                handler()
            elif char in "*+?":
                self.quantifier(self.text[self.at], 2)
            else:
                self.single(char)
        if len(self.levels) > 1:
            raise Fault("a parenthesis is not closed")
        return "".join(self.out)

    def single(self, char: str) -> None:
        """A character that stands for itself, or a place or an alternative."""
        self.at += 1
        if char == "$" and "$" not in self.notes:
            self.notes.append("$")
        if char == "|":
            self.emit(char, 0, item=False)
        else:
            self.emit(char, WIDE if char == "." else 1)

    def escape(self) -> None:
        """A backslash and what follows it."""
        char = self.text[self.at + 1 : self.at + 2]
        found = HEX.match(self.text, self.at + 1)
        if found:
            self.emit("\\" + found[0])
            self.at += 1 + len(found[0])
            return
        self.at += 2
        if char in CLASSES:
            self.emit("\\" + char, WIDE)
        elif char and (char in META or char in SINGLE):
            self.emit("\\" + char)
        elif char == "e":
            self.emit("\\x1B")
        elif char and not char.isalnum():
            self.emit(char)
        else:
            raise Fault(f"the engine has no {shown(chr(92) + char)}")

    def opened(self) -> None:
        """The beginning of a group, or flags."""
        if len(self.levels) > DEEPEST:
            raise Fault(f"it nests more than {DEEPEST} groups")
        self.at += 1
        found = FLAGS.match(self.text, self.at)
        if self.text.startswith("?", self.at) and (not found or found[0] == "?)"):
            raise Fault(f"the engine has no group {shown('(' + self.text[self.at:self.at + 3])}")
        self.out.append("(" + (found[0] if found else ""))
        self.at += len(found[0]) if found else 0
        if found and found[3] == ")":
            self.levels[-1].item = False
        else:
            self.levels.append(Level())

    def closed(self) -> None:
        """The end of a group."""
        if len(self.levels) == 1:
            raise Fault("a parenthesis is closed that none opens")
        self.at += 1
        cost = self.levels.pop().cost
        self.emit(")", cost + 2)

    def brace(self) -> None:
        """A quantifier, or a plain brace, which the engine takes with a backslash alone."""
        found = QUANTIFIER.match(self.text, self.at)
        if not found:
            self.at += 1
            self.emit("\\{")
            return
        least = int(found[1])
        most = least if found[2] is None else int(found[3]) if found[3] else least + 1
        if most < least:
            raise Fault(f"{shown(found[0])} has its numbers the wrong way round")
        self.quantifier(found[0], max(most, 1))

    def quantifier(self, text: str, times: int) -> None:
        """A quantifier, which repeats the item before it."""
        level = self.levels[-1]
        if not level.item or level.quantified:
            raise Fault(f"{shown(text)} has nothing to repeat")
        self.at += len(text)
        lazy = "?" if self.text.startswith("?", self.at) else ""
        self.at += len(lazy)
        before = level.last
        self.emit(text + lazy, before * (times - 1))
        level.last, level.quantified = before * times, True

    def bracket(self) -> None:
        """A class. What has a meaning of its own in the engine's classes gets a backslash."""
        self.at += 1
        negated = self.text.startswith("^", self.at)
        self.at += negated
        items, first = [], True
        while first or not self.text.startswith("]", self.at):
            if self.at >= len(self.text):
                raise Fault("a class is not closed")
            items.append(self.class_item())
            first = False
        self.at += 1
        self.emit("[" + ("^" if negated else "") + "".join(items) + "]", WIDE)

    def class_item(self) -> str:
        """A character, a class in a class, or a range."""
        start = self.class_part()
        rest = self.text[self.at : self.at + 2]
        if not rest.startswith("-") or rest in ("-", "-]"):
            return start
        self.at += 1
        end = self.class_part()
        if len(start) > 2 and start[1] != "x" or start[1:2] in CLASSES or end[1:2] in CLASSES or end.startswith("[:"):
            raise Fault("a class has a range whose ends are no characters")
        if value_of(start) > value_of(end):
            raise Fault("a class has a range whose end comes before its start")
        return f"{start}-{end}"

    def class_part(self) -> str:
        """One character of a class, or a class in it."""
        char = self.text[self.at : self.at + 1]
        posix = POSIX.match(self.text, self.at)
        if posix:
            self.at += len(posix[0])
            return posix[0]
        self.at += 1
        if char != "\\":
            return "\\" + char if self.means_more(char) else char
        found = HEX.match(self.text, self.at)
        char = self.text[self.at : self.at + 1]
        self.at += len(found[0]) if found else 1
        if found or char in CLASSES or char in META or (char and char in "nrtf"):
            return "\\" + (found[0] if found else char)
        if char and not char.isalnum():
            return char
        raise Fault(f"the engine has no {shown(chr(92) + char)} in a class")

    def means_more(self, char: str) -> bool:
        """Whether the plain character before this place would mean something else in a class of the engine's."""
        before, after = self.text[self.at - 2 : self.at - 1], self.text[self.at : self.at + 1]
        if char == "-":
            return after != "]" and (before not in ("[", "^") or after == "-")
        return char in ("[", "]", "^") or (char in ("&", "~") and char in (before, after))


ESCAPED = {"n": 10, "r": 13, "t": 9, "f": 12}


def value_of(part: str) -> int:
    """The number of a character of a class, as it is spelled there."""
    if part.startswith("\\x"):
        return int(part[2:], 16)
    if len(part) == 2:
        return ESCAPED.get(part[1], ord(part[1]))
    return ord(part)


@dataclass
class Pattern:
    """A pattern as the engine takes it. `fault` is why it takes none; `ends` says whether it has a `$`."""

    text: str
    fault: str = ""
    ends: bool = False


def carry_pattern(text: str) -> Pattern:
    """A pattern of JMeter as one of the engine's that means the same."""
    if "${" in text:
        return Pattern(text, "a reference in a pattern is not replaced")
    reader = Reader(text)
    try:
        return Pattern(reader.read(), ends="$" in reader.notes)
    except Fault as fault:
        return Pattern(text, str(fault))


STEPS = re.compile(
    r"\.([A-Za-z0-9_-]+)|(\.\*)|\[\s*(\*)\s*\]|\[\s*([0-9]{1,9})\s*\]|\[\s*'([^']*)'\s*\]|\[\s*\"([^'\"\\]*)\"\s*\]"
)


def carry_path(text: str) -> tuple[str, str]:
    """A JSON path as the engine takes it, and why it takes none where it doesn't."""
    text = text.strip()
    if not text.startswith("$"):
        return text, "a path begins with `$`"
    steps, at = ["$"], 1
    while at < len(text):
        found = STEPS.match(text, at)
        if not found or "\\" in found[0]:
            return text, f"the engine has no step {shown(text[at:at + 20])} in a JSON path"
        name, every, star, place, quoted, double = found.groups()
        steps.append(
            "[*]"
            if every or star
            else f"[{place}]"
            if place
            else f".{name}"
            if name
            else f"['{quoted or double or ''}']"
        )
        at = found.end()
    return "".join(steps), ""
