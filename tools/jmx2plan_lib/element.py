"""An element while it is carried over: its properties, each of which is taken once, and the lines about it."""
from __future__ import annotations

import json
import re
from dataclasses import dataclass, field
from pathlib import Path

from .jmx import Node, props_of, text_of
from .losses import Loss, What, shown
from .templates import VARIABLE, carry, has_reference
from .xml_tree import Xml

LONGEST_TEXT = 65_536
LONGEST_NAME = 256
WHOLE = re.compile(r"[+-]?[0-9]{1,30}")
DECIMAL = re.compile(r"([+-]?[0-9]{1,30})\.[0-9]*")
DEFAULT_OF = re.compile(r"\$\{__(?:P\(([^(),]*)(?:,([^(),]*))?|property\(([^(),]*),,([^(),]*))\)\}")


@dataclass
class Element:
    """An element of the plan. `path` has the names from the plan down to it, for the lines."""

    type: str
    name: str
    props: dict = field(default_factory=dict)
    children: list[Element] = field(default_factory=list)
    enabled: bool = True
    path: tuple[str, ...] = ()

    def text(self, indent: str = "") -> str:
        """The element as JSON, with a line for each element; what is as by default is left out."""
        value: dict = {"type": self.type, "name": self.name}
        value |= {} if self.enabled else {"enabled": False}
        value |= {"props": self.props} if self.props else {}
        text = indent + json.dumps(value, ensure_ascii=False)
        if not self.children:
            return text
        children = ",\n".join(child.text(indent + " ") for child in self.children)
        return f'{text[:-1]}, "children": [\n{children}]}}'


@dataclass(frozen=True)
class Above:
    """What an element stands below: names and types from the plan down, and the defaults that ask for a protocol."""

    path: tuple[str, ...] = ()
    types: tuple[str, ...] = ()
    protocol: str = ""


@dataclass
class Work:
    """One conversion: its lines, the test plan's variables, and where data files are looked for."""

    data_dir: Path
    losses: list[Loss] = field(default_factory=list)
    variables: dict[str, str] = field(default_factory=dict)
    counters: int = 0  # how many calls of __counter were met

    def constant(self, text: str) -> str | None:
        """A text with the values that its references have where no `-J` and no thread changes them; None where one has none."""
        for _ in range(5):
            if "${" not in text:
                return text
            text = DEFAULT_OF.sub(
                lambda found: found[2] or found[4] or ("1" if found[1] and found[2] is None else ""), text
            )
            text = VARIABLE.sub(lambda found: self.variables.get(found[1], found[0]), text)[:LONGEST_TEXT]
        return None


@dataclass
class Argument:
    """A row of a table of names and values."""

    name: str
    value: str
    props: dict[str, Xml]

    def flag(self, name: str, default: bool) -> bool:
        """Whether a property of the row is true."""
        return text_of(self.props, name, str(default)).strip().lower() == "true"


class Source:
    """An element of the .jmx whose properties are taken one by one. What is left at the end is reported."""

    def __init__(self, node: Node, above: Above, work: Work) -> None:
        self.node, self.above, self.work = node, above, work
        self.path = (*above.path, node.name)
        self.left = dict(node.props)
        self.enabled = node.enabled

    def lose(self, what: What, prop: str, why: str, counts: bool = True) -> None:
        """Notes a thing that is not carried over exactly."""
        self.work.losses.append(Loss(self.path, prop, what, why, counts))

    def disable(self, prop: str, why: str) -> None:
        """The element stands in the plan, disabled."""
        self.enabled = False
        self.lose(What.DISABLED, prop, why)

    def element(self, kind: str, props: dict | None = None) -> Element:
        """The element of the plan, of a type."""
        name = self.node.name
        if len(name.encode()) > LONGEST_NAME:
            name = name.encode()[:LONGEST_NAME].decode(errors="ignore")
            self.lose(What.CHANGED, "testname", f"the name is cut to {LONGEST_NAME} bytes")
        if "${" in name:
            self.lose(What.UNSUPPORTED, "testname", "a reference in a name stays as it is written")
        return Element(kind, name, props or {}, enabled=self.enabled, path=self.path)

    # Taking properties.

    def has(self, prop: str) -> bool:
        """Whether the .jmx has a property."""
        return prop in self.node.props

    def raw(self, prop: str, default: str = "") -> str:
        """The text of a property, as it stands in the .jmx."""
        self.left.pop(prop, None)
        return text_of(self.node.props, prop, default)

    def open(self, prop: str) -> None:
        """Takes the properties of an element that is a property as this element's own."""
        self.left.pop(prop, None)
        if prop in self.node.props:
            inner = {
                name: value
                for name, value in props_of(self.node.props[prop]).items()
                if not name.startswith("TestElement.")
            }
            self.node.props.update(inner)
            self.left.update(inner)

    def leave(self, *props: str) -> None:
        """Properties that change nothing in a run."""
        for prop in props:
            self.left.pop(prop, None)

    def gone(self, prop: str, why: str, but: tuple[str, ...] = ("", "false"), counts: bool = True) -> None:
        """A property without a counterpart, reported unless it has a value that asks for nothing."""
        if self.raw(prop).strip().lower() not in but:
            self.lose(What.DROPPED, prop, why, counts)

    def fits(self, prop: str, text: str) -> bool:
        """Whether a text is short enough; where it isn't, the element is disabled."""
        size = len(text.encode(errors="replace"))
        if size > LONGEST_TEXT:
            self.disable(prop, f"a text of {size:,} bytes is left out: the engine reads {LONGEST_TEXT:,}")
        return size <= LONGEST_TEXT

    def as_template(self, prop: str, text: str) -> str:
        """A text in which the engine replaces references."""
        if not self.fits(prop, text):
            return ""
        carried = carry(text)
        for fault in carried.faults:
            self.lose(What.UNSUPPORTED, prop, fault)
        if carried.refused:
            self.disable(prop, carried.refused)
        self.work.counters += carried.calls.count("counter")
        if "counter" in carried.calls and self.work.counters > 1:
            self.lose(
                What.CHANGED, prop, "all calls of __counter in a thread share one count, and in JMeter each has its own"
            )
        return carried.text if self.fits(prop, carried.text) else ""

    def template(self, prop: str, default: str = "") -> str:
        """A property in which the engine replaces references."""
        return self.as_template(prop, self.raw(prop, default))

    def as_plain(self, prop: str, text: str) -> str:
        """A text in which the engine replaces no references, as JMeter does."""
        if not self.fits(prop, text):
            return ""
        if has_reference(text):
            self.lose(What.UNSUPPORTED, prop, "a reference stays as it is written: the engine replaces none here")
        return text

    def plain(self, prop: str, default: str = "") -> str:
        """A property in which the engine replaces none."""
        return self.as_plain(prop, self.raw(prop, default))

    def flag(self, prop: str, default: bool = False) -> bool:
        """A property that is true or false."""
        text = self.raw(prop).strip()
        if "${" in text:
            value = self.work.constant(text)
            taken = default if value is None else value.strip().lower() == "true"
            self.lose(
                What.CHANGED, prop, f"{shown(text)} becomes {str(taken).lower()}: the engine takes no reference here"
            )
            return taken
        return text.lower() == "true" if text else default

    def whole(self, prop: str, low: int, high: int, default: int, scale: int = 1, unknown: int | None = None) -> int:
        """A whole number times a scale, within bounds. Where it is empty or not there it is the default, and `unknown` where
        only a run would say what it is."""
        text = self.raw(prop).strip()
        if not text:
            return default * scale
        value, whole = self.number(text, default if unknown is None else unknown), WHOLE.fullmatch(text)
        bounded = min(max(value * scale, low), high)
        if not whole:
            self.lose(What.CHANGED, prop, f"{shown(text)} becomes {bounded}: the engine takes a whole number here")
        elif bounded != value * scale:
            self.lose(What.CHANGED, prop, f"{value * scale} becomes {bounded}: the engine takes {low} to {high}")
        return bounded

    def number(self, text: str, default: int) -> int:
        """The number that a text stands for, as far as that is known before a run."""
        text = (self.work.constant(text) or "").strip() if "${" in text else text
        whole = WHOLE.fullmatch(text) or DECIMAL.fullmatch(text)
        return default if not whole else int(whole[1] if whole.re is DECIMAL else whole[0])

    def texts(self, prop: str) -> list[str]:
        """The texts of a list."""
        self.left.pop(prop, None)
        return [item.text for item in self.node.props[prop].children] if prop in self.node.props else []

    def rows(self, prop: str, inner: str) -> list[Argument]:
        """The rows of a table: the elements of the list `inner` of an element property, or of the list `prop` itself."""
        self.left.pop(prop, None)
        table = self.node.props.get(prop)
        if table is not None and table.tag == "elementProp":
            table = props_of(table).get(inner)
        rows = []
        for row in table.children if table is not None else ():
            props = props_of(row)
            word = "Header" if "Header.name" in props else "Argument"
            rows.append(Argument(text_of(props, f"{word}.name", row.named()), text_of(props, f"{word}.value"), props))
        return rows

    def rest(self) -> None:
        """Reports comments, and what nobody took."""
        self.gone("TestPlan.comments", "a comment", counts=False)
        for prop, value in self.left.items():
            if value.text.strip() or value.children:
                self.lose(What.DROPPED, prop, "the engine has no such property")
