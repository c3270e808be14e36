"""The XML of a .jmx as plain nodes. It refuses what no .jmx has: a document type, and with it every entity; text that nests too
deep, or has too many elements."""
from __future__ import annotations

from dataclasses import dataclass, field
from xml.etree import ElementTree

try:
    from defusedxml.common import DefusedXmlException
    from defusedxml.ElementTree import DefusedXMLParser
except ImportError:  # the guards below stand without it too
    DefusedXmlException = DefusedXMLParser = None

DEEPEST = 1_000  # a plan of 32 elements in one another has about 80
MOST_ELEMENTS = 1_000_000
LONGEST_PROLOG = 16_384
PIECE = 65_536
SETTINGS = {"objProp"}  # which columns a listener saves: what stands inside is not kept


class Unreadable(Exception):
    """There is no readable .jmx, or no plan of it that the engine could read; the text says why, in one line."""


@dataclass(slots=True)
class Xml:
    """An element: its tag, its attributes, the text right inside it, and the elements inside it."""

    tag: str
    attributes: dict[str, str]
    children: list[Xml] = field(default_factory=list)
    text: str = ""

    def named(self) -> str:
        """The attribute `name`, by which properties are told apart."""
        return self.attributes.get("name", "")


class Builder:
    """Builds the nodes from the parser's events, without a call in another for what nests."""

    def __init__(self) -> None:
        self.root: Xml | None = None
        self.open: list[Xml] = []
        self.texts: list[str] = []
        self.elements = 0
        self.passed_over = 0  # how many elements are open whose content is not kept

    def doctype(self, _name: str, _public: str, _system: str) -> None:
        """A document type, with which entities would come."""
        raise Unreadable("it has a document type, which no .jmx has: entities are not expanded")

    def start(self, tag: str, attributes: dict[str, str]) -> None:
        """The beginning of an element."""
        self.elements += 1
        if len(self.open) + self.passed_over >= DEEPEST:
            raise Unreadable(f"it nests more than {DEEPEST:,} elements in one another")
        if self.elements > MOST_ELEMENTS:
            raise Unreadable(f"it has more than {MOST_ELEMENTS:,} XML elements")
        if self.passed_over or (self.open and self.open[-1].tag in SETTINGS):
            self.passed_over += 1
            return
        node = Xml(tag, dict(attributes))
        if self.open:
            self.open[-1].children.append(node)
        else:
            self.root = node
        self.open.append(node)
        self.texts = []

    def data(self, text: str) -> None:
        """A piece of text."""
        self.texts.append(text)

    def end(self, _tag: str) -> None:
        """The end of an element, whose text counts where nothing stands inside."""
        if self.passed_over:
            self.passed_over -= 1
            return
        node = self.open.pop()
        if not node.children:
            node.text = "".join(self.texts)
        self.texts = []

    def close(self) -> Xml | None:
        """The end of the text."""
        return self.root


def parser_for(builder: Builder):
    """A parser that tells the builder what it finds, of defusedxml where that is installed."""
    if DefusedXMLParser is None:
        return ElementTree.XMLParser(target=builder)
    return DefusedXMLParser(target=builder, forbid_dtd=True)


def feed_prolog(parser, builder: Builder, text: bytes) -> int:
    """Feeds what comes before the first element up to one `>` after another, so that a document type ends the reading before
    anything that it declares is used. How many bytes were fed."""
    at = 0
    while builder.root is None and at < len(text):
        if at > LONGEST_PROLOG:
            raise Unreadable(f"no XML element begins within its first {LONGEST_PROLOG:,} bytes")
        end = text.find(b">", at, at + LONGEST_PROLOG)
        end = end + 1 if end >= 0 else min(len(text), at + LONGEST_PROLOG)
        parser.feed(text[at:end])
        at = end
    return at


def read_xml(text: bytes) -> Xml:
    """The root element of a text; Unreadable where it is not XML or not to be trusted."""
    builder = Builder()
    parser = parser_for(builder)
    known = (ElementTree.ParseError, ValueError, LookupError)
    try:
        for at in range(feed_prolog(parser, builder, text), len(text), PIECE):
            parser.feed(text[at : at + PIECE])
        parser.close()
    except known as error:
        if DefusedXmlException and isinstance(error, DefusedXmlException):
            builder.doctype("", "", "")
        raise Unreadable(f"it is not XML: {error}") from None
    if builder.root is None:
        raise Unreadable("it is not XML: there is no element")
    return builder.root
