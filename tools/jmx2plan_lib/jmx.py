"""The elements of a .jmx: each hash tree holds an element and then the hash tree of what is below it, pair after pair."""
from __future__ import annotations

from dataclasses import dataclass, field
from urllib.parse import unquote_plus

from .xml_tree import Unreadable, Xml, read_xml

OWN_PACKAGE = "org.apache.jmeter."


@dataclass(slots=True, eq=False)
class Node:
    """An element of the test plan, with its properties by name."""

    kind: str  # the class, without its package where that is JMeter's own
    tag: str  # the same of the XML tag
    name: str
    enabled: bool
    gui: str
    props: dict[str, Xml]
    children: list[Node] = field(default_factory=list)

    def below(self) -> int:
        """How many elements are below this one."""
        count, left = 0, [self]
        while left:
            children = left.pop().children
            count += len(children)
            left.extend(children)
        return count


def short(name: str) -> str:
    """A class name without the package of JMeter's own classes."""
    return name.rsplit(".", 1)[-1] if name.startswith(OWN_PACKAGE) else name


def props_of(element: Xml) -> dict[str, Xml]:
    """The properties of an element by name; of two of one name the later counts, as in JMeter. What has no name has its tag's."""
    return {child.named() or child.tag: child for child in element.children}


def text_of(props: dict[str, Xml], name: str, default: str = "") -> str:
    """The text of a property, or a default where it is not there."""
    return props[name].text if name in props else default


def node_of(element: Xml) -> Node:
    """An element without what is below it."""
    props, attributes = props_of(element), element.attributes
    name = attributes.get("testname", text_of(props, "TestElement.name"))
    enabled = attributes.get("enabled", text_of(props, "TestElement.enabled", "true"))
    kind = attributes.get("testclass", element.tag)
    gui = attributes.get("guiclass", text_of(props, "TestElement.gui_class"))
    for own in ("TestElement.name", "TestElement.enabled", "TestElement.gui_class", "TestElement.test_class"):
        props.pop(own, None)
    return Node(short(kind), short(element.tag), name, enabled.lower() == "true", short(gui), props)


def pairs_of(tree: Xml, place: str) -> list[tuple[Xml, Xml | None]]:
    """The elements of a hash tree, each with the hash tree after it; the last one may be without."""
    pairs: list[tuple[Xml, Xml | None]] = []
    for child in tree.children:
        if child.tag == "hashTree":
            if not pairs or pairs[-1][1] is not None:
                after = "before the first element" if not pairs else "a second one after an element"
                raise Unreadable(f"its hash trees are out of step: below {place} there is one too many, {after}")
            pairs[-1] = (pairs[-1][0], child)
        elif pairs and pairs[-1][1] is None:
            named = pairs[-1][0].attributes.get("testname", pairs[-1][0].tag)
            raise Unreadable(
                f"its hash trees are out of step: below {place}, {named!a} is without one before {child.tag!a}"
            )
        else:
            pairs.append((child, None))
    return pairs


def nodes_of(tree: Xml) -> list[Node]:
    """The elements of a hash tree with all that is below them."""
    top: list[Node] = []
    left: list[tuple[Xml, str, list[Node]]] = [(tree, "the root", top)]
    while left:
        tree, place, into = left.pop()
        for element, below in pairs_of(tree, place):
            node = node_of(element)
            into.append(node)
            if below is not None:
                left.append((below, f"{node.name!a}", node.children))
    return top


def decode(root: Xml) -> None:
    """Files of version 1.0 have the names and texts of their properties in the form of URLs."""
    left = [root]
    while left:
        element = left.pop()
        element.text = unquote_plus(element.text)
        element.attributes = {name: unquote_plus(value) for name, value in element.attributes.items()}
        left.extend(element.children)


def read_jmx(text: bytes) -> list[Node]:
    """The elements at the top of a .jmx: a test plan, and in older files a workbench after it."""
    root = read_xml(text)
    if root.tag != "jmeterTestPlan":
        raise Unreadable(f"its root is {root.tag[:60]!a}, and not jmeterTestPlan")
    if len(root.children) != 1 or root.children[0].tag != "hashTree":
        raise Unreadable("its hash trees are out of step: jmeterTestPlan holds not just one")
    if root.attributes.get("version") == "1.0":
        decode(root)
    return nodes_of(root.children[0])
