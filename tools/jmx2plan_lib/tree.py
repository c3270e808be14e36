"""The tree of the plan: every element of the .jmx with what is below it, and the places that the engine allows."""
from __future__ import annotations

from pathlib import Path

from .element import Above, Element, Source, Work
from .jmx import Node, props_of, text_of
from .losses import Loss, What
from .samplers import protocol_below
from .table import carry_element
from .xml_tree import Unreadable, Xml

DEEPEST = 32
CONTROLLERS = {
    "Simple",
    "OnceOnly",
    "Interleave",
    "Random",
    "RandomOrder",
    "Transaction",
    "Loop",
    "If",
    "While",
    "Switch",
    "ForEach",
    "CriticalSection",
}
SAMPLERS = {"Http", "Script"}


def may_stand(kind: str, parent: str) -> bool:
    """Whether the engine lets an element of a type stand right below one of another type."""
    if kind == "ThreadGroup":
        return parent == "TestPlan"
    if kind in CONTROLLERS or kind in SAMPLERS:
        return parent == "ThreadGroup" or parent in CONTROLLERS
    return kind != "TestPlan"


def holds(kind: str) -> bool:
    """Whether elements stand below one of this type."""
    return kind in CONTROLLERS or kind in SAMPLERS or kind in ("TestPlan", "ThreadGroup")


def carry_node(node: Node, above: Above, work: Work) -> list[Element]:
    """The elements of the plan for an element of the .jmx, with what is below it."""
    source = Source(node, above, work)
    if len(source.path) > DEEPEST:
        source.lose(
            What.DROPPED,
            "-",
            f"the engine reads {DEEPEST} elements in one another; nor is anything of the {node.below()} below it",
        )
        return []
    elements = carry_element(source)
    if not elements:
        return []
    first = elements[0]
    if above.types and first.enabled and not may_stand(first.type, above.types[-1]):
        first.enabled = False
        source.lose(What.DISABLED, "-", f"the engine lets no {first.type} stand right below a {above.types[-1]}")
    inner = Above(source.path, (*above.types, first.type), protocol_below(node.children, above.protocol))
    if holds(first.type):
        for child in node.children:
            first.children.extend(carry_node(child, inner, work))
    elif node.children:
        source.lose(
            What.DROPPED,
            "-",
            f"the engine lets nothing stand below a {first.type}: the {node.below()} below it are left out",
        )
    return elements


def variables_of(top: Node) -> dict[str, str]:
    """The variables of the whole test plan as they are written, the later of two with one name."""
    variables: dict[str, str] = {}
    left = [top]
    while left:
        node = left.pop()
        if not node.enabled:
            continue
        table = node.props.get("Arguments.arguments" if node.kind == "Arguments" else "TestPlan.user_defined_variables")
        if table is not None and table.tag == "elementProp":
            table = props_of(table).get("Arguments.arguments")
        for row in table.children if table is not None and node.kind in ("Arguments", "TestPlan") else ():
            props = props_of(row)
            variables[text_of(props, "Argument.name", row.named())] = text_of(props, "Argument.value")
        left.extend(reversed(node.children))
    return variables


def around(tops: list[Node]) -> Node:
    """A test plan for what JMeter saved as a part of one, with a thread group where there is none."""
    loop = Xml(
        "elementProp",
        {},
        [
            Xml("stringProp", {"name": f"LoopController.{name}"}, text=value)
            for name, value in (("loops", "1"), ("continue_forever", "false"))
        ],
    )
    props = {"ThreadGroup.num_threads": Xml("stringProp", {}, text="1"), "ThreadGroup.main_controller": loop}
    if not any(node.kind.endswith("ThreadGroup") for node in tops):
        tops = [Node("ThreadGroup", "ThreadGroup", "Thread Group", True, "", props, tops)]
    return Node("TestPlan", "TestPlan", "Test Plan", True, "", {}, tops)


def carry_tree(tops: list[Node], data_dir: Path) -> tuple[Element, Work]:
    """The plan of a .jmx, and what was lost."""
    if not tops:
        raise Unreadable("it holds no elements")
    top = next((node for node in tops if node.kind == "TestPlan"), None) or around(tops)
    work = Work(data_dir, variables=variables_of(top))
    if top not in tops:
        work.losses.append(
            Loss((top.name,), "-", What.CHANGED, "it is a part of a test plan: what it lacks of one stands around it")
        )
        tops = []
    plan = carry_node(top, Above(), work)[0]
    for child in plan.children if not top.enabled else ():
        child.enabled = False
    for node in tops:
        if node is not top:
            why = "a workbench is no part of the test" if node.kind == "WorkBench" else "it stands beside the test plan"
            Source(node, Above(), work).lose(
                What.DROPPED, "-", f"{why}; nor is anything of the {node.below()} below it"
            )
    return plan, work
