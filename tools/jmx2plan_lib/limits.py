"""The engine's limits over a whole plan."""
from __future__ import annotations

from collections.abc import Iterator

from .element import Element
from .losses import Loss, What
from .xml_tree import Unreadable

MOST_THREADS = 64
MOST_LABELS = MOST_LOCKS = 256
MOST_ELEMENTS = 4_096
MOST_BYTES = 4_194_304


def enabled_of(plan: Element) -> Iterator[Element]:
    """The enabled elements in tree order. What is disabled while it goes is left out with all below it."""
    left = [plan]
    while left:
        element = left.pop()
        yield element
        if element.enabled:
            left.extend(child for child in reversed(element.children) if child.enabled)


def share(wanted: list[int], most: int) -> list[int]:
    """As many of each as are to be had, in the proportion of what is asked for, at least one of each."""
    total = sum(wanted)
    if total <= most:
        return wanted
    shares = [max(1, number * most // total) for number in wanted]
    while sum(shares) > most:
        shares[shares.index(max(shares))] -= 1
    return shares


def limit_threads(plan: Element, losses: list[Loss]) -> None:
    """Brings the threads of all groups to what the engine starts."""
    groups = [child for child in plan.children if child.enabled and child.type == "ThreadGroup"]
    for group in groups[MOST_THREADS:]:
        group.enabled = False
        losses.append(
            Loss(
                group.path,
                "-",
                What.DISABLED,
                f"the engine starts {MOST_THREADS} threads, and the groups before it take them",
            )
        )
    groups = groups[:MOST_THREADS]
    wanted = [group.props.get("threads", 1) for group in groups]
    for group, asked, given in zip(groups, wanted, share(wanted, MOST_THREADS)):
        if asked != given:
            group.props["threads"] = given
            why = f"{asked} becomes {given}: the engine starts {MOST_THREADS} threads, and all groups ask for {sum(wanted)}"
            losses.append(Loss(group.path, "ThreadGroup.num_threads", What.CHANGED, why))


def limit_names(plan: Element, losses: list[Loss]) -> None:
    """Labels and locks past the engine's number of them."""
    labels: set[str] = set()
    locks: set[str] = set()
    for element in enabled_of(plan):
        if element.type == "CriticalSection":
            locks.add(element.props["lock"])
            if len(locks) > MOST_LOCKS:
                locks.remove(element.props["lock"])
                element.enabled = False
                losses.append(
                    Loss(
                        element.path,
                        "CriticalSectionController.lockName",
                        What.DISABLED,
                        f"the engine has {MOST_LOCKS} locks",
                    )
                )
        elif element.type in ("Http", "Script", "Transaction"):
            labels.add(element.name)
            if len(labels) > MOST_LABELS:
                labels.remove(element.name)
                unlabel(element, losses)


def unlabel(element: Element, losses: list[Loss]) -> None:
    """An element whose label would be one too many: a transaction goes on as a Simple Controller."""
    why = f"the engine has {MOST_LABELS} names of samplers and transactions"
    if element.type == "Transaction":
        element.type = "Simple"
        losses.append(Loss(element.path, "testname", What.CHANGED, f"{why}: a Simple Controller stands for it"))
    else:
        element.enabled = False
        losses.append(Loss(element.path, "testname", What.DISABLED, why))


def need_group(plan: Element, losses: list[Loss]) -> None:
    """The engine runs no plan without an enabled group, and JMeter runs nothing then."""
    if not any(child.enabled and child.type == "ThreadGroup" for child in plan.children):
        plan.children.append(Element("ThreadGroup", "no enabled group", path=(*plan.path, "no enabled group")))
        losses.append(
            Loss(
                plan.path,
                "-",
                What.CHANGED,
                "it has no enabled thread group that the engine could run: an empty one is added",
            )
        )


def plan_text(plan: Element, losses: list[Loss]) -> str:
    """The plan as JSON; Unreadable where it is larger than what the engine reads."""
    limit_names(plan, losses)
    limit_threads(plan, losses)
    need_group(plan, losses)
    elements = sum(1 for _ in enabled_of(plan))
    if elements > MOST_ELEMENTS:
        raise Unreadable(f"its plan would have {elements:,} enabled elements, and the engine reads {MOST_ELEMENTS:,}")
    text = plan.text() + "\n"
    size = len(text.encode())
    if size > MOST_BYTES:
        raise Unreadable(f"its plan would have {size:,} bytes, and the engine reads {MOST_BYTES:,}")
    return text
