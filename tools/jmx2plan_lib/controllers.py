"""Test plans, thread groups and controllers."""
from __future__ import annotations

import re

from .conditions import condition_fault
from .configs import variables
from .element import Element, Source
from .losses import What
from .templates import Call, carry, read_template, spell

ON_ERROR = {"continue": "continue", "startnextloop": "nextLoop", "stopthread": "stopThread", "stoptest": "stopTest"}
MOST_THREADS = 1_000_000_000  # before the threads of all groups are brought to what the engine starts
MOST_ROUNDS = 2_147_483_647
MOST_RAMP = 86_400_000
MOST_INDEX = 4_294_967_295
LONGEST_LOCK = 256
VALUES = {"jexl3", "jexl2", "jexl", "groovy", "javaScript"}  # functions that give the value of a condition


def test_plan(source: Source) -> Element:
    """The test plan, with its own variables as an element."""
    source.gone("TestPlan.functional_mode", "the engine keeps no data of replies")
    if source.flag("TestPlan.serialize_threadgroups"):
        source.lose(
            What.CHANGED,
            "TestPlan.serialize_threadgroups",
            "the groups run at the same time, and not one after the other",
        )
    source.gone("TestPlan.user_define_classpath", "the engine loads no Java classes")
    source.leave("TestPlan.tearDown_on_shutdown")  # groups that tear down are reported themselves
    if not source.enabled:
        source.lose(What.CHANGED, "enabled", "the plan of the engine is never disabled: its groups are")
        source.enabled = True
    rows = variables(source, "TestPlan.user_defined_variables")
    plan = source.element("TestPlan")
    if rows:
        plan.children.append(
            Element(
                "UserVariables", "User Defined Variables", {"vars": rows}, path=(*source.path, "User Defined Variables")
            )
        )
    return plan


def thread_group(source: Source) -> Element:
    """A thread group."""
    if not source.has("ThreadGroup.main_controller"):
        source.lose(What.CHANGED, "ThreadGroup.main_controller", "there is none: one round stands for it")
    source.open("ThreadGroup.main_controller")
    props: dict = {"threads": source.whole("ThreadGroup.num_threads", 0, MOST_THREADS, 0, unknown=1)}
    if props["threads"] == 0:
        source.disable(
            "ThreadGroup.num_threads", "a group without a thread runs nothing, and the engine takes at least one"
        )
        props["threads"] = 1
    ramp = source.whole("ThreadGroup.ramp_time", 0, MOST_RAMP, 0, scale=1000)
    loops = rounds(source)
    action = on_error(source)
    schedule(source)
    if source.has("ThreadGroup.same_user_on_next_iteration") and not source.flag(
        "ThreadGroup.same_user_on_next_iteration"
    ):
        source.lose(
            What.DROPPED, "ThreadGroup.same_user_on_next_iteration", "a thread keeps its variables from round to round"
        )
    source.gone("ThreadGroup.delayedStart", "the engine makes each thread when the run begins")
    for prop, value, default in (
        ("threads", props.pop("threads"), 1),
        ("rampMs", ramp, 0),
        ("loops", loops, 1),
        ("onError", action, "continue"),
    ):
        if value != default:
            props[prop] = value
    return source.element("ThreadGroup", props)


def rounds(source: Source) -> int:
    """The rounds of a group, -1 where it never ends."""
    if not source.has("LoopController.loops") and not source.has("ThreadGroup.main_controller"):
        return 1
    loops = source.whole("LoopController.loops", -1, MOST_ROUNDS, 0, unknown=1)
    prop = "LoopController.continue_forever"
    if source.has(prop) and source.flag(prop):
        return -1
    if not source.has(prop) and loops != -1:
        source.lose(
            What.CHANGED, prop, "it is not there, by which JMeter never ends the group; here it ends after its rounds"
        )
    return loops


def on_error(source: Source) -> str:
    """The action after a failed sample."""
    prop = "ThreadGroup.on_sample_error"
    action = source.raw(prop, "continue").strip() or "continue"
    if action == "stoptestnow":
        source.lose(What.CHANGED, prop, "Stop Test Now becomes Stop Test: samplers that run come to their ends")
        return "stopTest"
    if action not in ON_ERROR:
        source.lose(What.CHANGED, prop, "the engine has no such action: it continues")
    return ON_ERROR.get(action, "continue")


def schedule(source: Source) -> None:
    """The scheduler, which the engine has not."""
    props = {
        "ThreadGroup.duration": "the engine has no scheduler: the group isn't ended by time",
        "ThreadGroup.delay": "the engine has no scheduler: the group doesn't begin later",
        "ThreadGroup.start_time": "the engine has no scheduler: the group begins with the run",
        "ThreadGroup.end_time": "the engine has no scheduler: the group isn't ended by time",
    }
    if not source.flag("ThreadGroup.scheduler"):
        source.leave(*props)
        return
    if source.raw("ThreadGroup.duration").strip() not in ("", "0"):
        source.leave("ThreadGroup.start_time", "ThreadGroup.end_time")
        props = {prop: why for prop, why in props.items() if not prop.endswith("_time")}
    for prop, why in props.items():
        source.gone(prop, why, but=("", "0"))


def simple(source: Source) -> Element:
    """A Simple or Recording Controller."""
    return source.element("Simple")


def once_only(source: Source) -> Element:
    """A Once Only Controller."""
    return source.element("OnceOnly")


def random_order(source: Source) -> Element:
    """A Random Order Controller."""
    return source.element("RandomOrder")


def interleave(source: Source) -> Element:
    """An Interleave Controller."""
    return chooser(source, "Interleave")


def random(source: Source) -> Element:
    """A Random Controller."""
    return chooser(source, "Random")


def chooser(source: Source, kind: str) -> Element:
    """An Interleave or Random Controller."""
    source.gone(
        "InterleaveControl.style",
        "sub-controller blocks are not ignored: the controllers below stand for one child each",
        but=("", "0"),
    )
    source.gone("InterleaveControl.accrossThreads", "each thread chooses for itself")
    return source.element(kind)


def loop(source: Source) -> Element:
    """A Loop Controller."""
    loops = source.template("LoopController.loops", "0").strip()
    prop = "LoopController.continue_forever"
    if source.has(prop) and not source.flag(prop):
        source.lose(
            What.CHANGED, prop, "the loop runs whenever it is come to; without this JMeter runs it the first time alone"
        )
    if re.fullmatch("-[0-9]+", loops):
        loops = "-1"  # any number below 0 is forever
    elif "${" not in loops and not re.fullmatch("[0-9]+", loops):
        source.lose(What.CHANGED, "LoopController.loops", "a text that is no number of rounds becomes 0")
        loops = "0"
    return source.element("Loop", {} if loops == "1" else {"loops": loops})


def if_controller(source: Source) -> Element:
    """An If Controller."""
    prop = "IfController.condition"
    text, expression = source.raw(prop), source.flag("IfController.useExpression")
    condition = (
        expression_of(source, prop, text)
        if expression or not text.strip()
        else old_condition(source, prop, text.strip())
    )
    props: dict = {"condition": condition}
    if source.flag("IfController.evaluateAll"):
        props["all"] = True
    return source.element("If", props)


def while_controller(source: Source) -> Element:
    """A While Controller."""
    prop = "WhileController.condition"
    text = source.raw(prop).strip()
    condition = "LAST" if text.upper() == "LAST" else expression_of(source, prop, text)
    return source.element("While", {"condition": condition} if condition else {})


def expression_of(source: Source, prop: str, text: str) -> str:
    """A condition that is a text to be compared with `true` or `false`. One that the engine can't find out would never hold
    in an If, and never end in a While: then the element is disabled."""
    if text != text.strip():
        source.lose(What.CHANGED, prop, "the spaces around the condition are taken away: with them it would never hold")
        text = text.strip()
    carried = carry(text)
    reasons = [*carried.faults, *([carried.refused] if carried.refused else [])]
    for reason in reasons:
        source.disable(prop, reason)
    return carried.text if reasons else source.as_template(prop, text)


def old_condition(source: Source, prop: str, text: str) -> str:
    """A condition of the old form, which JMeter reads as JavaScript: the engine's grammar has a part of that."""
    pieces = read_template(text)
    if len(pieces) == 1 and isinstance(pieces[0], Call) and pieces[0].name in VALUES:
        return expression_of(source, prop, text)
    fault = condition_fault(pieces)
    wrapped = "${__jexl3(" + spell(pieces, inside=True) + ")}"
    read = read_template(wrapped)
    if fault is None and not (len(read) == 1 and isinstance(read[0], Call) and spell(read[0].args[0]) == spell(pieces)):
        fault = "its parentheses are not balanced"
    if fault is None:
        return expression_of(source, prop, wrapped)
    source.disable(prop, f"the engine reads no JavaScript, and as a condition of its own it can't be read: {fault}")
    return text


def switch(source: Source) -> Element:
    """A Switch Controller."""
    value = source.template("SwitchController.value")
    return source.element("Switch", {"value": value} if value else {})


def for_each(source: Source) -> Element:
    """A ForEach Controller."""
    props: dict = {
        "input": source.plain("ForeachController.inputVal"),
        "output": source.plain("ForeachController.returnVal"),
    }
    for prop, name in (("input", "ForeachController.inputVal"), ("output", "ForeachController.returnVal")):
        if not props[prop]:
            source.disable(name, "the engine takes no empty name")
    start = source.whole("ForeachController.startIndex", 0, MOST_INDEX, 0)
    end = source.whole("ForeachController.endIndex", 0, MOST_INDEX, MOST_INDEX)
    props |= {"start": start} if start else {}
    props |= {"end": end} if end != MOST_INDEX else {}
    if not source.flag("ForeachController.useSeparator", True):
        props["separator"] = False
    return source.element("ForEach", props)


def transaction(source: Source) -> Element:
    """A Transaction Controller."""
    if source.flag("TransactionController.parent"):
        source.lose(
            What.CHANGED,
            "TransactionController.parent",
            "the samplers' samples are given too, before the transaction's",
        )
    if source.flag("TransactionController.includeTimers", True):
        source.lose(
            What.CHANGED,
            "TransactionController.includeTimers",
            "its time is the sum of its samplers' times, without timers and processors",
        )
    return source.element("Transaction")


def critical_section(source: Source) -> Element:
    """A Critical Section Controller."""
    prop = "CriticalSectionController.lockName"
    lock = source.plain(prop, "global_lock")
    if not lock:
        source.lose(What.CHANGED, prop, "a section without a name locks nothing: a Simple Controller stands for it")
    elif "CriticalSection" in source.above.types:
        source.lose(
            What.CHANGED,
            prop,
            "sections do not stand in one another: a Simple Controller stands for the inner one, without its lock",
        )
    else:
        if len(lock.encode()) > LONGEST_LOCK:
            lock = lock.encode()[:LONGEST_LOCK].decode(errors="ignore")
            source.lose(What.CHANGED, prop, f"the name is cut to {LONGEST_LOCK} bytes")
        return source.element("CriticalSection", {"lock": lock})
    return source.element("Simple")
