"""What becomes of each class of JMeter."""
from __future__ import annotations

from collections.abc import Callable

from . import configs, controllers, replies, samplers
from .element import Element, Source
from .losses import What, shown

Carrier = Callable[[Source], Element | list[Element]]

CARRIED: dict[str, Carrier] = {
    "TestPlan": controllers.test_plan,
    "ThreadGroup": controllers.thread_group,
    "GenericController": controllers.simple,
    "RecordingController": controllers.simple,
    "OnceOnlyController": controllers.once_only,
    "InterleaveControl": controllers.interleave,
    "RandomController": controllers.random,
    "RandomOrderController": controllers.random_order,
    "LoopController": controllers.loop,
    "IfController": controllers.if_controller,
    "WhileController": controllers.while_controller,
    "SwitchController": controllers.switch,
    "ForeachController": controllers.for_each,
    "TransactionController": controllers.transaction,
    "CriticalSectionController": controllers.critical_section,
    "HTTPSamplerProxy": samplers.http,
    "HTTPSampler": samplers.http,
    "HTTPSampler2": samplers.http,
    "JavaSampler": samplers.java_request,
    "kg.apc.jmeter.samplers.DummySampler": samplers.dummy,
    "Arguments": configs.user_variables,
    "HeaderManager": configs.header_manager,
    "CounterConfig": configs.counter,
    "CSVDataSet": configs.data_set,
    "UserParameters": configs.user_parameters,
    "ConstantTimer": configs.constant_timer,
    "UniformRandomTimer": configs.uniform_timer,
    "RegexExtractor": replies.regex_extractor,
    "JSONPostProcessor": replies.json_extractor,
    "BoundaryExtractor": replies.boundary_extractor,
    "ResponseAssertion": replies.response_assertion,
    "DurationAssertion": replies.duration_assertion,
    "SizeAssertion": replies.size_assertion,
    "ResultCollector": configs.listener,
}

WHY = {  # what is to be said of some classes without a counterpart
    "SetupThreadGroup": "the engine has no groups that run before the others",
    "PostThreadGroup": "the engine has no groups that run after the others",
    "TestFragmentController": "it runs where a Module or Include Controller names it, and the engine has neither",
    "ModuleController": "the engine runs no part of the plan from another place",
    "IncludeController": "the engine reads no other file",
    "ThroughputController": "the engine has no Throughput Controller",
    "RunTime": "the engine has no Runtime Controller",
    "GaussianRandomTimer": "the engine has no Gaussian Random Timer",
    "PoissonRandomTimer": "the engine has no Poisson Random Timer",
    "ConstantThroughputTimer": "the engine has no Constant Throughput Timer",
    "PreciseThroughputTimer": "the engine has no Precise Throughput Timer",
    "SyncTimer": "the engine has no Synchronizing Timer",
    "CookieManager": "the engine keeps no cookies",
    "CacheManager": "the engine keeps no cache",
    "AuthManager": "the engine sends no authorization of its own",
    "WorkBench": "a workbench is no part of the test",
    "ProxyControl": "the engine records nothing",
    "Summariser": "the reports come by the program's output",
    "ConfigTestElement": "the engine has no defaults for this sampler",
    "TestAction": "the engine has no Flow Control Action",
}
SCRIPTS = ("JSR223", "BeanShell", "BSF")
KINDS = (  # the nearest type by the end of a class name, where that keeps the tree readable
    ("ThreadGroup", "ThreadGroup"),
    ("Sampler", "Script"),
    ("Sampler2", "Script"),
    ("SamplerProxy", "Script"),
    ("TestAction", "Script"),
    ("Controller", "Simple"),
    ("RunTime", "Simple"),
    ("Timer", "ConstantTimer"),
    ("Listener", "Listener"),
    ("Summariser", "Listener"),
    ("Collector", "Listener"),
    ("ResultSaver", "Listener"),
    ("ResultAction", "Listener"),
)
BELOW_CONTROLLERS = ("Sampler", "Sampler2", "SamplerProxy", "Controller", "InterleaveControl")
EMPTY = {"Script": {"replies": [{}]}}


def reason(kind: str) -> str:
    """Why a class is not carried over."""
    if kind in WHY:
        return WHY[kind]
    if kind.startswith(SCRIPTS):
        return "the engine runs no scripts"
    return f"the class {shown(kind)} has no counterpart"


def nearest(source: Source) -> str | None:
    """The type that an element without a counterpart has in the plan, disabled; None where it is dropped."""
    kind = source.node.kind
    found = next((found for end, found in KINDS if kind.endswith(end)), None)
    if found == "Script" and any(child.kind.endswith(BELOW_CONTROLLERS) for child in source.node.children):
        return "Simple"  # a plugin's sampler that runs others
    if found:
        return found
    return "Simple" if source.node.children and kind not in ("WorkBench", "ProxyControl") else None


def without_counterpart(source: Source) -> list[Element]:
    """An element that can't be carried over: disabled, where that keeps the tree readable, or dropped."""
    kind, why = nearest(source), reason(source.node.kind)
    if kind is None:
        below = source.node.below()
        source.lose(What.DROPPED, "-", why + (f"; nor is anything of the {below} below it" if below else ""))
        return []
    source.disable("-", why)
    if source.node.kind in ("SetupThreadGroup", "PostThreadGroup"):
        element = controllers.thread_group(source)
    elif kind == "ConstantTimer" and source.has("ConstantTimer.delay"):
        element = configs.constant_timer(source)
    else:
        element = source.element(kind, dict(EMPTY.get(kind, {})))
    source.left = {name: value for name, value in source.left.items() if name == "TestPlan.comments"}
    return [element]


def carry_element(source: Source) -> list[Element]:
    """The elements of the plan for one of the .jmx, without what is below it, and the lines about it."""
    node = source.node
    if node.tag != node.kind:
        source.lose(
            What.CHANGED,
            "testclass",
            f"the XML element is called {shown(node.tag)}, by which JMeter goes; here its testclass counts",
        )
    carrier = CARRIED.get(node.kind)
    if node.kind == "ConfigTestElement" and node.gui == "HttpDefaultsGui":
        carrier = samplers.http_defaults
    if carrier is None:
        elements = without_counterpart(source)
        if not elements:
            return []
    else:
        found = carrier(source)
        elements = found if isinstance(found, list) else [found]
    source.rest()
    return elements
