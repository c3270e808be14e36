"""Extractors and assertions: what is done with a reply."""
from __future__ import annotations

from .element import WHOLE, Element, Source
from .losses import What, shown
from .patterns import Pattern, carry_path, carry_pattern
from .templates import has_reference

MOST_MATCH = 65_536
MOST_SIZE = 4_294_967_295
MOST_PATTERNS = 64
FIELDS = {"false": "body", "": "body", "true": "headers", "code": "code", "message": "message"}
OTHER_FIELDS = {
    "as_document": "the text of a document",
    "request_headers": "the headers of the request",
    "URL": "the URL",
}
ASSERTED = {
    "Assertion.response_data": "body",
    "": "body",
    "Assertion.response_headers": "headers",
    "Assertion.response_code": "code",
    "Assertion.response_message": "message",
}
MATCH, CONTAINS, NOT, EQUALS, SUBSTRING, OR = 1, 2, 4, 8, 16, 32
OPERATORS = {1: "=", 2: "!=", 3: ">", 4: "<", 5: ">=", 6: "<="}


def scope(source: Source, prop: str) -> None:
    """Whose reply is looked at. There are no sub-samples here, and variables are not looked at."""
    value = source.raw(prop).strip()
    name = source.raw("Scope.variable")
    if value == "variable":
        source.disable(prop, f"the engine looks at replies, and not at the variable {shown(name)}")
    elif value == "children":
        source.disable(prop, "the engine has no sub-samples")
    elif value == "all":
        source.lose(What.CHANGED, prop, "the engine has no sub-samples: the sample itself is looked at")


def field_of(source: Source, prop: str) -> dict:
    """The part of a reply that an extractor looks at."""
    value = source.raw(prop).strip()
    if value == "unescaped":
        source.lose(What.CHANGED, prop, "the body is looked at as it is, with its HTML entities")
        return {}
    if value not in FIELDS:
        source.disable(prop, f"the engine does not look at {OTHER_FIELDS.get(value, shown(value))}")
    return {"field": FIELDS[value]} if FIELDS.get(value, "body") != "body" else {}


def match_of(source: Source, prop: str) -> dict:
    """A match number. JMeter takes any number below 0 as all, and none as 0."""
    text = source.raw(prop).strip()
    if text.startswith("-") and text[1:].isdecimal():
        return {"match": -1}
    match = source.whole(prop, 0, MOST_MATCH, 0, unknown=1)
    return {"match": match} if match != 1 else {}


def default_of(source: Source, prefix: str) -> dict:
    """A default that is empty is none, unless the box for an empty one is ticked."""
    default, empty = source.plain(f"{prefix}.default"), source.flag(f"{prefix}.default_empty_value")
    return {"default": default} if default or empty else {}


def name_of(source: Source, prop: str, text: str) -> str:
    """The name of a variable."""
    if not text:
        source.disable(prop, "the engine takes no empty name")
    return source.as_plain(prop, text)


def pattern_of(source: Source, prop: str, text: str, ends: bool) -> str:
    """A regular expression; `ends` says whether a `$` in it means something else here."""
    if not source.fits(prop, text):
        return ""
    pattern: Pattern = carry_pattern(text)
    if pattern.fault:
        source.disable(prop, f"{shown(text)}: {pattern.fault}")
    elif pattern.ends and ends:
        source.lose(
            What.CHANGED,
            prop,
            f"{shown(text)}: `$` stands for the end of the text alone, and not before a last line feed",
        )
    return pattern.text if source.fits(prop, pattern.text) else ""


def regex_extractor(source: Source) -> Element:
    """A Regular Expression Extractor."""
    prop = "RegexExtractor.regex"
    props = {
        "ref": name_of(source, "RegexExtractor.refname", source.raw("RegexExtractor.refname")),
        "pattern": pattern_of(source, prop, source.raw(prop), ends=True),
    }
    template = source.plain("RegexExtractor.template")
    props |= {"template": template} if template != "$1$" else {}
    props |= match_of(source, "RegexExtractor.match_number") | default_of(source, "RegexExtractor")
    props |= field_of(source, "RegexExtractor.useHeaders")
    scope(source, "Sample.scope")
    return source.element("RegexExtractor", props)


def boundary_extractor(source: Source) -> Element:
    """A Boundary Extractor."""
    props = {"ref": name_of(source, "BoundaryExtractor.refname", source.raw("BoundaryExtractor.refname"))}
    for name, prop in (("left", "BoundaryExtractor.lboundary"), ("right", "BoundaryExtractor.rboundary")):
        props[name] = source.raw(prop)
        if has_reference(props[name]):
            source.disable(prop, "a reference in a boundary is not replaced")
        elif not props[name]:
            source.disable(prop, "the engine takes no empty boundary")
        elif not source.fits(prop, props[name]):
            props[name] = ""
    props |= match_of(source, "BoundaryExtractor.match_number") | default_of(source, "BoundaryExtractor")
    props |= field_of(source, "BoundaryExtractor.useHeaders")
    scope(source, "Sample.scope")
    return source.element("BoundaryExtractor", props)


def parts_of(text: str) -> list[str]:
    """The parts between semicolons, without the empty ones at the end, as Java parts a text."""
    parts = text.split(";")
    while len(parts) > 1 and not parts[-1]:
        parts.pop()
    return parts


def json_extractor(source: Source) -> list[Element]:
    """One extractor for each of the names."""
    names, paths = (parts_of(source.raw(f"JSONPostProcessor.{prop}")) for prop in ("referenceNames", "jsonPathExprs"))
    matches, defaults = (
        parts_of(source.raw(f"JSONPostProcessor.{prop}")) for prop in ("match_numbers", "defaultValues")
    )
    scope(source, "Sample.scope")
    source.gone("JSONPostProcessor.compute_concat", "there is no variable with all values in one")
    if len(names) != len(paths) or (defaults != [""] and len(defaults) != len(names)):
        source.disable(
            "JSONPostProcessor.referenceNames",
            f"{len(names)} names, {len(paths)} paths and {len(defaults)} defaults: JMeter sets nothing then",
        )
    elements, enabled = [], source.enabled
    for place, name in enumerate(names):
        source.enabled = enabled
        elements.append(
            json_path(
                source, name.strip(), *(part[place] if place < len(part) else "" for part in (paths, matches, defaults))
            )
        )
    return elements


def json_path(source: Source, name: str, text: str, match: str, default: str) -> Element:
    """The extractor of one path. JMeter sets a default also where it is empty."""
    path, fault = carry_path(text)
    if fault:
        source.disable(f"JSONPostProcessor.jsonPathExprs/{name}", f"{shown(text)}: {fault}")
    elif not source.fits("JSONPostProcessor.jsonPathExprs", path):
        path = ""
    props: dict = {"ref": name_of(source, "JSONPostProcessor.referenceNames", name), "path": path}
    wanted = source.number(match.strip(), 1 if match.strip() else 0)
    number = min(max(wanted, -1), MOST_MATCH)  # any number below 0 is all
    if match.strip() and (wanted > number or not WHOLE.fullmatch(match.strip())):
        source.lose(
            What.CHANGED,
            f"JSONPostProcessor.match_numbers/{name}",
            f"{shown(match)} becomes {number}: the engine takes 0 to {MOST_MATCH}",
        )
    props |= {"match": number} if number != 1 else {}
    return source.element(
        "JsonExtractor", props | {"default": source.as_plain("JSONPostProcessor.defaultValues", default)}
    )


def response_assertion(source: Source) -> list[Element]:
    """A Response Assertion; several where it has more patterns than one of the engine's, all of which must hold."""
    texts, kind = source.texts("Asserion.test_strings"), source.whole("Assertion.test_type", 0, MOST_SIZE, CONTAINS)
    props: dict = {"ignoreStatus": True} if source.flag("Assertion.assume_success") else {}
    value = source.raw("Assertion.test_field").strip()
    if value not in ASSERTED:
        source.disable("Assertion.test_field", f"the engine does not look at {shown(value)}")
    elif ASSERTED[value] != "body":
        props["field"] = ASSERTED[value]
    scope(source, "Assertion.scope")
    source.gone("Assertion.custom_message", "the failure message is the engine's own")
    if not texts:  # JMeter's holds then, whatever its type
        return [source.element("ResponseAssertion", {"test": "substring", "patterns": [""], **props})]
    props |= {"not": True} if kind & NOT else {}
    props |= {"or": True} if kind & OR else {}
    test = (
        "contains" if kind & CONTAINS else "equals" if kind & EQUALS else "substring" if kind & SUBSTRING else "matches"
    )
    patterns = [asserted(source, test, text) for text in texts]
    if kind & OR and len(patterns) > MOST_PATTERNS:
        source.disable(
            "Asserion.test_strings", f"the engine takes at most {MOST_PATTERNS} patterns, and here are {len(patterns)}"
        )
        return [source.element("ResponseAssertion", {"test": test, "patterns": patterns, **props})]
    return [
        source.element(
            "ResponseAssertion",
            {
                "test": test,
                "patterns": patterns[at : at + MOST_PATTERNS],
                **{key: on for key, on in props.items() if at == 0 or key != "ignoreStatus"},
            },
        )
        for at in range(0, len(patterns), MOST_PATTERNS)
    ]


def asserted(source: Source, test: str, text: str) -> str:
    """A pattern of a Response Assertion. A text with a reference would never be met as it is written."""
    prop = "Asserion.test_strings"
    if test in ("contains", "matches"):
        return pattern_of(source, prop, text, ends=test == "contains")
    if has_reference(text):
        source.disable(prop, f"{shown(text)}: a reference in a pattern is not replaced")
    return text if source.fits(prop, text) else ""


def duration_assertion(source: Source) -> Element:
    """A Duration Assertion."""
    prop = "DurationAssertion.duration"
    duration = source.whole(prop, 0, MOST_SIZE, 0)
    if duration == 0:
        source.disable(prop, "with 0 JMeter lets each sample pass, and the engine none that takes time")
    scope(source, "Assertion.scope")
    return source.element("DurationAssertion", {"ms": duration})


def size_assertion(source: Source) -> Element:
    """A Size Assertion."""
    size = source.whole("SizeAssertion.size", 0, MOST_SIZE, 0)
    operator = source.whole("SizeAssertion.operator", 1, 6, 1)
    value = source.raw("Assertion.test_field").strip().removeprefix("SizeAssertion.")
    if value in ("", "response_network_size"):
        source.lose(What.CHANGED, "Assertion.test_field", "the length of the body is compared, without the headers")
    elif value != "response_data":
        source.disable("Assertion.test_field", f"the engine compares the length of the body, and not of {shown(value)}")
    scope(source, "Assertion.scope")
    return source.element("SizeAssertion", {"size": size, "op": OPERATORS[operator]})
