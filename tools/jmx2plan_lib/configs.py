"""Configuration elements, pre-processors, timers and listeners."""
from __future__ import annotations

from .data_files import Form, NoRows, Rows, read_rows
from .decimals import whole_part
from .element import Element, Source
from .jmx import text_of
from .losses import What, shown
from .templates import carry

MOST_COUNT = 2**63 - 1
MOST_DELAY = 4_294_967_295
MOST_NAMES = 64
OWN_HEADERS = ("host", "connection", "content-length", "transfer-encoding")
# Functions whose value differs from thread to thread or from time to time.
VARYING = {"time", "Random", "counter", "threadNum"}
# Controllers that do not change how often a round comes, and samplers.
EACH_PASS = {"Simple", "Transaction", "CriticalSection", "Http", "Script"}


def variables(source: Source, table: str) -> list[list[str]]:
    """The names and values of a table of User Defined Variables."""
    rows = []
    for row in source.rows(table, "Arguments.arguments"):
        prop = f"{table}/{row.name}"
        if text_of(row.props, "Argument.desc").strip():
            source.lose(What.DROPPED, f"{prop}/Argument.desc", "a comment", counts=False)
        if VARYING & set(carry(row.value).calls):
            source.lose(What.CHANGED, prop, "each thread finds the value for itself, and JMeter once for the test")
        rows.append([source.as_plain(prop, row.name), source.as_template(prop, row.value)])
    return rows


def user_variables(source: Source) -> Element:
    """User Defined Variables."""
    return source.element("UserVariables", {"vars": variables(source, "Arguments.arguments")})


def header_manager(source: Source) -> Element:
    """An HTTP Header Manager."""
    headers, seen = [], set()
    for row in source.rows("HeaderManager.headers", ""):
        prop, name = f"HeaderManager.headers/{row.name}", row.name.strip()
        if not name:
            continue  # JMeter sends no header without a name
        if name.lower() in OWN_HEADERS:
            source.lose(What.UNSUPPORTED, prop, "the engine writes this header itself, and does not send this one")
        elif name.lower() in seen:
            source.lose(What.CHANGED, prop, "of two headers of one name the later one is sent alone")
        elif name.lower() == "accept-encoding" and row.value.strip().lower() not in ("", "identity"):
            source.lose(What.CHANGED, prop, "a body that comes compressed is not unpacked")
        seen.add(name.lower())
        headers.append([source.as_plain(prop, name), source.as_template(prop, row.value)])
    source.leave("HeaderManager.localName")
    return source.element("HeaderManager", {"headers": headers})


def once_a_round(source: Source, prop: str) -> None:
    """Counters and data sets advance in each round of their group, and in JMeter in each round of the controller above them."""
    groups = [place for place, kind in enumerate(source.above.types) if kind == "ThreadGroup"]
    if groups and set(source.above.types[groups[-1] + 1 :]) - EACH_PASS:
        source.lose(
            What.CHANGED, prop, "it advances in each round of its thread group, and not of the controller above it"
        )


def counter(source: Source) -> Element:
    """A Counter."""
    props: dict = {"var": source.plain("CounterConfig.name")}
    numbers = {
        "start": source.whole("CounterConfig.start", 0, MOST_COUNT, 0),
        "increment": source.whole("CounterConfig.incr", 0, MOST_COUNT, 0),
        "maximum": source.whole("CounterConfig.end", 0, MOST_COUNT, MOST_COUNT),
    }
    if numbers["start"] > numbers["maximum"]:
        numbers["maximum"] = numbers["start"]
        source.lose(
            What.CHANGED,
            "CounterConfig.end",
            f"it becomes {numbers['start']}, so that each round has the start, as in JMeter",
        )
    props |= {name: number for name, number in numbers.items() if number != (MOST_COUNT if name == "maximum" else 0)}
    if not source.flag("CounterConfig.per_user"):
        source.lose(
            What.CHANGED, "CounterConfig.per_user", "each thread counts for itself, and not all threads together"
        )
    source.gone("CounterConfig.format", "the number is written without a format")
    if source.flag("CounterConfig.reset_on_tg_iteration"):
        source.lose(
            What.DROPPED, "CounterConfig.reset_on_tg_iteration", "the counter goes on from round to round of the group"
        )
    once_a_round(source, "CounterConfig.incr")
    return source.element("Counter", props)


def names_of(source: Source) -> list[str]:
    """The variables of a data set; none where the first line of the file has their names."""
    text = source.plain("variableNames").strip()
    return [name.strip() for name in text.split(",")] if text else []


def at_end(source: Source) -> str:
    """What follows the last row."""
    recycle, stop = source.flag("recycle", True), source.flag("stopThread")
    return "recycle" if recycle else "stop" if stop else "eof"


def data_set(source: Source) -> Element:
    """A CSV Data Set Config, with the rows of its file."""
    filename = source.raw("filename").strip()
    form = Form(
        source.raw("fileEncoding").strip(),
        source.raw("delimiter", ","),
        source.flag("quotedData"),
        names_of(source),
        source.flag("ignoreFirstLine"),
    )
    end, mode = at_end(source), source.raw("shareMode", "shareMode.all")
    if mode != "shareMode.thread":
        source.lose(What.CHANGED, "shareMode", "each thread goes through all rows for itself")
    once_a_round(source, "filename")
    props: dict = {"names": form.names[:MOST_NAMES], "share": "thread", "text": ""} | (
        {"atEnd": end} if end != "recycle" else {}
    )
    try:
        if form.encoding and "${" in form.encoding:
            raise NoRows(f"its encoding {shown(form.encoding)} is not known before a run")
        rows = read_rows(source.work.data_dir, source.work.constant(filename) or filename, form)
        if not rows.count or not rows.names:
            raise NoRows("its file has no row that fits")
    except NoRows as why:
        source.disable("filename", f"{shown(filename)}: {why}")
        return source.element("DataSet", props)
    return source.element("DataSet", props | taken(source, rows))


def taken(source: Source, rows: Rows) -> dict:
    """The rows that go into the plan, and what is lost of them."""
    if rows.cut:
        source.lose(
            What.CHANGED,
            "filename",
            f"the first {rows.count} rows stand in the plan: its texts have at most 65,536 bytes",
        )
    if rows.short:
        source.lose(
            What.CHANGED,
            "filename",
            f"empty texts stand for the fields that rows lack: {rows.short} of the rows have fewer than there are names",
        )
    if len(rows.names) > MOST_NAMES:
        source.disable("variableNames", f"the engine takes at most {MOST_NAMES} names, and here are {len(rows.names)}")
    return {"names": rows.names, "text": rows.text}


def user_parameters(source: Source) -> Element:
    """User Parameters, with the values of the first user."""
    names = source.texts("UserParameters.names")
    source.leave("UserParameters.thread_values")
    table = source.node.props.get("UserParameters.thread_values")
    users = [[value.text for value in user.children] for user in table.children] if table is not None else []
    if len(users) > 1:
        source.lose(
            What.CHANGED,
            "UserParameters.thread_values",
            f"all threads have the values of the first of {len(users)} users",
        )
    if source.flag("UserParameters.per_iteration"):
        source.lose(What.CHANGED, "UserParameters.per_iteration", "the values are set before each sampler")
    rows = [
        [
            source.as_plain(f"UserParameters.names/{name}", name),
            source.as_template(f"UserParameters.thread_values/{name}", value),
        ]
        for name, value in zip(names, users[0] if users else [])
    ]
    return source.element("UserParameters", {"vars": rows})


def milliseconds(source: Source, prop: str) -> str:
    """A time of a timer: digits, or a text with references. The engine takes any other text as 0."""
    text = source.template(prop).strip()
    if "${" in text or text in ("", "0"):
        return text or "0"
    number = whole_part(text)
    value = str(min(max(number or 0, 0), MOST_DELAY))
    if number is None or (value != text and not whole_part(text, exact=True) == int(value)):
        source.lose(What.CHANGED, prop, f"{shown(text)} becomes {value}: the engine waits for whole milliseconds")
    return value


def as_number(text: str) -> int | str:
    """Digits as the number that they are."""
    return int(text) if text.isdecimal() else text


def constant_timer(source: Source) -> Element:
    """A Constant Timer."""
    delay = milliseconds(source, "ConstantTimer.delay")
    return source.element("ConstantTimer", {} if delay == "0" else {"delay": as_number(delay)})


def uniform_timer(source: Source) -> Element:
    """A Uniform Random Timer."""
    offset, reach = milliseconds(source, "ConstantTimer.delay"), milliseconds(source, "RandomTimer.range")
    props = {} if offset == "0" else {"offset": as_number(offset)}
    return source.element("UniformTimer", props | ({} if reach == "0" else {"range": as_number(reach)}))


def listener(source: Source) -> Element:
    """A listener of JMeter's own windows. Results come by the program's output."""
    source.gone("filename", "the results come on standard output, and not into this file")
    source.leave("ResultCollector.error_logging", "ResultCollector.success_only_logging", "objProp")
    source.lose(What.DROPPED, "saveConfig", "what a listener shows and saves", counts=False)
    for prop in [*source.left]:
        if not prop.startswith("TestPlan."):
            source.gone(prop, "what a listener shows and saves", counts=False)
    return source.element("Listener")
