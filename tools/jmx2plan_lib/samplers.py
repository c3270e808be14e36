"""Samplers: HTTP requests, and those that answer themselves."""
from __future__ import annotations

import re
from urllib.parse import quote_plus, unquote_plus

from .element import Argument, Element, Source
from .jmx import Node, text_of
from .losses import What, shown
from .templates import has_reference

METHODS = ("GET", "POST", "PUT", "DELETE", "HEAD")
WITH_BODY = ("POST", "PUT", "PATCH")
WHOLE_URL = re.compile(r"(?i)(https?)://((?:\$\{[^}]*\}|[^/:?#$])+)(?::((?:\$\{[^}]*\}|[0-9])+))?([/?#].*)?", re.DOTALL)
MOST_MS = 4_294_967_295
NO_COUNTERPART = {
    "HTTPSampler.follow_redirects": "a redirect is not followed: its reply is the sample",
    "HTTPSampler.auto_redirects": "a redirect is not followed: its reply is the sample",
    "HTTPSampler.use_keepalive": "each request has a connection of its own",
    "HTTPSampler.image_parser": "what a page embeds is not fetched",
    "HTTPSampler.monitor": "the engine has no monitor",
    "HTTPSampler.md5": "the body is kept as it is, and no hash of it",
    "HTTPSampler.connect_timeout": "the engine has no timeouts",
    "HTTPSampler.response_timeout": "the engine has no timeouts",
    "HTTPSampler.proxyHost": "the request goes to the host itself, without a proxy",
    "HTTPSampler.ipSource": "the system chooses the address from which the request goes",
    "HTTPSampler.concurrentDwn": "what a page embeds is not fetched",
}
WITHOUT_EFFECT = (  # details of what is reported already, or of how JMeter does it
    "HTTPSampler.implementation",
    "HTTPSampler.concurrentPool",
    "HTTPSampler.embedded_url_re",
    "HTTPSampler.embedded_url_exclude_re",
    "HTTPSampler.BROWSER_COMPATIBLE_MULTIPART",
    "HTTPSampler.ipSourceType",
    "HTTPSampler.proxyPort",
    "HTTPSampler.proxyUser",
    "HTTPSampler.proxyPass",
    "HTTPSampler.proxyScheme",
    "HTTPSampler.FILE_FIELD",
    "HTTPSampler.MIMETYPE",
    "HTTPSampler.URL",
    "GraphQLHTTPSampler.operationName",
    "GraphQLHTTPSampler.query",
    "GraphQLHTTPSampler.variables",
)


def protocol_below(nodes: list[Node], protocol: str) -> str:
    """The protocol that HTTP Request Defaults among these elements set, or the one from above."""
    for node in nodes:
        if node.enabled and node.kind == "ConfigTestElement" and node.gui == "HttpDefaultsGui":
            protocol = text_of(node.props, "HTTPSampler.protocol").strip().lower() or protocol
    return protocol


def target(source: Source, default_protocol: str) -> dict:
    """Host, port and path, and whether the protocol is one of the engine's."""
    parts = {
        "host": source.template("HTTPSampler.domain"),
        "port": source.template("HTTPSampler.port").strip(),
        "path": source.template("HTTPSampler.path"),
    }
    protocol = source.raw("HTTPSampler.protocol").strip().lower() or default_protocol
    whole = WHOLE_URL.fullmatch(parts["path"])
    if whole:  # JMeter then looks neither at the host nor at the protocol
        protocol, rest = whole[1].lower(), whole[4] or "/"
        parts = {"host": whole[2], "port": whole[3] or "80", "path": rest if rest.startswith("/") else "/" + rest}
    elif re.match(r"(?i)https?://", parts["path"]):
        source.disable("HTTPSampler.path", "the host and port of this URL can't be told from its path")
    if "${" in protocol:
        source.lose(
            What.CHANGED, "HTTPSampler.protocol", f"{shown(protocol)} is not looked at: the request goes by plain HTTP"
        )
    elif protocol not in ("", "http"):
        source.disable(
            "HTTPSampler.protocol", f"the engine knows plain HTTP alone, and this asks for {shown(protocol)}"
        )
    if "${" not in parts["port"] and not parts["port"].isdecimal() or parts["port"] == "0":
        if parts["port"] not in ("", "0"):
            source.lose(
                What.CHANGED, "HTTPSampler.port", f"{shown(parts['port'])} is no number: the default port stands for it"
            )
        parts["port"] = ""
    return {name: text for name, text in parts.items() if text}


def method_of(source: Source) -> str:
    """The method, which is one of the engine's or disables the sampler."""
    prop = "HTTPSampler.method"
    method = source.raw(prop).strip() or "GET"
    if "${" in method:
        source.lose(
            What.CHANGED,
            prop,
            f"{shown(method)} becomes what stands in the test plan: the engine takes no reference here",
        )
        method = (source.work.constant(method) or method).strip()
    if method not in METHODS:
        source.disable(prop, f"the engine has no method {shown(method)}")
    return method


def is_body(source: Source, rows: list[Argument], method: str) -> bool:
    """Whether the values are the request's body: by the property, or in a request with a body where no value has a name."""
    nameless = bool(rows) and not any(row.name for row in rows)
    return source.flag("HTTPSampler.postBodyRaw") or (nameless and method in WITH_BODY)


def parameter(source: Source, row: Argument) -> list[str]:
    """A pair of a name and a value. The engine encodes both always."""
    prop, value = f"HTTPsampler.Arguments/{row.name}", row.value
    content_type = text_of(row.props, "HTTPArgument.content_type").strip()
    if content_type not in ("", "text/plain"):
        source.lose(What.DROPPED, prop, "a parameter has no content type of its own")
    if not value and not row.flag("HTTPArgument.use_equals", False) and text_of(row.props, "Argument.metadata") != "=":
        source.lose(What.CHANGED, prop, "an equals sign follows the name, also where the value is empty")
    if not row.flag("HTTPArgument.always_encode", False):
        if has_reference(value):
            source.lose(
                What.CHANGED,
                prop,
                "the value is encoded, and JMeter sends it as it is: they differ where it has more than letters and digits",
            )
        else:
            written, value = value, unquote_plus(value)
            encoded = quote_plus(value, safe="*-._").replace("~", "%7E")
            if encoded != written:
                source.lose(What.CHANGED, prop, f"{shown(written)} is sent as {shown(encoded)}")
    return [source.as_plain(prop, row.name), source.as_template(prop, value)]


def content(source: Source, method: str) -> dict:
    """The parameters, or the body."""
    rows = source.rows("HTTPsampler.Arguments", "Arguments.arguments")
    if is_body(source, rows, method):
        body = source.as_template("HTTPsampler.Arguments", "".join(row.value for row in rows))
        return {"body": body} if body else {}
    params = [parameter(source, row) for row in rows if row.name]  # JMeter passes over a row without a name
    return {"params": params} if params else {}


def other_bodies(source: Source, method: str) -> None:
    """Bodies that the engine doesn't send: a request without them would be another one."""
    if source.flag("HTTPSampler.DO_MULTIPART_POST") and method in WITH_BODY:
        source.disable("HTTPSampler.DO_MULTIPART_POST", "the engine sends no multipart bodies")
    files = [row for row in source.rows("HTTPsampler.Files", "HTTPFileArgs.files") if text_of(row.props, "File.path")]
    if files or source.raw("HTTPSampler.FILE_NAME"):
        source.disable("HTTPsampler.Files", "the engine sends no files")


def connection(source: Source) -> None:
    """What is dropped of how a request is made."""
    encoding = source.raw("HTTPSampler.contentEncoding").strip()
    if encoding.lower() not in ("", "utf-8", "utf8"):
        source.lose(
            What.CHANGED, "HTTPSampler.contentEncoding", f"texts are sent in UTF-8, and not in {shown(encoding)}"
        )
    for prop, why in NO_COUNTERPART.items():
        source.gone(prop, why)
    source.leave(*WITHOUT_EFFECT)


def http(source: Source) -> Element:
    """An HTTP Request. Where another request would be sent than JMeter's, it is disabled."""
    props = target(source, protocol_below(source.node.children, source.above.protocol))
    method = method_of(source)
    if method != "GET":
        props["method"] = method
    props |= content(source, method)
    other_bodies(source, method)
    connection(source)
    return source.element("Http", props)


def http_defaults(source: Source) -> Element:
    """HTTP Request Defaults. Their protocol is looked at by the samplers that they apply to."""
    props = {}
    for name, prop in (("host", "HTTPSampler.domain"), ("port", "HTTPSampler.port"), ("path", "HTTPSampler.path")):
        text = source.template(prop)
        if text and not (name == "port" and text.strip() == "0"):
            props[name] = text
    if source.raw("HTTPSampler.protocol").strip().lower() not in ("", "http"):
        source.lose(
            What.DROPPED,
            "HTTPSampler.protocol",
            "the engine knows plain HTTP alone; the requests that take this protocol are disabled where it is known",
        )
    for row in source.rows("HTTPsampler.Arguments", "Arguments.arguments"):
        source.lose(What.DROPPED, f"HTTPsampler.Arguments/{row.name}", "defaults have no parameters")
    source.flag("HTTPSampler.postBodyRaw")
    connection(source)
    return source.element("HttpDefaults", props)


def reply_of(source: Source, prop: str, code: str, success: bool) -> dict:
    """The code of a reply. A sample succeeds by its code alone, from 200 to 399."""
    number = int(code) if re.fullmatch("[0-9]{1,3}", code.strip()) else None
    taken = number
    if number is None or (200 <= number <= 399) != success:
        taken = 200 if success else 500
        said = "succeeds" if success else "fails"
        source.lose(What.CHANGED, prop, f"{shown(code)} becomes {taken}: a sample {said} by its code alone")
    return {} if taken == 200 else {"code": taken}


def java_request(source: Source) -> Element:
    """A Java Request. Of its classes JMeter's own JavaTest, which answers itself, is carried over."""
    name = source.raw("classname").strip()
    rows = {row.name: row.value for row in source.rows("arguments", "Arguments.arguments")}
    if name.rsplit(".", 1)[-1] != "JavaTest":
        source.disable("classname", f"the engine runs no Java: {shown(name)}")
        return source.element("Script", {"replies": [{}]})
    reply = reply_of(
        source, "arguments/ResponseCode", rows.get("ResponseCode", ""), rows.get("Status", "OK").upper() == "OK"
    )
    reply |= {"ms": ms} if (ms := milliseconds(source, "arguments/Sleep_Time", rows.get("Sleep_Time", "100"))) else {}
    if rows.get("Sleep_Mask", "0xFF").strip().lower() not in ("", "0", "0x0", "0x00"):
        source.lose(What.DROPPED, "arguments/Sleep_Mask", "each reply takes the same time, without a part by chance")
    message, body = (
        source.as_plain(f"arguments/{arg}", rows.get(arg, "")) for arg in ("ResponseMessage", "ResultData")
    )
    element = source.element(
        "Script",
        script_props(reply, message, body, source.as_template("arguments/SamplerData", rows.get("SamplerData", ""))),
    )
    label = rows.get("Label", "")
    if label and label != element.name:
        element.name = label.encode()[:256].decode(errors="ignore")
        source.lose(What.CHANGED, "testname", f"the label {shown(label)} is its name, as it is the sample's in JMeter")
    return element


def script_props(reply: dict, message: str, body: str, request: str) -> dict:
    """The properties of a sampler with one reply."""
    reply |= {"message": message} if message != "OK" else {}
    reply |= {"body": body} if body else {}
    return {"replies": [reply]} | ({"request": request} if request else {})


def milliseconds(source: Source, prop: str, text: str) -> int:
    """A number of milliseconds of a reply."""
    number = source.number(text.strip(), 0)
    bounded = min(max(number, 0), MOST_MS)
    if text.strip() != str(bounded):
        source.lose(
            What.CHANGED, prop, f"{shown(text)} becomes {bounded}: a reply takes a whole number of milliseconds"
        )
    return bounded


def dummy(source: Source) -> Element:
    """A Dummy Sampler, of the plugins at jmeter-plugins.org."""
    reply = reply_of(source, "RESPONSE_CODE", source.raw("RESPONSE_CODE"), source.flag("SUCCESFULL", True))
    reply |= {"ms": ms} if (ms := milliseconds(source, "RESPONSE_TIME", source.raw("RESPONSE_TIME", "0"))) else {}
    source.leave("WAITING", "RESULT_CLASS")  # the engine's replies wait for nothing
    source.gone("LATENCY", "a sample has no latency", but=("", "0"))
    source.gone("CONNECT", "a sample has no time of connecting", but=("", "0"))
    source.gone("URL", "a sample has no URL")
    message, body = source.plain("RESPONSE_MESSAGE", "OK"), source.plain("RESPONSE_DATA")
    return source.element("Script", script_props(reply, message, body, source.template("REQUEST_DATA")))
