"""A second reading of HTTP responses (docs/use/HTTP.md), by regular expressions and lists of lines, that shares nothing with the
program: what a response comes to, and what the runner `http_cases` prints of it. bench/http_mutations.py holds the two against each
other.

Usage: bench/http_model.py <CASES    prints what must come of the lines of responses; of requests it prints `?`
"""
import re
import sys

PART = 65_536
BODY = 1_048_576
FIELDS = 128
VALUE = rb"[\t\x20-\x7e\x80-\xff]*"
FIELD = rb"[!#$%&'*+\-.^_`|~0-9A-Za-z]+:" + VALUE + rb"\r?\n"
HEAD = re.compile(rb"(?:\r?\n)*HTTP/1\.[01] ([0-9]{3})(?: (" + VALUE + rb"))?\r?\n((?:" + FIELD + rb")*)\r?\n")
SECTION = re.compile(rb"((?:" + FIELD + rb")*)\r?\n")
HEX = b"0123456789abcdefABCDEF"


class Refused(Exception):
    """A refusal, and how many bytes there are up to the one that settles it."""


class Open(Exception):
    """Neither whole nor refused; what it comes to where the input ends here."""


def ended_by_empty_line(data, start, begun):
    """Where the section that begins here ends: after its first empty line, of a head the first after a line that is not empty."""
    at = start
    while True:
        end = data.find(b"\n", at)
        if end < 0:
            return None
        empty = data[at:end] in (b"", b"\r")
        at = end + 1
        if empty and begun:
            return at
        begun = begun or not empty


def fields_of(text):
    return [line.rstrip(b"\r").split(b":", 1) for line in text.split(b"\n")[:-1]]


def framing_of(fields):
    """Whether the body comes in chunks, and its length; nothing where a field is wrong."""
    chunked, size = False, None
    for name, value in fields:
        name, value = name.lower(), value.strip(b" \t")
        if name == b"transfer-encoding":
            if value.lower() != b"chunked":
                return None
            chunked = True
        elif name == b"content-length":
            if not re.fullmatch(rb"[0-9]+", value) or int(value) >= 2**63 or size not in (None, int(value)):
                return None
            size = int(value)
    return chunked, size


def head_at(data, start):
    """The code, message, headers and framing of the head that begins here, and its end."""
    end = ended_by_empty_line(data, start, False)
    if end is None or end > PART:
        if len(data) >= PART:
            raise Refused("TooLong", PART)
        raise Open(None)
    text = data[start:end]
    match = HEAD.fullmatch(text)
    if not match or len(fields_of(match[3])) > FIELDS or int(match[1]) < 100:
        raise Refused("BadHead", end)
    framing = framing_of(fields_of(match[3]))
    if framing is None:
        raise Refused("BadHead", end)
    return int(match[1]), match[2] or b"", match[3], framing, end


def size_at(data, start):
    """The size of a chunk's line that begins here, and its end."""
    digits, state = b"", "digits"
    for at in range(start, len(data)):
        byte, length = data[at:at + 1], at + 1 - start
        if state == "return" and byte == b"\n":
            return int(digits, 16), at + 1
        if length == PART:
            raise Refused("TooLong", at + 1)
        if state == "digits" and byte in [bytes([b]) for b in HEX] and len(digits) < 16:
            digits += byte
        elif state == "digits" and not digits or state == "return":
            raise Refused("BadChunk", at + 1)
        elif state == "extension":
            if byte == b"\n":
                raise Refused("BadChunk", at + 1)
            state = "return" if byte == b"\r" else state
        elif byte in (b" ", b"\t"):
            state = "pad"
        elif byte == b";":
            state = "extension"
        elif byte == b"\r":
            state = "return"
        else:
            raise Refused("BadChunk", at + 1)
    raise Open(None)


def bytes_at(data, start, count, before):
    """Where this many bytes of a body end that has some before."""
    room = BODY - before
    if count > room and len(data) - start > room:
        raise Refused("TooLong", start + room + 1)
    if len(data) - start < count:
        raise Open(None)
    return start + count


def chunks_at(data, start):
    body = b""
    while True:
        size, start = size_at(data, start)
        if size == 0:
            break
        end = bytes_at(data, start, size, len(body))
        body += data[start:end]
        for byte in b"\r\n":
            if end == len(data):
                raise Open(None)
            if data[end] != byte:
                raise Refused("BadChunk", end + 1)
            end += 1
        start = end
    end = ended_by_empty_line(data, start, True)
    if end is None or end - start > PART:
        if len(data) - start >= PART:
            raise Refused("TooLong", start + PART)
        raise Open(None)
    match = SECTION.fullmatch(data[start:end])
    if not match or len(fields_of(match[1])) > FIELDS:
        raise Refused("BadChunk", end)
    return body, end


def whole(data, head_only):
    """The reply (code, message, headers, body), and how many bytes belong to it."""
    end = 0
    while True:
        code, message, headers, (chunked, size), end = head_at(data, end)
        if code >= 200:
            break
        if end == PART:
            raise Refused("TooLong", PART)
    if head_only or code in (204, 304):
        return (code, message, headers, b""), end
    if chunked:
        body, end = chunks_at(data, end)
        return (code, message, headers, body), end
    if size is not None:
        start, end = end, bytes_at(data, end, size, 0)
        return (code, message, headers, data[start:end]), end
    if len(data) - end > BODY:
        raise Refused("TooLong", end + BODY + 1)
    raise Open((code, message, headers, data[end:]))


def escaped(data):
    names = {9: "\\t", 10: "\\n", 13: "\\r", 34: '\\"', 39: "\\'", 92: "\\\\"}
    return "".join(names.get(b) or (chr(b) if 32 <= b < 127 else f"\\x{b:02x}") for b in data)


def shown(data):
    return f"{len(data)} bytes: {escaped(data[:8])}.." if len(data) > 60 else escaped(data)


def reply_shown(reply):
    return "\t".join([str(reply[0]), *map(shown, reply[1:])])


def came(data, head_only):
    """What the runner prints of a response, and its place."""
    try:
        reply, used = whole(data, head_only)
        return reply_shown(reply) + "\tdone", used
    except Refused as refused:
        return refused.args
    except Open as left:
        return (reply_shown(left.args[0]) if left.args[0] else "EndEarly") + "\tat the end", len(data)


def came_in_sizes(data, head_only, size):
    answer, place = came(data, head_only)
    if answer in ("BadHead", "BadChunk", "TooLong"):
        place = min(len(data), -(-place // size) * size)
    return f"{answer} {place}"


def came_in_pieces(pieces, head_only):
    data, at, out = b"".join(pieces), 0, []
    answer, place = came(data, head_only)
    settled = not answer.endswith("\tat the end")
    for piece in pieces:
        before, at = at, at + len(piece)
        if not settled or at < place:
            out.append("more")
        elif answer.endswith("\tdone"):
            out.append(f"done {max(0, place - before)}")
        else:
            out.append(answer)
    return "\t".join([*out, answer.removesuffix("\tdone").removesuffix("\tat the end")])


def bytes_of(field):
    """The bytes of a field of a case."""
    def unescaped(text):
        names = {"t": 9, "n": 10, "r": 13, "\\": 92, '"': 34, "'": 39, "0": 0}
        out, at = b"", 0
        while at < len(text):
            if text[at] != "\\":
                out += text[at].encode()
                at += 1
            elif text[at + 1] == "x":
                out += bytes([int(text[at + 2:at + 4], 16)])
                at += 4
            else:
                out += bytes([names[text[at + 1]]])
                at += 2
        return out
    if not field.startswith("@"):
        return unescaped(field)
    return b"".join(unescaped(part.split(":", 1)[1]) * int(part.split(":", 1)[0]) for part in field[1:].split("@"))


def printed(line):
    """What the runner prints for a line; nothing for one that is for a reader alone."""
    kind, *fields = line.split("\t")
    if kind == "response":
        data = bytes_of(fields[1])
        answer, place = came(data, "h" in fields[0])
        return f"{answer} {place}\t{len(data) + 3} ways"
    if kind == "prefixes":
        data = bytes_of(fields[1])
        early = all(came(data[:cut], "h" in fields[0])[0] == "EndEarly\tat the end" for cut in range(len(data)))
        return f"EndEarly after each of {len(data)} prefixes" if early else "?"
    if kind == "sized":
        return came_in_sizes(bytes_of(fields[2]), "h" in fields[0], int(fields[1]))
    if kind == "pieces":
        return came_in_pieces([bytes_of(field) for field in fields[1:]], "h" in fields[0])
    return "?" if kind == "request" else None


if __name__ == "__main__":
    for text in sys.stdin.read().splitlines():
        said = printed(text)
        if said is not None:
            print(said)
