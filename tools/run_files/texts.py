"""Texts of a run as a person reads them."""


def shown(text, most=None):
    """A text on one line: what does not print, and bytes that are not UTF-8, as escapes; cut after a number of characters."""
    if not text.isprintable():
        text = "".join(char if char.isprintable() else _escape(char) for char in text)
    return text if most is None or len(text) <= most else text[:most - 1] + "…"


def _escape(char):
    code = ord(char)
    if 0xdc80 <= code <= 0xdcff:  # a byte that is not UTF-8, as Python keeps it
        return f"\\x{code - 0xdc00:02x}"
    return {"\n": "\\n", "\r": "\\r", "\t": "\\t"}.get(char) or (f"\\x{code:02x}" if code < 0x100 else f"\\u{code:04x}")


def many(number, what):
    """A number of things: `1 sample`, `1,200 samples`."""
    return f"{number:,} {what}" if number == 1 else f"{number:,} {what}s"


def mean_of(sums):
    """The mean time with one decimal, and nothing where there is no sample."""
    return f"{sums.mean:,.1f}" if sums.count else ""


def share_of(sums):
    """The share of failed samples in percent, with one decimal; one that is there is never shown as 0."""
    percent = 100 * sums.share
    return f"{percent:.1f} %" if percent >= 0.05 or not sums.errors else "< 0.1 %"
