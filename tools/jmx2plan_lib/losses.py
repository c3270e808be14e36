"""What is not carried over exactly: a line for each."""
from __future__ import annotations

import enum
from dataclasses import dataclass

LONGEST_NAME = 256
LONGEST_VALUE = 60
LONGEST_WHY = 1_000


class What(enum.Enum):
    """What becomes of an element or a property."""

    DROPPED = "dropped"  # it is not in the plan
    DISABLED = "disabled"  # its element stands in the plan, disabled
    CHANGED = "changed"  # it is in the plan with another value, or means something else there
    UNSUPPORTED = "unsupported"  # it is in the plan as it is written, and the engine does not do what JMeter does


def one_line(text: str, most: int) -> str:
    """A text without line feeds, tabs and the like, cut to a length."""
    text = text if len(text) <= most else text[:most] + ".."
    return "".join(char if char.isprintable() else ascii(char)[1:-1] for char in text)


def shown(value: str) -> str:
    """A value as it is shown in a line."""
    return f"`{one_line(value, LONGEST_VALUE)}`"


@dataclass(frozen=True)
class Loss:
    """One thing that is not carried over exactly. `counts` says whether `--strict` looks at it."""

    path: tuple[str, ...]
    prop: str
    what: What
    why: str
    counts: bool = True

    def line(self) -> str:
        """Four fields with a tab between two: the names from the plan down to the element, the property, what, and why."""
        names = (one_line(name.replace("\\", "\\\\").replace("/", "\\/"), LONGEST_NAME) for name in self.path)
        return "\t".join(
            (
                "/".join(names),
                one_line(self.prop, LONGEST_NAME) or "-",
                self.what.value,
                one_line(self.why, LONGEST_WHY),
            )
        )
