"""Decimal numbers, of which the engine takes the whole part."""
from __future__ import annotations

from decimal import Decimal, InvalidOperation


def whole_part(text: str, exact: bool = False) -> int | None:
    """The whole part of a decimal number; None where the text is none, or with `exact` where there is more than that part."""
    try:
        number = Decimal(text[:60])
        if not number.is_finite() or abs(number.adjusted()) > 60:
            return None
        return None if exact and number != int(number) else int(number)
    except (InvalidOperation, ValueError):
        return None
