"""The numbers that texts of digits stand for."""

KEPT = 1 << 16
DIGITS = 20  # of a number, at most


class Values(dict):
    """For each text its number; a ValueError where it isn't 1 to DIGITS decimal digits.

    The first KEPT texts are kept with their numbers: most come again and again, and `int` takes several times as long.
    """

    def __missing__(self, text):
        if not (text.isdigit() and text.isascii() and len(text) <= DIGITS):
            raise ValueError(text)
        value = int(text)
        if len(self) < KEPT:
            self[text] = value
        return value


value_of = Values().__getitem__
