"""Conditions of If and While: whether a text is one of the grammar of docs/use/CONDITIONS.md, with references in it."""
from __future__ import annotations

import re
from dataclasses import dataclass

DEEPEST = 64
COMPARISONS = ("==", "!=", "<=", "<", ">=", ">")
OPERATORS = re.compile(r"==|!=|<=|<|>=|>|&&|\|\||!|\(|\)")
WORD = re.compile(r"-?[0-9]+|true|false")
NAMES = {"number": "a number", "text": "a text", "truth": "a truth"}


class Fault(Exception):
    """The text is no condition, or has no value."""


@dataclass
class Token:
    """An operator (`kind` is `operator`) or an operand of a kind; `any` is what a reference gives."""

    kind: str
    text: str


class Tokens:
    """The tokens of the pieces of an argument. A piece that is not a text is a reference, whose value isn't known."""

    def __init__(self, pieces: list) -> None:
        self.found: list[Token] = []
        self.quote = ""
        self.joined = False  # whether an operand stands right before, without a space
        for place, piece in enumerate(pieces):
            if isinstance(piece, str):
                self.plain(piece, place + 1 < len(pieces))
            elif not self.quote:
                self.operand("any", "a reference")
        if self.quote:
            raise Fault(f"a text that begins with {self.quote} is not closed")

    def operand(self, kind: str, text: str) -> None:
        """An operand. One right after another is one value, which isn't known where a reference is in it."""
        before = self.found[-1] if self.joined else None
        if before is not None and "any" in (kind, before.kind) and "text" not in (kind, before.kind):
            before.kind = "any"
        else:
            self.found.append(Token(kind, text))
        self.joined = True

    def plain(self, text: str, follows: bool) -> None:
        """Plain text; `follows` says whether a reference comes right after it."""
        at = 0
        while at < len(text):
            if self.quote:
                end = text.find(self.quote, at)
                if end < 0:
                    return
                self.quote, at = "", end + 1
                self.operand("text", "a text")
            elif text[at] == " ":
                self.joined, at = False, at + 1
            elif text[at] in "\"'":
                self.quote, at = text[at], at + 1
                self.joined = False
            elif follows and text[at:] == "-":
                self.operand("any", "a reference")
                at += 1
            else:
                at = self.word(text, at)

    def word(self, text: str, at: int) -> int:
        """Reads a token that is no text, and gives the place after it."""
        found = OPERATORS.match(text, at)
        if found:
            self.found.append(Token("operator", found[0]))
            self.joined = False
            return found.end()
        found = WORD.match(text, at)
        if found and found[0] in ("true", "false"):
            self.operand("truth", found[0])
        elif found and (len(found[0]) < 30 and -(2**63) <= int(found[0]) < 2**63):
            self.operand("number", found[0])
        else:
            raise Fault(f"at {text[at:at + 20]!a} there is nothing of its grammar")
        return found.end()


class Grammar:
    """Reads tokens from the strongest operators to the weakest, and says of what kind the value is."""

    def __init__(self, tokens: list[Token]) -> None:
        self.tokens, self.at, self.deep = tokens, 0, 0

    def next_is(self, *texts: str) -> bool:
        """Whether one of these operators comes next."""
        return (
            self.at < len(self.tokens)
            and self.tokens[self.at].kind == "operator"
            and self.tokens[self.at].text in texts
        )

    def take(self) -> Token:
        """The next token."""
        if self.at == len(self.tokens):
            raise Fault("something is missing at its end")
        self.at += 1
        return self.tokens[self.at - 1]

    def whole(self) -> str:
        """The kind of the whole, which ends with the tokens."""
        kind = self.joined(("||",))
        if self.at < len(self.tokens):
            raise Fault(f"{self.tokens[self.at].text!a} can't stand where it does")
        return kind

    def joined(self, operators: tuple[str, ...]) -> str:
        """Operands joined by `||`, each of operands joined by `&&`."""
        part = (lambda: self.joined(("&&",))) if operators == ("||",) else self.comparison
        kind = part()
        while self.next_is(*operators):
            self.take()
            need("truth", kind, operators[0])
            need("truth", part(), operators[0])
            kind = "truth"
        return kind

    def comparison(self) -> str:
        """One operand, or two that are compared."""
        left = self.operand()
        if not self.next_is(*COMPARISONS):
            return left
        sign = self.take().text
        right = self.operand()
        if sign not in ("==", "!="):
            need("number", left, sign)
            need("number", right, sign)
        elif "any" not in (left, right) and left != right:
            raise Fault(f"`{sign}` compares {NAMES[left]} with {NAMES[right]}, which gives no text here")
        return "truth"

    def operand(self) -> str:
        """A value, `!` before an operand, or what stands in parentheses."""
        token = self.take()
        if token.kind != "operator":
            return token.kind
        self.deep += 1
        if token.text not in ("!", "(") or self.deep > DEEPEST:
            raise Fault(f"{token.text!a} can't stand where it does")
        kind = self.operand() if token.text == "!" else self.joined(("||",))
        if token.text == "!":
            need("truth", kind, "!")
        elif not self.next_is(")"):
            raise Fault("a parenthesis is not closed")
        else:
            self.take()
        self.deep -= 1
        return kind


def need(wanted: str, kind: str, sign: str) -> None:
    """Refuses an operand of another kind."""
    if kind not in (wanted, "any"):
        raise Fault(
            f"`{sign}` takes {NAMES[wanted]} on both sides, and here is {NAMES[kind]}"
            if sign != "!"
            else f"`!` takes a truth, and here is {NAMES[kind]}"
        )


def condition_fault(pieces: list) -> str | None:
    """Why the pieces of an argument of `__jexl3` are no condition that has a value; None where they are one."""
    try:
        Grammar(Tokens(pieces).found).whole()
    except Fault as fault:
        return str(fault)
    return None
