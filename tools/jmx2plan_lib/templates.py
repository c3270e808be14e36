"""Texts with references to variables and functions: how the engine reads them, and what it does otherwise than JMeter.

The grammar is that of docs/use/TEMPLATES.md, the functions are those of docs/use/FUNCTIONS.md."""
from __future__ import annotations

import re
from dataclasses import dataclass, field

from .conditions import condition_fault
from .losses import shown

DEEPEST_CALL = 16
VARIABLE = re.compile(r"\$\{([^${}(),\\]+)\}")
CALL = re.compile(r"\$\{__([A-Za-z0-9]+)\(")
IN_ARGUMENTS = re.compile(r"\\,|[,()]|\$\{")
NUMBER = re.compile(r"-?[0-9]{1,30}")


@dataclass
class Var:
    """A reference to a variable; `at` is its place in the text."""

    name: str
    at: int


@dataclass
class Call:
    """A call of a function."""

    name: str
    args: list[Pieces]
    at: int


Pieces = list  # of str, Var and Call


class Parser:
    """Reads one text. What begins at a place is read once for each depth, so that a hostile text takes no long time."""

    def __init__(self, text: str) -> None:
        self.text = text
        self.seen: dict[tuple[int, int], tuple[Var | Call, int] | None] = {}

    def pieces(self) -> Pieces:
        """The one reading of the text."""
        pieces: Pieces = []
        plain = at = 0
        while (at := self.text.find("${", at)) >= 0:
            found = self.reference(at, DEEPEST_CALL)
            if found is None:
                at += 1
                continue
            if plain < at:
                pieces.append(self.text[plain:at])
            pieces.append(found[0])
            plain = at = found[1]
        return pieces + [self.text[plain:]] if plain < len(self.text) else pieces

    def reference(self, at: int, calls: int) -> tuple[Var | Call, int] | None:
        """The reference that begins at a place and holds at most that many calls in one another, and its end."""
        key = (at, calls)
        if key not in self.seen:
            variable = VARIABLE.match(self.text, at)
            self.seen[key] = (Var(variable[1], at), variable.end()) if variable else self.call(at, calls)
        return self.seen[key]

    def call(self, at: int, calls: int) -> tuple[Call, int] | None:
        """The call that begins at a place, and its end."""
        head = CALL.match(self.text, at)
        if head is None or calls == 0:
            return None
        if self.text.startswith(")}", head.end()):
            return Call(head[1], [], at), head.end() + 2
        read = self.arguments(head.end(), calls - 1)
        if read is None or not self.text.startswith("}", read[1]):
            return None
        return Call(head[1], read[0], at), read[1] + 1

    def arguments(self, at: int, calls: int) -> tuple[list[Pieces], int] | None:
        """The arguments from a place on, and the place after the parenthesis that ends them."""
        args: list[Pieces] = [[]]
        opened = 0
        while special := IN_ARGUMENTS.search(self.text, at):
            add(args[-1], self.text[at : special.start()])
            at = special.end()
            if special[0] == "${":
                found = self.reference(special.start(), calls)
                if found is None:
                    return None
                args[-1].append(found[0])
                at = found[1]
            elif special[0] == ",":
                args.append([])
            elif special[0] == ")" and opened == 0:
                return args, at
            else:
                opened += {"(": 1, ")": -1}.get(special[0], 0)
                add(args[-1], special[0][-1])
        return None


def add(pieces: Pieces, text: str) -> None:
    """Adds plain text, which is one piece with the plain text before it."""
    if text and pieces and isinstance(pieces[-1], str):
        pieces[-1] += text
    elif text:
        pieces.append(text)


def read_template(text: str) -> Pieces:
    """The pieces of a text."""
    return Parser(text).pieces()


def has_reference(text: str) -> bool:
    """Whether a text has a reference to a variable or a function."""
    return "${" in text and any(not isinstance(piece, str) for piece in read_template(text))


def spell(pieces: Pieces, inside: bool = False) -> str:
    """The text of pieces; inside an argument a comma has a backslash before it."""
    texts = []
    for piece in pieces:
        if isinstance(piece, str):
            texts.append(piece.replace(",", "\\,") if inside else piece)
        elif isinstance(piece, Var):
            texts.append("${" + piece.name + "}")
        else:
            texts.append("${__" + piece.name + "(" + ",".join(spell(arg, True) for arg in piece.args) + ")}")
    return "".join(texts)


def plain_of(arg: Pieces) -> str | None:
    """The text of an argument without references, or None."""
    return "".join(arg) if all(isinstance(piece, str) for piece in arg) else None


@dataclass
class Carried:
    """A text as it goes into the plan. `faults` is what the engine does not do with it; `refused` is why it would refuse it."""

    text: str
    faults: list[str] = field(default_factory=list)
    refused: str = ""
    calls: list[str] = field(default_factory=list)  # the functions that are called, each as often as it is


ARGUMENTS = {
    "threadNum": (0, 0),
    "counter": (1, 1),
    "Random": (2, 2),
    "intSum": (2, 1 << 30),
    "V": (1, 2),
    "time": (0, 0),
    "P": (1, 2),
    "isVarDefined": (1, 1),
    "jexl3": (1, 1),
}  # the least and the greatest number of arguments
NUMERIC = {"Random": 64, "intSum": 32}  # the bits of their numbers
SAME_VALUE = {
    "jexl",
    "jexl2",
    "javaScript",
    "groovy",
}  # a condition of the engine's grammar has the same value in these
DROPS_EMPTY = {"threadNum", "counter", "Random", "intSum", "time", "isVarDefined", "jexl3"} | SAME_VALUE


def carry(text: str) -> Carried:
    """A text of JMeter as the engine takes it. Where JMeter finds no reference it takes a text as it is, and so does the engine."""
    if "${" not in text:
        return Carried(text)
    pieces = read_template(text)
    carried = Carried("")
    walk(pieces, carried)
    carried.text = spell(pieces)
    return carried


def walk(pieces: Pieces, carried: Carried, inside: bool = False) -> None:
    """Changes the pieces to what means the same for the engine, and notes what does not."""
    references = any(not isinstance(piece, str) for piece in pieces)
    for place, piece in enumerate(pieces):
        if isinstance(piece, Call):
            for arg in piece.args:
                walk(arg, carried, inside=True)
            pieces[place] = called(piece, carried)
        elif isinstance(piece, Var):
            check_variable(piece, carried)
        else:
            follows = place + 1 < len(pieces)
            pieces[place] = plain(piece, references, follows, inside, carried)


def plain(text: str, references: bool, follows: bool, inside: bool, carried: Carried) -> str:
    """Plain text. JMeter takes a backslash away before `$`, a comma and a backslash, where the text has a reference at all."""
    if references and follows and (len(text) - len(text.rstrip("\\"))) % 2:
        carried.faults.append(
            f"the backslash in {shown(text[-20:])} keeps JMeter from reading what follows as a reference, and not the engine"
        )
    elif "${" in text:
        carried.faults.append(f"{shown(text[text.find('${'):])} is not a reference here: it stays as it is written")
    if inside and re.search(r"\\[\\$]", text):
        carried.faults.append(f"a backslash in {shown(text)} stays: JMeter takes it away before `$` and a backslash")
    elif references and not inside:
        return re.sub(r"\\([\\,$])", r"\1", text)
    return text


def check_variable(piece: Var, carried: Carried) -> None:
    """A variable whose name is that of a function is a call without arguments."""
    name = piece.name.removeprefix("__")
    if name == piece.name or name.startswith("jm__"):
        return
    carried.calls.append(name)
    if name not in ARGUMENTS:
        carried.faults.append(f"the function __{name} at {piece.at} is not known: it stays as it is written")
    elif ARGUMENTS[name][0] > 0:
        carried.faults.append(f"the function __{name} at {piece.at} has no arguments: it stays as it is written")


def called(call: Call, carried: Carried) -> Call:
    """A call, changed to one that the engine knows where that means the same."""
    at, written = call.at, call.name
    if call.name in DROPS_EMPTY:
        while len(call.args) > ARGUMENTS.get(call.name, (1, 1))[0] and not call.args[-1]:
            call.args.pop()
    if call.name == "property":
        call = as_p(call)
    carried.calls.append(call.name)
    if call.name in NUMERIC or call.name == "counter":
        for arg in call.args:
            trim(arg)
    if call.name in SAME_VALUE and len(call.args) == 1 and condition_fault(call.args[0]) is None:
        call.name = "jexl3"
    if call.name not in ARGUMENTS:
        carried.faults.append(f"the function __{written} at {at} is not known: it stays as it is written")
        return call
    least, most = ARGUMENTS[call.name]
    if not least <= len(call.args) <= most:
        carried.faults.append(
            f"the function __{written} at {at} has {len(call.args)} arguments, and the engine knows it with "
            f"{least if least == most else f'{least} or more'}: it stays as it is written"
        )
        return call
    check_values(call, carried)
    return call


def as_p(call: Call) -> Call:
    """`__property(name,,default)` is `__P(name,default)`, and without a default it is the name."""
    args = call.args
    if len(args) == 1:
        return Call("P", [args[0], list(args[0])], call.at)
    if len(args) == 3 and not args[1]:
        return Call("P", [args[0], args[2]], call.at)
    return call


def trim(arg: Pieces) -> None:
    """Takes the spaces at both ends of an argument away, as JMeter does where it reads a number."""
    if arg and isinstance(arg[0], str):
        arg[0] = arg[0].lstrip()
    if arg and isinstance(arg[-1], str):
        arg[-1] = arg[-1].rstrip()
    arg[:] = [piece for piece in arg if piece != ""]


def check_values(call: Call, carried: Carried) -> None:
    """Notes plain arguments that are not of the form that the function asks for."""
    plains = [plain_of(arg) for arg in call.args]
    where = f"the function __{call.name} at {call.at}"
    if call.name == "jexl3":
        fault = condition_fault(call.args[0])
        if fault and len(call.args[0]) == 1 and plains[0] is not None:
            carried.refused = f"the condition of {where} can't be read: {fault}"
        elif fault:
            carried.faults.append(f"{where} gives no text: {fault}")
    elif call.name == "counter" and plains[0] is not None and plains[0] not in ("TRUE", "true"):
        if plains[0].lower() == "true":
            call.args = [["TRUE"]]
        else:
            carried.faults.append(
                f"{where} counts for all threads together in JMeter, which the engine does not know: it stays as it is written"
            )
    elif call.name in NUMERIC:
        numbers = [int(text) if text is not None and NUMBER.fullmatch(text) else None for text in plains]
        bound = 1 << NUMERIC[call.name] - 1
        bad = any(
            text is not None and (number is None or not -bound <= number < bound)
            for text, number in zip(plains, numbers)
        )
        if bad or (call.name == "Random" and None not in numbers and numbers[0] > numbers[1]):
            carried.faults.append(f"{where} has arguments that it doesn't take: it stays as it is written")
