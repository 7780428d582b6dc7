"""Tools that build test histories: boards' superiors, calls of an engine with what they are to be answered, and
cases."""

from typing import NamedTuple, Optional

import fuldrik
from bankmaking import Call
from bankmaking import script as bank_script
from bankparts import SHAPES
from engine import RefusedByBank
from fuldrik import Refused

# --- Calls ------------------------------------------------------------------

NAMES = {"o": "open", "s": "step", "a": "alarm", "c": "close", "p": "put", "l": "look"}
LETTERS = {name: letter for letter, name in NAMES.items()}
WITHOUT_DEVICE = "osc"


def any_open():
    return Call("o")


def any_step():
    return Call("s")


def any_close():
    return Call("c")


def any_alarm(device):
    return Call("a", device)


def told_in(words):
    """A call of a script, and what is to be answered, by its words."""
    letter = LETTERS[words[0]]
    if letter in WITHOUT_DEVICE:
        return Call(letter, intent=" ".join(words[1:]))
    device, told = int(words[1]), words[2:]
    if letter == "p":
        return Call("p", device, int(told[0], 16), intent="")
    if letter == "l" and told:
        return Call("l", device, intent="%d %d %d" % (int(told[0]), int(told[1], 16), int(told[2])))
    return Call(letter, device, intent=" ".join(told) or None)


def refused_with(call, told):
    """The call with the intent that `!22` or, of the bank at k = 3, `!12@3` stands for."""
    number, _, k = told[1:].partition("@")
    if k:
        return call._replace(intent="! 1 %s %d at %s" % (number, call.device, k))
    return call._replace(intent="! 2 %s 0" % number)


def script(text):
    """Calls with commas between them, and what is to be answered.

    `open`, `step 1`, `alarm 2 0`, `close 1 110 1 2 4`, `put 1 AB00` and `look 1 2 AB00 5` say the whole answer, and
    `look 1` leaves it open. Words are hexadecimal. Behind a call `!22` says that the engine is to refuse it, `!12@3`
    that the bank is, with k = 3, and `x3` that it comes three times. Empty parts are left out.
    """
    calls = []
    for part in filter(None, map(str.strip, text.split(","))):
        words = part.split()
        times = int(words.pop()[1:]) if words[-1].startswith("x") else 1
        told = words.pop() if words[-1].startswith("!") else None
        call = told_in(words)
        calls += [call if told is None else refused_with(call, told)] * times
    return calls


# --- Answers ----------------------------------------------------------------

def refusal_line(refusal):
    return "%s at %d" % (refusal.line(), refusal.k) if isinstance(refusal, RefusedByBank) else refusal.line()


def obeyed(engine, call):
    """What is told of a call that is not refused, behind its name and device."""
    if call.letter == "o":
        engine.open()
        return ""
    if call.letter == "p":
        engine.put(call.device, call.word)
        return ""
    if call.letter == "s":
        return "%d" % engine.step()
    if call.letter == "a":
        return "%d" % engine.alarm(call.device)
    return " ".join(map(str, engine.close() if call.letter == "c" else engine.look(call.device)))


def told(engine, call):
    """What is told of one call, behind its name and device."""
    try:
        return obeyed(engine, call)
    except Refused as refusal:
        return refusal_line(refusal)


# --- Cases ------------------------------------------------------------------

class Board(NamedTuple):
    """How many devices there are, and pairs of a superior and a dependent."""
    n: int
    pairs: tuple = ()

    def superiors(self):
        """The superiors of each device, by rising number."""
        links = [(dependent, superior) for superior, dependent in self.pairs]
        return [fuldrik.superiors_of(device, [None] * self.n, links) for device in range(self.n)]

    def order(self):
        return fuldrik.order_or_refusal(self.n, self.superiors())

    def data(self):
        return bytes([self.n]) + len(self.pairs).to_bytes(2, "little") + b"".join(map(bytes, self.pairs))


def chain(*row):
    """Each device of the row is the superior of the next."""
    return Board(len(row), tuple(zip(row, row[1:])))


class Case(NamedTuple):
    note: str
    part: object
    board: Board
    calls: list
    before: tuple = ()              # calls of the bank, beforehand
    made: Optional[str] = ""        # the line of the refused making, or nothing where it is to succeed; None: left open
    ends: Optional[str] = None      # the stage after the calls, or None where left open

    @property
    def shape(self):
        return SHAPES.index(self.part.form)


def case(note, part, board, text, ends=None, before=""):
    return Case(note, part, board, script(text), tuple(bank_script(before)) if before else (), ends=ends)


def not_made(note, number, part, board, before=""):
    """A case whose making is to be refused, by the bank (27) or by the engine. Its calls are never made."""
    line = "! %d %d 0" % (1 if number == 27 else 2, number)
    calls = "open, step 1, alarm 0 1, put 0 5, look 0, close 2 16 0 1 1"
    return case(note, part, board, calls, before=before)._replace(made=line)
