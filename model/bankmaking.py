"""Tools that build test calls of the banks of bankparts.py: calls with what they are to be answered, and cases."""

from typing import NamedTuple, Optional

from bankparts import SHAPES, bytes_of


# --- Calls ------------------------------------------------------------------

NAMES = {"c": "count", "l": "look", "p": "put", "d": "lower", "u": "raise"}


class Call(NamedTuple):
    letter: str
    device: int = 0
    word: int = 0
    intent: Optional[str] = None    # what is to come behind name and device, or None where left open

    def data(self):
        return self.letter.encode("ascii") + bytes([self.device]) + bytes_of([self.word])


def count(intent=None):
    return Call("c", intent=None if intent is None else "%d" % intent)


def look(device, *intent):
    """With level, word and hindrance, or with nothing where they are left open."""
    return Call("l", device, intent="%d %d %d" % intent if intent else None)


def put(device, word):
    return Call("p", device, word, intent="")


def lower(device, code=0):
    return Call("d", device, intent="%d" % code)


def raise_(device):
    return Call("u", device, intent="0")


def refused(number, call):
    return call._replace(intent="! 1 %d %d" % (number, call.device))


def any_way(call):
    return call._replace(intent=None)


def looks(devices):
    return [look(device) for device in devices]


def told_in(name, device, told):
    """A call of a script, by its name, its device and what stands behind it."""
    if name == "put":
        return put(device, int(told[0], 16))
    if name == "raise":
        return raise_(device)
    if name == "lower":
        return lower(device, *map(int, told))
    return look(device, int(told[0]), int(told[1], 16), int(told[2])) if told else look(device)


def script(text):
    """Calls with commas between them, and what is to be answered.

    `put 1 AB00` is to be taken, `lower 1` and `raise 1` are to have the code 0, and `lower 1 -5` another.
    `look 1 2 AB00 5` is to tell level, word and hindrance; `look 1` leaves them open. Words are hexadecimal. Behind a
    call `!26` says that it is to be refused, and `x3` that it comes three times.
    """
    calls = []
    for part in text.split(","):
        name, device, *told = part.split()
        times = int(told.pop()[1:]) if told and told[-1].startswith("x") else 1
        number = int(told.pop()[1:]) if told and told[-1].startswith("!") else None
        call = told_in(name, int(device), told)
        calls += [call if number is None else refused(number, call)] * times
    return calls


# --- Cases ------------------------------------------------------------------

class Case(NamedTuple):
    note: str
    part: object
    calls: list
    made: Optional[bool] = True     # whether the making is to succeed, or None where left open

    @property
    def shape(self):
        return SHAPES.index(self.part.form)


def case(note, part, *calls):
    """A case of scripts and lists of calls, one after another."""
    return Case(note, part, [call for some in calls for call in (script(some) if isinstance(some, str) else some)])


def not_made(note, part):
    """A case whose making is to be refused. Its calls are never made."""
    return Case(note, part, [count(), look(0), any_way(put(0, 1)), any_way(lower(0)), any_way(raise_(0))], made=False)
