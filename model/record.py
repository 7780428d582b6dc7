"""What the calls of a history tell, by "What holds after every call" at the end of docs/RULES.md.

A record looks at no engine. It knows the order, the calls, and what the bank showed before each of them. The checks hold
the engine's model to it (selfcheck_engine.py)."""

from typing import NamedTuple

from banks import Pair
from engine import (ALARM, ASLEEP, AWAKE, CANCELLED, COMING_UP, DOWN, EBUSY, FAULT, GOING_DOWN, HINDERED, LANDED, LOWERED,
                    NONE, RAISED, SLEPT, TURNED, UP, Entry, Outcome)


class Seen(NamedTuple):
    """What the bank shows at a moment, of each device."""
    levels: list
    words: list               # of each its whole pile
    hindrances: list

    def k(self):
        return sum(self.levels)


def pile_of(bank, device):
    """The pile that this device has in the model, its top last."""
    if isinstance(bank, Pair):
        left = bank.left.count()
        return pile_of(bank.left, device) if device < left else pile_of(bank.right, device - left)
    return pile_of(bank.below, device) if hasattr(bank, "below") else bank.piles[device]


def seen(bank):
    devices = range(bank.count())
    looks = [bank.look(device) for device in devices]
    return Seen([level for level, _, _ in looks], [tuple(pile_of(bank, device)) for device in devices],
                [hindrance for _, _, hindrance in looks])


class Record:
    """`tell` takes a call, and what the bank showed before it, and tells the call's answer."""

    def __init__(self, order):
        self.order = list(order)
        self.n = len(order)
        self.lowerings = [(device, 1) for device in order]
        self.lowerings += [(device, phase) for phase in (2, 3, 4) for device in reversed(order)]
        self.attempt = False      # whether one runs
        self.first_alarm = None   # the kept alarm of the attempt
        self.end = None           # how its descent ended: an outcome
        self.entries = []         # that the calls of the attempt tell
        self.held = {}            # the words at each k, as they were when the attempt's levels first added up to it

    def going_down(self):
        return self.attempt and self.end is None

    def asleep(self):
        return self.attempt and self.end is not None and self.end.kind == SLEPT and self.first_alarm is None

    def stage(self, seen):
        if not self.attempt:
            return AWAKE
        if self.going_down():
            return GOING_DOWN
        if self.asleep():
            return ASLEEP
        return COMING_UP if seen.k() > 0 else LANDED

    def refusal(self, call, seen):
        """The line of the refusal that a call meets, or None."""
        if call.letter in "apl" and call.device >= self.n:
            return "! 1 12 %d at %d" % (call.device, seen.k())
        if call.letter in "op" and self.attempt:
            return "! 2 22 0"
        if call.letter in "sac" and not self.attempt:
            return "! 2 23 0"
        landed = not self.going_down() and seen.k() == 0
        return "! 2 24 0" if call.letter == "s" and (self.asleep() or landed) else None

    def tell(self, call, seen):
        refusal = self.refusal(call, seen)
        if refusal is not None:
            return refusal
        if call.letter == "o":
            self.attempt, self.first_alarm, self.end, self.entries, self.held = True, None, None, [], {}
            return ""
        if call.letter == "s":
            return "%d" % (self.tell_descent if self.going_down() else self.tell_way_back)(seen)
        if call.letter == "a":
            return "%d" % self.tell_alarm(call.device)
        if call.letter == "c":
            return "%d %d %d %d %d" % self.tell_close(seen)
        if call.letter == "l":
            device = call.device
            return "%d %d %d" % (seen.levels[device], seen.words[device][-1], seen.hindrances[device])
        return ""

    def tell_descent(self, seen):
        k = seen.k()
        device, phase = self.lowerings[k]
        if self.first_alarm is not None:
            self.end = Outcome(ALARM, EBUSY, self.first_alarm, phase, k)
            return TURNED
        hindrance = seen.hindrances[device]
        self.entries.append(Entry(device, phase, DOWN, -hindrance))
        if hindrance > 0:
            self.end = Outcome(FAULT, hindrance, device, phase, k)
            return HINDERED
        if k + 1 == len(self.lowerings):
            self.end = Outcome(SLEPT, 0, NONE, 0, len(self.lowerings))
        return LOWERED

    def tell_way_back(self, seen):
        self.entries.append(Entry(*self.lowerings[seen.k() - 1], UP, 0))
        return RAISED

    def tell_alarm(self, device):
        if self.first_alarm is not None or self.end is not None and self.end.kind != SLEPT:
            return 0
        self.first_alarm = device
        return 1

    def tell_close(self, seen):
        k = seen.k()
        if self.end is None and self.first_alarm is None:
            self.end = Outcome(CANCELLED, 0, NONE, self.lowerings[k][1], k)
        elif self.end is None:
            self.end = Outcome(ALARM, EBUSY, self.first_alarm, self.lowerings[k][1], k)
        elif self.end.kind == SLEPT and self.first_alarm is not None:
            self.end = self.end._replace(device=self.first_alarm)
        self.entries += [Entry(device, phase, UP, 0) for device, phase in reversed(self.lowerings[:k])]
        self.attempt = False
        return self.end

    def hold(self, seen):
        """Comes after each call: keeps the words where the levels, going down, have first added up to k."""
        if self.going_down() or self.asleep():
            self.held.setdefault(seen.k(), seen.words)
